"""What build/side_by_side.py reads of the machine, and how it tells things."""

import os

import pytest
import side_by_side


@pytest.fixture
def group(tmp_path, monkeypatch):
    """The folder of a container's limits."""
    monkeypatch.setattr(side_by_side, "GROUP", tmp_path)
    return tmp_path


def test_without_limits_the_machine_counts(group):
    assert side_by_side.processors() == len(os.sched_getaffinity(0))
    (group / "cpu.max").write_text("max 100000\n")
    assert side_by_side.processors() == len(os.sched_getaffinity(0))
    assert side_by_side.free_memory() > 0


def test_a_container_has_fewer_processors(group):
    (group / "cpu.max").write_text("100000 100000\n")
    assert side_by_side.processors() == 1
    (group / "cpu.max").write_text("50000 100000\n")
    assert side_by_side.processors() == 1


def test_a_container_has_less_memory(group):
    (group / "memory.max").write_text("5000000\n")
    (group / "memory.stat").write_text("anon 2000000\nfile 9000000\n")
    assert side_by_side.free_memory() == 3000000


@pytest.mark.parametrize(("seconds", "told"), [(0, "0 s"), (89, "89 s"), (90, "2 min"), (1695, "28 min")])
def test_duration(seconds, told):
    assert side_by_side.duration(seconds) == told


@pytest.mark.parametrize(
    ("names", "told"),
    [([], "none"), (["crew"], "crew"), (["crew", "census"], "crew and census"), (["a", "b", "c"], "a, b and c")],
)
def test_listed(names, told):
    assert side_by_side.listed(names) == told
