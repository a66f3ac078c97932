"""Evolutionary activity, its shadows and the MODES statistics: a small history worked by hand, and a run."""
import csv
import io
import math
import random
import types

import pytest

from studies import abundance, activity, alone, diversity, files, program
from studies.refusal import Refused

from .conftest import DATA, TOP

HOLD = DATA / "mixed.hold"
WORLDS = files.read_hold(HOLD)

# Genotype 0 is the founder, 1 is its daughter, 2 and 3 are those of 1, and 4 is that of 0.
BORN = [(None, 0), (0, 10), (1, 15), (1, 25), (0, 34)]
GENOTYPES = [{"genotype": one, "parent": parent, "first_quantum": time} for one, (parent, time) in enumerate(BORN)]
TIMES = [10, 20, 30, 40]
LIVING = [{0: 2, 1: 1}, {0: 1, 1: 2, 2: 1}, {1: 2, 3: 2}, {3: 3, 4: 1}]


def test_activity_by_hand():
    """Activities: 0 has 2 3, 1 has 1 3 5, 2 has 1, 3 has 2 5, and 4 has 1."""
    grown = activity.activities(LIVING, "living")
    assert grown == [{0: 2, 1: 1}, {0: 3, 1: 3, 2: 1}, {1: 5, 3: 2}, {3: 5, 4: 1}]
    assert activity.activities(LIVING, "presence") == [{0: 1, 1: 1}, {0: 2, 1: 2, 2: 1}, {1: 3, 3: 1}, {3: 2, 4: 1}]
    table = activity.measured(grown, 2)
    assert table.diversity.tolist() == [2, 3, 2, 2] and table.activity.tolist() == [3, 7, 7, 6]
    assert table.mean_activity.tolist() == [1.5, 7 / 3, 3.5, 3]
    assert table.new.tolist() == [0, 2, 0, 1] and table.new_activity.tolist() == [0, 2 / 3, 0, 0.5]


def test_the_threshold():
    """Two shadows whose genotypes end with 2 and 3, and with 1, 3 and 9: of five, the third is the median."""
    shadows = [[{0: 1, 1: 2}, {0: 2, 1: 3}], [{0: 3}, {2: 1, 1: 3}, {1: 9}]]
    found = [activity.threshold_of(shadows, percentile) for percentile in (0, 20, 50, 60, 61, 80, 100)]
    assert found == [1, 1, 3, 3, 3, 3, 9]


def test_the_columns_of_shadows():
    """One shadow keeps the founder's genotype, and in the other one a daughter's takes over."""
    shadows = [[{0: 3}, {0: 4}], [{0: 1, 1: 1}, {1: 2}]]
    table = activity.activity(LIVING[:2], shadows, 100, "living")
    assert table.shadow_diversity.tolist() == [1.5, 1]
    assert table.shadow_mean_activity.tolist() == [(3 + 1) / 2, (7 + 3) / 2]
    assert table.shadow_least.tolist() == [1, 3] and table.shadow_most.tolist() == [3, 7]
    assert table.excess.tolist() == [1.5 - 2, 7 / 3 - 5]
    assert set(table.threshold) == {7} and set(table.percentile) == {100}
    assert table.new.tolist() == [0, 0] and table.shadow_new_activity.tolist() == [0, 0]
    low = activity.activity(LIVING[:2], shadows, 30, "living")
    assert set(low.threshold) == {1} and low.new.tolist() == [1, 1]
    assert low.shadow_new.tolist() == [0.5, 0.5] and low.shadow_new_activity.tolist() == [0.5, 0.5]


class Drawn:
    """Draws these places, in turn, and remembers from how many."""

    def __init__(self, places):
        self.places, self.numbers = list(places), []

    def randrange(self, number):
        self.numbers.append(number)
        return self.places.pop(0)


def test_a_shadow_by_hand():
    """A daughter of the second founder, a new genotype, and a daughter of that; then three that are drawn die."""
    draw = Drawn([1, 0, 3, 0, 0, 1])
    assert activity.shadow([0, 0], ["bnb", "d", "dd"], draw) == [{0: 3, 1: 2}, {1: 2, 0: 2}, {1: 1, 0: 1}]
    assert draw.numbers == [2, 3, 4, 5, 4, 3]


def test_shadows_have_the_runs_numbers():
    """Whatever is drawn, as many live as in the run. A genotype without another birth lives at most once."""
    founders, stretches = [0, 0, 1], ["bbn", "dnd", "", "ddbn"]
    shadows = activity.shadows_of(founders, stretches, 25, 3)
    assert len({str(counted) for counted in shadows}) > 5
    for counted in shadows:
        assert [sum(living.values()) for living in counted] == [6, 5, 5, 5]
        assert {0, 1, 2, 3, 4} >= set().union(*counted)
    assert activity.shadows_of(founders, stretches, 5, 3) == activity.shadows_of(founders, stretches, 7, 3)[:5]
    assert activity.shadows_of(founders, stretches, 25, 3) != activity.shadows_of(founders, stretches, 25, 4)


def test_a_shadow_is_neutral():
    """Of two founders of different genotypes each has as many daughters, over many shadows."""
    ends = [activity.shadow([0, 1], ["b" * 8 + "d" * 5], random.Random(k))[-1] for k in range(4000)]
    assert sum(living.get(0, 0) for living in ends) / 4000 == pytest.approx(2.5, abs=0.1)


def test_what_persists_by_hand():
    """Two checkpoints after 10 live 1 and 3, of the line of 1, which was born in quantum 10.

    Two checkpoints after 20 live 3 and 4, of the lines of 1 and 0."""
    kept = activity.persistent(LIVING, TIMES, GENOTYPES, 2)
    assert kept == [{1: 1}, {0: 1, 1: 2}]
    assert activity.persistent(LIVING, TIMES, GENOTYPES, 1) == [{0: 2, 1: 1}, {1: 2}, {3: 2}]
    assert activity.persistent(LIVING, TIMES, GENOTYPES, 4) == []


def test_modes_by_hand():
    table = activity.modes([{0: 2, 1: 1}, {1: 2}, {1: 1, 2: 1}, {0: 1, 2: 1, 3: 2}], {0: 30, 1: None, 2: 41})
    assert table.persistent.tolist() == [2, 1, 2, 3] and table.change.tolist() == [2, 0, 1, 2]
    assert table.novelty.tolist() == [2, 0, 1, 1]
    assert table.complexity.fillna(-1).tolist() == [30, -1, 41, 41]
    entropies = [math.log(3) - 2 / 3 * math.log(2), 0, math.log(2), 1.5 * math.log(2)]
    assert table.ecology.tolist() == pytest.approx(entropies) and activity.modes([], {}).empty
    assert activity.commonest({4: 1, 2: 3, 3: 1}, 2) == [2, 3]


class Bench:
    """A made-up bench: a code with a divide at its end has itself as its daughter, and all else is sterile."""

    def seen(self, codes):
        none = dict.fromkeys(files.EFFORTS)
        return {code: alone.Seen(1, (code,), none) if code[-1] == 31 else alone.Seen(0, (), none) for code in codes}


def test_informative_cells():
    assert activity.informative([b"\x04\x00\x1f", b"\x1f\x04"], Bench()) == {b"\x04\x00\x1f": 1, b"\x1f\x04": None}


def world_of(quanta, births, deaths, founders=1, genotypes=()):
    return types.SimpleNamespace(
        quanta=quanta, births=births, deaths=deaths, next_id=founders + births + 1,
        parts=([{"genotype": 0, "parent": None, "first_quantum": 0, "code": b"\x04"}, *genotypes], []),
    )  # fmt: skip


def test_events_between_checkpoints():
    """A checkpoint has what came in its own quantum. In a quantum births come before deaths, and a new genotype first."""
    new = [{"genotype": 1, "parent": 0, "first_quantum": 10}, {"genotype": 2, "parent": 0, "first_quantum": 12}]
    worlds = [world_of(10, 3, 0, genotypes=new[:1]), world_of(20, 4, 2, genotypes=new)]
    births, deaths = [(3, 2), (10, 3), (10, 4), (12, 5), (30, 6)], [(12, 1), (20, 3)]
    assert activity.stretches_of(births, deaths, worlds) == ["bnb", "ndd"]
    with pytest.raises(Refused, match="has 3 births and 0 deaths until quantum 10, and not 2 and 0"):
        activity.stretches_of(births, deaths, [world_of(10, 2, 0, genotypes=new)])
    with pytest.raises(Refused, match="lacks births of new genotypes"):
        activity.stretches_of([(3, 2), (9, 3), (9, 4)], [], worlds[:1])


def test_founders():
    assert activity.founders_of([world_of(10, 3, 0, founders=4)], None, "tierra.hold") == [0] * 4
    other = [{"genotype": 1, "parent": None, "first_quantum": 0, "code": b"\x05"}]
    document = {"creature": [{"at": 0, "code": "zero"}, {"at": 9, "code": "if_cz"}, {"at": 20, "code": "zero"}]}
    assert activity.founders_of([world_of(10, 3, 0, genotypes=other)], document, "tierra.hold") == [0, 1, 0]


@pytest.fixture
def curve(built, tmp_path):
    """The curve of the stored checkpoints."""
    path, text = tmp_path / "curve.txt", (DATA / "mixed.toml").read_text()
    path.write_text(program.run(built, ["curve", "--quanta", 6000, "--every", 400], text, tmp_path))
    return path


def rows(text):
    return list(csv.DictReader(io.StringIO(text)))


def test_activity_of_a_run(told, curve, tmp_path):
    """Diversity is that of `diversity`, the last activities add up `abundance`, and a second call says the same."""
    words = ["activity", HOLD, curve, "--soup", DATA / "mixed.toml", "--shadows", 3, "--filter", 4]
    said = told(*words, "--waves", tmp_path / "waves.csv", "--picture", tmp_path / "out.svg")
    table = rows(said)
    assert [int(row["diversity"]) for row in table] == diversity.diversity(WORLDS).richness.tolist()
    assert [int(row["quantum"]) for row in table] == [world.quanta for world in WORLDS]
    wide = abundance.abundance(WORLDS)
    ends = wide.cumsum().iloc[-1][wide.iloc[-1] > 0]
    assert int(table[-1]["activity"]) == ends.sum()
    assert [row["persistent"] != "" for row in table] == [True] * 11 + [False] * 4
    assert table[0]["novelty"] == table[0]["change"] == table[0]["persistent"]
    waves = {(row["quantum"], row["name"]): int(row["activity"]) for row in rows((tmp_path / "waves.csv").read_text())}
    assert {name: waves["6000", name] for name in ends.index} == ends.to_dict()
    shown = (tmp_path / "out.svg").read_text()
    assert all(word in shown for word in ("new activity", "shadows, mean", "ecology", "0080aaa", "threshold"))
    assert told(*words) == said and told(*words, "--draw", 1) != said


def test_the_shadow_of_one_genotype(told, built, tmp_path):
    """Without mutation no birth is of a new genotype: a shadow is the run, and there is no excess."""
    text = (TOP / "examples/soup.toml").read_text().replace("copy_rate = 1000", "copy_rate = 0")
    text = text.replace("back_rate = 10000", "back_rate = 0")
    (tmp_path / "curve.txt").write_text(program.run(built, ["curve", "--quanta", 2000], text, tmp_path))
    program.run(built, ["hold", "--quanta", 2000, "--every", 500], text, tmp_path)
    table = rows(told("activity", tmp_path / "tierra.hold", tmp_path / "curve.txt", "--shadows", 2))
    assert {row["excess"] for row in table} == {"0.0"} and int(table[-1]["activity"]) > 20
    assert {row["shadow_least"] == row["shadow_most"] == row["mean_activity"] for row in table} == {True}


def test_complexity_by_the_program(told, curve, tmp_path):
    """The ancestor persists and breeds true. It has as many informative cells as `knockout` says it needs."""
    kept = ["--kept", tmp_path / "assays.jsonl"]
    words = ["--soup", DATA / "mixed.toml", "--shadows", 1, "--filter", 14, "--knockout", 2, *kept]
    table = rows(told("activity", HOLD, curve, *words))
    needed = [row["needed"] for row in rows(told("knockout", TOP / "examples/0080aaa.listing", *kept))]
    assert int(table[0]["complexity"]) == needed.count("True") == 65 and table[1]["complexity"] == ""


@pytest.mark.parametrize(
    "words, line",
    [
        (["--shadows", 0], "--shadows and --filter are at least 1"),
        (["--filter", 0], "--shadows and --filter are at least 1"),
        (["--percentile", 101], "--percentile is from 0 to 100"),
        (["--picture", "out.gif"], "ends with neither .svg nor .png"),
        (["--soup", DATA / "small.toml"], "belongs to another setup"),
        ([], "ends before quantum 6000"),
    ],
)
def test_activity_refuses(refused, tmp_path, words, line):
    (tmp_path / "curve.txt").write_text("at 0 living 1 births 0 deaths 0\n")
    assert line in refused("activity", HOLD, tmp_path / "curve.txt", *words)


def test_curves_that_are_refused(refused, curve):
    assert "of 2 genotypes: name its soup file with --soup" in refused("activity", HOLD, curve)
    assert "no curve: it has no line `at ..`" in refused("activity", HOLD, DATA / "mixed_dump.txt")
    lines = curve.read_text().splitlines(keepends=True)
    curve.write_text("".join(lines[1:]))
    assert "the curve is of another run: it " in refused("activity", HOLD, curve)
