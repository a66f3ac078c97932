"""Schedules of events: what a schedule may say, what each event does, and runs of the program."""
import csv
import hashlib
import io
import json
import random

import pytest

from studies import events, files, invade, program, relay, soup
from studies.refusal import Refused

from .conftest import DATA, TOP

MIXED = DATA / "mixed.toml"
LISTING = TOP / "examples/0080aaa.listing"
PUT = f'put = "{LISTING}"'


def written(tmp_path, *tables, quanta=600, soup_file=MIXED, more=""):
    """A schedule with these events, each as the lines of its table."""
    path = tmp_path / "schedule.toml"
    lines = [f'soup = "{soup_file}"\nquanta = {quanta}\n{more}', *(f"[[event]]\n{table}\n" for table in tables)]
    path.write_text("\n".join(lines))
    return path


def shape_of(schedule):
    """The begin, the quanta and the number of events of each leg."""
    return [(leg.begins, leg.quanta, len(leg.events)) for leg in events.legs_of(schedule)]


def test_legs(tmp_path):
    """Events of one quantum begin one leg."""
    tables = ["at = 100\nkill = 0.5", "at = 100\nset = { copy_rate = 9 }", f"at = 250\n{PUT}\nplaces = [3, 90]"]
    schedule = events.schedule_in(written(tmp_path, *tables, more="draw = 4"))
    assert shape_of(schedule) == [(0, 100, 0), (100, 150, 2), (250, 350, 1)]
    assert schedule.draw == 4 and schedule.text == MIXED.read_text()
    first, second, third = schedule.events
    assert (first.share, second.settings, third.places, third.number) == (0.5, {"copy_rate": 9}, [3, 90], 2)
    assert third.genotype == ("0080aaa", soup.code_of_listing(LISTING.read_text()))


LIVING = [(10, b"\x01" * 4, None), (0, b"\x02" * 5, None), (30, b"\x03" * 10, None), (16, b"\x04" * 2, None)]
CODE = ("0003aaa", b"\x05" * 3)


def test_the_dead_are_drawn():
    """Half of four die, three quarters of four die, and a third of four is one; the others keep places and turns."""
    for share, dead in ((0.5, 2), (0.75, 3), (0.34, 1), (0.2, 0)):
        left, done = events.after(events.Event(1, share=share), LIVING, 50, random.Random(3))
        assert len(left) == 4 - dead and done == f"killed {dead} of 4"
        assert left == [one for one in LIVING if one in left]
    drawn = {tuple(events.after(events.Event(1, share=0.5), LIVING, 50, random.Random(k))[0]) for k in range(99)}
    assert len(drawn) == 6


def test_who_is_put_in():
    """At places, or in the free cells 5 to 9, 18 to 29 and 40 to 49, behind all others."""
    left, done = events.after(events.Event(1, genotype=CODE, number=2, places=[20, 5]), LIVING, 50, random.Random(3))
    assert left == [*LIVING, (20, CODE[1], None), (5, CODE[1], None)] and done == "put 2 of 0003aaa at 20 5"
    left, done = events.after(events.Event(1, genotype=CODE, number=8), LIVING, 50, random.Random(3))
    assert left[:4] == LIVING and sorted(at for at, _, _ in left[4:]) == [5, 18, 21, 24, 27, 40, 43, 46]
    with pytest.raises(Refused, match="there is room for 8 invaders"):
        events.after(events.Event(1, genotype=CODE, number=9), LIVING, 50, random.Random(3))
    with pytest.raises(Refused, match="overlap"):
        events.after(events.Event(1, genotype=CODE, number=1, places=[8]), LIVING, 50, random.Random(3))


@pytest.mark.parametrize(
    "tables, line",
    [
        (["at = 300\nkill = 0.5", "at = 200\nkill = 0.5"], "event 2: quantum 200 is before that of the event above it"),
        (["at = 600\nkill = 0.5"], "event 1: quantum 600 is not before the end of 600 quanta"),
        (["at = 0\nkill = 0.5"], "event 1: at is a number from 1 on"),
        (["kill = 0.5"], "event 1: at is missing"),
        (["at = 5\nkil = 0.5"], "event 1: one of set, kill and put was expected"),
        (["at = 5\nkill = 0.5\nset = { copy_rate = 1 }"], "event 1: one of set, kill and put was expected"),
        (["at = 5\nkill = 0.5\nnumber = 3"], "event 1: unknown key number"),
        (["at = 5\nkill = 1.0"], "event 1: kill is a share between 0 and 1"),
        (["at = 5\nset = { copyrate = 1 }"], "event 1: unknown key copyrate"),
        (["at = 5\nset = { seed = '0' }"], "event 1: unknown key seed"),
        (["at = 5\nset = { copy_rate = 'a' }"], "event 1: the soup file has a value of another kind"),
        (["at = 5\nset = 3"], "event 1: set is a table of settings"),
        ([f"at = 5\n{PUT}"], "event 1: put goes with one of number and places"),
        ([f"at = 5\n{PUT}\nplaces = []"], "event 1: places are a list of cells"),
        ([f"at = 5\n{PUT}\nplaces = [3, -1]"], "event 1: places is a number from 0 on"),
        ([f"at = 5\n{PUT}\nnumber = 0"], "event 1: number is a number from 1 on"),
        (["at = 5\nput = 3\nnumber = 1"], "event 1: put is a text"),
        ([f'at = 5\nput = "{DATA}/mixed.hold:0044zzz"\nnumber = 1'], "event 1: "),
        (['at = 5\nput = "none.listing"\nnumber = 1'], "No such file"),
    ],
)
def test_schedules_that_are_refused(refused, stand_in, tmp_path, tables, line):
    said = refused("events", written(tmp_path, *tables), "--into", tmp_path / "out")
    assert line in said and "schedule.toml: " in said and not (tmp_path / "out").exists()


@pytest.mark.parametrize(
    "text, line",
    [
        ("quanta = 5", "soup is the name of a soup file"),
        (f'soup = "{MIXED}"', "quanta is missing"),
        (f'soup = "{MIXED}"\nquanta = 5\nevents = 3', "unknown key events"),
        (f'soup = "{MIXED}"\nquanta = 5\nevent = 3', "events are tables, [[event]]"),
        (f'soup = "{MIXED}"\nquanta = 5\ndraw = true', "draw is a number from 0 on"),
        (f'soup = "{MIXED}"\nquanta = 4000001', "the leg from 0 on has 4,000,001 quanta, and at most 4,000,000 may be"),
        ('soup = "none.toml"\nquanta = 5', "No such file"),
        ("quanta =", "is not TOML"),
    ],
)
def test_heads_that_are_refused(refused, stand_in, tmp_path, text, line):
    (tmp_path / "schedule.toml").write_text(text)
    assert line in refused("events", tmp_path / "schedule.toml", "--into", tmp_path / "out")


def rows(text):
    return list(csv.DictReader(io.StringIO(text)))


def test_without_an_event_it_is_the_plain_run(told, built, tmp_path):
    """The soup file is the same text, and so are the dump and the checkpoint."""
    table = rows(told("events", written(tmp_path), "--into", tmp_path / "out"))
    text = (tmp_path / "out/leg1/soup.toml").read_text()
    dump = ["dump", "--quanta", 600]
    assert program.run(built, dump, text, tmp_path) == program.run(built, dump, MIXED.read_text(), tmp_path)
    program.run(built, ["hold", "--quanta", 600, "--every", 600], MIXED.read_text(), tmp_path)
    assert (tmp_path / "out/leg1/tierra.hold").read_bytes() == (tmp_path / "tierra.hold").read_bytes()
    assert [(row["leg"], row["begins"], row["quanta"], row["done"]) for row in table] == [("1", "0", "600", "")]


def test_a_run_with_events(told, refused, built, tmp_path):
    """The legs are those that relay would make, with what the events do. notes.json has their digests."""
    tables = ["at = 200\nset = { copy_rate = 50 }", "at = 400\nkill = 0.5", f"at = 400\n{PUT}\nnumber = 1"]
    words = ["events", written(tmp_path, *tables, more="draw = 6"), "--into", tmp_path / "out"]
    said, document = told(*words), soup.read(MIXED)
    worlds = [files.read_hold(tmp_path / f"out/leg{leg}/tierra.hold")[-1] for leg in (1, 2, 3)]
    texts = [(tmp_path / f"out/leg{leg}/soup.toml").read_text() for leg in (1, 2, 3)]
    seed = soup.settings(document)["seed"]
    faster = soup.with_settings(document, {"copy_rate": 50})
    assert soup.plain(texts[1]) == soup.plain(relay.next_text(faster, seed, 2, worlds[0]))
    third, lived = soup.plain(texts[2]), [(at, code) for at, code, _ in invade.residents(worlds[1])]
    assert third["copy_rate"] == 50 and third["seed"] == relay.seed_of(seed, 3)
    dead = len(lived) // 2
    *left, settler = soup.creatures(third)
    assert left == [one for one in lived if one in left] and len(left) == len(lived) - dead
    assert settler[1] == soup.code_of_listing(LISTING.read_text())
    done = ["", "copy_rate = 50", f"killed {dead} of {len(lived)}; put 1 of 0080aaa at {settler[0]}"]
    assert [row["done"] for row in rows(said)] == done
    assert [row["living"] for row in rows(said)] == [str(len(world.records)) for world in worlds]
    notes = json.loads((tmp_path / "out/notes.json").read_text())
    assert notes["schedule"]["event"][1] == {"at": 400, "kill": 0.5} and notes["program"] == program.digest(built)
    for leg, text in zip(notes["legs"], texts):
        assert leg["setup"] == soup.digest(soup.plain(text)).hex()
        for name, digest in leg["files"].items():
            assert digest == hashlib.sha256((tmp_path / "out" / leg["folder"] / name).read_bytes()).hexdigest()
    assert [sorted(leg["files"]) for leg in notes["legs"]] == [["hold.txt", "soup.toml", "tierra.hold"]] * 3


def test_a_second_call(told, refused, built, tmp_path):
    """It runs nothing that is there, and refuses a folder with other legs."""
    table = "at = 200\nset = { copy_rate = 50 }"
    words = ["events", written(tmp_path, table, "at = 400\nkill = 0.5"), "--into", tmp_path / "out"]
    said, last = told(*words), tmp_path / "out/leg3/tierra.hold"
    before = last.stat().st_mtime_ns
    assert told(*words) == said and last.stat().st_mtime_ns == before
    written(tmp_path, table, "at = 400\nkill = 0.25")
    assert "leg3 has another soup file: take another folder" in refused(*words)
    written(tmp_path, f"at = 200\n{PUT}\nplaces = [0]")
    assert "leg 2 cannot begin: the creatures at 0 and" in refused(*words)


def test_another_program_is_refused(refused, stand_in, tmp_path):
    known = {"setup": soup.digest(soup.read(MIXED)).hex(), "words": "events", "program": "00"}
    (tmp_path / "out").mkdir()
    (tmp_path / "out/notes.json").write_text(json.dumps(known))
    assert "has a run of another program" in refused("events", written(tmp_path), "--into", tmp_path / "out")


def test_the_example():
    schedule = events.schedule_in(TOP / "examples/events.toml")
    assert shape_of(schedule) == [(0, 20000, 0), (20000, 20000, 1), (40000, 20000, 2)]
