"""Landscapes, knockouts, competitions and invasions."""
import csv
import io
import json
import math
import random

import pandas
import pytest

from studies import alone, compete, files, invade, knockout, landscape, mutants, picture, soup
from studies.refusal import Refused

from .conftest import DATA, TOP

HOLD, BANK = DATA / "mixed.hold", DATA / "mixed.bank"
LISTING = TOP / "examples/0080aaa.listing"
ANCESTOR = soup.code_of_listing(LISTING.read_text())
NONE = dict.fromkeys(files.EFFORTS)
CODE = b"\x04\x1f\x00"


class Bench:
    """A made-up bench: a code with a divide breeds true, for 10 instructions and one for each nop; `zero zero ..` breeds blanks, what begins
    with nop_0 breeds CODE, what begins with nop_1 an endless row, and all else is sterile."""

    quanta = 7

    def said(self):
        return "alone"

    def seen(self, codes):
        return {code: self.one(code) for code in codes}

    def one(self, code):
        efforts = NONE | {"first_run": 10 + code.count(0) + code.count(1)}
        if code[:2] == b"\x04\x04":
            return alone.Seen(1, (bytes(12),), efforts)
        if code[0] == 0:
            return alone.Seen(1, (CODE,), efforts)
        if code[0] == 1:
            return alone.Seen(1, (code + b"\x02",), efforts)
        return alone.Seen(1, (code,), efforts) if 31 in code else alone.Seen(0, (), NONE)


def test_all_one_mutants():
    some = mutants.mutants(ANCESTOR, range(32))
    assert len(some) == 2480 == len({one.code for one in some}) and ANCESTOR not in {one.code for one in some}
    for one in random.Random(1).sample(some, 20):
        assert [place for place in range(80) if one.code[place] != ANCESTOR[place]] == [one.place] and one.code[one.place] == one.after


def test_a_landscape():
    table = landscape.landscape(CODE, Bench()).set_index(["place", "after"])
    assert len(table) == 93
    done = {key: table.does[key] for key in ((0, "nop_0"), (0, "nop_1"), (0, "mal"), (1, "zero"), (1, "nop_0"), (1, "mal"), (2, "mal"))}
    assert list(done.values()) == ["fertile", "barren", "true", "blanks", "sterile", "sterile", "true"]
    assert table.cost[2, "mal"] == pytest.approx(10 / 11) and table.cost[0, "nop_0"] == pytest.approx(12 / 11) and math.isnan(table.cost[1, "mal"])
    assert table.is_flip[0, "nop_0"] and not table.is_flip[0, "nop_1"] and table.is_flip[1, "mal"]
    whole = landscape.landscape(CODE, Bench())
    by_place, by_op = landscape.counted(whole, "place"), landscape.counted(whole, "instruction")
    assert by_place.loc[1].tolist() == [0, 0, 0, 1, 30] and by_place.sum(axis=1).tolist() == [31] * 3
    assert by_op.loc["divide"].tolist() == [2, 0, 0, 0, 0] and list(by_op.index) == soup.INSTRUCTIONS
    done, cost = landscape.grids(CODE, whole)
    assert (done == list(mutants.COLOURS).index("itself")).sum() == 3 and (~pandas.isna(cost)).sum() == (whole.does == "true").sum()


def test_a_knockout():
    table = knockout.knockout(CODE, Bench())
    assert table.instruction.tolist() == ["zero", "divide", "nop_0"]
    assert table.nop_0.tolist() == ["fertile", "sterile", "itself"] and table.nop_1.tolist() == ["barren", "sterile", "true"]
    assert table.needed.tolist() == [True, True, False]


@pytest.mark.parametrize("verb", ["landscape", "knockout"])
def test_mutants_of_a_short_genotype(told, refused, built, tmp_path, monkeypatch, verb):
    """By the program: the eighteen instructions that copy blanks. Worked by hand: with a nop_0 for the `zero` they still do, since cx is 0
    at first; without mov_ab they copy their own first cell, and without an or1, mal, a copy or divide there is no daughter."""
    monkeypatch.chdir(tmp_path)
    code = "zero or1 shl or1 shl shl mal mov_ab " + "mov_iab " * 9 + "divide"
    (tmp_path / "short.listing").write_text(code)
    rows = list(csv.DictReader(io.StringIO(told(verb, "short.listing", "--quanta", 20, "--picture", "out.svg"))))
    assert "short" in (tmp_path / "out.svg").read_text() and (tmp_path / "assays.jsonl").exists()
    if verb == "knockout":
        assert [rows[place]["nop_0"] for place in (0, 7, 1, 3, 6, 8, 17)] == ["blanks", "barren", *["sterile"] * 5]
        assert len(rows) == 18 and all(row["needed"] == "True" for row in rows)
    else:
        assert len(rows) == 18 * 31 and not any(row["does"] == "true" for row in rows)
    assert "ends with neither" in refused(verb, "short.listing", "--picture", "out.gif")
    assert "genotypes: name one" in refused(verb, HOLD)


def test_places_that_are_drawn():
    """No two founders overlap, each code has as many, and another draw has other places and another order."""
    codes = [ANCESTOR, ANCESTOR[:44]]
    placed = compete.drawn(codes, 7, 3200, random.Random(1))
    assert [sum(code == one for _, code, _ in placed) for one in codes] == [7, 7] and len({at for at, _, _ in placed}) == 14
    assert all(at % 80 == 0 and at + len(code) <= 3200 for at, code, _ in placed)
    other = compete.drawn(codes, 7, 3200, random.Random(2))
    assert [at for at, _, _ in placed] != [at for at, _, _ in other] and [code for _, code, _ in placed] != [code for _, code, _ in other]
    with pytest.raises(Refused, match="82 founders of up to 80 instructions have no room in 3200 cells"):
        compete.drawn(codes, 41, 3200, random.Random(1))


def test_the_selection_coefficient():
    """Numbers that grow by e and e^3 each 1,000 quanta differ by 2; the time after one of them is gone does not count."""
    quanta = [0, 1000, 2000, 3000]
    ours, theirs = [round(1000 * math.exp(3 * k)) for k in range(3)] + [5], [round(1000 * math.exp(k)) for k in range(3)] + [0]
    assert compete.slope(quanta, ours, theirs) == pytest.approx(2, abs=1e-3)
    assert math.isnan(compete.slope(quanta, ours, [5, 0, 0, 0])) and math.isnan(compete.slope([0], [1], [1]))
    mean, low, high = compete.interval([1.0, 2.0, 3.0, 4.0])
    assert mean == 2.5 and 1.0 <= low < 1.8 and 3.2 < high <= 4.0
    assert compete.interval([2.0, 2.0]) == (2.0, 2.0, 2.0) and all(map(math.isnan, compete.interval([])))


def test_a_competition(told, built, tmp_path, monkeypatch):
    """The host against a parasite in a small soup. Replicates differ; a second call runs nothing anew."""
    monkeypatch.chdir(tmp_path)
    words = ["compete", "--put", f"{HOLD}:0080aaa", "--put", f"{HOLD}:0044aaa", "--each", 3, "--replicates", 3, "--quanta", 600, "--every", 200]
    words += ["--like", DATA / "mixed.toml", "--shares", "shares.csv", "--picture", "out.svg", "--jobs", 1]
    rows = list(csv.DictReader(io.StringIO(told(*words))))
    assert [row["name"] for row in rows] == ["0080aaa", "0044aaa"] and rows[0]["s"] == "" and rows[1]["estimates"] in "0123"
    shares = pandas.read_csv("shares.csv")
    assert shares.quantum.tolist() == [0, 200, 400, 600] * 3 and (shares[shares.quantum == 0][["0080aaa", "0044aaa"]] == 3).all().all()
    texts = {(tmp_path / f"compete/replicate{k}/soup.toml").read_text() for k in (1, 2, 3)}
    assert len(texts) == 3 and all("copy_rate = 0\n" in text for text in texts)
    noted = json.loads((tmp_path / "compete/replicate2/notes.json").read_text())
    assert noted["asked"] == {"replicate": 2, "draw": 0} and "3 competitions of 0080aaa and 0044aaa" in (tmp_path / "out.svg").read_text()
    assert list(csv.DictReader(io.StringIO(told(*words)))) == rows
    assert json.loads((tmp_path / "compete/replicate2/notes.json").read_text()) == noted


@pytest.mark.parametrize(
    "words, line",
    [
        (["--put", f"{HOLD}:0080aaa"], "at least two genotypes"),
        (["--put", f"{HOLD}:0080aaa", "--put", ""], "--put : FILE:NAME was expected"),
        (["--put", f"{HOLD}:0080aaa", "--put", LISTING], "this genotype was put in already"),
        (["--put", f"{HOLD}:0080aaa", "--put", f"{HOLD}:0044zzz"], "has no genotype 0044zzz"),
        (["--put", LISTING, "--put", f"{HOLD}:0044aaa", "--each", 1000], "have no room in 60000 cells"),
        (["--put", LISTING, "--put", f"{HOLD}:0044aaa", "--every", 0], "--every is from 1 to --quanta"),
    ],
)
def test_competitions_are_refused(refused, stand_in, tmp_path, words, line):
    assert line in refused("compete", "--into", tmp_path / "compete", *words)
    assert not (tmp_path / "compete").exists()


def test_free_places():
    assert invade.free_places([(10, bytes(5), None), (0, bytes(3), None)], 20, 3) == [3, 6, 15]
    living = [(0, bytes(5), None), (10, bytes(5), None)]
    placed = invade.with_invaders(living, b"\x01\x02", 3, 20, random.Random(1))
    assert placed[:2] == living and len(placed) == 5 and {at for at, _, _ in placed[2:]} <= {5, 7, 15, 17}
    with pytest.raises(Refused, match="there is room for 4 invaders of 2 instructions, and 5 were asked for"):
        invade.with_invaders(living, b"\x01\x02", 5, 20, random.Random(1))


@pytest.mark.parametrize("end, fate", [((9, 3), "rose"), ((1, 30), "fell"), ((0, 30), "gone")])
def test_the_row_of_an_invasion(end, fate):
    table = pandas.DataFrame({"quantum": [0, 1000], "0044aac": [2, end[0]], "others": [10, end[1]]})
    row = invade.row_of(1, table, "0044aac")
    assert (row["fate"], row["invaders_left"], row["living"]) == (fate, end[0], sum(end))
    assert invade.summary([row, row]).iloc[-1].fate == f"2 {fate}"


def test_an_invasion(told, refused, built, tmp_path, monkeypatch):
    """What lives at the checkpoint is there, and so many invaders besides, in free cells."""
    monkeypatch.chdir(tmp_path)
    words = ["invade", HOLD, "--soup", DATA / "mixed.toml", "--quantum", 400, "--put", f"{HOLD}:0025aaa", "--number", 2, "--replicates", 2]
    rows = list(csv.DictReader(io.StringIO(told(*words, "--quanta", 200, "--every", 100, "--picture", "out.svg"))))
    world = next(world for world in files.read_hold(HOLD) if world.quanta == 400)
    said = soup.plain((tmp_path / "invade/replicate1/soup.toml").read_text())
    assert soup.creatures(said)[:-2] == [(at, code) for at, code, _ in invade.residents(world)] and said["soup_size"] == len(world.cells)
    assert [row["replicate"] for row in rows] == ["1", "2", "mean"] and float(rows[0]["residents"]) == len(world.records)
    assert "has no checkpoint of quantum 5" in refused(*words[:5], 5, *words[6:])
    assert "put into the soup of quantum 400, 2 times" in (tmp_path / "out.svg").read_text()


def test_a_picture_has_a_key(tmp_path):
    figure, axis = picture.axes("a title")
    picture.key_beside(axis, mutants.COLOURS)
    picture.save(figure, tmp_path / "out.svg")
    assert all(kind in (tmp_path / "out.svg").read_text() for kind in mutants.COLOURS)
