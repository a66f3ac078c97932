"""Lineages: mutations by alignment, worked by hand and put back, and the line of a run."""
import csv
import io
import random

import pytest

from studies import files, genotypes, lineage, picture, soup

from .conftest import DATA, TOP

HOLD, BANK = DATA / "mixed.hold", DATA / "mixed.bank"
ANCESTOR = soup.code_of_listing((TOP / "examples/0080aaa.listing").read_text())


def changes(mother, daughter):
    return lineage.changes_of(mother, daughter, lineage.aligned(mother, daughter))


@pytest.mark.parametrize(
    "daughter, told",
    [
        (ANCESTOR, ""),
        (ANCESTOR[:42] + b"\x01" + ANCESTOR[43:], "42:nop_0>nop_1"),
        (ANCESTOR[:44], "44..79:-36"),
        (ANCESTOR[:27] + ANCESTOR[28:], "27:-mal"),
        (ANCESTOR[:27] + b"\x0c\x0d" + ANCESTOR[27:], "27:+push_ax 27:+push_bx"),
        (ANCESTOR + b"\x1f", "80:+divide"),
        (b"\x1f" + ANCESTOR, "0:+divide"),
        (ANCESTOR[:14] + b"\x02" + ANCESTOR[15:71] + ANCESTOR[74:], "14:sub_ac>or1 71..73:-3"),
    ],
)
def test_changes_by_hand(daughter, told):
    """Places are the mother's, counted from 0."""
    assert lineage.shorts(changes(ANCESTOR, daughter)) == told


def put_in(mother, found):
    """The daughter that some changes make of her mother."""
    made = []
    for place in range(len(mother) + 1):
        made += [change.after for change in found if change.kind == "inserted" and change.place == place]
        here = [change for change in found if change.kind != "inserted" and change.place == place]
        if place < len(mother):
            made += [here[0].after] if here else [mother[place]]
    return bytes(op for op in made if op is not None)


def test_changes_make_the_daughter():
    """Of any two codes: a mutant of the ancestor, and codes that have nothing in common."""
    random.seed(3)
    for _ in range(60):
        daughter = bytearray(ANCESTOR)
        for _ in range(random.randrange(6)):
            place = random.randrange(len(daughter))
            daughter[place : place + random.randrange(2)] = random.randbytes(random.randrange(3)).translate(bytes(k % 32 for k in range(256)))
        assert put_in(ANCESTOR, changes(ANCESTOR, bytes(daughter))) == daughter
    assert put_in(b"\x01\x02", changes(b"\x01\x02", b"\x03")) == b"\x03"


def saved(name, parent, code):
    return files.Saved(name, len(code), 7, parent, dict.fromkeys(files.EFFORTS), code)


def test_columns():
    """What descends from one instruction stands in one column; what is put in gets a column of its own, which later steps keep."""
    line = {"a": saved("a", None, b"\x04\x05\x06"), "b": saved("b", "a", b"\x04\x1e\x05\x06"), "c": saved("c", "b", b"\x1e\x05\x07")}
    steps = lineage.lineage(line, "c")
    assert [step.one.name for step in steps] == ["a", "b", "c"]
    assert lineage.columns_of(steps) == ([[0, 2, 3], [0, 1, 2, 3], [1, 2, 3]], 4)
    cells, new = picture.cells_of(steps)
    assert cells.tolist() == [[4, -1, 5, 6], [4, 30, 5, 6], [-1, 30, 5, 7]]
    assert new.tolist() == [[False] * 4, [False, True, False, False], [True, False, False, True]]


def test_the_line_of_a_run(told):
    rows = list(csv.DictReader(io.StringIO(told("lineage", HOLD, "0044aad"))))
    assert [(row["name"], row["parent"], row["quantum"]) for row in rows] == [("0044aaa", "", "0"), ("0044aad", "0044aaa", "2791")]
    found = genotypes.all_in(HOLD)
    assert rows[1]["changes"] == lineage.shorts(changes(found["0044aaa"].code, found["0044aad"].code)) and rows[1]["changed"] == "1"
    listed = list(csv.DictReader(io.StringIO(told("lineage", HOLD, "0044aad", "--changes"))))
    place, before = int(listed[0]["place"]), listed[0]["before"]
    assert len(listed) == 1 and soup.INSTRUCTIONS[found["0044aaa"].code[place]] == before
    text = told("lineage", HOLD, "0044aad", "--text").splitlines()
    assert text[0] == "0044aaa and its daughter 0044aad of quantum 2791" and 4 <= len(text) <= 6
    assert [line.split() for line in text if line.startswith("*")] == [["*", str(place), before, str(place), listed[0]["after"]]]


def test_the_commonest_is_meant(told):
    world = files.read_hold(HOLD)[-1]
    living = world.creatures.genotype.map(world.genotypes.name).value_counts()
    most = set(living.index[living == living.max()])
    assert told("lineage", HOLD).splitlines()[-1].split(",")[1] == min(most) and len(most) > 1


def test_a_line_of_a_genebank(told, capsys):
    assert told("lineage", BANK, "0044aad").splitlines()[-1].split(",")[1:4] == ["0044aad", "44", "0044aaa"]
    steps = lineage.lineage({"b": saved("b", "a", b"\x04"), "c": saved("c", "b", b"\x05")}, "c")
    assert [step.one.name for step in steps] == ["b", "c"]


@pytest.mark.parametrize(
    "words, line",
    [
        ([HOLD, "0044zzz"], "has no genotype 0044zzz"),
        ([BANK], "a genebank does not say what lives: name a genotype"),
        ([BANK, "0044zzz"], "has no genotype 0044zzz"),
        ([DATA / "mixed.toml"], "neither a genebank nor a file of checkpoints"),
        ([HOLD, "--soup", DATA / "small.toml"], "belongs to another setup"),
    ],
)
def test_lineage_refuses(refused, words, line):
    assert line in refused("lineage", *words)
