"""The fates of genotypes alone: the rule on made-up daughters, genotypes whose fate was worked by hand, and results that are kept."""
import json
import re

import pytest

from studies import alone, assay, files, printed, program, progress, soup
from studies.refusal import Refused

from .conftest import DATA, TOP

ANCESTOR = soup.code_of_listing((TOP / "examples/0080aaa.listing").read_text())
NONE = dict.fromkeys(files.EFFORTS)
# Twelve cells are asked for; nine copies are 70 % of them. ax is the daughter block's first cell.
ASK = "zero or1 shl or1 shl shl mal "
COPY = "mov_iab " * 9 + "divide"
HAND = {
    # name: code, fate, the end, the daughter's code, and what the first daughter cost, all worked by hand
    "true": (ANCESTOR, "true", "true", None, (839, 80)),
    "sterile": (soup.code_of_listing("zero or1 shl shl"), "sterile", "sterile", None, (None, None)),
    # bx is the daughter block too, so a blank cell of it is copied onto itself.
    "blanks": (soup.code_of_listing(ASK + "mov_ab " + COPY), "blanks", "blanks", None, (18, 9)),
    # bx is 0, so the creature's first cell is copied, nine times to one place: the daughter is a zero and eleven blanks.
    "another": (soup.code_of_listing(ASK + COPY), "another", "sterile", b"\x04" + bytes(11), (17, 9)),
    # The ancestor takes itself to end where its template is, so it leaves out what is put behind its end.
    "another that breeds true": (ANCESTOR + b"\x02" * 5, "another", "true", ANCESTOR, (839, 80)),
}


def bench_of(built, tmp_path, quanta=1000, **settings):
    return alone.Bench({**soup.SETTINGS, **settings}, quanta, built, 2, tmp_path / "assays.jsonl")


@pytest.mark.parametrize("name", HAND)
def test_fates_by_hand(built, tmp_path, name):
    code, kind, ends, daughter, cost = HAND[name]
    fate = assay.fates([code], bench_of(built, tmp_path))[code]
    assert (fate.kind, fate.ends, fate.is_fertile) == (kind, ends, ends == "true")
    assert fate.way == ([code, daughter] if daughter else [code])
    assert (fate.seen.efforts["first_run"], fate.seen.efforts["first_moved"]) == cost


def fate_of(daughters):
    """The fate of `a`, where these are the daughters of each letter; NUL is a blank."""
    table = {name: alone.Seen(3, tuple(bytes([ord(one)]) for one in text), NONE) for name, text in daughters.items()}
    bench = type("Bench", (), {"seen": lambda _, codes: {code: table.get(chr(code[0]), alone.Seen(0, (), NONE)) for code in codes}})()
    fate = assay.fates([b"a"], bench)[b"a"]
    return fate.kind, fate.ends, b"".join(fate.way).decode()


@pytest.mark.parametrize(
    "daughters, fate",
    [
        ({}, ("sterile", "sterile", "a")),
        ({"a": "aaa"}, ("true", "true", "a")),
        ({"a": "bca"}, ("true", "true", "a")),
        ({"a": "\0\0\0"}, ("blanks", "blanks", "a")),
        ({"a": "\0b"}, ("another", "sterile", "ab")),
        ({"a": "bbb", "b": "\0"}, ("another", "blanks", "ab")),
        ({"a": "bcd", "c": "c"}, ("another", "true", "ac")),
        ({"a": "bc", "b": "d", "c": "e", "d": "d"}, ("another", "sterile", "ace")),
        ({"a": "b", "b": "cd", "d": "d"}, ("another", "true", "abd")),
        ({"a": "b", "b": "a"}, ("another", "cycle", "aba")),
        ({"a": "b", "b": "c", "c": "b"}, ("another", "cycle", "abcb")),
        ({one: other for one, other in zip("abcdefghijk", "bcdefghijkl")} | {"l": "l"}, ("another", "open", "abcdefghijk")),
        ({one: other for one, other in zip("abcdefghij", "bcdefghijk")} | {"k": "k"}, ("another", "true", "abcdefghijk")),
    ],
)
def test_the_rule(daughters, fate):
    assert fate_of(daughters) == fate


@pytest.mark.parametrize(
    "births, deaths, found",
    [
        ([], [], []),
        ([(1, 2), (2, 3), (3, 4)], [], [(1, 2), (3, 4)]),  # 1, then 2, then 1 again, since 3 was put behind it
        ([(1, 2), (2, 3), (4, 4)], [(2, 1)], [(1, 2)]),
        ([(1, 2), (3, 3)], [(2, 2)], [(1, 2)] + [(3, 3)]),
        ([(34, 2), (100, 3), (101, 4)], [], [(34, 2), (100, 3)]),
        ([(1, 2), (1, 3), (1, 4), (1, 5)], [], [(1, 2), (1, 3), (1, 4)]),
    ],
)
def test_whose_daughters(births, deaths, found):
    """Who ran in a quantum is known from the births and deaths before it."""
    assert alone.first_daughters(births, deaths) == found


def test_the_daughters_are_those_of_the_record(built, tmp_path):
    """The mother's record counts her daughters, and a later look finds the same codes."""
    text = alone.text_of({**soup.SETTINGS, **alone.STILL}, ANCESTOR)
    births, deaths = printed.events_in(program.run(built, ["curve", "--quanta", 230, "--every", 230], text, tmp_path))
    program.run(built, ["hold", "--quanta", 230, "--every", 230], text, tmp_path)
    mother = files.read_hold(tmp_path / "tierra.hold")[-1].records
    assert len(alone.first_daughters(births, deaths)) == int(mother[mother["id"] == 1]["bred"][0])


def test_efforts_are_those_of_probe(built, tmp_path):
    """`tierra probe` runs a genotype alone too, for as many quanta."""
    rows = [line.split() for line in (DATA / "mixed_probe.txt").read_text().splitlines()]
    table = assay.table_of(assay.codes_of(str(DATA / "mixed.bank")), bench_of(built, tmp_path)).set_index("name")
    for name, _, *first in rows:
        told = [int(word) for word in first if word.isdecimal()]
        assert table.loc[name, files.EFFORTS].dropna().tolist() == told and (table.fate[name] == "sterile") == (not told)


def test_assay_of_each_kind_of_file(told, built, tmp_path, monkeypatch):
    """The same genotype of a genebank, of checkpoints and of FASTA; with other settings it has another fate."""
    monkeypatch.chdir(tmp_path)
    (tmp_path / "all.fasta").write_text(told("genotypes", DATA / "mixed.hold"))
    rows = [told("assay", path, "--only", "0080aaa").splitlines()[1] for path in (DATA / "mixed.bank", DATA / "mixed.hold", "all.fasta")]
    assert rows[0] == rows[1] == rows[2] and rows[0].startswith("0080aaa,80,true,16,839,80,813,80,,,0,true,True,")
    assert "alone for 1000 quanta with default settings: breeds true; 3 of its first 3 daughters with its code" in rows[0]
    other = told("assay", "all.fasta", "--only", "0080aaa", "--set", "search_limit=5", "--quanta", 200)
    assert ",sterile," in other and "alone for 200 quanta with search_limit = 5: no daughter" in other
    like = told("assay", "all.fasta", "--only", "0080aaa", "--like", DATA / "mixed.toml", "--quanta", 90)
    assert "alone for 90 quanta with soup_size = 3200: breeds true; its one daughter has its code" in like


@pytest.mark.parametrize(
    "words, line",
    [
        ([DATA / "mixed.hold", "--only", "0044zzz"], "has no genotype 0044zzz"),
        ([DATA / "mixed.toml"], "neither a genebank nor a file of checkpoints"),
        ([DATA / "mixed.hold", "--jobs", 0], "--jobs is at least 1"),
        ([DATA / "mixed.hold", "--quanta", 4000001], "--quanta is from 1 to 4,000,000"),
        ([DATA / "mixed.hold", "--set", "copy_rate=1,2"], "one value was expected"),
        ([DATA / "mixed.hold", "--kept", DATA / "mixed.hold"], "is no file of assays: line 1"),
        ([DATA / "mixed.hold", "--kept", DATA / "mixed.toml"], "is no file of assays: line 1"),
        ([DATA / "mixed.hold", "--program", DATA / "mixed.toml"], "is no program"),
    ],
)
def test_assay_refuses(refused, stand_in, words, line):
    assert line in refused("assay", *words)


class Counted(alone.Bench):
    """A bench that runs nothing: a code has itself as its daughter. It counts, and may fail at a code."""

    ran, fails = [], None

    def run_one(self, code):
        if code == self.fails:
            raise KeyboardInterrupt
        self.ran.append(code)
        return alone.Seen(1, (code,), NONE)


def counted(stand_in, tmp_path, quanta=5, fails=None, **settings):
    bench = Counted({**soup.SETTINGS, **settings}, quanta, str(stand_in), 1, tmp_path / "assays.jsonl")
    bench.ran, bench.fails = [], fails
    return bench


def test_results_are_kept(stand_in, tmp_path):
    """What came before an interruption is not run again; another setting, number of quanta or program is."""
    codes = [b"\x01", b"\x02", b"\x03", b"\x04"]
    with pytest.raises(KeyboardInterrupt):
        counted(stand_in, tmp_path, fails=b"\x03").seen(codes)
    assert len((tmp_path / "assays.jsonl").read_text().splitlines()) == 2
    again = counted(stand_in, tmp_path)
    assert list(again.seen(codes)) == codes and again.ran == codes[2:]
    again.seen(codes)
    assert counted(stand_in, tmp_path).seen(codes)[b"\x01"] == alone.Seen(1, (b"\x01",), NONE) and again.ran == codes[2:]
    for other in (counted(stand_in, tmp_path, quanta=6), counted(stand_in, tmp_path, search_limit=5)):
        other.seen(codes[:1])
        assert other.ran == codes[:1]
    stand_in.write_text(stand_in.read_text() + "\n")
    other = counted(stand_in, tmp_path)
    other.seen(codes[:1])
    assert other.ran == codes[:1]


def test_chance_is_left_out(stand_in, tmp_path):
    """Rates, the disturbance and the seed of the settings do not count."""
    first, other = (counted(stand_in, tmp_path, **row) for row in ({}, {"copy_rate": 9, "flaw_rate": 9, "dist_every": 9, "seed": "1" * 64}))
    assert first.key(b"\x01") == other.key(b"\x01") and first.said() == other.said() == "alone for 5 quanta with default settings"


def test_a_line_that_was_cut_off(stand_in, tmp_path):
    counted(stand_in, tmp_path).seen([b"\x01", b"\x02"])
    path = tmp_path / "assays.jsonl"
    path.write_bytes(path.read_bytes()[:-5])
    again = counted(stand_in, tmp_path)
    again.seen([b"\x01", b"\x02"])
    assert again.ran == [b"\x02"] and [json.loads(line)["code"] for line in path.read_text().splitlines()] == ["01", "02"]
    path.write_text(path.read_text().replace('"births"', '"birth"', 1))
    with pytest.raises(Refused, match="is no file of assays: line 1"):
        counted(stand_in, tmp_path)


def test_progress_off_a_terminal(stand_in, tmp_path, monkeypatch, capsys):
    monkeypatch.setattr(progress, "EVERY", 0.01)
    bench = counted(stand_in, tmp_path)
    monkeypatch.setattr(bench, "run_one", lambda code: (progress.time.sleep(0.03), alone.Seen(0, (), NONE))[1])
    bench.seen(bytes([code]) for code in range(5))
    lines = capsys.readouterr().err.splitlines()
    assert len(lines) >= 5 and all(re.fullmatch(r"zuldokan: \d of 5 genotypes in \d+ s(, about \d+ s left)?", line) for line in lines)
    assert progress.Progress(872, "genotype").line(10).endswith("0 of 872 genotypes in 10 s")
    told = progress.Progress(872, "genotype")
    told.done = 218
    assert told.line(10) == "zuldokan: 218 of 872 genotypes in 10 s, about 30 s left"


def test_long_work_with_an_unproved_program_is_forecast(stand_in, tmp_path, capsys):
    unproved = stand_in.rename(tmp_path / "unproved")
    for quanta, jobs, said in ((223200, 1, "some 2 minutes"), (223200, 4, ""), (50000, 1, "")):
        bench = Counted(soup.SETTINGS, quanta, str(unproved), jobs)
        bench.seen([b"\x01"])
        assert (said in capsys.readouterr().err) if said else capsys.readouterr().err == ""
    program.forecast(str(tmp_path / "tierra"), 10**9)
    assert capsys.readouterr().err == ""
