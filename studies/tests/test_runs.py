"""Genotypes out and in, soup files of genotypes, traces, relays and pictures."""
import gzip
import hashlib
import os
import re
import subprocess
import sys
import tempfile

import numpy
import pandas
import pytest
from PIL import Image

from studies import files, genotypes, listing, main, picture, program, relay, roles, soup, trace
from studies.refusal import Refused

from .conftest import DATA, TOP, peer

SOUP = TOP / "examples/soup.toml"
HOLD, BANK = DATA / "mixed.hold", DATA / "mixed.bank"
ANCESTOR = soup.code_of_listing((TOP / "examples/0080aaa.listing").read_text())


def test_letters():
    assert genotypes.letters(bytes(range(32))) == "ABCDEFGHIJKLMNOPQRSTUVWXYZ234567"
    assert len(set(genotypes.TIERRA)) == 32


@pytest.mark.parametrize("path", [HOLD, BANK])
def test_fasta_and_back(told, path):
    found = genotypes.all_in(path)
    assert listing.of_fasta(told("genotypes", path)) == {name: one.code for name, one in found.items()}
    assert found["0080aaa"].code == ANCESTOR


@pytest.mark.parametrize("kind", ["tie", "listing"])
def test_tie_and_listing_and_back(told, kind):
    text = told("genotypes", HOLD, "--as", kind, "--only", "0044aad")
    code = genotypes.all_in(HOLD)["0044aad"].code
    assert (listing.of_tie(text) if kind == "tie" else soup.code_of_listing(text)) == code
    if kind == "tie":
        assert "genotype: 0044aad  parent genotype: 0044aaa\n1st_daughter:  flags: 0  inst: 478  mov_daught: 44\n" in text


# Names of Tierra's releases, each with the one of docs/RULES.md.
@pytest.mark.parametrize(
    "theirs, ours",
    [
        ("nop0 nop_1 not0 or1 shl zero ifz if_cz", "nop_0 nop_1 or1 or1 shl zero if_cz if_cz"),
        ("subCAB subcab sub_ab subAAC subaac", "sub_ab sub_ab sub_ab sub_ac sub_ac"),
        ("incA incax inc_a INCB incbx decC deccx incC inccx", "inc_a inc_a inc_a inc_b inc_b dec_c dec_c inc_c inc_c"),
        ("pushA pushax push_ax pushD pushdx popB popbx", "push_ax push_ax push_ax push_dx push_dx pop_bx pop_bx"),
        ("jmpo jmp jmpb call ret movDC movdc mov_cd", "jmp jmp jmpb call ret mov_cd mov_cd mov_cd"),
        ("movBA movba mov_ab movii mov_iab", "mov_ab mov_ab mov_ab mov_iab mov_iab"),
        ("adro adr adrb adrf mal divide", "adr adr adrb adrf mal divide"),
    ],
)
def test_names_of_tierra(theirs, ours):
    assert listing.of_tie(theirs) == soup.code_of_listing(ours)


def test_a_header_is_dropped():
    assert listing.of_tie("genotype: 0002aaa\nCODE\n\ntrack 0:\n\nnop1 ; 01\nzero\n") == b"\x01\x04"
    assert listing.of_tie("CODE\n\ntrack 0: prot\n          xwr\nnop1 ; 010 110 01   0 a comment\nzero\n") == b"\x01\x04"


@pytest.mark.parametrize(
    "text, line",
    [
        ("nop1\nzoro", "line 2: unknown instruction zoro"),
        ("head\nCODE\nnop1\nzoro", "line 4: unknown instruction zoro"),
        ("CODE\ntrack 1:\nnop1", "line 2: a second track"),
        ("CODE\nnop1\nxwr", "line 3: unknown instruction xwr"),
        ("; nothing", "no instructions"),
        (">a\nAB\n>a\nAB", "line 3: a comes twice"),
        (">a\nAb", "line 2: b stands for no instruction"),
        (">a\n>b\nA", "a has no instructions"),
        (">a\nA\n>b\nA", "there are 2 records"),
    ],
)
def test_listings_are_refused(text, line):
    with pytest.raises(Refused, match=line):
        listing.code_of(text)


def test_blank_lines_of_fasta():
    assert listing.of_fasta("\n>a\n\nAB\n\n>b\nB\n") == {"a": b"\x00\x01", "b": b"\x01"}
    with pytest.raises(Refused, match="line 2: no head of a record before it"):
        listing.of_fasta("\nAB\n>a\nAB\n")


@peer("Biopython")
def test_biopython_reads_the_fasta(told, tmp_path):
    from Bio import SeqIO

    (tmp_path / "genotypes.fasta").write_text(told("genotypes", HOLD))
    read = {record.id: str(record.seq) for record in SeqIO.parse(tmp_path / "genotypes.fasta", "fasta")}
    assert read == {name: genotypes.letters(one.code) for name, one in genotypes.all_in(HOLD).items()}


@peer("scikit-bio")
def test_scikit_bio_reads_the_fasta(told, tmp_path):
    import skbio

    (tmp_path / "genotypes.fasta").write_text(told("genotypes", HOLD))
    read = {one.metadata["id"]: str(one) for one in skbio.io.read(str(tmp_path / "genotypes.fasta"), format="fasta")}
    assert read == {name: genotypes.letters(one.code) for name, one in genotypes.all_in(HOLD).items()}


@peer("seqkit")
def test_seqkit_reads_the_fasta(told, tmp_path):
    (tmp_path / "genotypes.fasta").write_text(told("genotypes", HOLD))
    asked = ["seqkit", "fx2tab", "--seq-type", "unlimit", "--only-id", "genotypes.fasta"]
    said = subprocess.run(asked, cwd=tmp_path, check=True, capture_output=True, text=True).stdout
    read = dict(line.split("\t")[:2] for line in said.splitlines())
    assert read == {name: genotypes.letters(one.code) for name, one in genotypes.all_in(HOLD).items()}


@peer("mafft")
def test_mafft_aligns_the_fasta(told, tmp_path):
    """With --text. Without its gaps each row is the genotype, and a parasite stands beside the cells of the ancestor that it kept."""
    (tmp_path / "genotypes.fasta").write_text(told("genotypes", HOLD))
    asked = ["mafft", "--text", "--quiet", "genotypes.fasta"]
    said = subprocess.run(asked, cwd=tmp_path, check=True, capture_output=True, text=True).stdout
    rows = {part.split()[0]: "".join(part.splitlines()[1:]) for part in said.split(">")[1:]}
    found = genotypes.all_in(HOLD)
    assert {name: row.replace("-", "") for name, row in rows.items()} == {name: genotypes.letters(one.code) for name, one in found.items()}
    same = sum(one == other for one, other in zip(rows["0080aaa"], rows["0044aad"]))
    assert len({len(row) for row in rows.values()}) == 1 and same > 30


def test_soup_from(told):
    put = ["--put", f"{BANK}:0044aad@100,200", "--put", f"{TOP}/examples/0080aaa.listing@0"]
    said = soup.plain(told("soup_from", "--like", SOUP, *put, "--seed", 7, "--set", "copy_rate=0"))
    parasite = genotypes.all_in(BANK)["0044aad"].code
    assert soup.creatures(said) == [(100, parasite), (200, parasite), (0, ANCESTOR)]
    assert said["seed"] == f"{7:064x}" and said["copy_rate"] == 0 and said["back_rate"] == 10000


def test_soup_from_says_nothing_of_other_values(told):
    text = told("soup_from", "--like", SOUP, "--put", f"{BANK}:0044aad@0", "--set", "copy_rate=500", "--set", "slice_size=25")
    assert "copy_rate = 500\n" in text and "one copy in" not in text and "Every key of a soup file" not in text
    assert "slice_size = 25          # instructions of a quantum\n" in text and f"# 0044aad of {BANK}\n" in text


@pytest.mark.parametrize(
    "put, line",
    [
        (f"{BANK}:0044aad@0,43", "the creatures at 0 and 43 overlap"),
        (f"{BANK}:0044aad@59957", "the creature at 59957 ends past the last cell of 60000"),
        (f"{BANK}:0044zzz@0", "has no genotype 0044zzz"),
        (f"{BANK}:0044aad", "FILE:NAME@CELL,.. was expected"),
        (f"{SOUP}@0", "soup.toml: line 1: unknown instruction"),
    ],
)
def test_soup_from_refuses(refused, put, line):
    assert line in refused("soup_from", "--like", SOUP, "--put", put)


@pytest.mark.parametrize("words, line", [(["--seed", "-1"], "seed -1 is not"), (["--set", "copy_rate=9999999999"], "another kind or range")])
def test_soup_from_refuses_settings(refused, words, line):
    assert line in refused("soup_from", "--like", SOUP, "--put", f"{BANK}:0044aad@0", *words)


def test_an_invasion(tmp_path, told, built):
    """A parasite of one run among hosts of another: the program takes the file, and the parasite has daughters there."""
    put = ["--put", f"{BANK}:0080aaa@0,400,800", "--put", f"{HOLD}:0044aaa@200,600"]
    text = told("soup_from", "--like", SOUP, *put, "--set", "soup_size=3200", "--set", "copy_rate=0", "--set", "back_rate=0")
    counts, living = {}, program.run(built, ["dump", "--quanta", 600], text, tmp_path)
    for line in living.splitlines():
        counts[line.split()[-1]] = counts.get(line.split()[-1], 0) + line.startswith("creature ")
    assert counts["0044aaa"] > 2 and counts["0080aaa"] > 3


def traced():
    document = soup.plain(SOUP.read_text()) | {"soup_size": 200, "slice_size": 1, "copy_rate": 0, "back_rate": 0}
    worlds = files.worlds_in(gzip.decompress((DATA / "trace.hold.gz").read_bytes()), soup.digest(document))
    return trace.trace(document, worlds)


def test_the_ancestors_trace():
    """The 839th instruction of the ancestor divides, as published for 0080aaa; the next is its daughter's first."""
    table = traced()
    assert len(table) == 840 and (table.creature[:839] == 1).all()
    assert table.index[table.instruction == "divide"].tolist() == [838]
    assert table.iloc[839][["creature", "place", "instruction"]].tolist() == [2, 80, "nop_1"]
    written = [tuple(map(int, text.split("="))) for text in table.wrote[table.wrote != ""]]
    assert written == [(80 + cell, op) for cell, op in enumerate(ANCESTOR)]
    assert (table.flipped == "").all()
    assert table.instruction[:9].tolist() == "nop_1 nop_1 nop_1 nop_1 zero or1 shl shl mov_cd".split()
    assert table.iloc[8][["cx", "dx"]].tolist() == [4, 4]
    push = table[table.instruction == "push_cx"].iloc[0]
    assert push["stack"].split()[:3] == [str(push.cx), str(push.bx), str(push.ax)]


def test_trace_by_the_program(told, tmp_path, built):
    text = SOUP.read_text().replace("copy_rate = 1000", "copy_rate = 0").replace("back_rate = 10000", "back_rate = 3")
    (tmp_path / "soup.toml").write_text(text)
    table = [line.split(",") for line in told("trace", tmp_path / "soup.toml", "--quanta", 30, "--size", 100).splitlines()]
    assert len(table) == 31 and 5 <= sum(row[-1] != "" for row in table[1:]) <= 15


def test_a_scratch_folder(monkeypatch, tmp_path):
    """It is in memory where there is room, and goes when it is left."""
    monkeypatch.setattr(program, "MEMORY", str(tmp_path))
    with program.scratch(1) as room:
        assert os.path.dirname(room) == str(tmp_path)
    assert not os.path.exists(room)
    for size, memory in ((10**18, tmp_path), (1, tmp_path / "none")):
        monkeypatch.setattr(program, "MEMORY", str(memory))
        with program.scratch(size) as room:
            assert os.path.dirname(room) == tempfile.gettempdir()


def test_trace_refuses(refused, stand_in, tmp_path):
    (tmp_path / "soup.toml").write_text(SOUP.read_text().replace("soup_size = 60000", "soup_size = '60000'"))
    assert "another kind or range" in refused("trace", tmp_path / "soup.toml")
    assert "from 1 to 100,000" in refused("trace", SOUP, "--quanta", 100001)


def test_seed_of_a_leg():
    assert relay.seed_of("00" * 31 + "02", 3) == hashlib.sha256(bytes(31) + b"\x02" + bytes(7) + b"\x03" + bytes(7) + b"\x01").hexdigest()


def test_the_next_leg():
    """The living keep their places and cells, in the order of their turns."""
    world = files.read_hold(HOLD)[-1]
    said = soup.plain(relay.next_text(soup.read(DATA / "mixed.toml"), "00" * 32, 2, world))
    table = world.creatures
    assert soup.creatures(said) == [(at, bytes(world.cells[at : at + size])) for at, size in zip(table["at"], table["size"])]
    assert said["seed"] == relay.seed_of("00" * 32, 2) and said["soup_size"] == 3200


def test_a_leg_that_is_too_large(monkeypatch):
    monkeypatch.setattr(soup, "MOST_BYTES", 5000)
    with pytest.raises(Refused, match="leg 2 cannot begin: the soup file would have"):
        relay.next_text(soup.read(DATA / "mixed.toml"), "00" * 32, 2, files.read_hold(HOLD)[-1])


def test_a_relay_is_one_isle(tmp_path, told, refused, built):
    words = ["relay", SOUP, "--quanta", 300, "--legs", 3, "--into", tmp_path / "long"]
    told(*words)
    isles = program.run(built, "isles --isles 1 --epochs 3 --quanta 300".split(), SOUP.read_text(), tmp_path)
    report = (tmp_path / "long/leg3/hold.txt").read_text().replace("held 300\n", "")
    assert isles == "isle 1\n" + report
    assert len(files.read_bank(tmp_path / "long/leg2/tierra.bank")) > 0
    lines = (tmp_path / "long/relay.csv").read_text().splitlines()
    assert lines[0].startswith("leg,name,saved,since,first_leg") and lines[1].startswith("1,0080aaa,34,34,1,0080aaa,80,")
    assert any(line.startswith("2,0080aaa,0,300,1,0080aaa,") for line in lines)
    told(*words)
    assert "another" in refused(*[200 if word == 300 else word for word in words])


@pytest.fixture(scope="module")
def roles_file(tmp_path_factory):
    seen = roles.seen_in(files.read_hold(HOLD))
    path = tmp_path_factory.mktemp("roles") / "roles.csv"
    fates = pandas.DataFrame({"name": seen.name.unique(), "fate": "true", "said": "alone"})
    roles.roles(seen, fates.assign(fertile=fates.name.str.startswith("0080"))).to_csv(path)
    return path


# What a text of each picture tells: a unit, or a row of its key.
UNITS = {
    "population": "births, deaths per 400 quanta", "sizes": "instructions", "abundance": "living creatures", "diversity": "Shannon (nats)",
    "roles": "hyperparasite", "tree": "each below its parent", "map": "300 cells a line", "lineage": "new in this step",
}  # fmt: skip


@pytest.mark.parametrize("kind", [kind for kind in picture.KINDS if kind != "animation"])
def test_pictures(told, tmp_path, roles_file, kind):
    words = ["--soup", DATA / "mixed.toml", "--roles", roles_file]
    told("picture", kind, HOLD, tmp_path / "out.svg", *words)
    shown = (tmp_path / "out.svg").read_text()
    assert "mixed.toml, seed 5" in shown and UNITS[kind] in shown
    told("picture", kind, HOLD, tmp_path / "out.png", *words)
    assert Image.open(tmp_path / "out.png").size[0] > 500


def test_a_tree_has_names_and_colours(told, tmp_path):
    """Without roles too: each genotype has its name, and each class of size its colour."""
    told("picture", "tree", HOLD, tmp_path / "out.svg")
    shown = (tmp_path / "out.svg").read_text()
    assert all(name in shown for name in ("0080aaa", "0044aad", "0043aac", "0025aaa", "40 to 49", "80 to 89"))
    assert len({colour for colour in picture.SERIES if colour.lower() in shown}) >= 3


def test_the_map_shows_every_cell():
    world = files.read_hold(HOLD)[-1]
    shown = picture.map_of(world, pixels=2)
    assert shown.shape == (2 * 11, 600, 3)
    assert (shown[::2, ::2] == shown[1::2, 1::2]).all()
    cells = shown[::2, ::2].reshape(-1, 3)
    black, yellow, white = (numpy.array(colour) for colour in ([0, 0, 0], [0xF0, 0xE4, 0x42], [255, 255, 255]))
    assert numpy.flatnonzero((cells == black).all(1)).tolist() == sorted(world.creatures["at"])
    assert (cells == yellow).all(1).sum() == world.creatures.daughter_size.sum()
    assert (cells[:3200] == white).all(1).sum() == ((world.owners == -1) & (world.cells == 0)).sum()
    assert (cells[3200:] == white).all()


def test_an_animation(told, tmp_path):
    told("picture", "animation", HOLD, tmp_path / "out.gif", "--pixels", 1)
    assert Image.open(tmp_path / "out.gif").n_frames == 15


def test_an_animation_without_ffmpeg(refused, monkeypatch, tmp_path):
    monkeypatch.setenv("PATH", str(tmp_path))
    assert refused("picture", "animation", HOLD, tmp_path / "out.mp4").endswith("needs ffmpeg, which is not installed")


@pytest.mark.parametrize(
    "words, line",
    [
        (["map", HOLD, "out.gif"], "ends with neither .svg nor .png"),
        (["map", HOLD, "out.png", "--quantum", 5], "no checkpoint of quantum 5"),
        (["roles", HOLD, "out.png"], "needs --roles"),
        (["sizes", HOLD, "out.png", "--roles", DATA / "mixed_probe.txt"], "is no table of zuldokan roles"),
        (["map", BANK, "out.png"], "is not a checkpoint"),
    ],
)
def test_pictures_are_refused(refused, words, line):
    assert line in refused("picture", *words)


def test_the_command():
    asked = [sys.executable, TOP / "studies/zuldokan"]
    assert "usage: zuldokan VERB" in subprocess.run([*asked, "--help"], capture_output=True, text=True, check=True).stdout
    answer = subprocess.run([*asked, "frame"], capture_output=True, text=True)
    assert (answer.returncode, answer.stdout, answer.stderr) == (2, "", "zuldokan frame: no verb frame; zuldokan --help names them\n")


@pytest.mark.parametrize("verb", main.VERBS)
def test_each_verb_has_help_and_refuses_words(verb, capsys):
    with pytest.raises(SystemExit) as ended:
        main.main([verb, "--help"])
    shown = capsys.readouterr().out
    assert ended.value.code == 0 and f"zuldokan {verb} " in shown and len(shown) > 400
    assert main.main([verb, "--no-such-word"]) == 2
    out, line = capsys.readouterr()
    assert out == "" and line.startswith(f"zuldokan {verb}: ") and line.count("\n") == 1


def test_inputs_that_are_no_text(refused, tmp_path):
    (tmp_path / "bad").write_bytes(b"quanta \xff")
    assert "is not UTF-8" in refused("roles", tmp_path / "bad")
    assert "is not UTF-8" in refused("frames", HOLD, "--soup", tmp_path / "bad")
    (tmp_path / "bad").write_text("seed =")
    assert "is not TOML" in refused("frames", HOLD, "--soup", tmp_path / "bad")


def test_the_page_names_every_package():
    """The line of docs/STUDIES.md installs what the tests install, but for pytest."""
    tested = re.search(r"packages='(.*?)'", (TOP / "studies/test").read_text())[1].split()
    told = re.search(r"^\$ apt-get install --no-install-recommends (.*)$", (TOP / "docs/STUDIES.md").read_text(), re.M)[1].split()
    assert set(tested) - {"python3-pytest"} == set(told)
