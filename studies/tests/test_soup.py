"""Soup files and listings, against the tables of docs/RULES.md and docs/FORMATS.md."""
import re
import resource
import subprocess
import tomllib

import pytest

from studies import files, soup
from studies.refusal import Refused

from .conftest import DATA, TOP

RULES, FORMATS = ((TOP / "docs" / page).read_text() for page in ("RULES.md", "FORMATS.md"))


def test_instructions_are_those_of_the_rules():
    table = RULES.split("| code | name | meaning |")[1].split("\n\n")[0]
    told = {}
    for codes, names in re.findall(r"^\| ([0-9a-f][0-9a-f to]*) \| ([\w ]+?) \|", table, re.M):
        if " to " in codes:
            first, last = (int(code, 16) for code in codes.split(" to "))
            codes = " ".join(f"{code:02x}" for code in range(first, last + 1))
        told.update(zip((int(code, 16) for code in codes.split()), names.replace(" to ", " ").split()))
    assert {code: name for code, name in enumerate(soup.INSTRUCTIONS) if told.get(code) == name} == told
    assert len(told) == 32


def test_settings_are_those_of_the_formats():
    told = {}
    for keys, kind, default in re.findall(r"^\| (`\w+`.*?) \| (integer|string|boolean) \| (.*?) \|", FORMATS, re.M):
        value = {"integer": int, "boolean": lambda text: text == "true", "string": lambda text: "0" * 64}[kind](default)
        told |= dict.fromkeys(re.findall(r"`(\w+)`", keys), value)
    assert told == soup.SETTINGS


@pytest.mark.parametrize("name, file", [("mixed", "mixed.hold"), ("mixed", "mixed.bank"), ("small", "small.hold")])
def test_digest_is_the_programs(name, file):
    assert soup.digest(soup.read(DATA / f"{name}.toml")) == files.setup_of(DATA / file)


@pytest.mark.parametrize("row", ["soup_size = '60000'", "save_at = true", "slice_by_size = 1", "copy_rate = 5.0", "seed = 5", "save_at = -1"])
def test_a_value_of_another_kind_has_no_digest(row):
    with pytest.raises(Refused, match="another kind or range"):
        soup.digest(soup.parse(row + "\n[[creature]]\nat = 0\ncode = 'zero'\n"))


def test_listing_and_back():
    code = bytes(range(32))
    assert soup.code_of_listing(soup.listing_of_code(code)) == code
    with pytest.raises(Refused, match="line 2: unknown instruction zoro"):
        soup.code_of_listing("zero ; zoro\nzoro")
    with pytest.raises(Refused, match="empty"):
        soup.code_of_listing("; nothing\n")


def test_creatures_are_put_in(monkeypatch):
    document = soup.read(TOP / "examples/soup.toml")
    text = soup.text_of(soup.with_creatures(document, [(7, b"\x00\x1f", "0002aaa of a run"), (20, b"\x04", None)]))
    said = tomllib.loads(text)
    assert [(one["at"], one["code"].split()) for one in said["creature"]] == [(7, ["nop_0", "divide"]), (20, ["zero"])]
    assert "# 0002aaa of a run" in text and "# cells" in text
    assert soup.MOST_BYTES == 1048576  # of docs/FORMATS.md, "What the words ask for"
    monkeypatch.setattr(soup, "MOST_BYTES", len(text) - 1)
    with pytest.raises(Refused, match="the soup file would have"):
        soup.text_of(soup.parse(text))


IS_DEEP = "soup file is not TOML (a key has more than 80 parts"
DEEP = {
    "80 parts": ("a" + ".b" * 79 + " = 1", "unknown key a"),
    "80 parts in a heading": ("[[a" + ' . "b"' * 79 + "]]\na" + ".b" * 79 + " = 1", "unknown key a"),
    "80 deep": ("a = " + "[" * 79 + "{b" + ".b" * 79 + " = 1}" + "]" * 79, "unknown key a"),
    "81 deep": ("a = " + "[" * 80 + "{b = 1}" + "]" * 80, IS_DEEP),
    "81 parts": ("a" + ".b" * 80 + " = 1", IS_DEEP),
    "81 parts in a heading": ("[[a" + ".b" * 80 + "]]", IS_DEEP),
    "100001 parts": ("a" + ".b" * 100000 + " = 1", IS_DEEP),
    "points that part no key": ("a = [" + "1.5, " * 200 + "'" + "[." * 200 + "'] # don't" + ".b" * 200, "unknown key a"),
}


@pytest.mark.parametrize("name", DEEP)
def test_check_soup_of_deep_files(tmp_path, name):
    """The program's bounds on depth, within 100 MB. Python's reader would take 40 GB for a key of 100001 parts."""
    text, said = DEEP[name]
    (tmp_path / "deep.toml").write_text(text + "\n")
    limit = lambda: resource.setrlimit(resource.RLIMIT_AS, (10**8, 10**8))  # noqa: E731
    answer = subprocess.run([TOP / "examples/check_soup", "deep.toml"], cwd=tmp_path, capture_output=True, text=True, preexec_fn=limit)
    assert answer.returncode == 2 and f": {said}" in answer.stdout
