"""Turns a .tie file of Tierra, or a record of FASTA, into a listing for `tierra`.

  zuldokan listing < 0080aaa.tie | tierra asm
  zuldokan listing --only 0044aac < genotypes.fasta | tierra grow

Of a .tie the header is dropped, up to the line `CODE` if there is one, and instructions get the names of docs/RULES.md. Known are the
names of Tierra's releases in any case and with or without underscores: nop1, nop_1; not0, or1; subCAB, sub_ab; incA, incax, inc_a;
pushA, pushax; movDC, movdc, mov_cd; movii, mov_iab; adro; and so on. What follows a semicolon is a comment. Any other word is refused
with its line, and so is a second track; the heading `xwr` below `track 0: prot` is dropped. FASTA has the alphabet of `zuldokan genotypes`.
"""
import argparse
import re
import sys

from . import genotypes, soup
from .refusal import Refused


def spellings() -> dict[str, str]:
    """Our name of each name that Tierra's releases have, in lower case and without underscores."""
    ours = {}
    for theirs, name in zip(genotypes.TIERRA, soup.INSTRUCTIONS):
        for word in (theirs, name, re.sub(r"^(push|pop|inc|dec)(.)$", r"\1\2x", theirs)):
            ours[word.lower().replace("_", "")] = name
    return ours


SPELLINGS = spellings()


def add_arguments(parser: argparse.ArgumentParser) -> None:
    parser.add_argument("--only", metavar="NAME", help="the record of FASTA to take, if there are several")


def of_tie(text: str) -> bytes:
    """The code of a .tie file's text."""
    lines = text.splitlines()
    heads = [number for number, line in enumerate(lines) if line.strip() == "CODE" or line.startswith("CODE ")]
    code = bytearray()
    words: list[str] = []
    for number, line in enumerate(lines[heads[-1] + 1 if heads else 0 :], (heads[-1] + 2 if heads else 1)):
        before, words = words, line.partition(";")[0].split()
        if words[:1] == ["track"]:
            if words[1:2] != ["0:"]:
                raise Refused(f"line {number}: a second track")
            continue
        if before[:1] == ["track"] and words == ["xwr"]:  # the heading of a column of permissions
            continue
        for word in words:
            name = SPELLINGS.get(word.lower().replace("_", ""))
            if name is None:
                raise Refused(f"line {number}: unknown instruction {word}")
            code.append(soup.CODE_OF[name])
    if not code:
        raise Refused("no instructions")
    return bytes(code)


def of_fasta(text: str) -> dict[str, bytes]:
    """The code of each record of FASTA, by name."""
    found: dict[str, bytes] = {}
    name: str | None = None
    for number, line in enumerate(text.splitlines(), 1):
        if line.startswith(">"):
            name = (line[1:].split() or [""])[0]
            if name in found:
                raise Refused(f"line {number}: {name} comes twice")
            found[name] = b""
        elif name is None:
            if line.strip():
                raise Refused(f"line {number}: no head of a record before it")
        else:
            for letter in line.strip():
                if letter not in genotypes.ALPHABET:
                    raise Refused(f"line {number}: {letter} stands for no instruction")
            found[name] = found.get(name, b"") + bytes(map(genotypes.ALPHABET.index, line.strip()))
    for name, code in found.items():
        if not code:
            raise Refused(f"{name} has no instructions")
    return found


def code_of(text: str, only: str | None = None) -> bytes:
    """The code of a .tie file's text, or of a record of FASTA."""
    if not text.lstrip().startswith(">"):
        return of_tie(text)
    found = of_fasta(text)
    if only is None and len(found) != 1:
        raise Refused(f"there are {len(found)} records: name one with --only")
    if only is not None and only not in found:
        raise Refused(f"there is no record {only}")
    return found[only] if only else next(iter(found.values()))


def run(args: argparse.Namespace) -> None:
    sys.stdout.write(soup.listing_of_code(code_of(sys.stdin.read(), args.only), words=1))
