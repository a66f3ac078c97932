"""The genotypes of a genebank or of checkpoints as FASTA, as .tie files of Tierra, or as listings.

  zuldokan genotypes tierra.bank > genotypes.fasta
  zuldokan genotypes tierra.bank --as tie --only 0044aac > 0044aac.tie
  zuldokan genotypes tierra.hold --as listing --only 0044aac > 0044aac.listing

FASTA has a letter for each instruction, by the order of the codes: A to Z stand for 00 to 19, and 2 to 7 for 1a to 1f (hexadecimal). That
is the alphabet of base32 (RFC 4648). `seqkit --seq-type unlimit`, `mafft --text`, Biopython and scikit-bio's `Sequence` take it. The head
of a record is the name, then the quantum that saved the genotype, or of its first individual, its parent and its efforts, as `key=value`.
A .tie has Tierra's names of instructions, and its header as far as it is known here: the genotype, its parent, and what its first two
daughters cost. `zuldokan listing` reads FASTA and .tie back.
"""
import argparse
import pathlib
import sys

import pandas

from . import files, soup
from .refusal import Refused

ALPHABET = "ABCDEFGHIJKLMNOPQRSTUVWXYZ234567"
# Tierra's names of the instructions, in the order of their codes.
TIERRA = (
    # instructions: made by docs/make_tables
    "nop0 nop1 not0 shl zero ifz subCAB subAAC incA incB decC incC pushA pushB pushC pushD popA popB popC "
    "popD jmpo jmpb call ret movDC movBA movii adro adrb adrf mal divide"
    # end of instructions
).split()


def add_arguments(parser: argparse.ArgumentParser) -> None:
    parser.add_argument("file", help="a genebank or a file of checkpoints")
    parser.add_argument("--as", dest="kind", choices=["fasta", "tie", "listing"], default="fasta")
    parser.add_argument("--only", nargs="+", metavar="NAME", help="these genotypes; .tie and listing take one")
    parser.add_argument("--soup", help="its soup file; without it, the file may be of any setup")


def all_in(path: str | pathlib.Path, digest: bytes | None = None) -> dict[str, files.Saved]:
    """The genotypes of a file, by name."""
    if files.kind_of(path) == "bank":
        return {one.name: one for one in files.read_bank(path, digest)}
    worlds = files.read_hold(path, digest)
    if not worlds:
        raise Refused(f"{path} holds no checkpoint")
    return all_of(worlds[-1])


def all_of(world: files.World) -> dict[str, files.Saved]:
    """The genotypes of a world, by name. `quantum` is that of the first individual."""
    table, found = world.genotypes, {}
    for row in table.itertuples():
        efforts = {effort: None if pandas.isna(getattr(row, effort)) else int(getattr(row, effort)) for effort in files.EFFORTS}
        parent = None if pandas.isna(row.parent) else table.name[row.parent]
        found[row.name] = files.Saved(row.name, row.size, row.first_quantum, parent, efforts, row.code)
    return found


def chosen(found: dict[str, files.Saved], names: list[str] | None, path: str | pathlib.Path) -> list[files.Saved]:
    """The genotypes of these names, or all."""
    for name in names or []:
        if name not in found:
            raise Refused(f"{path} has no genotype {name}")
    return [found[name] for name in names or found]


def letters(code: bytes) -> str:
    """The letters of a code."""
    return "".join(ALPHABET[op] for op in code)


def fasta(one: files.Saved) -> str:
    """The record of a genotype."""
    efforts = " ".join(f"{key}={value}" for key, value in one.efforts.items() if value is not None)
    text = letters(one.code)
    lines = [text[at : at + 60] for at in range(0, len(text), 60)]
    return "\n".join([f">{one.name} quantum={one.quantum} parent={one.parent or 'none'} {efforts}".rstrip(), *lines]) + "\n"


def tie(one: files.Saved) -> str:
    """The .tie file of a genotype."""
    lines = ["", "format: 3  bits: 0", f"genotype: {one.name}  parent genotype: {one.parent or '0666god'}"]
    for title, which in (("1st_daughter", "first"), ("2nd_daughter", "second")):
        if one.efforts[which + "_run"] is not None:
            lines.append(f"{title}:  flags: 0  inst: {one.efforts[which + '_run']}  mov_daught: {one.efforts[which + '_moved']}")
    lines += ["ploidy: 1  track: 0", f"comments: saved in quantum {one.quantum}", "CODE", "", "track 0:", ""]
    lines += [f"{TIERRA[op]:8}; {op:05b} {place:4}" for place, op in enumerate(one.code)]
    return "\n".join(lines) + "\n"


def listing(one: files.Saved) -> str:
    """The listing of a genotype."""
    return f"; {one.name}, quantum {one.quantum}, parent {one.parent or 'none'}\n" + soup.listing_of_code(one.code)


def run(args: argparse.Namespace) -> None:
    found = chosen(all_in(args.file, soup.digest_of(args.soup)), args.only, args.file)
    if args.kind != "fasta" and len(found) != 1:
        raise Refused(f"--as {args.kind} takes one genotype: name it with --only")
    made = {"fasta": fasta, "tie": tie, "listing": listing}[args.kind]
    sys.stdout.write("".join(map(made, found)))
