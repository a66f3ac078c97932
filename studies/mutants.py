"""Mutants of a genotype, and what becomes of each alone: what `landscape` and `knockout` share."""
import argparse
import pathlib
from typing import Iterable, NamedTuple

import pandas

from . import alone, assay, soup
from .refusal import Refused

# What a mutant does alone, with its colour. One that breeds another is fertile if its way leads to one that breeds true, and else barren.
COLOURS = {
    "true": "#0072B2", "fertile": "#56B4E9", "barren": "#E69F00", "blanks": "#F0E442", "sterile": "#D0D0D0", "itself": "#000000",
}  # fmt: skip


class Mutant(NamedTuple):
    """A genotype with another instruction at one place."""

    place: int
    after: int
    code: bytes


def add_arguments(parser: argparse.ArgumentParser) -> None:
    parser.add_argument("file", help="a genebank, a file of checkpoints, FASTA, or a listing (FILE.listing)")
    parser.add_argument("name", nargs="?", help="the genotype, if the file has several")
    parser.add_argument("--picture", type=pathlib.Path, help="draw it to this file (.svg or .png)")
    alone.add_arguments(parser)


def code_of(path: str, name: str | None) -> tuple[str, bytes]:
    """The name and code of the genotype that the words name."""
    found = assay.codes_of(path, [name] if name else None)
    if len(found) != 1:
        raise Refused(f"{path} has {len(found)} genotypes: name one")
    return next(iter(found.items()))


def mutants(code: bytes, ops: Iterable[int]) -> list[Mutant]:
    """All codes with one of these instructions at one place, where it has another."""
    asked = list(ops)
    return [
        Mutant(place, after, code[:place] + bytes([after]) + code[place + 1 :])
        for place, before in enumerate(code)
        for after in asked
        if after != before
    ]


def does(fate: assay.Fate) -> str:
    """What a genotype does alone, in the words of COLOURS."""
    if fate.kind != "another":
        return fate.kind
    return "fertile" if fate.is_fertile else "barren"


def table_of(code: bytes, some: list[Mutant], bench: alone.Bench) -> pandas.DataFrame:
    """A row for each mutant. `cost` is what its first daughter costs against the parent's first."""
    found = assay.fates([code, *(one.code for one in some)], bench)
    whole = found[code].seen.efforts["first_run"]
    rows = []
    for place, after, mutant in some:
        fate = found[mutant]
        run = fate.seen.efforts["first_run"]
        row = {"place": place, "before": soup.INSTRUCTIONS[code[place]], "after": soup.INSTRUCTIONS[after]}
        row |= {"is_flip": (code[place] ^ after).bit_count() == 1, "does": does(fate), "births": fate.seen.births, "first_run": run}
        rows.append(row | {"cost": run / whole if run and whole else None, "said": f"{bench.said()}: {assay.said_of(fate, {})}"})
    return pandas.DataFrame(rows).astype({"first_run": "Int64"})


def check_picture(path: pathlib.Path | None) -> None:
    """Refuses a picture of another kind before anything is run."""
    if path is not None and path.suffix not in (".svg", ".png"):
        raise Refused(f"{path} ends with neither .svg nor .png")
