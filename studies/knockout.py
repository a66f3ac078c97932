"""Which instructions a genotype needs: each is replaced by nop_0 and by nop_1 (CSV), and a picture.

  zuldokan knockout examples/0080aaa.listing --picture knockout.png > knockout.csv

Each mutant is run alone as `zuldokan assay` runs genotypes, with the same words. A row for each place (from 0): instruction; nop_0 and
nop_1, what the mutant does that has this there (`itself` where it is there already, and else as in `zuldokan landscape`); cost_nop_0 and
cost_nop_1, what its first daughter costs against the genotype's own; needed: whether no replacement breeds true.
"""
import argparse
import pathlib
import sys

import pandas

from . import alone, mutants, soup

NOPS = {"nop_0": 0, "nop_1": 1}


def add_arguments(parser: argparse.ArgumentParser) -> None:
    mutants.add_arguments(parser)


def knockout(code: bytes, bench: alone.Bench) -> pandas.DataFrame:
    """The table of places."""
    table = mutants.table_of(code, mutants.mutants(code, NOPS.values()), bench)
    done = {(row.place, row.after): (row.does, row.cost) for row in table.itertuples()}
    rows = []
    for place, op in enumerate(code):
        found = {nop: done.get((place, nop), ("itself", 1.0)) for nop in NOPS}
        row = {"place": place, "instruction": soup.INSTRUCTIONS[op], **{nop: does for nop, (does, _) in found.items()}}
        row |= {f"cost_{nop}": cost for nop, (_, cost) in found.items()}
        rows.append(row | {"needed": not any(does == "true" for does, _ in found.values())})
    return pandas.DataFrame(rows)


def draw(path: pathlib.Path, name: str, table: pandas.DataFrame) -> None:
    """Two rows of cells, one for each nop, with the instructions' names below."""
    from . import picture

    kinds = list(mutants.COLOURS)
    colours = picture.matplotlib.colors.ListedColormap(list(mutants.COLOURS.values()))
    with picture.matplotlib.rc_context(picture.STYLE):
        figure, axis = picture.pyplot.subplots(figsize=(12, 2.6), layout="constrained")
        cells = [[kinds.index(does) for does in table[nop]] for nop in NOPS]
        axis.imshow(cells, cmap=colours, vmin=-0.5, vmax=len(kinds) - 0.5, aspect="auto", interpolation="none")
        axis.set_yticks(range(2), list(NOPS))
        axis.set_xticks(table.place, [f"{row.instruction} {row.place}" for row in table.itertuples()], fontsize=5, rotation=90)
        axis.set_title(f"Each instruction of {name} replaced by a nop", fontsize=10)
        picture.key_beside(axis, mutants.COLOURS)
        picture.save(figure, path)


def run(args: argparse.Namespace) -> None:
    name, code = mutants.code_of(args.file, args.name)
    mutants.check_picture(args.picture)
    table = knockout(code, alone.bench_of(args))
    table.to_csv(sys.stdout, index=False)
    if args.picture:
        draw(args.picture, name, table)
