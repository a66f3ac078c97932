"""The landscape of a genotype: what each of its one-mutants does alone (CSV), and a heat map.

  zuldokan landscape examples/0080aaa.listing --picture landscape.png > landscape.csv
  zuldokan landscape tierra.hold 0075acr --by place

Each instruction is replaced by each of the 31 others, and each mutant is run alone as `zuldokan assay` runs genotypes, with the same words
for settings, quanta and the file of results. A row for each: place (from 0), before, after, is_flip (whether one flipped bit makes it, as
a mutation does), does, births, first_run (instructions for its first daughter), cost (first_run against that of the genotype itself), said.

does is `true` where the mutant breeds true; `fertile` where it breeds another and this leads to one that breeds true; `barren` where it
breeds another and does not; `blanks`; or `sterile`. --by place or --by instruction counts these (instruction is the one put in).
"""
import argparse
import pathlib
import sys

import numpy
import pandas

from . import alone, mutants, soup


def add_arguments(parser: argparse.ArgumentParser) -> None:
    mutants.add_arguments(parser)
    parser.add_argument("--by", choices=["place", "instruction"], help="how many do what, by place or by instruction")


def landscape(code: bytes, bench: alone.Bench) -> pandas.DataFrame:
    """The table of all one-mutants."""
    return mutants.table_of(code, mutants.mutants(code, range(32)), bench)


def counted(table: pandas.DataFrame, by: str) -> pandas.DataFrame:
    """How many mutants do what, by place or by the instruction that was put in."""
    column, order = {"place": ("place", None), "instruction": ("after", soup.INSTRUCTIONS)}[by]
    wide = table.groupby([column, "does"]).size().unstack(fill_value=0)
    kinds = [kind for kind in mutants.COLOURS if kind != "itself"]
    return wide.reindex(index=order, columns=kinds, fill_value=0).rename_axis(by)


def grids(code: bytes, table: pandas.DataFrame) -> tuple[numpy.ndarray, numpy.ndarray]:
    """What is done and at what cost, by instruction and place; the cost of those alone that breed true."""
    kinds = list(mutants.COLOURS)
    done, cost = numpy.full((32, len(code)), kinds.index("itself")), numpy.full((32, len(code)), numpy.nan)
    for row in table.itertuples():
        done[soup.CODE_OF[row.after], row.place] = kinds.index(row.does)
        if row.does == "true":
            cost[soup.CODE_OF[row.after], row.place] = row.cost
    return done, cost


def draw(path: pathlib.Path, name: str, code: bytes, table: pandas.DataFrame) -> None:
    """The heat map: above what each mutant does, below the cost of the first daughter of those that breed true."""
    from . import picture

    done, cost = grids(code, table)
    colours = picture.matplotlib.colors.ListedColormap(list(mutants.COLOURS.values()))
    with picture.matplotlib.rc_context(picture.STYLE):
        figure, (above, below) = picture.pyplot.subplots(2, 1, figsize=(11, 9), layout="constrained", sharex=True)
        above.imshow(done, cmap=colours, vmin=-0.5, vmax=len(mutants.COLOURS) - 0.5, aspect="auto", interpolation="none")
        picture.key_beside(above, mutants.COLOURS)
        shown = below.imshow(cost, cmap="RdBu_r", vmin=0.9, vmax=1.1, aspect="auto", interpolation="none")
        figure.colorbar(shown, ax=below, label="cost of the first daughter, 1 is the genotype's own", extend="both")
        for axis in (above, below):
            axis.set_yticks(range(32), soup.INSTRUCTIONS, fontsize=6)
            axis.set_ylabel("instruction put in")
        above.set_title(f"One-mutants of {name}, and the cost of those that breed true", fontsize=10)
        below.set_xlabel("place")
        picture.save(figure, path)


def run(args: argparse.Namespace) -> None:
    name, code = mutants.code_of(args.file, args.name)
    mutants.check_picture(args.picture)
    table = landscape(code, alone.bench_of(args))
    (counted(table, args.by) if args.by else table).to_csv(sys.stdout, index=bool(args.by))
    if args.picture:
        draw(args.picture, name, code, table)
