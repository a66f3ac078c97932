"""How many of each genotype live over time (CSV): a row for each checkpoint, a column for each genotype.

  zuldokan abundance tierra.hold --most 30 > abundance.csv
  zuldokan abundance tierra.hold --by size > sizes.csv

The columns stand in Muller order: each genotype after its parent, its descendants together. `--most` keeps the genotypes that had
the most individuals at any checkpoint, and adds up the others in the column `others`. Unit: living creatures.
"""
import argparse
import sys

import pandas

from . import files, frames


def add_arguments(parser: argparse.ArgumentParser) -> None:
    frames.add_hold(parser)
    parser.add_argument("--by", choices=["genotype", "size"], default="genotype")
    parser.add_argument("--most", type=int, help="how many genotypes have a column of their own (default all)")


def muller_order(genotypes: pandas.DataFrame) -> list[int]:
    """The numbers of the genotypes, each after its parent and before its parent's later daughters: the order of a Muller plot."""
    daughters: dict[int | None, list[int]] = {}
    for row in genotypes[["genotype", "parent"]].itertuples(index=False):
        daughters.setdefault(None if row.parent is None or row.parent != row.parent else int(row.parent), []).append(row.genotype)
    order, waiting = [], daughters.get(None, [])[::-1]
    while waiting:
        order.append(waiting.pop())
        waiting += daughters.get(order[-1], [])[::-1]
    return order


def abundance(worlds: list[files.World], by: str = "genotype", most: int | None = None) -> pandas.DataFrame:
    """The table of living creatures by quantum and by the names of genotypes, or by sizes."""
    table = frames.living(worlds)
    if by == "size":
        return table.pivot_table(index="quantum", columns="size", values="living", aggfunc="sum", fill_value=0)
    wide = table.pivot_table(index="quantum", columns="genotype", values="living", aggfunc="sum", fill_value=0)
    genotypes = worlds[-1].genotypes
    known = genotypes.assign(parent=genotypes.parent.astype(object).where(genotypes.parent.notna(), None))
    kept = set(wide.max().sort_values(ascending=False, kind="stable").index[:most])
    shown = wide[[number for number in muller_order(known) if number in kept]].copy()
    others = wide.drop(columns=shown.columns).sum(axis=1)
    shown.columns = genotypes.name.loc[shown.columns]
    shown.columns.name = None
    if most is not None and most < wide.shape[1]:
        shown["others"] = others
    return shown


def size_class(size: int) -> str:
    """The ten sizes that a size is one of, in words."""
    return f"{size // 10 * 10} to {size // 10 * 10 + 9}"


def with_size_classes(worlds: list[files.World], most: int, share: float = 0.25) -> pandas.DataFrame:
    """The table with the others by classes of size: as many of these as it takes until the rest is at most such a share of all creatures."""
    living = frames.living(worlds)
    shown = abundance(worlds, most=most)
    genotypes = [column for column in shown.columns if column != "others"]
    left = living[~living.name.isin(genotypes)]
    wide = left.assign(kind=left["size"].map(size_class)).pivot_table(index="quantum", columns="kind", values="living", aggfunc="sum")
    wide = wide.reindex(shown.index).fillna(0).astype("int64")
    largest = wide.sum().sort_values(ascending=False, kind="stable")
    rest = largest[::-1].cumsum()[::-1].shift(-1, fill_value=0)
    kept = largest.index[: int((rest > share * living.living.sum()).sum()) + 1]
    classes = sorted(kept, key=lambda kind: int(kind.split()[0]))
    made = shown[genotypes].join(wide[classes].add_prefix("others of "))
    others = wide.drop(columns=classes).sum(axis=1)
    return made.assign(others=others) if others.any() else made


def run(args: argparse.Namespace) -> None:
    abundance(frames.worlds_of(args), args.by, args.most).to_csv(sys.stdout)
