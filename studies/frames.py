"""Tables (CSV) of what the checkpoints of a run hold: everything that `tierra hold` wrote, checkpoint by checkpoint.

  zuldokan frames tierra.hold --soup ../examples/parasites.toml --into tables

  counts.csv     a row for each checkpoint: quantum; births and deaths since the start; living creatures; filled cells;
                 genotypes that ever lived; saved genotypes
  living.csv     a row for each genotype that lives at a checkpoint: quantum, name, size (instructions), living
  creatures.csv  a row for each creature at a checkpoint: quantum, birth number, place and size (cells), daughter block, moved
                 (cells copied into it), registers, ip, flag, errors, ran (instructions since its last daughter), bred
                 (daughters), name, and its mother's efforts: those of its genotype's parent
  genotypes.csv  a row for each genotype that ever lived, as of the last checkpoint: name, size, parent, first quantum, total (how
                 many ever lived), efforts (instructions run and cells moved for the first and second daughter), quantum that saved
                 it, code in hexadecimal digits

The file's layout is in docs/FORMATS.md, "A world's bytes". A file that `hold` would refuse is refused.
"""
import argparse
import pathlib

import pandas

from . import files, soup
from .refusal import Refused


def add_hold(parser: argparse.ArgumentParser) -> None:
    """The words of every verb that reads checkpoints."""
    parser.add_argument("hold", help="a file of checkpoints, tierra.hold")
    parser.add_argument("--soup", help="its soup file; without it, the file may be of any setup")


def worlds_of(args: argparse.Namespace) -> list[files.World]:
    """The worlds of the file that the words name; a file with none is refused."""
    worlds = files.read_hold(args.hold, soup.digest_of(args.soup))
    if not worlds:
        raise Refused(f"{args.hold} holds no checkpoint")
    return worlds


def add_arguments(parser: argparse.ArgumentParser) -> None:
    add_hold(parser)
    parser.add_argument("--into", default=".", type=pathlib.Path, help="the folder of the tables (default this one)")


def counts(worlds: list[files.World]) -> pandas.DataFrame:
    """The counts of each world."""
    rows = [
        {
            "quantum": world.quanta, "births": world.births, "deaths": world.deaths, "living": len(world.records),
            "filled": int((world.owners != -1).sum()), "genotypes": len(world.genotypes), "kept": len(world.savings),
        }
        for world in worlds
    ]  # fmt: skip
    return pandas.DataFrame(rows)


def living(worlds: list[files.World]) -> pandas.DataFrame:
    """How many of each genotype live in each world, by the genotypes' numbers."""
    names = worlds[-1].genotypes
    tables = []
    for world in worlds:
        alive = world.creatures.genotype.value_counts().sort_index()
        tables.append(pandas.DataFrame({"quantum": world.quanta, "genotype": alive.index, "living": alive.values}))
    table = pandas.concat(tables, ignore_index=True)
    return table.merge(names[["genotype", "name", "size"]], on="genotype")[["quantum", "genotype", "name", "size", "living"]].sort_values(
        ["quantum", "genotype"], ignore_index=True
    )


def creatures(worlds: list[files.World]) -> pandas.DataFrame:
    """Every creature of each world, with the name of its genotype and the efforts of its genotype's parent."""
    tables = []
    for world in worlds:
        names = world.genotypes.set_index("genotype")
        table = world.creatures.copy()
        table.insert(0, "quantum", world.quanta)
        table["name"] = names.name.loc[table.genotype].values
        parents = names.parent.loc[table.genotype]
        for effort in files.EFFORTS:
            table[f"mother_{effort}"] = names[effort].reindex(parents).values
        tables.append(table)
    return pandas.concat(tables, ignore_index=True)


def genotypes(world: files.World) -> pandas.DataFrame:
    """Every genotype that ever lived in a world, with its parent's name, the quantum that saved it, and its code in digits."""
    table = world.genotypes.copy()
    table["parent"] = table.parent.map(table.name, na_action="ignore")
    table["saved"] = table.genotype.map(world.savings.set_index("genotype").saved).astype("Int64")
    table["code"] = table.code.map(bytes.hex)
    return table


def tables(worlds: list[files.World]) -> dict[str, pandas.DataFrame]:
    """The four tables by their names."""
    return {
        "counts": counts(worlds), "living": living(worlds), "creatures": creatures(worlds), "genotypes": genotypes(worlds[-1]),
    }  # fmt: skip


def run(args: argparse.Namespace) -> None:
    made = tables(worlds_of(args))
    args.into.mkdir(parents=True, exist_ok=True)
    for name, table in made.items():
        table.to_csv(args.into / f"{name}.csv", index=False)
