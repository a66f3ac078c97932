"""Who runs whose code: hosts, parasites and hyperparasites by what they do, from checkpoints or a dump.

  zuldokan roles tierra.hold > roles.csv                      a row for each genotype
  zuldokan roles tierra.hold --creatures > creatures.csv      a row for each creature at each checkpoint
  zuldokan roles tierra.hold --counts > counts.csv            living creatures of each role over time
  zuldokan roles tierra.hold --graph graph.graphml            who runs in whom: an edge from a genotype to the one whose cells it runs
  tierra dump --quanta 1600000 < soup.toml | zuldokan roles - --creatures

For each creature two places are looked up: `runs`, whose cell its ip is at, and `copies`, whose genome it is copying. Each is `own`,
`daughter` (its own daughter block), `other` (another creature's block or daughter block) or `free`; `copies` is empty unless ax lies in
the creature's daughter block. The genome's start is then bx - (ax - the daughter's first cell). What is looked up is its third cell,
since ax and bx are not moved at once.
The role of a genotype follows from all its creatures that were seen, and from what becomes of it when it is run alone. It is fertile if
it breeds true, or breeds another from which some steps lead to one that does: `zuldokan assay --help` has the rule, and the words
for settings, quanta and the file of results are the same here.

  parasite        runs cells of others, and is not fertile alone
  hyperparasite   is fertile alone, and of the parasites that were seen copying in its cells, at least three, more than half copied
                  its own genome
  host            is fertile alone, and a parasite ran its cells
  self            is fertile alone, and no parasite was seen in its cells
  idle            is not fertile alone, and was never seen to run cells of others

In the table of genotypes, seen counts its creatures at all checkpoints, runs_own to runs_free where they ran, fate and fertile are those
of `assay`, visits the parasites that ran its cells, copying those of them that were copying a genome, and robbed those that were copying
its own. said tells in a line what was run and seen.

A checkpoint is one moment: a genotype that lives between two checkpoints is not seen. Counts are of creatures at checkpoints.
"""
import argparse
import pathlib
import sys
from typing import Any

import networkx
import numpy
import pandas

from . import alone, assay, files, printed, soup
from .refusal import Refused

ROLES = ["host", "hyperparasite", "self", "parasite", "idle"]
PLACES = ["own", "daughter", "other", "free"]


def add_arguments(parser: argparse.ArgumentParser) -> None:
    parser.add_argument("file", help="a file of checkpoints, or a dump; - for a dump from standard input")
    parser.add_argument("--soup", help="the soup file of the checkpoints; without it, they may be of any setup")
    shown = parser.add_mutually_exclusive_group()
    shown.add_argument("--creatures", action="store_true", help="a row for each creature, without roles")
    shown.add_argument("--counts", action="store_true", help="how many creatures of each role live, over time")
    parser.add_argument("--graph", type=pathlib.Path, help="write the graph of who runs in whom to this file (GraphML)")
    alone.add_arguments(parser)


def owners_of(creatures: pandas.DataFrame, size: int) -> numpy.ndarray:
    """The row of each cell's owner, k for a block and -2 - k for a daughter block, -1 for a free cell."""
    owners = numpy.full(size, -1, "int64")
    for k, row in enumerate(creatures[["at", "size", "daughter_at", "daughter_size"]].to_numpy()):
        owners[row[0] : row[0] + row[1]] = k
        owners[row[2] : row[2] + row[3]] = -2 - k
    return owners


def looked_up(creatures: pandas.DataFrame, owners: numpy.ndarray, cells: numpy.ndarray) -> tuple[numpy.ndarray, numpy.ndarray]:
    """Whose cells these are, one for each creature: its kind of place, and the row of the owner or -1."""
    found, mine = owners[cells], numpy.arange(len(creatures))
    whose = numpy.where(found < -1, -2 - found, found)
    kinds = numpy.select([found == -1, found == mine, whose == mine], ["free", "own", "daughter"], "other")
    return kinds, whose


def sources(creatures: pandas.DataFrame, size: int) -> tuple[numpy.ndarray, numpy.ndarray]:
    """The third cell of the genome that each creature is copying, and whether it is copying one."""
    done, whole = creatures.ax.to_numpy() % size - creatures.daughter_at.to_numpy(), creatures.daughter_size.to_numpy()
    return (creatures.bx.to_numpy() - done + 2) % size, (done >= 0) & (done <= whole) & (whole > 0)


def who_runs_whom(creatures: pandas.DataFrame, size: int, quantum: int) -> pandas.DataFrame:
    """A row for each creature of a moment: its name, whose cells it runs and whose genome it copies."""
    owners, names = owners_of(creatures, size), creatures.name.to_numpy()
    table = pandas.DataFrame({"quantum": quantum, "id": creatures.id, "name": names, "at": creatures["at"], "size": creatures["size"]})
    cells, is_copying = sources(creatures, size)
    places = {"runs": looked_up(creatures, owners, creatures.ip.to_numpy()), "copies": looked_up(creatures, owners, cells)}
    for column, (kinds, whose) in places.items():
        table[column] = kinds
        table[f"{column}_name"] = numpy.where(whose >= 0, names[whose], None)
    table.loc[~is_copying, ["copies", "copies_name"]] = None
    same = places["runs"][1] == places["copies"][1]
    table["copies_host"] = same & is_copying & (table.runs == "other")
    return table


def seen_in(worlds: list[files.World]) -> pandas.DataFrame:
    """The rows of all creatures of all worlds."""
    tables = []
    for world in worlds:
        named = world.creatures.assign(name=worlds[-1].genotypes.name.loc[world.creatures.genotype].values)
        tables.append(who_runs_whom(named, len(world.cells), world.quanta))
    return pandas.concat(tables, ignore_index=True)


def roles(seen: pandas.DataFrame, fates: pandas.DataFrame) -> pandas.DataFrame:
    """The table of genotypes: how many of its creatures were seen, where they ran, and the role. `fates` is the table of `assay`."""
    where = seen.groupby(["name", "runs"]).size().unstack(fill_value=0).reindex(columns=PLACES, fill_value=0)
    table = where.add_prefix("runs_").astype("int64")
    table.insert(0, "seen", where.sum(axis=1))
    table[["fate", "fertile"]] = fates.set_index("name")[["fate", "fertile"]].loc[table.index]
    parasites = set(table.index[(table.runs_other > 0) & ~table.fertile])
    visits = seen[(seen.runs == "other") & seen.name.isin(parasites)]
    table["visits"] = visits.groupby("runs_name").size().reindex(table.index, fill_value=0)
    table["copying"] = visits.groupby("runs_name").copies.count().reindex(table.index, fill_value=0)
    table["robbed"] = visits.groupby("runs_name").copies_host.sum().reindex(table.index, fill_value=0)
    table["role"] = [role_of(row.Index in parasites, row) for row in table.itertuples()]
    said = fates.set_index("name").said
    table["said"] = [f"{said_of(row)}; {said[row.Index]}" for row in table.itertuples()]
    return table


def role_of(is_parasite: bool, row: Any) -> str:
    """The role of a genotype, from its row of the table."""
    if not row.fertile:
        return "parasite" if is_parasite else "idle"
    if not row.visits:
        return "self"
    return "hyperparasite" if row.copying >= 3 and 2 * row.robbed > row.copying else "host"


def said_of(row: Any) -> str:
    """What was seen of a genotype, from its row of the table."""
    said = f"{row.seen} seen with {row.runs_other} in cells of others; {row.visits} parasites in its cells"
    return said + (f" with {row.copying} copying and {row.robbed} of these its own genome" if row.copying else "")


def counts(seen: pandas.DataFrame, table: pandas.DataFrame) -> pandas.DataFrame:
    """How many creatures of each role live at each checkpoint."""
    by_role = seen.assign(role=table.role.loc[seen.name].values).groupby(["quantum", "role"]).size().unstack(fill_value=0)
    return by_role.reindex(columns=ROLES, fill_value=0)


def graph(seen: pandas.DataFrame, table: pandas.DataFrame | None = None) -> networkx.DiGraph:
    """Who runs in whom: a node for each genotype, and an edge for each pair of which one was seen in cells of the other; `times` counts
    the creatures, and `copying` those that were copying from its block."""
    made = networkx.DiGraph()
    for name in sorted(set(seen.name)):
        made.add_node(name, size=int(name[: len(name.rstrip("abcdefghijklmnopqrstuvwxyz"))]))
        if table is not None:
            made.nodes[name]["role"] = table.role[name]
    for (one, other), rows in seen[seen.runs == "other"].groupby(["name", "runs_name"]):
        made.add_edge(one, other, times=len(rows), copying=int(rows.copies_host.sum()))
    return made


def codes_in(text: str, creatures: pandas.DataFrame) -> dict[str, bytes]:
    """The code of each genotype of a dump, as the block of its first creature holds it now."""
    cells: dict[int, int] = {}
    for line in text.splitlines():
        if line[7:8] == ":":
            cells.update(enumerate(bytes.fromhex(line[8:]), int(line[:7])))
    return {
        row.name: bytes(cells.get(cell, 0) for cell in range(row.at, row.at + row.size))
        for row in creatures.drop_duplicates("name").itertuples(index=False)
    }


def read(path: str, digest: bytes | None = None) -> tuple[pandas.DataFrame, dict[str, bytes]]:
    """What a file of checkpoints or a dump shows: the rows of its creatures, and the genotypes' codes."""
    if path == "-" or open(path, "rb").read(7) == b"quanta ":
        text = sys.stdin.read() if path == "-" else soup.text_in(path)
        creatures = printed.creatures_in(text)
        rows = [line for line in text.splitlines() if line[7:8] == ":"]
        ends = [creatures["at"] + creatures["size"], creatures.daughter_at + creatures.daughter_size, creatures.ip + 1]
        size = max(max(end.max() for end in ends), max((int(row[:7]) + 32 for row in rows), default=0))
        return who_runs_whom(creatures, int(size), printed.report_in(text)[0]["quanta"]), codes_in(text, creatures)
    worlds = files.read_hold(path, digest)
    if not worlds:
        raise Refused(f"{path} holds no checkpoint")
    genotypes = worlds[-1].genotypes
    return seen_in(worlds), dict(zip(genotypes.name, genotypes.code))


def run(args: argparse.Namespace) -> None:
    seen, codes = read(args.file, soup.digest_of(args.soup))
    if args.creatures:
        seen.to_csv(sys.stdout, index=False)
        return
    table = roles(seen, assay.table_of({name: codes[name] for name in sorted(set(seen.name))}, alone.bench_of(args)))
    if args.graph:
        networkx.write_graphml(graph(seen, table), args.graph)
    shown = counts(seen, table) if args.counts else table
    shown.to_csv(sys.stdout)
