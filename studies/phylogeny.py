"""The tree of genotypes, as a table of the ALife data standard (CSV) and as Newick.

  zuldokan phylogeny tierra.hold > phylogeny.csv
  zuldokan phylogeny tierra.bank --newick tree.nwk > phylogeny.csv

A genotype's parent is the genotype of its first individual's mother. The columns of the standard
(https://alife-data-standards.github.io): id; ancestor_list, `[NONE]` or `[3]`; origin_time; destruction_time; taxon_label; sequence
(two hexadecimal digits an instruction). Then: size (instructions); first_run, first_moved, second_run, second_moved (instructions run
and cells moved for the first and second daughter); last_seen; abundance (individuals that ever lived) and living (at the last
checkpoint). Times are in quanta. A genebank does not say how many lived.

From checkpoints every genotype that ever lived is known. origin_time is the quantum of its first individual. A genotype that lives no
more at the last checkpoint was gone between `last_seen` (empty if no checkpoint saw it) and `destruction_time`, the first checkpoint
from which on none lived.

A genebank has only the genotypes that were saved. origin_time is then the latest that it can be: the quantum that saved the genotype
or one of its descendants. Parents that the genebank lacks are named on standard error; their daughters are roots, and the
column missing_parent has their names. To have all: `save_at = 1` in the soup file, or the checkpoints of `tierra hold`.

Newick: a line for each root; the length of a branch is the time from a parent's origin_time to its own. Every genotype is a node with
its name, also one that has descendants: ete3 calls this format 1, and reads it by `ete3.Tree(line, format=1)`.
"""
import argparse
import collections
import pathlib
import sys

import pandas

from . import files, soup
from .refusal import Refused

COLUMNS = ["id", "ancestor_list", "origin_time", "destruction_time", "taxon_label", "sequence", "size", *files.EFFORTS]


def add_arguments(parser: argparse.ArgumentParser) -> None:
    parser.add_argument("file", help="a genebank or a file of checkpoints")
    parser.add_argument("--soup", help="its soup file; without it, the file may be of any setup")
    parser.add_argument("--newick", type=pathlib.Path, help="write the tree to this file too")
    parser.add_argument("--living", action="store_true", help="only the genotypes that live at the last checkpoint, and their ancestors")


def of_worlds(worlds: list[files.World]) -> pandas.DataFrame:
    """The table of the genotypes of a run's checkpoints."""
    last = worlds[-1]
    times = [world.quanta for world in worlds]
    seen = {}
    for place, world in enumerate(worlds):
        seen.update(dict.fromkeys(map(int, world.records["genotype"]), place))
    rows, living = [], collections.Counter(map(int, last.records["genotype"]))
    for row in last.genotypes.itertuples():
        last_place = seen.get(row.genotype)
        later = [time for time in times if time >= row.first_quantum] if last_place is None else times[last_place + 1 :]
        gone = later[0] if later else None
        ancestor = "[NONE]" if pandas.isna(row.parent) else f"[{row.parent}]"
        efforts = [getattr(row, effort) for effort in files.EFFORTS]
        shown = None if last_place is None else times[last_place]
        begun = [row.genotype, ancestor, row.first_quantum, gone, row.name, row.code.hex(), row.size]
        rows.append([*begun, *efforts, shown, row.total, living[row.genotype]])
    return typed(pandas.DataFrame(rows, columns=[*COLUMNS, "last_seen", "abundance", "living"]))


def of_bank(saved: list[files.Saved]) -> pandas.DataFrame:
    """The table of a genebank's genotypes."""
    ids = {one.name: place for place, one in enumerate(saved)}
    times = [one.quantum for one in saved]
    for place in range(len(saved) - 1, -1, -1):  # a parent lived before its daughter was saved
        above, time = saved[place].parent, times[place]
        while above in ids and times[ids[above]] > time:
            times[ids[above]] = time
            above = saved[ids[above]].parent
    rows = []
    for place, one in enumerate(saved):
        ancestor = f"[{ids[one.parent]}]" if one.parent in ids else "[NONE]"
        missing = None if one.parent in ids else one.parent
        rows.append([place, ancestor, times[place], None, one.name, one.code.hex(), one.size, *one.efforts.values(), missing])
    return typed(pandas.DataFrame(rows, columns=[*COLUMNS, "missing_parent"]))


def typed(table: pandas.DataFrame) -> pandas.DataFrame:
    numbers = ["origin_time", "destruction_time", *files.EFFORTS, "last_seen"]
    return table.astype({column: "Int64" for column in numbers if column in table})


def parents_of(table: pandas.DataFrame) -> dict[int, int | None]:
    """The parent's id of each id, or None."""
    return {row.id: None if row.ancestor_list == "[NONE]" else int(row.ancestor_list[1:-1]) for row in table.itertuples()}


def of_the_living(table: pandas.DataFrame) -> pandas.DataFrame:
    """The rows of what lives at the last checkpoint, and of its ancestors."""
    parents, kept = parents_of(table), set()
    for one in table.id[table.destruction_time.isna()]:
        while one is not None and one not in kept:
            kept.add(one)
            one = parents[one]
    return table[table.id.isin(kept)].reset_index(drop=True)


def newick(table: pandas.DataFrame) -> str:
    """The trees of a table, a line for each root."""
    parents = parents_of(table)
    daughters: dict[int | None, list[int]] = {}
    for one, parent in parents.items():
        daughters.setdefault(parent, []).append(one)
    times, labels = dict(zip(table.id, table.origin_time)), dict(zip(table.id, table.taxon_label))
    texts: dict[int, str] = {}
    waiting = [(root, False) for root in daughters.get(None, [])]
    while waiting:
        one, is_ready = waiting.pop()
        if not is_ready:
            waiting += [(one, True), *((daughter, False) for daughter in daughters.get(one, []))]
            continue
        below = ",".join(texts.pop(daughter) for daughter in daughters.get(one, []))
        parent = parents[one]
        length = times[one] - (times[parent] if parent is not None else 0)
        texts[one] = (f"({below})" if below else "") + f"{labels[one]}:{length}"
    return "".join(f"{texts[root]};\n" for root in daughters.get(None, []))


def table_of(path: str | pathlib.Path, digest: bytes | None = None) -> pandas.DataFrame:
    """The table of a genebank or of a file of checkpoints."""
    if files.kind_of(path) == "hold":
        worlds = files.read_hold(path, digest)
        if not worlds:
            raise Refused(f"{path} holds no checkpoint")
        return of_worlds(worlds)
    return of_bank(files.read_bank(path, digest))


def tell_missing(table: pandas.DataFrame) -> None:
    """Names the parents that a genebank lacks on standard error."""
    missing = sorted(set(table.missing_parent.dropna())) if "missing_parent" in table else []
    if missing:
        some = ", ".join(missing[:3]) + (", .." if len(missing) > 3 else "")
        print(
            f"zuldokan phylogeny: the genebank lacks {len(missing)} parents ({some}), which were never saved; their daughters are roots. "
            "save_at = 1 in the soup file saves all, and the checkpoints of hold have all",
            file=sys.stderr,
        )


def run(args: argparse.Namespace) -> None:
    table = table_of(args.file, soup.digest_of(args.soup))
    if args.living:
        if "last_seen" not in table:
            raise Refused("--living needs checkpoints: a genebank does not say what lives")
        table = of_the_living(table)
    tell_missing(table)
    table.to_csv(sys.stdout, index=False)
    if args.newick:
        args.newick.write_text(newick(table))
