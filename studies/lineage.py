"""The line from the founders to a genotype, with the mutations of each step.

  zuldokan lineage tierra.hold > lineage.csv              of the commonest at the end: a row for each genotype of the line
  zuldokan lineage tierra.hold 0044aac --changes          a row for each mutation
  zuldokan lineage tierra.hold 0044aac --text             each mother beside her daughter, where they differ

A genotype's parent is the genotype of its first individual's mother. A daughter is aligned to her mother by Biopython's PairwiseAligner,
over whole instructions: 2 for the same instruction, -1 for another one, -3 for a gap and -0.5 for each further cell of it. Of several
best alignments the first is taken.

The table has step (0 is the founder), name, size (instructions), parent, quantum (of its first individual; in a genebank of its saving),
changed, inserted and lost (how many instructions), and changes: `12:nop_0>inc_a` is another instruction at the mother's place 12,
`12:+zero` one that is put in before it, `12:-nop_0` one that is lost, and `44..78:-35` so many; places count from 0. With --changes:
name, quantum, kind, place, before, after.

Checkpoints have every parent. A genebank has those that were saved, and a line ends where a parent is missing: that is said.
"""
import argparse
import itertools
import sys
from typing import NamedTuple, Optional

import pandas
from Bio import Align

from . import files, genotypes, soup
from .refusal import Refused

CONTEXT = 2  # instructions that --text shows before and after a change
KINDS = ("changed", "inserted", "lost")
Pair = tuple[Optional[int], Optional[int]]


class Change(NamedTuple):
    """A mutation: its kind, the mother's place, and the instruction before and after (None where there was none)."""

    kind: str
    place: int
    before: Optional[int]
    after: Optional[int]


class Step(NamedTuple):
    """A genotype of a line, and what differs from its parent; the first one has no parent and no changes."""

    one: files.Saved
    pairs: list[Pair]
    changes: list[Change]


def add_arguments(parser: argparse.ArgumentParser) -> None:
    parser.add_argument("file", help="a file of checkpoints or a genebank")
    parser.add_argument("name", nargs="?", help="the genotype (default: the commonest at the last checkpoint)")
    parser.add_argument("--soup", help="its soup file; without it, the file may be of any setup")
    shown = parser.add_mutually_exclusive_group()
    shown.add_argument("--changes", action="store_true", help="a row for each mutation")
    shown.add_argument("--text", action="store_true", help="instructions side by side, where they differ")


def aligned(mother: bytes, daughter: bytes) -> list[Pair]:
    """The places of a mother and her daughter that belong together; None stands where one has no instruction for the other's."""
    aligner = Align.PairwiseAligner(match_score=2, mismatch_score=-1, open_gap_score=-3, extend_gap_score=-0.5)
    found = aligner.align(genotypes.letters(mother), genotypes.letters(daughter))[0]
    pairs: list[Pair] = []
    at, beside = 0, 0
    ends = ((len(mother), len(mother)), (len(daughter), len(daughter)))
    for (start, end), (begin, stop) in [*zip(*found.aligned), ends]:
        pairs += [(place, None) for place in range(at, start)] + [(None, place) for place in range(beside, begin)]
        pairs += zip(range(start, end), range(begin, stop))
        at, beside = int(end), int(stop)
    return pairs


def changes_of(mother: bytes, daughter: bytes, pairs: list[Pair]) -> list[Change]:
    """The mutations between a mother and her daughter, in the order of the mother's places."""
    changes, at = [], 0
    for place, beside in pairs:
        before, after = (None if place is None else mother[place]), (None if beside is None else daughter[beside])
        if place is None:
            changes.append(Change("inserted", at, before, after))
            continue
        at = place + 1
        if before != after:
            changes.append(Change("lost" if beside is None else "changed", place, before, after))
    return changes


def lineage(found: dict[str, files.Saved], name: str) -> list[Step]:
    """The line to a genotype, founder first; `found` has the genotypes by name."""
    line = [found[name]]
    while line[-1].parent in found:
        line.append(found[line[-1].parent])
    line.reverse()
    steps = [Step(line[0], [], [])]
    for mother, daughter in zip(line, line[1:]):
        pairs = aligned(mother.code, daughter.code)
        steps.append(Step(daughter, pairs, changes_of(mother.code, daughter.code, pairs)))
    return steps


def word(op: Optional[int]) -> str:
    return "" if op is None else soup.INSTRUCTIONS[op]


def short(change: Change) -> str:
    """A change as the table has it."""
    sign = {"changed": f"{word(change.before)}>", "inserted": "+", "lost": "-"}[change.kind]
    return f"{change.place}:{sign}{word(change.before if change.kind == 'lost' else change.after)}"


def shorts(changes: list[Change]) -> str:
    """Changes as the table has them; what was lost at several places in a row stands together."""
    texts: list[str] = []
    for _, group in itertools.groupby(enumerate(changes), lambda one: one[1].kind == "lost" and one[1].place - one[0]):
        some = [change for _, change in group]
        together = some[0].kind == "lost" and len(some) > 1
        texts += [f"{some[0].place}..{some[-1].place}:-{len(some)}"] if together else map(short, some)
    return " ".join(texts)


def table_of(steps: list[Step]) -> pandas.DataFrame:
    """A row for each genotype of a line."""
    rows = []
    for number, (one, _, changes) in enumerate(steps):
        counts = {kind: sum(change.kind == kind for change in changes) for kind in KINDS}
        row = {"step": number, "name": one.name, "size": one.size, "parent": one.parent, "quantum": one.quantum}
        rows.append(row | counts | {"changes": shorts(changes)})
    return pandas.DataFrame(rows)


def changes_table(steps: list[Step]) -> pandas.DataFrame:
    """A row for each mutation of a line."""
    rows = [
        (one.name, one.quantum, change.kind, change.place, word(change.before), word(change.after))
        for one, _, changes in steps
        for change in changes
    ]
    return pandas.DataFrame(rows, columns=["name", "quantum", "kind", "place", "before", "after"])


def beside(mother: files.Saved, step: Step) -> str:
    """A mother and her daughter side by side, where they differ, with some instructions around."""
    daughter = step.one
    rows: list[str] = []
    shown: set[int] = set()
    for number, (place, other) in enumerate(step.pairs):
        ops = (None if place is None else mother.code[place], None if other is None else daughter.code[other])
        if ops[0] != ops[1]:
            shown.update(range(number - CONTEXT, number + CONTEXT + 1))
        numbers = ["" if at is None else str(at) for at in (place, other)]
        rows.append(f"{'*' if ops[0] != ops[1] else ' '} {numbers[0]:>5} {word(ops[0]):8} {numbers[1]:>5} {word(ops[1])}".rstrip())
    lines = [f"{mother.name} and its daughter {daughter.name} of quantum {daughter.quantum}"]
    for number, row in enumerate(rows):
        if number in shown:
            lines += ([""] if number and number - 1 not in shown and len(lines) > 1 else []) + [row]
    return "\n".join(lines) + "\n"


def text_of(steps: list[Step]) -> str:
    """All steps of a line, side by side."""
    return "\n".join(beside(before.one, step) for before, step in zip(steps, steps[1:]))


def columns_of(steps: list[Step]) -> tuple[list[list[int]], int]:
    """For each genotype of a line the column of each of its instructions, so that those that descend from one stand below each other;
    and the number of columns."""
    order = list(range(len(steps[0].one.code)))
    marks = [order[:]]
    for step in steps[1:]:
        row, last = [], -1
        for place, other in step.pairs:
            if place is not None:
                mark = marks[-1][place]
            else:
                mark = len(order)
                order.insert(last + 1, mark)
            last = order.index(mark)
            if other is not None:
                row.append(mark)
        marks.append(row)
    column = {mark: number for number, mark in enumerate(order)}
    return [[column[mark] for mark in row] for row in marks], len(order)


def commonest(world: files.World) -> str:
    """The name of the genotype of which the most live, and of several the first born."""
    living = world.creatures.genotype.value_counts()
    return world.genotypes.name[min(living.index[living == living.max()])]


def steps_in(worlds: list[files.World], name: Optional[str] = None) -> list[Step]:
    """The line to a genotype of a run's checkpoints, or to the commonest at the last one."""
    found = genotypes.all_of(worlds[-1])
    return lineage(found, genotypes.chosen(found, [name or commonest(worlds[-1])], "the run")[0].name)


def steps_of(path: str, name: Optional[str], digest: Optional[bytes] = None) -> list[Step]:
    """The line to a genotype of a file. Says where a genebank lacks a parent."""
    if files.kind_of(path) == "hold":
        worlds = files.read_hold(path, digest)
        if not worlds:
            raise Refused(f"{path} holds no checkpoint")
        return steps_in(worlds, name)
    if name is None:
        raise Refused("a genebank does not say what lives: name a genotype")
    found = genotypes.all_in(path, digest)
    steps = lineage(found, genotypes.chosen(found, [name], path)[0].name)
    if (missing := steps[0].one.parent) is not None:
        print(f"zuldokan lineage: {path} lacks {missing}, the parent of {steps[0].one.name}: the line begins there", file=sys.stderr)
    return steps


def run(args: argparse.Namespace) -> None:
    steps = steps_of(args.file, args.name, soup.digest_of(args.soup))
    if args.text:
        sys.stdout.write(text_of(steps))
        return
    (changes_table(steps) if args.changes else table_of(steps)).to_csv(sys.stdout, index=False)
