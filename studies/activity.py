"""Evolutionary activity with its neutral shadows, and the MODES statistics (CSV): a row for each checkpoint.

  tierra curve --quanta 4000000 --every 40000 < ../examples/parasites.toml > curve.txt
  zuldokan activity tierra.hold curve.txt --picture activity.png > activity.csv

Activity is that of Bedau and Packard (1992) and of Bedau, Snyder and Packard (1998), with genotypes as the components.
At each checkpoint the activity of each genotype that lives grows by how many of it live, or by 1 with `--by presence`.

A neutral shadow is a run without selection. It has the births and deaths of the run, in their order, and begins with
the same founders. But each birth has a parent that is drawn from the living, and each death kills one that is drawn
from them. A daughter that had a new genotype in the run has a new one in the shadow; any other daughter has that of her
parent. `tierra curve` tells the births and deaths of a run, and the checkpoints tell which births were the first of a
genotype. `--shadows` says how many shadows there are, and `--draw` is their seed.

The columns are:

  quantum                 the checkpoint
  diversity               genotypes that live
  activity                the activities of these added up
  mean_activity           the same divided by diversity
  new, new_activity       how many of these passed the threshold since the checkpoint before; the same by diversity
  shadow_diversity, shadow_mean_activity, shadow_new, shadow_new_activity
                          the means of the shadows
  shadow_least, shadow_most
                          the least and the greatest mean_activity of a shadow
  excess                  mean_activity less shadow_mean_activity
  threshold, percentile   the least activity that so many percent of the shadows' genotypes never passed (--percentile)

The MODES statistics are those of Dolson, Vostinar, Wiser and Ofria (2019). They look at what persists: the genotypes of
a checkpoint whose lines still live `--filter` checkpoints later. The line of a genotype that lives then goes up from
parent to parent, to the first one that was born by the checkpoint. In the last rows, where no checkpoint is so much
later, these columns are empty.

  persistent              genotypes that persist
  change                  how many of these did not persist at the checkpoint before
  novelty                 how many of these persisted at no checkpoint before
  complexity              the informative cells of that one which has the most, of the N commonest (`--knockout N`).
                          A cell is informative if neither nop in its place breeds true, as in `zuldokan knockout`.
                          Empty if none of them breeds true alone
  ecology                 Shannon's diversity of the living of these (natural logarithm, in nats)

`--waves` writes the activity of each genotype at each checkpoint where it lives (CSV): quantum, name, living, activity.
"""
import argparse
import bisect
import collections
import itertools
import math
import pathlib
import random
import sys
from typing import TYPE_CHECKING, Optional

import numpy
import pandas

from . import alone, assay, files, frames, knockout, mutants, printed, soup
from .progress import Progress
from .refusal import Refused

if TYPE_CHECKING:
    from matplotlib.axes import Axes

NEW, BIRTH, DEATH = "n", "b", "d"  # what a shadow repeats: the birth of a new genotype, another birth, and a death
Counts = dict[int, int]  # a number for each genotype, such as how many live
Record = tuple[int, int]  # a line of a curve: the quantum and the creature


def add_arguments(parser: argparse.ArgumentParser) -> None:
    frames.add_hold(parser)
    parser.add_argument("curve", help="what `tierra curve` printed of the same run")
    parser.add_argument("--shadows", type=int, default=20, help="how many neutral shadows (default 20)")
    parser.add_argument("--draw", type=int, default=0, help="the seed of the shadows (default 0)")
    parser.add_argument("--percentile", type=float, default=99, help="that of the threshold (default 99)")
    parser.add_argument("--by", choices=["living", "presence"], default="living", help="what activity grows by")
    parser.add_argument("--filter", type=int, default=10, help="checkpoints that a line must live on (default 10)")
    parser.add_argument("--knockout", type=int, default=0, metavar="N", help="complexity of the N commonest")
    parser.add_argument("--waves", type=pathlib.Path, help="write the activity of each genotype to this file (CSV)")
    parser.add_argument("--picture", type=pathlib.Path, help="draw it to this file (.svg or .png)")
    alone.add_arguments(parser)


def living_in(worlds: list[files.World]) -> list[Counts]:
    """How many of each genotype live in each world."""
    return [dict(collections.Counter(world.records["genotype"].tolist())) for world in worlds]


def founders_of(worlds: list[files.World], document: Optional[dict], path: str) -> list[int]:
    """The genotype of each founder. Without a soup file they must be of one genotype."""
    genotypes = worlds[0].parts[0]
    if document is not None:
        numbers = {row["code"]: row["genotype"] for row in genotypes}
        return [numbers[code] for _, code in soup.creatures(document)]
    roots = [row["genotype"] for row in genotypes if row["parent"] is None]
    if len(roots) > 1:
        raise Refused(f"the founders of {path} are of {len(roots)} genotypes: name its soup file with --soup")
    return roots * (worlds[0].next_id - 1 - worlds[0].births)


def stretches_of(births: list[Record], deaths: list[Record], worlds: list[files.World]) -> list[str]:
    """The events up to each checkpoint since the one before, a letter each. Those of another run are refused."""
    times = [world.quanta for world in worlds]
    born, died = (collections.Counter(quantum for quantum, _ in rows) for rows in (births, deaths))
    first = collections.Counter(row["first_quantum"] for row in worlds[-1].parts[0] if row["parent"] is not None)
    if not first <= born:
        raise Refused("the curve is of another run: it lacks births of new genotypes")
    found = [""] * len(worlds)
    for quantum in sorted(born | died):
        if quantum <= times[-1]:
            events = NEW * first[quantum] + BIRTH * (born[quantum] - first[quantum]) + DEATH * died[quantum]
            found[bisect.bisect_left(times, quantum)] += events
    deaths_told = itertools.accumulate(stretch.count(DEATH) for stretch in found)
    for world, events_told, dead in zip(worlds, itertools.accumulate(map(len, found)), deaths_told):
        if (events_told - dead, dead) != (world.births, world.deaths):
            told = f"{events_told - dead} births and {dead} deaths until quantum {world.quanta}"
            raise Refused(f"the curve is of another run: it has {told}, and not {world.births} and {world.deaths}")
    return found


def shadow(founders: list[int], stretches: list[str], draw: random.Random) -> list[Counts]:
    """How many of each genotype live in a neutral shadow at the end of each stretch of events."""
    living, genotypes, counted = list(founders), max(founders) + 1, []
    for stretch in stretches:
        for event in stretch:
            place = draw.randrange(len(living))
            if event == DEATH:
                living[place] = living[-1]
                living.pop()
            elif event == BIRTH:
                living.append(living[place])
            else:
                living.append(genotypes)
                genotypes += 1
        counted.append(dict(collections.Counter(living)))
    return counted


def shadows_of(founders: list[int], stretches: list[str], number: int, seed: int) -> list[list[Counts]]:
    """So many shadows, each with a seed of its own."""
    made = []
    with Progress(number, "shadow") as told:
        for place in range(number):
            made.append(shadow(founders, stretches, random.Random(f"{seed} {place}")))
            told.step()
    return made


def activities(counted: list[Counts], by: str) -> list[Counts]:
    """The activity of each genotype that lives, at each checkpoint."""
    grown: collections.Counter[int] = collections.Counter()
    rows = []
    for living in counted:
        grown.update(living if by == "living" else dict.fromkeys(living, 1))
        rows.append({one: grown[one] for one in living})
    return rows


def threshold_of(shadows: list[list[Counts]], percentile: float) -> float:
    """The least activity that at least so many percent of all genotypes of the shadows never passed."""
    ends: list[int] = []
    for rows in shadows:
        last: Counts = {}
        for row in rows:
            last.update(row)
        ends += last.values()
    return float(numpy.percentile(ends, percentile, method="inverted_cdf"))


def measured(active: list[Counts], threshold: float) -> pandas.DataFrame:
    """Diversity, activity and new activity at each checkpoint."""
    rows: list[dict[str, float]] = []
    passed: set[int] = set()
    for row in active:
        new = {one for one, value in row.items() if value > threshold} - passed
        passed |= new
        total, diversity = sum(row.values()), len(row)
        numbers = {"diversity": diversity, "activity": total, "mean_activity": total / diversity}
        rows.append({**numbers, "new": len(new), "new_activity": len(new) / diversity})
    return pandas.DataFrame(rows)


def activity(counted: list[Counts], shadows: list[list[Counts]], percentile: float, by: str) -> pandas.DataFrame:
    """The columns of activity, from the living of a run and of its shadows."""
    theirs = [activities(one, by) for one in shadows]
    threshold = threshold_of(theirs, percentile)
    table, others = measured(activities(counted, by), threshold), [measured(one, threshold) for one in theirs]
    for column in ("diversity", "mean_activity", "new", "new_activity"):
        table[f"shadow_{column}"] = numpy.mean([other[column] for other in others], axis=0)
    means = [other.mean_activity for other in others]
    table["shadow_least"], table["shadow_most"] = numpy.min(means, axis=0), numpy.max(means, axis=0)
    table["excess"] = table.mean_activity - table.shadow_mean_activity
    return table.assign(threshold=threshold, percentile=percentile)


def persistent(counted: list[Counts], times: list[int], genotypes: list[dict], distance: int) -> list[Counts]:
    """The living of each checkpoint whose lines still live so many checkpoints later; none of the last checkpoints."""
    found = []
    for time, living, later in zip(times, counted, counted[distance:]):
        ancestors = set()
        for one in later:
            while genotypes[one]["first_quantum"] > time:
                one = genotypes[one]["parent"]
            ancestors.add(one)
        found.append({one: number for one, number in living.items() if one in ancestors})
    return found


def shannon(living: Counts) -> float:
    """Shannon's diversity, in nats."""
    whole = sum(living.values())
    return -sum(number / whole * math.log(number / whole) for number in living.values()) + 0.0  # no -0.0


def modes(kept: list[Counts], complexity: dict[int, Optional[int]]) -> pandas.DataFrame:
    """The MODES statistics of what persists, with the complexity of those genotypes of which it is known."""
    rows: list[dict[str, Optional[float]]] = []
    before: set[int] = set()
    ever: set[int] = set()
    for living in kept:
        now = set(living)
        known = [cells for cells in map(complexity.get, now) if cells is not None]
        row = {"persistent": len(now), "change": len(now - before), "novelty": len(now - ever)}
        rows.append({**row, "complexity": max(known, default=None), "ecology": shannon(living)})
        before, ever = now, ever | now
    columns = ["persistent", "change", "novelty", "complexity", "ecology"]
    return pandas.DataFrame(rows, columns=columns).astype(dict.fromkeys(columns[:-1], "Int64"))


def commonest(living: Counts, most: int) -> list[int]:
    """So many of the commonest genotypes; of those that are as common the first born."""
    return sorted(living, key=lambda one: (-living[one], one))[:most]


def informative(codes: list[bytes], bench: alone.Bench) -> dict[bytes, Optional[int]]:
    """How many cells of each code are informative; None for a code that does not breed true."""
    true = [code for code, fate in assay.fates(codes, bench).items() if fate.kind == "true"]
    some = {code: mutants.mutants(code, knockout.NOPS.values()) for code in true}
    found = assay.fates([one.code for group in some.values() for one in group], bench)
    spared = {code: {one.place for one in group if found[one.code].kind == "true"} for code, group in some.items()}
    return {code: len(code) - len(spared[code]) if code in spared else None for code in codes}


def complexity_of(kept: list[Counts], genotypes: list[dict], args: argparse.Namespace) -> dict[int, Optional[int]]:
    """The complexity of the commonest of each checkpoint, where the words ask for some."""
    some = {one: genotypes[one]["code"] for living in kept for one in commonest(living, args.knockout)}
    if not some:
        return {}
    found = informative(list(some.values()), alone.bench_of(args))
    return {one: found[code] for one, code in some.items()}


def waves(worlds: list[files.World], active: list[Counts]) -> pandas.DataFrame:
    """The activity of each genotype at each checkpoint where it lives."""
    table = frames.living(worlds)
    grown = {(world.quanta, one): value for world, row in zip(worlds, active) for one, value in row.items()}
    table["activity"] = [grown[key] for key in zip(table.quantum, table.genotype)]
    return table[["quantum", "name", "living", "activity"]]


def draw(path: pathlib.Path, table: pandas.DataFrame, grown: pandas.DataFrame, title: str) -> None:
    """The waves of the genotypes, mean and new activity beside the shadows', and the MODES statistics."""
    from . import picture

    with picture.matplotlib.rc_context(picture.STYLE):
        figure, axes = picture.pyplot.subplots(4, 1, figsize=(9, 11), layout="constrained", sharex=True)
        draw_waves(axes[0], grown, table.threshold[0])
        axes[0].set_title(title, fontsize=10)
        time = table.quantum / 1000
        axes[1].fill_between(time, table.shadow_least, table.shadow_most, color="#CCCCCC", label="the shadows' range")
        axes[1].plot(time, table.mean_activity, color=picture.SERIES[0], label="run")
        axes[1].set_ylabel("mean activity")
        axes[2].plot(time, table.new_activity, color=picture.SERIES[0], label="run")
        axes[2].plot(time, table.shadow_new_activity, color="#777777", linestyle="--", label="shadows, mean")
        axes[2].set_ylabel("new activity")
        for column, colour in zip(("persistent", "change", "novelty", "complexity"), picture.SERIES):
            if table[column].notna().any():
                axes[3].plot(time, table[column].astype(float), color=colour, label=column)
        axes[3].set_ylabel("genotypes, cells")
        other = picture.second_axis(axes[3], "ecology (nats)")
        other.plot(time, table.ecology, color="#000000", linewidth=1, linestyle=":", label="ecology")
        other.set_ylim(0)
        for axis in axes:
            axis.grid(color="#DDDDDD", linewidth=0.5)
            axis.set_ylim(0)
            picture.legend(axis, other if axis is axes[3] else None)
        axes[3].set_xlabel("thousands of quanta")
        picture.save(figure, path)


def draw_waves(axis: "Axes", grown: pandas.DataFrame, threshold: float) -> None:
    """A line for each genotype: those that became the most active have a colour."""
    from . import picture

    ends = grown.groupby("name").activity.max().sort_values(ascending=False, kind="stable")
    lines = {name: rows[["quantum", "activity"]].to_numpy() / [1000, 1] for name, rows in grown.groupby("name")}
    shown = list(ends.index[: len(picture.SERIES) - 1])
    others = [line for name, line in lines.items() if name not in shown]
    style = {"color": "#BBBBBB", "linewidth": 0.6, "label": "other genotypes"}
    axis.add_collection(picture.matplotlib.collections.LineCollection(others, **style))
    for name, colour in zip(shown, picture.SERIES):
        axis.plot(*lines[name].T, color=colour, label=name)
    axis.axhline(threshold, color="#000000", linewidth=0.8, linestyle="--", label="threshold")
    axis.set_ylabel("activity")


def check(args: argparse.Namespace) -> None:
    if args.shadows < 1 or args.filter < 1 or args.knockout < 0:
        raise Refused("--shadows and --filter are at least 1, and --knockout is not below 0")
    if not 0 <= args.percentile <= 100:
        raise Refused("--percentile is from 0 to 100")
    mutants.check_picture(args.picture)


def run(args: argparse.Namespace) -> None:
    check(args)
    worlds, text = frames.worlds_of(args), soup.text_in(args.curve)
    if printed.curve_in(text).quantum.iloc[-1] < worlds[-1].quanta:
        raise Refused(f"{args.curve} ends before quantum {worlds[-1].quanta}")
    stretches = stretches_of(*printed.events_in(text), worlds)
    document = None if args.soup is None else soup.plain(soup.text_in(args.soup), args.soup)
    shadows = shadows_of(founders_of(worlds, document, args.hold), stretches, args.shadows, args.draw)
    counted, times, genotypes = living_in(worlds), [world.quanta for world in worlds], worlds[-1].parts[0]
    kept = persistent(counted, times, genotypes, args.filter)
    table = activity(counted, shadows, args.percentile, args.by)
    table.insert(0, "quantum", times)
    table = table.join(modes(kept, complexity_of(kept, genotypes, args)))
    table.to_csv(sys.stdout, index=False)
    if not (args.waves or args.picture):
        return
    grown = waves(worlds, activities(counted, args.by))
    if args.waves:
        grown.to_csv(args.waves, index=False)
    if args.picture:
        title = f"Activity, {args.shadows} neutral shadows, and what persists for {args.filter} checkpoints"
        draw(args.picture, table, grown, title)
