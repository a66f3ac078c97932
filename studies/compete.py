"""Competitions: genotypes in equal numbers in one soup, several times (CSV).

  zuldokan compete --put tierra.hold:0080aaa --put tierra.hold:0079aag --like ../examples/parasites.toml --quanta 20000 --every 1000

Nothing is left to chance in these runs: there is no mutation, so runs with other seeds would be the same run, and no replicates. What
differs between the replicates are the places of the founders and the order of their turns, drawn at random by `--draw`. Each replicate is
a run of `tierra hold` in a folder of `--into`, with notes.json; what is finished there is not run again.

A row for each genotype: name (as in its file), each (founders in each replicate), wins (replicates at whose end it had the most living),
share (of those living at the end, the mean), s, low, high, and estimates. s is the selection coefficient against the first genotype: the
slope of the logarithm of the ratio of their numbers, per 1,000 quanta, by least squares over the checkpoints from the start until one of
them is gone; the mean of the replicates. low and high are its 95 % interval by bootstrap: 10,000 draws of as many replicates, with
replacement. estimates counts the replicates that have such a slope. --shares writes the living of each over time, and --picture draws it.
"""
import argparse
import math
import pathlib
import random
import re
import sys

import numpy
import pandas

from . import alone, files, mutants, program, soup, soup_from, sweep
from .refusal import Refused

DRAWS = 10000
PUT = re.compile(r"(?P<file>.+?)(?::(?P<name>[^:/]+))?")


def add_arguments(parser: argparse.ArgumentParser) -> None:
    parser.add_argument("--put", action="append", required=True, metavar="FILE:NAME", help="a genotype; the first is compared with")
    parser.add_argument("--each", type=int, default=10, help="founders of each genotype (default 10)")
    add_contest(parser, "compete")


def add_contest(parser: argparse.ArgumentParser, folder: str) -> None:
    """The words that competitions and invasions share."""
    parser.add_argument("--replicates", type=int, default=20, help="how many runs (default 20)")
    parser.add_argument("--draw", type=int, default=0, help="the seed of the places (default 0)")
    parser.add_argument("--quanta", type=int, default=100000, help="quanta of each run (default 100,000)")
    parser.add_argument("--every", type=int, default=5000, help="quanta between two counts (default 5,000)")
    parser.add_argument("--like", metavar="SOUP", help="a soup file with the settings, but for what leaves things to chance")
    parser.add_argument("--set", action="append", default=[], metavar="KEY=VALUE", help="another value of a setting")
    parser.add_argument("--into", type=pathlib.Path, default=pathlib.Path(folder), help=f"the folder of the runs (default {folder})")
    parser.add_argument("--jobs", type=int, help="how many run at once (default: as many as there are processors)")
    parser.add_argument("--shares", type=pathlib.Path, help="write the living over time to this file (CSV)")
    parser.add_argument("--picture", type=pathlib.Path, help="draw them to this file (.svg or .png)")
    program.add_argument(parser)


def named(words: list[str]) -> dict[str, bytes]:
    """The codes of the genotypes that the words of `--put` name, by name."""
    found: dict[str, bytes] = {}
    for word in words:
        found_in = PUT.fullmatch(word)
        if found_in is None:
            raise Refused(f"--put {word}: FILE:NAME was expected")
        path, name = found_in.group("file", "name")
        if name is not None and pathlib.Path(word).exists():
            path, name = word, None
        label, code = mutants.code_of(path, name)
        if label in found or code in found.values():
            raise Refused(f"--put {word}: this genotype was put in already")
        found[label] = code
    return found


def drawn(codes: list[bytes], each: int, size: int, draw: random.Random) -> list[tuple[int, bytes, None]]:
    """So many founders of each code at places and in an order that are drawn, no two in one cell."""
    width, founders = max(map(len, codes)), codes * each
    if len(founders) > size // width:
        raise Refused(f"{len(founders)} founders of up to {width} instructions have no room in {size} cells")
    places = draw.sample(range(size // width), len(founders))
    draw.shuffle(founders)
    return [(place * width, code, None) for place, code in zip(places, founders)]


def run_replicates(texts: list[str], args: argparse.Namespace) -> list[list[files.World]]:
    """Runs each soup file as a replicate, and gives the worlds of each."""
    jobs = alone.jobs_of(args.jobs)
    mutants.check_picture(args.picture)
    if args.every < 1 or args.every > args.quanta or args.quanta > soup.MOST_QUANTA:
        raise Refused(f"--every is from 1 to --quanta, and this at most {soup.MOST_QUANTA:,}")
    runs = {f"replicate{number}": (text, {"replicate": number, "draw": args.draw}) for number, text in enumerate(texts, 1)}
    command = f"hold --quanta {args.quanta} --every {args.every}"
    sweep.run_all(args.into, runs, command, program.find(args.program), jobs)
    return [files.read_hold(args.into / name / "tierra.hold") for name in runs]


def living_of(worlds: list[files.World], known: dict[str, bytes], begun: dict[str, int]) -> pandas.DataFrame:
    """How many of each genotype live at the start and at each checkpoint of a replicate; `others` are of other codes."""
    rows = [{"quantum": 0, **begun, "others": 0}]
    for world in worlds:
        codes = [row["code"] for row in world.parts[0]]
        counts = pandas.Series([codes[number] for number in world.records["genotype"].tolist()]).value_counts()
        row = {name: int(counts.get(code, 0)) for name, code in known.items()}
        rows.append({"quantum": world.quanta, **row, "others": len(world.records) - sum(row.values())})
    return pandas.DataFrame(rows)


def slope(quanta: list[int], ours: list[int], theirs: list[int]) -> float:
    """The slope of the logarithm of a ratio per 1,000 quanta, while both are there; not a number where that is no time."""
    both = [k for k in range(len(quanta)) if min(ours[: k + 1]) > 0 and min(theirs[: k + 1]) > 0]
    if len(both) < 2:
        return math.nan
    return float(numpy.polyfit([quanta[k] / 1000 for k in both], [math.log(ours[k] / theirs[k]) for k in both], 1)[0])


def interval(values: list[float]) -> tuple[float, float, float]:
    """The mean of some values, and its 95 % interval by bootstrap."""
    if not values:
        return math.nan, math.nan, math.nan
    means = numpy.random.default_rng(0).choice(values, (DRAWS, len(values))).mean(axis=1)
    low, high = numpy.percentile(means, [2.5, 97.5])
    return float(numpy.mean(values)), float(low), float(high)


def summary(tables: list[pandas.DataFrame], names: list[str], each: int) -> pandas.DataFrame:
    """The row of each genotype."""
    ends = pandas.DataFrame([table.iloc[-1] for table in tables])
    rows = []
    for name in names:
        others = [other for other in names if other != name]
        slopes = [slope(list(table.quantum), list(table[name]), list(table[names[0]])) for table in tables] if name != names[0] else []
        known = [value for value in slopes if not math.isnan(value)]
        mean, low, high = interval(known)
        wins = int((ends[name] > ends[others].max(axis=1)).sum())
        share = float((ends[name] / ends[[*names, "others"]].sum(axis=1)).mean())
        row = {"name": name, "each": each, "wins": wins, "share": share}
        rows.append(row | {"s": mean, "low": low, "high": high, "estimates": len(known)})
    return pandas.DataFrame(rows)


def draw_shares(path: pathlib.Path, tables: list[pandas.DataFrame], names: list[str], title: str) -> None:
    """The share of each genotype over time, a thin line for each replicate and a thick one for their mean."""
    from . import picture

    with picture.matplotlib.rc_context(picture.STYLE):
        figure, axis = picture.axes(title)
        for name, colour in zip(names, picture.SERIES * len(names)):
            shares = [table[name] / table.drop(columns="quantum").sum(axis=1) for table in tables]
            for table, share in zip(tables, shares):
                axis.plot(table.quantum / 1000, share, color=colour, linewidth=0.4, alpha=0.6)
            axis.plot(tables[0].quantum / 1000, pandas.concat(shares, axis=1).mean(axis=1), color=colour, linewidth=2, label=name)
        axis.set_ylabel("share of the living")
        axis.set_ylim(0, 1)
        picture.legend(axis)
        picture.save(figure, path)


def write(tables: list[pandas.DataFrame], path: pathlib.Path | None) -> None:
    """Writes the living over time of all replicates, if a file is named."""
    if path is not None:
        joined = pandas.concat([table.assign(replicate=number) for number, table in enumerate(tables, 1)])
        joined.set_index(["replicate", "quantum"]).to_csv(path)


def run(args: argparse.Namespace) -> None:
    known = named(args.put)
    if len(known) < 2 or args.each < 1 or args.replicates < 1:
        raise Refused("at least two genotypes, one founder of each and one replicate are needed")
    settings = {**alone.settings_of(args.like, args.set), **alone.STILL}
    draw, document = random.Random(args.draw), soup.parse(alone.lines_of(settings))
    texts = [
        soup_from.made(document, drawn(list(known.values()), args.each, settings["soup_size"], draw)) for _ in range(args.replicates)
    ]
    begun = dict.fromkeys(known, args.each)
    tables = [living_of(worlds, known, begun) for worlds in run_replicates(texts, args)]
    summary(tables, list(known), args.each).to_csv(sys.stdout, index=False)
    write(tables, args.shares)
    if args.picture:
        draw_shares(args.picture, tables, list(known), f"{len(tables)} competitions of {' and '.join(known)}, {args.each} founders each")
