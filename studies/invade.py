"""Invasions: a genotype is put into the soup of a checkpoint, several times, and rises or falls (CSV).

  zuldokan invade tierra.hold --put ../other/tierra.bank:0079aar --soup ../examples/parasites.toml --quantum 1200000

What lives at the checkpoint is put into a new soup, as between the legs of `relay`: each creature's own block at its place, in the order
of their turns. `--number` individuals of the invader are put into free cells, at places drawn by `--draw`; they come last. The settings
are those of `--like`, or else of `--soup`, or else the defaults, and there is no mutation. So runs with other seeds would be the same
run: what differs between the replicates are the invaders' places. Each is a run of `tierra hold` in a folder of `--into`.

A row for each replicate: replicate; residents and invaders at the start; living and invaders_left at the end; s, the slope of the
logarithm of invaders to all others, per 1,000 quanta, by least squares while there are both; and fate: `rose` or `fell`, as the share of
the invader at the end is above or below that at the start, or `gone`. The last row is the mean of the replicates, with the 95 % interval
of s by bootstrap in low and high. --shares and --picture are as in `compete`.
"""
import argparse
import math
import random
import sys

import pandas

from . import alone, compete, files, soup, soup_from
from .refusal import Refused


def add_arguments(parser: argparse.ArgumentParser) -> None:
    parser.add_argument("hold", help="a file of checkpoints, tierra.hold")
    parser.add_argument("--soup", help="its soup file; without it, the file may be of any setup")
    parser.add_argument("--quantum", type=int, help="the checkpoint (default the last one)")
    parser.add_argument("--put", required=True, metavar="FILE:NAME", help="the invader")
    parser.add_argument("--number", type=int, default=5, help="individuals of the invader (default 5)")
    compete.add_contest(parser, "invade")


def world_of(args: argparse.Namespace) -> files.World:
    """The world of the checkpoint that the words name."""
    worlds = files.read_hold(args.hold, soup.digest_of(args.soup))
    found = [world for world in worlds if args.quantum in (None, world.quanta)]
    if not found:
        raise Refused(f"{args.hold} has no checkpoint" + (f" of quantum {args.quantum}" if args.quantum else ""))
    return found[-1]


def residents(world: files.World) -> list[tuple[int, bytes, None]]:
    """What lives in a world: places and cells, in the order of the turns."""
    return [(at, bytes(world.cells[at : at + size]), None) for at, size in world.records[["at", "size"]].tolist()]


def free_places(placed: list[tuple[int, bytes, None]], size: int, length: int) -> list[int]:
    """Places for blocks of this length in free cells, side by side in each gap."""
    places: list[int] = []
    end = 0
    for at, code, _ in [*sorted(placed), (size, b"", None)]:
        places += range(end, at - length + 1, length)
        end = at + len(code)
    return places


def with_invaders(living: list, code: bytes, number: int, size: int, draw: random.Random) -> list:
    """The residents and so many invaders, in free cells that are drawn."""
    places = free_places(living, size, len(code))
    if number > len(places):
        raise Refused(f"there is room for {len(places)} invaders of {len(code)} instructions, and {number} were asked for")
    return living + [(at, code, None) for at in draw.sample(places, number)]


def row_of(number: int, table: pandas.DataFrame, name: str) -> dict:
    """The row of a replicate, from its living over time."""
    first, last = table.iloc[0], table.iloc[-1]
    shares = [row[name] / max(row[name] + row.others, 1) for row in (first, last)]
    fate = "gone" if not last[name] else "rose" if shares[1] > shares[0] else "fell"
    row = {"replicate": number, "residents": first.others, "invaders": first[name], "living": last[name] + last.others}
    return row | {"invaders_left": last[name], "s": compete.slope(list(table.quantum), list(table[name]), list(table.others)), "fate": fate}


def summary(rows: list[dict]) -> pandas.DataFrame:
    """The rows of the replicates, and of their means."""
    table = pandas.DataFrame(rows).assign(low=math.nan, high=math.nan)
    mean, low, high = compete.interval([value for value in table.s if not math.isnan(value)])
    means = table[["residents", "invaders", "living", "invaders_left"]].mean().to_dict()
    told = " ".join(f"{count} {fate}" for fate, count in table.fate.value_counts().items())
    table.loc[len(table)] = {"replicate": "mean", **means, "s": mean, "fate": told, "low": low, "high": high}
    return table


def run(args: argparse.Namespace) -> None:
    if args.number < 1 or args.replicates < 1:
        raise Refused("at least one invader and one replicate are needed")
    (name, code), world = next(iter(compete.named([args.put]).items())), world_of(args)
    settings = {**alone.settings_of(args.like or args.soup, args.set), **alone.STILL, "soup_size": len(world.cells)}
    living, draw, document = residents(world), random.Random(args.draw), soup.parse(alone.lines_of(settings))
    texts = [
        soup_from.made(document, with_invaders(living, code, args.number, len(world.cells), draw)) for _ in range(args.replicates)
    ]
    already = sum(cells == code for _, cells, _ in living)
    begun = {name: args.number + already}
    tables = [compete.living_of(worlds, {name: code}, begun) for worlds in compete.run_replicates(texts, args)]
    for table in tables:
        table.loc[0, "others"] = len(living) - already
    summary([row_of(number, table, name) for number, table in enumerate(tables, 1)]).to_csv(sys.stdout, index=False)
    compete.write(tables, args.shares)
    if args.picture:
        title = f"{args.number} of {name} put into the soup of quantum {world.quanta:,}, {len(tables)} times"
        compete.draw_shares(args.picture, tables, [name], title)
