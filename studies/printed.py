"""Reads what the program prints: the report, the dump and the curve (docs/tierra.1)."""
import re

import pandas

from .refusal import Refused

CREATURE = re.compile(
    r"creature (?P<id>\d+) at (?P<at>\d+) size (?P<size>\d+) daughter (?P<daughter>none|\d+\+\d+) moved (?P<moved>\d+) "
    r"ip (?P<ip>\d+) ax (?P<ax>-?\d+) bx (?P<bx>-?\d+) cx (?P<cx>-?\d+) dx (?P<dx>-?\d+) sp (?P<sp>\d+) "
    r"flag (?P<flag>[01]) errors (?P<errors>\d+) (?P<name>\w+)"
)
COUNTS = ("quanta", "births", "deaths", "living", "filled", "genotypes", "kept")


def report_in(text: str) -> tuple[dict[str, int], dict[str, tuple[int, int]]]:
    """The counts of the first report in a text, and the living genotypes with how many live and how many ever lived."""
    counts: dict[str, int] = {}
    living: dict[str, tuple[int, int]] = {}
    for line in text.splitlines():
        words = line.split()
        if len(words) == 2 and words[0] in COUNTS and len(counts) < len(COUNTS):
            counts[words[0]] = int(words[1])
        elif len(counts) == len(COUNTS) and re.fullmatch(r"\d{4,}[a-z]{3,} \d+ \d+", line):
            living[words[0]] = (int(words[1]), int(words[2]))
    if len(counts) < len(COUNTS):
        raise Refused("no report: it lacks the lines from `quanta` to `kept`")
    return counts, living


def creatures_in(text: str) -> pandas.DataFrame:
    """The creatures of a dump, with the columns that the creatures of a frame have, and `name`."""
    rows = [found.groupdict() for found in map(CREATURE.fullmatch, text.splitlines()) if found]
    if not rows:
        raise Refused("no dump: it has no line `creature ..`")
    table = pandas.DataFrame(rows)
    daughters = table.pop("daughter").replace("none", "0+0").str.split("+", expand=True)
    table["daughter_at"], table["daughter_size"] = daughters[0], daughters[1]
    return table.astype({column: "int64" for column in table.columns if column != "name"})


def events_in(text: str) -> tuple[list[tuple[int, int]], list[tuple[int, int]]]:
    """The births and the deaths that a curve tells, each as its quantum and the creature's number."""
    rows = [line.split() for line in text.splitlines()]
    births, deaths = ([(int(row[1]), int(row[2])) for row in rows if row[0] == kind] for kind in ("birth", "death"))
    return births, deaths


def curve_in(text: str) -> pandas.DataFrame:
    """The counts of a curve: quantum, living, births, deaths."""
    rows = [line.split()[1::2] for line in text.splitlines() if line.startswith("at ")]
    if not rows:
        raise Refused("no curve: it has no line `at ..`")
    return pandas.DataFrame(rows, columns=["quantum", "living", "births", "deaths"]).astype("int64")
