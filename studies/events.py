"""A run with events at given quanta: genotypes are put in, settings are changed, and creatures are killed (CSV).

  zuldokan events ../examples/events.toml --into events > events.csv

The file is a schedule in TOML. Files are named from its own folder:

  soup = "soup.toml"                        the soup file with which the run begins
  quanta = 6000                             of the whole run
  draw = 7                                  the seed of what is drawn (default 0)

  [[event]]
  at = 2000                                 after so many quanta
  set = { copy_rate = 200 }                 other values of settings, but not of the seed

  [[event]]
  at = 4000
  kill = 0.5                                this share of the living, rounded down; who dies is drawn

  [[event]]
  at = 4000
  put = "0080aaa.listing"                   a genotype: FILE.listing, or FILE:NAME of a genebank, checkpoints or FASTA
  number = 3                                so many, in free cells that are drawn; or at these cells: places = [0, 400]

The events of one quantum are done in their order. Who is put in comes last in the order of turns.

The run goes in legs, from event to event, as that of `zuldokan relay`. At an event the living begin anew: each keeps
its own block at its place and its turn, and registers, stacks, errors, daughter blocks, what the dead left and the
numbers of creatures and genotypes are lost. So an event that changes nothing still makes another run. The first leg is
the soup file as it is: without an event the run is that of `tierra hold`. The seed of a later leg follows from the
file's seed, as in a relay.

Each leg has a folder in `--into`, with soup.toml, hold.txt and tierra.hold (the world at its end). notes.json there has
the schedule and, for each leg, what was done and the digests of its setup and files. An interrupted run goes on when it
is started again.

A row for each leg: leg; begins, the quanta before it; quanta; done, the events at its begin; founders (creatures at
its begin); births, deaths, living and genotypes (that ever lived in this leg) at its end.
"""
import argparse
import json
import pathlib
import random
import sys
from typing import Iterator, NamedTuple, Optional

import pandas
import tomlkit

from . import compete, files, invade, notes, program, relay, soup, soup_from, sweep
from .progress import Progress
from .refusal import Refused

KINDS = {"set": {"set"}, "kill": {"kill"}, "put": {"put", "number", "places"}}
Placed = list[tuple[int, bytes, None]]  # creatures in the order of their turns: a place, a code and no comment


class Event(NamedTuple):
    """What is done after `at` quanta: settings are changed, a share is killed, or a genotype is put in."""

    at: int
    settings: Optional[dict] = None
    share: Optional[float] = None
    genotype: Optional[tuple[str, bytes]] = None
    number: int = 0
    places: Optional[list[int]] = None


class Schedule(NamedTuple):
    """What a file says, the text of its soup file, the quanta, the seed of what is drawn, and the events in order."""

    table: dict
    text: str
    quanta: int
    draw: int
    events: list[Event]


class Leg(NamedTuple):
    """A leg: the quanta before it, its own, the events at its begin, and in words what they did."""

    begins: int
    quanta: int
    events: list[Event]
    done: list[str]


def add_arguments(parser: argparse.ArgumentParser) -> None:
    parser.add_argument("schedule", type=pathlib.Path, help="the schedule, in TOML")
    parser.add_argument("--into", default="events", type=pathlib.Path, help="the folder of the legs (default events)")
    program.add_argument(parser)


def check_keys(table: dict, known: set[str]) -> None:
    for key in table:
        if key not in known:
            raise Refused(f"unknown key {key}")


def number_in(table: dict, key: str, least: int, default: Optional[int] = None) -> int:
    """The number that a table has for a key."""
    value = table.get(key, default)
    if not isinstance(value, int) or isinstance(value, bool) or value < least:
        raise Refused(f"{key} is a number from {least} on" if key in table else f"{key} is missing")
    return value


def settings_in(table: dict, document: tomlkit.TOMLDocument) -> dict:
    """The settings of `set`, if the soup file takes them."""
    settings = table["set"]
    if not isinstance(settings, dict) or not settings:
        raise Refused("set is a table of settings")
    check_keys(settings, set(soup.SETTINGS) - {"seed"})
    soup.digest(soup.plain(sweep.changed(document, settings)))
    return settings


def share_in(table: dict) -> float:
    share = table["kill"]
    if not isinstance(share, float) or not 0 < share < 1:
        raise Refused("kill is a share between 0 and 1")
    return share


def places_in(table: dict) -> Optional[list[int]]:
    """The cells of `places`, or None where `number` stands for them."""
    if ("places" in table) == ("number" in table):
        raise Refused("put goes with one of number and places")
    places = table.get("places")
    if places is not None and (not isinstance(places, list) or not places):
        raise Refused("places are a list of cells")
    return None if places is None else [number_in({"places": place}, "places", 0) for place in places]


def event_in(table: dict, folder: pathlib.Path, document: tomlkit.TOMLDocument) -> Event:
    """The event that a table of the schedule tells."""
    kinds = [kind for kind in KINDS if kind in table]
    if len(kinds) != 1:
        raise Refused("one of set, kill and put was expected")
    check_keys(table, {"at"} | KINDS[kinds[0]])
    at = number_in(table, "at", 1)
    if kinds == ["set"]:
        return Event(at, settings=settings_in(table, document))
    if kinds == ["kill"]:
        return Event(at, share=share_in(table))
    if not isinstance(table["put"], str):
        raise Refused("put is a text, FILE.listing or FILE:NAME")
    places = places_in(table)
    number = number_in(table, "number", 1) if places is None else len(places)
    genotype = next(iter(compete.named([str(folder / table["put"])]).items()))
    return Event(at, genotype=genotype, number=number, places=places)


def events_in(tables: object, quanta: int, folder: pathlib.Path, document: tomlkit.TOMLDocument) -> list[Event]:
    """The events of a schedule, which are in order and before its end."""
    if not isinstance(tables, list) or not all(isinstance(table, dict) for table in tables):
        raise Refused("events are tables, [[event]]")
    found: list[Event] = []
    for place, table in enumerate(tables, 1):
        try:
            event = event_in(table, folder, document)
            if event.at >= quanta:
                raise Refused(f"quantum {event.at} is not before the end of {quanta} quanta")
            if found and event.at < found[-1].at:
                raise Refused(f"quantum {event.at} is before that of the event above it")
        except (Refused, OSError) as fault:
            raise Refused(f"event {place}: {fault}") from fault
        found.append(event)
    return found


def schedule_in(path: pathlib.Path) -> Schedule:
    """The schedule that a file tells, if it can be carried out as far as the files tell."""
    table = soup.plain(soup.text_in(path), str(path))
    try:
        check_keys(table, {"soup", "quanta", "draw", "event"})
        if not isinstance(table.get("soup"), str):
            raise Refused("soup is the name of a soup file")
        quanta, source = number_in(table, "quanta", 1), path.parent / table["soup"]
        events = events_in(table.get("event", []), quanta, path.parent, soup.read(source))
        schedule = Schedule(table, soup.text_in(source), quanta, number_in(table, "draw", 0, 0), events)
        for leg in legs_of(schedule):
            if leg.quanta > soup.MOST_QUANTA:
                most = f"at most {soup.MOST_QUANTA:,} may be"
                raise Refused(f"the leg from {leg.begins} on has {leg.quanta:,} quanta, and {most}")
    except (Refused, OSError) as fault:
        raise Refused(f"{path}: {fault}") from fault
    return schedule


def legs_of(schedule: Schedule) -> list[Leg]:
    """The legs of a schedule, of which nothing is done yet."""
    times = sorted({0, *(event.at for event in schedule.events)})
    ends = [*times[1:], schedule.quanta]
    of = {at: [event for event in schedule.events if event.at == at] for at in times}
    return [Leg(at, end - at, of[at], []) for at, end in zip(times, ends)]


def after(event: Event, living: Placed, size: int, draw: random.Random) -> tuple[Placed, str]:
    """What lives after an event, and in words what it did."""
    if event.share is not None:
        dead = set(draw.sample(range(len(living)), int(event.share * len(living))))
        return [one for place, one in enumerate(living) if place not in dead], f"killed {len(dead)} of {len(living)}"
    if event.genotype is not None:
        name, code = event.genotype
        placed = with_settlers(event, code, living, size, draw)
        return placed, f"put {event.number} of {name} at {' '.join(str(at) for at, _, _ in placed[len(living):])}"
    return living, " ".join(f"{key} = {json.dumps(value)}" for key, value in (event.settings or {}).items())


def with_settlers(event: Event, code: bytes, living: Placed, size: int, draw: random.Random) -> Placed:
    """The living, and behind them those that an event puts in."""
    if event.places is None:
        return invade.with_invaders(living, code, event.number, size, draw)
    placed = [*living, *((place, code, None) for place in event.places)]
    soup_from.check_places(placed, size)
    return placed


def living_after(leg: Leg, world: files.World, size: int, draw: random.Random) -> Placed:
    """What lives when a later leg begins: the living of the world before it, after the events. Notes what these did."""
    living = invade.residents(world)
    for event in leg.events:
        living, done = after(event, living, size, draw)
        leg.done.append(done)
    return living


def run_legs(
    schedule: Schedule, legs: list[Leg], top: pathlib.Path, path: str
) -> Iterator[tuple[str, files.World]]:
    """Runs the legs one by one, and gives the soup file of each and the world at its end."""
    document, draw, text, world = soup.parse(schedule.text), random.Random(schedule.draw), schedule.text, None
    seed = soup.settings(document)["seed"]
    for number, leg in enumerate(legs, 1):
        if world is not None:
            changed = {key: value for event in leg.events for key, value in (event.settings or {}).items()}
            document = soup.with_settings(document, changed | {"seed": relay.seed_of(seed, number)})
            try:
                text = soup_from.made(document, living_after(leg, world, soup.settings(document)["soup_size"], draw))
            except Refused as fault:
                raise Refused(f"leg {number} cannot begin: {fault}") from fault
        world = relay.run_leg(top / f"leg{number}", text, leg.quanta, path, with_genebank=False)
        yield text, world


def row_of(number: int, leg: Leg, text: str, world: files.World) -> dict:
    """The row of a leg."""
    row = {"leg": number, "begins": leg.begins, "quanta": leg.quanta, "done": "; ".join(leg.done)}
    row |= {"founders": len(soup.creatures(soup.plain(text))), "births": world.births, "deaths": world.deaths}
    return row | {"living": len(world.records), "genotypes": len(world.parts[0])}


def noted_of(leg: Leg, text: str, folder: pathlib.Path) -> dict:
    """What notes.json has of a leg."""
    words = f"hold --quanta {leg.quanta} --every {leg.quanta}"
    known = {"folder": folder.name, "begins": leg.begins, "done": leg.done, **notes.of_setup(text, words)}
    return known | notes.of_files(folder, ["soup.toml", "hold.txt", "tierra.hold"])


def carry_out(schedule: Schedule, top: pathlib.Path, path: str) -> pandas.DataFrame:
    """Runs a schedule in a folder, and gives the row of each leg."""
    known, begun = {**notes.of_program(path), **notes.of_setup(schedule.text, "events")}, notes.now()
    legs = legs_of(schedule)
    sweep.is_finished(top, known)
    program.forecast(path, schedule.quanta)
    rows, noted = [], []
    with Progress(len(legs), "leg") as told:
        for number, (leg, (text, world)) in enumerate(zip(legs, run_legs(schedule, legs, top, path)), 1):
            rows.append(row_of(number, leg, text, world))
            noted.append(noted_of(leg, text, top / f"leg{number}"))
            told.step()
    made = {**known, "schedule": schedule.table, "legs": noted, **notes.of_times(begun)}
    sweep.replace(top / "notes.json", json.dumps(made, indent=1) + "\n")
    return pandas.DataFrame(rows)


def run(args: argparse.Namespace) -> None:
    schedule = schedule_in(args.schedule)
    carry_out(schedule, args.into, program.find(args.program)).to_csv(sys.stdout, index=False)
