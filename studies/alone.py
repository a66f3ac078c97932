"""Runs genotypes alone, side by side, and keeps what was seen of each.

A genotype alone is one creature at cell 0 of an empty soup. There is no mutation, no flaw and no disturbance, so nothing is left to
chance; the other settings are those that are asked for, or the defaults, which `tierra grow` has. What is looked at are the first three
daughters of that creature. `tierra curve` tells who was born and who died in each quantum; whose turn each quantum was, and so who the
mother was, follows by the rule of the slicer queue (docs/RULES.md, "Queues"). `tierra hold` gives the daughters' codes.

Each result is a line of JSON in a file, written as it comes: setup (the digest of code and settings, as in the header of tierra.bank),
quanta and program (SHA-256), by which it is found again; code; births; daughters (codes); and the efforts. Codes have two hexadecimal
digits an instruction. A line that an interruption cut off is worked out anew.
"""
import argparse
import collections
import concurrent.futures
import json
import os
import pathlib
from typing import Any, Iterable, NamedTuple, Optional

from . import files, printed, program, soup, sweep
from .progress import Progress
from .refusal import Refused

MOST_DAUGHTERS = 3
# What would leave something to chance, or change a world from outside.
STILL: dict[str, Any] = {"back_rate": 0, "copy_rate": 0, "flaw_rate": 0, "dist_every": 0, "seed": soup.SETTINGS["seed"]}


def add_arguments(parser: argparse.ArgumentParser) -> None:
    """The words of every verb that runs genotypes alone."""
    parser.add_argument("--quanta", type=int, default=1000, help="quanta that each genotype runs alone (default 1000)")
    parser.add_argument("--like", metavar="SOUP", help="a soup file with the settings, but for what leaves things to chance")
    parser.add_argument("--set", action="append", default=[], metavar="KEY=VALUE", help="another value of a setting")
    parser.add_argument("--jobs", type=int, help="how many run at once (default: as many as there are processors)")
    kept = "the file of results; what it has is not run again (default assays.jsonl)"
    parser.add_argument("--kept", type=pathlib.Path, default=pathlib.Path("assays.jsonl"), help=kept)
    program.add_argument(parser)


class Seen(NamedTuple):
    """What was seen of a genotype alone: all births, the codes of its creature's first three daughters, and its efforts."""

    births: int
    daughters: tuple[bytes, ...]
    efforts: dict[str, Optional[int]]


def first_daughters(births: list[tuple[int, int]], deaths: list[tuple[int, int]]) -> list[tuple[int, int]]:
    """The quantum and the number of each of the first daughters of creature 1, from those of all births and deaths."""
    born, died = collections.defaultdict(list), collections.defaultdict(list)
    for quantum, number in births:
        born[quantum].append(number)
    for quantum, number in deaths:
        died[quantum].append(number)
    queue, found = collections.deque([1]), []
    for quantum in range(1, max(born, default=0) + 1):
        if queue[0] == 1:
            found += [(quantum, number) for number in born[quantum]]
        queue.extend(born[quantum])
        for number in died[quantum]:
            queue.remove(number)
        if len(found) >= MOST_DAUGHTERS or 1 not in queue:
            break
        queue.rotate(-1)
    return found[:MOST_DAUGHTERS]


def text_of(settings: dict, code: bytes) -> str:
    """The soup file of a genotype alone."""
    return lines_of(settings) + f'[[creature]]\nat = 0\ncode = """\n{soup.listing_of_code(code)}"""\n'


def lines_of(settings: dict) -> str:
    """The settings of a soup file, a line each."""
    return "".join(f"{key} = {json.dumps(value)}\n" for key, value in settings.items())


def jobs_of(asked: Optional[int]) -> int:
    """How many runs at once: so many, or as many as there are processors."""
    jobs = len(os.sched_getaffinity(0)) if asked is None else asked
    if jobs < 1:
        raise Refused("--jobs is at least 1")
    return jobs


class Bench:
    """Runs genotypes alone with these settings, for so many quanta, with this program and so many at once. `kept` is the file of
    results, or None."""

    def __init__(self, settings: dict, quanta: int, path: str, jobs: int, kept: Optional[pathlib.Path] = None):
        self.settings, self.quanta, self.path, self.jobs, self.kept = {**settings, **STILL}, quanta, path, jobs, kept
        self.program = program.digest(path)
        self.known = read_kept(kept)

    def said(self) -> str:
        """The settings and quanta, in words: those settings that differ from the defaults."""
        others = [f"{key} = {json.dumps(value)}" for key, value in self.settings.items() if value != soup.SETTINGS[key]]
        return f"alone for {self.quanta} quanta with {' and '.join(others) or 'default settings'}"

    def key(self, code: bytes) -> tuple[str, int, str]:
        document = {**self.settings, "creature": [{"at": 0, "code": soup.listing_of_code(code)}]}
        return soup.digest(document).hex(), self.quanta, self.program

    def seen(self, codes: Iterable[bytes]) -> dict[bytes, Seen]:
        """What is seen of each code. Those that are not known yet are run, and kept one by one."""
        keys = {code: self.key(code) for code in codes}
        new = [code for code, key in keys.items() if key not in self.known]
        if new:
            self.run_all(new, keys)
        return {code: self.known[key] for code, key in keys.items()}

    def run_all(self, codes: list[bytes], keys: dict) -> None:
        program.forecast(self.path, len(codes) * self.quanta / self.jobs)
        with Progress(len(codes), "genotype") as told, concurrent.futures.ThreadPoolExecutor(self.jobs) as pool:
            running = {pool.submit(self.run_one, code): code for code in codes}
            try:
                for done in concurrent.futures.as_completed(running):
                    code, seen = running[done], done.result()
                    self.keep(keys[code], code, seen)
                    told.step()
            except BaseException:
                pool.shutdown(wait=False, cancel_futures=True)
                raise

    def run_one(self, code: bytes) -> Seen:
        """Runs one genotype alone."""
        text, none = text_of(self.settings, code), dict.fromkeys(files.EFFORTS)
        with program.scratch(10**6) as room:
            curve = program.run(self.path, ["curve", "--quanta", self.quanta, "--every", self.quanta], text, room)
            births, deaths = printed.events_in(curve)
            daughters = first_daughters(births, deaths)
            if not daughters:
                return Seen(len(births), (), none)
            dead, last = {number: quantum for quantum, number in deaths}, daughters[-1][0]
            early = {quantum for quantum, number in daughters if dead.get(number, last + 1) <= last}
            codes = {}
            for quantum in sorted(early | {last}):
                world = self.world_at(quantum, text, room)
                codes.update(codes_in(world))
        known = tuple(codes[number] for _, number in daughters if number in codes)
        return Seen(len(births), known, {effort: world.parts[0][0][effort] for effort in files.EFFORTS})

    def world_at(self, quantum: int, text: str, room: str) -> files.World:
        program.run(self.path, ["hold", "--quanta", quantum, "--every", quantum], text, room)
        return files.read_hold(pathlib.Path(room) / "tierra.hold")[-1]

    def keep(self, key: tuple, code: bytes, seen: Seen) -> None:
        """Notes a result, and appends its line to the file."""
        self.known[key] = seen
        if self.kept is None:
            return
        row: dict[str, object] = dict(zip(("setup", "quanta", "program"), key)) | {"code": code.hex(), "births": seen.births}
        row |= {"daughters": [daughter.hex() for daughter in seen.daughters]} | seen.efforts
        with open(self.kept, "a", encoding="utf-8") as file:
            file.write(json.dumps(row) + "\n")


def codes_in(world: files.World) -> dict[int, bytes]:
    """The code with which each of the living was born, by its number."""
    genotypes = world.parts[0]
    return {int(one["id"]): genotypes[int(one["genotype"])]["code"] for one in world.records}


def read_kept(path: Optional[pathlib.Path]) -> dict[tuple, Seen]:
    """The results in a file, if it is there. A last line that was cut off is taken out of it."""
    if path is None or not path.exists():
        return {}
    data = path.read_bytes()
    known: dict[tuple, Seen] = {}
    whole = data[: data.rfind(b"\n") + 1]
    for number, line in enumerate(whole.splitlines(), 1):
        try:
            row = json.loads(line)
            daughters = tuple(bytes.fromhex(daughter) for daughter in row["daughters"])
            seen = Seen(row["births"], daughters, {effort: row[effort] for effort in files.EFFORTS})
            known[row["setup"], row["quanta"], row["program"]] = seen
        except (ValueError, KeyError, TypeError) as fault:
            raise Refused(f"{path} is no file of assays: line {number}") from fault
    if len(whole) < len(data):
        if not whole and not data.startswith(b"{"):
            raise Refused(f"{path} is no file of assays: line 1")
        os.truncate(path, len(whole))
    return known


def settings_of(like: Optional[str], words: list[str]) -> dict:
    """The settings of a soup file, or the defaults, with the values that the words of `--set` give."""
    document = soup.plain(soup.text_in(like), like) if like else {}
    return soup.settings(document) | sweep.one_value_of(words)


def bench_of(args: argparse.Namespace) -> Bench:
    """The bench that the words of a verb ask for."""
    soup.check_quanta(args.quanta)
    return Bench(settings_of(args.like, args.set), args.quanta, program.find(args.program), jobs_of(args.jobs), args.kept)
