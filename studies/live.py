"""Follows a file of checkpoints while a run writes it: as a page for a browser, or as text.

  tierra hold --quanta 4000000 --every 40000 < ../examples/parasites.toml > hold.txt &
  zuldokan live tierra.hold                   serves a page at http://127.0.0.1:8000/ until Ctrl-C ends it
  zuldokan live tierra.hold --text            a line for each checkpoint; on a terminal a screen that is drawn anew
  zuldokan live tierra.hold --text --once     what is there by now

The page has the soup, coloured by genotype, by class of size or (with `--roles`) by role; the population and the
classes of size over time; and the commonest genotypes, each with its listing and the line to it. A slider goes back in
time, `play` shows one checkpoint after the other, and `follow` stays at the newest. The address keeps what is shown, as
`#quantum=40000&by=size&of=0080aaa`.

A last checkpoint that is cut off, or not whole yet, is left out until it is whole. The file is looked at each
`--seconds`. (`tierra watch` tells its sights together at its end, so they cannot be followed.)

A line of text has: quantum; births and deaths since the start; living creatures; genotypes that live; how many live of
each class of size (`40+` is 40 to 49 instructions); and the commonest genotypes with their living.
"""
import argparse
import collections
import contextlib
import functools
import http.server
import json
import pathlib
import sys
import threading
import time
import urllib.parse
from typing import Optional

import numpy

from . import files, frames, genotypes, soup
from .refusal import Refused

PAGE = pathlib.Path(__file__).with_name("live.html")
MOST = 12  # the commonest genotypes that are shown
BAR = 40  # the longest bar on a terminal


def add_arguments(parser: argparse.ArgumentParser) -> None:
    frames.add_hold(parser)
    parser.add_argument("--roles", type=pathlib.Path, help="a table of `zuldokan roles`")
    parser.add_argument("--port", type=int, default=8000, help="the port of the page (default 8000); 0 for a free one")
    parser.add_argument("--seconds", type=float, default=1, help="the time between two looks at the file (default 1)")
    parser.add_argument("--text", action="store_true", help="text instead of a page")
    parser.add_argument("--once", action="store_true", help="with --text: what is there by now, and no more")


def living_of(world: files.World) -> list[tuple[int, int]]:
    """The genotypes that live in a world with how many live: the commonest first, and of equals the first born."""
    counts = collections.Counter(world.records["genotype"].tolist())
    return sorted(counts.items(), key=lambda one: (-one[1], one[0]))


def row_of(world: files.World) -> dict:
    """What is told of a checkpoint: the counts, the living by class of size, and the commonest genotypes."""
    living, known = living_of(world), world.parts[0]
    sizes: collections.Counter[int] = collections.Counter()
    for one, number in living:
        sizes[known[one]["size"] // 10 * 10] += number
    return {
        "quantum": world.quanta, "births": world.births, "deaths": world.deaths, "living": len(world.records),
        "genotypes": len(living), "sizes": dict(sorted(sizes.items())),
        "commonest": [[known[one]["name"], number] for one, number in living[:MOST]],
    }  # fmt: skip


def runs_of(cells: numpy.ndarray) -> list[list[int]]:
    """The stretches of cells that are marked, each as its first cell and its length."""
    edges = numpy.flatnonzero(numpy.diff(numpy.concatenate([[0], cells.astype("int8"), [0]])))
    return [[int(begin), int(end - begin)] for begin, end in zip(edges[::2], edges[1::2])]


def map_of(world: files.World, roles: dict[str, str]) -> dict:
    """What the page draws of a checkpoint: the genotypes, the blocks of the creatures, and what the dead left."""
    living, known = living_of(world), world.parts[0]
    place = {one: k for k, (one, _) in enumerate(living)}
    named = []
    for one, number in living:
        row, parent = known[one], known[one]["parent"]
        told = {"number": one, "living": number, **{key: row[key] for key in ("name", "size", "first_quantum")}}
        parent = None if parent is None else known[parent]["name"]
        named.append({**told, "parent": parent, "role": roles.get(row["name"])})
    columns = ["at", "size", "daughter_at", "daughter_size", "genotype"]
    blocks = [[*row[:4], place[row[4]]] for row in world.records[columns].tolist()]
    left = runs_of((world.owners == -1) & (world.cells != 0))
    return {"quantum": world.quanta, "cells": len(world.cells), "genotypes": named, "creatures": blocks, "left": left}


def genotype_of(world: files.World, name: str) -> dict:
    """A genotype: its listing, and the line to it with the mutations of each step."""
    from . import lineage

    found = genotypes.all_of(world)
    one = genotypes.chosen(found, [name], "the run")[0]
    line = lineage.table_of(lineage.lineage(found, name))[["name", "quantum", "changes"]]
    return {"name": name, "listing": soup.listing_of_code(one.code, words=5), "line": line.to_dict("records")}


class Follower:
    """Looks at a growing file, and keeps a row for each checkpoint. `begun` counts how often it was begun anew."""

    def __init__(self, path: str, digest: Optional[bytes], roles: dict[str, str]):
        self.file, self.roles, self.lock = files.Growing(path, digest), roles, threading.Lock()
        self.rows: list[dict] = []
        self.begun = 0

    @functools.cached_property
    def colours(self) -> dict:
        """The colours of the pictures, and whether roles are known."""
        from . import picture

        colours = {"roles": picture.COLOURS, "others": picture.OTHERS, "series": picture.SERIES}
        return {**colours, "has_roles": bool(self.roles)}

    def look(self) -> list[dict]:
        """Takes in what came since the last look, and gives its rows."""
        with self.lock:
            new = [row_of(world) for world in self.file.look()]
            if len(self.file.frames) != len(self.rows) + len(new):
                self.rows, self.begun = [], self.begun + 1
            self.rows += new
            return new

    def state(self, begun: int, known: int) -> dict:
        """The rows that a page lacks which has so many; all of them where its rows are of another beginning."""
        self.look()
        first = known if begun == self.begun else 0
        return {"begun": self.begun, "first": first, "rows": self.rows[first:]}

    def world(self, place: int) -> files.World:
        with self.lock:
            if not 0 <= place < len(self.rows):
                raise Refused(f"there is no checkpoint {place}")
            return self.file.world(place)


def answer(follower: Follower, path: str, asked: dict[str, str]) -> Optional[dict]:
    """What an address of the page asks for; None if there is nothing at it."""
    if path == "/state":
        return follower.state(int(asked["begun"]), int(asked["known"]))
    if path == "/map":
        return map_of(follower.world(int(asked["place"])), follower.roles)
    if path == "/genotype":
        return genotype_of(follower.world(len(follower.rows) - 1), asked["name"])
    return follower.colours if path == "/colours" else None


class Handler(http.server.BaseHTTPRequestHandler):
    """Answers the page, and what it asks for."""

    follower: Follower

    def do_GET(self) -> None:
        path, _, query = self.path.partition("?")
        if path == "/":
            self.send(200, "text/html; charset=utf-8", PAGE.read_bytes())
            return
        try:
            said, status = answer(self.follower, path, dict(urllib.parse.parse_qsl(query))), 200
        except (Refused, OSError) as fault:
            said, status = {"error": str(fault)}, 409
        except (KeyError, ValueError):
            said, status = {"error": "the address lacks a word, or has another kind of it"}, 400
        if said is None:
            said, status = {"error": f"there is nothing at {path}"}, 404
        self.send(status, "application/json", json.dumps(said).encode())

    def send(self, status: int, kind: str, body: bytes) -> None:
        self.send_response(status)
        self.send_header("Content-Type", kind)
        self.send_header("Content-Length", str(len(body)))
        self.send_header("Cache-Control", "no-store")
        with contextlib.suppress(ConnectionError):  # a page that was closed waits for nothing
            self.end_headers()
            self.wfile.write(body)

    def log_message(self, *_: object) -> None:
        """No line for each request."""


def server_of(follower: Follower, port: int) -> http.server.ThreadingHTTPServer:
    """The server of the page, on this machine alone."""
    handler = type("FollowerHandler", (Handler,), {"follower": follower})
    _ = follower.colours  # the library of pictures is loaded before a page waits for it
    try:
        return http.server.ThreadingHTTPServer(("127.0.0.1", port), handler)
    except (OSError, OverflowError) as fault:
        raise Refused(f"--port {port}: {fault}") from fault


def sizes_in(row: dict) -> str:
    return " ".join(f"{size}+:{number}" for size, number in row["sizes"].items())


def line_of(row: dict) -> str:
    """A checkpoint in a line."""
    counts = " ".join(f"{key} {row[key]}" for key in ("quantum", "births", "deaths", "living", "genotypes"))
    commonest = " ".join(f"{name}:{number}" for name, number in row["commonest"][:3])
    return f"{counts} sizes {sizes_in(row)} commonest {commonest}"


def bar_of(number: int, most: int) -> str:
    return "#" * max(1, round(BAR * number / most))


def screen_of(rows: list[dict], path: str) -> str:
    """The newest checkpoint on a terminal, with bars for sizes and genotypes, and the living of the last few."""
    last = rows[-1]
    lines = [f"{path}: {len(rows)} checkpoints; Ctrl-C ends this", ""]
    lines += ["  ".join(f"{key} {last[key]:,}" for key in ("quantum", "living", "births", "deaths")), ""]
    parts = {
        "instructions": [(f"{size} to {size + 9}", number) for size, number in last["sizes"].items()],
        f"of {last['genotypes']} genotypes": last["commonest"],
        "living until now": [(f"{row['quantum']:,}", row["living"]) for row in rows[-8:]],
    }
    for title, some in parts.items():
        most = max(number for _, number in some)
        lines += [title, *(f"  {name:>12} {number:>6} {bar_of(number, most)}" for name, number in some), ""]
    return "\n".join(lines)


def tell(follower: Follower, path: str, seconds: float, once: bool) -> None:
    """Tells each checkpoint when it is whole: a line each, or on a terminal a screen that is drawn anew."""
    is_terminal = sys.stdout.isatty()
    while True:
        new = follower.look()
        if new and is_terminal:
            print(f"\x1b[H\x1b[2J{screen_of(follower.rows, path)}", flush=True)
        elif new:
            print("\n".join(map(line_of, new)), flush=True)
        if once:
            if not follower.rows:
                raise Refused(f"{path} holds no checkpoint")
            return
        time.sleep(seconds)


def run(args: argparse.Namespace) -> None:
    if not args.seconds > 0:
        raise Refused("--seconds is above 0")
    if args.once and not args.text:
        raise Refused("--once goes with --text")
    roles = {}
    if args.roles is not None:
        from . import picture

        roles = picture.roles_in(args.roles)
    follower = Follower(args.hold, soup.digest_of(args.soup), roles)
    if args.text:
        tell(follower, args.hold, args.seconds, args.once)
        return
    follower.look()
    with server_of(follower, args.port) as server:
        print(f"{args.hold} is shown at http://127.0.0.1:{server.server_address[1]}/ until Ctrl-C", flush=True)
        server.serve_forever()
