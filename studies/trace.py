"""A run instruction by instruction (CSV), by checkpoints of a run with `slice_size = 1`.

  zuldokan trace ../examples/soup.toml --quanta 839 > trace.csv

The soup file is run with `slice_size = 1` and `slice_by_size = false`, all else as it is, so a quantum is one instruction. A row for each:
quantum; creature (birth number); place (cell); instruction; ax, bx, cx, dx, flag, errors and ip after it; the stack after it, from the
top down, ten words; wrote (CELL=VALUE of a copy that went through); flipped (cells that a background flip changed).
A checkpoint has a byte for each cell: take a small soup for a long trace. At most 100,000 quanta.
"""
import argparse
import pathlib
import sys
from typing import Any, Mapping

import numpy
import pandas

from . import files, program, soup, sweep
from .refusal import Refused

MOST = 100000
COPY = soup.CODE_OF["mov_iab"]


def add_arguments(parser: argparse.ArgumentParser) -> None:
    parser.add_argument("soup")
    parser.add_argument("--quanta", type=int, default=1000)
    parser.add_argument("--size", type=int, metavar="CELLS", help="another soup_size, for a smaller file")
    program.add_argument(parser)


def row_of(quantum: int, front: Any, before: numpy.ndarray, world: files.World) -> dict[str, Any]:
    """The row of one instruction: of the creature at the front of the world before, whose record and cells are given."""
    place, target = int(front["ip"]), int(front["ax"]) % len(before)
    op = before[place] if before[place] == COPY and target == place else world.cells[place]
    after = world.records[world.records["id"] == front["id"]][0]
    changed = set(numpy.flatnonzero(before != world.cells).tolist())
    wrote = op == COPY and after["flag"] == 0
    stack = [int(after["stack"][(int(after["sp"]) - k) % 10]) for k in range(10)]
    return {
        "quantum": quantum, "creature": int(front["id"]), "place": place, "instruction": soup.INSTRUCTIONS[op],
        **{column: int(after[column]) for column in [*files.REGISTERS, "flag", "errors", "ip"]},
        "stack": " ".join(map(str, stack)),
        "wrote": f"{target}={world.cells[target]}" if wrote else "",
        "flipped": " ".join(map(str, sorted(changed - ({target} if wrote else set())))),
    }  # fmt: skip


def trace(document: Mapping[str, Any], worlds: list[files.World]) -> pandas.DataFrame:
    """The table of a run whose checkpoints are of every quantum."""
    first = numpy.zeros(1, files.CREATURE)[0]
    before = numpy.zeros(soup.settings(document)["soup_size"], numpy.uint8)
    for number, (at, code) in enumerate(soup.creatures(document), 1):
        before[at : at + len(code)] = list(code)
        if number == 1:
            first["id"], first["ip"] = 1, at
    rows = []
    for quantum, world in enumerate(worlds, 1):
        if world.quanta != quantum:
            raise Refused(f"checkpoint {quantum} is of quantum {world.quanta}: a trace needs each quantum")
        rows.append(row_of(quantum, first, before, world))
        first, before = world.records[0], world.cells
    return pandas.DataFrame(rows)


def run(args: argparse.Namespace) -> None:
    if not 1 <= args.quanta <= MOST:
        raise Refused(f"--quanta is from 1 to {MOST:,}")
    settings = {"slice_size": 1, "slice_by_size": False} | ({"soup_size": args.size} if args.size else {})
    text, path = sweep.changed(soup.read(args.soup), settings), program.find(args.program)
    document = soup.plain(text)
    digest = soup.digest(document)
    with program.scratch(args.quanta * soup.settings(document)["soup_size"]) as room:
        program.run(path, ["hold", "--quanta", args.quanta, "--every", 1], text, room)
        table = trace(document, files.read_hold(pathlib.Path(room) / "tierra.hold", digest))
    table.to_csv(sys.stdout, index=False)
