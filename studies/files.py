"""Reads the two files that the program keeps, tierra.bank and tierra.hold. No other module reads them.

The layouts are the tables of docs/FORMATS.md: "Both files"; "The genebank's bytes" for a genebank; "The file of checkpoints"
and "A world's bytes" for a file of checkpoints. Numbers are unsigned, with the most significant byte first.
A file is checked to its end before anything of it is given: what the program would refuse is refused here, as far as the file alone can
tell. The program asks only of the last frame whether it has a sound world; here each frame is asked, of its genotypes when they are read.
"""
import functools
import hashlib
import mmap
import pathlib
import string
from typing import Any, Iterator, NamedTuple, Optional

import numpy
import pandas

from .refusal import Refused

HEADER = 45  # the title in 12 bytes, the digest of the setup in 32, and the gate of the first part
MOST_SIZE, MOST_RANK, MOST_QUANTA = 20000, 2**60, 4000000
BANK, HOLD = b"Tierra bank1", b"Tierra hold1"
REGISTERS = ["ax", "bx", "cx", "dx"]
# The table of a creature in "A world's bytes".
CREATURE = numpy.dtype(
    [("id", ">u8"), ("at", ">u4"), ("size", ">u4"), ("daughter_at", ">u4"), ("daughter_size", ">u4"), ("moved", ">u8")]
    + [(register, ">i4") for register in REGISTERS]
    + [("ip", ">u4"), ("stack", ">i4", 10), ("sp", ">u4"), ("flag", "u1")]
    + [(count, ">u8") for count in ("errors", "genotype", "ran", "bred")]
)
NUMBERS = [name for name in CREATURE.names if name != "stack"]  # the columns of one number each
EFFORTS = ["first_run", "first_moved", "second_run", "second_moved"]
Image = bytes | mmap.mmap | memoryview
Parts = tuple[list[dict[str, Any]], list[dict[str, Any]]]  # the genotypes and the saved genotypes of a world, a row each


def name_of(size: int, rank: int) -> str:
    """The text of a genotype's name: its size, and letters for its rank among the genotypes of that size."""
    letters, width = "", 3
    while rank >= 26**width:
        rank, width = rank - 26**width, width + 1
    for _ in range(width):
        rank, letter = divmod(rank, 26)
        letters = string.ascii_lowercase[letter] + letters
    return f"{size:04d}{letters}"


def number(data: Image, at: int, width: int) -> int:
    return int.from_bytes(data[at : at + width], "big")


def efforts_at(data: Image, at: int) -> dict[str, Optional[int]]:
    """The first and second effort as a dictionary; None stands where there was no such daughter. ValueError where cells were moved
    by no instruction."""
    numbers = [number(data, at + 8 * k, 8) for k in range(4)]
    if any(moved and not ran for ran, moved in zip(numbers[::2], numbers[1::2])):
        raise ValueError("an effort without instructions")
    kept = [value if numbers[k - k % 2] else None for k, value in enumerate(numbers)]
    return dict(zip(EFFORTS, kept))


def code_at(data: Image, at: int, size: int) -> bytes:
    """The code of so many instructions, or ValueError where there is none."""
    code = bytes(data[at : at + size])
    if not 1 <= size <= MOST_SIZE or len(code) < size or max(code) > 31:
        raise ValueError("no code")
    return code


class World:
    """The world that a frame holds: "A world's bytes" of docs/FORMATS.md, part by part. The genotypes are read when first asked for.
    `what` says which frame it is, for a refusal."""

    def __init__(self, state: Image, what: str = "frame"):
        self.state, self.what = state, what
        size = number(state, 0, 4)
        self.cells = numpy.frombuffer(state, numpy.uint8, size, 4)
        at = 4 + size
        self.quanta, self.births, self.deaths, self.next_id = (number(state, at + 8 * k, 8) for k in range(4))
        living = number(state, at + 32, 4)
        at += 36
        self.records = numpy.frombuffer(state, CREATURE, living, at)
        at += living * CREATURE.itemsize
        self.reaper = numpy.frombuffer(state, ">u8", living, at)
        self.genotypes_at = at + 8 * living

    @functools.cached_property
    def creatures(self) -> pandas.DataFrame:
        """The living in the order of their turns, a row each; `genotype` is a number, counted from 0 by first birth."""
        columns = {name: self.records[name].astype("int64") for name in NUMBERS}
        return pandas.DataFrame(columns)

    @property
    def stacks(self) -> numpy.ndarray:
        """The ten words of the stack of each of the living."""
        return self.records["stack"].astype("int64")

    @functools.cached_property
    def parts(self) -> Parts:
        """The genotypes and the saved genotypes, as two lists of rows. They are refused where they are those of no world."""
        try:
            parts = self.read_parts()
        except ValueError:
            parts = None
        if parts is None or not are_sound(*parts, self):
            raise Refused(f"{self.what} is damaged")
        return parts

    def read_parts(self) -> Parts:
        """The parts as they stand there, or ValueError where something else stands there."""
        state, at = self.state, self.genotypes_at
        count, at = number(state, at, 8), at + 8
        genotypes, savings = [], []
        ranks: dict[int, int] = {}
        for index in range(count):
            size = number(state, at, 4)
            code, at = code_at(state, at + 4, size), at + 4 + size
            parent, first, total = (number(state, at + 8 * k, 8) for k in range(3))
            rank = ranks.get(size, 0)
            ranks[size] = rank + 1
            row = {"genotype": index, "name": name_of(size, rank), "size": size, "parent": parent - 1 if parent else None}
            genotypes.append(row | {"first_quantum": first, "total": total} | efforts_at(state, at + 24) | {"code": code})
            at += 56
        count, at = number(state, at, 8), at + 8
        if at + 48 * count != len(state):
            raise ValueError("the saved genotypes do not end where the frame ends")
        for _ in range(count):
            row = {"genotype": number(state, at, 8), "saved": number(state, at + 8, 8)}
            savings.append(row | efforts_at(state, at + 16))
            at += 48
        return genotypes, savings

    @functools.cached_property
    def genotypes(self) -> pandas.DataFrame:
        """Every genotype that ever lived, in the order of first birth: name, size, parent's number, first quantum, total, efforts,
        code. An effort is in instructions run and cells moved, and is missing where there was no such daughter."""
        columns = ["genotype", "name", "size", "parent", "first_quantum", "total", *EFFORTS, "code"]
        table = pandas.DataFrame(self.parts[0], columns=columns)
        return table.astype({column: "Int64" for column in ["parent", *EFFORTS]})

    @functools.cached_property
    def savings(self) -> pandas.DataFrame:
        """The saved genotypes in the order of saving: number, quantum, and the efforts at that time."""
        table = pandas.DataFrame(self.parts[1], columns=["genotype", "saved", *EFFORTS])
        return table.astype({column: "Int64" for column in EFFORTS})

    @functools.cached_property
    def owners(self) -> numpy.ndarray:
        """The place in `creatures` of each cell's owner: k for its own block, -2 - k for its daughter block, -1 for a free cell."""
        owners = numpy.full(len(self.cells), -1, "int64")
        for k, (at, size, daughter_at, daughter_size) in enumerate(
            zip(*(self.records[name].tolist() for name in ("at", "size", "daughter_at", "daughter_size")))
        ):
            owners[at : at + size] = k
            owners[daughter_at : daughter_at + daughter_size] = -2 - k
        return owners


def has_sound_creatures(world: World) -> bool:
    """Whether the cells, the counts, the living and the reaper queue of a world are in the ranges of "A world's bytes"."""
    rows = {name: world.records[name].astype("uint64") for name in NUMBERS}
    limit, size, ids = 2**40 + 10000 * world.quanta, len(world.cells), set(rows["id"].tolist())
    ranges = {"id": (1, world.next_id - 1), "ip": (0, size - 1), "sp": (0, 9), "size": (1, MOST_SIZE), "daughter_size": (0, MOST_SIZE)}
    ranges |= {"genotype": (0, number(world.state, world.genotypes_at, 8) - 1)}
    ranges |= dict.fromkeys(("moved", "errors", "ran", "bred"), (0, limit))
    if not (0 < len(ids) == len(world.records) and world.births < world.next_id <= limit and world.quanta <= MOST_QUANTA):
        return False
    if world.deaths + len(ids) + 1 != world.next_id or set(world.reaper.tolist()) != ids or world.cells.max() > 31:
        return False
    if any(rows[name].min() < least or rows[name].max() > most for name, (least, most) in ranges.items()):
        return False
    if (rows["daughter_at"][rows["daughter_size"] == 0] != 0).any():
        return False
    owned = numpy.zeros(size, "int64")
    for ats, sizes in (("at", "size"), ("daughter_at", "daughter_size")):
        for at, length in zip(rows[ats].tolist(), rows[sizes].tolist()):
            if at + length > size:
                return False
            owned[at : at + length] += 1
    return owned.max() == 1


def are_sound(genotypes: list[dict[str, Any]], savings: list[dict[str, Any]], world: World) -> bool:
    """Whether the genotypes and the saved genotypes of a world are in the ranges of "A world's bytes". Only the settings could tell
    whether those are saved that `save_at` individuals had: here no other genotype had as many as one that is saved."""
    limit, saved = 2**40 + 10000 * world.quanta, {row["genotype"] for row in savings}
    if len({row["code"] for row in genotypes}) < len(genotypes) or len(genotypes) >= world.next_id or len(saved) < len(savings):
        return False
    if any(row["total"] > limit or row["parent"] is not None and row["parent"] >= row["genotype"] for row in genotypes):
        return False
    times = [0, *(row["saved"] for row in savings), world.quanta]
    if times != sorted(times) or not saved <= set(range(len(genotypes))):
        return False
    totals = [row["total"] for row in genotypes]
    others = [total for index, total in enumerate(totals) if index not in saved]
    return max(others, default=0) < min((totals[index] for index in saved), default=2**64)


class Saved(NamedTuple):
    """A saved genotype of a genebank."""

    name: str
    size: int
    quantum: int
    parent: Optional[str]
    efforts: dict[str, Optional[int]]
    code: bytes


def image_of(path: str | pathlib.Path) -> Image:
    """The bytes of a file, mapped where it has any."""
    with open(path, "rb") as file:
        empty = pathlib.Path(path).stat().st_size == 0
        return b"" if empty else mmap.mmap(file.fileno(), 0, access=mmap.ACCESS_READ)


def is_fresh(image: Image, title: bytes) -> bool:
    """Whether nothing was kept in the file yet."""
    return len(image) < HEADER or image[0] == 0 or (image[:1] != title[:1] and image[1:12] == title[1:])


def parts_of(image: Image, what: str, top_bit: bool = False) -> Iterator[tuple[int, int, bool]]:
    """The parts behind open gates, each as the places of its content and whether its length has the top bit; their digests hold.
    The first damaged part is refused: `what` says what it is."""
    gate, count = HEADER - 1, 0
    while image[gate] == 1:
        length = number(image, gate + 1, 4)
        marked, length = (length >> 31 == 1, length & 0x7FFFFFFF) if top_bit else (False, length)
        begin, end = gate + 5, gate + 5 + length
        gate = end + 32
        if gate >= len(image) or hashlib.sha256(memoryview(image)[begin:end]).digest() != image[end:gate]:
            raise Refused(f"{what} {count} is damaged")
        yield begin, end, marked
        count += 1


def check_setup(image: Image, digest: Optional[bytes], what: str) -> None:
    if digest is not None and image[12:44] != digest:
        raise Refused(f"{what} belongs to another setup")


def kind_of(path: str | pathlib.Path) -> str:
    """`bank` or `hold`, by the title that a file begins with."""
    with open(path, "rb") as file:
        title = file.read(12)
    if title[1:] not in (BANK[1:], HOLD[1:]):
        raise Refused(f"{path} is neither a genebank nor a file of checkpoints")
    return "bank" if title[1:] == BANK[1:] else "hold"


def setup_of(path: str | pathlib.Path) -> bytes:
    """The digest of the setup that a file was made for."""
    image = image_of(path)
    if len(image) < HEADER or image[:12] not in (BANK, HOLD):
        raise Refused(f"{path} has no setup yet")
    return bytes(image[12:44])


def read_hold(path: str | pathlib.Path, digest: Optional[bytes] = None) -> list[World]:
    """The worlds of a file of checkpoints, in order. A digest of a setup, where one is given, must be the file's."""
    return worlds_in(image_of(path), digest, str(path))


def worlds_in(image: Image, digest: Optional[bytes] = None, what: str = "tierra.hold") -> list[World]:
    """The worlds in the bytes of a file of checkpoints. They are refused as `hold` refuses them: see "The file of checkpoints"."""
    if is_fresh(image, HOLD):
        return []
    if image[:12] != HOLD:
        raise Refused(f"{what} is not a checkpoint")
    check_setup(image, digest, what)
    worlds, found = [], list(parts_of(image, f"{what}: frame"))
    for place, (begin, end, _) in enumerate(found):
        here, is_last = f"{what}: frame {place}", place + 1 == len(found)
        try:
            worlds.append(World(memoryview(image)[begin:end], here))
            is_sound = has_sound_creatures(worlds[-1]) and (not is_last or worlds[-1].parts is not None)
        except ValueError:
            is_sound = False
        if not is_sound:
            raise Refused(f"{here} is damaged")
    return worlds


def read_bank(path: str | pathlib.Path, digest: Optional[bytes] = None) -> list[Saved]:
    """The saved genotypes of a genebank, in order. A digest of a setup, where one is given, must be the file's."""
    return saved_in(image_of(path), digest, str(path))


def saved_in(image: Image, digest: Optional[bytes] = None, what: str = "tierra.bank") -> list[Saved]:
    """The saved genotypes in the bytes of a genebank. They are refused as `bank` refuses them: see "The genebank's file"."""
    if is_fresh(image, BANK):
        return []
    if image[:12] != BANK:
        raise Refused(f"{what} is not a genebank")
    check_setup(image, digest, what)
    saved = []
    for place, (begin, end, form_two) in enumerate(parts_of(image, f"{what}: group", top_bit=True)):
        try:
            saved += group_in(image[begin:end], form_two)
        except ValueError as fault:
            raise Refused(f"{what}: group {place} is damaged") from fault
    return saved


def group_in(payload: Image, form_two: bool) -> list[Saved]:
    """The saved genotypes of a group's payload, or ValueError where it has other bytes than a group."""
    quantum, count, at, saved = number(payload, 0, 8), number(payload, 8, 4), 12, []
    for _ in range(count):
        head = 24 + (32 if form_two else 0)
        size, rank, parent, parent_rank = (number(payload, at + place, width) for place, width in ((0, 4), (4, 8), (12, 4), (16, 8)))
        efforts = efforts_at(payload, at + 24) if form_two else dict.fromkeys(EFFORTS)
        code = code_at(payload, at + head, size)
        at += head + size
        if rank >= MOST_RANK or parent > MOST_SIZE or parent_rank >= (MOST_RANK if parent else 1):
            raise ValueError("a name out of its range")
        saved.append(Saved(name_of(size, rank), size, quantum, name_of(parent, parent_rank) if parent else None, efforts, code))
    if not saved or at != len(payload):
        raise ValueError("not the bytes of a group")
    return saved


class Growing:
    """A file of checkpoints that a run may still be writing. It has a frame as soon as the frame is whole."""

    def __init__(self, path: str, digest: Optional[bytes] = None):
        self.path, self.digest, self.head = path, digest, b""
        self.frames: list[tuple[int, int]] = []  # where the content of each frame begins and ends

    def gate(self) -> int:
        """Where the gate of the next frame stands."""
        return self.frames[-1][1] + 32 if self.frames else HEADER - 1

    def look(self) -> list[World]:
        """The frames that came since the last look. One that is cut off, or not whole yet, is left for a later look,
        with what is behind it. A file that was begun anew is read from its first frame: then `frames` has no others."""
        with open(self.path, "rb") as file:
            head, size = file.read(HEADER - 1), file.seek(0, 2)
            if head != self.head or size <= self.gate():
                self.head, self.frames = head, []
            gate = file.seek(self.gate())
            # Behind the header stands the next frame, as if it were the first one.
            image = head + file.read()
        if is_fresh(image, HOLD):
            return []
        if image[:12] != HOLD:
            raise Refused(f"{self.path} is not a checkpoint")
        check_setup(image, self.digest, self.path)
        found: list[World] = []
        try:
            for begin, end, _ in parts_of(image, f"{self.path}: frame"):
                world = World(memoryview(image)[begin:end], f"{self.path}: frame {len(self.frames)}")
                if not (has_sound_creatures(world) and world.parts):
                    break
                found.append(world)
                self.frames.append((gate + begin - HEADER + 1, gate + end - HEADER + 1))
        except (Refused, ValueError):
            pass
        return found

    def world(self, place: int) -> World:
        """The world of a frame that was seen, read once more."""
        begin, end = self.frames[place]
        with open(self.path, "rb") as file:
            file.seek(begin)
            state, told = file.read(end - begin), file.read(32)
        if hashlib.sha256(state).digest() != told:
            raise Refused(f"{self.path}: frame {place} is damaged")
        return World(state, f"{self.path}: frame {place}")
