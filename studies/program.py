"""Finds the program and runs it. The program is that of `--program`, or of the variable ZULDOKAN_PROGRAM or TIERRA, or the one that the
script `tierra` of this repository says it has built, or `tierra` on the PATH."""
import argparse
import hashlib
import os
import pathlib
import shutil
import subprocess
import sys
import tempfile
from typing import IO, Sequence

from .refusal import Refused

TOP = pathlib.Path(__file__).resolve().parent.parent
VARIABLES = ("ZULDOKAN_PROGRAM", "TIERRA")
MEMORY = "/dev/shm"
UNPROVED_SPEED = 1860  # quanta a second of the program that `./tierra --unproved` builds


def add_argument(parser: argparse.ArgumentParser) -> None:
    told = "the program; else the variable ZULDOKAN_PROGRAM or TIERRA, else what ./tierra has built, else tierra on the PATH"
    parser.add_argument("--program", help=told)


def is_repository(top: pathlib.Path) -> bool:
    """Whether a folder is the top of this repository, and no other place where the tools were installed."""
    return (top / "crates.txt").is_file() and (top / "tierra").is_file()


def built(top: pathlib.Path) -> str | None:
    """The program that the script `tierra` of a repository has built; None where there is none."""
    if not is_repository(top):
        return None
    where = subprocess.run([top / "tierra", "--where"], capture_output=True, text=True)
    return None if where.returncode else where.stdout.strip()


def on_path() -> str | None:
    """The program `tierra` on the PATH, or the one that it has built, where it is the script of a repository."""
    found = shutil.which("tierra")
    top = pathlib.Path(found or "").resolve().parent
    return built(top) if found and is_repository(top) else found


def find(named: str | None = None) -> str:
    """The path of the program."""
    named = named or next(filter(None, map(os.environ.get, VARIABLES)), None) or built(TOP) or on_path()
    if not named:
        raise Refused("there is no program: run ./tierra once in the repository, or name one with --program, ZULDOKAN_PROGRAM or TIERRA")
    if not os.access(named, os.X_OK) or not os.path.isfile(named):
        raise Refused(f"{named} is no program")
    return os.path.abspath(named)


def digest(path: str) -> str:
    """The SHA-256 of the program's file, which tells one build from another."""
    return hashlib.sha256(pathlib.Path(path).read_bytes()).hexdigest()


def forecast(path: str, quanta: float) -> None:
    """Says first that so many quanta, one after another, take an unproved program more than a minute."""
    minutes = quanta / UNPROVED_SPEED / 60
    if os.path.basename(os.path.realpath(path)) == "unproved" and minutes > 1:
        line = f"this takes the unproved program some {minutes:.0f} minutes; the proved one is some 150 times as fast"
        print(f"zuldokan: {line}", file=sys.stderr, flush=True)


def commit() -> str | None:
    """The commit of this repository, with `+` where its files were changed since; None outside it."""
    if not is_repository(TOP):
        return None
    asked = ["git", "-C", str(TOP), "describe", "--always", "--abbrev=40", "--exclude=*", "--dirty=+"]
    try:
        said = subprocess.run(asked, capture_output=True, text=True)
    except OSError:
        return None
    return said.stdout.strip() if said.returncode == 0 else None


def scratch(size: int) -> tempfile.TemporaryDirectory[str]:
    """A folder for files of so many bytes that nobody keeps. The program syncs what it writes, so the folder is in memory where there
    is room for ten times as many."""
    has_room = os.access(MEMORY, os.W_OK) and shutil.disk_usage(MEMORY).free > 10 * size
    return tempfile.TemporaryDirectory(dir=MEMORY if has_room else None)


def run(path: str, words: Sequence[object], source: str = "", folder: str | pathlib.Path = ".", out: IO[bytes] | None = None) -> str:
    """Runs an action to its end and gives what it prints, or writes that to the open file `out`. What the program refuses is
    refused with the program's own line."""
    answer = subprocess.run(
        [path, *map(str, words)], input=source.encode(), cwd=folder, stdout=out or subprocess.PIPE, stderr=subprocess.PIPE
    )
    if answer.returncode:
        line = answer.stderr.decode(errors="replace").strip().splitlines()[-1:] or ["tierra said nothing"]
        how = f"signal {-answer.returncode}" if answer.returncode < 0 else f"status {answer.returncode}"
        raise Refused(f"{words[0]} ended with {how}: {line[0]}")
    return "" if out else answer.stdout.decode()
