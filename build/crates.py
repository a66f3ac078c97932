"""The crates of this checkout: what stands on what, what is built and older than its sources, and what each takes."""

import os
import pathlib
import time

TOP = pathlib.Path(__file__).resolve().parent.parent
PROGRAM = "tierra"
PARTS = ("src", "specs", "proofs")  # the folders of a crate that have its sources


def folder_of(crate):
    return TOP / "crates" / crate


def read_lines():
    """The lines of crates.txt that name a crate, by that name."""
    text = (TOP / "crates.txt").read_text()
    lines = [line.partition("#")[0].rstrip() for line in text.splitlines()]
    return {line.split(":")[0].split()[0]: line for line in lines if line.strip()}


def read_uses():
    """Each crate with the crates of this checkout that it names."""
    lines = read_lines()
    named = {crate: line.partition(":")[2].split() for crate, line in lines.items()}
    return {crate: [below for below in names if below in lines] for crate, names in named.items()}


def needed_by(crate, uses):
    """The crate and all that it stands on, lowest first, each with those that it names."""
    found = {}

    def add(name):
        if name not in found:
            for below in uses[name]:
                add(below)
            found[name] = uses[name]

    add(crate)
    return found


def built_file(crate):
    """What is written last when a crate is built."""
    out = folder_of(crate) / "out"
    return out / PROGRAM if crate == PROGRAM else out / "rlib/stamp"


def made_at(file):
    """When a file was written; 0 if it is not there."""
    return file.stat().st_mtime if file.exists() else 0


def sources_of(crate):
    return [TOP / "crates.txt", *(file for part in PARTS for file in (folder_of(crate) / part).rglob("*"))]


def old_crates(uses):
    """The crates that are not built, or are older than a source or than a crate below them; and always the program.

    All are given lowest first."""
    made, old = {crate: made_at(built_file(crate)) for crate in uses}, []
    for crate, below in uses.items():
        stands_on_new = any(name in old or made[name] > made[crate] for name in below)
        if crate == PROGRAM or stands_on_new or any(made_at(file) > made[crate] for file in sources_of(crate)):
            old.append(crate)
    return old


def note_built(crate, moment):
    """Notes that a crate was built of the sources of that moment, so that what was changed since is newer."""
    os.utime(built_file(crate), (moment, moment))


def read_costs():
    """The seconds that each crate took in the build of build/costs.tsv."""
    lines = (TOP / "build/costs.tsv").read_text().splitlines()
    return {name: float(seconds) for name, seconds in (line.split("\t") for line in lines if not line.startswith("#"))}


def write_costs(costs, said):
    """Keeps what each crate took, in the form of build/costs.tsv, below a line on the build."""
    day = time.strftime("%d %B %Y").lstrip("0")
    head = f"# The seconds that each crate of the program took to prove, in a build of {day}:\n# {said}.\n"
    rows = "".join(f"{crate}\t{seconds:.0f}\n" for crate, seconds in costs.items())
    (folder_of(PROGRAM) / "out/costs.tsv").write_text(head + rows)
