#!/usr/bin/env python3
"""stand_in.py RIGHT ANSWERS WAY WORD..: answers and keeps what the right program does, but in a wrong way.

What the right program answers is kept in the folder ANSWERS, for the next call with these words.

The way `wakes for nobody` hangs once its output waited for a reader. Any other way is steps for each record of the file: w writes it,
s syncs it, t tells its line; and f, at the beginning, syncs the folder.
"""
import os
import pathlib
import select
import subprocess
import sys
import time

right, answers, way, *words = sys.argv[1:]
name = "tierra.bank"


def whole():
    """The lines of the right program in a folder of its own, and the file that it leaves."""
    folder = pathlib.Path(answers) / "_".join(words)
    if not folder.exists():
        folder.mkdir()
        (folder / "text").write_bytes(subprocess.run([right, *words], capture_output=True, cwd=folder, check=True).stdout)
    return (folder / "text").read_bytes().splitlines(keepends=True), (folder / name).read_bytes() if (folder / name).exists() else b""


def wakes_for_nobody(lines):
    for line in lines:
        if not select.select([], [1], [], 0.15)[1]:
            time.sleep(3600)
        os.write(1, line)


def write_records(lines, image):
    file, gate = os.open(name, os.O_RDWR | os.O_CREAT), 44
    if way.startswith("f"):
        os.fsync(os.open(".", os.O_RDONLY))
    os.pwrite(file, image[:gate] + b"\0", 0)
    os.fsync(file)
    while image[gate] == 1:
        end = gate + 37 + int.from_bytes(image[gate + 1 : gate + 5], "big") % 2**31
        for step in way.strip("f"):
            if step == "w":
                os.pwrite(file, image[gate:end] + b"\0", gate)
            elif step == "s":
                os.fsync(file)
            else:
                os.write(1, lines.pop(0))
        gate = end
    os.write(1, b"".join(lines))


lines, image = whole()
if way == "wakes for nobody":
    pathlib.Path(name).write_bytes(image)
    wakes_for_nobody(lines)
else:
    write_records(lines, image)
