"""Stands in for the kit's command `rt` in the tests of the tools. The source of a crate says what is done with it:

  well          it is proved at once
  long          that takes longer than any test
  until NOTE    it waits for this note, as 'begin crew'
  refused       the proof is refused, with 50 lines of which the last names the fault
  killed        it is killed
  killed once   it is killed, but for the second time
  full          the disk is full
  pass, fail    tests that pass or fail
"""

import fcntl
import os
import pathlib
import signal
import sys
import time

LONG = 1000
crate = pathlib.Path.cwd()
out = crate / "out"
notes = pathlib.Path(os.environ.get("STAND_IN_NOTES", "/dev/null"))


def note(deed, more=""):
    with open(notes, "a") as file:
        file.write(f"{deed} {crate.name} {more}\n")


def deeds():
    return "".join(file.read_text() for file in sorted((crate / "src").iterdir())).splitlines()


def below():
    """The crates of this checkout that the present one names, as the kit finds them."""
    lines = (crate.parent.parent / "crates.txt").read_text().splitlines()
    named = {line.split(":")[0].split()[0]: line.split(":")[1].split() for line in lines if ":" in line}
    return [name for name in named[crate.name] if name in named]


def hold_locks():
    """Waits until no other command works in the folders of this crate and of those that it names."""
    for folder in [crate, *(crate.parent / name for name in below())]:
        fcntl.flock(os.open(folder, os.O_RDONLY), fcntl.LOCK_EX)


def do(deed):
    """Does what the source says. Gives the status to end with, if the command ends there."""
    if deed == "long":
        time.sleep(LONG)
    elif deed.startswith("until "):
        while deed.removeprefix("until ") not in notes.read_text():
            time.sleep(0.02)
    elif deed == "killed" or deed == "killed once" and f"kill {crate.name}" not in notes.read_text():
        note("kill")
        os.kill(os.getpid(), signal.SIGKILL)
    elif deed == "full":
        print("rt: [Errno 28] No space left on device")
        return 2
    elif deed == "refused":
        print("\n".join(f"line {number}" for number in range(50)) + "\nfn count: not proved")
        return 1
    return 0


def build(program):
    """Proves a crate: it must stand on crates that are built."""
    hold_locks()
    for name in below():
        assert (crate.parent / name / "out/rlib/stamp").exists(), f"{name} is not built"
    note("begin", " ".join(sys.argv[1:]) + f" nice {os.nice(0)} kept {(out / 'incremental/work').exists()}")
    (out / "incremental").mkdir(parents=True, exist_ok=True)
    (out / "incremental/work").write_text("half of it")
    for deed in deeds():
        if status := do(deed):
            return status
    if program:
        (out / "tierra").write_text('#!/bin/sh\necho "program $*"\ncat\n')
        (out / "tierra").chmod(0o755)
    else:
        (out / "rlib").mkdir(exist_ok=True)
        (out / "rlib/stamp").write_text(" ".join(deeds()))
    note("proved")
    return 0


def try_tests():
    note("try", " ".join(sys.argv[1:]))
    for number, deed in enumerate(deeds()):
        if status := do(deed):
            return status
        if deed in ("pass", "fail"):
            print(f"test tests::number_{number} ... {'ok' if deed == 'pass' else 'FAILED'}\n  it says why")
    return 101 if "fail" in deeds() else 0


if sys.argv[1] == "version":
    print("stand-in for a kit")
elif sys.argv[1] == "try":
    sys.exit(try_tests())
else:
    sys.exit(build(sys.argv[1] == "run"))
