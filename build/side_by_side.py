"""Commands of the kit that run side by side, and how that is told."""

import ctypes
import os
import pathlib
import shutil
import signal
import subprocess
import sys
import tempfile
import time

POLL = 0.2  # seconds between two looks at what runs
STEP = 10  # seconds between two lines on a terminal
GRACE = 5  # seconds in which a command that is told to stop ends
DIES_WITH_PARENT = 1  # PR_SET_PDEATHSIG of Linux
GROUP = pathlib.Path("/sys/fs/cgroup")  # has the limits of a container, which may be below those of the machine


def group_says(name):
    """The words of a file of limits, if it sets one."""
    words = (GROUP / name).read_text().split() if (GROUP / name).is_file() else []
    return [] if words[:1] == ["max"] else words


def processors():
    """How many processors programs may use at once."""
    seen, limit = len(os.sched_getaffinity(0)), group_says("cpu.max")
    return max(1, min(seen, int(limit[0]) // int(limit[1]))) if limit else seen


def free_memory():
    """The bytes that programs may still take."""
    with open("/proc/meminfo") as file:
        free = next(1024 * int(line.split()[1]) for line in file if line.startswith("MemAvailable:"))
    limit, used = group_says("memory.max"), group_says("memory.stat")
    return min(free, int(limit[0]) - int(used[used.index("anon") + 1])) if limit else free


def duration(seconds):
    return f"{seconds / 60:.0f} min" if seconds >= 90 else f"{seconds:.0f} s"


def listed(names):
    """The names as a sentence has them."""
    *first, last = names or ["none"]
    return f"{', '.join(first)} and {last}" if first else last


class Stopped(Exception):
    """The user told the script to stop."""


class Stop:
    """Whether the user told the script to stop. It is asked where that can be done."""

    def __init__(self):
        self.is_told = False
        for number in (signal.SIGINT, signal.SIGTERM, signal.SIGHUP):
            signal.signal(number, self.note)

    def note(self, *_):
        self.is_told = True

    def raise_if_told(self):
        if self.is_told:
            raise Stopped


class Command:
    """A command of the kit, in a process group of its own, so that it can be stopped with all that it starts.

    It stays in the session, since Linux may weigh niceness only among the processes of one. It ends with ours."""

    def __init__(self, words, folder, source=subprocess.DEVNULL, niceness=0):
        def set_apart():
            os.setpgrp()
            os.nice(niceness)
            ctypes.CDLL(None).prctl(DIES_WITH_PARENT, signal.SIGKILL)

        self.log, self.begun = tempfile.TemporaryFile("w+", errors="replace"), time.monotonic()
        how = {"cwd": folder, "stdin": source, "stdout": self.log, "stderr": self.log}
        self.process = subprocess.Popen(words, preexec_fn=set_apart, **how)

    def seconds(self):
        return time.monotonic() - self.begun

    def has_ended(self):
        return self.process.poll() is not None

    def status(self):
        return self.process.returncode

    def said(self):
        """What the command wrote."""
        self.log.seek(0)
        return self.log.read()

    def tell_to_stop(self):
        if not self.has_ended():
            os.killpg(self.process.pid, signal.SIGTERM)

    def wait_for_end(self):
        try:
            self.process.wait(GRACE)
        except subprocess.TimeoutExpired:
            os.killpg(self.process.pid, signal.SIGKILL)
            self.process.wait()


class Teller:
    """Tells on standard error: on a terminal one line, which is written over, and else a line for each change."""

    def __init__(self):
        self.begun, self.is_terminal = time.monotonic(), sys.stderr.isatty()
        self.told, self.is_open = 0, False

    def tell(self, text, is_new):
        now = time.monotonic()
        if is_new or self.is_terminal and now - self.told >= STEP:
            line = f"tierra: {text}, {duration(now - self.begun)} so far"
            self.told, self.is_open = now, True
            if self.is_terminal:
                line = f"\r{line[: shutil.get_terminal_size().columns - 1]}\033[K"
            print(line, end="" if self.is_terminal else "\n", file=sys.stderr, flush=True)

    def end_line(self):
        """Ends the line that is written over."""
        if self.is_terminal and self.is_open:
            print(file=sys.stderr, flush=True)
        self.is_open = False

    def say(self, line):
        """Tells a line that stays."""
        self.end_line()
        print(line, file=sys.stderr, flush=True)


class SideBySide:
    """Runs commands side by side until none is left.

    A class on this one says by `begin` what is started, by `line` what is told, and by `end` what is done with a
    command that has ended, and whether that could be done already."""

    def __init__(self, stop):
        self.stop, self.running, self.teller, self.has_changed = stop, {}, Teller(), True

    def run(self):
        while not self.is_done():
            self.begin()
            self.teller.tell(self.line(), self.has_changed)
            self.has_changed = False
            time.sleep(POLL)
            for name, command in list(self.running.items()):
                if command.has_ended() and self.end(name, command):
                    del self.running[name]
                    self.has_changed = True
            self.stop.raise_if_told()

    def stop_all(self):
        """Ends what runs."""
        for command in self.running.values():
            command.tell_to_stop()
        for command in self.running.values():
            command.wait_for_end()
