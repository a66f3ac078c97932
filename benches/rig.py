"""What the scripts in Python here share: the built program, a room for its runs, its sources, and benches/faults.c."""

import atexit
import os
import pathlib
import shutil
import signal
import subprocess
import sys
import tempfile
import time
from typing import NamedTuple

top = pathlib.Path(__file__).resolve().parent.parent


def built():
    """Gives the program: the one that the variable TIERRA names, or that of this repository, built where it must be."""
    return subprocess.run([top / "benches/built"], stdout=subprocess.PIPE, check=True, text=True).stdout.rstrip("\n")


def new_room():
    """Makes a folder that goes with the script, in memory where that can be, since a sync costs nothing there."""
    memory = "/dev/shm" if os.access("/dev/shm", os.W_OK) and "TMPDIR" not in os.environ else None
    room = tempfile.mkdtemp(prefix="tierra_", dir=memory)
    atexit.register(shutil.rmtree, room, ignore_errors=True)
    return pathlib.Path(room)


def faults_library():
    """Compiles the library of faults."""
    subprocess.run(["cc", "-O2", "-shared", "-fPIC", "-o", files / "faults.so", top / "benches/faults.c", "-ldl"], check=True)
    return str(files / "faults.so")


class Answer(NamedTuple):
    """How a run of the program ended: its status, or the signal as a negative number; what it wrote; what it cost."""

    status: int
    told: bytes
    line: bytes
    seconds: float
    processor: float
    kilobytes: int


def use(new_files, new_room):
    """Takes a folder for the script's own files and a room for the program. Each of several processes takes others."""
    global files, room, bank, hold, mark
    files, room, mark = new_files, new_room, new_files / "mark"
    bank, hold = room / "tierra.bank", room / "tierra.hold"


program = built()
use(new_room(), new_room())
OUTPUT = os.O_WRONLY | os.O_CREAT | os.O_TRUNC


def forget_peak():
    """Makes the system forget the script's own greatest memory, which counts to the program that it starts."""
    with open("/proc/self/clear_refs", "w") as file:
        file.write("5")


def start(words, source=None, environment=None, through=(), name=""):
    """Starts the program in the room, through a command where one is given. The source is bytes, a path or none.

    What runs beside another one has a name of its own."""
    words = words.split() if isinstance(words, str) else words
    if isinstance(source, bytes):
        (files / f"source{name}").write_bytes(source)
        source = files / f"source{name}"
    actions = [
        (os.POSIX_SPAWN_OPEN, 0, str(source or "/dev/null"), os.O_RDONLY, 0),
        (os.POSIX_SPAWN_OPEN, 1, str(files / f"told{name}"), OUTPUT, 0o666),
        (os.POSIX_SPAWN_OPEN, 2, str(files / f"line{name}"), OUTPUT, 0o666),
    ]
    os.chdir(room)
    forget_peak()
    line = [*through, program, *words]
    return os.posix_spawnp(line[0], line, environment or {"PATH": os.environ["PATH"]}, file_actions=actions)


def finish(child, begun, limit, name=""):
    """Waits for the program, and kills it after so many seconds."""
    signal.signal(signal.SIGALRM, lambda *_: os.kill(child, signal.SIGKILL))
    signal.setitimer(signal.ITIMER_REAL, limit)
    _, status, cost = os.wait4(child, 0)
    signal.setitimer(signal.ITIMER_REAL, 0)
    seconds = time.monotonic() - begun
    told, line = (files / f"told{name}").read_bytes(), (files / f"line{name}").read_bytes()
    processor = cost.ru_utime + cost.ru_stime
    return Answer(os.waitstatus_to_exitcode(status), told, line, seconds, processor, cost.ru_maxrss)


def run(words, source=None, environment=None, through=(), limit=60):
    """Runs the program in the room to its end."""
    begun = time.monotonic()
    return finish(start(words, source, environment, through), begun, limit)


def fault(library, call, at, kind, on=False):
    """The environment of a run in which a call goes wrong; the mark is made when it came."""
    mark.unlink(missing_ok=True)
    environment = {"LD_PRELOAD": library, "FAULT_CALL": call, "FAULT_AT": str(at), "FAULT_KIND": str(kind), "FAULT_MARK": str(mark)}
    return environment | ({"FAULT_ON": "1"} if on else {})


def put(file, image):
    """Puts a file with these bytes into the room, or none."""
    file.write_bytes(image) if image is not None else file.unlink(missing_ok=True)


def kept(file):
    """The bytes of a file in the room, or None."""
    return file.read_bytes() if file.exists() else None


def set_bank(image):
    """Puts this genebank into the room, or none."""
    put(bank, image)


def bank_bytes():
    """The bytes of the genebank in the room, or None."""
    return kept(bank)


def file_for(words):
    """The file that an action reads and writes, or that it leaves alone."""
    return hold if words.startswith("hold") else bank


def whole(words, source=None, image=None):
    """The answer of a run that nothing disturbs, and the file that it leaves."""
    put(file_for(words), image)
    answer = run(words, source)
    if answer.status != 0:
        sys.exit(f"{words}: status {answer.status}: {answer.line!r}")
    return answer, kept(file_for(words))


def goes_on(words, whole, told, again):
    """Whether a run told what is left of the whole text after one that told its beginning. Only a `hold` leaves out what is held."""
    if not words.startswith("hold"):
        return again == whole
    before = whole[: len(whole) - len(again)]
    lines = before.count(b"\n")
    return whole.endswith(again) and lines == before.count(b"held ") >= told[: told.rfind(b"\n") + 1].count(b"held ")


faulty = []
SHOWN = 20  # so many findings are printed


def want(holds, what):
    """Notes a finding where the fact does not hold."""
    if not holds:
        faulty.append(what)
        if len(faulty) <= SHOWN:
            print(f"FINDING: {what}", flush=True)


def end(count):
    """Prints the count, and ends with status 1 where something was found."""
    print(f"{count}; {len(faulty)} findings")
    sys.exit(1 if faulty else 0)


ancestor = (top / "examples/0080aaa.listing").read_bytes()
names = [word for row in ancestor.decode().splitlines() for word in row.split(";")[0].split()]


def saved(text):
    """Gives the lines of saved genotypes."""
    return [row for row in text.splitlines() if row.startswith(b"saved")]


def creature(at, code):
    return f'[[creature]]\nat = {at}\ncode = "{" ".join(code)}"\n'


one_file = creature(0, names).encode()
held_file = b"soup_size = 400\n" + one_file
two_file = f'soup_size = 100\n{creature(0, ["inc_b", "mov_iab"])}{creature(90, ["nop_1"] * 5)}'.encode()
three_file = "".join(creature(at, names[:79] + [last]) for at, last in [(0, "if_cz"), (1000, "inc_a"), (2000, "dec_c")]).encode()
# The same, with many mutations; each genotype is saved.
mutant_file = b"copy_rate = 50\nback_rate = 100\nflaw_rate = 100\nsave_at = 1\n" + three_file
