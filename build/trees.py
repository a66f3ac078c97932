"""Trees of hard links, in which crates are proved side by side.

The kit's commands lock the folders of a crate and of all crates below it, so two of them in one checkout wait for each
other. In a tree of its own a crate waits for nobody, and what it makes is moved home when it is proved.
"""

import contextlib
import fcntl
import os
import pathlib
import shutil
import tempfile
import time

import crates

ROOM = crates.folder_of(crates.PROGRAM) / "out/trees"  # on the disk of the checkout, and passed over by the kit
KEPT = "incremental"  # what a check keeps only to speed up the next check of the same crate, more than half of out/
MARK = "stopped_build"  # stands beside it where a build that was stopped left it for the next one
PATIENCE = 20  # tenths of a second in which a command that was told to stop lets go of its tree


class Busy(Exception):
    """Another command of the kit is at work in the folder of a crate."""


def link(source, target):
    """Links a file, or copies it where the file system has no hard links."""
    try:
        os.link(source, target)
    except OSError:
        shutil.copy2(source, target)


def link_folder(source, target):
    if source.is_dir():
        shutil.copytree(source, target, symlinks=True, copy_function=link)


def lock(folder):
    """Takes the lock of the kit's commands on a crate's folder, and gives what holds it until it is closed."""
    held = os.open(folder, os.O_RDONLY)
    try:
        fcntl.flock(held, fcntl.LOCK_EX | fcntl.LOCK_NB)
    except BlockingIOError as busy:
        os.close(held)
        raise Busy(folder.name) from busy
    except OSError:
        pass  # some file systems have no locks
    return held


@contextlib.contextmanager
def locked(names):
    """Holds the locks of crates, but for the program's, which the whole build holds."""
    held = []
    try:
        for name in sorted(set(names) - {crates.PROGRAM}):
            held.append(lock(crates.folder_of(name)))
        yield
    finally:
        for it in held:
            os.close(it)


class Tree:
    """A checkout of one crate and of those below it, which are built."""

    def __init__(self, crate, below):
        ROOM.mkdir(parents=True, exist_ok=True)
        self.crate, self.begun = crate, time.time()
        self.top = pathlib.Path(tempfile.mkdtemp(prefix=f"{crate}.", dir=ROOM))
        self.folder = self.top / "crates" / crate
        self.home = crates.folder_of(crate) / "out"
        self.stays = (self.home / KEPT).exists() and not (self.home / MARK).exists()
        try:
            with locked([crate, *below]):
                self.fill([crate, *below])
        except BaseException:
            self.remove()
            raise

    def fill(self, names):
        lines = crates.read_lines()
        (self.top / "crates.txt").write_text("".join(f"{line}\n" for name, line in lines.items() if name in names))
        shutil.copy2(crates.TOP / "HANDLES", self.top)
        for name in names:
            home, folder = crates.folder_of(name), self.top / "crates" / name
            for part in crates.PARTS:
                link_folder(home / part, folder / part)
            link_folder(home / "out/rlib", folder / "out/rlib")
        self.copy_own(self.folder / "out")

    def copy_own(self, out):
        """Copies what the kit may write over in place."""
        if (self.home / KEPT).exists():
            shutil.copytree(self.home / KEPT, out / KEPT)
        for name in (crates.PROGRAM, f"{crates.PROGRAM}.stamp"):
            if (self.home / name).is_file():
                out.mkdir(exist_ok=True)
                shutil.copy2(self.home / name, out)

    def take_home(self):
        """Moves what was made home, but for what only the next check would use, where nobody but a build has it."""
        with locked([self.crate]):
            for made in sorted((self.folder / "out").iterdir()):
                if made.name != KEPT or self.stays:
                    move(made, self.home / made.name)
            if not self.stays:
                shutil.rmtree(self.home / KEPT, ignore_errors=True)
                (self.home / MARK).unlink(missing_ok=True)
        self.remove()

    def keep_work(self):
        """Moves home what a check that was stopped kept, so that the next one goes on where it was."""
        with contextlib.suppress(Busy, OSError), locked([self.crate]):
            if (self.folder / "out" / KEPT).exists():
                move(self.folder / "out" / KEPT, self.home / KEPT)
                if not self.stays:
                    (self.home / MARK).touch()
        self.remove()

    def remove(self):
        for _ in range(PATIENCE):
            shutil.rmtree(self.top, ignore_errors=True)
            if not self.top.exists():
                break
            time.sleep(0.1)
        with contextlib.suppress(OSError):
            ROOM.rmdir()  # where it was the last one


def move(made, home):
    """Puts what was made into the place of what was there."""
    home.parent.mkdir(exist_ok=True)
    if home.is_dir():
        shutil.rmtree(home)
    os.replace(made, home)


def remove_all():
    """Removes the trees of a build that was killed."""
    shutil.rmtree(ROOM, ignore_errors=True)
