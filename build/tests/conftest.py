"""What the tests share: a checkout with the tools and a few small crates, and a stand-in for the kit; and a copy of the
repository whose files the tests change."""

import importlib.machinery
import importlib.util
import os
import pathlib
import shutil
import subprocess
import sys
import time

import pytest

BUILD = pathlib.Path(__file__).resolve().parent.parent
TOP = BUILD.parent
sys.path.insert(0, str(BUILD))

# The program stands on crew and words, these on model.
CRATES = {"model": "", "words": "model", "crew": "model rand_core", "words_tests": "words", "tierra": "crew words"}
WAIT = 200  # seconds after which a test gives up, however busy the machine is
# The machine that the tools see, whatever else runs here.
MACHINE = """

def processors():
    return 4


def free_memory():
    return 16 * 10**9
"""


class Checkout:
    """A checkout with crates whose sources tell the stand-in what to do with them."""

    def __init__(self, top, kit):
        self.top, self.notes = top, kit / "notes"
        self.environment = {**os.environ, "PATH": f"{kit}:/usr/bin:/bin", "STAND_IN_NOTES": str(self.notes)}
        self.started = []
        self.notes.write_text("")
        (top / "examples").mkdir()
        for name in ("HANDLES", "VERSION", "tierra", "examples/0080aaa.listing"):
            shutil.copy(TOP / name, top / name)
        shutil.copytree(BUILD, top / "build", ignore=shutil.ignore_patterns("tests", "__pycache__"))
        with open(top / "build/side_by_side.py", "a") as file:
            file.write(MACHINE)
        lines = "".join(f"{name} may_wait=1: {below}\n" for name, below in CRATES.items())
        (top / "crates.txt").write_text(f"# a comment\n{lines}")
        (top / "build/costs.tsv").write_text("# seconds\n" + "".join(f"{name}\t10\n" for name in CRATES))
        for name in CRATES:
            for part in ("src", "specs", "proofs"):
                (top / "crates" / name / part).mkdir(parents=True)
            self.write(name, "well")

    def write(self, crate, deeds):
        """Writes the source of a crate: what the stand-in does with it, one deed a line."""
        source = self.top / "crates" / crate / "src" / ("main.rt" if crate == "tierra" else "lib.rt")
        source.write_text(deeds + "\n")

    def start(self, *words, **how):
        """Starts a tool of the checkout."""
        how = {"stdin": subprocess.DEVNULL, "stdout": subprocess.PIPE, "stderr": subprocess.PIPE, "text": True, **how}
        self.started.append(subprocess.Popen([str(word) for word in words], cwd=self.top, env=self.environment, **how))
        return self.started[-1]

    def run(self, *words, **how):
        """Runs a tool of the checkout, and gives its status and what it told and said."""
        process = self.start(*words, **how)
        told, said = process.communicate(timeout=WAIT)
        return process.returncode, told, said

    def build(self):
        return self.run("build/prove_program")

    def noted(self, deed):
        """The crates with which the stand-in did this, in order."""
        return [line.split()[1] for line in self.notes.read_text().splitlines() if line.split()[0] == deed]

    def note(self, text):
        """Writes a note for which a crate waits."""
        with open(self.notes, "a") as file:
            file.write(f"{text}\n")

    def wait_for(self, *note):
        """Waits until the stand-in noted this."""
        until = time.monotonic() + WAIT
        while " ".join(note) not in self.notes.read_text():
            assert time.monotonic() < until, f"no note of {' '.join(note)}"
            time.sleep(0.02)

    def trees(self):
        return [path.name for path in self.top.glob("crates/tierra/out/trees/*")]

    def is_built(self):
        return os.access(self.top / "crates/tierra/out/tierra", os.X_OK)


@pytest.fixture
def checkout(tmp_path):
    kit = tmp_path / "kit"
    kit.mkdir()
    rt = kit / "rt"
    rt.write_text(f"#!{sys.executable} -S\n" + (pathlib.Path(__file__).parent / "stand_in.py").read_text())
    rt.chmod(0o755)
    top = tmp_path / "top"
    top.mkdir()
    made = Checkout(top, kit)
    yield made
    for process in made.started:
        if process.poll() is None:
            process.kill()
            process.wait()


def run(*words, **how):
    done = subprocess.run([str(word) for word in words], capture_output=True, text=True, timeout=WAIT, **how)
    return done.returncode, done.stdout, done.stderr


def load(path):
    """The module of a script whose name has no ending."""
    loader = importlib.machinery.SourceFileLoader(path.name, str(path))
    module = importlib.util.module_from_spec(importlib.util.spec_from_loader(path.name, loader))
    loader.exec_module(module)
    return module


@pytest.fixture(scope="module")
def repository(tmp_path_factory):
    """A copy of the repository, whose pages the tests change."""
    top = tmp_path_factory.mktemp("copy") / "top"
    shutil.copytree(TOP, top, ignore=shutil.ignore_patterns("out", ".git", "target", "__pycache__", "mutants"))
    return top


@pytest.fixture
def change(repository):
    """Changes a text that stands once in a file of the copy. All is as it was when the test ends."""
    kept = {}

    def do(name, old, new):
        file = repository / name
        text = file.read_text()
        kept.setdefault(file, text)
        assert text.count(old) == 1, f"{name} has {text.count(old)} times {old!r}"
        file.write_text(text.replace(old, new))

    yield do
    for file, text in kept.items():
        file.write_text(text)


def faults(repository):
    """What docs/check_pages finds in the copy."""
    status, told, _ = run(repository / "docs/check_pages")
    *found, last = told.splitlines()
    assert status == (1 if found else 0) and last.endswith(f", {len(found)} faults")
    return [line.removeprefix("check_pages: ") for line in found]
