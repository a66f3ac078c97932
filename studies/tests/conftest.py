"""What the tests share: the stored files of the program, a stand-in for it, and the program itself where there is one."""
import functools
import importlib.util
import os
import pathlib
import shutil
import subprocess
import sys

import pytest

from studies import main, program, progress
from studies.refusal import Refused

TOP = program.TOP
DATA = pathlib.Path(__file__).parent / "data"
STAND_IN = '''#!{python}
"""Stands in for the program: keeps a genebank without groups, and prints a report of no deeds."""
import os, pathlib, sys, time
sys.path.insert(0, {top!r})
from studies import soup
action, quanta = sys.argv[1], sys.argv[sys.argv.index("--quanta") + 1]
document = soup.plain(sys.stdin.read())
with open("starts", "a") as file:
    file.write("start\\n")
if os.environ.get("STAND_IN_FAILS") == document["seed"][-1]:
    print("quanta", flush=True)
    print("tierra: cannot write the output", file=sys.stderr)
    sys.exit(6)
while os.environ.get("STAND_IN_WAITS") == document["seed"][-1]:
    time.sleep(0.01)
digest = bytes(32) if "STAND_IN_LIES" in os.environ else soup.digest(document)
pathlib.Path("tierra.bank").write_bytes(b"Tierra bank1" + digest + bytes(1))
print(f"quanta {{quanta}}\\nbirths 0\\ndeaths 0\\nliving 1\\nfilled 80\\ngenotypes 1\\nkept 0\\n0080aaa 1 1")
'''


@pytest.fixture(autouse=True)
def untold(monkeypatch):
    """No line of progress, however slow the machine is."""
    monkeypatch.setattr(progress, "EVERY", 3600)


@pytest.fixture
def stand_in(tmp_path, monkeypatch):
    """A program that takes no time, as the one that ZULDOKAN_PROGRAM names."""
    path = tmp_path / "stand_in"
    path.write_text(STAND_IN.format(python=sys.executable, top=str(TOP)))
    path.chmod(0o755)
    monkeypatch.setenv("ZULDOKAN_PROGRAM", str(path))
    return path


@pytest.fixture
def built():
    """The program, or a skip where none is built."""
    try:
        return program.find()
    except Refused:
        pytest.skip("needs the program: ZULDOKAN_PROGRAM, or what ./tierra builds")


@pytest.fixture
def refused(capsys):
    """Asks the command for something that it must refuse: status 2, one line, no table. Gives the line."""

    def ask(*words):
        assert main.main([str(word) for word in words]) == 2
        out, line = capsys.readouterr()
        assert out == "" and line.count("\n") == 1
        return line.strip()

    return ask


@pytest.fixture
def told(capsys):
    """Asks the command for something that it does, and gives what it prints."""

    def ask(*words):
        status = main.main([str(word) for word in words])
        out, line = capsys.readouterr()
        assert status == 0, line
        return out

    return ask


# What each peer is found by: a Python module, a program on the PATH, or a package of R.
PEERS = {
    "ape": "R:ape", "Biopython": "Bio", "DendroPy": "dendropy", "ete3": "ete3", "GNU parallel": "parallel", "mafft": "mafft",
    "networkx": "networkx", "pandas": "pandas", "scikit-bio": "skbio", "seqkit": "seqkit", "Snakemake": "snakemake", "vegan": "R:vegan",
}  # fmt: skip


@functools.cache
def is_installed(needed):
    """Whether a Python module, a program, or a package of R (as `R:ape`) is here."""
    if needed.startswith("R:"):
        asked = ["Rscript", "-e", f"quit(status = !requireNamespace('{needed[2:]}', quietly = TRUE))"]
        return shutil.which("Rscript") is not None and subprocess.run(asked, capture_output=True).returncode == 0
    return shutil.which(needed) is not None or importlib.util.find_spec(needed) is not None


def peer(name):
    """Marks a test that compares with another program or library: it is skipped by its name where that is missing."""
    if "PEERS" not in os.environ:
        return pytest.mark.skip(reason=f"a peer, {name}: studies/test --peers runs it")
    return pytest.mark.skipif(not is_installed(PEERS[name]), reason=f"{name} is not installed")
