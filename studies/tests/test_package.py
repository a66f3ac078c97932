"""The tools as a package: installed by pip, and the public face of the library."""
import functools
import importlib.util
import json
import os
import re
import shutil
import subprocess
import sys

import pandas
import pytest

import studies
from studies import alone, assay, files, frames, lineage, main, phylogeny, program, soup
from studies.refusal import Refused

from .conftest import DATA, TOP

HOLD, BANK, SOUP = DATA / "mixed.hold", DATA / "mixed.bank", DATA / "mixed.toml"
LISTING = TOP / "examples/0080aaa.listing"


@pytest.fixture(scope="module")
def installed(tmp_path_factory):
    """The folder into which pip has installed a copy of the tools, without a look at an index."""
    for needed in ("pip", "setuptools", "wheel"):
        if importlib.util.find_spec(needed) is None:
            pytest.skip(f"needs the Python package {needed}")
    room = tmp_path_factory.mktemp("package")
    shutil.copytree(TOP / "studies", room / "studies", ignore=shutil.ignore_patterns("tests", "build", "*.egg-info", "parasites_run"))
    asked = "install --quiet --no-index --no-deps --no-build-isolation --no-compile --target".split()
    subprocess.run([sys.executable, "-m", "pip", *asked, room / "site", room / "studies"], check=True, capture_output=True)
    return room / "site"


def ran(installed, words, **variables):
    """What the installed package answers, in an environment without a program but for these variables."""
    environment = {**os.environ, "PYTHONPATH": str(installed), "PATH": str(installed), **variables}
    for name in set(program.VARIABLES) - set(variables):
        environment.pop(name, None)
    return subprocess.run([sys.executable, *map(str, words)], cwd=installed, env=environment, capture_output=True, text=True)


def test_every_module_is_installed(installed):
    """Each is there, none is of the checkout, and nothing else is."""
    names = sorted(path.stem for path in (TOP / "studies").glob("*.py"))
    assert sorted(path.stem for path in (installed / "zuldokan").glob("*.py")) == names
    asked = f"import zuldokan; print(*(getattr(zuldokan, name).__file__ for name in {sorted(main.VERBS)}), sep='\\n')"
    answer = ran(installed, ["-c", asked])
    assert answer.stderr == "" and all(line.startswith(str(installed / "zuldokan")) for line in answer.stdout.splitlines())
    assert (installed / "zuldokan/py.typed").exists()


def test_the_installed_command(installed, told, tmp_path):
    command = installed / "bin/zuldokan"
    assert ran(installed, [command, "--help"]).stdout == main.usage() + "\n"
    assert ran(installed, [command, "abundance", HOLD]).stdout == told("abundance", HOLD)
    lacking = ran(installed, [command, "assay", HOLD, "--kept", tmp_path / "kept"])
    assert (lacking.returncode, lacking.stdout) == (2, "") and lacking.stderr.startswith("zuldokan assay: there is no program: ")
    assert lacking.stderr.count("\n") == 1


def test_the_installed_package_knows_its_version(installed):
    """It is that of the repository, and no repository in which it happens to be installed has a say."""
    version = (TOP / "VERSION").read_text().strip()
    asked = "from zuldokan import notes, program; print(notes.version(), program.commit())"
    assert ran(installed, ["-c", asked]).stdout == f"{version} None\n"


def script(path, text="exit 1"):
    path.write_text(f"#!/bin/sh\n{text}\n")
    path.chmod(0o755)
    return path


def test_where_the_program_is_found(tmp_path, monkeypatch):
    """First come first: the words, either variable, what the repository has built, what is on the PATH."""
    repository, elsewhere = tmp_path / "repository", tmp_path / "elsewhere"
    for folder in (repository, elsewhere):
        folder.mkdir()
    (repository / "crates.txt").touch()
    own = script(repository / "built")
    monkeypatch.setattr(program, "TOP", elsewhere)
    for name in program.VARIABLES:
        monkeypatch.delenv(name, raising=False)
    monkeypatch.setenv("PATH", str(elsewhere))
    with pytest.raises(Refused, match="^there is no program: .*TIERRA$"):
        program.find()
    other = script(elsewhere / "tierra")
    assert program.find() == str(other)
    script(repository / "tierra", f"echo {own}")
    monkeypatch.setattr(program, "TOP", repository)
    assert program.find() == str(own)
    named = [script(tmp_path / name) for name in ("words", "first", "second")]
    monkeypatch.setenv("TIERRA", str(named[2]))
    assert program.find() == str(named[2])
    monkeypatch.setenv("ZULDOKAN_PROGRAM", str(named[1]))
    assert program.find() == str(named[1]) and program.find(str(named[0])) == str(named[0])


def test_a_script_on_the_path_is_not_the_program(tmp_path, monkeypatch):
    """The script of a repository builds and runs the program: the program is what it has built, if it has."""
    for name in program.VARIABLES:
        monkeypatch.delenv(name, raising=False)
    (tmp_path / "crates.txt").touch()
    script(tmp_path / "tierra")
    monkeypatch.setattr(program, "TOP", tmp_path / "none")
    monkeypatch.setenv("PATH", str(tmp_path))
    with pytest.raises(Refused, match="there is no program"):
        program.find()
    own = script(tmp_path / "built")
    script(tmp_path / "tierra", f"echo {own}")
    assert program.find() == str(own)


def test_what_the_face_reads():
    """Each function gives what its verb makes of the same file."""
    worlds = studies.read_checkpoints(HOLD, SOUP)
    assert [world.quanta for world in worlds] == [world.quanta for world in files.read_hold(HOLD)]
    assert studies.read_genebank(str(BANK), SOUP) == files.read_bank(BANK)
    dump = studies.read_dump(DATA / "mixed_dump.txt")
    assert len(dump) == len(worlds[-1].records) and set(dump.name) <= set(studies.read_codes(HOLD))
    assert studies.read_codes(LISTING) == {"0080aaa": soup.code_of_listing(LISTING.read_text())}
    assert list(studies.read_codes(BANK, ["0080aaa"])) == ["0080aaa"]
    pairs = [
        (studies.genotypes_of(worlds[-1]), frames.genotypes(worlds[-1])),
        (studies.phylogeny_of(HOLD, SOUP), phylogeny.of_worlds(worlds)),
        (studies.lineage_to(HOLD), lineage.table_of(lineage.steps_in(worlds))),
        (studies.lineage_to(BANK, "0044aad"), lineage.table_of(lineage.steps_of(str(BANK), "0044aad"))),
    ]
    for ours, theirs in pairs:
        pandas.testing.assert_frame_equal(ours, theirs)


def test_the_notebook_names_what_there_is():
    """Each name that the notebook takes from the package is there."""
    cells = [cell for cell in json.loads((TOP / "studies/parasites.ipynb").read_text())["cells"] if cell["cell_type"] == "code"]
    named = [name.split(".") for name in re.findall(r"zuldokan((?:\.\w+)+)", "\n".join("".join(cell["source"]) for cell in cells))]
    for _, *names in named:
        assert callable(functools.reduce(getattr, names, studies)) or names == ["picture"]
    assert len(named) > 10


def test_modules_are_loaded_when_asked_for():
    assert studies.frames is frames
    with pytest.raises(AttributeError, match="studies has no nothing"):
        studies.nothing


@pytest.mark.parametrize(
    "asked, line",
    [
        (lambda: studies.read_checkpoints(BANK), "is not a checkpoint"),
        (lambda: studies.read_checkpoints(HOLD, DATA / "small.toml"), "belongs to another setup"),
        (lambda: studies.read_genebank(HOLD), "is not a genebank"),
        (lambda: studies.read_dump(SOUP), "no dump"),
        (lambda: studies.read_codes(HOLD, ["0099aaa"]), "has no genotype 0099aaa"),
        (lambda: studies.lineage_to(BANK), "name a genotype"),
        (lambda: studies.assay_codes({}, settings={"rate": 5}), "unknown key rate"),
        (lambda: studies.assay_codes({}, quanta=0), "--quanta is from 1"),
        (lambda: studies.assay_codes({}, jobs=0), "--jobs is at least 1"),
        (lambda: studies.run_sweep(SOUP, 5, values={"copy_rate": [5, 5]}), "copy_rate5 was asked for twice"),
        (lambda: studies.run_sweep(SOUP, 5, values={"copy_rate": ["5e3"]}), "5e3 is not a number"),
        (lambda: studies.run_sweep(SOUP, 5, action="hold"), "would keep no checkpoint"),
        (lambda: studies.gather_runs([DATA]), "has no finished run"),
        (lambda: studies.find_program(str(SOUP)), "is no program"),
    ],
)
def test_what_the_face_refuses(stand_in, tmp_path, monkeypatch, asked, line):
    monkeypatch.chdir(tmp_path)
    with pytest.raises(studies.Refused, match=line):
        asked()
    assert [path.name for path in tmp_path.iterdir()] == ["stand_in"]


def test_a_sweep_by_the_library(tmp_path, told, stand_in):
    folders = studies.run_sweep(SOUP, 5, seeds=range(2), values={"slice_by_size": [True, False]}, into=tmp_path / "ours", jobs=2)
    told("sweep", SOUP, "--quanta", 5, "--seeds", "0-1", "--set", "slice_by_size=true,false", "--into", tmp_path / "theirs")
    assert [path.name for path in folders] == [f"seed{seed}_slice_by_size{value}" for seed in (0, 1) for value in ("true", "false")]
    for folder in folders:
        assert (folder / "soup.toml").read_bytes() == (tmp_path / "theirs" / folder.name / "soup.toml").read_bytes()
    assert studies.gather_runs(folders).run.tolist() == [folder.name for folder in folders]
    assert list(studies.gather_runs(folders, "genotypes").columns[:2]) == ["run", "seed"]


def test_runs_by_the_library(tmp_path, built):
    worlds = studies.run_soup(SOUP, 800, 400, tmp_path / "held")
    assert [world.state for world in worlds] == [world.state for world in files.read_hold(HOLD)[:2]]
    assert len(studies.run_soup(SOUP, 1200, 400, tmp_path / "held")) == 3  # it goes on
    codes = studies.read_codes(BANK)
    table = studies.assay_codes(codes, 90, soup=SOUP, settings={"search_limit": 300}, jobs=1, kept=tmp_path / "kept")
    bench = alone.Bench(alone.settings_of(str(SOUP), ["search_limit=300"]), 90, built, 1)
    pandas.testing.assert_frame_equal(table, assay.table_of(codes, bench))
    assert (tmp_path / "kept").exists()
