"""Sweeps: what they ask for is what is run, or nothing is run."""
import datetime
import hashlib
import json
import os
import platform
import resource
import shutil
import signal
import subprocess
import sys
import time
import tomllib

import pytest

from studies import files, notes, program, soup, sweep
from studies.refusal import Refused

from .conftest import DATA, TOP, peer

PARASITES = TOP / "examples/parasites.toml"
COMMAND = [sys.executable, str(TOP / "studies/zuldokan"), "sweep"]


def folder_bytes(folder):
    """Each file of a sweep, but for the times in its notes and what the stand-in counts."""
    paths = sorted(path for path in folder.rglob("*") if path.is_file() and ".snakemake" not in path.parts)
    found = {str(path.relative_to(folder)): path.read_bytes() for path in paths if path.name != "starts"}
    return {name: timeless(data) if name.endswith("notes.json") else data for name, data in found.items()}


def timeless(data):
    return json.dumps({key: value for key, value in json.loads(data).items() if key not in notes.TIMES}).encode()


@pytest.mark.parametrize("text, seeds", [("0-3", [0, 1, 2, 3]), ("7", [7]), ("2,5-6", [2, 5, 6])])
def test_seeds(text, seeds):
    assert sweep.seeds_of(text) == seeds


def spoil(old, new):
    text = PARASITES.read_text()
    assert old in text
    return text.replace(old, new)


# Soup files that a replacement of lines would leave as they are.
SPOILED = {
    "no spaces": spoil("seed = ", "seed="),
    "no seed": "\n".join(line for line in PARASITES.read_text().splitlines() if not line.startswith("seed")),
    "no rate": spoil("copy_rate = 1000 ", "# copy_rate = 1000 "),
    "indented": spoil("copy_rate", "   copy_rate"),
    "quoted keys": spoil("copy_rate", '"copy_rate"').replace("seed =", "'seed' ="),
    "another quote": spoil('"0000000000000000000000000000000000000000000000000000000000000002"', "'" + 63 * "0" + "2'"),
    "creatures only": PARASITES.read_text()[PARASITES.read_text().index("[[creature]]") :],
    "inline creatures": "copy_rate=3\ncreature = [{at = 0, code = 'zero'}]",
    "in a comment": "# seed = 5\n" + PARASITES.read_text(),
}


@pytest.mark.parametrize("name", SPOILED)
def test_every_form_of_a_soup_file_is_changed(name):
    document = soup.parse(SPOILED[name])
    texts = sweep.texts_of(document, sweep.asked_for({"copy_rate": [500, 2000]}, [0, 9]))
    assert list(texts) == ["seed0_copy_rate500", "seed0_copy_rate2000", "seed9_copy_rate500", "seed9_copy_rate2000"]
    said = tomllib.loads(texts["seed9_copy_rate2000"])
    assert said == tomllib.loads(SPOILED[name]) | {"copy_rate": 2000, "seed": f"{9:064x}"}


def test_no_comment_of_another_value():
    """What was said of a value that is changed goes, and so do the lines that tell of the whole file. The rest stays."""
    text = sweep.changed(soup.read(PARASITES), {"copy_rate": 5, "save_at": 10})
    lines = PARASITES.read_text().splitlines(keepends=True)
    assert "# The ancestor in a soup of 60,000 cells" in lines[0] and lines[3].startswith("copy_rate = 1000 ")
    assert text == "".join(["copy_rate = 5\n" if line == lines[3] else line for line in lines if not line.startswith("#")])
    assert sweep.changed(soup.read(PARASITES), {"copy_rate": 1000}) == PARASITES.read_text()


@pytest.mark.parametrize("built, proved", [("tierra", True), ("unproved", False), ("other", None)])
def test_notes_say_whether_the_program_is_proved(monkeypatch, tmp_path, built, proved):
    monkeypatch.setattr(program, "TOP", tmp_path)
    (tmp_path / "crates/tierra/out").mkdir(parents=True)
    for name, text in (("crates/tierra/out/kit", "a kit\n"), ("VERSION", "9\n"), ("crates/tierra/out/" + built, "")):
        (tmp_path / name).write_text(text)
    noted = notes.of_program(str(tmp_path / "crates/tierra/out" / built))
    assert (noted["proved"], noted["kit"], noted["version"]) == (proved, "a kit" if proved else None, "9")


@pytest.mark.parametrize(
    "words, line",
    [
        (["--seeds", "1,1"], "seed1 was asked for twice"),
        (["--set", "copy_rate=5,5"], "copy_rate5 was asked for twice"),
        (["--set", "copyrate=5"], "unknown key copyrate"),
        (["--set", "copy_rate=05"], "05 is not a number"),
        (["--set", "copy_rate"], "KEY=VALUE,.. was expected"),
        (["--set", "seed=5"], "--seeds does"),
        (["--set", "slice_by_size=1"], "neither true nor false"),
        (["--seeds", "3-1"], "neither a number nor a range"),
        (["--seeds", "5", "--one", "2"], "no run 2 among 1"),
        (["--seeds", "5", "--jobs", "0"], "--jobs is at least 1"),
        (["--seeds", "5", "--every", "10"], "--every goes with"),
        (["--action", "hold"], "--quanta 5 is below --every 1000: the runs would keep no checkpoint"),
        (["--action", "hold", "--every", "6"], "would keep no checkpoint"),
        (["--seeds", str(16**64)], "not a number of at most 64 hexadecimal digits"),
    ],
)
def test_words_are_refused(refused, stand_in, tmp_path, words, line):
    assert line in refused("sweep", PARASITES, "--quanta", 5, "--into", tmp_path / "sweep", *words)
    assert not (tmp_path / "sweep").exists()


def test_one_setup_twice_is_refused(tmp_path, refused, stand_in):
    """The settings of a disturbance do not count while nothing is disturbed: the two runs would be one."""
    line = refused("sweep", PARASITES, "--quanta", 5, "--set", "dist_percent=5,20", "--into", tmp_path / "sweep")
    assert line.endswith("dist_percent5 and dist_percent20 would be the same run")
    assert not (tmp_path / "sweep").exists()


def test_what_is_no_soup_file_is_refused(tmp_path, refused, stand_in):
    (tmp_path / "bad.toml").write_text('seed = "1"\nseed = "2"\n')
    assert "is not TOML" in refused("sweep", tmp_path / "bad.toml", "--quanta", 5)
    (tmp_path / "bad.toml").write_bytes(b"\xff")
    assert "is not UTF-8" in refused("sweep", tmp_path / "bad.toml", "--quanta", 5)


def test_a_sweep_and_its_notes(tmp_path, told, stand_in, refused):
    words = ["sweep", PARASITES, "--quanta", 5, "--seeds", "0-2", "--into", tmp_path / "sweep", "--jobs", 2]
    told(*words)
    first = folder_bytes(tmp_path / "sweep")
    noted = json.loads((tmp_path / "sweep/seed2/notes.json").read_text())
    asked = soup.digest(soup.parse(first["seed2/soup.toml"].decode())).hex()
    assert noted["setup"] == asked == files.setup_of(tmp_path / "sweep/seed2/tierra.bank").hex()
    assert noted["words"] == "run --quanta 5" and noted["asked"] == {"seed": f"{2:064x}"} and noted["seed"] == f"{2:064x}"
    assert noted["files"] == {name: hashlib.sha256(first["seed2/" + name]).hexdigest() for name in ("soup.toml", "run.txt", "tierra.bank")}
    assert (noted["version"], noted["host"]) == ((TOP / "VERSION").read_text().strip(), platform.node())
    assert noted["program"] == hashlib.sha256(stand_in.read_bytes()).hexdigest() and noted["proved"] is None and noted["kit"] is None
    begun, ended = (datetime.datetime.fromisoformat(noted[key]) for key in ("begun", "ended"))
    assert begun.utcoffset() == datetime.timedelta(0) and noted["seconds"] == round((ended - begun).total_seconds(), 3) >= 0
    told(*words)
    assert (tmp_path / "sweep/seed2/starts").read_text() == "start\n"  # what is finished is not run again
    assert "a run of another command" in refused(*[6 if word == 5 else word for word in words])
    assert told("gather", "counts", *sorted((tmp_path / "sweep").iterdir())).splitlines()[3].endswith(",5,1,0,0")
    (tmp_path / "sweep/seed1/soup.toml").write_bytes(first["seed0/soup.toml"])
    assert "not the soup file that was run" in refused("gather", "counts", tmp_path / "sweep/seed1")
    (tmp_path / "sweep/seed1/notes.json").unlink()
    assert "no finished run" in refused("gather", "counts", tmp_path / "sweep/seed0", tmp_path / "sweep/seed1")
    assert "another soup file" in refused(*words)


def test_a_program_that_reads_something_else_is_refused(tmp_path, refused, stand_in, monkeypatch):
    monkeypatch.setenv("STAND_IN_LIES", "1")
    assert "another setup" in refused("sweep", PARASITES, "--quanta", 5, "--into", tmp_path / "sweep")
    assert not (tmp_path / "sweep/run/notes.json").exists()


def test_a_run_that_fails_is_told_and_goes_on(tmp_path, refused, told, stand_in, monkeypatch):
    words = ["sweep", PARASITES, "--quanta", 5, "--seeds", "0-3", "--into", tmp_path / "sweep"]
    monkeypatch.setenv("STAND_IN_FAILS", "2")
    assert "seed2: run ended with status 6: tierra: cannot write the output" in refused(*words)
    assert not (tmp_path / "sweep/seed2/notes.json").exists()
    monkeypatch.delenv("STAND_IN_FAILS")
    told(*words)
    told("sweep", PARASITES, "--quanta", 5, "--seeds", "0-3", "--into", tmp_path / "whole")
    assert folder_bytes(tmp_path / "sweep") == folder_bytes(tmp_path / "whole")


def test_a_full_disk_is_told(tmp_path, stand_in):
    """A limit on the size of files stands for a full disk: the write of the soup file fails."""
    limit = lambda: resource.setrlimit(resource.RLIMIT_FSIZE, (500, 500))  # noqa: E731
    words = [*COMMAND, str(PARASITES), "--quanta", "5", "--into", str(tmp_path / "sweep")]
    answer = subprocess.run(words, capture_output=True, text=True, preexec_fn=limit)
    assert (answer.returncode, answer.stdout) == (2, "") and answer.stderr.count("\n") == 1 and "File too large" in answer.stderr
    assert not (tmp_path / "sweep/run/notes.json").exists() and not (tmp_path / "sweep/run/soup.toml").exists()
    full = subprocess.run([*COMMAND, str(PARASITES), "--quanta", "5", "--list"], stdout=open("/dev/full", "w"), stderr=subprocess.PIPE)
    assert full.returncode == 2 and b"No space left" in full.stderr


def test_a_killed_sweep_goes_on(tmp_path, told, stand_in, monkeypatch):
    monkeypatch.setenv("STAND_IN_WAITS", "1")
    words = [str(PARASITES), "--quanta", "5", "--seeds", "0-2"]
    sweeping = subprocess.Popen([*COMMAND, *words, "--into", str(tmp_path / "sweep")], start_new_session=True)
    until = time.monotonic() + 30
    while not (tmp_path / "sweep/seed1/starts").exists() and time.monotonic() < until:
        time.sleep(0.01)
    os.killpg(sweeping.pid, signal.SIGKILL)
    sweeping.wait()
    assert sorted(path.parent.name for path in (tmp_path / "sweep").glob("*/notes.json")) == ["seed0"]
    monkeypatch.delenv("STAND_IN_WAITS")
    told("sweep", *words, "--into", tmp_path / "sweep")
    told("sweep", *words, "--into", tmp_path / "whole")
    assert folder_bytes(tmp_path / "sweep") == folder_bytes(tmp_path / "whole")


def test_slurm_and_single_runs_equal_the_loop(tmp_path, told, stand_in):
    words = [str(PARASITES), "--quanta", "5", "--seeds", "0-1", "--set", "copy_rate=500,1000"]
    told("sweep", *words, "--into", tmp_path / "whole")
    (tmp_path / "array").mkdir()
    for number in range(4):
        environment = {**os.environ, "TOP": str(TOP), "SLURM_ARRAY_TASK_ID": str(number)}
        subprocess.run([TOP / "studies/slurm", *words], cwd=tmp_path / "array", env=environment, check=True)
    assert folder_bytes(tmp_path / "array") == folder_bytes(tmp_path / "whole")


@peer("Snakemake")
def test_snakemake_equals_the_loop(tmp_path, told, stand_in):
    words = f"{PARASITES} --quanta 5 --seeds 0-3 --set copy_rate=500,1000"
    told("sweep", *words.split(), "--into", tmp_path / "whole")
    (tmp_path / "snake").mkdir()
    asked = ["snakemake", "--snakefile", str(TOP / "studies/Snakefile"), "--cores", "4", "--quiet", "--config", f"words={words}"]
    subprocess.run(asked, cwd=tmp_path / "snake", check=True, capture_output=True)
    assert folder_bytes(tmp_path / "snake") == folder_bytes(tmp_path / "whole")


@peer("GNU parallel")
def test_parallel_equals_the_loop(tmp_path, told, stand_in):
    words = ["sweep", str(PARASITES), "--quanta", "5", "--seeds", "0-3"]
    told(*words, "--into", tmp_path / "whole")
    (tmp_path / "parallel").mkdir()
    asked = ["parallel", "--jobs", "4", str(TOP / "studies/zuldokan"), *words, "--one", "{}", ":::", "0", "1", "2", "3"]
    subprocess.run(asked, cwd=tmp_path / "parallel", check=True, capture_output=True)
    assert folder_bytes(tmp_path / "parallel") == folder_bytes(tmp_path / "whole")


def test_the_program_itself(tmp_path, told, built):
    """The same setup as the stored genebank: its sweep keeps the same bytes."""
    shutil.copy(DATA / "mixed.toml", tmp_path / "mixed.toml")
    told("sweep", tmp_path / "mixed.toml", "--quanta", 6000, "--seeds", 5, "--into", tmp_path / "sweep")
    assert (tmp_path / "sweep/seed5/tierra.bank").read_bytes() == (DATA / "mixed.bank").read_bytes()
    table = told("gather", "genotypes", tmp_path / "sweep/seed5")
    assert len(table.splitlines()) == 1 + (DATA / "mixed_bank.txt").read_text().count("saved")


def test_counts_of_each_action(tmp_path, told, refused, built):
    """Checkpoints, counts of a curve and the report's end say the same of the same quantum. A run without checkpoints is no empty table."""
    tables = {}
    for action, every in (("run", []), ("hold", ["--every", 1000]), ("curve", ["--every", 1000])):
        told("sweep", PARASITES, "--quanta", 2000, "--seeds", "0-1", "--action", action, *every, "--into", tmp_path / action)
        tables[action] = told("gather", "counts", *sorted((tmp_path / action).iterdir())).splitlines()
    assert [line.split(",")[5] for line in tables["hold"][1:]] == ["1000", "2000", "1000", "2000"]
    assert tables["hold"] == [line for line in tables["curve"] if ",1000,0," not in line]
    assert tables["run"] == [tables["hold"][0], tables["hold"][2], tables["hold"][4]]
    assert "has no genebank" in refused("gather", "genotypes", tmp_path / "hold/seed0")
    kept = tmp_path / "hold/seed1/tierra.hold"
    kept.write_bytes(kept.read_bytes()[:44] + bytes(1))
    assert "holds no checkpoint" in refused("gather", "counts", *sorted((tmp_path / "hold").iterdir()))


def test_seed_of_this_many_digits():
    with pytest.raises(Refused):
        sweep.asked_for({}, [16**64])
    assert sweep.asked_for({}, [16**64 - 1])
