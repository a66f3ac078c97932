"""The follower of a growing file: cut files, its page by urllib and in a browser, and its text."""
import contextlib
import json
import os
import shutil
import subprocess
import threading
import urllib.error
import urllib.request

import numpy
import pytest

from studies import files, frames, live, picture
from studies.refusal import Refused

from .conftest import DATA, TOP

HOLD = DATA / "mixed.hold"
IMAGE, SMALL = HOLD.read_bytes(), (DATA / "small.hold").read_bytes()
WORLDS = files.read_hold(HOLD)
BROWSER = next(filter(None, map(shutil.which, ("chromium", "chromium-browser", "google-chrome"))), None)


def ends_of(image):
    """Where the gate behind each frame stands: from there on the frame is whole."""
    return [end + 32 for _, end, _ in files.parts_of(image, "frame")]


def test_a_file_cut_anywhere(tmp_path):
    """It has the frames that are whole, and a later look goes on from there."""
    path, ends = tmp_path / "tierra.hold", ends_of(SMALL)
    whole = [bytes(world.state) for world in files.worlds_in(SMALL)]
    assert len(ends) == 3 and ends[-1] == len(SMALL) - 1
    for length in sorted({*range(0, len(SMALL), 11), *(end + k for end in ends for k in (-1, 0, 1)), 43, 44, 45}):
        path.write_bytes(SMALL[:length])
        growing = files.Growing(path)
        first, seen = growing.look(), sum(end < length for end in ends)
        path.write_bytes(SMALL)
        assert [bytes(world.state) for world in first] == whole[:seen]
        assert [bytes(world.state) for world in growing.look()] == whole[seen:]
        assert [bytes(growing.world(place).state) for place in range(3)] == whole and growing.look() == []


def test_a_frame_that_is_not_whole(tmp_path):
    """A flipped bit of the last frame: it is left out, until the file has it whole."""
    path, (_, before, end) = tmp_path / "tierra.hold", ends_of(SMALL)
    for place in range(before + 1, end):
        path.write_bytes(SMALL[:place] + bytes([SMALL[place] ^ 1]) + SMALL[place + 1 :])
        growing = files.Growing(path)
        assert [world.quanta for world in growing.look()] == [5, 10]
        path.write_bytes(SMALL)
        assert [world.quanta for world in growing.look()] == [15]


def test_a_file_that_is_begun_anew(tmp_path):
    path = tmp_path / "tierra.hold"
    path.write_bytes(SMALL)
    follower = live.Follower(path, None, {})
    assert [row["quantum"] for row in follower.look()] == [5, 10, 15] and follower.state(0, 3)["rows"] == []
    path.write_bytes(SMALL[: ends_of(SMALL)[0] + 1])
    told = follower.state(0, 3)
    assert (told["begun"], told["first"], [row["quantum"] for row in told["rows"]]) == (1, 0, [5])
    path.write_bytes(IMAGE)
    assert len(follower.state(1, 1)["rows"]) == 15 and follower.begun == 2
    path.write_bytes(b"")
    assert follower.state(2, 15) == {"begun": 3, "first": 0, "rows": []}


def test_rows_are_those_of_frames():
    follower = live.Follower(HOLD, None, {})
    rows, counts, living = follower.look(), frames.counts(WORLDS), frames.living(WORLDS)
    for key in ("quantum", "births", "deaths", "living"):
        assert [row[key] for row in rows] == counts[key].tolist()
    for row in rows:
        alive = living[living.quantum == row["quantum"]]
        assert dict(map(tuple, row["commonest"])) == dict(zip(alive.name, alive.living))
        assert row["genotypes"] == len(alive) and row["living"] == alive.living.sum()
        assert row["sizes"] == alive.groupby(alive["size"] // 10 * 10).living.sum().to_dict()


def test_the_map_has_every_cell():
    """What the page draws is what `picture map` draws."""
    world, colour = WORLDS[-1], picture.OTHERS | picture.COLOURS
    told = live.map_of(world, {})
    cells = ["free, nop_0"] * told["cells"]
    blocks = [(at, size, "free, code of the dead") for at, size in told["left"]]
    for at, size, daughter_at, daughter_size, _ in told["creatures"]:
        blocks.append((daughter_at, daughter_size, "daughter being copied"))
        blocks += [(at, size, "self"), (at, 1, "first cell of a creature")]
    for at, size, kind in blocks:
        cells[at : at + size] = [kind] * size
    drawn = numpy.array([[int(colour[kind][k : k + 2], 16) for k in (1, 3, 5)] for kind in cells])
    assert (drawn == picture.map_of(world, pixels=1).reshape(-1, 3)[: len(cells)]).all()
    names = [told["genotypes"][row[4]]["name"] for row in told["creatures"]]
    assert names == world.genotypes.name.loc[world.creatures.genotype].tolist()


@contextlib.contextmanager
def served(path, roles=()):
    """The address at which a file is served."""
    with live.server_of(live.Follower(path, None, dict(roles)), 0) as server:
        thread = threading.Thread(target=server.serve_forever)
        thread.start()
        try:
            yield f"http://127.0.0.1:{server.server_address[1]}"
        finally:
            server.shutdown()
            thread.join()


def got(address):
    with urllib.request.urlopen(address, timeout=60) as reply:
        return json.load(reply)


def test_the_server(tmp_path):
    path, ends = tmp_path / "tierra.hold", ends_of(IMAGE)
    path.write_bytes(IMAGE[: ends[3] + 100])
    with served(path, [("0044aad", "parasite")]) as address:
        with urllib.request.urlopen(f"{address}/", timeout=60) as reply:
            assert reply.headers["Content-Type"] == "text/html; charset=utf-8"
            assert reply.read() == live.PAGE.read_bytes()
        first = got(f"{address}/state?begun=0&known=0")
        assert [row["quantum"] for row in first["rows"]] == [400, 800, 1200, 1600]
        path.write_bytes(IMAGE)
        told = got(f"{address}/state?begun=0&known=4")
        assert (told["first"], len(told["rows"]), told["rows"][-1]["quantum"]) == (4, 11, 6000)
        shown = got(f"{address}/map?place=14")
        roles = {row["name"]: row["role"] for row in shown["genotypes"]}
        assert shown["quantum"] == 6000 and roles["0044aad"] == "parasite" and roles["0080aaa"] is None
        one = got(f"{address}/genotype?name=0044aad")
        assert [(step["name"], step["quantum"]) for step in one["line"]] == [("0044aaa", 0), ("0044aad", 2791)]
        assert len(one["listing"].split()) == 44
        assert got(f"{address}/colours")["roles"]["parasite"] == picture.COLOURS["parasite"]


@pytest.mark.parametrize(
    "path, status, line",
    [
        ("/none", 404, "there is nothing at /none"),
        ("/map?place=15", 409, "there is no checkpoint 15"),
        ("/map?place=x", 400, "the address lacks a word"),
        ("/state", 400, "the address lacks a word"),
        ("/genotype?name=0044zzz", 409, "the run has no genotype 0044zzz"),
    ],
)
def test_what_the_server_has_not(path, status, line):
    with served(HOLD) as address:
        got(f"{address}/state?begun=0&known=0")
        with pytest.raises(urllib.error.HTTPError) as fault:
            got(address + path)
        assert fault.value.code == status and line in json.load(fault.value)["error"]


@pytest.fixture
def dom(tmp_path):
    """Opens an address in a browser without a screen, lets the page's clock run, and gives what has become of it."""
    if BROWSER is None:
        pytest.skip("needs a browser: chromium")

    def opened(address):
        words = ["--headless", "--no-sandbox", "--disable-gpu", f"--user-data-dir={tmp_path}/profile"]
        words += ["--virtual-time-budget=20000", "--dump-dom"]
        asked = subprocess.run([BROWSER, *words, address], capture_output=True, text=True, timeout=300)
        assert asked.returncode == 0, asked.stderr
        return asked.stdout

    return opened


def test_the_page_in_a_browser(dom):
    """It follows the newest; an address goes back in time, and opens a genotype; `play` comes to the end again."""
    with served(HOLD, [("0044aaa", "parasite")]) as address:
        shown = dom(address)
        assert '<output id="quantum">6,000</output>' in shown and "15 checkpoints, the last of quantum 6,000" in shown
        assert 'id="map" width="600" height="22"' in shown and '<span id="fault" role="alert"></span>' in shown
        assert "40 to 49" in shown and "0080aaa" in shown
        back = dom(f"{address}/#quantum=1999&by=role&of=0044aad")
        assert '<output id="quantum">1,600</output>' in back and "hyperparasite" in back
        assert '<span id="name">0044aad</span>' in back and "nop_1" in back and '<div id="genotype">' in back
        played = dom(f"{address}/#quantum=400&by=size&play")
        assert '<output id="quantum">6,000</output>' in played
        assert '<button type="button" id="play">play</button>' in played


def test_text(told):
    lines = told("live", HOLD, "--text", "--once", "--soup", DATA / "mixed.toml").splitlines()
    assert len(lines) == 15
    first = "quantum 400 births 8 deaths 0 living 14 genotypes 3 sizes 40+:7 80+:7"
    assert lines[0] == f"{first} commonest 0044aaa:7 0080aaa:6 0080aab:1"


def test_text_as_it_comes(tmp_path):
    """A line for each checkpoint, when it is whole."""
    path, (first, second, end) = tmp_path / "tierra.hold", ends_of(SMALL)
    words = [TOP / "studies/zuldokan", "live", path, "--text", "--seconds", "0.02"]
    with open(path, "ab", buffering=0) as file:
        file.write(SMALL[: first - 1])
        with subprocess.Popen(words, stdout=subprocess.PIPE, text=True) as running:
            try:
                file.write(SMALL[first - 1 : second + 1])
                assert [running.stdout.readline().split()[1] for _ in range(2)] == ["5", "10"]
                file.write(SMALL[second + 1 : end])
                file.write(SMALL[end:])
                assert running.stdout.readline().split()[1] == "15"
            finally:
                running.terminate()


def test_text_on_a_terminal():
    ours, theirs = os.openpty()
    subprocess.run([TOP / "studies/zuldokan", "live", HOLD, "--text", "--once"], stdout=theirs, check=True)
    os.close(theirs)
    shown = os.read(ours, 10**6).decode().replace("\r\n", "\n")
    os.close(ours)
    assert shown.startswith("\x1b[H\x1b[2J") and "quantum 6,000  living " in shown
    assert "     40 to 49     " in shown and "0080aaa" in shown and "#" * live.BAR in shown


@pytest.mark.parametrize(
    "words, line",
    [
        ([DATA / "none.hold"], "No such file"),
        ([DATA / "mixed.bank"], "is not a checkpoint"),
        ([HOLD, "--soup", DATA / "small.toml"], "belongs to another setup"),
        ([HOLD, "--once"], "--once goes with --text"),
        ([HOLD, "--seconds", 0], "--seconds is above 0"),
        ([HOLD, "--port", 65536], "--port 65536: "),
        ([HOLD, "--roles", DATA / "mixed_probe.txt"], "is no table of zuldokan roles"),
    ],
)
def test_live_refuses(refused, words, line):
    assert line in refused("live", *words)


def test_no_checkpoint_yet(refused, tmp_path):
    (tmp_path / "new.hold").write_bytes(SMALL[:200])
    assert "holds no checkpoint" in refused("live", tmp_path / "new.hold", "--text", "--once")
    with pytest.raises(Refused, match="is damaged"):
        growing = files.Growing(HOLD)
        growing.look()
        growing.path = tmp_path / "new.hold"
        growing.world(3)
