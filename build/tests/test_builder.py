"""build/prove_program, with a stand-in for the kit."""

import fcntl
import os
import re
import signal

from conftest import WAIT

PARTS = ["model", "words", "crew", "tierra"]


def read_until(lines, text):
    """Reads what a build says until a line has this text."""
    assert any(text in line for line in lines)


def test_a_build_from_nothing(checkout):
    status, told, said = checkout.build()
    assert (status, told) == (0, "")
    assert checkout.is_built() and sorted(checkout.noted("proved")) == sorted(PARTS)
    assert checkout.noted("proved")[0] == "model" and checkout.noted("proved")[-1] == "tierra"
    assert (checkout.top / "crates/tierra/out/kit").read_text() == "stand-in for a kit\n"
    assert re.match(r"tierra: 0 of 4 crates proved, now model, about [23]\d s left, \d+ s so far\n", said)
    assert "tierra: built in" in said.splitlines()[-1]
    assert checkout.trees() == []
    assert not (checkout.top / "crates/model/out/incremental").exists()  # where there was none before, it goes


def test_the_costs_of_a_whole_build_are_kept(checkout):
    checkout.build()
    costs = (checkout.top / "crates/tierra/out/costs.tsv").read_text().splitlines()
    assert costs[0].startswith("# The seconds that each crate") and "of 4 processors, 3 crates at once" in costs[1]
    assert sorted(line.split("\t")[0] for line in costs[2:]) == sorted(PARTS)


def test_crates_run_side_by_side(checkout):
    checkout.write("words", "until begin crew")
    checkout.write("crew", "until begin words")
    assert checkout.build()[0] == 0


def test_an_unproved_program_stays(checkout):
    unproved = checkout.top / "crates/tierra/out/unproved"
    unproved.parent.mkdir()
    unproved.write_text("unproved")
    assert checkout.build()[0] == 0
    assert unproved.read_text() == "unproved"


def test_what_is_built_is_not_proved_again(checkout):
    checkout.build()
    checkout.notes.write_text("")
    assert checkout.build()[0] == 0
    assert checkout.noted("begin") == ["tierra"]


def test_a_change_is_proved_with_what_stands_on_it(checkout):
    checkout.build()
    checkout.notes.write_text("")
    checkout.write("words", "well again")
    assert checkout.build()[0] == 0
    assert checkout.noted("begin") == ["words", "tierra"]


def test_a_crate_fails(checkout):
    checkout.write("words", "refused")
    checkout.write("crew", "long")
    status, _, said = checkout.build()
    assert status == 70 and not checkout.is_built() and checkout.trees() == []
    line = next(line for line in said.splitlines() if "was not built" in line)
    assert line == "tierra: words was not built: it is not proved (status 1); the last that was said:"
    assert "\nfn count: not proved\n" in said and "line 49" in said and "line 3\n" not in said
    end = "tierra: the program was not built; what was proved stays, and the next build goes on from there"
    assert said.splitlines()[-1] == end
    checkout.write("words", "well")
    checkout.write("crew", "well")
    checkout.notes.write_text("")
    assert checkout.build()[0] == 0
    assert sorted(checkout.noted("begin")) == ["crew", "tierra", "words"]


def test_a_crate_that_is_killed_beside_others_runs_once_more(checkout):
    checkout.write("words", "until begin crew\nkilled once")
    checkout.write("crew", "until kill words")
    status, _, said = checkout.build()
    assert status == 0 and checkout.trees() == []
    assert "tierra: words was killed, most likely for want of memory; it runs again beside fewer" in said
    assert checkout.noted("begin").count("words") == 2


def test_a_crate_that_is_killed_alone_fails(checkout):
    checkout.write("model", "killed")
    status, _, said = checkout.build()
    assert status == 70 and checkout.trees() == []
    assert "tierra: model was not built: it was killed, most likely for want of memory; the last that was said:" in said


def test_a_full_disk(checkout):
    checkout.write("crew", "full")
    status, _, said = checkout.build()
    assert status == 70 and checkout.trees() == []
    assert "tierra: crew was not built: the disk is full; the last that was said:\nrt: [Errno 28] No space left" in said


def test_a_disk_that_takes_no_tree(checkout):
    (checkout.top / "crates/tierra/out").write_text("in the way")
    status, _, said = checkout.build()
    assert status == 70 and "tierra: the build failed: Not a directory: " in said


def test_an_interrupt(checkout):
    checkout.write("crew", "long")
    build = checkout.start("build/prove_program")
    checkout.wait_for("begin", "crew")
    read_until(build.stderr, "tierra: 2 of 4 crates proved, now crew, ")
    build.send_signal(signal.SIGINT)
    _, said = build.communicate(timeout=WAIT)
    assert build.returncode == 130 and checkout.trees() == []
    assert said.splitlines()[-1] == "tierra: the build was told to stop; the next one goes on where it was"
    checkout.notes.write_text("")
    checkout.write("crew", "well")
    assert checkout.build()[0] == 0
    assert checkout.noted("begin") == ["crew", "tierra"]
    assert "kept True" in checkout.notes.read_text().splitlines()[0]  # also with the half of the crate that it had done
    assert sorted(path.name for path in (checkout.top / "crates/crew/out").iterdir()) == ["rlib"]


def test_what_runs_ends_with_a_build_that_is_killed(checkout):
    checkout.write("model", "long")
    build = checkout.start("build/prove_program")
    checkout.wait_for("begin", "model")
    assert checkout.trees() != []
    build.kill()
    build.wait()
    checkout.write("model", "well")
    status, _, said = checkout.build()
    assert status == 0 and checkout.trees() == []
    assert "waiting for" not in said


def test_a_second_build_waits(checkout):
    checkout.write("crew", "until go on")
    first = checkout.start("build/prove_program")
    checkout.wait_for("begin", "crew")
    second = checkout.start("build/prove_program")
    assert second.stderr.readline() == "tierra: waiting for another build, or for rt in crates/tierra\n"
    checkout.note("go on")
    assert first.wait(WAIT) == second.wait(WAIT) == 0
    assert sorted(checkout.noted("proved")) == sorted([*PARTS, "tierra"])


def test_a_second_build_that_waits_is_interrupted(checkout):
    checkout.write("model", "long")
    first = checkout.start("build/prove_program")
    checkout.wait_for("begin", "model")
    second = checkout.start("build/prove_program")
    assert second.stderr.readline().startswith("tierra: waiting for another build")
    second.send_signal(signal.SIGTERM)
    assert second.wait(WAIT) == 130 and first.poll() is None
    first.send_signal(signal.SIGTERM)
    assert first.wait(WAIT) == 130


def test_a_build_waits_for_the_kit(checkout):
    held = os.open(checkout.top / "crates/words", os.O_RDONLY)
    fcntl.flock(held, fcntl.LOCK_EX)
    build = checkout.start("build/prove_program")
    read_until(build.stderr, "now none, waiting for another command of the kit in crates/words, ")
    assert checkout.noted("proved") == ["model", "crew"]
    os.close(held)
    assert build.wait(WAIT) == 0 and checkout.noted("begin") == ["model", "crew", "words", "tierra"]


def test_a_change_during_a_build_is_proved_by_the_next(checkout):
    checkout.write("crew", "until go on")
    build = checkout.start("build/prove_program")
    checkout.wait_for("begin", "crew")
    source = checkout.top / "crates/model/src/lib.rt"
    source.unlink()  # as an editor does that writes a new file
    source.write_text("well, and changed\n")
    checkout.note("go on")
    assert build.wait(WAIT) == 0
    begun = len(checkout.noted("begin"))
    assert checkout.build()[0] == 0
    again = checkout.noted("begin")[begun:]
    assert again[0] == "model" and "crew" in again


def test_work_that_was_kept_is_used_and_stays(checkout):
    kept = checkout.top / "crates/model/out/incremental"
    kept.mkdir(parents=True)
    (kept / "work").write_text("of a check")
    assert checkout.build()[0] == 0
    assert "kept True" in checkout.notes.read_text().splitlines()[0]
    assert (kept / "work").read_text() == "half of it"


def test_what_is_urgent_goes_before_the_others(checkout):
    (checkout.top / "build/costs.tsv").write_text("crew\t500\nwords\t1\n")
    assert checkout.build()[0] == 0
    lines = [line.split() for line in checkout.notes.read_text().splitlines() if line.startswith("begin")]
    began = {crate: words for _, crate, *words in lines}
    nice = {crate: int(words[words.index("nice") + 1]) for crate, words in began.items()}
    assert nice["words"] == nice["crew"] + 5 and nice["crew"] == nice["tierra"]
    assert began["words"][:3] == ["lib", "--jobs", "1"] and began["crew"][:3] == ["lib", "--jobs", "4"]
    assert began["tierra"][:3] == ["run", "--", "asm"]


def test_a_forecast_does_nothing(checkout):
    status, told, _ = checkout.run("build/prove_program", "--forecast")
    assert (status, told) == (0, "30 s\n")
    assert checkout.noted("begin") == []
