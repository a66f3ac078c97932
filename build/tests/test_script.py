"""The script tierra, with a stand-in for the kit. Its tables are held against the program's by docs/check_pages."""

import os
import pty
import select
import signal
import time

import pytest
from conftest import WAIT

ASKS = "tierra: p, u or l? "


def test_build_builds_and_does_nothing_else(checkout):
    status, told, said = checkout.run("./tierra", "build")
    assert (status, told) == (0, "") and checkout.is_built() and "tierra: built in" in said
    status, told, said = checkout.run("./tierra", "build")
    assert (status, told) == (0, "")
    assert said == f"tierra: the program is proved and built: {checkout.top}/crates/tierra/out/tierra\n"


def test_build_takes_no_words(checkout):
    assert checkout.run("./tierra", "build", "crew") == (1, "", "tierra: usage: tierra build\n")


def test_a_build_that_fails(checkout):
    checkout.write("model", "refused")
    status, told, said = checkout.run("./tierra", "build")
    assert (status, told) == (70, "") and "tierra: model was not built" in said


def test_an_interrupt(checkout):
    checkout.write("model", "long")
    script = checkout.start("./tierra", "build")
    checkout.wait_for("begin", "model")
    script.send_signal(signal.SIGTERM)
    assert script.wait(WAIT) == 130 and checkout.trees() == []


def test_off_a_terminal_it_builds_and_says_what_else_there_is(checkout):
    status, told, said = checkout.run("./tierra", "dump", "--quanta", "5")
    assert (status, told) == (0, "program dump --quanta 5\n")
    first = "tierra: proving the program first, in about 30 s; ./tierra --unproved .. runs it with no proof"
    assert said.splitlines()[0] == first
    assert checkout.run("./tierra", "dump") == (0, "program dump\n", "")


def test_words_that_are_refused_build_nothing(checkout):
    status, told, said = checkout.run("./tierra", "dump", "--quanta", "0")
    assert (status, told) == (1, "") and said.startswith("tierra: usage: tierra grow|run")
    assert checkout.noted("begin") == []


@pytest.mark.parametrize(("word", "what"), [("dump", "program is"), ("build", "program is"), ("--test", "tests need")])
def test_without_the_kit(checkout, word, what):
    checkout.environment["PATH"] = "/usr/bin:/bin"
    status, told, said = checkout.run("./tierra", word)
    assert (status, told) == (70, "") and said.startswith(f"tierra: the {what}") and said.count("\n") == 1


def test_the_program_stands_where_it_says(checkout):
    assert checkout.run("./tierra", "--where")[0] == 1
    checkout.run("./tierra", "build")
    assert checkout.run("./tierra", "--where") == (0, f"{checkout.top}/crates/tierra/out/tierra\n", "")
    told = checkout.run("./tierra", "--version")[1].splitlines()
    assert told[0].startswith("tierra ") and told[2] == "proved and built by stand-in for a kit"


def test_tests(checkout):
    checkout.write("words_tests", "#[test]\npass")
    status, told, _ = checkout.run("./tierra", "--test", "words_tests")
    assert status == 0 and told.startswith("1 passed, 0 failed in ")


class Terminal:
    """A run of the script on a terminal, with a soup file as its input."""

    def __init__(self, checkout, *words):
        self.own, theirs = pty.openpty()
        self.shown = ""
        with open(checkout.top / "crates.txt") as soup:
            # The new session takes the terminal of its standard input, which is the soup file from then on.
            inner = ["bash", "-c", f'exec "$@" <&{soup.fileno()}', "bash", *words]
            how = {"stdin": theirs, "stderr": theirs, "pass_fds": [soup.fileno()]}
            self.process = checkout.start("setsid", "-c", *inner, **how)
        os.close(theirs)

    def read_until(self, text):
        until = time.monotonic() + WAIT
        while text not in self.shown:
            assert time.monotonic() < until, f"no {text} in {self.shown}"
            if select.select([self.own], [], [], 0.1)[0]:
                self.shown += os.read(self.own, 4096).decode()

    def answer(self, text):
        os.write(self.own, f"{text}\n".encode())

    def end(self):
        told = self.process.communicate(timeout=WAIT)[0]
        return self.process.returncode, told


def test_on_a_terminal_it_asks_and_leaves(checkout):
    terminal = Terminal(checkout, "./tierra", "dump")
    terminal.read_until(ASKS)
    assert "prove and build it now, in about 30 s" in terminal.shown
    terminal.answer("what?")
    terminal.shown = ""
    terminal.read_until(ASKS)
    terminal.answer("l")
    assert terminal.end() == (130, "")
    assert checkout.noted("begin") == []


def test_on_a_terminal_it_asks_and_proves(checkout):
    terminal = Terminal(checkout, "./tierra", "dump")
    terminal.read_until(ASKS)
    terminal.answer("p")
    terminal.read_until("tierra: built in")
    status, told = terminal.end()
    assert status == 0 and told.startswith("program dump\n# a comment\n")  # the input is the soup file
    assert "\r" in terminal.shown


def test_on_a_terminal_it_asks_and_runs_unproved(checkout):
    unproved = checkout.top / "crates/tierra/out/unproved"
    unproved.parent.mkdir()
    unproved.write_text('#!/bin/sh\necho "unproved $*"\n')
    unproved.chmod(0o755)
    terminal = Terminal(checkout, "./tierra", "dump", "--quanta", "7")
    terminal.read_until(ASKS)
    terminal.answer("u")
    assert terminal.end() == (0, "unproved dump --quanta 7\n")
