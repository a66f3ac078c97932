"""build/try_tests, with a stand-in for the kit."""

import signal

from conftest import WAIT

SOURCE = "#[cfg(test)]\n#[test]\n"  # what tells that a crate has tests


def test_all_pass(checkout):
    checkout.write("words_tests", SOURCE + "pass\npass")
    checkout.write("model", SOURCE + "pass")
    status, told, said = checkout.run("build/try_tests")
    assert status == 0 and told.startswith("3 passed, 0 failed in ")
    assert sorted(checkout.noted("try")) == ["model", "words_tests"]
    assert "0 of 2 crates tried, 0 tests passed, now words_tests and model, " in said


def test_what_fails_is_named_with_what_it_said(checkout):
    checkout.write("words_tests", SOURCE + "pass\nfail")
    checkout.write("model", SOURCE + "pass")
    status, told, said = checkout.run("build/try_tests")
    assert status == 1 and told.startswith("2 passed, 1 failed in ")
    assert "tierra: words_tests failed: tests::number_3 (status 101); what it said:\ntest tests::number_2 ..." in said
    assert "test tests::number_3 ... FAILED\n  it says why\n" in said
    assert said.splitlines()[-1] == "tierra: failed in words_tests: tests::number_3"


def test_a_crate_that_gives_no_answer_fails(checkout):
    checkout.write("words_tests", SOURCE + "refused")
    status, told, said = checkout.run("build/try_tests")
    assert status == 1 and told.startswith("0 passed, 1 failed in ")
    assert "tierra: words_tests failed: no answer (status 1); what it said:" in said and "fn count: not proved" in said


def test_one_crate(checkout):
    checkout.write("words_tests", SOURCE + "pass")
    checkout.write("model", SOURCE + "fail")
    status, told, _ = checkout.run("build/try_tests", "words_tests")
    assert status == 0 and told.startswith("1 passed, 0 failed in ")
    assert checkout.noted("try") == ["words_tests"]


def test_a_crate_without_tests_is_refused(checkout):
    checkout.write("words_tests", SOURCE + "pass")
    status, told, said = checkout.run("build/try_tests", "words_tests", "crew")
    assert (status, told, said) == (1, "", "tierra: crew is no crate with tests; these are: words_tests\n")
    assert checkout.noted("try") == []


def test_an_interrupt(checkout):
    checkout.write("words_tests", SOURCE + "long")
    tests = checkout.start("build/try_tests")
    checkout.wait_for("try", "words_tests")
    tests.send_signal(signal.SIGINT)
    _, said = tests.communicate(timeout=WAIT)
    assert tests.returncode == 130 and said.splitlines()[-1] == "tierra: the tests were told to stop"
