"""The order of a build and its forecast, without a clock."""

import pytest
from schedule import GIGABYTE, LARGEST, OTHERS, Forecast
from schedule import chains_of, jobs_for, number_at_once, ready_crates, seconds_left, starts

# low and side stand on nothing; mid on low; top on mid and side.
USES = {"low": [], "side": [], "mid": ["low"], "top": ["mid", "side"]}
SECONDS = {"low": 10, "side": 5, "mid": 20, "top": 30}


@pytest.mark.parametrize(
    ("processors", "free", "number"),
    [(1, 99, 1), (2, 99, 2), (4, 99, 3), (8, 99, 6), (4, 7, 1), (4, 8, 2), (4, 2, 1)],
)
def test_number_at_once(processors, free, number):
    assert number_at_once(processors, free * GIGABYTE) == number


def test_what_runs_at_once_fits_into_the_free_memory():
    for free in range(5, 100):
        number = number_at_once(64, free * GIGABYTE)
        assert LARGEST + (number - 1) * OTHERS <= free * GIGABYTE


@pytest.mark.parametrize(
    ("processors", "seconds", "is_alone", "is_urgent", "jobs"),
    [
        (4, 10, True, True, 4),
        (2, 10, True, True, 2),
        (1, 200, True, True, 1),
        (4, 200, False, True, 4),
        (4, 10, False, True, 2),
        (4, 200, False, False, 1),
    ],
)
def test_jobs(processors, seconds, is_alone, is_urgent, jobs):
    assert jobs_for(processors, seconds, is_alone, is_urgent) == jobs


def test_a_chain_ends_with_the_program():
    assert chains_of(SECONDS, USES) == {"low": 60, "side": 35, "mid": 50, "top": 30}


def test_the_longest_chain_is_first():
    assert ready_crates(["side", "low", "mid", "top"], SECONDS, USES, chains_of(SECONDS, USES)) == ["low", "side"]


def test_a_crate_is_ready_once_those_below_are_proved():
    left = {"mid": 20, "side": 5, "top": 30}
    assert ready_crates(list(left), left, USES, chains_of(left, USES)) == ["mid", "side"]


def test_what_begins():
    assert starts(SECONDS, USES, {}, 2, 4) == [("low", 2, True), ("side", 1, False)]
    assert starts(SECONDS, USES, {}, 1, 4) == [("low", 2, True)]
    assert starts(SECONDS, USES, {"low": 1}, 1, 4) == []
    # What runs has spent much of its chain, so what begins is as urgent.
    assert starts(SECONDS, USES, {"low": 25}, 2, 4) == [("side", 2, True)]
    assert starts({"top": 30}, USES, {}, 3, 4) == [("top", 4, True)]


@pytest.mark.parametrize(("at_once", "seconds"), [(1, 65), (2, 60), (9, 60)])
def test_the_forecast_reckons_with_the_chain_and_the_number_at_once(at_once, seconds):
    assert seconds_left(SECONDS, USES, {}, at_once) == seconds


def test_the_forecast_reckons_with_what_runs():
    assert seconds_left(SECONDS, USES, {"low": 4, "side": 5}, 2) == 56
    assert seconds_left({"top": 30}, USES, {"top": 40}, 2) == 0


def test_the_forecast_learns_how_fast_the_machine_is():
    forecast = Forecast({"low": 20})
    assert forecast.seconds(["low"]) == {"low": 20}
    forecast.note("low", 60)  # with the 20 seconds that it began with, 80 in place of 40
    assert forecast.seconds(["low", "unknown"]) == {"low": 40, "unknown": 80}
