"""Which crate is proved next, how many are at once, and how long the rest takes. Nothing here reads a file or a clock.

A crate's chain is the time from its begin until the program is built, if nothing but the crates above it had to wait.
The crate with the longest chain goes first, since the whole build takes at least as long.
"""

import math
from typing import NamedTuple

GIGABYTE = 10**9
LARGEST = 4.8 * GIGABYTE  # the memory of the largest prover, which had four jobs
OTHERS = 2.7 * GIGABYTE  # the memory of the largest prover that had fewer
USUAL = 40  # seconds for a crate that the table lacks
LONG = 100  # seconds from which a crate that the rest waits for gets the most jobs
MOST_JOBS = 4
# A crate is urgent if its chain is at least so great a part of the longest.
URGENT = 0.9
# The forecast begins as if this machine had done so many seconds of work as fast as the table says, so that a small
# first crate does not rule it.
BEFORE = 20


def number_at_once(processors, free_memory):
    """How many crates are proved at once: three for four processors, and no more than there is free memory for."""
    by_processors = math.ceil(processors * 3 / 4)
    by_memory = 1 + math.floor((free_memory - LARGEST) / OTHERS)
    return max(1, min(by_processors, by_memory))


def jobs_for(processors, seconds, is_alone, is_urgent):
    """The jobs of a crate's proof. One that is not urgent gets one, since more jobs take more processor time in all."""
    if is_alone or is_urgent and seconds >= LONG:
        return min(MOST_JOBS, processors)
    return min(2, processors) if is_urgent else 1


def chains_of(seconds, uses):
    """The chain of each crate. The crates are given lowest first."""
    chains = {}
    for crate in reversed(list(seconds)):
        above = [chain for other, chain in chains.items() if crate in uses[other]]
        chains[crate] = seconds[crate] + max(above, default=0)
    return chains


def ready_crates(waiting, unproved, uses, chains):
    """The waiting crates below which no unproved crate is left, longest chain first."""
    ready = [crate for crate in waiting if not any(below in unproved for below in uses[crate])]
    return sorted(ready, key=lambda crate: -chains[crate])


class Start(NamedTuple):
    """A crate whose proof begins, with so many jobs."""

    crate: str
    jobs: int
    is_urgent: bool


def starts(seconds, uses, spent, at_once, processors):
    """What begins now.

    `seconds` has what each unproved crate takes, lowest first. Those in `spent` run, and have run for so long."""
    chains = chains_of(seconds, uses)
    ready = ready_crates([crate for crate in seconds if crate not in spent], seconds, uses, chains)
    still = [chains[crate] - gone for crate, gone in spent.items()]
    longest = max([*still, *(chains[crate] for crate in ready)], default=0)
    is_alone, found = not spent and len(ready) == 1, []
    for crate in ready[: max(at_once - len(spent), 0)]:
        is_urgent = chains[crate] >= URGENT * longest
        found.append(Start(crate, jobs_for(processors, seconds[crate], is_alone, is_urgent), is_urgent))
    return found


def seconds_left(seconds, uses, spent, at_once):
    """How long it takes until all crates are proved, where those in `spent` run, and have run for so long."""
    chains = chains_of(seconds, uses)
    ends = {crate: max(seconds[crate] - gone, 0) for crate, gone in spent.items()}
    waiting, now = set(seconds) - set(ends), 0
    while waiting or ends:
        free = max(at_once - len(ends), 0)
        for crate in ready_crates(waiting, {*waiting, *ends}, uses, chains)[:free]:
            ends[crate] = now + seconds[crate]
            waiting.remove(crate)
        first = min(ends, key=ends.get)
        now = ends.pop(first)
    return now


class Forecast:
    """What the crates that are left take, by a table and by how long those before them took against it."""

    def __init__(self, costs):
        self.costs = costs
        self.expected = self.taken = BEFORE

    def note(self, crate, seconds):
        """A crate took so long."""
        self.expected += self.costs.get(crate, USUAL)
        self.taken += seconds

    def seconds(self, left):
        """What each of these crates takes."""
        return {crate: self.taken / self.expected * self.costs.get(crate, USUAL) for crate in left}
