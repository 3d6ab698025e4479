"""The schedule of a proved build: which crates are proved next, and in how many jobs.

A crate is proved in one job, because each further job repeats a part of its work. As many crates are proved at once as
there are processors, or fewer if memory is short. The crates with the longest chain of crates above them come first. A
crate gets more jobs only if it takes long, and no other crate is being proved or can be.
"""
import os
import re
import sys
from typing import Dict, Iterable, List, NamedTuple, Set, Tuple

from .crates import Below, lines_in, needed

# What the proof of a crate takes of memory, in bytes.
EACH = 2_000_000_000
# The most jobs of one crate: more seldom shorten its proof.
MOST = 4
# A crate that takes at least so many seconds in one job gets more jobs where nothing else can be proved.
LONG = 60
# The least nice value after 0 and the greatest one: of the shortest chain.
LOWEST = 19


def work_of(root: str, crate: str) -> float:
    """About how many processor seconds the proof of a crate takes in one job."""
    # (fitted to measured times: 5 s to load what is below, and a second for 15 lines of source)
    return 5 + lines_in(root, crate, "src") / 15


def longest_chains(below: Below, work: Dict[str, float]) -> Dict[str, float]:
    """Of each crate, the work of the longest chain from it upwards: about how long it takes with what waits for it."""
    chains: Dict[str, float] = {}

    def chain(name: str) -> float:
        if name not in chains:
            chains[name] = work[name] + max((chain(it) for it in work if name in below[it]), default=0)
        return chains[name]

    return {it: chain(it) for it in work}


class Shares(NamedTuple):
    """How many crates are proved at once, and the number of jobs of a long crate that is proved alone."""

    crates: int
    alone: int


def proofs_in_memory() -> int:
    """The number of proofs for which there is memory, where that is known."""
    try:
        with open("/proc/meminfo", encoding="ascii") as file:
            found = re.search(r"^MemAvailable:\s+(\d+)", file.read(), re.M)
    except OSError:
        found = None
    return max(1, 1024 * int(found[1]) // EACH) if found else sys.maxsize


def shares() -> Shares:
    """As many crates at once as there are processors and memory, or as QSS_JOBS asks for."""
    wanted = os.environ.get("QSS_JOBS", "")
    if wanted.isdigit() and int(wanted) > 0:
        number = int(wanted)
    else:
        number = len(os.sched_getaffinity(0)) if hasattr(os, "sched_getaffinity") else os.cpu_count() or 1
        number = min(number, proofs_in_memory())
    return Shares(number, min(number, MOST))


class Schedule:
    """What of some crates is proved next, from the work of each."""

    def __init__(self, below: Below, work: Dict[str, float], allowed: Shares) -> None:
        self.work, self.shares = work, allowed
        self.chains = longest_chains(below, work)
        self.needs = {it: needed(below, it) - {it} for it in work}

    def ready(self, waiting: Iterable[str], built: Set[str]) -> List[str]:
        """The crates of which all below is built, those with the longest chain first."""
        return sorted((it for it in waiting if self.needs[it] <= built), key=lambda it: (-self.chains[it], it))

    def begin(self, waiting: Set[str], built: Set[str], at_work: int) -> List[Tuple[str, int]]:
        """The crates whose proofs begin now, each with its number of jobs, while others are at work."""
        ready = self.ready(waiting, built)
        if not at_work and len(ready) == 1 and self.work[ready[0]] >= LONG:
            return [(ready[0], self.shares.alone)]
        return [(it, 1) for it in ready[: max(0, self.shares.crates - at_work)]]

    def nice(self, name: str, longest: float) -> int:
        """The nice value of a crate: 0 for the longest chain of a build, more for shorter chains."""
        return int(LOWEST * (1 - self.chains[name] / longest))
