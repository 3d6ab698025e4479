"""Switching times that two clauses set at one tick, so that a pulse is cut short or a switching time is lost.

All conditions of a tick are evaluated before its first statement. So a clause that corrects a switching time can fire
at the tick at which the old switching time has passed. Then the clause of the switching time fires too.
"""
import re
from dataclasses import dataclass
from typing import Dict, List, Optional, Tuple

from ..model.flat import TIME, Flat, Row

FIRED = re.compile(rb"^(\d+),when,([0-9.]+)", re.M)
Pair = Tuple[bytes, bytes]  # the labels of two branches of different clauses, in the order of the source


@dataclass(frozen=True)
class Coincidence:
    """The first tick at which two branches fired that set one switching time."""

    tick: int
    labels: Pair
    variable: int


@dataclass(frozen=True)
class Branch:
    """A branch: its clause, its label, and what it sets."""

    clause: int
    label: bytes
    condition: Row
    sets: Dict[int, Row]

    @property
    def reads_time(self) -> bool:
        return TIME in self.condition.form.parts

    def waits_for(self, variable: int) -> bool:
        """Whether the condition compares the time with a variable."""
        return self.reads_time and ("x", variable) in self.condition.form.parts


def branches_of(flat: Flat) -> List[Branch]:
    return [
        Branch(clause, b"%d.%d" % (clause, place), condition, {row.variable: row for row in rows if row.kind == "set"})
        for clause, branches in enumerate(flat.clauses(), 1)
        for place, (condition, rows) in enumerate(branches, 1)
    ]


def dangerous_pairs(flat: Flat) -> Dict[Pair, int]:
    """The pairs of branches that must not fire at one tick, with the switching time that both set.

    One of them waits for this time. The other one corrects it without waiting for a time, or comes first and sets the
    next time, which the one that waits then overwrites. A clause that comes last and begins the next pulse does no
    harm.
    """
    branches, found = branches_of(flat), {}
    setting: Dict[int, List[Branch]] = {}
    for one in branches:
        for variable in one.sets:
            setting.setdefault(variable, []).append(one)
    waits = [(one, variable) for one in branches for variable in one.sets if one.waits_for(variable)]
    for waiting, variable in waits:
        for other in setting[variable]:
            if disturbs(other, waiting, variable):
                first, second = sorted((waiting, other), key=lambda one: one.clause)
                found[first.label, second.label] = variable
    return found


def disturbs(other: Branch, waiting: Branch, variable: int) -> bool:
    """Whether another branch must not fire at one tick with a branch that waits for a switching time."""
    if other.clause == waiting.clause or is_same(other.sets[variable], waiting.sets[variable]):
        return False
    return not other.reads_time or other.clause < waiting.clause


def is_same(one: Row, other: Row) -> bool:
    """Whether two statements set the same value."""
    return one.form.parts == other.form.parts and one.form.constant == other.form.constant


class Watch:
    """Looks for coincidences in the rows of a run."""

    def __init__(self, flat: Flat) -> None:
        self.pairs = dangerous_pairs(flat)
        self.found: Dict[Pair, Coincidence] = {}
        self.tick: Optional[bytes] = None
        self.labels: List[bytes] = []

    def read(self, rows: bytes) -> None:
        """Reads whole rows, which follow those that were read before."""
        for tick, label in FIRED.findall(rows) if self.pairs else ():
            if tick != self.tick:
                self.tick, self.labels = tick, []
            self._add(int(tick), label)

    def _add(self, tick: int, label: bytes) -> None:
        """Adds a branch that fired at a tick, after others of this tick."""
        for pair in ((before, label) for before in self.labels):
            if pair in self.pairs and pair not in self.found:
                self.found[pair] = Coincidence(tick, pair, self.pairs[pair])
        self.labels.append(label)
