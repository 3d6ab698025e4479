"""Values that hold for one tick only.

A limit that is a clause of its own acts a tick late: a value past the limit holds for that tick. Pictures, tables and
measures of values and of crossings leave out such values, and averages count them (module measures). The rule: a value
of a discrete variable that holds for one tick, between two values that hold for longer, is left out. The value before
it holds for that tick.
"""
import argparse
from collections import deque
from typing import Deque, Dict, Iterable, Iterator, List, Optional, Sequence, Set, Tuple

from .rows import Row, Run

ALL_VALUES = "show values of discrete variables that hold for one tick only, too"


def add_all_values_option(parser: argparse.ArgumentParser) -> None:
    """Adds the option that keeps these values."""
    parser.add_argument("--all-values", action="store_true", help=ALL_VALUES)


def short_places(times: Sequence[int]) -> List[int]:
    """Of values that change at these ticks, the places of those that are left out."""
    return [
        place
        for place in range(1, len(times) - 1)
        if times[place + 1] - times[place] == 1
        and times[place] - times[place - 1] > 1
        and (place + 2 == len(times) or times[place + 2] - times[place + 1] > 1)
    ]


def steady_rows(run: Run, rows: Iterable[Row]) -> Iterator[Row]:
    """The rows without those that set a value that is left out."""
    names = {one.name for one in run.flat.variables[run.flat.states : run.flat.states + run.flat.discretes]}
    return Steady(names).passed(rows) if names else iter(rows)


class Steady:
    """Holds the rows of the last ticks, until it is known how long their values hold."""

    def __init__(self, names: Set[str]) -> None:
        self.names = names
        self.values: Dict[str, Optional[int]] = {}
        self.changes: Dict[str, List[int]] = {}  # the last ticks at which each value changed
        self.waiting: Deque[Tuple[int, List[Row], List[str]]] = deque()  # ticks, their rows, and what changed there

    def passed(self, rows: Iterable[Row]) -> Iterator[Row]:
        batch: List[Row] = []
        for row in rows:
            if batch and row[0] != batch[0][0]:
                yield from self.after(batch, row[0])
                batch = []
            batch.append(row)
        if batch:
            yield from self.after(batch, batch[0][0] + 3)

    def after(self, batch: List[Row], following: int) -> Iterator[Row]:
        """The rows that are known to pass, when all rows of a tick are there, and the next ones have a later tick."""
        tick = batch[0][0]
        ends = {row[2]: row[3] for row in batch if row[1] in ("set", "start") and row[2] in self.names}
        changed = [name for name, value in ends.items() if self.values.get(name) != value or name not in self.values]
        for name in changed:
            self.changes[name] = self.changes.get(name, [])[-3:] + [tick]
        self.values.update(ends)
        self.waiting.append((tick, batch, changed))
        while self.waiting and self.waiting[0][0] + 2 < following:
            at, held, names = self.waiting.popleft()
            short = {name for name in names if self.is_short(name, at)}
            yield from (row for row in held if row[1] != "set" or row[2] not in short) if short else held

    def is_short(self, name: str, tick: int) -> bool:
        times = self.changes[name]
        return times.index(tick) in short_places(times)
