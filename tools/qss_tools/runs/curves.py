"""The trajectories of variables of a run: by arrays where numpy is there, and otherwise row by row."""
from fractions import Fraction
from typing import List, Mapping, Optional, Sequence, Tuple

from ..arrays import load
from ..model.flat import ALGEBRAIC
from .lines import array_trajectories
from .rows import Rows, Run
from .trajectories import Combination, Follower, Trajectory, level_lines, with_sums


def trajectories(
    run: Run,
    rows: Rows,
    numbers: Sequence[int],
    all_values: bool = False,
    more: Optional[Mapping[int, Combination]] = None,
) -> Tuple[List[Trajectory], Optional[Tuple[int, str]]]:
    """The trajectories of these variables, from the rows of a run, and the tick and the name of an overflow or None. A
    value of a discrete variable that holds for one tick only is left out (module steady), unless all are asked for. The
    complete trajectories of the trajectories keep it. The numbers of `more` denote these sums.
    """
    flat = run.flat
    sums = dict(more or {})
    for number in numbers:
        if number not in sums and flat.variables[number].role == ALGEBRAIC:
            sums[number] = Combination(run, number)
    if load() is not None and run.order == 1:
        return array_trajectories(run, rows, numbers, sums, all_values)
    needed = {number for number in numbers if number not in sums}.union(*(one.needs() for one in sums.values()))
    if run.order == 2:
        known, last, overflow = level_lines(run, rows, needed)
    else:
        follower = Follower(run, sorted(needed))
        last, overflow = follower.follow(rows)
        known = follower.lines
    for line in known.values():
        line.last = last

    def total(one: Combination, some: Mapping[int, Trajectory]) -> Trajectory:
        found = one.trajectory(some, Fraction(1, 2**run.units.time))
        found.last = last
        return found

    lines = with_sums(known, sums, total, flat.states)
    return [lines[number].complete if all_values else lines[number] for number in numbers], overflow
