"""The trajectories of a run, exact: each variable as a piecewise linear function of time, from the run's rows.

Between two ticks a state moves by its slope, which is a function of levels and discrete values (docs/SEMANTICS.md). The
rows state when these change. Each state that a row or the end of the run states is compared with the trajectory.
"""
from bisect import bisect_right
from fractions import Fraction
from typing import Any, Callable, Dict, Iterator, List, Mapping, Optional, Sequence, Set, Tuple, Union

from ..fault import Fault
from ..model.flat import Meaningless
from .machines import Machine, NoMachine
from .machines import Row as MachineRow
from .rows import Rows, Run
from .steady import short_places

Exact = Union[int, Fraction]


class Trajectory:
    """A piecewise linear function of time in whole numbers: a value and a slope from each of some ticks on.

    A value counts `unit` of the model's unit, a time in ticks `tick` of the model's unit of time. A value may jump at a
    tick. The value at the tick of a jump is the one after it.
    """

    __slots__ = ("name", "unit", "tick", "times", "values", "slopes", "last", "quantum", "_complete")

    def __init__(self, name: str, unit: Fraction, tick: Fraction, quantum: Optional[Fraction] = None) -> None:
        self.name, self.unit, self.tick, self.quantum = name, unit, tick, quantum
        self.times: List[int] = []
        self.values: List[int] = []
        self.slopes: List[int] = []
        self.last = 0
        self._complete: Optional[Trajectory] = None

    @property
    def complete(self) -> "Trajectory":
        """The trajectory with all values, if values that hold for one tick only are left out of this one."""
        return self if self._complete is None else self._complete

    def turn(self, tick: int, slope: int) -> None:
        """From this tick on the function has this slope."""
        last = self.times[-1]
        if last != tick:
            self.values.append(self.values[-1] + self.slopes[-1] * (tick - last))
            self.times.append(tick)
            self.slopes.append(slope)
        else:
            self.slopes[-1] = slope

    def jump(self, tick: int, value: Any) -> None:
        """At this tick the function has this value, and after it the same slope as before."""
        self.turn(tick, self.slopes[-1])
        self.values[-1] = value

    def steady(self) -> "Trajectory":
        """Without values that hold for one tick only, of a discrete variable."""
        points: List[Tuple[int, int]] = []
        for point in zip(self.times, self.values):
            if not points or points[-1][1] != point[1]:
                points.append(point)
        short = set(short_places([time for time, _ in points]))
        if not short:
            return self
        kept = [point for place, point in enumerate(points) if place not in short]
        found = Trajectory(self.name, self.unit, self.tick, self.quantum)
        found.times, found.values = [time for time, _ in kept], [value for _, value in kept]
        found.slopes, found.last, found._complete = [0] * len(kept), self.last, self
        return found

    def pieces(
        self, begin: Optional[Exact] = None, end: Optional[Exact] = None
    ) -> Iterator[Tuple[Exact, Exact, Exact, Exact]]:
        """Each piece as (first time, value there, last time, value there), clipped to a window of times in ticks."""
        times, values, slopes = self.times, self.values, self.slopes
        begin = 0 if begin is None else begin
        end = self.last if end is None else min(end, self.last)
        for place in range(max(bisect_right(times, begin) - 1, 0), len(times)):
            first = times[place]
            if first > end:
                return
            low = max(first, begin)
            high = min(times[place + 1], end) if place + 1 < len(times) else end
            value, slope = values[place], slopes[place]
            yield low, value + slope * (low - first), high, value + slope * (high - first)

    def slope_at(self, time: Exact) -> int:
        """The slope at a time in ticks and after it."""
        return self.slopes[max(bisect_right(self.times, time) - 1, 0)]

    def at(self, time: Exact) -> Exact:
        """The value at a time in ticks."""
        place = max(bisect_right(self.times, time) - 1, 0)
        return self.values[place] + self.slopes[place] * (time - self.times[place])


class Combination:
    """An algebraic variable as a sum over states and discrete variables, in whole numbers."""

    def __init__(self, run: Run, number: int) -> None:
        self.name = run.flat.variables[number].name
        self.states: List[Tuple[int, int]] = []
        self.products: List[Tuple[int, int, int]] = []
        self.discretes: List[Tuple[int, int]] = []
        self.take(run, number)

    def take(self, run: Run, number: int) -> None:
        """Takes the exact form of the variable."""
        flat, units = run.flat, run.units
        try:
            form = flat.solved(number)
        except Meaningless as error:
            raise Fault("%s: %s" % (run.model, error.reason)) from error
        below = form.denominator()
        self.unit = Fraction(1, below << (units.state + units.level))
        for key, value in form.parts.items():
            weight = int(value * below)
            if key[0] == "product":
                self.products.append((key[1], key[2], weight))
            elif key[1] < flat.states:
                self.states.append((key[1], weight << units.level))
            else:
                self.discretes.append((key[1], weight << units.state))
        self.constant = int(form.constant * below) << (units.state + units.level)

    def needs(self) -> Set[int]:
        """The numbers of the variables in the sum."""
        return {number for number, _ in self.states + self.discretes} | {
            number for state, discrete, _ in self.products for number in (state, discrete)
        }

    def total(self, values: Mapping[int, Any]) -> Any:
        """The value, from those of the variables by number."""
        total = self.constant
        for number, weight in self.states + self.discretes:
            total += weight * values[number]
        for state, discrete, weight in self.products:
            total += weight * values[state] * values[discrete]
        return total

    def trajectory(self, lines: Mapping[int, Trajectory], tick: Fraction) -> Trajectory:
        """The trajectory of the variable, from those of its states and discrete variables by number."""
        found = Trajectory(self.name, self.unit, tick)
        needed = {number: lines[number] for number in sorted(self.needs())}
        for time in sorted({0}.union(*(line.times for line in needed.values()))):
            value = self.total({number: line.at(time) for number, line in needed.items()})
            after = self.total({number: line.at(time) + line.slope_at(time) for number, line in needed.items()})
            found.times.append(time)
            found.values.append(value)
            found.slopes.append(after - value)
        return found


Total = Callable[[Combination, Mapping[int, Any]], Any]  # the trajectory of a sum, from those of its variables


def with_sums(lines: Mapping[int, Any], sums: Mapping[int, Combination], total: Total, states: int) -> Dict[int, Any]:
    """The trajectories of variables by number, of which the first are states, and those of sums. Values that hold for
    one tick only are left out of them, and the complete trajectories keep these values.
    """
    shorter = {number: line if number < states else line.steady() for number, line in lines.items()}
    changed = {number for number, line in shorter.items() if line is not lines[number]}
    for number, one in sums.items():
        found = total(one, lines)
        if one.needs() & changed:
            found, found._complete = total(one, shorter), found
        shorter[number] = found
    return shorter


class SlopeRow:
    """What the slope of a state takes of each level and discrete value."""

    def __init__(self, machine: Machine, row: MachineRow) -> None:
        self.machine, self.row = machine, row
        self.switches = {machine.states + place for place, _, _ in row.products}
        self.gains: Dict[int, int] = {}

    def reads(self) -> Set[int]:
        """The numbers of the variables that the row reads."""
        found = {number for number, _ in self.row.states} | {number for _, number, _ in self.row.products}
        return found | {self.machine.states + place for place, _ in self.row.discretes} | self.switches

    def restart(self, levels: List[int]) -> int:
        """Computes gains and slope anew, from the levels and discrete values by number."""
        self.gains = self.machine.modes(self.row, levels[self.machine.states :])
        self.gains.update((self.machine.states + place, gain) for place, gain in self.row.discretes)
        return self.row.constant + sum(gain * levels[number] for number, gain in self.gains.items())


class Follower:
    """The trajectories of states and discrete variables, which grow with the rows of a run."""

    def __init__(self, run: Run, numbers: Sequence[int]) -> None:
        self.machine = machine = machine_of(run)
        self.run = run
        self.levels = [machine.level_below(start) for start in machine.starts] + list(machine.values)
        self.rows = {number: SlopeRow(machine, machine.rows[number]) for number in numbers if number < machine.states}
        self.readers: List[List[Tuple[SlopeRow, Trajectory]]] = [
            [] for _ in self.levels
        ]  # by number: (row, trajectory) of each state whose row reads it
        self.lines: Dict[int, Trajectory] = {}
        for number in numbers:
            one = run.flat.variables[number]
            state = number in self.rows
            unit = Fraction(1, 2 ** (run.units.state if state else run.units.level))
            line = Trajectory(one.name, unit, Fraction(1, 2**run.units.time), one.quantum if state else None)
            line.times.append(0)
            line.values.append(machine.starts[number] if state else self.levels[number])
            line.slopes.append(self.rows[number].restart(self.levels) if state else 0)
            self.lines[number] = line
        for number, row in self.rows.items():
            for read in row.reads():
                self.readers[read].append((row, self.lines[number]))

    def change(self, tick: int, number: int, level: Any) -> None:
        """A level or a discrete value is another one from this tick on."""
        step = level - self.levels[number]
        if not step:
            return
        self.levels[number] = level
        for row, line in self.readers[number]:
            if number in row.switches:
                line.turn(tick, row.restart(self.levels))
            else:
                line.turn(tick, line.slopes[-1] + row.gains.get(number, 0) * step)

    def follow(self, rows: Rows) -> Tuple[int, Optional[Tuple[int, str]]]:
        """Takes all rows; the last tick of the trajectories, and the tick and the name of an overflow or None."""
        names, lines, change = self.run.names, self.lines, self.change
        last = 0
        for tick, event, variable, level, state in rows:
            last = tick
            if event == "level":
                number = names[variable]
                if number in lines:
                    self.check(tick, number, state, rows.name)
                change(tick, number, level)
            elif event == "set":
                number = names[variable]
                if number in lines:
                    lines[number].jump(tick, level)
                change(tick, number, level)
            elif event == "reinit":
                if names[variable] in lines:
                    lines[names[variable]].jump(tick, state)
            elif event == "end":
                if names[variable] in self.rows:
                    self.check(tick, names[variable], state, rows.name)
            elif event == "overflow":
                return max(tick - 1, 0), (tick, variable)
        return last, None

    def check(self, tick: int, number: int, state: Optional[int], name: str) -> None:
        """A state that a row states is on its trajectory."""
        line = self.lines[number]
        if line.values[-1] + line.slopes[-1] * (tick - line.times[-1]) != state:
            raise off_trajectory(self.run, name, tick, line.name)


def machine_of(run: Run) -> Machine:
    """The machine of the model of a run."""
    try:
        return Machine(run.flat)
    except NoMachine as error:
        raise Fault("%s: %s" % (run.model, error)) from error


def off_trajectory(run: Run, rows: str, tick: int, name: str) -> Fault:
    """The fault of a state that is not where the rows before it lead."""
    return Fault(
        "%s: at tick %d the state %s differs from its trajectory in %s: the rows are of another model, of a run"
        " of second order, or they were filtered" % (rows, tick, name, run.model)
    )


def level_lines(
    run: Run, rows: Rows, numbers: Set[int]
) -> Tuple[Dict[int, Trajectory], int, Optional[Tuple[int, str]]]:
    """The levels of states and the values of discrete variables in a run of second order, which move along lines.
    Levels are counted in the units of states.
    """
    names, units, lines = run.names, run.units, {}
    for number in numbers:
        one, is_state = run.flat.variables[number], number < run.flat.states
        unit = Fraction(1, 2 ** (units.state if is_state else units.level))
        lines[number] = Trajectory(one.name, unit, Fraction(1, 2**units.time), one.quantum if is_state else None)
    last, overflow = 0, None
    for tick, event, variable, level, _ in rows:
        last = tick
        if event == "overflow":
            last, overflow = max(tick - 1, 0), (tick, variable)
            break
        line = lines.get(names.get(variable, -1))
        if line is None or level is None or event == "end":
            continue
        value = level << (units.state - units.level) if names[variable] < run.flat.states else level
        if event == "start":
            line.times, line.values, line.slopes = [tick], [value], [0]
        elif event == "slope":
            line.turn(tick, value)
        else:
            line.jump(tick, value)
    return lines, last, overflow
