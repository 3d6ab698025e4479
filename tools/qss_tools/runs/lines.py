"""Trajectories as arrays of numpy, from the rows of a run: exact, as those of the module trajectories."""
from fractions import Fraction
from typing import Any, Callable, Dict, List, Mapping, Optional, Sequence, Tuple

from ..arrays import load
from .bulk import END, LEVEL, REINIT, SET, Record, record_of
from .machines import Machine, nearest
from .rows import Rows, Run
from .series import Series, changes_of, overflow_of, steady
from .trajectories import Combination, Exact, SlopeRow, Trajectory, machine_of, off_trajectory, with_sums
from .wide import SMALL, Array, Wide, running

np = load()


class ArrayTrajectory(Trajectory):
    """A trajectory whose ticks, values and slopes are arrays."""

    __slots__ = ("ticks", "starts", "rises", "_lists", "_pieces", "_ends")

    def __init__(
        self,
        name: str,
        units: Tuple[Fraction, Fraction, Optional[Fraction]],
        arrays: Tuple[Array, Wide, Wide],
        last: int,
    ) -> None:
        self.name, self.last = name, last
        self.unit, self.tick, self.quantum = units
        self.ticks, self.starts, self.rises = arrays
        self._complete = None
        self._lists: Dict[str, List[int]] = {}
        self._pieces: Optional[Tuple[Array, Wide]] = None
        self._ends: Optional[Wide] = None

    def _list(self, name: str, made: Callable[[], List[int]]) -> List[int]:
        if name not in self._lists:
            self._lists[name] = made()
        return self._lists[name]

    @property  # type: ignore[override]
    def times(self) -> List[int]:
        return self._list("times", self.ticks.tolist)

    @property  # type: ignore[override]
    def values(self) -> List[int]:
        return self._list("values", self.starts.numbers)

    @property  # type: ignore[override]
    def slopes(self) -> List[int]:
        return self._list("slopes", self.rises.numbers)

    def steady(self) -> "ArrayTrajectory":
        series = Series(self.ticks, self.starts)
        kept = steady(series)
        if kept is series:
            return self
        none = Wide([np.zeros(len(kept.ticks), dtype=np.int64)])
        units = self.unit, self.tick, self.quantum
        found = ArrayTrajectory(self.name, units, (kept.ticks, kept.values, none), self.last)
        found._complete = self
        return found

    def place(self, time: Exact) -> int:
        """The place of the piece that holds at a time in ticks."""
        return max(int(np.searchsorted(self.ticks, int(time // 1), "right")) - 1, 0)

    def slope_at(self, time: Exact) -> int:
        return self.rises.number(self.place(time))

    def at(self, time: Exact) -> Exact:
        place = self.place(time)
        return self.starts.number(place) + self.rises.number(place) * (time - int(self.ticks[place]))

    def whole_pieces(self) -> Tuple[Array, Wide]:
        """Of all pieces but the last: lengths in ticks, and by how much the value changes."""
        if self._pieces is None:
            lengths = np.diff(self.ticks)
            self._pieces = lengths, self.rises[:-1] * Wide([lengths])
        return self._pieces

    def ends(self) -> Wide:
        """Of all pieces but the last: the value at the end."""
        if self._ends is None:
            self._ends = self.starts[:-1] + self.whole_pieces()[1]
        return self._ends

    def sampled(self, times: Array) -> Array:
        """The values at times of the model's unit, as floats."""
        ticks = times / float(self.tick)
        places = np.maximum(np.searchsorted(self.ticks, ticks, "right") - 1, 0)
        found = self.starts[places].floats() + self.rises[places].floats() * (ticks - self.ticks[places])
        return found * float(self.unit)


class Follower:
    """The trajectories of states and discrete variables, from rows as arrays."""

    def __init__(self, run: Run, record: Record, rows: Rows) -> None:
        self.run, self.record, self.name, self.trusted = run, record, rows.name, rows.trusted
        self.machine = machine_of(run)
        self.levels = [self.machine.level_below(start) for start in self.machine.starts] + list(self.machine.values)
        overflow = overflow_of(record, run)
        self.last = max(overflow[0] - 1, 0) if overflow else int(record.ticks[-1])

    def line(self, number: int) -> ArrayTrajectory:
        """The trajectory of a state or of a discrete variable."""
        run = self.run
        is_state = number < run.flat.states
        unit = Fraction(1, 2 ** (run.units.state if is_state else run.units.level))
        one = run.flat.variables[number]
        units = unit, Fraction(1, 2**run.units.time), one.quantum if is_state else None
        arrays = self.state(number) if is_state else self.discrete(number)
        inside = arrays[0] <= self.last
        if not inside.all():
            arrays = arrays[0][inside], arrays[1][inside], arrays[2][inside]
        return ArrayTrajectory(one.name, units, arrays, self.last)

    def discrete(self, number: int) -> Tuple[Array, Wide, Wide]:
        record = self.record
        places = np.flatnonzero((record.names == number) & (record.kinds == SET))
        ticks = np.append([0], record.ticks[places])
        values = np.append([self.levels[number]], record.levels[places])
        last = np.append(ticks[1:] != ticks[:-1], True)
        series = changes_of(Series(ticks[last], Wide([values[last]])))
        return series.ticks, series.values, Wide([np.zeros(len(series.ticks), dtype=np.int64)])

    def state(self, number: int) -> Tuple[Array, Wide, Wide]:
        """Ticks, values and slopes of a state. Each own row of the state is compared with them."""
        record, machine = self.record, self.machine
        row = SlopeRow(machine, machine.rows[number])
        events = Events(record, row.reads(), number, self.levels)
        slopes = events.slopes(row, machine)
        ticks = events.ticks
        # (the first event is the start)
        before = running(machine.starts[number], slopes[:-1] * Wide([np.diff(ticks)]))
        values, jumped = before, events.kinds == REINIT
        if jumped.any():
            values, before = events.with_jumps(before, jumped)
        if not self.trusted:
            self.check(events, before, number)
        changed = np.append(True, jumped)
        for part in slopes.parts:
            changed[1:] |= part[1:] != part[:-1]
        # the last event of each tick, if one of its events changes the slope or the value
        ends = np.append(ticks[1:] != ticks[:-1], True)
        if ends.all():
            kept = np.flatnonzero(changed)
        else:
            kept = np.flatnonzero(ends)
            kept = kept[np.diff(np.cumsum(changed)[kept], prepend=0) > 0]
        return ticks[kept], values[kept].joined(), slopes[kept].joined()

    def check(self, events: "Events", before: Wide, number: int) -> None:
        """Each state that a row states is on its trajectory."""
        wrong = ~before[1:].equals(events.states)
        wrong &= (events.names == number) & ((events.kinds == LEVEL) | (events.kinds == END))
        if wrong.any():
            tick = int(events.ticks[1:][wrong][0])
            raise off_trajectory(self.run, self.name, tick, self.run.flat.variables[number].name)


def joined(some: Sequence[Wide]) -> Wide:
    from .wide import joined_all

    return joined_all(some)


class Events:
    """The rows that change the slope of a state, and its own ones. The ticks begin with that of the start."""

    def __init__(self, record: Record, reads: Any, number: int, levels: Sequence[int]) -> None:
        kinds, names = record.kinds, record.names
        # (the number of a row of a branch is not that of a variable)
        is_level = (kinds == LEVEL) | (kinds == SET)
        is_read = np.zeros(max(len(levels), int(names.max()) + 1 if len(names) else 0) + 1, dtype=bool)
        is_read[list(reads)] = True
        chosen = is_read[names] & is_level
        chosen |= (names == number) & ((kinds == LEVEL) | (kinds == REINIT) | (kinds == END))
        places = slice(None) if chosen.all() else np.flatnonzero(chosen)
        self.ticks = np.append(0, record.ticks[places])
        self.kinds, self.names, self.levels = kinds[places], names[places], record.levels[places]
        self.is_level = is_level[places]
        assert record.states is not None
        self.states = record.states[places]
        self.first = levels

    def filled(self, number: int) -> Array:
        """The level of a variable at the start and after each event."""
        places = np.flatnonzero((self.names == number) & self.is_level)
        counts = np.diff(places, prepend=-1, append=len(self.names))
        return np.repeat(np.append([self.first[number]], self.levels[places]), counts)

    def slopes(self, row: SlopeRow, machine: Machine) -> Wide:
        """The slope at the start and after each event."""
        gains = dict(row.row.states)
        switched = sorted({state for _, state, _ in row.row.products})
        fixed = [(state, gain) for state, gain in gains.items() if state not in switched]
        fixed += [(machine.states + place, gain) for place, gain in row.row.discretes]
        levels = Wide([self.levels]).bound() | max([abs(level) for level in self.first], default=0)
        weights = sum(abs(gain) for _, gain in fixed)
        of_switched = []
        for state in switched:
            gain_of = self.switched_gain(row, machine, state, gains.get(state, 0))
            weights += Wide([gain_of]).bound()
            of_switched.append((state, gain_of))
        if (weights * levels + abs(row.row.constant)).bit_length() <= SMALL:
            found = np.full(len(self.ticks), row.row.constant, dtype=np.int64)
            for number, factor in fixed + of_switched:
                found += self.filled(number) * factor
            return Wide([found])
        total = Wide([np.zeros(len(self.ticks), dtype=np.int64)]) + row.row.constant
        for number, factor in fixed + of_switched:
            weight = Wide([factor]) if isinstance(factor, np.ndarray) else factor
            total = total + Wide([self.filled(number)]) * weight
        return total.trimmed()

    def switched_gain(self, row: SlopeRow, machine: Machine, state: int, base: int) -> Array:
        """The mode coefficient of a state at the start and after each event."""
        terms = [(discrete, weight) for discrete, one, weight in row.row.products if one == state]
        which, values = np.zeros(len(self.ticks), dtype=np.int64), []
        for discrete, _ in terms:
            known, places = np.unique(self.filled(machine.states + discrete), return_inverse=True)
            values.append(known.tolist())
            which = which * len(known) + places
        some, places = np.unique(which, return_inverse=True)
        found = []
        for code in some.tolist():
            sum_of = 0
            for known, (_, weight) in zip(reversed(values), reversed(terms)):
                code, place = divmod(code, len(known))
                sum_of += weight * known[place]
            found.append(base + nearest(sum_of, 2**machine.level_bits))
        return np.array(found, dtype=np.int64)[places]

    def with_jumps(self, before: Wide, jumped: Array) -> Tuple[Wide, Wide]:
        """The values at the start and after each event, and those just before it, where the state is set at some."""
        places = np.flatnonzero(jumped) + 1
        counts = np.diff(np.concatenate([[0], places, [len(self.ticks)]]))
        shifts = self.states[places - 1] - before[places]
        after = joined([Wide([np.zeros(1, dtype=np.int64)]), shifts])
        earlier = np.diff(np.concatenate([[0], places + 1, [len(self.ticks)]]))
        return before + after.repeated(counts), before + after.repeated(earlier)


def sum_of_lines(run: Run, one: Combination, lines: Mapping[int, ArrayTrajectory], tick: Fraction) -> ArrayTrajectory:
    """The trajectory of an algebraic variable, from those of its states and discrete variables."""
    from .series import merged

    needed = {number: lines[number] for number in sorted(one.needs())}
    ticks = merged([np.zeros(1, dtype=np.int64)] + [line.ticks for line in needed.values()])
    values, after = {}, {}
    for number, line in needed.items():
        places = np.maximum(np.searchsorted(line.ticks, ticks, "right") - 1, 0)
        rises = line.rises[places]
        values[number] = line.starts[places] + rises * Wide([ticks - line.ticks[places]])
        after[number] = values[number] + rises
    none = Wide([np.zeros(len(ticks), dtype=np.int64)])
    starts = (none + one.total(values)).trimmed()
    rises = ((none + one.total(after)) - starts).trimmed()
    last = min((line.last for line in needed.values()), default=run.last)
    return ArrayTrajectory(one.name, (one.unit, tick, None), (ticks, starts, rises), last)


def array_trajectories(
    run: Run, rows: Rows, numbers: Sequence[int], sums: Mapping[int, Combination], all_values: bool
) -> Tuple[List[Trajectory], Optional[Tuple[int, str]]]:
    """The trajectories of these variables, and the tick and the name of an overflow or None."""
    states = {number for number in numbers if number not in sums}.union(*(one.needs() for one in sums.values()))
    machine = machine_of(run)
    wanted = set(states)
    for number in states:
        if number < machine.states:
            wanted |= SlopeRow(machine, machine.rows[number]).reads()
    record = record_of(rows, wanted, True)
    follower = Follower(run, record, rows)
    lines = {number: follower.line(number) for number in sorted(states)}

    def total(one: Combination, some: Mapping[int, ArrayTrajectory]) -> ArrayTrajectory:
        found = sum_of_lines(run, one, some, Fraction(1, 2**run.units.time))
        found.last = follower.last
        return found

    found = with_sums(lines, sums, total, machine.states)
    chosen = [found[number].complete if all_values else found[number] for number in numbers]
    return chosen, overflow_of(record, run)
