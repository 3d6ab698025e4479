"""Windows of trajectories that are arrays: the sums, bounds and crossings that measures need, exact."""
import math
from fractions import Fraction
from typing import Any, Callable, List, Optional, Sequence, Tuple

from ..arrays import load
from .lines import ArrayTrajectory
from .trajectories import Exact
from .wide import Array, square_sum
from .window import Piece, Window, size

np = load()


class ArrayWindow(Window):
    """A window whose first and last pieces are cut, and whose others are slices of arrays."""

    line: ArrayTrajectory

    def __init__(self, line: ArrayTrajectory, begin: Optional[Exact] = None, end: Optional[Exact] = None) -> None:
        super().__init__(line, begin, end)
        self._set(self.begin)

    def _set(self, begin: Exact) -> None:
        """The places of the first and the last piece from a time on."""
        line = self.line
        self.first_place, self.last_place = line.place(begin), line.place(self.end)
        self.inner = slice(self.first_place + 1, self.last_place)
        self.head = self.piece(self.first_place, begin)
        self.tail = self.piece(self.last_place, begin) if self.last_place > self.first_place else None

    def piece(self, place: int, begin: Exact) -> Piece:
        """A piece, cut by the window."""
        line = self.line
        first, value, slope = int(line.ticks[place]), line.starts.number(place), line.rises.number(place)
        low = max(first, begin)
        high = min(int(line.ticks[place + 1]), self.end) if place + 1 < len(line.ticks) else self.end
        return low, value + slope * (low - first), high, value + slope * (high - first)

    def edges(self) -> List[Piece]:
        return [self.head] if self.tail is None else [self.head, self.tail]

    def twice_area(self) -> Exact:
        lengths, moves = self.line.whole_pieces()
        inner = self.inner
        total = super().twice_area_of(self.edges())
        twice = self.line.starts[inner].weighed(lengths[inner]) * 2 + moves[inner].weighed(lengths[inner])
        return total + twice

    def thrice_square(self) -> Exact:
        lengths, moves = self.line.whole_pieces()
        inner = self.inner
        doubled = self.line.starts[inner] * 2 + moves[inner]
        squares = 3 * square_sum(doubled, None, lengths[inner]) + square_sum(moves[inner], None, lengths[inner])
        return super().thrice_square_of(self.edges()) + squares // 4

    def bounds(self) -> Tuple[Exact, Exact]:
        found = [value for _, one, _, other in self.edges() for value in (one, other)]
        if self.last_place - self.first_place > 1:
            for some in (self.line.starts[self.inner], self.line.ends()[self.inner]):
                found += [some.least(), some.greatest()]
        return min(found), max(found)

    def compared(self, array: Callable[[Any], Array], exact: Callable[[Exact], bool]) -> Tuple[Array, Array]:
        """Of each piece, whether its first and its last value meet a condition, of arrays and of numbers."""
        edges = [(exact(one), exact(other)) for _, one, _, other in self.edges()]
        ends = self.line.ends()
        found = []
        for side, values in enumerate((self.line.starts, ends)):
            inside = [array(values[self.inner])] if self.last_place - self.first_place > 1 else []
            first = [np.array([edges[0][side]])]
            last = [np.array([edges[1][side]])] if self.tail is not None else []
            found.append(np.concatenate(first + inside + last))
        return found[0], found[1]

    def piece_at(self, place: int) -> Piece:
        """A piece by its place in the window."""
        if place == 0:
            return self.head
        if place == self.last_place - self.first_place and self.tail is not None:
            return self.tail
        return self.piece(self.first_place + place, self.begin)

    def is_below(self, level: Exact) -> Tuple[Array, Array]:
        limit = math.ceil(level)
        return self.compared(lambda some: some.below(limit), lambda value: value < level)

    def reaches(self, level: Exact, upward: bool, begin: Optional[Exact] = None) -> Optional[Exact]:
        if begin is not None and begin != self.begin:
            later = ArrayWindow(self.line, begin * self.line.tick, self.end * self.line.tick)
            return later.reaches(level, upward)
        if upward:
            one, other = (~some for some in self.is_below(level))
        else:
            limit = math.floor(level) + 1
            one, other = self.compared(lambda some: some.below(limit), lambda value: value <= level)
        places = np.flatnonzero(one | other)
        if not len(places):
            return None
        low, value, high, last = self.piece_at(int(places[0]))
        if one[places[0]]:
            return low
        return low + Fraction(level - value) / (last - value) * (high - low)

    def crossings(self, level: Exact) -> Tuple[List[Exact], List[Exact]]:
        begins, ends = self.is_below(level)
        jumps = (np.flatnonzero(ends[:-1] != begins[1:]) + 1).tolist()
        within = np.flatnonzero(begins != ends).tolist()
        rising: List[Exact] = []
        falling: List[Exact] = []
        for place, inside in sorted([(one, False) for one in jumps] + [(one, True) for one in within]):
            low, value, high, last = self.piece_at(place)
            time = low + Fraction(level - value) / (last - value) * (high - low) if inside else low
            was_below = begins[place] if inside else ends[place - 1]
            (rising if was_below else falling).append(time)
        return rising, falling

    def last_outside(self, middle: Exact, room: Exact) -> Optional[Piece]:
        high, low = math.floor(middle + room) + 1, math.ceil(middle - room)
        one, other = self.compared(
            lambda some: some.at_least(high) | some.below(low), lambda value: size(value - middle) > room
        )
        places = np.flatnonzero(one | other)
        return self.piece_at(int(places[-1])) if len(places) else None

    def spectrum(self, begin: Exact, turn: float, harmonics: Sequence[int]) -> List[complex]:
        """The integrals of the value times exp(-j h turn t), in ticks and units, from a time of the window on."""
        times, one, other = float_pieces(self, begin)
        lengths = np.diff(times)
        kept = lengths > 0
        begins, lengths, one, other = times[:-1][kept], lengths[kept], one[kept], other[kept]
        if not len(begins):
            return [0j for _ in harmonics]
        slopes = (other - one) / lengths
        # what the value and the slope jump by, at the start of each piece and at the end
        steps, bends = np.append(one, 0.0), np.append(slopes, 0.0)
        steps[1:] -= other
        bends[1:] -= slopes
        angle = np.exp(-1j * turn * np.append(begins, times[-1]))
        power, reached, found = np.ones_like(angle), 0, []
        for harmonic in harmonics:
            if not harmonic:
                found.append(complex(np.dot((one + other) / 2, lengths)))
                continue
            power = power * angle if harmonic == reached + 1 else angle**harmonic
            reached, rate = harmonic, turn * harmonic
            found.append(complex(np.dot(power, steps)) * -1j / rate - complex(np.dot(power, bends)) / rate**2)
        return found


def float_pieces(window: ArrayWindow, begin: Exact) -> Tuple[Array, Array, Array]:
    """The pieces from a time on as floats: all times, counted from there, and the values at both ends of each piece."""
    line = window.line
    part = ArrayWindow(line, begin * line.tick, window.end * line.tick)
    unit = float(line.unit)
    edges = part.edges()
    starts = [float(edges[0][1])] if part.tail is None else []
    inner = part.inner
    if part.tail is None:
        low, value, high, last = edges[0]
        times = np.array([float(low - begin), float(high - begin)])
        return times, np.array(starts) * unit, np.array([float(last)]) * unit
    head, tail = edges
    inside = (line.ticks[part.first_place + 1 : part.last_place + 1] - float(begin)).tolist()
    times = np.concatenate([[float(head[0] - begin)], inside, [float(tail[2] - begin)]])
    ones = np.concatenate([[float(head[1])], line.starts[inner].floats(), [float(tail[1])]]) * unit
    others = np.concatenate([[float(head[3])], line.ends()[inner].floats(), [float(tail[3])]]) * unit
    return times, ones, others
