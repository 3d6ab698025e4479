"""A trajectory between two times: its pieces, its areas, its bounds and its crossings."""
import cmath
from fractions import Fraction
from typing import Iterable, Iterator, List, Optional, Sequence, Tuple

from ..fault import Fault
from .trajectories import Exact, Trajectory

Piece = Tuple[Exact, Exact, Exact, Exact]  # the first time, the value there, the last time, the value there


def plain(value: Fraction) -> Exact:
    """A whole number where a fraction is one: its arithmetic is faster."""
    return value.numerator if value.denominator == 1 else value


def size(value: Exact) -> Exact:
    """The absolute value."""
    return value if value >= 0 else -value


class Window:
    """A trajectory between two times."""

    def __init__(self, line: Trajectory, begin: Optional[Exact] = None, end: Optional[Exact] = None) -> None:
        self.line = line
        scale = 1 / line.tick
        self.begin = plain(Fraction(0) if begin is None else Fraction(begin) * scale)
        self.end = plain(Fraction(line.last) if end is None else Fraction(end) * scale)
        if self.begin > self.end:
            times = float(self.begin * line.tick), float(self.end * line.tick)
            raise Fault("%s: the window begins at %s, after its end at %s" % (line.name, *times))
        if not 0 <= self.begin <= self.end <= line.last:
            raise Fault(
                "%s: the window from %s to %s is not within the run, which ends at %s"
                % (line.name, float(self.begin * line.tick), float(self.end * line.tick), float(line.last * line.tick))
            )

    def pieces(self) -> Iterator[Piece]:
        return self.line.pieces(self.begin, self.end)

    def twice_area(self) -> Exact:
        """Twice the integral, in ticks and numbers."""
        return self.twice_area_of(self.pieces())

    @staticmethod
    def twice_area_of(pieces: Iterable[Piece]) -> Exact:
        return sum((one + other) * (high - low) for low, one, high, other in pieces)

    def thrice_square(self) -> Exact:
        """Three times the integral of the square."""
        return self.thrice_square_of(self.pieces())

    @staticmethod
    def thrice_square_of(pieces: Iterable[Piece]) -> Exact:
        return sum((one * (one + other) + other * other) * (high - low) for low, one, high, other in pieces)

    def length(self) -> Exact:
        """The length in ticks."""
        if self.begin == self.end:
            raise Fault("%s: the window has no length" % self.line.name)
        return self.end - self.begin

    def value(self, number: Exact) -> Fraction:
        """A number of the trajectory in the model's unit."""
        return Fraction(number) * self.line.unit

    def time(self, ticks: Exact) -> Fraction:
        """A length of time in the model's unit."""
        return Fraction(ticks) * self.line.tick

    def number(self, value: Exact) -> Exact:
        """A value of the model's unit as a number of the trajectory."""
        return plain(Fraction(value) / self.line.unit)

    def first(self) -> Exact:
        return self.line.at(self.begin)

    def last(self) -> Exact:
        return self.line.at(self.end)

    def bounds(self) -> Tuple[Exact, Exact]:
        """The least and the greatest value."""
        least = greatest = self.first()
        for _, one, _, other in self.pieces():
            low, high = (one, other) if one <= other else (other, one)
            if low < least:
                least = low
            if high > greatest:
                greatest = high
        return least, greatest

    def reaches(self, level: Exact, upward: bool, begin: Optional[Exact] = None) -> Optional[Exact]:
        """The first time in ticks at which the value is at a level or past it, or None."""
        sign = 1 if upward else -1
        for low, one, high, other in self.line.pieces(self.begin if begin is None else begin, self.end):
            if sign * (one - level) >= 0:
                return low
            if sign * (other - level) >= 0:
                return low + Fraction(level - one) / (other - one) * (high - low)
        return None

    def crossings(self, level: Exact) -> Tuple[List[Exact], List[Exact]]:
        """The times in ticks at which the value comes to be at the level or above it, and those at which it comes to be
        below it.
        """
        rising: List[Exact] = []
        falling: List[Exact] = []
        below: Optional[bool] = None
        for low, one, high, other in self.pieces():
            if below is not None and below != (one < level):
                (rising if below else falling).append(low)
            below = one < level
            if below != (other < level):
                time = low + Fraction(level - one) / (other - one) * (high - low)
                (rising if below else falling).append(time)
                below = not below
        return rising, falling

    def last_outside(self, middle: Exact, room: Exact) -> Optional[Piece]:
        """The last piece that is not wholly within a band, or None."""
        found = None
        for piece in self.pieces():
            if size(piece[1] - middle) > room or size(piece[3] - middle) > room:
                found = piece
        return found

    def spectrum(self, begin: Exact, turn: float, harmonics: Sequence[int]) -> List[complex]:
        """The integrals of the value times exp(-j h turn t), for harmonics h, from a time of the window on."""
        sums = [0j] * len(harmonics)
        unit = float(self.line.unit)
        for low, one, high, other in self.line.pieces(begin, self.end):
            length = float(high - low)
            if not length:
                continue
            value, last = float(one) * unit, float(other) * unit
            slope = (last - value) / length
            step, stop = cmath.exp(-1j * turn * float(low - begin)), cmath.exp(-1j * turn * float(high - begin))
            for place, harmonic in enumerate(harmonics):
                if not harmonic:
                    sums[place] += (value + last) / 2 * length
                    continue
                rate = turn * harmonic
                bend = slope / rate**2
                sums[place] += stop**harmonic * (1j * last / rate + bend) - step**harmonic * (
                    1j * value / rate + bend
                )
        return sums
