"""The exact difference of two runs. Both are piecewise linear, so it is largest at a point of one of them."""
import argparse
import sys
from fractions import Fraction
from math import gcd
from typing import Iterator, List, Optional, Sequence, Tuple

from ..fault import Fault
from ..runs.columns import chosen
from ..runs.rows import Rows, Run, lines_of
from ..runs.curves import trajectories
from ..runs.trajectories import Exact, Trajectory
from ..tables.measure import number_of
from .curves import Curve
from .drawing import Drawing


class Difference:
    """A variable of one run minus that of another run, over the time that both have."""

    def __init__(self, one: Trajectory, other: Trajectory) -> None:
        self.name, self.quantum = one.name, one.quantum
        self.tick = common(one.tick, other.tick)
        parts = [int(line.tick / self.tick) for line in (one, other)]
        self.unit = common(one.unit / parts[0], other.unit / parts[1])
        self.lines = [Scaled(line, part, int(line.unit / self.unit)) for line, part in zip((one, other), parts)]
        self.last = min(line.last for line in self.lines)
        self.points = list(self._points())

    def _points(self) -> Iterator[Tuple[int, int]]:
        """The points (time, value) of the difference in its units, two at a time where it jumps."""
        one, other = self.lines
        times = sorted({self.last}.union(one.times, other.times))
        last = slope = value = 0
        for time in times:
            if time > self.last:
                return
            arrived = value + slope * (time - last)
            one.go(time)
            other.go(time)
            last, slope, value = time, one.slope - other.slope, one.value - other.value
            if time and arrived != value:
                yield time, arrived
            yield time, value

    def largest(self, begin: Optional[Exact] = None, end: Optional[Exact] = None) -> Tuple[Fraction, Fraction]:
        """The time and the value where the difference is largest in size between two times, in the model's units."""
        begin = Fraction(0) if begin is None else Fraction(begin) / self.tick
        end = Fraction(self.last) if end is None else Fraction(end) / self.tick
        time, value = largest_of(self.points, begin, end)
        return time * self.tick, value * self.unit

    @property
    def time(self) -> float:
        """The time of the largest difference."""
        return float(self.largest()[0])

    @property
    def value(self) -> float:
        """The largest difference."""
        return float(self.largest()[1])

    @property
    def quanta(self) -> float:
        """The size of the largest difference in quanta of the first run; of a discrete variable the size itself."""
        size = abs(self.largest()[1])
        return float(size / self.quantum) if self.quantum else float(size)

    def curve(self) -> Tuple[List[float], List[float]]:
        """The times and the values as floats."""
        tick, unit = float(self.tick), float(self.unit)
        return [float(time) * tick for time, _ in self.points], [float(value) * unit for _, value in self.points]

    def __repr__(self) -> str:
        return "<%s: %g at %g%s>" % (
            self.name,
            self.value,
            self.time,
            ", %.3g quanta" % self.quanta if self.quantum else "",
        )


class Scaled:
    """A trajectory that is followed in finer units: each tick has parts, and each value is multiplied by a weight."""

    def __init__(self, line: Trajectory, part: int, weight: int) -> None:
        self.times = [time * part for time in line.times]
        self.values = [value * weight for value in line.values]
        self.slopes = [slope * weight // part for slope in line.slopes]
        self.last = line.last * part
        self.place = 0
        self.value, self.slope = self.values[0], self.slopes[0]

    def go(self, time: int) -> None:
        """Advances to a time."""
        place = self.place
        while place + 1 < len(self.times) and self.times[place + 1] <= time:
            place += 1
        self.place, self.slope = place, self.slopes[place]
        self.value = self.values[place] + self.slope * (time - self.times[place])


def common(one: Fraction, other: Fraction) -> Fraction:
    """The largest unit of which two units are whole numbers."""
    above = gcd(one.numerator * other.denominator, other.numerator * one.denominator)
    return Fraction(above, one.denominator * other.denominator)


def largest_of(points: Sequence[Tuple[int, int]], begin: Fraction, end: Fraction) -> Tuple[Fraction, Fraction]:
    """The point (time, value) where a curve of points is largest in size between two times."""
    found: List[Tuple[Fraction, Fraction]] = []
    last: Optional[Tuple[int, int]] = None
    for time, value in points:
        for edge in (begin, end):
            if last is not None and last[0] < edge < time:
                found.append((edge, last[1] + (value - last[1]) * (edge - last[0]) / (time - last[0])))
        if begin <= time <= end:
            found.append((Fraction(time), Fraction(value)))
        last = time, value
    return max(found, key=lambda point: abs(point[1]), default=(begin, Fraction(0)))


def fill(drawing: Drawing, begin: Optional[Fraction], end: Optional[Fraction]) -> None:
    """Gives the panels of a picture the differences of its two runs, and prints the largest one of each variable."""
    args = drawing.args
    if not (args.over or args.over_rule or args.over_model):
        raise Fault("--difference needs a second run: --over, --over-rule or --over-model")
    if args.against or args.events:
        raise Fault("--difference goes without --against and --events")
    numbers = {label: numbers_of(drawing.run, label) for label, _ in drawing.panels}
    wanted = list(dict.fromkeys(number for some in numbers.values() for number in some))
    ones = lines_of_run(drawing.run, args, wanted)
    model = args.over_model or args.model
    run = Run(model, drawing.run.program)
    names = [drawing.run.flat.variables[number].name for number in wanted]
    second = argparse.Namespace(
        model=model, rows=args.over, rule=args.over_rule, relative=args.relative, order=args.order
    )
    others = lines_of_run(run, second, [number_of(run, name) for name in names])
    found = {number: Difference(*pair) for number, pair in zip(wanted, zip(ones, others))}
    for label, curves in drawing.panels:
        for number in numbers[label]:
            curves.append((curve_of(drawing, found[number]), False))
    for one in found.values():
        time, value = one.largest(begin, end)
        quanta = ", %.3g quanta" % float(abs(value) / one.quantum) if one.quantum else ""
        unit = drawing.unit_of(one.name)
        print(
            "%s: largest difference %.9g%s at time %.9g%s"
            % (one.name, float(value), " " + unit if unit else "", float(time), quanta),
            file=sys.stderr if drawing.path == "-" else sys.stdout,
        )


def numbers_of(run: Run, label: str) -> List[int]:
    """The numbers of the variables of a panel."""
    return [number for part in label.split("+") for number in chosen(run, part.strip())]


def lines_of_run(run: Run, args: argparse.Namespace, numbers: Sequence[int]) -> List[Trajectory]:
    """The trajectories of these variables in a run, which may overflow: then they end there."""
    with lines_of(args, run) as (lines, name):
        return trajectories(run, Rows(run, lines, name), numbers)[0]


def curve_of(drawing: Drawing, difference: Difference) -> Curve:
    """A difference as a curve of a picture."""
    curve = Curve(difference.name, drawing.width, *drawing.ticks(drawing.run))
    scale = difference.tick * 2**drawing.run.units.time
    before: Optional[float] = None
    for time, value in difference.points:
        at, size = float(time * scale), float(value * difference.unit)
        if before is None or at == before:
            curve.take(at, size)
        else:
            curve.line_to(at, size)
        before = at
    assert before is not None
    curve.finish(before)
    return curve
