"""The search of a fit: least squares over runs, by scipy.

A run changes in small jumps with a parameter, since its levels are quantized. So a derivative is the difference of two
runs at a distance that is large compared with the jumps, and small compared with the curvature. Nothing of the search
is random: with the same runs it takes the same steps.
"""
import math
from dataclasses import dataclass
from typing import Any, Callable, Iterator, List, NamedTuple, Optional, Sequence, Tuple

from ..fault import Fault
from ..tables.compared import Misfit, misfit
from ..tables.measurements import Measured
from .noise import Pattern, pattern
from .ranges import Range
from .trials import Point, Trial, Trials

FIRST_STEP = 1 / 128  # of a range
WIDER = (1, 1 / 4, 4, 1 / 16, 16, 1 / 64)  # the distances that are tried, as multiples of the last one
STRAIGHT = 0.2  # of the difference of two runs: by so much they may differ from a straight line
END = 1e-4  # of a range
CERTAIN = 0.95  # the probability of an interval
CLOSE, TOTAL = 0.95, 0.998  # a correlation that is reported, and one that leaves two values open

MOST_SEARCHES = 4  # from different points, while the differences are not like noise

Say = Callable[[str], None]


def spread_points(count: int, dimensions: int) -> List[Tuple[float, ...]]:
    """Points that fill a cube evenly: multiples of the powers of a generalized golden ratio."""
    ratio = 2.0
    for _ in range(64):
        ratio = (1 + ratio) ** (1 / (dimensions + 1))
    return [
        tuple((0.5 + number / ratio**place) % 1.0 for place in range(1, dimensions + 1))
        for number in range(1, count + 1)
    ]


@dataclass(frozen=True)
class Estimate:
    """A value that was found, with its interval of 95 %, or None for an end that the data do not determine."""

    name: str
    text: str
    interval: Optional[Tuple[float, float]]
    is_at_end: bool

    def sentence(self, unit: str, is_trusted: bool = True) -> str:
        """The value and its interval, with two digits of the width of the interval. If the differences are not like
        noise, no interval holds.
        """
        if not is_trusted:
            return "%.4g%s%s" % (float(self.text), unit, ", at the end of its range" if self.is_at_end else "")
        if self.interval is None:
            return "%.4g%s, not determined by the data within its range" % (float(self.text), unit)
        low, high = self.interval
        width = (high - low) / 2
        places = max(1 - math.floor(math.log10(width)), 0) if width > 0 else 6
        text = "%.*f%s, 95 %%: %.*f to %.*f" % (places, float(self.text), unit, places, low, places, high)
        return text + (", at the end of its range" if self.is_at_end else "")


class Correlation(NamedTuple):
    """Two values whose errors depend on each other."""

    one: str
    other: str
    value: float

    @property
    def is_total(self) -> bool:
        """Whether the data determine hardly more than a combination of both values."""
        return abs(self.value) > TOTAL

    def text(self) -> str:
        more = ", the data hardly tell them apart" if self.is_total else ""
        return "%s and %s: correlation %.3f%s" % (self.one, self.other, self.value, more)


@dataclass(frozen=True)
class Fit:
    """What a fit found: the values, how far the run is from the data, correlations, differences that are not like
    noise, and the steps of the search.
    """

    estimates: List[Estimate]
    misfits: List[Misfit]
    correlations: List[Correlation]
    patterns: List[Pattern]
    steps: int
    is_ended: bool  # before the search ended by itself

    @property
    def is_sound(self) -> bool:
        """Whether the search ended by itself, what is left is like noise, and the data determine each value within its
        range.
        """
        if self.patterns:
            return False
        are_determined = all(one.interval is not None and not one.is_at_end for one in self.estimates)
        return not self.is_ended and are_determined and not any(one.is_total for one in self.correlations)


class Search:
    """Looks for the places in the ranges at which the runs are nearest to the measured values."""

    def __init__(self, ranges: Sequence[Range], data: Sequence[Measured], trials: Trials, say: Say) -> None:
        import numpy

        self.np = numpy
        self.ranges, self.data, self.trials, self.say = ranges, data, trials, say
        self.wanted = numpy.concatenate([numpy.array(one.values) for one in data])
        sizes = [max(one.values) - min(one.values) or abs(one.values[0]) or 1.0 for one in data]
        self.weights = numpy.concatenate([numpy.full(len(one.values), 1 / size) for one, size in zip(data, sizes)])
        self.distances = [FIRST_STEP] * len(ranges)
        self.steps = 0

    def point(self, places: Sequence[float]) -> Point:
        return tuple(one.text(float(place)) for one, place in zip(self.ranges, places))

    def errors(self, trial: Trial) -> Any:
        """The weighted differences of a run from the measured values, or None."""
        return None if trial.values is None else (trial.values - self.wanted) * self.weights

    def residuals(self, places: Any) -> Any:
        """For scipy: a run that fails has no number, and then a shorter step is tried."""
        found = self.errors(self.trials.at([self.point(places)])[0])
        return self.np.full(len(self.wanted), math.nan) if found is None else found

    def misfits(self, trial: Trial) -> List[Misfit]:
        """How far a run is from the measured values of each variable."""
        return [misfit(one, values) for one, values in self.parts(trial)]

    def patterns(self, trial: Trial) -> List[Pattern]:
        """The variables whose differences are not like noise."""
        found = (pattern(one, values) for one, values in self.parts(trial))
        return [one for one in found if one is not None]

    def parts(self, trial: Trial) -> Iterator[Tuple[Measured, List[float]]]:
        """The measured values of each variable, with those of a run."""
        begin = 0
        for one in self.data:
            yield one, trial.values[begin : begin + len(one.values)].tolist()  # type: ignore[index]
            begin += len(one.values)

    # derivatives

    def jacobian(self, places: Any) -> Any:
        """The derivatives of the weighted differences by the places."""
        self.report(places)
        self.steps += 1
        pairs = [self.pair(places, number, self.distances[number]) for number in range(len(self.ranges))]
        self.trials.at([self.point(places), *(self.point(one) for pair in pairs for one in pair)])
        return self.np.column_stack([self.derivative(places, number) for number in range(len(self.ranges))])

    def pair(self, places: Any, number: int, distance: float) -> Tuple[Any, Any]:
        """Two places below and above these, by a distance in one direction."""
        low, high = (self.np.array(places, dtype=float) for _ in range(2))
        low[number] = max(low[number] - distance, 0.0)
        high[number] = min(high[number] + distance, 1.0)
        return low, high

    def derivative(self, places: Any, number: int) -> Any:
        """The derivative in one direction, by the distance at which three runs are nearest to a straight line."""
        best: Optional[Tuple[float, float, Any]] = None
        for factor in WIDER:
            distance = min(self.distances[number] * factor, 0.25)
            found = self.slope(places, number, distance)
            if found is not None and (best is None or found[0] < best[0]):
                best = found[0], distance, found[1]
            if best is not None and best[0] < STRAIGHT:
                break
        if best is None:
            name, value = self.ranges[number].name, self.point(places)[number]
            raise Fault("no run near %s = %s: %s" % (name, value, self.why(self.pair(places, number, FIRST_STEP))))
        self.distances[number] = best[1]
        return best[2]

    def slope(self, places: Any, number: int, distance: float) -> Optional[Tuple[float, Any]]:
        """How far three runs are from a straight line, relative to their difference, and the derivative."""
        ends = self.pair(places, number, distance)
        low, here, high = (
            self.errors(one) for one in self.trials.at([self.point(it) for it in (ends[0], places, ends[1])])
        )
        if low is None and high is None:
            return None
        length = ends[1][number] - ends[0][number]
        if low is None or high is None:
            low, high = (here if low is None else low), (here if high is None else high)
            length /= 2
        rise = float(self.np.linalg.norm(high - low))
        if not rise:
            return math.inf, (high - low) / length
        is_middle = min(places[number] - ends[0][number], ends[1][number] - places[number]) > 0.9 * distance
        bend = float(self.np.linalg.norm(high + low - 2 * here)) / rise if is_middle else 0.0
        return bend, (high - low) / length

    def why(self, places: Sequence[Any]) -> str:
        """Why there is no run at these places."""
        return next((one.why for one in self.trials.at([self.point(it) for it in places]) if one.values is None), "")

    # the search

    def report(self, places: Any) -> None:
        """A line about a step."""
        values = ", ".join("%s = %.6g" % pair for pair in zip([one.name for one in self.ranges], self.values(places)))
        errors = ", ".join(
            "%s %.3g" % (one.variable, one.rms) for one in self.misfits(self.trials.at([self.point(places)])[0])
        )
        self.say("step %d: %s; rms errors: %s" % (self.steps, values, errors))

    def values(self, places: Any) -> List[float]:
        return [float(text) for text in self.point(places)]

    def starts(self, count: int) -> List[Any]:
        """Some points, the best first: the start values, and points that fill the ranges."""
        own = tuple(one.place(one.start) for one in self.ranges)
        points = [own, *spread_points(count - 1, len(self.ranges))]
        trials = self.trials.at([self.point(one) for one in points])
        sizes = [math.inf if one.values is None else float(self.np.linalg.norm(self.errors(one))) for one in trials]
        order = sorted(range(len(points)), key=lambda place: sizes[place])
        if trials[order[0]].values is None:
            raise Fault("no run at the first %d points: %s" % (len(points), trials[0].why))
        return [self.np.array(points[place]) for place in order if math.isfinite(sizes[place])]

    def found(self, starts: int, most_steps: int) -> Fit:
        """The fit. While the differences that are left are not like noise, the search begins again at a next point."""
        best: Any = None
        for place, start in enumerate(self.starts(starts)[:MOST_SEARCHES]):
            if place:
                self.say("the differences are not like noise: the search begins again at another point")
            result = self.searched(start, most_steps)
            best = result if best is None or result.cost < best.cost else best
            trial = self.trials.at([self.point(best.x)])[0]
            patterns = self.patterns(trial)
            if not patterns:
                break
        spread = self.spread(best.jac, self.errors(trial))
        estimates = [self.estimate(best.x, number, spread) for number in range(len(self.ranges))]
        correlations = self.correlations(spread)
        return Fit(estimates, self.misfits(trial), correlations, patterns, self.steps, best.status == 0)

    def searched(self, start: Any, most_steps: int) -> Any:
        """What least squares find from a point on."""
        from scipy.optimize import least_squares

        self.distances = [FIRST_STEP] * len(self.ranges)
        return least_squares(
            self.residuals,
            self.np.clip(start, 1e-9, 1 - 1e-9),
            jac=self.jacobian,
            bounds=(0.0, 1.0),
            x_scale=1.0,
            ftol=1e-7,
            xtol=1e-6,
            gtol=1e-10,
            max_nfev=most_steps,
        )

    # confidence

    def spread(self, jacobian: Any, errors: Any) -> Optional[Any]:
        """The covariance of the places: each variable has noise of its own size. None if it is not determined."""
        np, count = self.np, len(self.ranges)
        sizes = np.linalg.norm(jacobian, axis=0)
        if len(errors) <= count or not sizes.all():
            return None
        left, values, right = np.linalg.svd(jacobian / sizes, full_matrices=False)
        if values[-1] < 1e-9 * values[0]:
            return None
        inverse = (right.T / values) @ left.T / sizes[:, None]
        found, begin = np.zeros((count, count)), 0
        for one in self.data:
            part = slice(begin, begin + len(one.values))
            freedom = max(len(one.values) * (1 - count / len(errors)), 1e-9)
            found += float(errors[part] @ errors[part]) / freedom * (inverse[:, part] @ inverse[:, part].T)
            begin += len(one.values)
        return found

    def estimate(self, places: Any, number: int, spread: Optional[Any]) -> Estimate:
        """A value with its interval."""
        from scipy.special import stdtrit

        one, place = self.ranges[number], float(places[number])
        text, is_at_end = one.text(place), not END < place < 1 - END
        interval = None
        if spread is not None:
            half = float(stdtrit(len(self.wanted) - len(self.ranges), (1 + CERTAIN) / 2)) * math.sqrt(
                spread[number, number]
            )
            if half < 0.5:  # (else it is as wide as the range)
                interval = one.value(place - half), one.value(place + half)
        return Estimate(one.name, text, interval, is_at_end)

    def correlations(self, spread: Optional[Any]) -> List[Correlation]:
        """The pairs of values whose errors depend on each other."""
        if spread is None:
            return []
        names, found = [one.name for one in self.ranges], []
        for one in range(len(names)):
            for other in range(one):
                size = math.sqrt(spread[one, one] * spread[other, other])
                part = float(spread[one, other]) / size if size else 0.0
                if abs(part) > CLOSE:
                    found.append(Correlation(names[other], names[one], part))
        return found
