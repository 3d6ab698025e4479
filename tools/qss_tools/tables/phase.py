"""Tells a ripple that is out of phase from an error, by measures that do not depend on the phase.

A hysteresis controller of a run switches a little earlier or later than that of the solution. After many periods the
two ripples are out of phase, and the greatest difference is as large as the ripple. Mean, root mean square, ripple and
period still agree.
"""
import math
from dataclasses import dataclass
from typing import Dict, List, Optional, Sequence, Tuple

Event = Tuple[float, str]  # a time and the branch that fired

APART = 0.01  # of a state's size: with less no phase is looked for
PART = 1 / 3  # of the greatest difference that the measures may have
EDGE = 50  # the ripple leaves out one in this many samples at each end
GOLDEN = (math.sqrt(5) - 1) / 2
MOST_SAMPLES = 4001


@dataclass(frozen=True)
class Phase:
    """The measures of a state in a run and in the solution, and the state's size."""

    name: str
    here: Tuple[float, float, float]  # mean, root mean square, ripple
    there: Tuple[float, float, float]
    size: float
    periods: Optional[Tuple[float, float]]

    @property
    def share(self) -> float:
        """The greatest difference of the measures, relative to the state's size."""
        return max(abs(one - other) for one, other in zip(self.here, self.there)) / self.size if self.size else 0.0

    def text(self) -> str:
        """The sentence for a model."""
        pairs = [f"{one:.6g} for {other:.6g}" for one, other in zip(self.here, self.there)]
        text = "of %s the mean is %s, the root mean square %s and the ripple %s" % (self.name, *pairs)
        if self.periods is not None:
            text += ", and the period is %.6g for %.6g" % self.periods
        return text


def irregular(stop: float) -> List[float]:
    """Times that meet no period again and again, in the second half of a run."""
    return [stop * (0.5 + 0.5 * (place + place * GOLDEN % 1) / MOST_SAMPLES) for place in range(MOST_SAMPLES)]


def measures(values: Sequence[float]) -> Tuple[float, float, float]:
    """Mean, root mean square and ripple of samples."""
    ordered, count = sorted(values), len(values)
    mean = math.fsum(values) / count
    square = math.sqrt(math.fsum(value * value for value in values) / count)
    return mean, square, ordered[count - 1 - count // EDGE] - ordered[count // EDGE]


def period(fired: Sequence[Event]) -> Optional[float]:
    """The mean time between two firings of the branch that fires most, or None."""
    times: Dict[str, List[float]] = {}
    for time, label in fired:
        times.setdefault(label, []).append(time)
    most: List[float] = max(times.values(), key=len, default=[])
    return (most[-1] - most[0]) / (len(most) - 1) if len(most) > 2 else None
