"""Whether the differences that a fit leaves are like independent noise, for which its intervals hold."""
import math
from typing import NamedTuple, Optional, Sequence

from ..tables.measurements import Measured

SMALL = 0.005  # of the range of the measured values: smaller differences are those of the quanta, too
CORRELATED = 0.5  # from this size on, an autocorrelation is strong
SIGNIFICANT = 4.0  # standard deviations of the autocorrelation of noise
MOST_LAGS = 20


class Pattern(NamedTuple):
    """Differences that are not like noise: their autocorrelation, and the number of values between its pairs."""

    variable: str
    correlation: float
    lag: int

    def text(self) -> str:
        apart = "neighbouring values" if self.lag == 1 else "values that are %d apart" % self.lag
        return "%s: the differences of %s have the correlation %.2f" % (self.variable, apart, self.correlation)


def autocorrelation(errors: Sequence[float], lag: int) -> float:
    """The autocorrelation of differences whose mean would be 0."""
    size = math.fsum(one * one for one in errors)
    return math.fsum(one * other for one, other in zip(errors, errors[lag:])) / size if size else 0.0


def pattern(measured: Measured, values: Sequence[float]) -> Optional[Pattern]:
    """The strongest autocorrelation of the differences of a run from measured values, if they are not like noise."""
    pairs = sorted(zip(measured.times, (value - wanted for value, wanted in zip(values, measured.values))))
    errors = [error for _, error in pairs]
    size = max(measured.values) - min(measured.values)
    count = len(errors)
    if not size or math.sqrt(math.fsum(one * one for one in errors) / count) < SMALL * size:
        return None
    least = max(CORRELATED, SIGNIFICANT / math.sqrt(count))
    found = [(autocorrelation(errors, lag), lag) for lag in range(1, min(MOST_LAGS, count // 4) + 1)]
    strong = [(value, lag) for value, lag in found if abs(value) > least]
    if not strong:
        return None
    value, lag = max(strong, key=lambda one: (abs(one[0]), -one[1]))
    return Pattern(measured.variable, value, lag)
