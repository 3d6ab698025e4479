"""The points of a sweep: grids of values and seeded random samples."""
import itertools
import random
import re
from decimal import Decimal
from fractions import Fraction
from statistics import NormalDist
from typing import Iterator, List, Optional, Sequence, Tuple

from ..fault import Fault
from ..model.changes import assignments, value_text
from ..model.spelling import MOST_PLACES

MOST_POINTS = 1000000
DIGITS = 9  # significant ones of a random value
DRAW = re.compile(r"^(uniform|normal|tolerance)\s*\(([^()]*),([^()]*)\)$")


class Axis:
    """The values of one name: a list, or draws of a distribution."""

    def __init__(self, name: str, text: str) -> None:
        self.name = name
        self.values: List[str] = []
        self.draw: Optional[Tuple[str, Fraction, Fraction]] = None  # of random values
        match = DRAW.match(text)
        if match:
            self.draw = match.group(1), self.number(match.group(2)), self.number(match.group(3))
            if self.draw[2] < 0 or self.draw[0] == "uniform" and self.draw[1] > self.draw[2]:
                raise Fault("--set %s: '%s' has no values" % (name, text))
        elif ":" in text:
            self.values = self.steps(text)
        else:
            self.values = [self.one(part) for part in text.split(",")]

    def number(self, text: str) -> Fraction:
        """An exact number; 5% is 0.05."""
        text = text.strip()
        try:
            return Fraction(text[:-1]) / 100 if text.endswith("%") else Fraction(text)
        except (ValueError, ZeroDivisionError) as error:
            raise Fault("--set %s: '%s' is not a number" % (self.name, text)) from error

    def one(self, text: str) -> str:
        """A value of a list: a number in one spelling, or an expression of the model."""
        if not text.strip():
            raise Fault("--set %s: a value is missing" % self.name)
        try:
            return value_text(Fraction(text))
        except (ValueError, ZeroDivisionError):
            return text.strip()

    def steps(self, text: str) -> List[str]:
        """Values from a first one to a last one, by a step."""
        parts = [self.number(part) for part in text.split(":")]
        if len(parts) != 3 or not parts[2]:
            raise Fault("--set %s: a range is FIRST:LAST:STEP, and its step is not 0" % self.name)
        first, last, step = parts
        count = (last - first) // step + 1
        if not 1 <= count <= MOST_POINTS:
            raise Fault("--set %s: the range %s has %d values" % (self.name, text, max(count, 0)))
        return [value_text(first + place * step) for place in range(count)]

    def drawn(self, seed: int, count: int) -> List[str]:
        """Random values; they depend on the seed, the name and their place only."""
        assert self.draw is not None
        kind, first, second = self.draw
        if kind == "tolerance" and not 0 <= second < 1:
            raise Fault("--set %s: a tolerance is a percentage, as tolerance(10,5%%)" % self.name)
        source = random.Random("%d %s" % (seed, self.name))
        low, high = (
            (first - abs(first * second), first + abs(first * second)) if kind == "tolerance" else (first, second)
        )
        found = []
        for _ in range(count):
            part = source.random()
            if kind == "normal":
                value = float(first) + float(second) * NormalDist().inv_cdf(max(part, 2.0**-53))
            else:
                value = float(low) + (float(high) - float(low)) * part
            found.append(rounded(value))
        return found


def rounded(value: float, digits: int = DIGITS) -> str:
    """A value as a decimal of some digits that the language takes."""
    number = Decimal("%.*e" % (digits - 1, value))
    number = round(number, MOST_PLACES)
    return value_text(Fraction(number))


class Points:
    """All points: each combination of the lists, and of each the samples."""

    def __init__(self, words: Sequence[str], samples: Optional[int] = None, seed: int = 0) -> None:
        self.axes = [Axis(name, text) for name, text in assignments(words).items()]
        self.names = [axis.name for axis in self.axes]
        drawn = [axis for axis in self.axes if axis.draw]
        if drawn and samples is None:
            raise Fault("--set %s: a random value requires --samples" % drawn[0].name)
        if samples is not None and not drawn:
            raise Fault("--samples: no --set has a random value, as uniform(9,11)")
        if samples is not None and not 1 <= samples <= MOST_POINTS:
            raise Fault("--samples: from 1 to %d" % MOST_POINTS)
        self.samples = samples or 1
        self.draws = {axis.name: axis.drawn(seed, self.samples) for axis in drawn}
        self.lists = [axis.values for axis in self.axes if not axis.draw]
        self.count = self.samples
        for values in self.lists:
            self.count *= len(values)
        if self.count > MOST_POINTS:
            raise Fault("the sweep has %d runs, more than %d" % (self.count, MOST_POINTS))

    def __iter__(self) -> Iterator[List[str]]:
        """Each point as a list of texts, in the order of the names; the last list changes first, then the samples."""
        for combination in itertools.product(*self.lists):
            for sample in range(self.samples):
                listed = iter(combination)
                yield [self.draws[axis.name][sample] if axis.draw else next(listed) for axis in self.axes]
