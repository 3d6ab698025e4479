"""What a fit varies: parameters and start values within ranges."""
import math
from dataclasses import dataclass
from fractions import Fraction
from typing import Dict, List, Sequence

from ..fault import Fault
from ..model.changes import ASSIGNMENT
from ..model.flat import Flat
from ..model.source import SETTINGS
from ..sweeps.grids import rounded
from ..model.units import time_of

DIGITS = 6  # significant ones of a value: a product of three is not yet too long for the language
SHIFT = "shift"  # of the measured values in time


@dataclass(frozen=True)
class Range:
    """A value that is varied. A place from 0 to 1 denotes a value of the range, also by its logarithm."""

    name: str
    low: float
    high: float
    start: float
    is_logarithmic: bool

    def value(self, place: float) -> float:
        """The value at a place."""
        if self.is_logarithmic:
            return self.low * math.exp(place * math.log(self.high / self.low))
        return self.low + place * (self.high - self.low)

    def place(self, value: float) -> float:
        """The place of a value."""
        if self.is_logarithmic:
            return math.log(value / self.low) / math.log(self.high / self.low)
        return (value - self.low) / (self.high - self.low)

    def text(self, place: float) -> str:
        """The value at a place, as the language takes it."""
        return rounded(min(max(self.value(place), self.low), self.high), DIGITS)


def number(option: str, name: str, text: str) -> float:
    try:
        return float(Fraction(text.strip()))
    except (ValueError, ZeroDivisionError, OverflowError) as error:
        raise Fault("%s %s: '%s' is not a number" % (option, name, text)) from error


def checked(option: str, name: str, low: float, high: float) -> None:
    if not low < high:
        raise Fault("%s %s: the range from %g to %g has no values" % (option, name, low, high))


def ranges_of(words: Sequence[str], flat: Flat) -> List[Range]:
    """The ranges of words NAME=LOW:HIGH or NAME=LOW:HIGH:START."""
    found: Dict[str, Range] = {}
    for word in words:
        match = ASSIGNMENT.match(word)
        parts = match.group(2).split(":") if match else []
        if match is None or len(parts) not in (2, 3):
            raise Fault("--vary: '%s' is not NAME=LOW:HIGH or NAME=LOW:HIGH:START" % word)
        name = match.group(1)
        if name in found:
            raise Fault("--vary: '%s' is given twice" % name)
        low, high = (number("--vary", name, part) for part in parts[:2])
        checked("--vary", name, low, high)
        own = own_value(flat, name)
        start = own if low <= own <= high else middle(low, high)
        if len(parts) == 3:
            start = number("--vary", name, parts[2])
            if not low <= start <= high:
                raise Fault("--vary %s: %g is not within the range from %g to %g" % (name, start, low, high))
        found[name] = Range(name, low, high, start, low > 0)
    return list(found.values())


def middle(low: float, high: float) -> float:
    """The middle of a range; of a positive one the geometric mean."""
    return math.sqrt(low * high) if low > 0 else (low + high) / 2


def own_value(flat: Flat, name: str) -> float:
    """The value that the model has for a parameter or a start value."""
    base, _, part = name.partition(".")
    known = [one for one in flat.model.declarations if one.prefix == "parameter" and not one.whole]
    if name in SETTINGS or part == "QSS_Quantum":
        raise Fault("--vary: '%s' is a setting, and a fit varies parameters and start values" % name)
    if part == "start" and base in flat.shapes:
        return float(flat.starts[flat.shapes[base][0]])
    if part or base not in [one.name for one in known]:
        names = ", ".join(one.name for one in known) or "none"
        raise Fault("--vary: '%s' is no parameter of type Real and no start value (parameters: %s)" % (name, names))
    return float(flat.parameters[base])


def shift_range(text: str, time_unit: str) -> Range:
    """The range of the shift in time, LOW:HIGH with units."""
    parts = text.split(":")
    if len(parts) != 2:
        raise Fault("--vary-shift: '%s' is not LOW:HIGH, as -1ms:1ms" % text)
    low, high = (float(time_of(part, time_unit, "--vary-shift")) for part in parts)
    checked("--vary-shift", SHIFT, low, high)
    start = 0.0 if low <= 0 <= high else (low + high) / 2
    return Range(SHIFT, low, high, start, False)
