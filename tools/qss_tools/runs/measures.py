"""Measures of a trajectory, weighted by time and exact over its pieces.

A measure returns a value in the model's units: a Fraction if it is rational, or a float if it is a root or a sum of
sines. A window is given by two times in the model's unit of time.
"""
import math
import re
from collections import namedtuple
from fractions import Fraction
from typing import Any, Dict, List, Optional, Sequence, Tuple

from ..fault import Fault
from ..model.number_hints import with_hint
from ..model.units import time_of
from .expressions import split_outside
from .lines import ArrayTrajectory
from .trajectories import Exact, Trajectory
from .window import Window, plain, size
from .windows import ArrayWindow

HARMONICS = 40  # of a distortion, as in IEC 61000
PART = re.compile(r"[\s,;]*([A-Za-z_]\w*)\s*\(")
OPTION = re.compile(r"^(\w+)\s*=\s*(\S.*)$")
TIMES = ("from", "to", "t")  # the options that are times
NUMBER = re.compile(r"\d+(?:[eE][-+]?\d+)?$")

Request = namedtuple("Request", "text name variable options")
Request.__doc__ = "A measure that is asked for: its text, its name, a variable, and options by name."


def window_of(line: Trajectory, begin: Optional[Exact] = None, end: Optional[Exact] = None) -> Window:
    """A window of a trajectory of any kind."""
    if isinstance(line, ArrayTrajectory):
        return ArrayWindow(line, begin, end)
    return Window(line, begin, end)


def complete(window: Window) -> Window:
    """The same window of the trajectory with all values. Averages count the values that hold for one tick only, too."""
    line = window.line.complete
    return window if line is window.line else window_of(line, window.begin * line.tick, window.end * line.tick)


# the measures


def minimum(window: Window) -> Fraction:
    return window.value(window.bounds()[0])


def maximum(window: Window) -> Fraction:
    return window.value(window.bounds()[1])


def ripple(window: Window) -> Fraction:
    """The greatest value less the least one (peak to peak)."""
    least, greatest = window.bounds()
    return window.value(greatest - least)


def start(window: Window) -> Fraction:
    return window.value(window.first())


def final(window: Window) -> Fraction:
    return window.value(window.last())


def at(window: Window, t: Exact) -> Fraction:
    """The value at a time."""
    ticks = plain(Fraction(t) / window.line.tick)
    if not 0 <= ticks <= window.line.last:
        raise Fault("at(%s): the time %s is not within the run" % (window.line.name, float(t)))
    return window.value(window.line.at(ticks))


def integral(window: Window) -> Fraction:
    """The integral over time."""
    return window.value(Fraction(complete(window).twice_area()) / 2) * window.line.tick


def mean(window: Window) -> Fraction:
    length = window.length()
    return window.value(Fraction(complete(window).twice_area()) / (2 * length))


def mean_square(window: Window) -> Fraction:
    """The mean of the square."""
    return Fraction(complete(window).thrice_square()) / (3 * window.length()) * window.line.unit**2


def rms(window: Window) -> float:
    """The root of the mean of the square."""
    return root(mean_square(window))


def root(value: Fraction) -> float:
    """The square root of a fraction of any size."""
    shift = (value.denominator.bit_length() - value.numerator.bit_length() + 128) // 2
    shift = max(shift, 0)
    return math.isqrt((value.numerator << (2 * shift)) // value.denominator) / (1 << shift)


def steps(window: Window, initial: Optional[Exact], final_value: Optional[Exact]) -> Tuple[Exact, Exact, bool]:
    """The values between which a step goes, and whether it goes upward."""
    low = window.first() if initial is None else window.number(initial)
    high = window.last() if final_value is None else window.number(final_value)
    if low == high:
        raise Fault("%s does not step: it begins and ends at %g" % (window.line.name, float(window.value(low))))
    return low, high, high > low


def rise(
    window: Window,
    low: Exact = Fraction(1, 10),
    high: Exact = Fraction(9, 10),
    initial: Optional[Exact] = None,
    final: Optional[Exact] = None,
) -> Fraction:
    """The time from 10 % to 90 % of the step from the first value of the window to the last one."""
    begin, end, upward = steps(window, initial, final)
    first = window.reaches(begin + low * (end - begin), upward)
    last = None if first is None else window.reaches(begin + high * (end - begin), upward, first)
    if first is None or last is None:
        raise Fault(
            "%s does not reach %g %% of its step" % (window.line.name, float(100 * (low if first is None else high)))
        )
    return window.time(last - first)


def overshoot(window: Window, initial: Optional[Exact] = None, final: Optional[Exact] = None) -> Fraction:
    """How far the value passes the last one, relative to the step from the first one."""
    begin, end, upward = steps(window, initial, final)
    least, greatest = window.bounds()
    return max(Fraction((greatest if upward else least) - end) / (end - begin), Fraction(0))


def settling(
    window: Window, band: Exact = Fraction(1, 50), initial: Optional[Exact] = None, final: Optional[Exact] = None
) -> Fraction:
    """The time from which on the value stays within a band around the last one; the band is relative to the step."""
    begin, end, _ = steps(window, initial, final)
    room = size(end - begin) * Fraction(band)
    if size(window.last() - end) > room:
        raise Fault("%s does not settle: it ends at %g" % (window.line.name, float(window.value(window.last()))))
    outside = window.last_outside(end, room)
    if outside is None:
        return Fraction(0)
    low, one, settled, other = outside
    if size(other - end) <= room:
        edge = end + room if one > end else end - room
        settled = low + Fraction(edge - one) / (other - one) * (settled - low)
    return window.time(settled - window.begin)


def threshold(window: Window, level: Optional[Exact]) -> Exact:
    """The level of crossings: given, or half way between the least and the greatest value."""
    if level is not None:
        return window.number(level)
    least, greatest = window.bounds()
    if least == greatest:
        raise Fault("%s does not switch: it is %g" % (window.line.name, float(window.value(least))))
    return Fraction(least + greatest) / 2


def count(window: Window, level: Optional[Exact] = None) -> Fraction:
    """How often the value comes to be at the level or above it."""
    return Fraction(len(window.crossings(threshold(window, level))[0]))


def whole_periods(window: Window, level: Exact) -> Tuple[Exact, Exact, int]:
    """The first and the last time in ticks at which the level is crossed upward, and how many periods lie between."""
    rising, _ = window.crossings(level)
    if len(rising) < 2:
        raise Fault(
            "%s crosses its level upward %s: there is no period" % (window.line.name, "once" if rising else "never")
        )
    return rising[0], rising[-1], len(rising) - 1


def period(window: Window, level: Optional[Exact] = None) -> Fraction:
    """The mean time between two upward crossings of the level."""
    first, last, periods = whole_periods(window, threshold(window, level))
    return window.time(Fraction(last - first) / periods)


def frequency(window: Window, level: Optional[Exact] = None) -> Fraction:
    return 1 / period(window, level)


def duty(window: Window, level: Optional[Exact] = None) -> Fraction:
    """The fraction of time at the level or above it, over the whole periods, or over the window if there is none."""
    level = threshold(window, level)
    window = complete(window)
    rising, falling = window.crossings(level)
    begin, end = (rising[0], rising[-1]) if len(rising) > 1 else (window.begin, window.end)
    if begin == end:
        raise Fault("%s: the window has no length" % window.line.name)
    above: Exact = 0
    since = begin if window.line.at(begin) >= level or begin in rising else None
    for time, up in sorted([(time, True) for time in rising] + [(time, False) for time in falling]):
        if not begin <= time <= end:
            continue
        if up:
            since = time if since is None else since
        elif since is not None:
            above, since = above + time - since, None
    if since is not None:
        above += end - since
    return Fraction(above) / (end - begin)


def amplitudes(window: Window, f: Exact, harmonics: Sequence[int]) -> List[float]:
    """The amplitudes of some harmonics of a frequency, over the last whole periods."""
    ticks = 1 / (Fraction(f) * window.line.tick) if f else Fraction(0)
    if ticks <= 0:
        raise Fault("f: '%s' is not above 0" % f)
    periods = window.length() // ticks
    if periods < 1:
        raise Fault("%s: the window is shorter than a period of the frequency %g" % (window.line.name, float(f)))
    begin = plain(window.end - periods * ticks)
    span = float(periods * ticks)
    sums = complete(window).spectrum(begin, 2 * math.pi / float(ticks), harmonics)
    return [abs(one) / span * (2 if number else 1) for one, number in zip(sums, harmonics)]


def harmonic(window: Window, f: Exact, n: Exact = 1) -> float:
    """The amplitude of a harmonic of the frequency f, over the last whole periods of the window."""
    n = int(n)
    if not 0 <= n <= 1000:
        raise Fault("n: from 0 to 1000")
    return amplitudes(window, f, [n])[0]


def thd(window: Window, f: Exact, n: Exact = HARMONICS) -> float:
    """The total harmonic distortion: the root of the sum of the squares of the harmonics 2 to n, over the first."""
    n = int(n)
    if not 2 <= n <= 1000:
        raise Fault("n: from 2 to 1000")
    found = amplitudes(window, f, range(1, n + 1))
    if not found[0]:
        raise Fault("%s has no fundamental at the frequency %g" % (window.line.name, float(f)))
    return math.sqrt(sum(one * one for one in found[1:])) / found[0]


VALUE, TIME, SHARE, OTHER = "value", "time", "share", "other"

Measure = namedtuple("Measure", "function options kind")
Measure.__doc__ = "A measure: its function, the names of its options, and what it measures: a value, a time or a share."

MEASURES = {
    "mean": Measure(mean, (), VALUE),
    "rms": Measure(rms, (), VALUE),
    "min": Measure(minimum, (), VALUE),
    "max": Measure(maximum, (), VALUE),
    "ripple": Measure(ripple, (), VALUE),
    "start": Measure(start, (), VALUE),
    "final": Measure(final, (), VALUE),
    "at": Measure(at, ("t",), VALUE),
    "integral": Measure(integral, (), OTHER),
    "rise": Measure(rise, ("low", "high", "initial", "final"), TIME),
    "overshoot": Measure(overshoot, ("initial", "final"), SHARE),
    "settling": Measure(settling, ("band", "initial", "final"), TIME),
    "count": Measure(count, ("level",), OTHER),
    "period": Measure(period, ("level",), TIME),
    "frequency": Measure(frequency, ("level",), OTHER),
    "duty": Measure(duty, ("level",), SHARE),
    "harmonic": Measure(harmonic, ("f", "n"), VALUE),
    "thd": Measure(thd, ("f", "n"), SHARE),
}
NEEDED = {"at": "t", "thd": "f", "harmonic": "f"}


def requests(text: str, unit: str = "s") -> List[Request]:
    """The measures that a text asks for, as 'mean(iL) ripple(uC, from=4ms)'. The unit is the model's unit of time."""
    found: List[Request] = []
    at_place = 0
    while text[at_place:].strip(" \t\r\n,;"):
        match = PART.match(text, at_place)
        end = closing(text, match.end()) if match else None
        if match is None or end is None:
            raise Fault("'%s' is not a measure: write NAME(VARIABLE), as mean(iL)" % text[at_place:].strip(" \t\r\n,;"))
        found.append(request(match.group(1), split_outside(text[match.end() : end], ","), unit))
        at_place = end + 1
    if not found:
        raise Fault("no measure is given (measures: %s)" % ", ".join(MEASURES))
    return found


def closing(text: str, begin: int) -> Optional[int]:
    """The place of the parenthesis that closes what begins here, or None."""
    depth = 1
    for place in range(begin, len(text)):
        depth += (text[place] == "(") - (text[place] == ")")
        if not depth:
            return place
    return None


def request(name: str, parts: Sequence[str], unit: str) -> Request:
    """One measure: its variable comes first, and then its options."""
    if name not in MEASURES:
        raise Fault("there is no measure '%s' (measures: %s)" % (name, ", ".join(MEASURES)))
    variable = parts[0]
    options: Dict[str, Fraction] = {}
    if not variable or "=" in variable:
        raise Fault("%s: the variable is missing: write %s(VARIABLE)" % (name, name))
    for part in parts[1:]:
        match = OPTION.match(part)
        allowed = ("from", "to") + MEASURES[name].options
        if match is None or match.group(1) not in allowed or match.group(1) in options:
            has = ", ".join(one + "=" for one in allowed)
            comma = ": a decimal point is '.', and not ','" if NUMBER.match(part) and options else ""
            raise Fault("%s: '%s' is not an option%s (options: %s)" % (name, part, comma, has))
        options[match.group(1)] = option_value(name, match.group(1), match.group(2), unit)
    if NEEDED.get(name, "from") not in options and name in NEEDED:
        raise Fault("%s needs %s=" % (name, NEEDED[name]))
    return Request("%s(%s)" % (name, ", ".join(parts)), name, variable, options)


def option_value(name: str, option: str, text: str, unit: str) -> Fraction:
    """The value of an option of a measure: a number, or a time with its unit."""
    try:
        return Fraction(text)
    except (ValueError, ZeroDivisionError) as error:
        if option in TIMES:
            return time_of(text, unit, "%s: %s=" % (name, option))
        raise Fault(with_hint("%s: %s='%s' is not a number" % (name, option, text), text)) from error


def measured(asked: Request, line: Trajectory) -> Any:
    """The value of a measure of a trajectory."""
    options = dict(asked.options)
    window = window_of(line, options.pop("from", None), options.pop("to", None))
    return MEASURES[asked.name].function(window, **options)
