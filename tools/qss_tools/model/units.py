"""The units that a source states: those of its variables, and the unit of time. `qss print` leaves them out.

A variable has its unit as `unit = "V"`. The model has its unit of time as `QSS_TimeUnit = "us"` in the annotation
`experiment`, or "1" if its time has no unit. The program ignores both.
"""
import re
from fractions import Fraction
from typing import Dict, Optional

from ..fault import Fault, read_bytes
from .grammar import SyntaxFault, parse
from .number_hints import with_hint
from .source import Source

TIME_UNIT = "QSS_TimeUnit"
NO_UNIT = "1"
# The units of time, in seconds.
SECONDS = {
    "ns": Fraction(1, 10**9),
    "us": Fraction(1, 10**6),
    "ms": Fraction(1, 10**3),
    "s": Fraction(1),
    "min": Fraction(60),
    "h": Fraction(3600),
    "d": Fraction(86400),
}
LENGTH = re.compile(r"^\s*([-+]?[\d./]+(?:[eE][-+]?\d+)?)\s*([^\W\d]*)\s*$")


def read_over(source: Source) -> Dict[str, Dict[str, str]]:
    """The modifications and annotations that the program reads over: by place, each name with its text."""
    found: Dict[str, Dict[str, str]] = {}
    try:
        items = parse(source).read_over
    except SyntaxFault:
        return found
    for item in items:
        words = item.text.split(" = ", 1)
        if len(words) == 2:
            text = words[1].encode("latin-1").decode("utf-8", "replace")
            found.setdefault(item.where, {})[words[0]] = text.strip('"')
    return found


def variable_units(name: str) -> Dict[str, str]:
    """The units that a source gives its variables, by their names."""
    items = read_over(Source(name, read_bytes(name)))
    return {one: texts["unit"] for one, texts in items.items() if texts.get("unit")}


def written_time_unit(source: Source) -> Optional[str]:
    """The unit of time that a source names, or None."""
    unit = read_over(source).get("experiment", {}).get(TIME_UNIT)
    if unit is not None and unit not in SECONDS and unit != NO_UNIT:
        names = ", ".join([*SECONDS, NO_UNIT])
        meant = plain_unit(unit)
        way = ": write %s" % meant if meant in SECONDS else ", and the units of time are %s" % names
        raise Fault("%s: %s is '%s'%s" % (source.name, TIME_UNIT, unit, way))
    return unit


def plain_unit(unit: str) -> str:
    """A unit with u for micro."""
    return unit.strip().replace("\u00b5", "u").replace("\u03bc", "u")


def time_factor(unit: str, model_unit: str) -> Optional[Fraction]:
    """How many of the model's units of time one of this unit is."""
    if unit == model_unit or not unit:
        return Fraction(1)
    return SECONDS[unit] / SECONDS[model_unit] if unit in SECONDS and model_unit in SECONDS else None


def time_of(text: str, model_unit: str, option: str = "--shift") -> Fraction:
    """A length of time as '1.5ms', in the model's unit of time, which is also that of a plain number."""
    match = LENGTH.match(text)
    try:
        number = Fraction(match.group(1)) if match else None
    except (ValueError, ZeroDivisionError):
        number = None
    if match is None or number is None:
        raise Fault(with_hint("%s: '%s' is not a time, as 1.5ms, and not a number" % (option, text), text))
    unit = plain_unit(match.group(2))
    factor = time_factor(unit, model_unit)
    if factor is None:
        text = "the model's time has no unit" if model_unit == NO_UNIT else "the units are %s" % ", ".join(SECONDS)
        raise Fault("%s: '%s' is no unit of time here: %s" % (option, unit, text))
    return number * factor


def plain_time(text: Optional[str], model_unit: str, option: str) -> Optional[str]:
    """The text of a time without its unit, as a number of the model's units of time."""
    if text is None:
        return None
    try:
        Fraction(text)
    except (ValueError, ZeroDivisionError):
        return str(time_of(text, model_unit, option))
    return text


def axis_label(source: Source, unit: Optional[str] = None) -> str:
    """The label of an axis of time, in this unit or in that of a source: seconds if it names none."""
    unit = checked_unit(unit) or time_unit(source)
    return "time" if unit == NO_UNIT else "time (%s)" % unit


def checked_unit(unit: Optional[str]) -> Optional[str]:
    """A unit of time that an option names."""
    if unit is not None and unit not in SECONDS and unit != NO_UNIT:
        raise Fault("--unit: '%s' is no unit of time (%s)" % (unit, ", ".join([*SECONDS, NO_UNIT])))
    return unit


def time_unit(source: Source) -> str:
    """The unit of time of a source: seconds if it names none."""
    return written_time_unit(source) or "s"


def unit_after(unit: str, factor: Fraction) -> str:
    """The unit of which `factor` are one of this unit, if it has a name."""
    for name, seconds in SECONDS.items():
        if unit in SECONDS and seconds == SECONDS[unit] / factor:
            return name
    return "1/%s %s" % (factor, unit) if factor > 1 else "%s %s" % (1 / factor, unit)
