"""Inductances, capacitances and times in SI units in a model whose unit of time needs smaller ones."""
from fractions import Fraction
from typing import Dict, Iterator, List, Optional

from ..model.flat import Flat
from ..model.grammar import Declaration
from ..model.source import Source
from ..model.spelling import decimal_text
from ..model.units import time_unit
from .finding import Finding

PREFIXES = {"": Fraction(1), "m": Fraction(1, 10**3), "u": Fraction(1, 10**6), "n": Fraction(1, 10**9)}
WANTED = {"ms": "m", "us": "u", "ns": "n"}  # the prefixes that a unit of time needs, with V, A and Ohm
OTHER_UNITS = ("mA", "kOhm", "uA", "MOhm")  # of models that are not in V, A and Ohm
BASES = ("H", "F", "s")
FAR = 1000  # times larger than the unit that fits
MOST_VALUE = 1  # of a value in a unit that is far larger


def far_units(source: Source, flat: Flat) -> List[Finding]:
    """Parameters whose unit is far larger than the unit that the unit of time needs, with small values."""
    time = time_unit(source)
    written = written_units(source, flat)
    if time not in WANTED or any(unit in OTHER_UNITS for unit in written.values()):
        return []
    return list(findings_of(flat, time, written))


def findings_of(flat: Flat, time: str, written: Dict[str, str]) -> Iterator[Finding]:
    for one in flat.model.declarations:
        unit, value = written.get(one.name, ""), flat.parameters.get(one.name, Fraction(0))
        prefix, base = unit[:-1], unit[-1:]
        if base not in BASES or prefix not in PREFIXES or not 0 < abs(value) <= MOST_VALUE:
            continue
        fitting = WANTED[time] + base
        times = PREFIXES[prefix] / PREFIXES[WANTED[time]]
        if times >= FAR:
            yield Finding(
                one.at,
                f"{one.name} has the unit {unit}, and the unit of time {time} needs {fitting}"
                f" (1 {unit} = {power_text(times)} {fitting})",
                f'write {one.name} = {decimal_text(value * times)} "{fitting}", or another QSS_TimeUnit',
                True,
            )


def power_text(times: Fraction) -> str:
    """A power of ten."""
    return f"10^{len(str(times.numerator)) - 1}"


def written_units(source: Source, flat: Flat) -> Dict[str, str]:
    """The units of declarations by name: as `unit = ".."`, or as the string after the value."""
    found = {item.where: item.text.split('"')[1] for item in flat.model.read_over if item.text.startswith('unit = "')}
    for one in flat.model.declarations:
        text = string_of(source, one)
        if text is not None:
            found.setdefault(one.name, text)
    return found


def string_of(source: Source, one: Declaration) -> Optional[str]:
    """The string with which a declaration ends, before its annotation."""
    last = next((token for token in source.tokens if token.at + len(token.text) == one.end), None)
    return last.text[1:-1] if last is not None and last.kind == "string" else None
