"""Numbers that are too small or too long for any settings: states in units that are too large, and long constants."""
import math
from fractions import Fraction
from typing import Dict, Iterator, Optional

from ..model.flat import Flat, Meaningless
from ..model.grammar import Model, Product, Sum
from ..model.spelling import decimal_text, spell
from ..model.walks import leaves
from ..numeric.trial import Trial
from ..settings.limits import MOST_LEVEL_BITS, shown
from .finding import Finding

PREFIXES = {-3: "m", -6: "u", -9: "n", -12: "p", -15: "f"}
LEAST_SIZE = 20 * 2.0**-MOST_LEVEL_BITS  # of a state that a run resolves
MOST_TERM = 2**62  # of a numerator or a denominator
DIGITS = 9  # of a number that stands for a long one


def small_states(flat: Flat, trial: Trial) -> Iterator[Finding]:
    """States that no quantum resolves, since they reach a few units of a level at most."""
    for number in small_numbers(flat, trial):
        one, reached = flat.variables[number], trial.size[number]
        exponent = 3 * math.floor(math.log10(reached) / 3)
        unit = units_of(flat).get(one.declaration.name, "")
        wanted = "a unit of 1e%d of its unit" % exponent
        if unit.isalpha() and exponent in PREFIXES:
            wanted = "%s%s in place of %s" % (PREFIXES[exponent], unit, unit)
        yield Finding(
            one.declaration.at,
            "%s reaches about %s, and a quantum is at least 2^-%d = %s: no settings resolve it"
            % (one.name, shown(float("%.2g" % reached)), MOST_LEVEL_BITS, shown(2.0**-MOST_LEVEL_BITS)),
            "write the equations with %s in %s" % (one.name, wanted),
            True,
        )


def small_numbers(flat: Flat, trial: Trial) -> "list[int]":
    """The numbers of these states; of an array the first one."""
    found: Dict[int, int] = {}
    for number in range(flat.states):
        if not trial.grown and 0 < trial.size[number] < LEAST_SIZE:
            found.setdefault(flat.variables[number].declaration.at, number)
    large = {flat.variables[number].declaration.at for number in range(flat.states) if trial.size[number] >= LEAST_SIZE}
    return [number for at, number in found.items() if at not in large]


def units_of(flat: Flat) -> Dict[str, str]:
    """The units of the variables by their names."""
    items = (item for item in flat.model.read_over if item.text.startswith("unit = "))
    return {item.where: item.text.split(" = ", 1)[1].strip('"') for item in items}


def short_number(value: Fraction) -> str:
    """A decimal near a number, with as many digits as the language allows."""
    for digits in range(DIGITS, 0, -1):
        text = "%.*g" % (digits, float(value))
        near = Fraction(text)
        if max(abs(near.numerator), near.denominator) <= MOST_TERM:
            return decimal_text(near)
    return ""


def number_in_place(model: Model, at: int) -> Optional[str]:
    """What to write in place of the constant product or sum that ends with the operator at a byte, or None."""
    items = list(leaves(model.equations))
    items += [item for clause in leaves(model.clauses) for branch in clause.branches for item in leaves(branch.body)]
    parts = [one.value for one in (*model.declarations, *items) if one.value is not None]
    for part in parts:
        found = beginning(part, at)
        if found is None:
            continue
        try:
            text = short_number(Flat(model).constant(found, {}))
        except (Meaningless, OverflowError, ArithmeticError):
            return None
        return "write %s in place of %s" % (text, spell(found).strip()) if text else None
    return None


def beginning(part: object, at: int) -> "Optional[Sum | Product]":
    """The sum or product up to the operand of the operator at a byte."""
    if not isinstance(part, (Sum, Product)):
        return None
    for place, (_, sign, value) in enumerate(part.parts):
        if sign == at and place:
            return type(part)(part.parts[: place + 1], part.at)
        found = beginning(value, at)
        if found is not None:
            return found
    return None
