"""Findings about parts of a model that have no effect: branches that never fire, and starts of algebraic variables."""
from fractions import Fraction
from typing import Dict, Iterator, List, Sequence, Set

from ..model.flat import ALGEBRAIC, TIME, BranchRows, Flat, Form, Row
from ..model.spelling import spell
from ..numeric.trial import Trial
from ..settings.limits import place_of_setting, shown
from ..settings.sticking import branch_rows, holds
from .finding import Finding

ROUNDED = Fraction(1, 1000)  # the relative difference of a start value that is meant


def value_at_start(flat: Flat, form: Form) -> Fraction:
    """The value of a form at the start, when the time is 0."""
    value = form.constant
    for key, weight in form.parts.items():
        if key[0] != "time":
            for number in key[1:]:
                weight = weight * flat.starts[number]
            value += weight
    return value


def is_constant(flat: Flat, row: Row, statements: List[Row]) -> bool:
    """Whether a condition depends neither on the time nor on a state, nor on what another branch sets."""
    keys = row.form.parts
    if any(key[0] == "time" or any(number < flat.states for number in key[1:]) for key in keys):
        return False
    names = {number for key in keys for number in key[1:]}
    own = {id(one) for one in statements}
    return not any(one.kind == "set" and one.variable in names and id(one) not in own for one in flat.rows())


def constant_branches(flat: Flat) -> Set[int]:
    """The places of the conditions that never change. In a loop, all conditions of a place never change."""
    branches = branch_rows(flat)
    moved = {row.part.at for row, statements in branches if not is_constant(flat, row, statements)}
    return {row.part.at for row, _ in branches} - moved


def idle_branches(flat: Flat, trial: Trial) -> Iterator[Finding]:
    """Branches that never fire, since no other branch sets the variables of their conditions."""
    constant = constant_branches(flat)
    firsts: Dict[int, BranchRows] = {}
    for row, statements in branch_rows(flat):
        if row.part.at in constant:
            firsts.setdefault(row.part.at, (row, statements))
    for row, statements in firsts.values():
        value = value_at_start(flat, row.form)
        is_true = holds(row.part.relation, value)
        if is_true and not any(one.form.parts or one.form.constant != flat.starts[one.variable] for one in statements):
            continue
        numbers = sorted({number for key in row.form.parts for number in key[1:]})
        names = " and ".join(dict.fromkeys(flat.variables[number].name for number in numbers))
        condition = "'%s %s %s'" % (spell(row.part.left), row.part.relation, spell(row.part.right))
        begin = "holds at the start" if is_true else "does not hold at the start"
        why = " and no other branch sets %s" % names if names else ""
        sentence = "%s %s%s, so this branch never fires" % (condition, begin, why)
        yield Finding(row.part.at, sentence, fix_of(row, is_true, numbers, flat), True)


def fix_of(row: Row, is_true: bool, numbers: List[int], flat: Flat) -> str:
    """What makes a branch fire whose condition never changes."""
    if not is_true:
        return "let another clause set %s" % flat.variables[numbers[0]].name if numbers else "remove the branch"
    if not numbers:
        return "write what it sets as start values"
    if len(numbers) == 1 and not holds(row.part.relation, row.form.constant):
        name = flat.variables[numbers[0]].name
        return (
            "write %s(start = 0), and let another clause set it; or write what the branch sets as start values" % name
        )
    return "write start values with which the condition does not hold, or what the branch sets as start values"


def idle_starts(flat: Flat, trial: Trial) -> Iterator[Finding]:
    """Start values of algebraic variables that differ from their equations."""
    told = set()
    for number, one in enumerate(flat.variables):
        if one.role != ALGEBRAIC or one.declaration.start is None or one.declaration.at in told:
            continue
        form = flat.solved(number)
        value = value_at_start(flat, form)
        if abs(value - flat.starts[number]) <= ROUNDED * abs(value):
            continue
        told.add(one.declaration.at)
        states = [flat.variables[key[1]].name for key in form.parts if key[1] < flat.states]
        way = "set the start value of %s instead" % " or ".join(states[:3]) if states else "remove the start value"
        yield Finding(
            one.declaration.at,
            "the start value %s of %s has no effect: its equation gives %s at the start"
            % (shown(flat.starts[number]), one.name, shown(value)),
            way,
            True,
        )


def is_of_time(flat: Flat, row: Row) -> bool:
    """Whether a condition depends on the time, on no state, and perhaps on discrete variables."""
    return TIME in row.form.parts and all(number >= flat.states for number in read_by(row))


def read_by(row: Row) -> Set[int]:
    """The numbers of the variables that a condition reads."""
    return {number for key in row.form.parts if key != TIME for number in key[1:]}


def set_without_clocks(flat: Flat, branches: Sequence[BranchRows]) -> Set[int]:
    """The discrete variables that branches can set before a clock fires, since their conditions read states."""
    found: Set[int] = set()
    moved = set(range(flat.states))
    while moved:
        fired = [rows for row, rows in branches if moved & read_by(row) and not is_of_time(flat, row)]
        moved = {one.variable for rows in fired for one in rows if one.kind == "set"} - found
        found |= moved
    return found


def late_clocks(flat: Flat, trial: Trial) -> Iterator[Finding]:
    """A stop time before the first time of each clock."""
    stop, branches = flat.settings["StopTime"], branch_rows(flat)
    timed = [row for row, _ in branches if is_of_time(flat, row)]
    clocks = {number for row in timed for number in read_by(row)}
    if stop <= 0 or not clocks or clocks & set_without_clocks(flat, branches):
        return
    firsts = []
    for row in timed:
        weight, value = row.form.parts[TIME], value_at_start(flat, row.form)
        if holds(row.part.relation, value) or holds(row.part.relation, value + weight * stop):
            return
        firsts.append(-value / weight)
    first = min((time for time in firsts if time > 0), default=None)
    if first is not None:
        yield Finding(
            place_of_setting(flat, "StopTime"),
            f"no clock fires before StopTime = {shown(stop)}: the first time of a clock is {shown(first)}",
            "write StopTime in the unit of time of the model",
            True,
        )
