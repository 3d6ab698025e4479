"""The columns of a table or a picture: which variables are shown, and their values at a tick."""
import fnmatch
import re
from fractions import Fraction
from math import prod
from typing import Dict, List, NamedTuple, Optional, Sequence, Set, Tuple, Union

from ..fault import Fault
from ..model.flat import ALGEBRAIC, DISCRETE, STATE, Flat, Meaningless
from ..model.spelling import decimal_text
from .expressions import is_computed, level_terms, no_variable, split_outside
from .rows import Run, exact

RANGE = re.compile(r"^(\w+)\[(\d+):(\d+)\]$")
SIGNIFICANT = "%.15g"

Term = Tuple[int, Tuple[str, ...]]  # a weight, and the names of a product


def chosen(run: Run, patterns: Optional[str]) -> List[int]:
    """The numbers of the variables that a list of patterns names: all states and discrete variables without one."""
    flat = run.flat
    if patterns is None:
        return list(range(flat.states + flat.discretes))
    found = []
    for pattern in patterns.split(","):
        some = matching(flat, pattern.strip())
        if not some:
            raise no_variable(run, pattern.strip())
        found += [number for number in some if number not in found]
    return found


def matching(flat: Flat, pattern: str) -> List[int]:
    """The variables of a pattern: a name, an array, u[2:5], or a name with * in it."""
    ranged = RANGE.match(pattern)
    if ranged:
        first, last = int(ranged.group(2)), int(ranged.group(3))
        wanted = {"%s[%d]" % (ranged.group(1), index) for index in range(first, last + 1)}
        return [number for number, one in enumerate(flat.variables) if one.name in wanted]
    if "*" in pattern:
        glob = pattern.replace("[", "[[]")
        return [
            number
            for number, one in enumerate(flat.variables)
            if fnmatch.fnmatchcase(one.name, glob) or fnmatch.fnmatchcase(one.declaration.name, glob)
        ]
    return [number for number, one in enumerate(flat.variables) if pattern in (one.name, one.declaration.name)]


class Column:
    """A state's level or state, or a discrete variable: a whole number of a unit."""

    def __init__(self, run: Run, number: int, states: bool = False):
        one = run.flat.variables[number]
        self.name = one.name
        self.use_state = states and one.role == STATE
        self.is_discrete = one.role == DISCRETE
        self.bits = run.units.state if self.use_state else run.units.level
        self.whole: Optional[int] = None
        self.line = Line()
        self.needs: Sequence[str] = (one.name,)

    def take(self, level: Optional[int], state: Optional[int]) -> bool:
        """Takes the numbers of a row; whether the value changed."""
        number = state if self.use_state else level
        if number is None or number == self.whole:
            return False
        self.whole = number
        return True

    def take_line(self, name: str, line: "Line") -> None:
        """Takes the line along which a level moves from its tick on."""
        if not self.use_state:
            self.line = line

    def move(self, tick: int) -> bool:
        """Moves along the line to a tick; whether it is not level."""
        if self.line.change:
            self.whole = self.line.at(tick)
        return self.line.change != 0

    def is_new(self) -> bool:
        """Whether the value is another one, if a row changed it."""
        return True

    def text(self) -> str:
        assert self.whole is not None
        return exact(self.whole, self.bits)

    def number(self) -> float:
        assert self.whole is not None
        return self.whole / (1 << self.bits)


class Line(NamedTuple):
    """A level that changes by so much in each tick, from a tick on."""

    tick: int = 0
    level: int = 0
    change: int = 0

    def at(self, tick: int) -> int:
        return self.level + self.change * (tick - self.tick)


class Algebraic:
    """An algebraic variable, computed from levels and discrete values with its exact form."""

    def __init__(self, run: Run, number: int):
        flat = run.flat
        self.name = flat.variables[number].name
        try:
            form = flat.solved(number)
        except Meaningless as error:
            raise Fault("%s: %s" % (run.model, error.reason)) from error
        bits = run.units.level
        below = form.denominator()
        terms: List[Term] = []
        for key, value in form.parts.items():
            weight = int(value * below)
            if key[0] == "product":
                terms.append((weight, (flat.variables[key[1]].name, flat.variables[key[2]].name)))
            else:
                terms.append((weight << bits, (flat.variables[key[1]].name,)))
        self.take_terms(below << (2 * bits), int(form.constant * below) << (2 * bits), terms)

    def take_terms(self, below: int, constant: int, terms: "Sequence[Term]") -> None:
        """Takes the sum: what its whole numbers are divided by, a constant, and the weights of products of names."""
        self.below, self.constant, self.terms = below, constant, list(terms)
        self.needs = tuple({name for _, names in terms for name in names})
        self.values: Dict[str, int] = {}
        self.lines: Dict[str, Line] = {}
        self.seen: Optional[int] = None
        self.is_discrete = False

    def take_line(self, name: str, line: Line) -> None:
        self.lines[name] = line

    def move(self, tick: int) -> bool:
        """Moves what it needs along their lines to a tick; whether one is not level."""
        moving = {name: line.at(tick) for name, line in self.lines.items() if line.change}
        self.values.update(moving)
        return bool(moving)

    def take_named(self, name: str, level: Optional[int]) -> bool:
        """Takes a level of a variable that it needs; whether the value may have changed."""
        if level is None or level == self.values.get(name):
            return False
        self.values[name] = level
        return True

    def total(self) -> int:
        values = self.values
        return self.constant + sum(weight * prod(values[name] for name in names) for weight, names in self.terms)

    def is_new(self) -> bool:
        """Whether the value is another one than at the last call."""
        total = self.total()
        is_new, self.seen = total != self.seen, total
        return is_new

    def text(self) -> str:
        return self.text_of(self.total())

    def text_of(self, total: int) -> str:
        """The text of a value."""
        text = decimal_text(Fraction(total, self.below))
        return text if "/" not in text else SIGNIFICANT % (total / self.below)

    def number(self) -> float:
        return self.total() / self.below


class Expression(Algebraic):
    """An expression of variables, computed as an algebraic variable is."""

    def __init__(self, run: Run, text: str):
        self.name = text
        self.take_terms(*level_terms(run, text))


AnyColumn = Union[Column, Algebraic]


def columns_of(run: Run, patterns: Optional[str], states: bool = False) -> List[AnyColumn]:
    """The columns of these patterns."""
    found: List[AnyColumn] = []
    parts: List[Optional[str]] = [None]
    if patterns is not None:
        parts = [*split_outside(patterns, ",")]
    for part in parts:
        if part is not None and is_computed(run, part) and not matching(run.flat, part):
            found.append(Expression(run, part))
            continue
        for number in chosen(run, part):
            if run.flat.variables[number].name in [column.name for column in found]:
                continue
            role = run.flat.variables[number].role
            found.append(Algebraic(run, number) if role == ALGEBRAIC else Column(run, number, states))
    return found


class Watch:
    """Columns that follow the rows."""

    def __init__(self, columns: Sequence["AnyColumn"]):
        self.columns = columns
        self.plain: Dict[str, List[Tuple[int, Column]]] = {}
        self.computed: Dict[str, List[Tuple[int, Algebraic]]] = {}
        self.moving: Set[int] = set()
        for place, column in enumerate(columns):
            if isinstance(column, Column):
                self.plain.setdefault(column.name, []).append((place, column))
            else:
                for name in column.needs:
                    self.computed.setdefault(name, []).append((place, column))
        self.missing = {name for column in columns for name in column.needs}

    def slope(self, tick: int, name: str, change: Optional[int]) -> None:
        """From this tick on the level of a variable moves by a line."""
        assert change is not None
        for place, plain in self.plain.get(name, ()):
            assert plain.whole is not None
            plain.take_line(name, Line(tick, plain.whole, change))
            self.moving.add(place)
        for place, computed in self.computed.get(name, ()):
            computed.take_line(name, Line(tick, computed.values[name], change))
            self.moving.add(place)

    def move(self, tick: int) -> List[int]:
        """Moves all columns along their lines to a tick; the places of those that are not level."""
        return [place for place in self.moving if self.columns[place].move(tick)]

    def take(self, name: str, level: Optional[int], state: Optional[int]) -> List[int]:
        """The places of the columns that a row changes."""
        self.missing.discard(name)
        changed = [place for place, column in self.plain.get(name, ()) if column.take(level, state)]
        return changed + [place for place, column in self.computed.get(name, ()) if column.take_named(name, level)]

    def check_started(self, name: str) -> None:
        """At the end of the start rows each column has its values, unless the rows leave a variable out."""
        if self.missing:
            one = sorted(self.missing)[0]
            raise Fault("%s: there are no rows of '%s' (were they filtered by --only?)" % (name, one))
