"""The machine that a model denotes, in whole numbers, or why there is none, by docs/SEMANTICS.md ('The machine of a
flat model').
"""
from collections import namedtuple
from fractions import Fraction
from typing import Dict, List, NoReturn, Sequence, Tuple

from ..model.flat import TIME, Flat, Meaningless
from ..model.flat import Row as FlatRow
from ..settings.limits import (
    COEFFICIENT_BITS,
    CONSTANT_BITS,
    FORM_BITS,
    LEVEL_BITS,
    MOST_BITS_TOGETHER,
    MOST_COEF_AND_TICK_BITS,
    MOST_COEF_BITS,
    MOST_LEVEL_BITS,
    MOST_TICK_BITS,
    QUANTUM_BITS,
)

STATE_BITS = 88  # of a state, and of the absolute sum of a row
LAST_BITS = 32  # of the count of ticks
# The settings that count bits, each with its limit and that of its sum with those before it.
BITS = (
    ("QSS_CoefBits", MOST_COEF_BITS, MOST_COEF_BITS),
    ("QSS_TickBits", MOST_TICK_BITS, MOST_COEF_AND_TICK_BITS),
    ("QSS_LevelBits", MOST_LEVEL_BITS, MOST_BITS_TOGETHER),
)

Row = namedtuple("Row", "states discretes products constant")
Row.__doc__ = (
    "What a state rises by: (state, coefficient), (discrete, coefficient), (discrete, state, "
    "coefficient), and a constant."
)
Form = namedtuple("Form", "states discretes before time constant")
Form.__doc__ = (
    "An affine expression over states, discrete values, those before the tick, and time; the first three as in a row."
)
Branch = namedtuple("Branch", "condition relation statements")
Statement = namedtuple(
    "Statement", "reinit variable form"
)  # of a state, or of a discrete variable, each counted from 0


class NoMachine(Exception):
    """A model denotes no machine: the line of its refusal."""

    def __init__(self, number: int, *fields: object) -> None:
        super().__init__("refused: machine %d %s\n" % (number, " ".join(map(str, fields))))


def nearest(number: int, divisor: int) -> int:
    """The whole number nearest to a quotient, and of two nearest ones the even one."""
    below, rest = divmod(number, divisor)
    return below + (2 * rest > divisor or 2 * rest == divisor and below % 2 == 1)


def passes(bits: int, number: int) -> bool:
    """Whether a number is past a limit of this number of bits."""
    return abs(number) > 2**bits


def nonzero(entries: Sequence[Tuple[int, ...]]) -> Tuple[Tuple[int, ...], ...]:
    """The entries whose coefficient is not 0."""
    return tuple(entry for entry in entries if entry[-1])


class Machine:
    """States and discrete variables, each counted from 0, rows of the states, and clauses, each a list of branches."""

    def __init__(self, flat: Flat) -> None:
        check_settings(flat.settings)
        self.coefficient_bits, self.tick_bits, self.level_bits = (
            int(flat.settings[name]) for name in ("QSS_CoefBits", "QSS_TickBits", "QSS_LevelBits")
        )
        self.last = int(flat.last_tick())
        self.level_unit = 2 ** (self.coefficient_bits + self.tick_bits)
        self.names = [one.name for one in flat.variables[: flat.states + flat.discretes]]
        self.states, self.discretes = flat.states, flat.discretes
        self.starts = [
            self.units(start, self.level_bits + self.coefficient_bits + self.tick_bits)
            for start in flat.starts[: self.states]
        ]
        self.values = [
            self.units(start, self.level_bits) for start in flat.starts[self.states : self.states + self.discretes]
        ]
        self.quanta = [int(one.quantum * 2**self.level_bits // 1) for one in flat.variables[: self.states]]
        for number in range(self.states + self.discretes, len(flat.variables)):
            flat.solved(number)
        self.rows = [self._row(row) for row in flat.rows()[: self.states]]
        self.clauses = [[self._branch(*branch) for branch in clause] for clause in flat.clauses()]
        check_starts(self)
        check_quanta(self)
        check_coefficients(self)

    @staticmethod
    def units(value: Fraction, bits: int) -> int:
        """A value in units of 2^-bits, to the nearest, ties to even."""
        return round(value * 2**bits)

    def _row(self, row: FlatRow) -> Row:
        """The row of a state's equation, each number rounded once; coefficients that become 0 are left out."""
        states: List[Tuple[int, ...]] = []
        discretes: List[Tuple[int, ...]] = []
        products: List[Tuple[int, ...]] = []
        for key, value in row.form.parts.items():
            if key == TIME:
                raise Meaningless(row.part.at, "'time' in an equation")
            coefficient = self.units(value, self.coefficient_bits)
            if key[0] == "product":
                products.append((key[2] - self.states, key[1], coefficient))
            elif key[1] < self.states:
                states.append((key[1], coefficient))
            else:
                discretes.append((key[1] - self.states, coefficient))
        constant = self.units(row.form.constant, self.level_bits + self.coefficient_bits)
        return Row(nonzero(states), nonzero(discretes), nonzero(products), constant)

    def _form(self, row: FlatRow) -> Form:
        """The form of a condition or a statement, rounded as a row is."""
        states: List[Tuple[int, ...]] = []
        discretes: List[Tuple[int, ...]] = []
        before: List[Tuple[int, ...]] = []
        time = 0
        for key, value in row.form.parts.items():
            coefficient = self.units(value, self.coefficient_bits)
            if key == TIME:
                time = coefficient
            elif key[0] == "product":
                raise Meaningless(row.part.at, "a product of variables in a clause")
            elif key[0] == "pre":
                before.append((key[1] - self.states, coefficient))
            elif key[1] < self.states:
                states.append((key[1], coefficient))
            else:
                discretes.append((key[1] - self.states, coefficient))
        constant = self.units(row.form.constant, self.level_bits + self.coefficient_bits)
        return Form(nonzero(states), nonzero(discretes), nonzero(before), time, constant)

    def _branch(self, condition: FlatRow, statements: Sequence[FlatRow]) -> Branch:
        form = self._form(condition)
        return Branch(form, condition.part.relation, [self._statement(one) for one in statements])

    def _statement(self, row: FlatRow) -> Statement:
        reinit = row.kind == "reinit"
        return Statement(reinit, row.variable if reinit else row.variable - self.states, self._form(row))

    def level_below(self, state: int) -> int:
        """The greatest level at most a state."""
        return state // self.level_unit

    def modes(self, row: Row, values: Sequence[int]) -> Dict[int, int]:
        """The mode coefficient of each state that a row reads, at these discrete values."""
        switched: Dict[int, int] = {}
        for discrete, state, coefficient in row.products:
            switched[state] = switched.get(state, 0) + coefficient * values[discrete]
        found = dict(row.states)
        for state, total in switched.items():
            found[state] = found.get(state, 0) + nearest(total, 2**self.level_bits)
        return found

    def level_terms(self, row: Row, levels: Sequence[int], values: Sequence[int]) -> List[int]:
        """What a row takes of each level: the mode coefficient times the level."""
        return [coefficient * levels[state] for state, coefficient in self.modes(row, values).items()]

    @staticmethod
    def drive_terms(row: Row, values: Sequence[int]) -> List[int]:
        """What a row takes of each discrete value, and its constant."""
        return [coefficient * values[discrete] for discrete, coefficient in row.discretes] + [row.constant]

    def slope(self, row: Row, levels: Sequence[int], values: Sequence[int]) -> int:
        """By how much a state rises in a tick."""
        return sum(self.level_terms(row, levels, values)) + sum(self.drive_terms(row, values))

    def is_overweight(self, row: Row, levels: Sequence[int], values: Sequence[int]) -> bool:
        """Whether a mode coefficient of a row passes its limit, or the absolute sum of the row does."""
        terms = self.level_terms(row, levels, values) + self.drive_terms(row, values)
        return any(passes(COEFFICIENT_BITS, mode) for mode in self.modes(row, values).values()) or passes(
            STATE_BITS, sum(abs(term) for term in terms)
        )

    def value(
        self, form: Form, states: Sequence[int], discretes: Sequence[int], before: Sequence[int], tick: int
    ) -> int:
        """The value of a form, in units of 2^-(f+2p+k)."""
        found = form.time * tick * 2 ** (self.level_bits + self.coefficient_bits) + form.constant * self.level_unit
        found += sum(coefficient * states[state] for state, coefficient in form.states)
        found += sum(coefficient * discretes[place] for place, coefficient in form.discretes) * self.level_unit
        return found + sum(coefficient * before[place] for place, coefficient in form.before) * self.level_unit


# the checks, in their order


def check_settings(settings: Dict[str, Fraction]) -> None:
    """The settings, each by itself and with those before it, and then the last tick."""

    def refuse(name: str) -> NoReturn:
        raise NoMachine(1, name, "%d/%d" % settings[name].as_integer_ratio())

    if settings["StartTime"]:
        refuse("StartTime")
    if settings["StopTime"] < 0:
        refuse("StopTime")
    together = Fraction(0)
    for name, most, most_together in BITS:
        together += settings[name]
        if settings[name].denominator != 1 or not 0 <= settings[name] <= most or together > most_together:
            refuse(name)
    if -(-settings["StopTime"] * 2 ** int(settings["QSS_TickBits"]) // 1) >= 2**LAST_BITS:
        refuse("StopTime")


def row_fits(row: Row) -> bool:
    """Whether the coefficients and the constant of a row are within their limits."""
    entries = row.states + row.discretes + row.products
    return not any(passes(COEFFICIENT_BITS, entry[-1]) for entry in entries) and not passes(CONSTANT_BITS, row.constant)


def form_fits(form: Form) -> bool:
    """Whether the coefficients of a form, together, and its constant are within their limits."""
    total = abs(form.time) + sum(abs(coefficient) for _, coefficient in form.states + form.discretes + form.before)
    return total <= 2 ** FORM_BITS and not passes(CONSTANT_BITS, form.constant)


def check_starts(machine: Machine) -> None:
    """States and discrete values at the start, and then the absolute sum of each row there."""
    levels = [machine.level_below(start) for start in machine.starts]
    for name, start, level in zip(machine.names, machine.starts, levels):
        if passes(STATE_BITS, start) or passes(LEVEL_BITS, level):
            raise NoMachine(2, name)
    for name, value in zip(machine.names[machine.states :], machine.values):
        if passes(LEVEL_BITS, value):
            raise NoMachine(2, name)
    for name, row in zip(machine.names, machine.rows):
        if row_fits(row) and machine.is_overweight(row, levels, machine.values):
            raise NoMachine(2, name)


def check_quanta(machine: Machine) -> None:
    """The quantum of each state."""
    for name, quantum in zip(machine.names, machine.quanta):
        if not 1 <= quantum <= 2**QUANTUM_BITS:
            raise NoMachine(3, name)


def check_coefficients(machine: Machine) -> None:
    """The rows of the states, and then each condition and statement, counted from 1."""
    fits = [row_fits(row) for row in machine.rows]
    for branch in (branch for clause in machine.clauses for branch in clause):
        fits += [form_fits(branch.condition)] + [form_fits(statement.form) for statement in branch.statements]
    if False in fits:
        raise NoMachine(4, fits.index(False) + 1)
