"""What a model denotes: variables, settings, and exact affine forms, by the rules of docs/LANGUAGE.md.

The sources are models that the program accepts. What is wrong in another source raises Meaningless with a place.
"""
import math
from collections import namedtuple
from fractions import Fraction
from typing import Any, Dict, Iterable, Iterator, List, Optional, Set, Tuple, Union

from .grammar import (
    Branch,
    Declaration,
    Equation,
    Expression,
    Loop,
    Model,
    Name,
    Number,
    Power,
    Pre,
    Product,
    Ref,
    Sum,
    Time,
)
from .source import SETTINGS
from .walks import leaves

STATE, DISCRETE, ALGEBRAIC, PARAMETER = "state", "discrete", "algebraic", "parameter"

DEFAULTS = dict(zip(SETTINGS, (Fraction(0), Fraction(1), Fraction(24), Fraction(10), Fraction(16), Fraction(1, 1024))))

MOST_ITEMS = 16384  # equations, conditions, statements and start assignments
MOST_ROUNDS = 65536  # of loops
MOST_VARIABLES = 4096

Key = Tuple[Any, ...]  # ("x", number), ("pre", number), ("product", state, discrete) or TIME
TIME: Key = ("time",)
Values = Dict[str, Fraction]  # of loop variables, by name

Variable = namedtuple("Variable", "name role declaration start quantum quantum_at")
Row = namedtuple("Row", "kind variable form part label")
Row.__doc__ = "A state's equation, a condition or a statement: its exact form, its part of the tree, and a label."
BranchRows = Tuple[Row, List[Row]]  # the condition of a branch, and its statements


class Meaningless(Exception):
    """A model means nothing at a place, for a reason."""

    def __init__(self, at: int, reason: str) -> None:
        super().__init__(reason)
        self.at = at
        self.reason = reason


class Form:
    """An exact affine form: coefficients by key, and a constant.

    Keys are ("x", NUMBER) of a variable, ("pre", NUMBER), ("product", STATE, DISCRETE) and ("time",).
    """

    __slots__ = ("parts", "constant")

    def __init__(self, parts: Optional[Dict[Key, Fraction]] = None, constant: Fraction = Fraction(0)) -> None:
        self.parts = parts or {}
        self.constant = constant

    def denominator(self) -> int:
        """The least common denominator of the coefficients and the constant."""
        return math.lcm(self.constant.denominator, *(value.denominator for value in self.parts.values()))

    def plus(self, other: "Form", sign: int = 1) -> "Form":
        parts = dict(self.parts)
        for key, value in other.parts.items():
            total = parts.get(key, 0) + sign * value
            if total:
                parts[key] = total
            else:
                parts.pop(key, None)
        return Form(parts, self.constant + sign * other.constant)

    def times(self, factor: Union[int, Fraction]) -> "Form":
        if not factor:
            return Form()
        return Form({key: value * factor for key, value in self.parts.items()}, self.constant * factor)


def decimal(text: str) -> Fraction:
    """The value of a number token."""
    return Fraction(text if not text.endswith(".") else text + "0")


class Flat:
    """The variables and the settings of a model, and, on demand, the forms of its rows."""

    def __init__(self, model: Model) -> None:
        self.model = model
        self.parameters: Dict[str, Fraction] = {}
        self.shapes: Dict[
            str, Tuple[int, Optional[int]]
        ] = {}  # name of a variable: (number of its first element, size or None)
        self.variables: List[Variable] = []
        self.settings = dict(DEFAULTS)
        self._declare()
        self.numbers = {variable.name: number for number, variable in enumerate(self.variables)}
        self.states = sum(variable.role == STATE for variable in self.variables)
        self.discretes = sum(variable.role == DISCRETE for variable in self.variables)
        self.rounds = self.items = 0
        self.starts = [variable.start for variable in self.variables]
        for assignment, loop in self.unrolled(model.starts):
            self.starts[self.number(assignment.target, loop)] = self.constant(assignment.value, loop)
        self._equations: Optional[Dict[int, Tuple[Equation, Values]]] = None
        self._rows: Optional[List[Row]] = None
        self.float_rows: Any = None
        self._solved: Dict[int, Form] = {}

    # names and constants

    def _declare(self) -> None:
        states = states_of(self.model)
        declared = []
        for one in self.model.declarations:
            role = role_of(one, states)
            if role == PARAMETER:
                if one.value is None:
                    raise Meaningless(one.at, "this parameter has no value")
                self.parameters[one.name] = self.constant(one.value, {})
                continue
            size = None if one.size is None else self.whole(one.size, {})
            start = Fraction(0) if one.start is None else self.constant(one.start, {})
            quantum = None if one.quantum is None else self.constant(one.quantum, {})
            declared.append((role, size, start, quantum, one))
        for setting in self.model.settings:
            self.settings[setting.name] = self.constant(setting.value, {})
        for wanted in (STATE, DISCRETE, ALGEBRAIC):
            for role, size, start, quantum, one in declared:
                if role == wanted:
                    self._add(role, size, start, quantum, one)

    def _add(
        self, role: str, size: Optional[int], start: Fraction, quantum: Optional[Fraction], one: Declaration
    ) -> None:
        self.shapes[one.name] = (len(self.variables), size)
        at = None if quantum is None else one.at
        value = self.settings["QSS_Quantum"] if quantum is None else quantum
        names = [one.name] if size is None else ["%s[%d]" % (one.name, index) for index in range(1, size + 1)]
        if len(self.variables) + len(names) > MOST_VARIABLES:
            raise Meaningless(one.at, "with this one there are more than %d variables" % MOST_VARIABLES)
        for name in names:
            self.variables.append(Variable(name, role, one, start, value, at))

    def constant(self, part: Expression, loop: Values) -> Fraction:
        """The value of a constant expression."""
        form = self.form(part, loop)
        if form.parts:
            raise Meaningless(part.at, "no constant")
        return form.constant

    def whole(self, part: Expression, loop: Values) -> int:
        value = self.constant(part, loop)
        if value.denominator != 1:
            raise Meaningless(part.at, "no whole number")
        return int(value)

    def number(self, ref: Ref, loop: Values) -> int:
        """The number of the variable that a reference names."""
        if ref.name not in self.shapes:
            raise Meaningless(ref.at, "'%s' is no variable" % ref.name)
        first, size = self.shapes[ref.name]
        if (size is None) != (ref.index is None):
            raise Meaningless(ref.at, "an array has an index, and nothing else has one")
        if size is None:
            return first
        index = self.whole(ref.index, loop)
        if not 1 <= index <= size:
            raise Meaningless(ref.at, "the index %d is not from 1 to %d" % (index, size))
        return first + index - 1

    def unrolled(self, items: Iterable[Any], loop: Optional[Values] = None) -> Iterator[Tuple[Any, Values]]:
        """Each item with the values of its loop variables, in order."""
        loop = loop or {}
        for item in items:
            if not isinstance(item, Loop):
                self.items += 1
                if self.items > MOST_ITEMS:
                    raise Meaningless(
                        item.at, "with this one there are more than %d equations and statements" % MOST_ITEMS
                    )
                yield item, loop
                continue
            for value in range(self.whole(item.first, loop), self.whole(item.last, loop) + 1):
                self.rounds += 1
                if self.rounds > MOST_ROUNDS:
                    raise Meaningless(item.at, "with this loop there are more than %d rounds" % MOST_ROUNDS)
                yield from self.unrolled(item.body, dict(loop, **{item.variable: Fraction(value)}))

    # forms

    def equations(self) -> Dict[int, Tuple[Equation, Values]]:
        """For the number of each state and algebraic variable its first equation, with its loop values."""
        if self._equations is None:
            self._equations = {}
            for equation, loop in self.unrolled(self.model.equations):
                self._equations.setdefault(self.number(equation.target, loop), (equation, loop))
        return self._equations

    def solved(self, number: int) -> Form:
        """The form of an algebraic variable, from states and discrete variables alone."""
        waiting = [number]
        while waiting:
            one = waiting[-1]
            if one in self._solved:
                waiting.pop()
                continue
            if one not in self.equations():
                raise Meaningless(self.variables[one].declaration.at, "no equation for %s" % self.variables[one].name)
            equation, loop = self.equations()[one]
            missing = [other for other in self.algebraic_names(equation.value, loop) if other not in self._solved]
            if not missing:
                self._solved[one] = self.form(equation.value, loop)
                waiting.pop()
            elif any(other in waiting for other in missing):
                raise Meaningless(equation.at, "algebraic variables need each other")
            else:
                waiting.extend(missing)
        return self._solved[number]

    def algebraic_names(self, part: Expression, loop: Values) -> List[int]:
        """The numbers of the algebraic variables in an expression."""
        if isinstance(part, Name):
            if part.ref.name in loop or part.ref.name in self.parameters:
                return []
            number = self.number(part.ref, loop)
            return [number] if self.variables[number].role == ALGEBRAIC else []
        if isinstance(part, (Sum, Product)):
            return [name for _, _, value in part.parts for name in self.algebraic_names(value, loop)]
        return self.algebraic_names(part.base, loop) if isinstance(part, Power) else []

    def form(self, part: Expression, loop: Values) -> Form:
        """The exact form of an expression."""
        if isinstance(part, Number):
            return Form(constant=decimal(part.text))
        if isinstance(part, Time):
            return Form({TIME: Fraction(1)})
        if isinstance(part, Pre):
            return Form({("pre", self.number(part.ref, loop)): Fraction(1)})
        if isinstance(part, Name):
            return self._named(part.ref, loop)
        if isinstance(part, Power):
            return Form(constant=self.constant(part.base, loop) ** part.exponent)
        total: Optional[Form] = None
        for inverse, sign_at, value in part.parts:
            form = self.form(value, loop)
            if total is None:
                total = form.times(-1) if inverse else form
            elif isinstance(part, Sum):
                total = total.plus(form, -1 if inverse else 1)
            else:
                total = self._product(total, form, inverse, sign_at)
        assert total is not None
        return total

    def _named(self, ref: Ref, loop: Values) -> Form:
        if ref.name in loop:
            return Form(constant=loop[ref.name])
        if ref.name in self.parameters:
            return Form(constant=self.parameters[ref.name])
        number = self.number(ref, loop)
        if self.variables[number].role == ALGEBRAIC:
            return self.solved(number)
        return Form({("x", number): Fraction(1)})

    def _product(self, left: Form, right: Form, divide: bool, at: int) -> Form:
        if divide:
            if right.parts:
                raise Meaningless(at, "a division by a variable")
            if not right.constant:
                raise Meaningless(at, "a division by 0")
            return left.times(1 / right.constant)
        if not right.parts:
            return left.times(right.constant)
        if not left.parts:
            return right.times(left.constant)
        if self._are(left, DISCRETE) and self._are(right, STATE):
            left, right = right, left
        if not (self._are(left, STATE) and self._are(right, DISCRETE)):
            raise Meaningless(at, "a product of two variables")
        parts: Dict[Key, Fraction] = {
            ("product", state[1], discrete[1]): a * b
            for state, a in left.parts.items()
            for discrete, b in right.parts.items()
        }
        whole = Form(parts, left.constant * right.constant)
        return whole.plus(Form(left.times(right.constant).parts)).plus(Form(right.times(left.constant).parts))

    def _are(self, form: Form, role: str) -> bool:
        return all(key[0] == "x" and self.variables[key[1]].role == role for key in form.parts)

    def rows(self) -> List[Row]:
        """The rows as a machine has them: states by number, then each branch's condition and its statements."""
        if self._rows is None:
            self._rows = self._all_rows()
        return self._rows

    def _all_rows(self) -> List[Row]:
        found = []
        for number in range(self.states):
            if number not in self.equations():
                raise Meaningless(
                    self.variables[number].declaration.at, "no equation for %s" % self.variables[number].name
                )
            equation, loop = self.equations()[number]
            name = self.variables[number].name
            found.append(Row("state", number, self.form(equation.value, loop), equation, "der(%s)" % name))
        for place, (clause, loop) in enumerate(self.unrolled(self.model.clauses), 1):
            for turn, branch in enumerate(clause.branches, 1):
                found += self._branch(branch, loop, "%d.%d" % (place, turn))
        return found

    def _branch(self, branch: Branch, loop: Values, label: str) -> List[Row]:
        condition = branch.condition
        form = self.form(condition.left, loop).plus(self.form(condition.right, loop), -1)
        found = [Row("condition", None, form, condition, "the condition of branch %s" % label)]
        for statement, inner in self.unrolled(branch.body, loop):
            number = self.number(statement.target, inner)
            kind = "reinit" if statement.reinit else "set"
            label = "the statement that sets %s" % self.variables[number].name
            found.append(Row(kind, number, self.form(statement.value, inner), statement, label))
        return found

    def clauses(self) -> List[List[BranchRows]]:
        """The rows of each clause, branch by branch."""
        found: List[List[BranchRows]] = []
        for row in self.rows()[self.states :]:
            if row.kind != "condition":
                found[-1][-1][1].append(row)
            elif row.label.endswith(".1"):
                found.append([(row, [])])
            else:
                found[-1].append((row, []))
        return found

    # settings and units

    def bits(self, name: str) -> int:
        """A setting that counts bits."""
        value = self.settings[name]
        if value.denominator != 1 or not 0 <= value <= 64:
            raise Meaningless(self.model.end_at, "%s = %s is no count of bits" % (name, value))
        return int(value)

    def last_tick(self) -> int:
        return -(-self.settings["StopTime"] * 2 ** self.bits("QSS_TickBits") // 1)


def states_of(model: Model) -> Set[str]:
    """The names that are under `der` on a left side."""
    return {equation.target.name for equation in leaves(model.equations) if equation.der}


def role_of(declared: Declaration, states: Set[str]) -> str:
    """The role of a parameter or a variable; `states` has the names of all states."""
    if declared.prefix in ("parameter", "constant"):
        return PARAMETER
    if declared.prefix == "discrete":
        return DISCRETE
    return STATE if declared.name in states else ALGEBRAIC


def roles_of(model: Model) -> Dict[str, str]:
    """The role of each parameter and variable by its name."""
    states = states_of(model)
    return {one.name: role_of(one, states) for one in model.declarations}
