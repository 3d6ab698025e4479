"""Expressions of variables and parameters, as 'uC*iL' or '(uC - u0)/R': sums of products, with exact coefficients.

A sum of variables is a piecewise linear function of time, and so is a product of a variable with discrete ones. A
product of two variables that move is piecewise quadratic: its mean and its integral are exact too.
"""
import ast
import difflib
import re
from fractions import Fraction
from math import lcm
from typing import Any, Dict, List, Mapping, Tuple

from ..fault import Fault
from ..model.flat import Meaningless
from .rows import Run

IS_EXPRESSION = re.compile(r"[-+*/()]")
LONGEST = 1000  # letters
MOST_TERMS = 1000
MOST_NAMES = 12  # in a fault
CLOSE = 0.5  # the likeness of names that are taken for one another

Key = Tuple[int, ...]  # the numbers of the variables of a product, in their order
Terms = Dict[Key, Fraction]


def is_expression(text: str) -> bool:
    """Whether a text is no name."""
    return bool(IS_EXPRESSION.search(text))


def is_computed(run: Run, text: str) -> bool:
    """Whether a text is an expression or the name of a parameter, and no variable."""
    return is_expression(text) or text in run.flat.parameters


def no_variable(run: Run, name: str) -> Fault:
    """The fault of a name that is no variable."""
    if name in run.flat.parameters:
        return Fault("'%s' is a parameter of %s and no variable" % (name, run.model))
    names = list(dict.fromkeys(one.declaration.name for one in run.flat.variables))
    known = names + list(run.flat.parameters)
    near = [one for one in known if one.lower() == name.lower()] or difflib.get_close_matches(name, known, 1, CLOSE)
    meant = " (did you mean '%s'?)" % near[0] if near else ""
    has = ["%s %s" % (kind, listed(some)) for kind, some in (("variables", names), ("parameters", known[len(names) :]))]
    return Fault("%s has no variable '%s'%s; it has the %s" % (run.model, name, meant, " and the ".join(has)))


def listed(names: List[str]) -> str:
    """Some names for a fault."""
    return (", ".join(names[:MOST_NAMES]) + (", .." if len(names) > MOST_NAMES else "")) or "(none)"


def split_outside(text: str, sign: str) -> List[str]:
    """The parts of a text between signs that are outside of parentheses."""
    parts, depth = [""], 0
    for one in text:
        depth += (one == "(") - (one == ")")
        if one == sign and depth <= 0:
            parts.append("")
        else:
            parts[-1] += one
    return [part.strip() for part in parts]


def terms_of(run: Run, text: str) -> Terms:
    """The products of an expression with their coefficients. An algebraic variable stands for its own sum."""
    if len(text) > LONGEST:
        raise Fault("an expression has at most %d letters" % LONGEST)
    try:
        tree = ast.parse(text.strip(), mode="eval")
    except (SyntaxError, ValueError, RecursionError, MemoryError) as error:
        raise Fault("'%s' is neither a variable of %s nor an expression" % (text, run.model)) from error
    return {key: value for key, value in Reader(run, text).terms(tree.body).items() if value}


class Reader:
    """Reads the tree of an expression."""

    def __init__(self, run: Run, text: str) -> None:
        self.run, self.text = run, text

    def fault(self, why: str) -> Fault:
        return Fault("'%s': %s" % (self.text, why))

    def terms(self, tree: Any) -> Terms:
        """The terms of a part of the expression."""
        if isinstance(tree, ast.BinOp):
            return self.both(tree)
        if isinstance(tree, ast.UnaryOp) and isinstance(tree.op, (ast.UAdd, ast.USub)):
            sign = -1 if isinstance(tree.op, ast.USub) else 1
            return {key: sign * value for key, value in self.terms(tree.operand).items()}
        if isinstance(tree, ast.Constant) and type(tree.value) in (int, float):
            return {(): Fraction(ast.get_source_segment(self.text.strip(), tree) or str(tree.value))}
        if isinstance(tree, (ast.Name, ast.Subscript)):
            return self.variable(tree)
        raise self.fault("an expression has variables, parameters, numbers, + - * / and parentheses")

    def both(self, tree: ast.BinOp) -> Terms:
        """The terms of a sum, a difference, a product or a quotient."""
        one, other = self.terms(tree.left), self.terms(tree.right)
        if isinstance(tree.op, (ast.Add, ast.Sub)):
            sign = 1 if isinstance(tree.op, ast.Add) else -1
            none = Fraction(0)
            return {key: one.get(key, none) + sign * other.get(key, none) for key in {**one, **other}}
        if isinstance(tree.op, ast.Mult):
            return self.product(one, other)
        if isinstance(tree.op, ast.Div):
            by = other.get((), Fraction(0))
            if set(other) - {()} or not by:
                raise self.fault("a divisor is a number or a parameter, and not 0")
            return {key: value / by for key, value in one.items()}
        raise self.fault("an expression has variables, parameters, numbers, + - * / and parentheses")

    def product(self, one: Terms, other: Terms) -> Terms:
        if len(one) * len(other) > MOST_TERMS:
            raise self.fault("this product has more than %d terms" % MOST_TERMS)
        found: Terms = {}
        for left, value in one.items():
            for right, weight in other.items():
                key = tuple(sorted(left + right))
                found[key] = found.get(key, Fraction(0)) + value * weight
        return found

    def variable(self, tree: Any) -> Terms:
        """A variable, or the sum that an algebraic one stands for, or the value of a parameter."""
        flat = self.run.flat
        name = ast.get_source_segment(self.text.strip(), tree) or ""
        name = name.replace(" ", "")
        if name in flat.parameters:
            return {(): flat.parameters[name]}
        number = flat.numbers.get(name)
        if number is None:
            raise no_variable(self.run, name)
        if number < flat.states + flat.discretes:
            return {(number,): Fraction(1)}
        try:
            form = flat.solved(number)
        except Meaningless as error:
            raise Fault("%s: %s" % (self.run.model, error.reason)) from error
        found: Terms = {(): form.constant} if form.constant else {}
        for key, value in form.parts.items():
            numbers = tuple(sorted(key[1:])) if key[0] == "product" else (key[1],)
            found[numbers] = found.get(numbers, Fraction(0)) + value
        return found


def variables_of(terms: Mapping[Key, Fraction]) -> List[int]:
    """The numbers of the variables of an expression."""
    return sorted({number for key in terms for number in key})


def denominator(terms: Mapping[Key, Fraction]) -> int:
    """The least number that makes all coefficients whole."""
    return lcm(1, *(value.denominator for value in terms.values()))


def states_in(run: Run, key: Key) -> int:
    """How many variables of a product move between events."""
    return sum(number < run.flat.states for number in key)


def degree(run: Run, terms: Mapping[Key, Fraction]) -> int:
    """How many moving variables a product has at most."""
    return max((states_in(run, key) for key in terms), default=0)


def level_terms(run: Run, text: str) -> Tuple[int, int, List[Tuple[int, Tuple[str, ...]]]]:
    """The expression over levels and discrete values, in whole numbers: what a value is divided by, the constant, and
    the weight of each product of names.
    """
    terms = terms_of(run, text)
    longest = max((len(key) for key in terms), default=0)
    below, bits = denominator(terms), run.units.level
    constant, found = 0, []
    for key, value in terms.items():
        weight = int(value * below) << (bits * (longest - len(key)))
        if key:
            found.append((weight, tuple(run.flat.variables[number].name for number in key)))
        else:
            constant = weight
    return below << (bits * longest), constant, found
