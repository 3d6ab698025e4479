"""States that clauses turn, such as the carrier of a PWM: their slope depends on discrete variables only.

A condition with a strict relation, such as `tri > 1`, holds a tick later than `tri >= 1` if the state meets the value
exactly at a tick. Then each turn is a tick late.
"""
from dataclasses import dataclass
from fractions import Fraction
from typing import Iterator, List, Optional

from ..model.flat import BranchRows, Flat, Form, Row

STRICT = (">", "<")


@dataclass(frozen=True)
class Turn:
    """A branch that turns a state: the condition, and the ticks between two turns if both meet their values."""

    state: int
    condition: Row
    distance: Fraction  # from the start of the state to the value of the condition
    slope: Fraction  # the absolute slope at the start, per unit of time

    @property
    def is_strict(self) -> bool:
        return self.condition.part.relation in STRICT

    def ticks(self, tick: Fraction) -> Fraction:
        """How many ticks the state takes for the distance."""
        return abs(self.distance) / (self.slope * tick)

    def is_exact(self, tick: Fraction) -> bool:
        """Whether the state meets the value of the condition at a tick."""
        return self.ticks(tick).denominator == 1


def turns(flat: Flat) -> Iterator[Turn]:
    """The branches that turn a state."""
    for condition, statements in (branch for clause in flat.clauses() for branch in clause):
        state = turned(flat, (condition, statements))
        if state is None:
            continue
        value = crossing(flat, condition.form, state)
        slope = abs(at_start(flat, flat.rows()[state].form))
        if slope:
            yield Turn(state, condition, value - flat.starts[state], slope)


def turned(flat: Flat, branch: BranchRows) -> Optional[int]:
    """The state that a branch turns: its condition reads this state alone, whose slope the branch sets anew."""
    condition, statements = branch
    states = [key[1] for key in condition.form.parts if key[0] == "x" and key[1] < flat.states]
    if len(states) != 1 or any(key[0] not in ("x", "pre") for key in condition.form.parts):
        return None
    slope = flat.rows()[states[0]].form
    if any(key[0] != "x" or key[1] < flat.states for key in slope.parts):
        return None
    reads = {key[1] for key in slope.parts}
    sets = {one.variable for one in statements if one.kind == "set"}
    return states[0] if reads & sets else None


def at_start(flat: Flat, form: Form) -> Fraction:
    """The value of a form of discrete variables at the start."""
    return form.constant + sum(value * flat.starts[key[1]] for key, value in form.parts.items())


def crossing(flat: Flat, form: Form, state: int) -> Fraction:
    """The value of a state at which the form of a condition is 0."""
    rest = Form({key: value for key, value in form.parts.items() if key != ("x", state)}, form.constant)
    return -at_start(flat, rest) / form.parts[("x", state)]


def strict_turns(flat: Flat) -> List[Turn]:
    """The turns whose relation is strict."""
    return [one for one in turns(flat) if one.is_strict]
