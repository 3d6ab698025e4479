"""Statements of clauses, executed in floating point."""
from typing import List, Sequence

from ..model.flat import TIME, Flat, Row


class Statement:
    """A statement over states, discrete values, those before the clauses, and time."""

    def __init__(self, flat: Flat, row: Row) -> None:
        self.number, self.reinit = row.variable, row.kind == "reinit"
        self.parts = [(key, float(value)) for key, value in row.form.parts.items()]
        self.constant = float(row.form.constant)
        self.first = flat.states  # the number of the first discrete variable

    def run(self, time: float, states: List[float], discretes: List[float], before: Sequence[float]) -> None:
        """Sets the variable of the statement."""
        value = self.constant
        for key, weight in self.parts:
            if key == TIME:
                value += weight * time
            elif key[0] == "pre":
                value += weight * before[key[1] - self.first]
            elif key[1] < self.first:
                value += weight * states[key[1]]
            else:
                value += weight * discretes[key[1] - self.first]
        if self.reinit:
            states[self.number] = value
        else:
            discretes[self.number - self.first] = value
