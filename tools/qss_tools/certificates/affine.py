"""The affine system of a model without `when` clauses, in the whole numbers of its machine."""
from fractions import Fraction
from typing import List, Protocol, Sequence, Tuple

from ..fault import Fault
from ..model.flat import Flat, Form, Meaningless
from ..runs.rows import Units

MOST_STATES = 16


class Read(Protocol):
    """A model that was read: its name, its meaning and its units."""

    model: str
    flat: Flat
    units: Units


class Affine:
    """State j rises in a tick by the sum of a[j][i] times the level of state i, and b[j]; a level has `unit` units of
    a state.
    """

    def __init__(self, run: Read) -> None:
        flat = run.flat
        try:
            rows = flat.rows()
        except Meaningless as error:
            raise Fault("%s: the model means no machine: %s" % (run.model, error)) from error
        if any(row.kind != "state" for row in rows):
            raise Fault("%s: traces and certificates need a model without `when` clauses" % run.model)
        if not 1 <= flat.states <= MOST_STATES:
            raise Fault(
                "%s: traces and certificates need a model with 1 to %d states, and this one has %d"
                % (run.model, MOST_STATES, flat.states)
            )
        units = run.units
        self.states = flat.states
        self.names = [one.name for one in flat.variables[: flat.states]]
        self.level_bits = units.level
        self.unit = 2 ** (units.state - units.level)
        self.starts = [round(value * 2**units.state) for value in flat.starts[: flat.states]]
        self.quanta = [int(one.quantum * 2**units.level // 1) for one in flat.variables[: flat.states]]
        coefficient = Fraction(2 ** (units.state - units.level - units.time))
        discretes = [round(value * 2**units.level) for value in flat.starts]
        systems = [self._row(row.form, coefficient, units, discretes) for row in rows]
        self.a = [row for row, _ in systems]
        self.b = [drive for _, drive in systems]

    def _row(self, form: Form, coefficient: Fraction, units: Units, discretes: Sequence[int]) -> Tuple[List[int], int]:
        """The coefficients of a state's equation, and what no level changes."""
        row, products, drive = (
            [0] * self.states,
            [0] * self.states,
            round(form.constant * 2**units.level * coefficient),
        )
        for key, value in form.parts.items():
            whole = round(value * coefficient)
            if key[0] == "product":
                products[key[1]] += whole * discretes[key[2]]
            elif key[1] < self.states:
                row[key[1]] += whole
            else:
                drive += whole * discretes[key[1]]
        return [one + round(Fraction(more, 2**units.level)) for one, more in zip(row, products)], drive

    def rises(self, levels: Sequence[int], scale: int) -> List[int]:
        """How much each state rises in a tick, in units that are `scale` times finer."""
        return [sum(a * level for a, level in zip(row, levels)) + scale * drive for row, drive in zip(self.a, self.b)]
