"""Whether the bounds of a certificate are of use: whether they are smaller than what the states do."""
from typing import List, NamedTuple, Sequence

from ..model.flat import Flat
from ..numeric.linear import solved
from ..numeric.rates import matrix
from ..numeric.trial import Trial

MOST_WORK = 6000000  # of a rough run that shows the sizes of the states
AT_REST = 0.01  # of the size that a state reaches: a smaller step is no step


class Size(NamedTuple):
    """How far a state goes: its step from its start to its rest, or the size that it reaches if it has no step."""

    value: float
    is_step: bool


class Use(NamedTuple):
    """The state whose bound is the largest part of its size."""

    name: str
    times: float  # its bound over its size
    size: Size

    @property
    def is_of_use(self) -> bool:
        return self.times <= 1

    def text(self) -> str:
        """The sentence for a certificate that is of no use."""
        what = "the step" if self.size.is_step else "the size"
        value = f"{self.times:.2g} times {what}, which is {self.size.value:.4g}"
        return f"accepted, but of no use: E of {self.name} is {value}"


def sizes_of(flat: Flat) -> List[Size]:
    """The size of each state of a model without clauses."""
    discretes = [float(value) for value in flat.starts[flat.states : flat.states + flat.discretes]]
    rows = matrix(flat, discretes)
    rates = [[entries.get(column, 0.0) for column in range(flat.states)] for entries, _ in rows]
    rest = solved(rates, [-constant for _, constant in rows])
    reached = Trial(flat, MOST_WORK).size
    found = []
    for number, largest in enumerate(reached):
        step = abs(rest[number] - float(flat.starts[number])) if rest is not None else 0.0
        found.append(Size(step, True) if step > AT_REST * largest else Size(largest, False))
    return found


def use_of(names: Sequence[str], bounds: Sequence[float], sizes: Sequence[Size]) -> Use:
    """How useful bounds are, by the state for which they are the worst. States that do not move are left out."""
    uses = [Use(name, bound / size.value, size) for name, bound, size in zip(names, bounds, sizes) if size.value]
    return max(uses, key=lambda one: one.times, default=Use("", 0.0, Size(0.0, False)))
