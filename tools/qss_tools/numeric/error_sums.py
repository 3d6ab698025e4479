"""How the quantization errors of the states act on each other in the modes of a model."""
from typing import List, Optional, Sequence

from ..model.flat import Flat
from .forms import impulse_sums
from .linear import Matrix, eigenvalues
from .rates import matrix, modes

MOST_STATES = 12  # of a model whose sums are computed
MOST_SUMMED = 6  # modes


def sums_by_mode(flat: Flat, horizon: float) -> List[Matrix]:
    """Of each mode the integrals of |exp(A s) A| up to a horizon: in row i and column j what an error of state j does
    to state i. None of a model with many states.
    """
    found: List[Matrix] = []
    if flat.states > MOST_STATES:
        return found
    for discretes in modes(flat):
        rows = matrix(flat, discretes)
        rates = [[entries.get(column, 0.0) for column in range(flat.states)] for entries, _ in rows]
        sums = impulse_sums(rates, eigenvalues(rates), horizon) if any(map(any, rates)) else None
        found += [sums] if sums is not None else []
        if len(found) == MOST_SUMMED:
            break
    return found


def shares_of(sums: Sequence[Matrix], state: int, quanta: Sequence[float]) -> Optional[List[float]]:
    """How much the quantum of each state acts on one state, in the mode in which it acts most."""
    if not sums:
        return None
    return [max(one[state][other] for one in sums) * quantum for other, quantum in enumerate(quanta)]
