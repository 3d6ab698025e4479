"""The rates of a model's modes: how fast its states move."""
import math
from typing import Dict, Iterator, List, Optional, Sequence, Set, Tuple

from ..model.flat import Flat, Key

System = List[Tuple[Dict[int, float], float]]

STEPS = 96  # of the iteration
MOST_MODES = 16  # discrete variables that are tried one by one


def modes(flat: Flat) -> Iterator[List[float]]:
    """Lists of discrete values: those of the start, and the same with one other value of a variable that multiplies a
    state.
    """
    start = [float(value) for value in flat.starts[flat.states : flat.states + flat.discretes]]
    yield start
    values = values_of_factors(flat)
    for number in sorted(values)[:MOST_MODES]:
        place = number - flat.states
        for value in sorted(values[number]):
            if value != start[place]:
                yield start[:place] + [value] + start[place + 1 :]


def values_of_factors(flat: Flat) -> Dict[int, Set[float]]:
    """The discrete variables that multiply a state, each with 0, 1 and the constants that statements give it."""
    keys = [key for row in flat.rows() if row.kind == "state" for key in row.form.parts]
    values = {key[2]: {0.0, 1.0} for key in keys if key[0] == "product"}
    for row in flat.rows():
        if row.kind == "set" and row.variable in values and not row.form.parts:
            values[row.variable].add(float(row.form.constant))
    return values


def float_rows(flat: Flat) -> list:
    """The states' equations in floating point, made once.

    Of each its entries (state or None, discrete variable or None, value), and its constant.
    """
    if flat.float_rows is None:
        flat.float_rows = [
            (
                [(*factors(flat, key), float(value)) for key, value in row.form.parts.items()],
                float(row.form.constant),
            )
            for row in flat.rows()[: flat.states]
        ]
    return flat.float_rows


def factors(flat: Flat, key: Key) -> Tuple[Optional[int], Optional[int]]:
    """The state and the place of the discrete variable that a coefficient of an equation multiplies, or None."""
    if key[0] == "product":
        return key[1], key[2] - flat.states
    return (key[1], None) if key[1] < flat.states else (None, key[1] - flat.states)


def matrix(flat: Flat, discrete: Sequence[float]) -> System:
    """Of each state's equation in a mode: its coefficients by state, and what does not depend on states."""
    rows = []
    for parts, rest in float_rows(flat):
        entries: Dict[int, float] = {}
        for state, place, value in parts:
            weight = value if place is None else value * discrete[place]
            if state is None:
                rest += weight
            else:
                entries[state] = entries.get(state, 0.0) + weight
        rows.append((entries, rest))
    return rows


def rate(rows: System) -> float:
    """The growth of the matrix of sizes: at least the size of every eigenvalue, whatever the units of the
    states are.
    """
    sizes = [[(column, abs(value)) for column, value in entries.items() if value] for entries, _ in rows]
    vector, grown = [1.0] * len(rows), []
    for step in range(STEPS):
        vector = [sum(value * vector[column] for column, value in row) for row in sizes]
        largest = max(vector, default=0.0)
        if largest == 0.0:
            return 0.0
        vector = [value / largest for value in vector]
        if step >= STEPS // 2:
            grown.append(math.log(largest))
    return math.exp(sum(grown) / len(grown))


def fastest(flat: Flat) -> float:
    """The largest rate of the model's modes, one over its unit of time; 0 where nothing moves by itself."""
    return max((rate(matrix(flat, discrete)) for discrete in modes(flat)), default=0.0)


def shortest_time(flat: Flat) -> Optional[float]:
    """The shortest time constant of the model, or None where it has none."""
    speed = fastest(flat)
    return 1.0 / speed if speed > 0.0 else None
