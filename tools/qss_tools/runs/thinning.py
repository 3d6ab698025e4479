"""Curves with few points: of each column of pixels the first, the least, the greatest and the last point are kept."""
from typing import Any, List, Tuple

from ..arrays import load
from .wide import Array

np = load()

MANY = 8  # changes in a column, on average, of which values that hold are thinned before they become lines
Points = List[Tuple[float, float]]


def thinned(ticks: Array, values: Array, window: Tuple[float, float], columns: int) -> Points:
    """Straight lines between points: within a window, of each column at most the first, the least, the greatest and the
    last point.
    """
    ticks, values = clipped(ticks, values, *window)
    begin, end = window
    if len(ticks) > 4 * columns and end > begin:
        keep = kept(columns_of(ticks, window, columns), values)
        ticks, values = ticks[keep], values[keep]
    return points(ticks, values)


def points(ticks: Array, values: Array) -> Points:
    return list(zip(ticks.tolist(), values.tolist()))


def columns_of(ticks: Array, window: Tuple[float, float], columns: int) -> Array:
    """The column of each tick of a window."""
    begin, end = window
    return ((ticks - begin) * (columns / (end - begin))).astype(np.int64)


def thinned_steps(ticks: Array, values: Array, last: float, window: Tuple[float, float], columns: int) -> Points:
    """The same of values that hold up to the next one, and up to a last tick."""
    begin, end = window
    first, stop = np.searchsorted(ticks, begin, "left"), np.searchsorted(ticks, end, "right")
    starts = np.zeros(0, dtype=np.int64)
    if end > begin and stop - first > MANY * columns:
        places = columns_of(ticks[first:stop], window, columns)
        starts = np.flatnonzero(places[1:] != places[:-1]) + (1 + first)
    if len(starts) < 2:
        return thinned(*held(ticks, values, last), window, columns)
    # the first and the last column are thinned as lines: there the window cuts lines
    low, high = int(starts[0]), int(starts[-1])
    before, after = max(int(first) - 1, 0), high - 1
    head = [some[:-1] for some in held(ticks[before:low], values[before:low], 0)]
    tail = [some[1:] for some in held(ticks[after:], values[after:], last)]
    found = []
    for one, other in (head, tail):
        one, other = clipped(one, other, *window)
        keep = kept(columns_of(one, window, columns), other)
        found.append(points(one[keep], other[keep]))
    return found[0] + steps_between(ticks, values, starts) + found[1]


def steps_between(ticks: Array, values: Array, starts: Array) -> Points:
    """The points of the columns that begin at these places, but of the last one. A step has two points: of the value
    before it, and of its own.
    """
    low, counts = int(starts[0]), np.diff(starts)
    keep = np.repeat(counts <= 2, 2 * counts)
    keep[2 * (starts[:-1] - low)] = True
    keep[2 * (starts[1:] - low) - 1] = True
    for begin, end in zip(starts[:-1].tolist(), starts[1:].tolist()):
        some, before = values[begin:end], values[begin - 1]
        for best, is_first in ((int(some.argmin()), before.__le__), (int(some.argmax()), before.__ge__)):
            if not is_first(some[best]):
                keep[2 * (begin + best - low) + 1] = True
    found = np.flatnonzero(keep)
    places = (found >> 1) + low
    return points(ticks[places].astype(np.float64), values[places - 1 + (found & 1)])


def kept(places: Array, values: Array) -> Array:
    """The points that are kept, given the column of each."""
    starts = np.flatnonzero(np.diff(places, prepend=places[0] - 1))
    counts = np.diff(starts, append=len(places))
    keep = np.repeat(counts <= 4, counts)
    keep[starts] = True
    keep[starts + counts - 1] = True
    group = np.repeat(np.arange(len(starts)), counts)
    for best in (np.minimum.reduceat(values, starts), np.maximum.reduceat(values, starts)):
        found = np.flatnonzero(values == best[group])
        groups = group[found]
        keep[found[np.diff(groups, prepend=-1) > 0]] = True
    return keep


def clipped(ticks: Array, values: Array, begin: float, end: float) -> Tuple[Array, Array]:
    """The part of straight lines between two ticks."""
    if not len(ticks):
        return ticks, values
    first = int(np.searchsorted(ticks, begin, "left"))
    last = int(np.searchsorted(ticks, end, "right"))
    head = [at(ticks, values, first, begin)] if 0 < first < len(ticks) and ticks[first] > begin else []
    tail = [at(ticks, values, last, end)] if 0 < last < len(ticks) and ticks[last - 1] < end else []
    inner, inside = ticks[first:last], values[first:last]
    if head or tail:
        inner = np.concatenate([[begin] * len(head), inner, [end] * len(tail)])
        inside = np.concatenate([head, inside, tail])
    return inner, inside


def at(ticks: Array, values: Array, place: int, tick: float) -> Any:
    """The value at a tick, on the line that ends at a place."""
    begin, end = ticks[place - 1], ticks[place]
    return values[place - 1] + (values[place] - values[place - 1]) * (tick - begin) / (end - begin)


def held(ticks: Array, values: Array, last: float) -> Tuple[Array, Array]:
    """Values that hold up to the next one, as straight lines, up to a last tick."""
    across = np.repeat(np.asarray(ticks, dtype=np.float64), 2)
    upward = np.repeat(np.asarray(values, dtype=np.float64), 2)
    return np.append(across[1:], max(last, float(across[-1]))), upward
