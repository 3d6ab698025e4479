"""The values of variables over the ticks of a run, as arrays of numpy."""
from typing import Any, Dict, NamedTuple, Optional, Sequence, Tuple

from ..arrays import load
from .bulk import OVERFLOW, REINIT, SLOPE, START, WHEN, Record
from .columns import Algebraic, AnyColumn
from ..fault import Fault
from .rows import Rows, Run
from .wide import Array, Wide

np = load()

NEAR = 4  # ticks for each tick of an array, so that all ticks are looked up in a table


class Series(NamedTuple):
    """The ticks at which a value changes, in their order, and the whole number from each of them on."""

    ticks: Array
    values: Wide


def series_of(record: Record, places: Array, states: bool = False) -> Series:
    """The levels of a variable from its rows, or the states: the last one of each tick, where it is another one."""
    ticks = record.ticks[places]
    last = np.ones(len(ticks), dtype=bool)
    np.not_equal(ticks[1:], ticks[:-1], out=last[:-1])
    if not last.all():
        ticks, places = ticks[last], places[last]
    if states:
        assert record.states is not None
        return changes_of(Series(ticks, record.states[places]))
    return changes_of(Series(ticks, Wide([record.levels[places]])))


def changes_of(series: Series) -> Series:
    """Without the ticks at which the value stays the same."""
    changed = np.zeros(len(series.ticks), dtype=bool)
    changed[:1] = True
    for part in series.values.parts:
        changed[1:] |= part[1:] != part[:-1]
    if changed.all():
        return series
    return Series(series.ticks[changed], series.values[changed])


def steady(series: Series) -> Series:
    """Without values that hold for one tick only, between values that hold for longer (see rows.Steady)."""
    ticks = series.ticks
    if len(ticks) < 2:
        return series
    holds = np.full(len(ticks), 2, dtype=np.int64)
    holds[:-1] = np.diff(ticks)
    short = np.zeros(len(ticks), dtype=bool)
    short[1:-1] = (holds[1:-1] == 1) & (holds[:-2] > 1) & (holds[2:] > 1)
    if not short.any():
        return series
    return changes_of(Series(ticks[~short], series.values[~short]))


def firings(record: Record) -> Dict[str, Array]:
    """The ticks at which each branch fired, by its label."""
    places = np.flatnonzero(record.kinds == WHEN)
    ticks, labels = record.ticks[places], record.names[places]
    return {label: ticks[labels == place] for place, label in enumerate(record.labels)}


def overflow_of(record: Record, run: Run) -> Optional[Tuple[int, str]]:
    """The tick and the name of an overflow, or None."""
    places = np.flatnonzero(record.kinds == OVERFLOW)
    if not len(places):
        return None
    return int(record.ticks[places[0]]), list(run.names)[int(record.names[places[0]])]


class Places:
    """The places of the rows of each variable that state a value of it."""

    def __init__(self, record: Record) -> None:
        kinds = record.kinds
        unfit = (kinds == WHEN) | (kinds == SLOPE) | (kinds == OVERFLOW)
        valued = np.flatnonzero(~unfit) if unfit.any() else None
        names = record.names if valued is None else record.names[valued]
        most = int(names.max()) + 1 if len(names) else 0
        # (few bits are sorted faster)
        order = np.argsort(names.astype(np.uint16) if most < 1 << 16 else names, kind="stable")
        self.ends = np.cumsum(np.bincount(names, minlength=most)).tolist() if most else []
        self.order = order if valued is None else valued[order]
        self.is_set_anew = kinds == REINIT if (kinds == REINIT).any() else None

    def of(self, number: int, with_state: bool) -> Array:
        """The rows of a variable: those with a level or, of a state, those with the state."""
        if number >= len(self.ends):
            return self.order[:0]
        found = self.order[self.ends[number - 1] if number else 0 : self.ends[number]]
        if with_state or self.is_set_anew is None:
            return found
        return found[~self.is_set_anew[found]]


class Values:
    """The series of the variables of a run, each computed once."""

    def __init__(self, rows: Rows, record: Record, all_values: bool) -> None:
        self.run, self.record, self.all_values = rows.run, record, all_values
        self.known: Dict[Tuple[int, bool], Series] = {}
        self.places = Places(record)
        started = np.unique(record.names[record.kinds == START]).tolist()
        self.started = {list(rows.run.names)[number] for number in started}
        self.name = rows.name

    def check_started(self, columns: Sequence[AnyColumn]) -> None:
        """Each column has its values from the start on."""
        missing = {name for column in columns for name in column.needs} - self.started
        if missing:
            raise Fault("%s: there are no rows of '%s' (were they filtered by --only?)" % (self.name, min(missing)))

    def series(self, name: str, states: bool = False) -> Series:
        number = self.run.names[name]
        found = self.known.get((number, states))
        if found is None:
            found = series_of(self.record, self.places.of(number, states), states)
            if number >= self.run.flat.states and not self.all_values:
                found = steady(found)
            self.known[number, states] = found
        return found

    def exact(self, column: AnyColumn) -> Series:
        """The series of a column, in its whole numbers."""
        if not isinstance(column, Algebraic):
            return self.series(column.name, column.use_state)
        some = {name: self.series(name) for name in column.needs}
        ticks = merged([one.ticks for one in some.values()])
        filled = {name: one.values[places_of(one.ticks, ticks)] for name, one in some.items()}
        total = Wide([np.zeros(len(ticks), dtype=np.int64)]) + column.constant
        for weight, names in column.terms:
            product: Any = weight
            for name in names:
                product = filled[name] * product
            total = total + product
        return changes_of(Series(ticks, total.trimmed()))

    def floats(self, column: AnyColumn) -> Tuple[Array, Array]:
        """The ticks and the values of a column in the model's units."""
        if not isinstance(column, Algebraic):
            found = self.exact(column)
            return found.ticks, found.values.floats() * 2.0**-column.bits
        some = {name: self.series(name) for name in column.needs}
        ticks = merged([one.ticks for one in some.values()])
        filled = {name: one.values.floats()[places_of(one.ticks, ticks)] for name, one in some.items()}
        total = np.full(len(ticks), column.constant / column.below)
        for weight, names in column.terms:
            total += weight / column.below * np.prod([filled[name] for name in names], axis=0)
        return ticks, total


def merged(some: Sequence[Array]) -> Array:
    """All ticks of some arrays, in their order, each once."""
    if len(some) == 1:
        return some[0]
    if not some:
        return np.zeros(1, dtype=np.int64)
    span = 1 + max((int(one[-1]) for one in some if len(one)), default=0)
    if span <= NEAR * sum(map(len, some)):
        present = np.zeros(span, dtype=bool)
        for one in some:
            present[one] = True
        return np.flatnonzero(present)
    found = np.concatenate(some)
    found.sort(kind="stable")
    first = np.ones(len(found), dtype=bool)
    first[1:] = found[1:] != found[:-1]
    return found[first]


def places_of(changes: Array, ticks: Array) -> Array:
    """The place of the value that holds at each tick, if values change at these ticks. Both arrays are in order."""
    if not len(ticks) or not len(changes):
        return np.zeros(len(ticks), dtype=np.int64)
    if NEAR * len(changes) < len(ticks):
        firsts = np.append(np.searchsorted(ticks, changes), len(ticks))
        firsts[0] = 0
        return np.repeat(np.arange(len(changes)), np.diff(firsts))
    span = int(ticks[-1]) + 1
    if span > NEAR * len(ticks):
        return np.maximum(np.searchsorted(changes, ticks, "right") - 1, 0)
    present = np.zeros(span, dtype=bool)
    present[changes[: np.searchsorted(changes, span)]] = True
    return np.maximum(np.cumsum(present)[ticks] - 1, 0)
