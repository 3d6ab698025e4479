"""Tables from arrays: the lines of qss-table, and frames of pandas."""
import math
from fractions import Fraction
from typing import Any, Dict, List, NamedTuple, Optional, Sequence, Tuple

from ..arrays import load
from ..runs.bulk import Record, record_of
from ..runs.columns import Algebraic, AnyColumn
from ..output import Output
from ..runs.rows import Rows, exact
from ..runs.series import Series, Values, merged, overflow_of, places_of
from ..model.spelling import decimal_text
from ..runs.wide import Array, Wide
from .decimals import decimals, trailing_zeros

np = load()

CHUNK = 1 << 14  # lines that are written at a time
MOST_FRACTIONS = 12  # bits of a time whose fractions are looked up
MOST_KNOWN = 1 << 21  # of numbers that are looked up
COMMA, NEWLINE = 44, 10


class Choice(NamedTuple):
    """Which lines a table has: each multiple of a time or each tick with a change, from one time to another in the
    model's unit, with the branches that fired and with short values.
    """

    every: Optional[Fraction] = None
    begin: Optional[Fraction] = None
    end: Optional[Fraction] = None
    events: bool = False
    all_values: bool = False


class Table:
    """The values of columns at the ticks of lines."""

    def __init__(self, rows: Rows, columns: Sequence[AnyColumn], choice: Choice) -> None:
        self.run, self.columns, self.choice = rows.run, columns, choice
        needed = {name for column in columns for name in column.needs}
        with_states = any(not isinstance(column, Algebraic) and column.use_state for column in columns)
        until = None if choice.end is None else float(choice.end * 2**rows.run.units.time) + 3
        record = record_of(rows, [rows.run.names[name] for name in needed], with_states, until)
        self.overflow = overflow_of(record, rows.run)
        self.values = Values(rows, record, choice.all_values)
        self.values.check_started(columns)
        self.series = [self.values.exact(column) for column in columns]
        # (where rows are cut, some of the last tick may lack)
        self.last = rows.tick - 1 if rows.cut else rows.tick
        self.fired = firings_by_tick(record) if choice.events else {}
        if choice.every is None:
            self.ticks, self.steps = self.changes(), None
        else:
            self.ticks, self.steps = self.samples(choice.every)

    def changes(self) -> Array:
        """The ticks at which a column changes, or a branch fires."""
        some = [one.ticks for one in self.series]
        if self.fired:
            some.append(np.array(sorted(self.fired), dtype=np.int64))
        ticks = merged(some)
        ticks = ticks[ticks <= self.last]
        scale = 2**self.run.units.time
        if self.choice.begin is not None:
            first = max(0, math.ceil(self.choice.begin * scale))
            ticks = np.append([first], ticks[ticks > first]) if first <= self.last else ticks[:0]
        if self.choice.end is not None:
            ticks = ticks[ticks <= math.floor(self.choice.end * scale)]
        return ticks

    def samples(self, every: Fraction) -> Tuple[Array, range]:
        """The ticks at or before the multiples of a time, and which multiples these are."""
        step = every * 2**self.run.units.time
        first, last = 0, Fraction(self.run.last)
        if self.choice.begin is not None:
            first = math.ceil(self.choice.begin / every)
        if self.choice.end is not None:
            last = min(last, self.choice.end * 2**self.run.units.time)
        # (the value of the last tick holds for a tick)
        end = min(math.floor(last / step), math.ceil((self.last + 1) / step) - 1)
        steps = range(first, max(first, end + 1))
        above, below = step.numerator, step.denominator
        if above * max(1, end) < 2**62:
            return np.arange(steps.start, steps.stop, dtype=np.int64) * above // below, steps
        return np.array([one * above // below for one in steps], dtype=np.int64), steps

    def places(self, series: Series) -> Array:
        """The place of the value of each line."""
        return places_of(series.ticks, self.ticks)

    def times(self) -> Array:
        """The times of the lines, as floats."""
        if self.steps is not None:
            assert self.choice.every is not None
            return np.array([float(one * self.choice.every) for one in self.steps])
        return np.ldexp(self.ticks.astype(np.float64), -self.run.units.time)

    def event_texts(self) -> Tuple[List[str], Array]:
        """The branches that fired, as texts, and the place of the text of each line."""
        texts, found = [""], np.zeros(len(self.ticks), dtype=np.int64)
        gathered: Dict[int, List[str]] = {}
        every = self.choice.every
        for tick, labels in sorted(self.fired.items()):
            if every is None:
                place = int(np.searchsorted(self.ticks, tick))
                if place == len(self.ticks) or int(self.ticks[place]) != tick:
                    continue
            else:
                assert self.steps is not None
                place = max(math.ceil(Fraction(tick) / (every * 2**self.run.units.time)) - self.steps.start, 0)
            if place < len(self.ticks):
                gathered.setdefault(place, []).extend(labels)
        for place, labels in gathered.items():
            found[place] = len(texts)
            texts.append(" ".join(labels))
        return texts, found

    # what is written

    def fields(self) -> List[Tuple[Array, Array]]:
        """The fields of all lines after the time: of each its texts, and the place of the text of each line."""
        found = []
        for column, series in zip(self.columns, self.series):
            texts, which = texts_of(column, series)
            places = self.places(series)
            found.append((texts, places if which is None else which[places]))
        if self.choice.events:
            events, places = self.event_texts()
            found.append((np.array([text.encode() for text in events]), places))
        return found

    def time_fields(self) -> List[Tuple[Array, Array]]:
        """The times, or their whole parts and then their fractions."""
        bits, ticks = self.run.units.time, self.ticks
        if bits > MOST_FRACTIONS or not len(ticks) or int(ticks[-1] - ticks[0]) >> bits > len(ticks):
            texts = decimals(Wide([ticks]), bits)
            assert texts is not None  # (a tick has at most 32 bits)
            return [(texts, np.arange(len(ticks)))]
        first = int(ticks[0]) >> bits
        whole = decimals(Wide([np.arange(first, (int(ticks[-1]) >> bits) + 1)]), 0)
        parts = [exact(one, bits)[1:].encode() for one in range(1 << bits)]
        return [(whole, (ticks >> bits) - first), (np.array(parts), ticks & ((1 << bits) - 1))]

    def step_field(self) -> Tuple[Array, Array]:
        assert self.steps is not None and self.choice.every is not None
        texts = [decimal_text(one * self.choice.every).encode() for one in self.steps]
        return np.array(texts or [b""]), np.arange(len(texts))

    def write(self, output: Output) -> None:
        """Writes all lines."""
        names = ["time"] + [column.name for column in self.columns] + ["events"] * self.choice.events
        output.write(",".join(names) + "\n")
        times = [self.step_field()] if self.steps is not None else self.time_fields()
        fields = times + self.fields()
        width = sum(texts.dtype.itemsize + 1 for texts, _ in fields)
        for begin in range(0, len(self.ticks), CHUNK):
            chunk = slice(begin, begin + CHUNK)
            lines = np.zeros((len(self.ticks[chunk]), width), dtype=np.uint8)
            at = 0
            for number, (texts, places) in enumerate(fields, 1):
                size = texts.dtype.itemsize
                np.ndarray((len(lines),), texts.dtype, lines, at, (width,))[...] = texts[places[chunk]]
                at += size
                if number >= len(times):  # (the two parts of a time have no comma between them)
                    lines[:, at] = COMMA if number < len(fields) else NEWLINE
                    at += 1
            output.write_bytes(lines.tobytes().translate(None, b"\0"))

    def floats(self) -> List[Tuple[str, Array]]:
        """The name and the values of each column, in the model's units."""
        found = []
        for column, series in zip(self.columns, self.series):
            numbers = series.values.floats()
            if isinstance(column, Algebraic):
                numbers = numbers / float(column.below)
            else:
                numbers = np.ldexp(numbers, -column.bits)
            found.append((column.name, numbers[self.places(series)]))
        return found

    def frame(self) -> Any:
        """The table as a DataFrame of pandas: the index is the time, and each column has floats."""
        import pandas

        data: Dict[str, Any] = dict(self.floats())
        if self.choice.events:
            texts, places = self.event_texts()
            data["events"] = pandas.array([texts[place] or None for place in places.tolist()], dtype="string")
        return pandas.DataFrame(data, index=pandas.Index(self.times(), name="time"))


def firings_by_tick(record: Record) -> Dict[int, List[str]]:
    """The branches that fired at each tick, in their order."""
    from ..runs.bulk import WHEN

    found: Dict[int, List[str]] = {}
    places = np.flatnonzero(record.kinds == WHEN)
    for tick, label in zip(record.ticks[places].tolist(), record.names[places].tolist()):
        found.setdefault(tick, []).append(record.labels[label])
    return found


def looked_up(numbers: Array, most: int) -> Tuple[Optional[Array], Array]:
    """The numbers, each once and in their order, and the place of each; none where they are too far apart for this."""
    if not len(numbers):
        return numbers, numbers
    shift = trailing_zeros(int(np.bitwise_or.reduce(numbers)))
    small = numbers >> shift
    least = int(small.min())
    count = int(small.max()) - least + 1
    if count > most:
        return None, numbers
    small -= least
    present = np.zeros(count, dtype=bool)
    present[small] = True
    order = np.cumsum(present) - 1
    return (np.flatnonzero(present) + least) << shift, order[small]


def texts_of(column: AnyColumn, series: Series) -> Tuple[Array, Optional[Array]]:
    """The texts of the values of a column, and the place of the text of each value, or None if each has its own."""
    values, places = series.values, None
    if len(values.parts) == 1:
        is_computed = isinstance(column, Algebraic)
        known, places = looked_up(values.parts[0], MOST_KNOWN if is_computed else min(MOST_KNOWN, len(values)))
        if known is None and is_computed:
            known, places = np.unique(values.parts[0], return_inverse=True)
        values, places = (values, None) if known is None else (Wide([known]), places)
    texts = None if isinstance(column, Algebraic) else decimals(values, column.bits)
    if texts is None:
        texts = np.array([text_of(column, number).encode() for number in values.numbers()] or [b""])
    return texts, places


def text_of(column: AnyColumn, number: int) -> str:
    return column.text_of(number) if isinstance(column, Algebraic) else exact(number, column.bits)
