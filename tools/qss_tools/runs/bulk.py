"""Rows of a run as arrays, by numpy: blocks of bytes are parsed and checked as a whole.

A block that is not as expected is read line by line by `Rows`, which states what is wrong.
"""
import io
from typing import Collection, Dict, Iterator, List, NamedTuple, Optional, Sequence, Tuple

from ..arrays import load
from .rows import FOLLOWING, SECOND_BITS, Row, Rows, Run
from .wide import Array, Wide, joined_all, near

np = load()

KINDS = ("level", "when", "set", "reinit", "slope", "start", "end", "overflow")
LEVEL, WHEN, SET, REINIT, SLOPE, START, END, OVERFLOW = range(8)
PAD = 8  # bytes before and after a block, so that each load of eight bytes is within the buffer
COMMA, NEWLINE, MINUS, ZERO, NINE = 44, 10, 45, 48, 57
MOST_DIGITS = 32  # of a number: of a state 27
MOST_TICK_DIGITS = 16  # of a tick: of a run 10
FEW_NAMES = 12  # are found one by one
FEW = 8  # one row of so many is rare
NONE = -(1 << 31)  # the number of a name that is not known


class Record(NamedTuple):
    """Rows as arrays: ticks, the places of their events in KINDS, the numbers of their variables, levels and states. A
    row of a branch has the place of its label, and 0 stands where a row has no level or no state.
    """

    ticks: Array
    kinds: Array
    names: Array
    levels: Array
    states: Optional[Wide]
    labels: List[str]


class Fields(NamedTuple):
    """A block: its bytes as numbers, all loads of eight bytes of it, and the places of all separators by row."""

    raw: Array
    words: Array
    ends: List[Array]
    starts: List[Array]
    others: int  # how many bytes are neither digits nor separators


class Numbers(NamedTuple):
    """The numbers of a column, 0 where the field is empty, whether there is one, and how many have a sign."""

    values: Wide
    given: Array
    signs: int


class Format:
    """What is constant while rows are read: numbers that are looked up, and the names of a model."""

    def __init__(self, run: Run) -> None:
        ones = (1 << 64) - 1
        # by a number of digits, from -MOST_DIGITS on: what is kept of the last eight signs, as digits
        kept = [(ones << (8 * (8 - min(max(n, 0), 8)))) & ones for n in range(-MOST_DIGITS, MOST_DIGITS + 1)]
        self.upper = np.array([one & 0x0F0F0F0F0F0F0F0F for one in kept], dtype=np.uint64)
        self.lower = np.array([ones >> (8 * (8 - n)) if n else 0 for n in range(9)], dtype=np.uint64)
        self.kinds = np.array([int.from_bytes(kind.encode(), "little") for kind in KINDS], dtype=np.uint64)
        self.order_of_kinds = np.argsort(self.kinds).astype(np.uint8)
        self.sorted_kinds = self.kinds[self.order_of_kinds]
        follows = [[later in FOLLOWING[kind] for later in KINDS] for kind in KINDS]
        self.follows = np.array(follows, dtype=bool).ravel()
        self.run = run
        self.names = Names(list(run.names))
        self.others = np.array([count_others(name) for name in run.names] + [0], dtype=np.int64)
        self.is_state = np.arange(len(run.names) + 1) < run.flat.states
        # by kind: whether a row has a level, and whether a row of a state has a state
        self.has_level = np.array([kind not in ("when", "overflow", "reinit") for kind in KINDS])
        self.has_state = np.array([kind in ("level", "reinit", "start", "end") for kind in KINDS])

    def fields(self, block: bytes) -> Optional[Fields]:
        """The fields of a block of whole lines, or None where a line has not five."""
        raw = np.frombuffer(b"\n" * PAD + block + b"\n" * PAD, dtype=np.uint8)
        places = np.flatnonzero(raw <= COMMA)[PAD:-PAD]
        count = len(places) // 5
        if 5 * count != len(places) or not count:
            return None
        ends = [np.ascontiguousarray(one) for one in places.reshape(-1, 5).T]
        # (a newline ends each line, and no other byte is below a comma)
        if (raw[ends[4]] != NEWLINE).any() or np.count_nonzero(raw < COMMA) != count + 2 * PAD:
            return None
        first = np.empty_like(ends[0])
        first[0] = PAD
        np.add(ends[4][:-1], 1, out=first[1:])
        words = np.ndarray((len(raw) - 7,), "<u8", raw, strides=(1,))
        digits = raw - np.uint8(ZERO)
        others = np.count_nonzero(digits > NINE - ZERO) - len(places) - 2 * PAD
        return Fields(raw, words, ends, [first] + [end + 1 for end in ends[:4]], others)

    def text(self, fields: Fields, column: int) -> Tuple[Array, Array]:
        """The first eight bytes of a field, and its length."""
        lengths = fields.ends[column] - fields.starts[column]
        return fields.words[fields.starts[column]] & self.lower[np.minimum(lengths, 8)], lengths

    def chunk(self, fields: Fields, ends: Array, digits: Array, place: int) -> Array:
        """The number of the eight digits before the last 8 * place ones, or of fewer. Each sign is a digit."""
        if place:
            longer = np.flatnonzero(digits > 8 * place)
            if FEW * len(longer) < len(digits):
                found = np.zeros(len(digits), dtype=np.int64)
                if len(longer):
                    found[longer] = self.chunk(fields, ends[longer], digits[longer], place)
                return found
        masks = self.upper[MOST_DIGITS - 8 * place :]
        found = fields.words[ends - 8 * (place + 1)]
        found &= masks[digits]
        found *= np.uint64(2561)
        found >>= np.uint64(8)
        found &= np.uint64(0x00FF00FF00FF00FF)
        found *= np.uint64(6553601)
        found >>= np.uint64(16)
        found &= np.uint64(0x0000FFFF0000FFFF)
        found *= np.uint64(42949672960001)
        found >>= np.uint64(32)
        return found.view(np.int64)

    def ticks(self, fields: Fields) -> Optional[Array]:
        """The numbers of the first column, or None where one has no digit or too many. A sign is no digit."""
        digits = fields.ends[0] - fields.starts[0]
        most = int(digits.max())
        if most > MOST_TICK_DIGITS or not digits.all():
            return None
        found = self.chunk(fields, fields.ends[0], digits, 0)
        return found if most <= 8 else found + 10**8 * self.chunk(fields, fields.ends[0], digits, 1)

    def numbers(self, fields: Fields, column: int, places: Optional[Array] = None) -> Optional[Numbers]:
        """The whole numbers of a column, or of some rows, or None where one has too many digits or only a sign."""
        starts, ends = fields.starts[column], fields.ends[column]
        if places is not None:
            starts, ends = starts[places], ends[places]
        digits = ends - starts
        given = digits > 0
        negative = fields.raw[starts] == MINUS
        signs = np.count_nonzero(negative)
        if signs:
            digits -= negative
        most = int(digits.max())
        if most > MOST_DIGITS or signs and (negative & (digits == 0)).any():
            return None
        chunks = [self.chunk(fields, ends, digits, place) for place in range(max(1, -(-most // 8)))]
        return Numbers(from_chunks(chunks, negative if signs else None), given, signs)

    def events(self, fields: Fields) -> Optional[Array]:
        """The places of the events in KINDS, or None where there is another one."""
        texts, lengths = self.text(fields, 1)
        found = np.zeros(len(texts), dtype=np.uint8)
        others = np.flatnonzero(texts != self.kinds[LEVEL])
        if len(others):
            if int(lengths.max()) > 8:
                return None
            where = np.searchsorted(self.sorted_kinds, texts[others])
            kinds = self.order_of_kinds[np.minimum(where, len(KINDS) - 1)]
            if (self.kinds[kinds] != texts[others]).any():
                return None
            found[others] = kinds
        return found

    def others_of(self, kinds: Array, names: Array) -> int:
        """How many bytes of the events and of the names of variables are no digits."""
        counts = np.bincount(kinds, minlength=len(KINDS))
        known = np.bincount(names[names >= 0], minlength=len(self.others))
        return sum(int(count) * len(kind) for count, kind in zip(counts, KINDS)) + int(np.dot(known, self.others))

    def others_fit(self, kinds: Array, names: Array, has_level: Array, has_state: Array) -> bool:
        """Whether rows have the names, levels and states of their kinds."""
        is_when = kinds == WHEN
        if ((names == NONE) & ~is_when).any() or (has_level != self.has_level[kinds]).any():
            return False
        is_state = self.is_state[np.where(is_when, -1, names)]
        return bool((has_state == (self.has_state[kinds] & is_state)).all())

    def signs(self, fields: Fields, column: int) -> Tuple[Array, int]:
        """Whether each field of a column is not empty, and how many begin with a sign."""
        starts = fields.starts[column]
        return fields.ends[column] > starts, np.count_nonzero(fields.raw[starts] == MINUS)


def from_chunks(chunks: List[Array], negative: Optional[Array]) -> Wide:
    """Numbers from their digits, eight at a time, and their signs."""
    low = chunks[0]
    if len(chunks) > 1:
        low += chunks[1] * 10**8
    sign = None if negative is None else 1 - 2 * negative.astype(np.int64)
    if len(chunks) <= 2:
        return Wide([low if sign is None else low * sign])
    high = chunks[2] if len(chunks) == 3 else chunks[2] + chunks[3] * 10**8
    about = high * 1e16 + low
    low += high * 10**16  # (modulo 2^64)
    if sign is None:
        return near(low, about)
    return near(low * sign, about * sign)


def count_others(text: str) -> int:
    """How many signs of a text are no digits."""
    return sum(not "0" <= one <= "9" for one in text)


class Names:
    """The numbers of names, which are looked up by their bytes."""

    def __init__(self, names: Sequence[str]) -> None:
        self.count = len(names)
        self.longest = max(map(len, names), default=0)
        self.rows = max(1, -(-self.longest // 8))
        texts = [name.encode().ljust(8 * self.rows, b"\0") for name in names]
        self.keys = np.array(
            [[int.from_bytes(text[8 * k : 8 * k + 8], "little") for text in texts] for k in range(self.rows)],
            dtype=np.uint64,
        ).reshape(self.rows, len(names))
        self.hashes = self.hashed(list(self.keys))
        self.order = np.argsort(self.hashes, kind="stable")
        self.sorted = self.hashes[self.order]

    @staticmethod
    def hashed(keys: Sequence[Array]) -> Array:
        found = keys[0]
        for key in keys[1:]:
            found = found * np.uint64(0x9E3779B97F4A7C15) + key
        return found

    def find(self, form: Format, fields: Fields) -> Array:
        """The number of the name of each row, or NONE."""
        first, lengths = form.text(fields, 2)
        keys = [first]
        for row in range(1, self.rows):
            rest = (lengths - 8 * row).clip(0, 8)
            starts = np.minimum(fields.starts[2] + 8 * row, len(fields.words) - 1)
            keys.append(fields.words[starts] & form.lower[rest])
        found = np.full(len(first), NONE, dtype=np.int32)
        if not self.count:
            return found
        if self.count <= FEW_NAMES and self.rows == 1:
            for number, key in enumerate(self.keys[0].tolist()):
                found[first == np.uint64(key)] = number
        else:
            places = np.searchsorted(self.sorted, self.hashed(keys))
            numbers = self.order[np.minimum(places, self.count - 1)]
            same = lengths <= 8 * self.rows
            for known, key in zip(self.keys, keys):
                same &= known[numbers] == key
            found[same] = numbers[same]
        found[lengths > 8 * self.rows] = NONE
        return found


class Reader:
    """Reads rows into arrays, and keeps those of the variables that are wanted."""

    def __init__(self, rows: Rows, wanted: Optional[Collection[int]], with_states: bool) -> None:
        self.rows, self.run, self.with_states = rows, rows.run, with_states
        self.form = Format(rows.run)
        self.wanted: Optional[Array] = None
        if wanted is not None and len(set(wanted)) < len(rows.run.names):
            self.wanted = np.zeros(len(rows.run.names), dtype=bool)
            self.wanted[list(wanted)] = True
        self.labels: Dict[str, int] = {}
        self.found: List[Record] = []

    def read(self, until: Optional[float] = None) -> Record:
        """All rows, or those up to a tick."""
        blocks = self.rows.blocks()
        for block in blocks:
            record = self.parsed(block)
            if record is None:
                self.keep(self.by_lines(line_after(block, blocks)))
                break
            self.keep(record)
            if until is not None and self.rows.tick > until:
                break
        else:
            self.rows.finish()
        return self.joined()

    def keep(self, record: Record) -> None:
        """Keeps what is wanted of a block, or all of it where nearly all is wanted."""
        chosen = None
        if self.wanted is not None:
            is_named = (record.kinds != WHEN) & (record.kinds != OVERFLOW)
            chosen = ~is_named | self.wanted[np.where(is_named, record.names, 0)]
        if chosen is not None and FEW * np.count_nonzero(chosen) < (FEW - 1) * len(chosen):
            record = Record(
                record.ticks[chosen],
                record.kinds[chosen],
                record.names[chosen],
                record.levels[chosen],
                record.states[chosen] if record.states is not None else None,
                record.labels,
            )
        self.found.append(record)

    def joined(self) -> Record:
        """The blocks as one."""
        parts = self.found
        states = joined_all([one.states for one in parts if one.states is not None]) if self.with_states else None
        return Record(
            np.concatenate([one.ticks for one in parts]),
            np.concatenate([one.kinds for one in parts]),
            np.concatenate([one.names for one in parts]),
            np.concatenate([one.levels for one in parts]),
            states,
            list(self.labels),
        )

    def parsed(self, block: bytes) -> Optional[Record]:
        """A block as arrays, or None where a line is not as expected."""
        form = self.form
        fields = form.fields(block)
        if fields is None:
            return None
        ticks, levels = form.ticks(fields), form.numbers(fields, 3)
        all_states = self.with_states and not self.rows.trusted
        states = form.numbers(fields, 4) if all_states else None
        if ticks is None or levels is None or all_states and states is None:
            return None
        if len(levels.values.parts) > 1:
            return None
        has_state, signs = (states.given, states.signs) if states else form.signs(fields, 4)
        kinds, names = form.events(fields), form.names.find(form, fields)
        if kinds is None:
            return None
        kept = states.values if states else self.reinitialized(fields, kinds)
        if self.with_states and kept is None:
            return None
        record = Record(ticks, kinds, names, levels.values.parts[0], kept, [])
        others = form.others_of(kinds, names) + self.name_branches(fields, record)
        if fields.others != others + levels.signs + signs:
            return None
        if not self.fits(record, levels.given, has_state) or not self.starts_fit(record, fields):
            return None
        if self.run.order == 2:
            is_discrete = (names >= self.run.flat.states) & (kinds != WHEN)
            record.levels[is_discrete] <<= SECOND_BITS
        self.rows.number += len(kinds)
        self.rows.tick, self.rows.event = int(record.ticks[-1]), KINDS[int(kinds[-1])]
        return record

    def reinitialized(self, fields: Fields, kinds: Array) -> Optional[Wide]:
        """The states of the rows `reinit`, and 0 in all other rows; None if they are not wanted or no numbers."""
        if not self.with_states:
            return None
        places = np.flatnonzero(kinds == REINIT)
        if not len(places):
            return Wide([np.zeros(len(kinds), dtype=np.int64)])
        found = self.form.numbers(fields, 4, places)
        if found is None:
            return None
        parts = []
        for part in found.values.parts:
            parts.append(np.zeros(len(kinds), dtype=np.int64))
            parts[-1][places] = part
        return Wide(parts)

    def fits(self, record: Record, has_level: Array, has_state: Array) -> bool:
        """Whether the rows of a block are valid, and in order."""
        form, rows, run = self.form, self.rows, self.run
        ticks, kinds, names = record.ticks, record.kinds, record.names
        if int(ticks[0]) < rows.tick or (ticks[1:] < ticks[:-1]).any():
            return False
        # nearly all rows are of kind `level`: they have a level and the state of a state, and any row may be between
        is_other = kinds != LEVEL
        plain = names.view(np.uint32) < run.flat.states
        plain &= has_level
        plain &= has_state
        plain |= is_other
        others = np.flatnonzero(is_other)
        if not plain.all() or not form.others_fit(kinds[others], names[others], has_level[others], has_state[others]):
            return False
        after = np.minimum(others + 1, len(kinds) - 1)
        if not (form.follows[kinds[others - 1] * np.uint8(8) + kinds[others]] | (others == 0)).all():
            return False
        if not (form.follows[kinds[others] * np.uint8(8) + kinds[after]] | (after == others)).all():
            return False
        if not form.follows[KINDS.index(rows.event) * 8 + int(kinds[0])]:
            return False
        first = int(np.searchsorted(ticks, 1))
        if (kinds[first:] == START).any() or np.isin(kinds[:first], (LEVEL, WHEN, SET, REINIT)).any():
            return False
        return not (run.order == 1 and (kinds == SLOPE).any() or (ticks[kinds == END] != run.last).any())

    def starts_fit(self, record: Record, fields: Fields) -> bool:
        """Whether the start rows of a block are those of the model."""
        run = self.run
        for place in np.flatnonzero(record.kinds == START).tolist():
            number, level = int(record.names[place]), int(record.levels[place])
            state = fields.raw[fields.starts[4][place] : fields.ends[4][place]].tobytes()
            if run.order == 2 and not state:
                level <<= SECOND_BITS
            if (level, int(state) if state else None) != run.start_fields(number):
                return False
        return True

    def name_branches(self, fields: Fields, record: Record) -> int:
        """Gives each row of a branch the place of its label; how many signs of these labels are no digits."""
        places = np.flatnonzero(record.kinds == WHEN)
        if not len(places):
            return 0
        starts, ends = fields.starts[2][places], fields.ends[2][places]
        lengths = ends - starts
        if int(lengths.max()) > 8:
            first = which = np.arange(len(places))
        else:
            keys = fields.words[starts] & self.form.lower[lengths]
            _, first, which = np.unique(keys, return_index=True, return_inverse=True)
        texts = [fields.raw[starts[i] : ends[i]].tobytes().decode("ascii", "replace") for i in first.tolist()]
        record.names[places] = np.array([self.label(text) for text in texts], dtype=np.int32)[which]
        counts = np.bincount(which, minlength=len(texts)).tolist()
        return sum(count * count_others(text) for count, text in zip(counts, texts))

    def label(self, text: str) -> int:
        return self.labels.setdefault(text, len(self.labels))

    def by_lines(self, lines: Iterator[str]) -> Record:
        """All further rows, read line by line."""
        return self.packed(list(self.rows.following(lines)))

    def packed(self, found: List[Row]) -> Record:
        names = self.run.names
        numbers = [self.label(one[2]) if one[1] == "when" else names[one[2]] for one in found]
        return Record(
            np.array([one[0] for one in found], dtype=np.int64),
            np.array([KINDS.index(one[1]) for one in found], dtype=np.uint8),
            np.array(numbers, dtype=np.int32),
            np.array([one[3] or 0 for one in found], dtype=np.int64),
            Wide.of([one[4] or 0 for one in found]) if self.with_states else None,
            [],
        )


def line_after(block: bytes, blocks: Iterator[bytes]) -> Iterator[str]:
    """The lines of a block and of all further ones."""
    while True:
        yield from io.StringIO(block.decode("ascii", "replace"), newline="\n")
        following = next(blocks, None)
        if following is None:
            return
        block = following


def record_of(
    rows: Rows, wanted: Optional[Collection[int]] = None, with_states: bool = False, until: Optional[float] = None
) -> Record:
    """The rows of these variables as arrays."""
    return Reader(rows, wanted, with_states).read(until)
