"""Arrays of whole numbers of any size, by numpy: each number is a sum of parts of 30 bits.

A part times a count below 2^32 fits into 64 bits, and so does a sum of parts whose weights add up to less than 2^32. So
sums over the ticks of a run are exact.
"""
from typing import Any, List, Optional, Sequence, Union

from ..arrays import load

np = load()

Array = Any  # of numpy
BITS = 30
MASK = (1 << BITS) - 1
SMALL = 62  # bits of a number that is kept in one part


class Wide:
    """An array of whole numbers: the sum of parts[k] * 2^(30 k). All parts but the last are from 0 to 2^30 - 1. A
    single part may have 62 bits.
    """

    __slots__ = ("parts",)

    def __init__(self, parts: Sequence[Array]) -> None:
        self.parts = list(parts)

    @classmethod
    def of(cls, numbers: Sequence[int]) -> "Wide":
        """From Python's whole numbers."""
        most = max((abs(number).bit_length() for number in numbers), default=0)
        if most <= SMALL:
            return cls([np.array(numbers, dtype=np.int64)])
        count = -(-(most + 1) // BITS)
        parts = [np.array([(one >> (BITS * k)) & MASK for one in numbers], dtype=np.int64) for k in range(count - 1)]
        return cls(parts + [np.array([one >> (BITS * (count - 1)) for one in numbers], dtype=np.int64)])

    def __len__(self) -> int:
        return len(self.parts[0])

    def __getitem__(self, places: Any) -> "Wide":
        return Wide([part[places] for part in self.parts])

    def number(self, place: int) -> int:
        """One number."""
        return sum(int(part[place]) << (BITS * k) for k, part in enumerate(self.parts))

    def numbers(self) -> List[int]:
        """All numbers."""
        lists = [part.tolist() for part in self.parts]
        if len(lists) == 1:
            return lists[0]
        return [sum(one << (BITS * k) for k, one in enumerate(ones)) for ones in zip(*lists)]

    def floats(self) -> Array:
        """The numbers, rounded."""
        found = self.parts[-1].astype(np.float64)
        for part in reversed(self.parts[:-1]):
            found = found * float(1 << BITS) + part
        return found

    def split(self) -> List[Array]:
        """The parts, each but the last of 30 bits."""
        if len(self.parts) > 1:
            return self.parts
        only = self.parts[0]
        if not len(only) or -(1 << BITS) <= int(only.min()) and int(only.max()) <= MASK:
            return [only]
        high = only >> BITS
        low = only & MASK
        if -(1 << BITS) <= int(high.min()) and int(high.max()) <= MASK:
            return [low, high]
        return [low, high & MASK, high >> BITS]

    def joined(self) -> "Wide":
        """The same numbers in one part, if they fit."""
        if len(self.parts) == 1:
            return self
        bound = self.bound()
        if bound.bit_length() > SMALL:
            return self
        total = self.parts[-1]
        for part in reversed(self.parts[:-1]):
            total = (total << BITS) + part
        return Wide([total])

    def bound(self) -> int:
        """A number that none passes in size."""
        top = self.parts[-1]
        if not len(top):
            return 0
        return (max(abs(int(top.min())), abs(int(top.max()))) + (len(self.parts) > 1)) << (BITS * (len(self.parts) - 1))

    # arithmetic

    def __add__(self, other: "Union[Wide, int]") -> "Wide":
        return added(self, as_wide(other), 1)

    def __sub__(self, other: "Union[Wide, int]") -> "Wide":
        return added(self, as_wide(other), -1)

    def __neg__(self) -> "Wide":
        return carried([-part for part in self.parts])

    def __mul__(self, other: "Union[Wide, int]") -> "Wide":
        other = as_wide(other)
        bits = self.bound().bit_length() + other.bound().bit_length()
        if bits <= SMALL and len(self.parts) == len(other.parts) == 1:
            return Wide([self.parts[0] * other.parts[0]])
        ones, others = self.split(), other.split()
        sums: List[Any] = [0] * (len(ones) + len(others) + 1)
        for i, one in enumerate(ones):
            for j, two in enumerate(others):
                both = one * two
                sums[i + j] = sums[i + j] + (both & MASK)
                sums[i + j + 1] = sums[i + j + 1] + (both >> BITS)
        return carried(sums).trimmed()

    __radd__, __rmul__ = __add__, __mul__

    def trimmed(self) -> "Wide":
        """Without upper parts that state the sign only."""
        parts = self.parts
        while len(parts) > 1:
            top, below = parts[-1], parts[-2]
            if not ((top == 0) | (top == -1)).all():
                break
            parts = parts[:-2] + [below + (top << BITS)]
        return Wide(parts).joined()

    def summed(self) -> "Wide":
        """The sums of the numbers up to each one."""
        if len(self.parts) == 1 and (self.bound() * max(1, len(self))).bit_length() <= SMALL:
            return Wide([np.cumsum(self.parts[0])])
        return carried([np.cumsum(part) for part in self.split()])

    def total(self) -> int:
        """The sum of all numbers."""
        return sum(int(part.sum()) << (BITS * k) for k, part in enumerate(self.split()))

    def weighed(self, weights: Array) -> int:
        """The sum of the numbers, each times its weight. The weights add up to less than 2^32."""
        return sum(int(np.dot(part, weights)) << (BITS * k) for k, part in enumerate(self.split()))

    # order

    def at_least(self, number: int) -> Array:
        """Whether each number is at least this one."""
        return ~self.below(number)

    def below(self, number: int) -> Array:
        """Whether each number is below this one."""
        if len(self.parts) == 1:
            least, greatest = -(1 << 63), (1 << 63) - 1
            if number > greatest:
                return np.ones(len(self), dtype=bool)
            return self.parts[0] < max(number, least)
        found = None
        for k, part in enumerate(self.parts):
            digit = number >> (BITS * k)
            if k + 1 < len(self.parts):
                digit &= MASK
            digit = max(min(digit, (1 << 62)), -(1 << 62))
            here = part < digit
            found = here if found is None else here | ((part == digit) & found)
        return found

    def least(self) -> int:
        """The least number."""
        return self.extreme(lambda part: part.min())

    def greatest(self) -> int:
        """The greatest number."""
        return self.extreme(lambda part: part.max())

    def extreme(self, chosen: Any) -> int:
        found = 0
        places: Any = None
        for k in reversed(range(len(self.parts))):
            part = self.parts[k] if places is None else self.parts[k][places]
            best = chosen(part)
            found += int(best) << (BITS * k)
            if k:
                here = np.flatnonzero(part == best)
                places = here if places is None else places[here]
        return found

    def equals(self, other: "Wide") -> Array:
        """Whether each number is the same as another one."""
        if len(self.parts) == len(other.parts) == 1:
            return self.parts[0] == other.parts[0]
        ones, others = self.split(), other.split()
        count = max(len(ones), len(others))
        found = part_of(ones, 0, count) == part_of(others, 0, count)
        for place in range(1, count):
            found &= part_of(ones, place, count) == part_of(others, place, count)
        return found

    def repeated(self, counts: Array) -> "Wide":
        return Wide([np.repeat(part, counts) for part in self.parts])


def near(rests: Array, about: Array) -> Wide:
    """The numbers that are `rests` modulo 2^64, from floats that are less than 2^62 away from them."""
    if not len(rests):
        return Wide([rests])
    if max(float(about.max()), -float(about.min())) < 2.0 ** (SMALL - 1):
        return Wide([rests])
    turns = about - rests
    turns *= 2.0**-64
    top = np.rint(turns, out=turns).astype(np.int64)
    top <<= 64 - 2 * BITS
    top += rests >> (2 * BITS)
    middle = rests >> BITS
    middle &= MASK
    return Wide([rests & MASK, middle, top])


def running(start: int, steps: Wide) -> Wide:
    """A start, and the sums of it and of the steps up to each one."""
    if len(steps.parts) == 1:
        about = np.empty(len(steps) + 1)
        about[0], about[1:] = start, steps.parts[0]
        about = np.cumsum(about, out=about)
        # (each sum is rounded, by at most 2^-53 of it)
        if len(about) * max(float(about.max()), -float(about.min())) < 2.0**112:
            rests = np.empty(len(steps) + 1, dtype=np.int64)
            rests[0], rests[1:] = (start + (1 << 63)) % (1 << 64) - (1 << 63), steps.parts[0]
            return near(np.cumsum(rests, out=rests), about)
    first = Wide.of([start])
    return joined_all([first, first + steps.summed()]) if len(steps) else first


def as_wide(number: Union[Wide, int]) -> Wide:
    return number if isinstance(number, Wide) else Wide.of([number])


def carried(sums: Sequence[Any]) -> Wide:
    """The number whose parts, each of at most 62 bits, are not yet of 30 bits."""
    parts = []
    carry: Any = 0
    for part in sums:
        value = part + carry
        parts.append(value & MASK)
        carry = value >> BITS
    # (the last carry is the sign, or further bits)
    if len(parts) and not isinstance(carry, int):
        if ((carry == 0) | (carry == -1)).all():
            parts[-1] = parts[-1] + (carry << BITS)
            return Wide(parts)
        parts.append(carry)
    return Wide(parts)


def added(one: Wide, other: Wide, sign: int) -> Wide:
    """A sum or a difference."""
    if len(one.parts) == len(other.parts) == 1 and max(one.bound(), other.bound()).bit_length() < SMALL:
        return Wide([one.parts[0] + other.parts[0] if sign > 0 else one.parts[0] - other.parts[0]])
    ones, others = one.split(), other.split()
    sums = []
    for k in range(max(len(ones), len(others))):
        low = ones[k] if k < len(ones) else 0
        high = others[k] if k < len(others) else 0
        sums.append(low + sign * high)
    return carried(sums)


def joined_all(some: Sequence[Wide]) -> Wide:
    """Arrays one after the other."""
    if len(some) == 1:
        return some[0]
    if all(len(one.parts) == 1 for one in some):
        return Wide([np.concatenate([one.parts[0] for one in some])])
    splits = [one.split() for one in some]
    count = max(map(len, splits))
    return Wide([np.concatenate([part_of(parts, k, count) for parts in splits]) for k in range(count)])


def part_of(parts: Sequence[Array], place: int, count: int) -> Array:
    """A part of numbers that get so many parts: the last one is spread over the upper ones."""
    last = len(parts) - 1
    if place < last or last == count - 1:
        return parts[place]
    shifted = parts[last] >> (BITS * (place - last))
    return shifted if place == count - 1 else shifted & MASK


def square_sum(one: Wide, other: Optional[Wide], weights: Array) -> int:
    """The sum of the products of two arrays (or of the squares of one), each times its weight. It is computed by
    products of matrices in floating point whose sums have at most 53 bits, and so is exact.
    """
    length = max(1, int(weights.sum())).bit_length()
    bits = (53 - length) // 2
    total = 0
    size = 1 << 15
    for begin in range(0, len(one), size):
        part = slice(begin, begin + size)
        left = digits(one[part], bits)
        right = left if other is None else digits(other[part], bits)
        sums = (left * weights[part].astype(np.float64)) @ right.T
        for i, row in enumerate(sums.tolist()):
            for j, value in enumerate(row):
                total += int(value) << (bits * (i + j))
    return total


def digits(numbers: Wide, bits: int) -> Array:
    """The digits of numbers in the base 2^bits, as rows of a matrix; the last digit has the sign."""
    most = numbers.bound().bit_length() + 1
    parts = numbers.split()
    mask = (1 << bits) - 1
    rows = []
    count = max(1, -(-most // bits))
    for k in range(count):
        place, shift = divmod(k * bits, BITS)
        if place >= len(parts):
            value = parts[-1] >> min(63, k * bits - BITS * (len(parts) - 1))
        else:
            value = parts[place] >> shift
            if place + 1 < len(parts) and BITS - shift < bits:
                value = value | (parts[place + 1] << (BITS - shift))
            elif place == len(parts) - 1:
                value = parts[place] >> shift
        rows.append((value if k == count - 1 else value & mask).astype(np.float64))
    return np.array(rows)
