"""The decimals of many whole numbers at once, as bytes: their digits are looked up, four at a time."""
import functools
from typing import List, NamedTuple, Optional, Tuple

from ..arrays import load
from ..runs.wide import BITS, MASK, Array, Wide, carried

np = load()

CHUNK = 1 << 14  # numbers whose digits are computed at a time
GROUP = 4  # digits that are looked up at a time
TEN = 10**GROUP
MOST_LIMB = 49  # bits of a fraction in one part: times 10^4 it fits into 63 bits
MOST_WHOLE = 62  # bits of the whole part of a number
MINUS, POINT, ZERO = 45, 46, 48


class Parts(NamedTuple):
    """The absolute values of numbers: which are negative, whole parts, and fractions in limbs, the lowest first. All
    limbs but the last one have 30 bits, and the last one has `bits`.
    """

    negative: Array
    whole: Array
    limbs: List[Array]
    bits: int

    def at(self, chunk: slice) -> "Parts":
        """Those of some numbers."""
        limbs = [limb[chunk] for limb in self.limbs]
        return Parts(self.negative[chunk], self.whole[chunk], limbs, self.bits)


@functools.lru_cache(maxsize=None)
def groups() -> Tuple[Array, Array]:
    """The four digits of each number below 10^4, as 32 bits, and the same with bytes 0 for leading zeros."""
    digits = np.arange(TEN)[:, None] // 10 ** np.arange(GROUP - 1, -1, -1) % 10
    plain = (digits + ZERO).astype(np.uint8)
    short = np.where(np.cumsum(digits, axis=1) > 0, plain, 0).astype(np.uint8)
    return plain.view(np.uint32).ravel(), short.view(np.uint32).ravel()


def trailing_zeros(number: int) -> int:
    return (number & -number).bit_length() - 1 if number else 0


def decimals(numbers: Wide, bits: int) -> Optional[Array]:
    """The decimals of numbers times 2^-bits, with bytes 0 in place of digits that are left out, or None where a whole
    part is too large.
    """
    if not len(numbers):
        return np.zeros(0, dtype="S1")
    numbers, bits = shortened(numbers, bits)
    parts = parts_of(numbers, bits)
    if parts is None:
        return None
    most = len(str(int(parts.whole.max())))
    places = -(-most // GROUP), -(-bits // GROUP)
    found = np.empty((len(numbers), 2 + GROUP * sum(places)), dtype=np.uint8)
    for begin in range(0, len(numbers), CHUNK):
        chunk = slice(begin, begin + CHUNK)
        fill(found[chunk], parts.at(chunk), places, bits)
    return found.view("S%d" % found.shape[1]).ravel()


def shortened(numbers: Wide, bits: int) -> Tuple[Wide, int]:
    """The same numbers times another power of two, without the lowest bits that all of them have as 0."""
    parts = numbers.parts
    while len(parts) > 1 and bits >= BITS and not parts[0].any():
        parts, bits = parts[1:], bits - BITS
    if len(parts) > 1:
        return Wide(parts), bits
    shift = min(trailing_zeros(int(np.bitwise_or.reduce(parts[0]))), bits)
    return Wide([parts[0] >> shift]), bits - shift


def parts_of(numbers: Wide, bits: int) -> Optional[Parts]:
    """The parts of numbers times 2^-bits, or None where a whole part is too large."""
    negative = numbers.parts[-1] < 0
    if len(numbers.parts) == 1:
        sizes = np.abs(numbers.parts[0])
        if bits <= MOST_LIMB:
            return Parts(negative, sizes >> bits, [sizes & ((1 << bits) - 1)], bits)
        parts = [sizes & MASK, (sizes >> BITS) & MASK, sizes >> (2 * BITS)]
    else:
        sign = 1 - 2 * negative.astype(np.int64)
        parts = carried([part * sign for part in numbers.parts]).parts
    count, rest = divmod(bits, BITS)
    nothing = np.zeros(len(numbers), dtype=np.int64)
    parts = parts + [nothing] * (count + 1 - len(parts))
    limbs = parts[:count] + ([parts[count] & ((1 << rest) - 1)] if rest else [])
    whole = parts[count] >> rest
    for place, part in enumerate(parts[count + 1 :], 1):
        if int(part.max()).bit_length() + BITS * place - rest > MOST_WHOLE:
            return None
        whole = whole + (part << (BITS * place - rest))
    return Parts(negative, whole, limbs or [nothing], rest or BITS if bits else 0)


def fill(found: Array, parts: Parts, places: Tuple[int, int], bits: int) -> None:
    """Writes decimals into the rows of a matrix: a sign, whole parts and fractions of so many groups of digits."""
    plain, short = groups()
    found[:, 0] = np.where(parts.negative, MINUS, 0)
    whole = parts.whole
    for place in range(places[0] - 1, -1, -1):
        above = whole // TEN if place else np.zeros_like(whole)
        group = whole - above * TEN
        put(found, 1 + GROUP * place, np.where(above > 0, plain[group], short[group]))
        whole = above
    last = found[:, GROUP * places[0]]
    np.maximum(last, ZERO, out=last)  # (of zero the last digit is written)
    at = 1 + GROUP * places[0]
    found[:, at] = np.where(functools.reduce(np.bitwise_or, parts.limbs) != 0, POINT, 0)
    size = GROUP * places[1]
    if size:
        lengths = bits - lowest_bits(parts.limbs)
        for place, group in enumerate(fraction_groups(parts, places[1])):
            put(found, at + 1 + GROUP * place, plain[group])
        found[:, at + 1 :] *= np.arange(size) < lengths[:, None]


def put(found: Array, at: int, words: Array) -> None:
    """Writes four bytes in each row, from a column on."""
    np.ndarray((len(found),), "<u4", found, at, (found.shape[1],))[...] = words


def fraction_groups(parts: Parts, count: int) -> List[Array]:
    """The digits of fractions, four at a time."""
    limbs, found = list(parts.limbs), []
    top, mask = len(limbs) - 1, (1 << parts.bits) - 1
    for _ in range(count):
        carry = None
        for place, limb in enumerate(limbs):
            product = limb * TEN if carry is None else limb * TEN + carry
            carry = product >> (parts.bits if place == top else BITS)
            limbs[place] = product & (mask if place == top else MASK)
        found.append(carry)
    return found


def lowest_bits(limbs: List[Array]) -> Array:
    """The place of the lowest bit 1 of each fraction, or a large number where there is none."""
    none = 1 << 20
    found = np.full(len(limbs[0]), none, dtype=np.int64)
    for place in range(len(limbs) - 1, -1, -1):
        limb = limbs[place]
        lowest = np.frexp((limb & -limb).astype(np.float64))[1] - 1 + BITS * place
        found = np.where(limb != 0, lowest, found)
    return found
