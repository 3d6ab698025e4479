"""How the settings round the coefficients of a model's equations, and the bits that keep them."""
import math
from collections import namedtuple
from fractions import Fraction
from typing import Iterator, Optional, Tuple

from ..model.flat import Flat
from .limits import COEFFICIENT_BITS, MOST_COEF_AND_TICK_BITS, MOST_COEF_BITS, key_name, log2

GOOD_CHANGE = Fraction(1, 10**6)

Rounding = namedtuple("Rounding", "change sentence")
Rounding.__doc__ = "The largest relative change of a coefficient or a constant, and a sentence about it."


def kept(value: Fraction, bits: int) -> Fraction:
    """The multiple of 2^-bits that a value is rounded to."""
    return Fraction(round(value * 2**bits), 2**bits)


def parts_of(flat: Flat) -> Iterator[Tuple[str, str, Fraction, int]]:
    """Each coefficient and constant of the equations: its label, what it is of, its value, and the bits that it
    is kept with in addition to QSS_CoefBits.
    """
    for row in flat.rows():
        if row.kind != "state":
            continue
        for key, value in row.form.parts.items():
            yield row.label, "the coefficient of " + key_name(flat, key), value, 0
        if row.form.constant:
            yield row.label, "the constant", row.form.constant, flat.bits("QSS_LevelBits")


def largest_change(flat: Flat, bits: int) -> Tuple[Fraction, Optional[str], Optional[str]]:
    """The largest relative change with this number of coefficient bits, with its label and what it is of."""
    worst: Tuple[Fraction, Optional[str], Optional[str]] = (Fraction(0), None, None)
    for label, what, value, more in parts_of(flat):
        change = abs(kept(value, bits + more) - value) / abs(value)
        if change > worst[0]:
            worst = change, label, what
    return worst


def most_bits(flat: Flat) -> int:
    """The most coefficient bits that the other limits allow."""
    greatest = max((abs(value) for _, what, value, more in parts_of(flat) if not more), default=1)
    return min(
        MOST_COEF_BITS,
        MOST_COEF_AND_TICK_BITS - flat.bits("QSS_TickBits"),
        COEFFICIENT_BITS - 1 - math.ceil(log2(greatest or 1)),
    )


def rounding(flat: Flat) -> Rounding:
    """How the settings of a model round its coefficients."""
    p = flat.bits("QSS_CoefBits")
    change, label, what = largest_change(flat, p)
    if not change:
        return Rounding(change, "all coefficients are kept exactly: the machine's equation is the model's")
    most = most_bits(flat)
    sentence = (
        "coefficients are rounded: %s in %s changes by %.2g of its value, so the machine's equation is not exactly "
        "the model's" % (what, label, float(change))
    )
    for bits in range(p + 1, most + 1):
        if not largest_change(flat, bits)[0]:
            return Rounding(change, sentence + "; QSS_CoefBits = %d keeps all of them exactly" % bits)
    best = largest_change(flat, most)[0] if most > p else change
    if best >= change:
        return Rounding(change, sentence + "; the limits allow no more bits")
    for bits in range(p + 1, most + 1):
        found = largest_change(flat, bits)[0]
        if found <= max(best, GOOD_CHANGE):
            return Rounding(
                change,
                sentence
                + "; no bits keep all of them exactly, QSS_CoefBits = %d changes them by at most %.2g"
                % (bits, float(found)),
            )
    return Rounding(change, sentence)
