"""The texts of expressions, and of exact numbers as decimals."""
from fractions import Fraction

from .grammar import Name, Number, Power, Pre, Product, Ref, Sum, Time

MOST_PLACES = 18  # of a decimal that the program reads: the digits with their power of ten are below 2^62


def decimal_text(value: Fraction) -> str:
    """A fraction as a decimal where it has a short one, else as a quotient."""
    below, twos, fives = value.denominator, 0, 0
    while below % 2 == 0:
        below, twos = below // 2, twos + 1
    while below % 5 == 0:
        below, fives = below // 5, fives + 1
    if below != 1:
        return "%d/%d" % (value.numerator, value.denominator)
    places = max(twos, fives)
    if places > MOST_PLACES:
        return "%d/%d" % (value.numerator, value.denominator)
    digits = str(abs(value.numerator) * 10**places // value.denominator).rjust(places + 1, "0")
    sign = "-" if value < 0 else ""
    return sign + (digits if not places else digits[:-places] + "." + digits[-places:])


def spell(part: object) -> str:
    """The text of an expression."""
    if isinstance(part, Number):
        return part.text
    if isinstance(part, Name):
        return spell_ref(part.ref)
    if isinstance(part, Pre):
        return "pre(%s)" % spell_ref(part.ref)
    if isinstance(part, Time):
        return "time"
    if isinstance(part, Power):
        return "%s^%d" % (bracketed(part.base, (Sum, Product, Power)), part.exponent)
    if isinstance(part, Product):
        return "".join(
            ("/" if divide else "*" if place else "") + bracketed(value, (Sum, Product))
            for place, (divide, _, value) in enumerate(part.parts)
        )
    assert isinstance(part, Sum)
    return "".join(
        (" - " if minus else " + ") + bracketed(value, (Sum,))
        if place
        else ("-" if minus else "") + bracketed(value, (Sum,))
        for place, (minus, _, value) in enumerate(part.parts)
    )


def spell_ref(ref: Ref) -> str:
    return ref.name if ref.index is None else "%s[%s]" % (ref.name, spell(ref.index))


def bracketed(part: object, kinds: tuple) -> str:
    text = spell(part)
    return "(%s)" % text if isinstance(part, kinds) else text
