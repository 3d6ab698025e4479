"""Hints for numbers that are written as other languages and netlists have them: with a suffix, or with a comma."""
import re
from typing import Optional

# Suffixes of numbers in netlists. M is left out: some read it as mega, others as milli.
SUFFIXES = {"f": -15, "p": -12, "n": -9, "u": -6, "m": -3, "k": 3, "K": 3, "meg": 6, "G": 9, "T": 12}
SUFFIXED = re.compile(r"([-+]?(?:\d+\.?\d*|\.\d+))\s*([^\W\d_]+)\Z")
COMMA = re.compile(r"([-+]?\d+),(\d+(?:[eE][-+]?\d+)?)\Z")
NO_SUFFIX = "a number has no suffix and no unit: "
AS_POWER = NO_SUFFIX + "write a power of ten, as 4e3 for 4k and 10e-6 for 10u"


def number_hint(text: str) -> Optional[str]:
    """What to write in place of a text that is meant as a number, or None."""
    text = text.strip()
    comma, suffixed = COMMA.match(text), SUFFIXED.match(text)
    if comma is not None:
        return "a decimal point is '.': write %s.%s for %s" % (*comma.groups(), text)
    if suffixed is None:
        return None
    number, suffix = suffixed.group(1), suffixed.group(2).replace("\u00b5", "u").replace("\u03bc", "u")
    return NO_SUFFIX + "write %se%d for %s" % (number, SUFFIXES[suffix], text) if suffix in SUFFIXES else AS_POWER


def with_hint(sentence: str, text: str) -> str:
    """A sentence about a text that is no number, with its hint if there is one."""
    hint = number_hint(text)
    return sentence if hint is None else "%s: %s" % (sentence, hint)
