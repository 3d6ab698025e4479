"""Rules on names and imports: functions that repeat the name of their file, imports of definitions, literal limits."""
import os
import re
from typing import List

# Functions that keep the name of their file: the crate, the function, and why.
KEPT = {
    ("mu_num", "exceeds_power_of_two"): "without the last words the base of the power is not known",
    ("mu_num", "times_power_of_two"): "without the last words the base of the power is not known",
    ("mu_affine", "expression_form"): "the one public function of its file",
    ("mu_parser", "follow_section"): "the one public function of its file",
}
GHOST_USE = re.compile(r"^[ \t]*ghost use [^;]*;", re.MULTILINE)
# Limits of machines, runs and texts that have a name in mu_num/specs/Limits.antt or in their own crate.
LITERALS = re.compile(r"\bIsWithin (?:43|88|94|126)\b|[≤<] (?:4096|16384|65536|2048|2 \^ 126)\b")


def singular(word: str) -> str:
    """A word without the last letter of its plural."""
    return word[:-1] if word.endswith("s") and not word.endswith("ss") else word


def contains_name(function: str, file: str) -> bool:
    """Whether the name of a function contains a name of two or more words, as whole words in this order."""
    words, wanted = ([singular(it) for it in name.split("_")] for name in (function, file))
    places = range(len(words) - len(wanted) + 1)
    return len(wanted) > 1 and any(words[at : at + len(wanted)] == wanted for at in places)


def repeats_file(crate: str, function: str, file: str) -> bool:
    """Whether a free function contains the whole name of its file, and is not one of the few that keep it."""
    stem = os.path.basename(file)[: -len(".rt")]
    return contains_name(function, stem) and (crate, function) not in KEPT


def ghost_uses(text: str) -> int:
    """The number of `ghost use` lines of a file."""
    return len(GHOST_USE.findall(text))


def literal_limits(clause: str) -> List[str]:
    """The limits that a clause states as literals."""
    return LITERALS.findall(clause)
