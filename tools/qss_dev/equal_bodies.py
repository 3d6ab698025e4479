"""Finds functions whose bodies are equal up to names."""
import re
from typing import Dict, Iterable, List, Tuple

from .rattle_source import Function

# A shorter body is not compared.
FEWEST_TOKENS = 30
COMMENT = re.compile(r"\"(?:\\.|[^\"\\])*\"|//[^\n]*", re.DOTALL)
TOKEN = re.compile(
    r"b?\"(?:\\.|[^\"\\])*\"|b?'(?:\\[^\n']+|[^'\\\n])'|\w+|::|=>|->|&&|\|\||[=!<>+*-]=|\.\.=?|[^\w\s]", re.DOTALL
)
NAME = re.compile(r"[A-Za-z_]\w*")


def shape(body: str) -> Tuple[str, ...]:
    """The tokens of a body. Each name is replaced by its number in the order of the first occurrences."""
    code = COMMENT.sub(lambda it: it[0] if it[0].startswith('"') else "", body)
    numbers: Dict[str, int] = {}
    return tuple(
        "n%d" % numbers.setdefault(it, len(numbers)) if NAME.fullmatch(it) else it for it in TOKEN.findall(code)
    )


def equal_bodies(functions: Iterable[Tuple[str, Function]]) -> List[List[Tuple[str, Function]]]:
    """Groups the functions, each with its crate, by the shapes of their bodies. Short bodies are left out."""
    groups: Dict[Tuple[str, ...], List[Tuple[str, Function]]] = {}
    for crate, function in functions:
        tokens = shape(function.body or "")
        if len(tokens) > FEWEST_TOKENS:
            groups.setdefault(tokens, []).append((crate, function))
    return list(groups.values())
