"""Indents a text by its sections, clauses and loops. Nothing else changes, so no comment is lost."""
from typing import List, Optional, Set

from ..model.source import TOKEN, Source, Token

STEP = 2  # columns
SECTIONS = ("equation", "algorithm", "initial", "model")
OPENERS = ("when", "for")
# After these a line begins a statement. After anything else it goes on with one.
ENDS = (";", "then", "loop", "equation", "algorithm")


def indented(source: Source) -> Optional[bytes]:
    """The text with new indents, or None if a comment or a string is not closed."""
    if source.untold is not None:
        return None
    frozen = lines_inside(source.text)
    head = {token.at for token in source.tokens[1:3]}
    tokens = source.tokens[::-1]
    depth, at, found = 0, 0, []
    before: Optional[Token] = None
    for number, line in enumerate(source.data.split(b"\n")):
        mine: List[Token] = []
        while tokens and tokens[-1].at <= at + len(line):
            mine.append(tokens.pop())
        depth -= closes(mine)
        if number in frozen:
            found.append(line)
        else:
            bare = line.strip(b" \t")
            found.append(b" " * (columns(mine, before, depth, head) if bare.strip() else 0) + bare)
        depth += closes(mine) + change(mine)
        before = mine[-1] if mine else before
        at += len(line) + 1
    return b"\n".join(found)


def lines_inside(text: str) -> Set[int]:
    """The numbers of the lines that begin inside a comment or a string."""
    found: Set[int] = set()
    if "/*" not in text and text.count('"') == 0:
        return found
    for match in TOKEN.finditer(text):
        if "\n" in match.group().strip():
            first = text.count("\n", 0, match.start())
            found.update(range(first + 1, first + 1 + match.group().count("\n")))
    return found


def closes(tokens: List[Token]) -> int:
    """Whether a line begins with the end of a clause or a loop, or with another branch: 1 or 0."""
    words = [token.text for token in tokens[:2]]
    return int(words[:1] == ["elsewhen"] or words[:1] == ["end"] and words[1:] in (["when"], ["for"]))


def change(tokens: List[Token]) -> int:
    """By how much a line deepens what follows."""
    total = 0
    for place, token in enumerate(tokens):
        if token.kind == "word" and token.text in OPENERS:
            total += -1 if place and tokens[place - 1].text == "end" else 1
    return total


def columns(tokens: List[Token], before: Optional[Token], depth: int, head: Set[int]) -> int:
    """The indent of a line. The bytes `head` are those of the first line's tokens, which no semicolon ends."""
    word = tokens[0].text if tokens else ""
    is_last = word == "end" and len(tokens) > 1 and tokens[1].kind == "name"
    if word in SECTIONS or is_last or before is None:
        return 0
    goes_on = tokens and before.text not in ENDS and before.at not in head
    return STEP * (1 + max(depth, 0)) + (2 * STEP if goes_on else 0)
