"""Explanations of faults: a place, a sentence, and suggested fixes."""
from typing import List, Optional

from ..installed import for_user
from .source import Source


class Story:
    """A sentence about a byte of a source or, with `beside`, of a second file, and suggested fixes. Without a byte the
    sentence is about the whole file.
    """

    def __init__(
        self,
        at: Optional[int],
        sentence: str,
        *ways: Optional[str],
        width: Optional[int] = None,
        beside: bool = False,
    ):
        self.at = at
        self.sentence = for_user(sentence)
        self.ways = [for_user(way) for way in ways if way]
        self.width = width
        self.beside = beside

    def text(self, source: Source, other: Optional[Source] = None) -> str:
        """The story as lines: the place and the sentence, the source's line with a caret, the ways out."""
        file = other if self.beside and other is not None else source
        if self.at is None:
            lines = ["%s: %s" % (file.name, self.sentence)]
        else:
            row, column = file.place(self.at)
            lines = ["%s:%d:%d: %s" % (file.name, row, column, self.sentence)] + excerpt(
                file, self.at, column, self.width
            )
        return "\n".join(lines + ["  " + way for way in self.ways])


LONGEST_EXCERPT = 100


def excerpt(source: Source, at: int, column: int, width: Optional[int] = None) -> List[str]:
    """The source's line and a caret below the place; a long line is cut around it."""
    line = source.line_at(at).replace("\t", " ")
    if not line.strip():
        return []
    width = min(width or source.width_at(at), max(1, len(line) - column + 1))
    begin = max(0, column - 1 - LONGEST_EXCERPT // 2) if len(line) > LONGEST_EXCERPT else 0
    shown = line[begin : begin + LONGEST_EXCERPT]
    return ["    " + shown, "    " + " " * (column - 1 - begin) + "^" * min(width, LONGEST_EXCERPT)]
