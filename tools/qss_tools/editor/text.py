"""The text of a document: its bytes, and its places as lines and columns of the language server protocol."""
import bisect
import re
from dataclasses import dataclass
from typing import Any, Dict, Sequence

from ..model.source import Source

LINE_END = re.compile(rb"\r\n|\n|\r")
Json = Dict[str, Any]


def units(text: str) -> int:
    """The number of UTF-16 code units of a text: the protocol counts columns in them."""
    return len(text.encode("utf-16-le", "replace")) // 2


class Text:
    """A version of a document. Places are bytes of its UTF-8 text, from 0."""

    def __init__(self, name: str, text: str, version: Any = None) -> None:
        self.name = name
        self.version = version
        self.data = text.encode("utf-8", "replace")
        self.source = Source(name, self.data)
        self.starts = [0, *(match.end() for match in LINE_END.finditer(self.data))]

    def position(self, at: int) -> Json:
        """The line and the column of a byte, both from 0."""
        at = min(max(at, 0), len(self.data))
        line = bisect.bisect_right(self.starts, at) - 1
        return {"line": line, "character": units(self.data[self.starts[line] : at].decode("utf-8", "replace"))}

    def offset(self, position: Json) -> int:
        """The byte of a line and a column. A place outside the text is moved to the nearest one in it."""
        line, column = int(position.get("line", 0)), int(position.get("character", 0))
        if line >= len(self.starts):
            return len(self.data)
        begin = self.starts[max(line, 0)]
        end = self.starts[line + 1] if line + 1 < len(self.starts) else len(self.data)
        text = self.data[begin:end].decode("utf-8", "replace").rstrip("\r\n")
        left = column
        for place, letter in enumerate(text):
            if left <= 0:
                return begin + len(text[:place].encode())
            left -= units(letter)
        return begin + len(text.encode())

    def range(self, begin: int, end: int) -> Json:
        return {"start": self.position(begin), "end": self.position(max(begin, end))}


@dataclass(frozen=True)
class Edit:
    """A text in place of the bytes from `begin` to before `end`."""

    begin: int
    end: int
    text: str

    def json(self, text: Text) -> Json:
        return {"range": text.range(self.begin, self.end), "newText": self.text}


def edited(data: bytes, edits: Sequence[Edit]) -> bytes:
    """The bytes after edits that do not overlap."""
    for edit in sorted(edits, key=lambda one: (one.begin, one.end), reverse=True):
        data = data[: edit.begin] + edit.text.encode() + data[edit.end :]
    return data
