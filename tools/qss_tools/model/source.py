"""Sources: their tokens, and their places as lines and columns."""
import re
from collections import namedtuple
from typing import List, Optional, Tuple

Token = namedtuple("Token", "kind text at")
Token.__doc__ = "A token: 'number', 'name', 'word', 'string' or 'mark', its text, and the byte at which it begins."

WORDS = frozenset(
    "model end import parameter constant discrete Real Integer each annotation equation algorithm initial der when"
    " elsewhen then for in loop time pre reinit and or not if else elseif while class function record block package"
    " type extends connect true false".split()
)

SETTINGS = ("StartTime", "StopTime", "QSS_CoefBits", "QSS_TickBits", "QSS_LevelBits", "QSS_Quantum")

LONGEST = 1 << 20  # bytes of a source

TOKEN = re.compile(
    r"(?P<blank>[ \t\r\n]+|//[^\n]*|/\*.*?\*/)"
    r"|(?P<open>/\*|\"(?!(?:\\.|[^\"\\])*\"))"
    r"|(?P<number>(?:[0-9]+(?:\.[0-9]*)?|\.[0-9]+)(?:[eE][+-]?[0-9]+)?)"
    r"|(?P<name>[A-Za-z_][A-Za-z0-9_]*)"
    r"|(?P<string>\"(?:\\.|[^\"\\])*\")"
    r"|(?P<mark>:=|<=|>=|==|<>|[()\[\]{},;:=+\-*/^<>.])",
    re.DOTALL,
)


class Source:
    """The bytes of a source under a name. Its text has one character a byte, so places are bytes from 0."""

    def __init__(self, name: str, data: bytes) -> None:
        self.name = name
        self.data = data
        self.text = data.decode("latin-1")
        self.tokens, self.untold = tokens_of(self.text)

    def place(self, at: int) -> Tuple[int, int]:
        """Line and column of a byte, both from 1; a column counts characters of UTF-8."""
        begin = self.data.rfind(b"\n", 0, at) + 1
        return self.data.count(b"\n", 0, at) + 1, len(decoded(self.data[begin:at])) + 1

    def line_at(self, at: int) -> str:
        """The line in which a byte stands, without its end."""
        begin = self.data.rfind(b"\n", 0, at) + 1
        end = self.data.find(b"\n", at)
        return decoded(self.data[begin : len(self.data) if end < 0 else end]).rstrip("\r")

    def width_at(self, at: int) -> int:
        """How many characters the token at a byte has: 1 where none begins there."""
        for token in self.tokens:
            if token.at == at:
                return len(token.text.split("\n")[0])
        return 1


def decoded(data: bytes) -> str:
    """Bytes as text; a byte that is no UTF-8 is one character."""
    return data.decode("utf-8", "replace")


def tokens_of(text: str) -> Tuple[List[Token], Optional[int]]:
    """The tokens up to the first byte that begins none, and this byte (None where all were read)."""
    tokens: List[Token] = []
    at = 0
    while at < len(text):
        match = TOKEN.match(text, at)
        if match is None or match.lastgroup == "open":
            return tokens, at
        if match.lastgroup != "blank":
            word = match.group()
            kind = "word" if match.lastgroup == "name" and word in WORDS else match.lastgroup
            tokens.append(Token(kind, word, at))
        at = match.end()
    return tokens, None
