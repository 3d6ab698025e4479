"""Edits of a source that certainly mend a refusal: for qss-explain --apply, and for programs (--json)."""
import re
from typing import Callable, Dict, Iterator, List, NamedTuple, Optional, Sequence, Tuple

from ..model.number_hints import SUFFIXES
from ..model.source import Source, Token
from . import equations, naming

REFUSED = re.compile(r"^refused: (\w+) (\d+)((?: \S+)*)$")
CONSTANTS = {"pi": "3.14159265", "e": "2.71828183", "g_n": "9.80665"}
# Words that a model has no use for.
LEFT_OUT = ("protected", "public", "final", "encapsulated", "partial")
# What is written for bytes that begin no token.
BYTES = {
    b"\xef\xbb\xbf": "",
    b"\xc2\xa0": " ",
    b"\xe2\x88\x92": "-",
    b"\xe2\x80\x93": "-",
    b"\xe2\x80\x9c": '"',
    b"\xe2\x80\x9d": '"',
    b"\xc2\xb7": "*",
    b"\xc3\x97": "*",
}


class Edit(NamedTuple):
    """A text in place of the bytes from `begin` to before `end`."""

    begin: int
    end: int
    text: str


Edits = Sequence[Edit]


class Stop(NamedTuple):
    """Where a source stops to be a prefix of a model: the tokens, the place among them, and what is expected there."""

    source: Source
    tokens: Sequence[Token]
    place: int
    wanted: str

    @property
    def token(self) -> Token:
        return self.tokens[self.place]

    def text(self, ahead: int = 0) -> str:
        """The text of a token by its distance from the place; an empty one outside the source."""
        at = self.place + ahead
        return self.tokens[at].text if 0 <= at < len(self.tokens) else ""

    def kind(self, ahead: int = 0) -> str:
        at = self.place + ahead
        return self.tokens[at].kind if 0 <= at < len(self.tokens) else ""

    def span(self, first: int, last: int, text: str) -> Edit:
        """A text in place of the tokens between two distances."""
        begin, end = self.tokens[self.place + first], self.tokens[self.place + last]
        return Edit(begin.at, end.at + len(end.text), text)

    def joined(self, first: int, last: int) -> bool:
        """Whether no blank is between the tokens between two distances."""
        some = self.tokens[self.place + first : self.place + last + 1]
        return all(one.at + len(one.text) == other.at for one, other in zip(some, some[1:]))


def applied(data: bytes, edits: Edits) -> bytes:
    """A source with these edits."""
    for edit in sorted(edits, reverse=True):
        data = data[: edit.begin] + edit.text.encode() + data[edit.end :]
    return data


def place_before(at: int, edits: Edits) -> int:
    """The byte of a source that a byte of the edited source comes from."""
    shift = 0
    for edit in sorted(edits):
        begin = edit.begin + shift
        length = len(edit.text.encode())
        if at < begin:
            break
        if at < begin + length:
            return edit.begin
        shift += length - (edit.end - edit.begin)
    return at - shift


def certain_edits(source: Source, line: str, wanted: Callable[[Source, int], str]) -> Optional[Edits]:
    """The edits that certainly mend what a line of the program says, or None."""
    found = REFUSED.match(line)
    if found is None:
        return None
    phase, number, fields = found.group(1), found.group(2), found.group(3).split()
    if phase == "lex":
        return of_bytes(source, number, int(fields[0]))
    if phase == "parse" and number == "1":
        place = int(fields[0])
        if place >= len(source.tokens):
            return at_end(source, wanted(source, place))
        stop = Stop(source, source.tokens, place, wanted(source, place))
        return next((edits for edits in (mend(stop) for mend in MENDS) if edits), None)
    if phase == "names":
        return [Edit(*edit) for edit in naming.edits_of(source, number, int(fields[0]))] or None
    return None


def of_bytes(source: Source, number: str, at: int) -> Optional[Edits]:
    """For bytes that begin no token, and for a string that is never closed."""
    if source.data.startswith((b"\xff\xfe", b"\xfe\xff")):
        text = source.data.decode("utf-16", "replace")
        return [Edit(0, len(source.data), text)]
    if number == "3":
        end = source.data.find(b"\n", at)
        line = source.data[at : end if end >= 0 else len(source.data)].rstrip()
        return [Edit(at + len(line) - 1, at + len(line) - 1, '"')] if line.endswith(b";") else None
    for some, text in BYTES.items():
        if number == "1" and source.data.startswith(some, at):
            return [Edit(at, at + len(some), text)]
    return None


def at_end(source: Source, wanted: str) -> Optional[Edits]:
    """For a source that ends before its model does."""
    names = [after.text for one, after in zip(source.tokens, source.tokens[1:]) if one.text == "model"]
    if not names or "'end' with the model's name" not in wanted:
        return None
    end = len(source.data.rstrip())
    return [Edit(end, end, "\nend %s;" % names[0])]


def semicolon(stop: Stop) -> Optional[Edits]:
    if ";" not in stop.wanted or not stop.place:
        return None
    last = stop.tokens[stop.place - 1]
    end = last.at + len(last.text)
    is_line_end = "\n" in stop.source.text[end : stop.token.at]
    return [Edit(end, end, ";")] if is_line_end or stop.text() in ("end", "elsewhen") else None


def equals(stop: Stop) -> Optional[Edits]:
    if stop.text() in (":=", "==") and "equation" in stop.wanted:
        return [stop.span(0, 0, "=")]
    if stop.text() == "=" and "statement" in stop.wanted:
        return [stop.span(0, 0, ":=")]
    return None


def suffix(stop: Stop) -> Optional[Edits]:
    """A number with a suffix of a netlist, such as 4k."""
    if stop.kind(-1) != "number" or stop.text() not in SUFFIXES or not stop.joined(-1, 0):
        return None
    if "e" in stop.text(-1).lower():
        return None
    return [stop.span(-1, 0, "%se%d" % (stop.text(-1), SUFFIXES[stop.text()]))]


def decimal_comma(stop: Stop) -> Optional[Edits]:
    if (stop.kind(-2), stop.text(-1), stop.kind()) != ("number", ",", "number") or not stop.joined(-2, 0):
        return None
    if "." in stop.text(-2) or "." in stop.text():
        return None
    return [stop.span(-2, 0, "%s.%s" % (stop.text(-2), stop.text()))]


def power_of_ten(stop: Stop) -> Optional[Edits]:
    """10^(-6) or 10^-6."""
    if stop.text(-1) != "^" or stop.text(-2) != "10":
        return None
    if stop.text() == "(" and stop.text(1) == "-" and stop.text(2).isdigit() and stop.text(3) == ")":
        return [stop.span(-2, 3, "1e-%s" % stop.text(2))]
    if stop.text() == "-" and stop.text(1).isdigit():
        return [stop.span(-2, 1, "1e-%s" % stop.text(1))]
    return [stop.span(-2, 0, "1e%s" % stop.text())] if stop.text().isdigit() else None


def word(stop: Stop) -> Optional[Edits]:
    """A word of Modelica that is written in another way, or not at all."""
    text = stop.text()
    if text in ("true", "false"):
        return [stop.span(0, 0, "1" if text == "true" else "0")]
    if text == "elseif" and "'when'" in stop.wanted:
        return [stop.span(0, 0, "elsewhen")]
    if text == "equation" and stop.text(-1) == "initial":
        return [stop.span(0, 0, "algorithm")]
    if text == "not" and stop.text(-1) == ":=" and stop.kind(1) == "name" and stop.text(2) == ";":
        return [stop.span(0, 1, "1 - %s" % stop.text(1))]
    if text == "within":
        end = next((k for k, one in enumerate(stop.tokens[stop.place :]) if one.text == ";"), None)
        return None if end is None else [stop.span(0, end, "")]
    return [stop.span(0, 0, "")] if text in LEFT_OUT else None


def switch(stop: Stop) -> Optional[Edits]:
    """Boolean and Integer variables that clauses set."""
    if stop.text() not in ("Boolean", "Integer"):
        return None
    names = list(declared(stop))
    is_set = [any(one.text == name and other.text == ":=" for one, other in pairs(stop.tokens)) for name in names]
    if not names or not all(is_set):
        return None
    return [stop.span(0, 0, "Real" if stop.text(-1) == "discrete" else "discrete Real")]


def declared(stop: Stop) -> Iterator[str]:
    """The names that a declaration declares, from its type at the place."""
    depth = 0
    for before, one in pairs(stop.tokens[stop.place :]):
        depth += (one.text in "([{") - (one.text in ")]}") if one.kind == "mark" else 0
        if one.text == ";":
            return
        if not depth and one.kind == "name" and before.text in ("Boolean", "Integer", ","):
            yield one.text


def pairs(tokens: Sequence[Token]) -> Iterator[Tuple[Token, Token]]:
    return zip(tokens, tokens[1:])


def dotted(stop: Stop) -> Optional[Edits]:
    """A type or a constant of a library."""
    first = 0 if stop.kind() == "name" and stop.text(1) == "." else -1
    if stop.kind(first) != "name" or stop.text(first + 1) != ".":
        return None
    last = first
    while stop.text(last + 1) == "." and stop.kind(last + 2) == "name":
        last += 2
    names = [stop.text(k) for k in range(first, last + 1, 2)]
    if "Constants" in names and names[-1] in CONSTANTS:
        return [stop.span(first, last, CONSTANTS[names[-1]])]
    is_type = stop.kind(last + 1) == "name" and stop.text(first - 1) in ("parameter", "constant", "discrete", ";")
    return [stop.span(first, last, "Real")] if is_type else None


def section(stop: Stop) -> Optional[Edits]:
    """A clause among equations, and a clause or a loop that is not closed."""
    text = stop.text()
    if text in ("annotation", "equation", "algorithm") and stop.place:
        for word_there in ("when", "for"):
            if "'%s'" % word_there in stop.wanted:
                last = stop.tokens[stop.place - 1]
                end = last.at + len(last.text)
                return [Edit(end, end, "\n  end %s;" % word_there)]
    if text != "when" or "equation" not in stop.wanted and stop.text(-1) not in (";", "equation"):
        return None
    closing = [k for k in range(stop.place, len(stop.tokens) - 2) if closes(stop.tokens, k)]
    if not closing:
        return None
    after = closing[0] + 3
    edits = [Edit(stop.token.at, stop.token.at, "algorithm\n  ")]
    following = stop.tokens[after].text if after < len(stop.tokens) else "end"
    if following not in ("when", "algorithm", "annotation", "initial", "end", "equation"):
        edits.append(Edit(stop.tokens[after].at, stop.tokens[after].at, "equation\n  "))
    elif following == "when":
        return edits
    return edits


def closes(tokens: Sequence[Token], place: int) -> bool:
    return [one.text for one in tokens[place : place + 3]] == ["end", "when", ";"]


def equation(stop: Stop) -> Optional[Edits]:
    """An equation whose left side is not a variable or der(x)."""
    if "equation" not in stop.wanted or stop.text() not in ("*", "/", "+", "-") and stop.kind() != "number":
        return None
    return [Edit(*edit) for edit in equations.solved(stop.source.text, stop.tokens, stop.place)] or None


def constant_table(stop: Stop) -> Optional[Edits]:
    """An array of parameters with `{..}` whose elements are used by numbers only: a parameter for each element."""
    if stop.text() != "{" or stop.text(-1) != "=" or stop.text(-2) != "]" or stop.text(-4) != "[":
        return None
    values: List[str] = []
    last = 1
    while stop.text(last) not in ("}", ""):
        values.append(stop.text(last))
        last += 1
    numbers = "".join(values).split(",")
    name, size = stop.text(-5), stop.text(-3)
    is_plain = all(re.fullmatch(r"-?[0-9.]+(?:[eE][+-]?[0-9]+)?", one) for one in numbers)
    if not is_plain or size != str(len(numbers)) or "parameter" not in (stop.text(-6), stop.text(-7)):
        return None
    new = ", ".join("%s_%d = %s" % (name, k, value) for k, value in enumerate(numbers, 1))
    edits = [stop.span(-5, last, new)]
    for place, one in enumerate(stop.tokens):
        if one.text != name or place == stop.place - 5:
            continue
        index = [it.text for it in stop.tokens[place + 1 : place + 4]]
        if index[:1] != ["["] or not index[1].isdigit() or index[2] != "]" or not 1 <= int(index[1]) <= len(numbers):
            return None
        edits.append(Edit(one.at, stop.tokens[place + 3].at + 1, "%s_%s" % (name, index[1])))
    return edits


Mend = Callable[[Stop], Optional[Edits]]
MENDS: Sequence[Mend] = (
    suffix,
    decimal_comma,
    power_of_ten,
    constant_table,
    dotted,
    section,
    word,
    switch,
    equals,
    equation,
    semicolon,
)


def as_json(edits: Optional[Edits], source: Source) -> List[Dict[str, object]]:
    """Edits for a program: bytes from 0, lines and columns from 1."""
    found = []
    for edit in edits or ():
        (line, column), (end_line, end_column) = source.place(edit.begin), source.place(edit.end)
        places = {"line": line, "column": column, "end_line": end_line, "end_column": end_column}
        found.append({"begin": edit.begin, "end": edit.end, **places, "text": edit.text})
    return found
