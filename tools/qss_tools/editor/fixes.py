"""Fixes of what the program refuses, as edits. A fix is offered only after the program has read the edited text."""
import difflib
from dataclasses import dataclass
from typing import Callable, Dict, Iterator, List, Optional, Tuple

from ..advice import hints
from ..model.source import Source, Token
from ..model.story import Story
from .names import Names
from .text import Edit

# What is written in place of a character that begins no token.
PLAIN = {
    b"\xef\xbb\xbf": "",
    b"\xc2\xa0": " ",
    b"\xe2\x88\x92": "-",
    b"\xe2\x80\x93": "-",
    b"\xe2\x80\x9c": '"',
    b"\xe2\x80\x9d": '"',
    b"\xc2\xb7": "*",
    b"\xc3\x97": "*",
}
# What is written in place of a word.
WORDS = {"true": "1", "false": "0", "elseif": "elsewhen"}
OPPOSITE = {"<": ">=", "<=": ">", ">": "<=", ">=": "<"}
PI = "parameter Real pi = 3.14159265;\n  "
CLOSE = 0.75  # the likeness of names that are taken for one another


@dataclass(frozen=True)
class Fix:
    """Edits under a title. A fix that is not sure leaves open what was meant."""

    title: str
    edits: Tuple[Edit, ...]
    sure: bool = True


def fix(title: str, begin: int, end: int, text: str, sure: bool = True) -> Fix:
    return Fix(title, (Edit(begin, end, text),), sure)


def end_of(token: Token) -> int:
    return int(token.at) + len(token.text)


def candidates(source: Source, names: Names, phase: str, story: Story) -> Iterator[Fix]:
    """The fixes that may be meant, the likeliest first."""
    if story.at is None:
        return
    if phase == "lex":
        yield from of_bytes(source, story.at)
        return
    place = next((place for place, token in enumerate(source.tokens) if token.at == story.at), None)
    if place is None:
        return
    if phase == "parse":
        yield from of_syntax(source.tokens, place, story.ways)
    elif phase == "names":
        yield from of_names(source, names, place, story)


def of_bytes(source: Source, at: int) -> Iterator[Fix]:
    for bytes_there, text in PLAIN.items():
        if source.data.startswith(bytes_there, at):
            title = f"Write '{text}'" if text else "Leave the byte order mark out"
            yield fix(title, at, at + len(bytes_there), text)


# A text that a suggested fix has, and the edit that it means.
Maker = Callable[[List[Token], int], Optional[Fix]]


def before(text: str) -> Maker:
    """Inserts a text before the token."""
    return lambda tokens, place: fix(f"Insert '{text.strip()}'", tokens[place].at, tokens[place].at, text)


def behind(text: str) -> Maker:
    """Inserts a text after the token before."""

    def make(tokens: List[Token], place: int) -> Optional[Fix]:
        end = end_of(tokens[place - 1])
        return fix(f"Insert '{text}' after '{tokens[place - 1].text}'", end, end, text) if place else None

    return make


def instead(text: str) -> Maker:
    """Writes a text in place of the token."""

    def make(tokens: List[Token], place: int) -> Optional[Fix]:
        token = tokens[place]
        return fix(f"Replace '{token.text}' by '{text}'", token.at, end_of(token), text)

    return make


def leave_out(tokens: List[Token], place: int) -> Optional[Fix]:
    """Leaves the token out, or before a bracket the name of the function."""
    token = tokens[place - 1] if tokens[place].text == "(" and place else tokens[place]
    return fix(f"Leave '{token.text}' out", token.at, end_of(token), "")


def opposite(tokens: List[Token], place: int) -> Optional[Fix]:
    """Writes `elsewhen` with the opposite condition in place of `else`, after exactly one branch."""
    first = next((at for at in range(place, -1, -1) if tokens[at].text in ("when", "elsewhen")), None)
    if first is None or tokens[first].text != "when":
        return None
    last = next((at for at in range(first, place) if tokens[at].text == "then"), None)
    words = [token.text for token in tokens[first + 1 : last]] if last else []
    if sum(word in OPPOSITE for word in words) != 1:
        return None
    condition = " ".join(OPPOSITE.get(word, word) for word in words)
    return instead(f"elsewhen {condition} then")(tokens, place)


def without_line(tokens: List[Token], place: int) -> Optional[Fix]:
    """Leaves out what stands up to the next semicolon."""
    end = next((token for token in tokens[place:] if token.text == ";"), None)
    return fix(f"Leave '{tokens[place].text} ..' out", tokens[place].at, end_of(end), "") if end else None


MAKERS: Dict[str, Maker] = {
    "perhaps a ';' is missing": behind(";"),
    "a comma is missing": behind(","),
    "an equation has '='": instead("="),
    "a statement has ':='": instead(":="),
    "clauses belong to an 'algorithm' section": before("algorithm\n  "),
    "'end when;' is missing": before("end when;\n  "),
    "'end for;' is missing": before("end for;\n  "),
    "an 'equation' section must begin": before("equation\n  "),
    "write 'initial algorithm'": instead("algorithm"),
    hints.NO_ELSE: opposite,
    hints.LEAVE_OUT: leave_out,
    "leave this line out": without_line,
}


def of_syntax(tokens: List[Token], place: int, ways: List[str]) -> Iterator[Fix]:
    for way in ways:
        for begin, make in MAKERS.items():
            found = make(tokens, place) if way.startswith(begin) or begin == hints.LEAVE_OUT and begin in way else None
            if found:
                yield found
    word = WORDS.get(tokens[place].text)
    if word:
        yield from filter(None, [instead(word)(tokens, place)])


# names


def of_names(source: Source, names: Names, place: int, story: Story) -> Iterator[Fix]:
    token = source.tokens[place]
    name = token.text
    if "is not declared" in story.sentence:
        yield from of_undeclared(source, names, token)
    if place and source.tokens[place - 1].text == "end" and names.model.name:
        yield fix(f"Write 'end {names.model.name};'", token.at, end_of(token), names.model.name)
    for way in story.ways:
        found = None
        if way.startswith(f"write 'reinit({name}"):
            found = to_reinit(source, place)
        elif way.startswith(f"write '{name} := "):
            found = to_assignment(source, place)
        elif way.startswith(f"declare it as 'discrete Real {name}'"):
            found = to_discrete(source, names, name)
        elif way.startswith(f"write '{name}'") and "pre" in story.sentence:
            found = without_pre(source, place)
        if found:
            yield found


def of_undeclared(source: Source, names: Names, token: Token) -> Iterator[Fix]:
    """Another name that is declared, or a declaration."""
    name = token.text
    if name in names.declared:
        return
    near = [one for one in names.declared if one.lower() == name.lower() and one != name]
    likely = near or difflib.get_close_matches(name, names.declared, 2, CLOSE)
    for one in likely:
        yield fix(f"Replace '{name}' by '{one}'", token.at, end_of(token), one, bool(near))
    at = place_of_declaration(source)
    if at is None:
        return
    if name == "pi":
        yield fix(f"Declare 'pi': {PI.strip()}", at, at, PI)
        return
    text = declaration_of(source, name)
    yield fix(f"Declare '{name}': {text}", at, at, text + "\n  ", False)


def declaration_of(source: Source, name: str) -> str:
    """A declaration that fits how a name is used."""
    tokens = source.tokens
    after = {tokens[place + 1].text for place, one in enumerate(tokens[:-1]) if one.text == name}
    under = {tokens[place - 1].text for place, one in enumerate(tokens) if place > 1 and one.text == name}
    opened = {tokens[place - 2].text for place, one in enumerate(tokens) if place > 1 and one.text == name}
    if "(" in under and "der" in opened:
        return f"Real {name}(start = 0);"
    if ":=" in after:
        return f"discrete Real {name}(start = 0);"
    is_left = any(
        one.text == name and tokens[place - 1].text in (";", "equation", "loop") and tokens[place + 1].text == "="
        for place, one in enumerate(tokens[:-1])
        if place
    )
    return f"Real {name};" if is_left else f"parameter Real {name} = 1;"


def place_of_declaration(source: Source) -> Optional[int]:
    """The byte before which another declaration can be written: at the first one, so that others can use its name."""
    for place, token in enumerate(source.tokens):
        if place > 1 and token.kind == "word" and token.text not in ("import", "model"):
            return int(token.at)
    return None


def statement_end(tokens: List[Token], place: int) -> Optional[int]:
    """The place of the semicolon that ends a statement."""
    return next((at for at in range(place, len(tokens)) if tokens[at].text == ";"), None)


def to_reinit(source: Source, place: int) -> Optional[Fix]:
    """`x := e;` as `reinit(x, e);`."""
    tokens = source.tokens
    sign = next((at for at in range(place, len(tokens)) if tokens[at].text in (":=", ";")), None)
    end = statement_end(tokens, place)
    if sign is None or end is None or tokens[sign].text != ":=":
        return None
    target = source.text[tokens[place].at : tokens[sign].at].strip()
    value = source.data[end_of(tokens[sign]) : tokens[end].at].decode("utf-8", "replace").strip()
    return fix("Write 'reinit(..)'", tokens[place].at, tokens[end].at, f"reinit({target}, {value})")


def to_assignment(source: Source, place: int) -> Optional[Fix]:
    """`reinit(d, e);` as `d := e;`."""
    tokens = source.tokens
    end = statement_end(tokens, place)
    comma = next((at for at in range(place, len(tokens)) if tokens[at].text in (",", ";")), None)
    if place < 2 or end is None or comma is None or tokens[comma].text != "," or tokens[end - 1].text != ")":
        return None
    target = source.text[tokens[place].at : tokens[comma].at].strip()
    value = source.data[end_of(tokens[comma]) : tokens[end - 1].at].decode("utf-8", "replace").strip()
    return fix(f"Write '{target} := ..'", tokens[place - 2].at, tokens[end].at, f"{target} := {value}")


def to_discrete(source: Source, names: Names, name: str) -> Optional[Fix]:
    """The declaration of a variable as a discrete one, where it declares no other."""
    one = names.declared.get(name)
    place = next((place for place, token in enumerate(source.tokens) if one and token.at == one.at), 0)
    end = statement_end(source.tokens, place)
    if not place or end is None or source.tokens[place - 1].text != "Real":
        return None
    if any(other.at > one.at and other.at < source.tokens[end].at for other in names.declared.values() if one):
        return None
    at = source.tokens[place - 1].at
    return fix(f"Declare '{name}' as 'discrete Real'", at, at, "discrete ")


def without_pre(source: Source, place: int) -> Optional[Fix]:
    """`pre(x)` as `x`."""
    tokens = source.tokens
    close = next((at for at in range(place, len(tokens)) if tokens[at].text in (")", ";")), None)
    if place < 2 or tokens[place - 2].text != "pre" or close is None or tokens[close].text != ")":
        return None
    target = source.text[tokens[place].at : tokens[close].at].strip()
    return fix(f"Write '{target}'", tokens[place - 2].at, tokens[close].at + 1, target)
