"""Numbers with commas in brackets, as in `start = 4,5`: the program reads 4, and ignores what follows the comma."""
from typing import Iterator, List, NamedTuple, Optional

from .grammar import Model, ReadOver, SyntaxFault, parse
from .source import TOKEN, Source


class CommaNumber(NamedTuple):
    """A number with commas: its bytes, its parts between the commas, and whether no blank is in it."""

    begin: int
    end: int
    parts: List[str]
    is_joined: bool

    @property
    def text(self) -> str:
        return ",".join(self.parts)

    @property
    def decimal(self) -> Optional[str]:
        """The number with a decimal point, if it can be meant."""
        return ".".join(self.parts) if len(self.parts) == 2 and self.parts[0].isdigit() else None

    @property
    def grouped(self) -> Optional[str]:
        """The number without commas, if the commas can separate thousands."""
        first, *groups = self.parts
        is_first = first.isdigit() and len(first) < 4 and not first.startswith("0")
        return "".join(self.parts) if is_first and all(len(one) == 3 and one.isdigit() for one in groups) else None

    @property
    def certain(self) -> Optional[str]:
        """The number that is certainly meant, or None."""
        return self.decimal if self.is_joined and not self.grouped else None

    def sentence(self) -> str:
        """What the program does with the number, and what to write."""
        meant = " or ".join(one for one in (self.decimal, self.grouped) if one)
        way = "write %s for %s" % (meant, self.text) if meant else "write one number for %s" % self.text
        return "%s is read as %s (a decimal point is '.': %s)" % (self.text, self.parts[0], way)


def comma_numbers(model: Model) -> Iterator[CommaNumber]:
    """The numbers with commas in the modifications and settings of a model."""
    begun: Optional[CommaNumber] = None
    for item in model.read_over:
        if not is_number(item.text) or item.before is None or item.before.kind != "number":
            continue
        if begun is None or not is_part(begun, item):
            if begun is not None:
                yield begun
            begun = CommaNumber(item.before.at, item.before.at + len(item.before.text), [item.before.text], True)
        is_joined = begun.is_joined and begun.end + 1 == item.at
        begun = CommaNumber(begun.begin, item.at + len(item.text), [*begun.parts, item.text], is_joined)
    if begun is not None:
        yield begun


def is_number(text: str) -> bool:
    match = TOKEN.fullmatch(text)
    return match is not None and match.lastgroup == "number"


def is_part(begun: CommaNumber, item: ReadOver) -> bool:
    """Whether the last part of a number is before the comma of an item."""
    return bool(begun.end == item.before.at + len(item.before.text))


def commas_of(source: Source) -> List[CommaNumber]:
    """The numbers with commas of a source; none if it is no model."""
    try:
        return list(comma_numbers(parse(source)))
    except (SyntaxFault, RecursionError):
        return []
