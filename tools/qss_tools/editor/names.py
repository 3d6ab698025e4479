"""The names of a text, finished or not: where each is declared and used, and the values of its parameters."""
from dataclasses import dataclass
from fractions import Fraction
from typing import Any, Dict, Iterator, List, Optional, Tuple

from ..model.flat import Flat, Form, Meaningless, Values, roles_of
from ..model.grammar import Declaration, Expression, Model, Number, Power
from ..model.source import Source, Token
from .recovery import Recovering

MOST_BITS = 256  # of a value that is shown
LONGEST_NUMBER = 40  # characters of a number whose value is shown
MOST_EXPONENT = 2  # digits of the exponent of such a number

Key = Tuple[str, Any]  # ("name", TEXT), ("loop", the byte where the variable is bound) or ("model", None)


@dataclass(frozen=True)
class Occurrence:
    """A name at a place, and what it denotes."""

    token: Token
    key: Key

    @property
    def end(self) -> int:
        return int(self.token.at) + len(self.token.text)


class Constants(Flat):
    """The values of parameters, quanta and settings. What has no value is left out."""

    def __init__(self, model: Model) -> None:
        self.quanta: Dict[str, Fraction] = {}
        self.starting: Dict[str, Fraction] = {}
        bare = Model()
        bare.declarations, bare.settings = model.declarations, model.settings
        super().__init__(bare)

    def _declare(self) -> None:
        for one in self.model.declarations:
            wanted = [(self.parameters, one.value), (self.quanta, one.quantum), (self.starting, one.start)]
            for found, part in wanted:
                self._keep(found, one.name, part)
        for setting in self.model.settings:
            self._keep(self.settings, setting.name, setting.value)

    def _keep(self, found: Dict[str, Fraction], name: str, part: Optional[Expression]) -> None:
        if part is None:
            return
        try:
            found[name] = self.constant(part, {})
        except (Meaningless, ArithmeticError, ValueError):
            pass

    def form(self, part: Expression, loop: Values) -> Form:
        """The exact form of an expression, if its numbers are not long."""
        if isinstance(part, Number):
            exponent = part.text.lower().partition("e")[2].lstrip("+-")
            if len(part.text) > LONGEST_NUMBER or len(exponent) > MOST_EXPONENT:
                raise Meaningless(part.at, "a long number")
        if isinstance(part, Power) and bits(self.form(part.base, loop).constant) * part.exponent > MOST_BITS:
            raise Meaningless(part.at, "a long number")
        found = super().form(part, loop)
        if bits(found.constant) > MOST_BITS:
            raise Meaningless(part.at, "a long number")
        return found


def bits(value: Fraction) -> int:
    return max(value.numerator.bit_length(), value.denominator.bit_length())


class Names:
    """The declarations and the names of a text."""

    def __init__(self, source: Source) -> None:
        self.source = source
        self.model = Recovering(source).model()
        self.declared: Dict[str, Declaration] = {}
        for one in self.model.declarations:
            self.declared.setdefault(one.name, one)
        self.roles = roles_of(self.model)
        self.units = dict(units(self.model))
        self.found = list(occurrences(source.tokens))
        self._constants: Optional[Constants] = None

    @property
    def constants(self) -> Constants:
        if self._constants is None:
            self._constants = Constants(self.model)
        return self._constants

    def at(self, at: int) -> Optional[Occurrence]:
        """The name at a byte, or the one that ends there."""
        touched = [one for one in self.found if one.token.at <= at <= one.end]
        return touched[-1] if touched else None

    def of(self, key: Key) -> List[Occurrence]:
        """All places of what a name denotes."""
        return [one for one in self.found if one.key == key]

    def place(self, key: Key) -> Optional[int]:
        """The byte where it is declared."""
        if key[0] == "name":
            return int(self.declared[key[1]].at) if key[1] in self.declared else None
        if key[0] == "loop":
            return int(key[1])
        places = [int(one.token.at) for one in self.of(key)]
        return places[0] if places else None


def units(model: Model) -> Iterator[Tuple[str, str]]:
    """The variables that have a unit, each with its unit."""
    for item in model.read_over:
        if item.text.startswith("unit = "):
            yield item.where, item.text.partition(" = ")[2].strip('"')


def occurrences(tokens: List[Token]) -> Iterator[Occurrence]:
    """The names of a text, without those of modifications and annotations."""
    loops: List[Tuple[str, int]] = []
    depth, in_annotation = 0, False
    for place, token in enumerate(tokens):
        before = tokens[place - 1].text if place else ""
        after = tokens[place + 1].text if place + 1 < len(tokens) else ""
        if token.kind == "mark":
            depth = max(0, depth + (token.text in ("(", "[", "{")) - (token.text in (")", "]", "}")))
        depth = 0 if token.text == ";" else depth
        in_annotation = depth > 0 and in_annotation or token.text == "annotation" or before == "annotation"
        if token.kind == "word" and before == "end" and token.text == "for" and loops:
            loops.pop()
        if token.kind != "name":
            continue
        if before == "for":
            loops.append((token.text, token.at))
        if not (depth and after == "=" or in_annotation and after == "("):
            yield Occurrence(token, key_of(token, before, loops))


def key_of(token: Token, before: str, loops: List[Tuple[str, int]]) -> Key:
    """What a name denotes: the innermost loop variable, the model, or a parameter or variable."""
    for name, at in reversed(loops):
        if name == token.text:
            return ("loop", at)
    return ("model", None) if before in ("model", "end") else ("name", token.text)
