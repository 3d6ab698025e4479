"""Parses models by the grammar of docs/LANGUAGE.md. Every part of a tree has its place in the source."""
from collections import namedtuple
from typing import Any, Callable, List, NoReturn, Optional, Tuple, Union

from .source import SETTINGS, Source, Token

DEEPEST = 64  # open brackets, `for` and `when`
CLOSING = {"(": ")", "[": "]", "{": "}"}

Number = namedtuple("Number", "text at")
Name = namedtuple("Name", "ref at")
Time = namedtuple("Time", "at")
Pre = namedtuple("Pre", "ref at")
Sum = namedtuple("Sum", "parts at")  # parts: (minus, place of the sign, value)
Product = namedtuple("Product", "parts at")  # parts: (divide, place of the sign, value)
Power = namedtuple("Power", "base exponent sign at")
Ref = namedtuple("Ref", "name index at")

Expression = Union[Number, Name, Time, Pre, Sum, Product, Power]
Span = Tuple[int, int]  # the first byte, and the byte after the last

Declaration = namedtuple(
    "Declaration", "prefix whole name size start value quantum at start_span quantum_span end annotated"
)
Loop = namedtuple("Loop", "variable first last body at")
Equation = namedtuple("Equation", "der target value at span")
Assignment = namedtuple("Assignment", "reinit target value at span")
Condition = namedtuple("Condition", "left relation right sign at span")
Branch = namedtuple("Branch", "condition body")
Clause = namedtuple("Clause", "branches at")
Setting = namedtuple("Setting", "name value at span")
# An item of an annotation that has no effect. `before` is the token before the comma that is before it, or None.
ReadOver = namedtuple("ReadOver", "where text at before")


class SyntaxFault(Exception):
    """The first token after which a source is no prefix of a model, and what was expected there."""

    def __init__(self, token: int, wanted: str, deep: bool = False) -> None:
        super().__init__(wanted)
        self.token = token
        self.wanted = wanted
        self.deep = deep


class Model:
    """A model as it is written."""

    def __init__(self) -> None:
        self.name = self.end_name = ""
        self.end_at = 0
        self.declarations: List[Declaration] = []
        self.starts: List[Union[Assignment, Loop]] = []
        self.equations: List[Union[Equation, Loop]] = []
        self.clauses: List[Union[Clause, Loop]] = []
        self.settings: List[Setting] = []
        self.read_over: List[ReadOver] = []
        self.settings_end: Optional[int] = None  # the place for another setting
        self.annotated: Optional[int] = None  # the place for another item of the model's annotation
        self.end_line = 0  # the place of the last `end`


class Parser:
    """Reads a model from a source, token by token."""

    def __init__(self, source: Source) -> None:
        self.tokens = source.tokens
        self.end = len(source.data)
        self.next = 0
        self.depth = 0

    # tokens

    def kind(self, ahead: int = 0) -> Optional[str]:
        place = self.next + ahead
        return self.tokens[place].kind if place < len(self.tokens) else None

    def text(self, ahead: int = 0) -> Optional[str]:
        place = self.next + ahead
        return self.tokens[place].text if place < len(self.tokens) else None

    def at(self) -> int:
        return self.tokens[self.next].at if self.next < len(self.tokens) else self.end

    def last_end(self) -> int:
        token = self.tokens[self.next - 1]
        return token.at + len(token.text)

    def fail(self, wanted: str) -> NoReturn:
        raise SyntaxFault(self.next, wanted)

    def deepen(self) -> None:
        self.depth += 1
        if self.depth > DEEPEST:
            raise SyntaxFault(self.next, "at most %d open brackets" % DEEPEST, deep=True)

    def take(self) -> Token:
        token = self.tokens[self.next]
        if token.kind == "mark":
            if token.text in "([{":
                self.deepen()
            elif token.text in ")]}":
                self.depth -= 1
        self.next += 1
        return token

    def sees(self, *texts: str) -> bool:
        return self.kind() in ("word", "mark") and self.text() in texts

    def sees_name(self, *texts: str) -> bool:
        return self.kind() == "name" and (not texts or self.text() in texts)

    def need(self, text: str, where: str) -> Token:
        if not self.sees(text):
            self.fail("'%s' %s" % (text, where))
        return self.take()

    def need_name(self, what: str) -> Token:
        if not self.sees_name():
            self.fail(what)
        return self.take()

    def skip_string(self) -> None:
        if self.kind() == "string":
            self.take()

    # the model

    def model(self) -> Model:
        found = Model()
        self.need("model", "at the beginning of the file")
        found.name = self.need_name("a name for the model").text
        self.skip_string()
        while self.sees("import", "parameter", "constant", "discrete", "Real"):
            if self.sees("import"):
                self.import_line()
            else:
                self.declarations(found)
        while self.sees("equation", "algorithm", "initial"):
            self.section(found)
        if self.sees("annotation"):
            self.annotation(found, None)
            self.need(";", "after the annotation")
        found.end_line = self.at()
        self.need("end", "with the model's name, or an equation, a clause or a declaration")
        found.end_at = self.at()
        found.end_name = self.need_name("the model's name").text
        self.need(";", "after the last 'end'")
        if self.next < len(self.tokens):
            self.fail("nothing more: a file holds one model")
        return found

    def import_line(self) -> None:
        self.take()
        while not self.sees(";"):
            if self.next == len(self.tokens):
                self.fail("';' after the import")
            self.next += 1
        self.take()

    def declarations(self, found: Model) -> None:
        prefix = ""
        if self.sees("parameter", "constant", "discrete"):
            prefix = self.take().text
        if not self.sees("Real") and not (prefix in ("parameter", "constant") and self.sees("Integer")):
            self.fail("'Real'" if prefix in ("", "discrete") else "'Real' or 'Integer'")
        whole = self.take().text == "Integer"
        found.declarations.append(self.component(prefix, whole, found))
        while self.sees(","):
            self.take()
            found.declarations.append(self.component(prefix, whole, found))
        self.need(";", "after the declaration")

    def component(self, prefix: str, whole: bool, found: Model) -> Declaration:
        name = self.need_name("a variable's name")
        size = start = start_span = value = None
        if self.sees("["):
            self.take()
            size = self.sum()
            self.need("]", "after the size")
        if self.sees("("):
            start, start_span = self.modifications(found, name.text)
        if self.sees("="):
            self.take()
            value = self.sum()
        self.skip_string()
        end, annotated = self.last_end(), self.sees("annotation")
        quantum, quantum_span = self.annotation(found, name.text) if annotated else (None, None)
        return Declaration(
            prefix, whole, name.text, size, start, value, quantum, name.at, start_span, quantum_span, end, annotated
        )

    def modifications(self, found: Model, component: str) -> Tuple[Optional[Expression], Optional[Span]]:
        """The start value of a component and its span."""
        start = span = None
        self.take()
        while True:
            if self.sees("each"):
                self.take()
            if self.sees_name("start"):
                self.take()
                self.need("=", "after 'start'")
                start, span = self.spanned_sum()
            else:
                self.read_over(found, component)
            if not self.sees(","):
                break
            self.take()
        self.need(")", "after the start value")
        return start, span

    def skip_item(self) -> str:
        """Reads over tokens with balanced brackets, up to a comma or a closing bracket outside them."""
        begin = self.next
        waiting: List[str] = []
        while self.next < len(self.tokens):
            if not waiting and self.sees(",", ")"):
                break
            if self.kind() == "mark" and self.text() in CLOSING:
                waiting.append(CLOSING[self.tokens[self.next].text])
            elif self.sees(")", "]", "}"):
                if not waiting or waiting.pop() != self.text():
                    self.fail("brackets that are balanced")
            self.take()
        if self.next == begin or self.next == len(self.tokens):
            self.fail("an item, or the end of the brackets")
        return " ".join(token.text for token in self.tokens[begin : self.next])

    def read_over(self, found: Model, where: str) -> None:
        at = self.at()
        before = self.tokens[self.next - 2] if self.tokens[self.next - 1].text == "," else None
        found.read_over.append(ReadOver(where, self.skip_item(), at, before))

    def annotation(self, found: Model, component: Optional[str]) -> Tuple[Optional[Expression], Optional[Span]]:
        """The annotation of a component, whose quantum and its span are given back, or of the model."""
        quantum, span, seen = None, None, False
        self.take()
        self.need("(", "after 'annotation'")
        if component is None:
            found.annotated = self.last_end()
        while not self.sees(")"):
            if self.sees_name("experiment") and not seen:
                seen = component is None
                self.experiment(found, component)
            elif component is not None and self.sees_name("QSS_Quantum"):
                self.take()
                self.need("=", "after 'QSS_Quantum'")
                quantum, span = self.spanned_sum()
            else:
                self.read_over(found, component or "annotation")
            if not self.sees(","):
                break
            self.take()
            if self.sees(")"):
                self.fail("an item after ','")
        self.need(")", "after the annotation")
        return quantum, span

    def experiment(self, found: Model, component: Optional[str]) -> None:
        self.take()
        self.need("(", "after 'experiment'")
        while not self.sees(")"):
            if self.sees_name(*SETTINGS):
                name = self.take()
                self.need("=", "after the setting's name")
                value, span = self.spanned_sum()
                if component is None:
                    found.settings.append(Setting(name.text, value, name.at, span))
            else:
                self.read_over(found, "experiment" if component is None else component)
            if not self.sees(","):
                break
            self.take()
            if self.sees(")"):
                self.fail("a setting after ','")
        if component is None:
            found.settings_end = self.at()
        self.need(")", "after the settings")

    # sections

    def section(self, found: Model) -> None:
        word = self.take().text
        if word == "equation":
            while self.sees("der", "for") or self.sees_name():
                found.equations.append(self.equation())
        elif word == "algorithm":
            while self.sees("when", "for"):
                found.clauses.append(self.clause())
        else:
            self.need("algorithm", "after 'initial'")
            while self.sees("for") or self.sees_name():
                found.starts.append(self.assignment(True))

    def loop(self, item: Callable[[], Any]) -> Loop:
        at = self.at()
        self.deepen()
        self.take()
        variable = self.need_name("a loop variable")
        self.need("in", "after the loop variable")
        first = self.sum()
        self.need(":", "between the bounds")
        last = self.sum()
        self.need("loop", "after the bounds")
        body = []
        while not self.sees("end"):
            body.append(item())
        self.close("for")
        return Loop(variable.text, first, last, body, variable.at if variable else at)

    def close(self, word: str) -> None:
        self.need("end", "and '%s', or another line" % word)
        self.need(word, "after 'end'")
        self.depth -= 1
        self.need(";", "after 'end %s'" % word)

    def equation(self) -> Union[Equation, Loop]:
        if self.sees("for"):
            return self.loop(self.equation)
        at = self.at()
        der = self.sees("der")
        if der:
            self.take()
            self.need("(", "after 'der'")
        elif not self.sees_name():
            self.fail("an equation, or 'end'")
        target = self.ref()
        if der:
            self.need(")", "after the state's name")
        self.need("=", "in the equation")
        value, span = self.spanned_sum()
        self.skip_string()
        self.need(";", "or an operator after the equation")
        return Equation(der, target, value, at, span)

    def clause(self) -> Union[Clause, Loop]:
        if self.sees("for"):
            return self.loop(self.clause)
        if not self.sees("when"):
            self.fail("'when', 'for' or 'end'")
        at = self.at()
        self.deepen()
        branches = []
        while True:
            self.take()
            condition = self.condition()
            self.need("then", "or an operator after the condition")
            body = []
            while self.sees("reinit", "for") or self.sees_name():
                body.append(self.assignment(False))
            branches.append(Branch(condition, body))
            if not self.sees("elsewhen"):
                break
        self.close("when")
        return Clause(branches, at)

    def assignment(self, start: bool) -> Union[Assignment, Loop]:
        if self.sees("for"):
            return self.loop(lambda: self.assignment(start))
        at = self.at()
        if self.sees("reinit") and not start:
            self.take()
            self.need("(", "after 'reinit'")
            target = self.ref()
            self.need(",", "after the state's name")
            value, span = self.spanned_sum()
            self.need(")", "after the value")
            self.need(";", "after the statement")
            return Assignment(True, target, value, at, span)
        if not self.sees_name():
            self.fail("a statement, or 'end'")
        target = self.ref()
        self.need(":=", "in the statement")
        value, span = self.spanned_sum()
        self.need(";", "or an operator after the statement")
        return Assignment(False, target, value, at, span)

    # expressions

    def condition(self) -> Condition:
        at = self.at()
        found = self.relation(True)
        assert isinstance(found, Condition)
        return found._replace(at=at, span=(at, self.last_end()))

    def relation(self, required: bool) -> Union[Condition, Expression]:
        """A relation; or, if none is required, a sum that a bracket may follow."""
        at = self.at()
        if self.sees("("):
            self.take()
            inner = self.relation(False)
            self.need(")", "after the condition")
            if isinstance(inner, Condition):
                return inner
            left = self.sum(inner, at)
        else:
            left = self.sum()
        if self.sees("<", "<=", ">", ">="):
            sign = self.take()
            right = self.sum()
            return Condition(left, sign.text, right, sign.at, at, (at, self.last_end()))
        if required:
            self.fail("'<', '<=', '>' or '>=' in the condition")
        return left

    def spanned_sum(self) -> Tuple[Expression, Span]:
        """A sum and its span."""
        begin = self.at()
        found = self.sum()
        return found, (begin, self.last_end())

    def sum(self, begun: Optional[Expression] = None, begun_at: Optional[int] = None) -> Expression:
        at = self.at() if begun is None else begun_at
        parts = []
        if begun is None:
            minus = False
            if self.sees("+", "-"):
                minus = self.take().text == "-"
            parts.append((minus, at, self.product()))
        else:
            parts.append((False, at, self.product(begun, begun_at)))
        while self.sees("+", "-"):
            sign = self.take()
            parts.append((sign.text == "-", sign.at, self.product()))
        if len(parts) == 1 and not parts[0][0]:
            return parts[0][2]
        return Sum(tuple(parts), at)

    def product(self, begun: Optional[Expression] = None, begun_at: Optional[int] = None) -> Expression:
        at = self.at() if begun is None else begun_at
        parts = [(False, at, self.power(begun, begun_at))]
        while self.sees("*", "/"):
            sign = self.take()
            parts.append((sign.text == "/", sign.at, self.power()))
        return parts[0][2] if len(parts) == 1 else Product(tuple(parts), at)

    def power(self, begun: Optional[Expression] = None, begun_at: Optional[int] = None) -> Expression:
        at = self.at() if begun is None else begun_at
        base = self.primary() if begun is None else begun
        if not self.sees("^"):
            return base
        sign = self.take()
        if self.kind() != "number" or self.text() not in tuple("012345678"):
            self.fail("a digit from 0 to 8 after '^'")
        return Power(base, int(self.take().text), sign.at, at)

    def primary(self) -> Expression:
        at = self.at()
        if self.kind() == "number":
            return Number(self.take().text, at)
        if self.sees_name():
            return Name(self.ref(), at)
        if self.sees("time"):
            self.take()
            return Time(at)
        if self.sees("pre"):
            self.take()
            self.need("(", "after 'pre'")
            ref = self.ref()
            self.need(")", "after the variable's name")
            return Pre(ref, at)
        if self.sees("("):
            self.take()
            inner = self.sum()
            self.need(")", "or an operator")
            return inner
        return self.fail("a number, a variable, 'time', 'pre' or '('")

    def ref(self) -> Ref:
        name = self.need_name("a variable's name")
        index = None
        if self.sees("["):
            self.take()
            index = self.sum()
            self.need("]", "after the index")
        return Ref(name.text, index, name.at)


def parse(source: Source) -> Model:
    """The model that a source spells, or a SyntaxFault."""
    return Parser(source).model()
