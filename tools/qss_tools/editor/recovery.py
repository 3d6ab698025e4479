"""Reads what can be read of a text that is not finished: after a fault it goes on at the next statement."""
from typing import List

from ..model.grammar import Model, Parser, SyntaxFault
from ..model.source import Source

DECLARED = ("parameter", "constant", "discrete", "Real", "Integer")
SECTIONS = ("equation", "algorithm", "initial")
BEGINNINGS = DECLARED + SECTIONS + ("annotation", "when", "end")


class Recovering(Parser):
    """A parser that keeps its faults and goes on."""

    def __init__(self, source: Source) -> None:
        super().__init__(source)
        self.faults: List[SyntaxFault] = []

    def model(self) -> Model:
        found = Model()
        section = "head"
        while self.next < len(self.tokens):
            begin = self.next
            self.depth = 0
            try:
                section = self._read(found, section)
            except SyntaxFault as fault:
                self.faults.append(fault)
                self._skip(begin)
        return found

    def _read(self, found: Model, section: str) -> str:
        """Reads a declaration, a statement or another part, and returns the section that it leads to."""
        if self.sees("model"):
            self.take()
            found.name = self.need_name("a name for the model").text
            self.skip_string()
        elif self.sees("import"):
            self.import_line()
        elif self.sees(*DECLARED):
            self.declarations(found)
        elif self.sees(*SECTIONS):
            return self._section()
        elif self.sees("annotation"):
            self.annotation(found, None)
            self.need(";", "after the annotation")
        elif self.sees("end"):
            self._end(found)
        elif section == "algorithm":
            found.clauses.append(self.clause())
        elif section == "initial":
            found.starts.append(self.assignment(True))
        else:
            found.equations.append(self.equation())
        return section

    def _section(self) -> str:
        word = self.take().text
        if word == "initial" and self.sees("algorithm"):
            self.take()
        return str(word)

    def _end(self, found: Model) -> None:
        found.end_line = self.at()
        self.take()
        found.end_at = self.at()
        found.end_name = self.need_name("the model's name").text
        self.need(";", "after the last 'end'")

    def _skip(self, begin: int) -> None:
        """Goes on after the next semicolon, or at a word with which a part begins."""
        self.next = max(self.next, begin + 1)
        while self.next < len(self.tokens) and not self.sees(*BEGINNINGS):
            self.next += 1
            if self.tokens[self.next - 1].text == ";":
                break
