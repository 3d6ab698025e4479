"""What is wrong with a text: the refusals of the program, one after the other where that is safe."""
import os
import subprocess
from dataclasses import dataclass, field
from typing import List, NamedTuple, Optional, Tuple

from ..advice.explain import LINE, explain
from ..fault import Fault
from ..model.source import LONGEST, Source, Token
from ..model.story import Story
from ..program import start
from .fixes import Fix, candidates
from .names import Names
from .text import Edit, edited

PHASES = ("top", "lex", "parse", "names", "unroll", "causal", "affine", "machine", "overflow")
MOST_PROBLEMS = 8
LONGEST_CHECK = 1.0  # seconds of a run: what is refused is refused at once
BOUNDARIES = (";", "equation", "algorithm", "loop")
STRUCTURE = frozenset("model end when elsewhen for loop equation algorithm initial annotation".split())


@dataclass
class Problem:
    """A sentence about bytes of a text, with suggested fixes and their edits."""

    begin: int
    end: int
    sentence: str
    ways: List[str] = field(default_factory=list)
    phase: str = ""
    fixes: List[Fix] = field(default_factory=list)
    grave: bool = True


class Refusal(NamedTuple):
    """A line of the program about a text, and its story."""

    source: Source
    line: str
    phase: str
    story: Story

    @property
    def rank(self) -> int:
        return PHASES.index(self.phase) if self.phase in PHASES else len(PHASES)


class Layers:
    """The edits that lead from the text to the one that is checked: they give each place in the text itself."""

    def __init__(self) -> None:
        self.edits: List[Edit] = []

    def add(self, edits: Tuple[Edit, ...]) -> None:
        # (the last one first: the places of the others stay)
        self.edits += sorted(edits, key=lambda one: one.begin, reverse=True)

    def back(self, at: int) -> Optional[int]:
        """A place in the text itself, or None in what an edit has written."""
        for edit in reversed(self.edits):
            length = len(edit.text.encode())
            if edit.begin <= at < edit.begin + length:
                return None
            if at >= edit.begin + length:
                at += edit.end - edit.begin - length
        return at

    def edit_back(self, edit: Edit) -> Optional[Edit]:
        begin, end = self.back(edit.begin), self.back(edit.end)
        if begin is None or end is None or end - begin != edit.end - edit.begin:
            return None
        return Edit(begin, end, edit.text)


class Checker:
    """Checks texts by the program, by way of a file in a folder."""

    def __init__(self, program: str, folder: str) -> None:
        self.program = program
        self.folder = folder

    def line(self, data: bytes) -> str:
        """The line that the program writes on standard error for a text, or nothing."""
        path = os.path.join(self.folder, "checked.mo")
        with open(path, "wb") as file:
            file.write(data)
        streams = {"stdin": subprocess.DEVNULL, "stdout": subprocess.DEVNULL, "stderr": subprocess.PIPE}
        with start(self.program, ["run", path, "--only", "-"], **streams) as process:
            try:
                err = process.communicate(timeout=LONGEST_CHECK)[1]
            except subprocess.TimeoutExpired:
                process.kill()
                process.communicate()
                return ""
        lines = err.decode("utf-8", "replace").strip().splitlines()
        return lines[-1] if lines else ""

    def refusal(self, name: str, data: bytes) -> Optional[Refusal]:
        line = self.line(data)
        if not line:
            return None
        refused = LINE.match(line)
        phase = refused.group(1) if refused else line.partition(":")[0]
        source = Source(name, data)
        try:
            return Refusal(source, line, phase, explain(source, line))
        except (Fault, RecursionError):
            return Refusal(source, line, phase, Story(None, line))

    def problems(self, name: str, data: bytes) -> List[Problem]:
        """What is wrong, in the order in which the program finds it.

        After a problem the check goes on in the text with its fix, or without its statement. What is then found is a
        problem of the text itself if nothing that was left out or only guessed can be its cause.
        """
        found: List[Problem] = []
        layers, deepest, checked = Layers(), len(PHASES), data
        refusal = self.refusal(name, data) if len(data) <= LONGEST * 2 else None
        while refusal is not None and len(found) < MOST_PROBLEMS and refusal.rank <= deepest:
            at = layers.back(refusal.story.at) if refusal.story.at is not None else 0
            if at is None or any(one.begin == at for one in found):
                break
            fixes, following = self.fixes(name, refusal)
            found.append(problem(refusal, at, layers, fixes))
            edits: Tuple[Edit, ...] = fixes[0].edits if fixes else masked(refusal)
            if not edits:
                break
            if not fixes or not fixes[0].sure:
                deepest = min(deepest, PHASES.index("names" if fixes else "parse"))
            checked = edited(checked, edits)
            layers.add(edits)
            refusal = following if fixes else self.refusal(name, checked)
        return found

    def fixes(self, name: str, refusal: Refusal) -> Tuple[List[Fix], Optional[Refusal]]:
        """The fixes after which the program refuses nothing or something else, and what it refuses after the first."""
        found: List[Fix] = []
        first: Optional[Refusal] = None
        names = Names(refusal.source)
        for one in candidates(refusal.source, names, refusal.phase, refusal.story):
            after = self.refusal(name, edited(refusal.source.data, one.edits))
            if after is None or is_ahead(refusal, after, one):
                first = first if found else after
                found.append(one)
        return found, first


def is_ahead(before: Refusal, after: Refusal, fix: Fix) -> bool:
    """Whether a refusal after a fix is another one than before."""
    if after.rank != before.rank:
        return after.rank > before.rank
    layers = Layers()
    layers.add(fix.edits)
    at = layers.back(after.story.at) if after.story.at is not None else None
    return at is not None and before.story.at is not None and at > before.story.at


def problem(refusal: Refusal, at: int, layers: Layers, fixes: List[Fix]) -> Problem:
    """A refusal as a problem of the text itself, with the fixes whose edits are edits of that text."""
    story, source = refusal.story, refusal.source
    width = 0
    if story.at is not None:
        token = next((one for one in source.tokens if one.at == story.at), None)
        width = story.width or (len(token.text.split("\n")[0]) if token else 1)
    kept = []
    for one in fixes:
        edits = [layers.edit_back(edit) for edit in one.edits]
        if None not in edits:
            kept.append(Fix(one.title, tuple(edit for edit in edits if edit), one.sure))
    return Problem(at, at + width, story.sentence, list(story.ways), refusal.phase, kept)


def masked(refusal: Refusal) -> Tuple[Edit, ...]:
    """The edit that blanks out the statement of a syntax fault, or none if it is not one plain statement."""
    span = statement(refusal.source.tokens, refusal.story.at) if refusal.phase == "parse" else None
    if span is None:
        return ()
    blank = "".join("\n" if byte == 10 else " " for byte in refusal.source.data[span[0] : span[1]])
    return (Edit(span[0], span[1], blank),)


def statement(tokens: List[Token], at: Optional[int]) -> Optional[Tuple[int, int]]:
    """The span of the plain statement around a byte."""
    place = next((place for place, token in enumerate(tokens) if token.at == at), None)
    if place is None:
        return None
    first = place
    while first and not is_boundary(tokens, first - 1):
        first -= 1
    last = next((later for later in range(place, len(tokens)) if tokens[later].text == ";"), None)
    if not first or last is None or any(token.text in STRUCTURE for token in tokens[first:last]):
        return None
    return int(tokens[first].at), int(tokens[last].at) + 1


def is_boundary(tokens: List[Token], place: int) -> bool:
    """Whether a statement can begin after a token."""
    if tokens[place].text != "then":
        return tokens[place].text in BOUNDARIES
    words = [token.text for token in tokens[:place]]
    return next((word for word in reversed(words) if word in ("if", "elseif", "when", "elsewhen", ";")), "") in (
        "when",
        "elsewhen",
    )
