"""Reads Rattle sources as far as tools need it: the functions of a file, their contracts and where they are located."""
import glob
import os
import re
from typing import Dict, Iterator, List, NamedTuple, Optional, Tuple

# Comments, strings and characters.
OTHER = re.compile(r"//[^\n]*|\"(?:\\.|[^\"\\])*\"|'(?:\\[^\n']+|[^'\\\n])'", re.DOTALL)
FUNCTION = re.compile(r"^([ \t]*)(?:pub(?:\([a-z]+\))? )?(?:const |unsafe )*fn (\w+)", re.MULTILINE)
IMPL = re.compile(r"^impl\b[^{;]*\{", re.MULTILINE)
TRAIT = re.compile(r"^(?:pub(?:\([a-z]+\))? )?trait (\w+)[^{;]*\{", re.MULTILINE)
# What follows the parameters: a clause, a body, or the end of a method without a body.
NEXT = re.compile(r"\b(requires|ensures|decreases)\b([^{;]*)\{|\{|;")
CLOSING = {"{": "}", "(": ")", "[": "]", "<": ">"}


class Clause(NamedTuple):
    """A clause of a contract: requires, ensures or decreases, its name or "", and its text on one line."""

    kind: str
    name: str
    text: str


class Function(NamedTuple):
    """A function of the code. Lines are counted from 1; `body` is the text between its brackets, or None."""

    file: str
    owner: str  # the type of its impl, the trait that declares it, or ""
    trait: str  # the trait of its impl, or ""
    name: str
    line: int
    start: int  # where its attributes and comments end and its first word is, as an offset of the text
    end: int
    parameters: List[str]
    clauses: List[Clause]
    body: Optional[str]
    is_commented: bool

    @property
    def path(self) -> str:
        """The function as rt names it: modules, type (with the trait of its impl) and name, joined by `::`."""
        return "::".join([*modules_of(self.file), *([self.owner + self.trait] if self.owner else []), self.name])


def modules_of(file: str) -> List[str]:
    """The modules of a file of src/: `src/a/b.rt` is the module `a::b`, and the root has none."""
    parts = os.path.splitext(file)[0].split("/")[1:]
    return [] if parts in (["lib"], ["main"]) else parts


def masked(text: str) -> str:
    """The text with blanks in place of its comments, strings and characters."""
    return OTHER.sub(lambda it: re.sub(r"[^\n]", " ", it[0]), text)


def closing(text: str, at: int) -> int:
    """The place at which a bracket closes, or the end of the text. The arrow of a function's type is no bracket."""
    opens, closes, depth = text[at], CLOSING[text[at]], 0
    for place in range(at, len(text)):
        if text[place] == opens:
            depth += 1
        elif text[place] == closes and not (closes == ">" and text[place - 1] in "-="):
            depth -= 1
            if not depth:
                return place
    return len(text)


def parameters_of(text: str) -> List[str]:
    """The parameters between two brackets."""
    found, depth, begun = [], 0, 0
    for place, letter in enumerate(text):
        if letter in "([{<":
            depth += 1
        elif letter in ")]}" or letter == ">" and text[place - 1] not in "-=":
            depth -= 1
        elif letter == "," and not depth:
            found.append(text[begun:place])
            begun = place + 1
    return [it.strip() for it in [*found, text[begun:]] if it.strip()]


def is_commented(lines: List[str], line: int) -> bool:
    """Whether a comment is located above this line, attributes between them left out."""
    at = line - 2
    while at >= 0 and (lines[at].strip().startswith("#[") or lines[at].strip().endswith("]")):
        at -= 1
    return at >= 0 and lines[at].strip().startswith("//")


def owners(text: str) -> Iterator[Tuple[int, int, str, str]]:
    """The impls and traits of a masked text: where each begins and ends, its type, and the trait that it implements."""
    for it in IMPL.finditer(text):
        head = it[0][len("impl") : -1].strip()
        if head.startswith("<"):
            head = head[closing(head, 0) + 1 :].strip()
        trait, _, of = head.rpartition(" for ")
        name = re.match(r"&?(?:mut )?(?:\w+::)*(\w+)", of.strip())
        yield it.start(), closing(text, it.end() - 1), name[1] if name else "", re.split(r"[<\s]", trait.strip())[0]
    for it in TRAIT.finditer(text):
        yield it.start(), closing(text, it.end() - 1), it[1], ""


def functions(file: str, text: str) -> List[Function]:
    """The functions of a file in their order. The file is named from the crate's folder on, as `src/lib.rt`."""
    code, lines, found = masked(text), text.split("\n"), []
    spans = list(owners(code))
    for it in FUNCTION.finditer(code):
        at = it.end()
        if code[at] == "<":
            at = closing(code, at) + 1
        if code[at] != "(":
            continue
        ends = closing(code, at)
        parameters = parameters_of(code[at + 1 : ends])
        clauses, body, at = [], None, ends + 1
        while body is None:
            more = NEXT.search(code, at)
            if more is None or more[0] == ";":
                at = more.end() if more else len(code)
                break
            ends = closing(code, more.end() - 1)
            inside = text[more.end() : ends]
            at = ends + 1
            if more[1]:
                clauses.append(Clause(more[1], more[2].strip(), " ".join(OTHER.sub("", inside).split())))
            else:
                body = inside
        owner, trait = next(((of, by) for a, b, of, by in spans if a < it.start() < b), ("", ""))
        line = code.count("\n", 0, it.start()) + 1
        found.append(
            Function(
                file, owner, trait, it[2], line, it.start(), at, parameters, clauses, body, is_commented(lines, line)
            )
        )
    return found


def files_of(root: str, crate: str, part: str, ending: str) -> Dict[str, str]:
    """The texts of a crate's files of src/, specs/ or proofs/, by their paths from the crate's folder on."""
    folder = os.path.join(root, "crates", crate)
    texts = {}
    for path in sorted(glob.glob(os.path.join(folder, part, "**", "*" + ending), recursive=True)):
        with open(path, encoding="utf-8") as file:
            texts[os.path.relpath(path, folder)] = file.read()
    return texts


def crates_of(root: str) -> List[str]:
    """The crates of a checkout, by name."""
    return sorted(os.path.basename(os.path.dirname(it)) for it in glob.glob(os.path.join(root, "crates", "*", "src")))
