"""Reads the heads of files of code, and the order of their items.

A head is the run of `//!` lines with which a file begins. It is one paragraph, filled to 100 columns. The head of a
root file, src/lib.rt or src/main.rt, has three parts: what the crate is, its main items, and what it depends on.
"""
import re
from typing import Dict, Iterator, List, Tuple

from .rattle_source import modules_of

MARK = "//!"
COLUMNS = 100
MOST_LINES = 4
VISIBLE = r"^(?:pub(?:\([a-z]+\))? )?"
FUNCTION = re.compile(VISIBLE + r"(?:const |unsafe )*fn \w", re.MULTILINE)
TYPE = re.compile(VISIBLE + r"(?:struct|enum|trait|type) (\w+)", re.MULTILINE)
OWN_IMPL = re.compile(r"^(impl\b[^{;]*)\{", re.MULTILINE)
ITEM = r"\b(?:fn|struct|enum|trait|type|const|static) %s\b"
NAMED = re.compile(r"`(\w+)::(\w+)`")


def head_of(text: str) -> List[str]:
    """The lines of a file's head, without their marks."""
    lines: List[str] = []
    for line in text.split("\n"):
        if not line.startswith(MARK):
            break
        lines.append(line[len(MARK) :].strip())
    return lines


def is_root(file: str) -> bool:
    """Whether a file, named from the crate's folder on, is the root of its crate."""
    return not modules_of(file)


def is_stacked(file: str, text: str) -> bool:
    """Whether a head is several captions: it has many lines, or a line ends before it is full (except in a root)."""
    lines = head_of(text)
    early = not is_root(file) and any(
        len(MARK) + 2 + len(line) + len(after.split(" ")[0]) <= COLUMNS for line, after in zip(lines, lines[1:])
    )
    return early or len(lines) > MOST_LINES


def late_types(code: str) -> int:
    """How many types follow the first function of a masked text."""
    first = FUNCTION.search(code)
    return len(TYPE.findall(code, first.end())) if first else 0


def own_impls(code: str) -> Iterator[Tuple[str, int]]:
    """The heads of the impls without a trait of a masked text, and how many blocks each has."""
    heads = [" ".join(it.split()) for it in OWN_IMPL.findall(code)]
    for head in sorted(set(heads)):
        if " for " not in head:
            yield head, heads.count(head)


def lacking(files: Dict[str, str]) -> Iterator[Tuple[str, str]]:
    """The root files of a crate, and the names `module::item` of their heads that the crate does not have."""
    texts = {(modules_of(file) or [""])[-1]: text for file, text in files.items()}
    for file in filter(is_root, files):
        for module, item in NAMED.findall(" ".join(head_of(files[file]))):
            if not re.search(ITEM % item, texts.get(module, "")):
                yield file, "%s::%s" % (module, item)


def missing_names(code: Dict[str, Dict[str, str]]) -> List[str]:
    """The names `module::item` of the heads of root files that their crates do not have."""
    return ["crates/%s/%s: %s" % (crate, *it) for crate, files in code.items() for it in lacking(files)]
