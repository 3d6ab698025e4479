"""Writes docs/INDEX.md: the crates by layer, and their files of definitions, with their first sentences.

  tools/make-index          writes docs/INDEX.md
  tools/make-index --check  writes nothing

The text of a crate is the first sentence of the head of its root file, src/lib.rt or src/main.rt. The text of a file
of specs/ is the first sentence of the comment with which it begins. Layers and dependencies come from crates.txt.

A crate is directly below another one if no other library of that one depends on it.

Status: 0 the page is written or is current, 1 with --check: it is not, 2 a fault.
"""
import itertools
import os
import re
import sys
from typing import Dict, Iterator, List, NamedTuple, Optional, Sequence, Set, Tuple

from qss_tools.fault import FINE, WARNED, Arguments, Fault, read_text, run_tool
from qss_tools.program import ROOT

PAGE = os.path.join(ROOT, "docs", "INDEX.md")
LIST = "crates.txt"
ROOT_FILES = ("src/lib.rt", "src/main.rt")
LIB = "Lib.antt"
# Where a sentence ends: two points stand for what is left out.
SENTENCE = re.compile(r"(?<=[^.]\.) +")

HEAD = """# Index

The crates by layer, lowest first, and their files of definitions. `tools/make-index` writes this page from the first
sentences of the files. [ARCHITECTURE.md](ARCHITECTURE.md) has the picture.

The list in `crates.txt` has all crates that the text of a crate names, because the kit requires this. The last column
of this page leaves out each crate on which another one of the column depends.
"""


class Crate(NamedTuple):
    """A crate: its name, its dependencies, its text, and its files of definitions with their texts."""

    name: str
    uses: List[str]
    text: str
    specs: List[Tuple[str, str]]


class Layer(NamedTuple):
    """A heading of crates.txt and its crates."""

    title: str
    crates: List[Crate]


def lines_of(path: str) -> List[str]:
    """The lines of a text file."""
    return read_text(path).splitlines()


def comment_of(path: str, mark: str) -> str:
    """The first sentence of a file, which must begin with a comment."""
    lines = lines_of(path)
    comment = list(itertools.takewhile(lambda line: line.startswith(mark + " "), lines))
    if not comment:
        raise Fault("%s: the first line must be a comment that begins with '%s '" % (path, mark))
    text = " ".join(line[len(mark) :].strip() for line in comment)
    return SENTENCE.split(text, maxsplit=1)[0]


def specs_of(folder: str) -> Iterator[Tuple[str, str]]:
    """The files of definitions of a crate, by name, with their texts. Lib.antt only lists them."""
    there = os.path.join(folder, "specs")
    for name in sorted(os.listdir(there)) if os.path.isdir(there) else ():
        if name.endswith(".antt") and name != LIB:
            yield name[: -len(".antt")], comment_of(os.path.join(there, name), "--")


def crate_of(root: str, name: str, uses: List[str]) -> Crate:
    """A crate of crates.txt."""
    folder = os.path.join(root, "crates", name)
    for file in ROOT_FILES:
        path = os.path.join(folder, file)
        if os.path.isfile(path):
            return Crate(name, uses, comment_of(path, "//!"), list(specs_of(folder)))
    raise Fault("%s: no root file" % folder)


def layers_of(root: str) -> List[Layer]:
    """The layers of crates.txt. Each is a comment line, and the crates up to the next one."""
    layers: List[Layer] = []
    for line in lines_of(os.path.join(root, LIST))[1:]:
        found = re.match(r"([a-z_0-9]+):(.*)$", line)
        if line.startswith("# "):
            layers.append(Layer(line[2:], []))
        elif found and layers:
            layers[-1].crates.append(crate_of(root, found[1], found[2].split()))
    return layers


def uses_of(name: str, every: Dict[str, Crate]) -> Set[str]:
    """All libraries on which a crate depends."""
    uses = every[name].uses if name in every else []
    return set(uses).union(*(uses_of(it, every) for it in uses))


def directly_below(crate: Crate, every: Dict[str, Crate]) -> List[str]:
    """The libraries of the kit that a crate names, and the crates of the repository that are directly below it."""
    deeper: Set[str] = set().union(*(uses_of(it, every) for it in crate.uses))
    return [it for it in crate.uses if it not in every or it not in deeper]


def table(head: Sequence[str], rows: Sequence[Sequence[str]]) -> Iterator[str]:
    """A Markdown table."""
    yield "| %s |" % " | ".join(head)
    yield "|%s|" % "|".join("---" for _ in head)
    for row in rows:
        yield "| %s |" % " | ".join(cell.replace("|", "\\|") for cell in row)


def page(root: str) -> str:
    """The text of the page."""
    layers = layers_of(root)
    crates = [crate for layer in layers for crate in layer.crates]
    every = {crate.name: crate for crate in crates}
    files = sum(len(crate.specs) for crate in crates)
    parts = [HEAD, "%d crates, %d files of definitions.\n" % (len(crates), files), "## Crates\n"]
    for layer in layers:
        parts.append("### %s\n" % layer.title.rstrip("."))
        rows = [("`%s`" % it.name, it.text, " ".join(directly_below(it, every))) for it in layer.crates]
        parts.append("\n".join(table(("crate", "what it is for", "directly below it"), rows)) + "\n")
    parts.append("## Definitions\n")
    for crate in crates:
        if crate.specs:
            link = "../crates/%s/specs" % crate.name
            named = [("[%s](%s/%s.antt)" % (name, link, name), text) for name, text in crate.specs]
            parts.append("### `%s`\n" % crate.name)
            parts.append("\n".join(table(("file", "what it defines"), named)) + "\n")
    return "\n".join(parts)


def tool(arguments: Sequence[str]) -> int:
    parser = Arguments(prog="make-index", description=__doc__)
    parser.add_argument("--check", action="store_true", help="write nothing; status 1 if the page is not current")
    args = parser.parse_args(arguments)
    text = page(ROOT)
    if args.check:
        return FINE if "\n".join(lines_of(PAGE)) + "\n" == text else WARNED
    with open(PAGE, "w", encoding="utf-8") as file:
        file.write(text)
    return FINE


def main(arguments: Optional[Sequence[str]] = None) -> int:
    """Runs the tool and returns its status."""
    return run_tool("make-index", tool, arguments)


if __name__ == "__main__":
    sys.exit(main())
