"""Counts what must be read to understand a definition.

  tools/reading-index [--list] CRATE.FILE.NAME ..
  tools/reading-index --page
  tools/reading-index --split [--write CRATE ..]

A name is that of a definition in crates/CRATE/specs/FILE.antt. The tool follows the `use` lines to all definitions on
which it depends. It prints a table: for each file, how many definitions are needed and how many lines they have
(without comments, `use` lines and blank lines). --list prints the names too. --page prints the tables of
docs/READING.md, in which each part leaves out what an earlier part has.

The theorems of all crates and the clauses of the main calls (`qss_main`, `run_on_known_contents`, and the calls for
bytes in memory) depend on some files of specs/. The other files describe how contracts see the code: --split prints
them crate by crate. --write puts the lines of specs/Lib.antt of these crates in two lists, one for each kind.
"""
import glob
import os
import re
import sys
from typing import Any, Dict, Iterable, Iterator, List, Optional, Sequence, Set, Tuple

from qss_tools.fault import FINE, Arguments, Fault, run_tool
from qss_tools.program import ROOT

HEAD = re.compile(
    r"^(?:abbrev|unfoldable|foldable|opaque|irrelevant)?\s*(?:pub\s+)?"
    r"(?:record|data|abbrev)?\s*(?:pub\s+)?([^\s:(){}]+)"
)
WORD = re.compile(r"[^\s(){}\[\];,λ.]+")

# the parts of docs/READING.md, in reading order: a title and the definitions that are read for it
TEXT, SECOND, RANGES = "rows as text", "second-order runs", "every sum in range"
PARTS = [
    ("the trajectory and its rows", ["qss_machine.Runs.run_by", "qss_machine.Runs.run_rows", "qss_machine.Runs.IsRun"]),
    (TEXT, ["qss_events.RunTexts.run_by_rule", "qss_events.RunTexts.run_text"]),
    (
        "the inequalities",
        [
            "cert_check.Inequalities.Holds",
            "cert_check.Systems.system_of",
            "cert_check.CertificateData.certificate_data",
        ],
    ),
    ("legitimate runs", ["qss_machine.Legitimate.IsLegitimate"]),
    ("the promise", ["cert_check.Bounds.BoundsAreGuaranteed", "cert_check.Bounds.CoversOwnRuns"]),
    (SECOND, ["qss_order2.SecondRunTexts.second_order_run", "qss_order2.SecondRunTexts.second_run_text"]),
    (RANGES, ["cert_check.InequalityTable.AreSumsInRange"]),
]


# the files of the main calls: the clauses of their public functions count as theorems
CALLS = [
    "crates/qss_top/src/top.rt",
    "crates/qss_top/src/byte_answers.rt",
    "crates/qss_guarantees/src/known_files.rt",
]
# the comments of the two lists of specs/Lib.antt
SUBJECT = "-- for theorems and callers"
CODE = "-- logical views of the code"
Key = Tuple[str, str, str]  # a crate, a file and a name


def brought_in(text: str) -> Iterator[Tuple[str, Tuple[str, str]]]:
    """The names that a list of a `use` line brings in, each with its path and its name there."""
    path, _, rest = text.partition(".{")
    for item in rest.rstrip("} ").split(","):
        name, _, other = item.strip().partition(" as ")
        yield other or name, (path, name)


class Module:
    """A file of specs/: its definitions with their lines, and what its `use` lines bring in."""

    def __init__(self, crate: str, name: str) -> None:
        self.crate, self.name = crate, name
        self.bodies: Dict[str, List[str]] = {}
        self.names: Dict[str, Tuple[str, str]] = {}
        self.modules: Dict[str, str] = {}
        self.makers: Dict[str, str] = {}
        self.passed_on: Dict[str, Tuple[str, str]] = {}
        with open(f"{ROOT}/crates/{crate}/specs/{name}.antt", encoding="utf-8") as file:
            self.read(file.read().splitlines())

    def read(self, lines: Sequence[str]) -> None:
        current: Optional[str] = None
        mutual = False
        for line in lines:
            mutual = line.endswith("mutual") or (mutual and (not line or line[0] == " "))
            line = line[2:] if mutual and line.startswith("  ") else line
            if line.startswith("pub use "):
                self.passed_on.update(brought_in(line[8:]))
            elif line.startswith("use "):
                self.bring_in(line[4:])
            elif not line.strip() or line.lstrip().startswith("--"):
                continue
            elif line[0] in " \t)" or not HEAD.match(line):
                if current:
                    self.bodies[current].append(line)
                    self.note_maker(current, line)
            elif line.endswith("mutual") or line.startswith(
                ("infix", "syntax", "module", "open", "unfolding", "ruleset")
            ):
                continue
            else:
                head = HEAD.match(line)
                assert head is not None
                current = head[1]
                self.bodies.setdefault(current, []).append(line)

    def note_maker(self, current: str, line: str) -> None:
        """Notes the data type of a constructor, which is counted in its place."""
        made = re.match(r"  ([^\s:(){}]+) :", line)
        if made and " data " in f" {self.bodies[current][0]}":
            self.makers[made[1]] = current

    def owner(self, name: str) -> str:
        return self.makers.get(name, name)

    def bring_in(self, text: str) -> None:
        if ".{" in text:
            self.names.update(brought_in(text))
        else:
            path, _, other = text.partition(" as ")
            self.modules[(other or path.rsplit(".", 1)[-1]).strip()] = path.strip()


class Library:
    def __init__(self) -> None:
        self.loaded: Dict[Tuple[str, str], Optional[Module]] = {}

    def module(self, crate: str, name: str) -> Optional[Module]:
        key = (crate, name)
        if key not in self.loaded:
            there = os.path.isfile(f"{ROOT}/crates/{crate}/specs/{name}.antt")
            self.loaded[key] = Module(crate, name) if there else None
        return self.loaded[key]

    def place(self, path: str) -> Optional[Tuple[str, str]]:
        """The crate and file that a path of a `use` line names, where it is a file of specs/ here."""
        found = re.fullmatch(r"Rattle\.(\w+)\.specs\.(\w+)", path)
        return (found[1], found[2]) if found and self.module(found[1], found[2]) else None

    def cited(self, module: Module, name: str) -> Iterator[Key]:
        """The definitions of the repository that a definition names."""
        words = " ".join(module.bodies[name])
        for word in set(WORD.findall(words)):
            own = module.owner(word)
            if own in module.bodies and own != name:
                yield module.crate, module.name, own
        for word, (path, own) in module.names.items():
            place = self.place(path)
            symbol = word.replace("◌", "")
            if place and (symbol if symbol != word else word) in set(WORD.findall(words)):
                yield (*place, own)
        for other, path in module.modules.items():
            place = self.place(path)
            if place:
                for word in re.findall(rf"\b{re.escape(other)}\.([^\s(){{}}\[\];,]+)", words):
                    yield (*place, word)

    def defined(self, key: Key) -> Key:
        """Where the definition of a name is, which a file may only pass on."""
        module = self.module(key[0], key[1])
        if module and key[2] in module.passed_on:
            path, name = module.passed_on[key[2]]
            place = self.place(path)
            return self.defined((*place, name)) if place else key
        return (key[0], key[1], module.owner(key[2])) if module else key

    def closure(self, roots: Iterable[Key]) -> List[Key]:
        seen: List[Key] = []
        todo = list(roots)
        while todo:
            key = self.defined(todo.pop())
            module = self.module(key[0], key[1])
            if key in seen or not module or key[2] not in module.bodies:
                continue
            seen.append(key)
            todo.extend(self.cited(module, key[2]))
        return seen

    def lines(self, key: Key) -> int:
        module = self.module(key[0], key[1])
        assert module is not None
        return len(module.bodies[key[2]])


def parse(name: str) -> Key:
    parts = name.split(".")
    if len(parts) != 3:
        raise Fault(f"{name}: a name is CRATE.FILE.NAME")
    crate, file, own = parts
    return crate, file, own


def roots_of(library: Library, names: Iterable[str]) -> List[Key]:
    roots = [parse(it) for it in names]
    for crate, file, name in roots:
        module = library.module(crate, file)
        if not module or name not in module.bodies:
            raise Fault(f"no definition {name} in crates/{crate}/specs/{file}.antt")
    return roots


def table(library: Library, keys: Iterable[Key]) -> Dict[Tuple[str, str], List[Any]]:
    """Rows of a crate's file with the number of definitions and their lines."""
    rows: Dict[Tuple[str, str], List[Any]] = {}
    for key in keys:
        row = rows.setdefault((key[0], key[1]), [0, 0, []])
        row[0] += 1
        row[1] += library.lines(key)
        row[2].append(key[2])
    return rows


def show(library: Library, keys: Sequence[Key], with_names: bool) -> None:
    rows = table(library, keys)
    print("| file | definitions | lines |")
    print("|---|---|---|")
    for (crate, file), (count, lines, names) in sorted(rows.items()):
        print(
            f"| `{crate}/specs/{file}` | {count} | {lines} |" + (f" {', '.join(sorted(names))}" if with_names else "")
        )
    print(f"| **all** | **{len(keys)}** | **{sum(it[1] for it in rows.values())}** |")


def summed(library: Library, title: str, parts: Iterable[Tuple[str, List[str]]]) -> None:
    """The row of these parts together, with all on which they depend."""
    keys = library.closure(roots_of(library, [name for _, names in parts for name in names]))
    print(f"| **{title}** | | {len(keys)} definitions | **{sum(library.lines(key) for key in keys)}** |")


def page(library: Library) -> None:
    seen: Set[Key] = set()
    print("| part | reads | files, with lines | lines |")
    print("|---|---|---|---|")
    for title, names in PARTS:
        new = [key for key in library.closure(roots_of(library, names)) if key not in seen]
        seen.update(new)
        rows = table(library, new)
        files = ", ".join(f"`{crate}/specs/{file}` {lines}" for (crate, file), (_, lines, _) in sorted(rows.items()))
        lines = sum(it[1] for it in rows.values())
        roots = ", ".join(f"`{it.rsplit('.', 1)[1]}`" for it in names)
        print(f"| {title} | {roots} | {files} | {lines} |")
    summed(
        library,
        "trajectory, inequalities and promise",
        [part for part in PARTS if part[0] not in (TEXT, SECOND, RANGES)],
    )
    summed(library, "all", PARTS)


def theorem_clauses(text: str) -> List[str]:
    """The clauses of functions that do nothing: these are theorems."""
    return re.findall(r"\bfn \w+\(\)\s+ensures(?: \w+)? \{((?:(?!\bfn ).)*)\}\n\{\}", text, re.DOTALL)


def public_contracts(text: str) -> List[str]:
    """The public functions, from their names to where their bodies begin."""
    return re.findall(r"^pub fn .*?^\{$", text, re.DOTALL | re.MULTILINE)


def cited_by(library: Library, path: str) -> Iterator[Key]:
    """The definitions that the theorems of a file cite, or those of all its public functions if it is one of CALLS."""
    with open(path, encoding="utf-8") as file:
        text = file.read()
    clauses = public_contracts(text) if os.path.relpath(path, ROOT) in CALLS else theorem_clauses(text)
    words = set(WORD.findall("\n".join(clauses)))
    for crate, name, items in re.findall(r"ghost use Rattle\.(\w+)\.specs\.(\w+)\.\{([^}]*)\};", text):
        module = library.module(crate, name)
        for item in items.split(","):
            own, _, other = item.strip().partition(" as ")
            if module and (other or own) in words and (own in module.bodies or own in module.passed_on):
                yield library.defined((crate, name, own))


def code_files(library: Library) -> Dict[str, List[str]]:
    """The files of specs/, crate by crate, on which no theorem and no clause of a main call depends."""
    roots = [
        key for path in glob.glob(f"{ROOT}/crates/*/src/**/*.rt", recursive=True) for key in cited_by(library, path)
    ]
    used = {(crate, name) for crate, name, _ in library.closure(roots)}
    files: Dict[str, List[str]] = {}
    for path in sorted(glob.glob(f"{ROOT}/crates/*/specs/*.antt")):
        crate, name = path.split("/")[-3], os.path.basename(path)[: -len(".antt")]
        module = library.module(crate, name)
        if name != "Lib" and (crate, name) not in used and module and module.bodies:
            files.setdefault(crate, []).append(name)
    return files


def split(library: Library) -> None:
    for crate, names in code_files(library).items():
        print(f"| `{crate}` | {', '.join(names)} |")


def list_apart(library: Library, crates: Iterable[str]) -> None:
    """Puts the lines of specs/Lib.antt of each of these crates in two lists."""
    files = code_files(library)
    for crate in crates:
        path = f"{ROOT}/crates/{crate}/specs/Lib.antt"
        with open(path, encoding="utf-8") as file:
            lines = [line for line in file.read().splitlines() if line and not line.startswith("--")]
        code = [line for line in lines if line.split()[-1] in files.get(crate, [])]
        subject = [line for line in lines if line not in code]
        parts = [[SUBJECT, *subject], [CODE, *code]] if subject and code else [lines]
        with open(path, "w", encoding="utf-8") as file:
            file.write("".join(line + "\n" for part in parts for line in part))


def tool(arguments: Sequence[str]) -> int:
    parser = Arguments(prog="reading-index", description=__doc__)
    parser.add_argument("names", nargs="*", metavar="CRATE.FILE.NAME", help="definitions, or with --write crates")
    parser.add_argument("--list", action="store_true", help="print the names of the definitions too")
    kind = parser.add_mutually_exclusive_group()
    kind.add_argument("--page", action="store_true", help="print the tables of docs/READING.md")
    kind.add_argument("--split", action="store_true", help="print the files that say how contracts see the code")
    parser.add_argument(
        "--write", action="store_true", help="with --split: write specs/Lib.antt of these crates in two lists"
    )
    args = parser.parse_args(arguments)
    if args.write and not args.split or args.page and args.names or args.split and args.names and not args.write:
        parser.error("--page and --split take no names, and --write goes with --split")
    if not (args.page or args.split or args.names):
        parser.error("give a definition, --page or --split")
    library = Library()
    if args.page:
        page(library)
    elif args.write:
        list_apart(library, args.names)
    elif args.split:
        split(library)
    else:
        show(library, library.closure(roots_of(library, args.names)), args.list)
    return FINE


def main(arguments: Optional[Sequence[str]] = None) -> int:
    """Runs the tool and returns its status."""
    return run_tool("reading-index", tool, arguments)


if __name__ == "__main__":
    sys.exit(main())
