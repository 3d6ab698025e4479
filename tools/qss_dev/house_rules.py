"""Measures how far the sources keep the rules of CONTRIBUTING.md, and compares the numbers with their limits.

  tools/house-rules            a table: what is measured, the rule, how many are past it, the greatest, and where
  tools/house-rules --places   each place that is past a rule too
  tools/house-rules --lower    writes the present numbers into the file of limits if they are lower

tools/qss_dev/house_limits.tsv has two numbers for each measure: how many may be past the rule, and the greatest that
is allowed. They may fall, and are never raised. The text is parsed, not compiled.

Status: 0 no number is above its limit, 1 some number is, 2 wrong arguments or a fault.
"""
import os
import re
import sys
from typing import Callable, Dict, Iterable, List, NamedTuple, Optional, Sequence, Set, Tuple

from qss_tools.fault import FINE, WARNED, Arguments, Fault, read_text, run_tool
from qss_tools.program import ROOT

from .equal_bodies import FEWEST_TOKENS, equal_bodies
from .file_heads import head_of, is_stacked, late_types, own_impls
from .file_names import ghost_uses, literal_limits, repeats_file
from .rattle_source import Function, crates_of, files_of, functions, masked

LIMITS = os.path.join(os.path.dirname(os.path.abspath(__file__)), "house_limits.tsv")
# The crates whose functions share few clauses.
TOP = ("qss_top", "qss_answers", "qss_guarantees")
# The crates of the simulators, whose functions have fewer parameters.
SIMULATORS = ("qss_devs", "qss_order2", "qss_own_traces", "qss_run", "qss_states")
# How the names of the crates of the language begin.
LANGUAGE = "mu_"
CONTROL = re.compile(r"\b(?:if|else|match|for|while|loop)\b")
LOOP = re.compile(r"\b(?:for\b[^;{}]*\bin|while|loop)\b")
PUBLIC = re.compile(r"^pub mod (\w+)", re.MULTILINE)
CITED = re.compile(r"\bRattle\.(\w+)\.proofs\.(\w+)")
# An import of a file of proofs, with all its lines.
IMPORT = re.compile(r"^(?:unfoldable )?(?:pub )?use [^{\n]*(?:\{[^}]*\})?[^\n]*$", re.MULTILINE)

Place = Tuple[int, str]


class Measure(NamedTuple):
    """What is measured: the greatest number that the rule allows, and the numbers with their places."""

    name: str
    rule: int
    places: List[Place]

    def past(self) -> List[Place]:
        """What is past the rule, the greatest first."""
        return sorted((it for it in self.places if it[0] > self.rule), key=lambda it: (-it[0], it[1]))

    def greatest(self) -> Place:
        """The greatest number with its place."""
        return max(self.places, key=lambda it: it[0], default=(0, ""))


class Sources:
    """The texts of all crates."""

    def __init__(self, root: str):
        self.crates = crates_of(root)
        self.code = {it: files_of(root, it, "src", ".rt") for it in self.crates}
        self.specs = {it: files_of(root, it, "specs", ".antt") for it in self.crates}
        self.proofs = {it: files_of(root, it, "proofs", ".antt") for it in self.crates}
        self.functions = [
            (crate, function)
            for crate in self.crates
            for file, text in self.code[crate].items()
            for function in functions(file, text)
        ]
        if not self.functions:
            raise Fault("%s: no crate with a function" % root)

    def of_functions(self, number: Callable[[Function], int]) -> List[Place]:
        """A number of each function with the function's place."""
        return [(number(it), place(crate, it)) for crate, it in self.functions]

    def of_files(self, parts: Sequence[Dict[str, Dict[str, str]]]) -> List[Tuple[str, str]]:
        """Each file of these parts with its text."""
        return [
            ("crates/%s/%s" % (crate, file), text)
            for part in parts
            for crate in self.crates
            for file, text in part[crate].items()
        ]


def place(crate: str, function: Function) -> str:
    """The file, the line and the name of a function."""
    return "crates/%s/%s:%d %s" % (crate, function.file, function.line, function.name)


def parameters_of_simulators(sources: Sources) -> List[Place]:
    """How many parameters each function of the simulators has."""
    return [(len(it.parameters), place(crate, it)) for crate, it in sources.functions if crate in SIMULATORS]


def nesting(body: Optional[str]) -> int:
    """How many blocks of if, match and loops are inside each other."""
    deepest, stack, begun = 0, [], 0
    code = masked(body or "")
    for at, letter in enumerate(code):
        if letter == "{":
            head = code[begun:at].rpartition("=>")[2]
            stack.append(bool(CONTROL.search(head)))
            deepest = max(deepest, sum(stack))
        elif letter == "}" and stack:
            stack.pop()
        if letter in "{};":
            begun = at + 1
    return deepest


def body_lines(function: Function) -> int:
    """The lines between the brackets of a body."""
    return len((function.body or "").strip("\n").rstrip().split("\n")) if (function.body or "").strip() else 0


def required(function: Function) -> int:
    """How many clauses a function requires."""
    return sum(it.kind == "requires" for it in function.clauses)


def longest_clauses(sources: Sources) -> List[Place]:
    """The length of each clause on one line."""
    return [
        (len(clause.text), "%s %s" % (place(crate, it), clause.name))
        for crate, it in sources.functions
        for clause in it.clauses
    ]


def longest_lines(files: Iterable[Tuple[str, str]]) -> List[Place]:
    """The length of each line over 100 columns, except imports of clauses, which are one line each."""
    return [
        (len(line), "%s:%d" % (path, number))
        for path, text in files
        for number, line in enumerate(text.split("\n"), 1)
        if len(line) > 100 and not line.lstrip().startswith(("ghost use ", "pub use "))
    ]


def public_lemmas(sources: Sources) -> List[Place]:
    """The public files of lemmas that no other crate cites."""
    cited: Set[Tuple[str, str]] = set()
    for crate in sources.crates:
        for part in (sources.code, sources.specs, sources.proofs):
            for text in part[crate].values():
                cited.update(it for it in CITED.findall(text) if it[0] != crate)
    return [
        (1, "crates/%s/proofs/%s.antt" % (crate, name))
        for crate in sources.crates
        for name in PUBLIC.findall(sources.proofs[crate].get("proofs/Lib.antt", ""))
        if (crate, name) not in cited
    ]


def clause_texts(sources: Sources, crates: Sequence[str]) -> Dict[str, Set[str]]:
    """Each text of a clause of these crates, all that is required or guaranteed, with the functions that have it."""
    where: Dict[str, Set[str]] = {}
    for crate, it in sources.functions:
        if crate in crates:
            for clause in it.clauses:
                where.setdefault(clause.text, set()).add(place(crate, it))
    return where


def shared_clauses(sources: Sources, crates: Sequence[str]) -> List[Place]:
    """In how many functions of these crates each text of a clause is written."""
    return [(len(it), text) for text, it in clause_texts(sources, crates).items()]


def file_measures(sources: Sources) -> List[Measure]:
    """The measures of the heads of files of code, and of the order of their items."""
    files = [(crate, *it) for crate in sources.crates for it in sources.code[crate].items()]
    stacked = [(int(is_stacked(file, text)), "crates/%s/%s" % (crate, file)) for crate, file, text in files]
    headless = [(int(not head_of(text)), "crates/%s/%s" % (crate, file)) for crate, file, text in files]
    late = [(late_types(masked(text)), "crates/%s/%s" % (crate, file)) for crate, file, text in files]
    blocks = [
        (count, "crates/%s/%s %s" % (crate, file, head))
        for crate, file, text in files
        for head, count in own_impls(masked(text))
    ]
    return [
        Measure("stacked heads", 0, stacked),
        Measure("files without a `//!` head", 0, headless),
        Measure("types after the first function of a file", 0, late),
        Measure("own `impl` blocks of a type in a file", 1, blocks),
    ]


def proof_measures(sources: Sources) -> List[Measure]:
    """The measures of all proofs together: their lines, and the lines of their imports."""
    texts = [text for _, text in sources.of_files([sources.proofs])]
    imports = [it.group().count("\n") + 1 for text in texts for it in IMPORT.finditer(text)]
    return [
        Measure("lines of proofs", 88000, [(sum(text.count("\n") for text in texts), "crates/*/proofs")]),
        Measure("import lines of proofs", 12000, [(sum(imports), "crates/*/proofs")]),
    ]


def name_measures(sources: Sources) -> List[Measure]:
    """The measures of names, imports of definitions and literal limits."""
    code = sources.of_files([sources.code])
    named = [
        (1, place(crate, it))
        for crate, it in sources.functions
        if not it.owner and not it.trait
        if repeats_file(crate, it.name, it.file)
    ]
    literals = [
        (len(literal_limits(clause.text)), "%s %s" % (place(crate, it), clause.name))
        for crate, it in sources.functions
        for clause in it.clauses
    ]
    return [
        Measure("functions with the name of their file", 0, named),
        Measure("`ghost use` lines of a file", 8, [(ghost_uses(text), path) for path, text in code]),
        Measure("literal limits of a clause", 0, literals),
    ]


def repeated_bodies(sources: Sources, prefix: str) -> List[Place]:
    """How many functions of the crates with this prefix have one body, up to names."""
    functions = (it for it in sources.functions if it[0].startswith(prefix))
    return [(len(it), ", ".join(place(*one) for one in it)) for it in equal_bodies(functions)]


def body_measures(sources: Sources) -> List[Measure]:
    """The measures of bodies that are equal up to names."""
    bodies = "with one body of over %d tokens, up to names" % FEWEST_TOKENS
    return [
        Measure("functions of %s* %s" % (LANGUAGE, bodies), 1, repeated_bodies(sources, LANGUAGE)),
        Measure("functions of all crates %s" % bodies, 1, repeated_bodies(sources, "")),
    ]


def measures(sources: Sources) -> List[Measure]:
    """All measures of a checkout."""
    everywhere = sources.of_files([sources.code, sources.specs, sources.proofs])
    return [
        Measure("parameters of a function", 7, sources.of_functions(lambda it: len(it.parameters))),
        Measure("parameters of a function of a simulator", 5, parameters_of_simulators(sources)),
        Measure("`requires` of a function", 8, sources.of_functions(required)),
        Measure("lines of a body", 40, sources.of_functions(body_lines)),
        Measure("blocks inside each other", 3, sources.of_functions(lambda it: nesting(it.body))),
        Measure("loops of a function", 1, sources.of_functions(lambda it: len(LOOP.findall(masked(it.body or ""))))),
        Measure("columns of a clause", 100, longest_clauses(sources)),
        Measure("columns of a line of src/", 100, longest_lines(sources.of_files([sources.code]))),
        Measure("columns of a line of specs/", 100, longest_lines(sources.of_files([sources.specs]))),
        Measure("columns of a line of proofs/", 100, longest_lines(sources.of_files([sources.proofs]))),
        Measure("lines of a file", 800, [(text.count("\n"), path) for path, text in everywhere]),
        Measure(
            "functions without a comment",
            0,
            [(1, place(crate, it)) for crate, it in sources.functions if not (it.is_commented or it.trait)],
        ),
        Measure("public lemma files that no other crate cites", 0, public_lemmas(sources)),
        Measure(
            "functions of %s and %s with one text of a clause" % (", ".join(TOP[:-1]), TOP[-1]),
            5,
            shared_clauses(sources, TOP),
        ),
        *file_measures(sources),
        *name_measures(sources),
        *body_measures(sources),
        *proof_measures(sources),
    ]


def limits() -> Dict[str, Tuple[int, int]]:
    """The limits of each measure: how many may be past the rule, and the greatest."""
    try:
        lines = [line for line in read_text(LIMITS).split("\n") if line.strip() and not line.startswith("#")]
        fields = [line.split("\t") for line in lines]
        return {name: (int(past), int(greatest)) for name, past, greatest in fields}
    except ValueError as error:
        raise Fault("%s: a line is not a measure and two numbers" % LIMITS) from error


def lower(found: List[Measure], allowed: Dict[str, Tuple[int, int]]) -> None:
    """Writes the present numbers where they are lower, or where a measure has no limits."""
    lines = [
        "# A measure of tools/house-rules, how many may be past its rule, and the greatest. Numbers may only fall."
    ]
    for it in found:
        now = len(it.past()), it.greatest()[0]
        was = allowed.get(it.name, now)
        lines.append("%s\t%d\t%d" % (it.name, min(now[0], was[0]), min(now[1], was[1])))
    with open(LIMITS, "w", encoding="utf-8") as file:
        file.write("\n".join(lines) + "\n")


def above(it: Measure, allowed: Dict[str, Tuple[int, int]]) -> bool:
    """Whether a measure is above its limits."""
    past, greatest = allowed.get(it.name, (0, it.rule))
    return len(it.past()) > past or it.greatest()[0] > greatest


def tool(arguments: Sequence[str]) -> int:
    parser = Arguments(prog="house-rules", description=__doc__)
    parser.add_argument("--root", default=ROOT, metavar="FOLDER", help="the checkout (else the one of this tool)")
    parser.add_argument("--places", action="store_true", help="list each place that is past a rule")
    parser.add_argument("--lower", action="store_true", help="write the present numbers as limits where they are lower")
    args = parser.parse_args(arguments)
    found, allowed = measures(Sources(args.root)), limits()
    print("| measure | rule | past it | limit | greatest | limit | where |")
    print("|---|---|---|---|---|---|---|")
    for it in found:
        past, most = allowed.get(it.name, (0, it.rule))
        number, where = it.greatest()
        mark = " **above its limit**" if above(it, allowed) else ""
        print(
            "| %s | %d | %d | %d | %d | %d | %s%s |"
            % (it.name, it.rule, len(it.past()), past, number, most, where, mark)
        )
    if args.places:
        for it in found:
            print("", "## %s: %d" % (it.name, it.rule), "", sep="\n")
            for number, where in it.past():
                print("%d %s" % (number, where))
    if args.lower:
        lower(found, allowed)
    return WARNED if any(above(it, allowed) for it in found) else FINE


def main(arguments: Optional[Sequence[str]] = None) -> int:
    """Runs the tool and returns its status."""
    return run_tool("house-rules", tool, arguments)


if __name__ == "__main__":
    sys.exit(main())
