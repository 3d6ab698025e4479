"""Tries mutants of a crate: edits of its code that its contracts must reject.

  tools/try-mutants CRATE ..         tries all mutants of these crates, and prints a table
  tools/try-mutants CRATE --name N   tries only this mutant (repeatable)
  tools/try-mutants --list [CRATE ..]   prints the mutants with their functions, and those that cannot be applied
  tools/try-mutants --list --drop       removes the files of those that cannot be applied
  tools/try-mutants --text [CRATE ..]   reads the mutated code without its proofs, in seconds for each crate
  tools/try-mutants --page              writes the counts of all crates into docs/MUTANTS.md
  tools/try-mutants --specs [CRATE ..]  checks theorems over edited definitions (--at-once N, --built FOLDER, --list)

A mutant is a file crates/CRATE/mutants/WHAT_IS_WRONG.edit in the form of a negative test of the kit: a line
'file: PATH', then pairs of lines 'old: TEXT' and 'new: TEXT'. Each old text occurs exactly once in its file, and each
text is one line. A line 'through: REASON' states that the contracts let the mutant through, and why. A line
'open: REASON' states that no verdict is known.

The mutants are planted in a copy of the crate and of its dependencies, many at once, at most one in a function. Each
round is one `rt check` of the functions that were changed. First the functions are checked without a change: if one
of them is not proved, its mutants get no verdict. A crate needs its proofs, its libraries and up to 4 GB of memory.

`rt check` does not check a function that calls a function which is not proved. In such a round the mutant of the caller
is masked, which is no verdict: the mutant is tried again in a later round, and alone if necessary.

  refused          a goal of the function is not proved, or an answer has a type error
  let through      the function is proved as before
  the answer names a missing goal
                   a proof file names a goal or a place of the function that the mutant removes or renames: no
                   verdict on the contract, whatever other goals are not proved
  proof names it   a proof file names something else that the mutant removes: no verdict on the contract
  does not read    the mutant does not compile
  not applied      an old text is not located once, or no function has it
  no verdict       the function is not proved before the change, or the check ended without a verdict

After the table the tool prints, for each crate, how many mutants have each verdict.

An edit of a definition is a file crates/CRATE/mutants-of-specs/WHAT_IS_WRONG.edit with a line 'theorem: CRATE::PATH'.
With --specs the tool checks each of these theorems first as it is and then over its edited definitions. It must
be refused. It uses the libraries that ./prove keeps. The table also names the first place that is not admitted.

Status: 0 each verdict is as the mutants state, 1 some verdict is not, 2 wrong arguments or a fault.
"""
import argparse
import os
import re
import shutil
import signal
import subprocess
import sys
import tempfile
from typing import Dict, Iterator, List, NamedTuple, Optional, Sequence, Set, Tuple

from qss_tools.fault import FINE, WARNED, Arguments, Fault, read_text, run_tool
from qss_tools.output import Output
from qss_tools.program import ROOT

from . import spec_edits
from .crates import below_each, needed
from .edits import REFUSED, THROUGH, UNKNOWN, Mutant, applied, mutants_of, text_of
from .rattle_source import Function, files_of, functions, modules_of

PARTS = ("src", "specs", "proofs")
MISSING, NAMES = "the answer names a missing goal", "proof names it"
UNREAD, UNAPPLIED = spec_edits.UNREAD, spec_edits.UNAPPLIED
VERDICTS = (REFUSED, THROUGH, MISSING, NAMES, UNREAD, UNAPPLIED, UNKNOWN)
# The result of a round for a function that calls a function which is not proved. It is no verdict.
MASKED = "masked"

# The declaration of a type.
TYPE = re.compile(r"^(?:pub(?:\([a-z]+\))? )?(?:struct|enum) (\w+)", re.MULTILINE)
# The line on a function, and the lines of help that follow it.
TOLD = re.compile(
    r"^fn \w+::(\S+): ((?:proved|not proved|no proof|could not tell).*)((?:\n(?:help: |  ).*)*)", re.MULTILINE
)
CHECKED = re.compile(r"^checked (?:\w+)::(\S+), \d+ of \d+", re.MULTILINE)
# A line with an error in the code, and an error in a proof file of a function with the lines that continue it.
WRONG = re.compile(r"^(?:\./)?(src/\S+?):(\d+):\d+: error", re.MULTILINE)
ERROR = re.compile(r"^(?:note: )?(?:\./)?proofs/(\S+)/\w+\.antt:\d+:\d+: (.*(?:\n  .*)*)", re.MULTILINE)
# Parts of the line on a function: it calls functions that are not proved, the names of these functions, it has a goal
# without a proof, and its own proof is not accepted.
CALLS = re.compile(r"\bit calls `|, which (?:is|are) not proved")
CALLED = re.compile(r"`\w+::([^`\s]+)`")
IS_OPEN = re.compile(r"no proof: expected answers in .*did not prove")
IS_WRONG = re.compile(r"not proved|no proof: expected answers in ")
# The functions with goals that are not tried before another function is proved.
WAITING = re.compile(r"`search` has not tried the goals of (.*), which wait")
# Parts of an error: the goals of the function lack a name, and something else lacks a name.
LACKS_GOAL = re.compile(r"\bGoals`\s+has no `")
LACKS_NAME = re.compile(r"has no field|is not in scope|has no `|was not admitted")


class Planted(NamedTuple):
    """A mutant with the function that it changes, as rt names it."""

    mutant: Mutant
    function: str


def declaring_files(root: str, crate: str) -> Dict[str, str]:
    """The file that declares each type of a crate."""
    return {name: file for file, text in files_of(root, crate, "src", ".rt").items() for name in TYPE.findall(text)}


def told_path(function: Function, declared: Dict[str, str]) -> str:
    """The function as rt names it. A method is named by the module that declares its type."""
    if not function.owner or function.trait:
        return function.path
    return "::".join([*modules_of(declared.get(function.owner, function.file)), function.owner, function.name])


def function_of(text: str, mutant: Mutant, declared: Dict[str, str]) -> Optional[str]:
    """The only function that a mutant changes; or None."""
    found: Set[str] = set()
    every = functions(mutant.file, text)
    for old, _ in mutant.pairs:
        at = text.find(old)
        # (the first character that is not a blank is in the function: a text may begin with the end of a line)
        at += len(old) - len(old.lstrip())
        found.update(told_path(it, declared) for it in every if it.start <= at < it.end)
    return found.pop() if len(found) == 1 else None


def sorted_out(root: str, crate: str, mutants: Sequence[Mutant]) -> Tuple[List[Planted], Dict[str, str]]:
    """The mutants that can be planted, each with its function, and the verdicts of the others."""
    planted, verdicts = [], {}
    declared = declaring_files(root, crate)
    for it in mutants:
        text = text_of(root, crate, it.file)
        function = function_of(text, it, declared)
        if applied(text, it) in (None, text) or function is None:
            verdicts[it.name] = UNAPPLIED
        else:
            planted.append(Planted(it, function))
    return planted, verdicts


def round_of(root: str, crate: str, left: Sequence[Planted]) -> Tuple[List[Planted], List[Planted]]:
    """The mutants of a round, and the others: at most one of each function, whose texts do not overlap."""
    texts: Dict[str, str] = {}
    taken, functions_taken, later = [], set(), []
    for it in left:
        text = texts.get(it.mutant.file) or text_of(root, crate, it.mutant.file)
        changed = applied(text, it.mutant)
        if changed is None or it.function in functions_taken:
            later.append(it)
        else:
            texts[it.mutant.file] = changed
            functions_taken.add(it.function)
            taken.append(it)
    return taken, later


def rounds_of(root: str, crate: str, planted: Sequence[Planted]) -> Iterator[List[Planted]]:
    """The mutants in rounds."""
    left = list(planted)
    while left:
        taken, left = round_of(root, crate, left)
        yield taken


class Copy:
    """A copy of a crate and of those below it in a folder of its own."""

    def __init__(self, root: str, crate: str, folder: str):
        self.root, self.crate, self.folder = root, crate, folder
        below = below_each(root)
        if crate not in below:
            raise Fault("%s is no crate of crates.txt" % crate)
        kept = needed(below, crate)
        for name in kept:
            for part in PARTS:
                there = os.path.join(root, "crates", name, part)
                if os.path.isdir(there):
                    shutil.copytree(there, os.path.join(folder, "crates", name, part))
        with open(os.path.join(folder, "crates.txt"), "w", encoding="utf-8") as file:
            file.writelines("%s: %s\n" % (it, " ".join(below[it])) for it in below if it in kept)
        shutil.copy(os.path.join(root, "HANDLES"), folder)

    def plant(self, planted: Sequence[Planted]) -> None:
        """Writes the files of these mutants, with their changes."""
        texts: Dict[str, str] = {}
        for it in planted:
            text = texts.get(it.mutant.file) or text_of(self.root, self.crate, it.mutant.file)
            texts[it.mutant.file] = applied(text, it.mutant) or text
        for file, text in texts.items():
            with open(os.path.join(self.folder, "crates", self.crate, file), "w", encoding="utf-8") as written:
                written.write(text)

    def restore(self, planted: Sequence[Planted]) -> None:
        """Writes the files of these mutants as they were."""
        for file in {it.mutant.file for it in planted}:
            there = os.path.join("crates", self.crate, file)
            shutil.copy(os.path.join(self.root, there), os.path.join(self.folder, there))

    def check(self, only: Sequence[str]) -> str:
        """Checks these functions, and returns what rt prints. `[""]` reads the code and checks no function."""
        words = ["rt", "check"] + [word for it in only for word in ("--only", it)]
        where = os.path.join(self.folder, "crates", self.crate)
        said = []
        try:
            child = subprocess.Popen(
                words,
                cwd=where,
                stdin=subprocess.DEVNULL,
                stdout=subprocess.PIPE,
                stderr=subprocess.STDOUT,
                text=True,
                errors="replace",
                start_new_session=True,
            )
        except OSError as error:
            raise Fault("rt cannot be started: %s" % error.strerror) from error
        assert child.stdout is not None
        try:
            for line in child.stdout:
                said.append(line)
                # (rt first reads all sources, and then proves the libraries below, which only proofs need)
                if only == [""] and line.startswith("only=0 "):
                    break
            else:
                child.wait()
        finally:
            if child.poll() is None:
                os.killpg(child.pid, signal.SIGTERM)
            child.stdout.close()
            child.wait()
        return "".join(said)

    def check_planted(self, planted: Sequence[Planted], only: Sequence[str]) -> str:
        """Checks these functions with the mutants planted."""
        self.plant(planted)
        try:
            return self.check(only)
        finally:
            self.restore(planted)


def last_lines(said: str) -> List[str]:
    """The last lines of what rt printed."""
    return said.rstrip("\n").split("\n")[-12:]


def wrong_ones(copy: Copy, planted: Sequence[Planted], said: str) -> List[Planted]:
    """The mutants in whose functions the code is wrong."""
    found = []
    for file, line in WRONG.findall(said):
        texts = [it for it in planted if it.mutant.file == file]
        text = text_of(copy.root, copy.crate, file)
        for it in texts:
            text = applied(text, it.mutant) or text
        lines = text.split("\n")
        at = sum(len(it) + 1 for it in lines[: int(line) - 1])
        inside = {it.path for it in functions(file, text) if it.start <= at + len(lines[int(line) - 1]) < it.end + 2}
        found += [it for it in texts if it.function in inside and it not in found]
    return found


def own_verdict(said: str, function: str, line: str, more: str) -> str:
    """The verdict on a function that is not proved, by its line, the help after the line, and the errors in its proof.

    If a mutant renames goals, other goals can be open only because their answers have the old names. So a missing name
    determines the verdict.
    """
    errors = [error for folder, error in ERROR.findall(said) if folder == function.replace("::", "/")]
    if any(LACKS_GOAL.search(it) for it in [more, *errors]):
        return MISSING
    if any(LACKS_NAME.search(it) for it in errors):
        return NAMES
    return REFUSED if IS_WRONG.match(line) else UNKNOWN


def verdict(said: str, function: str, is_alone: bool = False) -> str:
    """What a check says of a function: a verdict, or that the function is masked by other mutants of the round."""
    lines = {name: (line, more) for name, line, more in TOLD.findall(said)}
    if function not in lines:
        # (a run that is not all proved lists only what is not)
        return THROUGH if function in CHECKED.findall(said) and lines else UNKNOWN
    line, more = lines[function]
    if line.startswith("proved"):
        return THROUGH
    waiting = [it for names in WAITING.findall(said) for it in CALLED.findall(names)]
    if CALLS.search(line) and (function in waiting or not IS_OPEN.match(line)):
        # (the closures of `a::f` are called `a::fn::f::NAME`)
        closures = [it for it in CALLED.findall(line) if it.replace("fn::", "", 1).startswith(function + "::")]
        if closures:
            return verdict(said, closures[0], is_alone)
        if not is_alone:
            return MASKED
    return own_verdict(said, function, line, more)


def try_round(copy: Copy, planted: Sequence[Planted]) -> Dict[str, str]:
    """What a check says of mutants that are planted at once. A mutant alone is not masked."""
    said = copy.check_planted(planted, [it.function for it in planted])
    if not CHECKED.search(said) and not TOLD.search(said):
        wrong = wrong_ones(copy, planted, said)
        if not wrong and len(planted) > 1:
            return {name: it for one in planted for name, it in try_round(copy, [one]).items()}
        if not wrong and not WRONG.search(said):
            raise Fault("rt check of %s ends without a verdict; its last lines:" % copy.crate, last_lines(said))
        wrong = wrong or list(planted)
        found = {it.mutant.name: UNREAD for it in wrong}
        left = [it for it in planted if it not in wrong]
        return {**found, **(try_round(copy, left) if left else {})}
    return {it.mutant.name: verdict(said, it.function, len(planted) == 1) for it in planted}


def try_rounds(copy: Copy, planted: Sequence[Planted]) -> Dict[str, str]:
    """The verdicts of mutants. A mutant without a verdict is tried again: a masked one in a later round, others alone.

    If all mutants of a round are masked (the functions call each other), each of them is tried alone.
    """
    verdicts: Dict[str, str] = {}
    left, number = list(planted), 0
    alone: List[Planted] = []
    while left or alone:
        if left:
            these, left = round_of(copy.root, copy.crate, left)
        else:
            these, alone = alone[:1], alone[1:]
        number += 1
        print("%s: round %d, %d mutants" % (copy.crate, number, len(these)), file=sys.stderr, flush=True)
        found = try_round(copy, these)
        for name, said in found.items():
            print("%s: %s: %s" % (copy.crate, name, said), file=sys.stderr, flush=True)
        verdicts.update(found)
        again = [it for it in these if found[it.mutant.name] in (MASKED, UNKNOWN) and len(these) > 1]
        masked = [it for it in again if found[it.mutant.name] == MASKED]
        left += masked if len(masked) < len(these) else []
        alone += [it for it in again if it not in left]
    return verdicts


def tried(root: str, crate: str, mutants: Sequence[Mutant]) -> Dict[str, str]:
    """The verdict of each mutant of a crate."""
    planted, verdicts = sorted_out(root, crate, mutants)
    if not planted:
        return verdicts
    with tempfile.TemporaryDirectory(prefix="try-mutants-") as folder:
        copy = Copy(root, crate, folder)
        functions_there = sorted({it.function for it in planted})
        print("%s: %d functions as they are" % (crate, len(functions_there)), file=sys.stderr, flush=True)
        said = copy.check(functions_there)
        if not CHECKED.search(said) and not TOLD.search(said):
            raise Fault("rt check of %s ends without a verdict; its last lines:" % crate, last_lines(said))
        proved = [it for it in planted if verdict(said, it.function) == THROUGH]
        verdicts.update({it.mutant.name: UNKNOWN for it in planted if it not in proved})
        return {**verdicts, **try_rounds(copy, proved)}


def read_texts(root: str, crate: str, mutants: Sequence[Mutant]) -> Dict[str, str]:
    """Whether the code of each mutant can be read, without its proofs: "" if it can be."""
    planted, verdicts = sorted_out(root, crate, mutants)
    if not planted:
        return verdicts
    with tempfile.TemporaryDirectory(prefix="try-mutants-") as folder:
        copy = Copy(root, crate, folder)
        left = list(rounds_of(root, crate, planted))
        while left:
            these = left.pop(0)
            said = copy.check_planted(these, [""])
            if re.search(r"^only=0 ", said, re.MULTILINE):
                verdicts.update({it.mutant.name: "" for it in these})
                continue
            wrong = wrong_ones(copy, these, said)
            if not wrong and len(these) > 1:
                left = [[it] for it in these] + left
                continue
            print(*(line for line in said.split("\n") if "error" in line), sep="\n", file=sys.stderr, flush=True)
            verdicts.update({it.mutant.name: UNREAD for it in wrong or these})
            good = [it for it in these if it not in wrong]
            left = ([good] if wrong and good else []) + left
    return verdicts


def row(crate: str, mutant: Mutant, function: str, said: str) -> str:
    """A line of the table of verdicts."""
    stated = mutant.through or mutant.open
    note = " (stated: %s)" % mutant.stated if said != mutant.stated and mutant.stated != UNKNOWN else ""
    return "| %s | `%s` | %s | %s%s |" % (crate, function, mutant.name, said, note or (": " + stated if stated else ""))


def summary(crate: str, verdicts: Sequence[str]) -> str:
    """The line that states how many mutants of a crate have each verdict."""
    return "%s: %s" % (crate, ", ".join("%s: %d" % (it, verdicts.count(it)) for it in VERDICTS if it in verdicts))


def counts(root: str, crate: str) -> Tuple[int, int, int]:
    """How many mutants of a crate state that they are refused, that they are let through, and no verdict."""
    stated = [it.stated for it in mutants_of(root, crate)]
    return stated.count(REFUSED), stated.count(THROUGH), stated.count(UNKNOWN)


def page_of(text: str, found: Dict[str, Tuple[int, int, int]]) -> str:
    """The text of docs/MUTANTS.md with these counts of crates, two crates in a row."""
    cells = ["| `%s` | %d | %d | %d " % (crate, *it) for crate, it in found.items()]
    half = (len(cells) + 1) // 2
    rows = [left + right + "|\n" for left, right in zip(cells, cells[half:] + ["| | | | "])][:half]
    begin = text.index("|---|---|---|---|---|---|---|---|\n") + len("|---|---|---|---|---|---|---|---|\n")
    end = text.index("\n\n", begin) + 1
    total = sum(sum(it) for it in found.values())
    return re.sub(r"\d+ further mutants", "%d further mutants" % total, text[:begin] + "".join(rows) + text[end:])


def write_page(root: str) -> None:
    """Writes the counts of all crates into docs/MUTANTS.md."""
    path = os.path.join(root, "docs", "MUTANTS.md")
    found = {it: counts(root, it) for it in with_mutants(root, [])}
    text = page_of(read_text(path), found)
    with Output(path) as output:
        output.write(text)


def with_mutants(root: str, names: Sequence[str]) -> List[str]:
    """The crates that are named, or all that have mutants."""
    known = below_each(root)
    for name in names:
        if name not in known:
            raise Fault("%s is no crate of crates.txt" % name)
    return list(names) or [it for it in known if mutants_of(root, it)]


def verdicts_of(args: argparse.Namespace, crate: str, mutants: Sequence[Mutant]) -> Dict[str, str]:
    """The verdicts of mutants of a crate by name: all of them, or with --list and --text those that are bad."""
    if args.list:
        return sorted_out(args.root, crate, mutants)[1]
    if args.text:
        return {name: said for name, said in read_texts(args.root, crate, mutants).items() if said}
    return tried(args.root, crate, mutants)


def is_stated(mutant: Mutant, said: str) -> bool:
    """Whether a verdict is as the mutant states. A mutant whose verdict is open can have any verdict on its proof."""
    return said == mutant.stated or bool(mutant.open) and said in (THROUGH, REFUSED, MISSING, NAMES)


def parser_of() -> Arguments:
    """The arguments of the tool."""
    parser = Arguments(prog="try-mutants", description=__doc__)
    parser.add_argument("crates", nargs="*", metavar="CRATE", help="the crates whose mutants are tried")
    parser.add_argument("--name", action="append", default=[], metavar="N", help="try only this mutant")
    parser.add_argument("--root", default=ROOT, metavar="FOLDER", help="the checkout (else the one of this tool)")
    kind = parser.add_mutually_exclusive_group()
    parser.add_argument("--list", action="store_true", help="print the mutants; try none")
    kind.add_argument("--text", action="store_true", help="read the mutated code without its proofs")
    kind.add_argument("--specs", action="store_true", help="check theorems over edited definitions")
    kind.add_argument("--page", action="store_true", help="write the counts of all crates into docs/MUTANTS.md")
    parser.add_argument("--at-once", type=int, default=1, metavar="N", help="with --specs: N edits at a time")
    parser.add_argument("--built", metavar="FOLDER", help="with --specs: the checkout with libraries (else this one)")
    parser.add_argument("--drop", action="store_true", help="with --list: remove mutants that cannot be applied")
    return parser


def arguments_of(arguments: Sequence[str]) -> argparse.Namespace:
    """The arguments, which go together."""
    parser = parser_of()
    args = parser.parse_args(arguments)
    if not args.crates and not (args.list or args.text or args.page or args.specs):
        parser.error("give a crate, --list, --text, --specs or --page")
    if args.list and (args.text or args.page) or args.at_once < 1:
        parser.error("--list goes with neither --text nor --page, and --at-once takes a number from 1 on")
    if args.drop and not args.list or args.page and args.crates:
        parser.error("--drop goes with --list, and --page takes no crate")
    return args


def specs(args: argparse.Namespace) -> int:
    """Tries or lists the edits of definitions that the arguments name."""
    known = with_mutants(args.root, args.crates) if args.crates else list(below_each(args.root))
    edits = [it for crate in known for it in spec_edits.edits_of(args.root, crate)]
    edits = [it for it in edits if not args.name or it.mutant.name in args.name]
    print("| crate | theorem | edit | verdict |", "|---|---|---|---|", sep="\n", flush=True)
    expected = True
    for it, verdict in spec_edits.verdicts(args.root, args.built or args.root, edits, args.list, args.at_once):
        print(spec_edits.row(it, verdict), flush=True)
        expected = expected and verdict.said == it.mutant.stated
    return FINE if expected else WARNED


def tool(arguments: Sequence[str]) -> int:
    """Tries or lists the mutants that the arguments name, or writes the page."""
    args = arguments_of(arguments)
    if args.page:
        write_page(args.root)
        return FINE
    if args.specs:
        return specs(args)
    expected, summaries = True, []
    crates = with_mutants(args.root, args.crates)
    print("| crate | function | mutant | verdict |", "|---|---|---|---|", sep="\n")
    for crate in crates:
        mutants = [it for it in mutants_of(args.root, crate) if not args.name or it.name in args.name]
        verdicts = verdicts_of(args, crate, mutants)
        declared = declaring_files(args.root, crate)
        for it in mutants:
            function = function_of(text_of(args.root, crate, it.file), it, declared) or it.file
            said = verdicts.get(it.name, it.stated)
            print(row(crate, it, function, said), flush=True)
            if args.drop and said == UNAPPLIED:
                os.remove(os.path.join(args.root, "crates", crate, "mutants", it.name + ".edit"))
            expected = expected and is_stated(it, said)
        if verdicts and not args.list and not args.text:
            summaries.append(summary(crate, list(verdicts.values())))
    if summaries:
        print("", *summaries, sep="\n", flush=True)
    return FINE if expected else WARNED


def main(arguments: Optional[Sequence[str]] = None) -> int:
    """Runs the tool and returns its status."""
    return run_tool("try-mutants", tool, arguments)


if __name__ == "__main__":
    sys.exit(main())
