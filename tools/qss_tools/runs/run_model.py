"""The tool qss-run: runs a model with other values."""
import difflib
import re
import shutil
import subprocess
import sys
from typing import IO, Optional, Sequence, Tuple

from ..fault import FINE, WARNED, Arguments, Fault, run_tool
from ..model.changes import add_set_option, assignments, changed_text, shown, write_changed
from ..model.flat import DISCRETE, STATE, roles_of
from ..model.grammar import parse
from ..model.source import Source
from ..output import Output
from ..program import OVERFLOWED, REFUSED, RULES, add_program_option, canonical_text, find_program, start, way_to_place

ABOUT = """Runs a model as `qss run` does, with other values for parameters, settings, starts and quanta.

  tools/qss-run MODEL --set R=10 --set QSS_TickBits=16 > rows.csv
  tools/qss-run MODEL --set iL.start=2 --set iL.QSS_Quantum=1/256
  tools/qss-run MODEL --set R=10 --print > changed.mo        the changed model in its canonical spelling

A value is a constant expression of the language: 10, 1/256, 2*pi where the model has a parameter pi. The rows are those
of the changed model: a tool that reads them requires the same --set, or the model that --print wrote.
Status: 0 all was written, 1 the run overflowed, 2 a fault."""


def tool(arguments: Sequence[str]) -> int:
    parser = Arguments(prog="qss-run", description=ABOUT)
    parser.add_argument("model", help="the model")
    add_set_option(parser)
    parser.add_argument("--rule", choices=RULES, help="the rule (default: floor)")
    parser.add_argument("--relative", metavar="N", help="the relative quantum, in 4096ths")
    parser.add_argument("--only", metavar="NAME", help="only the rows of this variable or array")
    parser.add_argument("--print", dest="spell", action="store_true", help="print the changed model, and do not run it")
    parser.add_argument("-o", "--output", metavar="FILE", help="the file to write (default: standard output)")
    add_program_option(parser)
    args = parser.parse_args(arguments)
    program = find_program(args.program)
    values = assignments(args.set)
    label = shown(args.model, values) if values else args.model
    if args.spell:
        text = changed_text(args.model, canonical_text(program, args.model), values)
        with Output(args.output) as output:
            output.held.write(text)
        return FINE
    if args.only is not None:
        check_name(args.only, args.model, canonical_text(program, args.model))
    path = write_changed(args.model, program, values) if values else args.model
    words = ["run", path]
    for name, value in (("--rule", args.rule), ("--relative", args.relative), ("--only", args.only)):
        words += [name, value] if value is not None else []
    if args.output is None:
        status, line = copy(program, words, sys.stdout.buffer)
    else:
        with Output(args.output) as output:
            status, line = copy(program, words, output.held)
            if status not in (0, OVERFLOWED):
                raise failed(label, path, status, line)
    if status not in (0, OVERFLOWED):
        raise failed(label, path, status, line)
    if status == OVERFLOWED:
        print("qss-run: %s: %s" % (label, line), file=sys.stderr)
    return WARNED if status == OVERFLOWED else FINE


def failed(label: str, path: str, status: int, line: str) -> Fault:
    """The fault of a run that the program did not begin."""
    way = way_to_place(path) if status == REFUSED else ""
    return Fault(f"{label}: {line or f'status {status}'}{way}")


def check_name(name: str, model: str, text: bytes) -> None:
    """A fault if a model has no variable with rows and this name."""
    names = sorted(one for one, role in roles_of(parse(Source(model, text))).items() if role in (STATE, DISCRETE))
    base = re.sub(r"\[\d+\]$", "", name)
    if base not in names:
        near = difflib.get_close_matches(base, names, 1)
        way = ": is '%s' meant?" % near[0] if near else " (it has %s)" % ", ".join(names)
        raise Fault("--only: %s has no state and no discrete variable '%s'%s" % (model, name, way))


def copy(program: str, words: Sequence[str], file: IO[bytes]) -> Tuple[int, str]:
    """Runs the program, and copies what it writes; its status and its line."""
    with start(program, words, stdout=subprocess.PIPE, stderr=subprocess.PIPE) as process:
        assert process.stdout is not None and process.stderr is not None
        try:
            shutil.copyfileobj(process.stdout, file)
        except BaseException:
            process.kill()
            raise
        line = process.stderr.read().decode("utf-8", "replace").strip()
    return process.returncode, line


def main(arguments: Optional[Sequence[str]] = None) -> int:
    """Runs the tool and returns its status."""
    return run_tool("qss-run", tool, arguments)


if __name__ == "__main__":
    sys.exit(main())
