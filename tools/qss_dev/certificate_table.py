"""The tool certificate-table: compares the bounds of certificates with the distances of runs."""
import argparse
import glob
import math
import os
import sys
import tempfile
from collections import namedtuple
from fractions import Fraction
from operator import mul
from typing import Dict, Iterator, List, Optional, Sequence, Tuple

from qss_tools.certificates.affine import Affine
from qss_tools.certificates.band import Certified, States
from qss_tools.certificates.conditions import text_of
from qss_tools.certificates.search import NoCertificate, Progress, Search
from qss_tools.certificates.settings import no_certificate, settings_for_certificate
from qss_tools.fault import FINE, WARNED, Arguments, Fault, read_bytes, run_tool
from qss_tools.model.changes import write_changed
from qss_tools.model.flat import Flat
from qss_tools.model.grammar import parse
from qss_tools.model.source import Source
from qss_tools.numeric.linear import Matrix, exponential, solved
from qss_tools.output import Output, write_between
from qss_tools.program import ROOT, RULES, add_program_option, call, find_program
from qss_tools.runs.rows import Rows, Run, run_lines

ABOUT = """The table of certificates of docs/CERTIFICATES.md, for the examples and the models of the tests.

  tools/certificate-table                 prints the table for all of them
  tools/certificate-table MODEL ..        prints the table for these models
  tools/certificate-table --page          writes the table for all of them into docs/CERTIFICATES.md

For each model its settings if a certificate is found with them, or else those of `qss-advise --certificate`. Each line
is about the state with the greatest ratio of E and the lower bound, in the model's units. Runs by the three rules, and
one with half of the quanta, are compared at 1,000 ticks with one another, with the run of second order where that has
rows, and with the solution of the machine's equation.
Status: 0 each stable model has a certificate and no distance passes its bound, 1 otherwise, 2 a fault of this tool."""

GRID = 1000
FINER = 64  # units of a state in a run of second order
COLUMNS: Tuple[str, ...] = (
    "model",
    "state",
    "states",
    "spread of rates",
    "CoefBits, TickBits, LevelBits",
    "lower bound",
    "Kofman",
    "E",
)
COLUMNS += ("E / lower bound", "two runs, seen", "E/2", "run and solution, seen")
HEAD = "| %s |\n%s|\n" % (" | ".join(COLUMNS), "|---" * len(COLUMNS))
GOOD_RATIO = 10
FOLDERS = (os.path.join(ROOT, "examples"), os.path.join(ROOT, "tools", "tests", "linear_models"))
PAGE = os.path.join(ROOT, "docs", "CERTIFICATES.md")
BEGIN, END = "<!-- table: made by tools/certificate-table -->\n", "<!-- end of the table -->\n"

Line = namedtuple("Line", "text ratio exceeds")
Line.__doc__ = """A line of the table, its ratio (infinite: no certificate), and if a distance passes its bound."""
Bounded = namedtuple("Bounded", "run search certificate is_advised")
Bounded.__doc__ = """A model with a certificate: its run, its search, and whether its settings are advised."""


def models() -> List[str]:
    """The examples and the models of the tests for which a certificate can be found."""
    return [name for folder in FOLDERS for name in sorted(glob.glob(os.path.join(folder, "*.mo")))]


def line_of(name: str, program: str, progress: Progress) -> Optional[Line]:
    """The line of a model, or None if no certificate applies to it."""
    source = Source(name, read_bytes(name))
    flat = Flat(parse(source))
    if no_certificate(flat):
        return None
    with tempfile.TemporaryDirectory() as folder:
        found = bounded(source, flat, program, os.path.join(folder, "model.mo"), progress)
        if found is None:
            cells = [model_name(name), "-", "%d" % flat.states] + ["-"] * (len(COLUMNS) - 4) + ["no certificate"]
            return Line("| " + " | ".join(cells) + " |", math.inf, False)
        text = os.path.join(folder, "model.cert")
        with open(text, "w", encoding="ascii") as file:
            file.write(text_of(found.certificate))
        answer = call(program, ["certify", found.run.model, text])
        if answer.status:
            raise Fault("%s: the certificate is not accepted: %s" % (name, answer.line))
        certified = Certified(found.run, found.search.system, found.certificate)
        return written(model_name(name), found, *seen(found.run, certified))


def model_name(path: str) -> str:
    return os.path.splitext(os.path.basename(path))[0]


def bounded(source: Source, flat: Flat, program: str, path: str, progress: Progress) -> Optional[Bounded]:
    """A model with the certificate that is found with its own settings or with advised ones, or None. The model with
    advised settings is written to this path.
    """
    try:
        run = Run(source.name, program)
        search = Search(Affine(run), None, progress)
        return Bounded(run, search, search.found().certificate, False)
    except NoCertificate:
        settings = settings_for_certificate(source, flat, program, progress)
    if settings is None:
        return None
    with open(path, "wb") as file:
        file.write(settings.text)
    run = Run(path, program)
    return Bounded(run, Search(Affine(run), None, progress), settings.found.certificate, True)


def written(name: str, found: Bounded, apart: Sequence[float], away: Sequence[float]) -> Line:
    """The line of a model whose runs are seen so far apart, and so far away from the solution."""
    search, system, bounds = found.search, found.search.system, found.certificate["E"]
    worst = max(range(system.states), key=lambda k: bounds[k] / search.t[k])
    unit = 2.0**system.level_bits
    bits = ", ".join("%d" % flat_bits(found.run.flat, one) for one in ("CoefBits", "TickBits", "LevelBits"))
    cells = [name, system.names[worst], "%d" % system.states, "%.3g" % search.spread]
    cells.append(bits + " (advised)" * found.is_advised)
    cells.append("%.3g" % (search.t[worst] / unit))
    cells.append("none" if search.kofman is None else "%.3g" % (search.kofman[worst] / unit))
    ratio = bounds[worst] / search.t[worst]
    cells += ["%.3g" % (bounds[worst] / unit), "%.3g" % ratio, "%.3g" % (apart[worst] / unit)]
    cells += ["%.3g" % (bounds[worst] / unit / 2), "%.3g" % (away[worst] / unit)]
    exceeds = any(one > bound for one, bound in zip(apart, bounds)) or any(
        2 * one > bound for one, bound in zip(away, bounds)
    )
    return Line("| " + " | ".join(cells) + " |", ratio, exceeds)


def summary(lines: Sequence[Line]) -> str:
    """The sentences below the table."""
    near = sum(line.ratio <= GOOD_RATIO for line in lines)
    passed = sum(line.exceeds for line in lines)
    return "E is at most %d times the lower bound for %d of the %d models. %s.\n" % (
        GOOD_RATIO,
        near,
        len(lines),
        "For %d of the models a difference exceeds its bound" % passed
        if passed
        else "No difference that was seen exceeds its bound E or E/2",
    )


def flat_bits(flat: Flat, name: str) -> int:
    return flat.bits("QSS_" + name)


def seen(run: Run, certified: Certified) -> Tuple[List[float], List[float]]:
    """For each state, in levels, how far runs lie apart, and how far runs of first order lie from the solution."""
    system = certified.system
    second = second_order(run, system)
    grid = {run.last * place // GRID for place in range(GRID + 1)}
    ticks = sorted(grid | {tick for tick, _, _ in second})
    runs = [followed(run, certified, rule, ticks) for rule in RULES]
    with tempfile.TemporaryDirectory() as folder:
        runs.append(followed(halved(run, folder), certified, RULES[0], ticks))
    exact = solution(system, ticks)
    apart, away = [0.0] * system.states, [0.0] * system.states
    for place in range(len(ticks)):
        for k in range(system.states):
            values = [one[place][k] / system.unit for one in runs]
            apart[k] = max(apart[k], max(values) - min(values))
            away[k] = max(away[k], max(abs(value - exact[place][k]) for value in values))
    places = {tick: place for place, tick in enumerate(ticks)}
    for tick, k, level in second:
        apart[k] = max([apart[k]] + [abs(one[places[tick]][k] / system.unit - level) for one in runs])
    return apart, away


def halved(run: Run, folder: str) -> Run:
    """The run of the model with half of its quanta, in a folder."""
    flat = run.flat
    values: Dict[str, Fraction] = {}
    if flat.settings["QSS_Quantum"] > 0:
        values["QSS_Quantum"] = flat.settings["QSS_Quantum"] / 2
    for one in flat.variables[: flat.states]:
        if one.declaration.quantum_span is not None:
            values[one.declaration.name + ".QSS_Quantum"] = one.quantum / 2
    return Run(write_changed(run.model, run.program, values, folder), run.program)


def second_order(run: Run, system: Affine) -> List[Tuple[int, int, float]]:
    """Some of the states that the rows of a run of second order have: (tick, place, state in levels)."""
    answer = call(run.program, ["run2", run.model])
    found: Dict[str, List[Tuple[int, int, float]]] = {name: [] for name in system.names}
    for line in answer.out.decode("ascii").split("\n")[1:-1]:
        tick, event, name, _, state = line.split(",")
        if event == "level" and name in found:
            found[name].append((int(tick), system.names.index(name), int(state) / system.unit / FINER))
    return [one for some in found.values() for one in some[:: 1 + len(some) * len(found) // GRID]]


def followed(run: Run, certified: Certified, rule: str, ticks: List[int]) -> List[List[int]]:
    """The exact states of a run by a rule at these ticks."""
    states = States(certified, "the run by the rule %s" % rule)
    found: List[List[int]] = []
    waiting: Iterator[Optional[int]] = iter([*ticks, None])
    due = next(waiting)
    with run_lines(argparse.Namespace(model=run.model, rule=rule, relative=None, order=1), run) as lines:
        for at, event, variable, level, state in Rows(run, lines, rule):
            while due is not None and due < at:
                found.append([states.at(k, due) for k in range(certified.system.states)])
                due = next(waiting)
            states.take(at, variable, level, state)
    while due is not None:
        found.append([states.at(k, due) for k in range(certified.system.states)])
        due = next(waiting)
    return found


def solution(system: Affine, ticks: Sequence[int]) -> List[List[float]]:
    """The solution of the machine's equation at these ticks, in levels."""
    unit = float(system.unit)
    a = [[value / unit for value in row] for row in system.a]
    rest = solved(a, [-value / unit for value in system.b])
    assert rest is not None
    away = [start / unit - one for start, one in zip(system.starts, rest)]
    found: List[List[float]] = []
    steps: Dict[int, Matrix] = {}
    before = 0
    for tick in ticks:
        length = tick - before
        if length:
            if length not in steps:
                steps[length] = exponential(a, float(length))
            away = [sum(map(mul, row, away)) for row in steps[length]]
        before = tick
        found.append([one + other for one, other in zip(rest, away)])
    return found


def tool(arguments: Sequence[str]) -> int:
    parser = Arguments(prog="certificate-table", description=ABOUT)
    parser.add_argument("models", nargs="*", metavar="MODEL", help="the models (default: the examples and the tests')")
    parser.add_argument("--page", action="store_true", help="write the table of all models into docs/CERTIFICATES.md")
    parser.add_argument("-o", "--output", metavar="FILE", help="the file to write (default: standard output)")
    add_program_option(parser)
    args = parser.parse_args(arguments)
    if args.page and (args.models or args.output):
        parser.error("--page goes with no model and no --output")
    program = find_program(args.program)
    progress = Progress()
    lines: List[Line] = []
    for name in args.models or models():
        progress.show("certificate-table: %d lines, then %s" % (len(lines), name))
        lines += [line for line in (line_of(name, program, progress),) if line is not None]
    progress.end()
    table = HEAD + "".join(line.text + "\n" for line in lines)
    if args.page:
        write_between(PAGE, BEGIN, END, table + "\n" + summary(lines))
    else:
        with Output(args.output) as output:
            output.write(table + "\n" + summary(lines))
    return WARNED if any(line.exceeds or line.ratio == math.inf for line in lines) else FINE


def main(arguments: Optional[Sequence[str]] = None) -> int:
    """Runs the tool and returns its status."""
    return run_tool("certificate-table", tool, arguments)


if __name__ == "__main__":
    sys.exit(main())
