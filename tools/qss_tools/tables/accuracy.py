"""The tool qss-accuracy: compares runs with the solutions of their models, or with measured values."""
import argparse
import os
import re
import subprocess
import sys
import tempfile
from typing import TYPE_CHECKING, Any, Container, Dict, List, NamedTuple, Optional, Sequence, Set, Tuple

from ..fault import FINE, WARNED, Arguments, Fault, run_tool
from ..model.changes import add_set_option
from ..model.flat import Flat
from ..output import write_between
from ..program import ROOT, add_program_option, find_program
from ..runs.columns import AnyColumn, Column
from ..runs.rows import Lines, Rows, Run, opened, ordered, run_of
from .compared import compared, share_text
from .measurements import Measurements, add_data_options
from .phase import APART, PART, Phase, irregular, measures, period
from .table import Writer, follow, overflow_text

if TYPE_CHECKING:
    from ..numeric.reference import Reference

ABOUT = """Runs models, and compares each run with the solution in floating point (numpy and scipy), or with measured
values.

  tools/qss-accuracy MODEL ..       these models, a paragraph each
  tools/qss-accuracy --page         all examples of the gallery, into the table of docs/ACCURACY.md
  tools/qss-accuracy MODEL --order 2 --set R=10      a run of second order, with other values
  tools/qss-accuracy MODEL --with data.csv           a run and measured values (also --column uC=CH1 --shift 1.5ms)

The solution is exact between events, up to rounding. The states are compared at 1001 times. A state that clauses
set by reinit is left out, since near a jump a small shift in time is a large difference. If all states are set so, each
is compared by the difference that 99 of 100 times keep. If the events of a model depend on states, its ripple may be
out of phase. Then mean, root mean square, ripple and period of the second half of the run are compared.

Measured values are compared at their own times, at which the run is interpolated. Their file has a line of names with
units, as 't [ms],uC [V]', and columns with the names of variables. Without a unit a column has that of the model.
Status: 0 all was compared, 1 a run overflowed (it was compared up to there), 2 a fault."""

SAMPLES = 1001
PAGE = os.path.join(ROOT, "docs", "ACCURACY.md")
BEGIN, END = "<!-- table: made by tools/qss-accuracy -->\n", "<!-- end of the table -->\n"
COLUMNS: Tuple[str, ...] = ("model", "rows", "processor time", "worst state", "difference", "in quanta", "of its size")
COLUMNS += ("branches fired, here and there", "latest")
HEAD = "| %s |\n%s|\n" % (" | ".join(COLUMNS), "|---" * len(COLUMNS))
MOST_JUMPS = 100  # of the samples of a state that jumps one in this many is left out


class Worst(NamedTuple):
    """The state that is farthest from its solution, in its quanta."""

    name: str
    difference: float
    quanta: float
    share: Optional[float]  # of its size, in percent


class Firings(NamedTuple):
    """How many branches fired in the run and in the solution, and, if equally many, by how much the times differ."""

    here: int
    there: int
    latest: Optional[float]


class Accuracy(NamedTuple):
    """How near a run comes to its solution."""

    model: str
    rows: int
    seconds: float
    worst: Worst
    fired: Optional[Firings]
    phase: Optional[Phase] = None  # if only the phase is off

    def line(self) -> str:
        """The line of a table."""
        name = os.path.splitext(os.path.basename(self.model))[0]
        worst, fired = self.worst, self.fired
        fields = [name, "{:,}".format(self.rows), "%.2f s" % self.seconds, worst.name, "%.2g" % worst.difference]
        fields += ["%.1f" % worst.quanta, share_text(worst.share)]
        fields.append("-" if fired is None else "%d, %d" % (fired.here, fired.there))
        fields.append("-" if fired is None or fired.latest is None else "%.2g" % fired.latest)
        return "| %s |" % " | ".join(fields)

    def text(self) -> str:
        """The sentences of a model."""
        worst, fired = self.worst, self.fired
        text = "%s: %s rows in %.2f s; the worst state is %s: %.2g off, which is %.1f quanta and %s of its size" % (
            self.model,
            "{:,}".format(self.rows),
            self.seconds,
            worst.name,
            worst.difference,
            worst.quanta,
            share_text(worst.share),
        )
        if fired is not None:
            text += "; %d branches fired, and %d in the solution" % (fired.here, fired.there)
            text += "" if fired.latest is None else ", at most %.2g early or late" % fired.latest
        if self.phase is not None:
            text += "; the ripple is out of phase: " + self.phase.text()
            text += ", which is at most %s of its size" % share_text(100 * self.phase.share)
        return text


class Samples(Writer):
    """A writer that keeps the values of columns at some ticks, and the firings of branches."""

    def __init__(self, columns: Sequence[AnyColumn], ticks: Sequence[float]):
        self.columns, self.ticks = columns, ticks
        self.values: List[List[float]] = []
        self.fired: List[tuple] = []

    def tick(self, tick: int, changed: Set[int], events: List[str], until: int) -> None:
        self.fired += [(tick, event) for event in events]
        while len(self.values) < len(self.ticks) and self.ticks[len(self.values)] < until:
            for column in self.columns:
                column.move(int(self.ticks[len(self.values)]))
            self.values.append([column.number() for column in self.columns])


def tool(arguments: Sequence[str]) -> int:
    parser = Arguments(prog="qss-accuracy", description=ABOUT)
    parser.add_argument("models", nargs="*", metavar="MODEL", help="the models")
    parser.add_argument("--page", action="store_true", help="compare the gallery, and write docs/ACCURACY.md")
    parser.add_argument("--order", choices=(1, 2), type=int, default=1, help="2: run the models by `qss run2`")
    add_set_option(parser)
    add_data_options(parser)
    parser.add_argument("--unit", help="the model's unit of time, with --with")
    add_program_option(parser)
    args = parser.parse_args(arguments)
    if bool(args.models) == args.page or args.page and (args.set or args.order == 2 or args.data):
        parser.error("give a model, or --page")
    if args.data is None and (args.column or args.shift or args.unit):
        parser.error("--column, --shift and --unit go with --with")
    program = find_program(args.program)
    if args.page:
        page(program)
        return FINE
    status = FINE
    for model in args.models:
        args.model = model
        run = run_of(args)
        if args.data is not None:
            status = max(status, compare_with_data(args, run))
            continue
        found = accuracy(run.model, program, args.order)
        print(found._replace(model=args.label).text(), flush=True)
    return status


def compare_with_data(args: argparse.Namespace, run: Run) -> int:
    """Compares a run with measured values; the status."""
    args.rows = args.rule = args.relative = None
    data = Measurements(args, run)
    for note in data.notes:
        print("qss-accuracy: %s" % note, file=sys.stderr)
    found = compared(args, run, data)
    print(found.text(), flush=True)
    if found.overflow is None:
        return FINE
    print("qss-accuracy: %s" % overflow_text(found.overflow, run), file=sys.stderr)
    return WARNED


def page(program: str) -> None:
    """Compares all examples of the gallery, and writes their table."""
    lines = []
    for name in gallery_names():
        lines.append(accuracy(os.path.join(ROOT, "examples", name + ".mo"), program).line())
        print(lines[-1], flush=True)
    write_between(PAGE, BEGIN, END, HEAD + "\n".join(lines) + "\n")


def gallery_names() -> List[str]:
    """The names of the page examples/README.md."""
    with open(os.path.join(ROOT, "examples", "README.md"), encoding="utf-8") as file:
        return re.findall(r"^### .*\[(\w+)\.mo\]\(\1\.mo\)", file.read(), re.MULTILINE)


def run_rows(run: Run, path: str, order: int) -> float:
    """Runs a model into a file; its processor time in seconds."""
    if order == 2 and run.flat.clauses():
        raise Fault("%s: a run of second order takes models without 'when' clauses" % run.model)
    with open(path, "wb") as file:
        process = subprocess.Popen([run.program, "run2" if order == 2 else "run", run.model], stdout=file)
        _, status, used = os.wait4(process.pid, 0)
    process.returncode = os.waitstatus_to_exitcode(status)
    if process.returncode:
        raise Fault(
            "%s: the run ended with status %d (tools/qss-explain %s says why)"
            % (run.model, process.returncode, run.model)
        )
    return used.ru_utime + used.ru_stime


def accuracy(model: str, program: str, order: int = 1) -> Accuracy:
    """Runs a model, and compares the run with its solution."""
    try:
        from ..numeric.reference import Reference
    except ImportError as error:
        raise Fault(
            "numpy and scipy are needed, and %s has not both (python3-numpy and python3-scipy of Debian belong to"
            " /usr/bin/python3)" % sys.executable
        ) from error
    run = Run(model, program)
    flat = run.flat
    numbers, jumping = measured(flat)
    stop = float(flat.settings["StopTime"])
    grid = [stop * place / (SAMPLES - 1) for place in range(SAMPLES)]
    times = sorted(set(grid) | set(irregular(stop))) if flat.clauses() else grid
    ticks = [time * 2**run.units.time for time in times]
    with tempfile.TemporaryDirectory() as folder:
        path = os.path.join(folder, "rows.csv")
        seconds = run_rows(run, path, order)
        with opened(path) as lines:
            ahead = ordered(Lines(lines), run)
            samples = Samples([Column(run, number) for number in numbers], ticks)
            rows = Rows(run, ahead, path)
            follow(samples, rows, samples.columns)
    reference = Reference(flat)
    compared = Compared(flat, numbers, samples.values, reference.values(times), times)
    worst = compared.on(set(grid)).worst(SAMPLES // MOST_JUMPS if jumping else 0)
    fired = firings(samples, reference, run)
    return Accuracy(model, rows.number - 1, seconds, worst, fired, compared.phase(worst, samples, reference, run))


def measured(flat: Flat) -> Tuple[List[int], bool]:
    """The states that no statement sets anew; all states, and True, if there are none of them."""
    jumping = {row.variable for row in flat.rows() if row.kind == "reinit"}
    plain = [number for number in range(flat.states) if number not in jumping]
    return (plain, False) if plain else (list(range(flat.states)), True)


class Compared:
    """The values of some states of a run, and those of all states of the solution, at the same times."""

    def __init__(
        self, flat: Flat, numbers: Sequence[int], here: Sequence[Sequence[float]], there: Any, times: Sequence[float]
    ) -> None:
        self.flat, self.numbers, self.here, self.there, self.times = flat, numbers, here, there, times

    def on(self, chosen: Container[float]) -> "Compared":
        """The values at some of the times."""
        kept = [place for place, time in enumerate(self.times[: len(self.here)]) if time in chosen]
        here = [self.here[place] for place in kept]
        return Compared(self.flat, self.numbers, here, self.there[kept], [self.times[place] for place in kept])

    def worst(self, left_out: int) -> Worst:
        """The state with the largest difference in its quanta; the largest `left_out` ones of each are left out."""
        best: Optional[Worst] = None
        for place, number in enumerate(self.numbers):
            one = self.flat.variables[number]
            differences = sorted(abs(there - here[place]) for there, here in zip(self.there[:, number], self.here))
            difference = differences[len(differences) - 1 - left_out]
            size = max(abs(self.there[:, number]))
            quanta = difference / float(one.quantum)
            if best is None or quanta > best.quanta:
                best = Worst(one.name, difference, quanta, 100 * difference / size if size else None)
        if best is None:
            raise Fault("there are no states to compare")
        return best

    def phase(self, worst: Worst, samples: Samples, reference: "Reference", run: Run) -> Optional[Phase]:
        """The measures of the state whose measures are the farthest apart, if only the phase of the ripple is off."""
        if not has_state_events(self.flat) or not worst.share or worst.share < 100 * APART:
            return None
        half = self.on(set(irregular(float(self.flat.settings["StopTime"]))))
        periods = [period(times) for times in (fired_here(samples, run), reference.fired)]
        both = (periods[0], periods[1]) if periods[0] and periods[1] else None
        found = []
        for place, number in enumerate(self.numbers):
            here, there = [row[place] for row in half.here], list(map(float, half.there[:, number]))
            size = float(max(abs(self.there[:, number])))
            found.append(Phase(self.flat.variables[number].name, measures(here), measures(there), size, both))
        most = max(found, key=lambda one: one.share)
        return most if 100 * most.share < PART * worst.share else None


def has_state_events(flat: Flat) -> bool:
    """Whether a condition reads a state."""
    rows = [row for row in flat.rows() if row.kind == "condition"]
    return any(key[0] == "x" and key[1] < flat.states for row in rows for key in row.form.parts)


def fired_here(samples: Samples, run: Run) -> List[Tuple[float, str]]:
    """The firings of a run: times and branches."""
    return [(tick / 2**run.units.time, label) for tick, label in samples.fired]


def firings(samples: Samples, reference: "Reference", run: Run) -> Optional[Firings]:
    """How many branches fired in both runs, and the greatest difference of their times if the numbers are equal."""
    if not reference.clauses:
        return None
    here = fired_here(samples, run)
    there = [(time, label) for time, label in reference.fired if time <= float(run.flat.settings["StopTime"])]
    if len(here) != len(there):
        return Firings(len(here), len(there), None)
    by_label: Dict[str, List[float]] = {}
    for time, label in there:
        by_label.setdefault(label, []).append(time)
    late = 0.0
    seen: Dict[str, int] = {}
    for time, label in here:
        place = seen[label] = seen.get(label, -1) + 1
        if place < len(by_label.get(label, ())):
            late = max(late, abs(time - by_label[label][place]), key=abs)
    return Firings(len(here), len(there), late)


def main(arguments: Optional[Sequence[str]] = None) -> int:
    """Runs the tool and returns its status."""
    return run_tool("qss-accuracy", tool, arguments, numeric=True)


if __name__ == "__main__":
    sys.exit(main())
