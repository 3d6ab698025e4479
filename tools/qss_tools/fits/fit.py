"""The tool qss-fit: finds values of parameters for which the run of a model is near measured values."""
import argparse
import hashlib
import json
import os
import sys
from typing import List, Optional, Sequence

from ..fault import FINE, WARNED, Arguments, Fault, read_bytes, run_tool
from ..model.changes import add_set_option, assignments, changed_text
from ..output import Output
from ..program import RULES, add_program_option, canonical_text, find_program
from ..runs.rows import run_of
from ..sweeps.clusters import processors
from ..sweeps.parts import Part
from ..tables.compared import counted
from ..tables.measure import csv_line
from ..tables.measurements import Measurements, add_data_options
from .ranges import ranges_of, shift_range
from .search import Fit, Search
from .trials import Setup, Trials

ABOUT = """Finds values of parameters for which the run of a model is near measured values (numpy and scipy).

  tools/qss-fit MODEL --with data.csv --vary R=1:100 --vary C=0.1:10
  tools/qss-fit MODEL --with data.csv --vary R=1:100:20 --vary uC.start=0:5 --vary-shift=-1ms:1ms
  tools/qss-fit MODEL --with data.csv --vary R=1:100 --rewrite fitted.mo     also writes the model with the values

A range is LOW:HIGH or LOW:HIGH:START. The start is the value of the model if it is in the range, and else the middle. A
positive range is searched by its logarithm. Some points of the ranges are run first, and least squares go on from the
best one. The differences of each variable count in relation to the range of its measured values. The interval of a
value has a probability of 95 %, if the noise of the measured values is independent and the model is right. If the
differences that are left are not like noise, up to three further points are searched from. If they are still not like
noise, no intervals are printed, and a line states this.
The file of measured values has a line of names with units, as 't [ms],uC [V]'.

All runs are kept in MODEL.fit.part, or with -o TABLE in TABLE.part, until the fit is at its end. After an interruption
the same call goes on there, and has the same result.
Status: 0 a fit, 1 a value is not determined or at the end of its range, or the differences are not like noise, or the
search is not at its end, 2 a fault."""


def parser_of() -> Arguments:
    """The arguments of the tool."""
    parser = Arguments(prog="qss-fit", description=ABOUT)
    parser.add_argument("model", help="the model")
    add_data_options(parser, is_needed=True)
    parser.add_argument(
        "--vary", action="append", default=[], metavar="NAME=LOW:HIGH", help="the range of a parameter or a start value"
    )
    parser.add_argument("--vary-shift", metavar="LOW:HIGH", help="find a shift of the measured values in time, too")
    add_set_option(parser)
    parser.add_argument("--starts", type=int, default=16, metavar="N", help="points that are run first (default: 16)")
    parser.add_argument("--steps", type=int, default=50, metavar="N", help="the most steps of the search (default: 50)")
    parser.add_argument("--jobs", type=int, metavar="N", help="processes (default: one for each processor)")
    parser.add_argument("--rule", choices=RULES, help="the rule of each run (default: floor)")
    parser.add_argument("--relative", metavar="N", help="the relative quantum, in 4096ths")
    parser.add_argument("--order", choices=(1, 2), type=int, default=1, help="2: run the model by `qss run2`")
    parser.add_argument("--unit", help="the model's unit of time")
    parser.add_argument("--rewrite", metavar="FILE", help="write the model with the values ('-': only standard output)")
    parser.add_argument("-o", "--output", metavar="TABLE", help="write a table (CSV) of all runs")
    parser.add_argument("--force", action="store_true", help="write files anew that are there")
    add_program_option(parser)
    return parser


def tool(arguments: Sequence[str]) -> int:
    parser = parser_of()
    args = parser.parse_args(arguments)
    if not args.vary and args.vary_shift is None:
        parser.error("--vary names what is varied, as --vary R=1:100")
    for name, value, most in (
        ("--starts", args.starts, 10000),
        ("--steps", args.steps, 10000),
        ("--jobs", args.jobs, 1024),
    ):
        if value is not None and not 1 <= value <= most:
            raise Fault("%s: from 1 to %d" % (name, most))
    for path in (args.rewrite, args.output):
        if path not in (None, "-"):
            check_new(path, args.force)
    fitting = Fitting(args)
    check_scipy()
    found = fitting.found()
    fitting.write(found)
    return FINE if found.is_sound else WARNED


def check_new(path: str, may_replace: bool) -> None:
    """A file can be written at the end."""
    if os.path.exists(path) and not may_replace:
        raise Fault("%s: the file exists (--force writes it anew)" % path)
    if not os.path.isdir(os.path.dirname(os.path.abspath(path))):
        raise Fault("%s: there is no such folder" % path)


def check_scipy() -> None:
    """scipy is installed."""
    try:
        import numpy  # noqa: F401
        import scipy.optimize  # noqa: F401
    except ImportError as error:
        raise Fault(
            "numpy and scipy are needed, and %s has not both (python3-numpy and python3-scipy of Debian belong to"
            " /usr/bin/python3)" % sys.executable
        ) from error


class Fitting:
    """A model, measured values, and what is varied."""

    def __init__(self, args: argparse.Namespace) -> None:
        self.args = args
        self.program = find_program(args.program)
        self.run = run_of(args)
        self.data = Measurements(args, self.run)
        for note in self.data.notes:
            say(note)
        self.ranges = ranges_of(args.vary, self.run.flat)
        self.check_names()
        self.shift: Optional[int] = None
        early = late = 0.0
        if args.vary_shift is not None:
            self.shift = len(self.ranges)
            self.ranges.append(shift_range(args.vary_shift, self.data.time_unit))
            early, late = -self.ranges[-1].low, self.ranges[-1].high
        self.measured = self.data.within_run(early, late)
        self.setup = self.setup_of(canonical_text(self.program, self.run.model))
        path = args.output or os.path.splitext(os.path.basename(args.source))[0] + ".fit"
        self.part = Part(path + ".part", "qss-fit %s\n" % self.identity(), "fit", args.force)

    def check_names(self) -> None:
        """No name is varied and set."""
        both = set(assignments(self.args.set)) & {one.name for one in self.ranges}
        if both:
            raise Fault("'%s' is in --vary and in --set" % min(both))

    def setup_of(self, text: bytes) -> Setup:
        args = self.args
        names = tuple(one.name for one in self.ranges)
        variables = tuple(one.variable for one in self.measured)
        times = tuple(tuple(one.times) for one in self.measured)
        how = args.order, args.rule, args.relative
        return Setup(self.program, args.source, text, *how, names, self.shift, variables, times)

    def identity(self) -> str:
        """A digest that identifies this fit."""
        parts = [
            [(one.name, one.low, one.high, one.start) for one in self.ranges],
            [(one.variable, one.times, one.values) for one in self.measured],
            [self.args.order, self.args.rule, self.args.relative, self.args.starts, self.shift],
        ]
        return hashlib.sha256(self.setup.text + json.dumps(parts).encode()).hexdigest()

    def found(self) -> Fit:
        """Fits, and keeps all runs if it is interrupted."""
        jobs = self.args.jobs or min(processors(), max(self.args.starts, 2 * len(self.ranges)))
        with Trials(self.setup, self.part, jobs, count) as self.trials:
            if self.trials.kept:
                say("%s of %s" % (counted(self.trials.kept, "run"), self.part.path))
            try:
                return Search(self.ranges, self.measured, self.trials, say).found(self.args.starts, self.args.steps)
            except KeyboardInterrupt as error:
                runs = len(self.trials.known)
                way = "the same call goes on from %s" % self.part.path if runs else "nothing is kept"
                raise Fault("interrupted after %s: %s" % (counted(runs, "run"), way)) from error

    def write(self, found: Fit) -> None:
        """Writes the report, the model and the table; the kept runs are not needed any more."""
        if self.args.rewrite is not None:
            self.rewrite(found)
        if self.args.output is not None:
            self.write_table()
        if self.args.rewrite != "-":
            print("\n".join(self.report(found)))
        elif found.patterns:
            say(self.doubt(found))
        if os.path.exists(self.part.path):
            os.unlink(self.part.path)

    def report(self, found: Fit) -> List[str]:
        """The lines about a fit."""
        unit = "" if self.data.time_unit == "1" else " " + self.data.time_unit
        times = [time for one in self.measured for time in one.times]
        lines = ["%s and %s, from %.6g to %.6g%s" % (self.args.label, self.data.path, min(times), max(times), unit)]
        width = max(len(one.name) for one in found.estimates)
        for place, one in enumerate(found.estimates):
            of_value = unit if place == self.shift else " " + self.data.unit_of(one.name.partition(".")[0])
            sentence = one.sentence(of_value.rstrip(), is_trusted=not found.patterns)
            lines.append("  %s = %s" % (one.name.ljust(width), sentence))
        lines += ["  " + one.text() for one in found.correlations]
        lines += ["  " + one.text(self.data.time_unit) for one in found.misfits]
        last = "%s and %s" % (counted(found.steps, "step"), counted(len(self.trials.known), "run"))
        lines.append(last + ("; the search is not at its end: --steps allows more" if found.is_ended else ""))
        return [*lines, self.doubt(found)] if found.patterns else lines

    def doubt(self, found: Fit) -> str:
        """The line about differences that are not like noise."""
        some, starts, file = "; ".join(one.text() for one in found.patterns), 8 * self.args.starts, self.args.rewrite
        line = f"the differences that are left are not like noise ({some}): the values are a local minimum, or the"
        line += f" model does not fit: --starts {starts} searches more of the ranges"
        return line if file in (None, "-") else f"{line}; {file} has these values all the same"

    def rewrite(self, found: Fit) -> None:
        """Writes the model with the values."""
        with Output(None if self.args.rewrite == "-" else self.args.rewrite) as output:
            output.write_bytes(self.rewritten(found))

    def rewritten(self, found: Fit) -> bytes:
        """The model with the values, and all else as it was."""
        values = {**assignments(self.args.set)}
        values.update({one.name: one.text for place, one in enumerate(found.estimates) if place != self.shift})
        return changed_text(self.args.source, read_bytes(self.args.source), values)

    def write_table(self) -> None:
        """Writes a line for each run: the values, the root mean square error of each variable, and a status."""
        search = Search(self.ranges, self.measured, self.trials, say)
        with Output(self.args.output) as output:
            errors = ["rms(%s)" % one.variable for one in self.measured]
            output.write(csv_line([*self.setup.names, *errors, "status"]))
            for point, trial in self.trials.known.items():
                texts = [""] * len(errors)
                if trial.values is not None:
                    texts = ["%.6g" % one.rms for one in search.misfits(trial)]
                output.write(csv_line([*point, *texts, trial.why or "ok"]))


def say(line: str) -> None:
    """A line about the progress."""
    print("%sqss-fit: %s" % ("\r" if sys.stderr.isatty() else "", line), file=sys.stderr, flush=True)


def count(runs: int) -> None:
    """The number of runs, on a terminal only. The next line replaces it."""
    if sys.stderr.isatty():
        sys.stderr.write("\r%d runs" % runs)
        sys.stderr.flush()


def main(arguments: Optional[Sequence[str]] = None) -> int:
    """Runs the tool and returns its status."""
    return run_tool("qss-fit", tool, arguments, numeric=True)


if __name__ == "__main__":
    sys.exit(main())
