"""The tool tool-times: how long the tools take on a run of a million rows."""
import os
import resource
import subprocess
import sys
import tempfile
import time
from typing import Any, Callable, Dict, List, NamedTuple, Optional, Sequence

from qss_tools.fault import FINE, WARNED, Arguments, Fault, run_tool
from qss_tools.model.changes import assignments, write_changed
from qss_tools.program import ROOT, add_program_option, find_program

ABOUT = """How long pictures, tables, frames and measures of a run of a million rows take, beside the program that
prints these rows and `pandas.read_csv` that reads them.

  tools/tool-times                 the least of three measurements, each in a process of its own
  tools/tool-times --repeat 5      of five
  tools/tool-times --check         status 1 if one takes longer than it may on an idle machine
  tools/tool-times --check --by-ratio      the same, for the ratio of its processor time to that of pandas.read_csv

Each line has the seconds of a clock and those of processors (user and system), each with its ratio to the seconds of
`pandas.read_csv` in the same call of tool-times. Then it has the greatest time allowed, and the same as a ratio. The
allowed times are for a machine on which `pandas.read_csv` reads a million rows in 0.3 s. On a slower machine compare
the ratios. On a busy machine the seconds of the clock are too large.
Status: 0 all was measured, 1 with --check: a time or a ratio is too large, 2 a fault."""

REFERENCE = 0.3  # seconds of pandas.read_csv on the machine for which the allowed times are

MODEL = os.path.join(ROOT, "examples", "buck_ccm.mo")
VALUES = ("QSS_TickBits=8", "QSS_Quantum=1/2048")  # so that the run has a million rows
MEASURES = "mean(iL) rms(iL) min(iL) max(iL) ripple(uC) final(uC) at(uC,t=3000) period(s) duty(s) integral(uC)"
SWEEP = ("--set", "R=10:16:2", "--measure", "mean(uC) ripple(iL)", "--jobs", "1")
READ = "pandas.read_csv of the rows"
# What runs in a process of its own, by Python: it prints its seconds.
IN_PYTHON = """
import sys, time
sys.path.insert(0, sys.argv[1])
import pandas, numpy
import qss_tools as qss
run = qss.run(sys.argv[2], rows=sys.argv[3], program=sys.argv[4])
begin = time.perf_counter(), time.process_time()
{call}
print(time.perf_counter() - begin[0], time.process_time() - begin[1])
"""


class Time(NamedTuple):
    """The seconds of a clock and those of processors."""

    clock: float
    used: float


class Line(NamedTuple):
    """What was measured, its time, and how long it may take: in seconds, and as a ratio where only a ratio is given."""

    what: str
    time: Time
    most: Optional[float]
    most_ratio: Optional[float] = None

    @property
    def allowed(self) -> float:
        """The greatest ratio to the time of `pandas.read_csv`."""
        return self.most_ratio or (self.most or 0.0) / REFERENCE

    def text(self, read: Time) -> str:
        """The line, with ratios to the time of `pandas.read_csv`."""
        clock, used = self.time
        text = "%-46s %6.2f s %6.2f   %6.2f s %6.2f" % (self.what, clock, clock / read.clock, used, used / read.used)
        return text if self.most is None else text + "   at most %.2f s %5.2f" % (self.most, self.allowed)

    def is_late(self, read: Time, by_ratio: bool) -> bool:
        """Whether the time, or the ratio of the processor times, is too large."""
        if self.most is None:
            return False
        return self.time.used / read.used > self.allowed if by_ratio else self.time.clock > self.most


def tool(arguments: Sequence[str]) -> int:
    parser = Arguments(prog="tool-times", description=ABOUT)
    parser.add_argument("--repeat", type=int, default=3, metavar="N", help="how often each is measured (default: 3)")
    parser.add_argument("--check", action="store_true", help="end with status 1 if a time is too long")
    parser.add_argument("--by-ratio", action="store_true", help="with --check: compare ratios in place of seconds")
    add_program_option(parser)
    args = parser.parse_args(arguments)
    if not 1 <= args.repeat <= 100:
        raise Fault("--repeat: from 1 to 100")
    if args.by_ratio and not args.check:
        raise Fault("--by-ratio goes with --check")
    with tempfile.TemporaryDirectory(prefix="qss-") as folder:
        lines = Measured(folder, find_program(args.program), args.repeat).lines()
    read = next(line.time for line in lines if line.what == READ)
    print("%-46s %8s %6s   %8s %6s" % ("", "clock", "ratio", "processor", "ratio"))
    for line in lines:
        print(line.text(read))
    late = any(line.is_late(read, args.by_ratio) for line in lines)
    return WARNED if args.check and late else FINE


class Measured:
    """A model with a million rows, and what is measured on it."""

    def __init__(self, folder: str, program: str, repeat: int) -> None:
        self.folder, self.program, self.repeat = folder, program, repeat
        self.model = write_changed(MODEL, program, assignments(VALUES), folder)
        self.rows = os.path.join(folder, "rows.csv")
        with open(self.rows, "wb") as file:
            subprocess.run([program, "run", self.model], stdout=file, check=True)
        with open(self.rows, "rb") as file:
            self.count = sum(block.count(b"\n") for block in iter(lambda: file.read(1 << 20), b"")) - 1

    def lines(self) -> List[Line]:
        """All measurements."""
        found = [Line("the program, %d rows" % self.count, self.least(self.by_program), None)]
        read = self.in_python("pandas.read_csv(sys.argv[3])")
        found.append(Line(READ, read, None))
        found.append(Line("frame()", self.in_python("run.frame()"), 2 * read.clock, 2.0))
        found.append(Line("measure() of ten measures", self.in_python("run.measure(%r)" % MEASURES), 0.3))
        pictures: Dict[str, float] = {"svg": 1.0, "png": 1.0, "html": 1.5}
        for kind, most in pictures.items():
            found.append(self.by_tool("qss-plot to .%s" % kind, most, "qss-plot", "-o", self.path("picture." + kind)))
        found.append(self.by_tool("qss-table", 0.5, "qss-table", "-o", self.path("table.csv")))
        found.append(self.by_tool("qss-measure of ten measures", None, "qss-measure", MEASURES))
        sweep = self.least(lambda: self.called(self.script("qss-sweep") + list(SWEEP)))
        found.append(Line("a point of a sweep (of four, by one process)", Time(sweep.clock / 4, sweep.used / 4), None))
        return found

    def path(self, name: str) -> str:
        return os.path.join(self.folder, name)

    def script(self, name: str) -> List[str]:
        """The words that run a tool on the model."""
        words = [sys.executable, os.path.join(ROOT, "tools", name), self.model]
        return words + (
            ["--program", self.program] if name == "qss-sweep" else ["--no-advice", "--program", self.program]
        )

    def by_program(self) -> Time:
        return self.called([self.program, "run", self.model])

    def by_tool(self, what: str, most: Optional[float], *words: str) -> Line:
        return Line(what, self.least(lambda: self.called(self.script(words[0]) + list(words[1:]))), most)

    def called(self, words: Sequence[str]) -> Time:
        """The time of a command."""
        before, begin = resource.getrusage(resource.RUSAGE_CHILDREN), time.perf_counter()
        done = subprocess.run(words, stdout=subprocess.DEVNULL, stderr=subprocess.PIPE)
        seconds, after = time.perf_counter() - begin, resource.getrusage(resource.RUSAGE_CHILDREN)
        if done.returncode:
            raise Fault("%s: %s" % (words[1], done.stderr.decode("utf-8", "replace").strip()))
        return Time(seconds, after.ru_utime + after.ru_stime - before.ru_utime - before.ru_stime)

    def in_python(self, call: str) -> Time:
        """The time of a call in Python, after all packages are loaded."""
        words: List[Any] = [sys.executable, "-c", IN_PYTHON.format(call=call), os.path.join(ROOT, "tools")]
        words += [self.model, self.rows, self.program]

        def once() -> Time:
            done = subprocess.run(words, stdout=subprocess.PIPE, stderr=subprocess.PIPE)
            if done.returncode:
                raise Fault("%s: %s" % (call, done.stderr.decode("utf-8", "replace").strip().split("\n")[-1]))
            clock, used = map(float, done.stdout.split())
            return Time(clock, used)

        return self.least(once)

    def least(self, measure: Callable[[], Time]) -> Time:
        """The least of some measurements."""
        found = [measure() for _ in range(self.repeat)]
        return Time(min(one.clock for one in found), min(one.used for one in found))


def main(arguments: Optional[Sequence[str]] = None) -> int:
    """Runs the tool and returns its status."""
    return run_tool("tool-times", tool, arguments, numeric=True)


if __name__ == "__main__":
    sys.exit(main())
