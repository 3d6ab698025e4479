"""The tool that runs a model at many points and measures each run."""
import argparse
import csv
import hashlib
import json
import os
import resource
import shlex
import sys
import time
from typing import Iterator, List, Optional, Sequence

from ..fault import FINE, WARNED, Arguments, Fault, read_bytes, run_tool
from ..model.changes import changed_text
from ..model.source import Source
from ..model.units import time_unit
from ..output import Output
from ..program import ROOT, add_program_option, canonical_text, find_program
from ..runs.measures import requests
from ..runs.quadratics import check_name
from ..runs.rows import Run
from ..tables.measure import csv_line, number_of, number_text
from .clusters import by_dask, by_processes, processors
from .grids import Points
from .jobs import Job
from .parts import Part

ABOUT = """Runs a model at many points, and writes a table (CSV) of measures: a line for each run.

  tools/qss-sweep MODEL --set L=10:100:10 --set duty=0.3,0.5 --measure 'ripple(iL)' -o table.csv
  tools/qss-sweep MODEL --set 'R=tolerance(10,5%)' --set 'C=normal(100,2)' --samples 1000 --seed 7 --measure 'max(uC)'
  tools/qss-sweep MODEL .. --dask tcp://HOST:8786        by the workers of a Dask cluster
  tools/qss-sweep MODEL .. --jobs-file jobs.txt          writes the commands: parallel -k < jobs.txt > table.csv

Values of --set: a list 1,2,5; a range FIRST:LAST:STEP with both ends; a random value uniform(LOW,HIGH),
normal(MEAN,DEVIATION) or tolerance(VALUE,PERCENT%). All combinations of the lists are run, each with the same samples.
The names are those of qss-run, and the measures those of qss-measure.

With -o FILE the lines are kept in FILE.part while the sweep runs. After an interruption the same call goes on there.
The last column states 'ok', or why a value is missing.
Status: 0 each run is ok, 1 some are not, 2 a fault."""

BAR = 30
REDRAW = 0.2  # seconds


def tool(arguments: Sequence[str]) -> int:
    parser = Arguments(prog="qss-sweep", description=ABOUT)
    parser.add_argument("model", help="the model")
    parser.add_argument("--set", action="append", default=[], metavar="NAME=VALUES", help="the values of a name")
    parser.add_argument("--measure", action="append", default=[], metavar="TEXT", help="what to measure, as 'mean(iL)'")
    parser.add_argument("--samples", type=int, metavar="N", help="how many random samples to draw")
    parser.add_argument("--seed", type=int, default=0, metavar="N", help="the seed of the samples (default: 0)")
    parser.add_argument("--jobs", type=int, metavar="N", help="processes (default: one for each processor)")
    parser.add_argument("--dask", metavar="ADDRESS", help="run on the Dask cluster whose scheduler has this address")
    parser.add_argument("--jobs-file", metavar="FILE", help="write the commands of all runs, and run none")
    parser.add_argument("--rule", choices=("floor", "near", "inward"), help="the rule of each run (default: floor)")
    parser.add_argument("--relative", metavar="N", help="the relative quantum, in 4096ths")
    parser.add_argument("--no-header", action="store_true", help="write no line of names")
    parser.add_argument("--force", action="store_true", help="write the table anew where there is one")
    parser.add_argument(
        "-o", "--output", metavar="FILE", help="the table (default: standard output, which is not resumed)"
    )
    add_program_option(parser)
    args = parser.parse_args(arguments)
    if args.jobs is not None and not 1 <= args.jobs <= 1024:
        raise Fault("--jobs: from 1 to 1024")
    if args.jobs_file is not None and args.output is not None:
        raise Fault("--jobs-file writes commands and no table: leave -o out (the commands print the table's lines)")
    sweep = Sweep(args)
    if args.jobs_file is not None:
        sweep.write_jobs()
        return FINE
    return WARNED if sweep.write_table() else FINE


class Sweep:
    """A model, the points at which it is run, and what is measured."""

    def __init__(self, args: argparse.Namespace) -> None:
        self.args = args
        self.program = find_program(args.program)
        self.points = Points(args.set, args.samples, args.seed)
        self.measures = " ".join(args.measure)
        self.unit = time_unit(Source(args.model, read_bytes(args.model)))
        self.asked = requests(self.measures, self.unit)
        self.text = canonical_text(self.program, args.model)
        run = Run(args.model, self.program)
        for one in self.asked:
            check_name(run, one.variable, number_of)
        first = next(iter(self.points))
        changed_text(args.model, self.text, dict(zip(self.points.names, first)))  # a name or a value that is wrong
        self.names = self.points.names + [one.text for one in self.asked] + ["status"]
        self.failed = 0

    def identity(self) -> str:
        """A digest that identifies this sweep."""
        parts = [self.names, list(self.points), self.args.rule, self.args.relative, self.unit]
        return hashlib.sha256(self.text + json.dumps(parts).encode()).hexdigest()

    def job(self, values: Sequence[str]) -> Job:
        named = dict(zip(self.points.names, values))
        how = self.args.rule, self.args.relative, self.unit
        return Job(self.program, self.args.model, self.text, named, self.measures, *how)

    def lines(self, points: Sequence[List[str]]) -> Iterator[str]:
        """The lines of these points, each as its run ends."""
        jobs = map(self.job, points)
        if self.args.dask is not None:
            found = by_dask(jobs, self.args.dask, self.program)
        else:
            found = by_processes(jobs, self.args.jobs or min(processors(), len(points) or 1))
        try:
            for values, one in zip(points, found):
                texts = ["" if value is None else number_text(value) for value in one.values]
                self.failed += one.status != "ok"
                yield csv_line(values + texts + [one.status])
        finally:
            found.close()

    def write_table(self) -> int:
        """Writes the table; how many runs are not ok."""
        header = "" if self.args.no_header else csv_line(self.names)
        points = list(self.points)
        if self.args.output is None:
            progress = Progress(len(points), 0)
            for line in self.lines(points):
                sys.stdout.write(header + line)
                sys.stdout.flush()
                header = ""
                progress.step()
            progress.end()
            return self.failed
        if os.path.exists(self.args.output) and not self.args.force:
            raise Fault("%s: the file exists (--force writes it anew)" % self.args.output)
        part = Lines(self.args.output + ".part", self.identity(), points)
        self.failed = part.failed
        progress = Progress(len(points), len(part.lines))
        with part.opened() as file:
            for line in self.lines(points[len(part.lines) :]):
                file.write(line)
                file.flush()
                part.lines.append(line)
                progress.step()
        progress.end()
        with Output(self.args.output) as output:
            output.write(header + "".join(part.lines))
        os.unlink(part.path)
        return self.failed

    def write_jobs(self) -> None:
        """Writes a command for the line of names, and one for each run."""
        words = [os.path.join(ROOT, "tools", "qss-sweep"), os.path.abspath(self.args.model)]
        rest = ["--measure", self.measures, "--no-header", "--jobs", "1", "--program", self.program]
        for name, value in (("--rule", self.args.rule), ("--relative", self.args.relative)):
            rest += [name, value] if value is not None else []
        with Output(self.args.jobs_file) as output:
            if not self.args.no_header:
                output.write("echo %s\n" % shlex.quote(csv_line(self.names).rstrip("\n")))
            for values in self.points:
                sets = [
                    part for name, value in zip(self.points.names, values) for part in ("--set", name + "=" + value)
                ]
                output.write(" ".join(map(shlex.quote, words + sets + rest)) + "\n")


class Lines(Part):
    """The lines of a sweep that is not at its end."""

    def __init__(self, path: str, identity: str, points: Sequence[List[str]]) -> None:
        super().__init__(path, "qss-sweep %s\n" % identity, "sweep")
        kept, self.lines, self.failed = self.lines, [], 0
        for line, values in zip(kept, points):
            fields = next(csv.reader([line]))
            if fields[: len(values)] != values:
                break
            self.lines.append(line)
            self.failed += fields[-1] != "ok"


class Progress:
    """A bar on standard error, on a terminal only."""

    def __init__(self, count: int, done: int) -> None:
        self.count, self.done, self.begun = count, done, done
        self.shows = sys.stderr.isatty()
        self.start = self.drawn = time.monotonic()

    def step(self) -> None:
        self.done += 1
        now = time.monotonic()
        if self.shows and (now - self.drawn >= REDRAW or self.done == self.count):
            self.drawn = now
            filled = BAR * self.done // self.count
            left = (now - self.start) / (self.done - self.begun) * (self.count - self.done)
            bar = "#" * filled + "." * (BAR - filled)
            sys.stderr.write("\r%d/%d [%s] %.0f s left   " % (self.done, self.count, bar, left))
            sys.stderr.flush()

    def end(self) -> None:
        """A last line: how long it took, and how many processors were busy."""
        if self.shows:
            seconds = max(time.monotonic() - self.start, 1e-9)
            used = sum(sum(resource.getrusage(who)[:2]) for who in (resource.RUSAGE_SELF, resource.RUSAGE_CHILDREN))
            sys.stderr.write(
                "\n%d runs in %.1f s, %.2f processors busy on average\n"
                % (self.done - self.begun, seconds, used / seconds)
            )


def main(arguments: Optional[Sequence[str]] = None) -> int:
    """Runs the tool and returns its status."""
    return run_tool("qss-sweep", tool, arguments, numeric=True)


if __name__ == "__main__":
    sys.exit(main())
