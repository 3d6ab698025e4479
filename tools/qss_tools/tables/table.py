"""The tool qss-table: writes rows as a table of times and values."""
import argparse
import math
import os
import sys
from fractions import Fraction
from typing import Dict, Iterable, List, Optional, Sequence, Set, Tuple, Union

from ..advice.warn import add_advice_option, warn
from ..arrays import load
from ..certificates.band import Bound, Certified, States, add_certificate_option, certified
from ..fault import FINE, WARNED, Arguments, Fault, read_bytes, run_tool
from ..model.flat import Flat
from ..model.source import Source
from ..model.spelling import decimal_text
from ..model.units import SECONDS, plain_time, time_unit, variable_units
from ..output import Output
from ..runs.columns import AnyColumn, Watch, columns_of
from ..runs.rows import Row, Rows, Run, add_run_options, exact, fraction, lines_of, run_of, window_of
from ..runs.steady import add_all_values_option, steady_rows
from .formats import ENDS, FORMS, Data, check_form, write_mat, write_parquet, write_raw

ABOUT = """Rows of a run as a table: a time and a column for each variable, in the model's units, as exact decimals.

  tools/qss-table MODEL ROWS --names iL,uC               the columns iL and uC at each tick at which one of them changes
  tools/qss-table MODEL ROWS --names 'u[1:10]' --every 0.5     the cells u[1] to u[10] at equal steps of time
  tools/qss-table MODEL --names 'total[*]' -o table.csv        runs the model; algebraic variables are computed
  tools/qss-table MODEL --certificate CERT                two more columns a state: the proved bounds of the solution
  tools/qss-table MODEL ROWS -o run.vcd --unit us              a VCD file for GTKWave; the model's unit of time is us
  tools/qss-table MODEL -o run.raw                             a raw file for ngspice; .mat and .parquet likewise

Between two rows a state has its level of the last row; in a run of second order (rows of `qss run2`, or --order 2) its
level moves along a line. An algebraic variable is computed from levels with its exact coefficients, and written to 15
digits where it has no exact decimal. A value of a discrete variable that holds for one tick only, between values that
hold for longer, is left out, unless --all-values is there. The unit of time is QSS_TimeUnit of the model, if --unit
names no other one.
Status: 0 all was written, 1 all was written, and the run overflowed or the rows end early, 2 nothing was written."""

# The units of time of a VCD file, as powers of ten of a second.
SCALES = (("1 s", 0), ("1 ms", 3), ("1 us", 6), ("1 ns", 9), ("1 ps", 12), ("1 fs", 15))
VCD_TIME_BITS = 63


def parser_of() -> Arguments:
    """The arguments of the tool."""
    parser = Arguments(prog="qss-table", description=ABOUT)
    add_run_options(parser)
    parser.add_argument(
        "--names",
        metavar="LIST",
        help="names, arrays, u[2:5], patterns with * or expressions, as uC*iL or Vin*iL, with commas between them",
    )
    parser.add_argument("--every", metavar="STEP", help="only the values at each multiple of this time, as 0.5 or 10us")
    parser.add_argument("--from", dest="begin", metavar="TIME", help="write from this time on, as 4 or 9.5ms")
    parser.add_argument("--to", dest="end", metavar="TIME", help="write up to this time")
    parser.add_argument(
        "--states",
        action="store_true",
        help="exact states in place of levels (they are known only at their own rows)",
    )
    parser.add_argument("--events", action="store_true", help="a last column with the branches that fired")
    add_all_values_option(parser)
    add_certificate_option(parser)
    parser.add_argument(
        "--format", choices=list(dict.fromkeys(FORMS.values())), help="default: by the name of the output, else csv"
    )
    parser.add_argument(
        "--unit", choices=sorted(SECONDS), help="the model's unit of time, for VCD (default: that of the model, or s)"
    )
    parser.add_argument("-o", "--output", metavar="FILE", help="the file to write (default: standard output)")
    add_advice_option(parser)
    return parser


def tool(arguments: Sequence[str]) -> int:
    args = parser_of().parse_args(arguments)
    run = run_of(args)
    unit = args.unit or time_unit(Source(args.source, read_bytes(args.source)))
    args.unit = unit if unit in SECONDS else "s"
    args.begin, args.end = plain_time(args.begin, unit, "--from"), plain_time(args.end, unit, "--to")
    args.every = plain_time(args.every, unit, "--every")
    form = args.form = args.format or form_of(args.output)
    window_of(args, run, "write")
    if args.every is not None:
        step_of(args.every, run)
    columns_of(run, args.names, args.states)
    bounds = certified(args, run)
    if bounds and form != "csv":
        raise Fault("--certificate writes CSV")
    check_form(form, args.events, args.order)
    warn(args, run, "qss-table")
    with lines_of(args, run) as (lines, name), Output(args.output) as output:
        columns = columns_of(run, args.names, args.states)
        rows = Rows(run, lines, name, may_be_cut=True)
        check_form(form, args.events, run.order)
        if form != "vcd" and bounds is None and run.order == 1 and load() is not None:
            overflowed = write_arrays(output, rows, columns, args)
        else:
            overflowed = write_rows(output, rows, columns, args, bounds)
    if overflowed:
        print("qss-table: %s" % overflow_text(overflowed, run), file=sys.stderr)
    if rows.cut:
        print("qss-table: %s; the table ends there" % rows.cut, file=sys.stderr)
    return WARNED if overflowed or rows.cut else FINE


def write_arrays(
    output: Output, rows: Rows, columns: Sequence[AnyColumn], args: argparse.Namespace
) -> Optional[Tuple[int, str]]:
    """Writes the lines of CSV from arrays; the tick and the name of an overflow, or None."""
    from .bulk_table import Choice, Table

    begin, end = window_of(args, rows.run, "write")
    every = None if args.every is None else step_of(args.every, rows.run)
    choice = Choice(every, begin if args.begin else None, end if args.end else None, args.events, args.all_values)
    table = Table(rows, columns, choice)
    if args.form == "csv":
        table.write(output)
    elif args.form == "parquet":
        write_parquet(output, table.frame())
    else:
        units = variable_units(args.source)
        columns_of_data = [(name, units.get(name.split("[")[0], ""), values) for name, values in table.floats()]
        data = Data(rows.run.flat.model.name, args.unit, table.times(), columns_of_data)
        (write_raw if args.form == "raw" else write_mat)(output, data)
    return table.overflow


def write_rows(
    output: Output, rows: Rows, columns: Sequence[AnyColumn], args: argparse.Namespace, bounds: Optional[Certified]
) -> Optional[Tuple[int, str]]:
    """Writes row by row; the tick and the name of an overflow, or None."""
    run, states = rows.run, None
    if args.form == "vcd":
        writer: Union[Vcd, Wide] = Vcd(output, run, columns, args)
    else:
        states = States(bounds, rows.name) if bounds else None
        kind = Wide if args.every is None else Sampled
        writer = kind(output, run, columns, args, bound_columns(bounds, states, columns))
    cut = Window(writer, *window_of(args, run, "write")) if args.begin or args.end else writer
    return follow(cut, rows, columns, states, args.all_values)


def step_of(text: str, run: Run) -> Fraction:
    """The step of --every: at least a tick."""
    step = fraction(text, "--every")
    if step <= 0:
        raise Fault("--every: '%s' is not above 0" % text)
    if step * 2**run.units.time < 1:
        raise Fault("--every: '%s' is below a tick, which is %s" % (text, exact(1, run.units.time)))
    return step


def overflow_text(overflowed: Tuple[int, str], run: Run) -> str:
    tick, name = overflowed
    return "the run overflowed: %s at tick %d (time %s)" % (name, tick, exact(tick, run.units.time))


def form_of(path: Optional[str]) -> str:
    """The format of a file, by the end of its name."""
    if path is None:
        return "csv"
    end = os.path.splitext(path)[1].lower()
    if end not in FORMS:
        raise Fault("%s: a table is %s (--format names the format of a file with another end)" % (path, ENDS))
    return FORMS[end]


def bound_columns(
    bounds: Optional[Certified], states: Optional[States], columns: Sequence[AnyColumn]
) -> Sequence[Bound]:
    """The columns of the proved bounds of the solution, for the states among these columns."""
    if bounds is None or states is None:
        return []
    names = [column.name for column in columns if column.name in bounds.bounds]
    if not names:
        raise Fault("--certificate: none of the columns is a state")
    return [Bound(bounds, states, name, sign) for name in names for sign in (-1, 1)]


def follow(
    writer: "Writer",
    rows: Rows,
    columns: Sequence[AnyColumn],
    states: Optional[States] = None,
    all_values: bool = True,
) -> Optional[Tuple[int, str]]:
    """Gives all rows to a writer, tick by tick; the tick and the name of an overflow, or None."""
    watch = Watch(columns)
    changed: Set[int] = set()
    events: List[str] = []
    tick, overflowed = 0, None
    started = False
    some: Iterable[Row] = iter(rows) if all_values else steady_rows(rows.run, rows)
    for at, event, variable, level, state in some:
        if not started and event not in ("start", "slope"):
            started = True
            watch.check_started(rows.name)
        if at != tick:
            changed.update(watch.move(tick))
            writer.tick(tick, changed, events, at)
            tick, changed, events = at, set(), []
        if states:
            states.take(at, variable, level, state)
        if event == "when":
            events.append(variable)
        elif event == "overflow":
            overflowed = at, variable
        elif event == "slope":
            watch.slope(at, variable, level)
        else:
            changed.update(watch.take(variable, level, state))
    if not rows.cut:
        # (where rows are cut, some of the last tick may lack)
        changed.update(watch.move(tick))
        writer.tick(tick, changed, events, tick + 1)
    writer.end(tick)
    return overflowed


class Writer:
    """What takes the ticks of a run: the columns that changed, the branches that fired, and the next tick with rows."""

    def tick(self, tick: int, changed: Set[int], events: List[str], until: int) -> None:
        raise NotImplementedError

    def end(self, tick: int) -> None:
        """The last tick was this one."""

    def limit(self, first: Fraction, last: Fraction) -> None:
        """The times, in ticks, between which is written."""


class Window(Writer):
    """Passes on what lies between two times, and the values that hold at the first of them."""

    def __init__(self, writer: "Union[Vcd, Wide]", begin: Fraction, end: Fraction):
        self.changed: Set[int] = set()
        self.writer, self.begun = writer, False
        scale = 2**writer.bits
        self.first, self.last = math.ceil(begin * scale), end * scale
        writer.limit(begin * scale, self.last)

    def tick(self, tick: int, changed: Set[int], events: List[str], until: int) -> None:
        self.changed |= changed
        if until <= self.first or tick > self.last:
            return
        if not self.begun:
            self.begun = True
            events = events if tick >= self.first else []
            self.writer.tick(max(tick, self.first), self.changed, events, until)
        else:
            self.writer.tick(tick, changed, events, until)

    def end(self, tick: int) -> None:
        self.writer.end(min(tick, math.floor(self.last)))


class Wide(Writer):
    """A line at each tick at which a column changes."""

    def __init__(
        self,
        output: Output,
        run: Run,
        columns: Sequence[AnyColumn],
        args: argparse.Namespace,
        bounds: Sequence[Bound] = (),
    ):
        self.output, self.columns, self.bounds, self.events = output, columns, bounds, args.events
        self.bits = run.units.time
        self.texts = [""] * len(columns)
        self.begun = False
        names = [column.name for column in columns] + [bound.name for bound in bounds]
        output.write(",".join(["time"] + names + ["events"] * self.events) + "\n")

    def tick(self, tick: int, changed: Set[int], events: List[str], until: int) -> None:
        places = [place for place in range(len(self.columns)) if place in changed or not self.begun]
        changed = {place for place in places if self.columns[place].is_new()}
        if self.begun and not changed and not (self.events and events):
            return
        for place in changed:
            self.texts[place] = self.columns[place].text()
        self.begun = True
        bounds = [bound.text(tick) for bound in self.bounds]
        fields = [exact(tick, self.bits)] + self.texts + bounds + [" ".join(events)] * self.events
        self.output.write(",".join(fields) + "\n")


class Sampled(Wide):
    """A line at each multiple of a time."""

    def __init__(
        self,
        output: Output,
        run: Run,
        columns: Sequence[AnyColumn],
        args: argparse.Namespace,
        bounds: Sequence[Bound] = (),
    ):
        super().__init__(output, run, columns, args, bounds)
        self.step = step_of(args.every, run)
        self.ticks = self.step * 2**self.bits
        if bounds and self.ticks.denominator != 1:
            raise Fault("--every: with --certificate the step is a whole number of ticks, and %s is not" % args.every)
        self.last = Fraction(run.last)
        self.moves = run.order == 2
        self.next = 0
        self.fired: List[str] = []
        self.changed: Set[int] = set()

    def limit(self, first: Fraction, last: Fraction) -> None:
        self.next, self.last = math.ceil(first / self.ticks), min(last, self.last)

    def tick(self, tick: int, changed: Set[int], events: List[str], until: int) -> None:
        """The values of this tick stand until another one."""
        self.changed |= changed
        self.fired += events
        while self.next * self.ticks < until and self.next * self.ticks <= self.last:
            if self.moves:
                for column in self.columns:
                    column.move(math.floor(self.next * self.ticks))
            for place in self.changed if self.begun and not self.moves else range(len(self.columns)):
                self.texts[place] = self.columns[place].text()
            bounds = [bound.text(int(self.next * self.ticks)) for bound in self.bounds]
            fields = [decimal_text(self.next * self.step)] + self.texts + bounds + [" ".join(self.fired)] * self.events
            self.output.write(",".join(fields) + "\n")
            self.next, self.fired, self.changed, self.begun = self.next + 1, [], set(), True


class Vcd(Writer):
    """A VCD file: reals for the columns, and an event for each branch that fires."""

    def __init__(self, output: Output, run: Run, columns: Sequence[AnyColumn], args: argparse.Namespace):
        self.output, self.columns = output, columns
        self.bits, self.begun = run.units.time, False
        self.codes = [code(place) for place in range(len(columns))]
        second = SECONDS[args.unit] / 2**run.units.time
        scale, self.ticks = next(
            ((name, second * 10**power) for name, power in SCALES if (second * 10**power).denominator == 1),
            ("1 fs", second * 10**15),
        )
        if self.ticks * run.last >= 2**VCD_TIME_BITS:
            scale, self.ticks = "1 ps", second * 10**12
        self.fired: Dict[str, str] = {}
        output.write(
            "$comment a tick is 2^-%d %s $end\n$timescale %s $end\n$scope module %s $end\n"
            % (run.units.time, args.unit, scale, run.flat.model.name)
        )
        for column, one in zip(columns, self.codes):
            output.write("$var real 64 %s %s $end\n" % (one, column.name.replace("[", "(").replace("]", ")")))
        if args.events:
            for label in branch_labels(run.flat):
                self.fired[label] = code(len(columns) + len(self.fired))
                output.write("$var event 1 %s when_%s $end\n" % (self.fired[label], label.replace(".", "_")))
        output.write("$upscope $end\n$enddefinitions $end\n")

    def tick(self, tick: int, changed: Set[int], events: List[str], until: int) -> None:
        if not self.begun:
            changed, self.begun = set(range(len(self.columns))), True
        told = [event for event in events if event in self.fired]
        if not changed and not told:
            return
        self.output.write("#%d\n" % round(tick * self.ticks))
        for place in sorted(changed):
            self.output.write("r%s %s\n" % (self.columns[place].text(), self.codes[place]))
        for event in told:
            self.output.write("1%s\n" % self.fired[event])

    def end(self, tick: int) -> None:
        self.output.write("#%d\n" % (round(tick * self.ticks) + 1))


def code(place: int) -> str:
    """A short name of printable signs."""
    text = ""
    while True:
        place, rest = divmod(place, 94)
        text += chr(33 + rest)
        if not place:
            return text


def branch_labels(flat: Flat) -> List[str]:
    """The numbers of all branches, as rows name them."""
    return [row.label.split()[-1] for row in flat.rows() if row.kind == "condition"]


def main(arguments: Optional[Sequence[str]] = None) -> int:
    """Runs the tool and returns its status."""
    return run_tool("qss-table", tool, arguments, numeric=True)


if __name__ == "__main__":
    sys.exit(main())
