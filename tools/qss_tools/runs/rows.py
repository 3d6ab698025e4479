"""Rows of a run: read one by one, checked against their model, with exact numbers."""
import argparse
import contextlib
import io
import subprocess
import sys
from fractions import Fraction
from typing import IO, Iterable, Iterator, List, Optional, Tuple

from ..fault import Fault, unreadable
from ..model.changes import add_set_option, assignments, shown, write_changed
from ..model.flat import Flat, Meaningless
from ..model.grammar import parse
from ..model.source import Source
from ..program import RULES, add_program_option, call, canonical_text, find_program, start, way_to_place

HEADER = "tick,event,name,level,state\n"
EVENTS = frozenset(("start", "slope", "level", "set", "reinit", "when", "end", "overflow"))
AMID = frozenset(("level", "when", "set", "reinit"))
LATER = EVENTS - {"start"}
# Which rows may follow one of a kind.
FOLLOWING = {
    "start": EVENTS,
    "end": frozenset(("end",)),
    "overflow": frozenset(),
    "when": LATER,
    "set": LATER,
    "reinit": LATER,
    "level": LATER,
    "slope": EVENTS,
}
BLOCK = 1 << 20  # bytes that are read at a time, and that the program may write ahead of them
SET_PIPE_SIZE = 1031  # F_SETPIPE_SZ of Linux, which the module fcntl has from Python 3.10 on
SECOND_BITS = 6  # levels and states of a second-order run are counted 2^6 times finer

Row = Tuple[int, str, str, Optional[int], Optional[int]]


class Units:
    """The units of a model's rows, as bits: a tick is 2^-time, a level 2^-level, a state's unit 2^-state."""

    def __init__(self, flat: Flat, order: int = 1):
        self.time = flat.bits("QSS_TickBits")
        self.level = flat.bits("QSS_LevelBits") + (SECOND_BITS if order == 2 else 0)
        self.state = self.level + flat.bits("QSS_CoefBits") + self.time


def exact(value: int, bits: int) -> str:
    """The decimal of value * 2^-bits, which always ends."""
    if not bits:
        return str(value)
    digits = str(abs(value) * 5**bits).rjust(bits + 1, "0")
    whole, part = digits[:-bits], digits[-bits:].rstrip("0")
    return ("-" if value < 0 else "") + (whole + "." + part if part else whole)


class Run:
    """A model with its meaning, as `print` gives it, and its runs. With `text`, its canonical text is known already."""

    def __init__(self, model: str, program: str, text: Optional[bytes] = None):
        self.model = model
        self.program = program
        self.order = 1
        source = Source(model, canonical_text(program, model) if text is None else text)
        try:
            self.flat = Flat(parse(source))
            self.units = Units(self.flat)
            self.last = int(self.flat.last_tick())
            self.flat.rows()
        except Meaningless as error:
            # It is printed and means nothing, so it is refused at once.
            line = call(program, ["run", model, "--only", "-"], keep=False).line
            raise Fault("%s: %s%s" % (model, line or error, way_to_place(model))) from error
        flat = self.flat
        self.names = {one.name: number for number, one in enumerate(flat.variables[: flat.states + flat.discretes])}

    def use_order(self, order: int) -> None:
        """Takes the rows for those of a run of first or of second order; their units are other ones."""
        self.order, self.units = order, Units(self.flat, order)

    def start_fields(self, number: int) -> Tuple[int, Optional[int]]:
        """Level and state of a start row."""
        start_value, finer = self.flat.starts[number], SECOND_BITS if self.order == 2 else 0
        if number >= self.flat.states:
            return round(start_value * 2 ** (self.units.level - finer)) << finer, None
        state = round(start_value * 2 ** (self.units.state - finer)) << finer
        return state >> (self.units.state - self.units.level), state


def add_run_options(parser: argparse.ArgumentParser) -> None:
    """Adds the arguments that say where rows come from."""
    parser.add_argument("model", help="the model of the rows")
    parser.add_argument(
        "rows",
        nargs="?",
        help="a file with the rows of `qss run` or `qss run2`, or '-' for standard input (default: the model is run)",
    )
    parser.add_argument("--rule", choices=RULES, help="the rule, if the model is run")
    parser.add_argument("--relative", metavar="N", help="the relative quantum, if the model is run")
    parser.add_argument("--order", choices=(1, 2), type=int, default=1, help="2: run the model by `qss run2`")
    add_set_option(parser)
    add_program_option(parser)


def run_of(args: argparse.Namespace) -> Run:
    """The model of the arguments, with the values that --set changes: then args.model is the changed model, and
    args.source the one that was given.
    """
    program = find_program(args.program)
    args.source = args.label = args.model
    if not getattr(args, "set", None):
        return Run(args.model, program)
    values = assignments(args.set)
    args.label = shown(args.source, values)
    args.model = write_changed(args.source, program, values)
    try:
        return Run(args.model, program)
    except Fault as fault:
        raise Fault(str(fault).replace(args.model, args.label), fault.lines, fault.status) from fault


class Lines:
    """The lines of rows: one by one, or in blocks of bytes."""

    def __init__(self, stream: IO[bytes]) -> None:
        self.stream = stream
        self.first: List[bytes] = []

    def begin(self, count: int) -> List[str]:
        """The first lines, which are read again later."""
        while len(self.first) < count:
            line = self.stream.readline()
            if not line:
                break
            self.first.append(line)
        return [line.decode("ascii", "replace") for line in self.first[:count]]

    def __iter__(self) -> Iterator[str]:
        first, self.first = self.first, []
        for line in first:
            yield line.decode("ascii", "replace")
        text = io.TextIOWrapper(self.stream, encoding="ascii", errors="replace", newline="\n")
        try:
            yield from text
        finally:
            with contextlib.suppress(ValueError):  # (the stream is closed already)
                text.detach()

    def blocks(self) -> Iterator[bytes]:
        """Blocks of whole lines; only the last line of the last one may have no end."""
        kept, self.first = b"".join(self.first), []
        while True:
            more = self.stream.read(BLOCK)
            end = more.rfind(b"\n") + 1
            if end:
                yield kept + more[:end]
                kept = more[end:]
            elif more:
                kept += more
            else:
                break
        if kept:
            yield kept


@contextlib.contextmanager
def lines_of(args: argparse.Namespace, run: Run) -> Iterator[Tuple[Lines, str]]:
    """The lines of the rows that were asked for, and a name for faults. The run then has the order of the rows."""
    if args.rows is None:
        with run_lines(args, run) as lines:
            yield ordered(lines, run), "the run of " + args.model
    elif args.rows == "-":
        yield ordered(Lines(sys.stdin.buffer), run), "standard input"
    else:
        with opened(args.rows) as file:
            yield ordered(Lines(file), run), args.rows


def ordered(lines: Lines, run: Run) -> Lines:
    """The lines, after the run has their order: a run of second order has a row `slope` after its first start row."""
    first = lines.begin(3)
    run.use_order(2 if len(first) == 3 and first[2].split(",")[1:2] == ["slope"] else 1)
    return lines


def opened(name: str) -> IO[bytes]:
    """A file of rows."""
    try:
        return open(name, "rb")
    except OSError as error:
        raise unreadable(name, error) from error


@contextlib.contextmanager
def run_lines(args: argparse.Namespace, run: Run) -> Iterator[Lines]:
    """The lines that the program writes; a run that is refused or fails is a fault."""
    options = ["--rule", args.rule] if args.rule else []
    options += ["--relative", args.relative] if args.relative else []
    if options and args.order == 2:
        raise Fault("a run of second order has no --rule and no --relative")
    if args.order == 2 and run.flat.clauses():
        label = getattr(args, "label", args.model)
        raise Fault("%s: a run of second order takes models without 'when' clauses" % label)
    arguments = ["run2" if args.order == 2 else "run", args.model, *options]
    with start(run.program, arguments, stdout=subprocess.PIPE, stderr=subprocess.PIPE) as process:
        assert process.stdout is not None and process.stderr is not None
        widen(process.stdout)
        lines = Lines(process.stdout)
        if not lines.begin(1):
            line = process.stderr.read().decode("utf-8", "replace").strip()
            label = getattr(args, "label", args.model)
            raise Fault("%s: %s%s" % (label, line or "no rows", way_to_place(args.model)))
        try:
            yield lines
        except BaseException:
            process.kill()
            raise


def widen(pipe: IO[bytes]) -> None:
    """Makes a pipe hold a block, if the system allows it. So the program computes rows while others are read."""
    with contextlib.suppress(ImportError, OSError):
        from fcntl import fcntl

        fcntl(pipe.fileno(), SET_PIPE_SIZE, BLOCK)


class Rows:
    """Each row as (tick, event, name, level, state), the last two whole numbers or None.

    Rows that are not of this model are a fault. Rows that end too early are one too, unless they may be cut: then `cut`
    says where they end. Of a run of second order the values of discrete variables are in the finer units too. If the
    rows are trusted, their states are not compared with the trajectories.
    """

    def __init__(
        self, run: Run, lines: Iterable[str], name: str, may_be_cut: bool = False, trusted: bool = False
    ) -> None:
        self.run, self.trusted = run, trusted
        self.may_be_cut = may_be_cut
        self.cut = ""
        self.lines = lines
        self.name = name
        self.number = 1
        self.tick = 0
        self.event = "start"

    def fault(self, text: str, *values: object) -> Fault:
        return Fault("%s: line %d%s" % (self.name, self.number, text % values))

    def ends_early(self, text: str) -> None:
        self.cut = "%s: %s" % (self.name, text)
        if not self.may_be_cut or self.tick == 0 and self.event in ("start", "slope"):
            raise Fault(self.cut)

    def __iter__(self) -> Iterator[Row]:
        lines = iter(self.lines)
        self.check_header(next(lines, None))
        yield from self.following(lines)

    def blocks(self) -> Iterator[bytes]:
        """The rows in blocks of bytes, without the first line of names."""
        lines = self.lines
        blocks = lines.blocks() if isinstance(lines, Lines) else iter(["".join(lines).encode("ascii", "replace")])
        header = HEADER.encode()
        first = next(blocks, b"")
        self.check_header(HEADER if first.startswith(header) else None)
        if len(first) > len(header):
            yield first[len(header) :]
        yield from blocks

    def check_header(self, line: Optional[str]) -> None:
        """The first line has the names of the fields."""
        if line != HEADER:
            raise Fault("%s: not the rows of a run: the first line is not '%s'" % (self.name, HEADER.strip()))

    def following(self, lines: Iterable[str]) -> Iterator[Row]:
        """The rows of further lines, which are the last ones."""
        names, states = self.run.names, self.run.flat.states
        is_second = self.run.order == 2
        for line in lines:
            self.number += 1
            if line[-1] != "\n":
                self.ends_early("the rows end in the middle of line %d" % self.number)
                return
            row = self.fields(line)
            tick, event, variable, level, state = row
            if is_second and level is not None and names.get(variable, 0) >= states:
                row = tick, event, variable, level << SECOND_BITS, state
                level = row[3]
            # A row of a level is what nearly all of them are.
            if (
                event != "level"
                or self.event not in AMID
                or tick < self.tick
                or variable not in names
                or level is None
                or state is None
            ):
                self.check(row)
            self.tick, self.event = tick, event
            yield row
        self.finish()

    def finish(self) -> None:
        """The rows are at their end: that of the run too."""
        if self.event not in ("end", "overflow"):
            self.ends_early("the rows end before the run does, after line %d" % self.number)

    def fields(self, line: str) -> Row:
        try:
            tick, event, variable, level, state = line[:-1].split(",")
            return int(tick), event, variable, int(level) if level else None, int(state) if state else None
        except ValueError as error:
            raise self.fault(" is not a row") from error

    def check(self, row: Row) -> None:
        """Looks at a row of any kind, and at its place among the others."""
        tick, event, variable, level, state = row
        run = self.run
        if event not in EVENTS:
            raise self.fault(" is not a row")
        if event != "when" and variable not in run.names:
            raise self.fault(" names '%s', which %s does not have: the rows are of another model", variable, run.model)
        if (level is not None, state is not None) != self.shape(event, variable):
            raise self.fault(" is not a row")
        if (
            tick < self.tick
            or event not in FOLLOWING[self.event]
            or (tick == 0) != (event == "start")
            and event not in ("end", "overflow", "slope")
            or event == "slope"
            and run.order == 1
        ):
            raise self.fault(" is out of order")
        if event == "start" and (level, state) != run.start_fields(run.names[variable]):
            raise self.fault(
                ": %s does not start so in %s: the rows are of another model or other settings", variable, run.model
            )
        if event == "end" and tick != run.last:
            raise self.fault(": the run of %s ends at tick %d: the rows are of other settings", run.model, run.last)

    def shape(self, event: str, variable: str) -> Tuple[bool, bool]:
        """Whether a row has a level, and whether it has a state."""
        if event in ("when", "overflow"):
            return False, False
        if event == "slope":
            return True, False
        is_state = self.run.names[variable] < self.run.flat.states
        return event != "reinit", event != "set" and is_state


def window_of(args: argparse.Namespace, run: Run, what: str) -> Tuple[Fraction, Fraction]:
    """The times of --from and --to, or those at which the run begins and ends."""
    begin = Fraction(0) if args.begin is None else fraction(args.begin, "--from")
    end = run.flat.settings["StopTime"] if args.end is None else fraction(args.end, "--to")
    if begin < end or not run.last:
        return begin, end
    if args.begin is not None and args.end is not None:
        raise Fault("--from %s is not before --to %s" % (args.begin, args.end))
    if args.begin is None:
        raise Fault("there is nothing to %s: --to %s is not after the start of the run" % (what, args.end))
    raise Fault(
        "there is nothing to %s: --from %s is not before the end of the run at %s" % (what, args.begin, float(end))
    )


def fraction(text: str, what: str) -> Fraction:
    """A decimal or a quotient, as an exact number."""
    try:
        return Fraction(text)
    except (ValueError, ZeroDivisionError) as error:
        raise Fault("%s: '%s' is not a number" % (what, text)) from error
