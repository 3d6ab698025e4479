"""The tool solution-to-trace: writes a solution of another program as a trace."""
import csv
import sys
from fractions import Fraction
from typing import Iterable, Iterator, List, Optional, Sequence, Tuple

from ..fault import FINE, Arguments, Fault, run_tool, unreadable
from ..output import Output
from ..program import add_program_option
from ..runs.rows import run_of
from .affine import Affine
from .traces import MOST_FACTOR, Trace

ABOUT = """A solution of another program as a quantized trace.

  tools/solution-to-trace MODEL SOLUTION -o other.trace

SOLUTION is a file for csv: a line `time,NAME,..` with the names of all states, and a line for each time, at equal
steps from 0. The step is a tick divided by a whole number, or a whole number of ticks. The level of a place is nearest
to the solution's mean over the step, and what rounding leaves over is carried on; the states are then the one run that
these levels give. The quanta are the least that the trace keeps. Status: 0 all was written, 2 a fault: nothing was
written, and the line says why the solution has no trace."""


def tool(arguments: Sequence[str]) -> int:
    parser = Arguments(prog="solution-to-trace", description=ABOUT)
    parser.add_argument("model", help="the model that was solved")
    parser.add_argument("solution", help="the file with its solution")
    parser.add_argument(
        "--finer", metavar="N", type=int, default=1, help="levels N times finer than the model's (default: 1)"
    )
    add_program_option(parser)
    parser.add_argument("-o", "--output", metavar="FILE", help="the file to write (default: standard output)")
    args = parser.parse_args(arguments)
    run = run_of(args)
    system = Affine(run)
    times, values = read_solution(args.solution, system.names)
    refine, every = steps_of(args.solution, times, Fraction(1, 2**run.units.time))
    if args.finer < 1 or args.finer * refine > MOST_FACTOR:
        raise Fault("--finer: %d times the %d places of a tick is not from 1 to %d" % (args.finer, refine, MOST_FACTOR))
    with Output(args.output) as output:
        trace = trace_of_solution(system, between(values, every), refine, args.finer)
        output.write(trace.text(trace.least_quanta([1] * system.states)))
    return FINE


def read_solution(name: str, names: Sequence[str]) -> Tuple[List[Fraction], List[List[Fraction]]]:
    """The times, and the values of the states at each."""
    try:
        with open(name, encoding="utf-8-sig", newline="") as file:
            lines = [line for line in csv.reader(file) if line]
    except (OSError, UnicodeDecodeError, csv.Error) as error:
        raise unreadable(name, error) if isinstance(error, OSError) else Fault("%s: no text for csv" % name) from error
    head = lines[0] if lines else []
    missing = [one for one in ["time", *names] if one not in head]
    if missing:
        raise Fault("%s: there is no column '%s'" % (name, missing[0]))
    places = [head.index(one) for one in ["time", *names]]
    found = []
    for number, line in enumerate(lines[1:], 2):
        try:
            found.append([Fraction(line[place].strip()) for place in places])
        except (ValueError, IndexError, ZeroDivisionError) as error:
            raise Fault("%s: line %d is no line of numbers" % (name, number)) from error
    if len(found) < 2:
        raise Fault("%s: a solution has at least two lines of numbers" % name)
    return [line[0] for line in found], [line[1:] for line in found]


def steps_of(name: str, times: Sequence[Fraction], tick: Fraction) -> Tuple[int, int]:
    """How many places a tick has, and how many there are between two lines: the step is tick / places, or a whole
    number of ticks.
    """
    step = (times[-1] - times[0]) / (len(times) - 1)
    # Times are printed with few digits, so a step counts as equal where it is so to a thousandth.
    if times[0] or step <= 0 or any(abs(time - number * step) > step / 1000 for number, time in enumerate(times)):
        raise Fault("%s: the times are not at equal steps from 0" % name)
    for count, quotient in ((round(tick / step), tick / step), (round(step / tick), step / tick)):
        if count >= 1 and abs(quotient - count) <= Fraction(count, 1000 * len(times)):
            refine, every = (count, 1) if quotient == tick / step else (1, count)
            if refine > MOST_FACTOR:
                raise Fault("%s: a tick has at most %d places, and the step asks for %d" % (name, MOST_FACTOR, refine))
            return refine, every
    raise Fault(
        "%s: the step %g is no whole part of a tick of %g, nor a whole number of them: QSS_TickBits or the step "
        "must change" % (name, float(step), float(tick))
    )


def between(values: Sequence[Sequence[Fraction]], every: int) -> Iterator[Sequence[Fraction]]:
    """The values with `every` steps between two lines, on the line between them."""
    for first, second in zip(values, values[1:]):
        for part in range(every):
            yield [one + (other - one) * part / every for one, other in zip(first, second)]
    yield values[-1]


def trace_of_solution(system: Affine, values: Iterable[Sequence[Fraction]], refine: int, finer: int) -> Trace:
    """The run whose levels follow a solution: in units refine times finer levels are multiples of refine, so each rise
    is whole.
    """
    scale = refine * finer
    fineness = 2**system.level_bits * finer
    trace = Trace(system, scale, refine)
    states, over = [scale * start for start in system.starts], [Fraction(0)] * system.states
    values = iter(values)
    now: Optional[Sequence[Fraction]] = next(values)
    while now is not None:
        later = next(values, None)
        wanted = [(one + other) / 2 * fineness + rest for one, other, rest in zip(now, later or now, over)]
        whole = [round(one) for one in wanted]
        over = [one - level for one, level in zip(wanted, whole)]
        trace.add(states, [refine * level for level in whole])
        states = [one + rise for one, rise in zip(states, system.rises(whole, finer))]
        now = later
    return trace


def main(arguments: Optional[Sequence[str]] = None) -> int:
    """Runs the tool and returns its status."""
    return run_tool("solution-to-trace", tool, arguments)


if __name__ == "__main__":
    sys.exit(main())
