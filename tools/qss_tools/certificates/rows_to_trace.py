"""The tool rows-to-trace: writes the rows of a run as a trace."""
import sys
from typing import Optional, Sequence

from ..fault import FINE, Arguments, Fault, run_tool
from ..output import Output
from ..runs.rows import Rows, add_run_options, lines_of, run_of
from .affine import Affine
from .traces import Trace

ABOUT = """The rows of a run as a trace: a place for each tick, in the machine's own units.

  tools/rows-to-trace MODEL ROWS -o run.trace     the rows of `qss run MODEL`
  tools/rows-to-trace MODEL -o run.trace          runs the model first

A state between its rows is taken from the levels by the model's own whole numbers, and compared with the rows.
The quanta are the model's, or the least that the run keeps, where a share of the level made them greater.
Status: 0 all was written, 2 a fault: nothing was written."""


def tool(arguments: Sequence[str]) -> int:
    parser = Arguments(prog="rows-to-trace", description=ABOUT)
    add_run_options(parser)
    parser.add_argument("-o", "--output", metavar="FILE", help="the file to write (default: standard output)")
    args = parser.parse_args(arguments)
    run = run_of(args)
    system = Affine(run)
    Trace(system, 1, 1).check_length(run.last + 1)  # before the run begins
    with lines_of(args, run) as (lines, name), Output(args.output) as output:
        trace = trace_of_rows(system, Rows(run, lines, name), name)
        output.write(trace.text(trace.least_quanta(system.quanta)))
    return FINE


def trace_of_rows(system: Affine, rows: Rows, name: str) -> Trace:
    """The trace of a run, tick by tick."""
    trace = Trace(system, 1, 1)
    trace.check_length(rows.run.last + 1)
    number = {state: place for place, state in enumerate(system.names)}
    states, levels, tick = list(system.starts), [0] * system.states, 0
    for at, event, variable, level, state in rows:
        if event == "slope":
            raise Fault(
                "%s: a run of second order has no trace of this form; `qss compare` takes it as 'second'" % name
            )
        if event == "overflow":
            raise Fault("%s: the run overflows at tick %d, and has no trace" % (name, at))
        if variable not in number:
            continue
        while tick < at:
            trace.add(states, list(levels))
            states = [one + rise for one, rise in zip(states, system.rises(levels, 1))]
            tick += 1
        place = number[variable]
        assert level is not None and state is not None
        if state != states[place]:
            raise Fault(
                "%s: the state of %s at tick %d is %d, and its levels give %d: the rows are of another model"
                % (name, variable, at, state, states[place])
            )
        levels[place] = level
    trace.add(states, list(levels))
    return trace


def main(arguments: Optional[Sequence[str]] = None) -> int:
    """Runs the tool and returns its status."""
    return run_tool("rows-to-trace", tool, arguments)


if __name__ == "__main__":
    sys.exit(main())
