"""The tool qss-measure: measures a run."""
import csv
import io
import sys
from typing import Any, Dict, Iterable, List, Optional, Sequence, Tuple

from ..advice.warn import add_advice_option, warn
from ..fault import FINE, WARNED, Arguments, Fault, read_bytes, run_tool
from ..model.source import Source
from ..model.units import checked_unit, time_unit, variable_units, written_time_unit
from ..output import Output
from ..runs.columns import matching
from ..runs.expressions import no_variable
from ..runs.measures import MEASURES, TIME, VALUE, Request, requests
from ..runs.quadratics import Line, check_name, lines_of_names, value_of
from ..runs.rows import Rows, Run, add_run_options, lines_of, run_of
from ..runs.steady import add_all_values_option
from ..runs.curves import trajectories
from ..runs.trajectories import Combination, Trajectory
from .table import overflow_text

ABOUT = """Measures of a run, weighted by time. They are exact: a state is a piecewise linear function of time, which is
computed from the rows and the model.

  tools/qss-measure MODEL ROWS 'mean(iL) rms(iL) ripple(uC, from=4) mean(uC, from=9.5ms)'
  tools/qss-measure MODEL 'rise(y) overshoot(y)' --set R=10      runs the model with another value of R
  tools/qss-measure MODEL 'duty(s) period(s) thd(u, f=50)' --csv

Measures, each of a state, a discrete variable, an algebraic variable or an expression of them and of parameters, as
mean(uC*iL), rms(uC - u0) or mean(Vin*s*iL). Parameters have the values of --set. Of a product of two states there are
mean, integral, at, start and final:
  mean, rms, min, max, ripple (max - min), start, final, at(x, t=), integral
  rise        time from 10 % to 90 % of the step from the first value to the last (low=, high=, initial=, final=)
  overshoot   how far the value passes the last one, relative to the step (initial=, final=)
  settling    time after which the value stays within 2 % of the step (band=, initial=, final=)
  duty        fraction of time at the level or above it, over whole periods (level=, default: half way from min to max)
  period, frequency, count     of the upward crossings of the level (level=)
  harmonic    amplitude of harmonic n= (default: 1) of the frequency f=, over the last whole periods
  thd         harmonics 2 to n= (default: 40) of the frequency f=, relative to the first
Each has from= and to=, two times in the model's unit of time or with a unit, as from=9.5ms. A frequency is in periods
per unit of time.
Of a run of second order the levels are measured, which move along lines.
The averages mean, rms, integral, duty, harmonic and thd count every value. The other measures leave out a value of a
discrete variable that holds for one tick only, between values that hold for longer, unless --all-values is there.

Status: 0 all was measured, 1 the run overflowed (it was measured up to there), 2 a fault: nothing was written."""

DIGITS = "%.12g"

Overflow = Optional[Tuple[int, str]]  # of a run: its tick and the name of the variable


def number_of(run: Run, name: str) -> int:
    """The number of the one variable with this name."""
    found = matching(run.flat, name)
    if not found:
        raise no_variable(run, name)
    if len(found) > 1:
        some = ", ".join(run.flat.variables[number].name for number in found[:3])
        raise Fault("'%s' is more than one variable of %s: %s .." % (name, run.model, some))
    return found[0]


def lines_by_name(
    run: Run, rows: Rows, names: Sequence[str], all_values: bool = False
) -> Tuple[Dict[str, Line], Overflow]:
    """The trajectory of each variable by its name, and the overflow of the run."""
    ends: List[Overflow] = []

    def compute(numbers: List[int], sums: Dict[int, Combination]) -> List[Trajectory]:
        found, overflow = trajectories(run, rows, numbers, all_values, sums)
        ends.append(overflow)
        return found

    return lines_of_names(run, names, compute, number_of), ends[0]


def values_of(run: Run, rows: Rows, asked: Sequence[Request], all_values: bool) -> Tuple[List[Any], Overflow]:
    """The values of measures, and the tick and the name of an overflow or None."""
    found, overflow = lines_by_name(run, rows, list(dict.fromkeys(one.variable for one in asked)), all_values)
    try:
        return [value_of(one, found[one.variable]) for one in asked], overflow
    except Fault as fault:
        if overflow is None:
            raise
        raise Fault("%s; %s" % (overflow_text(overflow, run), fault)) from fault


def unit_of(one: Request, units: Dict[str, str], time_unit: Optional[str]) -> str:
    """The unit of a measure, or an empty text."""
    kind = MEASURES[one.name].kind
    if kind == VALUE:
        return units.get(one.variable.split("[")[0], "")
    return (time_unit or "") if kind == TIME else ""


def csv_line(fields: Iterable[object]) -> str:
    """A line of CSV."""
    text = io.StringIO()
    csv.writer(text, lineterminator="\n").writerow(fields)
    return text.getvalue()


def number_text(value: Any) -> str:
    return DIGITS % float(value)


def tool(arguments: Sequence[str]) -> int:
    parser = Arguments(prog="qss-measure", description=ABOUT)
    add_run_options(parser)
    parser.add_argument("measures", help="what to measure, as 'mean(iL) ripple(uC, from=4)'")
    parser.add_argument("--csv", action="store_true", help="a line of names and a line of values")
    parser.add_argument("--unit", help="the model's unit of time, to print it")
    add_all_values_option(parser)
    parser.add_argument("-o", "--output", metavar="FILE", help="the file to write (default: standard output)")
    add_advice_option(parser)
    args = parser.parse_intermixed_args(arguments)
    source = Source(args.model, read_bytes(args.model))
    asked = requests(args.measures, checked_unit(args.unit) or time_unit(source))
    run = run_of(args)
    for one in asked:
        check_name(run, one.variable, number_of)
    warn(args, run, "qss-measure")
    with lines_of(args, run) as (lines, name):
        values, overflow = values_of(run, Rows(run, lines, name), asked, args.all_values)
    units = variable_units(args.source)
    time = args.unit or written_time_unit(source)
    with Output(args.output) as output:
        if args.csv:
            output.write(csv_line([one.text for one in asked]) + csv_line([number_text(value) for value in values]))
        else:
            width = max(len(one.text) for one in asked)
            for one, value in zip(asked, values):
                line = "%s  %s %s" % (one.text.ljust(width), number_text(value), unit_of(one, units, time))
                output.write(line.rstrip() + "\n")
    if overflow:
        print("qss-measure: %s" % overflow_text(overflow, run), file=sys.stderr)
    return WARNED if overflow else FINE


def main(arguments: Optional[Sequence[str]] = None) -> int:
    """Runs the tool and returns its status."""
    return run_tool("qss-measure", tool, arguments, numeric=True)


if __name__ == "__main__":
    sys.exit(main())
