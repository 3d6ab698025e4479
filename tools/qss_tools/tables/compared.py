"""Compares a run with measured values, at the times of the values."""
import argparse
import math
import os
from dataclasses import dataclass
from fractions import Fraction
from typing import Any, List, Optional, Sequence, Tuple

from ..arrays import load
from ..runs.quadratics import Line, Quadratic
from ..runs.rows import Rows, Run, lines_of
from .measure import Overflow, lines_by_name
from .measurements import Measured, Measurements


def sampled(line: Line, times: Sequence[float]) -> List[float]:
    """The values of a trajectory, or of a sum of products of trajectories, at some times."""
    if isinstance(line, Quadratic):
        found = sampled(line.linear, times)
        for one, other in line.pairs:
            found = [sum_of + a * b for sum_of, a, b in zip(found, sampled(one, times), sampled(other, times))]
        return found
    numpy = load()
    if numpy is not None and hasattr(line, "sampled"):
        values: List[float] = line.sampled(numpy.asarray(times, dtype=float)).tolist()
        return values
    return [float(line.at(Fraction(time) / line.tick) * line.unit) for time in times]


@dataclass(frozen=True)
class Misfit:
    """How far a run is from the measured values of a variable."""

    variable: str
    unit: str
    count: int
    greatest: float
    time: float  # of the greatest error
    rms: float
    size: float  # the greatest measured value

    def text(self, time_unit: str) -> str:
        """A line of a report."""
        unit = " " + self.unit if self.unit else ""
        share = " (%s of its size)" % share_text(100 * self.rms / self.size) if self.size else ""
        time = "%.6g%s" % (self.time, "" if time_unit == "1" else " " + time_unit)
        return "%s: rms error %.3g%s%s, greatest error %.3g%s at %s; %s" % (
            self.variable,
            self.rms,
            unit,
            share,
            self.greatest,
            unit,
            time,
            counted(self.count, "value"),
        )


def share_text(share: Optional[float]) -> str:
    """A percentage."""
    return "-" if share is None else ("%.2g %%" if share < 100 else "%.0f %%") % share


def counted(count: int, name: str) -> str:
    """A number of things, as '1 value' or '2 values'."""
    return "%s %s%s" % ("{:,}".format(count), name, "" if count == 1 else "s")


def misfit(measured: Measured, values: Sequence[float]) -> Misfit:
    """How far these values of a run are from the measured ones."""
    errors = [value - wanted for value, wanted in zip(values, measured.values)]
    worst = max(range(len(errors)), key=lambda place: abs(errors[place]))
    rms = math.sqrt(math.fsum(error * error for error in errors) / len(errors))
    size = max(abs(value) for value in measured.values)
    return Misfit(measured.variable, measured.unit, len(errors), abs(errors[worst]), measured.times[worst], rms, size)


@dataclass(frozen=True)
class Comparison:
    """How far a run is from measured values."""

    model: str
    data: str
    time_unit: str
    misfits: List[Misfit]
    span: Tuple[float, float]
    outside: int  # values whose times are not within the run
    overflow: Overflow

    def text(self) -> str:
        """The lines of a report."""
        unit = "" if self.time_unit == "1" else " " + self.time_unit
        head = "%s and %s, from %.6g to %.6g%s" % (self.model, self.data, *self.span, unit)
        if self.outside:
            head += "; %s outside of the run" % counted(self.outside, "value")
        return "\n".join([head, *("  " + one.text(self.time_unit) for one in self.misfits)])


def compared(args: argparse.Namespace, run: Run, measurements: Optional[Measurements] = None) -> Comparison:
    """Runs a model, or takes args.rows, and compares it with measured values, up to an overflow."""
    data = measurements or Measurements(args, run)
    found = data.within_run()
    with lines_of(args, run) as (lines, name):
        by_name, overflow = lines_by_name(run, Rows(run, lines, name), [one.variable for one in found])
    if overflow:
        end = max(overflow[0] - 1, 0) / 2**run.units.time
        found = [one.within(0.0, end) for one in found]
        found = [one for one in found if one.values]
    misfits = [misfit(one, sampled(by_name[one.variable], one.times)) for one in found]
    times: List[Any] = [time for one in found for time in (min(one.times), max(one.times))] or [0.0]
    outside = sum(len(one.values) for one in data.found) - sum(one.count for one in misfits)
    name = os.path.basename(data.path)
    return Comparison(args.label, name, data.time_unit, misfits, (min(times), max(times)), outside, overflow)
