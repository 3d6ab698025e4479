"""What a page computes of a run after it is drawn: a table of measures, and the certified band."""
import os
from argparse import Namespace
from fractions import Fraction
from typing import Any, Dict, List, NamedTuple, Optional, Sequence, Tuple

from ..fault import Fault, read_bytes
from ..model.source import Source
from ..model.units import variable_units, written_time_unit
from ..runs.measures import Request, requests
from ..runs.expressions import split_outside
from ..runs.quadratics import Line, check_name, value_of
from ..runs.rows import Rows, Run, lines_of
from ..studies import certificate
from ..tables.measure import lines_by_name, number_of, unit_of
from .drawn import LivePlot, View
from .runs import Done

KINDS = ("min", "mean", "max", "ripple", "final")  # the columns of the table
MOST_NAMES = 12  # rows of the table
Json = Dict[str, Any]


class Units(NamedTuple):
    """The units that a source gives its variables and its time."""

    variables: Dict[str, str]
    time: Optional[str]


def units_of(source: str) -> Units:
    """The units of a file."""
    return Units(variable_units(source), written_time_unit(Source(source, read_bytes(source))))


def value_or_reason(one: Request, lines: Dict[str, Line]) -> Tuple[Optional[float], str]:
    """The value of a measure, or why there is none."""
    try:
        return float(value_of(one, lines[one.variable])), ""
    except Fault as fault:
        return None, str(fault)


def asked_measures(run: Run, text: str, unit: str) -> Tuple[List[Request], List[Tuple[str, str]]]:
    """The measures of a text, and each part that is none of this model, with the reason."""
    found: List[Request] = []
    wrong: List[Tuple[str, str]] = []
    try:
        parts = [(one.text, [one]) for one in requests(text, unit)] if text.strip() else []
    except Fault:
        parts = [(part, []) for part in split_outside(text.strip(), " ") if part.strip(",;")]
    for part, known in parts:
        try:
            some = known or requests(part, unit)
            for one in some:
                check_name(run, one.variable, number_of)
            found += some
        except Fault as fault:
            wrong.append((part, str(fault)))
    return found, wrong


class Measured:
    """The measures of a run, from its rows."""

    def __init__(self, done: Done, source: str) -> None:
        self.done, self.units = done, units_of(source)

    def lines(self, names: Sequence[str]) -> Dict[str, Line]:
        """The trajectories of variables and expressions."""
        run = self.done.run
        with lines_of(Namespace(model=self.done.path, rows=self.done.rows), run) as (lines, name):
            return lines_by_name(run, Rows(run, lines, name, may_be_cut=True), names)[0]

    def table(self, names: Sequence[str], window: Optional[Tuple[str, str]]) -> List[Json]:
        """For each name the measures of the table, in a window of time."""
        names = list(dict.fromkeys(names))[:MOST_NAMES]
        options = {} if window is None else {"from": Fraction(window[0]), "to": Fraction(window[1])}
        lines = self.lines(names) if names else {}
        found = []
        for name in names:
            values = [value_or_reason(Request("", kind, name, options), lines)[0] for kind in KINDS]
            unit = self.units.variables.get(name.split("[")[0], "")
            found.append({"name": name, "unit": unit, "values": values})
        return found

    def asked(self, text: str) -> List[Json]:
        """The measures of a text, each with its value and unit or why it has none."""
        found, wrong = asked_measures(self.done.run, text, self.units.time or "s")
        lines = self.lines(list(dict.fromkeys(one.variable for one in found))) if found else {}
        answers = []
        for one in found:
            value, reason = value_or_reason(one, lines)
            unit = unit_of(one, self.units.variables, self.units.time)
            answers.append({"text": one.text, "value": value, "unit": unit, "reason": reason})
        return answers + [{"text": part, "value": None, "unit": "", "reason": why} for part, why in wrong]


def bands_of(done: Done, source: str, view: View, program: str) -> List[Json]:
    """The certified bands of a run. A model without a certificate is a fault."""
    path = os.path.join(os.path.dirname(done.path), "found.cert")
    if not os.path.exists(path):
        certificate(done.path, program=program).write(path)
    return LivePlot(done, source, view, path).bands_json()
