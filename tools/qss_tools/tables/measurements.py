"""Measured values: a table (CSV) whose columns are variables of a model over time.

The first line has the names, which may have units: 't [ms],uC [V],iL [A]'. The column of times is named time or t, or
else it is the first one. A unit of time may also be a part of its name, as in t_ms. An empty value, NaN and NA are left
out. Lines that begin with # are comments.
"""
import argparse
import csv
import math
import re
from dataclasses import dataclass
from fractions import Fraction
from typing import Any, Dict, Iterator, List, Optional, Sequence, Tuple

from ..fault import Fault, read_bytes
from ..model.source import Source
from ..model.units import NO_UNIT, checked_unit, plain_unit, time_factor, time_of, time_unit, variable_units
from ..runs.expressions import is_expression
from ..runs.rows import Run

WITH_UNIT = re.compile(r"^(.*?)\s*(?:\[([^][]*[^][\d\s][^][]*)\]|\(([^()]+)\))$")
TIME_NAME = re.compile(r"^(time|t)(?:_(\w+))?$", re.IGNORECASE)
COLUMN = re.compile(r"^(.*)=([^=]*)$")
BRACKETS = re.compile(r"\[[^\]]*\]")
NAME = re.compile(r"[^\W\d]\w*")
SUM = re.compile(r"^[\s()+-]*(?:[^\W\d]\w*[\s()]*(?:[+-][\s()+-]*|$))+$")
MISSING = frozenset(("", "nan", "na", "n/a"))
PREFIXES = {"": 0, "p": -12, "n": -9, "u": -6, "m": -3, "k": 3, "M": 6, "G": 9}
SEPARATORS = ("\t", ";", ",")
NEAR = 1e-9  # of the run's length: by so much a time may be outside of the run
MOST_NAMES = 12  # in a fault


def add_data_options(parser: argparse.ArgumentParser, is_needed: bool = False) -> None:
    """Adds the options that name measured values."""
    what = "measured values (CSV): a column of times, and columns with the names of variables"
    parser.add_argument("--with", dest="data", metavar="DATA", required=is_needed, help=what)
    parser.add_argument(
        "--column",
        action="append",
        default=[],
        metavar="NAME=COLUMN",
        help="the column of DATA for a variable, or for an expression, if the names differ",
    )
    parser.add_argument("--shift", metavar="TIME", help="add this to the times of DATA, as 1.5ms (--shift=-1.5ms)")


def named(text: str) -> Tuple[str, str]:
    """The name and the unit of a column."""
    text = text.strip()
    match = WITH_UNIT.match(text)
    if match is None:
        return text, ""
    return match.group(1).strip(), plain_unit(match.group(2) or match.group(3))


def unit_factor(unit: str, other: str) -> Optional[float]:
    """How many of the other unit one of this unit is, if both are the same but for a prefix as m or k."""
    if unit == other:
        return 1.0
    for prefix, power in PREFIXES.items():
        for second, less in PREFIXES.items():
            base = unit[len(prefix) :]
            if unit.startswith(prefix) and other.startswith(second) and base and base == other[len(second) :]:
                return float(Fraction(10) ** (power - less))
    return None


@dataclass(frozen=True)
class Cells:
    """A table as it is written: names with units, and the texts of each line with its number."""

    path: str
    number: int  # of the line with the names
    heads: List[Tuple[str, str]]
    lines: List[Tuple[int, List[str]]]
    has_commas: bool  # in its numbers

    def fault(self, line: int, text: str) -> Fault:
        return Fault("%s: line %d: %s" % (self.path, line, text))

    def value(self, line: int, text: str) -> Optional[float]:
        """The number of a cell, or None if it is missing."""
        text = text.strip()
        if text.lower() in MISSING:
            return None
        try:
            found = float(text.replace(",", ".") if self.has_commas else text)
        except ValueError:
            found = math.inf
        if not math.isfinite(found):
            raise self.fault(line, "'%s' is not a number" % text[:40])
        return found

    def time_place(self) -> int:
        """The place of the column of times."""
        places = [place for place, (name, _) in enumerate(self.heads) if TIME_NAME.match(name)]
        exact = [place for place in places if self.heads[place][0].lower() in ("time", "t")]
        return [*exact, *places, 0][0]


def cells_of(path: str) -> Cells:
    """Reads a table."""
    data = read_bytes(path)
    try:
        text = data.decode("utf-8-sig")
    except UnicodeDecodeError:
        text = data.decode("latin-1")
    lines = text.splitlines()
    begin = next((place for place, line in enumerate(lines) if is_text(line)), None)
    if begin is None:
        raise Fault("%s: the file is empty: its first line has names, as 't [ms],v [V]'" % path)
    separator = next((one for one in SEPARATORS if one in lines[begin]), ",")
    heads = [named(one) for one in next(csv.reader([lines[begin]], delimiter=separator), [])]
    found = Cells(path, begin + 1, heads, [], separator != ",")
    try:
        found.lines.extend(filled(lines, begin + 1, separator))
    except csv.Error as error:
        raise Fault("%s: this is not a table (CSV): %s" % (path, error)) from error
    check(found)
    return found


def is_text(line: str) -> bool:
    return bool(line.strip()) and not line.lstrip().startswith("#")


def filled(lines: Sequence[str], begin: int, separator: str) -> Iterator[Tuple[int, List[str]]]:
    """The cells of each line that has some, with its number."""
    kept = [(place, line) for place, line in enumerate(lines[begin:], begin + 1) if is_text(line)]
    for (number, _), cells in zip(kept, csv.reader((line for _, line in kept), delimiter=separator)):
        if any(cell.strip() for cell in cells):
            yield number, cells


def check(cells: Cells) -> None:
    """The names are names, each once, and each line has a cell for each name at most."""
    names = [name for name, _ in cells.heads]
    if all(is_number(name) for name in names):
        raise cells.fault(cells.number, "the names of the columns are missing, as 't [ms],v [V]'")
    double = next((name for name in names if name and names.count(name) > 1), None)
    if double is not None:
        raise cells.fault(cells.number, "the name '%s' is there twice" % double)
    for number, line in cells.lines:
        if len(line) > len(names) and any(one.strip() for one in line[len(names) :]):
            raise cells.fault(number, "%d values, and there are %d names" % (len(line), len(names)))
    if not cells.lines:
        raise Fault("%s: there are no values below line %d" % (cells.path, cells.number))


def is_number(text: str) -> bool:
    try:
        float(text.replace(",", "."))
    except ValueError:
        return False
    return True


@dataclass(frozen=True)
class Measured:
    """The measured values of a variable or an expression, with their times in the model's unit of time."""

    variable: str
    unit: str
    times: List[float]
    values: List[float]

    def within(self, begin: float, end: float) -> "Measured":
        """The values between two times. A time that is outside by rounding only is moved to the end."""
        near = NEAR * (end - begin)
        kept = [pair for pair in zip(self.times, self.values) if begin - near <= pair[0] <= end + near]
        times = [min(max(time, begin), end) for time, _ in kept]
        return Measured(self.variable, self.unit, times, [value for _, value in kept])


class Measurements:
    """What of a file of measured values belongs to a model."""

    def __init__(self, args: argparse.Namespace, run: Run) -> None:
        """Takes the options of `add_data_options`, and args.source, the model that was given."""
        self.path, self.run = args.data, run
        source = Source(args.source, read_bytes(args.source))
        self.time_unit = checked_unit(getattr(args, "unit", None)) or time_unit(source)
        self.units = variable_units(args.source)
        self.shift = Fraction(0) if args.shift is None else time_of(args.shift, self.time_unit)
        self.cells = cells_of(self.path)
        self.time = self.cells.time_place()
        self.places = self._places(args.column)
        self.notes: List[str] = []  # on units that are not known
        self.found = self._found()

    def _places(self, words: Sequence[str]) -> Dict[str, int]:
        """The place of the column of each variable."""
        from ..runs.quadratics import check_name
        from .measure import number_of

        names = [name for name, _ in self.cells.heads]
        flat = self.run.flat
        found: Dict[str, int] = {}
        for word in words:
            match = COLUMN.match(word)
            if match is None:
                raise Fault("--column: '%s' is not NAME=COLUMN" % word)
            variable, column = match.group(1).strip(), match.group(2).strip()
            if variable in found:
                raise Fault("--column: '%s' is given twice" % variable)
            if column not in names:
                raise Fault("--column: %s has no column '%s' (columns: %s)" % (self.path, column, listed(names)))
            check_name(self.run, variable, number_of)
            if not is_expression(variable):
                variable = flat.variables[number_of(self.run, variable)].name
            found[variable] = names.index(column)
        taken = {self.time, *found.values()}
        for place, name in enumerate(names):
            if place not in taken and name in flat.numbers and name not in found:
                found[name] = place
        if not found:
            raise self.cells.fault(
                self.cells.number,
                "no column is a variable of %s (columns: %s; variables: %s); --column %s=%s names one"
                % (self.run.model, listed(names), listed([one.name for one in flat.variables]), "NAME", "COLUMN"),
            )
        return found

    def unit_of(self, variable: str) -> str:
        """The unit of a variable, or of a sum of variables of one unit."""
        plain = BRACKETS.sub("", variable)
        found = {self.units.get(name, "") for name in NAME.findall(plain)}
        return found.pop() if len(found) == 1 and SUM.match(plain) else ""

    def _found(self) -> List[Measured]:
        """The values of each variable."""
        name, unit = self.cells.heads[self.time]
        match = TIME_NAME.match(name)
        unit = unit or plain_unit((match.group(2) if match else None) or "")
        factor = time_factor(unit, self.time_unit)
        if factor is None:
            where = "has no unit" if self.time_unit == NO_UNIT else "is in %s" % self.time_unit
            raise self.cells.fault(
                self.cells.number, "the times are in '%s', and the time of %s %s" % (unit, self.run.model, where)
            )
        columns = [(variable, place, self._factor(variable, place)) for variable, place in self.places.items()]
        found = [Measured(variable, self._unit(variable, place), [], []) for variable, place, _ in columns]
        scale, shift = float(factor), float(self.shift)
        for number, line in self.cells.lines:
            time = self.cells.value(number, line[self.time]) if self.time < len(line) else None
            if time is None:
                raise self.cells.fault(number, "the time is missing")
            for one, (_, place, of_value) in zip(found, columns):
                value = self.cells.value(number, line[place]) if place < len(line) else None
                if value is not None:
                    one.times.append(time * scale + shift)
                    one.values.append(value * of_value)
        empty = next((one.variable for one in found if not one.values), None)
        if empty is not None:
            name = self.cells.heads[self.places[empty]][0]
            raise self.cells.fault(self.cells.number, "the column '%s' has no values" % name)
        return found

    def _unit(self, variable: str, place: int) -> str:
        """The unit of measured values: that of the model, if it states one."""
        return self.unit_of(variable) or self.cells.heads[place][1]

    def _factor(self, variable: str, place: int) -> float:
        """From the unit of a column to that of its variable."""
        name, unit = self.cells.heads[place]
        wanted = plain_unit(self.unit_of(variable))
        if unit and not wanted and is_expression(variable):
            note = "the unit of %s is not known: taken as %s, that of the column '%s'"
            self.notes.append(note % (variable, unit, name))
        factor = unit_factor(unit, wanted) if unit and wanted else 1.0
        if factor is None:
            raise self.cells.fault(
                self.cells.number, "the column '%s' is in %s, and %s is in %s" % (name, unit, variable, wanted)
            )
        return factor

    def within_run(self, early: float = 0.0, late: float = 0.0) -> List[Measured]:
        """The values whose times are within the run, also if they are moved by -early or by late."""
        begin, end = early, float(self.run.flat.settings["StopTime"]) - late
        found = [one.within(begin, end) for one in self.found]
        empty = next((one.variable for one in found if not one.values), None)
        if empty is not None:
            raise Fault(
                "%s: no time of the values of %s is within the run of %s, from %g to %g (--shift moves the times)"
                % (self.path, empty, self.run.model, begin, end)
            )
        return found


def listed(names: Sequence[Any]) -> str:
    """Some names for a fault."""
    return ", ".join(names[:MOST_NAMES]) + (", .." if len(names) > MOST_NAMES else "")
