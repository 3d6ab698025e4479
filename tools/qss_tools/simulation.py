"""Runs from Python: a model is run once, and its tables, frames, measures and pictures follow from the rows.

docs/PYTHON.md describes this module. Only frames need a package, pandas. Pictures use matplotlib or plotly if they are
installed.
"""
import argparse
import contextlib
import html
import io
import os
import shutil
import subprocess
import tempfile
import weakref
from fractions import Fraction
from typing import Any, ContextManager, Dict, Iterable, List, Mapping, NamedTuple, Optional, Sequence, Tuple, Union

from .arrays import load
from .fault import Fault, read_bytes
from .model.changes import shown, value_text, write_changed
from .model.source import Source
from .model.units import NO_UNIT, time_unit
from .plot import plot
from .plot.differences import Difference
from .program import OVERFLOWED, canonical_text, find_program
from .runs.columns import chosen, columns_of
from .runs.measures import Request, measured, requests
from .runs.quadratics import check_name, lines_of_names, value_of
from .runs.rows import Rows, Run, exact, lines_of
from .runs.curves import trajectories
from .runs.trajectories import Combination, Trajectory
from .sweeps.clusters import by_dask, by_processes, processors
from .sweeps.grids import MOST_POINTS, Points
from .sweeps.jobs import Job
from .tables import table
from .tables.measure import number_of

ROW_TYPES = {"tick": "int64", "event": "category", "name": "category", "level": "Int64", "state": "string"}

FilePath = Union[str, "os.PathLike[str]"]
Names = Union[str, Sequence[str]]


class Simulation:
    """A run of a model. Its rows are kept in a temporary file as long as the object lives."""

    def __init__(
        self,
        model: FilePath,
        set: Optional[Mapping[str, Any]] = None,
        rule: Optional[str] = None,
        relative: Optional[int] = None,
        rows: Optional[FilePath] = None,
        program: Optional[str] = None,
        order: int = 1,
    ) -> None:
        if order not in (1, 2):
            raise Fault("order: 1 or 2")
        if order == 2 and (rule or relative is not None):
            raise Fault("a run of second order has no rule and no relative quantum")
        self.model, self.values = os.fspath(model), dict(set or {})
        self.program = find_program(program)
        self._folder = tempfile.mkdtemp(prefix="qss-")
        self._finalizer = weakref.finalize(self, shutil.rmtree, self._folder, True)
        self.path = self.model
        label = shown(self.model, self.values) if self.values else self.model
        if self.values:
            self.path = write_changed(self.model, self.program, self.values, self._folder)
        try:
            self.run = Run(self.path, self.program)
            self.rows = self._run(rule, relative, order) if rows is None else os.fspath(rows)
        except Fault as fault:
            raise Fault(str(fault).replace(self.path, label)) from fault
        self.overflow = self._overflow()
        self._known: Dict[Tuple[int, bool], Trajectory] = {}

    def _run(self, rule: Optional[str], relative: Optional[int], order: int) -> str:
        """Runs the model into a file."""
        words = ["run2" if order == 2 else "run", self.path] + (["--rule", rule] if rule else [])
        words += ["--relative", str(relative)] if relative is not None else []
        path = os.path.join(self._folder, "rows.csv")
        with open(path, "wb") as file:
            done = subprocess.run([self.program] + words, stdout=file, stderr=subprocess.PIPE)
        if done.returncode not in (0, OVERFLOWED):
            line = done.stderr.decode("utf-8", "replace").strip()
            raise Fault("%s: %s" % (self.path, line or "status %d" % done.returncode))
        return path

    def _overflow(self) -> Optional[Tuple[str, float]]:
        """The name and the time of an overflow, or None."""
        with open(self.rows, "rb") as file:
            file.seek(max(os.path.getsize(self.rows) - 4096, 0))
            fields = file.read().decode("ascii", "replace").rstrip("\n").split("\n")[-1].split(",")
        if len(fields) == 5 and fields[1] == "overflow":
            return fields[2], float(exact(int(fields[0]), self.run.units.time))
        return None

    def _lines(self) -> ContextManager[Tuple[Iterable[str], str]]:
        """The lines of the rows, with a name for faults."""
        return lines_of(argparse.Namespace(rows=self.rows, model=self.path), self.run)

    def __repr__(self) -> str:
        label = shown(self.model, self.values) if self.values else self.model
        return "<run of %s%s>" % (label, ", overflowed at %g" % self.overflow[1] if self.overflow else "")

    @property
    def names(self) -> List[str]:
        """The names of the states, the discrete variables and the algebraic variables."""
        return [one.name for one in self.run.flat.variables]

    @property
    def stop(self) -> float:
        """The time at which the run ends."""
        return self.run.last / 2**self.run.units.time

    # tables

    def table(
        self,
        names: Optional[Names] = None,
        every: Any = None,
        states: bool = False,
        events: bool = False,
        file: Optional[FilePath] = None,
        all_values: bool = False,
    ) -> Optional[str]:
        """The table of qss-table as a text of CSV with exact decimals; with `file` it is written there."""
        words = [self.path, self.rows, "--program", self.program, "--no-advice"]
        words += ["--names", listed(names)] if names is not None else []
        words += ["--every", value_text(every)] if every is not None else []
        words += ["--states"] * states + ["--events"] * events + ["--all-values"] * all_values
        path = os.path.join(self._folder, "table.csv") if file is None else os.fspath(file)
        table.tool(words + ["-o", path])
        if file is not None:
            return None
        with open(path, encoding="utf-8") as kept:
            return kept.read()

    def frame(
        self,
        names: Optional[Names] = None,
        every: Any = None,
        states: bool = False,
        events: bool = False,
        all_values: bool = False,
    ) -> Any:
        """The table as a DataFrame of pandas whose index is the time. Between two rows each value is held."""
        pandas = needed("pandas", "frame()")
        with self._lines() as (lines, name):
            if self.run.order == 1 and load() is not None:
                from .tables.bulk_table import Choice, Table

                step = None if every is None else table.step_of(value_text(every), self.run)
                columns = columns_of(self.run, None if names is None else listed(names), states)
                rows = Rows(self.run, lines, name, may_be_cut=True)
                return Table(rows, columns, Choice(step, events=events, all_values=all_values)).frame()
        text = self.table(names, every, states, events, all_values=all_values)
        return pandas.read_csv(io.StringIO(text), index_col="time", dtype={"events": "string"} if events else None)

    def raw(self) -> Any:
        """The rows themselves as a DataFrame; states are texts, since they may have more than 64 bits."""
        return needed("pandas", "raw()").read_csv(self.rows, dtype=ROW_TYPES)

    # measures

    def signal(self, name: str, all_values: bool = False) -> "Signal":
        """The trajectory of a variable, exact and piecewise linear (a Signal)."""
        return self.signals([name], all_values)[0]

    def signals(self, names: Optional[Names] = None, all_values: bool = False) -> "List[Signal]":
        """The trajectories of some variables, or of all states and discrete variables."""
        if names is None:
            numbers = chosen(self.run, None)
        else:
            numbers = [number_of(self.run, name) for name in ([names] if isinstance(names, str) else names)]
        return [Signal(line, unit_of(self.model)) for line in self._trajectories(numbers, all_values)]

    def _trajectories(
        self, numbers: Sequence[int], all_values: bool, sums: Optional[Mapping[int, Combination]] = None
    ) -> List[Trajectory]:
        """The trajectories of variables, each computed once, and those of sums, whose numbers are below 0."""
        missing = [number for number in numbers if number < 0 or (number, all_values) not in self._known]
        if missing:
            with self._lines() as (lines, name):
                found, _ = trajectories(self.run, Rows(self.run, lines, name), missing, all_values, sums)
            self._known.update(((number, all_values), line) for number, line in zip(missing, found))
        return [self._known[number, all_values] for number in numbers]

    def measure(self, text: str, all_values: bool = False) -> Union[float, Dict[str, float]]:
        """The value of a measure, as 'mean(iL)', or a dictionary of those of several."""
        asked = requests(text, unit_of(self.model))
        names = list(dict.fromkeys(one.variable for one in asked))

        def compute(numbers: List[int], sums: Dict[int, Combination]) -> List[Trajectory]:
            return self._trajectories(numbers, all_values, sums)

        found = lines_of_names(self.run, names, compute, number_of)
        values = {one.text: float(value_of(one, found[one.variable])) for one in asked}
        return values if len(asked) > 1 else values[asked[0].text]

    def difference(self, other: "Simulation", names: Optional[Names] = None) -> List[Difference]:
        """How far this run and another one are apart: a Difference for each state, largest in quanta first."""
        found = [Difference(one.line, two.line) for one, two in self.pairs(other, names)]
        return sorted(found, key=lambda one: -one.quanta)

    def pairs(self, other: "Simulation", names: Optional[Names] = None) -> "List[Tuple[Signal, Signal]]":
        names = names or [one.name for one in self.run.flat.variables[: self.run.flat.states]]
        return list(zip(self.signals(names), other.signals(names)))

    # pictures

    def plot(
        self, names: Optional[Names] = None, file: Optional[FilePath] = None, **options: Any
    ) -> "Optional[Picture]":
        """A picture of qss-plot, for a notebook, or in a file: .svg, .png, .pdf or .html. The options are those of
        qss-plot, as events=True, to=5 or unit="us".
        """
        words = [self.path, self.rows, "--program", self.program, "--no-advice"]
        words += ["--names", listed(names)] if names is not None else []
        for name, value in options.items():
            word = "--" + ("from" if name in ("begin", "from_") else "to" if name == "end" else name.replace("_", "-"))
            if value is True:
                words.append(word)
            elif value is not None and value is not False:
                words += [word, str(value)]
        path = os.path.join(self._folder, "picture.svg") if file is None else os.fspath(file)
        with contextlib.redirect_stdout(io.StringIO()):
            plot.tool(words + ["-o", path])
        if file is not None:
            return None
        with open(path, encoding="utf-8") as kept:
            return Picture(kept.read())

    def _repr_html_(self) -> str:
        """The plot of the run, which a notebook shows."""
        try:
            picture = self.plot(plain=True)
        except Fault as fault:
            return "<pre>%s</pre>" % html.escape(str(fault))
        assert picture is not None
        return picture.text


class Signal:
    """A variable over time: exact, piecewise linear, with jumps."""

    def __init__(self, line: Trajectory, unit: str = NO_UNIT) -> None:
        self.line, self.name, self.time_unit = line, line.name, unit

    def points(self) -> List[Tuple[float, float]]:
        """The points (time, value) of the curve, as floats; two have the same time where it jumps."""
        tick, unit = float(self.line.tick), float(self.line.unit)
        found: List[Tuple[float, float]] = []
        for low, one, high, other in self.line.pieces():
            for point in ((low * tick, one * unit), (high * tick, other * unit)):
                if not found or found[-1] != point:
                    found.append(point)
        return found

    def __call__(self, time: Any) -> Any:
        """The value at a time as a float, or the values at an array or a list of times."""
        if not hasattr(time, "__len__") or not getattr(time, "shape", (0,)):
            return float(measured(Request("at(%s)" % self.name, "at", self.name, {"t": Fraction(time)}), self.line))
        numpy = load()
        if numpy is None or not isinstance(self.line, array_kind()):
            return [self(one) for one in time]
        times = numpy.asarray(time, dtype=float)
        last = self.line.last * float(self.line.tick)
        if not ((times >= 0) & (times <= last)).all():
            raise Fault("%s: a time is not within the run, which ends at %g" % (self.name, last))
        return self.line.sampled(times)  # type: ignore[attr-defined]

    def measure(self, name: str, **options: Any) -> float:
        """A measure of qss-measure, as measure("rise", low=0.2, begin=4)."""
        parts = [self.name] + [
            "%s=%s" % ({"begin": "from", "end": "to"}.get(option, option), value_text(value).replace(" ", ""))
            for option, value in options.items()
        ]
        return float(measured(requests("%s(%s)" % (name, ", ".join(parts)), self.time_unit)[0], self.line))


def array_kind() -> Any:
    """The class of trajectories that are arrays."""
    from .runs.lines import ArrayTrajectory

    return ArrayTrajectory


class Picture:
    """A picture that a notebook shows."""

    def __init__(self, text: str) -> None:
        self.text = text

    def _repr_svg_(self) -> str:
        return self.text


def listed(names: Names) -> str:
    """Names as qss-plot and qss-table take them."""
    return names if isinstance(names, str) else ",".join(names)


def needed(package: str, what: str) -> Any:
    """A package that is not needed elsewhere."""
    try:
        return __import__(package)
    except ImportError as error:
        raise Fault("%s needs the package %s (python3-%s of Debian)" % (what, package, package)) from error


class SweepOptions(NamedTuple):
    """The options of a sweep, as those of qss-sweep."""

    samples: Optional[int] = None
    seed: int = 0
    jobs: Optional[int] = None
    dask: Optional[str] = None
    rule: Optional[str] = None
    relative: Optional[int] = None
    program: Optional[str] = None


def sweep(model: FilePath, measure: Union[str, Iterable[str]], set: Mapping[str, Any], **options: Any) -> Any:
    """Runs a model at many points and measures each run, as qss-sweep does: a DataFrame with a row for each run where
    pandas is installed, else a list of dictionaries. The values of `set` are a value, a list of values, or a text of
    qss-sweep, as '10:100:10' or 'uniform(9,11)'. The options are the fields of SweepOptions.
    """
    how = SweepOptions(**options)
    program, model = find_program(how.program), os.fspath(model)
    texts = measure if isinstance(measure, str) else " ".join(measure)
    unit, text = unit_of(model), canonical_text(program, model)
    asked = requests(texts, unit)
    run = Run(model, program)
    for one in asked:
        check_name(run, one.variable, number_of)
    words = ["%s=%s" % (name, values_text(values)) for name, values in set.items()]
    points = Points(words, how.samples, how.seed)
    rows = list(points)
    with_values = (dict(zip(points.names, row)) for row in rows)
    work = (Job(program, model, text, values, texts, how.rule, how.relative, unit) for values in with_values)
    count = how.jobs or min(processors(), len(rows))
    outcomes = by_processes(work, count) if how.dask is None else by_dask(work, how.dask, program)
    found = [
        dict(
            [(name, number_or_text(value)) for name, value in zip(points.names, row)]
            + [(one.text, value) for one, value in zip(asked, outcome.values)]
            + [("status", outcome.status)]
        )
        for row, outcome in zip(rows, outcomes)
    ]
    try:
        import pandas
    except ImportError:
        return found
    return pandas.DataFrame(found)


def unit_of(model: str) -> str:
    """The unit of time of a model."""
    return time_unit(Source(model, read_bytes(model)))


def values_text(values: Any) -> str:
    """The values of a name, as qss-sweep takes them."""
    if isinstance(values, str):
        return values
    if hasattr(values, "__iter__"):
        values = list(values)
        if not 1 <= len(values) <= MOST_POINTS:
            raise Fault("a list of values has from 1 to %d" % MOST_POINTS)
        return ",".join(value_text(value) for value in values)
    return value_text(values)


def number_or_text(text: str) -> Union[float, str]:
    """A value of a point as a float where it is a number."""
    try:
        return float(text)
    except ValueError:
        return text
