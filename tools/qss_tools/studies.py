"""What the tools find out about a model, as functions whose results are dataclasses (docs/PYTHON.md)."""
import io
import os
import tempfile
from dataclasses import dataclass
from typing import Any, Dict, Mapping, Optional, Sequence, Tuple, Union

from .fault import Fault, read_bytes
from .model.source import Source
from .program import call, find_program

FilePath = Union[str, "os.PathLike[str]"]


@dataclass(frozen=True)
class Remark:
    """A sentence about a line and a column of a model, or about the whole file, and suggested fixes."""

    sentence: str
    fixes: Tuple[str, ...] = ()
    line: Optional[int] = None
    column: Optional[int] = None
    is_grave: bool = True

    def __str__(self) -> str:
        place = "" if self.line is None else "%d:%d: " % (self.line, self.column or 1)
        return "\n  ".join([place + self.sentence, *self.fixes])


@dataclass(frozen=True)
class Advice:
    """What qss-advise finds: remarks, and the model with settings that fit, or why there are none."""

    model: str
    remarks: Tuple[Remark, ...]
    text: Optional[str]
    why: str

    @property
    def is_fine(self) -> bool:
        """Whether nothing spoils a run."""
        return not any(one.is_grave for one in self.remarks)

    def write(self, path: FilePath) -> None:
        """Writes the model with the settings that fit."""
        from .output import Output

        if self.text is None:
            raise Fault("%s: there are no settings to write: %s" % (self.model, self.why))
        with Output(os.fspath(path)) as output:
            output.write(self.text)


@dataclass(frozen=True)
class Accuracy:
    """How near a run comes to its solution: the worst state, its greatest difference, also in quanta and as a
    percentage of its size, and how many branches fired in the run and in the solution.
    """

    model: str
    rows: int
    seconds: float
    state: str
    difference: float
    quanta: float
    percent: Optional[float]
    fired: Optional[int] = None
    fired_in_solution: Optional[int] = None


@dataclass(frozen=True)
class Certificate:
    """A certificate that `qss certify` accepts: for each state the bound E on the difference of two runs, in the
    model's unit, and how many times the lower bound it is.
    """

    model: str
    bounds: Dict[str, float]
    ratios: Dict[str, float]
    text: str

    def write(self, path: FilePath) -> None:
        """Writes the certificate."""
        from .output import Output

        with Output(os.fspath(path)) as output:
            output.write(self.text)


@dataclass(frozen=True)
class Fitted:
    """What qss-fit finds: for each value that was varied its number and its interval of 95 %, or None if none holds;
    for each variable the root mean square error; whether the fit is sound; the report; and the model with the values.
    """

    model: str
    values: Dict[str, float]
    intervals: Dict[str, Optional[Tuple[float, float]]]
    errors: Dict[str, float]
    is_sound: bool
    report: str
    text: str

    def write(self, path: FilePath) -> None:
        """Writes the model with the values."""
        from .output import Output

        with Output(os.fspath(path)) as output:
            output.write(self.text)


def place_in(source: Source, at: Optional[int]) -> Tuple[Optional[int], Optional[int]]:
    """The line and the column of a byte."""
    return (None, None) if at is None else source.place(at)


def advise(model: FilePath, program: Optional[str] = None) -> Advice:
    """What spoils runs of a model, and settings that fit, as qss-advise does."""
    from .advice.advise import Advice as Found

    path = os.fspath(model)
    found = Found(path, find_program(program))
    remarks = []
    if found.refused is not None:
        remarks.append(
            Remark(found.refused.sentence, tuple(found.refused.ways), *place_in(found.source, found.refused.at))
        )
    for one in found.found:
        fixes = () if one.way is None else (one.way,)
        remarks.append(Remark(one.sentence, fixes, *place_in(found.source, one.at), bool(one.grave)))
    text = None if found.text is None else found.text.decode("utf-8", "replace")
    return Advice(path, tuple(remarks), text, found.why)


def explain(model: FilePath, line: Optional[str] = None, program: Optional[str] = None) -> Optional[Remark]:
    """Why the program refuses a model, with the place and suggested fixes, or None if it runs. `line` is a line of the
    program on standard error; without it the model is run.
    """
    from .advice.explain import explain as explained

    path = os.fspath(model)
    if line is None:
        line = call(find_program(program), ["run", path, "--only", "-"], keep=False).line
    if not line.strip():
        return None
    source = Source(path, read_bytes(path))
    story = explained(source, line.strip())
    return Remark(story.sentence, tuple(story.ways), *place_in(source, story.at))


def accuracy(model: FilePath, program: Optional[str] = None) -> Accuracy:
    """Runs a model, and compares the run with its solution in floating point, as qss-accuracy does (numpy, scipy)."""
    from .tables.accuracy import accuracy as measured

    found = measured(os.fspath(model), find_program(program))
    fired = found.fired
    counts: Sequence[Optional[int]] = (None, None) if fired is None else (fired.here, fired.there)
    worst = found.worst
    return Accuracy(
        found.model,
        found.rows,
        found.seconds,
        worst.name,
        float(worst.difference),
        float(worst.quanta),
        worst.share,
        *counts,
    )


def fit(
    model: FilePath,
    data: FilePath,
    vary: Mapping[str, str],
    columns: Optional[Mapping[str, str]] = None,
    **options: Any,
) -> Fitted:
    """Finds values for which a run is near measured values, as qss-fit does (numpy, scipy). `vary` has a range as
    "1:100" by the name of each value, `columns` a column by the name of a variable. The options are those of qss-fit.
    """
    from .fits.fit import Fitting, check_scipy, parser_of

    check_scipy()
    with tempfile.TemporaryDirectory(prefix="qss-") as folder:
        words = [os.fspath(model), f"--with={os.fspath(data)}", f"--output={os.path.join(folder, 'runs.csv')}"]
        words += [f"--vary={name}={span}" for name, span in vary.items()]
        words += [f"--column={name}={column}" for name, column in (columns or {}).items()]
        words += [f"--set={name}={value}" for name, value in options.pop("set", {}).items()]
        words += [f"--{name.replace('_', '-')}={value}" for name, value in options.items()]
        fitting = Fitting(parser_of().parse_args(words))
        found = fitting.found()
        return Fitted(
            os.fspath(model),
            {one.name: float(one.text) for one in found.estimates},
            {one.name: None if found.patterns else one.interval for one in found.estimates},
            {one.variable: one.rms for one in found.misfits},
            found.is_sound,
            "\n".join(fitting.report(found)),
            fitting.rewritten(found).decode("utf-8", "replace"),
        )


def certificate(model: FilePath, state: Optional[str] = None, program: Optional[str] = None) -> Certificate:
    """Searches for a certificate of a model, as qss-certificate does. A model without one raises a Fault."""
    from .certificates.affine import Affine
    from .certificates.conditions import text_of
    from .certificates.search import NoCertificate, Progress, Search
    from .certificates.settings import is_accepted, refusal
    from .runs.rows import Run

    path = os.fspath(model)
    run = Run(path, find_program(program))
    why = refusal(run.flat)
    if why:
        raise Fault("%s: no certificate: %s" % (path, why))
    system = Affine(run)
    if state is not None and state not in system.names:
        raise Fault("%s has no state '%s' (its states are %s)" % (path, state, ", ".join(system.names)))
    try:
        search = Search(system, None if state is None else system.names.index(state), Progress(io.StringIO()))
        found: Any = search.found()
    except NoCertificate as none:
        raise Fault("%s: no certificate with these settings: %s" % (path, none.sentence)) from none
    text = text_of(found.certificate)
    if not is_accepted(run.program, read_bytes(path), text):
        raise Fault("%s: `qss certify` does not accept the certificate that was found" % path)
    bounds, unit = found.certificate["E"], 2.0**run.units.level
    return Certificate(
        path,
        {name: bound / unit for name, bound in zip(system.names, bounds)},
        {name: bound / least for name, bound, least in zip(system.names, bounds, search.t)},
        text,
    )
