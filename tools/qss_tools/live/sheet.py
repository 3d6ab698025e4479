"""What a page shows of a model: its parameters with their ranges, its variables, its branches and its first panels."""
import re
from dataclasses import asdict, dataclass
from fractions import Fraction
from typing import Any, Dict, Iterator, List, Mapping, Optional, Sequence, Tuple

from ..certificates.settings import refusal
from ..model.flat import PARAMETER, roles_of
from ..model.grammar import Declaration, Model, Number, Sum, parse
from ..model.source import Source, decoded
from ..model.spelling import decimal_text, spell
from ..model.units import axis_label, read_over
from ..runs.expressions import split_outside
from ..runs.rows import Run

FACTOR = 5  # a range without bounds in the source goes from a fifth of a value to five times the value
FIRST_PANELS = 4
PLOT_LINE = re.compile(r"^\s*//\s*Plot:.*?--names[ =]'?([^\s']+)'?", re.MULTILINE)
BOUND = re.compile(r"^[+-]?\s*[0-9.]+(?:[eE][+-]?[0-9]+)?$")


@dataclass(frozen=True)
class Range:
    """Where a slider goes from and to, and whether its steps are equal factors."""

    least: float
    greatest: float
    is_log: bool = False


@dataclass(frozen=True)
class Parameter:
    """A parameter: its value in the source, its formula if this is no number, and the range of its slider."""

    name: str
    text: str
    value: float
    formula: Optional[str]
    unit: str
    about: str
    is_whole: bool
    range: Range


@dataclass(frozen=True)
class Shown:
    """A variable or an array that can be drawn."""

    name: str
    role: str
    unit: str
    about: str
    size: Optional[int]


def description(source: Source, one: Declaration) -> str:
    """The string after a declaration, or nothing."""
    last = next((token for token in source.tokens if token.at + len(token.text) == one.end), None)
    if last is None or last.kind != "string":
        return ""
    return decoded(source.data[last.at + 1 : one.end - 1])


def range_of(value: float, bounds: Mapping[str, str], is_whole: bool) -> Range:
    """The range of a slider: that of the attributes min and max, or one around the value."""
    given = {name: float(text.replace(" ", "")) for name, text in bounds.items() if BOUND.match(text)}
    if value > 0:
        least, greatest = (1.0, max(10.0, 2 * value)) if is_whole else (value / FACTOR, value * FACTOR)
    elif value < 0:
        least, greatest = 2 * value, 0.0
    else:
        least, greatest = (0.0, 10.0) if is_whole else (-1.0, 1.0)
    is_log = value > 0 and not is_whole and not given
    least, greatest = given.get("min", min(least, given.get("max", least))), given.get("max", greatest)
    return Range(least, max(greatest, least), is_log)


def parameters_of(source: Source, model: Model, run: Run) -> Iterator[Parameter]:
    """The parameters of a source in their order, without constants and arrays."""
    over = read_over(source)
    for one in model.declarations:
        if one.prefix != "parameter" or one.size is not None:
            continue
        exact = run.flat.parameters[one.name]
        texts = over.get(one.name, {})
        is_number = isinstance(one.value, Number) or isinstance(one.value, Sum) and is_negative_number(one.value)
        yield Parameter(
            name=one.name,
            text=spell(one.value) if is_number else decimal_text(exact),
            value=float(exact),
            formula=None if is_number else spell(one.value),
            unit=texts.get("unit", ""),
            about=description(source, one),
            is_whole=one.whole,
            range=range_of(float(exact), texts, one.whole),
        )


def is_negative_number(part: Sum) -> bool:
    """Whether an expression is a number with a sign."""
    return len(part.parts) == 1 and isinstance(part.parts[0][2], Number)


def variables_of(source: Source, model: Model, run: Run) -> Iterator[Shown]:
    """The variables and arrays of a source in their order."""
    over, roles = read_over(source), roles_of(model)
    for one in model.declarations:
        if roles[one.name] != PARAMETER:
            unit = over.get(one.name, {}).get("unit", "")
            yield Shown(one.name, roles[one.name], unit, description(source, one), run.flat.shapes[one.name][1])


def branches_of(run: Run) -> Dict[str, str]:
    """The condition of each branch by its label."""
    found = {}
    for place, branches in enumerate(run.flat.clauses(), 1):
        for turn, (condition, _) in enumerate(branches, 1):
            part = condition.part
            found["%d.%d" % (place, turn)] = "%s %s %s" % (spell(part.left), part.relation, spell(part.right))
    return found


def first_panels(source: Source, names: Optional[str], labels: Sequence[str]) -> List[List[str]]:
    """The panels of the option --names, or of a comment 'Plot: .. --names ..', or the first variables."""
    written = PLOT_LINE.search(decoded(source.data))
    if names is None and written is not None:
        names = written.group(1)
    found = labels[:FIRST_PANELS] if names is None else split_outside(names, ",")
    return [split_outside(label, "+") for label in found]


@dataclass(frozen=True)
class Sheet:
    """What a page shows of a model that the program accepts."""

    name: str
    about: str
    parameters: Tuple[Parameter, ...]
    variables: Tuple[Shown, ...]
    branches: Dict[str, str]
    axis: str
    stop: float
    no_certificate: str

    def as_json(self) -> Dict[str, Any]:
        return asdict(self)


def sheet_of(source: Source, run: Run, unit: Optional[str]) -> Sheet:
    """What a page shows of a source, whose model is that of a run."""
    model = parse(source)
    strings = source.tokens[2:3]
    about = strings[0].text.strip('"') if strings and strings[0].kind == "string" else ""
    return Sheet(
        name=model.name,
        about=decoded(about.encode("latin-1")),
        parameters=tuple(parameters_of(source, model, run)),
        variables=tuple(variables_of(source, model, run)),
        branches=branches_of(run),
        axis=axis_label(source, unit),
        stop=float(Fraction(run.last, 2**run.units.time)),
        no_certificate=refusal(run.flat) or "",
    )
