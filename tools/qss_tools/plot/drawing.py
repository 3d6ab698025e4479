"""A drawing: what of one run or two is drawn, and the labels of its panels. The drawers write it as a picture."""
import argparse
import os
from typing import List, Optional, Sequence, Tuple

from ..certificates.band import certified
from ..fault import Fault, read_bytes
from ..model.flat import ALGEBRAIC, Variable
from ..model.source import Source
from ..model.units import axis_label, checked_unit, plain_time, time_unit, variable_units
from ..numeric.trial import time_like
from ..runs.columns import AnyColumn, columns_of
from ..runs.expressions import split_outside
from ..runs.rows import Run, run_of, window_of
from .curves import Curve, Marks, Path

# A panel: its label, and its curves, each with whether it is dashed.
Panel = Tuple[str, Sequence[Tuple[Curve, bool]]]

WIDTH, HEIGHT, TEXT_WIDTH = 720, 110, 66
MOST_PANELS = 12
MANY_ELEMENTS, FEW_ELEMENTS = 8, 5  # of an array that is drawn without being asked for
LETTER = 9  # pixels of a letter with its share of the unit
MOST_CURVES = 40


class Drawing:
    """What is drawn of one run or of two, and how it is labelled: panels of curves, marks of branches, or paths."""

    def __init__(self, args: argparse.Namespace, run: Optional[Run] = None):
        self.args = args
        self.path: Optional[str] = None
        self.kind = "text"
        self.run = run_of(args) if run is None else run
        self.certified = certified(args, self.run)
        if self.certified and (args.text or args.against):
            raise Fault("--certificate draws states over time, into a picture")
        self.width = TEXT_WIDTH if args.text else WIDTH
        source = Source(args.source, read_bytes(args.source))
        unit = checked_unit(args.unit) or time_unit(source)
        args.begin, args.end = plain_time(args.begin, unit, "--from"), plain_time(args.end, unit, "--to")
        self.begin, self.end = window_of(args, self.run, "draw")
        self.labels = self.panel_names(self.run)
        for part in self.parts():
            columns_of(self.run, part)
        self.panels: List[Tuple[str, List[Tuple[Curve, bool]]]] = [(label, []) for label in self.labels]
        self.marks: Optional[Marks] = None
        self.paths: List[Path] = []
        self.overflowed: Optional[Tuple[int, str]] = None
        self.is_cut = False
        self.units = variable_units(args.source)
        self.title = args.title or self.run.flat.model.name
        self.height = args.height
        self.axis = axis_label(source, args.unit)

    def panel_names(self, run: Run) -> List[str]:
        """The panels' patterns."""
        if self.args.names:
            return split_outside(self.args.names, ",")
        plain: List[str] = []
        for one in run.flat.variables[: run.flat.states + run.flat.discretes]:
            if one.declaration.name not in plain and not is_clock(run, one):
                plain.append(one.declaration.name)
        return [some_of(run, name) for name in plain[:MOST_PANELS]]

    def add_panel(self, label: str) -> None:
        """Adds a panel below the others."""
        self.labels.append(label)
        self.panels.append((label, []))

    def parts(self) -> List[str]:
        """The patterns in all panels."""
        return [part for label in self.labels for part in split_outside(label, "+")]

    def ticks(self, run: Run) -> Tuple[float, float]:
        """The first and the last tick that is drawn."""
        scale = 2**run.units.time
        return float(self.begin * scale), float(self.end * scale)

    def curves(self, run: Run, second: bool) -> Tuple[List[AnyColumn], List[Curve]]:
        """The columns of all panels, and their curves."""
        columns: List[AnyColumn] = []
        curves: List[Curve] = []
        for label, found in self.panels:
            for part in split_outside(label, "+"):
                for column in columns_of(run, part, self.args.states):
                    name = column.name + (" (second)" if second else "")
                    curve = Curve(name, self.width, *self.ticks(run))
                    columns.append(column)
                    curves.append(curve)
                    found.append((curve, second))
        if len(curves) > MOST_CURVES * MOST_PANELS:
            raise Fault("%d curves are too many: choose some by --names" % len(curves))
        return columns, curves

    def is_plain(self) -> bool:
        """Whether no package draws, by --plain or by the environment variable QSS_PLAIN."""
        return self.args.plain or bool(os.environ.get("QSS_PLAIN"))

    def unit_of(self, name: str) -> Optional[str]:
        """The unit of a variable, if the source gives one."""
        return self.units.get(name.strip().split(" ")[0].split("[")[0])

    def label_of(self, name: str) -> str:
        unit = self.unit_of(name)
        return "%s [%s]" % (name, unit) if unit else name

    def with_unit(self, label: str, curves: Sequence[Tuple[Curve, bool]]) -> str:
        """A label with the unit of its variables. If they have several, each curve gets its own."""
        parts = split_outside(label, "+")
        units = {self.unit_of(part) for part in parts}
        if len(label) * LETTER > self.height:
            parts = list(dict.fromkeys(part.split("[")[0] for part in parts))
        text = ", ".join(parts)
        if len(units) > 1:
            for curve, _ in curves:
                curve.unit = self.unit_of(curve.label)
            return text
        unit = units.pop()
        return "%s [%s]" % (text, unit) if unit else text


def some_of(run: Run, name: str) -> str:
    """The pattern of a variable; of a large array some elements from its first to its last."""
    size = run.flat.shapes[name][1]
    if size is None or size <= MANY_ELEMENTS:
        return name
    places = sorted({1 + (size - 1) * part // (FEW_ELEMENTS - 1) for part in range(FEW_ELEMENTS)})
    return "+".join("%s[%d]" % (name, place) for place in places)


def is_clock(run: Run, one: Variable) -> bool:
    """Clocks are drawn only where they are asked for."""
    return run.flat.numbers[one.name] in time_like(run.flat) if one.role != ALGEBRAIC else False
