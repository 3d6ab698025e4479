"""The curves of a page as JSON: the picture of qss-plot, thinned for the width of the page."""
import math
from typing import Any, Dict, List, NamedTuple, Optional, Sequence, Tuple

from ..fault import Fault
from ..plot.bands import bands_of
from ..plot.curves import Curve
from ..plot.knots import Firings, shortened, times_of
from ..plot.plot import Plot, parser_of
from .runs import Done

FEWEST_COLUMNS, MOST_COLUMNS = 100, 4000
Json = Dict[str, Any]
Panels = Sequence[Sequence[str]]


class View(NamedTuple):
    """What is drawn of a run: panels of variables, a window of time or all of it, columns, and whether branches are."""

    panels: Panels
    window: Optional[Tuple[str, str]] = None
    columns: int = 900
    with_events: bool = False

    def words(self) -> List[str]:
        """The options of qss-plot."""
        found = ["--names=" + ",".join("+".join(panel) for panel in self.panels if panel), "--no-advice"]
        if self.window is not None:
            found += ["--from=" + self.window[0], "--to=" + self.window[1]]
        return found + ["--events"] * self.with_events


class LivePlot(Plot):
    """A drawing for a page, of rows that are there."""

    def __init__(self, done: Done, source: str, view: View, certificate: Optional[str] = None) -> None:
        self.view = view
        words = [done.path, done.rows, *view.words()]
        args = parser_of().parse_args(words + (["--certificate", certificate] if certificate else []))
        args.source, args.label = source, args.model
        super().__init__(args, done.run)
        self.kind = "html"
        self.width = min(MOST_COLUMNS, max(FEWEST_COLUMNS, view.columns))
        self.notices: List[str] = []
        self.gather()

    def say(self, text: str) -> None:
        self.notices.append(text)

    @property
    def times(self) -> Tuple[float, float]:
        """The first and the last time that is drawn."""
        return float(self.begin), float(self.end)

    def panels_json(self) -> List[Json]:
        """The panels with their curves."""
        return [
            {"label": self.with_unit(label, curves), "curves": [self.curve_json(curve) for curve, _ in curves]}
            for label, curves in self.panels
        ]

    def curve_json(self, curve: Curve) -> Json:
        points = curve.changes() if curve.is_held else curve.points()
        return {
            "name": curve.label,
            "unit": self.unit_of(curve.label) or "",
            "held": curve.is_held,
            "x": times_of([tick for tick, _ in points], curve, self.times),
            "y": [shortened(value) for _, value in points],
        }

    def events_json(self) -> Dict[str, Json]:
        """The times at which each branch fired, and how many there are."""
        marks = self.marks
        if not isinstance(marks, Firings):
            return {}
        scale = 2.0**self.run.units.time
        return {
            label: {"count": marks.counts[label], "times": [shortened(tick / scale) for tick in ticks]}
            for label, ticks in sorted(marks.ticks.items(), key=lambda one: place_of(one[0]))
        }

    def bands_json(self) -> List[Json]:
        """The certified bands of all panels."""
        found = []
        for number, (_, curves) in enumerate(self.panels):
            for band in bands_of([curve for curve, _ in curves], *self.times):
                edges = {"lower": band.lower, "upper": band.upper}
                rounded = {name: [shortened(value) for value in some] for name, some in edges.items()}
                times = [shortened(time) for time in band.times]
                found.append({"panel": number, "curve": band.place, "opacity": band.opacity, "x": times, **rounded})
        return found


def drawn_part(done: Done, source: str, view: View) -> Tuple[LivePlot, Dict[str, Fault]]:
    """The picture of what can be drawn of a view, and why each other name cannot. That nothing can be is a fault."""
    try:
        return LivePlot(done, source, view), {}
    except Fault:
        wrong: Dict[str, Fault] = {}
        for name in dict.fromkeys(name for panel in view.panels for name in panel):
            try:
                LivePlot(done, source, view._replace(panels=[[name]]))
            except Fault as fault:
                wrong[name] = fault
        panels = [[name for name in panel if name not in wrong] for panel in view.panels]
        if not wrong or not any(panels):
            raise
    return LivePlot(done, source, view._replace(panels=[panel for panel in panels if panel])), wrong


def place_of(label: str) -> Tuple[float, ...]:
    """The order of the labels of branches."""
    return tuple(float(part) if part.isdigit() else math.inf for part in label.split("."))
