"""Printed pictures by matplotlib: SVG, PNG and PDF.

The places of panels, numbers and names are computed here, because the layout of matplotlib takes longer than a run.
"""
import importlib
import io
from typing import Any, Dict, Iterable, List, Mapping, Optional, Sequence, Tuple

from ..output import Output
from .bands import NOTE, bands_of
from .curves import Curve, axis_steps, number_text, widened
from .drawing import Drawing, Panel
from .knots import points_of
from .svg import COLOURS, SIGNATURE, legend_name

WIDTH = 8.0  # inches
DOTS = 100  # of an inch
MOST_LEGEND = 8  # curves with a legend
LEFT, RIGHT, TOP, BOTTOM, GAP = 0.85, 0.3, 0.35, 0.5, 0.12  # inches around panels
NOTE_HEIGHT = 0.2  # inches of the line that explains bands
MARK_HEIGHT = 0.16  # inches of a row of marks
LETTER = 0.062  # inches of a letter in a legend
LABEL_LETTER = 0.085  # inches of a letter of an upright label


def draw(drawing: Drawing, panels: Sequence[Panel], times: Tuple[float, float]) -> None:
    """Writes the picture."""
    import matplotlib

    canvas = importlib.import_module(
        "matplotlib.backends.backend_" + ("agg" if drawing.kind == "png" else drawing.kind)
    )
    options = {"svg.hashsalt": "qss", "font.size": 9, "axes.formatter.useoffset": False}
    with matplotlib.rc_context(options):
        figure = figure_of(drawing, panels, times)
        getattr(canvas, "FigureCanvas")(figure)
        about = {"Creator": SIGNATURE.strip("<!->\n "), "Date": None} if drawing.kind == "svg" else None
        with Output(None if drawing.path == "-" else drawing.path) as output:
            if drawing.kind == "svg":
                output.write('<?xml version="1.0" encoding="utf-8"?>\n' + SIGNATURE)
                output.write(svg_text(figure, about))
            else:
                figure.savefig(output.held, format=drawing.kind, dpi=DOTS)


def figure_of(drawing: "Drawing", panels: Sequence[Panel], times: Tuple[float, float]) -> Any:
    """The figure with its panels, one below the other."""
    from matplotlib.figure import Figure

    marks = drawing.marks
    firings = marks.places if marks is not None else {}
    heights = [drawing.height / 72] * len(panels) + ([MARK_HEIGHT * len(firings) + 0.1] if firings else [])
    is_certified = any(curve.tube for _, curves in panels for curve, _ in curves)
    top = TOP + NOTE_HEIGHT * is_certified
    whole = top + sum(heights) + GAP * (len(heights) - 1) + BOTTOM
    right = RIGHT + legend_inches(panels)
    figure = Figure(figsize=(WIDTH + right - RIGHT, whole))
    width, height = figure.get_size_inches()
    axes, edge = [], height - top
    for one in heights:
        edge -= one
        place = [LEFT / width, edge / height, (width - LEFT - right) / width, one / height]
        axes.append(figure.add_axes(place, xlim=times))
        edge -= GAP
    for axis, (label, curves), inches in zip(axes, panels, heights):
        draw_panel(axis, shortened(label, inches), curves, times)
    if marks is not None and firings:
        draw_firings(axes[-1], firings, marks.width, times)
    draw_times(axes, times)
    axes[-1].set_xlabel(drawing.axis)
    middle = (LEFT + (width - LEFT - right) / 2) / width
    figure.text(middle, 1 - 0.1 / height, drawing.title, ha="center", va="top", fontsize=11)
    if is_certified:
        figure.text(middle, 1 - 0.32 / height, NOTE, ha="center", va="top", fontsize=9)
    return figure


def legend_inches(panels: Sequence[Panel]) -> float:
    """The room for legends at the right of the panels."""
    names = [legend_name(curve) for _, some in panels if 1 < len(some) <= MOST_LEGEND for curve, _ in some]
    return max((LETTER * len(name) + 0.45 for name in names), default=0.0)


def shortened(label: str, inches: float) -> str:
    """A label that has room beside a panel."""
    most = max(4, int(inches / LABEL_LETTER))
    return label if len(label) <= most else label[: most - 2] + ".."


def draw_times(axes: Sequence[Any], times: Tuple[float, float]) -> None:
    """Numbers at the common axis of time, below the last panel."""
    steps = axis_steps(*times, 8)
    for axis in axes:
        is_last = axis is axes[-1]
        axis.set_xticks(steps, [number_text(step) for step in steps] if is_last else [])
        axis.set_title("", y=1.0)  # (its place is not computed)


def svg_text(figure: Any, about: Optional[Dict[str, Any]]) -> str:
    """The SVG of a figure, without its first line."""
    held = io.StringIO()
    figure.savefig(held, format="svg", metadata=about)
    text = held.getvalue()
    return text[text.index("<svg") :]


def draw_panel(axis: Any, label: str, curves: Sequence[Tuple[Curve, bool]], times: Tuple[float, float]) -> None:
    """Draws the curves of a panel with their bands."""
    for one in bands_of((curve for curve, _ in curves), *times):
        colour = COLOURS[one.place % len(COLOURS)]
        axis.fill_between(one.times, one.lower, one.upper, color=colour, alpha=one.opacity, lw=0)
    bounds = []
    for place, (curve, dashed) in enumerate(curves):
        points = points_of(curve, times)
        bounds += [curve.bounds()] if points else []
        axis.plot(
            [time for time, _ in points],
            [value for _, value in points],
            color=COLOURS[place % len(COLOURS)],
            **style_of(curve, dashed),
            label=legend_name(curve),
        )
    least, greatest = widened(min(low for low, _ in bounds), max(high for _, high in bounds)) if bounds else (0.0, 1.0)
    steps = axis_steps(least, greatest, max(3, round(axis.bbox.height / 26)))
    axis.set_ylim(least, greatest)
    axis.set_yticks(steps, [number_text(step) for step in steps])
    axis.set_ylabel(label)
    axis.yaxis.set_label_coords(-0.6 / (axis.bbox.width / axis.figure.dpi), 0.5)
    axis.grid(alpha=0.3)
    if 1 < len(curves) <= MOST_LEGEND:
        axis.legend(fontsize=7, loc="upper left", bbox_to_anchor=(1.0, 1.0), frameon=False)


def style_of(curve: Curve, dashed: bool) -> Dict[str, Any]:
    """How a curve is drawn."""
    if curve.is_dotted:
        return {"ls": "none", "marker": "o", "ms": 2.2, "mew": 0}
    return {"lw": 0.9, "ls": "--" if dashed else "-"}


def draw_firings(axis: Any, firings: Mapping[str, Iterable[int]], width: int, times: Tuple[float, float]) -> None:
    """A row of marks for each branch."""
    labels: List[str] = sorted(firings)
    begin, end = times
    for place, label in enumerate(labels):
        at = [begin + (end - begin) * column / width for column in sorted(firings[label])]
        axis.plot(at, [place] * len(at), "|", ms=8, color=COLOURS[place % len(COLOURS)])
    axis.set_yticks(range(len(labels)), labels, fontsize=7)
    axis.set_ylim(-0.6, len(labels) - 0.4)
