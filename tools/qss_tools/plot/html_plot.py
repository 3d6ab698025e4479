"""Interactive pictures: one self-contained page by plotly, with a panel for each label and a common time axis."""
from typing import Any, List, Mapping, Sequence, Tuple

from ..arrays import load
from ..fault import Fault
from ..output import Output
from .bands import NOTE, Band, bands_of
from .curves import Curve
from .drawing import Drawing, Panel
from .knots import Firings, points_of, shortened, times_of
from .svg import COLOURS, SIGNATURE

HELD_END = 0.001  # of the time for which a value is held
MARK_HEIGHT = 22  # pixels of a branch's row
ROOM = 150  # pixels of the title and the time axis
SCALE = 1.8  # of a panel, relative to that of a printed picture


def check_plotly() -> None:
    """A page can be drawn."""
    try:
        import plotly  # noqa: F401
    except ImportError as error:
        raise Fault("a page needs the package plotly (python3-plotly of Debian, with /usr/bin/python3)") from error


def drawn_points(curve: Curve, times: Tuple[float, float]) -> List[Tuple[float, float]]:
    """The points (time, value) of a curve of a page; of held values those at which they change.

    A page shows the point that is nearest to the cursor. So a value that is held for longer than a column has a
    second point just before it changes.
    """
    if not curve.is_held:
        return points_of(curve, times)
    changes = curve.changes()
    points: List[Tuple[float, float]] = []
    for time, value in zip(times_of([tick for tick, _ in changes], curve, times), (value for _, value in changes)):
        if points and points[-1][1] != value and time - points[-1][0] > (times[1] - times[0]) / curve.width:
            begin, held = points[-1]
            points.append((shortened(time - (time - begin) * HELD_END), held))
        points.append((time, value))
    return points


def as_array(numbers: List[float]) -> Any:
    """Numbers as an array where numpy is there: plotly looks at each element of a list."""
    numpy = load()
    return numbers if numpy is None else numpy.array(numbers)


def draw(drawing: Drawing, panels: Sequence[Panel], times: Tuple[float, float]) -> None:
    """Writes the page."""
    page = figure_of(drawing, panels, times).to_html(
        include_plotlyjs=True, config={"scrollZoom": True, "displaylogo": False, "responsive": True}
    )
    with Output(None if drawing.path == "-" else drawing.path) as output:
        output.write("<!DOCTYPE html>\n" + SIGNATURE + page)


def figure_of(drawing: Drawing, panels: Sequence[Panel], times: Tuple[float, float]) -> Any:
    """The figure of the page: a row for each panel, and one for the branches that fired."""
    from plotly import graph_objects
    from plotly.subplots import make_subplots

    marks = drawing.marks if isinstance(drawing.marks, Firings) else None
    firings = marks.ticks if marks is not None else {}
    heights = [drawing.height * SCALE] * len(panels) + ([MARK_HEIGHT * (len(firings) + 1)] if firings else [])
    gap = min(0.05, 0.5 / len(heights))
    figure = make_subplots(len(heights), 1, shared_xaxes=True, vertical_spacing=gap, row_heights=heights)
    is_certified = False
    for row, panel in enumerate(panels, 1):
        is_certified |= add_panel(figure, graph_objects, row, panel, drawing, times)
    if marks is not None and firings:
        add_firings(figure, graph_objects, len(heights), firings, marks, times)
    figure.update_xaxes(
        range=list(times), showspikes=True, spikemode="across", spikesnap="cursor", spikethickness=1, spikedash="dot"
    )
    figure.update_xaxes(title_text=drawing.axis, row=len(heights), col=1)
    figure.update_layout(
        title=drawing.title + ("<br><sub>%s</sub>" % NOTE if is_certified else ""),
        height=int(sum(heights) * (1 + gap * len(heights))) + ROOM,
        hovermode="x unified",
        hoverdistance=-1,
        template="plotly_white",
        margin={"l": 80, "r": 20, "t": 60, "b": 60},
    )
    return figure


def add_panel(
    figure: Any, graph_objects: Any, row: int, panel: Panel, drawing: Drawing, times: Tuple[float, float]
) -> bool:
    """Adds a panel with its bands and curves; whether it has a band."""
    label, curves = panel
    bands = bands_of((curve for curve, _ in curves), *times)
    for band in bands:
        add_band(figure, graph_objects, row, band)
    for place, (curve, dashed) in enumerate(curves):
        points = drawn_points(curve, times)
        line = {"color": COLOURS[place % len(COLOURS)], "width": 1.3, "dash": "dash" if dashed else "solid"}
        line["shape"] = "hv" if getattr(curve, "is_held", False) else "linear"
        trace = graph_objects.Scatter(
            x=as_array([time for time, _ in points]),
            y=as_array([shortened(value) for _, value in points]),
            name=curve.label,
            mode="markers" if curve.is_dotted else "lines",
            line=line,
            marker={"color": line["color"], "size": 4},
            hovertemplate=("%{y:.7~g} " + (drawing.unit_of(curve.label) or "")).rstrip(),
            showlegend=len(curves) > 1,
        )
        figure.add_trace(trace, row=row, col=1)
    figure.update_yaxes(title_text=label, row=row, col=1)
    return bool(bands)


def add_band(figure: Any, graph_objects: Any, row: int, band: Band) -> None:
    """An area, as a lower edge and an upper one that is filled down to it."""
    colour = COLOURS[band.place % len(COLOURS)].lstrip("#")
    red, green, blue = (int(colour[place : place + 2], 16) for place in (0, 2, 4))
    for edge, fill in ((band.lower, None), (band.upper, "tonexty")):
        figure.add_trace(
            graph_objects.Scatter(
                x=as_array([shortened(time) for time in band.times]),
                y=as_array([shortened(value) for value in edge]),
                mode="lines",
                line={"width": 0},
                fill=fill,
                fillcolor="rgba(%d,%d,%d,%g)" % (red, green, blue, band.opacity),
                hoverinfo="skip",
                showlegend=False,
            ),
            row=row,
            col=1,
        )


def add_firings(
    figure: Any,
    graph_objects: Any,
    row: int,
    firings: Mapping[str, Sequence[float]],
    marks: Firings,
    times: Tuple[float, float],
) -> None:
    """A row of marks for each branch."""
    share = (times[1] - times[0]) / (marks.width / marks.scale) if marks.scale else 0.0
    for place, label in enumerate(sorted(firings)):
        figure.add_trace(
            graph_objects.Scatter(
                x=as_array([shortened(times[0] + (tick - marks.begin) * share) for tick in firings[label]]),
                y=[label] * len(firings[label]),
                name="branch " + label,
                mode="markers",
                marker={"symbol": "line-ns-open", "size": 9, "color": COLOURS[place % len(COLOURS)]},
                hovertemplate="fires at %{x:.10g}",
                showlegend=False,
            ),
            row=row,
            col=1,
        )
    figure.update_yaxes(type="category", title_text="branch", row=row, col=1)
