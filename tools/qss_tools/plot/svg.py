"""Pictures as small SVG files, drawn without a package."""
import html
import math
from typing import List, Optional, Sequence, Tuple

from ..certificates.band import Tube
from .bands import BANDS, NOTE
from .curves import Curve, Marks, Path, axis_steps, number_text, widened
from .drawing import Drawing, Panel

# What belongs to a picture made by these tools, and may be replaced by the next one.
SIGNATURE = "<!-- drawn by qss-plot -->\n"

COLOURS = ("#1f5fa8", "#c2471d", "#3b7d2a", "#7b4aa3", "#a67c00", "#1a8a8a", "#a33a63", "#555555")
UNITS = 4  # of a pixel: coordinates of curves are whole numbers of these
LEFT, RIGHT, TOP, BOTTOM, GAP = 64, 14, 26, 40, 12
MARK_ROW = 13
NOTE_ROW = 16
MOST_MARK_ROWS = 8
MOST_LABELS = 8
LETTER, SMALL_LETTER = 0.56, 6.2  # the width of a letter: of its height, and in a legend in pixels
LABEL_SIZE, LEAST_LABEL_SIZE = 12, 8
OPACITY = 0.8  # of curves that share a panel
DOT = 3  # pixels of a measured value
PATH_LETTERS = 36000  # of a path of points, at most about


def path_of(points: Sequence[Tuple[int, int]]) -> str:
    """A path through points of whole numbers, in relative steps."""
    x, y = points[0]
    text = ["M%d %d" % (x, y)]
    sideways = 0
    for next_x, next_y in points[1:]:
        if next_y == y:
            sideways += next_x - x
        else:
            if sideways:
                text.append("h%d" % sideways)
                sideways = 0
            text.append("v%d" % (next_y - y) if next_x == x else "l%d %d" % (next_x - x, next_y - y))
        x, y = next_x, next_y
    if sideways:
        text.append("h%d" % sideways)
    return "".join(text)


class Picture:
    """An SVG picture that grows by parts."""

    def __init__(self, width: float, height: float, title: str) -> None:
        self.width, self.height = width, height
        self.parts: List[str] = []
        self.text(width / 2, 16, title, "middle", 13)

    def text(self, x: float, y: float, text: str, anchor: str = "start", size: int = 11, colour: str = "#222") -> None:
        self.parts.append(
            '<text x="%g" y="%g" text-anchor="%s" font-size="%d" fill="%s">%s</text>'
            % (x, y, anchor, size, colour, html.escape(text, quote=False))
        )

    def upright(self, x: float, y: float, text: str, room: float) -> None:
        """A text from below upwards, so small and so short that it has room."""
        size = max(LEAST_LABEL_SIZE, min(LABEL_SIZE, int(room / (LETTER * max(1, len(text))))))
        most = int(room / (LETTER * size))
        text = text if len(text) <= most else text[: max(1, most - 2)] + ".."
        self.parts.append(
            '<text x="%g" y="%g" text-anchor="middle" font-size="%d" fill="#222"'
            ' transform="rotate(-90 %g %g)">%s</text>' % (x, y, size, x, y, html.escape(text, quote=False))
        )

    def line(self, x1: float, y1: float, x2: float, y2: float, colour: str = "#ddd") -> None:
        self.parts.append('<path d="M%g %gL%g %g" stroke="%s"/>' % (x1, y1, x2, y2, colour))

    def curve(
        self,
        corner: Tuple[float, float],
        points: Sequence[Tuple[int, int]],
        colour: str,
        dashed: bool = False,
        width: float = 1.2,
        opacity: float = 1.0,
    ) -> None:
        """A curve of points in units, from a corner."""
        x, y = corner
        if points:
            self.parts.append(
                '<path transform="translate(%g %g) scale(%g)" d="%s" fill="none" stroke="%s" stroke-width="%g"'
                ' stroke-linejoin="round"%s%s/>'
                % (
                    x,
                    y,
                    1 / UNITS,
                    path_of(points),
                    colour,
                    width * UNITS,
                    ' stroke-dasharray="16 12"' if dashed else "",
                    ' stroke-opacity="%g"' % opacity if opacity < 1 else "",
                )
            )

    def dots(self, corner: Tuple[float, float], points: Sequence[Tuple[int, int]], colour: str) -> None:
        """Points in units, from a corner."""
        x, y = corner
        path = "".join("M%d %dh0" % point for point in points)
        self.parts.append(
            '<path transform="translate(%g %g) scale(%g)" d="%s" stroke="%s" stroke-width="%g" stroke-linecap="round"/>'
            % (x, y, 1 / UNITS, path, colour, DOT * UNITS)
        )

    def area(self, x: float, y: float, points: Sequence[Tuple[int, int]], colour: str, opacity: float) -> None:
        """An area between points in units, from the corner (x, y)."""
        self.parts.append(
            '<path transform="translate(%g %g) scale(%g)" d="%sz" fill="%s" fill-opacity="%g" stroke="none"/>'
            % (x, y, 1 / UNITS, path_of(points), colour, opacity)
        )

    def frame(self, x: float, y: float, width: float, height: float) -> None:
        self.parts.append(
            '<rect x="%g" y="%g" width="%g" height="%g" fill="none" stroke="#888"/>' % (x, y, width, height)
        )

    def whole(self) -> str:
        head = (
            '<svg xmlns="http://www.w3.org/2000/svg" width="%d" height="%d" viewBox="0 0 %d %d"'
            ' font-family="sans-serif">\n'
            '<rect width="100%%" height="100%%" fill="white"/>\n' % (self.width, self.height, self.width, self.height)
        )
        return head + SIGNATURE + "\n".join(self.parts) + "\n</svg>\n"


class Scale:
    """From values to units of a picture, upwards."""

    def __init__(self, bounds: Tuple[float, float], size: float) -> None:
        self.least, self.greatest = widened(*bounds)
        self.size = size

    def pixel(self, value: float) -> float:
        return (value - self.least) / (self.greatest - self.least) * self.size

    def down(self, value: float) -> int:
        """Units from the upper edge."""
        return round((self.size - self.pixel(value)) * UNITS)


def legend_width(panels: Sequence[Panel]) -> float:
    """The room at the right of the panels for the names of their curves."""
    names = [legend_name(curve) for _, curves in panels if len(curves) > 1 for curve, _ in curves[:MOST_LABELS]]
    return max((SMALL_LETTER * len(name) for name in names), default=0.0) + (10 if names else 0)


def legend_name(curve: Curve) -> str:
    return "%s [%s]" % (curve.label, curve.unit) if curve.unit else curve.label


def picture_of(panels: Sequence[Panel], marks: Optional[Marks], times: Tuple[float, float], words: Drawing) -> str:
    """The picture of panels over time; `words` has the title, the axis and the height of a panel."""
    width = panels[0][1][0][0].width
    rows = sorted(marks.places)[:MOST_MARK_ROWS] if marks else []
    strip = len(rows) * MARK_ROW + (GAP if rows else 0)
    has_tubes = any(curve.tube for _, curves in panels for curve, _ in curves)
    height = TOP + len(panels) * (words.height + GAP) - GAP + strip + BOTTOM + NOTE_ROW * has_tubes
    picture = Picture(math.ceil(LEFT + width + RIGHT + legend_width(panels)), height, words.title)
    begin, end = times
    steps = {
        value: LEFT + (value - begin) / (end - begin) * width if end > begin else LEFT
        for value in axis_steps(begin, end, 8)
    }
    top = TOP
    for label, curves in panels:
        for x in steps.values():
            picture.line(x, top, x, top + words.height)
        panel(picture, top, width, words.height, label, curves)
        top += words.height + GAP
    if marks and rows:
        mark_rows(picture, top, width, rows, marks)
        top += strip
    bottom = top - GAP
    for value, x in steps.items():
        picture.line(x, bottom, x, bottom + 4, "#888")
        picture.text(x, bottom + 16, number_text(value), "middle")
    picture.text(LEFT + width / 2, bottom + 32, words.axis, "middle")
    if has_tubes:
        picture.text(LEFT + width / 2, bottom + 32 + NOTE_ROW, NOTE, "middle", 10)
    return picture.whole()


def panel(
    picture: Picture, top: float, width: float, height: float, label: str, curves: Sequence[Tuple[Curve, bool]]
) -> None:
    """A panel with its grid, its curves and their names."""
    bounds = [curve.bounds() for curve, _ in curves if curve.points()]
    scale = Scale((min(low for low, _ in bounds), max(high for _, high in bounds)) if bounds else (0, 1), height)
    for value in axis_steps(scale.least, scale.greatest, max(3, int(height) // 26)):
        y = top + height - scale.pixel(value)
        picture.line(LEFT, y, LEFT + width, y)
        picture.text(LEFT - 5, y + 4, number_text(value), "end")
    for place, (curve, _) in enumerate(curves):
        if curve.tube:
            draw_tube(picture, top, scale, curve.tube, COLOURS[place % len(COLOURS)])
    opacity = OPACITY if len(curves) > 1 else 1.0
    for place, (curve, dashed) in enumerate(curves):
        colour = COLOURS[place % len(COLOURS)]
        across = curve.scale * UNITS
        points = [(round((tick - curve.begin) * across), scale.down(value)) for tick, value in curve.points()]
        if curve.is_dotted:
            picture.dots((LEFT, top), points, colour)
        else:
            picture.curve((LEFT, top), points, colour, dashed, opacity=opacity)
    picture.frame(LEFT, top, width, height)
    picture.upright(14, top + height / 2, label, height)
    if len(curves) > 1:
        for place, (curve, dashed) in enumerate(curves[:MOST_LABELS]):
            colour = COLOURS[place % len(COLOURS)]
            picture.text(LEFT + width + 6, top + 13 + 12 * place, legend_name(curve), "start", 10, colour)


def draw_tube(picture: Picture, top: float, scale: Scale, tube: Tube, colour: str) -> None:
    """The two certified bands around a curve: of every quantized run, and of the solution."""
    for factor, opacity in BANDS:
        edges = tube.edges(factor)
        if edges:
            upper = [(x * UNITS, scale.down(high)) for place, _, high in edges for x in (place, place + 1)]
            lower = [(x * UNITS, scale.down(low)) for place, low, _ in reversed(edges) for x in (place + 1, place)]
            picture.area(LEFT, top, upper + lower, colour, opacity)


def mark_rows(picture: Picture, top: float, width: float, rows: Sequence[str], marks: Marks) -> None:
    """A row of ticks for each branch."""
    for place, label in enumerate(rows):
        y = top + place * MARK_ROW
        picture.text(LEFT - 5, y + 9, label, "end", 9)
        path = "".join("M%d %dv8" % (LEFT + x, y + 1) for x in sorted(marks.places[label]))
        picture.parts.append('<path d="%s" stroke="%s"/>' % (path, COLOURS[place % len(COLOURS)]))


def path_picture(paths: Sequence[Path], names: Tuple[str, str], words: Drawing) -> str:
    """The picture of variables against another one."""
    size = 3 * words.height
    points = [point for path in paths for point in path.points]
    across = Scale((min(x for x, _ in points), max(x for x, _ in points)), size)
    upward = Scale((min(y for _, y in points), max(y for _, y in points)), size)
    picture = Picture(LEFT + size + RIGHT, TOP + size + BOTTOM, words.title)
    for value in axis_steps(upward.least, upward.greatest, 6):
        y = TOP + size - upward.pixel(value)
        picture.line(LEFT, y, LEFT + size, y)
        picture.text(LEFT - 5, y + 4, number_text(value), "end")
    for value in axis_steps(across.least, across.greatest, 6):
        x = LEFT + across.pixel(value)
        picture.line(x, TOP, x, TOP + size)
        picture.text(x, TOP + size + 16, number_text(value), "middle")
    for place, path in enumerate(paths):
        picture.curve((LEFT, TOP), thinned(path.points, across, upward), COLOURS[place % len(COLOURS)], width=0.8)
    picture.frame(LEFT, TOP, size, size)
    picture.text(LEFT + size / 2, TOP + size + 32, names[0], "middle", 12)
    picture.upright(14, TOP + size / 2, names[1], size)
    return picture.whole()


def thinned(points: Sequence[Tuple[float, float]], across: Scale, upward: Scale) -> List[Tuple[int, int]]:
    """Points in units, on a grid so coarse that their path is not too long."""
    grid = 2
    while True:
        found: List[Tuple[int, int]] = []
        for x, y in points:
            one = round(across.pixel(x) * UNITS / grid) * grid, round(upward.down(y) / grid) * grid
            if not found or found[-1] != one:
                found.append(one)
        if len(path_of(found)) <= PATH_LETTERS or grid >= 32:
            return found
        grid *= 2
