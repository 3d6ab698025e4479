"""Pictures as plain text, for a terminal."""
from typing import List, Sequence, Tuple

from .curves import Curve, number_text, widened
from .drawing import Drawing

HEIGHT = 10
EDGE = 12


def text_of(
    panels: Sequence[Tuple[str, Sequence[Tuple[Curve, bool]]]], times: Tuple[float, float], words: Drawing
) -> str:
    """The panels as lines of signs."""
    lines = [words.title]
    for label, curves in panels:
        lines.append(
            "%s" % label
            + (
                "  (%s)" % ", ".join("%s %s" % (sign_of(place), curve.label) for place, (curve, _) in enumerate(curves))
                if len(curves) > 1
                else ""
            )
        )
        lines += panel(curves)
    begin, end = times
    width = panels[0][1][0][0].width
    left, right = number_text(begin), number_text(end)
    lines.append(" " * EDGE + left + words.axis.center(width - len(left) - len(right)) + right)
    return "\n".join(line.rstrip() for line in lines) + "\n"


def sign_of(place: int) -> str:
    return "*o+x#@%&"[place % 8]


def panel(curves: Sequence[Tuple[Curve, bool]]) -> List[str]:
    width = curves[0][0].width
    bounds = [curve.bounds() for curve, _ in curves if curve.points()]
    least, greatest = widened(min(low for low, _ in bounds), max(high for _, high in bounds)) if bounds else (0.0, 1.0)
    grid = [[" "] * width for _ in range(HEIGHT)]

    def row_of(value: float) -> int:
        return min(HEIGHT - 1, max(0, HEIGHT - 1 - int((value - least) / (greatest - least) * HEIGHT)))

    for place, (curve, _) in enumerate(curves):
        for x, column in enumerate(curve.columns()):
            for row in range(row_of(column[1]), row_of(column[0]) + 1) if column else ():
                grid[row][x] = sign_of(place)
    lines = []
    for row in range(HEIGHT):
        value = greatest - (row + 0.5) * (greatest - least) / HEIGHT
        edge = number_text(float("%.3g" % value)) if row % 3 == 0 else ""
        lines.append(edge.rjust(EDGE - 2) + " |" + "".join(grid[row]))
    return lines
