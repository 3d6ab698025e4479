"""The curves of a picture: straight lines between points, thinned by columns while rows are read."""
import math
from typing import Any, Dict, List, Optional, Set, Tuple

from ..certificates.band import Tube

Point = Tuple[float, float]
FULL = 4  # points of a column that are kept
MANY = 16  # points of a column that are held before they are thinned


class Curve:
    """A variable over time, as straight lines between points (tick, value).

    The picture has columns. Of a column with many points the first, the least, the greatest and the last one are kept,
    so that lines through these points cover the same pixels.
    """

    def __init__(self, label: str, width: int, begin: float, end: float):
        self.label = label
        self.unit: Optional[str] = None
        self.width = width
        self.begin, self.end = begin, end
        self.scale = width / (end - begin) if end > begin else 0.0
        self.value: Optional[float] = None
        self.at = begin
        self.tube: Optional[Tube] = None  # the certified band around it
        self.is_held = True  # no value moves on a line
        self.is_dotted = False  # there are no lines between the points
        self.place: Optional[int] = None  # the last column, whose points are in `column`
        self.column: List[Point] = []
        self.found: List[Point] = []
        self.before: Optional[Point] = None
        self.is_over = False

    def take(self, tick: float, value: float) -> None:
        """The variable has this value from this tick on."""
        if self.value is not None:
            self.add(tick, self.value)
        self.reach(tick, value)

    def line_to(self, tick: float, value: float) -> None:
        """The variable moves on a straight line to this value at this tick."""
        self.is_held = False
        self.reach(tick, value)

    def reach(self, tick: float, value: float) -> None:
        self.add(tick, value)
        self.value, self.at = value, tick

    def finish(self, tick: float) -> None:
        """The run ends at a tick."""
        if self.value is not None:
            self.add(max(tick, self.at), self.value)
        self.found += thinned(self.column)
        self.column = []

    def set_points(self, points: List[Point], is_held: bool) -> None:
        """Takes all points, which are thinned already."""
        self.found, self.is_held = points, is_held

    def add(self, tick: float, value: float) -> None:
        """Adds a straight line to this point. What is outside of the picture is cut off."""
        last, self.before = self.before, (tick, value)
        if tick < self.begin or self.is_over:
            return
        if last is not None and last[0] < self.begin < tick:
            self.keep(self.begin, between(last, (tick, value), self.begin))
        if tick > self.end:
            self.is_over = True
            if last is not None and last[0] < self.end:
                self.keep(self.end, between(last, (tick, value), self.end))
            return
        self.keep(tick, value)

    def keep(self, tick: float, value: float) -> None:
        place = int((tick - self.begin) * self.scale)
        column = self.column
        if place != self.place:
            self.found += thinned(column)
            self.place, self.column = place, [(tick, value)]
        elif column[-1] != (tick, value):
            column.append((tick, value))
            if len(column) > MANY:
                self.column = thinned(column)

    def bounds(self) -> Tuple[float, float]:
        """The least and the greatest value that is drawn, with the band."""
        values = [value for _, value in self.found]
        least, greatest = min(values), max(values)
        wide = self.tube.bounds() if self.tube else None
        return (min(least, wide[0]), max(greatest, wide[1])) if wide else (least, greatest)

    def points(self) -> List[Point]:
        """The points in their order, with both ends of each jump."""
        return self.found

    def changes(self) -> List[Point]:
        """The last point of each tick: between two of them the value is held."""
        found = self.found
        ends: List[Any] = [*found[1:], None]
        return [point for point, after in zip(found, ends) if after is None or after[0] != point[0]]

    def columns(self) -> List[Optional[Tuple[float, float]]]:
        """The least and the greatest value in each column, or None where there is no curve."""
        found: List[Optional[Tuple[float, float]]] = [None] * self.width
        for one, other in zip(self.found, self.found[1:] or self.found):
            first, last = ((tick - self.begin) * self.scale for tick, _ in (one, other))
            end = math.ceil(last) if last > first else math.floor(first) + 1
            for place in range(max(0, math.floor(first)), min(self.width, end)):
                parts = [min(max(edge, first), last) for edge in (place, place + 1)]
                values = [between((first, one[1]), (last, other[1]), part) for part in parts] if last > first else []
                values = values or [one[1], other[1]]
                known = found[place]
                if known is not None:
                    values += known
                found[place] = min(values), max(values)
        return found


def between(one: Point, other: Point, tick: float) -> float:
    """The value at a tick on the line between two points."""
    return one[1] + (other[1] - one[1]) * (tick - one[0]) / (other[0] - one[0])


def thinned(points: List[Point]) -> List[Point]:
    """The first, the least, the greatest and the last of these points, in their order."""
    if len(points) <= FULL:
        return points
    values = [value for _, value in points]
    places = {0, len(points) - 1, values.index(min(values)), values.index(max(values))}
    return [points[place] for place in sorted(places)]


MOST_POINTS = 200000
FEWEST_STEPS = 3  # numbers at an axis


class Path:
    """A variable against another one, as points in their order; every second one is dropped where they get too many."""

    def __init__(self, label: str):
        self.label = label
        self.points: List[Tuple[float, float]] = []
        self.stride = 1
        self.count = 0

    def take(self, x: float, y: float) -> None:
        if self.count % self.stride == 0:
            self.points.append((x, y))
            if len(self.points) > MOST_POINTS:
                self.points = self.points[::2]
                self.stride *= 2
        self.count += 1


class Marks:
    """The columns in which branches fired, by their numbers."""

    def __init__(self, width: int, begin: float, end: float):
        self.width = width
        self.begin = begin
        self.scale = width / (end - begin) if end > begin else 0.0
        self.places: Dict[str, Set[int]] = {}
        self.counts: Dict[str, int] = {}

    def take_all(self, ticks: Any, label: str) -> None:
        """Takes an array of ticks of a branch."""
        places = ((ticks - self.begin) * self.scale).clip(-1, self.width + 1).astype(int)
        inside = places[(ticks >= self.begin) & (places <= self.width)].clip(0, self.width - 1)
        self.counts[label] = len(ticks)
        if len(inside):
            self.places[label] = set(inside.tolist())

    def take(self, tick: float, label: str) -> None:
        place = math.floor((tick - self.begin) * self.scale)
        self.counts[label] = self.counts.get(label, 0) + 1
        if 0 <= place <= self.width:
            self.places.setdefault(label, set()).add(min(place, self.width - 1))


def axis_steps(least: float, greatest: float, count: int) -> List[float]:
    """Round numbers between two, about `count`, and at least three."""
    for more in range(count, 4 * count + 8):
        found = nice_steps(least, greatest, more)
        if len(found) >= FEWEST_STEPS or not greatest > least:
            return found
    return found


def nice_steps(least: float, greatest: float, count: int) -> List[float]:
    """Round numbers between two, about `count`."""
    if not greatest > least:
        return [least]
    raw = (greatest - least) / max(1, count)
    power = 10.0 ** math.floor(math.log10(raw))
    step = next(factor * power for factor in (1, 2, 2.5, 5, 10) if factor * power >= raw * 0.999)
    first = math.ceil(least / step - 1e-9)
    return [round(number * step, 12) + 0.0 for number in range(first, math.floor(greatest / step + 1e-9) + 1)]


def number_text(value: float) -> str:
    """A number at an axis."""
    return "%.6g" % value


def widened(least: float, greatest: float) -> Tuple[float, float]:
    """Bounds with a little room; a line that rests gets room too."""
    if greatest > least:
        room = 0.04 * (greatest - least)
    else:
        room = abs(least) * 0.1 or 1.0
    return least - room, greatest + room
