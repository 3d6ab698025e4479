"""What a page shows of curves and marks: points and firings by their ticks, exact as long as they are few."""
from typing import Any, Dict, List, Sequence, Tuple

from .curves import Curve, Marks

MOST_COLUMNS, ALL_COLUMNS = 4000, 40000  # of a curve, and of all together; each has at most four points
MOST_MARKS = 4000  # of a branch


class Firings(Marks):
    """The ticks at which branches fired, of each branch at most MOST_MARKS."""

    def __init__(self, begin: float, end: float):
        super().__init__(MOST_MARKS, begin, end)
        self.ticks: Dict[str, List[float]] = {}

    def take_all(self, ticks: Any, label: str) -> None:
        super().take_all(ticks, label)
        inside = ticks[ticks >= self.begin]
        places = ((inside - self.begin) * self.scale).clip(-1, self.width + 1).astype(int)
        first = places[1:] != places[:-1]
        kept = [*inside[:1].tolist(), *inside[1:][first].tolist()]
        self.ticks[label] = [tick for tick in kept if int((tick - self.begin) * self.scale) <= self.width]

    def take(self, tick: float, label: str) -> None:
        place = int((tick - self.begin) * self.scale)
        if self.begin <= tick and place <= self.width and place not in self.places.setdefault(label, set()):
            self.ticks.setdefault(label, []).append(tick)
        super().take(tick, label)


def page_columns(curves: int) -> int:
    """How many columns each of so many curves has, so that the page does not get too large."""
    return min(MOST_COLUMNS, max(MOST_COLUMNS // 8, ALL_COLUMNS // max(1, curves)))


def times_of(ticks: Sequence[float], curve: Curve, times: Tuple[float, float]) -> List[float]:
    """Ticks as times of the picture."""
    begin, end = times
    share = (end - begin) / (curve.end - curve.begin) if curve.end > curve.begin else 0.0
    return [shortened(begin + (tick - curve.begin) * share) for tick in ticks]


def shortened(value: float) -> float:
    """Ten digits, which are enough for a picture."""
    return float("%.10g" % value)


def points_of(curve: Curve, times: Tuple[float, float]) -> List[Tuple[float, float]]:
    """The points (time, value) of a curve."""
    points = curve.points()
    return list(zip(times_of([tick for tick, _ in points], curve, times), [value for _, value in points]))
