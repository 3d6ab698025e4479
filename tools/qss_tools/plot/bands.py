"""The certified bands of the curves of a picture, as areas."""
from typing import Iterable, List, NamedTuple

from .curves import Curve

NOTE = "dark: the solution lies here (proved); light: every quantized run lies here (proved)"
BANDS = ((2, 0.13), (1, 0.22))  # half widths and opacity: of every quantized run, of the solution


class Band(NamedTuple):
    """An area around a curve: the place of the curve in its panel, an opacity, times and two edges."""

    place: int
    opacity: float
    times: List[float]
    lower: List[float]
    upper: List[float]


def bands_of(curves: Iterable[Curve], begin: float, end: float) -> List[Band]:
    """The certified bands of the curves of a panel, drawn from one time to another."""
    found = []
    for place, curve in enumerate(curves):
        tube = curve.tube
        if tube is None:
            continue
        for factor, opacity in BANDS:
            edges = tube.edges(factor)
            times = [begin + (end - begin) * (x + 0.5) / tube.width for x, _, _ in edges]
            found.append(Band(place, opacity, times, [low for _, low, _ in edges], [high for _, _, high in edges]))
    return found
