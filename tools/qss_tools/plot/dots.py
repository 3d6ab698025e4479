"""Measured values in a picture of a run: points next to the curves of their variables."""
import math
from typing import List, Optional, Tuple

from ..fault import Fault
from ..runs.expressions import split_outside
from ..tables.measurements import Measured, Measurements
from .curves import Curve
from .drawing import Drawing

MEASURED = "%s (measured)"


class Dots(Curve):
    """Points (tick, value) without lines between them. Each column keeps its first, least, greatest and last one."""

    def __init__(self, label: str, width: int, begin: float, end: float):
        super().__init__(label, width, begin, end)
        self.is_dotted, self.is_held = True, False

    def take_measured(self, measured: Measured, scale: int) -> None:
        """Takes the values within the picture; a unit of time has `scale` ticks."""
        for time, value in sorted(zip(measured.times, measured.values)):
            if self.begin <= time * scale <= self.end:
                self.keep(time * scale, value)
        self.finish(self.end)

    def columns(self) -> List[Optional[Tuple[float, float]]]:
        """The least and the greatest value in each column, or None where there is no point."""
        found: List[Optional[Tuple[float, float]]] = [None] * self.width
        for tick, value in self.found:
            place = min(math.floor((tick - self.begin) * self.scale), self.width - 1)
            low, high = found[place] or (value, value)
            found[place] = min(low, value), max(high, value)
        return found


def measurements_of(drawing: Drawing) -> Optional[Measurements]:
    """The measured values that are drawn; each variable that has some, and no panel, gets one."""
    args = drawing.args
    if args.data is None:
        if args.column or args.shift is not None:
            raise Fault("--column and --shift go with --with")
        return None
    if args.against or args.difference:
        raise Fault("--with draws values over time, and goes without --against and --difference")
    data = Measurements(args, drawing.run)
    if not args.names:
        for name in data.places:
            if name not in drawing.parts() and name.split("[")[0] not in drawing.parts():
                drawing.add_panel(name)
    return data


def fill(drawing: Drawing, data: Measurements) -> None:
    """Adds the measured values to the panels in which their variables are drawn."""
    scale = 2**drawing.run.units.time
    is_drawn = False
    for label, curves in drawing.panels:
        names = {curve.label for curve, _ in curves}
        names.update(split_outside(label, "+"))
        for one in data.found:
            if one.variable in names:
                dots = Dots(MEASURED % one.variable, drawing.width, *drawing.ticks(drawing.run))
                dots.take_measured(one, scale)
                curves.append((dots, False))
                is_drawn = is_drawn or bool(dots.points())
    if not is_drawn:
        names_of = ", ".join(one.variable for one in data.found)
        raise Fault(
            "%s: none of its values (of %s) is in the picture: see --names, --from, --to and --shift"
            % (data.path, names_of)
        )
