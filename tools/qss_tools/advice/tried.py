"""How far a run of a model is off, seen by a second run with finer quanta.

The error of a run of first order grows in proportion to its quanta. So a run with a quarter of the quanta shows three
quarters of the error. If events depend on states, the two runs may come apart in phase, as with the ripple of a
hysteresis controller. Then their means, their root mean squares and their ranges are compared.
"""
import math
from dataclasses import dataclass
from fractions import Fraction
from typing import Dict, List, Optional, Sequence

from ..model.flat import Flat
from ..model.spelling import decimal_text
from .coincidences import Coincidence
from .ripples import Ripple, most_tick_bits, ripple_by_ticks
from .sampled import Sampled, canonical, sampled, shortened

FINER = 4  # times smaller quanta of the second run
FINER_TICK_BITS = 2
SEEN = 1 - 1 / FINER  # the part of an error that the second run shows
MOST_ROWS = 1000000  # of the second run
MOST_LEFT_OUT = 100  # of the samples of a state that jumps one in this many is left out
OFF = 0.01  # of a state's size: more is objected to
LEAST_SIZE = 1e-9
FEW_ROWS = 20000


@dataclass(frozen=True)
class Off:
    """By how much of its size a state is off: at its worst time, and by its mean, root mean square and range."""

    state: int
    by_time: float
    by_measures: float

    def share(self, by_phase: bool) -> float:
        """What counts: in a model whose events depend on states, a phase apart counts by its measures."""
        return min(self.by_time, self.by_measures) if by_phase else self.by_time


@dataclass(frozen=True)
class Tried:
    """What two runs showed of a model. `levels` is the number of rows of levels of the whole run, extrapolated."""

    flat: Flat
    off: List[Off]
    levels: float
    is_whole: bool  # both runs came to the end of the part of StopTime that was looked at
    by_phase: bool
    ripple: Optional[Ripple] = None  # that the ticks spoil
    coincidences: Sequence[Coincidence] = ()

    @property
    def worst(self) -> Optional[Off]:
        if not self.off:
            return None
        return max(self.off, key=lambda one: one.share(self.by_phase))

    @property
    def share(self) -> float:
        worst = self.worst
        return worst.share(self.by_phase) if worst else 0.0

    @property
    def is_right(self) -> bool:
        return self.is_whole and self.share <= OFF and self.ripple is None

    @property
    def is_out_of_phase(self) -> bool:
        """Whether only the phase is off."""
        return self.is_right and any(one.by_time > OFF for one in self.off)


def tried(program: str, data: bytes, expected: float) -> Optional[Tried]:
    """Runs a model twice. `expected` is about how many rows of levels its run has. None if nothing can be compared."""
    text = all_text = canonical(program, data)
    stop = text.flat.settings["StopTime"]
    part = min(1.0, MOST_ROWS / (FINER * max(expected, 1.0)))
    if part < 1.0:
        text = text.changed({"StopTime": decimal_text(shortened(stop, part))})
    if not text.flat.states or stop <= 0:
        return None
    coarse = sampled(program, text, MOST_ROWS)
    if not coarse.status and not any(coarse.values):
        return None
    if coarse.reached < 1 or coarse.status:
        return Tried(text.flat, [], coarse.levels / max(coarse.reached * part, 1e-9), False, False)
    fine = sampled(program, text.changed(finer_values(text.flat)))
    if not any(coarse.values) or not any(fine.values):
        return None
    flat = text.flat
    reached = max(coarse.reached, 1e-9) * float(text.flat.settings["StopTime"] / stop)
    whole = coarse.reached >= 1 and fine.reached >= 1 and not coarse.status
    ripple = ripple_by_ticks(program, all_text) if whole else None
    apart = differences(flat, coarse, fine)
    levels, events = coarse.levels / reached, has_state_events(flat)
    return Tried(flat, apart, levels, whole, events, ripple, coarse.coincidences)


def finer_values(flat: Flat) -> Dict[str, str]:
    """The values of the second run: smaller quanta, and shorter ticks and finer levels where the limits allow."""
    k, f = flat.bits("QSS_TickBits"), flat.bits("QSS_LevelBits")
    values = {"QSS_TickBits": str(max(k, min(k + FINER_TICK_BITS, most_tick_bits(flat))))}
    least = Fraction(1, 2**f)
    if flat.settings["QSS_Quantum"] > 0:
        values["QSS_Quantum"] = decimal_text(max(least, flat.settings["QSS_Quantum"] / FINER))
    for one in flat.model.declarations:
        if one.quantum_span:
            own = next(item.quantum for item in flat.variables if item.declaration is one)
            values[f"{one.name}.QSS_Quantum"] = decimal_text(max(least, own / FINER))
    return values


def has_state_events(flat: Flat) -> bool:
    """Whether a condition reads a state."""
    return any(
        key[0] == "x" and key[1] < flat.states
        for row in flat.rows()
        if row.kind == "condition"
        for key in row.form.parts
    )


def differences(flat: Flat, coarse: Sampled, fine: Sampled) -> List[Off]:
    """By how much each state is off."""
    jumping = {row.variable for row in flat.rows() if row.kind == "reinit"}
    found = []
    for state, (one, other) in enumerate(zip(coarse.values, fine.values)):
        count = min(len(one), len(other))
        one, other = one[:count], other[:count]
        size = max((abs(value) for value in other), default=0.0)
        if size < LEAST_SIZE:
            continue
        left_out = count // MOST_LEFT_OUT if state in jumping else 0
        apart = sorted(abs(x - y) for x, y in zip(one, other))[count - 1 - left_out]
        scale = 1 / (SEEN * size)
        found.append(Off(state, apart * scale, measures_apart(one, other) * scale))
    return found


def measures_apart(one: Sequence[float], other: Sequence[float]) -> float:
    """The greatest difference of the means, the root mean squares, and the values that 5 and 95 of 100 samples keep."""
    pairs = [measures_of(one), measures_of(other)]
    return max(abs(x - y) for x, y in zip(*pairs))


def measures_of(values: Sequence[float]) -> List[float]:
    count, ordered = len(values), sorted(values)
    mean = math.fsum(values) / count
    square = math.sqrt(math.fsum(value * value for value in values) / count)
    return [mean, square, ordered[count // 20], ordered[count - 1 - count // 20]]
