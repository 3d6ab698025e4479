"""The ripple of converters whose switching times are computed, and how far ticks spoil it.

A computed switching time is rounded up to a tick, so the duty of a controller has a resolution. With a coarse
resolution a controller can enter a limit cycle, which adds to the ripple. The limit cycle is small relative to the size
of a state. So the peak-to-peak values of two runs with the same quanta are compared: one run has the ticks of the
model, and the other one has ticks that are 16 times shorter. They are compared in windows of the fine run in which the
state is steady.
"""
import math
from dataclasses import dataclass
from fractions import Fraction
from typing import Iterator, List, Optional, Sequence, Tuple

from ..model.flat import TIME, Flat
from ..model.spelling import decimal_text
from ..numeric.trial import shortest_clock, time_like
from ..settings.limits import MOST_BITS_TOGETHER, MOST_COEF_AND_TICK_BITS, MOST_TICK_BITS, log2
from .sampled import Text, sampled, shortened

FINER_BITS = 4
PERIODS, LEAST_PERIODS = 64, 4  # of a window
SAMPLES_A_PERIOD = 61.8  # no integer, so that the samples meet all phases
MOST_SAMPLES = 1 << 18  # of all states
OFF = 0.02  # of a peak-to-peak value: more is objected to
QUANTA_OFF = 0.25  # the difference that quanta may cause
STEADY = 0.25  # of a peak-to-peak value: the difference of the means of the halves of a window
AIM = 0.01  # of a peak-to-peak value
LEAST_BITS, MOST_BITS = 2, 6  # of ticks that are added at once


@dataclass(frozen=True)
class Ripple:
    """A state whose peak-to-peak value is off because of the ticks, the switching time, and its resolution."""

    state: int
    share: float  # by which the peak-to-peak value is off
    time: int
    tick_bits: int
    ticks: float  # of a period

    def more_bits(self) -> int:
        """How many more bits of ticks are to be taken."""
        return max(LEAST_BITS, min(math.ceil(math.log2(self.share / AIM)), MOST_BITS))


def most_tick_bits(flat: Flat) -> int:
    """The most bits of ticks that the other settings of a model allow."""
    return tick_bits_beside(flat.bits("QSS_CoefBits"), flat.bits("QSS_LevelBits"), flat.settings["StopTime"])


def tick_bits_beside(coef_bits: int, level_bits: int, stop: Fraction) -> int:
    """The most bits of ticks that bits of coefficients and levels and a stop time allow."""
    most = min(MOST_TICK_BITS, MOST_COEF_AND_TICK_BITS - coef_bits, MOST_BITS_TOGETHER - coef_bits - level_bits)
    return min(most, 31 - (math.floor(log2(stop)) + 1 if stop > 0 else 0))


def computed_times(flat: Flat) -> List[int]:
    """The switching times that a statement computes from variables that are no times, such as a duty."""
    clocks = time_like(flat)
    return sorted(
        {
            row.variable
            for row in flat.rows()
            if row.kind == "set" and row.variable in clocks
            if any(number not in clocks for key in row.form.parts if key != TIME for number in key[1:])
        }
    )


def ripple_by_ticks(program: str, text: Text) -> Optional[Ripple]:
    """The state whose ripple the ticks spoil most, or None if no ripple is off."""
    flat = text.flat
    period, times, k = shortest_clock(flat), computed_times(flat), flat.bits("QSS_TickBits")
    finer = min(k + FINER_BITS, most_tick_bits(flat))
    if not period or not times or finer <= k:
        return None
    count = float(flat.settings["StopTime"]) / period
    most = MOST_SAMPLES / (SAMPLES_A_PERIOD * flat.states)
    if count > most:
        text, count = text.changed({"StopTime": decimal_text(shortened(flat.settings["StopTime"], most / count))}), most
    samples = int(min(SAMPLES_A_PERIOD, period * 2 ** (k - 1)) * count)
    length = int(samples / count * min(PERIODS, count / 2))
    if count < 2 * LEAST_PERIODS or length < LEAST_PERIODS:
        return None
    runs = [text, text.changed({"QSS_TickBits": str(finer)})]
    coarse, fine = (sampled(program, one, samples=samples).values for one in runs)
    worst = max(shares(flat, coarse, fine, length), default=None)
    return None if worst is None else Ripple(worst[1], worst[0], times[0], k, period * 2**k)


Values = Sequence[Sequence[float]]


def shares(flat: Flat, coarse: Values, fine: Values, length: int) -> Iterator[Tuple[float, int]]:
    """By how much the ripple of each state is off in each steady window, with the state, if that is too much."""
    for state, (one, other) in enumerate(zip(coarse, fine)):
        noise = QUANTA_OFF * float(flat.variables[state].quantum)
        for begin in range(0, min(len(one), len(other)) - length + 1, length):
            window = other[begin : begin + length]
            size = peak_to_peak(window)
            apart = abs(peak_to_peak(one[begin : begin + length]) - size)
            if apart > max(OFF * size, noise) and is_steady(window, size):
                yield apart / max(size, noise), state


def peak_to_peak(values: Sequence[float]) -> float:
    return max(values) - min(values)


def is_steady(window: Sequence[float], size: float) -> bool:
    """Whether the two halves of a window have about the same mean."""
    half = len(window) // 2
    first, second = math.fsum(window[:half]) / half, math.fsum(window[-half:]) / half
    return abs(first - second) <= STEADY * size
