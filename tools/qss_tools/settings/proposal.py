"""Proposes settings that fit a model."""
import math
from collections import namedtuple
from fractions import Fraction
from typing import Dict, List, Mapping, Optional, Sequence, Tuple, Union

from ..model.flat import STATE, Flat
from ..numeric.forms import lower_bound
from ..numeric.linear import eigenvalues
from ..numeric.rates import matrix
from ..numeric.trial import Trial, is_step, time_like
from .limits import (
    MOST_BITS_TOGETHER,
    MOST_COEF_AND_TICK_BITS,
    MOST_COEF_BITS,
    MOST_LEVEL_BITS,
    MOST_TICK_BITS,
    log2,
)
from .oscillators import Oscillator, oscillators
from .sticking import sticking
from .turns import turns

# Units of time that are tried: how many of them are one of the model's own.
SHORTER: Tuple[Union[int, Fraction], ...] = (1, 1000, 1000000, 1000000000)
LONGER: Tuple[Union[int, Fraction], ...] = (Fraction(1, 60), Fraction(1, 3600), Fraction(1, 86400))

TICKS_A_TIME_CONSTANT = 64
TICKS_A_CLOCK = 1024
QUANTA_A_RANGE = 1000
MOST_DIFFERENCE = 0.04  # of a state's size, between a run and the solution if all quantization errors add up
MOST_STATES = 16  # of a model whose quantization errors are added up
LEAST_DAMPING = 1e-4  # of the fastest rate: without damping the errors have no bound
MOST_FINER = 64  # times smaller quanta
LEAST_SIZE = 1e-6  # of a state that moves at all
LEAST_UNITS = 10  # bits of the least coefficient: half a thousandth
GOOD_UNITS = 17
GOOD_LEVEL_BITS = 20
COMFORT_TICK_BITS = 18  # of a longer unit of time
GROWTH = 0.005  # of an oscillator, by its quanta, for which smaller quanta are taken
MOST_ROWS_OF_OSCILLATOR = 3e6  # for which they are not taken
GROWTH_BY_TICKS = 0.001
ANGLE_OF_TICK = 0.0005  # in radians of an oscillator: a clock that sets it anew is up to a tick late
DRIFT = 2e-4  # of the step of a clock until StopTime, and of a period of a state that clauses turn

Proposal = namedtuple("Proposal", "unit coef_bits tick_bits level_bits quantum own stop fits")
Proposal.__doc__ = """Settings: the unit (how many are one of the model's own), the bits, the quantum, the own quanta by
declaration, StopTime, and whether all limits are kept."""


def power_below(value: float) -> Fraction:
    """The greatest power of two at most a positive number."""
    return Fraction(2) ** math.floor(math.log2(value))


def wanted_quanta(flat: Flat, trial: Trial, finer: Mapping[str, int]) -> Tuple[Fraction, Dict[str, Fraction]]:
    """The quantum of the model, and by name those of declarations that need an own one. Those of the names in `finer`
    are so many times smaller.
    """
    written = any(setting.name == "QSS_Quantum" for setting in flat.model.settings)
    sizes: Dict[str, float] = {}
    wanted: Dict[str, Fraction] = {}
    for number, one in enumerate(flat.variables[: flat.states]):
        name = one.declaration.name
        sizes[name] = max(sizes.get(name, 0.0), trial.size[number])
    for one in flat.variables[: flat.states]:
        name = one.declaration.name
        if one.quantum_at is not None or written or trial.grown or sizes[name] < LEAST_SIZE:
            wanted[name] = one.quantum if one.quantum > 0 else Fraction(1, 1024)
        else:
            wanted[name] = power_below(sizes[name] / QUANTA_A_RANGE)
    if not written and not trial.grown:
        all_finer = 2 ** max(0, math.ceil(log2(accumulation(flat, sizes, wanted))))
        own = {one.declaration.name for one in flat.variables[: flat.states] if one.quantum_at is not None}
        wanted = {name: quantum if name in own else quantum / all_finer for name, quantum in wanted.items()}
    for block in oscillators(flat, trial):
        for name, times in finer_of(flat, block, wanted).items():
            wanted[name] /= times
    wanted = {name: quantum / finer.get(name, 1) for name, quantum in wanted.items()}
    if written and flat.settings["QSS_Quantum"] > 0 and not finer:
        model = flat.settings["QSS_Quantum"]
    else:
        model = min(wanted.values(), default=Fraction(1, 1024))
    return model, {name: size for name, size in wanted.items() if size >= 4 * model or size < model}


def finer_of(flat: Flat, one: Oscillator, wanted: Dict[str, Fraction]) -> Dict[str, int]:
    """How many times smaller the quanta of an oscillator are to be, by name; nothing if that gives too many rows."""
    quanta = [float(wanted[variable.declaration.name]) for variable in flat.variables[: flat.states]]
    growth = one.by_quanta(quanta)
    if growth <= GROWTH or one.damping:
        return {}
    finer = 2 ** math.ceil(math.log2(growth / GROWTH))
    if one.rows(quanta, float(flat.settings["StopTime"])) * finer > MOST_ROWS_OF_OSCILLATOR:
        return {}
    return {flat.variables[state].declaration.name: finer for state in one.states}


def accumulation(flat: Flat, sizes: Dict[str, float], wanted: Dict[str, Fraction]) -> float:
    """The quantization errors of a linear model, added up by its impulse responses, over what is allowed; at least 1.

    An oscillation with little damping adds up many of them.
    """
    if flat.states > MOST_STATES or len(flat.rows()) > flat.states:
        return 1.0
    names = [one.declaration.name for one in flat.variables[: flat.states]]
    rows = [[entries.get(column, 0.0) for column in range(flat.states)] for entries, _ in matrix(flat, discretes(flat))]
    values = eigenvalues(rows) if any(map(any, rows)) else []
    damped = values and max(value.real for value in values) < -LEAST_DAMPING * max(abs(value) for value in values)
    sums = damped and lower_bound(rows, values, [float(wanted[name]) for name in names])
    shares = [total / sizes[name] for total, name in zip(sums or (), names) if sizes[name] >= LEAST_SIZE]
    return min(max(shares + [MOST_DIFFERENCE]) / MOST_DIFFERENCE, MOST_FINER)


def discretes(flat: Flat) -> List[float]:
    """The discrete values at the start."""
    return [float(value) for value in flat.starts[flat.states : flat.states + flat.discretes]]


def propose(flat: Flat, trial: Trial, finer: Optional[Mapping[str, int]] = None) -> Proposal:
    """The first unit of time in which all fits, and the settings in it. By `finer` the quanta of some declarations are
    so many times smaller than they would be.
    """
    quantum, own = wanted_quanta(flat, trial, finer or {})
    quanta = [own.get(variable.declaration.name, quantum) for variable in flat.variables[: flat.states]]
    proposals = [in_unit(flat, trial, Fraction(unit), quantum, own, quanta) for unit in SHORTER + LONGER]
    return next((one for one in proposals if one.fits), proposals[0])


def longest_tick(flat: Flat, trial: Trial, quanta: Sequence[Fraction]) -> float:
    """How long a tick may be, in the model's own unit of time."""
    lengths = [1.0 / (TICKS_A_TIME_CONSTANT * trial.rate)] if trial.rate else []
    lengths += [trial.clock / TICKS_A_CLOCK] if trial.clock else []
    if not trial.grown:
        lengths += [float(quantum) / slope for quantum, slope in zip(quanta, trial.slope) if slope]
    return min(lengths, default=float(flat.settings["StopTime"]) / 1024 or 1.0)


def good_tick(flat: Flat, trial: Trial) -> float:
    """The length of a tick with which oscillators hardly grow and turned states hardly drift; 0 if any will do."""
    lengths = []
    for one in oscillators(flat, trial):
        lengths += [ANGLE_OF_TICK / one.rate, 2 * GROWTH_BY_TICKS / (one.rate**2 * one.lasts)]
    if trial.returns and any(turns(flat)):
        lengths.append(trial.returns * DRIFT * trial.returns / trial.stop)
    return min(lengths, default=0.0)


def in_unit(
    flat: Flat, trial: Trial, unit: Fraction, quantum: Fraction, own: Dict[str, Fraction], quanta: List[Fraction]
) -> Proposal:
    """The settings in a unit of time, and whether they fit."""
    stop = flat.settings["StopTime"] * unit
    k = max(0, math.ceil(-math.log2(longest_tick(flat, trial, quanta) * float(unit))))
    most_k = 32 - (math.floor(log2(stop)) + 1 if stop > 0 else 0)
    good = k <= min(MOST_TICK_BITS if unit == 1 else COMFORT_TICK_BITS, most_k)
    k = max(0, min(k, MOST_TICK_BITS, most_k))
    least, highest = coefficient_bits(flat, unit)
    p_most = min(MOST_COEF_BITS, MOST_COEF_AND_TICK_BITS - k, highest)
    good = good and p_most >= 0 and least + LEAST_UNITS <= p_most
    p = max(0, min(p_most, max(8, least + GOOD_UNITS)))
    f, fine = level_bits(flat, trial, unit, min(MOST_LEVEL_BITS, MOST_BITS_TOGETHER - p - k), quanta + [quantum])
    if not fine and p > 8:
        room = min(p - 8, max(0, p - least - LEAST_UNITS))
        p -= room
        f, fine = level_bits(flat, trial, unit, min(MOST_LEVEL_BITS, MOST_BITS_TOGETHER - p - k), quanta + [quantum])
    length = good_tick(flat, trial) * float(unit)
    if length:
        room = min(MOST_TICK_BITS, most_k, MOST_COEF_AND_TICK_BITS - p, MOST_BITS_TOGETHER - p - f)
        k = max(k, min(room, math.ceil(-math.log2(length))))
    return Proposal(unit, p, k, f, quantum, own, stop, good and fine)


def coefficient_bits(flat: Flat, unit: Fraction) -> Tuple[int, int]:
    """The bits below which the least coefficient vanishes, and the most that the greatest one allows."""
    least, highest = 0, 64
    clocks = time_like(flat)
    for row in flat.rows():
        scale = 1 / unit if row.kind == STATE else 1
        sizes = [
            abs(value * scale)
            for key, value in row.form.parts.items()
            if row.kind == STATE or not (key[0] == "time" or key[1] in clocks)
        ]
        if not sizes:
            continue
        least = max(least, math.ceil(-log2(min(sizes))))
        if row.kind == STATE:
            highest = min(highest, 43 - math.ceil(log2(max(sizes))))
        else:
            highest = min(highest, 37 - math.ceil(log2(sum(sizes) + 2)))
    return least, highest


def level_bits(flat: Flat, trial: Trial, unit: Fraction, most: int, quanta: List[Fraction]) -> Tuple[int, bool]:
    """Bits of levels, and whether quanta, discrete values and sizes are kept well by them."""
    clocks = time_like(flat)
    largest = max([size for size in trial.size if not trial.grown] + [1.0])
    most = min(most, math.floor(40 - math.log2(largest)))
    values = []
    for number, start in enumerate(flat.starts[flat.states : flat.states + flat.discretes], flat.states):
        values.append(start * unit if number in clocks else start)
    for row in flat.rows():
        if row.kind == "set" and row.form.constant and (not row.form.parts or is_step(row, clocks)):
            values.append(row.form.constant * unit if row.variable in clocks else row.form.constant)
    longest = max([abs(value) for value in values] + [flat.settings["StopTime"] * unit if clocks else 0, 1])
    most = min(most, math.floor(42 - log2(longest)))
    steps = [abs(row.form.constant * unit) for row in flat.rows() if row.kind == "set" and row.variable in clocks]
    stop = flat.settings["StopTime"] * unit
    needed = max(math.ceil(-log2(min(quanta))), 0) + 2
    ways = list(range(GOOD_LEVEL_BITS, most + 1)) + list(range(min(most, GOOD_LEVEL_BITS - 1), needed - 1, -1))
    good = [bits for bits in ways if bits >= needed and all(well_kept(value, bits) for value in values)]
    good = [bits for bits in good if not any(sticking(flat, bits))]
    steady = [bits for bits in good if all(not step or drift(step, bits, stop) <= DRIFT for step in steps)]
    if good:
        return (steady or good)[0], True
    return max(0, min(most, MOST_LEVEL_BITS)), False


def drift(step: Fraction, bits: int, stop: Fraction) -> float:
    """How far a clock is off at the stop time because its step is rounded, relative to its step."""
    return float(abs(round(step * 2**bits) / Fraction(2**bits) - step) * stop / step / step)


def well_kept(value: Fraction, bits: int) -> bool:
    """A discrete value is rounded by less than a ten thousandth."""
    return abs(round(value * 2**bits) / Fraction(2**bits) - value) <= abs(value) / 10000
