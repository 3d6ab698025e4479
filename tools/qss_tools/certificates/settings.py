"""Finds settings with which a model has a certificate."""
import math
import os
import tempfile
from collections import namedtuple
from fractions import Fraction
from typing import Iterator, List, Optional

from ..model.flat import Flat, Meaningless
from ..model.grammar import parse
from ..model.source import Source
from ..numeric.linear import Matrix, eigenvalues
from ..program import call
from ..runs.rows import Units
from ..settings.limits import (
    MOST_BITS_TOGETHER,
    MOST_COEF_AND_TICK_BITS,
    MOST_COEF_BITS,
    MOST_LEVEL_BITS,
    MOST_TICK_BITS,
    log2,
)
from ..settings.proposal import LONGER, SHORTER, Proposal, coefficient_bits
from ..settings.rewriting import rewritten
from .affine import MOST_STATES, Affine
from .conditions import text_of
from .search import NoCertificate, Progress, Search, slowest
from .use import sizes_of, use_of

QUANTUM_LEVELS = 8  # of the least quantum, at least; it has less than twice this number
LEAST_BITS = 11  # of the least coefficient
EXACT_BITS = 4  # more bits are taken if they keep all coefficients exactly
RATE_BITS = 8  # of the slowest rate, in units of a coefficient
TICK_STEP = 2
MOST_TICK_CHANGES = 7
GOOD_RATIO = 1.03  # longer ticks are taken if they cost no more
ENOUGH = 12  # a ratio with which no other unit of time is tried
MUCH = 0.7  # by how much another unit of time must be better

# Quanta that are so many times smaller, if no bounds are of use: if the bounds are near the lower bound, which is
# proportional to quanta, and else larger ones, which leave more bits for shorter ticks.
FINER = (Fraction(16), Fraction(256))
COARSER = (Fraction(1, 8), Fraction(1, 64))

Settings = namedtuple("Settings", "proposal found system text flat use")
Settings.__doc__ = """Proposed settings, the certificate that was found with them, its system, the model's new text with
its meaning, and the use of the bounds."""


class Reading:
    """A model as a text that has not been run: what `Affine` needs of a run."""

    def __init__(self, model: str, data: bytes) -> None:
        self.model = model
        self.flat = Flat(parse(Source(model, data)))
        self.units = Units(self.flat)


def exact_bits(flat: Flat) -> Optional[int]:
    """The coefficient bits that keep all coefficients and constants exactly, or None if no number of bits does."""
    most = 0
    for row in flat.rows():
        for value in row.form.parts.values():
            most = max(most, bits_of(value))
        most = max(most, bits_of(row.form.constant) - flat.bits("QSS_LevelBits"))
    return None if most > MOST_COEF_BITS else most


def bits_of(value: Fraction) -> int:
    """How many bits after the point a value has; many if it does not end."""
    below = Fraction(value).denominator
    return below.bit_length() - 1 if below & (below - 1) == 0 else 10**6


def level_bits(flat: Flat, finer: Fraction = Fraction(1)) -> int:
    """The level bits for which the least quantum, made so many times smaller, has 8 to 16 levels."""
    least = min((one.quantum for one in flat.variables[: flat.states] if one.quantum > 0), default=Fraction(1, 1024))
    return max(0, min(MOST_LEVEL_BITS, math.ceil(-log2(least / finer / QUANTUM_LEVELS))))


def matrix_of(flat: Flat) -> Matrix:
    """The coefficients between states, in floating point and per unit of time."""
    rows = [[0.0] * flat.states for _ in range(flat.states)]
    for target, row in zip(rows, flat.rows()):
        for key, value in row.form.parts.items():
            if key[0] == "product":
                target[key[1]] += float(value * flat.starts[key[2]])
            elif key[1] < flat.states:
                target[key[1]] += float(value)
    return rows


def proposals(flat: Flat, unit: Fraction, slow: float, finer: Fraction) -> Iterator[Proposal]:
    """Settings in a unit of time, with the shortest ticks first. `slow` is the slowest rate of the model."""
    stop = flat.settings["StopTime"] * unit
    f = level_bits(flat, finer)
    quantum = flat.settings["QSS_Quantum"] / finer
    written = [one for one in flat.variables[: flat.states] if one.quantum_at is not None and finer != 1]
    own = {one.declaration.name: one.quantum / finer for one in written}
    least, highest = coefficient_bits(flat, unit)
    lowest = max(0, math.ceil(RATE_BITS - math.log2(slow / float(unit))))
    p = max(lowest, least + LEAST_BITS)
    exact = exact_bits(flat) if unit == 1 else None
    if exact is not None and exact <= p + EXACT_BITS:
        p = max(lowest, exact)
    p = min(p, MOST_COEF_BITS, highest)
    most = min(MOST_TICK_BITS, MOST_COEF_AND_TICK_BITS - p, MOST_BITS_TOGETHER - p - f)
    most = min(most, 32 - (math.floor(log2(stop)) + 1 if stop > 0 else 0))
    for k in range(most, max(-1, most - TICK_STEP * MOST_TICK_CHANGES), -TICK_STEP):
        yield Proposal(unit, p, k, f, quantum, own, stop, True)


class Tries:
    """The settings of a model that were tried, with the certificates that were found."""

    def __init__(self, source: Source, flat: Flat, progress: Progress) -> None:
        self.source, self.flat, self.progress = source, flat, progress
        self.slow = slowest_rate(flat)
        self.sizes = sizes_of(flat)
        self.best: List[Settings] = []

    def tried(self, proposal: Proposal, quick: bool) -> Optional[Settings]:
        """The settings with the certificate that is found with them, or None."""
        text = rewritten(self.source, self.flat, proposal)
        try:
            reading = Reading(self.source.name, text)
            system = Affine(reading)
            found = Search(system, None, self.progress).found(quick)
        except (NoCertificate, Meaningless):
            return None
        unit = 2.0**system.level_bits
        use = use_of(system.names, [bound / unit for bound in found.certificate["E"]], self.sizes)
        return Settings(proposal, found, system, text, reading.flat, use)

    def by_unit(self, unit: Fraction, finer: Fraction) -> List[Settings]:
        """What is found in a unit of time, with quanta that are so many times smaller."""
        found: List[Settings] = []
        for proposal in proposals(self.flat, unit, self.slow, finer):
            self.progress.show("qss-advise: %d settings were tried" % (len(self.best) + len(found)))
            one = self.tried(proposal, True)
            if one is not None:
                found.append(one)
            elif found:
                break
        return found

    def search(self, finer: Fraction) -> None:
        """Tries units of time until one has certificates that are near the lower bound, and of use."""
        for unit in SHORTER[:3] + LONGER[:1]:
            found = self.by_unit(Fraction(unit), finer)
            better = any(is_better(one, self.best) for one in found)
            self.best = found + self.best if better else self.best
            if any(one.found.ratio <= ENOUGH and one.use.is_of_use for one in found):
                break

    def in_order(self) -> List[Settings]:
        """The best settings first: those whose bounds are of use, and of those with nearly the least ratio the ones
        with the longest ticks.
        """
        useful = [one for one in self.best if one.use.is_of_use]
        if not useful:
            return sorted(self.best, key=lambda one: one.use.times)
        least = min((one.found.ratio for one in useful), default=math.inf)
        near = [one for one in useful if one.found.ratio <= GOOD_RATIO * least]
        rest = sorted((one for one in self.best if one not in near), key=lambda one: one.use.times)
        return sorted(near, key=lambda one: one.proposal.tick_bits) + rest


def is_better(one: Settings, best: List[Settings]) -> bool:
    """Whether settings are better than all of these: of use if none of these is, or much nearer to the lower bound."""
    if one.use.is_of_use != any(other.use.is_of_use for other in best):
        return bool(one.use.is_of_use)
    return bool(one.found.ratio < MUCH * min((other.found.ratio for other in best), default=math.inf))


def settings_for_certificate(
    source: Source, flat: Flat, program: str, progress: Optional[Progress] = None
) -> Optional[Settings]:
    """The settings for which a certificate is accepted, of use if such settings are found; or None."""
    progress = progress or Progress()
    tries = Tries(source, flat, progress)
    tries.search(Fraction(1))
    near = any(one.found.ratio <= ENOUGH for one in tries.best)
    for finer in FINER if near else COARSER:
        if not tries.best or any(one.use.is_of_use for one in tries.best):
            break
        tries.search(finer)
    progress.end()
    for one in tries.in_order():
        full = tries.tried(one.proposal, False)
        for settings in (full, one):
            if settings is not None and is_accepted(program, settings.text, text_of(settings.found.certificate)):
                return settings
    return None


def is_accepted(program: str, model: bytes, certificate: str) -> bool:
    """Whether the program accepts the text of a certificate for the text of a model."""
    with tempfile.TemporaryDirectory() as folder:
        names = os.path.join(folder, "model.mo"), os.path.join(folder, "model.cert")
        for name, data in zip(names, (model, certificate.encode())):
            with open(name, "wb") as file:
                file.write(data)
        return call(program, ["certify"] + list(names)).status == 0


def refusal(flat: Flat) -> Optional[str]:
    """Why no certificate can speak of a model by its form, or None."""
    clauses = sum(1 for _ in flat.unrolled(flat.model.clauses))
    if clauses:
        return "it has 'when' clauses (a certificate is for a model without clauses)"
    if not 1 <= flat.states <= MOST_STATES:
        return "it has %d states (a certificate is for 1 to %d states)" % (flat.states, MOST_STATES)
    return None


def slowest_rate(flat: Flat) -> float:
    """The slowest rate of decay of a model; NoCertificate if it is unstable or marginal."""
    return slowest(eigenvalues(matrix_of(flat)), "unit of time")


def no_certificate(flat: Flat) -> Optional[str]:
    """Why a model has no certificate with any settings, or None."""
    try:
        why = refusal(flat)
        if why is None:
            slowest_rate(flat)
        return why
    except NoCertificate as none:
        return none.sentence
