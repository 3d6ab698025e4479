"""Findings about alternating sources: oscillators that grow, and states that turn a tick late."""
from fractions import Fraction
from typing import Iterator

from ..model.flat import Flat
from ..numeric.trial import Trial
from ..settings.cures import part_of_period
from ..settings.limits import shown
from ..settings.oscillators import GROWN, MOST_GROWTH, Oscillator, growth, oscillators
from ..settings.turns import strict_turns
from .finding import Finding


def growing(flat: Flat, trial: Trial) -> Iterator[Finding]:
    """Oscillators without damping whose amplitude grows by more than a hundredth."""
    if trial.grown:
        return
    for one in oscillators(flat, trial):
        quanta, ticks = growth(flat, one)
        if one.damping or quanta + ticks <= MOST_GROWTH:
            continue
        periods = one.lasts / one.period
        yield Finding(
            flat.variables[one.states[0]].declaration.at,
            f"{one.names(flat)} are an oscillator without damping, and a run lets it grow:"
            f" by {share_text(quanta)} in {shown(float(f'{periods:.3g}'))} periods because of its quanta,"
            f" and by {share_text(ticks)} because of the ticks",
            way_of(flat, one),
            True,
        )


def way_of(flat: Flat, one: Oscillator) -> str:
    """What keeps an oscillator from growing."""
    if part_of_period(flat, one):
        return (
            f"set it anew each {shown(one.period * part_of_period(flat, one))} by a clock, or take smaller quanta and"
            " shorter ticks (--rewrite FILE writes what fits)"
        )
    return "take smaller quanta and shorter ticks, or add damping; without clauses `qss run2` has no such growth"


def share_text(share: float) -> str:
    if share >= GROWN:
        return "far more than its size"
    return f"{100 * share:.2g} %" if share < 1 else f"{100 * share:.0f} %"


def late_turns(flat: Flat, trial: Trial) -> Iterator[Finding]:
    """Strict relations at values that a turned state meets exactly: it turns a tick late each time."""
    tick = Fraction(1, 2 ** flat.bits("QSS_TickBits"))
    for turn in strict_turns(flat):
        if not turn.is_exact(tick):
            continue
        name, relation = flat.variables[turn.state].name, turn.condition.part.relation
        yield Finding(
            turn.condition.part.sign,
            f"{name} meets this value exactly, and with '{relation}' it turns a tick late each time",
            f"write '{relation}=' (--rewrite FILE writes it)",
            True,
        )
