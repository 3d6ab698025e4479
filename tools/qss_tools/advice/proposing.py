"""Proposes settings for a model, tries them by runs, and takes smaller quanta until the runs are right."""
import math
from dataclasses import dataclass
from fractions import Fraction
from typing import Dict, List, Optional, Sequence, Tuple

from ..model.flat import Flat
from ..model.source import Source
from ..numeric.error_sums import shares_of, sums_by_mode
from ..numeric.linear import Matrix
from ..numeric.trial import Trial
from ..settings import limits
from ..settings.cures import Cured, cured, meaning
from ..settings.proposal import Proposal, propose
from ..settings.rewriting import rewritten
from .refusal import refusal_of
from .ripples import Ripple, tick_bits_beside
from .tried import Tried, tried

MOST_ROUNDS = 3
MOST_TIMES = 16  # smaller quanta in one round
AIM = 0.005  # of a state's size
MOST_EXPECTED = 12e6  # rows of levels, for which smaller quanta are taken
CULPRIT = 0.25  # of the largest share: the quanta of these states are made smaller
HELPED = 0.7  # of the difference before: with more the quanta of all states are made smaller


def own_tick(flat: Flat) -> Optional[Fraction]:
    """The length of a tick that a model states, or None."""
    if not any(setting.name == "QSS_TickBits" for setting in flat.model.settings):
        return None
    return Fraction(1, 2 ** flat.bits("QSS_TickBits"))


def most_bits(proposal: Proposal) -> int:
    """The most bits of ticks that the other settings of a proposal allow."""
    return tick_bits_beside(proposal.coef_bits, proposal.level_bits, proposal.stop)


@dataclass(frozen=True)
class Proposed:
    """Settings for a model with the changes that it needs, its text with them, and what runs showed of it."""

    proposal: Proposal
    text: bytes
    seen: Optional[Tried]
    cure: Cured
    trial: Trial
    shorter: Optional[Ripple] = None  # the ripple for which the ticks are shorter than they would be

    def quanta(self) -> List[float]:
        """The quantum of each state."""
        own, rest, flat = self.proposal.own, self.proposal.quantum, self.trial.flat
        return [float(own.get(one.declaration.name, rest)) for one in flat.variables[: flat.states]]

    @property
    def share(self) -> float:
        """By how much of its size the worst state is off; nothing is known without runs."""
        if self.seen is None:
            return 0.0
        ripple = self.seen.ripple.share if self.seen.ripple else 0.0
        return max(self.seen.share, ripple) if self.seen.is_whole else math.inf


def proposed(source: Source, flat: Flat, trial: Trial, program: str) -> Tuple[Optional[Proposed], str]:
    """The settings, or None and why there are none."""
    if not trial.reached:
        most = limits.shown(float(f"{0.9 * trial.time:.1g}"))
        times = f"{limits.shown(trial.time)} of {limits.shown(trial.stop)}"
        why = f"the rough run ended at time {times}; with a StopTime of at most {most} settings can be proposed"
        return None, why
    cure = cured(source, flat, trial)
    if cure.changes:
        flat = meaning(cure.source)
        trial = Trial(flat)
    return Search(flat, trial).best(cure, program)


class Search:
    """The search for quanta with which a run is right."""

    def __init__(self, flat: Flat, trial: Trial) -> None:
        self.flat, self.trial = flat, trial
        self.names = [one.declaration.name for one in flat.variables[: flat.states]]
        self.times: Dict[str, int] = {}
        self.shares: List[float] = []
        self.sums: Optional[List[Matrix]] = None
        self.longest = own_tick(flat)  # as the length of a tick in the unit of time of the model
        self.ripple: Optional[Ripple] = None

    def best(self, cure: Cured, program: str) -> Tuple[Optional[Proposed], str]:
        """The best settings of a few rounds, or None and why there are none."""
        best: Optional[Proposed] = None
        finer: Optional[Dict[str, int]] = {}
        for _ in range(MOST_ROUNDS):
            proposal = self.proposal(finer)
            text = rewritten(cure.source, self.flat, proposal)
            line = refusal_of(program, text)
            if line:
                return best, f"the program does not accept the nearest ones ({line})"
            seen = None if self.trial.grown else tried(program, text, self.trial.rows(self.quanta(proposal)))
            one = Proposed(proposal, text, seen, cure, self.trial, self.ripple)
            best = one if best is None or one.share < best.share else best
            if seen is not None and seen.ripple is not None and proposal.tick_bits < most_bits(proposal):
                self.ripple, self.longest = seen.ripple, self.longest_after(proposal, seen.ripple)
                continue
            finer = None if seen is None or seen.is_right else self.finer(proposal, seen)
            if finer is None:
                break
        return best, ""

    def proposal(self, finer: Optional[Dict[str, int]]) -> Proposal:
        """Settings whose ticks are not longer than those that the model has or that its ripple needs, if the other
        settings allow this.
        """
        found = propose(self.flat, self.trial, finer)
        if self.longest is None:
            return found
        k = math.ceil(-limits.log2(self.longest * found.unit))
        return found._replace(tick_bits=max(found.tick_bits, min(k, most_bits(found))))

    def longest_after(self, proposal: Proposal, ripple: Ripple) -> Fraction:
        """How long a tick may be after a run in which ticks spoiled a ripple."""
        return Fraction(1, 2 ** (proposal.tick_bits + ripple.more_bits())) / proposal.unit

    def quanta(self, proposal: Proposal) -> List[float]:
        return [float(proposal.own.get(name, proposal.quantum)) for name in self.names]

    def finer(self, proposal: Proposal, seen: Tried) -> Optional[Dict[str, int]]:
        """How many times smaller the quanta are to be in the next round, by name; None if they give too many rows."""
        worst = seen.worst
        if not seen.is_whole or worst is None:
            return None
        quanta, share = self.quanta(proposal), seen.share
        helped = not self.shares or share < HELPED * self.shares[-1]
        self.shares.append(share)
        names = self.culprits(worst.state, quanta) if helped else set(self.names)
        times = 2 ** max(1, math.ceil(math.log2(min(share / AIM, MOST_TIMES))))
        while times > 1:
            found = {name: self.times.get(name, 1) * (times if name in names else 1) for name in self.names}
            smaller = [one / (times if name in names else 1) for name, one in zip(self.names, quanta)]
            if self.trial.rows(smaller) <= MOST_EXPECTED:
                self.times = found
                return found
            times //= 2
        return None

    def culprits(self, state: int, quanta: Sequence[float]) -> "set[str]":
        """The names of the states whose quanta act most on a state, by the sums over their gains in each mode."""
        if self.sums is None:
            self.sums = sums_by_mode(self.flat, self.trial.stop)
        shares = shares_of(self.sums, state, quanta)
        if not shares or not max(shares):
            return set(self.names)
        return {name for name, share in zip(self.names, shares) if share >= CULPRIT * max(shares)}
