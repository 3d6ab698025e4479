"""Oscillators among the states of a model, and how much their amplitude grows in a run of first order.

A level follows its state with a delay of up to a quantum and a tick, so an oscillation without damping grows. In each
period it grows by twice the quantum of each of its two states, relative to their amplitudes. Ticks of length h let the
oscillation of angular frequency w grow by the factor exp(w^2 h t/2) in the time t.
"""
import math
from dataclasses import dataclass
from fractions import Fraction
from typing import Dict, Iterator, List, Optional, Sequence, Set, Tuple

from ..model.flat import TIME, BranchRows, Flat, Row
from ..numeric.linear import eigenvalues, exponential, size
from ..numeric.rates import matrix
from ..numeric.trial import Trial

MOST_BLOCK = 8  # states of a block whose eigenvalues are computed
NEAR = 1e-6  # of an identity, and of an eigenvalue without a real part relative to its size
LEAST_PERIODS = 0.5  # in a run: with fewer nothing swings
MANY = 12  # states of a block that is a chain
HARDLY = 0.05  # of its mean frequency is the mean damping of a chain that is hardly damped
MOST_GROWTH = 0.01  # of an amplitude: more is objected to
GROWN = 1e6  # a factor of growth that is not computed further

Reset = Tuple[int, str]  # the place of a branch among all branches, and what it does to an oscillator
Block = Tuple[int, ...]


@dataclass(frozen=True)
class Oscillator:
    """A block of states that swing.

    The rate is the angular frequency and the damping the rate of decay, both per unit of time. `lasts` is the time
    after which its errors are forgotten: a clause sets its states anew, or they have decayed, or the run ends.
    """

    states: Block
    rate: float
    damping: float
    sizes: Tuple[float, ...]
    is_autonomous: bool
    is_mirrored: bool
    is_set_anew: bool
    lasts: float

    @property
    def period(self) -> float:
        return 2 * math.pi / self.rate

    def by_quanta(self, quanta: Sequence[float]) -> float:
        """How much the amplitude grows by quanta, relative to itself."""
        shares = [quanta[state] / size for state, size in zip(self.states, self.sizes) if size]
        return 2 * sum(shares) * 2 / len(self.states) * self.lasts / self.period

    def by_ticks(self, tick: float) -> float:
        """How much the amplitude grows by ticks of this length, relative to itself."""
        exponent = self.rate**2 * tick * self.lasts / 2
        return GROWN if exponent > math.log(GROWN) else math.expm1(exponent)

    def rows(self, quanta: Sequence[float], stop: float) -> float:
        """About how many rows of levels its states have until the stop time."""
        return sum(4 * size / quanta[state] for state, size in zip(self.states, self.sizes)) * stop / self.period

    def names(self, flat: Flat) -> str:
        names = [flat.variables[state].name for state in self.states]
        return ", ".join(names[:-1]) + " and " + names[-1]


class Search:
    """The search for strongly connected components, by Tarjan, without recursion."""

    def __init__(self, following: List[List[int]]) -> None:
        self.following = following
        self.order: Dict[int, int] = {}
        self.low: Dict[int, int] = {}
        self.stack: List[int] = []
        self.found: List[Block] = []

    def begin(self, root: int) -> None:
        """Finds the components that can be reached from a state."""
        waiting = [(root, iter(self.following[root]))]
        while waiting:
            one, more = waiting[-1]
            if one not in self.order:
                self.order[one] = self.low[one] = len(self.order)
                self.stack.append(one)
            other = next(more, None)
            if other is None:
                waiting.pop()
                self.leave(one, waiting[-1][0] if waiting else None)
            elif other not in self.order:
                waiting.append((other, iter(self.following[other])))
            elif self.low[other] < len(self.following):
                self.low[one] = min(self.low[one], self.order[other])

    def leave(self, one: int, above: Optional[int]) -> None:
        """Ends the search from a state, and closes the component that began there, if one did."""
        if above is not None:
            self.low[above] = min(self.low[above], self.low[one])
        if self.low[one] == self.order[one]:
            place = self.stack.index(one)
            self.found.append(tuple(sorted(self.stack[place:])))
            for member in self.stack[place:]:
                self.low[member] = len(self.following)  # in no open component
            del self.stack[place:]


def blocks(flat: Flat) -> List[Block]:
    """The states that act on each other, in one mode or another: the strongly connected components."""
    following: List[List[int]] = []
    for row in flat.rows()[: flat.states]:
        following.append(sorted({key[1] for key in row.form.parts if key[1] < flat.states}))
    search = Search(following)
    for root in range(flat.states):
        if root not in search.order:
            search.begin(root)
    return [block for block in search.found if len(block) > 1]


def block_matrix(flat: Flat, block: Block, discretes: Sequence[float]) -> List[List[float]]:
    """The rates between the states of a block in a mode."""
    rows = matrix(flat, discretes)
    return [[rows[one][0].get(other, 0.0) for other in block] for one in block]


def oscillators(flat: Flat, trial: Trial) -> List[Oscillator]:
    """The blocks of at most eight states that swing several times before they are damped, in the mode of the start."""
    found = []
    start = [float(value) for value in flat.starts[flat.states : flat.states + flat.discretes]]
    for block in blocks(flat):
        if len(block) > MOST_BLOCK:
            continue
        rates = block_matrix(flat, block, start)
        values = [value for value in (eigenvalues(rates) if any(map(any, rates)) else []) if abs(value.imag) > 0]
        values = [value for value in values if abs(value.real) < HARDLY * abs(value.imag)]
        if values:
            one = oscillator(flat, trial, block, values)
            found += [one] if one.lasts > LEAST_PERIODS * one.period else []
    return found


def oscillator(flat: Flat, trial: Trial, block: Block, values: Sequence[complex]) -> Oscillator:
    """The oscillator of a block with these eigenvalues."""
    rate = max(abs(value.imag) for value in values)
    damping = min(max(-value.real, 0.0) for value in values)
    damping = 0.0 if damping < NEAR * rate else damping
    autonomous = is_autonomous(flat, block)
    resets = list(resets_of(flat, block))
    mirrored = autonomous and bool(resets) and all(how == "mirrored" for _, how in resets)
    period = 2 * math.pi / rate
    lasts = min([trial.stop] + ([1.0 / damping] if damping else []))
    anew = any(how == "set" for _, how in resets)
    if anew:
        lasts = min(lasts, period)
    sizes = tuple(trial.size[state] for state in block)
    others = any(how == "other" for _, how in resets)
    return Oscillator(block, rate, damping, sizes, autonomous and not others, mirrored, anew, lasts)


def is_autonomous(flat: Flat, block: Block) -> bool:
    """Whether the equations of a block read nothing but its states."""
    rows = [flat.rows()[state].form for state in block]
    return not any(form.constant for form in rows) and all(
        key[0] == "x" and key[1] in block for form in rows for key in form.parts
    )


def resets_of(flat: Flat, block: Block) -> Iterator[Reset]:
    """The branches that set states of a block: all of them by constants or the time ('set'), or each to its opposite
    ('mirrored'), or 'other'.
    """
    branches = [branch for clause in flat.clauses() for branch in clause]
    for place, (_, statements) in enumerate(branches):
        own = {one.variable: one.form for one in statements if one.kind == "reinit" and one.variable in block}
        if not own:
            continue
        if len(own) < len(block):
            yield place, "other"
        elif all(form.parts == {("x", state): -1} and not form.constant for state, form in own.items()):
            yield place, "mirrored"
        else:
            reads = {key[1] for form in own.values() for key in form.parts if key != TIME}
            yield place, "other" if any(number < flat.states for number in reads) else "set"


def returns_after(flat: Flat, one: Oscillator, part: float) -> bool:
    """Whether the states of an oscillator are those of the start, or their opposites, after this part of a period."""
    rates = block_matrix(flat, one.states, discretes_of(flat))
    flow = exponential(rates, one.period * part)
    sign = 1.0 if part == 1 else -1.0
    # (in units of the amplitudes)
    scaled = [
        [value * other / own - (sign if i == j else 0.0) for j, (value, other) in enumerate(zip(row, one.sizes))]
        for i, (row, own) in enumerate(zip(flow, one.sizes))
    ]
    return size(scaled) < NEAR * len(one.states) * 10


def discretes_of(flat: Flat) -> List[float]:
    return [float(value) for value in flat.starts[flat.states : flat.states + flat.discretes]]


def growth(flat: Flat, one: Oscillator, quanta: Optional[Sequence[float]] = None) -> Tuple[float, float]:
    """How much an oscillator grows by the quanta and by the ticks of its model, relative to its amplitude."""
    tick = 2.0 ** -flat.bits("QSS_TickBits")
    quanta = quanta or [float(variable.quantum) for variable in flat.variables[: flat.states]]
    return one.by_quanta(quanta), one.by_ticks(tick)


def chains(flat: Flat) -> Iterator[Tuple[Block, float]]:
    """The blocks of many states that swing and are hardly damped, each with its mean angular frequency.

    The sum of the eigenvalues and the sum of their squares are traces.
    """
    rows = matrix(flat, discretes_of(flat))
    for block in blocks(flat):
        if len(block) < MANY:
            continue
        members: Set[int] = set(block)
        damping = -sum(rows[one][0].get(one, 0.0) for one in block) / len(block)
        squares = sum(
            value * rows[other][0].get(one, 0.0)
            for one in block
            for other, value in rows[one][0].items()
            if other in members
        )
        if squares < 0:
            swing = math.sqrt(-squares / len(block))
            if damping < HARDLY * swing:
                yield block, swing


def period_text(flat: Flat, one: Oscillator, part: float) -> Fraction:
    """A part of the period as a decimal of few digits."""
    value = one.period * part
    for digits in range(1, 15):
        short = Fraction(f"{value:.{digits}g}")
        if abs(float(short) - value) <= 2e-9 * value:
            return short
    return Fraction(f"{value:.15g}")


def branch_of(flat: Flat, place: int) -> BranchRows:
    return [branch for clause in flat.clauses() for branch in clause][place]


def rows_of_states(flat: Flat, block: Block) -> List[Row]:
    return [flat.rows()[state] for state in block]
