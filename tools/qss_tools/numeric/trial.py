"""A rough run in floating point, which shows how large the states of a model get and how fast they move.

How far it gets depends only on the model: its steps are bounded by their work, and not by time.
"""
from typing import Callable, Dict, List, Optional, Sequence, Set, Tuple

from ..model.flat import TIME, Flat, Row
from .rates import fastest, float_rows
from .statements import Statement

MOST_WORK = 70000000  # of all steps, in about 30 ns of a common processor
WORK_OF_STEP, WORK_OF_STATE = 200, 12
STEPS_A_TIME_CONSTANT, LEAST_STEPS_A_TIME_CONSTANT = 8, 1.5
STEPS_A_CLOCK = 16
STEPS_A_RETURN = 32  # from one firing of a branch to its next
MOST_FINER_RUNS = 2  # with shorter steps, because branches fire again after few of them
LEAST_RETURNS = 4  # of a branch that fires periodically
LEAST_STEPS = 256  # of a run
OVERGROWN = 1e30
LONG_SUM = 100  # terms

Derivatives = Callable[[Sequence[float], Sequence[float]], List[float]]  # of states and discrete values


class Trial:
    """What a rough run showed: of each state its largest size, its largest slope and the way that it went."""

    def __init__(self, flat: Flat, most_work: int = MOST_WORK):
        self.flat = flat
        self.rate = fastest(flat)
        self.clock = shortest_clock(flat)
        self.stop = float(flat.settings["StopTime"])
        self.derivatives = derivatives_of(flat)
        self._begin()
        step, most = self._steps(most_work)
        self._run(step, most)
        for _ in range(MOST_FINER_RUNS):
            returns = self.branches.shortest_return()
            if not returns or returns >= STEPS_A_RETURN / 2 * step or self.stop / returns * STEPS_A_RETURN > most:
                break
            step = returns / STEPS_A_RETURN
            self._begin()
            self._run(step, most)
        self._take_return(step)

    def _take_return(self, step: float) -> None:
        """Takes the shortest time between two firings of a branch for that of a clock, if the steps show it."""
        self.returns = self.branches.shortest_return()
        if self.returns and self.returns >= STEPS_A_RETURN / 4 * step:
            self.clock = min(self.clock or self.returns, self.returns)
        else:
            self.returns = None

    def _begin(self) -> None:
        """The start of a run."""
        flat = self.flat
        values = [float(value) for value in flat.starts]
        self.states, self.discretes = values[: flat.states], values[flat.states : flat.states + flat.discretes]
        self.size = [abs(value) for value in self.states]
        self.slope = [0.0] * flat.states
        self.way = [0.0] * flat.states
        self.fired = 0
        self.time = 0.0
        self.grown = False
        self.branches = Branches(flat)

    @property
    def reached(self) -> bool:
        """Whether the run was looked at up to its end, or up to where it grows past all limits."""
        return self.grown or self.time >= self.stop * (1 - 1e-9)

    def _run(self, step: float, most: int) -> None:
        if step <= 0.0:
            return
        branches, states, discretes = self.branches, self.states, self.discretes
        branches.begin(states, discretes)
        for _ in range(most):
            if self.reached:
                break
            self._step(min(step, self.stop - self.time))
            self.fired += branches.fire(self.time, states, discretes)

    def _steps(self, most_work: int) -> Tuple[float, int]:
        """The length of a step, and how many there are at most: longer ones where short ones do not reach the end."""
        terms = sum(len(entries) for entries, _ in float_rows(self.flat))
        work = WORK_OF_STEP + 4 * (terms + WORK_OF_STATE * self.flat.states) + 2 * self.branches.terms
        most = max(1, most_work // work)
        least = [self.clock / STEPS_A_CLOCK] if self.clock else []
        least += [self.stop / LEAST_STEPS]
        if not self.rate:
            return min(least), most
        short, long = (1.0 / (steps * self.rate) for steps in (STEPS_A_TIME_CONSTANT, LEAST_STEPS_A_TIME_CONSTANT))
        return min(least + [max(short, min(long, 1.001 * self.stop / most))]), most

    def _step(self, step: float) -> None:
        states, derivatives, discretes, half = self.states, self.derivatives, self.discretes, 0.5 * step
        first = derivatives(states, discretes)
        middle = derivatives([x + half * d for x, d in zip(states, first)], discretes)
        third = derivatives([x + half * d for x, d in zip(states, middle)], discretes)
        last = derivatives([x + step * d for x, d in zip(states, third)], discretes)
        sixth = step / 6.0
        moves = [sixth * (a + 2.0 * (b + c) + d) for a, b, c, d in zip(first, middle, third, last)]
        states[:] = [x + move for x, move in zip(states, moves)]
        self.way = [way + abs(move) for way, move in zip(self.way, moves)]
        self.size = [size if size > abs(x) else abs(x) for size, x in zip(self.size, states)]
        self.slope = [slope if slope > abs(a) else abs(a) for slope, a in zip(self.slope, first)]
        self.time += step
        # (a size that is no number has grown too)
        self.grown = not max(self.size, default=0.0) <= OVERGROWN

    def rows(self, quanta: Sequence[float]) -> float:
        """About how many rows of levels the whole run has with these quanta."""
        if self.time <= 0.0:
            return 0.0
        seen = sum(way / quantum for way, quantum in zip(self.way, quanta) if quantum > 0)
        return seen * max(1.0, self.stop / self.time)


def sum_text(terms: List[str]) -> str:
    """The text of a sum; that of a long one is not nested."""
    return " + ".join(terms) if len(terms) <= LONG_SUM else "sum((%s))" % ", ".join(terms)


def derivatives_of(flat: Flat) -> Derivatives:
    """The right sides as a function of the lists of states and discrete values."""
    rows = []
    for entries, constant in float_rows(flat):
        terms = [repr(constant)]
        for state, discrete, value in entries:
            parts = [repr(value)]
            parts += ["x[%d]" % state] if state is not None else []
            parts += ["d[%d]" % discrete] if discrete is not None else []
            terms.append("*".join(parts))
        rows.append(sum_text(terms))
    return eval("lambda x, d: [%s]" % ", ".join(rows), {"sum": sum})


Branch = Tuple[int, List[Statement]]  # the place of its condition, and its statements


class Returns:
    """The firings of a branch: how many there were, and when the first and the last one."""

    def __init__(self) -> None:
        self.count, self.first, self.last = 0, 0.0, 0.0

    def add(self, now: float) -> None:
        self.first = self.first if self.count else now
        self.count, self.last = self.count + 1, now

    def mean(self) -> float:
        """The mean time between two firings."""
        return (self.last - self.first) / (self.count - 1)


class Branches:
    """The clauses: which branches fire, and what they set."""

    def __init__(self, flat: Flat):
        self.states = flat.states
        self.clauses: List[List[Branch]] = []
        self.terms = 0
        conditions: List[str] = []
        for clause in flat.clauses():
            places = range(len(conditions), len(conditions) + len(clause))
            self.clauses.append(
                [(place, [Statement(flat, row) for row in rows]) for place, (_, rows) in zip(places, clause)]
            )
            conditions += [self._text(condition) for condition, _ in clause]
        self.conditions = eval("lambda t, x, d: [%s]" % ", ".join(conditions), {"sum": sum})
        self.held: List[bool] = []
        self.returns: Dict[int, Returns] = {}

    def shortest_return(self) -> Optional[float]:
        """The shortest mean time between two firings of a branch that fires again and again, or None."""
        times = [one.mean() for one in self.returns.values() if one.count > LEAST_RETURNS]
        return min(times, default=None)

    def _text(self, condition: Row) -> str:
        """The text of a condition, and its terms are counted."""
        terms = [repr(float(condition.form.constant))]
        for key, value in condition.form.parts.items():
            if key == TIME:
                terms.append("%r*t" % float(value))
            elif key[0] == "pre" or key[1] >= self.states:
                terms.append("%r*d[%d]" % (float(value), key[1] - self.states))
            else:
                terms.append("%r*x[%d]" % (float(value), key[1]))
        self.terms += len(terms)
        return "%s %s 0.0" % (sum_text(terms), condition.part.relation)

    def begin(self, states: List[float], discretes: List[float]) -> None:
        self.held = self.conditions(0.0, states, discretes)

    def fire(self, now: float, states: List[float], discretes: List[float]) -> int:
        """Fires what is due; how many branches that were."""
        arrived, held = self.conditions(now, states, discretes), self.held
        self.held = arrived
        if arrived == held:
            return 0
        due = [is_true and not was_true for is_true, was_true in zip(arrived, held)]
        if not any(due):
            return 0
        before, fired = list(discretes), first_due(self.clauses, due)
        for place, statements in fired:
            self.returns.setdefault(place, Returns()).add(now)
            for statement in statements:
                statement.run(now, states, discretes, before)
        after = self.conditions(now, states, discretes)
        self.held = [is_true and still for is_true, still in zip(arrived, after)]
        return len(fired)


def first_due(clauses: Sequence[Sequence[Branch]], due: Sequence[bool]) -> List[Branch]:
    """The first branch of each clause whose condition is due."""
    found = (next((branch for branch in clause if due[branch[0]]), None) for clause in clauses)
    return [branch for branch in found if branch is not None]


def shortest_clock(flat: Flat) -> Optional[float]:
    """The shortest step by which a statement sets a discrete variable that holds a time."""
    clocks = time_like(flat)
    steps = [
        abs(row.form.constant)
        for row in flat.rows()
        if row.kind == "set" and row.variable in clocks and row.form.constant and is_step(row, clocks)
    ]
    return float(min(steps)) if steps else None


def adds(row: Row) -> bool:
    """A statement adds something to its own variable."""
    return any(
        key[0] in ("x", "pre") and key[1] == row.variable and value == 1 for key, value in row.form.parts.items()
    )


def is_step(row: Row, clocks: Set[int]) -> bool:
    """A statement adds a constant to its own variable, and to a clock a constant and perhaps more. What an integrator
    of a controller adds depends on other variables, and is no step.
    """
    return adds(row) and (len(row.form.parts) == 1 or row.variable in clocks)


def time_like(flat: Flat) -> Set[int]:
    """The numbers of the discrete variables that hold times: conditions compare them with `time`, or they take its
    value.
    """
    found = set()
    for row in flat.rows():
        weight = row.form.parts.get(("time",))
        if weight is None:
            continue
        if row.kind == "set" and abs(weight) == 1:
            found.add(row.variable)
        if row.kind == "condition":
            found |= {
                key[1]
                for key, value in row.form.parts.items()
                if key[0] == "x" and key[1] >= flat.states and abs(value) == abs(weight)
            }
    return found
