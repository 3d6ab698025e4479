"""The solution of a model in floating point, as a reference for runs. Its events are not at ticks, but at their times.
Needs numpy and scipy.

Between events a model is linear, so its flow is computed exactly: by exponentials if its states do not act on each
other, by the exponential of a matrix if it has few states, and otherwise by an integrator of order 8 with a relative
tolerance of 1e-9.
"""
import numpy
from scipy.integrate import solve_ivp
from scipy.linalg import expm
from scipy.sparse import csr_matrix
from typing import Callable, Dict, List, Optional, Sequence, Tuple

from ..model.flat import Flat, Row
from .rates import fastest, matrix
from .statements import Statement

FEW = 40  # states whose exponential is taken
MOST_CACHED = 4000
BISECTIONS = 44
MOST_TURNS = 50  # of handlers that make each other due
STEPS = 400  # in a run, at least, at which conditions are computed
RELATIVE, ABSOLUTE = 1e-9, 1e-12
NEAR = 1e-9  # parts of a step that are no difference
LEAST_LAPSE = 1e-13  # of a run: the least duration of an event, so that time advances

Array = numpy.ndarray


class Flow:
    """The states after a time in a mode."""

    def __init__(self, rows: Sequence[Tuple[Dict[int, float], float]]) -> None:
        count = len(rows)
        self.rest = numpy.array([rest for _, rest in rows])
        self.diagonal = None
        if all(set(entries) <= {place} for place, (entries, _) in enumerate(rows)):
            self.diagonal = numpy.array([entries.get(place, 0.0) for place, (entries, _) in enumerate(rows)])
        elif count <= FEW:
            self.whole = numpy.zeros((count + 1, count + 1))
            for place, (entries, rest) in enumerate(rows):
                for column, value in entries.items():
                    self.whole[place, column] = value
                self.whole[place, count] = rest
        else:
            places = [
                (value, place, column) for place, (entries, _) in enumerate(rows) for column, value in entries.items()
            ]
            values, down, across = zip(*places)
            self.sparse = csr_matrix((values, (down, across)), shape=(count, count))
            self.whole = None
        self.cache: Dict[float, Array] = {}
        self.dense: Optional[Tuple[bytes, float, Callable[[float], Array]]] = None

    def after(self, states: Array, time: float) -> Array:
        if time <= 0.0:
            return states
        if self.diagonal is not None:
            with numpy.errstate(divide="ignore", invalid="ignore"):
                grown = numpy.where(self.diagonal == 0.0, time, numpy.expm1(self.diagonal * time) / self.diagonal)
            return states * numpy.exp(self.diagonal * time) + self.rest * grown
        if self.whole is not None:
            step = self.cache.get(time)
            if step is None:
                if len(self.cache) > MOST_CACHED:
                    self.cache.clear()
                step = self.cache[time] = expm(self.whole * time)
            return step[:-1, :-1] @ states + step[:-1, -1]
        return self._integrated(states, time)

    def _integrated(self, states: Array, time: float) -> Array:
        key = states.tobytes()
        if self.dense is None or self.dense[0] != key or self.dense[1] < time:
            found = solve_ivp(
                lambda _, y: self.sparse @ y + self.rest,
                (0.0, time),
                states,
                method="DOP853",
                rtol=RELATIVE,
                atol=ABSOLUTE,
                dense_output=True,
            )
            self.dense = key, time, found.sol
        return self.dense[2](time)


class Conditions:
    """All conditions, over states, discrete values and time."""

    def __init__(self, flat: Flat, rows: Sequence[Row]) -> None:
        count = len(rows)
        self.states = numpy.zeros((count, flat.states))
        self.discretes = numpy.zeros((count, flat.discretes))
        self.time = numpy.zeros(count)
        self.constant = numpy.array([float(row.form.constant) for row in rows])
        for place, row in enumerate(rows):
            for key, value in row.form.parts.items():
                if key[0] == "time":
                    self.time[place] = float(value)
                elif key[0] == "pre" or key[1] >= flat.states:
                    self.discretes[place, key[1] - flat.states] += float(value)
                else:
                    self.states[place, key[1]] = float(value)
        relations = [row.part.relation for row in rows]
        self.sign = numpy.array([1.0 if relation in (">", ">=") else -1.0 for relation in relations])
        self.closed = numpy.array([relation in (">=", "<=") for relation in relations], bool)
        self.of_time = ~self.states.any(axis=1) & (self.time != 0.0)
        self.watched = ~self.of_time

    def rest(self, discretes: Array) -> Array:
        """What discrete values and constants give."""
        return self.discretes @ discretes + self.constant

    def hold(self, time: float, states: Array, discretes: Array) -> Array:
        value = self.sign * (self.states @ states + self.rest(discretes) + self.time * time)
        return numpy.where(self.closed, value >= 0.0, value > 0.0)

    def changes(self, discretes: Array) -> Array:
        """The times at which the conditions of time alone change."""
        return -self.rest(discretes)[self.of_time] / self.time[self.of_time]


Branch = Tuple[int, str, List[Statement]]  # the place of its condition, its label and its statements


class Reference:
    """The solution of a model; `fired` lists its firings as (time, branch)."""

    def __init__(self, flat: Flat) -> None:
        self.flat = flat
        self.states = numpy.array([float(value) for value in flat.starts[: flat.states]])
        self.discretes = numpy.array(
            [float(value) for value in flat.starts[flat.states : flat.states + flat.discretes]]
        )
        self.clauses: List[List[Branch]] = []
        conditions: List[Row] = []
        for clause in flat.clauses():
            self.clauses.append([])
            for condition, statements in clause:
                branch = len(conditions), condition.label.split()[-1], [Statement(flat, row) for row in statements]
                self.clauses[-1].append(branch)
                conditions.append(condition)
        self.conditions = Conditions(flat, conditions)
        self.flows: Dict[bytes, Flow] = {}
        self.fired: List[Tuple[float, str]] = []
        self.time = 0.0
        stop, rate = float(flat.settings["StopTime"]), fastest(flat)
        self.step = min([stop / STEPS] + ([0.25 / rate] if rate else [])) if conditions else stop
        self.least = LEAST_LAPSE * stop
        self.held = self.conditions.hold(0.0, self.states, self.discretes)

    def flow(self) -> Flow:
        key = self.discretes.tobytes()
        if key not in self.flows:
            self.flows[key] = Flow(matrix(self.flat, list(self.discretes)))
        return self.flows[key]

    def values(self, times: Sequence[float]) -> Array:
        """States and discrete values at rising times."""
        found = numpy.empty((len(times), self.flat.states + self.flat.discretes))
        place = 0
        while place < len(times):
            step = self.step
            due = self.first_change(step)
            lapse = step if due is None else max(due, self.least)
            end = self.time + lapse
            while place < len(times) and times[place] < end - 1e-15 * abs(end):
                found[place, : self.flat.states] = self.flow().after(self.states, times[place] - self.time)
                found[place, self.flat.states :] = self.discretes
                place += 1
            self.states = self.flow().after(self.states, lapse)
            self.time = end
            if due is not None:
                self.handle()
        return found

    def first_change(self, step: float) -> Optional[float]:
        """How long it takes until a condition changes, within a step, or None."""
        flow, found = self.flow(), None
        if self.is_overdue():
            return 0.0
        ahead = self.conditions.changes(self.discretes) - self.time
        # A change just after the step counts as one in the step, so that no rounding passes over it.
        ahead = ahead[(ahead > 0.0) & (ahead <= step * (1.0 + NEAR))]
        if ahead.size:
            found = float(ahead.min())
        low, high = 0.0, step if found is None else found
        if not self.differ(flow.after(self.states, high), self.time + high):
            return found
        for _ in range(BISECTIONS):
            middle = (low + high) / 2
            if not low < middle < high:
                break
            if self.differ(flow.after(self.states, middle), self.time + middle):
                high = middle
            else:
                low = middle
        return high

    def is_overdue(self) -> bool:
        """Whether a condition of time is not as it was."""
        conditions = self.conditions
        return bool(((conditions.hold(self.time, self.states, self.discretes) != self.held) & conditions.of_time).any())

    def differ(self, states: Array, time: float) -> bool:
        """Whether a condition of states is not as it was."""
        conditions = self.conditions
        return bool(((conditions.hold(time, states, self.discretes) != self.held) & conditions.watched).any())

    def handle(self) -> None:
        """Fires what is due here, and what that makes due."""
        before_held, arrived = self.held, self.arrivals()
        for _ in range(MOST_TURNS):
            before = self.discretes.copy()
            for clause in self.clauses:
                self.fire(clause, arrived & ~before_held, before)
            after = self.arrivals()
            again = after & ~arrived
            before_held = after & ~again
            arrived = after
            if not again.any():
                break
        self.held = self.arrivals()

    def fire(self, clause: Sequence[Branch], due: Array, before: Sequence[float]) -> None:
        """Runs the first branch of a clause that is due; `before` has the discrete values before all clauses."""
        branch = next((one for one in clause if due[one[0]]), None)
        if branch is None:
            return
        _, label, statements = branch
        self.fired.append((self.time, label))
        for statement in statements:
            statement.run(self.time, self.states, self.discretes, before)

    def arrivals(self) -> Array:
        """The conditions here; one of time that changes here holds as it does just after."""
        conditions = self.conditions
        found = conditions.hold(self.time, self.states, self.discretes)
        if conditions.of_time.any():
            near = numpy.abs(conditions.changes(self.discretes) - self.time) <= NEAR * max(
                self.step, 1e-3 * abs(self.time)
            )
            after = (conditions.sign * conditions.time > 0.0)[conditions.of_time]
            found[conditions.of_time] = numpy.where(near, after, found[conditions.of_time])
        return found
