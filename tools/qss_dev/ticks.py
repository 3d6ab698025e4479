"""First-order runs, computed tick by tick as docs/SEMANTICS.md defines them ('A tick', 'Rules', 'Runs and their rows').

Only the snapshot of the previous tick is kept: no lines, no due ticks, no sums. So the computation is slow, and shares
no method with a simulator by events.
"""
from collections import namedtuple
from typing import Iterator, List, Sequence, Tuple

from qss_tools.runs.machines import STATE_BITS, Machine, Statement, nearest, passes
from qss_tools.settings.limits import LEVEL_BITS

Snapshot = namedtuple("Snapshot", "states levels discretes arrived settled")
Snapshot.__doc__ = (
    "What holds at a tick; the last two are the truths of the conditions, a list for each clause, on "
    "arrival and after the handlers."
)

Row = namedtuple("Row", "tick event variable level state")
Row.__doc__ = "A row of a run: a variable by its number, of a branch its label, and None for what it has not."


class Overflow(Exception):
    """A variable, by its number, passed its limit."""

    def __init__(self, variable: int) -> None:
        super().__init__(variable)
        self.variable = variable


# rules: the level that is taken for a unit, a state and the old level


def floor_level(unit: int, state: int, _old: int) -> int:
    return state // unit


def near_level(unit: int, state: int, _old: int) -> int:
    return nearest(state, unit)


def inward_level(unit: int, state: int, old: int) -> int:
    """The level next to the state on the side of the old level."""
    return state // unit if unit * old < state else -(-state // unit)


RULES = {"floor": floor_level, "near": near_level, "inward": inward_level}

HOLDS = {
    "<": lambda value: value < 0,
    "<=": lambda value: value <= 0,
    ">": lambda value: value > 0,
    ">=": lambda value: value >= 0,
}


def truths(machine: Machine, states: Sequence[int], discretes: Sequence[int], tick: int) -> List[List[bool]]:
    """Which conditions hold; outside the statements of a branch `pre` of a variable is its value now."""
    return [
        [
            HOLDS[branch.relation](machine.value(branch.condition, states, discretes, discretes, tick))
            for branch in clause
        ]
        for clause in machine.clauses
    ]


def start_snapshot(machine: Machine) -> Snapshot:
    """The snapshot at tick 0."""
    levels = [machine.level_below(start) for start in machine.starts]
    now = truths(machine, machine.starts, machine.values, 0)
    return Snapshot(machine.starts, levels, machine.values, now, now)


class Handlers:
    """The values at a tick while the clauses have their turn, and the rows of what they do."""

    def __init__(self, machine: Machine, tick: int, states: Sequence[int], before: Sequence[int]) -> None:
        self.machine, self.tick, self.before = machine, tick, before
        self.states, self.discretes = list(states), list(before)
        self.rows: List[Row] = []

    def run(self, snapshot: Snapshot, arrived: List[List[bool]]) -> None:
        """Fires the first due branch of each clause."""
        for number, branches in enumerate(self.machine.clauses):
            due = [
                now and not (before and after)
                for now, before, after in zip(arrived[number], snapshot.arrived[number], snapshot.settled[number])
            ]
            if True in due:
                place = due.index(True)
                self.rows.append(Row(self.tick, "when", "%d.%d" % (number + 1, place + 1), None, None))
                for statement in branches[place].statements:
                    self.assign(statement)

    def assign(self, statement: Statement) -> None:
        """Executes a statement on the present values."""
        machine = self.machine
        value = machine.value(statement.form, self.states, self.discretes, self.before, self.tick)
        if statement.reinit:
            state = nearest(value, 2**machine.coefficient_bits)
            if passes(STATE_BITS, state):
                raise Overflow(statement.variable)
            self.states[statement.variable] = state
            self.rows.append(Row(self.tick, "reinit", statement.variable, None, state))
        else:
            level = nearest(value, 2 ** (2 * machine.coefficient_bits + machine.tick_bits))
            number = machine.states + statement.variable
            if passes(LEVEL_BITS, level):
                raise Overflow(number)
            self.discretes[statement.variable] = level
            self.rows.append(Row(self.tick, "set", number, level, None))


def next_level(machine: Machine, rule: str, share: int, place: int, state: int, old: int) -> int:
    """The level of a state after a tick: kept while the state is near it, else the one that the rule takes."""
    quantum = max(machine.quanta[place], abs(old) * share // 4096)
    if abs(state - machine.level_unit * old) < machine.level_unit * quantum:
        return old
    return RULES[rule](machine.level_unit, state, old)


def check_each(bits: int, numbers: Sequence[int]) -> None:
    """The first number past its limit is an overflow of its variable."""
    for variable, number in enumerate(numbers):
        if passes(bits, number):
            raise Overflow(variable)


def step(machine: Machine, rule: str, share: int, tick: int, snapshot: Snapshot) -> Tuple[Snapshot, List[Row]]:
    """The snapshot after a tick, and the tick's rows."""
    moved = [
        state + machine.slope(row, snapshot.levels, snapshot.discretes)
        for row, state in zip(machine.rows, snapshot.states)
    ]
    check_each(STATE_BITS, moved)
    arrived = truths(machine, moved, snapshot.discretes, tick)
    handlers = Handlers(machine, tick, moved, snapshot.discretes)
    handlers.run(snapshot, arrived)
    states, discretes = handlers.states, handlers.discretes
    levels = [
        next_level(machine, rule, share, place, state, old)
        for place, (state, old) in enumerate(zip(states, snapshot.levels))
    ]
    check_each(LEVEL_BITS, levels)
    for variable, row in enumerate(machine.rows):
        if machine.is_overweight(row, levels, discretes):
            raise Overflow(variable)
    rows = handlers.rows + [
        Row(tick, "level", place, level, states[place])
        for place, (level, old) in enumerate(zip(levels, snapshot.levels))
        if level != old
    ]
    return Snapshot(states, levels, discretes, arrived, truths(machine, states, discretes, tick)), rows


def snapshot_rows(machine: Machine, tick: int, event: str, snapshot: Snapshot) -> Iterator[Row]:
    """A row for each state, and then for each discrete variable."""
    for place, (level, state) in enumerate(zip(snapshot.levels, snapshot.states)):
        yield Row(tick, event, place, level, state)
    for place, value in enumerate(snapshot.discretes, machine.states):
        yield Row(tick, event, place, value, None)


def rows(machine: Machine, rule: str, share: int) -> Iterator[Row]:
    """The rows of a run, with quanta of at least this share, in 4096ths, of a level's size."""
    snapshot = start_snapshot(machine)
    yield from snapshot_rows(machine, 0, "start", snapshot)
    for tick in range(1, machine.last + 1):
        try:
            snapshot, happened = step(machine, rule, share, tick, snapshot)
        except Overflow as over:
            yield Row(tick, "overflow", over.variable, None, None)
            return
        yield from happened
    yield from snapshot_rows(machine, machine.last, "end", snapshot)
