"""Second-order runs, computed tick by tick as docs/SEMANTICS.md defines them ('Second-order runs')."""
from collections import namedtuple
from typing import Iterator, List, Sequence, Tuple

from qss_tools.runs.machines import Machine, nearest, passes
from qss_tools.runs.machines import Row as MachineRow

from .ticks import Overflow, Row

FINENESS = 64  # of states and levels
LEVEL_BITS = 49  # of a level
SUM_BITS = 94  # of the absolute sums of a rise and of its change
LOOK_SPAN = 65536  # ticks between two checks of the limits, at most

Snapshot = namedtuple("Snapshot", "states levels changes")


def rise_terms(machine: Machine, row: MachineRow, levels: Sequence[int]) -> List[int]:
    """What a state rises by in a tick, term by term."""
    return machine.level_terms(row, levels, machine.values) + [FINENESS * sum(machine.drive_terms(row, machine.values))]


def change(machine: Machine, row: MachineRow, levels: Sequence[int]) -> int:
    """The change of a level that is nearest to the rise of its state."""
    return nearest(sum(rise_terms(machine, row, levels)), machine.level_unit)


def start_snapshot(machine: Machine) -> Snapshot:
    """The snapshot at tick 0."""
    states = [FINENESS * start for start in machine.starts]
    levels = [machine.level_below(state) for state in states]
    return Snapshot(states, levels, [change(machine, row, levels) for row in machine.rows])


def look(machine: Machine, snapshot: Snapshot) -> None:
    """The first state past a limit overflows: by its level, its rise's absolute sum, or that of the rise's change."""
    sizes = (
        (LEVEL_BITS, snapshot.levels),
        (SUM_BITS, [sum(abs(one) for one in rise_terms(machine, row, snapshot.levels)) for row in machine.rows]),
        (
            SUM_BITS,
            [
                sum(abs(one) for one in machine.level_terms(row, snapshot.changes, machine.values))
                for row in machine.rows
            ],
        ),
    )
    for bits, numbers in sizes:
        for variable, number in enumerate(numbers):
            if passes(bits, number):
                raise Overflow(variable)


def step(machine: Machine, tick: int, snapshot: Snapshot) -> Tuple[Snapshot, List[bool]]:
    """The snapshot after a tick, and which states left their levels."""
    states = [
        state + sum(rise_terms(machine, row, snapshot.levels)) for row, state in zip(machine.rows, snapshot.states)
    ]
    moved = [level + one for level, one in zip(snapshot.levels, snapshot.changes)]
    left = [
        abs(state - machine.level_unit * level) >= FINENESS * machine.level_unit * quantum
        for state, level, quantum in zip(states, moved, machine.quanta)
    ]
    levels = [machine.level_below(state) if leaves else level for state, level, leaves in zip(states, moved, left)]
    changes = [
        change(machine, row, levels) if leaves else old
        for row, old, leaves in zip(machine.rows, snapshot.changes, left)
    ]
    snapshot = Snapshot(states, levels, changes)
    if any(left) or tick % LOOK_SPAN == 0 or tick == machine.last:
        look(machine, snapshot)
    return snapshot, left


def state_rows(tick: int, event: str, snapshot: Snapshot, asked: Sequence[bool]) -> Iterator[Row]:
    """The rows of the states that are asked for. Except at the end, the change of the level follows each."""
    for place, asks in enumerate(asked):
        if asks:
            yield Row(tick, event, place, snapshot.levels[place], snapshot.states[place])
            if event != "end":
                yield Row(tick, "slope", place, snapshot.changes[place], None)


def snapshot_rows(machine: Machine, tick: int, event: str, snapshot: Snapshot) -> Iterator[Row]:
    """The rows of all variables."""
    yield from state_rows(tick, event, snapshot, [True] * machine.states)
    for place, value in enumerate(machine.values, machine.states):
        yield Row(tick, event, place, value, None)


def rows(machine: Machine) -> Iterator[Row]:
    """The rows of the second-order run of a machine without clauses."""
    snapshot, tick = start_snapshot(machine), 0
    yield from snapshot_rows(machine, tick, "start", snapshot)
    try:
        look(machine, snapshot)
        for tick in range(1, machine.last + 1):
            snapshot, left = step(machine, tick, snapshot)
            yield from state_rows(tick, "level", snapshot, left)
    except Overflow as over:
        yield Row(tick, "overflow", over.variable, None, None)
        return
    yield from snapshot_rows(machine, machine.last, "end", snapshot)
