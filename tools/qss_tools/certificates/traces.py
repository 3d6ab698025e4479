"""Traces: the text that `qss check` reads, from the rows of a run or from another program's solution."""
from typing import List, Sequence

from ..fault import Fault
from .affine import Affine

MOST_PLACES = 2**24
MOST_BYTES = 2**24
LEAST_BYTES = 3  # of a place, without its numbers: `at` and the end of the line
MOST_FACTOR = 2**16
QUANTUM_BITS, STATE_BITS, LEVEL_BITS = 43, 108, 64
MOST_STATE, MOST_LEVEL = 2**STATE_BITS, 2**LEVEL_BITS


def is_too_long(places: int, states: int) -> bool:
    """Whether even the shortest text of a trace with this number of places and states is too long."""
    return places > MOST_PLACES or places * (LEAST_BYTES + 4 * states) > MOST_BYTES


class Trace:
    """The places of a trace, and the greatest distance of each state from its level."""

    def __init__(self, system: Affine, scale: int, refine: int) -> None:
        self.system, self.scale, self.refine = system, scale, refine
        self.lines: List[str] = []
        self.bytes = 0
        self.gaps = [0] * system.states

    def check_length(self, places: int) -> None:
        """A trace with this number of places is too long if even its shortest text is."""
        if is_too_long(places, self.system.states):
            raise Fault(
                "the run has %d ticks, and a trace has at most %d bytes: take a shorter StopTime or fewer QSS_TickBits"
                % (places, MOST_BYTES)
            )

    def add(self, states: List[int], levels: List[int]) -> None:
        number = len(self.lines)
        if number == MOST_PLACES:
            raise Fault("a trace has at most %d places" % MOST_PLACES)
        if max(abs(one) for one in states) > MOST_STATE or max(abs(one) for one in levels) > MOST_LEVEL:
            raise self.passed(number, states, levels)
        line = "at," + ",".join(map(str, states + levels))
        self.bytes += len(line) + 1
        if self.bytes > MOST_BYTES:
            raise Fault("the trace passes %d bytes at place %d: a shorter run or longer steps" % (MOST_BYTES, number))
        unit = self.system.unit
        self.gaps = [max(gap, abs(state - unit * level)) for gap, state, level in zip(self.gaps, states, levels)]
        self.lines.append(line)

    def passed(self, number: int, states: Sequence[int], levels: Sequence[int]) -> Fault:
        """The fault of a state or a level that passes its limit."""
        for name, bits, values in (("state", STATE_BITS, states), ("level", LEVEL_BITS, levels)):
            for place, value in enumerate(values):
                if abs(value) > 2**bits:
                    return Fault(
                        "the %s of %s passes 2^%d at place %d" % (name, self.system.names[place], bits, number)
                    )
        raise ValueError(number)

    def least_quanta(self, lowest: Sequence[int]) -> List[int]:
        """The least quanta that the trace keeps, each at least this one."""
        whole = self.scale * self.system.unit
        quanta = [max(least, -(-gap // whole)) for least, gap in zip(lowest, self.gaps)]
        for name, quantum in zip(self.system.names, quanta):
            if quantum > 2**QUANTUM_BITS:
                raise Fault("%s lies more than 2^%d levels from its run" % (name, QUANTUM_BITS))
        return quanta

    def text(self, quanta: Sequence[int]) -> str:
        lines = ["trace,1", "scale,%d" % self.scale, "refine,%d" % self.refine, "Q," + ",".join(map(str, quanta))]
        text = "\n".join(lines + self.lines) + "\n"
        if len(text) > MOST_BYTES:
            raise Fault(
                "the trace has %d bytes, and a trace has at most %d: a shorter run or longer steps"
                % (len(text), MOST_BYTES)
            )
        return text
