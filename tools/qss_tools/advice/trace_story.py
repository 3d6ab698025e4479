"""Explains refused and rejected traces (docs/TRACES.md)."""
import re
from typing import Match, Optional

from ..fault import Fault
from ..model.flat import STATE, Flat
from ..model.grammar import parse
from ..model.source import Source
from ..model.story import Story
from .certificate_story import record_place

REFUSED = re.compile(r"^trace refused: (?:top 1|(\d)((?: -?\d+)*))$")
REJECTED = re.compile(r"^rejected: trace place (\d+) fact (\d+) state (\d+) left (-?\d+) right (-?\d+)$")

RECORDS = ("trace", "scale", "refine", "Q")  # before those of the places
FIRST_PLACE = len(RECORDS) + 1

FACTS = {
    1: (
        "the state of place 0 is not the scale times the model's start",
        "the first state is",
        "the scale times the start is",
    ),
    2: (
        "the rise from the place before is not what its levels give",
        "the refinement times the rise is",
        "its levels give",
    ),
    3: ("the state lies farther from its level than the quantum allows", "the distance is", "the quantum allows"),
}


def explain(source: Source, line: str, trace: Optional[Source]) -> Story:
    """The story of a trace's refusal or rejection."""
    refused, rejected = REFUSED.match(line), REJECTED.match(line)
    if refused:
        return not_a_trace(refused, trace)
    if not rejected:
        raise Fault("no such line of a trace: %s" % line)
    place, fact, state, left, right = (int(field) for field in rejected.groups())
    names = [one.name for one in Flat(parse(source)).variables if one.role == STATE]
    if fact not in FACTS or not 1 <= state <= len(names):
        raise ValueError(line)
    sentence, left_is, right_is = FACTS[fact]
    at = None if trace is None else record_place(trace, FIRST_PLACE + place, 1 + state)
    return Story(
        at,
        "place %d, %s: %s" % (place, names[state - 1], sentence),
        "%s %d, %s %d" % (left_is, left, right_is, right),
        beside=True,
    )


def not_a_trace(refused: Match[str], trace: Optional[Source]) -> Story:
    """A text that is no trace."""
    if refused.group(1) is None:
        return Story(1 << 24 if trace is not None else None, "the trace is longer than 2^24 bytes", beside=True)
    kind, fields = refused.group(1), [int(field) for field in refused.group(2).split()]
    record = fields[0] if kind != "5" else 1
    due = RECORDS[record - 1] if record <= len(RECORDS) else "at"
    field = fields[1] if kind == "3" else 2 if kind == "5" else 1
    sentence = {
        "1": "record %d begins with another keyword; '%s' is due" % (record, due),
        "2": "record %d ('%s') has another number of fields than are due" % (record, due),
        "3": "record %d ('%s'), field %d: no number within its limit" % (record, due, field),
        "4": "the trace ends before record %d ('%s')" % (record, due),
        "5": "form %d is not 1" % fields[0],
    }[kind]
    if kind == "2":
        sentence += ": %d for %d" % (fields[2], fields[1])
    at = None if trace is None else len(trace.data) if kind == "4" else record_place(trace, record, field)
    return Story(at, sentence, "docs/TRACES.md has the records in their order", beside=True)
