"""Explains why `qss compare` rejects two runs (docs/TRACES.md, 'Comparing two runs')."""
import re
from typing import Optional

from ..certificates.fixes import MOST_COMPARED, Numbers
from ..certificates.settings import Reading
from ..fault import Fault
from ..model.flat import STATE, Flat
from ..model.grammar import parse
from ..model.source import Source
from ..model.story import Story
from ..settings.limits import place_of_setting, shown

START = re.compile(r"^rejected: start$")
QUANTUM = re.compile(r"^rejected: quantum trace ([12]) state (\d+)$")
LONG = re.compile(r"^rejected: long (\d+)$")
SUM = re.compile(r"^rejected: range places (\d+) (\d+)$")


def explain(source: Source, line: str, certificate: Optional[Source] = None) -> Optional[Story]:
    """The story of a line of `compare`, or None if it is not one. The certificate gives some numbers."""
    if not any(one.match(line) for one in (START, QUANTUM, LONG, SUM)):
        return None
    numbers = numbers_of(source, certificate)
    if START.match(line):
        return Story(
            None,
            "the start of the model is neither start of the certificate",
            *(numbers.start() if numbers else ()),
            "make the certificate for this model: 'qss propose', or tools/qss-certificate",
        )
    quantum, long, out_of_range = QUANTUM.match(line), LONG.match(line), SUM.match(line)
    if quantum:
        names = [one.name for one in Flat(parse(source)).variables if one.role == STATE]
        return Story(
            None,
            "trace %s has a quantum of %s that is above the certificate's"
            % ("A" if quantum.group(1) == "1" else "B", names[int(quantum.group(2)) - 1]),
            numbers.own_quantum(int(quantum.group(2)) - 1) if numbers else None,
            "certify larger quanta, or take a run with smaller ones",
        )
    if long:
        return too_long(Flat(parse(source)), int(long.group(1)), numbers, source.name)
    if out_of_range:
        return Story(
            None,
            "a sum passes 2^126 at the places %s and %s" % out_of_range.groups(),
            "divide P, p, mu, R, sigmaR, C and sigmaC of the certificate by a power of 2",
            "or take traces of smaller scales",
        )
    return None


def numbers_of(source: Source, certificate: Optional[Source]) -> Optional[Numbers]:
    """The numbers of a model and a certificate, or None if the model can have no certificate."""
    try:
        return Numbers(Reading(source.name, source.data), source, certificate)
    except Fault:
        return None


def too_long(flat: Flat, last: int, numbers: Optional[Numbers], name: str) -> Story:
    """The model's own runs have more ticks than a comparison takes."""
    bits = flat.bits("QSS_TickBits")
    return Story(
        place_of_setting(flat, "StopTime"),
        "the last tick of the model's own runs is %d, and compare takes at most %d" % (last, MOST_COMPARED),
        "write a StopTime of at most %s, or fewer QSS_TickBits" % shown(MOST_COMPARED / 2**bits),
        *(numbers.long(last, name) if numbers else ("or compare traces of tools/rows-to-trace",)),
    )
