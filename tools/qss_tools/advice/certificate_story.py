"""Explains refused and rejected certificates."""
import re
from typing import Match, Optional, Sequence, Tuple

from ..certificates.conditions import BY_FORM, EACH, ONE, POSITIVE, RECORDS, ROWS, SIGNED
from ..certificates.fixes import SEARCH, Numbers
from ..certificates.settings import Reading
from ..fault import Fault
from ..model.flat import Flat
from ..model.grammar import parse
from ..model.source import Source
from ..model.story import Story
from ..model.walks import leaves

CAUSE = re.compile(r"^certificate refused: (?:top 1|(\d)((?: -?\d+)*))$")
OUTSIDE = re.compile(r"^rejected: (clauses|states) (\d+)$")
REJECTED = re.compile(r"^rejected: inequality (\d+) place (\d+) left (-?\d+) right (-?\d+)$")
CANDIDATE = re.compile(r"^rejected: no candidate (\d)$")
RANGE = re.compile(r"^rejected: range inequality (\d+) place (\d+)$")

# Each inequality: what it says, the record to look at, and what helps.
INEQUALITIES = {
    2: ("P is not symmetric", "P", "write P[i][j] = P[j][i]"),
    3: (
        "h1 (P - diag p) - G1' G1 has no dominant diagonal in this row: that V is at least the sum of p y^2 is "
        "not shown",
        "G1",
        "smaller p, or G1 from a Cholesky factor of h1 (P - diag p)",
    ),
    4: (
        "h2 (N - diag mu - lambda P) - G2' G2 has no dominant diagonal in this row, where N is -(a'P + Pa):"
        " that V falls as claimed is not shown",
        "G2",
        "smaller mu or lambda, or G2 from a Cholesky factor of the matrix times h2",
    ),
    5: (
        "a start lies outside the invariant set, or the two starts lie too far apart",
        "R",
        "larger R (place 3: larger C)",
    ),
    6: ("p Z^2 is below R: a state may lie farther from the centre than Z says", "Z", "larger Z, or smaller R"),
    7: ("K S is below the largest rise of this state in a tick", "S", "larger S, or shorter ticks"),
    8: ("mu sigmaR is below the square of what one tick may add to V", "sigmaR", "larger sigmaR"),
    9: (
        "lambda R is below the sum of sigmaR: the invariant set is too small",
        "R",
        "larger R (then Z, S, sigmaR anew)",
    ),
    10: (
        "mu sigmaC is below the square of what one tick may add to V of a difference of two runs",
        "sigmaC",
        "larger sigmaC",
    ),
    11: ("lambda C is below the sum of sigmaC: two runs may lie farther apart", "C", "larger C (then E)"),
    12: ("p E^2 is below C: two runs may differ by more levels than E says", "E", "larger E"),
    13: ("Q is below a quantum of the model", "Q", "larger Q, or a smaller quantum or share in the model"),
}


# Why `propose` has no candidate, by the step at which a sum passes 2^126.
STEPS = {
    2: "the model grows and is driven: it has no resting point that is approached",
    3: "the model grows: some combination of its states is not damped",
    4: "the model is hardly damped: its form is very large",
    5: (
        "the damping of some state is too weak for the coupling or the quanta, or the rates differ too much: the "
        "invariant set grows from round to round"
    ),
    6: "the damping of some state is a little too weak for the coupling or the quanta, or the rates differ too much",
}


def explain(source: Source, line: str, certificate: Optional[Source]) -> Story:
    """The story of a certificate's refusal or rejection."""
    outside, cause = OUTSIDE.match(line), CAUSE.match(line)
    if outside:
        return no_scope(source, outside.group(1), int(outside.group(2)))
    if cause:
        return not_a_certificate(Flat(parse(source)).states, cause, certificate)
    numbers = Numbers(Reading(source.name, source.data), source, certificate)
    candidate = CANDIDATE.match(line)
    if candidate:
        sentence = "no certificate is proposed: %s" % STEPS[int(candidate.group(1))]
        return Story(None, sentence, *numbers.rates(), SEARCH.replace("MODEL", source.name))
    rejected, out_of_range = REJECTED.match(line), RANGE.match(line)
    inequality = rejected or out_of_range
    if inequality is None:
        raise Fault("no such line of a certificate: %s" % line)
    number, place = (int(field) for field in inequality.groups()[:2])
    if not 1 <= number <= 13:
        raise Fault("there are thirteen groups of conditions, and %d is none" % number)
    names = numbers.system.names
    keyword, index, text, way = meaning(names, number, place)
    at = place_in(certificate, keyword, index)
    # a rejection by `propose`, which has no file
    proposed = () if certificate is not None else (*numbers.rates(), SEARCH.replace("MODEL", source.name))
    if out_of_range:
        sentence = "inequality %d, place %d: a sum passes 2^126 here" % (number, place)
        settings = "or fewer bits: tools/qss-advise %s --certificate proposes settings" % source.name
        return Story(at, sentence, *numbers.range(), settings, *proposed, beside=True)
    left, right = (int(field) for field in inequality.groups()[2:])
    sides = "the sides are %d and %d" % (left, right)
    ways = numbers.ways(number, place, left, right)
    sentence = "inequality %d, place %d: %s" % (number, place, text)
    return Story(at, sentence, sides, way, *ways, *proposed, beside=True)


def no_scope(source: Source, what: str, count: int) -> Story:
    """No certificate can speak of the model."""
    model = parse(source)
    if what == "clauses":
        first = next(leaves(model.clauses), None)
        return Story(
            first.at if first else None,
            "a model with 'when' clauses (it has %d) has no certificate" % count,
            "certify the modes one by one: leave the clauses out and give the discrete variables their values",
        )
    return Story(
        None,
        "the model has %d states; a certificate speaks of 1 to 16" % count,
        "certify a part of the model, or a model of lower order, with at most 16 states",
    )


def meaning(names: Sequence[str], number: int, place: int) -> Tuple[str, Optional[int], str, Optional[str]]:
    """Of an inequality at a place: the record to look at, the field in it, the sentence and what helps."""
    states = len(names)
    if number == 1:
        keyword, index = in_list([record for record in RECORDS if record[0] in SIGNED], states, place)
        positive = keyword in POSITIVE
        of_state = " of %s" % names[index] if index is not None else ""
        return (
            keyword,
            index or 0,
            "%s%s is not %s" % (keyword, of_state, "at least 1" if positive else "at least 0"),
            None,
        )
    sentence, keyword, way = INEQUALITIES[number]
    if number == 2:
        first, second = pair(states, place)
        return (
            keyword,
            None,
            "P is not the same at %s, %s and at %s, %s" % (names[first], names[second], names[second], names[first]),
            way,
        )
    if number == 5:
        which = (
            "the first start lies outside the invariant set: V of it is above K^2 R",
            "the second start lies outside the invariant set: V of it is above K^2 R",
            "the starts lie too far apart: V of their difference is above K^2 C",
        )[place - 1]
        return ("C" if place == 3 else "R"), 0, which, "larger C" if place == 3 else "larger R"
    if number in (9, 11):
        return keyword, 0, sentence, way
    name = names[(place - 1) % states]
    if number == 13 and place > states:
        sentence = "4096 Q is below what the share of the level asks for at its largest"
    return keyword, place - 1 if number < 13 else (place - 1) % states, "%s: %s" % (name, sentence), way


def in_list(records: Sequence[Tuple[str, str]], states: int, place: int) -> Tuple[str, Optional[int]]:
    """Which keyword, and which state of it, a running place means."""
    for keyword, shape in records:
        count = states if shape == EACH else 1
        if place <= count:
            return keyword, place - 1 if shape == EACH else None
        place -= count
    raise Fault("there is no such place")


def pair(states: int, place: int) -> Tuple[int, int]:
    """The pair i < j of this number, counted from 1."""
    for first in range(states):
        for second in range(first + 1, states):
            place -= 1
            if not place:
                return first, second
    raise Fault("there is no such place")


def keyword_of(states: int, record: int) -> Optional[str]:
    """The keyword that is due in a record, counted from 1."""
    for keyword, shape in (("form", ONE), *BY_FORM[3]):
        count = states if shape == ROWS else 1
        if record <= count:
            return keyword
        record -= count
    return None


def not_a_certificate(states: int, cause: Match[str], certificate: Optional[Source]) -> Story:
    """A text that is no certificate."""
    if cause.group(1) is None:
        return Story(
            1 << 18 if certificate is not None else None,
            "the certificate is longer than 2^18 bytes",
            "the records of 16 states have less: is this the file of a certificate?",
            beside=True,
        )
    kind, fields = cause.group(1), [int(field) for field in cause.group(2).split()]
    due = keyword_of(states, fields[0])
    at = None if certificate is None else record_place(certificate, fields[0])
    if kind == "1":
        sentence = "record %d begins with another keyword; %s" % (
            fields[0],
            "'%s' is due" % due if due else "there is one record too many",
        )
    elif kind == "2":
        sentence = "record %d ('%s') has %d fields, and %d are due for %d state(s)" % (
            fields[0],
            due,
            fields[2],
            fields[1],
            states,
        )
    elif kind == "3":
        at = None if certificate is None else record_place(certificate, fields[0], fields[1])
        sentence = "record %d ('%s'), field %d: no whole number of 1 to 39 digits up to 2^126" % (
            fields[0],
            due,
            fields[1],
        )
    elif kind == "4":
        at = None if certificate is None else len(certificate.data)
        sentence = "the certificate ends before record %d ('%s')" % (fields[0], due)
    else:
        sentence = "form %d is none of 1, 2, 3" % fields[0]
    return Story(at, sentence, "docs/CERTIFICATES.md has the records in their order", beside=True)


def record_place(certificate: Source, record: int, field: int = 1) -> int:
    """The byte at which a field of a record begins; empty lines are no records."""
    at, count = 0, 0
    for line in certificate.data.split(b"\n"):
        if line.strip(b"\r"):
            count += 1
            if count == record:
                return at + sum(len(part) + 1 for part in line.split(b",")[: field - 1])
        at += len(line) + 1
    return len(certificate.data)


def place_in(certificate: Optional[Source], keyword: str, index: Optional[int]) -> Optional[int]:
    """The byte of a number in a certificate: of the rows of a matrix, the row."""
    if certificate is None:
        return None
    rows = []
    at = 0
    for line in certificate.data.split(b"\n"):
        if line.split(b",")[0] == keyword.encode():
            rows.append((at, line))
        at += len(line) + 1
    if not rows:
        return None
    if len(rows) > 1:
        return rows[min(index or 0, len(rows) - 1)][0]
    start, line = rows[0]
    fields = line.split(b",")
    return start + sum(len(part) + 1 for part in fields[: min((index or 0) + 1, len(fields) - 1)])
