"""The conditions of a certificate, in exact whole numbers (docs/CERTIFICATES.md).

This check is written from the definitions and shares no code with the program. `qss-certificate` uses it to choose a
form that is accepted, and the test of the stored certificates uses it as an independent computation.
"""
import re
from collections import namedtuple
from typing import Any, Callable, Dict, Iterator, List, Optional, Sequence, Tuple

from ..fault import Fault
from .affine import Affine

LIMIT = 2**126  # of the sizes of the products of a sum, and of each number of a text
MOST_BYTES = 2**18
SHARES = 4096  # parts of a level, in which a relative quantum is given

EACH, ONE, ROWS = "each", "one", "rows"
RECORDS = (
    ("P", ROWS),
    ("p", EACH),
    ("mu", EACH),
    ("lambda", ONE),
    ("h1", ONE),
    ("G1", ROWS),
    ("h2", ONE),
    ("G2", ROWS),
    ("c", EACH),
    ("R", ONE),
    ("Z", EACH),
    ("S", EACH),
    ("sigmaR", EACH),
    ("C", ONE),
    ("sigmaC", EACH),
    ("E", EACH),
)
STARTS = (("start1", EACH), ("start2", EACH))
OWN_QUANTA = (("Q", EACH),)
BY_FORM = {1: RECORDS, 2: RECORDS + STARTS, 3: RECORDS + STARTS + OWN_QUANTA}
SIGNED = ("p", "mu", "lambda", "h1", "h2", "R", "Z", "S", "sigmaR", "C", "sigmaC", "E")  # as inequality 1 counts them
POSITIVE = ("p", "mu", "lambda", "h1", "h2")
NUMBER = re.compile(r"^-?[0-9]{1,39}$")

Failure = namedtuple("Failure", "number place left right")
Failure.__doc__ = "An inequality that fails at a place, with its two sides; both are None if a sum is out of range."

Certificate = Dict[str, Any]  # its numbers by keyword: one, a list, or a list of lists
Sides = Tuple[int, int, int]  # of an inequality: a place, the left side and the right side


class OutOfRange(Exception):
    """A sum has products whose sizes pass the limit."""

    def __init__(self, place: int, size: int) -> None:
        super().__init__("place %d" % place)
        self.place = place
        self.size = size


def total(place: int, *products: int) -> int:
    """The sum of these products, which is charged to a place."""
    size = sum(abs(one) for one in products)
    if size > LIMIT:
        raise OutOfRange(place, size)
    return sum(products)


def holds(number: int, sides: Sides) -> bool:
    """Whether the inequality of this number holds for these sides. Number 2 is an equation."""
    _, left, right = sides
    return left == right if number == 2 else left >= right


def text_of(certificate: Certificate) -> str:
    """The text of a certificate, in form 3: a dictionary from keyword to a number, a list or a list of rows."""
    lines = ["form,3"]
    for keyword, shape in BY_FORM[3]:
        value = certificate[keyword]
        for row in value if shape == ROWS else [value if shape == EACH else [value]]:
            lines.append(",".join([keyword] + [str(number) for number in row]))
    return "\n".join(lines) + "\n"


def read_certificate(data: bytes, system: Affine, name: str = "the certificate") -> Certificate:
    """The certificate of a text in any of the three forms; the model gives what the form leaves out."""
    if len(data) > MOST_BYTES:
        raise Fault("%s: a certificate has at most %d bytes" % (name, MOST_BYTES))
    records = [line.rstrip("\r").split(",") for line in data.decode("ascii", "replace").split("\n") if line.strip("\r")]
    if not records or records[0][0] != "form" or records[0][1:] not in (["1"], ["2"], ["3"]):
        raise Fault("%s: not a certificate (the first record must be form,1 or form,2 or form,3)" % name)
    found: Certificate = {"start1": system.starts, "start2": system.starts, "Q": system.quanta}
    place = 1
    for keyword, shape in BY_FORM[int(records[0][1])]:
        rows = [
            numbers_of(records, place + row, keyword, 1 if shape == ONE else system.states, name)
            for row in range(system.states if shape == ROWS else 1)
        ]
        place += len(rows)
        found[keyword] = rows if shape == ROWS else rows[0] if shape == EACH else rows[0][0]
    if place != len(records):
        raise Fault("%s: not a certificate of this model (it has %d records, not %d)" % (name, len(records), place))
    return found


def numbers_of(records: Sequence[Sequence[str]], place: int, keyword: str, count: int, name: str) -> List[int]:
    """The numbers of a record."""
    if place >= len(records):
        raise Fault("%s: not a certificate of this model (it ends before record %d, '%s')" % (name, place + 1, keyword))
    word, *fields = records[place]
    if word != keyword or len(fields) != count or not all(NUMBER.match(field) for field in fields):
        raise Fault(
            "%s: not a certificate of this model (record %d must be '%s' and %d numbers)"
            % (name, place + 1, keyword, count)
        )
    return [int(field) for field in fields]


class Check:
    """One check of a certificate against an affine system; `share` is the relative quantum in 4096ths of a level."""

    def __init__(self, system: Affine, certificate: Certificate, share: int = 0) -> None:
        self.system, self.share = system, share
        self.states = range(system.states)
        self.x = certificate

    def failure(self) -> Optional[Failure]:
        """The first inequality that fails, or None if the certificate is accepted."""
        for number, look in enumerate(self.inequalities(), 1):
            try:
                failing = next((sides for sides in look() if not holds(number, sides)), None)
            except OutOfRange as out:
                return Failure(number, out.place, None, None)
            if failing is not None:
                place, left, right = failing
                return Failure(number, place, right, left) if number == 5 else Failure(number, place, left, right)
        return None

    def inequalities(self) -> Tuple[Callable[[], Iterator[Sides]], ...]:
        return (
            self.signs,
            self.symmetric,
            self.lower,
            self.decrease,
            self.inside,
            self.reach,
            self.moves,
            self.gains,
            self.basin,
            self.pair_gains,
            self.ellipsoid,
            self.bounds,
            self.quanta,
        )

    def signs(self) -> Iterator[Sides]:
        place = 0
        for keyword in SIGNED:
            value = self.x[keyword]
            for number in value if isinstance(value, list) else [value]:
                place += 1
                yield place, number, 1 if keyword in POSITIVE else 0

    def symmetric(self) -> Iterator[Sides]:
        place = 0
        for i in self.states:
            for j in range(i + 1, self.system.states):
                place += 1
                yield place, self.x["P"][i][j], self.x["P"][j][i]

    def lower(self) -> Iterator[Sides]:
        """Inequality 3: V is at least the sum of p y^2."""
        x = self.x
        matrix = [[total(i + 1, x["P"][i][j], -(x["p"][i] if i == j else 0)) for j in self.states] for i in self.states]
        yield from self.dominant(matrix, x["h1"], x["G1"])

    def decrease(self) -> Iterator[Sides]:
        """Inequality 4: V decreases by at least the sum of mu y^2 and lambda V."""
        x, a = self.x, self.system.a
        self.pa = [
            [total(i + 1, *(x["P"][i][k] * a[k][j] for k in self.states)) for j in self.states] for i in self.states
        ]
        matrix = [
            [
                total(
                    i + 1, -self.pa[i][j], -self.pa[j][i], -(x["mu"][i] if i == j else 0), -x["lambda"] * x["P"][i][j]
                )
                for j in self.states
            ]
            for i in self.states
        ]
        yield from self.dominant(matrix, x["h2"], x["G2"])

    def dominant(self, matrix: Sequence[Sequence[int]], factor: int, root: Sequence[Sequence[int]]) -> Iterator[Sides]:
        """Each diagonal number of factor * matrix - root' root against the sizes in its row."""
        for i in self.states:
            row = [
                total(i + 1, factor * matrix[i][j], *(-root[k][i] * root[k][j] for k in self.states))
                for j in self.states
            ]
            yield i + 1, row[i], total(i + 1, *(abs(value) for j, value in enumerate(row) if j != i))

    def inside(self) -> Iterator[Sides]:
        """Inequality 5, with the sides exchanged: K^2 R is at least V of a start."""
        x, unit = self.x, self.system.unit
        for place, start in ((1, "start1"), (2, "start2")):
            away = [total(place, one, -unit * centre) for one, centre in zip(x[start], x["c"])]
            yield place, total(place, unit * unit * x["R"]), self.form(place, away)
        if x["start1"] != x["start2"]:
            away = [total(3, one, -other) for one, other in zip(x["start1"], x["start2"])]
            yield 3, total(3, unit * unit * x["C"]), self.form(3, away)

    def form(self, place: int, y: Sequence[int]) -> int:
        """V(y)."""
        weighted = [total(place, *(one * value for one, value in zip(row, y))) for row in self.x["P"]]
        return total(place, *(one * value for one, value in zip(y, weighted)))

    def reach(self) -> Iterator[Sides]:
        for k in self.states:
            square = total(k + 1, self.x["Z"][k] ** 2)
            yield k + 1, total(k + 1, self.x["p"][k] * square), self.x["R"]

    def slope(self, place: int, j: int) -> int:
        """The slope at the centre."""
        system = self.system
        return total(place, *(one * centre for one, centre in zip(system.a[j], self.x["c"])), system.b[j])

    def moves(self) -> Iterator[Sides]:
        x, system = self.x, self.system
        for j in self.states:
            place = j + 1
            slope = self.slope(place, j)
            far = [total(place, one, quantum) for one, quantum in zip(x["Z"], x["Q"])]
            least = total(place, *(abs(one) * value for one, value in zip(system.a[j], far)), abs(slope))
            yield place, total(place, system.unit * x["S"][j]), least

    def gains(self) -> Iterator[Sides]:
        x = self.x
        for i in self.states:
            place = i + 1
            widths = [total(place, one, move) for one, move in zip(x["Q"], x["S"])]
            slopes = [self.slope(place, j) for j in self.states]
            centre = total(place, *(one * slope for one, slope in zip(x["P"][i], slopes)))
            gain = total(place, *(abs(one) * width for one, width in zip(self.pa[i], widths)), abs(centre))
            yield place, total(place, x["mu"][i] * x["sigmaR"][i]), total(place, gain * gain)

    def basin(self) -> Iterator[Sides]:
        yield 1, total(1, self.x["lambda"] * self.x["R"]), total(1, *self.x["sigmaR"])

    def pair_gains(self) -> Iterator[Sides]:
        x = self.x
        for i in self.states:
            place = i + 1
            half = total(place, *(abs(one) * (q + s) for one, q, s in zip(self.pa[i], x["Q"], x["S"])))
            gain = total(place, 2 * half)
            yield place, total(place, x["mu"][i] * x["sigmaC"][i]), total(place, gain * gain)

    def ellipsoid(self) -> Iterator[Sides]:
        yield 1, total(1, self.x["lambda"] * self.x["C"]), total(1, *self.x["sigmaC"])

    def bounds(self) -> Iterator[Sides]:
        for k in self.states:
            square = total(k + 1, self.x["E"][k] ** 2)
            yield k + 1, total(k + 1, self.x["p"][k] * square), self.x["C"]

    def quanta(self) -> Iterator[Sides]:
        x, n = self.x, self.system.states
        for j in self.states:
            yield j + 1, x["Q"][j], self.system.quanta[j]
        for j in self.states if self.share else ():
            place = n + j + 1
            size = total(place, self.share * total(place, abs(x["c"][j]), x["Z"][j], x["Q"][j]))
            yield place, total(place, SHARES * x["Q"][j]), size


def first_failure(system: Affine, certificate: Certificate, share: int = 0) -> Optional[Failure]:
    """The first inequality that fails, or None."""
    return Check(system, certificate, share).failure()
