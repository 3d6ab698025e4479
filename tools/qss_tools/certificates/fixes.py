"""The numbers of a rejection in the model's units, and a number that would do."""
import math
from typing import Iterator, List, Optional

from ..fault import Fault
from ..model.source import Source
from ..model.units import read_over
from ..numeric.linear import eigenvalues, solved
from .affine import Affine
from .conditions import SHARES, Certificate, Check, OutOfRange, read_certificate
from .search import quotient_up, root_up
from .settings import Reading
from .traces import is_too_long

MOST_COMPARED = 65535  # the last tick that `compare` follows a run of the model itself to
SEARCH = "tools/qss-certificate MODEL -o FILE tries more than `propose`, and proposes settings if it finds none"


class Numbers:
    """A model's system, a certificate or None, and levels as amounts in the model's units."""

    def __init__(self, reading: Reading, source: Source, certificate: Optional[Source]) -> None:
        self.reading = reading
        self.system = Affine(reading)
        self.unit = 2.0**reading.units.level
        self.texts = read_over(source)
        self.x: Optional[Certificate] = None
        if certificate is not None:
            try:
                self.x = read_certificate(certificate.data, self.system, certificate.name)
            except Fault:
                pass

    def amount(self, levels: int, state: int) -> str:
        """A number of levels of a state, and what it is in the model's units."""
        name = self.system.names[state]
        unit = self.texts.get(name.split("[")[0], {}).get("unit", "")
        return "%d level%s = %.4g%s" % (levels, "" if levels == 1 else "s", levels / self.unit, unit and " " + unit)

    def ways(self, number: int, place: int, left: int, right: int) -> List[str]:
        """Lines with the numbers of a rejection and with what would do."""
        state = (place - 1) % self.system.states
        look = getattr(self, "_at_%d" % number, None)
        return [line for line in (look(state, place, left, right) if look else ()) if line]

    def _at_5(self, state: int, place: int, left: int, right: int) -> Iterator[str]:
        square = self.system.unit**2
        needed, keyword = quotient_up(left, square), "C" if place == 3 else "R"
        yield "V is %.4g squares of a level, and %s is %d" % (left / square, keyword, right // square)
        if self.x and place < 3:
            away = [abs(one - self.system.unit * centre) for one, centre in zip(self.x["start%d" % place], self.x["c"])]
            far = max(range(self.system.states), key=lambda k: away[k])
            yield "%s starts %s from the centre" % (
                self.system.names[far],
                self.amount(away[far] // self.system.unit, far),
            )
        yield "%s,%d would do here" % (keyword, needed)

    def _at_6(self, state: int, place: int, left: int, right: int) -> Iterator[str]:
        return self._width("it may lie %s from the centre", "Z", state, right)

    def _at_7(self, state: int, place: int, left: int, right: int) -> Iterator[str]:
        needed = quotient_up(right, self.system.unit)
        yield "it may move %s in a tick, and S is %s" % (
            self.amount(needed, state),
            self.amount(left // self.system.unit, state),
        )
        yield "S of it: %d" % needed

    def _gain(self, keyword: str, state: int, right: int) -> Iterator[str]:
        if self.x:
            yield "%s of it: %d" % (keyword, quotient_up(right, self.x["mu"][state]))

    def _at_8(self, state: int, place: int, left: int, right: int) -> Iterator[str]:
        return self._gain("sigmaR", state, right)

    def _at_9(self, state: int, place: int, left: int, right: int) -> Iterator[str]:
        if self.x:
            yield "R,%d would do here; then Z, S and sigmaR again" % quotient_up(right, self.x["lambda"])

    def _at_10(self, state: int, place: int, left: int, right: int) -> Iterator[str]:
        return self._gain("sigmaC", state, right)

    def _at_11(self, state: int, place: int, left: int, right: int) -> Iterator[str]:
        if self.x:
            needed = quotient_up(right, self.x["lambda"])
            bounds = [root_up(quotient_up(needed, one)) for one in self.x["p"]]
            amounts = [
                "%s %s" % (name, self.amount(bound, k))
                for k, (name, bound) in enumerate(zip(self.system.names, bounds))
            ]
            yield "C,%d would do here, and with it E: %s" % (needed, ", ".join(amounts))

    def _at_12(self, state: int, place: int, left: int, right: int) -> Iterator[str]:
        return self._width("two runs may differ by %s", "E", state, right)

    def _width(self, sentence: str, keyword: str, state: int, right: int) -> Iterator[str]:
        """Lines about a number whose square times p is at least the right side."""
        if self.x:
            needed = root_up(quotient_up(right, self.x["p"][state]))
            there = self.amount(self.x[keyword][state], state)
            yield "%s, and %s is %s" % (sentence % self.amount(needed, state), keyword, there)
            yield "%s of it: %d" % (keyword, needed)

    def _at_13(self, state: int, place: int, left: int, right: int) -> Iterator[str]:
        if place <= self.system.states:
            yield "the model's quantum is %s, and Q is %s" % (self.amount(right, state), self.amount(left, state))
            yield "Q of it: %d; then S, sigmaR, R, sigmaC, C and E again" % right
        elif self.x:
            size = abs(self.x["c"][state]) + self.x["Z"][state]
            share = right // max(1, size + self.x["Q"][state])
            needed = quotient_up(share * size, SHARES - share)
            yield "its quantum may be %s, and Q is %s" % (
                self.amount(quotient_up(right, SHARES), state),
                self.amount(self.x["Q"][state], state),
            )
            yield "Q of it: %d; then S, sigmaR, R, sigmaC, C and E again" % needed

    def range(self) -> Iterator[str]:
        """Lines about a sum that is out of range."""
        bits = max(
            (abs(one - self.system.unit * centre) for one, centre in zip(self.system.starts, self.centre())), default=0
        ).bit_length()
        left = max(0, 126 - 2 * bits)
        yield "states have up to %d bits here, so %d of the 126 bits of a sum are left for P" % (bits, left)
        passed = self.passed_bits()
        if passed:
            yield "the sum passes 2^126 by %d bit%s: P, p, mu, R, sigmaR, C and sigmaC over 2^%d would do" % (
                passed,
                "" if passed == 1 else "s",
                passed,
            )

    def centre(self) -> List[int]:
        """The centre of the certificate, or the resting point of the machine, or 0 if it has none."""
        if self.x:
            return self.x["c"]
        a = [[float(value) for value in row] for row in self.system.a]
        resting = solved(a, [-float(value) for value in self.system.b])
        return [round(value) for value in resting] if resting else [0] * self.system.states

    def passed_bits(self) -> int:
        """How many bits the first sum that is out of range passes the limit by, or 0."""
        if self.x is None:
            return 0
        check = Check(self.system, self.x)
        for look in check.inequalities():
            try:
                for _ in look():
                    pass
            except OutOfRange as out:
                return out.size.bit_length() - 126
        return 0

    def rates(self) -> Iterator[str]:
        """A line about ticks and time constants, and one about what a tick moves."""
        system = self.system
        tick = 2.0**-self.reading.units.time
        values = eigenvalues([[value / system.unit for value in row] for row in system.a])
        fastest, slowest = max((abs(value) for value in values), default=0.0), min(
            (-value.real for value in values), default=0.0
        )
        if not fastest or slowest <= 1e-9 * fastest:
            yield "a state, or a sum of states, is not damped: it has no certificate"
            return
        yield "a tick is %.4g, and time constants go from %.4g to %.4g (in the model's unit of time)" % (
            tick,
            tick / fastest,
            tick / slowest,
        )
        moves = [
            abs(sum(one * start for one, start in zip(row, system.starts)) // system.unit + drive) / system.unit
            for row, drive in zip(system.a, system.b)
        ]
        worst = max(range(system.states), key=lambda k: moves[k] / max(1, system.quanta[k]))
        yield "from its start %s moves %s in a tick, and its quantum is %s" % (
            system.names[worst],
            self.amount(math.ceil(moves[worst]), worst),
            self.amount(system.quanta[worst], worst),
        )

    def long(self, last: int, model: str) -> Iterator[str]:
        """Lines about a model whose last tick is too late for `compare`."""
        tick = 2.0**-self.reading.units.time
        yield "the last tick is at time %.6g" % (last * tick)
        yield "`compare` follows a run of the model itself up to tick %d (time %.6g)" % (
            MOST_COMPARED,
            MOST_COMPARED * tick,
        )
        if is_too_long(last + 1, self.system.states):
            yield "its traces pass 2^24 bytes: a shorter StopTime, or fewer QSS_TickBits"
        else:
            yield "compare two traces in place of it:"
            yield "  tools/rows-to-trace %s -o a.trace; tools/rows-to-trace %s --rule near -o b.trace" % (model, model)
            yield "  ./qss compare %s CERTIFICATE a.trace b.trace" % model

    def own_quantum(self, state: int) -> Optional[str]:
        """A line about Q of a state in the certificate, or None."""
        if self.x is None:
            return None
        return "Q of %s in the certificate is %s" % (self.system.names[state], self.amount(self.x["Q"][state], state))

    def start(self) -> Iterator[str]:
        """Lines about a model whose start is no start of the certificate."""
        if self.x is None:
            return
        for place, name in enumerate(self.system.names):
            if self.system.starts[place] != self.x["start1"][place]:
                unit = 2.0**self.reading.units.state
                yield "%s starts at %.6g in the model, and at %.6g and %.6g in the certificate" % (
                    name,
                    self.system.starts[place] / unit,
                    self.x["start1"][place] / unit,
                    self.x["start2"][place] / unit,
                )
                break
        starts = ",".join(map(str, self.system.starts))
        yield "write start1,%s into the certificate (then R, and what follows from it)" % starts
