"""The certified band around a run: where the solution lies, and where every quantized run lies.

The bounds of a certificate hold for the states of a run at each tick. So a band follows the exact states, which change
by the same amount in each tick between two rows. Each state is also compared with its level: rows for which this fails
are not a legitimate run with the quanta of the certificate, and have no band.
"""
import math
from argparse import ArgumentParser, Namespace
from typing import TYPE_CHECKING, Dict, List, Optional, Tuple

from ..fault import Fault, read_bytes
from ..program import call
from ..runs.rows import Run, exact

if TYPE_CHECKING:
    from .affine import Affine
    from .conditions import Certificate

HELP = "a certificate of the model, for the proved bounds around each state"
PART_BITS = 6  # bounds in a table are written in 64ths of a level


def add_certificate_option(parser: ArgumentParser) -> None:
    parser.add_argument("--certificate", metavar="CERT", help=HELP)


def certified(args: Namespace, run: Run) -> "Optional[Certified]":
    """The bounds of the certificate that was asked for, or None. `qss certify` must accept it."""
    if args.certificate is None:
        return None
    from .affine import Affine
    from .conditions import read_certificate
    from .settings import refusal

    why = refusal(run.flat)
    if why:
        raise Fault("%s has no certificate: %s" % (args.model, why))
    system = Affine(run)
    certificate = read_certificate(read_bytes(args.certificate), system, args.certificate)
    words = ["certify", args.model, args.certificate]
    words += ["--relative", args.relative] if getattr(args, "relative", None) else []
    answer = call(run.program, words)
    if answer.status:
        raise Fault(
            "%s is not accepted: %s (tools/qss-explain %s --certificate %s)"
            % (args.certificate, answer.line, args.model, args.certificate)
        )
    if system.starts not in (certificate["start1"], certificate["start2"]):
        raise Fault("%s: the start of %s is not a start of this certificate" % (args.certificate, args.model))
    return Certified(run, system, certificate)


class Certified:
    """An accepted certificate of the model of a run."""

    def __init__(self, run: Run, system: "Affine", certificate: "Certificate") -> None:
        self.run, self.system, self.certificate = run, system, certificate
        self.bounds = dict(zip(system.names, certificate["E"]))

    @property
    def half_widths(self) -> Dict[str, float]:
        """For each state, by its name, half of its bound in the model's units: the solution is at most so far away."""
        unit = 2.0 ** (self.run.units.level + 1)
        return {name: bound / unit for name, bound in self.bounds.items()}


class States:
    """The exact states at every tick, from the rows of a run."""

    def __init__(self, certified: Certified, name: str) -> None:
        system = self.system = certified.system
        if certified.run.order == 2:
            raise Fault("%s: --certificate goes with a run of first order" % name)
        self.name = name
        self.numbers = {one: place for place, one in enumerate(system.names)}
        self.quanta = [system.unit * quantum for quantum in certified.certificate["Q"]]
        self.levels = [0] * system.states
        self.states = list(system.starts)
        self.ticks = [0] * system.states
        self.slopes = list(system.b)
        self.followers = [
            [j for j in range(system.states) if system.a[j][place] or j == place] for place in range(system.states)
        ]
        self.listeners: Dict[int, List[Tube]] = {}

    def at(self, place: int, tick: int) -> int:
        """The state at a tick, from its last change of slope on."""
        return self.states[place] + (tick - self.ticks[place]) * self.slopes[place]

    def take(self, tick: int, variable: str, level: Optional[int], state: Optional[int]) -> None:
        """Takes a row."""
        place = self.numbers.get(variable)
        if place is None or level is None:
            return
        for other in self.followers[place]:
            self.advance(other, tick)
        if state != self.states[place]:
            raise Fault(
                "%s: the state of %s at tick %d is %s, not %d: the rows are not of this model"
                % (self.name, variable, tick, state, self.states[place])
            )
        change = level - self.levels[place]
        self.levels[place] = level
        if change:
            for other in self.followers[place]:
                self.slopes[other] += self.system.a[other][place] * change
        self.check(place, tick, self.states[place])

    def advance(self, place: int, tick: int) -> None:
        """Advances a state to a tick with the slope so far."""
        if tick == self.ticks[place]:
            return
        self.check(place, tick - 1, self.at(place, tick - 1))
        begin, before = self.ticks[place], self.states[place]
        self.states[place], self.ticks[place] = self.at(place, tick), tick
        for listener in self.listeners.get(place, ()):
            listener.take(begin, before, tick, self.states[place])

    def check(self, place: int, tick: int, state: int) -> None:
        """A state is at most a quantum away from its level."""
        if abs(state - self.system.unit * self.levels[place]) > self.quanta[place]:
            raise Fault(
                "%s: %s is more than a quantum of the certificate away from its level at tick %d: no certified run"
                % (self.name, self.system.names[place], tick)
            )

    def finish(self, tick: int) -> None:
        for place in range(self.system.states):
            self.advance(place, tick)


class Bound:
    """A column of a table: a state less or more half of its bound, rounded outwards to parts of a level."""

    def __init__(self, certified: Certified, states: States, name: str, sign: int) -> None:
        self.name = "%s_%s" % (name, "lower" if sign < 0 else "upper")
        self.states, self.place, self.sign = states, certified.system.names.index(name), sign
        self.distance = certified.bounds[name] * certified.system.unit
        self.bits = certified.run.units.level + PART_BITS
        self.drop = certified.run.units.state + 1 - self.bits

    def text(self, tick: int) -> str:
        halves = self.sign * 2 * self.states.at(self.place, tick) + self.distance
        outwards = -(-halves >> self.drop) if self.drop > 0 else halves << -self.drop
        return exact(self.sign * outwards, self.bits)


class Tube:
    """The least and the greatest state in each column of a picture, in the model's units, with the two half widths."""

    def __init__(self, certified: Certified, name: str, width: int, begin: float, end: float) -> None:
        self.width, self.begin = width, begin
        self.scale = width / (end - begin) if end > begin else 0.0
        self.unit = 2.0**certified.run.units.state
        self.half = certified.half_widths[name]
        self.columns: List[Optional[List[float]]] = [None] * width

    def take(self, begin: int, before: int, end: int, after: int) -> None:
        """The state goes from one value to another on a straight line."""
        first, last = (begin - self.begin) * self.scale, (end - self.begin) * self.scale
        low, high = before / self.unit, after / self.unit
        for place in range(max(0, math.floor(first)), min(self.width - 1, math.floor(last)) + 1):
            parts = [
                min(1.0, max(0.0, (edge - first) / (last - first))) if last > first else 0.0
                for edge in (place, place + 1)
            ]
            values = [low + part * (high - low) for part in parts]
            column = self.columns[place]
            if column is None:
                self.columns[place] = [min(values), max(values)]
            else:
                column[0], column[1] = min(column[0], *values), max(column[1], *values)

    def bounds(self) -> Optional[Tuple[float, float]]:
        """The least and the greatest value of the wide band."""
        known = [column for column in self.columns if column is not None]
        if not known:
            return None
        return min(low for low, _ in known) - 2 * self.half, max(high for _, high in known) + 2 * self.half

    def edges(self, factor: float) -> List[Tuple[int, float, float]]:
        """For each known column its place and the edges of the band that is `factor` half widths wide to each side."""
        far = factor * self.half
        return [
            (place, column[0] - far, column[1] + far) for place, column in enumerate(self.columns) if column is not None
        ]
