"""The search for a certificate: forms in floating point, whole numbers, and the exact check of the inequalities."""
import math
import sys
import time
from collections import namedtuple
from typing import Callable, Dict, Iterator, List, Optional, Sequence, TextIO, Tuple, Union

from ..numeric.forms import Family, Form, Problem, kofman_bound, lower_bound, minimised, spread
from ..numeric.linear import Matrix, cholesky, eigenvalues, least_eigenvalue, product, solved
from .affine import Affine
from .conditions import LIMIT, Certificate, Failure, first_failure

PARTS = (0.5, 1.0, 1.5)  # of the slowest rate; twice that rate is the most that the decrease of V may be
LEAST_PART, GREATEST_PART = 0.05, 1.98  # that are tried
FINER = 0.25  # the step around the best part, which is halved twice
WHOLE_STATES = 6  # at most, of a system for which all of R is optimised
SMALL = (0.3, 0.1, 0.03)  # how little the other states count in a certificate for one state
FACTORS = (1, 2**8, 2**16, 2**24, 2**32, 2**40)
MARGINS = (0.98, 0.9, 0.6)  # of the diagonal of R that becomes mu
SCALE_STEP = 2  # bits
MOST_BITS = 52  # of the greatest number of P
GROWTH_ROUNDS = 60
MARGINAL = 1e-9  # of the greatest rate
SECONDS_WITHOUT_A_LINE = 50  # of a search whose standard error is no terminal

Found = namedtuple("Found", "ratio certificate")
Found.__doc__ = "The greatest ratio of a bound to the lower bound, and the certificate with its numbers."

Best = Tuple[float, float, List[float]]  # the least ratio so far, its part of the rate, and its parameters
Gram = Tuple[int, List[List[int]]]  # a factor h and whole numbers G


class NoCertificate(Exception):
    """Why no certificate was found: a word for the cause, and a sentence."""

    def __init__(self, cause: str, sentence: str) -> None:
        super().__init__(sentence)
        self.cause = cause
        self.sentence = sentence


class Progress:
    """A line on standard error: on a terminal after a second, elsewhere at most once in 50 seconds."""

    def __init__(self, stream: Optional[TextIO] = None, clock: Callable[[], float] = time.monotonic) -> None:
        self.stream = sys.stderr if stream is None else stream
        self.clock = clock
        self.begin = self.printed = clock()
        self.is_shown = False

    def show(self, text: str) -> None:
        now = self.clock()
        if not self.stream.isatty():
            if now - self.printed >= SECONDS_WITHOUT_A_LINE:
                self.printed = now
                self.stream.write("%s (%.0f s)\n" % (text, now - self.begin))
                self.stream.flush()
        elif now - self.begin > 1:
            self.is_shown = True
            self.stream.write("\r\033[K%s" % text)
            self.stream.flush()

    def end(self) -> None:
        if self.is_shown:
            self.stream.write("\r\033[K")
            self.stream.flush()
            self.is_shown = False


class Search:
    """The search for one system. `state` is the number of the state whose bound counts, or None for all."""

    def __init__(self, system: Affine, state: Optional[int] = None, progress: Optional[Progress] = None) -> None:
        self.system, self.state = system, state
        self.progress = progress or Progress()
        unit = system.unit
        self.a = [[value / unit for value in row] for row in system.a]
        self.twice = [2.0 * quantum for quantum in system.quanta]
        self.values = eigenvalues(self.a)
        self.slow = slowest(self.values, "tick")
        self.spread = spread(self.values)
        least = lower_bound(self.a, self.values, self.twice)
        if least is None or min(least) <= 0:
            raise NoCertificate("marginal", "the model is marginal: a state is not damped")
        self.t = least
        self.kofman = kofman_bound(self.a, self.values, self.twice)
        resting = solved([[float(value) for value in row] for row in system.a], [-float(value) for value in system.b])
        assert resting is not None
        self.centre = [round(value) for value in resting]
        self.slopes = [sum(x * c for x, c in zip(row, self.centre)) + b for row, b in zip(system.a, system.b)]
        self.away = [x - unit * c for x, c in zip(system.starts, self.centre)]
        self.cause: Optional[str] = None
        self.failure: Optional[Failure] = None

    def found(self, quick: bool = False) -> Found:
        """The certificate with the least ratio; NoCertificate if there is none."""
        best = None
        for form in self.forms(quick):
            certificate = self.rounded(form)
            if certificate is not None:
                ratio = self.ratio(certificate)
                if best is None or ratio < best.ratio:
                    best = Found(ratio, certificate)
                elif ratio > 1.5 * best.ratio:
                    break
        self.progress.end()
        if best is None:
            raise NoCertificate(*self.reason())
        return best

    def ratio(self, certificate: Certificate) -> float:
        """The greatest ratio of a bound to the lower bound, of the states that count."""
        ratios = [bound / least for bound, least in zip(certificate["E"], self.t)]
        return max(ratios) if self.state is None else ratios[self.state]

    # forms

    def forms(self, quick: bool) -> Iterator[Form]:
        """Forms, the best ones first."""
        tried: List[Tuple[float, Form]] = []
        for small in (1.0,) if self.state is None else SMALL:
            weights = [1.0 if self.state in (None, k) else small for k in range(self.system.states)]
            unit = self.system.unit
            problem = Problem(
                self.a,
                self.t,
                [float(quantum) for quantum in self.system.quanta],
                [value / unit for value in self.away],
                [value / unit for value in self.slopes],
                weights,
            )
            tried += self.optimised(problem, quick)
        order: Dict[int, Tuple[float, Form]] = {}
        for ratio, form in tried:
            if not any(other is form for _, other in order.values()):
                order[len(order)] = ratio, form
        for ratio, form in sorted(order.values(), key=lambda pair: pair[0]):
            yield form

    def optimised(self, problem: Problem, quick: bool) -> List[Tuple[float, Form]]:
        """Pairs of a ratio and a form of this problem."""
        n = problem.n
        starts = [0.0] * n
        tried: List[Tuple[float, Form]] = []
        best: Optional[Best] = None
        for part in PARTS:
            best = self.better(problem, part, starts, False, 0, tried, best)
        assert best is not None
        if quick:
            return tried
        rounds = 60 if n <= WHOLE_STATES else 12 if n <= 10 else 6
        best = self.better(problem, best[1], best[2], False, rounds, tried, best)
        step = FINER
        for _ in range(3 if n <= 10 else 2):
            best = self.around(problem, step, False, rounds, tried, best)
            step /= 2
        if 1 < n <= WHOLE_STATES:
            corners = [(i, j) for i in range(n) for j in range(i + 1)]
            diagonal = [math.exp(value / 2) for value in best[2]]
            extra = [0.3 * diagonal[i] * math.cos(1 + 5 * i + 3 * j) for i, j in corners]
            best = self.better(problem, best[1], best[2] + extra, True, 150, tried, best)
            step = FINER / 2
            for _ in range(3):
                best = self.around(problem, step, True, 60, tried, best)
                step /= 2
        return tried

    def around(
        self, problem: Problem, step: float, whole: bool, rounds: int, tried: List[Tuple[float, Form]], best: Best
    ) -> Best:
        """The better one of the best so far and of what is found for the parts a step below its part and a step above
        it. With `whole` all of R is optimised, and the best so far must have parameters for all of R.
        """
        for part in (best[1] - step, best[1] + step):
            if LEAST_PART < part < GREATEST_PART and whole == (len(best[2]) > problem.n):
                best = self.better(problem, part, best[2], whole, rounds, tried, best)
        return best

    def better(
        self,
        problem: Problem,
        part: float,
        x: List[float],
        whole: bool,
        rounds: int,
        tried: List[Tuple[float, Form]],
        best: Optional[Best],
    ) -> Best:
        """The better one of the best so far and of what is found for this part; each is (ratio, part, parameters)."""
        family = Family(problem, part * self.slow / problem.top, whole)
        form = family.form(x)
        if form is None:
            return best or (math.inf, part, x)
        for _ in range(2 if rounds else 1):
            family.widths = form.widths() or problem.quanta
            if rounds:
                x = minimised(family.value, x, rounds)
                form = family.form(x) or form
        widths = form.widths()
        ratio = form.ratio(widths) if widths else math.inf
        if widths is None:
            self.cause = self.cause or "grows"
        tried.append((ratio, form))
        self.progress.show(
            "qss-certificate: %d forms%s"
            % (len(tried), "" if ratio == math.inf else ", the bound is %.3g times the lower bound" % ratio)
        )
        return (ratio, part, x) if best is None or ratio < best[0] else best

    # whole numbers

    def rounded(self, form: Form) -> Optional[Certificate]:
        """The certificate of a form, with P as large as the range of the sums allows; or None."""
        if form.widths() is None:
            return None
        problem, t = form.problem, self.t
        n, unit = problem.n, self.system.unit
        shape = [[form.p[i][j] / t[i] / t[j] for j in range(n)] for i in range(n)]
        large = sum(abs(shape[i][j]) * abs(self.away[i]) * abs(self.away[j]) for i in range(n) for j in range(n))
        basin = form.basin * unit * unit
        greatest = max(abs(value) for row in shape for value in row)
        scale = min(2.0**MOST_BITS / greatest, LIMIT / max(large, basin, 1e-300) / 2)
        causes: List[str] = []
        while scale * greatest > 1:
            certificate = self.whole(form, shape, scale)
            if isinstance(certificate, str):
                causes.append(certificate)
                if certificate == "rounding" and "range" in causes[:-1] and len(causes) > 40:
                    break
            else:
                failure = first_failure(self.system, certificate)
                if failure is None:
                    return certificate
                causes.append("range" if failure.left is None else "rounding")
                self.failure = failure
            scale /= 2.0**SCALE_STEP
        self.cause = "range" if "range" in causes or "rounding" in causes else causes[-1] if causes else "range"
        return None

    def whole(self, form: Form, shape: Matrix, scale: float) -> Union[str, Certificate]:
        """The whole numbers of a form at this scale, or the cause why there are none."""
        system, unit, states = self.system, self.system.unit, range(self.system.states)
        matrix = [[round(scale * shape[min(i, j)][max(i, j)]) for j in states] for i in states]
        rate = math.floor(form.rate * form.problem.top * unit * (1 - 1e-9))
        if rate < 1:
            return "rate"
        p = [max(1, math.floor(0.9999 * scale * low / one / one)) for low, one in zip(form.lower, self.t)]
        pa = product(matrix, system.a)
        rest = [[-pa[i][j] - pa[j][i] - rate * matrix[i][j] for j in states] for i in states]
        shown = self.decrease(form, rest, scale)
        first = gram_factor([[matrix[i][j] - (p[i] if i == j else 0) for j in states] for i in states])
        if shown is None or first is None:
            return "rounding"
        mu, second = shown
        certificate: Certificate = {"P": matrix, "p": p, "mu": mu, "lambda": rate, "c": self.centre}
        certificate["h1"], certificate["G1"] = first
        certificate["h2"], certificate["G2"] = second
        certificate.update(start1=system.starts, start2=system.starts, Q=system.quanta)
        basin = quotient_up(
            sum(matrix[i][j] * self.away[i] * self.away[j] for i in states for j in states), unit * unit
        )
        sizes = self.sizes(certificate, pa, max(basin, math.floor(scale * form.basin)))
        return "grows" if sizes is None else {**certificate, **sizes}

    def sizes(self, certificate: Certificate, pa: List[List[int]], basin: int) -> Optional[Certificate]:
        """The invariant set, from one of at least this size, and the bounds, as records by keyword; None if the set
        grows without end.
        """
        system, p, mu, rate = self.system, certificate["p"], certificate["mu"], certificate["lambda"]
        weighted = [abs(sum(x * y for x, y in zip(row, self.slopes))) for row in certificate["P"]]
        for _ in range(GROWTH_ROUNDS):
            far = [root_up(quotient_up(basin, one)) for one in p]
            moves = [
                quotient_up(sum(abs(x) * (z + q) for x, z, q in zip(row, far, system.quanta)) + abs(slope), system.unit)
                for row, slope in zip(system.a, self.slopes)
            ]
            widths = [one + other for one, other in zip(system.quanta, moves)]
            halves = [sum(abs(x) * w for x, w in zip(row, widths)) for row in pa]
            gains = [quotient_up((one + more) ** 2, m) for one, more, m in zip(halves, weighted, mu)]
            if rate * basin >= sum(gains):
                break
            basin = quotient_up(sum(gains) * 101, rate * 100)
        else:
            return None
        pairs = [quotient_up((2 * one) ** 2, m) for one, m in zip(halves, mu)]
        ellipsoid = quotient_up(sum(pairs), rate)
        bounds = [root_up(quotient_up(ellipsoid, one)) for one in p]
        return {"R": basin, "Z": far, "S": moves, "sigmaR": gains, "C": ellipsoid, "sigmaC": pairs, "E": bounds}

    def decrease(self, form: Form, rest: List[List[int]], scale: float) -> Optional[Tuple[List[int], Gram]]:
        """mu, and the factor and the root that show that the rest less mu is never negative; or None."""
        n = len(rest)
        if not form.is_whole:
            mu = [rest[i][i] - sum(abs(rest[i][j]) for j in range(n) if j != i) for i in range(n)]
            return (mu, (1, [[0] * n for _ in range(n)])) if min(mu) >= 1 else None
        unit = self.system.unit * form.problem.top * scale
        for margin in MARGINS:
            mu = [math.floor(margin * unit * one / t / t) for one, t in zip(form.mu, self.t)]
            if min(mu) < 1:
                return None
            second = gram_factor([[rest[i][j] - (mu[i] if i == j else 0) for j in range(n)] for i in range(n)])
            if second is not None:
                return mu, second
        return None

    def reason(self) -> Tuple[str, str]:
        """Why no certificate was found."""
        system = self.system
        if self.cause == "range":
            bits = max(abs(value) for value in self.away).bit_length()
            return (
                "range",
                "out of range: states have up to %d bits (of their distance from rest, QSS_CoefBits, QSS_TickBits and "
                "QSS_LevelBits), so %d of the 126 bits of a sum are left for P" % (bits, max(0, 126 - 2 * bits)),
            )
        if self.cause == "grows":
            steps = [
                sum(abs(x) * abs(y) for x, y in zip(row, self.away)) / system.unit / system.unit / quantum
                for row, quantum in zip(system.a, system.quanta)
            ]
            worst = max(range(system.states), key=lambda k: steps[k])
            return (
                "ticks",
                "ticks are too long: %s may move %.3g quanta in a tick from its start, and the invariant set has no "
                "bound" % (system.names[worst], steps[worst]),
            )
        return "scale", "the states are not scaled: no numbers of P fit both into whole numbers and below 2^126"


def slowest(values: Sequence[complex], per: str) -> float:
    """The slowest rate of decay of a system with these eigenvalues; NoCertificate if it is unstable or marginal."""
    greatest = max((abs(value) for value in values), default=0.0)
    rate = max((value.real for value in values), default=0.0)
    if rate > MARGINAL * greatest:
        sentence = "the model is unstable: it has an eigenvalue with the real part %.4g per %s" % (rate, per)
        raise NoCertificate("unstable", sentence)
    if rate > -MARGINAL * greatest or not greatest:
        rests = not greatest or min(abs(value) for value in values) < MARGINAL * greatest
        what = "a state, or a sum of states, that nothing damps" if rests else "an oscillation that nothing damps"
        raise NoCertificate("marginal", "the model is marginal: it has " + what)
    return -rate


def root_up(value: int) -> int:
    """The least whole number whose square is at least this one."""
    return math.isqrt(value - 1) + 1 if value > 0 else 0


def quotient_up(value: int, divisor: int) -> int:
    """The quotient, rounded up."""
    return -(-value // divisor)


def gram_factor(m: List[List[int]]) -> Optional[Gram]:
    """A factor h and whole numbers G so that h m - G'G has a dominant diagonal, or None. The root is taken of the
    matrix with ones on its diagonal.
    """
    n = len(m)
    if any(m[i][i] < 0 for i in range(n)):
        return None
    if n == 1:
        return 1, [[0]]
    if any(m[i][i] == 0 for i in range(n)):
        return None
    d = [math.sqrt(m[i][i]) for i in range(n)]
    even = [[m[i][j] / d[i] / d[j] for j in range(n)] for i in range(n)]
    root = cholesky(even, least_eigenvalue(even) / 2)
    if root is None:
        return None
    for factor in FACTORS:
        scale = math.sqrt(factor)
        whole = [[round(root[k][j] * d[j] * scale) for j in range(n)] for k in range(n)]
        columns = list(zip(*whole))
        left = [
            [factor * m[i][j] - sum(x * y for x, y in zip(columns[i], columns[j])) for j in range(n)] for i in range(n)
        ]
        if all(left[i][i] >= sum(abs(left[i][j]) for j in range(n) if j != i) for i in range(n)):
            return factor, whole
    return None
