"""Quadratic forms for certificates, in floating point: the lower bound, and forms with bounds near it.

States are measured in the lower bound t: the integral of |exp(A s) A| times twice the quanta. Two legitimate runs can
differ by it if ticks are short. P solves (A + l/2)'P + P(A + l/2) = -R for a rate l and a positive R. So V decreases by
l V and by y'Ry. For one rate the bound is quasi-convex in R. The diagonal of R is optimised first, and then all of R.
"""
import math
from operator import mul
from typing import Callable, List, Optional, Sequence, Tuple

from .linear import (
    Factors,
    Matrix,
    Rows,
    Vector,
    cholesky,
    eigenvectors,
    exponential,
    inverse,
    least_eigenvalue,
    plus,
    product,
    size,
    transposed,
    unit_matrix,
)

STEPS_PER_OCTAVE, OCTAVES = 16, 60
FINE_ANGLE, COARSE_ANGLE = 0.15, 0.6  # of the fastest oscillation in a step
MOST_FINER, MANY_STATES = 128, 8
POWERS = 5  # of squarings: the greatest eigenvalue is taken as the 32nd root of a trace
BASIN_ROUNDS = 4000
GREATEST = 1e200

Function = Callable[[List[float]], Tuple[float, Optional[List[float]]]]  # a value and its gradient


def lower_bound(a: Rows, values: Sequence[complex], quanta: Vector) -> Optional[List[float]]:
    """For each state the integral of |exp(a s) a| times these quanta; None if the system is not damped. `values` are
    the eigenvalues of a.
    """
    sums = impulse_sums(a, values)
    return None if sums is None else [sum(map(mul, row, quanta)) for row in sums]


def impulse_sums(a: Rows, values: Sequence[complex], horizon: float = math.inf) -> Optional[Matrix]:
    """The integral of |exp(a s) a| up to a horizon; None if it has no bound, or if there is no horizon and the system
    is not damped.

    The integral is the sum of the changes of exp(a s), which is nearly always monotone over a step. The length of an
    octave doubles, so the work does not grow with the spread of the rates. An oscillation takes more steps, up to a
    limit; past it the integral is a sum over the grid.
    """
    n = len(a)
    top, swing = size(a), max(abs(value.imag) for value in values)
    if not top:
        return None
    most = MOST_FINER if n <= MANY_STATES else MOST_FINER // 8
    length, finer, passed = 1.0 / (4 * top), 1, 0.0
    step, matrix = exponential(a, length), unit_matrix(n)
    total = [[0.0] * n for _ in range(n)]
    for _ in range(OCTAVES):
        while length * swing > finer * FINE_ANGLE and finer < most:
            finer *= 2
            step = exponential(a, length / finer)
        is_fine = length * swing <= finer * COARSE_ANGLE
        for _ in range(STEPS_PER_OCTAVE * finer):
            following = product(step, matrix)
            if is_fine:
                change = [[abs(x - y) for x, y in zip(row, other)] for row, other in zip(matrix, following)]
            else:
                change = [[abs(x) * length / finer for x in row] for row in product(a, following)]
            total, matrix = plus(total, change), following
            passed += length / finer
            if passed >= horizon:
                return total
        largest = size(matrix)
        if largest > 1e30:
            return None
        if largest < 1e-9:
            return total
        step, length = product(step, step), 2 * length
    return None


def kofman_bound(a: Rows, values: Sequence[complex], quanta: Vector) -> Optional[List[float]]:
    """Kofman's bound |V| |Re(L)^-1 L| |V^-1| times these quanta, with the eigenvalues L and the eigenvectors V, or None
    if the eigenvectors are too nearly dependent.
    """
    vectors = eigenvectors(a, values)
    back = vectors and inverse(vectors)
    if not vectors or not back or size(vectors) * size(back) > 1e10:
        return None
    inner = [
        abs(value) / abs(value.real) * sum(abs(one) * quantum for one, quantum in zip(row, quanta))
        for value, row in zip(values, back)
    ]
    return [sum(abs(one) * value for one, value in zip(row, inner)) for row in vectors]


class Lyapunov:
    """The solutions P of B'P + PB = -R for one matrix B, and the adjoint of that map."""

    def __init__(self, b: Rows) -> None:
        n = self.n = len(b)
        self.pairs = [(i, j) for i in range(n) for j in range(i, n)]
        place = self.place = {pair: k for k, pair in enumerate(self.pairs)}
        rows = [[0.0] * len(self.pairs) for _ in self.pairs]
        for row, (i, j) in zip(rows, self.pairs):
            for m in range(n):
                row[place[min(m, j), max(m, j)]] += b[m][i]
                row[place[min(i, m), max(i, m)]] += b[m][j]
        self.factors = Factors(rows)

    def square(self, values: Vector) -> Matrix:
        place = self.place
        return [[values[place[min(i, j), max(i, j)]] for j in range(self.n)] for i in range(self.n)]

    def solved(self, right: Rows) -> Matrix:
        """P for a symmetric R."""
        return self.square(self.factors.solved([-right[i][j] for i, j in self.pairs]))

    def adjoint(self, gradient: Rows) -> Matrix:
        """The gradient with respect to R of a function of P with this symmetric gradient."""
        found = self.factors.solved_transposed([gradient[i][j] * (1 if i == j else 2) for i, j in self.pairs])
        return self.square([-value / (1 if i == j else 2) for value, (i, j) in zip(found, self.pairs)])


class Problem:
    """What a form is for: the system per tick, in levels, with states measured in t. `weights` is 1 for each state
    whose bound counts, and less for the others.
    """

    def __init__(self, a: Rows, t: Vector, quanta: Vector, away: Vector, slopes: Vector, weights: Vector) -> None:
        self.n = len(a)
        self.top = max(abs(value) for row in a for value in row)
        self.t = t
        self.a = [[value / self.top * t[j] / t[i] for j, value in enumerate(row)] for i, row in enumerate(a)]
        self.sizes = [[abs(value) for value in row] for row in self.a]
        self.quanta = [one / unit for one, unit in zip(quanta, t)]
        self.away = [one / unit for one, unit in zip(away, t)]
        self.slopes = [one / unit for one, unit in zip(slopes, t)]
        self.weights = weights


class Form:
    """A form in the units of its problem: the rate, P, R, the diagonal mu below R, and what follows. R is the diagonal
    mu itself unless the form is `is_whole`."""

    def __init__(self, problem: Problem, rate: float, p: Matrix, r: Matrix, mu: List[float]) -> None:
        self.problem, self.rate, self.p, self.r, self.mu = problem, rate, p, r, mu
        self.is_whole = any(r[i][j] for i in range(problem.n) for j in range(i))
        n, u = problem.n, problem.weights
        self.pa = [[abs(value) for value in row] for row in product(p, problem.a)]
        self.tau = least_eigenvalue([[p[i][j] / u[i] / u[j] for j in range(n)] for i in range(n)])
        self.lower = [self.tau * one * one for one in u]

    def widths(self) -> Optional[List[float]]:
        """What a state may be away from its level and move in a tick, together; None if the invariant set grows
        without end.
        """
        problem = self.problem
        if not self.tau > 0:
            return None
        centre = [abs(sum(map(mul, row, problem.slopes))) / problem.top for row in self.p]
        basin = sum(x * sum(map(mul, row, problem.away)) for x, row in zip(problem.away, self.p))
        for _ in range(BASIN_ROUNDS):
            far = [math.sqrt(basin / one) + quantum for one, quantum in zip(self.lower, problem.quanta)]
            moves = [problem.top * sum(map(mul, row, far)) for row in problem.sizes]
            moves = [one + abs(slope) for one, slope in zip(moves, problem.slopes)]
            widths = [one + other for one, other in zip(problem.quanta, moves)]
            gains = [sum(map(mul, row, widths)) + more for row, more in zip(self.pa, centre)]
            needed = sum(gain * gain / mu for gain, mu in zip(gains, self.mu)) / self.rate
            if needed <= basin:
                self.basin = basin
                return widths
            if not needed < GREATEST:
                return None
            basin = max(needed, basin * 1.001) * 1.001
        return None

    def ratio(self, widths: Vector) -> float:
        """The bound over the lower bound, of the state for which it is greatest among those that count."""
        gains = [2 * sum(map(mul, row, widths)) for row in self.pa]
        ellipsoid = sum(gain * gain / mu for gain, mu in zip(gains, self.mu)) / self.rate
        return math.sqrt(ellipsoid / self.tau)


class Family:
    """The forms of one rate: parameters are the logarithms of a diagonal and, if `whole`, the rows of a factor of the
    rest of R.
    """

    def __init__(self, problem: Problem, rate: float, whole: bool = False) -> None:
        n = problem.n
        self.problem, self.rate, self.whole = problem, rate, whole
        shifted = [
            [value + (rate / 2 if i == j else 0.0) for j, value in enumerate(row)] for i, row in enumerate(problem.a)
        ]
        self.equation = Lyapunov(shifted)
        self.corners = [(i, j) for i in range(n) for j in range(i + 1)] if whole else []
        self.widths = problem.quanta

    def parts(self, x: Vector) -> Tuple[List[float], Matrix, Optional[Matrix]]:
        """The diagonal and the whole of R."""
        n = self.problem.n
        mu = [math.exp(max(-60.0, min(60.0, value))) for value in x[:n]]
        right = [[mu[i] if i == j else 0.0 for j in range(n)] for i in range(n)]
        if not self.whole:
            return mu, right, None
        factor = [[0.0] * n for _ in range(n)]
        for (i, j), value in zip(self.corners, x[n:]):
            factor[i][j] = value
        for i in range(n):
            for j in range(n):
                right[i][j] += sum(map(mul, factor[i], factor[j]))
        return mu, right, factor

    def form(self, x: Vector) -> Optional[Form]:
        """The form of these parameters, or None."""
        if not self.equation.factors.is_regular:
            return None
        mu, right, _ = self.parts(x)
        p = self.equation.solved(right)
        return Form(self.problem, self.rate, p, right, mu) if cholesky(p) else None

    def value(self, x: Vector) -> Tuple[float, Optional[List[float]]]:
        """About twice the logarithm of the ratio, and its gradient; (infinity, None) outside the domain."""
        mu, right, factor = self.parts(x)
        p = self.equation.solved(right)
        eigenvalue = inverse_eigenvalue(p, self.problem.weights)
        if eigenvalue is None:
            return math.inf, None
        largest, by_eigenvalue = eigenvalue
        ellipsoid, shares, by_ellipsoid = self.ellipsoid(p, mu)
        by_right = self.equation.adjoint(
            [[one - other for one, other in zip(row, more)] for row, more in zip(by_ellipsoid, by_eigenvalue)]
        )
        found = [one * (by_right[i][i] - shares[i] ** 2 / ellipsoid) for i, one in enumerate(mu)]
        if factor is not None:
            twice = product([[2 * value for value in row] for row in by_right], factor)
            found += [twice[i][j] for i, j in self.corners]
        return math.log(ellipsoid) + largest, found

    def ellipsoid(self, p: Rows, mu: Sequence[float]) -> Tuple[float, List[float], Matrix]:
        """The size of the ellipsoid of P, each gain over its mu, and the gradient of the size's logarithm by P."""
        pa = product(p, self.problem.a)
        gains = [sum(abs(value) * width for value, width in zip(row, self.widths)) for row in pa]
        shares = [gain / one for gain, one in zip(gains, mu)]
        ellipsoid = sum(map(mul, gains, shares))
        signed = [
            [2 * share * math.copysign(width, value) for value, width in zip(row, self.widths)]
            for row, share in zip(pa, shares)
        ]
        slope = symmetric(product(signed, transposed(self.problem.a)))
        return ellipsoid, shares, [[value / ellipsoid for value in row] for row in slope]


def symmetric(m: Rows) -> Matrix:
    """The mean of a matrix and its transpose."""
    return [[(one + other) / 2 for one, other in zip(row, column)] for row, column in zip(m, transposed(m))]


def inverse_eigenvalue(p: Matrix, weights: Vector) -> Optional[Tuple[float, Matrix]]:
    """The logarithm of about the greatest eigenvalue of W P^-1 W, where `weights` is the diagonal of W, and minus its
    gradient by P; None if P is not positive definite. The eigenvalue is a root of the trace of a power.
    """
    back = inverse(p) if cholesky(p) else None
    if back is None:
        return None
    n = len(p)
    matrix = [[back[i][j] * weights[i] * weights[j] for j in range(n)] for i in range(n)]
    scale = size(matrix)
    powers = [[[value / scale for value in row] for row in matrix]]
    for _ in range(POWERS):
        powers.append(product(powers[-1], powers[-1]))
    trace = sum(powers[-1][i][i] for i in range(n))
    if not trace > 1e-280:
        return None
    largest = math.log(scale) + math.log(trace) / 2.0**POWERS
    # the power below the last one is the product of all powers before it
    lower = powers[0]
    for one in powers[1:POWERS]:
        lower = product(lower, one)
    half = [[back[i][j] * weights[j] for j in range(n)] for i in range(n)]
    outer = symmetric(product(product(half, lower), transposed(half)))
    return largest, [[value / scale / trace for value in row] for row in outer]


def minimised(function: Function, x: List[float], rounds: int) -> List[float]:
    """A point with a low value of a function that returns (value, gradient), by BFGS with a weak Wolfe line search."""
    value, gradient = function(x)
    if gradient is None:
        return x
    n = len(x)
    h: Optional[Matrix] = None
    for _ in range(rounds):
        direction = [-one for one in gradient] if h is None else [-sum(map(mul, row, gradient)) for row in h]
        fall = sum(map(mul, direction, gradient))
        if not fall < -1e-10:
            break
        if h is None:
            length = max(abs(one) for one in direction)
            direction = [one / max(1.0, length) for one in direction]
            fall = sum(map(mul, direction, gradient))
        found = line_search(function, x, value, direction, fall)
        if found is None:
            break
        following, next_value, next_gradient = found
        step = [one - other for one, other in zip(following, x)]
        change = [one - other for one, other in zip(next_gradient, gradient)]
        inner = sum(map(mul, step, change))
        if h is None:
            start = inner / max(sum(map(mul, change, change)), 1e-300)
            h = [[start if i == j else 0.0 for j in range(n)] for i in range(n)]
        if inner > 1e-14:
            hy = [sum(map(mul, row, change)) for row in h]
            factor = (1 + sum(map(mul, change, hy)) / inner) / inner
            h = [
                [h[i][j] + factor * step[i] * step[j] - (hy[i] * step[j] + step[i] * hy[j]) / inner for j in range(n)]
                for i in range(n)
            ]
        gain = value - next_value
        x, value, gradient = following, next_value, next_gradient
        if gain < 1e-4:
            break
    return x


def line_search(
    function: Function, x: List[float], value: float, direction: List[float], fall: float
) -> Optional[Tuple[List[float], float, List[float]]]:
    """A point on the line that meets the weak Wolfe conditions, or the lowest one that was seen, or None."""
    low, high, step, best = 0.0, math.inf, 1.0, None
    for _ in range(25):
        point = [one + step * other for one, other in zip(x, direction)]
        found, gradient = function(point)
        if gradient is None or found > value + 1e-4 * step * fall:
            high = step
        else:
            best = point, found, gradient
            if sum(map(mul, gradient, direction)) >= 0.9 * fall:
                break
            low = step
        step = (low + high) / 2 if high < math.inf else 2 * low
    return best


def spread(values: Sequence[complex]) -> float:
    """The greatest size of an eigenvalue over the slowest rate of decay."""
    return max(abs(value) for value in values) / min(-value.real for value in values)
