"""Linear algebra of small dense matrices in floating point: lists of rows, without a library."""
import cmath
import math
from operator import mul
from typing import Generic, List, Optional, Sequence, TypeVar

Value = TypeVar("Value", int, float, complex)
Scalar = TypeVar("Scalar", float, complex)
Element = TypeVar("Element")
Vector = Sequence[float]
Rows = Sequence[Sequence[float]]  # of a matrix that is read
Matrix = List[List[float]]


def product(x: Sequence[Sequence[Value]], y: Sequence[Sequence[Value]]) -> List[List[Value]]:
    """The product of two matrices."""
    columns = list(zip(*y))
    return [[sum(map(mul, row, column)) for column in columns] for row in x]


def plus(x: Rows, y: Rows) -> Matrix:
    """The sum of two matrices."""
    return [[one + other for one, other in zip(row, more)] for row, more in zip(x, y)]


def transposed(m: Sequence[Sequence[Element]]) -> List[List[Element]]:
    return [list(column) for column in zip(*m)]


def size(m: Sequence[Sequence[complex]]) -> float:
    """The greatest absolute row sum."""
    return max(sum(abs(value) for value in row) for row in m)


def unit_matrix(n: int) -> Matrix:
    return [[float(i == j) for j in range(n)] for i in range(n)]


class Factors(Generic[Scalar]):
    """The factors of a square matrix, by Gauss with row exchanges. `is_regular` is false if a pivot vanishes."""

    def __init__(self, matrix: Sequence[Sequence[Scalar]], least: float = 1e-300) -> None:
        n = self.n = len(matrix)
        self.rows: List[List[Scalar]] = [list(row) for row in matrix]
        rows = self.rows
        self.order = list(range(n))
        self.is_regular = True
        for k in range(n):
            pivot = max(range(k, n), key=lambda i: abs(rows[i][k]))
            if not abs(rows[pivot][k]) > least:
                self.is_regular = False
                return
            rows[k], rows[pivot] = rows[pivot], rows[k]
            self.order[k], self.order[pivot] = self.order[pivot], self.order[k]
            top, head = rows[k][k + 1 :], rows[k][k]
            for i in range(k + 1, n):
                row = rows[i]
                if row[k]:
                    factor = row[k] / head
                    row[k] = factor
                    row[k + 1 :] = [one - factor * other for one, other in zip(row[k + 1 :], top)]
        self.columns: List[List[Scalar]] = transposed(rows)

    def solved(self, right: Sequence[Scalar]) -> List[Scalar]:
        """The solution x of M x = right."""
        n, rows = self.n, self.rows
        x = [right[place] for place in self.order]
        for i in range(1, n):
            x[i] -= sum(map(mul, rows[i][:i], x[:i]))
        for i in reversed(range(n)):
            x[i] = (x[i] - sum(map(mul, rows[i][i + 1 :], x[i + 1 :]))) / rows[i][i]
        return x

    def solved_transposed(self, right: Sequence[Scalar]) -> List[Scalar]:
        """The solution x of M' x = right."""
        n, columns = self.n, self.columns
        x = list(right)
        for i in range(n):
            x[i] = (x[i] - sum(map(mul, columns[i][:i], x[:i]))) / columns[i][i]
        for i in reversed(range(n)):
            x[i] -= sum(map(mul, columns[i][i + 1 :], x[i + 1 :]))
        found: List[Scalar] = [0.0] * n
        for place, value in zip(self.order, x):
            found[place] = value
        return found


def solved(rows: Rows, right: Vector) -> Optional[List[float]]:
    """The solution of linear equations, or None if they have no single one."""
    factors = Factors(rows, 1e-14 * size(rows) if rows else 0.0)
    return factors.solved(right) if factors.is_regular else None


def cholesky(m: Rows, shift: float = 0.0) -> Optional[Matrix]:
    """The upper factor U with U'U = m - shift * 1, or None if that matrix is not positive definite."""
    n = len(m)
    factor = [[0.0] * n for _ in range(n)]
    for i in range(n):
        above = [factor[k][i] for k in range(i)]
        rest = m[i][i] - shift - sum(map(mul, above, above))
        if not rest > 0:
            return None
        head = factor[i][i] = math.sqrt(rest)
        for j in range(i + 1, n):
            factor[i][j] = (m[i][j] - sum(one * factor[k][j] for k, one in enumerate(above))) / head
    return factor


def least_eigenvalue(m: Rows) -> float:
    """About the least eigenvalue of a symmetric matrix, from below; 0 if the matrix is not positive definite."""
    low, high = 0.0, min(m[i][i] for i in range(len(m)))
    if not high > 0 or cholesky(m) is None:
        return 0.0
    for _ in range(50):
        middle = (low + high) / 2
        low, high = (middle, high) if cholesky(m, middle) else (low, middle)
    return low


def inverse(m: Sequence[Sequence[Scalar]]) -> Optional[List[List[Scalar]]]:
    """The inverse, or None."""
    n = len(m)
    factors = Factors(m)
    if not factors.is_regular:
        return None
    return transposed([factors.solved([float(i == j) for i in range(n)]) for j in range(n)])


def exponential(a: Rows, step: float) -> Matrix:
    """exp(a * step): a power series for a small part of the step, and squares."""
    squares = max(0, math.ceil(math.log2(max(size(a) * abs(step), 1e-300))))
    step /= 2.0**squares
    total, term = unit_matrix(len(a)), unit_matrix(len(a))
    for k in range(1, 18):
        term = [[value * step / k for value in row] for row in product(term, a)]
        total = plus(total, term)
    for _ in range(squares):
        total = product(total, total)
    return total


def eigenvalues(a: Rows) -> List[complex]:
    """The eigenvalues of a real square matrix, by the QR method with shifts on its Hessenberg form."""
    n = len(a)
    h = hessenberg([[complex(value) for value in row] for row in a])
    small = 1e-15 * max(size(h), 1e-300)
    found: List[complex] = []
    rounds = 0
    while n:
        if n == 1 or abs(h[n - 1][n - 2]) <= max(small * 1e-3, 1e-16 * (abs(h[n - 1][n - 1]) + abs(h[n - 2][n - 2]))):
            found.append(h[n - 1][n - 1])
            n, rounds = n - 1, 0
            h = [row[:n] for row in h[:n]]
            continue
        rounds += 1
        if rounds > 500:
            raise ArithmeticError("the QR method did not converge")
        shift = corner(h, n) if rounds % 11 else h[n - 1][n - 1] + abs(h[n - 1][n - 2])
        qr_step(h, n, shift)
    return found


def hessenberg(h: List[List[complex]]) -> List[List[complex]]:
    """A similar matrix without numbers below its first subdiagonal, by elimination."""
    n = len(h)
    for k in range(1, n - 1):
        pivot = max(range(k, n), key=lambda i: abs(h[i][k - 1]))
        if not h[pivot][k - 1]:
            continue
        h[k], h[pivot] = h[pivot], h[k]
        for row in h:
            row[k], row[pivot] = row[pivot], row[k]
        for i in range(k + 1, n):
            eliminate(h, k, i)
    return h


def eliminate(h: List[List[complex]], k: int, i: int) -> None:
    """Makes the number in row i and column k - 1 zero by row k; the matrix stays similar."""
    factor = h[i][k - 1] / h[k][k - 1]
    if not factor:
        return
    h[i] = [one - factor * other for one, other in zip(h[i], h[k])]
    for row in h:
        row[k] += factor * row[i]


def corner(h: List[List[complex]], n: int) -> complex:
    """The eigenvalue of the last two rows that is nearer to the last number."""
    a, b, c, d = h[n - 2][n - 2], h[n - 2][n - 1], h[n - 1][n - 2], h[n - 1][n - 1]
    half, root = (a + d) / 2, cmath.sqrt(((a - d) / 2) ** 2 + b * c)
    return min(half + root, half - root, key=lambda value: abs(value - d))


def qr_step(h: List[List[complex]], n: int, shift: complex) -> None:
    """H - shift = QR, then H becomes RQ + shift."""
    for i in range(n):
        h[i][i] -= shift
    turns = []
    for k in range(n - 1):
        x, y = h[k][k], h[k + 1][k]
        length = math.hypot(abs(x), abs(y))
        c, s = (x / length, y / length) if length else (1.0 + 0j, 0j)
        turns.append((c, s))
        for j in range(k, n):
            one, other = h[k][j], h[k + 1][j]
            h[k][j] = c.conjugate() * one + s.conjugate() * other
            h[k + 1][j] = -s * one + c * other
    for k, (c, s) in enumerate(turns):
        for i in range(min(k + 2, n)):
            one, other = h[i][k], h[i][k + 1]
            h[i][k] = one * c + other * s
            h[i][k + 1] = -one * s.conjugate() + other * c.conjugate()
    for i in range(n):
        h[i][i] += shift


def eigenvectors(a: Rows, values: Sequence[complex]) -> Optional[List[List[complex]]]:
    """A matrix whose columns are eigenvectors, one for each value, by inverse iteration."""
    n = len(a)
    top = max(size(a), 1e-300)
    vectors = []
    for number, value in enumerate(values):
        shift = value + top * 1e-11 * (1 + number)
        factors = Factors([[a[i][j] - (shift if i == j else 0) for j in range(n)] for i in range(n)], 0.0)
        if not factors.is_regular:
            return None
        vector = [complex(math.cos(1 + 3 * i + 7 * number), math.sin(2 + 5 * i * (number + 1))) for i in range(n)]
        for _ in range(3):
            vector = factors.solved(vector)
            length = max(abs(one) for one in vector)
            vector = [one / length for one in vector]
        vectors.append(vector)
    return transposed(vectors)
