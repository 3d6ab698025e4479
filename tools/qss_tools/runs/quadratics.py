"""The trajectories of expressions: sums of products with at most one moving variable, and products of two of them."""
from fractions import Fraction
from typing import Any, Callable, Dict, List, Mapping, Sequence, Set, Tuple, Union

from ..arrays import load
from ..fault import Fault
from .expressions import Key, Terms, degree, denominator, is_computed, states_in, terms_of, variables_of
from .measures import Request, measured, window_of
from .rows import Run
from .trajectories import Combination, Exact, Trajectory

QUADRATIC = ("mean", "integral", "at", "start", "final")  # the measures of products of two moving variables


class ExpressionSum(Combination):
    """A sum of products that have at most one moving variable each, in whole numbers."""

    def __init__(self, run: Run, name: str, terms: Terms) -> None:
        self.name, units = name, run.units
        below = denominator(terms)
        states = max((states_in(run, key) for key in terms), default=0)
        discretes = max((len(key) - states_in(run, key) for key in terms), default=0)
        self.unit = Fraction(1, below << (states * units.state + discretes * units.level))
        self.terms: List[Tuple[int, Key]] = []
        for key, value in terms.items():
            moving = states_in(run, key)
            missing = (states - moving) * units.state + (discretes - len(key) + moving) * units.level
            self.terms.append((int(value * below) << missing, key))

    def needs(self) -> Set[int]:
        return {number for _, key in self.terms for number in key}

    def total(self, values: Mapping[int, Any]) -> Any:
        total: Any = 0
        for weight, key in self.terms:
            product: Any = weight
            for number in key:
                product = values[number] * product
            total = total + product
        return total


class Quadratic:
    """A sum of a trajectory and of products of two trajectories."""

    def __init__(self, name: str, linear: Trajectory, pairs: Sequence[Tuple[Trajectory, Trajectory]]) -> None:
        self.name, self.linear, self.pairs = name, linear, pairs

    def measured(self, asked: Request) -> Fraction:
        """The value of a measure."""
        if asked.name not in QUADRATIC:
            raise Fault(
                "%s: '%s' has a product of two variables that move, of which there are %s"
                % (asked.name, self.name, ", ".join(QUADRATIC))
            )
        if asked.name in ("mean", "integral"):
            return self.integrated(asked)
        value: Fraction = measured(asked._replace(variable=self.name), self.linear)
        for one, other in self.pairs:
            value += measured(asked, one) * measured(asked, other)
        return value

    def integrated(self, asked: Request) -> Fraction:
        window = window_of(self.linear.complete, asked.options.get("from"), asked.options.get("to"))
        total = Fraction(window.twice_area()) / 2 * self.linear.unit
        for one, other in self.pairs:
            product = product_integral(one.complete, other.complete, window.begin, window.end)
            total += Fraction(product) / 6 * one.unit * other.unit
        return total / window.length() if asked.name == "mean" else total * self.linear.tick


Line = Union[Trajectory, Quadratic]


def value_of(asked: Request, line: Line) -> Any:
    """The value of a measure of a variable or of an expression."""
    return line.measured(asked) if isinstance(line, Quadratic) else measured(asked, line)


def product_integral(one: Trajectory, other: Trajectory, begin: Exact, end: Exact) -> Exact:
    """Six times the integral of the product of two trajectories, in ticks and numbers."""
    if load() is not None and hasattr(one, "ticks") and hasattr(other, "ticks"):
        return array_integral(one, other, begin, end)
    edges = [begin, *(time for time in sorted({*one.times, *other.times}) if begin < time < end), end]
    return sum(piece_integral(one, other, low, high) for low, high in zip(edges, edges[1:]))


def piece_integral(one: Trajectory, other: Trajectory, low: Exact, high: Exact) -> Exact:
    """Six times the integral over a time in which both are straight lines."""
    length = high - low
    a, b = one.at(low), other.at(low)
    c, d = a + one.slope_at(low) * length, b + other.slope_at(low) * length
    return (2 * a * b + a * d + c * b + 2 * c * d) * length


def array_integral(one: Any, other: Any, begin: Exact, end: Exact) -> Exact:
    """The same for arrays: the first and the last piece as numbers, and the others by products of matrices."""
    from .series import merged
    from .wide import Wide, square_sum

    np = load()
    ticks = merged([one.ticks, other.ticks])
    ticks = ticks[(ticks > float(begin)) & (ticks < float(end))]
    if not len(ticks):
        return piece_integral(one, other, begin, end)
    total = piece_integral(one, other, begin, int(ticks[0])) + piece_integral(one, other, int(ticks[-1]), end)
    if len(ticks) == 1:
        return total
    lengths = np.diff(ticks)
    ends = []
    for line in (one, other):
        places = np.searchsorted(line.ticks, ticks[:-1], "right") - 1
        rises = line.rises[places]
        first = line.starts[places] + rises * Wide([ticks[:-1] - line.ticks[places]])
        ends.append((first, first + rises * Wide([lengths])))
    (a, c), (b, d) = ends
    # 2 ab + ad + cb + 2 cd = ab + (a + c) (b + d) + cd
    for left, right in ((a, b), (a + c, b + d), (c, d)):
        total += square_sum(left, right, lengths)
    return total


Compute = Callable[[List[int], Dict[int, Combination]], List[Trajectory]]


def lines_of_names(
    run: Run, names: Sequence[str], compute: Compute, number_of: Callable[[Run, str], int]
) -> Dict[str, Line]:
    """The trajectories of variables and of expressions by their texts."""
    numbers: List[int] = []
    sums: Dict[int, Combination] = {}
    plans: Dict[str, Tuple[int, List[Tuple[int, int]]]] = {}

    def summed(name: str, terms: Terms) -> int:
        place = -1 - len(sums)
        sums[place] = ExpressionSum(run, name, terms)
        numbers.append(place)
        return place

    for name in names:
        if not is_computed(run, name):
            plans[name] = number_of(run, name), []
            numbers.append(plans[name][0])
            continue
        terms = terms_of(run, name)
        check_degree(run, name, terms)
        linear = {key: value for key, value in terms.items() if states_in(run, key) < 2}
        pairs = []
        for key, value in terms.items():
            if key not in linear:
                # (the states of a product come first)
                pairs.append((summed(name, {key[:1] + key[2:]: value}), summed(name, {key[1:2]: Fraction(1)})))
        plans[name] = summed(name, linear), pairs
    unique = list(dict.fromkeys(numbers))
    found = dict(zip(unique, compute(unique, sums)))
    lines: Dict[str, Line] = {}
    for name, (place, pairs) in plans.items():
        products = [(found[one], found[other]) for one, other in pairs]
        lines[name] = Quadratic(name, found[place], products) if products else found[place]
    return lines


def check_degree(run: Run, name: str, terms: Terms) -> None:
    if degree(run, terms) > 2:
        raise Fault("'%s': a product has at most two variables that move" % name)


def check_name(run: Run, name: str, number_of: Callable[[Run, str], int]) -> None:
    """A variable, a parameter or an expression can be measured."""
    if is_computed(run, name):
        terms = terms_of(run, name)
        check_degree(run, name, terms)
        variables_of(terms)
    else:
        number_of(run, name)
