"""Explains which number of a machine passes its limit, by how much, and what would fit."""
import math
from fractions import Fraction
from typing import List, Union

from ..model.flat import MOST_ITEMS, MOST_ROUNDS, MOST_VARIABLES, STATE, TIME, Flat, Meaningless, Values, Variable
from ..model.grammar import Clause, Model, Power, Product, Sum, parse
from ..model.source import Source
from ..model.story import Story
from ..numeric.rates import shortest_time

Number = Union[int, float, Fraction]

# Of settings: each, the first two together, and all three together.
MOST_COEF_BITS, MOST_TICK_BITS, MOST_LEVEL_BITS = 32, 20, 24
MOST_COEF_AND_TICK_BITS, MOST_BITS_TOGETHER = 44, 62
COEFFICIENT_BITS = 44  # of a coefficient of an equation, in units of 2^-p
FORM_BITS = 38  # of all coefficients of a condition or a statement together
CONSTANT_BITS = 78  # of a constant, in units of 2^-(f+p)
LEVEL_BITS = 43  # of a level or a discrete value, in units of 2^-f
QUANTUM_BITS = 32  # of a quantum, in units of 2^-f
TICKS_A_TIME_CONSTANT = 16  # at least, so that a tick does not overshoot
MOST_NODES = 1048576
MOST_COEFFICIENTS = 65536


def shown(value: Number) -> str:
    """A number as people write it."""
    return "%.6g" % float(value)


def log2(value: Number) -> float:
    """The binary logarithm of a positive fraction, also of a large one."""
    value = Fraction(value)
    return math.log2(value.numerator) - math.log2(value.denominator)


# counts


def too_many(model: Model, count: int) -> Story:
    """More variables, items, rounds or nodes than a model may have."""
    what, way = {
        MOST_VARIABLES + 1: ("more than 4096 variables", "make the arrays smaller"),
        MOST_ITEMS + 1: ("more than 16384 equations, conditions and statements", "make the loops shorter"),
        MOST_ROUNDS + 1: ("more than 65536 rounds of loops", "make the loops shorter"),
        MOST_NODES + 1: ("more than 1048576 numbers, names and operations", "give common parts a name of their own"),
    }[count]
    return Story(first_too_many(model), "with this there are " + what, way)


def first_too_many(model: Model) -> int:
    """The place at which the first limit of unrolling is passed."""
    nodes = 0
    try:
        flat = Flat(model)
        for equation, _ in flat.unrolled(model.equations):
            nodes += nodes_of(equation.value)
            if nodes > MOST_NODES:
                return equation.at
        for clause, loop in flat.unrolled(model.clauses):
            nodes += nodes_of_clause(flat, clause, loop)
            if nodes > MOST_NODES or flat.items > MOST_ITEMS:
                return clause.at
    except Meaningless as passed:
        return passed.at
    return model.end_at


def nodes_of_clause(flat: Flat, clause: Clause, loop: Values) -> int:
    """How many nodes a clause has. In `flat` each of its conditions and statements counts as an item, and the clause
    itself as none.
    """
    nodes = 0
    for branch in clause.branches:
        flat.items += 1
        nodes += nodes_of(branch.condition.left) + nodes_of(branch.condition.right)
        nodes += sum(nodes_of(statement.value) for statement, _ in flat.unrolled(branch.body, loop))
    flat.items -= 1
    return nodes


def nodes_of(part: object) -> int:
    """How many nodes an expression has; its indices count none."""
    if isinstance(part, (Sum, Product)):
        return 1 + sum(nodes_of(value) for _, _, value in part.parts)
    return 1 + nodes_of(part.base) if isinstance(part, Power) else 1


def too_many_coefficients(model: Model) -> Story:
    flat = Flat(model)
    total = 0
    for row in flat.rows():
        total += len(row.form.parts)
        if total > MOST_COEFFICIENTS:
            return Story(
                row.part.at,
                "with %s there are more than 65536 coefficients in all" % row.label,
                "give sums that come often a state or fewer parts",
            )
    last = flat.rows()[-1]
    return Story(last.part.at, "there are more than 65536 coefficients in all, those of algebraic variables included")


# rounding


def rounded(source: Source, number: str, fields: List[str]) -> Story:
    """A setting, a start, a quantum or a coefficient is past a machine's limits."""
    flat = Flat(parse(source))
    if number == "1":
        return setting(flat, fields[0], Fraction(fields[1]))
    if number == "4":
        return coefficient(flat, int(fields[0]))
    one = flat.variables[flat.numbers[fields[0]]]
    return start(flat, one) if number == "2" else quantum(flat, one)


def place_of_setting(flat: Flat, name: str) -> int:
    """The place of a setting, or the place at which it could be written."""
    for one in flat.model.settings:
        if one.name == name:
            return one.at
    return flat.model.settings_end if flat.model.settings_end is not None else flat.model.end_at


def setting(flat: Flat, name: str, value: Fraction) -> Story:
    """A setting that is not accepted."""
    p, k = flat.settings["QSS_CoefBits"], flat.settings["QSS_TickBits"]
    sentence = "%s = %s is not accepted: " % (name, shown(value))
    way = None
    if name == "StartTime":
        sentence += "a run starts at 0"
        way = "leave StartTime out"
    elif name == "StopTime" and value < 0:
        sentence += "it is below 0"
        way = "write a StopTime above 0"
    elif name == "StopTime":
        sentence += "with QSS_TickBits = %s it is below 2^(32 - %s) = %d" % (k, k, 2 ** (32 - int(k)))
        way = "write at most QSS_TickBits = %d, or take a larger unit of time" % max(0, 31 - math.ceil(log2(value)))
    elif name == "QSS_CoefBits":
        sentence += "it is a whole number from 0 to 32"
        bits = [Fraction(MOST_COEF_BITS), MOST_COEF_AND_TICK_BITS - k]
        bits.append(MOST_BITS_TOGETHER - k - flat.settings["QSS_LevelBits"])
        way = "write QSS_CoefBits = %d or less, or leave it out, which means 24" % max(0, int(min(bits)))
    elif name == "QSS_TickBits":
        most = MOST_COEF_AND_TICK_BITS - p
        sentence += "it is a whole number from 0 to 20, and with QSS_CoefBits = %s at most %s" % (p, most)
        most = max(Fraction(0), min(Fraction(MOST_TICK_BITS), most))
        way = "write QSS_TickBits = %d or less; for shorter ticks take a shorter unit of time" % int(most)
    else:
        most = MOST_BITS_TOGETHER - p - k
        what = "it is a whole number from 0 to 24, and with QSS_CoefBits = %s and QSS_TickBits = %s at most %s"
        sentence += what % (p, k, most)
        way = "write QSS_LevelBits = %d or less" % int(max(Fraction(0), min(Fraction(MOST_LEVEL_BITS), most)))
    return Story(place_of_setting(flat, name), sentence, way)


def start(flat: Flat, one: Variable) -> Story:
    """A start value is past its limit, or makes the absolute sum of its row too large."""
    f = flat.bits("QSS_LevelBits")
    value = flat.starts[flat.numbers[one.name]]
    most = Fraction(2) ** (LEVEL_BITS - f)
    if abs(value) > most:
        return Story(
            one.declaration.at,
            "the start of %s is %s, past 2^43 levels, which are %s" % (one.name, shown(value), shown(most)),
            "take a larger unit for %s, or at most QSS_LevelBits = %d"
            % (one.name, math.floor(LEVEL_BITS - log2(abs(value))))
            if abs(value) < 2**LEVEL_BITS
            else "take a larger unit for %s" % one.name,
        )
    return Story(
        one.declaration.at,
        "at the start the equation of %s has terms that are too large: 2^44 for a coefficient, 2^88 for their sum"
        % one.name,
        "write fewer QSS_CoefBits, or take another unit of time",
    )


def quantum(flat: Flat, one: Variable) -> Story:
    """A quantum is below one level or too large."""
    f = flat.bits("QSS_LevelBits")
    at = one.quantum_at if one.quantum_at is not None else place_of_setting(flat, "QSS_Quantum")
    levels = one.quantum * 2**f
    sentence = "the quantum of %s, %s, is %s levels of 2^-%d" % (one.name, shown(one.quantum), shown(levels), f)
    if levels >= 1:
        return Story(at, sentence + ": at most 2^32", "write a smaller quantum or fewer QSS_LevelBits")
    if one.quantum <= 0:
        return Story(
            at, "the quantum of %s is not above 0" % one.name, "write how far a state may move before its level follows"
        )
    needed = math.ceil(-log2(one.quantum))
    room = min(MOST_LEVEL_BITS, MOST_BITS_TOGETHER - flat.bits("QSS_CoefBits") - flat.bits("QSS_TickBits"))
    way = "write a quantum of at least %s" % shown(Fraction(1, 2**f))
    return Story(
        at, sentence + ": at least 1", way + (", or QSS_LevelBits = %d or more" % needed if needed <= room else "")
    )


def coefficient(flat: Flat, row: int) -> Story:
    """A coefficient or a constant of a row is too large."""
    rows = flat.rows()
    if not 1 <= row <= len(rows):
        raise ValueError(row)
    one = rows[row - 1]
    p, f = flat.bits("QSS_CoefBits"), flat.bits("QSS_LevelBits")
    sizes = {key: abs(value) for key, value in one.form.parts.items()}
    if abs(one.form.constant) * 2 ** (f + p) > 2**CONSTANT_BITS:
        return Story(
            one.part.at,
            "a constant of %s, %s, passes 2^78 units of 2^-%d" % (one.label, shown(one.form.constant), f + p),
            "take a larger unit, or write fewer QSS_LevelBits",
        )
    unit = "take a shorter unit of time (docs/MODELLING.md; tools/qss-advise proposes one)"
    if one.kind == STATE and sizes:
        key, size = max(sizes.items(), key=lambda item: item[1])
        fits = math.floor(COEFFICIENT_BITS - log2(size))
        return Story(
            one.part.at,
            "the coefficient %s of %s in %s passes 2^44 units of 2^-%d"
            % (shown(size), key_name(flat, key), one.label, p),
            "write QSS_CoefBits = %d or less" % fits if fits >= 8 else None,
            unit,
        )
    total = sum(sizes.values())
    fits = math.floor(FORM_BITS - log2(total)) if total else 32
    return Story(
        one.part.at,
        "the coefficients of %s, together %s, pass 2^38 units of 2^-%d" % (one.label, shown(total), p),
        "write QSS_CoefBits = %d or less, or a smaller 'big number' or gain" % fits if fits >= 8 else None,
        unit if fits < 8 else None,
    )


def key_name(flat: Flat, key: tuple) -> str:
    """A key of a form as people write it."""
    if key == TIME:
        return "time"
    if key[0] == "product":
        return "%s*%s" % (flat.variables[key[2]].name, flat.variables[key[1]].name)
    name = flat.variables[key[1]].name
    return "pre(%s)" % name if key[0] == "pre" else name


# overflows


def overflow(source: Source, name: str, tick: int) -> Story:
    """Why a variable overflowed."""
    model = parse(source)
    flat = Flat(model)
    if name not in flat.numbers:
        raise ValueError(name)
    one = flat.variables[flat.numbers[name]]
    k, f = flat.bits("QSS_TickBits"), flat.bits("QSS_LevelBits")
    at_time = Fraction(tick, 2**k)
    sentence = "%s passed its limit of 2^43 levels (%s) at time %s (tick %d)" % (
        name,
        shown(Fraction(2) ** (LEVEL_BITS - f)),
        shown(at_time),
        tick,
    )
    if one.role != STATE:
        return Story(
            one.declaration.at,
            sentence,
            "a statement set it: look at the branches that fired last, or write fewer QSS_LevelBits",
        )
    shortest = shortest_time(flat)
    if shortest is not None and shortest * 2**k < TICKS_A_TIME_CONSTANT:
        return Story(
            one.declaration.at,
            sentence,
            "the likely cause: a tick is 2^-%d = %s, %s times the shortest time constant of %s, so each tick overshoots"
            % (k, shown(Fraction(1, 2**k)), shown(Fraction(1, 2**k) / Fraction(shortest)), shown(shortest)),
            "tools/qss-advise %s proposes settings or a unit of time" % source.name,
        )
    return Story(
        one.declaration.at,
        sentence,
        "the likely cause: the model itself grows (a sign, a gain, a switch that stays on);"
        " ticks are short enough, %s of the shortest time constant"
        % ("1/%d" % round(shortest * 2**k) if shortest else "there is none"),
    )
