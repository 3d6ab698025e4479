"""Findings about the settings of a model: what they do to its numbers in a run."""
import difflib
import math
from fractions import Fraction
from typing import Iterator, List, Optional

from ..model.commas import comma_numbers
from ..model.flat import STATE, Flat, Row
from ..model.grammar import Name, Pre, Sum
from ..model.source import SETTINGS
from ..model.spelling import decimal_text, spell
from ..model.units import TIME_UNIT
from ..numeric.trial import Trial, adds, is_step, time_like
from ..settings.limits import (
    COEFFICIENT_BITS,
    FORM_BITS,
    LEVEL_BITS,
    TICKS_A_TIME_CONSTANT,
    key_name,
    log2,
    place_of_setting,
    shown,
)
from ..settings.sticking import branch_rows, holds, sticking
from .alternating import growing, late_turns
from .finding import Finding
from .scales import LEAST_SIZE, small_states
from .silent import constant_branches, idle_branches, idle_starts, late_clocks, value_at_start

MOST_OF_A_KIND = 6  # findings of one kind that are listed
THOUSANDTH = Fraction(1, 1000)
TICKS_A_CLOCK = 256
MANY_ROWS = 3000000
SMALL = Fraction(1, 16)  # a factor that makes small steps of what it multiplies

# Modifications and settings of Modelica that are ignored and are no mistake.
HARMLESS = (
    "unit",
    "displayUnit",
    "min",
    "max",
    "nominal",
    "fixed",
    "stateSelect",
    "quantity",
    "Interval",
    "NumberOfIntervals",
    "StartTime",
    "Icon",
    "Diagram",
    "Documentation",
    "Placement",
    "Dialog",
    "version",
    "uses",
)


def findings(flat: Flat, trial: Trial) -> List[Finding]:
    """All that is to be said, the graver first, each kind cut to a few."""
    found = []
    for look in (
        numbers_with_commas,
        misspelt,
        late_clocks,
        never_fires,
        idle_branches,
        idle_starts,
        small_states,
        growing,
        late_turns,
        long_runs,
        long_ticks,
        coarse_clocks,
        steep_slopes,
        rounded_coefficients,
        rounded_starts,
        rounded_steps,
        lost_sums,
        stuck_limits,
        quanta,
        near_limits,
        true_at_the_start,
    ):
        some = list(look(flat, trial))
        found += some[:MOST_OF_A_KIND]
        if len(some) > MOST_OF_A_KIND:
            found.append(Finding(None, "and %d more of this kind" % (len(some) - MOST_OF_A_KIND), None, some[-1].grave))
    return found


def numbers_with_commas(flat: Flat, trial: Trial) -> Iterator[Finding]:
    """Numbers with a comma in brackets, of which only the part before the comma counts."""
    for one in comma_numbers(flat.model):
        yield Finding(one.begin, one.sentence(), None, True)


def misspelt(flat: Flat, trial: Trial) -> Iterator[Finding]:
    """Settings that are read over."""
    known = {name.lower(): name for name in SETTINGS}
    for item in flat.model.read_over:
        word = item.text.split()[0]
        if word.startswith("MMO_") or word in HARMLESS or word == TIME_UNIT:
            continue
        meant = known.get(word.lower()) or next(iter(difflib.get_close_matches(word, SETTINGS, 1, 0.75)), None)
        if word == "Tolerance":
            yield Finding(
                item.at,
                "Tolerance has no effect here",
                "the error is set by QSS_Quantum (about 1 to 6 quanta where a model is damped)",
                False,
            )
        elif item.where == "experiment" and (meant or word.startswith("QSS")):
            yield Finding(
                item.at,
                "'%s' is not a setting and is ignored" % word,
                "write %s" % (meant or "one of " + ", ".join(SETTINGS)),
                True,
            )
        elif item.where == "annotation" and meant:
            yield Finding(
                item.at,
                "'%s' is outside experiment(..) and is ignored" % word,
                "write annotation(experiment(%s = ..))" % meant,
                True,
            )
        elif item.where not in ("experiment", "annotation"):
            wanted = next(iter(difflib.get_close_matches(word, ("start", "QSS_Quantum"), 1, 0.7)), None)
            if wanted or word.lower() in ("start", "qss_quantum"):
                yield Finding(
                    item.at,
                    "'%s' of %s is ignored" % (word, item.where),
                    "write '%s'" % (wanted or word.lower()),
                    True,
                )


def long_runs(flat: Flat, trial: Trial) -> Iterator[Finding]:
    """Stop times that have too many ticks."""
    stop, most = flat.settings["StopTime"], 32 - flat.bits("QSS_TickBits")
    if stop < 0 or flat.last_tick() >= 2**32:
        yield Finding(
            place_of_setting(flat, "StopTime"),
            "StopTime = %s is not from 0 to less than 2^%d = %d: the model is refused (machine 1)"
            % (shown(stop), most, 2**most),
            "fewer QSS_TickBits, or a larger unit of time" if stop > 0 else None,
            True,
        )


def tick(flat: Flat) -> Fraction:
    return Fraction(1, 2 ** flat.bits("QSS_TickBits"))


def long_ticks(flat: Flat, trial: Trial) -> Iterator[Finding]:
    """Ticks that are too long for the shortest time constant."""
    length = tick(flat)
    if trial.rate and length * Fraction(trial.rate) * TICKS_A_TIME_CONSTANT > 1:
        shortest = 1 / trial.rate
        yield Finding(
            place_of_setting(flat, "QSS_TickBits"),
            "a tick is 2^-%d = %s, %s times the shortest time constant of %s: each step overshoots%s"
            % (
                flat.bits("QSS_TickBits"),
                shown(length),
                shown(length / Fraction(shortest)),
                shown(shortest),
                ", and the run overflows or is wrong" if length > shortest else "",
            ),
            "a tick should be at most a sixteenth of it",
            True,
        )


def coarse_clocks(flat: Flat, trial: Trial) -> Iterator[Finding]:
    """Clocks that step by few ticks."""
    length, clocks = tick(flat), time_like(flat)
    for row in steps(flat):
        step = abs(row.form.constant)
        if row.variable in clocks and step < TICKS_A_CLOCK * length and (step / length).denominator != 1:
            yield Finding(
                row.part.at,
                "%s is a clock that steps by %s, which is %s ticks: its branch fires up to a tick late"
                % (flat.variables[row.variable].name, shown(step), shown(step / length)),
                "take shorter ticks: at least %d to a step" % TICKS_A_CLOCK,
                True,
            )


def steep_slopes(flat: Flat, trial: Trial) -> Iterator[Finding]:
    """States that move by more than their quantum in a tick."""
    length = float(tick(flat))
    told = set()
    for number in sorted(range(flat.states), key=lambda number: -trial.slope[number]):
        one = flat.variables[number]
        moved = trial.slope[number] * length
        # (the program refuses a quantum of 0 or less)
        if moved > float(one.quantum) > 0 and not trial.grown and one.declaration.name not in told:
            told.add(one.declaration.name)
            yield Finding(
                one.declaration.at,
                "a tick moves %s by up to %s, which is %s quanta: the tick and not the quantum sets its error"
                % (one.name, shown(moved), shown(moved / float(one.quantum))),
                None,
                moved > 4 * float(one.quantum),
            )


def off(value: Fraction, unit: Fraction) -> Optional[Fraction]:
    """What a value is kept as in multiples of a unit, where that is off by more than a thousandth; else None."""
    kept = round(value / unit) * unit
    return kept if abs(kept - value) > abs(value) * THOUSANDTH else None


def rounded_coefficients(flat: Flat, trial: Trial) -> Iterator[Finding]:
    """Coefficients and constants that are rounded by more than a thousandth."""
    p, f = flat.bits("QSS_CoefBits"), flat.bits("QSS_LevelBits")
    told = set()
    for row in flat.rows():
        for key, value in row.form.parts.items():
            kept = off(value, Fraction(1, 2**p))
            if kept is not None and row.part.at not in told:
                told.add(row.part.at)
                yield Finding(
                    row.part.at,
                    "in %s the coefficient %s of %s is kept as %s"
                    % (row.label, shown(value), key_name(flat, key), shown(kept)),
                    "QSS_CoefBits = %d or more would do" % math.ceil(9 - log2(abs(value))),
                    True,
                )
        kept = off(row.form.constant, Fraction(1, 2 ** (f + p))) if row.form.constant else None
        if kept is not None and row.part.at not in told:
            told.add(row.part.at)
            yield Finding(
                row.part.at,
                "in %s the constant %s is kept as %s" % (row.label, shown(row.form.constant), shown(kept)),
                None,
                True,
            )


def rounded_starts(flat: Flat, trial: Trial) -> Iterator[Finding]:
    """Starts and quanta that are rounded by more than a thousandth."""
    p, k, f = flat.bits("QSS_CoefBits"), flat.bits("QSS_TickBits"), flat.bits("QSS_LevelBits")
    told = set()
    for number, start in enumerate(flat.starts[: flat.states + flat.discretes]):
        one = flat.variables[number]
        kept = off(start, Fraction(1, 2 ** (f + p + k if one.role == STATE else f))) if start else None
        if kept is not None and one.declaration.at not in told:
            told.add(one.declaration.at)
            yield Finding(
                one.declaration.at,
                "the start of %s, %s, is kept as %s" % (one.name, shown(start), shown(kept)),
                None,
                True,
            )


def quanta(flat: Flat, trial: Trial) -> Iterator[Finding]:
    """Quanta that are rounded, or too coarse for what a state does."""
    f = flat.bits("QSS_LevelBits")
    told = set()
    for number in range(flat.states):
        one = flat.variables[number]
        at = one.quantum_at if one.quantum_at is not None else place_of_setting(flat, "QSS_Quantum")
        kept = Fraction(math.floor(one.quantum * 2**f), 2**f)
        if kept and at not in told and one.quantum - kept > one.quantum * THOUSANDTH:
            told.add(at)
            yield Finding(
                at, "the quantum of %s, %s, is kept as %s" % (one.name, shown(one.quantum), shown(kept)), None, False
            )
        if (
            trial.size[number]
            and one.quantum > 0
            and not trial.grown
            and LEAST_SIZE <= trial.size[number] < 20 * float(one.quantum)
            and one.declaration.at not in told
        ):
            told.add(one.declaration.at)
            yield Finding(
                one.declaration.at,
                "%s reaches about %s, which is only %s quanta"
                % (one.name, shown(trial.size[number]), shown(trial.size[number] / float(one.quantum))),
                "give it a smaller quantum: Real %s annotation(QSS_Quantum = ..)" % one.name,
                False,
            )
    expected = trial.rows([float(variable.quantum) for variable in flat.variables[: flat.states]])
    if expected > MANY_ROWS and not trial.grown:
        yield Finding(
            None,
            "expect about %s rows" % shown(expected),
            "a larger quantum or a shorter StopTime gives fewer",
            False,
        )


def steps(flat: Flat) -> List[Row]:
    """The statements that set a discrete variable to itself plus a constant."""
    clocks = time_like(flat)
    return [row for row in flat.rows() if row.kind == "set" and row.form.constant and is_step(row, clocks)]


def rounded_steps(flat: Flat, trial: Trial) -> Iterator[Finding]:
    """Discrete values and steps that are rounded by more than a thousandth."""
    f = flat.bits("QSS_LevelBits")
    unit = Fraction(1, 2**f)
    stepping = {id(row) for row in steps(flat)}
    for row in flat.rows():
        if row.kind != "set" or not row.form.constant or (row.form.parts and id(row) not in stepping):
            continue
        kept = off(row.form.constant, unit)
        if kept is not None:
            yield Finding(
                row.part.at,
                "%s %s by %s, which discrete values of 2^-%d keep as %s (%.2g %% off)"
                % (
                    flat.variables[row.variable].name,
                    "steps" if row.form.parts else "is set",
                    shown(row.form.constant),
                    f,
                    shown(kept),
                    100 * abs(float(kept / row.form.constant - 1)),
                ),
                "more QSS_LevelBits (at most 24), or a shorter unit of time for a clock",
                True,
            )


def lost_sums(flat: Flat, trial: Trial) -> Iterator[Finding]:
    """Sums of small steps in discrete variables."""
    f = flat.bits("QSS_LevelBits")
    for row in flat.rows():
        if row.kind != "set":
            continue
        small = [
            (key, abs(value))
            for key, value in row.form.parts.items()
            if key[0] == "x" and key[1] != row.variable and abs(value) < SMALL
        ]
        if small and adds(row):
            key, value = min(small, key=lambda item: item[1])
            name = flat.variables[row.variable].name
            yield Finding(
                row.part.at,
                "%s is a sum of small steps: what is added below 2^-%d is lost, so %s below %s adds nothing"
                % (name, f + 1, key_name(flat, key), shown(Fraction(1, 2 ** (f + 1)) / value)),
                "keep the sum in a state: 'Real %s; der(%s) = 0;' and 'reinit(%s, %s + ..)'" % ((name,) * 4),
                False,
            )


def stuck_limits(flat: Flat, trial: Trial) -> Iterator[Finding]:
    """Limits that, as they are kept, do not end their condition."""
    f = flat.bits("QSS_LevelBits")
    for condition, statement in sticking(flat, f):
        value = statement.form.constant
        kept = Fraction(round(value * 2**f), 2**f)
        yield Finding(
            statement.part.at,
            "%s is set to %s and kept as %.12g, so %s stays true: the branch never fires again"
            % (flat.variables[statement.variable].name, shown(value), float(kept), condition.label),
            "take a limit that is a multiple of 2^-%d, or other QSS_LevelBits" % f,
            True,
        )


def near_limits(flat: Flat, trial: Trial) -> Iterator[Finding]:
    """Coefficients and values that are within a factor of 16 of a limit, or past it."""
    p, f = flat.bits("QSS_CoefBits"), flat.bits("QSS_LevelBits")
    told = set()
    for row in flat.rows():
        sizes = [abs(value) for value in row.form.parts.values()]
        if not sizes or row.part.at in told:
            continue
        used, limit = (
            (log2(max(sizes)) + p, COEFFICIENT_BITS) if row.kind == "state" else (log2(sum(sizes)) + p, FORM_BITS)
        )
        if used > limit - 4:
            told.add(row.part.at)
            yield Finding(
                row.part.at,
                "the coefficients of %s take %.1f of %d bits%s"
                % (row.label, used, limit, ": the model is refused (machine 4)" if used > limit else ""),
                "write QSS_CoefBits = %d or less" % max(0, math.floor(p - (used - limit))) if used > limit else None,
                used > limit,
            )
    for number in range(flat.states):
        if trial.size[number] and not trial.grown and math.log2(trial.size[number]) + f > LEVEL_BITS - 3:
            yield Finding(
                flat.variables[number].declaration.at,
                "%s reaches about %s, and its levels end at %s"
                % (flat.variables[number].name, shown(trial.size[number]), shown(2.0 ** (LEVEL_BITS - f))),
                "fewer QSS_LevelBits",
                True,
            )
    if trial.grown:
        yield Finding(
            None,
            "a rough run grows past all limits after a time of %s" % shown(trial.time),
            "a sign or a gain is wrong, or the model's own solution grows",
            False,
        )


def at_the_start(flat: Flat, row: Row) -> bool:
    """Whether a condition holds at the start."""
    return holds(row.part.relation, value_at_start(flat, row.form))


def stays_true(flat: Flat, row: Row, statements: List[Row]) -> bool:
    """Whether a condition that holds stays true until its own branch fires: it is of time alone, and grows with it."""
    weight = row.form.parts.get(("time",), 0)
    if not (weight > 0 if row.part.relation in (">", ">=") else weight < 0):
        return False
    if any(key[0] == "x" and key[1] < flat.states for key in row.form.parts):
        return False
    names = {key[1] for key in row.form.parts if key[0] != "time"}
    own = {id(one) for one in statements}
    return not any(one.kind == "set" and one.variable in names and id(one) not in own for one in flat.rows())


def step_text(flat: Flat, statement: Row) -> str:
    """What a clock's statement adds to it, as it is written."""
    value = statement.part.value
    name = flat.variables[statement.variable].declaration.name
    if isinstance(value, Sum):
        left = [part for part in value.parts if not (isinstance(part[2], (Name, Pre)) and part[2].ref.name == name)]
        if len(left) == len(value.parts) - 1:
            return spell(Sum(tuple(left), value.at)).strip().lstrip("+ ")
    return decimal_text(statement.form.constant)


def never_fires(flat: Flat, trial: Trial) -> Iterator[Finding]:
    """Conditions of time alone that hold at the start: time only grows, so they are never false and never fire."""
    told = set()
    for row, statements in branch_rows(flat):
        if row.part.at in told or not at_the_start(flat, row) or not stays_true(flat, row, statements):
            continue
        told.add(row.part.at)
        clocks = [key[1] for key in row.form.parts if key[0] != "time"]
        condition = "%s %s %s" % (spell(row.part.left), row.part.relation, spell(row.part.right))
        if not clocks and any(one.form.parts or one.form.constant != flat.starts[one.variable] for one in statements):
            yield Finding(
                row.part.at,
                "'%s' holds at the start and is never false, so this branch never fires" % condition,
                "write what it sets as start values",
                True,
            )
        if not clocks:
            continue
        name = flat.variables[clocks[0]].name
        step = next((one for one in statements if one.variable == clocks[0] and adds(one)), None)
        yield Finding(
            row.part.at,
            "%s starts at %s, so '%s' holds at the start and is never false: this branch never fires"
            % (name, shown(flat.starts[clocks[0]]), condition),
            "write %s(start = %s): the first time at which it fires" % (name, step_text(flat, step) if step else ".."),
            True,
        )


def true_at_the_start(flat: Flat, trial: Trial) -> Iterator[Finding]:
    """Conditions that hold at the start, and so do not fire before they were false."""
    told = constant_branches(flat)
    for row, statements in branch_rows(flat):
        changes = any(one.form.parts or one.form.constant != flat.starts[one.variable] for one in statements)
        if row.part.at in told or not changes or stays_true(flat, row, statements):
            continue
        if at_the_start(flat, row):
            told.add(row.part.at)
            yield Finding(
                row.part.at,
                "this condition is true at the start, so its branch does not fire until it has been false once",
                "use the start values that the branch would set",
                False,
            )
