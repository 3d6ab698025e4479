"""Sentences on what two runs of a model showed: how far it is off, and whether first order fits it."""
from fractions import Fraction
from typing import Iterator, Optional

from ..model.flat import Flat
from ..settings.limits import place_of_setting, shown
from ..settings.oscillators import chains
from .coincidences import branches_of
from .finding import Finding
from .ripples import Ripple
from .tried import FEW_ROWS, OFF, Off, Tried

MORE_ROWS = 2.0  # times the expected rows: first order does not fit
LEAST_SHOWN = 1e-4  # of a size


def percent(share: float) -> str:
    return f"{100 * share:.2g} %" if share < 1 else f"{100 * share:.0f} %"


def name_of(flat: Flat, one: Off) -> str:
    return flat.variables[one.state].name


def has_many_rows(seen: Tried, expected: float) -> bool:
    """Whether a run has more than twice the expected rows."""
    return seen.levels > max(MORE_ROWS * expected, FEW_ROWS)


def way_out(flat: Flat) -> str:
    """What fits a model that first order does not fit."""
    if not flat.clauses():
        return "`qss run2` (second order) fits it better, and so does damping"
    return "add damping, for example a small resistance; `qss run2` (second order) takes models without clauses"


def ripple_text(flat: Flat, ripple: Ripple) -> str:
    """Which ripple ticks spoil, and why."""
    name, time = flat.variables[ripple.state].name, flat.variables[ripple.time].name
    return (
        f"the ripple of {name} is about {percent(ripple.share)} off, since {time} is computed and a switching period"
        f" has only {shown(float(f'{ripple.ticks:.4g}'))} ticks (QSS_TickBits = {ripple.tick_bits})"
    )


def unfit_text(flat: Flat, seen: Optional[Tried], expected: float) -> str:
    """Why first order does not fit a model, or nothing."""
    if seen is None or seen.is_right and not has_many_rows(seen, expected):
        return ""
    many = has_many_rows(seen, expected)
    rows = (
        f"a run has {shown(float(f'{seen.levels / max(expected, 1.0):.2g}'))} times the expected rows" if many else ""
    )
    worst = None if seen.is_whole and seen.share <= OFF else seen.worst
    off = f"{name_of(flat, worst)} is about {percent(seen.share)} of its size off" if worst else ""
    ripple = ripple_text(flat, seen.ripple) if seen.ripple else ""
    told = " and ".join(text for text in (rows, off, ripple) if text) or "a run does not come to its end"
    chain = next(chains(flat), None)
    if chain is not None:
        told += f", since {len(chain[0])} states swing together and are hardly damped"
    if chain is None and not many:
        return f"no settings fit well: with the nearest ones {told}"
    return f"no settings fit: first order does not fit this model: {told}; {way_out(flat)}"


def seen_lines(flat: Flat, seen: Optional[Tried]) -> Iterator[str]:
    """What two runs with proposed settings showed."""
    if seen is None or seen.worst is None or not seen.is_right:
        return
    worst = seen.worst
    yield (
        f"by a run with a quarter of the quanta, the worst state is {name_of(flat, worst)}:"
        f" about {percent(max(seen.share, LEAST_SHOWN))} of its size off"
    )
    yield from phase_lines(flat, seen)


def phase_lines(flat: Flat, seen: Tried) -> Iterator[str]:
    names = [name_of(flat, one) for one in seen.off if one.by_time > OFF >= one.by_measures]
    if names and seen.is_right:
        yield f"(the ripple of {', '.join(names)} is out of phase; mean, root mean square and range are compared)"


def seen_findings(flat: Flat, seen: Tried, expected: float) -> Iterator[Finding]:
    """What two runs with the settings of the model showed."""
    if not seen.is_right or has_many_rows(seen, expected):
        told = unfit_text(flat, seen, expected)
        told = told.replace("no settings fit well: with the nearest ones ", "with these settings ")
        told = told.replace("no settings fit: ", "")
        at = flat.variables[seen.worst.state].declaration.at if seen.worst and not seen.is_right else None
        way = "take smaller quanta or the proposed settings" if seen.worst else None
        if seen.ripple is not None and seen.share <= OFF:
            at, way = place_of_setting(flat, "QSS_TickBits"), "take shorter ticks, as in the proposed settings"
        yield Finding(at, told, way, True)
    yield from coincidence_findings(flat, seen)
    for line in phase_lines(flat, seen):
        yield Finding(None, line.strip("()"), None, False)


def coincidence_findings(flat: Flat, seen: Tried) -> Iterator[Finding]:
    """Switching times that two clauses set at one tick."""
    conditions = {one.label: one.condition for one in branches_of(flat)}
    for one in seen.coincidences:
        first, second = (label.decode() for label in one.labels)
        time = Fraction(one.tick, 2 ** flat.bits("QSS_TickBits"))
        yield Finding(
            conditions[one.labels[1]].part.at,
            f"{flat.variables[one.variable].name} is set by the branches {first} and {second} at one tick, first at"
            f" time {shown(time)}; the later clause wins, and a pulse can last one tick only",
            "limit what is computed first, and set the switching time from the limited value one tick later"
            " (docs/IDIOMS.md)",
            True,
        )
