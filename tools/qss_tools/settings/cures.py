"""Changes of a model that keep its alternating sources right: a clock that sets an oscillator anew, and turns that are
not a tick late.
"""
from dataclasses import dataclass
from typing import List, Set, Tuple

from ..model.flat import Flat
from ..model.grammar import parse
from .inserts import Edit, applied, clause_lines, clauses_edit, declaration_edit, free_name
from .oscillators import Oscillator, oscillators, period_text, returns_after
from ..model.source import Source
from ..model.spelling import decimal_text
from ..numeric.trial import Trial
from .turns import strict_turns

FEW_PERIODS = 5  # of an oscillator in a run: for so few finer quanta take few rows


@dataclass(frozen=True)
class Cured:
    """A model with changes, and a sentence on each of them."""

    source: Source
    changes: Tuple[str, ...]


def part_of_period(flat: Flat, one: Oscillator) -> float:
    """The part of a period after which a clock can set an oscillator anew by its start values; 0 if none can."""
    if not one.is_autonomous or one.is_set_anew or one.damping:
        return 0
    if one.is_mirrored:
        return 0.5 if returns_after(flat, one, 0.5) else 0
    return 1 if returns_after(flat, one, 1) else 0


def to_set_anew(flat: Flat, trial: Trial) -> List[Oscillator]:
    """The oscillators that a clock is to set anew."""
    return [
        one for one in oscillators(flat, trial) if one.lasts > FEW_PERIODS * one.period and part_of_period(flat, one)
    ]


def cured(source: Source, flat: Flat, trial: Trial) -> Cured:
    """The model with what keeps its sources right."""
    edits: List[Edit] = []
    changes: List[str] = []
    for turn in strict_turns(flat):
        condition = turn.condition.part
        edits.append((condition.sign, condition.sign + 1, condition.relation + "="))
        changes.append(f"'{condition.relation}' became '{condition.relation}=' where {name_of(flat, turn.state)} turns")
    taken: Set[str] = set()
    lines: List[str] = []
    declared: List[str] = []
    for one in to_set_anew(flat, trial):
        clock = free_name(flat.model, "sync", taken)
        period = decimal_text(period_text(flat, one, part_of_period(flat, one)))
        declared.append(f"{clock}(start = {period})")
        anew = [f"reinit({name_of(flat, state)}, {decimal_text(flat.starts[state])})" for state in one.states]
        lines += clause_lines(f"time >= {clock}", anew + [f"{clock} := pre({clock}) + {period}"])
        changes.append(f"{one.names(flat)} are set anew each {period} by the clock {clock}")
    if declared:
        edits.append(declaration_edit(source, flat.model, f"discrete Real {', '.join(declared)};"))
        edits.append(clauses_edit(source, flat.model, lines))
    return Cured(Source(source.name, applied(source.data, edits)), tuple(changes)) if edits else Cured(source, ())


def name_of(flat: Flat, number: int) -> str:
    return flat.variables[number].name


def meaning(source: Source) -> Flat:
    """What a changed model denotes."""
    flat = Flat(parse(source))
    flat.rows()
    return flat
