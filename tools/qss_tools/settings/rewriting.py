"""Writes a model in another unit of time and with other settings."""
from fractions import Fraction
from typing import List, Optional, Tuple

from ..model.flat import Flat
from ..model.grammar import Assignment, Condition, Expression, Model, Name, Number, Power, Pre, Product, Sum, Time
from ..model.source import Source
from ..model.spelling import bracketed, decimal_text, spell
from ..model.units import SECONDS, TIME_UNIT, time_unit, unit_after, written_time_unit
from ..model.walks import leaves
from ..numeric.trial import time_like
from .proposal import Proposal

Edit = Tuple[int, int, str]  # the first byte, the byte after the last, and the text in place of them

SETTING_NAMES = ("StopTime", "QSS_CoefBits", "QSS_TickBits", "QSS_LevelBits", "QSS_Quantum")


def annotation(proposal: Proposal, source: Source) -> str:
    """The annotation of the model, ready to paste."""
    pairs = ["%s = %s" % pair for pair in settings_of(proposal)]
    unit = unit_after(time_unit(source), proposal.unit)
    if unit in SECONDS and (proposal.unit != 1 or written_time_unit(source)):
        pairs.append('%s = "%s"' % (TIME_UNIT, unit))
    return "annotation(experiment(%s));" % ", ".join(pairs)


def settings_of(proposal: Proposal) -> List[Tuple[str, str]]:
    values = (
        proposal.stop,
        Fraction(proposal.coef_bits),
        Fraction(proposal.tick_bits),
        Fraction(proposal.level_bits),
        proposal.quantum,
    )
    return [(name, decimal_text(value)) for name, value in zip(SETTING_NAMES, values)]


def rewritten(source: Source, flat: Flat, proposal: Proposal) -> bytes:
    """The text of the model with the proposal's settings, in its unit of time."""
    edits = settings_edits(source, flat.model, proposal)
    edits += quanta_edits(flat.model, proposal)
    unit = unit_after(time_unit(source), proposal.unit)
    if proposal.unit != 1:
        edits += Units(flat, proposal.unit).edits()
    data = source.data
    for begin, end, text in sorted(edits, reverse=True):
        data = data[:begin] + text.encode() + data[end:]
    if proposal.unit != 1:
        data = ("// qss-advise changed the unit of time from %s to %s.\n" % (time_unit(source), unit)).encode() + data
    return data


def settings_edits(source: Source, model: Model, proposal: Proposal) -> List[Edit]:
    """The edits that write each setting, and the unit of time if it is another one."""
    pairs = settings_of(proposal)
    written = {setting.name: setting for setting in model.settings}
    edits = [(written[name].span[0], written[name].span[1], text) for name, text in pairs if name in written]
    added = ", ".join("%s = %s" % (name, text) for name, text in pairs if name not in written)
    unit = unit_after(time_unit(source), proposal.unit)
    if proposal.unit != 1 and unit in SECONDS:
        before = '%s = "%s"' % (TIME_UNIT, written_time_unit(source))
        at = source.text.find(before)
        if at >= 0:
            edits.append((at, at + len(before), '%s = "%s"' % (TIME_UNIT, unit)))
        else:
            added += ', %s = "%s"' % (TIME_UNIT, unit) if added else '%s = "%s"' % (TIME_UNIT, unit)
    if not added:
        return edits
    if model.annotated is None:
        return edits + [(model.end_line, model.end_line, "  annotation(experiment(%s));\n" % added)]
    if model.settings_end is None:
        comma = "" if source.text[model.annotated :].lstrip().startswith(")") else ", "
        return edits + [(model.annotated, model.annotated, "experiment(%s)%s" % (added, comma))]
    begun = source.text[: model.settings_end].rstrip().endswith("(")
    return edits + [(model.settings_end, model.settings_end, added if begun else ", " + added)]


def quanta_edits(model: Model, proposal: Proposal) -> List[Edit]:
    """The edits that write own quanta, where a component has no annotation yet."""
    edits: List[Edit] = []
    for one in model.declarations:
        if one.name in proposal.own and one.quantum_span:
            begin, end = one.quantum_span
            edits.append((begin, end, decimal_text(proposal.own[one.name])))
        elif one.name in proposal.own and not one.annotated:
            edits.append((one.end, one.end, " annotation(QSS_Quantum = %s)" % decimal_text(proposal.own[one.name])))
    return edits


class Units:
    """The edits that write a model in another unit of time. Each exact form stays the same except for this unit."""

    def __init__(self, flat: Flat, unit: Fraction) -> None:
        self.flat = flat
        self.unit = unit
        self.clocks = {flat.variables[number].declaration.name for number in time_like(flat)}

    def edits(self) -> List[Edit]:
        model, clocks = self.flat.model, self.clocks
        found = [
            one.start_span + (self.scaled(one.start),)
            for one in model.declarations
            if one.name in clocks and one.start_span
        ]
        found += [one.span + (self.scaled(one.value),) for one in leaves(model.starts) if one.target.name in clocks]
        found += [one.span + (self.divided(one.value),) for one in leaves(model.equations) if one.der]
        for branch in (branch for clause in leaves(model.clauses) for branch in clause.branches):
            found += self.condition(branch.condition)
            found += [edit for one in leaves(branch.body) for edit in self.statement(one)]
        return found

    def statement(self, one: Assignment) -> List[Edit]:
        """The edit of a statement: the value of a clock times the unit, or in another value each time over the unit."""
        if one.target.name in self.clocks:
            return [one.span + (self.scaled(one.value),)]
        return [one.span + (spell(self.plain(one.value)),)] if self.has_time(one.value) else []

    def condition(self, one: Condition) -> List[Edit]:
        """The edit of a condition: both sides times the unit where all of them are times, else each time over the
        unit.
        """
        if not (self.has_time(one.left) or self.has_time(one.right)):
            return []
        sides = (one.left, one.right)
        if all(self.is_time(side) for side in sides):
            left, right = (self.scaled(side) for side in sides)
        else:
            left, right = (spell(self.plain(side)) for side in sides)
        return [one.span + ("%s %s %s" % (left, one.relation, right),)]

    def is_clock(self, part: Expression) -> bool:
        return isinstance(part, Time) or isinstance(part, (Name, Pre)) and part.ref.name in self.clocks

    def has_time(self, part: Expression) -> bool:
        if isinstance(part, (Sum, Product)):
            return any(self.has_time(value) for _, _, value in part.parts)
        return self.has_time(part.base) if isinstance(part, Power) else self.is_clock(part)

    def is_time(self, part: Expression) -> bool:
        """The value of an expression is a time: sums of clocks and constants."""
        if self.is_clock(part):
            return True
        if isinstance(part, (Sum, Product)):
            return all(self.is_time(value) for _, _, value in part.parts)
        if isinstance(part, Power):
            return self.is_time(part.base)
        return isinstance(part, Number) or isinstance(part, Name) and part.ref.name in self.flat.parameters

    def number(self) -> str:
        return decimal_text(self.unit)

    def divided(self, part: Expression) -> str:
        """The text of an expression over the unit."""
        if self.unit < 1:
            return "%s*%s" % (decimal_text(1 / self.unit), bracketed(part, (Sum,)))
        return "%s/%s" % (bracketed(part, (Sum,)), self.number())

    def factor(self) -> str:
        """The unit as a first factor."""
        return self.number() + "*" if self.unit >= 1 else "1/%s*" % decimal_text(1 / self.unit)

    def scaled(self, part: Expression) -> str:
        """The text of an expression times the unit, whose clocks are in the unit already."""
        if self.is_clock(part):
            return spell(part)
        if isinstance(part, Sum):
            texts = []
            for number, (minus, _, value) in enumerate(part.parts):
                sign = ("-" if minus else "") if not number else " - " if minus else " + "
                text = self.scaled(value)
                texts.append(sign + ("(%s)" % text if isinstance(value, Sum) else text))
            return "".join(texts)
        if isinstance(part, Number):
            value = Fraction(part.text) * self.unit
            return decimal_text(value) if value.denominator < 10**9 else self.factor() + part.text
        if isinstance(part, Product):
            place: Optional[int] = next(
                (place for place, (divide, _, value) in enumerate(part.parts) if self.has_time(value) and not divide),
                None,
            )
            if place is not None:
                return "".join(
                    ("/" if divide else "*" if number else "") + self._factor_text(value, number == place)
                    for number, (divide, _, value) in enumerate(part.parts)
                )
        return self.factor() + (spell(part) if isinstance(part, Product) else bracketed(part, (Sum,)))

    def _factor_text(self, value: Expression, scale: bool) -> str:
        text = self.scaled(value) if scale else spell(value)
        return "(%s)" % text if isinstance(value, (Sum, Product)) else text

    def plain(self, part: Expression) -> Expression:
        """The expression with each clock over the unit."""
        if self.is_clock(part):
            above = Number(decimal_text(1 / self.unit) if self.unit < 1 else self.number(), part.at)
            if self.unit < 1:
                return Product(((False, part.at, above), (False, part.at, part)), part.at)
            return Product(((False, part.at, part), (True, part.at, above)), part.at)
        if isinstance(part, (Sum, Product)):
            return type(part)(tuple((inverse, at, self.plain(value)) for inverse, at, value in part.parts), part.at)
        return part
