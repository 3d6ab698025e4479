"""Branches that set a limit whose rounded value leaves their condition true: they never fire again."""
from fractions import Fraction
from typing import Iterator, List, Tuple

from ..model.flat import BranchRows, Flat, Row


def branch_rows(flat: Flat) -> List[BranchRows]:
    """Each condition with the statements of its branch."""
    return [branch for clause in flat.clauses() for branch in clause]


def holds(relation: str, value: Fraction) -> bool:
    """Whether a condition's form of this value holds."""
    return {"<": value < 0, "<=": value <= 0, ">": value > 0, ">=": value >= 0}[relation]


def sticking(flat: Flat, bits: int) -> Iterator[Tuple[Row, Row]]:
    """The conditions that their branch would make false without the rounding of discrete values to 2^-bits, each with
    the statement of its branch.
    """
    for condition, statements in branch_rows(flat):
        constants = {row.variable: row for row in statements if row.kind == "set" and not row.form.parts}
        parts = condition.form.parts
        if not parts or any(key[0] != "x" or key[1] not in constants for key in parts):
            continue
        exact = kept = condition.form.constant
        for key, weight in parts.items():
            value = constants[key[1]].form.constant
            exact += weight * value
            kept += weight * Fraction(round(value * 2**bits), 2**bits)
        relation = condition.part.relation
        if holds(relation, kept) and not holds(relation, exact):
            yield condition, constants[next(iter(parts))[1]]
