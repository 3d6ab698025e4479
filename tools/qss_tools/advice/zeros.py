"""The parameter that makes a divisor 0."""
from typing import Any, Iterator, List, Optional

from ..model.flat import PARAMETER, Flat, Meaningless, roles_of
from ..model.grammar import Model
from ..model.walks import bounds, leaves, values
from .scales import beginning


def zero_in_divisor(model: Model, at: int) -> Optional[str]:
    """The one parameter of value 0 in the divisor after the operator at a byte, or None."""
    quotient: Any = next(filter(None, (beginning(part, at) for part in expressions(model))), None)
    if quotient is None:
        return None
    flat, roles = Flat(Model()), roles_of(model)
    for one in model.declarations:
        if roles[one.name] == PARAMETER and one.value is not None:
            try:
                flat.parameters[one.name] = flat.constant(one.value, {})
            except (Meaningless, ArithmeticError):
                continue
    names = {ref.name for _, _, ref in values(quotient.parts[-1][2], "") if ref is not None}
    zeros = [name for name in sorted(names) if flat.parameters.get(name) == 0]
    return zeros[0] if len(zeros) == 1 else None


def expressions(model: Model) -> Iterator[Any]:
    """The expressions of a model, without indices."""
    for one in model.declarations:
        yield from (one.size, one.start, one.value, one.quantum)
    yield from (one.value for one in model.settings)
    lists: List[Any] = [model.starts, model.equations, model.clauses]
    for items in lists:
        yield from bounds(items)
    for item in (*leaves(model.starts), *leaves(model.equations)):
        yield item.value
    for clause in leaves(model.clauses):
        for branch in clause.branches:
            yield from (branch.condition.left, branch.condition.right)
            yield from bounds(branch.body)
            yield from (statement.value for statement in leaves(branch.body))
