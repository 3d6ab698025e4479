"""Iterates over the parts of the tree of a model."""
from typing import Any, Iterator, Optional, Sequence, Tuple

from .grammar import Loop, Model, Name, Power, Pre, Product, Ref, Sum, Time

# A place, how a name is used there, and the name (None for `time`).
Use = Tuple[int, str, Optional[Ref]]


def uses(model: Model) -> Iterator[Use]:
    """Each place of a name, of `time` or of `pre`, with how it is used."""
    for one in model.declarations:
        yield one.at, "declared", None
        for part in (one.size, one.start, one.value, one.quantum):
            yield from constants(part)
    for setting in model.settings:
        yield from constants(setting.value)
    sections: Sequence[Sequence[Any]] = (model.starts, model.equations, model.clauses)
    for items in sections:
        for bound in bounds(items):
            yield from constants(bound)
    for item in leaves(model.starts):
        yield from left(item.target, "start")
        yield from constants(item.value)
    for item in leaves(model.equations):
        yield from left(item.target, "der" if item.der else "left")
        yield from values(item.value, "pre in an equation")
    for clause in leaves(model.clauses):
        for branch in clause.branches:
            yield from values(branch.condition.left, "pre")
            yield from values(branch.condition.right, "pre")
            for bound in bounds(branch.body):
                yield from constants(bound)
            for statement in leaves(branch.body):
                yield from left(statement.target, "reinit" if statement.reinit else "set")
                yield from values(statement.value, "pre")


def leaves(items: Sequence[Any]) -> Iterator[Any]:
    """The items, also those in loops."""
    for item in items:
        if isinstance(item, Loop):
            yield from leaves(item.body)
        else:
            yield item


def bounds(items: Sequence[Any]) -> Iterator[Any]:
    """The bounds of all loops."""
    for item in items:
        if isinstance(item, Loop):
            yield item.first
            yield item.last
            yield from bounds(item.body)


def left(ref: Ref, where: str) -> Iterator[Use]:
    yield ref.at, where, ref
    yield from constants(ref.index)


def constants(part: object) -> Iterator[Use]:
    """The places of names, `time` and `pre` in a constant expression."""
    for at, _, ref in values(part, "constant"):
        yield at, "constant", ref


def values(part: object, pre: str) -> Iterator[Use]:
    """The places of names, `time` and `pre` in an expression."""
    if isinstance(part, (Sum, Product)):
        for _, _, value in part.parts:
            yield from values(value, pre)
    elif isinstance(part, Power):
        yield from values(part.base, pre)
    elif isinstance(part, Time):
        yield part.at, "value", None
    elif isinstance(part, Pre):
        yield part.ref.at, pre, part.ref
        yield from constants(part.ref.index)
    elif isinstance(part, Name):
        yield part.ref.at, "value", part.ref
        yield from constants(part.ref.index)
