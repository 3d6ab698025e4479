"""Explains products, quotients and powers that are not affine, and how to write them instead."""
from typing import Dict, Iterator, List, NamedTuple, Optional, Set, Tuple

from ..model.flat import ALGEBRAIC, DISCRETE, PARAMETER, STATE, roles_of
from ..model.grammar import Model, Name, Power, Pre, Product, Sum
from ..model.source import Source
from ..model.spelling import spell
from ..model.story import Story
from ..model.walks import leaves

PIECES = "write a curve as straight pieces that clauses choose (docs/MODELLING.md)"


class Place(NamedTuple):
    """An expression of a model, and whether it is in a clause."""

    part: object
    in_clause: bool


class Roles:
    """The roles of a model's variables, and what its algebraic variables are equal to."""

    def __init__(self, model: Model):
        self.roles = {name: role for name, role in roles_of(model).items() if role != PARAMETER}
        self.equal: Dict[str, object] = {}
        for item in leaves(model.equations):
            if not item.der:
                self.equal.setdefault(item.target.name, item.value)
        self.switches = switches_of(model)

    def variables(self, part: object, seen: Tuple[str, ...] = ()) -> Set[str]:
        """The states and discrete variables in an expression, those of algebraic variables included."""
        found: Set[str] = set()
        for name in names_in(part):
            role = self.roles.get(name)
            if role == ALGEBRAIC and name not in seen and name in self.equal:
                found |= self.variables(self.equal[name], seen + (name,))
            elif role in (STATE, DISCRETE):
                found.add(name)
        return found

    def roles_in(self, part: object) -> Set[str]:
        return {self.roles[name] for name in self.variables(part)}

    def discrete_pair(self, left: object, right: object) -> Optional[Tuple[str, str]]:
        """A discrete variable of each factor, if one factor has no state and none has a product of variables."""
        if STATE in self.roles_in(left) and STATE in self.roles_in(right):
            return None
        for product in list(products_in(left)) + list(products_in(right)):
            if sum(bool(self.variables(value)) for _, _, value in product.parts) > 1:
                return None
        found = [
            sorted(name for name in self.variables(part) if self.roles[name] == DISCRETE) for part in (left, right)
        ]
        return (found[0][0], found[1][0]) if all(found) else None

    def product_in(self, part: object, seen: Tuple[str, ...] = ()) -> Optional[Tuple[str, str]]:
        """An algebraic variable in an expression that holds a product of variables, with that product."""
        for name in names_in(part):
            if self.roles.get(name) != ALGEBRAIC or name in seen or name not in self.equal:
                continue
            for product in products_in(self.equal[name]):
                if sum(bool(self.variables(value)) for _, _, value in product.parts) > 1:
                    return name, spell(product)
            inner = self.product_in(self.equal[name], seen + (name,))
            if inner:
                return name, inner[1]
        return None


def switches_of(model: Model) -> Set[str]:
    """The discrete variables that clauses set only to numbers or to 1 less themselves."""
    found: Dict[str, bool] = {}
    for clause in leaves(model.clauses):
        for branch in clause.branches:
            for item in leaves(branch.body):
                name = item.target.name
                found[name] = found.get(name, True) and set(names_in(item.value)) <= {name} and is_toggle(item.value)
    return {name for name, is_switch in found.items() if is_switch}


def is_toggle(value: object) -> bool:
    """Whether a value is a number, or 1 less a variable."""
    return not names_in(value) or spell(value).replace(" ", "").startswith("1-")


def names_in(part: object) -> List[str]:
    """The names of the variables in an expression, in their order."""
    if isinstance(part, (Name, Pre)):
        return [part.ref.name]
    if isinstance(part, (Sum, Product)):
        return [name for _, _, value in part.parts for name in names_in(value)]
    return names_in(part.base) if isinstance(part, Power) else []


def products_in(part: object) -> Iterator[Product]:
    """The products in an expression."""
    if isinstance(part, Product):
        yield part
    if isinstance(part, (Sum, Product)):
        for _, _, value in part.parts:
            yield from products_in(value)
    elif isinstance(part, Power):
        yield from products_in(part.base)


def places(model: Model) -> Iterator[Place]:
    """The expressions of equations and clauses."""
    for item in leaves(model.equations):
        yield Place(item.value, False)
    for clause in leaves(model.clauses):
        for branch in clause.branches:
            yield Place(branch.condition.left, True)
            yield Place(branch.condition.right, True)
            for item in leaves(branch.body):
                yield Place(item.value, True)


def factors_at(part: object, at: int) -> Optional[Tuple[object, object, bool]]:
    """The factors before a sign, the factor after it, and whether it divides."""
    for product in products_in(part):
        for place, (divide, sign_at, value) in enumerate(product.parts):
            if place and sign_at == at:
                before = product.parts[:place]
                return (before[0][2] if place == 1 else Product(before, product.at)), value, divide
    return None


def not_affine(source: Source, model: Model, at: int) -> Story:
    """The story of a product, a quotient or a power that is not affine, at its sign or its name."""
    roles = Roles(model)
    for place in places(model):
        found = factors_at(place.part, at)
        if found and found[2]:
            return quotient(roles, at, found[1])
        if found:
            return product(roles, at, found[0], found[1], place.in_clause)
        if place.in_clause:
            for name in names_at(place.part, at):
                return hidden(roles, at, name)
    return Story(at, "a power of a variable is not affine", PIECES)


def names_at(part: object, at: int) -> Iterator[Name]:
    """The name that begins at a byte."""
    if isinstance(part, Name) and part.ref.at == at:
        yield part
    elif isinstance(part, (Sum, Product)):
        for _, _, value in part.parts:
            yield from names_at(value, at)


def quotient(roles: Roles, at: int, below: object) -> Story:
    text = spell(below)
    if roles.roles_in(below) == {DISCRETE}:
        names = ", ".join(sorted(roles.variables(below)))
        return Story(
            at,
            "a division by a discrete variable is not affine",
            "replace the quotient by a factor: 'discrete Real g', which clauses set to the number 1/(%s) where they set"
            " %s (a conductance in place of a resistance)" % (text.strip("()"), names),
        )
    return Story(at, "a division by a state is not affine", PIECES)


def product(roles: Roles, at: int, left: object, right: object, in_clause: bool) -> Story:
    """A product of two expressions with variables."""
    hiding = roles.product_in(right) or roles.product_in(left)
    if in_clause:
        discrete = sorted(name for name in roles.variables(Product(((False, at, left), (False, at, right)), at)))
        found = [name for name in discrete if roles.roles[name] == DISCRETE]
        # (a switch has few values, and a clock has many)
        factor = next((name for name in found if name in roles.switches), found[0] if found else None)
        way = "write a branch for each value of %s, with the number in its place" % factor if factor else PIECES
        return Story(at, "a clause takes no product of two variables: a statement or a condition is affine", way)
    if hiding:
        return Story(
            at,
            "a product of two variables is not affine here: %s holds %s" % hiding,
            "write %s out, as it is where the other factor is not 0" % hiding[0],
        )
    if roles.roles_in(left) == roles.roles_in(right) == {DISCRETE}:
        return Story(
            at,
            "a product of two discrete variables is not affine",
            "keep the product in a third discrete variable, which clauses set where they set one of the two: with the"
            " number in place of the one that is 0 or 1: 'p := b;' where a becomes 1 and 'p := 0;' where it becomes 0",
        )
    pair = roles.discrete_pair(left, right)
    if pair:
        return Story(
            at,
            "a product of two discrete variables is not affine, and this one contains %s*%s" % pair,
            "multiply out, and keep %s*%s in a third discrete variable, which clauses set where they set one of the two"
            % pair,
        )
    if STATE in roles.roles_in(left) and STATE in roles.roles_in(right):
        return Story(at, "a product of two states is not affine", PIECES)
    return Story(
        at,
        "a product of three variables is not affine",
        "an equation takes a discrete variable times a state: keep the product of the discrete ones in a third one,"
        " which clauses set",
    )


def hidden(roles: Roles, at: int, name: Name) -> Story:
    """A clause uses an algebraic variable that holds a product."""
    found = roles.product_in(name)
    text = spell(name)
    if not found:
        return Story(at, "'%s' is not affine here" % text, "write it out")
    return Story(
        at,
        "'%s' holds %s, and a clause takes no product of a discrete variable and a state" % (text, found[1]),
        "write %s out as it is in each mode, with a branch for each mode" % text,
    )
