"""Solves an equation for its derivative or its variable, as edits of the text."""
import re
from typing import Dict, List, NamedTuple, Optional, Sequence, Set, Tuple

from ..model.source import Token

Change = Tuple[int, int, str]  # a text in place of the bytes from the first to before the second
Terms = Dict[str, str]  # the factor of each derivative


class Equation(NamedTuple):
    """An equation by its tokens: those of the left side, those of the right side, and where both begin and end."""

    left: Sequence[Token]
    right: Sequence[Token]
    begin: int
    end: int


def equation_at(tokens: Sequence[Token], place: int) -> Optional[Equation]:
    """The equation around a token."""
    first = place
    while first and tokens[first - 1].text not in (";", "equation", "loop"):
        first -= 1
    last = place
    while last < len(tokens) and tokens[last].text != ";":
        last += 1
    some = list(tokens[first:last])
    if any(one.kind == "word" and one.text not in ("der", "pre", "time") for one in some):
        return None
    if last == len(tokens) or [one.text for one in some].count("=") != 1:
        return None
    while some and some[-1].kind == "string":
        some.pop()
    middle = [one.text for one in some].index("=")
    if not 0 < middle < len(some) - 1:
        return None
    return Equation(some[:middle], some[middle + 1 :], some[0].at, some[-1].at + len(some[-1].text))


def text_of(source: str, tokens: Sequence[Token]) -> str:
    return source[tokens[0].at : tokens[-1].at + len(tokens[-1].text)] if tokens else ""


def split_terms(tokens: Sequence[Token]) -> List[Tuple[str, List[Token]]]:
    """The terms of a sum with their signs."""
    terms: List[Tuple[str, List[Token]]] = [("+", [])]
    depth = 0
    for one in tokens:
        depth += (one.text in "([") - (one.text in ")]")
        if not depth and one.text in "+-" and (not terms[-1][1] or terms[-1][1][-1].text not in "*/^"):
            if terms[-1][1]:
                terms.append((one.text, []))
            else:
                terms[-1] = (one.text, [])
        else:
            terms[-1][1].append(one)
    return terms


def factor_of(source: str, term: Sequence[Token], width: int, is_it: Sequence[str]) -> Optional[str]:
    """The factor of an expression of `width` tokens that begins or ends a term, or None."""
    texts = [one.text for one in term]
    if texts[-width:] == list(is_it):
        rest = term[:-width]
        if not rest:
            return "1"
        return text_of(source, rest[:-1]) if rest[-1].text == "*" and len(rest) > 1 else None
    if texts[:width] == list(is_it):
        rest = term[width:]
        if rest and rest[0].text == "*" and len(rest) > 1:
            return text_of(source, rest[1:])
        if rest and rest[0].text == "/" and len(rest) == 2:
            return "1/%s" % rest[1].text
    return None


def derivatives(source: str, left: Sequence[Token]) -> Optional[Terms]:
    """The factor of each derivative if a left side is a sum of derivatives with factors."""
    found: Terms = {}
    for sign, term in split_terms(left):
        texts = [one.text for one in term]
        if texts.count("der") != 1:
            return None
        begin = texts.index("der")
        end = begin + texts[begin:].index(")") + 1 if ")" in texts[begin:] else begin
        name = texts[begin:end]
        factor = factor_of(source, term, end - begin, name)
        if end == begin or factor is None or "".join(name) in found:
            return None
        found["".join(name)] = factor if sign == "+" else "-%s" % bracketed(factor)
    return found


def bracketed(text: str) -> str:
    """A text that can be a factor."""
    return text if re.fullmatch(r"[\w.]+(?:\[[^]]*\])?|\([^()]*\)", text) else "(%s)" % text


def solved(source: str, tokens: Sequence[Token], place: int) -> List[Change]:
    """The changes that solve the equation at a token, or none."""
    one = equation_at(tokens, place)
    if one is None:
        return []
    if len(one.left) == 1 and one.left[0].text.rstrip(".0") == "" and one.left[0].kind == "number":
        return for_variable(source, tokens, one)
    terms = derivatives(source, one.left)
    if terms is None:
        return []
    if len(terms) == 1:
        ((name, factor),) = terms.items()
        right = bracketed(text_of(source, one.right))
        return [(one.begin, one.end, "%s = %s/%s" % (name, right, bracketed(factor)))]
    return pair(source, tokens, one, terms) if len(terms) == 2 else []


def pair(source: str, tokens: Sequence[Token], one: Equation, terms: Terms) -> List[Change]:
    """Two equations with the same two derivatives, solved for each of them."""
    first, second = terms
    for place, token in enumerate(tokens):
        if token.text != "=" or one.begin <= token.at < one.end:
            continue
        other = equation_at(tokens, place)
        others = derivatives(source, other.left) if other else None
        if other is None or others is None or set(others) != set(terms):
            continue
        a, b = bracketed(terms[first]), bracketed(terms[second])
        c, d = bracketed(others[first]), bracketed(others[second])
        r, s = (bracketed(text_of(source, it.right)) for it in (one, other))
        below = "(%s*%s - %s*%s)" % (a, d, b, c)
        return [
            (one.begin, one.end, "%s = (%s*%s - %s*%s)/%s" % (first, d, r, b, s, below)),
            (other.begin, other.end, "%s = (%s*%s - %s*%s)/%s" % (second, a, s, c, r, below)),
        ]
    return []


def unknowns(tokens: Sequence[Token], one: Equation) -> Set[str]:
    """The names in an equation that are no parameters and have no other equation."""
    known, is_parameter = {"time", "pre"}, False
    for place, token in enumerate(tokens):
        before = tokens[place - 1].text if place else ""
        is_parameter = token.text in ("parameter", "constant") or is_parameter and before != ";"
        if token.kind != "name":
            continue
        following = tokens[place + 1].text if place + 1 < len(tokens) else ""
        is_target = following == "=" and before in (";", "equation", "loop")
        is_state = before == "(" and place > 1 and tokens[place - 2].text == "der"
        if is_parameter or is_target or is_state or following == ":=":
            known.add(token.text)
    return {token.text for token in one.right if token.kind == "name"} - known


def for_variable(source: str, tokens: Sequence[Token], one: Equation) -> List[Change]:
    """`0 = ..` solved for the only variable without an equation."""
    names = unknowns(tokens, one)
    if len(names) != 1:
        return []
    (name,) = names
    terms = split_terms(one.right)
    with_it = [(sign, term) for sign, term in terms if any(token.text == name for token in term)]
    if len(with_it) != 1 or len(terms) < 2:
        return []
    sign, term = with_it[0]
    factor = factor_of(source, term, 1, [name])
    if factor is None:
        return []
    opposite = {"+": "-", "-": "+"} if sign == "+" else {"+": "+", "-": "-"}
    rest = [(opposite[it], text_of(source, other)) for it, other in terms if other is not term]
    total = "".join(" %s %s" % it for it in rest).strip()
    total = re.sub(r"^\+ ", "", re.sub(r"^- ", "-", total))
    value = total if factor == "1" else "%s/%s" % (bracketed(total), bracketed(factor))
    return [(one.begin, one.end, "%s = %s" % (name, value))]
