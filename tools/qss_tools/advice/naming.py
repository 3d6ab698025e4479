"""Changes that certainly mend a wrong use of a name."""
from typing import Iterable, List, Sequence, Tuple

from ..model.flat import DISCRETE, STATE, roles_of
from ..model.grammar import Model, parse
from ..model.source import Source, Token
from ..model.walks import uses

Change = Tuple[int, int, str]  # a text in place of the bytes from the first to before the second


def edits_of(source: Source, number: str, at: int) -> List[Change]:
    """The changes for the refusal of a name at a byte, or none."""
    model = parse(source)
    places = [place for place, token in enumerate(source.tokens) if token.at == at]
    if not places:
        return []
    token = source.tokens[places[0]]
    if number == "1":
        return [(at, at + len(token.text), model.name)]
    if number == "3":
        return list(undeclared(source, model, token))
    return misused(source, model, places[0]) if number == "4" else []


def undeclared(source: Source, model: Model, token: Token) -> Iterable[Change]:
    """For a name that is not declared: the one that differs by capitals, or pi."""
    near = [one.name for one in model.declarations if one.name.lower() == token.text.lower()]
    if any(one.name == token.text for one in model.declarations):
        return
    if len(near) == 1:
        yield (token.at, token.at + len(token.text), near[0])
    elif token.text == "pi":
        begin = 3 if source.tokens[2].kind == "string" else 2
        at = source.tokens[begin].at
        yield (at, at, "parameter Real pi = 3.14159265;\n  ")


def end_of(tokens: Sequence[Token], place: int, mark: str) -> int:
    """The place of the next token with this text outside of brackets."""
    depth = 0
    for here in range(place, len(tokens)):
        text = tokens[here].text
        if not depth and text == mark:
            return here
        depth += (text in ("(", "[")) - (text in (")", "]"))
    return len(tokens) - 1


def misused(source: Source, model: Model, place: int) -> List[Change]:
    """For a name in a use that its role does not allow."""
    tokens, role = source.tokens, roles_of(model).get(source.tokens[place].text)
    token = tokens[place]
    where = next((kind for at, kind, _ in uses(model) if at == token.at), "")
    if where == "pre" and role == STATE and tokens[place - 1].text == "(":
        end = end_of(tokens, place, ")")
        name = source.text[token.at : tokens[end].at]
        return [(tokens[place - 2].at, tokens[end].at + 1, name)]
    if where == "reinit" and role == DISCRETE and tokens[place - 2].text == "reinit":
        comma, end = end_of(tokens, place, ","), end_of(tokens, place, ")")
        name, value = source.text[token.at : tokens[comma].at], source.text[tokens[comma + 1].at : tokens[end].at]
        return [(tokens[place - 2].at, tokens[end].at + 1, "%s := %s" % (name.strip(), value))]
    if where == "set" and role == STATE:
        sign, end = end_of(tokens, place, ":="), end_of(tokens, place, ";")
        name, value = source.text[token.at : tokens[sign].at], source.text[tokens[sign + 1].at : tokens[end].at]
        return [(token.at, tokens[end].at, "reinit(%s, %s)" % (name.strip(), value))]
    return bound(source, place) if where == "declared" else []


def bound(source: Source, place: int) -> List[Change]:
    """For a variable that is bound where it is declared: an equation."""
    tokens = source.tokens
    if tokens[place + 1].text != "=":
        return []
    end = min(end_of(tokens, place, ","), end_of(tokens, place, ";"))
    last = end - 1
    while tokens[last].kind == "string":
        last -= 1
    value = source.text[tokens[place + 2].at : tokens[last].at + len(tokens[last].text)]
    name = tokens[place].text
    begin = [one for before, one in zip(tokens, tokens[1:]) if one.text == "equation" and before.text != "initial"]
    if not begin:
        return []
    after = begin[0].at + len("equation")
    removed = (tokens[place].at + len(name), tokens[last].at + len(tokens[last].text), "")
    return [removed, (after, after, "\n  %s = %s;" % (name, value))]
