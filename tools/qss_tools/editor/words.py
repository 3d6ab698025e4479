"""What an editor shows of a name or a setting: its meaning, its unit and its value; completions; the outline."""
from fractions import Fraction
from typing import Any, Dict, Iterator, List, Optional

from ..model.flat import ALGEBRAIC, DEFAULTS, DISCRETE, PARAMETER, STATE
from ..model.grammar import Declaration, Loop
from ..model.source import Token
from ..model.spelling import decimal_text
from ..model.units import TIME_UNIT
from .names import Key, Names
from .text import Json, Text

MEANINGS = {
    "StartTime": "The time at which a run begins: only 0.",
    "StopTime": "The time at which a run ends, in the model's unit of time.",
    "QSS_CoefBits": "p: the unit of coefficients is 2^-p. An integer from 0 to 32.",
    "QSS_TickBits": "k: a tick is 2^-k of the unit of time. An integer from 0 to 20, with p + k at most 44.",
    "QSS_LevelBits": "f: a level is 2^-f. An integer from 0 to 24, with p + k + f at most 62.",
    "QSS_Quantum": "The quantum: how far a state moves before its level follows. A number above 0, at least 2^-f.",
    TIME_UNIT: 'The model\'s unit of time for plots and tables: "ns", "us", "ms", "s", "min", "h", "d" or "1".',
}
KEYWORDS = {
    "der": "`der(x) = ..;` is the equation of the state x: its slope per unit of time.",
    "pre": "`pre(d)` is the value of a discrete variable before the statements of this branch.",
    "reinit": "`reinit(x, value);` sets a state in a branch of a clause.",
    "when": "`when CONDITION then .. end when;` fires when its condition becomes true.",
    "elsewhen": "`elsewhen CONDITION then ..` is another branch of the clause.",
    "time": "`time` is the time of the run. Clauses can use it, equations cannot.",
    "discrete": "`discrete Real d(start = ..);` declares a variable that clauses set by `:=`.",
    "parameter": "`parameter Real p = ..;` declares a constant of the model.",
    "start": "`start = ..` is the value at the beginning of a run.",
    "for": "`for i in a:b loop .. end for;` repeats equations or statements.",
    "initial": "`initial algorithm` sets start values by `:=`.",
    "experiment": "`annotation(experiment(StopTime = .., ..));` has the settings of a run.",
}
ROLES = {STATE: "state", DISCRETE: "discrete variable", ALGEBRAIC: "algebraic variable", PARAMETER: "parameter"}
# Kinds of the protocol: of symbols, and of completions.
SYMBOL_KINDS = {STATE: 13, DISCRETE: 17, ALGEBRAIC: 8, PARAMETER: 14}
ITEM_KINDS = {STATE: 6, DISCRETE: 12, ALGEBRAIC: 5, PARAMETER: 21}
MODULE, EVENT, PROPERTY, KEYWORD = 2, 24, 10, 14


def value_text(value: Optional[Fraction]) -> str:
    if value is None:
        return "unknown"
    text = decimal_text(value)
    return text if len(text) <= 12 else f"{text} (about {float(value):.6g})"


# hover


def hover(text: Text, names: Names, at: int) -> Optional[Json]:
    """What is shown of the word at a byte, or None."""
    token = next((one for one in text.source.tokens if one.at <= at < one.at + len(one.text)), None)
    if token is None:
        return None
    one = names.at(at)
    found = of_setting(names, token.text) if token.text in MEANINGS else None
    if found is None and one is not None:
        found = of_name(text, names, one.key)
    if found is None and token.kind in ("name", "word") and token.text in KEYWORDS:
        found = KEYWORDS[token.text]
    if found is None:
        return None
    span = text.range(token.at, token.at + len(token.text))
    return {"contents": {"kind": "markdown", "value": found}, "range": span}


def of_setting(names: Names, name: str) -> str:
    lines = [f"**{name}**", MEANINGS[name]]
    if name in DEFAULTS:
        written = any(one.name == name for one in names.model.settings)
        value = value_text(names.constants.settings.get(name))
        lines.append(f"Here {value}." if written else f"Not written, so {value}.")
    return "\n\n".join(lines)


def of_name(text: Text, names: Names, key: Key) -> Optional[str]:
    if key[0] == "loop":
        return "loop variable"
    if key[0] == "model":
        return "name of the model"
    one = names.declared.get(key[1])
    if one is None:
        return None
    role = names.roles[one.name]
    array = "" if one.size is None else ", an array"
    lines = [f"**{one.name}**: {ROLES[role]}{array}"]
    lines += [f'"{said}"' for said in [description(text, one)] if said]
    unit = names.units.get(one.name)
    lines += [f"Unit: {unit}"] if unit else []
    return "\n\n".join(lines + list(numbers(names, one, role)))


def numbers(names: Names, one: Declaration, role: str) -> Iterator[str]:
    """The value of a parameter; the start and the quantum of a variable."""
    constants = names.constants
    if role == PARAMETER:
        yield f"Value: {value_text(constants.parameters.get(one.name))}"
    if role in (STATE, DISCRETE):
        start = constants.starting.get(one.name, Fraction(0) if one.start is None else None)
        yield f"Start: {value_text(start)}"
    if role == STATE:
        own = one.quantum is not None
        quantum = constants.quanta.get(one.name) if own else constants.settings.get("QSS_Quantum")
        yield f"Quantum: {value_text(quantum)}{'' if own else ' (QSS_Quantum of the model)'}"


def description(text: Text, one: Declaration) -> str:
    """The string after a declaration, or nothing."""
    tokens = text.source.tokens
    last = next((token for token in tokens if token.at + len(token.text) == one.end), None)
    if last is None or last.kind != "string":
        return ""
    return text.data[last.at + 1 : one.end - 1].decode("utf-8", "replace")


# completion


def completions(text: Text, names: Names, at: int) -> List[Json]:
    """What can be written at a byte."""
    context = context_at(text.source.tokens, at)
    if context == "experiment":
        return [item(name, PROPERTY, MEANINGS[name], f"{name} = ") for name in MEANINGS]
    if context == "annotation":
        found = ("experiment", KEYWORDS["experiment"]), ("QSS_Quantum", MEANINGS["QSS_Quantum"])
        return [item(name, PROPERTY, said) for name, said in found]
    found_items = [item(name, ITEM_KINDS[names.roles[name]], detail(names, name), name) for name in names.declared]
    if context == "modification":
        found_items += [item("start", PROPERTY, KEYWORDS["start"], "start = ")]
        return found_items + [item("unit", PROPERTY, "The unit, for plots and tables.", 'unit = "')]
    return found_items + [item(name, KEYWORD, said) for name, said in KEYWORDS.items() if name not in ("start",)]


def item(label: str, kind: int, said: str, inserted: Optional[str] = None) -> Json:
    return {"label": label, "kind": kind, "detail": said, "insertText": inserted or label}


def detail(names: Names, name: str) -> str:
    role, unit = names.roles[name], names.units.get(name)
    value = f" = {value_text(names.constants.parameters.get(name))}" if role == PARAMETER else ""
    return f"{ROLES[role]}{value}{' in ' + unit if unit else ''}"


def context_at(tokens: List[Token], at: int) -> str:
    """Where a byte stands: in settings, an annotation, a modification, or elsewhere."""
    depth, words = 0, []
    for token in reversed([one for one in tokens if one.at + len(one.text) <= at]):
        if token.text == ";" or token.text in ("equation", "algorithm"):
            break
        depth += (token.text == "(") - (token.text == ")")
        if depth > 0 and token.kind in ("name", "word"):
            words.append(token.text)
            depth -= 1
    if "experiment" in words or "annotation" in words:
        return "experiment" if "experiment" in words else "annotation"
    return "modification" if words and statement_head(tokens, at) in ("Real", "discrete", "parameter") else ""


def statement_head(tokens: List[Token], at: int) -> str:
    """The first word of the statement around a byte."""
    head = ""
    for token in reversed([one for one in tokens if one.at < at]):
        if token.text == ";" or token.kind == "word" and token.text in ("equation", "algorithm"):
            break
        if token.kind == "word":
            head = token.text
    return head


# outline


def outline(text: Text, names: Names) -> List[Json]:
    """The symbols of a text: the model with its parameters, variables and clauses."""
    model = names.model
    children = [symbol(text, names, one) for one in names.declared.values()]
    for clause in (one for item in model.clauses for one in clauses_of(item)):
        end = line_end(text, clause.at)
        title = text.data[clause.at : end].decode("utf-8", "replace").strip()
        children.append(node(title, EVENT, "", text.range(clause.at, end), text.range(clause.at, end)))
    place = names.place(("model", None))
    if place is None:
        return children
    whole, name = text.range(0, len(text.data)), names.model.name
    root = node(name or "model", MODULE, "", whole, text.range(place, place + len(name)))
    root["children"] = children
    return [root]


def clauses_of(one: Any) -> Iterator[Any]:
    if isinstance(one, Loop):
        for inner in one.body:
            yield from clauses_of(inner)
    else:
        yield one


def line_end(text: Text, at: int) -> int:
    end = text.data.find(b"\n", at)
    return len(text.data) if end < 0 else end


def symbol(text: Text, names: Names, one: Declaration) -> Json:
    role = names.roles[one.name]
    span = text.range(one.at, one.at + len(one.name))
    return node(one.name, SYMBOL_KINDS[role], detail(names, one.name), text.range(one.at, max(one.end, one.at)), span)


def node(name: str, kind: int, said: str, whole: Json, selected: Json) -> Json:
    found: Dict[str, Any] = {"name": name, "kind": kind, "detail": said, "range": whole, "selectionRange": selected}
    return found
