"""Changes parameters, settings and start values of a model, but not its file.

The text that is changed is a source, or the one that `print` writes, which has one declaration on a line and no
comments.
"""
import atexit
import functools
import os
import re
import shlex
import shutil
import tempfile
from argparse import ArgumentParser
from decimal import Decimal
from fractions import Fraction
from typing import Any, Dict, List, Mapping, Optional, Sequence, Tuple

from ..fault import LABELS, Fault, read_bytes
from ..program import CHANGED, canonical_text
from .grammar import CLOSING, Declaration, Model, Parser, Span, SyntaxFault, parse
from .number_hints import with_hint
from .source import SETTINGS, Source
from .spelling import decimal_text
from .walks import leaves

MOST_TERM = 2**62  # of a numerator or a denominator
OPENING = frozenset(CLOSING)
MOST_SHOWN = 40  # characters of a number in a message
ASSIGNMENT = re.compile(r"^\s*([A-Za-z_][\w.]*)\s*=(.*)$", re.DOTALL)


def add_set_option(parser: ArgumentParser) -> None:
    """Adds the option that changes a value of the model."""
    parser.add_argument(
        "--set",
        action="append",
        default=[],
        metavar="NAME=VALUE",
        help="change a parameter, a setting (QSS_TickBits), a start value (iL.start) or a quantum (iL.QSS_Quantum)",
    )


def assignments(words: Sequence[str]) -> Dict[str, str]:
    """The values by name of words NAME=VALUE."""
    found: Dict[str, str] = {}
    for word in words:
        match = ASSIGNMENT.match(word)
        if match is None:
            raise Fault("--set: '%s' is not NAME=VALUE" % word)
        if match.group(1) in found:
            raise Fault("--set: '%s' is given twice" % match.group(1))
        found[match.group(1)] = match.group(2).strip()
    return found


def value_text(value: Any) -> str:
    """A value as an expression of the language: a text, or a number. A float is the decimal that Python prints."""
    if isinstance(value, str):
        return value.strip()
    if hasattr(value, "item"):  # a number of numpy
        value = value.item()
    if isinstance(value, float):
        value = Decimal(repr(value))
    try:
        exact = Fraction(value)
    except (TypeError, ValueError, OverflowError) as error:
        raise Fault("'%s' is not a number" % (value,)) from error
    if max(abs(exact.numerator), exact.denominator) > MOST_TERM:
        text = str(value)
        few = text if len(text) <= MOST_SHOWN else "%s.. (%d characters)" % (text[:MOST_SHOWN], len(text))
        raise Fault("'%s' has more digits than the language allows" % few)
    return decimal_text(exact)


def check_expression(name: str, text: str) -> None:
    """A value is one expression: it cannot end its declaration."""
    source = Source(name, text.encode("utf-8", "surrogateescape"))
    parser = Parser(source)
    try:
        parser.sum()
        whole = parser.next == len(source.tokens) and source.untold is None and "//" not in text and "/*" not in text
    except SyntaxFault:
        whole = False
    if not whole:
        raise Fault(with_hint("'%s' is not a value for %s" % (text, name), text))


@functools.lru_cache(maxsize=2)
def parsed_once(model: str, text: bytes) -> Tuple[Source, Model]:
    """The source and the syntax tree of a canonical text. A sweep changes one text many times."""
    source = Source(model, text)
    return source, parse(source)


def changed_text(model: str, text: bytes, values: Mapping[str, Any]) -> bytes:
    """The text of a model, as a rule its canonical text, with these values in place of its own."""
    source, parsed = parsed_once(model, text)
    edits: List[Tuple[int, int, str]] = []
    added: List[str] = []
    for name, value in values.items():
        spelt = value_text(value)
        check_expression(name, spelt)
        if name in SETTINGS:
            span = next((one.span for one in parsed.settings if one.name == name), None)
            if span is None:
                added.append("%s = %s" % (name, spelt))
                continue
        else:
            span, spelt = component_edit(model, source, parsed, name, spelt)
        edits.append((span[0], span[1], spelt))
    if added:
        edits.append(added_settings(source, parsed, ", ".join(added)))
    for begin, end, spelt in sorted(edits, reverse=True):
        text = text[:begin] + spelt.encode() + text[end:]
    return text


def component_edit(model: str, source: Source, parsed: Model, name: str, spelt: str) -> Tuple[Span, str]:
    """The span and the new text of a parameter's value, a start value or a quantum."""
    base, _, part = name.partition(".")
    one = next((one for one in parsed.declarations if one.name == base), None)
    if one is None or part not in ("", "start", "QSS_Quantum"):
        known = [one.name for one in parsed.declarations if one.prefix in ("parameter", "constant")]
        raise Fault("%s has no parameter or setting '%s' (parameters: %s)" % (model, name, ", ".join(known) or "none"))
    is_parameter = one.prefix in ("parameter", "constant")
    if is_parameter != (part == ""):
        raise Fault(
            "%s: '%s' is a parameter: write --set %s=.." % (model, base, base)
            if is_parameter
            else "%s: '%s' is a variable: write --set %s.start=.." % (model, base, base)
        )
    if is_parameter:
        if one.value is None:
            return (one.end, one.end), " = " + spelt
        return value_span(source, one), spelt
    if part == "start" and any(item.target.name == base for item in leaves(parsed.starts)):
        raise Fault("%s: '%s' starts as its initial algorithm states, so '%s' has no effect" % (model, base, name))
    span = one.start_span if part == "start" else one.quantum_span
    if span is not None:
        return span, spelt
    if part == "QSS_Quantum":
        if one.annotated:
            raise Fault("%s: the annotation of '%s' has no QSS_Quantum" % (model, base))
        return (one.end, one.end), " annotation(QSS_Quantum = %s)" % spelt
    return added_start(source, one, spelt)


def value_span(source: Source, one: Declaration) -> Span:
    """The span of a parameter's value: from the equals sign outside of brackets up to a description or the end."""
    depth, begin, end = 0, 0, one.at
    for token in source.tokens[place_of(source, one) :]:
        depth += (token.text in OPENING) - (token.text in CLOSING.values())
        is_end = token.kind == "string" or token.text in (",", ";", "annotation")
        if begin and not depth and is_end:
            break
        end = token.at + len(token.text)
        if not begin and not depth and token.text == "=":
            begin = end
    return begin + len(source.text[begin:end]) - len(source.text[begin:end].lstrip()), end


def added_start(source: Source, one: Declaration, spelt: str) -> Tuple[Span, str]:
    """The edit that writes a start value which a declaration has not: after its name and its size."""
    text = "%sstart = %s" % ("each " if one.size is not None else "", spelt)
    place = place_of(source, one) + 1
    if source.tokens[place].text == "[":
        while source.tokens[place - 1].text != "]":
            place += 1
    last, following = source.tokens[place - 1 : place + 1]
    if following.text == "(":
        at = following.at + 1
        return (at, at), text + ", "
    at = last.at + len(last.text)
    return (at, at), " (%s)" % text


def place_of(source: Source, one: Declaration) -> int:
    """The place of a declaration's name among the tokens."""
    return next(place for place, token in enumerate(source.tokens) if token.at == one.at)


def added_settings(source: Source, parsed: Model, text: str) -> Tuple[int, int, str]:
    """The edit that writes settings which the model has not."""
    if parsed.settings_end is not None:
        begun = source.text[: parsed.settings_end].rstrip().endswith("(")
        return parsed.settings_end, parsed.settings_end, text if begun else ", " + text
    if parsed.annotated is not None:
        comma = "" if source.text[parsed.annotated :].lstrip().startswith(")") else ", "
        return parsed.annotated, parsed.annotated, "experiment(%s)%s" % (text, comma)
    return parsed.end_line, parsed.end_line, "annotation(experiment(%s));\n" % text


def shown(model: str, values: Mapping[str, Any]) -> str:
    """A model with its changes, for messages."""
    return "%s with %s" % (model, ", ".join("%s = %s" % (name, value_text(one)) for name, one in values.items()))


def write_changed(model: str, program: str, values: Mapping[str, Any], folder: Optional[str] = None) -> str:
    """Writes the model with these values into a folder, or a temporary one that ends with the process; its path."""
    text = changed_source(model, program, values)
    if folder is None:
        folder = tempfile.mkdtemp(prefix="qss-")
        atexit.register(shutil.rmtree, folder, True)
    path = os.path.join(folder, os.path.basename(model))
    with open(path, "wb") as file:
        file.write(text)
    CHANGED[path], LABELS[path] = explain_words(model, values), shown(model, values)
    return path


def changed_source(model: str, program: str, values: Mapping[str, Any]) -> bytes:
    """The source of a model that the program accepts, with these values. Its lines are those of the file."""
    canonical_text(program, model)
    return changed_text(model, read_bytes(model), values)


def explain_words(model: str, values: Mapping[str, Any]) -> str:
    """The words of qss-explain for a model with its changes."""
    changes = [word for name, one in values.items() for word in ("--set", "%s=%s" % (name, value_text(one)))]
    return " ".join(shlex.quote(word) for word in [model, *changes])
