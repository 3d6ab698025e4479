"""Adds declarations and clauses to the text of a model."""
from typing import Iterable, List, Sequence, Set, Tuple

from ..model.grammar import Model
from ..model.source import Source

Edit = Tuple[int, int, str]  # the first byte, the byte after the last, and the text in place of them


def applied(data: bytes, edits: Iterable[Edit]) -> bytes:
    """A text after edits that do not overlap."""
    for begin, end, text in sorted(edits, reverse=True):
        data = data[:begin] + text.encode() + data[end:]
    return data


def declaration_edit(source: Source, model: Model, text: str) -> Edit:
    """The edit that adds a line of declarations after the last one."""
    last = model.declarations[-1].end
    token = next(one for one in source.tokens if one.at >= last and one.text == ";")
    return token.at + 1, token.at + 1, f"\n  {text}"


def clauses_edit(source: Source, model: Model, lines: Sequence[str]) -> Edit:
    """The edit that adds lines of clauses after the last section."""
    at = model.end_line
    if model.annotated is not None:
        at = max(one.at for one in source.tokens if one.text == "annotation" and one.at < model.annotated)
    before = [one.text for one in source.tokens if one.at < at]
    last = max(place for place, text in enumerate(before) if text in ("equation", "algorithm"))
    heads = [] if before[last] == "algorithm" and before[last - 1] != "initial" else ["algorithm\n"]
    begin = source.text.rfind("\n", 0, at) + 1
    at = at if source.text[begin:at].strip() else begin
    return at, at, "".join(heads + [f"  {line}\n" for line in lines])


def free_name(model: Model, wanted: str, taken: Set[str]) -> str:
    """A name that neither the model nor `taken` has."""
    names = {one.name for one in model.declarations} | taken
    found, number = wanted, 1
    while found in names:
        number += 1
        found = f"{wanted}{number}"
    taken.add(found)
    return found


def clause_lines(condition: str, statements: Sequence[str]) -> List[str]:
    """The lines of a clause with one branch."""
    return [f"when {condition} then", *(f"  {statement};" for statement in statements), "end when;"]
