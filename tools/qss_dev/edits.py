"""Edits of a crate: mutants of its code, and edits of its definitions. Each is a file WHAT_IS_WRONG.edit."""
import os
from typing import Dict, List, NamedTuple, Optional, Tuple

from qss_tools.fault import Fault, read_text

REFUSED, THROUGH, UNKNOWN = "refused", "let through", "no verdict"
# The folders of a crate with mutants, and with edits of its definitions.
MUTANTS, SPECS = "mutants", "mutants-of-specs"
# What a line of an edit can state, apart from the texts.
KEYS = ("file", "through", "open", "theorem")


class Mutant(NamedTuple):
    """An edit of a crate: its name, its file and pairs of texts, the verdict that it states, and its theorem."""

    name: str
    file: str
    pairs: List[Tuple[str, str]]
    through: str
    open: str
    theorem: str

    @property
    def stated(self) -> str:
        """The verdict that the file states."""
        return THROUGH if self.through else UNKNOWN if self.open else REFUSED


def mutant_of(path: str) -> Mutant:
    """Reads a mutant."""
    found: Dict[str, str] = {}
    pairs, old = [], None
    for line in read_text(path).split("\n"):
        key, colon, value = line.partition(":")
        value = value[1:] if value.startswith(" ") else value
        if not line:
            continue
        if key == "old" and old is None:
            old = value
        elif key == "new" and old:
            pairs.append((old, value))
            old = None
        elif key in KEYS and colon and key not in found:
            found[key] = value
        else:
            raise Fault(f"{path}: {line!r} is no line of a mutant")
    if "file" not in found or not pairs or old is not None:
        raise Fault(f"{path}: a mutant has a line 'file: ' and pairs of lines 'old: ' and 'new: '")
    name = os.path.splitext(os.path.basename(path))[0]
    stated = [found.get(it, "") for it in ("through", "open", "theorem")]
    return Mutant(name, found["file"], pairs, *stated)


def mutants_of(root: str, crate: str, part: str = MUTANTS) -> List[Mutant]:
    """The mutants of a crate, or its edits of definitions, by name."""
    folder = os.path.join(root, "crates", crate, part)
    if not os.path.isdir(folder):
        return []
    names = sorted(os.listdir(folder))
    odd = [it for it in names if not it.endswith(".edit")]
    if odd:
        raise Fault(f"{folder}: {odd[0]} is no mutant")
    return [mutant_of(os.path.join(folder, it)) for it in names]


def text_of(root: str, crate: str, file: str) -> str:
    """The text of a file of a crate."""
    return read_text(os.path.join(root, "crates", crate, file))


def applied(text: str, mutant: Mutant) -> Optional[str]:
    """The text with the mutant's changes, or None if an old text is not located exactly once."""
    for old, new in mutant.pairs:
        if text.count(old) != 1:
            return None
        text = text.replace(old, new)
    return text
