"""Runs a tool by its name: `qss-tools plot ..` runs `qss-plot ..`."""
import difflib
import importlib
from typing import Optional, Sequence

from .fault import Fault
from .scripts import modules

PREFIX = "qss-"


def tool_named(name: str) -> str:
    """The whole name of a tool, which can be given without 'qss-'."""
    known = modules()
    found: Optional[str] = next((one for one in (name, PREFIX + name) if one in known), None)
    if found is None:
        short = [one[len(PREFIX) :] if one.startswith(PREFIX) else one for one in known]
        near = difflib.get_close_matches(name, short, 1)
        raise Fault(
            f"no tool has the name '{name}'{f' (perhaps {near[0]})' if near else ''}; qss-tools lists the tools"
        )
    return found


def run_by_name(words: Sequence[str]) -> int:
    """Runs the tool that the first word names with the other words, and returns its status."""
    module = modules()[tool_named(words[0])]
    return int(importlib.import_module(module).main(list(words[1:])))
