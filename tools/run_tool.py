"""Runs a tool: the file of its name in this folder calls `run`."""
import importlib
import os
import signal
import sys

signal.signal(signal.SIGINT, signal.SIG_DFL)  # (until modules are loaded, an interruption ends the tool in silence)
from qss_tools.scripts import modules  # noqa: E402


def run(path: str) -> None:
    """Runs the tool that has the name of the file at this path, or at the end of the links from it, and exits."""
    name = os.path.basename(os.path.realpath(path))
    found = modules()
    if name not in found:
        print(f"{name}: no tool has this name (tools/qss-tools lists the tools)", file=sys.stderr)
        sys.exit(2)
    sys.exit(importlib.import_module(found[name]).main())
