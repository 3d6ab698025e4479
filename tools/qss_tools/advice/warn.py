"""Warns of settings that spoil a run, in a line on standard error of the tools that show runs."""
import argparse
import sys

from ..fault import Fault
from ..installed import for_user
from ..runs.rows import Run


def add_advice_option(parser: argparse.ArgumentParser) -> None:
    """Adds the option that leaves the warning out."""
    parser.add_argument("--no-advice", action="store_true", help="do not warn of settings that spoil the run")


def warn(args: argparse.Namespace, run: Run, tool: str) -> None:
    """Warns in one line if the settings of the model spoil its run."""
    if args.no_advice:
        return
    from .advise import warning_of

    try:
        line = warning_of(run.model, run.program, args.source)
    except Fault:
        # (what the model lacks is reported where it is run)
        return
    if line:
        print("%s: warning: %s" % (tool, for_user(line)), file=sys.stderr)
