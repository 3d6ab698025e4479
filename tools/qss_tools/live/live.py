"""The tool qss-live: a page that follows a model while it is written."""
import os
import signal
import sys
import tempfile
import threading
import webbrowser
from typing import Any, Optional, Sequence

from ..fault import FINE, Arguments, Fault, read_bytes, run_tool
from ..model.units import checked_unit
from ..plot.html_plot import check_plotly
from ..program import add_program_option, find_program
from ..runs.measures import requests
from .runs import Limits
from .server import plotly_script, started
from .session import Options, Session

ABOUT = """A page that follows a model while it is written, with a slider for each parameter (docs/LIVE.md).

  tools/qss-live MODEL                            opens the page in a browser; each save of MODEL draws it anew
  tools/qss-live MODEL --names 'uC,iL+ref'        begins with these panels, as qss-plot does
  tools/qss-live MODEL --measures 'ripple(iL)'    and with these measures, as those of qss-measure
  tools/qss-live MODEL --no-browser               prints only the address of the page

The page is served on this computer only, for its address only, which has a secret part. It needs the package plotly
(Debian: python3-plotly). An interruption (Ctrl-C) ends the tool.

Status: 0 it was ended, 2 a fault."""


def parser_of() -> Arguments:
    parser = Arguments(prog="qss-live", description=ABOUT)
    parser.add_argument("model", help="the file of the model, which is only read")
    parser.add_argument(
        "--names", help="the first panels, as 'iL,uC+ref' (default: those of the line 'Plot:', or some)"
    )
    parser.add_argument("--measures", default="", help="the first measures, as 'mean(iL) ripple(uC, from=4)'")
    parser.add_argument("--order", choices=(1, 2), type=int, default=1, help="2: run the model by `qss run2`")
    parser.add_argument("--unit", help="the model's unit of time, for the axis")
    parser.add_argument("--seconds", type=float, default=10.0, help="the longest run (default: %(default)s)")
    parser.add_argument("--port", type=int, default=0, help="the port of the page (default: a free one)")
    parser.add_argument("--no-browser", action="store_true", help="open no browser")
    add_program_option(parser)
    return parser


def tool(arguments: Sequence[str]) -> int:
    args = parser_of().parse_args(arguments)
    if args.measures:
        requests(args.measures)
    if not args.seconds > 0:
        raise Fault("--seconds: a number above 0")
    check_plotly()
    read_bytes(args.model)
    ended = ending()
    options = Options(args.names, args.measures, checked_unit(args.unit), Limits(args.order, args.seconds))
    with tempfile.TemporaryDirectory(prefix="qss-live-") as folder:
        session = Session(args.model, find_program(args.program), folder, options)
        session.look()
        session.check_names()
        server = started(session, args.port)
        print(server.address, flush=True)
        if not args.no_browser:
            webbrowser.open("file://" + opening_page(folder, server.address))
        threading.Thread(target=plotly_script, daemon=True).start()  # (so that the first page need not wait for it)
        while not ended.wait(1.0):
            pass
        server.end()
    return FINE


def opening_page(folder: str, address: str) -> str:
    """Writes a page that leads to an address. A browser is started with its path, because the words of a command are
    known to all users of a computer, and the address has a secret part.
    """
    path = os.path.join(folder, "open.html")
    with open(os.open(path, os.O_WRONLY | os.O_CREAT | os.O_TRUNC, 0o600), "w", encoding="utf-8") as file:
        file.write(f'<!DOCTYPE html><meta charset="utf-8"><meta http-equiv="refresh" content="0; url={address}">\n')
    return path


def ending() -> threading.Event:
    """The event of an interruption or of a request to end."""
    ended = threading.Event()

    def stop(number: int, frame: Any) -> None:
        ended.set()

    for number in (signal.SIGINT, signal.SIGTERM):
        signal.signal(number, stop)
    return ended


def main(arguments: Optional[Sequence[str]] = None) -> int:
    """Runs the tool and returns its status."""
    return run_tool("qss-live", tool, arguments, numeric=True, package="plotly")


if __name__ == "__main__":
    sys.exit(main())
