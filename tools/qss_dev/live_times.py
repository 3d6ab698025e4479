"""The tool live-times: how long the live page and the language server take to answer."""
import importlib.util
import json
import random
import shutil
import statistics
import sys
import tempfile
import time
import urllib.request
from pathlib import Path
from typing import Any, Iterator, List, NamedTuple, Optional, Sequence

from qss_tools.fault import FINE, WARNED, Arguments, run_tool
from qss_tools.live.server import LiveServer, started
from qss_tools.live.session import Options, Session
from qss_tools.live.sheet import Parameter
from qss_tools.program import add_program_option, find_program

from . import try_editor
from .editor_client import Client

ABOUT = """Measures the live page and the language server: milliseconds from a question to its answer.

  tools/live-times                 moves a slider of each of some examples, and asks qss-lsp about a model of 1000 lines
  tools/live-times MODEL ..        moves a slider of these models

For each model there are the rows of a run, and the median and the longest time of: the answer of the server with the
curves, and the whole way from the slider to the curve in headless Chromium (Debian: chromium-driver, python3-selenium).

Status: 0 the medians are within 300 ms for a curve and 100 ms for qss-lsp, 1 not so, 2 a fault."""

EXAMPLES = Path(__file__).resolve().parent.parent.parent / "examples"
USUAL = ("rc", "rlc", "buck_ccm", "buck_pi", "boost_ccm", "dcmotor")
LONGEST_CURVE = 0.3  # seconds
PATIENCE = 60.0  # seconds
READY = "return window.qssLive !== undefined && window.qssLive.latencies.length > arguments[0]"
MOVE = """const slider = document.querySelector('[data-name="' + arguments[0] + '"] [type=range]');
slider.value = arguments[1]; slider.dispatchEvent(new Event('input'));"""


class Times(NamedTuple):
    """How long some answers took, in seconds."""

    found: List[float]

    def text(self) -> str:
        return f"{1000 * statistics.median(self.found):6.0f} {1000 * max(self.found):6.0f}"

    def is_fine(self) -> bool:
        return statistics.median(self.found) <= LONGEST_CURVE


def browser() -> Any:
    """Headless Chromium, or None where it or selenium is not installed."""
    driver = shutil.which("chromedriver")
    if driver is None or importlib.util.find_spec("selenium") is None:
        return None
    from selenium import webdriver
    from selenium.webdriver.chrome.service import Service

    options = webdriver.ChromeOptions()
    for word in ("--headless", "--no-sandbox", "--disable-gpu", "--disable-dev-shm-usage", "--window-size=1360,860"):
        options.add_argument(word)
    return webdriver.Chrome(service=Service(driver), options=options)


def values_of(one: Parameter, moves: int) -> Iterator[float]:
    """Values near that of a parameter, each another one."""
    for move in range(moves):
        yield one.value * (1 + 0.2 * (move + 1) / moves)


def by_server(server: LiveServer, one: Parameter, moves: int) -> Times:
    """The answers of the server with the curves of other values."""
    loaded = server.session.loaded
    assert loaded is not None
    found = []
    for value in values_of(one, moves):
        request = {"text": loaded.text.number, "panels": loaded.panels, "values": {one.name: f"{value:.4g}"}}
        begin = time.perf_counter()
        with urllib.request.urlopen(server.address + "draw", json.dumps(request).encode()) as answer:
            answer.read()
        found.append(time.perf_counter() - begin)
    return Times(found)


def wait(driver: Any, count: int) -> None:
    """Waits until a page has drawn more often than this."""
    end = time.monotonic() + PATIENCE
    while not driver.execute_script(READY, count) and time.monotonic() < end:
        time.sleep(0.01)


def by_page(driver: Any, server: LiveServer, one: Parameter, moves: int) -> Times:
    """The times from the slider to the curve in a browser."""
    driver.get(server.address)
    wait(driver, 0)
    time.sleep(1)  # (the first measures)
    for move in range(moves):
        count = driver.execute_script("return window.qssLive.latencies.length")
        driver.execute_script(MOVE, one.name, 300 + 17 * move)
        wait(driver, count)
    return Times([one / 1000 for one in driver.execute_script("return window.qssLive.latencies")[-moves:]])


def measure_page(path: Path, program: str, driver: Any, moves: int) -> bool:
    """Prints the times of a model, and returns whether the medians are short."""
    with tempfile.TemporaryDirectory(prefix="qss-live-") as folder:
        session = Session(str(path), program, folder, Options())
        session.look()
        if session.loaded is None or not session.loaded.sheet.parameters:
            print(f"  {path.stem:12} skipped: it has no parameters, or does not run")
            return True
        one, server = session.loaded.sheet.parameters[0], started(session, 0)
        try:
            times = [by_server(server, one, moves)] + ([by_page(driver, server, one, moves)] if driver else [])
            rows = sum(1 for _ in open(session.runs.of(session.loaded.text, {}).rows, "rb")) - 1
        finally:
            server.end()
    print(f"  {path.stem:12} {rows:8,} rows  {'  '.join(some.text() for some in times)}", flush=True)
    return all(some.is_fine() for some in times)


def measure_editor(program: str, lines: int) -> bool:
    """Prints the times of qss-lsp, and returns whether the medians are short."""
    if importlib.util.find_spec("pylsp_jsonrpc") is None:
        print("qss-lsp: skipped, because pylsp_jsonrpc is not here")
        return True
    client = Client(sys.executable, program)
    fine = try_editor.measure(client, lines, random.Random(1))
    return client.close() == 0 and fine


def tool(arguments: Sequence[str]) -> int:
    parser = Arguments(prog="live-times", description=ABOUT)
    parser.add_argument("models", nargs="*", metavar="MODEL", type=Path, help="a model with a parameter")
    parser.add_argument("--moves", type=int, default=20, help="how often a slider is moved (default: %(default)s)")
    parser.add_argument("--lines", type=int, default=1000, help="of the model for qss-lsp (default: %(default)s)")
    add_program_option(parser)
    args = parser.parse_args(arguments)
    program, driver = find_program(args.program), browser()
    print("qss-live; milliseconds to the server's answer, and from a slider to the curve (median, longest):")
    if driver is None:
        print("  the page is skipped, because chromedriver or selenium is not here")
    try:
        models = args.models or [EXAMPLES / f"{name}.mo" for name in USUAL]
        fine = [measure_page(path, program, driver, max(1, args.moves)) for path in models]
    finally:
        if driver is not None:
            driver.quit()
    fine.append(args.models != [] or measure_editor(program, args.lines))
    return FINE if all(fine) else WARNED


def main(arguments: Optional[Sequence[str]] = None) -> int:
    """Runs the tool and returns its status."""
    return run_tool("live-times", tool, arguments, numeric=True)


if __name__ == "__main__":
    sys.exit(main())
