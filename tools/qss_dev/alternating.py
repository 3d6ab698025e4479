"""The tool alternating-trial: models with alternating sources, rewritten once by qss-advise, and their solutions."""
import contextlib
import io
import os
import sys
import tempfile
import time
from dataclasses import dataclass
from typing import List, Optional, Sequence

from qss_tools.advice.advise import Advice
from qss_tools.fault import FINE, WARNED, Arguments, Fault, run_tool
from qss_tools.program import ROOT, add_program_option, find_program
from qss_tools.tables.accuracy import Accuracy, accuracy

ABOUT = """Rewrites models by qss-advise once, and compares the runs with the solutions (numpy and scipy).

  tools/alternating-trial                 all models of tools/tests/alternating
  tools/alternating-trial MODEL ..        these models

A line for each model: right (within 1 % of the worst state's size, or by its measures if only the phase is off), said
(qss-advise states what to change, or objects to the rewritten model), off (by 1 to 3 %), or wrong (by more than 3 %
without an objection).
Status: 0 at most two models are off and none is wrong, 1 otherwise, 2 a fault."""

MODELS = os.path.join(ROOT, "tools", "tests", "alternating")
MOST_SHARE, MOST_WRONG = 1.0, 3.0  # percent
MOST_OFF = 2  # models


@dataclass(frozen=True)
class Line:
    """What became of a model."""

    name: str
    verdict: str
    share: Optional[float]  # of the worst state's size, in percent
    rows: Optional[int]
    seconds: float  # of qss-advise
    said: str

    def text(self) -> str:
        share = "-" if self.share is None else f"{self.share:.2g} %"
        rows = "-" if self.rows is None else f"{self.rows:,}"
        return f"| {self.name} | {self.verdict} | {share} | {rows} | {self.seconds:.1f} s | {self.said} |"


def tool(arguments: Sequence[str]) -> int:
    parser = Arguments(prog="alternating-trial", description=ABOUT)
    parser.add_argument("models", nargs="*", metavar="MODEL", help="the models (default: all of the trial)")
    add_program_option(parser)
    args = parser.parse_args(arguments)
    program = find_program(args.program)
    names = args.models or [os.path.join(MODELS, name) for name in sorted(os.listdir(MODELS)) if name.endswith(".mo")]
    lines: List[Line] = []
    print("| model | verdict | off | rows | advice took | what is said |\n|---|---|---|---|---|---|")
    with tempfile.TemporaryDirectory() as folder:
        for name in names:
            lines.append(tried(name, program, folder))
            print(lines[-1].text(), flush=True)
    off = sum(line.verdict == "off" for line in lines)
    wrong = sum(line.verdict == "wrong" for line in lines)
    print(f"{len(lines)} models: {off} off, {wrong} wrong")
    return FINE if off <= MOST_OFF and not wrong else WARNED


def tried(name: str, program: str, folder: str) -> Line:
    """Rewrites a model and compares its run."""
    short, begun = os.path.splitext(os.path.basename(name))[0], time.time()
    try:
        advice = Advice(name, program)
    except Fault as fault:
        return Line(short, "said", None, None, time.time() - begun, str(fault).replace(name, short))
    seconds = time.time() - begun
    if advice.text is None:
        return Line(short, "said", None, None, seconds, advice.why)
    path = os.path.join(folder, short + ".mo")
    with open(path, "wb") as file:
        file.write(advice.text)
    return judged(short, path, program, seconds)


def judged(short: str, path: str, program: str, seconds: float) -> Line:
    """Compares the run of a rewritten model, and asks for objections to it."""
    with contextlib.redirect_stderr(io.StringIO()):
        again = Advice(path, program)
    objections = [finding.sentence for finding in again.warnings()]
    found = accuracy(path, program)
    share = share_of(found)
    said = objections[0] if objections else ("phase" if found.phase else "")
    if share is not None and share <= MOST_SHARE:
        verdict = "right"
    elif objections:
        verdict = "said"
    else:
        verdict = "off" if share is not None and share <= MOST_WRONG else "wrong"
    return Line(short, verdict, share, found.rows, seconds, said)


def share_of(found: Accuracy) -> Optional[float]:
    """The difference of the worst state in percent of its size, by its measures if only the phase is off."""
    return found.worst.share if found.phase is None else 100 * found.phase.share


def main(arguments: Optional[Sequence[str]] = None) -> int:
    """Runs the tool and returns its status."""
    return run_tool("alternating-trial", tool, arguments)


if __name__ == "__main__":
    sys.exit(main())
