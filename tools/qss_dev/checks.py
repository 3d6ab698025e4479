"""Builds the program if it is not there, and runs the golden test and all tests of the tools by it. Nothing is proved.

  tools/run-checks              all of this: `make check` calls it
  tools/run-checks WORD ..      only the test modules whose names have one of these words
  tools/run-checks --slowest    and prints the time of each module

The program is the proved one if ./prove has built it from these sources, and else the one without proofs. The test
modules run in parallel processes. The last line is 'N passed, N failed, N skipped'.

Status: 0 nothing failed, 1 something failed: its output is printed, 2 a fault, 9 no program can be built.
"""
import glob
import os
import re
import subprocess
import sys
import time
from collections import Counter
from concurrent.futures import ThreadPoolExecutor
from dataclasses import dataclass, field
from typing import Any, Dict, List, Optional, Sequence, Tuple

from qss_tools.fault import FINE, WARNED, Arguments, Fault, run_tool
from qss_tools.program import BUILT, ROOT, UNPROVED, VARIABLE, is_current

from . import build, quick_build

TESTS = os.path.join(ROOT, "tools", "tests")
# The modules that take longest, which begin first.
LONG = (
    "test_package",
    "test_program",
    "test_naive",
    "test_certificates",
    "test_python",
    "test_install",
    "test_plot",
    "test_fits",
)
# The longest that a module takes, in seconds.
LONGEST = 900
MEMBERS = ("passed", "failed", "skipped")


@dataclass
class Outcome:
    """What a test module did: how many tests passed, failed and were skipped, why, and what it printed."""

    name: str
    counts: Dict[str, int]
    seconds: float
    output: str = ""
    reasons: List[str] = field(default_factory=list)


def program_to_test() -> str:
    """The proved program if it was built from these sources, or else the one without proofs, built if needed."""
    if is_current(BUILT):
        return BUILT
    try:
        if os.access(BUILT, os.X_OK) and build.is_proved(ROOT):
            return BUILT
    except Fault:
        pass  # without a kit, nothing is known about the proved program
    if not is_current(UNPROVED):
        quick_build.build()
    return UNPROVED


def outcome_of(name: str, printed: str, status: int, seconds: float) -> Outcome:
    """The outcome of a module from what unittest printed."""
    ran = re.search(r"^Ran (\d+) tests? in", printed, re.MULTILINE)
    ending = re.search(r"^(?:OK|FAILED|NO TESTS RAN)(?: \((.*)\))?\s*\Z", printed, re.MULTILINE)
    told = {key: int(number) for key, number in re.findall(r"([a-z ]+)=(\d+)", ending[1] or "")} if ending else {}
    skipped = told.get("skipped", 0)
    failed = sum(told.get(it, 0) for it in ("failures", "errors", "unexpected successes"))
    if ran is None or ending is None or (status and not failed and int(ran[1])):
        failed = max(failed, 1)  # the process ended before unittest did
    total = int(ran[1]) if ran else 0
    counts = {"passed": max(0, total - failed - skipped), "failed": failed, "skipped": skipped}
    reasons = re.findall(r"\.\.\. skipped (.*)$", printed, re.MULTILINE)
    return Outcome(name, counts, seconds, printed, reasons)


def run_module(name: str, program: str) -> Outcome:
    """Runs a test module by this program, in a process of its own."""
    begun = time.monotonic()
    words = [sys.executable, "-m", "unittest", "discover", "--verbose", "-p", name + ".py", TESTS]
    streams: Dict[str, Any] = {"stdin": subprocess.DEVNULL, "stdout": subprocess.PIPE, "stderr": subprocess.STDOUT}
    environment = {**os.environ, VARIABLE: program}
    try:
        done = subprocess.run(words, cwd=ROOT, env=environment, timeout=LONGEST, check=False, **streams)
    except subprocess.TimeoutExpired as ended:
        printed = (ended.stdout or b"").decode("utf-8", "replace")
        return outcome_of(name, f"{printed}\n{name}: no end after {LONGEST} s\n", 1, LONGEST)
    return outcome_of(name, done.stdout.decode("utf-8", "replace"), done.returncode, time.monotonic() - begun)


def run_golden_test(program: str) -> Outcome:
    """Runs the golden test as a process of its own."""
    begun = time.monotonic()
    words = [sys.executable, os.path.join(ROOT, "tools", "golden-test"), "--program", program]
    done = subprocess.run(words, cwd=ROOT, check=False, stdout=subprocess.PIPE, stderr=subprocess.STDOUT)
    printed = done.stdout.decode("utf-8", "replace")
    found = re.search(r"golden test: (\d+) passed, (\d+) failed, (\d+) not run", printed)
    counts = dict(zip(MEMBERS, map(int, found.groups()))) if found else {"passed": 0, "failed": 1, "skipped": 0}
    reasons = ["an operation that fails cannot be imitated"] * counts["skipped"]
    return Outcome("golden test", counts, time.monotonic() - begun, printed, reasons)


def modules(words: Sequence[str]) -> List[str]:
    """The test modules whose names have one of these words: those first that take longest."""
    names = [os.path.splitext(os.path.basename(path))[0] for path in glob.glob(os.path.join(TESTS, "test_*.py"))]
    found = [name for name in names if not words or any(word in name for word in words)]
    if not found:
        raise Fault("no test module has a name with " + " or ".join(words))
    return sorted(found, key=lambda name: (LONG.index(name) if name in LONG else len(LONG), name))


def summary(outcomes: Sequence[Outcome]) -> Tuple[List[str], bool]:
    """The last lines, and whether something failed."""
    total = {it: sum(one.counts[it] for one in outcomes) for it in MEMBERS}
    reasons = Counter(reason for one in outcomes for reason in one.reasons)
    lines = [f"skipped {number}: {reason}" for reason, number in sorted(reasons.items())]
    lines += [f"failed: {one.name}" for one in outcomes if one.counts["failed"]]
    return [*lines, ", ".join(f"{number} {it}" for it, number in total.items())], total["failed"] > 0


def tool(arguments: Sequence[str]) -> int:
    parser = Arguments(prog="run-checks", description=__doc__)
    parser.add_argument("words", nargs="*", metavar="WORD", help="run only modules whose names have one of these words")
    processors = len(os.sched_getaffinity(0))
    parser.add_argument("--jobs", type=int, default=processors, metavar="N", help="how many modules run in parallel")
    parser.add_argument("--slowest", action="store_true", help="print the time of each module, slowest first")
    args = parser.parse_args(arguments)
    names = modules(args.words)
    program = program_to_test()
    print(f"program: {os.path.relpath(program, ROOT)}", file=sys.stderr)
    outcomes = []
    with ThreadPoolExecutor(max(1, args.jobs)) as pool:
        started = [pool.submit(run_module, name, program) for name in names]
        if not args.words:
            started.append(pool.submit(run_golden_test, program))
        for begun in started:
            outcomes.append(begun.result())
            if outcomes[-1].counts["failed"]:
                print(outcomes[-1].output)
    for one in sorted(outcomes, key=lambda it: -it.seconds) if args.slowest else ():
        print(f"{one.seconds:6.1f} s  {one.name}")
    lines, is_wrong = summary(outcomes)
    print("\n".join(lines))
    return WARNED if is_wrong else FINE


def main(arguments: Optional[Sequence[str]] = None) -> int:
    """Runs the tool and returns its status."""
    return run_tool("run-checks", tool, arguments)


if __name__ == "__main__":
    sys.exit(main())
