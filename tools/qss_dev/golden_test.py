"""Runs each call of the golden test by the built program, and compares status, output and standard error.

  tools/golden-test                     by the proved program, or else by the one without proofs
  tools/golden-test --program PATH      by another program

`rt ci` runs the same script on files in memory (docs/TRANSCRIPT.md). Here each call is a process, and its files are in
a folder of their own. A failed operation is imitated: a file that is missing or is a folder fails to open or to read, a
limit on the size of files fails a write to standard output, and the device /dev/full fails a write to standard error.
An operation that cannot be imitated is counted as not run.

Status: 0 all answers are the expected ones, 1 some are not: the first of them are printed, 2 a fault.
"""
import functools
import os
import resource
import subprocess
import sys
import tempfile
from concurrent.futures import Future, ThreadPoolExecutor
from dataclasses import dataclass
from typing import Any, Callable, Dict, List, Optional, Sequence

from qss_tools.fault import FINE, WARNED, Arguments, read_bytes, run_tool
from qss_tools.program import ROOT, add_program_option, find_program

from .golden_script import Call, Prefixes, Script, Step, Text, plain

FOLDER = os.path.join(ROOT, "crates", "transcript")
WRITE_FAULT = 4
# The operations on files that a missing file or a folder imitates: opening the first or the second file (both short),
# and one of the two readings that follow.
OPENS, READS = (0, 3), (1, 2, 4, 5)
# How many wrong answers are printed, and how many bytes of each.
SHOWN, LENGTH = 5, 600
# The longest that a call takes, in seconds.
LONGEST = 300


class NotRun(Exception):
    """Why a call cannot be made in a process."""


@dataclass
class Result:
    """What a call did."""

    status: int
    out: bytes
    err: bytes

    @property
    def answer(self) -> bytes:
        """The answer as the golden test prints it."""
        err = b"! " + with_end(self.err) if self.err else b""
        return with_end(self.out) + err + (b"[status %d]\n" % self.status if self.status else b"")


def with_end(text: bytes) -> bytes:
    """A text, and a mark if it does not end with a line feed."""
    return text if not text or text.endswith(b"\n") else text + b"\\\n"


def write_files(folder: str, texts: Dict[str, bytes]) -> None:
    for name, text in texts.items():
        try:
            with open(os.path.join(folder, name), "wb") as file:
                file.write(text)
        except OSError as error:
            raise NotRun(f"the file {name[:40]}: {error.strerror}") from error


def limit_of(call: Call) -> Optional[int]:
    """After how many bytes standard output fails, or None if it does not fail."""
    if call.status != WRITE_FAULT:
        # (standard output of no bytes does not fail, so that what follows an early failure is the same)
        return 0 if 0 in call.settings.fails["out"] else None
    if not call.settings.fails["out"]:
        return call.settings.room
    if call.keeps:
        raise NotRun("a failed write to a file that is kept")
    return len(call.output)


def fail_reading(call: Call, folder: str) -> None:
    """Makes the files of a call such that the operation fails that the script names."""
    for operation in call.settings.fails["shelf"]:
        if call.status != 3:
            continue
        names = [name for name in call.words if name in call.files]
        place = operation // 3
        if operation not in OPENS + READS or place >= len(names):
            raise NotRun(f"operation {operation} on files fails")
        path = os.path.join(folder, names[place])
        os.remove(path)
        if operation in READS:
            os.mkdir(path)


def run(program: str, words: Sequence[bytes], folder: str, limit: Optional[int] = None, full: bool = False) -> Result:
    """Runs the program in a folder. Standard output takes `limit` bytes; standard error takes none if it is full."""
    how: Dict[str, Any] = {"stdin": subprocess.DEVNULL, "cwd": folder}
    if limit is not None:
        # (Python ignores SIGXFSZ, so the write fails, and the process goes on)
        how["restore_signals"] = False
        how["preexec_fn"] = lambda: resource.setrlimit(resource.RLIMIT_FSIZE, (limit, limit))
    with tempfile.TemporaryFile() as out, open("/dev/full", "wb") as device:
        # (standard error is a pipe, to which the limit does not apply)
        streams: Dict[str, Any] = {"stdout": out, "stderr": device if full else subprocess.PIPE}
        try:
            done = subprocess.run([program, *words], timeout=LONGEST, check=False, **streams, **how)
        except subprocess.TimeoutExpired:
            return Result(-1, b"", b"no end after %d s" % LONGEST)
        out.seek(0)
        return Result(done.returncode, out.read(), done.stderr or b"")


def make_call(program: str, call: Call) -> Result:
    """Makes a call of the script."""
    if [it for it in call.settings.fails["err"] if it]:
        raise NotRun("a later write to standard error fails")
    with tempfile.TemporaryDirectory(prefix="golden-") as folder:
        write_files(folder, {name: text() for name, text in call.files.items()})
        fail_reading(call, folder)
        words = [plain(word) for word in call.words]
        return run(program, words, folder, limit_of(call), bool(call.settings.fails["err"]))


def make_prefixes(program: str, step: Prefixes) -> Result:
    """Makes a call on each prefix of a file; where its status or the length of its output changes."""
    lines, last, text = [], b"", step.text()
    with tempfile.TemporaryDirectory(prefix="golden-") as folder:
        for end in range(len(text) + 1):
            write_files(folder, {step.name: text[:end]})
            done = run(program, [plain(word) for word in step.words], folder)
            told = b"status %d, %d bytes on out\n" % (done.status, len(done.out))
            if told != last:
                lines.append(b"from %d: %s" % (end, told))
            last = told
    return Result(0, b"".join(lines), b"")


def digest_of(whole: Text) -> Result:
    """The length and the digest of a file."""
    digest, text = 0, whole()
    for byte in text:
        digest = (digest * 31 + byte) & 0xFFFFFFFF
    return Result(0, b"%d bytes, digest %d\n" % (len(text), digest), b"")


class GoldenTest:
    """Runs the steps of the script in parallel, and collects those whose answer is not the expected one."""

    def __init__(self, program: str, jobs: int) -> None:
        self.program, self.script = program, Script()
        self.pool = ThreadPoolExecutor(jobs)
        self.begun: "List[tuple[Step, Future[Result]]]" = []

    def begin(self, step: Step) -> None:
        """Begins a step as soon as the texts of its files are there."""
        if isinstance(step, Call):
            done = self.submit(step, functools.partial(make_call, self.program, step))
            if step.keeps:
                self.script.keep(step.keeps, output_of(done))
        elif isinstance(step, Prefixes):
            self.submit(step, functools.partial(make_prefixes, self.program, step))
        else:
            self.submit(step, functools.partial(digest_of, step.text))

    def submit(self, step: Step, make: Callable[[], Result]) -> "Future[Result]":
        done = self.pool.submit(make)
        self.begun.append((step, done))
        return done

    def run(self) -> "tuple[int, list[str], list[str]]":
        """The number of steps that passed, those that failed, and those that were not run."""
        script = read_bytes(os.path.join(FOLDER, "stdin")).decode().split("\n")[:-1]
        passed, wrong, left_out = 0, [], []
        with self.pool:
            for step in self.script.steps(script, read_bytes(os.path.join(FOLDER, "stdout"))):
                self.begin(step)
            for step, done in self.begun:
                try:
                    found = done.result()
                except NotRun as why:
                    left_out.append(f"line {step.number}: {step.line[:80]}: not run: {why}")
                    continue
                message = difference(step, found)
                passed += not message
                wrong += [message] if message else []
        return passed, wrong, left_out


def output_of(done: "Future[Result]") -> Text:
    """The output of a call as the text of a file."""
    return lambda: done.result().out


def difference(step: Step, found: Result) -> str:
    """What is wrong with an answer, or nothing."""
    answer = found.answer
    if isinstance(step, Call) and step.keeps:
        answer = Result(found.status, b"", found.err).answer
    if answer == step.expected:
        return ""
    wanted, shown = (text[:LENGTH].decode("utf-8", "replace") for text in (step.expected, answer))
    return f"crates/transcript/stdin:{step.number}: {step.line}\nexpected:\n{wanted}\nfound:\n{shown}\n"


def tool(arguments: Sequence[str]) -> int:
    parser = Arguments(prog="golden-test", description=__doc__)
    add_program_option(parser)
    processors = len(os.sched_getaffinity(0))
    parser.add_argument("--jobs", type=int, default=processors, metavar="N", help="how many calls run in parallel")
    parser.add_argument("--verbose", action="store_true", help="list the calls that are not run")
    args = parser.parse_args(arguments)
    passed, wrong, left_out = GoldenTest(find_program(args.program), max(1, args.jobs)).run()
    for line in [*wrong[:SHOWN], *(left_out if args.verbose else [])]:
        print(line)
    print(f"golden test: {passed} passed, {len(wrong)} failed, {len(left_out)} not run")
    return WARNED if wrong else FINE


def main(arguments: Optional[Sequence[str]] = None) -> int:
    """Runs the tool and returns its status."""
    return run_tool("golden-test", tool, arguments)


if __name__ == "__main__":
    sys.exit(main())
