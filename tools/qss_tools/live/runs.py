"""Runs of a model with changed values: executed once, and their rows kept in files."""
import os
import shutil
import subprocess
import threading
import time
from collections import OrderedDict
from dataclasses import dataclass
from typing import Dict, Mapping, NamedTuple, Optional, Sequence, Tuple

from ..fault import Fault
from ..model.changes import changed_text
from ..program import OVERFLOWED, REFUSED, start
from ..runs.rows import Run
from ..sweeps.jobs import explained, run_of

MOST_BYTES = 1 << 26  # of the rows of a run: about two million rows
KEPT = 8  # runs whose rows are kept


class Refused(Fault):
    """The program refuses the model with these values: its line, and the file of the changed model."""

    def __init__(self, line: str, path: str, is_file: bool = False) -> None:
        """With `is_file`, the lines of the changed model are those of the file."""
        why = explained(path, line)
        super().__init__(why.replace(" of the changed model)", ")") if is_file else why)
        self.line = line


@dataclass(frozen=True)
class Limits:
    """How a model is run: of first or second order, and for how many seconds at most."""

    order: int = 1
    seconds: float = 10.0


class Text(NamedTuple):
    """A model that the program accepts: its name, the number of its text, its canonical text, and that of its file."""

    name: str
    number: int
    canonical: bytes
    source: bytes = b""


@dataclass(frozen=True)
class Done:
    """A run that was executed: the changed model and its meaning, its rows, its seconds, and why it was stopped."""

    path: str
    run: Run
    rows: str
    seconds: float
    stopped: str = ""


class Runs:
    """Executes runs, and keeps the rows of the last ones in a folder."""

    def __init__(self, program: str, folder: str, limits: Limits) -> None:
        self.program, self.folder, self.limits = program, folder, limits
        self.known: "OrderedDict[Tuple[int, Tuple[Tuple[str, str], ...]], Done]" = OrderedDict()
        self.lock = threading.Lock()
        self.count = 0

    def of(self, text: Text, values: Mapping[str, str]) -> Done:
        """The run of a model with these values. A model that is refused is a fault."""
        key = text.number, tuple(sorted(values.items()))
        with self.lock:
            if key in self.known:
                self.known.move_to_end(key)
                return self.known[key]
            self.count += 1
            number = self.count
        done = self.executed(text, values, os.path.join(self.folder, "run%d" % number))
        with self.lock:
            self.known[key] = done
            while len(self.known) > KEPT:
                self.drop(self.known.popitem(last=False)[1])
        return done

    @staticmethod
    def drop(done: Done) -> None:
        """Removes the files of a run."""
        shutil.rmtree(os.path.dirname(done.path), ignore_errors=True)

    def executed(self, text: Text, values: Mapping[str, str], folder: str) -> Done:
        """Executes a run in a new folder."""
        os.mkdir(folder)
        path, rows = (os.path.join(folder, name) for name in (os.path.basename(text.name), "rows.csv"))
        changed = changed_text(text.name, text.canonical, values)
        with open(path, "wb") as file:
            file.write(changed)
        begun = time.perf_counter()
        answer = self.answer(path)
        seconds = time.perf_counter() - begun
        if answer.status == REFUSED:
            raise self.refusal(text, values, folder) or Refused(answer.line, path)
        if answer.status not in (0, OVERFLOWED) and not answer.stopped:
            raise Fault(f"{text.name}: {answer.line or f'status {answer.status}'}")
        with open(rows, "wb") as file:
            file.write(answer.rows)
        run = run_of(path, self.program, changed)
        run.use_order(self.limits.order)
        return Done(path, run, rows, seconds, answer.stopped)

    def answer(self, path: str) -> "Answer":
        """How the run of a model ended."""
        verb = "run2" if self.limits.order == 2 else "run"
        return answered(self.program, [verb, path], self.limits.seconds)

    def refusal(self, text: Text, values: Mapping[str, str], folder: str) -> Optional[Refused]:
        """Why these values are refused in the text of the file, in which they leave each line where it is."""
        if not text.source:
            return None
        path = os.path.join(folder, "file", os.path.basename(text.name))
        os.mkdir(os.path.dirname(path))
        with open(path, "wb") as file:
            file.write(changed_text(text.name, text.source, values))
        answer = self.answer(path)
        return Refused(answer.line, path, is_file=True) if answer.status == REFUSED else None


class Answer(NamedTuple):
    """How a run ended: its status, its whole rows, its line on standard error, and why it was stopped."""

    status: Optional[int]
    rows: bytes
    line: str
    stopped: str


def answered(program: str, words: Sequence[str], seconds: float) -> Answer:
    """Runs the program, for so many seconds and so many bytes of rows at most."""
    reason: Dict[str, str] = {}
    with start(program, words, stdout=subprocess.PIPE, stderr=subprocess.PIPE) as process:

        def stop(why: str) -> None:
            reason.setdefault("stopped", why)
            process.kill()

        timer = threading.Timer(seconds, stop, ["the run was stopped after %g s" % seconds])
        timer.start()
        assert process.stdout is not None and process.stderr is not None
        rows = process.stdout.read(MOST_BYTES)
        if len(rows) == MOST_BYTES:
            stop("the run was stopped after %d MB of rows" % (MOST_BYTES >> 20))
        line = process.stderr.read().decode("utf-8", "replace").strip()
        timer.cancel()
    if reason:
        rows = rows[: rows.rfind(b"\n") + 1]
    return Answer(process.returncode, rows, line, reason.get("stopped", ""))
