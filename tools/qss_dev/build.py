"""Proves and builds the program crates/qss/out/qss and the crates that it depends on, with progress on standard error.

Several crates are proved in parallel, each in one job: as many as there are processors, or fewer if memory is short.
With QSS_JOBS=N the build has as many jobs as on N processors with enough memory. Crates with the longest dependency
chain above them start first and have the highest priority. A crate that takes long gets more jobs if no other crate can
be proved meanwhile. A crate is taken over from an earlier build if nothing has changed in it or below it. Only the
statements of each library are kept, for the crates above it: the commands of rt make libraries of their own.

Status: 0 the program is built, 1 with --check: it is not, 9 the build fails; its last lines say why.
"""
import contextlib
import fcntl
import os
import signal
import subprocess
import sys
import threading
import time
from concurrent.futures import FIRST_COMPLETED, Future, ThreadPoolExecutor, wait
from typing import Any, Dict, Iterator, List, Optional, Sequence, Set, Tuple

from qss_tools.fault import FINE, WARNED, Arguments, run_tool
from qss_tools.program import ROOT, note_kit

from .crates import PROGRAM, Crates, Kit, failed
from .schedule import Schedule, shares, work_of

# Starts a command in a process group of its own. The commands stay in one session, because Linux may apply nice only
# within a session (autogroup).
IN_GROUP: Dict[str, Any] = {"process_group": 0} if sys.version_info >= (3, 11) else {"preexec_fn": os.setpgrp}
# After how many seconds at most a signal is seen that came just before a wait.
LOOK = 1
Made = Tuple[str, int, List[str]]  # a crate, the status of its build, and its lines


def clock(begun: float) -> str:
    minutes, seconds = divmod(int(time.monotonic() - begun), 60)
    return f"{minutes}:{seconds:02}"


class Progress:
    """How far the build is."""

    def __init__(self, many: int) -> None:
        self.many, self.begun, self.done = many, time.monotonic(), 0

    def begin(self, number: int) -> None:
        at_once = f"{number} at a time" if number > 1 else "one after the other"
        print(f"qss: proving and building {self.many} crates, {at_once}", file=sys.stderr, flush=True)

    def proved(self, name: str) -> None:
        self.done += 1
        print(f"qss: {self.done} of {self.many}: {name}, after {clock(self.begun)}", file=sys.stderr, flush=True)

    def end(self) -> None:
        print(f"qss: built after {clock(self.begun)}", file=sys.stderr, flush=True)


class Commands:
    """The kit's commands that are at work, each in a group of its own with the copies that it makes of itself."""

    def __init__(self) -> None:
        self.lock, self.is_stopped = threading.Lock(), False
        self.at_work: "Set[subprocess.Popen[str]]" = set()

    def run(self, command: Sequence[str], folder: str, nice: int) -> Tuple[int, List[str]]:
        """Runs a command in a folder with this nice value, and gives its status and the lines that it prints."""
        how: Dict[str, Any] = {
            "stdin": subprocess.DEVNULL,
            "stdout": subprocess.PIPE,
            "stderr": subprocess.STDOUT,
            "errors": "replace",
            **IN_GROUP,
        }
        with self.lock:
            if self.is_stopped:
                return 9, []
            try:
                child = subprocess.Popen(["nice", "-n", str(nice), *command], cwd=folder, text=True, **how)
            except OSError as why:
                return 9, [f"{command[0]}: {why.strerror}"]
            self.at_work.add(child)
        with child:
            lines = list(child.stdout or ())
        with self.lock:
            self.at_work.discard(child)
        if child.returncode < 0:
            lines.append(f"it was ended by {signal.Signals(-child.returncode).name}")
        return child.returncode, lines

    def stop(self) -> None:
        with self.lock:
            self.is_stopped = True
            for child in self.at_work:
                with contextlib.suppress(ProcessLookupError):
                    os.killpg(child.pid, signal.SIGTERM)


class Build:
    """A build of crates: what is built, what waits, and which crates are at work."""

    def __init__(self, crates: Crates, stamps: Dict[str, str]) -> None:
        self.crates, self.stamps = crates, stamps
        self.progress, self.commands = Progress(len(stamps)), Commands()
        work = {it: work_of(crates.root, it) for it in crates.every}
        self.schedule = Schedule(crates.below, work, shares())
        self.longest = max(self.schedule.chains[it] for it in stamps)
        self.built, self.waiting = crates.every - set(stamps), set(stamps)
        self.running: "Set[Future[Made]]" = set()

    def make(self, name: str, jobs: int) -> Made:
        """Builds a crate, and gives its name, its status and what was said."""
        crates, kit, nice = self.crates, self.crates.kit.folder, self.schedule.nice(name, self.longest)
        folder = crates.folder(name)
        status, lines = self.commands.run([f"{kit}/bin/rattle", *crates.words(name, jobs)], folder, nice)
        if name == PROGRAM and not status:
            new = f"{crates.program()}.new"
            status, lines = self.commands.run([f"{kit}/bin/rattle-link", *crates.link_words(new)], folder, nice)
            if not status:
                os.replace(new, crates.program())
        if not status:
            crates.note(name, self.stamps[name])
        return name, status, lines

    def begin(self, pool: ThreadPoolExecutor) -> None:
        """Begins the crates that the schedule names."""
        for name, jobs in self.schedule.begin(self.waiting, self.built, len(self.running)):
            self.running.add(pool.submit(self.make, name, jobs))
            self.waiting.discard(name)

    def end(self, made: "Future[Made]") -> None:
        """Takes in a crate that was built, or reports why it was not."""
        self.running.discard(made)
        name, status, lines = made.result()
        if status:
            what = "the program could not be built" if name == PROGRAM else f"{name} is not proved"
            self.commands.stop()
            raise failed(f"{what}; the last lines of why:", lines)
        self.built.add(name)
        self.progress.proved(name)

    def run(self) -> None:
        """Builds each crate as soon as those below it are there."""
        self.progress.begin(self.schedule.shares.crates)
        for it in self.stamps:
            self.crates.forget(it)
        with ThreadPoolExecutor(self.schedule.shares.crates) as pool:
            try:
                self.run_in(pool)
            except BaseException:
                self.commands.stop()
                raise
        self.progress.end()

    def run_in(self, pool: ThreadPoolExecutor) -> None:
        """Begins crates and takes in those that are built, until none is left."""
        while self.waiting or self.running:
            self.begin(pool)
            for made in wait(self.running, LOOK, FIRST_COMPLETED)[0]:
                self.end(made)


@contextlib.contextmanager
def alone(crates: Crates) -> Iterator[None]:
    """Waits until no other build of these crates is under way, and keeps others waiting."""
    os.makedirs(crates.place(PROGRAM), exist_ok=True)
    with open(f"{crates.place(PROGRAM)}/lock", "w", encoding="ascii") as lock:
        try:
            fcntl.flock(lock, fcntl.LOCK_EX | fcntl.LOCK_NB)
        except BlockingIOError:
            print("qss: waiting for another build", file=sys.stderr, flush=True)
            fcntl.flock(lock, fcntl.LOCK_EX)
        yield


def is_proved(root: str) -> bool:
    """Whether the program is built and proved from the sources of a checkout; it is then made newer than they are."""
    began, crates = time.time(), Crates(root, Kit())
    if crates.to_build():
        return False
    settle(crates, began)
    return True


def settle(crates: Crates, began: float) -> None:
    """Makes the program newer than the sources that were there when its build began, its mark newer than the program,
    and notes the kit.
    """
    os.utime(crates.program(), (began, began))
    os.utime(crates.mark(PROGRAM))
    note_kit(crates.program())


def build(root: str) -> None:
    """Proves and builds what has changed in a checkout."""
    for it in (signal.SIGTERM, signal.SIGHUP):
        signal.signal(it, lambda number, _: sys.exit(128 + number))
    crates = Crates(root, Kit())
    with alone(crates):
        began, stamps = time.time(), crates.to_build()
        if stamps:
            Build(crates, stamps).run()
        settle(crates, began)


def tool(arguments: Sequence[str]) -> int:
    parser = Arguments(prog="build-program", description=__doc__)
    parser.add_argument("--check", action="store_true", help="build nothing; status 1 if the program is not proved")
    args = parser.parse_args(arguments)
    try:
        if args.check:
            return FINE if is_proved(ROOT) else WARNED
        build(ROOT)
    except KeyboardInterrupt:
        return 128 + signal.SIGINT
    except OSError as why:
        raise failed(f"{why.filename or 'the build'}: {why.strerror}") from why
    return FINE


def main(arguments: Optional[Sequence[str]] = None) -> int:
    """Runs the tool and returns its status."""
    return run_tool("qss", tool, arguments)


if __name__ == "__main__":
    sys.exit(main())
