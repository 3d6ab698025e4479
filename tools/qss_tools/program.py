"""Finds the program `qss` and calls it."""
import os
import shlex
import shutil
import subprocess
import sys
from argparse import ArgumentParser
from typing import Any, Dict, Iterator, List, NamedTuple, Optional, Sequence

from .fault import NO_FILE, Fault

# A checkout of the repository, or what `make install` wrote: lib/qss with the program and tools/.
ROOT = os.path.dirname(os.path.dirname(os.path.dirname(os.path.abspath(__file__))))
LAUNCHER = os.path.join(ROOT, "qss")
BUILT = os.path.join(ROOT, "crates", "qss", "out", "qss")
UNPROVED = os.path.join(ROOT, "crates", "qss", "out", "unproved", "qss")
# The variable that names the program for all tools.
VARIABLE = "QSS_PROGRAM"
PARTS = ("src", "specs", "proofs")
# Statuses of the program.
UNREADABLE = 3
REJECTED, REFUSED, OVERFLOWED, OUT_OF_MEMORY = 1, 5, 6, 8
# The rules of `qss run --rule`.
RULES = ("floor", "near", "inward")
NOT_PROVED = "not proved on this machine; ./prove builds the proved program"
WITHOUT_PROOFS = "the program without its proofs"


class Answer(NamedTuple):
    """How a call ended: its status, the bytes that it wrote, and its line on standard error."""

    status: int
    out: bytes
    line: str


def add_program_option(parser: ArgumentParser) -> None:
    """Adds the option that names another program."""
    parser.add_argument("--program", metavar="PATH", help="the program to run (default: the one that ./qss runs)")


def find_program(path: Optional[str] = None) -> str:
    """The program of this path or of QSS_PROGRAM, or else the one that ./qss runs, where it is built.

    A tool starts no build. The proved program comes first. With QSS_PROVED=1 an unproved one is never used.
    """
    path = path or os.environ.get(VARIABLE) or None
    if path is not None:
        if not os.access(path, os.X_OK) or os.path.isdir(path):
            raise Fault("%s: no program that can be run" % path)
        return os.path.abspath(path)
    if is_program(BUILT):
        return BUILT
    if is_installed_proved():
        return LAUNCHER
    if os.environ.get("QSS_PROVED") == "1":
        raise Fault("the program is not proved on this machine, and QSS_PROVED is 1; ./prove builds the proved program")
    for found in (UNPROVED, LAUNCHER, program_on_path(), packaged_program()):
        if is_program(found):
            if found in (UNPROVED, LAUNCHER) and sys.stderr is not None and sys.stderr.isatty():
                print("qss: %s" % (NOT_PROVED if found == UNPROVED else WITHOUT_PROOFS), file=sys.stderr)
            return found
    if not os.path.isfile(os.path.join(ROOT, "crates.txt")):
        raise Fault(f"the program qss is not on the path; or name it with --program or by the variable {VARIABLE}")
    raise Fault(
        "the program is not built: './qss print examples/decay.mo' builds it without its proofs in about two minutes,"
        f" and ./prove proves and builds it; or name a built one with --program or by the variable {VARIABLE}"
    )


def is_installed_proved() -> bool:
    """Whether `make install` put a proved program next to these tools."""
    try:
        with open(os.path.join(ROOT, "VERSION"), encoding="utf-8") as file:
            return "program: proved" in file.read().splitlines() and is_program(LAUNCHER)
    except OSError:
        return False


def program_on_path() -> str:
    """The program of the command qss on the path, or nothing. The command of an installation without proofs is a script
    next to its program.
    """
    command = shutil.which("qss")
    if command is None or is_program(command):
        return command or ""
    return os.path.join(os.path.dirname(os.path.realpath(command)), "qss")


def packaged_program() -> str:
    """The program that a wheel has put next to the tools, or nothing."""
    from importlib import metadata

    try:
        files = metadata.files("qss-tools") or []
    except metadata.PackageNotFoundError:
        return ""
    return next((os.path.realpath(file.locate()) for file in files if file.parts[-2:] == ("bin", "qss")), "")


def is_program(path: str) -> bool:
    """Whether a built program, and no script that may start a build, is there."""
    if not os.path.isfile(path) or not os.access(path, os.X_OK):
        return False
    with open(path, "rb") as file:
        return file.read(2) != b"#!"


def sources(root: str = ROOT) -> Iterator[str]:
    """The files from which the program is built."""
    yield os.path.join(root, "crates.txt")
    crates = os.path.join(root, "crates")
    for crate in sorted(os.listdir(crates)) if os.path.isdir(crates) else ():
        # (the program does not depend on the crates of tests)
        if crate.endswith("_tests") or crate == "transcript":
            continue
        for part in PARTS:
            for folder, _, files in os.walk(os.path.join(crates, crate, part)):
                yield from (os.path.join(folder, name) for name in files)


def is_current(program: str, root: str = ROOT) -> bool:
    """Whether a program is built, no source is newer, and the kit is the one with which it was built."""
    if not os.access(program, os.X_OK):
        return False
    built = os.stat(program).st_mtime_ns
    newer = any(os.stat(path).st_mtime_ns > built for path in sources(root) if os.path.exists(path))
    return not newer and has_same_kit(program)


def kit_lines() -> Optional[List[str]]:
    """The path of rt and the line that identifies its kit, or None if no rt is on the path."""
    command = shutil.which("rt")
    if command is None:
        return None
    done = subprocess.run([command, "version"], stdout=subprocess.PIPE, stderr=subprocess.DEVNULL, check=False)
    return [os.path.realpath(command), done.stdout.decode("utf-8", "replace").strip()]


def note_kit(program: str) -> None:
    """Notes next to a program the kit with which it was built. ./qss reads this file."""
    with open(os.path.join(os.path.dirname(program), "kit"), "w", encoding="utf-8") as file:
        file.write("\n".join(kit_lines() or []) + "\n")


def has_same_kit(program: str) -> bool:
    """Whether the kit on the path is the one with which a program was built, or no kit is on the path."""
    found = kit_lines()
    if found is None:
        return True
    try:
        with open(os.path.join(os.path.dirname(program), "kit"), encoding="utf-8") as file:
            return file.read().splitlines()[1:] == found[1:]
    except OSError:
        return False


def digest_of(program: str) -> str:
    """The SHA-256 digest of a program."""
    import hashlib

    with open(program, "rb") as file:
        return hashlib.sha256(file.read()).hexdigest()


def start(program: str, arguments: Sequence[str], **streams: Any) -> "subprocess.Popen[bytes]":
    """Starts the program with these arguments."""
    try:
        return subprocess.Popen([program, *arguments], **streams)
    except OSError as error:
        raise Fault("%s: %s" % (program, (error.strerror or "cannot be run").lower())) from error


def call(program: str, arguments: Sequence[str], keep: bool = True) -> Answer:
    """Runs the program to its end; what it writes is kept or dropped."""
    out = subprocess.PIPE if keep else subprocess.DEVNULL
    with start(program, arguments, stdout=out, stderr=subprocess.PIPE) as process:
        written, err = process.communicate()
    return Answer(process.returncode, written, err.decode("utf-8", "replace").strip())


def canonical_text(program: str, model: str) -> bytes:
    """What `print` writes for a model; a refusal is a fault that names the way to its place."""
    answer = call(program, ["print", model])
    if answer.status == 0:
        return answer.out
    if answer.status == REFUSED:
        raise Fault("%s: %s%s" % (model, answer.line, way_to_place(model)))
    if answer.status == UNREADABLE and not os.path.isfile(model):
        raise Fault("%s: %s" % (model, "this is a folder" if os.path.isdir(model) else NO_FILE))
    raise Fault("%s: %s" % (model, answer.line or "status %d" % answer.status))


CHANGED: Dict[str, str] = {}  # the words for qss-explain by the path of each changed model that this process wrote


def way_to_place(model: str) -> str:
    """The command that shows the place of a refusal."""
    return " (tools/qss-explain %s shows the place)" % CHANGED.get(model, shlex.quote(model))
