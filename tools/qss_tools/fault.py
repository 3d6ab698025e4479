"""How every tool reads its arguments, reports a fault and ends.

A tool ends with status 0 (all was done), 1 (all was done, and there is something to look at) or 2 (wrong arguments or a
fault: one line on standard error, and nothing was written). The --help of a tool lists its statuses.
"""
import argparse
import os
import signal
import sys
from typing import Any, Callable, Dict, NoReturn, Optional, Sequence

from .arrays import use_one_with
from .installed import for_user

FINE = 0
WARNED = 1  # all was done, and there is something to look at
FAULTY = 2  # a fault or wrong arguments: nothing was written

NO_FILE = "there is no such file"
LABELS: Dict[str, str] = {}  # what is shown in place of the path of a temporary file

Tool = Callable[[Sequence[str]], int]


class Fault(Exception):
    """Why a tool fails: one line, the lines of another program that explain it, and the status of the tool."""

    def __init__(self, message: str, lines: Sequence[str] = (), status: int = FAULTY):
        super().__init__(message)
        self.lines = lines
        self.status = status


def labelled(text: str) -> str:
    """A text with the names of the models in place of the paths of temporary files."""
    for path, label in LABELS.items():
        text = text.replace(path, label)
    return text


def unreadable(name: str, error: OSError) -> Fault:
    """The fault of a file that could not be read or written."""
    missing = isinstance(error, FileNotFoundError) or not error.strerror
    return Fault("%s: %s" % (name, NO_FILE if missing else str(error.strerror).lower()))


def read_bytes(name: str) -> bytes:
    """The bytes of a file."""
    try:
        with open(name, "rb") as file:
            return file.read()
    except OSError as error:
        raise unreadable(name, error) from error


def read_text(name: str) -> str:
    """The text of a file in UTF-8."""
    try:
        with open(name, encoding="utf-8") as file:
            return file.read()
    except OSError as error:
        raise unreadable(name, error) from error


class Arguments(argparse.ArgumentParser):
    """The arguments of a tool. The description is printed as it is. A wrong argument is reported in one line."""

    def __init__(self, prog: str, description: str, **options: Any) -> None:
        options.setdefault("formatter_class", argparse.RawDescriptionHelpFormatter)
        super().__init__(prog=prog, description=for_user(description), **options)

    def error(self, message: str) -> NoReturn:
        print("%s: %s (see %s --help)" % (self.prog, message, self.prog), file=sys.stderr)
        sys.exit(FAULTY)


def run_tool(
    name: str, tool: Tool, arguments: Optional[Sequence[str]] = None, numeric: bool = False, package: str = "numpy"
) -> int:
    """Runs a tool with these arguments, or those of the process, and returns its status. A numeric tool of the process
    is run by an interpreter that has numpy, or another package, if there is one.
    """
    try:
        if arguments is None:
            # (`kill` and Ctrl-C end a tool alike: files of its own are removed, and its processes end)
            for number in (signal.SIGINT, signal.SIGTERM):
                signal.signal(number, signal.default_int_handler)
            if numeric:
                use_one_with(package)
        status = tool(sys.argv[1:] if arguments is None else arguments)
        sys.stdout.flush()
    except Fault as fault:
        lines = ["%s: %s" % (name, " ".join(labelled(str(fault)).split())), *fault.lines]
        print(*map(for_user, lines), sep="\n", file=sys.stderr)
        status = fault.status
    except BrokenPipeError:
        os.dup2(os.open(os.devnull, os.O_WRONLY), sys.stdout.fileno())
        status = FAULTY
    except OSError as error:
        print("%s: %s" % (name, (error.strerror or "input or output failed").lower()), file=sys.stderr)
        status = FAULTY
    except KeyboardInterrupt:
        print("%s: interrupted" % name, file=sys.stderr)
        status = FAULTY
    return status
