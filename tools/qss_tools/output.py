"""Output that is written completely or not at all."""
import os
import shutil
import sys
import tempfile
from typing import IO, Optional, Type

from .fault import Fault, read_bytes, unreadable

IN_MEMORY = 1 << 27  # bytes that are held in memory before they go to a temporary file


class Output:
    """A file, or standard output for None, that is written only at the end, if no fault occurred."""

    def __init__(self, path: Optional[str]) -> None:
        self.path = path
        self.held = tempfile.SpooledTemporaryFile(IN_MEMORY)

    def write(self, text: str) -> None:
        self.held.write(text.encode())

    def write_bytes(self, data: bytes) -> None:
        self.held.write(data)

    def finish(self) -> None:
        """Passes on all that was written."""
        self.held.seek(0)
        if self.path is None:
            sys.stdout.flush()
            shutil.copyfileobj(self.held, sys.stdout.buffer)
            sys.stdout.buffer.flush()
            return
        write_whole(self.path, self.held)

    def __enter__(self) -> "Output":
        return self

    def __exit__(self, kind: Optional[Type[BaseException]], error: object, trace: object) -> None:
        try:
            if kind is None:
                self.finish()
        finally:
            self.held.close()


def write_between(path: str, begin: str, end: str, text: str) -> None:
    """Puts a text into a page between two lines of it."""
    page = read_bytes(path).decode()
    if begin not in page or end not in page:
        raise Fault("%s: the lines around the table are missing" % path)
    with Output(path) as output:
        output.write(page[: page.index(begin) + len(begin)] + text + page[page.index(end) :])


def write_whole(path: str, held: IO[bytes]) -> None:
    """Writes a file under its name when it is complete."""
    folder = os.path.dirname(os.path.abspath(path))
    if os.path.isdir(path):
        raise Fault("%s: this is a folder" % path)
    try:
        handle, partial = tempfile.mkstemp(prefix=".qss-", dir=folder)
    except OSError as error:
        raise unreadable(path, error) from error
    try:
        with os.fdopen(handle, "wb") as file:
            shutil.copyfileobj(held, file)
        os.chmod(partial, 0o644)
        os.replace(partial, path)
    except OSError as error:
        os.unlink(partial)
        raise unreadable(path, error) from error
