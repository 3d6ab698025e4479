"""Work that goes on after an interruption: its lines are kept in a file as they are computed."""
from typing import List, TextIO

from ..fault import Fault, unreadable


class Part:
    """The lines of a work that is not at its end. The first line of the file identifies the work."""

    def __init__(self, path: str, head: str, kind: str, may_replace: bool = False) -> None:
        """`may_replace`: the lines of another work are dropped."""
        self.path, self.head = path, head
        self.lines: List[str] = []
        try:
            with open(path, encoding="utf-8", newline="\n") as file:
                kept = file.read().splitlines(True)
        except FileNotFoundError:
            return
        except OSError as error:
            raise unreadable(path, error) from error
        except UnicodeDecodeError as error:
            raise Fault("%s: not a %s" % (path, kind)) from error
        if kept[:1] != [head]:
            if may_replace:
                return
            raise Fault("%s: this is of another %s: remove it, or name another table" % (path, kind))
        self.lines = [line for line in kept[1:] if line.endswith("\n")]

    def opened(self) -> TextIO:
        """The file, with its whole lines, to write the next ones."""
        try:
            file = open(self.path, "w", encoding="utf-8", newline="\n")
        except OSError as error:
            raise unreadable(self.path, error) from error
        file.write(self.head + "".join(self.lines))
        file.flush()
        return file
