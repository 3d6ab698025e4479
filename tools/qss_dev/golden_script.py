"""The script of the golden test: its files, its calls, and the expected answer to each call.

docs/TRANSCRIPT.md has the syntax. The expected output repeats each line of the script, with the answers between them.
"""
import re
from dataclasses import dataclass, field
from typing import Callable, Dict, Iterator, List, Sequence, Tuple, Union

from qss_tools.fault import Fault

# The capacity of standard output in bytes, unless the script sets it.
ROOM = 1 << 18

Text = Callable[[], bytes]  # the bytes of a file; those that a call writes are there when the call has ended


@dataclass
class Settings:
    """What the next call meets: the capacity of its output, and the operations that fail, by stream."""

    room: int = ROOM
    fails: Dict[str, List[int]] = field(default_factory=lambda: {"shelf": [], "out": [], "err": []})


@dataclass
class Call:
    """A call of the program: its line, its words, its files, the name of its output, and its expected answer."""

    number: int
    line: str
    words: List[str]
    files: Dict[str, Text]
    settings: Settings
    expected: bytes
    keeps: str = ""

    @property
    def status(self) -> int:
        """The expected status."""
        found = re.search(rb"(?:^|\n)\[status (\d+)\]\n\Z", self.expected)
        return int(found[1]) if found else 0

    @property
    def output(self) -> bytes:
        """The expected standard output, where it is printed."""
        text = re.sub(rb"\[status \d+\]\n\Z", b"", self.expected) if self.status else self.expected
        text = re.sub(rb"(\A|\n)! [^\n]*\n\Z", rb"\1", text)
        return text[:-2] if text.endswith(b"\\\n") else text


@dataclass
class Sum:
    """The length and the digest of a file."""

    number: int
    line: str
    text: Text
    expected: bytes


@dataclass
class Prefixes:
    """Calls with the same words on each prefix of a file."""

    number: int
    line: str
    name: str
    words: List[str]
    text: Text
    expected: bytes


Step = Union[Call, Sum, Prefixes]


def plain(word: str) -> bytes:
    """What a word of the script denotes: two quotes denote nothing, `\\s` a blank and `\\n` a line feed."""
    return word.replace('""', "").replace("\\s", " ").replace("\\n", "\n").encode()


def with_answers(script: Sequence[str], output: bytes) -> Iterator[Tuple[int, str, bytes]]:
    """Each line of the script with its number and with the answer after it."""
    place, begun = 0, 0
    for number, line in enumerate(script, 1):
        if not line.startswith("$ "):
            continue
        # (up to the next call the output repeats the script)
        block = "".join(it + "\n" for it in script[begun:number]).encode()
        if not output.startswith(block, place):
            raise Fault(f"crates/transcript/stdout: line {number} of stdin does not follow")
        place += len(block)
        following = next((k for k in range(number, len(script)) if script[k].startswith("$ ")), len(script) - 1)
        block = "".join(it + "\n" for it in script[number : following + 1]).encode()
        end = place if output.startswith(block, place) else output.find(b"\n" + block, place) + 1
        if not block:
            end = len(output)
        elif end == 0:
            raise Fault(f"crates/transcript/stdout: line {number + 1} of stdin does not follow")
        yield from ((k, script[k - 1], b"") for k in range(begun + 1, number))
        yield number, line, output[place:end]
        begun, place = number, end
    rest = script[begun:]
    if output[place:] != "".join(it + "\n" for it in rest).encode():
        raise Fault("crates/transcript/stdout: the end of stdin does not follow")
    yield from ((begun + k, line, b"") for k, line in enumerate(rest, 1))


class Script:
    """Reads a script line by line: keeps the newest file of each name, and yields the steps with an answer."""

    def __init__(self) -> None:
        self.files: Dict[str, Text] = {}
        self.newest = ""
        self.parts: List[bytes] = []
        self.settings = Settings()

    def steps(self, script: Sequence[str], output: bytes) -> Iterator[Step]:
        """The calls, sums and prefixes of the script."""
        for number, line, expected in with_answers(script, output):
            mark, _, rest = line.partition(" ")
            try:
                if mark == "$":
                    yield self.step(number, line, line.split(), expected)
                elif mark in ("fail", "room"):
                    self.set(line.split())
                elif mark not in ("", "#"):
                    self.edit(mark, rest, line.split())
            except (ValueError, KeyError, IndexError) as why:
                raise Fault(f"crates/transcript/stdin:{number}: this is no line of a script") from why

    def step(self, number: int, line: str, words: List[str], expected: bytes) -> Step:
        """A line that begins with `$`."""
        if words[1] == "sum":
            return Sum(number, line, self.files[words[2]], expected)
        if words[1] == "fronts":
            return Prefixes(number, line, words[2], words[3:], self.files[words[2]], expected)
        if words[1] != "qss":
            raise ValueError
        settings, self.settings = self.settings, Settings()
        words, keeps = (words[2:-2], words[-1]) if len(words) > 3 and words[-2] == ">" else (words[2:], "")
        files = {word: self.files[word] for word in words if word in self.files}
        return Call(number, line, words, files, settings, expected, keeps)

    def keep(self, name: str, text: Text) -> None:
        """Makes the output of a call the newest file."""
        self.files[name], self.newest = text, name

    def set(self, words: Sequence[str]) -> None:
        """A setting of the next call."""
        if words[0] == "room":
            self.settings.room = int(words[1])
        else:
            self.settings.fails[words[1]].append(int(words[2]))

    def edit(self, mark: str, rest: str, words: Sequence[str]) -> None:
        """Begins a file, or changes the newest one."""
        if mark == "file":
            self.keep(words[1], lambda: b"")
        elif mark == "change":
            self.put(self.files[self.newest]().replace(plain(words[1]), plain(words[2])))
        else:
            self.put(self.files[self.newest]() + self.piece(mark, rest, words))

    def piece(self, mark: str, rest: str, words: Sequence[str]) -> bytes:
        """What a line appends to the newest file."""
        if mark == "|":
            return rest.encode() + b"\n"
        if mark == "+":
            return rest.encode()
        if mark == "repeat":
            return plain(words[2]) * int(words[1])
        if mark == "front":
            return self.files[words[2]]()[: int(words[1])]
        if mark == "copy":
            return self.files[words[1]]()
        raise ValueError

    def put(self, text: bytes) -> None:
        """Gives the newest file another text."""
        self.files[self.newest] = lambda: text
