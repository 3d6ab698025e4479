"""The transcript, read as docs/TRANSCRIPT.md says: its files and its calls with their answers."""
import os
import re
from collections import namedtuple

from support import ROOT

TRANSCRIPT = os.path.join(ROOT, "crates", "transcript")
SUM = ["$", "sum"]

ROOM = 1 << 18  # bytes of out, where nothing else is said

Call = namedtuple("Call", "words files answer summed fails room")
Call.__doc__ = "The words of a call, the files, its answer, that of a sum behind it or None, whether something was to fail, and the room of out."


def lines_of(name):
    """The lines of a file of the transcript, with one character for each byte."""
    with open(os.path.join(TRANSCRIPT, name), encoding="latin-1") as file:
        return file.read().split("\n")[:-1]


def answered():
    """Each line of the script with what it answers."""
    script, answers, place = lines_of("stdin"), lines_of("stdout"), 0
    for line, following in zip(script, script[1:] + [None]):
        if answers[place] != line:
            raise ValueError("the line %r is not in stdout" % line)
        begin = place = place + 1
        while place < len(answers) and answers[place] != following:
            place += 1
        yield line, "".join(one + "\n" for one in answers[begin:place])


def words_of(line):
    """The words of a line, which blanks separate."""
    return [word for word in re.split("[ \t]+", line) if word]


def plain(word):
    return word.replace('""', "").replace("\\s", " ").replace("\\n", "\n")


class Files:
    """Texts with names; the last one that was begun grows."""

    def __init__(self):
        self.texts = {}
        self.newest = None

    def edit(self, line):
        """Does what a line says, where it speaks of files."""
        mark, _, rest = line.partition(" ")
        words = words_of(rest)
        if mark == "file":
            self.newest, self.texts[words[0]] = words[0], ""
        elif mark in ("|", "+"):
            self.texts[self.newest] += rest + ("\n" if mark == "|" else "")
        elif mark == "repeat":
            self.texts[self.newest] += plain(words[1]) * int(words[0])
        elif mark == "front":
            self.texts[self.newest] += self.texts[words[1]][: int(words[0])]
        elif mark == "copy":
            self.texts[self.newest] += self.texts[words[0]]
        elif mark == "change":
            self.texts[self.newest] = self.texts[self.newest].replace(plain(words[0]), plain(words[1]))


def calls():
    """The calls of the program in their order. What a call writes into a file is not known: it is left empty."""
    files, fails, room = Files(), False, ROOM
    lines = list(answered())
    for (line, answer), (following, told) in zip(lines, lines[1:] + [("", "")]):
        words = words_of(line)
        if words[:2] == ["$", "qss"]:
            summed = None
            if words[-2] == ">":
                files.edit("file " + words[-1])
                summed = told if words_of(following)[:2] == SUM else None
            yield Call(words[2:], files.texts, answer, summed, fails, room)
            fails, room = False, ROOM
        elif words[:1] == ["fail"]:
            fails = True
        elif words[:1] == ["room"]:
            room = int(words[1])
        elif words[:1] not in (["$"], ["#"]):
            files.edit(line)
