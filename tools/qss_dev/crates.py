"""The crates of a checkout: what each depends on, where a build puts them, and how the kit's prover is called."""
import contextlib
import hashlib
import os
import subprocess
from typing import Dict, List, Sequence, Set

from qss_tools.fault import Fault

# The crate of the program.
PROGRAM = "qss"
# The crates of the theorems about the program, its answers and the language, which the build proves too.
THEOREMS = ("qss_guarantees", "qss_theorems", "mu_meaning")
# The status of a build that fails.
FAILED = 9
# How many lines of output a failed build reports.
LAST = 20
# What the program is linked for.
TARGET = "x86_64-unknown-linux-gnu"

Below = Dict[str, List[str]]  # the crates that each crate names


def failed(why: str, lines: Sequence[str] = ()) -> Fault:
    """The fault of a build, with the last lines of the command that failed."""
    return Fault(why, [line.rstrip("\n") for line in lines[-LAST:]], FAILED)


def below_each(root: str) -> Below:
    """Of each crate of crates.txt, what it names there."""
    below = {}
    with open(f"{root}/crates.txt", encoding="utf-8") as file:
        for line in file:
            head, colon, tail = line.partition("#")[0].partition(":")
            if colon and head.split():
                below[head.split()[0]] = tail.split()
    return below


def needed(below: Below, top: str) -> Set[str]:
    """The crates on which a crate depends, and the crate itself."""
    reached, left = set(), [top]
    while left:
        name = left.pop()
        if name in below and name not in reached:
            reached.add(name)
            left += below[name]
    return reached


def sources(root: str, crate: str, part: str) -> List[str]:
    """The files of a crate in src, specs or proofs, by name."""
    found = []
    for folder, _, files in os.walk(f"{root}/crates/{crate}/{part}"):
        found += [f"{folder}/{it}" for it in files]
    return sorted(found)


def lines_in(root: str, crate: str, part: str) -> int:
    """The lines of a crate's files in src, specs or proofs."""
    count = 0
    for path in sources(root, crate, part):
        with open(path, "rb") as file:
            count += sum(1 for _ in file)
    return count


def sum_of(path: str) -> str:
    with open(path, "rb") as file:
        return hashlib.sha256(file.read()).hexdigest()


def asked(word: str) -> str:
    """What rt says to a word."""
    try:
        said = subprocess.run(["rt", word], capture_output=True, text=True, check=False)
    except OSError as why:
        raise failed(f"rt, the command of the Rattle kit, cannot be started: {why.strerror}")
    if said.returncode:
        raise failed(f"rt {word} fails; its last lines:", said.stderr.splitlines())
    return said.stdout.strip()


class Kit:
    """The Rattle kit that rt belongs to: its folder, and the line that identifies it."""

    def __init__(self) -> None:
        self.folder = os.path.dirname(asked("doc"))
        self.version = asked("version")


class Crates:
    """The crates of the program: what each depends on, where it is built, and whether what is there was built from its
    sources.
    """

    def __init__(self, root: str, kit: Kit) -> None:
        self.root, self.kit, self.below = root, kit, below_each(root)
        tops = [it for it in (PROGRAM, *THEOREMS) if it in self.below]
        self.every = set().union(*(needed(self.below, it) for it in tops))

    def folder(self, name: str) -> str:
        return f"{self.root}/crates/{name}"

    def place(self, name: str) -> str:
        """Where a crate is built."""
        return f"{self.folder(name)}/out/statements"

    def built(self, name: str) -> str:
        """What is built of a crate: the statements of a library, or the program's object file."""
        return f"{self.place(name)}/{name}.{'o' if name == PROGRAM else 'rlib'}"

    def program(self) -> str:
        return f"{self.folder(PROGRAM)}/out/{PROGRAM}"

    def mark(self, name: str) -> str:
        """The file that states from what a crate was built."""
        return f"{self.place(name)}/{name}.mark"

    def stamp(self, name: str, known: Dict[str, str]) -> str:
        """A checksum of a crate's sources, of what it depends on, of the kit, and of how it is built."""
        if name not in known:
            total = hashlib.sha256(self.kit.version.encode())
            total.update("\n".join(self.words(name, 1)).replace(self.root, "").encode())
            for it in self.below[name]:
                total.update(f"{it} {self.stamp(it, known) if it in self.below else ''}\n".encode())
            for path in [it for part in ("src", "specs", "proofs") for it in sources(self.root, name, part)]:
                total.update(f"{os.path.relpath(path, self.root)} {sum_of(path)}\n".encode())
            known[name] = total.hexdigest()
        return known[name]

    def mark_text(self, name: str, stamp: str) -> str:
        """What the mark of a crate says that is built: of the program its own checksum too, since other commands may
        write it.
        """
        return f"{stamp} {sum_of(self.program())}" if name == PROGRAM else stamp

    def is_built(self, name: str, stamp: str) -> bool:
        try:
            with open(self.mark(name), encoding="ascii") as file:
                return os.path.exists(self.built(name)) and file.read() == self.mark_text(name, stamp)
        except OSError:
            return False

    def to_build(self) -> Dict[str, str]:
        """The crates that are not built, or were built from something else, with those that depend on one, and their
        checksums.
        """
        known: Dict[str, str] = {}
        changed = {it for it in self.every if not self.is_built(it, self.stamp(it, known))}
        return {it: known[it] for it in self.every if needed(self.below, it) & changed}

    def forget(self, name: str) -> None:
        """Takes a crate for one that is not built, whatever becomes of its build."""
        os.makedirs(self.place(name), exist_ok=True)
        with contextlib.suppress(FileNotFoundError):
            os.remove(self.mark(name))

    def note(self, name: str, stamp: str) -> None:
        """Notes that a crate is built, where its sources are still those of the checksum."""
        if self.stamp(name, {}) == stamp:
            with open(self.mark(name), "w", encoding="ascii") as file:
                file.write(self.mark_text(name, stamp))

    def words(self, name: str, jobs: int) -> List[str]:
        """The words by which rattle proves and builds a crate over the statements of those below it."""
        kit = self.kit.folder
        words = ["build", *self.words_over(name), "--jobs", str(jobs), "-o", self.built(name)]
        return words + (
            ["--toolchain", f"{kit}/toolchain", "--backend", "llvm"] if name == PROGRAM else ["--statements"]
        )

    def check_words(self, name: str, kept: str) -> List[str]:
        """The words by which rattle checks a crate in one job, and saves each checked module in a folder."""
        return ["check", *self.words_over(name), "--jobs", "1", "--incremental", kept]

    def words_over(self, name: str) -> List[str]:
        """The words that name a crate and the statements of those below it."""
        kit = self.kit.folder
        words = ["--crate-name", name, "src/main.rt" if name == PROGRAM else "src/lib.rt"]
        for it in ["std", *(it for it in self.below[name] if it not in self.below)]:
            words += ["--extern", f"{it}={kit}/rlibs/{it}.rlib"]
        for it in [it for it in self.below[name] if it in self.below]:
            words += ["--extern", f"{it}={self.built(it)}"]
        for it in [f"{kit}/rlibs", *(self.place(it) for it in sorted(needed(self.below, name) - {name}))]:
            words += ["-L", f"dependency={it}"]
        words += ["--antt-project", f"{kit}/rattle/logic/antt-project.json", "--logic-built", f"{kit}/logic_built"]
        return words + ["--links", f"{name}="]

    def link_words(self, to: str) -> List[str]:
        """The words by which rattle-link makes a program of the object file."""
        kit = self.kit.folder
        words = ["--target", TARGET, "--toolchain", f"{kit}/toolchain", "-o", to, self.built(PROGRAM)]
        return words + [f"{kit}/c/libos_c.a", f"{kit}/c/liblibc_c.a"]
