"""Where the processor time of a crate's proof goes: by function, and by kind of module.

With `--incremental FOLDER` the prover saves each module as soon as it is checked. The modules are checked one after the
other in one job, so a module took the processor time that passed between the save before it and its own. The modules of
a function are, beside others: `Lts`, the paths through its code; `Proof`, the search on goals without an answer; and
`Answers` and `Invariants`, what is written by hand.
"""
import bisect
import contextlib
import os
import signal
import subprocess
import tempfile
import threading
import time
from dataclasses import dataclass, field
from typing import Dict, Iterable, Iterator, List, Sequence, Tuple

from qss_tools.fault import Fault

from .crates import LAST, Crates, needed

TICKS = os.sysconf("SC_CLK_TCK")
PAGE = os.sysconf("SC_PAGE_SIZE")
INTERVAL = 0.05  # seconds between two looks at the processor time
SAVED, DECLARED = ".oantt", ".decls.oantt"
PATHS, SEARCH, ANSWERS, LEMMAS, OTHER = "generated paths", "search", "answers", "lemma files", "other generated"
KINDS = (PATHS, SEARCH, ANSWERS, LEMMAS, OTHER)
KIND_OF = {"Lts": PATHS, "Proof": SEARCH, "Answers": ANSWERS, "Invariants": ANSWERS}
# Each function has these modules.
OF_FUNCTION = ("Lts", "Code")

Words = Tuple[str, ...]  # the name of a module below `proofs`
Saves = Sequence[Tuple[float, str]]  # when each module was saved, and its name
Looks = Sequence[Tuple[float, float]]  # times, and the processor time up to then


@dataclass
class Times:
    """The processor times of one crate, in seconds: of its functions by kind, of its lemma files, and of the rest."""

    crate: str
    seconds: float = 0.0
    memory: int = 0
    functions: Dict[str, Dict[str, float]] = field(default_factory=dict)
    lemmas: Dict[str, float] = field(default_factory=dict)
    rest: float = 0.0  # loading, contracts, definitions and types
    slowest: Tuple[float, str] = (0.0, "")  # of the modules of functions

    def of_kind(self, kind: str) -> float:
        """The time of all modules of a kind."""
        return sum(it[kind] for it in self.functions.values()) + (sum(self.lemmas.values()) if kind == LEMMAS else 0)


def saves_in(folder: str) -> List[Tuple[float, str]]:
    """The modules that a proof saved, in their order."""
    found = []
    for place, _, names in os.walk(folder):
        for name in names:
            if name.endswith(SAVED) and not name.endswith(DECLARED):
                found.append((os.stat(os.path.join(place, name)).st_mtime_ns / 1e9, name[: -len(SAVED)]))
    return sorted(found)


def spent_at(looks: Looks, when: float) -> float:
    """The processor time up to a time, on the line between two looks."""
    place = bisect.bisect(looks, (when, float("inf")))
    if place in (0, len(looks)):
        return looks[min(place, len(looks) - 1)][1]
    (before, low), (after, high) = looks[place - 1], looks[place]
    return low + (high - low) * (when - before) / (after - before)


def words_of(crate: str, name: str) -> Words:
    """The words of a module below `proofs`, or none of another module."""
    head = f"Rattle-{crate}-proofs."
    return tuple(name[len(head) :].split(".")) if name.startswith(head) else ()


def functions_of(modules: Iterable[Words]) -> List[Words]:
    """The functions to which modules belong."""
    found = set()
    for words in modules:
        at = next((place for place, word in enumerate(words) if place and word in OF_FUNCTION), 0)
        if at:
            found.add(words[:at])
    return sorted(found)


def times_of(crate: str, saves: Saves, looks: Looks, lemma_files: Iterable[Words]) -> Times:
    """The times of a crate from what was saved, from the processor time, and from the names of its lemma files."""
    found, files = Times(crate, looks[-1][1] if looks else 0.0), set(lemma_files)
    names = [words_of(crate, name) for _, name in saves]
    functions = set(functions_of(names))
    before = 0.0
    for (when, _), words in zip(saves, names):
        now = spent_at(looks, when)
        taken, before = now - before, now
        own = next((words[:many] for many in range(len(words), 0, -1) if words[:many] in functions), ())
        if own:
            add(found, own, words, taken, words in files)
        elif words in files:
            found.lemmas[".".join(words)] = taken
    inner = sum(sum(it.values()) for it in found.functions.values()) + sum(found.lemmas.values())
    found.rest = found.seconds - inner
    return found


def add(found: Times, function: Words, words: Words, taken: float, is_file: bool) -> None:
    """Adds the time of a module to its function."""
    first = words[len(function)] if len(words) > len(function) else ""
    kind = KIND_OF.get(first, LEMMAS if is_file else OTHER)
    row = found.functions.setdefault("::".join(function), dict.fromkeys(KINDS, 0.0))
    row[kind] += taken
    found.slowest = max(found.slowest, (taken, "::".join(function) + (f" ({first})" if first else "")))


def lemma_files(folder: str) -> List[Words]:
    """The files of a crate's proofs, as names of modules."""
    found = []
    for place, _, names in os.walk(folder):
        inner = os.path.relpath(place, folder).split(os.sep) if place != folder else []
        found += [(*inner, name[: -len(".antt")]) for name in names if name.endswith(".antt")]
    return found


def look(pid: int) -> Tuple[float, int]:
    """The processor time of a process with its ended children, in seconds, and its memory in bytes."""
    with open(f"/proc/{pid}/stat", "rb") as file:
        # (the second field, in brackets, may hold blanks)
        fields = file.read().rpartition(b")")[2].split()
    return sum(int(it) for it in fields[11:15]) / TICKS, PAGE * int(fields[21])


def measured(child: "subprocess.Popen[str]") -> Tuple[List[Tuple[float, float]], int]:
    """Looks at a process until it ends; the looks, and the most memory that was seen. The process is not waited for."""
    looks: List[Tuple[float, float]] = [(time.time(), 0.0)]
    memory, ended = 0, False
    while not ended:
        ended = os.waitid(os.P_PID, child.pid, os.WEXITED | os.WNOHANG | os.WNOWAIT) is not None
        spent, size = look(child.pid)
        looks.append((time.time(), spent))
        memory = max(memory, size)
        if not ended:
            time.sleep(INTERVAL)
    return looks, memory


def check_below(crates: Crates, crate: str) -> None:
    """That the statements below a crate are there, and are those of the sources."""
    if crate not in crates.below or not os.path.isdir(f"{crates.folder(crate)}/src"):
        raise Fault(f"crates/{crate} is no crate here")
    known: Dict[str, str] = {}
    for it in sorted(needed(crates.below, crate) - {crate}):
        if not crates.is_built(it, crates.stamp(it, known)):
            raise Fault(f"the statements of {it}, below {crate}, are not built from these sources: ./prove builds them")


@contextlib.contextmanager
def at_work(words: Sequence[str], folder: str) -> "Iterator[Tuple[subprocess.Popen[str], List[str]]]":
    """A command at work in a folder, and the lines that it prints. It is stopped if something else fails."""
    try:
        child = subprocess.Popen(
            words, cwd=folder, text=True, errors="replace", stdout=subprocess.PIPE, stderr=subprocess.STDOUT
        )
    except OSError as why:
        raise Fault(f"{words[0]} cannot be started: {why.strerror}") from None
    lines: List[str] = []
    reader = threading.Thread(target=lambda: lines.extend(child.stdout or ()), daemon=True)
    with child:
        reader.start()
        try:
            yield child, lines
        finally:
            child.kill()
            reader.join()


def measure(crates: Crates, crate: str) -> Times:
    """Checks a crate from nothing in one job, over the statements that the build left."""
    folder = crates.folder(crate)
    with tempfile.TemporaryDirectory(prefix="gate-times-") as kept:
        words = [f"{crates.kit.folder}/bin/rattle", *crates.check_words(crate, kept)]
        with at_work(words, folder) as (child, lines):
            looks, memory = measured(child)
        if child.returncode:
            ended = f"status {child.returncode}" if child.returncode > 0 else signal.Signals(-child.returncode).name
            raise Fault(f"{crate} is not proved ({ended}); its last lines:", [it.rstrip() for it in lines[-LAST:]])
        found = times_of(crate, saves_in(kept), looks, lemma_files(f"{folder}/proofs"))
    found.memory = memory
    return found


def table_of_functions(times: Times, most: int) -> List[str]:
    """The slowest functions of a crate, and its slowest lemma files."""
    lines = [
        f"| function of {times.crate} | processor seconds | {' | '.join(KINDS)} |",
        "|---|---|" + "---|" * len(KINDS),
    ]
    ordered = sorted(times.functions.items(), key=lambda it: -sum(it[1].values()))
    for name, row in ordered[:most]:
        lines.append(line(f"`{name}`", [sum(row.values()), *(row[kind] for kind in KINDS)]))
    every = [sum(row[kind] for row in times.functions.values()) for kind in KINDS]
    lines.append(line(f"all {len(ordered)}", [sum(every), *every]))
    lines += ["", f"| lemma file of {times.crate} | processor seconds |", "|---|---|"]
    files = sorted(times.lemmas.items(), key=lambda it: -it[1])
    lines += [line(f"`{name}`", [spent]) for name, spent in files[:most]]
    lines.append(line(f"all {len(files)}", [sum(times.lemmas.values())]))
    return [
        *lines,
        "",
        f"Loading, contracts, definitions and types: {times.rest:.1f} s. The whole proof: {times.seconds:.1f} s.",
    ]


def table_of_crates(every: Sequence[Times]) -> List[str]:
    """The crates, the slowest one first: the time of each in one job, by kind, with its slowest module."""
    heads = [
        "crate",
        "functions",
        "processor seconds",
        *KINDS,
        "loading and the rest",
        "memory (GB)",
        "slowest module",
    ]
    lines = [f"| {' | '.join(heads)} |", "|---" * len(heads) + "|"]
    for one in sorted(every, key=lambda it: -it.seconds):
        kinds = [one.of_kind(kind) for kind in KINDS]
        spent, name = one.slowest
        slowest = f"`{name}` {spent:.1f}" if name else ""
        row = line(one.crate, [one.seconds, *kinds, one.rest, one.memory / 1e9], len(one.functions))
        lines.append(f"{row} {slowest} |")
    sums = [sum(it.of_kind(kind) for it in every) for kind in KINDS]
    total, rest = sum(it.seconds for it in every), sum(it.rest for it in every)
    count, memory = sum(len(it.functions) for it in every), max((it.memory for it in every), default=0) / 1e9
    return [*lines, line(f"all {len(every)}", [total, *sums, rest, memory], count) + " |"]


def line(head: str, numbers: Sequence[float], *before: int) -> str:
    """A line of a table."""
    return f"| {' | '.join([head, *map(str, before), *(f'{it:.1f}' for it in numbers)])} |"
