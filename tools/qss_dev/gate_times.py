"""Measures the time of the gate: the processor seconds of each crate's proof, tests and must-fail edits.

  tools/gate-times [--save FILE] [--edits] COMMAND ..  runs rt ci, must-fail, check or all, and prints the table
  tools/gate-times [--edits] --from FILE               prints the table of a run that was saved
  tools/gate-times --functions CRATE [--most N]        proves the crate from nothing, one job, and prints its slowest
                                                       functions and lemma files
  tools/gate-times --crates [--at-once N] [CRATE ..]   proves each crate from nothing, one job, and prints the table of
                                                       all crates

The output and the status are those of the command, with its errors in its output. The table follows on standard output.
Times are processor times, user and system together, of the kit's prover and of all that it starts. They are read four
times a second, so a step may miss up to a quarter of a second. A crate whose results rt has kept from an earlier run
takes no time and is marked as kept: rt ci --anew proves all. --edits lists each edit with its time and its verdict, the
longest time first.

--functions and --crates check a crate over the statements that ./prove left in crates/*/out/statements, and build
nothing. A time is that of modules which the prover checks: of the paths through the code of a function (they depend on
the code and the contract), of the search on goals without an answer, of answers, and of lemma files. With --crates one
crate is checked after the other, or N at once.
"""
import argparse
import json
import os
import re
import subprocess
import sys
import threading
import time
from concurrent.futures import ThreadPoolExecutor
from typing import Any, Dict, List, Optional, Sequence, Set, Tuple

from qss_tools.fault import FINE, Arguments, Fault, run_tool, unreadable

from .crates import Crates, Kit
from .module_times import check_below, measure, table_of_crates, table_of_functions

INTERVAL = 0.25
TICKS = os.sysconf("SC_CLK_TCK")
PAGE = os.sysconf("SC_PAGE_SIZE")
KINDS = ("proof", "tests", "seed", "edits", "other")
EDIT = re.compile(r"/rt-edits-[^/]+/(seed|\d+)$")
VERDICT = re.compile(r"^rt: must-fail ([^/\s]+)/(\S+)\.edit: (refused|NOT REFUSED|BAD EDIT|NOT TRIED)")
KEPT = re.compile(r"^rt: (\S+) is kept: ")
Processes = Dict[int, Tuple[int, int, int, int]]  # by id: its parent, its start, its ticks and its memory


def read(path: str) -> bytes:
    try:
        with open(path, "rb") as file:
            return file.read()
    except OSError:
        return b""


def processes() -> Processes:
    """Each process by its id: its parent, when it started, its time in ticks with that of its ended children, its
    memory in bytes.
    """
    found = {}
    for name in os.listdir("/proc"):
        if name.isdigit():
            # (the second field, in brackets, may hold blanks)
            fields = read(f"/proc/{name}/stat").rpartition(b")")[2].split()
            if len(fields) > 21:
                ticks = sum(int(it) for it in fields[11:15])
                found[int(name)] = int(fields[1]), int(fields[19]), ticks, PAGE * int(fields[21])
    return found


def below(found: Processes, top: int) -> List[int]:
    """The processes that a process started, directly or not."""
    children: Dict[int, List[int]] = {}
    for pid, (parent, *_) in found.items():
        children.setdefault(parent, []).append(pid)
    reached: List[int] = []
    left = [top]
    while left:
        more = children.get(left.pop(), [])
        reached += more
        left += more
    return reached


class Step:
    """One run of the prover: what it is for, and the most processor time that it was seen to have taken."""

    def __init__(self, words: Sequence[str], folder: str) -> None:
        self.crate, self.kind, self.ticks = "", "other", 0
        self.edit: Optional[int] = None
        if "--crate-name" in words[:-1]:
            self.crate = words[words.index("--crate-name") + 1]
        kept = words[words.index("--incremental") + 1] if "--incremental" in words[:-1] else ""
        of_edits = EDIT.search(kept)
        if "--test" in words:
            self.kind = "tests"
        elif of_edits:
            self.kind = "seed" if of_edits[1] == "seed" else "edits"
            self.edit = None if of_edits[1] == "seed" else int(of_edits[1])
        elif os.path.basename(folder).startswith("rt-edit-"):
            self.kind = "edits"
        elif words[1] in ("check", "build") and not {"--only", "--crate-checked"} & set(words):
            self.kind = "proof"


def step_of(pid: int) -> Optional[Step]:
    """The step that a process is, or None where it is no run of the prover (or not yet)."""
    words = [it.decode(errors="replace") for it in read(f"/proc/{pid}/cmdline").split(b"\0")[:-1]]
    if len(words) < 2 or os.path.basename(words[0]) != "rattle":
        return None
    try:
        return Step(words, os.readlink(f"/proc/{pid}/cwd"))
    except OSError:
        return Step(words, "")


class Watch:
    """Reads the times of what a command starts, until `stop` is called."""

    def __init__(self, top: int) -> None:
        self.top, self.memory, self.ends = top, 0, threading.Event()
        self.steps: Dict[Tuple[int, int], Step] = {}
        self.thread = threading.Thread(target=self.run, daemon=True)
        self.thread.start()

    def run(self) -> None:
        while not self.ends.wait(INTERVAL):
            self.look()

    def look(self) -> None:
        found = processes()
        every = below(found, self.top)
        self.memory = max(self.memory, sum(found[it][3] for it in every))
        inner: Set[int] = set()
        # (a process comes before those that it started)
        for pid in every:
            if pid in inner:
                continue
            key = pid, found[pid][1]
            step = self.steps.get(key) or step_of(pid)
            if step:
                self.steps[key] = step
                parts = below(found, pid)
                inner.update(parts)
                step.ticks = max(step.ticks, sum(found[it][2] for it in [pid, *parts]))

    def stop(self) -> None:
        self.ends.set()
        self.thread.join()


def root_above(folder: str) -> str:
    while not os.path.isfile(f"{folder}/crates.txt"):
        if folder == "/":
            raise Fault("no crates.txt here or above: go to a checkout of the repository")
        folder = os.path.dirname(folder)
    return folder


def edits_of(root: str, crate: str) -> List[str]:
    """The names of a crate's edits, in the order in which rt numbers them."""
    folder = f"{root}/crates/{crate}/must-fail"
    return (
        sorted(it[: -len(".edit")] for it in os.listdir(folder) if it.endswith(".edit"))
        if os.path.isdir(folder)
        else []
    )


def started(words: Sequence[str], **how: Any) -> "subprocess.Popen[str]":
    try:
        return subprocess.Popen(
            words, stdout=subprocess.PIPE, stderr=subprocess.STDOUT, text=True, errors="replace", **how
        )
    except OSError as why:
        raise Fault(f"{words[0]} cannot be started: {why.strerror}") from None


def run(words: Sequence[str], root: str) -> Dict[str, Any]:
    """Runs a command, passes on what it prints, and returns what it took and its status."""
    begun = time.monotonic()
    lines: List[str] = []
    with started(words) as child:
        watch = Watch(child.pid)
        try:
            for line in child.stdout or ():
                print(line, end="", flush=True)
                lines.append(line)
        except KeyboardInterrupt:
            # (the command has the same signal, and ends by itself)
            print("gate-times: interrupted: the table is of what was seen", file=sys.stderr)
    watch.stop()
    verdicts = [it for it in map(VERDICT.match, lines) if it]
    return {
        "command": words,
        "status": child.returncode,
        "seconds": time.monotonic() - begun,
        "memory": watch.memory,
        "processors": len(os.sched_getaffinity(0)),
        "kept": [crate for line in lines for crate in KEPT.findall(line)],
        "verdicts": {f"{it[1]}/{it[2]}": it[3] for it in verdicts},
        "steps": [saved_step(root, step) for step in watch.steps.values()],
    }


def saved_step(root: str, step: Step) -> Dict[str, Any]:
    """A step as --save writes it, with the name of its edit."""
    names = edits_of(root, step.crate) if step.edit is not None else []
    edit = names[step.edit] if step.edit is not None and step.edit < len(names) else None
    return {"crate": step.crate, "kind": step.kind, "edit": edit, "seconds": step.ticks / TICKS}


def table(said: Dict[str, Any]) -> List[str]:
    """The lines of a saved or just ended run's table."""
    sums: Dict[str, Dict[str, float]] = {}
    edits: Dict[str, List[float]] = {}
    for step in said["steps"]:
        row = sums.setdefault(step["crate"] or "(no crate)", dict.fromkeys(KINDS, 0.0))
        row[step["kind"]] += step["seconds"]
        if step["kind"] == "edits":
            edits.setdefault(step["crate"], []).append(step["seconds"])
    lines = [
        "| crate | proof | tests | seed of its edits | edits | dearest edit | all |",
        "|---|---|---|---|---|---|---|",
    ]
    for crate, row in sorted(sums.items(), key=lambda it: -sum(it[1].values())):
        lines.append(line_of_crate(crate, row, edits.get(crate, []), crate in said["kept"]))
    every = {kind: sum(row[kind] for row in sums.values()) for kind in KINDS}
    count, total = sum(len(it) for it in edits.values()), sum(every.values())
    lines += [
        f"| all | {every['proof']:.0f} | {every['tests']:.0f} | {every['seed']:.0f} | {every['edits']:.0f} "
        f"({count}) | | {total:.0f} |",
        "",
        f"Processor seconds of `{' '.join(said['command'])}`: {total / 60:.1f} minutes "
        f"in {said['seconds'] / 60:.1f} by the clock on {said['processors']} processors, "
        f"at most {said['memory'] / 1e9:.1f} GB of memory at once; it ended with status {said['status']}.",
    ]
    if said["kept"]:
        lines.append(f"Kept from an earlier run, so that they cost nothing here: {len(set(said['kept']))} crates.")
    return lines


def line_of_crate(crate: str, row: Dict[str, float], edits: Sequence[float], is_kept: bool) -> str:
    """The line of a crate in the table, from its seconds by kind and those of each of its edits."""
    of_edits = f"{row['edits']:.0f} ({len(edits)})" if edits else "0"
    proof = "kept" if is_kept and not row["proof"] else f"{row['proof']:.0f}"
    return (
        f"| {crate} | {proof} | {row['tests']:.0f} | {row['seed']:.0f} | {of_edits} | "
        f"{max(edits, default=0):.0f} | {sum(row.values()):.0f} |"
    )


def name_of_edit(said: Dict[str, Any], step: Dict[str, Any]) -> str:
    """The name of an edit. An edit that was tried from nothing has one only if it is the only edit of its crate."""
    own = [it for it in said["verdicts"] if it.startswith(f"{step['crate']}/")]
    if not step["edit"] and len(own) == 1:
        return own[0]
    return f"{step['crate']}/{step['edit'] or '(from nothing)'}"


def table_of_edits(said: Dict[str, Any]) -> List[str]:
    lines = ["", "| edit | seconds | verdict |", "|---|---|---|"]
    for step in sorted((it for it in said["steps"] if it["kind"] == "edits"), key=lambda it: -it["seconds"]):
        name = name_of_edit(said, step)
        lines.append(f"| {name} | {step['seconds']:.0f} | {said['verdicts'].get(name, 'not told')} |")
    return lines


def crates_here() -> Crates:
    """The crates of the checkout that is worked in."""
    return Crates(root_above(os.getcwd()), Kit())


def functions(crate: str, most: int) -> None:
    """Checks a crate from nothing and prints where the time went, function by function."""
    crates = crates_here()
    check_below(crates, crate)
    print("\n".join(table_of_functions(measure(crates, crate), most)))


def crates_one_by_one(names: Sequence[str], at_once: int) -> None:
    """Checks crates from nothing, each in one job, and prints the table of their times."""
    crates = crates_here()
    names = names or sorted(crates.every)
    for name in names:
        check_below(crates, name)
    with ThreadPoolExecutor(at_once) as pool:
        found = []
        for times in pool.map(lambda name: measure(crates, name), names):
            print(f"gate-times: {times.crate} {times.seconds:.1f} s", file=sys.stderr, flush=True)
            found.append(times)
    print("\n".join(table_of_crates(found)))


def saved(path: str) -> Dict[str, Any]:
    try:
        with open(path, encoding="utf-8") as file:
            said = json.load(file)
        table(said)
        return said
    except OSError as why:
        raise unreadable(path, why) from why
    except (ValueError, KeyError, TypeError, AttributeError):
        raise Fault(f"{path} is not a file that --save wrote") from None


def save(path: str, said: Dict[str, Any]) -> None:
    try:
        with open(path, "w", encoding="utf-8") as file:
            json.dump(said, file)
    except OSError as why:
        print(f"gate-times: {path}: {why.strerror}", file=sys.stderr)


def tool(arguments: Sequence[str]) -> int:
    parser = Arguments(prog="gate-times", description=__doc__)
    parser.add_argument("--save", metavar="FILE", help="save what was measured")
    parser.add_argument("--edits", action="store_true", help="list each edit too")
    parser.add_argument("--from", dest="saved", metavar="FILE", help="print the table of a run that was saved")
    parser.add_argument("--functions", metavar="CRATE", help="prove this crate and print its slowest functions")
    parser.add_argument("--most", type=int, default=10, metavar="N", help="how many functions (default: 10)")
    parser.add_argument("--crates", action="store_true", help="prove crates, one job each, and print their times")
    parser.add_argument("--at-once", type=int, default=1, metavar="N", help="how many crates at once (default: 1)")
    parser.add_argument("command", nargs=argparse.REMAINDER, metavar="COMMAND ..", help="such as rt ci --anew")
    args = parser.parse_args(arguments)
    ways = bool(args.command and not args.crates), bool(args.saved), bool(args.functions), args.crates
    if sum(ways) != 1 or args.at_once < 1:
        parser.error("give a command such as rt ci --anew, or --from FILE, --functions CRATE, or --crates")
    if not os.path.isdir("/proc/self"):
        raise Fault("this tool reads /proc, which this system does not have")
    if args.functions or args.crates:
        functions(args.functions, args.most) if args.functions else crates_one_by_one(args.command, args.at_once)
        return FINE
    if args.saved:
        said = saved(args.saved)
    else:
        said = run(args.command, root_above(os.getcwd()))
        if args.save:
            save(args.save, said)
        print()
    print("\n".join(table(said) + (table_of_edits(said) if args.edits else [])))
    status = said["status"] if args.command else FINE
    return status if status >= 0 else 128 - status


def main(arguments: Optional[Sequence[str]] = None) -> int:
    """Runs the tool and returns its status."""
    return run_tool("gate-times", tool, arguments)


if __name__ == "__main__":
    sys.exit(main())
