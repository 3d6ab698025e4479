"""Measures the program on its largest inputs at a quarter, at a half and at the whole of their size.

Each input is a model that a limit of the program bounds. The tool prints one row of a table for each input: millions of
instructions at the three sizes, counted by callgrind, and the growth from the half to the whole. A linear cost grows by
2, a quadratic one by 4. A growth above 2.2 is marked by `super-linear`, and the status is then 1. With --memory the
tool prints the largest resident memory in MiB instead, measured without callgrind.

Without names all inputs are measured, which takes about half an hour. --scale divides each size, for a quick look and
for a program with a super-linear cost.
"""
import os
import re
import shutil
import subprocess
import sys
import tempfile
from typing import Callable, Dict, List, NamedTuple, Optional, Sequence

from qss_tools.fault import FINE, WARNED, Arguments, Fault, run_tool
from qss_tools.program import add_program_option, find_program

# the shares of the whole size
SHARES = (4, 2, 1)
# the growth from the half to the whole size that still counts as linear
LINEAR = 2.2
MEGABYTE = 1 << 20
COLLECTED = re.compile(r"Collected : (\d+)")
FINE_SETTINGS = "annotation(experiment(StopTime = 0));\nend m;\n"
TICK_SETTINGS = "annotation(experiment(StopTime = 4, QSS_TickBits = 4, QSS_Quantum = 1/8));\nend m;\n"
CHAIN_SETTINGS = (
    "annotation(experiment(StopTime = 0, QSS_CoefBits = 8, QSS_TickBits = 8, QSS_LevelBits = 10, "
    "QSS_Quantum = 1/16));\nend m;\n"
)

Model = Callable[[int], str]


class Input(NamedTuple):
    """A largest input: the command, the model of a size, its largest size, and what the size counts."""

    verb: str
    model: Model
    most: int
    unit: str


def products(rows: int, count: int) -> str:
    """A model of states whose slopes are sums of `count` products with discrete variables, which one clause assigns."""
    terms = "".join(" + d[%d]*x[i]/%d" % (number, 64 * count) for number in range(1, count + 1))
    assigned = "".join("d[%d] := 1;\n" % number for number in range(1, count + 1))
    return (
        "model m\nReal x[%d];\ndiscrete Real d[%d];\nequation\n" % (rows, count)
        + "for i in 1:%d loop\nder(x[i]) = -x[i]%s;\nend for;\n" % (rows, terms)
        + "algorithm\nwhen time >= 1 then\n%send when;\n%s" % (assigned, TICK_SETTINGS)
    )


def zeros(size: int) -> str:
    """A long constant expression of this many bytes whose value is 1."""
    return "1" + "+0" * ((size - 1) // 2)


def start_model(rounds: int, body: str) -> str:
    """A model whose initial algorithm repeats a body."""
    loop = "for i in 1:%d loop\n%s\nend for;\n" % (rounds, body)
    return "model m\nReal x[2];\ninitial algorithm\n%sequation\nder(x[1]) = 0;\nder(x[2]) = 0;\n%s" % (
        loop,
        FINE_SETTINGS,
    )


def rounds_of(size: int, most: int) -> int:
    """The number of rounds for a source of this size: `most` for the largest source."""
    return max(1, most * size // MEGABYTE)


def long_bounds(size: int) -> str:
    """A loop of one round with a long bound, in a loop."""
    body = "for j in 1:%s loop\nx[1] := i;\nend for;" % zeros(size)
    return start_model(rounds_of(size, 16000), body)


def empty_loops(size: int) -> str:
    """A loop without rounds with a long bound, in a loop."""
    body = "for j in 2:%s loop\nx[1] := i;\nend for;" % zeros(size)
    return start_model(rounds_of(size, 65000), body)


def long_indices(size: int) -> str:
    """An assignment with a long index, in a loop."""
    return start_model(rounds_of(size, 16000), "x[%s] := i;" % zeros(size))


def long_starts(size: int) -> str:
    """An assignment of a long start value, in a loop."""
    return start_model(rounds_of(size, 16000), "x[1] := %s;" % zeros(size))


def long_operands(size: int) -> str:
    """A right side with a long index, in a loop."""
    rounds = rounds_of(size, 4000)
    return "model m\nReal x[%d];\nequation\nfor i in 1:%d loop\nder(x[i]) = -x[%s];\nend for;\n%s" % (
        rounds,
        rounds,
        zeros(size),
        FINE_SETTINGS,
    )


def chain_forward(count: int) -> str:
    """A chain of algebraic variables, each of the one before it."""
    return (
        "model m\nReal x, a[%d];\nequation\nder(x) = -a[%d];\na[1] = x;\nfor i in 2:%d loop\n" % ((count,) * 3)
        + "a[i] = a[i-1];\nend for;\n"
        + FINE_SETTINGS
    )


def chain_backward(count: int) -> str:
    """A chain of algebraic variables, each of the next one."""
    return (
        "model m\nReal x, a[%d];\nequation\nder(x) = -a[1];\nfor i in 1:%d loop\n" % (count, count - 1)
        + "a[i] = a[i+1];\nend for;\na[%d] = x;\n" % count
        + FINE_SETTINGS
    )


def cells(count: int) -> str:
    """A chain of states, each coupled with its two neighbours."""
    return (
        "model m\nReal u[%d];\nequation\nder(u[1]) = 64 - 4*u[1] + u[2];\nfor i in 2:%d loop\n" % (count, count - 1)
        + "der(u[i]) = u[i-1] - 4*u[i] + u[i+1];\nend for;\nder(u[%d]) = u[%d] - 4*u[%d];\n" % (count, count - 1, count)
        + CHAIN_SETTINGS
    )


INPUTS: Dict[str, Input] = {
    "products-64": Input("run", lambda count: products(64, count), 960, "products in each of 64 rows"),
    "products-16": Input("run", lambda count: products(16, count), 4078, "products in each of 16 rows"),
    "long-bounds": Input("run", long_bounds, MEGABYTE - 1024, "bytes of a bound in a loop"),
    "empty-loops": Input("run", empty_loops, MEGABYTE - 1024, "bytes of a bound in a loop"),
    "long-indices": Input("run", long_indices, MEGABYTE - 1024, "bytes of an index in a loop"),
    "long-starts": Input("run", long_starts, MEGABYTE - 1024, "bytes of a start value in a loop"),
    "long-operands": Input("run", long_operands, MEGABYTE - 1024, "bytes of an index in a loop"),
    "chain-forward": Input("run", chain_forward, 4095, "algebraic variables"),
    "chain-backward": Input("run", chain_backward, 4095, "algebraic variables"),
    "devs-start": Input("devs", cells, 4096, "states"),
}


def standard_error_of(words: Sequence[str]) -> str:
    """What a command writes on standard error. The command must succeed."""
    done = subprocess.run(words, stdout=subprocess.DEVNULL, stderr=subprocess.PIPE, check=False)
    text = done.stderr.decode(errors="replace")
    if done.returncode != 0:
        raise Fault("%s: status %d: %s" % (" ".join(words[-3:]), done.returncode, text[-200:].strip()))
    return text


def needed(name: str) -> str:
    """The path of a command that the tool needs."""
    path = shutil.which(name)
    if path is None:
        raise Fault("%s: no such command" % name)
    return path


def instructions(words: Sequence[str]) -> float:
    """Millions of instructions of a run."""
    text = standard_error_of([needed("valgrind"), "--tool=callgrind", "--callgrind-out-file=/dev/null", *words])
    found = COLLECTED.search(text)
    if found is None:
        raise Fault("callgrind counted nothing: %s" % text[-200:].strip())
    return int(found.group(1)) / 1e6


def memory(words: Sequence[str]) -> float:
    """The largest resident memory of a run in MiB. The command time measures it, since a child of Python begins with
    the memory of Python."""
    text = standard_error_of([needed("time"), "-q", "-f", "%M", *words])
    last = text.strip().split("\n")[-1]
    if not last.isdigit():
        raise Fault("time measured nothing: %s" % text[-200:].strip())
    return int(last) / 1024


def measured(program: str, one: Input, scale: int, measure: Callable[[Sequence[str]], float]) -> List[float]:
    """The measure of an input at the three sizes."""
    found = []
    with tempfile.TemporaryDirectory() as folder:
        path = os.path.join(folder, "m.mo")
        for share in SHARES:
            with open(path, "w", encoding="ascii") as file:
                file.write(one.model(max(3, one.most // (share * scale))))
            found.append(measure([program, one.verb, path]))
    return found


def row_of(name: str, one: Input, scale: int, found: Sequence[float]) -> str:
    """A row of the table."""
    growth = found[-1] / found[-2] if found[-2] else 0.0
    cells_of_row = [name, "`%s`" % one.verb, f"{one.most // scale:,} {one.unit}"]
    cells_of_row += [f"{number:,.1f}" for number in found]
    cells_of_row.append("%.2f%s" % (growth, " super-linear" if growth > LINEAR else ""))
    return "| " + " | ".join(cells_of_row) + " |"


def tool(arguments: Sequence[str]) -> int:
    parser = Arguments(prog="largest-inputs", description=__doc__)
    parser.add_argument("inputs", nargs="*", metavar="INPUT", help="the inputs (default: all): " + ", ".join(INPUTS))
    parser.add_argument("--memory", action="store_true", help="memory in MiB in place of instructions")
    parser.add_argument("--scale", type=int, default=1, metavar="N", help="divide each size by N (default: 1)")
    add_program_option(parser)
    args = parser.parse_args(arguments)
    for name in args.inputs:
        if name not in INPUTS:
            raise Fault("'%s' is not an input: the inputs are %s" % (name, ", ".join(INPUTS)))
    if args.scale < 1:
        raise Fault("--scale takes a number from 1 on")
    program = os.path.abspath(find_program(args.program))
    needed("time" if args.memory else "valgrind")
    unit = "MiB" if args.memory else "millions of instructions"
    print(f"| input | command | largest size | {unit} at 1/4 | at 1/2 | at 1 | growth |\n|---|---|---|---|---|---|---|")
    status = FINE
    for name in args.inputs or INPUTS:
        one = INPUTS[name]
        row = row_of(name, one, args.scale, measured(program, one, args.scale, memory if args.memory else instructions))
        print(row, flush=True)
        if row.endswith(" super-linear |"):
            status = WARNED
    return status


def main(arguments: Optional[Sequence[str]] = None) -> int:
    """Runs the tool and returns its status."""
    return run_tool("largest-inputs", tool, arguments)


if __name__ == "__main__":
    sys.exit(main())
