"""The tool by-ticks: computes the answers to `run` and `run2` tick by tick, without the program."""
import sys
from collections import namedtuple
from typing import Dict, Iterable, Optional, Sequence

from qss_tools.fault import FINE, Arguments, Fault, read_bytes, run_tool
from qss_tools.model.flat import Flat, Meaningless
from qss_tools.model.grammar import SyntaxFault, parse
from qss_tools.model.source import LONGEST, Source
from qss_tools.program import OVERFLOWED, REFUSED, REJECTED
from qss_tools.runs.machines import Machine, NoMachine
from qss_tools.runs.rows import HEADER

from . import second_ticks, ticks

MOST_SHARE = 2048

Answer = namedtuple("Answer", "status text line counts")
Answer.__doc__ = "The status, the rows, the line on standard error, and how many rows there are of each event."


def machine_of(name: str, data: bytes) -> Machine:
    """The machine that a source denotes."""
    source = Source(name, data)
    if source.untold is not None or len(data) > LONGEST:
        raise Fault("%s: no model (tools/qss-explain %s tells why)" % (name, name))
    try:
        return Machine(Flat(parse(source)))
    except (SyntaxFault, Meaningless) as error:
        raise Fault("%s: no model (tools/qss-explain %s tells why)" % (name, name)) from error


def line_of(machine: Machine, row: ticks.Row) -> str:
    """The line of a row."""
    name = machine.names[row.variable] if isinstance(row.variable, int) else row.variable
    level, state = ("" if number is None else number for number in (row.level, row.state))
    return "%d,%s,%s,%s,%s\n" % (row.tick, row.event, name, level, state)


def passes(machine: Machine, only: Optional[str], row: ticks.Row) -> bool:
    """Whether a row is among those that were asked for."""
    if only is None or row.event in ("when", "overflow"):
        return True
    name = machine.names[row.variable]
    return name == only or name.startswith(only + "[")


def answer(machine: Machine, found: Iterable[ticks.Row], only: Optional[str] = None) -> Answer:
    """What the program answers, whose rows these are."""
    counts: Dict[str, int] = {}
    lines, status, line = [HEADER], FINE, ""
    for row in found:
        counts[row.event] = counts.get(row.event, 0) + 1
        if passes(machine, only, row):
            lines.append(line_of(machine, row))
        if row.event == "overflow":
            status, line = OVERFLOWED, "overflow: %s at tick %d\n" % (machine.names[row.variable], row.tick)
    return Answer(status, "".join(lines), line, counts)


def first_order(name: str, data: bytes, rule: str = "floor", share: int = 0, only: Optional[str] = None) -> Answer:
    """The answer to `run`."""
    try:
        machine = machine_of(name, data)
    except NoMachine as refusal:
        return Answer(REFUSED, "", str(refusal), {})
    return answer(machine, ticks.rows(machine, rule, share), only)


def second_order(name: str, data: bytes) -> Answer:
    """The answer to `run2`."""
    try:
        machine = machine_of(name, data)
    except NoMachine as refusal:
        return Answer(REFUSED, "", str(refusal), {})
    if machine.clauses:
        return Answer(REJECTED, "", "rejected: clauses %d\n" % len(machine.clauses), {})
    return answer(machine, second_ticks.rows(machine))


def share(text: str) -> int:
    """A share of quanta."""
    if not (text.isascii() and text.isdigit() and len(text) <= 4 and int(text) <= MOST_SHARE):
        raise Fault("--relative: '%s' is no whole number from 0 to %d" % (text, MOST_SHARE))
    return int(text)


def tool(arguments: Sequence[str]) -> int:
    parser = Arguments(
        prog="by-ticks",
        description="Works out the rows of a run tick by tick, as docs/SEMANTICS.md defines it, without the program. "
        "Rows, line and status are those of the program, for a model that it takes or refuses for a machine's limits. "
        "Whether a source is a model is the program's to say: what by-ticks cannot read is a fault, and it does "
        "not look for all.",
    )
    parser.add_argument("verb", choices=("run", "run2"), help="a run of first or of second order")
    parser.add_argument("model", help="the model")
    parser.add_argument("--rule", choices=sorted(ticks.RULES), help="the rule of a run of first order (default: floor)")
    parser.add_argument(
        "--relative", metavar="N", help="the share of a level's size, in 4096ths, that a quantum is at least"
    )
    parser.add_argument("--only", metavar="NAME", help="the rows of this variable alone, or of this array")
    args = parser.parse_args(arguments)
    data = read_bytes(args.model)
    if args.verb == "run":
        found = first_order(args.model, data, args.rule or "floor", share(args.relative or "0"), args.only)
    elif args.rule is None and args.relative is None and args.only is None:
        found = second_order(args.model, data)
    else:
        raise Fault("run2 goes with no option")
    sys.stdout.write(found.text)
    sys.stdout.flush()
    sys.stderr.write(found.line)
    return found.status


def main(arguments: Optional[Sequence[str]] = None) -> int:
    """Runs the tool and returns its status."""
    return run_tool("by-ticks", tool, arguments)


if __name__ == "__main__":
    sys.exit(main())
