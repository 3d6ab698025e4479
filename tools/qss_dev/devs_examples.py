"""The tool devs-examples: compares the answers of the program to `run MODEL` and to `devs MODEL`, byte by byte."""
import glob
import os
import resource
import sys
from typing import Optional, Sequence, Tuple

from qss_tools.fault import FINE, WARNED, Arguments, Fault, run_tool
from qss_tools.program import ROOT, Answer, add_program_option, call, find_program

EXAMPLES = os.path.join(ROOT, "examples")


def timed_call(program: str, verb: str, model: str) -> Tuple[Answer, float]:
    """The answer to a verb and a model, and the processor time that it took in seconds."""
    before = resource.getrusage(resource.RUSAGE_CHILDREN)
    answer = call(program, [verb, model])
    after = resource.getrusage(resource.RUSAGE_CHILDREN)
    return answer, after.ru_utime + after.ru_stime - before.ru_utime - before.ru_stime


def first_difference(answer: bytes, other: bytes) -> Optional[str]:
    """The first line in which two texts differ, counted from 1, with what each has there."""
    lines, others = answer.splitlines(True), other.splitlines(True)
    for number, (line, beside) in enumerate(zip(lines + [b""], others + [b""]), 1):
        if line != beside:
            return "line %d: %r, and %r" % (number, line.decode("utf-8", "replace"), beside.decode("utf-8", "replace"))
    return None


def difference(answer: Answer, other: Answer) -> Optional[str]:
    """What is not the same in two answers, or None."""
    if answer.out != other.out:
        return first_difference(answer.out, other.out)
    if (answer.status, answer.line) != (other.status, other.line):
        return "status %d %s, and %d %s" % (answer.status, answer.line, other.status, other.line)
    return None


def compare(program: str, model: str) -> bool:
    """Prints how both runs of a model went, and gives whether their answers are the same."""
    by_events, seconds = timed_call(program, "run", model)
    coupled, more_seconds = timed_call(program, "devs", model)
    found = difference(by_events, coupled)
    print(
        "%s: %s bytes, status %d, %s; run %.2f s, devs %.2f s"
        % (
            os.path.basename(model),
            "{:,}".format(len(by_events.out)),
            by_events.status,
            "equal" if found is None else found,
            seconds,
            more_seconds,
        ),
        flush=True,
    )
    return found is None


def tool(arguments: Sequence[str]) -> int:
    parser = Arguments(
        prog="devs-examples",
        description="Compares what the program answers to 'run MODEL' and to 'devs MODEL': each byte of the rows, the "
        "line and the status; with the processor time of each. The status is 0 where they are the same for each "
        "model, and else 1.",
    )
    parser.add_argument("models", nargs="*", metavar="MODEL", help="the models (default: those of examples/)")
    add_program_option(parser)
    args = parser.parse_args(arguments)
    program = find_program(args.program)
    models = args.models or sorted(glob.glob(os.path.join(EXAMPLES, "*.mo")))
    for model in models:
        if not os.path.isfile(model):
            raise Fault("%s: no such file" % model)
    same = [compare(program, model) for model in models]
    print("%d of %d models have the same answer to both" % (sum(same), len(same)))
    return FINE if all(same) else WARNED


def main(arguments: Optional[Sequence[str]] = None) -> int:
    """Runs the tool and returns its status."""
    return run_tool("devs-examples", tool, arguments)


if __name__ == "__main__":
    sys.exit(main())
