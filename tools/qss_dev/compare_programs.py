"""Compares two programs on all examples and verbs: status, output and standard error of each call.

  tools/compare-programs            compares the proved program with the one that tools/quick-build made
  tools/compare-programs A B        compares these two programs

Each model is printed, run by each rule, with a relative quantum, with one name, and in second order; a certificate is
proposed. Models of short runs are run as coupled models too. Certificates are checked, upgraded and compared. Calls
that fail are compared too: wrong arguments, a missing file, a refused model.
Status: 0 all calls are equal, 1 one is not, 2 a fault.
"""
import glob
import os
import sys
import tempfile
from typing import Iterator, List, Optional, Sequence, Tuple

from qss_tools.fault import FINE, WARNED, Arguments, Fault, run_tool
from qss_tools.program import BUILT, ROOT, UNPROVED, call, find_program

from .devs_examples import difference

EXAMPLES = os.path.join(ROOT, "examples")
SHORT = ("ball", "boost", "buck", "cable", "decay", "rlc", "thermostat")  # of which runs as coupled models are short
WRONG: Tuple[List[str], ...] = (
    [],
    ["run"],
    ["fly", "a"],
    ["run", "a", "--rule", "ceil"],
    ["gen", "0"],
    ["gen", "7", "40"],
    ["run", "no-such-file"],
)


def calls(examples: str, refused: str) -> Iterator[List[str]]:
    """The calls, each as the arguments of the program."""
    for model in sorted(glob.glob(os.path.join(examples, "*.mo"))):
        name = os.path.splitext(os.path.basename(model))[0]
        for words in (["print"], ["run"], ["run2"], ["propose"]):
            yield words + [model]
        yield ["run", model, "--rule", "near"]
        yield ["run", model, "--rule", "inward", "--relative", "64"]
        yield ["run", model, "--only", "x"]
        if name in SHORT:
            yield ["devs", model]
    for certificate in sorted(glob.glob(os.path.join(examples, "*.cert"))):
        model = certificate[: -len("cert")] + "mo"
        yield ["certify", model, certificate]
        yield ["certify", model, certificate, "--relative", "1"]
        yield ["upgrade", model, certificate]
        yield ["compare", model, certificate, "first", "second"]
        yield ["check", model, certificate]
    for words in WRONG:
        yield list(words)
    for verb in ("run", "print", "run2", "propose"):
        yield [verb, refused]


def tool(arguments: Sequence[str]) -> int:
    parser = Arguments(prog="compare-programs", description=__doc__)
    parser.add_argument("programs", nargs="*", metavar="PROGRAM", help="two programs (default: proved and unproved)")
    parser.add_argument("--examples", default=EXAMPLES, metavar="FOLDER", help="the models (default: examples/)")
    args = parser.parse_args(arguments)
    if len(args.programs) not in (0, 2):
        raise Fault("give two programs, or none")
    first, second = (find_program(path) for path in args.programs or (BUILT, UNPROVED))
    count = same = 0
    with tempfile.TemporaryDirectory() as folder:
        refused = os.path.join(folder, "refused.mo")
        with open(refused, "w", encoding="ascii") as file:
            file.write("model m Real x; equation der(x) = y; end m;\n")
        for words in calls(args.examples, refused):
            answer, other = call(first, words), call(second, words)
            found = difference(answer, other)
            count, same = count + 1, same + (found is None)
            if found is not None:
                print("qss %s: %s" % (" ".join(words), found), flush=True)
    print("%d of %d calls are equal" % (same, count))
    return FINE if same == count else WARNED


def main(arguments: Optional[Sequence[str]] = None) -> int:
    """Runs the tool and returns its status."""
    return run_tool("compare-programs", tool, arguments)


if __name__ == "__main__":
    sys.exit(main())
