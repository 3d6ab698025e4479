"""Lists the clause texts that several functions of qss_top, qss_answers and qss_guarantees have, with their numbers.

  tools/clause-repeats                  the texts that more than five functions have
  tools/clause-repeats --more-than 2    the texts that more than two functions have
  tools/clause-repeats --functions      the functions of each text too
  tools/clause-repeats qss_run          the clauses of this crate, or of several crates

A clause text is all that is required or guaranteed, on one line, without the name of the clause. The text is parsed,
not compiled.

Status: 0 no text is listed, 1 some text is, 2 wrong arguments or a fault.
"""
import sys
from typing import Optional, Sequence

from qss_tools.fault import FINE, WARNED, Arguments, Fault, run_tool
from qss_tools.program import ROOT

from .house_rules import TOP, Sources, clause_texts

# A text may be in this many functions.
RULE = 5


def tool(arguments: Sequence[str]) -> int:
    parser = Arguments(prog="clause-repeats", description=__doc__)
    parser.add_argument("crates", nargs="*", metavar="CRATE", help="the crates (else %s)" % ", ".join(TOP))
    parser.add_argument("--root", default=ROOT, metavar="FOLDER", help="the checkout (else the one of this tool)")
    parser.add_argument("--more-than", type=int, default=RULE, metavar="N", help="how many functions may have a text")
    parser.add_argument("--functions", action="store_true", help="list the functions of each text")
    args = parser.parse_args(arguments)
    sources, crates = Sources(args.root), args.crates or TOP
    for it in crates:
        if it not in sources.crates:
            raise Fault("%s: no crate of %s" % (it, args.root))
    found = [it for it in clause_texts(sources, crates).items() if len(it[1]) > args.more_than]
    for text, where in sorted(found, key=lambda it: (-len(it[1]), it[0])):
        print("%d %s" % (len(where), text))
        if args.functions:
            for it in sorted(where):
                print("  %s" % it)
    return WARNED if found else FINE


def main(arguments: Optional[Sequence[str]] = None) -> int:
    """Runs the tool and returns its status."""
    return run_tool("clause-repeats", tool, arguments)


if __name__ == "__main__":
    sys.exit(main())
