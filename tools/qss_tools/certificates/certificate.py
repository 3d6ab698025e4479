"""The tool qss-certificate: finds a certificate of a model and prints its bounds in the model's units."""
import argparse
import sys
from typing import List, Optional, Sequence, Tuple

from ..fault import FINE, WARNED, Arguments, Fault, read_bytes, run_tool
from ..installed import for_user
from ..model.flat import Flat
from ..model.grammar import parse
from ..model.source import Source
from ..model.units import variable_units
from ..output import Output
from ..program import add_program_option, call
from ..runs.rows import Run, run_of
from ..settings.coefficients import rounding
from ..settings.rewriting import annotation
from .advice import settings_line
from .affine import Affine
from .conditions import Certificate, read_certificate, text_of
from .search import NoCertificate, Progress, Search
from .use import sizes_of, use_of
from .settings import is_accepted, no_certificate, settings_for_certificate

ABOUT = """Finds a certificate of a model without `when` clauses and with 1 to 16 states, and prints its bounds.

  tools/qss-certificate MODEL -o MODEL.cert          the certificate with the least ratio of bound and lower bound
  tools/qss-certificate MODEL --state v -o v.cert    the least bound for v alone; the other bounds may be large
  tools/qss-certificate MODEL --read MODEL.cert      the bounds of a certificate that is there

For each state, in the model's units:
  E            any two quantized runs differ by at most E at each tick (proved: `qss certify` accepts the certificate)
  E/2          a run differs from the solution of the machine's equation by at most E/2 at each tick (proved)
  least        what two runs can differ by if ticks are short: no certificate has a bound below it (computed)
  Kofman       the bound of Kofman's formula for two runs (computed, not proved)
Status: 0 a certificate was accepted, 1 there is none and why, 2 a fault of this tool."""


def parser_of() -> Arguments:
    """The arguments of the tool."""
    parser = Arguments(prog="qss-certificate", description=ABOUT)
    parser.add_argument("model", help="the model, without `when` clauses and with 1 to 16 states")
    parser.add_argument("--state", metavar="NAME", help="the state whose bound is to be small")
    parser.add_argument("--read", metavar="CERT", help="print the bounds of this certificate; nothing is searched")
    parser.add_argument(
        "-o", "--output", metavar="FILE", help="the file for the certificate ('-': standard output, without the table)"
    )
    add_program_option(parser)
    return parser


def tool(arguments: Sequence[str]) -> int:
    args = parser_of().parse_args(arguments)
    if args.read and (args.output or args.state):
        raise Fault("--read goes with neither --output nor --state")
    run = run_of(args)
    why = no_certificate(run.flat)
    if why:
        return rejected(args, "no certificate: " + why)
    system, progress = Affine(run), Progress()
    state = state_of(args, system)
    try:
        search = Search(system, state, progress)
    except NoCertificate as none:
        return rejected(args, "no certificate: " + none.sentence)
    if args.read:
        return read(args, run, search)
    try:
        found = search.found()
    except NoCertificate as none:
        return rejected(args, "no certificate with these settings: " + none.sentence, *way_out(args, run, progress))
    text = text_of(found.certificate)
    if not is_accepted(run.program, read_bytes(args.model), text):
        raise Fault("%s: `qss certify` does not accept the certificate that was found" % args.model)
    if args.output:
        with Output(None if args.output == "-" else args.output) as output:
            output.write(text)
    if args.output != "-":
        report(args, run, search, found.certificate)
    return FINE


def state_of(args: argparse.Namespace, system: Affine) -> Optional[int]:
    """The number of the state that --state names, or None."""
    if args.state is None:
        return None
    if args.state not in system.names:
        raise Fault("%s has no state '%s' (its states are %s)" % (args.model, args.state, ", ".join(system.names)))
    return system.names.index(args.state)


def rejected(args: argparse.Namespace, line: str, *more: str) -> int:
    """Prints why there is no certificate."""
    lines = ["qss-certificate: %s: %s" % (args.model, line), *more]
    print(*map(for_user, lines), sep="\n", file=sys.stderr)
    return WARNED


def way_out(args: argparse.Namespace, run: Run, progress: Progress) -> List[str]:
    """The settings with which there is a certificate, as lines."""
    source = Source(args.model, read_bytes(args.model))
    settings = settings_for_certificate(source, Flat(parse(source)), run.program, progress)
    if settings is None:
        return ["  no settings were found with which a certificate is accepted"]
    return [
        "  " + settings_line(source, settings),
        "  " + annotation(settings.proposal, source),
        "  (at most %.3g times the lower bound; tools/qss-advise %s --certificate --rewrite FILE writes the model so)"
        % (settings.found.ratio, args.model),
    ]


def read(args: argparse.Namespace, run: Run, search: Search) -> int:
    """Prints the bounds of a certificate that is there."""
    certificate = read_certificate(read_bytes(args.read), search.system, args.read)
    answer = call(run.program, ["certify", args.model, args.read])
    if answer.status:
        line = "%s is not accepted: %s (tools/qss-explain %s --certificate %s)"
        return rejected(args, line % (args.read, answer.line, args.model, args.read))
    report(args, run, search, certificate)
    if search.system.starts not in (certificate["start1"], certificate["start2"]):
        print("no start of the certificate is the model's: E states nothing about the run that `qss run` prints")
    return FINE


def report(args: argparse.Namespace, run: Run, search: Search, certificate: Certificate) -> None:
    """The table of bounds and what is known of the coefficients."""
    system, units, unit = search.system, variable_units(args.model), 2.0**search.system.level_bits
    head = ("state", "E", "E/2", "least", "Kofman", "E/least", "unit")
    lines: List[Tuple[str, ...]] = [head]
    for k, name in enumerate(system.names):
        bound = certificate["E"][k] / unit
        numbers = [bound, bound / 2, search.t[k] / unit]
        lines.append(
            (name,)
            + tuple("%.4g" % number for number in numbers)
            + ("none" if search.kofman is None else "%.4g" % (search.kofman[k] / unit),)
            + ("%.3g" % (certificate["E"][k] / search.t[k]), units.get(name.split("[")[0], ""))
        )
    widths = [max(len(line[place]) for line in lines) for place in range(len(head))]
    use = use_of(system.names, [bound / unit for bound in certificate["E"]], sizes_of(run.flat))
    states = f"{system.states} state{'s'[: system.states != 1]}"
    print(f"{args.model}: {'accepted' if use.is_of_use else use.text()}; {states}, rates spread by {search.spread:.3g}")
    for line in lines:
        print("  ".join(text.ljust(width) for text, width in zip(line, widths)).rstrip())
    print(rounding(run.flat).sentence)


def main(arguments: Optional[Sequence[str]] = None) -> int:
    """Runs the tool and returns its status."""
    return run_tool("qss-certificate", tool, arguments)


if __name__ == "__main__":
    sys.exit(main())
