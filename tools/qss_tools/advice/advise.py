"""The tool qss-advise: finds settings that spoil a run, and proposes settings that fit."""
import shlex
import sys
from typing import Iterable, List, Optional, Sequence

from ..certificates.advice import advise_certificate
from ..fault import FINE, WARNED, Arguments, Fault, run_tool
from ..installed import for_user
from ..model.grammar import Model
from ..model.source import Source
from ..model.spelling import decimal_text
from ..model.story import excerpt
from ..model.units import time_unit, unit_after
from ..numeric.trial import Trial
from ..output import Output
from ..program import CHANGED, add_program_option, find_program
from ..settings import limits
from ..settings.proposal import Proposal
from ..settings.rewriting import annotation
from .far_units import far_units
from .finding import Finding
from .findings import MANY_ROWS, findings
from .proposing import Proposed, proposed
from .refusal import read_model
from .seen import ripple_text, seen_findings, seen_lines, unfit_text
from .tried import tried

ABOUT = """What the settings of a model do to it, before a run, and settings that would fit, ready to paste.

  tools/qss-advise MODEL                     settings that fit, and what is wrong with those of the model
  tools/qss-advise MODEL --rewrite FILE      also writes the model with these settings, in the proposed unit of time
  tools/qss-advise MODEL --certificate       settings with which a certificate is accepted (also with --rewrite)

The advice depends on the model alone. Settings are printed only if the program accepts them.
Status: 0 nothing spoils the run, 1 something does, 2 a fault of this tool."""

MOST_WARNINGS = 3  # that are printed without --all


def tool(arguments: Sequence[str]) -> int:
    parser = Arguments(prog="qss-advise", description=ABOUT)
    parser.add_argument("model")
    parser.add_argument(
        "--rewrite",
        metavar="FILE",
        help="write the model with the proposed settings into this file ('-': only standard output)",
    )
    parser.add_argument("--all", action="store_true", help="print all warnings and notes, not only the first warnings")
    parser.add_argument(
        "--certificate", action="store_true", help="propose settings with which `qss certify` accepts a certificate"
    )
    add_program_option(parser)
    args = parser.parse_args(arguments)
    if args.certificate:
        program = find_program(args.program)
        source, flat, _ = read_model(args.model, program)
        return advise_certificate(source, flat, program, args.rewrite)
    advice = Advice(args.model, find_program(args.program))
    if args.rewrite:
        if advice.text is None:
            raise Fault("%s: there are no settings to write: %s" % (args.model, advice.why))
        with Output(None if args.rewrite == "-" else args.rewrite) as output:
            output.write(advice.text.decode("utf-8", "replace"))
    if args.rewrite != "-":
        report(advice, args.all)
    return WARNED if advice.is_grave() else FINE


class Advice:
    """What is to be said about a model: its refusal, its findings, and settings that the program accepts."""

    def __init__(self, name: str, program: str):
        self.source, self.flat, self.refused = read_model(name, program)
        self.trial = Trial(self.flat)
        self.found: List[Finding] = findings(self.flat, self.trial)
        self.proposed: Optional[Proposed] = None
        self.why = "values in units that fit come first"
        # (equations that convert units themselves fit, and then nothing else is wrong)
        self.units = far_units(self.source, self.flat) if self.is_grave() else []
        if self.units:
            self.found = self.units
        else:
            self._try(program)

    def _try(self, program: str) -> None:
        """Finds settings, and what runs show."""
        self.proposed, self.why = proposed(self.source, self.flat, self.trial, program)
        if not self.is_grave() and not self.trial.grown and self.trial.reached:
            self.found = self._seen(program) + self.found

    @property
    def text(self) -> Optional[bytes]:
        """The model with the proposed settings."""
        return None if self.proposed is None else self.proposed.text

    def _seen(self, program: str) -> List[Finding]:
        """What runs of the model with its own settings show."""
        expected = self.trial.rows([float(one.quantum) for one in self.flat.variables[: self.flat.states]])
        if self.proposed is not None and self.text == self.source.data:
            seen = self.proposed.seen
        else:
            seen = tried(program, self.source.data, expected)
        return [] if seen is None else list(seen_findings(self.flat, seen, expected))

    def warnings(self) -> List[Finding]:
        return [finding for finding in self.found if finding.grave]

    def is_grave(self) -> bool:
        """Whether something spoils a run."""
        return bool(self.refused or self.warnings())


def warning_of(name: str, program: str, file: Optional[str] = None) -> Optional[str]:
    """One line on what spoils a run of a model that the program accepts, or None. `file` is the model of the user if
    `name` has it with other values.
    """
    source, flat, refused = read_model(name, program)
    if refused:
        return None
    grave = [finding for finding in findings(flat, Trial(flat)) if finding.grave]
    if not grave:
        return None
    grave = far_units(source, flat) or grave
    more = " (and %d more)" % (len(grave) - 1) if len(grave) > 1 else ""
    at, file = grave[0].at, file or name
    place = "%s: " % file if at is None else "%s:%d:%d: " % ((file,) + source.place(at))
    seen = (
        "for the model that tools/qss-run %s --print writes" % CHANGED[name] if name in CHANGED else shlex.quote(file)
    )
    return "%s%s%s; see tools/qss-advise %s" % (place, grave[0].sentence, more, seen)


def report(advice: Advice, every: bool) -> None:
    """Prints the settings, the warnings and the notes."""
    source, found = advice.source, advice.found
    warnings = advice.warnings()
    if not found and not advice.refused:
        print("%s: no objections to its settings" % source.name)
    shown = found if every else warnings[:MOST_WARNINGS]
    if advice.units:
        tell_findings(source, shown)
        print()
    tell_proposal(advice)
    if advice.refused:
        print()
        print(advice.refused.text(source).replace(": ", ": refused: ", 1))
    if shown and not advice.units:
        print()
        tell_findings(source, shown)
    left = len(found) - len(shown)
    if left:
        kinds = count_text(len(warnings) - min(len(warnings), len(shown)), "warning")
        notes = count_text(len(found) - len(warnings), "note")
        print("%s: %s (see --all)" % (source.name, " and ".join(text for text in (kinds, notes) if text)))


def tell_findings(source: Source, shown: Sequence[Finding]) -> None:
    for finding in shown:
        tell_finding(source, finding)


def count_text(count: int, word: str) -> str:
    return "%d more %s%s" % (count, word, "s" if count > 1 else "") if count else ""


def tell_finding(source: Source, finding: Finding) -> None:
    kind = "warning" if finding.grave else "note"
    if finding.at is None:
        print("%s: %s: %s" % (source.name, kind, finding.sentence))
    else:
        row, column = source.place(finding.at)
        print("%s:%d:%d: %s: %s" % (source.name, row, column, kind, finding.sentence))
        print("\n".join(excerpt(source, finding.at, column)))
    if finding.way:
        print("  " + finding.way)


def tell_proposal(advice: Advice) -> None:
    source, one = advice.source, advice.proposed
    if one is None:
        print(f"{source.name}: no settings are proposed: {advice.why}")
        return
    proposal, trial = one.proposal, one.trial
    expected = trial.rows(one.quanta())
    unfit = unfit_text(trial.flat, one.seen, expected)
    if unfit:
        print(f"{source.name}: {unfit}")
        print("the nearest settings are:")
    elif proposal.unit != 1:
        units = time_unit(source), unit_after(time_unit(source), proposal.unit)
        print(f"no settings fit in the model's unit of time ({units[0]}); in {units[1]} these settings fit,")
        print(for_user(f"and 'tools/qss-advise {source.name} --rewrite FILE' writes the model with them:"))
    elif not proposal.fits:
        print("no settings fit well; the nearest are:")
    else:
        print("settings that fit:")
    print("  " + annotation(proposal, source))
    for name, quantum in proposal.own.items():
        print(f"  {name} annotation(QSS_Quantum = {decimal_text(quantum)})")
    for change in one.cure.changes:
        print(f"with --rewrite FILE {change}")
    if one.shorter is not None:
        print(f"the ticks are shorter for this reason: {ripple_text(trial.flat, one.shorter)}")
    if not trial.grown:
        tell_expected(proposal, trial, one.seen.levels if one.seen and one.seen.is_whole else expected)
        print_all(seen_lines(trial.flat, one.seen))


def print_all(lines: Iterable[str]) -> None:
    for line in lines:
        print(line)


def tell_expected(proposal: Proposal, trial: Trial, expected: float) -> None:
    """Prints how many rows a run has."""
    if expected:
        print(f"with them expect about {int(float(f'{expected:.2g}')):,} rows of levels")
    if expected > MANY_ROWS:
        reached = limits.shown(float(f"{float(proposal.stop) * 1e6 / expected:.1g}"))
        unwritten = "" if stop_is_written(trial.flat.model) else " (StopTime is not written, and so 1)"
        print(f"that is a lot: a million rows reach StopTime = {reached}{unwritten}")


def stop_is_written(model: Model) -> bool:
    return any(setting.name == "StopTime" for setting in model.settings)


def main(arguments: Optional[Sequence[str]] = None) -> int:
    """Runs the tool and returns its status."""
    return run_tool("qss-advise", tool, arguments)


if __name__ == "__main__":
    sys.exit(main())
