"""What `qss-advise --certificate` prints: settings with which a model has a certificate, and its bounds."""
import sys
from typing import Optional, Sequence, Tuple

from ..fault import FINE, WARNED
from ..model.flat import Flat
from ..model.source import Source
from ..model.spelling import decimal_text
from ..model.units import time_unit, unit_after
from ..output import Output
from ..settings.coefficients import rounding
from ..settings.rewriting import annotation
from .settings import Settings, no_certificate, settings_for_certificate


def advise_certificate(source: Source, flat: Flat, program: str, rewrite: Optional[str]) -> int:
    """Proposes settings, writes the model with them if that is asked for, and returns the tool's status."""
    why = no_certificate(flat)
    settings = None if why else settings_for_certificate(source, flat, program)
    if settings is None:
        why = why or "no settings were found with which a certificate is accepted"
        print("qss-advise: %s: no certificate: %s" % (source.name, why), file=sys.stderr)
        return WARNED
    if rewrite:
        with Output(None if rewrite == "-" else rewrite) as output:
            output.write(settings.text.decode("utf-8", "replace"))
    if rewrite != "-":
        print("\n".join(lines_of(source, settings)))
    return FINE if settings.use.is_of_use else WARNED


def lines_of(source: Source, settings: Settings) -> Sequence[str]:
    """The settings, the bounds of the certificate, and what is known of the coefficients."""
    system, found, proposal = settings.system, settings.found, settings.proposal
    unit = 2.0**system.level_bits
    bounds = ["%s %.4g" % (name, bound / unit) for name, bound in zip(system.names, found.certificate["E"])]
    quanta = [f"  {name} annotation(QSS_Quantum = {decimal_text(one)})" for name, one in proposal.own.items()]
    return [
        *([] if settings.use.is_of_use else [settings.use.text()]),
        *(
            []
            if settings.use.is_of_use
            else ["no settings were found with which a certificate is of use; the nearest are:"]
        ),
        settings_line(source, settings),
        "  " + annotation(proposal, source),
        *quanta,
        "bounds E of the certificate, at most %.3g times the lower bound: %s" % (found.ratio, ", ".join(bounds)),
        rounding(settings.flat).sentence,
    ]


def settings_line(source: Source, settings: Settings) -> str:
    """The line above proposed settings."""
    unit = settings.proposal.unit
    if unit == 1:
        return "settings with which a certificate is accepted:"
    units: Tuple[str, str] = time_unit(source), unit_after(time_unit(source), unit)
    return "the unit of time of the model is %s; with %s and these settings a certificate is accepted:" % units
