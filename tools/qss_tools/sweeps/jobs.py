"""One run of a sweep, executed in a process of this machine or by a worker of a cluster."""
import argparse
import functools
import os
import tempfile
from typing import Dict, List, NamedTuple, Optional, Sequence, Union

from ..fault import Fault, read_bytes
from ..model.changes import changed_text
from ..model.grammar import SyntaxFault
from ..model.source import Source
from ..runs.measures import requests
from ..runs.quadratics import value_of
from ..runs.rows import Rows, Run, exact, run_lines
from ..tables.measure import lines_by_name


class Job(NamedTuple):
    """A run: the program, the model's name, canonical text and unit of time, the values by name, and the measures."""

    program: str
    name: str
    text: bytes
    values: Dict[str, str]
    measures: str
    rule: Optional[str]
    relative: Union[int, str, None]
    unit: str = "s"


asked_once = functools.lru_cache(maxsize=2)(requests)


class Outcome(NamedTuple):
    """What a run gave: a float or None for each measure, and 'ok' or why a value is missing."""

    values: List[Optional[float]]
    status: str


def run_of(path: str, program: str, text: bytes) -> Run:
    """The model of a file with this text, without a call of the program if the model is one."""
    try:
        return Run(path, program, text)
    except (SyntaxFault, LookupError, ValueError, ArithmeticError):
        return Run(path, program)


def outcome(job: Job) -> Outcome:
    """Runs a job. A run that is refused, or fails, is an outcome, too."""
    asked = asked_once(job.measures, job.unit)
    with tempfile.TemporaryDirectory(prefix="qss-") as folder:
        path = os.path.join(folder, os.path.basename(job.name))
        try:
            text = changed_text(job.name, job.text, job.values)
            with open(path, "wb") as file:
                file.write(text)
            run = run_of(path, job.program, text)
            with run_lines(argparse.Namespace(model=path, rule=job.rule, relative=job.relative, order=1), run) as lines:
                names = list(dict.fromkeys(one.variable for one in asked))
                found, overflow = lines_by_name(run, Rows(run, lines, job.name, trusted=True), names)
        except Fault as fault:
            why = str(fault).replace(path, job.name).split(" (tools/qss-")[0].split(job.name + ": ", 1)[-1]
            return Outcome([None] * len(asked), explained(path, why))
    values: List[Optional[float]] = []
    status = "ok"
    if overflow:
        status = "overflow: %s at %s" % (overflow[1], exact(overflow[0], run.units.time))
    for one in asked:
        try:
            values.append(float(value_of(one, found[one.variable])))
        except Fault as fault:
            values.append(None)
            status = "%s: %s" % (one.text, fault) if status == "ok" else status
    return Outcome(values, status)


def explained(path: str, line: str) -> str:
    """Why a model is refused, in words; another line as it is."""
    if not line.startswith("refused: ") or not os.path.isfile(path):
        return line
    from ..advice.explain import explain

    source = Source(path, read_bytes(path))
    try:
        story = explain(source, line)
    except Fault:
        return line
    place = "" if story.at is None else " (line %d of the changed model)" % source.place(story.at)[0]
    return "refused: %s%s" % (story.sentence, place)


def outcomes(jobs: Sequence[Job]) -> List[Outcome]:
    """Runs jobs one after the other."""
    return [outcome(job) for job in jobs]
