"""The runs of a fit: each run is computed once, and kept in a file until the fit is at its end."""
import argparse
import base64
import concurrent.futures
import functools
import json
import os
import tempfile
from typing import Any, Callable, Dict, Iterator, List, NamedTuple, Optional, Sequence, TextIO, Tuple

from ..fault import Fault
from ..model.changes import changed_text
from ..runs.rows import Rows, exact, ordered, run_lines
from ..sweeps.clusters import AHEAD, in_order, pool_of
from ..sweeps.jobs import explained, run_of
from ..sweeps.parts import Part
from ..tables.compared import sampled
from ..tables.measure import lines_by_name

Point = Tuple[str, ...]  # a text for each range


class Setup(NamedTuple):
    """What all runs of a fit have in common: the model, how it is run, what is varied, and what is measured when."""

    program: str
    model: str
    text: bytes
    order: int
    rule: Optional[str]
    relative: Optional[str]
    names: Tuple[str, ...]  # of the ranges; None is the shift
    shift: Optional[int]  # the place of the shift among the ranges
    variables: Tuple[str, ...]
    times: Tuple[Tuple[float, ...], ...]


class Trial(NamedTuple):
    """The values of all variables at their times, one variable after the other, or why there are none."""

    values: Optional[Any]
    why: str


def simulated(setup: Setup, point: Point) -> Trial:
    """Runs the model at a point."""
    import numpy

    named = {name: text for place, (name, text) in enumerate(zip(setup.names, point)) if place != setup.shift}
    shift = 0.0 if setup.shift is None else float(point[setup.shift])
    with tempfile.TemporaryDirectory(prefix="qss-") as folder:
        path = os.path.join(folder, os.path.basename(setup.model))
        try:
            text = changed_text(setup.model, setup.text, named)
            with open(path, "wb") as file:
                file.write(text)
            run = run_of(path, setup.program, text)
            how = argparse.Namespace(model=path, rule=setup.rule, relative=setup.relative, order=setup.order)
            with run_lines(how, run) as lines:
                rows = Rows(run, ordered(lines, run), setup.model)
                found, overflow = lines_by_name(run, rows, list(setup.variables))
        except Fault as fault:
            why = str(fault).replace(path, setup.model).split(" (tools/qss-")[0].split(setup.model + ": ", 1)[-1]
            return Trial(None, explained(path, why))
    if overflow:
        return Trial(None, "overflow: %s at %s" % (overflow[1], exact(overflow[0], run.units.time)))
    parts = [
        numpy.array(sampled(found[variable], [time + shift for time in times]))
        for variable, times in zip(setup.variables, setup.times)
    ]
    return Trial(numpy.concatenate(parts), "")


class Trials:
    """The runs of a fit in their order. Those that a file has kept are not computed again."""

    def __init__(self, setup: Setup, part: Part, jobs: int, count: Callable[[int], None]) -> None:
        """`count` takes the number of runs after each run."""
        self.setup, self.part, self.jobs, self.count = setup, part, jobs, count
        self.known: Dict[Point, Trial] = {}
        self.file: Optional[TextIO] = None
        self.pool: Optional[concurrent.futures.Executor] = None
        self._take_kept()
        self.kept = len(self.known)

    def _take_kept(self) -> None:
        """Takes the runs of the file up to the first line that is damaged."""
        lines, self.part.lines = self.part.lines, []
        for line in lines:
            try:
                point, trial = read_line(line, self.setup)
            except (ValueError, KeyError, TypeError):
                return
            self.part.lines.append(line)
            self.known[point] = trial

    def __enter__(self) -> "Trials":
        if self.jobs > 1:
            self.pool = pool_of(self.jobs)
        return self

    def __exit__(self, *_: object) -> None:
        if self.pool is not None:
            self.pool.shutdown(wait=True, cancel_futures=True)
        if self.file is not None:
            self.file.close()

    def at(self, points: Sequence[Point]) -> List[Trial]:
        """The runs at some points."""
        missing = [point for point in dict.fromkeys(points) if point not in self.known]
        for point, trial in zip(missing, self._computed(missing)):
            self._keep(point, trial)
        return [self.known[point] for point in points]

    def _computed(self, points: Sequence[Point]) -> Iterator[Trial]:
        work = functools.partial(simulated, self.setup)
        if self.pool is None or len(points) == 1:
            return map(work, points)
        pool = self.pool
        return self._checked(in_order(lambda point: pool.submit(work, point), points, AHEAD * self.jobs))

    @staticmethod
    def _checked(found: Iterator[Trial]) -> Iterator[Trial]:
        try:
            yield from found
        except concurrent.futures.process.BrokenProcessPool as error:
            raise Fault("a process of the fit was killed, for example out of memory (--jobs takes fewer)") from error

    def _keep(self, point: Point, trial: Trial) -> None:
        """Writes a run into the file, and takes it."""
        if self.file is None:
            self.file = self.part.opened()
        self.file.write(line_of(point, trial))
        self.file.flush()
        self.known[point] = trial
        self.count(len(self.known))


def line_of(point: Point, trial: Trial) -> str:
    """A run as a line: its values are bytes of floats."""
    data = None if trial.values is None else base64.b64encode(trial.values.astype("<f8").tobytes()).decode()
    return json.dumps({"at": point, "values": data, "why": trial.why}) + "\n"


def read_line(line: str, setup: Setup) -> Tuple[Point, Trial]:
    """The run of a line."""
    import numpy

    fields = json.loads(line)
    point = tuple(map(str, fields["at"]))
    if fields["values"] is None:
        return point, Trial(None, str(fields["why"]))
    values = numpy.frombuffer(base64.b64decode(fields["values"]), dtype="<f8").astype(float)
    if len(point) != len(setup.names) or len(values) != sum(map(len, setup.times)):
        raise ValueError("of another fit")
    return point, Trial(values, "")
