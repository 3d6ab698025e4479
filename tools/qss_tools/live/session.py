"""A model that a page follows: its file is read again when it is saved, and the last source that runs is kept."""
import os
import re
import threading
from dataclasses import dataclass
from typing import Any, Callable, Dict, List, NamedTuple, Optional, Tuple

from ..editor.background import advice_by_process
from ..editor.checks import Checker, Problem
from ..fault import Fault, read_bytes
from ..installed import for_user
from ..model.source import Source
from ..model.story import excerpt
from ..plot.drawing import Drawing
from ..plot.plot import parser_of
from ..program import canonical_text
from ..runs.rows import Run
from .drawn import View, drawn_part
from .measured import Measured, bands_of
from .runs import Limits, Runs, Text
from .sheet import Sheet, first_panels, sheet_of

Json = Dict[str, Any]
MOST_VALUES = 1000  # of a request
MOST_PANELS = 40


@dataclass(frozen=True)
class Options:
    """What a page begins with: panels, measures, the unit of time, and how the model is run."""

    names: Optional[str] = None
    measures: str = ""
    unit: Optional[str] = None
    limits: Limits = Limits()


class Loaded(NamedTuple):
    """A source that runs: its copy in a file, its canonical text, and what a page shows of it."""

    source: str
    text: Text
    sheet: Sheet
    panels: List[List[str]]


class Stale(Exception):
    """A request about a source that is not the last one."""


class Session:
    """Reads the file of a model, and answers the requests of a page about it."""

    def __init__(self, model: str, program: str, folder: str, options: Options) -> None:
        self.model, self.program, self.folder, self.options = model, program, folder, options
        self.checker = Checker(program, folder)
        self.runs = Runs(program, folder, options.limits)
        self.revision = 0  # of the file: what was saved
        self.loaded: Optional[Loaded] = None
        self.problems: List[Json] = []
        self.warnings: List[str] = []  # of the settings of the source that runs
        self.saved = threading.Condition()
        self.stamp: Optional[Tuple[int, int, int]] = None

    # the file

    def look(self) -> bool:
        """Reads the file if it was saved since the last look, and returns whether it was."""
        try:
            found = os.stat(self.model)
            stamp: Optional[Tuple[int, int, int]] = (found.st_mtime_ns, found.st_size, found.st_ino)
        except OSError:
            stamp = None
        if stamp == self.stamp and self.revision:
            return False
        self.stamp = stamp
        loaded, problems = self.load()
        with self.saved:
            self.revision += 1
            if loaded is not None:
                self.loaded, self.warnings = loaded, []
            self.problems = problems
            self.saved.notify_all()
        return True

    def load(self) -> Tuple[Optional[Loaded], List[Json]]:
        """What a page shows of the source, or what is wrong with it."""
        try:
            data = read_bytes(self.model)
        except Fault as fault:
            return None, [{"sentence": str(fault), "fixes": []}]
        try:
            return self.understood(data), []
        except (Fault, RecursionError) as fault:
            name = os.path.basename(self.model)
            found = [problem_json(one, Source(name, data)) for one in self.checker.problems(name, data)]
            return None, found or [{"sentence": self.named(fault), "fixes": []}]

    def understood(self, data: bytes) -> Loaded:
        """What a page shows of a source, which is run once."""
        number = self.revision + 1
        os.makedirs(os.path.join(self.folder, "source%d" % number), exist_ok=True)
        path = os.path.join(self.folder, "source%d" % number, os.path.basename(self.model))
        with open(path, "wb") as file:
            file.write(data)
        canonical = canonical_text(self.program, path)
        run = Run(path, self.program, canonical)
        source = Source(os.path.basename(self.model), data)
        text = Text(source.name, number, canonical, data)
        labels = Drawing(plain_args(path), run).labels
        sheet = sheet_of(source, run, self.options.unit)
        self.runs.of(text, {})
        return Loaded(path, text, sheet, first_panels(source, self.options.names, labels))

    def advise(self, is_ended: Callable[[], bool]) -> None:
        """Finds out in a process of its own what spoils runs of the source, and publishes it."""
        loaded = self.loaded
        if loaded is None:
            return
        found = advice_by_process(loaded.source, self.program, lambda: self.loaded is loaded and not is_ended()) or {}
        graves = [one["sentence"] for one in found.get("findings", []) if one["grave"]]
        warnings = [for_user(f"{one} (see tools/qss-advise)") for one in graves]
        with self.saved:
            if warnings and self.loaded is loaded:
                self.warnings = warnings
                self.revision += 1
                self.saved.notify_all()

    def check_names(self) -> None:
        """The first panels can be drawn, if the source runs."""
        if self.loaded is not None:
            try:
                found = self.draw({"text": self.loaded.text.number, "panels": self.loaded.panels})
            except Fault as fault:
                raise Fault(self.named(fault)) from fault
            for why in found["wrong"].values():
                raise Fault(why)

    # answers

    def state(self) -> Json:
        """What is known of the source: a page is built from it."""
        with self.saved:
            loaded, revision = self.loaded, self.revision
            found: Json = {"file": self.model, "problems": self.problems, "warnings": self.warnings}
        if loaded is not None:
            found.update(sheet=loaded.sheet.as_json(), panels=loaded.panels, text=loaded.text.number)
            found.update(measures=self.options.measures, order=self.options.limits.order)
        return {**found, "revision": revision}

    def known(self, request: Json) -> Loaded:
        """The source that a request is about."""
        loaded = self.loaded
        if loaded is None or request.get("text") != loaded.text.number:
            raise Stale
        return loaded

    def draw(self, request: Json) -> Json:
        """The curves of a run."""
        loaded, view = self.known(request), view_of(request)
        done = self.runs.of(loaded.text, values_of(request))
        drawn, faults = drawn_part(done, loaded.source, view)
        wrong = {name: self.named(fault) for name, fault in faults.items()}
        notices = [done.stopped + "; the picture ends there"] if done.stopped else drawn.notices
        return {
            "panels": drawn.panels_json(),
            "events": drawn.events_json(),
            "times": drawn.times,
            "seconds": done.seconds,
            "notices": [*notices, *wrong.values()],
            "wrong": wrong,
        }

    def measure(self, request: Json) -> Json:
        """The measures of a run, and its certified bands."""
        loaded, view = self.known(request), view_of(request)
        done = self.runs.of(loaded.text, values_of(request))
        measured = Measured(done, loaded.source)
        names = [str(name) for name in request.get("names", [])]
        found: Json = {"table": measured.table(names, view.window), "measures": [], "bands": [], "notices": []}
        found["measures"] = measured.asked(str(request.get("measures", "")))
        if request.get("band"):
            try:
                shown = drawn_part(done, loaded.source, view)[0].view
                found["bands"] = bands_of(done, loaded.source, shown, self.program)
            except Fault as fault:
                found["notices"].append(self.named(fault))
        return found

    def named(self, fault: Exception) -> str:
        """The text of a fault with the names of files in place of the paths of their copies."""
        return re.sub(re.escape(self.folder) + r"/\w+/", "", str(fault))


def plain_args(path: str) -> Any:
    """The arguments of qss-plot for a model."""
    args = parser_of().parse_args([path, "--no-advice"])
    args.source = args.label = path
    return args


def problem_json(one: Problem, source: Source) -> Json:
    """A problem of a source with its place and the line of the source below it."""
    row, column = source.place(one.begin)
    lines = excerpt(source, one.begin, column, max(1, one.end - one.begin))
    fixes = one.ways or [fix.title for fix in one.fixes[:1]]
    return {"sentence": one.sentence, "fixes": fixes, "line": row, "column": column, "excerpt": "\n".join(lines)}


def values_of(request: Json) -> Dict[str, str]:
    """The changed values of a request."""
    found = request.get("values", {})
    if not isinstance(found, dict) or len(found) > MOST_VALUES:
        raise Fault("values: a text by the name of each parameter")
    return {str(name): str(value) for name, value in found.items()}


def view_of(request: Json) -> View:
    """What a request draws."""
    panels = request.get("panels", [])
    if not isinstance(panels, list) or len(panels) > MOST_PANELS:
        raise Fault("panels: at most %d lists of names" % MOST_PANELS)
    window = request.get("window")
    return View(
        panels=[[str(name) for name in panel] for panel in panels],
        window=None if window is None else (str(window[0]), str(window[1])),
        columns=int(request.get("columns", 900)),
        with_events=bool(request.get("events")),
    )
