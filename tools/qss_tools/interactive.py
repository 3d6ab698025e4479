"""Sliders in a notebook: the parameters of a model, and the plot of its run (docs/PYTHON.md)."""
import html
import math
import os
from typing import Any, Dict, Optional

from .fault import Fault, read_bytes
from .live.sheet import Parameter, parameters_of
from .model.grammar import parse
from .model.source import Source
from .program import canonical_text, find_program
from .runs.rows import Run
from .simulation import FilePath, Names, Simulation, needed

DIGITS = "%.4g"  # of a value that a slider gives
STEPS = 200  # of a slider


class Interactive:
    """Sliders for the parameters of a model, by their names in `sliders`, and the plot of the last run, `run`."""

    def __init__(self, model: FilePath, names: Optional[Names], program: Optional[str], **options: Any) -> None:
        self.widgets = needed("ipywidgets", "interact()")
        self.model, self.names, self.options = os.fspath(model), names, options
        self.program = find_program(program)
        source = Source(self.model, read_bytes(self.model))
        meaning = Run(self.model, self.program, canonical_text(self.program, self.model))
        self.parameters = list(parameters_of(source, parse(source), meaning))
        self.sliders: Dict[str, Any] = {one.name: self.slider(one) for one in self.parameters}
        self.picture = self.widgets.HTML()
        for slider in self.sliders.values():
            slider.observe(self.changed, "value")
        rows = [self.widgets.HBox([self.sliders[one.name], self.about(one)]) for one in self.parameters]
        self.box = self.widgets.VBox([*rows, self.picture])
        self.run = Simulation(self.model, program=self.program)
        self.draw()

    def about(self, one: Parameter) -> Any:
        """The unit and the description of a parameter, next to its slider."""
        return self.widgets.Label(" ".join(filter(None, [one.unit, one.about])))

    def slider(self, one: Parameter) -> Any:
        """The slider of a parameter, at its value in the source."""
        least, greatest = min(one.range.least, one.value), max(one.range.greatest, one.value)
        if one.is_whole:
            bounds = {"min": math.floor(least), "max": math.ceil(greatest)}
            return self.widgets.IntSlider(value=int(one.value), description=one.name, **bounds)
        steps = {"min": least, "max": greatest, "step": (greatest - least) / STEPS or 1.0, "readout_format": ".4g"}
        return self.widgets.FloatSlider(value=one.value, description=one.name, **steps)

    @property
    def values(self) -> Dict[str, str]:
        """The values that differ from those of the source."""
        found = {}
        for one in self.parameters:
            value = self.sliders[one.name].value
            if not math.isclose(value, one.value, rel_tol=1e-9):
                found[one.name] = str(value) if one.is_whole else DIGITS % value
        return found

    def changed(self, change: Any = None) -> None:
        """Runs the model with the values of the sliders, and draws the run or why it is refused."""
        try:
            self.run = Simulation(self.model, self.values, program=self.program)
            self.draw()
        except Fault as fault:
            self.picture.value = "<pre>%s</pre>" % html.escape(str(fault))

    def draw(self) -> None:
        picture = self.run.plot(self.names, plain=True, **self.options)
        assert picture is not None
        self.picture.value = picture.text

    def _ipython_display_(self) -> None:
        """What a notebook shows."""
        needed("IPython.display", "a notebook").display.display(self.box)
