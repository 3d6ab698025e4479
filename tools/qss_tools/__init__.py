"""Tools for qss: sources and their places, models, rows, the program itself, and runs from Python (docs/PYTHON.md).

  import qss_tools as qss
  run = qss.run("examples/rc.mo", set={"R": 10})
  run.frame(), run.measure("rise(v)"), run.plot()
  qss.advise("examples/rc.mo"), qss.explain(..), qss.accuracy(..), qss.certificate(..), qss.fit(..)

The tools need only Python's standard library. With numpy they read and draw long runs faster. Frames need pandas.
Pictures use matplotlib or plotly if they are installed.
"""
import os
from typing import TYPE_CHECKING, Any, Iterable, List, Mapping, Optional, Sequence, Union

from .fault import Fault

if TYPE_CHECKING:
    from .interactive import Interactive
    from .simulation import Simulation
    from .studies import Accuracy, Advice, Certificate, Fitted, Remark

__all__ = ["Fault", "accuracy", "advise", "certificate", "explain", "fit", "interact", "run", "sweep"]


def __dir__() -> List[str]:
    """What is public."""
    return sorted(__all__)


def run(
    model: "Union[str, os.PathLike[str]]",
    set: Optional[Mapping[str, Any]] = None,
    rule: Optional[str] = None,
    relative: Optional[int] = None,
    rows: "Union[str, os.PathLike[str], None]" = None,
    program: Optional[str] = None,
    order: int = 1,
) -> "Simulation":
    """Runs a model, with other values for parameters, settings and starts by name, or takes the rows of a file: a
    Simulation. With `order=2` the run is that of `qss run2`. A model that is refused raises a Fault.
    """
    from .simulation import Simulation

    return Simulation(model, set, rule, relative, rows, program, order)


def advise(model: "Union[str, os.PathLike[str]]", program: Optional[str] = None) -> "Advice":
    """What spoils runs of a model, and settings that fit."""
    from .studies import advise as advised

    return advised(model, program)


def explain(
    model: "Union[str, os.PathLike[str]]", line: Optional[str] = None, program: Optional[str] = None
) -> "Optional[Remark]":
    """Why the program refuses a model, with the place and suggested fixes, or None if it runs."""
    from .studies import explain as explained

    return explained(model, line, program)


def accuracy(model: "Union[str, os.PathLike[str]]", program: Optional[str] = None) -> "Accuracy":
    """How near a run of a model comes to its solution in floating point (numpy and scipy)."""
    from .studies import accuracy as measured

    return measured(model, program)


def certificate(
    model: "Union[str, os.PathLike[str]]", state: Optional[str] = None, program: Optional[str] = None
) -> "Certificate":
    """A certificate of a model that the program accepts. A model without one raises a Fault."""
    from .studies import certificate as found

    return found(model, state, program)


def fit(
    model: "Union[str, os.PathLike[str]]",
    data: "Union[str, os.PathLike[str]]",
    vary: Mapping[str, str],
    columns: Optional[Mapping[str, str]] = None,
    **options: Any,
) -> "Fitted":
    """Values for which a run of a model is near measured values (numpy and scipy). `vary` has a range as "1:100" by the
    name of each value, `columns` a column of the file by the name of a variable. The options are those of qss-fit.
    """
    from .studies import fit as fitted

    return fitted(model, data, vary, columns, **options)


def interact(
    model: "Union[str, os.PathLike[str]]",
    names: "Union[str, Sequence[str], None]" = None,
    program: Optional[str] = None,
    **options: Any,
) -> "Interactive":
    """Sliders for the parameters of a model and the plot of its run, in a notebook (ipywidgets). The options are those
    of the plot of a run.
    """
    from .interactive import Interactive

    return Interactive(model, names, program, **options)


def sweep(
    model: "Union[str, os.PathLike[str]]", measure: Union[str, Iterable[str]], set: Mapping[str, Any], **options: Any
) -> Any:
    """Runs a model at many points and measures each run: a DataFrame, or a list of dictionaries without pandas."""
    from .simulation import sweep as swept

    return swept(model, measure, set, **options)
