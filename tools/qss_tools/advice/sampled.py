"""Runs of a model that are sampled: a clause that is added for it copies the states at many times."""
import math
import os
import subprocess
import tempfile
from dataclasses import dataclass
from fractions import Fraction
from typing import List, Mapping, Optional

from ..model.changes import changed_text
from ..model.flat import Flat
from ..model.grammar import parse
from ..model.source import Source
from ..model.spelling import decimal_text
from ..program import call, start
from ..settings.inserts import applied, clause_lines, clauses_edit, declaration_edit, free_name
from .coincidences import Coincidence, Watch

SAMPLES = 997  # times, which is a prime, so that they meet no period again and again
CHUNK = 1 << 20


@dataclass(frozen=True)
class Sampled:
    """The values of each state at the samples, how many rows of levels the run has, and how far it came."""

    values: List[List[float]]
    levels: int
    fired: int
    reached: float  # the part of the run, up to 1
    status: int
    coincidences: List[Coincidence]


@dataclass(frozen=True)
class Text:
    """The canonical text of a model, with what it denotes."""

    data: bytes
    flat: Flat

    def changed(self, values: Mapping[str, str]) -> "Text":
        """The model with other values, as those of `--set`."""
        data = changed_text("model", self.data, values)
        return text_of(data)


def text_of(data: bytes) -> Text:
    flat = Flat(parse(Source("model", data)))
    flat.rows()
    return Text(data, flat)


def canonical(program: str, data: bytes) -> Text:
    """The canonical text of a source that the program accepts."""
    with tempfile.TemporaryDirectory() as folder:
        return text_of(call(program, ["print", written(folder, data)]).out)


def written(folder: str, data: bytes) -> str:
    path = os.path.join(folder, "model.mo")
    with open(path, "wb") as file:
        file.write(data)
    return path


def shortened(stop: Fraction, part: float) -> Fraction:
    """A part of the stop time as a short decimal."""
    return Fraction(f"{float(stop) * part:.2g}")


def sampled(program: str, text: Text, most_rows: Optional[int] = None, samples: int = SAMPLES) -> Sampled:
    """Runs a model up to this number of rows, and samples its states. Without such a number only the samples are
    printed, and no rows are counted.
    """
    flat = text.flat
    f, stop = flat.bits("QSS_LevelBits"), flat.settings["StopTime"]
    step = Fraction(int(stop * 2**f) // samples, 2**f)
    source = Source("model", text.data)
    taken = {one.name for one in flat.model.declarations}
    value, clock = (free_name(flat.model, name, taken) for name in ("qss_sample", "qss_next"))
    copies = [f"{value} := {one.name}" for one in flat.variables[: flat.states]]
    lines = clause_lines(f"time >= {clock}", copies + [f"{clock} := pre({clock}) + {decimal_text(step)}"])
    declared = f"discrete Real {value}, {clock}(start = {decimal_text(step)});"
    edits = [declaration_edit(source, flat.model, declared), clauses_edit(source, flat.model, lines)]
    with tempfile.TemporaryDirectory() as folder:
        return read(program, written(folder, applied(text.data, edits)), Reading(flat, value.encode(), most_rows))


@dataclass(frozen=True)
class Reading:
    """What is read of rows: the model, the name of the variable with the samples, and how many rows at most."""

    flat: Flat
    name: bytes
    most_rows: Optional[int]

    def words(self, path: str) -> List[str]:
        return ["run", path] + (["--only", self.name.decode()] if self.most_rows is None else [])


def read(program: str, path: str, reading: Reading) -> Sampled:
    """Reads the rows of a run, and ends the program after the rows that are read at most."""
    mark, found, levels, rows, fired = b",set," + reading.name + b",", bytearray(), 0, 0, 0
    rest = last = b""
    watch = Watch(reading.flat)
    most = math.inf if reading.most_rows is None else reading.most_rows
    with start(program, reading.words(path), stdout=subprocess.PIPE, stderr=subprocess.DEVNULL) as process:
        assert process.stdout is not None
        while rows <= most:
            chunk = process.stdout.read(CHUNK)
            if not chunk:
                break
            whole, _, rest = (rest + chunk).rpartition(b"\n")
            rows += whole.count(b"\n") + 1
            levels += whole.count(b",level,")
            fired += whole.count(b",when,")
            watch.read(whole)
            found += b"".join(part[: part.index(b",")] + b" " for part in whole.split(mark)[1:])
            last = whole[whole.rfind(b"\n") + 1 :]
        else:
            process.kill()
        process.communicate()
    flat = reading.flat
    numbers = [int(word) for word in found.split()]
    unit, states = 2.0 ** -flat.bits("QSS_LevelBits"), max(flat.states, 1)
    values = [[number * unit for number in numbers[state::states]] for state in range(flat.states)]
    tick = int(last.split(b",")[0] or b"0") if last[:1].isdigit() else 0
    samples = len(numbers) // states
    reached = tick / max(flat.last_tick(), 1)
    return Sampled(values, levels, fired - samples, reached, process.returncode, list(watch.found.values()))
