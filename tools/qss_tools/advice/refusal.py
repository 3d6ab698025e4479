"""Reads a model for advice, and asks the program whether it accepts it."""
import os
import tempfile
from typing import Optional, Tuple

from ..fault import Fault, read_bytes
from ..model.flat import Flat, Meaningless
from ..model.grammar import parse
from ..model.source import Source
from ..model.story import Story
from ..program import call, canonical_text, way_to_place
from ..settings import limits
from .explain import LINE


def read_model(name: str, program: str) -> Tuple[Source, Flat, Optional[Story]]:
    """The source of a model, its meaning, and the story of its refusal where its numbers are refused."""
    canonical = canonical_text(program, name)
    source = Source(name, read_bytes(name))
    line = refusal_at_once(program, canonical)
    refused = LINE.match(line)
    if refused and refused.group(1) != "machine":
        line = call(program, ["run", name, "--only", "-"], keep=False).line
        raise Fault(f"{name}: {line}{way_to_place(name)}")
    try:
        flat = Flat(parse(source))
        flat.rows()
        most = (limits.MOST_COEF_BITS, limits.MOST_TICK_BITS, limits.MOST_LEVEL_BITS)
        bits = [flat.bits(setting) for setting in ("QSS_CoefBits", "QSS_TickBits", "QSS_LevelBits")]
        if any(one > limit for one, limit in zip(bits, most)):
            raise Fault(f"{name}: {line}{way_to_place(name)}")
    except Meaningless as error:
        raise Fault("%s:%d:%d: %s" % ((name,) + source.place(error.at) + (error.reason,))) from error
    story = limits.rounded(source, refused.group(2), refused.group(3).split()) if refused else None
    return source, flat, story


def refusal_of(program: str, text: bytes) -> str:
    """The line with which the program refuses a source by `print`, or by `run` with the stop time 0; else nothing."""
    with tempfile.TemporaryDirectory() as folder:
        path = os.path.join(folder, "proposed.mo")
        with open(path, "wb") as file:
            file.write(text)
        answer = call(program, ["print", path])
    return answer.line if answer.status else refusal_at_once(program, answer.out)


def refusal_at_once(program: str, canonical: bytes) -> str:
    """The line with which a model is refused, or nothing: its run is tried with the stop time 0."""
    source = Source("model", canonical)
    model = parse(source)
    written = [setting for setting in model.settings if setting.name == "StopTime"]
    data = source.data
    if written:
        begin, end = written[0].span
        data = data[:begin] + b"0" + data[end:]
    elif model.settings_end is not None:
        data = data[: model.settings_end] + b", StopTime = 0 " + data[model.settings_end :]
    else:
        data = data[: model.end_line] + b"annotation(experiment(StopTime = 0));\n" + data[model.end_line :]
    handle, path = tempfile.mkstemp(suffix=".mo")
    try:
        with os.fdopen(handle, "wb") as file:
            file.write(data)
        return call(program, ["run", path, "--only", "-"], keep=False).line
    finally:
        os.unlink(path)
