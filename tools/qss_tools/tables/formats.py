"""Tables in the formats of other programs: a raw file of ngspice, a MAT file and Parquet."""
import io
import re
import struct
from typing import Any, Dict, List, NamedTuple, Tuple

from ..fault import Fault
from ..output import Output

# The formats by the ends of the names of files. All but the first two need numpy.
FORMS = {"": "csv", ".csv": "csv", ".txt": "csv", ".vcd": "vcd", ".raw": "raw", ".mat": "mat", ".parquet": "parquet"}
ENDS = ", ".join(end for end in FORMS if end)
KINDS = {"V": "voltage", "A": "current"}  # of ngspice, by units


class Data(NamedTuple):
    """A table: the model's name, the unit of time, times, and the name, the unit and the values of each column."""

    title: str
    time_unit: str
    times: Any
    columns: List[Tuple[str, str, Any]]


def check_form(form: str, with_events: bool, order: int) -> None:
    """A table can be written so; this is known before a run begins."""
    from ..arrays import load

    if form in ("csv", "vcd"):
        return
    if order == 2:
        raise Fault("a run of second order is written as CSV or VCD")
    if with_events and form != "parquet":
        raise Fault("--events goes with CSV, VCD and Parquet")
    if load() is None:
        raise Fault("a file .%s needs the package numpy (python3-numpy of Debian)" % form)
    if form == "mat":
        needed("scipy.io", "a MAT file needs the package scipy (python3-scipy of Debian)")
    if form == "parquet":
        needed("pandas", "Parquet needs the package pandas (python3-pandas of Debian)")
        try:
            __import__("pyarrow")
        except ImportError:
            needed("fastparquet", "Parquet needs the package pyarrow or fastparquet")


def needed(module: str, text: str) -> None:
    try:
        __import__(module)
    except ImportError as error:
        raise Fault(text) from error


def write_raw(output: Output, data: Data) -> None:
    """A binary raw file, which `ngspice` loads: a header, and the numbers of each time as 64-bit floating point."""
    import numpy

    names = [("time", "time")] + [(name, KINDS.get(unit, "notype")) for name, unit, _ in data.columns]
    head = ["Title: " + data.title, "Date: ", "Plotname: Transient Analysis", "Flags: real"]
    head += ["No. Variables: %d" % len(names), "No. Points: %d" % len(data.times), "Variables:"]
    head += ["\t%d\t%s\t%s" % (place, plain_name(name), kind) for place, (name, kind) in enumerate(names)]
    output.write("\n".join(head) + "\nBinary:\n")
    table = numpy.empty((len(data.times), len(names)), dtype="<f8")
    table[:, 0] = data.times
    for place, (_, _, values) in enumerate(data.columns, 1):
        table[:, place] = values
    output.held.write(table.tobytes())


def read_raw(data: bytes) -> Dict[str, List[float]]:
    """The columns of a binary raw file, by their names."""
    head, _, body = data.partition(b"\nBinary:\n")
    text = head.decode()
    names = re.findall(r"^\t\d+\t(\S+)\t", text, re.MULTILINE)
    numbers = struct.unpack("<%dd" % (len(body) // 8), body)
    return {name: list(numbers[place :: len(names)]) for place, name in enumerate(names)}


def write_mat(output: Output, data: Data) -> None:
    """A MAT file of version 5 with a column for the time and for each variable; u[3] is named u_3."""
    from scipy.io import savemat

    found = {"time": data.times}
    for name, _, values in data.columns:
        word = plain_name(name)
        if word in found:
            raise Fault("two columns of a MAT file would be named '%s': choose some by --names" % word)
        found[word] = values
    held = io.BytesIO()
    savemat(held, found, oned_as="column", do_compression=False)
    output.held.write(held.getvalue())


def plain_name(name: str) -> str:
    """A name without brackets and signs."""
    return re.sub(r"\W+", "_", name.replace("[", "_").replace("]", "")).strip("_") or "value"


def write_parquet(output: Output, frame: Any) -> None:
    """A Parquet file whose index is the time."""
    held = io.BytesIO()
    frame.to_parquet(held)
    output.held.write(held.getvalue())
