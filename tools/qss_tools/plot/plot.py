"""The tool qss-plot: draws a run."""
import argparse
import os
import shutil
import subprocess
import sys
from typing import Any, Iterator, List, Optional, Sequence, Set, Tuple

from ..advice.warn import add_advice_option, warn
from ..arrays import load
from ..certificates.band import States, Tube, add_certificate_option
from ..fault import FINE, WARNED, Arguments, Fault, run_tool
from ..output import Output
from ..program import RULES
from ..runs.columns import AnyColumn, Column, Watch, columns_of
from ..runs.rows import Row, Rows, Run, add_run_options, lines_of
from ..runs.steady import add_all_values_option, steady_rows
from ..tables.table import overflow_text
from ..tables.measurements import add_data_options
from . import dots
from .bands import bands_of
from .curves import Curve, Marks, Path
from .drawing import HEIGHT, Drawing, Panel
from .knots import Firings, page_columns, points_of
from .svg import COLOURS, SIGNATURE, path_picture, picture_of
from .text_plot import text_of

ABOUT = """A picture of a run, from a model or from its rows.

  tools/qss-plot MODEL                                  runs the model and draws each variable into MODEL.svg
  tools/qss-plot MODEL ROWS --names iL,uC -o buck.png   these variables, each in a panel of its own
  tools/qss-plot MODEL --names 'v1+v2,i[1:4]' --events  v1 and v2 in one panel, the array in another, and what fired
  tools/qss-plot MODEL --names y --against x            y against x
  tools/qss-plot MODEL --over-rule near                 two runs in one picture (also --over ROWS, --over-model MODEL)
  tools/qss-plot MODEL --order 2                        the run of second order
  tools/qss-plot MODEL --certificate CERT               with the proved bands around each state: of the solution (dark)
                                                        and of every quantized run (light)
  tools/qss-plot MODEL --over-rule near --difference    the difference of two runs, with its largest value
  tools/qss-plot MODEL --with data.csv                  with measured values as points (also --column uC=CH1)
  tools/qss-plot MODEL --html                           an interactive page: zoom, pan, values under the cursor
  tools/qss-plot MODEL --text                           into the terminal

A picture is SVG; PNG and PDF need matplotlib or gnuplot (python3-matplotlib or gnuplot-nox of Debian), and a page needs
plotly (python3-plotly). SVG is drawn by matplotlib if it is installed, and with --plain by no package. The name of the
file is printed. The unit of time is that of QSS_TimeUnit in the model, if --unit names no other one.
Measured values have a line of names with units, as 't [ms],uC [V]', and columns with the names of variables.
A value of a discrete variable that holds for one tick only, between values that hold for longer, is left out, unless
--all-values is there.
Status: 0 all was drawn, 1 all was drawn, and the run overflowed or the rows end early, 2 nothing was written."""


def parser_of() -> Arguments:
    """The arguments of the tool."""
    parser = Arguments(prog="qss-plot", description=ABOUT)
    add_run_options(parser)
    parser.add_argument(
        "--names",
        metavar="LIST",
        help="panels, with commas between them: names, arrays, u[2:5], patterns with *, expressions, as uC*iL or"
        " (u1 + u2), joined by +",
    )
    parser.add_argument("--against", metavar="NAME", help="draw the names against this variable in place of time")
    parser.add_argument("--events", action="store_true", help="mark where branches fire")
    parser.add_argument("--states", action="store_true", help="draw exact states, joined by lines, in place of levels")
    add_all_values_option(parser)
    parser.add_argument("--over", metavar="ROWS", help="a second run, dashed")
    parser.add_argument("--over-rule", choices=RULES, help="run the model a second time, by this rule")
    parser.add_argument("--over-model", metavar="MODEL", help="the model of the second run, if it is another one")
    add_certificate_option(parser)
    add_data_options(parser)
    parser.add_argument("--from", dest="begin", metavar="TIME", help="draw from this time on, as 4 or 9.5ms")
    parser.add_argument("--to", dest="end", metavar="TIME", help="draw up to this time")
    parser.add_argument("--unit", help="the model's unit of time, for the axis")
    parser.add_argument("--title", help="the title (default: the model's name)")
    parser.add_argument(
        "--height", type=int, default=HEIGHT, help="the height of a panel in pixels (default: %d)" % HEIGHT
    )
    parser.add_argument("--difference", action="store_true", help="draw the first run minus the second one, exactly")
    parser.add_argument("--html", action="store_true", help="write an interactive page (default: MODEL.html)")
    parser.add_argument("--plain", action="store_true", help="draw SVG without any package")
    parser.add_argument("--text", action="store_true", help="draw with signs, on standard output")
    parser.add_argument(
        "-o", "--output", metavar="FILE", help="the picture: .svg, .png or .pdf ('-': SVG on standard output)"
    )
    add_advice_option(parser)
    return parser


def tool(arguments: Sequence[str]) -> int:
    args = parser_of().parse_args(arguments)
    if not 40 <= args.height <= 2000:
        raise Fault("--height: from 40 to 2000")
    drawing = Plot(args)
    data = dots.measurements_of(drawing)
    for note in data.notes if data is not None else ():
        drawing.say(note)
    drawing.check_output()
    warn(args, drawing.run, "qss-plot")
    drawing.gather()
    if data is not None:
        dots.fill(drawing, data)
    drawing.write()
    return WARNED if drawing.overflowed or drawing.is_cut else FINE


class Plot(Drawing):
    """A drawing that is filled from the rows of its runs and written."""

    def check_output(self) -> None:
        """The picture's name and kind; that it can be drawn is known before a run begins."""
        args = self.args
        if args.text:
            return
        default = ".html" if args.html else ".svg"
        path = self.path = args.output or os.path.splitext(os.path.basename(args.model))[0] + default
        self.kind = default[1:] if path == "-" else os.path.splitext(path)[1].lower().lstrip(".")
        if self.kind not in ("svg", "png", "pdf", "html") or args.html and self.kind != "html":
            raise Fault(f"{path}: a picture is .svg, .png or .pdf, and a page is .html")
        if self.kind == "html":
            from .html_plot import check_plotly

            check_plotly()
        elif self.kind != "svg" and not has_matplotlib() and not shutil.which("gnuplot"):
            raise Fault(
                f"{path}: a {self.kind.upper()} needs matplotlib or gnuplot, and {sys.executable} has no matplotlib; "
                ".svg needs nothing"
            )
        if args.against and self.kind != "svg":
            raise Fault("--against draws only .svg")
        if self.kind == "html":
            self.width = page_columns(sum(len(columns_of(self.run, part)) for part in self.parts()))
        if args.output is None and not is_replaceable(path):
            raise Fault(f"{path}: this file is there, and qss-plot did not draw it; -o names another one")

    def gather(self) -> None:
        """Reads one run or two."""
        args = self.args
        if args.difference:
            from . import differences

            differences.fill(self, self.begin, self.end)
            return
        self.follow(self.run, args, False)
        if args.over or args.over_rule or args.over_model:
            if args.against:
                raise Fault("--against draws one run")
            model = args.over_model or args.model
            run = self.run if args.over_model is None else Run(model, self.run.program)
            other = argparse.Namespace(
                model=model, rows=args.over, rule=args.over_rule, relative=args.relative, order=args.order
            )
            self.follow(run, other, True)

    def follow(self, run: Run, args: argparse.Namespace, second: bool) -> None:
        """Takes all rows of a run into curves, marks and paths."""
        with lines_of(args, run) as (lines, name):
            rows = Rows(run, lines, name, may_be_cut=True)
            columns, curves = self.curves(run, second)
            marks = None
            if self.args.events and not second:
                is_page = self.kind == "html"
                marks = Firings(*self.ticks(run)) if is_page else Marks(self.width, *self.ticks(run))
                self.marks = marks
            paths = None
            if self.args.against:
                columns = columns + columns_of(run, self.args.against)
                self.paths = paths = [Path(column.name) for column in columns[:-1]]
            takes = Takes(self, 2**run.units.time, columns, curves, paths, marks)
            if self.certified and not second:
                takes.states = self.with_tubes(States(self.certified, name), columns, curves)
            if load() is None or takes.states or paths is not None or run.order == 2:
                self.read(rows, takes, args.rows is None)
            else:
                self.read_arrays(rows, takes, args.rows is None)
        if rows.cut:
            self.is_cut = True
            self.say("%s; the picture ends there" % rows.cut)

    def with_tubes(self, states: States, columns: Sequence[AnyColumn], curves: Sequence[Curve]) -> States:
        """Gives the curve of each state its certified band, which follows these states."""
        for column, curve in zip(columns, curves):
            if self.certified and column.name in states.numbers:
                curve.tube = Tube(self.certified, column.name, self.width, *self.ticks(self.run))
                states.listeners.setdefault(states.numbers[column.name], []).append(curve.tube)
        if not states.listeners:
            raise Fault("--certificate: none of the variables that are drawn is a state")
        return states

    def read(self, rows: Rows, takes: "Takes", is_own: bool) -> None:
        """Reads rows, up to the last tick that is drawn if the run is our own."""
        run, watch, started, last = rows.run, takes.watch, False, 0
        changed: Set[int] = set()
        tick, end = 0, self.ticks(rows.run)[1]
        for at, event, variable, level, state in self.taken(rows):
            if is_own and tick > end:
                break
            if not started and event not in ("start", "slope"):
                started = True
                watch.check_started(rows.name)
            if at != tick:
                takes.tick(tick, changed)
                takes.approach(at)
                tick, changed = at, set()
            if takes.states:
                takes.states.take(at, variable, level, state)
            if event == "when":
                if takes.marks is not None:
                    takes.marks.take(at, variable)
            elif event == "overflow":
                self.overflows(run, at, variable)
            elif event == "slope":
                watch.slope(at, variable, level)
            else:
                changed.update(watch.take(variable, level, state))
            last = at
        takes.tick(tick, changed)
        if takes.states:
            takes.states.finish(last)
        for curve in takes.curves:
            curve.finish(last)

    def taken(self, rows: Rows) -> Iterator[Row]:
        """The rows, without values that are left out."""
        return iter(rows) if self.args.all_values else steady_rows(rows.run, rows)

    def read_arrays(self, rows: Rows, takes: "Takes", is_own: bool) -> None:
        """Reads rows as arrays, and thins each curve as a whole."""
        from ..runs import bulk, series, thinning

        run, end = rows.run, self.ticks(rows.run)[1]
        needed = {name for column in takes.columns for name in column.needs}
        wanted = [run.names[name] for name in needed]
        with_states = any(isinstance(column, Column) and column.use_state for column in takes.columns)
        record = bulk.record_of(rows, wanted, with_states, end if is_own else None)
        values = series.Values(rows, record, self.args.all_values)
        values.check_started(takes.columns)
        for column, curve in zip(takes.columns, takes.curves):
            ticks, numbers = values.floats(column)
            window = curve.begin, curve.end
            if isinstance(column, Column) and column.use_state:
                curve.set_points(thinning.thinned(ticks, numbers, window, curve.width), False)
            else:
                curve.set_points(thinning.thinned_steps(ticks, numbers, rows.tick, window, curve.width), True)
        if takes.marks is not None:
            for label, fired in series.firings(record).items():
                takes.marks.take_all(fired, label)
        overflow = series.overflow_of(record, run)
        if overflow:
            self.overflows(run, *overflow)

    def overflows(self, run: Run, tick: int, name: str) -> None:
        """The run overflowed at this tick."""
        self.overflowed = tick, name
        self.say(overflow_text((tick, name), run))

    def say(self, text: str) -> None:
        """Reports something about the rows."""
        print("qss-plot: %s" % text, file=sys.stderr)

    def write(self) -> None:
        times = float(self.begin), float(self.end)
        panels = [(self.with_unit(label, curves), curves) for label, curves in self.panels]
        if self.kind == "text":
            sys.stdout.write(text_of(panels, times, self))
            return
        if self.kind == "html":
            from . import html_plot

            html_plot.draw(self, panels, times)
        elif self.kind == "svg" and not self.paths and not self.is_plain() and has_matplotlib():
            from . import mpl_plot

            mpl_plot.draw(self, panels, times)
        elif self.kind in ("png", "pdf"):
            draw_elsewhere(self, panels, times)
        else:
            if self.paths:
                upward = ", ".join(path.label for path in self.paths)
                text = path_picture(self.paths, (self.label_of(self.args.against), upward), self)
            else:
                text = picture_of(panels, self.marks, times, self)
            with Output(None if self.path == "-" else self.path) as output:
                output.write(text)
        if self.path != "-":
            print(self.path)


class Takes:
    """What takes the ticks of a run: curves, or paths and their points."""

    def __init__(
        self,
        drawing: Drawing,
        scale: int,
        columns: Sequence[AnyColumn],
        curves: Sequence[Curve],
        paths: Optional[Sequence[Path]],
        marks: Optional[Marks],
    ):
        self.columns, self.curves, self.paths, self.marks = columns, curves, paths, marks
        self.watch = Watch(columns)
        self.states: Optional[States] = None  # of a run with a certificate
        self.begin, self.end = drawing.begin * scale, drawing.end * scale

    def tick(self, tick: int, changed: Set[int]) -> None:
        """Takes the values at a tick of the columns that changed."""
        if self.paths is not None:
            if changed or self.watch.moving:
                self.points(tick)
            return
        for place in changed:
            curve, column = self.curves[place], self.columns[place]
            if isinstance(column, Column) and column.use_state:
                curve.line_to(tick, column.number())
            else:
                curve.take(tick, column.number())

    def approach(self, tick: int) -> None:
        """Moves the columns of a run of second order along their lines to the next tick that has rows."""
        for place in self.watch.move(tick):
            if self.paths is None:
                self.curves[place].line_to(tick, self.columns[place].number())

    def points(self, tick: int) -> None:
        """Takes a point of each path, if the tick is drawn."""
        column = self.columns[-1]
        if self.begin <= tick <= self.end:
            x = column.number()
            for path, one in zip(self.paths or (), self.columns):
                path.take(x, one.number())


def is_replaceable(path: str) -> bool:
    """Whether a picture may be written under a name that was not given: there is none, or one that qss-plot drew."""
    if path == "-" or not os.path.exists(path):
        return True
    try:
        with open(path, encoding="utf-8", errors="replace") as file:
            return SIGNATURE in file.read(1000)
    except OSError:
        return False


def has_matplotlib() -> bool:
    try:
        import matplotlib  # noqa: F401
    except ImportError:
        return False
    return True


def draw_elsewhere(drawing: Drawing, panels: Sequence[Panel], times: Tuple[float, float]) -> None:
    """Draws by matplotlib, or else by gnuplot."""
    if has_matplotlib():
        from . import mpl_plot

        mpl_plot.draw(drawing, panels, times)
        return
    series = []
    for label, curves in panels:
        lines = []
        for curve, dashed in curves:
            points = points_of(curve, times)
            style = "points pointtype 7 pointsize 0.4" if curve.is_dotted else "lines" + " dashtype 2" * dashed
            lines.append((curve.label, style, [time for time, _ in points], [value for _, value in points]))
        series.append((label, lines, bands_of([curve for curve, _ in curves], *times)))
    by_gnuplot(drawing, series, times)


def by_gnuplot(
    drawing: Drawing, series: Sequence[Tuple[str, Sequence[Any], Sequence[Any]]], times: Tuple[float, float]
) -> None:
    """A script with its data; what gnuplot writes goes to the file when it is whole."""
    terminal = (
        "pngcairo size %d,%d" % (900, 60 + len(series) * (drawing.height + 40)) if drawing.kind == "png" else "pdfcairo"
    )
    script = [
        "set terminal %s" % terminal,
        "set grid",
        "set xrange [%g:%g]" % times,
        "set multiplot layout %d,1 title '%s'" % (len(series), drawing.title.replace("'", "")),
    ]
    for label, lines, bands in series:
        plots: List[str] = []
        for place, opacity, times_of, low, high in bands:
            block = "$b%d_%d" % (len(script), len(plots))
            rows = "\n".join("%.12g %.10g %.10g" % row for row in zip(times_of, low, high))
            script.append("%s << END\n%s\nEND" % (block, rows))
            plots.append(
                "%s with filledcurves fillcolor rgb '%s' fillstyle transparent solid %g notitle"
                % (block, COLOURS[place % len(COLOURS)], opacity)
            )
        for place, (name, style, times_of, values) in enumerate(lines):
            block = "$d%d_%d" % (len(script), place)
            script.append(
                "%s << END\n%s\nEND" % (block, "\n".join("%.12g %.10g" % pair for pair in zip(times_of, values)))
            )
            plots.append("%s with %s title '%s' noenhanced" % (block, style, name))
        script.append("set ylabel '%s' noenhanced" % label.replace("'", ""))
        script.append("plot " + ", ".join(plots))
    script.append("unset multiplot")
    done = subprocess.run(["gnuplot"], input="\n".join(script).encode(), stdout=subprocess.PIPE, stderr=subprocess.PIPE)
    if done.returncode or not done.stdout:
        raise Fault("gnuplot: %s" % (done.stderr.decode("utf-8", "replace").strip().split("\n")[-1] or "no picture"))
    with Output(drawing.path) as output:
        output.held.write(done.stdout)


def main(arguments: Optional[Sequence[str]] = None) -> int:
    """Runs the tool and returns its status."""
    return run_tool("qss-plot", tool, arguments, numeric=True)


if __name__ == "__main__":
    sys.exit(main())
