"""Interactive pages, pictures by matplotlib, and differences of runs."""
import itertools
import json
import os
import re
import sys
import unittest
from argparse import Namespace
from fractions import Fraction
from xml.etree import ElementTree

from browser import Page, browser
from models import BALL, BALL_ROWS, GROWING, GROWING_ROWS
from support import PROGRAM, STAND_IN, InFolder, python_with, run, run_by
from test_measures import line

from qss_tools.plot.bands import bands_of
from qss_tools.plot.curves import Curve
from qss_tools.plot.differences import Difference
from qss_tools.plot.knots import MOST_COLUMNS, Firings, page_columns

# The levels of BALL_ROWS, and its times: y changes at 0.5, 0.75 and 1.
Y_POINTS = [(0, 1), (0.5, 0.25), (0.75, -1), (1, -0.5), (1.25, -0.5)]


class Curves(unittest.TestCase):
    def curve(self, begin, end, *points):
        curve = Curve("x", 4000, begin, end)
        for tick, value in points:
            curve.take(tick, value)
        return curve

    def test_values_that_hold(self):
        curve = self.curve(0, 8, (0, 1.0), (3, 2.0))
        curve.finish(8)
        self.assertEqual(curve.points(), [(0, 1.0), (3, 1.0), (3, 2.0), (8, 2.0)])
        self.assertEqual(curve.changes(), [(0, 1.0), (3, 2.0), (8, 2.0)])
        self.assertEqual(curve.bounds(), (1.0, 2.0))

    def test_a_window_cuts_lines(self):
        curve = self.curve(2, 6, (0, 0.0))
        curve.line_to(4, 8.0)
        curve.line_to(8, 0.0)
        curve.finish(8)
        self.assertEqual(curve.points(), [(2, 4.0), (4, 8.0), (6, 4.0)])

    def test_many_points_keep_their_bounds(self):
        curve = Curve("x", MOST_COLUMNS, 0, 100000)
        for tick in range(100001):
            curve.line_to(tick, float((tick * 7919) % 1000) + (5000 if tick == 77777 else 0))
        curve.finish(100000)
        found = curve.points()
        self.assertLessEqual(len(found), 4 * MOST_COLUMNS + 4)
        self.assertEqual(found, sorted(found, key=lambda point: point[0]))
        self.assertEqual(found[0], (0, 0.0))
        self.assertEqual(found[-1][0], 100000)
        self.assertIn((77777, 5000.0 + (77777 * 7919) % 1000), found)

    def test_a_page_of_many_curves_is_not_too_large(self):
        self.assertEqual([page_columns(count) for count in (1, 10, 40)], [4000, 4000, 1000])

    def test_firings_are_thinned(self):
        firings = Firings(0, 10**6)
        for tick in range(10**6 - 20000, 10**6):
            firings.take(tick, "1.1")
        self.assertEqual(firings.counts, {"1.1": 20000})
        self.assertTrue(75 <= len(firings.ticks["1.1"]) <= 82)

    def test_a_band_around_a_curve(self):
        curve = self.curve(0, 4, (0, 1.0))
        curve.finish(4)
        self.assertEqual(bands_of([curve], 0.0, 2.0), [])
        curve.tube = Namespace(width=2, edges=lambda factor: [(0, 1 - factor, 1 + factor)])
        wide, narrow = bands_of([curve], 0.0, 2.0)
        self.assertEqual((wide.times, wide.lower, wide.upper), ([0.5], [-1], [3]))
        self.assertEqual((narrow.times, narrow.lower, narrow.upper), ([0.5], [0], [2]))


class Differences(InFolder):
    def test_lines_in_different_units(self):
        """One goes by 1 in each tick of 1/2 up to 8, the other by 3/8 in each of 1/4 from 1, and jumps to 0 at 2."""
        one = line([(0, 0, 1)], 8, tick=Fraction(1, 2))
        one.quantum = Fraction(1, 4)
        other = line([(0, 8, 3), (8, 0, 3)], 16, unit=Fraction(1, 8), tick=Fraction(1, 4))
        found = Difference(one, other)
        # 2 t less 1 + 3/2 t up to 2, and less 3/2 (t - 2) from then on
        self.assertEqual(found.largest(), (4, 8 - 3))
        self.assertEqual(found.largest(0, 1), (0, -1))
        self.assertEqual(found.largest(1, Fraction(3, 2)), (1, Fraction(-1, 2)))
        self.assertEqual(found.largest(Fraction(1, 2), 2), (2, 4))
        self.assertEqual((found.value, found.time, found.quanta), (5.0, 4.0, 20.0))
        times, values = found.curve()
        self.assertEqual(list(zip(times, values)), [(0, -1), (2, 0), (2, 4), (4, 5)])

    def test_two_runs_of_a_ball(self):
        """The second one starts at 2: y moves as before, so it is 1 higher, until v is reversed in the first run only."""
        ball, higher = self.file("ball.mo", BALL), self.file("higher.mo", BALL.replace("start = 1)", "start = 2)"))
        path = os.path.join(self.folder, "d.svg")
        words = [ball, "--over-model", higher, "--difference", "--program", PROGRAM, "--no-advice", "-o", path]
        status, out, err = run("qss-plot", *words, "--names", "y,v", "--to", "0.75", "--unit", "s")
        # at 0.75 v is 1.875 after the bounce, and -7.5 in the other run: 9.375, which is 37.5 quanta
        self.assertEqual((status, err), (0, ""))
        self.assertEqual(
            out,
            "y: largest difference -1 at time 0, 4 quanta\n"
            "v: largest difference 9.375 at time 0.75, 37.5 quanta\n%s\n" % path,
        )
        self.assertIsNotNone(ElementTree.parse(path))

    def test_faults(self):
        ball, rows = self.file("ball.mo", BALL), self.file("ball.csv", BALL_ROWS)
        model, grown = self.file("m.mo", GROWING), self.file("m.csv", GROWING_ROWS)
        for words, part in (
            ([ball, rows], "needs a second run"),
            ([ball, rows, "--over", rows, "--events"], "without --against and --events"),
            ([ball, rows, "--over-model", model, "--over", grown], "no variable 'y'"),
        ):
            with self.subTest(part):
                answer = run("qss-plot", *words, "--difference", "--program", STAND_IN, "-o", "-", "--no-advice")
                self.assert_fault(answer, part)


LAYOUT = "document.querySelector('.plotly-graph-div')._fullLayout"


def place_of(page, axis, time, value):
    """Where a page in a browser draws a time and a value of an axis: "" is the first panel, "2" the second."""
    left, top = page.value(
        "(() => {const b = document.querySelector('.plotly-graph-div').getBoundingClientRect();"
        " return [b.left, b.top]})()"
    )
    across = page.value("%s.xaxis%s._offset + %s.xaxis%s.l2p(%g)" % (LAYOUT, axis, LAYOUT, axis, time))
    down = page.value("%s.yaxis%s._offset + %s.yaxis%s.l2p(%g)" % (LAYOUT, axis, LAYOUT, axis, value))
    return left + across, top + down


def is_blue(page, axis, time, value):
    """Whether the curve is near a point: its colour, or a part of it where it covers a part of a pixel."""
    return any(blue - red > 50 for red, _, blue in page.colours(*place_of(page, axis, time, value)))


class Pages(InFolder):
    def setUp(self):
        super().setUp()
        self.python = python_with("plotly")
        if self.python is None:
            self.skipTest("plotly is not installed")
        self.ball = self.file("ball.mo", BALL.replace("y(start = 1)", 'y(start = 1, unit = "m")'))
        self.rows = self.file("ball.csv", BALL_ROWS)
        self.path = os.path.join(self.folder, "ball.html")

    def page(self, *words):
        words = [self.ball, self.rows, "--program", STAND_IN, "--no-advice", *words, "-o", self.path]
        self.assertEqual(run_by(self.python, "qss-plot", *words), (0, self.path + "\n", ""))
        with open(self.path, encoding="utf-8") as file:
            return file.read()

    def traces(self, text):
        """The curves of a page."""
        begin = text.index("[{", text.rindex("Plotly.newPlot("))
        return json.JSONDecoder().raw_decode(text[begin:])[0]

    def test_what_is_on_a_page(self):
        text = self.page("--html", "--names", "y,v", "--events", "--unit", "s")
        self.assertEqual(re.findall(r"<(?:script|link|img)[^>]*(?:src|href)=", text), [])
        y, v, marks = self.traces(text)
        held = [(0.4995, 1), (0.74975, 0.25), (0.99975, -1)]  # values just before they change, for the cursor
        self.assertEqual(list(zip(y["x"], y["y"])), sorted(Y_POINTS + held))
        self.assertEqual(y["line"]["shape"], "hv")
        self.assertEqual((y["name"], y["xaxis"], v["xaxis"], marks["name"]), ("y", "x", "x2", "branch 1.1"))
        self.assertEqual((marks["x"], marks["y"]), ([0.75], ["1.1"]))
        self.assertIn("time (s)", text)

    def test_a_page_in_a_browser(self):
        """The curve is drawn where its values are, a rectangle zooms all panels, and a value is shown at the cursor."""
        if browser() is None:
            self.skipTest("Chromium is not installed")
        self.page("--names", "y,v", "--height", "100")
        page = Page()
        self.addCleanup(page.close)
        try:
            page.open("file://" + self.path)
            page.wait("document.querySelectorAll('.scatterlayer path.js-line').length >= 2")
        except TimeoutError:
            self.skipTest("Chromium does not answer in time")
        for axis, time, value in (("", 0.25, 1), ("", 0.6, 0.25), ("", 0.9, -1), ("2", 0.1, 0), ("2", 0.85, 1.75)):
            page.wait(lambda: is_blue(page, axis, time, value))
        for axis, time, value in (("", 0.25, 0.25), ("", 0.9, 0), ("2", 0.1, -4)):
            self.assertFalse(is_blue(page, axis, time, value), (axis, time, value))
        steps = itertools.cycle((0, 1))  # (a mouse that does not move shows nothing)
        for time, text in ((0.55, "0[.]25 m"), (0.7, "0[.]25 m"), (0.8, "[-\u2212]1 m")):
            across, down = place_of(page, "", time, 0.3)
            page.wait(
                "/%s/.test(document.querySelector('.hoverlayer').textContent)" % text,
                lambda: page.mouse("Moved", across + next(steps), down),
            )
        page.drag(*place_of(page, "", 0.5, 0), *place_of(page, "", 1, 0))
        page.wait("%s.xaxis.range[1] < 1.1" % LAYOUT)
        for axis in ("", "2"):
            first, last = page.value("%s.xaxis%s.range" % (LAYOUT, axis))
            self.assertAlmostEqual(first, 0.5, 1)
            self.assertAlmostEqual(last, 1, 1)
        page.wait(lambda: is_blue(page, "", 0.7, 0.25))
        self.keep(page)

    def keep(self, page):
        """Writes a picture of the page into the folder that QSS_PICTURES names, to look at it."""
        if os.environ.get("QSS_PICTURES"):
            with open(os.path.join(os.environ["QSS_PICTURES"], self.id().split(".")[-1] + ".png"), "wb") as file:
                file.write(page.picture())

    def test_a_page_needs_plotly(self):
        if python_with("plotly") == sys.executable:
            self.skipTest("plotly is installed for this Python")
        words = [self.ball, self.rows, "--program", STAND_IN, "--no-advice", "--html", "-o", self.path]
        self.assert_fault(run("qss-plot", *words), "needs the package plotly")
        self.assertFalse(os.path.exists(self.path))


class Printed(InFolder):
    def test_pictures_by_matplotlib(self):
        python = python_with("matplotlib")
        if python is None:
            self.skipTest("matplotlib is not installed")
        ball, rows = self.file("ball.mo", BALL), self.file("ball.csv", BALL_ROWS)
        plain = os.environ.pop("QSS_PLAIN")
        self.addCleanup(os.environ.__setitem__, "QSS_PLAIN", plain)
        os.environ["MPLCONFIGDIR"] = self.folder
        self.addCleanup(os.environ.pop, "MPLCONFIGDIR")
        for kind, front in (("svg", b"<?xml"), ("png", b"\x89PNG\r\n\x1a\n")):
            path = os.path.join(self.folder, "picture." + kind)
            words = [ball, rows, "--events", "--names", "y+v", "--program", STAND_IN, "--no-advice", "-o", path]
            status, out, err = run_by(python, "qss-plot", *words)
            self.assertEqual((status, out), (0, path + "\n"), err)
            with open(path, "rb") as file:
                data = file.read()
            self.assertTrue(data.startswith(front))
            if kind == "svg":
                self.assertIn(b"drawn by qss-plot", data[:1000])
                self.assertIn(b"matplotlib", data)
                ElementTree.fromstring(data)
        self.assertEqual(run_by(python, "qss-plot", *words[:-2], "--plain", "-o", path[:-3] + "svg")[0], 0)
        with open(path[:-3] + "svg", "rb") as file:
            self.assertNotIn(b"matplotlib", file.read())


if __name__ == "__main__":
    unittest.main()
