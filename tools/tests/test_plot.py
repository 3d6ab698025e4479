"""Pictures of runs."""
import os
import re
import shutil
import sys
import unittest
from unittest import mock
from xml.etree import ElementTree

from models import BALL, BALL_ROWS, GROWING, GROWING_ROWS, HEADER, LINE, LINE_ROWS, SWITCHED, SWITCHED_ROWS
from support import STAND_IN, InFolder, run

from qss_tools.plot.curves import Curve, nice_steps
from qss_tools.plot.plot import has_matplotlib

SVG = "{http://www.w3.org/2000/svg}"


class Curves(unittest.TestCase):
    def test_a_column_keeps_its_ends_and_its_bounds(self):
        """Of six points in the first of two columns the first, the least, the greatest and the last are kept."""
        curve = Curve("x", 2, 0, 8)
        for tick, value in ((0, 1.0), (1, 5.0), (2, 2.0), (2.5, 0.5), (3, 3.0), (3.5, 4.0), (5, 0.0)):
            curve.line_to(tick, value)
        curve.finish(8)
        self.assertEqual(curve.points(), [(0, 1.0), (1, 5.0), (2.5, 0.5), (3.5, 4.0), (5, 0.0), (8, 0.0)])
        self.assertEqual(curve.bounds(), (0.0, 5.0))
        # (the line from 4 at 3.5 to 0 at 5 is at 8/3 at the edge between the columns)
        (low, high), (least, greatest) = curve.columns()
        self.assertEqual((low, high, least), (0.5, 5.0, 0.0))
        self.assertAlmostEqual(greatest, 8 / 3)

    def test_a_window_begins_with_the_value_that_stands(self):
        curve = Curve("x", 2, 4, 8)
        for tick, value in ((0, 1.0), (3, 2.0), (6, 3.0), (9, 4.0)):
            curve.take(tick, value)
        curve.finish(9)
        self.assertEqual(curve.points(), [(4, 2.0), (6, 2.0), (6, 3.0), (8, 3.0)])
        self.assertEqual(curve.columns(), [(2.0, 2.0), (2.0, 3.0)])

    def test_steps_are_round(self):
        self.assertEqual(nice_steps(0, 10, 5), [0, 2, 4, 6, 8, 10])
        self.assertEqual(nice_steps(-0.3, 0.3, 6), [-0.3, -0.2, -0.1, 0.0, 0.1, 0.2, 0.3])
        self.assertEqual(nice_steps(2, 2, 5), [2])


class Pictures(InFolder):
    def setUp(self):
        super().setUp()
        self.ball, self.rows = self.file("ball.mo", BALL), self.file("ball.csv", BALL_ROWS)
        self.path = os.path.join(self.folder, "picture.svg")

    def plot(self, *words):
        answer = run("qss-plot", *words, "--no-advice", "--program", STAND_IN)
        self.assertEqual((answer[0], answer[2]), (0, ""))
        return answer[1]

    def picture(self, *words):
        self.assertEqual(self.plot(*words, "-o", self.path), self.path + "\n")
        return ElementTree.parse(self.path).getroot()

    def texts(self, picture):
        return [element.text for element in picture.iter(SVG + "text")]

    def curves(self, picture):
        return [element for element in picture.iter(SVG + "path") if element.get("fill") == "none"]

    def test_a_panel_for_each_variable(self):
        picture = self.picture(self.ball, self.rows, "--unit", "s")
        self.assertEqual(len(self.curves(picture)), 2)
        self.assertTrue({"ball", "y", "v", "time (s)", "0", "1"} <= set(self.texts(picture)))

    def test_the_curve_goes_where_the_rows_say(self):
        """y is 1, 0.25, -1 and -0.5 from the times 0, 0.5, 0.75 and 1 on: of 1.25, and of -1 to 1 with 4 parts of a hundred."""
        picture = self.picture(self.ball, self.rows, "--names", "y", "--height", "108")
        path = self.curves(picture)[0].get("d")
        self.assertEqual(
            re.findall(r"[Mhv][-\d ]+", path), ["M0 16", "h1152", "v150", "h576", "v250", "h576", "v-100", "h576"]
        )

    def test_branches_and_a_second_run(self):
        picture = self.picture(self.ball, self.rows, "--names", "y+v", "--events", "--over", self.rows)
        curves = self.curves(picture)
        self.assertEqual(
            [element.get("stroke-dasharray") is not None for element in curves], [False, False, True, True]
        )
        self.assertIn("1.1", self.texts(picture))
        self.assertIn("y (second)", self.texts(picture))

    def test_one_variable_against_another(self):
        picture = self.picture(self.ball, self.rows, "--names", "v", "--against", "y")
        self.assertEqual(len(self.curves(picture)), 1)
        self.assertTrue({"y", "v"} <= set(self.texts(picture)))

    def test_algebraic_variables_and_arrays(self):
        model, rows = self.file(
            "s.mo", SWITCHED.replace("Real x(start = 8)", 'Real x(start = 8, unit = "V")')
        ), self.file("s.csv", SWITCHED_ROWS)
        picture = self.picture(model, rows, "--names", "x,p+third,u", "--from", "1", "--to", "3")
        self.assertEqual(len(self.curves(picture)), 5)
        self.assertIn("x [V]", self.texts(picture))

    def test_the_picture_is_named_after_the_model(self):
        self.file("ball.mo.rows", BALL_ROWS)
        before = os.getcwd()
        os.chdir(self.folder)
        try:
            self.assertEqual(self.plot(self.ball), "ball.svg\n")
            # (a picture of its own is drawn anew, and another file is not)
            self.assertEqual(self.plot(self.ball), "ball.svg\n")
            drawn = self.file("ball.svg", "<svg>drawn by hand</svg>")
            self.assert_fault(run("qss-plot", self.ball, "--program", STAND_IN), "-o names another one")
            with open(drawn, encoding="utf-8") as file:
                self.assertEqual(file.read(), "<svg>drawn by hand</svg>")
        finally:
            os.chdir(before)

    def test_some_elements_of_a_large_array(self):
        model = self.file(
            "m.mo",
            "model m Real u[9]; equation for i in 1:9 loop der(u[i]) = 0; end for; annotation(experiment(StopTime = 1,"
            " QSS_TickBits = 0)); end m;\n",
        )
        rows = self.file(
            "m.csv",
            HEADER
            + "".join(
                "%d,%s,u[%d],0,0\n" % (tick, event, place)
                for tick, event in ((0, "start"), (1, "end"))
                for place in range(1, 10)
            ),
        )
        texts = self.texts(self.picture(model, rows))
        self.assertEqual([text for text in texts if text.startswith("u[")], ["u[1]", "u[3]", "u[5]", "u[7]", "u[9]"])

    def test_signs_in_a_terminal(self):
        text = self.plot(self.ball, self.rows, "--names", "y", "--text").split("\n")
        self.assertEqual(text[0:2], ["ball", "y"])
        upper = next(line for line in text if "*" in line)
        self.assertEqual(len(upper) - upper.index("*"), 27)  # of 66 columns those up to half a second of 1.25

    def test_other_kinds_of_pictures(self):
        if not has_matplotlib() and not shutil.which("gnuplot"):
            self.skipTest("neither matplotlib nor gnuplot is here")
        path = os.path.join(self.folder, "picture.png")
        self.plot(self.ball, self.rows, "--events", "-o", path)
        with open(path, "rb") as file:
            self.assertEqual(file.read(8), b"\x89PNG\r\n\x1a\n")

    def test_a_picture_that_cannot_be_drawn_names_its_python(self):
        with mock.patch("qss_tools.plot.plot.has_matplotlib", return_value=False), mock.patch(
            "shutil.which", lambda _: None
        ):
            path = os.path.join(self.folder, "picture.png")
            answer = run("qss-plot", self.ball, self.rows, "--program", STAND_IN, "--no-advice", "-o", path)
        self.assert_fault(answer, "a PNG needs matplotlib or gnuplot, and %s has no matplotlib" % sys.executable)

    def test_an_overflow_is_told(self):
        model, rows = self.file("m.mo", GROWING), self.file("m.csv", GROWING_ROWS)
        status, _, err = run("qss-plot", model, rows, "-o", self.path, "--no-advice", "--program", STAND_IN)
        self.assertEqual((status, err), (1, "qss-plot: the run overflowed: x at tick 5 (time 5)\n"))
        self.assertTrue(os.path.exists(self.path))

    def test_rows_that_are_cut_are_drawn_up_to_there(self):
        cut = self.file("cut.csv", BALL_ROWS[:110])
        status, out, err = run("qss-plot", self.ball, cut, "-o", self.path, "--no-advice", "--program", STAND_IN)
        self.assertEqual((status, out), (1, self.path + "\n"))
        self.assertEqual(err, "qss-plot: %s: the rows end in the middle of line 6; the picture ends there\n" % cut)
        self.assertEqual(len(self.curves(ElementTree.parse(self.path).getroot())), 2)

    def test_settings_that_spoil_the_run_are_warned_of(self):
        status, out, err = run("qss-plot", self.ball, self.rows, "-o", self.path, "--program", STAND_IN)
        self.assertEqual((status, out, err.count("\n")), (0, self.path + "\n", 1))
        self.assertTrue(err.startswith("qss-plot: warning: %s:2:" % self.ball), err)
        self.assertTrue(err.endswith("see tools/qss-advise %s\n" % self.ball), err)

    def test_the_model_names_its_unit_of_time(self):
        text = BALL.replace("QSS_Quantum = 0.25", 'QSS_Quantum = 0.25, QSS_TimeUnit = "ms"')
        model = self.file("timed.mo", text)
        self.assertIn("time (ms)", self.texts(self.picture(model, self.rows)))
        self.assertIn("time (us)", self.texts(self.picture(model, self.rows, "--unit", "us")))
        other = self.file("other.mo", text.replace('"ms"', '"fortnight"'))
        self.assert_fault(run("qss-plot", other, self.rows, "--program", STAND_IN), "QSS_TimeUnit is 'fortnight'")

    def test_labels_of_several_variables(self):
        text = BALL.replace("y(start = 1)", 'y(start = 1, unit = "m")').replace(
            "v(start = 0)", 'v(start = 0, unit = "%s")'
        )
        same, other = self.file("same.mo", text % "m"), self.file("other.mo", text % "m/s")
        self.assertIn("y, v [m]", self.texts(self.picture(same, self.rows, "--names", "y+v")))
        texts = self.texts(self.picture(other, self.rows, "--names", "y+v"))
        self.assertTrue({"y, v", "y [m]", "v [m/s]"} <= set(texts), texts)

    def test_each_axis_has_three_numbers(self):
        for height in ("40", "100", "110", "300"):
            picture = self.picture(self.ball, self.rows, "--names", "y,v,y+v", "--height", height)
            texts = [element for element in picture.iter(SVG + "text")]
            upward = [element for element in texts if element.get("text-anchor") == "end"]
            across = [one for one in texts if one.get("text-anchor") == "middle" and re.match(r"^-?[\d.]+$", one.text)]
            self.assertGreaterEqual(len(upward), 9, height)
            self.assertGreaterEqual(len(across), 3)

    def test_the_legend_lies_beside_the_panel(self):
        picture = self.picture(self.ball, self.rows, "--names", "y+v")
        frame = next(element for element in picture.iter(SVG + "rect") if element.get("fill") == "none")
        right = float(frame.get("x")) + float(frame.get("width"))
        names = [element for element in picture.iter(SVG + "text") if element.text in ("y", "v")]
        self.assertEqual(len(names), 2)
        for element in names:
            self.assertGreater(float(element.get("x")), right)
            self.assertLess(float(element.get("x")) + 7 * len(element.text), float(picture.get("width")))

    def test_long_labels_have_room(self):
        long, other = "a_name_that_is_longer_than_most", "another_name_that_is_long"
        text = re.sub(r"\by\b", long, re.sub(r"\bv\b", other, BALL))
        model = self.file("ball.mo", text)
        rows = self.file("b.csv", BALL_ROWS.replace(",y,", ",%s," % long).replace(",v,", ",%s," % other))
        picture = self.picture(model, rows, "--names", "%s+%s" % (long, other), "--height", "60")
        label = next(element for element in picture.iter(SVG + "text") if element.get("transform"))
        self.assertLessEqual(0.56 * int(label.get("font-size")) * len(label.text), 60)

    def test_values_of_one_tick_are_left_out(self):
        """duty is set to 5, and a tick later to its limit 1: only the limit is drawn, unless all values are wanted."""
        model = self.file("limit.mo", LIMITED)
        rows = self.file("limit.csv", LIMITED_ROWS)
        for words, most in (((), 1.0), (("--all-values",), 5.0)):
            picture = self.picture(model, rows, "--names", "duty", *words)
            numbers = [float(one.text) for one in picture.iter(SVG + "text") if one.get("text-anchor") == "end"]
            self.assertEqual(max(numbers) > 2, most > 2, (words, numbers))

    def test_states_are_joined_by_lines(self):
        """v falls by 1.25 in each tick of 1/8 for six ticks, jumps to 1.875, and falls again: three lines."""
        picture = self.picture(self.ball, self.rows, "--names", "v", "--states", "--height", "100")
        path = self.curves(picture)[0].get("d")
        self.assertNotIn("v", path)
        self.assertEqual(len(re.findall("l", path)), len(re.findall("l|h", path)))

    def test_a_run_of_second_order(self):
        """The level of x rises from 1 by 1/2 in a tick up to tick 4, and then rests: a line over half of the picture."""
        model, rows = self.file("line.mo", LINE), self.file("line.csv", LINE_ROWS)
        picture = self.picture(model, rows, "--height", "100")
        path = self.curves(picture)[0].get("d")
        # (from 1 to 3 in a picture of 100 pixels with 4 parts of a hundred of room: 400 * 2 / 2.16 units)
        self.assertEqual(re.findall(r"[Mhvl][-\d ]+", path), ["M0 385", "l1440 -370", "h1440"])

    def test_a_triangle_of_many_periods_is_a_band(self):
        """10,000 periods over 720 columns: each column goes from the least to the greatest value, with few points."""
        curve = Curve("x", 720, 0, 40000)
        for tick in range(40001):
            curve.line_to(tick, float((0, 1, 0, -1)[tick % 4]))
        curve.finish(40000)
        self.assertEqual(set(curve.columns()), {(-1.0, 1.0)})
        self.assertLessEqual(len(curve.points()), 4 * 721)
        self.assertEqual(curve.points(), sorted(curve.points(), key=lambda point: point[0]))


LIMITED = """model limit
  Real x(start = 1);
  discrete Real duty;
equation
  der(x) = 0;
algorithm
  when time >= 2 then duty := 5; end when;
  when duty > 1 then duty := 1; end when;
  annotation(experiment(StopTime = 16, QSS_CoefBits = 4, QSS_TickBits = 0, QSS_LevelBits = 2, QSS_Quantum = 0.25));
end limit;
"""
LIMITED_ROWS = (
    HEADER
    + """0,start,x,4,64
0,start,duty,0,
2,when,1.1,,
2,set,duty,20,
3,when,2.1,,
3,set,duty,4,
16,end,x,4,64
16,end,duty,4,
"""
)


class Faults(InFolder):
    def test_faults_are_one_line_and_nothing_is_drawn(self):
        ball, rows = self.file("ball.mo", BALL), self.file("ball.csv", BALL_ROWS)
        other, none = self.file("other.mo", SWITCHED), os.path.join(self.folder, "none")
        cases = [
            ([ball, none], "no such file"),
            ([none, rows], "there is no such file"),
            ([other, rows], "another model"),
            ([ball, self.file("cut.csv", BALL_ROWS[:40])], "the rows end in the middle of line 2"),
            ([ball, rows, "--names", "w"], "no variable 'w'"),
            ([ball, rows, "--from", "2"], "nothing to draw"),
            ([ball, rows, "--over", none], "no such file"),
            ([self.file("refused.mo", "// stand-in print: 5 refused: lex 1 3\n" + BALL), rows], "qss-explain"),
            ([ball, rows, "--height", "3"], "--height"),
        ]
        path = os.path.join(self.folder, "picture.svg")
        for words, part in cases:
            with self.subTest(part=part, words=words[1:]):
                answer = run("qss-plot", *words, "-o", path, "--no-advice", "--program", STAND_IN)
                self.assert_fault(answer, part)
                self.assertFalse(os.path.exists(path))
        self.assert_fault(
            run("qss-plot", ball, rows, "-o", "picture.jpeg", "--program", STAND_IN), ".svg, .png or .pdf"
        )


if __name__ == "__main__":
    unittest.main()
