"""Measured values: their files, their comparison with runs, and their pictures."""
import argparse
import math
import os
import unittest
from unittest import mock
from xml.etree import ElementTree

from models import BALL, BALL_ROWS, GROWING, LINE
from support import PROGRAM, ROOT, STAND_IN, InFolder, python_with, run, run_by

from qss_tools.fault import Fault
from qss_tools.runs.rows import Run
from qss_tools.model.units import time_of
from qss_tools.tables.measurements import Measurements, cells_of, named, unit_factor

SVG = "{http://www.w3.org/2000/svg}"

# x is 1 + time/2, so the errors of the values below are 0.25, -0.5 and 0.5. The unit of time is ms.
RAMP = LINE.replace("x(start = 1)", 'x(start = 1, unit = "V"), y(unit = "A")').replace("0.5;", "0.5; y = 4 - x;")
RAMP = RAMP.replace("CoefBits = 0", "CoefBits = 1")
RAMP = RAMP.replace("QSS_Quantum = 1)", 'QSS_Quantum = 1, QSS_TimeUnit = "ms")')
VALUES = "t [ms],x [V]\n0,0.75\n2,2.5\n4,2.5\n"
REPORT = "  x: rms error %.3g V (%.2g %% of its size), greatest error 0.5 V at 2 ms; 3 values\n"
REPORT %= (math.sqrt((0.0625 + 0.25 + 0.25) / 3), 100 * math.sqrt((0.0625 + 0.25 + 0.25) / 3) / 2.5)


class Names(unittest.TestCase):
    def test_names_with_units(self):
        for text, wanted in (
            ("uC", ("uC", "")),
            (" uC [mV] ", ("uC", "mV")),
            ("uC (V)", ("uC", "V")),
            ("i[2]", ("i[2]", "")),
            ("i[2] [A]", ("i[2]", "A")),
            ("t[\u00b5s]", ("t", "us")),
        ):
            self.assertEqual(named(text), wanted)

    def test_units_with_prefixes(self):
        for unit, other, factor in (
            ("V", "V", 1),
            ("mV", "V", 0.001),
            ("V", "mV", 1000),
            ("kOhm", "Ohm", 1000),
            ("mm", "m", 0.001),
            ("uA", "mA", 0.001),
            ("V", "A", None),
            ("m", "V", None),
        ):
            self.assertEqual(unit_factor(unit, other), factor, unit)

    def test_lengths_of_time(self):
        for text, unit, wanted in (("1.5ms", "ms", 1.5), ("-2 us", "ms", -0.002), ("3", "s", 3), ("1/4s", "ms", 250)):
            self.assertEqual(float(time_of(text, unit)), wanted)
        for text, unit, part in (
            ("ms", "ms", "'ms' is not a time"),
            ("1/0", "ms", "is not a time"),
            ("3 V", "ms", "'V' is no unit of time here: the units are ns, us"),
            ("3s", "1", "the model's time has no unit"),
        ):
            with self.assertRaises(Fault) as caught:
                time_of(text, unit)
            self.assertIn(part, str(caught.exception))


class Files(InFolder):
    def setUp(self):
        super().setUp()
        self.model = self.file("ramp.mo", RAMP)

    def found(self, text, *columns, **options):
        """The times and the values of each variable."""
        words = {"data": self.file("data.csv", text), "column": columns, "shift": None, "source": self.model, **options}
        data = Measurements(argparse.Namespace(**words), Run(self.model, PROGRAM))
        return {one.variable: (one.times, one.values) for one in data.within_run()}

    def test_columns_by_name(self):
        wanted = {"x": ([0, 2, 4], [0.75, 2.5, 2.5])}
        for text, columns in (
            (VALUES, ()),
            ("x [mV],noise,time_us\n750,,0\n2500,7,2000\n2500,8,4000\n", ()),
            ("# a comment\n\n when (s),x\n0,0.75\n# another\n0.002,2.5\n\n,\n0.004,2.5\n", ()),
            ("CH1;T\n0,75;0\n2,5;2\n2,5;4\n", ("x=CH1",)),
            ("t [ms]\tx\n0\t0.75\n1\tNaN\n2\t2.5\n3\t\n3.5\n4\t2.5\n", ()),
            ('"t [\u00b5s]","x"\r\n0,0.75\r\n2e3,2.5\r\n4e3,2.5\r\n', ()),
            ("\ufefft,x\n0,0.75\n2,2.5\n4,2.5\n9,1\n-1,1\n", ()),
        ):
            self.assertEqual(self.found(text, *columns), wanted, text)

    def test_expressions_and_shifts(self):
        found = self.found("t,P,x\n0,1,2\n3,5,6\n", "x*y=P", "(x - 1)=x", shift="500us")
        self.assertEqual(found, {"x*y": ([0.5, 3.5], [1, 5]), "(x - 1)": ([0.5, 3.5], [2, 6])})

    def test_units_of_expressions(self):
        """A sum of volts is in V. With a factor, the unit is not known, and a note states what is taken."""
        for variable, values, notes in (
            ("x - x", [0.001, 0.005], []),
            ("-(x)", [0.001, 0.005], []),
            ("0.1*x", [1, 5], ["the unit of 0.1*x is not known: taken as mV, that of the column 'P'"]),
            ("x*y", [1, 5], ["the unit of x*y is not known: taken as mV, that of the column 'P'"]),
            ("x + y", [1, 5], ["the unit of x + y is not known: taken as mV, that of the column 'P'"]),
        ):
            path = self.file("data.csv", "t,P [mV]\n0,1\n3,5\n")
            words = {"data": path, "column": [variable + "=P"], "shift": None, "source": self.model}
            data = Measurements(argparse.Namespace(**words), Run(self.model, PROGRAM))
            self.assertEqual((data.found[0].values, data.notes), (values, notes), variable)
        with self.assertRaises(Fault) as caught:
            self.found("t,P [mA]\n0,1\n3,5\n", "x - 2*x + x=P", "-x=P")
        self.assertIn("the column 'P' is in mA, and -x is in V", str(caught.exception))

    def test_latin_text(self):
        self.assertEqual(cells_of(self.file("l.csv", b"t [\xb5s],x\n1,2\n")).heads[0], ("t", "us"))

    def test_a_time_at_the_end_may_be_rounded(self):
        self.assertEqual(self.found("t,x\n8.000000001,1\n8.1,2\n")["x"], ([8.0], [1.0]))

    def test_faults_name_the_line(self):
        for text, columns, part in (
            ("", (), "data.csv: the file is empty"),
            ("# only a comment\n", (), "the file is empty"),
            ("t,x\n", (), "data.csv: there are no values below line 1"),
            ("1,2\n3,4\n", (), "data.csv: line 1: the names of the columns are missing"),
            ("t,x,x\n1,2,3\n", (), "line 1: the name 'x' is there twice"),
            ("t,x\n1,2,3\n", (), "line 2: 3 values, and there are 2 names"),
            ("t,x\n1,2\n2,two\n", (), "line 3: 'two' is not a number"),
            ("t,x\n1,2\n\n2,inf\n", (), "line 4: 'inf' is not a number"),
            ("t,x\n1,2\n,3\n", (), "line 3: the time is missing"),
            ("t,x\n1,\n2,nan\n", (), "line 1: the column 'x' has no values"),
            ("t,z,CH1\n1,2,3\n", (), "line 1: no column is a variable of"),
            ("t,z\n1,2\n", (), "(columns: t, z; variables: x, y); --column NAME=COLUMN names one"),
            ("t,x [A]\n1,2\n", (), "line 1: the column 'x' is in A, and x is in V"),
            ("t [V],x\n1,2\n", (), "line 1: the times are in 'V', and the time of"),
            ("t,x\n1,2\n", ("x=CH1",), "has no column 'CH1' (columns: t, x)"),
            ("t,x\n1,2\n", ("w=x",), "no variable 'w'"),
            ("t,x\n1,2\n", ("x",), "'x' is not NAME=COLUMN"),
            ("t,x\n1,2\n", ("x=x", "x=t"), "'x' is given twice"),
            ("t,x\n9,2\n", (), "no time of the values of x is within the run of"),
            ("t,x\n1,2\n" + "\0" * 3, (), "data.csv: "),
        ):
            with self.subTest(text=text, columns=columns):
                with self.assertRaises(Fault) as caught:
                    self.found(text, *columns)
                self.assertIn(part, str(caught.exception))

    def test_a_time_without_a_unit(self):
        self.file("ramp.mo", RAMP.replace('"ms"', '"1"'))
        self.assertEqual(self.found("t,x\n1,2\n"), {"x": ([1.0], [2.0])})
        with self.assertRaises(Fault) as caught:
            self.found("t [ms],x\n1,2\n")
        self.assertIn("the times are in 'ms', and the time of %s has no unit" % self.model, str(caught.exception))


class Compared(InFolder):
    def setUp(self):
        super().setUp()
        self.model, self.data = self.file("ramp.mo", RAMP), self.file("data.csv", VALUES)

    def call(self, *words):
        return run("qss-accuracy", *words, "--program", PROGRAM)

    def test_errors_by_hand(self):
        head = "%s and data.csv, from 0 to 4 ms\n" % self.model
        self.assertEqual(self.call(self.model, "--with", self.data), (0, head + REPORT, ""))
        # (2 ms later the run is higher by 1)
        out = self.call(self.model, "--with", self.data, "--shift", "2ms")[1]
        self.assertIn("from 2 to 6 ms\n  x: rms error 1.16 V", out)
        self.assertIn("greatest error 1.5 V at 6 ms; 3 values\n", out)
        out = self.call(self.model, "--with", self.data, "--shift=-1ms")[1]
        self.assertIn("from 1 to 3 ms; 1 value outside of the run\n", out)

    def test_other_values_models_and_variables(self):
        both = self.file("both.csv", "t,x,A\n0,4.75,3\n2,6,2\n")
        words = (self.model, self.model, "--with", both, "--set", "x.start=5", "--column", "y=A")
        status, out, err = self.call(*words)
        self.assertEqual((status, err, out.count("  y: rms error")), (0, "", 2))
        # (x is 5 and 6, and y is -1 and -2)
        self.assertIn("%s with x.start = 5 and both.csv, from 0 to 2 ms\n" % self.model, out)
        self.assertIn("  y: rms error 4 A (133 % of its size)", out)
        self.assertIn("  x: rms error 0.177 V (2.9 % of its size), greatest error 0.25 V at 0 ms; 2 values", out)

    def test_products_and_second_order(self):
        data = self.file("p.csv", "t,P\n2,4\n6,1\n")
        for order in ("1", "2"):
            out = self.call(self.model, "--with", data, "--column", "x*y=P", "--order", order)[1]
            # (x*y is 2*2 and 4*0)
            self.assertIn("  x*y: rms error 0.707 (18 % of its size), greatest error 1 at 6 ms; 2 values", out)

    def test_without_numpy(self):
        with mock.patch.dict(os.environ, QSS_NUMPY="0"):
            self.assertEqual(self.call(self.model, "--with", self.data)[1].split("\n", 1)[1], REPORT)

    def test_a_run_that_overflows(self):
        model, data = self.file("m.mo", GROWING), self.file("g.csv", "t,x\n1,1001\n3,1003003001\n8,0\n")
        status, out, err = self.call(model, "--with", data)
        self.assertEqual((status, err), (1, "qss-accuracy: the run overflowed: x at tick 5 (time 5)\n"))
        self.assertIn(
            "m.mo and g.csv, from 1 to 3 s; 1 value outside of the run\n  x: rms error 0 (0 % of its size)", out
        )

    def test_faults(self):
        for words, part in (
            ((self.model, "--with", os.path.join(self.folder, "none")), "there is no such file"),
            ((self.model, "--shift", "1ms"), "go with --with"),
            (("--page", "--with", self.data), "give a model, or --page"),
            ((self.model, "--with", self.data, "--unit", "V"), "'V' is no unit of time"),
            ((self.model, "--with", self.data, "--set", "z=1"), "no parameter or setting 'z'"),
        ):
            with self.subTest(words):
                self.assert_fault(self.call(*words), part)


class Pictures(InFolder):
    def setUp(self):
        super().setUp()
        self.ball, self.rows = self.file("ball.mo", BALL), self.file("ball.csv", BALL_ROWS)
        self.data = self.file("data.csv", "t,y,CH1\n0,1,0\n0.625,0.5,-9\n1.25,0,1\n2,5,5\n")
        self.path = os.path.join(self.folder, "picture.svg")

    def call(self, *words):
        words = (self.ball, self.rows, *words, "--no-advice", "-o", self.path, "--program", STAND_IN)
        return run("qss-plot", *words)

    def texts(self):
        return [element.text for element in ElementTree.parse(self.path).iter(SVG + "text")]

    def dots(self):
        paths = ElementTree.parse(self.path).iter(SVG + "path")
        return [one.get("d") for one in paths if one.get("stroke-linecap") == "round"]

    def test_values_are_points(self):
        """y is from -1 to 1: in 108 pixels with a 27th of room, 1, 1/2 and 0 are 4, 29 and 54 pixels from the top."""
        self.assertEqual(self.call("--with", self.data, "--names", "y", "--height", "108"), (0, self.path + "\n", ""))
        self.assertEqual(self.dots(), ["M0 16h0M1440 116h0M2880 216h0"])
        self.assertIn("y (measured)", self.texts())

    def test_each_measured_variable_has_a_panel(self):
        self.assertEqual(self.call("--with", self.data, "--column", "v=CH1", "--column", "(y + 1)=y")[0], 0)
        self.assertEqual(len(self.dots()), 2)
        self.assertTrue({"v (measured)", "(y + 1)", "(y + 1) (measured)"} <= set(self.texts()))

    def test_a_window_and_a_shift(self):
        words = ("--with", self.data, "--names", "y", "--from", "0.5", "--to", "1", "--shift", "0.25")
        self.assertEqual(self.call(*words)[0], 0)
        # (of the times 0.25, 0.875 and 1.5 one is in the window of 720 pixels)
        self.assertEqual([one.split(" ")[0] for one in self.dots()], ["M2160"])
        self.assertEqual(self.dots()[0].count("M"), 1)

    def test_signs_in_a_terminal(self):
        words = (
            self.ball,
            self.rows,
            "--with",
            self.data,
            "--names",
            "y",
            "--text",
            "--no-advice",
            "--program",
            STAND_IN,
        )
        out = run("qss-plot", *words)[1]
        self.assertIn("y  (* y, o y (measured))", out)
        self.assertEqual(out.split("\n", 2)[2].count("o"), 3)

    def test_pages_and_pictures_by_packages(self):
        for modules, name, wanted in (
            (("matplotlib", "numpy"), "p.png", b"\x89PNG"),
            (("plotly",), "p.html", b'"mode":"markers"'),
        ):
            python = python_with(*modules)
            if python is None:
                continue
            path = os.path.join(self.folder, name)
            words = (self.ball, self.rows, "--with", self.data, "--no-advice", "-o", path, "--program", STAND_IN)
            self.assertEqual(run_by(python, "qss-plot", *words), (0, path + "\n", ""))
            with open(path, "rb") as file:
                self.assertIn(wanted, file.read())

    def test_many_values_are_thinned(self):
        lines = "".join("%.5f,%d\n" % (1.25 * one / 20000, one % 7) for one in range(20000))
        data = self.file("many.csv", "t,y\n" + lines)
        self.assertEqual(self.call("--with", data, "--names", "y")[0], 0)
        self.assertLessEqual(self.dots()[0].count("M"), 4 * 721)

    def test_faults(self):
        for words, part in (
            (("--with", self.data, "--names", "v"), "none of its values (of y) is in the picture"),
            (("--with", self.data, "--names", "y", "--from", "1.1", "--to", "1.2"), "is in the picture"),
            (("--with", self.data, "--names", "v", "--against", "y"), "goes without --against and --difference"),
            (("--shift", "1"), "--column and --shift go with --with"),
            (("--with", self.file("none.csv", "")), "none.csv: the file is empty"),
        ):
            with self.subTest(words):
                self.assert_fault(self.call(*words), part)
                self.assertFalse(os.path.exists(self.path))


class Example(unittest.TestCase):
    def test_the_values_of_the_page(self):
        """The run with the values of the comment is near the values of the tutorial: twice their noise at most."""
        model, data = (os.path.join(ROOT, "docs", "tutorial", "charge" + end) for end in (".mo", ".csv"))
        words = ["--column", "v=CH1", "--column", "i=CH2", "--shift", "50us", "--set", "R=1.2", "--set", "C=0.82"]
        status, out, err = run("qss-accuracy", model, "--with", data, *words, "--program", PROGRAM)
        self.assertEqual((status, err), (0, ""))
        errors = [float(line.split("rms error ")[1].split()[0]) for line in out.splitlines()[1:]]
        self.assertTrue(len(errors) == 2 and max(errors) < 0.04, out)


if __name__ == "__main__":
    unittest.main()
