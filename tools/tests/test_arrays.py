"""Rows as arrays: the same rows, measures and tables as without numpy, and numbers of any size."""
import bisect
import cmath
import itertools
import math
import os
import random
import re
import shutil
import subprocess
import unittest
from fractions import Fraction
from unittest import mock

from models import BALL, BALL_ROWS, GROWING, GROWING_ROWS, HEADER, LINE, LINE_ROWS, SWITCHED, SWITCHED_ROWS
from support import STAND_IN, InFolder, python_with, run, run_by
from test_plot import LIMITED, LIMITED_ROWS

import qss_tools
from qss_tools import arrays
from qss_tools.fault import Fault
from qss_tools.runs.curves import trajectories
from qss_tools.runs.expressions import split_outside
from qss_tools.runs.rows import Lines, Rows, Run, ordered
from qss_tools.runs.series import merged, places_of
from qss_tools.runs.steady import short_places
from qss_tools.runs.thinning import held, thinned, thinned_steps
from qss_tools.runs.wide import Wide, running

HAS_NUMPY = arrays.load() is not None
WITHOUT = {"QSS_NUMPY": "0"}
BITS = (5, 29, 30, 31, 59, 60, 61, 62, 63, 88, 100)
LARGE = """model large
  Real x(start = %d), y(start = %d);
equation
  der(x) = 0;
  der(y) = 0;
  annotation(experiment(StopTime = 1, QSS_CoefBits = 32, QSS_TickBits = 12, QSS_LevelBits = 18, QSS_Quantum = 1));
end large;
"""
# A value that is set in each tick, and one that is past a limit for a tick.
EACH_TICK = (
    HEADER
    + "0,start,x,4,64\n0,start,duty,0,\n"
    + "".join("%d,when,1.1,,\n%d,set,duty,%d,\n" % (tick, tick, 4 * (tick % 3)) for tick in range(1, 16))
    + "16,end,x,4,64\n16,end,duty,0,\n"
)


class Places(unittest.TestCase):
    def test_values_that_hold_for_one_tick(self):
        for times, short in (
            ([0, 5, 6, 10], [1]),
            ([0, 2, 3], [1]),
            ([0, 5, 6, 7, 10], []),  # (two of them in a row)
            ([0, 1, 5], []),  # (the first value)
            (list(range(10)), []),  # (a value that changes in each tick)
            ([0, 5], []),
        ):
            self.assertEqual(short_places(times), short, times)

    def test_parts_outside_of_parentheses(self):
        self.assertEqual(split_outside("a, (b, c) , d", ","), ["a", "(b, c)", "d"])
        self.assertEqual(split_outside("u+(x + y)", "+"), ["u", "(x + y)"])


class Interpreters(InFolder):
    def test_an_interpreter_with_numpy_is_named_once(self):
        python = self.file("python", "#!/bin/sh\n")
        os.chmod(python, 0o755)
        with mock.patch.dict(os.environ, {"XDG_CACHE_HOME": self.folder}), mock.patch(
            "qss_tools.arrays.has", return_value=False
        ), mock.patch("qss_tools.arrays.knows", return_value=True), mock.patch(
            "qss_tools.arrays.SYSTEM_PYTHON", python
        ), mock.patch(
            "os.execv"
        ) as started, mock.patch(
            "builtins.print"
        ) as said:
            for wanted in (1, 1):
                os.environ.pop(arrays.STARTED, None)
                arrays.use_one_with("numpy")
                self.assertEqual(said.call_count, wanted)
            self.assertEqual(started.call_args[0][0], python)
            self.assertIn("has no numpy: the tools use %s" % python, said.call_args[0][0])
            arrays.use_one_with("numpy")  # (now by the other interpreter)
            self.assertEqual(started.call_count, 2)


@unittest.skipUnless(HAS_NUMPY, "numpy is not installed")
class Numbers(unittest.TestCase):
    """Sums, products and orders of whole numbers of any size are those of Python."""

    def numbers(self, count):
        bits = random.choice(BITS)
        edges = (0, 1, -1, 2**bits, -(2**bits), 2**bits - 1)
        return [random.choice(edges + (random.getrandbits(bits), -random.getrandbits(bits))) for _ in range(count)]

    def test_arithmetic(self):
        from qss_tools.runs.wide import Wide, joined_all, square_sum

        random.seed(1)
        for _ in range(100):
            count = random.randint(1, 30)
            a, b = self.numbers(count), self.numbers(count)
            one, other = Wide.of(a), Wide.of(b)
            self.assertEqual(one.numbers(), a)
            self.assertEqual((one + other).numbers(), [x + y for x, y in zip(a, b)])
            self.assertEqual((one - other).numbers(), [x - y for x, y in zip(a, b)])
            self.assertEqual((one * other).numbers(), [x * y for x, y in zip(a, b)])
            self.assertEqual(one.summed().numbers(), list(itertools.accumulate(a)))
            self.assertEqual((one.least(), one.greatest()), (min(a), max(a)))
            self.assertEqual(joined_all([one, other]).numbers(), a + b)
            for limit in (a[0], a[0] + 1, 0, -(2**99)):
                self.assertEqual(one.below(limit).tolist(), [x < limit for x in a])
            weights = [random.randrange(2**32 // count) for _ in a]
            array = arrays.load().array(weights)
            self.assertEqual(one.weighed(array), sum(x * w for x, w in zip(a, weights)))
            self.assertEqual(square_sum(one, other, array), sum(x * y * w for x, y, w in zip(a, b, weights)))


@unittest.skipUnless(HAS_NUMPY, "numpy is not installed")
class Vectorised(unittest.TestCase):
    """What is computed for whole arrays, compared with whole numbers and sequences of Python."""

    def setUp(self):
        self.random = random.Random(5)

    def number(self, bits):
        return self.random.choice((1, -1)) * self.random.getrandbits(bits)

    def test_decimals(self):
        from qss_tools.tables.decimals import decimals

        for bits, size in itertools.product((0, 1, 8, 20, 49, 50, 60, 88), (1, 20, 43, 61, 64, 88)):
            numbers = [0, *(self.number(size) >> 3 << 3 for _ in range(30))]
            found = decimals(Wide.of(numbers), bits)
            if found is None:
                self.assertGreater(size - bits, 59)
                continue
            texts = [text.tobytes().replace(b"\0", b"").decode() for text in found]
            self.assertEqual([Fraction(text) * 2**bits for text in texts], numbers)
            self.assertFalse([text for text in texts if re.search(r"\.$|\.\d*0$|^-?0\d|^-?\.", text)])

    def test_running_sums(self):
        for start, size in itertools.product((0, -5, 2**63, -(2**87)), (1, 40, 61, 80)):
            steps = [self.number(size) for _ in range(50)]
            sums = list(itertools.accumulate(steps, initial=start))
            found = running(start, Wide.of(steps))
            self.assertEqual(found.numbers(), sums)
            self.assertTrue(found.equals(Wide.of(sums)).all())
            self.assertEqual(found.equals(Wide.of([*sums[:-1], sums[-1] + 2**64])).tolist(), [True] * 50 + [False])

    def test_places(self):
        np = arrays.load()
        for count, span, times in itertools.product((1, 40), (50, 100000), (0, 3, 400)):
            changes = np.unique(np.array([0, *(self.random.randrange(span) for _ in range(count))]))
            ticks = np.array(sorted(self.random.randrange(span + 9) for _ in range(times)), dtype=np.int64)
            expected = [max(bisect.bisect_right(changes.tolist(), tick) - 1, 0) for tick in ticks.tolist()]
            self.assertEqual(places_of(changes, ticks).tolist(), expected)
            self.assertEqual(merged([changes, ticks]).tolist(), sorted({*changes.tolist(), *ticks.tolist()}))

    def test_steps_are_thinned_as_lines(self):
        np = arrays.load()
        for columns, window in itertools.product((3, 40), ((0.0, 5005.0), (1000.5, 4000.25), (4990.0, 6000.0))):
            ticks = np.array(sorted(self.random.sample(range(1, 5000), 2000)))
            values = np.array([float(self.random.randrange(9)) for _ in ticks])
            expected = thinned(*held(ticks, values, 5005), window, columns)
            self.assertEqual(thinned_steps(ticks, values, 5005, window, columns), expected)


@unittest.skipUnless(HAS_NUMPY, "numpy is not installed")
class Reading(InFolder):
    def record(self, text, rows):
        from qss_tools.runs.bulk import KINDS, record_of

        model = Run(self.file("m.mo", text), STAND_IN)
        path = self.file("m.csv", rows)
        with open(path, "rb") as file:
            found = record_of(Rows(model, ordered(Lines(file), model), path, True), None, True)
        names = list(model.names)
        columns = (found.ticks.tolist(), found.kinds.tolist(), found.names.tolist(), found.levels.tolist())
        return [
            (tick, KINDS[kind], found.labels[name] if KINDS[kind] == "when" else names[name], level, state)
            for tick, kind, name, level, state in zip(*columns, found.states.numbers())
        ]

    def by_lines(self, rows):
        lines = [line.split(",") for line in rows.splitlines()[1:]]
        return [(int(t), event, name, int(level or 0), int(state or 0)) for t, event, name, level, state in lines]

    def test_rows(self):
        for text, rows in ((BALL, BALL_ROWS), (SWITCHED, SWITCHED_ROWS), (GROWING, GROWING_ROWS), (LINE, LINE_ROWS)):
            self.assertEqual(self.record(text, rows), self.by_lines(rows))

    def test_states_of_88_bits(self):
        """x starts at 2^25 - 1, and y at -2^25: in units of 2^-62 these are numbers of 27 digits."""
        x, y = 2**25 - 1, -(2**25)
        rows = HEADER + "".join(
            "%d,%s,%s,%d,%d\n" % (tick, event, name, value << 18, value << 62)
            for tick, event in ((0, "start"), (4096, "end"))
            for name, value in (("x", x), ("y", y))
        )
        self.assertEqual(self.record(LARGE % (x, y), rows), self.by_lines(rows))

    def test_long_names(self):
        """Names of more than eight letters with the same beginning, and one of exactly eight."""
        names = ("velocity", "velocity_of_the_ball", "velocity_of_the_wall", "v")
        declared = ", ".join("%s(start = %d)" % (name, place) for place, name in enumerate(names))
        equations = "".join("  der(%s) = 0;\n" % name for name in names)
        settings = "StopTime = 1, QSS_CoefBits = 0, QSS_TickBits = 0, QSS_LevelBits = 0, QSS_Quantum = 1"
        text = "model m\n  Real %s;\nequation\n%s  annotation(experiment(%s));\nend m;\n"
        rows = HEADER + "".join(
            "%d,%s,%s,%d,%d\n" % (tick, event, name, place, place)
            for tick, event in ((0, "start"), (1, "end"))
            for place, name in enumerate(names)
        )
        self.assertEqual(self.record(text % (declared, equations, settings), rows), self.by_lines(rows))


@unittest.skipUnless(HAS_NUMPY, "numpy is not installed")
class Same(InFolder):
    """With and without numpy each call writes the same."""

    def both(self, tool, *words):
        answers = []
        for environment in ({}, WITHOUT):
            with mock.patch.dict(os.environ, environment):
                answers.append(run(tool, *words, "--program", STAND_IN, "--no-advice"))
        self.assertEqual(answers[0], answers[1], words)
        return answers[0]

    def test_measures(self):
        model, rows = self.file("ball.mo", BALL), self.file("ball.csv", BALL_ROWS)
        names = ["mean", "rms", "min", "max", "ripple", "start", "final", "integral", "rise", "settling", "overshoot"]
        text = " ".join("%s(%s%s)" % (name, one, part) for name in names for one in "yv" for part in ("", ", from=0.3"))
        text += (
            " period(v, level=-1) duty(v, level=-1) count(v) harmonic(v, f=1) at(y, t=0.1) mean(y, from=0.1, to=0.11)"
        )
        text += " mean(y*v) integral(2*y - v/3) max(y - v) at(y*v, t=0.6)"
        for one in requests_of(text):
            self.both("qss-measure", model, rows, one)
        model, rows = self.file("s.mo", SWITCHED), self.file("s.csv", SWITCHED_ROWS)
        self.both("qss-measure", model, rows, "mean(p) rms(third) max(x*d) mean(x*p) final(u[2])")

    def test_tables(self):
        for text, lines in ((BALL, BALL_ROWS), (SWITCHED, SWITCHED_ROWS), (GROWING, GROWING_ROWS)):
            model, rows = self.file("m.mo", text), self.file("m.csv", lines)
            for words in ((), ("--events",), ("--every", "0.3"), ("--from", "0.3", "--to", "1"), ("--states",)):
                self.both("qss-table", model, rows, *words)

    def test_rows_that_are_wrong(self):
        model = self.file("ball.mo", BALL)
        for old, new in (
            ("1,level,v,-10,-640", "1,level,w,-10,-640"),
            ("1,level,v,-10,-640", "1,level,v,-10"),
            ("1,level,v,-10,-640", "1,level,v,-1x,-640"),
            ("1,level,v,-10,-640", "1,level,v,,-640"),
            ("1,level,v,-10,-640", "9,level,v,-10,-640"),
            ("1,level,v,-10,-640", "1,levels,v,-10,-640"),
            ("1,level,v,-10,-640", "1,level,v,-10,-641"),
            ("5,end,v,-13,-800", "6,end,v,-13,-800"),
            ("0,start,y,4,256", "0,start,y,4,255"),
            ("5,end,y,-2,-160\n5,end,v,-13,-800\n", ""),
            ("3,when,1.1,,", "3,when,1.1,,5"),
            ("tick,event", "tick,events"),
        ):
            rows = self.file("wrong.csv", BALL_ROWS.replace(old, new))
            for words in (("qss-measure", model, rows, "mean(y)"), ("qss-table", model, rows)):
                with self.subTest(words[0], new=new):
                    self.both(*words)

    def test_values_of_one_tick(self):
        """duty is set to 5, and a tick later to its limit 1. In the other rows it changes in each tick."""
        model, rows = self.file("limit.mo", LIMITED), self.file("limit.csv", LIMITED_ROWS)
        each = self.file("each.csv", EACH_TICK)
        for words, most, table in (((), 1, "0,0\n3,1\n"), (("--all-values",), 5, "0,0\n2,5\n3,1\n")):
            self.assertEqual(self.both("qss-measure", model, rows, "max(duty)", *words)[1], "max(duty)  %d\n" % most)
            self.assertEqual(self.both("qss-table", model, rows, "--names", "duty", *words)[1], "time,duty\n" + table)
            self.assertEqual(self.both("qss-measure", model, each, "max(duty)", *words)[1], "max(duty)  2\n")

    @unittest.skipUnless(HAS_NUMPY, "numpy is not installed")
    def test_trusted_rows_have_the_same_trajectories(self):
        """The states of rows `reinit` are read, and those of other rows are not compared."""
        spoilt = BALL_ROWS.replace("2,level,y,1,96", "2,level,y,1,97")
        self.assertNotEqual(spoilt, BALL_ROWS)
        found = []
        for text, trusted in ((BALL_ROWS, False), (BALL_ROWS, True), (spoilt, True)):
            one = Run(self.file("ball.mo", BALL), STAND_IN)
            rows = Rows(one, iter(text.splitlines(True)), "rows", trusted=trusted)
            lines, _ = trajectories(one, rows, [0, 1])
            found.append([(line.times, line.values, line.slopes, line.last) for line in lines])
        self.assertEqual(found[1:], [found[0]] * 2)

    def test_averages_count_values_of_one_tick(self):
        """duty is 0 for 2 ticks, 5 for 1 tick and 1 for 13 ticks: its sum is 18, and that of its squares is 38."""
        model, rows = self.file("limit.mo", LIMITED), self.file("limit.csv", LIMITED_ROWS)
        averages = "mean(duty) integral(duty) mean(2*duty + 1) duty(duty) rms(duty) mean(x*duty) "
        for words, extremes in (((), "1,1,3"), (("--all-values",), "5,5,11")):
            text = averages + "max(duty) ripple(duty) max(2*duty + 1)"
            found = self.both("qss-measure", model, rows, text, "--csv", *words)[1].split("\n")[1].split(",")
            # (the default level of duty is half way from min to max)
            share = "0.875" if not words else "0.0625"
            self.assertEqual(found[:4], ["1.125", "18", "3.25", share])
            self.assertAlmostEqual(float(found[4]) ** 2, 38 / 16, 9)
            self.assertEqual(found[5:], ["1.125"] + extremes.split(","))

    def test_harmonics_count_values_of_one_tick(self):
        """Over 16 ticks: 5 - 1 from 2 to 3, and 0 - 1 from 0 to 2, over a constant 1."""
        model, rows = self.file("limit.mo", LIMITED), self.file("limit.csv", LIMITED_ROWS)
        turn = -2j * math.pi / 16
        parts = [(-1, 0, 2), (4, 2, 3)]
        wanted = abs(sum(value * (cmath.exp(turn * b) - cmath.exp(turn * a)) / turn for value, a, b in parts)) / 8
        found = self.both("qss-measure", model, rows, "harmonic(duty, f=1/16)")[1].split()[-1]
        self.assertAlmostEqual(float(found), wanted, 9)


def requests_of(text):
    """The measures of a text, one by one."""
    return [part.strip() + ")" for part in text.replace(") ", ")|").rstrip(")").split(")|")]


class Expressions(InFolder):
    def measure(self, *words):
        ball, rows = self.file("ball.mo", BALL), self.file("ball.csv", BALL_ROWS)
        return run("qss-measure", ball, rows, *words, "--program", STAND_IN, "--no-advice")

    def test_a_product_of_two_states(self):
        """Up to 0.25 y is 1 and v is -10 t, with the integral -0.3125 of the product. From then on y is 1 - 2.5 s and v is
        -2.5 - 10 s, up to s = 0.25: the integral of -2.5 - 3.75 s + 25 s^2 is -0.6119791667.
        """
        for environment in ({}, WITHOUT):
            with mock.patch.dict(os.environ, environment):
                self.assertEqual(
                    self.measure("mean(y*v, to=0.5) integral(y*v, to=0.25) at(y*v, t=0.5) mean((v + 1)/2, to=0.5)")[1],
                    "mean(y*v, to=0.5)        -1.84895833333\nintegral(y*v, to=0.25)   -0.3125\n"
                    "at(y*v, t=0.5)           -1.875\nmean((v + 1)/2, to=0.5)  -0.75\n",
                )

    def test_faults(self):
        for text, part in (
            ("rms(y*v)", "mean, integral, at, start, final"),
            ("mean(y*v*y)", "at most two"),
            ("mean(y/v)", "a divisor is a number"),
            ("mean(y-w)", "no variable 'w'"),
            ("mean(y-)", "nor an expression"),
            ("mean(y-f(v))", "variables, parameters, numbers"),
        ):
            self.assert_fault(self.measure(text), part)


class Orders(InFolder):
    def test_a_run_of_second_order(self):
        """x rises from 1 to 3 in four ticks, and rests for four: its mean is (8 + 12)/8."""
        line, rows = self.file("line.mo", LINE), self.file("line.csv", LINE_ROWS)
        answer = run("qss-measure", line, rows, "mean(x) max(x) at(x, t=1)", "--program", STAND_IN, "--no-advice")
        self.assertEqual(answer, (0, "mean(x)     2.5\nmax(x)      3\nat(x, t=1)  1.5\n", ""))


class Python(InFolder):
    def simulation(self):
        return qss_tools.run(self.file("ball.mo", BALL), rows=self.file("ball.csv", BALL_ROWS), program=STAND_IN)

    def test_what_is_public(self):
        self.assertEqual(dir(qss_tools), sorted(qss_tools.__all__))
        for name in qss_tools.__all__:
            self.assertTrue(callable(getattr(qss_tools, name)))

    def test_signals_take_arrays_of_times(self):
        """v is -10 t up to 0.75, and 1.875 there."""
        signal = self.simulation().signal("v")
        self.assertEqual(list(signal([0, 0.25, 0.7, 0.75])), [0, -2.5, -7, 1.875])
        self.assertEqual(signal(0.00016500000000000003), -10 * 0.00016500000000000003)
        if HAS_NUMPY:
            found = signal(arrays.load().linspace(0, 1.25, 6))
            self.assertEqual([round(one, 12) for one in found.tolist()], [0, -2.5, -5, 1.875, -0.625, -3.125])
            with self.assertRaises(Fault):
                signal(arrays.load().array([2.0]))

    def test_a_notebook_shows_the_plot(self):
        self.assertTrue(self.simulation()._repr_html_().startswith("<svg"))

    def test_why_a_model_is_refused(self):
        model = self.file("m.mo", "model m\n  Real $x;\nend m;\n")
        found = qss_tools.explain(model, "refused: lex 1 15", STAND_IN)
        self.assertEqual((found.line, found.column), (2, 8))
        self.assertIsNone(qss_tools.explain(model, "", STAND_IN))

    def test_wrong_orders(self):
        with self.assertRaises(Fault):
            qss_tools.run(self.file("ball.mo", BALL), rule="near", order=2, program=STAND_IN)


class Formats(InFolder):
    def table(self, name, *words):
        path = os.path.join(self.folder, name)
        ball, rows = self.file("ball.mo", BALL), self.file("ball.csv", BALL_ROWS)
        answer = run("qss-table", ball, rows, "-o", path, *words, "--program", STAND_IN, "--no-advice")
        return answer, path

    @unittest.skipUnless(HAS_NUMPY, "numpy is not installed")
    def test_each_is_read_back(self):
        from qss_tools.tables.formats import read_raw

        times, y = [0, 0.25, 0.5, 0.75, 1, 1.25], [1, 1, 0.25, -1, -0.5, -0.5]
        answer, path = self.table("ball.raw")
        self.assertEqual(answer, (0, "", ""))
        with open(path, "rb") as file:
            found = read_raw(file.read())
        self.assertEqual((found["time"], found["y"]), (times, y))
        try:
            from scipy.io import loadmat
        except ImportError:
            self.skipTest("scipy is not installed")
        answer, path = self.table("ball.mat")
        self.assertEqual(answer, (0, "", ""))
        found = loadmat(path)
        self.assertEqual((found["time"].ravel().tolist(), found["y"].ravel().tolist()), (times, y))

    @unittest.skipUnless(python_with("numpy"), "numpy is not installed")
    @unittest.skipUnless(shutil.which("ngspice"), "ngspice is not installed")
    def test_ngspice_loads_the_raw_file(self):
        path, model = os.path.join(self.folder, "ball.raw"), self.file("ball.mo", BALL)
        words = [model, self.file("ball.csv", BALL_ROWS), "-o", path, "--program", STAND_IN, "--no-advice"]
        self.assertEqual(run_by(python_with("numpy"), "qss-table", *words), (0, "", ""))
        commands = "* rows\n.control\nload ball.raw\nset width=200\nprint time y\nquit\n.endc\n.end\n"
        words = ["ngspice", "-b", self.file("read.cir", commands)]
        environment = dict(os.environ, HOME=self.folder)
        done = subprocess.run(words, cwd=self.folder, env=environment, stdout=subprocess.PIPE, stderr=subprocess.STDOUT)
        text = done.stdout.decode()
        found = re.findall(r"^\d+\t(\S+)\t(\S+)\s*$", text, re.MULTILINE)
        wanted = [(0, 1), (0.25, 1), (0.5, 0.25), (0.75, -1), (1, -0.5), (1.25, -0.5)]
        self.assertEqual([tuple(map(float, row)) for row in found], wanted, text)

    @unittest.skipUnless(HAS_NUMPY, "numpy is not installed")
    def test_parquet(self):
        try:
            import pandas
            import pyarrow  # noqa: F401
        except ImportError:
            answer, path = self.table("ball.parquet")
            self.assert_fault(answer, "Parquet needs the package")
            return
        _, path = self.table("ball.parquet")
        self.assertEqual(pandas.read_parquet(path)["y"].tolist(), [1, 1, 0.25, -1, -0.5, -0.5])

    def test_faults(self):
        for name, words, part in (
            ("ball.xlsx", (), "a table is .csv"),
            ("out.csv", ("--every", "1e-30"), "below a tick, which is 0.25"),
            ("out.csv", ("--every", "0"), "not above 0"),
        ):
            answer, path = self.table(name, *words)
            self.assert_fault(answer, part)
            self.assertFalse(os.path.exists(path))
        words = (self.file("ball.mo", BALL), self.file("ball.csv", BALL_ROWS))
        for tool, more in (("qss-plot", ()), ("qss-measure", ("mean(y)",))):
            answer = run(tool, *words, *more, "--unit", "parsec", "--no-advice", "--program", STAND_IN)
            self.assert_fault(answer, "'parsec' is no unit of time")


if __name__ == "__main__":
    unittest.main()
