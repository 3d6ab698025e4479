"""Measures of runs: exact over piecewise linear trajectories."""
import math
import os
import re
import subprocess
import unittest
from fractions import Fraction

from models import BALL, BALL_ROWS, GROWING, GROWING_ROWS, SWITCHED, SWITCHED_ROWS
from support import BUILT, BY_TICKS, ROOT, STAND_IN, InFolder, python_with, run

from qss_tools.fault import Fault
from qss_tools.model.flat import Flat
from qss_tools.model.grammar import parse
from qss_tools.model.source import Source
from qss_tools.runs.machines import Machine
from qss_tools.runs.measures import measured, requests
from qss_tools.runs.rows import Rows, Run
from qss_tools.runs.curves import trajectories
from qss_tools.runs.trajectories import Trajectory
from qss_dev.ticks import start_snapshot, step

EXAMPLES = ("ladder", "boost", "bouncing", "sigmadelta", "heat2d")


def line(points, last, name="u", unit=1, tick=1):
    """A trajectory from (tick, value, slope)."""
    found = Trajectory(name, Fraction(unit), Fraction(tick))
    for time, value, slope in points:
        found.times.append(time)
        found.values.append(value)
        found.slopes.append(slope)
    found.last = last
    return found


def square(periods, high, length):
    """1 from the start of each period for some ticks, then 0."""
    points = [point for one in range(periods) for point in ((one * length, 1, 0), (one * length + high, 0, 0))]
    return line(points, periods * length)


class Measures(unittest.TestCase):
    def value(self, text, trajectory):
        return measured(requests(text)[0], trajectory)

    def test_a_ramp(self):
        """From 0 to 10 in 10 ticks of 1/2, and 10 from then on for 10 ticks; a unit is 1/4."""
        ramp = line([(0, 0, 1), (10, 10, 0)], 20, unit=Fraction(1, 4), tick=Fraction(1, 2))
        for text, wanted in (
            ("mean(u)", Fraction(15, 8)),
            ("mean(u, to=5)", Fraction(5, 4)),
            ("mean(u, from=2, to=3)", Fraction(5, 4)),
            ("mean(u, from=1/3, to=2/3)", Fraction(1, 4)),
            ("integral(u)", Fraction(75, 4)),
            ("min(u, from=1)", Fraction(1, 2)),
            ("max(u)", Fraction(5, 2)),
            ("ripple(u, from=4)", Fraction(1, 2)),
            ("start(u, from=1)", Fraction(1, 2)),
            ("final(u)", Fraction(5, 2)),
            ("at(u, t=0.75)", Fraction(3, 8)),
            ("rise(u)", Fraction(4)),
            ("rise(u, low=0, high=0.5)", Fraction(5, 2)),
            ("rise(u, final=5, high=1/2)", Fraction(4)),
            ("overshoot(u)", Fraction(0)),
            ("settling(u)", Fraction(49, 10)),
            ("settling(u, band=0.1)", Fraction(9, 2)),
        ):
            with self.subTest(text):
                self.assertEqual(self.value(text, ramp), wanted)
        # the mean of the square: of the ramp a third of 10^2, in all (100/3 + 100)/2, in units of 1/16
        self.assertAlmostEqual(self.value("rms(u)", ramp) ** 2, (100 / 3 + 100) / 2 / 16)

    def test_a_step_that_overshoots_downward(self):
        """From 0 down to -12 in 3 ticks, up to -10 in 1, and -10 from then on."""
        down = line([(0, 0, -4), (3, -12, 2), (4, -10, 0)], 8)
        self.assertEqual(self.value("overshoot(u)", down), Fraction(1, 5))
        self.assertEqual(self.value("rise(u)", down), Fraction(9, 4) - Fraction(1, 4))
        self.assertEqual(self.value("settling(u, band=0.1)", down), Fraction(7, 2))

    def test_switching(self):
        one = square(4, 1, 4)
        for text, wanted in (
            ("duty(u)", Fraction(1, 4)),
            ("period(u)", 4),
            ("frequency(u)", Fraction(1, 4)),
            ("count(u)", 3),
            ("mean(u)", Fraction(1, 4)),
            ("duty(u, from=1, to=3.5)", None),
            ("duty(u, from=3, to=7)", Fraction(1, 4)),
            ("duty(u, from=0.5, to=13)", Fraction(1, 4)),
        ):
            with self.subTest(text):
                if wanted is None:
                    self.assertRaises(Fault, self.value, text, one)
                else:
                    self.assertEqual(self.value(text, one), wanted)

    def test_crossings_of_a_triangle(self):
        """Between 0 and 4 in 4 ticks, up and down: above 3 for a quarter of the time."""
        triangle = line([(0, 0, 1), (4, 4, -1), (8, 0, 1), (12, 4, -1), (16, 0, 1)], 20)
        self.assertEqual(self.value("period(u, level=3)", triangle), 8)
        self.assertEqual(self.value("duty(u, level=3)", triangle), Fraction(1, 4))

    def test_harmonics_of_a_square_wave(self):
        """A square wave of 1 and -1 has the odd harmonics 4/(n pi)."""
        wave = line([(t, 1 if t % 20 == 0 else -1, 0) for t in range(0, 60, 10)], 60, tick=Fraction(1, 1000))
        for n in range(1, 8):
            amplitude = 4 / (n * math.pi) if n % 2 else 0
            self.assertAlmostEqual(self.value("harmonic(u, f=50, n=%d)" % n, wave), amplitude)
        self.assertAlmostEqual(self.value("thd(u, f=50, n=5)", wave), math.sqrt(1 / 9 + 1 / 25))
        self.assertAlmostEqual(self.value("thd(u, f=50, n=1000)", wave), math.sqrt(math.pi**2 / 8 - 1), 2)

    def test_harmonics_of_a_triangle(self):
        """A triangle between 1 and -1 has the odd harmonics 8/(n pi)^2."""
        wave = line([(t, -5 if t % 20 == 0 else 5, 1 if t % 20 == 0 else -1) for t in range(0, 60, 10)], 60)
        self.assertAlmostEqual(self.value("harmonic(u, f=1/20)", wave), 5 * 8 / math.pi**2)
        self.assertAlmostEqual(self.value("thd(u, f=1/20, n=3)", wave), 1 / 9)

    def test_a_sine_that_is_held_eight_times_a_period(self):
        """Its distortion up to harmonic 40: the images 8k-1 and 8k+1 have 1/(8k-1) and 1/(8k+1) of the first."""
        points = [(t, round(10**12 * math.sin(2 * math.pi * t / 8)), 0) for t in range(16)]
        wanted = math.sqrt(sum(1 / n**2 for k in range(1, 6) for n in (8 * k - 1, 8 * k + 1) if n <= 40))
        self.assertAlmostEqual(self.value("thd(u, f=1/8)", line(points, 16)), wanted)

    def test_what_is_not_defined(self):
        flat = line([(0, 3, 0)], 10)
        for text, part in (
            ("period(u)", "does not switch"),
            ("rise(u)", "does not step"),
            ("mean(u, from=4, to=4)", "no length"),
            ("mean(u, to=11)", "not within the run"),
            ("at(u, t=11)", "not within the run"),
            ("thd(u, f=0.01)", "shorter than a period"),
            ("period(u, level=3)", "no period"),
            ("settling(u, initial=0, final=5)", "does not settle"),
            ("rise(u, initial=0, final=5)", "90 %"),
        ):
            with self.subTest(text):
                with self.assertRaises(Fault) as caught:
                    self.value(text, flat)
                self.assertIn(part, str(caught.exception))

    def test_requests(self):
        self.assertEqual(
            [one.text for one in requests("mean(iL) , ripple( u[3],from=4 )")], ["mean(iL)", "ripple(u[3], from=4)"]
        )
        for text, part in (
            ("", "no measure"),
            ("iL", "not a measure"),
            ("average(x)", "no measure 'average'"),
            ("mean()", "variable is missing"),
            ("mean(x, form=4)", "not an option"),
            ("mean(x, from=a)", "not a number"),
            ("thd(x)", "needs f="),
            ("mean(x) y", "not a measure"),
        ):
            with self.assertRaises(Fault) as caught:
                requests(text)
            self.assertIn(part, str(caught.exception))


def by_ticks(machine):
    """Twice the integral, the least and the greatest value of each state, from the states at each tick."""
    snapshot, sums = start_snapshot(machine), [0] * machine.states
    least, greatest = list(snapshot.states), list(snapshot.states)
    for tick in range(1, machine.last + 1):
        moved = [
            state + machine.slope(row, snapshot.levels, snapshot.discretes)
            for row, state in zip(machine.rows, snapshot.states)
        ]
        after, _ = step(machine, "floor", 0, tick, snapshot)
        for place, (first, last) in enumerate(zip(snapshot.states, moved)):
            sums[place] += first + last
            least[place] = min(least[place], last, after.states[place])
            greatest[place] = max(greatest[place], last, after.states[place])
        snapshot = after
    return sums, least, greatest


class Runs(InFolder):
    def test_measures_of_a_ball(self):
        """The states of BALL_STATES in test_table; at tick 3 v jumps from -7.5 to 1.875."""
        ball, rows = self.file("ball.mo", BALL), self.file("ball.csv", BALL_ROWS)
        text = (
            "mean(y) min(y) max(y) ripple(y, from=0.5, to=1) integral(y) mean(v) min(v) max(v) final(v) at(v, t=0.75)"
        )
        status, out, err = run("qss-measure", ball, rows, text, "--csv", "--program", STAND_IN, "--no-advice")
        self.assertEqual((status, err), (0, ""))
        header, values = out.strip().split("\n")
        self.assertTrue(header.startswith('mean(y),min(y),max(y),"ripple(y, from=0.5, to=1)",integral(y)'))
        self.assertEqual(values, "0.05,-0.875,1,1.25,0.0625,-2.5,-7.5,1.875,-3.125,1.875")

    def test_parameters_in_expressions(self):
        """mean(y) is 0.05, and its levels are 1, 1, 1/4, -1, -1/2 and -1/2 at the six ticks. No equation has a parameter."""
        text = BALL.replace("Real y", "parameter Real m = 0.5, k = 2*m + 3; Real y")
        ball, rows = self.file("ball.mo", text), self.file("ball.csv", BALL_ROWS)
        words = "--csv", "--program", STAND_IN, "--no-advice"
        asked = "mean(m*y) mean(y/m) mean(k) mean(k - 1) max(k*y + m)"
        for more, wanted in (((), "0.025,0.1,4,3,4.5"), (("--set", "m=2"), "0.1,0.025,7,6,9")):
            status, out, err = run("qss-measure", ball, rows, asked, *more, *words)
            self.assertEqual((status, err, out.split("\n")[1]), (0, "", wanted))
        status, out, err = run("qss-table", ball, rows, "--names", "k*y,m,y/m", "--every", "0.5", *words[1:])
        self.assertEqual((status, err), (0, ""))
        self.assertEqual(out, "time,k*y,m,y/m\n0,4,0.5,2\n0.5,1,0.5,0.5\n1,-2,0.5,-1\n")
        for asked, part in (
            ("mean(Y)", "has no variable 'Y' (did you mean 'y'?); it has the variables y, v and the parameters m, k"),
            ("mean(2*Y)", "has no variable 'Y' (did you mean 'y'?)"),
            ("mean(2*K)", "has no variable 'K' (did you mean 'k'?)"),
            ("mean(y/(k - 4))", "a divisor is a number or a parameter, and not 0"),
        ):
            self.assert_fault(run("qss-measure", ball, rows, asked, *words), part)
        found = run("qss-plot", ball, rows, "--names", "k*Y", "--text", *words[1:])
        self.assert_fault(found, "has no variable 'Y' (did you mean 'y'?)")

    def test_times_with_a_unit(self):
        """The ball's unit of time is 1 s, or 1 ms. At 0.5 the state y is 96/256, and its level 1/4."""
        words = "--program", STAND_IN, "--no-advice"
        for unit, whole, half in (("s", "1s", "500ms"), ("ms", "1ms", "500 us"), ("ms", "0.001s", "5e-4s")):
            text = BALL.replace("StopTime", 'QSS_TimeUnit = "%s", StopTime' % unit)
            ball, rows = self.file("ball.mo", text), self.file("ball.csv", BALL_ROWS)
            asked = "ripple(y, from=%s, to=%s) at(y, t=%s) ripple(y, from=0.5, to=1)" % (half, whole, half)
            status, out, err = run("qss-measure", ball, rows, asked, "--csv", *words)
            self.assertEqual((status, err, out.split("\n")[1]), (0, "", "1.25,0.375,1.25"))
            window = "--from", half, "--to", whole, "--every", half, "--names", "y"
            self.assertEqual(run("qss-table", ball, rows, *window, *words)[1], "time,y\n0.5,0.25\n1,-0.5\n")
        self.assertEqual(run("qss-plot", ball, rows, "--from", "500us", "--to", "1ms", "--text", *words)[0], 0)
        for asked, part in (
            ("mean(y, from=1V)", "'V' is no unit of time here: the units are ns, us"),
            ("mean(y, to=1x2)", "'1x2' is not a time, as 1.5ms, and not a number"),
            ("mean(y, from=0,5)", "'5' is not an option: a decimal point is '.', and not ','"),
            ("duty(y, level=100m)", "a number has no suffix and no unit: write 100e-3 for 100m"),
        ):
            self.assert_fault(run("qss-measure", ball, rows, asked, *words), part)
        micro = self.file("micro.mo", BALL.replace("StopTime", 'QSS_TimeUnit = "\u00b5s", StopTime'))
        found = run("qss-measure", micro, rows, "mean(y)", *words)
        self.assert_fault(found, "micro.mo: QSS_TimeUnit is '\u00b5s': write us")

    def test_a_window_after_an_overflow(self):
        """The run of x' = 1000 x ends by an overflow at tick 5."""
        model, rows = self.file("m.mo", GROWING), self.file("m.csv", GROWING_ROWS)
        found = run("qss-measure", model, rows, "mean(x, from=1000, to=2000)", "--program", STAND_IN, "--no-advice")
        self.assert_fault(found, "the run overflowed: x at tick 5 (time")

    def test_messages_about_other_values_name_the_file(self):
        """A finding with --set is in the line of the model, and no message has the path of the changed model."""
        text = BALL.replace("Real y", "parameter Real g = 10;\n  Real y").replace("-10;", "-g;")
        text = text.replace("StopTime = 1.25", "Stoptime = 1.25, StopTime = 1.25")
        ball, rows = self.file("ball.mo", text), self.file("ball.csv", BALL_ROWS)
        words = "--set", "g=10", "--program", STAND_IN
        status, out, err = run("qss-measure", ball, rows, "mean(y)", *words)
        self.assertEqual((status, out), (0, "mean(y)  0.05\n"))
        line = text.split("\n").index(next(one for one in text.split("\n") if "Stoptime" in one)) + 1
        self.assertIn("warning: %s:%d:25: 'Stoptime' is not a setting" % (ball, line), err)
        self.assertIn("for the model that tools/qss-run %s --set g=10 --print writes" % ball, err)
        found = run("qss-measure", ball, rows, "mean(q)", *words, "--no-advice")
        self.assert_fault(found, "qss-measure: %s with g = 10 has no variable 'q'" % ball)
        for value, part in (("100u", "write 100e-6 for 100u"), ("9,81", "write 9.81 for 9,81")):
            found = run("qss-measure", ball, rows, "mean(y)", "--set", "g=" + value, "--program", STAND_IN)
            self.assert_fault(found, "'%s' is not a value for g: " % value)
            self.assertIn(part, found[2])

    def test_mean_square_of_a_ball(self):
        ball = self.file("ball.mo", BALL)
        self.file("ball.mo.rows", BALL_ROWS)
        status, out, err = run("qss-measure", ball, "rms(y)", "--program", STAND_IN, "--no-advice")
        self.assertEqual((status, err), (0, ""))
        self.assertAlmostEqual(float(out.split()[-1]) ** 2, 0.4859375)

    def test_algebraic_and_discrete_variables(self):
        """x is 8, 16, 0 and 0, p = d*x goes from 8 to 16, and from -16 to 0; d is 1 for one tick of four."""
        model, rows = self.file("s.mo", SWITCHED), self.file("s.csv", SWITCHED_ROWS)
        text = "mean(x) mean(p) min(p) max(p) mean(d) mean(third) duty(d, level=0) mean(u[2])"
        status, out, err = run("qss-measure", model, rows, text, "--csv", "--program", STAND_IN, "--no-advice")
        self.assertEqual((status, err), (0, ""))
        self.assertEqual(out.split("\n")[1], "5,1,-16,16,-0.5,2.66666666667,0.25,0")

    def test_units_and_an_overflow(self):
        ball = self.file("ball.mo", BALL.replace("y(start = 1)", 'y(start = 1, unit = "m")'))
        rows = self.file("ball.csv", BALL_ROWS)
        answer = run("qss-measure", ball, rows, "max(y) rise(v)", "--unit", "s", "--program", STAND_IN, "--no-advice")
        self.assertEqual(answer, (0, "max(y)   1 m\nrise(v)  0.25 s\n", ""))
        model, rows = self.file("m.mo", GROWING), self.file("m.csv", GROWING_ROWS)
        status, out, err = run("qss-measure", model, rows, "final(x)", "--program", STAND_IN, "--no-advice")
        self.assertEqual((status, out), (1, "final(x)  1.004006004e+12\n"))
        self.assertIn("overflowed: x at tick 5", err)

    def test_faults(self):
        ball, rows = self.file("ball.mo", BALL), self.file("ball.csv", BALL_ROWS)
        spoilt = self.file("spoilt.csv", BALL_ROWS.replace("2,level,y,1,96", "2,level,y,1,97"))
        only = self.file("only.csv", "".join(one + "\n" for one in BALL_ROWS.split("\n") if one and ",v," not in one))
        for words, part in (
            ([ball, rows, "mean(w)"], "no variable 'w'"),
            ([ball, rows, "mean"], "not a measure"),
            ([ball, spoilt, "mean(y)"], "at tick 2 the state y differs"),
            ([ball, only, "mean(y)"], "at tick 2 the state y differs"),
            ([ball, rows, "rise(y, from=1.25)"], "does not step"),
        ):
            with self.subTest(words=words):
                self.assert_fault(run("qss-measure", *words, "--program", STAND_IN, "--no-advice"), part)

    def test_windows_and_orders_that_cannot_be(self):
        ball, rows = self.file("ball.mo", BALL), self.file("ball.csv", BALL_ROWS)
        words = "--program", STAND_IN, "--no-advice"
        found = run("qss-measure", ball, rows, "mean(y, from=1, to=0.5)", *words)
        self.assert_fault(found, "the window begins at 1.0, after its end at 0.5")
        for tool in ("qss-table", "qss-plot"):
            found = run(tool, ball, rows, "--from", "1", "--to", "0.5", *words)
            self.assert_fault(found, "--from 1 is not before --to 0.5")
            self.assert_fault(run(tool, ball, rows, "--to", "0", *words), "--to 0 is not after the start of the run")
        for tool, more in (("qss-measure", ("mean(y)",)), ("qss-table", ()), ("qss-plot", ())):
            found = run(tool, ball, *more, "--order", "2", *words)
            self.assert_fault(found, "a run of second order takes models without 'when' clauses")

    def test_states_between_rows_are_those_of_each_tick(self):
        """The ball, and a converter with a product, gone through tick by tick."""
        for name, stop in (("ball", None), ("boost", "1"), ("buck_pi", "4")):
            path = os.path.join(ROOT, "examples", name + ".mo")
            with open(path, encoding="utf-8") as file:
                text = file.read()
            if stop:
                text = re.sub(r"StopTime = [\d.]+", "StopTime = " + stop, text)
            model = self.file(name + ".mo", text)
            with self.subTest(name):
                machine = Machine(Flat(parse(Source(model, text.encode()))))
                self.assertLess(machine.last, 70000)
                one = Run(model, BY_TICKS)
                rows = subprocess.run([BY_TICKS, "run", model], stdout=subprocess.PIPE, check=True).stdout.decode()
                numbers = list(range(machine.states))
                lines, _ = trajectories(one, Rows(one, iter(rows.splitlines(True)), name), numbers)
                sums, least, greatest = by_ticks(machine)
                for place, found in enumerate(lines):
                    twice = sum((first + last) * (high - low) for low, first, high, last in found.pieces())
                    ends = [value for _, first, _, last in found.pieces() for value in (first, last)]
                    self.assertEqual((twice, min(ends), max(ends)), (sums[place], least[place], greatest[place]))

    @unittest.skipUnless(os.path.exists(BUILT), "the program is not built")
    def test_trajectories_of_examples_meet_all_their_rows(self):
        """Each state that the program writes lies on its trajectory: the tool compares them."""
        for name in EXAMPLES:
            with self.subTest(name):
                path = os.path.join(ROOT, "examples", name + ".mo")
                state = Run(path, BUILT).flat.variables[0].name
                status, out, err = run(
                    "qss-measure", path, "mean(%s) ripple(%s)" % (state, state), "--program", BUILT, "--no-advice"
                )
                self.assertEqual((status, err), (0, ""))

    def test_numbers_of_scipy(self):
        """Integrals of a curve of many pieces, beside those of scipy's quadrature."""
        python = python_with("scipy")
        if python is None:
            self.skipTest("scipy is not installed")
        points = [(t, (37 * t) % 101, (t * t) % 7 - 3) for t in range(0, 60, 3)]
        curve = line(points, 60)
        knots = [point for low, one, high, other in curve.pieces() for point in ((low, one), (high, other))]
        script = (
            "import json,sys,math\nfrom scipy.integrate import quad\nk=json.load(sys.stdin)\n"
            "def over(g):\n"
            " return sum(quad(lambda t:g(t,a+(b-a)*(t-l)/(h-l)),l,h)[0] for (l,a),(h,b) in zip(k[::2],k[1::2]) if h>l)\n"
            "w=2*math.pi/60\n"
            "c=[2/60*math.hypot(over(lambda t,v:v*math.cos(n*w*t)),over(lambda t,v:v*math.sin(n*w*t))) for n in range(1,8)]\n"
            "print(over(lambda t,v:v)/60, math.sqrt(over(lambda t,v:v*v)/60), math.sqrt(sum(x*x for x in c[1:]))/c[0], c[2])"
        )
        done = subprocess.run(
            [python, "-c", script], input=str([list(one) for one in knots]).encode(), stdout=subprocess.PIPE, check=True
        )
        wanted = [float(word) for word in done.stdout.split()]
        for text, value in zip(("mean(u)", "rms(u)", "thd(u, f=1/60, n=7)", "harmonic(u, f=1/60, n=3)"), wanted):
            self.assertAlmostEqual(float(measured(requests(text)[0], curve)), value, 7)


if __name__ == "__main__":
    unittest.main()
