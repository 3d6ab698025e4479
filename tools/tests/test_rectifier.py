"""The rectifier of the examples beside an independent computation: scipy with the exact sine, from diode to diode."""
import csv
import io
import os
import subprocess
import unittest

from support import BUILT, PROGRAM, ROOT, InFolder, python_with, run

PERIODS = 10  # of 20 ms
# Computes mean, least and greatest voltage from 100 ms on. The diodes change where |sin| passes the voltage.
SOLUTION = """
import math, sys
from scipy.integrate import solve_ivp
import numpy
w, amp, rs, C, R, end = 0.314159265, 325.0, 2.0, 1.0, 100.0, 20.0*%d
source = lambda t: abs(amp*math.sin(w*(t %% 20.0)))
apart = lambda t, y, on: source(t) - y[0]
apart.terminal = True
t, u, area, least, most = 0.0, 0.0, 0.0, math.inf, -math.inf
for half in range(1, int(end/10) + 1):
    while t < 10.0*half - 1e-9:
        on = source(t + 1e-9) > u
        apart.direction = -1 if on else 1
        slope = lambda t, y, on: [(((source(t) - y[0])/rs if on else 0.0) - y[0]/R)/C]
        found = solve_ivp(slope, (t, 10.0*half), [u], args=(on,), events=[apart], rtol=1e-8, atol=1e-8, max_step=0.5,
                          dense_output=True)
        times = numpy.linspace(t, found.t[-1], 400)
        values = found.sol(times)[0]
        if t >= 100 - 1e-6:
            area += float(((values[1:] + values[:-1])/2*numpy.diff(times)).sum())
            least, most = min(least, values.min()), max(most, values.max())
        t, u = float(found.t[-1]) + 1e-10, float(found.y[0, -1])
    t = 10.0*half
print(area/(end - 100), least, most, most - least)
"""


@unittest.skipUnless(os.path.exists(BUILT), "the program is not built: its tests are left out")
class Rectifier(InFolder):
    def test_mean_ripple_and_peak_are_those_of_scipy(self):
        python = python_with("scipy")
        if python is None:
            self.skipTest("scipy is not installed")
        solved = subprocess.run([python, "-c", SOLUTION % PERIODS], stdout=subprocess.PIPE, check=True)
        wanted = [float(word) for word in solved.stdout.split()]
        model = os.path.join(ROOT, "examples", "rectifier.mo")
        text = " ".join("%s(uC, from=100)" % name for name in ("mean", "min", "max", "ripple"))
        words = "--set", "StopTime=%d" % (20 * PERIODS), "--csv", "--no-advice", "--program", PROGRAM
        status, out, err = run("qss-measure", model, text, *words)
        self.assertEqual((status, err), (0, ""))
        found = [float(value) for value in list(csv.reader(io.StringIO(out)))[1]]
        for value, exact in zip(found, wanted):
            self.assertLess(abs(value - exact), 0.01 * exact)


if __name__ == "__main__":
    unittest.main()
