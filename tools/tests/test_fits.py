"""Fits of parameters to measured values, and the page docs/MEASUREMENTS.md."""
import math
import os
import random
import re
import shlex
import shutil
import signal
import subprocess
import time
import unittest
from unittest import mock

from support import BUILT, PROGRAM, ROOT, TOOLS, InFolder, python_with, run, run_by

from qss_tools.fault import Fault
from qss_tools.fits.noise import autocorrelation, pattern
from qss_tools.fits.ranges import Range, ranges_of, shift_range
from qss_tools.fits.search import Correlation, Estimate, spread_points
from qss_tools.model.flat import Flat
from qss_tools.model.grammar import parse
from qss_tools.model.source import Source
from qss_tools.tables.measurements import Measured

PAGE = os.path.join(ROOT, "docs", "MEASUREMENTS.md")
PYTHON = python_with("numpy", "scipy")

CHARGE = """// The current is measured, too: R = 7 in a comment.
model rc "RC low pass"
  parameter Real R(unit = "kOhm") = 2 "resistance", C = 2*(1/4); parameter Integer n = 1;
  Real v(unit = "V"), i(unit = "mA");
equation
  der(v) = (5 - v)/(R*C);
  i = (5 - v)/R;
  annotation(experiment(StopTime = 4, QSS_CoefBits = 16, QSS_TickBits = 12, QSS_LevelBits = 16, QSS_Quantum = 1/128));
end rc;
"""
VARY = ("--vary", "R=0.1:100", "--vary", "C=0.1:10", "--starts", "4")
CIRCUIT = (("R", 4.7), ("C", 0.33))
HEADER = "qss-fit: step 0: R = "
VALUE = re.compile(r"^  (\w+) += (\S+?)(?: \w+)?, 95 %: (\S+) to (\S+?)(?: \w+)?$", re.MULTILINE)


def read(path):
    with open(path, encoding="utf-8") as file:
        return file.read()


def flat():
    return Flat(parse(Source("rc.mo", CHARGE.encode())))


class Ranges(unittest.TestCase):
    def test_ranges(self):
        """A positive range is logarithmic. The start is the model's value, if it is in the range."""
        found = ranges_of(["R=1:100", "v.start=-1:3", "C=4:9"], flat())
        self.assertEqual([(one.name, one.low, one.high, one.is_logarithmic) for one in found], RANGES)
        self.assertEqual([one.start for one in found], [2.0, 0.0, 6.0])
        self.assertEqual([one.text(0.5) for one in found], ["10", "1", "6"])
        self.assertEqual([one.text(1.0) for one in found], ["100", "3", "9"])
        self.assertAlmostEqual(found[0].place(10.0), 0.5)
        self.assertEqual(found[1].place(2.0), 0.75)
        self.assertEqual(ranges_of(["R=1:100:30"], flat())[0].start, 30)
        self.assertEqual(Range("R", 1.0, 2.0, 1.0, True).text(1 / 3), "1.25992")

    def test_shifts(self):
        found = shift_range("-1ms:500us", "ms")
        self.assertEqual((found.low, found.high, found.start, found.is_logarithmic), (-1.0, 0.5, 0.0, False))
        self.assertEqual(shift_range("1:3", "s").start, 2.0)
        self.assertFalse(shift_range("1:3", "s").is_logarithmic)

    def test_what_is_no_range(self):
        for word, part in (
            ("R", "'R' is not NAME=LOW:HIGH"),
            ("R=1", "'R=1' is not NAME=LOW:HIGH"),
            ("R=1:2:3:4", "is not NAME=LOW:HIGH"),
            ("R=2:1", "--vary R: the range from 2 to 1 has no values"),
            ("R=1:1", "has no values"),
            ("R=a:1", "--vary R: 'a' is not a number"),
            ("R=1:2:3", "--vary R: 3 is not within the range from 1 to 2"),
            ("z=1:2", "'z' is no parameter of type Real and no start value (parameters: R, C)"),
            ("n=1:2", "'n' is no parameter of type Real"),
            ("v=1:2", "'v' is no parameter of type Real"),
            ("QSS_TickBits=1:2", "'QSS_TickBits' is a setting"),
            ("v.QSS_Quantum=1:2", "is a setting"),
        ):
            with self.subTest(word):
                with self.assertRaises(Fault) as caught:
                    ranges_of([word], flat())
                self.assertIn(part, str(caught.exception))
        with self.assertRaises(Fault):
            ranges_of(["R=1:2", "R=1:3"], flat())
        for text in ("1ms", "1:2:3", "2:1", "a:1"):
            with self.assertRaises(Fault):
                shift_range(text, "ms")

    def test_points_fill_the_ranges(self):
        """Of 64 points in a square each sixteenth of it has two at least."""
        found = spread_points(64, 2)
        cells = [(int(4 * x), int(4 * y)) for x, y in found]
        self.assertTrue(all(cells.count((x, y)) >= 2 for x in range(4) for y in range(4)))
        self.assertEqual(spread_points(64, 2), found)

    def test_sentences(self):
        self.assertEqual(Estimate("R", "2.20669", (2.195, 2.2185), False).sentence(" Ohm"), INTERVAL)
        self.assertEqual(Estimate("R", "5e6", (4e6, 6e6), True).sentence(""), END)
        self.assertEqual(Estimate("R", "5", None, False).sentence(""), "5, not determined by the data within its range")
        self.assertEqual(Correlation("R", "C", 0.97).text(), "R and C: correlation 0.970")
        self.assertIn("the data hardly tell them apart", Correlation("R", "C", -0.9999).text())


class Noise(unittest.TestCase):
    """Differences of runs from measured values that go from 0 to 1."""

    def pattern(self, errors):
        times = [float(place) for place in range(len(errors))]
        values = [place / (len(errors) - 1) for place in range(len(errors))]
        return pattern(Measured("v", "V", times, values), [value + error for value, error in zip(values, errors)])

    def test_autocorrelations(self):
        # (of 4 equal differences 3 pairs are left, and of alternating ones their products are -1)
        self.assertEqual(autocorrelation([2.0] * 4, 1), 3 / 4)
        self.assertEqual(autocorrelation([1.0, -1.0] * 5, 1), -9 / 10)
        self.assertEqual(autocorrelation([1.0, -1.0] * 5, 2), 8 / 10)
        self.assertEqual(autocorrelation([0.0] * 3, 1), 0)

    def test_noise_and_patterns(self):
        draw = random.Random(3)
        noise = [draw.gauss(0, 0.05) for _ in range(400)]
        self.assertIsNone(self.pattern(noise))
        offset = self.pattern([0.1] * 400)
        self.assertEqual((offset.correlation, offset.lag), (399 / 400, 1))
        self.assertEqual(offset.text(), "v: the differences of neighbouring values have the correlation 1.00")
        # (a sine with 40 values a period on top of the noise; its square is a half of 0.2^2 in the mean)
        wave = self.pattern([one + 0.2 * math.sin(math.pi * place / 20) for place, one in enumerate(noise)])
        self.assertAlmostEqual(wave.correlation, 0.02 / 0.0225, delta=0.03)
        # (every other value is off: the samples are as far apart as half a period)
        self.assertEqual(self.pattern([0.1, -0.1] * 200).lag, 1)

    def test_small_differences_and_few_values_are_no_pattern(self):
        self.assertIsNone(self.pattern([0.004] * 400))
        self.assertIsNone(self.pattern([0.1] * 12))

    def test_no_interval_is_printed(self):
        found = Estimate("R", "2.20669", (2.195, 2.2185), True)
        self.assertEqual(found.sentence(" Ohm", is_trusted=False), "2.207 Ohm, at the end of its range")


RANGES = [("R", 1.0, 100.0, True), ("v.start", -1.0, 3.0, False), ("C", 4.0, 9.0, True)]
INTERVAL = "2.207 Ohm, 95 %: 2.195 to 2.219"
END = "5000000, 95 %: 4000000 to 6000000, at the end of its range"


class Faults(InFolder):
    """These need neither numpy nor scipy."""

    def test_one_line_names_the_packages(self):
        model, data = self.file("rc.mo", CHARGE), self.file("d.csv", "t,v\n1,2\n")
        with mock.patch.dict("sys.modules", {"scipy": None, "scipy.optimize": None}):
            answer = run("qss-fit", model, "--with", data, *VARY, "--program", PROGRAM)
        self.assert_fault(answer, "numpy and scipy are needed, and ")
        self.assertIn("(python3-numpy and python3-scipy of Debian", answer[2])

    def test_faults(self):
        model, data = self.file("rc.mo", CHARGE), self.file("d.csv", "t,v\n1,2\n")
        for words, part in (
            (("--with", data), "--vary names what is varied"),
            (("--with", data, *VARY, "--rewrite", data), "d.csv: the file exists (--force"),
            (("--with", data, *VARY, "-o", data), "d.csv: the file exists (--force"),
            (("--with", data, *VARY, "--rewrite", "none/f.mo"), "there is no such folder"),
            (VARY, "the following arguments are required: --with"),
            (("--with", data, "--vary", "R=5:1"), "has no values"),
            (("--with", data, *VARY, "--set", "R=5"), "'R' is in --vary and in --set"),
            (("--with", data, *VARY, "--jobs", "0"), "--jobs: from 1 to 1024"),
            (("--with", data, *VARY, "--starts", "0"), "--starts: from 1 to"),
            (("--with", data, *VARY, "--column", "v=CH1"), "has no column 'CH1'"),
            (("--with", self.file("empty.csv", ""), *VARY), "empty.csv: the file is empty"),
            (("--with", self.file("unit.csv", "t,v [A]\n1,2\n"), *VARY), "the column 'v' is in A, and v is in V"),
            (("--with", data, *VARY, "--shift", "9"), "no time of the values of v is within the run"),
        ):
            with self.subTest(words):
                self.assert_fault(run("qss-fit", model, *words, "--program", PROGRAM), part)
        self.assertEqual([one for one in os.listdir(self.folder) if one.endswith(".part")], [])


@unittest.skipUnless(PYTHON and os.path.exists(BUILT), "numpy, scipy or the program are not here")
class Fits(InFolder):
    """A circuit with R = 4.7 and C = 0.33, whose values have noise of 0.4 % of 5 V."""

    def setUp(self):
        super().setUp()
        self.model = self.file("rc.mo", CHARGE)
        before = os.getcwd()
        self.addCleanup(os.chdir, before)
        os.chdir(self.folder)

    def data(self, noise=0.02, late=0.0):
        """The run of the circuit at 201 times, with noise of a fixed seed."""
        words = ("--set", "R=4.7", "--set", "C=0.33", "--every", "1/50", "--names", "v,i", "--states")
        status, out, err = run("qss-table", self.model, *words, "--no-advice", "--program", PROGRAM)
        self.assertEqual((status, err), (0, ""))
        draw = random.Random(11)
        lines = [line.split(",") for line in out.splitlines()[1:]]
        rows = [
            "%.6f,%s" % (float(t) - late, ",".join("%.5f" % (float(x) + draw.gauss(0, noise)) for x in more))
            for t, *more in lines
        ]
        return self.file("data.csv", "t,v,i\n" + "\n".join(rows) + "\n")

    def fit(self, *words):
        return run_by(PYTHON, "qss-fit", self.model, *words, "--jobs", "1", "--program", PROGRAM)

    def values(self, out):
        """The values of a report, each with its interval."""
        return {name: tuple(map(float, more)) for name, *more in VALUE.findall(out)}

    def test_a_circuit_and_its_own_run(self):
        """R and C come back within 1 %, and their intervals have the values of the circuit."""
        status, out, err = self.fit("--with", self.data(), *VARY, "--rewrite", "fitted.mo", "-o", "runs.csv")
        self.assertEqual(status, 0, err)
        self.assertTrue(err.startswith(HEADER), err)
        self.assertTrue(all(line.startswith("qss-fit: step ") for line in err.splitlines()), err)
        found = self.values(out)
        for name, wanted in CIRCUIT:
            value, low, high = found[name]
            self.assertLess(abs(value / wanted - 1), 0.01, out)
            self.assertTrue(low < wanted < high, out)
        self.assertIn("  v: rms error 0.0", out)
        self.assertFalse(os.path.exists("rc.fit.part"))
        text = read("fitted.mo")
        values = re.findall(r'= ([\d.]+) "resistance", C = ([\d.]+); parameter', text)[0]
        self.assertEqual(text, CHARGE.replace("= 2 ", "= %s " % values[0]).replace("2*(1/4)", values[1]))
        lines = read("runs.csv").splitlines()
        self.assertEqual((lines[0], lines[1][:6]), ("R,C,rms(v),rms(i),status", "2,0.5,"))
        self.assertIn("and %d runs" % (len(lines) - 1), out)
        self.assertIn("%s,%s," % values, "\n".join(lines))

    def test_nothing_is_overwritten(self):
        data, kept = self.data(), self.file("kept.mo", "kept")
        self.assertEqual(
            self.fit("--with", data, *VARY, "--rewrite", "kept.mo", "--force", "--steps", "3")[0] in (0, 1), True
        )
        self.assertIn("model rc", read(kept))
        self.file("rc.fit.part", "qss-fit of something else\n")
        self.assert_fault(self.fit("--with", data, *VARY), "rc.fit.part: this is of another fit: remove it")

    def test_an_interrupted_fit_goes_on(self):
        """It is interrupted after its first steps, and then has the same report, model and table."""
        data = self.data()
        words = ["--with", data, *VARY, "--program", PROGRAM]
        files = ["--rewrite", "a.mo", "-o", "a.csv"]
        whole = run_by(PYTHON, "qss-fit", self.model, *words, "--jobs", "1", *files)
        self.assertEqual(whole[0], 0, whole[2])
        for jobs in ("1", "2"):
            self.interrupted([*words, "--jobs", jobs], 12)
            status, out, err = run_by(
                PYTHON, "qss-fit", self.model, *words, "--jobs", jobs, "--rewrite", "b.mo", "-o", "b.csv", "--force"
            )
            self.assertEqual((status, out), whole[:2])
            first, *steps = err.splitlines()
            self.assertRegex(first, r"^qss-fit: \d\d runs of b.csv.part$")
            self.assertEqual(steps, whole[2].splitlines())
            for end in (".mo", ".csv"):
                self.assertEqual(read("a" + end), read("b" + end))
            self.assertFalse(os.path.exists("b.csv.part"))

    def interrupted(self, words, count):
        """Interrupts a fit after so many runs, and cuts its file in the last line."""
        script = os.path.join(TOOLS, "qss-fit")
        child = subprocess.Popen(
            [PYTHON, script, self.model, *words, "-o", "b.csv", "--force"],
            stdout=subprocess.PIPE,
            stderr=subprocess.PIPE,
        )
        self.addCleanup(child.communicate)
        path, end = "b.csv.part", time.monotonic() + 120
        while time.monotonic() < end and child.poll() is None:
            if os.path.exists(path) and len(read(path).splitlines()) > count:
                child.send_signal(signal.SIGINT)
                break
            time.sleep(0.01)
        out, err = child.communicate(timeout=60)
        self.assertEqual((child.returncode, out), (2, b""), err)
        last = err.decode().splitlines()[-1]
        self.assertRegex(last, r"^qss-fit: interrupted after \d\d runs: the same call goes on from b.csv.part$")
        with open(path, "rb+") as file:
            file.truncate(os.path.getsize(path) - 10)

    def test_a_shift(self):
        """The times are 0.1 early. Values that are outside of the run with some shifts are left out."""
        words = ("--vary-shift=-0.2:0.2", *VARY)
        status, out, err = self.fit("--with", self.data(0.002, 0.1), *words)
        self.assertEqual(status, 0, out + err)
        self.assertIn(", from 0.2 to 3.8 s\n", out)
        shift = re.search(r"  shift += (\S+) s, 95 %: (\S+) to (\S+)\n", out)
        self.assertLess(abs(float(shift.group(1)) - 0.1), 0.01, out)

    def test_a_start_value(self):
        status, out, err = self.fit(
            "--with", self.data(), "--vary", "v.start=-1:1", "--set", "R=4.7", "--set", "C=0.33"
        )
        self.assertEqual(status, 0, out + err)
        start = re.search(r"  v.start = (\S+) V, 95 %: (\S+) to (\S+)\n", out)
        self.assertLess(abs(float(start.group(1))), 0.02, out)

    def test_runs_of_second_order(self):
        status, out, err = self.fit("--with", self.data(0.005), *VARY, "--order", "2")
        self.assertEqual(status, 0, out + err)
        self.assertLess(max(abs(self.values(out)[name][0] / wanted - 1) for name, wanted in CIRCUIT), 0.01, out)

    @unittest.skipUnless(shutil.which("script"), "script is not installed")
    def test_a_terminal_shows_the_number_of_runs(self):
        words = [PYTHON, os.path.join(TOOLS, "qss-fit"), self.model, "--with", self.data(), *VARY, "--program", PROGRAM]
        command = ["script", "-qec", shlex.join(words) + " >/dev/null", "/dev/null"]
        text = subprocess.run(command, stdin=subprocess.DEVNULL, stdout=subprocess.PIPE).stdout.decode()
        self.assertIn("\r3 runs\r4 runs\rqss-fit: step 0: R = ", text)

    def test_what_the_data_do_not_determine(self):
        """The voltage has only the product of R and C. A range without the value is left at its end."""
        data = self.data()
        lines = read(data).splitlines()
        voltage = self.file("v.csv", "".join(line.rpartition(",")[0] + "\n" for line in lines))
        status, out, _ = self.fit("--with", voltage, *VARY)
        self.assertEqual(status, 1, out)
        self.assertTrue(
            "R and C: correlation -1.000, the data hardly tell them apart\n" in out or out.count("not determined") == 2,
            out,
        )
        status, out, _ = self.fit("--with", data, "--vary", "R=10:100", "--set", "C=0.33")
        self.assertEqual(status, 1, out)
        self.assertIn("at the end of its range\n", out)
        status, out, _ = self.fit("--with", data, *VARY, "--steps", "1")
        self.assertEqual(status, 1, out)
        self.assertIn(" runs; the search is not at its end: --steps allows more\n", out)

    def test_a_model_that_does_not_fit(self):
        """With C = 0.6 in place of 0.33 no R fits: there are no intervals, and the line names the file that is written."""
        words = ("--vary", "R=0.1:100", "--set", "C=0.6", "--starts", "2", "--rewrite", "f.mo")
        status, out, err = self.fit("--with", self.data(), *words)
        self.assertEqual(status, 1, out)
        self.assertNotIn("95 %", out)
        self.assertRegex(out, r"\n  R = \S+ kOhm\n")
        last = out.splitlines()[-1]
        self.assertTrue(
            last.startswith("the differences that are left are not like noise (v: the differences of "), out
        )
        self.assertIn(": --starts 16 searches more of the ranges; f.mo has these values all the same", last)
        self.assertEqual(err.count("qss-fit: the differences are not like noise: the search begins again"), 1)
        self.assertIn("model rc", read("f.mo"))

    def test_a_fit_from_python(self):
        """R comes back within 1 %. With a wrong capacity there is no interval."""
        script = (
            "import sys; sys.path.insert(0, %r); import qss_tools as qss\n"
            "for C in (0.33, 0.6):\n"
            "    f = qss.fit('rc.mo', %r, {'R': '0.1:100'}, {'i': 'i'}, set={'C': C}, starts=2, jobs=1, program=%r)\n"
            "    print(f.is_sound, f.values['R'], f.intervals['R'] is None, sorted(f.errors), f.text.count('C = '))"
        ) % (TOOLS, self.data(), PROGRAM)
        done = subprocess.run([PYTHON, "-c", script], stdout=subprocess.PIPE, stderr=subprocess.PIPE)
        self.assertEqual(done.returncode, 0, done.stderr.decode())
        right, wrong = done.stdout.decode().splitlines()
        self.assertRegex(right, r"^True \S+ False \['i', 'v'\] 1$")
        self.assertLess(abs(float(right.split()[1]) / 4.7 - 1), 0.01)
        self.assertRegex(wrong, r"^False \S+ True \['i', 'v'\] 1$")
        self.assertEqual([one for one in os.listdir(self.folder) if one.endswith(".part")], [])

    def test_points_that_are_refused(self):
        """R = 0 is no value of the model: the points near it are left out."""
        status, out, err = self.fit("--with", self.data(), "--vary", "R=0:10", "--set", "C=0.33", "--starts", "4")
        self.assertEqual(status, 0, err)
        self.assertLess(abs(self.values(out)["R"][0] / 4.7 - 1), 0.01, out)
        answer = self.fit("--with", "data.csv", "--vary", "R=0:1e-9:0", "--starts", "1")
        self.assert_fault(answer, "no run at the first 1 points: refused: ")


@unittest.skipUnless(PYTHON and os.path.exists(BUILT), "numpy, scipy or the program are not here")
class Page(InFolder):
    def test_each_command_prints_what_the_page_shows(self):
        """On standard output: the steps of a fit are printed on standard error."""
        shutil.copytree(os.path.join(ROOT, "docs", "tutorial"), os.path.join(self.folder, "docs", "tutorial"))
        os.mkdir(os.path.join(self.folder, "tour"))
        blocks = re.findall(r"^```console\n(.*?)^```$", read(PAGE), re.MULTILINE | re.DOTALL)
        commands = [
            found
            for block in blocks
            for found in re.findall(r"^\$ tools/([^\n]*)\n((?:(?!\$ )[^\n]*\n)*)", block, re.MULTILINE)
        ]
        self.assertGreaterEqual(len(commands), 4)
        for command, shown in commands:
            with self.subTest(command):
                tool, *words = shlex.split(command)
                done = subprocess.run(
                    [PYTHON, os.path.join(TOOLS, tool), *words],
                    cwd=self.folder,
                    stdout=subprocess.PIPE,
                    stderr=subprocess.PIPE,
                )
                self.assertEqual((done.returncode, done.stdout.decode()), (0, shown), done.stderr.decode())


if __name__ == "__main__":
    unittest.main()
