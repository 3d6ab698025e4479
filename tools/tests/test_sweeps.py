"""Models with other values, runs at many points, and runs from Python."""
import os
import shutil
import subprocess
import sys
import time
import unittest
from fractions import Fraction

from support import PROGRAM, TOOLS, InFolder, python_with, run

from qss_tools.fault import Fault
from qss_tools.model.changes import changed_text, value_text
from qss_tools.sweeps.clusters import grouped
from qss_tools.sweeps.grids import Points

CANONICAL = """model m parameter Real a = 1 ;
parameter Integer n = 2 ;
Real x ( start = 8 ) ;
Real u [ n ] ;
Real w annotation ( QSS_Quantum = 1 ) ;
discrete Real d ;
initial algorithm for i in 1 : n loop u [ i ] := 1 ;
end for ;
equation der ( x ) = - a * x ;
der ( w ) = 0 ;
for i in 1 : n loop der ( u [ i ] ) = 0 ;
end for ;
annotation ( experiment ( StopTime = 2 , QSS_Quantum = 1 ) ) ;
end m ;
"""

# In two ticks x goes from 8 by -8 a: its levels are whole, and its slope is -a times its level.
RATE = (
    'model m parameter Real a = 1; Real x(start = 8, unit = "V"); equation der(x) = -a*x; annotation(experiment('
    "StopTime = 2, QSS_CoefBits = 0, QSS_TickBits = 0, QSS_LevelBits = 0, QSS_Quantum = 1)); end m;\n"
)
MEASURE = ("--measure", "mean(x) min(x)", "--measure", "final(x)")
RATES = "a,mean(x),min(x),final(x),status\n0,8,8,8,ok\n1,2,0,0,ok\n2,0,-8,8,ok\n3,2,-16,32,ok\n"


# Why a run with 21 tick bits is refused.
REFUSED = (
    '"refused: QSS_TickBits = 21 is not accepted: it is a whole number from 0 to 20, and with QSS_CoefBits = 0 at most 44'
    ' (line 4 of the changed model)"'
)


def numbers_of(path):
    """The numbers in the lines of a file."""
    with open(path, encoding="ascii") as file:
        return [int(line) for line in file if line.endswith("\n")]


def is_running(process):
    """Whether a process is there and has not ended."""
    try:
        with open("/proc/%d/stat" % process, encoding="ascii", errors="replace") as file:
            return file.read().rpartition(")")[2].split()[0] != "Z"
    except OSError:
        return False


class Changes(unittest.TestCase):
    def changed(self, **values):
        return changed_text("m.mo", CANONICAL.encode(), values).decode()

    def test_values_take_their_places(self):
        for name, value, old, new in (
            ("a", "1/3", "a = 1 ;", "a = 1/3 ;"),
            ("n", 3, "n = 2 ;", "n = 3 ;"),
            ("a", -0.25, "a = 1 ;", "a = -0.25 ;"),
            ("x.start", "2*a", "start = 8", "start = 2*a"),
            ("d.start", 1, "d ;", "d (start = 1) ;"),
            ("w.QSS_Quantum", "1/8", "QSS_Quantum = 1 )", "QSS_Quantum = 1/8 )"),
            ("d.QSS_Quantum", 2, "d ;", "d annotation(QSS_Quantum = 2) ;"),
            ("StopTime", 3, "StopTime = 2", "StopTime = 3"),
            ("QSS_Quantum", "1/4", "QSS_Quantum = 1 ) )", "QSS_Quantum = 1/4 ) )"),
            ("QSS_TickBits", 9, "QSS_Quantum = 1 ) )", "QSS_Quantum = 1 , QSS_TickBits = 9) )"),
        ):
            with self.subTest(name):
                wanted = CANONICAL.replace(old, new, 1)
                self.assertEqual(self.changed(**{name: value}).replace(" ", ""), wanted.replace(" ", ""))
        both = self.changed(a=2, StopTime=4)
        self.assertIn("a = 2 ;", both)
        self.assertIn("StopTime = 4", both)

    def test_settings_of_a_model_without_any(self):
        text = b"model m Real x; equation der(x) = 0; end m;\n"
        found = changed_text("m.mo", text, {"StopTime": 2, "QSS_TickBits": 3}).decode()
        self.assertIn("annotation(experiment(StopTime = 2, QSS_TickBits = 3));\nend m;", found)

    def test_what_is_no_change(self):
        for name, value, part in (
            ("b", 1, "no parameter or setting 'b' (parameters: a, n)"),
            ("x", 1, "--set x.start="),
            ("a.start", 1, "--set a="),
            ("x.stop", 1, "no parameter or setting"),
            ("u.start", 1, "initial algorithm"),
            ("a", "1; parameter Real z = 1", "not a value"),
            ("a", "", "not a value"),
            ("a", "1,2", "not a value"),
            ("a", "1e-30//", "not a value"),
            ("a", float("nan"), "not a number"),
            ("a", Fraction(1, 3**50), "more digits"),
        ):
            with self.subTest(name=name, value=value):
                with self.assertRaises(Fault) as caught:
                    self.changed(**{name: value})
                self.assertIn(part, str(caught.exception))

    def test_numbers_as_the_language_has_them(self):
        for value, text in (
            (0.1, "0.1"),
            (1e-7, "0.0000001"),
            (2**-20, "1/1048576"),
            (Fraction(1, 3), "1/3"),
            (-5, "-5"),
        ):
            self.assertEqual(value_text(value), text)


class Grids(unittest.TestCase):
    def points(self, *words, **options):
        return list(Points(words, **options))

    def test_lists_and_ranges(self):
        self.assertEqual(
            self.points("L=10:30:10", "d=0.3,1/2"), [[a, b] for a in ("10", "20", "30") for b in ("0.3", "0.5")]
        )
        self.assertEqual(self.points("x=1:0:-0.25"), [["1"], ["0.75"], ["0.5"], ["0.25"], ["0"]])
        self.assertEqual(self.points("x=0:1:0.3"), [["0"], ["0.3"], ["0.6"], ["0.9"]])
        self.assertEqual(self.points("x=2*a,3"), [["2*a"], ["3"]])
        self.assertEqual(self.points(), [[]])

    def test_random_values(self):
        words = ("R=tolerance(10,5%)", "C=normal(100,2)", "k=1,2", "b=uniform(-1,1)")
        found = self.points(*words, samples=400, seed=7)
        self.assertEqual(len(found), 800)
        self.assertEqual(found, self.points(*words, samples=400, seed=7))
        self.assertNotEqual(found, self.points(*words, samples=400, seed=8))
        self.assertEqual([(r, c, b) for r, c, _, b in found[:400]], [(r, c, b) for r, c, _, b in found[400:]])
        values = [[float(one) for one in column] for column in zip(*found[:400])]
        for column, mean, deviation in ((0, 10, 1 / 3**0.5 / 2), (1, 100, 2), (3, 0, 1 / 3**0.5)):
            average = sum(values[column]) / 400
            spread = (sum((one - average) ** 2 for one in values[column]) / 399) ** 0.5
            self.assertLess(abs(average - mean), 4 * deviation / 20)
            self.assertLess(abs(spread / deviation - 1), 0.15)
        self.assertTrue(9.5 <= min(values[0]) and max(values[0]) <= 10.5)
        # the values of a name do not depend on the other names
        self.assertEqual(
            [one for _, one, _, _ in found[:400]], [one for one, in self.points(words[1], samples=400, seed=7)]
        )

    def test_what_is_no_grid(self):
        for words, options, part in (
            (("x=1:2",), {}, "FIRST:LAST:STEP"),
            (("x=1:2:0",), {}, "FIRST:LAST:STEP"),
            (("x=2:1:1",), {}, "has 0 values"),
            (("x=1,,2",), {}, "value is missing"),
            (("x=a:2:1",), {}, "not a number"),
            (("x=uniform(1,2)",), {}, "requires --samples"),
            (("x=uniform(2,1)",), {"samples": 1}, "no values"),
            (("x=1",), {"samples": 3}, "no --set has a random value"),
            (("x=1:1000:1", "y=1:1001:1"), {}, "runs, more than"),
            (("x=1", "x=2"), {}, "twice"),
            (("x",), {}, "not NAME=VALUE"),
        ):
            with self.subTest(words):
                with self.assertRaises(Fault) as caught:
                    self.points(*words, **options)
                self.assertIn(part, str(caught.exception))


class Runs(InFolder):
    def setUp(self):
        super().setUp()
        self.model = self.file("m.mo", RATE)

    def call(self, tool, *words, **options):
        return run(tool, self.model, *words, "--program", PROGRAM, **options)

    def test_run(self):
        rows = "tick,event,name,level,state\n0,start,x,8,8\n1,level,x,-8,-8\n2,level,x,8,8\n2,end,x,8,8\n"
        self.assertEqual(self.call("qss-run", "--set", "a=2"), (0, rows, ""))
        self.assertEqual(self.call("qss-run", "--set", "a=2", "--set", "StopTime=0")[1].count("\n"), 3)
        path = os.path.join(self.folder, "rows.csv")
        self.assertEqual(self.call("qss-run", "--set", "a=2", "-o", path), (0, "", ""))
        with open(path, encoding="ascii") as file:
            self.assertEqual(file.read(), rows)
        self.assertIn("Real a = 2;", self.call("qss-run", "--set", "a=2", "--print")[1].replace(" ;", ";"))

    def test_run_of_what_is_refused_or_overflows(self):
        status, out, err = self.call("qss-run", "--set", "QSS_TickBits=21")
        self.assertEqual((status, out), (2, ""))
        way = " (tools/qss-explain %s --set QSS_TickBits=21 shows the place)" % self.model
        line = "qss-run: %s with QSS_TickBits = 21: refused: machine 1 QSS_TickBits 21/1%s\n" % (self.model, way)
        self.assertEqual(err, line)
        status, out, err = self.call("qss-run", "--set", "a=-8000000", "--set", "StopTime=9")
        self.assertEqual((status, out.split("\n")[-2]), (1, "2,overflow,x,,"))
        self.assertIn("overflow: x at tick 2", err)
        self.assert_fault(self.call("qss-run", "--set", "b=2"), "no parameter or setting 'b'")

    def test_values_for_other_tools(self):
        self.assertEqual(self.call("qss-table", "--set", "a=2", "--no-advice")[1], "time,x\n0,8\n1,-8\n2,8\n")
        self.assertEqual(self.call("qss-measure", "min(x)", "--set", "a=3", "--no-advice"), (0, "min(x)  -16 V\n", ""))
        path = os.path.join(self.folder, "picture.svg")
        self.assertEqual(self.call("qss-plot", "--set", "a=2", "-o", path, "--no-advice")[0], 0)
        with open(path, encoding="utf-8") as file:
            self.assertIn("x [V]", file.read())
        self.assert_fault(self.call("qss-table", "--set", "QSS_TickBits=21"), "m.mo with QSS_TickBits = 21: refused")

    def sweep(self, *words, **options):
        return self.call("qss-sweep", *words, *MEASURE, **options)

    def test_a_sweep_by_one_process_and_by_several(self):
        for jobs in ("1", "3"):
            self.assertEqual(self.sweep("--set", "a=0:3:1", "--jobs", jobs), (0, RATES, ""))

    def test_runs_that_are_not_ok_have_a_line(self):
        words = ("--set", "a=0,-8000000", "--set", "QSS_TickBits=0,21")
        status, out, err = self.call("qss-sweep", *words, "--measure", "mean(x) duty(x)", "--jobs", "2")
        self.assertEqual((status, err), (1, ""))
        self.assertEqual(
            out,
            "a,QSS_TickBits,mean(x),duty(x),status\n"
            "0,0,8,,duty(x): x does not switch: it is 8\n"
            "0,21,,,%s\n"
            "-8000000,0,32000008,0.5,overflow: x at 2\n"
            "-8000000,21,,,%s\n" % (REFUSED, REFUSED),
        )

    def test_an_interrupted_sweep_goes_on(self):
        """The first line is kept as it is in the file, and the cut one is computed anew."""
        path = os.path.join(self.folder, "table.csv")
        words = ("--set", "a=0:3:1", "--jobs", "1", "-o", path)
        self.assertEqual(self.sweep(*words), (0, "", ""))
        with open(path, encoding="utf-8") as file:
            self.assertEqual(file.read(), RATES)
        self.assertFalse(os.path.exists(path + ".part"))
        self.assert_fault(self.sweep(*words), "the file exists")
        head = self.identity(*words)
        self.file("table.csv.part", head + "0,77,8,8,ok\n1,2,0,0,o")
        self.assertEqual(self.sweep(*words, "--force"), (0, "", ""))
        with open(path, encoding="utf-8") as file:
            self.assertEqual(file.read(), RATES.replace("0,8,8,8", "0,77,8,8"))
        for spoilt in (head.replace("0", "1").replace("2", "3"), "", "\n"):
            self.file("table.csv.part", spoilt)
            self.assert_fault(self.sweep(*words, "--force"), "of another sweep")

    @unittest.skipUnless(os.path.isdir("/proc/self"), "the processes are not listed in /proc")
    def test_no_process_is_left_behind(self):
        """The processes of a sweep end after it was killed. Their program writes down who started it, and waits."""
        text = '#!/bin/sh\n[ "$1" = print ] && exec %s "$@"\necho $PPID >> %s\nexec sleep 20\n'
        workers = os.path.join(self.folder, "workers")
        slow = self.file("slow", text % (PROGRAM, workers))
        os.chmod(slow, 0o755)
        words = [self.model, "--set", "a=0:3:1", *MEASURE, "--jobs", "2", "--program", slow]
        command = [sys.executable, os.path.join(TOOLS, "qss-sweep"), *words]
        child = subprocess.Popen(command, stdout=subprocess.DEVNULL, env={**os.environ, "TMPDIR": self.folder})
        self.addCleanup(child.communicate)
        self.addCleanup(child.kill)
        self.await_that(lambda: os.path.exists(workers) and len(numbers_of(workers)) >= 2)
        found = numbers_of(workers)
        self.assertTrue(all(is_running(one) for one in found))
        child.kill()
        child.wait()
        self.await_that(lambda: not any(is_running(one) for one in found))

    def await_that(self, condition):
        end = time.monotonic() + 120
        while not condition():
            self.assertLess(time.monotonic(), end)
            time.sleep(0.1)

    def identity(self, *words):
        """The first line of the part of a sweep that was interrupted at its start."""
        script = (
            "import sys; sys.path.insert(0, %r)\nfrom qss_tools.sweeps import sweep\n"
            "def stop(*_): raise KeyboardInterrupt\nsweep.by_processes = stop\nsweep.main(sys.argv[1:])" % TOOLS
        )
        words = [self.model, *words, *MEASURE, "--program", PROGRAM, "--force"]
        done = subprocess.run([sys.executable, "-c", script] + words, stderr=subprocess.PIPE)
        self.assertEqual(done.stderr, b"qss-sweep: interrupted\n")
        with open(os.path.join(self.folder, "table.csv.part"), encoding="utf-8") as file:
            return file.read()

    def test_samples(self):
        words = ("--set", "a=uniform(0,1)", "--set", "QSS_CoefBits=10", "--samples", "3", "--seed", "5")
        status, out, err = self.sweep(*words)
        self.assertEqual((status, err), (0, ""))
        values = [float(line.split(",")[0]) for line in out.split("\n")[1:4]]
        self.assertEqual(values, [float(point[0]) for point in Points(words[1:2], 3, 5)])
        self.assertEqual(self.sweep(*words)[1], out)

    def test_commands_for_other_engines(self):
        path = os.path.join(self.folder, "jobs.txt")
        self.assertEqual(self.sweep("--set", "a=0:3:1", "--jobs-file", path), (0, "", ""))
        shells = [["sh", path]] + ([["sh", "-c", "parallel -k -j 2 <'%s'" % path]] if shutil.which("parallel") else [])
        environment = dict(os.environ, PARALLEL_HOME=self.folder, HOME=self.folder)
        for words in shells:
            with self.subTest(words[-1]):
                done = subprocess.run(words, stdout=subprocess.PIPE, stderr=subprocess.PIPE, env=environment)
                self.assertEqual(done.stdout.decode(), RATES, done.stderr)

    def test_faults(self):
        for words, part in (
            (("--set", "b=1"), "no parameter or setting 'b'"),
            (("--set", "a=1", "--measure", "mean(z)"), "no variable 'z'"),
            (("--set", "a=1", "--jobs", "0"), "--jobs"),
            (("--set", "a=uniform(0,1)"), "--samples"),
            (("--set", "a=1", "-o", os.path.join(self.folder, "none", "t.csv")), "no such file"),
        ):
            with self.subTest(words):
                self.assert_fault(self.sweep(*words), part)
        self.assert_fault(self.call("qss-sweep", "--set", "a=1"), "no measure is given")

    def test_the_bar_is_for_a_terminal(self):
        if not shutil.which("script"):
            self.skipTest("script is not installed")
        command = " ".join(
            [sys.executable, os.path.join(TOOLS, "qss-sweep"), self.model, "--set a=0:3:1 --measure 'min(x)' --jobs 2"]
            + ["--program", PROGRAM, ">/dev/null"]
        )
        done = subprocess.run(
            ["script", "-qec", command, "/dev/null"], stdout=subprocess.PIPE, stdin=subprocess.DEVNULL
        )
        text = done.stdout.decode()
        self.assertIn("4/4 [##############################] 0 s left", text)
        self.assertRegex(text, r"4 runs in [\d.]+ s, [\d.]+ processors busy on average")


class Cluster(InFolder):
    def test_two_workers_give_the_same_table(self):
        python = python_with("distributed")
        if python is None:
            self.skipTest("distributed is not installed")
        model = self.file("m.mo", RATE)
        script = (
            "import subprocess, sys\nfrom distributed import LocalCluster\n"
            "if __name__ == '__main__':\n"
            "  with LocalCluster(n_workers=2, threads_per_worker=1, dashboard_address=None, host='127.0.0.1') as one:\n"
            "    sys.exit(subprocess.run(sys.argv[1:] + ['--dask', one.scheduler_address]).returncode)\n"
        )
        tool = [python, os.path.join(TOOLS, "qss-sweep"), model, "--set", "a=0:3:1", *MEASURE, "--program", PROGRAM]
        path = self.file("cluster.py", script)
        done = subprocess.run([python, path] + tool, stdout=subprocess.PIPE, stderr=subprocess.PIPE, cwd=self.folder)
        self.assertEqual((done.returncode, done.stdout.decode()), (0, RATES), done.stderr.decode())

    def test_tasks_of_several_runs(self):
        for runs, workers, size in ((1000, 2, 16), (1000, 8, 7), (100, 2, 3), (10, 2, 1), (0, 2, 1)):
            tasks = grouped(range(runs), workers)
            self.assertEqual([one for task in tasks for one in task], list(range(runs)))
            self.assertEqual({len(task) for task in tasks[:-1]} | {size}, {size})

    def test_no_cluster(self):
        python = python_with("distributed")
        words = ("--set", "a=1", *MEASURE, "--program", PROGRAM)
        model = self.file("m.mo", RATE)
        if python is None or python != sys.executable:
            self.assert_fault(
                run("qss-sweep", model, *words, "--dask", "tcp://127.0.0.1:1"), "needs the package distributed"
            )


if __name__ == "__main__":
    unittest.main()
