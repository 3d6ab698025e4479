"""Runs from Python: docs/PYTHON.md and the notebooks of the examples."""
import ast
import json
import os
import re
import subprocess
import sys
import unittest
from fractions import Fraction

from models import BALL, BALL_ROWS, GROWING
from support import BUILT, PROGRAM, ROOT, TOOLS, InFolder, python_with
from test_sweeps import RATE

import qss_tools as qss

NOTEBOOKS = [os.path.join(ROOT, "examples", name) for name in ("sweep.ipynb", "converter.ipynb", "tolerances.ipynb")]
PAGE = os.path.join(ROOT, "docs", "PYTHON.md")


class Runs(InFolder):
    def setUp(self):
        super().setUp()
        self.ball = self.file("ball.mo", BALL)

    def test_a_run(self):
        run = qss.run(self.ball, program=PROGRAM)
        self.assertEqual((run.names, run.stop, run.overflow), (["y", "v"], 1.25, None))
        self.assertEqual(run.measure("mean(y)"), 0.05)
        self.assertEqual(run.measure("min(y) max(v)"), {"min(y)": -0.875, "max(v)": 1.875})
        self.assertEqual(run.table("y", every=Fraction(1, 2)), "time,y\n0,1\n0.5,0.25\n1,-0.5\n")
        self.assertEqual(run.table(["y"], every=0.5, states=True), "time,y\n0,1\n0.5,0.375\n1,-0.4375\n")
        y, v = run.signals()
        self.assertEqual((y(0.5), y(0.625), y.measure("ripple", begin=0.5, to=1)), (0.375, -0.25, 1.25))
        self.assertEqual(v.points(), [(0, 0), (0.75, -7.5), (0.75, 1.875), (1.25, -3.125)])
        self.assertIn("<svg", run.plot("y", events=True)._repr_svg_())
        path = os.path.join(self.folder, "ball.svg")
        self.assertIsNone(run.plot("y", file=path, to=1, unit="s"))
        self.assertTrue(os.path.exists(path))
        rows = self.file("ball.csv", BALL_ROWS)
        self.assertEqual(qss.run(self.ball, rows=rows, program=PROGRAM).measure("mean(v)"), -2.5)

    def test_other_values_and_differences(self):
        one, two = (qss.run(self.ball, set={"y.start": start}, program=PROGRAM) for start in (1, 2.0))
        self.assertEqual(repr(two), "<run of %s with y.start = 2>" % self.ball)
        y = next(found for found in one.difference(two) if found.name == "y")
        self.assertEqual(y.largest(0, 0.75), (0, -1))
        self.assertEqual([found.value for found in one.difference(one)], [0.0, 0.0])

    def test_what_is_refused_or_overflows(self):
        with self.assertRaises(qss.Fault) as caught:
            qss.run(self.ball, set={"QSS_TickBits": 21}, program=PROGRAM)
        self.assertIn("ball.mo with QSS_TickBits = 21: refused: machine 1", str(caught.exception))
        run = qss.run(self.file("m.mo", GROWING), program=PROGRAM)
        self.assertEqual(run.overflow, ("x", 5.0))
        self.assertEqual(run.measure("final(x)"), 1004006004001)

    def test_a_sweep(self):
        found = qss.sweep(self.file("m.mo", RATE), "mean(x)", {"a": [0, 1, 2.0]}, jobs=1, program=PROGRAM)
        rows = found if isinstance(found, list) else found.to_dict("records")
        self.assertEqual(
            [(row["a"], row["mean(x)"], row["status"]) for row in rows], [(0, 8, "ok"), (1, 2, "ok"), (2, 0, "ok")]
        )

    def test_frames(self):
        python = python_with("pandas")
        if python is None:
            self.skipTest("pandas is not installed")
        with open(PAGE, encoding="utf-8") as file:
            types = re.search(r'read_csv\("rows.csv", dtype=(\{.*\})\)', file.read()).group(1)
        large = 2**70 + 1
        rows = self.file("rows.csv", "tick,event,name,level,state\n0,start,x,%d,%d\n0,start,d,1,\n" % (2**43, large))
        script = (
            "import sys; sys.path.insert(0, %r)\nimport pandas, qss_tools as qss\n"
            "run = qss.run(%r, program=%r)\nframe = run.frame('y', every=0.5)\n"
            "assert list(frame.index) == [0, 0.5, 1] and list(frame['y']) == [1, 0.25, -0.5], frame\n"
            "assert run.raw()['state'].tolist()[:2] == ['256', '0']\n"
            "raw = pandas.read_csv(%r, dtype=%s)\n"
            "assert int(raw['state'][0]) == %d and raw['level'][0] == 2**43 and raw['state'].isna()[1]\n"
            % (TOOLS, self.ball, PROGRAM, rows, types, large)
        )
        done = subprocess.run([python, "-c", script], stdout=subprocess.PIPE, stderr=subprocess.STDOUT)
        self.assertEqual((done.returncode, done.stdout), (0, b""))


def cells_of(path):
    """The cells of a notebook."""
    with open(path, encoding="utf-8") as file:
        return json.load(file)["cells"]


@unittest.skipUnless(os.path.exists(BUILT), "the program is not built")
class Sliders(InFolder):
    SCRIPT = """import sys; sys.path.insert(0, %r)
import qss_tools as qss
one = qss.interact(%r, "v", program=%r)
assert list(one.sliders) == ["R", "C", "Vin"] and one.values == {}, one.values
before = one.picture.value
assert before.startswith("<svg"), before[:80]
one.sliders["R"].value = 2
one.sliders["Vin"].value = 4
assert one.values == {"R": "2", "Vin": "4"} and one.picture.value != before
# after 8 ms the voltage is 4 V times 1 - e^-4
assert abs(one.run.measure("final(v)") - 4*(1 - 2.718281828**-4)) < 0.02, one.run.measure("final(v)")
one.model = "nothing.mo"
one.sliders["C"].value = 2
assert "no such file" in one.picture.value, one.picture.value
"""

    def test_sliders(self):
        python = python_with("ipywidgets", "IPython")
        if python is None:
            self.skipTest("ipywidgets is not installed")
        script = self.SCRIPT % (TOOLS, os.path.join(ROOT, "examples", "rc.mo"), PROGRAM)
        done = subprocess.run([python, "-c", script], stdout=subprocess.PIPE, stderr=subprocess.STDOUT)
        self.assertEqual((done.returncode, done.stdout.decode()), (0, ""))

    def test_without_ipywidgets(self):
        if python_with("ipywidgets") == sys.executable:
            self.skipTest("ipywidgets is installed for this Python")
        with self.assertRaises(qss.Fault) as caught:
            qss.interact(os.path.join(ROOT, "examples", "rc.mo"), program=PROGRAM)
        self.assertIn("needs the package ipywidgets", str(caught.exception))


class Notebooks(InFolder):
    # Executes a notebook as a program that shows no widgets does, and writes it with its results.
    EXECUTE = """import sys, nbformat, nbclient
book = nbformat.read(sys.argv[1], 4)
client = nbclient.NotebookClient(book, timeout=600)
client.comm_open_handlers = {}
client.execute()
nbformat.write(book, sys.argv[2])
"""

    def test_cells_are_kept_without_results(self):
        for path in NOTEBOOKS:
            cells = cells_of(path)
            self.assertEqual([one for one in cells if one.get("outputs") or one.get("execution_count")], [], path)
            for one in cells:
                if one["cell_type"] == "code":
                    source = [line for line in one["source"] if not line.startswith("%")]
                    compile("".join(source), path, "exec")

    def results(self, name, *packages):
        """The results of the cells of a notebook that was executed."""
        python = python_with("nbclient", "nbformat", "ipykernel", *packages)
        if python is None:
            self.skipTest("nbclient, ipykernel%s: not installed" % "".join(", " + one for one in packages))
        path = os.path.join(self.folder, name)
        environment = {**os.environ, "JUPYTER_RUNTIME_DIR": self.folder, "IPYTHONDIR": self.folder, "HOME": self.folder}
        words = [python, "-c", self.EXECUTE, os.path.join(ROOT, "examples", name), path]
        done = subprocess.run(
            words, cwd=os.path.join(ROOT, "examples"), stdout=subprocess.PIPE, stderr=subprocess.STDOUT, env=environment
        )
        self.assertEqual(done.returncode, 0, done.stdout.decode()[-2000:])
        cells = [cell for cell in cells_of(path) if cell["cell_type"] == "code"]
        self.assertEqual([one for cell in cells for one in cell["outputs"] if one["output_type"] == "error"], [])
        return [[one["data"] for one in cell["outputs"] if "data" in one] for cell in cells]

    @unittest.skipUnless(os.path.exists(BUILT), "the program is not built")
    def test_sweep(self):
        found = self.results("sweep.ipynb", "pandas")
        self.assertIn("image/svg+xml", found[1][0])
        self.assertIn("mean(uC, from=500)", "".join(found[2][0]["text/plain"]))

    @unittest.skipUnless(os.path.exists(BUILT), "the program is not built")
    def test_converter(self):
        """The ripples are near those of the formulas of the notebook: 1.2 A and 0.3 V."""
        found = self.results("converter.ipynb", "pandas")
        self.assertIn("<svg", "".join(found[0][0]["text/html"]))
        chosen = ast.literal_eval("".join(found[2][0]["text/plain"]))
        self.assertAlmostEqual(chosen["ripple(iL, from=9000)"], 1.2, delta=0.03)
        self.assertAlmostEqual(chosen["ripple(uC, from=9000)"], 0.3, delta=0.01)
        self.assertAlmostEqual(chosen["mean(uC, from=9000)"], 12, delta=0.01)
        self.assertIn("image/svg+xml", found[3][0])

    @unittest.skipUnless(os.path.exists(BUILT), "the program is not built")
    def test_tolerances(self):
        """A ripple of 600 A uH / L is at most 7 A from 85.7 uH on, in about three of four samples or fewer."""
        found = self.results("tolerances.ipynb", "pandas", "matplotlib")
        share = re.match(r"'(\d+) % of 100 converters", "".join(found[2][0]["text/plain"]))
        self.assertTrue(30 <= int(share[1]) <= 75, share[0])
        self.assertEqual(["image/png" in one for cell in found[4:] for one in cell], [True, True])


if __name__ == "__main__":
    unittest.main()
