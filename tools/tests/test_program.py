"""The tools with the program itself, where it is built."""
import glob
import os
import re
import subprocess
import unittest

from refused_sources import REFUSED
from support import BUILT, ROOT, InFolder, run

EXAMPLES = sorted(glob.glob(os.path.join(ROOT, "examples", "*.mo")))
SMALL = ("ball", "boost", "buck", "cable", "decay", "thermostat")  # with settings for reading
WARNINGS = {  # chaos, oscillators without damping, second order, and settings that are by 1 % to 3 % off
    "chua": "of its size off",
    "cradle": "an oscillator without damping, and a run lets it grow",
    "cuk": "of its size off",
    "heat2d": "first order does not fit this model",
    "hysteresis": "of its size off",
    "massspring": "of its size off",
    "neurons": "of its size off",
    "sigmadelta": "of its size off",
}


def sources_are_newer():
    """Whether ./qss would build the program again."""
    built = os.path.getmtime(BUILT)
    sources = [
        path
        for part in ("src", "specs", "proofs")
        for path in glob.glob(os.path.join(ROOT, "crates", "*", part, "**"), recursive=True)
    ]
    beside = ("_tests" + os.sep, os.sep + "transcript" + os.sep)  # crates that the program does not stand on
    return any(os.path.getmtime(path) > built for path in sources if not any(part in path for part in beside))


@unittest.skipUnless(os.path.exists(BUILT), "the program is not built: its tests are left out")
class WithTheProgram(InFolder):
    def test_refused_sources_have_these_lines(self):
        for number, (text, line, place, _) in enumerate(REFUSED):
            with self.subTest(line=line, text=text[:80]):
                model = self.file("m%d.mo" % number, text)
                done = subprocess.run([BUILT, "run", model], stdout=subprocess.PIPE, stderr=subprocess.PIPE)
                self.assertEqual((done.returncode, done.stdout, done.stderr.decode()), (5, b"", line + "\n"))
        status, out, err = run("qss-explain", model, given=line)
        self.assertEqual((status, err), (1, ""))
        self.assertTrue(out.startswith("%s:%s: " % (model, place)))

    def test_what_spoils_examples_is_known(self):
        for path in EXAMPLES:
            name = os.path.splitext(os.path.basename(path))[0]
            if name not in SMALL:
                with self.subTest(name):
                    status, out, err = run("qss-advise", path)
                    self.assertEqual((status, err), (int(name in WARNINGS), ""), out)
                    self.assertIn(WARNINGS.get(name, ""), out)
                    self.assertEqual(out.count("warning: "), int(name in WARNINGS), out)

    def test_a_model_that_is_refused(self):
        model = self.file("m.mo", "model m Real x; equation der(x) = y; end m;\n")
        for tool in ("qss-table", "qss-plot", "qss-advise"):
            self.assert_fault(run(tool, model), "refused: names 3 34")

    def test_an_overflow_and_a_certificate(self):
        model = self.file(
            "m.mo",
            "model m Real x(start = 1); equation der(x) = 1000000*x; annotation(experiment(QSS_CoefBits = 16)); end m;\n",
        )
        status, _, err = run("qss-table", model, "-o", os.path.join(self.folder, "t.csv"))
        self.assertEqual(status, 1, err)
        decay = os.path.join(ROOT, "examples", "decay")
        status, out, _ = run(
            "qss-explain",
            decay + ".mo",
            "--certificate",
            decay + ".cert",
            "--line",
            "rejected: inequality 11 place 1 left 165504 right 165888",
        )
        self.assertEqual(status, 1)
        self.assertTrue(out.startswith(decay + ".cert:15:3: inequality 11"), out)

    def test_the_tutorial_says_what_comes(self):
        if sources_are_newer():
            self.skipTest("a source is newer than the program, and ./qss would build it")
        status, _, err = run("run-tutorial", "--check")
        self.assertEqual((status, err), (0, ""))


class Sources(unittest.TestCase):
    def test_the_examples_of_the_gate_are_those_of_the_gallery(self):
        """The sources in the transcript are the examples, but for their head comments and stop times."""
        with open(os.path.join(ROOT, "crates", "transcript", "stdin"), encoding="utf-8") as file:
            script = file.read()
        calls = script[script.index("\n# Examples run to their ends") :].split("\n\n")[0]
        sources = re.findall(r"^file (\w+)\.mo\n((?:\| .*\n)+)", calls, re.M)
        self.assertEqual(len(sources), 10)
        stop = re.compile(r"StopTime = [\d.]+")
        for name, text in sources:
            with open(os.path.join(ROOT, "examples", name + ".mo"), encoding="utf-8") as file:
                example = file.read()
            source = re.sub(r"^\| ", "", text, flags=re.M)
            self.assertEqual(stop.sub("", source), stop.sub("", example[example.index("\nmodel ") + 1 :]), name)


if __name__ == "__main__":
    unittest.main()
