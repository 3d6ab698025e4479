"""The page for users of the stand-alone QSS solver: its models run, and its commands print what the page shows."""
import os
import re
import shlex
import subprocess
import unittest

from support import BUILT, PROGRAM, ROOT, InFolder, run

from qss_tools.model.flat import Flat
from qss_tools.model.grammar import parse
from qss_tools.model.source import Source
from qss_tools.runs.machines import Machine

PAGE = os.path.join(ROOT, "docs", "FROM_QSS_SOLVER.md")
MODEL = re.compile(r"^```modelica\n// (\w+\.mo)\n(.*?)^```$", re.MULTILINE | re.DOTALL)
CONSOLE = re.compile(r"^```console\n(.*?)^```$", re.MULTILINE | re.DOTALL)
COMMAND = re.compile(r"^\$ tools/([^\n]*)\n((?:(?!\$ )[^\n]*\n)*)", re.MULTILINE)
SOLVER = "_solver.mo"  # the end of the name of a model in the form of the QSS solver


def page():
    with open(PAGE, encoding="utf-8") as file:
        return file.read()


def models(text):
    """The models of the page by the names of their files, each with the line of its name."""
    return {name: "// %s\n%s" % (name, body) for name, body in MODEL.findall(text)}


def commands(text):
    """The commands of the page, each as words with what it prints."""
    for block in CONSOLE.findall(text):
        for command, shown in COMMAND.findall(block):
            yield shlex.split(command), shown


class SolverPage(InFolder):
    def test_each_model_has_its_counterpart(self):
        found = models(page())
        given = [name for name in found if name.endswith(SOLVER)]
        self.assertEqual(len(given), 5)
        for name in given:
            self.assertIn(name.replace(SOLVER, ".mo"), found)
        explained = [words[1] for words, _ in commands(page()) if words[0] == "qss-explain"]
        self.assertEqual(sorted(explained), sorted(given))
        measured = [words[1] for words, _ in commands(page()) if words[0] == "qss-measure"]
        self.assertEqual(sorted(measured), sorted(set(found) - set(given)))

    def test_each_rewritten_model_denotes_a_machine(self):
        for name, text in models(page()).items():
            if not name.endswith(SOLVER):
                with self.subTest(name):
                    self.assertGreater(Machine(Flat(parse(Source(name, text.encode())))).states, 0)


@unittest.skipUnless(os.path.exists(BUILT), "the program is not built: its tests are left out")
class WithTheProgram(InFolder):
    def setUp(self):
        super().setUp()
        before = os.getcwd()
        self.addCleanup(os.chdir, before)
        os.chdir(self.folder)
        for name, text in models(page()).items():
            self.file(name, text)

    def test_each_command_prints_what_the_page_shows(self):
        """A measure has no warning on standard error: no settings spoil the run."""
        for (tool, *words), shown in commands(page()):
            with self.subTest(words[0]):
                status, out, err = run(tool, *words, "--program", PROGRAM)
                self.assertEqual((status, err), (int(tool == "qss-explain"), ""))
                self.assertEqual(out, shown)

    def test_mean_power_is_that_of_a_plain_sum(self):
        """ptotal, in kW, of the rows of the run: value times duration, from the time 1000 to the end at 2000."""
        command = [PROGRAM, "run", os.path.join(self.folder, "airconds.mo"), "--only", "ptotal"]
        rows = subprocess.run(command, stdout=subprocess.PIPE, check=True).stdout.decode().splitlines()
        ticks, begin, end, total, since, value = 2**6, 1000 * 2**6, 2000 * 2**6, 0, 0, 0
        for tick, event, name, level, _ in (row.split(",") for row in rows[1:]):
            if name == "ptotal":
                self.assertIn(event, ("start", "set", "end"))
                total += value * (int(tick) - max(since, begin)) if int(tick) > begin else 0
                since, value = int(tick), int(level)
        self.assertEqual(since, end)
        shown = dict(re.findall(r"^(mean\(ptotal, from=1000\)) +(\S+)$", page(), re.MULTILINE))
        self.assertEqual(list(shown.values()), ["%.12g" % (total / (end - begin) / 2**20)])
        self.assertEqual(ticks * 1000, end - begin)


if __name__ == "__main__":
    unittest.main()
