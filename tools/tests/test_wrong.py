"""Sources that newcomers get wrong: each has its place, its sentence, and a fix that mends it."""
import json
import os
import subprocess
import unittest

from more_wrong_sources import WRONG_TOO
from solver_sources import SOLVER
from support import BUILT, STAND_IN, InFolder, run
from wrong_sources import WRONG

from qss_tools.advice.explain import explain
from qss_tools.model.source import Source

# Models of the stand-alone QSS solver, and what is said of their forms.
FORMS = [
    (
        "model m Real iL, uC, iD; discrete Real Rd, Rs; equation iD = (iL*Rs - uC)/(Rd + Rs);"
        " der(iL) = -uC; der(uC) = iD; end m;",
        "refused: affine 1 73",
        "a division by a discrete variable is not affine",
        "which clauses set to the number 1/(Rd + Rs) where they set Rd, Rs (a conductance in place of a resistance)",
    ),
    (
        "model m Real q, u, i; discrete Real cc; equation i = cc + (1 - cc)*q; u = 3 + i; der(q) = 1;"
        " algorithm when u > 4 then cc := 0; end when; end m;",
        "refused: affine 1 108",
        "'u' holds (1 - cc)*q, and a clause takes no product of a discrete variable and a state",
        "write u out as it is in each mode",
    ),
    (
        "model m Real q, i; discrete Real cc; equation i = (1 - cc)*q; der(q) = cc*i; end m;",
        "refused: affine 1 73",
        "a product of two variables is not affine here: i holds (1 - cc)*q",
        "write i out",
    ),
    (
        "model m Real x; discrete Real s, d; equation der(x) = s*d*x; end m;",
        "refused: affine 1 55",
        "a product of two discrete variables is not affine",
        "in a third discrete variable",
    ),
    (
        "model m Real x; discrete Real s, d; equation der(x) = s*d; end m;",
        "refused: affine 1 55",
        "a product of two discrete variables",
        "in a third discrete variable",
    ),
    (
        "model m Real x; equation der(x) = x^2; end m;",
        "refused: affine 1 35",
        "a power of a variable",
        "straight pieces",
    ),
    (
        "model m Real x; discrete Real s; equation der(x) = 1; algorithm when s then s := 1; end when; end m;",
        "refused: parse 1 20",
        "expected '<', '<=', '>' or '>='",
        "write 's > 0.5'",
    ),
    (
        "model m Real x(start = 1) y; equation der(x) = 1; end m;",
        "refused: parse 1 9",
        "unexpected 'y'",
        "a comma is missing before 'y'",
    ),
    ("model m Real x; equation der(x) = max(x, 1); end m;", "refused: parse 1 12", "'('", "('max'): choose by clauses"),
]


def story(text, line):
    source = Source("m.mo", text.encode())
    return explain(source, line).text(source)


class Explained(unittest.TestCase):
    def test_each_has_its_place_its_sentence_and_a_fix(self):
        self.assertGreaterEqual(len(WRONG), 40)
        for name, text, line, place, sentence, fix, _ in WRONG + WRONG_TOO + SOLVER:
            with self.subTest(name):
                first, *rest = story(text, line).split("\n")
                self.assertTrue(first.startswith("m.mo:%s: " % place), first)
                self.assertIn(sentence, first)
                self.assertIn(fix, "\n".join(rest))

    def test_forms_of_the_qss_solver(self):
        for text, line, sentence, fix in FORMS:
            with self.subTest(line):
                told = story(text, line)
                self.assertIn(sentence, told)
                self.assertIn(fix, told)


class StandardInput(InFolder):
    """An empty standard input is no run: the model is run."""

    def setUp(self):
        super().setUp()
        self.refused = self.file(
            "m.mo", "// stand-in: 5 refused: names 3 69\nmodel m Real x; equation der(x) = y; end m;\n"
        )
        self.fine = self.file("f.mo", "model m Real x; equation der(x) = 1; end m;\n")

    def test_an_empty_input(self):
        status, out, err = run("qss-explain", self.refused, "--program", STAND_IN, given="")
        self.assertEqual((status, err), (1, ""))
        self.assertIn("'y' is not declared", out)
        self.assertEqual(run("qss-explain", self.fine, "--program", STAND_IN, given="\n"), (0, "", ""))

    def test_lines_of_a_build_are_skipped(self):
        given = "qss: built without its proofs after 80 s\nrefused: names 3 69\n"
        status, out, err = run("qss-explain", self.refused, "--program", STAND_IN, given=given)
        self.assertEqual((status, err), (1, ""))
        self.assertIn("'y' is not declared", out)


@unittest.skipUnless(os.path.exists(BUILT), "the program is not built: its tests are left out")
class WithTheProgram(InFolder):
    def run_model(self, text):
        model = self.file("m.mo", text)
        done = subprocess.run([BUILT, "run", model, "--only", "-"], stdout=subprocess.DEVNULL, stderr=subprocess.PIPE)
        return done.returncode, done.stderr.decode().strip()

    def test_the_program_refuses_each_and_takes_it_with_its_fix(self):
        for name, text, line, _, _, _, changes in WRONG + WRONG_TOO + SOLVER:
            with self.subTest(name):
                self.assertEqual(self.run_model(text)[1], line)
                for old, new in changes:
                    self.assertIn(old, text)
                    text = text.replace(old, new)
                # (a model with a sine still needs settings)
                self.assertIn(self.run_model(text), ((0, ""), (6, "overflow: s at tick 417")))

    def test_certain_fixes_are_applied(self):
        """What --apply writes is taken, except for mistakes that have no certain fix."""
        taken = []
        for name, text, *_ in WRONG + WRONG_TOO:
            new = os.path.join(self.folder, name + ".mo")
            run("qss-explain", self.file("m.mo", text), "--apply", new)
            with open(new, encoding="utf-8") as file:
                taken += [name] if self.run_model(file.read())[1][:7] != "refused" else []
        self.assertGreaterEqual(len(taken), 24, taken)
        self.assertLessEqual({"C_der", "decl_binding", "eq_in_when", "initial_eq", "modelica_pi"}, set(taken))
        self.assertLessEqual({"a1", "a4", "a5", "a6", "b4", "b5", "b6"}, set(taken))

    def test_several_mistakes_have_their_places_in_the_source(self):
        model = self.file(
            "m.mo",
            "model m\n  parameter Real R = 1,5, C = 4k\n  Real x(start = 1);\nequation\n  C*der(x) = -x/R;\nend n;\n",
        )
        status, out, err = run("qss-explain", model)
        self.assertEqual((status, err), (1, ""))
        places = [line.split(":")[1:3] for line in out.splitlines() if line.startswith(model)]
        wanted = [["2", "24"], ["2", "32"], ["3", "3"], ["5", "4"], ["6", "5"]]
        self.assertEqual(places, wanted, out)

    def test_a_file_is_not_overwritten(self):
        model = self.file("m.mo", "model m Real x; equation der(x) := 1; end m;\n")
        self.assert_fault(run("qss-explain", model, "--apply", model), "this file exists (--force writes it)")
        self.assertEqual(run("qss-explain", model, "--apply", model, "--force")[0], 1)
        with open(model, encoding="utf-8") as file:
            self.assertEqual(file.read(), "model m Real x; equation der(x) = 1; end m;\n")

    def test_json(self):
        model = self.file("m.mo", "model m Real x; equation der(x) := 1 end n;\n")
        status, out, err = run("qss-explain", model, "--json")
        found = json.loads(out)
        self.assertEqual((status, err, len(found)), (1, "", 3))
        self.assertEqual([one["column"] for one in found], [33, 38, 42])
        edit = found[0]["edits"][0]
        self.assertEqual((edit["begin"], edit["end"], edit["text"], found[0]["certain"]), (32, 34, "=", True))
        fine = self.file("f.mo", "model m Real x; equation der(x) = 1; end m;\n")
        self.assertEqual(run("qss-explain", fine, "--json"), (0, "[]\n", ""))

    def test_forms_of_the_qss_solver_are_refused_so(self):
        for text, line, _, _ in FORMS:
            with self.subTest(line):
                self.assertEqual(self.run_model(text), (5, line))


if __name__ == "__main__":
    unittest.main()
