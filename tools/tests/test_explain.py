"""Faults are placed by line and column, and told with a way out."""
import glob
import os
import re
import unittest
from unittest import mock

from refused_sources import REFUSED
from support import ROOT, STAND_IN, InFolder, run

from qss_tools.advice.certificate_story import keyword_of
from qss_tools.advice.explain import explain
from qss_tools.fault import Fault
from qss_tools.model.commas import commas_of
from qss_tools.model.source import Source

# A source and the line of its refusal, as the tests of the program's own crates hold them.
PAIR = re.compile(r'\(\s*b?"((?:\\.|[^"\\])*)",\s*b?"(refused: [^"\\]*)\\n",?\s*\)', re.DOTALL)


def refused_in_transcript():
    """The sources that runs and prints of the transcript refuse, where they stand there line by line, each with its line of refusal."""
    texts, name, called, pairs = {}, None, None, set()
    with open(os.path.join(ROOT, "crates", "transcript", "stdout"), encoding="utf-8") as file:
        for line in file:
            mark, _, rest = line[:-1].partition(" ")
            if mark == "file":
                name, texts[rest] = rest, ""
            elif mark in ("|", "+") and texts[name] is not None:
                texts[name] += rest + ("\n" if mark == "|" else "")
            elif mark in ("repeat", "front", "copy", "change"):
                texts[name] = None
            elif mark == "$":
                called = line.split()[3] if line.startswith(("$ qss run ", "$ qss print ")) else None
            elif line.startswith("! refused: ") and texts.get(called):
                pairs.add((texts[called].encode(), line[2:-1]))
    return sorted(pairs)


BUCK = "model m Real x; equation der(x) = -1000000*x; end m;"

DECAY = (
    "model decay Real x(start = 64); equation der(x) = -1*x; annotation(experiment(StopTime = 1, QSS_CoefBits = 8,"
    " QSS_TickBits = 4, QSS_LevelBits = 0, QSS_Quantum = 4)); end decay;"
)
CERTIFICATE = (
    "form,1\nP,1\np,1\nmu,128\nlambda,384\nh1,1\nG1,0\nh2,1\nG2,0\nc,0\nR,4096\nZ,64\nS,5\nsigmaR,41472\nC,432\n"
    "sigmaC,165888\nE,21\n"
)

# A habit of Modelica, the line that the program has for it, the place, and a part of the way out.
HABITS = [
    ("der(x) = if x > 1 then 0 else 1;", "parse 1 11", "4:10", "'if' is not supported"),
    ("der(x) = sin(x);", "parse 1 12", "4:13", "no functions"),
    ("der(x) = 2*Modelica.Constants.pi*x;", "parse 1 14", "4:20", "no library"),
    ("for i in 1:2:4 loop der(x) = 1; end for;", "parse 1 12", "4:13", "no step"),
    ("2*der(x) = 1;", "parse 1 6", "4:1", ""),
    ("x*der(x) = 1;", "parse 1 7", "4:2", "divide the right side"),
    ("der(x) = 2^0.5;", "parse 1 13", "4:12", "digit from 0 to 8"),
    ("der(x) = {1, 2};", "parse 1 11", "4:10", "no array constructors"),
    ("x == 1;", "parse 1 7", "4:3", "an equation has '='"),
    ("connect(x, x);", "parse 1 6", "4:1", "one model"),
    ("der(x) = 1\nend m;", "parse 1 12", "5:1", "perhaps a ';' is missing at the end of line 4"),
    ("der(x) = \u2212x;", "lex 1 34", "4:10", "type '-'"),
]


def told(text, line, certificate=None):
    source = Source("m.mo", text.encode())
    other = None if certificate is None else Source("m.cert", certificate.encode())
    return explain(source, line, other).text(source, other)


class Places(unittest.TestCase):
    def test_each_refusal_has_its_place(self):
        for text, line, place, word in REFUSED:
            with self.subTest(line=line, text=text[:80]):
                source = Source("m.mo", text.encode())
                story = explain(source, line)
                self.assertEqual("%d:%d" % source.place(story.at), place)
                column = int(place.split(":")[1])
                self.assertTrue(source.line_at(story.at)[column - 1 :].startswith(word))
                self.assertTrue(story.text(source).startswith("m.mo:%s: " % place))

    def test_refusals_of_the_crates_are_placed(self):
        """Of all refused sources in the transcript and in the tests of the crates at least 95 in 100 are placed."""
        pairs = refused_in_transcript()
        for name in glob.glob(os.path.join(ROOT, "crates", "*_tests", "src", "*.rt")):
            with open(name, encoding="utf-8") as file:
                pairs += [
                    (text.encode().decode("unicode_escape").encode("latin-1"), line)
                    for text, line in PAIR.findall(file.read())
                ]
        placed = [explain(Source("m.mo", text), line).at is not None for text, line in pairs]
        self.assertGreaterEqual(len(pairs), 70)
        self.assertGreaterEqual(100 * sum(placed), 95 * len(placed))

    def test_habits_have_a_way_out(self):
        for line_of_source, line, place, way in HABITS:
            with self.subTest(line_of_source):
                text = "model m\nReal x;\nequation\n%s\n%s" % (
                    line_of_source,
                    "" if "end m;" in line_of_source else "end m;\n",
                )
                story = told(text, "refused: " + line)
                self.assertTrue(story.startswith("m.mo:%s: " % place), story)
                self.assertIn(way, story)

    def test_columns_count_characters(self):
        story = told('model m "\u00fc" $', "refused: lex 1 13")
        self.assertTrue(story.startswith("m.mo:1:13: "), story)

    def test_a_long_line_is_cut_around_the_place(self):
        text = "model m Real x; equation der(x) = " + "1 + " * 500 + "y; end m;"
        story = told(text, "refused: names 3 2034").split("\n")
        self.assertLess(len(story[1]), 110)
        self.assertEqual(story[1][len(story[2]) - 1], "y")


class Overflows(unittest.TestCase):
    def test_a_tick_that_is_too_long_is_named(self):
        story = told(BUCK, "overflow: x at tick 7")
        self.assertIn("at time 0.00683594 (tick 7)", story)
        self.assertIn("each tick overshoots", story)

    def test_a_tick_that_is_a_fifth_of_a_time_constant_is_named(self):
        text = "model m Real x(start = 1); equation der(x) = 200*x; end m;"
        story = told(text, "overflow: x at tick 20000")
        self.assertIn("a tick is 2^-10 = 0.000976562, 0.195313 times the shortest time constant of 0.005", story)
        self.assertNotIn("the model itself grows", story)

    def test_a_model_that_grows_is_named(self):
        text = "model m Real x(start = 1); equation der(x) = x; annotation(experiment(StopTime = 1000)); end m;"
        self.assertIn("the model itself grows", told(text, "overflow: x at tick 20000"))


class Comparisons(unittest.TestCase):
    def test_lines_of_compare(self):
        story = told(BUCK, "rejected: long 524288")
        self.assertIn("the last tick of the model's own runs is 524288, and compare takes at most 65535", story)
        self.assertIn("tools/rows-to-trace", story)
        self.assertIn("neither start of the certificate", told(DECAY, "rejected: start"))
        self.assertIn("trace B has a quantum of x that is above", told(DECAY, "rejected: quantum trace 2 state 1"))
        self.assertIn("a sum passes 2^126 at the places 3 and 4", told(DECAY, "rejected: range places 3 4"))


class Certificates(unittest.TestCase):
    def test_a_rejection_points_at_its_number(self):
        story = told(
            DECAY, "rejected: inequality 11 place 1 left 165504 right 165888", CERTIFICATE.replace("C,432", "C,431")
        )
        self.assertTrue(story.startswith("m.cert:15:3: inequality 11, place 1: lambda C is below"), story)
        story = told(DECAY, "rejected: inequality 1 place 12 left -1 right 0", CERTIFICATE.replace("E,21", "E,-1"))
        self.assertTrue(story.startswith("m.cert:17:3: inequality 1, place 12: E of x"), story)

    def test_a_text_that_is_none_points_at_its_field(self):
        story = told(DECAY, "certificate refused: 3 2 2", CERTIFICATE.replace("P,1", "P,x"))
        self.assertTrue(story.startswith("m.cert:2:3: record 2 ('P'), field 2"), story)
        self.assertIn(
            "no certificate",
            told(
                "model m Real x; equation der(x) = 1; algorithm when x > 1 then end when; end m;", "rejected: clauses 1"
            ),
        )

    def test_why_no_certificate_is_proposed(self):
        for step in range(2, 7):
            self.assertIn("no certificate is proposed: the ", told(DECAY, "rejected: no candidate %d" % step))
        with self.assertRaises(Fault):
            told(DECAY, "rejected: no candidate 7")

    def test_records_in_their_order(self):
        self.assertEqual(
            [keyword_of(2, record) for record in (1, 2, 3, 4, 8, 10, 11, 12, 20, 21, 22, 23, 24)],
            ["form", "P", "P", "p", "G1", "h2", "G2", "G2", "E", "start1", "start2", "Q", None],
        )


TRACE = "trace,1\nscale,1\nrefine,2\nQ,4\nat,262144,64\nat,253952,62\nat,246000,60\n"


class Traces(unittest.TestCase):
    def test_a_rejection_points_at_its_number(self):
        story = told(DECAY, "rejected: trace place 2 fact 2 state 1 left -15904 right -15872", TRACE)
        self.assertTrue(
            story.startswith(
                "m.cert:7:4: place 2, x: the rise from the place before is not what its levels give\n    at,246000,60\n       ^"
            ),
            story,
        )
        self.assertIn("the refinement times the rise is -15904, its levels give -15872", story)

    def test_a_text_that_is_none_points_at_its_field(self):
        story = told(DECAY, "trace refused: 3 5 2", TRACE.replace("at,262144", "at,x"))
        self.assertTrue(story.startswith("m.cert:5:4: record 5 ('at'), field 2: no number"), story)
        self.assertIn("record 2 begins with another keyword; 'scale' is due", told(DECAY, "trace refused: 1 2", TRACE))
        self.assertIn(
            "record 4 ('Q') has another number of fields than are due: 3 for 2",
            told(DECAY, "trace refused: 2 4 2 3", TRACE),
        )
        self.assertIn("the trace ends before record 5 ('at')", told(DECAY, "trace refused: 4 5", TRACE))
        self.assertIn("form 2 is not 1", told(DECAY, "trace refused: 5 2", TRACE))


class Tool(InFolder):
    def test_the_way_of_a_fault(self):
        model = self.file("m.mo", "model m Real x; equation der(x) = y; end m;\n")
        status, out, err = run("qss-explain", model, given="refused: names 3 34\n")
        self.assertEqual((status, err), (1, ""))
        self.assertTrue(out.startswith(model + ":1:35: "))
        self.assertEqual(run("qss-explain", model, "--line", ""), (0, "", ""))

    def test_a_number_in_place_of_a_long_product(self):
        """(2*3.14159265*32768)^2 is 42389628...: the product at byte 91 has 9 digits in its stead."""
        text = "model m parameter Real pi = 3.14159265, w = 2*pi*32768; Real x; equation der(x) = 1 - w*w*x; end m;\n"
        at = text.index("*w*x")
        exact = (2 * 3.14159265 * 32768) ** 2
        status, out, err = run("qss-explain", self.file("m.mo", text), "--line", "refused: affine 3 %d 1" % at)
        self.assertEqual((status, err), (1, ""))
        number = re.search(r"write (\d+) in place of w\*w\n", out)
        self.assertIsNotNone(number, out)
        self.assertLess(abs(float(number.group(1)) / exact - 1), 1e-8)

    def test_other_values_of_a_model(self):
        """The place is that in the changed text, and a run that begins is no mistake."""
        text = "model m parameter Real R = 1; Real x; equation der(x) = 1/R; end m;\n"
        model = self.file("m.mo", text)
        refused = mock.patch("qss_tools.advice.explain.line_of_text", return_value="refused: affine 3 57 2")
        with refused:
            status, out, err = run("qss-explain", model, "--set", "R=0", "--program", STAND_IN)
        self.assertEqual((status, err), (1, ""))
        self.assertTrue(out.startswith(model + " with R = 0:1:58: division by 0"), out)
        self.assertEqual(run("qss-explain", model, "--set", "R=2", "--program", STAND_IN), (0, "", ""))
        words = "--set", "R=2", "--line", "refused: affine 3 57 2", "--program", STAND_IN
        self.assert_fault(run("qss-explain", model, *words), "--set goes with none of")

    def test_a_comma_in_a_number_that_is_accepted(self):
        """The program reads 4 for 4,5. Whether 1,000 has a decimal comma is not certain, so it is not changed."""
        text = (
            "model m Real x(start = 4,5, min = 0); equation der(x) = 1; annotation(experiment(StopTime = %s)); end m;"
        )
        model, new = self.file("m.mo", text % "1,000"), os.path.join(self.folder, "new.mo")
        status, out, err = run("qss-explain", model, "--apply", new, "--program", STAND_IN)
        self.assertEqual((status, err), (1, new + ": 1 of 2 mistakes are mended\n"))
        places = [text.index("4,5") + 1, text.index("%s") + 1]
        found = [line for line in out.splitlines() if line.startswith(model)]
        self.assertEqual(
            found,
            [
                "%s:1:%d: 4,5 is read as 4 (a decimal point is '.': write 4.5 for 4,5)" % (model, places[0]),
                "%s:1:%d: 1,000 is read as 1 (a decimal point is '.': write 1.000 or 1000 for 1,000)"
                % (model, places[1]),
            ],
        )
        with open(new, encoding="utf-8") as file:
            self.assertEqual(file.read(), (text % "1,000").replace("4,5", "4.5"))

    def test_a_state_that_lacks_its_equation(self):
        text = "model m Real a%s; equation %salgorithm when time > 1 then reinit(a, 0); end when; end m;\n"
        for size, equation, way in (
            ("", "", "write 'der(a) = 0;' as its equation if only clauses change it"),
            ("", "a = 1; ", "a state has 'der(a) = ..;' in place of its equation 'a = ..;'"),
        ):
            source = text % (size, equation)
            story = told(source, "refused: names 4 %d" % (source.index("reinit(a") + 7))
            self.assertIn("'reinit' takes a state, and 'a' is an algebraic variable", story)
            self.assertIn("  " + way, story)

    def test_the_parameter_that_is_0(self):
        """C = 2 - D is 0, and C*R is 0 too. The divisor 1 - 1 has no parameter, and R - R none of value 0."""
        text = "model m parameter Real D = 2, C = D - 2, R = 3; Real x; equation der(x) = 1 + x/(%s); end m;\n"
        for divisor, wanted in (
            ("C", "division by 0: the parameter C is 0\n"),
            ("C*R", "division by 0: the parameter C is 0\n"),
            ("1 - 1", "division by 0\n"),
            ("R - R", "division by 0\n"),
        ):
            source = text % divisor
            self.assertIn(wanted, told(source, "refused: affine 3 %d 2" % source.index("/")))
        source = "model m parameter Real C = 0, g = 1/C; Real x; equation der(x) = g; end m;\n"
        self.assertIn("the parameter C is 0", told(source, "refused: names 8 %d 2" % source.index("/")))

    def test_the_largest_setting_of_coefficients(self):
        """The bits of coefficients and ticks together are at most 44, and with those of levels 62."""
        text = "model m Real x; equation der(x) = 1; annotation(experiment(QSS_CoefBits = 36%s)); end m;"
        for more, most in (
            ("", 32),
            (", QSS_TickBits = 14", 30),
            (", QSS_TickBits = 20, QSS_LevelBits = 24", 18),
        ):
            story = told(text % more, "refused: machine 1 QSS_CoefBits 36")
            self.assertIn("write QSS_CoefBits = %d or less, or leave it out, which means 24" % most, story)

    def test_misspelt_words_of_the_language(self):
        """The token at which the source stops to be a prefix of a model is the misspelt word, or the one after it."""
        text = "model m parameter Real R = 2; discrete Real s; Real x; equation der(x) = R; algorithm"
        text += " when x < 1 then reinit(x, 2); elsewhen x > 3 then s := 0; end when; end m;\n"
        for right, wrong, ahead in (
            ("parameter", "paramter", 0),
            ("discrete", "discret", 0),
            ("Real x", "real x", 0),
            ("equation", "equaton", 0),
            ("when", "wen", 0),
            ("then", "than", 0),
            ("elsewhen", "elswhen", 1),
            ("reinit", "reinitt", 1),
        ):
            with self.subTest(wrong):
                source = text.replace(right, wrong, 1)
                tokens = Source("m.mo", source.encode()).tokens
                word = wrong.split()[0]
                place = next(place for place, token in enumerate(tokens) if token.text == word) + ahead
                story = told(source, "refused: parse 1 %d" % place)
                self.assertIn("is '%s' meant for '%s'?" % (right.split()[0], word), story)

    def test_which_numbers_with_commas_are_certain(self):
        for written, certain, others in (
            ("4,5", "4.5", None),
            ("0,125", "0.125", None),
            ("1,5e-3", "1.5e-3", None),
            ("10,000", None, "10000"),
            ("4, 5", None, None),
            ("1,000,000", None, "1000000"),
            ("1.5,5", None, None),
        ):
            with self.subTest(written):
                text = "model m Real x(start = -%s, max = 9); equation der(x) = {1}; end m;" % written
                source = Source("m.mo", text.replace("{1}", "1").encode())
                (one,) = commas_of(source)
                self.assertEqual((one.begin, one.end), (text.index(written), text.index(written) + len(written)))
                self.assertEqual((one.certain, one.grouped), (certain, others))
        drawing = "annotation(Icon(extent = {{-100,-100},{100,100}}), experiment(StopTime = 1))"
        for more in (drawing, "annotation(experiment(StopTime = 1, Tolerance = 1e-6))"):
            source = Source("m.mo", ("model m Real x(start = 4); equation der(x) = 1; %s; end m;" % more).encode())
            self.assertEqual(commas_of(source), [])

    def test_the_way_to_the_place_can_be_executed(self):
        """The refusal of a changed model names the command that explains it."""
        model = self.file(
            "a model.mo", "// stand-in: 5 refused: affine 3 57 2\nmodel m Real x; equation der(x) = 1; end m;\n"
        )
        for tool, more in (("qss-run", ()), ("qss-measure", ("mean(x)",)), ("qss-table", ())):
            status, _, err = run(tool, model, *more, "--set", "x.start=2", "--program", STAND_IN)
            self.assertEqual(status, 2)
            self.assertIn("(tools/qss-explain '%s' --set x.start=2 shows the place)" % model, err)

    def test_a_file_that_is_not_there_is_named(self):
        status, out, err = run("qss-explain", os.path.join(self.folder, "none.mo"), given="read fault\n")
        self.assertEqual((status, err), (1, ""))
        self.assertIn("none.mo: there is no such file", out)

    def test_faults_are_one_line(self):
        model = self.file("m.mo", "model m Real x; equation der(x) = 1; end m;\n")
        self.assert_fault(
            run("qss-explain", os.path.join(self.folder, "none.mo"), "--line", "refused: top 1"), "no such file"
        )
        for line in (
            "refused: parse 1 90",
            "refused: lex 1 4",
            "refused: names 3 500",
            "refused: causal 1 z",
            "refused: machine 4 9",
            "overflow: z at tick 3",
            "refused: top 1",
            "refused: names 9 0",
        ):
            with self.subTest(line):
                self.assert_fault(run("qss-explain", model, "--line", line), "does not belong to this source")
        self.assert_fault(run("qss-explain", model, "--line", "hello"), "not a line of the program")
        self.assert_fault(run("qss-explain", model, "--nonsense"), "--help")


if __name__ == "__main__":
    unittest.main()
