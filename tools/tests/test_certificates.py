"""Certificates: the exact check, the search, the settings, the band, and what is said of rejections.

Expected numbers come from the worked example of docs/CERTIFICATES.md, from short calculations that stand beside them, or
from the answers of the transcript, which were worked out by hand.
"""
import io
import math
import os
import re
import subprocess
import time
import unittest
from types import SimpleNamespace

from scripts import calls
from support import BUILT, ROOT, STAND_IN, InFolder, run

from qss_tools.advice.explain import explain
from qss_tools.certificates.affine import Affine
from qss_tools.certificates.band import Bound, Certified, States, Tube
from qss_tools.certificates.conditions import first_failure, read_certificate, text_of
from qss_tools.certificates.search import NoCertificate, Progress, Search, slowest
from qss_tools.certificates.settings import Reading, level_bits, no_certificate
from qss_tools.fault import Fault
from qss_tools.model.flat import Flat
from qss_tools.model.grammar import parse
from qss_tools.model.source import Source
from qss_tools.numeric import forms, linear
from qss_tools.runs.rows import Run
from qss_tools.settings.coefficients import rounding
from qss_dev.certificate_table import BEGIN, END, HEAD, PAGE, Line, seen, solution, summary

EXAMPLES = os.path.join(ROOT, "examples")
MODELS = os.path.join(ROOT, "tools", "tests", "linear_models")
# The bounds of the stored certificates, in levels: average's are at most those of docs/CERTIFICATES.md.
BOUNDS = {"decay": [21], "rc": [1037], "ladder": [146, 146], "average": [4721, 3093, 1259], "rlc": [14516, 133461]}
MOTOR = os.path.join(MODELS, "motor.mo")  # of the gallery, but no example of the golden test
LADDER = os.path.join(EXAMPLES, "ladder.mo")


def example(name, kind=".mo"):
    with open(os.path.join(EXAMPLES, name + kind), "rb") as file:
        return file.read()


def reading(text, name="m.mo"):
    return Reading(name, text if isinstance(text, bytes) else text.encode())


def system_of(text):
    return Affine(reading(text))


def flat_of(text):
    return Flat(parse(Source("m.mo", text.encode())))


DECAY = example("decay").decode()
CERTIFICATE = example("decay", ".cert").decode()


def model(equations, start="x(start = 1)", settings="StopTime = 1"):
    return "model m Real %s; equation %s annotation(experiment(%s)); end m;" % (start, equations, settings)


class Conditions(unittest.TestCase):
    def failure(self, change=("", ""), share=0):
        system = system_of(DECAY)
        text = CERTIFICATE.replace(*change) if change[0] else CERTIFICATE
        return first_failure(system, read_certificate(text.encode(), system), share)

    def test_the_worked_example_is_accepted(self):
        self.assertIsNone(self.failure())

    def test_the_worked_rejection_has_these_sides(self):
        self.assertEqual(tuple(self.failure(("C,432", "C,431"))), (11, 1, 165504, 165888))

    def test_each_number_that_is_too_small_fails_at_its_inequality(self):
        cases = (
            (("E,21", "E,20"), (12, 1, 400, 432)),
            (("Z,64", "Z,63"), (6, 1, 63 * 63, 4096)),
            (("S,5", "S,4"), (7, 1, 4096 * 4, 256 * 68)),
            (("R,4096\nZ", "R,4095\nZ"), (5, 1, 262144**2, 4096**2 * 4095)),
            (("mu,128", "mu,129"), (4, 1, -1, 0)),
            (("mu,128", "mu,0"), (1, 2, 0, 1)),
        )
        for change, expected in cases:
            with self.subTest(change):
                self.assertEqual(tuple(self.failure(change)), expected)

    def test_a_sum_out_of_range_has_no_sides(self):
        # V of the start is 2^36 P, and 2^36 * 2^91 passes 2^126
        found = self.failure(("P,1\np,1", "P,%d\np,1" % 2**91))
        self.assertEqual((found.left, found.right), (None, None))

    def test_the_transcript_has_the_same_verdicts(self):
        looked = 0
        for call in calls():
            words = [word for word in call.words if word not in ("--relative", "512")]
            if words[:1] != ["certify"] or call.fails or len(words) != 3 or looked > 40:
                continue
            if any(word not in call.files for word in words[1:]):
                continue
            system = self.system(call.files[words[1]])
            if system is None or "refused" in call.answer:
                continue
            certificate = read_certificate(call.files[words[2]].encode("latin-1"), system)
            found = first_failure(system, certificate, 512 if "512" in call.words else 0)
            looked += 1
            if found is None:
                lines = ["%s,%d" % pair for pair in zip(system.names, certificate["E"])]
                self.assertEqual(call.answer, "name,levels\n" + "".join(line + "\n" for line in lines))
            else:
                place = "inequality %d place %d" % (found.number, found.place)
                sides = "" if found.left is None else " left %d right %d" % (found.left, found.right)
                self.assertIn("%s%s%s\n" % ("" if sides else "range ", place, sides), call.answer)
        self.assertGreater(looked, 20)

    def system(self, text):
        try:
            return system_of(text.encode("latin-1"))
        except Exception:  # a source that is refused
            return None

    def test_a_written_certificate_reads_back(self):
        system = system_of(DECAY)
        certificate = read_certificate(CERTIFICATE.encode(), system)
        self.assertEqual(read_certificate(text_of(certificate).encode(), system), certificate)

    def test_other_texts_are_faults(self):
        system = system_of(DECAY)
        for text in ("", "form,4\n", "form,1\nP,1\n", CERTIFICATE + "x,1\n", CERTIFICATE.replace("mu,128", "mu,x")):
            with self.assertRaises(Fault):
                read_certificate(text.encode(), system)


class StoredCertificates(unittest.TestCase):
    def test_each_is_accepted_and_has_these_bounds(self):
        for name, bounds in BOUNDS.items():
            with self.subTest(name):
                system = system_of(example(name))
                certificate = read_certificate(example(name, ".cert"), system)
                self.assertIsNone(first_failure(system, certificate))
                for bound, most in zip(certificate["E"], bounds):
                    self.assertLessEqual(bound, most)

    def test_that_of_the_motor_is_accepted(self):
        with open(MOTOR, "rb") as model, open(os.path.splitext(MOTOR)[0] + ".cert", "rb") as certificate:
            system = system_of(model.read())
            self.assertIsNone(first_failure(system, read_certificate(certificate.read(), system)))


class Algebra(unittest.TestCase):
    def test_eigenvalues_of_a_companion(self):
        # (s + 1)(s + 2)(s + 3) = s^3 + 6 s^2 + 11 s + 6
        values = linear.eigenvalues([[0.0, 1.0, 0.0], [0.0, 0.0, 1.0], [-6.0, -11.0, -6.0]])
        for found, expected in zip(sorted(value.real for value in values), (-3, -2, -1)):
            self.assertAlmostEqual(found, expected, 9)

    def test_the_exponential_of_a_turn(self):
        found = linear.exponential([[0.0, 1.0], [-1.0, 0.0]], 10.0)
        for row, expected in zip(found, ((math.cos(10), math.sin(10)), (-math.sin(10), math.cos(10)))):
            for one, other in zip(row, expected):
                self.assertAlmostEqual(one, other, 9)

    def test_equations_are_solved_both_ways(self):
        factors = linear.Factors([[0.0, 2.0], [1.0, 3.0]])
        self.assertEqual(factors.solved([4.0, 7.0]), [1.0, 2.0])
        self.assertEqual(factors.solved_transposed([2.0, 8.0]), [1.0, 2.0])
        self.assertIsNone(linear.solved([[1.0, 2.0], [2.0, 4.0]], [1.0, 2.0]))

    def test_the_equation_of_lyapunov(self):
        # of one state: 2 b P = -R
        self.assertAlmostEqual(forms.Lyapunov([[-4.0]]).solved([[8.0]])[0][0], 1.0)

    def test_the_gradient_is_that_of_differences(self):
        a = [[-2.0, 1.0], [0.5, -1.0]]
        problem = forms.Problem(a, [1.0, 2.0], [1.0, 1.0], [3.0, 4.0], [0.0, 0.0], [1.0, 0.5])
        family = forms.Family(problem, 0.2, True)
        x = [0.1, -0.2, 0.3, 0.2, -0.4]
        _, gradient = family.value(x)
        for place, slope in enumerate(gradient):
            high, low = ([value + (step if k == place else 0) for k, value in enumerate(x)] for step in (1e-5, -1e-5))
            self.assertAlmostEqual(slope, (family.value(high)[0] - family.value(low)[0]) / 2e-5, 5)

    def test_lower_bound_of_one_state_is_twice_the_quantum(self):
        # the integral of exp(-s) is 1
        self.assertAlmostEqual(forms.lower_bound([[-1.0]], [-1 + 0j], [8.0])[0], 8.0, 6)
        self.assertAlmostEqual(forms.kofman_bound([[-1.0]], [-1 + 0j], [8.0])[0], 8.0, 6)

    def test_lower_bound_of_an_oscillation(self):
        # exp(-d s) cos(w s) with w = 10 d: the sum of its changes from one extreme to the next
        d, w = 1.0, 10.0
        values = [complex(-d, w), complex(-d, -w)]
        times = [0.0] + [(k * math.pi - math.atan(d / w)) / w for k in range(1, 400)]
        curve = [math.exp(-d * s) * math.cos(w * s) for s in times]
        cosine = sum(abs(x - y) for x, y in zip(curve, curve[1:]))
        found = forms.lower_bound([[-d, w], [-w, -d]], values, [1.0, 0.0])
        self.assertAlmostEqual(found[0] / cosine, 1, 2)


class Searches(unittest.TestCase):
    def found(self, text, state=None):
        system = system_of(text)
        search = Search(system, state, Progress(io.StringIO()))
        found = search.found()
        self.assertIsNone(first_failure(system, found.certificate))
        return search, found

    def test_a_decay_is_near_its_lower_bound(self):
        search, found = self.found(DECAY)
        self.assertLessEqual(found.certificate["E"][0], 19)
        self.assertAlmostEqual(search.t[0], 8.0, 6)

    def test_examples_have_bounds_at_most_these(self):
        for name in ("ladder", "average", "rlc"):
            with self.subTest(name):
                _, found = self.found(example(name))
                for bound, most in zip(found.certificate["E"], BOUNDS[name]):
                    self.assertLessEqual(bound, most)
                self.assertLess(found.ratio, 10)

    def test_one_state_gets_a_smaller_bound(self):
        text = example("average")
        both, alone = self.found(text)[1], self.found(text, 2)[1]
        self.assertLess(alone.certificate["E"][2], both.certificate["E"][2])

    def test_models_of_the_tests_have_certificates(self):
        for name in ("butter5", "motor", "pendula", "quartercar"):
            with open(os.path.join(MODELS, name + ".mo"), "rb") as file:
                self.assertLess(self.found(file.read())[1].ratio, 10)

    def test_sixteen_states_take_few_seconds(self):
        with open(os.path.join(MODELS, "heatex8.mo"), encoding="utf-8") as file:
            text = file.read()
        settings = "QSS_CoefBits = 20, QSS_TickBits = 12, QSS_LevelBits = 20"
        self.assertIn(settings, text)
        text = text.replace(settings, "QSS_CoefBits = 14, QSS_TickBits = 20, QSS_LevelBits = 8")
        begin = time.process_time()
        self.assertLess(self.found(text)[1].ratio, 14)
        self.assertLess(time.process_time() - begin, 15)  # 4 s on an idle processor

    def test_ticks_that_are_too_long_are_named(self):
        with self.assertRaises(NoCertificate) as caught:
            self.found(example("cable"))
        self.assertEqual(caught.exception.cause, "ticks")

    def test_numbers_out_of_range_are_named(self):
        text = (
            example("rc")
            .replace(b"QSS_CoefBits = 16", b"QSS_CoefBits = 24")
            .replace(b"QSS_TickBits = 16, QSS_LevelBits = 16", b"QSS_TickBits = 20, QSS_LevelBits = 18")
        )
        with self.assertRaises(NoCertificate) as caught:
            self.found(text.replace(b"v(start = 0", b"v(start = 4000"))
        self.assertEqual(caught.exception.cause, "range")

    def test_a_long_search_writes_a_line_each_minute(self):
        now, stream = [0.0], io.StringIO()
        progress = Progress(stream, lambda: now[0])
        for second in range(0, 160, 5):
            now[0] = float(second)
            progress.show("qss-certificate: %d forms" % second)
        progress.end()
        expected = ["qss-certificate: %d forms (%d s)\n" % (second, second) for second in (50, 100, 150)]
        self.assertEqual(stream.getvalue(), "".join(expected))

    def test_what_is_not_damped_is_named(self):
        self.assertAlmostEqual(slowest([-2 + 1j, -2 - 1j, -5 + 0j], "tick"), 2)
        for values, cause in (([0.5 + 1j, -1 + 0j], "unstable"), ([1j, -1j], "marginal"), ([0j, -1 + 0j], "marginal")):
            with self.assertRaises(NoCertificate) as caught:
                slowest(values, "tick")
            self.assertEqual(caught.exception.cause, cause)

    def test_models_without_a_certificate_say_why(self):
        clause = "model m Real x; equation der(x) = -x; algorithm when x > 1 then reinit(x, 0); end when; end m;"
        many = "model m Real x[17]; equation for i in 1:17 loop der(x[i]) = -x[i]; end for; end m;"
        for text, part in (
            (clause, "'when' clauses"),
            (many, "it has 17 states"),
            (model("der(x) = x;"), "unstable"),
            (model("der(x) = 1;"), "marginal"),
        ):
            self.assertIn(part, no_certificate(flat_of(text)))
        self.assertIsNone(no_certificate(flat_of(DECAY)))


class Settings(unittest.TestCase):
    def test_a_quantum_has_eight_to_sixteen_levels(self):
        for quantum, bits in (("4", 1), ("1/1024", 13), ("0.003", 12), ("16", 0)):
            flat = flat_of(model("der(x) = -x;", settings="QSS_Quantum = " + quantum))
            self.assertEqual(level_bits(flat), bits)
            if bits:
                self.assertTrue(8 <= flat.variables[0].quantum * 2**bits < 16)

    def test_rounding_of_coefficients(self):
        exact = rounding(flat_of(model("der(x) = -0.75*x;", settings="QSS_CoefBits = 2")))
        self.assertEqual(exact.change, 0)
        self.assertIn("exactly", exact.sentence)
        # 0.75 becomes 1 with one bit less than enough: halves are 0.5 and 1, ties to even
        coarse = rounding(flat_of(model("der(x) = -0.75*x;", settings="QSS_CoefBits = 1, QSS_TickBits = 4")))
        self.assertAlmostEqual(float(coarse.change), 1 / 3)
        self.assertIn("QSS_CoefBits = 2 keeps all of them exactly", coarse.sentence)
        # 1/3 in 4ths is 1/4, a quarter too small; no bits keep it
        third = rounding(flat_of(model("der(x) = -x/3;", settings="QSS_CoefBits = 2, QSS_TickBits = 4")))
        self.assertAlmostEqual(float(third.change), 0.25)
        self.assertIn("no bits keep all of them exactly", third.sentence)


ROWS = """0,start,x,64,262144
1,level,x,60,245760
3,level,x,52,215040
5,level,x,46,188416
"""


class Bands(unittest.TestCase):
    def certified(self):
        one = reading(DECAY)
        one.order = 1
        system = Affine(one)
        return Certified(one, system, read_certificate(CERTIFICATE.encode(), system))

    def states(self, certified, rows=ROWS):
        states = States(certified, "rows")
        for line in rows.split():
            tick, _, name, level, state = line.split(",")
            states.take(int(tick), name, int(level), int(state))
        return states

    def test_states_between_rows(self):
        states = self.states(self.certified())
        # from tick 5 on it falls by 256 * 46 = 11776 in a tick
        self.assertEqual([states.at(0, tick) for tick in (5, 6, 7)], [188416, 176640, 164864])

    def test_bounds_are_half_of_e_away(self):
        certified = self.certified()
        states = self.states(certified)
        # 188416 / 4096 = 46, and E is 21 levels
        self.assertEqual(Bound(certified, states, "x", -1).text(5), "35.5")
        self.assertEqual(Bound(certified, states, "x", 1).text(5), "56.5")
        self.assertEqual(certified.half_widths, {"x": 10.5})
        # tick 8 from here: 188416 - 3 * 11776 = 153088, which is 37 and 3/8 levels; tick 6: 43 and 1/8
        self.assertEqual(Bound(certified, states, "x", -1).text(8), "26.875")
        self.assertEqual(Bound(certified, states, "x", 1).text(6), "53.625")

    def test_bounds_are_rounded_outwards(self):
        certified = self.certified()
        # a unit of a state, 2^-12 levels, above 64 levels and below them
        for state, lower, upper in ((262145, "53.5", "74.515625"), (262143, "53.484375", "74.5")):
            states = SimpleNamespace(at=lambda place, tick: state)
            self.assertEqual(Bound(certified, states, "x", -1).text(0), lower)
            self.assertEqual(Bound(certified, states, "x", 1).text(0), upper)

    def test_rows_that_are_no_certified_run_are_faults(self):
        certified = self.certified()
        with self.assertRaises(Fault):
            self.states(certified, ROWS.replace("188416", "188417"))
        with self.assertRaises(Fault):
            # 5 levels below the state, and the quantum is 4
            self.states(certified, "0,start,x,59,262144")

    def test_a_tube_holds_the_state(self):
        certified = self.certified()
        tube = Tube(certified, "x", 4, 0, 16)
        states = States(certified, "rows")
        states.listeners[0] = [tube]
        for line in ROWS.split():
            tick, _, name, level, state = line.split(",")
            states.take(int(tick), name, int(level), int(state))
        # up to tick 5: ticks 0 to 4 in the first column, from 64 to 201728 / 4096 = 49.25
        place, low, high = tube.edges(1)[0]
        self.assertEqual((place, low, high), (0, 49.25 - 10.5, 64 + 10.5))
        self.assertEqual(tube.edges(2)[0][1:], (49.25 - 21, 64 + 21))

    def test_solution_of_one_state(self):
        system = system_of(DECAY)
        for tick, row in zip((0, 8, 16), solution(system, [0, 8, 16])):
            self.assertAlmostEqual(row[0], 64 * math.exp(-tick / 16), 9)


class Table(unittest.TestCase):
    def test_the_sentences_below_it(self):
        lines = [Line("", 2.0, False), Line("", 10.0, False), Line("", 10.1, False)]
        self.assertEqual(
            summary(lines),
            "E is at most 10 times the lower bound for 2 of the 3 models. "
            "No difference that was seen exceeds its bound E or E/2.\n",
        )
        self.assertIn("For 1 of the models a difference exceeds its bound", summary(lines + [Line("", 1.0, True)]))

    def test_the_page_has_its_lines(self):
        with open(PAGE, encoding="utf-8") as file:
            page = file.read()
        self.assertIn(HEAD, page[page.index(BEGIN) : page.index(END)])


class Rejections(unittest.TestCase):
    def told(self, text, line, certificate=None):
        source = Source("m.mo", text.encode())
        other = None if certificate is None else Source("m.cert", certificate.encode())
        return explain(source, line, other).text(source, other)

    def test_numbers_that_would_do(self):
        # of the worked example: 165888 / 384 = 432 and 21^2 >= 432
        story = self.told(
            DECAY, "rejected: inequality 11 place 1 left 165504 right 165888", CERTIFICATE.replace("C,432", "C,431")
        )
        self.assertIn("C,432 would do here, and with it E: x 21 levels = 21", story)
        story = self.told(
            DECAY, "rejected: inequality 12 place 1 left 400 right 432", CERTIFICATE.replace("E,21", "E,20")
        )
        self.assertIn("two runs may differ by 21 levels = 21, and E is 20 levels = 20", story)
        story = self.told(
            DECAY, "rejected: inequality 7 place 1 left 16384 right 17408", CERTIFICATE.replace("S,5", "S,4")
        )
        self.assertIn("it may move 5 levels = 5 in a tick, and S is 4 levels = 4", story)

    def test_amounts_are_in_the_models_units(self):
        # a quantum of 0.5 V is 512 levels of 2^-10 V
        text = model(
            "der(x) = -x;", 'x(start = 1, unit = "V")', "QSS_TickBits = 4, QSS_LevelBits = 10, QSS_Quantum = 0.5"
        )
        story = self.told(text, "rejected: inequality 13 place 1 left 256 right 512")
        self.assertIn("the model's quantum is 512 levels = 0.5 V, and Q is 256 levels = 0.25 V", story)

    def test_proposals_that_fail_lead_to_the_search(self):
        for line in ("rejected: no candidate 5", "rejected: inequality 3 place 1 left 1 right 2"):
            self.assertIn("tools/qss-certificate m.mo", self.told(DECAY, line))
        self.assertIn(
            "a tick is 0.0625, and time constants go from 1 to 1", self.told(DECAY, "rejected: no candidate 5")
        )

    def test_range_says_by_how_much(self):
        story = self.told(
            DECAY, "rejected: range inequality 5 place 1", CERTIFICATE.replace("P,1\np", "P,%d\np" % 2**91)
        )
        # the start has 19 bits, and 2 * 18 + 91 = 127 bits
        self.assertIn("states have up to 19 bits", story)

    def test_a_proposal_out_of_range_is_measured_from_where_the_model_rests(self):
        text = DECAY.replace("x(start = 64)", "x(start = 0)").replace("der(x) = -1*x", "der(x) = 5 - x")
        # it rests at 5 levels of 2^12 units: 20480 has 15 bits
        story = self.told(text, "rejected: range inequality 5 place 1")
        self.assertIn("states have up to 15 bits here, so 96 of the 126 bits", story)
        self.assertIn("a tick is 0.0625", story)

    def test_too_many_states_have_a_fix(self):
        self.assertIn("at most 16 states", self.told(DECAY, "rejected: states 100"))

    def test_runs_that_are_not_compared(self):
        story = self.told(DECAY, "rejected: long 524288")
        self.assertIn("the last tick is at time 32768", story)
        self.assertIn("tools/rows-to-trace m.mo", story)
        self.assertIn("pass 2^24 bytes", self.told(DECAY, "rejected: long %d" % 2**24))
        other = CERTIFICATE.replace("form,1", "form,2") + "start1,8192\nstart2,4096\n"
        story = self.told(DECAY, "rejected: start", other)
        self.assertIn("x starts at 64 in the model, and at 2 and 1 in the certificate", story)
        story = self.told(DECAY, "rejected: quantum trace 2 state 1", CERTIFICATE)
        self.assertIn("Q of x in the certificate is 4 levels = 4", story)
        self.assertIn("2^126", self.told(DECAY, "rejected: range places 3 4"))


class Traces(InFolder):
    def test_a_trace_that_would_be_too_long_is_refused_at_once(self):
        path = self.file("m.mo", DECAY.replace("StopTime = 1,", "StopTime = 200000,"))
        # 3200001 places of at least 7 bytes pass 2^24; there are no rows to read
        self.assert_fault(run("rows-to-trace", path, "--program", STAND_IN), "the run has 3200001 ticks")


@unittest.skipUnless(os.path.exists(BUILT), "the program is not built: its tests are left out")
class WithTheProgram(InFolder):
    def test_a_certificate_is_found_and_its_bounds_are_printed(self):
        path = os.path.join(self.folder, "ladder.cert")
        status, out, err = run("qss-certificate", LADDER, "-o", path)
        self.assertEqual((status, err), (0, ""))
        self.assertRegex(out, r"(?m)^v1 +0\.14\d+ +0\.07\d+ +0\.04843 +0\.0592 +2\.9\d +V$")
        done = subprocess.run([BUILT, "certify", LADDER, path], stdout=subprocess.PIPE)
        self.assertEqual(done.returncode, 0)
        self.assertEqual(run("qss-certificate", LADDER, "--read", path), (0, out, ""))

    def test_a_certificate_with_other_starts_is_reported(self):
        path = os.path.join(self.folder, "ladder.cert")
        self.assertEqual(run("qss-certificate", LADDER, "-o", path)[0], 0)
        with open(path, encoding="utf-8") as file:
            text = file.read()
        starts = "".join(re.findall(r"^start[12],.*\n", text, re.MULTILINE))
        other = self.file("other.cert", text.replace(starts, starts.replace(",0", ",1")))
        status, out, err = run("qss-certificate", LADDER, "--read", other)
        self.assertEqual((status, err), (0, ""))
        self.assertTrue(out.endswith("E states nothing about the run that `qss run` prints\n"), out)

    def test_what_has_no_certificate_is_one_line(self):
        for name, why in (("bouncing", "it has 'when' clauses"), ("massspring", "")):
            status, out, err = run("qss-certificate", os.path.join(EXAMPLES, name + ".mo"))
            self.assertEqual((status, out, err.count("\n")), (1, "", 1), err)
            self.assertIn("no certificate: " + why, err)

    def test_advised_settings_have_a_certificate(self):
        cable = os.path.join(EXAMPLES, "cable.mo")
        status, out, err = run("qss-certificate", cable)
        self.assertEqual((status, out), (1, ""))
        self.assertIn("ticks are too long", err)
        path = os.path.join(self.folder, "cable.mo")
        status, out, err = run("qss-advise", cable, "--certificate", "--rewrite", path)
        self.assertEqual(status, 0, err)  # on a slow machine there are lines of progress
        self.assertIn("QSS_TickBits = 20", out)
        self.assertEqual(run("qss-certificate", path, "-o", os.path.join(self.folder, "cable.cert"))[0], 0)

    def test_a_table_and_a_picture_with_bounds(self):
        certificate = os.path.join(EXAMPLES, "ladder.cert")
        status, out, err = run("qss-table", LADDER, "--certificate", certificate, "--every", "4", "--no-advice")
        self.assertEqual((status, err), (0, ""))
        lines = out.split("\n")
        self.assertEqual(lines[0], "time,v1,v2,v1_lower,v1_upper,v2_lower,v2_upper")
        for line in lines[1:-1]:
            t, _, _, low1, high1, low2, high2 = map(float, line.split(","))
            v1, v2 = ladder_solution(t)
            self.assertTrue(low1 <= v1 <= high1 and low2 <= v2 <= high2, line)
            self.assertTrue(0 <= high1 - low1 - 146 / 1024 <= 2 / 64 / 1024)  # rounded outwards
        path = os.path.join(self.folder, "ladder.svg")
        status, out, err = run("qss-plot", LADDER, "--certificate", certificate, "-o", path, "--no-advice")
        self.assertEqual((status, err), (0, ""))
        with open(path, encoding="utf-8") as file:
            text = file.read()
        self.assertEqual(text.count("fill-opacity"), 4)  # two bands around two states
        self.assertIn("the solution lies here (proved)", text)

    def test_no_distance_passes_its_bound(self):
        for name in ("decay", "ladder"):
            run_of_it = Run(os.path.join(EXAMPLES, name + ".mo"), BUILT)
            system = Affine(run_of_it)
            certificate = read_certificate(example(name, ".cert"), system)
            apart, away = seen(run_of_it, Certified(run_of_it, system, certificate))
            for one, other, bound in zip(apart, away, certificate["E"]):
                self.assertLess(0, other)
                self.assertLessEqual(one, bound)
                self.assertLessEqual(2 * other, bound)


def ladder_solution(t):
    """The voltages of two RC cells after a step of 5 V: rates (3 -+ sqrt 5) / 2, by hand."""
    slow, fast = (3 - math.sqrt(5)) / 2, (3 + math.sqrt(5)) / 2
    # v2'' + 3 v2' + v2 = 5 with v2(0) = v2'(0) = 0, and v1 = v2' + v2
    p, q = -5 * fast / (fast - slow), 5 * slow / (fast - slow)
    v2 = 5 + p * math.exp(-slow * t) + q * math.exp(-fast * t)
    change = -slow * p * math.exp(-slow * t) - fast * q * math.exp(-fast * t)
    return v2 + change, v2


if __name__ == "__main__":
    unittest.main()
