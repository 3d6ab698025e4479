"""Advice on settings, and models in another unit of time."""
import functools
import os
import unittest
from fractions import Fraction
from unittest import mock

from support import STAND_IN, InFolder, run

from qss_tools.advice.findings import findings
from qss_tools.model.flat import Flat
from qss_tools.model.grammar import parse
from qss_tools.model.source import Source
from qss_tools.numeric.trial import Trial, time_like
from qss_tools.settings.proposal import propose
from qss_tools.settings.rewriting import rewritten

BUCK = """model buck_si "buck converter in seconds, henry and farad"
  parameter Real U = 24 "V", L = 1e-4 "H", C = 1e-4 "F", R = 10 "Ohm";
  parameter Real period = 1e-4 "s", duty = 0.5;
  Real iL(start = 0, unit = "A"), uC(start = 0, unit = "V");
  discrete Real s(start = 1), on(start = period), off(start = period*duty);
equation
  der(iL) = (U*s - uC)/L;
  der(uC) = (iL - uC/R)/C;
algorithm
  when time >= on then
    s := 1;
    on := pre(on) + period;
  end when;
  when time >= off then
    s := 0;
    off := pre(off) + period;
  end when;
  annotation(experiment(StopTime = 0.005));
end buck_si;
"""

BOOST = """model boost_si "boost converter whose controller has an integrator x"
  parameter Real U = 12, L = 47e-6, C = 220e-6, RL = 0.05, T = 10e-6;
  Real iL(start = 2.4), uC(start = 24);
  discrete Real s(start = 0), on(start = T), off(start = 1), d(start = 0.5), x(start = 0.5);
equation
  der(iL) = (U - RL*iL - (1 - s)*uC)/L;
  der(uC) = ((1 - s)*iL - 0.05*uC)/C;
algorithm
  when time >= on then
    s := 1;
    x := pre(x) + 0.00002*(24 - uC);
    d := pre(x) + 0.001*(24 - uC);
    off := pre(on) + T*d;
    on := pre(on) + T;
  end when;
  when time >= off then
    s := 0;
  end when;
  annotation(experiment(StopTime = 0.001));
end boost_si;
"""

PEAK = """model peak
  parameter Real T = 2e-5, slope = 1000, big = 64;
  Real i(start = 3) annotation(QSS_Quantum = 1/256);
  discrete Real s(start = 1), on(start = T), began, duty(start = 1/4);
equation
  der(i) = (20*s - 12)/1e-4;
algorithm
  when time >= on then
    s := 1; began := time; on := pre(on) + T*(1 - duty) + T*duty;
  elsewhen time > 1e-3 + began then
    duty := 2*duty;
  end when;
  when i + slope*(time - began) - big*(1 - s) > 3.5 then
    s := 0;
  end when;
  annotation(experiment(StopTime = 1e-3, QSS_Quantum = 1/256));
end peak;
"""


def flat_of(text):
    return Flat(parse(Source("m.mo", text.encode())))


QUICK = 6000000  # work of a rough run: a tenth of that of the tool


def told(text):
    flat = flat_of(text)
    return [finding.sentence for finding in findings(flat, Trial(flat, QUICK))]


class Findings(unittest.TestCase):
    def assert_told(self, text, part):
        self.assertTrue(any(part in sentence for sentence in told(text)), (part, told(text)))

    def test_the_buck_converter_in_seconds(self):
        self.assert_told(BUCK, "a tick is 2^-10 = 0.000976562, 10.2")
        self.assert_told(BUCK, "off steps by 0.0001, which discrete values of 2^-16 keep as 0.000106812 (6.8 % off)")
        self.assert_told(BUCK, "the start of off, 5e-05, is kept as 4.57764e-05")

    def test_what_is_read_over(self):
        text = "model m Real x(Start = 1); equation der(x) = -x; annotation(StopTime = 2, experiment(%s)); end m;"
        self.assert_told(text % "QSS_Tickbits = 14", "'QSS_Tickbits' is not a setting")
        self.assert_told(text % "Stoptime = 4", "'Stoptime' is not a setting")
        self.assert_told(text % "QSS_Solver = 2", "'QSS_Solver' is not a setting")
        self.assert_told(text % "Tolerance = 1e-6", "Tolerance has no effect")
        self.assert_told(text % "", "'StopTime' is outside experiment")
        self.assert_told(text % "", "'Start' of x is ignored")
        self.assertEqual(
            told(
                'model m Real x(start = 1, unit = "V"); equation der(x) = -x; annotation(Icon(a = 1),'
                " experiment(MMO_Solver = QSS3, StopTime = 1)); end m;"
            ),
            [],
        )

    def test_a_number_with_a_comma(self):
        text = "model m Real x(start = 4,5); equation der(x) = -x; annotation(experiment(StopTime = 10,000)); end m;"
        self.assert_told(text, "4,5 is read as 4 (a decimal point is '.': write 4.5 for 4,5)")
        self.assert_told(text, "10,000 is read as 10 (a decimal point is '.': write 10.000 or 10000 for 10,000)")

    def test_what_is_rounded(self):
        self.assert_told(
            "model m Real x(start = 1); equation der(x) = -0.001*x; annotation(experiment(QSS_CoefBits = 12)); end m;",
            "the coefficient -0.001 of x is kept as -0.000976562",
        )
        self.assert_told("model m Real x(start = 1); equation der(x) = -1e-9*x; end m;", "is kept as 0")
        self.assert_told(
            "model m Real x(start = 1) annotation(QSS_Quantum = 0.3); equation der(x) = -x;"
            " annotation(experiment(QSS_LevelBits = 2)); end m;",
            "the quantum of x, 0.3, is kept as 0.25",
        )
        self.assert_told(
            "model m Real x; discrete Real d; equation der(x) = 1; algorithm when x > 0.5 then d := d + 0.0002*x; end when;"
            " end m;",
            "d is a sum of small steps: what is added below 2^-17 is lost, so x below 0.038147 adds nothing",
        )

    def test_states_that_hardly_move(self):
        """The end of a chain does not move in the rough run; the quantum is that of its beginning."""
        flat = flat_of(
            "model m Real u[400]; equation der(u[1]) = 10*(1 - u[1]); for i in 2:400 loop der(u[i]) = 10*(u[i - 1] - u[i]);"
            " end for; end m;"
        )
        self.assertEqual(propose(flat, Trial(flat)).quantum, Fraction(1, 1024))

    def test_a_limit_that_sticks(self):
        text = (
            "model m Real x; discrete Real d; equation der(x) = d; algorithm when time > 0.5 then d := 1; end when;"
            " when d > 0.96 then d := 0.96; end when; annotation(experiment(QSS_LevelBits = %d, QSS_Quantum = 0.015625)); end m;"
        )
        self.assert_told(
            text % 20, "d is set to 0.96 and kept as 0.960000038147, so the condition of branch 2.1 stays true"
        )
        self.assertEqual(told(text % 18), [])
        flat = flat_of(text % 20)
        self.assertNotIn(propose(flat, Trial(flat)).level_bits, (20, 21, 22, 23))

    def test_what_is_near_a_limit(self):
        self.assert_told(
            "model m Real x(start = 1); equation der(x) = -1000000*x; annotation(experiment(QSS_CoefBits = 24)); end m;",
            "take 43.9 of 44 bits",
        )
        self.assert_told(
            "model m Real x; equation der(x) = 1; algorithm when 100000*x > 1 then reinit(x, 0); end when; end m;",
            "refused (machine 4)",
        )

    def test_a_stop_time_that_has_too_many_ticks(self):
        text = "model m Real x(start = 1); equation der(x) = -x; annotation(experiment(StopTime = %d, QSS_Quantum = 0.03125)); end m;"
        self.assert_told(text % 5000000, "less than 2^22 = 4194304")
        self.assertEqual(told(text % 4000), [])

    def test_conditions_that_hold_at_the_start(self):
        room = (
            "model m Real T(start = 25); discrete Real on(start = %d); equation der(T) = 20 - T - 8*on; algorithm when T > 20.5 then"
            " on := 1; end when; annotation(experiment(QSS_CoefBits = 16, QSS_Quantum = 0.0625)); end m;"
        )
        self.assert_told(room % 0, "this condition is true at the start")
        self.assertEqual(told(room % 1), [])

    def test_branches_that_never_fire(self):
        text = (
            "model m Real x(start = 1); discrete Real s(start = %s), n; equation der(x) = -x; algorithm"
            " when s > 0.5 then n := n + 1; s := 1; end when;%s annotation(experiment(QSS_CoefBits = 16)); end m;"
        )
        never = "and no other branch sets s, so this branch never fires"
        self.assert_told(text % (1, ""), "'s > 0.5' holds at the start " + never)
        self.assert_told(text % (0, ""), "'s > 0.5' does not hold at the start " + never)
        other = " when x < 0.5 then s := 1 - s; end when;"
        self.assertEqual([one for one in told(text % (0, other)) if "never fires" in one], [])

    def test_start_values_of_algebraic_variables(self):
        text = (
            "model m Real x(start = 1), y(start = %s); equation der(x) = -x; y = 2*x; annotation(experiment("
            "QSS_CoefBits = 16)); end m;"
        )
        self.assert_told(text % 3, "the start value 3 of y has no effect: its equation gives 2 at the start")
        self.assertEqual(told(text % 2), [])

    def test_states_that_are_too_small_for_any_quantum(self):
        text = (
            'model m Real i(start = %s, unit = "A"); equation der(i) = -i; annotation(experiment('
            "QSS_CoefBits = 16, QSS_Quantum = 1e-7)); end m;"
        )
        self.assert_told(text % "4e-8", "i reaches about 4e-08, and a quantum is at least 2^-24")
        self.assertEqual([one for one in told(text % "4e-5") if "no settings resolve" in one], [])


class Rewritten(unittest.TestCase):
    def assert_same_forms(self, text):
        """The forms of the rewritten model are those of the model, in the unit of time."""
        source, flat = Source("m.mo", text.encode()), flat_of(text)
        proposal = propose(flat, Trial(flat))
        self.assertTrue(proposal.fits)
        self.assertNotEqual(proposal.unit, 1)
        other = flat_of(rewritten(source, flat, proposal).decode())
        unit, clocks = proposal.unit, time_like(flat)

        def scaled(form, scale):
            parts = {}
            for key, value in form.parts.items():
                is_time = key[0] == "time" or key[0] in ("x", "pre") and key[1] in clocks
                parts[key] = value * scale / (unit if is_time else 1)
            return parts, form.constant * scale

        self.assertEqual(len(flat.rows()), len(other.rows()))
        for old, new in zip(flat.rows(), other.rows()):
            scale = 1 / unit if old.kind == "state" else unit if old.variable in clocks else 1
            parts, constant = scaled(old.form, scale)
            if old.kind == "condition" and (parts, constant) != (new.form.parts, new.form.constant):
                parts, constant = scaled(old.form, unit)
            self.assertEqual((parts, constant), (new.form.parts, new.form.constant), old.label)
        for number, start in enumerate(flat.starts):
            self.assertEqual(start * (unit if number in clocks else 1), other.starts[number])
        self.assertEqual(other.settings["StopTime"], flat.settings["StopTime"] * unit)
        return other

    def test_the_buck_converter(self):
        other = self.assert_same_forms(BUCK)
        self.assertEqual([sentence for sentence in told_of(other)], [])

    def test_a_clause_of_times_and_states(self):
        self.assert_same_forms(PEAK)

    def test_settings_where_there_are_none(self):
        for end in (
            "",
            "annotation(); ",
            "annotation(Icon(a = 1)); ",
            "annotation(experiment()); ",
            "annotation(experiment(StopTime = 1)); ",
        ):
            text = "model m Real x(start = 1); equation der(x) = -x; %send m;" % end
            source, flat = Source("m.mo", text.encode()), flat_of(text)
            other = flat_of(rewritten(source, flat, propose(flat, Trial(flat))).decode())
            self.assertEqual(len(other.model.settings), 5, end)


class Quanta(unittest.TestCase):
    """A quantum is a thousandth of a state's size, or less if the errors of quantization add up."""

    OSCILLATOR = "model m Real x(start = 1), v; equation der(x) = v; der(v) = -x - %s*v; annotation(%s); end m;"

    def quanta(self, damping, settings="experiment(StopTime = 10)"):
        flat = flat_of(self.OSCILLATOR % (damping, settings))
        proposal = propose(flat, Trial(flat))
        return [proposal.own.get(name, proposal.quantum) for name in ("x", "v")]

    def test_an_oscillation_with_little_damping_has_smaller_quanta(self):
        strong, weak = self.quanta("0.5"), self.quanta("0.02")
        self.assertEqual(strong, [Fraction(1, 2048)] * 2)
        self.assertLess(weak[0], strong[0])
        self.assertLess(weak[1], strong[1])

    def test_a_quantum_of_the_model_is_kept(self):
        settings = "experiment(StopTime = 50, QSS_Quantum = 0.125)"
        self.assertEqual(self.quanta("0.02", settings), [Fraction(1, 8)] * 2)

    def test_what_an_integrator_adds_is_no_step(self):
        """The product 0.00002*24 needs no bits of its own, since x is set by the difference from 24."""
        flat = Flat(parse(Source("m.mo", BOOST.encode())))
        proposal = propose(flat, Trial(flat))
        self.assertTrue(proposal.fits)
        self.assertEqual(proposal.unit, 10**6)

    def test_no_damping_has_no_sum(self):
        self.assertEqual(self.quanta("0", "experiment(StopTime = 5)"), [Fraction(1, 1024)] * 2)


def told_of(flat):
    return [finding.sentence for finding in findings(flat, Trial(flat)) if finding.grave]


class Tool(InFolder):
    def setUp(self):
        super().setUp()
        patch = mock.patch("qss_tools.advice.advise.Trial", functools.partial(Trial, most_work=QUICK))
        patch.start()
        self.addCleanup(patch.stop)

    def test_the_buck_converter_gets_settings_and_a_model(self):
        model, other = self.file("buck.mo", BUCK), os.path.join(self.folder, "other.mo")
        status, out, err = run("qss-advise", model, "--program", STAND_IN, "--rewrite", other)
        self.assertEqual((status, err), (1, ""))
        self.assertIn(model + ":18:41: warning: a tick is 2^-10", out)
        self.assertIn("annotation(experiment(StopTime = 5, QSS_CoefBits = ", out)
        status, out, _ = run("qss-advise", other, "--program", STAND_IN)
        self.assertEqual(status, 0, out)
        status, out, _ = run("qss-advise", model, "--program", STAND_IN, "--rewrite", "-")
        with open(other, encoding="utf-8") as file:
            self.assertEqual(out, file.read())

    def test_no_settings_for_a_part_of_the_run(self):
        """The rough run ends before the model does: the tool says where, and proposes and writes nothing."""
        model = self.file(
            "fast.mo",
            "model fast Real x(start = 1), y; equation der(x) = y; der(y) = -1e8*x; annotation(experiment(StopTime = 9));"
            " end fast;\n",
        )
        other = os.path.join(self.folder, "other.mo")
        with mock.patch("qss_tools.advice.advise.Trial", functools.partial(Trial, most_work=100000)):
            _, out, err = run("qss-advise", model, "--program", STAND_IN)
            self.assertRegex(
                out, r"no settings are proposed: the rough run ended at time [\d.]+ of 9; with a StopTime of"
            )
            self.assertEqual(err, "")
            answer = run("qss-advise", model, "--program", STAND_IN, "--rewrite", other)
        self.assert_fault(answer, "there are no settings to write: the rough run ended at time")
        self.assertFalse(os.path.exists(other))

    def test_settings_that_the_program_refuses_are_not_printed(self):
        model = self.file("buck.mo", BUCK)
        with mock.patch("qss_tools.advice.proposing.refusal_of", return_value="refused: names 8 893 1"):
            _, out, _ = run("qss-advise", model, "--program", STAND_IN)
            self.assertIn(
                "no settings are proposed: the program does not accept the nearest ones (refused: names 8", out
            )
            self.assertNotIn("QSS_CoefBits =", out.split("warning")[0])
            answer = run("qss-advise", model, "--program", STAND_IN, "--rewrite", os.path.join(self.folder, "o.mo"))
        self.assert_fault(answer, "there are no settings to write")

    def test_numbers_that_are_refused_are_advised_on(self):
        model = self.file(
            "m.mo", "// stand-in: 5 refused: machine 4 1\nmodel m Real x; equation der(x) = -1e9*x; end m;\n"
        )
        status, out, _ = run("qss-advise", model, "--program", STAND_IN)
        self.assertEqual(status, 1)
        self.assertIn(model + ":2:26: refused: the coefficient 1e+09 of x in der(x) passes 2^44", out)

    def test_faults_are_one_line(self):
        other = os.path.join(self.folder, "other.mo")
        none = os.path.join(self.folder, "none.mo")
        self.assert_fault(run("qss-advise", none, "--program", STAND_IN), "there is no such file")
        refused = self.file("r.mo", "// stand-in print: 5 refused: parse 1 3\nmodel m x\n")
        self.assert_fault(run("qss-advise", refused, "--program", STAND_IN, "--rewrite", other), "qss-explain")
        refused = self.file("n.mo", "// stand-in: 5 refused: names 3 72\nmodel m Real x; equation der(x) = y; end m;\n")
        self.assert_fault(run("qss-advise", refused, "--program", STAND_IN, "--rewrite", other), "refused: names 3 72")
        self.assertFalse(os.path.exists(other))
        model = self.file("buck.mo", BUCK)
        self.assert_fault(run("qss-advise", model, "--program", none), "no program")
        self.assert_fault(
            run("qss-advise", model, "--program", STAND_IN, "--rewrite", os.path.join(none, "x.mo")), "no such file"
        )
        self.assert_fault(run("qss-advise", model, "--program", STAND_IN, "--rewrite", self.folder), "folder")


if __name__ == "__main__":
    unittest.main()
