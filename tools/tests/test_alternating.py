"""Alternating sources: oscillators and their growth, clocks that set them anew, and states that turn a tick late.

tools/alternating-trial compares the models of the folder alternating with their solutions, which takes minutes.
"""
import math
import unittest

import support  # noqa: F401
from qss_tools.advice.alternating import growing, late_turns
from qss_tools.certificates.use import Size, use_of
from qss_tools.model.flat import Flat
from qss_tools.model.grammar import parse
from qss_tools.model.source import Source
from qss_tools.numeric.trial import Trial
from qss_tools.settings.cures import cured, meaning
from qss_tools.settings.oscillators import blocks, chains, growth, oscillators
from qss_tools.tables.phase import measures, period

QUICK = 6000000
SINE = (
    "model m Real s(start = 0), c(start = 1); %s equation der(s) = w*c; der(c) = -w*s; %s"
    " annotation(experiment(StopTime = %s, QSS_TickBits = 12, QSS_Quantum = 1/1024)); end m;"
)


def source_of(text):
    return Source("m.mo", text.encode())


def read(text):
    source = source_of(text)
    flat = Flat(parse(source))
    flat.rows()
    return source, flat, Trial(flat, QUICK)


def sine(stop, clauses="", declared="parameter Real w = 6.283185307;"):
    """A sine of period 1."""
    return read(SINE.replace("Real s", declared + " Real s", 1) % ("", clauses, stop))


class Oscillators(unittest.TestCase):
    def test_a_sine_grows_by_four_quanta_in_a_period_and_by_its_ticks(self):
        _, flat, trial = sine(10)
        (one,) = oscillators(flat, trial)
        self.assertAlmostEqual(one.period, 1, 6)
        quanta, ticks = growth(flat, one)
        self.assertAlmostEqual(quanta, 10 * 4 / 1024, 4)
        self.assertAlmostEqual(ticks, math.expm1((2 * math.pi) ** 2 / 4096 * 10 / 2), 6)
        self.assertEqual(len(list(growing(flat, trial))), 1)

    def test_a_damped_oscillation_is_no_oscillator_that_grows(self):
        text = "model m Real x(start = 1), v; equation der(x) = v; der(v) = -x - 0.5*v; end m;"
        _, flat, trial = read(text)
        self.assertEqual(oscillators(flat, trial), [])

    def test_a_ring_of_three_states_is_set_anew(self):
        text = (
            "model m Real a(start = 2), b(start = -1), c(start = -1); equation der(a) = b - c; der(b) = c - a;"
            " der(c) = a - b; annotation(experiment(StopTime = 100)); end m;"
        )
        source, flat, trial = read(text)
        (one,) = oscillators(flat, trial)
        self.assertAlmostEqual(one.rate, math.sqrt(3), 9)
        self.assertEqual(len(cured(source, flat, trial).changes), 1)

    def test_blocks_are_the_states_that_act_on_each_other(self):
        text = "model m Real a, b, c, d; equation der(a) = b; der(b) = a + c; der(c) = d; der(d) = c; end m;"
        self.assertEqual(blocks(read(text)[1]), [(2, 3), (0, 1)])

    def test_a_chain_that_is_hardly_damped_is_found(self):
        text = (
            "model m Real i[20], u[20]; equation der(i[1]) = 1 - i[1] - u[1]; for k in 2:20 loop der(i[k]) ="
            " u[k - 1] - u[k]; end for; for k in 1:19 loop der(u[k]) = i[k] - i[k + 1]; end for; der(u[20]) = i[20]"
            " - u[20]; end m;"
        )
        ((block, swing),) = chains(read(text)[1])
        self.assertEqual(len(block), 40)
        self.assertAlmostEqual(swing, math.sqrt((2 * 39 - 2) / 40), 9)


class Cures(unittest.TestCase):
    def test_a_clock_sets_an_oscillator_anew(self):
        source, flat, trial = sine(50)
        cure = cured(source, flat, trial)
        other = meaning(cure.source)
        ((condition, statements),) = other.clauses()[0]
        self.assertEqual(condition.part.relation, ">=")
        self.assertEqual([one.kind for one in statements], ["reinit", "reinit", "set"])
        self.assertEqual([one.form.constant for one in statements[:2]], [0, 1])
        self.assertAlmostEqual(float(statements[2].form.constant), 1, 8)
        again = Trial(other, QUICK)
        self.assertEqual(cured(cure.source, other, again).changes, ())
        (one,) = oscillators(other, again)
        self.assertAlmostEqual(one.lasts, 1, 6)

    def test_few_periods_need_no_clock(self):
        self.assertEqual(cured(*sine(2)).changes, ())

    def test_a_mirrored_sine_is_set_anew_each_half_period(self):
        clause = "algorithm when s < 0 then reinit(s, -s); reinit(c, -c); end when;"
        source, flat, trial = sine(50, clause)
        other = meaning(cured(source, flat, trial).source)
        self.assertAlmostEqual(float(other.clauses()[1][0][1][2].form.constant), 0.5, 8)

    CARRIER = (
        "model m Real tri(start = -1); discrete Real up(start = 1); equation der(tri) = 4*up; algorithm when tri %s 1"
        " then up := -1; elsewhen tri %s -1 then up := 1; end when; end m;"
    )

    def test_strict_turns_are_late(self):
        source, flat, trial = read(self.CARRIER % (">", "<"))
        found = list(late_turns(flat, trial))
        self.assertEqual([one.way.split(" (")[0] for one in found], ["write '>='", "write '<='"])
        text = cured(source, flat, trial).source.text
        self.assertIn("tri >= 1", text)
        self.assertIn("tri <= -1", text)
        _, flat, trial = read(self.CARRIER % (">=", "<="))
        self.assertEqual(list(late_turns(flat, trial)), [])

    def test_the_period_of_a_carrier_is_that_of_a_clock(self):
        _, _, trial = read(
            (self.CARRIER % (">=", "<=")).replace("end m;", "annotation(experiment(StopTime = 20)); end m;")
        )
        self.assertLess(abs(trial.returns - 1), 0.1)


class Measures(unittest.TestCase):
    def test_a_shift_changes_no_measure(self):
        waves = [[math.sin(2 * math.pi * (place + shift) / 100) for place in range(1000)] for shift in (0, 30)]
        one, other = (measures(wave) for wave in waves)
        self.assertAlmostEqual(one[0], 0, 9)
        self.assertAlmostEqual(one[1], math.sqrt(0.5), 9)
        for value, more in zip(one, other):
            self.assertAlmostEqual(value, more, 9)

    def test_the_period_is_that_of_the_branch_that_fires_most(self):
        self.assertEqual(period([(0, "1.1"), (1, "2.1"), (2, "1.1"), (4, "1.1")]), 2)
        self.assertIsNone(period([(0, "1.1")]))


class Use(unittest.TestCase):
    def test_a_bound_that_is_larger_than_the_step_is_of_no_use(self):
        use = use_of(["i", "u"], [0.5, 130], [Size(1, False), Size(100, True)])
        self.assertFalse(use.is_of_use)
        self.assertEqual(use.text(), "accepted, but of no use: E of u is 1.3 times the step, which is 100")
        self.assertTrue(use_of(["u"], [50], [Size(100, True)]).is_of_use)


class Exact(unittest.TestCase):
    def test_a_period_is_written_with_few_digits(self):
        source, flat, trial = sine(50)
        self.assertIn("sync(start = 1)", cured(source, flat, trial).source.text)


if __name__ == "__main__":
    unittest.main()
