"""Advice on switching times: their resolution, their loss, and clocks that never fire; and values in SI units."""
import os
import unittest

from support import BUILT, ROOT, STAND_IN, InFolder, run

from qss_tools.advice.coincidences import Watch, dangerous_pairs
from qss_tools.advice.far_units import far_units
from qss_tools.advice.findings import findings
from qss_tools.advice.ripples import computed_times, is_steady, shares
from qss_tools.model.flat import Flat
from qss_tools.model.grammar import parse
from qss_tools.model.source import Source
from qss_tools.numeric.trial import Trial

# A flyback converter 48 V to 5 V at 100 kHz with a sampled PI controller of its duty.
FLYBACK = """model flyback
  parameter Real Vin = 48 "V", Lm = 50 "uH", n = 4, C = %s, period = 10 "us", ref = 5 "V";
  parameter Real kp = 0.002, ki = 0.0005, least = 0.03125, most = 0.5, never = 1000000, big = 64;
  Real im(start = 0, unit = "A"), uC(start = 4, unit = "V"), acc(start = 0.15) annotation(QSS_Quantum = 0.0001);
  discrete Real s, d, on(start = period), off(start = never), duty(start = 0.15), err, g(start = 0.2);
equation
  der(im) = (Vin*s - n*d*uC)/Lm;
  der(uC) = (n*d*im - g*uC)/C;
  der(acc) = 0;
algorithm
  when time >= off then
    s := 0;
    d := 1;
    off := never;
  end when;
  when im + big*s <= 0 then
    d := 0;
    reinit(im, 0);
  end when;
  when time >= on then
    err := ref - uC;
    reinit(acc, acc + ki*err);
    duty := acc + kp*err;
    s := 1;
    d := 0;
    off := pre(on) + period*duty;
    on := pre(on) + period;
  end when;
  when duty > most then
    duty := most;
    off := pre(on) - period + period*most;
  elsewhen duty < least then
    duty := least;
    off := pre(on) - period + period*least;
  end when;
  when time >= 4000 then
    g := 1;
  end when;
  annotation(experiment(StopTime = %s, QSS_CoefBits = 28, QSS_TickBits = 8, QSS_LevelBits = 20, QSS_Quantum = %s,
    QSS_TimeUnit = "us"));
end flyback;
"""
UF, STOP, QUANTUM = '220 "uF"', "10000", "0.0078125"
# The peak-to-peak value of uC from 9500 us to 10000 us in a solution by scipy (solve_ivp, rtol = 1e-9).
RIPPLE = 0.0880


def source_of(text):
    return Source("m.mo", text.encode())


def flat_of(text):
    return Flat(parse(source_of(text)))


def flyback(capacitance=UF, stop=STOP, quantum=QUANTUM):
    return FLYBACK % (capacitance, stop, quantum)


class Ripples(InFolder):
    def test_switching_times_that_are_computed(self):
        flat = flat_of(flyback())
        self.assertEqual([flat.variables[number].name for number in computed_times(flat)], ["off"])

    def test_ripples_are_compared_in_steady_windows(self):
        """The peak-to-peak values are 3 and 2, so the share is a half. In the other window the state drifts."""
        flat = flat_of("model m Real x; equation der(x) = 0; annotation(experiment(QSS_Quantum = 1/64)); end m;")
        coarse, fine = [0, 3, 0, 3, 0, 9, 9, 9], [0, 2, 0, 2, 0, 1, 7, 8]
        self.assertEqual(list(shares(flat, [coarse], [fine], 4)), [(0.5, 0)])
        self.assertFalse(is_steady(fine[4:], 8))
        self.assertEqual(list(shares(flat, [fine], [fine], 4)), [])

    def test_differences_below_a_quarter_of_a_quantum_are_left_out(self):
        flat = flat_of("model m Real x; equation der(x) = 0; annotation(experiment(QSS_Quantum = 4)); end m;")
        self.assertEqual(list(shares(flat, [[0, 3, 0, 3]], [[0, 2, 0, 2]], 4)), [])

    @unittest.skipUnless(os.path.exists(BUILT), "the program is not built")
    def test_a_limit_cycle_of_a_duty_gets_shorter_ticks(self):
        path, other = self.file("flyback.mo", flyback()), os.path.join(self.folder, "other.mo")
        status, out, err = run("qss-advise", path, "--rewrite", other)
        self.assertEqual((status, err), (1, ""))
        self.assertIn("warning: with these settings the ripple of uC is about", out)
        self.assertIn("since off is computed and a switching period has only 2560 ticks (QSS_TickBits = 8)", out)
        self.assertIn("QSS_TickBits = 12,", out)
        status, out, err = run("qss-measure", other, "ripple(uC, from=9500, to=10000)", "--no-advice")
        self.assertEqual((status, err), (0, ""))
        self.assertLess(abs(float(out.split()[-2]) / RIPPLE - 1), 0.02)


class Quanta(InFolder):
    def test_a_quantum_of_zero_is_refused_in_one_line(self):
        text = "// stand-in: 5 refused: machine 3 im\n" + flyback(quantum="0")
        path = self.file("m.mo", text)
        flat = flat_of(text)
        self.assertFalse([one for one in findings(flat, Trial(flat, 1000000)) if "quanta" in one.sentence])
        status, out, err = run("qss-advise", path, "--program", STAND_IN)
        self.assertEqual((status, err), (1, ""))
        self.assertIn("refused: the quantum of im is not above 0", out)


class Units(InFolder):
    def told(self, capacitance, time="us"):
        source = source_of(flyback(capacitance).replace('"us"))', '"%s"))' % time))
        return [(one.sentence, one.way.split(",")[0]) for one in far_units(source, Flat(parse(source)))]

    def test_a_capacitance_in_farad(self):
        sentence = "C has the unit F, and the unit of time us needs uF (1 F = 10^6 uF)"
        self.assertEqual(self.told('220e-6 "F"'), [(sentence, 'write C = 220 "uF"')])
        sentence = "C has the unit mF, and the unit of time us needs uF (1 mF = 10^3 uF)"
        self.assertEqual(self.told('0.22 "mF"'), [(sentence, 'write C = 220 "uF"')])
        self.assertEqual(self.told('0.22 "mF"', "s"), [])
        self.assertEqual(self.told(UF), [])
        self.assertEqual(self.told('220 "F"'), [])

    def test_other_units_of_time(self):
        self.assertIn("needs mF (1 F = 10^3 mF)", self.told('220e-6 "F"', "ms")[0][0])
        self.assertIn("needs nF (1 F = 10^9 nF)", self.told('220e-6 "F"', "ns")[0][0])

    def test_milliamperes_and_kiloohms(self):
        source = source_of(flyback('220e-6 "F"').replace('unit = "A"', 'unit = "mA"'))
        self.assertEqual(far_units(source, Flat(parse(source))), [])

    def test_units_come_before_all_else(self):
        path = self.file("m.mo", flyback('220e-6 "F"'))
        status, out, err = run("qss-advise", path, "--program", STAND_IN)
        self.assertEqual((status, err), (1, ""))
        self.assertTrue(out.startswith(path + ":2:53: warning: C has the unit F, and "), out)
        self.assertNotIn("rough run", out)


class Clocks(unittest.TestCase):
    def told(self, text):
        flat = flat_of(text)
        return [one.sentence for one in findings(flat, Trial(flat, 1000000)) if "no clock fires" in one.sentence]

    def test_a_stop_time_before_the_first_clock(self):
        sentence = "no clock fires before StopTime = 0.01: the first time of a clock is 10"
        self.assertEqual(self.told(flyback(stop="0.01")), [sentence])
        self.assertEqual(self.told(flyback(stop="10")), [])

    def test_a_clock_that_a_state_starts(self):
        text = (
            "model m Real x; discrete Real next(start = 100), n; equation der(x) = 1; algorithm"
            " when x > 0.5 then %s end when; when time >= next then n := 1; next := 100; end when; end m;"
        )
        self.assertEqual(self.told(text % "next := 0.75;"), [])
        self.assertEqual(len(self.told(text % "n := 2;")), 1)


class Coincidences(InFolder):
    def test_a_limit_that_corrects_a_switching_time(self):
        flat = flat_of(flyback())
        off = flat.numbers["off"]
        self.assertEqual(dangerous_pairs(flat), {(b"1.1", b"4.1"): off, (b"1.1", b"4.2"): off})
        watch = Watch(flat)
        watch.read(b"5,when,3.1,,\n6,when,1.1,,\n")
        watch.read(b"6,set,s,0,\n6,when,4.2,,\n7,when,4.2,,\n")
        found = [(one.tick, one.labels, one.variable) for one in watch.found.values()]
        self.assertEqual(found, [(6, (b"1.1", b"4.2"), off)])

    def test_pulses_whose_end_comes_first_do_no_harm(self):
        with open(os.path.join(ROOT, "examples", "idioms", "pwm_duty.mo"), encoding="utf-8") as file:
            self.assertEqual(dangerous_pairs(flat_of(file.read())), {})

    @unittest.skipUnless(os.path.exists(BUILT), "the program is not built")
    def test_a_duty_below_zero(self):
        """At time 20 the duty is 0.5 + 0.2*(0 - 8) = -1.1. One tick of 1/256 later both clauses fire."""
        with open(os.path.join(ROOT, "examples", "buck_pi.mo"), encoding="utf-8") as file:
            text = file.read().replace("StopTime = 4000", "StopTime = 400")
        for old, new in (("kc = 0.02", "kc = 0.2"), ("iL(", "iL(start = 8, "), ("uC(", "uC(start = 12, ")):
            text = text.replace(old, new, 1)
        status, out, err = run("qss-advise", self.file("m.mo", text))
        self.assertEqual((status, err), (1, ""))
        self.assertIn("off is set by the branches 2.2 and 3.1 at one tick, first at time 20.0039", out)


if __name__ == "__main__":
    unittest.main()
