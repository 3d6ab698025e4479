"""The sources and idioms of docs/IDIOMS.md: their texts are parts of models, whose runs have values computed by hand."""
import os
import re
import unittest
from math import atan2, cos, exp, hypot, pi, sin, sqrt

from support import BUILT, PROGRAM, ROOT, run

IDIOMS = os.path.join(ROOT, "examples", "idioms")
PAGE = os.path.join(ROOT, "docs", "IDIOMS.md")
BLOCK = re.compile(r"^```modelica\n(.*?)^```$", re.MULTILINE | re.DOTALL)
SHARE = 0.01  # of the largest value

REACTANCE = 2 * pi * 0.05 * 20
CURRENT = 325 / hypot(10, REACTANCE) * cos(atan2(REACTANCE, 10))
# Of each model the measures, the values by hand, and the size to which an error is compared.
VALUES = {
    "step": (("at(u, t=1)", 0, 5), ("at(v, t=3)", 5 * (1 - exp(-1)), 5), ("at(v, t=8)", 5 * (1 - exp(-6)), 5)),
    "ramp": (("at(r, t=1)", 0, 5), ("at(r, t=2)", 2, 5), ("at(r, t=3)", 4, 5), ("at(r, t=5)", 5, 5)),
    "pulse": (("at(u, t=0.6)", 5, 5), ("at(u, t=0.8)", 0, 5), ("mean(v, from=16, to=20)", 1.25, 1.25)),
    "sine": (
        ("at(s, t=145)", 325, 325),
        ("at(s, t=155)", -325, 325),
        ("at(s, t=152.5)", -325 / sqrt(2), 325),
        ("max(s)", 325, 325),
    ),
    "threephase": (
        ("at(ua, t=85)", 325, 325),
        ("at(ub, t=85)", -162.5, 325),
        ("at(uc, t=85)", -162.5, 325),
        ("at(ub, t=95)", 162.5, 325),
        ("at(i, t=85)", CURRENT, 30),
    ),
    "rectified": (("at(s, t=75)", 325, 325), ("at(s, t=72.5)", 325 / sqrt(2), 325), ("min(s)", 0, 325)),
    "pwm_carrier": (("at(tri, t=59.5)", 1, 1), ("at(tri, t=59.25)", 0, 1), ("at(ref, t=45)", 0.9, 1)),
    "pwm_duty": (
        ("at(y, t=2)", 20 + 200 * (1 - exp(-0.04)), 80),
        ("at(y, t=10)", 20 + 200 * (1 - exp(-0.2)), 80),
        ("at(y, t=400)", 80, 80),
        ("mean(h, from=380, to=400)", 0.3, 1),
    ),
    "limiter": (
        ("at(y, t=1)", 10 * sin(pi / 10), 10),
        ("at(y, t=5)", 6, 10),
        ("at(y, t=15)", -6, 10),
        ("at(y, t=49)", 10 * sin(pi * 4.9), 10),
    ),
    "sample_hold": (("at(held, t=2.5)", 8 * exp(-0.5), 8), ("at(held, t=9.9)", 8 * exp(-2.25), 8)),
}
# The run of this model has too many ticks for the program that computes tick by tick.
LONG = ("pwm_carrier",)


def model_of(name):
    return os.path.join(IDIOMS, name + ".mo")


def text_of(path):
    with open(path, encoding="utf-8") as file:
        return file.read()


class Idioms(unittest.TestCase):
    def test_the_texts_of_the_page_are_parts_of_the_models(self):
        texts = [text_of(model_of(name)) for name in VALUES]
        blocks = BLOCK.findall(text_of(PAGE))
        self.assertGreaterEqual(len(blocks), len(VALUES))
        for block in blocks:
            self.assertTrue(any(block in text for text in texts), block)

    def test_each_model_is_on_the_page_and_has_values(self):
        page = text_of(PAGE)
        names = sorted(name[: -len(".mo")] for name in os.listdir(IDIOMS) if name.endswith(".mo"))
        self.assertEqual(names, sorted(VALUES))
        for name in names:
            self.assertIn(f"[{name}.mo](../examples/idioms/{name}.mo)", page)

    def test_runs_have_the_values_that_were_computed_by_hand(self):
        for name, values in VALUES.items():
            if name in LONG and not os.path.exists(BUILT):
                continue
            with self.subTest(name):
                text = " ".join(measure for measure, _, _ in values)
                status, out, err = run("qss-measure", model_of(name), text, "--no-advice", "--program", PROGRAM)
                self.assertEqual((status, err), (0, ""))
                found = [float(line.split(")", 1)[1].split()[0]) for line in out.splitlines()]
                for (measure, wanted, size), value in zip(values, found):
                    self.assertLessEqual(abs(value - wanted), SHARE * size, (measure, value, wanted))

    def test_the_settings_of_the_models_get_no_warning(self):
        for name in VALUES:
            with self.subTest(name):
                status, out, _ = run("qss-advise", model_of(name), "--program", PROGRAM)
                self.assertEqual(status, 0, out)


if __name__ == "__main__":
    unittest.main()
