"""Models as an engineer first writes them, in SI units: one `qss-advise --rewrite` makes them run right, or says what to mend.

With QSS_SLOW=1 all of them are compared with their solutions, which takes minutes.
"""
import os
import re
import unittest

from support import BUILT, TESTS, InFolder, run

NAIVE = os.path.join(TESTS, "naive")
MOST_SHARE = 1.0  # percent of the worst state's size
# Those that are rewritten and then right, and those of them whose solution takes no time.
RIGHT = ("butter5", "elevator", "flyback", "heatex", "motor", "observer", "pendula", "quartercar", "rc20", "traffic")
QUICK = ("butter5", "elevator", "motor", "observer", "quartercar")
# What is said of the others: what is wrong, and what to write.
SAID = {
    "hbridge": (
        "next starts at 0, so 'time >= next' holds at the start and is never false: this branch never fires",
        "write next(start = Ts): the first time at which it fires",
    ),
    "sh": (
        "next starts at 0, so 'time >= next' holds at the start and is never false: this branch never fires",
        "write next(start = 1/fs): the first time at which it fires",
    ),
}


def has_scipy():
    try:
        import scipy  # noqa: F401
    except ImportError:
        return False
    return True


@unittest.skipUnless(os.path.exists(BUILT), "the program is not built: its tests are left out")
class Naive(InFolder):
    def rewritten(self, name):
        """The model with the proposed settings."""
        path = os.path.join(self.folder, name + ".mo")
        status, out, err = run("qss-advise", os.path.join(NAIVE, name + ".mo"), "--rewrite", path)
        self.assertIn(status, (0, 1), out + err)
        return path, out

    def test_a_clock_that_never_fires_is_told_with_its_fix(self):
        for name, (sentence, fix) in SAID.items():
            with self.subTest(name):
                _, out = self.rewritten(name)
                self.assertIn("warning: " + sentence, out)
                self.assertIn(fix, out)

    def test_with_the_fix_the_clock_fires(self):
        with open(os.path.join(NAIVE, "sh.mo"), encoding="utf-8") as file:
            text = file.read().replace("next(start = 0)", "next(start = 1/fs)")
        path = self.file("sh.mo", text)
        status, out, err = run("qss-advise", path, "--rewrite", path)
        self.assertNotIn("never fires", out)
        status, out, err = run("qss-table", path, "--names", "held", "--every", "1/8", "--to", "5")
        self.assertEqual((status, err), (0, ""))
        values = [float(line.split(",")[1]) for line in out.splitlines()[1:]]
        self.assertGreater(max(values), 0.9)

    def test_a_product_that_hides_is_explained(self):
        model = os.path.join(NAIVE, "charger.mo")
        self.assert_fault(run("qss-advise", model), "refused: affine 1")
        status, out, _ = run("qss-explain", model)
        self.assertEqual(status, 1)
        self.assertIn("a product of two variables is not affine here: u holds (1 - cc)*icv", out)

    def test_the_advice_is_the_same_each_time(self):
        first, second = (self.rewritten("observer") for _ in range(2))
        self.assertEqual(first, second)

    def test_quanta_below_the_last_decimal_are_quotients(self):
        path, out = self.rewritten("butter5")
        self.assertIn("QSS_Quantum = 1/1048576", out)
        status, _, err = run("qss-table", path, "--names", "u2", "--to", "0.1", "--no-advice")
        self.assertEqual((status, err), (0, ""))

    def test_runs_are_right_after_one_rewrite(self):
        if not has_scipy():
            self.skipTest("numpy and scipy are not here")
        for name in RIGHT if os.environ.get("QSS_SLOW") == "1" else QUICK:
            with self.subTest(name):
                path, _ = self.rewritten(name)
                status, out, err = run("qss-accuracy", path)
                self.assertEqual((status, err), (0, ""))
                share = float(re.search(r"and ([\d.e+-]+) % of its size", out).group(1))
                self.assertLessEqual(share, MOST_SHARE, out)

    def test_the_others_run_after_one_rewrite(self):
        for name in ("heatex", "pendula", "rc20", "traffic"):
            with self.subTest(name):
                path, _ = self.rewritten(name)
                self.assertEqual(run("qss-explain", path), (0, "", ""))


if __name__ == "__main__":
    unittest.main()
