"""The tables of docs/READING.md are those that tools/reading-index counts, and what is read first stays short."""
import os
import re
import unittest

from support import ROOT, run

MOST_LINES = 450  # of the trajectory, the inequalities and the promise

# the definitions that the second part of the page counts
MEANING = [
    "mu_lexer.Tokens.AreTokens",
    "mu_grammar.ModelGrammar.SpellsModel",
    "mu_names.Roles.model_faults",
    "mu_names.Roles.scope_of",
    "mu_unroll.Unrolling.unrolled",
    "mu_unroll.Listing.listed",
    "mu_causal.Causality.IsOrder",
    "mu_affine.KeptForms.AreForms",
    "mu_affine.RoundedMachines.IsMachineOf",
    "qss_compile.Compilation.CompilesTo",
]


class Reading(unittest.TestCase):
    def setUp(self):
        with open(os.path.join(ROOT, "docs", "READING.md"), encoding="utf-8") as file:
            self.lines = file.read().splitlines()

    def rows(self, *words):
        status, out, err = run("reading-index", *words)
        self.assertEqual((status, err), (0, ""))
        return out.splitlines()

    def test_what_is_read_first(self):
        rows = self.rows("--page")
        for row in rows:
            self.assertTrue(row in self.lines, row)
        sums = [row for row in rows if row.startswith("| **trajectory, inequalities and promise**")]
        self.assertEqual(len(sums), 1)
        self.assertLessEqual(int(re.search(r"\*\*(\d+)\*\* \|$", sums[0])[1]), MOST_LINES)

    def test_how_contracts_see_the_code(self):
        for row in self.rows("--split"):
            self.assertTrue(row in self.lines, row)

    def test_what_a_source_means(self):
        for path in MEANING:
            with self.subTest(path):
                counts = re.findall(r"\*\*(\d+)\*\*", self.rows(path)[-1])
                name = path.rsplit(".", 1)[1]
                row = rf"\| `{name}`(, all of it)? \| {counts[0]} \| {counts[1]} \|"
                self.assertEqual(len([line for line in self.lines if re.fullmatch(row, line)]), 1)


if __name__ == "__main__":
    unittest.main()
