"""The sizes of statements on THEOREMS and READING are those that tools/reading-index counts."""
import os
import re
import unittest

from support import ROOT, run

# What the drawing of THEOREMS and the table of READING count, by the word that begins or names the row.
THEOREMS = {
    "sessions_have_properties": ["qss_guarantees.CallProperties.SessionsHaveProperties"],
    "printed_runs_are_near_solution": ["qss_guarantees.RunAndCertificate.PrintedRunsAreNearSolution"],
    "IsTrueToReads": ["qss_top.Calls.IsTrueToReads"],
    "runs_are_accepted": ["qss_guarantees.TraceLaws.RunsAreAccepted"],
    "compared_runs_are_within_bound": ["qss_guarantees.TraceLaws.ComparedRunsAreWithinBound"],
    "bounds_hold": ["qss_answers.AcceptedBounds.IsSoundCertification"],
    "certificates_are_sound": ["cert_check.Bounds.CertificatesAreSound"],
}
DRAWN = {
    "command_of": ["qss_cli.Commands.command_of"],
    "AreTokens": ["mu_lexer.Tokens.AreTokens"],
    "SpellsModel": ["mu_grammar.ModelGrammar.SpellsModel"],
    "scope_of": ["mu_names.Roles.scope_of"],
    "unrolled": ["mu_unroll.Unrolling.unrolled"],
    "IsOrder": ["mu_causal.Causality.IsOrder"],
    "AreForms": ["mu_affine.KeptForms.AreForms"],
    "IsMachineOf": ["mu_affine.RoundedMachines.IsMachineOf"],
    "CompilesTo": ["qss_compile.Compilation.CompilesTo"],
    "run_by": [
        "qss_machine.Runs.run_by",
        "qss_machine.Runs.run_rows",
        "qss_events.RunTexts.run_by_rule",
        "qss_events.RunTexts.run_text",
    ],
    "second_order_run": ["qss_order2.SecondRunTexts.second_order_run", "qss_order2.SecondRunTexts.second_run_text"],
    "Holds": THEOREMS["bounds_hold"],
    "IsLegitimate": THEOREMS["runs_are_accepted"],
}

SUMS = {
    "run_prints_rows_of_machine": ["qss_guarantees.Theorems.RunPrintsRowsOfMachine"],
    "sessions_have_properties": THEOREMS["sessions_have_properties"],
    "printed_runs_are_near_solution": THEOREMS["printed_runs_are_near_solution"],
}
PARTS = {
    "what a source denotes": ["qss_top.MachineAnswers.IsSourceMachine"],
    "command line": DRAWN["command_of"],
    "trajectory and its text": DRAWN["run_by"],
    "the bounds between runs": ["cert_check.Bounds.BoundsAreGuaranteed", "cert_check.Bounds.CoversOwnRuns"],
    "`Holds`": ["cert_check.Inequalities.Holds"],
    "`IsLegitimate`": ["qss_machine.Legitimate.IsLegitimate"],
}


def lines_of(name):
    with open(os.path.join(ROOT, name), encoding="utf-8") as file:
        return file.read().splitlines()


class Sizes(unittest.TestCase):
    def size(self, definitions):
        """Definitions and lines, as the pages write them."""
        status, out, err = run("reading-index", *definitions)
        self.assertEqual((status, err), (0, ""))
        return "%s, %s" % tuple("{:,}".format(int(it)) for it in re.findall(r"\*\*(\d+)\*\*", out))

    def test_theorems_of_reading(self):
        rows = lines_of("docs/READING.md")
        for name, definitions in THEOREMS.items():
            with self.subTest(name):
                found = [row for row in rows if re.match(r"\| `%s`.*\| [\d,]+, [\d,]+ \|" % name, row)]
                self.assertEqual(len(found), 1)
                self.assertEqual(found[0].split(" | ")[1], self.size(definitions))

    def test_sum_of_theorems(self):
        """The numbers of lines in the item 'What must be read to believe it'."""
        (item,) = re.findall(
            r"What must be read to believe it\.\*\*(.*?)\n\n", "\n".join(lines_of("docs/THEOREMS.md")), re.S
        )
        for name, definitions in SUMS.items():
            with self.subTest(name):
                self.assertIn(self.size(definitions).rpartition(" ")[2], item)
                self.assertIn("`%s`" % name, item)

    def test_parts_of_reading(self):
        """The last column of the table of theorems: the number of lines of each part."""
        rows = "\n".join(row for row in lines_of("docs/READING.md") if re.match(r"\| `\w+`.*\| [\d,]+, [\d,]+ \|", row))
        for part, definitions in PARTS.items():
            with self.subTest(part):
                found = set(re.findall(r"%s ([\d,]*\d)" % re.escape(part), rows))
                self.assertEqual(found, {self.size(definitions).rpartition(" ")[2]})

    def test_drawing_of_theorems(self):
        rows = [row for row in lines_of("docs/THEOREMS.md") if re.search(r"  [\d,]+, [\d,]+$", row)]
        self.assertEqual(len(rows), len(DRAWN))
        for name, definitions in DRAWN.items():
            with self.subTest(name):
                found = [row for row in rows if re.search(r"\b%s\b" % name, row)]
                self.assertEqual(len(found), 1)
                self.assertTrue(found[0].endswith("  " + self.size(definitions)), found[0])


if __name__ == "__main__":
    unittest.main()
