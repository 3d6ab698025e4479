"""docs/INDEX.md is the page that tools/make-index writes, and has every crate and every file of definitions."""
import glob
import os
import re
import unittest

from support import ROOT, run


class Index(unittest.TestCase):
    def setUp(self):
        with open(os.path.join(ROOT, "docs", "INDEX.md"), encoding="utf-8") as file:
            self.page = file.read()

    def test_the_page_is_current(self):
        self.assertEqual(run("make-index", "--check"), (0, "", ""))

    def test_every_crate_has_a_row(self):
        crates = sorted(os.path.basename(path) for path in glob.glob(os.path.join(ROOT, "crates", "*")))
        rows = re.findall(r"^\| `([a-z_0-9]+)` \| \S.*\|.*\|$", self.page, re.MULTILINE)
        self.assertEqual(sorted(rows), crates)

    def test_every_file_of_definitions_has_a_row(self):
        files = {
            "%s/specs/%s" % (path.split(os.sep)[-3], os.path.basename(path))
            for path in glob.glob(os.path.join(ROOT, "crates", "*", "specs", "*.antt"))
            if os.path.basename(path) != "Lib.antt"
        }
        rows = re.findall(r"^\| \[\w+\]\(\.\./crates/([^)]*)\) \| \S.* \|$", self.page, re.MULTILINE)
        self.assertEqual(len(rows), len(set(rows)))
        self.assertEqual(set(rows), files)

    def test_dependencies_are_those_that_no_other_one_implies(self):
        below = dict(re.findall(r"^\| `([a-z_0-9]+)` \| \S.*\| ([a-z_0-9 ]*) \|$", self.page, re.MULTILINE))
        self.assertEqual(below["mu_parser"], "mu_grammar")
        self.assertEqual(below["qss"], "qss_top")
        self.assertEqual(below["qss_components"], "qss_events")
        self.assertEqual(below["qss_machine"], "mu_io mu_num")


if __name__ == "__main__":
    unittest.main()
