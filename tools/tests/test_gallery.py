"""The gallery: each example has its head comment, its figure and its place on the page."""
import os
import re
import unittest

from support import ROOT

EXAMPLES = os.path.join(ROOT, "examples")
MOST_BYTES = 60000  # of a figure


class Gallery(unittest.TestCase):
    def test_each_example_is_whole(self):
        with open(os.path.join(EXAMPLES, "README.md"), encoding="utf-8") as file:
            page = file.read()
        names = re.findall(r"^### .*\[(\w+)\.mo\]\(\1\.mo\)$", page, re.MULTILINE)
        self.assertGreaterEqual(len(names), 25)
        for name in names:
            with self.subTest(name):
                with open(os.path.join(EXAMPLES, name + ".mo"), encoding="utf-8") as file:
                    head = re.match(r"(?://[^\n]*\n)+", file.read()).group()
                for part in ("// Units: ", "// Look at ", "// Plot: tools/qss-plot examples/%s.mo " % name):
                    self.assertIn(part, head)
                self.assertIn("(figures/%s.svg)" % name, page)
                self.assertLess(os.path.getsize(os.path.join(EXAMPLES, "figures", name + ".svg")), MOST_BYTES)

    def test_certified_bands_are_drawn(self):
        with open(os.path.join(EXAMPLES, "README.md"), encoding="utf-8") as file:
            page = file.read()
        command = r"^tools/qss-plot (\S+)\.mo .*--certificate \1\.cert .*\n```\n\n!\[.*\]\(figures/(\w+)_band\.svg\)$"
        found = [name for path, name in re.findall(command, page, re.MULTILINE) if os.path.basename(path) == name]
        self.assertEqual(sorted(found), ["average", "ladder", "motor", "rlc"])
        for name in found:
            with open(os.path.join(EXAMPLES, "figures", name + "_band.svg"), encoding="utf-8") as file:
                self.assertIn("the solution lies here (proved)", file.read())

    def test_pages_name_files_that_are_there(self):
        for page in ("examples/README.md", "docs/TUTORIAL.md", "docs/MODELLING.md", "docs/ACCURACY.md"):
            with open(os.path.join(ROOT, page), encoding="utf-8") as file:
                targets = re.findall(r"\]\(([^)#:]+)\)", file.read())
            for target in targets:
                with self.subTest(page=page, target=target):
                    self.assertTrue(os.path.exists(os.path.join(ROOT, os.path.dirname(page), target)))


if __name__ == "__main__":
    unittest.main()
