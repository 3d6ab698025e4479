"""README: its model is a file, its picture is drawn by its command, and its length."""
import os
import re
import unittest

from support import ROOT


def text_of(*names):
    with open(os.path.join(ROOT, *names), encoding="utf-8") as file:
        return file.read()


class Readme(unittest.TestCase):
    def setUp(self):
        self.page = text_of("README.md")

    def test_its_model_is_the_file_that_it_names(self):
        (model,) = re.findall(r"```modelica\n(.*?)```", self.page, re.DOTALL)
        self.assertEqual(model, text_of("docs", "tutorial", "converter.mo"))
        self.assertLessEqual(model.count("\n"), 12)

    def test_its_picture_is_drawn_by_its_command(self):
        (picture,) = re.findall(r"!\[[^]]+\]\(docs/figures/(\w+\.svg)\)", self.page)
        self.assertIn("-o tour/%s\n" % picture, self.page)
        self.assertTrue(os.path.isfile(os.path.join(ROOT, "docs", "figures", picture)))

    def test_its_order(self):
        headings = re.findall(r"^## (.*)$", self.page, re.MULTILINE)
        wanted = ["Why, and why not", "Three commands", "A tour of two minutes", "What is proved", "Where to read on"]
        self.assertEqual(headings, [*wanted, "Installation"])
        self.assertLess(self.page.index("docs/figures/"), self.page.index("```modelica"))
        self.assertLess(self.page.index("```modelica"), self.page.index("```console"))

    def test_no_command_of_a_page_is_left_out(self):
        """A line with a command is in a console block, which tools/run-tutorial runs."""
        blocks = "".join(re.findall(r"```console\n.*?```", self.page, re.DOTALL))
        commands = re.findall(r"^\$ .*$", self.page, re.MULTILINE)
        self.assertGreaterEqual(len(commands), 6)
        self.assertEqual([line for line in commands if line not in blocks], [])


if __name__ == "__main__":
    unittest.main()
