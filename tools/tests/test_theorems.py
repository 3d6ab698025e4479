"""docs/THEOREMS.md quotes the main theorems of qss_top and qss_guarantees, and lists each of them with its size."""
import os
import re
import unittest

from support import ROOT

from qss_dev.rattle_source import crates_of, files_of, functions
from qss_dev.reading_index import Library, roots_of

# What the page quotes of two files of definitions: all but the first line, `use` lines, and in CALLS all from END on.
CALLS, END = "qss_top.Calls", "-- ---- What `qss_main` guarantees of each call."
PROPERTIES = "qss_guarantees.Theorems"
INSTANCE = "qss_instance.DecayInstance"
LAWS = "crates/qss_guarantees/src/command_laws.rt"
TESTS = {"program_tests", "qss_tests", "transcript"}
SOURCE = "qss_top.MachineAnswers.IsSourceMachine"  # what a source denotes
MOST_LINES = 80  # of both quotations, without `use` lines and blank lines
MOST_FOR_RUN = 2200  # of the theorem on `run`
MOST_FOR_SOURCE = 1920  # of what a source denotes
MOST_FOR_CERTIFY = 650  # of the soundness of `certify`, without what a source denotes


def text_of(name):
    with open(os.path.join(ROOT, name), encoding="utf-8") as file:
        return file.read()


def definitions_of(name):
    """The text of CRATE.FILE, a file of definitions."""
    return text_of("crates/%s/specs/%s.antt" % tuple(name.split(".")))


def without_head(text):
    """The text without its first line and its `use` lines, with one blank line in place of several."""
    lines = [line for line in text.splitlines()[1:] if not line.startswith("use ")]
    return re.sub(r"\n{3,}", "\n\n", "\n".join(lines)).strip()


class Theorems(unittest.TestCase):
    def setUp(self):
        self.page = text_of("docs/THEOREMS.md")
        calls, end, _ = definitions_of(CALLS).partition(END)
        self.assertTrue(end)
        self.quoted = {CALLS: without_head(calls), PROPERTIES: without_head(definitions_of(PROPERTIES))}
        self.library = Library()

    def needed(self, name):
        """The definitions that must be read to understand this one."""
        return set(self.library.closure(roots_of(self.library, [name])))

    def lines(self, definitions):
        return sum(self.library.lines(it) for it in definitions)

    def test_quotation(self):
        quoted = re.findall(r"^```antt\n(.*?)\n```$", self.page, re.DOTALL | re.MULTILINE)
        self.assertEqual(quoted, list(self.quoted.values()))

    def test_length(self):
        lines = [line for text in self.quoted.values() for line in text.splitlines() if line]
        self.assertLessEqual(len(lines), MOST_LINES)

    def test_sizes(self):
        properties = [
            (file, name)
            for file, text in self.quoted.items()
            for name in re.findall(r"^abbrev pub (\w+) :", text, re.MULTILINE)
        ]
        source = self.needed(SOURCE)
        self.assertLessEqual(self.lines(source), MOST_FOR_SOURCE)
        for file, name in properties:
            with self.subTest(name):
                own = self.needed(f"{file}.{name}")
                lines, further = self.lines(own), self.lines(own - source)
                row = rf"^\| `\w+` \| `{name}` \| {len(own):,}, {lines:,} \| {further:,} \|$"
                self.assertEqual(len(re.findall(row, self.page, re.MULTILINE)), 1, row)
                if name == "RunPrintsRowsOfMachine":
                    self.assertLessEqual(lines, MOST_FOR_RUN)
                if name == "CertifyIsSound":
                    self.assertLessEqual(further, MOST_FOR_CERTIFY)

    def test_laws(self):
        laws = text_of(LAWS)
        for law, name in re.findall(r"^\| `(\w+)` \| `(\w+)` \| [\d,]+, ", self.page, re.MULTILINE):
            with self.subTest(law):
                if law != "qss_main":
                    self.assertRegex(laws, rf"pub fn {law}\(\)\s+ensures \{{[^}}]*\b{name}\b")


class Contracts(unittest.TestCase):
    """The page lists the functions without `ensures`."""

    def has_ensures(self, one):
        return any(clause.kind == "ensures" for clause in one.clauses)

    def test_functions_without_ensures(self):
        page = text_of("docs/THEOREMS.md")
        listed = page.partition("The functions are:\n")[2].partition("Most functions of the crates of tests")[0]
        whole = "src/long_constants.rt"  # all functions of this file have no `ensures`
        self.assertIn(f"all functions of\n  [long_constants.rt](../crates/mu_unroll/{whole})", listed)
        files = [
            (crate, *it)
            for crate in sorted(set(crates_of(ROOT)) - TESTS)
            for it in files_of(ROOT, crate, "src", ".rt").items()
        ]
        found = set()
        for crate, one in [(crate, it) for crate, file, text in files if file != whole for it in functions(file, text)]:
            if one.body is not None and not one.trait and not self.has_ensures(one):
                found |= {crate, one.name}
        of_whole = [it for _, file, text in files if file == whole for it in functions(file, text)]
        self.assertFalse(any(self.has_ensures(it) for it in of_whole))
        self.assertEqual(set(re.findall(r"`(\w+)`", listed)), found)


class Instance(unittest.TestCase):
    """The texts and rows of `decay_is_bounded` are those of the files and of the golden test."""

    def body(self, name):
        """The text of a definition of the instance."""
        return definitions_of(INSTANCE).partition(f"\n{name} =")[2].partition("\n\n")[0]

    def strings(self, name):
        return re.findall(r'codes "([^"]*)"', self.body(name))

    def test_files(self):
        self.assertEqual("".join(self.strings("decay_source")) + "\n", text_of("examples/decay.mo"))
        self.assertEqual("\n".join(self.strings("decay_certificate")) + "\n", text_of("examples/decay.cert"))

    def test_rows(self):
        rows = re.findall(r"row (\d+) (\w+) \(pos (\d+)\) \(pos (\d+)\)", self.body("decay_rows"))
        lines = [f"{tick},{kind.lower()},x,{level},{state}" for tick, kind, level, state in rows]
        printed = text_of("crates/qss/stdout").splitlines()
        self.assertEqual(lines, printed[1 : len(lines) + 1])


if __name__ == "__main__":
    unittest.main()
