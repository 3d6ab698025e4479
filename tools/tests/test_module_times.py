"""Where the time of a proof goes: modules are given to functions and kinds, and tables have their sums."""
import os
import unittest
from types import SimpleNamespace

from support import InFolder, run

from qss_dev import module_times
from qss_dev.crates import Crates
from qss_dev.module_times import Times, spent_at, times_of
from qss_tools.fault import Fault

# A proof with a pause of 4 s from the time 12 on, in which another process had the processor.
LOOKS = [(10.0, 0.0), (12.0, 2.0), (16.0, 2.0), (26.0, 12.0)]
SAVES = [
    (11.0, "Rattle-one"),
    (11.5, "Rattle-one-specs.Rows"),
    (12.0, "Rattle-one-proofs.Words"),
    (17.0, "Rattle-one-proofs.rows.put_row.Code"),
    (19.0, "Rattle-one-proofs.rows.put_row.Lts"),
    (19.5, "Rattle-one-proofs.rows.put_row.Lts.View"),
    (20.0, "Rattle-one-proofs.rows.put_row.Kept.Facts"),
    (20.5, "Rattle-one-proofs.rows.put_row.Answers"),
    (23.5, "Rattle-one-proofs.rows.put_row.Proof"),
    (24.0, "Rattle-one-proofs.rows.Row.clear.Lts"),
    (24.5, "Rattle-one-proofs.rows.Row.TheLaws"),
    (25.0, "Rattle-one.specs.contracts.rows.put_row"),
]
FILES = [("Words",), ("rows", "put_row", "Answers"), ("rows", "put_row", "Kept", "Facts")]
FUNCTIONS = """\
| function of one | processor seconds | generated paths | search | answers | lemma files | other generated |
|---|---|---|---|---|---|---|
| `rows::put_row` | 7.5 | 2.5 | 3.0 | 0.5 | 0.5 | 1.0 |
| all 2 | 8.0 | 3.0 | 3.0 | 0.5 | 0.5 | 1.0 |

| lemma file of one | processor seconds |
|---|---|
| `Words` | 0.5 |
| all 1 | 0.5 |

Loading, contracts, definitions and types: 3.5 s. The whole proof: 12.0 s.
"""
CRATES = """\
| crate | functions | processor seconds | generated paths | search | answers | lemma files | other generated | \
loading and the rest | memory (GB) | slowest module |
|---|---|---|---|---|---|---|---|---|---|---|
| one | 2 | 12.0 | 3.0 | 3.0 | 0.5 | 1.0 | 1.0 | 3.5 | 2.5 | `rows::put_row (Proof)` 3.0 |
| two | 0 | 2.0 | 0.0 | 0.0 | 0.0 | 0.0 | 0.0 | 2.0 | 0.0 |  |
| all 2 | 2 | 14.0 | 3.0 | 3.0 | 0.5 | 1.0 | 1.0 | 5.5 | 2.5 | |
"""


class Modules(unittest.TestCase):
    def setUp(self):
        self.times = times_of("one", SAVES, LOOKS, FILES)

    def test_processor_time(self):
        times = (9, 10, 11, 12, 14, 16, 21, 26, 30)
        self.assertEqual([spent_at(LOOKS, it) for it in times], [0, 0, 1, 2, 2, 2, 7, 12, 12])

    def test_functions_and_kinds(self):
        self.assertEqual(list(self.times.functions), ["rows::put_row", "rows::Row::clear"])
        found = self.times.functions["rows::put_row"]
        self.assertEqual([found[kind] for kind in module_times.KINDS], [2.5, 3, 0.5, 0.5, 1])
        self.assertEqual(self.times.functions["rows::Row::clear"]["generated paths"], 0.5)
        self.assertEqual(self.times.lemmas, {"Words": 0.5})
        self.assertEqual(self.times.slowest, (3, "rows::put_row (Proof)"))
        self.assertEqual((self.times.seconds, self.times.rest), (12, 3.5))

    def test_tables(self):
        self.assertEqual("\n".join(module_times.table_of_functions(self.times, 1)) + "\n", FUNCTIONS)
        self.times.memory = 2_500_000_000
        every = [Times("two", 2.0, rest=2.0), self.times]
        self.assertEqual("\n".join(module_times.table_of_crates(every)) + "\n", CRATES)


class Saved(InFolder):
    def test_saved_modules_are_in_their_order(self):
        os.makedirs(os.path.join(self.folder, "inner"))
        for name, when in (("inner/b.oantt", 3), ("a.oantt", 5), ("c.decls.oantt", 1), ("d.txt", 2)):
            os.utime(self.file(name, ""), (when, when))
        self.assertEqual(module_times.saves_in(self.folder), [(3, "b"), (5, "a")])

    def test_lemma_files(self):
        os.makedirs(os.path.join(self.folder, "rows", "put_row"))
        for name in ("Words.antt", "rows/put_row/Answers.antt", "rows/notes.md"):
            self.file(name, "")
        self.assertEqual(sorted(module_times.lemma_files(self.folder)), [("Words",), ("rows", "put_row", "Answers")])


RATTLE = """#!/bin/sh
echo "$*" > "$(dirname "$0")/words"
while [ "$1" != --incremental ]; do shift; done
[ -e "$(dirname "$0")/fails" ] && { echo "src/lib.rt:1:1: error"; exit 1; }
: > "$2/Rattle-high-proofs.rows.put_row.Lts.oantt"
: > "$2/Rattle-high-proofs.Words.oantt"
"""


class Measured(InFolder):
    """A crate is checked by a stand-in for the prover, over the statements of the crate below it."""

    def setUp(self):
        super().setUp()
        for name in ("low", "high"):
            os.makedirs(os.path.join(self.folder, "crates", name, "src"))
            self.file(f"crates/{name}/src/lib.rt", "")
        os.makedirs(os.path.join(self.folder, "crates", "high", "proofs"))
        self.file("crates/high/proofs/Words.antt", "")
        os.makedirs(os.path.join(self.folder, "kit", "bin"))
        os.chmod(self.file("kit/bin/rattle", RATTLE), 0o755)
        self.file("crates.txt", "low:\nhigh: low\nqss: high\n")
        self.crates = Crates(self.folder, SimpleNamespace(folder=os.path.join(self.folder, "kit"), version="a kit"))

    def build_low(self):
        """Leaves statements of the low crate, as a build does."""
        os.makedirs(self.crates.built("low"))
        self.crates.note("low", self.crates.stamp("low", {}))

    def test_a_crate(self):
        self.build_low()
        module_times.check_below(self.crates, "high")
        times = module_times.measure(self.crates, "high")
        self.assertEqual((list(times.functions), list(times.lemmas)), (["rows::put_row"], ["Words"]))
        with open(os.path.join(self.folder, "kit", "bin", "words"), encoding="utf-8") as file:
            words = file.read().split()
        self.assertEqual(words[:4], ["check", "--crate-name", "high", "src/lib.rt"])
        self.assertIn("low=" + self.crates.built("low"), words)
        self.assertEqual(words[words.index("--jobs") + 1], "1")
        self.assertNotIn("-o", words)

    def test_what_is_not_built_or_not_proved(self):
        with self.assertRaises(Fault) as caught:
            module_times.check_below(self.crates, "high")
        wanted = "the statements of low, below high, are not built from these sources: ./prove builds them"
        self.assertEqual(str(caught.exception), wanted)
        self.build_low()
        self.file("crates/low/src/lib.rt", "//\n")
        with self.assertRaises(Fault):
            module_times.check_below(self.crates, "high")
        with self.assertRaises(Fault) as caught:
            module_times.check_below(self.crates, "none")
        self.assertEqual(str(caught.exception), "crates/none is no crate here")
        self.file("kit/bin/fails", "")
        with self.assertRaises(Fault) as caught:
            module_times.measure(self.crates, "high")
        self.assertEqual(caught.exception.lines, ["src/lib.rt:1:1: error"])


class Faults(unittest.TestCase):
    def test_one_way_at_a_time(self):
        for words in (
            ["--functions", "mu_num", "rt", "ci"],
            ["--crates", "--from", "x"],
            ["--crates", "--at-once", "0"],
        ):
            status, out, err = run("gate-times", *words)
            self.assertEqual((status, out), (2, ""))
            self.assertIn("give a command", err)


if __name__ == "__main__":
    unittest.main()
