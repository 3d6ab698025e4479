"""The tables of tools/gate-times, and what it saves of a command."""
import json
import os
import unittest

from support import InFolder, run

SAVED = {
    "command": ["rt", "ci"],
    "status": 0,
    "seconds": 120.0,
    "memory": 2.5e9,
    "processors": 4,
    "kept": ["b"],
    "verdicts": {"a/one": "refused"},
    "steps": [
        {"crate": "a", "kind": "proof", "edit": None, "seconds": 30.4},
        {"crate": "a", "kind": "edits", "edit": "one", "seconds": 12.0},
        {"crate": "b", "kind": "tests", "edit": None, "seconds": 5.0},
    ],
}
TABLE = """\
| crate | proof | tests | seed of its edits | edits | dearest edit | all |
|---|---|---|---|---|---|---|
| a | 30 | 0 | 0 | 12 (1) | 12 | 42 |
| b | kept | 5 | 0 | 0 | 0 | 5 |
| all | 30 | 5 | 0 | 12 (1) | | 47 |

Processor seconds of `rt ci`: 0.8 minutes in 2.0 by the clock on 4 processors, at most 2.5 GB of memory at once; \
it ended with status 0.
Kept from an earlier run, so that they cost nothing here: 1 crates.
"""
EDITS = "\n| edit | seconds | verdict |\n|---|---|---|\n| a/one | 12 | refused |\n"


class Tables(InFolder):
    def test_the_table_of_a_saved_run(self):
        path = self.file("gate.json", json.dumps(SAVED))
        self.assertEqual(run("gate-times", "--from", path), (0, TABLE, ""))
        self.assertEqual(run("gate-times", "--edits", "--from", path), (0, TABLE + EDITS, ""))

    def test_a_command(self):
        path = os.path.join(self.folder, "gate.json")
        lines = "rt: must-fail a/one.edit: NOT REFUSED\nrt: must-fail a/one.edit: refused\nrt: b is kept: no change\n"
        words = ["sh", "-c", "printf '%s' \"$1\"; exit 3", "sh", lines]
        status, out, err = run("gate-times", "--save", path, *words)
        self.assertEqual((status, err), (3, ""))
        self.assertTrue(out.startswith(lines + "\n| crate |"), out)
        with open(path, encoding="utf-8") as file:
            saved = json.load(file)
        found = [saved[key] for key in ("command", "status", "kept", "verdicts")]
        self.assertEqual(found, [words, 3, ["b"], {"a/one": "refused"}])

    def test_faults(self):
        self.assert_fault(run("gate-times"), "give a command")
        self.assert_fault(run("gate-times", "--from", os.path.join(self.folder, "none")), "none: there is no such file")
        self.assert_fault(run("gate-times", "--from", self.file("x", "{}")), "not a file that --save wrote")


if __name__ == "__main__":
    unittest.main()
