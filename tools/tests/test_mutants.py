"""The mutants of crates/*/mutants and tools/try-mutants: each can be applied, and verdicts are read as rt prints them."""
import glob
import os
import re
import stat
import unittest
from unittest import mock

from support import ROOT, InFolder, run

from qss_tools.fault import Fault
from qss_dev import edits, mutants

MOST = 30  # mutants of a crate

CODE = """// One.
fn one(a: u32) -> u32
    ensures { result ≡ a }
{
    let b = a;
    b
}

// Two.
fn two() -> u32 {
    let c = 2;
    c
}

// Three, which calls two.
fn three() -> u32 {
    let d = two();
    d
}

// Four, which calls three.
fn four() -> u32 {
    let e = three();
    e
}
"""

# A stand-in for rt. It cannot read `?`. A changed function is proved with `5`, and has a goal without a proof with `4`.
# Its answers have a missing goal with `6`, a missing field with `7`, and a type error with every other value. With `8`
# there is no verdict. A function that calls a function that is not proved is checked only with `4` and `9`.
RT = r"""#!/usr/bin/env python3
import re
import sys
text = open("src/lib.rt").read()
only = [it for it in sys.argv[2:] if it != "--only"]
if "?" in text:
    line = text[: text.index("?")].count("\n") + 1
    print("./src/lib.rt:%d:13: error: an expression is expected" % line)
    sys.exit(1)
ORIGINALS = {"one": "a", "two": "2", "three": "two()", "four": "three()"}
CALLEES = {"three": "two", "four": "three"}
SEARCHED = "no proof: expected answers in ./proofs/%s/Answers.antt; `search` did not prove `returns`"
ERRORS = {
    "6": "`returns-6`: module `Rattle.demo.proofs.%s.Goals`\n  has no `returns-6` that can be named from here",
    "7": "`returns`: record `Rattle.demo.proofs.%s.Lts.At` (nearest: .b)\n  has no field `seven`\n  the fields are `b`",
}


def value(name):
    return re.search(r"fn %s\(.*?= (.*?);" % name, text, re.DOTALL)[1]


def line(name):
    new = value(name)
    own = {ORIGINALS[name]: "proved", "5": "proved", "4": SEARCHED % name, "8": "could not tell"}.get(new, "not proved")
    if name not in CALLEES or line(CALLEES[name]) == "proved":
        return own
    own = own + "; it calls" if new in ("4", "9") else "no proof: it calls"
    return "%s `demo::%s`, which is not proved" % (own, CALLEES[name])


for it in only:
    if it:
        print("checked demo::%s, 1 of 2" % it)
        if value(it) in ERRORS:
            print("./proofs/%s/Answers.antt:3:7: error: %s" % (it, ERRORS[value(it)] % it))
for it in only:
    if it:
        print("fn demo::%s: %s" % (it, line(it)))
print("only=%d proved=%d" % (len([it for it in only if it]), 0))
"""


class Files(unittest.TestCase):
    def test_each_mutant_can_be_applied(self):
        status, out, err = run("try-mutants", "--list")
        self.assertEqual((status, err), (0, ""), out)

    def test_each_edit_of_a_specification_can_be_applied(self):
        status, out, err = run("try-mutants", "--specs", "--list")
        self.assertEqual((status, err), (0, ""), out)
        self.assertGreaterEqual(out.count("\n"), 2 + 20)

    def test_each_crate_has_few(self):
        for folder in glob.glob(os.path.join(ROOT, "crates", "*", "mutants")):
            self.assertLessEqual(len(os.listdir(folder)), MOST, folder)

    def test_no_mutant_is_a_negative_test_too(self):
        for folder in glob.glob(os.path.join(ROOT, "crates", "*", "mutants")):
            negative = os.path.join(os.path.dirname(folder), "must-fail", "*.edit")
            kept = [edits.mutant_of(it) for it in glob.glob(negative)]
            for it in glob.glob(os.path.join(folder, "*.edit")):
                one = edits.mutant_of(it)
                self.assertFalse(
                    [k for k in kept if k.name == one.name or (k.file, k.pairs) == (one.file, one.pairs)], it
                )

    def test_the_page_counts_them(self):
        found = {it: mutants.counts(ROOT, it) for it in mutants.with_mutants(ROOT, [])}
        with open(os.path.join(ROOT, "docs", "MUTANTS.md"), encoding="utf-8") as file:
            text = file.read()
        self.assertEqual(text, mutants.page_of(text, found), "tools/try-mutants --page writes the counts")
        self.assertIn("at most %d for each crate" % MOST, " ".join(text.split()))
        self.assertLessEqual(text.count("\n"), 80)

    def test_the_page_defines_each_verdict(self):
        with open(os.path.join(ROOT, "docs", "MUTANTS.md"), encoding="utf-8") as file:
            text = file.read()
        for it in (*mutants.VERDICTS, mutants.MASKED):
            self.assertIn("*%s*" % it, text)


class Names(InFolder):
    def test_a_method_is_named_by_the_module_of_its_type(self):
        os.makedirs(os.path.join(self.folder, "crates", "demo", "src"))
        self.file("crates/demo/src/shapes.rt", "/// A square.\npub(crate) struct Square {\n    pub side: u32,\n}\n")
        text = "impl Square {\n    fn area(&self) -> u32 {\n        self.side * self.side\n    }\n}\n"
        self.file("crates/demo/src/areas.rt", text)
        pairs = [("        self.side * self.side", "        self.side")]
        mutant = edits.Mutant("side", "src/areas.rt", pairs, through="", open="", theorem="")
        declared = mutants.declaring_files(self.folder, "demo")
        self.assertEqual(mutants.function_of(text, mutant, declared), "shapes::Square::area")


class Trying(InFolder):
    def setUp(self):
        super().setUp()
        os.makedirs(os.path.join(self.folder, "crates", "demo", "src"))
        os.makedirs(os.path.join(self.folder, "crates", "demo", "mutants"))
        os.makedirs(os.path.join(self.folder, "bin"))
        self.file("crates.txt", "demo:\n")
        self.file("HANDLES", "Handles allowed: none.\n")
        self.file("crates/demo/src/lib.rt", CODE)
        os.chmod(self.file("bin/rt", RT), stat.S_IRWXU)
        path = os.path.join(self.folder, "bin") + os.pathsep + os.environ["PATH"]
        patch = mock.patch.dict(os.environ, {"PATH": path})
        patch.start()
        self.addCleanup(patch.stop)

    def mutant(self, name, old, new, *more):
        lines = ["file: src/lib.rt", "old: " + old, "new: " + new, *more]
        return self.file("crates/demo/mutants/%s.edit" % name, "\n".join(lines) + "\n")

    def tried(self, *words):
        status, out, err = run("try-mutants", "--root", self.folder, *words)
        lines = [it for it in out.split("\n") if it.startswith("| ")]
        rows = [it.strip("| ").split(" | ") for it in lines[1:]]
        return status, {row[2]: row[3] for row in rows}, err

    def test_verdicts(self):
        self.mutant("changed", "let b = a;", "let b = 0;")
        self.mutant("changed_twice", "let b = a;", "let b = 1;")
        self.mutant("stays_proved", "let c = 2;", "let c = 5;")
        self.mutant("unread", "let c = 2;", "let c = ?;")
        self.mutant("gone", "let d = 2;", "let d = 3;")
        self.mutant("of_no_function", "// Two.", "// Three.")
        status, verdicts, err = self.tried("demo")
        self.assertEqual(
            (status, verdicts),
            (
                1,
                {
                    "changed": "refused",
                    "changed_twice": "refused",
                    "gone": "not applied (stated: refused)",
                    "of_no_function": "not applied (stated: refused)",
                    "stays_proved": "let through (stated: refused)",
                    "unread": "does not read (stated: refused)",
                },
            ),
        )
        self.assertEqual(len(re.findall("round", err)), 2, err)

    def test_masked_mutants_are_tried_again(self):
        self.mutant("callee", "let c = 2;", "let c = 0;")
        self.mutant("caller", "let d = two();", "let d = 5;", "through: 5 is as good as two()")
        self.mutant("caller_of_the_caller", "let e = three();", "let e = 0;")
        status, verdicts, err = self.tried("demo")
        wanted = {
            "callee": "refused",
            "caller": "let through: 5 is as good as two()",
            "caller_of_the_caller": "refused",
        }
        self.assertEqual((status, verdicts), (0, wanted))
        self.assertEqual(re.findall("round.*", err), ["round 1, 3 mutants", "round 2, 2 mutants"])
        self.assertEqual(re.findall("(\\w+): masked", err), ["caller", "caller_of_the_caller"])

    def test_a_caller_waits_for_all_mutants_of_its_callee(self):
        for it in ("0", "1", "3"):
            self.mutant("callee_" + it, "let c = 2;", "let c = %s;" % it)
        self.mutant("caller", "let d = two();", "let d = 5;")
        status, verdicts, err = self.tried("demo")
        self.assertEqual((status, verdicts["caller"]), (1, "let through (stated: refused)"))
        self.assertEqual(re.findall("round.*", err)[-1], "round 4, 1 mutants")

    def test_a_caller_with_errors_of_its_own(self):
        self.mutant("callee", "let c = 2;", "let c = 0;")
        self.mutant("type_error", "let d = two();", "let d = 9;")
        self.assertEqual(self.tried("demo")[:2], (0, {"callee": "refused", "type_error": "refused"}))
        self.assertIn("type_error: masked", self.tried("demo")[2])
        self.mutant("type_error", "let d = two();", "let d = 4;")
        status, verdicts, err = self.tried("demo")
        self.assertEqual((status, verdicts), (0, {"callee": "refused", "type_error": "refused"}))
        self.assertNotIn("masked", err)

    def test_missing_goals_are_no_refusals(self):
        self.mutant("changed", "let b = a;", "let b = 0;")
        self.mutant("goal", "let b = a;", "let b = 6;")
        self.mutant("open_goal", "let c = 2;", "let c = 6;", "open: a goal is renamed")
        self.mutant("field", "let c = 2;", "let c = 7;")
        status, out, _ = run("try-mutants", "--root", self.folder, "demo")
        self.assertEqual(status, 1)
        self.assertIn("| goal | the answer names a missing goal (stated: refused) |", out)
        self.assertIn("| open_goal | the answer names a missing goal: a goal is renamed |", out)
        self.assertIn("| field | proof names it (stated: refused) |", out)
        counted = "\n\ndemo: refused: 1, the answer names a missing goal: 2, proof names it: 1\n"
        self.assertEqual(out[-len(counted) :], counted)
        self.assertEqual(self.tried("demo", "--name", "open_goal")[0], 0)

    def test_without_a_verdict_a_mutant_is_tried_alone(self):
        self.mutant("changed", "let b = a;", "let b = 0;")
        self.mutant("nobody_knows", "let c = 2;", "let c = 8;")
        status, verdicts, err = self.tried("demo")
        self.assertEqual((status, verdicts["nobody_knows"]), (1, "no verdict (stated: refused)"))
        self.assertEqual(re.findall("round.*", err), ["round 1, 2 mutants", "round 2, 1 mutants"])

    def test_functions_that_call_each_other(self):
        planted = mutants.sorted_out(self.folder, "demo", self.one_and_two())[0]
        copy = mock.Mock(root=self.folder, crate="demo")
        said = "fn demo::one: no proof: it calls `demo::two`, which is not proved\nfn demo::two: not proved; it calls `demo::one`, which is not proved\n"
        copy.check_planted.side_effect = lambda these, only: said
        with mock.patch("sys.stderr"):
            found = mutants.try_rounds(copy, planted)
        self.assertEqual(found, {"first": "no verdict", "second": "refused"})
        self.assertEqual([len(it.args[0]) for it in copy.check_planted.call_args_list], [2, 1, 1])

    def one_and_two(self):
        first = self.mutant("first", "let b = a;", "let b = 0;")
        return [edits.mutant_of(it) for it in (first, self.mutant("second", "let c = 2;", "let c = 0;"))]

    def test_what_is_stated(self):
        self.mutant("stays_proved", "let c = 2;", "let c = 5;", "through: 5 is as good as 2")
        self.mutant("nobody_knows", "let b = a;", "let b = 0;", "open: not tried")
        status, verdicts, _ = self.tried("demo")
        self.assertEqual(
            (status, verdicts),
            (0, {"nobody_knows": "refused: not tried", "stays_proved": "let through: 5 is as good as 2"}),
        )
        self.assertEqual(self.tried("demo", "--name", "nobody_knows")[1], {"nobody_knows": "refused: not tried"})

    def test_those_that_cannot_be_applied_are_dropped(self):
        self.mutant("changed", "let b = a;", "let b = 0;")
        self.mutant("gone", "let d = 2;", "let d = 3;")
        os.makedirs(os.path.join(self.folder, "docs"))
        page = "0 further mutants\n\n|---|---|---|---|---|---|---|---|\n| old |\n\nEnd\n"
        path = self.file("docs/MUTANTS.md", page)
        self.assertEqual(self.tried("--list", "--drop")[0], 1)
        self.assertEqual(os.listdir(os.path.join(self.folder, "crates", "demo", "mutants")), ["changed.edit"])
        self.assertEqual(run("try-mutants", "--root", self.folder, "--page"), (0, "", ""))
        with open(path, encoding="utf-8") as file:
            rows = "|---|---|---|---|---|---|---|---|\n| `demo` | 1 | 0 | 0 | | | | |\n"
            self.assertEqual(file.read(), "1 further mutants\n\n" + rows + "\nEnd\n")

    def test_texts_are_read(self):
        self.mutant("changed", "let b = a;", "let b = 0;")
        self.mutant("unread", "let c = 2;", "let c = ?;")
        status, verdicts, err = self.tried("--text")
        self.assertEqual((status, verdicts), (1, {"changed": "refused", "unread": "does not read (stated: refused)"}))
        self.assertIn("src/lib.rt:11:13", err)

    def test_faults(self):
        self.assert_fault(run("try-mutants", "--root", self.folder, "other"), "other is no crate of crates.txt")
        self.file("crates/demo/mutants/odd.edit", "file: src/lib.rt\nold: a\n")
        self.assertRaises(Fault, mutants.mutants_of, self.folder, "demo")


class Verdicts(unittest.TestCase):
    """The verdict on the function `a::f`, by what rt prints."""

    def verdict(self, *lines, is_alone=False):
        return mutants.verdict("\n".join(lines) + "\n", "a::f", is_alone)

    def test_proved(self):
        self.assertEqual(self.verdict("fn q::a::f: proved"), "let through")
        self.assertEqual(self.verdict("checked q::a::f, 1 of 2", "fn q::a::g: not proved"), "let through")
        self.assertEqual(self.verdict("fn q::a::g: not proved"), "no verdict")

    def test_other_reasons_are_no_refusals(self):
        for reason in (
            "could not tell",
            "no proof: antt did not admit its contract or its `statement`: help: fix that first",
            "no proof: expected `Proof.antt` in ./proofs/a/f, since the borrow checker does not cover this function yet",
        ):
            self.assertEqual(self.verdict("fn q::a::f: " + reason), "no verdict", reason)

    def test_masked(self):
        for own in ("no proof", "not proved"):
            mark = ":" if own == "no proof" else ";"
            line = "fn q::a::f: %s%s it calls `q::a::g`, which is not proved" % (own, mark)
            self.assertEqual(self.verdict(line), "masked")
        self.assertEqual(self.verdict(line.replace("`q::a::g`, which is", "`q::a::g`, `q::h`, which are")), "masked")
        self.assertEqual(self.verdict(line, is_alone=True), "refused")
        searched = "no proof: expected answers in ./proofs/a/f/Answers.antt; `search` did not prove `returns`"
        searched = line.replace("not proved;", searched + ";")
        self.assertEqual(self.verdict(searched), "refused")
        waits = "note: `search` has not tried the goals of `q::a::f`, which wait for a callee's proof: some may be open"
        self.assertEqual(self.verdict(waits, searched), "masked")

    def test_closures_are_part_of_the_function(self):
        line = "fn q::a::f: no proof: it calls `q::a::fn::f::any`, which is not proved"
        closure = "fn q::a::fn::f::any: no proof: expected answers in ./proofs/a/fn/f/any/Answers.antt; `search` did not prove `returns`"
        self.assertEqual(self.verdict(closure, line), "refused")
        self.assertEqual(
            self.verdict("fn q::a::fn::f::any: no proof: it calls `q::g`, which is not proved", line), "masked"
        )

    def test_missing_goals(self):
        error = "./proofs/a/%s/Answers.antt:4:57: error: module `Rattle.q.proofs.a.f.Goals` has no `in-Some` that can be named"
        searched = (
            "fn q::a::f: no proof: expected answers in ./proofs/a/f/Answers.antt; `search` did not prove `returns-then`"
        )
        missing = "the answer names a missing goal"
        self.assertEqual(self.verdict(error % "f", "fn q::a::f: not proved"), missing)
        self.assertEqual(self.verdict((error % "f").replace(" has no", "\n  has no"), searched), missing)
        self.assertEqual(
            self.verdict("fn q::a::f: not proved", "help: `Goals` has no `in-Some`; rattle asks for `b`"), missing
        )
        self.assertEqual(self.verdict(error % "g", "fn q::a::f: not proved", "fn q::a::g: not proved"), "refused")
        other = (
            "fn q::a::f: not proved",
            "fn q::a::g: not proved",
            "help: `Goals` has no `in-Some`; rattle asks for `b`",
        )
        self.assertEqual(self.verdict(*other), "refused")


# A stand-in for rattle. Of the crate `low` it reads `two`; the theorem of `top` holds for an even number, and a word is
# no definition.
RATTLE = r"""#!/usr/bin/env python3
import re
import sys
words = sys.argv[1:]
path = [it for it in words if it.startswith("low:")][0].partition("=")[2]
text = open(path.replace("src/lib.rt", "specs/Two.antt")).read()
value = re.search("two = (.*)", text)[1]
theorem = words[words.index("--only") + 1]
assert "middle:core,std,low=" in " ".join(words) and words[words.index("--crate-name") + 1] == "top"
if not value.isdigit():
    print("./specs/Two.antt:1:7: error: no number")
    print("fn %s: not proved" % theorem)
elif int(value) % 2:
    print("./proofs/Even.antt:3:1: these are not equal")
    print("fn %s: no proof: its proof is not accepted" % theorem)
else:
    print("checked %s, 1 of 1" % theorem)
    print("only=1 proved=1")
"""


class Specs(InFolder):
    def setUp(self):
        super().setUp()
        for it in ("low/specs", "low/src", "low/mutants-of-specs", "middle/src", "top/src", "top/out/statements"):
            os.makedirs(os.path.join(self.folder, "crates", it))
        os.makedirs(os.path.join(self.folder, "kit", "bin"))
        self.file("crates.txt", "low:\nother:\nmiddle: low\ntop: middle other\n")
        self.file("crates/low/specs/Two.antt", "two = 2\n")
        os.chmod(self.file("kit/bin/rattle", RATTLE), stat.S_IRWXU)
        said = "#!/bin/sh\necho %s/kit/START-HERE.md\n" % self.folder
        os.chmod(self.file("kit/bin/rt", said), stat.S_IRWXU)
        path = os.path.join(self.folder, "kit", "bin") + os.pathsep + os.environ["PATH"]
        patch = mock.patch.dict(os.environ, {"PATH": path})
        patch.start()
        self.addCleanup(patch.stop)

    def edit(self, name, new, old="two = 2"):
        lines = ["file: specs/Two.antt", "theorem: top::laws::two_is_even", "old: " + old, "new: " + new]
        self.file("crates/low/mutants-of-specs/%s.edit" % name, "\n".join(lines) + "\n")

    def tried(self, *words):
        status, out, _ = run("try-mutants", "--specs", "--root", self.folder, *words)
        rows = [it.strip("| ").split(" | ") for it in out.split("\n")[2:] if it]
        return status, {row[2]: row[3] for row in rows}

    def test_verdicts(self):
        self.edit("odd", "two = 3")
        expected = {"odd": "refused at `proofs/Even.antt:3`"}
        self.assertEqual(self.tried("low"), (0, expected))
        self.edit("even", "two = 4")
        self.edit("absent", "two = 5", "three")
        self.edit("word", "two = x")
        expected["even"] = "let through (stated: refused)"
        expected["absent"] = "not applied (stated: refused)"
        expected["word"] = "does not read at `specs/Two.antt:1` (stated: refused)"
        self.assertEqual(self.tried("--at-once", "3"), (1, expected))
        self.assertEqual(self.tried("--name", "odd"), (0, {"odd": expected["odd"]}))
        listed = {**{it: "refused" for it in expected}, "absent": expected["absent"]}
        self.assertEqual(self.tried("--list"), (1, listed))

    def test_a_theorem_that_does_not_hold_before(self):
        self.file("crates/low/specs/Two.antt", "two = 7\n")
        self.edit("even", "two = 4", "two = 7")
        self.assertEqual(self.tried(), (1, {"even": "no verdict (stated: refused)"}))

    def test_each_edit_names_a_theorem(self):
        self.file("crates/low/mutants-of-specs/odd.edit", "file: specs/Two.antt\nold: 2\nnew: 3\n")
        status, _, err = run("try-mutants", "--specs", "--root", self.folder, "--list")
        self.assertEqual(status, 2)
        self.assertIn("theorem: CRATE::FUNCTION", err)


if __name__ == "__main__":
    unittest.main()
