"""The measures of tools/house-rules: no number is above its limit, and each measure finds what it is to find."""
import os
import unittest

from support import InFolder, run

from qss_dev import equal_bodies, file_heads, file_names, house_rules
from qss_dev.rattle_source import functions, masked

CODE = """//! A crate.
#![tactic(auto)]

// Adds, with a comment of its own: fn wrong(
pub fn sum<F: Fn(u32, u32) -> u32>(f: F, pair: (u32, u32), rest: &[(u32, u8)]) -> u32
    requires few { length rest.now ≤ 8 }
    requires { IsSmall pair.0 }
    ensures total { result
        ≡ total pair }
{
    for it in rest {
        if it.0 > 1 {
            match it.1 {
                0 => {}
                _ => while it.1 > 0 {},
            }
        }
    }
    let pair = Pair { left: '{', right: "}" };
    f(pair)
}

impl<T: Copy> Shape for Square<T> {
    fn area(&self) -> u32 {
        self.side
    }
}

impl Square {
    fn side(&self) -> u32
        ensures { result ≡ self.now.side }
    {
        self.side
    }
}

trait Shape {
    // The area.
    fn area(&self) -> u32
        ensures { result ≡ 1 };
}
"""


class Sources(unittest.TestCase):
    def setUp(self):
        self.functions = functions("src/a/shapes.rt", CODE)

    def test_paths(self):
        self.assertEqual(
            [it.path for it in self.functions],
            ["a::shapes::sum", "a::shapes::SquareShape::area", "a::shapes::Square::side", "a::shapes::Shape::area"],
        )

    def test_parameters(self):
        self.assertEqual([len(it.parameters) for it in self.functions], [3, 1, 1, 1])
        self.assertEqual(self.functions[0].parameters[2], "rest: &[(u32, u8)]")

    def test_clauses(self):
        self.assertEqual(
            self.functions[0].clauses,
            [
                ("requires", "few", "length rest.now ≤ 8"),
                ("requires", "", "IsSmall pair.0"),
                ("ensures", "total", "result ≡ total pair"),
            ],
        )

    def test_bodies(self):
        self.assertEqual([house_rules.body_lines(it) for it in self.functions], [10, 1, 1, 0])
        self.assertEqual([house_rules.nesting(it.body) for it in self.functions], [4, 0, 0, 0])
        self.assertIsNone(self.functions[3].body)

    def test_comments(self):
        self.assertEqual([it.is_commented for it in self.functions], [True, False, False, True])


class Measures(InFolder):
    def setUp(self):
        super().setUp()
        for path, text in {
            "crates/qss_top/src/lib.rt": CODE,
            "crates/qss_top/proofs/Lib.antt": "pub mod Cited\npub mod Alone\nmod Own\n",
            "crates/other/src/lib.rt": "// One.\nfn one() {}\n",
            "crates/other/proofs/Lib.antt": "use Rattle.qss_top.proofs.Cited.{a}\n" + "-- " + 98 * "x" + "\n",
            "crates/other/proofs/Common.antt": "-- use no.\npub use std.{\n  a,\n}\nunfoldable pub use std.{b}\nmod A\n",
        }.items():
            os.makedirs(os.path.dirname(os.path.join(self.folder, path)), exist_ok=True)
            self.file(path, text)
        self.found = {it.name: it for it in house_rules.measures(house_rules.Sources(self.folder))}

    def past(self, name):
        return [where for _, where in self.found[name].past()]

    def test_what_is_past_a_rule(self):
        self.assertEqual(
            self.past("public lemma files that no other crate cites"), ["crates/qss_top/proofs/Alone.antt"]
        )
        self.assertEqual(self.past("columns of a line of proofs/"), ["crates/other/proofs/Lib.antt:2"])
        self.assertEqual(self.past("blocks inside each other"), ["crates/qss_top/src/lib.rt:5 sum"])
        self.assertEqual(self.past("functions without a comment"), ["crates/qss_top/src/lib.rt:30 side"])

    def test_numbers_of_all_proofs(self):
        self.assertEqual(self.found["lines of proofs"].greatest(), (11, "crates/*/proofs"))
        self.assertEqual(self.found["import lines of proofs"].greatest(), (5, "crates/*/proofs"))

    def test_a_number_above_its_limit_is_status_1(self):
        status, out, err = run("house-rules", "--root", self.folder)
        self.assertEqual((status, err), (1, ""))
        self.assertIn("| blocks inside each other | 3 | 1 | 0 | 4 | 3 | crates/qss_top/src/lib.rt:5 sum **above", out)

    def test_no_crate(self):
        self.assert_fault(run("house-rules", "--root", os.path.join(self.folder, "crates")), "no crate with a function")


STACKED = """//! Reads a certificate from its text.
//! The expected record at each line of a certificate's text.

fn one() {}
"""
FILLED = """//! Reads a trace from its text, record by record. Each record must have its keyword, its count of
//! fields, and numbers within their limits.

fn one() {}
"""
ROOT_HEAD = """//! Shapes.
//! Main items: `shapes::area`, and the type `shapes::Square` with its
//! methods.
//! Depends on no other crate.
"""
LATE = """//! Shapes.

fn sum() {}

impl Square {
    fn side(&self) {}
}

/// A type in a comment: struct Round
pub struct Square;

impl Drop for Square {}

impl Square {}
"""


class Heads(unittest.TestCase):
    """The heads of files, and the order of their items."""

    def test_captions_of_several_files(self):
        self.assertTrue(file_heads.is_stacked("src/parser.rt", STACKED))
        self.assertTrue(file_heads.is_stacked("src/parser.rt", "//! " + "\n//! ".join(9 * [96 * "x"]) + "\n"))

    def test_a_paragraph(self):
        self.assertFalse(file_heads.is_stacked("src/parser.rt", FILLED))
        self.assertFalse(file_heads.is_stacked("src/parser.rt", "//! One line.\n"))

    def test_a_root_file_has_three_parts(self):
        self.assertFalse(file_heads.is_stacked("src/lib.rt", ROOT_HEAD))
        self.assertTrue(file_heads.is_stacked("src/lib.rt", ROOT_HEAD + "//! It is old.\n"))
        self.assertTrue(file_heads.is_stacked("src/shapes.rt", ROOT_HEAD))

    def test_a_comment_of_another_form_is_no_head(self):
        self.assertEqual(file_heads.head_of("// A crate.\n\nfn one() {}\n"), [])
        self.assertEqual(file_heads.head_of(ROOT_HEAD)[0], "Shapes.")

    def test_names_of_root_heads(self):
        found = {"src/lib.rt": ROOT_HEAD, "src/shapes.rt": "pub struct Square;\n\npub fn areas() {}\n"}
        self.assertEqual(file_heads.missing_names({"plane": found}), ["crates/plane/src/lib.rt: shapes::area"])

    def test_every_name_of_a_root_head_exists(self):
        self.assertEqual(file_heads.missing_names(house_rules.Sources(house_rules.ROOT).code), [])

    def test_types_after_functions(self):
        code = masked(LATE)
        self.assertEqual(file_heads.late_types(code), 1)
        self.assertEqual(file_heads.late_types(masked(LATE.replace("fn sum() {}\n", ""))), 0)
        self.assertEqual(list(file_heads.own_impls(code)), [("impl Square", 2)])


class Repeats(InFolder):
    """tools/clause-repeats counts functions, not clauses."""

    def setUp(self):
        super().setUp()
        for path, text in {
            "crates/qss_top/src/lib.rt": CODE,
            "crates/qss_answers/src/lib.rt": "fn one()\n    requires { IsSmall pair.0 }\n    ensures left { IsSmall pair.0 }\n{\n}\n",
            "crates/qss_guarantees/src/lib.rt": "fn none() {}\n",
            "crates/other/src/lib.rt": "fn two()\n    requires { IsSmall pair.0 }\n{\n}\n",
        }.items():
            os.makedirs(os.path.dirname(os.path.join(self.folder, path)), exist_ok=True)
            self.file(path, text)

    def listed(self, *words):
        status, out, err = run("clause-repeats", "--root", self.folder, *words)
        self.assertEqual(err, "")
        return status, out.split("\n")[:-1]

    def test_five_functions_may_have_a_text(self):
        self.assertEqual(self.listed(), (0, []))

    def test_texts_of_more_functions(self):
        self.assertEqual(self.listed("--more-than", "1"), (1, ["2 IsSmall pair.0"]))
        self.assertEqual(
            self.listed("--more-than", "1", "--functions"),
            (1, ["2 IsSmall pair.0", "  crates/qss_answers/src/lib.rt:1 one", "  crates/qss_top/src/lib.rt:5 sum"]),
        )

    def test_other_crates(self):
        self.assertEqual(self.listed("other", "--more-than", "0"), (1, ["1 IsSmall pair.0"]))
        self.assert_fault(run("clause-repeats", "--root", self.folder, "none"), "none: no crate of")


class Names(unittest.TestCase):
    def test_names_of_files(self):
        self.assertTrue(file_names.contains_name("schedule_event_step_risen", "event_steps"))
        self.assertTrue(file_names.contains_name("dependency_graph_of", "dependency_graph"))
        self.assertFalse(file_names.contains_name("schedule_step_event", "event_steps"))
        self.assertFalse(file_names.contains_name("parse_title", "parse"))
        self.assertFalse(file_names.repeats_file("mu_num", "times_power_of_two", "src/powers_of_two.rt"))

    def test_imports_of_definitions(self):
        text = "ghost use A.{a};\nuse b;\n    ghost use C.{c,\n    d};\n"
        self.assertEqual(file_names.ghost_uses(text), 2)

    def test_literal_limits(self):
        self.assertEqual(len(file_names.literal_limits("requires { IsWithin 43 x × n ≤ 4096 }")), 2)
        self.assertEqual(file_names.literal_limits("ensures { result ≡ repeated 4096 (IsWithin 44 x) }"), [])


BODIES = """fn sum(all: &[u32]) -> u32 {
    let mut sum = 0;
    for one in all {
        // The next one.
        sum = sum + 2 * one.at(0, "%s")?;
    }
    Ok(sum)
}
"""


class Bodies(unittest.TestCase):
    """Bodies that are equal up to names."""

    def groups(self, *texts):
        found = [("crate_%d" % at, it) for at, text in enumerate(texts) for it in functions("src/lib.rt", text)]
        return [[crate for crate, _ in it] for it in equal_bodies.equal_bodies(found)]

    def test_names_and_comments_do_not_count(self):
        renamed = BODIES.replace("sum", "total").replace("one", "item").replace("// The next", "// Another")
        self.assertEqual(self.groups(BODIES, renamed), [["crate_0", "crate_1"]])

    def test_one_name_is_not_two(self):
        self.assertEqual(len(self.groups(BODIES, BODIES.replace("Ok(sum)", "Ok(all)"))), 2)

    def test_numbers_texts_and_operators_count(self):
        for old, new in (("2 *", "3 *"), ("%s", "%d"), ("sum +", "sum -")):
            self.assertEqual(len(self.groups(BODIES, BODIES.replace(old, new))), 2)

    def test_short_bodies_are_left_out(self):
        self.assertEqual(len(equal_bodies.shape(functions("src/lib.rt", BODIES)[0].body)), 32)
        self.assertEqual(self.groups("fn one() {\n    f(1)\n}\n", "fn two() {\n    f(1)\n}\n"), [])


class Limits(unittest.TestCase):
    def test_no_number_is_above_its_limit(self):
        status, out, err = run("house-rules")
        self.assertEqual((status, err), (0, ""), "\n".join(it for it in out.split("\n") if "above" in it))

    def test_each_measure_has_limits(self):
        names = [it.name for it in house_rules.measures(house_rules.Sources(house_rules.ROOT))]
        self.assertEqual(names, list(house_rules.limits()))


if __name__ == "__main__":
    unittest.main()
