"""Rows as tables of times and values."""
import os
import unittest

from models import BALL, BALL_ROWS, GROWING, GROWING_ROWS, LINE, LINE_ROWS, SWITCHED, SWITCHED_ROWS
from support import STAND_IN, InFolder, run

from qss_tools.runs.rows import exact

BALL_TABLE = "time,y,v\n0,1,0\n0.25,1,-2.5\n0.5,0.25,-5\n0.75,-1,1.75\n1,-0.5,-0.75\n1.25,-0.5,-3.25\n"
BALL_STATES = "time,y,v\n0,1,0\n0.25,1,-2.5\n0.5,0.375,-5\n0.75,-0.875,1.875\n1,-0.4375,-0.625\n1.25,-0.625,-3.125\n"

BALL_VCD = """$comment a tick is 2^-2 s $end
$timescale 1 ms $end
$scope module ball $end
$var real 64 ! y $end
$var event 1 " when_1_1 $end
$upscope $end
$enddefinitions $end
#0
r1 !
#500
r0.25 !
#750
r-1 !
1"
#1000
r-0.5 !
#1251
"""


class Numbers(unittest.TestCase):
    def test_exact_decimals(self):
        for value, bits, text in (
            (0, 20, "0"),
            (1, 1, "0.5"),
            (-1, 3, "-0.125"),
            (10, 1, "5"),
            (-13, 2, "-3.25"),
            (7, 0, "7"),
            (1, 62, "0.00000000000000000021684043449710088680149056017398834228515625"),
        ):
            self.assertEqual(exact(value, bits), text)


class Tables(InFolder):
    def setUp(self):
        super().setUp()
        self.ball, self.rows = self.file("ball.mo", BALL), self.file("ball.csv", BALL_ROWS)

    def table(self, model, *words, given=""):
        return run("qss-table", model, *words, "--no-advice", "--program", STAND_IN, given=given)

    def assert_table(self, text, *words):
        self.assertEqual(self.table(*words), (0, text, ""))

    def test_levels_and_states(self):
        self.assert_table(BALL_TABLE, self.ball, self.rows)
        self.assert_table(BALL_STATES, self.ball, self.rows, "--states")
        self.assertEqual(self.table(self.ball, "-", given=BALL_ROWS), (0, BALL_TABLE, ""))

    def test_settings_that_spoil_the_run_are_warned_of(self):
        status, out, err = run("qss-table", self.ball, self.rows, "--program", STAND_IN)
        self.assertEqual((status, out, err.count("\n")), (0, BALL_TABLE, 1))
        self.assertTrue(err.startswith("qss-table: warning: %s:2:" % self.ball), err)
        self.assertTrue(err.endswith("see tools/qss-advise %s\n" % self.ball), err)

    def test_the_model_is_run_where_no_rows_are_given(self):
        self.file("ball.mo.rows", BALL_ROWS)
        self.assert_table(BALL_TABLE, self.ball)

    def test_chosen_names(self):
        self.assert_table(
            "time,v\n0,0\n0.25,-2.5\n0.5,-5\n0.75,1.75\n1,-0.75\n1.25,-3.25\n", self.ball, self.rows, "--names", "v"
        )
        model, rows = self.file("s.mo", SWITCHED), self.file("s.csv", SWITCHED_ROWS)
        for names, header in (
            ("u", "u[1],u[2]"),
            ("u[2]", "u[2]"),
            ("u[1:2],d", "u[1],u[2],d"),
            ("u[*],x", "u[1],u[2],x"),
            ("*", "x,u[1],u[2],d,p,third"),
        ):
            self.assertEqual(self.table(model, rows, "--names", names)[1].split("\n")[0], "time," + header)

    def test_algebraic_variables_are_computed(self):
        model, rows = self.file("s.mo", SWITCHED), self.file("s.csv", SWITCHED_ROWS)
        self.assert_table(
            "time,p,third\n0,8,3.66666666666667\n1,-16,6.33333333333333\n2,0,1\n", model, rows, "--names", "p,third"
        )

    def test_equal_steps(self):
        self.assert_table(
            "time,y,v,events\n0,1,0,\n0.5,0.25,-5,\n1,-0.5,-0.75,1.1\n",
            self.ball,
            self.rows,
            "--every",
            "0.5",
            "--events",
        )
        self.assert_table(
            "time,y\n0,1\n0.3,1\n0.6,0.25\n0.9,-1\n1.2,-0.5\n", self.ball, self.rows, "--every", "0.3", "--names", "y"
        )

    def test_events(self):
        self.assert_table(
            "time,y,events\n0,1,\n0.5,0.25,\n0.75,-1,1.1\n1,-0.5,\n", self.ball, self.rows, "--names", "y", "--events"
        )

    def test_a_part_of_the_run(self):
        whole = "time,y\n0,1\n0.5,0.25\n0.75,-1\n1,-0.5\n"
        self.assert_table(whole, self.ball, self.rows, "--names", "y")
        words = (self.ball, self.rows, "--names", "y")
        self.assert_table(
            "time,y\n0.6,0.25\n".replace("0.6", "0.75").replace("0.25", "-1") + "1,-0.5\n", *words, "--from", "0.75"
        )
        self.assert_table("time,y\n0.25,1\n0.5,0.25\n", *words, "--from", "0.25", "--to", "0.5")
        self.assert_table("time,y\n0.75,-1\n1,-0.5\n", *words, "--from", "0.75", "--to", "1", "--every", "0.25")
        self.assert_table("time,y\n0.3,1\n0.6,0.25\n", *words, "--from", "0.1", "--to", "0.7", "--every", "0.3")

    def test_a_run_of_second_order(self):
        """The level of x rises from 1 by 1/2 in a tick up to tick 4, and then rests."""
        line, rows = self.file("line.mo", LINE), self.file("line.csv", LINE_ROWS)
        self.assert_table("time,x\n0,1\n4,3\n", line, rows)
        self.assert_table("time,x\n0,1\n1,1.5\n2,2\n3,2.5\n4,3\n5,3\n6,3\n7,3\n8,3\n", line, rows, "--every", "1")
        self.file("line.mo.rows", LINE_ROWS)
        self.assert_table("time,x\n0,1\n4,3\n", line, "--order", "2")

    def test_the_unit_of_time_of_the_model(self):
        text = BALL.replace("QSS_Quantum = 0.25", 'QSS_Quantum = 0.25, QSS_TimeUnit = "us"')
        model, path = self.file("timed.mo", text), os.path.join(self.folder, "timed.vcd")
        self.assert_table("", model, self.rows, "--names", "y", "--events", "-o", path)
        with open(path, encoding="utf-8") as file:
            self.assertIn("$comment a tick is 2^-2 us $end\n$timescale 1 ns $end\n", file.read())

    def test_vcd(self):
        path = os.path.join(self.folder, "ball.vcd")
        self.assert_table("", self.ball, self.rows, "--names", "y", "--events", "-o", path)
        with open(path, encoding="utf-8") as file:
            self.assertEqual(file.read(), BALL_VCD)

    def test_an_overflow_is_told(self):
        model, rows = self.file("m.mo", GROWING), self.file("m.csv", GROWING_ROWS)
        status, out, err = self.table(model, rows)
        self.assertEqual((status, err), (1, "qss-table: the run overflowed: x at tick 5 (time 5)\n"))
        self.assertEqual(out, "time,x\n0,1\n1,1001\n2,1002001\n3,1003003001\n4,1004006004001\n")


class Faults(InFolder):
    def table(self, *words):
        return run("qss-table", *words, "--no-advice", "--program", STAND_IN)

    def test_rows_that_are_cut_are_written_up_to_there(self):
        ball, cut = self.file("ball.mo", BALL), self.file("cut.csv", BALL_ROWS[:110])
        status, out, err = self.table(ball, cut)
        self.assertEqual((status, err.count("\n")), (1, 1))
        self.assertIn("the rows end in the middle of line 6; the table ends there", err)
        self.assertEqual(out, "time,y,v\n0,1,0\n0.25,1,-2.5\n")

    def faulty_models(self):
        """The words of calls with a wrong model or wrong options, each with a part of the line that they end with."""
        ball, rows = self.file("ball.mo", BALL), self.file("ball.csv", BALL_ROWS)
        other = self.file("other.mo", SWITCHED)
        faster = self.file("faster.mo", BALL.replace("start = 1)", "start = 2)"))
        longer = self.file("longer.mo", BALL.replace("1.25", "2"))
        refused = self.file("refused.mo", "// stand-in print: 5 refused: parse 1 3\n" + BALL)
        without = self.file("without.mo", BALL + "// stand-in: 5 refused: machine 4 1\n")
        none = os.path.join(self.folder, "none")
        return [
            ([ball, none], "there is no such file"),
            ([none, rows], "there is no such file"),
            ([refused, rows], "qss-explain"),
            ([without], "machine 4 1"),
            ([other, rows], "another model"),
            ([faster, rows], "does not start so"),
            ([longer, rows], "other settings"),
            ([ball, self.folder], "directory"),
            ([ball, rows, "--names", "w"], "has no variable 'w'"),
            ([ball, rows, "--every", "fast"], "not a number"),
            ([ball, rows, "--every", "0"], "not above 0"),
        ]

    def faulty_rows(self):
        """The words of calls with wrong rows, each with a part of the line that they end with."""
        ball, lines = self.file("ball.mo", BALL), BALL_ROWS.split("\n")
        without_v = "".join(line + "\n" for line in lines if ",v," not in line and line)
        rows = [
            ("cut.csv", BALL_ROWS[:40], "the rows end in the middle of line 2"),
            ("short.csv", "\n".join(lines[:3]) + "\n", "end before the run does"),
            ("spoilt.csv", BALL_ROWS.replace("2,level,y,1,96", "2,level,y,,9x"), "line 5 is not a row"),
            ("fields.csv", BALL_ROWS.replace("2,level,y,1,96", "2,level,y,1"), "line 5 is not a row"),
            ("order.csv", BALL_ROWS.replace("4,level,y", "2,level,y"), "out of order"),
            ("noise.csv", b"\x89PNG\r\n", "not the rows of a run"),
            ("empty.csv", "", "not the rows of a run"),
        ]
        cases = [([ball, self.file(name, text)], part) for name, text, part in rows]
        return cases + [([ball, self.file("only.csv", without_v), "--names", "v"], "filtered")]

    def test_faults_are_one_line_and_nothing_is_written(self):
        output = os.path.join(self.folder, "out.csv")
        for words, part in self.faulty_models() + self.faulty_rows():
            with self.subTest(part=part, words=words[1:]):
                self.assert_fault(self.table(*words), part)
                self.assert_fault(self.table(*words, "-o", output), part)
                self.assertFalse(os.path.exists(output))
        self.assertEqual([name for name in os.listdir(self.folder) if name.startswith(".")], [])


if __name__ == "__main__":
    unittest.main()
