"""Runs by events beside runs as coupled models."""
import os
import unittest

import models
from support import BUILT, ROOT, STAND_IN, InFolder, run

EXAMPLES = os.path.join(ROOT, "examples")
SHORT = ("ball", "boost", "buck", "cable", "decay", "rlc", "thermostat")


def compared(*models_given):
    """The status and the lines of a comparison by the stand-in, without times."""
    status, out, err = run("devs-examples", "--program", STAND_IN, *models_given)
    return status, [line.split("; run ")[0] for line in out.splitlines()], err


class Compared(InFolder):
    def model(self, name, rows, coupled=None, told=""):
        path = self.file(name, told)
        self.file(name + ".rows", rows)
        if coupled is not None:
            self.file(name + ".devs", coupled)
        return path

    def test_equal_answers(self):
        ball, growing = self.model("ball.mo", models.BALL_ROWS), self.model(
            "growing.mo", models.GROWING_ROWS, None, "// stand-in: 6 overflow: x at tick 5\n"
        )
        self.assertEqual(
            compared(ball, growing),
            (
                0,
                [
                    "ball.mo: %d bytes, status 0, equal" % len(models.BALL_ROWS),
                    "growing.mo: %d bytes, status 6, equal" % len(models.GROWING_ROWS),
                    "2 of 2 models have the same answer to both",
                ],
                "",
            ),
        )

    def test_other_answers(self):
        rows = models.BALL_ROWS
        ball = self.model("ball.mo", rows)
        for coupled, told, difference in (
            (
                rows.replace("2,level,y,1,96", "2,level,y,1,95"),
                "",
                r"line 5: '2,level,y,1,96\n', and '2,level,y,1,95\n'",
            ),
            (rows + "5,end,w,0,0\n", "", r"line 16: '', and '5,end,w,0,0\n'"),
            (rows[:-1], "", r"line 15: '5,end,v,-13,-800\n', and '5,end,v,-13,-800'"),
            ("", "", r"line 1: 'tick,event,name,level,state\n', and ''"),
            (rows, "// stand-in devs: 6 overflow: y at tick 5\n", "status 0 , and 6 overflow: y at tick 5"),
        ):
            other = self.model("other.mo", rows, coupled, told)
            self.assertEqual(
                compared(ball, other),
                (
                    1,
                    [
                        "ball.mo: %d bytes, status 0, equal" % len(rows),
                        "other.mo: %d bytes, status 0, %s" % (len(rows), difference),
                        "1 of 2 models have the same answer to both",
                    ],
                    "",
                ),
            )

    def test_faults(self):
        self.assert_fault(run("devs-examples", "--program", STAND_IN, "absent.mo"), "absent.mo: no such file")
        self.assert_fault(run("devs-examples", "--program", "absent"), "absent: no program that can be run")

    @unittest.skipUnless(os.path.exists(BUILT), "the program is not built")
    def test_short_examples(self):
        paths = [os.path.join(EXAMPLES, name + ".mo") for name in SHORT]
        status, out, err = run("devs-examples", *paths)
        self.assertEqual((status, err), (0, ""), out)
        self.assertEqual(out.count(", status 0, equal; run "), len(SHORT))


if __name__ == "__main__":
    unittest.main()
