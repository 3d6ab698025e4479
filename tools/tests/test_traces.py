"""Rows and solutions as traces, each checked against what makes a run legitimate."""
import math
import unittest

from support import STAND_IN, InFolder, run

DECAY = """model decay
  Real x(start = 64);
equation
  der(x) = -1*x;
  annotation(experiment(StopTime = 1, QSS_CoefBits = 8, QSS_TickBits = 4, QSS_LevelBits = 0, QSS_Quantum = 4));
end decay;
"""
UNIT = 4096  # of a state in a level
RISE = -256  # of x in a tick, for each level

ROWS = """tick,event,name,level,state
0,start,x,64,262144
1,level,x,60,245760
3,level,x,52,215040
5,level,x,46,188416
7,level,x,40,164864
9,level,x,35,144384
11,level,x,30,126464
14,level,x,25,103424
16,end,x,25,90624
"""

TRACE = """trace,1
scale,1
refine,1
Q,4
at,262144,64
at,245760,60
at,230400,60
at,215040,52
at,201728,52
at,188416,46
at,176640,46
at,164864,40
at,154624,40
at,144384,35
at,135424,35
at,126464,30
at,118784,30
at,111104,30
at,103424,25
at,97024,25
at,90624,25
"""


def solution(steps, of=lambda time: 64 * math.exp(-time)):
    """The solution at this many equal steps up to time 1."""
    return "time,x\n" + "".join("%.12g,%.12g\n" % (number / steps, of(number / steps)) for number in range(steps + 1))


class Traces(InFolder):
    def setUp(self):
        super().setUp()
        self.model = self.file("decay.mo", DECAY)

    def rows(self, text, *words):
        return run("rows-to-trace", self.model, self.file("rows.csv", text), "--program", STAND_IN, *words)

    def solution(self, text, *words):
        return run("solution-to-trace", self.model, self.file("solution.csv", text), "--program", STAND_IN, *words)

    def legitimate(self, answer):
        """Scale, refinement, quantum and places of a trace that is a legitimate run."""
        status, text, err = answer
        self.assertEqual((status, err), (0, ""))
        lines = [line.split(",") for line in text.splitlines()]
        self.assertEqual([line[0] for line in lines[:5]], ["trace", "scale", "refine", "Q", "at"])
        scale, refine, quantum = (int(line[1]) for line in lines[1:4])
        places = [tuple(map(int, line[1:])) for line in lines[4:]]
        self.assertEqual(places[0][0], scale * 64 * UNIT)
        for (state, level), (later, _) in zip(places, places[1:]):
            self.assertEqual(refine * (later - state), RISE * level)
        for state, level in places:
            self.assertLessEqual(abs(state - UNIT * level), scale * UNIT * quantum)
        return scale, refine, quantum, places

    def test_rows_of_a_run(self):
        self.assertEqual(self.rows(ROWS), (0, TRACE, ""))
        self.file("decay.mo.rows", ROWS)
        self.assertEqual(run("rows-to-trace", self.model, "--program", STAND_IN), (0, TRACE, ""))

    def test_rows_that_have_no_trace(self):
        self.assert_fault(self.rows(ROWS.replace("215040", "215041")), "tick 3 is 215041, and its levels give 215040")
        over = "".join(ROWS.splitlines(True)[:3]) + "2,overflow,x,,\n"
        self.assert_fault(self.rows(over), "overflows at tick 2")
        self.assert_fault(self.rows(ROWS[:-3]), "the rows end in the middle")

    def test_solutions(self):
        for steps, words, factors in (
            (16, (), (1, 1)),
            (64, (), (4, 4)),
            (8, (), (1, 1)),
            (64, ("--finer", "16"), (64, 4)),
        ):
            scale, refine, quantum, places = self.legitimate(self.solution(solution(steps), *words))
            self.assertEqual((scale, refine), factors)
            self.assertEqual(len(places), 16 * refine + 1)
            self.assertLessEqual(quantum, 4)
            for number, (state, _) in enumerate(places):
                self.assertLess(abs(state / (scale * UNIT) - 64 * math.exp(-number / (16 * refine))), 0.25)

    def test_a_solution_of_another_model_has_great_quanta(self):
        quantum = self.legitimate(self.solution(solution(16, lambda time: 64 + 64 * time)))[2]
        self.assertGreater(quantum, 64)

    def test_solutions_that_have_no_trace(self):
        self.assert_fault(self.solution("time,y\n0,64\n1,2\n"), "no column 'x'")
        self.assert_fault(self.solution(""), "no column 'time'")
        self.assert_fault(self.solution("time,x\n0,64\n"), "at least two lines")
        self.assert_fault(self.solution("time,x\n0,64\n1,a\n"), "line 3 is no line of numbers")
        self.assert_fault(self.solution("time,x\n0,64\n0.0625,60\n0.25,50\n"), "not at equal steps from 0")
        self.assert_fault(self.solution("time,x\n1,64\n2,60\n"), "not at equal steps from 0")
        self.assert_fault(self.solution("time,x\n0,64\n0.05,60\n"), "no whole part of a tick")
        self.assert_fault(self.solution("time,x\n0,64\n0.0000001,64\n"), "at most 65536 places")
        self.assert_fault(self.solution(solution(16), "--finer", "65537"), "is not from 1 to 65536")
        self.assert_fault(
            run("solution-to-trace", self.model, "none.csv", "--program", STAND_IN), "none.csv: there is no such file"
        )

    def test_a_run_that_is_too_long_is_told_at_once(self):
        """The rows are not read: the length of the run is known from the model."""
        model = self.file(
            "long.mo", DECAY.replace("QSS_TickBits = 4", "QSS_TickBits = 20").replace("StopTime = 1", "StopTime = 16")
        )
        answer = run("rows-to-trace", model, self.file("rows.csv", ROWS), "--program", STAND_IN)
        self.assert_fault(answer, "the run has 16777217 ticks, and a trace has at most 16777216 bytes")

    def test_models_that_have_no_traces(self):
        model = self.file(
            "clause.mo",
            DECAY.replace(
                "  annotation", "algorithm\n  when x < 1 then\n    reinit(x, 64);\n  end when;\n  annotation"
            ),
        )
        self.assert_fault(
            run("rows-to-trace", model, self.file("rows.csv", ROWS), "--program", STAND_IN),
            "need a model without `when` clauses",
        )

    def test_coefficients_discrete_values_and_products(self):
        model = self.file(
            "two.mo",
            """model two
  Real x(start = 1), y(start = 2);
  discrete Real g(start = 0.5);
equation
  der(x) = -x + g*y + 3*g;
  der(y) = x - 2*y + 0.25;
  annotation(experiment(StopTime = 0.5, QSS_CoefBits = 4, QSS_TickBits = 2, QSS_LevelBits = 2, QSS_Quantum = 0.5));
end two;
""",
        )
        # A level is 2^-2, a unit of a coefficient 2^-4, and a level has 64 units of a state: der(x) is -16 mx + 8 my + 96, der(y) 16 mx - 32 my + 16.
        rows = """tick,event,name,level,state
0,start,x,4,256
0,start,y,8,512
0,start,g,2,
1,level,y,5,336
2,level,x,6,424
2,end,x,6,424
2,end,y,5,256
2,end,g,2,
"""
        wanted = "trace,1\nscale,1\nrefine,1\nQ,2,2\nat,256,512,4,8\nat,352,336,4,5\nat,424,256,6,5\n"
        self.assertEqual(
            run("rows-to-trace", model, self.file("rows.csv", rows), "--program", STAND_IN), (0, wanted, "")
        )


if __name__ == "__main__":
    unittest.main()
