"""Sources that are wrong in the ways of newcomers, what is said of them, and what mends them.

Of each: a name, the source, the line of the program, where the fault is (row:column), parts of the sentence and of the
suggested fix, and edits that follow it: after them the program runs the model.
"""

WRONG = [
    (
        "if_expr",
        "model m\n"
        "  parameter Real R = 10, C = 1;\n"
        "  Real x(start = 1), y;\n"
        "  discrete Real s(start = 1), next(start = 1);\n"
        "equation\n"
        "  der(x) = if s > 0.5 then -x/R else 0;\n"
        "  y = 2*x;\n"
        "algorithm\n"
        "  when time >= next then\n"
        "    s := 1 - s;\n"
        "    next := pre(next) + 1;\n"
        "  end when;\n"
        "  annotation(experiment(StopTime = 5));\n"
        "end m;\n",
        "refused: parse 1 44",
        "6:12",
        "unexpected 'if'",
        "d*(..)",
        (("if s > 0.5 then -x/R else 0", "s*(-x/R)"),),
    ),
    (
        "and",
        "model m\n"
        "  parameter Real R = 10, C = 1;\n"
        "  Real x(start = 1), y;\n"
        "  discrete Real s(start = 1), next(start = 1);\n"
        "equation\n"
        "  der(x) = -x/R;\n"
        "  y = 2*x;\n"
        "algorithm\n"
        "  when time >= next and x > 0.2 then\n"
        "    s := 1 - s;\n"
        "    next := pre(next) + 1;\n"
        "  end when;\n"
        "  annotation(experiment(StopTime = 5));\n"
        "end m;\n",
        "refused: parse 1 60",
        "9:21",
        "unexpected 'and'",
        "one relation",
        (("time >= next and x > 0.2", "time - 100*(1 - s) >= next"),),
    ),
    (
        "not",
        "model m\n"
        "  parameter Real R = 10, C = 1;\n"
        "  Real x(start = 1), y;\n"
        "  discrete Real s(start = 1), next(start = 1);\n"
        "equation\n"
        "  der(x) = -x/R;\n"
        "  y = 2*x;\n"
        "algorithm\n"
        "  when time >= next then\n"
        "    s := not s;\n"
        "    next := pre(next) + 1;\n"
        "  end when;\n"
        "  annotation(experiment(StopTime = 5));\n"
        "end m;\n",
        "refused: parse 1 63",
        "10:10",
        "unexpected 'not'",
        "1 - d",
        (("not s", "1 - s"),),
    ),
    (
        "sin",
        "model m\n"
        "  parameter Real R = 10, C = 1;\n"
        "  Real x(start = 1), y;\n"
        "  discrete Real s(start = 1), next(start = 1);\n"
        "equation\n"
        "  der(x) = sin(314*time) - x/R;\n"
        "  y = 2*x;\n"
        "algorithm\n"
        "  when time >= next then\n"
        "    s := 1 - s;\n"
        "    next := pre(next) + 1;\n"
        "  end when;\n"
        "  annotation(experiment(StopTime = 5));\n"
        "end m;\n",
        "refused: parse 1 45",
        "6:15",
        "unexpected '('",
        "a sine is a state",
        (
            ("der(x) = sin(314*time) - x/R;", "der(sn) = 314*cs; der(cs) = -314*sn; der(x) = sn - x/R;"),
            ("y;", "y, sn(start = 0), cs(start = 1);"),
            ("StopTime = 5", "StopTime = 0.1, QSS_TickBits = 14"),
        ),
    ),
    (
        "time_eq",
        "model m\n"
        "  parameter Real R = 10, C = 1;\n"
        "  Real x(start = 1), y;\n"
        "  discrete Real s(start = 1), next(start = 1);\n"
        "equation\n"
        "  der(x) = time - x/R;\n"
        "  y = 2*x;\n"
        "algorithm\n"
        "  when time >= next then\n"
        "    s := 1 - s;\n"
        "    next := pre(next) + 1;\n"
        "  end when;\n"
        "  annotation(experiment(StopTime = 5));\n"
        "end m;\n",
        "refused: affine 2 131",
        "6:12",
        "'time' is not supported in an equation",
        "der(t) = 1",
        (
            ("time - x/R", "t - x/R; der(t) = 1"),
            ("y;", "y, t;"),
        ),
    ),
    (
        "der_rhs",
        "model m\n"
        "  parameter Real R = 10, C = 1;\n"
        "  Real x(start = 1), y;\n"
        "  discrete Real s(start = 1), next(start = 1);\n"
        "equation\n"
        "  der(x) = -x/R;\n"
        "  y = der(x);\n"
        "algorithm\n"
        "  when time >= next then\n"
        "    s := 1 - s;\n"
        "    next := pre(next) + 1;\n"
        "  end when;\n"
        "  annotation(experiment(StopTime = 5));\n"
        "end m;\n",
        "refused: parse 1 51",
        "7:7",
        "unexpected 'der'",
        "give its right side a name",
        (
            ("y = der(x);", ""),
            ("der(x) = -x/R;", "y = -x/R; der(x) = y;"),
        ),
    ),
    (
        "2d",
        "model m\n"
        "  parameter Real R = 10, C = 1;\n"
        "  Real x(start = 1), y, T[3,3];\n"
        "  discrete Real s(start = 1), next(start = 1);\n"
        "equation\n"
        "  der(x) = -x/R;\n"
        "  y = 2*x;\n"
        "algorithm\n"
        "  when time >= next then\n"
        "    s := 1 - s;\n"
        "    next := pre(next) + 1;\n"
        "  end when;\n"
        "  annotation(experiment(StopTime = 5));\n"
        "end m;\n",
        "refused: parse 1 25",
        "3:28",
        "unexpected ','",
        "one dimension",
        (
            ("T[3,3]", "T[9]"),
            ("y = 2*x;", "y = 2*x; for i in 1:9 loop T[i] = x; end for;"),
        ),
    ),
    (
        "missing_semi_decl",
        "model m\n"
        "  parameter Real R = 10, C = 1\n"
        "  Real x(start = 1), y;\n"
        "  discrete Real s(start = 1), next(start = 1);\n"
        "equation\n"
        "  der(x) = -x/R;\n"
        "  y = 2*x;\n"
        "algorithm\n"
        "  when time >= next then\n"
        "    s := 1 - s;\n"
        "    next := pre(next) + 1;\n"
        "  end when;\n"
        "  annotation(experiment(StopTime = 5));\n"
        "end m;\n",
        "refused: parse 1 11",
        "3:3",
        "unexpected 'Real'",
        "a ';' is missing at the end of line 2",
        (("C = 1", "C = 1;"),),
    ),
    (
        "bounds",
        "model m\n"
        "  parameter Real R = 10, C = 1;\n"
        "  Real x(start = 1), y, u[4];\n"
        "  discrete Real s(start = 1), next(start = 1);\n"
        "equation\n"
        "  der(x) = -x/R;\n"
        "  y = 2*x;\n"
        "  for i in 1:4 loop\n"
        "    der(u[i]) = u[i+1] - u[i];\n"
        "  end for;\n"
        "algorithm\n"
        "  when time >= next then\n"
        "    s := 1 - s;\n"
        "    next := pre(next) + 1;\n"
        "  end when;\n"
        "  annotation(experiment(StopTime = 5));\n"
        "end m;\n",
        "refused: unroll 1 190 5 4",
        "9:17",
        "the index 5 is not from 1 to 4",
        "the loop's bounds",
        (("for i in 1:4 loop", "der(u[4]) = -u[4]; for i in 1:3 loop"),),
    ),
    (
        "nonlin",
        "model m\n"
        "  parameter Real R = 10, C = 1;\n"
        "  Real x(start = 1), y;\n"
        "  discrete Real s(start = 1), next(start = 1);\n"
        "equation\n"
        "  der(x) = -x*x/R;\n"
        "  y = 2*x;\n"
        "algorithm\n"
        "  when time >= next then\n"
        "    s := 1 - s;\n"
        "    next := pre(next) + 1;\n"
        "  end when;\n"
        "  annotation(experiment(StopTime = 5));\n"
        "end m;\n",
        "refused: affine 1 133",
        "6:14",
        "a product of two states",
        "straight pieces",
        (("-x*x/R", "-s*x/R"),),
    ),
    (
        "undeclared",
        "model m\n"
        "  parameter Real R = 10, C = 1;\n"
        "  Real x(start = 1), y;\n"
        "  discrete Real s(start = 1), next(start = 1);\n"
        "equation\n"
        "  der(x) = -x/R;\n"
        "  y = 2*xx;\n"
        "algorithm\n"
        "  when time >= next then\n"
        "    s := 1 - s;\n"
        "    next := pre(next) + 1;\n"
        "  end when;\n"
        "  annotation(experiment(StopTime = 5));\n"
        "end m;\n",
        "refused: names 3 145",
        "7:9",
        "'xx' is not declared",
        "declare it",
        (("xx", "x"),),
    ),
    (
        "no_equation",
        "model m\n"
        "  parameter Real R = 10, C = 1;\n"
        "  Real x(start = 1), y;\n"
        "  discrete Real s(start = 1), next(start = 1);\n"
        "equation\n"
        "  der(x) = -x/R;\n"
        "algorithm\n"
        "  when time >= next then\n"
        "    s := 1 - s;\n"
        "    next := pre(next) + 1;\n"
        "  end when;\n"
        "  annotation(experiment(StopTime = 5));\n"
        "end m;\n",
        "refused: causal 1 y",
        "3:22",
        "y has no equation",
        "needs one equation",
        (("der(x) = -x/R;", "der(x) = -x/R; y = x;"),),
    ),
    (
        "param_noval",
        "model m\n"
        "  parameter Real R, C = 1;\n"
        "  Real x(start = 1), y;\n"
        "  discrete Real s(start = 1), next(start = 1);\n"
        "equation\n"
        "  der(x) = -x/R;\n"
        "  y = 2*x;\n"
        "algorithm\n"
        "  when time >= next then\n"
        "    s := 1 - s;\n"
        "    next := pre(next) + 1;\n"
        "  end when;\n"
        "  annotation(experiment(StopTime = 5));\n"
        "end m;\n",
        "refused: names 5 25",
        "2:18",
        "the parameter 'R' has no value",
        "write '= ..' after its name",
        (("Real R,", "Real R = 10,"),),
    ),
    (
        "param_order",
        "model m\n"
        "  parameter Real R = 10*C, C = 1;\n"
        "  Real x(start = 1), y;\n"
        "  discrete Real s(start = 1), next(start = 1);\n"
        "equation\n"
        "  der(x) = -x/R;\n"
        "  y = 2*x;\n"
        "algorithm\n"
        "  when time >= next then\n"
        "    s := 1 - s;\n"
        "    next := pre(next) + 1;\n"
        "  end when;\n"
        "  annotation(experiment(StopTime = 5));\n"
        "end m;\n",
        "refused: names 3 32",
        "2:25",
        "'C' is not declared before its use",
        "above this line",
        (("R = 10*C, C = 1", "C = 1, R = 10*C"),),
    ),
    (
        "end_name",
        "model m\n"
        "  parameter Real R = 10, C = 1;\n"
        "  Real x(start = 1), y;\n"
        "  discrete Real s(start = 1), next(start = 1);\n"
        "equation\n"
        "  der(x) = -x/R;\n"
        "  y = 2*x;\n"
        "algorithm\n"
        "  when time >= next then\n"
        "    s := 1 - s;\n"
        "    next := pre(next) + 1;\n"
        "  end when;\n"
        "  annotation(experiment(StopTime = 5));\n"
        "end model1;\n",
        "refused: names 1 282",
        "14:5",
        "is not the model's",
        "write 'end m;'",
        (("model1", "m"),),
    ),
    (
        "eq_in_when",
        "model m\n"
        "  parameter Real R = 10, C = 1;\n"
        "  Real x(start = 1), y;\n"
        "  discrete Real s(start = 1), next(start = 1);\n"
        "equation\n"
        "  der(x) = -x/R;\n"
        "  y = 2*x;\n"
        "algorithm\n"
        "  when time >= next then\n"
        "    s = 1 - s;\n"
        "    next := pre(next) + 1;\n"
        "  end when;\n"
        "  annotation(experiment(StopTime = 5));\n"
        "end m;\n",
        "refused: parse 1 62",
        "10:7",
        "expected ':='",
        "a statement has ':='",
        (("s = 1 - s", "s := 1 - s"),),
    ),
    (
        "assign_in_eq",
        "model m\n"
        "  parameter Real R = 10, C = 1;\n"
        "  Real x(start = 1), y;\n"
        "  discrete Real s(start = 1), next(start = 1);\n"
        "equation\n"
        "  der(x) = -x/R;\n"
        "  y := 2*x;\n"
        "algorithm\n"
        "  when time >= next then\n"
        "    s := 1 - s;\n"
        "    next := pre(next) + 1;\n"
        "  end when;\n"
        "  annotation(experiment(StopTime = 5));\n"
        "end m;\n",
        "refused: parse 1 50",
        "7:5",
        "expected '='",
        "an equation has '='",
        (("y := 2*x", "y = 2*x"),),
    ),
    (
        "reinit_discrete",
        "model m\n"
        "  parameter Real R = 10, C = 1;\n"
        "  Real x(start = 1), y;\n"
        "  discrete Real s(start = 1), next(start = 1);\n"
        "equation\n"
        "  der(x) = -x/R;\n"
        "  y = 2*x;\n"
        "algorithm\n"
        "  when time >= next then\n"
        "    reinit(s, 0);\n"
        "    next := pre(next) + 1;\n"
        "  end when;\n"
        "  annotation(experiment(StopTime = 5));\n"
        "end m;\n",
        "refused: names 4 194",
        "10:12",
        "'reinit' takes a state",
        "write 's := ..'",
        (("reinit(s, 0)", "s := 0"),),
    ),
    (
        "when_in_eq",
        "model m\n"
        "  parameter Real R = 10, C = 1;\n"
        "  Real x(start = 1), y;\n"
        "  discrete Real s(start = 1), next(start = 1);\n"
        "equation\n"
        "  der(x) = -x/R;\n"
        "  y = 2*x;\n"
        "  when x < 0.5 then reinit(x, 1); end when;\n"
        "algorithm\n"
        "  when time >= next then\n"
        "    s := 1 - s;\n"
        "    next := pre(next) + 1;\n"
        "  end when;\n"
        "  annotation(experiment(StopTime = 5));\n"
        "end m;\n",
        "refused: parse 1 55",
        "8:3",
        "unexpected 'when'",
        "'algorithm' section",
        (
            ("  when x < 0.5 then reinit(x, 1); end when;\n", ""),
            ("algorithm\n", "algorithm\n  when x < 0.5 then reinit(x, 1); end when;\n"),
        ),
    ),
    (
        "Boolean",
        "model m\n"
        "  parameter Real R = 10, C = 1;\n"
        "  Real x(start = 1), y;\n"
        "  Boolean b(start = true); discrete Real s(start = 1), next(start = 1);\n"
        "equation\n"
        "  der(x) = -x/R;\n"
        "  y = 2*x;\n"
        "algorithm\n"
        "  when time >= next then\n"
        "    s := 1 - s;\n"
        "    next := pre(next) + 1;\n"
        "  end when;\n"
        "  annotation(experiment(StopTime = 5));\n"
        "end m;\n",
        "refused: parse 1 22",
        "4:3",
        "unexpected 'Boolean'",
        "discrete Real",
        (("Boolean b(start = true);", "discrete Real b(start = 1);"),),
    ),
    (
        "minmax",
        "model m\n"
        "  parameter Real R = 10, C = 1;\n"
        "  Real x(start = 1), y;\n"
        "  discrete Real s(start = 1), next(start = 1);\n"
        "equation\n"
        "  der(x) = -x/R;\n"
        "  y = 2*x;\n"
        "algorithm\n"
        "  when time >= next then\n"
        "    s := min(1, x);\n"
        "    next := pre(next) + 1;\n"
        "  end when;\n"
        "  annotation(experiment(StopTime = 5));\n"
        "end m;\n",
        "refused: parse 1 64",
        "10:13",
        "unexpected '('",
        "'when v > b then v := b; end when;'",
        (
            ("s := min(1, x);", "s := x;"),
            ("  annotation", "  when s > 1 then s := 1; end when;\n  annotation"),
        ),
    ),
    (
        "C_der",
        "model m\n"
        "  parameter Real R = 10, C = 1;\n"
        "  Real x(start = 1), y;\n"
        "  discrete Real s(start = 1), next(start = 1);\n"
        "equation\n"
        "  C*der(x) = -x/R;\n"
        "  y = 2*x;\n"
        "algorithm\n"
        "  when time >= next then\n"
        "    s := 1 - s;\n"
        "    next := pre(next) + 1;\n"
        "  end when;\n"
        "  annotation(experiment(StopTime = 5));\n"
        "end m;\n",
        "refused: parse 1 40",
        "6:4",
        "unexpected '*'",
        "write 'der(x) = (-x/R)/C'",
        (("C*der(x) = -x/R;", "der(x) = -x/R/C;"),),
    ),
    (
        "decl_binding",
        "model m\n"
        "  parameter Real R = 10, C = 1;\n"
        "  Real x(start = 1), y = 2*x;\n"
        "  discrete Real s(start = 1), next(start = 1);\n"
        "equation\n"
        "  der(x) = -x/R;\n"
        "algorithm\n"
        "  when time >= next then\n"
        "    s := 1 - s;\n"
        "    next := pre(next) + 1;\n"
        "  end when;\n"
        "  annotation(experiment(StopTime = 5));\n"
        "end m;\n",
        "refused: names 4 61",
        "3:22",
        "not bound by '='",
        "equation y = ..",
        (
            ("y = 2*x;\n  d", "y;\n  d"),
            ("equation\n", "equation\n  y = 2*x;\n"),
        ),
    ),
    (
        "pow_neg",
        "model m\n"
        "  parameter Real R = 10, C = 10^(-6);\n"
        "  Real x(start = 1), y;\n"
        "  discrete Real s(start = 1), next(start = 1);\n"
        "equation\n"
        "  der(x) = -x/R;\n"
        "  y = 2*x;\n"
        "algorithm\n"
        "  when time >= next then\n"
        "    s := 1 - s;\n"
        "    next := pre(next) + 1;\n"
        "  end when;\n"
        "  annotation(experiment(StopTime = 5));\n"
        "end m;\n",
        "refused: parse 1 12",
        "2:33",
        "expected a digit from 0 to 8",
        "write 1e-6 for 10^(-6)",
        (("10^(-6)", "1e-6"),),
    ),
    (
        "pi_long",
        "model m\n"
        "  parameter Real R = 2*3.14159265358979*3.14159265358979, C = 1;\n"
        "  Real x(start = 1), y;\n"
        "  discrete Real s(start = 1), next(start = 1);\n"
        "equation\n"
        "  der(x) = -x/R;\n"
        "  y = 2*x;\n"
        "algorithm\n"
        "  when time >= next then\n"
        "    s := 1 - s;\n"
        "    next := pre(next) + 1;\n"
        "  end when;\n"
        "  annotation(experiment(StopTime = 5));\n"
        "end m;\n",
        "refused: names 8 47 1",
        "2:40",
        "out of range",
        "shorten constants",
        (("2*3.14159265358979*3.14159265358979", "2*3.14159265*3.14159265"),),
    ),
    (
        "units_small",
        "model m\n"
        "  parameter Real R = 1e-9, C = 1e-9;\n"
        "  Real x(start = 1), y;\n"
        "  discrete Real s(start = 1), next(start = 1);\n"
        "equation\n"
        "  der(x) = -x/(R*C);\n"
        "  y = 2*x;\n"
        "algorithm\n"
        "  when time >= next then\n"
        "    s := 1 - s;\n"
        "    next := pre(next) + 1;\n"
        "  end when;\n"
        "  annotation(experiment(StopTime = 5));\n"
        "end m;\n",
        "refused: machine 4 1",
        "6:3",
        "passes 2^44 units",
        "shorter unit of time",
        (("R = 1e-9, C = 1e-9", "R = 1, C = 1"),),
    ),
    (
        "sample",
        "model m\n"
        "  parameter Real R = 10, C = 1;\n"
        "  Real x(start = 1), y;\n"
        "  discrete Real s(start = 1), next(start = 1);\n"
        "equation\n"
        "  der(x) = -x/R;\n"
        "  y = 2*x;\n"
        "algorithm\n"
        "  when sample(0, 0.001) then\n"
        "    s := 1 - s;\n"
        "    next := pre(next) + 1;\n"
        "  end when;\n"
        "  annotation(experiment(StopTime = 5));\n"
        "end m;\n",
        "refused: parse 1 58",
        "9:14",
        "unexpected '('",
        "when time >= next",
        (("sample(0, 0.001)", "time >= next"),),
    ),
    (
        "eqeq",
        "model m\n"
        "  parameter Real R = 10, C = 1;\n"
        "  Real x(start = 1), y;\n"
        "  discrete Real s(start = 1), next(start = 1);\n"
        "equation\n"
        "  der(x) = -x/R;\n"
        "  y = 2*x;\n"
        "algorithm\n"
        "  when time == next then\n"
        "    s := 1 - s;\n"
        "    next := pre(next) + 1;\n"
        "  end when;\n"
        "  annotation(experiment(StopTime = 5));\n"
        "end m;\n",
        "refused: parse 1 58",
        "9:13",
        "unexpected '=='",
        "write '<=' or '>='",
        (("time == next", "time >= next"),),
    ),
    (
        "umlaut",
        "model m\n"
        "  parameter Real R = 10, C = 1;\n"
        "  Real x(start = 1), y, φ;\n"
        "  discrete Real s(start = 1), next(start = 1);\n"
        "equation\n"
        "  der(x) = -x/R;\n"
        "  y = 2*x;\n"
        "algorithm\n"
        "  when time >= next then\n"
        "    s := 1 - s;\n"
        "    next := pre(next) + 1;\n"
        "  end when;\n"
        "  annotation(experiment(StopTime = 5));\n"
        "end m;\n",
        "refused: lex 1 64",
        "3:25",
        "not ASCII",
        "a to z",
        (
            ("φ", "phi"),
            ("y = 2*x;", "y = 2*x; phi = x;"),
        ),
    ),
    (
        "pre_state",
        "model m\n"
        "  parameter Real R = 10, C = 1;\n"
        "  Real x(start = 1), y;\n"
        "  discrete Real s(start = 1), next(start = 1);\n"
        "equation\n"
        "  der(x) = -x/R;\n"
        "  y = 2*x;\n"
        "algorithm\n"
        "  when time >= next then\n"
        "    s := pre(x);\n"
        "    next := pre(next) + 1;\n"
        "  end when;\n"
        "  annotation(experiment(StopTime = 5));\n"
        "end m;\n",
        "refused: names 4 196",
        "10:14",
        "'pre' takes a discrete variable",
        "write 'x'",
        (("pre(x)", "x"),),
    ),
    (
        "integer",
        "model m\n"
        "  parameter Real R = 10, C = 1; parameter Integer N = 2.5;\n"
        "  Real x(start = 1), y;\n"
        "  discrete Real s(start = 1), next(start = 1);\n"
        "equation\n"
        "  der(x) = -x/R;\n"
        "  y = 2*x;\n"
        "algorithm\n"
        "  when time >= next then\n"
        "    s := 1 - s;\n"
        "    next := pre(next) + 1;\n"
        "  end when;\n"
        "  annotation(experiment(StopTime = 5));\n"
        "end m;\n",
        "refused: names 6 58",
        "2:51",
        "must be a whole number",
        "write 'Real'",
        (("parameter Integer N = 2.5", "parameter Real N = 2.5"),),
    ),
    (
        "input",
        "model m\n"
        "  parameter Real R = 10, C = 1;\n"
        "  input Real u; Real x(start = 1), y;\n"
        "  discrete Real s(start = 1), next(start = 1);\n"
        "equation\n"
        "  der(x) = -x/R;\n"
        "  y = 2*x;\n"
        "algorithm\n"
        "  when time >= next then\n"
        "    s := 1 - s;\n"
        "    next := pre(next) + 1;\n"
        "  end when;\n"
        "  annotation(experiment(StopTime = 5));\n"
        "end m;\n",
        "refused: parse 1 12",
        "3:3",
        "unexpected 'input'",
        "parameter Real u",
        (("input Real u;", "parameter Real u = 1;"),),
    ),
    (
        "div_state",
        "model m\n"
        "  parameter Real R = 10, C = 1;\n"
        "  Real x(start = 1), y;\n"
        "  discrete Real s(start = 1), next(start = 1);\n"
        "equation\n"
        "  der(x) = -x/R;\n"
        "  y = 1/x;\n"
        "algorithm\n"
        "  when time >= next then\n"
        "    s := 1 - s;\n"
        "    next := pre(next) + 1;\n"
        "  end when;\n"
        "  annotation(experiment(StopTime = 5));\n"
        "end m;\n",
        "refused: affine 1 144",
        "7:8",
        "a division by a state",
        "straight pieces",
        (("y = 1/x", "y = 1 - x"),),
    ),
    (
        "elseif_when",
        "model m\n"
        "  parameter Real R = 10, C = 1;\n"
        "  Real x(start = 1), y;\n"
        "  discrete Real s(start = 1), next(start = 1);\n"
        "equation\n"
        "  der(x) = -x/R;\n"
        "  y = 2*x;\n"
        "algorithm\n"
        "  when time >= next then\n"
        "    s := 1 - s;\n"
        "    next := pre(next) + 1;\n"
        "  else\n"
        "    s := 0;\n"
        "  end when;\n"
        "  annotation(experiment(StopTime = 5));\n"
        "end m;\n",
        "refused: parse 1 76",
        "12:3",
        "unexpected 'else'",
        "elsewhen",
        (("  else\n", "  elsewhen time < next then\n"),),
    ),
    (
        "missing_end_when",
        "model m\n"
        "  parameter Real R = 10, C = 1;\n"
        "  Real x(start = 1), y;\n"
        "  discrete Real s(start = 1), next(start = 1);\n"
        "equation\n"
        "  der(x) = -x/R;\n"
        "  y = 2*x;\n"
        "algorithm\n"
        "  when time >= next then\n"
        "    s := 1 - s;\n"
        "    next := pre(next) + 1;\n"
        "  annotation(experiment(StopTime = 5));\n"
        "end m;\n",
        "refused: parse 1 76",
        "12:3",
        "unexpected 'annotation'",
        "'end when;' is missing before this line",
        (("  annotation", "  end when;\n  annotation"),),
    ),
    (
        "comment",
        "model m\n"
        "  parameter Real R = 10, C = 1;\n"
        "  Real x(start = 1), y;\n"
        "  discrete Real s(start = 1), next(start = 1);\n"
        "/* equation\n"
        "  der(x) = -x/R;\n"
        "  y = 2*x;\n"
        "algorithm\n"
        "  when time >= next then\n"
        "    s := 1 - s;\n"
        "    next := pre(next) + 1;\n"
        "  end when;\n"
        "  annotation(experiment(StopTime = 5));\n"
        "end m;\n",
        "refused: lex 2 111",
        "5:1",
        "this comment is never closed",
        "write */",
        (("/* equation", "/* equation */ equation"),),
    ),
    (
        "model_missing_end",
        "model m\n"
        "  parameter Real R = 10, C = 1;\n"
        "  Real x(start = 1), y;\n"
        "  discrete Real s(start = 1), next(start = 1);\n"
        "equation\n"
        "  der(x) = -x/R;\n"
        "  y = 2*x;\n"
        "algorithm\n"
        "  when time >= next then\n"
        "    s := 1 - s;\n"
        "    next := pre(next) + 1;\n"
        "  end when;\n"
        "  annotation(experiment(StopTime = 5));\n",
        "refused: parse 1 89",
        "13:40",
        "the file ends before the model does",
        "'end'",
        (("StopTime = 5));\n", "StopTime = 5));\nend m;\n"),),
    ),
    (
        "sum",
        "model m\n"
        "  parameter Real R = 10, C = 1;\n"
        "  Real x(start = 1), y, u[3];\n"
        "  discrete Real s(start = 1), next(start = 1);\n"
        "equation\n"
        "  der(x) = -x/R;\n"
        "  for i in 1:3 loop der(u[i]) = -u[i]; end for;\n"
        "  y = sum(u);\n"
        "algorithm\n"
        "  when time >= next then\n"
        "    s := 1 - s;\n"
        "    next := pre(next) + 1;\n"
        "  end when;\n"
        "  annotation(experiment(StopTime = 5));\n"
        "end m;\n",
        "refused: parse 1 81",
        "8:10",
        "unexpected '('",
        "write the elements out",
        (("y = sum(u);", "y = u[1] + u[2] + u[3];"),),
    ),
    (
        "eq_double",
        "model m\n"
        "  parameter Real R = 10, C = 1;\n"
        "  Real x(start = 1), y;\n"
        "  discrete Real s(start = 1), next(start = 1);\n"
        "equation\n"
        "  der(x) = -x/R;\n"
        "  y == 2*x;\n"
        "algorithm\n"
        "  when time >= next then\n"
        "    s := 1 - s;\n"
        "    next := pre(next) + 1;\n"
        "  end when;\n"
        "  annotation(experiment(StopTime = 5));\n"
        "end m;\n",
        "refused: parse 1 50",
        "7:5",
        "unexpected '=='",
        "not '=='",
        (("y == 2*x", "y = 2*x"),),
    ),
    (
        "abs",
        "model m\n"
        "  parameter Real R = 10, C = 1;\n"
        "  Real x(start = 1), y;\n"
        "  discrete Real s(start = 1), next(start = 1);\n"
        "equation\n"
        "  der(x) = -x/R;\n"
        "  y = abs(x);\n"
        "algorithm\n"
        "  when time >= next then\n"
        "    s := 1 - s;\n"
        "    next := pre(next) + 1;\n"
        "  end when;\n"
        "  annotation(experiment(StopTime = 5));\n"
        "end m;\n",
        "refused: parse 1 52",
        "7:10",
        "unexpected '('",
        "s*x with a discrete variable s",
        (("y = abs(x);", "y = s*x;"),),
    ),
    (
        "tickbits_big",
        "model m\n"
        "  parameter Real R = 10, C = 1;\n"
        "  Real x(start = 1), y;\n"
        "  discrete Real s(start = 1), next(start = 1);\n"
        "equation\n"
        "  der(x) = -x/R;\n"
        "  y = 2*x;\n"
        "algorithm\n"
        "  when time >= next then\n"
        "    s := 1 - s;\n"
        "    next := pre(next) + 1;\n"
        "  end when;\n"
        "  annotation(experiment(StopTime = 5, QSS_TickBits = 30));\n"
        "end m;\n",
        "refused: machine 1 QSS_TickBits 30/1",
        "13:39",
        "QSS_TickBits = 30 is not accepted",
        "QSS_TickBits = 20 or less",
        (("QSS_TickBits = 30", "QSS_TickBits = 20"),),
    ),
    (
        "quantum0",
        "model m\n"
        "  parameter Real R = 10, C = 1;\n"
        "  Real x(start = 1), y;\n"
        "  discrete Real s(start = 1), next(start = 1);\n"
        "equation\n"
        "  der(x) = -x/R;\n"
        "  y = 2*x;\n"
        "algorithm\n"
        "  when time >= next then\n"
        "    s := 1 - s;\n"
        "    next := pre(next) + 1;\n"
        "  end when;\n"
        "  annotation(experiment(StopTime = 5, QSS_Quantum = 0));\n"
        "end m;\n",
        "refused: machine 3 x",
        "13:39",
        "the quantum of x is not above 0",
        "how far a state may move",
        (("QSS_Quantum = 0", "QSS_Quantum = 0.01"),),
    ),
    (
        "tiny_quantum",
        "model m\n"
        "  parameter Real R = 10, C = 1;\n"
        "  Real x(start = 1), y;\n"
        "  discrete Real s(start = 1), next(start = 1);\n"
        "equation\n"
        "  der(x) = -x/R;\n"
        "  y = 2*x;\n"
        "algorithm\n"
        "  when time >= next then\n"
        "    s := 1 - s;\n"
        "    next := pre(next) + 1;\n"
        "  end when;\n"
        "  annotation(experiment(StopTime = 5, QSS_Quantum = 1e-9));\n"
        "end m;\n",
        "refused: machine 3 x",
        "13:39",
        "at least 1",
        "a quantum of at least 1.52588e-05",
        (("QSS_Quantum = 1e-9", "QSS_Quantum = 0.0000152588"),),
    ),
    (
        "prod_disc",
        "model m\n"
        "  parameter Real R = 10, C = 1;\n"
        "  Real x(start = 1), y;\n"
        "  discrete Real s(start = 1), next(start = 1);\n"
        "equation\n"
        "  der(x) = -x/R;\n"
        "  y = 2*x;\n"
        "algorithm\n"
        "  when time >= next then\n"
        "    s := s*x;\n"
        "    next := pre(next) + 1;\n"
        "  end when;\n"
        "  annotation(experiment(StopTime = 5));\n"
        "end m;\n",
        "refused: affine 1 193",
        "10:11",
        "a clause takes no product",
        "a branch for each value of s",
        (("    s := s*x;\n    next := pre(next) + 1;\n", "    next := pre(next) + 1;\n"),),
    ),
    (
        "string_unclosed",
        "model m\n"
        "  parameter Real R = 10, C = 1;\n"
        "  Real x(start = 1), y;\n"
        "  discrete Real s(start = 1), next(start = 1);\n"
        "equation\n"
        '  der(x) = -x/R "decay;\n'
        "  y = 2*x;\n"
        "algorithm\n"
        "  when time >= next then\n"
        "    s := 1 - s;\n"
        "    next := pre(next) + 1;\n"
        "  end when;\n"
        "  annotation(experiment(StopTime = 5));\n"
        "end m;\n",
        "refused: lex 3 136",
        "6:17",
        "this string is never closed",
        "at its end",
        (('"decay;', '"decay";'),),
    ),
    (
        "modelica_pi",
        "model m\n"
        "  parameter Real R = 10, C = 2*Modelica.Constants.pi;\n"
        "  Real x(start = 1), y;\n"
        "  discrete Real s(start = 1), next(start = 1);\n"
        "equation\n"
        "  der(x) = -x/R;\n"
        "  y = 2*x;\n"
        "algorithm\n"
        "  when time >= next then\n"
        "    s := 1 - s;\n"
        "    next := pre(next) + 1;\n"
        "  end when;\n"
        "  annotation(experiment(StopTime = 5));\n"
        "end m;\n",
        "refused: parse 1 13",
        "2:40",
        "unexpected '.'",
        "write the number",
        (("2*Modelica.Constants.pi", "6.2831853"),),
    ),
    (
        "two_models",
        "model m\n"
        "  parameter Real R = 10, C = 1;\n"
        "  Real x(start = 1), y;\n"
        "  discrete Real s(start = 1), next(start = 1);\n"
        "equation\n"
        "  der(x) = -x/R;\n"
        "  y = 2*x;\n"
        "algorithm\n"
        "  when time >= next then\n"
        "    s := 1 - s;\n"
        "    next := pre(next) + 1;\n"
        "  end when;\n"
        "  annotation(experiment(StopTime = 5));\n"
        "end m;\n"
        "model n Real z; equation der(z)=-z; end n;\n",
        "refused: parse 1 92",
        "15:1",
        "expected nothing more",
        "one model",
        (("model n Real z; equation der(z)=-z; end n;\n", ""),),
    ),
    (
        "initial_eq",
        "model m\n"
        "  parameter Real R = 10, C = 1;\n"
        "  Real x(start = 1), y;\n"
        "  discrete Real s(start = 1), next(start = 1);\n"
        "initial equation\n"
        "  x = 3;\n"
        "equation\n"
        "  der(x) = -x/R;\n"
        "  y = 2*x;\n"
        "algorithm\n"
        "  when time >= next then\n"
        "    s := 1 - s;\n"
        "    next := pre(next) + 1;\n"
        "  end when;\n"
        "  annotation(experiment(StopTime = 5));\n"
        "end m;\n",
        "refused: parse 1 39",
        "5:9",
        "expected 'algorithm'",
        "write 'initial algorithm' with ':='",
        (("initial equation\n  x = 3;", "initial algorithm\n  x := 3;"),),
    ),
]
