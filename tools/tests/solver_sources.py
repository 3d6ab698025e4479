"""Sources in the forms of the stand-alone QSS solver, what is said of them, and what mends them, as in wrong_sources."""


def model(declared, equations, clauses="", starts=""):
    """A model with these lines; its equations begin in the line after the declared ones."""
    parts = [("", "  Real x(start = 1);\n" + declared), ("initial algorithm\n", starts), ("equation\n", equations)]
    parts.append(("algorithm\n", clauses))
    text = "".join(head + lines for head, lines in parts if lines)
    return (
        "model m\n%s  annotation(experiment(MMO_Solver = LIQSS2, MMO_Output = {x}, StopTime = 5, Tolerance = {1e-3}));\nend m;\n"
        % text
    )


DECAY = "  der(x) = -x;\n"

SOLVER = [
    (
        "quotient by a sum of discrete variables",
        model(
            "  Real i;\n  discrete Real Rd(start = 1), Rs(start = 2);\n",
            "  i = (x*Rs - 1)/(Rd + Rs);\n" + DECAY,
            "  when x < 0.5 then\n    Rs := 3;\n  end when;\n",
        ),
        "refused: affine 1 110",
        "6:17",
        "a division by a discrete variable is not affine",
        "clauses set to the number 1/(Rd + Rs) where they set Rd, Rs (a conductance in place of a resistance)",
        (
            ("(x*Rs - 1)/(Rd + Rs)", "x*k - g"),
            ("Rs(start = 2)", "Rs(start = 2), g(start = 1/3), k(start = 2/3)"),
            ("Rs := 3;", "Rs := 3; g := 1/4; k := 3/4;"),
        ),
    ),
    (
        "quotient by the name of a sum",
        model(
            "  Real R;\n  discrete Real Rd(start = 1), Rs(start = 2);\n",
            "  R = Rd + Rs;\n  der(x) = -x/R;\n",
            "  when x < 0.5 then\n    Rs := 3;\n  end when;\n",
        ),
        "refused: affine 1 122",
        "7:14",
        "a division by a discrete variable is not affine",
        "to the number 1/(R) where they set Rd, Rs",
        (
            ("-x/R", "-x*g"),
            ("Rs(start = 2)", "Rs(start = 2), g(start = 1/3)"),
            ("Rs := 3;", "Rs := 3; g := 1/4;"),
        ),
    ),
    (
        "product of two discrete variables and a state",
        model(
            "  discrete Real c(start = 1), g(start = 2);\n",
            "  der(x) = -c*g*x;\n",
            "  when x < 0.5 then\n    c := 0;\n  end when;\n",
        ),
        "refused: affine 1 95",
        "5:14",
        "a product of two discrete variables is not affine",
        "in a third discrete variable",
        (
            ("-c*g*x", "-cg*x"),
            ("g(start = 2)", "g(start = 2), cg(start = 2)"),
            ("c := 0;", "c := 0; cg := 0;"),
        ),
    ),
    (
        "contact at a height that changes",
        model(
            "  discrete Real c, h(start = 1);\n",
            "  der(x) = -c*(x - h) - 1;\n",
            "  when x < h then\n    c := 1;\n  end when;\n",
        ),
        "refused: affine 1 84",
        "5:14",
        "a product of two discrete variables is not affine, and this one contains c*h",
        "multiply out, and keep c*h in a third discrete variable",
        (
            ("-c*(x - h) - 1", "-c*x + ch - 1"),
            ("h(start = 1)", "h(start = 1), ch"),
            ("c := 1;", "c := 1; ch := h;"),
        ),
    ),
    (
        "else of a clause",
        model(
            "  discrete Real on;\n",
            DECAY,
            "  when x > 0.5 then\n    on := 1;\n  else\n    on := 0;\n  end when;\n",
        ),
        "refused: parse 1 33",
        "9:3",
        "unexpected 'else'",
        "write 'elsewhen' with the opposite condition",
        (("  else\n", "  elsewhen x < 0.5 then\n"),),
    ),
    (
        "if in a clause",
        model(
            "  discrete Real on, next(start = 1);\n",
            DECAY,
            "  when time > next then\n    next := next + 1;\n    if x < 0.5 then\n      on := 1;\n    end if;\n"
            "  end when;\n",
        ),
        "refused: parse 1 42",
        "9:5",
        "unexpected 'if'",
        "a branch or a clause of its own for each case",
        (
            ("    if x < 0.5 then\n      on := 1;\n    end if;\n", ""),
            ("algorithm\n", "algorithm\n  when x < 0.5 then\n    on := 1;\n  end when;\n"),
        ),
    ),
    (
        "discrete variable as a condition",
        model(
            "  discrete Real s, on;\n",
            DECAY,
            "  when x < 0.5 then\n    s := 1;\n  end when;\n  when s then\n    on := 1;\n  end when;\n",
        ),
        "refused: parse 1 40",
        "10:10",
        "unexpected 'then'",
        "for a discrete variable s of 0 or 1 write 's > 0.5'",
        (("when s then", "when s > 0.5 then"),),
    ),
    (
        "equality of a discrete variable",
        model(
            "  discrete Real s, on;\n",
            DECAY,
            "  when x < 0.5 then\n    s := 1;\n  end when;\n  when s == 1 then\n    on := 1;\n  end when;\n",
        ),
        "refused: parse 1 40",
        "10:10",
        "unexpected '=='",
        "for a discrete s of 0 or 1 's > 0.5'",
        (("when s == 1 then", "when s > 0.5 then"),),
    ),
    (
        "sum in a condition",
        model(
            "  Real u[3];\n  discrete Real on;\n",
            DECAY + "  for i in 1:3 loop\n    der(u[i]) = x;\n  end for;\n",
            "  when sum(u) > 1 then\n    on := 1;\n  end when;\n",
        ),
        "refused: parse 1 52",
        "11:11",
        "unexpected '('",
        "total[i] = total[i - 1] + u[i]",
        (
            ("sum(u)", "total[3]"),
            ("u[3];", "u[3], total[3];"),
            (
                "algorithm\n",
                "  total[1] = u[1];\n  for i in 2:3 loop\n    total[i] = total[i - 1] + u[i];\n  end for;\nalgorithm\n",
            ),
        ),
    ),
    (
        "abs in a condition",
        model(
            "  discrete Real on;\n",
            DECAY,
            "  when abs(x - 1) > 0.25 then\n    on := 1;\n  end when;\n",
        ),
        "refused: parse 1 26",
        "7:11",
        "unexpected '('",
        "'when x > a then ..', 'elsewhen x < -a then ..'",
        (("  when abs(x - 1) > 0.25 then", "  when x - 1 > 0.25 then\n    on := 1;\n  elsewhen x - 1 < -0.25 then"),),
    ),
    (
        "abs in a statement",
        model(
            "  discrete Real v, next(start = 1);\n",
            DECAY,
            "  when time > next then\n    next := next + 1;\n    v := abs(x - 1);\n  end when;\n",
        ),
        "refused: parse 1 45",
        "9:13",
        "unexpected '('",
        "write 'v := x;' and a clause of its own, 'when v < 0 then v := -v; end when;'",
        (
            ("abs(x - 1)", "x - 1"),
            ("  end when;\n", "  end when;\n  when v < 0 then\n    v := -v;\n  end when;\n"),
        ),
    ),
    (
        "max in an equation",
        model("  Real y;\n", "  der(x) = -y;\n  y = max(x, 0.5);\n"),
        "refused: parse 1 25",
        "6:10",
        "unexpected '('",
        "'when a > b then d := 1;', 'elsewhen a < b then d := 0;', and write d*a + (1 - d)*b",
        (
            ("max(x, 0.5)", "d*x + (1 - d)*0.5"),
            ("  Real y;\n", "  Real y;\n  discrete Real d(start = 1);\n"),
            (
                "  annotation",
                "algorithm\n  when x > 0.5 then d := 1; elsewhen x < 0.5 then d := 0; end when;\n  annotation",
            ),
        ),
    ),
    (
        "max in a statement",
        model(
            "  discrete Real v, next(start = 1);\n",
            DECAY,
            "  when time > next then\n    next := next + 1;\n    v := max(x, 0.25);\n  end when;\n",
        ),
        "refused: parse 1 45",
        "9:13",
        "unexpected '('",
        "'when v < b then v := b; end when;'",
        (
            ("max(x, 0.25)", "x"),
            ("  end when;\n", "  end when;\n  when v < 0.25 then\n    v := 0.25;\n  end when;\n"),
        ),
    ),
    (
        "input",
        model("  input Real u;\n  discrete Real on;\n", "  der(x) = u - x;\n"),
        "refused: parse 1 10",
        "3:3",
        "unexpected 'input'",
        "'discrete Real u' that clauses set",
        (("input Real u;", "discrete Real u;"),),
    ),
    (
        "Boolean",
        model(
            "  discrete Boolean on;\n",
            DECAY,
            "  when x < 0.5 then\n    on := true;\n  end when;\n",
        ),
        "refused: parse 1 11",
        "3:12",
        "unexpected 'Boolean'",
        "'discrete Real' (1 and 0 for true and false)",
        (
            ("Boolean", "Real"),
            ("true", "1"),
        ),
    ),
    (
        "random start",
        model("  Real u[3];\n", DECAY + "  for i in 1:3 loop\n    der(u[i]) = -x;\n  end for;\n").replace(
            "equation\n", "initial algorithm\n  for i in 1:3 loop\n    u[i] := rand(4) + 18;\n  end for;\nequation\n"
        ),
        "refused: parse 1 31",
        "6:17",
        "unexpected '('",
        "write a value for each index, as '18 + 4*i/N'",
        (("rand(4) + 18", "18 + 4*i/3"),),
    ),
    (
        "bound that is not whole",
        model(
            "  Real u[10];\n",
            DECAY + "  for i in 1:10 loop\n    der(u[i]) = -x;\n  end for;\n",
            starts="  for i in 1:0.333*10 loop\n    u[i] := 1;\n  end for;\n",
        ),
        "refused: unroll 2 67",
        "5:7",
        "this index or bound is not a whole number",
        "write a whole number",
        (("0.333*10", "3"),),
    ),
    (
        "array of parameters",
        model(
            "  parameter Real R[2] = 3;\n  Real u[2];\n",
            DECAY + "  for i in 1:2 loop\n    der(u[i]) = -u[i]/R[i];\n  end for;\n",
        ),
        "refused: names 4 46",
        "3:18",
        "a parameter cannot be an array",
        "use an expression of the index",
        (
            ("  parameter Real R[2] = 3;\n", ""),
            ("u[i]/R[i]", "u[i]/(2 + i)"),
        ),
    ),
]
