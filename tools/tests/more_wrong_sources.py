"""Further sources that are wrong in the ways of newcomers, in the form of wrong_sources.py."""

WRONG_TOO = [
    (
        "a1",
        "model a1\n"
        "  import Modelica.Units.SI;\n"
        "  parameter SI.Resistance R = 10;\n"
        "  SI.Voltage v(start = 0, fixed = true);\n"
        "equation\n"
        "  der(v) = (5 - v)/R;\n"
        "  annotation(experiment(StopTime = 50));\n"
        "end a1;\n",
        "refused: parse 1 10",
        "3:13",
        "unexpected 'SI'",
        "'Real'",
        (("SI.Resistance", "Real"), ("SI.Voltage", "Real")),
    ),
    (
        "a2",
        "model a2\n"
        "  Real x(start = 1, fixed = true, min = 0, nominal = 2);\n"
        "  Boolean on(start = true);\n"
        "equation\n"
        "  der(x) = if on then -x else 1 - x;\n"
        "  on = x > 0.5;\n"
        "  annotation(experiment(StopTime = 5, Interval = 0.01));\n"
        "end a2;\n",
        "refused: parse 1 22",
        "3:3",
        "unexpected 'Boolean'",
        "'discrete Real'",
        (
            ("Boolean on(start = true)", "discrete Real on(start = 1)"),
            ("if on then -x else 1 - x", "on*(-x) + (1 - on)*(1 - x)"),
            ("  on = x > 0.5;\n", "algorithm\n  when x > 0.5 then on := 1; elsewhen x < 0.5 then on := 0; end when;\n"),
        ),
    ),
    (
        "a3",
        "model a3\n"
        "  Real x(start = 1);\n"
        "  Real u;\n"
        "equation\n"
        "  u = max(0, min(1, 2*x));\n"
        "  der(x) = -u;\n"
        "  annotation(experiment(StopTime = 5));\n"
        "end a3;\n",
        "refused: parse 1 17",
        "5:10",
        "unexpected '('",
        "there are no functions ('max'): choose by clauses",
        (
            ("Real u;", "Real u; discrete Real low(start = 0), high(start = 1);"),
            ("u = max(0, min(1, 2*x));", "u = high + (1 - high - low)*2*x;"),
            (
                "  annotation",
                "algorithm\n  when 0 > x then low := 1; elsewhen 0 < x then low := 0; end when;\n  when 1 < 2*x then high := 1; elsewhen 1 > 2*x then high := 0; end when;\n  annotation",
            ),
        ),
    ),
    (
        "a4",
        "model a4\n"
        "  Real x(start = 1), y(start = 0);\n"
        "equation\n"
        "  der(x) = -x + y;\n"
        "  0 = x - 2*y;\n"
        "  annotation(experiment(StopTime = 5));\n"
        "end a4;\n",
        "refused: parse 1 28",
        "5:3",
        "unexpected '0'",
        "write 'y = x/2'",
        (("0 = x - 2*y", "y = x/2"),),
    ),
    (
        "a5",
        "model a5\n"
        "  Real i1, i2;\n"
        "  parameter Real L1 = 1, L2 = 2, M = 0.5;\n"
        "equation\n"
        "  L1*der(i1) + M*der(i2) = 1;\n"
        "  M*der(i1) + L2*der(i2) = 0;\n"
        "  annotation(experiment(StopTime = 5));\n"
        "end a5;\n",
        "refused: parse 1 23",
        "5:5",
        "unexpected '*'",
        "write 'der(i1) = (L2*1 - M*0)/(L1*L2 - M*M)'",
        (
            ("L1*der(i1) + M*der(i2) = 1", "der(i1) = (L2*1 - M*0)/(L1*L2 - M*M)"),
            ("M*der(i1) + L2*der(i2) = 0", "der(i2) = (L1*0 - M*1)/(L1*L2 - M*M)"),
        ),
    ),
    (
        "a6",
        "model a6\n"
        "  Real x(start = 0);\n"
        "  discrete Real k(start = 0);\n"
        "equation\n"
        "  der(x) = 1 - x;\n"
        "  when x > 0.5 then\n"
        "    k = pre(k) + 1;\n"
        "    reinit(x, 0);\n"
        "  end when;\n"
        "  annotation(experiment(StopTime = 5));\n"
        "end a6;\n",
        "refused: parse 1 29",
        "6:3",
        "unexpected 'when'",
        "'algorithm' section",
        (("  when x", "algorithm\n  when x"), ("k = pre", "k := pre")),
    ),
    (
        "a7",
        "model a7\n"
        "  Real x(start = 0);\n"
        "  discrete Real u(start = 0);\n"
        "  parameter Real tab[3] = {1, 2, 3};\n"
        "equation\n"
        "  der(x) = tab[2]*u - x;\n"
        "algorithm\n"
        "  when sample(0, 0.1) then\n"
        "    if x > 1 then u := 0; else u := 1; end if;\n"
        "  end when;\n"
        "  annotation(experiment(StopTime = 5));\n"
        "end a7;\n",
        "refused: parse 1 26",
        "4:27",
        "unexpected '{'",
        "write 'tab_1 = 1, tab_2 = 2, tab_3 = 3' and 'tab_2'",
        (
            ("tab[3] = {1, 2, 3}", "tab_1 = 1, tab_2 = 2, tab_3 = 3"),
            ("tab[2]", "tab_2"),
            ("u(start = 0)", "u(start = 0), next(start = 0.1)"),
            (
                "when sample(0, 0.1) then\n    if x > 1 then u := 0; else u := 1; end if;\n",
                "when time >= next then\n    next := pre(next) + 0.1;\n",
            ),
        ),
    ),
    (
        "a8",
        "model a8\n"
        "  Real x(start = 0); Real p;\n"
        "  parameter Real R = 1;\n"
        "equation\n"
        "  der(x) = 1 - x;\n"
        "  p = R*x*x;\n"
        "  annotation(experiment(StopTime = 5))\n"
        "end a8;\n",
        "refused: parse 1 46",
        "8:1",
        "unexpected 'end'",
        "a ';' is missing at the end of line 7",
        (("5))\n", "5));\n"), ("  p = R*x*x;\n", "  p = R*x;\n")),
    ),
    (
        "a9",
        "within Lib.Examples;\n"
        'model a9 "with help"\n'
        "  extends Icons.Example;\n"
        "  Real x(start = 0);\n"
        "equation\n"
        "  der(x) = 1 - x;\n"
        '  annotation(Documentation(info = "<html>a</html>"), experiment(StopTime = 5, StartTime = 0));\n'
        "end a9;\n",
        "refused: parse 1 0",
        "1:1",
        "unexpected 'within'",
        "leave this line out",
        (("within Lib.Examples;\n", ""), ("  extends Icons.Example;\n", "")),
    ),
    (
        "b1",
        "model b1\n"
        "  Real x(start = 0);\n"
        "  discrete Real s(start = 0);\n"
        "equation\n"
        "  der(x) = s - x;\n"
        "algorithm\n"
        "  when time >= 0.5 and x < 1 then s := 1; end when;\n"
        "  when time > 1.0 then s := 0 end when;\n"
        "  annotation(experiment(StopTime = 5));\n"
        "end b1;\n",
        "refused: parse 1 34",
        "7:20",
        "unexpected 'and'",
        "one relation",
        (("time >= 0.5 and x < 1", "time >= 0.5"), ("0 end", "0; end")),
    ),
    (
        "b2",
        "model b2\n"
        "  Real x(start = 0);\n"
        "  discrete Real s(start = 0);\n"
        "equation\n"
        "  der(x) = s - x;\n"
        "algorithm\n"
        "  when x > 0.1 then s := 0; elsewhen time > 0.5 then s := 1; else s := 2; end when;\n"
        "  annotation(experiment(StopTime = 5));\n"
        "end b2;\n",
        "refused: parse 1 48",
        "7:62",
        "unexpected 'else'",
        "'elsewhen' with the opposite condition",
        (("else s", "elsewhen time < 0.5 then s"),),
    ),
    (
        "b3",
        "model b3\n"
        "  constant Real pi = 2*asin(1.0);\n"
        "  parameter Real f = 50, w = 2*pi*f;\n"
        "  Real x(start = 0);\n"
        "equation\n"
        "  der(x) = 10*cos(w*time) - x/1e-3;\n"
        "  annotation(experiment(StopTime = 5));\n"
        "end b3;\n",
        "refused: parse 1 9",
        "2:28",
        "unexpected '('",
        "write the number 1.57079633 in place of asin(1.0)",
        (
            ("asin(1.0)", "1.57079633"),
            ("10*cos(w*time)", "10*c"),
            ("x(start = 0)", "x(start = 0), s(start = 0), c(start = 1)"),
            ("equation\n", "equation\n  der(s) = w*c;\n  der(c) = -w*s;\n"),
        ),
    ),
    (
        "b4",
        "model b4\n"
        "  parameter Real R = 1,5;\n"
        "  Real x(start = 0);\n"
        "equation\n"
        "  der(x) = -x/R\n"
        "end b4;\n",
        "refused: parse 1 8",
        "2:24",
        "unexpected '5'",
        "write 1.5 for 1,5",
        (("1,5", "1.5"), ("-x/R", "-x/R;")),
    ),
    (
        "b5",
        "model b5\n"
        "  parameter Real R1 = 4k, C = 10u;\n"
        "  Real x(start = 1);\n"
        "equation\n"
        "  der(x) = -x/(R1*C);\n"
        "end b5;\n",
        "refused: parse 1 7",
        "2:24",
        "unexpected 'k'",
        "4e3 for 4k",
        (("4k", "4e3"), ("10u", "10e-6")),
    ),
    (
        "b6",
        "model b6\n"
        "  Real x(start = 1);\n"
        "  discrete Real n(start = 0);\n"
        "equation\n"
        "  der(x) = -n*x;\n"
        "algorithm\n"
        "  when time >= 1 then n = 3; end when;\n"
        "  annotation(experiment(StopTime = 5));\n"
        "end b6;\n",
        "refused: parse 1 37",
        "7:25",
        "unexpected '='",
        "':='",
        (("n = 3", "n := 3"),),
    ),
]
