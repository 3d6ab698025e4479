"""Sources of small models, each computed from a seed."""

# The texts of which sources consist. In them `$` and a letter denote one of that letter's texts. The first text of a
# letter names no discrete variable.
STATES = ("x0", "x1", "x2", "x3")
DISCRETES = ("d0", "d1")

TEXTS = {
    # numbers; numbers and the parameter
    "p": ("1", "2", "0.5", "0.25", "3", "1.5", "0.1", "4", "1/3"),
    "n": ("$p", "$p", "$p", "P"),
    # factors; factors of right sides
    "k": ("0.5", "0.25", "2", "0.1", "P", "1", "0.75", "3", "1.25", "(1/3)^2", "20", "1000"),
    "f": ("$k",),
    # start values; quanta of states
    "s": ("$n", "-$n", "0", "10"),
    "q": ("", "", "", " annotation(QSS_Quantum = 0.5)", " annotation(QSS_Quantum = 2)"),
    # terms of right sides; right sides; what they end with
    "t": ("$f*$x", "$n", "$f*$d", "$f*$d*$x", "$d*$x", "$f*($x - $x)", "(1 - $d)*($x + $n)"),
    "e": ("$t", "-$t", "$t + $t", "$t - $t", "-$t - $t", "$t + $t - $t"),
    "z": ("", " - $x", " - 0.5*$x"),
    # assigned values; statements; statements of a branch
    "v": (
        "$k*$x",
        "-$k*$x",
        "$x - 1",
        "$s",
        "$d + 1",
        "pre($d) + 1",
        "-$d",
        "1 - pre($d)",
        "$k*$d - $x",
        "time",
        "pre($d) - $d + $x",
        "1000000*$x",
    ),
    "a": ("reinit($x, $v); ", "$d := $v; ", "$d := $v; "),
    "b": ("$a", "", "$a$a", "$a$a$a"),
    # relations; conditions; branches of a clause
    "r": ("<", "<=", ">", ">="),
    "c": (
        "$x $r $s",
        "$x $r $s",
        "time $r $n",
        "$x $r $x",
        "$x - $x $r $n*time",
        "$d $r $n",
        "$x - $x $r $d",
        "pre($d) $r $s",
        "$k*$x + $d $r time",
    ),
    "w": (
        "when $c then $b",
        "when $c then $belsewhen $c then $b",
        "when $c then $belsewhen $c then $belsewhen $c then $b",
    ),
    # numbers of ticks; settings
    "l": ("20", "35", "60", "100", "150", "200"),
    "g": (
        "StopTime = $l/16, QSS_CoefBits = 8, QSS_TickBits = 4, QSS_LevelBits = 2, QSS_Quantum = 0.25",
        "StopTime = $l/4, QSS_CoefBits = 4, QSS_TickBits = 2, QSS_LevelBits = 0, QSS_Quantum = 1",
        "StopTime = $l/64, QSS_CoefBits = 12, QSS_TickBits = 6, QSS_LevelBits = 4, QSS_Quantum = 0.125",
        "StopTime = $l, QSS_CoefBits = 0, QSS_TickBits = 0, QSS_LevelBits = 1, QSS_Quantum = 1",
    ),
    # of models of large numbers: starts near the limit of levels, factors up to the limit of coefficients and right
    # sides of many such, assigned values, settings with many bits
    "S": ("$p", "-$p", "549755813888", "-400000000000", "100000000000", "-50000000000", "20000000000"),
    "F": ("1048576", "1000000", "524288", "1"),
    "E": ("$t", "-$t - $t", "$t + $t - $t", "$t - $t + $t + $t"),
    "V": ("$s", "16000*$x", "-$x", "$d + 1", "pre($d) + $x", "-1000*$d"),
    "G": ("StopTime = $l/1048576, QSS_CoefBits = 24, QSS_TickBits = 20, QSS_LevelBits = 4, QSS_Quantum = 1",),
}

LARGE = "sfevg"  # letters with other texts in models of large numbers


class Chance:
    """Numbers, each a linear function of the one before, in 64 bits, of which the upper ones are taken."""

    def __init__(self, seed: int) -> None:
        self.number = seed

    def below(self, bound: int) -> int:
        """A number below a bound."""
        self.number = (self.number * 6364136223846793005 + 1442695040888963407) % 2**64
        return (self.number >> 33) % bound


class Draft:
    """A source while it is written: how many states and discrete variables it has, and whether its numbers are
    large.
    """

    def __init__(self, seed: int) -> None:
        self.chance = Chance(seed)
        states, discretes = self.chance.below(4) + 1, self.chance.below(3)
        self.states, self.discretes = STATES[:states], DISCRETES[:discretes]
        self.is_large = self.chance.below(4) == 0
        self.text = ""

    def text_of(self, letter: str) -> str:
        """One of a letter's texts; without discrete variables one that names none."""
        texts = {"x": self.states, "d": self.discretes}.get(letter)
        if texts is None:
            texts = TEXTS[letter.upper() if self.is_large and letter in LARGE else letter]
        text = texts[self.chance.below(len(texts))]
        return texts[0] if "$d" in text and not self.discretes else text

    def write(self, text: str) -> None:
        """Writes a text, with a text for each sign, from the left."""
        left = list(reversed(text))
        while left:
            mark = left.pop()
            if mark == "$":
                left += reversed(self.text_of(left.pop()))
            else:
                self.text += mark

    def declare(self) -> None:
        """The declarations, and an equation for each state."""
        self.write("model m parameter Real P = $p; ")
        for state in self.states:
            self.write("Real %s(start = $s)$q; " % state)
        for discrete in self.discretes:
            self.write("discrete Real %s(start = $s); " % discrete)
        self.write("equation ")
        for state in self.states:
            self.write("der(%s) = $e$z; " % state)

    def handle(self) -> None:
        """Some clauses."""
        self.write("algorithm ")
        for _ in range(self.chance.below(4)):
            self.write("$wend when; ")

    def finish(self) -> str:
        """The settings, and the whole source."""
        self.write("annotation(experiment($g)); end m;")
        return self.text


def source(seed: int) -> str:
    """The source of a seed."""
    draft = Draft(seed)
    draft.declare()
    draft.handle()
    return draft.finish()


def plain_source(seed: int) -> str:
    """The source of a seed, without clauses."""
    draft = Draft(seed)
    draft.declare()
    return draft.finish()


# A model whose first right side passes the limit of a row's sizes while each level is within its own.
HEAVY = (
    "model m Real x0, x1(start = 1), x2(start = 1), x3(start = 1); equation der(x0) = 1048576*x1 - 1048576*x2 + "
    "1048576*x3; der(x1) = 0;"
    " der(x2) = 0; der(x3) = 0; algorithm when time >= 1/524288 then reinit(x1, 549755813888); reinit(x2, "
    "549755813888);"
    " reinit(x3, 549755813888); end when; annotation(experiment(StopTime = 1/65536, QSS_CoefBits = 24, "
    "QSS_TickBits = 20,"
    " QSS_LevelBits = 4, QSS_Quantum = 1)); end m;"
)

# Models without clauses that seldom come of a seed.
RARE = {
    # its level is past the limit at once
    "past-at-once": ""
    "model m Real x(start = 549755813888.03125); equation der(x) = 0; annotation(experiment(StopTime = 1,"
    " QSS_CoefBits = 8, QSS_TickBits = 4, QSS_LevelBits = 4, QSS_Quantum = 4)); end m;",
    # its level passes the limit along a line, and that is looked at at tick 65,536
    "past-on-the-way": ""
    "model m Real x(start = 549755813887); equation der(x) = 16; annotation(experiment(StopTime = 4400,"
    " QSS_CoefBits = 0, QSS_TickBits = 4, QSS_LevelBits = 4, QSS_Quantum = 1)); end m;",
    # the same, looked at at the last tick
    "past-at-the-end": ""
    "model m Real x(start = 549755813887); discrete Real d(start = -1/2); equation der(x) = 17 + 2*d;"
    " annotation(experiment(StopTime = 40, QSS_CoefBits = 0, QSS_TickBits = 4, QSS_LevelBits = 4, QSS_Quantum = 1));"
    " end m;",
    # no tick after tick 0
    "no-tick": ""
    "model m Real x(start = 1); discrete Real d(start = 3); equation der(x) = d*x; annotation(experiment(StopTime = 0,"
    " QSS_CoefBits = 8, QSS_TickBits = 4, QSS_LevelBits = 4, QSS_Quantum = 1)); end m;",
}
