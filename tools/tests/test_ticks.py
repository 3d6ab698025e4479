"""Runs that are worked out tick by tick: those of worked rows, those of the transcript, and those of a few seeds."""
import glob
import os
import re
import unittest

import models
import scripts
from support import InFolder, run

from qss_tools.runs.machines import NoMachine, nearest
from qss_dev import seeds
from qss_dev.by_ticks import MOST_SHARE, first_order, machine_of, second_order
from qss_dev.seed_calls import (
    EXAMPLES,
    FIRST,
    GALLERY,
    HEAVY,
    SECOND,
    STOPS,
    digest,
    example_file,
    certificates_part,
    examples_part,
    first_calls,
    plain_calls,
    replaced,
    second_part,
    seed_calls,
    seeds_part,
)
from qss_dev.seeds import Chance
from qss_dev.ticks import RULES

MOST_WORK = 30000  # ticks times states of a call that is played
RUN = re.compile(
    r"run (?P<model>[^-]\S*)(?: --rule (?P<rule>floor|near|inward))?(?: --relative (?P<share>\d{1,4}))?(?: --only (?P<only>[^-]\S*))?"
    r"|run2 (?P<second>[^-]\S*)"
)
TOLD_SEEDS = 12

DECAY = (
    "model decay Real x(start = 64); equation der(x) = -1*x; annotation(experiment(StopTime = 1, QSS_CoefBits = 8, QSS_TickBits = 4,"
    " QSS_LevelBits = 0, QSS_Quantum = 4)); end decay;"
)


def told(answer, is_kept):
    """An answer as the transcript has it: of a call whose rows become a file, without them."""
    text = "" if is_kept else answer.text
    return (
        text + ("! " + answer.line if answer.line else "") + ("[status %d]\n" % answer.status if answer.status else "")
    )


class Worked(InFolder):
    def test_worked_rows(self):
        for source, rows, status, line in (
            (models.BALL, models.BALL_ROWS, 0, ""),
            (models.SWITCHED, models.SWITCHED_ROWS, 0, ""),
            (models.GROWING, models.GROWING_ROWS, 6, "overflow: x at tick 5\n"),
        ):
            self.assertEqual(run("by-ticks", "run", self.file("m.mo", source)), (status, rows, line))

    def test_rows_of_one_variable(self):
        kept = "".join(
            row
            for row in models.SWITCHED_ROWS.splitlines(True)
            if row.startswith("tick") or ",u[" in row or ",when," in row
        )
        self.assertEqual(run("by-ticks", "run", self.file("m.mo", models.SWITCHED), "--only", "u"), (0, kept, ""))

    def test_what_is_refused(self):
        model = self.file("m.mo", DECAY)
        self.assertEqual(
            run("by-ticks", "run", self.file("q.mo", DECAY.replace("Quantum = 4", "Quantum = 0.5"))),
            (5, "", "refused: machine 3 x\n"),
        )
        self.assertEqual(run("by-ticks", "run2", self.file("b.mo", models.BALL)), (1, "", "rejected: clauses 1\n"))
        self.assert_fault(run("by-ticks", "run2", model, "--rule", "near"), "run2 goes with no option")
        self.assert_fault(
            run("by-ticks", "run", model, "--relative", "2049"), "'2049' is no whole number from 0 to 2048"
        )
        self.assert_fault(run("by-ticks", "run", self.file("n.mo", "model n Real x; end n;")), "no model")
        self.assert_fault(run("by-ticks", "run", self.file("t.mo", DECAY.replace("-1*x", "time"))), "no model")
        self.assert_fault(run("by-ticks", "run", "absent.mo"), "absent.mo: there is no such file")

    def test_nearest(self):
        self.assertEqual([nearest(number, 2) for number in range(-5, 6)], [-2, -2, -2, -1, 0, 0, 0, 1, 2, 2, 2])
        self.assertEqual([nearest(number, 3) for number in range(-4, 5)], [-1, -1, -1, 0, 0, 0, 1, 1, 1])

    def test_the_share_of_a_level(self):
        # A quantum of an eighth of the level, 8 at the start: 64 falls by 4 a tick, and is 8 away after two.
        rows = first_order("m", DECAY.encode(), "floor", 512).text.splitlines()
        self.assertEqual(rows[1:3], ["0,start,x,64,262144", "2,level,x,56,229376"])

    def test_rules(self):
        for state, old, levels in (
            (6, 3, (1, 2, 2)),
            (6, 0, (1, 2, 1)),
            (-6, 0, (-2, -2, -1)),
            (-6, -3, (-2, -2, -2)),
            (5, 3, (1, 1, 2)),
            (8, 3, (2, 2, 2)),
        ):
            self.assertEqual(tuple(RULES[rule](4, state, old) for rule in ("floor", "near", "inward")), levels)


class Transcript(unittest.TestCase):
    def test_runs_of_the_transcript(self):
        """Each run that is short enough has the answer of the transcript, and so has a model that means no machine."""
        played = 0
        for call in scripts.calls():
            match = RUN.fullmatch(" ".join(call.words[:-2] if call.words[-2:-1] == [">"] else call.words))
            if match is None or call.fails or re.match("! refused: (?!machine)", call.answer):
                continue
            name = match["model"] or match["second"]
            if (
                name not in call.files
                or name.startswith(("seed-", "plain-"))
                and int(re.sub(r"\D", "", name)) >= TOLD_SEEDS
            ):
                continue
            answer = self.answer(match, call.files[name].encode("latin-1"))
            if answer is not None and len(answer.text) <= call.room:
                self.compare(call, answer)
                played += 1
        self.assertGreaterEqual(played, 110)

    def compare(self, call, answer):
        """A call has this answer, and its sum is that of its rows."""
        is_kept = ">" in call.words
        self.assertEqual(told(answer, is_kept), call.answer, call.words)
        if is_kept and call.summed is not None:
            self.assertEqual("%d bytes, digest %d\n" % (len(answer.text), digest(answer.text)), call.summed, call.words)

    def answer(self, match, data):
        """The answer to a call, or None to one that is long or no command."""
        if int(match["share"] or 0) > MOST_SHARE:
            return None
        try:
            machine = machine_of("model", data)
            if machine.last * max(1, machine.states) > MOST_WORK:
                return None
        except NoMachine:
            pass
        if match["second"]:
            return second_order("model", data)
        return first_order("model", data, match["rule"] or "floor", int(match["share"] or 0), match["only"])

    def test_seeds_of_the_transcript(self):
        """The calls of the first seeds stand there as they are made, with their answers."""
        for name, kind in (("stdin", "script"), ("stdout", "answers")):
            text = "".join(line + "\n" for line in scripts.lines_of(name))
            for heading, first, of_seed in (
                (FIRST, first_calls("heavy.mo", HEAVY), seed_calls),
                (SECOND, None, plain_calls),
            ):
                begin = text.index("\n" + heading) + 1 + len(heading)
                for part in [first] * (first is not None) + [of_seed(seed) for seed in range(TOLD_SEEDS)]:
                    wanted = getattr(part, kind)
                    begin = text.index(wanted, begin)

    def test_examples_of_the_transcript(self):
        """Each example stands there as its file has it, but for the stop times of six, and both its runs have one sum."""
        left = {}
        for path in glob.glob(os.path.join(EXAMPLES, "*.mo")):
            name = os.path.basename(path)
            with open(path, encoding="ascii") as file:
                left["run %s > rows" % name] = left["devs %s > rows" % name] = example_file(name, file.read())[1]
        self.assertEqual(len(left), 66)
        self.assertTrue(set(STOPS) <= {call.split()[1] for call in left})
        sums = {}
        for call in scripts.calls():
            words = " ".join(call.words)
            if words in left and call.files[call.words[1]] == left[words]:
                del left[words]
                self.assertEqual(
                    sums.setdefault(call.words[1], (call.answer, call.summed)), (call.answer, call.summed), words
                )
        self.assertEqual(left, {})
        self.assertNotIn(None, [summed for _, summed in sums.values()])


class Parts(InFolder):
    def test_sources(self):
        # The numbers behind 0 are 1442695040888963407 and that times 6364136223846793005, plus itself, modulo 2^64; of each the
        # upper 31 bits are taken.
        chance, number = Chance(0), 1442695040888963407
        self.assertEqual(chance.below(1000), (number >> 33) % 1000)
        number = (number * 6364136223846793005 + 1442695040888963407) % 2**64
        self.assertEqual(chance.below(7), (number >> 33) % 7)
        for seed in range(50):
            source, plain = seeds.source(seed), seeds.plain_source(seed)
            self.assertNotIn("$", source + plain)
            front = plain[: plain.index("annotation(experiment(")]
            self.assertTrue(source.startswith(front + "algorithm "))

    def test_parts_take_the_place_of_those_that_are_there(self):
        first, second = seeds_part(1, 1), second_part(1, 1)
        self.assertEqual(digest("ab"), 31 * 97 + 98)
        self.assertTrue(
            first.script.startswith(
                "\n"
                + FIRST
                + "# Of 2 models 1 mean a machine. Rows of their runs: level 7, overflow 7, start 28.\nfile heavy.mo\n+ model m "
            )
        )
        self.assertIn(
            "\n$ qss run heavy.mo --rule near --relative 2048 > rows\n! overflow: x0 at tick 2\n[status 6]\n$ sum rows\n",
            first.answers,
        )
        self.assertIn("\n$ qss run2 past-at-once.mo > rows\n! overflow: x at tick 0\n[status 6]\n", second.answers)
        whole = replaced(self.file("stdin", "# A\n\n# B\nfile b\n"), FIRST, first.script)
        self.assertEqual(whole, "# A\n\n# B\nfile b\n" + first.script)
        both = replaced(self.file("stdin", whole), SECOND, second.script)
        self.assertEqual(
            replaced(self.file("stdin", both), FIRST, "\n# C\n"), "# A\n\n# B\nfile b\n\n# C\n" + second.script
        )
        self.assertEqual(replaced(self.file("stdin", both), SECOND, second.script), both)

    def test_examples(self):
        self.file("decay.mo", DECAY + "\n")
        self.file("heat2d.mo", "// A heading.\n" + DECAY.replace("StopTime = 1", "StopTime = 200") + "\n")
        part = examples_part(self.folder, 1)
        self.assertTrue(
            part.script.startswith("\n" + GALLERY + "# Of 2 models 2 mean a machine. Rows of their runs: end 4, level ")
        )
        self.assertIn(
            "\nfile decay.mo\n| %s\n$ qss run decay.mo > rows\n$ sum rows\n$ qss devs decay.mo > rows\n$ sum rows\nfile heat2d.mo\n| // A heading.\n| model "
            % DECAY,
            part.script,
        )
        self.assertTrue(
            part.script.endswith(
                "\nchange StopTime\\s=\\s200 StopTime\\s=\\s5\n$ qss run heat2d.mo > rows\n$ sum rows\n$ qss devs heat2d.mo > rows\n$ sum rows\n"
            )
        )
        for text in (DECAY, DECAY.replace("StopTime = 1", "StopTime = 5")):
            rows = first_order("m", text.encode()).text
            told = "%d bytes, digest %d\n" % (len(rows), digest(rows))
            self.assertIn(" > rows\n$ sum rows\n%s$ qss devs " % told, part.answers)

    def test_long_answers_have_room(self):
        self.file(
            "long.mo",
            "model m Real x; equation der(x) = 1; annotation(experiment(StopTime = 20000, QSS_CoefBits = 0, QSS_TickBits = 0,"
            " QSS_LevelBits = 0, QSS_Quantum = 1)); end m;\n",
        )
        rows = (
            ["tick,event,name,level,state", "0,start,x,0,0"]
            + ["%d,level,x,%d,%d" % ((tick,) * 3) for tick in range(1, 20001)]
            + ["20000,end,x,20000,20000"]
        )
        size = sum(len(row) + 1 for row in rows)
        self.assertIn("\nroom %d\n$ qss run long.mo > rows\n" % size, examples_part(self.folder, 1).script)

    def test_the_parts_are_written(self):
        for name in ("stdin", "stdout"):
            self.file(name, "# A\n")
        self.file("decay.mo", DECAY + "\n")
        self.assertEqual(
            run(
                "seed-calls",
                "--folder",
                self.folder,
                "--examples",
                self.folder,
                "--seeds",
                "2",
                "--second",
                "1",
                "--jobs",
                "2",
            ),
            (0, "", ""),
        )
        made = (seeds_part(2, 1), second_part(1, 1), examples_part(self.folder, 1), certificates_part(self.folder))
        self.assertEqual(run("seed-calls", "--folder", self.folder, "--part", "second", "--second", "1"), (0, "", ""))
        for name, kind in (("stdin", "script"), ("stdout", "answers")):
            with open(os.path.join(self.folder, name), encoding="ascii") as file:
                self.assertEqual(file.read(), "# A\n" + "".join(getattr(part, kind) for part in made))
        self.assert_fault(run("seed-calls", "--seeds", "few"), "'few' is no whole number")


if __name__ == "__main__":
    unittest.main()
