"""The table of tools/largest-inputs, with a stand-in for valgrind and for time, and the models of its inputs."""
import os
import stat
import unittest

from support import PROGRAM, InFolder, run

from qss_tools.model.grammar import parse
from qss_tools.model.source import Source
from qss_dev.largest_inputs import INPUTS

# Counts 1 million instructions, or 1 MiB, for each byte of the model beyond 800.
COUNTER = """#!/bin/sh
for path; do :; done
bytes=$(wc -c < "$path")
case "$1" in
-q) echo "$((bytes * 1024))" >&2 ;;
*) echo "==1== Collected : $((bytes * bytes))000000" >&2 ;;
esac
"""
HEAD = "| input | command | largest size | %s at 1/4 | at 1/2 | at 1 | growth |\n|---|---|---|---|---|---|---|\n"


class Tables(InFolder):
    def setUp(self):
        super().setUp()
        before = os.environ["PATH"]
        self.addCleanup(os.environ.__setitem__, "PATH", before)
        os.environ["PATH"] = self.folder + os.pathsep + before
        for name in ("valgrind", "time"):
            path = self.file(name, COUNTER)
            os.chmod(path, os.stat(path).st_mode | stat.S_IXUSR)

    def sizes(self, name, scale):
        one = INPUTS[name]
        return [len(one.model(max(3, one.most // (share * scale)))) for share in (4, 2, 1)]

    def test_instructions(self):
        status, out, err = run("largest-inputs", "long-starts", "--scale", "256", "--program", PROGRAM)
        sizes = [size * size for size in self.sizes("long-starts", 256)]
        numbers = " | ".join(f"{size:,.1f}" for size in sizes)
        row = "| long-starts | `run` | 4,092 bytes of a start value in a loop | %s | %.2f super-linear |\n" % (
            numbers,
            sizes[2] / sizes[1],
        )
        self.assertEqual((status, out, err), (1, HEAD % "millions of instructions" + row, ""))

    def test_memory(self):
        status, out, err = run("largest-inputs", "devs-start", "--memory", "--scale", "512", "--program", PROGRAM)
        sizes = self.sizes("devs-start", 512)
        numbers = " | ".join(f"{size:,.1f}" for size in sizes)
        row = "| devs-start | `devs` | 8 states | %s | %.2f |\n" % (numbers, sizes[2] / sizes[1])
        self.assertEqual((status, out, err), (0, HEAD % "MiB" + row, ""))

    def test_faults(self):
        self.assert_fault(run("largest-inputs", "none", "--program", PROGRAM), "'none' is not an input")
        self.assert_fault(run("largest-inputs", "--scale", "0", "--program", PROGRAM), "--scale takes a number")

    def test_a_missing_command(self):
        os.remove(os.path.join(self.folder, "valgrind"))
        os.environ["PATH"] = self.folder
        fault = run("largest-inputs", "chain-forward", "--scale", "512", "--program", PROGRAM)
        self.assert_fault(fault, "valgrind: no such command")


class Models(unittest.TestCase):
    def test_each_input_is_a_model_within_the_limits(self):
        for name, one in INPUTS.items():
            with self.subTest(name):
                self.assertLessEqual(len(one.model(one.most)), 1 << 20)
                parse(Source("m.mo", one.model(max(3, one.most // 128)).encode()))


if __name__ == "__main__":
    unittest.main()
