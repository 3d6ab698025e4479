"""The script .ci/run: it has rt make each check in one job, and then runs the checks without proofs."""
import os
import subprocess
import unittest

from support import ROOT, InFolder

RT = """#!/bin/sh
echo "rt $* with RT_JOBS=$RT_JOBS"
exit $STATUS
"""
PYTHON = "#!/bin/sh\n"
MAKE = """#!/bin/sh
echo "make $*"
"""
TESTS = "make check\n"


class Gate(InFolder):
    """With stand-ins for rt, python3, make, nproc, and for awk, which looks whether there is enough memory."""

    def setUp(self):
        super().setUp()
        for name, text in (("rt", RT), ("python3", PYTHON), ("make", MAKE)):
            os.chmod(self.file(name, text), 0o755)

    def gate(self, processors, is_enough=True, status=0, **settings):
        """Runs the gate; its status and its output."""
        for name, text in (("nproc", f"echo {processors}"), ("awk", f"exit {0 if is_enough else 1}")):
            os.chmod(self.file(name, f"#!/bin/sh\n{text}\n"), 0o755)
        environment = {it: value for it, value in os.environ.items() if it != "RT_JOBS"}
        environment.update(PATH=f"{self.folder}:{os.environ['PATH']}", STATUS=str(status), **settings)
        words = ["sh", os.path.join(ROOT, ".ci", "run")]
        done = subprocess.run(words, env=environment, stdout=subprocess.PIPE, text=True, check=False)
        return done.returncode, done.stdout

    def test_one_job_for_each_check(self):
        self.assertEqual(self.gate(4), (0, "rt ci with RT_JOBS=4\n" + TESTS))

    def test_rt_decides_by_itself(self):
        for answer in (self.gate(1), self.gate(8, is_enough=False)):
            self.assertEqual(answer, (0, "rt ci with RT_JOBS=\n" + TESTS))

    def test_a_setting_is_kept(self):
        self.assertEqual(self.gate(4, RT_JOBS="2"), (0, "rt ci with RT_JOBS=2\n" + TESTS))

    def test_the_status_of_rt(self):
        self.assertEqual(self.gate(4, status=1), (1, "rt ci with RT_JOBS=4\n"))


if __name__ == "__main__":
    unittest.main()
