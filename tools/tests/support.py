"""What the tests of the tools share: calls of the tools, a stand-in for the program, and files in a folder of their own."""
import functools
import glob
import importlib
import io
import os
import subprocess
import sys
import tempfile
import unittest

TESTS = os.path.dirname(os.path.abspath(__file__))
TOOLS = os.path.dirname(TESTS)
ROOT = os.path.dirname(TOOLS)
STAND_IN = os.path.join(TESTS, "stand_in")
# A program that runs any model: tick by tick, in Python, where the program is not built.
BY_TICKS = os.path.join(TESTS, "by_ticks_program")

sys.path.insert(0, TOOLS)
from qss_tools import program  # noqa: E402


def program_to_test():
    """The program that QSS_PROGRAM names, or the proved one, or the one without proofs if no source is newer."""
    named = os.environ.get(program.VARIABLE)
    if named or os.path.exists(program.BUILT) or not program.is_current(program.UNPROVED):
        return named or program.BUILT
    return program.UNPROVED


BUILT, PROVED = program_to_test(), program.BUILT
PROGRAM = BUILT if os.path.exists(BUILT) else BY_TICKS
# The tools run the program to test too. Where there is none, they run no unproved one from other sources.
if os.path.exists(BUILT):
    os.environ[program.VARIABLE] = BUILT
else:
    os.environ["QSS_PROVED"] = "1"
# No tool changes to an interpreter that has numpy, unless a test removes this.
os.environ["QSS_STARTED_BY"] = "tests"
# Scripts run by the interpreter of the tests.
os.environ["PATH"] = os.pathsep.join([os.path.dirname(sys.executable), os.environ.get("PATH", "")])
# Pictures are those that need no package, unless a test removes this.
os.environ["QSS_PLAIN"] = "1"


def run(tool, *words, given=""):
    """Runs a tool in this process; its status, its output and its lines on standard error."""
    streams = [io.TextIOWrapper(io.BytesIO(one), encoding="utf-8", newline="") for one in (given.encode(), b"", b"")]
    before = sys.stdin, sys.stdout, sys.stderr
    sys.stdin, sys.stdout, sys.stderr = streams
    try:
        status = module_of(tool).main(list(words))
    except SystemExit as ended:
        status = ended.code
    finally:
        sys.stdin, sys.stdout, sys.stderr = before
    texts = []
    for one in streams[1:]:
        one.flush()
        texts.append(one.buffer.getvalue().decode())
    return (status, *texts)


def module_of(tool):
    """The module of a tool."""
    return importlib.import_module(importlib.import_module("qss_tools.scripts").modules()[tool])


def modules_of(*packages):
    """The files of the modules of these packages of tools/."""
    return sorted(path for it in packages for path in glob.glob(os.path.join(TOOLS, it, "**", "*.py"), recursive=True))


def run_by(python, tool, *words):
    """Runs a tool by another interpreter; its status, its output and its lines on standard error."""
    words = [python, os.path.join(TOOLS, tool), *words]
    done = subprocess.run(words, stdin=subprocess.DEVNULL, stdout=subprocess.PIPE, stderr=subprocess.PIPE)
    return done.returncode, done.stdout.decode(), done.stderr.decode()


@functools.lru_cache(maxsize=None)
def python_with(*modules):
    """An interpreter that has these modules: this one, or else that of the system; or None."""
    for python in (sys.executable, "/usr/bin/python3"):
        words = [python, "-c", "import " + ", ".join(modules)]
        if os.path.exists(python) and not subprocess.run(words, stderr=subprocess.DEVNULL).returncode:
            return python
    return None


class InFolder(unittest.TestCase):
    """A test with a folder of its own."""

    def setUp(self):
        holder = tempfile.TemporaryDirectory()
        self.addCleanup(holder.cleanup)
        self.folder = holder.name

    def file(self, name, text):
        """Writes a file and gives its path."""
        path = os.path.join(self.folder, name)
        with open(path, "wb") as file:
            file.write(text if isinstance(text, bytes) else text.encode())
        return path

    def assert_fault(self, answer, part):
        """A call ended with one line that has this part, a status that is not 0, and no output."""
        status, out, err = answer
        self.assertEqual(status, 2, answer)
        self.assertEqual(out, "")
        self.assertEqual(err.count("\n"), 1, err)
        self.assertIn(part, err)
