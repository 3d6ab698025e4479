"""`make install` puts program, tools, man page and completions into a folder, and they work there. So does pip."""
import os
import re
import shutil
import subprocess
import sys
import tempfile
import unittest

from support import BUILT, PROGRAM, ROOT, InFolder, python_with

from qss_tools.installed import for_user, of_installation
from qss_tools.scripts import SCRIPTS

VERBS = ("run", "devs", "run2", "print", "propose", "certify", "upgrade", "check", "compare", "gen")
TOOLS = ("qss-accuracy", "qss-advise", "qss-certificate", "qss-explain", "qss-plot", "qss-table", "qss-tools")


def modules_below(folder):
    """The names of the modules and pages of qss_tools below a folder, and of those of qss_dev, with their packages."""
    kinds = (".py", ".html", ".js", ".css")
    found = [os.path.join(path, name) for path, _, names in os.walk(folder) for name in names if name.endswith(kinds)]
    return sorted(re.sub(r".*/(?=qss_(tools|dev)/)", "", path) for path in found)


@unittest.skipUnless(shutil.which("make"), "make is not here")
class Installed(InFolder):
    """The program, the tools for all, the man page and the completions, by make."""

    def setUp(self):
        super().setUp()
        self.prefix = os.path.join(self.folder, "prefix")
        environment = {**os.environ, "PATH": os.path.dirname(sys.executable) + ":" + os.environ["PATH"]}
        done = subprocess.run(
            ["make", "install", "PREFIX=" + self.prefix, "PROGRAM=" + PROGRAM],
            cwd=ROOT,
            env=environment,
            stdout=subprocess.PIPE,
            stderr=subprocess.STDOUT,
        )
        self.assertEqual(done.returncode, 0, done.stdout.decode())
        self.said = done.stdout.decode()

    def path(self, *parts):
        return os.path.join(self.prefix, *parts)

    def call(self, *words):
        environment = {**os.environ, "QSS_PROVED": "0"}
        environment.pop("QSS_PROGRAM", None)
        done = subprocess.run(words, cwd=self.folder, env=environment, stdout=subprocess.PIPE, stderr=subprocess.PIPE)
        return done.returncode, done.stdout.decode(), done.stderr.decode()

    def test_the_paths_are_named(self):
        """make prints a line for the path, and with the path that `qss-tools --path` prints Python finds the package."""
        self.assertIn('export PATH="%s/bin:$PATH"' % self.prefix, self.said)
        path = self.call(self.path("bin", "qss-tools"), "--path")[1].strip()
        words = [sys.executable, "-c", "import qss_tools; print(qss_tools.__file__)"]
        environment = {**os.environ, "PYTHONPATH": path}
        done = subprocess.run(words, cwd=self.folder, env=environment, stdout=subprocess.PIPE, check=True)
        self.assertEqual(done.stdout.decode().strip(), self.path("lib", "qss", "tools", "qss_tools", "__init__.py"))

    @unittest.skipUnless(os.path.exists(BUILT), "the program is not built")
    def test_what_is_installed_works(self):
        model = self.file("m.mo", "model m Real x; equation der(x) = 1; end m;\n")
        status, rows, err = self.call(self.path("bin", "qss"), "run", model)
        self.assertEqual((status, err, rows.split("\n")[1]), (0, "", "0,start,x,0,0"))
        # (the tools find the program that is installed with them)
        for name in TOOLS:
            status, out, err = self.call(sys.executable, self.path("bin", name), "--help")
            self.assertEqual((status, err), (0, ""), name)
        status, out, err = self.call(sys.executable, self.path("bin", "qss-table"), model, "--every", "1")
        self.assertEqual((status, out, err), (0, "time,x\n0,0\n1,1\n", ""))
        status, out, err = self.call(sys.executable, self.path("bin", "qss-tools"), "--version")
        self.assertEqual((status, err), (0, ""))
        self.assertRegex(out, r"^qss-tools [\d.]+\ncommit: .+\nkit: .+\nprogram: .+\nbinary: sha256 .+\npython: [\d.]+")
        with open(self.path("lib", "qss", "qss"), "ab") as file:
            file.write(b"\0")
        changed = self.call(sys.executable, self.path("bin", "qss-tools"), "--version")[1]
        self.assertIn("\nprogram: another one than make install put there\nbinary: sha256 ", changed)
        self.assertNotEqual(re.findall("sha256 .*", changed), re.findall("sha256 .*", out))
        status, out, err = self.call(sys.executable, self.path("bin", "qss-tools"))
        self.assertEqual((status, err), (0, ""))
        self.assertIn("qss-plot ", out)

    def test_no_tool_for_developers_is_installed(self):
        self.assertEqual(set(os.listdir(self.path("bin"))), {"qss", *SCRIPTS})
        tools = self.path("lib", "qss", "tools")
        self.assertEqual(set(os.listdir(tools)) - {"__pycache__"}, {"run_tool.py", "qss_tools", *SCRIPTS})
        installed = modules_below(os.path.join(tools, "qss_tools"))
        self.assertEqual(installed, modules_below(os.path.join(ROOT, "tools", "qss_tools")))

    def test_the_man_page_has_each_verb_and_status(self):
        with open(self.path("share", "man", "man1", "qss.1"), encoding="ascii") as file:
            page = file.read()
        for verb in VERBS:
            self.assertRegex(page, r'\n\.B[IR]? %s[ "\n]' % verb)
        self.assertEqual(re.findall(r"^(\d)\|", page, re.MULTILINE), [str(number) for number in range(10)])

    @unittest.skipUnless(shutil.which("bash"), "bash is not here")
    def test_completions(self):
        script = self.path("share", "bash-completion", "completions", "qss")
        for words, wanted in (
            (("qss", "r"), ["run", "run2"]),
            (("qss", "run", "m.mo", "--rule", "n"), ["near"]),
            (("qss", "run", "m.mo", "--o"), ["--only"]),
            (("qss", "compare", "m.mo", "m.cert", "s"), ["second"]),
        ):
            asked = "COMP_WORDS=(%s); COMP_CWORD=%d; _qss; printf '%%s\\n' \"${COMPREPLY[@]}\"" % (
                " ".join(words),
                len(words) - 1,
            )
            status, out, err = self.call("bash", "-c", "source '%s'; %s" % (script, asked))
            self.assertEqual((status, out.split(), err), (0, wanted, ""), words)
        plot = self.path("bin", "qss-plot")
        asked = "COMP_WORDS=('%s' m.mo --over-); COMP_CWORD=2; _qss_tool '%s'; echo ${COMPREPLY[@]}" % (plot, plot)
        status, out, err = self.call("bash", "-c", "source '%s'; %s" % (script, asked))
        self.assertEqual((status, out.split(), err), (0, ["--over-model", "--over-rule"], ""))
        tools = self.path("bin", "qss-tools")
        asked = "COMP_WORDS=('%s' me); COMP_CWORD=1; _qss_tool '%s'; echo ${COMPREPLY[@]}" % (tools, tools)
        status, out, err = self.call("bash", "-c", "source '%s'; %s" % (script, asked))
        self.assertEqual((status, out.split(), err), (0, ["measure"], ""))

    def test_uninstall_leaves_nothing(self):
        done = subprocess.run(["make", "uninstall", "PREFIX=" + self.prefix], cwd=ROOT, stdout=subprocess.DEVNULL)
        self.assertEqual(done.returncode, 0)
        self.assertEqual([name for _, _, files in os.walk(self.prefix) for name in files], [])


class Texts(unittest.TestCase):
    def test_commands_and_pages_of_an_installation(self):
        text = "see tools/qss-advise m.mo and docs/MODELLING.md, or ./qss print examples/rc.mo (work/tools/qss-plot)"
        wanted = "see qss-advise m.mo and %s, or qss print %s (work/tools/qss-plot)"
        shared = ROOT  # (it has both files)
        pages = [os.path.join(ROOT, *path) for path in (("docs", "MODELLING.md"), ("examples", "rc.mo"))]
        self.assertEqual(of_installation(text, shared), wanted % tuple(pages))
        missing = wanted % ("the page MODELLING.md of qss", "the example rc.mo of qss")
        self.assertEqual(of_installation(text, None), missing)
        self.assertEqual(for_user(text), text)  # (in a checkout)


@unittest.skipUnless(shutil.which("make"), "make is not here")
class InstalledWithoutProofs(InFolder):
    """A checkout in which only the program without proofs is built: its stand-in is the command true."""

    def setUp(self):
        super().setUp()
        self.checkout, self.prefix = (os.path.join(self.folder, name) for name in ("checkout", "prefix"))
        shutil.copytree(os.path.join(ROOT, "tools"), os.path.join(self.checkout, "tools"))
        for name in ("Makefile", "crates.txt"):
            shutil.copy(os.path.join(ROOT, name), self.checkout)
        self.program = os.path.join(self.checkout, "crates", "qss", "out", "unproved", "qss")
        os.makedirs(os.path.dirname(self.program))
        shutil.copyfile(shutil.which("true"), self.program)
        os.chmod(self.program, 0o755)
        # (without the kit on the path, and without what the other tests set)
        path = os.pathsep.join([os.path.dirname(sys.executable), "/usr/bin", "/bin"])
        kept = {name: text for name, text in os.environ.items() if not name.startswith(("QSS_", "MAKE", "PROGRAM"))}
        self.environment = {**kept, "PATH": path}

    def call(self, *words, **more):
        done = subprocess.run(
            words,
            cwd=self.checkout,
            env={**self.environment, **more},
            stdin=subprocess.DEVNULL,
            stdout=subprocess.PIPE,
            stderr=subprocess.STDOUT,
        )
        return done.returncode, done.stdout.decode()

    def test_it_is_installed_and_named(self):
        status, out = self.call("make", "--silent", "install", "PREFIX=" + self.prefix)
        self.assertEqual(status, 0, out)
        command, folder = os.path.join(self.prefix, "bin", "qss"), os.path.join(self.prefix, "bin")
        first, last = out.splitlines()
        self.assertEqual(first, "installed in %s: the program without its proofs" % self.prefix)
        self.assertEqual(last, 'the path lacks its commands: export PATH="%s:$PATH"' % folder)
        out = self.call(os.path.join(folder, "qss-tools"), "--version")[1]
        self.assertIn("\nprogram: the program without its proofs\n", out)
        self.assertEqual(self.call(command), (0, ""))
        status, out = self.call(command, QSS_PROVED="1")
        self.assertEqual((status, out), (9, "qss: the installed program has no proofs, and QSS_PROVED is 1\n"))
        if shutil.which("script"):
            out = self.call("script", "-qec", command, os.path.join(self.folder, "typescript"))[1]
            self.assertEqual(out.split("\r\n")[0], "qss: the program without its proofs")
        status, out = self.call(os.path.join(folder, "qss-tools"), "--path")
        self.assertEqual((status, out), (0, os.path.join(self.prefix, "lib", "qss", "tools") + "\n"))
        self.assertEqual(self.call(sys.executable, "-c", "import qss_tools", PYTHONPATH=out.strip()), (0, ""))
        self.assertNotIn("tools/qss-", self.call(os.path.join(folder, "qss-advise"), "--help")[1])
        # (an installed command without proofs is found by tools that have no program of their own)
        os.remove(self.program)
        script = "import sys; sys.path.insert(0, 'tools'); from qss_tools.program import find_program as f; print(f())"
        path = folder + os.pathsep + self.environment["PATH"]
        found = self.call(sys.executable, "-c", script, PATH=path)
        self.assertEqual(found, (0, os.path.join(self.prefix, "lib", "qss", "qss") + "\n"))

    def test_what_cannot_be_installed(self):
        status, out = self.call("make", "install", "PREFIX=~/there")
        self.assertEqual(status, 2)
        self.assertIn("write PREFIX=$HOME/.local\n", out)
        self.assertEqual([name for name in os.listdir(self.checkout) if name.startswith("~")], [])
        os.remove(self.program)
        status, out = self.call("make", "install", "PREFIX=" + self.prefix)
        self.assertEqual(status, 2)
        self.assertIn("qss-tools: no program is built from these sources: './qss print ", out)
        self.assertFalse(os.path.exists(self.prefix))


class InstalledByPip(unittest.TestCase):
    """The package for all and its tools, by pip, without a network."""

    @classmethod
    def setUpClass(cls):
        # (setuptools reads pyproject.toml from version 61 on)
        cls.python = python_with("setuptools.config.pyprojecttoml", "wheel", "pip")
        if cls.python is None:
            raise unittest.SkipTest("pip, wheel or setuptools 61 is not here")
        holder = tempfile.TemporaryDirectory()
        cls.addClassCleanup(holder.cleanup)
        cls.folder, source = holder.name, os.path.join(holder.name, "source")
        shutil.copytree(os.path.join(ROOT, "tools"), os.path.join(source, "tools"))
        for name in ("pyproject.toml", "README.md"):
            shutil.copy(os.path.join(ROOT, name), source)
        cls.target = os.path.join(cls.folder, "target")
        options = ["--quiet", "--no-index", "--no-deps", "--no-build-isolation", "--disable-pip-version-check"]
        words = [cls.python, "-m", "pip", "install", *options, "--target", cls.target, source]
        environment = {**os.environ, "HOME": cls.folder, "PIP_ROOT_USER_ACTION": "ignore"}
        done = subprocess.run(words, env=environment, stdout=subprocess.PIPE, stderr=subprocess.STDOUT)
        if done.returncode:
            raise AssertionError(done.stdout.decode())

    def test_only_the_package_for_all(self):
        packages = [name for name in os.listdir(self.target) if not name.endswith((".dist-info", "bin"))]
        self.assertEqual(packages, ["qss_tools"])
        self.assertEqual(modules_below(self.target), modules_below(os.path.join(ROOT, "tools", "qss_tools")))
        self.assertEqual(sorted(os.listdir(os.path.join(self.target, "bin"))), sorted(SCRIPTS))

    def test_tools_and_package_work(self):
        environment = {**os.environ, "PYTHONPATH": self.target}
        script = "import qss_tools; print(qss_tools.__file__, qss_tools.run.__name__, qss_tools.sweep.__name__)"
        for words, wanted in (
            ([os.path.join(self.target, "bin", "qss-plot"), "--help"], "usage: qss-plot "),
            ([os.path.join(self.target, "bin", "qss-tools")], "qss-accuracy  "),
            (["-c", script], os.path.join(self.target, "qss_tools", "__init__.py") + " run sweep"),
        ):
            done = subprocess.run([self.python, *words], env=environment, cwd=self.folder, stdout=subprocess.PIPE)
            self.assertEqual((done.returncode, done.stdout.decode()[: len(wanted)]), (0, wanted))


if __name__ == "__main__":
    unittest.main()
