"""The packages: each tool has a file and a module; its arguments and its layout keep the rules."""
import ast
import filecmp
import importlib.util
import os
import re
import shutil
import subprocess
import sys
import tempfile
import unittest

from support import ROOT, TOOLS, InFolder, modules_of, run

import qss_tools
from qss_dev import scripts as developer
from qss_tools import scripts as user


def files():
    """The files of tools/ with the names of tools, each with the module of its name."""
    names = sorted(it.name for it in os.scandir(TOOLS) if it.is_file() and not it.name.endswith(".py"))
    return [(name, user.modules().get(name)) for name in names]


def project():
    with open(os.path.join(ROOT, "pyproject.toml"), encoding="utf-8") as file:
        return file.read()


def name_of(path):
    """The name of a module, or of a package."""
    words = os.path.splitext(os.path.relpath(path, TOOLS))[0].split(os.sep)
    return ".".join(words[:-1] if words[-1] == "__init__" else words)


def imported(path, names):
    """The modules of tools/ that a module imports, wherever the import stands."""
    with open(path, encoding="utf-8") as file:
        tree = ast.parse(file.read())
    package = name_of(path) if path.endswith("__init__.py") else name_of(path).rpartition(".")[0]
    for node in ast.walk(tree):
        if isinstance(node, ast.Import):
            yield from (one.name for one in node.names if one.name in names)
        elif isinstance(node, ast.ImportFrom):
            source = importlib.util.resolve_name("." * node.level + (node.module or ""), package)
            for one in node.names:
                yield from (it for it in (source + "." + one.name, source) if it in names)


def cycle(graph):
    """A cycle of a graph: its nodes in their order, or None."""
    finished, path = set(), []

    def follow(node):
        if node in path:
            return path[path.index(node) :] + [node]
        if node in finished:
            return None
        path.append(node)
        found = next(filter(None, map(follow, sorted(graph[node]))), None)
        path.pop()
        finished.add(node)
        return found

    return next(filter(None, map(follow, sorted(graph))), None)


class Imports(unittest.TestCase):
    @classmethod
    def setUpClass(cls):
        paths = modules_of("qss_tools", "qss_dev")
        names = {name_of(path) for path in paths}
        cls.graph = {name_of(path): set(imported(path, names)) for path in paths}
        # (a module below a package may import names from the package of the tools)
        for name, found in cls.graph.items():
            found -= {it for it in found if any(one.startswith(it + ".") for one in found)}

    def test_a_cycle_is_found(self):
        self.assertEqual(cycle({"a": {"b"}, "b": {"c", "d"}, "c": {"b"}, "d": set()}), ["b", "c", "b"])
        self.assertIsNone(cycle({"a": {"b", "c"}, "b": {"c"}, "c": set()}))

    def test_modules_have_no_cycle(self):
        self.assertIsNone(cycle(self.graph))
        self.assertIn("qss_tools.plot.drawing", self.graph["qss_tools.plot.svg"])

    def test_packages_have_no_cycle(self):
        packages = {"qss_tools.model": set()}
        for name, found in self.graph.items():
            words = name.split(".")
            if len(words) == 3:
                others = {it.rpartition(".")[0] for it in found if it.count(".") == 2}
                packages.setdefault(".".join(words[:2]), set()).update(others - {".".join(words[:2])})
        self.assertIsNone(cycle(packages))

    def test_no_module_has_a_public_name(self):
        """Else its import would replace a function of the package."""
        public = {f"qss_tools.{name}" for name in qss_tools.__all__}
        self.assertEqual(public & set(self.graph), set())

    def test_the_tools_for_all_import_none_for_developers(self):
        wrong = [(name, it) for name, found in self.graph.items() for it in found if name.startswith("qss_tools")]
        self.assertEqual([pair for pair in wrong if pair[1].startswith("qss_dev")], [])


class Package(InFolder):
    def test_each_tool_has_a_file(self):
        self.assertEqual(files(), sorted({**user.SCRIPTS, **developer.SCRIPTS}.items()))
        paths = [os.path.join(TOOLS, name) for name, _ in files()]
        self.assertTrue(all(filecmp.cmp(paths[0], path, shallow=False) and os.access(path, os.X_OK) for path in paths))

    def test_tools_are_in_their_package(self):
        self.assertEqual({module.split(".")[0] for module in user.SCRIPTS.values()}, {"qss_tools"})
        self.assertEqual({module.split(".")[0] for module in developer.SCRIPTS.values()}, {"qss_dev"})

    def test_the_list_of_tools(self):
        status, out, err = run("qss-tools")
        self.assertEqual((status, err), (0, ""))
        first, second = (
            [line.split()[0] for line in part.splitlines()] for part in out.split("\n\nFor work on qss:\n")
        )
        self.assertEqual((first, second), (sorted(user.SCRIPTS), sorted(developer.SCRIPTS)))

    def test_a_tool_runs_by_its_name(self):
        for words in (("qss-table", "--help"), ("table", "--help")):
            status, out, err = run("qss-tools", *words)
            self.assertEqual((status, err, out[:17]), (0, "", "usage: qss-table "), words)
        self.assertEqual(run("qss-tools", "table", "--bogus", "m.mo")[0], 2)
        self.assert_fault(run("qss-tools", "tabel"), "no tool has the name 'tabel' (perhaps table)")
        self.assert_fault(run("qss-tools", "zzz"), "no tool has the name 'zzz'; qss-tools lists the tools")

    def test_entry_points_are_the_tools_for_all(self):
        found = re.findall(r'^([\w-]+) = "([\w.]+):main"$', project(), re.MULTILINE)
        self.assertEqual(sorted(found), sorted(user.SCRIPTS.items()))

    def test_a_tool_runs_by_a_link_from_anywhere(self):
        first, second = (os.path.join(self.folder, name) for name in ("plot", "picture"))
        os.symlink(os.path.relpath(os.path.join(TOOLS, "qss-plot"), self.folder), first)
        os.symlink("plot", second)
        for path in (first, second):
            done = subprocess.run([sys.executable, path, "--help"], cwd=self.folder, stdout=subprocess.PIPE)
            self.assertEqual((done.returncode, done.stdout[:16]), (0, b"usage: qss-plot "))

    def test_a_name_without_a_tool(self):
        words = [sys.executable, "-c", "from run_tool import run; run('qss-nothing')"]
        done = subprocess.run(words, cwd=TOOLS, stdout=subprocess.PIPE, stderr=subprocess.PIPE)
        wanted = b"qss-nothing: no tool has this name (tools/qss-tools lists the tools)\n"
        self.assertEqual((done.returncode, done.stdout, done.stderr), (2, b"", wanted))

    def test_each_tool_prints_its_help(self):
        for name, _ in files():
            with self.subTest(name):
                status, out, err = run(name, "--help")
                self.assertEqual((status, err), (0, ""))
                self.assertTrue(out.startswith("usage: %s " % name), out[:80])

    def test_wrong_arguments_are_one_line_and_status_2(self):
        for name, _ in files():
            with self.subTest(name):
                status, out, err = run(name, "--no-such-option", "a", "b")
                self.assertEqual((status, out, err.count("\n")), (2, "", 1), err)
                self.assertTrue(err.startswith("%s: " % name), err)
                self.assertTrue(err.endswith("(see %s --help)\n" % name), err)

    def test_a_module_runs_as_a_tool(self):
        done = subprocess.run(
            [sys.executable, "-m", "qss_tools.plot.plot", "--help"],
            cwd=TOOLS,
            stdout=subprocess.PIPE,
            stderr=subprocess.PIPE,
        )
        self.assertEqual((done.returncode, done.stderr), (0, b""))
        self.assertTrue(done.stdout.startswith(b"usage: qss-plot "))

    def test_no_module_is_long(self):
        for path in modules_of("qss_tools", "qss_dev"):
            with open(path, encoding="utf-8") as file:
                self.assertLess(sum(1 for _ in file), 800, path)


class Checkers(unittest.TestCase):
    """Linter, formatter and type checker find nothing. They are Debian's packages flake8, black and mypy."""

    @classmethod
    def setUpClass(cls):
        """Starts them in parallel."""
        holder = tempfile.TemporaryDirectory()
        cls.addClassCleanup(holder.cleanup)
        places = ["tools/qss_tools", "tools/qss_dev", "tools/tests", "tools/run_tool.py"]
        cls.started = {}
        for words in (
            ["flake8", *places],
            ["black", "--check", "--quiet", *places],
            ["mypy", "--cache-dir", holder.name],
        ):
            if shutil.which(words[0]) is not None:
                child = subprocess.Popen(words, cwd=ROOT, stdout=subprocess.PIPE, stderr=subprocess.STDOUT)
                cls.addClassCleanup(child.communicate)
                cls.addClassCleanup(child.kill)
                cls.started[words[0]] = child

    def check(self, command):
        if command not in self.started:
            self.skipTest("%s is not installed" % command)
        child = self.started[command]
        printed = child.communicate(timeout=600)[0].decode("utf-8", "replace")
        self.assertEqual(child.returncode, 0, printed)

    def test_linter(self):
        self.check("flake8")

    def test_formatter(self):
        self.check("black")

    def test_types(self):
        self.check("mypy")


if __name__ == "__main__":
    unittest.main()
