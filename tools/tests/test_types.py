"""Each function of the tools has hints for its types. (test_package has mypy check them.)"""
import ast
import os
import unittest

from support import TOOLS, modules_of

MODULES = [os.path.join(TOOLS, "run_tool.py"), *modules_of("qss_tools", "qss_dev")]


def parameters(function):
    """The parameters of a function that need a hint."""
    args = function.args
    more = [one for one in (args.vararg, args.kwarg) if one is not None]
    return [one for one in args.posonlyargs + args.args + args.kwonlyargs + more if one.arg not in ("self", "cls")]


def is_hinted(function):
    """Whether a function has a hint for each parameter and for its result."""
    has_result = function.returns is not None or function.name == "__init__" and parameters(function)
    return bool(has_result) and all(one.annotation is not None for one in parameters(function))


class Types(unittest.TestCase):
    def test_each_function_has_hints(self):
        without = []
        for path in MODULES:
            with open(path, encoding="utf-8") as file:
                tree = ast.parse(file.read())
            functions = [one for one in ast.walk(tree) if isinstance(one, (ast.FunctionDef, ast.AsyncFunctionDef))]
            name = os.path.relpath(path, TOOLS)
            without += ["%s:%d %s" % (name, one.lineno, one.name) for one in functions if not is_hinted(one)]
        self.assertEqual(without, [])


if __name__ == "__main__":
    unittest.main()
