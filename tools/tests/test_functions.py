"""The functions of the tools and of their tests are short and flat, and have few parameters."""
import ast
import os
import unittest

from support import TOOLS, modules_of

MOST_LINES, MOST_NESTED, MOST_PARAMETERS = 40, 3, 7
FILES = [os.path.join(TOOLS, "run_tool.py"), *modules_of("qss_tools", "qss_dev", "tests")]
FUNCTIONS = (ast.FunctionDef, ast.AsyncFunctionDef)
BLOCKS = (ast.If, ast.For, ast.AsyncFor, ast.While, ast.With, ast.AsyncWith, ast.Try)

SAMPLE = """
class Sample:
    def nested(self, one, *, two, **rest):
        for each in one:
            if each:
                pass
            elif two:
                with each as file:
                    def inner(a, b, c, d, e, f, g, h):
                        while a:
                            pass
            else:
                if rest:
                    try:
                        pass
                    except ValueError:
                        with each:
                            pass
"""


def functions(text):
    """The functions of a Python file."""
    return [node for node in ast.walk(ast.parse(text)) if isinstance(node, FUNCTIONS)]


def lines(function):
    """How many lines a function has, its head and its docstring included."""
    return function.end_lineno - function.lineno + 1


def nesting(node):
    """How many blocks are inside each other below a node. An elif is in the block of its if; functions are left out."""
    deepest = 0
    for child in ast.iter_child_nodes(node):
        if isinstance(child, FUNCTIONS + (ast.ClassDef, ast.Lambda)):
            continue
        is_elif = isinstance(node, ast.If) and node.orelse == [child] and child.col_offset == node.col_offset
        deepest = max(deepest, nesting(child) + (isinstance(child, BLOCKS) and not is_elif))
    return deepest


def parameters(function):
    """How many parameters a function has, without the object or the class of a method."""
    args = function.args
    more = [one for one in (args.vararg, args.kwarg) if one is not None]
    every = args.posonlyargs + args.args + args.kwonlyargs + more
    return sum(one.arg not in ("self", "cls") for one in every)


class Measures(unittest.TestCase):
    def test_a_sample(self):
        nested, inner = functions(SAMPLE)
        self.assertEqual([lines(one) for one in (nested, inner)], [16, 3])
        self.assertEqual([nesting(one) for one in (nested, inner)], [5, 1])
        self.assertEqual([parameters(one) for one in (nested, inner)], [3, 8])


class Limits(unittest.TestCase):
    @classmethod
    def setUpClass(cls):
        cls.functions = []
        for path in FILES:
            with open(path, encoding="utf-8") as file:
                cls.functions += [(os.path.relpath(path, TOOLS), one) for one in functions(file.read())]

    def past(self, number, most):
        """The functions whose number is above its limit."""
        return ["%s %s: %d" % (file, one.name, number(one)) for file, one in self.functions if number(one) > most]

    def test_lines(self):
        self.assertEqual(self.past(lines, MOST_LINES), [])

    def test_nested_blocks(self):
        self.assertEqual(self.past(nesting, MOST_NESTED), [])

    def test_parameters(self):
        self.assertEqual(self.past(parameters, MOST_PARAMETERS), [])


if __name__ == "__main__":
    unittest.main()
