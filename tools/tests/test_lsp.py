"""The language server: marks, fixes and answers in an editor, for sources that are right, wrong and mutated."""
import os
import random
import shutil
import subprocess
import sys
import unittest

from support import BUILT, PROGRAM, TOOLS, InFolder, python_with
from wrong_sources import WRONG

from qss_dev.editor_client import Client
from qss_dev.try_editor import URI, ask_all, mutated_texts
from qss_tools.editor.names import Names
from qss_tools.editor.text import Edit, Text, edited
from qss_tools.model.source import Source

PYTHON = python_with("pylsp_jsonrpc")

RIGHT = """model m "a circuit"
  parameter Real R = 10, C = 1/4 "capacity";
  Real u(start = 1, unit = "V"), y;
  discrete Real s(start = 1) annotation(QSS_Quantum = 1);
  Real v[3](each start = 2) annotation(QSS_Quantum = 1/64);
equation
  der(u) = -s*u/R; // discharge
  y = C*u;
  for i in 1:3 loop
    der(v[i]) = -v[i]/i;
  end for;
algorithm
  when u < 0.5 then
    s := 0;
  end when;
  annotation(experiment(StopTime = 5, QSS_TickBits = 12, QSS_LevelBits = 20, QSS_Quantum = 1/1024));
end m;
"""
# Seven mistakes: with the columns from 1 as an engineer counts them.
SEVEN = """model m
  parameter Real R = 10 C = 1;
  Real x(start = 1), y;
  discrete Real s(start = 1), next(start = 1);
equation
  der(x) = -x/R
  y := 2*X;
algorithm
  when time >= next then
    s = 1 - s;
    x := 3;
    next := pre(next) + 1;
  end when;
  annotation(experiment(StopTime = 5));
end n;
"""
SEVEN_PLACES = ["2:25", "7:3", "7:5", "10:7", "7:10", "11:5", "15:5"]


def place(mark):
    start = mark["range"]["start"]
    return "%d:%d" % (start["line"] + 1, start["character"] + 1)


def errors(marks):
    return [one for one in marks if one["severity"] == 1]


@unittest.skipUnless(PYTHON, "the package pylsp_jsonrpc is not here")
class Served(unittest.TestCase):
    """A client over a pipe."""

    def setUp(self):
        self.client = Client(PYTHON, PROGRAM)
        self.addCleanup(self.end)

    def end(self):
        self.assertEqual(self.client.close(), 0)


class Answers(Served):
    """Answers that need no program."""

    def setUp(self):
        super().setUp()
        self.client.open(URI, RIGHT)

    def hover(self, part, shift=0):
        found = self.client.ask("textDocument/hover", self.client.at(part, shift))
        return found and found["contents"]["value"]

    def test_hover_has_unit_value_quantum_and_meaning(self):
        self.assertEqual(
            self.hover("u/R"), "**u**: state\n\nUnit: V\n\nStart: 1\n\nQuantum: 0.0009765625 (QSS_Quantum of the model)"
        )
        self.assertEqual(self.hover("C*u"), '**C**: parameter\n\n"capacity"\n\nValue: 0.25')
        self.assertEqual(self.hover("s*u"), "**s**: discrete variable\n\nStart: 1")
        self.assertEqual(self.hover("y = C"), "**y**: algebraic variable")
        self.assertEqual(self.hover("v[i]"), "**v**: state, an array\n\nStart: 2\n\nQuantum: 0.015625")
        self.assertEqual(self.hover("/i;", 1), "loop variable")
        self.assertIn("a tick is 2^-k", self.hover("QSS_TickBits"))
        self.assertIn("Here 12.", self.hover("QSS_TickBits"))
        self.assertIn("equation of the state", self.hover("der("))
        self.assertIsNone(self.hover("discharge"))
        self.assertIsNone(self.hover("\nalgorithm"))

    def test_definition_and_references(self):
        found = self.client.ask("textDocument/definition", self.client.at("u/R"))
        self.assertEqual(found["range"]["start"], self.client.position("u(start"))
        params = {**self.client.at("u/R"), "context": {"includeDeclaration": True}}
        found = self.client.ask("textDocument/references", params)
        parts = ["u(start", "u) =", "u/R", "u;", "u < 0.5"]
        self.assertEqual([one["range"]["start"] for one in found], [self.client.position(part) for part in parts])
        self.assertIsNone(self.client.ask("textDocument/definition", self.client.at("each")))

    def test_rename(self):
        new = {**self.client.at("u/R"), "newName": "voltage"}
        edits = self.client.ask("textDocument/rename", new)["changes"][URI]
        self.client.apply(edits)
        self.assertEqual(
            self.client.text,
            RIGHT.replace("u(", "voltage(")
            .replace("(u", "(voltage")
            .replace("*u", "*voltage")
            .replace("n u <", "n voltage <"),
        )
        for taken in ("C", "end", "QSS_Quantum", "2u", "a b", ""):
            answer = self.client.request("textDocument/rename", {**self.client.at("R = "), "newName": taken})
            self.assertIn("error", answer, taken)

    def test_loop_variable_is_renamed_in_its_loop_only(self):
        self.client.change("model i Real x[2]; equation for i in 1:2 loop der(x[i]) = i; end for; end i;")
        edits = self.client.ask("textDocument/rename", {**self.client.at("i in"), "newName": "k"})["changes"][URI]
        self.client.apply(edits)
        self.assertEqual(
            self.client.text, "model i Real x[2]; equation for k in 1:2 loop der(x[k]) = k; end for; end i;"
        )

    def test_completion(self):
        def labels(part, shift):
            found = self.client.ask("textDocument/completion", self.client.at(part, shift))
            return {one["label"] for one in found}

        self.assertLessEqual({"R", "C", "u", "y", "s", "v", "der", "when"}, labels("der(u", 0))
        self.assertLessEqual({"StopTime", "QSS_CoefBits", "QSS_TimeUnit"}, labels("(StopTime", 1))
        self.assertIn("QSS_Quantum", labels("(QSS_Quantum", 1))
        self.assertLessEqual({"start", "unit", "R"}, labels("(start", 1))

    def test_outline(self):
        (root,) = self.client.ask("textDocument/documentSymbol", {"textDocument": {"uri": URI}})
        self.assertEqual(root["name"], "m")
        names = [one["name"] for one in root["children"]]
        self.assertEqual(names, ["R", "C", "u", "y", "s", "v", "when u < 0.5 then"])
        self.assertEqual(root["children"][2]["detail"], "state in V")

    def test_a_text_is_indented_and_keeps_its_comments(self):
        params = {"textDocument": {"uri": URI}, "options": {}}
        self.assertEqual(self.client.ask("textDocument/formatting", params), [])
        ragged = "\n".join(
            line.lstrip() if number % 2 else "     " + line for number, line in enumerate(RIGHT.split("\n"))
        )
        self.client.change(ragged.rstrip() + "\n")
        self.client.apply(self.client.ask("textDocument/formatting", params))
        self.assertEqual(self.client.text, RIGHT)
        text = "// a\nmodel m\nReal x; /* b\n c */\nequation\nder(x) = 1\n+ 2;\nend m;\n"
        self.client.change(text)
        self.client.apply(self.client.ask("textDocument/formatting", params))
        self.assertEqual(
            self.client.text,
            "// a\nmodel m\n  Real x; /* b\n c */\nequation\n  der(x) = 1\n      + 2;\nend m;\n",
        )

    def test_an_unknown_request_is_refused_and_the_server_goes_on(self):
        self.assertIn("error", self.client.request("textDocument/nothing", {}))
        self.assertIn("error", self.client.request("textDocument/hover", {}))
        self.assertIsNotNone(self.hover("u/R"))


@unittest.skipUnless(os.path.exists(BUILT), "the program is not built")
class Marks(Served):
    """Marks and fixes, by the program."""

    def marks(self, text):
        if self.client.uri:
            self.client.change(text)
        else:
            self.client.open(URI, text)
        return errors(self.client.seen())

    def test_each_wrong_source_has_a_mark_at_its_place(self):
        for name, text, line, where, sentence, way, _ in WRONG:
            marks = self.marks(text)
            self.assertEqual((name, place(marks[0])), (name, where))
            self.assertIn(sentence, marks[0]["message"], name)
            self.assertIn(way, marks[0]["message"], name)
            self.assertEqual(marks[0]["code"], line.split()[1])

    def test_several_marks_and_all_fixes_at_once(self):
        marks = self.marks(SEVEN)
        self.assertEqual([place(one) for one in marks], SEVEN_PLACES)
        together = self.client.actions(marks[0]["range"])["Apply all fixes that are sure"]
        self.client.apply(together["edit"]["changes"][URI])
        self.assertEqual(errors(self.client.seen()), [])

    def test_a_fix_makes_its_mark_go(self):
        for name in ("missing_semi_decl", "reinit_discrete", "elseif_when", "end_name", "pre_state"):
            text = next(one[1] for one in WRONG if one[0] == name)
            (mark,) = self.marks(text)
            (found,) = [one for one in self.client.actions(mark["range"]).values() if one.get("isPreferred")]
            self.client.apply(found["edit"]["changes"][URI])
            self.assertEqual(errors(self.client.seen()), [], name)

    def test_places_behind_letters_that_are_not_ascii(self):
        marks = self.marks(
            "model m\n  Real x; /* \U0001d4b3 \u00e9 */ Real y;\nequation\n  der(x) = z;\n  y = 1;\nend m;\n"
        )
        self.assertEqual([place(one) for one in marks], ["4:12"])
        marks = self.marks("model m\n  Real x;\nequation\n  /* \U0001d4b3 */ der(x) = \u22121;\nend m;\n")
        self.assertEqual([place(one) for one in marks], ["4:21"])
        (found,) = self.client.actions(marks[0]["range"]).values()
        self.assertEqual(found["edit"]["changes"][URI][0]["newText"], "-")

    def test_warnings_and_settings_that_fit(self):
        text = "model m\n  Real x(start = 1);\nequation\n  der(x) = -100000*x;\n  annotation(experiment(StopTime = 0.001, QSS_Tickbits = 20));\nend m;\n"
        self.client.open(URI, text)
        warned = self.client.seen(lambda marks: any(one["severity"] == 2 for one in marks))
        self.assertIn("5:43", [place(one) for one in warned if "QSS_Tickbits" in one["message"]])
        actions = self.client.actions(next(one for one in warned if "QSS_Tickbits" in one["message"])["range"])
        self.assertIn("Write 'QSS_TickBits'", actions)
        self.client.apply(actions["Take the settings that fit (qss-advise)"]["edit"]["changes"][URI])
        self.assertNotIn("QSS_Tickbits = 20))", self.client.text)
        self.assertEqual(errors(self.client.seen()), [])

    def test_a_number_with_a_comma(self):
        text = "model m\n  Real x(start = 4,5);\nequation\n  der(x) = -x;\nend m;\n"
        self.client.open(URI, text)
        warned = self.client.seen(lambda marks: any(one["severity"] == 2 for one in marks))
        (mark,) = [one for one in warned if "4,5 is read as 4 " in one["message"]]
        self.assertEqual((place(mark), mark["range"]["end"]["character"]), ("2:18", 20))
        actions = self.client.actions(mark["range"])
        self.assertTrue(actions["Write '4.5'"]["isPreferred"])
        self.client.apply(actions["Write '4.5'"]["edit"]["changes"][URI])
        self.assertEqual(self.client.text, text.replace("4,5", "4.5"))

    def test_mutated_texts(self):
        seed = random.Random(1)
        self.client.open(URI, SEVEN)
        for text in mutated_texts(300, seed):
            self.client.change(text)
            ask_all(self.client, seed)
        self.client.change(SEVEN)
        self.assertEqual([place(one) for one in errors(self.client.seen())], SEVEN_PLACES)


class Units(unittest.TestCase):
    """Texts and names without a server."""

    def test_offsets_and_positions(self):
        text = Text("m", "a\r\n\U0001d4b3b\n\r\u00e9c")
        places = [(0, 0), (1, 0), (1, 2), (1, 3), (2, 0), (3, 0), (3, 1), (3, 2)]
        bytes_of = [0, 3, 7, 8, 9, 10, 12, 13]
        for (line, column), at in zip(places, bytes_of):
            self.assertEqual(text.offset({"line": line, "character": column}), at)
            self.assertEqual(text.position(at), {"line": line, "character": column})
        self.assertEqual(text.offset({"line": 9, "character": 9}), len(text.data))
        self.assertEqual(text.offset({"line": 0, "character": 9}), 1)

    def test_edits(self):
        self.assertEqual(edited(b"abcd", [Edit(1, 2, "x"), Edit(3, 3, "yy")]), b"axcyyd")

    def test_long_numbers_have_no_value(self):
        names = Names(Source("m", b"model m parameter Real a = 1e999999, b = ((9^8)^8)^8, c = 2; end m;"))
        self.assertEqual(sorted(names.constants.parameters), ["c"])


NVIM = r"""
local marks, ended = 0, false
local function say(text) io.stdout:write(text .. '\n') end
local function wait(wanted) return vim.wait(30000, function() return wanted(vim.diagnostic.get(0)) end, 20) end
vim.cmd('edit ' .. vim.env.MODEL)
local client = vim.lsp.start_client({name = 'qss', cmd = vim.split(vim.env.SERVER, ' '), root_dir = vim.fn.getcwd()})
vim.lsp.buf_attach_client(0, client)
if not wait(function(marks) return #marks == 1 end) then say('no mark') vim.cmd('cquit') end
local mark = vim.diagnostic.get(0)[1]
say(mark.lnum + 1 .. ':' .. mark.col + 1)
vim.api.nvim_win_set_cursor(0, {mark.lnum + 1, mark.col})
local params = vim.lsp.util.make_range_params()
params.context = {diagnostics = {}}
local answers = vim.lsp.buf_request_sync(0, 'textDocument/codeAction', params, 10000)
for _, answer in pairs(answers) do
    vim.lsp.util.apply_workspace_edit(answer.result[1].edit, 'utf-16')
end
if not wait(function(marks) return #marks == 0 end) then say('the mark stays') vim.cmd('cquit') end
vim.cmd('silent write')
vim.cmd('qall!')
"""


class Interpreter(InFolder):
    def test_the_interpreter_that_is_named_runs_the_server(self):
        """QSS_PYTHON names it. Where it is not set, one that has pylsp_jsonrpc is used, as with numpy."""
        python = self.file("python", '#!/bin/sh\necho "$@"\n')
        os.chmod(python, 0o755)
        environment = {**os.environ, "QSS_PYTHON": python, "XDG_CACHE_HOME": self.folder}
        del environment["QSS_STARTED_BY"]
        words = [sys.executable, os.path.join(TOOLS, "qss-lsp"), "--stdio"]
        done = subprocess.run(words, env=environment, stdout=subprocess.PIPE, stderr=subprocess.PIPE)
        self.assertEqual(done.stdout.decode(), os.path.join(TOOLS, "qss-lsp") + " --stdio\n")
        self.assertIn("has no pylsp_jsonrpc: the tools use %s" % python, done.stderr.decode())


@unittest.skipUnless(PYTHON, "the package pylsp_jsonrpc is not here")
@unittest.skipUnless(shutil.which("nvim"), "Neovim is not here")
@unittest.skipUnless(os.path.exists(BUILT), "the program is not built")
class Neovim(InFolder):
    """A real editor, without a screen."""

    def test_a_mark_comes_and_goes_by_its_fix(self):
        text = RIGHT.replace("y = C*u;", "y := C*u;")
        model, script = self.file("m.mo", text), self.file("test.lua", NVIM)
        server = [PYTHON, os.path.join(TOOLS, "qss-lsp"), "--program", PROGRAM]
        environment = {**os.environ, "MODEL": model, "SERVER": " ".join(server), "HOME": self.folder}
        words = ["nvim", "--headless", "-u", "NONE", "-n", "-S", script]
        done = subprocess.run(words, env=environment, stdout=subprocess.PIPE, stderr=subprocess.STDOUT, timeout=120)
        self.assertEqual((done.returncode, done.stdout.decode().strip()), (0, "8:5"))
        with open(model, encoding="utf-8") as file:
            self.assertEqual(file.read(), RIGHT)


if __name__ == "__main__":
    unittest.main()
