"""The live page: what it shows of a source, its answers, who is served, and the page in a browser."""
import http.client
import json
import os
import re
import shlex
import shutil
import signal
import subprocess
import unittest

from browser import Page, browser
from models import BALL, GROWING, LINE
from support import BUILT, PROGRAM, ROOT, TOOLS, InFolder, python_with, run

from qss_tools.fault import Fault
from qss_tools.live.live import opening_page, parser_of
from qss_tools.live.runs import Limits, Runs, Text
from qss_tools.live.server import HOST, MOST_REQUEST, started
from qss_tools.live.session import Options, Session, Stale
from qss_tools.live.sheet import Range, first_panels, range_of, sheet_of
from qss_tools.model.source import Source
from qss_tools.runs.rows import Run

# A capacitor that is charged through R up to U, and then a clause empties it. Up to 0.8 u goes by U/(RC) = 1/4 in each
# unit of time where the level of u is 0, which it is at least up to a quantum.
CHARGED = """// Plot: tools/qss-plot charged.mo --names u,n
model charged "a capacitor, charged"
  parameter Real R(unit = "Ohm", min = 1, max = 9) = 4 "resistance", tau = 2*R*R/R, U = 1 "V", low = -2, zero = 0;
  parameter Integer size = 2;
  constant Real g = 9.81;
  Real u(unit = "V") "voltage", w[size], i;
  discrete Real n;
equation
  der(u) = i;
  i = (U - u)/R;
  for k in 1:size loop
    der(w[k]) = 0;
  end for;
algorithm
  when u > 0.8 then
    n := pre(n) + 1;
  end when;
  annotation(experiment(StopTime = 8, QSS_CoefBits = 8, QSS_TickBits = 4, QSS_LevelBits = 4, QSS_Quantum = 0.0625, QSS_TimeUnit = "ms"));
end charged;
"""
WANTED_MS = 300  # from a slider to the curve
MOVES = 8
NEEDS_PROGRAM = unittest.skipUnless(os.path.exists(BUILT), "the program is not built")


class Ranges(unittest.TestCase):
    def test_ranges(self):
        for value, bounds, whole, wanted in (
            (10.0, {}, False, Range(2, 50, True)),
            (10.0, {"min": "1", "max": "1e2"}, False, Range(1, 100)),
            (0.5, {"max": "1"}, False, Range(0.1, 1)),
            (-2.0, {}, False, Range(-4, 0)),
            (-2.0, {"min": "- 3"}, False, Range(-3, 0)),
            (0.0, {}, False, Range(-1, 1)),
            (8.0, {}, True, Range(1, 16)),
            (0.0, {"min": "a + b"}, True, Range(0, 10)),
            (5.0, {"min": "7", "max": "6"}, False, Range(7, 7)),
        ):
            self.assertEqual(range_of(value, bounds, whole), wanted, (value, bounds, whole))

    def test_first_panels(self):
        source = Source("m.mo", CHARGED.encode())
        self.assertEqual(first_panels(source, None, ["a", "b"]), [["u"], ["n"]])
        self.assertEqual(first_panels(source, "u+2*i,n", ["a"]), [["u", "2*i"], ["n"]])
        without = Source("m.mo", b"model m end m;")
        self.assertEqual(first_panels(without, None, ["a", "b+c", "d", "e", "f"]), [["a"], ["b", "c"], ["d"], ["e"]])


class Live(InFolder):
    """A session of a model in a file."""

    def session(self, name, text, **options):
        self.path = self.file(name, text)
        folder = os.path.join(self.folder, "kept")
        os.mkdir(folder)
        session = Session(self.path, PROGRAM, folder, Options(**options))
        self.assertTrue(session.look())
        return session

    def save(self, text):
        """Saves the model as editors do: another file gets its name."""
        os.replace(self.file("new", text), self.path)

    def ask(self, session, **request):
        return {"text": session.loaded.text.number, "panels": [["u"]], **request}


class Sheets(Live):
    def test_what_is_shown_of_a_source(self):
        path = self.file("charged.mo", CHARGED)
        sheet = sheet_of(Source(path, CHARGED.encode()), Run(path, PROGRAM), None)
        self.assertEqual(
            (sheet.name, sheet.about, sheet.axis, sheet.stop), ("charged", "a capacitor, charged", "time (ms)", 8)
        )
        self.assertEqual([one.name for one in sheet.parameters], ["R", "tau", "U", "low", "zero", "size"])
        first, tau, _, low, _, size = sheet.parameters
        self.assertEqual((first.text, first.value, first.unit, first.about), ("4", 4.0, "Ohm", "resistance"))
        self.assertEqual((first.range, first.formula), (Range(1, 9), None))
        self.assertEqual((tau.text, tau.formula), ("8", "2*R*R/R"))
        self.assertEqual((low.text, low.value, low.formula), ("-2", -2.0, None))
        self.assertTrue(size.is_whole)
        shown = [(one.name, one.role, one.unit, one.size) for one in sheet.variables]
        self.assertEqual(shown[:2], [("u", "state", "V", None), ("w", "state", "", 2)])
        self.assertEqual(shown[2:], [("i", "algebraic", "", None), ("n", "discrete", "", None)])
        self.assertEqual(sheet.branches, {"1.1": "u > 0.8"})
        self.assertIn("'when' clauses", sheet.no_certificate)


class Answers(Live):
    def test_the_curves_of_a_ball(self):
        """The points of y and of v up to 0.75 are those of the rows that are worked out by hand."""
        session = self.session("ball.mo", BALL)
        asked = self.ask(session, panels=[["y"], ["v"]], events=True)
        found = session.draw(asked)
        y, v = (panel["curves"][0] for panel in found["panels"])
        self.assertEqual(list(zip(y["x"], y["y"])), [(0, 1), (0.5, 0.25), (0.75, -1), (1, -0.5), (1.25, -0.5)])
        self.assertEqual(list(zip(v["x"], v["y"]))[:3], [(0, 0), (0.25, -2.5), (0.5, -5)])
        self.assertEqual(found["events"], {"1.1": {"count": 1, "times": [0.75]}})
        self.assertEqual((found["times"], found["notices"]), ((0, 1.25), []))
        part = session.draw({**asked, "window": ["0.5", "0.75"]})["panels"][0]["curves"][0]
        self.assertEqual((part["x"][0], part["x"][-1], part["y"][0]), (0.5, 0.75, 0.25))

    def test_measures_of_a_ball(self):
        session = self.session("ball.mo", BALL)
        asked = self.ask(session, panels=[["y"]], names=["y"], measures="mean(v) max(v, from=0.9)")
        found = session.measure(asked)
        # (those of the tests of runs from Python)
        row = dict(zip(("min", "mean", "max", "ripple", "final"), found["table"][0]["values"]))
        self.assertEqual((row["mean"], row["min"], row["max"]), (0.05, -0.875, 1))
        self.assertEqual([one["value"] for one in found["measures"]][:1], [-2.5])
        wrong = session.measure({**asked, "measures": "mean(nothing)"})["measures"]
        self.assertIn("no variable 'nothing'", wrong[0]["reason"])

    @NEEDS_PROGRAM
    def test_other_values(self):
        session = self.session("charged.mo", CHARGED)
        one, two = (session.draw(self.ask(session, values=values)) for values in ({}, {"R": "2"}))
        # (with half the resistance the voltage is at 1/16 after 1/8 in place of 1/4 of a time)
        self.assertEqual([found["panels"][0]["curves"][0]["x"][1] for found in (one, two)], [0.25, 0.125])
        # (the lines of the file: tau = 2*R*R/R is in line 3, and i = (U - u)/R in line 10)
        for values, part in (
            ({"R": "0"}, "division by 0: the parameter R is 0 (line 3)"),
            ({"R": "0", "tau": "1"}, "division by 0: the parameter R is 0 (line 10)"),
            ({"Q": "1"}, "no parameter"),
            ({"R": "1; R"}, "not a value"),
        ):
            with self.assertRaises(Fault) as caught:
                session.draw(self.ask(session, values=values))
            self.assertIn(part, session.named(caught.exception))

    def test_wrong_panels(self):
        session = self.session("charged.mo", CHARGED)
        with self.assertRaises(Fault) as caught:
            session.draw(self.ask(session, panels=[["nothing"]]))
        self.assertIn("charged.mo has no variable 'nothing'", session.named(caught.exception))
        self.assertNotIn(self.folder, session.named(caught.exception))
        for panels in ("u", [["u"]] * 1000):
            self.assertRaises(Fault, session.draw, self.ask(session, panels=panels))

    def test_one_wrong_name_does_not_hide_the_others(self):
        session = self.session("charged.mo", CHARGED)
        found = session.draw(self.ask(session, panels=[["nothing"], ["u", "u - none", "n"]]))
        drawn = [[curve["name"] for curve in panel["curves"]] for panel in found["panels"]]
        self.assertEqual(drawn, [["u", "n"]])
        self.assertEqual(list(found["wrong"]), ["nothing", "u - none"])
        self.assertEqual(found["notices"], list(found["wrong"].values()))
        self.assertIn("no variable 'none'", found["wrong"]["u - none"])
        self.assertEqual(session.draw(self.ask(session))["wrong"], {})

    def test_one_wrong_measure_does_not_hide_the_others(self):
        """The values of the ball are those of its other measures."""
        session = self.session("ball.mo", BALL)
        asked = self.ask(session, panels=[["y"]], names=["y"])
        for text, right, part, why in (
            ("mean(y) mean(none) mean(v)", [0.05, -2.5], "mean(none)", "no variable 'none'"),
            ("mean(y) middle(y), mean(v)", [0.05, -2.5], "middle(y),", "there is no measure 'middle'"),
            ("mean(y) mean(v", [0.05], "mean(v", "is not a measure"),
        ):
            *found, wrong = session.measure({**asked, "measures": text})["measures"]
            self.assertEqual([one["value"] for one in found], right, text)
            self.assertEqual((wrong["text"], wrong["value"]), (part, None))
            self.assertIn(why, wrong["reason"])

    def test_an_overflow(self):
        session = self.session("m.mo", GROWING)
        found = session.draw(self.ask(session, panels=[["x"]]))
        self.assertEqual(found["notices"], ["the run overflowed: x at tick 5 (time 5)"])
        self.assertAlmostEqual(found["panels"][0]["curves"][0]["y"][-1] / 1004006004001, 1, 9)

    @NEEDS_PROGRAM
    def test_a_band(self):
        decay = os.path.join(ROOT, "examples", "decay.mo")
        with open(decay, encoding="utf-8") as file:
            session = self.session("decay.mo", file.read())
        found = session.measure(self.ask(session, panels=[["x"]], band=True))
        self.assertEqual([one["opacity"] for one in found["bands"]], [0.13, 0.22])
        wide, narrow = found["bands"]
        # (the solution 64 e^-t is in the narrow band, which is in the wide one)
        for low, time, high in zip(narrow["lower"], narrow["x"], narrow["upper"]):
            self.assertTrue(low < 64 * 2.718281828**-time < high, time)
        self.assertTrue(all(one < other for one, other in zip(wide["lower"], narrow["lower"])))
        refused = session.measure(self.ask(session, panels=[["x"]], band=True, names=["x"]))
        self.assertEqual(refused["notices"], [])

    def test_only_the_last_runs_are_kept(self):
        runs = Runs(PROGRAM, self.folder, Limits())
        text = Text("ball.mo", 1, BALL.encode())
        first = runs.of(text, {})
        self.assertIs(runs.of(text, {}), first)
        for start in range(2, 12):
            runs.of(text, {"y.start": str(start)})
        self.assertFalse(os.path.exists(first.rows))
        self.assertEqual(len(os.listdir(self.folder)), 8)

    def test_a_long_run_is_stopped(self):
        slow = self.file(
            "slow",
            "#!/bin/sh\n[ $1 = print ] && exec %s \"$@\"\nprintf '%s'\nexec sleep 60\n"
            % (PROGRAM, "tick,event,name,level,state\\n0,start,x,1,1\\n1,level,x,1001,1001\\n2,lev"),
        )
        os.chmod(slow, 0o755)
        done = Runs(slow, self.folder, Limits(seconds=0.5)).of(Text("m.mo", 1, GROWING.encode()), {})
        self.assertEqual(done.stopped, "the run was stopped after 0.5 s")
        with open(done.rows, encoding="ascii") as file:
            self.assertEqual(file.read().splitlines()[-1], "1,level,x,1001,1001")


@NEEDS_PROGRAM
class PageOfDocs(Live):
    """docs/LIVE.md: its commands begin as it says, and its model runs."""

    def setUp(self):
        super().setUp()
        with open(os.path.join(ROOT, "docs", "LIVE.md"), encoding="utf-8") as file:
            self.page = file.read()

    def test_its_commands(self):
        commands = re.findall(r"^tools/qss-live ([^#\n]*)", self.page, re.MULTILINE)
        self.assertEqual(len(commands), 4)
        for number, command in enumerate(commands):
            args = parser_of().parse_args(shlex.split(command))
            folder = os.path.join(self.folder, str(number))
            os.mkdir(folder)
            options = Options(args.names, args.measures)
            session = Session(os.path.join(ROOT, args.model), PROGRAM, folder, options)
            session.look()
            session.check_names()
            state = session.state()
            self.assertEqual((state["problems"], state["measures"]), ([], args.measures), command)
            if args.names:
                self.assertEqual(",".join("+".join(one) for one in state["panels"]), args.names)

    def test_its_model(self):
        (model,) = re.findall(r"```modelica\n(.*?)```", self.page, re.DOTALL)
        session = self.session("converter.mo", model, names="uC,iL")
        self.assertEqual(session.problems, [])
        self.assertEqual([one.name for one in session.loaded.sheet.parameters], ["U", "L", "C", "ref", "kp", "kc"])
        for inductance, ripple in (("100", 1.2), ("200", 0.6)):
            asked = self.ask(session, values={"L": inductance}, names=["iL"], window=["2940", "3000"])
            # (at the duty ratio 1/2 the ripple is 24 V times 10 us over 2 L)
            self.assertAlmostEqual(session.measure(asked)["table"][0]["values"][3], ripple, delta=0.02)

    def test_second_order(self):
        """The line from 1 with the slope 1/2, which goes up to 5 at the time 8."""
        text = LINE.replace("QSS_CoefBits = 0", "QSS_CoefBits = 1")
        session = self.session("line.mo", text, limits=Limits(order=2))
        curve = session.draw(self.ask(session, panels=[["x"]]))["panels"][0]["curves"][0]
        self.assertEqual((curve["held"], curve["x"], curve["y"]), (False, [0, 8], [1, 5]))
        row = session.measure(self.ask(session, panels=[["x"]], names=["x"]))["table"][0]["values"]
        self.assertEqual(row, [1, 3, 5, 4, 5])


class Saves(Live):
    @NEEDS_PROGRAM
    def test_a_wrong_source_keeps_the_last_one(self):
        session = self.session("charged.mo", CHARGED)
        before, revision = session.state(), session.revision
        self.assertFalse(session.look())
        self.save(CHARGED.replace("der(u) = i;", "der(u) = j;"))
        self.assertTrue(session.look())
        state = session.state()
        self.assertEqual(state["revision"], revision + 1)
        (problem,) = state["problems"]
        self.assertEqual((problem["line"], problem["column"]), (9, 12))
        self.assertIn("'j'", problem["sentence"])
        self.assertIn("der(u) = j;\n", problem["excerpt"])
        self.assertEqual((state["text"], state["sheet"]), (before["text"], before["sheet"]))
        self.assertEqual(session.draw(self.ask(session))["panels"][0]["curves"][0]["x"][1], 0.25)
        self.save(CHARGED.replace('R(unit = "Ohm", min = 1, max = 9) = 4', "R = 2"))
        self.assertTrue(session.look())
        self.assertEqual(session.state()["problems"], [])
        self.assertRaises(Stale, session.draw, {"text": before["text"], "panels": [["u"]]})
        self.assertEqual(session.draw(self.ask(session))["panels"][0]["curves"][0]["x"][1], 0.125)

    @NEEDS_PROGRAM
    def test_a_source_that_is_wrong_at_first_or_missing(self):
        session = self.session("m.mo", "model m Real x; equation der(x) = ; end m;")
        self.assertEqual((session.loaded, "sheet" in session.state()), (None, False))
        self.assertEqual(session.state()["problems"][0]["line"], 1)
        self.assertRaises(Stale, session.draw, {"text": 1, "panels": []})
        self.save(BALL)
        self.assertTrue(session.look())
        self.assertEqual((session.state()["problems"], session.state()["sheet"]["name"]), ([], "ball"))
        os.unlink(self.path)
        self.assertTrue(session.look())
        self.assertIn("there is no such file", session.state()["problems"][0]["sentence"])
        self.assertEqual(session.state()["sheet"]["name"], "ball")
        self.assertFalse(session.look())


class Served(Live):
    def setUp(self):
        super().setUp()
        self.server = started(self.session("charged.mo", CHARGED), 0)
        self.addCleanup(self.server.end)
        self.port, self.token = self.server.server_port, self.server.token

    def answer(self, path, method="GET", body=None, **headers):
        """The status and the body of an answer."""
        connection = http.client.HTTPConnection(HOST, self.port, timeout=60)
        self.addCleanup(connection.close)
        connection.request(method, path, body, {name.replace("_", "-"): text for name, text in headers.items()})
        answer = connection.getresponse()
        return answer.status, answer.read(), answer.headers

    def test_only_this_computer_is_served(self):
        self.assertEqual(self.server.server_address, ("127.0.0.1", self.port))
        self.assertEqual(self.server.address, "http://127.0.0.1:%d/%s/" % (self.port, self.token))
        self.assertGreaterEqual(len(self.token), 32)

    def test_only_the_address_with_the_token_is_served(self):
        with_token = "/%s/state" % self.token
        for path in (
            "/",
            "/state",
            "/page.js",
            "//state",
            "/%s/state" % self.token[:-1],
            "/%sx/state" % self.token,
            "/x" + with_token,
        ):
            status, body, _ = self.answer(path)
            self.assertEqual((status, self.token.encode() in body), (403, False), path)
            self.assertEqual(self.answer(path, "POST", "{}")[0], 403, path)
        self.assertEqual(self.answer(with_token)[0], 200)

    def test_only_this_host_and_pages_of_it_are_served(self):
        path, port = "/%s/state" % self.token, self.port
        for host in (
            "example.org",
            "example.org:%d" % port,
            "127.0.0.1",
            "127.0.0.1:%d" % (port + 1),
            "127.0.0.1.example.org:%d" % port,
            "",
        ):
            self.assertEqual(self.answer(path, Host=host)[0], 403, host)
        self.assertEqual(self.answer(path, Host="localhost:%d" % port)[0], 200)
        for origin in ("http://example.org", "null", "https://127.0.0.1:%d" % port):
            self.assertEqual(self.answer(path, Origin=origin)[0], 403, origin)
        self.assertEqual(self.answer(path, Origin="http://127.0.0.1:%d" % port)[0], 200)

    def test_the_page_loads_nothing_from_elsewhere(self):
        status, page, headers = self.answer("/%s/" % self.token)
        self.assertEqual((status, b"://" in page), (200, False))
        self.assertIn("default-src 'none'", headers["Content-Security-Policy"])
        self.assertEqual(headers["Referrer-Policy"], "no-referrer")
        for name in ("page.js", "page.css"):
            status, text, _ = self.answer("/%s/%s" % (self.token, name))
            self.assertEqual((status, b"://" in text, b"eval" in text), (200, False, False), name)
        self.assertEqual(self.answer("/%s/../session.py" % self.token)[0], 404)
        self.assertEqual(self.answer("/%s/session.py" % self.token)[0], 404)

    def test_requests(self):
        draw = "/%s/draw" % self.token
        number = self.server.session.loaded.text.number
        status, body, _ = self.answer(draw, "POST", json.dumps({"text": number, "panels": [["u"]]}))
        self.assertEqual((status, json.loads(body)["panels"][0]["label"]), (200, "u [V]"))
        self.assertEqual(json.loads(self.answer(draw, "POST", json.dumps({"text": -1}))[1]), {"stale": True})
        wrong = json.loads(self.answer(draw, "POST", json.dumps({"text": number, "panels": [["q"]]}))[1])
        self.assertIn("no variable 'q'", wrong["fault"])
        for body in (
            "",
            "{",
            "[]",
            '"a"',
            json.dumps({"text": number, "panels": [1]}),
            json.dumps({"text": number, "window": 1}),
        ):
            self.assertEqual(self.answer(draw, "POST", body)[0], 400, body)
        self.assertEqual(self.answer(draw, "POST", "{}", Content_Length=str(MOST_REQUEST + 1))[0], 400)
        self.assertEqual(self.answer("/%s/nothing" % self.token, "POST", "{}")[0], 400)

    def test_a_save_is_streamed(self):
        connection = http.client.HTTPConnection(HOST, self.port, timeout=60)
        self.addCleanup(connection.close)
        connection.request("GET", "/%s/changes" % self.token)
        stream = connection.getresponse()
        self.addCleanup(stream.close)
        self.assertEqual(stream.readline(), b"data: 1\n")
        self.save(BALL)
        lines = iter(stream.readline, b"")
        self.assertEqual(next(line for line in lines if line.startswith(b"data: ")), b"data: 2\n")
        self.assertEqual(json.loads(self.answer("/%s/state" % self.token)[1])["sheet"]["name"], "ball")


class Tool(InFolder):
    """The tool as a process, and its page in a browser."""

    def setUp(self):
        super().setUp()
        self.python = python_with("plotly", "numpy") or python_with("plotly")
        if self.python is None:
            self.skipTest("plotly is not installed")
        self.temporary = os.path.join(self.folder, "tmp")
        os.mkdir(self.temporary)

    def start(self, model, *words):
        command = [self.python, os.path.join(TOOLS, "qss-live"), model, "--no-browser", "--program", PROGRAM, *words]
        environment = {**os.environ, "TMPDIR": self.temporary}
        self.process = subprocess.Popen(command, stdout=subprocess.PIPE, stderr=subprocess.PIPE, env=environment)
        self.addCleanup(self.process.communicate)
        self.addCleanup(self.process.terminate)
        return self.process.stdout.readline().decode().strip()

    def open(self, address):
        """The page in Chromium, when it has drawn."""
        if browser() is None:
            self.skipTest("Chromium is not installed")
        page = Page(1360, 860)
        self.addCleanup(page.close)
        try:
            page.open(address)
            page.wait("window.qssLive && window.qssLive.latencies.length > 0")
        except TimeoutError:
            self.skipTest("Chromium does not answer in time")
        return page

    def keep(self, page, name):
        """Writes a picture of the page into the folder that QSS_PICTURES names, to look at it."""
        if os.environ.get("QSS_PICTURES"):
            with open(os.path.join(os.environ["QSS_PICTURES"], name + ".png"), "wb") as file:
                file.write(page.picture())

    def test_it_ends_and_leaves_nothing(self):
        for number in (signal.SIGTERM, signal.SIGINT):
            address = self.start(self.file("ball.mo", BALL))
            self.assertRegex(address, r"^http://127\.0\.0\.1:\d+/[\w-]{32}/$")
            self.assertEqual(len(os.listdir(self.temporary)), 1)
            self.process.send_signal(number)
            self.assertEqual((self.process.wait(60), self.process.stderr.read()), (0, b""))
            self.assertEqual(os.listdir(self.temporary), [])

    def test_faults(self):
        ball = self.file("ball.mo", BALL)
        for words, part in (
            ([ball, "--names", "q"], "ball.mo has no variable 'q'"),
            ([ball, "--measures", "q"], "not a measure"),
            ([ball, "--unit", "q"], "no unit of time"),
            ([ball, "--seconds", "0"], "a number above 0"),
            ([ball, "--port", "70000"], "the port 70000 cannot be used"),
            ([ball + "x"], "there is no such file"),
        ):
            command = [self.python, os.path.join(TOOLS, "qss-live"), *words, "--no-browser", "--program", PROGRAM]
            done = subprocess.run(command, stdout=subprocess.PIPE, stderr=subprocess.PIPE, timeout=60)
            self.assert_fault((done.returncode, done.stdout.decode(), done.stderr.decode()), part)

    def test_without_plotly(self):
        if python_with("plotly") == shutil.which("python3"):
            self.skipTest("plotly is installed for this Python")
        self.assert_fault(run("qss-live", self.file("ball.mo", BALL), "--no-browser"), "needs the package plotly")

    @NEEDS_PROGRAM
    def test_a_slider_moves_the_curve(self):
        """A slider is moved by the mouse: the last value of the curve follows, in time."""
        model = os.path.join(ROOT, "docs", "tutorial", "converter.mo")
        with open(model, encoding="utf-8") as file:
            text = file.read().replace("  Real iL", '  parameter Real U = 24 "V";\n  Real iL').replace("24*s", "U*s")
        page = self.open(self.start(self.file("converter.mo", text), "--names", "uC,iL"))
        greatest = "Math.max(...document.getElementById('plot').data.filter((one) => one.yaxis === 'y').pop().y)"
        before = page.value(greatest)
        box = "(() => {const b = document.querySelector('[data-name=U] [type=range]').getBoundingClientRect(); return [b.left, b.top, b.width, b.height]})()"
        left, top, width, height = page.value(box)
        for move in range(MOVES):
            count = page.value("window.qssLive.latencies.length")
            x, y = left + width * (0.65, 0.85)[move % 2], top + height / 2
            for kind in ("Moved", "Pressed", "Released"):
                page.mouse(kind, x, y, kind != "Moved")
            page.wait("window.qssLive.latencies.length > %d" % count)
        page.wait("%s > %g" % (greatest, before * 1.2))
        taken = sorted(page.value("window.qssLive.latencies.slice(1)"))
        print("milliseconds from a slider to the curve: %s" % ", ".join("%.0f" % one for one in taken), flush=True)
        if os.getloadavg()[0] < len(os.sched_getaffinity(0)):  # (on a busy computer the figures are those of its load)
            self.assertLess(taken[0], WANTED_MS)
        self.assertTrue(page.value("document.querySelector('.parameter.moved') !== null"))
        self.assertIn("--set U=", page.value("document.getElementById('command').textContent"))
        self.keep(page, "live_slider")
        # (an end of the range that is no number, or beyond the other end, is said and not taken)
        end = "document.querySelector('[data-name=U] .end.left')"
        for text, part in (("two", "'two' is not a number"), ("1000", "'1000' is not below the other end")):
            page.value("%s.value = '%s'; %s.dispatchEvent(new Event('change')); 0" % (end, text, end))
            page.wait("document.getElementById('notices').textContent.includes(\"%s\")" % part)
            self.assertEqual(page.value(end + ".value"), "4.8")

    @NEEDS_PROGRAM
    def test_a_wrong_source_is_explained_beside_the_last_curve(self):
        model = self.file("charged.mo", CHARGED)
        path = opening_page(self.folder, self.start(model))
        self.assertEqual(os.stat(path).st_mode & 0o777, 0o600)
        page = self.open("file://" + path)
        drawn = "document.querySelectorAll('.scatterlayer path.js-line').length"
        count = page.value(drawn)
        self.assertGreater(count, 0)
        os.replace(self.file("new", CHARGED.replace("der(u) = i;", "der(u) = j;")), model)
        page.wait("!document.getElementById('problems').hidden")
        said = page.value("document.getElementById('problems').textContent")
        self.assertIn("line 9, column 12: ", said)
        self.assertIn("'j'", said)
        self.assertEqual(page.value(drawn), count)
        self.keep(page, "live_wrong")
        os.replace(self.file("new", CHARGED.replace("U = 1", "U = 3")), model)
        page.wait("document.getElementById('problems').hidden")
        page.wait("document.querySelector('[data-name=U] .value').value === '3'")
        self.keep(page, "live_mended")


if __name__ == "__main__":
    unittest.main()
