"""The builds: the proved one shows its progress and builds again what changed; the quick one needs no proof; ./qss chooses."""
import contextlib
import fcntl
import os
import pty
import re
import shutil
import subprocess
import time

from support import ROOT, InFolder

CRATES = "# lowest first\nlow:\nmiddle: low itoa\nupper: middle\nhigh: upper\nqss: high low\nlow_tests: low\n"

# Stand-ins for rt, which knows where its kit is, and for the kit's prover, compiler and linker: the prover notes a crate
# and its jobs, needs what is below a crate, and fails as FAILS asks; rt try calls the compiler that lies beside it; the
# linker makes a program that prints its arguments.
COMPILING = "qss: compiling the program without its proofs"
NOT_PROVED = "qss: not proved on this machine; ./prove builds the proved program"
RT = """#!/bin/sh
case $1 in
doc) echo "$KIT/START-HERE.md" ;;
version) cat "$KIT/version" ;;
try)
    [ "$FAILS" = try ] && { echo "src/main.rt:1:1: error"; exit 1; }
    room=$(mktemp -d) && cd "$room" && echo module > program.ll || exit 1
    "$(dirname "$0")/../toolchain/bin/clang" -c program.ll -fsanitize=address -O0 -o program.o || exit 1
    echo "rt try: compiled and run" ;;
esac
"""
CLANG = """#!/bin/sh
echo "clang $*" >> "$KIT/log"
[ "$FAILS" = clang ] && exit 1
case "$FAILS $*" in
"parts "*part*) exit 1 ;;
*" -S "*) made=$KIT/module.ll ;;
*) made= ;;
esac
while [ "$1" != -o ]; do shift; done
if [ "$made" ]; then cp "$made" "$2"; else echo object > "$2"; fi
"""
# What the compiler makes of the program in place of its object, where its text is asked for.
MODULE = """target triple = "x86_64-unknown-linux-gnu"

define i32 @main() {
  ret i32 0
}
"""
RATTLE = """#!/bin/sh
name=$3
echo "$name $(cut -d' ' -f1,5,6,19 /proc/$$/stat)" >> "$KIT/processes"
while [ $# -gt 0 ]; do
    case $1 in
    --extern) [ -d "${2#*=}" ] || { echo "no $2"; exit 1; } ;;
    --jobs) echo "$name $2" >> "$KIT/log" ;;
    -o) out=$2 ;;
    esac
    shift
done
[ "$FAILS" = early ] && { echo "src/lib.rt:1:1: error"; exit 1; }
[ "$FAILS$name" = proofmiddle ] && { seq 30; exit 1; }
[ "$FAILS$name" = killmiddle ] && kill -KILL $$
[ "$FAILS$name" = endmiddle ] && { kill -TERM $PPID; sleep 200; }
if [ "$name" = qss ]; then echo object > "$out"; else mkdir -p "$out"; fi
"""
LINK = """#!/bin/sh
echo "link $(echo "$*" | grep -o '[a-z0-9]*[.]o\\b' | tr '\n' ' ')" >> "$KIT/log"
[ "$FAILS" = link ] && { echo "no linker"; exit 2; }
while [ "$1" != -o ]; do shift; done
case $3 in
*/program.o | */part0.o) kind=unproved ;;
*) kind=ran ;;
esac
printf '#!/bin/sh\\n[ $# = 0 ] && { echo "usage: qss VERB"; exit 2; }\\necho %s "$@"\\nexit 5\\n' $kind > "$2" && chmod +x "$2"
"""


# The modules of a build: no other one is loaded.
MODULES = {
    "qss_tools": ("arrays", "fault", "installed", "program"),
    "qss_dev": ("build", "crates", "quick_build", "schedule", "split_module"),
}


class Builds(InFolder):
    def setUp(self):
        super().setUp()
        for name in ("low", "middle", "upper", "high", "qss", "low_tests"):
            os.makedirs(f"{self.folder}/crates/{name}/src")
            self.file(f"crates/{name}/src/lib.rt", "")
        self.file("crates.txt", CRATES)
        os.makedirs(f"{self.folder}/tools")
        for name in ("qss", "prove"):
            shutil.copy(f"{ROOT}/{name}", self.folder)
        for name in ("run_tool.py", "build-program", "quick-build"):
            shutil.copy(f"{ROOT}/tools/{name}", f"{self.folder}/tools")
        for package, names in MODULES.items():
            os.makedirs(f"{self.folder}/tools/{package}")
            for name in ("__init__", "scripts", *names):
                shutil.copy(f"{ROOT}/tools/{package}/{name}.py", f"{self.folder}/tools/{package}")
        self.kit = f"{self.folder}/kit"
        for it in ("bin", "toolchain/bin", "rlibs/std.rlib", "rlibs/itoa.rlib"):
            os.makedirs(f"{self.kit}/{it}")
        for name, text in (
            ("bin/rt", RT),
            ("bin/rattle", RATTLE),
            ("bin/rattle-link", LINK),
            ("toolchain/bin/clang", CLANG),
        ):
            os.chmod(self.file(f"kit/{name}", text), 0o755)
        self.file("kit/version", "a kit\n")
        self.file("kit/module.ll", MODULE)

    def start(self, fails="", jobs="2", words=("prove",), **settings):
        """A script at work: the proved build, if no other is named."""
        environment = {
            **os.environ,
            "PATH": f"{self.kit}/bin:{os.environ['PATH']}",
            "KIT": self.kit,
            "FAILS": fails,
            "QSS_JOBS": jobs,
            "QSS_PROVED": "0",
            **settings,
        }
        return subprocess.Popen(
            [f"{self.folder}/{words[0]}", *words[1:]],
            env=environment,
            text=True,
            stdout=subprocess.PIPE,
            stderr=subprocess.PIPE,
        )

    def call(self, *words, fails="", **settings):
        """Runs the program; its status, its output and its lines on standard error."""
        with self.start(fails, words=("qss", *words), **settings) as front:
            out, err = front.communicate()
        return front.returncode, out, err.splitlines()

    def run_it(self, fails="", jobs="2"):
        """Proves and runs the program; the status, the output and all lines on standard error."""
        with self.start(fails, jobs) as front:
            out, err = front.communicate()
        if front.returncode:
            return front.returncode, out, err.splitlines()
        status, out, lines = self.call("run", "a.mo")
        return status, out, err.splitlines() + lines

    def change(self, name, text):
        """Gives a file another text, and a time that lies ahead."""
        self.file(name, text)
        ahead = os.stat(f"{self.folder}/{name}").st_mtime + 100
        os.utime(f"{self.folder}/{name}", (ahead, ahead))

    def built(self, lines):
        """The crates that were built, in their order."""
        return [found[1] for found in (re.match(r"qss: \d+ of \d+: (\w+), after", it) for it in lines) if found]

    def test_first_build(self):
        status, out, err = self.run_it()
        self.assertEqual((status, out), (5, "ran run a.mo\n"))
        self.assertEqual(err[0], "qss: proving and building 5 crates, 2 at a time")
        steps = [it.partition(", after")[0] for it in err if " of 5: " in it]
        self.assertEqual(
            steps, [f"qss: {k + 1} of 5: {it}" for k, it in enumerate(("low", "middle", "upper", "high", "qss"))]
        )
        self.assertTrue(err[-1].startswith("qss: built after "))
        self.assertEqual(self.run_it(), (5, "ran run a.mo\n", []))

    def test_the_program_without_proofs_comes_first(self):
        status, out, err = self.call("run", "a.mo")
        self.assertEqual((status, out), (5, "unproved run a.mo\n"))
        self.assertEqual(err[:2], ["qss: building the program without its proofs: about two minutes", COMPILING])
        self.assertTrue(err[2].startswith("qss: built without its proofs after "), err)
        self.assertEqual(self.call("run", "a.mo"), (5, "unproved run a.mo\n", []))
        # (the proved program then takes its place)
        self.assertEqual(self.run_it()[:2], (5, "ran run a.mo\n"))
        self.assertEqual(self.call("print", "b.mo"), (5, "ran print b.mo\n", []))

    def log(self):
        """What was called of the kit, with its arguments."""
        with open(f"{self.kit}/log", encoding="utf-8") as file:
            return [it.strip() for it in file]

    def test_the_program_without_proofs_is_compiled_in_parts(self):
        self.call("run", "a.mo")
        text, *parts, link = self.log()
        self.assertEqual(text.split(" -S ")[0], "clang -c program.ll -O0 -o text.ll -O0")
        self.assertEqual(sorted(parts), [f"clang -c part{it}.ll -O0 -o part{it}.o -O2" for it in range(4)])
        self.assertEqual(link, "link part0.o part1.o part2.o part3.o")

    def test_a_program_that_is_not_compiled_in_parts_is_compiled_in_one(self):
        whole = ["clang -c program.ll -O0 -o program.o -O2", "link program.o"]
        for fails, module, is_split in (("", "alias\n" + MODULE, False), ("parts", MODULE, True)):
            self.file("kit/module.ll", module)
            self.assertEqual(self.call("run", "a.mo", fails=fails)[:2], (5, "unproved run a.mo\n"))
            self.assertEqual((self.log()[-2:], any("part" in it for it in self.log())), (whole, is_split))
            shutil.rmtree(f"{self.folder}/crates/qss/out")
            os.remove(f"{self.kit}/log")

    def test_a_changed_source_is_compiled_again(self):
        self.call("run", "a.mo")
        self.change("crates/low/src/lib.rt", "//\n")
        self.assertIn(COMPILING, self.call("run", "a.mo")[2])
        # (a proved program whose sources are newer and the same stays)
        self.run_it()
        self.change("crates/low/src/lib.rt", "//\n")
        self.assertEqual(self.call("run", "a.mo"), (5, "ran run a.mo\n", []))
        self.change("crates/low/src/lib.rt", "//!\n")
        self.assertEqual(self.call("run", "a.mo")[:2], (5, "unproved run a.mo\n"))

    def test_only_the_proved_program(self):
        why = "qss: the program is not proved on this machine, and QSS_PROVED is 1; ./prove builds the proved program"
        self.assertEqual(self.call("run", "a.mo", QSS_PROVED="1"), (9, "", [why]))
        self.call("run", "a.mo")
        self.assertEqual(self.call("run", "a.mo", QSS_PROVED="1"), (9, "", [why]))
        self.run_it()
        self.assertEqual(self.call("run", "a.mo", QSS_PROVED="1"), (5, "ran run a.mo\n", []))

    def on_terminal(self, *words):
        """Runs ./qss with standard error on a terminal; its status, its output, and the lines on the terminal."""
        ours, theirs = pty.openpty()
        path = f"{self.kit}/bin:{os.environ['PATH']}"
        environment = {**os.environ, "QSS_PROVED": "0", "PATH": path, "KIT": self.kit}
        how = {"stdout": subprocess.PIPE, "stderr": theirs, "env": environment, "cwd": self.folder}
        with subprocess.Popen([f"{self.folder}/qss", *words], **how) as front:
            os.close(theirs)
            out = front.communicate()[0]
        read = b""
        with contextlib.suppress(OSError):  # (the end of a terminal is an error)
            while part := os.read(ours, 1000):
                read += part
        os.close(ours)
        return front.returncode, out.decode(), read.decode().splitlines()

    def test_a_terminal_is_told_that_nothing_is_proved(self):
        self.call("run", "a.mo")
        for _ in range(2):
            self.assertEqual(self.on_terminal("run", "a.mo"), (5, "unproved run a.mo\n", [NOT_PROVED]))

    def test_others_are_told_once_after_each_build(self):
        self.assertEqual(self.call("run", "a.mo")[2][3:], [NOT_PROVED])
        self.assertEqual(self.call("run", "a.mo"), (5, "unproved run a.mo\n", []))
        self.change("crates/low/src/lib.rt", "//\n")
        self.assertEqual(self.call("run", "a.mo")[2][3:], [NOT_PROVED])
        self.run_it()
        self.assertEqual(self.call("run", "a.mo"), (5, "ran run a.mo\n", []))

    def test_a_changed_kit_is_a_change(self):
        self.call("run", "a.mo")
        self.file("kit/version", "another kit\n")
        # (the kit is looked at where its rt is newer than the note of the kit)
        os.chmod(self.file("kit/bin/rt", RT), 0o755)
        self.assertIn(COMPILING, self.call("run", "a.mo")[2])
        self.assertEqual(self.call("run", "a.mo"), (5, "unproved run a.mo\n", []))
        self.run_it()
        self.file("kit/version", "a third kit\n")
        os.chmod(self.file("kit/bin/rt", RT), 0o755)
        self.assertEqual(self.call("run", "a.mo")[:2], (5, "unproved run a.mo\n"))

    def test_a_program_that_is_not_the_proved_one(self):
        self.run_it()
        os.chmod(self.file("crates/qss/out/qss", "#!/bin/sh\necho other\n"), 0o755)
        self.assertEqual(self.call("run", "a.mo")[:2], (5, "unproved run a.mo\n"))

    def test_help(self):
        for word in ("--help", "-h"):
            status, out, err = self.call(word)
            self.assertEqual((status, err), (0, []))
            for verb in ("run", "devs", "run2", "print", "certify", "propose", "upgrade", "check", "compare", "gen"):
                self.assertIn(f"\n  {verb} ", out)
        self.assertFalse(os.path.exists(f"{self.folder}/crates/qss/out"))

    def test_hints_are_only_for_terminals(self):
        self.call("run", "a.mo")
        asked = "qss: ./qss --help lists the commands"
        self.file("model.mo", "")
        program = self.file("crates/qss/out/unproved/qss", "#!/bin/sh\necho said >&2\nexit $1\n")
        os.chmod(program, 0o755)
        missing = ["qss: there is no file model, but model.mo"]
        for words, lines in (
            (("2", "x"), [f"{asked}; tools/qss-tools --version prints which program runs"]),
            (("3", "model"), missing),
            (("3", "b.mo"), ["qss: there is no file b.mo"]),
            (("5", "b.mo"), []),
        ):
            self.assertEqual(self.call(*words)[::2], (int(words[0]), ["said"]))
            self.assertEqual(self.on_terminal(*words), (int(words[0]), "", [NOT_PROVED, "said", *lines]))

    def test_a_kit_without_this_way_proves(self):
        for fails, why in (
            ("try", "qss: rt try did not compile the program, or does it in another way in this kit; its last lines:"),
            ("clang", "qss: clang fails; its last lines:"),
        ):
            status, out, err = self.call("run", "a.mo", fails=fails)
            self.assertEqual((status, out), (5, "ran run a.mo\n"))
            self.assertIn(why, err)
            self.assertIn("qss: nothing was built; ./prove proves and builds the program", err)
            self.assertIn("qss: proving and building 5 crates, 2 at a time", err)
            shutil.rmtree(f"{self.folder}/crates/qss/out")
            for name in ("low", "middle", "upper", "high"):
                shutil.rmtree(f"{self.folder}/crates/{name}/out")

    def test_a_symbolic_link_is_followed(self):
        self.run_it()
        os.makedirs(f"{self.folder}/elsewhere")
        os.symlink("../qss", f"{self.folder}/elsewhere/qss")
        os.symlink("elsewhere/qss", f"{self.folder}/second")
        for name in ("elsewhere/qss", "second"):
            with self.start(words=(name, "gen", "1", "2")) as front:
                self.assertEqual(front.communicate(), ("ran gen 1 2\n", ""))

    def test_processors(self):
        self.file("crates.txt", "low:\nmiddle: low\nupper: low\nhigh: middle upper\nqss: high\n")
        for number, at_once in (("1", "one after the other"), ("3", "3 at a time"), ("32", "32 at a time")):
            self.assertEqual(self.run_it(jobs=number)[2][0], f"qss: proving and building 5 crates, {at_once}")
            jobs = ["high 1", "link qss.o", "low 1", "middle 1", "qss 1", "upper 1"]
            self.assertEqual(sorted(self.log()), jobs)
            os.remove(f"{self.kit}/log")
            for name in ("low", "middle", "upper", "high", "qss"):
                shutil.rmtree(f"{self.folder}/crates/{name}/out")

    def test_a_long_crate_that_is_proved_alone(self):
        self.file("crates/high/src/lib.rt", "//\n" * 1000)
        self.run_it(jobs="3")
        self.assertEqual(sorted(self.log()), ["high 3", "link qss.o", "low 1", "middle 1", "qss 1", "upper 1"])

    def test_priorities(self):
        self.run_it()
        with open(f"{self.kit}/processes", encoding="utf-8") as file:
            processes = [it.split() for it in file]
        # (five crates on one chain, each with the same work)
        nices = {"low": 0, "middle": 3, "upper": 7, "high": 11, "qss": 15}
        own = os.nice(0)
        self.assertEqual({it[0]: int(it[4]) for it in processes}, {it: min(19, own + nices[it]) for it in nices})
        # (each crate has a process group of its own, and all have the session of ./prove)
        for _, process, group, session, _ in processes:
            self.assertEqual((group, session), (process, str(os.getsid(0))))

    def test_order(self):
        self.file("crates.txt", "early:\nlow:\nmiddle: low\nlate:\nhigh: early late middle\nqss: high\n")
        for name, lines in (("early", 3), ("low", 1), ("middle", 5), ("late", 4)):
            os.makedirs(f"{self.folder}/crates/{name}/src", exist_ok=True)
            self.file(f"crates/{name}/src/lib.rt", "//\n" * lines)
        self.assertEqual(self.built(self.run_it(jobs="1")[2]), ["low", "middle", "late", "early", "high", "qss"])

    def test_what_changed(self):
        self.run_it()
        for name, text, first, again in (
            (
                "crates/upper/src/lib.rt",
                "//\n",
                "qss: proving and building 3 crates, 2 at a time",
                ["upper", "high", "qss"],
            ),
            (
                "crates/low/src/lib.rt",
                "//\n",
                "qss: proving and building 5 crates, 2 at a time",
                ["low", "middle", "upper", "high", "qss"],
            ),
            (
                "crates.txt",
                CRATES.replace("itoa", "std"),
                "qss: proving and building 4 crates, 2 at a time",
                ["middle", "upper", "high", "qss"],
            ),
        ):
            self.change(name, text)
            status, out, err = self.run_it()
            self.assertEqual((status, out, err[0]), (5, "ran run a.mo\n", first))
            self.assertEqual(self.built(err), again)
        # (what is newer and the same is not built again)
        for name, text in (
            ("crates/low/src/lib.rt", "//\n"),
            ("crates.txt", "#\n" + CRATES.replace("itoa", "std")),
            ("crates/low_tests/src/lib.rt", "//\n"),
        ):
            self.change(name, text)
            self.assertEqual(self.run_it(), (5, "ran run a.mo\n", []))
        self.file("kit/version", "another kit\n")
        self.assertEqual(len(self.built(self.run_it()[2])), 5)

    def test_failures(self):
        for fails, why, last in (
            ("proof", "qss: middle is not proved; the last lines of why:", "30"),
            ("early", "qss: low is not proved; the last lines of why:", "src/lib.rt:1:1: error"),
            ("kill", "qss: middle is not proved; the last lines of why:", "it was ended by SIGKILL"),
            ("link", "qss: the program could not be built; the last lines of why:", "no linker"),
        ):
            for name in ("low", "middle"):
                shutil.rmtree(f"{self.folder}/crates/{name}/out", ignore_errors=True)
            status, out, err = self.run_it(fails)
            self.assertEqual((status, out), (9, ""))
            self.assertIn(why, err)
            self.assertEqual(err[-1], last)
            self.assertLessEqual(len(err) - err.index(why), 21)

    def test_goes_on(self):
        self.run_it("proof")
        self.assertEqual(self.built(self.run_it()[2]), ["middle", "upper", "high", "qss"])

    def test_ended(self):
        began = time.monotonic()
        status, out, err = self.run_it("end")
        self.assertEqual((status, out, self.built(err)), (143, "", ["low"]))
        self.assertLess(time.monotonic() - began, 100)
        self.assertEqual(self.built(self.run_it()[2]), ["middle", "upper", "high", "qss"])

    def test_text_that_comes_back(self):
        self.run_it()
        self.change("crates/low/src/lib.rt", "//\n")
        self.assertEqual(self.built(self.run_it("proof")[2]), ["low"])
        self.change("crates/low/src/lib.rt", "")
        self.assertEqual(len(self.built(self.run_it()[2])), 5)

    def test_program_of_others(self):
        self.run_it()
        self.file("crates/qss/out/qss", "#!/bin/sh\n")
        self.change("crates/low/src/lib.rt", "")
        status, out, err = self.run_it()
        self.assertEqual((status, out, self.built(err)), (5, "ran run a.mo\n", ["qss"]))

    def test_waits(self):
        os.makedirs(f"{self.folder}/crates/qss/out/statements")
        with open(f"{self.folder}/crates/qss/out/statements/lock", "w", encoding="ascii") as lock:
            fcntl.flock(lock, fcntl.LOCK_EX)
            with self.start() as front:
                said = front.stderr.readline()
                fcntl.flock(lock, fcntl.LOCK_UN)
                err = front.stderr.read().splitlines()
        self.assertEqual(said, "qss: waiting for another build\n")
        self.assertEqual(len(self.built(err)), 5)
