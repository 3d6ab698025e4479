"""Builds the program without its proofs, as crates/qss/out/unproved/qss, in about two minutes on four processors.

Nothing is proved. The sources are compiled as `rt try` compiles them, with its checks at run time, but optimised and
without its address sanitizer. A check that fails ends the program by a signal. `./prove` builds the proved program,
crates/qss/out/qss; the two never share a file, and both builds may run at once. The program is compiled in four parts
in parallel, or in one part if it cannot be split.

`rt try` has the clang of its kit compile the program, with -fsanitize=address among the arguments. That is no
interface of the kit. So rt is run in a folder of links to the kit, in which a script is called in place of clang. The
script keeps what it is asked to compile, and stops rt. If a kit works in another way, this build fails and says so, and
`./prove` is the way.

Status: 0 the program is built, 9 it is not.
"""
import contextlib
import fcntl
import os
import shlex
import shutil
import signal
import subprocess
import sys
import tempfile
import time
from typing import Any, Dict, Iterator, List, Mapping, Optional, Sequence

from qss_tools.fault import FINE, Arguments, Fault, run_tool
from qss_tools.program import ROOT, UNPROVED, is_current, note_kit

from .crates import FAILED, LAST, TARGET, Kit, failed
from .split_module import NotSplit, split_module

# The argument by which rt try has the program compiled, and no other module.
SANITIZER = "-fsanitize=address"
# How the program is compiled instead, and how its text is made.
LEVEL = "-O2"
AS_TEXT = ["-O0", "-S", "-emit-llvm", "-Xclang", "-disable-llvm-passes", "-Wno-unused-command-line-argument"]
# The number of parts in which it is compiled. It is the same on each machine, and so is the program.
PARTS = 4
# The script in place of clang. It keeps the arguments and the folder of the program's compilation, and passes on other
# calls.
KEEPER = """#!/bin/sh
case " $* " in
*" {sanitizer} "*) cp -R . {kept}/files && printf '%s\\n' "$@" >{kept}/words; exit 1 ;;
esac
exec {clang} "$@"
"""


def run_all(commands: Sequence[Sequence[str]], folder: str) -> "tuple[int, list[str]]":
    """Runs commands in a folder in parallel; the first status that is not 0, and the lines of that command or of all.

    They are ended with this process.
    """
    how: Dict[str, Any] = {
        "stdin": subprocess.DEVNULL,
        "stdout": subprocess.PIPE,
        "stderr": subprocess.STDOUT,
        "errors": "replace",
    }
    children: "List[subprocess.Popen[str]]" = []
    printed = []
    try:
        for words in commands:
            children.append(subprocess.Popen(words, cwd=folder, text=True, **how))
        for child in children:
            lines = child.communicate()[0].splitlines()
            if child.returncode:
                return child.returncode, lines
            printed += lines
        return 0, printed
    except OSError as why:
        raise failed(f"{words[0]} cannot be started: {why.strerror}") from why
    finally:
        for child in children:
            if child.poll() is None:
                child.terminate()
                child.wait()


def run(words: Sequence[str], folder: str) -> "tuple[int, list[str]]":
    """Runs a command in a folder; its status and the lines that it prints. It is ended with this process."""
    return run_all([words], folder)


def link_all(there: str, here: str, leaving: Sequence[str]) -> None:
    """Makes a folder of links to what another holds, except some names."""
    os.mkdir(here)
    for name in set(os.listdir(there)) - set(leaving):
        os.symlink(f"{there}/{name}", f"{here}/{name}")


def mirror(kit: str, here: str, kept: str) -> None:
    """Makes a folder of links to the kit, with a script for clang. The files of rt are copied: they find their kit."""
    scripts = [name for name in os.listdir(f"{kit}/bin") if name.startswith("rt")]
    link_all(kit, here, ["bin", "toolchain"])
    link_all(f"{kit}/bin", f"{here}/bin", scripts)
    for name in scripts:
        shutil.copy(f"{kit}/bin/{name}", f"{here}/bin/{name}")
    link_all(f"{kit}/toolchain", f"{here}/toolchain", ["bin"])
    link_all(f"{kit}/toolchain/bin", f"{here}/toolchain/bin", ["clang"])
    os.mkdir(kept)
    with open(f"{here}/toolchain/bin/clang", "w", encoding="utf-8") as file:
        paths = {"kept": shlex.quote(kept), "clang": shlex.quote(f"{kit}/toolchain/bin/clang")}
        file.write(KEEPER.format(sanitizer=SANITIZER, **paths))
        os.chmod(file.name, 0o755)


class Compiler:
    """The kit's clang, with the arguments by which rt try has the program compiled, and the folder of this call."""

    def __init__(self, kit: str, kept: str) -> None:
        self.clang, self.folder = f"{kit}/toolchain/bin/clang", f"{kept}/files"
        with open(f"{kept}/words", encoding="utf-8") as file:
            self.words = [word for word in file.read().splitlines() if word != SANITIZER]
        self.made = self.words[self.words.index("-o") + 1] if "-o" in self.words[:-1] else ""

    def compile(self, options: Sequence[str], *changes: Mapping[str, str]) -> None:
        """Compiles with more options, in parallel for each change, which names other files for those of rt try."""
        commands = [[self.clang, *(it.get(word, word) for word in self.words), *options] for it in changes]
        status, lines = run_all(commands, self.folder)
        if status:
            raise failed("clang fails; its last lines:", lines)

    def in_one(self) -> List[str]:
        """Compiles the program; its object."""
        self.compile([LEVEL], {})
        return [f"{self.folder}/{self.made}"]

    def in_parts(self) -> List[str]:
        """Compiles the program in parts; their objects."""
        (module,) = [word for word in self.words if os.path.isfile(f"{self.folder}/{word}")]
        self.compile(AS_TEXT, {self.made: "text.ll"})
        how: Dict[str, Any] = {"encoding": "utf-8", "errors": "surrogateescape"}
        with open(f"{self.folder}/text.ll", **how) as file:
            texts = split_module(file.read(), PARTS)
        for number, text in enumerate(texts):
            with open(f"{self.folder}/part{number}.ll", "w", **how) as file:
                file.write(text)
        self.compile([LEVEL], *({module: f"part{it}.ll", self.made: f"part{it}.o"} for it in range(PARTS)))
        return [f"{self.folder}/part{it}.o" for it in range(PARTS)]


def link(kit: str, objects: Sequence[str], new: str, room: str) -> None:
    """Links the program as `new`, and calls it."""
    words = [f"{kit}/bin/rattle-link", "--target", TARGET, "--toolchain", f"{kit}/toolchain", "-o", new, *objects]
    status, lines = run([*words, f"{kit}/c/libos_c.a", f"{kit}/c/liblibc_c.a"], room)
    if status:
        raise failed("rattle-link fails; its last lines:", lines)
    status, lines = run([new], room)
    if status != 2 or not lines or not lines[0].startswith("usage: qss"):
        raise failed(f"the new program does not print its usage, and ends with status {status}", lines)


def compile_program(root: str, kit: str, room: str, new: str) -> None:
    """Compiles and links the program in a folder of its own, and writes it as `new`."""
    kept = f"{room}/kept"
    mirror(kit, f"{room}/kit", kept)
    _, lines = run([f"{room}/kit/bin/rt", "try"], f"{root}/crates/qss")
    if not os.path.exists(f"{kept}/words"):
        raise failed(
            "rt try did not compile the program, or does it in another way in this kit; its last lines:", lines
        )
    print("qss: compiling the program without its proofs", file=sys.stderr, flush=True)
    compiler = Compiler(kit, kept)
    try:
        link(kit, compiler.in_parts(), new, room)
    except (Fault, NotSplit, OSError, ValueError):
        link(kit, compiler.in_one(), new, room)


@contextlib.contextmanager
def alone(folder: str) -> Iterator[None]:
    """Waits until no other build of this folder is under way, and keeps others waiting."""
    with open(f"{folder}/lock", "w", encoding="ascii") as lock:
        try:
            fcntl.flock(lock, fcntl.LOCK_EX | fcntl.LOCK_NB)
        except BlockingIOError:
            print("qss: waiting for another build", file=sys.stderr, flush=True)
            fcntl.flock(lock, fcntl.LOCK_EX)
        yield


def build(root: str = ROOT, program: str = UNPROVED) -> None:
    """Builds the program without its proofs, where it is not there or a source is newer."""
    begun, folder = time.time(), os.path.dirname(program)
    os.makedirs(folder, exist_ok=True)
    with alone(folder):
        if is_current(program):
            return
        print("qss: building the program without its proofs: about two minutes", file=sys.stderr, flush=True)
        kit = Kit().folder
        with tempfile.TemporaryDirectory(prefix="quick-build-") as room:
            compile_program(root, kit, room, f"{room}/qss")
            shutil.copy(f"{room}/qss", f"{program}.new")
        # (so that it is newer than each source that was there when the build began, and than no other)
        os.utime(f"{program}.new", (begun, begun))
        os.replace(f"{program}.new", program)
        note_kit(program)
        # (./qss makes this file when it has said that the program is not proved)
        with contextlib.suppress(FileNotFoundError):
            os.remove(f"{program}.noted")
    print(f"qss: built without its proofs after {time.time() - begun:.0f} s", file=sys.stderr)


def tool(arguments: Sequence[str]) -> int:
    parser = Arguments(prog="quick-build", description=__doc__)
    parser.parse_args(arguments)
    for number in (signal.SIGTERM, signal.SIGHUP):
        signal.signal(number, lambda it, _: sys.exit(128 + it))
    try:
        build()
    except Fault as fault:
        fault.lines = [*fault.lines[-LAST:], "qss: nothing was built; ./prove proves and builds the program"]
        raise
    except KeyboardInterrupt:
        return 128 + signal.SIGINT
    except OSError as why:
        raise Fault(f"{why.filename or 'the build'}: {why.strerror}", status=FAILED) from why
    return FINE


def main(arguments: Optional[Sequence[str]] = None) -> int:
    """Runs the tool and returns its status."""
    return run_tool("qss", tool, arguments)


if __name__ == "__main__":
    sys.exit(main())
