"""The tools of qss, and what is installed.

  tools/qss-tools               lists the tools, with a line for each, and then those for work on qss
  tools/qss-tools NAME ..       runs the tool NAME with the words that follow; NAME can be without its first 'qss-'
  tools/qss-tools --version     prints version, commit and kit, whether the program that runs is proved, and its
                                SHA-256 digest
  tools/qss-tools --path        prints the folder of the Python package qss_tools, for PYTHONPATH

Status: 0, or 2 a fault; with NAME, the status of that tool.
"""
import argparse
import ast
import importlib.util
import os
import platform
import re
import subprocess
import sys
from typing import Iterator, List, Optional, Sequence, Tuple

from .by_name import run_by_name
from .fault import FINE, Arguments, Fault, read_bytes, run_tool
from .installed import for_user
from .program import BUILT, LAUNCHER, NOT_PROVED, ROOT, UNPROVED, WITHOUT_PROOFS, digest_of, is_current
from .scripts import PACKAGES, scripts_of

VERSION = "0.1.0"
# The file that `make install` writes next to the program, or `make wheel` into the package: the lines of --version.
WRITTEN = (os.path.join(ROOT, "VERSION"), os.path.join(os.path.dirname(os.path.abspath(__file__)), "VERSION"))
INSTALLED = next((path for path in WRITTEN if os.path.isfile(path)), WRITTEN[0])


def said(command: Sequence[str]) -> Optional[str]:
    """What a command prints, or None if it cannot be run or fails."""
    try:
        done = subprocess.run(command, cwd=ROOT, stdout=subprocess.PIPE, stderr=subprocess.DEVNULL, check=False)
    except OSError:
        return None
    return done.stdout.decode("utf-8", "replace").strip() if done.returncode == 0 else None


def is_proved(program: str) -> bool:
    """Whether ./prove built this file, from the sources that are here, with the kit on the path."""
    mark = os.path.join(os.path.dirname(BUILT), "statements", "qss.mark")
    if os.path.abspath(program) != BUILT or not os.path.isfile(mark) or not is_current(BUILT):
        return False
    return read_bytes(mark).decode("ascii", "replace").split()[-1:] == [digest_of(BUILT)]


def state_of_program() -> Tuple[str, Optional[str]]:
    """Which program ./qss runs and whether it is proved, and its path."""
    if is_proved(BUILT):
        return "proved on this machine", BUILT
    if os.access(UNPROVED, os.X_OK) and is_current(UNPROVED):
        return NOT_PROVED, UNPROVED
    if os.access(BUILT, os.X_OK):
        return "proved from other sources or with another kit; ./prove proves these", BUILT
    if os.access(UNPROVED, os.X_OK):
        return "not proved, and built from other sources or with another kit; ./qss builds it again", UNPROVED
    return "not built; ./prove proves and builds it", None


def proof_of(program: str) -> str:
    """Whether a program is proved, for the lines of an installation."""
    if is_proved(program):
        return "proved"
    return "not proved from these sources with this kit" if os.path.abspath(program) == BUILT else WITHOUT_PROOFS


def program_to_install() -> str:
    """The program that ./qss runs, where it needs not be built for that."""
    program = next((one for one in (BUILT, UNPROVED) if is_proved(one) or one == UNPROVED and is_current(one)), None)
    if program is None:
        raise Fault(
            "no program is built from these sources: './qss print examples/decay.mo' builds it without its proofs in"
            " about two minutes, and ./prove proves and builds it; PROGRAM=PATH names another one"
        )
    return program


def binary_line(program: str) -> str:
    """The line with the digest of a program."""
    return f"binary: sha256 {digest_of(program)}"


def installed_lines() -> List[str]:
    """The lines that `make install` wrote, if the program next to these tools is still the same."""
    lines = read_bytes(INSTALLED).decode().splitlines()
    found = binary_line(LAUNCHER) if os.access(LAUNCHER, os.R_OK) else "binary: none"
    if found in lines:
        return lines
    state = "program: another one than make install put there"
    return [state if line.startswith("program:") else found if line.startswith("binary:") else line for line in lines]


def version_lines() -> Sequence[str]:
    """The lines of --version."""
    if os.path.isfile(INSTALLED):
        lines = installed_lines()
    else:
        commit = said(["git", "rev-parse", "--short=12", "HEAD"]) or "unknown"
        changed = " with changes" if commit != "unknown" and said(["git", "status", "--porcelain"]) else ""
        lines = ["qss-tools %s" % VERSION, "commit: %s%s" % (commit, changed)]
        state, program = state_of_program()
        lines += ["kit: %s" % (said(["rt", "version"]) or "none on the path"), "program: %s" % state]
        lines += [binary_line(program)] if program else []
    return [*lines, "python: %s" % platform.python_version()]


def tools(package: str) -> Iterator[Tuple[str, str]]:
    """The name of each tool of a package, with the first sentence of what describes it."""
    for name, module in sorted(scripts_of(package).items()):
        found = importlib.util.find_spec(module)
        if found is not None and found.origin is not None:
            yield name, for_user(first_sentence(ast.parse(read_bytes(found.origin))))


def first_sentence(tree: ast.Module) -> str:
    """The first sentence of a module's ABOUT, or else of its docstring."""
    text = ast.get_docstring(tree) or ""
    for item in tree.body:
        if isinstance(item, ast.Assign) and isinstance(item.value, ast.Constant):
            if getattr(item.targets[0], "id", "") == "ABOUT":
                text = item.value.value
    return re.split(r"\.(?:\s|$)|\n\n", " ".join(text.split("\n\n")[0].split()))[0].rstrip(":.") + "."


def asked_lines(args: argparse.Namespace) -> Sequence[str]:
    """The lines that an option asks for, or none."""
    if args.proved:
        return [proof_of(args.proved), binary_line(args.proved)]
    if args.version:
        return version_lines()
    if args.which:
        return [program_to_install()]
    return [os.path.dirname(os.path.dirname(os.path.abspath(__file__)))] if args.path else []


def tool(arguments: Sequence[str]) -> int:
    parser = Arguments(prog="qss-tools", description=__doc__)
    parser.add_argument("--version", action="store_true", help="print what is installed")
    parser.add_argument("--proved", metavar="PROGRAM", help="print whether this program is proved, and its digest")
    parser.add_argument("--which", action="store_true", help="print the program that `make install` installs")
    parser.add_argument("--path", action="store_true", help="print the folder of the Python package qss_tools")
    args = parser.parse_args(arguments)
    asked = asked_lines(args)
    if asked:
        print("\n".join(asked))
        return FINE
    user, developer = (list(tools(package)) for package in PACKAGES)
    width = max(len(name) for name, _ in user + developer)
    heads = [("", ""), ("For work on qss:", "")] if developer else []
    lines = [f"{name:{width}}  {sentence}".rstrip() for name, sentence in [*user, *heads, *developer]]
    print("\n".join(lines))
    return FINE


def main(arguments: Optional[Sequence[str]] = None) -> int:
    """Runs the tool, or the one that is named, and returns its status."""
    words = sys.argv[1:] if arguments is None else arguments
    is_name = bool(words) and not words[0].startswith("-")
    return run_tool("qss-tools", run_by_name if is_name else tool, words)


if __name__ == "__main__":
    sys.exit(main())
