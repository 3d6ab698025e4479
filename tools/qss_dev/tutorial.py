"""Runs each command of README.md and docs/TUTORIAL.md, and writes its output below it.

  tools/run-tutorial            runs all commands, from the repository's root, and writes pages and figures anew
  tools/run-tutorial --check    runs them and reports the first whose output differs from its page

A command is a line '$ ..' in a console block. Its output is the lines up to the next command. Commands write files into
the folder tour/.
"""
import os
import re
import shutil
import subprocess
import sys
from typing import Match, Optional, Sequence

from qss_tools.fault import FINE, Arguments, Fault, read_bytes, run_tool
from qss_tools.output import Output
from qss_tools.program import LAUNCHER, ROOT, find_program

PAGES = ("README.md", "docs/TUTORIAL.md")
BLOCK = re.compile(r"(?<=```console\n).*?(?=```)", re.DOTALL)
MOST_SECONDS = 300


def said(command: str) -> str:
    """What a command prints in a terminal."""
    done = subprocess.run(
        ["bash", "-c", command],
        cwd=ROOT,
        stdin=subprocess.DEVNULL,
        stdout=subprocess.PIPE,
        stderr=subprocess.STDOUT,
        timeout=MOST_SECONDS,
        env=dict(os.environ, QSS_PLAIN="1"),
    )
    return done.stdout.decode("utf-8", "replace")


def renewed(page: str, text: str, is_check: bool) -> "tuple[str, int]":
    """The text of a page with the outputs of its commands, and how many commands it has."""
    count = 0

    def with_outputs(block: Match[str]) -> str:
        nonlocal count
        lines = ""
        for command, shown in re.findall(r"^\$ ([^\n]*)\n((?:(?!\$ )[^\n]*\n)*)", block.group(), re.MULTILINE):
            now, count = said(command), count + 1
            if is_check and now != shown:
                raise Fault("%s: '%s' says something else now: %s" % (page, command, now[:200]))
            lines += "$ %s\n%s" % (command, now)
        return lines

    return BLOCK.sub(with_outputs, text), count


def copy_figures(text: str) -> None:
    """Copies the figures of a page that its commands drew."""
    for figure in re.findall(r"\]\((?:docs/)?figures/(\w+\.svg)\)", text):
        shutil.copyfile(os.path.join(ROOT, "tour", figure), os.path.join(ROOT, "docs", "figures", figure))


def tool(arguments: Sequence[str]) -> int:
    parser = Arguments(prog="run-tutorial", description=__doc__)
    parser.add_argument("--check", action="store_true", help="write nothing")
    args = parser.parse_args(arguments)
    find_program(None)
    # (a first call of ./qss may say that the program is not proved: this is no part of a page)
    subprocess.run([LAUNCHER, "gen", "0", "1"], stdin=subprocess.DEVNULL, stdout=subprocess.DEVNULL, check=False)
    for page in PAGES:
        path = os.path.join(ROOT, page)
        text, count = renewed(page, read_bytes(path).decode(), args.check)
        if not args.check:
            with Output(path) as output:
                output.write(text)
            copy_figures(text)
        print("%s: %d commands%s" % (page, count, ", as the page shows them" if args.check else ""))
    return FINE


def main(arguments: Optional[Sequence[str]] = None) -> int:
    """Runs the tool and returns its status."""
    return run_tool("run-tutorial", tool, arguments)


if __name__ == "__main__":
    sys.exit(main())
