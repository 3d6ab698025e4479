"""Runs the examples of the gallery, draws examples/figures/NAME.svg of each, and writes examples/README.md.

  tools/make-gallery             draws all of them
  tools/make-gallery rc rlc      draws these

The head comment of a model states what is modelled, its units and what to look at. A line 'Plot:' has the command that
draws it. Some models have a second picture, with the bands of the certificate in the same folder.
"""
import os
import re
import shlex
import subprocess
import sys
import textwrap
from typing import Optional, Sequence

from qss_tools.fault import FINE, Arguments, Fault, read_text, run_tool
from qss_tools.program import ROOT, add_program_option, find_program

EXAMPLES = os.path.join(ROOT, "examples")
LINEAR = os.path.join(ROOT, "tools", "tests", "linear_models")
FOLDERS = {"motor": LINEAR}  # of models that are no examples of the golden test
# How the picture with the certified bands is drawn: in a part of the run, since a band is narrow.
BANDS = {
    "rlc": "--from 150",
    "ladder": "--from 2 --to 6 --height 200",
    "average": "--from 1500",
    "motor": "--from 60 --to 120",
}
HEIGHT = "100"  # of a panel
MOST_BYTES = 60000  # of a figure
WIDTH = 120  # of a line of the page

GALLERY = (
    ("Circuits", ("rc", "rlc", "ladder", "chua")),
    (
        "Converters",
        ("buck_ccm", "buck_dcm", "boost_ccm", "cuk", "buck_pi", "average", "interleaved", "rectifier", "sixstep"),
    ),
    ("Drives and control", ("dcmotor", "motor", "pid", "pendulum", "hysteresis", "sigmadelta", "pll")),
    ("Bodies", ("bouncing", "cradle", "massspring")),
    ("Processes and fields", ("room", "airconds", "tanks", "heat2d")),
    ("Life", ("neurons",)),
)

PAGE = """# Examples

This page shows runs of models. The text of each section is the comment at the head of the model's file. It states what
the model describes, which units it uses, and which variables to look at. The command above each picture draws the
picture. For each model `examples/NAME.mo` there are two further commands: `./qss run examples/NAME.mo` prints the run,
and `tools/qss-advise examples/NAME.mo` checks the settings of the model. Only the file `motor.mo` is in another folder,
`tools/tests/linear_models`. The command `tools/make-gallery` draws all pictures and writes this page.

[docs/GLOSSARY.md](../docs/GLOSSARY.md) defines terms such as tick, level, quantum, clause and branch.
[docs/MODELLING.md](../docs/MODELLING.md) describes how settings are chosen.
[docs/ACCURACY.md](../docs/ACCURACY.md) lists, for each model except `motor.mo`, the difference between its run and a
reference solution, which is computed by scipy.

For four models (`rlc.mo`, `ladder.mo`, `average.mo` and `motor.mo`) there is a second picture, whose command has the
option `--certificate`. Each of these models has a *certificate*, which guarantees a bound E for each state
([docs/CERTIFICATES.md](../docs/CERTIFICATES.md#what-acceptance-guarantees)). The second picture shows a dark and a
light band around the run of each state, and the following two facts are proved:

- The dark band extends to a distance of E/2 from the run. At each tick it contains the exact solution of the machine's
  differential equation from the run's start.
- The light band extends to a distance of E from the run. At each tick it contains every legitimate run from the same
  start whose quanta are at most the certificate's quanta.

The *machine* is the model in integers, and its differential equation is the model's equation with each coefficient
rounded once. A *legitimate run* is a trajectory of states and levels on a uniform time grid. In each grid step its
states change exactly by the right side of this equation at the levels. At each grid point each state is at most its
quantum from its level.

The six small models `decay.mo`, `ball.mo`, `buck.mo`, `boost.mo`, `thermostat.mo` and `cable.mo` have no picture. All
numbers of `decay.mo` are integers, and `decay.cert` is a certificate of this model. The file `ball.mo` also contains
settings of other tools, which `qss` skips.
"""


class Example:
    """An example: its title, the sentences of its head, and the words that draw it."""

    def __init__(self, name: str) -> None:
        self.name = name
        path = os.path.join(FOLDERS.get(name, EXAMPLES), name + ".mo")
        text = read_text(path)
        head = re.match(r"(?://[^\n]*\n)+", text)
        title = re.search(r"^model \w+ \"([^\"]*)\"", text, re.MULTILINE)
        lines = [line[2:].strip() for line in head.group().strip().split("\n")] if head else []
        if title is None or not any(line.startswith("Plot: ") for line in lines):
            raise Fault("%s: there is no title, or no line 'Plot:' in the head comment" % path)
        self.title = title.group(1)
        self.plot = next(line[6:] for line in lines if line.startswith("Plot: "))
        self.sentences = " ".join(line for line in lines if not line.startswith("Plot: "))
        self.link = os.path.relpath(path, EXAMPLES).replace(os.sep, "/")
        self.pictures = [(name, self.title, self.plot)]
        if name in BANDS:
            certificate = os.path.relpath(os.path.splitext(path)[0] + ".cert", ROOT).replace(os.sep, "/")
            band = "%s --certificate %s %s" % (self.plot, certificate, BANDS[name])
            self.pictures.append((name + "_band", self.title + " with its certified bands", band))

    def draw(self, program: str) -> None:
        """Draws the example's figures."""
        for figure, _, words in self.pictures:
            path = os.path.join(EXAMPLES, "figures", figure + ".svg")
            draw(shlex.split(words), path, program)
            print(os.path.relpath(path, ROOT))

    def paragraph(self) -> str:
        """The example on the page."""
        sentences = self.sentences.replace("*", "\\*").replace("[", "\\[").replace("]", "\\]")
        sentences = textwrap.fill(sentences, WIDTH, break_long_words=False, break_on_hyphens=False)
        head = "### %s: [%s.mo](%s)\n\n%s\n" % (self.title, self.name, self.link, sentences)
        return head + "".join(
            "\n```\n%s\n```\n\n![%s](figures/%s.svg)\n" % (words, title, figure)
            for figure, title, words in self.pictures
        )


def draw(words: Sequence[str], path: str, program: str) -> None:
    """Draws a figure by these words of a command line."""
    height = [] if "--height" in words else ["--height", HEIGHT]
    done = subprocess.run(
        [sys.executable, os.path.join(ROOT, words[0]), *words[1:], *height, "-o", path, "--program", program],
        cwd=ROOT,
        stdout=subprocess.DEVNULL,
        stderr=subprocess.PIPE,
        env=dict(os.environ, QSS_PLAIN="1"),
    )
    if done.returncode:
        raise Fault("%s: %s" % (path, done.stderr.decode().strip()))
    if os.path.getsize(path) > MOST_BYTES:
        raise Fault("%s: the figure has %d bytes, more than %d" % (path, os.path.getsize(path), MOST_BYTES))


def tool(arguments: Sequence[str]) -> int:
    parser = Arguments(prog="make-gallery", description=__doc__)
    parser.add_argument("names", nargs="*", help="examples to draw (default: all)")
    add_program_option(parser)
    args = parser.parse_args(arguments)
    program = find_program(args.program)
    os.makedirs(os.path.join(EXAMPLES, "figures"), exist_ok=True)
    page = [PAGE]
    for heading, names in GALLERY:
        page.append("## %s\n" % heading)
        for name in names:
            example = Example(name)
            if not args.names or name in args.names:
                example.draw(program)
            page.append(example.paragraph())
    with open(os.path.join(EXAMPLES, "README.md"), "w", encoding="utf-8") as file:
        file.write("\n".join(page))
    return FINE


def main(arguments: Optional[Sequence[str]] = None) -> int:
    """Runs the tool and returns its status."""
    return run_tool("make-gallery", tool, arguments)


if __name__ == "__main__":
    sys.exit(main())
