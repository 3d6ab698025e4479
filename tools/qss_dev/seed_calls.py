"""The tool seed-calls: writes four parts of the golden test (docs/TRANSCRIPT.md).

They have models from seeds, models from seeds in second order, examples, and certificates. The answers are computed
tick by tick and by the conditions of certificates.
"""
import glob
import os
import re
import sys
from collections import Counter
from multiprocessing import Pool
from typing import Any, Callable, Iterable, List, Optional, Sequence, Tuple

from qss_tools.certificates.affine import Affine
from qss_tools.certificates.conditions import first_failure, read_certificate
from qss_tools.certificates.settings import Reading
from qss_tools.fault import FINE, Arguments, Fault, read_bytes, run_tool
from qss_tools.output import Output
from qss_tools.program import ROOT

from .by_ticks import Answer, first_order, second_order
from .seeds import HEAVY, RARE, plain_source, source

FOLDER = os.path.join(ROOT, "crates", "transcript")
EXAMPLES = os.path.join(ROOT, "examples")
ROOM = 1 << 18  # bytes of out, where a script says nothing else
SEEDS, SECOND_SEEDS = 440, 300
FIRST = (
    "# Models that seeds give, run by each rule, and by `floor` as coupled models too: as "
    "tools/seed-calls writes them, with the answers of tools/by-ticks.\n"
)
SECOND = "# Models without clauses that seeds give, and four rare ones, run in second order: as those above.\n"
GALLERY = (
    "# Examples, run by events and as coupled models: as tools/seed-calls writes them, with the answers "
    "of tools/by-ticks.\n"
)
CERTIFIED = (
    "# Certificates of examples, which are accepted: as tools/seed-calls writes them, with the bounds that "
    "tools/qss_tools/certificates/conditions.py finds to hold.\n"
)
# Other settings for a certificate: the ticks of the example are too long for one.
CERTIFIED_SETTINGS = {"cable.mo": ("QSS_CoefBits = 4, QSS_TickBits = 6", "QSS_CoefBits = 12, QSS_TickBits = 20")}
# Other stop times: for models that take long as coupled models, since the time of a tick grows with the model, and for
# two models whose ticks would take ten minutes.
STOPS = {
    "airconds.mo": "8",
    "average.mo": "400",
    "dcmotor.mo": "12",
    "heat2d.mo": "5",
    "massspring.mo": "0.75",
    "neurons.mo": "25",
}
# The rules, with shares of a level's size that a quantum is at least, in 4096ths.
SETTINGS = (("floor", 0), ("near", 0), ("inward", 0), ("floor", 300), ("near", 2048), ("inward", 64))


def digest(text: str) -> int:
    """The digest of a text, as docs/TRANSCRIPT.md defines it."""
    found = 0
    for byte in text.encode():
        found = (31 * found + byte) % 2**32
    return found


class Part:
    """Lines of the script, the same with their answers, and how many rows of each event were summed."""

    def __init__(self, text: str = "") -> None:
        self.script = self.answers = text
        self.counts: "Counter[str]" = Counter()

    def say(self, text: str) -> None:
        """Lines that answer nothing."""
        self.script += text
        self.answers += text

    def add(self, other: "Part") -> None:
        self.script += other.script
        self.answers += other.answers
        self.counts += other.counts

    def call(self, words: str, answer: Answer) -> None:
        """A call, shown whole where it wrote nothing, and else summed."""
        self.counts.update(answer.counts)
        self.say("room %d\n" % len(answer.text) if len(answer.text) > ROOM else "")
        self.say("$ qss %s%s\n" % (words, " > rows" if answer.text else ""))
        self.answers += "! " + answer.line if answer.line else ""
        self.answers += "[status %d]\n" % answer.status if answer.status else ""
        if answer.text:
            self.say("$ sum rows\n")
            self.answers += "%d bytes, digest %d\n" % (len(answer.text), digest(answer.text))


def file(name: str, text: str) -> Part:
    """The lines that make a file."""
    return Part("file %s\n+ %s\n" % (name, text))


def first_calls(name: str, text: str) -> Part:
    """A model and its runs by each rule, the first also as a coupled model. A model that denotes no machine has no
    further runs.
    """
    part = file(name, text)
    for rule, share in SETTINGS:
        words = "run %s --rule %s" % (name, rule) + (" --relative %d" % share if share else "")
        answer = first_order(name, text.encode(), rule, share)
        part.call(words, answer)
        if (rule, share) == SETTINGS[0]:
            part.call("devs " + name, answer)
        if not answer.text:
            break
    part.counts["model"] += bool(answer.text)
    return part


def second_calls(name: str, text: str) -> Part:
    """A model without clauses and its run of second order."""
    part = file(name, text)
    answer = second_order(name, text.encode())
    part.call("run2 " + name, answer)
    part.counts["model"] += bool(answer.text)
    return part


def changed(name: str, text: str) -> Optional[Tuple[str, str]]:
    """What the script changes in the text of an example: its stop time, or nothing."""
    found = re.search("StopTime = [0-9.]+", text) if name in STOPS else None
    return None if found is None else (found.group(), "StopTime = " + STOPS[name])


def example_file(name: str, text: str) -> Tuple[Part, str]:
    """The lines that make a file of an example, and its text with the stop time that they give it."""
    part = Part("file %s\n" % name + "".join("| %s\n" % line for line in text.split("\n")[:-1]))
    change = changed(name, text)
    if change is None:
        return part, text
    part.say("change %s %s\n" % tuple(word.replace(" ", "\\s") for word in change))
    return part, text.replace(*change)


def example_calls(path: str) -> Part:
    """An example and its run, by events and as a coupled model."""
    name = os.path.basename(path)
    part, text = example_file(name, read_bytes(path).decode())
    answer = first_order(name, text.encode())
    for verb in ("run", "devs"):
        part.call("%s %s" % (verb, name), answer)
    part.counts["model"] += bool(answer.text)
    return part


def escaped(text: str) -> str:
    return text.replace(" ", "\\s")


def certificate_calls(path: str) -> Part:
    """A certificate of an example, and its check. The example is a file of the part of the examples."""
    name = os.path.basename(path)
    model = os.path.splitext(name)[0] + ".mo"
    text, certificate = read_bytes(os.path.splitext(path)[0] + ".mo").decode(), read_bytes(path).decode()
    part = Part()
    if model in CERTIFIED_SETTINGS:
        old, new = CERTIFIED_SETTINGS[model]
        part.say("file certified.mo\ncopy %s\nchange %s %s\n" % (model, escaped(old), escaped(new)))
        model, text = "certified.mo", text.replace(old, new)
    part.say("file %s\n" % name + "".join("| %s\n" % line for line in certificate.split("\n")[:-1]))
    system = Affine(Reading(model, text.encode()))
    found = read_certificate(certificate.encode(), system, path)
    failure = first_failure(system, found)
    if failure is not None:
        raise Fault("%s: inequality %d fails at place %d" % (path, failure.number, failure.place))
    part.say("$ qss certify %s %s\n" % (model, name))
    part.answers += "name,levels\n" + "".join("%s,%d\n" % pair for pair in zip(system.names, found["E"]))
    return part


def certificates_part(folder: str) -> Part:
    """The part with each certificate of a folder."""
    whole = Part("\n" + CERTIFIED)
    for path in sorted(glob.glob(os.path.join(folder, "*.cert"))):
        whole.add(certificate_calls(path))
    return whole


def seed_calls(seed: int) -> Part:
    return first_calls("seed-%d.mo" % seed, source(seed))


def plain_calls(seed: int) -> Part:
    return second_calls("plain-%d.mo" % seed, plain_source(seed))


def joined(heading: str, parts: Sequence[Part]) -> Part:
    """A part of the transcript, with what its runs have in all."""
    found = Part()
    for part in parts:
        found.add(part)
    whole = Part("\n" + heading)
    whole.say(
        "# Of %d models %d mean a machine. Rows of their runs: %s.\n"
        % (len(parts), found.counts.pop("model"), ", ".join("%s %d" % item for item in sorted(found.counts.items())))
    )
    whole.add(found)
    return whole


def worked(calls: Callable[[Any], Part], args: Iterable[Any], jobs: int) -> List[Part]:
    """The calls of each seed, or of each example."""
    if jobs == 1:
        return [calls(one) for one in args]
    with Pool(jobs) as pool:
        return pool.map(calls, args, 1)


def seeds_part(seeds: int, jobs: int) -> Part:
    """The part of first order, with a number of seeds."""
    return joined(FIRST, [first_calls("heavy.mo", HEAVY)] + worked(seed_calls, range(seeds), jobs))


def second_part(seeds: int, jobs: int) -> Part:
    """The part of second order, with a number of seeds."""
    rare = [second_calls(name + ".mo", text) for name, text in RARE.items()]
    return joined(SECOND, rare + worked(plain_calls, range(seeds), jobs))


def examples_part(folder: str, jobs: int) -> Part:
    """The part with each model of a folder."""
    return joined(GALLERY, worked(example_calls, sorted(glob.glob(os.path.join(folder, "*.mo"))), jobs))


def replaced(path: str, heading: str, text: str) -> str:
    """The text of a file with another part after its heading, or with a further part at its end."""
    held = read_bytes(path).decode()
    begin = held.find("\n" + heading)
    if begin < 0:
        return held + text
    end = held.find("\n\n# ", begin + 1)
    return held[:begin] + text + (held[end + 1 :] if end >= 0 else "")


def write(folder: str, heading: str, part: Part) -> None:
    """Puts a part into both files."""
    for name, text in (("stdin", part.script), ("stdout", part.answers)):
        path = os.path.join(folder, name)
        whole = replaced(path, heading, text)
        with Output(path) as output:
            output.write(whole)


def number(text: str) -> int:
    if not (text.isascii() and text.isdigit()):
        raise Fault("'%s' is no whole number" % text)
    return int(text)


PARTS = {"seeds": FIRST, "second": SECOND, "examples": GALLERY, "certificates": CERTIFIED}


def tool(arguments: Sequence[str]) -> int:
    parser = Arguments(
        prog="seed-calls",
        description="Writes the four parts of the transcript that have models from seeds, examples and their "
        "certificates, with computed answers, in the place of those that are there or after all others.",
    )
    parser.add_argument(
        "--part",
        choices=tuple(PARTS),
        action="append",
        help="a part to write: models from seeds, those run in second order, examples, certificates (default: all)",
    )
    parser.add_argument(
        "--seeds", default=str(SEEDS), metavar="N", help="how many seeds, from 0 on, give a model (default: %d)" % SEEDS
    )
    parser.add_argument(
        "--second",
        default=str(SECOND_SEEDS),
        metavar="N",
        help="how many give one without clauses (default: %d)" % SECOND_SEEDS,
    )
    parser.add_argument(
        "--examples", default=EXAMPLES, metavar="PATH", help="where the examples stand (default: examples)"
    )
    parser.add_argument("--jobs", default="1", metavar="N", help="how many models are worked on at once (default: 1)")
    parser.add_argument(
        "--folder", default=FOLDER, metavar="PATH", help="where stdin and stdout stand (default: crates/transcript)"
    )
    args = parser.parse_args(arguments)
    seeds, second, jobs = number(args.seeds), number(args.second), max(1, number(args.jobs))
    makers = {
        "seeds": lambda: seeds_part(seeds, jobs),
        "second": lambda: second_part(second, jobs),
        "examples": lambda: examples_part(args.examples, jobs),
        "certificates": lambda: certificates_part(args.examples),
    }
    for name, heading in PARTS.items():
        if args.part is None or name in args.part:
            write(args.folder, heading, makers[name]())
    return FINE


def main(arguments: Optional[Sequence[str]] = None) -> int:
    """Runs the tool and returns its status."""
    return run_tool("seed-calls", tool, arguments)


if __name__ == "__main__":
    sys.exit(main())
