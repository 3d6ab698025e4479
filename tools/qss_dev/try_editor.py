"""The tool try-editor: mutated texts for the language server, and how long its answers take."""
import random
import statistics
import sys
import time
from pathlib import Path
from typing import Dict, Iterator, List, Optional, Sequence

from qss_tools.fault import FINE, WARNED, Arguments, run_tool
from qss_tools.program import add_program_option, find_program

from .editor_client import Client, Json

ABOUT = """Tries the language server: mutated texts, and the time of its answers.

  tools/try-editor --texts 10000    changes a document to so many mutated texts, and asks each question about each
  tools/try-editor --lines 1000     measures the answers about a model of about so many lines, after a change each time

Status: 0 each answer came without a fault (with --lines: the median of each kind within 100 ms), 1 not so, 2 a fault of
this tool."""

EXAMPLES = Path(__file__).resolve().parent.parent.parent / "examples"
MOST_BYTES = 6000  # of an example that is mutated
PIECES = (
    "",
    ";",
    "(",
    ")",
    "der(",
    "when",
    "end",
    "for i in",
    "9^8^8",
    "1e999999",
    '"',
    "/*",
    "\U0001d4b3",
    "\r",
    "\0",
)
QUESTIONS = ("hover", "definition", "prepareRename", "completion", "documentSymbol", "documentHighlight", "formatting")
LONGEST = 0.1  # seconds of an answer
URI = "file:///tried.mo"


def mutated(text: str, seed: random.Random) -> str:
    """A text with a few pieces left out, put in, doubled or exchanged."""
    for _ in range(seed.randint(1, 4)):
        at, length = seed.randrange(len(text) + 1), seed.choice((0, 1, 1, 5, 40))
        piece = seed.choice(PIECES) if seed.random() < 0.7 else text[at : at + length] * 2
        text = text[:at] + piece + text[at + length :]
    return text


def mutated_texts(count: int, seed: random.Random) -> Iterator[str]:
    """Texts that are made of short examples."""
    paths = sorted(path for path in EXAMPLES.glob("*.mo") if path.stat().st_size < MOST_BYTES)
    texts = [path.read_text(encoding="utf-8") for path in paths]
    for _ in range(count):
        yield mutated(seed.choice(texts), seed)


def ask_all(client: Client, seed: random.Random) -> Dict[str, float]:
    """Asks each question about a place of the text. Each is answered without a fault; the seconds that it took."""
    lines = client.text.split("\n")
    line = seed.randrange(len(lines))
    where = {"line": line, "character": seed.randrange(len(lines[line]) + 1)}
    params: Json = {"textDocument": {"uri": client.uri}, "position": where, "context": {}, "options": {}}
    taken = {}
    for name in QUESTIONS:
        begin = time.perf_counter()
        client.ask("textDocument/" + name, params)
        taken[name] = time.perf_counter() - begin
    client.ask("textDocument/references", {**params, "context": {"includeDeclaration": True}})
    client.actions({"start": where, "end": where})
    return taken


def long_model(lines: int) -> str:
    """A model of about so many lines: a chain of capacitors with switches."""
    count = max(2, (lines - 4) // 7)
    text = ["model long"]
    text += [f'  parameter Real R{at} = {at} "resistance {at}";' for at in range(1, count + 1)]
    text += [f'  Real u{at}(start = 1, unit = "V"); // node {at}' for at in range(1, count + 1)]
    text += [f"  discrete Real d{at}(start = 1);" for at in range(1, count + 1)]
    text += ["equation"]
    text += [f"  der(u{at}) = (d{at}*u{max(1, at - 1)} - u{at})/R{at};" for at in range(1, count + 1)]
    text += ["algorithm"]
    for at in range(1, count + 1):
        text += [f"  when u{at} > 0.5 then", f"    d{at} := 0;", "  end when;"]
    return "\n".join([*text, "  annotation(experiment(StopTime = 1));", "end long;", ""])


def measure(client: Client, lines: int, seed: random.Random) -> bool:
    """Prints the time of each kind of answer after a change, and whether the medians are short."""
    text = long_model(lines)
    client.open(URI, text)
    found: Dict[str, List[float]] = {}
    for turn in range(20):
        client.change(text.replace("StopTime = 1", f"StopTime = {turn + 1}"))
        for name, seconds in ask_all(client, seed).items():
            found.setdefault(name, []).append(seconds)
    print(f"{text.count(chr(10))} lines; milliseconds of an answer after a change (median, longest):")
    for name, times in found.items():
        print(f"  {name:18} {1000 * statistics.median(times):6.1f} {1000 * max(times):6.1f}")
    return all(statistics.median(times) <= LONGEST for times in found.values())


def tool(arguments: Sequence[str]) -> int:
    parser = Arguments(prog="try-editor", description=ABOUT)
    parser.add_argument("--texts", type=int, default=0, help="how many mutated texts")
    parser.add_argument("--lines", type=int, default=0, help="the length of the model that is measured")
    parser.add_argument("--seed", type=int, default=1, help="of the random numbers (default: %(default)s)")
    add_program_option(parser)
    args = parser.parse_args(arguments)
    seed, fine = random.Random(args.seed), True
    client = Client(sys.executable, find_program(args.program))
    if args.lines:
        fine = measure(client, args.lines, seed)
    client.open(URI, "")
    for text in mutated_texts(args.texts, seed):
        client.change(text)
        ask_all(client, seed)
    if args.texts:
        print(f"{args.texts} mutated texts: each question was answered without a fault")
    return FINE if client.close() == 0 and fine else WARNED


def main(arguments: Optional[Sequence[str]] = None) -> int:
    """Runs the tool and returns its status."""
    return run_tool("try-editor", tool, arguments)


if __name__ == "__main__":
    sys.exit(main())
