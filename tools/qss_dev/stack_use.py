"""Prints how much stack the program needs: the least stack limit for each verb, and the largest frames of functions.

  tools/stack-use                  all verbs, and the 20 largest frames
  tools/stack-use run check        only these verbs
  tools/stack-use --frames 5       the 5 largest frames
  tools/stack-use --most 128       status 1 if a verb needs more than 128 KiB
  tools/stack-use --shallow        without the model with 64 open brackets

Each verb is called for small models, and for a model with 64 open brackets. The least limit of a verb is the least
RLIMIT_STACK, in whole pages, with which each of its calls ends as without a limit. The stack also holds what the kernel
and the C library put there. The calls have no environment, and their addresses are not random if the kernel permits it.

The frame of a function is what its first instructions take from the stack, with the return address, as `objdump -d`
prints them. Without objdump no frames are printed.

Status: 0 fine, 1 a verb needs more than --most, 2 wrong arguments or a fault.
"""
import ctypes
import os
import re
import resource
import shutil
import subprocess
import sys
import tempfile
from typing import Callable, Dict, Iterable, Iterator, List, NamedTuple, Optional, Sequence, Tuple

from qss_tools.certificates import rows_to_trace
from qss_tools.fault import FINE, WARNED, Arguments, Fault, run_tool
from qss_tools.program import ROOT, add_program_option, find_program

PAGE = resource.getpagesize()
# The least limit is searched below this number of bytes.
ENOUGH = 1 << 23
KIB = 1024
# Linux's flag of personality(2) for addresses that are not random.
NOT_RANDOM = 0x0040000
EXAMPLES = ("ball.mo", "decay.mo", "decay.cert")
MODELS = ("ball.mo", "decay.mo", "deep.mo", "refused.mo")
VERBS = ("run", "devs", "run2", "print", "propose", "certify", "upgrade", "check", "compare", "gen")
# The greatest allowed number of open brackets.
DEPTH = 64
REFUSED = "model m Real x; equation der(x) = 1/0; end m;\n"

# A label of a function, and the instructions that begin it.
LABEL = re.compile(r"[0-9a-f]+ <(.+)>:$")
PUSH = re.compile(r"\tpush +%r")
MOVED = re.compile(r"\t(sub|add) +\$0x([0-9a-f]+),%rsp$")
LEA = re.compile(r"\tlea +-0x([0-9a-f]+)\(%rsp\),%rsp$")
# A large frame is taken in pieces, by a loop that ends at the address in r11.
TO_END = re.compile(r"\tsub +\$0x([0-9a-f]+),%r11$")
REPEATED = re.compile(r"\tj\w+ ")
BEGINS = re.compile(r"\t(mov +%rsp,%r(bp|11)|movq +\$0x0,\(%rsp\)|cmp +%r11,%rsp|j\w+ .*)$")

Answer = Tuple[int, bytes, bytes]  # the status, standard output and standard error


class Frame(NamedTuple):
    """The bytes of the stack that a call of a function takes."""

    size: int
    function: str


def deep_model() -> str:
    """A model whose equation has as many open brackets as a model may have."""
    inner = "(1)"
    for _ in range(DEPTH - 1):
        inner = "(1-1*%s^1)" % inner
    return "model deep Real x; equation der(x) = %s-x; end deep;\n" % inner


def write_models(folder: str) -> None:
    """Puts the models of the calls into a folder."""
    for name in EXAMPLES:
        shutil.copy(os.path.join(ROOT, "examples", name), folder)
    for name, text in (("deep.mo", deep_model()), ("refused.mo", REFUSED)):
        with open(os.path.join(folder, name), "w", encoding="ascii") as file:
            file.write(text)


def write_trace(folder: str, program: str) -> None:
    """Puts the trace of the run of decay.mo into a folder."""
    model, trace = (os.path.join(folder, name) for name in ("decay.mo", "decay.trace"))
    rows_to_trace.tool([model, "-o", trace, "--program", program])


def calls_of(verb: str, models: Sequence[str]) -> List[List[str]]:
    """The calls of a verb, for these models."""
    if verb == "run":
        rules = [[verb, "decay.mo", "--rule", rule] for rule in ("near", "inward")]
        return [*([verb, it] for it in models), *rules, [verb, "ball.mo", "--only", "y"], [verb, "none.mo"]]
    if verb in ("devs", "run2", "print", "propose"):
        return [[verb, it] for it in models]
    if verb in ("certify", "upgrade"):
        return [[verb, "decay.mo", it] for it in ("decay.cert", "decay.mo")]
    if verb == "check":
        return [[verb, "decay.mo", it] for it in ("decay.trace", "decay.mo")]
    if verb == "compare":
        return [[verb, "decay.mo", "decay.cert", "first", it] for it in ("second", "decay.trace")]
    return [[verb, "1", "4"]]


class Caller:
    """Calls a program in a folder, with a limit of its stack."""

    def __init__(self, program: str, folder: str) -> None:
        self.program, self.folder = program, folder
        self.environment: Dict[str, str] = {}
        self.library = ctypes.CDLL(None)

    def prepare(self, limit: Optional[int]) -> Callable[[], None]:
        """What is set before the program begins."""

        def set_limits() -> None:
            self.library.personality(NOT_RANDOM)
            resource.setrlimit(resource.RLIMIT_CORE, (0, 0))
            if limit is not None:
                resource.setrlimit(resource.RLIMIT_STACK, (limit, resource.getrlimit(resource.RLIMIT_STACK)[1]))

        return set_limits

    def call(self, words: Sequence[str], limit: Optional[int] = None) -> Optional[Answer]:
        """How a call ends, or None if the program does not begin."""
        try:
            done = subprocess.run(
                [self.program, *words],
                cwd=self.folder,
                env=self.environment,
                stdin=subprocess.DEVNULL,
                capture_output=True,
                preexec_fn=self.prepare(limit),
            )
        except (OSError, subprocess.SubprocessError):
            return None
        return done.returncode, done.stdout, done.stderr

    def least(self, words: Sequence[str]) -> int:
        """The least stack limit, in bytes, with which a call ends as without a limit."""
        answer = self.call(words)
        if answer is None or answer[0] < 0:
            raise Fault("%s %s: it does not end without a limit" % (self.program, " ".join(words)))
        if self.call(words, ENOUGH) != answer:
            call = " ".join([self.program, *words])
            raise Fault("%s: it ends differently with %d KiB of stack" % (call, ENOUGH // KIB))
        return PAGE * least_number(ENOUGH // PAGE, lambda pages: self.call(words, pages * PAGE) == answer)


def least_number(most: int, is_enough: Callable[[int], bool]) -> int:
    """The least positive number that is enough, if each greater one is enough too, and `most` is."""
    least = 1
    while least < most:
        middle = (least + most) // 2
        if is_enough(middle):
            most = middle
        else:
            least = middle + 1
    return most


def taken(line: str) -> int:
    """The bytes that an instruction takes from the stack."""
    moved, lea = MOVED.search(line), LEA.search(line)
    if PUSH.search(line):
        return 8
    if lea:
        return int(lea.group(1), 16)
    if not moved:
        return 0
    number = int(moved.group(2), 16)
    if number >= 1 << 63:
        number -= 1 << 64
    return max(number if moved.group(1) == "sub" else -number, 0)


def frame_size(lines: Sequence[str]) -> int:
    """The bytes that the first instructions of a function take from the stack, with the return address."""
    size, in_loop = 8, False
    for line in lines:
        end = TO_END.search(line)
        if end:
            size, in_loop = size + int(end.group(1), 16), True
        elif in_loop:
            in_loop = REPEATED.search(line) is None
        elif taken(line):
            size += taken(line)
        elif not BEGINS.search(line):
            break
    return size


def frames_of(lines: Iterable[str]) -> Iterator[Frame]:
    """The frame of each function in what objdump prints."""
    function = ""
    instructions: List[str] = []
    for line in lines:
        label = LABEL.match(line)
        if label:
            if function:
                yield Frame(frame_size(instructions), function)
            function, instructions = label.group(1), []
        elif line.strip():
            instructions.append(line.rstrip())
    if function:
        yield Frame(frame_size(instructions), function)


def largest_frames(program: str, count: int) -> List[Frame]:
    """The largest frames of the functions of a program, if objdump is there."""
    if count == 0 or shutil.which("objdump") is None:
        return []
    words = ["objdump", "-d", "--no-show-raw-insn", program]
    with subprocess.Popen(words, stdout=subprocess.PIPE, stderr=subprocess.DEVNULL, text=True) as process:
        assert process.stdout is not None
        return sorted(frames_of(process.stdout), reverse=True)[:count]


def least_limits(program: str, verbs: Sequence[str], models: Sequence[str]) -> Dict[str, int]:
    """The least stack limit of each verb, in bytes."""
    with tempfile.TemporaryDirectory() as folder:
        write_models(folder)
        if {"check", "compare"} & set(verbs):
            write_trace(folder, program)
        caller = Caller(program, folder)
        return {verb: max(caller.least(words) for words in calls_of(verb, models)) for verb in verbs}


def tool(arguments: Sequence[str]) -> int:
    parser = Arguments(prog="stack-use", description=__doc__)
    parser.add_argument("verbs", nargs="*", metavar="VERB", help="the verbs (default: all)")
    parser.add_argument("--frames", type=int, default=20, metavar="N", help="how many frames (default: 20)")
    parser.add_argument("--shallow", action="store_true", help="leave out the model with 64 open brackets")
    parser.add_argument("--most", type=int, metavar="KIB", help="the largest allowed need of a verb")
    add_program_option(parser)
    args = parser.parse_args(arguments)
    for verb in args.verbs:
        if verb not in VERBS:
            raise Fault("'%s' is not a verb: the verbs are %s" % (verb, ", ".join(VERBS)))
    program = find_program(args.program)
    models = [it for it in MODELS if it != "deep.mo" or not args.shallow]
    limits = least_limits(program, args.verbs or VERBS, models)
    for verb, limit in limits.items():
        print("%-8s %4d KiB" % (verb, limit // KIB))
    for frame in largest_frames(program, args.frames):
        print("%7d bytes  %s" % frame)
    return FINE if args.most is None or max(limits.values()) <= args.most * KIB else WARNED


def main(arguments: Optional[Sequence[str]] = None) -> int:
    """Runs the tool and returns its status."""
    return run_tool("stack-use", tool, arguments)


if __name__ == "__main__":
    sys.exit(main())
