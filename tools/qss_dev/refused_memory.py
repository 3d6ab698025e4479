"""Runs the program with each of its allocations refused in turn, one in each run, and checks how each run ends.

The cases are ball (a model with a clause), certificate (a model and its certificate) and chain (a thousand cells).
Without names all three are run. A run may end as it does with ample memory, or with status 8, the line `out of memory`
on standard error, and whole lines of a prefix of its text on standard output. The first ten allocations are those of
the adapters of files and streams. If one of them is refused, the run may end with status 8 and no line. Each run that
ends otherwise is printed, and the status is 1.

--least and --most bound the numbers of the allocations that are refused. A small library between the program and the C
library's memory counts the allocations and refuses one; `cc` compiles it in a new folder.
"""
import os
import subprocess
import sys
import tempfile
from concurrent.futures import ThreadPoolExecutor
from typing import Dict, List, Optional, Sequence, Tuple

from qss_tools.fault import FINE, WARNED, Arguments, Fault, run_tool
from qss_tools.program import OUT_OF_MEMORY, ROOT, add_program_option, find_program

# the allocations that the program makes before standard error can be written
BEFORE_LINES = 10
LINE = b"out of memory\n"
Answer = Tuple[int, bytes, bytes]  # the status, standard output and standard error

# Refuses the call whose number REFUSED_CALL has, of malloc, calloc, realloc, aligned_alloc and posix_memalign
# together, and writes the count of calls into the file COUNTED_CALLS.
SHIM = r"""
#define _GNU_SOURCE
#include <errno.h>
#include <fcntl.h>
#include <stdio.h>
#include <stdlib.h>
#include <unistd.h>

extern void *__libc_malloc(size_t);
extern void *__libc_calloc(size_t, size_t);
extern void *__libc_realloc(void *, size_t);
extern void *__libc_memalign(size_t, size_t);

static long refused = -1, calls = 0;

__attribute__((constructor)) static void begin(void) {
    const char *number = getenv("REFUSED_CALL");
    refused = number ? atol(number) : 0;
    calls = 0;
}

__attribute__((destructor)) static void end(void) {
    const char *name = getenv("COUNTED_CALLS");
    char text[32];
    if (name) {
        int file = open(name, O_WRONLY | O_CREAT | O_TRUNC, 0600);
        int length = snprintf(text, sizeof text, "%ld", calls);
        if (file >= 0 && write(file, text, (size_t)length) == length)
            close(file);
    }
}

static int is_refused(void) {
    if (refused < 0 || ++calls != refused)
        return 0;
    errno = ENOMEM;
    return 1;
}

void *malloc(size_t size) { return is_refused() ? NULL : __libc_malloc(size); }
void *calloc(size_t count, size_t size) { return is_refused() ? NULL : __libc_calloc(count, size); }
void *realloc(void *old, size_t size) { return is_refused() ? NULL : __libc_realloc(old, size); }
void *aligned_alloc(size_t edge, size_t size) { return is_refused() ? NULL : __libc_memalign(edge, size); }
int posix_memalign(void **place, size_t edge, size_t size) {
    void *found = is_refused() ? NULL : __libc_memalign(edge, size);
    if (!found)
        return ENOMEM;
    *place = found;
    return 0;
}
"""

CHAIN = """model rc
  parameter Integer N = 1000;
  parameter Real g = 10;
  Real u[N](each start = 0) "volts";
equation
  der(u[1]) = g*(1 - 2*u[1] + u[2]);
  for i in 2:N-1 loop
    der(u[i]) = g*(u[i-1] - 2*u[i] + u[i+1]);
  end for;
  der(u[N]) = g*(u[N-1] - u[N]);
  annotation(experiment(MMO_Solver = QSS2, StopTime = 1.0, Tolerance = {1e-3}));
end rc;
"""


def cases(folder: str) -> Dict[str, List[str]]:
    """The words of each case."""
    chain = f"{folder}/chain.mo"
    with open(chain, "w", encoding="ascii") as file:
        file.write(CHAIN)
    examples = f"{ROOT}/examples"
    return {
        "ball": ["run", f"{examples}/ball.mo"],
        "certificate": ["certify", f"{examples}/decay.mo", f"{examples}/decay.cert"],
        "chain": ["run", chain],
    }


class Runner:
    """Runs the program with one of its allocations refused."""

    def __init__(self, folder: str, program: str) -> None:
        self.folder, self.program = folder, program
        self.library = f"{folder}/refuse.so"
        source = f"{folder}/refuse.c"
        with open(source, "w", encoding="ascii") as file:
            file.write(SHIM)
        subprocess.run(["cc", "-O2", "-shared", "-fPIC", "-o", self.library, source], check=True)

    def run(self, words: Sequence[str], refused: int, counted: Optional[str] = None) -> Answer:
        """Status, standard output and standard error of a run."""
        settings = {"LD_PRELOAD": self.library, "REFUSED_CALL": str(refused)}
        if counted:
            settings["COUNTED_CALLS"] = counted
        done = subprocess.run([self.program, *words], env=settings, capture_output=True, timeout=120)
        return done.returncode, done.stdout, done.stderr

    def whole(self, words: Sequence[str]) -> Tuple[Answer, int]:
        """What a run with ample memory answers, and how many allocations it makes."""
        counted = f"{self.folder}/calls"
        answer = self.run(words, 0, counted)
        with open(counted, encoding="ascii") as file:
            return answer, int(file.read())


def is_fine(number: int, answer: Answer, whole: Answer) -> bool:
    """Whether a run with the allocation of this number refused may end so."""
    status, out, err = answer
    if answer == whole:
        return True
    if number <= BEFORE_LINES and answer == (OUT_OF_MEMORY, b"", b""):
        return True
    lines = not out or out.endswith(b"\n")
    return status == OUT_OF_MEMORY and err == LINE and whole[1].startswith(out) and lines


def try_case(runner: Runner, name: str, words: Sequence[str], least: int, most: Optional[int]) -> int:
    """Prints the outcome of the refused allocations of a case, and counts the wrong ones."""
    whole, calls = runner.whole(words)
    numbers = range(least, min(most or calls, calls) + 1)
    with ThreadPoolExecutor(os.cpu_count()) as pool:
        answers = list(pool.map(lambda number: runner.run(words, number), numbers))
    wrong = 0
    for number, answer in zip(numbers, answers):
        if not is_fine(number, answer, whole):
            wrong += 1
            print(f"{name}: allocation {number}: status {answer[0]}, {len(answer[1])} bytes, {answer[2]!r}")
    memory = sum(answer[0] == OUT_OF_MEMORY for answer in answers)
    same = sum(answer == whole for answer in answers)
    begun = sum(answer[0] == OUT_OF_MEMORY and answer[1] != b"" for answer in answers)
    print(
        f"{name}: {calls} allocations, {len(answers)} refused: {memory} times status 8, {begun} of them after "
        f"whole lines, "
        f"{same} times the answer of ample memory, {wrong} times another"
    )
    return wrong


def tool(arguments: Sequence[str]) -> int:
    parser = Arguments(prog="refused-memory", description=__doc__)
    parser.add_argument("cases", nargs="*", metavar="CASE", help="the cases (default: all three)")
    parser.add_argument(
        "--least", type=int, default=1, metavar="N", help="the first allocation that is refused (default: 1)"
    )
    parser.add_argument("--most", type=int, metavar="N", help="the last one (default: the last that the program makes)")
    add_program_option(parser)
    args = parser.parse_args(arguments)
    program = find_program(args.program)
    with tempfile.TemporaryDirectory() as folder:
        runner = Runner(folder, program)
        every = cases(folder)
        wrong = 0
        for name in args.cases or every:
            if name not in every:
                raise Fault("'%s' is not a case: the cases are %s" % (name, ", ".join(every)))
            wrong += try_case(runner, name, every[name], args.least, args.most)
    return WARNED if wrong else FINE


def main(arguments: Optional[Sequence[str]] = None) -> int:
    """Runs the tool and returns its status."""
    return run_tool("refused-memory", tool, arguments)


if __name__ == "__main__":
    sys.exit(main())
