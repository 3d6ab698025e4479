"""The tool qss-explain: explains refusals, overflows and rejections, with their places in the source."""
import argparse
import difflib
import json
import os
import re
import sys
import tempfile
from typing import Callable, Dict, List, NamedTuple, Optional, Sequence, Tuple

from ..fault import FINE, WARNED, Arguments, Fault, read_bytes, run_tool
from ..model.changes import add_set_option, assignments, changed_source, shown
from ..model.commas import commas_of
from ..model.flat import ALGEBRAIC, DISCRETE, PARAMETER, STATE, Flat, Meaningless, roles_of
from ..model.grammar import Model, SyntaxFault, parse
from ..model.source import LONGEST, Source, Token
from ..model.story import Story
from ..model.walks import leaves, uses
from ..output import Output
from ..program import add_program_option, call, find_program
from ..settings import limits
from . import certificate_story, compare_story, edits, hints, trace_story
from .products import not_affine
from .scales import number_in_place
from .zeros import zero_in_divisor

LINE = re.compile(r"^refused: (\w+) (\d+)((?: \S+)*)$")
OVERFLOW = re.compile(r"^overflow: (\S+) at tick (\d+)$")

OUT_OF_RANGE = {
    "1": "a number here is out of range: in lowest terms both its parts are at most 2^62, about 4.6e18",
    "2": "division by 0",
}
SHORTEN = "shorten constants to 9 digits (pi is 3.14159265), and write 1e-3 for 1/1000"


def explain(source: Source, line: str, beside: Optional[Source] = None) -> Story:
    """The story of a line that the program wrote on standard error. `beside` is a certificate or a trace, or None."""
    try:
        return told(source, line, beside)
    except (IndexError, ValueError, KeyError, SyntaxFault, Meaningless) as error:
        raise Fault("the line '%s' does not belong to this source: %s" % (line, source.name)) from error


def told(source: Source, line: str, beside: Optional[Source]) -> Story:
    refused, overflow = LINE.match(line), OVERFLOW.match(line)
    if refused and refused.group(1) in PHASES:
        return PHASES[refused.group(1)](source, refused.group(2), refused.group(3).split())
    if overflow:
        return limits.overflow(source, overflow.group(1), int(overflow.group(2)))
    compared = compare_story.explain(source, line, beside)
    if compared:
        return compared
    if line.startswith(("rejected: trace", "trace refused:")):
        return trace_story.explain(source, line, beside)
    if line.startswith(("rejected:", "certificate refused:")):
        return certificate_story.explain(source, line, beside)
    return plain(source, line)


def plain(source: Source, line: str) -> Story:
    """The lines that speak of no place."""
    if line == "read fault":
        return Story(None, why_unreadable(source.name))
    if line == "write fault":
        return Story(None, "standard output could not be written: a full disk, or a pipe that was closed")
    if line == "out of memory":
        return Story(None, "there was not enough memory; the rows up to here are right")
    if line.startswith("usage:"):
        return Story(None, "invalid command", "README.md lists the commands and their options")
    raise Fault("this is not a line of the program: %s" % line)


def why_unreadable(name: str) -> str:
    """Why a file cannot be read."""
    if os.path.isdir(name):
        return "this is a folder"
    if not os.path.exists(name):
        return "there is no such file"
    return "the file cannot be read" if os.access(name, os.R_OK) else "there is no permission to read this file"


# the phases


def top(source: Source, number: str, fields: List[str]) -> Story:
    if len(source.data) <= LONGEST:
        raise ValueError(number)
    return Story(
        LONGEST,
        "the source is longer than 2^20 bytes: this byte is the first too many",
        "write repeated parts as arrays and loops",
    )


def lexed(source: Source, number: str, fields: List[str]) -> Story:
    at = int(fields[0])
    if at != source.untold:
        raise ValueError(at)
    if number == "1":
        what, way = hints.at_bytes(source.data, at)
        return Story(at, what, way)
    if number == "2":
        return Story(at, "this comment is never closed", "write */ at its end (comments do not nest)", width=2)
    return Story(at, "this string is never closed", "write '\"' at its end")


def parsed(source: Source, number: str, fields: List[str]) -> Story:
    place, tokens = int(fields[0]), source.tokens
    if place > len(tokens) or source.untold is not None:
        raise ValueError(place)
    wanted = wanted_at(source, place)
    if place == len(tokens):
        at = tokens[-1].at + len(tokens[-1].text) if tokens else 0
        if not tokens:
            return Story(0, "the file is empty: a model is expected", "see examples/rc.mo")
        return Story(
            at,
            "the file ends before the model does" + ("" if not wanted else ": expected %s" % wanted),
            "a ';', an 'end' or a closing bracket is missing",
        )
    if number == "2":
        return Story(tokens[place].at, "this is nested more than 64 deep")
    token = tokens[place]
    sentence = "unexpected '%s'" % token.text.split("\n")[0]
    if wanted:
        sentence += ": expected %s" % wanted
    stop = edits.Stop(source, tokens, place, wanted)
    solution = edits.equation(stop) or edits.constant_table(stop)
    ways = [written(solution) if solution else hints.at_token(tokens, place, wanted)]
    last = tokens[place - 1] if place else None
    if last and ";" in wanted and source.place(last.at)[0] < source.place(token.at)[0]:
        ways.insert(0, "perhaps a ';' is missing at the end of line %d" % source.place(last.at)[0])
    return Story(token.at, sentence, *ways)


def written(some: edits.Edits) -> str:
    """What edits write, as a suggested fix."""
    way = "divide the right side: " if len(some) == 1 and some[0].text.startswith("der(") else ""
    return way + "write %s" % " and ".join("'%s'" % one.text for one in some[:3])


def wanted_at(source: Source, place: int) -> str:
    """What is expected at the token at which the source stops to be a prefix of a model."""
    try:
        parse(source)
    except SyntaxFault as fault:
        return fault.wanted if fault.token == place and not fault.deep else ""
    except RecursionError:
        return ""
    raise ValueError(place)


def out_of_range(model: Model, at: int, kind: str, way: Optional[str] = None) -> Story:
    """A number that is out of range, or a division by 0 and the parameter that is 0."""
    if kind == "1":
        return Story(at, OUT_OF_RANGE[kind], way or SHORTEN)
    zero = zero_in_divisor(model, at)
    return Story(at, OUT_OF_RANGE[kind] + (": the parameter %s is 0" % zero if zero else ""))


NAMES = {
    "1": ("the name after the last 'end' is not the model's", None),
    "2": ("the name '%s' is used already", "give one of the two another name (a setting is written once)"),
    "3": ("'%s' is not declared before its use here", None),
    "5": ("the parameter '%s' has no value", "write '= ..' after its name"),
    "6": (
        "'%s' must be a whole number: an Integer parameter, or the size of an array",
        "write 'Real', or a whole number",
    ),
    "7": ("the size of '%s' is not from 1 to 4096", None),
}


def named(source: Source, number: str, fields: List[str]) -> Story:
    at = int(fields[0])
    model = parse(source)
    name = next((token.text for token in source.tokens if token.at == at), None)
    if name is None:
        raise ValueError(at)
    if number == "4":
        return misused(model, name, at)
    if number == "8":
        return out_of_range(model, at, fields[1])
    sentence, way = NAMES[number]
    if number == "1":
        way = "write 'end %s;'" % model.name
    elif number == "3":
        way = undeclared(model, name)
    elif number == "7":
        sentence += ": it is %s" % fields[1]
    return Story(at, sentence % name if "%s" in sentence else sentence, way)


def undeclared(model: Model, name: str) -> str:
    """What may be meant by a name that is not declared."""
    if any(one.name == name for one in model.declarations):
        return "declare '%s' above this line" % name
    if name in ("pi", "Modelica", "g_n", "e"):
        return "no library is read, and an import is ignored: write 'parameter Real pi = 3.14159265;'"
    near = [one.name for one in model.declarations if one.name.lower() == name.lower()]
    like = difflib.get_close_matches(name, [one.name for one in model.declarations], 1)
    if like and not near:
        return "is '%s' meant? Else declare it, as 'Real %s;' or 'parameter Real %s = ..;'" % (like[0], name, name)
    return (
        "'%s' is declared: capitals count" % near[0]
        if near
        else "declare it, as 'Real %s;' or 'parameter Real %s = ..;'" % (name, name)
    )


def misused(model: Model, name: str, at: int) -> Story:
    """The name, or `time`, stands where it may not."""
    roles = roles_of(model)
    arrays = {one.name for one in model.declarations if one.size is not None}
    for place, where, ref in uses(model):
        if place != at:
            continue
        if ref is not None and where != "declared" and (ref.index is not None) != (ref.name in arrays):
            if ref.index is not None:
                return Story(at, "'%s' is no array and has no index" % name)
            way = "write a loop over the elements, as 'for i in 1:n loop der(x[i]) = ..; end for;'"
            if where == "value":
                way = "write one element, as '%s[1]', or their sum: %s" % (name, hints.FUNCTIONS["sum"])
            return Story(at, "'%s' is an array and needs an index here" % name, way)
        if where == "reinit" and roles.get(name) == ALGEBRAIC:
            return Story(at, *reinit_of_algebraic(model, name, name in arrays))
        return Story(at, *MISUSES[where](name, roles.get(name)))
    return Story(at, "'%s' is not allowed here" % name)


def reinit_of_algebraic(model: Model, name: str, is_array: bool) -> Tuple[str, str]:
    """Why a variable cannot be set by `reinit`, and the equation that makes it a state."""
    sentence = "'reinit' takes a state, and '%s' is an algebraic variable" % name
    if any(equation.target.name == name for equation in leaves(model.equations)):
        return sentence, "a state has 'der(%s) = ..;' in place of its equation '%s = ..;'" % (name, name)
    if is_array:
        return sentence, "write 'for i in 1:n loop der(%s[i]) = 0; end for;' if only clauses change it" % name
    return sentence, "write 'der(%s) = 0;' as its equation if only clauses change it" % name


MISUSES = {
    "constant": lambda name, role: (
        "'%s' is not a constant: sizes, start values, quanta, settings, indices and bounds use numbers and parameters"
        % name,
        None,
    ),
    "declared": lambda name, role: (
        (
            "a parameter cannot be an array",
            "use an expression of the index, or a discrete array that 'initial algorithm' sets",
        )
        if role == PARAMETER
        else (
            "a variable is not bound by '=' where it is declared: '%s'" % name,
            "write 'Real %s; equation %s = ..;', or '(start = ..)' for its start" % (name, name),
        )
    ),
    "pre": lambda name, role: (
        "'pre' takes a discrete variable, and '%s' is not one" % name,
        "write '%s': a clause reads a state as it is before a reinit of it" % name if role == STATE else None,
    ),
    "pre in an equation": lambda name, role: ("'pre' is not supported in an equation", "write '%s'" % name),
    "der": lambda name, role: (
        "'%s' is not a state" % name,
        "declare it as 'Real %s' without 'discrete' or 'parameter'" % name,
    ),
    "left": lambda name, role: (
        "'%s' is %s and has no plain equation" % (name, a(role)),
        "a state has only 'der(%s) = ..'" % name
        if role == STATE
        else "a discrete variable is set in a clause by ':='"
        if role == DISCRETE
        else None,
    ),
    "set": lambda name, role: (
        "':=' sets a discrete variable, and '%s' is %s" % (name, a(role)),
        "write 'reinit(%s, ..)'" % name if role == STATE else "declare it as 'discrete Real %s'" % name,
    ),
    "reinit": lambda name, role: (
        "'reinit' takes a state, and '%s' is %s" % (name, a(role)),
        "write '%s := ..'" % name if role == DISCRETE else None,
    ),
    "start": lambda name, role: (
        "only states and discrete variables have a start, and '%s' is %s" % (name, a(role)),
        None,
    ),
    "value": lambda name, role: ("'%s' is not allowed here" % name, None),
}


def a(role: Optional[str]) -> str:
    return {
        STATE: "a state",
        DISCRETE: "a discrete variable",
        ALGEBRAIC: "an algebraic variable",
        PARAMETER: "a parameter",
    }.get(role or "", "not a variable")


def unrolled(source: Source, number: str, fields: List[str]) -> Story:
    model = parse(source)
    if number == "3":
        return limits.too_many(model, int(fields[0]))
    at = int(fields[0])
    source_token(source, at)
    if number == "1":
        return Story(
            at,
            "the index %s is not from 1 to %s" % (fields[1], fields[2]),
            "change the loop's bounds, or the array's size",
        )
    if number == "2":
        way = "write a whole number, or a quotient of parameters that is one: 33, or 'N/3' if N is a multiple of 3"
        return Story(at, "this index or bound is not a whole number", way)
    return out_of_range(model, at, fields[1])


def source_token(source: Source, at: int) -> Token:
    """The token at a byte."""
    for token in source.tokens:
        if token.at == at:
            return token
    raise ValueError(at)


def ordered(source: Source, number: str, fields: List[str]) -> Story:
    flat = Flat(parse(source))
    names = {variable.name: variable for variable in flat.variables}
    one = names[fields[0]]
    equations = [
        (flat.number(equation.target, loop), equation) for equation, loop in flat.unrolled(flat.model.equations)
    ]
    if number == "1":
        way = "a discrete variable is declared with 'discrete'; any other variable needs one equation"
        return Story(one.declaration.at, "%s has no equation" % one.name, way)
    if number == "2":
        first, second = (equations[int(field) - 1][1] for field in fields[1:3])
        return Story(
            second.at,
            "%s has an equation already, in line %d" % (one.name, source.place(first.at)[0]),
            "a state has only 'der(%s) = ..'" % one.name if one.role == STATE else "leave one of them out",
        )
    lines = {flat.variables[target].name: source.place(equation.at)[0] for target, equation in equations}
    at = next(equation.at for target, equation in equations if flat.variables[target].name == fields[0])
    ring = " -> ".join("%s (line %d)" % (name, lines[name]) for name in fields + fields[:1])
    return Story(
        at,
        "these algebraic variables need each other: %s" % ring,
        "solve them by hand, or make one of them a state with a short time constant",
    )


def formed(source: Source, number: str, fields: List[str]) -> Story:
    if number == "4":
        return limits.too_many_coefficients(parse(source))
    at = int(fields[0])
    source_token(source, at)
    if number == "2":
        return Story(at, "'time' is not supported in an equation", "use a state: 'Real t; der(t) = 1;'")
    if number == "3":
        model = parse(source)
        return out_of_range(model, at, fields[1], number_in_place(model, at) if fields[1] == "1" else None)
    return not_affine(source, parse(source), at)


PHASES = {
    "top": top,
    "lex": lexed,
    "parse": parsed,
    "names": named,
    "unroll": unrolled,
    "causal": ordered,
    "affine": formed,
    "machine": limits.rounded,
}

# the tool

ABOUT = """Why the program refused a model or a run overflowed, with the place in the source and a suggested fix.

  tools/qss-explain MODEL                                    runs the model (its rows are dropped) and explains its line
  ./qss run MODEL 2>&1 >rows.csv | tools/qss-explain MODEL   explains the line of a run whose rows are kept
  tools/qss-explain MODEL --line 'refused: parse 1 45'       explains this line
  tools/qss-explain MODEL --certificate CERTIFICATE          checks a certificate and explains the verdict
  tools/qss-explain MODEL --trace TRACE                      checks a trace and explains the verdict
  tools/qss-explain MODEL --apply NEW                        writes the model with all fixes that are certain to NEW
  tools/qss-explain MODEL --set R=0                          runs the model with another value of R
  tools/qss-explain MODEL --json                             prints the mistakes and their edits for programs

A line on standard input is explained. Where there is none, the model is run. Lines of the form 'qss: ..' are skipped.
If the fix of a mistake is certain, the next mistake is explained too, as far as the program finds it after this fix.
A number with a comma, as in start = 4,5, is explained although the program accepts it.
With --json each mistake is an object: its place, its sentence, its fixes, and the edits of a certain fix.
Status: 0 the run or the check succeeded, 1 something was explained, 2 a fault of this tool."""


def tool(arguments: Sequence[str]) -> int:
    parser = Arguments(prog="qss-explain", description=ABOUT)
    parser.add_argument("model")
    parser.add_argument("--line", help="the line to explain")
    parser.add_argument("--certificate", metavar="FILE", help="the certificate of which the line speaks")
    parser.add_argument("--trace", metavar="FILE", help="the trace of which the line speaks")
    parser.add_argument("--apply", metavar="NEW", help="write the model with the fixes that are certain to this file")
    parser.add_argument("--force", action="store_true", help="write the file although it exists")
    parser.add_argument("--json", action="store_true", help="print the mistakes and their edits as JSON")
    add_set_option(parser)
    add_program_option(parser)
    args = parser.parse_args(arguments)
    if args.apply is not None and os.path.exists(args.apply) and not args.force:
        raise Fault("%s: this file exists (--force writes it)" % args.apply)
    if args.set:
        return changed_tool(args)
    given = args.line if args.line is not None else piped_line()
    line = (given if given or args.line is not None else line_of_run(args)).strip()
    if line == "read fault" and not os.path.isfile(args.model):
        print("%s: %s" % (args.model, why_unreadable(args.model)))
        return WARNED
    source = Source(args.model, read_bytes(args.model))
    name = args.certificate or args.trace
    if name is not None:
        beside = Source(name, read_bytes(name))
        print(explain(source, line, beside).text(source, beside) if line else "", end="\n" if line else "")
        return WARNED if line else FINE
    # (a given line says one thing, and the model is run only to find more)
    again = None if given and args.apply is None else lambda data: line_of_text(args, data)
    mistakes, mended = mistakes_of(source, line, again)
    if args.json:
        print(json.dumps([mistake.as_json(source) for mistake in mistakes], indent=2))
    else:
        print("".join(mistake.text(source) + "\n" for mistake in mistakes), end="")
    if args.apply is not None:
        with Output(args.apply) as output:
            output.write_bytes(mended)
        number = sum(1 for mistake in mistakes if mistake.edits)
        print("%s: %d of %d mistakes are mended" % (args.apply, number, len(mistakes)), file=sys.stderr)
    return WARNED if mistakes else FINE


def changed_tool(args: argparse.Namespace) -> int:
    """Explains the refusal of a model with other values. Its lines are those of the model."""
    if args.line or args.certificate or args.trace or args.apply:
        raise Fault("--set goes with none of --line, --certificate, --trace and --apply")
    values = assignments(args.set)
    data = changed_source(args.model, find_program(args.program), values)
    source, line = Source(shown(args.model, values), data), line_of_text(args, data)
    if not line:
        return FINE
    story = explain(source, line)
    mistake = Mistake(line, story, source, None, ())
    print(json.dumps([mistake.as_json(source)], indent=2) if args.json else story.text(source))
    return WARNED


class Mistake(NamedTuple):
    """A mistake: the program's line, its story in the text in which it was found, and the edits that mend this text."""

    line: str
    story: Story
    found_in: Source
    edits: Optional[edits.Edits]
    before: Sequence[edits.Edits]  # the edits of the mistakes before it, which made that text

    def place(self, at: int) -> int:
        """The byte of the source to which a byte of the text belongs."""
        for some in reversed(self.before):
            at = edits.place_before(at, some)
        return at

    def text(self, source: Source) -> str:
        """The story with its place in the source."""
        if self.story.at is None or not self.before:
            return self.story.text(source)
        at = self.place(self.story.at)
        return Story(at, self.story.sentence, *self.story.ways, width=self.found_in.width_at(self.story.at)).text(
            source
        )

    def as_json(self, source: Source) -> Dict[str, object]:
        at = None if self.story.at is None else self.place(self.story.at)
        row, column = (None, None) if at is None else source.place(at)
        moved = [edits.Edit(self.place(it.begin), self.place(it.end), it.text) for it in self.edits or ()]
        told = {"file": source.name, "line": row, "column": column, "byte": at, "program": self.line}
        fixes = {"fixes": self.story.ways, "certain": bool(moved), "edits": edits.as_json(moved, source)}
        return {**told, "sentence": self.story.sentence, **fixes}


MOST_MISTAKES = 50


def mistakes_of(source: Source, line: str, again: Optional[Callable[[bytes], str]]) -> "tuple[List[Mistake], bytes]":
    """The mistakes of a source from this line on, as far as fixes are certain, and the source with these fixes.

    `again` runs a text and returns the program's line; without it only the line is explained.
    """
    found: List[Mistake] = []
    before: List[edits.Edits] = []
    here = source
    while line and len(found) < MOST_MISTAKES:
        story = explain(here, line)
        some = edits.certain_edits(here, line, wanted_at)
        found.append(Mistake(line, story, here, some, tuple(before)))
        if not some or again is None:
            break
        before.append(some)
        here = Source(source.name, edits.applied(here.data, some))
        line = again(here.data)
    silent = [] if again is None else comma_mistakes(here, before)
    return found + silent, edits.applied(here.data, [edit for one in silent for edit in one.edits or ()])


def comma_mistakes(here: Source, before: Sequence[edits.Edits]) -> List[Mistake]:
    """Numbers with commas that the program accepts, and of which it reads only a part."""
    found = []
    for one in commas_of(here):
        some = None if one.certain is None else [edits.Edit(one.begin, one.end, one.certain)]
        story = Story(one.begin, one.sentence(), width=one.end - one.begin)
        found.append(Mistake("", story, here, some, tuple(before)))
    return found


def line_of_text(args: argparse.Namespace, data: bytes) -> str:
    """The program's line for this text of the model, unless its run overflows."""
    with tempfile.TemporaryDirectory(prefix="qss-") as folder:
        path = os.path.join(folder, "model.mo")
        with open(path, "wb") as file:
            file.write(data)
        line = call(find_program(args.program), ["run", path, "--only", "-"], keep=False).line
    return line if line.startswith("refused:") else ""


def piped_line() -> str:
    """The program's line on standard input, or nothing: a build may print lines of its own before it."""
    if sys.stdin is None or sys.stdin.isatty():
        return ""
    lines = [line.strip() for line in sys.stdin if not line.startswith("qss: ")]
    return "\n".join(line for line in lines if line)


def line_of_run(args: argparse.Namespace) -> str:
    """The line of a run of the model, or of a check of its certificate or its trace."""
    program = find_program(args.program)
    verb, name = ("certify", args.certificate) if args.certificate else ("check", args.trace)
    if name is None:
        return call(program, ["run", args.model, "--only", "-"], keep=False).line
    answer = call(program, [verb, args.model, name])
    if answer.status == 0:
        print("%s: accepted" % name)
        sys.stdout.write(answer.out.decode())
    return answer.line


def main(arguments: Optional[Sequence[str]] = None) -> int:
    """Runs the tool and returns its status."""
    return run_tool("qss-explain", tool, arguments)


if __name__ == "__main__":
    sys.exit(main())
