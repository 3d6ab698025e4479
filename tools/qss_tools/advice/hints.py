"""Suggested fixes for what Modelica has and this language does not have."""
import difflib
import math
from typing import Optional, Sequence, Tuple

from ..model.number_hints import AS_POWER
from ..model.source import Token

OF_NUMBERS = ("sin", "cos", "tan", "asin", "acos", "atan", "sqrt", "exp", "log", "log10", "sinh", "cosh", "tanh")
PIECES = "a curve is straight pieces that clauses choose (docs/MODELLING.md)"
NO_IF = "'if' is not supported: write d*(..) with a discrete variable d that clauses set to 0 or 1"
NO_ELSE = "there is no 'else': write 'elsewhen' with the opposite condition"
LEAVE_OUT = "leave this word out"
ONLY_REAL = "variables are 'Real' or 'discrete Real' (1 and 0 for true and false)"
NO_INPUT = "write 'parameter Real %s = ..;', or 'discrete Real %s' that clauses set, or give it an equation"
ONE_MODEL = "a file holds one model without parts: write its equations out"
NO_LIBRARY = "no library is read: write the number or 'Real'"
CONSTANT_UNITS = NO_LIBRARY + ' (a unit is written as unit = "V" or as a string)'
NO_EDGE = "a branch fires when its condition becomes true"
NO_IF_IN_CLAUSE = (
    "'if' is not supported in a clause: write a branch or a clause of its own for each case, and for 'A and d = 1' the"
    " condition 'x - big*(1 - d) > a'"
)
PASS_LIMIT = (
    "write 'v := a;' and a clause of its own for the limit b, 'when v %s b then v := b; end when;', which acts a"
)
PASS_LIMIT += " tick later; in a condition write a clause for each of the two relations"

# The words of the language that a misspelt word can mean, and those after which a statement or a section begins.
KEYWORDS = (
    "model parameter constant discrete Real Integer annotation equation algorithm initial when elsewhen reinit der for"
    " loop then end"
).split()
STARTERS = (";", "equation", "algorithm", "then", "loop", "model")
LIKE = 0.75  # the likeness of words that are taken for one another

# Functions that a model may call elsewhere, and how their values are written here.
FUNCTIONS = {
    "sin": "a sine is a state: der(s) = w*c; der(c) = -w*s; with s(start = 0), c(start = 1)",
    "cos": "a cosine is a state: der(s) = w*c; der(c) = -w*s; with s(start = 0), c(start = 1)",
    "exp": "an exponential of time is a state: der(e) = k*e; with e(start = 1); another curve is straight pieces",
    "abs": "write s*x with a discrete variable s that clauses set: 'when x > 0 then s := 1;',"
    " 'elsewhen x < 0 then s := -1;'",
    "sign": "a discrete variable s that clauses set: 'when x > 0 then s := 1;', 'elsewhen x < 0 then s := -1;'",
    "min": "choose by clauses: 'when a < b then d := 1;', 'elsewhen a > b then d := 0;', and write d*a + (1 - d)*b",
    "max": "choose by clauses: 'when a > b then d := 1;', 'elsewhen a < b then d := 0;', and write d*a + (1 - d)*b",
    "sum": "write the elements out, or sum them up:"
    " 'total[1] = u[1]; for i in 2:n loop total[i] = total[i - 1] + u[i]; end for;'",
    "product": "write the factors out",
    "rand": "write a value for each index, as '18 + 4*i/N', or draw a parameter with the samples of tools/qss-sweep",
    "random": "write a value for each index, as '18 + 4*i/N', or draw a parameter with the samples of tools/qss-sweep",
    "pow": "write a power of a constant as 'a^2'; " + PIECES,
    "sqrt": "write the root of a number as a number; " + PIECES,
    "log": PIECES,
    "tanh": PIECES,
    "floor": "count steps in a discrete variable that a clock sets",
    "mod": "let a clock set a discrete variable back at each period",
    "sample": "write 'when time >= next then .. next := pre(next) + T; end when;' with 'discrete Real next(start = T)'",
    "initial": "start values are written as 'start =' or in 'initial algorithm' with ':='; nothing fires at the start",
    "edge": NO_EDGE,
    "change": NO_EDGE,
    "noEvent": LEAVE_OUT,
    "smooth": LEAVE_OUT,
    "assert": "there are no assertions: look at the rows",
    "terminate": "a run ends at StopTime",
    "delay": "a delay is a chain of discrete variables that a clock shifts",
}

# Functions whose values are written in another way in a clause, which takes no product of variables.
IN_CLAUSES = {
    "min": PASS_LIMIT % ">",
    "max": PASS_LIMIT % "<",
    "abs": "write 'v := x;' and a clause of its own, 'when v < 0 then v := -v; end when;', which acts a tick later; in"
    " a condition write two branches: 'when x > a then ..', 'elsewhen x < -a then ..'",
    "sign": "write two branches: 'when x > 0 then s := 1;', 'elsewhen x < 0 then s := -1;'",
}

# By the token at which a source stops to be a prefix of a model, or the one before it.
BY_WORD = {
    "if": NO_IF,
    "and": "a condition is one relation: for 'A and d = 1' write 'x - big*(1 - d) > a' with a number big above the"
    " range of x",
    "or": "a condition is one relation: write two clauses. If both fire at one tick, a toggle 's := 1 - s' in each"
    " toggles twice: set numbers, as 's := 1'",
    "not": "a condition is one relation: write the opposite one ('<=' for '>'), or 1 - d for a discrete d of 0 or 1",
    "else": NO_ELSE,
    "elseif": "write 'elsewhen'",
    "while": "loops are 'for i in a:b loop .. end for;'",
    "true": "write 1",
    "false": "write 0",
    **dict.fromkeys(("class", "record", "block", "package", "type", "function", "extends", "connect"), ONE_MODEL),
    **dict.fromkeys(("partial", "encapsulated", "final", "protected", "public", "inner", "outer"), LEAVE_OUT),
    **dict.fromkeys(("replaceable", "flow", "output"), LEAVE_OUT),
    **dict.fromkeys(("Boolean", "Integer", "String", "enumeration"), ONLY_REAL),
    "within": "leave this line out",
    "Modelica": CONSTANT_UNITS,
    "SI": CONSTANT_UNITS,
    "der": "'der' is only a left side: give its right side a name, as 'Real a; a = ..; der(x) = a;'",
    "==": "a condition has no '==' between reals: write '<=' or '>=', and for a discrete s of 0 or 1 's > 0.5' or"
    " 's < 0.5'",
    "<>": "a condition has no '<>' between reals: write '<' or '>'",
    "{": "there are no array constructors, and a parameter is no array: declare 'discrete Real tab[3]', and set its"
    " elements in 'initial algorithm', as 'tab[1] := 1;'",
    ".": NO_LIBRARY,
}

# By the bytes at a place that begins no token.
BY_BYTES = [
    (b"\xef\xbb\xbf", "a byte order mark is here", "save the file as UTF-8 without a byte order mark"),
    (b"\xc2\xa0", "a blank that does not break is here", "type a plain blank"),
    (b"\xe2\x88\x92", "a minus sign of typography is here", "type '-'"),
    (b"\xe2\x80\x93", "a dash is here", "type '-'"),
    (b"\xe2\x80\x98", "a curved quotation mark is here", "type '\"'"),
    (b"\xe2\x80\x99", "a curved quotation mark is here", "type '\"'"),
    (b"\xe2\x80\x9c", "a curved quotation mark is here", "type '\"'"),
    (b"\xe2\x80\x9d", "a curved quotation mark is here", "type '\"'"),
    (b"\xc2\xb7", "a dot of typography is here", "type '*'"),
    (b"\xc3\x97", "a cross of typography is here", "type '*'"),
    (b"'", "a quoted name is not supported", "names are ASCII letters, digits and '_'"),
    (b"!", "'!' is not supported", "for '!=' and 'not' write the opposite condition"),
    (b"\xff\xfe", "the file is UTF-16", "save the file as UTF-8 without a byte order mark"),
    (b"\xfe\xff", "the file is UTF-16", "save the file as UTF-8 without a byte order mark"),
]


def at_bytes(data: bytes, at: int) -> Tuple[str, Optional[str]]:
    """What begins no token at a byte, and the suggested fix."""
    for bytes_there, what, way in BY_BYTES:
        if data.startswith(bytes_there, at):
            return what, way
    if data[at] > 127:
        return "this character is not ASCII", "outside comments and strings letters are a to z and A to Z"
    return "this character is not supported", None


def at_token(tokens: Sequence[Token], place: int, wanted: str) -> Optional[str]:
    """The suggested fix if a source stops to be a prefix of a model at a token, or None."""
    text = tokens[place].text
    before = tokens[place - 1] if place else None
    previous = before.text if before else ""
    in_clause = is_in_clause(tokens, place)
    if text == "(" and before and before.kind == "name":
        meant = keyword_near(before) if place > 1 and tokens[place - 2].text in STARTERS else None
        if meant:
            return "is '%s' meant for '%s'?" % (meant, before.text)
        return number_of_call(tokens, place) or called(previous, in_clause)
    if text == "if" and in_clause:
        return NO_IF_IN_CLAUSE
    special = by_neighbours(tokens, place, text, previous, wanted) or BY_WORD.get(text)
    special = special or (BY_WORD.get(previous) if text in (".", "(", "algorithm", "equation") else None)
    return special or misspelt_keyword(tokens, place)


def keyword_near(token: Token) -> Optional[str]:
    """The word of the language that a name is like, or None."""
    if token.kind != "name" or token.text in BY_WORD or token.text in FUNCTIONS:
        return None
    same = [one for one in KEYWORDS if one.lower() == token.text.lower()]
    return next(iter(same or difflib.get_close_matches(token.text, KEYWORDS, 1, LIKE)), None)


def misspelt_keyword(tokens: Sequence[Token], place: int) -> Optional[str]:
    """The word of the language that is meant by the name at a place, or by the name that begins the statement."""
    begins = place > 1 and tokens[place - 2].text in STARTERS
    for token in [tokens[place]] + ([tokens[place - 1]] if begins else []):
        meant = keyword_near(token)
        if meant:
            return "is '%s' meant for '%s'?" % (meant, token.text)
    return None


def is_in_clause(tokens: Sequence[Token], place: int) -> bool:
    """Whether the section before a token is one of clauses."""
    for at in range(place - 1, 0, -1):
        if tokens[at].text in ("equation", "algorithm"):
            return tokens[at].text == "algorithm" and tokens[at - 1].text != "initial"
    return False


def called(name: str, in_clause: bool = False) -> str:
    """The suggested fix for a function that is called."""
    way = IN_CLAUSES.get(name) if in_clause else None
    way = way or FUNCTIONS.get(name, BY_WORD.get(name))
    return "there are no functions ('%s'): %s" % (name, way or PIECES)


def number_of_call(tokens: Sequence[Token], place: int) -> Optional[str]:
    """The suggested fix for a function of a number, whose parenthesis opens at a place: the number that it returns."""
    inner = tokens[place + 1 : place + 3]
    function = getattr(math, tokens[place - 1].text, None) if tokens[place - 1].text in OF_NUMBERS else None
    if function is None or len(inner) != 2 or inner[0].kind != "number" or inner[1].text != ")":
        return None
    try:
        value = function(float(inner[0].text))
    except (ValueError, OverflowError):
        return None
    call = "%s(%s)" % (tokens[place - 1].text, inner[0].text)
    return "there are no functions ('%s'): write the number %.9g in place of %s" % (tokens[place - 1].text, value, call)


def by_neighbours(tokens: Sequence[Token], place: int, text: str, previous: str, wanted: str) -> Optional[str]:
    """The fixes that depend on the tokens around."""
    return (
        of_sections(text, previous, wanted)
        or of_declarations(tokens, place, text, wanted)
        or of_arrays(text, previous, wanted)
        or of_expressions(text, wanted)
        or of_left_sides(tokens, place, wanted)
    )


def of_left_sides(tokens: Sequence[Token], place: int, wanted: str) -> Optional[str]:
    if tokens[place].kind == "number" and "equation" in wanted:
        return "the left side is 'der(x)' or a variable: solve the equation for the variable that has no equation yet"
    return None


def of_sections(text: str, previous: str, wanted: str) -> Optional[str]:
    if text == "equation" and previous == "initial":
        return "write 'initial algorithm' with ':='"
    if text in ("when", "reinit") and "equation" in wanted or text == "when" and previous in ("equation", ";"):
        return "clauses belong to an 'algorithm' section"
    if text == ":=" and "equation" in wanted:
        return "an equation has '='; ':=' is for clauses and for 'initial algorithm'"
    if text == "==" and "equation" in wanted:
        return "an equation has '=', not '=='"
    if text == "=" and "statement" in wanted:
        return "a statement has ':='; '=' is for equations"
    if text == "else" and "'when'" in wanted:
        return NO_ELSE
    if text in ("annotation", "equation", "algorithm") and "'when'" in wanted:
        return "'end when;' is missing before this line"
    if text in ("annotation", "equation", "algorithm") and "'for'" in wanted:
        return "'end for;' is missing before this line"
    if "one model" in wanted:
        return ONE_MODEL
    return "an 'equation' section must begin before this line" if text == "der" and "'end'" in wanted else None


def of_declarations(tokens: Sequence[Token], place: int, text: str, wanted: str) -> Optional[str]:
    if text == "input":
        name = next((one.text for one in tokens[place + 1 :] if one.kind == "name" and one.text != "Integer"), "u")
        return NO_INPUT % (name, name)
    last = tokens[place - 1] if place else None
    is_adjacent = last is not None and last.at + len(last.text) == tokens[place].at
    if last is not None and last.kind == "number" and tokens[place].kind == "name" and is_adjacent:
        return AS_POWER
    if last is not None and last.text == "," and tokens[place].kind == "number" and is_adjacent:
        return "a decimal point is '.': write 1.5 for 1,5"
    if "after the declaration" in wanted and tokens[place].kind == "name":
        return "a comma is missing before '%s'" % text
    return None


def of_arrays(text: str, previous: str, wanted: str) -> Optional[str]:
    if previous == ".":
        return BY_WORD["."]
    if text == ":" and "loop" in wanted:
        return "a range has no step: use an expression of the loop variable"
    if text == "," and "loop" in wanted:
        return "a loop has one variable: write a loop in a loop"
    if "index" in wanted or "size" in wanted:
        if text == ",":
            return "arrays have one dimension: write T[(i - 1)*n + j]"
        if text == ":":
            return "there are no slices: write a loop"
    if text == "end" and previous == "[":
        return "an index is a number, a parameter or a loop variable: write the size"
    return None


def of_expressions(text: str, wanted: str) -> Optional[str]:
    if text == "then" and "in the condition" in wanted:
        return "a condition is a relation: for a discrete variable s of 0 or 1 write 's > 0.5'"
    if "'^'" in wanted:
        return "an exponent is a digit from 0 to 8: write 1e-6 for 10^(-6), and the root of a number as a number"
    if text in ("*", "/", "+", "-") and "in the equation" in wanted:
        return (
            "the left side is 'der(x)' or a variable: divide the right side. Solve equations that share derivatives for"
            " each of them"
        )
    return None
