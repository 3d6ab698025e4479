"""The pages and the doc comments: words, line lengths, links, and names that exist in the code."""
import glob
import os
import re
import unittest

from support import ROOT

WIDTH = 120  # columns of a line of Markdown, but for tables, code and links
LENGTHS = {"README.md": 120, "docs/ARCHITECTURE.md": 120, "docs/ASSUMPTIONS.md": 130}

# Words and phrases of private use, each with what to write instead. All are searched without regard to case.
WORDS = (
    (r"want of memory|memory is wanting|memory wanting|wants? memory", "out of memory, allocation failure"),
    (r"\b(?:is|are|was|were|be) told\b|\btells?\b|\btold\b", "is known, is specified, reports, prints, states"),
    (r"\bis spelled by\b|\bspells (?:a|the|one|no|at most)\b", "parses as"),
    (
        r"\bmeans (?:a|the|one|no|its|at most one) machines?\b|\bmachine that (?:a|the) source means\b",
        "compiles to, denotes",
    ),
    (r"(?<!there )\b(?:are|is) (?:none\b|no command\b)", "is not a, invalid"),
    (r"\bbehind\b", "after"),
    (r"\bbesides?\b", "next to, in addition to, off-diagonal"),
    (
        r"\bstands? (?:for|on|still|there|in|at|between|twice|once|by|alone|as|here)\b",
        "denotes, depends on, is located in",
    ),
    (r"\bwhat becomes? of\b|\bwhat came of\b", "the outcome of"),
    (r"\bfront of a\b|\bfronts? of (?:a|the) (?:model|text|tokens)\b", "prefix"),
    (r"\bbasins?\b", "invariant set"),
    (r"\bworlds?\b", "snapshot, state of the run"),
    (r"\bquiet ticks?\b", "event-free tick"),
    (r"\bvisit(?:s|ed|ing)?\b", "event step, computes"),
    (r"\bgathered\b|\breached states\b", "affected, advanced"),
    (r"\btouch(?:ed|es)?\b|\bcalm\b", "affected; without an error"),
    (r"\bweights?\b", "absolute row sum"),
    (r"\bagendas?\b", "event queue"),
    (r"\bwatch(?:es|ed)?\b", "zero-crossing detector"),
    (r"\bwrong bod(?:y|ies)\b", "mutant"),
    (r"\bmust-fails\b", "negative tests"),
    (r"\bstored runs?\b", "golden test"),
    (r"\bdear(?:er|est)?\b", "expensive"),
    (r"\blaws?\b", "theorem"),
    (r"\bpromis(?:e|es|ed)\b", "guarantee"),
    (r"\bgood for nothing\b", "unspecified"),
    (r"\ba way out\b", "a suggested fix"),
    (r"\bso many\b|\bas many (?:side|as there)\b", "a number of"),
    (r"\b(?:one|that|those|it|them|this) alone\b", "only, exactly one"),
    (r"(?:^|[.;|] )where (?:a|an|the|it|they|there|no|all|each|such|this|these|one|two|some|any|both)\b", "if, when"),
    (r"\bbut for\b", "except"),
    (r"\bno more than\b", "at most"),
    (r"\bgo(?:es)? on\b", "continue"),
    (r"\blaid (?:over|beside)\b", "drawn over, compared with"),
    (r"\bearlier state\b|\bstate before\b", "describe only the present state"),
    (r"\bhouse'?s?\b", "convention"),
)

# Allowed uses: the beginning of a page's or a file's name, and a part of the line.
ALLOWED = (
    ("docs/MODELLING.md", "piecewise law"),  # the characteristic of a part of a circuit
    ("", "Kirchhoff's laws"),
    ("docs/READING.md", "| the promise |"),  # a row of tools/reading-index
    ("docs/READING.md", "inequalities and promise"),  # a row of tools/reading-index
    ("docs/READING.md", "| Agendas,"),  # a file of definitions
)

# Names that pages may have in backticks though they occur in no file of the repository.
NAMES = {"assert_", "mu_", "qss_", "cert_"}


def pages():
    """The Markdown files of README, docs/ and examples/, by their names in the repository."""
    paths = [os.path.join(ROOT, name) for name in ("README.md", "CONTRIBUTING.md")]
    for folder in ("docs", "examples"):
        paths += sorted(glob.glob(os.path.join(ROOT, folder, "*.md")))
    return [name for name in (os.path.relpath(path, ROOT) for path in paths)]


def read(name):
    with open(os.path.join(ROOT, name), encoding="utf-8") as file:
        return file.read()


def without_code(text):
    """The text with an empty line for each line of a code block."""
    return re.sub(r"^```.*?^```", lambda found: "\n" * found[0].count("\n"), text, flags=re.MULTILINE | re.DOTALL)


def numbered(text):
    """The lines of a page outside code, with their numbers."""
    for number, line in enumerate(without_code(text).splitlines(), 1):
        if not line.startswith("    ") or line.lstrip().startswith("|"):
            yield number, line


def doc_comments():
    """The lines of doc comments in the sources, with their places."""
    for path in sorted(glob.glob(os.path.join(ROOT, "crates", "*", "src", "**", "*.rt"), recursive=True)):
        name = os.path.relpath(path, ROOT)
        for number, line in enumerate(read(name).splitlines(), 1):
            found = re.match(r"\s*//[/!] ?(.*)", line)
            if found:
                yield name, number, found[1]


def is_allowed(name, line):
    return any(name.startswith(page) and part in line for page, part in ALLOWED)


def faults_of(name, number, line):
    """The words of private use in a line, but for code, names of files, and headings of the golden test in italics."""
    text = re.sub(r"`[^`]*`|\*[^*]+\*|\[[\w./-]+\]\([^)]*\)|\]\([^)]*\)", "", line)
    for pattern, instead in WORDS:
        found = re.search(pattern, text, re.IGNORECASE)
        if found and not is_allowed(name, line):
            yield "%s:%d: '%s': write: %s" % (name, number, found[0], instead)


def slug(heading):
    """The anchor of a heading."""
    text = re.sub(r"\[([^\]]*)\]\([^)]*\)", r"\1", heading.replace("`", "")).strip().lower()
    return re.sub(r"[^\w\- ]", "", text).replace(" ", "-")


def broken_links(page):
    """The links of a page to files or headings that are not there."""
    for target in re.findall(r"\]\(([^)\s]+)\)", without_code(read(page))):
        name, _, anchor = target.partition("#")
        path = os.path.normpath(os.path.join(os.path.dirname(page), name)) if name else page
        if re.match(r"[a-z]+:", target):
            continue
        if not os.path.exists(os.path.join(ROOT, path)):
            yield "%s: %s" % (page, target)
        elif anchor and anchor not in [slug(it) for it in re.findall(r"^#+ (.*)$", read(path), re.MULTILINE)]:
            yield "%s: %s: no such heading" % (page, target)


def names():
    """The names that occur in the repository's code, definitions, tools and models."""
    known = set(NAMES)
    for pattern in ("crates/**/*.rt", "crates/**/*.antt", "tools/**/*.py", "examples/*.mo", "docs/tutorial/*.mo"):
        for path in glob.glob(os.path.join(ROOT, pattern), recursive=True):
            known.add(os.path.basename(path).rpartition(".")[0])
            known.update(re.findall(r"[A-Za-z_]\w*", read(os.path.relpath(path, ROOT))))
    known.update(re.findall(r"[A-Za-z_]\w*", read("crates/transcript/stdin")))
    for folder in ("crates", "tools", "crates/transcript"):
        known.update(os.listdir(os.path.join(ROOT, folder)))
    return known


class Pages(unittest.TestCase):
    def assert_none(self, faults):
        found = list(faults)
        self.assertFalse(found, "\n" + "\n".join(found))

    def test_words(self):
        self.assert_none(fault for page in pages() for at in numbered(read(page)) for fault in faults_of(page, *at))

    def test_words_of_doc_comments(self):
        self.assert_none(fault for at in doc_comments() for fault in faults_of(*at))

    def test_lines_are_short(self):
        self.assert_none(
            "%s:%d: %d columns" % (page, number, len(line))
            for page in pages()
            for number, line in numbered(read(page))
            if len(line) > WIDTH and not line.lstrip().startswith(("|", "#", "![")) and "](" not in line[:WIDTH]
        )

    def test_pages_are_short(self):
        for page, most in LENGTHS.items():
            self.assertLessEqual(len(read(page).splitlines()), most, page)

    def test_links(self):
        self.assert_none(fault for page in pages() for fault in broken_links(page))

    def test_tools_are_there(self):
        self.assert_none(
            "%s: %s" % (page, tool)
            for page in pages()
            for tool in re.findall(r"(?:^|[\s`|])(tools/[a-z][\w-]*)(?![\w/.*])", read(page))
            if not os.path.exists(os.path.join(ROOT, tool))
        )

    def test_names_are_there(self):
        known = names()
        self.assert_none(
            "%s: `%s`: no file of the repository has %s" % (page, code, name)
            for page in pages()
            for code in re.findall(r"`([^`\n]+)`", without_code(read(page)))
            for name in re.findall(r"[A-Za-z_]\w*", code)
            if "_" in name and name not in known and not name.isupper()
        )


if __name__ == "__main__":
    unittest.main()
