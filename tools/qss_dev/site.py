"""The tool make-site: the pages as a folder of HTML, with search."""
import logging
import re
import shutil
import sys
import tempfile
from pathlib import Path
from typing import Any, Dict, Iterator, List, Optional, Sequence, Set

from qss_tools.fault import FINE, Arguments, Fault, run_tool

ABOUT = """Writes the pages of the repository as HTML with search, by mkdocs (Debian: mkdocs).

  tools/make-site                  writes into dist/site
  tools/make-site --into FOLDER    writes into this folder, which is emptied before

The first page is README.md, and its table of pages is the list of contents. Files that a page links to are copied.
Status: 0, or 2 a fault."""

ROOT = Path(__file__).resolve().parent.parent.parent
SITE = ROOT / "dist" / "site"
PAGES = ("README.md", "CONTRIBUTING.md", "CHANGELOG.md", "docs/*.md", "examples/*.md")
LINK = re.compile(r"(!?)\[([^\]]*)\]\(([^)\s]+)\)")
# A row of the table of pages in README.md, and an entry of it.
GROUP = re.compile(r"^\| ([^|]+) \| (\[[^|]*\)) \|$", re.MULTILINE)
ENTRY = re.compile(r"\[([^\]]+)\]\(([^)]+\.md)\)")


def pages() -> List[str]:
    """The names of the pages."""
    return [str(path.relative_to(ROOT)) for pattern in PAGES for path in sorted(ROOT.glob(pattern))]


def slug(heading: str, separator: str = "-") -> str:
    """The anchor of a heading, as the links of the pages have it."""
    return re.sub(r"[^\w\- ]", "", heading.strip().lower()).replace(" ", separator)


def parts(text: str) -> Iterator[str]:
    """The parts of a page: text, and each second one a block of code."""
    yield from re.split(r"(^```.*?^```)", text, flags=re.MULTILINE | re.DOTALL)


def staged(name: str, linked: Set[str]) -> str:
    """A page with the links that the site has, and the files to which they lead."""
    folder = (ROOT / name).parent

    def link(found: "re.Match[str]") -> str:
        image, text, target = found.groups()
        path, _, anchor = target.partition("#")
        if re.match(r"[a-z]+:", target) or not path:
            return found[0]
        whole = (folder / path).resolve()
        if not whole.is_file() or ROOT not in whole.parents:
            return str(text)
        linked.add(str(whole.relative_to(ROOT)))
        return f"{image}[{text}]({path}{'#' + anchor if anchor else ''})"

    text = (ROOT / name).read_text(encoding="utf-8")
    return "".join(part if place % 2 else LINK.sub(link, part) for place, part in enumerate(parts(text)))


def contents(known: Set[str]) -> List[Dict[str, Any]]:
    """The list of contents: the table of pages in README.md, and then the other pages."""
    readme = (ROOT / "README.md").read_text(encoding="utf-8")
    found: List[Dict[str, Any]] = [{"qss": "README.md"}]
    told = {"README.md"}
    for group, entries in GROUP.findall(readme):
        listed = [(title, name) for title, name in ENTRY.findall(entries) if name in known]
        found.append({group: [{title[0].upper() + title[1:]: name} for title, name in listed]})
        told.update(name for _, name in listed)
    others = sorted(known - told)
    if others:
        found.append({"others": others})
    return found


def write(into: Path) -> None:
    """Writes the site into a folder."""
    try:
        from mkdocs.commands.build import build
        from mkdocs.config import load_config
    except ImportError as error:
        raise Fault(f"mkdocs is needed, and {sys.executable} has it not (Debian: mkdocs)") from error
    with tempfile.TemporaryDirectory(prefix="qss-site-") as folder:
        stage, linked = Path(folder) / "pages", set(pages())
        for name in sorted(linked):
            put(stage / name, staged(name, linked))
        for name in sorted(linked - set(pages())):
            (stage / name).parent.mkdir(parents=True, exist_ok=True)
            shutil.copy(ROOT / name, stage / name)
        settings = Path(folder) / "mkdocs.yml"
        put(settings, "site_name: qss\n")
        names = {name for name in linked if name.endswith(".md")}
        config = load_config(str(settings), **options(stage, into, names))
        logging.getLogger("mkdocs").setLevel(logging.ERROR)
        build(config)


def options(stage: Path, into: Path, names: Set[str]) -> Dict[str, Any]:
    """The settings of mkdocs. Nothing on the pages is loaded from elsewhere."""
    return {
        "docs_dir": str(stage),
        "site_dir": str(into.resolve()),
        "site_url": "",
        "theme": {"name": "mkdocs", "highlightjs": False, "nav_style": "dark"},
        "use_directory_urls": False,
        "nav": contents(names),
        "markdown_extensions": [{"toc": {"slugify": slug}}, "tables", "fenced_code"],
        "plugins": ["search"],
    }


def put(path: Path, text: str) -> None:
    path.parent.mkdir(parents=True, exist_ok=True)
    path.write_text(text, encoding="utf-8")


def tool(arguments: Sequence[str]) -> int:
    parser = Arguments(prog="make-site", description=ABOUT)
    parser.add_argument("--into", metavar="FOLDER", type=Path, default=SITE, help="where it is written")
    args = parser.parse_args(arguments)
    args.into.mkdir(parents=True, exist_ok=True)
    write(args.into)
    print(args.into / "index.html")
    return FINE


def main(arguments: Optional[Sequence[str]] = None) -> int:
    """Runs the tool and returns its status."""
    return run_tool("make-site", tool, arguments)


if __name__ == "__main__":
    sys.exit(main())
