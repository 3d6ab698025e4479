"""The tool make-package: a wheel or a Debian package with the program, the tools, the pages and the examples."""
import shutil
import subprocess
import sys
import sysconfig
import tempfile
from email.utils import format_datetime
from datetime import datetime, timezone
from pathlib import Path
from typing import Dict, List, Optional, Sequence

from qss_tools.fault import FINE, Arguments, Fault, run_tool
from qss_tools.overview import VERSION
from qss_tools.program import find_program

ABOUT = """Writes a package that installs the program and the tools.

  tools/make-package wheel    a wheel for pip, for the platform of the program
  tools/make-package deb      a Debian package, by debhelper; the pages as HTML are in it if make-site has written them

The program is copied byte by byte. Status: 0, or 2 a fault."""

ROOT = Path(__file__).resolve().parent.parent.parent
TOOLS, SHARE = ROOT / "tools", ROOT / "tools" / "share"
DIST = ROOT / "dist"
SITE = DIST / "site"
NOT_VERSIONED = ("python:", "program:", "binary:")

# What the pyproject.toml of the wheel adds to the one of the repository.
WHEEL_FILES = """
[tool.setuptools.data-files]
bin = ["program/qss"]
"share/man/man1" = ["program/qss.1"]
"share/bash-completion/completions" = ["program/qss.bash"]
"""


def run(words: Sequence[str], folder: Path) -> str:
    """Runs a command in a folder and returns what it prints; if it fails, that is a fault."""
    try:
        done = subprocess.run(words, cwd=folder, stdout=subprocess.PIPE, stderr=subprocess.STDOUT, check=False)
    except OSError as error:
        raise Fault(f"{words[0]}: {(error.strerror or 'cannot be run').lower()}") from error
    text = done.stdout.decode("utf-8", "replace")
    if done.returncode:
        raise Fault(f"{' '.join(words[:3])} fails with status {done.returncode}", text.splitlines()[-20:])
    return text


def version_text(program: str) -> str:
    """The lines of `qss-tools --version` for an installed program."""
    tool = [sys.executable, str(TOOLS / "qss-tools")]
    lines = run([*tool, "--version"], ROOT).splitlines()
    proved = run([*tool, "--proved", program], ROOT).strip()
    return "\n".join([*(line for line in lines if not line.startswith(NOT_VERSIONED)), f"program: {proved}", ""])


def copy_tools(stage: Path) -> None:
    """Copies the tools for all, with their links, into a folder."""
    hidden = shutil.ignore_patterns("__pycache__", "*.pyc")
    shutil.copytree(TOOLS / "qss_tools", stage / "tools" / "qss_tools", ignore=hidden)


def wheel(program: str, stage: Path, into: Path) -> Path:
    """Builds the wheel; its path."""
    copy_tools(stage)
    (stage / "tools" / "qss_tools" / "VERSION").write_text(version_text(program), encoding="utf-8")
    (stage / "program").mkdir()
    shutil.copy(program, stage / "program" / "qss")
    for name in ("qss.1", "qss.bash"):
        shutil.copy(SHARE / name, stage / "program")
    shutil.copy(ROOT / "README.md", stage)
    project = (ROOT / "pyproject.toml").read_text(encoding="utf-8")
    (stage / "pyproject.toml").write_text(project + WHEEL_FILES, encoding="utf-8")
    platform = sysconfig.get_platform().replace("-", "_").replace(".", "_")
    (stage / "setup.cfg").write_text(f"[bdist_wheel]\nplat_name = {platform}\n", encoding="utf-8")
    options = ["--no-deps", "--no-index", "--no-build-isolation", "--disable-pip-version-check", "--wheel-dir"]
    run([sys.executable, "-m", "pip", "wheel", *options, str(into), "."], stage)
    return into / f"qss_tools-{VERSION}-py3-none-{platform}.whl"


def deb(program: str, stage: Path, into: Path) -> Path:
    """Builds the Debian package; its path."""
    source = stage / f"qss-{VERSION}"
    copy_tools(source)
    for path in sorted(TOOLS.iterdir()):
        if path.is_file():
            shutil.copy(path, source / "tools")
    shutil.copytree(SHARE, source / "tools" / "share")
    shutil.copytree(SHARE / "debian", source / "debian")
    shutil.copytree(ROOT / "examples", source / "examples", ignore=shutil.ignore_patterns("*.svg"))
    shutil.copytree(ROOT / "docs", source / "docs")
    if SITE.is_dir():
        shutil.copytree(SITE, source / "html")
    for name in ("Makefile", "README.md", "CHANGELOG.md"):
        shutil.copy(ROOT / name, source)
    shutil.copy(program, source / "program")
    (source / "VERSION").write_text(version_text(program), encoding="utf-8")
    write_changelog(source / "debian" / "changelog")
    run(["dpkg-buildpackage", "--build=binary", "--no-sign"], source)
    built = sorted(stage.glob("qss_*.deb"))
    if len(built) != 1:
        raise Fault("dpkg-buildpackage has built no package")
    return Path(shutil.copy(built[0], into))


def write_changelog(path: Path) -> None:
    """Writes the entry that dpkg needs: the version and a time, that of the last commit where git has it."""
    maintainer = next(
        line.partition(": ")[2]
        for line in (SHARE / "debian" / "control").read_text(encoding="utf-8").splitlines()
        if line.startswith("Maintainer: ")
    )
    when = datetime.now(timezone.utc)
    try:
        when = datetime.fromtimestamp(int(run(["git", "log", "-1", "--format=%ct"], ROOT)), timezone.utc)
    except (Fault, ValueError):
        pass
    text = f"qss ({VERSION}) unstable; urgency=medium\n\n  * The changes are in CHANGELOG.md.\n\n"
    path.write_text(f"{text} -- {maintainer}  {format_datetime(when)}\n", encoding="utf-8")


BUILDERS = {"wheel": wheel, "deb": deb}
NEEDED: Dict[str, List[str]] = {"wheel": [], "deb": ["dpkg", "dpkg-buildpackage", "dh"]}


def build(kind: str, program: Optional[str], into: Path) -> Path:
    """Builds a package into a folder; its path."""
    for command in NEEDED[kind]:
        if shutil.which(command) is None:
            raise Fault(f"{command} is needed (Debian: dpkg-dev, debhelper)")
    found = find_program(program)
    into.mkdir(parents=True, exist_ok=True)
    with tempfile.TemporaryDirectory(prefix="qss-package-") as folder:
        return BUILDERS[kind](found, Path(folder), into.resolve())


def tool(arguments: Sequence[str]) -> int:
    parser = Arguments(prog="make-package", description=ABOUT)
    parser.add_argument("kind", choices=sorted(BUILDERS))
    parser.add_argument("--program", metavar="PATH", help="the program that is packed (default: the one ./qss runs)")
    parser.add_argument("--into", metavar="FOLDER", type=Path, default=DIST, help="where it is written (default: dist)")
    args = parser.parse_args(arguments)
    print(build(args.kind, args.program, args.into))
    return FINE


def main(arguments: Optional[Sequence[str]] = None) -> int:
    """Runs the tool and returns its status."""
    return run_tool("make-package", tool, arguments)


if __name__ == "__main__":
    sys.exit(main())
