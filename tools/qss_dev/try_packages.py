"""The tool try-packages: builds each package, installs it into a clean place, uses it and removes it."""
import os
import shutil
import subprocess
import sys
import tempfile
from pathlib import Path
from typing import Dict, List, Optional, Sequence

from qss_tools.fault import FINE, Arguments, Fault, run_tool
from qss_tools.program import add_program_option
from qss_tools.scripts import SCRIPTS

from .package import BUILDERS, NEEDED, build, run

ABOUT = """Builds each package, installs it into a clean place, uses it there, and removes it again.

  tools/try-packages            the wheel in a new environment of Python, and the Debian package in an empty root
  tools/try-packages wheel      only this one

The Debian package is also checked by lintian. A package whose commands are not installed is skipped with a line.
Status: 0, or 2 a fault: a package that cannot be built, installed, used or removed."""

MODEL = """model tried
  parameter Real R = 2, C = 0.5;
  Real u(start = 1, unit = "V");
equation
  der(u) = -u/(R*C);
  annotation(experiment(StopTime = 1, QSS_TickBits = 10, QSS_LevelBits = 16, QSS_Quantum = 1/256));
end tried;
"""
IMPORTED = "import qss_tools as qss; print(qss.run('tried.mo', set={'R': 1}).measure('final(u)'))"
# Words, and a part of what they print. In one unit of time u falls from 1 to e^-1, and with R = 1 to e^-2.
USES = (
    (["qss", "run", "tried.mo"], "0,start,u,65536,"),
    (["qss-tools", "measure", "tried.mo", "final(u)"], "0.3"),
    (["qss-table", "tried.mo", "--every", "1"], "time,u"),
    (["qss-advise", "tried.mo"], "settings that fit"),
    (["qss-plot", "tried.mo", "-o", "tried.svg"], ""),
    (["qss-explain", "tried.mo"], ""),
    (["qss-live", "--help"], "slider for each parameter"),
    (["qss-lsp", "--help"], "language server"),
    (["qss-fit", "--help"], "measured values"),
    (["qss-tools", "--version"], "program: "),
)


def use(folder: Path, path: Sequence[str]) -> None:
    """Uses what is installed in the folders of a path, in an empty folder."""
    folder.mkdir()
    (folder / "tried.mo").write_text(MODEL, encoding="utf-8")
    environment = {"PATH": os.pathsep.join(path), "HOME": str(folder), "LC_ALL": "C.UTF-8"}
    for words, wanted in USES:
        command = shutil.which(words[0], path=str(path[0]))
        if command is None:
            raise Fault(f"{words[0]} is not installed in {path[0]}")
        text = said([command, *words[1:]], folder, environment)
        if wanted not in text:
            raise Fault(f"'{' '.join(words)}' does not print '{wanted}'", text.splitlines()[:20])
    if not (folder / "tried.svg").is_file():
        raise Fault("qss-plot has written no picture")


def said(words: Sequence[str], folder: Path, environment: Dict[str, str]) -> str:
    """What a command prints. That it fails is a fault."""
    done = subprocess.run(words, cwd=folder, env=environment, stdout=subprocess.PIPE, stderr=subprocess.STDOUT)
    text = done.stdout.decode("utf-8", "replace")
    if done.returncode not in (0, 1):
        raise Fault(f"'{' '.join(words)}' ends with status {done.returncode}", text.splitlines()[:20])
    return text


def left(folder: Path, beside: str) -> List[str]:
    """The files that are ours below a folder, but not below `beside`."""
    names = {"qss", "qss_tools", *SCRIPTS}
    found = [path for path in folder.rglob("*") if path.name.split(".")[0] in names]
    return [str(path.relative_to(folder)) for path in found if beside not in path.parts]


def try_wheel(package: Path, folder: Path) -> None:
    """In a new environment of Python."""
    place = folder / "environment"
    run([sys.executable, "-m", "venv", str(place)], folder)
    python = str(place / "bin" / "python")
    quiet = ["--quiet", "--disable-pip-version-check"]
    run([python, "-m", "pip", "install", *quiet, "--no-index", str(package)], folder)
    path = [str(place / "bin"), "/usr/bin", "/bin"]
    use(folder / "used", path)
    said([python, "-c", IMPORTED], folder / "used", {"PATH": "/usr/bin:/bin"})
    run([python, "-m", "pip", "uninstall", *quiet, "--yes", "qss-tools"], folder)
    remaining = left(place, "pip")
    if remaining:
        raise Fault("the wheel leaves files behind", remaining[:20])


def try_deb(package: Path, folder: Path) -> None:
    """In an empty root, after a check by lintian."""
    if shutil.which("lintian"):
        print(run(["lintian", "--allow-root", "--fail-on", "error", str(package)], folder), end="")
    else:
        print("lintian is not here: the Debian package is not checked by it")
    root = folder / "root"
    for name in ("updates", "info"):
        (root / "var" / "lib" / "dpkg" / name).mkdir(parents=True)
    (root / "var" / "lib" / "dpkg" / "status").touch()
    # (the root is empty: python3 and libc6 are those of this computer)
    forced = ["--force-not-root", "--force-depends", "--force-script-chrootless"]
    dpkg = ["dpkg", f"--root={root}", f"--log={folder / 'log'}", *forced]
    run([*dpkg, "--install", str(package)], folder)
    use(folder / "used", [str(root / "usr" / "bin"), "/usr/bin", "/bin"])
    run([*dpkg, "--purge", "qss"], folder)
    remaining = left(root, "dpkg")
    if remaining:
        raise Fault("the Debian package leaves files behind", remaining[:20])


TRIALS = {"wheel": try_wheel, "deb": try_deb}


def tool(arguments: Sequence[str]) -> int:
    parser = Arguments(prog="try-packages", description=ABOUT)
    parser.add_argument("kinds", nargs="*", metavar="KIND", help="wheel or deb (default: both)")
    add_program_option(parser)
    args = parser.parse_args(arguments)
    for kind in args.kinds or sorted(BUILDERS):
        if kind not in BUILDERS:
            raise Fault(f"'{kind}' is no kind of package: {', '.join(sorted(BUILDERS))}")
        missing = [name for name in NEEDED[kind] if shutil.which(name) is None]
        if missing:
            print(f"{kind}: skipped, because {' and '.join(missing)} is not here")
            continue
        with tempfile.TemporaryDirectory(prefix="qss-try-") as folder:
            package = build(kind, args.program, Path(folder))
            TRIALS[kind](package, Path(folder))
            print(f"{package.name}: built, installed, used and removed ({package.stat().st_size:,} bytes)")
    return FINE


def main(arguments: Optional[Sequence[str]] = None) -> int:
    """Runs the tool and returns its status."""
    return run_tool("try-packages", tool, arguments)


if __name__ == "__main__":
    sys.exit(main())
