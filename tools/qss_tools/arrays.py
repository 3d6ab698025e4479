"""numpy, where it is installed, and the interpreter that has it."""
import os
import subprocess
import sys
from typing import Any, Optional

SYSTEM_PYTHON = "/usr/bin/python3"
CHOSEN = "QSS_PYTHON"  # the environment variable with the interpreter that the tools use
STARTED = "QSS_STARTED_BY"  # set in a process that was started by another interpreter


def load() -> Any:
    """The package numpy, or None. With QSS_NUMPY=0 it is left out."""
    if os.environ.get("QSS_NUMPY") == "0":
        return None
    try:
        import numpy
    except ImportError:
        return None
    return numpy


def has(package: str) -> bool:
    """Whether this interpreter has a package, without loading it."""
    import importlib.util

    return package in sys.modules or importlib.util.find_spec(package) is not None


def use_one_with(package: str) -> None:
    """Starts the tool again by an interpreter that has a package, if this one has it not: the one that QSS_PYTHON
    names, or else that of the system. Which one is used is printed once.
    """
    named = os.environ.get(CHOSEN)
    if os.environ.get(STARTED) or named is None and has(package):
        return
    python = named or SYSTEM_PYTHON
    if not os.access(python, os.X_OK) or os.path.realpath(python) == os.path.realpath(sys.executable):
        return
    if named is None and not knows(python, package):
        return
    say_once(python, package)
    os.environ[STARTED] = sys.executable
    sys.stdout.flush()
    os.execv(python, [python, *sys.argv])


def knows(python: str, package: str) -> bool:
    """Whether another interpreter has a package."""
    script = "import importlib.util, sys; sys.exit(importlib.util.find_spec(sys.argv[1]) is None)"
    words = [python, "-c", script, package]
    return not subprocess.run(words, stdout=subprocess.DEVNULL, stderr=subprocess.DEVNULL).returncode


def say_once(python: str, package: str) -> None:
    """Prints which interpreter is used, if it is not the one of the last time. A file keeps the last one."""
    path = cache_path("python" if package == "numpy" else "python-" + package)
    line = "%s\n%s\n" % (sys.executable, python)
    try:
        with open(path, encoding="utf-8") as file:
            if file.read() == line:
                return
    except OSError:
        pass
    text = "qss: %s has no %s: the tools use %s (the environment variable %s names another one)"
    print(text % (sys.executable, package, python, CHOSEN), file=sys.stderr)
    try:
        os.makedirs(os.path.dirname(path), exist_ok=True)
        with open(path, "w", encoding="utf-8") as file:
            file.write(line)
    except OSError:
        pass


def cache_path(name: str = "python") -> str:
    """A file of the user's cache."""
    root: Optional[str] = os.environ.get("XDG_CACHE_HOME")
    return os.path.join(root or os.path.join(os.path.expanduser("~"), ".cache"), "qss", name)
