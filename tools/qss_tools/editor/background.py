"""Work that is done after a pause, in a thread of its own."""
import json
import os
import subprocess
import sys
import threading
import time
from typing import Any, Callable, Dict, Optional


PACKAGES = os.path.dirname(os.path.dirname(os.path.dirname(os.path.abspath(__file__))))
LONGEST_ADVICE = 30.0  # seconds
POLL = 0.02


class Background(threading.Thread):
    """Calls a function for each document that waits, once its text has not changed for a while."""

    def __init__(self, work: Callable[[str], None], pause: float) -> None:
        super().__init__(daemon=True)
        self.work, self.pause = work, pause
        self.waiting: Dict[str, float] = {}
        self.changed = threading.Condition()

    def ask(self, uri: str) -> None:
        with self.changed:
            self.waiting[uri] = time.monotonic() + self.pause
            self.changed.notify()

    def take(self) -> str:
        """The next document whose pause has passed."""
        with self.changed:
            while True:
                uri = min(self.waiting, key=lambda one: self.waiting[one]) if self.waiting else None
                left = self.waiting[uri] - time.monotonic() if uri is not None else None
                if uri is not None and left is not None and left <= 0:
                    del self.waiting[uri]
                    return uri
                self.changed.wait(left)

    def run(self) -> None:
        while True:
            self.work(self.take())


def advice_by_process(path: str, program: str, is_wanted: Callable[[], bool]) -> Optional[Dict[str, Any]]:
    """The advice on a file, or None if it is no longer wanted or fails."""
    environment = {**os.environ, "PYTHONPATH": os.pathsep.join(filter(None, [PACKAGES, os.environ.get("PYTHONPATH")]))}
    words = [sys.executable, "-m", "qss_tools.editor.advice", path, program]
    streams = {"stdin": subprocess.DEVNULL, "stdout": subprocess.PIPE, "stderr": subprocess.DEVNULL}
    end = time.monotonic() + LONGEST_ADVICE
    with subprocess.Popen(words, env=environment, **streams) as process:  # type: ignore[call-overload]
        while time.monotonic() < end and is_wanted():
            try:
                out = process.communicate(timeout=POLL)[0]
            except subprocess.TimeoutExpired:
                continue
            return read_json(out) if process.returncode == 0 else None
        process.kill()
        process.communicate()
    return None


def read_json(data: bytes) -> Optional[Dict[str, Any]]:
    try:
        found = json.loads(data)
    except ValueError:
        return None
    return found if isinstance(found, dict) else None
