"""Names of commands and pages, as the user of these tools calls and finds them.

Texts name a command as in a checkout: tools/qss-plot. In an installation it is qss-plot, on the path.
"""
import functools
import os
import re
from typing import Match, Optional

ROOT = os.path.dirname(os.path.dirname(os.path.dirname(os.path.abspath(__file__))))
# The pages and examples of the Debian package, from lib/qss.
SHARED = os.path.join(os.path.dirname(os.path.dirname(ROOT)), "share", "doc", "qss")
COMMAND = re.compile(r"(?<![\w/.])tools/(?=(?:qss-[a-z]+|rows-to-trace|solution-to-trace)\b)")
LAUNCHER = re.compile(r"(?<![\w/.])\./qss(?= [a-z])")
PAGE = re.compile(r"(?<![\w/.])(docs|examples)/([\w-]+\.(?:md|mo))\b")


@functools.lru_cache(maxsize=None)
def is_checkout() -> bool:
    """Whether these tools are those of a checkout of the repository."""
    return os.path.isfile(os.path.join(ROOT, "crates.txt"))


def for_user(text: str) -> str:
    """A text with the commands and pages of a checkout, or with those of the installation."""
    return text if is_checkout() else of_installation(text, SHARED)


def of_installation(text: str, shared: Optional[str]) -> str:
    """A text with the commands of an installation, and with its pages if this folder has them."""

    def page(match: Match[str]) -> str:
        path = os.path.join(shared or "", *match.groups())
        kind = "page" if match.group(1) == "docs" else "example"
        return path if shared and os.path.isfile(path) else f"the {kind} {match.group(2)} of qss"

    return PAGE.sub(page, LAUNCHER.sub("qss", COMMAND.sub("", text)))
