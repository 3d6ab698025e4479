"""What is said of a model: a sentence about a place, a way out or None, and whether it spoils a run."""
from typing import NamedTuple, Optional


class Finding(NamedTuple):
    """A sentence about a place, or about no place, with a way out if there is one."""

    at: Optional[int]
    sentence: str
    way: Optional[str]
    grave: bool
