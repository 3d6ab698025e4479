"""Writes the objections of qss-advise to a model, and the model with settings that fit, as JSON.

The language server runs this module as a process of its own, which it can end when the text changes:
  python3 -m qss_tools.editor.advice MODEL PROGRAM
"""
import json
import sys
from typing import Any, Dict, List

from ..advice.advise import Advice
from ..fault import Fault


def advice_on(model: str, program: str) -> Dict[str, Any]:
    """The findings with their places, and the text with the proposed settings or None."""
    try:
        advice = Advice(model, program)
    except Fault:
        # (what the program refuses has been reported)
        return {"findings": [], "text": None}
    found: List[Dict[str, Any]] = [
        {"at": one.at, "sentence": one.sentence, "way": one.way, "grave": bool(one.grave)} for one in advice.found
    ]
    text = None if advice.text is None or not advice.is_grave() else advice.text.decode("utf-8", "replace")
    return {"findings": found, "text": text}


if __name__ == "__main__":
    json.dump(advice_on(sys.argv[1], sys.argv[2]), sys.stdout)
