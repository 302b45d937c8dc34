"""How many of the vectors docs/VECTORS.md says that cms-canon is asked, and how many not, if each command of tests/vectors/run.py is given."""

import re
import sys
from pathlib import Path
from typing import Dict

TOP = Path(__file__).resolve().parent.parent
PAGE = "docs/VECTORS.md"
COUNTED = re.compile(r"^\d+ as the vectors say, 0 otherwise, \d+ not asked$", re.M)

sys.path.insert(0, str(TOP / "tests" / "vectors"))

import run  # noqa: E402


def files() -> Dict[str, str]:
    """Returns the text of the page, by its name. Raises `SystemExit` if it has no line of these numbers."""
    questions = [it for file in sorted(run.VECTORS.glob("*.json")) for _, it in run.questions_of(file)]
    asked = sum(it is not None and run.is_asked(it, "") for it in questions)
    line = f"{asked} as the vectors say, 0 otherwise, {len(questions) - asked} not asked"
    text, count = COUNTED.subn(line, (TOP / PAGE).read_text(encoding="utf-8"))
    if count != 1:
        raise SystemExit(f"{PAGE} has no line of what is asked and what is not")
    return {PAGE: text}
