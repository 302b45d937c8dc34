"""Lists the scripts of scripts/, and those of tests/ and bench/, here and in archive/: how each is called, and the first sentence that it says of itself.

    python3 scripts/commands.py

In scripts/ these are the files without an ending.
"""

import ast
import re
import textwrap
from pathlib import Path
from typing import Iterator, NamedTuple

TOP = Path(__file__).resolve().parent.parent
CALLED = re.compile(r"^    ((?:/usr/bin/)?python3 .*)$", re.M)


class Script(NamedTuple):
    """How a script is called, and what it does."""

    called: str
    does: str


def first_sentence(said: str) -> str:
    return re.split(r"(?<=[.])\s|:?\n\n", said.strip())[0].replace("\n", " ").rstrip(".")


def commands() -> Iterator[Script]:
    """Gives each file of scripts/ that is a command."""
    for file in sorted(it for it in (TOP / "scripts").iterdir() if it.is_file() and not it.suffix):
        text = file.read_text(encoding="utf-8")
        comment = re.match(r"#!/bin/sh\n((?:#.*\n)+)", text)
        said = re.sub(r"^# ?", "", comment[1], flags=re.M) if comment else ast.get_docstring(ast.parse(text), clean=False) or ""
        called = re.search(r"(?:^    |: )(scripts/[^.\n]*)", said, re.M)
        sentence = first_sentence(said)
        yield Script(called[1] if called else f"scripts/{file.name}", sentence.removesuffix(f": {called[1]}") if called else sentence)


def tests_and_benches() -> Iterator[Script]:
    """Gives each file of tests, and each script beside them or in bench/. Raises `SystemExit` if a script does not say how it is called."""
    files = [it for folder in ("", "archive/") for kind in ("tests", "bench") for it in sorted(TOP.glob(f"{folder}{kind}/*.py"))]
    for file in files:
        text = file.read_text(encoding="utf-8")
        said = ast.get_docstring(ast.parse(text), clean=False) or ""
        called = CALLED.search(said)
        if file.name.startswith("test_"):
            yield Script(f"pytest {file.relative_to(TOP)}", first_sentence(said))
            continue
        if '__name__ == "__main__"' not in text:
            continue
        if not called:
            raise SystemExit(f"{file.relative_to(TOP)}: its docstring does not say how it is called")
        yield Script(called[1], first_sentence(said))


def main() -> None:
    for it in (*commands(), *tests_and_benches()):
        print(it.called)
        print(textwrap.fill(it.does, 120, initial_indent="    ", subsequent_indent="    ", break_on_hyphens=False))


if __name__ == "__main__":
    main()
