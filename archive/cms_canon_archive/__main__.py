"""Starts the command `cms-canon-archive`, or says which package it needs and is not there."""

import os
import sys

from .faults import line_of_missing


def _open_what_is_closed() -> None:
    """Has the standard streams be there if whoever started the command closed them: nothing can be read or written, which is said as of any other file."""
    for number, flags in enumerate((os.O_WRONLY, os.O_RDONLY, os.O_WRONLY)):
        try:
            os.fstat(number)
        except OSError:
            os.open(os.devnull, flags)  # which is given the lowest number that is free
    sys.stdin = sys.stdin or open(0, encoding="utf-8", closefd=False)
    sys.stdout = sys.stdout or open(1, "w", encoding="utf-8", closefd=False)
    sys.stderr = sys.stderr or open(2, "w", encoding="utf-8", closefd=False)


def main() -> None:
    """Runs the command. If a package is missing, says which, with the status that the command has for it."""
    _open_what_is_closed()
    sys.modules.setdefault("greenlet", None)  # type: ignore[arg-type]  # as if it were not installed: SQLAlchemy would import asyncio with it
    try:
        from .command import main as command

        command()
    except ModuleNotFoundError as missing:
        sys.exit(f"Error: {line_of_missing(missing)}")


if __name__ == "__main__":
    main()
