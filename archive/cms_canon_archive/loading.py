"""Lines of `rows`, as `load` reads them."""

from __future__ import annotations

import json
from typing import Any, Iterable, Iterator, List, Optional

from .reading import Part, Row, parts_of_rows
from .store import is_row

_FORMS = {1: "line", 2: "lines"}


class Lines:
    """Lines of `rows`. Only the number of one that is not whole is kept; the file after it is left out, since the line may be of this file."""

    def __init__(self) -> None:
        self._wrong: List[int] = []
        self._count = 0  # of wrong lines, of which the first are kept
        self._since_end = 0  # lines since the last one that said how many there are
        self._unended = False
        self._ends = 0  # lines that said how many there are

    def parts_of(self, lines: Iterable[str]) -> Iterator[Part]:
        """Gives the rows in parts of one file each. A file without its own row is given only as far as it was handed over before."""
        for part in parts_of_rows(self._rows_of(lines)):
            if part.is_last or not part.is_first or len(part.rows) > 1 and part.rows[-1]["member"]:
                yield part

    def _rows_of(self, lines: Iterable[str]) -> Iterator[Row]:
        is_left_out = False
        for number, line in enumerate(lines, 1):
            value = _value_in(line)
            if isinstance(value, dict) and set(value) == {"end"}:
                self._unended = self._unended or value["end"] != self._since_end
                self._since_end = 0
                self._ends += 1
                continue
            self._since_end += 1
            if not is_row(value):
                self._note(number)
                is_left_out = True
            elif is_left_out:
                is_left_out = value["member"] != ""
            else:
                yield value
        self._unended = self._unended or self._since_end > 0 or not self._ends

    def _note(self, number: int) -> None:
        self._count += 1
        if not self._wrong:
            self._wrong.append(number)

    def complaint(self) -> Optional[str]:
        """Returns what is wrong with the lines, if all were read; None if nothing is."""
        found = []
        if self._wrong:
            some = f"{self._count} line{'' if self._count == 1 else 's'} not of `rows`"
            found.append(f"left out {some}, the first is line {self._wrong[0]}, and the file after each")
        if self._unended:
            found.append("`rows` was stopped before its end: lines are missing")
        return "; ".join(found) or None


def _value_in(line: str) -> Any:
    try:
        return json.loads(line)
    except (ValueError, RecursionError):
        return None
