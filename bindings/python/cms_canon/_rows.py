"""Where the fields of a message are, as a call of the library says, and how they are taken from there.

The first call has room for at most 65,536 rows, and a second one, if there are more, for all: a message that is mostly content or
certificates has few.
"""

from __future__ import annotations

import struct
from functools import cached_property, lru_cache
from typing import Any, Dict, Iterable, List, Optional, Tuple

from cms_canon._calls import MAX_NUMBER, called

ROW = struct.Struct("=QQII")  # the place of its octets, their number, kind, level
_PLACE = struct.Struct("=QQ")  # the first two of these
_WORDS, _KIND, _LEVEL = 6, 4, 5  # of 32 bits: in a row, and before these two
_MOST_ROWS = 65536  # the room of a first call
_SHORT_OID = 32  # octets: the texts of these are kept


class Rows:
    """Where fields are in some octets, by the rows of a call, which have numbers from 0."""

    def __init__(self, octets: bytes, rows: bytes) -> None:
        self.octets = octets
        self.rows = rows

    @cached_property
    def kinds(self) -> List[int]:
        return self._words(_KIND)

    @cached_property
    def _levels(self) -> List[int]:
        return self._words(_LEVEL)

    def _words(self, first: int) -> List[int]:
        """This word of each row."""
        return memoryview(self.rows).cast("I")[first::_WORDS].tolist()

    def below(self, number: int) -> Dict[int, List[int]]:
        """The numbers of the fields of this field, by their kinds."""
        found: Dict[int, List[int]] = {}
        kinds, levels = self.kinds, self._levels
        inner = levels[number] + 1
        for at in range(number + 1, len(levels)):
            if levels[at] == inner:
                found.setdefault(kinds[at], []).append(at)
            elif levels[at] < inner:
                break
        return found

    def next_if(self, number: int, kind: int) -> Optional[int]:
        """The number of the row after this one, if it is of this kind."""
        after = number + 1
        return after if after < len(self.kinds) and self.kinds[after] == kind else None

    def octets_of(self, number: int) -> bytes:
        start, length = _PLACE.unpack_from(self.rows, number * ROW.size)
        return self.octets[start : start + length]

    def joined(self, numbers: Iterable[int]) -> bytes:
        """The octets of a string that came in these segments."""
        return b"".join(map(self.octets_of, numbers))

    def views_of(self, numbers: Iterable[int]) -> Tuple[memoryview, ...]:
        octets = memoryview(self.octets)
        places = (_PLACE.unpack_from(self.rows, number * ROW.size) for number in numbers)
        return tuple(octets[start : start + length] for start, length in places)


def room_of_rows(octets: int) -> int:
    """The rows for which a first call has room, if the message has so many octets."""
    return min(octets // 2 + 1, _MOST_ROWS)


def rows_of(function: Any, octets: bytes, *words: int) -> Rows:
    """The rows by a call: once, and once more if there are more than there was room for, as a message seldom has many."""
    return Rows(octets, called(function, room_of_rows(len(octets)), octets, len(octets), *words, size=ROW.size))


class OctetString:
    """An OCTET STRING that several signatures may cover, of which these rows are the segments."""

    def __init__(self, rows: Rows, numbers: List[int]) -> None:
        self._rows = rows
        self._numbers = numbers

    @cached_property
    def octets(self) -> bytes:
        return self._rows.joined(self._numbers)

    @property
    def view(self) -> memoryview:
        """The octets in the input, or in a copy if there are several segments."""
        if len(self._numbers) > 1:
            return memoryview(self.octets)
        (view,) = self._rows.views_of(self._numbers)
        return view


def dotted(contents: bytes) -> str:
    """The text of an OBJECT IDENTIFIER with these contents octets (X.690, section 8.19), as in a listing."""
    return _short_dotted(contents) if len(contents) <= _SHORT_OID else _dotted(contents)


def _dotted(contents: bytes) -> str:
    numbers = [0]
    for octet in contents:
        numbers[-1] = numbers[-1] << 7 | octet & 0x7F
        if numbers[-1] > MAX_NUMBER:
            return f"hex:{contents.hex()}"
        if octet < 0x80:
            numbers.append(0)
    first = min(numbers[0] // 40, 2)
    return ".".join(map(str, [first, numbers[0] - 40 * first, *numbers[1:-1]]))


_short_dotted = lru_cache(maxsize=256)(_dotted)
