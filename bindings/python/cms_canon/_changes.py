"""What conversion changes in a message, for those who ask what happened to their evidence."""

from __future__ import annotations

import struct
from typing import List, NamedTuple, Optional

from ._calls import LIMIT, Octets, called, library, limit_of, octets_of
from ._change_names import KINDS, SETS

_CHANGE = struct.Struct("=8Q")
_MANY, _LISTING = 256, 8192  # changes, and octets of text, for which a first call has room


class Change(NamedTuple):
    """A change from a message to its DER. Places are in octets, from 0. Its text is the line of the command `changes`."""

    kind: str
    """What is changed, as `length made definite`; docs/FORMATS.md has all kinds."""
    place: int
    """Where what is changed begins in the message."""
    length: int
    """How many octets it has there."""
    der_place: int
    """Where it begins in the DER; if it is left out, where it would."""
    der_length: int
    """How many octets it has there: 0 if it is left out."""
    first: int
    """A number, by the kind: what it was, or where; of segments that are joined, how many there are."""
    second: int
    """Another number, by the kind: what it is now; of segments, how many octets are in them."""
    set: Optional[str]
    """The set whose member is moved, as `digestAlgorithms`; None for another kind."""
    text: str
    """As `at 0 length made definite: 30 80 -> 30 23`."""

    def __str__(self) -> str:
        return self.text


def changes(data: Octets, limit: int = LIMIT) -> List[Change]:
    """Returns what `convert` changes in the one message in `data`, in the order of the message; an empty list if it is its own DER.

    The message and its DER may have at most `limit` octets (at most 2**40). Raises `Refused` if `data` is no such message, and
    `MemoryError` if memory runs out.
    """
    octets, most = octets_of(data), limit_of(limit)
    rows = called(library.cms_canon_changes, _MANY, octets, len(octets), most, size=_CHANGE.size)
    lines = list_changes(octets, most).splitlines() if rows else []
    return [_change(line, *row) for row, line in zip(_CHANGE.iter_unpack(rows), lines)]


def _change(text: str, kind: int, place: int, length: int, der_place: int, der_length: int, first: int, second: int, number: int) -> Change:
    """A change of these words and with this line."""
    return Change(str(KINDS[kind]), place, length, der_place, der_length, first, second, SETS[number], text)


def list_changes(data: Octets, limit: int = LIMIT, *, json: bool = False) -> str:
    """Returns the same as the command `changes` writes it: a line for each change, and one that counts them and the octets; or one object of JSON.

    The message and its DER may have at most `limit` octets. Raises what `changes` raises.
    """
    octets = octets_of(data)
    return called(library.cms_canon_list_changes, _LISTING, octets, len(octets), bool(json), limit_of(limit)).decode("ascii")
