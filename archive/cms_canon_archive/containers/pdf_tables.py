"""Tables of objects of a PDF that are in streams, and the object streams that they speak of (ISO 32000-1, 7.5.7 and 7.5.8).

A parser follows such a table without a look at what it leads to. Readers that find an object elsewhere than the table says may repair the whole file,
and show another one.
"""

from __future__ import annotations

from array import array
from itertools import chain, starmap
from typing import Any, Dict, Iterator, List, NamedTuple, Sequence, Set, Tuple

from .pdf_octets import Named, are_apart, has_files, table_streams_of
from .sources import Budget

MOST_PACKED = 3_000  # object streams
_PACKED_TWICE = "readers differ on an object stream in which two objects have one number"
_TABLE = "readers differ on the table of objects"
_FREE, _IN_FILE, _IN_STREAM = 0, 1, 2
MOST_ENTRIES = 200_000  # of all tables in streams
_WIDEST = 8  # octets of a number in a table


class TooMany(Exception):
    """A PDF has more of something than is read."""


class Packed(NamedTuple):
    """What is said of the object streams and of the tables in streams."""

    why_unsure: str
    """Why readers may find other objects; empty if that is not so."""
    has_files: bool
    """Whether something in the PDF may have embedded files."""


class _ObjectStreams(NamedTuple):
    """The object streams of a PDF: their numbers, each with those of the objects in it, in their order."""

    numbers: Dict[int, Sequence[int]]
    is_odd: bool
    """Whether there may be one whose objects are not known, or in which two objects have one number."""
    has_files: bool


def _streams_in(pikepdf: Any, pdf: Any, named: Named, budget: Budget) -> _ObjectStreams:
    numbers: Dict[int, Sequence[int]] = {}
    is_odd, files = None in named.packed, named.has_files
    for number in (it for it in named.packed if it is not None):
        stream = pdf.get_object(number, 0)
        if not isinstance(stream, pikepdf.Stream):
            is_odd |= isinstance(stream, pikepdf.Name)  # the type of a stream that is not known
            continue
        octets = stream.read_bytes()
        budget.take(len(octets))
        numbers[number] = array("Q", map(int, octets[: int(stream.get("/First", 0))].split()[::2]))
        is_odd |= len(set(numbers[number])) != len(numbers[number])
        files = files or has_files(octets)
    return _ObjectStreams(numbers, is_odd, files)


def _parts_of(table: Any) -> List[Tuple[int, int]]:
    """Returns the parts of a table: the first number of each, and the number after its last one."""
    index = list(map(int, table.get("/Index", (0, int(table["/Size"])))))
    return [(first, first + count) for first, count in zip(index[::2], index[1::2])]


def _entries_of(table: Any, octets: bytes) -> Iterator[Tuple[int, int, int, int]]:
    """Gives each entry of a table: the number of the object, and what the three fields say. Raises `ValueError` if it is too short."""
    kind, second, third = (int(it) for it in table["/W"])
    if not all(0 <= it <= _WIDEST for it in (kind, second, third)):
        raise ValueError("a field of a table of objects is too wide")
    at = 0
    for number in chain.from_iterable(starmap(range, _parts_of(table))):
        begin, middle, end = at + kind, at + kind + second, at + kind + second + third
        if end > len(octets):
            raise ValueError("a table of objects is too short")
        of_kind = int.from_bytes(octets[at:begin], "big") if kind else _IN_FILE
        yield number, of_kind, int.from_bytes(octets[begin:middle], "big"), int.from_bytes(octets[middle:end], "big")
        at = end


def _is_there(octets: bytes, streams: _ObjectStreams, entry: Tuple[int, int, int, int]) -> bool:
    """Whether the object of an entry is just where the entry says."""
    number, kind, second, third = entry
    if kind == _IN_FILE:
        return third == 0 and octets.startswith(b"%d 0 obj" % number, second)
    if kind == _IN_STREAM:
        inside = streams.numbers.get(second, ())
        return third < len(inside) and inside[third] == number
    return kind == _FREE


def _is_odd_table(octets: bytes, streams: _ObjectStreams, table: Any, budget: Budget, used: Set[Tuple[int, int]]) -> bool:
    """Whether an entry of a table in a stream leads to something else than its object, or an object may have two entries. Adds to `used` which objects
    of object streams it has: the number of the stream, and which one it is."""
    unpacked = table.read_bytes()
    budget.take(len(unpacked))
    for entry in _entries_of(table, unpacked):
        if not _is_there(octets, streams, entry):
            return True
        if entry[1] == _IN_STREAM:
            used.add(entry[2:])
    return not are_apart(_parts_of(table))


def _has_odd_table(pikepdf: Any, pdf: Any, octets: bytes, streams: _ObjectStreams, budget: Budget) -> bool:
    """Whether one of the tables in streams is odd, or is no stream for the parser, or none has an object of an object stream. Raises `TooMany` if they
    have more entries than are read."""
    tables = [pdf.get_object(number, 0) for number in table_streams_of(octets)]
    if not all(isinstance(it, pikepdf.Stream) for it in tables):
        return True
    if sum(end - begin for it in tables for begin, end in _parts_of(it)) > MOST_ENTRIES:
        raise TooMany(f"its tables have more than {MOST_ENTRIES:,} objects, so that not all of them are compared")
    used: Set[Tuple[int, int]] = set()
    is_odd = any(_is_odd_table(octets, streams, it, budget, used) for it in tables)
    return is_odd or len(used) < sum(map(len, streams.numbers.values()))


def packed_in(pikepdf: Any, pdf: Any, octets: bytes, named: Named, budget: Budget) -> Packed:
    """Returns what is to be said of object streams and of tables in streams. Raises `TooMany` if there are more than are read."""
    if len(named.packed) > MOST_PACKED:
        raise TooMany(f"it has more than {MOST_PACKED:,} object streams, so that not all of its signatures are known")
    streams = _streams_in(pikepdf, pdf, named, budget)
    is_odd = _has_odd_table(pikepdf, pdf, octets, streams, budget)
    why = "; ".join(text for text, is_so in ((_PACKED_TWICE, streams.is_odd), (_TABLE, is_odd)) if is_so)
    return Packed(why, streams.has_files)
