"""What readers of a PDF differ on that a parser does not say: how the file ends, how objects are numbered, and object streams."""

from __future__ import annotations

import re
from typing import Iterable, Iterator, List, NamedTuple, Optional, Tuple

MOST_TABLES = 200  # of objects, one for each revision
_LAST = 1024  # octets at the end in which all readers look for the place of the table of objects
_FARTHER = 64  # octets before these in which some look too
_NEAR = 1024  # octets before the name of a kind of stream in which the number of its object is looked for
_LONGEST_NUMBERS = 64  # octets of the two numbers of an object
_BLANK = rb"[\0\t\n\f\r ]"
_AFTER = rb"(?=[\0\t\n\f\r <>\[\]()/%+.0-9-]|\Z)"
_END = re.compile(rb"startxref[ ]*(?:\r\n|\r|\n)([0-9]{1,12})[ ]*(?:\r\n|\r|\n)%%EOF[\0\t\n\f\r ]*\Z")
_OBJECT = re.compile(rb"(?<=[\0\t\n\f\r ])obj" + _AFTER)
_FIRST_GENERATION = re.compile(rb"(?<![0-9])[0-9]+" + _BLANK + rb"+0+" + _BLANK + rb"+obj" + _AFTER)
_NUMBERS = re.compile(rb"(?<![0-9])([0-9]{1,10})" + _BLANK + rb"+0+" + _BLANK + rb"+\Z")


_TABLE = re.compile(rb"xref[ ]*(?:\r\n|\r|\n)")
_PART = re.compile(rb"([0-9]{1,10}) ([0-9]{1,10})[ ]*(?:\r\n|\r|\n)")
_ENTRY = re.compile(rb"([0-9]{10}) ([0-9]{5}) (?:(n)|f)(?: \r| \n|\r\n)")
_ENTRY_OCTETS = 20
_TRAILER = re.compile(_BLANK + rb"{0,8}trailer")


def _spelt(name: str) -> bytes:
    """Returns the pattern of a name, whose characters may be written in hexadecimal digits."""
    return b"".join(b"(?:%c|#(?i:%02x))" % (it, it) for it in name.encode())


_BEFORE = re.compile(b"/%s%s*([0-9]{1,12})" % (_spelt("Prev"), _BLANK))
_NAMES = re.compile(b"/(?:(?P<hybrid>%s)|(?P<packed>%s)|(?P<files>%s))%s" % (_spelt("XRefStm"), _spelt("ObjStm"), _spelt("EF"), _AFTER))


class Named(NamedTuple):
    """What the names in the octets of a PDF say that it has."""

    is_hybrid: bool
    """Whether it has a second table of objects for newer readers."""
    packed: List[Optional[int]]
    """The numbers of what may be object streams; None if the number is not found."""
    has_files: bool
    """Whether something may have embedded files."""


def named_in(octets: bytes, most_packed: int) -> Named:
    """Returns what names say, with at most so many numbers and one more."""
    is_hybrid = has_files = False
    packed: List[Optional[int]] = []
    for name in _NAMES.finditer(octets):
        is_hybrid |= name.lastgroup == "hybrid"
        has_files |= name.lastgroup == "files"
        if name.lastgroup == "packed" and len(packed) <= most_packed:
            packed.append(_number_before(octets, name.start()))
    return Named(is_hybrid, list(dict.fromkeys(packed)), has_files)


def has_files(octets: bytes) -> bool:
    """Whether something in these octets of a PDF may have embedded files."""
    return any(it.lastgroup == "files" for it in _NAMES.finditer(octets))


def _number_before(octets: bytes, at: int) -> Optional[int]:
    begin = octets.rfind(b"obj", max(0, at - _NEAR), at)
    numbers = _NUMBERS.search(octets, max(0, begin - _LONGEST_NUMBERS), begin) if begin >= 0 else None
    return int(numbers[1]) if numbers else None


def _places(octets: bytes) -> Iterator[int]:
    """Gives where the tables of objects begin, the last first, as far as they lead to one another; -1 if there are more than are looked at."""
    last = _END.search(octets, max(0, len(octets) - _LAST))
    at = int(last[1]) if last else -1
    seen = {-1}
    while at not in seen:
        seen.add(at)
        yield at if len(seen) <= MOST_TABLES else -1
        if len(seen) > MOST_TABLES:
            return
        before = _BEFORE.search(octets, at, max(at, octets.find(b"startxref", at)))
        at = int(before[1]) if before else -1


def table_streams_of(octets: bytes) -> Iterator[int]:
    """Gives the numbers of the streams that are tables of objects."""
    for at in _places(octets):
        if at >= 0 and (found := _FIRST_GENERATION.match(octets, at)):
            yield int(found[0].split()[0])


def _is_odd_table(octets: bytes, at: int) -> bool:
    """Whether a table of objects that begins there is one which some readers may not take as it is. What is in a stream is not looked into."""
    if at < 0:
        return True
    begin = _TABLE.match(octets, at)
    if begin is None:
        return not _FIRST_GENERATION.match(octets, at)
    at = begin.end()
    parts: List[Tuple[int, int]] = []
    while not _TRAILER.match(octets, at):
        part = _PART.match(octets, at)
        if part is None:
            return True
        first, count = int(part[1]), int(part[2])
        parts.append((first, first + count))
        at = part.end() + _ENTRY_OCTETS * count
        if at > len(octets) or not all(_is_entry(octets, part.end() + _ENTRY_OCTETS * it, first + it) for it in range(count)):
            return True
    return not are_apart(parts)


def are_apart(parts: Iterable[Tuple[int, int]]) -> bool:
    """Whether no number is in two parts, of which each is the first number and that after the last one."""
    in_order = sorted(parts)
    return all(end <= begin for (_, end), (begin, _) in zip(in_order, in_order[1:]))


def _is_entry(octets: bytes, at: int, number: int) -> bool:
    """Whether an entry of a table is written as it has to be, and the object is there."""
    entry = _ENTRY.match(octets, at)
    return entry is not None and (entry[3] is None or octets.startswith(b"%d %d obj" % (number, int(entry[2])), int(entry[1])))


def _is_odd_end(octets: bytes) -> bool:
    """Whether some readers may find another table of objects than the last, or none."""
    begin = octets.rfind(b"startxref", max(0, len(octets) - _LAST))
    is_first = octets.find(b"startxref", max(0, len(octets) - _LAST - _FARTHER)) == begin
    return begin < 0 or not is_first or not _END.match(octets, begin)


def _has_generations(octets: bytes) -> bool:
    """Whether an object has a generation other than 0, as one that was deleted and made again, or numbers that are not written plainly."""
    return sum(1 for _ in _OBJECT.finditer(octets)) != sum(1 for _ in _FIRST_GENERATION.finditer(octets))


def oddities_of(octets: bytes, named: Named) -> Iterator[str]:
    """Gives what readers may differ on in a PDF, for whatever it has."""
    if _is_odd_end(octets):
        yield "readers differ on how the PDF ends"
    if _has_generations(octets):
        yield "readers differ on objects with a generation"
    if any(_is_odd_table(octets, it) for it in _places(octets)):
        yield "readers differ on the table of objects"
    if named.is_hybrid:
        yield "readers differ on a PDF with two tables of objects"
