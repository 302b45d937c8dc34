"""Short files in which nothing else lies, as most files are: they are read many at a time.

Each step is done for all of them before the next one. So its code stays in the caches of the processor, which takes a fifth less time than to
read one file after another.
"""

from __future__ import annotations

from typing import Callable, Iterator, List, NamedTuple, Optional, Sequence, Tuple, TypeVar

import cms_canon
from cms_canon._facts import Facts, facts_of

from .containers.files import SHORT, sha256_of, short, with_beside
from .containers.finder import opened_alone, seen_alone
from .containers.found import Class, Found
from .containers.sources import Ended, Source
from .judging import NOT_VERIFIED, Verification, judged
from .reading import MOST_BESIDE, Entry, Read, metered, read_of

TOGETHER = 32  # files that are read together
OCTETS_TOGETHER = 1 << 17  # of all of them: what a hostile message says may take 60 times its octets
T = TypeVar("T")


class _Seen(NamedTuple):
    """A file, and what it seems to be."""

    entry: Entry
    source: Source
    place: Found


class _Said(NamedTuple):
    """The same with what a message says; None if it is refused, or no message."""

    seen: _Seen
    facts: Optional[Facts]


def groups(files: Sequence[Tuple[str, Entry]]) -> Iterator[Sequence[Tuple[str, Entry]]]:
    """Gives the files in groups that are to be read together."""
    begin = octets = 0
    for at, (_, entry) in enumerate(files):
        octets += entry.size
        if at > begin and (octets > OCTETS_TOGETHER or at - begin == TOGETHER):
            yield files[begin:at]
            begin, octets = at, entry.size
    if files:
        yield files[begin:]


def reads_together(entries: Sequence[Entry], how: Verification = NOT_VERIFIED) -> List[Optional[Read]]:
    """Returns what is to be stored of each short file in which nothing else lies, and None for any other file: `reads_of` has to read it, as it does
    one that cannot be read, or that is out of memory here."""
    seen = [_tried(_seen, it) for it in entries]
    said = [None if it is None else _tried(_said, it) for it in seen]
    return [None if it is None else _tried(_read, it, how) for it in said]


def _tried(do: Callable[..., Optional[T]], *words: object) -> Optional[T]:
    try:
        return do(*words)
    except (OSError, Ended, MemoryError):
        return None


def _seen(entry: Entry) -> Optional[_Seen]:
    source = short(entry.path) if entry.size < SHORT else None
    place = None if source is None else seen_alone(source)
    return None if source is None or place is None else _Seen(entry, source, place)


def _said(seen: _Seen) -> _Said:
    """Reads what a message says, and what is found in it if there is nothing beside it that it may cover."""
    place = seen.place
    if place.what is not Class.MESSAGE or place.octets is None:
        return _Said(seen, None)
    try:
        return _Said(seen, facts_of(place.octets, checks=not seen.entry.beside))
    except cms_canon.Refused:
        return _Said(seen, None)


def _read(said: _Said, how: Verification) -> Optional[Read]:
    entry, source, seen = said.seen
    place = opened_alone(seen, source, said.facts) if seen.what is Class.MESSAGE else seen
    if place is None:
        return None
    place = with_beside(place)
    if place.content is not None:
        place = metered(place, place.content, entry.path, [MOST_BESIDE])
    place = place._replace(sha256=sha256_of(source, source.size))
    return read_of(entry, place, judged(place, how), how)
