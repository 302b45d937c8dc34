"""What is found in a file: a message with its content, or what else lies there."""

from __future__ import annotations

import hashlib
from dataclasses import dataclass
from enum import Enum
from typing import Any, Dict, Iterable, Iterator, NamedTuple, Optional, Set, Tuple, Union

import cms_canon
from cms_canon._facts import Facts

Octets = Union[bytes, memoryview]


class Class(str, Enum):
    """What a file is, or what lies at a place in it."""

    MESSAGE = "message"
    CONTAINER = "container"
    EMPTY = "container without message"
    OTHER = "other signed format"
    NOT_LOOKED_INTO = "not looked into"
    TEXT = "text"
    NO_CANDIDATE = "not a candidate"
    DAMAGED = "damaged"
    TOO_LARGE = "too large"
    REFUSED = "refused"
    UNREADABLE = "unreadable"


class Due(Enum):
    """What is due at a place, as its name, its label or its container says."""

    NOTHING = 0
    MESSAGE = 1
    """A CMS message of whatever type."""
    SIGNATURE = 2
    """A message that somebody signed."""


class State(str, Enum):
    """What is known of the digests of a message and of the document that it covers."""

    FITS = "fits"
    EARLIER = "fits an earlier revision"
    NO_REVISION = "covers no revision of the file"
    PARTLY = "fits, but covers only some files"
    DIFFERS = "does not fit"
    INSIDE = "content inside"
    NO_DIGEST = "no digest to compare"
    UNKNOWN_DIGEST = "digest algorithm unknown"
    NOT_FOUND = "content not found"
    NOT_COMPARED = "files of the manifest not compared"
    COVERS_MORE = "covers more than was compared"
    UNREADABLE = "content not readable"
    NO_SIGNATURE = "no signature"


KEPT = 1 << 16  # octets: nothing is kept of what a longer message says, and no longer file is known by its beginning alone
GOOD = (State.FITS, State.EARLIER, State.PARTLY)


class Pieces:
    """Octets that lie in several places of what was read, without a copy of them."""

    def __init__(self, *pieces: Octets) -> None:
        self._pieces = pieces

    def __iter__(self) -> Iterator[Octets]:
        return iter(self._pieces)

    def __reduce__(self) -> Tuple[Any, ...]:
        return Pieces, tuple(map(bytes, self._pieces))


def is_message(octets: bytes) -> bool:
    """Whether octets are a message that can be converted."""
    try:
        cms_canon.convert(octets)
    except cms_canon.Refused:
        return False
    return True


def digest_of(pieces: Iterable[Octets], algorithm: str) -> bytes:
    """Returns the digest of octets that come in pieces, by an algorithm as hashlib names it."""
    digest = hashlib.new(algorithm)
    for piece in pieces:
        digest.update(piece)
    return digest.digest()


@dataclass(frozen=True)
class Content:
    """What a message covers that does not hold it."""

    where: str
    """Where it lies, in words."""
    length: int
    """Octets."""
    pieces: Iterable[Octets]
    """The octets, which can be asked for more than once."""
    bound: State = State.FITS
    """What is to be said if the digests fit it: it may be a manifest, and not the document itself."""
    note: str = ""
    """What else is to be said of it."""
    is_due_inside: bool = False
    """Whether the message has to hold these octets itself."""


class Found(NamedTuple):
    """What lies at one place in a file. If it is of the class of messages, it is not judged yet, and may be none."""

    where: str
    """The place, and empty for the file itself."""
    form: str
    """How it lies there, as `PEM`, or what kind of file it is."""
    what: Class
    length: int
    """Octets, as far as they are known."""
    octets: Optional[bytes] = None
    """Those of what may be a message."""
    content: Optional[Content] = None
    is_detached: bool = False
    """Whether what is signed is to lie elsewhere, so that content inside the message is not the document."""
    due: Due = Due.NOTHING
    """What is due there; a signature also if `is_detached` is true."""
    wants: Optional[str] = None
    """The name of the file beside it which it covers, as long as nobody has looked for that."""
    note: str = ""
    """Why it is so, or what else is to be said."""
    is_opened: bool = False
    """Whether the content that it holds itself has been looked into."""
    facts: Optional[Facts] = None
    """What the message says, if it was read for that, and is so short that this was kept."""
    sha256: Optional[bytes] = None
    """That of all octets of the file itself, if it was wanted; None if the file became longer or shorter as it was read."""

    @property
    def is_signature_due(self) -> bool:
        return self.is_detached or self.due is Due.SIGNATURE

    def within(self, name: str) -> Found:
        r"""Returns the same as it is called from outside the member of this name, in which `!` is written as `\x21`."""
        name = name.replace("!", r"\x21")
        return self._replace(where=f"{name}!{self.where}" if self.where else name)

    def noted(self, *notes: str) -> Found:
        """Returns the same with more that is to be said of it."""
        return self._replace(note="; ".join(filter(None, (self.note, *notes))))

    def opened(self, facts: Optional[Facts]) -> Found:
        """Returns the same after the content that the message holds was looked into. What the message says is kept if it is short."""
        return self._replace(is_opened=True, facts=facts if facts is not None and len(facts.der) <= KEPT else None)

    def with_content(self, content: Optional[Content]) -> Found:
        """Returns the same with the content that it covers, of which it needs none any more."""
        return self._replace(content=content, is_detached=content is not None, wants=None)


def numbered(found: Iterable[Found]) -> Iterator[Found]:
    """Gives what is found, and a place that was given before with a number: no two have one place. It keeps 64 bits of each place."""
    given: Set[int] = set()
    again: Dict[int, int] = {}
    for place in found:
        if place.where == "":  # the file itself, which comes once
            yield place
            continue
        key = _key(place.where)
        if key in given:
            number = again.get(key, 1) + 1
            while (other := _key(f"{place.where}#{number}")) in given:
                number += 1
            again[key] = number
            given.add(other)
            place = place._replace(where=f"{place.where}#{number}")
        given.add(key)
        yield place


def _key(where: str) -> int:
    return int.from_bytes(hashlib.blake2b(where.encode("utf-8", "surrogatepass"), digest_size=8).digest(), "big")
