"""Reads files and members by pieces within a budget: what a header says of a length is never believed.

The budget of a file is 1 GiB and 64 times its size. Whatever is read twice is paid for twice, so that a million ByteRanges take time in
proportion to the file.
"""

from __future__ import annotations

import io
from contextlib import contextmanager
from typing import Any, BinaryIO, Callable, Iterator, Optional, Protocol, Tuple, cast

import cms_canon

HEAD = 4096  # octets by which is judged what a file is
PIECE = 1 << 20  # octets that are read at once
MOST_IN_MEMORY = cms_canon.LIMIT + 1  # octets of a file or member that is read as a whole: a message with more is refused for that
FREE = 1 << 30  # octets that may be read of any file, unpacked, and so many times its size more
TIMES_THE_SIZE = 64
MOST_MEMBERS = 500_000  # of any file, with those of members inside it, and so many more as it has times so many octets
OCTETS_OF_A_MEMBER = 128
MOST_SMALL = 20_000  # members of the zips in any file that have so many members that these have fewer octets than this:
OCTETS_OF_A_SMALL_MEMBER = 512  # with both headers, since each member takes some 50 microseconds
MOST_PARTS = 100_000  # sections, lines and elements of the manifests in any file, and likewise
OCTETS_OF_A_PART = 8
MOST_STEPS = 20_000  # which parts of mails, messages in PEM and PDFs in any file cost, or one for so many octets: each takes some 50 to 90 microseconds
OCTETS_OF_A_STEP = 512
MOST_FORWARD = 1 << 20  # octets that a member has at most if it is read to its end, only to see what it ends with
MOST_HELD = 32 << 20  # octets of mails inside one another that are kept at once, with twice those of the largest
DEEPEST = 4  # packed files inside one another
DEEPEST_MAIL = 20  # mails inside one another
TEXT = bytes({*range(0x20, 0x7F), *range(0x80, 0x100), *b"\t\n\r\f\b\x1b"})  # octets that a text may have


_FIRST = 64  # octets among which most files that are no text have one that no text has


def is_text(head: bytes) -> bool:
    """Whether a file that begins so may be a text."""
    return bool(head) and not head[:_FIRST].translate(None, TEXT) and not head.translate(None, TEXT)


class Ended(Exception):
    """No more of a file is read, however deep inside it that is noticed."""


class TooMuch(Ended):
    """A file holds more than may be looked at."""


class TooLarge(Exception):
    """A file or member has more octets than are read as a whole."""


class Readable(Protocol):
    """What octets are read from, from its beginning on."""

    def read(self, size: int = -1, /) -> bytes:
        """Returns at most so many octets, and none at the end."""


class Budget:
    """How much of one file may still be read. A small file that is packed to be large is left before it has cost much."""

    def __init__(self, size: int) -> None:
        """Makes the budget of a file with so many octets."""
        self._most = self._octets = FREE + TIMES_THE_SIZE * size
        self._most_members = self._members = MOST_MEMBERS + size // OCTETS_OF_A_MEMBER
        self._small = MOST_SMALL
        self._most_parts = self._parts = MOST_PARTS + size // OCTETS_OF_A_PART
        self._steps = self._held = self._largest = 0

    def take(self, octets: int) -> None:
        """Takes so many octets. Raises `TooMuch` if they are not left."""
        self._octets -= octets
        if self._octets < 0:
            raise TooMuch(f"more than {self._most:,} octets would be read")

    def take_member(self) -> None:
        """Takes one member. Raises `TooMuch` if none is left."""
        self._members -= 1
        if self._members < 0:
            raise TooMuch(f"it has more than {self._most_members:,} members")

    def take_zip(self, members: int, octets: int) -> None:
        """Takes the members of a zip of so many octets, if they are small. Raises `TooLarge` if too few of these are left."""
        self._small -= members if members * OCTETS_OF_A_SMALL_MEMBER > octets else 0
        if self._small < 0:
            raise TooLarge(f"the file has more than {MOST_SMALL:,} members of zips with less than {OCTETS_OF_A_SMALL_MEMBER} octets each")

    def take_parts(self, parts: int) -> None:
        """Takes so many sections, lines or elements of manifests. Raises `TooMuch` if they are not left."""
        self._parts -= parts
        if self._parts < 0:
            raise TooMuch(f"its manifests have more than {self._most_parts:,} parts")

    def take_steps(self, steps: int = 1) -> None:
        """Takes what so many small parts cost. Raises `TooMuch` if that is more than the octets that were read may cost."""
        self._steps += steps
        most = max(MOST_STEPS, (self._most - self._octets) // OCTETS_OF_A_STEP)
        if self._steps > most:
            raise TooMuch(f"its mails, PDFs and messages in PEM have more than {most:,} small parts")

    @contextmanager
    def holding(self, octets: int) -> Iterator[None]:
        """Counts so many octets as kept in memory meanwhile. Raises `TooLarge` if those are too many, with what they are in."""
        self._largest = max(self._largest, octets)
        most = MOST_HELD + 2 * self._largest
        if self._held + octets > most:
            raise TooLarge(f"with the mails that it is in, it has more than {most:,} octets")
        self._held += octets
        try:
            yield
        finally:
            self._held -= octets

    def read(self, file: Readable, most: int) -> bytes:
        """Reads the rest of a file, of at most so many octets, by pieces. Raises `TooLarge` if there are more."""
        whole = io.BytesIO()  # which hands over its octets without a copy
        while piece := file.read(min(PIECE, most + 1 - whole.tell())):
            self.take(len(piece))
            whole.write(piece)
            if whole.tell() > most:
                raise TooLarge(f"it has more than {MOST_IN_MEMORY - 1:,} octets")
        return whole.getvalue()


class _Forward(io.RawIOBase):
    """Octets that were read already, and the rest of the file that they are of."""

    def __init__(self, head: bytes, rest: Readable) -> None:
        self._head = head
        self._rest = rest

    def readable(self) -> bool:
        return True

    def readinto(self, buffer: Any) -> int:
        octets = self._head[: len(buffer)] or self._rest.read(len(buffer))
        self._head = self._head[len(octets) :]
        buffer[: len(octets)] = octets
        return len(octets)


class Source:
    """A file or a member: its beginning is read at once, and all of it only if it is needed."""

    def __init__(self, name: str, file: Readable, size: int, budget: Budget, is_seekable: bool = False) -> None:
        """Begins to read. `size` is how many octets it is said to have; a file that is seekable is one of Python's."""
        self.name = name
        self.size = size
        self.budget = budget
        self._file = cast(BinaryIO, file)
        self._is_seekable = is_seekable
        self.is_in_memory = False
        self.head = b""
        while len(self.head) < HEAD and (piece := file.read(HEAD - len(self.head))):
            budget.take(len(piece))
            self.head += piece
        self._octets: Optional[bytes] = self.head if len(self.head) < HEAD else None

    @property
    def is_whole(self) -> bool:
        """Whether all of it was read."""
        return self._octets is not None

    def octets(self) -> bytes:
        """Returns all of it. Raises `TooLarge` if that is more than is read as a whole."""
        if self._octets is None:
            self._octets = self._read_at_once() if self._is_seekable else self.head + self.budget.read(self._file, MOST_IN_MEMORY - HEAD)
            self.size = len(self._octets)
        return self._octets

    def tail(self, most: int) -> bytes:
        """Returns the last octets, at most so many. What is read forward is read to its end for that, and cannot be read again."""
        if self._octets is not None:
            return self._octets[-most:]
        if self._is_seekable:
            self._file.seek(max(0, self.size - most))
            octets = self._file.read(most)
            self.budget.take(len(octets))
            return octets
        last = self.head[-most:]
        while piece := self._file.read(PIECE):
            self.budget.take(len(piece))
            last = (last + piece)[-most:]
        return last

    def ends(self, first: int, last: int) -> Tuple[bytes, Optional[bytes]]:
        """Returns the first and the last octets, at most so many. What is read forward cannot be read again, and has None for the last octets if it has
        more than are read for that."""
        if self._octets is not None:
            return self._octets[:first], self._octets[-last:]
        if self._is_seekable:
            self._file.seek(0)
            begin = self._file.read(first)
            self.budget.take(len(begin))
            return begin, self.tail(last)
        begin = end = self.head
        octets = len(begin)
        most = first if self.size and self.size > MOST_FORWARD else MOST_FORWARD
        while piece := self._file.read(PIECE):
            self.budget.take(len(piece))
            octets += len(piece)
            if len(begin) < first:
                begin = (begin + piece)[:first]
            end = (end + piece)[-last:]
            if octets > most:
                return begin, None
        self.size = octets
        return begin, end

    def _read_at_once(self) -> bytes:
        """Returns all of a file whose size is known, of which pieces would take twice the memory."""
        self._file.seek(0)
        octets = self._file.read(min(self.size, MOST_IN_MEMORY) + 1)
        self.budget.take(len(octets))
        if len(octets) > self.size and len(octets) <= MOST_IN_MEMORY:  # it has grown since
            octets += self.budget.read(self._file, MOST_IN_MEMORY - len(octets))
        if len(octets) > MOST_IN_MEMORY:
            raise TooLarge(f"it has more than {MOST_IN_MEMORY - 1:,} octets")
        return octets

    def begun(self) -> BinaryIO:
        """Returns a file at its beginning that can be sought in: itself if it can, or else all of it in memory."""
        if not self._is_seekable:
            return io.BytesIO(self.octets())
        self._file.seek(0)
        return self._file

    def forward(self) -> BinaryIO:
        """Returns a file that reads from its beginning, and keeps nothing of it."""
        return self.begun() if self._is_seekable or self._octets is not None else io.BufferedReader(_Forward(self.head, self._file))

    @contextmanager
    def aside(self) -> Iterator[None]:
        """Lets the file be read from its beginning meanwhile."""
        at = self._file.tell() if self._is_seekable else 0
        yield
        if self._is_seekable:
            self._file.seek(at)

    def inner(self, name: str, file: Readable, size: int) -> Source:
        """Returns a member as a source within the same budget."""
        return Source(name, file, size, self.budget)


class _Whole(Source):
    """Octets that are all in memory. What reads them as a file gets one of its own."""

    def __init__(self, name: str, octets: bytes, budget: Budget, opened: Callable[[bytes], BinaryIO]) -> None:
        budget.take(len(octets))
        self.name = name
        self.size = len(octets)
        self.budget = budget
        self.is_in_memory = True
        self.head = octets[:HEAD]
        self._whole = self._octets = octets
        self._opened = opened

    def octets(self) -> bytes:
        return self._whole

    def begun(self) -> BinaryIO:
        return self._opened(self._whole)

    def forward(self) -> BinaryIO:
        return self.begun()

    @contextmanager
    def aside(self) -> Iterator[None]:
        yield


def in_memory(name: str, octets: bytes, budget: Budget, opened: Callable[[bytes], BinaryIO] = io.BytesIO) -> Source:
    """Returns octets as a source. `opened` makes a file of them for what reads one."""
    return _Whole(name, octets, budget, opened)
