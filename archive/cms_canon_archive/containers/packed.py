"""Members of tars, and what gzip, bzip2, xz and Zstandard pack, read from end to end and never unpacked to a disk.

`tarfile` reads the same member for ever at a negative length, a long header or the map of a sparse member into memory as a whole, and takes
a damaged header for the end: all of these are errors here. An error of any kind while a tar or zip is read is a row, since one damaged file
must not end the index of ten million.
"""

from __future__ import annotations

import bz2
import io
import lzma
import re
import tarfile
import zlib
from contextlib import contextmanager
from dataclasses import replace
from functools import cached_property
from typing import Any, BinaryIO, Callable, Dict, Iterable, Iterator, List, NamedTuple, Optional, Set, Tuple, cast

from .found import Class, Content, Found, Pieces, State
from .names import differing, path_of
from .replaced import Replaced
from .sources import HEAD, MOST_IN_MEMORY, PIECE, Budget, Ended, Readable, Source, TooLarge, TooMuch, in_memory
from .tar_headers import are_odd_values, is_odd, suit

Search = Callable[[Source], Iterator[Found]]

LONGEST_HEADER = 1 << 20  # octets of a name, or of other values, in the header of a tar, which tarfile reads as a whole
MOST_WAITING = 64 << 20  # octets of messages of a tar whose contents are looked for in a second pass
_PACKED = 8192  # octets that are unpacked at once: what follows the end of a stream is copied
_BLOCK = 512  # octets in which a tar is written
_TIMES_A_HEADER = 16  # its octets count as so many that are read, as it takes so much longer
_KEPT = {"path", "linkpath", "size", "charset", "hdrcharset"}  # of what a header says of all members
_PLAIN_HEADER = re.compile(rb"(?s).{100}(?:[0-7]{7}\0){3}([0-7]{11})[\0 ][0-7]{11}[\0 ][0-7]{6}\0 0.{100}ustar(?:\x0000|  \0).{64}(?:[0-7]{7}\0|\0{8}){2}")
_SUM_OF_A_HEADER = re.compile(rb" *([0-7]{3,6})[\0 ]")
_HEADERS_WITH_VALUES = (
    *(tarfile.GNUTYPE_LONGNAME, tarfile.GNUTYPE_LONGLINK),
    *(tarfile.XHDTYPE, tarfile.XGLTYPE, tarfile.SOLARIS_XHDTYPE),
)
_HEADERS_BEFORE = {b"x", b"L", b"K", b"LK", b"KL", b"g", b"xg"}  # the last lies first


class Damaged(Exception):
    """A container that cannot be read on."""


class Missing(Exception):
    """A package that is needed to read a container is not installed."""


# ---- packed by itself


class Packing(NamedTuple):
    """A way in which one file is packed: its name, how it begins, the ends of names, and how it is opened."""

    name: str
    magic: bytes
    endings: Dict[str, str]
    opened: Callable[[BinaryIO], Any]


def _zstandard(file: BinaryIO) -> Any:
    try:
        import zstandard
    except ModuleNotFoundError:
        raise Missing("this needs the package zstandard")
    return zstandard.ZstdDecompressor(max_window_size=1 << 27).stream_reader(file, read_across_frames=True, closefd=False)


class _Gunzip:
    """Unpacks a stream of gzip, and is called as `bz2.BZ2Decompressor` is."""

    def __init__(self) -> None:
        self._unpack = zlib.decompressobj(16 + zlib.MAX_WBITS)

    @property
    def eof(self) -> bool:
        return self._unpack.eof

    @property
    def needs_input(self) -> bool:
        return not self._unpack.unconsumed_tail

    @property
    def unused_data(self) -> bytes:
        return self._unpack.unused_data

    def decompress(self, octets: bytes, most: int) -> bytes:
        return self._unpack.decompress(self._unpack.unconsumed_tail + octets, most)


class _Streams(io.RawIOBase):
    """Packed streams one right after another, as they are unpacked. Zeros may follow the last one. Whatever else does not begin a stream is damage:
    some readers stop there, and others look for a further stream. Raises `Damaged` for that, and `EOFError` if a stream has no end."""

    def __init__(self, file: BinaryIO, magic: bytes, begin: Callable[[], Any]) -> None:
        self._file = file
        self._magic = magic
        self._begin = begin
        self._unpacker = begin()
        self._ahead = b""

    def read(self, size: int = -1) -> bytes:
        most = PIECE if size < 0 else min(size, PIECE)
        while most and (not self._unpacker.eof or self._goes_on()):
            needs_input = self._unpacker.needs_input
            packed = (self._ahead or self._file.read(_PACKED)) if needs_input else b""
            self._ahead = b"" if needs_input else self._ahead
            if octets := bytes(self._unpacker.decompress(packed, most)):
                return octets
            if needs_input and not packed and not self._unpacker.eof:
                raise EOFError("Compressed file ended before the end-of-stream marker was reached")
        return b""

    def _goes_on(self) -> bool:
        """Begins the next stream, if one follows."""
        rest = self._unpacker.unused_data or self._ahead
        while len(rest) < len(self._magic) and (more := self._file.read(_PACKED)):
            rest += more
        if rest.startswith(self._magic):
            self._unpacker, self._ahead = self._begin(), rest
            return True
        self._ahead = b""
        while rest.count(0) == len(rest):
            if not (rest := self._file.read(_PACKED)):
                return False
        raise Damaged("no further packed stream follows the octets that are packed, but something else")


def _streams(magic: bytes, begin: Callable[[], Any]) -> Callable[[BinaryIO], Any]:
    return lambda file: _Streams(file, magic, begin)


PACKINGS = (
    Packing("gzip", b"\x1f\x8b", {".tgz": ".tar", ".gz": ""}, _streams(b"\x1f\x8b", _Gunzip)),
    Packing("bzip2", b"BZh", {".tbz2": ".tar", ".tbz": ".tar", ".bz2": ""}, _streams(b"BZh", bz2.BZ2Decompressor)),
    Packing("xz", b"\xfd7zXZ\0", {".txz": ".tar", ".xz": ""}, _streams(b"\xfd7zXZ\0", lzma.LZMADecompressor)),
    Packing("Zstandard", b"\x28\xb5\x2f\xfd", {".tzst": ".tar", ".zst": ""}, _zstandard),
)


ENDINGS = tuple(ending for packing in PACKINGS for ending in packing.endings)
MAGICS = tuple(packing.magic for packing in PACKINGS)
TAR_ENDING = ".tar"


def packing_of(source: Source) -> Optional[Packing]:
    """Returns how a file is packed; None if it is not."""
    name = source.name.lower()
    if not source.head.startswith(MAGICS) and not name.endswith(ENDINGS):
        return None
    return next((it for it in PACKINGS if source.head.startswith(it.magic) or name.endswith(tuple(it.endings))), None)


def name_inside(name: str, packing: Packing) -> str:
    """Returns the name of what a file of this name holds."""
    for ending, other in packing.endings.items():
        if name.lower().endswith(ending):
            return name[: -len(ending)] + other
    return name


class _Forward(io.RawIOBase):
    """A file that is read forward within a budget, and remembers the block that was read last. Going forward reads, too."""

    def __init__(self, file: Any, budget: Budget, is_seekable: bool) -> None:
        self._file = file
        self._budget = budget
        self._is_seekable = is_seekable
        self._at = 0
        self._ahead = b""
        self.last = b""

    def read(self, size: int = -1) -> bytes:
        size = PIECE if size < 0 else min(size, PIECE)
        pieces, self._ahead = [self._ahead[:size]], self._ahead[size:]
        missing = size - len(pieces[0])
        while missing and (more := self._file.read(missing)):  # what unpacks may return fewer octets than it is asked for, and tarfile takes that for the end
            self._budget.take(len(more))
            pieces.append(more)
            missing -= len(more)
        octets = b"".join(pieces)
        self._at += len(octets)
        self.last = octets
        return octets

    def peek(self, size: int) -> bytes:
        """Returns what the next call reads."""
        self._ahead = octets = self.read(size)
        self._at -= len(octets)
        return octets

    def take(self, octets: int) -> None:
        """Takes so many octets from the budget that are not read."""
        self._budget.take(octets)

    def tell(self) -> int:
        return self._at

    def seek(self, at: int, whence: int = io.SEEK_SET) -> int:
        if whence != io.SEEK_SET or at < self._at and not self._is_seekable:
            raise Damaged("it goes back")
        if at != self._at and self._ahead:
            self._ahead = b""
            if not self._is_seekable:
                raise Damaged("it was read ahead")
        if self._is_seekable:
            self._at = self._file.seek(at)
        while self._at < at and self.read(min(at - self._at, PIECE)):
            pass
        return self._at

    def seekable(self) -> bool:
        return True

    def readable(self) -> bool:
        return True


@contextmanager
def _unpacked(source: Source, packing: Packing) -> Iterator[_Forward]:
    with packing.opened(source.begun()) as file:
        yield _Forward(file, source.budget, is_seekable=False)


def in_packed(source: Source, packing: Packing, search: Search, in_a_tar: Search) -> Iterator[Found]:
    """Gives what is in a packed file: of a tar its members, and else what the file is by itself."""
    name = name_inside(source.name, packing)
    with _unpacked(source, packing) as file:
        inner = source.inner(name, file, 0)
        if not is_tar(inner):
            yield from search(inner)
            return
    yield from in_a_tar(source)


# ---- tar


def is_tar(source: Source) -> bool:
    """Whether a file begins as a tar, or is named so."""
    head = source.head
    return head[257:262] == b"ustar" or source.name.lower().endswith(TAR_ENDING) or len(head) >= _BLOCK and _is_old_tar(head)


def _is_old_tar(head: bytes) -> bool:
    """Whether a header without a mark begins a file: it has its own sum."""
    said = _SUM_OF_A_HEADER.match(head, 148)
    return said is not None and sum(head[:148]) + 8 * 0x20 + sum(head[156:_BLOCK]) == int(said[1], 8)


def _sum_of(octets: bytes) -> int:
    """Returns the sum of at most 256 octets, by which adler32 begins."""
    return (zlib.adler32(octets) & 0xFFFF) - 1


class _Header(tarfile.TarInfo):
    """A header of a tar that takes no more memory and time than it may, and on which readers may differ if it is odd."""

    is_odd = False
    own_size = 0
    """Octets of the member, as this header says, whatever a header before it says."""
    before: bytes = b""
    """The kinds of the headers with values that lie before it."""

    @classmethod
    def frombuf(cls, buf: bytes, encoding: str, errors: str) -> _Header:
        """Returns the same as `tarfile` does: in a third of the time, if the header is written as all programs write those of files."""
        header: _Header = cls._frombuf(buf, encoding, errors)
        header.is_odd = is_odd(buf)
        header.own_size = header.size
        return header

    @classmethod
    def _frombuf(cls, buf: bytes, encoding: str, errors: str) -> Any:
        plain = _PLAIN_HEADER.match(buf)
        if plain is None or len(buf) != _BLOCK:
            return super().frombuf(buf, encoding, errors)
        checksum = int(buf[148:154], 8)
        if _sum_of(buf[:256]) + _sum_of(buf[256:]) - sum(buf[148:156]) + 256 != checksum:
            return super().frombuf(buf, encoding, errors)
        header = cls(buf[: buf.index(0, 0, 101) if 0 in buf[:100] else 100].decode(encoding, errors))
        header.size, header.chksum, header.type = int(plain[1], 8), checksum, tarfile.REGTYPE
        if buf[345]:
            header.name = buf[345:500].partition(b"\0")[0].decode(encoding, errors) + "/" + header.name
        return header

    def _proc_member(self, file: tarfile.TarFile) -> _Header:
        values_of_all = file.pax_headers or {}
        if len(values_of_all) > len(_KEPT):  # tarfile would go through all of them for each member
            file.pax_headers = {key: values_of_all[key] for key in values_of_all.keys() & _KEPT}
        values = b""
        if self.type in _HEADERS_WITH_VALUES:
            if not 0 <= self.size <= LONGEST_HEADER:
                raise Damaged("a header is too long")
            blocks = cast(_Forward, file.fileobj)
            blocks.take(_TIMES_A_HEADER * self.size)
            values = blocks.peek(self.size)
            self.is_odd |= are_odd_values(self.type, values)
        if self.type == tarfile.GNUTYPE_SPARSE:
            raise Damaged("a member is sparse")
        member: _Header = super()._proc_member(file)  # type: ignore[misc]  # the types of tarfile do not have it
        if member is not self:
            member.before += self.type
            member.is_odd |= self.is_odd or member.before not in _HEADERS_BEFORE or not suit(self.type, values, member, member.own_size)
        return member

    def _proc_gnusparse_10(self, *_: object) -> None:
        raise Damaged("a member is sparse")


class Tar:
    """A tar that is read once; if it has messages, its headers once more; and once more each for hard links and for contents of the messages."""

    def __init__(self, source: Source, packing: Optional[Packing], search: Search) -> None:
        self._source = source
        self._packing = packing
        self._search = search
        self._waiting: Dict[str, List[Found]] = {}
        self._octets_waiting = 0
        self._with_content: Set[str] = set()

    def found(self) -> Iterator[Found]:
        """Gives what is in each member, and last the messages whose content is another member, also if the tar cannot be read to its end."""
        damage: Optional[Exception] = None
        try:
            yield from self._in_members()
            yield from self._in_hard_links()
        except Ended:
            yield from self._without_contents()
            raise
        except Exception as why:  # of any kind, as tarfile and what unpacks raise
            damage = why
        if self._waiting:
            yield from self._with_contents()
        if damage is not None:
            raise damage

    @cached_property
    def _replaced(self) -> Replaced:
        """What is known of the names of all members."""
        found = Replaced()
        with self._source.aside():
            try:
                self._add_headers(found)
            except TooMuch:
                found.doubt("what follows what was read")
            except (Ended, MemoryError):
                raise
            except Exception:
                found.doubt("what follows its damage")
        found.end()
        return found

    def _add_headers(self, found: Replaced) -> None:
        with self._opened() as blocks:
            for member, _ in self._headers(blocks):
                found.add(member)
                if member.is_odd:
                    found.doubt(f"{member.name}: some readers read its header otherwise")
            while piece := blocks.read(PIECE):
                if piece.count(0) != len(piece):
                    found.doubt("what follows its end")

    def _in_members(self) -> Iterator[Found]:
        for member, tar in self._members():
            name = member.name or "."
            try:
                yield from self._each(name, self._search(self._inner(name, member, tar)))
            except (Ended, Damaged, MemoryError):
                raise
            except Exception as why:
                yield Found(name, "file", Class.DAMAGED, member.size, note=why_of(why))

    def _inner(self, name: str, member: Any, tar: Any) -> Source:
        """Returns a member as a source: a short one is read at once, which is half the work."""
        if member.size >= HEAD:
            return self._source.inner(name, tar.extractfile(member), member.size)
        blocks = tar.fileobj
        blocks.seek(member.offset_data)
        octets = blocks.read(member.size)
        if len(octets) < member.size:
            raise tarfile.ReadError("unexpected end of data")  # as tarfile says it
        return in_memory(name, octets, self._source.budget)

    def _in_hard_links(self) -> Iterator[Found]:
        """Gives the messages in members once more under the names of the hard links to them."""
        if "_replaced" not in self.__dict__ or not self._replaced.hard_links:
            return
        for member, tar in self._members():
            names = self._replaced.hard_links.get(path_of(member.name), ())
            octets = self._source.budget.read(tar.extractfile(member), MOST_IN_MEMORY) if names else b""
            for name in names:
                found = self._search(in_memory(name, octets, self._source.budget))
                yield from self._each(name, (it for it in found if it.what in (Class.MESSAGE, Class.CONTAINER)))

    def _each(self, name: str, found: Iterator[Found]) -> Iterator[Found]:
        for place in found:
            if place.what is Class.MESSAGE:
                place = place.noted(differing(name, self._replaced.reason(name)))
            wants, whole = place.wants, place.within(name)
            octets = len(place.octets or b"")
            if wants and self._octets_waiting + octets <= MOST_WAITING:
                self._octets_waiting += octets
                self._waiting.setdefault(path_of(wants), []).append(whole._replace(facts=None))  # which take more memory than its octets
            else:
                yield whole.with_content(None) if wants else whole

    def _with_contents(self) -> Iterator[Found]:
        """Gives the messages once for each member of the name that they want: of several, each may be the one that was signed."""
        wanted: Dict[str, List[str]] = {}
        for name in self._waiting:
            for path in {name, self._replaced.targets.get(name, name)}:
                wanted.setdefault(path, []).append(name)
        try:
            for member, tar in self._members() if self._may_have(wanted) else ():
                path = path_of(member.name)
                names = wanted.get(path, [])
                if not names:
                    continue
                content = content_read(path, member.size, tar.extractfile(member), self._source.budget)
                for name in names:
                    self._with_content.add(name)
                    noted = replace(content, where=name, note=content.note or differing(name, self._replaced.reason(name)))
                    yield from (it.with_content(noted) for it in self._waiting[name])
        except Ended:
            yield from self._without_contents()
            raise
        except Exception:  # which was found in the first reading too
            pass
        yield from self._without_contents()

    def _may_have(self, wanted: Iterable[str]) -> bool:
        """Whether a member may have one of these paths. A packed tar is always read: its members may be more than its budget."""
        return self._packing is not None or self._replaced.may_have(wanted)

    def _without_contents(self) -> Iterator[Found]:
        for name, some in self._waiting.items():
            if name not in self._with_content:
                yield from (it.with_content(None) for it in some)

    def _headers(self, blocks: _Forward) -> Iterator[Tuple[Any, tarfile.TarFile]]:
        """Gives each member. Raises `Damaged` if the tar cannot be read to its end."""
        with tarfile.open(fileobj=cast(BinaryIO, blocks), mode="r:", tarinfo=_Header) as file:
            for member in file:
                self._source.budget.take_member()
                if member.size < 0:  # tarfile would go back, and read the same member for ever
                    raise Damaged("a member has a negative length")
                yield member, file
                file.members = []  # type: ignore[attr-defined]  # tarfile would keep all of them, and its types do not have it
            if blocks.tell() != file.offset + _BLOCK or blocks.last != bytes(_BLOCK):  # tarfile takes any other block for the end too
                raise Damaged("no end mark follows the last member")

    def _members(self) -> Iterator[Any]:
        """Gives each file, with the tar that reads it: POSIX has a member of an unknown type taken for a file. Raises the same."""
        with self._opened() as blocks:
            for member, file in self._headers(blocks):
                if member.isfile() or member.type not in tarfile.SUPPORTED_TYPES:
                    yield member, file

    @contextmanager
    def _opened(self) -> Iterator[_Forward]:
        if self._packing is None:
            yield _Forward(self._source.begun(), self._source.budget, is_seekable=True)
        else:
            with _unpacked(self._source, self._packing) as file:
                yield file


def content_read(name: str, length: int, file: Readable, budget: Budget) -> Content:
    """Returns a member as the content of a message."""
    try:
        octets = budget.read(file, MOST_IN_MEMORY)
    except TooLarge as why:
        return Content(name, length, (), State.UNREADABLE, f"{name}: {why}")
    return Content(name, len(octets), Pieces(octets))


def why_of(error: BaseException) -> str:
    """Returns the first line of what an error says, or else its name."""
    lines = (getattr(error, "strerror", None) or str(error)).splitlines()
    return lines[0].rstrip(":")[:200] if lines else type(error).__name__
