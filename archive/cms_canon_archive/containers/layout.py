"""Whether all readers of a zip see the same members.

Some readers follow the list of members (the central directory), and others read from end to end; some of those search for the next header.
All see the same if the members lie one after another from the beginning of the file to the list, each with the header that the list says,
and if there is one list with one end. An APK signing block, which lies before the list, is known by its name.
"""

from __future__ import annotations

import re
import stat
import struct
import zipfile
import zlib
from dataclasses import dataclass
from itertools import chain, islice
from operator import attrgetter
from typing import BinaryIO, Dict, FrozenSet, Iterable, Iterator, NamedTuple, Sequence, Set, Tuple

from .names import folded, paths_in_zip
from .sources import PIECE, Budget

END_MAGIC, ENTRY_MAGIC, LOCAL_MAGIC = b"PK\5\6", b"PK\1\2", b"PK\3\4"
LOCATORS = 76  # octets between the list of members and the end, if numbers have 64 bits
MOST_OTHER_PATHS = 10_000  # of the members of one zip that are compared beside one of each
_LONGEST_END = 65_600  # octets of the end with its comment
_ALIGNED = 4096  # octets at whose multiples an APK signing block may begin
_LONGEST_BLOCK = 16 << 20  # octets of an APK signing block
_END = struct.Struct("<4s4H2LH")
_LOCATOR_64 = struct.Struct("<4sLQL")
_END_64 = struct.Struct("<4sQ2H2L4Q")
_LOCAL = struct.Struct("<4s5H3L2H")
_ENTRY_OCTETS = 46
_NONE, _NONE_64 = 0xFFFF, 0xFFFFFFFF  # in the place of a number that has 64 bits
_DESCRIBED, _UTF_8 = 8, 0x800
_FLAGS = 0xFFFF & ~6  # of these both headers of a member say the same; the others say how well it is packed
_NUMBERS, _UNICODE_PATH, _OF_LIBARCHIVE = 1, 0x7075, 0x6C78  # extra fields; bsdtar takes the last for what kind of file a member is
_APK_MAGIC = b"APK Sig Block 42"
_APK_SCHEMES = {0x7109871A: 2, 0xF05368C0: 3, 0x1B93AD61: 3}  # by the numbers of their parts of the block
_DOS_FOLDER = 0x10
_ODD_IN_NAME = re.compile(r"[^ -9;-\x5b\x5d-~]|;[0-9]*\Z|\.\.|//|\A/|(?:\A|/)\.(?:/|\Z)")  # that is not one path of one spelling for all readers


# ---- the end of the file


class End(NamedTuple):
    """What the end of a zip says: its place, how many octets the list of members before it has, and how many octets follow it."""

    at: int
    octets: int
    after: int
    numbers: Tuple[int, ...] = ()
    """Those of the end record: disks, members, and the octets and the place of the list."""
    tail: bytes = b""
    """The octets before the end record that may belong to it."""

    @property
    def has_64(self) -> bool:
        return len(self.tail) == LOCATORS and self.tail[_END_64.size :].startswith(b"PK\6\7")

    @property
    def list_end(self) -> int:
        return self.at - LOCATORS if self.has_64 else self.at

    @property
    def list_begin(self) -> int:
        return self.list_end - self.octets


def end_of(file: BinaryIO) -> End:
    """Returns what the end of a zip says, which is looked for as zipfile does."""
    size = file.seek(0, 2)
    before = max(0, size - _LONGEST_END - LOCATORS)
    file.seek(before)
    end = file.read()
    is_last = end[-_END.size :].startswith(END_MAGIC) and end.endswith(b"\0\0")
    at = len(end) - _END.size if is_last else end.rfind(END_MAGIC)
    if at < 0 or len(end) < at + _END.size:
        return End(0, 0, 0)  # zipfile says what is wrong with it
    numbers = _END.unpack_from(end, at)[1:]
    octets, comment, tail = numbers[4], numbers[6], end[max(0, at - LOCATORS) : at]
    found = End(before + at, octets, max(0, len(end) - at - _END.size - comment), numbers, tail)
    return found._replace(octets=_END_64.unpack_from(tail)[8]) if found.has_64 and tail.startswith(b"PK\6\6") else found


# ---- the headers of members


def _raw_name(info: zipfile.ZipInfo) -> bytes:
    return info.orig_filename.encode("utf-8" if info.flag_bits & _UTF_8 else "cp437")


def _extras(octets: bytes) -> Iterator[Tuple[int, bytes]]:
    at = 0
    while at + 4 <= len(octets):
        kind, length = struct.unpack_from("<HH", octets, at)
        yield kind, octets[at + 4 : at + 4 + length]
        at += 4 + length


def _with_64(sizes: Tuple[int, int], extra: bytes) -> Tuple[int, int]:
    """Returns the sizes of a member, unpacked and packed, of which the extra field has those that have 64 bits."""
    values = next((it for kind, it in _extras(extra) if kind == _NUMBERS), b"")
    numbers = iter(struct.unpack(f"<{len(values) // 8}Q", values[: len(values) // 8 * 8]))
    first, second = (next(numbers, it) if it == _NONE_64 else it for it in sizes)
    return first, second


def _unicode_paths(extra: bytes) -> Set[bytes]:
    return {it[5:] for kind, it in _extras(extra) if kind == _UNICODE_PATH}


class _Member(NamedTuple):
    """Where a member lies: its header, its octets as they are packed, and their end. What is odd about it is in words."""

    info: zipfile.ZipInfo
    begin: int
    data: int
    end: int
    odd: str = ""
    has_64: bool = False
    """Whether its header says that a descriptor after it has numbers of 64 bits."""


class _Headers:
    """The headers of members in a file, which are compared with the list of members."""

    def __init__(self, file: BinaryIO, budget: Budget) -> None:
        self._file = file
        self._budget = budget

    def read(self, at: int, octets: int) -> bytes:
        self._budget.take(max(0, octets))
        self._file.seek(max(0, at))
        return self._file.read(max(0, octets))

    def member(self, info: zipfile.ZipInfo) -> _Member:
        begin, raw = info.header_offset, _raw_name(info)
        header = self.read(begin, _LOCAL.size + len(raw) + len(info.extra))  # which are those of the list, as a rule
        if len(header) < _LOCAL.size or not header.startswith(LOCAL_MAGIC):
            return _Member(info, begin, begin, begin, "it has no header of its own")
        _, _, flags, method, _, _, crc, packed, unpacked, name, extra = _LOCAL.unpack_from(header)
        octets = _LOCAL.size + name + extra
        if len(header) < octets:
            header += self.read(begin + len(header), octets - len(header))
        extras = header[_LOCAL.size + name : octets]
        numbers = (crc, *(_with_64((unpacked, packed), extras) if extras else (unpacked, packed)))
        is_same = _are_same(numbers, (info.CRC, info.file_size, info.compress_size), bool(flags & _DESCRIBED))
        is_same = is_same and (flags ^ info.flag_bits) & _FLAGS == 0 and method == info.compress_type
        is_same = is_same and not info.volume and header[_LOCAL.size : _LOCAL.size + name] == raw
        is_same = is_same and (not extras or _unicode_paths(extras) <= _unicode_paths(info.extra) | {raw})
        kinds = {kind for kind, _ in _extras(extras)}
        odd = "" if is_same and _OF_LIBARCHIVE not in kinds else "its two headers differ"
        return _Member(info, begin, begin + octets, begin + octets + info.compress_size, odd, _NUMBERS in kinds)

    def odd_end(self, member: _Member, following: int) -> str:
        """Returns why some readers may see another end of a member than that before what follows it; empty if none does."""
        info = member.info
        if not info.flag_bits & _DESCRIBED:
            return "" if member.end == following else "other octets lie between it and what follows"
        if not _is_descriptor(self.read(member.end, min(following - member.end, 25)), info, member.has_64):
            return "no descriptor lies between it and what follows"
        if info.compress_type != zipfile.ZIP_DEFLATED:
            return "its header does not say where it ends"
        is_plain = not self.has_header(member.data, member.end)
        return "" if is_plain or self._inflates_to_its_end(member) else "its packed octets end earlier"

    def has_header(self, begin: int, end: int) -> bool:
        """Whether octets have the mark of a header, for which some readers search."""
        before = b""
        for at in range(begin, end, PIECE):
            piece = before + self.read(at, min(PIECE, end - at))
            if LOCAL_MAGIC in piece:
                return True
            before = piece[-3:]
        return False

    def _inflates_to_its_end(self, member: _Member) -> bool:
        inflater = zlib.decompressobj(-zlib.MAX_WBITS)
        for at in range(member.data, member.end, PIECE):
            piece = self.read(at, min(PIECE, member.end - at))
            while piece and not inflater.eof:
                self._budget.take(len(inflater.decompress(piece, PIECE)))
                piece = inflater.unconsumed_tail
            if inflater.eof:
                return at + PIECE >= member.end and not inflater.unused_data
        return False


def _are_same(numbers: Sequence[int], listed: Sequence[int], is_described: bool) -> bool:
    """Whether the numbers in the header of a member are those of the list, or zero if a descriptor follows the member."""
    return all(number == other or is_described and not number for number, other in zip(numbers, listed))


def _is_descriptor(octets: bytes, info: zipfile.ZipInfo, has_64: bool) -> bool:
    """Whether octets are the descriptor that follows a member, with or without a mark."""
    if len(octets) in (16, 24) and octets.startswith(b"PK\7\x08"):
        octets = octets[4:]
    form = "<L2Q" if has_64 else "<3L"
    return len(octets) == struct.calcsize(form) and struct.unpack(form, octets) == (info.CRC, info.compress_size, info.file_size)


def _is_apk_block(octets: bytes) -> bool:
    """Whether octets are an APK signing block and nothing else, in which no reader sees a member."""
    if len(octets) < 32 or not octets.endswith(_APK_MAGIC):
        return False
    sizes = {struct.unpack_from("<Q", octets, at)[0] for at in (0, len(octets) - 24)}
    return sizes == {len(octets) - 8} and LOCAL_MAGIC not in octets


# ---- the list of members


def _odd_end(headers: _Headers, end: End, infos: Sequence[zipfile.ZipInfo]) -> bool:
    """Whether some readers may take another list of members for that of the file, or another part of it."""
    disk, list_disk, here, members, octets, begin, _ = end.numbers
    if end.has_64:
        _, of_disk, at_64, disks = _LOCATOR_64.unpack_from(end.tail, _END_64.size)
        magic, size, _, _, disk_64, list_disk_64, here_64, members_64, octets_64, begin_64 = _END_64.unpack_from(end.tail)
        large = (here_64, members_64, octets_64, begin_64)
        small = ((here, _NONE), (members, _NONE), (octets, _NONE_64), (begin, _NONE_64))
        is_one = all(number in (other, none) for other, (number, none) in zip(large, small))
        if magic != b"PK\6\6" or size != _END_64.size - 12 or at_64 != end.list_end or of_disk or disks > 1 or disk_64 or list_disk_64 or not is_one:
            return True
        here, members, octets, begin = large
    listed = sum(_ENTRY_OCTETS + len(_raw_name(it)) + len(it.extra) + len(it.comment) for it in infos)
    is_whole = here == members == len(infos) and octets == listed and _is_begin(headers, end, infos, begin)
    return not is_whole or disk not in (0, _NONE) or list_disk not in (0, _NONE)


def _is_begin(headers: _Headers, end: End, infos: Sequence[zipfile.ZipInfo], begin: int) -> bool:
    """Whether the list of members begins where the end says, also if octets were put before the whole zip."""
    before = end.list_begin - begin
    is_put_before = infos and before == min(it.header_offset for it in infos) and headers.read(begin, 4) != ENTRY_MAGIC
    return before == 0 or bool(is_put_before)


def _schemes_of(block: bytes) -> FrozenSet[int]:
    """Returns the schemes of which an APK signing block has signatures."""
    schemes, at = set(), 8
    while at + 12 <= len(block) - 24:
        length, number = struct.unpack_from("<QL", block, at)
        schemes.add(_APK_SCHEMES.get(number, 0))
        at += 8 + length
    return frozenset(schemes - {0})


# ---- names


def _spellings(info: zipfile.ZipInfo) -> Set[str]:
    """Returns the names that readers have for a member: some take each name for UTF-8, or one from an extra field."""
    others = {_raw_name(info), *_unicode_paths(info.extra)}
    return {info.filename, *(it.decode("utf-8", "replace") for it in others)}


def _is_plain(info: zipfile.ZipInfo) -> bool:
    """Whether all readers have one name for a member, and one path."""
    is_one = info.filename == info.orig_filename and not _ODD_IN_NAME.search(info.filename)
    return is_one and not (info.extra and _unicode_paths(info.extra))


def _paths_for(info: zipfile.ZipInfo) -> Set[str]:
    """Returns where the names lead that readers have for a member."""
    if _is_plain(info):
        return {info.filename.rstrip("/")}
    return {path for it in _spellings(info) for path in paths_in_zip(it)}


def _other_kind(info: zipfile.ZipInfo) -> str:
    """Returns what a member is for some readers in place of a file; empty if it is a file, or a folder, for all."""
    kind = stat.S_IFMT(info.external_attr >> 16)
    if kind == stat.S_IFLNK:
        return "a symbolic link"
    if kind == stat.S_IFDIR and not info.is_dir() or info.external_attr & _DOS_FOLDER and not info.is_dir() or info.is_dir() and info.file_size:
        return "a folder"
    return "" if kind in (0, stat.S_IFREG, stat.S_IFDIR) else "no file"


def _odd_name(info: zipfile.ZipInfo) -> str:
    """Returns why some readers may have another name for a member; empty if none has."""
    name = info.filename
    if _is_plain(info):
        return ""
    if len(_spellings(info)) > 1 or "\0" in info.orig_filename:
        return "its name has other characters for some readers"
    path = name[:-1] if name.endswith("/") else name
    is_one = paths_in_zip(name) == {path} and "\\" not in name and ":" not in name
    return "" if is_one else "some readers have another path for it"


class _Paths:
    """Where the names of members lead, and which of them lead to one place, or through another member."""

    def __init__(self, infos: Iterable[zipfile.ZipInfo]) -> None:
        self._first: Dict[str, zipfile.ZipInfo] = {}
        self._folded: Dict[str, zipfile.ZipInfo] = {}
        self.same: Set[str] = set()
        self.alike: Set[str] = set()
        self.is_too_many = False
        folders: Set[str] = set()
        others = 0
        for info in infos:
            paths = _paths_for(info)
            others += len(paths) - 1
            if others > MOST_OTHER_PATHS:
                self.is_too_many = True
                return
            if info.is_dir() and not info.file_size:
                folders |= paths
                continue
            for path in paths:
                self._add(path, info)
        self.same |= {self._first[it].filename for it in self._first.keys() & folders}
        self._add_through(sorted(it.replace("/", "\0") for it in chain(self._first, folders)))

    def _add(self, path: str, info: zipfile.ZipInfo) -> None:
        if (other := self._first.setdefault(path, info)) is not info:
            self.same |= {other.filename, info.filename}
        if (other := self._folded.setdefault(folded(path), info)) is not info:
            self.alike |= {other.filename, info.filename}

    def _add_through(self, paths: Sequence[str]) -> None:
        """Adds the members that are folders of others: each path in a folder follows it if they are in order."""
        for path, following in zip(paths, islice(paths, 1, None)):
            if following.startswith(path + "\0") and (info := self._first.get(path.replace("\0", "/"))):
                self.same.add(info.filename)


# ---- all of it


@dataclass(frozen=True)
class Layout:
    """On what of a zip readers may differ."""

    whole: str
    """Why readers may see other members; empty if they do not."""
    same: Dict[str, str]
    """Members whose octets readers may differ on, by their names, with the reason."""
    named: Dict[str, str]
    """Members that some readers have under another name, likewise."""
    apk_block: bytes = b""
    """The APK signing block."""

    @property
    def apk_schemes(self) -> FrozenSet[int]:
        return _schemes_of(self.apk_block)

    def reason(self, name: str) -> str:
        """Returns why readers may differ on a member; empty if they do not."""
        return self.whole or self.same.get(name) or self.named.get(name) or ""


def _odd_members(headers: _Headers, end: End, infos: Sequence[zipfile.ZipInfo]) -> Tuple[str, bytes]:
    """Returns why readers that do not follow the list of members see others, and the APK signing block."""
    in_order = sorted(infos, key=attrgetter("header_offset"))
    last_end = headers.member(in_order[-1]).end if in_order else 0
    block = _apk_block(headers, end, last_end) if in_order else b""
    if headers.has_header(0, in_order[0].header_offset if in_order else end.list_begin):
        return "what lies before its first member", block
    begin = end.list_begin - len(block)
    if block and 0 < begin - last_end < _ALIGNED and not any(headers.read(last_end, begin - last_end)):
        begin = last_end  # apksigner writes zeros before the block
    following = chain((it.header_offset for it in islice(in_order, 1, None)), (begin,))
    for member, begin in zip(map(headers.member, in_order), following):
        if odd := member.odd or headers.odd_end(member, begin):
            return f"{member.info.filename}: {odd}", block
    return "", block


def _apk_block(headers: _Headers, end: End, last_end: int) -> bytes:
    """Returns the APK signing block between the end of the last member and the list of members; nothing if there is none."""
    foot = headers.read(end.list_begin - 24, 24)
    if not foot.endswith(_APK_MAGIC):
        return b""
    octets = struct.unpack_from("<Q", foot)[0] + 8
    if not 32 <= octets <= min(end.list_begin - last_end, _LONGEST_BLOCK):
        return b""
    block = headers.read(end.list_begin - octets, octets)
    return block if _is_apk_block(block) else b""


def layout_of(file: BinaryIO, end: End, infos: Sequence[zipfile.ZipInfo], budget: Budget) -> Layout:
    """Returns on what of a zip readers may differ."""
    headers = _Headers(file, budget)
    odd, block = _odd_members(headers, end, infos)
    whole = "its list of members" if _odd_end(headers, end, infos) else odd
    paths = _Paths(infos)
    if paths.is_too_many:
        return Layout(f"more than {MOST_OTHER_PATHS:,} names of its members", {}, {}, block)
    same = {name: "two members have one name" for name in paths.same}
    for info in infos:
        if kind := _other_kind(info):
            same.setdefault(info.filename, f"it is {kind} for some readers")
    named = {it.filename: why for it in infos if (why := _odd_name(it))}
    named.update({name: "on some file systems two members have one name" for name in paths.alike})
    return Layout(whole, same, named, block)
