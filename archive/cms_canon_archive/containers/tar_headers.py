"""Whether all readers of a tar read the same in a header. What `tarfile` takes in another way than GNU tar or libarchive is odd."""

from __future__ import annotations

import re
import tarfile
from typing import Dict, Iterator, Tuple

LINKS = (tarfile.LNKTYPE, tarfile.SYMTYPE)
_WITHOUT_OCTETS = (*LINKS, tarfile.DIRTYPE, tarfile.CHRTYPE, tarfile.BLKTYPE, tarfile.FIFOTYPE)
_LONG = (tarfile.GNUTYPE_LONGNAME, tarfile.GNUTYPE_LONGLINK)
_OF_ALL = tarfile.XGLTYPE
_NUMBER = re.compile(rb"[ 0]*[0-7]*[ \0]*")
_WITHOUT_ROOM = 8**11  # octets of a member of which its own header cannot say the size in octal digits
_LARGE = 0x80  # how a number in base 256 begins
_PREFIX = slice(345, 500)
_POSIX, _GNU, _OLD = b"ustar\x0000", b"ustar  \0", bytes(8)
_RECORD = re.compile(rb"([1-9][0-9]{0,7}) ([^=]+)=")
_NAMES = ("path", "linkpath", "size")
_PLAIN_KEYS = {*_NAMES, "atime", "ctime", "mtime", "uid", "gid", "uname", "gname", "comment"}
_PLAIN_KEY = re.compile(r"(?:SCHILY\.(?:xattr|acl|dev|ino|nlink|fflags)|LIBARCHIVE\.(?:xattr|creationtime|symlinktype))\b")


def _is_number(field: bytes) -> bool:
    return field[0] == _LARGE or field[0] < _LARGE and _NUMBER.fullmatch(field) is not None


def _is_name(field: bytes) -> bool:
    """Whether nothing follows the name in a field that some take for more of it."""
    return not field.rstrip(b"\0").count(b"\0")


def is_odd(header: bytes) -> bool:
    """Whether readers may differ on what a header of 512 octets says."""
    kind, magic = header[156:157], header[257:265]
    if magic not in (_POSIX, _GNU, _OLD) or not _is_number(header[124:136]) or not _NUMBER.fullmatch(header[148:156]):
        return True
    if not _is_name(header[:100]) or not _is_name(header[157:257]) or magic != _POSIX and any(header[_PREFIX]):
        return True
    if kind.isupper() and kind not in _LONG:  # of GNU tar, which does not take it for a file
        return True
    if kind in _WITHOUT_OCTETS:
        return header[124:136].strip(b" 0\0") != b""
    name = header[:100].rstrip(b"\0")
    return not _is_name(header[_PREFIX]) or not name or name.endswith(b"/")


def _records_of(octets: bytes) -> Iterator[Tuple[str, bytes]]:
    """Gives the values of an extended header. Raises `ValueError` if it is not made of records alone."""
    at = 0
    while at < len(octets):
        begin = _RECORD.match(octets, at)
        end = at + int(begin[1]) if begin else at
        if begin is None or end > len(octets) or end <= begin.end() or octets[end - 1 : end] != b"\n":
            raise ValueError("no record")
        yield begin[2].decode("utf-8"), octets[begin.end() : end - 1]
        at = end


def _is_plain_value(key: str, value: bytes) -> bool:
    if key == "size":
        return re.fullmatch(rb"[0-9]{1,18}", value) is not None
    if key not in _PLAIN_KEYS:
        return _PLAIN_KEY.match(key) is not None
    value.decode("utf-8")
    return bool(value) and b"\0" not in value if key in _NAMES else True


def _names_of(kind: bytes, octets: bytes) -> Dict[str, bytes]:
    """Returns what a header of this kind says of the name, the target and the size of the next member, as far as it can be read."""
    if kind in _LONG:
        return {"path" if kind == tarfile.GNUTYPE_LONGNAME else "linkpath": octets.rstrip(b"\0")}
    found: Dict[str, bytes] = {}
    try:
        found.update((key, value) for key, value in _records_of(octets) if key in _NAMES)
    except ValueError:  # for which it is odd
        pass
    return found


def suit(kind: bytes, octets: bytes, member: tarfile.TarInfo, own_size: int) -> bool:
    """Whether what a header of this kind says is usual for the member that follows it: only folders end in a slash, and only files have a size, which
    is the one that their own header says, if this has room for it."""
    said = _names_of(kind, octets)
    is_named_well = member.isdir() or not said.get("path", b"").endswith(b"/")
    if not (size := said.get("size", b"")).isdigit():
        return is_named_well
    if member.type in _WITHOUT_OCTETS:
        return is_named_well and not int(size)
    return is_named_well and (int(size) == own_size or int(size) >= _WITHOUT_ROOM)


def are_odd_values(kind: bytes, octets: bytes) -> bool:
    """Whether readers may differ on the values that a header of this kind has for the next member, or for all."""
    if kind in _LONG:
        return not octets or not _is_name(octets)
    try:
        seen: Dict[str, bytes] = {}
        for key, value in _records_of(octets):
            if key in seen or not _is_plain_value(key, value) or kind == _OF_ALL and key in _NAMES:
                return True
            seen[key] = value
    except ValueError:
        return True
    return False
