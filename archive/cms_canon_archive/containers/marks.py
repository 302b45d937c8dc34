"""Formats that are not looked into, and are named by their marks: at the beginning, at a fixed place, inside a program, or at the end of a file.

Most marks are those of the list of `file`. A file is searched only if it is a program or a text.
"""

from __future__ import annotations

import re
from typing import Iterator, NamedTuple, Optional, Pattern, Tuple

from .found import Class, Found
from .sources import Source, TooLarge

_OLE = b"\xd0\xcf\x11\xe0\xa1\xb1\x1a\xe1"
_APPLE = (b"\xcf\xfa\xed\xfe", b"\xce\xfa\xed\xfe", b"\xfe\xed\xfa\xcf", b"\xfe\xed\xfa\xce", b"\xca\xfe\xba\xbe\0\0\0")  # the last is of Java too
_PROGRAMS = (b"MZ", b"\x7fELF", b"#!", *_APPLE)
_OLE_ENDINGS = {".msi": "MSI", ".msp": "MSI", ".msg": "Outlook message"}
_ISO_AT, _ISO = 0x8001, (b"CD001", b"BEA01", b"NSR02", b"NSR03")
_DISK_IMAGE_AT, _DISK_IMAGE = -512, b"koly"
_MODULE_END = b"~Module signature appended~\n"
_APPLE_SIGNATURE = b"\xfa\xde\x0c\xc0"
_INSIDE = {  # a program that extracts itself
    "7z": re.compile(rb"7z\xbc\xaf\x27\x1c\0"),
    "RAR": re.compile(rb"Rar!\x1a\x07\x01?\0"),
    "cab": re.compile(rb"(?s)MSCF\0{4}.{16}\x03\x01"),
}
_ZIP_END = b"PK\x05\x06"
_END_OF_ZIP = re.compile(rb"(?s)PK\x05\x06.{8}(....)(....)(..)")
_LONGEST_END = 22 + 0xFFFF  # octets of the end of a zip, with its comment
_PACKED_IN_SCRIPT = re.compile(rb"\n(?:\x1f\x8b\x08|BZh[1-9]1AY&SY|\xfd7zXZ\0|\x28\xb5\x2f\xfd|\x5d\0\0[\0-\xff]{2}\xff{8})")
_BEGIN_OF_JSON = 256  # octets in which blanks may lie before it
_HEADS = 1 << 16  # octets of a text in which the headers of a mail are looked for
_MAIL = re.compile(rb"^content-type[ \t]*:\s*(?:multipart/signed|application/(?:x-)?pkcs7-(?:mime|signature))", re.M)
_SIGNED_MAIL, _MAIL_WITH_MESSAGE = b"multipart/signed", b"pkcs7-"
_EMLX = re.compile(rb"[0-9]{1,10}[ \t]*\r?\n[!-9;-~]+[ \t]*:")
_COMPACT_JWS = re.compile(rb"eyJ[\w-]+\.[\w-]*\.[\w-]+\s*\Z", re.A)


class Mark(NamedTuple):
    """How files of a format begin: octets, and what a pattern says of what follows these."""

    form: str
    begin: bytes
    rest: Pattern[bytes]


def _mark(form: str, begin: bytes, rest: bytes = b"") -> Mark:
    return Mark(form, begin, re.compile(rest, re.S))


_MARKS = (
    *(_mark("7z", b"7z\xbc\xaf\x27\x1c"), _mark("RAR", b"Rar!\x1a\x07"), _mark("cab", b"MSCF")),
    *(_mark("deb", b"!<arch>\ndebian-binary"), _mark("ar", b"!<arch>\n"), _mark("RPM", b"\xed\xab\xee\xdb"), _mark("xar", b"xar!")),
    *(_mark("cpio", b"0707", rb"0[12][0-9A-Fa-f]{104}|07[0-7]{70}"), _mark("cpio", b"\xc7\x71", rb".{18}[\2-\xff][\0-\3]")),
    *(_mark("compress", b"\x1f\x9d", rb"[\x09-\x10\x89-\x90]"), _mark("lzip", b"LZIP\1"), _mark("lzop", b"\x89LZO\0\r\n\x1a\n"), _mark("lrzip", b"LRZI")),
    *(_mark("LZ4", b"\x04\x22\x4d\x18"), _mark("LZ4", b"\x02\x21\x4c\x18"), _mark("LZMA", b"\x5d\0\0", rb"..(?:\xff{8}|.{5}\0{3})")),
    *(_mark("WARC", b"WARC/"), _mark("FDF", b"%FDF-"), _mark("ARJ", b"\x60\xea", rb".[\0-\x0a]"), _mark("CRX", b"Cr24"), _mark("WIM", b"MSWIM\0\0\0")),
    *(_mark("TNEF", b"\x78\x9f\x3e\x22"), _mark("Outlook folder", b"!BDN"), _mark("Outlook Express folder", b"\xcf\xad\x12\xfe")),
    *(_mark("SquashFS", b"hsqs"), _mark("CHM", b"ITSF"), _mark("VHDX", b"vhdxfile"), _mark("VMDK", b"KDMV"), _mark("QCOW", b"QFI\xfb")),
)
_IN_HEAD = (("LHA", 2, b"-lh"), ("ACE", 7, b"**ACE**"))
BEGINNINGS = (_OLE, *(it.begin for it in _MARKS))
_BY_FIRST = {it.begin[0]: [other for other in _MARKS if other.begin[0] == it.begin[0]] for it in _MARKS}


def _named(form: str, size: int, what: Class = Class.NOT_LOOKED_INTO, note: str = "") -> Found:
    return Found("", form, what, size, note=note)


def by_beginning(source: Source) -> Optional[Found]:
    """Returns what a file is by how it begins."""
    head = source.head
    for mark in _BY_FIRST.get(head[0], ()) if head else ():
        if head.startswith(mark.begin) and mark.rest.match(head, len(mark.begin)):
            return _named(mark.form, source.size)
    return _named(_OLE_ENDINGS.get(source.name.lower()[-4:], "OLE document"), source.size) if head.startswith(_OLE) else None


def in_program(source: Source) -> Optional[Found]:
    """Returns what a program is that is signed, in which an archive lies, or which has more octets than are read as a whole."""
    if not source.head.startswith(_PROGRAMS):
        return None
    try:
        return _in_octets(source.octets())
    except TooLarge as why:
        is_zip = ends_as_zip(source.tail(_LONGEST_END), source.size)
        return _named("self-extracting zip" if is_zip else "large program", source.size, note=str(why))


def _in_octets(octets: bytes) -> Optional[Found]:
    if octets.endswith(_MODULE_END):
        return _named("signature of a kernel module", len(octets), Class.OTHER)
    if octets.startswith(_APPLE) and _APPLE_SIGNATURE in octets:
        return _named("signature of a program of Apple", len(octets), Class.OTHER)
    form = next((form for form, mark in _INSIDE.items() if mark.search(octets)), "zip" if ends_as_zip(octets) else "")
    return _named(f"self-extracting {form}", len(octets)) if form else _in_script(octets)


def _in_script(octets: bytes) -> Optional[Found]:
    is_packed = octets.startswith(b"#!") and _PACKED_IN_SCRIPT.search(octets)
    return _named("self-extracting archive", len(octets)) if is_packed else None


def _ends_of_zip(octets: bytes, size: int) -> Iterator[Tuple[int, int]]:
    """Gives where the end of a zip begins, and where its comment ends, in the last octets of a file of this size."""
    begin = max(0, len(octets) - _LONGEST_END)
    for end in _END_OF_ZIP.finditer(octets, begin):
        length, at, comment = (int.from_bytes(number, "little") for number in end.groups())
        if length and length + at <= size:
            yield end.start(), end.end() + comment


def _has_mark_of_end(octets: bytes) -> bool:
    """Whether the mark of the end of a zip is among the last octets. This is much faster than a search by a pattern."""
    return octets.find(_ZIP_END, max(0, len(octets) - _LONGEST_END)) >= 0


def ends_as_zip(octets: bytes, size: Optional[int] = None) -> bool:
    """Whether the end of a zip lies at the end of a file, of which these are the last octets, or all if it has no other size."""
    return _has_mark_of_end(octets) and any(_ends_of_zip(octets, len(octets) if size is None else size))


def pdf_ends_as_zip(octets: bytes) -> bool:
    """Whether the end of a zip lies after a PDF, or has the end of the PDF in its comment: that of an attachment does not."""
    if not _has_mark_of_end(octets):
        return False
    ends = list(_ends_of_zip(octets, len(octets)))
    last = octets.rfind(b"startxref") if ends else 0
    return any(begin > last or end == len(octets) for begin, end in ends)


def elsewhere(source: Source) -> Optional[Found]:
    """Returns what a file is that is no text by marks at fixed places, and at its end. What is read forward cannot be read again."""
    form = next((form for form, at, mark in _IN_HEAD if source.head.startswith(mark, at)), None)
    if form:
        return _named(form, source.size)
    begin, end = source.ends(_ISO_AT + 5, _LONGEST_END)
    if begin.startswith(_ISO, _ISO_AT):
        return _named("ISO 9660 or UDF", source.size)
    if end is None:
        return _named("file", source.size, Class.NO_CANDIDATE, "it is so large that its end was not looked at")
    if end[_DISK_IMAGE_AT:].startswith(_DISK_IMAGE):
        return _named("disk image of Apple", source.size)
    return _named("zip after something else", source.size) if ends_as_zip(end, source.size) else None


def in_text(octets: bytes) -> Optional[Found]:
    """Returns what a text is in which an archive lies, or which is signed."""
    if ends_as_zip(octets):
        return _named("self-extracting zip", len(octets))
    if octets.startswith(b"#!"):
        return _in_script(octets)
    if octets.startswith(b"untrusted comment:"):
        return _named("minisign or signify", len(octets), Class.OTHER)
    is_json = octets[:_BEGIN_OF_JSON].lstrip().startswith(b"{")
    if is_json and b'"protected"' in octets and b'"signature' in octets or octets.startswith(b"eyJ") and _COMPACT_JWS.match(octets):
        return _named("JWS", len(octets), Class.OTHER, "as JAdES has it")
    return None


def mail_in_text(octets: bytes) -> Optional[Found]:
    """Returns what a text is in which a signed mail lies after something else."""
    if _EMLX.match(octets):
        return _named("emlx", len(octets))
    begin = octets[:_HEADS].lower()
    is_mail = (_SIGNED_MAIL in begin or _MAIL_WITH_MESSAGE in begin) and _MAIL.search(begin)
    return _named("mail after something else", len(octets)) if is_mail else None
