"""Signed formats that hold no CMS which can be converted: they are named as what they are."""

from __future__ import annotations

import re
import struct
from typing import Dict, Optional

from .found import Class, Found, is_message
from .sources import Source

_OPENPGP_ENDINGS = (".sig", ".gpg", ".pgp", ".asc")
_LENGTH = rb"(?:[\0-\x7f]|\x81.|\x82..|\x83...|\x84....|\x80)"
_TIME_STAMPED_DATA = re.compile(rb"(?s)\x30" + _LENGTH + rb"\x06\x0b\x2a\x86\x48\x86\xf7\x0d\x01\x09\x10\x01\x1f\xa0")
_EVIDENCE_RECORD = re.compile(rb"(?s)\x30" + _LENGTH + rb"\x02\x01\x01\x30" + _LENGTH + rb"(?=\x30" + _LENGTH + rb"\x06)")
_XML_EVIDENCE_RECORD = b"urn:ietf:params:xml:ns:ers"
_XADES = b"http://uri.etsi.org/01903/"
_XML_SIGNATURE, _SIGNATURE_VALUE = b"http://www.w3.org/2000/09/xmldsig#", b"SignatureValue"
_SECURITY = 4  # the number of the data directory of a PE that says where its signatures are
_PE = b"PE\0\0"


def authenticode(source: Source) -> Optional[Found]:
    """Returns what a PE or EFI file is, if it has Authenticode signatures (of which the content is no CMS data)."""
    head = source.head
    if head[:2] != b"MZ" or len(head) < 64:
        return None
    (at,) = struct.unpack_from("<I", head, 60)
    header = (head if at + 264 <= len(head) else source.octets())[at : at + 264]
    if header[:4] != _PE or len(header) < 26:
        return None
    (magic,) = struct.unpack_from("<H", header, 24)
    directory = 24 + (112 if magic == 0x20B else 96) + 8 * _SECURITY
    if len(header) < directory + 8:
        return None
    place, length = struct.unpack_from("<II", header, directory)
    if not place or not length:
        return None
    return Found("", "Authenticode", Class.OTHER, source.size, note=f"{length:,} octets of signatures at {place}")


def openpgp(source: Source) -> Optional[Found]:
    """Returns what a file is if its name and its first octet are those of an OpenPGP signature or signed message (RFC 9580)."""
    if not source.name.lower().endswith(_OPENPGP_ENDINGS) or not source.head or not source.head[0] & 0x80:
        return None
    first = source.head[0]
    tag = first & 0x3F if first & 0x40 else first >> 2 & 0x0F
    return Found("", "OpenPGP", Class.OTHER, source.size) if tag in (2, 4) else None


def in_xml(octets: bytes) -> Optional[Found]:
    """Returns what a text in XML is that has a signature of its own (XMLDSig, XAdES) or is an evidence record (RFC 6283)."""
    if _XML_SIGNATURE in octets and _SIGNATURE_VALUE in octets:
        return Found("", "XAdES" if _XADES in octets else "XML signature", Class.OTHER, len(octets))
    return Found("", "evidence record", Class.OTHER, len(octets), note="in XML") if _XML_EVIDENCE_RECORD in octets else None


def in_asn_1(source: Source) -> Optional[Found]:
    """Returns what a file is that begins as data that are time-stamped (RFC 5544) or as an evidence record (RFC 4998)."""
    if _TIME_STAMPED_DATA.match(source.head):
        return Found("", "TimeStampedData", Class.OTHER, source.size)
    begin = _EVIDENCE_RECORD.match(source.head)
    is_record = begin and not _is_imprint(source.head, begin.end()) and not is_message(source.octets())
    return Found("", "evidence record", Class.OTHER, source.size) if is_record else None


def _is_imprint(octets: bytes, at: int) -> bool:
    """Whether after the algorithm that begins there a digest follows, as in a request, which begins as an evidence record does."""
    length = octets[at + 1]
    more = length & 0x7F if length & 0x80 else 0
    after = at + 2 + more + (int.from_bytes(octets[at + 2 : at + 2 + more], "big") if more else length)
    return octets[after : after + 1] in (b"\x04", b"\x24")


APK_BLOCK = b"APK Sig Block 42"
_APK_SCHEMES: Dict[int, str] = {0x7109871A: "2", 0xF05368C0: "3", 0x1B93AD61: "3.1"}


def apk_block(octets: bytes) -> Optional[Found]:
    """Returns what is signed by the schemes of APK that sign the whole file, if its octets before the list of members end with their block."""
    if not octets.endswith(APK_BLOCK) or len(octets) < 32:
        return None
    length = int.from_bytes(octets[-24:-16], "little")
    at, schemes = max(0, len(octets) - length), []
    while at + 12 <= len(octets) - 24:
        pair, key = int.from_bytes(octets[at : at + 8], "little"), int.from_bytes(octets[at + 8 : at + 12], "little")
        schemes += [_APK_SCHEMES[key]] if key in _APK_SCHEMES else []
        at += 8 + max(pair, 4)
    note = f"scheme {', '.join(schemes)}" if schemes else "no scheme that is known"
    return Found("APK signing block", "APK signing block", Class.OTHER, length + 8, note=note)
