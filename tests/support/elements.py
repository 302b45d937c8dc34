"""Elements of BER (X.690, 8.1), for tests and measurements: one writer, whose identifiers are one octet, and one reader."""

from typing import List, NamedTuple, Tuple

CONSTRUCTED = 0x20
ID_SIGNED_DATA = bytes.fromhex("06092a864886f70d010702")
ID_CT_TST_INFO = bytes.fromhex("060b2a864886f70d0109100104")
INDEFINITE = 0x80
LONG_TAG = 0x1F  # in the first octet of an identifier that has more of them


def length(count: int) -> bytes:
    if count < 0x80:
        return bytes([count])
    octets = count.to_bytes((count.bit_length() + 7) // 8, "big")
    return bytes([0x80 + len(octets)]) + octets


def header(identifier: int, count: int) -> bytes:
    """Returns the header in DER of an element with so many contents octets."""
    return bytes([identifier]) + length(count)


def element(identifier: int, *contents: bytes) -> bytes:
    """Returns the element in DER with these contents, one after another."""
    octets = b"".join(contents)
    return header(identifier, len(octets)) + octets


def oid(dotted: str) -> bytes:
    """Returns an OBJECT IDENTIFIER in DER. One with a number of 64 bits or more may be given as `hex:` and its contents."""
    if dotted.startswith("hex:"):
        return element(0x06, bytes.fromhex(dotted[4:]))
    first, second, *rest = map(int, dotted.split("."))
    contents = b""
    for number in (40 * first + second, *rest):
        octets = [number & 0x7F]
        while number := number >> 7:
            octets.append(0x80 | number & 0x7F)
        contents += bytes(reversed(octets))
    return element(0x06, contents)


def message(*fields: bytes) -> bytes:
    """Returns the ContentInfo in DER of a SignedData with these fields."""
    return element(0x30, ID_SIGNED_DATA, element(0xA0, element(0x30, *fields)))


def token_around(content: bytes) -> bytes:
    """Returns a token in DER without signers that has this content as a TSTInfo."""
    return message(b"\x02\x01\x03\x31\x00", element(0x30, ID_CT_TST_INFO, element(0xA0, element(0x04, content))), b"\x31\x00")


class Element(NamedTuple):
    """An element of BER: its first octet, its contents without the `00 00` at their end, its members, and all its octets."""

    identifier: int
    contents: bytes
    members: List["Element"]
    octets: bytes
    is_indefinite: bool


def _header_at(octets: bytes, begin: int) -> Tuple[int, int]:
    """Returns where the contents of an element begin, and how many there are, or INDEFINITE as a negative number."""
    at = begin + 1
    if octets[begin] & LONG_TAG == LONG_TAG:
        at = next(it for it in range(at, len(octets)) if octets[it] < 0x80) + 1
    count, at = octets[at], at + 1
    if count == INDEFINITE:
        return at, -1
    if count > INDEFINITE:
        begin, at = at, at + count - INDEFINITE
        count = int.from_bytes(octets[begin:at], "big")
    return at, count


def element_at(octets: bytes, begin: int = 0) -> Element:
    """Returns the element that begins there, with those in it."""
    identifier, (at, count) = octets[begin], _header_at(octets, begin)
    contents_at, end, members = at, at + count, []
    is_indefinite = count < 0
    if identifier & CONSTRUCTED:
        while octets[at : at + 2] != b"\0\0" if is_indefinite else at < end:
            members.append(element_at(octets, at))
            at += len(members[-1].octets)
        end = at
    after = end + 2 if is_indefinite else end
    return Element(identifier, octets[contents_at:end], members, octets[begin:after], is_indefinite)


def flipped(octets: bytes, at: int = -1) -> bytes:
    """Returns the octets with a bit of one of them changed, the last one if none is named."""
    changed = bytearray(octets)
    changed[at] ^= 1
    return bytes(changed)


def contents_of(octets: bytes) -> bytes:
    """Returns the contents of the first element, which has a definite length."""
    at, count = _header_at(octets, 0)
    return octets[at : at + count]
