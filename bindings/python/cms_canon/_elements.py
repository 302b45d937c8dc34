"""Elements in DER, as far as they are looked into in Python."""

from __future__ import annotations

from typing import Iterator, NamedTuple


class Element(NamedTuple):
    """An element of X.690: its identifier, its contents octets, and all its octets."""

    identifier: int
    contents: bytes
    octets: bytes


def elements_of(octets: bytes) -> Iterator[Element]:
    """Gives the elements in DER, one after another, whose identifiers are one octet. Raises `ValueError` if that is not what they are."""
    at = 0
    while at < len(octets):
        identifier, length = octets[at : at + 2]
        begin = at + 2
        if length >= 0x80:
            begin += length - 0x80
            digits = octets[at + 2 : begin]
            length = int.from_bytes(digits, "big")
            if length < 0x80 or digits[0] == 0:
                raise ValueError("not a length in DER")
        end = begin + length
        if identifier & 0x1F == 0x1F or end > len(octets):
            raise ValueError("not an element in DER")
        yield Element(identifier, octets[begin:end], octets[at:end])
        at = end
