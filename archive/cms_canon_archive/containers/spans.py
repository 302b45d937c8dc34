"""Octets that lie within others, so that parts inside one another take no memory of their own."""

from __future__ import annotations

from typing import Iterator

from .sources import PIECE


class Span:
    """Octets within others, without a copy of them. Its places count from where those others begin."""

    __slots__ = ("whole", "begin", "end")

    def __init__(self, whole: bytes, begin: int, end: int) -> None:
        self.whole = whole
        self.begin = begin
        self.end = end

    @property
    def length(self) -> int:
        """Octets."""
        return self.end - self.begin

    @property
    def view(self) -> memoryview:
        return memoryview(self.whole)[self.begin : self.end]

    def octets(self) -> bytes:
        """Returns a copy."""
        return self.whole[self.begin : self.end]

    def part(self, begin: int, end: int) -> Span:
        """Returns what lies between two places, and nothing if the second is before the first."""
        return Span(self.whole, begin, max(begin, end))

    def lines(self) -> Iterator[bytes]:
        """Gives the octets in pieces of many whole lines, as what replaces something in a piece may take many times its memory."""
        begin = self.begin
        while begin < self.end:
            end = self.whole.find(b"\n", begin + PIECE, self.end) + 1 or self.end
            yield self.whole[begin:end]
            begin = end


def span_of(octets: bytes) -> Span:
    """Returns all of these octets."""
    return Span(octets, 0, len(octets))
