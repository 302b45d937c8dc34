"""Of which pieces the DER of a message is put together, and the way back: the octets of a message again, from its DER and an account of them.

An account says how the message differs from its DER. docs/FORMATS.md says what it has, octet by octet. The digests are by `hashlib`.
"""

from __future__ import annotations

import struct
from io import BytesIO
from typing import Iterator, List, NamedTuple, Optional, Tuple

from ._calls import LIMIT, Octets, Refused, called, library, limit_of, octets_of

_PIECE = struct.Struct("=QQQ")  # the place, the length, and 1 if it is made
_MANY = 4096  # pieces for which a first call has room: a message seldom has more

_BEGINNING = b"CMSACCT\x01"  # with the version
_DIGEST = 32  # octets of a SHA-256
_LONGEST_NUMBER = 6  # octets: no number is larger than twice the largest limit and 1
_SHORTEST_COPY = 8  # octets: to say that fewer are copied could take as many


class Piece(NamedTuple):
    """A piece of the DER of a message: octets of the message, or octets that are made."""

    place: int
    """At which octet it begins, from 0: of the message if it is copied, of the DER if it is made."""
    length: int
    """How many octets it has, at least 1."""
    made: bool
    """Whether its octets are made; else they are copied from the message."""

    @property
    def end(self) -> int:
        """At which octet it has ended: its place and its length together."""
        return self.place + self.length

    def octets(self, message: Octets, der: Octets) -> bytes:
        """Returns its octets, from the message or from the DER. Raises `ValueError` if it does not lie in there."""
        octets = memoryview(der if self.made else message).cast("B")
        if not 0 <= self.place <= self.end <= len(octets):
            raise ValueError(f"the piece does not lie in the {len(octets)} octets of {'the DER' if self.made else 'the message'}")
        return bytes(octets[self.place : self.end])


class NotRestored(ValueError):
    """`restore` cannot return the original: the account is damaged or no account, or of another DER, or the original is too long.

    Its text says why, and at which octet of the account, as `not restored: the account is cut off, at octet 40 of the account`.
    """

    __module__ = "cms_canon"  # where users know it from

    why: str
    """What is wrong, as `the account is cut off`."""
    at: Optional[int]
    """At which octet of the account it is wrong, from 0; None if it is not wrong at one octet."""

    def __init__(self, why: str, at: Optional[int] = None) -> None:
        super().__init__(why, at)
        self.why = why
        self.at = at

    def __str__(self) -> str:
        place = "" if self.at is None else f", at octet {self.at} of the account"
        return f"not restored: {self.why}{place}"


def pieces(data: Octets, limit: int = LIMIT) -> List[Piece]:
    """Returns of which pieces the DER of the one message in `data` is put together, in the order of the DER.

    Their octets, one piece after another, are what `convert` returns. Only headers, BOOLEANs and BIT STRINGs with named bits are made,
    if they are not the same in the message beside what is copied. A message that is DER is one piece. An octet of a message may lie in
    several pieces, or in none. Memory is taken in proportion to the number of pieces, some 200 octets for each.

    The message and its DER may have at most `limit` octets (at most 2**40). Raises `Refused` if `data` is no such message, and
    `MemoryError` if memory runs out.
    """
    return [Piece(place, length, made == 1) for place, length, made in _pieces_in(octets_of(data), limit_of(limit))]


def _sha256(octets: bytes) -> bytes:
    from hashlib import sha256  # which takes as long as all of this package

    return sha256(octets).digest()


def account(data: Octets, limit: int = LIMIT) -> bytes:
    """Returns an account of the one message in `data`: octets from which, with the DER of the message, `restore` returns it again.

    It says which octets of the message are those of the DER, and has all others. These are usually a few headers: the account of a message
    whose content is in one piece has some 80 to 150 octets, of which 64 are digests. It seldom has more octets than the message, and never
    many more. The same message has the same account each time. Before it is returned, it is tried by `restore`.

    An account is not signed. Whoever changes one can choose another spelling of the same message, and nothing else.

    The message and its DER may have at most `limit` octets (at most 2**40). Raises `Refused` if `data` is no such message, and
    `MemoryError` if memory runs out.
    """
    octets, most = octets_of(data), limit_of(limit)
    der = _der_of(octets, most)
    head = (_BEGINNING, _sha256(octets), _sha256(der), _number(len(octets)))
    made = b"".join((*head, *_instructions(octets, _copies(octets, most))))
    restore(der, made, most)
    return made


def restore(der: Octets, account: Octets, limit: int = LIMIT) -> bytes:
    """Returns the message of which `account` is an account, octet for octet, from that and from the DER of the message.

    It has the SHA-256 that the account says, and `convert` returns `der` for it. It has at most `limit` octets (at most 2**40), and at most
    as many as `der` and `account` together: an account that says otherwise is not followed.

    Raises `NotRestored` if there is no such message: if the account is damaged or no account, if `der` is not the DER that it was made from,
    or if the message or its DER has more than `limit` octets. Raises `MemoryError` if memory runs out.
    """
    encoding, read, most = octets_of(der, "der"), _Account(octets_of(account, "account")), limit_of(limit)
    of_original, of_der, length = read.head()
    for what, count in (("the original", length), ("the DER", len(encoding))):
        if count > most:
            raise NotRestored(f"{what} has {count} octets, and the limit is {most}")
    if length > len(encoding) + len(read.octets):
        raise NotRestored(f"the original has {length} octets, more than the DER and the account together")
    if _sha256(encoding) != of_der:
        raise NotRestored("the DER is not the one that the account was made from")
    octets = read.given_by(memoryview(encoding), length)
    if _sha256(octets) != of_original:
        raise NotRestored("what comes is not the original: its SHA-256 is another one")
    if not _is_der_of(encoding, octets, most):
        raise NotRestored("what comes is no message that has this DER")
    return octets


def _pieces_in(octets: bytes, limit: int) -> Iterator[Tuple[int, ...]]:
    """The pieces as C has them."""
    return _PIECE.iter_unpack(called(library.cms_canon_pieces, _MANY, octets, len(octets), limit, size=_PIECE.size))


def _der_of(octets: bytes, limit: int) -> bytes:
    return called(library.cms_canon_convert, len(octets) + 64, octets, len(octets), limit)


def _is_der_of(der: bytes, octets: bytes, limit: int) -> bool:
    try:
        return _der_of(octets, limit) == der
    except Refused:
        return False


def _copies(octets: bytes, limit: int) -> List[Tuple[int, int, int]]:
    """What is copied and long enough, in the order of the message: the place there, the length, and the place in the DER."""
    copies, at = [], 0
    for place, length, made in _pieces_in(octets, limit):
        if not made and length >= _SHORTEST_COPY:
            copies.append((place, length, at))
        at += length
    return sorted(copies)


def _instructions(octets: bytes, copies: List[Tuple[int, int, int]]) -> Iterator[bytes]:
    """The instructions that give the octets. An octet that is in two copies is left to the first one."""
    at = 0
    for place, length, in_der in copies:
        given = max(at - place, 0)
        if length - given < _SHORTEST_COPY:
            continue
        if at < place:
            yield _literal(octets[at:place])
        yield _number(2 * (length - given) + 1) + _number(in_der + given)
        at = place + length
    if at < len(octets):
        yield _literal(octets[at:])


def _literal(octets: bytes) -> bytes:
    return _number(2 * len(octets)) + octets


def _number(number: int) -> bytes:
    """A number in LEB128: seven bits in each octet, the lowest ones first, and the highest bit if another octet follows."""
    return bytes((number,)) if number < 0x80 else bytes((number & 0x7F | 0x80,)) + _number(number >> 7)


class _Account:
    """The octets of an account, which are taken one after another."""

    def __init__(self, octets: bytes) -> None:
        self.octets = octets
        self.at = 0

    def head(self) -> Tuple[bytes, bytes, int]:
        """Takes what is before the instructions: the SHA-256 of the original and of the DER, and how many octets the original has."""
        if not self.octets.startswith(_BEGINNING[:-1]):
            raise NotRestored("this is no account: it does not begin with CMSACCT", 0)
        self.at = len(_BEGINNING) - 1
        if (version := self.taken(1)) != _BEGINNING[-1:]:
            raise NotRestored(f"the account is of version {version[0]}, and this release knows version {_BEGINNING[-1]}", self.at - 1)
        return self.taken(_DIGEST), self.taken(_DIGEST), self.number()

    def taken(self, count: int) -> bytes:
        """Takes so many octets."""
        if count > len(self.octets) - self.at:
            raise NotRestored("the account is cut off", len(self.octets))
        self.at += count
        return self.octets[self.at - count : self.at]

    def number(self) -> int:
        """Takes a number."""
        begin, number = self.at, 0
        for count, octet in enumerate(self.octets[begin : begin + _LONGEST_NUMBER]):
            number |= (octet & 0x7F) << 7 * count
            if octet < 0x80:
                if octet == 0 and count > 0:
                    raise NotRestored("a number has more octets than it needs", begin)
                self.at += count + 1
                return number
        self.taken(_LONGEST_NUMBER)
        raise NotRestored(f"a number has more than {_LONGEST_NUMBER} octets", begin)

    def given_by(self, der: memoryview, length: int) -> bytes:
        """Takes the instructions, and returns what they give with this DER: just so many octets."""
        made = BytesIO()
        while (left := length - made.tell()) > 0:
            begin = self.at
            count, is_copied = divmod(self.number(), 2)
            if count == 0:
                raise NotRestored("an instruction gives no octets", begin)
            if count > left:
                raise NotRestored(f"an instruction gives {count} octets, and the original has {left} more", begin)
            if is_copied:
                place = self.number()
                if place + count > len(der):
                    raise NotRestored(f"{count} octets are copied from {place} on, and the DER has {len(der)}", begin)
                made.write(der[place : place + count])
            else:
                made.write(self.taken(count))
        if self.at < len(self.octets):
            raise NotRestored("octets follow the last instruction", self.at)
        return made.getvalue()
