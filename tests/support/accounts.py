"""Accounts of messages, read and written by the text of docs/FORMATS.md alone: this shares nothing with the Python package."""

from hashlib import sha256
from typing import NamedTuple, Tuple

HEAD = b"CMSACCT"
VERSION = 1
SHORTEST = 8  # octets that are copied


class Wrong(Exception):
    """The octets are no account, or not one of this DER."""


class Literal(NamedTuple):
    octets: bytes

    def gives(self, der):
        return self.octets


class Copy(NamedTuple):
    place: int
    count: int

    def gives(self, der):
        if self.place + self.count > len(der):
            raise Wrong("past the end of the DER")
        return der[self.place : self.place + self.count]


class Account(NamedTuple):
    of_message: bytes
    of_der: bytes
    length: int
    instructions: Tuple

    def message(self, der):
        """Returns the message, from its DER."""
        if sha256(der).digest() != self.of_der:
            raise Wrong("another DER")
        octets = b"".join(it.gives(der) for it in self.instructions)
        if sha256(octets).digest() != self.of_message:
            raise Wrong("another message")
        return octets

    def written(self):
        parts = [HEAD, bytes([VERSION]), self.of_message, self.of_der, number(self.length), *map(instruction, self.instructions)]
        return b"".join(parts)


def account_of(octets, der, pieces):
    """Returns the account that is to be made of a message, from the pieces of its DER as assembly.py has them."""
    copied, at = [], 0
    for piece in pieces:
        is_made = isinstance(piece, bytes)
        count = len(piece) if is_made else piece[1] - piece[0]
        copied += [] if is_made else [(piece[0], count, at)]
        at += count
    instructions, done = [], 0
    for begin, count, place in sorted(it for it in copied if it[1] >= SHORTEST):
        end = begin + count
        begin = max(begin, done)
        if end - begin >= SHORTEST:
            instructions += [Literal(octets[done:begin])] * (begin > done) + [Copy(place + count - (end - begin), end - begin)]
            done = end
    instructions += [Literal(octets[done:])] * (done < len(octets))
    return Account(sha256(octets).digest(), sha256(der).digest(), len(octets), tuple(instructions))


def number(value):
    groups = [value >> shift & 0x7F for shift in range(0, max(value.bit_length(), 1), 7)]
    return bytes([*(it | 0x80 for it in groups[:-1]), groups[-1]])


def instruction(it):
    if isinstance(it, Copy):
        return number(it.count << 1 | 1) + number(it.place)
    return number(len(it.octets) << 1) + it.octets


def number_in(octets):
    """Returns the number at the beginning, and the octets after it."""
    end = next((at for at, octet in enumerate(octets[:6], 1) if octet < 0x80), None)
    if end is None:
        raise Wrong("a number does not end")
    value = sum((octet & 0x7F) << 7 * at for at, octet in enumerate(octets[:end]))
    if number(value) != octets[:end]:
        raise Wrong("a number is longer than it needs")
    return value, octets[end:]


def cut(octets, count):
    if len(octets) < count:
        raise Wrong("it ends too early")
    return octets[:count], octets[count:]


def instruction_in(octets):
    """Returns the instruction at the beginning, how many octets it gives, and the octets after it."""
    value, rest = number_in(octets)
    count = value >> 1
    if not count:
        raise Wrong("it gives nothing")
    if value & 1:
        place, rest = number_in(rest)
        return Copy(place, count), count, rest
    given, rest = cut(rest, count)
    return Literal(given), count, rest


def account_in(octets):
    """Returns the account, or raises `Wrong`."""
    head, rest = cut(octets, len(HEAD) + 1)
    if head != HEAD + bytes([VERSION]):
        raise Wrong("it begins otherwise")
    (of_message, rest), instructions = cut(rest, 32), []
    of_der, rest = cut(rest, 32)
    left, rest = number_in(rest)
    length = left
    while left > 0:
        it, count, rest = instruction_in(rest)
        instructions.append(it)
        left -= count
    if left < 0 or rest:
        raise Wrong("it gives more, or something follows")
    return Account(of_message, of_der, length, tuple(instructions))
