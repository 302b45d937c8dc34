"""Messages in text: blocks of PEM (RFC 7468), and base64 without armour."""

from __future__ import annotations

import binascii
import os
import re
import string
from base64 import b64decode
from typing import Iterator, List, NamedTuple, Optional

import cms_canon

from .found import Class, Due, Found
from .sources import Budget, Source

ENDINGS = (  # of a file that signs or stamps the one with the rest of its name
    *(".p7s", ".p7m", ".p7b", ".pkcs7", ".cms", ".sgn", ".sig", ".asc"),
    *(".tsr", ".tst"),
)
SIGNED = (b"CMS", b"PKCS7", b"PKCS #7 SIGNED DATA", b"SIGNED MESSAGE")  # the last is of gpgsm
MARK = b"\xef\xbb\xbf"  # that some programs write before a text in UTF-8
OPENPGP = b"PGP "  # the labels of OpenPGP begin so
_BEGIN = re.compile(rb"^-----BEGIN ([ -~]{1,64}?)-----[ \t]*\r?$", re.M)
_EMPTY_LINE = re.compile(rb"\n\r?\n")
_SPACE = b" \t\r\n\f\v"
_FIRST = b"M"  # base64 of an octet 30 begins so
_ALPHABET = (string.ascii_letters + string.digits + "+/=").encode() + _SPACE


class Block(NamedTuple):
    """A block of PEM: its label, and what is between its lines."""

    label: bytes
    body: Optional[bytes]


def wanted_by(name: str) -> Optional[str]:
    """Returns the name of the file that one of this name signs or stamps; None if that is not in its name."""
    stem, ending = os.path.splitext(name)
    return stem if stem and ending.lower() in ENDINGS else None


def _blocks_of(octets: bytes, budget: Budget) -> Iterator[Block]:
    """Gives the blocks. One that ends otherwise than it should has no body."""
    at = 0
    while begin := _BEGIN.search(octets, at):
        budget.take_member()
        at = octets.find(b"-----", begin.end())
        is_ended = at >= 0 and octets.startswith(b"-----END " + begin[1] + b"-----", at)
        yield Block(begin[1], _without_headers(octets[begin.end() : at]) if is_ended else None)
        if at < 0:
            return


def blocks_of(octets: bytes, label: bytes) -> List[bytes]:
    """Returns what is in the blocks of PEM with this label, but for those that are damaged."""
    decoded = (_decoded(it.body) for it in _blocks_of(octets, Budget(len(octets))) if it.label == label)
    return [it for it in decoded if it is not None]


def first_block(octets: bytes) -> Optional[Block]:
    """Returns the first block of PEM with the octets that its base64 says, if it is base64; None if there is no block."""
    block = next(_blocks_of(octets, Budget(len(octets))), None)
    return block and block._replace(body=_decoded(block.body))


def _without_headers(body: bytes) -> bytes:
    """Returns what is in a block after its headers, which end at an empty line (RFC 1421), if it has any."""
    end = _EMPTY_LINE.search(body, len(body) - len(body.lstrip()))
    return body[end.end() :] if end and b":" in body[: end.start()] else body


def _decoded(body: Optional[bytes]) -> Optional[bytes]:
    """Returns the octets of base64, in which blanks are; None if it is none. No blank is looked at twice."""
    try:
        return None if body is None else b64decode(body.translate(None, _SPACE), validate=True)
    except (binascii.Error, ValueError):
        return None


def _is_message(octets: Optional[bytes]) -> bool:
    """Whether a block is a message, whatever its label says."""
    try:
        return octets is not None and octets[:1] == b"\x30" and bool(cms_canon.convert(octets))
    except cms_canon.Refused:
        return False


def _candidate(where: str, form: str, octets: Optional[bytes], name: str) -> Found:
    if octets is None:
        return Found(where, form, Class.DAMAGED, 0, note="it is not base64")
    return Found(where, form, Class.MESSAGE, len(octets), octets, wants=wanted_by(name))


def in_pem(octets: bytes, source: Source) -> Iterator[Found]:
    """Gives each message in blocks of PEM: the file itself if it is the only block, which may have text around it."""
    octets = octets[len(MARK) :] if octets.startswith(MARK) else octets
    if b"\n" not in octets:
        octets = octets.replace(b"\r", b"\n")
    blocks: List[Block] = []
    others = set()
    for block in _blocks_of(octets, source.budget):
        if block.label in SIGNED or _is_message(_decoded(block.body)):
            source.budget.take_steps()
            blocks.append(block)
        else:
            others.add(block.label)
    if len(blocks) == 1:
        yield _candidate("", "PEM", _decoded(blocks[0].body), source.name)._replace(due=Due.MESSAGE)
        return
    for number, block in enumerate(blocks):
        yield _candidate(f"block {number}", "PEM", _decoded(block.body), source.name)._replace(due=Due.MESSAGE)
    if blocks:
        yield Found("", "PEM", Class.CONTAINER, source.size)
        return
    is_openpgp = any(label.startswith(OPENPGP) for label in others)
    labels = ", ".join(label.decode("ascii") for label in sorted(others)[:5])
    what = Class.OTHER if is_openpgp else Class.NO_CANDIDATE if others else Class.TEXT
    yield Found("", "OpenPGP" if is_openpgp else "PEM" if others else "text", what, source.size, note=labels)


def in_base64(source: Source) -> Optional[Found]:
    """Returns the message that a file of bare base64 is; None if it is none."""
    head = source.head[len(MARK) :] if source.head.startswith(MARK) else source.head
    if head.lstrip(_SPACE)[:1] != _FIRST or head.translate(None, _ALPHABET):
        return None
    octets = _decoded(source.octets()[len(source.head) - len(head) :])
    return None if octets is None or octets[:1] != b"\x30" else _candidate("", "base64", octets, source.name)
