"""The one DER encoding of a CMS signed message, or of a request or a response of time-stamping, and what is in it.

    der = cms_canon.convert(message)
    ders = [*cms_canon.convert_many([message, message])]
    text = cms_canon.show(message)
    is_same = cms_canon.same(message, der)
    findings = cms_canon.check(message)
    covered = cms_canon.cover(message, signer=0)
    account = cms_canon.account(message)
    is_back = cms_canon.restore(der, account) == message

`read` returns what is in it as an object:

    signed = cms_canon.read(message)
    for signer in signed.signers:
        print(signer.digest_algorithm.name, signer.issuer, signer.serial_number, signer.signature)
        print([attribute.name for attribute in signer.signed_attributes or ()], signer.covered(content))
    print(signed.kind, signed.content_type, signed.certificates, signed.to_json())

A call works in this process, by the library that the package contains. It lets other threads run meanwhile.
"""

from __future__ import annotations

import ctypes
from collections.abc import Coroutine
from functools import cached_property
from typing import Any, Callable, Iterable, Iterator, List, NamedTuple, Optional, Sequence, Tuple, Union

from cms_canon import _calls
from cms_canon._calls import LIMIT, Around, Octets, Refused
from cms_canon._changes import Change, changes, list_changes
from cms_canon._documents import Document, asked_by, is_in_memory, joined, optional_digests_of
from cms_canon._fields import (
    Accuracy,
    AlgorithmIdentifier,
    Attribute,
    Message,
    MessageImprint,
    SignedData,
    SignerInfo,
    TimeStampReq,
    TimeStampResp,
    TstInfo,
    read,
)
from cms_canon._restoring import NotRestored, Piece, account, pieces, restore
from cms_canon._texts import FINDINGS

try:
    from cms_canon._version import __version__  # of the release, which the build writes
except ImportError:  # a copy of the sources that was not built
    __version__ = "unknown"

__all__ = [
    "LIMIT",
    "Accuracy",
    "AlgorithmIdentifier",
    "Around",
    "Attribute",
    "Change",
    "Document",
    "Finding",
    "Job",
    "Message",
    "MessageImprint",
    "NotRestored",
    "Octets",
    "Piece",
    "Refused",
    "SignedData",
    "SignerInfo",
    "TimeStampReq",
    "TimeStampResp",
    "TstInfo",
    "Verifier",
    "__version__",
    "account",
    "changes",
    "check",
    "convert",
    "convert_many",
    "cover",
    "list_changes",
    "pieces",
    "read",
    "restore",
    "same",
    "show",
]



def __dir__() -> List[str]:
    return [*__all__]


_TRUNCATED = 1  # the reason of E1
_LISTING = 8192  # octets of room for a first call
_BAD, _UNKNOWN = 17, 18  # the findings that are the verdicts of a verifier


def convert(data: Octets, limit: int = LIMIT) -> bytes:
    """Returns the DER of the one message in `data`, of which neither may have more than `limit` octets (at most 2**40).

    Raises `Refused` if `data` is no such message, and `MemoryError` if memory runs out.
    """
    octets = _calls.octets_of(data)
    return _calls.called(_calls.library.cms_canon_convert, len(octets) + 64, octets, len(octets), _calls.limit_of(limit))


def convert_many(chunks: Iterable[Octets], limit: int = LIMIT) -> Iterator[bytes]:
    """Yields the DER of each message in `chunks`, in turn, as soon as all of the message has come.

    The chunks are the octets of messages that come one right after the other, and may be cut anywhere: the pieces of a file, as
    `iter(lambda: file.read(65536), b"")`, those of a socket, or a list of messages. If there is no octet, nothing is yielded. A
    message and its DER may have at most `limit` octets each; how many messages there are is not limited. What is kept in memory is
    one chunk, its DER, and the part of a message that came before it.

    Raises `Refused` with the `number` of the message and the octet at which it `begins` if one is refused, after the DER of all
    messages before it. A message that is cut at the end of all chunks is refused by E1. Raises `MemoryError` if memory runs out.
    """
    return _each_converted(chunks, _calls.limit_of(limit))


def _each_converted(chunks: Iterable[Octets], limit: int) -> Iterator[bytes]:
    kept, extent, done, begins = bytearray(), _calls.Extent(), 0, 0
    for chunk in chunks:
        octets: Union[bytes, bytearray] = _calls.octets_of(chunk, "a chunk")
        # The library reads a message from its beginning in each call. A message that began in a chunk before is asked for once all of it
        # has come, and not at each chunk, which would take time in proportion to the square of its length.
        if kept:
            kept += octets
            if _is_missing_octets(kept, limit, extent):
                continue
            octets = kept
        outcome, messages, read, ders = _converted(octets, limit)
        yield from _elements(ders, messages)
        done, begins = done + messages, begins + read
        if outcome.status == _calls.REFUSED and outcome.reason != _TRUNCATED:
            raise _calls.error_of(outcome, bytes(memoryview(octets)[read : read + outcome.at + _LISTING]), number=done, begins=begins)
        if read < len(octets):
            kept, extent = bytearray(memoryview(octets)[read:]), _calls.Extent()
        else:
            kept.clear()
    outcome, messages, read, ders = _converted(kept or b"", limit)
    yield from _elements(ders, messages)
    if outcome.status == _calls.REFUSED:
        raise _calls.error_of(outcome, bytes(memoryview(kept)[read:]), number=done + messages, begins=begins + read)


def _is_missing_octets(octets: bytearray, limit: int, extent: _calls.Extent) -> bool:
    """Whether the element that the octets begin with is not whole. The extent is that of the call before, with fewer of these octets."""
    _calls.library.cms_canon_extent(ctypes.c_char_p(_address_of(octets)), len(octets), limit, extent)
    if extent.reach == _calls.UNKNOWN:
        raise MemoryError("out of memory")
    return bool(extent.reach == _calls.MORE)


def _address_of(octets: Union[bytearray, memoryview], at: int = 0) -> int:
    """Where the octets lie from `at` on, until their number changes."""
    return ctypes.addressof(ctypes.c_char.from_buffer(octets, at))


def _elements(ders: memoryview, count: int) -> Iterator[bytes]:
    """The elements in DER, one after another."""
    if count == 1:
        yield bytes(ders)
        return
    at = 0
    while at < len(ders):
        extent = _calls.Extent()
        _calls.library.cms_canon_extent(ctypes.c_char_p(_address_of(ders, at)), len(ders) - at, len(ders), extent)
        if extent.reach == _calls.UNKNOWN:
            raise MemoryError("out of memory")
        assert extent.reach == _calls.WHOLE
        yield bytes(ders[at : at + extent.end])
        at += extent.end


def _converted(octets: Union[bytes, bytearray], limit: int) -> Tuple[_calls.Outcome, int, int, memoryview]:
    """What becomes of the messages at the beginning of these octets: how many there are, the octets that they have, and their DER.

    A `bytearray` is not copied: no other thread may have it.
    """
    many, room = _calls.Many(), len(octets) + 64
    outcome = many.outcome
    handed = ctypes.c_char_p(_address_of(octets)) if isinstance(octets, bytearray) else octets
    while True:
        output = bytearray(room)
        _calls.library.cms_canon_convert_many(handed, len(octets), limit, _address_of(output), room, many)
        status = outcome.status
        if status != _calls.ROOM_TOO_SMALL:
            break
        room = outcome.octets
    if status not in (_calls.DONE, _calls.REFUSED):
        raise _calls.error_of(outcome, None)
    return outcome, many.messages, many.read, memoryview(output)[: outcome.octets]


def show(data: Octets, limit: int = LIMIT) -> str:
    """Returns the listing of the one message in `data`, as the command `show` writes it: a line for each of its parts.

    The message and its DER may have at most `limit` octets. Raises `Refused` if `data` is no such message, and `MemoryError` if
    memory runs out.
    """
    octets = _calls.octets_of(data)
    return _calls.called(_calls.library.cms_canon_show, _LISTING, octets, len(octets), _calls.limit_of(limit)).decode("utf-8")


def same(first: Octets, second: Octets, limit: int = LIMIT) -> bool:
    """Returns whether the message in `first` and the one in `second` are the same: whether they have the same DER.

    Each message and its DER may have at most `limit` octets. Raises `Refused` if one of the two is no such message, and says which;
    and `MemoryError` if memory runs out.
    """
    one, other = _calls.octets_of(first, "first"), _calls.octets_of(second, "second")
    outcome = _calls.Outcome()
    _calls.library.cms_canon_same(one, len(one), other, len(other), _calls.limit_of(limit), outcome)
    if outcome.status in (_calls.DONE, _calls.DIFFERENT):
        return bool(outcome.status == _calls.DONE)
    raise _calls.error_of(outcome, other if outcome.octets == 2 else one, message=outcome.octets)


def cover(
    data: Octets,
    signer: Optional[int] = None,
    content: Optional[Octets] = None,
    limit: int = LIMIT,
    *,
    path: Optional[Sequence[int]] = None,
) -> bytes:
    """Returns the octets that a signature covers in the one message in `data` (RFC 5652, sections 5.4 and 11.4).

    `signer` is the number of the signer in the order read, from 0; of a response of time-stamping, in its token. For a
    countersignature give `path` instead: the number of the signer, and after it that of a countersignature of the one before,
    and so on, each from 0 in the order read through all countersignature attributes of the one before. So `path=[0]` is
    `signer=0`, and `path=[0, 1]` the second countersignature of that signer. A countersignature without signed attributes covers
    the value octets of the signature that it signs.

    If the signer has signed attributes, the signature covers these and not the content. A verifier must also compare the digest of
    the content with the attribute message-digest; `cover` does not do it, and `check` does.

    `content` is the content of a detached signature. It is not used if the signer has signed attributes, or if the message has
    content of its own. The message and its DER may have at most `limit` octets; `content` is not limited.

    Raises `Refused` if `data` is no such message, or if there is no such signer or countersignature or no content, and
    `MemoryError` if memory runs out.
    """
    octets, given = _calls.octets_of(data), _calls.octets_of(b"" if content is None else content, "content")
    numbers = _path_of(signer, path)
    room = len(octets) + len(given) + 1
    words = (octets, len(octets), numbers, len(numbers) - 1, given, len(given), content is not None, _calls.limit_of(limit))
    return _calls.called(_calls.library.cms_canon_cover, room, *words)


class Finding(NamedTuple):
    """A rule of the standards that a message breaks. Its text is the line of the command, as `F7 signer 0 message digest differs`."""

    code: int
    """1 to 19 for F1 to F19."""
    signer: Optional[int]
    """The number of the signer that breaks it, in the order read, from 0; None for a rule for the message."""

    def __str__(self) -> str:
        signer = "" if self.signer is None else f" signer {self.signer}"
        text = f" {FINDINGS[self.code - 1]}" if 1 <= self.code <= len(FINDINGS) else ""  # no rule of this version has another code
        return f"F{self.code}{signer}{text}"


class Job:
    """What a verifier is asked: whether `signature` is right for the octets that it covers (RFC 5652, section 5.6).

    What the message says is there as it was received. All jobs of a call of `check` are made of one reading of the message.
    """

    message: Message
    """The message."""
    signer: int
    """The number of the signer in the order read, from 0."""
    signer_info: SignerInfo
    """The signer, with its attributes and its countersignatures."""

    def __init__(self, message: Message, signer: int, content: Optional[bytes]) -> None:
        self.message = message
        self.signer = signer
        self.signer_info = message.signers[signer]
        self._content = content

    @cached_property
    def covered(self) -> bytes:
        """The octets that the signature covers. If the signer has signed attributes they are these, and not the content."""
        return self.signer_info.covered(self._content)

    @property
    def signature(self) -> bytes:
        """The octets of the signature."""
        return self.signer_info.signature

    @property
    def signature_algorithm(self) -> AlgorithmIdentifier:
        """signatureAlgorithm."""
        return self.signer_info.signature_algorithm

    @property
    def digest_algorithm(self) -> AlgorithmIdentifier:
        """digestAlgorithm: the algorithm that the content and the signed attributes are digested with."""
        return self.signer_info.digest_algorithm

    @property
    def issuer(self) -> Optional[bytes]:
        """The name of the issuer of the signer's certificate, one element; None if the signer is named by a key identifier."""
        return self.signer_info.issuer

    @property
    def serial_number(self) -> Optional[int]:
        """The serial number of the signer's certificate; None if the signer is named by a key identifier."""
        return self.signer_info.serial_number

    @property
    def subject_key_identifier(self) -> Optional[bytes]:
        """The key identifier of the signer's certificate; None if the signer is named by issuer and serial number."""
        return self.signer_info.subject_key_identifier

    @property
    def certificates(self) -> Tuple[bytes, ...]:
        """The certificates of the message in the order read, each one element: a Certificate (RFC 5280) if it begins with 30.

        It is one tuple for all signers of the message: a list of its own for each would take time in proportion to the number of
        signers times that of certificates.
        """
        signed_data = self.message.signed_data
        return () if signed_data is None else signed_data._certificates


Verifier = Callable[[Job], Optional[bool]]
"""Says of a signature whether it is right: True, False, or None if that is not known. `check` takes no other verdict."""


def check(
    data: Octets,
    content: Optional[Document] = None,
    stamped: Optional[Document] = None,
    verifier: Optional[Verifier] = None,
    limit: int = LIMIT,
) -> List[Finding]:
    """Returns the rules of the standards that the one message in `data` breaks, as the command `check` lists them.

    Those for the message come first, and then those for each signer in the order read; both are ordered by their codes.

    `content` is the content of a detached signature. It is not used if the message has content of its own. `stamped` is the data that
    were time-stamped: the message then has to be a time-stamp token for them, a response with such a token, or a request for one.

    `content` and `stamped` are octets, a file that was opened in binary, or pieces of octets, such as a generator gives them. If a digest
    of a file or of pieces is asked for, they are read to their end, from where the file stands, and digested by `hashlib` in pieces of
    1 MiB. In two cases they are read into memory, and may have at most `limit` octets: both if the content is detached and has to be a
    TSTInfo; and `content` if there is a verifier, and a signature that covers the content itself, since there are no signed attributes.

    `verifier` is asked once for each signer whose signature covers anything, in the order read. If it returns the object True there
    is no finding for the signature, if False F17, and if None F18. Without a verifier there is F18 for each.

    The message and its DER may have at most `limit` octets; octets that are handed in are not limited. Raises `Refused` if `data` is no
    such message, or by E2 if a document that is read into memory is longer than `limit`; `MemoryError` if memory runs out; `ValueError`
    if `hashlib` does not know the algorithm, or if one file is to be both documents; and `TypeError` if the verifier returns anything but
    True, False and None, such as 1, a text or a coroutine, or if a piece is no octets. What the verifier or a file raises passes through.
    """
    octets, most = _calls.octets_of(data), _calls.limit_of(limit)
    if content is None and stamped is None and verifier is None:
        return _found(_calls.library.cms_canon_check, octets, *_calls.NO_DOCUMENTS, most)
    are_short = is_in_memory(content, "content"), is_in_memory(stamped, "what was stamped")
    if content is stamped and not all(are_short):
        raise ValueError("content and what was stamped are not the same file or pieces")
    asked = None if all(are_short) else asked_by(octets, most)
    given = None
    if asked is None or (content is not None and asked.content_itself):
        given, stamps = (None if it is None else joined(it, most) for it in (content, stamped))
        words: Tuple[Any, ...] = (*_calls.optional_of(given), *_calls.optional_of(stamps))
        found = _found(_calls.library.cms_canon_check, octets, *words, most)
    else:
        if content is not None and verifier is not None and _covers_content(read(octets, limit)):
            content = given = joined(content, most)
        words = (*optional_digests_of(content, asked.content), *optional_digests_of(stamped, asked.stamped))
        found = _found(_calls.library.cms_canon_check_digests, octets, *words, most)
    if verifier is None or not any(it.code == _UNKNOWN for it in found):
        return found
    message = read(octets, limit)
    judged = (_judged(it, verifier, message, given) for it in found)
    return [it for it in judged if it is not None]


def _covers_content(message: Message) -> bool:
    """Whether a signature covers the content itself, and that is detached."""
    return message.content is None and any(it.signed_attributes is None for it in message.signers)


def _found(function: Any, octets: bytes, *words: object) -> List[Finding]:
    """Returns the findings of a call."""
    return _findings_in(_calls.called_for_findings(function, octets, *words))


def _findings_in(items: bytes) -> List[Finding]:
    """Returns findings that are there as C has them."""
    return [Finding(code, signer if has_signer else None) for signer, code, has_signer in _calls.FINDING.iter_unpack(items)]


def _judged(finding: Finding, verifier: Verifier, message: Message, content: Optional[bytes]) -> Optional[Finding]:
    """What a finding becomes by the verdict on the signature, if it says that this is not verified; else itself."""
    if finding.code != _UNKNOWN or finding.signer is None:
        return finding
    verdict = verifier(Job(message, finding.signer, content))
    if verdict is True:
        return None
    if verdict is False:
        return Finding(_BAD, finding.signer)
    if verdict is None:
        return finding
    if isinstance(verdict, Coroutine):
        verdict.close()  # or else Python warns that it was never awaited
    raise TypeError(f"the verdict of a verifier is True, False or None, not {_calls.type_name(verdict)}")


def _path_of(signer: Optional[int], path: Optional[Sequence[int]]) -> ctypes.Array[ctypes.c_uint64]:
    """The numbers of the path, and one more, so that its pointer is never NULL."""
    if (signer is None) == (path is None):
        raise ValueError("either a signer or a path is given")
    numbers = [_calls.whole(number, "the number of a signer") for number in ([signer] if path is None else path)]
    if any(number < 0 for number in numbers):
        raise ValueError("a signer or a countersignature has a number from 0")
    return (ctypes.c_uint64 * (len(numbers) + 1))(*(min(number, _calls.MAX_NUMBER) for number in numbers))
