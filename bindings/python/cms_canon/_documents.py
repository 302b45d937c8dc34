"""Documents that are not attached to a message: octets, a file, or pieces of octets; and their digests, by `hashlib`.

The library says which digests a message asks for. What is digested is not kept.
"""

from __future__ import annotations

import io
import struct
from collections.abc import Iterable as Pieces
from typing import Callable, Iterable, Iterator, List, NamedTuple, Optional, Protocol, Sequence, Union

from . import _calls
from ._calls import Octets


class BinaryFile(Protocol):
    """A file that was opened for reading in binary."""

    def read(self, size: int, /) -> bytes:
        """Returns at most so many octets, and none at the end."""


Document = Union[Octets, BinaryFile, Iterable[Octets]]

_PIECE = 1 << 20  # octets of a file that are read at once
_TOO_LARGE = 2, "TooLarge"  # E2

_OF_CONTENT, _OF_DATA = 1, 2
_ALGORITHMS = ("sha1", "sha224", "sha256", "sha384", "sha512", "sha512_224", "sha512_256")  # from number 1 on
_ASKED = struct.Struct("=II")  # of what, and the number of the algorithm, or 0 for the content itself
_DIGEST = struct.Struct("=I64s")  # the number of the algorithm, and the digest
_MOST_ASKED = 8


class Asked(NamedTuple):
    """What a message asks for of what is not attached to it."""

    content: List[int]
    """The numbers of the algorithms by which it asks for digests of its content."""
    stamped: List[int]
    """Those of the data that were time-stamped."""
    content_itself: bool
    """Whether it asks for the content, and not for digests of it."""


def asked_by(message: bytes, limit: int) -> Asked:
    """Returns what a message asks for. Raises `Refused` if the octets are no message."""
    function = _calls.library.cms_canon_digests_asked
    rows = [*_ASKED.iter_unpack(_calls.called(function, _MOST_ASKED, message, len(message), limit, size=_ASKED.size))]
    content, stamped = ([number for what, number in rows if what == it and number] for it in (_OF_CONTENT, _OF_DATA))
    return Asked(content, stamped, (_OF_CONTENT, 0) in rows)


def is_in_memory(document: Optional[Document], what: str) -> bool:
    """Whether nothing has to be read. Raises `TypeError` if it is neither octets, nor a file, nor pieces; `what` says of what."""
    if document is None or _is_octets(document):
        return True
    if isinstance(document, str) or not (hasattr(document, "read") or isinstance(document, Pieces)):
        raise TypeError(f"{what} is octets, a file opened in binary or pieces of octets, not {_calls.type_name(document)}")
    return False


def _is_octets(document: object) -> bool:
    try:
        memoryview(document).release()  # type: ignore[arg-type]
    except TypeError:
        return False
    return True


def _pieces_of(document: Document) -> Iterator[memoryview]:
    """Gives the octets in pieces. Raises `TypeError` if a piece is no octets, as of a file that was opened as text."""
    if _is_octets(document):
        return iter((_piece_of(document),))  # type: ignore[arg-type]
    read = getattr(document, "read", None)
    return map(_piece_of, document) if read is None else _pieces_read(read)  # type: ignore[arg-type]


def _pieces_read(read: Callable[[int], bytes]) -> Iterator[memoryview]:
    """Gives what a file reads, up to its end. It is a generator, so that a `StopIteration` of the file is an error and no end."""
    while True:
        piece = _piece_of(read(_PIECE))
        if not piece.nbytes:
            return
        yield piece


def _piece_of(octets: Octets) -> memoryview:
    """Returns a view of the octets, or of a copy if they could change, or are not one after another."""
    if isinstance(octets, str):
        raise TypeError("a document is octets, not text: open its file in binary, as by open(path, 'rb')")
    view = memoryview(octets)
    return view if type(view.obj) is bytes and view.c_contiguous else memoryview(bytes(view))


def joined(document: Document, limit: int) -> bytes:
    """Returns the octets of a document. Raises `Refused` by E2 if it comes in pieces, and they have more than `limit` octets."""
    if _is_octets(document):
        return _calls.octets_of(document)  # type: ignore[arg-type]
    octets = io.BytesIO()  # which hands them over without a copy
    for piece in _pieces_of(document):
        if octets.tell() + piece.nbytes > limit:
            raise _calls.Refused(*_TOO_LARGE, limit + 1)
        octets.write(piece)
    return octets.getvalue()


def digests_of(document: Document, algorithms: Sequence[int]) -> bytes:
    """Returns the digests of a document by these algorithms, as C has them. If there are any, the document is read to its end, once."""
    import hashlib  # which takes as long as all of this package

    hashers = {it: hashlib.new(_ALGORITHMS[it - 1]) for it in algorithms}
    for piece in _pieces_of(document) if hashers else ():
        for hasher in hashers.values():
            hasher.update(piece)
    return b"".join(_DIGEST.pack(number, it.digest()) for number, it in hashers.items())


def optional_digests_of(document: Optional[Document], algorithms: Sequence[int]) -> Sequence[object]:
    """Returns the words for digests of a document that may be absent."""
    if document is None:
        return b"", 0, False
    digests = digests_of(document, algorithms)
    return digests, len(digests) // _DIGEST.size, True
