"""The library that the package contains, and how it is called: what is handed to it, and what becomes of a call.

A `bytearray` or `memoryview` is copied before the call, since another thread may change it while the library reads; `bytes` are not. A
limit and the number of a signer are whole numbers by their type (`operator.index`). A verdict is one of the objects `True`, `False` and
`None`: taken by its truth, a text, a mock or a coroutine would say that a signature is right.
"""

from __future__ import annotations

import ctypes
import mmap
import operator
import os
import struct
from typing import Any, List, NamedTuple, Optional, Tuple, Union

from ._prototypes import PROTOTYPES

Octets = Union[bytes, bytearray, memoryview]

LIMIT = 256 * 1024 * 1024
"""How many octets a message and its DER may have if no other limit is given: 256 MiB, the limit of the command."""

MAX_NUMBER = (1 << 64) - 1  # no message has so many signers
DONE, DIFFERENT, REFUSED, OUT_OF_MEMORY, ROOM_TOO_SMALL = 0, 1, 3, 5, 6
NO_SIGNED_DATA, NO_CONTENT = 101, 103  # 101 is the first of the reasons that are none of E1 to E19

FINDING = struct.Struct("=QII")  # signer, code, and whether there is a signer
_OCTETS_PER_FINDING, _OTHER_FINDINGS = 3, 64  # a signer of 19 octets may have six; the others are for the message
_MAX_LIMIT = 1 << 40
_LARGE = 1 << 17  # octets of memory
_AROUND = 16  # octets before and after the place of a refusal


class Outcome(ctypes.Structure):
    _fields_ = [
        ("status", ctypes.c_uint32),
        ("reason", ctypes.c_uint32),
        ("at", ctypes.c_uint64),
        ("octets", ctypes.c_uint64),
        ("name", ctypes.c_char * 24),
    ]


class Many(ctypes.Structure):
    _fields_ = [("outcome", Outcome), ("messages", ctypes.c_uint64), ("read", ctypes.c_uint64)]


class Extent(ctypes.Structure):
    _fields_ = [("end", ctypes.c_uint64), ("unended", ctypes.c_uint64), ("reach", ctypes.c_uint32)]


MORE, WHOLE, UNKNOWN = 0, 1, 3  # values of `reach`

_LIBRARY = "libcms_canon.so"
_TYPES = {  # of the arguments, as the header has them
    "bool": ctypes.c_bool,
    "size_t": ctypes.c_size_t,
    "uint64_t": ctypes.c_uint64,
    "const uint8_t *": ctypes.c_char_p,
    "const uint64_t *": ctypes.POINTER(ctypes.c_uint64),
    "uint8_t *": ctypes.c_void_p,
    "const struct cms_canon_digest *": ctypes.c_char_p,
    "struct cms_canon_digest_asked *": ctypes.c_void_p,
    "struct cms_canon_finding *": ctypes.c_void_p,
    "struct cms_canon_row *": ctypes.c_void_p,
    "struct cms_canon_piece *": ctypes.c_void_p,
    "struct cms_canon_change *": ctypes.c_void_p,
    "struct cms_canon_outcome *": ctypes.POINTER(Outcome),
    "struct cms_canon_many *": ctypes.POINTER(Many),
    "struct cms_canon_extent *": ctypes.POINTER(Extent),
}



def _path_of_library() -> str:
    """Where the library is: beside this file in what was installed, or in `dist/` of a clone of the repository."""
    folder = os.path.dirname(os.path.abspath(__file__))
    own = os.path.join(folder, _LIBRARY)
    clone = os.path.normpath(os.path.join(os.path.realpath(folder), "..", "..", ".."))
    in_clone = os.path.join(clone, "dist", f"{os.uname().machine}-linux", _LIBRARY)
    return in_clone if os.path.exists(in_clone) and not os.path.exists(own) else own


def _opened() -> ctypes.CDLL:
    path = _path_of_library()
    if not os.path.exists(path):
        is_source = os.path.exists(os.path.join(os.path.dirname(path), "..", "pyproject.toml"))
        hint = "python3 -m pip install --no-index bindings/python" if is_source else "python3 -m pip install --force-reinstall cms-canon"
        raise ImportError(f"{path} is not there: cms_canon was copied without its library, which `{hint}` installs")
    try:
        return ctypes.CDLL(path)
    except OSError as why:
        raise ImportError(f"{path} cannot be loaded on this machine ({os.uname().sysname} on {os.uname().machine}): {why}") from None


library = _opened()
for _name, _types in PROTOTYPES.items():
    _function = getattr(library, _name)
    _function.restype = None
    _function.argtypes = [_TYPES[it] for it in _types]


class Around(NamedTuple):
    """Some octets of what was refused, around the place where it was."""

    begins: int
    """At which octet of the message they begin, from 0."""
    octets: bytes


class Refused(ValueError):
    """A message is refused, or it lacks what is asked for. Its text is the line of the command, as `refused E6 Overrun at 4`."""

    __module__ = "cms_canon"  # where users know it from

    reason: int
    """1 to 19 for E1 to E19. 101: no signed data. 102: no such signer. 103: no content. 105: not a TSTInfo in DER. 106: digest not given.
    107: needs the content. `check` does not give the last two: it digests all that a message asks for, or takes the content itself."""
    name: str
    """The name of the reason, as `Overrun` or `no such signer`."""
    at: Optional[int]
    """How many octets of the message were read when it was refused by one of E1 to E19, or of a document that is too long; else None."""
    message: Optional[int]
    """Which message `same` refuses, 1 or 2; of another call None. The text then begins with `first: ` or `second: `."""
    number: Optional[int]
    """The number of the message that `convert_many` refuses, from 0; of another call None. The text begins as `message 1: `."""
    begins: Optional[int]
    """At which octet of all chunks that message begins, from 0; of another call None. `at` counts from there."""
    octets_around: Optional[Around]
    """Up to 16 octets of the message before `at` and 16 from there on, for who looks at why it is refused; None if `at` is None, or is of a document.
    They may be a secret, if what was given is a key, say."""

    def __init__(
        self,
        reason: int,
        name: str,
        at: Optional[int],
        message: Optional[int] = None,
        number: Optional[int] = None,
        begins: Optional[int] = None,
        octets_around: Optional[Around] = None,
    ) -> None:
        super().__init__(reason, name, at, message, number, begins, octets_around)
        self.reason = reason
        self.name = name
        self.at = at
        self.message = message
        self.number = number
        self.begins = begins
        self.octets_around = octets_around

    def __str__(self) -> str:
        if self.at is None:
            return f"refused: {self.name}"
        which = {None: "", 1: "first: ", 2: "second: "}[self.message]
        if self.number is not None:
            which = f"message {self.number}: "
        return f"{which}refused E{self.reason} {self.name} at {self.at}"


def octets_of(data: Octets, what: str = "data") -> bytes:
    """The octets, copied if they could change during a call, or if their type may say another length than they have."""
    if type(data) is bytes:
        return data
    try:
        return bytes(memoryview(data))
    except TypeError:
        raise TypeError(f"{what} is octets (bytes, a bytearray or a memoryview), not {type_name(data)}") from None


def optional_of(octets: Optional[bytes]) -> Tuple[bytes, int, bool]:
    """The words for octets that may be absent."""
    return (b"", 0, False) if octets is None else (octets, len(octets), True)


NO_DOCUMENTS = (*optional_of(None), *optional_of(None))


def limit_of(limit: int) -> int:
    octets = whole(limit, "a limit")
    if not 0 <= octets <= _MAX_LIMIT:
        raise ValueError("a limit is from 0 to 2**40")
    return octets


def whole(number: object, what: str) -> int:
    """The number as an `int`, if it is a whole number by its type (`operator.index`)."""
    try:
        return operator.index(number)  # type: ignore[arg-type]
    except TypeError:
        raise TypeError(f"{what} is a whole number, not {type_name(number)}") from None


def type_name(value: object) -> str:
    """The name of the type, with its module, unless it is of Python itself: `numpy.bool` is not `bool`."""
    kind = type(value)
    return kind.__qualname__ if kind.__module__ == "builtins" else f"{kind.__module__}.{kind.__qualname__}"


class _Room:
    """What a short call writes to, made once and not at each call. One call has it at a time."""

    def __init__(self) -> None:
        octets = bytearray(_LARGE)
        self.view = memoryview(octets)
        self.address = ctypes.addressof(ctypes.c_char.from_buffer(octets))
        self.outcome = Outcome()


_rooms: List[_Room] = []  # those that no call has: as many as there were calls at once


def called(function: Any, room: int, *words: object, size: int = 1) -> bytes:
    """Calls with room for at least so many items of this size in octets, and once more if they are too few. The first word has the octets of the message."""
    if room * size > _LARGE:
        return _called_with(function, room, words, size)
    try:
        kept = _rooms.pop()
    except IndexError:
        kept = _Room()
    outcome = kept.outcome
    try:
        outcome.status = OUT_OF_MEMORY  # until the call says otherwise
        function(*words, kept.address, _LARGE // size, outcome)
        status = outcome.status
        if status == DONE:
            return kept.view[: outcome.octets * size].tobytes()
        if status != ROOM_TOO_SMALL:
            raise error_of(outcome, words[0])
        room = outcome.octets
    finally:
        _rooms.append(kept)
    return _called_with(function, room, words, size)


def _called_with(function: Any, room: int, words: Tuple[object, ...], size: int) -> bytes:
    """Calls in the same way, with memory that is made for this call."""
    outcome = Outcome()
    while True:
        outcome.status = OUT_OF_MEMORY  # until the call says otherwise
        output = _memory_for(max(room, 1), size)
        function(*words, ctypes.addressof(ctypes.c_char.from_buffer(output)), room, outcome)
        if outcome.status != ROOM_TOO_SMALL:
            break
        room = outcome.octets
    if outcome.status == DONE:
        return bytes(memoryview(output)[: outcome.octets * size])
    raise error_of(outcome, words[0])


def called_for_findings(function: Any, octets: bytes, *words: object) -> bytes:
    """Calls for the findings of a message, and returns them as C has them."""
    return called(function, len(octets) // _OCTETS_PER_FINDING + _OTHER_FINDINGS, octets, len(octets), *words, size=FINDING.size)


def _memory_for(count: int, size: int) -> Union[bytearray, mmap.mmap]:
    """Memory for so many items. There are few rows and findings as a rule: to zero all of it would take longer than the call."""
    if size == 1 or count * size <= _LARGE:
        return bytearray(count * size)
    try:
        return mmap.mmap(-1, count * size)
    except OSError:
        raise MemoryError("out of memory") from None


def error_of(
    outcome: Outcome, octets: object, message: Optional[int] = None, number: Optional[int] = None, begins: Optional[int] = None
) -> Exception:
    """The error of a call that was given these octets as a message."""
    if outcome.status != REFUSED:
        return MemoryError("out of memory")
    at = outcome.at if outcome.reason < NO_SIGNED_DATA else None
    around = None if at is None or not isinstance(octets, bytes) else _around(octets, at)
    return Refused(outcome.reason, outcome.name.decode("ascii"), at, message, number, begins, around)


def _around(octets: bytes, at: int) -> Around:
    begins = max(0, min(at, len(octets)) - _AROUND)
    return Around(begins, octets[begins : at + _AROUND])
