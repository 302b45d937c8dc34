"""The calls of the released library for C, by ctypes, with just so much room as is asked for. Nothing else may be written."""

import ctypes
import struct
from typing import NamedTuple

from programs import RELEASE
from listed_changes import Change
from walk import Row

LIMIT = 1 << 28
ROW = struct.Struct("=QQII")
PIECE = struct.Struct("=QQQ")
CHANGE = struct.Struct("=8Q")
UNTOUCHED = b"\xa5"


class Outcome(ctypes.Structure):
    _fields_ = [
        ("status", ctypes.c_uint32), ("reason", ctypes.c_uint32), ("at", ctypes.c_uint64), ("octets", ctypes.c_uint64),
        ("name", ctypes.c_char * 24),
    ]


class Answer(NamedTuple):
    status: int
    reason: int
    at: int
    octets: int
    name: str
    output: bytes

    @property
    def refusal(self):
        return self.status, self.reason, self.at, self.name

    @property
    def rows(self):
        return [Row(*it) for it in ROW.iter_unpack(self.output)]

    @property
    def pieces(self):
        """Where each piece lies, how long it is, and whether it is made."""
        return [(place, length, made == 1) for place, length, made in PIECE.iter_unpack(self.output)]

    @property
    def changes(self):
        return [Change(*it) for it in CHANGE.iter_unpack(self.output)]


def words_of(octets):
    return octets, ctypes.c_size_t(len(octets))


def path_of(numbers):
    return (ctypes.c_uint64 * len(numbers))(*numbers), ctypes.c_size_t(len(numbers))


class Library:
    """The calls: of each, what it writes, and what its outcome says."""

    def __init__(self):
        self.calls = ctypes.CDLL(str(RELEASE / "libcms_canon.so"))

    def asked(self, name, room, *words, size=1):
        """Returns what the library writes, for which there is room for so many items of this size. Nothing else may be written."""
        outcome, output = Outcome(), bytearray(UNTOUCHED * (room * size + CHANGE.size))
        address = ctypes.c_void_p(ctypes.addressof(ctypes.c_char.from_buffer(output)))
        getattr(self.calls, f"cms_canon_{name}")(*words, address, ctypes.c_size_t(room), ctypes.byref(outcome))
        count = outcome.octets * size if outcome.status == 0 else 0
        assert output.count(UNTOUCHED, count) == len(output) - count, f"{name} wrote more than it says"
        said = outcome.status, outcome.reason, outcome.at, outcome.octets, outcome.name.decode()
        return Answer(*said, bytes(output[:count]))

    def convert(self, octets, limit=LIMIT):
        return self.asked("convert", len(octets) + 64, *words_of(octets), ctypes.c_uint64(limit))

    def fields(self, octets, limit=LIMIT, room=None):
        room = len(octets) // 2 if room is None else room
        return self.asked("fields", room, *words_of(octets), ctypes.c_uint64(limit), size=ROW.size)

    def tst_info_fields(self, octets, room=None):
        return self.asked("tst_info_fields", len(octets) // 2 if room is None else room, *words_of(octets), size=ROW.size)

    def cover(self, octets, path, content):
        given = content or b""
        words = *words_of(octets), *path_of(path), *words_of(given), ctypes.c_bool(content is not None), ctypes.c_uint64(LIMIT)
        return self.asked("cover", len(octets) + len(given), *words)

    def pieces(self, octets, limit=LIMIT, room=None):
        room = len(octets) + 64 if room is None else room
        return self.asked("pieces", room, *words_of(octets), ctypes.c_uint64(limit), size=PIECE.size)

    def changes(self, octets, limit=LIMIT, room=None):
        room = len(octets) + 64 if room is None else room
        return self.asked("changes", room, *words_of(octets), ctypes.c_uint64(limit), size=CHANGE.size)

    def list_changes(self, octets, json=False, limit=LIMIT, room=None):
        room = 300 * len(octets) + 1000 if room is None else room
        return self.asked("list_changes", room, *words_of(octets), ctypes.c_bool(json), ctypes.c_uint64(limit))
