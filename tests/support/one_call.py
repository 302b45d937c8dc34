#!/usr/bin/env python3
"""Makes one call of a library for C, with values for whatever its prototype asks for, and prints its status and a sum of what it writes.

    python3 tests/support/one_call.py LIBRARY CALL MESSAGE TST_INFO

MESSAGE and TST_INFO are files. No content and no data are given, the path is 0, an extent is that of a first call, and there is room
for 4,096 members.
"""

import ctypes
import hashlib
import sys
from pathlib import Path

sys.path.insert(0, str(Path(__file__).resolve().parents[2] / "scripts"))

from calls import called  # noqa: E402

ROOM, LARGEST = 4096, 128  # members of an array; octets of a member, or of an outcome
FILL = b"\xa5" * (ROOM * LARGEST)
LIMIT = 1 << 24
NUMBERS = {"bool": ctypes.c_bool(False), "uint32_t": ctypes.c_uint32(1), "uint64_t": ctypes.c_uint64(LIMIT)}
INPUTS = ("input", "first", "second")
EXTENT, REACH = "struct cms_canon_extent *", slice(16, 20)  # where in an extent its reach is
STATUS_OF_REACH = {1: 0, 3: 5}  # a whole element is a call that is done, and no memory is no memory


def made(library, call, message, tst_info):
    """Makes the call, and returns the octets of its outcome, and those of the outputs and arrays that it was handed."""
    given = {**dict.fromkeys(INPUTS, message), "content": tst_info}
    words, length, writable = [], 0, []
    for kind, name in call.arguments:
        if kind == "size_t":
            words.append(ctypes.c_size_t(length))
        elif kind in NUMBERS:
            words.append(NUMBERS[kind])
        elif kind == "const uint64_t *":
            length = 1
            words.append((ctypes.c_uint64 * length)())
        elif kind.startswith("const "):
            octets = given.get(name, b"") if kind == "const uint8_t *" else b""
            length = len(octets)
            words.append(ctypes.create_string_buffer(octets, length + 1))
        elif kind == EXTENT:
            writable.append(ctypes.create_string_buffer(24))
            words.append(writable[-1])
        else:
            length = ROOM
            writable.append(ctypes.create_string_buffer(FILL, len(FILL)))
            words.append(writable[-1])
    getattr(library, call.name)(*words)
    *outputs, outcome = [it.raw for it in writable]
    return outcome, outputs


def status_of(call, outcome):
    if call.arguments[-1][0] == EXTENT:
        return STATUS_OF_REACH.get(int.from_bytes(outcome[REACH], sys.byteorder))
    return int.from_bytes(outcome[:4], sys.byteorder)


def main(library, name, *files):
    call = next(it for it in called() if it.name == name)
    outcome, outputs = made(ctypes.CDLL(library), call, *(Path(it).read_bytes() for it in files))
    status, wrote = status_of(call, outcome), any(it != FILL for it in outputs)
    print(status, hashlib.sha256(b"".join([outcome, *outputs])).hexdigest() if wrote or status == 0 else "nothing")


if __name__ == "__main__":
    main(*sys.argv[1:])
