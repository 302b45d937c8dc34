#!/usr/bin/env python3
"""Measures `show` of messages that are made to take long or much, beside `convert` of the same messages.

    ./cms-canon --help            builds the program
    python3 bench/listings.py [PROGRAM]

Each message has nearly 16 MiB, the limit. The memory is the most that a run held, also in multiples of the length of the text.
Times are minima of five. The exit status is 1 if `show` takes more than five times what `convert` takes, or more than three times the
memory of its text and of the message together.
"""

import os
import subprocess
import sys
import tempfile
from pathlib import Path

from findings import OTHER_ALGORITHM, SHA_256, element, message, signer

PROGRAM = Path(__file__).resolve().parent.parent / "crates" / "cms_canon_program" / "out" / "cms_canon_program"

RUNS = 5
ROOM = (1 << 24) - 200  # octets for the part that is large
SMALLEST_ALGORITHM = bytes.fromhex("300306012a")
ATTRIBUTE = bytes.fromhex("300506012a3100")


def messages_of(room):
    """Gives the name of each message, in which one part has so many octets, and its octets."""

    def repeated(part):
        return part * (room // len(part))

    short = signer(OTHER_ALGORITHM, b"")
    yield "algorithms of 5 octets", message(repeated(SMALLEST_ALGORITHM), b"\x04\x00", b"")
    yield "algorithms of 13 octets", message(repeated(SHA_256), b"\x04\x00", b"")
    yield "parameters of 16 MiB", message(element(0x30, b"\x06\x01\x2a", element(0x04, bytes(room - 20))), b"\x04\x00", b"")
    yield "signers of 24 octets", message(b"", b"\x04\x00", repeated(short))
    yield "attributes of 7 octets", message(b"", b"\x04\x00", signer(OTHER_ALGORITHM, element(0xA0, repeated(ATTRIBUTE))))
    yield "certificates of 2 octets", message(b"", b"\x04\x00", b"", certificates=element(0xA0, repeated(b"\x30\x00")))


def run(program, words, path, statuses=(0,)):
    """Returns the seconds of processor time, the most memory in octets, and how many octets a run wrote."""
    with open(path, "rb") as octets, tempfile.TemporaryFile() as text:
        started = subprocess.Popen([program, *words], stdin=octets, stdout=text, stderr=subprocess.DEVNULL)
        _, status, usage = os.wait4(started.pid, 0)
        if os.waitstatus_to_exitcode(status) not in statuses:
            raise SystemExit(f"{words} ended with status {os.waitstatus_to_exitcode(status)}")
        return usage.ru_utime + usage.ru_stime, usage.ru_maxrss * 1024, text.seek(0, os.SEEK_END)


def main(words):
    program = words[0] if words else PROGRAM
    passed = True
    with tempfile.TemporaryDirectory() as folder:
        path = Path(folder, "message")
        for name, octets in messages_of(ROOM):
            path.write_bytes(octets)
            converted = min(run(program, ["convert"], path)[0] for _ in range(RUNS))
            shown = min(run(program, ["show"], path) for _ in range(RUNS))
            seconds, memory, length = shown
            passed &= seconds <= 5 * converted and memory <= 3 * (length + len(octets))
            print(
                f"{name}: convert {converted:.2f} s, show {seconds:.2f} s, text {length / 1e6:.1f} MB, "
                f"memory {memory / 1e6:.0f} MB, {memory / length:.2f} times the text"
            )
    return 0 if passed else 1


if __name__ == "__main__":
    sys.exit(main(sys.argv[1:]))
