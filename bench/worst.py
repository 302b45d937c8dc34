#!/usr/bin/env python3
"""Measures each command on messages that are made to take long or much, of 16 MiB and of half as much.

    ./cms-canon --help            builds the program
    python3 bench/worst.py [PROGRAM]

For each command and message: the processor time, also in multiples of that of a message half as long, and the most memory that a run
held, for each octet of the input and, of `show`, of its text too. `same` reads two messages of half the length. Times are minima of six. A line
says `SECONDS` or `MEMORY` if MOST_SECONDS or MOST_MEMORY is passed. The exit status is 1 if a message that is twice as long takes more
than LARGEST_RATIO times as long.
"""

import os
import subprocess
import sys
import tempfile
from pathlib import Path

import listings
from findings import OTHER_ALGORITHM, SHA_256, TST_INFO, certificate, element, message, signer_that_names
from listings import PROGRAM, run

RUNS = 6
ROOM = (1 << 24) - 400  # octets for the part that is large
MOST_SECONDS, MOST_MEMORY = 1.0, 6.0
LARGEST_RATIO = 2.2
STATUSES = (0, 1, 3)  # of `check` with findings, and of `cover` of a message without a signer
SHORTEST = 0.05  # seconds; if it takes less, no ratio is printed
WORDS = {"convert": ["convert"], "show": ["show"], "check": ["check"], "cover": ["cover", "--signer", "0"], "same": ["same"]}
NO_CONTENT = b"\x04\x00"
SEGMENTS = b"\x04\x00\x04\x00"  # two without octets
SIGNER_IN_SEGMENTS = element(0x30, b"\x02\x01\x03", element(0xA0, SEGMENTS), OTHER_ALGORITHM, OTHER_ALGORITHM, element(0x24, SEGMENTS))


def long_algorithm(number):
    """Returns an algorithm of nine octets of its own."""
    arcs = bytes([0x2A, 0x81 + (number >> 21), 0x80 | number >> 14 & 0x7F, 0x80 | number >> 7 & 0x7F, number & 0x7F])
    return element(0x30, element(0x06, arcs))


def nested(levels, innermost):
    """Returns a certificate of so many elements, each in the one before."""
    octets = innermost
    for _ in range(levels - 1):
        octets = element(0x30, octets)
    return octets


def descending(room, length, prefix):
    """Returns certificates of so many octets that begin alike and come in descending order."""
    count = room // length
    return b"".join(element(0x30, element(0x04, prefix + (count - i).to_bytes(4, "big"))) for i in range(count))


def with_attribute(values, are_signed):
    """Returns a message whose signer has one attribute with these values: a signed one, or another."""
    attribute = element(0x30, b"\x06\x01\x2a", element(0x31, values))
    signed, others = (element(0xA0, attribute), b"") if are_signed else (b"", element(0xA1, attribute))
    only = element(0x30, b"\x02\x01\x03\x80\x00", OTHER_ALGORITHM, signed, OTHER_ALGORITHM, NO_CONTENT, others)
    return message(b"", NO_CONTENT, only)


def with_certificates(octets):
    return message(b"", NO_CONTENT, b"", certificates=element(0xA0, octets))


def filled(room, part):
    return part * (room // len(part))


def token(room):
    """Returns a token whose signers each name one of as many certificates."""
    certificates = [certificate(0x10000000 + i) for i in range(room // 105)]
    signers = b"".join(map(signer_that_names, reversed(certificates)))
    return message(SHA_256, NO_CONTENT, signers, TST_INFO, element(0xA0, *certificates))


def of_listings(name):
    return lambda room: dict(listings.messages_of(room))[name]


MAKERS = {
    **{name: of_listings(name) for name, _ in listings.messages_of(100)},
    "different algorithms": lambda room: message(b"".join(map(long_algorithm, range(room // 9, 0, -1))), NO_CONTENT, b""),
    "values of a signed attribute": lambda room: with_attribute(filled(room, b"\x05\x00"), True),
    "values of an attribute": lambda room: with_attribute(filled(room, b"\x05\x00"), False),
    "equal beginnings of 16 kB": lambda room: with_certificates(descending(room, 16_400, bytes(16_384))),
    "equal beginnings of 40 octets": lambda room: with_certificates(descending(room, 48, bytes(40))),
    "certificates of 63 levels": lambda room: with_certificates(filled(room, nested(63, b"\x30\x00"))),
    "certificates around a long identifier": lambda room: with_certificates(filled(room, nested(63, b"\x3f\x1f\x00"))),
    "signers with strings in segments": lambda room: message(b"", NO_CONTENT, filled(room, SIGNER_IN_SEGMENTS)),
    "segments of one octet": lambda room: message(b"", b"\x24\x80" + filled(room, b"\x04\x01a") + b"\x00\x00", b""),
    "a token of many signers": token,
}


def made(folder, name, room):
    """Writes a message to a file in a process of its own: what this one holds would count as memory of those that it starts."""
    path = Path(folder, f"{room} {name}")
    with open(path, "wb") as file:
        subprocess.run([sys.executable, __file__, "--make", name, str(room)], stdout=file, check=True)
    return path


def measured(program, words, paths):
    """Returns the seconds, the memory and the length of what is written, for the octets of some files: the least of some runs."""
    whole = Path(paths[0].parent, "whole")
    with open(whole, "wb") as file:
        subprocess.run(["cat", *paths], stdout=file, check=True)
    return min(run(program, words, whole, STATUSES) for _ in range(RUNS)), whole.stat().st_size


def report(name, word, whole, half):
    """Prints what a message takes, and returns whether the time grows as it may."""
    (seconds, memory, written), size = whole
    ratio = seconds / half[0][0] if half and half[0][0] > SHORTEST else 0.0
    each = memory / (size + (written if word == "show" else 0))
    passed = [note for note, is_past in (("SECONDS", seconds > MOST_SECONDS), ("MEMORY", each > MOST_MEMORY)) if is_past]
    print(f"{word}, {name}: {seconds:.2f} s, {ratio:.2f} times, {memory / 1e6:.0f} MB, {each:.1f} an octet {' '.join(passed)}", flush=True)
    return ratio <= LARGEST_RATIO


def main(words):
    program = os.path.abspath(words[0] if words else PROGRAM)
    grows_well = True
    with tempfile.TemporaryDirectory() as folder:
        for name in MAKERS:
            long, short = made(folder, name, ROOM), made(folder, name, ROOM // 2)
            for word in WORDS:
                pair = word == "same"
                whole = measured(program, WORDS[word], [short, short] if pair else [long])
                half = None if pair else measured(program, WORDS[word], [short])
                grows_well &= report(name, word, whole, half)
            long.unlink()
            short.unlink()
    return 0 if grows_well else 1


if __name__ == "__main__":
    if sys.argv[1:2] == ["--make"]:
        sys.stdout.buffer.write(MAKERS[sys.argv[2]](int(sys.argv[3])))
    else:
        sys.exit(main(sys.argv[1:]))
