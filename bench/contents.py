#!/usr/bin/env python3
"""Measures `cms-canon convert` on messages that are mostly content, beside a C program that only copies, and judges it.

    python3 bench/contents.py [PROGRAM]

The exit status is 1 if a time or a memory is above its bound, or if an output is not the canonical one. The bounds are in
`cases`; times are minima of ten, taken in turn, and both programs write to a file. It needs gcc.
"""

import os
import subprocess
import sys
import tempfile
from pathlib import Path
from typing import NamedTuple, Optional

from measure import LIMIT, PROGRAM, SIGNED_DATA, convert, element, peak_of

RUNS = 10
MEBI = 1 << 20
LARGEST_RATIO_OF_HALVES = 2.4  # of the time to the time of half as many octets

DATA = bytes.fromhex("06092a864886f70d010701")


class Case(NamedTuple):
    name: str
    received: bytes
    canonical: bytes
    largest_ratio: Optional[float]  # of the time to that of the C program
    largest_peak: float  # octets of resident memory


# ---- making messages


def canonical(content):
    """Returns the message with this content in DER."""
    encapsulated = element(0x30, DATA + element(0xA0, element(0x04, content)))
    signed_data = element(0x30, b"\x02\x01\x01" + b"\x31\x00" + encapsulated + b"\x31\x00")
    return element(0x30, SIGNED_DATA + element(0xA0, signed_data))


def in_segments(segments):
    """Returns the message with these segments as its content, of indefinite length at every level."""
    begin = b"\x30\x80" + SIGNED_DATA + b"\xa0\x80\x30\x80\x02\x01\x01\x31\x00\x30\x80" + DATA + b"\xa0\x80\x24\x80"
    return begin + segments + b"\0\0" * 3 + b"\x31\x00" + b"\0\0" * 3


def single_octets(octets):
    """Returns a message of about so many octets whose segments have one octet of content, and its canonical form."""
    count = (octets - 100) // 3
    return in_segments(element(0x04, b"a") * count), canonical(b"a" * count)


def cases():
    kibi = bytes(1024)
    whole = canonical(bytes(LIMIT - 80))
    return [
        Case("8 MiB in segments of 1 KiB", in_segments(element(0x04, kibi) * 8192), canonical(kibi * 8192), 1.5, 12 * MEBI),
        Case("8 MiB in segments of one octet", *single_octets(LIMIT // 2), None, 4 * LIMIT),
        Case("16 MiB in segments of one octet", *single_octets(LIMIT), None, 8 * LIMIT),
        Case("16 MiB in one piece", whole, whole, 1.5, 1.2 * LIMIT),
    ]


# ---- measuring


def measured(case, program, copy, folder):
    """Returns the shortest times of the program and of the C program, and the program's peak memory."""
    received, output = f"{folder}/received", f"{folder}/output"
    Path(received).write_bytes(case.received)
    ours = copied = float("inf")
    for _ in range(RUNS):
        copied = min(copied, convert(copy, received, output))
        ours = min(ours, convert(program, received, output))
    if Path(output).read_bytes() != case.canonical:
        sys.exit(f"FAILED {case.name}: the output is not the canonical one")
    return ours, copied, peak_of(program, received)


def judged(case, program, copy, folder):
    """Prints a line for a case and one for each bound that it exceeds, and returns its time and how many bounds those are."""
    ours, copied, peak = measured(case, program, copy, folder)
    of_copy, of_octets = ours / copied, peak / len(case.received)
    print(f"{case.name}: {ours * 1000:.1f} ms, {of_copy:.2f} times the C program; {peak / MEBI:.1f} MiB, {of_octets:.2f} for an octet")
    problems = []
    if case.largest_ratio is not None and of_copy > case.largest_ratio:
        problems.append(f"more than {case.largest_ratio} times the time of the C program")
    if peak > case.largest_peak:
        problems.append(f"more than {case.largest_peak / MEBI:.1f} MiB")
    for problem in problems:
        print(f"FAILED {case.name}: {problem}")
    return ours, len(problems)


def main(words):
    program = os.path.abspath(words[0] if words else PROGRAM)
    with tempfile.TemporaryDirectory() as folder:
        copy = f"{folder}/copy"
        subprocess.run(["gcc", "-O2", "-o", copy, str(Path(__file__).with_name("copy.c"))], check=True)
        times, counts = zip(*(judged(case, program, copy, folder) for case in cases()))
    failed = sum(counts)
    ratio = times[2] / times[1]
    print(f"twice the segments of one octet: {ratio:.2f} times the time")
    if ratio > LARGEST_RATIO_OF_HALVES:
        print(f"FAILED: more than {LARGEST_RATIO_OF_HALVES} times")
        failed += 1
    return 1 if failed else 0


if __name__ == "__main__":
    sys.exit(main(sys.argv[1:]))
