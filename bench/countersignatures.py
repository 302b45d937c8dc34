#!/usr/bin/env python3
"""Measures `cms-canon convert` on 60,000 signers: without unsigned attributes, and with one countersignature each.

    python3 bench/countersignatures.py [PROGRAM]

Times are minima of `RUNS`, taken in turn. Signers are in descending order, so that they are sorted.
"""

import subprocess
import sys
import tempfile
import time
from pathlib import Path

from measure import PLAIN_DATA, PROGRAM, SIGNED_DATA, element

SIGNERS = 60_000
RUNS = 5
ALGORITHM = bytes.fromhex("300506032a0304")
ID_COUNTERSIGNATURE = bytes.fromhex("06092a864886f70d010906")


def signer(number, unsigned=b""):
    """Returns a SignerInfo by a key identifier."""
    identifier = element(0x80, number.to_bytes(4, "big"))
    return element(0x30, b"\x02\x01\x03" + identifier + 2 * ALGORITHM + element(0x04, bytes(32)) + unsigned)


def countersigned(number):
    """Returns the same with a countersignature."""
    values = element(0x31, signer(number + 1))
    return signer(number, element(0xA1, element(0x30, ID_COUNTERSIGNATURE + values)))


def message(make):
    signers = b"".join(make(number) for number in reversed(range(SIGNERS)))
    fields = b"\x02\x01\x03" + element(0x31, b"") + PLAIN_DATA + element(0x31, signers)
    return element(0x30, SIGNED_DATA + element(0xA0, element(0x30, fields)))


def seconds_of(program, file):
    with open(file, "rb") as given:
        began = time.perf_counter()
        subprocess.run([program, "convert"], stdin=given, stdout=subprocess.DEVNULL, check=True)
        return time.perf_counter() - began


def main(words):
    program = words[0] if words else PROGRAM
    with tempfile.TemporaryDirectory(prefix="countersignatures-") as folder:
        files = {}
        for name, make in (("without", signer), ("with one each", countersigned)):
            files[name] = Path(folder, name)
            files[name].write_bytes(message(make))
        times = {name: min(seconds_of(program, file) for _ in range(RUNS)) for name, file in files.items()}
    for name, file in times.items():
        print(f"{SIGNERS} signers, {name}: {times[name] * 1000:.0f} ms")
    print(f"{times['with one each'] / times['without']:.2f} times")


if __name__ == "__main__":
    main(sys.argv[1:])
