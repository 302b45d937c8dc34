#!/usr/bin/env python3
"""Measures the digest of 256 MiB in pieces of 1 KiB beside that of the same octets in one piece, and judges it.

    (cd crates/cms_test_driver && rt run -- digest sha256 1024 <stdin)    builds the program
    python3 bench/digests.py

The exit status is 1 if the pieces take more than their share of the time of the one piece. Times are minima of ten, taken in turn,
and include the reading of the octets; the program's own time alone would be closer.
"""

import os
import subprocess
import sys
import tempfile
import time
from pathlib import Path

PROGRAM = Path(__file__).resolve().parent.parent / "crates" / "cms_test_driver" / "out" / "cms_test_driver"

RUNS = 10
OCTETS = 1 << 28
PIECE = 1 << 10
LARGEST_RATIO = 1.2


def seconds_of(length, path):
    with open(path, "rb") as octets:
        began = time.perf_counter()
        subprocess.run([PROGRAM, "digest", "sha256", str(length)], stdin=octets, capture_output=True, check=True)
        return time.perf_counter() - began


def main():
    if not os.access(PROGRAM, os.X_OK):
        print(f"there is no program {PROGRAM}")
        return 1
    with tempfile.TemporaryDirectory() as folder:
        path = Path(folder, "octets")
        path.write_bytes(bytes(OCTETS))
        in_pieces = in_one = float("inf")
        for _ in range(RUNS):
            in_pieces = min(in_pieces, seconds_of(PIECE, path))
            in_one = min(in_one, seconds_of(OCTETS, path))
    ratio = in_pieces / in_one
    print(f"in pieces of {PIECE}: {in_pieces:.2f} s; in one: {in_one:.2f} s; {ratio:.2f} times, at most {LARGEST_RATIO}")
    return 0 if ratio <= LARGEST_RATIO else 1


if __name__ == "__main__":
    sys.exit(main())
