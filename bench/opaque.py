#!/usr/bin/env python3
"""Measures the reading of one opaque value of many elements, and judges it.

    (cd crates/cms_test_driver && rt run < stdin)    builds the program
    python3 bench/opaque.py

The same octets are read by one call of `opaque`, and by a C program that goes over their headers in memory; elements of two octets
are also read by a call of `header` and one of `contents` for each. The exit status is 1 if `opaque` takes more than its share of
the time of a primitive element of as many octets, if its time grows faster than the octets, or if its memory is more than
the kept octets take. Times are minima of ten. It needs gcc and openssl.
"""

import os
import subprocess
import sys
import tempfile
import time
from pathlib import Path
from typing import NamedTuple

sys.path.insert(0, str(Path(__file__).resolve().parent.parent / "tests" / "support"))

from elements import header  # noqa: E402
from signatures import make_signature  # noqa: E402

TOP = Path(__file__).resolve().parent.parent
PROGRAM = TOP / "crates" / "cms_test_driver" / "out" / "cms_test_driver"

RUNS = 10
OCTETS = 1 << 24
LARGEST_RATIO_OF_HALVES = 2.4  # of the time to the time of half the octets
LARGEST_OF_SMALL = 5  # times a primitive element, for elements of two octets
LARGEST_OF_CERTIFICATES = 2.5  # the same for certificates
# Kept octets lie in room that doubles when it is full, and are moved then.
LARGEST_ROOM = 3.5  # times the octets, and beyond
PLAIN_ROOM = 4 << 20  # octets for the program itself


class Run(NamedTuple):
    seconds: float
    peak: int  # octets of resident memory


def write_value(path, identifier, part, octets):
    """Writes an element of about so many octets of contents, which are one part again and again."""
    count = octets // len(part)
    several = (1 << 16) // len(part)  # written at a time: this program's own memory counts as that of one that it starts
    with open(path, "wb") as file:
        file.write(header(identifier, count * len(part)))
        for _ in range(count // several):
            file.write(part * several)
        file.write(part * (count % several))


def values(folder):
    """Writes the values that are read, and returns the path of each."""
    _, certificate = make_signature(folder, "rsa:4096")  # of some 1.4 kB
    paths = {name: f"{folder}/{name}" for name in ("small", "half", "certificates", "primitive")}
    write_value(paths["small"], 0x30, b"\x05\x00", OCTETS)
    write_value(paths["half"], 0x30, b"\x05\x00", OCTETS // 2)
    write_value(paths["certificates"], 0x30, certificate, OCTETS)
    write_value(paths["primitive"], 0x04, b"a", OCTETS)
    return paths


def fastest(words, path):
    """Returns the fastest run of a program over the file, whose octets it is to count."""
    return min(run(words, path) for _ in range(RUNS))


def run(words, path):
    out, into = os.pipe()
    actions = [(os.POSIX_SPAWN_OPEN, 0, path, os.O_RDONLY, 0), *((os.POSIX_SPAWN_DUP2, into, it) for it in (1, 2))]
    began = time.perf_counter()
    process = os.posix_spawn(words[0], words, os.environ, file_actions=actions)
    _, status, used = os.wait4(process, 0)
    seconds = time.perf_counter() - began
    os.close(into)
    with os.fdopen(out) as told:
        text = told.read()
    if status or str(os.path.getsize(path)) not in text.split():
        sys.exit(f"{words} of {path}: wait status {status}, and it told {text!r}")
    return Run(seconds, used.ru_maxrss * 1024)


def show(name, path, fastest_run, primitive):
    octets = os.path.getsize(path)
    times = fastest_run.seconds / primitive.seconds
    print(f"{name:<44}{octets:>12,}{fastest_run.seconds * 1000:>10.1f} ms{fastest_run.peak / (1 << 20):>10.1f} MiB{times:>8.2f}", flush=True)
    return times


def judged(name, value, bound):
    """Prints a line and returns 1 if a figure is above its bound, else returns 0."""
    if value <= bound:
        return 0
    print(f"FAILED {name}: {value:.2f}, more than {bound}")
    return 1


def main():
    if not os.access(PROGRAM, os.X_OK):
        print(f"there is no program {PROGRAM}")
        return 1
    with tempfile.TemporaryDirectory() as folder:
        headers = f"{folder}/headers"
        subprocess.run(["gcc", "-O2", "-o", headers, str(Path(__file__).with_name("headers.c"))], check=True)
        paths, failed = values(folder), 0
        print(f"{'the fastest of ' + str(RUNS) + ' runs':<44}{'octets':>12}{'time':>13}{'peak memory':>14}{'times':>8}")
        primitive = fastest([str(PROGRAM), "opaque"], paths["primitive"])
        show("one primitive element, by opaque", paths["primitive"], primitive, primitive)
        half = fastest([str(PROGRAM), "opaque"], paths["half"])
        for name, key, bound in (("elements of two octets", "small", LARGEST_OF_SMALL), ("certificates", "certificates", LARGEST_OF_CERTIFICATES)):
            path = paths[key]
            ours = fastest([str(PROGRAM), "opaque"], path)
            failed += judged(f"{name} to a primitive element", show(f"{name}, by opaque", path, ours, primitive), bound)
            failed += judged(f"memory of {name}, in MiB", ours.peak / (1 << 20), (LARGEST_ROOM * os.path.getsize(path) + PLAIN_ROOM) / (1 << 20))
            show(f"{name}, by a C program in memory", path, fastest([headers, "0"], path), primitive)
            if key == "small":
                failed += judged("twice the octets, in times the time", ours.seconds / half.seconds, LARGEST_RATIO_OF_HALVES)
                show(f"{name}, by single calls", path, fastest([str(PROGRAM), "elements"], path), primitive)
    print("All is as wanted." if failed == 0 else "NOT all is as wanted.")
    return 1 if failed else 0


if __name__ == "__main__":
    sys.exit(main())
