#!/usr/bin/env python3
"""Measures conversions by the WebAssembly module in Node beside the same by the released library, and how soon the page is ready.

    python3 bench/module.py

A signature of 1.7 kB by openssl, and 64 MiB of content: the least seconds of some runs of each, with the copies in and out of the module, and the
ratio. Then the least milliseconds from the opening of the page in headless Chromium until it is ready. The exit status is 1 if one is above its bound.
"""

import subprocess
import sys
import tempfile
import time
from pathlib import Path

from calls import package
from signatures import make_signature

TOP = Path(__file__).resolve().parent.parent
sys.path.insert(0, str(TOP / "tests" / "support"))

from browser import Browser  # noqa: E402
from elements import element  # noqa: E402

RUNS = 25
LARGEST_SHORT = 20e-6  # seconds, of the signature in Node
LARGEST_RATIO = 1.6  # of the long one
LATEST = 0.3  # seconds until the page is ready
LONG = 64 << 20  # octets


def least(work, runs):
    """Returns the least seconds of some runs."""
    found = []
    for _ in range(runs):
        began = time.perf_counter()
        work()
        found.append(time.perf_counter() - began)
    return min(found)


def long_message():
    """Returns a message with long content."""
    encapsulated = element(0x30, bytes.fromhex("06092a864886f70d010701"), element(0xA0, element(0x04, bytes(LONG))))
    signed = element(0x30, bytes.fromhex("0201013100"), encapsulated, bytes.fromhex("3100"))
    return element(0x30, bytes.fromhex("06092a864886f70d010702"), element(0xA0, signed))


def opened():
    """Returns the seconds from the opening of the page until it is ready."""
    with Browser(TOP / "dist" / "cms-canon.html") as browser:
        browser.wait("document.getElementById('status').textContent === 'Ready.'")
        return browser.value("performance.getEntriesByName('ready')[0].startTime") / 1000


def main():
    is_well = True
    with tempfile.TemporaryDirectory() as folder:
        library = package(folder)
        (unpacked,) = Path(TOP, "dist", "packages").glob("cms-canon-*.tgz")
        subprocess.run(["tar", "-xzf", unpacked, "-C", folder], check=True)
        for name, octets, runs in (("a signature", make_signature(folder)[0], 1000), ("64 MiB of content", long_message(), RUNS)):
            file = Path(folder, "message")
            file.write_bytes(octets)
            words = ["node", TOP / "bench" / "module.mjs", Path(folder, "package"), str(RUNS), file]
            by_module = float(subprocess.run(words, check=True, capture_output=True, text=True).stdout)
            by_library = least(lambda: library.convert(octets), runs)
            print(f"{name}, {len(octets)} octets: {by_module * 1e6:.1f} microseconds by the module, {by_library * 1e6:.1f} by the library, "
                  f"{by_module / by_library:.2f} times", flush=True)
            is_well &= by_module <= LARGEST_SHORT if len(octets) < LONG else by_module / by_library <= LARGEST_RATIO
    seconds = min(opened() for _ in range(5))
    print(f"the page is ready after {seconds * 1000:.0f} ms")
    return 0 if is_well and seconds <= LATEST else 1


if __name__ == "__main__":
    sys.exit(main())
