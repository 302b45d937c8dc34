#!/usr/bin/env python3
"""Measures `check` of the Python package with a detached document of 4 GiB, as a file, and judges how much memory that takes.

    python3 bench/documents.py [MIB]

The file is sparse, and so are zeros. Printed are the seconds of processor time, and the peak of memory of the process, before the check and
after it. The exit status is 1 if the findings are wrong, or the check takes more memory than its bound.
"""

import subprocess
import sys
import tempfile
from hashlib import sha256
from pathlib import Path

TOP = Path(__file__).resolve().parent.parent
sys.path.insert(0, str(TOP / "tests" / "support"))

from signed_by_digest import signed_by  # noqa: E402
from calls import package  # noqa: E402

MIB = 4096
MOST = 16 << 20  # octets of memory for the check
FOUND = ["F18 signer 0 verifier says unknown"]

CHECK = """
import resource, sys, time
import cms_canon
peak = lambda: resource.getrusage(resource.RUSAGE_SELF).ru_maxrss * 1024
message, before, start = open(sys.argv[1], "rb").read(), peak(), time.process_time()
with open(sys.argv[2], "rb") as document:
    found = cms_canon.check(message, document)
print(time.process_time() - start, before, peak(), *found, sep="\\n")
"""


def digest_of_zeros(mebibytes):
    digest, piece = sha256(), bytes(1 << 20)
    for _ in range(mebibytes):
        digest.update(piece)
    return digest.digest()


def main(words):
    mebibytes = int(words[0]) if words else MIB
    with tempfile.TemporaryDirectory(prefix="documents-") as folder:
        package(folder)
        message, document = Path(folder, "message"), Path(folder, "document")
        message.write_bytes(signed_by(digest_of_zeros(mebibytes)))
        with document.open("wb") as file:
            file.truncate(mebibytes << 20)
        ended = subprocess.run([sys.executable, "-c", CHECK, message, document], cwd=folder, capture_output=True, text=True, check=True)
    seconds, before, after, *found = ended.stdout.splitlines()
    growth = int(after) - int(before)
    print(f"{mebibytes} MiB: {float(seconds):.2f} s, peak of memory {int(before) >> 10} KiB before, {int(after) >> 10} KiB after")
    return 0 if found == FOUND and growth <= MOST else 1


if __name__ == "__main__":
    sys.exit(main(sys.argv[1:]))
