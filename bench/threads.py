#!/usr/bin/env python3
"""Measures whether threads of Python and Java convert at the same time, by the released library.

    python3 bench/threads.py

Each of one and of four threads converts a message of many certificates as often: with a processor for each thread, four take as long
as one. Java is left out where it is not installed.
"""

import shutil
import subprocess
import sys
import tempfile
import threading
import time
from pathlib import Path

from measure import element

TOP = Path(__file__).resolve().parent.parent
RELEASE = TOP / "dist" / "x86_64-linux"
JNA = Path("/usr/share/java/jna.jar")
THREADS = 4
SIZES = [(3, 20_000), (2_000, 60)]  # certificates of a message, and how often a thread converts it


def message_of(certificates):
    """Returns a message without a signer, in indefinite lengths, with certificates of some 900 octets in descending order."""
    members = [element(0x30, element(0x04, (10**6 - i).to_bytes(4, "big") + bytes(880))) for i in range(certificates)]
    content = bytes.fromhex("30 0b 06 09 2a864886f70d010701")
    inside = bytes.fromhex("02 01 01 31 00") + content + b"\xa0\x80" + b"".join(members) + bytes(2) + bytes.fromhex("31 00")
    return bytes.fromhex("30 80 06 09 2a864886f70d010702 a0 80 30 80") + inside + bytes(6)


def seconds_of_python(convert, message, times, threads):
    def convert_often():
        for _ in range(times):
            convert(message)

    running = [threading.Thread(target=convert_often) for _ in range(threads)]
    began = time.perf_counter()
    for thread in running:
        thread.start()
    for thread in running:
        thread.join()
    return time.perf_counter() - began


def tell(caller, octets, times, one, all_at_once):
    each = one / times * 1e6
    print(f"{caller}, {octets} octets: {each:.1f} microseconds a call; {THREADS} threads do {THREADS * one / all_at_once:.2f} times as much as one")


def main():
    with tempfile.TemporaryDirectory(prefix="threads-") as folder:
        package = Path(folder, "python", "cms_canon")
        shutil.copytree(TOP / "bindings" / "python" / "cms_canon", package)
        shutil.copy(RELEASE / "libcms_canon.so", package)
        sys.path.insert(0, str(package.parent))
        from cms_canon import convert

        has_java = shutil.which("javac") and JNA.exists()
        classes = f"{folder}/java:{JNA}"
        if has_java:
            sources = [*(TOP / "bindings" / "java" / "src").glob("**/*.java"), TOP / "bench" / "Threads.java"]
            subprocess.run(["javac", "-d", f"{folder}/java", "-cp", JNA, *sources], check=True)
        for certificates, times in SIZES:
            message = message_of(certificates)
            file = Path(folder, "message")
            file.write_bytes(message)
            one, all_at_once = (min(seconds_of_python(convert, message, times, it) for _ in range(3)) for it in (1, THREADS))
            tell("Python", len(message), times, one, all_at_once)
            if has_java:
                words = ["java", f"-Djna.library.path={RELEASE}", "-cp", classes, "Threads", file, str(times)]
                took = [float(subprocess.run([*words, str(it)], check=True, capture_output=True).stdout) for it in (1, THREADS)]
                tell("Java", len(message), times, *took)


if __name__ == "__main__":
    main()
