#!/usr/bin/env python3
"""Measures `cms-canon convert --many` on signatures one after another, beside what a user would take in its place.

    python3 bench/streams.py [PROGRAM]

Beside it are `openssl cms -cmsout` and `cms-canon convert`, started once a file, and a C program in which libcrypto reads and
writes the same stream. One long message is measured beside a C program that only copies. The exit status is 1 if an output is
not what openssl writes; a figure that misses its target is marked. Times are minima of `RUNS`, taken in turn, and the files
lie in memory if there is /dev/shm. It needs gcc, openssl with the headers of libcrypto (libssl-dev), and valgrind for
the instructions.
"""

import filecmp
import hashlib
import os
import re
import shutil
import subprocess
import sys
import tempfile
import time
from pathlib import Path

from contents import DATA
from measure import PROGRAM, SIGNED_DATA, resident  # which has the path of tests/ looked in
from elements import header

HERE = Path(__file__).resolve().parent
MEMORY = "/dev/shm"

RUNS = 5
DIFFERENT = 300  # signatures, which are repeated
MESSAGES = 100_000
MORE_MESSAGES = 1_000_000
FILES = 200  # for what is started once a file
COUNTED = (1_000, 2_000)  # messages whose instructions are counted
LONG_CONTENT = (256 << 20) - 1024  # octets
MEBI = 1 << 20

LARGEST_TIME = 6e-6  # seconds a message
LARGEST_PEAK = 4 * MEBI
MOST_INSTRUCTIONS = 25_000  # a message
SHARE_OF_OPENSSL = 1 / 50  # of the time of a process of openssl
SHARE_OF_LIBCRYPTO = 1 / 40
LARGEST_OF_COPY = 1.3  # of the time of the C program that copies a long message
LARGEST_ROOM = 1.2  # octets of memory for an octet of a long message
LARGEST_GROWTH = 1.2  # of the time of a message, if there are ten times as many
LARGEST_GROWTH_OF_MEMORY = 1.05

CMSOUT = ["openssl", "cms", "-cmsout", "-inform", "DER", "-outform", "DER"]


# ---- making messages


def make_signatures(folder, count, *more):
    """Has openssl make so many detached signatures of different contents, with the signer's certificate in each. `more` are further
    words for `openssl cms`."""

    def openssl(*words):
        subprocess.run(["openssl", *words], cwd=folder, check=True, capture_output=True)

    subject = "/C=DE/O=Measurements/OU=Signatures of many messages/CN=signer of messages"
    openssl("req", "-x509", "-newkey", "rsa:2048", "-nodes", "-keyout", "key.pem", "-out", "cert.pem", "-subj", subject)
    for number in range(count):
        Path(folder, "content").write_text(f"content {number}, which is signed\n", encoding="ascii")
        words = ("cms", "-sign", "-in", "content", "-signer", "cert.pem", "-inkey", "key.pem", "-binary", *more)
        openssl(*words, "-outform", "DER", "-out", f"{number}.der")
    return [f"{folder}/{number}.der" for number in range(count)]


def write_stream(path, octets, count):
    """Writes so many of the messages one after another, again and again from the first."""
    all_once = b"".join(octets)
    with open(path, "wb") as file:
        for _ in range(count // len(octets)):
            file.write(all_once)
        file.write(b"".join(octets[: count % len(octets)]))


def write_long(path):
    """Writes a message in DER with long content."""
    after = b"\x31\x00"
    around = [0x04, 0xA0, 0x30, 0x30, 0xA0, 0x30]
    before = [b"", b"", DATA, b"\x02\x01\x01\x31\x00", b"", SIGNED_DATA]
    octets, length = b"", LONG_CONTENT
    for identifier, in_front in zip(around, before):
        length += len(in_front) + (len(after) if in_front.startswith(b"\x02") else 0)
        octets = header(identifier, length) + in_front + octets
        length += len(header(identifier, length))
    with open(path, "wb") as file:
        file.write(octets)
        for _ in range(LONG_CONTENT // 1024):
            file.write(b"a" * 1024)
        file.write(after)


# ---- measuring


def seconds_of(words, received, output):
    """Returns how long a program takes from one file to the other."""
    actions = [
        (os.POSIX_SPAWN_OPEN, 0, received, os.O_RDONLY, 0),
        (os.POSIX_SPAWN_OPEN, 1, output, os.O_WRONLY | os.O_CREAT | os.O_TRUNC, 0o600),
    ]
    began = time.perf_counter()
    process = os.posix_spawnp(words[0], words, os.environ, file_actions=actions)
    _, status = os.waitpid(process, 0)
    seconds = time.perf_counter() - began
    if status:
        sys.exit(f"FAILED {' '.join(words)}: wait status {status}")
    return seconds


def peak_of(words, received):
    """Returns the peak memory of a program that has read all of the file, and waits for the end of its input."""
    process = subprocess.Popen(words, stdin=subprocess.PIPE, stdout=subprocess.DEVNULL)
    with open(received, "rb") as file:
        shutil.copyfileobj(file, process.stdin, 1 << 16)
    process.stdin.flush()
    time.sleep(0.5)
    peak = resident(process.pid)
    process.stdin.close()
    if process.wait():
        sys.exit(f"FAILED {' '.join(words)}: status {process.returncode}")
    return peak


def seconds_a_file(words, files, output):
    """Returns how long a program takes for a file, if it is started once a file."""
    return sum(seconds_of(words, file, output) for file in files) / len(files)


def instructions_of(words, received, folder):
    """Returns how many instructions a program takes for what it is given."""
    counting = ["valgrind", "--tool=callgrind", f"--callgrind-out-file={folder}/callgrind"]
    with open(received, "rb") as given:
        ran = subprocess.run([*counting, *words], stdin=given, stdout=subprocess.DEVNULL, stderr=subprocess.PIPE, check=True)
    return int(re.search(rb"Collected : (\d+)", ran.stderr)[1])


def instructions_a_message(program, octets, folder):
    """Returns the instructions of a message, from the difference of two streams."""
    counts = []
    for count in COUNTED:
        write_stream(f"{folder}/counted", octets, count)
        counts.append(instructions_of([program, "convert", "--many"], f"{folder}/counted", folder))
    return (counts[1] - counts[0]) / (COUNTED[1] - COUNTED[0])


def compiled(name, folder, *libraries):
    """Returns the C program of this name beside this file, compiled."""
    subprocess.run(["gcc", "-O2", "-o", f"{folder}/{name}", str(HERE / f"{name}.c"), *libraries], check=True)
    return f"{folder}/{name}"


def fastest(programs, received, output, runs=RUNS):
    """Returns the shortest time of each program, taken in turn."""
    times = [[seconds_of(words, received, output) for words in programs] for _ in range(runs)]
    return [min(column) for column in zip(*times)]


def digest_of_output(words, received):
    """Returns the digest of what the program writes."""
    digest = hashlib.sha256()
    with open(received, "rb") as given:
        process = subprocess.Popen(words, stdin=given, stdout=subprocess.PIPE)
        while octets := process.stdout.read(1 << 20):
            digest.update(octets)
    if process.wait():
        sys.exit(f"FAILED {' '.join(words)}: status {process.returncode}")
    return digest.hexdigest()


# ---- printing


def print_figure(name, value, unit, target, is_well):
    """Prints a line for a figure."""
    print(f"{name}: {value} {unit}; target {target}{'' if is_well else ', MISSED'}", flush=True)


def print_at_most(name, value, unit, target, factor=1, digits=2):
    """Prints a line for a figure that is to be at most its target."""
    print_figure(name, f"{value * factor:,.{digits}f}", unit, f"{target * factor:,.{digits}f}", value <= target)


def print_share(name, ours, other, share):
    """Prints a line for the time of a message, which is to be at most this share of the time of another program."""
    shown = f"{other * 1e6:,.2f}"
    print_figure(name, shown, f"us a message, {other / ours:.1f} times --many", f"{1 / share:.0f} times", ours <= other * share)


# ---- the measurements


def measure_messages(program, octets, files, folder):
    """Measures short messages beside other programs, and returns how many outputs are wrong."""
    many, once = [program, "convert", "--many"], [program, "convert"]
    stream, output = f"{folder}/stream", f"{folder}/output"
    libcrypto = compiled("libcrypto", folder, "-lcrypto")
    write_stream(stream, octets, MESSAGES)
    print(f"{MESSAGES:,} signatures, {DIFFERENT} of them different, of {os.path.getsize(stream) / MESSAGES:,.0f} octets", flush=True)
    ours, theirs = fastest([many, [libcrypto]], stream, output)
    ours, theirs = ours / MESSAGES, theirs / MESSAGES
    wrong = 0
    for words in (many, [libcrypto]):
        seconds_of(words, stream, output)
        if not filecmp.cmp(stream, output, shallow=False):  # what openssl made is in DER
            print(f"FAILED: {' '.join(words)} does not write the DER of the messages")
            wrong += 1
    os.unlink(output)
    print_at_most("convert --many, a message", ours, "us", LARGEST_TIME, 1e6)
    print_at_most("convert --many, peak memory", peak_of(many, stream), "MiB", LARGEST_PEAK, 1 / MEBI)
    if shutil.which("valgrind"):
        count = instructions_a_message(program, octets, folder)
        print_at_most("convert --many, a message", count, "instructions", MOST_INSTRUCTIONS, digits=0)
    processes = [min(seconds_a_file(words, files[:FILES], output) for _ in range(3)) for words in (CMSOUT, once)]
    print_share("openssl cms -cmsout, once a file", ours, processes[0], SHARE_OF_OPENSSL)
    print_share("libcrypto in a C program", ours, theirs, SHARE_OF_LIBCRYPTO)
    print(f"convert, once a file: {processes[1] * 1e6:,.2f} us a message, {processes[1] / ours:.1f} times --many", flush=True)
    os.unlink(stream)
    return wrong


def measure_long(program, folder):
    """Measures one long message, with --many and without, and returns how many outputs are wrong."""
    received, output = f"{folder}/long", f"{folder}/output"
    write_long(received)
    copy = compiled("copy", folder)
    plain, many = [program, "convert"], [program, "convert", "--many"]
    copied, *times = fastest([[copy], plain, many], received, output)
    octets, copy_peak = os.path.getsize(received), peak_of([copy], received)
    print(f"a message of {octets:,} octets, copied by a C program: {copied * 1000:.0f} ms, {copy_peak / octets:.2f} octets an octet")
    wrong = 0
    for words, seconds in zip((plain, many), times):
        name = " ".join(words[1:])
        print_at_most(f"{name}, a long message, {seconds * 1000:.0f} ms", seconds / copied, "times the C program", LARGEST_OF_COPY)
        print_at_most(f"{name}, a long message, peak memory", peak_of_held(words, received) / octets, "octets an octet", LARGEST_ROOM)
        seconds_of(words, received, output)
        if not filecmp.cmp(received, output, shallow=False):
            print(f"FAILED: {name} does not write the long message")
            wrong += 1
    os.unlink(received)
    os.unlink(output)
    return wrong


def peak_of_held(words, received):
    """Returns the peak memory of a program that has written some of a long message, and is held up there."""
    with open(received, "rb") as given:
        process = subprocess.Popen(words, stdin=given, stdout=subprocess.PIPE)
    process.stdout.read(1 << 16)
    time.sleep(0.2)
    peak = resident(process.pid)
    while process.stdout.read(1 << 20):
        pass
    process.wait()
    return peak


def measure_growth(program, octets, folder):
    """Measures ten times as many messages, and returns how many outputs are wrong."""
    words = [program, "convert", "--many"]
    stream = f"{folder}/stream"
    figures = []
    wrong = 0
    for count in (MESSAGES, MORE_MESSAGES):
        write_stream(stream, octets, count)
        seconds = min(seconds_of(words, stream, "/dev/null") for _ in range(3))
        figures.append((seconds, peak_of(words, stream)))
        print(f"{count:,} messages to /dev/null: {seconds:.3f} s, {figures[-1][1] / MEBI:.2f} MiB", flush=True)
        with open(stream, "rb") as given:
            expected = hashlib.file_digest(given, "sha256").hexdigest()
        if digest_of_output(words, stream) != expected:
            print(f"FAILED: the output of {count:,} messages is not their DER")
            wrong += 1
        os.unlink(stream)
    (few, few_peak), (more, more_peak) = figures
    times = MORE_MESSAGES / MESSAGES
    print_at_most(f"{times:.0f} times the messages", more / few, "times the time", times * LARGEST_GROWTH)
    print_at_most(f"{times:.0f} times the messages", more_peak / few_peak, "times the memory", LARGEST_GROWTH_OF_MEMORY)
    return wrong


def main(words):
    program = os.path.abspath(words[0] if words else PROGRAM)
    room = MEMORY if os.path.isdir(MEMORY) else None
    with tempfile.TemporaryDirectory(dir=room) as folder:
        files = make_signatures(folder, DIFFERENT)
        octets = [Path(file).read_bytes() for file in files]
        wrong = measure_messages(program, octets, files, folder)
        wrong += measure_long(program, folder)
        wrong += measure_growth(program, octets, folder)
    return 1 if wrong else 0


if __name__ == "__main__":
    sys.exit(main(sys.argv[1:]))
