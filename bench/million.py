#!/usr/bin/env python3
"""Converts a million messages made at random, or spoilt, by the released library, and compares what comes.

    python3 bench/million.py [FIRST_SEED [RUNS [INPUTS]]]

Each of RUNS runs has a seed of its own, from FIRST_SEED on, and converts INPUTS inputs: messages that tests/support/generated_messages.py spells
in BER at random, of which the DER is known or the refusal, and their DER; and each of them spoilt at one to three places, several times:
it is then refused, or what is written for it is written again unchanged. If a call takes more than a second or gives another result, its
seed and its octets are printed, and if a run crashes its seed. The calls are made in the process itself, by the Python package.
"""

import os
import shutil
import subprocess
import sys
import tempfile
import time
from pathlib import Path
from random import Random

TOP = Path(__file__).resolve().parent.parent
RELEASE = TOP / "dist" / "x86_64-linux"
FIRST_SEED, RUNS, INPUTS = 38_000, 100, 10_000
SPOILT = 5  # times each input is spoilt
MOST_SECONDS = 1.0


def result_of(convert, refused, octets):
    """Returns what a call returns, or the line of its refusal, and how many seconds it took."""
    began = time.perf_counter()
    try:
        result = convert(octets)
    except refused as why:
        result = str(why)
    return result, time.perf_counter() - began


def spoilt(random, damaged, octets):
    for _ in range(random.randint(1, 3)):
        if octets:
            octets = damaged(random, octets)
    return octets


def inputs_at_random(random, makers, mark):
    """Gives inputs without end, each with its DER, or with the line of its refusal; None if it is spoilt."""
    from generated_messages import damaged

    while True:
        message = random.choice(makers)(random)[0]
        der = message.der()
        for octets in (message.ber(random), message.ber(random), der):
            fault = mark.search(octets)
            yield octets, der if fault is None else f"{fault[1].decode()} {fault.start()}"
            for _ in range(SPOILT):
                yield spoilt(random, damaged, octets), None


def is_right(convert, refused, due, result):
    if due is not None:
        return result == due
    if isinstance(result, bytes):
        return result_of(convert, refused, result)[0] == result
    return result.startswith("refused E")


def run_of(seed, count):
    """Converts so many inputs, and prints what differs and the counts: accepted, refused, differing, and the longest call in seconds."""
    from cms_canon import Refused, convert
    from generated_messages import MARK, request, response, signed_message

    random = Random(seed)
    accepted = refused = differing = 0
    longest = 0.0
    makers = [signed_message, signed_message, request, response]
    for _, (octets, due) in zip(range(count), inputs_at_random(random, makers, MARK)):
        result, seconds = result_of(convert, Refused, octets)
        longest = max(longest, seconds)
        accepted, refused = accepted + isinstance(result, bytes), refused + isinstance(result, str)
        if seconds > MOST_SECONDS or not is_right(convert, Refused, due, result):
            differing += 1
            print(f"seed {seed}, {seconds:.2f} s: {octets.hex()}", file=sys.stderr)
    print(accepted, refused, differing, longest)


def counts_of(folder, seed, count):
    """Starts a run in a process of its own, which a crash ends alone."""
    words = [sys.executable, __file__, "--run", folder, str(seed), str(count)]
    return seed, subprocess.Popen(words, stdout=subprocess.PIPE, text=True)


def main(words):
    first, runs, count = (*map(int, words), *(FIRST_SEED, RUNS, INPUTS)[len(words) :])
    totals, failed, longest = [0, 0, 0], 0, 0.0
    with tempfile.TemporaryDirectory(prefix="million-") as folder:
        package = Path(folder, "cms_canon")
        shutil.copytree(TOP / "bindings" / "python" / "cms_canon", package)
        shutil.copy(RELEASE / "libcms_canon.so", package)
        waiting = list(range(first, first + runs))
        started = []
        while waiting or started:
            while waiting and len(started) < os.cpu_count():
                started.append(counts_of(folder, waiting.pop(0), count))
            seed, process = started.pop(0)
            printed, _ = process.communicate()
            if process.returncode != 0:
                failed += 1
                print(f"seed {seed}: the run ended with {process.returncode}")
                continue
            *counts, seconds = printed.split()
            totals = [total + int(more) for total, more in zip(totals, counts)]
            longest = max(longest, float(seconds))
    print(f"seeds {first} to {first + runs - 1}: {totals[0]} accepted, {totals[1]} refused, {totals[2]} differing, {failed} runs failed")
    print(f"the longest call took {longest:.3f} s")
    return 0 if sum(totals[:2]) == runs * count and not totals[2] and not failed else 1


if __name__ == "__main__":
    sys.path.insert(0, str(TOP / "tests" / "support"))
    if sys.argv[1:2] == ["--run"]:
        sys.path.insert(0, sys.argv[2])
        run_of(int(sys.argv[3]), int(sys.argv[4]))
    else:
        sys.exit(main(sys.argv[1:]))
