#!/usr/bin/env python3
"""Measures start-up, time and peak memory of `cms-canon convert`, and judges them.

    python3 bench/measure.py [PROGRAM]

The exit status is 1 if start-up takes too long, if the time grows faster than the octets,
if a message of many members takes six times its octets of memory in addition to what the program
itself takes, or if an output is not the canonical one.
"""

import array
import filecmp
import os
import random
import select
import signal
import statistics
import sys
import tempfile
import time
from pathlib import Path
from typing import NamedTuple

sys.path.insert(0, str(Path(__file__).resolve().parent.parent / "tests" / "support"))

from elements import element  # noqa: E402

PROGRAM = Path(__file__).resolve().parent.parent / "crates" / "cms_canon_program" / "out" / "cms_canon_program"
LIMIT = 16777216  # octets of the largest message

STARTS = 50
RUNS = 5
LONGEST_START = 0.005  # seconds
LARGEST_RATIO = {2: 2.4, 10: 15}  # of the time to the time of a half and of a tenth of the members
SHORTEST_JUDGED = 0.020  # seconds; a shorter run is too short to judge the ratio of twice the members
SMALLEST_JUDGED = 100_000  # members; beside fewer of them the program itself is large
LARGEST_ROOM = 6  # octets of memory for each of a message, without the program's own

SIGNED_DATA = bytes.fromhex("06092a864886f70d010702")
PLAIN_DATA = bytes.fromhex("300b06092a864886f70d010701")
SHA_256 = bytes.fromhex("300b0609608648016503040201")
NUMBERED = bytes.fromhex("300b0609608648016503")  # three octets of the object identifier follow


class Run(NamedTuple):
    octets: int  # of the message
    seconds: float  # of the fastest run
    peak: int  # octets of resident memory


# ---- making messages


def message(members):
    """Returns a message with the members, which are joined, as its digest algorithms."""
    fields = bytes.fromhex("020101") + element(0x31, members) + PLAIN_DATA + element(0x31, b"")
    return element(0x30, SIGNED_DATA + element(0xA0, element(0x30, fields)))


def numbered(number):
    """Returns a member of its own for each number below 127 * 2**14: the greater number, the later in DER."""
    digits = number + (1 << 14)  # so that the first of three base-128 digits is not 0
    return NUMBERED + bytes([128 + (digits >> 14), 128 + (digits >> 7) % 128, digits % 128])


def write_messages(count, are_distinct, received, canonical):
    """Writes a message as it is given to the program, and as the program is to write it."""
    if not are_distinct:
        given = wanted = SHA_256 * count
    else:
        numbers = array.array("L", range(count))
        wanted = b"".join(map(numbered, numbers))
        random.Random(1).shuffle(numbers)
        given = b"".join(map(numbered, numbers))
    Path(received).write_bytes(message(given))
    Path(canonical).write_bytes(message(wanted))


def largest_count():
    """Returns how many digest algorithms the largest message has."""
    around = len(message(bytes(1 << 16))) - (1 << 16)  # with lengths in three octets, as the largest message has them
    return (LIMIT - around) // len(SHA_256)


# ---- measuring


def convert(program, received, output):
    """Runs the program from one file to the other, and returns how many seconds it took."""
    actions = [
        (os.POSIX_SPAWN_OPEN, 0, received, os.O_RDONLY, 0),
        (os.POSIX_SPAWN_OPEN, 1, output, os.O_WRONLY | os.O_CREAT | os.O_TRUNC, 0o600),
    ]
    began = time.perf_counter()
    _, status = os.waitpid(started(program, actions), 0)
    seconds = time.perf_counter() - began
    if status:
        sys.exit(f"the program ended with wait status {status}, and not 0")
    return seconds


def resident(process):
    """Returns the most octets of memory that a running program has had, without what started it."""
    for line in Path(f"/proc/{process}/status").read_text(encoding="ascii").splitlines():
        if line.startswith("VmHWM:"):
            return int(line.split()[1]) * 1024
    sys.exit("/proc does not tell a program's memory")


def started(program, actions):
    """Starts the program, and returns its number."""
    return os.posix_spawn(program, [program, "convert"], os.environ, file_actions=actions)


def peak_of(program, received):
    """Returns the peak memory of one run. All of it is taken before the first octet is written, and
    the run is held up there: the output has more octets than a pipe takes."""
    out, into = os.pipe()
    process = started(program, [(os.POSIX_SPAWN_OPEN, 0, received, os.O_RDONLY, 0), (os.POSIX_SPAWN_DUP2, into, 1)])
    os.close(into)
    select.select([out], [], [])
    peak = resident(process)
    with os.fdopen(out, "rb") as octets:
        while octets.read(1 << 16):
            pass
    os.waitpid(process, 0)
    return peak


def own_memory(program):
    """Returns the memory that the program takes before it has read an octet."""
    out, into = os.pipe()
    process = started(program, [(os.POSIX_SPAWN_DUP2, out, 0)])
    time.sleep(0.2)
    own = resident(process)
    os.kill(process, signal.SIGKILL)
    os.waitpid(process, 0)
    os.close(out)
    os.close(into)
    return own


def start_up(program, room):
    """Returns the median time to convert the smallest message."""
    received = f"{room}/smallest"
    Path(received).write_bytes(message(b""))
    return statistics.median(convert(program, received, f"{room}/output") for _ in range(STARTS))


def measure(program, room, count, are_distinct):
    """Returns the fastest run over a message of that many digest algorithms."""
    received, canonical, output = f"{room}/received", f"{room}/canonical", f"{room}/output"
    write_messages(count, are_distinct, received, canonical)
    fastest = min(convert(program, received, output) for _ in range(RUNS))
    if not filecmp.cmp(output, canonical, shallow=False):
        sys.exit(f"the output of {count} digest algorithms is not the canonical one")
    return Run(os.path.getsize(received), fastest, peak_of(program, received))


# ---- judging and printing


def judged(seconds, of_fewer, times):
    """Returns what to print of the time against that of fewer members, and whether it is well."""
    if of_fewer is None:
        return "-", True
    ratio = seconds / of_fewer
    if times == 2 and of_fewer < SHORTEST_JUDGED:
        return f"{ratio:.2f}, too short to judge", True
    is_well = ratio <= LARGEST_RATIO[times]
    return f"{ratio:.2f}" + ("" if is_well else f"  above {LARGEST_RATIO[times]}"), is_well


def print_table(program, room, are_distinct):
    """Prints the measurements of one kind of message, and returns whether all is well."""
    largest, own = largest_count(), own_memory(program)
    print(f"{'algorithms':>12}{'octets':>12}{'time':>12}{'peak memory':>14}{'for an octet':>14}  time to that of a tenth or a half")
    all_well = True
    for counts, times in (((10_000, 100_000), 10), ((1 << 16, 1 << 17), 2), ((largest // 2, largest), 2)):
        of_fewer = None
        for count in counts:
            run = measure(program, room, count, are_distinct)
            shown, is_well = judged(run.seconds, of_fewer, times)
            share = (run.peak - own) / run.octets
            is_lean = count < SMALLEST_JUDGED or share < LARGEST_ROOM
            time_shown, peak = f"{run.seconds * 1000:.1f} ms", f"{run.peak / (1 << 20):.1f} MiB"
            print(f"{count:>12,}{run.octets:>12,}{time_shown:>12}{peak:>14}{share:>14.2f}  {shown}", flush=True)
            of_fewer, all_well = run.seconds, all_well and is_well and is_lean
    return all_well


def processor():
    """Returns the name of this machine's processor."""
    for line in Path("/proc/cpuinfo").read_text(encoding="utf-8").splitlines():
        if line.startswith("model name"):
            return line.partition(":")[2].strip()
    return "unknown"


def main(words):
    program = os.path.abspath(words[0] if words else PROGRAM)
    if not os.access(program, os.X_OK):
        print(f"there is no program {program}: ./cms-canon --help builds it")
        return 1
    print(f"processor: {processor()}")
    with tempfile.TemporaryDirectory() as room:
        seconds = start_up(program, room)
        all_well = seconds < LONGEST_START
        wanted = f"below {LONGEST_START * 1000:.0f} ms is wanted"
        print(f"start-up: {seconds * 1000:.2f} ms, the median of {STARTS}; {wanted}")
        for are_distinct, heading in ((False, "the same algorithm"), (True, "distinct algorithms, shuffled")):
            print(f"\n{heading}; the fastest of {RUNS} runs")
            all_well = print_table(program, room, are_distinct) and all_well
    print("All is as wanted." if all_well else "NOT all is as wanted.")
    return 0 if all_well else 1


if __name__ == "__main__":
    sys.exit(main(sys.argv[1:]))
