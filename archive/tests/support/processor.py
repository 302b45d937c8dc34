"""What the processor does: how fast it is now, and how much time of it a command takes."""

import os
import subprocess
import time

REFERENCE = 0.2  # seconds that the loop of `slowness` takes on the processor for which limits are said


def slowness() -> float:
    """Returns how many times slower this processor is now than that for which the limits are said, as one that is shared; at least 1."""
    begun, number = time.process_time(), 0
    for turn in range(2_000_000):
        number = (number * 31 + turn) & 0xFFFFFFFF
    return max(1.0, (time.process_time() - begun) / REFERENCE)


def seconds_of(words, **how) -> float:
    """Runs a command, and returns the seconds of processors that it and its processes took."""
    with subprocess.Popen(words, stdout=subprocess.DEVNULL, stderr=subprocess.DEVNULL, **how) as process:
        _, status, used = os.wait4(process.pid, 0)
        process.returncode = os.waitstatus_to_exitcode(status)
    return used.ru_utime + used.ru_stime
