"""Runs commands, and says what they and their processes took: time, processor time and memory; and that of a PostgreSQL server beside them."""

import os
import subprocess
import time
from pathlib import Path
from typing import NamedTuple, Sequence, Tuple


class Used(NamedTuple):
    """What a command took, in seconds."""

    time: float
    processors: float
    """Of the command and all processes that it began."""
    server: float = 0.0
    """Of the processes of the PostgreSQL server meanwhile."""
    memory: float = 0.0
    """The peak of any process, in MiB."""


def ran(words: Sequence[object], server=None, status: int = 0) -> Used:
    """Runs a command, and returns what it took."""
    before, began = server_seconds(server), time.perf_counter()
    started = subprocess.Popen([*map(str, words)], stdout=subprocess.DEVNULL, stderr=subprocess.DEVNULL)
    _, ended, usage = os.wait4(started.pid, 0)
    taken = time.perf_counter() - began
    started.returncode = os.waitstatus_to_exitcode(ended)
    assert started.returncode == status, f"{words} ended with {started.returncode}"
    return Used(taken, usage.ru_utime + usage.ru_stime, server_seconds(server) - before, usage.ru_maxrss / 1024)


def least(some: Sequence[Used]) -> Used:
    """Returns the least of each."""
    return Used(*map(min, zip(*some)))


def server_seconds(server) -> float:
    """Returns the processor time of all processes of a server, also of those that have ended."""
    if server is None:
        return 0.0
    leader = int(Path(f"{server.folder}/data/postmaster.pid").read_text().split()[0])
    children = [it.name for it in Path("/proc").glob("[0-9]*") if _parent_of(it) == leader]
    return _seconds_of(leader)[1] + sum(_seconds_of(it)[0] for it in children)


def _seconds_of(process: object) -> Tuple[float, float]:
    """Returns the processor time of a process: its own, and with that of what it has waited for."""
    try:
        words = Path(f"/proc/{process}/stat").read_text().rpartition(")")[2].split()
    except (FileNotFoundError, ProcessLookupError):
        return 0.0, 0.0
    own, others = int(words[11]) + int(words[12]), int(words[13]) + int(words[14])
    tick = os.sysconf("SC_CLK_TCK")
    return own / tick, (own + others) / tick


def _parent_of(process: Path) -> int:
    try:
        return int((process / "stat").read_text().rpartition(")")[2].split()[1])
    except (FileNotFoundError, ProcessLookupError):
        return 0
