"""Processes of this machine that work: others are begun for those that are killed, and those that are stopped for too long are killed."""

from __future__ import annotations

import ctypes
import gc
import os
import signal
import sys
import time
from contextlib import contextmanager
from multiprocessing import get_context
from multiprocessing.connection import Connection, wait
from typing import Any, Callable, Iterator, List, Optional

from .faults import Complaint

PR_SET_PDEATHSIG = 1  # of Linux: prctl(2)
MOST_DEATHS = 20  # of processes one after another, of which none did anything
_SECONDS_TO_END = 5.0  # for a process to give back what it has begun, before it is killed


class Failed(Complaint):
    """A process ended with an error, which this says in a line."""


class Ended(BaseException):
    """This process is to end."""


def end_with(parent: int) -> None:
    """Has the kernel kill this process when the one that began it, which has this number, ends, however that is."""
    ctypes.CDLL(None).prctl(PR_SET_PDEATHSIG, signal.SIGKILL)
    if os.getppid() != parent:
        os.kill(os.getpid(), signal.SIGKILL)


class _Ending:
    """Whether this process may end now, and whether it is to."""

    held = 0
    is_due = False


@contextmanager
def undisturbed() -> Iterator[None]:
    """Has this process end later if it is to end now."""
    _Ending.held += 1
    try:
        yield
    finally:
        _Ending.held -= 1
        if _Ending.is_due and not _Ending.held:
            raise Ended


def _end(*_: Any) -> None:
    _Ending.is_due = True
    if not _Ending.held:
        raise Ended


def _run(parent: int, work: Callable[[], None], said: Connection, line_of: Callable[[Exception], Optional[str]]) -> None:
    end_with(parent)
    signal.signal(signal.SIGINT, signal.SIG_IGN)  # the process that began this one ends it
    signal.signal(signal.SIGTERM, _end)
    try:
        work()
    except Ended:
        pass
    except Exception as error:
        line = line_of(error)
        if line is None:
            raise
        said.send_bytes(line.encode("utf-8", "backslashreplace"))
        sys.exit(1)


class _Process:
    def __init__(self, work: Callable[[], None], line_of: Callable[[Exception], Optional[str]]) -> None:
        context = get_context("fork")
        self._said, said = context.Pipe(duplex=False)
        self._process = context.Process(target=_run, args=(os.getpid(), work, said, line_of), daemon=True)
        self._process.start()
        said.close()
        self.stopped_since: Optional[float] = None
        self.pid = self._process.pid
        self.sentinel = self._process.sentinel

    def status(self) -> Optional[int]:
        return self._process.exitcode

    def line(self) -> str:
        """Returns what an error said in which it ended."""
        try:
            return self._said.recv_bytes().decode() if self._said.poll() else "a worker failed"
        except (EOFError, OSError):
            return "a worker failed"

    def is_stopped(self) -> bool:
        try:
            with open(f"/proc/{self.pid}/stat", "rb") as file:
                return file.read().rpartition(b")")[2].split()[0] in (b"T", b"t")
        except OSError:
            return False

    def signal(self, number: int) -> None:
        if self.pid is not None and self.status() is None:
            os.kill(self.pid, number)

    def wait(self, seconds: float) -> None:
        self._process.join(seconds)

    def close(self) -> None:
        self._said.close()


class Processes:
    """So many processes that do the same work until there is none left."""

    def __init__(self, jobs: int, work: Callable[[], None], line_of: Callable[[Exception], Optional[str]], patience: float) -> None:
        """`line_of` says an error in a line; it is a fault of the program if it says nothing. `patience` is in seconds."""
        self._begin: Callable[[], _Process] = lambda: _Process(work, line_of)
        self._jobs = jobs
        self._patience = patience
        self._deaths = 0
        self._processes: List[_Process] = []

    def __enter__(self) -> Processes:
        gc.freeze()  # or each process would look through the modules again and again, and so copy them
        self._processes = [self._begin() for _ in range(self._jobs)]
        return self

    def __exit__(self, *_: object) -> None:
        for process in self._processes:
            process.signal(signal.SIGTERM)
            process.signal(signal.SIGCONT)
        end = time.monotonic() + _SECONDS_TO_END
        for process in self._processes:
            process.wait(max(0.0, end - time.monotonic()))
            process.signal(signal.SIGKILL)
            process.wait(_SECONDS_TO_END)
            process.close()

    def running(self) -> int:
        """Returns how many processes there are."""
        return len(self._processes)

    def wait(self, seconds: float) -> None:
        """Waits until a process ends, but no longer than this."""
        wait([it.sentinel for it in self._processes], seconds)

    def note_progress(self) -> None:
        """Notes that something was done since the last process died."""
        self._deaths = 0

    def tend(self) -> None:
        """Begins a process for each that was killed, and kills those that were stopped. Raises `Failed` if one ended with an error."""
        for process in list(self._processes):
            status = process.status()
            if status is None:
                self._kill_if_stopped(process)
                continue
            self._processes.remove(process)
            line = process.line() if status > 0 else ""
            process.close()
            if status > 0:
                raise Failed(line)
            if status < 0:
                self._deaths += 1
                if self._deaths > MOST_DEATHS:
                    raise Failed(f"{MOST_DEATHS} workers were killed one after another, the last by signal {-status}")
                self._processes.append(self._begin())

    def _kill_if_stopped(self, process: _Process) -> None:
        if not process.is_stopped():
            process.stopped_since = None
        elif process.stopped_since is None:
            process.stopped_since = time.monotonic()
        elif time.monotonic() - process.stopped_since > self._patience:
            process.signal(signal.SIGKILL)
