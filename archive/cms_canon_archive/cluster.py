"""Has the workers of a Dask cluster run `work`. Nothing that comes from the cluster is unpickled here: it could be a command, and the password is here.

The scheduler is asked by plain messages which workers there are, and has each of them begin a process. What that has done is in the store.
"""

from __future__ import annotations

import asyncio
import os
import pickle
import subprocess
import sys
import tempfile
from functools import partial
from typing import Any, Callable, Dict, List, Sequence, Set

from .faults import Complaint
from .processes import end_with

SECONDS = 3.0  # for the scheduler to reply
_LOOKED_AT = 2.0  # seconds in which a process that cannot begin is found to have ended
_MOST_THREADS = 256  # of a worker, as it says
_MOST_TEXT = 500  # characters of an error of a worker that are shown


class NoCluster(Complaint):
    """There is no cluster that could work."""


async def begin_work(words: Sequence[str]) -> None:
    """Begins `work` on the machine of a worker, which runs this. Raises `RuntimeError` if it ends at once with an error."""
    with tempfile.TemporaryFile() as said:
        command = [sys.executable, "-m", "cms_canon_archive", *words]
        begun = subprocess.Popen(command, stdin=subprocess.DEVNULL, stdout=subprocess.DEVNULL, stderr=said, preexec_fn=partial(end_with, os.getpid()))
        _BEGUN.append(begun)
        end = asyncio.get_running_loop().time() + _LOOKED_AT
        while begun.poll() is None and asyncio.get_running_loop().time() < end:
            await asyncio.sleep(0.05)
        if begun.poll():
            said.seek(0)
            raise RuntimeError(said.read(10_000).decode("utf-8", "replace").strip().rpartition("\n")[2])


_BEGUN: List[Any] = []  # or a process that ended would be left as a zombie


class Cluster:
    """A Dask cluster, by the address of its scheduler."""

    def __init__(self, address: str) -> None:
        """Raises `ModuleNotFoundError` if distributed is not installed, and `ValueError` for an address that is none."""
        import dask
        from distributed.comm.addressing import parse_address

        parse_address(address)
        dask.config.set({"distributed.scheduler.pickle": False})  # of messages that this process gets
        self._address = address
        self._begun: Set[str] = set()

    def begin(self, words: Sequence[str]) -> None:
        """Has each worker that has not begun yet begin `work`. Raises `NoCluster` if there is none, or if none can begin."""
        self.check()
        workers = self._workers()
        new = [it for it in sorted(workers) if it not in self._begun]
        refusals = self._refusals({it: _message_to(it, exec, f"import {__name__}") for it in new})  # or it cannot say that it lacks the package
        able = {it: _message_to(it, begin_work, [*words, "--jobs", str(workers[it])]) for it in new if it not in refusals}
        refusals.update(self._refusals(able))
        self._begun.update(set(new) - refusals.keys())
        if refusals and not self._begun & workers.keys():
            address, why = min(refusals.items())
            more = f", nor can {len(refusals) - 1} others" if len(refusals) > 1 else ""
            raise NoCluster(f"the worker {address} of the cluster cannot work: {why}{more}")

    def check(self) -> None:
        """Raises `NoCluster` if there is no scheduler, or it has no workers."""
        if not self._workers():
            raise NoCluster(f"the cluster of {self._address} has no workers: begin some, as by `dask worker {self._address}`, on machines that see the files")

    def forget(self) -> None:
        """Has all workers begin again at the next call."""
        self._begun.clear()

    def _workers(self) -> Dict[str, int]:
        """Returns how many threads each worker has, by their addresses."""
        (reply,) = self._asked([{"op": "identity"}])
        if isinstance(reply, BaseException):
            raise NoCluster(f"the scheduler at {self._address} does not reply: {type(reply).__name__}")
        workers = reply.get("workers") if isinstance(reply, dict) else None
        if not isinstance(workers, dict):
            raise NoCluster(f"what replies at {self._address} is no scheduler of Dask")
        return {str(address): _threads_of(it) for address, it in workers.items()}

    def _asked(self, messages: Sequence[Dict[str, Any]]) -> List[Any]:
        """Returns the replies to messages, or the error for one that has none."""

        async def ask() -> List[Any]:
            replies = (asyncio.wait_for(self._reply(it), SECONDS + _LOOKED_AT) for it in messages)
            return list(await asyncio.gather(*replies, return_exceptions=True))

        return asyncio.run(ask()) if messages else []

    def _refusals(self, messages: Dict[str, Dict[str, Any]]) -> Dict[str, str]:
        """Sends messages to workers, and returns why those cannot do what they are to that cannot."""
        replies = zip(messages, self._asked(list(messages.values())))
        return {address: why for address, reply in replies if (why := _refusal_in(address, reply))}

    async def _reply(self, message: Dict[str, Any]) -> Any:
        from distributed.comm.core import connect
        from distributed.security import Security

        how = Security().get_connection_args("client")  # type: ignore[no-untyped-call]  # distributed has types of some functions alone
        comm = await connect(self._address, timeout=SECONDS, deserialize=False, **how)  # type: ignore[no-untyped-call]  # likewise
        try:
            await comm.write({**message, "reply": True})
            return await comm.read()
        finally:
            comm.abort()


def _threads_of(worker: Any) -> int:
    threads = worker.get("nthreads") if isinstance(worker, dict) else 1
    return min(max(1, threads), _MOST_THREADS) if isinstance(threads, int) else 1


def _message_to(worker: str, function: Callable[..., Any], *words: Any) -> Dict[str, Any]:
    """Returns what has a worker call a function."""
    run = {"op": "run", "function": pickle.dumps(function), "args": pickle.dumps(words), "kwargs": pickle.dumps({}), "wait": True}
    return {"op": "broadcast", "msg": run, "workers": [worker], "on_error": "return"}


def _refusal_in(worker: str, reply: Any) -> str:
    """Returns why a worker cannot work, by its reply; empty if it can."""
    said = reply.get(worker) if isinstance(reply, dict) else None
    if isinstance(said, dict) and said.get("status") == "OK":
        return ""
    text = str(said.get("exception_text", "it gave no reason")) if isinstance(said, dict) else f"it does not reply ({type(reply).__name__})"
    if "No module named" in text:
        text = f"it lacks a package ({text}): install cms-canon-archive on its machine"
    return "".join(it if it.isprintable() else " " for it in text)[:_MOST_TEXT]
