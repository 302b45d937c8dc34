"""A Dask cluster of a test's own, on this machine alone."""

import os
import signal
import socket
import subprocess
import sys
import time
from contextlib import contextmanager, suppress

SECONDS = 60  # no cluster may take longer to begin


def free_port():
    with socket.socket() as found:
        found.bind(("127.0.0.1", 0))
        return found.getsockname()[1]


class Cluster:
    """A scheduler and its workers, each with a process that begins it again."""

    def __init__(self, folder, environment, protocol):
        self.port = free_port()
        self.address = f"{protocol}://127.0.0.1:{self.port}"
        self._folder = folder
        self._environment = environment
        self.workers = []
        own = ("--host", "127.0.0.1", "--port", self.port, "--protocol", protocol, "--no-dashboard")
        self.scheduler = self._begin("dask_scheduler", *own)

    def _begin(self, module, *words, **changed):
        how = {"cwd": self._folder, "env": {**self._environment, **changed}, "stdout": subprocess.DEVNULL, "stderr": subprocess.DEVNULL}
        return subprocess.Popen([sys.executable, "-m", f"distributed.cli.{module}", *map(str, words)], start_new_session=True, **how)

    def add_worker(self, *words, **environment):
        nanny = () if "--no-nanny" in words else ("--nanny",)
        self.workers.append(self._begin("dask_worker", self.address, "--nthreads", 1, "--no-dashboard", *nanny, *words, **environment))

    def wait_for(self, workers):
        """Waits for the scheduler and so many workers."""
        end = time.monotonic() + SECONDS
        while not self._is_there() and time.monotonic() < end:
            time.sleep(0.1)
        if workers:
            words = "import sys\nfrom distributed import Client\n"
            words += "with Client(sys.argv[1], timeout=50) as it: it.wait_for_workers(int(sys.argv[2]), timeout=50)"
            command = [sys.executable, "-c", words, self.address, str(workers)]
            subprocess.run(command, cwd=self._folder, env=self._environment, stderr=subprocess.DEVNULL, check=True, timeout=SECONDS)

    def _is_there(self):
        with socket.socket() as tried:
            return tried.connect_ex(("127.0.0.1", self.port)) == 0

    def kill_worker(self, number=0):
        os.killpg(self.workers[number].pid, signal.SIGKILL)

    def kill_scheduler(self):
        os.killpg(self.scheduler.pid, signal.SIGKILL)

    def close(self):
        for one in (*self.workers, self.scheduler):
            with suppress(ProcessLookupError):
                os.killpg(one.pid, signal.SIGKILL)
            one.wait()


@contextmanager
def cluster(folder, environment, workers=0, protocol="tcp"):
    made = Cluster(folder, environment, protocol)
    try:
        for _ in range(workers):
            made.add_worker()
        made.wait_for(workers)
        yield made
    finally:
        made.close()
