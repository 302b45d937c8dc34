"""What is shown of an index that runs: a bar beside it, and a line for each worker."""

from __future__ import annotations

import time

from tqdm import tqdm

from .texts import shown
from .watching import Counts, State, WorkerState


class Bar:
    """Shows where an index is."""

    def __init__(self) -> None:
        self._bar = tqdm(unit="B", unit_scale=True, disable=None)

    def __enter__(self) -> Bar:
        return self

    def __exit__(self, *_: object) -> None:
        self._bar.close()

    def show(self, state: State, counts: Counts) -> None:
        """Shows what was done since the index began, and what is left."""
        seconds = self._bar.format_dict["elapsed"] or 1
        files = counts.files + counts.unchanged
        words = [f"{files} files", f"{files / seconds:.0f}/s", f"{state.to_do + state.taken} parts left", f"{state.workers} workers"]
        words += [f"{state.given_up} given up"] if state.given_up else []
        self._bar.set_postfix_str(", ".join(words), refresh=False)
        self._bar.update(max(0, counts.octets - self._bar.n))


def line_of_worker(worker: WorkerState) -> str:
    """Returns what a worker does, in a line."""
    who = shown(f"{worker.name} ({worker.account} from {worker.address})" if worker.account else worker.name)
    if worker.note:
        return f"{who}: {shown(worker.note)}"
    now = int(time.time())
    since = "an unknown time" if worker.since is None else f"{now - worker.since} s"
    held = f", {worker.held} parts since {since}" if worker.held else ""
    seen = "at an unknown time" if worker.seen is None else f"{now - worker.seen} s ago"
    return f"{who}: {worker.files} files read, seen {seen}{held}"
