"""How a worker works. The command says these numbers in its help, for which nothing else is imported."""

from __future__ import annotations

from typing import NamedTuple

TOGETHER = 5000  # files that are stored in one transaction
PATIENCE = 60.0  # seconds after which a worker that says nothing has lost its parts, or a database that does not reply is given up


class Options(NamedTuple):
    """How a worker works."""

    together: int = TOGETHER
    patience: float = PATIENCE
    stays: float = 0.0
    """Seconds to wait for parts if none is left."""
