"""Where an index is, as its store says: what is to be done, what was done, and by whom."""

from __future__ import annotations

import time
from typing import Any, Callable, Iterator, NamedTuple, Optional

import sqlalchemy as sa
from sqlalchemy.exc import DBAPIError

from .guards import WORKER_LOCK
from .opening import engine_of
from .tables import IS_GIVEN_UP, IS_TAKEN, IS_TO_DO, PARTS, WORKERS


MOST_OF_A_NOTE = 500  # characters of what a worker says that are shown
DAY = 86_400  # seconds by which the clock of a worker may be ahead


class Counts(NamedTuple):
    """What workers have done, in all sessions that a store knows."""

    files: int = 0
    octets: int = 0
    unchanged: int = 0
    gone: int = 0
    parts: int = 0

    def since(self, before: Counts) -> Counts:
        """Returns what was done since then."""
        return Counts(*(max(0, now - then) for now, then in zip(self, before)))


class State(NamedTuple):
    """Where an index is."""

    counts: Counts
    to_do: int
    """Parts that are to be done."""
    taken: int
    given_up: int
    workers: int
    """Workers that have a session. With SQLite, those that hold parts."""


class WorkerState(NamedTuple):
    """What a worker does."""

    name: str
    account: Optional[str]
    address: Optional[str]
    package: str
    began: Optional[int]
    """This and the next one are None if they are no times that can be."""
    seen: Optional[int]
    parts: int
    files: int
    octets: int
    held: int
    """Parts that it has taken."""
    since: Optional[int]
    """When it took the first of them."""
    note: Optional[str]
    """Why it was refused."""


class Watch:
    """Looks at a store without a connection that is kept, so that processes can be begun meanwhile."""

    def __init__(self, url: sa.engine.URL, wait: Optional[float]) -> None:
        self.url = url
        self._engine = engine_of(url, False, wait, sa.pool.NullPool)

    def asked(self, ask: Callable[[sa.engine.Connection], Any]) -> Any:
        """Returns what is asked of the store."""
        with self._engine.connect() as connection:
            return ask(connection)

    def state(self) -> Optional[State]:
        """Returns where the index is; None if the database does not reply now."""
        try:
            found: State = self.asked(state_of)
            return found
        except DBAPIError:
            return None


def counts_in(connection: sa.engine.Connection) -> Counts:
    """Returns what all workers have done."""
    sums = [sa.func.coalesce(sa.func.sum(WORKERS.c[name]), 0) for name in Counts._fields]
    return Counts(*map(int, connection.execute(sa.select(*sums)).one()))


def _count(connection: sa.engine.Connection, where: Any) -> int:
    return int(connection.execute(sa.select(sa.func.count()).select_from(PARTS).where(where)).scalar_one())


def state_of(connection: sa.engine.Connection) -> State:
    """Returns where the index is."""
    to_do, taken, given_up = (_count(connection, it) for it in (IS_TO_DO, IS_TAKEN, IS_GIVEN_UP))
    return State(counts_in(connection), to_do, taken, given_up, _sessions(connection))


def _sessions(connection: sa.engine.Connection) -> int:
    if connection.dialect.name != "postgresql":
        return int(connection.execute(sa.select(sa.func.count(PARTS.c.holder.distinct())).where(IS_TAKEN)).scalar_one())
    asked = "SELECT count(*) FROM pg_locks WHERE locktype = 'advisory' AND objsubid = 2 AND granted AND classid = {} AND database = {}"
    database = "(SELECT oid FROM pg_database WHERE datname = current_database())"
    return int(connection.exec_driver_sql(asked.format(WORKER_LOCK, database)).scalar() or 0)


def workers_of(connection: sa.engine.Connection, is_all: bool = False) -> Iterator[WorkerState]:
    """Gives the workers that have not ended, or were refused since the last index began; or all that a store knows."""
    own = PARTS.c.holder == WORKERS.c.id
    held = sa.select(sa.func.count()).where(IS_TAKEN, own).correlate(WORKERS).scalar_subquery()
    since = sa.select(sa.func.min(PARTS.c.since)).where(IS_TAKEN, own).correlate(WORKERS).scalar_subquery()
    named = {"held": held.label("held"), "since": since.label("since")}
    columns = [named[it] if it in named else WORKERS.c[it] for it in WorkerState._fields]
    is_wanted = sa.true() if is_all else WORKERS.c.ended.is_(None) | WORKERS.c.note.is_not(None)
    for row in connection.execute(sa.select(*columns).where(is_wanted).order_by(WORKERS.c.id)):
        yield _plain(WorkerState(*row))


def _plain(worker: WorkerState) -> WorkerState:
    """Returns the same without what no worker that works would say: times before 1970 or to come, and a note that is long."""
    latest = int(time.time()) + DAY
    began, seen, since = (it if it is not None and 0 <= it <= latest else None for it in (worker.began, worker.seen, worker.since))
    is_long = worker.note is not None and len(worker.note) > MOST_OF_A_NOTE
    return worker._replace(note=f"{str(worker.note)[:MOST_OF_A_NOTE]}.." if is_long else worker.note, began=began, seen=seen, since=since)


def given_up(connection: sa.engine.Connection) -> Iterator[str]:
    """Gives the paths of the parts that were given up."""
    for path, name in connection.execute(sa.select(PARTS.c.path, PARTS.c.name).where(IS_GIVEN_UP).order_by(PARTS.c.path, PARTS.c.name)):
        yield f"{path}{name}"
