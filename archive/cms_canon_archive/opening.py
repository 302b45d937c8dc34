"""How the database of a store is named and opened: the path of a file of SQLite, or a URL of SQLAlchemy, as `postgresql://HOST/NAME`."""

from __future__ import annotations

import os
from typing import Any, Dict, Optional, Set

import sqlalchemy as sa
from sqlalchemy.exc import ArgumentError, NoSuchModuleError

from .faults import Complaint

WORKERS_ENDING = "-workers"  # of the file in which workers on SQLite have their locks
WAITED = 5.0  # seconds for a store that another command uses
_KEPT_ALIVE = {"keepalives_idle": 10, "keepalives_interval": 5, "keepalives_count": 3, "connect_timeout": 10}
_CANNOT_BE_READ = "the store is named by no URL that can be read"


class NoStore(Complaint):
    """There is no store to be asked."""


class NoIndex(NoStore):
    """No index has been begun in the store."""


def url_of(name: str) -> sa.engine.URL:
    """Returns the URL of a store by its name. Raises `NoStore` if it is none; what it is is not repeated, since it may hold a password."""
    if "://" not in name:
        return sa.engine.URL.create("sqlite", database=name)
    try:
        url = sa.engine.make_url(name)
    except (ArgumentError, ValueError):
        raise NoStore(_CANNOT_BE_READ)
    if url.get_backend_name() == "sqlite" and url.database in (None, "", ":memory:"):
        raise NoStore("a store in memory would be lost: name a file")
    return url


def without_password(url: sa.engine.URL) -> str:
    """Returns a URL without its password, or whatever else is after a question mark."""
    bare = sa.engine.URL.create(url.drivername, url.username, None, url.host, url.port, url.database)
    return str(bare.render_as_string(hide_password=True))


_WITH_NO_SECRET = ("host", "port", "service", "sslmode", "sslrootcert", "sslcert", "sslkey", "target_session_attrs")


def for_others(url: sa.engine.URL) -> str:
    """Returns the URL by which workers elsewhere find the store. Each has its password in a file of its own."""
    bare = sa.engine.URL.create(url.drivername, url.username, None, url.host, url.port, url.database)
    query = {name: value for name, value in url.query.items() if name in _WITH_NO_SECRET}
    return str(bare.update_query_dict(query).render_as_string(hide_password=True))


def is_sqlite(url: sa.engine.URL) -> bool:
    """Whether the store is a file of this machine."""
    return bool(url.get_backend_name() == "sqlite")


def own_files(url: sa.engine.URL) -> Set[str]:
    """Returns the files that SQLite and workers keep for a store, which are not to be indexed."""
    if not is_sqlite(url):
        return set()
    places = (os.path.abspath(str(url.database)), os.path.realpath(str(url.database)))
    return {place + ending for place in places for ending in ("", "-wal", "-shm", "-journal", WORKERS_ENDING)}


def is_writable(database: str) -> bool:
    """Whether a file and its folder can be written to."""
    return os.access(database, os.W_OK) and os.access(os.path.dirname(os.path.abspath(database)), os.W_OK)


def _refuse_with_log(database: str) -> None:
    """Raises `NoStore` if the newest rows of a file of SQLite are in the log beside it, which is not read with it if nobody can write to it."""
    try:
        size = os.stat(f"{database}-wal").st_size
    except OSError:
        return
    if size:
        raise NoStore("the store is being written to, or was not closed, and cannot be written to from here: ask again when its index has ended, or a copy of it")


def _quick(connection: Any, _: Any) -> None:
    """Has SQLite write ahead, so that a process that is killed loses no transaction that was done, and keep 64 MiB in memory."""
    connection.execute("PRAGMA journal_mode=WAL")
    connection.execute("PRAGMA synchronous=NORMAL")
    connection.execute("PRAGMA wal_autocheckpoint=8000")
    connection.execute("PRAGMA cache_size=-65536")


def engine_of(url: sa.engine.URL, writes: bool, wait: Optional[float] = None, pool: Any = sa.pool.QueuePool) -> sa.engine.Engine:
    """Returns what connects with a store. `wait` is how many seconds to wait for another command that uses it."""
    arguments: Dict[str, Any] = {}
    if is_sqlite(url):
        arguments["timeout"] = WAITED if wait is None else wait
        if not writes:
            path = os.path.abspath(str(url.database)).replace("%", "%25").replace("?", "%3f").replace("#", "%23")
            # A file that nobody can write to has no log beside it, which SQLite would make to read one.
            query = {"uri": "true", "mode": "ro"}
            if not is_writable(str(url.database)):
                _refuse_with_log(str(url.database))
                query = {"uri": "true", "immutable": "1"}
            url = sa.engine.URL.create("sqlite", database=f"file:{path}", query=query)
    elif url.get_backend_name() == "postgresql":
        arguments.update(_KEPT_ALIVE)
        if wait is not None:
            arguments["options"] = f"-c lock_timeout={int(wait * 1000)}"
    try:
        engine = sa.create_engine(url, connect_args=arguments, future=True, poolclass=pool)
    except (NoSuchModuleError, ValueError):
        raise NoStore(_CANNOT_BE_READ)
    if engine.dialect.name not in ("sqlite", "postgresql"):
        raise NoStore(f"a store is of SQLite or PostgreSQL, not of {engine.dialect.name}")
    if engine.dialect.name == "sqlite" and writes:
        sa.event.listen(engine, "connect", _quick)
    return engine
