"""What is known of each file, in a database that is asked, and brought up to date by workers or by lines of `rows`.

A store that cannot be written to is opened as immutable, since SQLite makes a log beside a file to read it. What lies below a folder is
found by a range of paths, and not by `LIKE`, to which `A` and `a` are the same in SQLite.
"""

from __future__ import annotations

import json
import os
import re
import socket
import time
from datetime import datetime, timezone
from itertools import groupby
from typing import Any, Callable, Dict, Iterable, Iterator, List, Optional, Sequence, Set, Tuple, TypeVar

import sqlalchemy as sa
from sqlalchemy.exc import DBAPIError

from .containers.found import Class
from .history import compare
from .migrating import WrongVersion, alone, migrate, newer, version_in
from .opening import NoIndex, NoStore, engine_of, is_sqlite, is_writable, own_files, url_of, without_password
from .reading import MOST, Part, Row
from .tables import ABOUT, ALLOWED, BY_DIGEST, FILES, LISTS, MOST_OF_A_KEY, NOT_NEGATIVE, OF_PARTS, PARTS, PLACES, REASONS, SCHEMA, SIGNERS, TIMES
from .tables import Digest, PartState, columns_of, insertion, is_digest, sent_columns, shown
from .texts import chunk_of, folder_and_name

__all__ = ["FILES", "SIGNERS", "TIMES", "NoStore", "Store", "is_row", "url_of", "without_password"]

ASKED = 900  # rows that are in memory at once, or paths in a statement: SQLite before 3.32 takes 999 values
MOST_PATHS = 100  # that a store names as indexed, or as not there
MISSING = "not there"  # the name under which a store has the paths that the last index named and that were not there
TRIES = 8  # of a transaction that another command is in the way of
MOST_INTEGER = (1 << 31) - 1  # the largest number of a column that is not of large ones
_PASSING = ("40P01", "40001", "23505", "42P07")  # a deadlock, another order of transactions, a row or a table that is there meanwhile
_NO_TEXT = re.compile("[\0-\x1f\x7f-\x9f\ud800-\udfff]")
_UNENDED = "its reading has not ended"
LOAD = "load"  # the name under which a store has why the last load has not all that it was given
T = TypeVar("T")


# ---- what a store takes


def _is_value(value: object, column: sa.Column) -> bool:
    if value is None:
        return bool(column.nullable)
    if isinstance(column.type, sa.Boolean) or isinstance(value, bool):
        return isinstance(column.type, sa.Boolean) and isinstance(value, bool)
    if isinstance(column.type, sa.Integer):
        most = MOST if isinstance(column.type, sa.BigInteger) else MOST_INTEGER
        return isinstance(value, int) and -most <= value <= most
    return isinstance(value, str) and not _NO_TEXT.search(value) and _is_text_of(value, column)


def _is_text_of(text: str, column: sa.Column) -> bool:
    """Whether a column takes a text: PostgreSQL refuses one that is too long, with all that is stored together with it."""
    if isinstance(column.type, Digest):
        return is_digest(text)
    most = getattr(column.type, "length", None)
    return (most is None or len(text) <= most) and (not column.primary_key or len(text.encode()) <= MOST_OF_A_KEY)


def _is_record(record: object, columns: Sequence[sa.Column]) -> bool:
    names = {it.name for it in columns}
    return isinstance(record, dict) and set(record) == names and all(_is_value(record[it.name], it) for it in columns)


def _is_allowed(record: Dict[str, Any]) -> bool:
    """Whether the values of a row go together, as the database has it too."""
    is_message, is_refused = record["what"] == Class.MESSAGE.value, record["what"] == Class.REFUSED.value
    return (
        all(record[name] in (None, *values) for name, values in ALLOWED.items())
        and all((record[name] or 0) >= 0 for name in NOT_NEGATIVE)
        and is_message == (record["digest"] is not None)
        and is_refused == (record["reason"] is not None)
        and (record["reason"] is None or record["reason"] in REASONS)
        and (record["state"] is None or is_message)
    )


def _is_path(path: object) -> bool:
    if not isinstance(path, str) or not path.startswith("/") or _NO_TEXT.search(path):
        return False
    return all(len(it.encode()) <= MOST_OF_A_KEY for it in folder_and_name(path))


def is_row(row: object) -> bool:
    """Whether a store takes this as a row of `rows`."""
    if not isinstance(row, dict) or not all(isinstance(row.get(it), list) for it in LISTS):
        return False
    for name, table in LISTS.items():
        columns = columns_of(table)
        if not all(_is_record(it, columns) for it in row[name]) or len({it["number"] for it in row[name]}) != len(row[name]):
            return False
        if name == "times" and not all(it["state"] in (None, *ALLOWED["state"]) for it in row[name]):
            return False
    record = {name: value for name, value in row.items() if name not in (*LISTS, "path")}
    return _is_path(row.get("path")) and _is_record(record, [PLACES.c.member, *columns_of(PLACES)]) and _is_allowed(record)


# ---- a store


def _insertion(table: sa.Table, dialect: Any) -> Any:
    """Returns the statement that stores rows, each in place of what is stored under its name."""
    keys = [it.name for it in table.primary_key.columns]
    stored = insertion(table, dialect.name)
    others = {it.name: stored.excluded[it.name] for it in sent_columns(table) if it.name not in keys}
    return stored.on_conflict_do_update(index_elements=keys, set_=others)


class Store:
    """A database with a row for each file, and for each place in it at which there is something."""

    def __init__(self, name: str, makes: bool = False, wait: Optional[float] = None) -> None:
        """Opens a store, or makes it if it is not there. Raises `NoIndex` if it is not there and is not to be made.

        `wait` is how many seconds to wait for another command that uses it.
        """
        self.url = url_of(name)
        self.wait = wait
        self.is_sqlite = is_sqlite(self.url)
        if not makes and self.is_sqlite and not os.path.exists(str(self.url.database)):  # which SQLite would make
            raise NoIndex(f"there is no index in {self.name()}")
        self.engine = engine_of(self.url, makes, wait)
        try:
            if makes:
                self.tried(self._make)
            else:
                self._check_version(name, wait)
        except WrongVersion as why:
            raise NoStore(str(why))

    def _make(self) -> None:
        with alone(self.engine) as connection:
            migrate(connection)

    def _check_version(self, name: str, wait: Optional[float]) -> None:
        with self.engine.connect() as connection:
            version = version_in(connection)
        if version == 0:
            raise NoIndex(f"there is no index in {self.name()}")
        if version > SCHEMA:
            raise NoStore(newer(version))
        if version < SCHEMA:
            self._migrate_to_ask(name, wait)

    def _migrate_to_ask(self, name: str, wait: Optional[float]) -> None:
        self.engine.dispose()
        if self.is_sqlite and not is_writable(str(self.url.database)):
            raise NoStore("the store has tables of an older version, and cannot be written to: ask a copy of it")
        Store(name, makes=True, wait=wait).close()
        self.engine = engine_of(self.url, False, wait)

    def close(self) -> None:
        """Closes the connections."""
        self.engine.dispose()

    def name(self) -> str:
        """Returns the URL without its password, or whatever else is after a question mark."""
        return without_password(self.url)

    def own_files(self) -> Set[str]:
        """Returns the files that are kept for this store, which are not to be indexed."""
        return own_files(self.url)

    def tried(self, do: Callable[[], T]) -> T:
        """Does it again if another command was in the way in PostgreSQL. SQLite waits by itself."""
        for left in reversed(range(TRIES)):
            try:
                return do()
            except DBAPIError as error:
                if not left or getattr(error.orig, "pgcode", None) not in _PASSING:
                    raise
                time.sleep(0.05 * (TRIES - left))
        raise AssertionError("not reached")

    # ---- what it says of itself

    def about(self) -> Dict[str, str]:
        """Returns what the store says of itself: the version of its tables, and by whom, where and when it was brought up to date."""
        return {str(row["name"]): str(row["value"]) for row in self.asked(sa.select(ABOUT))}

    def paths(self) -> List[str]:
        """Returns the texts of the paths that were indexed."""
        return [str(it) for it in json.loads(self.about().get("paths", "[]"))]

    def missing(self) -> List[str]:
        """Returns the texts of the paths that the last index named and that were not there."""
        return [str(it) for it in json.loads(self.about().get(MISSING, "[]"))]

    def note(self, noted: Dict[str, str]) -> None:
        """Notes what is to be said of the store."""

        def note() -> None:
            with alone(self.engine) as connection:
                connection.execute(sa.delete(ABOUT).where(ABOUT.c.name.in_(list(noted))))
                connection.execute(sa.insert(ABOUT), [{"name": name, "value": value} for name, value in noted.items()])

        self.tried(note)

    def note_index(self, paths: Iterable[str], library: str) -> None:
        """Notes that these paths were indexed now, by this version."""
        now = datetime.now(timezone.utc).strftime("%Y-%m-%d %H:%M UTC")
        self.note_paths(paths, {"host": socket.gethostname(), "indexed": now, "library": library})

    def note_paths(self, paths: Iterable[str], noted: Dict[str, str]) -> None:
        """Notes that these paths are indexed, or were, and what else is to be said of the store."""
        self.note({"paths": json.dumps(sorted({*self.paths(), *paths})[:MOST_PATHS]), **noted})

    # ---- what is stored

    def put(self, parts: List[Part]) -> None:
        """Stores rows of files in one transaction. The first part of a file is in place of all that was stored of it.

        A file whose last part has not come has a row of its own that says so, so that it is read again if it never comes.
        """
        self.tried(lambda: self._put(parts))

    def _put(self, parts: List[Part]) -> None:
        rows = list({(row["path"], row["member"]): row for part in parts for row in part.rows}.values())  # of equal names the last
        ended = {part.path for part in parts if part.is_last}
        rows += [_unended(it) for it in {part.path: part.rows[0] for part in parts if part.path not in ended}.values()]
        with self.engine.begin() as connection:
            if self.is_sqlite:
                connection.exec_driver_sql("BEGIN IMMEDIATE")
            keys = _keys_of(connection, sorted({str(row["path"]) for row in rows}))
            for path in sorted({part.path for part in parts if part.is_first}):
                part, file = keys[path]
                for table in OF_PARTS:
                    connection.execute(sa.delete(table).where(table.c.part == part, table.c.file == file))
            placed: List[Row] = [{**row, "part": keys[row["path"]][0], "file": keys[row["path"]][1], "worker": None} for row in rows]
            self._insert(connection, PLACES, placed)
            for name, table in LISTS.items():
                self._insert(connection, table, [{**it, **{key: row[key] for key in ("part", "file", "member")}} for row in placed for it in row[name]])

    def _insert(self, connection: sa.engine.Connection, table: sa.Table, rows: List[Row]) -> None:
        if rows:
            columns = [it.name for it in sent_columns(table)]
            connection.execute(_insertion(table, self.engine.dialect), [{name: row[name] for name in columns} for row in rows])

    def finish(self) -> None:
        """Makes the index of digests if it is not there, since to add to it for each of millions of rows takes most of the time, and compares what was dropped."""
        with alone(self.engine) as connection:
            if self.is_sqlite:
                connection.exec_driver_sql("PRAGMA cache_size=-32768")  # it sorts as much in memory as it keeps
            connection.execute(sa.schema.CreateIndex(BY_DIGEST, if_not_exists=True))
        compare(self.engine)
        if self.is_sqlite:
            with self.engine.connect() as connection:
                connection.exec_driver_sql("PRAGMA wal_checkpoint(TRUNCATE)")  # so that the file alone can be copied

    # ---- asking it

    def asked(self, query: Any) -> Iterator[Row]:
        """Gives the rows that a query finds."""
        with self.engine.connect() as connection:
            for row in connection.execution_options(yield_per=ASKED).execute(query):
                yield dict(row._mapping)

    def rows(self, *conditions: Any, order: Sequence[Any] = (FILES.c.path, FILES.c.member)) -> Iterator[Row]:
        """Gives the rows of files and members that meet the conditions."""
        return self.asked(sa.select(*shown(FILES)).where(*conditions).order_by(*order))


def _keys_of(connection: sa.engine.Connection, paths: Sequence[str]) -> Dict[str, Tuple[int, str]]:
    """Returns the part and the file by which a store has each path, which is a part of its own or one of a folder."""
    found: Dict[str, Tuple[int, str]] = {}
    for folder, some in groupby(sorted(map(folder_and_name, paths)), key=lambda it: it[0]):
        parts = connection.execute(sa.select(PARTS.c.id, PARTS.c.name, PARTS.c.chunk, PARTS.c.chunks).where(PARTS.c.path == folder)).all()
        if not any(it.name == "" for it in parts):
            new = {"path": folder, "top": len(folder), "state": PartState.DONE, "is_stored": True}
            made = connection.execute(sa.insert(PARTS).values(**new)).inserted_primary_key[0]
            own, chunks = {0: int(made)}, 1
        else:
            own = {it.chunk: it.id for it in parts if it.name == ""}
            chunks = max(it.chunks for it in parts if it.name == "")
        alone_ones = {it.name: it.id for it in parts if it.name != ""}
        used = set()
        for _, name in some:
            key = (alone_ones[name], "") if name in alone_ones else (own.get(chunk_of(name, chunks), next(iter(own.values()))), name)
            found[folder + name] = key
            used.add(key[0])
        connection.execute(sa.update(PARTS).where(PARTS.c.id.in_(used), PARTS.c.is_stored.is_(False)).values(is_stored=True))
    return found


def _unended(row: Row) -> Row:
    """Returns the row of a file of which more is to come."""
    nothing = dict.fromkeys(it.name for it in PLACES.columns)
    same = {name: row[name] for name in ("path", "size", "changed", "inode", "beside", "library", "reader")}
    return {**nothing, **same, **{name: [] for name in LISTS}, "member": "", "length": row["size"], "what": Class.UNREADABLE.value, "form": "file",
            "note": _UNENDED, "error": _UNENDED, "is_settled": False, "is_verified": False}
