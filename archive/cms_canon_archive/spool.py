"""Rows that are read and not stored yet, and how a database takes many of them at once.

Rows go to SQLite by the driver's own call and to PostgreSQL by COPY, which takes half the time of statements. A file of very many members
is stored in one transaction, at the end, so that no transaction waits for a disk and no reader sees half a tar.
"""

from __future__ import annotations

import io
import pickle
import tempfile
from typing import IO, Any, Dict, Iterable, Iterator, List, Optional, Sequence, Tuple

import sqlalchemy as sa
from sqlalchemy.exc import DBAPIError

from .reading import Read, Values
from .tables import LISTS, PLACES, PLACE_SIGNERS, PLACE_TIMES, Digest, sent_columns

TOGETHER = 10_000  # rows that are in memory: the rows of a tar may be millions


class Spool:
    """Rows of all tables of a place, in memory, or in a file without a name if they are many."""

    def __init__(self, worker: Optional[int]) -> None:
        """`worker` is the number of who reads them, if it has one."""
        self._worker = (worker,)
        self._rows: Dict[sa.Table, List[Values]] = {PLACES: [], **{it: [] for it in LISTS.values()}}
        self._tables = list(self._rows)
        self._in_memory = 0
        self._file: Optional[IO[bytes]] = None

    def add(self, part: int, file: str, read: Read) -> None:
        """Adds what was read of one place, under the name of its file. The values of each are in the order of the columns."""
        place, signed_by, times = read
        named = (part, file)
        self._rows[PLACES].append(named + place + self._worker)
        if signed_by:
            self._rows[PLACE_SIGNERS] += [(part, file, place.member, *it) for it in signed_by]
        if times:
            self._rows[PLACE_TIMES] += [(part, file, place.member, *it) for it in times]
        self._in_memory += 1 + len(signed_by) + len(times)
        if self._in_memory >= TOGETHER:
            self._put_away()

    def _put_away(self) -> None:
        if self._file is None:
            self._file = tempfile.TemporaryFile(prefix="cms-canon-archive-")
        for number, table in enumerate(self._tables):
            pickle.dump((number, self._rows[table]), self._file)
            self._rows[table] = []
        self._in_memory = 0

    def pieces(self) -> Iterator[Tuple[sa.Table, List[Values]]]:
        """Gives the rows of one table after another. It can be asked again, if they could not be stored."""
        if self._file is not None:
            self._file.seek(0)
            try:
                while True:
                    number, rows = pickle.load(self._file)
                    yield self._tables[number], rows
            except EOFError:
                pass
        for table, rows in self._rows.items():
            yield table, rows

    def close(self) -> None:
        """Lets go of the file."""
        if self._file is not None:
            self._file.close()


# ---- storing many at once


def store(connection: sa.engine.Connection, pieces: Iterable[Tuple[sa.Table, List[Values]]]) -> None:
    """Stores rows in a transaction that is begun: by COPY in PostgreSQL, and by the driver's own call in SQLite."""
    put = _copy if connection.dialect.name == "postgresql" else _insert
    for table, rows in pieces:
        if rows:
            put(connection, table, rows)


def _insert(connection: sa.engine.Connection, table: sa.Table, rows: List[Values]) -> None:
    columns = sent_columns(table)
    connection.exec_driver_sql(f"INSERT INTO {table.name} ({_named(connection, columns)}) VALUES ({', '.join('?' * len(columns))})", rows)


def _named(connection: sa.engine.Connection, columns: Iterable[sa.Column]) -> str:
    quote = connection.dialect.identifier_preparer.quote
    return ", ".join(quote(it.name) for it in columns)


def _copy(connection: sa.engine.Connection, table: sa.Table, rows: List[Values]) -> None:
    columns = sent_columns(table)
    names = _named(connection, columns)
    octets_at = [number for number, it in enumerate(columns) if isinstance(it.type, Digest)]
    text = "".join([_line(it, octets_at) for it in rows]).encode()
    driver, cursor = connection.dialect.dbapi, connection.connection.cursor()
    try:
        cursor.copy_expert(f"COPY {table.name} ({names}) FROM STDIN", io.BytesIO(text))
    except driver.Error as error:  # which SQLAlchemy does not see, so that it is put here in the form of its own
        is_lost = connection.dialect.is_disconnect(error, connection.connection.dbapi_connection, cursor)
        raise DBAPIError.instance("COPY", None, error, driver.Error, connection_invalidated=is_lost, dialect=connection.dialect) from error
    finally:
        cursor.close()


_NULL, _OCTETS = "\0", "\1"  # stand in a line for what would need a backslash: no text has control characters
_ESCAPES = str.maketrans({"\\": "\\\\", "\t": "\\t", "\n": "\\n", "\r": "\\r", "\0": "", "\1": ""})


def _line(row: Values, octets_at: Sequence[int]) -> str:
    """Returns a row as COPY takes it. Few rows have anything that is to be escaped, so all of a row is looked at once."""
    words = [it if type(it) is str else _NULL if it is None else _word(it) for it in row]
    for at in octets_at:
        if row[at] is not None:
            words[at] = _OCTETS + row[at].hex()
    line = "\t".join(words)
    if "\\" in line or "\n" in line or "\r" in line or line.count("\t") >= len(words):
        line = "\t".join([it if it is _NULL or n in octets_at else it.translate(_ESCAPES) for n, it in enumerate(words)])
    return line.replace(_OCTETS, "\\\\x").replace(_NULL, "\\N") + "\n"


def _word(value: Any) -> str:
    return ("t" if value else "f") if value is True or value is False else str(value)
