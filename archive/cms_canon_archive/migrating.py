"""Makes the tables of a store, and brings those of an older release up to date."""

from __future__ import annotations

import re
from contextlib import contextmanager
from typing import Any, Dict, Iterator, List

import sqlalchemy as sa

from . import guards, history
from .containers.found import Class
from .tables import ABOUT, BY_DIGEST, LISTS, OF_PARTS, PARTS, PLACES, SCHEMA, TABLES, Digest, PartState, columns_of, views

LOCK = 5652_3161  # the number of the lock under which the tables are made
_CONTROL = re.compile("[\1-\x1f\x7f-\x9f]")


class WrongVersion(Exception):
    """The tables of a store are of no version that this command knows."""


@contextmanager
def alone(engine: sa.engine.Engine) -> Iterator[sa.engine.Connection]:
    """Lends a connection that alone changes tables, however many commands begin at once."""
    with engine.begin() as connection:
        if engine.dialect.name == "postgresql":
            connection.execute(sa.select(sa.func.pg_advisory_xact_lock(LOCK)))
        elif engine.dialect.name == "sqlite":
            connection.exec_driver_sql("BEGIN IMMEDIATE")
        yield connection


def version_in(connection: sa.engine.Connection) -> int:
    """Returns the version of the tables, 0 if there are none."""
    inspector = sa.inspect(connection)
    if not inspector.has_table(ABOUT.name):
        return 1 if inspector.has_table("files") else 0
    said = str(connection.execute(sa.select(ABOUT.c.value).where(ABOUT.c.name == "schema")).scalar() or 1)
    if not (said.isascii() and said.isdecimal()):
        raise WrongVersion("the store says a version of its tables that is no number")
    return int(said)


def newer(version: int) -> str:
    """Returns what is said of a store of a later release."""
    return f"the store has tables of version {version}, and this command knows them up to {SCHEMA}: use the release that wrote it"


def migrate(connection: sa.engine.Connection) -> None:
    """Makes the tables, or those of an older version into such of this one."""
    before = version_in(connection)
    if before > SCHEMA:
        raise WrongVersion(newer(before))
    if before == SCHEMA:
        if connection.dialect.name == "postgresql":
            guards.put_up(connection, are_there=True)
        return
    if before in _RENEWED:
        _renew(connection)
        return
    if before:
        _put_aside(connection, before)
    _make_tables(connection)
    if before:
        _take_over(connection)
        connection.execute(sa.update(PLACES).values(stored=None))
    _make_views(connection)
    history.keep(connection)
    if connection.dialect.name == "postgresql":
        guards.put_up(connection)
    connection.execute(sa.delete(ABOUT))
    connection.execute(sa.insert(ABOUT), [{"name": "schema", "value": str(SCHEMA)}])


def _make_tables(connection: sa.engine.Connection) -> None:
    """Makes the tables that are not there."""
    for table in TABLES.sorted_tables:
        connection.execute(sa.schema.CreateTable(table, if_not_exists=True))
        for index in sorted(table.indexes, key=lambda it: str(it.name)):
            if index.name != "places_by_digest":  # which is made when the first rows are all there
                _make_index(connection, index)


def _make_index(connection: sa.engine.Connection, index: sa.Index) -> None:
    """Makes an index. It is of the same rows in PostgreSQL as in SQLite: if its table said so, the dialect would be imported for each store."""
    if connection.dialect.name == "postgresql":
        index.dialect_kwargs["postgresql_where"] = index.dialect_kwargs.get("sqlite_where")
    connection.execute(sa.schema.CreateIndex(index, if_not_exists=True))


def _make_views(connection: sa.engine.Connection) -> None:
    for name, asked in views().items():
        text = asked.compile(dialect=connection.dialect, compile_kwargs={"literal_binds": True})
        connection.exec_driver_sql(f"CREATE VIEW {name} AS {str(text)}".replace("%", "%%" if connection.dialect.name == "postgresql" else "%"))


# ---- the tables of the versions before, which have the same names

_RENEWED = (3, 4)


def _renew(connection: sa.engine.Connection) -> None:
    """Brings the tables up to date: they may lack columns, and values that their checks know. Their rows, and all else, are kept."""
    if not _has_column(connection, PARTS.c.settings):
        _add(connection, PARTS, PARTS.c.settings)
    for name in views():
        connection.exec_driver_sql(f"DROP VIEW IF EXISTS {name}")
    for table in OF_PARTS:
        if connection.dialect.name == "postgresql":
            _alter(connection, table)
        else:
            _copy_to_new(connection, table)
    _make_tables(connection)
    connection.execute(sa.update(PLACES).values(stored=None))  # which nobody knows
    _make_views(connection)
    history.keep(connection)
    if connection.dialect.name == "postgresql":
        guards.put_up(connection, are_there=True)
    connection.execute(sa.update(ABOUT).where(ABOUT.c.name == "schema").values(value=str(SCHEMA)))


def _alter(connection: sa.engine.Connection, table: sa.Table) -> None:
    """Adds the columns that a table lacks, and has it checked as it is now. The triggers of PostgreSQL and the rights stay with the table."""
    for column in (it for it in table.columns if not _has_column(connection, it)):
        _add(connection, table, column)
    for check in sorted((it for it in table.constraints if isinstance(it, sa.CheckConstraint)), key=lambda it: str(it.name)):
        connection.exec_driver_sql(f"ALTER TABLE {table.name} DROP CONSTRAINT IF EXISTS {check.name}")
        connection.execute(sa.schema.AddConstraint(check))


def _has_column(connection: sa.engine.Connection, column: sa.Column) -> bool:
    return column.name in {it["name"] for it in sa.inspect(connection).get_columns(column.table.name)}


def _add(connection: sa.engine.Connection, table: sa.Table, column: sa.Column) -> None:
    text = sa.schema.CreateColumn(column).compile(dialect=connection.dialect)
    connection.exec_driver_sql(f"ALTER TABLE {table.name} ADD COLUMN {text}")


def _copy_to_new(connection: sa.engine.Connection, table: sa.Table) -> None:
    """Makes a table anew, since SQLite changes no check, with the rows of the old one."""
    there = [it["name"] for it in sa.inspect(connection).get_columns(table.name)]
    has_index = any(it["name"] == BY_DIGEST.name for it in sa.inspect(connection).get_indexes(table.name))
    connection.exec_driver_sql(f"DROP INDEX IF EXISTS {BY_DIGEST.name}" if has_index else "SELECT 1")
    connection.exec_driver_sql(f"ALTER TABLE {table.name} RENAME TO old_{table.name}")
    connection.execute(sa.schema.CreateTable(table))
    names = ", ".join(connection.dialect.identifier_preparer.quote(it) for it in there if it in table.columns)
    connection.exec_driver_sql(f"INSERT INTO {table.name} ({names}) SELECT {names} FROM old_{table.name}")
    connection.exec_driver_sql(f"DROP TABLE old_{table.name}")
    if has_index:
        BY_DIGEST.create(connection)


# ---- the tables of older releases

_OLD = {"files": "old_files", "signers": "old_signers", "times": "old_times"}
_KINDS_OF_THE_FIRST = """CASE WHEN kind <> 'signed-data' THEN CASE WHEN kind = 'archive' THEN NULL ELSE kind END
    WHEN signers = 0 THEN 'certificates' WHEN time IS NOT NULL THEN 'token' WHEN kind = 'signed-data' THEN 'signature' END"""
_CLASSES_OF_THE_FIRST = f"""CASE WHEN kind = 'archive' THEN '{Class.CONTAINER.value}' WHEN error IS NOT NULL THEN '{Class.UNREADABLE.value}'
    WHEN reason IS NOT NULL THEN '{Class.REFUSED.value}' WHEN digest IS NOT NULL THEN '{Class.MESSAGE.value}' ELSE '{Class.NO_CANDIDATE.value}' END"""
_FOLDER = "coalesce(nullif(rtrim(old.path, replace(old.path, '/', '')), ''), '/')"  # whatever follows the last slash is taken away


def _put_aside(connection: sa.engine.Connection, version: int) -> None:
    for name, other in _OLD.items():
        if version > 1 or name == "files":
            connection.exec_driver_sql(f"ALTER TABLE {name} RENAME TO {other}")
    for name in ("ix_files_digest", "files_by_digest"):
        connection.exec_driver_sql(f"DROP INDEX IF EXISTS {name}")


def _take_over(connection: sa.engine.Connection) -> None:
    """Takes rows over, each folder as a part that is done. The next index reads again what an older release would have stored otherwise."""
    _define(connection)
    old = {it["name"] for it in sa.inspect(connection).get_columns("old_files")}
    yes = "true" if connection.dialect.name == "postgresql" else "1"
    connection.exec_driver_sql(
        f"INSERT INTO parts (path, state, is_stored) SELECT DISTINCT {_FOLDER}, {int(PartState.DONE)}, {yes} FROM old_files AS old"
    )
    there = set(sa.inspect(connection).get_table_names())
    own: Dict[str, str] = {} if "what" in old else {"what": _CLASSES_OF_THE_FIRST, "kind": _KINDS_OF_THE_FIRST}
    _copy(connection, "old_files", PLACES, own, old)
    for name, table in LISTS.items():
        other = _OLD["signers" if name == "signed_by" else name]
        if other in there:
            _copy(connection, other, table, {}, {it["name"] for it in sa.inspect(connection).get_columns(other)})
    for other in _OLD.values():
        connection.exec_driver_sql(f"DROP TABLE IF EXISTS {other}")


def _define(connection: sa.engine.Connection) -> None:
    """Has SQLite know what PostgreSQL has of its own."""
    if connection.dialect.name == "sqlite":
        database: Any = connection.connection.dbapi_connection
        database.create_function("octets_of", 1, lambda text: None if text is None else bytes.fromhex(text))
        database.create_function("plain", 1, lambda text: _CONTROL.sub("?", text) if isinstance(text, str) else text)


def _copy(connection: sa.engine.Connection, other: str, table: sa.Table, own: Dict[str, str], old: Any) -> None:
    columns: List[str] = ["part", "file", "member"]
    values = ["parts.id", f"substr(old.path, length({_FOLDER}) + 1)", _taken(connection, table.c.member, "member")]
    quoted = connection.dialect.identifier_preparer.quote
    for column in columns_of(table):
        if column.name in own or column.name in old:
            columns.append(quoted(column.name))
            values.append(own.get(column.name) or _taken(connection, column, quoted(column.name)))
    joined = f"{other} AS old JOIN parts ON parts.path = {_FOLDER} AND parts.name = ''"
    connection.exec_driver_sql(f"INSERT INTO {table.name} ({', '.join(columns)}) SELECT {', '.join(values)} FROM {joined}")


def _taken(connection: sa.engine.Connection, column: sa.Column, name: str) -> str:
    """Returns how a value of an older table is taken over."""
    is_postgresql = connection.dialect.name == "postgresql"
    if isinstance(column.type, Digest):
        return f"decode(old.{name}, 'hex')" if is_postgresql else f"octets_of(old.{name})"
    if isinstance(column.type, sa.String):
        return f"regexp_replace(old.{name}, '[\\u0001-\\u001f\\u007f-\\u009f]', '?', 'g')" if is_postgresql else f"plain(old.{name})"
    return f"old.{name}"
