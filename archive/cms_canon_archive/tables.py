"""The tables of a store: parts of an archive that workers take, the workers, and what lies at each place in a file, with its signers and times.

The database refuses rows that no worker should send. What is asked of a store is asked of `FILES`, `SIGNERS` and `TIMES`, which have paths.

A row has its part and the name in it, and not its path: half of an index was paths. The checks are chains of OR: for a list, SQLite makes a
table of its own for each row. The index of digests is made when the first rows are all there, since digests come in no order and each would
change another page.
"""

from __future__ import annotations

import re
from enum import IntEnum
from typing import Any, Dict, Iterable, List, Optional, Tuple

import sqlalchemy as sa
from sqlalchemy.dialects import sqlite
from sqlalchemy.ext.compiler import compiles

from cms_canon._texts import REFUSALS

from .containers.found import Class, State
from .texts import LONGEST

SCHEMA = 5  # the version of the tables: 1 of releases up to 0.8.0, which say no version, 2 of 0.9.0, 3 of 0.10.0 to 0.17.0, and 4 of 0.18.0 to 0.23.0
MOST_CHUNKS = 16  # of a folder: each lists all of it
MOST_TRIED = 1000  # times that a part was taken, as they are counted
MOST_OF_A_KEY = LONGEST + 68  # octets of a name, with what is said at its end if it was cut
TABLES = sa.MetaData()
_Name = sa.Text().with_variant(sa.Text(collation="C"), "postgresql")  # in the order of octets, as in SQLite
_Number = sa.BigInteger().with_variant(sa.Integer(), "sqlite")  # which SQLite counts up by itself
_HEX = re.compile("[0-9a-f]{64}")


class PartState(IntEnum):
    """What was done of a part."""

    TO_DO = 0
    TAKEN = 1
    DONE = 2
    GIVEN_UP = 3


# ---- what a column takes


class Digest(sa.TypeDecorator):  # type: ignore[misc]  # SQLAlchemy 1.4 has no types
    """A SHA-256: 32 octets in the database, 64 hexadecimal digits outside it."""

    impl = sa.LargeBinary(32)
    cache_ok = True

    def process_bind_param(self, value: Optional[str], dialect: Any) -> Optional[bytes]:
        return None if value is None else bytes.fromhex(value)

    def process_result_value(self, value: Any, dialect: Any) -> Optional[str]:
        return None if value is None else bytes(value).hex()


def is_digest(text: str) -> bool:
    """Whether a text is a SHA-256 in hexadecimal digits."""
    return _HEX.fullmatch(text) is not None


class _Plain(sa.sql.ColumnElement):  # type: ignore[misc]  # SQLAlchemy 1.4 has no types
    """Whether texts have no control characters: names have them written out."""

    inherit_cache = False
    type = sa.Boolean()

    def __init__(self, columns: Iterable[sa.Column]) -> None:
        parts = [it if not it.nullable else sa.func.coalesce(it, "") for it in columns]
        self.text = parts[0]
        for it in parts[1:]:
            self.text = self.text.concat(it)


@compiles(_Plain, "postgresql")  # type: ignore[misc]  # likewise
def _plain_in_postgresql(element: _Plain, compiler: Any, **how: Any) -> str:
    return f"({compiler.process(element.text, **how)}) !~ '[\\u0001-\\u001f\\u007f-\\u009f]'"


@compiles(_Plain)  # type: ignore[misc]  # likewise
def _plain_in_sqlite(element: _Plain, compiler: Any, **how: Any) -> str:
    control = "'*[' || char(1) || '-' || char(31) || char(127) || '-' || char(159) || ']*'"
    return f"({compiler.process(element.text, **how)}) NOT GLOB {control}"


class Now(sa.sql.ColumnElement):  # type: ignore[misc]  # SQLAlchemy 1.4 has no types
    """The time by the clock of the database, in seconds since 1970."""

    inherit_cache = True
    type = sa.BigInteger()


@compiles(Now, "postgresql")  # type: ignore[misc]  # likewise
def _now_in_postgresql(element: Now, compiler: Any, **how: Any) -> str:
    return "floor(extract(epoch FROM now()))::bigint"  # a cast by itself would round


@compiles(Now)  # type: ignore[misc]  # likewise
def _now_in_sqlite(element: Now, compiler: Any, **how: Any) -> str:
    return "CAST(strftime('%s', 'now') AS INTEGER)"


ALLOWED: Dict[str, Tuple[str, ...]] = {  # what these columns of a place have, if they have anything
    "what": tuple(it.value for it in Class),
    "state": tuple(it.value for it in State),
    "kind": ("signature", "certificates", "token", "request", "response"),
    "verdict": ("right", "wrong", "unknown"),
}
REASONS = range(1, len(REFUSALS) + 1)
KEPT = ("what", "length", "digest", "sha256", "state", "verdict", "verified_by", "note", "stored")  # the columns of a place that are kept of a row which is dropped
NOT_NEGATIVE = ("length", "size", "inode", "signers", "at", "reader")


# ---- the tables

ABOUT = sa.Table("about", TABLES, sa.Column("name", sa.String(32), primary_key=True), sa.Column("value", sa.Text, nullable=False))

SETTINGS = sa.Table(
    "settings",
    TABLES,
    sa.Column("id", _Number, sa.Identity(), primary_key=True),
    sa.Column("certificates", sa.Text, nullable=False),  # by which signatures are verified, in base64, as a list of JSON
    sa.Column("excluded", sa.Text, nullable=False),  # the patterns of names that are left out, as a list of JSON
    sa.Column("one_file_system", sa.Boolean, nullable=False),  # whether folders on others than the folder above are left out
)

PARTS = sa.Table(
    "parts",
    TABLES,
    sa.Column("id", _Number, sa.Identity(), primary_key=True),
    sa.Column("path", _Name, nullable=False),  # of the folder, with a slash at its end
    sa.Column("name", _Name, nullable=False, server_default=""),  # of the one file that the part is; empty for the files of the folder
    sa.Column("chunk", sa.Integer, nullable=False, server_default="0"),
    sa.Column("chunks", sa.Integer, nullable=False, server_default="1"),  # in how many the files of the folder are divided
    sa.Column("whole", sa.Text),  # the path, if it was too long for a key
    sa.Column("top", sa.Integer, nullable=False, server_default="1"),  # so many characters of the path were named, or are due to links
    sa.Column("state", sa.Integer, nullable=False, server_default="0"),
    sa.Column("again", sa.Boolean, nullable=False, server_default=sa.false()),  # to be done once more when it is done
    sa.Column("is_stored", sa.Boolean, nullable=False, server_default=sa.false()),  # whether there may be rows of it
    *(sa.Column(it, sa.Boolean, nullable=False, server_default=sa.false()) for it in ("anew", "verifies")),  # how it is to be read
    sa.Column("settings", sa.BigInteger),  # how else it is to be read, if there is more to say
    sa.Column("tries", sa.Integer, nullable=False, server_default="0"),
    sa.Column("doing", _Name),  # the file that is read now, if each is stored by itself since a worker died before
    sa.Column("holder", sa.BigInteger),  # the worker that has it or did it
    sa.Column("since", sa.BigInteger),  # when it was taken: seconds since 1970
    sa.Column("files", sa.BigInteger, nullable=False, server_default="0"),
    sa.UniqueConstraint("path", "name", "chunk", name="parts_by_path"),
    sa.CheckConstraint("path LIKE '/%/' OR path = '/'", name="parts_path"),
    sa.CheckConstraint("chunk >= 0 AND chunk < chunks AND (name = '' OR chunks = 1)", name="parts_chunk"),
    sa.CheckConstraint("state BETWEEN 0 AND 3", name="parts_state"),
)
PARTS.append_constraint(sa.CheckConstraint(_Plain([PARTS.c.path, PARTS.c.name, PARTS.c.whole]), name="parts_plain"))
IS_TO_DO, IS_TAKEN, _, IS_GIVEN_UP = (PARTS.c.state == sa.literal_column(str(int(it))) for it in PartState)  # or SQLite takes no index for it
for _name, _column, _where in (("to_do", "id", IS_TO_DO), ("taken", "holder", IS_TAKEN), ("given_up", "id", IS_GIVEN_UP)):
    sa.Index(f"parts_{_name}", PARTS.c[_column], sqlite_where=_where)

WORKERS = sa.Table(
    "workers",
    TABLES,
    sa.Column("id", _Number, sa.Identity(), primary_key=True),
    sa.Column("name", sa.String(200), nullable=False),  # its host and process, as it says
    sa.Column("account", sa.String(64)),  # these three are of the database, which a worker cannot write
    sa.Column("address", sa.String(64)),
    sa.Column("backend", sa.Integer),
    *(sa.Column(it, sa.String(64), nullable=False) for it in ("package", "library", "schema")),
    sa.Column("began", sa.BigInteger, nullable=False),  # these three in seconds since 1970
    sa.Column("seen", sa.BigInteger, nullable=False),
    sa.Column("ended", sa.BigInteger),
    *(sa.Column(it, sa.BigInteger, nullable=False, server_default="0") for it in ("parts", "files", "octets", "unchanged", "gone")),
    sa.Column("note", sa.Text),  # why it was refused or ended
)
WORKERS.append_constraint(sa.CheckConstraint(_Plain([WORKERS.c.name, WORKERS.c.note]), name="workers_plain"))


def _keys() -> List[sa.Column]:
    return [
        sa.Column("part", sa.BigInteger, primary_key=True, autoincrement=False),
        sa.Column("file", _Name, primary_key=True),  # of a part that is a file, or of the folder itself, it is empty
        sa.Column("member", _Name, primary_key=True),  # of a file itself it is empty
    ]


PLACES = sa.Table(
    "places",
    TABLES,
    *_keys(),
    sa.Column("length", sa.BigInteger, nullable=False),
    sa.Column("size", sa.BigInteger, nullable=False),  # this and the next two: of the file, as the file system has it
    sa.Column("changed", sa.BigInteger, nullable=False),
    sa.Column("inode", sa.BigInteger, nullable=False),
    sa.Column("digest", Digest),  # SHA-256 of the DER
    sa.Column("kind", sa.String(16)),
    sa.Column("signers", sa.BigInteger),
    sa.Column("is_der", sa.Boolean),
    sa.Column("time", sa.Text),
    sa.Column("reason", sa.Integer),
    sa.Column("name", sa.String(32)),
    sa.Column("at", sa.BigInteger),
    sa.Column("error", sa.Text),
    sa.Column("beside", sa.Text),
    sa.Column("what", sa.String(32), nullable=False),
    sa.Column("form", sa.Text),
    sa.Column("content_type", sa.Text),
    sa.Column("content", sa.Text),
    sa.Column("state", sa.String(40)),
    sa.Column("note", sa.Text),
    sa.Column("findings", sa.Text),
    sa.Column("digests", sa.Text),
    sa.Column("signatures", sa.Text),
    sa.Column("verdict", sa.String(8)),
    sa.Column("is_settled", sa.Boolean),
    sa.Column("is_verified", sa.Boolean),
    sa.Column("library", sa.String(32)),
    sa.Column("reader", sa.Integer),
    sa.Column("sha256", Digest),  # of the octets of the file, in its own row
    sa.Column("verified_by", Digest),  # the digest of the certificates by which signatures were verified, if some were given
    sa.Column("worker", sa.BigInteger),  # who read it; of lines that were loaded nobody
    sa.Column("stored", sa.BigInteger, server_default=Now()),  # since when it is so, in seconds since 1970; unknown of rows of older tables
    sqlite_with_rowid=False,
)
PLACE_SIGNERS = sa.Table(
    "place_signers",
    TABLES,
    *_keys(),
    sa.Column("number", sa.String(64), primary_key=True),
    *(sa.Column(it, sa.Text) for it in ("digest", "signature", "issuer", "serial", "key_identifier", "signing_time", "subject")),
    *(sa.Column(it, sa.Text) for it in ("not_before", "not_after", "key")),
    sa.Column("bits", sa.Integer),
    sa.Column("certificate", sa.Text),  # the algorithm by which the certificate is signed
    sa.Column("verified_by", sa.Text),  # the SHA-256 of the certificate by which the signature is right
    sa.Column("message_digest", sa.Text),  # of what is signed, in hexadecimal digits
    sqlite_with_rowid=False,
)
PLACE_TIMES = sa.Table(
    "place_times",
    TABLES,
    *_keys(),
    sa.Column("number", sa.String(64), primary_key=True),
    *(sa.Column(it, sa.Text) for it in ("time", "policy", "serial", "digest", "state")),
    *(sa.Column(it, sa.Text) for it in ("subject", "not_after", "signature", "key")),  # of who signed the token
    sa.Column("bits", sa.Integer),
    sa.Column("imprint", sa.Text),  # the digest of what is time-stamped, in hexadecimal digits
    sqlite_with_rowid=False,
)
HISTORY = sa.Table(  # rows of places as they were before they were dropped, by the database itself, so that no worker can leave one out
    "history",
    TABLES,
    sa.Column("id", _Number, sa.Identity(), primary_key=True),
    sa.Column("folder", _Name, nullable=False),  # with a slash at its end
    sa.Column("file", _Name, nullable=False),  # of the folder itself it is empty
    sa.Column("member", _Name, nullable=False),
    *(sa.Column(it.name, it.type) for it in PLACES.columns if it.name in KEPT),
    sa.Column("ended", sa.BigInteger, nullable=False, server_default=Now()),  # until when it was so
    sa.Column("is_compared", sa.Boolean, nullable=False, server_default=sa.false()),  # with what came after it, which is something else
)
IS_NOT_COMPARED = sa.text("NOT history.is_compared")
sa.Index("history_by_place", HISTORY.c.folder, HISTORY.c.file, HISTORY.c.member)
sa.Index("history_by_end", HISTORY.c.ended)
sa.Index("history_not_compared", HISTORY.c.id, sqlite_where=sa.text("NOT is_compared"))
LISTS = {"signed_by": PLACE_SIGNERS, "times": PLACE_TIMES}  # the lists of a row, and the table of each
KEYS = tuple(it.name for it in _keys())
OF_PARTS = (PLACES, PLACE_SIGNERS, PLACE_TIMES)
BY_DIGEST = sa.Index("places_by_digest", PLACES.c.digest)


def insertion(table: sa.Table, dialect: str) -> Any:
    """Returns the statement that adds rows in a dialect, and can say what becomes of one whose key is there."""
    if dialect == "postgresql":
        from sqlalchemy.dialects import postgresql  # which a store in a file does not need

        return postgresql.insert(table)
    return sqlite.insert(table)


def columns_of(table: sa.Table) -> List[sa.Column]:
    """Returns the columns of a table but for the place that its row is of, who read it, and when."""
    return [it for it in table.columns if it.name not in (*KEYS, "worker", "stored")]


def sent_columns(table: sa.Table) -> List[sa.Column]:
    """Returns the columns that a row is sent with. When it is stored is by the clock of the database."""
    return [it for it in table.columns if it.name != "stored"]


def _is_one_of(column: sa.Column, values: Iterable[str]) -> Any:
    """Returns the condition that a column has one of these values: for a list SQLite would make a table of its own for each row."""
    return sa.or_(*(column == it for it in values))


def _restrict() -> None:
    """Has the database refuse what no worker that works would send."""
    own, is_message = PLACES.c, PLACES.c.what == Class.MESSAGE.value
    checks = {
        **{it.name: sa.func.length(it, type_=sa.Integer) == 32 for it in PLACES.columns if isinstance(it.type, Digest)},
        "reason": own.reason.between(REASONS[0], REASONS[-1]),
        "is_message": is_message == own.digest.is_not(None),
        "is_refused": (own.what == Class.REFUSED.value) == own.reason.is_not(None),
        "file": own.file.not_like(sa.literal_column("'%/%'")),
        "is_judged": own.state.is_(None) | is_message,
        "not_negative": sa.and_(*(sa.func.coalesce(own[it], 0) >= 0 for it in NOT_NEGATIVE)),
        **{name: _is_one_of(own[name], values) for name, values in ALLOWED.items()},
    }
    for name, check in checks.items():
        PLACES.append_constraint(sa.CheckConstraint(check, name=f"places_{name}"))
    PLACE_TIMES.append_constraint(sa.CheckConstraint(_is_one_of(PLACE_TIMES.c.state, ALLOWED["state"]), name="place_times_state"))
    for table in OF_PARTS:
        restricted = ALLOWED if table is PLACES else ("state",)
        texts = [it for it in table.columns if (isinstance(it.type, sa.String) or it.name in KEYS[1:]) and it.name not in restricted]
        table.append_constraint(sa.CheckConstraint(_Plain(texts), name=f"{table.name}_plain"))


_restrict()


# ---- what is asked of them

_own_path = sa.func.rtrim(PARTS.c.path, "/")
PATH = sa.case(  # that of a file; of a folder that cannot be read its own, without the slash
    ((PARTS.c.name == "") & (PLACES.c.file == "") & (PARTS.c.path != "/"), _own_path),
    else_=PARTS.c.path.concat(PARTS.c.name).concat(PLACES.c.file),
)


_OF_PART, _OF_FILE = "of_part", "of_file"  # by which rows of the same place are found, and which nobody is shown


def _asked_of(name: str, table: sa.Table) -> Any:
    """Returns a table with the path of each row, and its part and file under other names."""
    path = PARTS.c.path.concat(PARTS.c.name).concat(table.c.file) if table is not PLACES else PATH
    columns = (path.label("path"), table.c.member, table.c.part.label(_OF_PART), table.c.file.label(_OF_FILE), *columns_of(table))
    columns += (table.c.stored,) if table is PLACES else ()
    return sa.select(*columns).select_from(table.join(PARTS, PARTS.c.id == table.c.part)).subquery(name)


FILES, SIGNERS, TIMES = (_asked_of(*it) for it in (("files", PLACES), ("signers", PLACE_SIGNERS), ("times", PLACE_TIMES)))


def shown(asked: Any) -> List[Any]:
    """Returns the columns of what is asked that are shown."""
    return [it for it in asked.c if it.name not in (_OF_PART, _OF_FILE)]


def of_same_place(table: sa.Table, asked: Any) -> Any:
    """Returns the condition that a row of a table is of the same place as one that is asked."""
    return (table.c.part == asked.c[_OF_PART]) & (table.c.file == asked.c[_OF_FILE]) & (table.c.member == asked.c.member)


class _Hexadecimal(sa.sql.ColumnElement):  # type: ignore[misc]  # SQLAlchemy 1.4 has no types
    """The digits of a digest, for those who ask the database itself."""

    inherit_cache = False
    type = sa.Text()

    def __init__(self, column: Any) -> None:
        self.column = column


@compiles(_Hexadecimal, "postgresql")  # type: ignore[misc]  # likewise
def _hexadecimal_in_postgresql(element: _Hexadecimal, compiler: Any, **how: Any) -> str:
    return f"encode({compiler.process(element.column, **how)}, 'hex')"


@compiles(_Hexadecimal)  # type: ignore[misc]  # likewise
def _hexadecimal_in_sqlite(element: _Hexadecimal, compiler: Any, **how: Any) -> str:
    return f"lower(hex({compiler.process(element.column, **how)}))"


def views() -> Dict[str, Any]:
    """Returns what is asked of the tables as views of the database, by their names."""
    found: Dict[str, Any] = {}
    for asked in (FILES, SIGNERS, TIMES):
        columns = [it if not isinstance(it.type, Digest) else sa.case((it.is_not(None), _Hexadecimal(it))).label(it.name) for it in shown(asked)]
        found[asked.name] = sa.select(*columns)
    return found
