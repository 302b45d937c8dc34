"""What places in an archive were before: the database keeps each row that is dropped, and here it is compared with what came after it.

The database does that itself, by a trigger, so that no worker can leave out what was there. A row that came again as it was is dropped from
the history when an index ends; until then it stays there, since the files of a folder may move from one part to another.
"""

from __future__ import annotations

import re
from datetime import datetime, timezone
from enum import Enum
from itertools import islice
from typing import TYPE_CHECKING, Any, Dict, Iterator, List, NamedTuple, Optional, Tuple

import sqlalchemy as sa

from .containers.found import GOOD, Class, State
from .containers.names import READERS_DIFFER
from .filters import moment_of
from .tables import HISTORY, IS_NOT_COMPARED, IS_TAKEN, IS_TO_DO, KEPT, PARTS, PATH, PLACES

if TYPE_CHECKING:
    from .store import Store

ASKED = 900  # rows in a statement: SQLite before 3.32 takes 999 values

BEGAN, ENDED = "began", "ended"  # the names under which a store says when the last index began, in seconds since 1970, and which one has ended
REPORTED = "reported"  # the same of when the last report was made

_COLUMNS = ", ".join(KEPT)
_IN_SQLITE = f"""CREATE TRIGGER kept AFTER DELETE ON places FOR EACH ROW BEGIN
    INSERT INTO history (folder, file, member, {_COLUMNS})
        SELECT path, parts.name || OLD.file, OLD.member, {", ".join(f"OLD.{it}" for it in KEPT)} FROM parts WHERE id = OLD.part;
END"""
_IN_POSTGRESQL = f"""
CREATE OR REPLACE FUNCTION archive_rows_are_kept() RETURNS trigger LANGUAGE plpgsql SECURITY DEFINER SET search_path = {{schema}}, pg_temp AS $$
BEGIN
    INSERT INTO history (folder, file, member, {_COLUMNS})
        SELECT path, parts.name || was.file, was.member, {", ".join(f"was.{it}" for it in KEPT)} FROM was JOIN parts ON parts.id = was.part;
    RETURN NULL;
END $$;
DROP TRIGGER IF EXISTS kept ON places;
CREATE TRIGGER kept AFTER DELETE ON places REFERENCING OLD TABLE AS was FOR EACH STATEMENT EXECUTE FUNCTION archive_rows_are_kept();
"""


def keep(connection: sa.engine.Connection) -> None:
    """Has the database keep the rows of places that are dropped from now on, whoever drops them."""
    if connection.dialect.name != "postgresql":
        connection.exec_driver_sql(_IN_SQLITE)
        return
    schema = connection.dialect.identifier_preparer.quote(str(connection.exec_driver_sql("SELECT current_schema()").scalar()))
    connection.exec_driver_sql(_IN_POSTGRESQL.format(schema=schema).replace("%", "%%"))


# ---- what came after


_LATER = HISTORY.alias("later")
_OF_SAME_PLACE = sa.and_(*(_LATER.c[it] == HISTORY.c[it] for it in ("folder", "file", "member")), _LATER.c.id > HISTORY.c.id)
_NEXT = sa.select(sa.func.min(_LATER.c.id)).where(_OF_SAME_PLACE).correlate(HISTORY).scalar_subquery()
_IS_OF_PART = (PARTS.c.path == HISTORY.c.folder) & ((PARTS.c.name == "") | (PARTS.c.name == HISTORY.c.file))
_FILE = sa.case((PARTS.c.name == "", HISTORY.c.file), else_="")  # as a row of the part has it
_IS_NOW = (PLACES.c.part == PARTS.c.id) & (PLACES.c.file == _FILE) & (PLACES.c.member == HISTORY.c.member)


def _is_same(after: Any) -> Any:
    """Returns the condition that a row says what the one of the history said. A SHA-256 that older tables did not have is no difference."""
    same = [after[it].is_not_distinct_from(HISTORY.c[it]) for it in KEPT if it not in ("sha256", "note", "stored")]
    return sa.and_(*same, (after.sha256 == HISTORY.c.sha256) | after.sha256.is_(None) | HISTORY.c.sha256.is_(None))


def compare(engine: sa.engine.Engine) -> None:
    """Drops from the history what is stored again as it was, and has the stored rows say since when they are so. What is yet to be read may still come."""
    with engine.connect() as connection:
        if any(connection.execute(sa.select(PARTS.c.id).where(it).limit(1)).first() is not None for it in (IS_TO_DO, IS_TAKEN)):
            return
        newest = connection.execute(sa.select(sa.func.max(HISTORY.c.id))).scalar()
    if newest is None:
        return
    is_before = IS_NOT_COMPARED & (HISTORY.c.id <= newest)  # what another index drops meanwhile is left to that
    while _compare_once(engine, is_before):
        pass
    with engine.begin() as connection:
        connection.execute(sa.update(HISTORY).where(is_before).values(is_compared=True))


def _compare_once(engine: sa.engine.Engine, is_before: Any) -> bool:
    """Compares the last row of each place, and returns whether any was dropped, so that the one before it is the last now."""
    asked = sa.select(HISTORY).where(is_before).order_by(HISTORY.c.id).limit(ASKED)
    last, any_dropped = 0, False
    while True:
        with engine.begin() as connection:
            some = connection.execute(asked.where(HISTORY.c.id > last)).mappings().all()
            if not some:
                return any_dropped
            after = _after_in(connection, [it["id"] for it in some])
            same = [(it, after[it["id"]]) for it in some if it["id"] in after and after[it["id"]].is_now and _row(it).is_same(after[it["id"]].row)]
            if same:
                _put_back(connection, same)
        last, any_dropped = some[-1]["id"], any_dropped or bool(same)


def _put_back(connection: sa.engine.Connection, same: List[Tuple[Any, After]]) -> None:
    own = [PLACES.c[it] == sa.bindparam(f"own_{it}") for it in ("part", "file", "member")]
    since = [{"since": it["stored"], "own_part": now.part, "own_file": now.file, "own_member": it["member"]} for it, now in same]
    earlier = sa.case((PLACES.c.stored < sa.bindparam("since"), PLACES.c.stored), else_=sa.bindparam("since"))  # another index may have put it back already
    connection.execute(sa.update(PLACES).where(*own, PLACES.c.stored.is_not(None)).values(stored=earlier), since)
    connection.execute(sa.delete(HISTORY).where(HISTORY.c.id.in_([it["id"] for it, _ in same])))


# ---- what is asked of it


def time_in(text: str) -> int:
    """Returns the seconds since 1970 of a time in UTC, as 2024, 2024-02, 2024-02-29 or 2024-02-29T12:00. Raises `ValueError` with a line if it is none."""
    try:
        return int(moment_of(text).timestamp())
    except (ValueError, OverflowError):
        raise ValueError(f"--since is a time in UTC as 2024, 2024-02, 2024-02-29 or 2024-02-29T12:00, and not {text}") from None


_GOOD = [it.value for it in GOOD]
_WRONG_TIME = re.compile(f"token [0-9./]*: {State.DIFFERS.value}")
_READABLE = "readable"


class Change(str, Enum):
    """What became of a file, or of what is in it."""

    NEW = "new"
    GONE = "gone"
    CHANGED = "changed"
    STATE = "state"


class Row(NamedTuple):
    """What was stored of a place, or is now."""

    what: str
    length: int
    digest: Optional[str]
    sha256: Optional[str]
    state: Optional[str]
    verdict: Optional[str]
    verified_by: Optional[str]
    note: Optional[str]
    stored: Optional[int]

    @property
    def fit(self) -> int:
        """How well it fits: 2 if it does, 1 if in part, an earlier revision or what readers differ on, and 0 if not, if that is not known, or if a signature
        is wrong."""
        if self.verdict == "wrong" or self.state not in _GOOD:
            return 0
        return 2 if self.state == State.FITS.value and READERS_DIFFER not in (self.note or "") else 1

    @property
    def has_wrong_time(self) -> bool:
        """Whether a token in an unsigned attribute does not fit."""
        return _WRONG_TIME.search(self.note or "") is not None

    @property
    def text(self) -> str:
        """What it is, as `fits`, with what was found of its signatures if they were verified."""
        given = " by the certificates given" if self.verified_by else ""
        verdict = f"signatures {self.verdict}{given}" if self.verdict else ""
        differ = "readers differ" if self.state == State.FITS.value and self.fit == 1 else ""
        return ", ".join(filter(None, (self.state or self.what, verdict, differ, "a time-stamp does not fit" if self.has_wrong_time else "")))

    def is_same(self, other: Row) -> bool:
        """Whether both say the same. A SHA-256 that older tables did not have is no difference."""
        is_known = self.sha256 is not None and other.sha256 is not None
        mine, others = ((it._replace(sha256=None, note=None, stored=None), it.fit, it.has_wrong_time) for it in (self, other))
        return mine == others and (not is_known or self.sha256 == other.sha256)


class Changed(NamedTuple):
    """What became of a file, or of a message in it."""

    change: Change
    time: Optional[int]
    """When that was stored, in seconds since 1970 by the clock of the database."""
    path: str
    member: str
    before: Optional[Row]
    after: Optional[Row]
    is_folder: bool = False
    """Whether it is a folder, of which there is a row as long as it cannot be read."""

    @property
    def is_worse(self) -> bool:
        """Whether anything was known to be good that is not any more: a message that fits, a signature that is right, or a time-stamp that fits."""
        before, after = self.before, self.after
        if before is None:
            return self.is_folder  # below which nothing is known any more
        if after is None:
            return before.fit > 0 or before.verdict == "right"
        is_less_right = before.verdict == "right" and (after.verdict != "right" or (before.verified_by is not None and after.verified_by is None))
        return after.fit < before.fit or is_less_right or (after.has_wrong_time and not before.has_wrong_time)

    def row(self) -> Dict[str, Any]:
        """Returns it as a list has it."""
        before, after = self.before, self.after
        time = None if self.time is None else datetime.fromtimestamp(self.time, timezone.utc).strftime("%Y-%m-%dT%H:%M:%SZ")
        return {
            **{"change": self.change.value, "time": time, "path": self.path, "member": self.member, "is_worse": self.is_worse},
            **{"before": before and before.text, "after": _READABLE if self.is_folder and after is None else after and after.text},
            **{"sha256_before": before and before.sha256, "sha256_after": after and after.sha256},
        }


def changes(store: Store, since: int, under: Optional[str] = None) -> Iterator[Changed]:
    """Gives what changed since a time, in seconds since 1970: first what is not as it was or is gone, as it was noticed, and then what is new."""
    yield from _ended(store, since, under)
    yield from _begun(store, since, under)


def _is_below(path: Any, under: Optional[str]) -> Any:
    return sa.true() if under is None else (path == under) | (sa.func.substr(path, 1, len(under.rstrip("/")) + 1) == under.rstrip("/") + "/")


def _ended(store: Store, since: int, under: Optional[str]) -> Iterator[Changed]:
    path = HISTORY.c.folder.concat(HISTORY.c.file)
    is_listed = (HISTORY.c.member == "") | (HISTORY.c.what == Class.MESSAGE.value)
    asked = sa.select(HISTORY).where(HISTORY.c.ended >= since, is_listed, _is_below(path, under)).order_by(HISTORY.c.id)
    for some in _lists_of(store.asked(asked)):
        after = _after(store, [row["id"] for row in some])
        for row in some:
            before, now = _row(row), after.get(row["id"])
            is_folder = row["file"] == ""
            if now is not None and before.is_same(now):
                if not row["is_compared"]:
                    continue
                now = None  # it was gone when an index ended, and came back as it was
            name = f"{row['folder']}{row['file']}" if not is_folder else row["folder"].rstrip("/") or "/"
            yield Changed(_change(before, now, row["member"], is_folder), row["ended"], name, row["member"], before, now, is_folder)


def _change(before: Row, after: Optional[Row], member: str, is_folder: bool) -> Change:
    if after is None:
        return Change.STATE if is_folder else Change.GONE
    is_other = (before.length, before.what) != (after.length, after.what) or (before.sha256 or after.sha256) != (after.sha256 or before.sha256)
    return Change.CHANGED if member == "" and is_other else Change.STATE


def _lists_of(rows: Iterator[Dict[str, Any]]) -> Iterator[List[Dict[str, Any]]]:
    while some := list(islice(rows, ASKED)):
        yield some


def _row(row: Any) -> Row:
    return Row(*(row[it] for it in Row._fields))


def _after(store: Store, ids: List[int]) -> Dict[int, Row]:
    """Returns what came after each of these rows of the history, or is now; nothing of what is gone."""
    with store.engine.connect() as connection:
        return {number: it.row for number, it in _after_in(connection, ids).items()}


class After(NamedTuple):
    """What came after a row of the history."""

    row: Row
    is_now: bool
    """Whether it is what is stored now; otherwise it is a later row of the history."""
    part: int = 0
    file: str = ""


_BY_KEYS = "SET LOCAL enable_seqscan = off; SET LOCAL enable_hashjoin = off; SET LOCAL enable_mergejoin = off"  # before there are statistics of the tables


def _after_in(connection: sa.engine.Connection, ids: List[int]) -> Dict[int, After]:
    if connection.dialect.name == "postgresql":
        connection.exec_driver_sql(_BY_KEYS)
    is_one = HISTORY.c.id.in_(ids)
    now = sa.select(HISTORY.c.id, PLACES.c.part, PLACES.c.file, *(PLACES.c[it] for it in Row._fields))
    now = now.select_from(HISTORY.join(PARTS, _IS_OF_PART).join(PLACES, _IS_NOW)).where(is_one)
    later = sa.select(HISTORY.c.id, *(_LATER.c[it] for it in Row._fields)).select_from(HISTORY.join(_LATER, _LATER.c.id == _NEXT)).where(is_one)
    found = {it["id"]: After(_row(it), True, it["part"], it["file"]) for it in connection.execute(now).mappings()}
    found.update((it["id"], After(_row(it), False)) for it in connection.execute(later).mappings())
    return found


def _begun(store: Store, since: int, under: Optional[str]) -> Iterator[Changed]:
    is_folder = ((PARTS.c.name == "") & (PLACES.c.file == "")).label("is_folder")
    columns = (PATH.label("path"), PLACES.c.member, is_folder, *(PLACES.c[it] for it in Row._fields))
    order = (PLACES.c.part, PLACES.c.file, PLACES.c.member)  # in which they are stored: to sort a million paths takes longer than all else
    for row in store.asked(_new_since(since, *columns).where(_is_below(PATH, under)).order_by(*order)):
        yield Changed(Change.NEW, row["stored"], row["path"], row["member"], None, _row(row), bool(row["is_folder"]))


def _new_since(since: int, *columns: Any) -> Any:
    own = (HISTORY.c.folder == PARTS.c.path) & (HISTORY.c.file == PARTS.c.name.concat(PLACES.c.file)) & (HISTORY.c.member == PLACES.c.member)
    came_back = HISTORY.c.is_compared & _is_same(PLACES.c)
    was_there = sa.exists().where(own, HISTORY.c.ended >= since, ~came_back).correlate(PARTS, PLACES)
    is_listed = (PLACES.c.member == "") | (PLACES.c.what == Class.MESSAGE.value)
    return sa.select(*columns).select_from(PLACES.join(PARTS, PARTS.c.id == PLACES.c.part)).where(PLACES.c.stored >= since, is_listed, ~was_there)


# ---- how much changed


class Changes(NamedTuple):
    """How much changed since a time."""

    since: int
    """In seconds since 1970 by the clock of the database."""
    is_of_report: bool
    """Whether the last report was made then; otherwise the last index began."""
    counts: Dict[Change, int]
    worse: int
    first_worse: List[Changed]


def changes_counted(store: Store, first: int) -> Optional[Changes]:
    """Counts what changed since the last report, or else since the last index began; None if the store says neither. The first that are worse are kept."""
    about = store.about()
    name = REPORTED if REPORTED in about else BEGAN
    if not about.get(name, "").isdecimal():
        return None
    since = int(about[name])
    counts, worse = dict.fromkeys(Change, 0), 0
    kept: List[Changed] = []
    for it in _ended(store, since, None):
        counts[it.change] += 1
        worse += it.is_worse
        kept += [it] if it.is_worse and len(kept) < first else []
    (new,) = store.asked(_new_since(since, sa.func.count().label("count")))
    return Changes(since, name == REPORTED, {**counts, Change.NEW: int(new["count"])}, worse, kept)


def note_report(name: str, wait: Optional[float], time: int) -> Optional[str]:
    """Has the store of this name keep when a report was made, in seconds since 1970, if it can be written to. Returns why not, if it should have."""
    from sqlalchemy.exc import DBAPIError

    from .opening import is_sqlite, is_writable, url_of
    from .store import Store

    url = url_of(name)
    if is_sqlite(url) and not is_writable(str(url.database)):
        return None
    try:
        store = Store(name, makes=True, wait=wait)  # one that is only asked is opened for reading
        store.note({REPORTED: str(time)})
        store.close()
    except DBAPIError as error:
        return str(error.orig).strip().partition("\n")[0]
    return None
