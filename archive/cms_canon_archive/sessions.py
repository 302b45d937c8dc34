"""A worker's session with the database of a store: the lock by which others see that it lives, the parts that it takes, and what it stores.

A part is claimed in one transaction and done in another: in one, a worker that is stopped would hold the row locks of its parts. A claim is
held by a lock of the session, which the kernel or the database lets go of when the worker dies; so no clocks are compared, but in SQLite,
on one machine. A worker takes no more than a quarter of what is left, so that the last parts are shared. A file at which four workers died
is left, with a row that says so.
"""

from __future__ import annotations

import fcntl
import os
import socket
import time
from contextlib import contextmanager
from threading import Event, Lock, Thread
from typing import Any, Dict, Iterator, List, NamedTuple, Optional, Sequence, Set, Tuple

import sqlalchemy as sa
from sqlalchemy.dialects import sqlite
from sqlalchemy.exc import DBAPIError

from .containers.found import Class
from .guards import WORKER_LOCK
from .opening import WORKERS_ENDING, NoStore, engine_of, is_sqlite
from .processes import undisturbed
from .reading import READER
from .settings import Settings, stored
from .spool import Spool, store
from .tables import ABOUT, IS_TAKEN, IS_TO_DO, MOST_TRIED, OF_PARTS, PARTS, PLACES, WORKERS, PartState
from .versions import ABOUT_NAMES, OtherVersion, Version, own_version, version_noted

AT_ONCE = 64  # parts that a worker takes at once
_SHARE = 4  # no worker takes more than this part of what is left: others may be idle
ASKED = 900  # names in a statement: SQLite before 3.32 takes 999 values
WAITED = 600.0  # seconds for other workers that store in the same file of SQLite
_TURN = 0  # the octet of the file of locks for whose turn it is to write; those of workers are their numbers
_MOST_NAME = 200  # characters of the name of a worker


class Superseded(Exception):
    """A part was given to another worker meanwhile: nothing of it is stored."""


class Held(NamedTuple):
    """A part that a worker has taken."""

    id: int
    path: str
    name: str
    chunk: int
    chunks: int
    whole: Optional[str]
    top: int
    is_stored: bool
    anew: bool
    verifies: bool
    settings: Optional[int]
    tries: int
    doing: Optional[str]


class New(NamedTuple):
    """A part that was found in a folder."""

    path: str
    name: str
    chunk: int
    chunks: int
    whole: Optional[str]
    top: int
    anew: bool
    verifies: bool
    settings: Optional[int]


Known = Tuple[int, str, int, int, int, str, bool, bool, Optional[bytes]]
"""What is stored of a file itself, as the database gives it, since there is one for each file of an archive: its part, its name, the four values
of an `Entry` after its path, whether it is good, whether it is verified, and the digest of the certificates that were given for that. It is good
if it could be read, had not changed just before, and would be read the same by this version."""

NOTHING: Known = (0, "", 0, 0, 0, "", False, False, None)
"""What is known of a file that has rows, and none of its own."""


class Outcome:
    """What came of a part."""

    def __init__(self, part: Held) -> None:
        self.part = part
        self.files = self.octets = self.unchanged = self.gone = 0
        self.dropped: List[str] = []  # files whose rows go, as they are read again or gone
        self.drops_all = False
        self.new: List[New] = []
        self.chunks = part.chunks
        self.is_gone = False
        self.is_given_up = False


class Session:
    """The session of a worker, which has a number. With PostgreSQL it ends if the worker says nothing for so many seconds."""

    def __init__(self, url: sa.engine.URL, patience: float) -> None:
        """Begins a session. Raises `OtherVersion` if the store is worked on by another version, and notes that."""
        self._url = url
        self._patience = patience
        self._is_sqlite = is_sqlite(url)
        self._engine = engine_of(url, True, WAITED if self._is_sqlite else None, sa.pool.NullPool)
        self._connection = self._engine.connect()
        self._free = Lock()
        self._locks: Optional[int] = None
        self._settings: Dict[Optional[int], Settings] = {}
        self.number = 0
        self._ends = Event()
        try:
            self._limit()
            self._register(own_version())
        except BaseException:
            self.close()
            raise
        self._pulse = Thread(target=self._beat, daemon=True)
        self._pulse.start()

    # ---- that it lives

    def _limit(self) -> None:
        """Has PostgreSQL end the session if the worker is stopped, and be quick: what is lost in a crash is done again."""
        if self._is_sqlite:
            self._locks = os.open(os.path.abspath(str(self._url.database)) + WORKERS_ENDING, os.O_RDWR | os.O_CREAT | os.O_CLOEXEC, 0o666)
            return
        milliseconds = int(self._patience * 1000)
        with self.transaction() as connection:
            named = ["idle_in_transaction_session_timeout"]
            named += ["idle_session_timeout"] if connection.dialect.server_version_info >= (14,) else []
            for name in named:
                connection.exec_driver_sql(f"SET {name} = {milliseconds}")
            connection.exec_driver_sql("SET synchronous_commit = off")
            connection.exec_driver_sql("SET default_transaction_isolation = 'read committed'")  # others are refused what follows

    def _register(self, own: Version) -> None:
        """Takes a number, and the next one if another session has the lock of that: who waited for it could wait for ever."""
        until = time.monotonic() + self._patience
        while not self._has_registered(own):
            if time.monotonic() > until:
                raise NoStore("the numbers of workers are locked by another session of the database")

    def _has_registered(self, own: Version) -> bool:
        name, now = f"{socket.gethostname()}:{os.getpid()}".encode("ascii", "replace").decode()[:_MOST_NAME], int(time.time())
        row = {"name": name, **own._asdict(), "began": now, "seen": now}
        with self.transaction() as connection:
            wanted = self._wanted_by(connection)
            refusal = None if wanted == own else OtherVersion(own, wanted)
            if refusal is not None:
                row.update(ended=now, note=str(refusal))
            self.number = int(connection.execute(sa.insert(WORKERS).values(**row)).inserted_primary_key[0])
            is_locked = refusal is not None or self._lock(connection)
            if not is_locked:
                connection.execute(sa.update(WORKERS).where(WORKERS.c.id == self.number).values(ended=now))
        if refusal is not None:
            raise refusal
        return is_locked

    def _lock(self, connection: sa.engine.Connection) -> bool:
        """Locks the number of this worker, and returns whether no other session has."""
        if self._locks is not None:
            fcntl.lockf(self._locks, fcntl.LOCK_EX, 1, self.number)
            return True
        return bool(connection.execute(sa.select(sa.func.pg_try_advisory_lock(WORKER_LOCK, self.number))).scalar())

    def _wanted_by(self, connection: sa.engine.Connection) -> Version:
        asked = sa.select(ABOUT.c.name, ABOUT.c.value).where(ABOUT.c.name.in_(ABOUT_NAMES.values()))
        return version_noted({str(it.name): str(it.value) for it in connection.execute(asked)})

    def _beat(self) -> None:
        """Says now and then that the worker lives, while it reads."""
        while not self._ends.wait(self._patience / 4):
            try:
                with self.transaction() as connection:
                    connection.execute(sa.update(WORKERS).where(WORKERS.c.id == self.number).values(seen=int(time.time())))
            except Exception as error:
                if is_lost(error):  # which the worker finds itself when it stores
                    return

    def _dead_among(self, connection: sa.engine.Connection, holders: Sequence[int]) -> List[int]:
        """Returns which workers have no session any more."""
        if not self._is_sqlite:
            alive = sa.select(sa.func.archive_locked().table_valued("id", "pid").c.id)  # in whose sessions their locks are: others may have one too
            return [int(it.id) for it in connection.execute(sa.select(WORKERS.c.id).where(WORKERS.c.id.in_(holders), WORKERS.c.id.not_in(alive)))]
        limit = int(time.time() - self._patience)
        asked = sa.select(WORKERS.c.id, WORKERS.c.seen).where(WORKERS.c.id.in_(holders))
        return [int(it.id) for it in connection.execute(asked) if it.seen < limit or not self._is_locked(int(it.id))]

    def _is_locked(self, number: int) -> bool:
        assert self._locks is not None
        try:
            fcntl.lockf(self._locks, fcntl.LOCK_EX | fcntl.LOCK_NB, 1, number)
        except OSError:
            return True
        fcntl.lockf(self._locks, fcntl.LOCK_UN, 1, number)
        return False

    def close(self, why: Optional[str] = None) -> None:
        """Ends the session."""
        with undisturbed():
            self._close(why)

    def _close(self, why: Optional[str]) -> None:
        self._ends.set()
        if self.number:
            try:
                with self.transaction() as connection:
                    values: Dict[str, Any] = {"ended": int(time.time()), "seen": int(time.time()), **({"note": why} if why else {})}
                    connection.execute(sa.update(WORKERS).where(WORKERS.c.id == self.number).values(**values))
            except Exception:  # of a session that is lost already
                pass
        self._connection.close()
        self._engine.dispose()
        if self._locks is not None:
            os.close(self._locks)
            self._locks = None

    # ---- transactions

    @contextmanager
    def transaction(self) -> Iterator[sa.engine.Connection]:
        """Lends the connection for one transaction."""
        with self._free, self._turn(), self._connection.begin():
            if self._is_sqlite:
                self._connection.exec_driver_sql("BEGIN IMMEDIATE")
            yield self._connection

    @contextmanager
    def _turn(self) -> Iterator[None]:
        """Waits until no other worker writes to a file of SQLite, which would itself look again and again, and sleep between."""
        if self._locks is None:
            yield
            return
        fcntl.lockf(self._locks, fcntl.LOCK_EX, 1, _TURN)
        try:
            yield
        finally:
            fcntl.lockf(self._locks, fcntl.LOCK_UN, 1, _TURN)

    @contextmanager
    def _reading(self) -> Iterator[sa.engine.Connection]:
        with self._free, self._connection.begin():
            yield self._connection

    # ---- parts

    def is_any_left(self) -> bool:
        """Whether any part is to be done, or is being done."""
        with self._reading() as connection:
            return any(connection.execute(sa.select(PARTS.c.id).where(it).limit(1)).first() for it in (IS_TO_DO, IS_TAKEN))

    def take(self, most: int) -> List[Held]:
        """Takes parts that are to be done: several that nobody has tried, or else one that was tried. Raises `OtherVersion`."""
        columns = [PARTS.c[it] for it in Held._fields]
        with self._reading() as connection:
            some = sa.select(PARTS.c.id).where(IS_TO_DO).limit(_SHARE * AT_ONCE).subquery()
            left = int(connection.execute(sa.select(sa.func.count()).select_from(some)).scalar_one())
        if not left:
            return []
        most = min(most, -(-left // _SHARE))
        with self.transaction() as connection:
            if (wanted := self._wanted_by(connection)) != own_version():
                raise OtherVersion(own_version(), wanted)
            for is_tried, many in ((PARTS.c.tries <= 0, most), (PARTS.c.tries > 0, 1)):
                asked = sa.select(*columns).where(IS_TO_DO, is_tried).order_by(PARTS.c.id).limit(many).with_for_update(skip_locked=True)
                held = [Held(*it) for it in connection.execute(asked)]
                if held:
                    break
            else:
                return []
            tries = min(max(held[0].tries, 0), MOST_TRIED - 1) + 1  # of all: a worker that lies may have any number there
            taken = {"state": PartState.TAKEN, "tries": tries, "holder": self.number, "since": int(time.time())}
            connection.execute(sa.update(PARTS).where(PARTS.c.id.in_([it.id for it in held])).values(**taken))
        return [it._replace(tries=tries) for it in held]

    def take_back(self) -> int:
        """Has the parts of workers that are dead done again, and returns how many there are."""
        with self._reading() as connection:
            nobody = PARTS.c.holder.is_(None)
            asked = sa.select(PARTS.c.holder).where(IS_TAKEN, nobody | (PARTS.c.holder != self.number)).distinct()
            holders = [it.holder for it in connection.execute(asked)]
        if not holders:
            return 0
        with self.transaction() as connection:
            dead = self._dead_among(connection, [int(it) for it in holders if it is not None])
            values = {"state": PartState.TO_DO, "again": False}  # since nothing of it is stored, to do it once is enough
            lost = sa.update(PARTS).where(IS_TAKEN, nobody | PARTS.c.holder.in_(dead)).values(**values)
            return int(connection.execute(lost).rowcount)

    def give_back(self, parts: Sequence[Held]) -> None:
        """Has others do parts that were not begun."""
        with self.transaction() as connection:
            self._give_back(connection, parts)

    def _give_back(self, connection: sa.engine.Connection, parts: Sequence[Held]) -> None:
        if parts:
            own = PARTS.c.id.in_([it.id for it in parts]) & (PARTS.c.state == 1) & (PARTS.c.holder == self.number)
            connection.execute(sa.update(PARTS).where(own).values(state=PartState.TO_DO, again=False, tries=PARTS.c.tries - 1))

    def give_up(self, parts: Sequence[Held]) -> None:
        """Has each of these parts done by itself, since the store refused them together."""
        with self.transaction() as connection:
            own = PARTS.c.id.in_([it.id for it in parts]) & (PARTS.c.state == 1) & (PARTS.c.holder == self.number)
            connection.execute(sa.update(PARTS).where(own).values(state=PartState.TO_DO))

    # ---- what is stored

    def known(self, parts: Sequence[Held]) -> Dict[int, Dict[str, Known]]:
        """Returns what is stored of the files of these parts. A file is among them as soon as it has any row: a worker that lies may have left some."""
        ids = [it.id for it in parts if it.is_stored]
        known: Dict[int, Dict[str, Known]] = {it.id: {} for it in parts}
        if not ids:
            return known
        own = PLACES.c
        is_good = own.is_settled & (own.what != Class.UNREADABLE.value) & (own.reader == READER)
        said = (sa.func.coalesce(own.beside, ""), sa.func.coalesce(is_good, sa.false()), sa.func.coalesce(own.is_verified, sa.false()))
        columns = (own.part, own.file, own.size, own.changed, own.inode, *said, own.verified_by)
        asked = sa.select(*columns).where(own.part.in_(ids), own.member == "")
        of_many = [it.id for it in parts if it.is_stored and (it.anew or it.name == "")]
        with self._reading() as connection:
            for row in _values_of(connection, asked):
                known[row[0]][row[1]] = row
            for table in OF_PARTS if of_many else ():
                for part, name in _values_of(connection, _without_own_row(table, of_many)):
                    known[part].setdefault(name, NOTHING)
        return known

    def settings(self, parts: Sequence[Held]) -> Dict[Optional[int], Settings]:
        """Returns the settings of parts by their numbers. Settings with a number never change."""
        missing = {it.settings for it in parts} - set(self._settings)
        if missing:
            with self._reading() as connection:
                self._settings.update(stored(connection, missing))
        return self._settings

    def files_with_parts(self, parts: Sequence[Held]) -> Dict[str, Set[str]]:
        """Returns the names of the files that are parts of their own, by their folders."""
        found: Dict[str, Set[str]] = {it.path: set() for it in parts if it.name == ""}
        if found:
            with self._reading() as connection:
                asked = sa.select(PARTS.c.path, PARTS.c.name).where(PARTS.c.path.in_(found), PARTS.c.name != "")
                for path, name in connection.execute(asked):
                    found[path].add(name)
        return found

    def is_ours(self, connection: sa.engine.Connection, parts: Sequence[Held]) -> Dict[int, Dict[str, Any]]:
        """Keeps parts until the transaction ends, and returns how what lies in each is to be read, as an index may have said meanwhile.

        Raises `Superseded` if one of them is another worker's by now.
        """
        ids = [it.id for it in parts]
        columns = (PARTS.c.id, PARTS.c.top, PARTS.c.anew, PARTS.c.verifies, PARTS.c.settings)
        asked = sa.select(*columns).where(PARTS.c.id.in_(ids), PARTS.c.state == 1, PARTS.c.holder == self.number).with_for_update()
        found = connection.execute(asked).all()
        if len(found) != len(ids):
            raise Superseded("parts that this worker had taken were given to another one")
        return {int(it.id): {"top": it.top, "anew": it.anew, "verifies": it.verifies, "settings": it.settings} for it in found}

    def put(self, outcomes: Sequence[Outcome], rows: Spool, unbegun: Sequence[Held] = ()) -> None:
        """Stores what came of parts in one transaction, and has others do those that were not begun. Raises `Superseded`."""
        with self.transaction() as connection:
            how = self.is_ours(connection, [it.part for it in outcomes])
            self._drop_all(connection, [it.part.id for it in outcomes if it.drops_all or not it.part.is_stored])
            for it in outcomes:
                self._drop(connection, it)
            store(connection, rows.pieces())
            self._add_parts(connection, [new._replace(**how[it.part.id]) for it in outcomes for new in it.new])
            self._note_done(connection, outcomes)
            self._give_back(connection, unbegun)
            self._count(connection, outcomes)

    def put_file(self, outcome: Outcome, rows: Spool) -> None:
        """Stores what came of one file of a part that is not done yet. Raises `Superseded`."""
        with self.transaction() as connection:
            self.is_ours(connection, [outcome.part])
            self._drop(connection, outcome)
            store(connection, rows.pieces())
            connection.execute(sa.update(PARTS).where(PARTS.c.id == outcome.part.id).values(is_stored=True))
            self._count(connection, [outcome], parts=0)

    def note_doing(self, part: Held, file: Optional[str], tries: int) -> None:
        """Notes the file that is read now, so that if this worker dies, it is known of what. Raises `Superseded`."""
        with self.transaction() as connection:
            self.is_ours(connection, [part])
            connection.execute(sa.update(PARTS).where(PARTS.c.id == part.id).values(doing=file, tries=tries))

    def _drop_all(self, connection: sa.engine.Connection, ids: Sequence[int]) -> None:
        """Drops all rows of parts. Those of which nothing is stored have some if a worker that lies had them before."""
        for table in OF_PARTS if ids else ():
            connection.execute(sa.delete(table).where(table.c.part.in_(ids)))

    def _drop(self, connection: sa.engine.Connection, outcome: Outcome) -> None:
        if not outcome.part.is_stored or outcome.drops_all:
            return
        for begin in range(0, len(outcome.dropped), ASKED):
            some = outcome.dropped[begin : begin + ASKED]
            for table in OF_PARTS:  # the places first, or the database would see rows of a file of which others are left
                connection.execute(sa.delete(table).where(table.c.part == outcome.part.id, table.c.file.in_(some)))

    def _add_parts(self, connection: sa.engine.Connection, new: List[New]) -> None:
        if not self._is_sqlite:
            from sqlalchemy.dialects import postgresql
        insert = sqlite.insert if self._is_sqlite else postgresql.insert
        statement = insert(PARTS).on_conflict_do_nothing(index_elements=["path", "name", "chunk"])
        step = 1000
        for begin in range(0, len(new), step):
            rows = [it._asdict() for it in new[begin : begin + step]]
            if self._is_sqlite:
                connection.execute(statement, rows)
            else:
                connection.execute(statement.values(rows))

    def _note_done(self, connection: sa.engine.Connection, outcomes: Sequence[Outcome]) -> None:
        for outcome in outcomes:
            if outcome.part.chunk > 0 and self._is_stray(connection, outcome.part):
                outcome.is_gone = True
                self._drop_all(connection, [outcome.part.id])
            elif outcome.part.chunk == 0 and not outcome.is_gone and (outcome.chunks > 1 or outcome.chunks != outcome.part.chunks):
                self._divide(connection, outcome)
        gone = [it.part.id for it in outcomes if it.is_gone]
        if gone:
            connection.execute(sa.delete(PARTS).where(PARTS.c.id.in_(gone)))
        for state in (PartState.DONE, PartState.GIVEN_UP):
            done = [it for it in outcomes if not it.is_gone and it.is_given_up == (state is PartState.GIVEN_UP)]
            if done:
                files = sa.case({it.part.id: it.files + it.unchanged for it in done}, value=PARTS.c.id)
                after = sa.case((PARTS.c.again, int(PartState.TO_DO)), else_=int(state))
                values = {"state": after, "again": False, "tries": 0, "doing": None, "is_stored": True, "files": files}
                connection.execute(sa.update(PARTS).where(PARTS.c.id.in_([it.part.id for it in done])).values(**values))

    def _is_stray(self, connection: sa.engine.Connection, part: Held) -> bool:
        """Whether a folder is not divided into so many parts, as a worker that lies may have said."""
        first = (PARTS.c.path == part.path) & (PARTS.c.name == "") & (PARTS.c.chunk == 0)
        chunks = connection.execute(sa.select(PARTS.c.chunks).where(first)).scalar()
        return chunks is not None and part.chunk >= chunks

    def _divide(self, connection: sa.engine.Connection, outcome: Outcome) -> None:
        """Has the files of a folder be in so many parts from now on: if they were in others, those that there are get other files."""
        own = (PARTS.c.path == outcome.part.path) & (PARTS.c.name == "")
        connection.execute(sa.delete(PARTS).where(own, PARTS.c.chunk >= outcome.chunks))
        others = own & (PARTS.c.id != outcome.part.id) & (PARTS.c.chunks != outcome.chunks)
        again = {"state": sa.case((PARTS.c.state == 1, 1), else_=0), "again": PARTS.c.state == 1}
        connection.execute(sa.update(PARTS).where(others).values(chunks=outcome.chunks, **again))
        connection.execute(sa.update(PARTS).where(PARTS.c.id == outcome.part.id).values(chunks=outcome.chunks))

    def _count(self, connection: sa.engine.Connection, outcomes: Sequence[Outcome], parts: Optional[int] = None) -> None:
        names = ("files", "octets", "unchanged", "gone")
        sums: Dict[str, Any] = {name: WORKERS.c[name] + sum(getattr(it, name) for it in outcomes) for name in names}
        sums.update(parts=WORKERS.c.parts + (len(outcomes) if parts is None else parts), seen=int(time.time()))
        connection.execute(sa.update(WORKERS).where(WORKERS.c.id == self.number).values(**sums))


def _values_of(connection: sa.engine.Connection, asked: Any) -> List[Any]:
    """Returns the rows of a query as the driver has them. SQLAlchemy would make an object for each."""
    result = connection.execute(asked)
    rows: List[Any] = result.cursor.fetchall()
    result.close()
    return rows


def _without_own_row(table: sa.Table, ids: Sequence[int]) -> Any:
    """Asks for the files of parts of which something is stored, and no row of the file itself."""
    own = PLACES.alias()
    has_own = sa.exists().where(own.c.part == table.c.part, own.c.file == table.c.file, own.c.member == "")
    is_other = table.c.member != "" if table is PLACES else sa.true()
    return sa.select(table.c.part, table.c.file).distinct().where(table.c.part.in_(ids), is_other, ~has_own)


def is_lost(error: BaseException) -> bool:
    """Whether an error is that of a session that the database or the network ended, so that another one may do."""
    if not isinstance(error, DBAPIError):
        return False
    is_admin = getattr(error.orig, "pgcode", None) in ("57P01", "57P02", "57P03", "57P05", "25P03", "53300")
    return bool(error.connection_invalidated or is_admin)
