"""What a worker does: it takes parts of an archive, reads them and stores what came of them, until none is left."""

from __future__ import annotations

import time
from typing import Callable, List, Optional, Sequence

import sqlalchemy as sa
from sqlalchemy.exc import DataError, DBAPIError, IntegrityError

from .containers.packed import why_of
from .folders import KILLED, REFUSED, Reader, path_of
from .opening import own_files
from .options import Options
from .reading import Entry
from .sessions import AT_ONCE, NOTHING, Held, Outcome, Session, Superseded, is_lost
from .spool import Spool

MOST_TRIES = 4  # of a part, or of a file if each is stored by itself
_PASSING = ("40P01", "40001", "55P03")  # a deadlock, another order of transactions, a lock that was waited for too long
_SHORTEST_WAIT, _LONGEST_WAIT = 0.01, 0.5  # seconds for parts that others may find


class Worker:
    """A worker of this process."""

    def __init__(self, url: sa.engine.URL, options: Options) -> None:
        self._url = url
        self._options = options
        self._own = own_files(url)
        self._session: Optional[Session] = None
        self._held: Sequence[Held] = ()
        self._many = 1  # parts that are taken at once
        self._last = time.monotonic()  # when the database replied last, or there was something to do

    def run(self) -> None:
        """Works until no part is left. A session that is lost is begun again, as long as the database replies in time."""
        wait = _SHORTEST_WAIT
        try:
            while True:
                try:
                    session = self._begun()
                    wait = _SHORTEST_WAIT if self._step(session) else min(2 * wait, _LONGEST_WAIT)
                    if wait > _SHORTEST_WAIT and self._is_over(session):
                        return
                except Superseded:
                    self._held = ()
                    continue
                except DBAPIError as error:
                    self._lost(error)
                    wait = min(2 * wait, _LONGEST_WAIT)
                if wait > _SHORTEST_WAIT:
                    time.sleep(wait)
        finally:
            self._end()

    def _begun(self) -> Session:
        if self._session is None:
            self._session = Session(self._url, self._options.patience)
            self._last = time.monotonic()
        return self._session

    def _is_over(self, session: Session) -> bool:
        """Whether no part is left, and none came for as long as is waited for one."""
        if session.is_any_left():
            self._last = time.monotonic()
            return False
        return time.monotonic() - self._last >= self._options.stays

    def _lost(self, error: DBAPIError) -> None:
        """Lets go of a session that is lost. Raises the error if it says something else, or the database was away for too long."""
        is_over = time.monotonic() - self._last > self._options.patience
        if self._session is not None and not is_lost(error) or self._session is None and (is_over or not _is_away(error)):
            raise error
        if self._session is not None:
            self._session.close()
            self._session = None
            self._last = time.monotonic()
        self._held = ()

    def _end(self) -> None:
        if self._session is None:
            return
        try:
            if self._held:
                self._session.give_back(self._held)
        except DBAPIError:  # of a session that is lost: others take its parts back
            pass
        self._session.close()

    def _step(self, session: Session) -> bool:
        """Does some parts, and returns whether there were any, or may be now."""
        self._held = session.take(self._many)
        if not self._held:
            return session.take_back() > 0
        self._last = time.monotonic()
        if self._held[0].tries > 1:
            self._one(session, self._held[0])
        else:
            self._some(session, self._held)
        self._held = ()
        self._last = time.monotonic()
        return True

    def _some(self, session: Session, parts: Sequence[Held]) -> None:
        """Does several parts, and stores them together. If the store refuses them, each is tried by itself."""
        rows = Spool(session.number)
        try:
            reader = Reader(self._own, session.known(parts), session.files_with_parts(parts), rows, session.settings(parts))
            outcomes: List[Outcome] = []
            files = 0
            for part in parts:
                outcomes.append(reader.read(part))
                files += outcomes[-1].files + outcomes[-1].unchanged
                if files >= self._options.together:
                    break
            unbegun = parts[len(outcomes) :]
            _tried(lambda: session.put(outcomes, rows, unbegun))
            self._many = max(1, min(AT_ONCE, self._options.together * len(outcomes) // max(files, 1)))
        except (IntegrityError, DataError):
            self._held = ()
            session.give_up(parts)
        finally:
            rows.close()

    # ---- after a worker died

    def _one(self, session: Session, part: Held) -> None:
        """Does one part of which a worker died, each file by itself, so that if one kills again, it is known which."""
        if part.tries > MOST_TRIES and part.doing is None:
            self._give_up(session, part)
            return
        part = part._replace(is_stored=True)  # or what is stored of each file would go when all are there
        rows = Spool(session.number)
        outcome = Outcome(part)
        known = session.known([part])
        reader = Reader(self._own, known, session.files_with_parts([part]), rows, session.settings([part]))
        try:
            for file, entry in reader.begin(outcome):
                if file == "":
                    reader.read_file(outcome, file, entry)
                elif part.doing is None or file >= part.doing or known[part.id].get(file, NOTHING) is NOTHING:
                    self._of_each(session, part, file, entry)
            _tried(lambda: session.put([outcome], rows))
        except (IntegrityError, DataError) as error:
            self._put_error(session, part, "", f"{REFUSED}: {_constraint_of(error)}", is_over=True)
        finally:
            rows.close()

    def _of_each(self, session: Session, part: Held, file: str, entry: Entry) -> None:
        """Reads one of the files of a folder, which come in the order of their names. Those before the one at which a worker died are stored."""
        if file == part.doing and part.tries > MOST_TRIES:
            self._put_error(session, part, file, KILLED)
            return
        if file != part.doing:
            _tried(lambda: session.note_doing(part, file, 2))
        self._store_one(session, part, file, entry)

    def _store_one(self, session: Session, part: Held, file: str, entry: Entry) -> None:
        rows = Spool(session.number)
        try:
            outcome = Outcome(part._replace(is_stored=True))
            Reader(self._own, {}, {}, rows, session.settings([part])).read_file(outcome, file, entry)
            _tried(lambda: session.put_file(outcome, rows))
        except (IntegrityError, DataError) as error:
            self._put_error(session, part, file, f"{REFUSED}: {_constraint_of(error)}")
        finally:
            rows.close()

    def _put_error(self, session: Session, part: Held, file: str, why: str, is_over: bool = False) -> None:
        """Stores a row that says why a file was not read, in place of what was stored of it."""
        rows = Spool(session.number)
        outcome = Outcome(part._replace(is_stored=True))
        outcome.is_given_up = is_over
        try:
            Reader(self._own, {}, {}, rows, session.settings([part])).put_error(outcome, file, (path_of(part) or part.path) + file, why)
            _tried(lambda: session.put([outcome], rows) if is_over else session.put_file(outcome, rows))
        finally:
            rows.close()

    def _give_up(self, session: Session, part: Held) -> None:
        self._put_error(session, part, "", KILLED, is_over=True)


def _tried(do: Callable[[], None]) -> None:
    """Does it again if another transaction was in the way."""
    for left in reversed(range(MOST_TRIES)):
        try:
            return do()
        except DBAPIError as error:
            if not left or getattr(error.orig, "pgcode", None) not in _PASSING:
                raise
            time.sleep(0.05 * (MOST_TRIES - left))


def _is_away(error: DBAPIError) -> bool:
    """Whether there is no connection with the database for now."""
    code = getattr(error.orig, "pgcode", None)
    text = str(error.orig)
    return code in ("57P03", "53300") or code is None and any(it in text for it in ("onnect", "server closed", "starting up", "shutting down", "recovery", "too many"))


def _constraint_of(error: DBAPIError) -> str:
    """Returns which constraint of the database a row breaks, without what is in the row."""
    name = getattr(getattr(error.orig, "diag", None), "constraint_name", None)
    return str(name) if name else why_of(error.orig)[:100]
