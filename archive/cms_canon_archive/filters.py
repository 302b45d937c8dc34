"""Which rows of a list are wanted, in which order, and how many."""

from __future__ import annotations

import re
from datetime import datetime, timezone
from typing import Any, Callable, List, NamedTuple, Optional

import sqlalchemy as sa

from .containers.found import State
from .faults import Misuse
from .tables import FILES, PLACE_SIGNERS, PLACE_TIMES, PLACES, SIGNERS, TIMES, of_same_place

_DATE = re.compile(r"[0-9]{4}(?:-[0-9]{2}(?:-[0-9]{2}(?:T[0-9]{2}:[0-9]{2}(?::[0-9]{2}Z?)?)?)?)?")


def moment_of(text: str) -> datetime:
    """Returns the first moment of a time in UTC, as 2024, 2024-02, 2024-02-29 or 2024-02-29T12:00. Raises `ValueError` if it is none."""
    if not _DATE.fullmatch(text):
        raise ValueError(text)
    return datetime.fromisoformat(f"{text.rstrip('Z')}{'-01-01'[len(text) - 4 :] if len(text) < 10 else ''}").replace(tzinfo=timezone.utc)


def _is_time(text: str) -> bool:
    try:
        moment_of(text)
    except ValueError:
        return False
    return True


_KEY = ("path", "member")


class Filters(NamedTuple):
    """What was asked for. A row has to meet all of it; what a table has no column for is asked of the message that its row is of."""

    state: Optional[str] = None
    under: Optional[str] = None
    """The text of the path of a folder or a file."""
    signer: Optional[str] = None
    """What the name of a signer or of the issuer of its certificate has in it, in letters of either case."""
    algorithm: Optional[str] = None
    since: Optional[str] = None
    """The first time, as 2024, 2024-02, 2024-02-29 or 2024-02-29T12:00, in UTC."""
    until: Optional[str] = None
    """The last time, and all that begins with it."""
    sort: Optional[str] = None
    limit: Optional[int] = None

    @property
    def of_place(self) -> Filters:
        """The same place, with no other choice."""
        return Filters(under=self.under)

    @property
    def chooses(self) -> bool:
        """Whether anything but the place chooses among rows."""
        return self._replace(under=None, sort=None, limit=None) != ALL

    def check(self) -> None:
        """Raises `ValueError` with a line if anything is asked for that no row can have."""
        states = [it.value for it in State]
        if self.state is not None and self.state not in states:
            raise ValueError(f"--state is one of: {', '.join(states)}")
        for name, text in (("--since", self.since), ("--until", self.until)):
            if text is not None and not _is_time(text):
                raise ValueError(f"{name} is a time in UTC as 2024, 2024-02, 2024-02-29 or 2024-02-29T12:00, and not {text}")

    def where(self, query: Any, table: Any) -> Any:
        """Returns a query of one of the tables of a store that gives only what is wanted."""
        return query.where(*self._conditions(table))

    def of(self, query: Any, table: Any) -> Any:
        """Returns the same in the order that is wanted, and no more than are wanted."""
        query = self.where(query, table)
        if self.sort is not None:
            columns = {it.name: it for it in query.selected_columns}
            if self.sort not in columns:
                raise Misuse(f"--sort is one of: {', '.join(sorted(columns))}")
            query = query.order_by(None).order_by(columns[self.sort].nulls_last(), *(table.c[it] for it in _KEY))
        return query if self.limit is None else query.limit(self.limit)

    def _conditions(self, table: Any) -> List[Any]:
        asked: List[Any] = []
        if self.under is not None:
            inside = self.under.rstrip("/") + "/"
            asked.append((table.c.path == self.under) | ((table.c.path >= inside) & (table.c.path < inside[:-1] + "0")))
        if self.state is not None:
            asked.append(_of_one(table, table if table is TIMES else FILES, lambda columns: columns.state == self.state))
        if self.signer is not None:
            asked.append(_of_one(table, SIGNERS, self._is_signer))
        if self.algorithm is not None:
            names = ("digest",) if table is TIMES else ("digest", "signature", "key", "certificate")
            asked.append(_of_one(table, table if table is TIMES else SIGNERS, lambda columns: sa.or_(*(columns[it] == self.algorithm for it in names))))
        if self.since is not None or self.until is not None:
            asked.append(self._is_between(table))
        return asked

    def _is_signer(self, columns: Any) -> Any:
        escaped = re.sub(r"([%_\\])", r"\\\1", str(self.signer))
        wanted = sa.func.lower(sa.literal(f"%{escaped}%"))  # by the database, which lowers other letters than Python does
        return sa.or_(*(sa.func.lower(sa.func.coalesce(columns[it], "")).like(wanted, escape="\\") for it in ("subject", "issuer")))

    def _is_between(self, table: Any) -> Any:
        if table is SIGNERS:
            return self._is_in(SIGNERS.c.signing_time)
        if table is TIMES:
            return self._is_in(TIMES.c.time)
        return _of_one(table, SIGNERS, lambda it: self._is_in(it.signing_time)) | _of_one(table, TIMES, lambda it: self._is_in(it.time))

    def _is_in(self, column: Any) -> Any:
        bounds = [column.is_not(None)]
        if self.since is not None:
            bounds.append(column >= self.since.rstrip("Z"))
        if self.until is not None:
            until = self.until.rstrip("Z")
            bounds.append(sa.func.substr(column, 1, len(until)) <= until)
        return sa.and_(*bounds)


ALL = Filters()
_OWN = {FILES: PLACES, SIGNERS: PLACE_SIGNERS, TIMES: PLACE_TIMES}


def _of_one(table: Any, other: Any, condition: Callable[[Any], Any]) -> Any:
    """Returns the condition that a row, or one of another table for the same message, has columns that meet a condition."""
    if table is other:
        return condition(table.c)
    own = _OWN[other]
    return sa.exists().where(of_same_place(own, table), condition(own.c)).correlate(table)
