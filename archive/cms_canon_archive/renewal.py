"""Which signatures need a new time-stamp by a day, since nothing that the store knows protects them until then.

A time-stamp protects a signature if it fits and was made while the signature was still good by itself: before the end of the signer's
certificate, and while its algorithms were accepted. It does so until its own certificate ends, or its algorithms are no longer accepted.
Of several, the one that lasts longest decides. A token that is a message protects its document in the same way. What is not known is listed.

The database counts and chooses. A moment is compared as `2024-02-29T12:00:00Z`, to the second, so that the order of texts is that of moments.
"""

from __future__ import annotations

import re
from datetime import date
from itertools import chain, groupby, islice
from typing import Any, Dict, Iterator, List, NamedTuple, Optional, Sequence, Tuple

import sqlalchemy as sa
from sqlalchemy.ext.compiler import compiles

from .containers.found import State
from .filters import ALL, Filters
from .judging import MOST_LISTED
from .policy import Policy
from .reading import Row
from .store import SIGNERS, Store
from .tables import PARTS, PLACE_SIGNERS, PLACE_TIMES, of_same_place

FITS = State.FITS.value
MOST_SAID = 3  # time-stamps of one signature of which it is said why they do not protect it
_DAY = re.compile("[0-9]{4}-[0-9]{2}-[0-9]{2}")
_NO_END = "9999-12-31T23:59:59Z"
_DAY_LENGTH = 10  # characters of a moment up to its day
_SECONDS = 19  # characters of a moment up to its seconds
_PATH = PARTS.c.path.concat(PARTS.c.name)
_KEY = ("of_part", "of_file", "member", "number")
_OF_SIGNER = ("subject", "not_after", "digest", "signature", "key", "bits")
_OF_TIME = ("number", "time", "state", "not_after", "digest", "signature", "key", "bits")


def day_of(text: str) -> str:
    """Returns a day as `2030-12-31`. Raises `ValueError` if a text is none."""
    try:
        if _DAY.fullmatch(text):
            return date.fromisoformat(text).isoformat()
    except ValueError:
        pass
    raise ValueError(f"--by is a day as 2030-12-31, and not {text}")


# ---- moments in the database


class _Earliest(sa.sql.ColumnElement):  # type: ignore[misc]  # SQLAlchemy 1.4 has no types
    """The earliest of some moments; NULL if one of them is not known."""

    inherit_cache = False
    type = sa.Text()

    def __init__(self, *moments: Any) -> None:
        self.moments = moments


@compiles(_Earliest, "postgresql")  # type: ignore[misc]  # likewise
def _earliest_in_postgresql(element: _Earliest, compiler: Any, **how: Any) -> str:
    moments = [compiler.process(it, **how) for it in element.moments]
    return f"CASE WHEN {' AND '.join(f'({it}) IS NOT NULL' for it in moments)} THEN least({', '.join(moments)}) END"


@compiles(_Earliest)  # type: ignore[misc]  # likewise
def _earliest_in_sqlite(element: _Earliest, compiler: Any, **how: Any) -> str:
    return f"min({', '.join(compiler.process(it, **how) for it in element.moments)})"


def _text(value: str) -> Any:
    """Returns a text that is written into a statement, since SQLite before 3.32 takes 999 values beside it."""
    return sa.bindparam(None, value, sa.Text(), unique=True, literal_execute=True)


def _end_of(day: str) -> str:
    return f"{day}T23:59:59Z"


def _last_of(days: Dict[str, str], column: Any) -> Any:
    """Returns the last moment at which the algorithm in a column is accepted; NULL if it is not known."""
    return sa.case(*((column == _text(name), _text(_end_of(day))) for name, day in days.items()), else_=sa.null()) if days else sa.null()


def _last_of_key(policy: Policy, columns: Any) -> Any:
    of_length = [
        (columns.key == _text(key), sa.case(*((columns.bits >= least, _text(_end_of(day))) for least, day in lengths), else_=sa.null()))
        for key, lengths in policy.lengths.items() if lengths
    ]
    others = [(columns.key == _text(key), _text(_end_of(day))) for key, day in policy.keys.items()]
    return sa.case(*of_length, *others, else_=sa.null()) if of_length or others else sa.null()


def _last_moment(policy: Policy, columns: Any) -> Any:
    """Returns the last moment at which a signature is good by itself: its certificate has not ended, and all its algorithms are accepted."""
    accepted = (_last_of(policy.digests, columns.digest), _last_of(policy.signatures, columns.signature), _last_of_key(policy, columns))
    return _Earliest(columns.not_after, *accepted)


def _later(one: Any, other: Any) -> Any:
    """Returns the later of two moments, or the one that is known."""
    return sa.func.coalesce(sa.case((one > other, one), else_=other), one)


def _second(moment: Any) -> Any:
    return sa.func.substr(moment, 1, _SECONDS)


# ---- what protects each signature

_SIGNERS = sa.select(*(it.label(f"of_{it.name}" if it.name in ("part", "file") else it.name) for it in PLACE_SIGNERS.columns)).subquery("signers")  # without paths
_OWN = PLACE_TIMES.alias("own")  # the time of the token that a message is
_STAMP = PLACE_TIMES.alias("stamp")  # those in the unsigned attributes of a signer


def _is_stamp_of(signer: Any) -> Any:
    """Returns the condition that a time is of a token in an unsigned attribute of this signer: its number begins with that and a slash."""
    return of_same_place(_STAMP, signer) & (_STAMP.c.number >= signer.c.number.concat("/")) & (_STAMP.c.number < signer.c.number.concat("0"))


def _protected(policy: Policy, filters: Filters) -> Any:
    """Returns each signer with the last moments at which it is good by itself (`own`), and protected by a time-stamp in it (`stamped`).

    An offset keeps the database from working these out again for each place at which they are used.
    """
    signers = _SIGNERS if filters.under is None else SIGNERS
    of_token = of_same_place(_OWN, signers) & (_OWN.c.number == "")
    imprint = sa.case((_OWN.c.number.is_(None), _text(_NO_END)), else_=_last_of(policy.digests, _OWN.c.digest))
    columns = [*(signers.c[it] for it in _KEY), _Earliest(_last_moment(policy, signers.c), imprint).label("own"), _OWN.c.state.label("token")]
    asked = sa.select(*columns).select_from(signers.outerjoin(_OWN, of_token)).where(sa.not_(signers.c.number.contains(".")))
    signed = filters.where(asked, signers).offset(0).subquery("signed")
    in_time = (_STAMP.c.state == _text(FITS)) & (_second(_STAMP.c.time) <= _second(signed.c.own))
    stamped = sa.select(sa.func.max(_last_moment(policy, _STAMP.c))).where(_is_stamp_of(signed), in_time).correlate(signed).scalar_subquery()
    return sa.select(*signed.c, stamped.label("stamped")).offset(0).subquery("protected")


def _by_time_stamps(protected: Any) -> Any:
    """Returns the last moment at which a time-stamp protects a signature, or a token its document; NULL if none is known to."""
    by_token = sa.case((protected.c.token == FITS, _later(protected.c.own, protected.c.stamped)), else_=sa.null())
    return sa.case((protected.c.token.is_(None), protected.c.stamped), else_=by_token)


def _until(protected: Any) -> Any:
    """Returns the last moment at which anything is known to protect it: of a signature also that at which it is good by itself."""
    return sa.case((protected.c.token.is_(None), _later(protected.c.own, protected.c.stamped)), else_=_by_time_stamps(protected))


def years(connection: sa.engine.Connection, policy: Policy) -> Dict[Optional[int], int]:
    """Counts the signatures by the year in which they cease to be protected; None is for those of which that is not known."""
    protected = _protected(policy, ALL)
    year = sa.func.substr(_until(protected), 1, 4)
    asked = sa.select(year, sa.func.count()).select_from(protected).group_by(year).order_by(year.nulls_first())
    return {None if it is None else int(it): int(count) for it, count in connection.execute(asked)}


# ---- what needs renewal


def _order(columns: Any) -> List[Any]:
    return [columns["until"].nulls_first(), *(columns[it] for it in ("path", "member", "number"))]


def _with_what_decides(due: Any) -> Any:
    """Returns a query of signers with what is known of each and of its time-stamps, a row for each of these."""
    is_signer = of_same_place(PLACE_SIGNERS, due) & (PLACE_SIGNERS.c.number == due.c.number)
    columns = [
        *(due.c[it] for it in ("path", "member", "number", "until", "own", "token")),
        *(PLACE_SIGNERS.c[it] for it in _OF_SIGNER),
        _OWN.c.digest.label("imprint"),
        *(_STAMP.c[it].label(f"stamp_{it}") for it in _OF_TIME),
    ]
    joined = due.join(PLACE_SIGNERS, is_signer).outerjoin(_OWN, of_same_place(_OWN, due) & (_OWN.c.number == "")).outerjoin(_STAMP, _is_stamp_of(due))
    return sa.select(*columns).select_from(joined).order_by(*_order(due.c), _STAMP.c.number)


def renewal(store: Store, policy: Policy, by: str, filters: Filters = ALL) -> Iterator[Row]:
    """Gives the signatures that no time-stamp protects on the day `by`, as `2030-12-31`: first those of which that is not known, and then as they end."""
    rows = chain(_cut(store, filters), _due(store, policy, by, filters))
    return islice(rows, filters.limit)


def _cut(store: Store, filters: Filters) -> Iterator[Row]:
    """Gives the messages with so many signers that the store may not have all of them."""
    signers = _SIGNERS if filters.under is None else SIGNERS
    key = [signers.c[it] for it in _KEY[:-1]]
    many = filters.where(sa.select(*key), signers).group_by(*key).having(sa.func.count() >= MOST_LISTED).subquery("many")
    path = _PATH.concat(many.c.of_file).label("path")
    asked = sa.select(path, many.c.member).select_from(many.join(PARTS, PARTS.c.id == many.c.of_part)).order_by(path, many.c.member)
    for row in store.asked(asked):
        why = f"the store takes {MOST_LISTED:,} signers and countersigners of a message, and may not have all of this one"
        yield {"path": row["path"], "member": row["member"], "number": "", "subject": None, "until": None, "why": why}


def _due(store: Store, policy: Policy, by: str, filters: Filters) -> Iterator[Row]:
    protected = _protected(policy, filters)
    last = _by_time_stamps(protected)
    columns = (_PATH.concat(protected.c.of_file).label("path"), *protected.c, sa.func.substr(_until(protected), 1, _DAY_LENGTH).label("until"))
    due = sa.select(*columns).select_from(protected.join(PARTS, PARTS.c.id == protected.c.of_part))
    due = due.where(last.is_(None) | (last < f"{by}T00:00:00Z"))
    if filters.limit is not None:
        due = due.order_by(*_order(due.selected_columns)).limit(filters.limit)
    asked = _with_what_decides(due.subquery("due"))
    for _, rows in groupby(store.asked(asked), key=lambda row: (row["path"], row["member"], row["number"])):
        yield _row_of(list(rows), policy, by)


def _row_of(rows: List[Row], policy: Policy, by: str) -> Row:
    """Returns a signature as a list has it, from what was found of it and each of its time-stamps."""
    first = rows[0]
    stamps = [_Stamp(*(row[f"stamp_{it}"] for it in _OF_TIME)) for row in rows if row["stamp_number"] is not None]
    why = "; ".join(_reasons(first, stamps, policy, by))
    return {**{it: first[it] for it in ("path", "member", "number", "subject", "until")}, "why": why}


# ---- why


class _Signature(NamedTuple):
    """What decides until when a signature is good by itself."""

    not_after: Optional[str]
    digest: Optional[str]
    signature: Optional[str]
    key: Optional[str]
    bits: Optional[int]


class _Stamp(NamedTuple):
    """A time-stamp in an unsigned attribute."""

    number: str
    time: Optional[str]
    state: Optional[str]
    not_after: Optional[str]
    digest: Optional[str]
    signature: Optional[str]
    key: Optional[str]
    bits: Optional[int]

    @property
    def own(self) -> _Signature:
        return _Signature(*self[3:])


class _End(NamedTuple):
    """When something ends that a signature needs, as `2030-12-31T23:59:59Z`; None if that is not known. `said` has that in words."""

    moment: Optional[str]
    said: str


def _ends(one: _Signature, policy: Policy) -> Iterator[_End]:
    """Gives when each ends of what a signature needs: its certificate, its algorithms and its key."""
    yield _End(one.not_after, f"certificate ends {one.not_after[:_DAY_LENGTH]}" if one.not_after else "end of the certificate not known")
    yield _end("digest", one.digest, policy.digests.get(one.digest or ""))
    yield _end("signature algorithm", one.signature, policy.signatures.get(one.signature or ""))
    is_measured = one.key in policy.lengths
    if is_measured and one.bits is None:
        yield _End(None, f"length of the {one.key} key not known")
    else:
        yield _end("key", f"{one.key} {one.bits}" if is_measured else one.key, policy.of_key(one.key, one.bits))


def _end(what: str, name: Optional[str], day: Optional[str]) -> _End:
    if not name:
        return _End(None, f"{what} not known")
    return _End(_end_of(day), f"{name} accepted until {day}") if day else _End(None, f"{what} {name} not in the policy")


def _last(ends: Sequence[_End]) -> Optional[str]:
    """Returns the first of the ends; None if one of them is not known."""
    moments = [it.moment for it in ends]
    return None if None in moments else min(it for it in moments if it is not None)


def _lacking(ends: Sequence[_End], by: str) -> List[str]:
    """Says what has ended on a day, or is not known."""
    return [it.said for it in ends if it.moment is None or it.moment[:_DAY_LENGTH] < by]


def _reasons(found: Row, stamps: List[_Stamp], policy: Policy, by: str) -> List[str]:
    """Says why a signature is not known to be protected on a day."""
    own = list(_ends(_Signature(*(found[it] for it in _OF_SIGNER[1:])), policy))
    if found["token"] is not None:
        own.append(_end("digest", found["imprint"], policy.digests.get(found["imprint"] or "")))
    good = [it for it in stamps if it.state == FITS and _is_in_time(it, found["own"])]
    if good:
        return _of_best(good, policy, by) + (_of_token(found["token"]) if found["token"] else [])
    reasons = _of_token(found["token"]) if found["token"] else [] if stamps else ["no time-stamp"]
    reasons += [_why_not(it, found["own"]) for it in islice(stamps, MOST_SAID)]
    reasons += [f"and {len(stamps) - MOST_SAID:,} other time-stamps"] if len(stamps) > MOST_SAID else []
    return list(dict.fromkeys([*reasons, *_lacking(own, by)]))


def _of_token(state: str) -> List[str]:
    return [] if state == FITS else [f"time-stamp: {state}"]


def _is_in_time(stamp: _Stamp, own: Optional[str]) -> bool:
    return stamp.time is not None and own is not None and stamp.time[:_SECONDS] <= own[:_SECONDS]


def _why_not(stamp: _Stamp, own: Optional[str]) -> str:
    """Says why a time-stamp is not known to protect its signature."""
    name = f"time-stamp {stamp.number}"
    if stamp.state != FITS:
        return f"{name}: {stamp.state or 'not known whether it fits'}"
    if stamp.time is None or own is None:
        return f"{name}: not known whether it is in time"
    return f"{name} of {stamp.time[:_DAY_LENGTH]}: too late, as the signature was good until {own[:_DAY_LENGTH]}"


def _of_best(good: Sequence[_Stamp], policy: Policy, by: str) -> List[str]:
    """Says what has ended, or is not known, of the time-stamp that lasts longest."""
    ends = [(it, list(_ends(it.own, policy))) for it in good]
    best: Tuple[_Stamp, List[_End]] = max(ends, key=lambda it: _last(it[1]) or "")
    return [f"time-stamp {best[0].number}: {it}" for it in _lacking(best[1], by)]
