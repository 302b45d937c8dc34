"""What is in an archive, as its store says at one moment. All is counted in the database."""

from __future__ import annotations

from contextlib import contextmanager
from datetime import datetime, timezone
from heapq import nsmallest
from typing import Any, Dict, Iterator, List, NamedTuple, Optional, Tuple

import sqlalchemy as sa

from . import renewal
from .containers.found import Class, State
from .faults import Complaint
from .history import Changes, changes_counted
from .policy import policy_in
from .queries import IS_NOTED, IS_UNREAD, IS_WITHOUT_MESSAGE, is_weak, name_of
from .store import FILES, SIGNERS, TIMES, Store
from .tables import PLACE_SIGNERS, PLACE_TIMES, Now, of_same_place

FIRST = 5  # files of each refusal, error and group that the page names
LARGEST = 10  # groups of copies, and of files that cannot be read, that the page has
MOST_LINES = 40  # of a table of signers, folders or algorithms
MOST_POWERS = 48  # a file is shorter than 2 to this many octets
NOT_JUDGED = "not judged"
KINDS = ("signature", "token", "response", "request", "certificates")
_ONLY_NAMED = (Class.OTHER.value, Class.NOT_LOOKED_INTO.value)


class Kind(NamedTuple):
    """How many messages are of one kind, how many of them are not DER, and how many octets they have."""

    files: int
    not_der: int
    octets: int


class File(NamedTuple):
    """A file, and how many octets of it were read if it is refused, or what else is to be said of it."""

    name: str
    at: Optional[int]
    note: str = ""


class Refusals(NamedTuple):
    """The files that are refused for one reason, of which the first are named."""

    reason: int
    files: int
    first: List[File]


class Unreadable(NamedTuple):
    """The files that are damaged, too large or cannot be read because of one error, of which the first are named."""

    error: str
    files: int
    first: List[File]


class Copies(NamedTuple):
    """The files that are one message, of which the first are named, and how many octets all but the shortest have."""

    digest: str
    files: int
    spare_octets: int
    first: List[File]


class Duplicates(NamedTuple):
    """How many messages more than one file is, and what all files of each but the shortest have."""

    messages: int
    spare_files: int
    spare_octets: int
    largest: List[Copies]


class Algorithm(NamedTuple):
    """How many signers use these algorithms and this key."""

    digest: Optional[str]
    signature: Optional[str]
    key: Optional[str]
    bits: Optional[int]
    signers: int
    is_weak: bool


class Who(NamedTuple):
    """Whose certificates signers name, how many there are, when they say that they signed, and when the certificates end."""

    subject: Optional[str]
    signers: int
    first: Optional[str]
    last: Optional[str]
    not_after: Optional[str]
    has_ended: bool


class Named(NamedTuple):
    """The files without a message that are of one class and form, of which the first are named."""

    what: str
    form: str
    files: int
    first: List[File]


class Group(NamedTuple):
    """Messages of one folder, container or year: how many fit, do not, and could not be judged; files counts what has no signature too."""

    name: str
    files: int
    fit: int
    in_part: int
    differ: int
    unjudged: int


class Summary(NamedTuple):
    """What is in an archive."""

    files: int
    octets: int
    states: Dict[str, int]
    noted: int
    """How many messages fit with a note."""
    classes: Dict[str, int]
    kinds: Dict[str, Kind]
    differing: List[File]
    verdicts: Dict[str, int]
    refusals: List[Refusals]
    unreadable: List[Unreadable]
    duplicates: Duplicates
    algorithms: List[Algorithm]
    digest_years: List[Tuple[str, str, int]]
    """The year in which signers say that they signed, the digest algorithm, and how many signers."""
    weak: int
    who: List[Who]
    ended: int
    """How many signers have certificates that have ended."""
    years: Dict[int, int]
    """How many tokens there are, by the year of their time."""
    time_states: Dict[str, int]
    folders: List[Group]
    forms: List[Group]
    powers: Dict[int, int]
    """How many messages have from 2**power octets to less than twice as many."""
    signed_years: List[Group]
    """By the year in which the first signer says that it signed, or else of the time-stamp."""
    renewal: Optional[Dict[Optional[int], int]]
    """How many signatures cease to be protected, by the year; None if there is nothing that can read the policy."""
    changes: Optional[Changes]
    named: List[Named]
    about: Dict[str, str]
    time: int
    """When it was so, in seconds since 1970 by the clock of the database."""

    def of(self, *states: State) -> int:
        """Returns how many messages are in these states."""
        return sum(self.states.get(it.value, 0) for it in states)

    @property
    def messages(self) -> int:
        return sum(self.states.values())

    @property
    def signatures(self) -> int:
        return self.messages - self.of(State.NO_SIGNATURE)

    @property
    def unjudged(self) -> int:
        return self.signatures - self.of(State.FITS, State.EARLIER, State.PARTLY, State.DIFFERS)


# ---- asking the store

_IS_MESSAGE = FILES.c.what == Class.MESSAGE.value
_IS_REFUSED = FILES.c.what == Class.REFUSED.value
IS_UNREAD_INSIDE = (sa.func.coalesce(FILES.c.verdict, "") == "wrong") | sa.func.coalesce(FILES.c.note, "").like(f"%token %: {State.DIFFERS.value}%")
_STATE = sa.case((IS_UNREAD_INSIDE, State.DIFFERS.value), else_=sa.func.coalesce(FILES.c.state, NOT_JUDGED))  # a wrong signature or time-stamp counts as one


@contextmanager
def moment(store: Store) -> Iterator[sa.engine.Connection]:
    """Lends a connection that sees the store as it is at one moment, even if it is being brought up to date."""
    with store.engine.connect() as connection:
        if store.engine.dialect.name == "sqlite":
            connection.exec_driver_sql("BEGIN")
        else:
            connection = connection.execution_options(isolation_level="REPEATABLE READ")
        yield connection


def _counts(connection: Any, key: Any, *conditions: Any) -> Dict[Any, int]:
    """Returns how many rows there are of each value of a key, in the order of the values."""
    asked = sa.select(key, sa.func.count()).where(*conditions).group_by(key).order_by(key)
    return {value: int(count) for value, count in connection.execute(asked)}


def _first_of(connection: Any, key: Any, where: Any) -> Dict[Any, List[File]]:
    """Returns the first files of each group with an equal key, in the order of their names."""
    order = (FILES.c.path, FILES.c.member)
    number = sa.func.row_number().over(partition_by=key, order_by=order)
    files = sa.select(key.label("key"), *order, FILES.c.at, FILES.c.note, number.label("number")).where(where).subquery()
    first: Dict[Any, List[File]] = {}
    for row in connection.execute(sa.select(files).where(files.c.number <= FIRST).order_by(files.c.key, files.c.number)):
        first.setdefault(row.key, []).append(File(name_of(row._mapping), row.at, row.note or ""))
    return first


def kinds_of(connection: Any) -> Dict[str, Kind]:
    not_der = sa.func.sum(sa.case((FILES.c.is_der.is_(False), 1), else_=0))
    asked = sa.select(FILES.c.kind, sa.func.count(), not_der, sa.func.sum(FILES.c.length)).where(_IS_MESSAGE).group_by(FILES.c.kind)
    found = {str(kind): Kind(*map(int, counts)) for kind, *counts in connection.execute(asked)}
    return {**dict.fromkeys(KINDS, Kind(0, 0, 0)), **found}


def _refusals_of(connection: Any) -> List[Refusals]:
    first = _first_of(connection, FILES.c.reason, _IS_REFUSED)
    return [Refusals(reason, files, first[reason]) for reason, files in _counts(connection, FILES.c.reason, _IS_REFUSED).items()]


def _unreadable_of(connection: Any) -> List[Unreadable]:
    """Returns the errors with the most files. Some errors name the member that they are about, so that there may be very many."""
    counts = _counts(connection, FILES.c.error, IS_UNREAD)
    most = nsmallest(LARGEST, counts.items(), key=lambda it: (-it[1], it[0]))
    first = _first_of(connection, FILES.c.error, IS_UNREAD & FILES.c.error.in_([error for error, _ in most]))
    return [Unreadable(error, files, first[error]) for error, files in most if error is not None]


def _duplicates_of(connection: Any) -> Duplicates:
    """Returns the messages that are in more than one file, the largest groups first."""
    spare_octets = sa.func.sum(FILES.c.length) - sa.func.min(FILES.c.length)
    columns = (FILES.c.digest, sa.func.count().label("files"), spare_octets.label("spare_octets"))
    groups = sa.select(*columns).where(FILES.c.digest.is_not(None)).group_by(FILES.c.digest).having(sa.func.count() > 1).subquery()
    totals = sa.select(sa.func.count(), sa.func.sum(groups.c.files - 1), sa.func.sum(groups.c.spare_octets))
    messages, files, octets = connection.execute(totals.select_from(groups)).one()
    order = (groups.c.files.desc(), groups.c.spare_octets.desc(), groups.c.digest)
    largest = connection.execute(sa.select(groups).order_by(*order).limit(LARGEST)).all()
    first = _first_of(connection, FILES.c.digest, FILES.c.digest.in_([row.digest for row in largest]))
    copies = [Copies(row.digest, row.files, int(row.spare_octets), first[row.digest]) for row in largest]
    return Duplicates(messages, int(files or 0), int(octets or 0), copies)


def _algorithms_of(connection: Any) -> List[Algorithm]:
    key = (SIGNERS.c.digest, SIGNERS.c.signature, SIGNERS.c.key, SIGNERS.c.bits)
    weak = sa.func.max(sa.case((is_weak(), 1), else_=0))
    asked = sa.select(*key, sa.func.count(), weak).group_by(*key).order_by(sa.func.count().desc(), *key).limit(MOST_LINES)
    return [Algorithm._make((*row[:5], bool(row[5]))) for row in connection.execute(asked)]


def _digest_years_of(connection: Any) -> List[Tuple[str, str, int]]:
    year = sa.func.coalesce(sa.func.substr(SIGNERS.c.signing_time, 1, 4), "not said")
    asked = sa.select(year, SIGNERS.c.digest, sa.func.count()).group_by(year, SIGNERS.c.digest).order_by(year, SIGNERS.c.digest)
    return [(str(it), str(digest), int(count)) for it, digest, count in connection.execute(asked)]


def _who_of(connection: Any, now: str) -> List[Who]:
    key, count = (SIGNERS.c.subject, SIGNERS.c.not_after), sa.func.count()
    times = (sa.func.min(SIGNERS.c.signing_time), sa.func.max(SIGNERS.c.signing_time))
    asked = sa.select(*key, count, *times).group_by(*key).order_by(count.desc(), *key).limit(MOST_LINES)
    return [Who(it[0], it[2], it[3], it[4], it[1], bool(it[1] and it[1] < now)) for it in connection.execute(asked)]


def _years_of(connection: Any) -> Dict[int, int]:
    counts = _counts(connection, sa.func.substr(TIMES.c.time, 1, 4), TIMES.c.time.is_not(None))
    return {int(year): tokens for year, tokens in counts.items() if year.isdecimal()}


def _powers_of(connection: Any) -> Dict[int, int]:
    power = sa.case(*((FILES.c.length < 2 << it, it) for it in range(MOST_POWERS)), else_=MOST_POWERS)
    return _counts(connection, power, _IS_MESSAGE)


def _sum_of(condition: Any) -> Any:
    return sa.func.coalesce(sa.func.sum(sa.case((condition, 1), else_=0)), 0)


def _group_columns() -> List[Any]:
    """Returns the counts of a group: all messages, and those that fit, fit in part, do not, and are not judged."""
    known = [it.value for it in (State.FITS, State.EARLIER, State.PARTLY, State.DIFFERS, State.NO_SIGNATURE)]
    fit, differ = _sum_of(_STATE == State.FITS.value), _sum_of(_STATE == State.DIFFERS.value)
    in_part = _sum_of(_STATE.in_([State.EARLIER.value, State.PARTLY.value]))
    return [sa.func.count(), fit, in_part, differ, _sum_of(_STATE.not_in(known))]


def _groups_in(connection: Any, asked: Any) -> List[Group]:
    return [Group(str(name or ""), *map(int, counts)) for name, *counts in connection.execute(asked)]


def _groups_of(connection: Any, key: Any, *conditions: Any) -> List[Group]:
    """Returns the messages in groups, those with most signatures that do not fit first."""
    columns = _group_columns()
    order = (columns[3].desc(), columns[0].desc(), key)
    return _groups_in(connection, sa.select(key, *columns).where(_IS_MESSAGE, *conditions).group_by(key).order_by(*order).limit(MOST_LINES))


def _signed_years_of(connection: Any) -> List[Group]:
    """Returns the messages that somebody signed by the year in which the first signer claims that, or else of the first time-stamp."""
    first = of_same_place(PLACE_SIGNERS, FILES) & (PLACE_SIGNERS.c.number == "0")
    stamp = sa.select(sa.func.min(PLACE_TIMES.c.time)).where(of_same_place(PLACE_TIMES, FILES)).correlate(FILES).scalar_subquery()
    year = sa.func.coalesce(sa.func.substr(sa.func.coalesce(PLACE_SIGNERS.c.signing_time, FILES.c.time, stamp), 1, 4), "not said").label("year")
    asked = sa.select(year, *_group_columns()).select_from(FILES.outerjoin(PLACE_SIGNERS, first))
    return _groups_in(connection, asked.where(_IS_MESSAGE, _STATE != State.NO_SIGNATURE.value).group_by(year).order_by(year))


def _renewal_of(connection: Any) -> Optional[Dict[Optional[int], int]]:
    try:
        policy = policy_in()
    except Complaint:  # before Python 3.11 there may be nothing that reads it
        return None
    return renewal.years(connection, policy)


def _named_of(connection: Any) -> List[Named]:
    """Returns the largest groups of files without a message."""
    key = FILES.c.what.concat("\t").concat(sa.func.coalesce(FILES.c.form, ""))
    counts = _counts(connection, key, IS_WITHOUT_MESSAGE)
    most = nsmallest(MOST_LINES, counts.items(), key=lambda it: (-it[1], it[0]))
    first = _first_of(connection, key, IS_WITHOUT_MESSAGE & FILES.c.what.in_(_ONLY_NAMED))
    groups = ((*name.partition("\t"), count, first.get(name, [])) for name, count in most)
    return [Named(what, form, count, files) for what, _, form, count, files in groups]


def _folders_of(connection: Any, paths: List[str]) -> List[Group]:
    """Returns the messages by the folders that lie in the paths that were indexed."""
    find = sa.func.strpos if connection.dialect.name == "postgresql" else sa.func.instr
    found: List[Group] = []
    for top in paths[:FIRST]:
        inside = top.rstrip("/") + "/"
        rest = sa.func.substr(FILES.c.path, len(inside) + 1)
        slash = find(rest, "/")
        name = sa.case((slash == 0, ""), else_=sa.func.substr(rest, 1, slash - 1))
        is_inside = (FILES.c.path >= inside) & (FILES.c.path < inside[:-1] + "0")
        found += [it._replace(name=inside + it.name) for it in _groups_of(connection, name, is_inside)]
    return found[:MOST_LINES]


def summary_of(store: Store, now: Optional[datetime] = None) -> Summary:
    """Returns what the store says of the archive at one moment, with what has ended until now."""
    text = (now or datetime.now(timezone.utc)).strftime("%Y-%m-%dT%H:%M:%SZ")
    about = store.about()
    (clock,) = store.asked(sa.select(Now().label("now")))  # before all else, so that nothing is between two reports
    changes = changes_counted(store, FIRST)
    with moment(store) as connection:
        own = sa.select(sa.func.count(), sa.func.coalesce(sa.func.sum(FILES.c.size), 0)).where(FILES.c.member == "")
        files, octets = map(int, connection.execute(own).one())
        return Summary(
            files=files,
            octets=octets,
            states=_counts(connection, _STATE, _IS_MESSAGE),
            noted=int(connection.execute(sa.select(sa.func.count()).select_from(FILES).where(IS_NOTED, _STATE == State.FITS.value)).scalar_one()),
            classes=_counts(connection, FILES.c.what),
            kinds=kinds_of(connection),
            differing=_first_of(connection, _STATE, _IS_MESSAGE & (_STATE == State.DIFFERS.value)).get(State.DIFFERS.value, []),
            verdicts=_counts(connection, FILES.c.verdict, FILES.c.verdict.is_not(None)),
            refusals=_refusals_of(connection),
            unreadable=_unreadable_of(connection),
            duplicates=_duplicates_of(connection),
            algorithms=_algorithms_of(connection),
            digest_years=_digest_years_of(connection),
            weak=int(connection.execute(sa.select(sa.func.count()).select_from(SIGNERS).where(is_weak())).scalar_one()),
            who=_who_of(connection, text),
            ended=int(connection.execute(sa.select(sa.func.count()).select_from(SIGNERS).where(SIGNERS.c.not_after < text)).scalar_one()),
            years=_years_of(connection),
            time_states=_counts(connection, TIMES.c.state),
            folders=_folders_of(connection, store.paths()),
            forms=_groups_of(connection, FILES.c.form),
            powers=_powers_of(connection),
            signed_years=_signed_years_of(connection),
            renewal=_renewal_of(connection),
            changes=changes,
            named=_named_of(connection),
            about=about,
            time=int(clock["now"]),
        )
