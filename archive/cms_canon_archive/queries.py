"""What a store says of an archive."""

from __future__ import annotations

from collections import Counter
from enum import Enum
from itertools import groupby
from operator import itemgetter
from typing import Any, Dict, Iterator, List, NamedTuple, Optional, Sequence, Set

import sqlalchemy as sa

from .containers.found import GOOD, Class, State
from .containers.manifests import WEAK_ALONE
from .containers.names import READERS_DIFFER
from .containers.refused import is_named
from .filters import ALL, Filters
from .outcomes import DOUBTS, Outcome
from .reading import READER, Row
from .store import FILES, LOAD, SIGNERS, TIMES, Store
from .tables import HISTORY, IS_TAKEN, IS_TO_DO, PARTS, PLACE_TIMES, PLACES, of_same_place, shown
from .texts import folder_and_name

WEAK_DIGESTS = ("md5", "sha1")
FEWEST_BITS = 2048  # of a key of RSA or DSA that is not weak


_UNSIGNED = ("request", "certificates")  # the kinds of messages that nobody is to sign
_NO_SIGNATURE = State.NO_SIGNATURE.value
_OTHERS = (Class.OTHER.value, Class.NOT_LOOKED_INTO.value)
_REFUSED = (Class.REFUSED.value, Class.DAMAGED.value, Class.TOO_LARGE.value)
IS_UNREAD = FILES.c.what.in_((Class.DAMAGED.value, Class.TOO_LARGE.value, Class.UNREADABLE.value))


class Group(NamedTuple):
    """Files that are the same message."""

    digest: str
    names: List[str]


class Totals(NamedTuple):
    """How many files an index has, and what came of the messages in them."""

    files: int
    messages: int
    fit: int
    """Without those whose signature was verified, and is wrong."""
    in_part: int
    """Those that fit only in part, or fit an earlier revision."""
    differ: int
    wrong: int
    """Those whose signature was verified, and is wrong, whatever their state."""
    wrong_times: int
    """Those with a time-stamp in an unsigned attribute that does not fit, whatever their state."""
    unjudged: int
    """Those that are signed, and of which it is not known whether they fit."""
    refused: int
    """What looks like a message and is none, with what is damaged or too large."""
    unreadable: int


def totals(store: Store) -> Totals:
    """Counts what is in an index."""
    is_file = (PLACES.c.member == "").label("is_file")
    is_wrong = (sa.func.coalesce(PLACES.c.verdict, "") == "wrong").label("is_wrong")
    is_unsigned = PLACES.c.kind.in_(_UNSIGNED) & (sa.func.coalesce(PLACES.c.state, _NO_SIGNATURE) == _NO_SIGNATURE)
    groups = (PLACES.c.what, PLACES.c.state, is_file, is_wrong, sa.func.coalesce(is_unsigned, sa.false()).label("is_unsigned"))
    rows = [
        (row["what"], row["state"], bool(row["is_file"]), bool(row["is_wrong"]), bool(row["is_unsigned"]), int(row["count"]))
        for row in store.asked(sa.select(*groups, sa.func.count().label("count")).group_by(*groups))
    ]
    states: Dict[Optional[str], int] = {}
    wrong: Dict[Optional[str], int] = {}
    for what, state, _, has_wrong, _, count in rows:
        if what == Class.MESSAGE.value:
            states[state] = states.get(state, 0) + count
            wrong[state] = wrong.get(state, 0) + count * has_wrong
    fits, differ = states.get(State.FITS.value, 0), states.get(State.DIFFERS.value, 0)
    in_part = sum(states.get(it.value, 0) for it in GOOD) - fits
    unsigned = sum(count for *_, nobody_signed, count in rows if nobody_signed)
    of_attributes = (PLACE_TIMES.c.number != "") & (PLACE_TIMES.c.state == State.DIFFERS.value)
    stamped = sa.select(PLACE_TIMES.c.part, PLACE_TIMES.c.file, PLACE_TIMES.c.member).where(of_attributes).distinct().subquery()
    (wrong_times,) = store.asked(sa.select(sa.func.count().label("count")).select_from(stamped))
    return Totals(
        files=sum(count for *_, of_file, _, _, count in rows if of_file),
        messages=sum(states.values()),
        fit=fits - wrong.get(State.FITS.value, 0),
        in_part=in_part,
        differ=differ,
        wrong=sum(wrong.values()),
        wrong_times=int(wrong_times["count"]),
        unjudged=sum(states.values()) - fits - in_part - differ - unsigned,
        refused=sum(count for what, *_, count in rows if what in _REFUSED),
        unreadable=sum(count for what, *_, count in rows if what == Class.UNREADABLE.value),
    )


class Gaps(NamedTuple):
    """What an index does not know."""

    parts: int
    """Folders and files that are yet to be read."""
    folders: int
    """Folders that could not be read, below which all is as it was before."""
    missing: Sequence[str]
    """Paths that the last index named, and that were not there."""
    load: str
    """Why the last `load` has not all that it was given; empty if it has."""
    has_nothing: bool
    """Whether no folder and no file was ever indexed."""

    def lines(self) -> Iterator[str]:
        """Gives a line for each kind of gap."""
        if self.parts:
            parts, them = ("parts of the archive are", "them") if self.parts > 1 else ("part of the archive is", "it")
            yield f"{self.parts:,} {parts} yet to be read: `cms-canon-archive index` goes on with {them}"
        if self.folders:
            folders, them = ("folders", "them") if self.folders > 1 else ("folder", "it")
            yield f"{self.folders:,} {folders} could not be read, and what lies below is said as it was before: `cms-canon-archive refusals` names {them}"
        for path in self.missing:
            yield f"{path}: the last index named it, and it was not there"
        if self.load:
            yield f"the last `load` has not all that it was given: {self.load}"
        if self.has_nothing:
            yield "the index has nothing: `cms-canon-archive index` puts files in"


def gaps(store: Store) -> Gaps:
    """Counts what an index does not know."""
    left = sum(int(row["count"]) for it in (IS_TO_DO, IS_TAKEN) for row in store.asked(sa.select(sa.func.count().label("count")).select_from(PARTS).where(it)))
    own = (PLACES.c.part == PARTS.c.id) & (PLACES.c.file == "") & (PLACES.c.member == "")
    (folders,) = store.asked(sa.select(sa.func.count().label("count")).select_from(PARTS.join(PLACES, own)).where(PARTS.c.name == ""))
    return Gaps(left, int(folders["count"]), store.missing(), store.about().get(LOAD, ""), not any(store.asked(sa.select(PARTS.c.id).limit(1))))


def is_known(store: Store, path: str) -> bool:
    """Whether an index has anything at a path or below it, or had."""
    inside, (folder, name) = path.rstrip("/") + "/", folder_and_name(path)
    end = inside[:-1] + "0"
    is_file = sa.exists().where(PLACES.c.part == PARTS.c.id, PLACES.c.file == name).correlate(PARTS)
    is_part = ((PARTS.c.path >= inside) & (PARTS.c.path < end)) | ((PARTS.c.path == folder) & ((PARTS.c.name == name) | is_file))
    was = ((HISTORY.c.folder >= inside) & (HISTORY.c.folder < end)) | ((HISTORY.c.folder == folder) & (HISTORY.c.file == name))
    return any(any(store.asked(sa.select(table.c.id).where(condition).limit(1))) for table, condition in ((PARTS, is_part), (HISTORY, was)))


def name_of(row: Row) -> str:
    """Returns the path of a file; of a place in it, the path, an exclamation mark, and the place."""
    return f"{row['path']}!{row['member']}" if row["member"] else str(row["path"])


def same(store: Store, digest: str) -> Iterator[Row]:
    """Gives the files that are the message whose DER has this SHA-256."""
    return store.rows(FILES.c.digest == digest)


def duplicates(store: Store) -> Iterator[Group]:
    """Gives the messages that more than one file is."""
    twice = sa.select(FILES.c.digest).where(FILES.c.digest.is_not(None)).group_by(FILES.c.digest).having(sa.func.count() > 1)
    rows = store.rows(FILES.c.digest.in_(twice), order=(FILES.c.digest, FILES.c.path, FILES.c.member))
    for digest, some in groupby(rows, key=itemgetter("digest")):
        yield Group(str(digest), [name_of(row) for row in some])


def _files(store: Store, filters: Filters, *conditions: Any, order: Sequence[Any] = ()) -> Iterator[Row]:
    """Gives the files and what is in them that meet the conditions, in the order of these columns and of their names."""
    asked = sa.select(*shown(FILES)).where(*conditions).order_by(*order, FILES.c.path, FILES.c.member)
    return store.asked(filters.of(asked, FILES))


def refusals(store: Store, filters: Filters = ALL) -> Iterator[Row]:
    """Gives what is refused, damaged, too large or cannot be read, in the order of the reasons."""
    refused = FILES.c.reason.is_not(None) | FILES.c.error.is_not(None)
    return _files(store, filters, refused, order=(FILES.c.reason.nulls_last(),))


def changed(store: Store, filters: Filters = ALL) -> Iterator[Row]:
    """Gives the messages whose DER differs from what the file holds, so that a copy in DER would change octets."""
    return _files(store, filters, FILES.c.is_der.is_(False))


_IS_SIGNED = sa.func.coalesce(FILES.c.kind, "").not_in(_UNSIGNED)


def _is_doubted(doubts: Sequence[str]) -> Any:
    """Returns the condition that the note of a row in `FILES` has one of these doubts."""
    note = sa.func.coalesce(FILES.c.note, "")
    return (note != "") & sa.or_(*(note.contains(it) for it in doubts))  # few rows have a note


_IS_OLDER = sa.func.coalesce(FILES.c.reader, 0) != READER  # read by a release that may have seen something else


def _outcome() -> Any:
    """Returns the outcome of a message in `FILES`, as `outcome_of` has it; of one that nobody is to sign, that it fits if nothing differs and all readers see
    the same."""
    own = sa.select(PLACE_TIMES.c.state).where(of_same_place(PLACE_TIMES, FILES)).correlate(FILES)
    all_times = ~own.where(sa.func.coalesce(PLACE_TIMES.c.state, "") != State.FITS.value).exists()
    is_one = sa.not_(_is_doubted(DOUBTS))
    is_one = is_one & sa.not_(_IS_OLDER)
    fits = (FILES.c.state == State.FITS.value) & sa.func.coalesce(FILES.c.verdict, "").not_in(("wrong", "unknown")) & is_one & all_times
    differs = (FILES.c.state == State.DIFFERS.value) | (FILES.c.verdict == "wrong") | own.where(PLACE_TIMES.c.state == State.DIFFERS.value).exists()
    known = ((fits, int(Outcome.FITS)), (differs, int(Outcome.DIFFERS)), (sa.not_(_IS_SIGNED) & is_one, int(Outcome.FITS)))
    return sa.case(*known, else_=int(Outcome.NOT_KNOWN))


def checked(store: Store, all_of_them: bool, filters: Filters = ALL) -> Iterator[Row]:
    """Gives the messages, or only those that somebody signed and that are not known to fit, that break a rule, or on which readers differ.

    `outcome` is what came of one. `wrong_times` is how many tokens do not fit, of the message itself and of those in unsigned attributes.
    """
    is_message, outcome = FILES.c.what == Class.MESSAGE.value, _outcome()
    of_message = of_same_place(PLACE_TIMES, FILES) & (PLACE_TIMES.c.state == State.DIFFERS.value)
    wrong = sa.select(sa.func.count()).select_from(PLACE_TIMES).where(of_message).correlate(FILES).scalar_subquery()
    breaks = _IS_SIGNED & (sa.func.coalesce(FILES.c.findings, "") != "")
    asked = is_message if all_of_them else is_message & (breaks | (outcome != int(Outcome.FITS)))
    rows = sa.select(*shown(FILES), wrong.label("wrong_times"), outcome.label("outcome")).where(asked).order_by(FILES.c.path, FILES.c.member)
    return store.asked(filters.of(rows, FILES))


def outcomes(store: Store, filters: Filters = ALL) -> Set[Outcome]:
    """Returns what came of the messages that are wanted, however many of them are listed."""
    outcome = _outcome().label("outcome")
    asked = sa.select(outcome).where(FILES.c.what == Class.MESSAGE.value).distinct()
    return {Outcome(row["outcome"]) for row in store.asked(filters.where(asked, FILES))}


class Unknown(NamedTuple):
    """How many files, and how much in files, may have messages of which nothing is known."""

    unread: int
    """What is damaged, too large or cannot be read, and what is refused and not said to be something else."""
    differing: int
    """What else some readers take otherwise."""
    others: int
    """What is signed by another format, or is not looked into."""
    older: int
    """What else was read by another release."""

    def lines(self) -> Iterator[str]:
        """Gives a line for each kind."""
        if self.unread:
            what, them = ("files or members are", "them") if self.unread > 1 else ("file or member is", "it")
            yield f"{self.unread:,} {what} refused, damaged, too large or could not be read: `cms-canon-archive refusals` lists {them}"
        if self.differing:
            what, them = ("files or members are", "them") if self.differing > 1 else ("file or member is", "it")
            yield f"{self.differing:,} {what} taken otherwise by some readers: `cms-canon-archive files --all` lists {them}"
        if self.others:
            what, them = ("files or members are", "them") if self.others > 1 else ("file or member is", "it")
            yield f"{self.others:,} {what} signed by another format, or not looked into: `cms-canon-archive others` lists {them}"
        if self.older:
            what, them = ("files or members were", "them") if self.older > 1 else ("file or member was", "it")
            yield f"{self.older:,} {what} read by another release: `cms-canon-archive index` reads {them} again"


def unknown(store: Store, filters: Filters = ALL) -> Unknown:
    """Counts what is no message as far as is known, and may have some."""
    is_folder = (FILES.c.of_file == "") & sa.exists().where(PARTS.c.id == FILES.c.of_part, PARTS.c.name == "").correlate(FILES)
    is_refused, differs = FILES.c.what == Class.REFUSED.value, _is_doubted((READERS_DIFFER,))
    is_other = FILES.c.what.in_(_OTHERS)
    is_one = IS_UNREAD | is_refused | is_other | _IS_OLDER | differs & (FILES.c.what != Class.MESSAGE.value)
    kinds = ((IS_UNREAD, "unread"), (_IS_OLDER, "older"), (differs & (FILES.c.what != Class.MESSAGE.value), "differing"), (is_other, "others"), (is_refused, "refused"))
    kind, note = sa.case(*kinds, else_="").label("kind"), sa.case((is_refused & ~differs, sa.func.coalesce(FILES.c.note, "")), else_="").label("note")
    asked = sa.select(kind, note, sa.func.count().label("count")).where(is_one, sa.not_(is_folder)).group_by(kind, note)
    counts: Counter[str] = Counter()
    for row in store.asked(filters.where(asked, FILES)):
        counts[str(row["kind"])] += int(row["count"]) * (row["kind"] != "refused" or not is_named(str(row["note"])))
    return Unknown(counts["unread"] + counts["refused"], counts["differing"], counts["others"], counts["older"])


IS_NOTED = (FILES.c.what == Class.MESSAGE.value) & (FILES.c.state == State.FITS.value) & (sa.func.coalesce(FILES.c.note, "") != "")


def noted(store: Store, filters: Filters = ALL) -> Iterator[Row]:
    """Gives the messages that fit, and of which something else is to be said; `wrong_times` is 0, since none of them is asked for its tokens."""
    rows = sa.select(*shown(FILES), sa.literal(0).label("wrong_times"), _outcome().label("outcome")).where(IS_NOTED).order_by(FILES.c.path, FILES.c.member)
    return store.asked(filters.of(rows, FILES))


def _joined(table: sa.Table, *conditions: Any) -> Any:
    return sa.select(*shown(table)).where(*conditions).order_by(table.c.path, table.c.member, table.c.number)


def is_weak(table: Any = SIGNERS.c) -> Any:
    """Returns the condition that a signer uses MD5, SHA-1 or a short key."""
    is_digest = table.digest.in_(WEAK_DIGESTS)
    is_signature = sa.or_(*(table.signature.like(f"%-{it}") for it in WEAK_DIGESTS))
    return is_digest | is_signature | (table.key.in_(("RSA", "DSA")) & (table.bits < FEWEST_BITS))


def signers(store: Store, filters: Filters = ALL) -> Iterator[Row]:
    """Gives the signers and countersigners of the messages."""
    return store.asked(filters.of(_joined(SIGNERS), SIGNERS))


class UsedBy(str, Enum):
    """What uses an algorithm."""

    SIGNER = "signer"
    CERTIFICATE = "certificate"
    TIME_STAMP = "time-stamp"
    MANIFEST = "manifest"


_ALGORITHMS = ("digest", "signature", "key", "bits")


def is_weak_certificate(table: Any = SIGNERS.c) -> Any:
    """Returns the condition that the certificate of a signer is signed with MD5 or SHA-1."""
    return sa.or_(*(table.certificate.like(f"%-{it}") for it in WEAK_DIGESTS))


def weak(store: Store, filters: Filters = ALL) -> Iterator[Row]:
    """Gives what uses MD5, SHA-1 or a short key: signers, the signatures of their certificates, imprints of time-stamps, and manifests."""
    for row in store.asked(filters.of(_joined(SIGNERS, is_weak()), SIGNERS)):
        yield {**row, "of": UsedBy.SIGNER.value}
    for row in store.asked(filters.of(_joined(SIGNERS, is_weak_certificate()), SIGNERS)):
        yield {**row, "digest": None, "signature": row["certificate"], "key": None, "bits": None, "of": UsedBy.CERTIFICATE.value}
    for row in store.asked(filters.of(_joined(TIMES, TIMES.c.digest.in_(WEAK_DIGESTS)), TIMES)):
        yield {**row, "signature": None, "key": None, "bits": None, "of": UsedBy.TIME_STAMP.value}
    for row in _files(store, filters, FILES.c.note.like("%compares by % alone%")):
        for digest in _weak_in(row["note"]):
            alone = {"digest": digest, "signature": None, "key": None, "bits": None, "number": "", "of": UsedBy.MANIFEST.value}
            yield {"path": row["path"], "member": row["member"], **alone}


def _weak_in(note: str) -> List[str]:
    """Returns the weak digests by which a manifest or a signature file compares alone, as a note says it."""
    return sorted({it for found in WEAK_ALONE.findall(note) for it in found if it})


def algorithms(store: Store, filters: Filters = ALL) -> Iterator[Row]:
    """Gives which algorithms and keys signers, the signatures of certificates, imprints and weak manifests use, and how many there are of each."""
    columns = [SIGNERS.c[it] for it in _ALGORITHMS]
    is_weak_one = sa.func.max(sa.case((is_weak(), 1), else_=0)).label("is_weak")
    asked = sa.select(*columns, sa.func.count().label("signers"), is_weak_one).group_by(*columns).order_by(sa.func.count().desc(), *columns)
    for row in store.asked(filters.where(asked, SIGNERS)):
        yield {**row, "is_weak": bool(row["is_weak"]), "of": UsedBy.SIGNER.value}
    yield from _counted(store, filters, SIGNERS, "certificate", "signature", UsedBy.CERTIFICATE)
    yield from _counted(store, filters, TIMES, "digest", "digest", UsedBy.TIME_STAMP)
    weak_ones = _files(store, filters, FILES.c.note.like("%compares by % alone%"))
    manifests = Counter(it for row in weak_ones for it in _weak_in(row["note"]))
    for digest, count in sorted(manifests.items()):
        yield {**dict.fromkeys(_ALGORITHMS), "digest": digest, "signers": count, "is_weak": True, "of": UsedBy.MANIFEST.value}


def _counted(store: Store, filters: Filters, table: Any, column: str, name: str, of: UsedBy) -> Iterator[Row]:
    own = table.c[column]
    counts = sa.select(own.label("algorithm"), sa.func.count().label("count")).where(own.is_not(None)).group_by(own)
    for row in store.asked(filters.where(counts, table).order_by(sa.func.count().desc(), own)):
        is_weak_one = str(row["algorithm"]).rpartition("-")[2] in WEAK_DIGESTS
        yield {**dict.fromkeys(_ALGORITHMS), name: row["algorithm"], "signers": row["count"], "is_weak": is_weak_one, "of": of.value}


def times(store: Store, filters: Filters = ALL) -> Iterator[Row]:
    """Gives the times that tokens vouch for, as messages and in unsigned attributes."""
    return store.asked(filters.of(_joined(TIMES), TIMES))


def others(store: Store, filters: Filters = ALL) -> Iterator[Row]:
    """Gives what is signed by another format, and what is not looked into."""
    return _files(store, filters, FILES.c.what.in_(_OTHERS), order=(FILES.c.what, FILES.c.form))


_HAS_MESSAGE = (PLACES.c.part == FILES.c.of_part) & (PLACES.c.file == FILES.c.of_file) & (PLACES.c.what == Class.MESSAGE.value)
IS_WITHOUT_MESSAGE = (FILES.c.member == "") & ~sa.exists().where(_HAS_MESSAGE).correlate(FILES)  # of a file: there is none in it


def files(store: Store, all_of_them: bool, filters: Filters = ALL) -> Iterator[Row]:
    """Gives all files and what is in them, or only the files in which there is no message."""
    return _files(store, filters, *([] if all_of_them else [IS_WITHOUT_MESSAGE]))
