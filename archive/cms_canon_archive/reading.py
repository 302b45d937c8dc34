"""What is stored of a file: a row for each place in it at which there is something, and last one for the file itself.

The row of a file comes after those of what is in it. A row is kept as long as this version would store the same: it has a number that is
raised with each change of the command or the library by which any file would get other rows.
"""

from __future__ import annotations

import os
import time
from dataclasses import replace
from typing import Any, Dict, Iterable, Iterator, List, NamedTuple, Optional, Sequence, Tuple

import cms_canon

from .containers import armour
from .containers.armour import wanted_by
from .containers.found import Class, Content, Found, Octets, State
from .containers.packed import ENDINGS, PACKINGS, name_inside, why_of
from .containers.sources import DEEPEST, TooMuch
from .judging import NOT_VERIFIED, Facts, Signer, Time, Verification, judged
from .outcomes import DOUBTS
from .texts import LONGEST, cut, path_text_of, text_of

Row = Dict[str, Any]  # of a store, or a line of `rows`
Values = Tuple[Any, ...]

READER = 7  # raised with each change of the command or the library by which a file would get other rows, and with no other
MOST = (1 << 63) - 1  # the largest number that a store takes
DIGESTS = ("digest", "sha256", "verified_by")  # the values of a place that are a SHA-256
NO_PATH = "no path is named so"
TOO_LONG = "its name is too long to be read back"
SETTLED = 2_000_000_000  # nanoseconds: the clock of a file system may be as coarse
MOST_BESIDE = 64 << 30  # octets of the document beside a file that are read for all messages in it
CHUNK = 1000  # rows of one file that are handed over at once
_SAYING = (*ENDINGS, *armour.ENDINGS)  # ends of names that may say that the file signs another one
_ERRORS = (Class.UNREADABLE, Class.DAMAGED, Class.TOO_LARGE)


class Entry(NamedTuple):
    """A file as the file system has it: it is unchanged as long as none of these is."""

    path: str
    size: int
    changed: int
    """The time of change of its inode, in nanoseconds."""
    inode: int
    beside: str = ""
    """The same of the file that it may sign, which lies beside it; empty if there is none."""


class Place(NamedTuple):
    """What is stored of one place in a file, in the order in which a store is given it: the names of these fields are those of its columns."""

    member: str
    length: int
    size: int
    changed: int
    inode: int
    digest: Optional[bytes]
    kind: Optional[str]
    signers: Optional[int]
    is_der: Optional[bool]
    time: Optional[str]
    reason: Optional[int]
    name: Optional[str]
    at: Optional[int]
    error: Optional[str]
    beside: str
    what: str
    form: str
    content_type: Optional[str]
    content: Optional[str]
    state: Optional[str]
    note: str
    findings: str
    digests: str
    signatures: str
    verdict: Optional[str]
    is_settled: bool
    is_verified: bool
    library: str
    reader: int
    sha256: Optional[bytes]
    verified_by: Optional[bytes]


class Read(NamedTuple):
    """What was read of one place in a file: its own values, and those of each signer and each time, as `Signer` and `Time` have them."""

    place: Place
    signed_by: Sequence[Values]
    times: Sequence[Values]


class Part(NamedTuple):
    """Rows of one file, which may have more than are handed over at once."""

    rows: List[Row]
    is_first: bool
    is_last: bool

    @property
    def path(self) -> str:
        return str(self.rows[0]["path"])


def wanted_beside(path: str) -> str:
    """Returns the path of the file that one of this path may sign, packed or not; empty if its name does not say so."""
    lower = path.lower()
    if not lower.endswith(_SAYING):
        return ""
    for _ in range(DEEPEST if lower.endswith(ENDINGS) else 0):
        for packing in PACKINGS:
            path = name_inside(path, packing)
    wanted = wanted_by(path) or ""
    return wanted if wanted and wanted[-1] != "/" else ""


# ---- the document beside a file


class _Metered:
    """The octets of a file beside another one, of which no more are read than are left."""

    def __init__(self, content: Content, left: List[int]) -> None:
        self._content = content
        self._left = left

    def __iter__(self) -> Iterator[Octets]:
        self._take(self._content.length)
        octets = 0
        for piece in self._content.pieces:
            octets += len(piece)
            if octets > self._content.length:  # it grows as it is read
                self._take(len(piece))
            yield piece

    def _take(self, octets: int) -> None:
        if octets > self._left[0]:
            raise TooMuch(f"more than {MOST_BESIDE:,} octets would be read")
        self._left[0] -= octets


def metered(found: Found, content: Content, path: str, left: List[int]) -> Found:
    """Returns the same, but if its content is the file that lies beside the one of this path, no more of that is read than is left."""
    if not (name := os.path.basename(wanted_beside(path))) or content.where != name:
        return found
    return found._replace(content=replace(content, pieces=_Metered(content, left)))


# ---- rows


def judged_or_not(found: Found, how: Verification = NOT_VERIFIED) -> Facts:
    """Returns what is known of what was found. Being out of memory ends only this file."""
    try:
        return judged(found, how)
    except MemoryError:
        return Facts(what=Class.UNREADABLE, note="out of memory")


def _of_signer(signer: Signer) -> Values:
    """Returns the values of a signer, and cuts those that are too long. Texts that come from certificates are as a store takes them."""
    serial, key_identifier, message_digest = signer.serial, signer.key_identifier, signer.message_digest or ""
    if len(signer.digest) + len(signer.signature) + len(serial or key_identifier or "") + len(message_digest) <= LONGEST // 2:
        return signer
    signer = signer._replace(digest=cut(signer.digest), signature=cut(signer.signature), message_digest=cut(message_digest))
    return signer._replace(serial=serial and cut(serial), key_identifier=key_identifier and cut(key_identifier))


def _of_time(time: Time) -> Values:
    return tuple(it.value if type(it) is State else cut(it) if type(it) is str else it for it in time)


def _note_text(note: str) -> str:
    """Returns a note as a store has it: from its first doubt on, if that would be lost as a long one is cut."""
    text = text_of(note)
    doubt = next((it for it in DOUBTS if it in note), None)
    if doubt is None or any(it in text for it in DOUBTS):
        return text
    at = note.index(doubt)
    return text_of(f"{note[at:]}; {note[:at]}")


def read_of(entry: Entry, found: Found, facts: Facts, how: Verification = NOT_VERIFIED) -> Read:
    """Returns what is to be stored of what was found in a file. `facts` is what is known of it."""
    note = _note_text(facts.note) if facts.note else ""
    latest = max(entry.changed, int(entry.beside.split(":")[1])) if entry.beside else entry.changed
    place = Place(
        text_of(found.where) if found.where else "",
        min(found.length, MOST),
        entry.size,
        entry.changed,
        entry.inode,
        facts.digest,
        facts.kind,
        facts.signers,
        facts.is_der,
        facts.time,
        facts.reason,
        facts.name,
        facts.at,
        note if facts.what in _ERRORS else None,
        entry.beside,
        facts.what.value,
        text_of(found.form),
        cut(facts.content_type) if facts.content_type else facts.content_type,
        text_of(facts.content) if facts.content else facts.content,
        None if facts.state is None else facts.state.value,
        note,
        cut(facts.findings),
        cut(facts.digests),
        cut(facts.signatures),
        facts.verdict,
        time.time_ns() - latest > SETTLED and (found.sha256 is not None or found.where != ""),
        how.verifies,
        cms_canon.__version__,
        READER,
        found.sha256,
        how.digest,
    )
    return Read(place, [_of_signer(it) for it in facts.signed_by], [_of_time(it) for it in facts.times])


def row_in_file(read: Read) -> Row:
    """Returns the same by the names of columns, but for the path of the file."""
    place, signed_by, times = read
    row = place._asdict()
    row.update((it, None if row[it] is None else row[it].hex()) for it in DIGESTS)
    row["signed_by"] = [dict(zip(Signer._fields, it)) for it in signed_by]
    row["times"] = [dict(zip(Time._fields, it)) for it in times]
    return row


def row_of(entry: Entry, found: Found, how: Verification = NOT_VERIFIED) -> Row:
    """Returns the line of `rows` for what was found in a file."""
    return {"path": path_text_of(entry.path), **row_in_file(read_of(entry, found, judged_or_not(found, how), how))}


def unread(entry: Entry, error: str) -> Found:
    """Returns a file whose octets cannot be read because of an error."""
    return Found("", "file", Class.UNREADABLE, entry.size, note=error)


def found_in_entry(entry: Entry, digests: bool = False) -> Iterator[Found]:
    """Gives what is found in a file, and last the file itself, with the SHA-256 of its octets if that is wanted."""
    from .containers.files import Unreadable, found_in_path

    left = [MOST_BESIDE]
    try:
        for it in found_in_path(entry.path, digests):
            yield it if it.content is None else metered(it, it.content, entry.path, left)
    except MemoryError:
        yield unread(entry, "out of memory")
    except (OSError, Unreadable) as error:
        yield unread(entry, why_of(error))


def reads_of(entry: Entry, how: Verification = NOT_VERIFIED) -> Iterator[Read]:
    """Reads a file, and gives what is to be stored of each place in it, the file itself last."""
    for it in found_in_entry(entry, digests=True):
        yield read_of(entry, it, judged_or_not(it, how), how)


# ---- rows as lines


def parts_of_rows(rows: Iterable[Row]) -> Iterator[Part]:
    """Gives rows in parts of one file each. The row of the file itself ends it; of equal names in one part the last is kept."""
    some: Dict[str, Row] = {}
    path, is_first = None, True
    for row in rows:
        if row["path"] != path and some:
            yield Part(list(some.values()), is_first, False)
            some = {}
        is_first = is_first or row["path"] != path
        path = row["path"]
        some[row["member"]] = row
        if row["member"] == "" or len(some) == CHUNK:
            yield Part(list(some.values()), is_first, row["member"] == "")
            some, is_first = {}, row["member"] == ""
    if some:
        yield Part(list(some.values()), is_first, False)


def parts_of(entries: Iterable[Entry], how: Verification = NOT_VERIFIED) -> Iterator[Part]:
    """Reads files, and gives their rows."""
    for entry in entries:
        yield from parts_of_rows(row_of(entry, it, how) for it in found_in_entry(entry, digests=True))
