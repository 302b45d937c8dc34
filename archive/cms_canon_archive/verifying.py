"""A store, compared with the files that it is of: what is stored otherwise than it is, what is not stored at all, and who did it.

A worker can say of its parts what it likes. What it stored is found out by reading files again, and what it left out by listing folders again.
"""

from __future__ import annotations

import os
import stat
from collections import defaultdict
from itertools import groupby, islice
from random import SystemRandom
from typing import Any, Dict, Iterable, Iterator, List, NamedTuple, Optional, Sequence, Set, Tuple, TypeVar

import sqlalchemy as sa

from .containers.found import Class
from .containers.packed import why_of
from .folders import NOT_THERE, Listing, is_gone, is_left_out, listed, path_named_by, path_of, texts_of_folder
from .judging import BY_MESSAGE, NOT_VERIFIED, Verification
from .queries import name_of
from .reading import NO_PATH, TOO_LONG, Entry, Row, reads_of, row_in_file
from .sessions import Held
from .settings import NO_SETTINGS, Settings, stored, verification_in
from .store import ASKED, Store
from .tables import LISTS, OF_PARTS, PARTS, PLACES, WORKERS, PartState, columns_of
from .texts import chunk_of, folder_and_name, is_cut, name_of_text
from .walking import entry_of, is_reached

NOT_STORED = "it is not stored"
GONE = "it is not there any more"
NO_CERTIFICATES = "it is said to be verified by certificates that the store does not have"
_COMPARED = (
    *("what", "form", "length", "size", "digest", "kind", "signers", "is_der", "time", "reason", "name", "at", "content_type", "content", "state", "findings"),
    *("digests", "signatures", "verdict", "sha256", "verified_by"),
)
_SAID = ("error", "note")
_LISTS_DIFFER = {"signed_by": "its signers are stored otherwise", "times": "its times are stored otherwise"}
_TOGETHER = 50  # parts whose files are in memory at once, or files whose rows are
_IS_READ = PARTS.c.state.in_((int(PartState.DONE), int(PartState.GIVEN_UP))) & PARTS.c.holder.is_not(None)
T = TypeVar("T")


class Difference(NamedTuple):
    """A place that is not stored as it is."""

    path: str
    why: str
    worker: Optional[int] = None
    """The number of who stored it, or read the folder that it is in, if that is known."""


def differing(store: Store, sample: Optional[int]) -> Iterator[Dict[str, Any]]:
    """Reads files and lists folders again, all or so many of each at random, and gives what is stored otherwise or not at all, and by whom.

    Folders are compared only if a worker read them: of lines that were loaded it is not known which files there should be.
    """
    for found in (_named_paths(store), _parts(store, sample), _files(store, sample)):
        for it in found:
            yield {"file": it.path, "why": it.why, "worker": _name_of_worker(store, it.worker)}


def _name_of_worker(store: Store, number: Optional[int]) -> Optional[str]:
    """Returns who read a file: what the worker says of itself, and the account and address that the database saw."""
    for row in store.asked(sa.select(WORKERS.c.name, WORKERS.c.account, WORKERS.c.address).where(WORKERS.c.id == number)):
        return f"{row['name']} ({row['account']} from {row['address']})" if row["account"] else str(row["name"])
    return None


def _lists_of(items: Iterable[T], most: int) -> Iterator[List[T]]:
    rest = iter(items)
    while some := list(islice(rest, most)):
        yield some


def _sample_of(items: Iterable[T], sample: int) -> List[T]:
    """Returns so many of these, each with the same chance, in the order in which they come."""
    kept: List[Tuple[int, T]] = []
    random = SystemRandom()
    for number, it in enumerate(items):
        if number < sample:
            kept.append((number, it))
        elif (place := random.randrange(number + 1)) < sample:
            kept[place] = (number, it)
    return [it for _, it in sorted(kept, key=lambda it: it[0])]


# ---- the paths that were named


def _named_paths(store: Store) -> Iterator[Difference]:
    """Gives the paths of which the store says that they were indexed, and which are there, but are not stored."""
    paths, own = store.paths(), store.own_files()
    for text in paths:
        if is_cut(text):
            if not any(_is_stored(store, text, is_folder) for is_folder in (True, False)):
                yield Difference(text, TOO_LONG)
            continue
        path = name_of_text(text)
        try:
            mode = os.lstat(path).st_mode
        except OSError as error:
            if error.errno not in NOT_THERE and not any(_is_stored(store, text, is_folder) for is_folder in (True, False)):
                yield Difference(text, f"it cannot be looked at: {why_of(error)}")
            continue
        is_left_out = path in own or any(path.startswith(f"{it}/") and not is_reached(path, it) for it in map(name_of_text, paths))
        if (stat.S_ISDIR(mode) or stat.S_ISREG(mode)) and not is_left_out and not _is_stored(store, text, stat.S_ISDIR(mode)):
            yield Difference(text, NOT_STORED)


def _is_stored(store: Store, text: str, is_folder: bool) -> bool:
    """Whether there is a part that a worker read of a folder, or a row of a file."""
    if is_folder:
        own = (PARTS.c.path == f"{text.rstrip('/')}/") & (PARTS.c.name == "") & PARTS.c.holder.is_not(None)
        return any(store.asked(sa.select(PARTS.c.id).where(own).limit(1)))
    folder, name = folder_and_name(text)
    own = (PARTS.c.path == folder) & (((PARTS.c.name == name) & (PLACES.c.file == "")) | ((PARTS.c.name == "") & (PLACES.c.file == name)))
    return any(store.asked(sa.select(PLACES.c.part).join(PARTS, PARTS.c.id == PLACES.c.part).where(own).limit(1)))


# ---- parts, compared with their folders


class _Part(NamedTuple):
    """A part that a worker read, as the store has it."""

    held: Held
    state: int
    holder: int
    since: Optional[int]

    def difference(self, path: str, why: str) -> Difference:
        return Difference(path, why, self.holder)


def _parts(store: Store, sample: Optional[int]) -> Iterator[Difference]:
    """Lists the folders of parts again, and gives what is in them and has no row."""
    asked = store.asked(sa.select(PARTS.c.id).where(_IS_READ).order_by(PARTS.c.id))
    ids = (int(row["id"]) for row in asked)
    own = store.own_files()
    for some in _lists_of(ids if sample is None else _sample_of(ids, sample), _TOGETHER):
        yield from _Folders(store, own, some).compared()


def _settings_of(store: Store, numbers: Iterable[Optional[int]]) -> Dict[Optional[int], Settings]:
    """Returns settings by their numbers, and none for a number under which nothing is stored."""
    with store.engine.connect() as connection:
        return defaultdict(lambda: NO_SETTINGS, stored(connection, numbers))


class _Folders:
    """Some parts, with what is stored of their files."""

    def __init__(self, store: Store, own: Set[str], ids: Sequence[int]) -> None:
        """`own` are the paths of the files of the store itself, which are left out."""
        self._store = store
        self._own = own
        self._folders: List[Tuple[_Part, str]] = []  # that lie in a folder of one of these parts
        columns = [PARTS.c[it] for it in (*Held._fields, *_Part._fields[1:])]
        rows = [tuple(row.values()) for row in store.asked(sa.select(*columns).where(PARTS.c.id.in_(ids)).order_by(PARTS.c.id))]
        self._parts = [_Part(Held(*row[: len(Held._fields)]), *row[len(Held._fields) :]) for row in rows]
        self._settings = _settings_of(store, [it.held.settings for it in self._parts])
        self._stored: Dict[int, Dict[str, Optional[int]]] = {it.held.id: {} for it in self._parts}
        for row in store.asked(sa.select(PLACES.c.part, PLACES.c.file, PLACES.c.worker).where(PLACES.c.part.in_(ids), PLACES.c.member == "")):
            self._stored[int(row["part"])][str(row["file"])] = row["worker"]
        self._alone: Dict[str, Set[str]] = {it.held.path: set() for it in self._parts}
        for row in store.asked(sa.select(PARTS.c.path, PARTS.c.name).where(PARTS.c.path.in_(self._alone), PARTS.c.name != "")):
            self._alone[str(row["path"])].add(str(row["name"]))

    def compared(self) -> Iterator[Difference]:
        """Gives what is in the folders of these parts and is not stored, or is stored where it should not be."""
        for part in self._parts:
            yield from self._compared_with_disk(part)
        inside = {text for _, text in self._folders}
        there: Set[str] = set()
        for some in _lists_of(sorted(inside), ASKED):
            is_read = PARTS.c.holder.is_not(None) | PARTS.c.state.in_((int(PartState.TO_DO), int(PartState.TAKEN)))  # or will be, and not only loaded
            asked = sa.select(PARTS.c.path).where(PARTS.c.path.in_(some), PARTS.c.name == "", PARTS.c.chunk == 0, is_read)
            there.update(str(row["path"]) for row in self._store.asked(asked))
        for part, text in self._folders:
            if text not in there:
                yield part.difference(text, NOT_STORED)

    def _compared_with_disk(self, part: _Part) -> Iterator[Difference]:
        held, stored = part.held, self._stored[part.held.id]
        text, path = f"{held.path}{held.name}", path_of(held)
        if path is None:
            yield part.difference(text, NO_PATH)
            return
        try:
            is_there = not is_gone(path, held) and not is_left_out(path, held, self._settings[held.settings])
        except OSError as error:  # of which the worker stores nothing either
            yield Difference(text, f"it cannot be looked at: {why_of(error)}")
            return
        if not is_there:
            yield part.difference(text, GONE)
        elif held.name:
            yield from [] if "" in stored else [part.difference(text, NOT_STORED)]
        else:
            yield from self._compared_with_folder(part, path)

    def _compared_with_folder(self, part: _Part, path: str) -> Iterator[Difference]:
        held, stored = part.held, self._stored[part.held.id]
        try:
            listing = listed(path, held.chunk, held.chunks, self._settings[held.settings])
        except OSError as error:
            yield from [] if "" in stored else [part.difference(held.path, f"it cannot be listed: {why_of(error)}")]
            return
        if "" in stored or part.state == PartState.GIVEN_UP:
            yield Difference(held.path, "its files are not stored: it could not be listed, or was given up", stored.get("", part.holder))
            return
        yield from self._compared_with_listing(part, path, listing)

    def _compared_with_listing(self, part: _Part, path: str, listing: Listing) -> Iterator[Difference]:
        """Gives what is in a folder and not stored, and what is stored under the wrong part."""
        held, stored, alone = part.held, self._stored[part.held.id], self._alone[part.held.path]
        for text, file in listing.files.items():
            if file.path not in self._own and text not in stored and text not in alone:
                yield part.difference(held.path + text, NOT_STORED + _newer(file, part.since))
        for text, worker in stored.items():
            if text in alone:
                yield Difference(held.path + text, "it is stored twice", worker)
            elif chunk_of(text, held.chunks) != held.chunk:
                yield Difference(held.path + text, "it is stored in another part of its folder than its own", worker)
        self._folders += [(part, texts_of_folder(path + name)[0]) for name in listing.folders]
        if held.chunks > 1 and not self._are_all_chunks_there(held):
            yield part.difference(held.path, f"not all of its {held.chunks} parts are there")

    def _are_all_chunks_there(self, held: Held) -> bool:
        asked = sa.select(PARTS.c.chunks).where(PARTS.c.path == held.path, PARTS.c.name == "")
        chunks = [row["chunks"] for row in self._store.asked(asked)]  # of which no two have one number, and each is below this one
        return len(chunks) == held.chunks and set(chunks) == {held.chunks}


def _newer(file: os.DirEntry[str], since: Optional[int]) -> str:
    """Says whether a file came or was changed after its folder was read, if the worker says when that was."""
    try:
        is_newer = since is not None and file.stat(follow_symlinks=False).st_ctime >= since
    except OSError:
        return ""
    return ", and came or was changed after its folder was read" if is_newer else ""


# ---- files, read again


class _Stored(NamedTuple):
    """A file, as a store has it."""

    path: str
    whole: str
    """The path, if that is cut, as it can be read back."""
    is_folder: bool
    """Whether it is a folder that could not be listed, or was given up."""
    holder: Optional[int]
    """Who read its part last."""
    verifies: bool
    places: Dict[str, Row]
    """What is stored of the places in it, with their signers and times."""
    strays: Set[str]
    """The places of which signers or times are stored, and which are not."""


def _files(store: Store, sample: Optional[int]) -> Iterator[Difference]:
    """Reads files again, and gives the places of which something else is stored."""
    for file in _files_of(store, sample):
        default = next((row["worker"] for _, row in sorted(file.places.items()) if row["worker"] is not None), file.holder)
        for place in sorted(file.strays):
            yield Difference(name_of({"path": file.path, "member": place}), "its signers or times are stored, and it is not", default)
        if is_cut(file.whole):
            yield Difference(file.path, TOO_LONG, default)
            continue
        path = path_named_by(file.whole)
        if path is None:
            yield Difference(file.path, NO_PATH, default)
        elif not file.is_folder and not _is_file(path):
            yield Difference(file.path, GONE, default)
        else:
            yield from _compared_with_file(store, file, path, default)


def _is_file(path: str) -> bool:
    """Whether a regular file is there, or it cannot be looked at."""
    try:
        return stat.S_ISREG(os.lstat(path).st_mode)
    except OSError as error:
        return error.errno not in NOT_THERE


def _compared_with_file(store: Store, file: _Stored, path: str, default: Optional[int]) -> Iterator[Difference]:
    entry = Entry(path, 0, 0, 0) if file.is_folder else entry_of(path)
    how = _how_verified(store, file)
    if how is None:
        yield Difference(file.path, NO_CERTIFICATES, default)
        return
    came = {it.place.member: row_in_file(it) for it in reads_of(entry, how)}
    for member in sorted({*file.places, *came}):
        stored = file.places.get(member)
        if why := _difference(stored, came.get(member)):
            worker = default if stored is None or stored["worker"] is None else stored["worker"]
            yield Difference(name_of({"path": file.path, "member": member}), why, worker)


def _how_verified(store: Store, file: _Stored) -> Optional[Verification]:
    """Returns how the signatures of a file were verified; None if that was by certificates that the store does not have."""
    if not file.verifies and not any(row["is_verified"] for row in file.places.values()):
        return NOT_VERIFIED
    digest = next((str(row["verified_by"]) for row in file.places.values() if row["verified_by"] is not None), None)
    if digest is None:
        return BY_MESSAGE
    with store.engine.connect() as connection:
        return verification_in(connection, digest)


def _files_of(store: Store, sample: Optional[int]) -> Iterator[_Stored]:
    """Gives the files, or some of them: each of which anything is stored has the same chance."""
    keys_of_tables = sa.union(*(sa.select(it.c.part, it.c.file) for it in OF_PARTS)).subquery()
    asked = sa.select(keys_of_tables).order_by(keys_of_tables.c.part, keys_of_tables.c.file)
    keys = ((int(row["part"]), str(row["file"])) for row in store.asked(asked))
    for some in _lists_of(keys if sample is None else _sample_of(keys, sample), _TOGETHER):
        columns = (PARTS.c.id, PARTS.c.path, PARTS.c.name, PARTS.c.whole, PARTS.c.holder, PARTS.c.verifies)
        named = {int(row["id"]): row for row in store.asked(sa.select(*columns).where(PARTS.c.id.in_({part for part, _ in some})))}
        for part, pairs in groupby(some, key=lambda it: it[0]):
            files = [file for _, file in pairs]
            if part in named:  # no question finds the rows of a part that was dropped
                yield from _stored_of(store, named[part], files)


def _stored_of(store: Store, part: Row, files: Sequence[str]) -> Iterator[_Stored]:
    """Gives what is stored of some files of a part."""

    def rows_in(table: sa.Table) -> Iterator[Row]:
        return store.asked(sa.select(table).where(table.c.part == part["id"], table.c.file.in_(files)))

    places: Dict[str, Dict[str, Row]] = {it: {} for it in files}
    strays: Dict[str, Set[str]] = {it: set() for it in files}
    for row in rows_in(PLACES):
        places[str(row["file"])][str(row["member"])] = {**row, **{name: [] for name in LISTS}}
    for name, table in LISTS.items():
        columns = [it.name for it in columns_of(table)]
        for row in rows_in(table):
            if (place := places[str(row["file"])].get(str(row["member"]))) is not None:
                place[name].append({it: row[it] for it in columns})
            else:
                strays[str(row["file"])].add(str(row["member"]))
    for file in files:
        is_folder = part["name"] == "" and file == ""
        path = (str(part["path"]).rstrip("/") or "/") if is_folder else f"{part['path']}{part['name']}{file}"
        whole = path if part["whole"] is None else f"{part['whole']}{part['name']}{file}".rstrip("/")
        yield _Stored(path, whole, is_folder, part["holder"], bool(part["verifies"]), places[file], strays[file])


def _difference(stored: Optional[Row], came: Optional[Row]) -> str:
    """Says what is stored otherwise than it came; what it is is said if that is short."""
    if stored is None:
        return NOT_STORED
    if came is None:
        return GONE
    if came["what"] == Class.UNREADABLE.value and stored["what"] != came["what"]:
        return f"it cannot be read: {came['error']}"
    names = [it for it in _COMPARED if stored[it] != came[it]]
    said = [it for it in _SAID if (stored[it] is None) != (came[it] is None)]  # whose words may be those of the machine
    lists = [it for it in LISTS if _by_number(stored[it]) != _by_number(came[it])]
    differing = [f"{it} is stored as {stored[it]}, and is {came[it]}" for it in (*names, *said)]
    return ", ".join(differing + [_LISTS_DIFFER[it] for it in lists])


def _by_number(rows: List[Row]) -> Dict[str, Row]:
    return {str(row["number"]): row for row in rows}
