"""Copies of messages in DER."""

from __future__ import annotations

import hashlib
import os
from itertools import groupby
from pathlib import Path
from secrets import token_hex
from typing import Callable, Dict, Iterable, Iterator, List, NamedTuple, Optional, Tuple

import sqlalchemy as sa

import cms_canon

from .containers.files import opened
from .containers.finder import found_in
from .containers.found import Class, Found
from .containers.sources import Budget, in_memory
from .folders import path_named_by
from .queries import name_of
from .reading import NO_PATH, TOO_LONG, Entry, found_in_entry
from .store import FILES, Store
from .texts import is_cut, text_of
from .walking import entries_of, entry_of

_MAY_BE = (Class.MESSAGE, Class.DAMAGED, Class.TOO_LARGE, Class.UNREADABLE)
NO_MESSAGE = "there is no message"
MOST_OF_A_NAME = 255  # octets of the name of a file, as file systems take them


class Copied(NamedTuple):
    """What came of one message: where its copy is, or what is in it, or why not."""

    name: str
    why_not: Optional[str]
    text: str = ""


def _is_put(file: Path, der: bytes) -> bool:
    """Writes a file that is not there, under another name first. Whether it was not there."""
    draft = file.with_name(f".{os.fsencode(file.name)[:100].decode(errors='ignore')}.{token_hex(8)}")
    try:
        with open(draft, "xb") as drafted:
            drafted.write(der)
            drafted.flush()
            os.fsync(drafted.fileno())
        os.link(draft, file)
    except FileExistsError:
        return False
    finally:
        draft.unlink(missing_ok=True)
    return True


def _put(file: Path, der: bytes) -> None:
    """Writes a file that is not there. One that is has to hold the same octets."""
    file.parent.mkdir(parents=True, exist_ok=True)
    if (file.exists() or not _is_put(file, der)) and file.read_bytes() != der:
        raise OSError("there is a file of other octets")


def octets_of(found: Found) -> bytes:
    """Returns the octets of a message that was found. Raises `OSError` if none was."""
    if found.what is not Class.MESSAGE or found.octets is None:
        raise OSError(found.note or "there is no message any more")
    return found.octets


def der_of(found: Found, limit: int = cms_canon.LIMIT) -> bytes:
    """Returns the DER of a message that was found. Raises `OSError` if none was."""
    return cms_canon.convert(octets_of(found), limit)


def _copy(found: Found, digest: str, file: Path) -> Optional[str]:
    """Writes the DER of a message, and returns why not if that fails."""
    try:
        der = der_of(found)
        if hashlib.sha256(der).hexdigest() != digest:
            return "it has changed since it was indexed"
        _put(file, der)
    except (OSError, MemoryError, cms_canon.Refused) as why:
        return str(why) or "out of memory"
    return None


def _export_file(path: str, digests: Dict[str, str], folder: Path) -> Iterator[Copied]:
    """Writes the DER of these messages of a file, the empty name being the file itself."""
    named = path_named_by(path)
    why = TOO_LONG if is_cut(path) else NO_PATH if named is None else "it is not there any more"
    outcomes: Dict[str, Optional[str]] = dict.fromkeys(digests, why)
    for found in found_in_entry(entry_of(named)) if named is not None and not is_cut(path) else ():
        member = text_of(found.where)
        if outcomes.get(member):
            digest = digests[member]
            outcomes[member] = _copy(found, digest, folder / digest[:2] / digest[2:])
        elif member == "" and found.what is Class.UNREADABLE:
            outcomes = {name: why and found.note for name, why in outcomes.items()}
    for member, why_not in outcomes.items():
        yield Copied(name_of({"path": path, "member": member}), why_not)


def export(store: Store, folder: Path) -> Iterator[Copied]:
    """Writes the DER of each message to `folder/ab/cdef..`, and compares it with that of each other file that is the same message."""
    order = (FILES.c.path, FILES.c.member)
    asked = store.asked(sa.select(*order, FILES.c.digest).where(FILES.c.digest.is_not(None)).order_by(*order))
    for path, rows in groupby(asked, key=lambda row: str(row["path"])):
        yield from _export_file(path, {str(row["member"]): str(row["digest"]) for row in rows}, folder)


# ---- without a store


def _messages_in(path: str) -> Iterator[Found]:
    """Gives the messages in a file, and what seems to be one or cannot be read."""
    return (it for it in found_in_entry(Entry(os.path.realpath(path), 0, 0, 0)) if it.what in _MAY_BE)


def name_of_found(path: str, found: Found) -> str:
    return f"{path}!{found.where}" if found.where else path


def _name_of_copy(name: str) -> str:
    """Returns the name of a copy; of one that is too long for a file the end."""
    return text_of(name).replace("/", "_").encode()[-MOST_OF_A_NAME:].decode(errors="ignore")


def _copies_of(path: str, to: str, folder: Path, limit: int) -> Iterator[Copied]:
    """Writes the DER of each message in a file to a folder, under the name that its copy is to have."""
    below, name = os.path.split(to)
    for found in _large_message_in(path, limit) or _messages_in(path):
        try:
            _put(folder / below / _name_of_copy(name_of_found(name, found)), der_of(found, limit))
        except (OSError, MemoryError, cms_canon.Refused) as why:
            yield Copied(name_of_found(path, found), str(why) or "out of memory")
        else:
            yield Copied(name_of_found(path, found), None)


def _large_message_in(path: str, limit: int) -> List[Found]:
    """Returns a file as one message if it is longer than the messages that are looked for, and no longer than the limit. Else there is none."""
    real = os.path.realpath(path)
    if not cms_canon.LIMIT < entry_of(real).size <= limit:
        return []
    with opened(real) as file:
        octets = file.read(limit + 1)
    return [Found("", "file", Class.MESSAGE, len(octets), octets)]


def _below(top: str, path: str) -> str:
    """Returns the name of the copy of a file in a folder that was named: that of the folder with it, as `cp -r` has it."""
    name = os.path.basename(os.path.normpath(top))
    return os.path.normpath(os.path.join("" if name == ".." else name, os.path.relpath(path, top)))


def _named_by(top: str, folder: Path) -> Iterator[Tuple[str, str]]:
    """Gives the files that a path names, and the names that their copies are to have. What is in the folder of the copies is left out."""
    if not os.path.isdir(top):
        yield top, os.path.basename(top)
        return
    copies = os.path.realpath(folder)
    for it in entries_of([top]):
        if os.path.commonpath([copies, os.path.realpath(it.path)]) != copies:
            yield it.path, _below(top, it.path)


def convert(top: str, folder: Path, limit: int = cms_canon.LIMIT) -> Iterator[Copied]:
    """Writes the DER of each message in a file, or in the files of a folder and of those inside it, to another folder."""
    count = 0
    for path, name in _named_by(top, folder):
        for it in _copies_of(path, name, folder, limit):
            yield it
            count += 1
    if not count:
        yield Copied(top, NO_MESSAGE)


def digests_in(path: str, octets: Optional[bytes]) -> Iterator[Copied]:
    """Gives the SHA-256 of the DER of each message in a file, or in octets if they are given."""
    given = None if octets is None else found_in(in_memory("", octets, Budget(len(octets))))
    messages = _messages_in(path) if given is None else (it for it in given if it.what in _MAY_BE)
    yield from _of_each(path, messages, lambda found: hashlib.sha256(der_of(found)).hexdigest())


def shown_in(path: str, show: Callable[[bytes], str]) -> Iterator[Copied]:
    """Gives what `show` returns of the DER of each message in a file."""
    return _of_each(path, _messages_in(path), lambda found: show(der_of(found)))


def changes_in(path: str, json: bool) -> Iterator[Copied]:
    """Gives what conversion changes in each message in a file, as lines or in JSON."""
    return _of_each(path, _messages_in(path), lambda found: cms_canon.list_changes(octets_of(found), json=json))


def _of_each(path: str, messages: Iterable[Found], show: Callable[[Found], str]) -> Iterator[Copied]:
    """Gives what `show` returns of each message of a file, or that there is none."""
    count = 0
    for count, found in enumerate(messages, 1):
        name = name_of_found(path, found)
        try:
            yield Copied(name, None, show(found))
        except (OSError, MemoryError, cms_canon.Refused) as why:
            yield Copied(name, str(why) or "out of memory")
    if not count:
        yield Copied(path, NO_MESSAGE)
