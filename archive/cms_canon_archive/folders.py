"""What a worker does of a part: the files of a folder, or one file, are compared with what is stored of them, and read if they are not the same.

A file is unchanged as long as its size, the time of change of its inode and its inode are; the time of its contents is set back by `cp -p`.
A file that cannot be read is read again at each call, since its mode may change without that time. A folder that is gone is a part that
finds nothing at its path; below a folder that cannot be looked into, what is stored is kept. A large file is a part of its own and stays
one: by its size alone, a file that shrinks would be stored twice, or not at all. A folder has at most 16 chunks, since each of them lists
all of it.
"""

from __future__ import annotations

import errno
import os
from typing import AbstractSet, Dict, Iterable, List, NamedTuple, Optional, Sequence, Set, Tuple

from .containers.packed import why_of
from .judging import Verification, judged
from .reading import Entry, Read, read_of, reads_of, unread
from .sessions import Held, Known, New, Outcome
from .settings import NO_SETTINGS, Settings
from .spool import Spool
from .tables import MOST_CHUNKS
from .texts import chunk_of, is_cut, name_of_text, text_of
from .walking import entry_in, entry_of, is_reached

FEW = 2000  # files of a folder that are one part; if there are four times as many, it is divided
LARGE = 4 << 20  # octets of a file that is a part of its own
NOT_THERE = (errno.ENOENT, errno.ENOTDIR, errno.ELOOP)  # errors of a path that is not there
KILLED = "a process that read it was killed, perhaps because memory ran out"
REFUSED = "the store refused what was read of it"


class Listing(NamedTuple):
    """What is in a folder."""

    files: Dict[str, os.DirEntry[str]]
    """The files of one chunk by the texts of their names, in the order of these."""
    folders: List[str]
    """The names of the folders."""
    total: int
    """How many files there are in all chunks."""
    names: Optional[AbstractSet[str]]
    """The names of all that there is, if the folder is one chunk."""


# ---- paths


def named_by(text: str) -> Optional[str]:
    """Returns the name that is written as a text; None if no name is written so, as a worker that lies may have it."""
    try:
        name = name_of_text(text)
    except ValueError:
        return None
    return name if text_of(name, cuts=False) == text else None


def path_named_by(text: str) -> Optional[str]:
    """Returns the path that a store has as this text; None if it is none, or leads up, as a worker that lies may have it."""
    path = named_by(text)
    if path is None or not path.startswith("/") or "\0" in path or any(it in (".", "..") for it in path.split("/")):
        return None
    return path


def path_of(part: Held) -> Optional[str]:
    """Returns the path of a folder with its slash, or of a file; None if a part is named by no path that is one, or otherwise than it should be."""
    folder, name = named_by(part.whole or part.path), named_by(part.name)
    if folder is None or name is None or not folder.startswith("/") or not folder.endswith("/") or "\0" in folder + name or "/" in name:
        return None
    if any(it in (".", "..") for it in (*folder.split("/"), name)) or texts_of_folder(folder) != (part.path, part.whole):
        return None
    return folder + name


def texts_of_folder(folder: str) -> Tuple[str, Optional[str]]:
    """Returns what a folder is named in a store, with a slash at its end, and its whole path if that was too long for it."""
    text = text_of(folder.rstrip("/"))
    return f"{text}/", (text_of(folder.rstrip("/"), cuts=False) + "/" if is_cut(text) else None)


# ---- folders


def listed(path: str, chunk: int, chunks: int, settings: Settings) -> Listing:
    """Lists a folder. Symbolic links, what is neither file nor folder, and what the settings say are left out."""
    files: Dict[str, os.DirEntry[str]] = {}
    folders: List[str] = []
    names: Optional[Set[str]] = set() if chunks == 1 else None
    count = 0
    with os.scandir(path) as found:
        for entry in found:
            name = entry.name
            if names is not None:
                names.add(name)
            if settings.excluded and settings.leaves_out(entry.path):
                continue
            if entry.is_file(follow_symlinks=False):
                count += 1
                text = text_of(name)
                if chunks == 1 or chunk_of(text, chunks) == chunk:
                    files[text] = entry
            elif chunk == 0 and entry.is_dir(follow_symlinks=False) and not settings.is_on_another(path, entry.path):
                folders.append(name)
    return Listing(dict(sorted(files.items())), sorted(folders), count, names)


def chunks_for(count: int, chunks: int) -> int:
    """Returns in how many parts the files of a folder are to be, which is no other number as long as there are not four times as many."""
    wanted = max(1, min(MOST_CHUNKS, -(-count // FEW)))
    return wanted if wanted > 4 * chunks or chunks == 1 or chunks > MOST_CHUNKS else chunks


def _top_of(part: Held) -> str:
    """Returns the path that was named, and that a part lies in or is."""
    return name_of_text((part.whole or part.path)[: part.top])


def is_left_out(path: str, part: Held, settings: Settings) -> bool:
    """Whether the settings leave a part out."""
    return settings.leaves_out_below(path, _top_of(part))


def _is_where_it_was(path: str, part: Held) -> bool:
    """Whether no symbolic link is between what was named and a path below it."""
    top = _top_of(part)
    return path == top or is_reached(path.rstrip("/"), top.rstrip("/") or "/")


def is_gone(path: str, part: Held) -> bool:
    """Whether there is no folder or file of this path any more. What cannot be looked at is not gone. Raises `OSError` if that is so."""
    try:
        status = os.lstat(path.rstrip("/") or "/")
    except OSError as error:
        if error.errno in NOT_THERE:
            return True
        raise
    kind = status.st_mode & 0o170000
    return kind != (0o100000 if part.name else 0o040000) or not _is_where_it_was(path, part)


class Reader:
    """Reads parts for a worker."""

    def __init__(
        self,
        own: AbstractSet[str],
        known: Dict[int, Dict[str, Known]],
        with_parts: Dict[str, Set[str]],
        rows: Spool,
        settings: Dict[Optional[int], Settings],
    ) -> None:
        """`own` are the paths of the files of the store itself, which are left out. `settings` are those of the parts, by their numbers."""
        self._settings = settings
        self._own = own
        self._known = known
        self._with_parts = with_parts
        self._rows = rows

    def read(self, part: Held) -> Outcome:
        """Reads a part whole."""
        outcome = Outcome(part)
        if left := self.begin(outcome):
            self._read_files(outcome, left)
        return outcome

    def _read_files(self, outcome: Outcome, files: Sequence[Tuple[str, Entry]]) -> None:
        from .short_files import groups, reads_together

        for some in groups(files):
            for (file, entry), read in zip(some, reads_together([entry for _, entry in some], self._verification(outcome.part))):
                if read is None:
                    self.read_file(outcome, file, entry)
                else:
                    self.put(outcome, file, entry, (read,))

    def _verification(self, part: Held) -> Verification:
        return self._settings_of(part).verification(part.verifies)

    def _settings_of(self, part: Held) -> Settings:
        """Returns the settings of a part; none if they are not there any more, as a worker that lies may have said."""
        return self._settings.get(part.settings, NO_SETTINGS)

    def begin(self, outcome: Outcome) -> List[Tuple[str, Entry]]:
        """Returns the files that are to be read of a part, each as it is named in a store and as it is; the rest is in the outcome."""
        part = outcome.part
        path = path_of(part)
        try:
            if path is None or path in self._own or is_gone(path, part) or is_left_out(path, part, self._settings_of(part)):
                self._drop_all(outcome)
                return []
        except OSError as error:  # what is stored below a folder that cannot be looked into is kept, and the row says that it may not be so any more
            self.put_error(outcome, "", str(path).rstrip("/") or "/", why_of(error))
            return []
        if part.name:
            return self._changed(outcome, [("", entry_of(path))])
        try:
            listing = self._list(outcome, path)
        except OSError as error:
            self.put_error(outcome, "", path.rstrip("/") or "/", why_of(error))
            return []
        return self._changed(outcome, listing)

    def _changed(self, outcome: Outcome, entries: Iterable[Tuple[str, Entry]]) -> List[Tuple[str, Entry]]:
        """Returns the files that are not stored as they are, and counts the others."""
        part = outcome.part
        known = self._known.get(part.id, {})
        if not known or part.anew:
            return list(entries)
        changed, how = [], self._verification(part)
        for file, entry in entries:
            if _is_same(known.get(file), entry, how):
                outcome.unchanged += 1
                outcome.octets += entry.size
            else:
                changed.append((file, entry))
        return changed

    def _list(self, outcome: Outcome, path: str) -> List[Tuple[str, Entry]]:
        """Lists a folder, and notes the parts in it and what is gone. What are parts of their own is not among the files that it returns."""
        part = outcome.part
        stored = self._known.get(part.id, {})
        settings = self._settings_of(part)
        listing = listed(path, part.chunk, part.chunks, settings)
        if part.chunk == 0 and (chunks := chunks_for(listing.total, part.chunks)) != part.chunks:
            outcome.chunks = chunks
            listing = listed(path, 0, chunks, settings)
        others = range(1, outcome.chunks) if part.chunk == 0 else ()  # which are added again, should a worker have lost one
        outcome.new += [New(part.path, "", it, outcome.chunks, part.whole, part.top, part.anew, part.verifies, part.settings) for it in others]
        for name in listing.folders:
            inner, inner_whole = texts_of_folder(path + name)
            outcome.new.append(New(inner, "", 0, 1, inner_whole, part.top, part.anew, part.verifies, part.settings))
        own, files = self._with_parts.get(part.path, set()), []
        for text, file in listing.files.items():
            entry = entry_in(file, listing.names)
            if text in own or entry.size > LARGE:
                outcome.new.append(New(part.path, text, 0, 1, part.whole, part.top, part.anew, part.verifies, part.settings))
            elif not self._own or entry.path not in self._own:
                files.append((text, entry))
        if stored:
            self._note_gone(outcome, {text for text, _ in files}, own)
        return files

    def _note_gone(self, outcome: Outcome, there: AbstractSet[str], own: AbstractSet[str]) -> None:
        """Notes which of the files that are stored of a folder are not there. Those that are parts of their own are not gone."""
        part = outcome.part
        gone = [it for it in self._known.get(part.id, {}) if it not in there]
        outcome.dropped += gone
        outcome.gone += sum(it != "" and it not in own and chunk_of(it, outcome.chunks) == part.chunk for it in gone)

    def _drop_all(self, outcome: Outcome) -> None:
        stored = self._known.get(outcome.part.id, {})
        outcome.is_gone = outcome.drops_all = True
        outcome.gone += len(set(stored) - {""}) if outcome.part.name == "" else len(stored)

    def read_file(self, outcome: Outcome, file: str, entry: Entry) -> None:
        """Reads a file."""
        self.put(outcome, file, entry, reads_of(entry, self._verification(outcome.part)))

    def put(self, outcome: Outcome, file: str, entry: Entry, reads: Iterable[Read]) -> None:
        """Puts what was read of one file in place of what is stored of it, if anything is: a worker that lies may have left something."""
        outcome.dropped.append(file)
        given: Set[str] = set()
        for read in reads:
            member = read.place.member
            if member not in given:  # no two places have one name, but names that are cut
                given.add(member)
                self._rows.add(outcome.part.id, file, read)
        outcome.files += 1
        outcome.octets += entry.size

    def put_error(self, outcome: Outcome, file: str, path: str, why: str) -> None:
        """Puts a row that says why a file or a folder was not read."""
        entry = Entry(path, 0, 0, 0) if os.path.isdir(path) else entry_of(path)
        found = unread(entry, why)
        self.put(outcome, file, entry, [read_of(entry, found, judged(found))])


def _is_same(known: Optional[Known], entry: Entry, how: Verification) -> bool:
    """Whether what is stored of a file is what would be read of it."""
    if known is None or known[2:6] != entry[1:] or not known[6]:
        return False
    return not how.verifies or bool(known[7]) and (known[8] and bytes(known[8])) == how.digest
