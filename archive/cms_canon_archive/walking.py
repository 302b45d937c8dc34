"""The files of folders, always in the same order. The names in one folder are in memory, and those of the folders to come."""

from __future__ import annotations

import os
from functools import lru_cache
from typing import AbstractSet, Iterable, Iterator, List, Optional, Sequence, Tuple

from .reading import MOST, Entry, wanted_beside


def is_there(path: str) -> bool:
    """Whether a file or a folder has this name."""
    return os.path.isfile(path) or os.path.isdir(path)


def _status(path: str) -> str:
    """Returns the text by which a file is known to be the same; empty if it is not there."""
    try:
        status = os.lstat(path)
    except OSError:
        return ""
    return f"{status.st_size}:{status.st_ctime_ns}:{status.st_ino}"


def entry_of(path: str) -> Entry:
    """Returns the file as it is now. One that is gone meanwhile is an entry too: its row will say so."""
    try:
        status = os.lstat(path)
    except OSError:
        return Entry(path, 0, 0, 0)
    beside = wanted_beside(path)
    return Entry(path, status.st_size, status.st_ctime_ns, status.st_ino & MOST, _status(beside) if beside else "")


def entry_in(file: os.DirEntry[str], names: Optional[AbstractSet[str]]) -> Entry:
    """Returns a file of a folder that was listed, as it was then. `names` are all that the folder has, if they are known."""
    try:
        status = file.stat(follow_symlinks=False)
    except OSError:
        return Entry(file.path, 0, 0, 0)
    wanted = wanted_beside(file.name)
    beside = _status(wanted_beside(file.path)) if wanted and (names is None or wanted in names) else ""
    return Entry(file.path, status.st_size, status.st_ctime_ns, status.st_ino & MOST, beside)


def _files_and_folders(path: str) -> Tuple[List[str], List[str]]:
    """Returns the files and the folders in a folder, in the order of their names. Symbolic links are not among them."""
    files, folders = [], []
    with os.scandir(path) as found:
        for entry in sorted(found, key=lambda it: it.name):
            if entry.is_dir(follow_symlinks=False):
                folders.append(entry.path)
            elif entry.is_file(follow_symlinks=False):
                files.append(entry.path)
    return files, folders


def _in_folder(top: str) -> Iterator[Entry]:
    """Gives the files of a folder and of those inside it. A folder that cannot be read is an entry."""
    left = [top]
    while left:
        path = left.pop()
        try:
            files, folders = _files_and_folders(path)
        except OSError:
            yield Entry(path, 0, 0, 0)
            continue
        yield from map(entry_of, files)
        left += reversed(folders)


def place_of(path: str) -> str:
    """Returns the path by which a store has what is named: an absolute one, or if it is a symbolic link, that of what it points to."""
    path = os.path.abspath(path)  # without a slash at its end, by which a link would be no link
    return os.path.realpath(path) if os.path.islink(path) else path


def tops_of(paths: Iterable[str]) -> List[str]:
    """Returns the paths that are named without those that lie in another one of them, so that no file is given twice.

    A symbolic link that is named is followed: what it points to is taken in its place.
    """
    names = set(map(place_of, paths))
    folders = set(filter(os.path.isdir, names))
    return [it for it in sorted(names) if not any(above in folders and is_reached(it, above) for above in _folders_above(it))]


def _folders_above(path: str) -> Iterator[str]:
    while path != (path := os.path.dirname(path)):
        yield path


def is_reached(path: str, top: str) -> bool:
    """Whether a path lies in a folder, and no symbolic link is between the two."""
    inside = top.rstrip("/") + "/"
    return path.startswith(inside) and os.path.realpath(path) == os.path.join(_real(top), path[len(inside) :])


@lru_cache(maxsize=64)
def _real(path: str) -> str:
    return os.path.realpath(path)


def entries_of(tops: Sequence[str]) -> Iterator[Entry]:
    """Gives each file that is named or lies in a folder that is named. No name lies in another one."""
    for path in tops:
        if os.path.isdir(path):
            yield from _in_folder(path)
        else:
            yield entry_of(path)
