"""Which members of a tar are not what is there once it is unpacked: a later member of the same name replaces an earlier one, whatever it is.

64 bits of the name of each member are kept.
"""

from __future__ import annotations

import hashlib
import tarfile
from array import array
from typing import Dict, Iterable, List, Set

from .names import folded, path_of, paths_of

MOST_LINKS = 100_000  # of one tar that are known by their names
_AT_ONCE = 200_000  # keys that are compared as a set


def _key(path: str) -> int:
    return int.from_bytes(hashlib.blake2b(path.encode("utf-8", "surrogatepass"), digest_size=8).digest(), "big")


def _repeated(keys: array[int]) -> Set[int]:
    """Returns the numbers that come more than once, a part of them after another, or they would take much memory."""
    parts = len(keys) // _AT_ONCE + 1
    found: Set[int] = set()
    for part in range(parts):
        seen: Set[int] = set()
        for key in keys:
            if key % parts == part:
                if key in seen:
                    found.add(key)
                seen.add(key)
    return found


class Replaced:
    """What the headers of a tar say of the names in it, once all of them were added."""

    def __init__(self) -> None:
        self.whole = ""
        """Why readers may see other members; empty if they do not."""
        self.hard_links: Dict[str, List[str]] = {}
        """The names of hard links, by the paths of what they lead to."""
        self.targets: Dict[str, str] = {}
        """The paths to which the paths of hard links lead."""
        self._keys, self._folded = array("Q"), array("Q")
        self._links: Dict[str, str] = {}
        self._odd_links: Dict[str, str] = {}
        self._begins: Dict[str, int] = {}  # how many keys there are before each hard link
        self._folders: Set[str] = set()
        self._same: Set[int] = set()
        self._alike: Set[int] = set()

    def add(self, member: tarfile.TarInfo) -> None:
        """Adds a member. A folder replaces nothing but what is no folder."""
        paths = paths_of(member.name)
        for path in paths:
            key, other = _key(path), folded(path)
            if not member.isdir() or self._is_new_folder(path):
                self._keys.append(key)
                self._folded.append(key if other == path else _key(other))
            self._add_through(path)
        if member.islnk() or member.issym():
            self._add_link(member, path_of(member.name))

    def _is_new_folder(self, path: str) -> bool:
        is_new = path not in self._folders
        if is_new and len(self._folders) < MOST_LINKS:  # of further ones it only matters that none is forgotten
            self._folders.add(path)
        return is_new

    def _add_link(self, member: tarfile.TarInfo, path: str) -> None:
        if len(self._links) >= MOST_LINKS:
            self.doubt(f"it has more than {MOST_LINKS:,} links")
            return
        target = path_of(member.linkname)
        self._links[path] = target
        if member.islnk():
            self.hard_links.setdefault(target, []).append(member.name)
            self.targets[path] = target
            self._begins[path] = len(self._keys)
            if member.linkname[2 if member.linkname.startswith("./") else 0 :] != target:
                self._odd_links[path] = "it is a hard link whose target has another path for some readers"

    def _add_through(self, path: str) -> None:
        """Doubts the tar if a member lies below a link, and so elsewhere."""
        at = path.find("/") if self._links else -1
        while at >= 0:
            if path[:at] in self._links:
                self.doubt(f"{path}: it lies below a link")
                return
            at = path.find("/", at + 1)

    def doubt(self, why: str) -> None:
        """Says of the whole tar, once, why readers may see other members."""
        self.whole = self.whole or why

    def end(self) -> None:
        """Compares all names. A link whose name comes again may be written through."""
        self._same, self._alike = _repeated(self._keys), _repeated(self._folded)
        self._same |= {_key(target) for path, target in self._links.items() if _key(path) in self._same}
        self._add_early_links()
        self._folded = array("Q")

    def may_have(self, paths: Iterable[str]) -> bool:
        """Whether a member may have one of these paths: only if all headers could be read is it known that none has."""
        return bool(self.whole) or not set(map(_key, paths)).isdisjoint(self._keys)

    def _add_early_links(self) -> None:
        """Adds the hard links before their targets, which most readers cannot make."""
        wanted = set(map(_key, self.hard_links))
        places: Dict[int, int] = {}
        for at, key in enumerate(self._keys if wanted else ()):
            if key in wanted:
                places.setdefault(key, at)
        for path, begin in self._begins.items():
            if places.get(_key(self.targets[path]), begin) >= begin:
                self._odd_links[path] = "it is a hard link before its target"

    def reason(self, name: str) -> str:
        """Returns why readers may differ on a member, or on what it leads to; empty if they do not."""
        if self.whole:
            return self.whole
        path = path_of(name)
        some = {*paths_of(name), self.targets.get(path, path)}
        if any(_key(it) in self._same for it in some):
            return "another member has its name"
        if path in self._odd_links:
            return self._odd_links[path]
        if any(_key(folded(it)) in self._alike for it in some):
            return "on some file systems another member has its name"
        return "" if path == name[2 if name.startswith("./") else 0 :] else "some readers have another path for it"
