"""Lists of the SHA-256 of files: written for `sha256sum -c` and for BagIt, and compared with what an index read."""

from __future__ import annotations

import os
import re
from typing import Dict, Iterator, NamedTuple, Optional, Sequence, Set, Tuple

import sqlalchemy as sa

from .containers.found import Class
from .faults import Complaint
from .reading import Row
from .store import FILES, Store
from .texts import is_cut, name_of_text, path_text_of
from .walking import place_of

MOST = 1 << 30  # octets of a manifest that is compared: its names are in memory
_LINE = re.compile(rb"(\\?)([0-9a-fA-F]{64})(?: [ *]?|\t)(.+)", re.DOTALL)
_TAGGED = re.compile(rb"(\\?)SHA256 \((.+)\) = ([0-9a-fA-F]{64})", re.DOTALL)
_ESCAPES = {b"\\\\": b"\\", b"\\n": b"\n", b"\\r": b"\r"}
_OF_BAG = {b"%25": b"%", b"%0A": b"\n", b"%0a": b"\n", b"%0D": b"\r", b"%0d": b"\r"}
NOT_KNOWN = "its SHA-256 is not known: it cannot be read, was changed as it was read, or was stored by an older release; `index` reads it again"
CUT = "its name is too long to be read back"


class Line(NamedTuple):
    """A file of a manifest, or why it is not in it."""

    octets: bytes
    why_not: Optional[str] = None


# ---- writing


def _rows(store: Store, under: Optional[str]) -> Iterator[Row]:
    """Gives the files of an index, and the folders that cannot be read, with their SHA-256, and whether each lies below such a folder."""
    columns = (FILES.c.path, FILES.c.sha256, FILES.c.what)
    asked = sa.select(*columns).where(FILES.c.member == "").order_by(FILES.c.path)
    if under is not None:
        inside = under.rstrip("/") + "/"
        asked = asked.where((FILES.c.path == under) | ((FILES.c.path >= inside) & (FILES.c.path < inside[:-1] + "0")))
    closed: Set[str] = set()
    for row in store.asked(asked):
        is_below = bool(closed) and any(it in closed for it in _folders_of(str(row["path"])))
        if row["what"] == Class.UNREADABLE.value:
            closed.add(str(row["path"]))
        yield {**row, "is_below": is_below}


def _folders_of(path: str) -> Iterator[str]:
    while path != (path := os.path.dirname(path)):
        yield path


def sha256sum(store: Store, under: Optional[str]) -> Iterator[Line]:
    """Gives the lines that `sha256sum -c` reads, for the files of an index, or of a folder of it. Names are whole paths."""
    for row in _rows(store, under):
        why = _why_not(row)
        if why is not None:
            yield Line(str(row["path"]).encode("utf-8", "surrogateescape"), why)
            continue
        name = os.fsencode(name_of_text(str(row["path"])))
        escaped = name.replace(b"\\", b"\\\\").replace(b"\n", b"\\n").replace(b"\r", b"\\r")
        yield Line((b"" if escaped == name else b"\\") + str(row["sha256"]).encode() + b"  " + escaped + b"\n")


def bagit(store: Store, bag: str) -> Iterator[Line]:
    """Gives the lines of the file `manifest-sha256.txt` of a bag (RFC 8493, section 2.1.3), for the files in its folder `data`.

    Raises `Complaint` if the index has none of these.
    """
    inside, count = len(os.fsencode(name_of_text(bag)).rstrip(b"/")) + 1, 0
    for row in _rows(store, f"{bag.rstrip('/')}/data"):
        count += 1
        why = _why_not(row)
        if why is not None:
            yield Line(str(row["path"]).encode("utf-8", "surrogateescape"), why)
            continue
        name = os.fsencode(name_of_text(str(row["path"])))[inside:]
        escaped = name.replace(b"%", b"%25").replace(b"\n", b"%0A").replace(b"\r", b"%0D")
        yield Line(str(row["sha256"]).encode() + b"  " + escaped + b"\n")
    if not count:
        raise Complaint(f"{bag}: the index has no file in its folder data")


def _why_not(row: Row) -> Optional[str]:
    if row["is_below"]:
        return "it lies in a folder that could not be read"
    if row["sha256"] is None:
        return "it could not be read" if row["what"] == Class.UNREADABLE.value else NOT_KNOWN
    return CUT if is_cut(str(row["path"])) else None


# ---- comparing


class Manifest(NamedTuple):
    """What a manifest says: the SHA-256 of each file by the text of its path."""

    digests: Dict[str, bytes]
    path: str
    """The text of its own path, which it need not list."""
    payload: Optional[str]
    """The folder with all that it has to list, if it is that of a bag."""

    def is_to_list(self, path: str) -> bool:
        """Whether a file of this path has to be listed."""
        return path != self.path and (self.payload is None or path.startswith(self.payload))


def manifest_in(path: str) -> Manifest:
    """Reads a manifest as `sha256sum` writes it, with or without `--tag`, or as BagIt has it. Raises `Complaint` if it is none."""
    try:
        with open(path, "rb") as file:
            octets = file.read(MOST + 1)
    except OSError as why:
        raise Complaint(f"{path}: {why.strerror}") from None
    if len(octets) > MOST:
        raise Complaint(f"{path}: it has more than {MOST:,} octets")
    if b"\0" in octets:
        raise Complaint(f"{path}: it has a NUL, as a list that `sha256sum -z` writes: only lines are read")
    folder = place_of(os.path.dirname(os.path.abspath(path)))
    lines = octets.split(b"\n")
    is_of_bag = os.path.basename(path) == "manifest-sha256.txt" and os.path.exists(os.path.join(folder, "bagit.txt"))
    digests: Dict[str, bytes] = {}
    for number, line in enumerate(lines, 1):
        if not line.strip():
            continue
        name, digest = _read(line.rstrip(b"\r"), is_of_bag, f"{path}: line {number}")
        text = path_text_of(os.path.normpath(os.path.join(folder, os.fsdecode(name))))
        if digests.setdefault(text, digest) != digest:
            raise Complaint(f"{path}: line {number}: this file has another SHA-256 in an earlier line")
    if not digests:
        raise Complaint(f"{path}: it lists no file")
    own = path_text_of(os.path.join(folder, os.path.basename(path)))
    return Manifest(digests, own, path_text_of(os.path.join(folder, "data")) + "/" if is_of_bag else None)


def _read(line: bytes, is_of_bag: bool, place: str) -> Tuple[bytes, bytes]:
    """Returns the name and the SHA-256 in a line."""
    if found := _TAGGED.fullmatch(line):
        escaped, name, digest = found.groups()
    elif found := _LINE.fullmatch(line):
        escaped, digest, name = found.groups()
    else:
        raise Complaint(f"{place} is not a SHA-256 in 64 hexadecimal digits and a name, as sha256sum and BagIt write them")
    if escaped:
        name = re.sub(rb"\\[\\nr]", lambda it: _ESCAPES[it[0]], name)
    if is_of_bag:
        name = re.sub(rb"%(?:25|0[AaDd])", lambda it: _OF_BAG[it[0]], name.lstrip(b" \t*"))
    return name, bytes.fromhex(digest.decode())


class Difference(NamedTuple):
    """A file of which a manifest and an index do not say the same."""

    why: str
    path: str


def differing(store: Store, manifest: Manifest, tops: Sequence[str]) -> Iterator[Difference]:
    """Gives what differs between a manifest and the files of an index that lie in paths which were named: files with another SHA-256, or with none,
    files that are missing, and files that are not listed. The manifest itself need not be."""
    left = dict(manifest.digests)
    for top in tops:
        for row in _rows(store, path_text_of(top)):
            path = str(row["path"])
            wanted = left.pop(path, None)
            if wanted is None and manifest.is_to_list(path):
                yield Difference("not listed", path)
            elif wanted is not None and (row["sha256"] is None or row["is_below"]):
                yield Difference("not known", path)
            elif wanted is not None and bytes.fromhex(str(row["sha256"])) != wanted:
                yield Difference("differs", path)
    yield from (Difference("not indexed" if _is_there(path) else "missing", path) for path in sorted(left))


def _is_there(path: str) -> bool:
    """Whether there is anything at a path, which an index may have left out, or was not to read."""
    return not is_cut(path) and os.path.lexists(name_of_text(path))
