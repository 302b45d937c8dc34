"""Digests of a store in files of their own, so that what several stores share is found without one that has all.

A folder has, for each row with a digest, in the order of their numbers from 0: in `rows` the digest and where its name begins in `names`; and in
one of 256 files, which is named by the first octet of the digest, its next 8 octets and the number. `about.json` is written last.

What takes part in a digest's place is 9 octets, one of which names the file: 72 bits are made to collide at will, so that whole digests are
compared before anything is said.
"""

from __future__ import annotations

import json
import os
from pathlib import Path
from typing import TYPE_CHECKING, Any, BinaryIO, Dict, Iterator, List, NamedTuple, Sequence, Tuple

import sqlalchemy as sa

from .faults import Complaint
from .queries import name_of
from .store import Store
from .tables import PARTS, PATH, PLACES

if TYPE_CHECKING:
    from numpy.typing import NDArray

FORM = 1  # the version of the files
AT_ONCE = 50_000  # rows that are written at once
_BUCKETS = 256
_KEY, _NUMBER, _ROW = 8, 8, 40  # octets


class Group(NamedTuple):
    """Files that are the same message: the folder of digests of each, and its name."""

    digest: str
    files: List[Tuple[str, str]]


class NoDigests(Complaint):
    """A folder has no digests, or they are damaged."""


# ---- writing


def write(store: Store, folder: Path) -> int:
    """Writes the digests of a store to an empty folder, and returns how many there are. Raises `OSError` if there is anything in it."""
    import numpy

    folder.mkdir(parents=True, exist_ok=True)
    if any(folder.iterdir()):
        raise OSError(f"{folder}: the folder is not empty")
    buckets = [open(folder / f"{it:02x}", "xb") for it in range(_BUCKETS)]
    count = at = 0
    with open(folder / "rows", "xb") as rows, open(folder / "names", "xb") as names:
        try:
            for digests, some in _digests_of(store):
                octets = numpy.frombuffer(b"".join(digests), dtype=numpy.uint8).reshape(-1, 32)
                lines = [f"{it}\n".encode() for it in some]
                lengths = numpy.array([len(it) for it in lines], dtype=numpy.uint64)
                places = at + numpy.concatenate((numpy.zeros(1, numpy.uint64), numpy.cumsum(lengths)[:-1]))
                rows.write(numpy.hstack((octets, _octets(numpy, places))).tobytes())
                names.write(b"".join(lines))
                numbers = numpy.arange(count, count + len(lines), dtype=numpy.uint64)
                _put_in_buckets(numpy, buckets, octets, numbers)
                count, at = count + len(lines), at + int(lengths.sum())
        finally:
            for it in buckets:
                it.close()
    (folder / "about.json").write_text(json.dumps({"form": FORM, "rows": count, "names": at, "store": store.name()}) + "\n")
    return count


def _digests_of(store: Store) -> Iterator[Tuple[List[bytes], List[str]]]:
    digest = sa.type_coerce(PLACES.c.digest, sa.LargeBinary).label("digest")
    joined = PLACES.join(PARTS, PARTS.c.id == PLACES.c.part)
    asked = sa.select(digest, PATH.label("path"), PLACES.c.member).select_from(joined).where(PLACES.c.digest.is_not(None))
    digests: List[bytes] = []
    names: List[str] = []
    for row in store.asked(asked):
        digests.append(bytes(row["digest"]))
        names.append(name_of(row))
        if len(names) == AT_ONCE:
            yield digests, names
            digests, names = [], []
    if names:
        yield digests, names


def _octets(numpy: Any, numbers: NDArray[Any]) -> NDArray[Any]:
    """Returns numbers as 8 octets each, the first one first."""
    octets: NDArray[Any] = numbers.astype(">u8").view(numpy.uint8).reshape(-1, _NUMBER)
    return octets


def _put_in_buckets(numpy: Any, buckets: Sequence[BinaryIO], octets: NDArray[Any], numbers: NDArray[Any]) -> None:
    order = numpy.argsort(octets[:, 0], kind="stable")
    records = numpy.hstack((octets[:, 1 : 1 + _KEY], _octets(numpy, numbers)))[order]
    ends = numpy.cumsum(numpy.bincount(octets[:, 0], minlength=_BUCKETS))
    for bucket, begin, end in zip(buckets, [0, *ends[:-1]], ends):
        bucket.write(records[begin:end].tobytes())


# ---- reading


class _Folder:
    """The digests of one store."""

    def __init__(self, folder: Path) -> None:
        """Raises `NoDigests` if it has none, or not all of them."""
        self.name = str(folder)
        try:
            about = json.loads((folder / "about.json").read_text())
            sizes = {it: (folder / it).stat().st_size for it in ("rows", "names", *(f"{number:02x}" for number in range(_BUCKETS)))}
        except (OSError, ValueError):
            raise NoDigests(f"{folder}: there are no digests of `digests --to`, or not all of them")
        if not isinstance(about, dict) or about.get("form") != FORM:
            raise NoDigests(f"{folder}: the digests are of another release")
        count, records = about.get("rows"), sum(size for name, size in sizes.items() if len(name) == 2)
        if not isinstance(count, int) or (records, sizes["rows"], sizes["names"]) != (count * (_KEY + _NUMBER), count * _ROW, about.get("names")):
            raise NoDigests(f"{folder}: the digests are not whole")
        self._count = count
        self._path = folder
        self._rows, self._names = (os.open(folder / it, os.O_RDONLY | os.O_CLOEXEC) for it in ("rows", "names"))

    def bucket(self, numpy: Any, number: int) -> Tuple[NDArray[Any], NDArray[Any]]:
        """Returns the keys and the numbers in one of the files."""
        records = numpy.fromfile(self._path / f"{number:02x}", dtype=numpy.dtype([("key", ">u8"), ("number", ">u8")]))
        return records["key"].astype(numpy.uint64), records["number"].astype(numpy.uint64)

    def row(self, number: int, bucket: int, key: int) -> Tuple[bytes, int]:
        """Returns the digest of a row, and where its name begins. Raises `NoDigests` if the row is not that of the key."""
        octets = os.pread(self._rows, _ROW, number * _ROW) if number < self._count else b""
        if octets[: 1 + _KEY] != bytes([bucket]) + key.to_bytes(_KEY, "big"):
            raise NoDigests(f"{self.name}: the digests are damaged at row {number}")
        return octets[:32], int.from_bytes(octets[32:], "big")

    def name_at(self, place: int) -> str:
        """Returns the name that begins there."""
        line, octets = b"", b"-"
        while octets and b"\n" not in line:
            octets = os.pread(self._names, 4096, place + len(line))
            line += octets
        return line.partition(b"\n")[0].decode("utf-8", "backslashreplace")

    def close(self) -> None:
        for it in (self._rows, self._names):
            os.close(it)


def duplicates(folders: Sequence[Path]) -> Iterator[Group]:
    """Gives the messages that more than one row of these folders is. What is compared first is not all of a digest, so all of it is then."""
    import numpy

    opened: List[_Folder] = []
    try:
        for it in folders:
            opened.append(_Folder(it))
        for bucket in range(_BUCKETS):
            yield from _duplicates_in(numpy, opened, bucket)
    finally:
        for folder in opened:
            folder.close()


def _duplicates_in(numpy: Any, folders: Sequence[_Folder], bucket: int) -> Iterator[Group]:
    pairs = [it.bucket(numpy, bucket) for it in folders]
    keys = numpy.concatenate([it[0] for it in pairs])
    order = numpy.argsort(keys, kind="stable")
    keys = keys[order]
    is_same = keys[1:] == keys[:-1]
    if not is_same.any():
        return
    numbers = numpy.concatenate([it[1] for it in pairs])
    owners = numpy.repeat(numpy.arange(len(folders), dtype=numpy.uint32), [len(it[0]) for it in pairs])
    del pairs
    begins = numpy.flatnonzero(is_same & ~numpy.concatenate(([False], is_same[:-1])))
    for begin in begins.tolist():
        key, end = int(keys[begin]), begin + 1
        while end < len(keys) and int(keys[end]) == key:
            end += 1
        rows = ((folders[int(owners[it])], int(numbers[it])) for it in order[begin:end])
        yield from _groups_of(rows, bucket, key)


def _groups_of(rows: Iterator[Tuple[_Folder, int]], bucket: int, key: int) -> Iterator[Group]:
    """Gives the rows with one key that are the same message."""
    found: Dict[bytes, List[Tuple[_Folder, int]]] = {}
    for folder, number in rows:
        digest, place = folder.row(number, bucket, key)
        found.setdefault(digest, []).append((folder, place))
    for digest, some in sorted(found.items()):
        if len(some) > 1:
            yield Group(digest.hex(), [(folder.name, folder.name_at(place)) for folder, place in some])
