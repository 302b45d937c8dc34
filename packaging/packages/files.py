"""Files with fixed dates, orders, owners and modes.

The date is that of the version in CHANGELOG.md, and not that of a commit, so that the same sources make the same octets before they are
committed. `xz` runs in one thread: with more, it cuts what it packs by their number.
"""

import io
import os
import tarfile
import zipfile
import zlib
from datetime import datetime, timezone
from pathlib import Path
from typing import Iterable, NamedTuple

_UNIX = 3  # the system whose modes a zip has


class File(NamedTuple):
    """A file of a package."""

    name: str
    """Its path in the package, without a `/` before it."""
    octets: bytes
    mode: int = 0o644


class Link(NamedTuple):
    """A symbolic link of a package."""

    name: str
    target: str


def files_below(folder: Path, prefix: str = "") -> Iterable[File]:
    """Yields the files below a folder in the order of their names, without what Python and cargo leave there."""
    for path in sorted(folder.rglob("*")):
        inside = path.relative_to(folder)
        if path.is_file() and not {"__pycache__", "target"} & {*inside.parts}:
            yield File(prefix + inside.as_posix(), path.read_bytes())


def gzipped(octets: bytes) -> bytes:
    """Returns the octets compressed, without a name and a date. The module gzip writes another header in each version of Python."""
    packer = zlib.compressobj(9, zlib.DEFLATED, zlib.MAX_WBITS | 16)
    return packer.compress(octets) + packer.flush()


def zipped(files: Iterable[File], epoch: int) -> bytes:
    """Returns a zip of the files in the given order, all of this time."""
    date = datetime.fromtimestamp(epoch, timezone.utc).timetuple()[:6]
    packed = io.BytesIO()
    with zipfile.ZipFile(packed, "w", zipfile.ZIP_DEFLATED) as archive:
        for file in files:
            entry = zipfile.ZipInfo(file.name, date)
            entry.create_system = _UNIX
            entry.external_attr = (0o100000 | file.mode) << 16
            archive.writestr(entry, file.octets, zipfile.ZIP_DEFLATED, 9)
    return packed.getvalue()


def tar_gz(files: Iterable[File], epoch: int) -> bytes:
    """Returns a compressed tar of the files in the given order, all of this time and of nobody in particular."""
    packed = io.BytesIO()
    with tarfile.open(fileobj=packed, mode="w", format=tarfile.USTAR_FORMAT) as archive:
        for file in files:
            entry = tarfile.TarInfo(file.name)
            entry.size, entry.mode, entry.mtime = len(file.octets), file.mode, epoch
            archive.addfile(entry, io.BytesIO(file.octets))
    return gzipped(packed.getvalue())


def put_below(folder: Path, entries: Iterable, epoch: int) -> None:
    """Writes files and links below a folder, and gives all of them and their folders fixed modes and this time."""
    folder.mkdir(parents=True, exist_ok=True)
    for entry in entries:
        path = folder / entry.name
        path.parent.mkdir(parents=True, exist_ok=True)
        if isinstance(entry, Link):
            path.symlink_to(entry.target)
        else:
            path.write_bytes(entry.octets)
            path.chmod(entry.mode)
    for path in [*folder.rglob("*"), folder]:
        if path.is_dir() and not path.is_symlink():
            path.chmod(0o755)
        os.utime(path, (epoch, epoch), follow_symlinks=False)
