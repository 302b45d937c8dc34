"""Opens files of a disk, which may have become something else since they were listed, and finds what is in them."""

from __future__ import annotations

import errno
import hashlib
import io
import os
import stat
from typing import Any, BinaryIO, Iterable, Iterator, Optional, Tuple

from .finder import found_in
from .found import Class, Content, Found, Octets, Pieces, State, numbered
from .packed import why_of
from .sources import PIECE, Budget, Ended, Source, TooMuch, in_memory

SMALL = 1 << 20  # octets of content that is read at once
SHORT = 1 << 16  # octets of a file that is read at once
_KINDS = (
    *((stat.S_ISFIFO, "a FIFO"), (stat.S_ISSOCK, "a socket"), (stat.S_ISDIR, "a folder")),
    *((stat.S_ISCHR, "a device"), (stat.S_ISBLK, "a device")),
)
_FLAGS = os.O_RDONLY | os.O_NOFOLLOW | os.O_NONBLOCK | os.O_CLOEXEC


class Unreadable(Ended):
    """The file system does not give the octets of a file."""


class _File(io.FileIO):
    """A file that raises an error of its own if the file system cannot read it, which is not the same as a damaged file."""

    def readinto(self, buffer: Any) -> Optional[int]:
        try:
            return super().readinto(buffer)
        except OSError as error:
            raise Unreadable(why_of(error)) from error


def _refuse_others(mode: int) -> None:
    """Raises `OSError` if a file is no regular one."""
    if not stat.S_ISREG(mode):
        raise OSError(f"it is {kind_of(mode)}, and not a regular file")


def kind_of(mode: int) -> str:
    """Returns what a file is that is neither regular nor a folder, in words."""
    return next((kind for is_so, kind in _KINDS if is_so(mode)), "of another kind")


def opened(path: str) -> BinaryIO:
    """Opens a regular file. Raises `OSError` if it is a symbolic link or of another kind by now: a FIFO would be waited for."""
    descriptor = os.open(path, _FLAGS)
    try:
        _refuse_others(os.fstat(descriptor).st_mode)
    except OSError:
        os.close(descriptor)
        raise
    return io.BufferedReader(_File(descriptor))


class _FilePieces:
    """The octets of a file, which is read again whenever they are asked for."""

    def __init__(self, path: str) -> None:
        self._path = path

    def __iter__(self) -> Iterator[bytes]:
        with opened(self._path) as file:
            while piece := file.read(PIECE):
                yield piece


def beside(path: str) -> Optional[Content]:
    """Returns a file as the content of a message beside it; None if it is not there."""
    name = os.path.basename(path)
    try:
        with opened(path) as file:
            length = os.fstat(file.fileno()).st_size
            pieces: Iterable[Octets] = _FilePieces(path)
            if length <= SMALL:
                pieces = Pieces(file.read())
    except FileNotFoundError:
        return None
    except (OSError, Unreadable) as error:
        return Content(name, 0, (), State.UNREADABLE, f"{name}: {why_of(error)}")
    return Content(name, length, pieces)


class _Short(io.BytesIO):
    """A file that was read at once, which says errors as one that is open does."""

    def seek(self, at: int, whence: int = io.SEEK_SET) -> int:
        try:
            return super().seek(at, whence)
        except ValueError:
            raise OSError(errno.EINVAL, os.strerror(errno.EINVAL)) from None


def _read(descriptor: int, most: int) -> bytes:
    try:
        return os.read(descriptor, most)
    except OSError as error:
        raise Unreadable(why_of(error)) from error


def _begun(path: str) -> Tuple[bytes, Optional[BinaryIO], int]:
    """Returns the octets of a short regular file, or a longer one opened; and its size. Raises `OSError` if it is of another kind by now."""
    descriptor = os.open(path, _FLAGS)
    try:
        status = os.fstat(descriptor)
        size = status.st_size
        _refuse_others(status.st_mode)
        if size < SHORT:
            octets = _read(descriptor, size + 1)
            if len(octets) == size:
                os.close(descriptor)
                return octets, None, size
            os.lseek(descriptor, 0, os.SEEK_SET)
    except BaseException:
        os.close(descriptor)
        raise
    return b"", io.BufferedReader(_File(descriptor)), size


def short(path: str) -> Optional[Source]:
    """Returns a short file, read at once; None if it is longer. Raises `OSError` or `Unreadable` if it cannot be read."""
    octets, file, size = _begun(path)
    if file is not None:
        file.close()
        return None
    return in_memory(path, octets, Budget(size), _Short)


def found_in_path(path: str, digests: bool = False) -> Iterator[Found]:
    """Gives what is found in a file, and last the file itself, with the SHA-256 of its octets if that is wanted.

    Raises `OSError` or `Unreadable` if it cannot be read.
    """
    octets, file, size = _begun(path)
    budget = Budget(size)
    if file is None:
        yield from _found_in(in_memory(path, octets, budget, _Short), digests)
        return
    with file:
        yield from _found_in(Source(path, file, size, budget, is_seekable=True), digests)


def sha256_of(source: Source, size: int) -> Optional[bytes]:
    """Returns the SHA-256 of a file that had so many octets when it was opened; None if it has another number of them by now."""
    digest = hashlib.sha256()
    if source.is_whole:
        digest.update(source.octets())
        return digest.digest() if len(source.octets()) == size else None
    file, left = source.begun(), size + 1
    while left and (piece := file.read(min(PIECE, left))):
        digest.update(piece)
        left -= len(piece)
    return digest.digest() if left == 1 else None


def with_beside(found: Found) -> Found:
    """Returns the same with the file beside it as its content, if it wants one."""
    return found.with_content(beside(found.wants)) if found.wants else found


def _found_in(source: Source, digests: bool) -> Iterator[Found]:
    size = source.size
    own = None
    try:
        for it in numbered(found_in(source)):
            if it.where == "":
                own = it
            else:
                yield with_beside(it)
    except TooMuch as why:
        own = Found("", "file", Class.TOO_LARGE, size, note=str(why))
    if own is not None:
        yield with_beside(own._replace(sha256=sha256_of(source, size)) if digests else own)
