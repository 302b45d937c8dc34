"""The messages in one file, judged now and without a store: as a person asks who has a file, and perhaps the document that it signs."""

from __future__ import annotations

import os
import shutil
import sys
import tempfile
from contextlib import contextmanager, suppress
from dataclasses import replace
from pathlib import Path
from typing import Callable, Dict, Iterable, Iterator, List, NamedTuple, Optional, Sequence, Set

from cms_canon._certificates import certificate_in

from . import elsewhere
from .containers.armour import blocks_of
from .containers.files import beside
from .containers.found import Class, Found, Octets, State
from .faults import Complaint
from .judging import BY_MESSAGE, NOT_VERIFIED, Facts, Verification, verification_by
from .outcomes import Outcome, outcome_of
from .reading import found_in_entry, judged_or_not, wanted_beside
from .walking import entry_of

STANDARD_INPUT = "-"
MOST_OF_CERTIFICATES = 16 << 20  # octets of a file of certificates
_OF_NO_MESSAGE = (Class.CONTAINER, Class.EMPTY, Class.TEXT, Class.NO_CANDIDATE)

Progress = Callable[[int], object]  # takes how many octets were read since the last call


class Judged(NamedTuple):
    """What is at one place in a file, and what is known of it."""

    found: Found
    facts: Facts

    @property
    def outcome(self) -> Outcome:
        """What came of it."""
        return outcome_of(self.facts)


@contextmanager
def on_disk(path: str) -> Iterator[str]:
    """Lends the path of a file; of the standard input that of a copy, since a file is read from several places."""
    if path != STANDARD_INPUT:
        yield path
        return
    with tempfile.NamedTemporaryFile(prefix="cms-canon-archive-") as copy:
        try:
            shutil.copyfileobj(sys.stdin.buffer, copy)
            copy.flush()
        except OSError as why:
            raise Complaint(f"the standard input cannot be copied to {os.path.dirname(copy.name)}: {why.strerror}") from None
        yield copy.name


class _Watched:
    """Octets whose number is reported as they are read."""

    def __init__(self, pieces: Iterable[Octets], progress: Progress) -> None:
        self._pieces = pieces
        self._progress = progress

    def __iter__(self) -> Iterator[Octets]:
        for piece in self._pieces:
            yield piece
            self._progress(len(piece))


def _with_document(found: Found, document: str, progress: Progress) -> Found:
    """Returns a message with a file as what it signs. Raises `Complaint` if that is not there."""
    content = beside(os.path.realpath(document))
    if content is None:
        raise Complaint(f"{document}: it is not there any more")
    return found.with_content(replace(content, where=os.path.basename(document), pieces=_Watched(content.pieces, progress)))


def messages_in(path: str, document: Optional[str], progress: Progress, digests: bool = False) -> Iterator[Found]:
    """Gives the messages in a file with what they sign, and what cannot be read or is damaged, and the file itself with its SHA-256 if that is wanted.

    A document is for the one message that the file is. Raises `Complaint` if it is a file with messages in it.
    """
    own = _beside_link(path) if document is None else document
    for found in found_in_entry(entry_of(os.path.realpath(path)), digests):
        if document is not None and found.where:
            raise Complaint("a document is compared with the one message that a file is, and this file has messages in it")
        if found.what not in _OF_NO_MESSAGE or found.note:
            yield found if own is None or found.where or found.what is not Class.MESSAGE else _with_document(found, own, progress)


def _beside_link(path: str) -> Optional[str]:
    """Returns the file beside a symbolic link that its own name says it signs, since nobody who names the link means what lies beside the other file."""
    own = wanted_beside(os.path.abspath(path)) if os.path.islink(path) else ""
    return own if own and os.path.exists(own) else None


def verification(verifies: bool, paths: Sequence[str]) -> Verification:
    """Returns how signatures are verified, by the certificates in files and in the files of folders. Raises `Complaint` if a path has none."""
    if paths:
        return verification_by([it for path in paths for it in certificates_in(path)])
    return BY_MESSAGE if verifies else NOT_VERIFIED


def certificates_in(path: str) -> List[bytes]:
    """Returns the certificates in a file, or in the files of a folder, in DER. Raises `Complaint` if there is none."""
    files = sorted(Path(path).iterdir()) if os.path.isdir(path) else [Path(path)]
    found = [it for file in files if file.is_file() for it in _certificates_of(_read(file))]
    if not found:
        raise Complaint(f"{path}: there is no certificate")
    return found


def _read(file: Path) -> bytes:
    with file.open("rb") as opened:
        octets = opened.read(MOST_OF_CERTIFICATES + 1)
    if len(octets) > MOST_OF_CERTIFICATES:
        raise Complaint(f"{file}: it has more than {MOST_OF_CERTIFICATES:,} octets")
    return octets


def _certificates_of(octets: bytes) -> Iterator[bytes]:
    """Gives the certificates in PEM, or the one that these octets are."""
    for it in blocks_of(octets, b"CERTIFICATE") or [octets]:
        with suppress(ValueError):
            certificate_in(it)
            yield it


def judged_in(
    path: str, document: Optional[str], how: Verification, progress: Progress, digests: bool = False, folders: Sequence[str] = ()
) -> Iterator[Judged]:
    """Judges the messages in a file. Last come those whose content was not found in it or beside it, but by the digest elsewhere: among the files beside
    it with the same name but for the ending, and in these folders."""
    wanted: Dict[str, Set[elsewhere.Digest]] = {}
    for found in messages_in(path, document, progress, digests):
        judged = Judged(found, judged_or_not(found, how))
        if document is None and (some := elsewhere.wanted_by(judged.facts)):
            wanted[found.where] = some
        else:
            yield judged
    if wanted:
        yield from _found_elsewhere(path, wanted, how, progress, digests, folders)


def _found_elsewhere(
    path: str, wanted: Dict[str, Set[elsewhere.Digest]], how: Verification, progress: Progress, digests: bool, folders: Sequence[str]
) -> Iterator[Judged]:
    every = set().union(*wanted.values())
    contents = elsewhere.search((*elsewhere.of_same_name(path), *(file for folder in folders for file in elsewhere.files_in(folder))), every)
    for found in messages_in(path, None, progress, digests):
        for content in (contents[it] for it in sorted(wanted.get(found.where, ())) if it in contents):
            if (judged := elsewhere.with_content(found, content, how)) is not None:
                yield Judged(*judged)
                break
        else:
            if found.where in wanted:
                yield Judged(found, judged_or_not(found, how))


def lines_of(judged: Judged, how: Verification) -> Iterator[str]:
    """Gives what is said of a message to a person: first whether it fits."""
    facts = judged.facts
    if facts.what is not Class.MESSAGE:
        yield f"refused E{facts.reason} {facts.name} at {facts.at}" if facts.reason is not None else facts.what.value
    else:
        where = f": {facts.content}" if facts.content else ""
        yield f"{facts.state.value if facts.state else 'not known'}{where}"
    if facts.verdict:
        yield f"signatures: {how.said(facts.verdict)}"
    yield from filter(None, facts.findings.split("; "))
    yield from (f"time-stamp {it.number}: {it.state.value}" for it in facts.times if it.number)
    yield from filter(None, [facts.note])
