"""What detached signatures cover that does not lie beside them: it is found by its digest among the files of a folder."""

from __future__ import annotations

import hashlib
import os
from contextlib import suppress
from dataclasses import replace
from typing import Dict, Iterable, Iterator, List, Optional, Sequence, Set, Tuple

from .containers.armour import wanted_by as document_of
from .containers.files import beside, opened
from .containers.found import Content, Found, State
from .containers.sources import PIECE, Ended
from .judging import Facts, Verification, hash_named
from .reading import judged_or_not
from .texts import path_text_of
from .walking import entries_of

Digest = Tuple[str, bytes]  # an algorithm as hashlib names it, and a digest by it


def wanted_by(facts: Facts) -> Set[Digest]:
    """Returns the digests of what a message covers, if that was not found."""
    if facts.state is not State.NOT_FOUND:
        return set()
    said = [(it.digest, it.message_digest) for it in facts.signed_by if "." not in it.number] if facts.kind == "signature" else []
    said += [(it.digest or "", it.imprint) for it in facts.times if it.number == ""]
    return set(filter(None, (digest_said(*it) for it in said)))


def digest_said(name: str, digits: Optional[str]) -> Optional[Digest]:
    """Returns a digest by an algorithm of this name, in hexadecimal digits; None if it is none, or the algorithm is not known."""
    algorithm = hash_named(name)
    if algorithm is None or digits is None:
        return None
    try:
        return algorithm, bytes.fromhex(digits)
    except ValueError:  # of a digest that was too long for a store
        return None


def search(paths: Iterable[str], wanted: Set[Digest]) -> Dict[Digest, str]:
    """Returns the first of these files that has each digest, if there is one. What cannot be read is passed over: it stays unknown what it is."""
    found: Dict[Digest, str] = {}
    algorithms = sorted({algorithm for algorithm, _ in wanted})
    for path in paths if algorithms else ():
        with suppress(OSError, Ended):
            for it in _digests_of(path, algorithms):
                if it in wanted:
                    found.setdefault(it, path)
    return found


def _digests_of(path: str, algorithms: Sequence[str]) -> List[Digest]:
    digests = [hashlib.new(it) for it in algorithms]
    with opened(path) as file:
        while piece := file.read(PIECE):
            for it in digests:
                it.update(piece)
    return [(algorithm, it.digest()) for algorithm, it in zip(algorithms, digests)]


def files_in(folder: str) -> Iterator[str]:
    """Gives the paths of the files in a folder and below it."""
    return (it.path for it in entries_of([os.path.abspath(folder)]))


def of_same_name(path: str) -> List[str]:
    """Returns the files beside one whose names are the same but for the ending, as c1.txt is beside c1.p7s."""
    folder, name = os.path.split(os.path.abspath(path))
    stem = document_of(name)
    if stem is None:
        return []
    with suppress(OSError), os.scandir(folder) as found:
        return sorted(it.path for it in found if os.path.splitext(it.name)[0] == stem and it.name != name and it.is_file(follow_symlinks=False))
    return []


def with_content(found: Found, path: str, how: Verification) -> Optional[Tuple[Found, Facts]]:
    """Returns a message with this file as its content, and what is known of it then; None if it does not fit it, as one that has changed since."""
    content = beside(path)
    if content is None:
        return None
    placed = found.with_content(_named(content, path))
    facts = judged_or_not(placed, how)
    return None if facts.state in (State.DIFFERS, State.UNREADABLE) else (placed, facts)


def _named(content: Content, path: str) -> Content:
    return replace(content, where=path_text_of(path), note="; ".join(filter(None, (content.note, "its content was found by the digest"))))
