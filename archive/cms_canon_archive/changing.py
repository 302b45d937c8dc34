"""What conversion changes in the messages of an archive: each file is read again, since an index does not say it."""

from __future__ import annotations

import hashlib
from itertools import groupby
from operator import itemgetter
from typing import Dict, Iterable, Iterator, Optional

import cms_canon

from .containers.found import Class
from .folders import path_named_by
from .reading import Row, found_in_entry
from .texts import text_of
from .walking import entry_of


def with_changes(rows: Iterable[Row]) -> Iterator[Row]:
    """Gives rows of messages, each with how many changes conversion makes in it: None if the file is not as it was when it was indexed."""
    for path, some in groupby(rows, key=itemgetter("path")):
        members = {row["member"]: row for row in some}
        counts = _counts_in(str(path), {member: row["digest"] for member, row in members.items()})
        yield from ({**row, "changes": counts.get(member)} for member, row in members.items())


def _counts_in(path: str, digests: Dict[str, str]) -> Dict[str, Optional[int]]:
    """Returns how many changes there are in the messages of a file whose DER have these SHA-256, by their places."""
    named = path_named_by(path)
    if named is None:
        return {}
    messages = ((text_of(it.where), it.octets or b"") for it in found_in_entry(entry_of(named)) if it.what is Class.MESSAGE)
    return {member: _count(octets, digests[member]) for member, octets in messages if member in digests}


def _count(octets: bytes, digest: str) -> Optional[int]:
    try:
        is_same = hashlib.sha256(cms_canon.convert(octets)).hexdigest() == digest
        return len(cms_canon.changes(octets)) if is_same else None
    except (cms_canon.Refused, MemoryError):
        return None
