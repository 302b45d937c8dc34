"""The messages of an index, judged again with contents that lie elsewhere."""

from __future__ import annotations

import os
from typing import Dict, Iterator, Optional, Sequence, Tuple

import sqlalchemy as sa

from .containers.found import Class, State
from .elsewhere import Digest, digest_said, files_in, search, with_content
from .filters import Filters
from .folders import path_named_by
from .judging import BY_MESSAGE, NOT_VERIFIED, Verification
from .outcomes import Outcome, outcome_of
from .queries import checked
from .reading import Row, found_in_entry, read_of, row_in_file
from .settings import verification_in
from .store import FILES, Store
from .tables import PLACE_SIGNERS, PLACE_TIMES, of_same_place
from .texts import path_text_of
from .walking import entry_of

Place = Tuple[str, str]  # the text of a path, and the place in that file
SHA256 = "sha256"


def checked_in(store: Store, folders: Sequence[str], all_of_them: bool, filters: Filters) -> Iterator[Row]:
    """Gives what `checked` does, but judges the messages again whose content is in these folders: those that fit then are left out, unless all are asked for.

    The SHA-256 of files in the index are those that it has; for other algorithms, and of folders that are not in it, files are read.
    """
    places = _found_for(store, folders) if folders else {}
    for row in checked(store, all_of_them, filters):
        content = places.get((row["path"], row["member"]))
        again = None if content is None else _judged_again(store, row, content)
        if again is None:
            yield row
        elif again["outcome"] != Outcome.FITS or ((filters.state is None or again["state"] == filters.state) and (all_of_them or again["findings"])):
            yield again  # even in another state than is asked for, or what is wrong with it would be lost


def _judged_again(store: Store, row: Row, content: str) -> Optional[Row]:
    """Returns a row with what is known of the message with this content, verified as it was before; None if that cannot be found out."""
    path, how = path_named_by(row["path"]), _how_verified(store, row)
    if path is None or how is None:
        return None
    for found in found_in_entry(entry_of(path)):
        if found.where == row["member"] and found.what is Class.MESSAGE:
            judged = with_content(found, content, how)
            if judged is not None and judged[1].digest is not None and judged[1].digest.hex() == row["digest"]:
                return {**row, **row_in_file(read_of(entry_of(path), *judged, how)), "outcome": int(outcome_of(judged[1]))}
    return None


def _how_verified(store: Store, row: Row) -> Optional[Verification]:
    if not row["is_verified"]:
        return NOT_VERIFIED
    if row["verified_by"] is None:
        return BY_MESSAGE
    with store.engine.connect() as connection:
        return verification_in(connection, str(row["verified_by"]))


def _found_for(store: Store, folders: Sequence[str]) -> Dict[Place, str]:
    """Returns the files in folders that the messages of an index cover whose content was not found."""
    wanted = {digest for _, digest in _wanted_in(store)}
    known = {it: row["path"] for folder in folders for row in _known_in(store, folder) if (it := (SHA256, bytes.fromhex(row["sha256"]))) in wanted}
    found = {it: path for it, text in known.items() if (path := path_named_by(text)) is not None}
    for folder in folders:
        has_digests = next(_known_in(store, folder), None) is not None
        found.update(search(files_in(folder), {it for it in wanted - set(found) if it[0] != SHA256 or not has_digests}))
    places: Dict[Place, str] = {}
    for place, digest in _wanted_in(store):
        if digest in found:
            places.setdefault(place, found[digest])
    return places


def _known_in(store: Store, folder: str) -> Iterator[Row]:
    inside = path_text_of(os.path.abspath(folder)).rstrip("/") + "/"
    is_inside = (FILES.c.path >= inside) & (FILES.c.path < inside[:-1] + "0")
    return store.asked(sa.select(FILES.c.path, FILES.c.sha256).where(FILES.c.member == "", FILES.c.sha256.is_not(None), is_inside))


def _wanted_in(store: Store) -> Iterator[Tuple[Place, Digest]]:
    """Gives each message whose content was not found, with the digests that it says."""
    for table, name in ((PLACE_SIGNERS, "message_digest"), (PLACE_TIMES, "imprint")):
        is_own = of_same_place(table, FILES) & (FILES.c.state == State.NOT_FOUND.value)
        is_own = is_own & ((FILES.c.kind == "signature") if table is PLACE_SIGNERS else (table.c.number == ""))
        for row in store.asked(sa.select(FILES.c.path, FILES.c.member, table.c.digest, table.c[name]).select_from(FILES.join(table, is_own))):
            digest = digest_said(row["digest"] or "", row[name])
            if digest is not None:
                yield (row["path"], row["member"]), digest
