"""What an index leaves out, and by which certificates it verifies signatures: workers read it from the store, in which each part has its settings."""

from __future__ import annotations

import base64
import json
import os
from fnmatch import fnmatchcase
from functools import lru_cache
from typing import Dict, Iterable, NamedTuple, Optional, Tuple

import sqlalchemy as sa

from .judging import BY_MESSAGE, NOT_VERIFIED, Verification, verification_by
from .tables import SETTINGS

MOST_EXCLUDED = 1000  # patterns
MOST_OCTETS = 16 << 20  # of certificates, which each worker has in memory


class Settings(NamedTuple):
    """How the files of an index are to be read, but for what each part says itself."""

    certificates: Tuple[bytes, ...] = ()
    """By which signatures are verified, in DER; if there are none, by those in the messages."""
    excluded: Tuple[str, ...] = ()
    """Patterns of a shell. One without a slash is for the names of files and folders, and any other for whole paths."""
    one_file_system: bool = False
    """Whether folders that lie on another file system than the folder above are left out."""

    def verification(self, verifies: bool) -> Verification:
        """Returns how signatures are verified, if they are."""
        if not verifies:
            return NOT_VERIFIED
        return _verification_by(self.certificates) if self.certificates else BY_MESSAGE

    def leaves_out(self, path: str) -> bool:
        """Whether a file or a folder of this path is left out for its own name or path."""
        name = os.path.basename(path)
        return any(fnmatchcase(path if "/" in it else name, it) for it in self.excluded)

    def leaves_out_below(self, path: str, top: str) -> bool:
        """Whether what lies below a folder, which was named and so is never left out, is left out for what it lies in, or for itself."""
        if not self.excluded and not self.one_file_system:
            return False
        above, path = top.rstrip("/"), path.rstrip("/")
        for name in filter(None, path[len(above) :].split("/")):
            inner = f"{above}/{name}"
            if self.leaves_out(inner) or self.is_on_another(above or "/", inner):
                return True
            above = inner
        return False

    def is_on_another(self, above: str, path: str) -> bool:
        """Whether a folder is to be left out since it lies on another file system than the one above it. What is gone is not."""
        if not self.one_file_system:
            return False
        try:
            return os.lstat(path).st_dev != os.lstat(above).st_dev
        except OSError:
            return False


NO_SETTINGS = Settings()
_verification_by = lru_cache(maxsize=4)(verification_by)


# ---- in a store


def put(connection: sa.engine.Connection, settings: Settings) -> Optional[int]:
    """Stores settings if they are not there, and returns their number; None if there is nothing to say."""
    if settings == NO_SETTINGS:
        return None
    certificates = json.dumps([base64.b64encode(it).decode("ascii") for it in settings.certificates])
    values = {"certificates": certificates, "excluded": json.dumps(settings.excluded), "one_file_system": settings.one_file_system}
    found = connection.execute(sa.select(SETTINGS.c.id).where(*(SETTINGS.c[name] == value for name, value in values.items()))).scalar()
    return int(found if found is not None else connection.execute(sa.insert(SETTINGS).values(**values)).inserted_primary_key[0])


def verification_in(connection: sa.engine.Connection, digest: str) -> Optional[Verification]:
    """Returns how signatures were verified by certificates with this digest, in hexadecimal digits; None if no settings have these."""
    for number in connection.execute(sa.select(SETTINGS.c.id).order_by(SETTINGS.c.id)).scalars().all():
        how = stored(connection, [number])[number].verification(verifies=True)
        if how.digest == bytes.fromhex(digest):
            return how
    return None


def stored(connection: sa.engine.Connection, numbers: Iterable[Optional[int]]) -> Dict[Optional[int], Settings]:
    """Returns the settings with these numbers."""
    wanted = {it for it in numbers if it is not None}
    found: Dict[Optional[int], Settings] = {None: NO_SETTINGS}
    if wanted:
        for row in connection.execute(sa.select(SETTINGS).where(SETTINGS.c.id.in_(wanted))):
            certificates = tuple(base64.b64decode(it) for it in json.loads(row.certificates))
            found[int(row.id)] = Settings(certificates, tuple(json.loads(row.excluded)), bool(row.one_file_system))
    return found
