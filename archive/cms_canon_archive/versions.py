"""Which release works on a store: another one could store something else of the same files.

A release is identified by the SHA-256 of its modules, those of `cms_canon` and of `cms_canon_archive`, and of its library beside its number,
since workers may run copies of one number with other code.
"""

from __future__ import annotations

import hashlib
from functools import lru_cache
from pathlib import Path
from typing import Dict, Mapping, NamedTuple

import cms_canon

from .faults import Complaint
from .reading import READER
from .tables import SCHEMA

_DIGITS = 12  # of a SHA-256: enough to distinguish releases, and no proof
ABOUT_NAMES = {"package": "package", "library": "shared library", "schema": "reader"}


class Version(NamedTuple):
    """What has to be the same for all workers of a store."""

    package: str
    """The release, and the first digits of the SHA-256 of its modules."""
    library: str
    """Those of the shared library."""
    schema: str
    """The versions of the tables and of the rows."""

    def __str__(self) -> str:
        return f"{self.package}, library {self.library}, tables {self.schema}"

    def noted(self) -> Dict[str, str]:
        """Returns what a store says of the version that works on it."""
        return {ABOUT_NAMES[name]: value for name, value in self._asdict().items()}


def version_noted(about: Mapping[str, str]) -> Version:
    """Returns the version that a store says; empty if it says none."""
    return Version(*(about.get(ABOUT_NAMES[name], "") for name in Version._fields))


class OtherVersion(Complaint):
    """A worker is of another version than the store is worked on by."""

    def __init__(self, own: Version, wanted: Version) -> None:
        other = f"the store is worked on by {wanted}" if any(wanted) else "no index has been begun in this store by any release that has workers"
        super().__init__(f"this worker is cms-canon {own}, and {other}: install the same release on all machines")


@lru_cache(maxsize=1)
def own_version() -> Version:
    """Returns the version of this process: of the modules of both packages, and of the library."""
    binding, archive = Path(cms_canon.__file__).parent, Path(__file__).parent
    modules = hashlib.sha256()
    for package in (binding, archive):
        for path in sorted(package.rglob("*.py")):
            octets = path.read_bytes()
            modules.update(f"{path.relative_to(package.parent)} {len(octets)}\n".encode() + octets)
    library = hashlib.sha256((binding / "libcms_canon.so").read_bytes())
    return Version(f"{cms_canon.__version__} ({modules.hexdigest()[:_DIGITS]})", library.hexdigest()[:_DIGITS], f"{SCHEMA}.{READER}")
