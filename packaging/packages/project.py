"""What is packaged: the repository, the released binaries, their version and its date."""

import hashlib
import json
import re
from dataclasses import dataclass
from datetime import datetime, timezone
from pathlib import Path
from typing import Dict, List

from .targets import TARGETS, Target

TOP = Path(__file__).resolve().parent.parent.parent
TEMPLATES = TOP / "packaging"
PROJECT = json.loads((TEMPLATES / "project.json").read_text(encoding="utf-8"))
LICENSE = "MIT OR Apache-2.0"
LICENSE_FILES = ("LICENSE-APACHE", "LICENSE-MIT")
BINARIES = ("cms-canon", "cms_canon.h", "libcms_canon.a", "libcms_canon.so")
NONE_SET = ".invalid"  # the end of the name of a host that stands for none (RFC 2606)

_HEADING = re.compile(r"^## (\d\S*) - (\d{4}-\d{2}-\d{2})$", re.M)
_GLIBC = re.compile(rb"\bGLIBC_(2(?:\.\d+)+)\0")


class Refused(Exception):
    """No packages are made. The text is one line that says why."""


class MissingTool(Refused):
    """A tool or a file of the system is missing that packages are made with."""


def homepage() -> str:
    """Returns the home page of the project, or nothing while project.json has none but a placeholder."""
    url = PROJECT["homepage"]
    return "" if url.rstrip("/").endswith(NONE_SET) else url


def dates_of_versions() -> Dict[str, str]:
    """Returns the date of each version, as 2026-11-27, by the headings of CHANGELOG.md."""
    return dict(_HEADING.findall((TOP / "CHANGELOG.md").read_text(encoding="utf-8")))


@dataclass(frozen=True)
class Release:
    """The binaries in a folder, which have the digests that its MANIFEST names."""

    target: Target
    folder: Path
    values: Dict[str, str]
    """The lines `NAME: VALUE` of the MANIFEST."""
    date: str
    """Of the version, as 2026-11-27."""

    @property
    def version(self) -> str:
        return self.values["version"]

    @property
    def epoch(self) -> int:
        """The seconds from 1970-01-01 to the beginning of the version's date, in UTC: the time of each file in a package."""
        return int(datetime.fromisoformat(self.date).replace(tzinfo=timezone.utc).timestamp())

    def octets_of(self, name: str) -> bytes:
        """Returns the octets of one of BINARIES."""
        return (self.folder / name).read_bytes()

    def glibc_of(self, name: str) -> str:
        """Returns the newest version of glibc whose symbols the binary asks for, as 2.14."""
        versions = {it.decode() for it in _GLIBC.findall(self.octets_of(name))}
        return max(versions, key=lambda it: [*map(int, it.split("."))])


def releases_in(folder: Path) -> List[Release]:
    """Returns the release for each target in its folder. Raises Refused if they are not of the same sources."""
    releases = [release_in(folder / name) for name in TARGETS]
    for name in ("version", "kit", "crates", "sources"):
        if len({it.values.get(name) for it in releases}) > 1:
            raise Refused(f"the MANIFESTs below {folder} differ in the line `{name}:`")
    return releases


def release_in(folder: Path) -> Release:
    """Returns the release in a folder that is named as its target. Raises Refused if a file is missing or altered, or if CHANGELOG.md has no date
    of its version."""
    try:
        lines = (folder / "MANIFEST").read_text(encoding="ascii").splitlines()
        digests = {name: hashlib.sha256((folder / name).read_bytes()).hexdigest() for name in BINARIES}
    except OSError as error:
        raise Refused(f"{error.filename} cannot be read: {error.strerror}") from None
    except UnicodeDecodeError:
        raise Refused(f"{folder / 'MANIFEST'} is no text in ASCII") from None
    for name, digest in digests.items():
        if f"{digest}  {name}" not in lines:
            raise Refused(f"the SHA-256 sum of {folder / name} is not the one in its MANIFEST")
    values = dict(line.split(": ", 1) for line in lines if ": " in line)
    for name in ("version", "kit", "crates"):
        if not values.get(name):
            raise Refused(f"{folder / 'MANIFEST'} has no line `{name}:`")
    date = dates_of_versions().get(values["version"])
    if date is None:
        raise Refused(f"CHANGELOG.md has no heading `## {values['version']} - YEAR-MONTH-DAY`, from which the files have their date")
    return Release(TARGETS[folder.name], folder, values, date)
