"""Makes all packages in a folder beside those that are there, and puts them in their place once all of them are made.

`packages`, the page and `SHA256SUMS` are put in place by three renames. If the machine stops between them, the sums do not fit, which the next
`sha256sum --check` says.
"""

import hashlib
import os
import secrets
import shutil
from pathlib import Path
from typing import Dict, List

from . import debian, java, python, rust, web
from .project import BINARIES, Refused, Release, releases_in
from .sbom import sbom
from .tools import versions

PACKAGES = "packages"
MODULE = "wasm32"  # the folder of the module below dist/
SUMS = "SHA256SUMS"


def binaries(releases: List[Release]) -> Dict[str, bytes]:
    """Returns the octets of the binaries and of their MANIFESTs, by their paths below dist/."""
    return {f"{it.folder.name}/{name}": it.octets_of(name) for it in releases for name in (*BINARIES, "MANIFEST")}


def below(folder: str, made: Dict[str, bytes]) -> Dict[str, bytes]:
    """Returns the same files by their paths from one folder higher."""
    return {f"{folder}/{name}": octets for name, octets in made.items()}


def packages_of(releases: List[Release], module: bytes, work: Path) -> Dict[str, bytes]:
    """Returns the octets of all packages but the bill of materials by their names, and of what is said of them."""
    release = releases[0]
    tools = versions(release.epoch)
    made = {"TOOLS": "".join(f"{name}: {version}\n" for name, version in tools.items()).encode()}
    classes = java.compiled(release, work)
    made.update(java.jars(releases, classes, work))
    made.update(debian.packages(releases, java.jar_of_classes(release, classes), work))
    made.update(python.wheels(releases))
    made.update(rust.crate(releases, work))
    made.update(web.npm(release, module))
    return made


def released_files(releases: List[Release], released: Path, work: Path) -> Dict[str, bytes]:
    """Returns the octets of all that is released but the sums, by their paths below dist/."""
    release = releases[0]
    module = web.module_in(released / MODULE, release)
    files = {**binaries(releases), **{f"{MODULE}/{name}": (released / MODULE / name).read_bytes() for name in (web.MODULE, "MANIFEST")}}
    files[web.PAGE] = web.page(release, module)
    files.update(below(PACKAGES, packages_of(releases, module, work)))
    files[f"{PACKAGES}/cms-canon-{release.version}.spdx.json"] = sbom(releases, files)
    return files


def sums_of(files: Dict[str, bytes]) -> bytes:
    """Returns the lines of `sha256sum` over files."""
    return "".join(f"{hashlib.sha256(octets).hexdigest()}  {name}\n" for name, octets in sorted(files.items())).encode()


def put_in_place(beside: Path, to: Path) -> None:
    """Puts the new packages, the page and the sums in the place of the old ones. If the first cannot be moved, the old ones stay."""
    old = beside / "old"
    if (to / PACKAGES).exists():
        os.rename(to / PACKAGES, old)
    try:
        os.rename(beside / PACKAGES, to / PACKAGES)
    except OSError:
        if old.exists():
            os.rename(old, to / PACKAGES)
        raise
    for name in (web.PAGE, SUMS):
        os.replace(beside / name, to / name)


def make(released: Path, to: Path) -> None:
    """Makes the packages and the page of the binaries below a folder, as dist/, with the sums of all, in the other folder.

    Raises Refused if they cannot be made; what was there before is then as it was.
    """
    os.umask(0o022)
    to = to.absolute()
    releases = releases_in(released)
    # It is named before it is made, so that whatever stops this then, it is removed.
    beside = to / f".new-{secrets.token_hex(4)}"
    try:
        try:
            to.mkdir(parents=True, exist_ok=True)
            beside.mkdir(mode=0o700)
        except OSError as error:
            raise Refused(f"{to} cannot be written to: {error.strerror}") from None
        (beside / "work").mkdir()
        files = released_files(releases, released, beside / "work")
        (beside / PACKAGES).mkdir()
        for name in files:
            if name == web.PAGE or name.startswith(f"{PACKAGES}/"):
                (beside / name).write_bytes(files[name])
        (beside / SUMS).write_bytes(sums_of(files))
        put_in_place(beside, to)
    except OSError as error:
        raise Refused(f"{error.filename or to} cannot be written: {error.strerror}") from None
    finally:
        shutil.rmtree(beside, ignore_errors=True)
