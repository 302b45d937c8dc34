"""The crate for Rust, by cargo, with the static library for each target and the licences in it.

The crate is packed again, since cargo packs as its version does, and names the commit if there is a git repository.
"""

import io
import shutil
import tarfile
from pathlib import Path
from typing import Dict, List

from .components import third_parties
from .files import File, tar_gz
from .project import LICENSE_FILES, TOP, Refused, Release
from .tools import run

CRATE = TOP / "bindings" / "rust"
OF_MACHINE = ".cargo_vcs_info.json"  # names a commit if the folder lies in a repository


def staged(releases: List[Release], work: Path) -> Path:
    """Copies the crate into a folder, with what it has from elsewhere in the repository."""
    folder = work / "crate"
    shutil.copytree(CRATE, folder, ignore=shutil.ignore_patterns("target", ".gitignore"))
    for release in releases:
        (folder / "lib" / release.folder.name).mkdir(parents=True)
        (folder / "lib" / release.folder.name / "libcms_canon.a").write_bytes(release.octets_of("libcms_canon.a"))
    (folder / "THIRD-PARTIES").write_bytes(third_parties())
    for name in LICENSE_FILES:
        shutil.copyfile(TOP / name, folder / name)
    return folder


def members(octets: bytes) -> List[File]:
    """Returns the files of a crate in the order of their names, with the same mode each."""
    with tarfile.open(fileobj=io.BytesIO(octets), mode="r:gz") as archive:
        entries = [it for it in archive.getmembers() if it.isfile() and Path(it.name).name != OF_MACHINE]
        return sorted(File(it.name, archive.extractfile(it).read()) for it in entries)


def crate(releases: List[Release], work: Path) -> Dict[str, bytes]:
    """Returns the octets of the crate by its name."""
    release, folder, target = releases[0], staged(releases, work), work / "target"
    run(["cargo", "package", "--quiet", "--offline", "--no-verify", "--allow-dirty", "--target-dir", target], release.epoch, folder)
    name = f"cms-canon-{release.version}.crate"
    made = target / "package" / name
    if not made.is_file():
        raise Refused(f"bindings/rust/Cargo.toml has another version than the release, {release.version}")
    return {name: tar_gz(members(made.read_bytes()), release.epoch)}
