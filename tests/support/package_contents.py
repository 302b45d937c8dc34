"""What is in packages: the members of packages for Debian, of zips, of crates, and of what is packed in these."""

import gzip
import io
import re
import subprocess
import tarfile
import tempfile
import zipfile
from pathlib import Path
from typing import Dict, Iterable, NamedTuple, Sequence, Tuple

OF_TOOL = {  # what depends on a tool's version in addition to what the tool packs, by the names of tools and of members
    "javac": r"\.class$",
    "javadoc": r"-javadoc\.jar!",
    "cargo": r"/Cargo\.(?:toml|lock)$",
}
DERIVED = r"!DEBIAN/(?:md5sums|control)$|^cms-canon-[\w.]+\.spdx\.json$|^TOOLS$"  # from the octets of other files, or of the tools


class Member(NamedTuple):
    """A file, a folder or a link in a package."""

    kind: str
    """`file`, `folder` or `link`."""
    mode: int
    owner: str
    """Its owner, its group and its time, if the package has them."""
    octets: bytes
    """Those of a file, without compression; the target of a link."""


Members = Iterable[Tuple[str, Member]]


def members(name: str, octets: bytes) -> Members:
    """Yields each member with its path, in which a `!` follows the path of each package that it lies in."""
    if name.endswith(".deb"):
        with tempfile.NamedTemporaryFile(suffix=".deb") as file:
            file.write(octets)
            file.flush()
            for part, below in (("--ctrl-tarfile", "DEBIAN/"), ("--fsys-tarfile", "")):
                unpacked = subprocess.run(["dpkg-deb", part, file.name], capture_output=True, check=True).stdout
                yield from _members_of_tar(f"{name}!{below}", unpacked)
    elif name.endswith((".jar", ".whl")):
        with zipfile.ZipFile(io.BytesIO(octets)) as archive:
            for it in archive.infolist():
                mode = it.external_attr >> 16 & 0o7777
                yield from _unpacked(f"{name}!{it.filename}", Member("file", mode, str(it.date_time), archive.read(it)))
    elif name.endswith(".crate"):
        yield from _members_of_tar(f"{name}!", gzip.decompress(octets))
    else:
        yield name, Member("file", 0o644, "", octets)


def _unpacked(path: str, member: Member) -> Members:
    if path.endswith(".gz"):
        member = member._replace(octets=gzip.decompress(member.octets))
    if path.endswith(".jar"):
        yield from members(path, member.octets)
        member = member._replace(octets=b"")
    yield path, member


def _members_of_tar(prefix: str, octets: bytes) -> Members:
    with tarfile.open(fileobj=io.BytesIO(octets)) as archive:
        for it in archive.getmembers():
            path = prefix + (it.name[2:] if it.name.startswith("./") else it.name)
            owner = f"{it.uid}:{it.gid} {it.uname}:{it.gname} {it.mtime}"
            if it.isfile():
                yield from _unpacked(path, Member("file", it.mode, owner, archive.extractfile(it).read()))
            else:
                yield path, Member("folder" if it.isdir() else "link", it.mode, owner, it.linkname.encode())


def contents(packages: Dict[str, bytes]) -> Dict[str, Member]:
    return {path: member for name, octets in sorted(packages.items()) for path, member in members(name, octets)}


def inside(found: Dict[str, Member], name: str) -> Dict[str, Member]:
    return {path[len(name) + 1 :]: member for path, member in found.items() if path.startswith(f"{name}!")}


def in_folder(folder: Path) -> Dict[str, bytes]:
    return {it.name: it.read_bytes() for it in sorted(folder.iterdir())}


def tools_of(packages: Dict[str, bytes]) -> Dict[str, str]:
    return dict(line.split(": ", 1) for line in packages.get("TOOLS", b"").decode().splitlines())


def difference(kept: Dict[str, bytes], made: Dict[str, bytes], tools: Sequence[str] = ()) -> str:
    """Returns the first difference between what is in packages, or nothing. Of files that depend on one of these tools, and of those that
    are derived from other files, the octets are not compared."""
    known, came = contents(kept), contents(made)
    if {*known} != {*came}:
        return f"{min({*known} ^ {*came})} is in one of them alone"
    left_out = re.compile("|".join([DERIVED, *(OF_TOOL[it] for it in tools if it in OF_TOOL)]))
    for path in sorted(known):
        one, other = known[path], came[path]
        if left_out.search(path):
            one, other = one._replace(octets=b""), other._replace(octets=b"")
        if one != other:
            return f"{path} differs"
    return ""
