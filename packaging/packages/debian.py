"""The packages for Debian, by dpkg-deb. What each is and depends on is in packaging/debian/NAME.control.

They are not made by debhelper, since what is packed was proved and built elsewhere. Those for amd64 depend on `sse4.2-support`, which refuses
processors older than x86-64-v2. `python3-cms-canon` has a link to the library of `libcms-canon1`, and no copy, so that one library in a
system is updated once. What `cms-canon-archive` imports at its start is in its Depends.
"""

import hashlib
import re
from dataclasses import dataclass
from datetime import datetime, timedelta
from functools import partial
from pathlib import Path
from typing import Callable, Dict, Iterable, List, Union

from .components import notices_of_crates
from .files import File, Link, gzipped, put_below
from .project import PROJECT, TEMPLATES, TOP, Refused, Release, dates_of_versions, homepage
from .python import ARCHIVE, BINDING, about, manual, modules
from .tools import run

REVISION = "1"  # of what is packaged, for the same version
PYTHON = "usr/lib/python3/dist-packages"
SONAME = "libcms_canon.so.1"
EXAMPLES_IN_C = ("examples/check.c", "examples/example.c", "examples/fields.c", "examples/recipes/verify_with_openssl.c", "examples/message.ber")
README_AND_DOCS = {  # of each package: the folder of the repository, and its documents
    "cms-canon": ("", ["README.md", "docs/*.md"]),
    "cms-canon-archive": ("archive", ["README.md", "docs/*.md"]),
    "libcms-canon-dev": ("examples", ["README.md"]),
    "python3-cms-canon": ("bindings/python", ["README.md"]),
}
CONTROL_FILES = ("postinst", "prerm", "shlibs", "symbols", "triggers")
COMMAND = """\
#!/usr/bin/python3
from cms_canon_archive.__main__ import main

main()
"""
Entry = Union[File, Link]


@dataclass(frozen=True)
class Package:
    """A package, and what gives its files but for its documents."""

    name: str
    entries: Callable[[Release], Iterable[Entry]]
    is_for_all: bool = False
    """Whether it has no code of a processor, and is for each of them."""


def completions(name: str) -> Iterable[File]:
    """Yields the completions of a command for bash, zsh and fish."""
    folder = TEMPLATES / "completions"
    yield File(f"usr/share/bash-completion/completions/{name}", (folder / f"{name}.bash").read_bytes())
    yield File(f"usr/share/zsh/vendor-completions/_{name}", (folder / f"_{name}").read_bytes())
    yield File(f"usr/share/fish/vendor_completions.d/{name}.fish", (folder / f"{name}.fish").read_bytes())


def command(release: Release) -> Iterable[Entry]:
    """Yields the command, its manual page and its completions."""
    yield File("usr/bin/cms-canon", release.octets_of("cms-canon"), 0o755)
    yield File("usr/share/man/man1/cms-canon.1.gz", gzipped(manual(release, "docs/man/cms-canon.1")))
    yield from completions("cms-canon")


def libraries(release: Release) -> str:
    """Returns the folder of libraries."""
    return f"usr/lib/{release.target.libraries}"


def library(release: Release) -> Iterable[Entry]:
    """Yields the shared library."""
    yield File(f"{libraries(release)}/{SONAME}", release.octets_of("libcms_canon.so"))


def development(release: Release) -> Iterable[Entry]:
    """Yields what a program in C is compiled and linked with, the manual pages of the calls, and examples."""
    yield File("usr/include/cms_canon.h", release.octets_of("cms_canon.h"))
    yield File(f"{libraries(release)}/libcms_canon.a", release.octets_of("libcms_canon.a"))
    yield Link(f"{libraries(release)}/libcms_canon.so", SONAME)
    yield File(f"{libraries(release)}/pkgconfig/cms_canon.pc", pkg_config(release))
    of_cmake = f"{libraries(release)}/cmake/cms_canon"
    yield File(f"{of_cmake}/cms_canon-config.cmake", (TOP / "bindings" / "c" / "cms_canon-config.cmake").read_bytes())
    yield File(f"{of_cmake}/cms_canon-config-version.cmake", manual(release, "bindings/c/cms_canon-config-version.cmake.in"))
    for page in sorted((TOP / "docs" / "man").glob("*.3")):
        yield File(f"usr/share/man/man3/{page.name}.gz", gzipped(manual(release, f"docs/man/{page.name}")))
    for program in EXAMPLES_IN_C:
        yield File(f"usr/share/doc/libcms-canon-dev/examples/{Path(program).name}", (TOP / program).read_bytes())


def pkg_config(release: Release) -> bytes:
    """Returns the file for pkg-config, with the folder that Debian has for the libraries of this architecture."""
    text = (TOP / "bindings" / "c" / "cms_canon.pc.in").read_text(encoding="ascii")
    filled_in = text.replace("@PREFIX@", "/usr").replace("@VERSION@", release.version)
    placed = filled_in.replace("libdir=${prefix}/lib\n", f"libdir=${{prefix}}/lib/{release.target.libraries}\n")
    if placed == filled_in:
        raise Refused("bindings/c/cms_canon.pc.in has no line `libdir=${prefix}/lib`")
    return placed.encode()


def python(release: Release) -> Iterable[Entry]:
    """Yields the package for Python, over the library of libcms-canon1."""
    for file in [*modules(BINDING, release), *about(BINDING, release)]:
        yield file._replace(name=f"{PYTHON}/{file.name}")
    yield Link(f"{PYTHON}/cms_canon/libcms_canon.so", f"../../../{release.target.libraries}/{SONAME}")


def archive(release: Release) -> Iterable[Entry]:
    """Yields the command cms-canon-archive, its modules, its manual page and its completions."""
    yield File("usr/bin/cms-canon-archive", COMMAND.encode(), 0o755)
    yield File("usr/share/man/man1/cms-canon-archive.1.gz", gzipped(manual(release, ARCHIVE.manual)))
    yield from completions("cms-canon-archive")
    for file in [*modules(ARCHIVE, release), *about(ARCHIVE, release)]:
        yield file._replace(name=f"{PYTHON}/{file.name}")


def java(jar: bytes, release: Release) -> Iterable[Entry]:
    """Yields the jar without the library, which JNA finds in that of libcms-canon1."""
    yield File(f"usr/share/java/cms-canon-{release.version}.jar", jar)
    yield Link("usr/share/java/cms-canon.jar", f"cms-canon-{release.version}.jar")


def all_packages(jar: bytes) -> List[Package]:
    """Returns the packages; that for Java has this jar."""
    return [
        Package("cms-canon", command),
        Package("libcms-canon1", library),
        Package("libcms-canon-dev", development),
        Package("python3-cms-canon", python),
        Package("cms-canon-archive", archive, is_for_all=True),
        Package("libcms-canon-java", partial(java, jar), is_for_all=True),
    ]


def changelog() -> bytes:
    """Returns the changelog in Debian's form: an entry for each version of CHANGELOG.md. No two may have the same time, so that its hours
    count the versions of a day."""
    by = f"{PROJECT['authors']} <{PROJECT['mail']}>"
    entries: List[str] = []
    of_day: Dict[str, int] = {}
    for version, date in reversed(dates_of_versions().items()):
        hour = of_day[date] = of_day.get(date, -1) + 1
        time = (datetime.fromisoformat(date) + timedelta(hours=hour)).strftime("%a, %d %b %Y %H:%M:%S +0000")
        entries.insert(0, f"cms-canon ({version}-{REVISION}) unstable; urgency=medium\n\n  * Release {version}.\n\n -- {by}  {time}\n")
    return "\n".join(entries).encode()


def copyright_file() -> bytes:
    """Returns the copyright file, with the notices of the crates that are linked into the binaries."""
    notices = "".join(f" {line}\n" if line else " .\n" for line in notices_of_crates().rstrip("\n").split("\n"))
    return (TEMPLATES / "debian" / "copyright").read_text(encoding="utf-8").replace("@NOTICES@\n", notices).encode()


def documents(name: str) -> Iterable[File]:
    """Yields the documents that each package has."""
    folder = f"usr/share/doc/{name}"
    yield File(f"{folder}/copyright", copyright_file())
    yield File(f"{folder}/changelog.Debian.gz", gzipped(changelog()))
    yield File(f"{folder}/changelog.gz", gzipped((TOP / "CHANGELOG.md").read_bytes()))
    of_repository, patterns = README_AND_DOCS.get(name, ("", []))
    for path in (it for pattern in patterns for it in sorted((TOP / of_repository).glob(pattern))):
        yield File(f"{folder}/{path.relative_to(TOP / of_repository).as_posix()}", path.read_bytes())


def architecture(package: Package, release: Release) -> str:
    """Returns the architecture as Debian names it."""
    return "all" if package.is_for_all else release.target.debian


def control(package: Package, release: Release, entries: List[Entry]) -> str:
    """Returns the control file of a package, whose size is counted as dpkg-gencontrol counts it: KiB, and 1 for what is no file."""
    folders = {folder for entry in entries for folder in Path(entry.name).parents}
    size = sum(-(-len(it.octets) // 1024) if isinstance(it, File) else 1 for it in entries) + len(folders)
    template = (TEMPLATES / "debian" / f"{package.name}.control").read_text(encoding="utf-8")
    values = {
        "VERSION": f"{release.version}-{REVISION}",
        "ARCHITECTURE": architecture(package, release),
        "PROCESSOR": release.target.processor,
        "SIZE": str(size),
        "MAINTAINER": f"{PROJECT['authors']} <{PROJECT['mail']}>",
        "GLIBC_OF_COMMAND": release.glibc_of("cms-canon"),
        "GLIBC_OF_LIBRARY": release.glibc_of("libcms_canon.so"),
    }
    text = re.sub(r"@([A-Z_]+)@", lambda it: values[it[1]], template)
    return text.replace("\nDescription:", f"\nHomepage: {homepage()}\nDescription:") if homepage() else text


def control_files(package: Package, release: Release, entries: List[Entry]) -> Iterable[File]:
    """Yields what DEBIAN/ has."""
    sums = (f"{hashlib.md5(it.octets).hexdigest()}  {it.name}\n" for it in entries if isinstance(it, File))
    yield File("DEBIAN/control", control(package, release, entries).encode())
    yield File("DEBIAN/md5sums", "".join(sums).encode())
    for name in CONTROL_FILES:
        template = TEMPLATES / "debian" / f"{package.name}.{name}"
        if template.exists():
            yield File(f"DEBIAN/{name}", template.read_bytes(), 0o755 if name in ("postinst", "prerm") else 0o644)


def packed(package: Package, release: Release, work: Path) -> Dict[str, bytes]:
    """Returns the octets of a package by its name. Its files are put together in a folder of their own."""
    name = f"{package.name}_{release.version}-{REVISION}_{architecture(package, release)}.deb"
    folder = work / name.removesuffix(".deb")
    entries = sorted([*package.entries(release), *documents(package.name)], key=lambda it: it.name)
    put_below(folder, [*entries, *control_files(package, release, entries)], release.epoch)
    words = ["dpkg-deb", "--root-owner-group", "-Zxz", "-z9", "--threads-max=1", "--build", folder, work / name]
    run(words, release.epoch)
    return {name: (work / name).read_bytes()}


def packages(releases: List[Release], jar: bytes, work: Path) -> Dict[str, bytes]:
    """Returns the octets of each package by its name."""
    made: Dict[str, bytes] = {}
    for package in all_packages(jar):
        for release in releases[:1] if package.is_for_all else releases:
            made.update(packed(package, release, work))
    return made
