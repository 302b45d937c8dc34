"""The jars for Java: classes with the library for each target, documentation and sources, and the POM beside them.

The jar's own library comes before that of the system, though JNA looks for it last, or a jar would run with another version that happens to
be installed. A folder in `jna.library.path` comes before both.
"""

import re
from pathlib import Path
from typing import Dict, List
from xml.sax.saxutils import escape

from .components import third_parties
from .files import File, files_below, zipped
from .project import LICENSE_FILES, PROJECT, TEMPLATES, TOP, Release
from .tools import JNA, run

SOURCES = TOP / "bindings" / "java" / "src"
GROUP, ARTIFACT = "cmscanon", "cms-canon"


def compiled(release: Release, work: Path) -> List[File]:
    """Returns the classes."""
    folder = work / "classes"
    files = sorted(SOURCES.rglob("*.java"))
    lint = "-Xlint:all,-requires-automatic"  # JNA is a module by its name alone
    words = ["javac", "--release", "17", "-encoding", "UTF-8", lint, "-Werror", "-p", JNA, "-d", folder, *files]
    run(words, release.epoch)
    return [*files_below(folder)]


def documented(release: Release, work: Path) -> List[File]:
    """Returns the pages of javadoc, which has to find nothing missing in the comments."""
    folder = work / "javadoc"
    locale = ["-locale", "en", "-encoding", "UTF-8", "-docencoding", "UTF-8", "-charset", "UTF-8"]
    words = ["javadoc", "-quiet", "-notimestamp", *locale, "-Xdoclint:all", "-Werror", "-Xmaxwarns", "1000", "-cp", JNA]
    named = ["-windowtitle", f"cms-canon {release.version}", "-doctitle", f"cms-canon {release.version}"]
    run([*words, *named, "-d", folder, *sorted((SOURCES / "cmscanon").glob("*.java"))], release.epoch)
    return [*files_below(folder)]


def manifest(release: Release) -> File:
    """Returns the manifest of a jar, whose lines end in CR LF."""
    lines = [
        "Manifest-Version: 1.0",
        "Implementation-Title: cms-canon",
        f"Implementation-Version: {release.version}",
    ]
    return File("META-INF/MANIFEST.MF", "".join(f"{it}\r\n" for it in [*lines, ""]).encode())


def licenses() -> List[File]:
    """Returns the licences, and the notices of what is linked into the library."""
    return [
        *(File(f"META-INF/{name}", (TOP / name).read_bytes()) for name in LICENSE_FILES),
        File("META-INF/THIRD-PARTIES", third_parties()),
    ]


def pom(release: Release) -> bytes:
    """Returns the POM."""
    values = {"GROUP": GROUP, "ARTIFACT": ARTIFACT, "VERSION": release.version, **{key.upper(): PROJECT[key] for key in PROJECT}}
    template = (TEMPLATES / "maven" / "pom.xml").read_text(encoding="utf-8")
    return re.sub(r"@([A-Z]+)@", lambda it: escape(values[it[1]]), template).encode()


def jar_of_classes(release: Release, classes: List[File]) -> bytes:
    """Returns the jar without the library, for Debian."""
    return zipped([manifest(release), *licenses(), *classes], release.epoch)


def jars(releases: List[Release], classes: List[File], work: Path) -> Dict[str, bytes]:
    """Returns the octets of the jars and of the POM by their names."""
    release = releases[0]
    name = f"{ARTIFACT}-{release.version}"
    shared = [manifest(release), *licenses()]
    description = File(f"META-INF/maven/{GROUP}/{ARTIFACT}/pom.xml", pom(release))
    libraries = [File(f"{it.target.jna}/libcms_canon.so", it.octets_of("libcms_canon.so")) for it in releases]
    return {
        f"{name}.jar": zipped([*shared, description, *classes, *libraries], release.epoch),
        f"{name}-javadoc.jar": zipped([*shared, *documented(release, work)], release.epoch),
        f"{name}-sources.jar": zipped([*shared, *files_below(SOURCES)], release.epoch),
        f"{name}.pom": pom(release),
    }
