"""The projects for Python: their files, and their wheels, which need no build.

That of `cms-canon` has the library, and is one for each target. It is named for glibc 2.17, the oldest that pip and PyPI know by number. That of
`cms-canon-archive` is Python alone. `__version__` is in a file that the build of the wheel writes: to ask `importlib.metadata` would double the
time of the import, and answer for another copy if the package is not the installed one.
"""

import base64
import hashlib
import os
from dataclasses import dataclass
from pathlib import Path
from typing import Dict, Iterable, List

from .components import third_parties
from .files import File, files_below, zipped
from .project import LICENSE, LICENSE_FILES, PROJECT, TOP, Refused, Release, release_in
from .targets import TARGETS

METADATA = """\
Metadata-Version: 2.1
Name: {name}
Version: {version}
Summary: {summary}
Author: {authors}
Author-email: {authors} <{mail}>
Project-URL: Homepage, {homepage}
License: {license}
{license_files}
Keywords: {keywords}
Classifier: Development Status :: 4 - Beta
Classifier: Intended Audience :: {audience}
Classifier: License :: OSI Approved :: Apache Software License
Classifier: License :: OSI Approved :: MIT License
Classifier: Operating System :: POSIX :: Linux
Classifier: Programming Language :: Python :: 3
Classifier: Programming Language :: Python :: 3 :: Only
Classifier: Topic :: Security :: Cryptography
Classifier: Topic :: System :: Archiving
Classifier: Typing :: Typed
Requires-Python: >=3.8
{requires}
Description-Content-Type: text/markdown

{description}"""

WHEEL = """\
Wheel-Version: 1.0
Generator: cms-canon
Root-Is-Purelib: {is_pure}
Tag: {tag}
"""


@dataclass(frozen=True)
class Project:
    """A project of PyPI: one package, and what is said of it."""

    name: str
    summary: str
    folder: str
    """In the repository: it has the package and README.md."""
    keywords: str
    audience: str
    requires: str
    """The lines of METADATA on what it needs."""
    has_library: bool = False
    entry_points: str = ""
    manual: str = ""
    """The path of the page of its command in the repository."""

    @property
    def package(self) -> str:
        return self.name.replace("-", "_")

    def about(self, version: str) -> str:
        """Returns the folder of the wheel that says what this is."""
        return f"{self.package}-{version}.dist-info"

    def tag(self, release: Release) -> str:
        """Returns for which Python the wheel is, and for which systems."""
        return f"py3-none-{release.target.wheel if self.has_library else 'any'}"


BINDING = Project(
    name="cms-canon",
    summary="The one DER encoding of CMS signed messages and of time-stamps, and what their signatures cover",
    folder="bindings/python",
    keywords="CMS,PKCS #7,RFC 5652,RFC 3161,DER,BER,ASN.1,time-stamp,signature",
    audience="Developers",
    has_library=True,
    requires="""\
Provides-Extra: verify
Requires-Dist: cryptography >=38; extra == "verify"
Provides-Extra: archive
Requires-Dist: cms-canon-archive[all] =={version}; extra == "archive\"""",
)

ARCHIVE = Project(
    name="cms-canon-archive",
    summary="Finds the signatures and time-stamps in an archive, and says whether they fit their documents",
    folder="archive",
    keywords="CMS,PKCS #7,RFC 5652,RFC 3161,PDF,S/MIME,JAR,ASiC,time-stamp,signature,archive",
    audience="System Administrators",
    requires="""\
Requires-Dist: cms-canon =={version}
Requires-Dist: click >=8.1
Requires-Dist: cryptography >=38
Requires-Dist: pikepdf >=6
Requires-Dist: SQLAlchemy >=1.4.40
Requires-Dist: tqdm >=4.64
Requires-Dist: zstandard >=0.20
Provides-Extra: all
Requires-Dist: distributed >=2022.12; extra == "all"
Requires-Dist: jinja2 >=3.1; extra == "all"
Requires-Dist: matplotlib >=3.6; extra == "all"
Requires-Dist: numpy >=1.20; extra == "all\"""",
    entry_points="""\
[console_scripts]
cms-canon-archive = cms_canon_archive.__main__:main
""",
    manual="archive/docs/man/cms-canon-archive.1",
)


def modules(project: Project, release: Release) -> List[File]:
    """Returns the files of the package, without the library. The one that has the library also says the version."""
    files = [*files_below(TOP / project.folder / project.package, f"{project.package}/")]
    version = File(f"{project.package}/_version.py", f'__version__ = "{release.version}"\n'.encode())
    return sorted([*files, version]) if project.has_library else files


def about(project: Project, release: Release) -> List[File]:
    """Returns the files that say what the package is, and which commands it has."""
    folder = project.about(release.version)
    license_files = (*LICENSE_FILES, "THIRD-PARTIES") if project.has_library else LICENSE_FILES
    metadata = METADATA.format(
        name=project.name, version=release.version, summary=project.summary, keywords=project.keywords, audience=project.audience,
        license=LICENSE, license_files="\n".join(f"License-File: {it}" for it in license_files),
        requires=project.requires.format(version=release.version), description=(TOP / project.folder / "README.md").read_text(encoding="utf-8"),
        **PROJECT,
    )
    files = [File(f"{folder}/METADATA", metadata.encode())]
    return [*files, File(f"{folder}/entry_points.txt", project.entry_points.encode())] if project.entry_points else files


def manual(release: Release, path: str) -> bytes:
    """Returns a manual page of the repository with the version in it."""
    return (TOP / path).read_text(encoding="utf-8").replace("@VERSION@", release.version).encode()


def record(files: Iterable[File], name: str) -> File:
    """Returns the RECORD of a wheel: a line for each file, with its digest and its length, and one for itself."""
    lines = []
    for file in files:
        digest = base64.urlsafe_b64encode(hashlib.sha256(file.octets).digest()).rstrip(b"=").decode()
        lines.append(f"{file.name},sha256={digest},{len(file.octets)}\n")
    return File(name, "".join([*lines, f"{name},,\n"]).encode())


def of_the_library(project: Project, release: Release) -> List[File]:
    """Returns the library, and the notices of what is linked into it."""
    return [
        File(f"{project.package}/libcms_canon.so", release.octets_of("libcms_canon.so")),
        File(f"{project.about(release.version)}/THIRD-PARTIES", third_parties()),
    ]


def of_the_manual(project: Project, release: Release) -> List[File]:
    """Returns the page of the command, where pip puts it into the folder of manual pages of an environment."""
    folder = f"{project.package}-{release.version}.data/data/share/man/man1"
    return [File(f"{folder}/{Path(project.manual).name}", manual(release, project.manual))] if project.manual else []


def wheel(project: Project, release: Release) -> Dict[str, bytes]:
    """Returns the octets of the wheel by its name."""
    folder = project.about(release.version)
    files = [
        *modules(project, release),
        *(of_the_library(project, release) if project.has_library else []),
        *of_the_manual(project, release),
        *about(project, release),
        File(f"{folder}/WHEEL", WHEEL.format(is_pure=str(not project.has_library).lower(), tag=project.tag(release)).encode()),
        *(File(f"{folder}/{name}", (TOP / name).read_bytes()) for name in LICENSE_FILES),
    ]
    files.append(record(files, f"{folder}/RECORD"))
    return {f"{project.package}-{release.version}-{project.tag(release)}.whl": zipped(files, release.epoch)}


def wheels(releases: List[Release]) -> Dict[str, bytes]:
    """Returns the octets of each wheel by its name."""
    made = wheel(ARCHIVE, releases[0])
    for release in releases:
        made.update(wheel(BINDING, release))
    return made


# ---- the hooks that pip calls (PEP 517)

def build_wheel(project: Project, wheel_directory: str, config_settings: object = None, metadata_directory: object = None) -> str:
    """Writes the wheel into the folder, and returns its name."""
    machine = os.uname()
    try:
        if (of_machine := f"{machine.machine}-{machine.sysname.lower()}") not in TARGETS:
            raise Refused(f"it is for {' and '.join(TARGETS)}, and this is {of_machine}")
        ((name, octets),) = wheel(project, release_in(TOP / "dist" / of_machine)).items()
    except Refused as why:
        raise SystemExit(f"the package is built in its repository, from the release in dist/: {why}") from None
    Path(wheel_directory, name).write_bytes(octets)
    return name


def build_sdist(sdist_directory: str, config_settings: object = None) -> str:
    raise SystemExit("there is no source archive: the library is proved and built in the repository")
