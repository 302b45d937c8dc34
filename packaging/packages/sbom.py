"""The bill of materials of a release, in JSON of SPDX 2.3.

Crates of the kit are named as ports, without package URLs: an advisory on a crate of Rust's is about code that is not in the binaries.
"""

import hashlib
import json
import re
import uuid
from datetime import datetime, timezone
from pathlib import PurePosixPath
from typing import Any, Dict, Iterable, List

from .components import CRATES, KIT, LLVM, Crate, linked_crates
from .project import LICENSE, PROJECT, Release, homepage

NO_ASSERTION = "NOASSERTION"
TOOLS = {  # of the system, by whose output the binaries are what they are: how a MANIFEST names them, their names, and their licences
    "strip": ("GNU strip", "GPL-3.0-or-later"),
    "objcopy": ("GNU objcopy", "GPL-3.0-or-later"),
    "libc": ("GNU C library to link against", "LGPL-2.1-or-later"),
    "libgcc": ("libgcc to link against", "GPL-3.0-or-later WITH GCC-exception-3.1"),
}
FILE_TYPES = {  # by the name of a file or its ending
    "cms-canon": "BINARY",
    ".a": "BINARY",
    ".so": "BINARY",
    ".wasm": "BINARY",
    ".html": "TEXT",
    ".h": "SOURCE",
    ".pom": "TEXT",
    "MANIFEST": "TEXT",
    "TOOLS": "TEXT",
}


def identifier(kind: str, name: str) -> str:
    """Returns an SPDX identifier, which has letters, digits, `.` and `-` alone."""
    return f"SPDXRef-{kind}-{re.sub(r'[^A-Za-z0-9.-]', '-', name)}"


def package(kind: str, name: str, version: str, license_declared: str, **more: Any) -> Dict[str, Any]:
    """Returns what a document says of a package."""
    return {
        "SPDXID": identifier(kind, name),
        "name": name,
        "versionInfo": version,
        "supplier": NO_ASSERTION,
        "downloadLocation": NO_ASSERTION,
        "filesAnalyzed": False,
        "licenseConcluded": license_declared,
        "licenseDeclared": license_declared,
        "copyrightText": NO_ASSERTION,
        **more,
    }


def verification_code(files: List[Dict[str, Any]]) -> str:
    """Returns the code over the SHA-1 sums of files (SPDX 2.3, section 7.9)."""
    sums = sorted(it["checksums"][0]["checksumValue"] for it in files)
    return hashlib.sha1("".join(sums).encode()).hexdigest()


def own_package(release: Release, files: List[Dict[str, Any]]) -> Dict[str, Any]:
    """Returns what is said of cms-canon itself, which has these files."""
    by = f"Organization: {PROJECT['authors']}"
    url = {"homepage": homepage()} if homepage() else {}
    copyright_text = f"Copyright (c) 2026 {PROJECT['authors']}"
    version = release.version
    comment = f"Made from the sources whose SHA-256 is {release.values.get('sources')}, as MANIFEST says."
    analyzed = {"filesAnalyzed": True, "packageVerificationCode": {"packageVerificationCodeValue": verification_code(files)}}
    said = {"supplier": by, "copyrightText": copyright_text, "comment": comment, **analyzed, **url}
    return package("Package", "cms-canon", version, LICENSE, **said)


def crate_package(name: str, crate: Crate) -> Dict[str, Any]:
    """Returns what is said of a crate of the kit, which is no copy of the Rust crate: an advisory on that one may not apply."""
    comment = f"A port to Rattle of the Rust crate {crate.port_of} {crate.version}, in {KIT}."
    text = "\n".join(crate.copyright) or NO_ASSERTION
    return package("Crate", name, crate.version, crate.license, comment=comment, copyrightText=text)


def tool_packages(releases: List[Release]) -> Iterable[Dict[str, Any]]:
    """Yields what is said of the tools that the binaries are made with."""
    kit, _, logic = releases[0].values["kit"].partition(" ")
    yield package("Tool", "rattle-kit", kit.rpartition("-")[2], NO_ASSERTION, comment=f"{kit} {logic}: prover, compiler and library.")
    yield package("Tool", "LLVM", LLVM, "Apache-2.0 WITH LLVM-exception", comment=f"Compiler and linker of {KIT}.")
    for release in releases:
        for name, (title, terms) in TOOLS.items():
            if said := release.values.get(name):
                titled = f"{title} for {release.folder.name}"
                yield package("Tool", titled, said.rpartition(" ")[2], terms, comment=said)


def glibc_package(release: Release) -> Dict[str, Any]:
    """Returns what is said of the C library, which is of the machine that the binaries run on."""
    versions = f"{release.glibc_of('cms-canon')} or later for the command, {release.glibc_of('libcms_canon.so')} or later for the library"
    name = f"glibc for {release.folder.name}"
    return package("Library", name, release.glibc_of("libcms_canon.so"), "LGPL-2.1-or-later", comment=f"Needed: {versions}.")


def file_entry(name: str, octets: bytes) -> Dict[str, Any]:
    """Returns what is said of a released file, of which SPDX wants the SHA-1 too."""
    path = PurePosixPath(name)
    kind = FILE_TYPES.get(path.suffix or path.name, "ARCHIVE")
    sums = [{"algorithm": it.upper(), "checksumValue": hashlib.new(it, octets).hexdigest()} for it in ("sha1", "sha256")]
    return {
        "SPDXID": identifier("File", name),
        "fileName": f"./{name}",
        "fileTypes": [kind],
        "checksums": sums,
        "licenseConcluded": LICENSE,
        "licenseInfoInFiles": [NO_ASSERTION],
        "copyrightText": NO_ASSERTION,
    }


def relationship(one: str, kind: str, other: str) -> Dict[str, str]:
    return {"spdxElementId": one, "relationshipType": kind, "relatedSpdxElement": other}


def relationships(
    release: Release, files: List[Dict[str, Any]], tools: List[Dict[str, Any]], libraries: List[Dict[str, Any]]
) -> Iterable[Dict[str, str]]:
    """Yields how all these belong together."""
    own = identifier("Package", "cms-canon")
    yield relationship("SPDXRef-DOCUMENT", "DESCRIBES", own)
    for file in files:
        yield relationship(own, "CONTAINS", file["SPDXID"])
    for name in linked_crates(release):
        yield relationship(own, "STATIC_LINK", identifier("Crate", name))
    for name, crate in CRATES.items():
        for used in crate.uses:
            yield relationship(identifier("Crate", name), "DEPENDS_ON", identifier("Crate", used))
    for library in libraries:
        yield relationship(own, "DYNAMIC_LINK", library["SPDXID"])
    for tool in tools:
        yield relationship(tool["SPDXID"], "BUILD_TOOL_OF", own)


def sbom(releases: List[Release], released: Dict[str, bytes]) -> bytes:
    """Returns the document on these files, by their paths below dist/."""
    release = releases[0]
    files = [file_entry(name, octets) for name, octets in sorted(released.items())]
    tools, libraries = [*tool_packages(releases)], [glibc_package(it) for it in releases]
    crates = [crate_package(name, crate) for name, crate in CRATES.items()]
    sums = "".join(it["checksums"][1]["checksumValue"] for it in files)
    document = {
        "spdxVersion": "SPDX-2.3",
        "dataLicense": "CC0-1.0",
        "SPDXID": "SPDXRef-DOCUMENT",
        "name": f"cms-canon-{release.version}",
        "documentNamespace": f"urn:uuid:{uuid.uuid5(uuid.NAMESPACE_OID, sums)}",
        "creationInfo": {
            "created": datetime.fromtimestamp(release.epoch, timezone.utc).strftime("%Y-%m-%dT%H:%M:%SZ"),
            "creators": [f"Organization: {PROJECT['authors']}", f"Tool: cms-canon-packages-{release.version}"],
        },
        "packages": [own_package(release, files), *crates, *tools, *libraries],
        "files": files,
        "relationships": [*relationships(release, files, tools, libraries)],
    }
    return (json.dumps(document, indent=1, ensure_ascii=False) + "\n").encode()
