"""The rules of SPDX 2.3 for a bill of materials in JSON, as far as one of ours comes to them."""

import hashlib
import re
from typing import Any, Dict, Iterable, List

REQUIRED = {  # sections 6, 7, 8 and 11 of the specification
    "document": ("spdxVersion", "dataLicense", "SPDXID", "name", "documentNamespace", "creationInfo"),
    "packages": ("SPDXID", "name", "downloadLocation"),
    "files": ("SPDXID", "fileName", "checksums"),
    "relationships": ("spdxElementId", "relationshipType", "relatedSpdxElement"),
}
IDENTIFIER = re.compile(r"SPDXRef-[A-Za-z0-9.-]+")
CREATED = re.compile(r"\d{4}-\d{2}-\d{2}T\d{2}:\d{2}:\d{2}Z")
CREATOR = re.compile(r"(?:Person|Organization): .+|Tool: .+-.+")
NAMESPACE = re.compile(r"[A-Za-z][A-Za-z0-9+.-]*:[^\s#]+")
LENGTHS = {"SHA1": 40, "SHA256": 64}
RELATIONSHIPS = {"DESCRIBES", "CONTAINS", "DEPENDS_ON", "STATIC_LINK", "DYNAMIC_LINK", "BUILD_TOOL_OF"}
FILE_TYPES = {"SOURCE", "BINARY", "ARCHIVE", "TEXT", "DOCUMENTATION", "SPDX", "OTHER"}
LICENSES = {"MIT", "Apache-2.0", "Unlicense", "LGPL-2.1-or-later", "GPL-3.0-or-later"}
EXCEPTIONS = {"LLVM-exception", "GCC-exception-3.1"}


def why_no_license(expression: str) -> str:
    if expression in ("NOASSERTION", "NONE"):
        return ""
    for part in re.split(r" (?:OR|AND) ", expression):
        name, _, exception = part.partition(" WITH ")
        if name not in LICENSES or exception and exception not in EXCEPTIONS:
            return f"{expression!r} is no expression of known licences"
    return ""


def complaints_of_document(document: Dict[str, Any]) -> Iterable[str]:
    for name in REQUIRED["document"]:
        if not document.get(name):
            yield f"the document has no {name}"
            return
    fixed = {"spdxVersion": "SPDX-2.3", "dataLicense": "CC0-1.0", "SPDXID": "SPDXRef-DOCUMENT"}
    yield from (f"{name} is not {value}" for name, value in fixed.items() if document[name] != value)
    if not NAMESPACE.fullmatch(document["documentNamespace"]):
        yield "documentNamespace is no absolute URI without a fragment"
    info = document["creationInfo"]
    if not CREATED.fullmatch(info.get("created", "")):
        yield "created is no time in UTC"
    if not info.get("creators") or not all(map(CREATOR.fullmatch, info["creators"])):
        yield "creators are no persons, organizations and tools"


def complaints_of_elements(document: Dict[str, Any]) -> Iterable[str]:
    """Yields what is wrong in packages and files, by themselves."""
    for kind in ("packages", "files", "relationships"):
        for element in document.get(kind, []):
            yield from (f"one of {kind} has no {name}: {element}" for name in REQUIRED[kind] if not element.get(name))
    for element in [*document["packages"], *document["files"]]:
        name = element.get("SPDXID", "")
        if not IDENTIFIER.fullmatch(name):
            yield f"{name!r} is no identifier"
        for field in ("licenseConcluded", "licenseDeclared"):
            if why := why_no_license(element.get(field, "NOASSERTION")):
                yield f"{name}: {why}"
    for package in document["packages"]:
        yield from complaints_of_contents(document, package)
    for file in document["files"]:
        sums = {it["algorithm"]: it["checksumValue"] for it in file["checksums"]}
        if "SHA1" not in sums:
            yield f"{file['fileName']} has no SHA-1, which each file has to have"
        for algorithm, value in sums.items():
            if len(value) != LENGTHS.get(algorithm) or re.search("[^0-9a-f]", value):
                yield f"{file['fileName']}: no sum by {algorithm}: {value}"
        if not file["fileName"].startswith("./"):
            yield f"{file['fileName']} is no path from the folder of the files"
        if not {*file.get("fileTypes", [])} <= FILE_TYPES:
            yield f"{file['fileName']} has unknown types"


def complaints_of_contents(document: Dict[str, Any], package: Dict[str, Any]) -> Iterable[str]:
    """Yields what is wrong in what is said of the files in a package (section 7.9): only one whose files are analyzed has any."""
    contained = [
        it["relatedSpdxElement"]
        for it in document["relationships"]
        if it["relationshipType"] == "CONTAINS" and it["spdxElementId"] == package["SPDXID"]
    ]
    if not package.get("filesAnalyzed", True):
        yield from (f"{package['SPDXID']} has files, which were not analyzed" for _ in contained[:1])
        return
    files = [it for it in document["files"] if it["SPDXID"] in contained]
    sums = sorted(sum_["checksumValue"] for it in files for sum_ in it["checksums"] if sum_["algorithm"] == "SHA1")
    code = package.get("packageVerificationCode", {}).get("packageVerificationCodeValue")
    if code != hashlib.sha1("".join(sums).encode()).hexdigest():
        yield f"{package['SPDXID']}: the code over its files is wrong"


def complaints_of_relations(document: Dict[str, Any]) -> Iterable[str]:
    names: List[str] = [it["SPDXID"] for it in (document, *document["packages"], *document["files"])]
    for name in sorted({it for it in names if names.count(it) > 1}):
        yield f"{name} stands for several things"
    related = set()
    for it in document["relationships"]:
        ends = (it["spdxElementId"], it["relatedSpdxElement"])
        related |= {*ends}
        yield from (f"a relationship names {end}, which is not there" for end in ends if end not in names)
        if it["relationshipType"] not in RELATIONSHIPS:
            yield f"{it['relationshipType']} is no relationship of ours"
    yield from (f"{name} is related to nothing" for name in names if name not in related)
    described = [it for it in document["relationships"] if it["relationshipType"] == "DESCRIBES"]
    if [it["spdxElementId"] for it in described] != ["SPDXRef-DOCUMENT"]:
        yield "the document does not describe one thing"


def complaints(document: Dict[str, Any]) -> List[str]:
    found = [*complaints_of_document(document)]
    if found or not all(document.get(it) for it in ("packages", "files", "relationships")):
        return found or ["there are no packages, files or relationships"]
    return [*complaints_of_elements(document), *complaints_of_relations(document)]
