"""Checks the sums over all that is released, and the bill of materials."""

import hashlib
import json
import re
import shutil

import bill
import pytest
from elements import flipped
from machines import ended
from package_tools import BINARIES, DIST, PACKAGES, TOP, VERSION, crates_of_kit, told, why_failed
from tally import differing

pytestmark = pytest.mark.tree


def test_sums(tally, tmp_path):
    """Checks the sums, that they are of all files, and that they find each octet that is changed."""
    copy = tmp_path / "dist"
    shutil.copytree(DIST, copy)
    listed = {line.split("  ", 1)[1] for line in (copy / "SHA256SUMS").read_text(encoding="ascii").splitlines()}
    there = {it.relative_to(copy).as_posix() for it in copy.rglob("*") if it.is_file()} - {"SHA256SUMS"}
    tally.count("files with a sum", differing(sorted(there), sorted(listed)))
    check = ["sha256sum", "--check", "--quiet", "SHA256SUMS"]
    tally.count("sums", why_failed(ended(check, cwd=copy)))
    for name in sorted(listed & there):
        octets = (copy / name).read_bytes()
        (copy / name).write_bytes(flipped(octets))
        done = ended(check, cwd=copy)
        tally.count(f"{name} with an octet changed", "" if done.status != 0 and done.output == f"{name}: FAILED\n" else told(done))
        (copy / name).write_bytes(octets)


def test_bill(tally):
    """Checks the bill of materials: its rules, its files, and the crates of the kit."""
    name = f"cms-canon-{VERSION}.spdx.json"
    document = json.loads((PACKAGES / name).read_text(encoding="utf-8"))
    tally.count("bill of materials", "; ".join(bill.complaints(document)))
    for wrong, change in WRONG_BILLS.items():
        other = json.loads(json.dumps(document))
        change(other)
        tally.count(f"a bill of materials with {wrong}", "" if bill.complaints(other) else "it is taken for right")
    sums = {it["fileName"][2:]: it["checksums"][1]["checksumValue"] for it in document["files"]}
    lines = (DIST / "SHA256SUMS").read_text(encoding="ascii").splitlines()
    released = {line.split("  ")[1]: line.split("  ")[0] for line in lines}
    del released[f"packages/{name}"]
    tally.count("files of the bill of materials", differing(released, sums))
    for file in document["files"]:
        known = hashlib.sha1((DIST / file["fileName"]).read_bytes()).hexdigest()
        tally.count(f"SHA-1 of {file['fileName']}", differing(known, file["checksums"][0]["checksumValue"]))
    own, kit = ({it["name"]: it for it in document["packages"]}[name] for name in ("cms-canon", "rattle-kit"))
    tally.count("version in the bill of materials", differing((VERSION, "MIT OR Apache-2.0"), (own["versionInfo"], own["licenseDeclared"])))
    said = re.search(r"^kit: (.*)$", (BINARIES / "MANIFEST").read_text(encoding="ascii"), re.M)[1]
    kept = json.loads((TOP / "packaging" / "components.json").read_text(encoding="utf-8"))["kit"]
    why = "" if kept == said else f"{kept}, and the binaries are by {said}: run scripts/release"
    tally.count("kit whose crates are in the bill of materials", why)
    tally.count("kit in the bill of materials", "" if kit["comment"].startswith(f"{said}:") else f"{kit['comment']!r}")
    known = crates_of_kit()
    named = {it["name"] for it in document["packages"] if it["SPDXID"].startswith("SPDXRef-Crate-")}
    linked = {it["relatedSpdxElement"].removeprefix("SPDXRef-Crate-").replace("-", "_") for it in document["relationships"]
              if it["relationshipType"] == "STATIC_LINK"}
    tally.count("crates of the kit in the bill of materials", differing([], sorted(known - named)))
    tally.count("crates that are linked", differing(sorted(known), sorted(linked)))
    if tally.has("pyspdxtools", "the bill of materials by pyspdxtools"):
        tally.count("pyspdxtools", why_failed(ended(["pyspdxtools", "-i", PACKAGES / name])))


def test_components(tally):
    """Compares what is kept of the kit's crates with the kit, if it is the one that they were read from."""
    kept = json.loads((TOP / "packaging" / "components.json").read_text(encoding="utf-8"))["kit"]
    here = ended(["rt", "version"]).output.strip() if shutil.which("rt") else ""
    if here != kept:
        return tally.skip("crates of the kit", f"they are those of {kept}, and this is {here or 'a machine without a kit'}")
    return tally.count("crates of the kit", why_failed(ended([TOP / "scripts" / "components", "--check"])))


def one_file_less(document):
    gone = document["files"].pop()["SPDXID"]
    document["relationships"] = [it for it in document["relationships"] if gone not in it.values()]


WRONG_BILLS = {
    "a file without SHA-1": lambda it: it["files"][0]["checksums"].pop(0),
    "a relationship to nothing": lambda it: it["relationships"][1].update(relatedSpdxElement="SPDXRef-Nothing"),
    "two packages of one name": lambda it: it["packages"][1].update(SPDXID=it["packages"][2]["SPDXID"]),
    "an unknown licence": lambda it: it["packages"][1].update(licenseDeclared="Expat"),
    "a package without a place": lambda it: it["packages"][0].pop("downloadLocation"),
    "one file less": one_file_less,
}
