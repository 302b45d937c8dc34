"""Checks what the documents are and lead to; tests/test_printed.py runs the commands that they print, and tests/test_lint.py compares them with
the sources.

- README.md is at most 9,000 octets, and no sentence of it has more than 30 words.
- Each link between the files of the repository leads to a file, and each that names a part of one to a heading; docs/README.md names each document
  of docs/.
- The crate for Rust has the same message among its examples as the repository.
- The units in examples/systemd are right for systemd, and their limits suffice for messages of 16 MiB that are made to take much. A longer one ends
  with status 5, and nothing is written.
- scripts/api writes a page that has each public call, and scripts/proof pages that have each file of definitions and each edit.
"""

import re
import subprocess
from pathlib import Path

import pytest
from elements import element, message as message_of
from needs import needs
from programs import RELEASE, TOP
from tally import fail_if

pytestmark = pytest.mark.tree

PROGRAM = RELEASE / "cms-canon"
UNITS = TOP / "examples" / "systemd"
MOST_OCTETS = 9000
MOST_WORDS = 30  # of a sentence of README
LONGEST = 16 << 20  # octets of a message that the limits of the unit suffice for
UNITS_OF_SIZE = {"": 1, "K": 1 << 10, "M": 1 << 20}
CALLS = ("convert", "show", "check", "same", "cover", "read")


def sentences_of(text):
    """Yields the sentences of a document, without its blocks; a cell of a table and an item of a list end one. What is in quotes of code is a word."""
    text = re.sub(r"^```.*?^```$", "", text, flags=re.M | re.S)
    text = re.sub(r"`[^`]*`", "code", text)
    text = re.sub(r"\[([^]]*)\]\([^)]*\)", r"\1", text)
    for part in re.split(r"\n\s*\n|^\s*[-#].*?\s|\||:\n|(?<=[.?!:])\s+|\n(?=- )", text, flags=re.M):
        yield " ".join(part.split())


def test_readme(tally):
    text = (TOP / "README.md").read_text(encoding="utf-8")
    octets = len(text.encode())
    tally.count("README.md: length", "" if octets <= MOST_OCTETS else f"{octets} octets, and {MOST_OCTETS} are the most")
    longest = max(sentences_of(text), key=lambda it: len(it.split()))
    words = len(longest.split())
    tally.count("README.md: sentences", "" if words <= MOST_WORDS else f"{words} words: {longest}")


def why_broken(document, link):
    name, _, anchor = link.partition("#")
    target = (document.parent / name).resolve() if name else document
    if not target.exists():
        return f"{link} leads nowhere"
    headings = re.findall(r"^#+ (.*)$", target.read_text(encoding="utf-8"), re.M) if anchor else []
    anchors = {re.sub(r"[^\w -]", "", it.replace("`", "").lower()).replace(" ", "-") for it in headings}
    return f"{link}: there is no such heading" if anchor and anchor not in anchors else ""


def test_links(tally):
    listed = subprocess.run(["git", "-C", TOP, "ls-files", "*.md"], capture_output=True, text=True, check=True).stdout.splitlines()
    for document in (TOP / name for name in listed if (TOP / name).exists()):
        text = re.sub(r"^```.*?^```$", "", document.read_text(encoding="utf-8"), flags=re.M | re.S)
        links = [it for it in re.findall(r"\]\(([^)\s]+)\)", text) if not re.match(r"\w+:", it)]
        tally.count(f"{document.relative_to(TOP)}: links", "; ".join(filter(None, (why_broken(document, it) for it in links))))
    index = (TOP / "docs" / "README.md").read_text(encoding="utf-8")
    missing = [it.name for it in sorted((TOP / "docs").glob("*.md")) if f"({it.name})" not in index and it.name != "README.md"]
    of_archive = [it.relative_to(TOP).as_posix() for it in sorted((TOP / "archive").glob("**/*.md"))]
    tally.count("docs/README.md: documents", ", ".join([*missing, *(it for it in of_archive if f"(../{it})" not in index)]))


def test_copies(tally):
    copy = Path("bindings") / "rust" / "examples" / "message.ber"
    is_same = (TOP / copy).read_bytes() == (TOP / "examples" / "message.ber").read_bytes()
    tally.count(str(copy), "" if is_same else "it is not examples/message.ber")


def verified(folder):
    """Returns what systemd says of the units, with the released program in the place of an installed one."""
    for unit in UNITS.iterdir():
        (folder / unit.name).write_text(unit.read_text().replace("/usr/bin/cms-canon", str(PROGRAM)))
    return subprocess.run(["systemd-analyze", "verify", *map(str, sorted(folder.iterdir()))], capture_output=True, text=True)


def worst_messages(octets):
    """Yields messages of nearly so many octets that take the most memory or time for them, by what they are made of."""
    version, no_members = bytes.fromhex("020103"), bytes.fromhex("3100")
    content = bytes.fromhex("300b06092a864886f70d010701")
    algorithm = bytes.fromhex("300506032a0304")
    signer = element(0x30, version + bytes.fromhex("8000") + algorithm + algorithm + bytes.fromhex("040100"))
    algorithms = bytes.fromhex("3003060101")
    for name, before, member, after in (
        ("algorithms", version, element(0x31, algorithms * ((octets - 100) // len(algorithms))), content + no_members),
        ("signers", version + no_members + content, element(0x31, signer * ((octets - 100) // len(signer))), b""),
        ("certificates", version + no_members + content, element(0xA0, bytes.fromhex("3000") * ((octets - 100) // 2)), no_members),
    ):
        yield name, message_of(before, member, after)


@needs("systemd-analyze")
def test_units(tmp_path):
    ended = verified(tmp_path)
    fail_if("" if (ended.returncode, ended.stderr) == (0, "") else f"status {ended.returncode}: {ended.stderr[:500]}")


@needs("prlimit")
def test_limits(tally):
    found = re.findall(r"^Limit(AS|CPU|STACK|NOFILE|CORE)=(\d+)([KM]?)$", (UNITS / "cms-canon@.service").read_text(), re.M)
    limits = ["prlimit", *(f"--{name.lower()}={int(number) * UNITS_OF_SIZE[size]}" for name, number, size in found)]
    tally.count("systemd: limits", "" if len(limits) == 6 else f"{limits}")
    longer, message = next(worst_messages(8 * LONGEST))
    cases = [(f"{name} of 16 MiB", message, (0, b"")) for name, message in worst_messages(LONGEST)]
    for name, message, wanted in (*cases, (f"{longer} of 128 MiB", message, (5, b"out of memory\n"))):
        ended = subprocess.run([*limits, PROGRAM, "convert"], input=message, capture_output=True)
        is_so = (ended.returncode, ended.stderr) == wanted and bool(ended.stdout) == (wanted[0] == 0)
        said = f"status {ended.returncode}, {len(ended.stdout)} octets, {ended.stderr}"
        tally.count(f"systemd: {name}", "" if is_so else said)


@needs("python3", "javadoc", "cargo")
def test_api(tally, tmp_path):
    ended = subprocess.run([TOP / "scripts" / "api", tmp_path], capture_output=True, text=True)
    tally.count("scripts/api", "" if (ended.returncode, ended.stderr) == (0, "") else f"status {ended.returncode}: {ended.stderr[:500]}")
    for page, form in (
        ("c/cms_canon.h", "cms_canon_{}("), ("python/cms_canon.html", 'name="-{}"'), ("java/cmscanon/CmsCanon.html", 'id="{}(byte[]'),
        ("rust/cms_canon/index.html", "fn.{}.html"),
    ):
        text = (tmp_path / page).read_text(encoding="utf-8") if (tmp_path / page).exists() else ""
        calls = ["fields" if it == "read" and page.startswith("c/") else it for it in CALLS]
        tally.count(f"scripts/api: {page}", ", ".join(it for it in calls if form.format(it) not in text))


def test_proof(tally, tmp_path):
    files = [it for it in sorted(TOP.glob("crates/*/specs/**/*.antt")) if "\n--- `" in it.read_text(encoding="utf-8")]
    wanted = {
        "definitions.md": [f"### `{it.relative_to(TOP / 'crates')}`" for it in files],
        "promises.md": [f"`{it.stem}`" for it in sorted(TOP.glob("crates/*/must-fail/*.edit"))],
    }
    ended = subprocess.run([TOP / "scripts" / "proof", tmp_path], capture_output=True, text=True)
    tally.count("scripts/proof", "" if (ended.returncode, ended.stderr) == (0, "") else f"status {ended.returncode}: {ended.stderr[:500]}")
    for page, those in wanted.items():
        text = (tmp_path / page).read_text(encoding="utf-8") if (tmp_path / page).exists() else ""
        tally.count(f"scripts/proof: {page}", ", ".join(it for it in those if it not in text))
