"""Compares the columns and keys that the command writes with those that its manual names, each way: none is left out, and none is named that is not there.

A key that is added needs a paragraph in the manual's section COLUMNS, and a column of a table its name in the list there, and no change here.
"""

import csv
import io
import json
import re
import shlex

import pytest
from cases import TIME_STAMP, with_unsigned
from counting import count_if, count_same, needs
from making import write_files
from places import ARCHIVE
from running import asked, ended

pytestmark = [pytest.mark.archive, needs("click", "tqdm", "sqlalchemy", "cryptography", tools=["openssl"])]
MANUAL = ARCHIVE / "docs" / "man" / "cms-canon-archive.1"
TABLES = "Columns of tables"
WRITTEN_BY = {  # what writes the keys of each part of the section: words of the command, and the list in its rows whose keys they are
    "Places": (
        "rows archive", "inspect archive/doc.p7s", "check archive/doc.p7s", "check --all", "files --all", "others", "same archive/doc.p7s", "refusals",
        "changed", "changed --count",
    ),
    "Signers": ("signers", "rows archive:signed_by"), "Times": ("times", "rows archive:times"), "Algorithms": ("algorithms", "algorithms --weak"),
    "Copies": ("duplicates", "duplicates --of digests"), "Differences": ("verify-store",), "Changes": ("changes",), "Renewal": ("renewal --by 2030-12-31",), "Progress": ("progress",), "Workers": ("progress:workers",),
    "Totals": ("index archive --jobs 1 --store other.db",), "Copying": ("convert archive --to copies", "export --to exported", "show archive/doc.p7s", "changes-of archive/ber.p7m"),
}
ALSO = {"Algorithms": ("Signers", "Times")}  # whose keys rows of the former may have too
ARGUMENTS = {"same": "same archive/doc.p7s", "renewal": "renewal --by 2030-12-31", "duplicates --of": "duplicates --of digests"}  # what a table needs


def word_of(words):
    """Returns the word of the command."""
    return re.match(r"[a-z-]+", words)[0]


def parts_of_section():
    """Returns the paragraphs of the parts of the section: by their titles, what is in bold in each, and its words."""
    section = MANUAL.read_text(encoding="utf-8").partition("\n.SH COLUMNS\n")[2].partition("\n.SH ")[0]
    parts = {}
    for part in re.split(r"^\.SS ", section, flags=re.M)[1:]:
        title, _, text = part.partition("\n")
        paragraphs = (it.split("\n", 1) for it in re.split(r"^\.TP\n", text, flags=re.M)[1:])
        parts[title] = [(re.sub(r"^\.BR? ", "", bold).replace("\\-", "-"), words) for bold, words in paragraphs]
    return parts


def keys_in(title):
    """Returns the keys that a part names, in their order."""
    return [key for bold, _ in parts_of_section()[title] for key in re.findall(r"\w+", bold)]


@pytest.fixture(scope="module")
def folder(shared_home, make):
    """An archive with a row of each kind, and an index that differs from it."""
    document = b"A document.\n"
    signed = make.cms(document, "-md", "sha1")
    stamped = with_unsigned(make.cms(document, "-nodetach"), {TIME_STAMP: make.token(document)})
    files = {
        "doc": document, "doc.p7s": signed, "copy/doc.p7s": signed, "copy/doc": document, "stamped.p7m": stamped, "doc.tst": make.token(document),
        "refused.p7m": b"0\x80", "other.xml": b'<S xmlns="http://www.w3.org/2000/09/xmldsig#"><SignatureValue/></S>',
        "ber.p7m": make.cms(document, "-nodetach", "-indef"),
    }
    write_files(shared_home / "archive", files)
    said = ended(shared_home, "index", "archive", "--verify", "--jobs", 1)
    assert said.returncode == 0, said.stderr
    assert ended(shared_home, "digests", "--to", "digests").returncode == 0
    asked(shared_home / "index.db", "UPDATE workers SET ended = NULL")  # as of a worker that was killed
    (shared_home / "archive/new.p7s").write_bytes(signed)
    return shared_home


def rows_of(folder, words):
    """Returns the rows that the command writes in JSON, or those of a list in them."""
    words, _, name = words.partition(":")
    more = [] if words.startswith("rows") else ["--json"]
    done = ended(folder, *shlex.split(words), *more)
    rows = [json.loads(line) for line in done.stdout.splitlines()]
    return [inner for row in rows for inner in row.get(name, [])] if name else rows


@pytest.mark.parametrize("title", WRITTEN_BY)
def test_keys(folder, title):
    """The keys of JSON are those of the manual, in each part of its section."""
    written = set()
    for words in WRITTEN_BY[title]:
        rows = rows_of(folder, words)
        count_if(f"{words}: rows", bool(rows), rows)
        written.update(key for row in rows for key in row)
    named = keys_in(title)
    of_others = {key for other in ALSO.get(title, ()) for key in keys_in(other)} - {*named}
    own = {word_of(it) for it in WRITTEN_BY[title]}
    of_tables = {column for words, columns in tables().items() if word_of(words) in own for column in columns}
    count_same(f"{title}: keys that are not named", sorted(written - {*named} - of_others), [])
    count_same(f"{title}: keys that are not written", sorted({*named} - written - of_tables), [])
    count_same(f"{title}: each is named once", sorted(named), sorted({*named}))


def tables():
    return {bold: words.replace("\n", " ").strip().split(", ") for bold, words in parts_of_section()[TABLES]}


@pytest.mark.parametrize("words", tables())
def test_tables(folder, words):
    """The columns of CSV are those of the manual, in their order, and each of them is a key."""
    text = ended(folder, *shlex.split(ARGUMENTS.get(words, words)), "--csv").stdout
    head, *rows = csv.reader(io.StringIO(text))
    count_same(f"{words}: columns", head, tables()[words])
    count_if(f"{words}: rows", bool(rows) and {*map(len, rows)} == {len(head)}, rows)
    title = next(it for it, commands in WRITTEN_BY.items() if word_of(words) in map(word_of, commands))
    named = {key for it in (title, *ALSO.get(title, ())) for key in keys_in(it)}
    count_same(f"{words}: columns that are no keys", sorted({*head} - named), [])


def test_all_lists(archive):
    """Each word of the command with `--csv` has its columns in the manual, and each with `--json` its keys."""
    own = archive.command.main.commands
    options = {name: {it for parameter in command.params for it in parameter.opts} for name, command in own.items()}
    count_same("lists", {*map(word_of, tables())}, {name for name, it in options.items() if "--csv" in it})
    written = {word_of(words) for commands in WRITTEN_BY.values() for words in commands}
    count_same("keys", written, {name for name, it in options.items() if "--json" in it} | {"rows"})


def test_paragraphs():
    """Each key has words that say what it is."""
    for title, paragraphs in parts_of_section().items():
        short = [bold for bold, words in paragraphs if title != TABLES and (len(words.split()) < 2 or not words.strip().endswith("."))]
        count_same(f"{title}: keys without a sentence", short, [])
