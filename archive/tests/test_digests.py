"""Compares what `cms-canon-archive duplicates --of` finds among the digests of several stores with what is counted here, and damages them."""

import json
import re
import shutil
from pathlib import Path
from random import Random

import pytest
from counting import count_if, count_same, is_line, needs
from making import grouped, row_with
from running import command, command_says, lines_of

pytestmark = [pytest.mark.archive, needs("click", "tqdm", "sqlalchemy", "cryptography", "numpy")]
SEED = 2718
ROWS = 6000  # of each store
STORES = 3
KINDS = 2500  # of messages that there are
BUCKET = "??"  # how files of digests are named


def digest_of(random):
    """Returns a digest, of which some begin with the same 9 octets and are not the same, and some are."""
    number = random.randrange(KINDS)
    begin = Random(number // 3).randbytes(9) if number < KINDS // 2 else Random(number).randbytes(9)
    return (begin + Random(-number - 1).randbytes(23)).hex()


def row_of(archive, random, store, number):
    what = {"what": "message", "kind": "signature", "digest": digest_of(random)} if random.random() < 0.9 else {"what": "text"}
    return row_with(archive, f"/{store}/{number % 7}/{number}", member=random.choice(["", "", "m", "\u00e9"]), length=1, form="file", **what)


def groups_of(home, *folders):
    """Returns the groups that the command gives, by their digests."""
    text = command(home, "duplicates", "--json", "--of", *folders)
    return {it["digest"]: sorted(map(tuple, it["files"])) for it in map(json.loads, text.splitlines())}


def wanted_of(stores):
    """Returns the groups that there are, of the names in some stores by the folders of their digests."""
    found = grouped((digest, (folder, name)) for folder, names in stores.items() for digest, name in names)
    return {digest: sorted(some) for digest, some in found.items() if len(some) > 1}


@pytest.fixture(scope="module")
def stores(archive, shared_home):
    """The names in each of some stores, with their digests, by the folder to which the store wrote its digests."""
    stores = {}
    for number in range(STORES):
        random = Random(SEED + number)
        rows = [row_of(archive, random, number, it) for it in range(ROWS)]
        store = archive.store.Store(f"sqlite:///{shared_home}/{number}.db", makes=True)
        store.put([archive.reading.Part([row], True, True) for row in rows])
        store.close()
        command(shared_home, "digests", "--to", shared_home / f"{number}", "--store", f"{number}.db")
        stores[f"{shared_home}/{number}"] = [(it["digest"], it["path"] + (f"!{it['member']}" if it["member"] else "")) for it in rows if it["digest"]]
    return stores


def test_groups(home, stores):
    count_same("duplicates of three stores", groups_of(home, *stores), wanted_of(stores))
    for folder, names in stores.items():
        wanted = wanted_of({folder: names})
        count_same(f"duplicates of one, {Path(folder).name}", groups_of(home, folder), wanted)
        own = {it["digest"]: sorted(it["files"]) for it in lines_of(home, "duplicates", "--store", f"{folder}.db")}
        count_same("what the store says itself", own, {it: [name for _, name in some] for it, some in wanted.items()})
    table = command(home, "duplicates", "--of", *stores).splitlines()
    count_same("the table", len(table), sum(map(len, wanted_of(stores).values())))


@pytest.mark.parametrize("name, file, change", [
    ("a file that is cut", BUCKET, lambda octets: octets[:-1]),
    ("a row that is gone", BUCKET, lambda octets: octets[16:]),
    ("rows that are cut", "rows", lambda octets: octets[:-40]),
    ("names that are cut", "names", lambda octets: octets[:-1]),
    ("rows of other digests", "rows", lambda octets: bytes(len(octets))),
    ("numbers that are too large", BUCKET, lambda octets: b"".join(octets[it : it + 8] + b"\xff" * 8 for it in range(0, len(octets), 16))),
    ("another form", "about.json", lambda octets: octets.replace(b'"form": 1', b'"form": 2')),
    ("no JSON", "about.json", lambda octets: b"{"),
    ("no number of rows", "about.json", lambda octets: re.sub(rb'"rows": \d+', b'"rows": null', octets)),
])
def test_damaged(home, stores, name, file, change):
    """Digests that are not whole, or in which anything is another, are refused, and nothing is said of them."""
    other = shutil.copytree(next(iter(stores)), home / "damaged")
    largest = max(other.glob(BUCKET), key=lambda it: it.stat().st_size)
    path = largest if file == BUCKET else other / file
    path.write_bytes(change(path.read_bytes()))
    said = command_says(home, "duplicates", "--of", other, status=1)
    count_if(name, is_line(said) and said.startswith(f"Error: {other}: "), said[-300:])


def test_folders(home, stores):
    """A folder without digests is refused, and so is one to write to that is not empty."""
    (home / "empty").mkdir()
    said = command_says(home, "duplicates", "--of", home / "empty", status=1)
    count_if("a folder without digests", "there are no digests" in said, said)
    folder = next(iter(stores))
    said = command_says(home, "digests", "--to", folder, "--store", f"{folder}.db", status=1)
    count_if("a folder that is not empty", "the folder is not empty" in said, said)
