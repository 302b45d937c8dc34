"""Has an index say what came of messages whose rows are made at random, in SQLite and in PostgreSQL: a loop over the rows decides it by the words of the manual."""

import json
import re
from random import Random

import pytest
from counting import count_if, count_same, needs
from making import write_files
from running import command, lines_of, load_lines, ran

pytestmark = [pytest.mark.archive, needs("click", "tqdm", "sqlalchemy", "cryptography", tools=["openssl"])]
FITS, DIFFERS, NOT_KNOWN = 0, 1, 3
MESSAGES = 400
DOUBTS = ("readers differ on ", "not all of its time-stamps are looked at")
STATES = ("fits", "fits", "fits", "does not fit", "fits an earlier revision", "content not found", "no signature", None)
TIMES = ("fits", "fits", "fits", "does not fit", "no digest to compare", None)
KINDS = ("signature", "signature", "token", "response", "request", "certificates", None)
NOTES = ("", "", "", "readers differ on a.txt", "one of the others; readers differ on a.txt", "covers a.txt", f"{DOUBTS[1]}; covers a.txt")


def row_at_random(random, like, number):
    fits = random.random() < 0.5
    times = [{**like["times"][0], "number": f"0/{it}", "state": "fits" if fits else random.choice(TIMES)} for it in range(random.choice((0, 0, 1, 2, 5)))]
    return {
        **like, "path": f"/archive/{number % 7}/{number}.p7s", "digest": f"{number:064x}", "times": times, "kind": random.choice(KINDS),
        "state": "fits" if fits else random.choice(STATES), "verdict": random.choice((None, None, "right", "wrong", "unknown")), "note": random.choice(NOTES),
        "findings": random.choice(("", "", "F7 signer 0 message digest differs")),
    }


@pytest.fixture(scope="module")
def rows(shared_home, make):
    folder = write_files(shared_home / "one of them", {"a.p7m": make.cms(b"text", "-nodetach"), "b.tst": make.token(b"text"), "b": b"text"})
    made = [json.loads(it) for it in command(shared_home, "rows", folder).splitlines() if "path" in it]
    (message,), (token,) = ([it for it in made if it["path"].endswith(name)] for name in ("a.p7m", "b.tst"))
    like, random = {**message, "times": token["times"]}, Random(78)
    some = [row_at_random(random, like, number) for number in range(MESSAGES)]
    return some


def is_signed(row):
    return row["kind"] not in ("request", "certificates")


def outcome_of(row):
    states = [row["state"], *(it["state"] for it in row["times"])]
    if "does not fit" in states or row["verdict"] == "wrong":
        return DIFFERS
    is_doubted = any(it in row["note"] for it in DOUBTS)
    is_known = (set(states) == {"fits"} and row["verdict"] != "unknown") or not is_signed(row)
    return FITS if is_known and not is_doubted else NOT_KNOWN


def test_outcomes(archive, home, rows, new_store):
    """What came of each message, which are listed, and the status, of all and below each folder, whatever is listed."""
    load_lines(home, rows, new_store)
    wanted = {row["path"]: outcome_of(row) for row in rows}
    count_if("of each kind", set(wanted.values()) == {FITS, DIFFERS, NOT_KNOWN}, wanted)
    came = {it["path"]: it["outcome"] for it in lines_of(home, "check", "--all", "--store", new_store, status=DIFFERS)}
    count_same("each outcome", came, wanted)
    listed = [it["path"] for it in lines_of(home, "check", "--store", new_store, status=DIFFERS)]
    count_same("what is listed", listed, sorted(row["path"] for row in rows if wanted[row["path"]] != FITS or (is_signed(row) and row["findings"])))
    count_same("the first two", [it["path"] for it in lines_of(home, "check", "--limit", 2, "--store", new_store, status=DIFFERS)], listed[:2])
    store = archive.store.Store(new_store)
    for row in rows:
        found = archive.queries.outcomes(store, archive.filters.Filters(under=row["path"], limit=1))
        count_same(f"the outcome of {row['path']}", [int(it) for it in found], [wanted[row["path"]]])
    for path in ({wanted[it["path"]]: it["path"] for it in rows}).values():
        for words in ((), ("--limit", 1), ("--noted",)):
            ran(home, "check", "--under", path, *words, "--store", new_store, status=wanted[path])


KNOWN = ("a certificate (X.509)", "covers a.txt; a private key (PKCS #8)", "an encrypted message (CMS EnvelopedData)")
UNKNOWN = ("a compressed message (CMS CompressedData)", "PEM, and its first block is a certificate (X.509)", "a certificate (X.509), in place of a signature", "", "covers a.txt", "a certificate (X.509), or not", "PEM, and the label of its first block is CMS", "readers differ on a.txt; a certificate (X.509)")


def other(like, what, note, number):
    """Returns a row of what is no message."""
    of_message = dict.fromkeys(("digest", "kind", "signers", "is_der", "state", "verdict", "time", "content", "content_type"))
    refusal = {"reason": 7, "name": "UnexpectedElement", "at": 4} if what == "refused" else {}
    error = note if what in ("damaged", "too large", "unreadable") else None
    return {**like, **of_message, **refusal, "what": what, "note": note, "error": error, "findings": "", "signed_by": [], "times": [], "path": f"/others/{what}/{number}"}


def test_what_is_no_message(archive, home, rows, new_store):
    """What may have messages of which nothing is known is counted, and is no all-clear; a certificate, a text and a container are none of it."""
    like, classes = rows[0], ("refused", "damaged", "too large", "unreadable", "container without message", "text")
    made = [other(like, what, note, number) for what in classes for number, note in enumerate((*KNOWN, *UNKNOWN))]
    load_lines(home, made, new_store)
    for what in classes:
        differing = {"refused": 1, "container without message": 1, "text": 1}.get(what, 0)
        unread = {"refused": len(UNKNOWN) - 1, "container without message": 0, "text": 0}.get(what, len(KNOWN) + len(UNKNOWN))
        said = ran(home, "check", "--under", f"/others/{what}", "--store", new_store, status=NOT_KNOWN).stderr
        found = [re.search(f"^(\\d+) files? or members? (is|are) {it}", said, re.M) for it in ("refused", "taken otherwise")]
        count_same(what, [int(it[1]) if it else 0 for it in found], [unread, differing])
    store = archive.store.Store(new_store)
    for row in made:
        is_known = row["note"] in KNOWN or "readers differ" not in row["note"] and row["what"] in classes[4:]
        is_known = is_known and row["what"] not in ("damaged", "too large", "unreadable")
        found = archive.queries.unknown(store, archive.filters.Filters(under=row["path"]))
        count_same(f"{row['path']}", sum(found), int(not is_known))
