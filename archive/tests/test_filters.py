"""Asks the lists of an index for some of their rows: what comes is what a loop over all rows chooses, for stores in SQLite and in PostgreSQL.

The index has messages at random, with signers and tokens of chosen names, algorithms and times, in folders whose names begin alike; it is loaded from
lines of `rows`. 0 rows are wanted as well as all.
"""

import json
import subprocess
from itertools import islice
from random import Random

import pytest
from counting import count_if, count_same, needs, needs_server
from making import write_files
from running import SECONDS, command, environment_of, lines_of, ran, words_of

pytestmark = [pytest.mark.archive, needs("click", "tqdm", "sqlalchemy", "cryptography", tools=["openssl"])]
MESSAGES = 400
STATES = ("fits", "does not fit", "content not found", "no digest to compare")
NAMES = ("CN=Alice,O=Example", "CN=Bob 100%", "CN=alice_2", "CN=Zoë", None)
FOLDERS = ("/archive", "/archive/a", "/archive/a b", "/archive/a/b", "/archive/a%", "/archive/A", "/archive0")
TIMES = ("2023-12-31T23:59:59Z", "2024-01-01T00:00:00Z", "2024-02-29T12:00:00.5Z", "2024-02-29T12:00:01Z", "2025-06-01T00:00:00Z", None)
DIGESTS, SIGNATURES, KEYS = ("sha1", "sha256", "sha512"), ("rsa-sha256", "ecdsa-sha256"), ("RSA", "secp256r1")


def signer_at_random(random, like, number):
    names = {"subject": random.choice(NAMES), "issuer": random.choice(NAMES), "signing_time": random.choice(TIMES)}
    return {**like, **names, "number": str(number), "digest": random.choice(DIGESTS), "signature": random.choice(SIGNATURES), "key": random.choice(KEYS), "certificate": "rsa-sha1"}


def row_at_random(random, like, number):
    """Returns a row of a message with signers and tokens, or of a text."""
    row = {**like, "path": f"{random.choice(FOLDERS)}/{number}.p7s", "digest": f"{number:064x}", "length": random.randrange(100), "is_der": random.random() < 0.5}
    signers = [signer_at_random(random, like["signed_by"][0], it) for it in range(random.choice((0, 1, 1, 2)))]
    token = {"policy": "1.2.3", "serial": "5", **dict.fromkeys(("subject", "not_after", "signature", "key", "bits", "imprint"))}
    times = [{**token, "number": f"0/{it}", "time": random.choice(TIMES), "digest": random.choice(DIGESTS), "state": random.choice(STATES)} for it in range(random.choice((0, 0, 1, 2)))]
    return {**row, "signed_by": signers, "times": times, "state": random.choice(STATES), "findings": random.choice(("", "F10 digest algorithm not listed"))}


@pytest.fixture(scope="module")
def rows(shared_home, make):
    """The lines of an index, one in ten of them that of a text."""
    folder = write_files(shared_home / "one of them", {"a.p7m": make.cms(b"text", "-nodetach"), "a.txt": b"text"})
    text, message = [json.loads(it) for it in command(shared_home, "rows", folder).splitlines() if "path" in it][::-1]
    random = Random(24)
    made = [row_at_random(random, message, number) for number in range(MESSAGES)]
    texts = [{**text, "path": f"{random.choice(FOLDERS)}/{number}.txt"} for number in range(MESSAGES // 10)]
    return sorted([*made, *texts], key=lambda it: it["path"].encode())


def loaded(home, rows, url):
    lines = "".join(f"{json.dumps(it)}\n" for it in rows) + json.dumps({"end": len(rows)}) + "\n"
    done = subprocess.run(words_of("load", "--store", url), cwd=home, env=environment_of(home), input=lines, capture_output=True, text=True, timeout=SECONDS)
    assert done.returncode == 0, done.stderr
    return url


def is_under(row, path):
    return row["path"] == path or row["path"].startswith(f"{path.rstrip('/')}/")


def is_in(time, since, until):
    return time is not None and (since is None or time >= since) and (until is None or time[: len(until)] <= until)


def chosen(row, signers, times, state="", under=None, signer=None, algorithm=None, since=None, until=None):
    """Whether a row with these signers and tokens of its message is wanted; `state` is that of the list's own rows."""
    if under is not None and not is_under(row, under):
        return False
    if signer is not None and not any(signer.lower() in (it[name] or "").lower() for it in signers for name in ("subject", "issuer")):
        return False
    if algorithm is not None and not any(algorithm in (it["digest"], it["signature"], it["key"], it["certificate"]) for it in signers):
        return False
    if (since or until) and not any(is_in(it, since, until) for it in (*(it["signing_time"] for it in signers), *(it["time"] for it in times))):
        return False
    return not state or row["state"] == state


ASKED = {"under": ("/archive", "/archive/a", "/archive/a/b/", "/archive/a%", "/archive0", "/"), "state": STATES[:3], "signer": ("alice", "100%", "_", "zoë", "nobody"),
         "algorithm": ("sha1", "RSA", "rsa-sha1", "md5"), "since": ("2024", "2024-02-29T12:00", "2026"), "until": ("2023", "2024-02-29", "2025-06-01T00:00:00")}


def choices(random):
    """Gives what may be asked for: each by itself, and some together."""
    yield {}
    for name, texts in ASKED.items():
        yield from ({name: it} for it in texts)
    for _ in range(8):
        yield {name: random.choice(texts) for name, texts in random.sample([*ASKED.items()], 2)}


def words_for(asked):
    return [word for name, text in asked.items() for word in (f"--{name}", text)]


def names_of(rows, *columns):
    return [tuple(it[column] for column in columns) for it in rows]


def try_filters(home, rows, url, step=1):
    """Asks for every so many of what may be asked for."""
    messages = [it for it in rows if it["what"] == "message"]
    for asked in islice(choices(Random(25)), 0, None, step):
        words, name = words_for(asked), f"{asked} of {url[:6]}"
        of_message = [it for it in messages if chosen(it, it["signed_by"], it["times"], **asked)]
        came = [json.loads(it) for it in ran_of_any_status(home, "check", "--all", *words, "--store", url, "--json")]
        count_same(f"check, {name}", names_of(came, "path"), names_of(of_message, "path"))
        came = lines_of(home, "changed", *words, "--store", url)
        count_same(f"changed, {name}", names_of(came, "path"), names_of((it for it in of_message if not it["is_der"]), "path"))
        wanted = [(row["path"], it["number"]) for row in messages for it in row["signed_by"] if chosen(row, [it], [], **asked)]
        count_same(f"signers, {name}", names_of(lines_of(home, "signers", *words, "--store", url), "path", "number"), wanted)
        wanted = [(row["path"], it["number"]) for row in messages for it in row["times"] if is_time_chosen(row, it, **asked)]
        count_same(f"times, {name}", names_of(lines_of(home, "times", *words, "--store", url), "path", "number"), wanted)


def is_time_chosen(row, time, state="", signer=None, algorithm=None, since=None, until=None, under=None):
    """Whether a token is wanted: by its own state, algorithm and time, and by the signers of its message."""
    if state and time["state"] != state or algorithm is not None and time["digest"] != algorithm:
        return False
    if (since or until) and not is_in(time["time"], since, until):
        return False
    return chosen(row, row["signed_by"], [time], signer=signer, under=under)


def ran_of_any_status(home, *words):
    done = subprocess.run(words_of(*words), cwd=home, env=environment_of(home), capture_output=True, text=True, timeout=SECONDS)
    assert done.returncode in (0, 1), done.stderr
    return done.stdout.splitlines()


def test_filters(home, rows):
    try_filters(home, rows, loaded(home, rows, "chosen.db"))


@needs_server
def test_filters_in_postgresql(home, rows, server):
    try_filters(home, rows, loaded(home, rows, server.make_database("chosen")), step=3)


def test_order(home, rows):
    """`--sort` and `--limit`: the first rows in the order of a column, and those without a value last."""
    url = loaded(home, rows, "sorted.db")
    signers = sorted(((it["signing_time"] or "~", row["path"], it["number"]) for row in rows for it in row["signed_by"]), key=lambda it: [part.encode() for part in it])
    for limit in (0, 1, 7, len(signers), 10 * len(signers)):
        came = lines_of(home, "signers", "--sort", "signing_time", "--limit", limit, "--store", url)
        count_same(f"signers, the first {limit}", [it["signing_time"] or "~" for it in came], [it[0] for it in signers[:limit]])
    by_length = sorted((it for it in rows if it["what"] == "message" and not it["is_der"]), key=lambda it: (it["length"], it["path"].encode()))
    count_same("changed, by length", names_of(lines_of(home, "changed", "--sort", "length", "--store", url), "path"), names_of(by_length, "path"))
    count_same("algorithms, the first 2", len(lines_of(home, "algorithms", "--limit", 2, "--store", url)), 2)
    weak = lines_of(home, "algorithms", "--weak", "--under", "/archive/a", "--store", url)
    wanted = sorted(row["path"] for row in rows if is_under(row, "/archive/a") for it in row["signed_by"] if it["digest"] == "sha1")
    count_same("algorithms --weak", sorted(it["path"] for it in weak if it["of"] == "signer"), wanted)
    counted = lines_of(home, "algorithms", "--signer", "alice", "--since", "2024", "--until", "2024", "--store", url)
    wanted = [it for row in rows for it in row["signed_by"] if chosen(row, [it], [], signer="alice", since="2024", until="2024")]
    count_same("algorithms of some", sum(it["signers"] for it in counted if it["of"] == "signer"), len(wanted))


def test_files(home, rows):
    url = loaded(home, rows, "files.db")
    texts = [it for it in rows if it["what"] == "text"]
    count_same("files without a message", names_of(lines_of(home, "files", "--store", url), "path"), names_of(texts, "path"))
    count_same("all files", names_of(lines_of(home, "files", "--all", "--store", url), "path"), names_of(rows, "path"))
    some = [it for it in texts if is_under(it, "/archive/a")]
    count_same("files of a folder", names_of(lines_of(home, "files", "--under", "/archive/a", "--store", url), "path"), names_of(some, "path"))


@pytest.mark.parametrize("words, said", [
    (("--state", "good"), "--state is one of: fits, "), (("--since", "yesterday"), "--since is a time in UTC"), (("--until", "2024-1"), "--until is a time in UTC"),
    (("--sort", "nothing"), "--sort is one of: "), (("--limit", "-1"), "is not in the range"),
], ids=str)
def test_bad_words(home, rows, words, said):
    url = loaded(home, rows[:3], "bad.db")
    for word in ("check", "signers", "times", "changed", "refusals", "others", "files"):
        done = ran(home, word, *words, "--store", url, status=2)
        count_if(f"{word} {' '.join(words)}", said in done.stderr and "Traceback" not in done.stderr, done.stderr)
