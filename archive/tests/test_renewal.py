"""Asks which signatures need renewal by a day: of messages that are signed and stamped here, and of rows at random.

For the rows a loop of the test decides by the words of the manual, in SQLite and in PostgreSQL; the days are few, so that many of them are the very
day that is asked. Policies that are none end the command with one line that says where they are wrong.
"""

import json
import re
import subprocess
from datetime import date, timedelta
from random import Random

import pytest
from cases import ARCHIVE_TIME_STAMP, DOCUMENT, SIGNER_INFO, TIME_STAMP, Maker, last_of, with_unsigned
from counting import count_if, count_same, is_line, needs
from elements import element_at
from making import write_files
from running import command, ended, lines_of, load_lines, ran

pytestmark = [pytest.mark.archive, needs("click", "tqdm", "sqlalchemy", "cryptography", tools=["openssl"])]
MESSAGES = 600
FOREVER = "9999-12-31"
POLICY = """\
[digests]
sha256 = 9999-12-31
sha1 = 2025-01-01
[signatures]
rsa = 9999-12-31
rsa-sha256 = 9999-12-31
ecdsa-sha256 = 2027-01-01
[keys]
secp256r1 = 9999-12-31
[keys.RSA]
2048 = 9999-12-31
1024 = 2026-01-01
"""
DAYS = ("2024-06-01", "2025-01-01", "2026-01-01", "2027-01-01", "2028-01-01")
ENDS = (*(f"{it}T{time}Z" for it in DAYS for time in ("00:00:00", "12:00:00")), None)
TIMES = (*(f"{it}T{time}Z" for it in DAYS for time in ("00:00:00", "12:00:00", "12:00:00.5", "12:00:01", "23:59:59.9")), None)
DIGESTS, SIGNATURES = ("sha256", "sha256", "sha256", "sha1", "1.2.3"), ("rsa", "rsa-sha256", "ecdsa-sha256", "1.2.4")
KEYS = (("RSA", 2048), ("RSA", 4096), ("RSA", 1024), ("RSA", 1023), ("RSA", None), ("secp256r1", 256), ("secp256r1", None), ("Ed25519", None), (None, None))
STATES = ("fits", "fits", "fits", "does not fit", "covers more than was compared", "no digest to compare")
LAST = {"sha256": FOREVER, "sha1": "2025-01-01", "rsa": FOREVER, "rsa-sha256": FOREVER, "ecdsa-sha256": "2027-01-01", "secp256r1": FOREVER}


# ---- messages that are signed and stamped here


def make_authority(folder, days):
    """Returns what signs and stamps, of which the certificate of time-stamps is good for so many days."""
    made = Maker(folder)
    made.run(f"openssl req -x509 -key tsa.key -out tsa.pem -subj /CN=TSA{days} -days {days}", "-addext", "extendedKeyUsage=critical,timeStamping")
    return made


def end_of(made, name):
    """Returns the day on which a certificate ends, by openssl."""
    said = made.run(f"openssl x509 -in {name}.pem -noout -enddate -dateopt iso_8601").decode()
    return re.search(r"\d{4}-\d\d-\d\d", said)[0]


def stamped(made, der, *others, oid=TIME_STAMP):
    """Returns a message with a time-stamp of its signature in each of these attributes."""
    signature = element_at(last_of(der, SIGNER_INFO)).members[-1].contents
    return with_unsigned(der, {oid: made.token(signature), **dict(others)})


@pytest.fixture(scope="module")
def archived(shared_home, make):
    """A store of signed messages and tokens, with a policy, and the days on which the certificates end."""
    long, short = make_authority(shared_home / "long", 4000), make_authority(shared_home / "short", 30)
    signed = make.cms(DOCUMENT, "-nodetach")
    files = {
        "none.p7m": signed,
        "long.p7m": stamped(long, signed),
        "short.p7m": stamped(short, signed),
        "other.p7m": with_unsigned(signed, {TIME_STAMP: long.token(b"other")}),
        "archived.p7m": stamped(long, signed, oid=ARCHIVE_TIME_STAMP),
        "both.p7m": stamped(short, signed, (ARCHIVE_TIME_STAMP, long.token(b"other"))),
        "bare.p7m": make.cms(DOCUMENT, "-nodetach", "-nocerts"),
        "long.tst": long.token(DOCUMENT), "long": DOCUMENT, "short.tst": short.token(DOCUMENT), "short": DOCUMENT, "alone.tst": long.token(DOCUMENT),
        "changed.tsr": long.stamp(DOCUMENT), "changed": b"changed", "query.tsq": make.query(DOCUMENT), "text.txt": b"text",
    }
    write_files(shared_home / "archive", files)
    command(shared_home, "index", shared_home / "archive", "--jobs", 1, "--store", "index.db")
    (shared_home / "policy.toml").write_text(POLICY, encoding="ascii")
    ends = {"signer": end_of(make, "signer"), "long": end_of(long, "tsa"), "short": end_of(short, "tsa")}
    return shared_home, ends


def due(archived, by, *words, status=1):
    home, _ = archived
    rows = lines_of(home, "renewal", "--by", by, "--policy", "policy.toml", "--store", "index.db", *words, status=status)
    return {it["file"].rpartition("/")[2]: (it["until"], it["why"]) for it in rows}


def test_messages(archived):
    """What protects a signature is a time-stamp that fits, until its certificate ends; what is not known is listed first."""
    _, ends = archived
    always = {
        "alone.tst": (None, "time-stamp: content not found"),
        "bare.p7m": (None, "no time-stamp; end of the certificate not known; key not known"),
        "changed.tsr": (None, "time-stamp: does not fit"),
        "archived.p7m": (ends["signer"], "time-stamp 0/0: covers more than was compared"),
        "none.p7m": (ends["signer"], "no time-stamp"),
        "other.p7m": (ends["signer"], "time-stamp 0/0: does not fit"),
    }
    count_same("by a day on which all certificates are good", due(archived, ends["short"]), always)
    after = str(date.fromisoformat(ends["short"]) + timedelta(1))
    ended_by_then = f"certificate ends {ends['short']}"
    more = {
        "both.p7m": (ends["signer"], f"time-stamp 0/1: {ended_by_then}"), "short.p7m": (ends["signer"], f"time-stamp 0/0: {ended_by_then}"),
        "short.tst": (ends["short"], ended_by_then),
    }
    found = due(archived, after)
    numbers = {name: (until, re.sub(r"0/\d", "0/N", why)) for name, (until, why) in found.items()}
    wanted = {name: (until, re.sub(r"0/\d", "0/N", why)) for name, (until, why) in {**always, **more}.items()}
    count_same("a day after the first ends", numbers, wanted)
    order = [until or "" for until, _ in found.values()]
    count_same("in the order of their ends, with what is not known first", order, sorted(order))
    late = str(date.fromisoformat(ends["long"]) + timedelta(1))
    count_if("after all certificates", {"long.p7m", "long.tst"} <= set(due(archived, late)) and "query.tsq" not in due(archived, late), due(archived, late))


def test_words(archived):
    """The status says whether there is anything to do; folders, numbers and forms choose and write as in other lists."""
    home, ends = archived
    count_same("the first two", [*due(archived, ends["long"], "--limit", 2)], ["alone.tst", "bare.p7m"])
    count_same("no rows are asked for", due(archived, ends["long"], "--limit", 0, status=0), {})
    one = home / "archive" / "none.p7m"
    count_same("under a file", [*due(archived, ends["long"], "--under", one)], ["none.p7m"])
    count_same("nothing to do", due(archived, ends["short"], "--under", home / "archive" / "long.p7m", status=0), {})
    line = command(home, "renewal", "--by", ends["short"], "--policy", "policy.toml", "--store", "index.db", "--under", one, status=1)
    count_same("fields with tabs", line, f"no time-stamp\t{ends['signer']}\tCN=Signer\t0\t{one}\n")
    text = command(home, "renewal", "--by", ends["short"], "--policy", "policy.toml", "--store", "index.db", "--under", one, "--csv", status=1)
    count_same("CSV", text, f"why,until,subject,number,file\nno time-stamp,{ends['signer']},CN=Signer,0,{one}\n")
    shipped = ran(home, "renewal", "--by", "1999-12-31", "--store", "index.db", status=1)
    count_same("the policy that is installed", (shipped.stderr, shipped.stdout.count("\n")), ("", 6))
    with open("/dev/full", "w") as full:
        done = ended(home, "renewal", "--by", ends["short"], "--store", "index.db", stdout=full, stderr=subprocess.PIPE, capture_output=False)
    count_if("a full disk", done.returncode == 1 and is_line(done.stderr, "No space left"), done)


def test_wrong_words(archived):
    home, _ = archived
    for by in ("2030", "2030-13-01", "2030-1-1", "20300101", "2030-02-30", "2030-01-01T00:00", "", "٢٠٣٠-01-01"):
        done = ended(home, "renewal", "--by", by, "--store", "index.db")
        count_if(f"--by {by!r}", done.returncode == 2 and "--by is a day as 2030-12-31" in done.stderr and not done.stdout, done)
    for words, status in (((), 2), (("--by", "2030-01-01", "--store", "none.db"), 1), (("--by", "2030-01-01", "--limit", "-1"), 2)):
        done = ended(home, "renewal", *words)
        count_if(f"words {words}", done.returncode == status and not done.stdout and "Traceback" not in done.stderr and done.stderr, done)


# ---- policies

WRONG_POLICIES = {
    "not TOML": (b"[digests\n", "(at line 1, column"), "twice": (POLICY.encode() + b"[digests]\n", "(at line 13, column"), "not UTF-8": (b"\xff", "utf-8"),
    "empty": (b"", "there is no [digests]"), "a part is missing": (b"[digests]\n[keys]\n", "there is no [signatures]"),
    "another part": (POLICY.encode() + b"[hashes]\n", "hashes is no part of a policy"), "no table": (b"digests = 1\n", "there is no [digests]"),
    "no day": (POLICY.replace("2025-01-01", "'2025-01-01'").encode(), "digests.sha1 is not a day"),
    "a moment": (POLICY.replace("2025-01-01", "2025-01-01T00:00:00").encode(), "digests.sha1 is not a day"),
    "no such day": (POLICY.replace("2025-01-01", "2025-02-30").encode(), "(at line 3, column"),
    "a list": (POLICY.replace("2025-01-01", "[2025-01-01]").encode(), "digests.sha1 is not a day"),
    "no bits": (POLICY.replace("1024 =", "short =").encode(), "keys.RSA.short: short is no number of bits"),
    "negative bits": (POLICY.replace("1024 =", "-1024 =").encode(), "-1024 is no number of bits"),
    "no day of bits": (POLICY.replace("2026-01-01", "true").encode(), "keys.RSA.1024 is not a day"),
    "a table of digests": (POLICY.replace("sha1 = 2025-01-01", "sha1 = {a = 2025-01-01}").encode(), "digests.sha1 is not a day"),
    "too long": (POLICY.encode() + b"#" * (1 << 16), "at most 65,536 octets"), "deep": (b"a = " + b"[" * 60000, "policy.toml"),
    "a control character": (POLICY.encode() + b'["\\u001b[2J"]\n', "\\x1b[2J is no part of a policy"),
}


@pytest.mark.parametrize("name", WRONG_POLICIES)
def test_wrong_policies(home, archived, name):
    octets, said = WRONG_POLICIES[name]
    (home / "policy.toml").write_bytes(octets)
    done = ended(home, "renewal", "--by", "2030-01-01", "--policy", "policy.toml", "--store", archived[0] / "index.db")
    lines = done.stderr.splitlines()
    count_if(name, done.returncode == 2 and not done.stdout and lines[-1].startswith("Error: policy.toml: ") and said in lines[-1], done)


def test_missing_policies(home, archived):
    store = archived[0] / "index.db"
    for name, path in (("a file that is not there", "none.toml"), ("a folder", home)):
        done = ended(home, "renewal", "--by", "2030-01-01", "--policy", path, "--store", store)
        count_if(name, done.returncode == 2 and not done.stdout and str(path) in done.stderr.splitlines()[-1], done)
    write_files(home, {f"{it}.py": b"raise ImportError\n" for it in ("tomllib", "tomli")})
    done = ended(home, "renewal", "--by", "2030-01-01", "--store", store)
    count_if("no reader of TOML", done.returncode == 2 and not done.stdout and "by the package tomli" in done.stderr.splitlines()[-1], done)


def test_shipped_policy(archive):
    """The installed policy has each algorithm that the index knows by a name, and none outlasts the digest in its name."""
    policy, judging = archive.policy.policy_in(), archive.judging
    signatures = set(judging._SIGNATURES.values()) - {"ec"}  # which names a key
    count_same("signature algorithms", set(policy.signatures), signatures)
    count_same("digests", set(policy.digests), {*judging._DIGESTS.values(), *judging._HASHES})
    longer = [it for it, day in policy.signatures.items() if day > policy.digests.get(it.partition("-")[2] or "sha256", FOREVER)]
    count_same("no signature outlasts its digest", longer, [])
    curves = {"secp256r1", "secp384r1", "secp521r1", "brainpoolP256r1", "brainpoolP384r1", "brainpoolP512r1", "Ed25519", "Ed448"}
    count_same("keys", ({*policy.keys} >= curves, [*policy.lengths]), (True, ["RSA", "DSA"]))
    for key, bits, is_known in (("RSA", 1023, False), ("RSA", 1024, True), ("RSA", None, False), ("DSA", 2048, True), ("secp256r1", None, True), (None, 256, False)):
        count_same(f"{key} {bits}", policy.of_key(key, bits) is not None, is_known)
    days = [policy.of_key("RSA", it) for it in (1024, 1899, 1900, 2999, 3000, 16384)]
    count_if("longer keys last as long or longer", days == sorted(days) and days[0] == days[1] < days[2] == days[3] < days[4] == days[5], days)


# ---- rows at random


def algorithms_at_random(random):
    key, bits = random.choice(KEYS) if random.random() < 0.3 else KEYS[0]
    digest, signature = (random.choice(it) if random.random() < 0.3 else it[0] for it in (DIGESTS, SIGNATURES))
    return {"digest": digest, "signature": signature, "key": key, "bits": bits, "not_after": random.choice(ENDS)}


def time_at_random(random, like, number):
    return {**like, **algorithms_at_random(random), "number": number, "time": random.choice(TIMES), "state": random.choice(STATES), "subject": "CN=TSA"}


def row_at_random(random, like, number):
    """Returns a row of a message with signers, countersigners and time-stamps, or of a token."""
    signers = random.choice(("0", "0", "0", "0 1", "0 0.0 1", "0 1 10"))
    signed = [{**like["signed_by"][0], **algorithms_at_random(random), "number": it, "subject": f"CN={number}"} for it in signers.split()]
    stamps = [f"{it}/{n}" for it in signers.split() for n in range(random.choice((0, 1, 1, 2, 3)))]
    times = [time_at_random(random, like["times"][0], it) for it in stamps]
    if random.random() < 0.3:
        signed = signed[:1]
        times = [time_at_random(random, like["times"][0], ""), *(it for it in times if it["number"].startswith("0/"))]
    return {**like, "path": f"/archive/{number % 7}/{number}.p7s", "digest": f"{number:064x}", "signed_by": signed, "times": times}


def last_day(one):
    """Returns the last moment at which a signature is good by itself, as the policy of the test has it; None if it is not known."""
    lengths = {(it, bits): (FOREVER if bits >= 2048 else "2026-01-01") if bits and bits >= 1024 else None for it, bits in KEYS if it == "RSA" for bits in [bits]}
    key = lengths[one["key"], one["bits"]] if one["key"] == "RSA" else LAST.get(one["key"])
    days = [LAST.get(one["digest"]), LAST.get(one["signature"]), key]
    if None in days or one["not_after"] is None:
        return None
    return min([one["not_after"], *(f"{it}T23:59:59Z" for it in days)])


def wanted_of(row, by):
    """Gives the number of each signer that needs renewal, until when it is protected, and whether that is for lack of a time-stamp."""
    own_time = next((it for it in row["times"] if it["number"] == ""), None)
    for signer in row["signed_by"]:
        if "." in signer["number"]:
            continue
        own = last_day(signer)
        if own_time is not None and own is not None:
            imprint = LAST.get(own_time["digest"])
            own = imprint and min(own, f"{imprint}T23:59:59Z")
        stamps = [it for it in row["times"] if it["number"].startswith(f"{signer['number']}/")]
        good = [it for it in stamps if it["state"] == "fits" and it["time"] and own and it["time"][:19] <= own[:19]]
        stamp = max(filter(None, map(last_day, good)), default=None)
        either = max(filter(None, (own, stamp)), default=None)
        if own_time is not None:
            either = either if own_time["state"] == "fits" else None
        last = either if own_time is not None else stamp
        if last is None or last[:10] < by:
            yield signer["number"], either and either[:10]


@pytest.fixture(scope="module")
def rows(shared_home, make):
    """The lines of an index."""
    folder = write_files(shared_home / "one of them", {"a.p7m": make.cms(b"text", "-nodetach"), "b.tst": make.token(b"text"), "b": b"text"})
    made = [json.loads(it) for it in command(shared_home, "rows", folder).splitlines() if "path" in it]
    (message,), (token,) = ([it for it in made if it["path"].endswith(name)] for name in ("a.p7m", "b.tst"))
    like = {**message, "times": token["times"]}
    random = Random(25)
    return [row_at_random(random, like, number) for number in range(MESSAGES)]


def test_random_rows(archive, home, rows, new_store):
    """What is listed, until when, and the years of all, are as a loop over the rows decides; each has a reason."""
    load_lines(home, rows, new_store)
    (home / "policy.toml").write_text(POLICY, encoding="ascii")
    policy, store = archive.policy.policy_in(home / "policy.toml"), archive.store.Store(new_store)
    for by in (*DAYS, "2000-01-01", "2028-01-02", FOREVER):
        found = list(archive.renewal.renewal(store, policy, by))
        came = {(it["path"], it["number"]): it["until"] for it in found}
        wanted = {(row["path"], number): until for row in rows for number, until in wanted_of(row, by)}
        count_same(f"by {by}", came, wanted)
        order = [(it["until"] or "", it["path"], it["number"]) for it in found]
        count_if(f"the order by {by}", order == sorted(order) and len(came) == len(found), order[:5])
        count_same(f"a reason for each by {by}", [it for it in found if not it["why"]], [])
    wanted = years_of(rows)
    with store.engine.connect() as connection:
        count_same("years", archive.renewal.years(connection, policy), wanted)
    filters = archive.filters.Filters(under="/archive/3", limit=4)
    some = [(it["path"], it["number"]) for it in archive.renewal.renewal(store, policy, "2026-01-01", filters)]
    every = [(it["path"], it["number"]) for it in archive.renewal.renewal(store, policy, "2026-01-01") if it["path"].startswith("/archive/3/")]
    count_same("under a folder, the first four", some, every[:4])
    store.close()


def years_of(rows):
    """Counts all signers by the year until which they are protected: by the day after all, each is listed that does not last for ever."""
    found = {}
    for row in rows:
        for _, until in wanted_of(row, "9999-12-32"):
            year = until and int(until[:4])
            found[year] = found.get(year, 0) + 1
    return found


def test_many_signers(archive, home, rows):
    """A message with so many signers that the store may not have all is listed as not known, however well the others are protected."""
    good = {"digest": "sha256", "signature": "rsa", "key": "RSA", "bits": 2048, "not_after": "2090-01-01T00:00:00Z"}
    signers = [{**rows[0]["signed_by"][0], **good, "number": str(it)} for it in range(1000)]
    times = [{**next(it for row in rows for it in row["times"]), **good, "number": f"{it}/0", "time": "2024-01-01T00:00:00Z", "state": "fits"} for it in range(1000)]
    made = [{**rows[0], "path": f"/archive/{count}.p7s", "signed_by": signers[:count], "times": times[:count]} for count in (999, 1000)]
    load_lines(home, made, f"sqlite:///{home}/many.db")
    (home / "policy.toml").write_text(POLICY, encoding="ascii")
    found = lines_of(home, "renewal", "--by", "2080-01-01", "--policy", "policy.toml", "--store", "many.db", status=1)
    count_same("a thousand signers", [(it["file"], it["number"], it["until"]) for it in found], [("/archive/1000.p7s", "", None)])
