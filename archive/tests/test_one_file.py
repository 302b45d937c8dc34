"""Asks `check` and `inspect` of one file, without a store, and has `convert` copy folders.

- The status is 0 only if everything in the file is known to fit. What they say is what an index of the file stores.
- A document is compared whatever its length, from the disk or the standard input, and shows how much of it was read.
- Copies of folders are in folders of the same names; none leaves the folder of the copies, or is written over.
"""

import json
import os
import resource
import subprocess
from pathlib import Path

import pytest
from counting import count_if, count_same, needs
from elements import element, message as message_of
from making import write_files, zipped
from places import RELEASE
from running import AS_NOBODY, SECONDS, command, command_says, ended, environment_of, lines_of, ran, words_of

pytestmark = [pytest.mark.archive, needs("click", "tqdm", "cryptography", tools=["openssl"])]
DOCUMENT = b"A document.\n"
LONG = 2 << 30  # octets
FITS, DIFFERS, WRONG_WORDS, NOT_KNOWN = 0, 1, 2, 3
DATA = bytes.fromhex("06092a864886f70d010701")
UNSIGNED = message_of(b"\x02\x01\x01\x31\0", element(0x30, DATA), b"\x31\0")


@pytest.fixture(scope="module")
def folder(shared_home, make):
    detached, attached = make.cms(DOCUMENT), make.cms(DOCUMENT, "-nodetach")
    without = make.cms(DOCUMENT, "-noattr")
    mail = make.run("openssl cms -sign -signer signer.pem -inkey signer.key", octets=DOCUMENT)
    files = {
        "doc": DOCUMENT, "doc.p7s": detached, "elsewhere.p7s": detached, "other": b"Another document.\n", "attached.p7m": attached,
        "attached.pem": make.cms(DOCUMENT, "-nodetach", form="PEM"), "without.p7s": without, "unsigned.p7s": UNSIGNED, "mail.eml": mail,
        "token.tst": make.token(DOCUMENT), "cut.p7s": attached[:-1], "text.txt": b"text", "some.zip": zipped({"in.p7m": attached, "doc.p7s": detached, "doc": DOCUMENT}),
        "some other.zip": zipped({"in.p7m": attached, "doc.p7s": detached}), "damaged.zip": zipped({"in.p7m": attached})[:-30],
        "longer.p7m": attached + b"\0",
    }
    return write_files(shared_home / "one", files)


# Each with the file, the document if one is given, the status of `check`, and what is said first.
CASES = {
    "beside": ("doc.p7s", None, FITS, "fits: doc"), "given": ("elsewhere.p7s", "doc", FITS, "fits: doc"), "other": ("elsewhere.p7s", "other", DIFFERS, "does not fit: other"),
    "other than that beside": ("doc.p7s", "other", DIFFERS, "does not fit: other"), "not there": ("elsewhere.p7s", None, NOT_KNOWN, "content not found"),
    "inside": ("attached.p7m", None, FITS, "fits: inside"), "PEM": ("attached.pem", None, FITS, "fits: inside"),
    "inside, and the same": ("attached.p7m", "doc", FITS, "fits: doc"), "inside, and another": ("attached.p7m", "other", NOT_KNOWN, "content inside"),
    "no digest": ("without.p7s", "doc", NOT_KNOWN, "no digest to compare"), "nobody": ("unsigned.p7s", "doc", NOT_KNOWN, "no signature"),
    "mail": ("mail.eml", None, FITS, "fits: part 1"), "token": ("token.tst", "doc", FITS, "fits: doc"), "token of other data": ("token.tst", "other", DIFFERS, "does not fit: other"),
    "token alone": ("token.tst", None, NOT_KNOWN, "content not found"), "cut": ("cut.p7s", None, NOT_KNOWN, "refused E1 Truncated"), "text": ("text.txt", None, NOT_KNOWN, ""),
    "zip": ("some.zip", None, FITS, "fits: "), "zip without the document": ("some other.zip", None, NOT_KNOWN, "fits: inside"), "damaged zip": ("damaged.zip", None, NOT_KNOWN, "damaged"),
    "octets after it": ("longer.p7m", None, NOT_KNOWN, "refused E"), "a document for a zip": ("some.zip", "doc", WRONG_WORDS, ""), "a document for mail": ("mail.eml", "doc", WRONG_WORDS, ""),
}


def named(folder, document):
    return [] if document is None else [folder / document]


@pytest.mark.parametrize("name", CASES)
def test_check(home, folder, name):
    file, document, status, said = CASES[name]
    done = ran(home, "check", folder / file, *named(folder, document), status=status)
    first = done.stdout.partition("\n")[0]
    count_if(f"check, {name}", f": {said}" in first or not said and not first, first, done.stderr)
    count_if(f"check, {name}: errors", bool(done.stderr) == (not said), done.stderr)
    count_same(f"check, {name}: no store", [*Path(home).glob("*.db")], [])


@pytest.mark.parametrize("name", [it for it, (_, document, status, _) in CASES.items() if document is None and status != WRONG_WORDS])
def test_as_in_rows(home, folder, name):
    """What `check` and `inspect` say in JSON is what `rows` says of the same messages."""
    file = CASES[name][0]
    rows = [json.loads(it) for it in command(home, "rows", folder / file).splitlines()]
    wanted = [it for it in rows if it.get("what") in ("message", "refused", "damaged", "too large", "unreadable")]
    for words in (("check",), ("inspect",)):
        done = ended(home, *words, folder / file, "--json")
        came = [{key: value for key, value in json.loads(it).items() if key != "file"} for it in done.stdout.splitlines()]
        if words == ("check",):
            outcomes = {it.pop("outcome") for it in came}
            count_same(f"the worst outcome, {name}", next((it for it in (DIFFERS, NOT_KNOWN, FITS) if it in outcomes), NOT_KNOWN), done.returncode)
        count_same(f"{words[0]} --json, {name}", [{**it, "is_settled": None} for it in came], [{**it, "is_settled": None} for it in wanted])


def test_in_an_index(home, folder, new_store):
    """`check` of an index says of each message what `check` says of its file, and ends with the worst of them."""
    command(home, "index", folder, "--store", new_store)
    listed = lines_of(home, "check", "--all", "--store", new_store, status=NOT_KNOWN)
    came = {(it["path"], it["member"]): it["outcome"] for it in listed}
    wanted = {}
    for file in {file for file, document, *_ in CASES.values() if document is None}:
        for it in map(json.loads, ended(home, "check", folder / file, "--json").stdout.splitlines()):
            wanted.update({(it["path"], it["member"]): it["outcome"]} if it["what"] == "message" else {})
    count_same("outcomes", {it: came[it] for it in wanted}, wanted)
    count_if("of each kind", set(wanted.values()) == {FITS, NOT_KNOWN}, wanted)
    for name in ("doc.p7s", "cut.p7s", "damaged.zip", "token.tst", "elsewhere.p7s"):
        status = ended(home, "check", folder / name).returncode
        done = ran(home, "check", "--under", folder / name, "--store", new_store, status=status)
        count_same(f"{name}: what is not read is said", done.stderr.count("cms-canon-archive refusals"), int(name in ("cut.p7s", "damaged.zip")))


@pytest.mark.parametrize("word", ["check", "convert"])
def test_named(word):
    """The help of `cms-canon` names this command for what is longer than it takes."""
    said = subprocess.run([RELEASE / "cms-canon", "help", word], capture_output=True, text=True, timeout=SECONDS, check=True).stdout
    count_if(f"help {word}", "`cms-canon-archive check FILE DOCUMENT`" in said, said)


def test_csv(home, folder):
    lines = ran(home, "check", folder / "some.zip", "--csv", status=FITS).stdout.splitlines()
    names = [f"{folder}/some.zip!{it}" for it in ("in.p7m", "doc.p7s")]
    count_same("check --csv", (lines[0], sorted(it.rpartition(",")[2] for it in lines[1:])), ("state,findings,verdict,note,file", sorted(names)))


def test_verdicts(home, folder, make):
    """`--verify` says what the arithmetic says, and a wrong signature is status 1."""
    for file, status, said in (("doc.p7s", FITS, "signatures: right, by the certificates in the message"), ("without.p7s", FITS, "signatures: right, by the certificates in the message")):
        out = ran(home, "check", "--verify", folder / file, folder / "doc", status=status).stdout
        count_if(f"check --verify, {file}", said in out, out)
    octets = bytearray((folder / "doc.p7s").read_bytes())
    octets[-1] ^= 1
    (folder / "wrong.p7s").write_bytes(octets)
    out = ran(home, "check", "--verify", folder / "wrong.p7s", folder / "doc", status=DIFFERS).stdout
    count_if("check --verify, a wrong signature", "signatures: wrong" in out, out)
    out = ran(home, "check", folder / "wrong.p7s", folder / "doc", status=FITS).stdout
    count_same("check, a wrong signature", out, f"{folder}/wrong.p7s: fits: doc\n")


def test_certificates(home, folder, make, tmp_path):
    """`--certificates` verifies by these and no others, also a message without certificates."""
    own, other = (make.folder / "signer.pem").read_bytes(), (make.folder / "tsa.pem").read_bytes()
    der = make.run("openssl x509 -in signer.pem -outform DER")
    write_files(tmp_path, {"own.pem": own, "other.pem": other, "own.der": der, "both/a.pem": other, "both/b.pem": own, "both/text.txt": b"text", "none/text.txt": b"text", "several.pem": other + own})
    (tmp_path / "bare.p7s").write_bytes(make.cms(DOCUMENT, "-nocerts"))
    for file in (folder / "doc.p7s", tmp_path / "bare.p7s"):
        for given, said in (("own.pem", "right"), ("own.der", "right"), ("several.pem", "right"), ("both", "right"), ("other.pem", "unknown")):
            out = ran(home, "check", file, folder / "doc", "--certificates", tmp_path / given, status=FITS if said == "right" else NOT_KNOWN).stdout
            count_if(f"check --certificates {given} of {file.name}", f"signatures: {said}, by the certificates that were given\n" in out, out)
            (row,) = lines_of(home, "inspect", file, folder / "doc", "--certificates", tmp_path / given)
            count_same(f"inspect --certificates {given} of {file.name}", row["verdict"], said)
    out = ran(home, "check", tmp_path / "bare.p7s", folder / "doc", "--verify", status=NOT_KNOWN).stdout
    count_if("check --verify without certificates", "signatures: unknown, by the certificates in the message\n" in out, out)
    out = command(home, "inspect", tmp_path / "bare.p7s", folder / "doc", "--certificates", tmp_path / "own.pem")
    count_if("inspect: a signer by a certificate that was given", "signer 0       CN=Signer\n" in out and "by the certificates that were given\n" in out, out)
    wrong = bytearray((tmp_path / "bare.p7s").read_bytes())
    wrong[-1] ^= 1
    (tmp_path / "wrong.p7s").write_bytes(wrong)
    ran(home, "check", tmp_path / "wrong.p7s", folder / "doc", "--certificates", tmp_path / "own.pem", status=DIFFERS)
    for given, said in (("none", "there is no certificate"), ("none/text.txt", "there is no certificate"), ("missing", "does not exist")):
        done = ran(home, "check", folder / "doc.p7s", "--certificates", tmp_path / given, status=WRONG_WORDS)
        count_if(f"--certificates {given}", said in done.stderr, done.stderr)


def test_standard_input(home, folder):
    """Either file may be the standard input, and not both."""
    for words, given, status in (
        (("-", folder / "doc"), "doc.p7s", FITS), ((folder / "doc.p7s", "-"), "doc", FITS), ((folder / "doc.p7s", "-"), "other", DIFFERS), (("-",), "attached.pem", FITS),
        (("-",), "text.txt", NOT_KNOWN), (("-", "-"), "doc.p7s", WRONG_WORDS),
    ):
        for word in ("check", "inspect"):
            done = ended(home, word, *words, input=(folder / given).read_bytes(), text=False)
            wanted = status if word == "check" or status == WRONG_WORDS else int(given == "text.txt")
            count_if(f"{word} of {given} by {words}", done.returncode == wanted, done.returncode, done.stderr)


def test_long_document(home, folder, make, tmp_path):
    """A document of 2 GiB is compared, in little memory."""
    with open(tmp_path / "long", "wb") as file:
        file.truncate(LONG)
    (tmp_path / "long.p7s").write_bytes(make.run("openssl cms -sign -binary -signer signer.pem -inkey signer.key -outform DER -in " + str(tmp_path / "long")))
    limited = ["bash", "-c", 'ulimit -v 1000000; exec "$@"', "bash", *words_of("check", tmp_path / "long.p7s", tmp_path / "long")]
    done = subprocess.run(limited, cwd=home, env=environment_of(home), capture_output=True, text=True, timeout=SECONDS)
    count_same("a document of 2 GiB", (done.returncode, done.stdout, done.stderr), (FITS, f"{tmp_path}/long.p7s: fits: long\n", ""))


def test_input_that_cannot_be_copied(home, folder):
    """A standard input for which there is no room is said in one line, and is no verdict."""
    limit = {"preexec_fn": lambda: resource.setrlimit(resource.RLIMIT_FSIZE, (1000, 1000))}
    done = ended(home, "check", folder / "doc.p7s", "-", input="a" * 100_000, **limit)
    count_if("no room for the standard input", done.returncode == WRONG_WORDS and "the standard input cannot be copied" in done.stderr and not done.stdout, done)


def test_time_stamps_in_attributes():
    """Only if each time-stamp in a message was compared is everything known: another state of one is not, and one that differs is wrong."""
    from cms_canon_archive.containers.found import Class, Found, State
    from cms_canon_archive.judging import Facts, Time
    from cms_canon_archive.one_file import Judged

    def status(*states):
        times = [Time(f"0/{number}", None, None, None, None, it) for number, it in enumerate(states)]
        return int(Judged(Found("", "file", Class.MESSAGE, 0), Facts(Class.MESSAGE, state=State.FITS, times=times)).outcome)

    for it in State:
        wanted = {State.FITS: FITS, State.DIFFERS: DIFFERS}.get(it, NOT_KNOWN)
        count_same(f"a time-stamp that is: {it.value}", status(State.FITS, it), wanted)


def test_bad_words(home, folder):
    for words, said in (
        (("check", folder / "missing"), "does not exist"), (("check", folder / "doc.p7s", folder / "missing"), "does not exist"), (("check", folder), "is a directory"),
        (("check", "--verify"), "are for FILE"), (("check", "--certificates", folder), "are for FILE"), (("inspect",), "Missing argument"), (("convert", folder / "doc.p7s"), "Missing option '--to'"),
        (("convert", folder / "doc.p7s", "--to", home / "to", "--limit", "-1"), "is not in the range"),
    ):
        done = ran(home, *words, status=WRONG_WORDS)
        count_if(f"{words}", said in done.stderr, done.stderr)
    (folder / "secret.p7s").write_bytes(b"")
    (folder / "secret.p7s").chmod(0)
    os.chmod(folder.parent, 0o755)
    done = ran(home, "check", folder / "secret.p7s", status=WRONG_WORDS, **AS_NOBODY)
    count_if("a file that cannot be read", "is not readable" in done.stderr, done)


# ---- inspect

def test_inspect(home, folder, make):
    """Everything that the index has of a message is said, with digests and imprints."""
    lines = command(home, "inspect", folder / "doc.p7s", "--verify").splitlines()
    said = {line[2:16].strip(): line[17:].strip() for line in lines[1:]}
    (row,) = lines_of(home, "inspect", folder / "doc.p7s")
    digest = make.run("openssl dgst -sha256 -r", octets=DOCUMENT).split()[0].decode()
    (signer,) = row["signed_by"]
    count_same("inspect: the message", (said["is"], said["SHA-256"], said["state"]), ("a signed message", f"{row['digest']} of the DER", "fits"))
    count_same("inspect: the signer", said["signer 0"], signer["subject"])
    below = {line[4:18].strip(): line[19:].strip() for line in lines if line.startswith("    ")}
    count_same("inspect: its digest", below["digest"], f"sha256 {digest}")
    count_same("inspect: names", (below["issuer"], below["serial"]), (signer["issuer"], signer["serial"]))
    count_if("inspect: the time", below["signed at"].startswith(signer["signing_time"]), below)
    count_if("inspect: the verdict", said["signatures"].startswith("right"), said)
    token = command(home, "inspect", folder / "token.tst", folder / "doc")
    (time,) = lines_of(home, "inspect", folder / "token.tst", folder / "doc")[0]["times"]
    for it in ("a time-stamp token", f"{time['time']}: fits", time["policy"], f"sha256 {digest}"):
        count_if(f"inspect: {it}", it in token, token)
    text = command(home, "inspect", folder / "elsewhere.p7s", folder / "other")
    count_if("inspect: a finding", "F7 signer 0 message digest differs: The content is not what was signed" in text, text)
    cut = command(home, "inspect", folder / "cut.p7s", status=1)
    count_if("inspect: a refusal", "E1 Truncated at" in cut and "Get the whole message." in cut, cut)
    said = command_says(home, "inspect", folder / "text.txt", status=1)
    count_same("inspect: no message", said, f"{folder}/text.txt: there is no message\n")


# ---- convert

def test_folders(home, folder, make):
    """Copies of folders are in folders of the same names, and what cannot be converted is said, and is status 3."""
    attached = (folder / "attached.p7m").read_bytes()
    der = subprocess.run([RELEASE / "cms-canon", "convert"], input=attached, capture_output=True, check=True).stdout
    top = write_files(home / "top", {"a/x.p7m": attached, "b/x.p7m": attached, "b/c/in.zip": zipped({"../y.p7m": attached}), "b/cut.p7s": attached[:-1], "doc": DOCUMENT})
    to = top / "copies"
    said = command_says(home, "convert", top, "--to", to, status=NOT_KNOWN)
    count_same("what is not converted", [it.split(": ")[0] for it in said.splitlines()], [f"{top}/b/cut.p7s"])
    came = {str(it.relative_to(to)): it.read_bytes() for it in to.rglob("*") if it.is_file()}
    count_same("copies of folders", came, dict.fromkeys(("top/a/x.p7m", "top/b/x.p7m", "top/b/c/in.zip!.._y.p7m"), der))
    (top / "b/cut.p7s").unlink()
    count_same("copies are not copied again", command_says(home, "convert", top, "--to", to), "")
    done = subprocess.run(words_of("convert", ".", "../doc", "..", "--to", home / "to"), cwd=top / "b", env=environment_of(home), capture_output=True, text=True)
    names = {str(it.relative_to(home / "to")) for it in (home / "to").rglob("*") if it.is_file()}
    wanted = {"x.p7m", "c/in.zip!.._y.p7m", "a/x.p7m", "b/x.p7m", "b/c/in.zip!.._y.p7m"}
    count_same("copies of . and ..", ({it for it in names if not it.startswith("copies/")}, done.returncode, done.stderr), (wanted, NOT_KNOWN, "../doc: there is no message\n"))
    count_same("nothing is above the folder", sorted(it.name for it in home.glob("*.p7m")), [])


def test_limit(home, folder):
    length = len((folder / "attached.p7m").read_bytes())
    said = command_says(home, "convert", folder / "attached.p7m", "--to", home / "limited", "--limit", length - 1, status=NOT_KNOWN)
    count_if("a limit that is too small", "refused E2 TooLarge" in said, said)
    count_same("a limit that is large enough", command_says(home, "convert", folder / "attached.p7m", "--to", home / "limited", "--limit", length), "")
