"""What an index leaves out, and by which certificates it verifies: each worker does what the index was called with, and `verify-store` knows it.

A loop over the names says what has to be left out. File systems of their own are mounted in a name space of a test's own, if that is allowed.
"""

import fnmatch
import os
import shutil
import subprocess
from pathlib import Path

import pytest
from counting import count_if, count_same, needs, needs_server
from making import write_files
from running import SECONDS, asked, command, command_says, ended, environment_of, lines_of, put_in, words_of

pytestmark = [pytest.mark.archive, needs("click", "tqdm", "sqlalchemy", "cryptography", tools=["openssl"])]
DOCUMENT = b"A document.\n"
FILES = ("a.txt", "b.tmp", "deep/c.tmp", "deep/d.txt", "cache/e.txt", "deep/cache/f.txt", "deep/er/g.txt", "[x].txt", ".git/h", "TMP/i.txt", "back\\slash.tmp", "octet \udcff.tmp")
PATTERNS = [("*.tmp",), ("cache",), ("*.tmp", "cache"), ("*/deep/*",), ("*/deep",), (".*",), ("[[]x].txt",), ("nothing",), ("*",), ("?.txt", "octet*"), ("*/archive/cache",)]


def is_left_out(name, top, patterns):
    """Whether a file is left out for its own name or path, or for that of a folder below the top."""
    parts = name.split("/")
    for end in range(1, len(parts) + 1):
        path = f"{top}/{'/'.join(parts[:end])}"
        if any(fnmatch.fnmatchcase(path if "/" in it else parts[end - 1], it) for it in patterns):
            return True
    return False


@pytest.fixture
def folder(home):
    return write_files(home / "archive", {it: b"text" for it in FILES})


def names_in(store, archive, folder):
    rows = asked(store, "SELECT path FROM files WHERE member = ''")
    return sorted(os.path.relpath(archive.texts.name_of_text(path), folder) for path, in rows)


def test_excluded(home, folder, archive, new_store):
    """What is left out is what the patterns say, also if it was stored before, and comes back without them."""
    for patterns in PATTERNS:
        words = [word for it in patterns for word in ("--exclude", it)]
        command(home, "index", folder, *words, "--store", new_store)
        wanted = sorted(it for it in FILES if not is_left_out(it, folder, patterns))
        count_same(f"{patterns}", names_in(new_store, archive, folder), wanted)
        count_same(f"{patterns}: verify-store", lines_of(home, "verify-store", "--store", new_store), [])
    command(home, "index", folder, "--store", new_store)
    count_same("without patterns", names_in(new_store, archive, folder), sorted(FILES))


def test_two_folders(home, folder, archive):
    """Each folder has the settings of the index that it was named to."""
    other = write_files(home / "other", {"a.tmp": b"text", "b.txt": b"text"})
    command(home, "index", folder, "--exclude", "*.tmp")
    command(home, "index", other, "--exclude", "*.txt")
    count_same("two folders", [it for it in names_in(home / "index.db", archive, other) if not it.startswith("..")], ["a.tmp"])
    count_same("verify-store of both", lines_of(home, "verify-store"), [])
    count_same("the first", len([it for it in names_in(home / "index.db", archive, folder) if not it.startswith("..")]), len([it for it in FILES if not it.endswith(".tmp")]))


@pytest.mark.parametrize("words", [("--exclude", ""), *[("--exclude", "x") * 1001]], ids=lambda it: str(it)[:30])
def test_bad_patterns(home, folder, words):
    said = command_says(home, "index", folder, *words, status=2) if len(words) > 1 else "--exclude is given at most"
    count_if("bad patterns", "--exclude is given at most" in said and not (home / "index.db").exists(), said)


def test_one_file_system(home, archive):
    """A folder on another file system is left out if that is said, and what was stored of it is dropped."""
    script = """
        mount -t tmpfs none "$1/archive/mounted" || exit 77
        echo text > "$1/archive/mounted/inside.txt"; mkdir "$1/archive/mounted/deep"; echo text > "$1/archive/mounted/deep/inside.txt"
        shift
        "$@" index archive && "$@" index archive --one-file-system --store one.db && "$@" verify-store --store one.db \\
            && "$@" index archive/mounted --one-file-system --store named.db && "$@" index archive --one-file-system
    """
    folder = write_files(home / "archive", {"a.txt": b"text", "mounted/hidden": b"x"})
    done = subprocess.run(["unshare", "-m", "sh", "-c", script, "sh", home, *words_of()], cwd=home, env=environment_of(home), capture_output=True, text=True, timeout=SECONDS)
    if done.returncode in (1, 77) and "unshare" in done.stderr + "unshare" * (done.returncode == 77):
        pytest.skip("nothing can be mounted here")
    count_same("all were indexed", (done.returncode, "Traceback" in done.stderr), (0, False))
    count_same("one file system", names_in(home / "one.db", archive, folder), ["a.txt"])
    count_same("one that was named", names_in(home / "named.db", archive, folder), ["mounted/deep/inside.txt", "mounted/inside.txt"])
    count_same("what was stored before", names_in(home / "index.db", archive, folder), ["a.txt"])


# ---- certificates


@pytest.fixture
def signed(home, make):
    """A signature without its certificate, one by another key, and one with a certificate of its own."""
    if not (make.folder / "other.key").exists():
        make.certificate("other", "/CN=Other", "digitalSignature", "emailProtection")
    by_other = make.run("openssl cms -sign -binary -signer other.pem -inkey other.key -md sha256 -outform DER -nocerts", octets=DOCUMENT)
    shutil.copy(make.folder / "signer.pem", home / "signer.pem")
    shutil.copy(make.folder / "other.pem", home / "other.pem")
    return write_files(home / "archive", {
        "doc": DOCUMENT, "doc.p7s": make.cms(DOCUMENT), "bare": DOCUMENT, "bare.p7s": make.cms(DOCUMENT, "-nocerts"), "other": DOCUMENT, "other.p7s": by_other,
    })


def verdicts(home, store, status=0):
    return {Path(it["file"]).name: it["verdict"] for it in lines_of(home, "check", "--all", "--store", store, status=status)}


def fingerprint(home, name):
    text = subprocess.run(["openssl", "x509", "-in", home / name, "-noout", "-fingerprint", "-sha256"], capture_output=True, text=True, check=True).stdout
    return text.strip().rpartition("=")[2].replace(":", "").lower()


def test_certificates(home, signed, new_store):
    """A signature is verified by the certificates that were given and no others, and it is said by which; other certificates are other readings."""
    ways = {(): {"doc.p7s": "right", "bare.p7s": "unknown", "other.p7s": "unknown"}, ("signer.pem",): {"doc.p7s": "right", "bare.p7s": "right", "other.p7s": "unknown"},
            ("other.pem",): {"doc.p7s": "unknown", "bare.p7s": "unknown", "other.p7s": "right"}, ("signer.pem", "other.pem"): dict.fromkeys(("doc.p7s", "bare.p7s", "other.p7s"), "right")}
    for names, wanted in [*ways.items(), *reversed(ways.items())]:
        words = [word for it in names for word in ("--certificates", it)]
        command(home, "index", signed, "--verify", *words, "--store", new_store)
        count_same(f"{names}", verdicts(home, new_store, 3 if "unknown" in wanted.values() else 0), wanted)
        by = {Path(it["file"]).name: it["verified_by"] for it in lines_of(home, "signers", "--store", new_store)}
        due = {"doc.p7s": "signer.pem", "bare.p7s": "signer.pem", "other.p7s": "other.pem"}
        count_same(f"{names}: by which", by, {it: fingerprint(home, due[it]) if verdict == "right" else None for it, verdict in wanted.items()})
        count_same(f"{names}: verify-store", lines_of(home, "verify-store", "--store", new_store), [])


def test_not_verified_again(home, signed, new_store):
    """What is verified by these certificates is not read again, in whatever order they are given, nor if nothing is to be verified."""
    command(home, "index", signed, "--certificates", "signer.pem", "--certificates", "other.pem", "--store", new_store)
    import time

    time.sleep(2.1)
    for words in (("--certificates", "other.pem", "--certificates", "signer.pem"), ("--certificates", "other.pem", "--certificates", "signer.pem"), ()):
        said = command_says(home, "index", signed, *words, "--store", new_store)
    count_if("nothing is read", said.startswith("0 files read"), said)
    count_same("the verdicts are kept", set(verdicts(home, new_store).values()), {"right"})
    count_same("verify-store knows by what", lines_of(home, "verify-store", "--store", new_store), [])
    asked(new_store, "DELETE FROM settings")
    found = lines_of(home, "verify-store", "--store", new_store, status=1)
    count_if("certificates that are gone", {it["why"] for it in found} == {"it is said to be verified by certificates that the store does not have"}, found)


def test_wrong_signer(home, make):
    """In a message that is not DER, the certificate is said of the very signer whose signature is right."""
    two = make.run("openssl cms -sign -binary -signer signer.pem -inkey signer.key -signer tsa.pem -inkey tsa.key -md sha256 -outform DER -nodetach -nocerts -keyid", octets=DOCUMENT)
    from elements import element_at

    shutil.copy(make.folder / "signer.pem", home / "signer.pem")
    first, second = signer_infos(two, element_at)
    swapped = two.replace(first + second, second + first)
    folder = write_files(home / "archive", {"two.p7m": two, "swapped.p7m": swapped})
    command(home, "index", folder, "--certificates", "signer.pem")
    rows = lines_of(home, "signers")
    key = subprocess.run(["openssl", "x509", "-in", "signer.pem", "-noout", "-ext", "subjectKeyIdentifier"], cwd=home, capture_output=True, text=True, check=True).stdout
    identifier = key.split()[-1].replace(":", "").lower()
    said = {(Path(it["file"]).name, it["key_identifier"] == identifier, it["verified_by"]) for it in rows}
    own = fingerprint(home, "signer.pem")
    count_same("by the signer", said, {(name, is_own, own if is_own else None) for name in ("two.p7m", "swapped.p7m") for is_own in (True, False)})


def signer_infos(octets, element_at):
    """Returns the two SignerInfos of a message, which end it."""
    at = octets.rindex(b"\x02\x01\x03\x80", 0, octets.rindex(b"\x02\x01\x03\x80"))
    begin = at - 4
    first = octets[begin : begin + 4 + int.from_bytes(octets[begin + 2 : begin + 4], "big")]
    return first, octets[begin + len(first) :]


BAD = {"empty": b"", "a text": b"no certificate", "a key": None, "a cut one": b"-----BEGIN CERTIFICATE-----\nMIIB\n-----END CERTIFICATE-----\n"}


@pytest.mark.parametrize("name", BAD)
def test_bad_certificates(home, signed, make, name):
    (home / "bad.pem").write_bytes((make.folder / "signer.key").read_bytes() if BAD[name] is None else BAD[name])
    for words in (("index", signed), ("check", signed / "doc.p7s")):
        said = command_says(home, *words, "--certificates", "bad.pem", status=2)
        count_if(f"{name}, {words[0]}", "bad.pem: there is no certificate" in said and not (home / "index.db").exists(), said)
    said = command_says(home, "index", signed, "--certificates", "none.pem", status=2)
    count_if("none", "none.pem" in said and not (home / "index.db").exists(), said)


@needs_server
def test_workers_elsewhere(home, signed, server, archive):
    """A worker that was begun by itself leaves out what the index does, and verifies by its certificates, which it gets from the store."""
    url = server.make_database("settings")
    call = (
        "put_in(store.Store(sys.argv[1], makes=True), sys.argv[2:], verifies=True, settings=settings.Settings("
        "tuple(one_file.certificates_in('signer.pem')), ('other*',), False))"
    )
    script = f"import sys\nfrom cms_canon_archive import indexing, one_file, settings, store\nindexing.{call}"
    subprocess.run([words_of()[0], "-c", script, url, str(signed)], cwd=home, env=environment_of(home), check=True, timeout=SECONDS)
    done = ended(home, "work", "--store", url, "--jobs", 2)
    count_same("a worker", (done.returncode, done.stderr), (0, ""))
    count_same("what it did", verdicts(home, url), {"doc.p7s": "right", "bare.p7s": "right"})
    put_in(home, signed, url)
