"""Detached signatures whose documents do not lie beside them under their own names: they are found by their digests, and only by them."""

import hashlib
import os
from pathlib import Path

import pytest
from counting import count_if, count_same, needs
from making import write_files, zipped
from running import AS_NOBODY, command, command_says, ended, lines_of, ran

pytestmark = [pytest.mark.archive, needs("click", "tqdm", "sqlalchemy", "cryptography", tools=["openssl"])]
DOCUMENT, OTHER = b"A document.\n", b"Another one.\n"
ENDINGS = (".p7s", ".p7m", ".p7b", ".pkcs7", ".cms", ".sgn", ".sig", ".asc", ".P7S", ".tst")
ALGORITHMS = ("sha1", "sha256", "sha384", "sha512")


def states(home, *words, status=3):
    """Returns what is said of each message by `check`, which ends with this status: 3 if it is not known of all whether they fit."""
    rows = lines_of(home, "check", *words, status=status)
    return {f"{Path(it['path']).name}{'!' if it['member'] else ''}{it['member']}": (it["state"], it["content"] and os.path.basename(it["content"])) for it in rows}


def test_endings(home, make):
    """A file signs the one with its name but for the ending, in whatever letters."""
    signed = make.cms(DOCUMENT)
    files = {f"{number}.txt{ending}": make.token(DOCUMENT) if ending == ".tst" else signed for number, ending in enumerate(ENDINGS)}
    folder = write_files(home / "archive", {**files, **{f"{number}.txt": DOCUMENT for number in range(len(ENDINGS))}})
    command(home, "index", folder)
    count_same("all fit", {name: state for name, (state, _) in states(home, "--all", status=0).items()}, dict.fromkeys(files, "fits"))
    for name in files:
        done = ran(home, "check", folder / name)
        count_if(f"check {name}", f"fits: {name.rpartition('.')[0]}\n" in done.stdout, done.stdout)


def sign(make, octets, algorithm):
    return make.run(f"openssl cms -sign -binary -signer signer.pem -inkey signer.key -md {algorithm} -outform DER", octets=octets)


@pytest.fixture
def folder(home, make):
    signed = {f"by {it}.p7s": sign(make, DOCUMENT, it) for it in ALGORITHMS}
    return write_files(home / "archive", {
        **{f"signatures/{name}": octets for name, octets in signed.items()}, "signatures/time.tst": make.token(DOCUMENT), "signatures/unknown.p7s": make.cms(b"Nowhere.\n"),
        "signatures/some.zip": zipped({"in.p7s": make.cms(OTHER)}), "signatures/two.p7s": make.cms(OTHER), "documents/deep/first": DOCUMENT, "documents/second": OTHER, "documents/third": b"x",
    })


NOT_FOUND = ("content not found", None)


def test_in_a_folder(home, folder, new_store):
    """`check --content-in` finds the documents of an index by each algorithm, in the index or beside it; without it nothing is guessed."""
    command(home, "index", folder, "--store", new_store)
    without = states(home, "--store", new_store)
    count_same("without the folder", set(without.values()), {NOT_FOUND})
    found = {name: (("fits", "second") if name in ("two.p7s", "some.zip!in.p7s") else ("fits", "first")) for name in without if name != "unknown.p7s"}
    for words in (("--content-in", folder / "documents"), ("--content-in", folder), ("--content-in", folder / "signatures", "--content-in", folder / "documents")):
        count_same(f"what is left with {len(words) // 2}", states(home, *words, "--store", new_store), {"unknown.p7s": NOT_FOUND})
        count_same("all", states(home, "--all", *words, "--store", new_store), {**found, "unknown.p7s": NOT_FOUND})
    command(home, "index", folder / "signatures", "--store", "signatures.db")
    count_same("documents that are not in the index", states(home, "--all", "--content-in", folder / "documents", "--store", "signatures.db"), {**found, "unknown.p7s": NOT_FOUND})
    count_same("the index is as it was", states(home, "--store", new_store), without)


def test_wrong_signature_elsewhere(home, folder, new_store):
    """A signature that turns out to be wrong once its content is found is listed, in whatever state it was asked for."""
    octets = bytearray((folder / "signatures" / "two.p7s").read_bytes())
    octets[-1] ^= 1
    (folder / "signatures" / "two.p7s").write_bytes(octets)
    command(home, "index", folder / "signatures", "--verify", "--store", new_store)
    words = ("check", "--state", "content not found", "--content-in", folder / "documents", "--store", new_store)
    came = {Path(it["path"]).name: it["verdict"] for it in lines_of(home, *words, status=1)}
    count_same("its verdict", came.get("two.p7s"), "wrong")


def test_changed_since(home, folder, new_store):
    """A document that has changed since it was indexed is not taken for the one that was signed, nor is its signature said not to fit."""
    command(home, "index", folder, "--store", new_store)
    (folder / "documents" / "deep" / "first").write_bytes(b"Changed.\n")
    (folder / "documents" / "second").unlink()
    left = states(home, "--content-in", folder / "documents", "--store", new_store)
    count_same("nothing is found", set(left.values()), {NOT_FOUND})


def test_one_file(home, folder):
    """`check` of one file finds its document in the folders that are named, in archives too."""
    for name in (*(f"by {it}.p7s" for it in ALGORITHMS), "time.tst"):
        done = ran(home, "check", folder / "signatures" / name, status=3)
        count_if(f"{name}, without", "content not found" in done.stdout, done.stdout)
        done = ran(home, "check", folder / "signatures" / name, "--content-in", folder / "documents")
        count_if(name, f"fits: {folder}/documents/deep/first\n  its content was found by the digest\n" in done.stdout, done.stdout)
    done = ran(home, "check", folder / "signatures" / "some.zip", "--content-in", folder)
    count_if("in a zip", "some.zip!in.p7s: fits: " in done.stdout, done.stdout)
    done = ran(home, "check", folder / "signatures" / "unknown.p7s", "--content-in", folder, status=3)
    count_if("nowhere", "content not found" in done.stdout, done.stdout)
    row = lines_of(home, "check", folder / "signatures" / "time.tst", "--content-in", folder / "documents")[0]
    count_same("in JSON", (row["state"], row["content"], row["sha256"]), ("fits", str(folder / "documents/deep/first"), hashlib.sha256((folder / "signatures" / "time.tst").read_bytes()).hexdigest()))


def test_of_the_same_name(home, make):
    """`check c1.p7s` finds c1.txt or c1.pdf beside it, whichever was signed, and does not say that another one differs."""
    folder = write_files(home / "archive", {"c1.p7s": make.cms(DOCUMENT), "c1.txt": DOCUMENT, "c1.pdf": OTHER, "c2.p7s": make.cms(DOCUMENT), "c2.txt": OTHER, "c3.p7s": make.cms(DOCUMENT), "c3": OTHER})
    (folder / "c1.dir").mkdir()
    os.symlink("c1.txt", folder / "c2.link")
    done = ran(home, "check", folder / "c1.p7s")
    count_if("c1.txt", f"fits: {folder}/c1.txt\n" in done.stdout, done.stdout)
    done = ran(home, "check", folder / "c2.p7s", status=3)
    count_if("c2.txt is not it", "content not found" in done.stdout and "differ" not in done.stdout, done.stdout)
    done = ran(home, "check", folder / "c3.p7s", status=1)
    count_if("c3 is due", "does not fit: c3" in done.stdout, done.stdout)


def test_what_cannot_be_read(home, folder):
    """A file of the folder that cannot be read is passed over, and a FIFO is not waited for."""
    os.mkfifo(folder / "documents" / "fifo")
    (folder / "documents" / "closed").mkdir()
    write_files(folder / "documents" / "closed", {"doc": DOCUMENT})
    (folder / "documents" / "closed").chmod(0)
    home.chmod(0o755)
    try:
        done = ended(home, "check", folder / "signatures" / "by sha512.p7s", "--content-in", folder / "documents", **AS_NOBODY)
        count_if("what can be read is", done.returncode == 0 and "fits: " in done.stdout, done.stdout, done.stderr)
    finally:
        (folder / "documents" / "closed").chmod(0o755)


def test_bad_words(home, folder):
    command(home, "index", folder)
    for words, said in ((("--content-in", "none"), "does not exist"), (("--content-in", folder / "documents" / "second"), "is a file"), (("--noted", "--content-in", folder), "--noted")):
        count_if(str(words), said in command_says(home, "check", *words, status=2))
