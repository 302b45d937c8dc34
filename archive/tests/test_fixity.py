"""The SHA-256 of the files of an index: what is stored is that of the octets, whatever a file is, and other programs take the lists of them.

`sha256sum` says what the digests are and checks the lists. What rots without a sign is found.
"""

import json
import os
import re
import shutil
import subprocess
import sys
from hashlib import sha256
from random import Random

import pytest
from counting import count_if, count_same, needs
from making import write_files, zipped
from running import AS_NOBODY, SECONDS, SETTLED, asked, command, command_says, ended, lines_of, ran

pytestmark = [pytest.mark.archive, needs("click", "tqdm", "sqlalchemy", "cryptography", tools=["openssl", "sha256sum"])]
DOCUMENT = b"A document.\n"
ODD = {"back\\slash": b"1", "new\nline": b"2", "return\rhere": b"3", "100%": b"4", "%0A": b"5", " blank": b"6", "*star": b"7", "octet \udcff": b"8", "é ☃": b"9", "\\n": b"10"}


@pytest.fixture
def folder(home, make):
    random = Random(1)
    signed = make.cms(DOCUMENT)
    sizes = {f"size {it}": random.randbytes(it) for it in (0, 1, 4095, 4096, 65535, 65536, 65537, 1 << 20, (4 << 20) + 1)}
    texts = {f"text {it}": b"a line\n" * it for it in (1, 700, 20_000)}
    others = {"doc": DOCUMENT, "doc.p7s": signed, "attached.p7m": make.cms(b"x" * 99_000, "-nodetach"), "some.zip": zipped({"a": DOCUMENT, "a.p7s": signed}),
              "damaged.zip": zipped({"a": DOCUMENT})[:-9], "cut.p7s": signed[:-1], "mail.eml": make.mail(), "utf16.txt": "text".encode("utf-16"), "a.pdf": b"%PDF-1.4\n"}
    return write_files(home / "files", {**sizes, **texts, **others})


def digests_in(store):
    return {row.path: row.sha256 for row in asked(store, "SELECT path, sha256 FROM files WHERE member = ''")}


def paths_below(folder):
    return sorted(it for it in folder.rglob("*") if it.is_file() and not it.is_symlink())


def test_stored(home, folder, new_store):
    """The SHA-256 of each file is that of its octets: short, long, text, container or none, read with others or by itself."""
    command(home, "index", folder, "--store", new_store)
    wanted = {str(it): sha256(it.read_bytes()).hexdigest() for it in paths_below(folder)}
    count_same("the SHA-256 of all files", digests_in(new_store), wanted)
    rows = [it for it in map(json.loads, command(home, "rows", folder).splitlines()) if it.get("member") == ""]
    count_same("in lines of `rows`", {it["path"]: it["sha256"] for it in rows}, wanted)
    count_same("none for what lies in a file", asked(new_store, "SELECT count(*) FROM files WHERE member <> '' AND sha256 IS NOT NULL"), [(0,)])
    loaded = "loaded.db"
    ran(home, "load", "--store", loaded, input=command(home, "rows", folder))
    count_same("of lines that were loaded", digests_in(home / loaded), wanted)


def test_rot(home, folder, new_store):
    """`verify-store` finds octets that changed while size, time and inode are as they were, as those of a disk that fails."""
    command(home, "index", folder, "--store", new_store)
    count_same("nothing is wrong", lines_of(home, "verify-store", "--store", new_store), [])
    rotten = [folder / it for it in ("text 1", "size 1048576", "some.zip", "size 1")]
    for it in rotten:
        octets = bytearray(it.read_bytes())
        octets[len(octets) // 2] ^= 1
        with it.open("r+b") as file:
            file.write(octets)
        asked(new_store, f"UPDATE places SET changed = {it.stat().st_ctime_ns} WHERE file = '{it.name}'")  # the clock of a disk that fails stands still
    found = {it["file"]: it["why"] for it in lines_of(home, "verify-store", "--store", new_store, status=1)}
    count_if("what rotted is found", {str(it) for it in rotten} <= set(found), found)
    count_if("by its SHA-256", all("sha256 is stored as" in found.get(str(it), "") for it in rotten[:2]), found)
    count_same("and nothing else", {it.partition("!")[0] for it in found}, set(map(str, rotten)))


def test_changed_while_it_is_read(archive, home):
    """A file that is longer or shorter after it was opened has no SHA-256, and is read again."""
    files = archive.files
    path = home / "grows"
    for size, becomes in ((1 << 20, (1 << 20) + 1), (1 << 20, 9), (1 << 20, 0)):
        path.write_bytes(bytes(size))
        found = files.found_in_path(str(path), digests=True)
        original = files.found_in

        def slow(source, original=original, becomes=becomes):
            yield from original(source)
            os.truncate(path, becomes)

        files.found_in = slow
        try:
            (came,) = list(found)
        finally:
            files.found_in = original
        entry = archive.reading.Entry(str(path), size, 1, 1)
        read = archive.reading.read_of(entry, came, archive.judging.judged(came))
        count_same(f"{size} octets that become {becomes}", (came.sha256, read.place.is_settled), (None, False))


def test_sha256sum(home, folder, new_store):
    """`sha256sum -c` takes the list, whatever the names are, and a list of `sha256sum` is compared."""
    write_files(folder, ODD)
    command(home, "index", folder, "--store", new_store)
    listed = subprocess.run([sys.executable, "-m", "cms_canon_archive", "manifest", "--sha256sum", "--store", new_store], cwd=home, env=environment(home), capture_output=True, timeout=SECONDS)
    count_same("the list", (listed.returncode, listed.stderr), (0, b""))
    (home / "list").write_bytes(listed.stdout)
    checked = subprocess.run(["sha256sum", "--quiet", "--strict", "-c", "list"], cwd=home, capture_output=True)
    count_same("sha256sum -c", (checked.returncode, checked.stdout, checked.stderr), (0, b"", b""))
    own = subprocess.run(["sha256sum", *paths_below(folder)], capture_output=True, check=True).stdout
    count_same("what sha256sum writes", sorted(listed.stdout.splitlines()), sorted(own.splitlines()))
    for form in ((), ("--tag",), ("--binary",)):
        (home / "theirs").write_bytes(subprocess.run(["sha256sum", *form, *paths_below(folder)], capture_output=True, check=True).stdout)
        count_same(f"compared with {form}", ended(home, "index", folder, "--store", new_store, "--manifest", "theirs").stdout, "")
    count_same("below a folder", command(home, "manifest", "--sha256sum", "--under", folder / "doc", "--store", new_store).split(), [sha256(DOCUMENT).hexdigest(), str(folder / "doc")])


def environment(home):
    from running import environment_of

    return environment_of(home)


def test_manifest(home, folder, new_store):
    """What differs, is missing or is not listed is said, and the status is 1; names are relative to the folder of the list."""
    relative = subprocess.run(["sha256sum", *(f"files/{it.name}" for it in paths_below(folder))], cwd=home, capture_output=True, check=True).stdout
    lines = relative.decode().splitlines(True)
    changed = [it for it in lines if it.endswith("files/doc\n")][0]
    lines = [it for it in lines if not it.endswith(("files/doc\n", "files/text 1\n"))] + [f"{'0' * 64}  files/doc\n", f"{'1' * 64}  files/nowhere\n"]
    (home / "list").write_text("".join(lines))
    wanted = [("differs", str(folder / "doc")), ("missing", str(folder / "nowhere")), ("not listed", str(folder / "text 1"))]
    for words in ((), ("--anew",)):
        rows = [it for it in lines_of(home, "index", folder, "--store", new_store, "--manifest", "list", *words, status=1) if "why" in it]
        count_same(f"what differs {words}", sorted((it["why"], it["file"]) for it in rows), wanted)
    (home / "list").write_text(changed)
    rows = [it for it in lines_of(home, "index", folder / "doc", "--store", new_store, "--manifest", "list") if "why" in it]
    count_same("one file that is as it is listed", rows, [])


def test_not_of_a_bag(home, folder):
    """A list of the name that bags have is one of a bag only beside bagit.txt; blank lines are passed over; what exists and was left out is not missing."""
    lines = subprocess.run(["sha256sum", "doc", "text 1"], cwd=folder, capture_output=True, check=True).stdout
    (folder / "manifest-sha256.txt").write_bytes(b"\n" + lines + b"\n\n")
    for it in paths_below(folder):
        if it.name not in ("doc", "text 1", "manifest-sha256.txt", "size 1", "doc.p7s"):
            it.unlink()
    rows = [it for it in lines_of(home, "index", folder, "--exclude", "text*", "--manifest", folder / "manifest-sha256.txt", status=1) if "why" in it]
    wanted = [("not indexed", "text 1"), ("not listed", "doc.p7s"), ("not listed", "size 1")]
    count_same("a list that is no bag's", sorted((it["why"], it["file"].rpartition("/")[2]) for it in rows), wanted)


def test_links(home, folder):
    """A link to a folder is followed if it is named, with a slash at its end or without, and so is one by which a list is named."""
    for it in paths_below(folder):
        if it.name not in ("doc", "doc.p7s"):
            it.unlink()
    os.symlink(folder, home / "link")
    lines = subprocess.run(["sha256sum", "doc", "doc.p7s"], cwd=folder, capture_output=True, check=True).stdout
    (folder / "list").write_bytes(lines)
    for name in ("link", "link/", "link/.", "files/../link/"):
        done = ended(home, "index", name, "--store", f"{len(name)}.db", "--manifest", "link/list")
        count_if(f"{name}", (done.returncode, done.stdout, done.stderr.split()[0]) == (0, "", "3"), done)
        count_same(f"{name}: below it", ended(home, "check", "--all", "--under", name, "--store", f"{len(name)}.db").stdout.count("\n"), 1)


BAD = {
    "NUL": b"0" * 64 + b"  a\0", "empty": b"", "no digest": b"files/doc\n", "MD5": b"0" * 32 + b"  files/doc\n", "no name": b"0" * 64 + b"\n", "twice": b"0" * 64 + b"  a\n" + b"1" * 64 + b"  a\n",
    "a header": b"# list\n" + b"0" * 64 + b"  a\n",
}


@pytest.mark.parametrize("name", BAD)
def test_bad_manifest(home, folder, name):
    """A list that is none is refused by its line before anything is read or stored."""
    (home / "list").write_bytes(BAD[name])
    said = command_says(home, "index", folder, "--manifest", "list", status=2)
    count_if(f"{name}: said", "list: " in said and "Traceback" not in said, said)
    count_same(f"{name}: nothing is stored", (home / "index.db").exists(), False)


def test_missing_manifest(home, folder):
    for words in (("--manifest", "none"), ("--manifest", folder)):
        said = command_says(home, "index", folder, *words, status=2)
        count_if(f"{words[1]}", "--manifest" in said and not (home / "index.db").exists(), said)


def files_of_bag(bag):
    """Returns the files in the manifest of a bag with their SHA-256, read as RFC 8493 has it: a digest, blanks, and a path in which %, CR and LF are escaped."""
    lines = (bag / "manifest-sha256.txt").read_bytes().decode().split("\n")
    assert lines.pop() == ""
    pairs = (re.fullmatch(r"([0-9a-f]{64})  (.+)", it, re.S).groups() for it in lines)
    return {re.sub("%(0A|0D|25)", lambda it: chr(int(it[1], 16)), path): digest for digest, path in pairs}


def test_bagit(home, new_store):
    """The manifest of a bag has the files of its payload, whatever their names are, and is compared as that of a bag."""
    bag = home / "bag"
    write_files(bag / "data", {**{it: octets for it, octets in ODD.items() if it != "octet \udcff"}, "deep/er/file": DOCUMENT})
    write_files(bag, {"outside": b"x"})
    command(home, "index", bag, "--store", new_store)
    (bag / "bagit.txt").write_text("BagIt-Version: 1.0\nTag-File-Character-Encoding: UTF-8\n")
    (bag / "manifest-sha256.txt").write_bytes(ran(home, "manifest", "--bagit", "--under", bag, "--store", new_store, text=False).stdout)
    wanted = {str(it.relative_to(bag)): sha256(it.read_bytes()).hexdigest() for it in paths_below(bag / "data")}
    count_same("the files of a bag", files_of_bag(bag), wanted)
    count_same("a bag", ended(home, "index", bag, "--store", "bag.db", "--manifest", bag / "manifest-sha256.txt").returncode, 0)
    (bag / "data" / "100%").write_bytes(b"x")
    (bag / "data" / "more").write_bytes(b"x")
    shutil.rmtree(bag / "data" / "deep")
    rows = [it for it in lines_of(home, "index", bag, "--store", "bag.db", "--manifest", bag / "manifest-sha256.txt", status=1) if "why" in it]
    wanted = [("differs", "100%"), ("missing", "deep/er/file"), ("not listed", "more")]
    count_same("a bag that was changed", sorted((it["why"], it["file"].partition("/data/")[2]) for it in rows), wanted)


def test_left_out(home, folder, new_store):
    """A file that could not be read, or whose SHA-256 is not known, is named and not listed, and the status is 1."""
    (folder / "doc").chmod(0)
    folder.chmod(0o755)
    home.chmod(0o755)
    if not AS_NOBODY:
        command(home, "index", folder, "--store", new_store, status=3)
    else:
        os.rename(folder / "doc", folder / "doc ")
        os.symlink("nowhere", folder / "doc")
        os.unlink(folder / "doc")
        command(home, "index", folder, "--store", new_store)
        asked(new_store, "UPDATE places SET sha256 = NULL WHERE file = 'doc '")
    done = ran(home, "manifest", "--sha256sum", "--store", new_store, status=1)
    count_if("what is left out", done.stderr.count("\n") == 1 and "/files/doc" in done.stderr, done.stderr)
    count_same("what is listed", done.stdout.count("\n"), len(paths_below(folder)) - 1)


@pytest.mark.parametrize("words, said", [
    ((), "say one of --sha256sum and --bagit"), (("--sha256sum", "--bagit"), "say one of"), (("--bagit",), "--bagit is for the bag that --under names"),
    (("--bagit", "--under", "."), "the index has no file in its folder data"),
], ids=str)
def test_bad_words(home, folder, words, said):
    command(home, "index", folder)
    done = ran(home, "manifest", *words, status=2)
    count_if(str(words), said in done.stderr and not done.stdout, done.stderr)


def test_unchanged_is_not_read_again(home, folder, new_store):
    """A second index reads nothing, though every file has a digest."""
    command(home, "index", folder, "--store", new_store)
    import time

    time.sleep(SETTLED)
    command(home, "index", folder, "--store", new_store)
    said = command_says(home, "index", folder, "--store", new_store)
    count_if("nothing is read", said.startswith("0 files read"), said)
