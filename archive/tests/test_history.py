"""Changes files of an archive between indexes, and asks what changed: for stores in SQLite and in PostgreSQL.

A loop over what was there before and after each index says what has to be listed. What is stored again as it was is no change, whoever read it and
however often an index was stopped; no worker can leave out of the history what was there.
"""

import json
import os
import resource
import shutil
import signal
import sqlite3
import subprocess
import time
from hashlib import sha256
from random import Random

import pytest
from counting import count_if, count_same, is_line, needs, needs_server
from making import write_files, zipped
from processor import slowness
from running import AS_NOBODY, DEADLINE, asked, begun, command, command_says, ended, found_in, lines_of, ran

pytestmark = [pytest.mark.archive, needs("click", "tqdm", "sqlalchemy", "cryptography", tools=["openssl"])]
DOCUMENT = b"A document.\n"
NEVER = "1970-01-01"


def changes(home, store, *words, status=0):
    """Returns what is listed, by the names of the files and places in them."""
    return [(it["change"], it["file"].rpartition("/archive/")[2], it["before"], it["after"]) for it in lines_of(home, "changes", *words, "--store", store, status=status)]


@pytest.fixture
def folder(home, make):
    signed = make.cms(DOCUMENT)
    files = {
        "a.txt": DOCUMENT, "a.txt.p7s": signed, "b.txt": DOCUMENT, "b.txt.p7s": signed, "text": b"text", "empty": b"", "deep/c.txt": DOCUMENT, "deep/c.txt.p7s": signed,
        "some.zip": zipped({"in.txt": DOCUMENT, "in.txt.p7s": signed}), "gone/d.txt": DOCUMENT, "gone/d.txt.p7s": signed,
    }
    return write_files(home / "archive", files)


def test_changes(home, folder, new_store, make):
    """What is new, gone, changed or in another state is listed once, and the status is 1 if a message that fitted does not fit any more or is gone."""
    command(home, "index", folder, "--store", new_store)
    names = sorted(str(it.relative_to(folder)) for it in folder.rglob("*") if it.is_file())
    listed = changes(home, new_store)
    count_same("all is new", sorted(it[1] for it in listed), sorted([*names, "some.zip!in.txt.p7s"]))
    count_same("only new", {it[0] for it in listed}, {"new"})
    time.sleep(1.1)  # times are in seconds

    command(home, "index", folder, "--store", new_store)
    count_same("nothing changed", changes(home, new_store), [])
    time.sleep(1.1)

    (folder / "a.txt").write_bytes(b"Another document.\n")
    (folder / "text").write_bytes(b"test")
    (folder / "empty").unlink()
    (folder / "new.txt").write_bytes(b"new")
    write_files(folder, {"some.zip": zipped({"in.txt": DOCUMENT + b"!", "in.txt.p7s": make.cms(DOCUMENT)})})
    shutil.rmtree(folder / "gone")
    said = command_says(home, "index", folder, "--store", new_store)
    count_if("3 gone", " 3 gone: `cms-canon-archive changes` names them\n" in said, said)
    wanted = [
        ("changed", "a.txt", "text", "text"), ("changed", "some.zip", "container", "container"), ("changed", "text", "text", "text"),
        ("gone", "empty", "not a candidate", None), ("gone", "gone/d.txt", "text", None), ("gone", "gone/d.txt.p7s", "fits", None), ("new", "new.txt", None, "text"),
        ("state", "a.txt.p7s", "fits", "does not fit"), ("state", "some.zip!in.txt.p7s", "fits", "does not fit"),
    ]
    listed = changes(home, new_store, status=1)
    count_same("what changed", sorted(listed, key=str), sorted(wanted, key=str))
    worse = [it["file"].rpartition("/archive/")[2] for it in lines_of(home, "changes", "--store", new_store, status=1) if it["is_worse"]]
    count_same("what got worse", sorted(worse), ["a.txt.p7s", "gone/d.txt.p7s", "some.zip!in.txt.p7s"])
    digests = {it["file"]: (it["sha256_before"], it["sha256_after"]) for it in lines_of(home, "changes", "--store", new_store, status=1)}
    count_same("its SHA-256", digests[str(folder / "text")], (sha256(b"text").hexdigest(), sha256(b"test").hexdigest()))
    count_same("below a folder", changes(home, new_store, "--under", folder / "gone", status=1), [it for it in listed if it[1].startswith("gone/")])
    count_same("the first two", changes(home, new_store, "--limit", 2, status=1), listed[:2])
    everything = changes(home, new_store, "--since", NEVER, status=1)
    count_same("since ever", sorted(it for it in everything if it[0] != "new"), sorted(it for it in listed if it[0] != "new"))
    time.sleep(1.1)

    command(home, "index", folder, "--store", new_store, "--anew")
    count_same("read again", changes(home, new_store), [])
    count_same("as before since ever", sorted(changes(home, new_store, "--since", NEVER, status=1), key=str), sorted(everything, key=str))
    (folder / "a.txt").write_bytes(DOCUMENT)
    command(home, "index", folder, "--store", new_store)
    count_same("what fits again", [it for it in changes(home, new_store) if it[0] == "state"], [("state", "a.txt.p7s", "does not fit", "fits")])
    steps = [it for it in changes(home, new_store, "--since", NEVER, status=1) if it[1] == "a.txt.p7s"]
    count_same("each step", steps, [("state", "a.txt.p7s", "fits", "does not fit"), ("state", "a.txt.p7s", "does not fit", "fits")])


def test_verdicts(home, folder, make):
    """A signature that turns out to be wrong is in another state, and so is one that cannot be read any more."""
    command(home, "index", folder, "--store", "verdicts.db")
    time.sleep(1.1)
    wrong = bytearray((folder / "a.txt.p7s").read_bytes())
    wrong[-1] ^= 1
    (folder / "a.txt.p7s").write_bytes(wrong)
    (folder / "b.txt.p7s").write_bytes(make.cms(DOCUMENT)[:-1])
    command(home, "index", folder, "--store", "verdicts.db", "--verify")
    listed = {it[1]: it[2:] for it in changes(home, "verdicts.db", status=1) if it[1] in ("a.txt.p7s", "b.txt.p7s")}
    count_same("wrong and cut", listed, {"a.txt.p7s": ("fits", "fits, signatures wrong"), "b.txt.p7s": ("fits", "refused")})


def snapshot(folder):
    return {str(it.relative_to(folder)): it.read_bytes() for it in folder.rglob("*") if it.is_file()}


def test_at_random(home, new_store):
    """Files that come, go and change at random, in folders that are divided, moved and read by many workers: the changes are those of the files."""
    random, folder = Random(78), home / "archive"
    folder.mkdir()
    before = {}
    for step in range(5):
        for number in range(60):
            file = folder / f"{random.randrange(3)}" / f"{random.randrange(60)}"
            file.parent.mkdir(exist_ok=True)
            if random.random() < 0.3:
                file.unlink(missing_ok=True)
            else:
                file.write_bytes(b"%d" % random.randrange(4))
        if step == 2:
            shutil.rmtree(folder / "1")
            for number in range(2300):  # so that the folder is divided
                (folder / "0" / f"more {number}").write_bytes(b"")
        command(home, "index", folder, *([folder / "0" / "more 7"] if step == 3 else []), "--store", new_store, "--jobs", 3, *(["--anew"] if step % 2 else []))
        after = snapshot(folder)
        wanted = sorted(
            [("new", it) for it in set(after) - set(before)] + [("gone", it) for it in set(before) - set(after)]
            + [("changed", it) for it in set(before) & set(after) if before[it] != after[it]]
        )
        count_same(f"step {step}", sorted(it[:2] for it in changes(home, new_store)), wanted)
        before = after
        time.sleep(1.1)


def test_many_gone(home):
    """Files of one folder that go in thousands, and others that are read again, take time in proportion to them, not to their product."""
    folder = home / "archive"
    write_files(folder, {f"{number}": b"%d" % number for number in range(6000)})
    command(home, "index", folder, "--store", "many.db", "--jobs", 1)
    for number in range(3000):
        (folder / f"{number}").unlink()
    time.sleep(1.1)
    began = resource.getrusage(resource.RUSAGE_CHILDREN).ru_utime
    command(home, "index", folder, "--store", "many.db", "--anew", "--jobs", 1)
    seconds = resource.getrusage(resource.RUSAGE_CHILDREN).ru_utime - began
    count_if("the time of an index of which half is gone", seconds < 8 * slowness(), seconds)
    count_same("what is gone", {it[0] for it in changes(home, "many.db")}, {"gone"})
    count_same("how many", len(changes(home, "many.db")), 3000)


def test_stopped(home, folder, new_store):
    """However often an index is stopped, the changes since are those that it would have found at once."""
    command(home, "index", folder, "--store", new_store)
    time.sleep(1.1)
    since = time.strftime("%Y-%m-%dT%H:%M:%S", time.gmtime())
    (folder / "text").write_bytes(b"test")
    (folder / "b.txt").unlink()
    for after in (0.3, 0.5, 0.7, 0.9):
        stopped = begun(home, "index", folder, "--anew", "--store", new_store, stdout=subprocess.DEVNULL, stderr=subprocess.DEVNULL, start_new_session=True)
        time.sleep(after)
        os.killpg(stopped.pid, signal.SIGKILL)
        stopped.wait(DEADLINE)
    command(home, "index", folder, "--anew", "--store", new_store)
    wanted = [("changed", "text", "text", "text"), ("gone", "b.txt", "text", None), ("state", "b.txt.p7s", "fits", "content not found")]
    count_same("after it was stopped", sorted(changes(home, new_store, "--since", since, status=1)), wanted)


def test_full_disk(home, folder):
    """An index that cannot write any more ends with a line, and loses nothing: each file that went meanwhile is listed after the next one."""
    write_files(folder, {f"many/{number}": b"text" for number in range(2000)})
    command(home, "index", folder, "--store", "full.db")
    time.sleep(1.1)
    since = time.strftime("%Y-%m-%dT%H:%M:%S", time.gmtime())
    shutil.rmtree(folder / "many")
    (folder / "text").write_bytes(b"test")
    few = {"preexec_fn": lambda: resource.setrlimit(resource.RLIMIT_FSIZE, (1 << 16, 1 << 16))}
    done = ended(home, "index", folder, "--store", "full.db", "--jobs", 1, **few)
    count_if("what a full disk says", done.returncode == 1 and is_line(done.stderr.splitlines(keepends=True)[-1], "Error: ") and "Traceback" not in done.stderr, done)
    rows = asked(home / "full.db", "SELECT count(*) FROM places")[0][0] + asked(home / "full.db", "SELECT count(*) FROM history")[0][0]
    count_if("no row is lost", rows >= 2012, rows)
    command(home, "index", folder, "--store", "full.db")
    listed = changes(home, "full.db", "--since", since)
    count_same("what went", sum(it[0] == "gone" for it in listed), 2000)
    count_same("what changed", [it[:2] for it in listed if it[0] != "gone"], [("changed", "text")])


def test_not_there(home, folder, new_store):
    """A folder and a file that are named and not there are worse than they were, until they are there again; nothing below the folder is dropped."""
    single = home / "single" / "a.txt.p7s"
    write_files(single.parent, {name: (folder / name).read_bytes() for name in ("a.txt", single.name)})
    command(home, "index", folder, single, "--store", new_store)
    time.sleep(1.1)
    away = [it.rename(it.with_name(f"{it.name} away")) for it in (folder, single.parent)]
    said = ended(home, "index", folder, single, "--store", new_store)
    count_same("what is not there", (said.returncode, said.stderr.count("there is no file or folder of this name")), (1, 2))
    listed = sorted((it["file"], it["before"], it["after"]) for it in lines_of(home, "changes", "--store", new_store, status=1))
    count_same("what is worse", listed, sorted([(str(folder), None, "unreadable"), (str(single), "fits", "unreadable")]))
    count_same("what is not known", ended(home, "check", "--store", new_store).returncode, 3)
    time.sleep(1.1)
    for it in away:
        it.rename(it.with_name(it.name.partition(" ")[0]))
    command(home, "index", folder, single, "--store", new_store)
    listed = sorted((it["file"], it["before"], it["after"]) for it in lines_of(home, "changes", "--store", new_store))
    count_same("what is there again", listed, sorted([(str(folder), "unreadable", "readable"), (str(single), "unreadable", "fits")]))
    count_same("and nothing else", ended(home, "check", "--store", new_store).returncode, 0)


def test_file_not_there(home, folder, new_store):
    """A file that was indexed with its folder, and is named and gone, is no all-clear either."""
    command(home, "index", folder, "--store", new_store)
    time.sleep(1.1)
    octets = (folder / "a.txt.p7s").read_bytes()
    (folder / "a.txt.p7s").unlink()
    ran(home, "index", folder / "a.txt.p7s", "--store", new_store, status=1)
    count_same("what is worse", changes(home, new_store, status=1), [("changed", "a.txt.p7s", "fits", "unreadable")])
    count_same("what is not known", ended(home, "check", "--store", new_store).returncode, 3)
    (folder / "a.txt.p7s").write_bytes(octets)
    command(home, "index", folder, "--store", new_store)
    count_same("there again", ended(home, "check", "--store", new_store).returncode, 0)


def test_killed_before_its_end(home, folder):
    """What an index found that was killed is not lost to who asks after the next one, and until then it is said that something is yet to be read."""
    write_files(folder, {f"many/{number // 10}/{number}": b"text" for number in range(3000)})
    command(home, "index", folder, "--store", "killed.db")
    time.sleep(1.1)
    (folder / "a.txt").write_bytes(b"Another document.\n")
    stopped = begun(home, "index", folder, "--anew", "--store", "killed.db", "--jobs", 1, "--together", 5, stderr=subprocess.DEVNULL, start_new_session=True)
    deadline = time.monotonic() + DEADLINE
    while not found_in(home / "killed.db", "SELECT * FROM history WHERE file = 'a.txt.p7s'") and time.monotonic() < deadline:
        time.sleep(0.02)
    os.killpg(stopped.pid, signal.SIGKILL)
    stopped.wait(DEADLINE)
    for words, status in (("check --under " + str(folder / "many"), 3), ("changes --under " + str(folder / "many"), 3), ("manifest --sha256sum", 1), ("signers", 0), ("duplicates", 0)):
        said = command_says(home, *words.split(), "--store", "killed.db", status=status)
        count_if(f"{words} of an index that has not ended", is_line(said, "parts of the archive are yet to be read: `cms-canon-archive index` goes on with them"), said)
    time.sleep(1.1)
    done = ran(home, "index", folder, "--store", "killed.db", "--json")
    row = json.loads(done.stdout)
    count_same("each file is counted once", row["read"] + row["unchanged"], row["files"])
    count_same("what the index that was killed found", [it for it in changes(home, "killed.db", status=1) if it[0] != "new"], [
        ("changed", "a.txt", "text", "text"), ("state", "a.txt.p7s", "fits", "does not fit")])
    time.sleep(1.1)
    command(home, "index", folder, "--store", "killed.db")
    count_same("after the next one", changes(home, "killed.db"), [])


def test_came_back(home, folder, new_store):
    """A file that was gone at one index and is as it was at a later one is listed at each."""
    command(home, "index", folder, "--store", new_store)
    time.sleep(1.1)
    since = time.strftime("%Y-%m-%dT%H:%M:%S", time.gmtime())
    os.rename(folder / "a.txt.p7s", home / "away")
    command(home, "index", folder, "--store", new_store)
    time.sleep(1.1)
    os.rename(home / "away", folder / "a.txt.p7s")
    command(home, "index", folder, "--store", new_store)
    listed = [("gone", "a.txt.p7s", "fits", None), ("new", "a.txt.p7s", None, "fits")]
    count_same("it was away", changes(home, new_store, "--since", since, status=1), listed)
    count_same("it came back", changes(home, new_store), listed[1:])


def indexed_by_nobody(home, folder):
    """Has a process without the rights of root make an index, and returns the words that name it."""
    for it in (home, folder):
        it.chmod(0o755)
    (home / "nobodys").mkdir()
    (home / "nobodys").chmod(0o777)
    words = ("--store", home / "nobodys" / "index.db")
    ran(home, "index", folder, *words, "--jobs", 1, **AS_NOBODY)
    return words


@pytest.mark.skipif(not AS_NOBODY, reason="only root can begin a process of another user")
def test_unreadable_folder(home, folder):
    """What lies below a folder that cannot be read any more is not reported as it was."""
    words = indexed_by_nobody(home, folder)
    manifest = ran(home, "manifest", "--sha256sum", *words).stdout
    (home / "list").write_text(manifest)
    time.sleep(1.1)
    (folder / "deep").chmod(0)
    said = [json.loads(it) for it in ran(home, "index", folder, *words, "--jobs", 1, "--manifest", "list", "--json", status=1, **AS_NOBODY).stdout.splitlines()]
    closed = {(it["why"], it["file"].rpartition("/archive/")[2]) for it in said if "why" in it}
    count_same("compared with a list", closed, {("not listed", "deep"), ("not known", "deep/c.txt"), ("not known", "deep/c.txt.p7s")})
    count_same("changes", changes(home, words[1], status=1), [("new", "deep", None, "unreadable")])
    for asked_for, status in (("check", 3), ("check --under " + str(folder / "deep"), 3), ("manifest --sha256sum", 1)):
        done = ran(home, *asked_for.split(), *words, status=status)
        count_if(asked_for, "1 folder could not be read, and what lies below is said as it was before" in done.stderr, done.stderr)
    left = ran(home, "manifest", "--sha256sum", *words, status=1).stderr
    count_if("what is left out", left.count("it lies in a folder that could not be read") == 2, left)
    time.sleep(1.1)
    (folder / "deep").chmod(0o755)
    ran(home, "index", folder, *words, "--jobs", 1, **AS_NOBODY)
    count_same("it can be read again", changes(home, words[1]), [("state", "deep", "unreadable", "readable")])
    count_same("and all is known", (ran(home, "manifest", "--sha256sum", *words).stdout, command_says(home, "check", *words)), (manifest, ""))


@pytest.mark.skipif(not AS_NOBODY, reason="only root can begin a process of another user")
def test_folder_that_cannot_be_entered(home, folder):
    """What lies in a folder below one that can be listed and not entered is not reported as it was."""
    write_files(folder, {"outer/inner/doc": DOCUMENT})
    words = indexed_by_nobody(home, folder)
    time.sleep(1.1)
    (folder / "outer").chmod(0o744)
    ran(home, "index", folder, *words, "--jobs", 1, status=3, **AS_NOBODY)
    (folder / "outer").chmod(0o755)
    count_same("changes", changes(home, words[1], status=1), [("new", "outer/inner", None, "unreadable")])
    for asked_for, status in (("check --under " + str(folder / "outer"), 3), ("manifest --sha256sum", 1)):
        done = ran(home, *asked_for.split(), *words, status=status)
        count_if(asked_for, "1 folder could not be read" in done.stderr, done.stderr)
    page = ran(home, "report", "--html", "-", *words).stdout
    count_if("the page says so", '<p class="left">1 folder could not be read, and what lies below is said as it was before: <code>' in page, page[:3000])
    time.sleep(1.1)
    ran(home, "index", folder, *words, "--jobs", 1, **AS_NOBODY)
    count_same("it can be entered again", changes(home, words[1]), [("state", "outer/inner", "unreadable", "readable")])


def test_readers_differ(home, make):
    """A message that fits, and on which readers differ from now on, is another state and worse."""
    members = {"c1.txt": DOCUMENT, "c1.txt.p7s": make.cms(DOCUMENT)}
    folder = write_files(home / "archive", {"a.zip": zipped(members)})
    command(home, "index", folder, "--store", "readers.db")
    time.sleep(1.1)
    write_files(folder, {"a.zip": zipped({**members, "C1.TXT": b"other"})})
    command(home, "index", folder, "--store", "readers.db")
    states = [it for it in changes(home, "readers.db", status=1) if it[0] == "state"]
    count_same("readers differ", states, [("state", "a.zip!c1.txt.p7s", "fits", "fits, readers differ")])


def test_worse(archive):
    """Whatever was known to be good and is not any more is worse, and nothing else is."""
    history = archive.history

    def row(state="fits", verdict=None, note="", what="message", by=None):
        return history.Row(what, 1, "d", None, state, verdict, by, note, 1)

    wrong_time = "token 0/1: does not fit"
    kept = [(row(), row()), (row("does not fit"), row()), (row("fits, but covers only some files"), row()), (row(verdict="right"), row(verdict="right")), (row(), row(verdict="unknown")),
            (row(verdict="wrong"), row(verdict="unknown")), (row(note=wrong_time), row(note=wrong_time)), (row(note=wrong_time), row()), (row("content not found"), None),
            (row(None, what="text"), None), (None, row("does not fit")), (row(), row(note="countersigner 0.1: no digest to compare")), (row(note="readers differ on a"), row(note="readers differ on b")), (row(verdict="unknown"), row(verdict="unknown"))]
    worse = [(row(), row("does not fit")), (row(), None), (row(), row("content not found")), (row(), row(None, what="refused")), (row(), row("fits, but covers only some files")),
             (row("fits, but covers only some files"), row("does not fit")), (row("fits an earlier revision"), None), (row(verdict="right"), row()), (row(verdict="right"), row(verdict="unknown")),
             (row(verdict="right", by="c"), row(verdict="right")), (row(), row(note="readers differ on a")), (row(), row(verdict="wrong")), (row("content not found", "right"), None), (row("does not fit", "right"), row("does not fit", "wrong")), (row(), row(note=f"a; {wrong_time}"))]
    for pairs, wanted in ((kept, False), (worse, True)):
        for before, after in pairs:
            change = history.Changed(history.Change.STATE, 1, "/p", "", before, after)
            count_same(f"{before and before.text} and then {after and after.text}", change.is_worse, wanted)


def test_under_nothing(home, folder):
    """A path of which the index has nothing is said to be so, and is no all-clear; one at which something was is known."""
    command(home, "index", folder, "--store", "under.db")
    os.symlink(folder, home / "link")
    for words in ("check", "changes", "manifest --sha256sum", "signers", "times", "files", "refusals", "others", "changed", "algorithms", "renewal --by 2030-01-01"):
        said = command_says(home, *words.split(), "--under", folder / "deeq", "--store", "under.db", status=2)
        count_if(words, f"Error: --under: the index has nothing at {folder}/deeq\n" in said, said)
    said = command_says(home, "check", "--under", home / "link" / "deep", "--store", "under.db", status=2)
    count_if("by a link", f"nothing at {home}/link/deep, but at {folder}/deep\n" in said, said)
    shutil.rmtree(folder / "gone")
    command(home, "index", folder, "--store", "under.db")
    count_same("what is gone", changes(home, "under.db", "--under", folder / "gone", status=1), [("gone", "gone/d.txt", "text", None), ("gone", "gone/d.txt.p7s", "fits", None)])


@needs_server
def test_workers_cannot_leave_out(home, folder, server):
    """A worker with the rights of its role can neither write to the history nor drop from it, and what it drops is in it all the same."""
    import psycopg2
    from places import ARCHIVE

    url = server.make_database("kept")
    command(home, "index", folder, "--store", url)
    role = (ARCHIVE / "docs" / "ARCHIVE.md").read_text().partition("```sql\n")[2].partition("```")[0]
    server.ask(role, database="kept")
    try:
        worker = psycopg2.connect(server.url("archive_worker", "kept").replace("+psycopg2", ""))
        for statement in ("DELETE FROM history", "INSERT INTO history (folder, file, member) VALUES ('/', '', '')", "UPDATE history SET ended = 0", "TRUNCATE history"):
            with worker.cursor() as cursor, pytest.raises(psycopg2.Error):
                cursor.execute(statement)
            worker.rollback()
        count_same("refused to a worker", 4, 4)
        worker.close()
        time.sleep(1.1)
        (folder / "a.txt").write_bytes(b"Another document.\n")
        from running import put_in

        put_in(home, folder, url)
        done = ended(home, "work", "--store", server.url("archive_worker", "kept"))
        count_same("a worker of that role", (done.returncode, done.stderr), (0, ""))
        count_same("what it dropped", [it for it in changes(home, url, status=1) if it[0] == "state"], [("state", "a.txt.p7s", "fits", "does not fit")])
    finally:
        server.ask("DROP OWNED BY archive_worker; DROP ROLE archive_worker", database="kept")


def test_older_store(home, folder):
    """What a store of the tables before has is not said to be new, and gets its SHA-256, which is no change."""
    command(home, "index", folder, "--store", "older.db")
    with sqlite3.connect(home / "older.db") as connection:
        connection.execute("UPDATE places SET sha256 = NULL, stored = NULL, reader = 5")
    time.sleep(1.1)
    (folder / "text").write_bytes(b"longer")
    command(home, "index", folder, "--store", "older.db")
    count_same("an older store", changes(home, "older.db", "--since", NEVER), [("changed", "text", "text", "text")])
    count_same("all have a SHA-256", asked(home / "older.db", "SELECT count(*) FROM places WHERE member = '' AND sha256 IS NULL"), [(0,)])


@pytest.mark.parametrize("time", ["yesterday", "24", "2024-13", "2024-02-30", "2024-02-29T25:00", "2024-02-29 12:00", "2024Z", ""])
def test_bad_times(home, folder, time):
    command(home, "index", folder, "--store", "bad.db")
    said = command_says(home, "changes", "--since", time, "--store", "bad.db", status=2)
    count_if(f"--since '{time}'", "--since is a time in UTC as 2024, 2024-02, " in said and "Traceback" not in said, said)
    for words in ("check", "signers", "times"):
        said = command_says(home, words, "--until", time, "--store", "bad.db", status=2)
        count_if(f"{words} --until '{time}'", "--until is a time in UTC as 2024, 2024-02, " in said, said)


def test_no_index(home):
    count_if("no index", is_line(command_says(home, "changes", "--store", "none.db", status=1), "there is no index"))
    assert not (home / "none.db").exists()


def test_csv(home, folder):
    command(home, "index", folder, "--store", "csv.db")
    names = ran(home, "changes", "--csv", "--store", "csv.db").stdout.partition("\n")[0].strip().split(",")
    keys = sorted(json.loads(ran(home, "changes", "--json", "--store", "csv.db").stdout.partition("\n")[0]))
    count_same("columns", (names, keys), (["change", "time", "before", "after", "file"], ["after", "before", "change", "file", "is_worse", "member", "path", "sha256_after", "sha256_before", "time"]))
