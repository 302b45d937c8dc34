"""Indexes an archive made at random by the command `cms-canon-archive`, and compares the store with what was made.

It has messages in DER, others spelled in BER, copies of files, and files that are refused; some lie in a tar and in a zip with
hostile names. The command is killed at random moments and goes on; it is called again after files have changed and gone; it reads by
processes, by Dask clusters of two workers, of which one is killed, and by GNU parallel; it stores in SQLite and in PostgreSQL. Each time the
store says what was made. There are also tars and zips that are damaged, folders that cannot be read or are not there, files that kill the
process which reads them, and lines that are cut.
"""

import importlib.util
import os
import re
import shlex
import shutil
import signal
import subprocess
import sys
import tarfile
import time
from concurrent.futures import ThreadPoolExecutor
from contextlib import suppress
from hashlib import sha256
from pathlib import Path
from random import Random
from types import SimpleNamespace

import dask_cluster
import pytest
from counting import count_if, count_same, is_line, needs, needs_cluster, needs_server
from elements import element, message as message_of
from making import COMPRESSIONS, Made, grouped, message_at_random, message_of_its_own, packed_by, write_files
from places import RELEASE
from running import (
    AS_NOBODY, SECONDS, SETTLED, asked, begun, command, command_says, ended, environment_of, faulty_processes, lines_of, ran, rows_in, store_of,
    wait_until, words_of,
)
from tally import count

pytestmark = [pytest.mark.archive, needs("click", "tqdm", "sqlalchemy")]
SEED = 5652
FILES = 2000
KILLS = 10
DAMAGED = 100  # of each kind
STORED = re.compile(r'"stored": [0-9]+, ')
CHANGES = re.compile('<section aria-labelledby="changes-title">.*?</section>', re.S)  # of a page, which are those since each store was last asked
LARGE = 3 << 20  # octets of the content of one message
SIGNED = ("signature", "certificates", "token")  # the kinds of a message with SignedData
LONG = "".join(sha256(b"%d" % number).hexdigest() for number in range(40))
HOSTILE = {  # names of members, and as they are written
    "../outside.p7s": "../outside.p7s", "/absolute.p7s": "/absolute.p7s", "a/../../b.p7s": "a/../../b.p7s", "plain.p7s": "plain.p7s",
    "a\\b\n\x1b[31m.p7s": r"a\\b\x0a\x1b[31m.p7s",
    LONG: LONG[:1200] + r"\..." + sha256(LONG.encode()).hexdigest(),
}
ODD = {  # names of files, and as they are written
    b"no UTF-8 \xff.p7s": r"no UTF-8 \xff.p7s",
    rb"a backslash \xff.p7s": r"a backslash \\xff.p7s",
    b"control \t\x1b\xc2\x9b.p7s": r"control \x09\x1b\xc2\x9b.p7s",
}
EMPTY = Made(b"", None, None, "E1 at 0")


def make_archive(folder, random):
    """Writes files, in folders inside one another, and returns them by the names that the command gives them: messages, one of them spelled
    twice and others copied, and no messages at all; one that is larger than what a cluster is sent; and some of odd names."""
    made = []
    while len(made) < FILES:
        made.append(message_at_random(random))
        for share, some in ((0.2, made), (0.1, [EMPTY]), (0.1, [Made(b"-----BEGIN", None, None, "E7 at 2")])):
            made += [random.choice(some)] if random.random() < share else []
    del made[FILES:]
    content = element(0x30, bytes.fromhex("06092a864886f70d010701"), element(0xA0, element(0x04, bytes(LARGE))))
    large = message_of(b"\x02\x01\x01\x31\0", content, b"\x31\0")
    files = {f"{number % 7}/{number % 3}/{number}.p7s".encode(): one for number, one in enumerate(made)}
    files[b"large.p7s"] = Made(large, sha256(large).hexdigest(), "signed", None)
    files.update({name: message_of_its_own(random, made) for name in ODD})
    write_files(folder, {os.fsdecode(name): one.octets for name, one in files.items()})
    files = {str(folder / ODD.get(name, os.fsdecode(name))): one for name, one in files.items()}
    for ending in ("tar.gz", "stored.zip"):
        write_files(folder, {f"some.{ending}": packed_by(ending, {name: one.octets for name, one in zip(HOSTILE, made)})})
        files.update({f"{folder}/some.{ending}!{written}": one for written, one in zip(HOSTILE.values(), made)})
    return files


def name_of(row):
    return f"{row.path}!{row.member}" if row.member else row.path


def differs_from(files, rows):
    """Returns a file of which the store says something else than what was made."""
    there = {name_of(it): it for it in rows if not it.what.startswith("container")}
    if set(there) != set(files):
        return f"other files: {sorted(set(there) ^ set(files))[:3]}"
    for name, one in files.items():
        row = there[name]
        refusal = None if row.reason is None else f"E{row.reason} at {row.at}"
        is_der = None if row.is_der is None else bool(row.is_der)
        kind = "signed" if row.kind in SIGNED else row.kind
        came = (row.length, row.digest, kind, is_der, refusal, row.error)
        if came != (len(one.octets), one.digest, one.kind, one.is_der, one.refusal, None):
            return f"{name}: {came}, made {one._replace(octets=b'')}"
    return ""


@pytest.fixture(scope="module")
def made(shared_home):
    """An archive, its files as they were made, a store of it, and the rows of that."""
    folder = shared_home / "archive"
    folder.mkdir()
    files = make_archive(folder, Random(SEED))
    time.sleep(SETTLED)
    url = f"sqlite:///{shared_home}/index.db"
    command(shared_home, "index", folder, folder / "0", folder / "0" / "0" / "0.p7s", "--store", url)
    return SimpleNamespace(folder=folder, files=files, url=url, whole=store_of(url))


@pytest.fixture(scope="module")
def folder(made):
    return made.folder


@pytest.fixture(scope="module")
def files(made):
    return made.files


@pytest.fixture(scope="module")
def one():
    """A message in DER."""
    random = Random(SEED)
    return next(it for it in iter(lambda: message_at_random(random), None) if it.is_der)


def test_index(made):
    count("index", differs_from(made.files, made.whole))


def test_kills(home, folder, made):
    """Kills the command when so many more rows are stored, ten times, and lets it end at last."""
    random, whole, url, path = Random(SEED), made.whole, f"sqlite:///{home}/killed.db", home / "killed.db"
    words = ("index", folder, "--store", url, "--jobs", 1, "--together", 20)
    stored = [0]
    for _ in range(KILLS):
        started = begun(home, *words, stderr=subprocess.DEVNULL, start_new_session=True)
        enough = stored[-1] + random.randint(0, 2 * FILES // KILLS // 3)
        while started.poll() is None and rows_in(path) < enough:
            time.sleep(0.002)
        time.sleep(random.uniform(0, 0.02))
        if started.poll() is None:
            os.killpg(started.pid, signal.SIGKILL)
        started.wait()
        stored.append(rows_in(path))
    count_if("killed in the middle", len({it for it in stored if 0 < it < len(whole)}) > 2, stored)
    command(home, "index", folder, "--store", url)
    has_index = "places_by_digest" in {it.name for it in asked(url, "PRAGMA index_list(places)")}
    count_if("killed and resumed", store_of(url) == whole and has_index, "another store")


def test_queries(home, archive, files, made):
    url = made.url
    groups = grouped((one.digest, name) for name, one in sorted(files.items()) if one.digest)
    twice = {digest: names for digest, names in groups.items() if len(names) > 1}
    count_same("duplicates", {it["digest"]: sorted(it["files"]) for it in lines_of(home, "duplicates", "--store", url)}, twice)
    refusals = {name: one.refusal for name, one in files.items() if one.refusal}
    count_same("refusals", {it["file"]: f"E{it['reason']} at {it['at']}" for it in lines_of(home, "refusals", "--store", url)}, refusals)
    table = {file: why for why, _, file in (line.split("\t") for line in command(home, "refusals", "--store", url).splitlines())}
    count_same("the table of refusals", {name: " at ".join((why.split()[0], why.split()[-1])) for name, why in table.items()}, refusals)
    changed = {it["file"] for it in lines_of(home, "changed", "--store", url)}
    count_same("changed", changed, {name for name, one in files.items() if one.is_der is False})
    counts = {it["file"]: it["changes"] for it in lines_of(home, "changed", "--count", "--store", url)}
    count_same("changed --count", counts, {name: len(archive.cms_canon.changes(files[name].octets)) for name in changed})
    count_if("each has a change", all(counts.values()), counts)
    name = next(it for names in twice.values() for it in names if "!" not in it and "\\" not in it)
    count_same("same", sorted({it["file"] for it in lines_of(home, "same", name, "--store", url)}), twice[files[name].digest])


def copies_in(folder):
    """Returns the digest of each file by the one that its name says."""
    return {f"{it.parent.name}{it.name}": sha256(it.read_bytes()).hexdigest() for it in folder.rglob("*") if it.is_file()}


def said_by_program(octets):
    """Returns how many signers the built program says a message has, and the time of its token; or how it refuses it."""
    shown = subprocess.run([RELEASE / "cms-canon", "show"], input=octets, capture_output=True, timeout=SECONDS)
    if shown.returncode != 0:
        return shown.stderr.decode().splitlines()[0]
    values = dict(line.split(": ", 1) for line in reversed(shown.stdout.decode().splitlines()) if ": " in line)
    return values.get("signers"), values.get("tst-time", "").split(" ")[0]


def test_facts(files, made):
    """Compares the facts that are stored with what the built program says of each file."""
    stored = {}
    for row in made.whole:
        signers = None if row.signers is None else str(row.signers)
        stored[name_of(row)] = f"refused E{row.reason} {row.name} at {row.at}" if row.reason else (signers, row.time or "")
    with ThreadPoolExecutor() as threads:
        said = dict(zip(files, threads.map(said_by_program, [one.octets for one in files.values()])))
    count_same("facts", {name: stored[name] for name in files}, said)


def test_export(home, files, made):
    """The copies are all messages in DER, each named by its digest; nothing lies outside, and nothing is written over."""
    to, wanted = home / "copies", {one.digest: one.digest for one in files.values() if one.digest}
    broken = next(iter(wanted))
    other = write_files(to, {f"{broken[:2]}/{broken[2:]}": b"something else"}) / broken[:2] / broken[2:]
    command(home, "export", "--to", to, "--store", made.url, status=1)
    left = other.read_bytes()
    other.unlink()
    command(home, "export", "--to", to, "--store", made.url)
    count_same("export", (copies_in(to) == wanted, left), (True, b"something else"))
    count("hostile names", [it for it in ("outside.p7s", "absolute.p7s", "b.p7s") if list(home.rglob(it)) or Path("/", it).exists()])


def test_changes(home, made):
    """A file that changes, one that goes and one that comes are noticed; the others are not read again."""
    folder, url = shutil.copytree(made.folder, home / "archive"), f"sqlite:///{home}/index.db"
    files = {name.replace(str(made.folder), str(folder), 1): one for name, one in made.files.items()}
    time.sleep(SETTLED)
    command(home, "index", folder, "--store", url)
    changing, going = [name for name in files if "!" not in name and "\\" not in name][:2]
    Path(going).unlink()
    files = {**files, changing: EMPTY, f"{folder}/coming.p7s": EMPTY}
    write_files(folder, {changing: b"", "coming.p7s": b""})
    del files[going]
    unchanged = sum(row.member == "" for row in store_of(url)) - 2
    said = command_says(home, "index", folder, "--store", url)
    count("changes", differs_from(files, store_of(url)))
    count_same("unchanged files", said.splitlines()[0], f"2 files read, {unchanged:,} unchanged, 1 gone: `cms-canon-archive changes` names it")
    # A file that has become another message since it was indexed is not exported by the digest that is stored.
    stale = next(name for name, one in files.items() if one.digest and "!" not in name and "\\" not in name)
    Path(stale).write_bytes(next(one.octets for one in files.values() if one.digest not in (None, files[stale].digest)))
    said = command_says(home, "export", "--to", home / "stale", "--store", url, status=1)
    wrong = [name for name, digest in copies_in(home / "stale").items() if name != digest]
    count_same("a file that has changed", (said, wrong), (f"{stale}: it has changed since it was indexed\n", []))


def header_of(name, size=0, what=tarfile.REGTYPE):
    info = tarfile.TarInfo(name)
    info.size, info.type = size, what
    return info.tobuf(tarfile.GNU_FORMAT)


def test_damaged(home, one):
    """Each archive that is damaged has its row; if one member of a zip is, the others are read. The store lies among them."""
    random, whole = Random(SEED), packed_by("deflated.zip", {"first.p7s": one.octets, "damaged.p7s": b"damaged", "last.p7s": one.octets})
    before, after = whole.split(b"damaged.p7s", 1)
    first, end = header_of("first.p7s"), bytes(1024)
    archives = {
        "some.zip": before + b"damaged.p7s\xff" + after[1:],  # no block of zlib begins with this
        "back.tar": first + header_of("back.p7s", -512) + end,
        "large.tar": first + header_of("large.p7s", 1 << 70) + end,
        "name.tar": header_of("././@LongLink", 2 << 20, tarfile.GNUTYPE_LONGNAME) + b"a" * (2 << 20) + first + end,
        "sparse.tar": first + header_of("sparse.p7s", 512, tarfile.GNUTYPE_SPARSE) + end,
        "header.tar": first + first[:150] + b"?" + first[151:] + first + end,
        "cut.tar": first + first,
    }
    for ending in ("tar.gz", *COMPRESSIONS):
        whole = packed_by(ending, {"\u00e9.p7s": one.octets})
        for number in range(DAMAGED):
            place = random.randrange(len(whole))
            archives[f"{number}.{ending}"] = whole[:place] + bytes([whole[place] ^ random.randint(1, 255)]) + whole[place + 1 :]
    folder = write_files(home / "damaged", archives)
    store = folder / "index.db"
    command(home, "index", folder, "--store", store)
    rows = store_of(store)
    errors = {Path(row.path).name: row.error for row in rows if row.member == ""}
    count("damaged archives", sorted(set(errors) ^ set(archives))[:3])
    came = {row.member: (row.digest, row.error is not None) for row in rows if Path(row.path).name == "some.zip"}
    wanted = {"": (None, False), "first.p7s": (one.digest, False), "damaged.p7s": (None, True), "last.p7s": (one.digest, False)}
    count_same("a damaged member", came, wanted)
    # The error of large.tar is that of its member.
    count("damaged tars", [name for name, error in errors.items() if name.endswith(".tar") and name != "large.tar" and error is None])
    time.sleep(SETTLED)
    command(home, "index", folder, "--store", store)
    said = command_says(home, "index", folder, "--store", store)
    count_if("damaged files are not read again", f"\n0 files read, {len(archives)} unchanged" in f"\n{said}", said[-400:])


def test_neighbours(home, one):
    """The index of a folder leaves what is stored of another one whose name differs in case, or begins with its name."""
    store, folders = home / "neighbours.db", [home / "neighbours" / name for name in ("letters", "LETTERS", "letters_too", "l%")]
    for folder in folders:
        command(home, "index", write_files(folder, {"one.p7s": one.octets}), "--store", store)
    count("neighbours", {row.path for row in store_of(store)} ^ {str(folder / "one.p7s") for folder in folders})


def test_absent(home, folder, made):
    """A path that is not there, or is neither file nor folder, is said so, and nothing is dropped; so is a store that is not there."""
    os.mkfifo(home / "pipe")
    away = folder.rename(folder.with_name("away"))
    said = ended(home, "index", folder, home / "pipe", home / "nowhere", "--store", made.url)
    is_said = said.returncode == 1 and said.stderr.count("there is no file or folder of this name") == 2 and "pipe: it is a FIFO" in said.stderr
    count_if("what is not there", is_said, said)
    more = set(store_of(made.url)) ^ set(made.whole)
    count_same("nothing is dropped, and a row says so", [(row.path, row.error) for row in more], [(str(folder), "there is no file or folder of this name")])
    said = command_says(home, "check", "--all", "--store", made.url, status=3)
    count_if("is no all-clear", "1 folder could not be read, and what lies below is said as it was before" in said, said)
    away.rename(folder)
    command(home, "index", folder, "--store", made.url)
    count_if("what is there again", store_of(made.url) == made.whole)
    for store in ("sqlite:////no/folder/index.db", "nonsense", "postgresql://host:port/name", f"sqlite:///{home}/none.db"):
        said = command_says(home, "refusals", "--store", store, status=1)
        count_if(f"the store {store}", is_line(said) and said.startswith("Error: ") and not (home / "none.db").exists(), said)
    (home / "empty.p7s").write_bytes(b"")
    said = command_says(home, "same", home / "empty.p7s", "--store", made.url, status=1)
    count_if("no message", said.endswith("refused E1 Truncated at 0\n"), said)


def test_without_packages(home):
    """If a package is missing, the command says which in one line: `-S` leaves out those that are installed."""
    words = [sys.executable, "-S", "-m", "cms_canon_archive", "--help"]
    done = subprocess.run(words, env=environment_of(home), cwd=home, capture_output=True, text=True, timeout=SECONDS)
    wanted = (1, "", "Error: this needs the package click, which is installed with cms-canon-archive by pip and by apt-get\n")
    count_same("a package that is missing", (done.returncode, done.stdout, done.stderr), wanted)


def test_hidden(home, one):
    """What is stored below a folder that cannot be read is kept."""
    folder = write_files(home / "hidden", {"one.p7s": one.octets, "folder/one.p7s": one.octets})
    store, hidden = folder / "index.db", folder / "folder"
    for path in (home, folder):
        path.chmod(0o777)
    ran(home, "index", folder, "--store", store, **AS_NOBODY)
    hidden.chmod(0)
    ran(home, "index", folder, "--store", store, status=3, **AS_NOBODY)
    hidden.chmod(0o755)
    wanted = {f"{folder}/one.p7s": None, str(hidden): "Permission denied", f"{hidden}/one.p7s": None}
    count_same("a folder that cannot be read", {row.path: row.error for row in store_of(store)}, wanted)
    ran(home, "index", folder, "--store", store, **AS_NOBODY)
    del wanted[str(hidden)]
    count("a folder that can be read again", {row.path for row in store_of(store)} ^ set(wanted))


def test_killer(home, one):
    """A file that kills each process which reads it has a row that says so, and the others are read. A command that is killed leaves none."""
    folder, url = write_files(home / "killer", {f"{it}.p7s": one.octets for it in (*range(5), "killer")}), f"sqlite:///{home}/killer.db"
    with faulty_processes(home):
        command(home, "index", folder, "--store", url, "--jobs", 2, status=3)
        errors = {Path(row.path).name: row.error is not None for row in store_of(url)}
        count_same("a file that kills", errors, {it.name: it.name == "killer.p7s" for it in folder.iterdir()})
        (folder / "killer.p7s").rename(folder / "sleeper.p7s")
        started = begun(home, "index", folder, "--store", url, "--jobs", 2)
        wait_until(lambda: len(processes_with(url)) == 3)
        started.kill()
        started.wait()
        wait_until(lambda: not processes_with(url))
        left = processes_with(url)
        count("processes that are left", left)
        for process in left:
            os.kill(int(process), signal.SIGKILL)


def processes_with(word):
    found = []
    for path in Path("/proc").glob("[0-9]*/cmdline"):
        with suppress(FileNotFoundError, ProcessLookupError):
            found += [path.parent.name] if word.encode() in path.read_bytes().split(b"\0") else []
    return found


def test_pipe(home, folder, files):
    """What `rows` writes and `load` stores is what `index` stores."""
    url = f"sqlite:///{home}/loaded.db"
    written = command(home, "rows", *(it for it in sorted(folder.rglob("*")) if it.is_file()))
    first_member = next(line for line in written.splitlines(True) if "some.stored.zip" in line)
    cut = written[: written.index(first_member) + len(first_member) + 9]
    spoilt = written.replace(first_member, first_member[:9] + "\n")
    for lines, status in ((cut, 1), (written + written, 0), (cut, 1), (spoilt, 1)):
        loaded = ended(home, "load", "--store", url, input=lines)
        stored = store_of(url)
        assert loaded.returncode == status and (not status or "left out 1 line not of `rows`" in loaded.stderr), loaded.stderr
        assert lines != cut or len(stored) >= FILES // 2, f"{len(stored)} rows of {cut.count(chr(10))} lines"
    count("rows and load", differs_from(files, stored))


@needs_server
def test_early_worker(home, folder, files, server):
    """A worker that is begun before the index waits for it, and ends with a message if none is begun in time."""
    url = server.make_database("early")
    alone = ended(home, "work", "--store", url, "--jobs", 1, "--stay", 1)
    is_so = alone.returncode == 1 and alone.stderr.count("there is no index in") == 2
    count("a worker without an index", "" if is_so else f"{alone.returncode} {alone.stderr[-500:]}")
    worker = begun(home, "work", "--store", url, "--jobs", 1, "--stay", 60, stdout=subprocess.DEVNULL, stderr=subprocess.DEVNULL)
    try:
        time.sleep(2)
        indexed = ended(home, "index", folder, "--store", url, "--jobs", 0)
    finally:
        worker.terminate()
        worker.wait(SECONDS)
    count("a worker begun before the index", indexed.stderr[-500:] if indexed.returncode else differs_from(files, store_of(url)))


@needs(tools=["parallel"])
def test_line_of_parallel(home, folder, files, kind, new_store):
    """The line for GNU parallel, on this machine as its hosts, stores what `index` stores; for PostgreSQL it begins `work`."""
    program = f'#!/bin/sh\nexec {shlex.join(words_of())} "$@"\n'.encode()
    (write_files(home, {"hosts": b"1/:\n", "bin/cms-canon-archive": program}) / "bin" / "cms-canon-archive").chmod(0o755)
    line = command(home, "index", folder, "--store", new_store, "--via-pipe").replace("--stay 60", "--stay 20")
    environment = environment_of(home, PATH=f"{home}/bin:{os.environ['PATH']}")
    done = subprocess.run(["sh", "-c", line], cwd=home, env=environment, capture_output=True, text=True, timeout=SECONDS)
    count(f"the line for GNU parallel, {kind}", f"{done.returncode} {done.stderr[-500:]}" if done.returncode else differs_from(files, store_of(new_store)))
    if kind == "PostgreSQL":
        names = {name for name, in asked(new_store, "SELECT name FROM workers WHERE parts > 0")}
        count_if("workers begun by it", len(names) > 1, names)


@needs_cluster
def test_cluster(home, folder, files, server):
    """The workers of a cluster work, of which one is killed in the middle."""
    url = server.make_database("cluster")
    with dask_cluster.cluster(home, environment_of(home), workers=2) as made:
        indexing = begun(home, "index", folder, "--store", url, "--together", 20, "--scheduler", made.address, stderr=subprocess.PIPE)
        wait_until(lambda: indexing.poll() is not None or rows_in(url) > FILES // 10, SECONDS)
        made.kill_worker()
        in_the_middle = rows_in(url)
        _, said = indexing.communicate(timeout=SECONDS)
    count("a cluster of which a worker is killed", differs_from(files, store_of(url)) if indexing.returncode == 0 else said[-500:] or "it failed")
    count_if("a cluster, in the middle", 0 < in_the_middle < len(files), in_the_middle)


@needs_server
def test_postgresql(home, files, server, made):
    """A store in PostgreSQL is made twice, and says what one in SQLite does."""
    url = server.make_database("whole")
    has_reports = all(map(importlib.util.find_spec, ("jinja2", "matplotlib")))
    command(home, "index", made.folder, "--store", url)
    count("PostgreSQL", differs_from(files, store_of(url)))
    said = command_says(home, "index", made.folder, "--store", url)
    count("PostgreSQL, again", differs_from(files, store_of(url)) or ("" if said.startswith("0 files read, ") else f"it says {said}"))
    for words in ("duplicates --json", "refusals --json", "changed --json", *(["report --html -"] if has_reports else [])):
        texts = [CHANGES.sub("", command(home, *words.split(), "--store", it)) for it in (url, made.url)]
        own, others = (sorted(STORED.sub("", it) for it in text.splitlines() if "index.db" not in it and "postgres" not in it) for text in texts)
        count_if(f"PostgreSQL, {words.split()[0]}", own == others, "other than SQLite")
