"""Has workers of an index die, stop, lie, be cut off or be of another version, and their surroundings fail: the store ends as it should, or says so.

What is stored is compared with what one process stores in a file of SQLite. Each fault has a worker of its own (support/faulty_worker.py); the
server of PostgreSQL is killed and begun again, the scheduler of a Dask cluster is killed, and its workers send what would run a command if it
were unpickled. The rights of the role of workers are those of archive/docs/ARCHIVE.md. Nothing may take longer than its deadline.
"""

import asyncio
import itertools
import multiprocessing
import os
import re
import shutil
import signal
import socket
import sqlite3
import subprocess
import sys
import tarfile
import time
import tomllib
from contextlib import closing, contextmanager, nullcontext, suppress
from pathlib import Path
from random import Random

import dask_cluster
import places
import postgresql_server
import pytest
from counting import count_if, count_same, is_line, needs, needs_cluster, needs_server, other_than
from making import message_at_random, write_files
from running import (
    DEADLINE, SETTLED, asked, begun, command, command_says, ended, environment_of, faulty_processes, put_in, ran, rows_in, store_of, wait_until,
)
from tally import count

pytestmark = [pytest.mark.archive, needs("click", "tqdm", "sqlalchemy", "cryptography")]
SEED = 31615652
FOLDERS, IN_A_FOLDER = 30, 20
TINY = 20_000  # parts of one file
MEMBERS = 200
TINY_DEADLINE = 400
IDLE = 2  # seconds after which a worker that says nothing has lost its parts
ENDED = (0, "ended\n")  # the status of a worker that did its work, and what it says
DATA = tomllib.loads((places.DATA / "faults.toml").read_text())
PRELOAD = """# A worker of a cluster with this replies with what runs a command if it is unpickled, and does nothing else.
import os

from distributed.protocol import to_serialize

class Bomb:
    def __reduce__(self):
        return os.system, ("touch {mark}",)

async def dask_setup(worker):
    async def replies(comm=None, **words):
        return {{"status": "OK", "result": to_serialize(Bomb())}}

    worker.handlers["run"] = replies
"""


def make_files(folder):
    random, places = Random(SEED), itertools.product(range(FOLDERS), range(IN_A_FOLDER))
    write_files(folder, {f"{number:02}/{file}.p7s": message_at_random(random).octets for number, file in places})
    with tarfile.open(folder / "members.tar", "w") as tar:
        for number in range(MEMBERS):
            tar.add(folder / f"{number % FOLDERS:02}" / f"{number % IN_A_FOLDER}.p7s", f"{number}.p7s")


def rows_of(url):
    """Returns all rows that a store has of files, signers and times, but for when they were stored."""
    orders = {"signers": "path, member, number", "times": "path, member, number"}
    lists = {table: list(map(tuple, asked(url, f"SELECT * FROM {table} ORDER BY {order}"))) for table, order in orders.items()}
    return {"files": list(map(tuple, store_of(url))), **lists}


def difference(came, wanted):
    for table, rows in wanted.items():
        if came[table] != rows:
            others = [it[:2] for it in set(came[table]) ^ set(rows)]
            twice = len(came[table]) - len(set(came[table]))
            return f"{table}: {len(came[table])} rows, wanted {len(rows)}, {twice} twice, others {sorted(others)[:3]}"
    return ""


def finish(home, folder, url):
    """Does what `index` does when no part is left."""
    put_in(home, folder, url, "finish(store.Store(sys.argv[1], makes=True), sys.argv[2:], watching.Counts())")


def said_by(process, seconds=DEADLINE):
    """Continues a process that is stopped, waits for it, and returns its status and what it says; it is killed if that takes too long."""
    process.send_signal(signal.SIGCONT)
    try:
        said = process.communicate(timeout=seconds)
        return process.returncode, said[0] or said[1] or ""
    except subprocess.TimeoutExpired:
        process.kill()
        return "it did not end", "".join(filter(None, process.communicate()))


class Case:
    """An archive, what one process stores of it, and where to store it again."""

    def __init__(self, home, folder, server):
        self.home, self.folder, self.server, self.number = home, folder, server, 0
        command(home, "index", folder, "--store", home / "wanted.db", "--jobs", 1)
        self.wanted = rows_of(home / "wanted.db")

    def store(self, kind):
        self.number += 1
        if kind == "SQLite":
            return f"sqlite:///{self.home}/{self.number}.db"
        return self.server.make_database(f"case_{self.number}")

    def begun(self, kind):
        """Returns the URL of a new store in which the archive is to be done."""
        url = self.store(kind)
        put_in(self.home, self.folder, url)
        return url

    @contextmanager
    def role(self, url):
        """Lends the URL of the newest store for the role of workers, with the rights of archive/docs/ARCHIVE.md, or the same one if it is of SQLite."""
        if url.startswith("sqlite"):
            yield url
            return
        database = f"case_{self.number}"
        statements = re.search(r"```sql\n(CREATE ROLE archive_worker.*?)```", (places.ARCHIVE / "docs" / "ARCHIVE.md").read_text(), re.S)[1]
        self.server.ask("GRANT CREATE ON SCHEMA public TO PUBLIC", database=database)  # as PostgreSQL before 15 has it
        self.server.ask(statements, database=database)
        try:
            yield self.server.url("archive_worker", database)
        finally:
            self.server.ask("DROP OWNED BY archive_worker; DROP ROLE archive_worker", database=database)

    def begin_worker(self, fault, url, seconds=IDLE):
        words = [sys.executable, Path(dask_cluster.__file__).with_name("faulty_worker.py"), fault, url, seconds]
        how = {"env": environment_of(self.home), "cwd": self.home, "stdout": subprocess.PIPE, "stderr": subprocess.STDOUT, "text": True}
        return subprocess.Popen([str(it) for it in words], **how)

    def stopped_worker(self, fault, url, seconds=IDLE):
        """Begins a worker, and waits until it stops itself."""
        worker = self.begin_worker(fault, url, seconds)
        wait_until(lambda: "\nState:\tT" in Path(f"/proc/{worker.pid}/status").read_text(), DEADLINE)
        return worker

    def work(self, url, fault="none"):
        return said_by(self.begin_worker(fault, url))

    def begin_index(self, url, *more):
        return begun(self.home, "index", self.folder, "--store", url, "--together", 20, *more, stderr=subprocess.PIPE)

    def wait_for_rows(self, indexing, url):
        """Waits for the first rows of an index, and returns how many there are."""
        wait_until(lambda: indexing.poll() is not None or rows_in(url) > 40, DEADLINE)
        return rows_in(url)

    def verify_store(self, store, **environment):
        return ended(self.home, "verify-store", "--store", store, env=environment_of(self.home, **environment))

    def count(self, name, url, more=""):
        """Counts whether a store is as it should be, and has no part that is not done."""
        left = asked(url, "SELECT state, count(*) FROM parts WHERE state <> 2 GROUP BY state")
        count(name, more or difference(rows_of(url), self.wanted) or (f"parts that are not done: {left}" if left else ""))


@pytest.fixture(scope="module")
def case(shared_home):
    folder = shared_home / "archive"
    make_files(folder)
    time.sleep(SETTLED)
    with postgresql_server.server() if postgresql_server.tools() else nullcontext() as server:
        yield Case(shared_home, folder, server)


@pytest.fixture
def url(case, kind):
    """The URL of a new store of a kind, in which the archive is to be done."""
    return case.begun(kind)


# ---- workers that die or stop

def test_killed(case, kind, url):
    """What a worker that is killed had begun is done by another one."""
    status, _ = case.work(url, "kills_itself")
    case.count(f"a worker that is killed, {kind}", url, other_than((status, case.work(url)), (-signal.SIGKILL, ENDED)))


@pytest.mark.parametrize("fault, kind", [
    ("stopped_reading", "SQLite"),
    *(pytest.param(fault, "PostgreSQL", marks=needs_server) for fault in ("stopped_reading", "stopped_sending", "stopped_storing")),
])
def test_stopped(case, fault, kind, url):
    """What a worker had begun that is stopped is done by another one. When it goes on, it stores nothing of that."""
    stopped = case.stopped_worker(fault, url)
    other = case.work(url)
    whole = difference(rows_of(url), case.wanted)
    status, said = said_by(stopped)
    came = (other, status, said.splitlines()[0], said.splitlines()[-1])
    case.count(f"{fault}, {kind}", url, whole or other_than(came, (ENDED, 0, "stopped", "ended")) and f"{other} {said}")


def test_stopped_process(case):
    """A process of `index` that is stopped in its transaction in SQLite is killed, since it keeps all others waiting."""
    url, stopped = case.store("SQLite"), case.home / "stopped"
    words = ("index", case.folder, "--store", url, "--jobs", 2, "--idle-timeout", IDLE)
    with faulty_processes(case.home):
        done = ended(case.home, *words, env=environment_of(case.home, STOPPED=str(stopped)), timeout=DEADLINE)
    case.count("a process of index that is stopped", url, other_than((done.returncode, stopped.exists()), (0, True)) and str(done)[-400:])


def test_superseded(case, kind, url):
    """A worker whose parts were given to another one, while its session lives, is refused."""
    stopped = case.stopped_worker("stopped_reading", url, seconds=DEADLINE)
    asked(url, "UPDATE parts SET state = 0 WHERE state = 1")
    other = case.begin_worker("none", url, seconds=DEADLINE)
    wait_until(lambda: not asked(url, "SELECT 1 FROM parts WHERE state <> 2"), DEADLINE)
    status, said = said_by(stopped)
    is_so = status == 0 and "\nSuperseded: parts that this worker had taken were given to another one\n" in said
    case.count(f"a worker that was given up, {kind}", url, other_than((said_by(other), is_so), (ENDED, True)) and f"{status} {said}")


# ---- what is between a worker and the database

async def hand_on(place, listening):
    """Hands octets on to the socket of a server, for as long as the process that began this one lives."""
    async def copy(reader, writer):
        with suppress(OSError):
            while octets := await reader.read(1 << 16):
                writer.write(octets)

    async def serve(reader, writer):
        far_reader, far_writer = await asyncio.open_unix_connection(place)
        await asyncio.gather(copy(reader, far_writer), copy(far_reader, writer))

    parent = os.getppid()
    async with await asyncio.start_server(serve, sock=listening):
        while os.getppid() == parent:
            await asyncio.sleep(0.5)


def begin_proxy(place):
    """Begins a process that hands octets on until it is killed, and returns it and its port."""
    with socket.create_server(("127.0.0.1", 0)) as listening:
        process = multiprocessing.get_context("fork").Process(target=lambda: asyncio.run(hand_on(place, listening)), daemon=True)
        process.start()
        return process, listening.getsockname()[1]


@needs_server
def test_cut(case):
    """A worker that is cut from the database ends after a while and says why; one whose session was ended begins another one."""
    url = case.begun("PostgreSQL")
    proxy, port = begin_proxy(f"{case.server.folder}/.s.PGSQL.5432")
    try:
        worker = case.stopped_worker("stopped_reading", f"postgresql://archive@127.0.0.1:{port}/case_{case.number}")
    finally:
        proxy.kill()
        proxy.join()
    status, said = said_by(worker)
    is_so = status == 1 and "OperationalError" in said and "Connection refused" in said
    case.count("a worker that is cut from the database", url, other_than((case.work(url), is_so), (ENDED, True)) and f"{status} {said}")
    url = case.begun("PostgreSQL")
    worker = case.stopped_worker("stopped_reading", url, seconds=DEADLINE)
    asked(url, "SELECT pg_terminate_backend(backend) FROM workers WHERE ended IS NULL")
    case.count("a worker whose session is ended", url, other_than(said_by(worker), (0, "stopped\nended\n")))


@needs_server
def test_restart(case):
    """The database is killed in the middle of an index, and begun again: the index goes on, and ends with the same rows."""
    url = case.store("PostgreSQL")
    indexing = case.begin_index(url, "--jobs", 3)
    rows = case.wait_for_rows(indexing, url)
    case.server.stop()
    time.sleep(2)
    case.server.start()
    status, said = said_by(indexing)
    is_well = status == 0 and 0 < rows < len(case.wanted["files"])
    case.count("a database that is killed and begun again", url, "" if is_well else f"{rows} rows, {said[-300:]}")


@needs_server
def test_no_database(case):
    """A database that does not come back ends the index after a while, with a line that says so."""
    url = case.store("PostgreSQL")
    indexing = case.begin_index(url, "--jobs", 2, "--idle-timeout", IDLE)
    case.wait_for_rows(indexing, url)
    case.server.stop()
    status, said = said_by(indexing)
    case.server.start()
    count_if("a database that does not come back", status == 1 and said.startswith("Error: the store: "), status, said[-500:])
    command(case.home, "index", case.folder, "--store", url, "--jobs", 2)
    case.count("an index that goes on after that", url)


@needs_cluster
def test_no_workers(case):
    """A cluster that has no workers, or is not there, is said in a line within five seconds, beside what Python takes for the modules."""
    url = case.store("PostgreSQL")
    began = time.monotonic()
    modules = [sys.executable, "-c", "import distributed, cms_canon_archive.cluster, cms_canon_archive.indexing"]
    subprocess.run(modules, env=environment_of(case.home), check=True, timeout=DEADLINE)
    start = time.monotonic() - began
    with dask_cluster.cluster(case.home, environment_of(case.home)) as made:
        for name, address, store, wanted in (
            ("no workers", made.address, url, "has no workers: begin some, as by `dask worker"),
            ("no cluster", f"tcp://127.0.0.1:{dask_cluster.free_port()}", url, "does not reply"),
            ("a cluster and a file of SQLite", made.address, case.home / "cluster.db", "name one of PostgreSQL"),
        ):
            began = time.monotonic()
            said = command_says(case.home, "index", case.folder, "--store", store, "--scheduler", address, status=1)
            took = time.monotonic() - began - start
            count_if(name, is_line(said, wanted) and took < 5, f"{took:.1f} s", said)


def indexed_by(case, made, url):
    return said_by(case.begin_index(url, "--scheduler", made.address))


@needs_cluster
def test_scheduler_killed(case):
    """The scheduler is killed, with its workers or alone: the index ends, with all rows or with a line; called again it has all."""
    for kills_workers in (True, False):
        url = case.store("PostgreSQL")
        with dask_cluster.cluster(case.home, environment_of(case.home), workers=2) as made:
            indexing = case.begin_index(url, "--scheduler", made.address)
            rows = case.wait_for_rows(indexing, url)
            made.kill_scheduler()
            for number in range(2) if kills_workers else ():
                made.kill_worker(number)
            status, said = said_by(indexing)
        is_said = status == 1 and "parts are left" in said
        if kills_workers:
            is_well = is_said and is_line(said, "does not reply") and 0 < rows < len(case.wanted["files"])
            count_if("a scheduler that is killed with its workers", is_well, rows, status, said[-500:])
        if status != 0:
            command(case.home, "index", case.folder, "--store", url, "--jobs", 2)
        name, is_so = ("the index after that", True) if kills_workers else ("a scheduler that is killed", status == 0 or is_said)
        case.count(name, url, "" if is_so else f"{status} {said}")


@needs_cluster
def test_lacking(case):
    """A worker of a cluster without the package is named, and so is one of another version; others do the work."""
    url = case.store("PostgreSQL")
    lacking, other = case.home / "lacking", case.home / "other version"
    lacking.mkdir()
    for package in places.PACKAGES:
        shutil.copytree(places.copy / package.name, other / package.name)
    write_files(other, {"cms_canon/_version.py": b'__version__ = "0.0.1"\n'})
    environment = {name: value for name, value in os.environ.items() if name != "PYTHONPATH"}
    with dask_cluster.cluster(lacking, environment, workers=1) as made:
        status, said = indexed_by(case, made, url)
        is_so = re.match(r"Error: the worker tcp://\S+ of the cluster cannot work: it lacks a package", said) and is_line(said, "cms_canon_archive")
        count_if("a worker of a cluster without the package", status == 1 and is_so, status, said)
        made.add_worker(PYTHONPATH=str(other))
        made.wait_for(2)
        status, said = indexed_by(case, made, url)
        count_if("a cluster of which no worker can work", status == 1 and is_line(said, "cannot work"), status, said)
        noted = asked(url, "SELECT note FROM workers WHERE note IS NOT NULL")
        count_if("a refusal that is noted", noted and re.search(r"this worker is cms-canon 0\.0\.1 \(.*worked on by", noted[0][0], re.S), noted)
        said = command(case.home, "progress", "--store", url)
        count_if("a refusal in progress", "this worker is cms-canon 0.0.1" in said, said)
        made.add_worker(PYTHONPATH=str(places.copy))
        made.wait_for(3)
        status, said = indexed_by(case, made, url)
        case.count("a cluster of which one worker can work", url, other_than(status, 0) and f"{status} {said}")


@needs_cluster
def test_bomb(case):
    """What workers of a cluster send is never unpickled here. If they do nothing, it is said."""
    url, mark, preload = case.store("PostgreSQL"), case.home / "unpickled", case.home / "bomb.py"
    preload.write_text(PRELOAD.format(mark=mark))
    with dask_cluster.cluster(case.home, environment_of(case.home)) as made:
        made.add_worker("--no-nanny", "--preload", preload)
        made.wait_for(1)
        status, said = indexed_by(case, made, url)
    is_so = status == 1 and is_line(said, "end without doing anything")
    count_if("a cluster that sends what runs a command", is_so and not mark.exists(), "it was run" if mark.exists() else status, said)


@needs_cluster
def test_four_workers(case):
    """A cluster of four workers ends with the very rows of one process."""
    url = case.store("PostgreSQL")
    with dask_cluster.cluster(case.home, environment_of(case.home), workers=4) as made:
        status, said = indexed_by(case, made, url)
    case.count("a cluster of four workers", url, "" if status == 0 else f"{status} {said}")
    ((worked,),) = asked(url, "SELECT count(DISTINCT name) FROM workers WHERE parts > 0")
    count_if("how many of the four worked", worked > 1, worked)


# ---- workers that lie

def test_versions(case, kind, url):
    """A worker of another version is refused by a line that names both."""
    both = r"OtherVersion: this worker is cms-canon 0\.0\.1 \(0{12}\), .* worked on by \S+ \([0-9a-f]{12}\), library [0-9a-f]{12}, tables \S+: "
    status, said = case.work(url, "other_version")
    count_if(f"a worker of another version, {kind}", status == 1 and re.match(both, said) and not rows_of(url)["files"], status, said)


NOT_HELD = "rows of a part that this worker does not hold"
NO_OTHER = "a part that another worker holds"
ROLE = {  # why the database refuses what a worker with a fault does
    "none": "", "rows_of_others": NOT_HELD, "rows_in_the_name_of_others": "rows under the number of another worker",
    **dict.fromkeys(("parts_elsewhere", "another_name", "parts_verified_otherwise"), "a part that is not in a folder which this worker holds"),
    **dict.fromkeys(("held_by_nobody", "taken_by_nobody", "in_very_many_chunks"), NO_OTHER),
}


@needs_server
@pytest.mark.parametrize("fault, refused", ROLE.items(), ids=ROLE)
def test_role(case, fault, refused):
    """The role of workers can do the work, and no more: the database refuses whatever is not of the parts that a worker holds."""
    url = case.begun("PostgreSQL")
    asked(url, "INSERT INTO workers (name, package, library, schema, began, seen) VALUES ('another', '', '', '', 0, 0)")
    if fault == "held_by_nobody":  # in a store of a release that did not refuse it
        asked(url, "CREATE OR REPLACE FUNCTION archive_parts_are_taken() RETURNS trigger LANGUAGE plpgsql AS 'BEGIN RETURN NULL; END'")
        put_in(case.home, case.folder, url)
    with case.role(url) as own:
        status, said = case.work(own, fault)
        status_wanted, wanted = (1, f"InsufficientPrivilege: {refused}") if refused else ENDED
        is_so = status == status_wanted and wanted in said.replace("ProgrammingError", "InsufficientPrivilege")
        count_if(f"the role of workers, {fault}", is_so, status, said)
        if fault == "none":
            case.count("what the role stored", url)
            judge_rights(case, url)


WORKER_LOCK = 5652


def judge_rights(case, url):
    """A worker that is asked to do anything else is refused by the database."""
    import psycopg2

    database = f"case_{case.number}"
    for statement in DATA["not_allowed"]:
        try:
            case.server.ask(statement, user="archive_worker", database=database)
            count(f"the role of workers is refused: {statement}", "it was done")
        except psycopg2.Error as error:
            count_if(f"the role of workers is refused: {statement}", error.pgcode in ("42501", "23502", "42601"), error)
    case.server.ask("UPDATE workers SET files = 1000000", user="archive_worker", database=database)
    count_same("rows of other workers", asked(url, "SELECT count(*) FROM workers WHERE files = 1000000"), [(0,)])
    case.count("what is left of it", url)


class Liar:
    """A worker of another making, which has the role of workers and says what it likes."""

    def __init__(self, case):
        self.case = case
        self._connection = case.server.connect("archive_worker", f"case_{case.number}")
        columns = "package.value, library.value, reads.value, 0, 0 FROM about AS package, about AS library, about AS reads"
        own = "package.name = 'package' AND library.name = 'shared library' AND reads.name = 'reader'"
        into = "INSERT INTO workers (name, package, library, schema, began, seen)"
        ((self.number,),) = self.ask(f"{into} SELECT 'liar:1', {columns} WHERE {own} RETURNING id")
        self.lock()

    def ask(self, statement):
        with self._connection.cursor() as cursor:
            cursor.execute(statement)
            return cursor.fetchall() if cursor.description else []

    def lock(self, call="pg_advisory_lock"):
        self.ask(f"SELECT {call}({WORKER_LOCK}, {self.number})")

    def takes(self):
        """Takes all parts that are to be done, and returns the number of the first."""
        return self.ask(f"UPDATE parts SET state = 1, tries = 1, holder = {self.number} WHERE state = 0 RETURNING id")[0][0]

    def says_of(self, part, statement="{ghost}"):
        """Says something of a part, by default that it has a file which is not there, and returns why it was refused."""
        signer = f"INSERT INTO place_signers (part, file, member, number, issuer) VALUES ({part}, 'ghost', '', '7', 'x')"
        columns, values = "part, file, member, length, size, changed, inode, what, worker", f"{part}, 'ghost', '', 1, 1, 1, 1, 'text', {self.number}"
        return self.says(statement.format(part=part, ghost=f"INSERT INTO places ({columns}) VALUES ({values})", ghost_signer=signer))

    def says(self, statement):
        """Says something, and returns why it was refused."""
        import psycopg2

        try:
            self.ask(statement)
            return ""
        except psycopg2.Error as error:
            return str(error).splitlines()[0]

    def close(self):
        self._connection.close()


@contextmanager
def lying(case, reads_first=False):
    """Lends the URL of a store, a liar, the number of a part that it has taken, done before by another worker if `reads_first`,
    and the URL for the role of workers."""
    url = case.begun("PostgreSQL")
    with case.role(url) as own:
        if reads_first:
            case.work(own)
            put_in(case.home, case.folder, url)
        with closing(Liar(case)) as liar:
            yield url, liar, liar.takes(), own


def is_put_right(case, name, url, own, more=""):
    """Counts whether a worker that comes after a liar ends with what one process stores, and verify-store finds nothing."""
    came = case.work(own)
    finish(case.home, case.folder, url)
    case.count(name, url, more or other_than((came, verified(case, url, status=0)), (ENDED, {})))


@needs_server
@pytest.mark.parametrize("name", DATA["left_behind"])
def test_left_behind(case, name):
    """What a liar leaves in the part that it gives back is refused, or is put right by the worker that takes it next."""
    statement, wanted = DATA["left_behind"][name]
    with lying(case) as (url, liar, part, own):
        refused = liar.says_of(part, statement)
        liar.ask("UPDATE parts SET state = 0 WHERE state = 1")
        is_put_right(case, f"what a liar leaves: {name}", url, own, other_than(refused, wanted))


@needs_server
def test_of_others(case):
    """The rows of a file go together: a liar that takes its part drops or adds none of those that another worker stored."""
    with lying(case, reads_first=True) as (url, liar, part, own):
        for statement in (it.format(part=part) for it in DATA["rows_of_others"]):
            count_same(f"rows of others: {statement}", liar.says(statement), "rows of a file that this worker did not store")
        liar.ask("UPDATE parts SET state = 0, tries = 0 WHERE state = 1")
        is_put_right(case, "a file that a liar had meanwhile", url, own)


@needs_server
def test_late(case):
    """A liar that lost its part stores nothing more of it, whatever its transaction sees or has not ended yet."""
    with lying(case) as (url, liar, part, own):
        liar.ask("BEGIN ISOLATION LEVEL REPEATABLE READ")
        liar.ask("SELECT count(*) FROM parts")
        liar.lock("pg_advisory_unlock")
        case.work(own)
        liar.lock()
        refused = liar.says_of(part)
        liar.ask("ROLLBACK")
        is_put_right(case, "a liar that sees what was", url, own, other_than(refused, NOT_HELD))
    with lying(case) as (url, liar, part, own):
        liar.ask("BEGIN")
        refused = liar.says_of(part)
        liar.lock("pg_advisory_unlock")
        other = case.begin_worker("none", own, seconds=DEADLINE)
        time.sleep(3)
        liar.ask("COMMIT")
        is_put_right(case, "a liar whose transaction ends late", url, own, other_than((refused, said_by(other)), ("", ENDED)))


@needs_server
def test_locked_ahead(case):
    """A liar that has the lock of the numbers to come, or of one that died, keeps no worker from its work."""
    url = case.begun("PostgreSQL")
    with case.role(url) as own, closing(Liar(case)) as liar:
        for number in range(1, 20):
            liar.ask(f"SELECT pg_advisory_lock({WORKER_LOCK}, {liar.number + number})")
        is_put_right(case, "numbers that are locked", url, own)
    with lying(case) as (url, dead, _, own), closing(Liar(case)) as liar:
        dead.close()
        liar.ask(f"SELECT pg_advisory_lock({WORKER_LOCK}, {dead.number})")
        is_put_right(case, "the number of a dead worker that is locked", url, own)


def test_meanwhile(case, kind, url):
    """An index that says otherwise how folders are to be read, while a worker has listed one, has all of them read so."""
    with case.role(url) as own:
        stopped = case.stopped_worker("stopped_listing", own, seconds=DEADLINE)
        put_in(case.home, case.folder, url, "put_in(store.Store(sys.argv[1], makes=True), sys.argv[2:], anew=True, verifies=True)")
        while stopped.poll() is None:
            stopped.send_signal(signal.SIGCONT)
            time.sleep(0.1)
        status, said = said_by(stopped)
    ways = [tuple(map(bool, it)) for it in asked(url, "SELECT DISTINCT anew, verifies FROM parts")]
    count_same(f"an index that begins meanwhile, {kind}", (status, said.splitlines()[-1:], ways), (0, ["ended"], [(True, True)]))


@needs_server
def test_divided_by_role(case):
    """The role of workers may divide a folder, and drop parts that there should not be."""
    folder = of_two_chunks(case.home / "divided by the role")
    url = case.store("PostgreSQL")
    put_in(case.home, folder, url)
    with case.role(url) as own:
        first = case.work(own)
        asked(url, f"INSERT INTO parts (path, chunk, chunks, top) VALUES ('{folder}/', 9, 10, 1)")
        put_in(case.home, folder, url)
        second = case.work(own)
    came = (first, second, asked(url, "SELECT chunk, chunks FROM parts ORDER BY chunk"), command(case.home, "verify-store", "--store", url))
    count_same("a folder that is divided by the role", came, (ENDED, ENDED, [(0, 2), (1, 2)], ""))
    asked(url, "UPDATE parts SET state = 0 WHERE chunk = 1")
    with case.role(url), closing(Liar(case)) as liar:
        liar.takes()
        refused = [liar.says(f"UPDATE parts SET {it} WHERE chunk = 0") for it in ("chunks = 3", "since = 0", "is_stored = false")]
    count_same("a liar that has one part of a folder, and changes the others", refused, [NO_OTHER] * 3)


def test_checks(kind, url):
    """The database refuses values that no worker should send, and a worker that reads such a file stores a row that says so."""
    control = {"SQLite": "'a' || char(27) || 'b'", "PostgreSQL": "E'a\\u001bb'"}
    short, whole = (f"'\\x{it}'" if kind == "PostgreSQL" else f"x'{it}'" for it in ("abcd", "ab" * 32))
    for name, (columns, values) in DATA["bad_rows"].items():
        values = values.format(row="1, 'f', 'm', 1, 1, 1, 1", short=short, whole=whole, control=control[kind])
        try:
            asked(url, f"INSERT INTO places (part, file, member, length, size, changed, inode, {columns}) VALUES ({values})")
            count(f"{name}, {kind}", "it was stored")
        except Exception as error:
            count_if(f"{name}, {kind}", type(error).__name__ == "IntegrityError", error)


def test_refused(case, kind, url):
    """Rows that the database refuses are tried again, each file by itself: what is refused then has a row that says so, and nothing else is lost."""
    case.count(f"rows that are refused at first, {kind}", url, other_than(case.work(url, "paths_in_names"), ENDED))
    url = case.begun(kind)
    came = case.work(url, "a_row_that_is_refused")
    errors = asked(url, "SELECT path, error FROM files WHERE error IS NOT NULL")
    is_so = [path[-9:] for path, _ in errors] == ["/03/3.p7s"] and errors[0].error.startswith("the store refused what was read of it: ")
    own, wanted = ([it for it in rows["files"] if not it[0].endswith("/03/3.p7s")] for rows in (rows_of(url), case.wanted))
    count_if(f"a row that is refused, {kind}", is_so and own == wanted and came == ENDED, came, errors)


@needs_server
def test_wrong_digests(case):
    """A worker that lies of what it reads is found by `verify-store` on another one, and named by its account."""
    url = case.begun("PostgreSQL")
    with case.role(url) as own:
        status, said = case.work(own, "wrong_digests")
        found = command(case.home, "verify-store", "--store", url, status=1).splitlines()
    is_named = found and all(re.search(r"digest is stored as 0{64}, .*\t\S+:\d+ \(archive_worker from local\)\t", it) for it in found)
    count_if("a worker that lies", status == 0 and is_named, status, said, found[:2])


NOT_STORED = "it is not stored"
LEFT_OUT = {  # by workers with faults: what verify-store finds, for which folder or file
    "none": {},
    "unread": {"members.tar": NOT_STORED, **{f"{it:02}/": NOT_STORED for it in range(FOLDERS)}},
    "without_folders": {f"{it:02}/": NOT_STORED for it in range(FOLDERS)},
    "dropping_its_part": {"": NOT_STORED},
    "without_a_file": {f"{it:02}/3.p7s": NOT_STORED for it in range(FOLDERS)},
    "without_the_end": {f"{it:02}/3.p7s": NOT_STORED for it in range(FOLDERS)},
    "without_chunks": {"03/": "not all of its 7 parts are there"},
    "parts_of_nothing": {"nothing 7": "it is not there any more"},
    "files_that_are_not_there": {"nowhere": "it is not there any more"},
    "other_signers": {
        "members.tar!102.p7s": "its signers are stored otherwise, its times are stored otherwise",
        "members.tar!106.p7s": "its signers are stored otherwise",
    },
}
FALSE = ("files_that_are_not_there", "other_signers")  # which only an index that reads all anew puts right


def verified(case, url, *words, status=1):
    """Returns what verify-store finds: what it says of each path below the archive, and by whom."""
    lines = command(case.home, "verify-store", "--store", url, *words, status=status).splitlines()
    return {path.removeprefix(str(case.folder)).removeprefix("/"): (why, worker) for why, worker, path in [it.split("\t") for it in lines]}


@pytest.mark.parametrize("fault, wanted", LEFT_OUT.items(), ids=LEFT_OUT)
def test_left_out(case, kind, url, fault, wanted):
    """A worker that leaves out files or folders of its parts is found by `verify-store`, and named; an index has what it left out read."""
    with case.role(url) as own:
        said = case.work(own, fault)
        finish(case.home, case.folder, url)
        found = verified(case, url, status=1 if wanted else 0)
    named = "-" if fault == "dropping_its_part" else r"\S+:\d+ \(archive_worker from local\)" if kind == "PostgreSQL" else r"\S+:\d+"
    is_named = all(re.fullmatch(named, worker) for _, worker in found.values())
    is_so = all(found.get(path, "?")[0] == why for path, why in wanted.items()) and bool(found) == bool(wanted) and is_named
    count_if(f"what is left out, {fault}, {kind}", said == ENDED and is_so, said, list(found.items())[:4])
    put_in(case.home, case.folder, url, f"put_in(store.Store(sys.argv[1], makes=True), sys.argv[2:], anew={fault in FALSE})")
    case.count(f"what was left out is read, {fault}, {kind}", url, other_than(case.work(url), ENDED))


def test_two_names(case, kind, url):
    """Folders that a worker has done under a second name, so that each file would be there twice, are found, and are dropped by an index."""
    with case.role(url) as own:
        said = case.work(own, "under_two_names")
        finish(case.home, case.folder, url)
        found = verified(case, url)
    put_in(case.home, case.folder, url)
    came = (said, len(found), {why for why, _ in found.values()}, "-" in {worker for _, worker in found.values()}, case.work(url))
    case.count(f"folders under two names, {kind}", url, other_than(came, (ENDED, FOLDERS, {"no path is named so"}, False, ENDED)))


def test_sample(case):
    """A sample finds a worker that reads nothing, for which there is no row that could be chosen; and parts that are left are no good news."""
    url = case.begun("SQLite")
    came = (command_says(case.home, "verify-store", "--store", url, status=1), case.work(url, "unread"), set(verified(case, url, "--sample", "1")))
    count_same("a sample of a store without rows", came, (YET_TO_BE_READ, ENDED, set(LEFT_OUT["unread"])))
    late, url = case.home / "late", case.store("SQLite")
    shutil.copytree(case.folder / "00", late)
    time.sleep(SETTLED)
    command(case.home, "index", late, "--store", url)
    write_files(late, {"came later": b"text"})
    why, *_, path = command(case.home, "verify-store", "--store", url, status=1).split("\t")
    count_same("a file that came later", (why, path), (f"{NOT_STORED}, and came or was changed after its folder was read", f"{late}/came later\n"))


FILE = "(SELECT part FROM places WHERE file = '3.p7s' AND member = '' ORDER BY part LIMIT 1)"  # the part of a file
OTHERS = ", ".join(
    "length size changed inode digest kind signers is_der time reason name at error beside what form content_type content state note findings "
    "digests signatures verdict is_settled is_verified library reader sha256 verified_by worker stored".split()
)
UNREADABLE = ", ".join({"what": "'unreadable'", "digest": "NULL", "state": "NULL", "reason": "NULL"}.get(it, it) for it in OTHERS.split(", "))


@pytest.fixture(scope="module")
def honest(case):
    """A store of the archive in which nothing is false."""
    store = case.home / "honest.db"
    command(case.home, "index", case.folder, "--store", store)
    command(case.home, "verify-store", "--store", store)
    return store


@pytest.mark.parametrize("place, why, lie", DATA["lies"], ids=[why for _, why, _ in DATA["lies"]])
def test_lie(honest, home, place, why, lie):
    """What a store says falsely is found, also with names that are none; a crash would hide what comes after it."""
    ((folder,),) = asked(f"sqlite:///{honest}", f"SELECT path FROM parts WHERE id = {FILE}")
    filled_in = {"part": FILE, "file": f"part = {FILE} AND file = '3.p7s'", "others": OTHERS, "unreadable": UNREADABLE, "digest": "ab" * 32}
    lie, wanted = lie.format(**filled_in), place.format(folder.rstrip("/"), **filled_in)
    with closing(sqlite3.connect(shutil.copy(honest, home / "lying.db"))) as connection:
        connection.executescript(lie)
    cells = [it.split("\t") for it in command(home, "verify-store", "--store", "lying.db", status=1).splitlines()]
    count_if(f"a lie: {lie[:60]}", any(it[0].startswith(why) and it[1] != "-" and it[2] == wanted for it in cells), wanted, cells[:3])


def test_honest(case):
    """What honest workers stored is no difference, whatever the names, and wherever the store lies."""
    home = case.home / "honest"
    names = [os.fsdecode(it) for it in (b"a\nb", b"\xff", rb"\x41", b"a\x1b", b"tab\t", b"\\" * 200, b"x" * 255)]
    one, other = ((case.folder / "00" / name).read_bytes() for name in ("0.p7s", "1.p7s"))
    folder = write_files(home / "archive", {**{f"{it}/{it}": one for it in names}, "large": bytes(5 << 20)})
    elsewhere = write_files(home / "elsewhere", {"one.p7s": b"text"})
    deep = write_files(folder.joinpath(*(f"{number}{'d' * 200}" for number in range(10))), {"1.p7s": other})
    (folder / "empty").mkdir()
    os.mkfifo(folder / "fifo")
    (folder / "link").symlink_to(case.folder)
    (folder / "stores").symlink_to(elsewhere)
    time.sleep(SETTLED)
    for name, tops, store in (
        ("odd names", [folder], home / "odd.db"),
        ("a store in its archive", [folder], folder / "own.db"),
        ("a store behind a link in its archive", [folder, elsewhere], folder / "stores" / "own.db"),
        ("what lies behind a link", [folder / "stores" / "one.p7s", folder], home / "behind.db"),
        ("a long path", [deep], home / "deep.db"),
        ("a long path of a file", [deep / "1.p7s"], home / "file.db"),
        ("a store as what is indexed", [home / "behind.db", folder], home / "behind.db"),
    ):
        command(case.home, "index", *tops, "--store", store)
        said = case.verify_store(store)
        count_if(f"honest workers: {name}", (said.returncode, said.stdout) == (0, ""), said.returncode, said.stdout[:400], said.stderr[-300:])


YET_TO_BE_READ = "1 parts are yet to be read, and are not compared: `index` goes on with them\n"


def of_two_chunks(folder):
    """Makes a folder of as many files as are divided into two parts."""
    write_files(folder, {f"{number}": b"text" for number in range(2100)})
    time.sleep(SETTLED)
    return folder


@pytest.mark.parametrize("values", ["state = 1, holder = NULL", "tries = -7", "tries = 1, doing = 'zzz'"])
def test_nobody(case, kind, url, values):
    """A part that nobody holds, or of which other numbers are said than can be, keeps no index from its end, and is read by it."""
    asked(url, f"UPDATE parts SET {values}")
    case.count(f"a part with {values}, {kind}", url, other_than(case.work(url), ENDED))


def test_tried_too_often(case, kind, url):
    asked(url, "UPDATE parts SET tries = 2147483647")
    count_same(f"a part that was tried as often as can be, {kind}", (case.work(url), asked(url, "SELECT state FROM parts")), (ENDED, [(3,)]))


def test_begun_meanwhile(case):
    """If an index begins while a store is compared, it is not said that all was compared."""
    store = case.home / "compared.db"
    command(case.home, "index", case.folder, "--store", store)
    with faulty_processes(case.home):
        came = case.verify_store(store, COMPARED=str(store))
    is_so = (came.returncode, came.stdout) == (1, "") and came.stderr.endswith(YET_TO_BE_READ.partition(" ")[2])
    count_if("an index that begins while a store is compared", is_so, came)


def test_not_compared(case):
    """What cannot be looked at, or was loaded where a worker should have read it, is not said to be as it is stored."""
    url = case.store("SQLite")
    command(case.home, "index", case.folder, "--store", url)
    ((part,),) = asked(url, "SELECT id FROM parts WHERE path LIKE '%/00/'")
    for table in ("places", "place_signers", "place_times"):
        asked(url, f"DELETE FROM {table} WHERE part = {part}")
    asked(url, f"DELETE FROM parts WHERE id = {part}")
    ran(case.home, "load", "--store", url, input=command(case.home, "rows", case.folder / "00" / "0.p7s"))
    found = verified(case, url)
    count_if("a folder of which a file was loaded", set(found) == {"00/"} and found["00/"][0] == NOT_STORED and found["00/"][1] != "-", found)
    asked(url, "DELETE FROM parts")
    with faulty_processes(case.home):
        came = case.verify_store(url, REFUSED=str(case.folder))
    count_if("an archive that cannot be looked at", came.returncode == 1 and came.stdout.startswith("it cannot be looked at: "), came)


def test_two_workers(case):
    """If the rows of one file come from two workers, the one that stored what differs is named."""
    url, names = case.store("SQLite"), "package, library, schema, began, seen"
    command(case.home, "index", case.folder, "--store", url)
    asked(url, f"INSERT INTO workers (id, name, {names}) SELECT 1000, 'another worker', {names} FROM workers LIMIT 1")
    asked(url, "UPDATE places SET form = 'another', worker = 1000 WHERE member = '7.p7s'")
    named = {path: worker for path, (_, worker) in verified(case, url).items()}
    count_same("who stored the row that differs", named, {"members.tar!7.p7s": "another worker"})


def test_named_file(case):
    """A file that was named and is not stored is found, also beside one of its folder that was loaded."""
    store, one = case.home / "named.db", (case.folder / "00" / "0.p7s").read_bytes()
    folder = write_files(case.home / "named", {"loaded.p7s": one, "indexed.p7s": one})
    time.sleep(SETTLED)
    ran(case.home, "load", "--store", store, input=command(case.home, "rows", folder / "loaded.p7s"))
    command(case.home, "index", folder / "indexed.p7s", "--store", store)
    before = command(case.home, "verify-store", "--store", store)
    asked(store, "DELETE FROM parts WHERE name = 'indexed.p7s'")
    after = command(case.home, "verify-store", "--store", store, status=1)
    count_same("a named file that is not stored", (before, after), ("", f"{NOT_STORED}\t-\t{folder}/indexed.p7s\n"))


def test_dropped_top(case):
    """A worker that drops what was named is found before `index` has ended, too."""
    url = case.begun("SQLite")
    count_same("what was named is dropped", (case.work(url, "dropping_its_part"), verified(case, url)), (ENDED, {"": (NOT_STORED, "-")}))


def test_behind_a_link(case):
    """Files that are stored as if a folder was there, where a symbolic link is or what lies behind one, are found, though they can be read."""
    folder = case.home / "linked"
    shutil.copytree(case.folder / "00", folder / "true" / "inner")
    (folder / "link").symlink_to("true")
    (folder / "to inner").symlink_to("true/inner")
    time.sleep(SETTLED)
    url = case.store("SQLite")
    command(case.home, "index", folder, "--store", url)
    ((inner,),) = asked(url, "SELECT id FROM parts WHERE path LIKE '%/true/inner/'")
    parts = "name, chunk, chunks, top, state, is_stored, holder, since, files"
    false = [f"{folder}/link/inner/", f"{folder}/to inner/"]
    for number, path in enumerate(false, 1000):
        asked(url, f"INSERT INTO parts (id, path, {parts}) SELECT {number}, '{path}', {parts} FROM parts WHERE id = {inner}")
        asked(url, f"INSERT INTO places SELECT {number}, file, member, {OTHERS} FROM places WHERE part = {inner}")
    cells = [it.split("\t") for it in command(case.home, "verify-store", "--store", url, status=1).splitlines()]
    count_if("what is stored of links", set(false) <= {path for why, _, path in cells if why == "it is not there any more"}, cells[:3])


def test_other_chunks(case):
    """Files that are stored under another part of their folder than their own are found, and an index puts them right."""
    folder = of_two_chunks(case.home / "two chunks")
    url = case.store("SQLite")
    put_in(case.home, folder, url)
    said = case.work(url, "in_other_chunks")
    lines = command(case.home, "verify-store", "--store", url, status=1).splitlines()
    misplaced = [it for it in lines if it.startswith("it is stored in another part of its folder than its own\t")]
    command(case.home, "index", folder, "--store", url)
    after = command(case.home, "verify-store", "--store", url)
    count_same("files under other parts of their folder", (said, len(misplaced), after), (ENDED, 2100, ""))


# ---- files that change while they are read

def test_changing(case):
    """A folder that vanishes after it was listed, and a tar that grows while it is read, are as if they had been so before, or are read again."""
    folder = write_files(case.home / "changing files", {"vanishing/one.p7s": b""})
    shutil.copytree(case.folder / "00", folder / "staying")
    url = case.store("SQLite")
    put_in(case.home, folder, url)
    came = case.work(url, "vanishing")
    paths = {Path(it[0]).parent.name for it in rows_of(url)["files"]}
    left = asked(url, "SELECT count(*) FROM parts WHERE path LIKE '%vanishing%'")
    count_same("a folder that vanishes", (came, paths, left), (ENDED, {"staying"}, [(0,)]))
    shutil.copy(case.folder / "members.tar", folder / "growing.tar")
    time.sleep(SETTLED)
    put_in(case.home, folder, url)
    came = case.work(url, "growing")
    time.sleep(SETTLED)
    command(case.home, "index", folder, "--store", url)
    command(case.home, "index", folder, "--store", case.home / "grown.db")
    members = asked(url, "SELECT count(*) FROM files WHERE path LIKE '%growing.tar' AND member = 'added.txt'")
    count("a tar that grows", difference(rows_of(url), rows_of(case.home / "grown.db")) or other_than((came, members), (ENDED, [(1,)])))


def test_divided(case):
    """A folder that comes to have many files is divided, and each of them is stored once; what goes is dropped."""
    folder, url, came, before = case.home / "divided", case.store("SQLite"), [], 0
    for files in (1500, 2500, 30_000, 29_000):
        write_files(folder, {f"{it}": b"text" for it in range(before, files)})
        for it in range(files, before):
            (folder / f"{it}").unlink()
        before = files
        time.sleep(SETTLED)
        said = command_says(case.home, "index", folder, "--store", url, "--jobs", 3)
        found, chunks = asked(url, "SELECT path FROM files"), asked(url, "SELECT count(*), max(chunks) FROM parts")[0]
        is_whole = sorted(it[0] for it in found) == sorted(str(folder / f"{it}") for it in range(files))
        came.append((is_whole, tuple(chunks), said.split(", ")[2].split()[0]))
    wanted = [(True, (1, 1), "0"), (True, (2, 2), "0"), (True, (15, 15), "0"), (True, (15, 15), "1,000")]
    count_same("a folder that is divided", came, wanted)


def test_tiny(case, home, kind):
    """20,000 parts of one file are done by four workers: all rows are there, and none is there twice."""
    files = {f"{number % 100}/{number}/f": b"text" for number in range(TINY)}
    folder = write_files(home / "tiny", files)
    url = case.store(kind)
    put_in(case.home, folder, url)
    workers = [case.begin_worker("none", url, seconds=60) for _ in range(4)]
    came = [said_by(it, TINY_DEADLINE) for it in workers]
    found = sorted(it[0] for it in asked(url, "SELECT path FROM files"))
    ((counted,),) = asked(url, "SELECT sum(files) FROM workers")
    states = asked(url, "SELECT state, count(*) FROM parts GROUP BY state")
    differs = other_than((came, states, int(counted)), ([ENDED] * 4, [(2, TINY + 101)], TINY))
    count(f"{TINY:,} parts of one file, {kind}", differs or ("" if found == sorted(f"{folder}/{it}" for it in files) else f"{len(found)} rows"))
