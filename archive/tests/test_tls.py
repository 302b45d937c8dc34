"""Runs the recipes of archive/docs/ARCHIVE.md for TLS, passwords and the role of workers, with PostgreSQL and a Dask cluster on this machine.

Who has no certificate of the authority, no password or no TLS is refused, and no password is written anywhere but in its file.
"""

import re
import shutil
import subprocess
from pathlib import Path
from random import Random
from types import SimpleNamespace

import dask_cluster
import postgresql_server
import pytest
from counting import count_if, count_same, is_line, needs, needs_server
from making import message_at_random, write_files
from places import ARCHIVE
from running import SECONDS, ended, environment_of, put_in

pytestmark = [pytest.mark.archive, needs("click", "tqdm", "sqlalchemy", "cryptography", tools=["openssl"]), needs_server]
TEXT = (ARCHIVE / "docs" / "ARCHIVE.md").read_text()
PASSWORD = "hunter2, and not told"
STORE = "postgresql:///?service=archive"
SEED = 1414


def block(language, begin):
    return next(it for it in re.findall(rf"^```{language}\n(.*?)^```$", TEXT, re.M | re.S) if it.startswith(begin))


def secure(server, certificates):
    """Has the server ask for TLS and a password of whoever comes over the network."""
    data = Path(server.folder) / "data"
    settings = block("ini", "ssl = on").replace("db.example.org", "localhost")
    for name in ("localhost.pem", "localhost.key"):
        shutil.copy(certificates / name, data / name)
        shutil.chown(data / name, data.stat().st_uid)
        (data / name).chmod(0o600)
    with open(data / "postgresql.conf", "a") as file:
        file.write(settings)
    rule = re.search(r"`(hostssl archive archive_worker \S+ scram-sha-256)`", TEXT)[1].replace("192.0.2.0/24", "127.0.0.1/32")
    (data / "pg_hba.conf").write_text(f"local all archive trust\n{rule}\n")
    server.stop("fast")
    server.start()


def make_client(home, server, certificates):
    """Writes the files of a machine that works, and returns its variables."""
    service, line = (it.replace("db.example.org", "localhost").replace("5432", str(server.port)) for it in (
        block("ini", "[archive]"), block("text", "db.example.org:")))
    return variables_of(home, "own", service.replace("/etc/cms-canon", str(certificates)), line.replace("PASSWORD", PASSWORD))


def variables_of(home, name, service, password):
    """Writes the files in which a machine has its service and its password, and returns the variables that name them."""
    write_files(home, {f"{name} service": service.encode(), f"{name} password": password.encode()})
    (home / f"{name} password").chmod(0o600)
    return {"PGSERVICEFILE": f"{home}/{name} service", "PGPASSFILE": f"{home}/{name} password"}


def worked(home, **variables):
    done = ended(home, "work", "--store", STORE, "--jobs", 2, "--idle-timeout", 2, env=environment_of(home, **variables))
    return done.returncode, done.stderr


@pytest.fixture(scope="module")
def secured(shared_home, copied):
    """A server to which the parts of a folder were put and that asks for TLS and a password, the certificates, and the variables of a client."""
    random, certificates = Random(SEED), shared_home / "certificates"
    folder = write_files(shared_home / "files", {f"{number % 10}/{number}.p7s": message_at_random(random).octets for number in range(200)})
    certificates.mkdir()
    script = block("sh", "openssl req -x509").replace("db.example.org", "localhost")
    subprocess.run(["sh", "-e", "-c", script], cwd=certificates, check=True, capture_output=True, timeout=SECONDS)
    with postgresql_server.server(port=dask_cluster.free_port()) as server:
        put_in(shared_home, folder, server.make_database("archive"))
        server.ask(block("sql", "CREATE ROLE"), database="archive")
        secure(server, certificates)
        server.ask("ALTER ROLE archive_worker PASSWORD %s", PASSWORD, database="archive")
        client = make_client(shared_home, server, certificates)
        yield SimpleNamespace(folder=folder, certificates=certificates, server=server, client=client)


@pytest.mark.parametrize("name, text, other, host", [
    ("no TLS", "sslmode=verify-full", "sslmode=disable", "localhost"),
    ("another authority", "authority.pem", "cluster.example.org.pem", "localhost"),
    ("another name of the server", "host=localhost", "host=127.0.0.1", "127.0.0.1"),
])
def test_refused(home, secured, name, text, other, host):
    """Who lacks anything is refused, in a line without the password."""
    service, line = (Path(secured.client[it]).read_text() for it in ("PGSERVICEFILE", "PGPASSFILE"))
    status, said = worked(home, **variables_of(home, "other", service.replace(text, other), line.replace("localhost", host)))
    count_if(name, status == 1 and said.startswith("Error: ") and PASSWORD not in said, status, said)


def test_no_password(home, secured):
    status, said = worked(home, **{**secured.client, "PGPASSFILE": str(home / "none")})
    count_if("no password", status == 1 and is_line(said, "password"), status, said)


def test_worker(home, secured):
    came = worked(home, **secured.client)
    stored = secured.server.ask("SELECT count(*) FROM files", database="archive")
    over_tls = "account = 'archive_worker' AND address = '127.0.0.1' AND parts > 0"
    ((encrypted,),) = secured.server.ask(f"SELECT count(*) > 0 FROM workers WHERE {over_tls}", database="archive")
    count_same("a worker with TLS", (came, stored, encrypted), ((0, ""), [(200,)], True))


@needs("distributed")
def test_cluster(home, secured):
    """A cluster with TLS does the work, with accounts and passwords of its own; who has no certificate of it cannot ask its scheduler."""
    server, folder = secured.server, secured.folder
    service = f"[archive]\nhost={server.folder}\nport={server.port}\ndbname=archive\nuser=archive\n"
    settings = block("yaml", "distributed:").replace("/etc/cms-canon", str(secured.certificates))
    write_files(home, {"dask/tls.yaml": settings.encode(), "owner.conf": service.encode()})
    environment = environment_of(home, DASK_CONFIG=str(home / "dask"), **secured.client)
    own = {**environment, "PGSERVICEFILE": str(home / "owner.conf")}
    before = server.ask("SELECT coalesce(max(id), 0) FROM workers", database="archive")[0][0]
    with dask_cluster.cluster(home, environment, workers=2, protocol="tls") as made:
        done = ended(home, "index", folder, "--anew", "--store", STORE, "--scheduler", made.address, env=own)
        accounts = server.ask("SELECT DISTINCT account FROM workers WHERE parts > 0 AND id > %s", before, database="archive")
        count_if("a cluster with TLS", done.returncode == 0 and accounts == [("archive_worker",)], done, accounts)
        plain = {name: value for name, value in own.items() if name != "DASK_CONFIG"}
        for name, address in (("no certificate", made.address), ("no TLS to the scheduler", made.address.replace("tls", "tcp"))):
            done = ended(home, "index", folder, "--store", STORE, "--scheduler", address, env=plain)
            count_if(name, done.returncode == 1 and is_line(done.stderr) and done.stderr.startswith("Error: "), done.stderr[-400:])
