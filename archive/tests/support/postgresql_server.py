"""A PostgreSQL server of a test's own, in a folder that is dropped at the end, which only this machine reaches."""

import importlib.util
import os
import subprocess
import tempfile
from contextlib import closing, contextmanager, suppress
from pathlib import Path

SECONDS = 120  # no program of the server may take longer


def tools():
    """Returns the folder of the programs of a server, and the words that run one as a user that may; None if something is missing."""
    found = sorted(Path("/usr/lib/postgresql").glob("*/bin/initdb"))
    if not found or importlib.util.find_spec("psycopg2") is None:
        return None
    return found[-1].parent, ([] if os.getuid() else ["runuser", "-u", "postgres", "--"])


class Server:
    """A server that listens on a socket in its folder, and on a port of this machine if one is named."""

    def __init__(self, folder, port=None, more=""):
        self.folder = folder
        self.port = port
        self._programs, self._as_user = tools()
        listen = f"-c listen_addresses=127.0.0.1 -p {port}" if port else "-c listen_addresses="
        self._options = f"-k {folder} {listen} -c fsync=off -c max_connections=100 {more}"
        self._how = {"cwd": folder, "check": True, "stdout": subprocess.DEVNULL, "stderr": subprocess.DEVNULL, "timeout": SECONDS}
        os.chmod(folder, 0o777)
        self._run("initdb", "-U", "archive", "-A", "trust", "-E", "UTF8")

    def _run(self, program, *words):
        subprocess.run([*self._as_user, self._programs / program, "-D", f"{self.folder}/data", *words], **self._how)

    def start(self):
        self._run("pg_ctl", "-w", "-o", self._options, "-l", f"{self.folder}/log", "start")

    def stop(self, mode="immediate"):
        """Ends the server; at once and as in a crash, if no other mode is named."""
        self._run("pg_ctl", "-m", mode, "stop")

    def url(self, user="archive", database="postgres"):
        port = f"&port={self.port}" if self.port else ""
        return f"postgresql://{user}@/{database}?host={self.folder}{port}"

    def connect(self, user="archive", database="postgres"):
        import psycopg2

        connection = psycopg2.connect(host=self.folder, user=user, dbname=database, **({"port": self.port} if self.port else {}))
        connection.autocommit = True
        return connection

    def ask(self, statement, *values, user="archive", database="postgres"):
        with closing(self.connect(user, database)) as connection, connection.cursor() as cursor:
            cursor.execute(statement, values or None)
            return cursor.fetchall() if cursor.description else []

    def make_database(self, name):
        """Makes an empty database in place of one that there is, and returns its URL."""
        self.ask(f"DROP DATABASE IF EXISTS {name} WITH (FORCE)")
        self.ask(f"CREATE DATABASE {name}")
        return self.url(database=name)


@contextmanager
def server(port=None, more=""):
    with tempfile.TemporaryDirectory(prefix="archive-postgresql-") as folder:
        made = Server(folder, port, more)
        made.start()
        try:
            yield made
        finally:
            with suppress(subprocess.CalledProcessError):  # of one that a test has ended
                made.stop()
