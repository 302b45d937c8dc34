"""Runs the command `cms-canon-archive` of the copy of the packages, and asks the stores that it makes."""

import json
import os
import shutil
import subprocess
import sys
import time
from contextlib import contextmanager, suppress
from pathlib import Path

import places

SECONDS = 600  # no command may take longer
DEADLINE = 120  # seconds in which whatever has a fault must have ended
SETTLED = 2.1  # seconds after which a file that is not changed is not read again
AS_NOBODY = {} if os.getuid() else {"user": "nobody"}  # how to start a process without the rights of root


def words_of(*words):
    return [sys.executable, "-m", "cms_canon_archive", *map(str, words)]


def environment_of(home, **more):
    """Returns the environment of a process that finds modules in a folder before those of the copy."""
    return {**os.environ, "PYTHONPATH": f"{home}:{places.copy}", **more}


def ended(home, *words, **how):
    how = {"env": environment_of(home), "cwd": home, "timeout": SECONDS, "capture_output": True, "text": True, **how}
    return subprocess.run(words_of(*words), **how)


def begun(home, *words, **how):
    return subprocess.Popen(words_of(*words), cwd=home, env=environment_of(home), text=True, **how)


def ran(home, *words, status=0, **how):
    """Runs the command, which has to end with this status."""
    done = ended(home, *words, **how)
    assert done.returncode == status, f"{words} ended with {done.returncode}: {done.stderr[-2000:]}"
    return done


def command(home, *words, status=0):
    return ran(home, *words, status=status).stdout


def command_says(home, *words, status=0):
    """Runs the command, and returns what it writes beside its output."""
    return ran(home, *words, status=status).stderr


def lines_of(home, *words, status=0):
    return [json.loads(line) for line in command(home, *words, "--json", status=status).splitlines()]


def load_lines(home, rows, store):
    """Has a store of this name take rows by `load`."""
    lines = "".join(f"{json.dumps(it)}\n" for it in [*rows, {"end": len(rows)}])
    ran(home, "load", "--store", store, input=lines)


def asked(store, statement):
    """Returns the rows of a statement about a store, which is named by its URL or is a file of SQLite."""
    import sqlalchemy

    url = store if "://" in str(store) else f"sqlite:///{store}"
    with sqlalchemy.create_engine(url, poolclass=sqlalchemy.pool.NullPool).begin() as connection:
        result = connection.execute(sqlalchemy.text(statement))
        return result.fetchall() if result.returns_rows else []


def store_of(store):
    """Returns the files of a store, but for when they were stored."""
    from cms_canon_archive.tables import FILES, shown

    columns = ", ".join(f'"{it.name}"' for it in shown(FILES) if it.name != "stored")
    return asked(store, f"SELECT {columns} FROM files ORDER BY path, member")


def found_in(store, statement):
    """Returns the rows of a statement about a store, none if it is not made yet. A file of SQLite is only read."""
    import sqlalchemy

    with suppress(sqlalchemy.exc.DBAPIError):
        return asked(store if "://" in str(store) else f"sqlite:///file:{store}?mode=ro&uri=true", statement)
    return []


def rows_in(store):
    return sum(it for it, in found_in(store, "SELECT count(*) FROM files"))


def put_in(home, folder, url, call="put_in(store.Store(sys.argv[1], makes=True), sys.argv[2:])"):
    """Has the parts of a folder be done, by workers that the caller begins."""
    words = f"import sys\nfrom cms_canon_archive import indexing, store, watching\nindexing.{call}"
    subprocess.run([sys.executable, "-c", words, url, str(folder)], env=environment_of(home), check=True, timeout=DEADLINE)


@contextmanager
def faulty_processes(home):
    """Has each process of the command run faulty_process.py first."""
    first = home / "sitecustomize.py"
    shutil.copy(Path(__file__).with_name("faulty_process.py"), first)
    try:
        yield
    finally:
        first.unlink()


def wait_until(is_so, seconds=10):
    end = time.monotonic() + seconds
    while not is_so() and time.monotonic() < end:
        time.sleep(0.05)
