"""What each process of a test runs first, as `sitecustomize`, so that it has the faults which files or its environment name.

It is killed if it opens `killer.p7s`, and waits for ever if it opens `sleeper.p7s`. STOPPED is a file: the first process that stores rows while
it is not there makes it, and stops in its transaction. COMPARED is a store in which an index begins as soon as `members.tar` is opened.
REFUSED is a path that cannot be looked at.
"""

import contextlib
import os
import signal
import sqlite3
import sys
import time


def act(event, arguments):
    opened = os.path.basename(str(arguments[0])) if event == "open" else ""
    if opened == "killer.p7s":
        os.kill(os.getpid(), signal.SIGKILL)
    if opened == "sleeper.p7s":
        time.sleep(1000)
    if opened == "members.tar" and "COMPARED" in os.environ:
        with sqlite3.connect(os.environ["COMPARED"]) as connection:
            connection.execute("UPDATE parts SET state = 0")
    sessions = sys.modules.get("cms_canon_archive.sessions")
    if event == "sqlite3.connect" and "STOPPED" in os.environ and sessions and sessions.store.__name__ == "store":
        sessions.store = stopping(sessions.store)


def stopping(store):
    def stores(connection, pieces):
        store(connection, pieces)
        with contextlib.suppress(FileExistsError):
            os.close(os.open(os.environ["STOPPED"], os.O_CREAT | os.O_EXCL))
            os.kill(os.getpid(), signal.SIGSTOP)

    return stores


def refusing(path, own=os.lstat, **how):
    if path == os.environ["REFUSED"]:
        raise PermissionError(13, "Permission denied")
    return own(path, **how)


sys.addaudithook(act)
if "REFUSED" in os.environ:
    os.lstat = refusing
