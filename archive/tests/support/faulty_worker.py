"""A worker of `cms-canon-archive` that has a fault, in this very process:

    /usr/bin/python3 archive/tests/support/faulty_worker.py FAULT STORE SECONDS

SECONDS are those after which a worker that says nothing has lost its parts. It prints what it noticed.
"""

import itertools
import os
import shutil
import signal
import sys
import tarfile
from hashlib import sha256
from pathlib import Path

from cms_canon_archive import folders, sessions, versions, working
from cms_canon_archive.opening import url_of

AFTER = 5  # files that are read before the fault
_stored, _put = sessions.store, sessions.Session.put
_begun, _put_file = folders.Reader.begin, folders.Reader.put


def stops():
    print("stopped", flush=True)
    os.kill(os.getpid(), signal.SIGSTOP)


# ---- a fault is a function without arguments, after whose call the worker has it

def _in_place_of(holder, name):
    """Makes a fault of a function that stands in the place of another one."""
    return lambda function: lambda: setattr(holder, name, function)


def _reading(act):
    """Makes a fault of something that happens while a file is read."""
    files = itertools.count(1)

    @_in_place_of(folders.Reader, "put")
    def put(self, outcome, file, entry, reads):
        if next(files) == AFTER:
            act()
        _put_file(self, outcome, file, entry, reads)

    return put


def _changing_files(change):
    """Makes a fault of what changes what was read of each file."""
    return _in_place_of(folders.Reader, "put")(
        lambda self, outcome, file, entry, reads: _put_file(self, outcome, file, entry, change(entry, reads)))


stopped_reading = _reading(stops)
kills_itself = _reading(lambda: os.kill(os.getpid(), signal.SIGKILL))


def _storing(before, after):
    """Makes a fault of what happens in the second transaction, before and after the rows are sent."""
    transactions = itertools.count(1)

    @_in_place_of(sessions, "store")
    def store(connection, pieces):
        is_second = next(transactions) == 2
        if is_second:
            before()
        _stored(connection, pieces)
        if is_second:
            after()

    return store


stopped_sending = _storing(stops, lambda: None)
stopped_storing = _storing(lambda: None, stops)


def other_version():
    own = versions.own_version()
    sessions.own_version = lambda: own._replace(package="0.0.1 (000000000000)")


@_in_place_of(folders.Reader, "begin")
def stopped_listing(self, outcome):
    """It is stopped after it listed a folder in which there are others."""
    found = _begun(self, outcome)
    if outcome.new:
        stops()
    return found


@_in_place_of(folders.Reader, "begin")
def vanishing(self, outcome):
    """A folder goes when it is taken, after it was listed."""
    if outcome.part.path.endswith("/vanishing/"):
        shutil.rmtree(outcome.part.path)
    return _begun(self, outcome)


@_changing_files
def growing(entry, reads):
    """A tar grows while it is read."""
    for number, read in enumerate(reads):
        if number == 0 and entry.path.endswith("growing.tar"):
            with tarfile.open(entry.path, "a") as tar:
                tar.addfile(tarfile.TarInfo("added.txt"))
        yield read


@_changing_files
def a_row_that_is_refused(entry, reads):
    """Whatever it does, it sends a row of one file that no store takes."""
    for read in reads:
        odd = read._replace(place=read.place._replace(form="a\x1bb"))
        yield odd if entry.path.endswith("/03/3.p7s") and read.place.error is None else read


unread = _in_place_of(folders.Reader, "begin")(lambda self, outcome: [])  # it says that it did its parts, and reads nothing


def in_other_chunks():
    """It stores each file of a folder that is divided under the part of others."""
    chunk_of = folders.chunk_of
    folders.chunk_of = lambda name, chunks: (chunk_of(name, chunks) + 1) % chunks


def _sending(change):
    """Makes a fault of what changes the rows and the parts that each transaction sends."""

    @_in_place_of(sessions.Session, "put")
    def put(self, outcomes, rows, unbegun=()):
        change(outcomes, rows)
        return _put(self, outcomes, rows, unbegun)

    return put


def _changing_rows(change, *tables):
    """Makes a fault of what changes the rows of these tables that each transaction sends: those of places, if none are named."""

    @_sending
    def sends(outcomes, rows):
        for table in tables or (sessions.PLACES,):
            rows._rows[table][:] = change(rows._rows[table])

    return sends


# It sends a row of a part that it does not hold; one of a file that lies elsewhere, by its name; or one under the number of another worker.
rows_of_others = _changing_rows(lambda own: own + [(row[0] + 1_000_000, *row[1:]) for row in own[:1]])
paths_in_names = _changing_rows(lambda own: [(row[0], "../elsewhere", *row[2:]) for row in own[:1]] + own[1:])
rows_in_the_name_of_others = _changing_rows(lambda own: [(*row[:-1], 1) for row in own[:1]] + own[1:])
# It says that there is a message in a file which is not there, and nothing of the file itself.
files_that_are_not_there = _changing_rows(lambda own: own + [(row[0], "nowhere", "a place", *row[3:]) for row in own[:1]])
# It sends nothing of a file; or what lies in it, and nothing of the file itself.
without_a_file = _changing_rows(lambda own: [row for row in own if row[1] != "3.p7s"], *sessions.OF_PARTS)
without_the_end = _changing_rows(
    lambda own: [(*row[:2], "a place", *row[3:]) if row[1:3] == ("3.p7s", "") else row for row in own], *sessions.OF_PARTS)


@_changing_rows
def wrong_digests(own):
    """It says that the first message of each part is another one."""
    at = sessions.PLACES.columns.keys().index("digest")
    first = next((row for row in own if row[at] is not None), None)
    return [(*row[:at], bytes(32), *row[at + 1 :]) if row is first else row for row in own]


def _part(path, top, name="", whole=None):
    return sessions.New(path, name, 0, 1, whole, top, False, False, None)


def _adding(parts_beside):
    """Makes a fault of what has other parts done beside the first one that each transaction has done."""
    return _sending(lambda outcomes, rows: outcomes[0].new.extend(parts_beside(outcomes[0].part)))


parts_elsewhere = _adding(lambda own: [_part("/etc/", 1)])  # it has a folder done that does not lie in one that it holds
another_name = _adding(lambda own: [_part("/zzz/", own.top, whole=f"{own.path}inside/")])  # it has one done under the path of another one


def parts_verified_otherwise():
    """It has the folders in those that it holds read in another way than these."""
    add = sessions.Session._add_parts
    sessions.Session._add_parts = lambda self, connection, new: add(self, connection, [it._replace(verifies=True) for it in new])


def under_two_names():
    """It has each folder done under a second name too, as one has whose path is too long for a store."""
    path_of = folders.path_of
    folders.path_of = lambda part: part.whole or path_of(part)

    def cut(new):
        folder = Path(new.path)
        return new._replace(path=f"{folder.parent}/\\...{sha256(os.fsencode(folder)).hexdigest()}/", whole=new.path)

    _sending(lambda outcomes, rows: [it.new.extend([cut(new) for new in it.new if new.name == "" and new.chunk == 0]) for it in outcomes])()


@_sending
def other_signers(outcomes, rows):
    """It says that other people signed, and that all time-stamps fit, of what it stores in other respects as it is."""
    for table, name, value in zip(sessions.OF_PARTS[1:], ("issuer", "state"), ("another", "fits")):
        at, own = table.columns.keys().index(name), rows._rows[table]
        own[:] = [(*row[:at], value, *row[at + 1 :]) for row in own]


@_sending
def without_folders(outcomes, rows):
    """It leaves out the folders in those that it lists."""
    for it in outcomes:
        it.new.clear()


@_sending
def dropping_its_part(outcomes, rows):
    """It drops the part that it holds, as if its folder was gone."""
    outcomes[0].is_gone = True


def parts_of_nothing():
    """It has parts done for files that are not there, so that a sample would seldom have one of those that there are."""
    _adding(lambda own: [_part(own.path, own.top, f"nothing {it}", own.whole) for it in range(20) if own.name == ""])()
    folders.Reader.begin = lambda self, outcome: [] if outcome.part.name.startswith("nothing") else _begun(self, outcome)


def _changing(ending="", **values):
    """Makes a fault of the values that each transaction gives to its parts of folders with this ending, before they are done."""

    @_in_place_of(sessions.Session, "put")
    def put(self, outcomes, rows, unbegun=()):
        with self.transaction() as connection:
            own = sessions.PARTS.c.id.in_([it.part.id for it in outcomes if it.part.path.endswith(ending)])
            connection.execute(sessions.sa.update(sessions.PARTS).where(own).values(**values))
        _put(self, outcomes, rows, unbegun)

    return put


held_by_nobody = _changing(state=2, holder=None)  # it says that nobody holds its part, which is done
taken_by_nobody = _changing(holder=None)  # and the same of one that is taken
in_very_many_chunks = _changing(chunks=1_000_000_000)  # it says that folders are divided into more parts than any folder is
# It says that folders have other parts than the one that it read, which there are not.
without_chunks = _changing("/03/", chunks=7)


def told(error):
    print(f"{type(error).__name__}: {str(getattr(error, 'orig', None) or error).splitlines()[0]}", flush=True)


def main(fault, store, seconds):
    if fault != "none":
        globals()[fault]()
    put = sessions.Session.put

    def noticed(*words):
        """Says that parts were another worker's, and goes on."""
        try:
            return put(*words)
        except sessions.Superseded as error:
            told(error)
            raise

    sessions.Session.put = noticed
    try:
        working.Worker(url_of(store), working.Options(together=20, patience=float(seconds))).run()
    except Exception as error:
        told(error)
        return 1
    print("ended", flush=True)
    return 0


if __name__ == "__main__":
    assert Path(sys.argv[0]).name == "faulty_worker.py"
    sys.exit(main(*sys.argv[1:]))
