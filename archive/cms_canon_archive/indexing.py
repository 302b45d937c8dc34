"""Brings a store up to date with the files of an archive: puts in what is to be done, has it done by workers, and watches them."""

from __future__ import annotations

import fcntl
import json
import os
import sys
import time
from functools import partial
from importlib import import_module
from itertools import islice
from typing import TYPE_CHECKING, Any, Callable, Dict, Iterable, Iterator, List, NamedTuple, Optional, Sequence, Set, Tuple

import sqlalchemy as sa

import cms_canon

from .folders import FEW, LARGE, texts_of_folder
from .opening import WORKERS_ENDING, for_others
from .options import Options
from .processes import Processes
from .judging import judged
from .reading import Entry, Part, read_of, unread
from .settings import NO_SETTINGS, Settings
from .settings import put as put_settings
from .history import BEGAN, ENDED
from .spool import Spool
from .spool import store as store_rows
from .store import MISSING, MOST_PATHS, Store
from .tables import IS_TAKEN, IS_TO_DO, OF_PARTS, PARTS, PLACES, Now, insertion
from .texts import path_text_of, text_of
from .versions import own_version
from .watching import Counts, State, Watch, counts_in, state_of
from .working import Worker

if TYPE_CHECKING:
    from .cluster import Cluster, NoCluster

ROWS_TOGETHER = 4000  # rows of lines that are stored in one transaction
MOST_SECONDS = 2.0  # after which they are stored, however few they are
_MOST_COUNTED = 10_000  # parts: no machine begins more workers
_READERS = (f"{__package__}.short_files", "cms_canon.verifier")  # what is needed to read nearly every file
_POLLED = 1.0  # seconds between two looks at the store
_TENDED = 0.5  # seconds between two looks at the processes of this machine, if none ends
_GRACE = 10.0  # seconds without any worker after which a cluster is asked to begin again
_ASKED_AGAIN = 3.0  # seconds between two looks at the workers of a cluster
_MOST_BEGINNINGS = 3  # of the workers of a cluster, while nothing is done

Missing = Tuple[str, str]  # a path that was named and is not there, and why
Show = Callable[[State, Counts], None]  # shows where an index is, and what was done since it began


# ---- what is to be done


def put_in(
    store: Store, tops: Sequence[str], anew: bool = False, verifies: bool = False, settings: Settings = NO_SETTINGS, missing: Sequence[Missing] = ()
) -> int:
    """Has the parts of these folders and files done, and done again if they are done or being done. Returns how many are to be done, at most 10,000.

    `missing` are paths that were named and are not there: what the index has of one is kept, and a row says so. Until the next index, the store names them.
    """

    began = _beginning(store)

    def put() -> int:
        with store.engine.begin() as connection:
            if store.is_sqlite:
                connection.exec_driver_sql("BEGIN IMMEDIATE")
            how = {"anew": anew, "verifies": verifies, "settings": put_settings(connection, settings)}
            for top in tops:
                _put_top(connection, top, os.path.isdir(top), how)
            for path, why in missing:
                _note_missing(connection, path, why)
            some = sa.select(PARTS.c.id).where(IS_TO_DO).limit(_MOST_COUNTED).subquery()
            return int(connection.execute(sa.select(sa.func.count()).select_from(some)).scalar_one())

    to_do = store.tried(put)
    not_there = json.dumps(sorted(path_text_of(it) for it, _ in missing)[:MOST_PATHS])
    store.note_paths(map(_noted, tops), {**own_version().noted(), BEGAN: str(began), ENDED: "", MISSING: not_there})
    return to_do


def _beginning(store: Store) -> int:
    """Returns when this index begins, in seconds since 1970; or the one before, if that has not ended, so that what it found is not lost to who asks."""
    about = store.about()
    if BEGAN in about and about.get(ENDED) != about[BEGAN]:
        return int(about[BEGAN])
    with store.engine.connect() as connection:
        return int(connection.execute(sa.select(Now())).scalar_one())


def _noted(top: str) -> str:
    """Returns the text by which a store notes a path that is indexed."""
    return texts_of_folder(top)[0].rstrip("/") or "/" if os.path.isdir(top) else path_text_of(top)


def _put_top(connection: sa.engine.Connection, top: str, is_folder: bool, how: Dict[str, Any]) -> None:
    folder, whole = texts_of_folder(top if is_folder else os.path.dirname(top))
    name = "" if is_folder else text_of(os.path.basename(top))
    part = {"path": folder, "name": name, "whole": whole, "top": len(whole or folder)}
    connection.execute(insertion(PARTS, connection.dialect.name).values(**part).on_conflict_do_nothing(index_elements=["path", "name", "chunk"]))
    is_inside = _is_inside(folder) if is_folder else (PARTS.c.path == folder) & (PARTS.c.name == name)
    again = {"state": sa.case((PARTS.c.state == 1, 1), else_=0), "again": PARTS.c.state == 1, "tries": sa.case((PARTS.c.state == 1, PARTS.c.tries), else_=0)}
    connection.execute(sa.update(PARTS).where(is_inside).values(top=len(whole or folder), doing=None, **how, **again))
    above, base = texts_of_folder(os.path.dirname(top))[0], text_of(os.path.basename(top))
    if base:
        is_file = (PARTS.c.path == above) & (PARTS.c.name == base)
        is_other_kind = is_file if is_folder else _is_inside(texts_of_folder(top)[0])
        connection.execute(sa.update(PARTS).where(is_other_kind).values(doing=None, **again))  # by which a worker finds that it is gone
        own = sa.select(PARTS.c.id).where(PARTS.c.path == above, PARTS.c.name == "")
        for table in OF_PARTS:  # what was stored of a file as one of its folder is now stored of the part, or is no file any more
            connection.execute(sa.delete(table).where(table.c.part.in_(own), table.c.file == base))


def _is_inside(folder: str) -> Any:
    """Returns the condition that a part is a folder of this text, or lies in it."""
    return (PARTS.c.path >= folder) & (PARTS.c.path < folder[:-1] + "0")


def _note_missing(connection: sa.engine.Connection, path: str, why: str) -> None:
    """Puts a row in an index that has anything of a folder or a file which is not there. It goes when the folder is read again."""
    folder, name = texts_of_folder(path)[0], text_of(os.path.basename(path))
    above = PARTS.c.path == texts_of_folder(os.path.dirname(path))[0]
    is_own = ((PARTS.c.path == folder) & (PARTS.c.name == "") & (PARTS.c.chunk == 0)) | (above & (PARTS.c.name == name))
    places = [(part, "") for part in connection.execute(sa.select(PARTS.c.id).where(is_own)).scalars().all()]
    if os.path.isdir(os.path.dirname(path)):  # of a file whose folder is there its own row says so
        is_row = above & (PARTS.c.name == "") & (PLACES.c.file == name) & (PLACES.c.member == "")
        places += [(part, name) for part in connection.execute(sa.select(PARTS.c.id).select_from(PARTS.join(PLACES, PLACES.c.part == PARTS.c.id)).where(is_row)).scalars().all()]
    entry = Entry(path, 0, 0, 0)
    found = unread(entry, why)
    for part, file in places:
        connection.execute(sa.update(PARTS).where(PARTS.c.id == part).values(is_stored=True))
        for table in OF_PARTS:
            connection.execute(sa.delete(table).where(table.c.part == part, table.c.file == file))
        rows = Spool(None)
        rows.add(part, file, read_of(entry, found, judged(found)))
        store_rows(connection, rows.pieces())


# ---- having it done


class Done(NamedTuple):
    """What an index has come to."""

    files: int
    unchanged: int
    gone: int


def finish(store: Store, tops: Iterable[str], before: Counts) -> Done:
    """Makes what is made when all parts are done, closes the store, and returns what was done since."""
    store.finish()
    _let_go(store)
    store.note_index(map(_noted, tops), cms_canon.__version__)
    about = store.about()
    if BEGAN in about and not _is_any_left(store):
        store.note({ENDED: about[BEGAN]})
    with store.engine.connect() as connection:
        counts = counts_in(connection).since(before)
    store.close()  # or SQLite would leave its log beside it
    return Done(counts.files, counts.unchanged, counts.gone)


class Plan(NamedTuple):
    """How an index is made."""

    tops: Sequence[str]
    options: Options
    jobs: int
    """Processes of this machine; none if others do the work, or a cluster."""
    scheduler: Optional[str]
    anew: bool
    verifies: bool
    settings: Settings = NO_SETTINGS
    missing: Sequence[Missing] = ()


def index(store: Store, plan: Plan, line_of: Callable[[Exception], Optional[str]], show: Show) -> Done:
    """Stores what each file is that is not stored, or has changed.

    Killed at any moment, it goes on from there when it is called again. `line_of` says an error of a worker in a line.
    """
    watch = Watch(store.url, store.wait)
    cluster = _cluster_of(plan.scheduler) if plan.scheduler else None
    with store.engine.connect() as connection:
        before = counts_in(connection)
    to_do = put_in(store, plan.tops, plan.anew, plan.verifies, plan.settings, plan.missing)
    store.close()  # or processes begun now would have its connections
    if cluster is not None:
        _by_cluster(watch, cluster, plan, partial(show_since, show, before))
    elif plan.jobs:
        _by_processes(watch, plan, to_do, line_of, partial(show_since, show, before))
    else:
        _by_others(watch, plan, partial(show_since, show, before))
    return finish(store, plan.tops, before)


def show_since(show: Show, before: Counts, state: State) -> None:
    """Shows where an index is that began with these counts."""
    show(state, state.counts.since(before))


def work(url: Any, options: Options) -> None:
    """Works in this process until no part is left."""
    Worker(url, options).run()


def _by_processes(watch: Watch, plan: Plan, to_do: int, line_of: Callable[[Exception], Optional[str]], show: Callable[[State], None]) -> None:
    """Has processes work, but no more than there are parts to be done, as far as can be seen before any works."""
    parts, has_files = _seen_in(plan.tops, plan.jobs + 1)  # or one process alone would look into no folder
    if has_files:
        import_readers()
    jobs = min(plan.jobs, max(to_do, parts))
    with Processes(jobs, partial(work, watch.url, plan.options), line_of, plan.options.patience) as processes:
        tend(processes, watch, show)


def _seen_in(tops: Sequence[str], most: int) -> Tuple[int, bool]:
    """Returns how many parts there are in folders and files, or `most` if there may be as many, and whether there are files.

    Workers wait for this, so it looks no further than it has to.
    """
    parts, files, left = 0, 0, list(tops)
    try:
        while left and parts + len(left) < most and files <= FEW:
            path = left.pop()
            parts += 1
            if not os.path.isdir(path):
                files += 1
                continue
            with os.scandir(path) as found:
                for entry in islice(found, FEW + 1):
                    if entry.is_dir(follow_symlinks=False):
                        left.append(entry.path)
                    else:
                        files += 1
                        parts += entry.stat(follow_symlinks=False).st_size > LARGE
    except OSError:  # of what is gone meanwhile, or cannot be looked at
        return most, True
    return (most, True) if left or files > FEW else (parts, files > 0)


def import_readers() -> None:
    """Imports what reads files in the process from which workers are forked: each of them would take the time for it by itself."""
    for name in _READERS:
        import_module(name)


def tend(processes: Processes, watch: Watch, show: Callable[[State], None]) -> None:
    """Looks after processes until all have ended, since no part is left."""
    polled, parts = time.monotonic(), -1
    while processes.running():
        processes.wait(_TENDED)
        processes.tend()
        if time.monotonic() - polled > _POLLED:
            state = watch.state()
            if state is not None:
                if state.counts.parts != parts:
                    processes.note_progress()
                parts = state.counts.parts
                show(state)
            polled = time.monotonic()


def _states(watch: Watch, patience: float, show: Callable[[State], None]) -> Iterator[State]:
    """Gives where the index is, until all parts are done. A database that does not reply is asked again for so many seconds."""
    replied = time.monotonic()
    while True:
        state = watch.state() if time.monotonic() - replied < patience else watch.asked(state_of)
        if state is not None:
            replied = time.monotonic()
            show(state)
            if not state.to_do and not state.taken:
                return
            yield state
        time.sleep(_POLLED)


def _cluster_of(address: str) -> Cluster:
    """Returns the cluster of a scheduler. Raises `NoCluster` if it cannot work."""
    from .cluster import Cluster

    cluster = Cluster(address)
    cluster.check()
    return cluster


def _by_cluster(watch: Watch, cluster: Cluster, plan: Plan, show: Callable[[State], None]) -> None:
    """Has the workers of a cluster work. If there is none any more, they are begun again, and if that fails, it is said."""
    from .cluster import NoCluster

    words = ["work", "--store", for_others(watch.url), "--together", str(plan.options.together), "--idle-timeout", str(plan.options.patience)]
    seen, asked = time.monotonic(), 0.0
    beginnings, done = 0, -1
    for state in _states(watch, plan.options.patience, show):
        now = time.monotonic()
        beginnings = beginnings if state.counts.parts == done else 0
        done, seen = state.counts.parts, now if state.workers else seen
        is_first, is_idle = asked == 0.0, now - seen > _GRACE
        if not is_first and not is_idle and now - asked < _ASKED_AGAIN:
            continue
        failure = _failure(cluster, words, is_idle)
        asked, beginnings = now, beginnings + is_idle
        is_working = (watch.state() or state).workers > 0
        if not is_working and (failure is not None and (is_first or is_idle) or beginnings > _MOST_BEGINNINGS):
            left = f"{state.to_do + state.taken} parts are left, and are done when the command is called again"
            raise NoCluster(f"{failure or 'the workers of the cluster end without doing anything, as its log may say'}; {left}")
        seen = now if is_idle or is_working else seen


def _failure(cluster: Cluster, words: List[str], is_idle: bool) -> Optional[NoCluster]:
    """Has workers begin that came since, or all of them if none works any more. Returns why they cannot."""
    from .cluster import NoCluster

    if is_idle:
        cluster.forget()
    try:
        cluster.begin(words)
    except NoCluster as why:
        return why
    return None


def _by_others(watch: Watch, plan: Plan, show: Callable[[State], None]) -> None:
    """Waits for workers that are begun elsewhere."""
    began, is_said = time.monotonic(), False
    for state in _states(watch, plan.options.patience, show):
        if not state.workers and not is_said and time.monotonic() - began > _GRACE / 2:
            print(f"no worker has begun: on a machine that sees the files, cms-canon-archive work --store '{for_others(watch.url)}'", file=sys.stderr)
            is_said = True


def _is_any_left(store: Store) -> bool:
    return any(store.asked(sa.select(PARTS.c.id).where(IS_TO_DO | IS_TAKEN).limit(1)))


def _let_go(store: Store) -> None:
    """Drops the file of the locks of workers beside that of SQLite, if no worker has one, so that a store is one file."""
    if not store.is_sqlite:
        return
    try:
        with open(str(store.url.database) + WORKERS_ENDING, "r+") as file:
            fcntl.lockf(file, fcntl.LOCK_EX | fcntl.LOCK_NB)
            os.unlink(file.name)
    except OSError:
        pass


# ---- lines of `rows`


def gathered(parts: Iterable[Part], together: int = ROWS_TOGETHER) -> Iterator[List[Part]]:
    """Gives parts in longer lists, to be stored together. No file begins twice in one of them."""
    some: List[Part] = []
    paths: Set[str] = set()
    rows, since = 0, time.monotonic()
    for part in parts:
        if part.is_first and part.path in paths:
            yield some
            some, paths, rows = [], set(), 0
        some.append(part)
        paths.add(part.path)
        rows += len(part.rows)
        if rows >= together or time.monotonic() - since > MOST_SECONDS:
            yield some
            some, paths, rows, since = [], set(), 0, time.monotonic()
    if some:
        yield some
