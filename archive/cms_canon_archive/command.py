"""The command `cms-canon-archive`: its words, options and help. What does the work of a word is imported when the word is called."""

from __future__ import annotations

import errno
import os
import sys
import time
from contextlib import contextmanager, nullcontext
from functools import partial, wraps
from itertools import islice
from pathlib import Path
from typing import TYPE_CHECKING, Any, Callable, Dict, Iterable, Iterator, List, Optional, Sequence, Set, Tuple, TypeVar

import click

from .faults import Complaint, Misuse, line_of
from .options import PATIENCE, TOGETHER, Options

if TYPE_CHECKING:
    from .digests import Group
    from .exporting import Copied
    from .fixity import Line, Manifest
    from .filters import Filters
    from .judging import Verification
    from .outcomes import Outcome
    from .queries import Totals
    from .reading import Row
    from .settings import Settings
    from .store import Store
    from .watching import Watch

_Item = TypeVar("_Item")
DEFAULT_STORE = "index.db"
HELP = {"help_option_names": ["-h", "--help"]}
_LARGEST_LIMIT = 1 << 40  # octets
_LOOKED_AT = 1.0  # seconds between the two looks by which files are counted a second
_LOOKED_FOR = 0.5  # seconds between two looks for an index

_store = click.option("--store", "url", default=DEFAULT_STORE, show_default=True, help="The database: a path, or a URL of SQLAlchemy.")
_wait = click.option("--wait", type=click.FloatRange(0), metavar="SECONDS", help="How long to wait for a store that is in use.")
_json = click.option("--json", "form", flag_value="json", help="Write JSON, a line for each.")
_csv = click.option("--csv", "form", flag_value="csv", help="Write CSV, with a line of names.")
_FILE = click.Path(exists=True, dir_okay=False, allow_dash=True)
_FOLDER = click.Path(exists=True, file_okay=False)
_ANY_PATH = click.Path(readable=False)  # which shells complete, and of which nothing is asked
_verify = click.option("--verify", "verifies", is_flag=True, help="Verify signatures by the certificates in the messages, which says nothing of trust.")


_FILTERS = (
    click.option("--state", metavar="STATE", help="Only messages in this state, as 'does not fit', which the manual lists."),
    click.option("--under", type=_ANY_PATH, metavar="PATH", help="Only this file, or what is in this folder."),
    click.option("--signer", metavar="TEXT", help="Only messages with TEXT in the name of a signer or of its issuer."),
    click.option("--algorithm", metavar="NAME", help="Only what uses this algorithm or key, as sha1 or RSA."),
    click.option("--since", metavar="TIME", help="Only what was signed or time-stamped from then on, in UTC: 2024, 2024-02 or 2024-02-29."),
    click.option("--until", metavar="TIME", help="The same up to then: all of 2024, of 2024-02 or of 2024-02-29."),
)
_ORDER = (
    click.option("--sort", metavar="COLUMN", help="In the order of this column, as JSON names it."),
    click.option("--limit", type=click.IntRange(0), metavar="N", help="Only the first N."),
)
_NAMES_OF_FILTERS = ("state", "under", "signer", "algorithm", "since", "until", "sort", "limit")


def _filtered(*options: Callable[..., Any]) -> Callable[[Callable[..., None]], Callable[..., None]]:
    """Gives a command these options, which it takes together as `filters`."""

    def decorated(command: Callable[..., None]) -> Callable[..., None]:
        @wraps(command)
        def packed(**words: Any) -> None:
            command(filters=_filters_of({it: words.pop(it) for it in _NAMES_OF_FILTERS if it in words}), **words)

        for option in reversed(options):
            packed = option(packed)
        return packed

    return decorated


def _text_of_path(path: str) -> str:
    """Returns a path as a store has it, which need not be there any more."""
    from .texts import path_text_of
    from .walking import place_of

    return path_text_of(place_of(path))


def _filters_of(given: Dict[str, Any]) -> Filters:
    from .filters import Filters

    if (under := given.get("under")) is not None:
        given["under"] = _text_of_path(under)
    filters = Filters(**given)
    try:
        filters.check()
    except ValueError as why:
        raise click.UsageError(str(why))
    return filters


_certificates = click.option(
    "--certificates", "given", multiple=True, type=click.Path(exists=True), metavar="PATH", help="Verify by the certificates in this file or folder, and no others."
)


def _is_of_output(error: Exception) -> bool:
    """Whether an error is of the standard output: one of a file has its name."""
    return isinstance(error, OSError) and error.filename is None and error.errno in (errno.EPIPE, errno.ENOSPC, errno.EBADF, errno.EIO, errno.EFBIG)


class _Commands(click.Group):
    """The words of the command. Each ends with one line if the store or the cluster fails, a package is missing, or its output is not written."""

    def main(self, *words: Any, **how: Any) -> Any:
        try:
            try:
                return super().main(*words, **how)
            finally:
                sys.stdout.flush()
        except OSError as error:
            os.dup2(os.open(os.devnull, os.O_WRONLY), sys.stdout.fileno())  # or Python would try to write it again, and complain
            if error.errno != errno.EPIPE:
                click.echo(f"Error: the output is not written: {error.strerror}", err=True)
            sys.exit(1)

    def invoke(self, context: click.Context) -> object:
        try:
            return super().invoke(context)
        except (click.ClickException, click.Abort, click.exceptions.Exit):  # for which no module of a store is imported
            raise
        except Misuse as error:
            raise click.UsageError(str(error))
        except ValueError as error:
            raise click.ClickException(str(error))
        except Exception as error:
            line = None if _is_of_output(error) else line_of(error)
            if line is None:
                raise
            raise click.ClickException(line)


def _say_version(context: click.Context, _: click.Parameter, is_asked: bool) -> None:
    if is_asked and not context.resilient_parsing:
        import cms_canon

        click.echo(f"cms-canon-archive {cms_canon.__version__}")
        context.exit()


@click.group(cls=_Commands, context_settings=HELP)
@click.option("--version", is_flag=True, is_eager=True, expose_value=False, callback=_say_version, help="Show the version and exit.")
def main() -> None:
    """Index the signatures and time-stamps of an archive: their places, whether they fit their documents, and which algorithms they use.

    Files that are the same message have the same SHA-256 of their DER, however they are encoded.
    """


# ---- tables


def _write_named(rows: Iterable[Row], form: Optional[str], columns: Sequence[str]) -> None:
    """Writes rows of places, each with the name of its file."""
    from .writing import write

    write(_with_name(rows), form, columns)


def _with_name(rows: Iterable[Row]) -> Iterator[Dict[str, Any]]:
    from .queries import name_of

    for row in rows:
        yield {"file": name_of(row), **row}


def _opened(url: str, wait: Optional[float], under: Optional[str] = None) -> Store:
    """Opens an index to be asked, and says what it does not know. Ends the command if it has nothing at a path, of which `under` is the text."""
    from .queries import gaps, is_known
    from .store import Store
    from .texts import name_of_text

    store = Store(url, wait=wait)
    found = gaps(store)
    for line in found.lines():
        click.echo(line, err=True)
    click.get_current_context().obj = found
    if under is not None and not is_known(store, under):
        other = _text_of_path(os.path.realpath(name_of_text(under)))
        hint = f", but at {other}" if is_known(store, other) else ""
        raise click.UsageError(f"--under: the index has nothing at {under}{hint}")
    return store


def _is_whole() -> bool:
    """Whether the index that was opened has all that it is of, as far as that is known."""
    found = click.get_current_context().obj
    return found is None or not any(found)


def _with_why(form: Optional[str], row: Dict[str, Any]) -> Dict[str, Any]:
    """Adds the refusal as the command `cms-canon` says it, or why it cannot be read, which a table does not say again in the note."""
    if row["reason"] is not None:
        return {**row, "why": "E{reason} {name} at {at}".format(**row)}
    return {**row, "why": f"{row['what']}: {row['error']}", "note": row["note"] if form == "json" else ""}


# ---- index


def _pipe(paths: Sequence[str], url: str) -> str:
    """Returns the line of a shell that indexes the paths on the hosts of a file for GNU parallel. It names no password.

    Workers wait for a minute, so that they may begin before there is anything to do.
    """
    import shlex

    from .opening import for_others, is_sqlite, url_of, without_password

    named = " ".join(shlex.quote(os.path.abspath(path)) for path in paths)
    if is_sqlite(url_of(url)):
        return (
            f"find -H {named} -type f -print0 | parallel -0 -X -n 400 --sshloginfile hosts cms-canon-archive rows "
            f"| cms-canon-archive load --store {shlex.quote(without_password(url_of(url)) if '://' in url else url)}"
        )
    store = shlex.quote(for_others(url_of(url)))
    work = f"cms-canon-archive work --store {shlex.quote(store)} --stay 60"
    return f"parallel --nonall --sshloginfile hosts {work} & cms-canon-archive index {named} --store {store} --jobs 0; wait"


def _missing(paths: Sequence[str]) -> List[Tuple[str, str]]:
    """Returns which of the paths are not there, and why. An empty one, as of a variable of a shell that is not set, is a usage fault."""
    from .walking import is_there

    if "" in paths:
        raise click.UsageError("a PATH is empty")
    return [(path, _why_missing(path)) for path in paths if not is_there(path)]


def _end_if_missing(missing: Sequence[Tuple[str, str]]) -> None:
    """Ends the command with status 1 if any path is not there."""
    from .texts import text_of

    for path, why in missing:
        click.echo(f"{text_of(path)}: {why}", err=True)
    if missing:
        sys.exit(1)


def _why_missing(path: str) -> str:
    from .containers.files import kind_of
    from .folders import NOT_THERE

    try:
        return f"it is {kind_of(os.stat(path).st_mode)}, and no file or folder"
    except OSError as error:
        return "there is no file or folder of this name" if error.errno in NOT_THERE else f"it cannot be looked at: {error.strerror}"


_together = click.option("--together", type=click.IntRange(1), default=TOGETHER, show_default=True, help="Files stored in one transaction.")
_idle_timeout = click.option(
    "--idle-timeout", "patience", type=click.FloatRange(0.1), default=PATIENCE, show_default=True, metavar="SECONDS",
    help="After so long a worker that says nothing has lost its parts, and a database that does not reply is given up.",
)


@main.command("index")
@click.argument("paths", nargs=-1, required=True, type=_ANY_PATH)
@_store
@_wait
@_verify
@_certificates
@click.option("--anew", is_flag=True, help="Read all files, stored or not.")
@click.option("--exclude", "excluded", multiple=True, metavar="PATTERN", help="Leave out files and folders of such names, or paths if it has a slash, as '*.tmp'.")
@click.option("--one-file-system", is_flag=True, help="Leave out folders on other file systems than the one above them.")
@click.option("--manifest", type=click.Path(exists=True, dir_okay=False), metavar="FILE", help="Compare the files with the SHA-256 that FILE lists, as sha256sum or BagIt has it.")
@click.option("--jobs", type=click.IntRange(0), default=os.cpu_count(), show_default=True, help="Processes of this machine; 0 to wait for `work` elsewhere.")
@click.option("--scheduler", help="The address of a Dask scheduler, as tcp://HOST:8786, whose workers do the work.")
@click.option("--send", "sent", type=click.Choice(["paths", "octets"]), default="paths", hidden=True)
@_together
@_idle_timeout
@click.option("--via-pipe", is_flag=True, help="Print the line for GNU parallel over ssh, and do nothing.")
@_json
def index_command(
    paths: Tuple[str, ...],
    url: str,
    wait: Optional[float],
    verifies: bool,
    given: Tuple[str, ...],
    anew: bool,
    excluded: Tuple[str, ...],
    one_file_system: bool,
    manifest: Optional[str],
    jobs: int,
    scheduler: Optional[str],
    sent: str,
    together: int,
    patience: float,
    via_pipe: bool,
    form: Optional[str],
) -> None:
    """Store what each file is, and what is signed in it.

    These are the files named, those in folders named, and what is in them: mail, PDF, JAR, ASiC, tar, zip and others, as the manual says. A
    file that is stored as it is now (size, time of change, inode) is not read again. The command may be stopped at any moment, and goes on
    from there when it is called again. What cannot be read is stored as such, and the status is 3 as long as the index has any. It is 1 if
    anything is otherwise than the manifest says.
    """
    from .fixity import manifest_in
    from .indexing import Plan, index
    from .opening import is_sqlite, url_of
    from .queries import totals
    from .showing import Bar
    from .store import Store
    from .texts import counted
    from .walking import is_there, place_of, tops_of
    from .writing import write

    if via_pipe:
        click.echo(_pipe(paths, url))
        return
    if sent == "octets":
        raise click.ClickException("octets are sent to no worker any more: begin `cms-canon-archive work` on a machine that sees the files")
    if (scheduler or not jobs) and is_sqlite(url_of(url)):
        raise click.ClickException("workers elsewhere store in a database that they all reach: name one of PostgreSQL by --store")
    settings = _settings(given, excluded, one_file_system)
    listed = _said_wrong(partial(manifest_in, manifest)) if manifest else None
    store = Store(url, makes=True, wait=wait)
    tops, missing = tops_of(filter(is_there, paths)), _missing(paths)
    plan = Plan(tops, Options(together, patience), jobs, scheduler, anew, verifies or bool(given), settings, [(place_of(it), why) for it, why in missing])
    with Bar() as bar:
        done = index(store, plan, line_of, bar.show)
    store = Store(url, wait=wait)
    found = totals(store)
    differs = listed is not None and _write_differing(store, listed, tops, form)
    store.close()
    if form == "json":
        write([{"read": done.files, "unchanged": done.unchanged, "gone": done.gone, **found._asdict()}], form, ())
    names = f": `cms-canon-archive changes` names {'them' if done.gone > 1 else 'it'}" if done.gone else ""
    click.echo(f"{counted(done.files, 'file')} read, {done.unchanged:,} unchanged, {done.gone:,} gone{names}", err=True)
    for line in _lines_of_totals(found):
        click.echo(line, err=True)
    _end_if_missing(missing)
    sys.exit(1 if differs else 3 if found.unreadable else 0)


def _settings(given: Sequence[str], excluded: Sequence[str], one_file_system: bool) -> Settings:
    """Returns what an index is to leave out, and by which certificates it verifies."""
    from .settings import MOST_EXCLUDED, MOST_OCTETS, Settings

    certificates = _certificates_in(given) if given else ()
    if sum(map(len, certificates)) > MOST_OCTETS:
        raise click.UsageError(f"--certificates: they have more than {MOST_OCTETS:,} octets")
    if len(excluded) > MOST_EXCLUDED or "" in excluded:
        raise click.UsageError(f"--exclude is given at most {MOST_EXCLUDED:,} times, and never empty")
    for it in excluded:
        if it.endswith("/") or "/" in it and it[0] not in "/*?[":
            raise click.UsageError(f"--exclude {it}: a pattern with a slash is for whole paths, so that it begins with a slash or with *, and ends with no slash")
    return Settings(certificates, tuple(excluded), one_file_system)


def _certificates_in(given: Sequence[str]) -> Tuple[bytes, ...]:
    from .one_file import certificates_in

    return _said_wrong(lambda: tuple(it for path in given for it in certificates_in(path)))


def _said_wrong(do: Callable[[], _Item]) -> _Item:
    """Returns what this returns. A complaint about a file that was named ends the command with status 2."""
    try:
        return do()
    except Complaint as why:
        raise click.UsageError(str(why))


def _write_differing(store: Store, manifest: Manifest, tops: Sequence[str], form: Optional[str]) -> bool:
    """Writes in what a manifest and an index differ, and returns whether they do."""
    from .fixity import differing
    from .writing import write

    differs = False

    def rows() -> Iterator[Dict[str, Any]]:
        nonlocal differs
        for it in differing(store, manifest, tops):
            differs = True
            yield {"why": it.why, "file": it.path}

    write(rows(), form, ("why", "file"))
    return differs


def _lines_of_totals(found: Totals) -> Iterator[str]:
    """Says what is in an index, and which command says more."""
    from .texts import counted

    yield f"the index has {counted(found.files, 'file')} with {counted(found.messages, 'message')}: {found.fit:,} fit"
    for count, said, word in (
        (found.in_part, "fit only in part, or an earlier revision", "check"), (found.differ, "do not fit", "check"),
        (found.wrong, "have a wrong signature", "check"), (found.wrong_times, "have a time-stamp that does not fit", "check"), (found.unjudged, "could not be judged", "check"), (found.refused, "are refused, damaged or too large", "refusals"),
        (found.unreadable, "could not be read", "refusals"),
    ):
        if count:
            yield f"  {count:,} {said}: `cms-canon-archive {word}` lists them"


def _awaited(url: str, stays: float) -> Store:
    """Opens a store once an index has been begun in it, for which it waits as long as a worker stays. Raises `NoIndex` if none was begun by then."""
    from .opening import NoIndex
    from .store import Store

    end = time.monotonic() + stays
    is_said = False
    while True:
        try:
            return Store(url)
        except NoIndex as why:
            if time.monotonic() >= end:
                raise
            if not is_said:
                click.echo(f"{why}: waiting for one", err=True)
                is_said = True
        time.sleep(_LOOKED_FOR)


@main.command("work")
@_store
@click.option("--jobs", type=click.IntRange(1), default=os.cpu_count(), show_default=True, help="Processes of this machine.")
@click.option("--stay", "stays", type=click.FloatRange(0), default=0.0, metavar="SECONDS", help="How long to wait for parts, or for an index to be begun, if there is none; inf for ever.")
@_together
@_idle_timeout
def work_command(url: str, jobs: int, stays: float, together: int, patience: float) -> None:
    """Read the files that an index begun anywhere has put into the store, until none is left.

    It takes parts of the archive, and stores what came of them, on any machine that sees the files and reaches the database.
    """
    import signal

    from .indexing import import_readers, tend, work
    from .processes import Processes
    from .watching import Watch

    store = _awaited(url, stays)
    watch = Watch(store.url, None)
    store.close()
    import_readers()
    with Processes(jobs, partial(work, store.url, Options(together, patience, stays)), line_of, patience) as processes:
        signal.signal(signal.SIGTERM, lambda *_: sys.exit(128 + signal.SIGTERM))
        tend(processes, watch, lambda state: None)


@main.command("progress")
@_store
@_wait
@_json
def progress_command(url: str, wait: Optional[float], form: Optional[str]) -> None:
    """Say where an index is that runs anywhere: what is left, files a second, who works, and what failed."""
    from .showing import line_of_worker
    from .store import Store
    from .texts import shown
    from .watching import Watch, given_up, state_of, workers_of
    from .writing import write

    watch = Watch(Store(url, wait=wait).url, wait)
    first = watch.asked(state_of)
    began = time.monotonic()
    time.sleep(_LOOKED_AT)
    state = watch.asked(state_of)
    rate = (state.counts.since(first.counts).files + state.counts.since(first.counts).unchanged) / (time.monotonic() - began)
    workers = list(watch.asked(lambda connection: list(workers_of(connection))))
    failed = watch.asked(lambda connection: list(given_up(connection)))
    if form == "json":
        row = {**state.counts._asdict(), "to_do": state.to_do, "taken": state.taken, "files_a_second": round(rate, 1), "given_up": failed}
        write([{**row, "workers": [it._asdict() for it in workers]}], form, ())
        return
    click.echo(f"{state.to_do} parts to do, {state.taken} taken, {state.given_up} given up; {rate:.0f} files a second")
    for it in workers:
        click.echo(line_of_worker(it))
    for path in failed:
        click.echo(f"given up: {shown(path)}")


@main.command("rows")
@click.argument("paths", nargs=-1, type=_ANY_PATH)
@_verify
def rows_command(paths: Tuple[str, ...], verifies: bool) -> None:
    """Write what each file is, in lines of JSON.

    `load` stores them, also on another machine. The last line says how many there are.
    """
    import json

    from .judging import BY_MESSAGE, NOT_VERIFIED
    from .reading import parts_of
    from .walking import entries_of, is_there, tops_of
    from .writing import write

    count, missing = 0, _missing(paths)
    for part in parts_of(entries_of(tops_of(filter(is_there, paths))), BY_MESSAGE if verifies else NOT_VERIFIED):
        write(part.rows, "json", ())
        count += len(part.rows)
    if not missing:  # or `load` would say that it has all that it was given
        click.echo(json.dumps({"end": count}))
    _end_if_missing(missing)


@main.command("load")
@_store
@_wait
def load_command(url: str, wait: Optional[float]) -> None:
    """Store the lines of `rows` from the standard input."""
    from .indexing import gathered
    from .loading import Lines
    from .texts import path_text_of
    from .store import LOAD, Store

    store = Store(url, makes=True, wait=wait)
    store.note({LOAD: "it has not ended"})
    own = set(map(path_text_of, store.own_files()))
    lines = Lines()
    texts = click.get_text_stream("stdin", encoding="utf-8", errors="surrogateescape")
    for parts in gathered(it for it in lines.parts_of(texts) if it.path not in own):
        store.put(parts)
    store.finish()
    complaint = lines.complaint()
    store.note({LOAD: complaint or ""})
    if complaint:
        raise click.ClickException(complaint)


# ---- questions


@main.command("check")
@click.argument("file", required=False, type=_FILE)
@click.argument("document", required=False, type=_FILE)
@click.option("--all", "all_of_them", is_flag=True, help="List the messages that fit and break no rule too, and those that nobody signed.")
@click.option("--noted", is_flag=True, help="List only the messages that fit with a note.")
@click.option("--content-in", "folders", multiple=True, type=_FOLDER, metavar="FOLDER", help="Look in this folder for what a signature covers that is not beside it, by the digest.")
@_filtered(*_FILTERS, *_ORDER)
@_verify
@_certificates
@_store
@_wait
@_json
@_csv
def check_command(
    file: Optional[str],
    document: Optional[str],
    all_of_them: bool,
    noted: bool,
    folders: Tuple[str, ...],
    filters: Filters,
    verifies: bool,
    given: Tuple[str, ...],
    url: str,
    wait: Optional[float],
    form: Optional[str],
) -> None:
    """Say whether the messages in FILE fit what they sign; without FILE, list what is wrong with those of the index.

    DOCUMENT is what the message in FILE signs or time-stamps, of any size. Without it that is looked for in FILE and beside it. Either may be -,
    the standard input. The status is 0 only if each digest of each message and of each time-stamp in it was compared, and fits, and with --verify or
    --certificates if the signature of each signer is right. It is 1 if a digest does not fit, or a signature is wrong, and 3 if anything is not known.

    Without FILE, the status is likewise that of all messages that somebody signed, listed or not, and 3 if anything is refused, damaged or unreadable:
    of what lies in the PATH of --under if that is given, whatever else chooses what is listed.
    """
    if file is not None:
        if all_of_them or noted or any(it is not None for it in filters):
            raise click.UsageError("--all, --noted and what chooses among rows are for the messages of the index, and not for FILE")
        sys.exit(_check_file(file, document, _verification(verifies, given), form, folders))
    if verifies or given:
        raise click.UsageError("--verify and --certificates are for FILE; those of the index are verified by `index --verify`")
    if noted and folders:
        raise click.UsageError("--noted lists messages that fit, so that --content-in finds nothing for them")
    from . import queries
    from .outcomes import Outcome, worst
    from .writing import write

    came: Set[Outcome] = set()

    def rows() -> Iterator[Dict[str, Any]]:
        store = _opened(url, wait, filters.under)
        if not folders:
            came.update(queries.outcomes(store, filters.of_place))
        is_any = all_of_them or filters.state is not None
        yield from _with_name(queries.noted(store, filters) if noted else _checked(store, folders, is_any, filters, came))
        for line in queries.unknown(store, filters.of_place).lines():
            came.add(Outcome.NOT_KNOWN)
            click.echo(line, err=True)

    write(rows(), form, ("state", "findings", "verdict", "note", "file"))
    sys.exit(worst(came if _is_whole() else {*came, Outcome.NOT_KNOWN}, default=Outcome.FITS))


def _checked(store: Store, folders: Sequence[str], all_of_them: bool, filters: Filters, came: Set[Outcome]) -> Iterator[Row]:
    """Gives the messages of an index. If their contents are looked for in folders, the outcome of each one below `--under` is added, listed or not."""
    from .outcomes import Outcome
    from .queries import checked
    from .rechecking import checked_in

    if not folders:
        yield from checked(store, all_of_them, filters)
        return
    if filters.chooses:
        came.update(Outcome(row["outcome"]) for row in checked_in(store, folders, False, filters.of_place))
    for number, row in enumerate(checked_in(store, folders, all_of_them, filters._replace(limit=None))):
        came.add(Outcome(row["outcome"]))
        if filters.limit is None or number < filters.limit:
            yield row


def _verification(verifies: bool, given: Sequence[str]) -> Verification:
    from .one_file import verification

    try:
        return verification(verifies, given)
    except (Complaint, OSError) as why:
        raise click.UsageError(str(why))


def _check_file(file: str, document: Optional[str], how: Verification, form: Optional[str], folders: Sequence[str]) -> int:
    """Says whether the messages in a file fit what they sign, and returns the status."""
    from .one_file import judged_in, lines_of
    from .outcomes import worst
    from .reading import read_of, row_in_file
    from .texts import shown
    from .walking import entry_of
    from .writing import write

    outcomes = []
    with _given(file, document) as (path, other, progress):
        messages = _each(judged_in(path, other, how, progress, form is not None, folders), lambda it: outcomes.append(it.outcome))
        if form is not None:
            rows = ({"path": file, **row_in_file(read_of(entry_of(path), it.found, it.facts, how)), "outcome": int(it.outcome)} for it in messages)
            write(_with_name(rows), form, ("state", "findings", "verdict", "note", "file"))
        for it in messages:
            first, *others = lines_of(it, how)
            click.echo(f"{shown(_name_in(file, it.found.where))}: {shown(first)}")
            for line in others:
                click.echo(f"  {shown(line)}")
    if not outcomes:
        click.echo(f"{shown(file)}: there is no message", err=True)
    return int(worst(outcomes))


def _each(items: Iterable[_Item], note: Callable[[_Item], None]) -> Iterator[_Item]:
    """Gives items, each once it is noted."""
    for it in items:
        note(it)
        yield it


def _name_in(file: str, place: str) -> str:
    return f"{file}!{place}" if place else file


@contextmanager
def _given(file: str, document: Optional[str]) -> Iterator[Tuple[str, Optional[str], Callable[[int], object]]]:
    """Lends the paths of a file and of the document that it signs, and what shows how much of that was read."""
    from tqdm import tqdm

    from .one_file import STANDARD_INPUT, on_disk

    if file == document == STANDARD_INPUT:
        raise click.UsageError("FILE and DOCUMENT cannot both be the standard input")
    bar = tqdm(unit="B", unit_scale=True, disable=None, leave=False)
    try:
        with on_disk(file) as path, on_disk(document) if document else nullcontext() as other, bar:
            yield path, other, bar.update
    except Complaint as why:  # or the status would say that a digest does not fit
        raise click.UsageError(str(why))


@main.command("inspect")
@click.argument("file", type=_FILE)
@click.argument("document", required=False, type=_FILE)
@_verify
@_certificates
@_json
def inspect_command(file: str, document: Optional[str], verifies: bool, given: Tuple[str, ...], form: Optional[str]) -> None:
    """Say what the messages in FILE are: who signed them, when and how, their time-stamps, and what is found in them.

    DOCUMENT is what the message in FILE signs or time-stamps. Either may be -, the standard input. The status is 1 if there is no message.
    """
    from .containers.found import is_message
    from .inspecting import lines_of
    from .one_file import judged_in, messages_in
    from .reading import read_of, row_in_file
    from .texts import shown
    from .walking import entry_of
    from .writing import write

    count, how = 0, _verification(verifies, given)
    with _given(file, document) as (path, other, progress):
        if form == "json":
            for it in judged_in(path, other, how, progress, digests=True):
                write([{"path": file, **row_in_file(read_of(entry_of(path), it.found, it.facts, how))}], form, ())
                count += it.facts.digest is not None
        else:
            for found in messages_in(path, other, progress):
                click.echo(shown(_name_in(file, found.where)))
                for line in lines_of(found, how):
                    click.echo(line)
                count += found.octets is not None and is_message(found.octets)
    if not count:
        click.echo(f"{shown(file)}: there is no message", err=True)
    sys.exit(0 if count else 1)


@main.command("signers")
@_filtered(*_FILTERS, *_ORDER)
@_store
@_wait
@_json
@_csv
def signers_command(filters: Filters, url: str, wait: Optional[float], form: Optional[str]) -> None:
    """List who signed, as their certificates in the messages say.

    Anybody can make a certificate with any name, and the signing time is what the signer claims.
    """
    from .queries import signers

    columns = ("subject", "issuer", "serial", "key_identifier", "signing_time", "not_before", "not_after", "digest", "signature", "key", "bits")
    _write_named(signers(_opened(url, wait, filters.under), filters), form, (*columns, "number", "file"))


@main.command("algorithms")
@click.option("--weak", is_flag=True, help="List what uses MD5, SHA-1, or keys of RSA or DSA below 2,048 bits.")
@_filtered(*_FILTERS, _ORDER[1])
@_store
@_wait
@_json
@_csv
def algorithms_command(weak: bool, filters: Filters, url: str, wait: Optional[float], form: Optional[str]) -> None:
    """List which algorithms and keys signers, certificates, time-stamps and manifests use, and how many there are of each.

    Of certificates these are the algorithms by which they are signed, and of manifests only what they compare by MD5 or SHA-1 alone.
    """
    from . import queries
    from .writing import write

    store = _opened(url, wait, filters.under)
    columns = ("digest", "signature", "key", "bits")
    if weak:
        _write_named(islice(queries.weak(store, filters), filters.limit), form, ("of", *columns, "number", "file"))
    else:
        write(islice(queries.algorithms(store, filters._replace(limit=None)), filters.limit), form, ("signers", "of", *columns, "is_weak"))


@main.command("others")
@_filtered(*_FILTERS, *_ORDER)
@_store
@_wait
@_json
@_csv
def others_command(filters: Filters, url: str, wait: Optional[float], form: Optional[str]) -> None:
    """List what is signed by another format, as XAdES or OpenPGP, and what is not looked into, as 7z."""
    from .queries import others

    _write_named(others(_opened(url, wait, filters.under), filters), form, ("what", "form", "note", "file"))


@main.command("files")
@click.option("--all", "all_of_them", is_flag=True, help="List all files, and what is in them.")
@_filtered(*_FILTERS, *_ORDER)
@_store
@_wait
@_json
@_csv
def files_command(all_of_them: bool, filters: Filters, url: str, wait: Optional[float], form: Optional[str]) -> None:
    """List the files in which there is no message, what they are, and why they were not looked into."""
    from .queries import files

    _write_named(files(_opened(url, wait, filters.under), all_of_them, filters), form, ("what", "form", "note", "length", "file"))


@main.command("times")
@_filtered(*_FILTERS, *_ORDER)
@_store
@_wait
@_json
@_csv
def times_command(filters: Filters, url: str, wait: Optional[float], form: Optional[str]) -> None:
    """List the times that tokens vouch for, and whether each fits what it covers."""
    from .queries import times

    _write_named(times(_opened(url, wait, filters.under), filters), form, ("time", "state", "policy", "serial", "digest", "number", "file"))


@main.command("renewal")
@click.option("--by", "by", required=True, metavar="DATE", help="The day until which signatures are to be protected, as 2030-12-31.")
@click.option("--policy", "file", type=click.Path(exists=True, dir_okay=False, path_type=Path), metavar="FILE", help="Until when algorithms are accepted, in place of what is installed.")
@_filtered(_FILTERS[1], _ORDER[1])
@_store
@_wait
@_json
@_csv
def renewal_command(by: str, file: Optional[Path], filters: Filters, url: str, wait: Optional[float], form: Optional[str]) -> None:
    """List the signatures that need a new time-stamp by DATE.

    These are the ones that no time-stamp protects until then: there is none that fits and was made in time, its certificate ends before, or an algorithm
    or a key is not accepted until then. What is not known is listed first. The status is 0 if there is nothing to do, and 1 if anything is listed.
    """
    from .policy import SHIPPED, policy_in
    from .renewal import day_of, renewal

    try:
        day = day_of(by)
        policy = policy_in(file or SHIPPED)
    except (Complaint, OSError, ValueError) as why:
        raise click.UsageError(str(why))
    is_any = False

    def rows() -> Iterator[Row]:
        nonlocal is_any
        for row in renewal(_opened(url, wait, filters.under), policy, day, filters):
            is_any = True
            yield row

    _write_named(rows(), form, ("why", "until", "subject", "number", "file"))
    sys.exit(1 if is_any else 0 if _is_whole() else 3)


@main.command("same")
@click.argument("file", type=click.Path(exists=True, dir_okay=False, allow_dash=True))
@_store
@_wait
@_json
@_csv
def same_command(file: str, url: str, wait: Optional[float], form: Optional[str]) -> None:
    """List the files that are the same message as one of FILE, whatever that keeps it in."""
    from . import exporting, queries
    from .texts import shown

    store = _opened(url, wait)
    messages = list(exporting.digests_in(file, sys.stdin.buffer.read() if file == "-" else None))
    for message in messages:
        if message.why_not is not None:
            click.echo(f"{shown(message.name)}: {message.why_not}", err=True)
    digests_found = dict.fromkeys(it.text for it in messages if it.why_not is None)
    _write_named((row for digest in digests_found for row in queries.same(store, digest)), form, ("file", "length"))
    sys.exit(0 if all(it.why_not is None for it in messages) else 1)


@main.command("digests")
@click.option("--to", "folder", type=click.Path(path_type=Path, file_okay=False), required=True, help="An empty folder for them.")
@_store
@_wait
def digests_command(folder: Path, url: str, wait: Optional[float]) -> None:
    """Write the digests of all messages to FOLDER, for `duplicates --of`.

    So it is found what stores share that are on different machines: 56 octets for each message, and its name.
    """
    from . import digests

    count = digests.write(_opened(url, wait), folder)
    click.echo(f"{count} digests written", err=True)


@main.command("duplicates")
@click.argument("others", nargs=-1, type=click.Path(exists=True, path_type=Path, file_okay=False), metavar="[FOLDER]...")
@click.option("--of", "folder", type=click.Path(exists=True, path_type=Path, file_okay=False), help="Ask this folder of `digests`, and others named after it.")
@_store
@_wait
@_json
@_csv
def duplicates_command(others: Tuple[Path, ...], folder: Optional[Path], url: str, wait: Optional[float], form: Optional[str]) -> None:
    """List redundant copies: messages in more than one file, and those files.

    No copy of evidence should be deleted for that alone: the files may differ in their octets, and in what lies around the message.
    """
    from . import digests, queries
    from .writing import write

    if folder is not None:
        _write_shared(digests.duplicates([folder, *others]), form)
        return
    if others:
        raise click.UsageError("folders of digests are named after --of")
    for group in queries.duplicates(_opened(url, wait)):
        whole: List[Dict[str, Any]] = [{"digest": group.digest, "files": group.names}]
        each: List[Dict[str, Any]] = [{"digest": group.digest, "file": name} for name in group.names]
        write(whole if form == "json" else each, form, ("digest", "file"))


def _write_shared(groups: Iterable[Group], form: Optional[str]) -> None:
    from .writing import write

    for group in groups:
        each: List[Dict[str, Any]] = [{"digest": group.digest, "digests": folder, "file": name} for folder, name in group.files]
        whole: List[Dict[str, Any]] = [{"digest": group.digest, "files": [[folder, name] for folder, name in group.files]}]
        write(whole if form == "json" else each, form, ("digest", "digests", "file"))


@main.command("refusals")
@_filtered(*_FILTERS, *_ORDER)
@_store
@_wait
@_json
@_csv
def refusals_command(filters: Filters, url: str, wait: Optional[float], form: Optional[str]) -> None:
    """List what is refused, damaged, too large, or cannot be read.

    Of what is refused it is said what it is, as a certificate or a key, if that is known. `cms-canon help convert` says what the reasons mean, and what to do.
    """
    from .queries import refusals
    from .writing import write

    write(map(partial(_with_why, form), _with_name(refusals(_opened(url, wait, filters.under), filters))), form, ("why", "note", "file"))


@main.command("changed")
@click.option("--count", "counts", is_flag=True, help="Read each file again, and say how many changes conversion makes.")
@_filtered(*_FILTERS, *_ORDER)
@_store
@_wait
@_json
@_csv
def changed_command(counts: bool, filters: Filters, url: str, wait: Optional[float], form: Optional[str]) -> None:
    """List the messages that are not DER.

    A copy of them in DER would have other octets: `changes-of FILE` says which.
    """
    from .changing import with_changes
    from .queries import changed

    rows = changed(_opened(url, wait, filters.under), filters)
    _write_named(with_changes(rows) if counts else rows, form, ("file", "kind", "length", *(["changes"] if counts else [])))


# ---- files


@main.command("show")
@click.argument("file", type=click.Path(exists=True, dir_okay=False))
@_json
def show_command(file: str, form: Optional[str]) -> None:
    """List what is in the messages of FILE, whatever it keeps them in."""
    from .exporting import shown_in

    sys.exit(0 if _report_each(shown_in(file, _fields_in_json if form == "json" else _listing), form) else 1)


@main.command("changes-of")
@click.argument("file", type=click.Path(exists=True, dir_okay=False))
@_json
def changes_of_command(file: str, form: Optional[str]) -> None:
    """Say what conversion changes in the messages of FILE: a line for each change, with its place in the message."""
    from .exporting import changes_in

    sys.exit(0 if _report_each(changes_in(file, form == "json"), form) else 1)


def _fields_in_json(der: bytes) -> str:
    import cms_canon

    return cms_canon.read(der).to_json()


def _listing(der: bytes) -> str:
    import cms_canon

    return cms_canon.show(der)


@main.command("convert")
@click.argument("paths", nargs=-1, required=True, type=click.Path(exists=True))
@click.option("--to", "folder", type=click.Path(path_type=Path, file_okay=False), required=True, help="The folder for the copies.")
@click.option("--limit", type=click.IntRange(0, _LARGEST_LIMIT), metavar="OCTETS", help="How many octets a message and its DER may have.  [default: 268435456]")
@_json
def convert_command(paths: Tuple[str, ...], folder: Path, limit: Optional[int], form: Optional[str]) -> None:
    """Write the DER of the messages in files and folders to FOLDER, by their names.

    The copies of what is in a folder are in folders of the same names. A message in a container is named by the file, an exclamation mark, and its
    place. No file is written over. The status is 3 if anything is not converted, for which there is a line.
    """
    import cms_canon

    from .exporting import convert

    most = cms_canon.LIMIT if limit is None else limit
    sys.exit(0 if _report_each((copied for path in paths for copied in convert(path, folder, most)), form) else 3)


def _json_of(copied: Copied) -> Dict[str, Any]:
    import json

    row: Dict[str, Any] = {"file": copied.name, "why_not": copied.why_not}
    return {**row, "message": json.loads(copied.text)} if copied.text else row


def _report_each(copies: Iterable[Copied], form: Optional[str]) -> bool:
    """Writes what came of each message, and returns whether all went well."""
    from .texts import shown
    from .writing import write

    failed = False
    for copied in copies:
        failed = failed or copied.why_not is not None
        if form == "json":
            write([_json_of(copied)], form, ())
        elif copied.why_not is not None:
            click.echo(f"{shown(copied.name)}: {copied.why_not}", err=True)
        elif copied.text:
            click.echo(f"{shown(copied.name)}\n{copied.text}", nl=False)
    return not failed


@main.command("export")
@click.option("--to", "folder", type=click.Path(path_type=Path, file_okay=False), required=True, help="The folder for the copies.")
@_store
@_wait
@_json
def export_command(folder: Path, url: str, wait: Optional[float], form: Optional[str]) -> None:
    """Write the DER of each message to FOLDER.

    It is named by its SHA-256, as ab/cdef.., and written once for all files that are the same message. No file is written over.
    """
    from .exporting import export
    from .texts import shown
    from .writing import write

    failed = 0
    for copied in export(_opened(url, wait), folder):
        failed += copied.why_not is not None
        if form == "json":
            write([_json_of(copied)], form, ())
        elif copied.why_not is not None:
            click.echo(f"{shown(copied.name)}: {copied.why_not}", err=True)
    sys.exit(1 if failed else 0)


@main.command("manifest")
@click.option("--sha256sum", "is_sha256sum", is_flag=True, help="Write the lines that `sha256sum -c` reads, with whole paths.")
@click.option("--bagit", "is_bagit", is_flag=True, help="Write manifest-sha256.txt of the bag that --under names.")
@click.option("--under", metavar="PATH", help="Only this file, or what is in this folder.")
@_store
@_wait
def manifest_command(is_sha256sum: bool, is_bagit: bool, under: Optional[str], url: str, wait: Optional[float]) -> None:
    """Write the SHA-256 of the files of the index, as it read them.

    The status is 1 if a file has to be left out, for which there is a line: one that could not be read, or whose name was cut.
    """
    from . import fixity

    if is_sha256sum == is_bagit:
        raise click.UsageError("say one of --sha256sum and --bagit")
    if is_bagit and under is None:
        raise click.UsageError("--bagit is for the bag that --under names")
    place = None if under is None else _text_of_path(under)
    store = _opened(url, wait, place)
    lines = fixity.bagit(store, place) if is_bagit and place is not None else fixity.sha256sum(store, place)
    sys.exit(0 if _said_wrong(lambda: _write_lines(lines)) and _is_whole() else 1)


def _write_lines(lines: Iterable[Line]) -> bool:
    """Writes the lines of a manifest, and returns whether no file was left out."""
    from .texts import shown

    is_whole = True
    for it in lines:
        if it.why_not is None:
            sys.stdout.buffer.write(it.octets)
        else:
            is_whole = False
            click.echo(f"{shown(it.octets.decode('utf-8', 'replace'))}: {it.why_not}", err=True)
    return is_whole


@main.command("changes")
@click.option("--since", metavar="TIME", help="The time, in UTC, as 2024-02-29 or 2024-02-29T12:00.  [default: when the last index began]")
@click.option("--under", metavar="PATH", help="Only this file, or what is in this folder.")
@_ORDER[1]
@_store
@_wait
@_json
@_csv
def changes_command(since: Optional[str], under: Optional[str], limit: Optional[int], url: str, wait: Optional[float], form: Optional[str]) -> None:
    """List what changed: files that are new, gone or changed, and messages that are in another state.

    The status is 1 if anything that was known to be good is not any more, as a message that fitted its document, whether it is listed or not.
    """
    from .history import BEGAN, changes, time_in
    from .writing import write

    place = None if under is None else _text_of_path(under)
    store = _opened(url, wait, place)
    try:
        begin = int(store.about().get(BEGAN, "0")) if since is None else time_in(since)
    except ValueError as why:
        raise click.UsageError(str(why))
    is_worse, left = False, limit

    def rows() -> Iterator[Dict[str, Any]]:
        nonlocal is_worse, left
        for it in changes(store, begin, place):
            is_worse = is_worse or it.is_worse
            if left is None or left > 0:
                left = None if left is None else left - 1
                yield it.row()

    write(_with_name(rows()), form, ("change", "time", "before", "after", "file"))
    sys.exit(1 if is_worse else 0 if _is_whole() else 3)


@main.command("verify-store")
@click.option("--sample", type=click.IntRange(1), help="Read so many files, and list so many folders, chosen at random, and not all.")
@_store
@_wait
@_json
@_csv
def verify_store_command(sample: Optional[int], url: str, wait: Optional[float], form: Optional[str]) -> None:
    """Read files again and list folders again, and compare what is stored of them.

    The status is 1 if anything is stored otherwise than it is, is not stored, or is yet to be read. Called on another machine than that of the
    workers, it checks them.
    """
    from .store import Store
    from .verifying import differing
    from .watching import Watch
    from .writing import write

    store = Store(url, wait=wait)
    watch = Watch(store.url, wait)
    differs = is_left = _says_what_is_left(watch)

    def rows() -> Iterator[Dict[str, Any]]:
        nonlocal differs
        for row in differing(store, sample):
            differs = True
            yield row

    write(rows(), form, ("why", "worker", "file"))
    if not is_left and _says_what_is_left(watch):  # since an index began meanwhile
        differs = True
    sys.exit(1 if differs else 0)


def _says_what_is_left(watch: Watch) -> bool:
    """Says how many parts are yet to be read, and returns whether there are any."""
    from .watching import state_of

    state = watch.asked(state_of)
    left = int(state.to_do + state.taken)
    if left:
        click.echo(f"{left} parts are yet to be read, and are not compared: `index` goes on with them", err=True)
    return left > 0


@main.command("report")
@click.option("--html", "file", required=True, help="The file to write, or - for the standard output.")
@_store
@_wait
def report_command(file: str, url: str, wait: Optional[float]) -> None:
    """Write a page about the archive.

    It says how many signatures there are, how many fit, until when they are protected, and what changed since the last report, in one file for a browser
    that loads nothing else. The store keeps when the report was made, if it can be written to.
    """
    from . import report
    from .history import note_report
    from .pages import Page
    from .queries import gaps

    store = _opened(url, wait)
    summary = report.summary_of(store)
    Page(file).write(report.page_of(summary, store.name(), left=gaps(store).lines()))
    if why_not := note_report(url, wait, summary.time):
        click.echo(f"the store does not keep when this report was made: {why_not}", err=True)


if __name__ == "__main__":
    main()
