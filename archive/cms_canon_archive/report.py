"""One page that says what is in an archive: a file that stands alone, for a browser, with plots and without scripts."""

from __future__ import annotations

import base64
import csv
import io
import json
import re
from datetime import datetime, timezone
from pathlib import Path
from typing import Any, Dict, Iterable, List, NamedTuple, Optional, Sequence

import jinja2
from markupsafe import Markup, escape

import cms_canon
from cms_canon._texts import PLACES, REFUSALS

from .containers.found import Class, State
from .history import Change
from .summary import NOT_JUDGED, Group, Kind, Summary, summary_of
from .texts import shown, size_of

__all__ = ["REASONS", "page_of", "reason_of", "size_of", "summary_of"]

_MINUTE = "%Y-%m-%d %H:%M UTC"
TEMPLATE = Path(__file__).with_name("report.html.jinja")
KINDS = {
    "signature": "Signed messages",
    "token": "Time-stamp tokens",
    "response": "Time-stamp responses",
    "request": "Time-stamp requests",
    "certificates": "Certificates alone",
}
FITS_NOTED = "fits, with a note"
STATES = {  # what each state means, in the order of the page
    State.FITS.value: "The document is as it was signed or stamped.",
    FITS_NOTED: "The same, and something else is to be said, as that readers of the container may show something else.",
    State.EARLIER.value: "The document was signed in an earlier revision: what was added later is not covered.",
    State.PARTLY.value: "What is covered is as it was signed; there are other files, parts or octets beside it.",
    State.NO_REVISION.value: "What is covered is not the file, nor a revision of it.",
    State.DIFFERS.value: "The document is not the one that was signed, or was changed; or a signature is wrong, or a time-stamp does not fit.",
    State.INSIDE.value: "The message has content of its own, so that the document beside it is not what was signed.",
    State.NO_DIGEST.value: "Without signed attributes only a verifier can say: `cms-canon-archive index --verify`.",
    State.UNKNOWN_DIGEST.value: "The digest is of an algorithm that is not known here.",
    State.NOT_FOUND.value: "The document was not found beside the signature.",
    State.NOT_COMPARED.value: "The signature covers a manifest or a name that does not say, or not of one file alone, what was signed.",
    State.UNREADABLE.value: "The document was found, and could not be read.",
    NOT_JUDGED: "It was stored by an earlier version: `cms-canon-archive index` judges it.",
    State.NO_SIGNATURE.value: "Certificates alone, requests, and responses without a token.",
}
CHANGES = {
    Change.NEW: "New files, and messages in files",
    Change.GONE: "Files and messages that are gone",
    Change.CHANGED: "Files with other octets",
    Change.STATE: "Files and messages of which something else is known",
}
YEARS_BEFORE, YEARS_AFTER = 20, 40  # this one, of the plot in which signatures cease to be protected: the table has all
CLASSES = {
    Class.MESSAGE.value: "CMS messages and time-stamps",
    Class.CONTAINER.value: "files with such messages in them",
    Class.EMPTY.value: "files that could have such messages, and have none",
    Class.OTHER.value: "signed by another format, as XML signatures, OpenPGP or Authenticode",
    Class.NOT_LOOKED_INTO.value: "not looked into: archives and documents of formats that are not read",
    Class.REFUSED.value: "refused",
    Class.DAMAGED.value: "damaged",
    Class.TOO_LARGE.value: "too large",
    Class.UNREADABLE.value: "could not be read",
    Class.TEXT.value: "text",
    Class.NO_CANDIDATE.value: "nothing that is signed",
}


class Reason(NamedTuple):
    """A reason of a refusal: its name, what it means, and what to do."""

    name: str
    meaning: str
    remedy: str


def _with_places(number: int) -> Reason:
    """Returns a reason, with what a file often is that is refused for it at some place."""
    name, meaning, remedy = REFUSALS[number]
    often = [f"{where}: {means} {todo}" for numbers, where, means, todo in PLACES if number in numbers]
    return Reason(name, " ".join([meaning, *often]), remedy)


REASONS = {number: _with_places(number) for number in REFUSALS}
_UNKNOWN = Reason("Unknown", "A later version of `cms-canon` has stored this reason.", "Ask `cms-canon help convert` of that version.")


def reason_of(number: int) -> Reason:
    return REASONS.get(number, _UNKNOWN)


# ---- tables


class Column(NamedTuple):
    """A column of a table: its head, and whether it has numbers, or numbers of octets."""

    head: str
    form: str = "text"


class Table(NamedTuple):
    """A table of the page, which is in it as CSV too."""

    name: str
    caption: str
    columns: Sequence[Column]
    rows: Sequence[Sequence[Any]]

    @property
    def csv(self) -> str:
        """The table as CSV, in the address of a link."""
        text = io.StringIO()
        writer = csv.writer(text)
        writer.writerow([it.head for it in self.columns])
        writer.writerows([_csv_cell(it) for it in row] for row in self.rows)
        return "data:text/csv;charset=utf-8;base64," + base64.b64encode(text.getvalue().encode("utf-8", "replace")).decode("ascii")


def _csv_cell(value: Any) -> str:
    """Returns a value for a table program, which must not take it for a formula."""
    text = "" if value is None else shown(str(value))
    return f"'{text}" if text[:1] in ("=", "+", "-", "@") else text


def _number(head: str) -> Column:
    return Column(head, "number")


_OF_A_GROUP = ("Messages", "Fit", "Fit in part", "Do not fit", "Not judged")


def _groups(name: str, head: str, groups: Iterable[Group]) -> Table:
    return Table(name, "", (Column(head), *map(_number, _OF_A_GROUP)), [tuple(it) for it in groups])


def _kinds(summary: Summary) -> Table:
    rows = [(KINDS.get(kind, kind), *it) for kind, it in summary.kinds.items()]
    rows.append(("All", *(Kind(*map(sum, zip(*summary.kinds.values()))))))
    columns = (Column("Kind"), _number("Messages"), _number("Not DER"), Column("Octets", "octets"))
    return Table("kinds", "Octets are those of the messages, without what they cover.", columns, rows)


def _renewal(summary: Summary) -> Table:
    years = [("not known" if year is None else f"{year:04d}", count) for year, count in (summary.renewal or {}).items()]
    return Table("renewal", "9999 is for what has no known end.", (Column("Year"), _number("Signatures")), years)


def _changes(summary: Summary) -> Table:
    rows = [] if summary.changes is None else [(said, summary.changes.counts[it]) for it, said in CHANGES.items()]
    return Table("changes", "", (Column("What"), _number("How many")), rows)


def _named(summary: Summary) -> Table:
    rows = [(CLASSES.get(it.what, it.what), it.form or None, it.files) for it in summary.named]
    return Table("named", "", (Column("What"), Column("Form"), _number("Files")), rows)


def tables_of(summary: Summary) -> List[Table]:
    """Returns the tables of a page."""
    counts = {**summary.states, State.FITS.value: summary.of(State.FITS) - summary.noted, FITS_NOTED: summary.noted}
    states = [(it, meaning, counts.get(it, 0)) for it, meaning in STATES.items() if counts.get(it) or it == State.FITS.value]
    algorithms = [(*it[:4], it.signers, "weak" if it.is_weak else "") for it in summary.algorithms]
    who = [
        (one.subject or "no certificate in the message", one.signers, *(day and day[:10] for day in one[2:5]), "ended" if one.has_ended else "")
        for one in summary.who
    ]
    algorithm_columns = (Column("Digest"), Column("Signature"), Column("Key"), _number("Bits"), _number("Signers"), Column(""))
    who_columns = (Column("Name"), _number("Signatures"), Column("First"), Column("Last"), Column("Certificate ends"), Column(""))
    classes = [(meaning, summary.classes.get(it, 0)) for it, meaning in CLASSES.items() if summary.classes.get(it)]
    refusals = [(f"E{it.reason}", reason_of(it.reason).meaning, it.files) for it in summary.refusals]
    return [
        Table("states", "", (Column("State"), Column("What it means"), _number("Messages")), states),
        Table("algorithms", "", algorithm_columns, algorithms),
        Table("digest-years", "The year is what the signers claim.", (Column("Year"), Column("Digest"), _number("Signers")), summary.digest_years),
        Table("signers", "", who_columns, who),
        Table("years", "", (Column("Year"), _number("Tokens")), [(f"{year:04d}", count) for year, count in summary.years.items()]),
        Table("time-states", "", (Column("State"), _number("Tokens")), [*summary.time_states.items()]),
        _groups("folders", "Folder", summary.folders),
        _groups("forms", "Container", summary.forms),
        _groups("signed-years", "Year", summary.signed_years),
        _renewal(summary),
        _changes(summary),
        _named(summary),
        _kinds(summary),
        Table("sizes", "", (Column("Octets, from", "number"), _number("to"), _number("Messages")),
              [(1 << power, (2 << power) - 1, count) for power, count in summary.powers.items()]),
        Table("reasons", "", (Column("Reason"), Column("What it means"), _number("Files")), refusals),
        Table("classes", "", (Column("What"), _number("Files and places")), classes),
    ]


# ---- plots


def charts_of(summary: Summary, year: int) -> Optional[Dict[str, Markup]]:
    """Returns the plots of a page by their names, without those for which there is nothing; None if Matplotlib is not installed. `year` is this one."""
    try:
        from .plots import plot_of_sizes, plot_of_years
    except ModuleNotFoundError as missing:
        if missing.name != "matplotlib":
            raise
        return None
    found = {}
    if summary.years:
        found["years"] = plot_of_years(summary.years)
    if summary.powers:
        found["sizes"] = plot_of_sizes(summary.powers)
    near = {it: count for it, count in (summary.renewal or {}).items() if it is not None and year - YEARS_BEFORE <= it < year + YEARS_AFTER}
    if near:
        found["renewal"] = plot_of_years(near, "renewal-years", "signatures that cease to be protected", "signature", "signatures")
    return found


# ---- writing the page


def _moment(seconds: int) -> str:
    return datetime.fromtimestamp(seconds, timezone.utc).strftime(_MINUTE)


def with_commands(text: str) -> Markup:
    """Returns a text of which each part between two backquotes is a command."""
    return Markup(re.sub(r"`([^`]*)`", r"<code>\1</code>", str(escape(text))))


def page_of(summary: Summary, store: str, made: Optional[datetime] = None, left: Iterable[str] = ()) -> str:
    """Returns the page for a summary of a store. `left` are lines about what the store does not know."""
    environment = jinja2.Environment(
        autoescape=True, undefined=jinja2.StrictUndefined, trim_blocks=True, lstrip_blocks=True, keep_trailing_newline=True,
    )
    now = made or datetime.now(timezone.utc)
    environment.filters.update(moment=_moment, shown=shown, size=size_of, with_commands=with_commands, number="{:,}".format)
    return environment.from_string(TEMPLATE.read_text(encoding="utf-8")).render(
        summary=summary,
        state=State,
        tables={it.name: it for it in tables_of(summary)},
        reason_of=reason_of,
        store=store,
        left=list(left),
        paths=json.loads(summary.about.get("paths", "[]")),
        version=cms_canon.__version__,
        made=now.strftime(_MINUTE),
        charts=charts_of(summary, now.year),
    )
