"""What the command writes of rows: lines of JSON, CSV, lines with tabs, or on a terminal columns under a heading."""

from __future__ import annotations

import csv
import json
import sys
from itertools import chain, islice
from typing import Any, Dict, Iterable, Iterator, List, Optional, Sequence

import click

from .texts import escaped_in_json, shown


_MEASURED = 500  # rows by which columns are made wide enough
_WIDEST = 60  # characters of a column


def write(rows: Iterable[Dict[str, Any]], form: Optional[str], columns: Sequence[str]) -> None:
    """Writes the rows as JSON, or these columns of them as CSV, or with tabs between, or on a terminal under a heading."""
    if form == "csv":
        writer = csv.writer(sys.stdout, lineterminator="\n")
        writer.writerow(columns)
        writer.writerows([cell_of_csv(row[it]) for it in columns] for row in rows)
        return
    if form == "json":
        for row in rows:
            click.echo(_json_text(row))
        return
    cells = ([_cell(row[it]) for it in columns] for row in rows)
    for line in _aligned(cells, columns) if sys.stdout.isatty() else map("\t".join, cells):
        click.echo(line)


def _aligned(rows: Iterator[List[str]], columns: Sequence[str]) -> Iterator[str]:
    """Gives lines whose cells are below one another, under a heading, if there is any row. The last column has what is left of the line."""
    first = list(islice(rows, _MEASURED))
    if not first:
        return
    heading = [it.replace("_", " ").upper() for it in columns]
    widths = [min(_WIDEST, max(map(len, column))) for column in zip(heading, *first)]
    for row in chain([heading], first, rows):
        yield "  ".join([*(f"{cell:<{width}}" for cell, width in zip(row[:-1], widths)), row[-1]])


def _json_text(row: Dict[str, Any]) -> str:
    return escaped_in_json(json.dumps(row, ensure_ascii=False, sort_keys=True))


def _cell(value: object) -> str:
    if isinstance(value, bool):
        return "yes" if value else "no"
    return "-" if value is None or value == "" else shown(str(value))


def cell_of_csv(value: object) -> str:
    """Returns a value for a table program, which must not take it for a formula."""
    text = "" if value is None else shown(str(value))
    return f"'{text}" if text[:1] in ("=", "+", "-", "@") else text
