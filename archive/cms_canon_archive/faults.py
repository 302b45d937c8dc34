"""Errors as lines for who calls the command."""

from __future__ import annotations

import sys
from typing import Optional

BESIDE = ("click", "cms_canon", "cryptography", "sqlalchemy", "tqdm")  # what pip and apt-get install with the command, by the names of their modules


class Complaint(Exception):
    """Something is wrong that is no fault of the program: this says it in a line."""


class Misuse(ValueError):
    """A word of the command line is wrong, as is seen only once the store is open."""


def line_of(error: Exception) -> Optional[str]:
    """Returns the line that says an error of a command or of a worker; None if it is a fault of the program."""
    if isinstance(error, ModuleNotFoundError):
        return line_of_missing(error)
    if isinstance(error, (Complaint, OSError)):
        return str(error)
    from sqlalchemy.exc import SQLAlchemyError

    return f"the store: {_without_secrets(str(getattr(error, 'orig', None) or error))}".strip() if isinstance(error, SQLAlchemyError) else None


def line_of_missing(error: ModuleNotFoundError) -> str:
    """Returns the line that says which package is missing."""
    is_beside = str(error.name).partition(".")[0] in BESIDE
    return f"this needs the package {error.name}{', which is installed with cms-canon-archive by pip and by apt-get' if is_beside else ''}"


def _without_secrets(text: str) -> str:
    """Returns the text of an error of a driver without the words of the command that name a store with a password."""
    from .opening import NoStore, url_of

    for word in sys.argv:
        if "://" in word:
            try:
                password = url_of(word.partition("=")[2] if word.startswith("--store=") else word).password
            except NoStore:
                password = None
            text = text.replace(str(password), "***") if password else text
    return text
