"""Writes a page so that one which is there is whole, the old one or the new one, whatever happens."""

from __future__ import annotations

import os
import stat
import sys
from secrets import token_hex


class Page:
    """A file to be written, or the standard output for `-`."""

    def __init__(self, name: str) -> None:
        self._name = name

    def write(self, text: str) -> None:
        """Writes it. A regular file, or none, is replaced once all is on the disk; a device or a pipe is written to."""
        octets = text.encode("utf-8", "backslashreplace")
        if self._name == "-":
            sys.stdout.buffer.write(octets)
            sys.stdout.buffer.flush()
        elif self._is_replaced():
            self._replace(octets)
        else:
            with open(self._name, "wb") as file:
                file.write(octets)

    def _is_replaced(self) -> bool:
        try:
            return stat.S_ISREG(os.stat(self._name).st_mode)
        except FileNotFoundError:
            return True

    def _replace(self, octets: bytes) -> None:
        place = os.path.realpath(self._name)  # or a symbolic link would be replaced, and not the page
        draft = f"{place}.{token_hex(8)}"
        try:
            with open(draft, "xb") as file:
                if os.path.exists(place):
                    os.fchmod(file.fileno(), stat.S_IMODE(os.stat(place).st_mode))
                file.write(octets)
                file.flush()
                os.fsync(file.fileno())
            os.replace(draft, place)
        except BaseException:
            if os.path.exists(draft):
                os.unlink(draft)
            raise
