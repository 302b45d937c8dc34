"""Finds messages in a table of SQL that are the same, however they are spelled: by a column with the SHA-256 of their DER, which has an index.

    python3 same_messages.py DATABASE FILE..
"""

import hashlib
import sqlite3
import sys
from pathlib import Path

import cms_canon

SCHEMA = """
CREATE TABLE IF NOT EXISTS messages (name TEXT PRIMARY KEY, octets BLOB NOT NULL, digest BLOB);
CREATE INDEX IF NOT EXISTS messages_by_digest ON messages (digest);
"""
SAME = "SELECT digest, group_concat(name, ', ') FROM (SELECT * FROM messages ORDER BY name) WHERE digest IS NOT NULL GROUP BY digest HAVING count(*) > 1"


def digest_of(octets):
    """Returns the SHA-256 of the DER; None if the message is refused, so that it is the same as no other."""
    try:
        return hashlib.sha256(cms_canon.convert(octets)).digest()
    except cms_canon.Refused as refused:
        print(refused, file=sys.stderr)
        return None


def main(database, *names):
    with sqlite3.connect(database) as connection:
        connection.executescript(SCHEMA)
        for name in names:
            octets = Path(name).read_bytes()
            connection.execute("INSERT OR REPLACE INTO messages VALUES (?, ?, ?)", (Path(name).name, octets, digest_of(octets)))
        for digest, same in connection.execute(SAME):
            print(digest.hex()[:8], same)


if __name__ == "__main__":
    main(*sys.argv[1:])
