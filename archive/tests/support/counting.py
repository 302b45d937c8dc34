"""Checks of what came, and what a test needs."""

import importlib.util
import shutil

import postgresql_server
import pytest
from tally import count


def other_than(came, wanted):
    """Returns what came and what was wanted if these are not the same; for dictionaries, only what differs."""
    if came == wanted:
        return ""
    if isinstance(came, dict) and isinstance(wanted, dict):
        same = {key for key, it in came.items() if key in wanted and wanted[key] == it}
        came, wanted = ({key: it for key, it in one.items() if key not in same} for one in (came, wanted))
    return f"{str(came)[:600]}, wanted {str(wanted)[:600]}"


def count_same(name, came, wanted):
    count(name, other_than(came, wanted))


def count_if(name, is_so, *came):
    """Counts whether something is so. If it is not, what came is the complaint."""
    count(name, "" if is_so else str(came)[:1000])


def is_line(said, *parts):
    """Whether what was said is one line, and has these parts."""
    return said.count("\n") == 1 and all(it in said for it in parts)


def needs(*packages, tools=(), server=False):
    """Marks tests that are skipped, by the name of what is missing, if a package, a program or the server of PostgreSQL is not installed."""
    missing = [it for it in packages if importlib.util.find_spec(it) is None] + [it for it in tools if shutil.which(it) is None]
    missing += ["PostgreSQL or python3-psycopg2"] if server and postgresql_server.tools() is None else []
    return pytest.mark.skipif(bool(missing), reason=f"not installed: {', '.join(missing)}")


needs_server = needs(server=True)
needs_cluster = needs("distributed", server=True)
