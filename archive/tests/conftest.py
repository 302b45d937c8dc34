"""What the tests of the archive share: a copy of the packages, folders of their own, and servers. Each of them counts its checks."""

from importlib import import_module

import generated_messages
import places
import postgresql_server
import pytest
from counting import needs_server
from places import copy_packages, temporary_home

IN_CONTAINERS = {"files", "forms", "found", "mail", "packed", "refused", "sources", "zips"}


class Modules:
    """`cms_canon` and the modules of the archive by the last part of their names, imported if they are asked for."""

    def __getattr__(self, name):
        return import_module(name if name == "cms_canon" else f"cms_canon_archive.{'containers.' * (name in IN_CONTAINERS)}{name}")


@pytest.fixture(scope="session", autouse=True)
def copied():
    """A copy of the packages as they are installed, which all tests of a process use, and none changes."""
    with temporary_home() as home, pytest.MonkeyPatch.context() as patch:
        copy_packages(home)
        patch.setattr(places, "copy", home)
        patch.syspath_prepend(str(home))
        yield home


@pytest.fixture(scope="module", autouse=True)
def messages_anew():
    """Has the messages of a file be the same, whatever was spelled by the files before it: what is chosen at random depends on that too."""
    generated_messages.beginning()


@pytest.fixture(scope="session")
def archive(copied):
    """The modules of the archive, from that copy."""
    return Modules()


@pytest.fixture(autouse=True)
def counted(tally):
    """Has each test count its checks."""


@pytest.fixture
def home():
    """A folder of a test's own."""
    with temporary_home() as home:
        yield home


@pytest.fixture(scope="module")
def shared_home():
    """A folder that the tests of a file share."""
    with temporary_home() as home:
        yield home


@pytest.fixture(scope="module")
def make(shared_home):
    """What signs and stamps, with certificates of a file's own."""
    from cases import Maker

    return Maker(shared_home / "made")


@pytest.fixture(scope="module")
def server():
    """A PostgreSQL server, for tests that are marked with `needs_server`."""
    with postgresql_server.server() as made:
        yield made


@pytest.fixture(params=["SQLite", pytest.param("PostgreSQL", marks=needs_server)])
def kind(request):
    """A kind of store."""
    return request.param


@pytest.fixture
def new_store(request, home, kind):
    """The URL of a store of a kind that is not made yet."""
    return f"sqlite:///{home}/new.db" if kind == "SQLite" else request.getfixturevalue("server").make_database("new_store")
