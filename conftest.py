"""What all tests of this repository have in common: checks that are counted, and a last line that ./run-tests reads.

A test that compares many things counts each with the fixture `tally`, and fails with a line for each that failed. A test without it is
one check. A test that asks for a tally and counts nothing fails.
"""

import importlib
import os
import shutil
import sys
from pathlib import Path

import pytest
from tally import Tally

TOP = Path(__file__).resolve().parent
COUNTED = "checks"


@pytest.fixture
def tally():
    tally = Tally.running = Tally()
    yield tally
    Tally.running = None
    late = tally.failures[tally.judged :]
    if late:
        pytest.fail("\n".join(late), pytrace=False)


@pytest.hookimpl(hookwrapper=True)
def pytest_pyfunc_call(pyfuncitem):
    outcome = yield
    tally = Tally.running
    if tally is None:
        return
    tally.judged = len(tally.failures)
    pyfuncitem.user_properties.append((COUNTED, (tally.passed, len(tally.failures), tally.skips)))
    if outcome.excinfo:
        print(*tally.failures, sep="\n")
    outcome.get_result()
    if tally.failures:
        pytest.fail("\n".join(tally.failures), pytrace=False)
    if not tally.passed:
        pytest.skip("; ".join(tally.skips)) if tally.skips else pytest.fail("nothing was counted", pytrace=False)


def why_skipped(report):
    return report.longrepr[2].removeprefix("Skipped: ") if isinstance(report.longrepr, tuple) else report.longrepr


class Counts:
    """Counts the checks of all tests, and says which were skipped. A test that ends before its checks do has failed."""

    def __init__(self):
        self.passed = self.failed = 0
        self.skipped = []

    def pytest_collectreport(self, report):
        self.failed += report.failed

    def pytest_runtest_logreport(self, report):
        counted = dict(report.user_properties).get(COUNTED) if report.when == "call" else None
        passed, failed, skipped = counted or (report.passed and report.when == "call", 0, [])
        self.passed += passed
        self.failed += max(failed, report.failed)
        self.skipped += skipped or ([f"{report.nodeid}: {why_skipped(report)}"] if report.skipped else [])

    def pytest_unconfigure(self):
        for line in self.skipped:
            print(f"skipped {line}")
        print(f"{self.passed} passed, {self.failed} failed, {len(self.skipped)} skipped")


def pytest_addoption(parser):
    parser.addoption("--built", metavar="FOLDER", type=Path, default=TOP, help="where `rt ci` has built the programs: here, if none is given")
    parser.addoption("--program", metavar="FILE", type=Path, help="the program that is tried: the one that `rt ci` has built, if none is given")


def pytest_configure(config):
    if not hasattr(config, "workerinput"):
        config.pluginmanager.register(Counts())


@pytest.fixture(scope="session", autouse=True)
def emptied(tmp_path_factory):
    """Leaves nothing in the folders of the tests."""
    yield
    shutil.rmtree(tmp_path_factory.getbasetemp(), ignore_errors=True)


@pytest.fixture(scope="session")
def built(request):
    """The folder in which `rt ci` has built the programs."""
    return request.config.getoption("--built").resolve()


def built_program(path):
    if not os.access(path, os.X_OK):
        pytest.fail(f"there is no program {path}: `rt ci` builds it, and --built=FOLDER names where it has done so", pytrace=False)
    return path


@pytest.fixture(scope="session")
def program(request, built):
    """The command that is tried."""
    given = request.config.getoption("--program")
    return built_program(given.resolve() if given else built / "crates" / "cms_canon_program" / "out" / "cms_canon_program")


@pytest.fixture(scope="session")
def library(built):
    """The program that calls the library as a test asks."""
    return built_program(built / "crates" / "cms_test_driver" / "out" / "cms_test_driver")


@pytest.fixture(scope="module")
def tools(tmp_path_factory):
    """openssl and gpgsm, in a folder of their own."""
    from real_messages import Tools

    if not shutil.which("openssl"):
        pytest.skip("openssl is not installed")
    tools = Tools(tmp_path_factory.mktemp("tools"))
    yield tools
    if tools.gnupg.exists() and shutil.which("gpgconf"):  # what GnuPG started for its folder would end only when that is gone
        tools.run("gpgconf --kill all")


@pytest.fixture(scope="module")
def authority(tools):
    """These tools, with the keys, certificates and lists that messages are made with."""
    from real_messages import set_up

    set_up(tools)
    return tools


@pytest.fixture(scope="session")
def package(tmp_path_factory):
    """The Python package with the released library, from a folder of its own."""
    home = tmp_path_factory.mktemp("python") / "cms_canon"
    shutil.copytree(TOP / "bindings" / "python" / "cms_canon", home)
    shutil.copy(TOP / "dist" / "x86_64-linux" / "libcms_canon.so", home)
    sys.path.insert(0, str(home.parent))
    return importlib.import_module("cms_canon")
