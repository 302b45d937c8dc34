"""Has binaries, tools, the disk and whoever makes packages misbehave."""

import itertools
import os
import re
import resource
import shutil
import signal
import subprocess
import sys
import time

import pytest
from elements import flipped
from machines import ended, tools_without
from package_contents import in_folder
from package_tools import DIST, NO_TOOL, PACKAGES, TARGETS, TOP, VERSION, copy_of_repository, package, told, why_failed
from tally import differing

pytestmark = pytest.mark.tree

MADE = ["SHA256SUMS", "cms-canon.html", "packages"]
MOMENT, MOMENTS = 0.1, 100  # seconds, and how many of them are waited for at most


def why_not_refused(done, status, said, to, before):
    """Wants one line with this text and this status, and the folder as it was."""
    if done.status != status or said not in done.error or not done.error.startswith("package: ") or "Traceback" in done.error:
        return f"wanted status {status} and {said!r}; {told(done)}"
    return "" if state_of(to) == before else "what was there has changed, or something is left beside it"


def state_of(folder):
    """Returns the names, the octets and the times of all files below a folder."""
    return {it.relative_to(folder).as_posix(): (it.stat().st_mtime_ns, it.read_bytes()) for it in folder.rglob("*") if it.is_file()}


@pytest.fixture(scope="module")
def copy(tmp_path_factory):
    """A copy of the repository, from which packages can be made."""
    copy = copy_of_repository(tmp_path_factory.mktemp("faults") / "copy")
    done = package(copy, copy.parent / "tried")
    if done.status == NO_TOOL:
        pytest.skip(done.error.strip())
    return copy


@pytest.fixture
def to(tmp_path):
    """A folder with the packages, where they are made again."""
    to = tmp_path / "to"
    to.mkdir()
    shutil.copytree(PACKAGES, to / "packages")
    for name in ("SHA256SUMS", "cms-canon.html"):
        shutil.copy(DIST / name, to)
    yield to
    assert sorted(it.name for it in to.iterdir()) == MADE, "something is left beside them"


def test_damage(tally, copy, to):
    before = state_of(to)
    for target, name in itertools.product(TARGETS, ("cms-canon", "cms_canon.h", "libcms_canon.a", "libcms_canon.so")):
        file = copy / "dist" / target / name
        octets = file.read_bytes()
        file.write_bytes(flipped(octets, 100))
        tally.count(f"{target}/{name} altered", why_not_refused(package(copy, to), 70, f"{target}/{name} is not the one", to, before))
        file.unlink()
        tally.count(f"{target}/{name} missing", why_not_refused(package(copy, to), 70, f"{target}/{name} cannot be read", to, before))
        file.write_bytes(octets)
    for name in ("cms_canon.wasm", "MANIFEST"):
        octets = (copy / "dist" / "wasm32" / name).read_bytes()
        (copy / "dist" / "wasm32" / name).write_bytes(flipped(octets, 3))
        tally.count(f"wasm32/{name} altered", why_not_refused(package(copy, to), 70, "", to, before))
        (copy / "dist" / "wasm32" / name).unlink()
        tally.count(f"wasm32/{name} missing", why_not_refused(package(copy, to), 70, f"wasm32/{name} cannot be read", to, before))
        (copy / "dist" / "wasm32" / name).write_bytes(octets)
    manifests = {copy / "dist" / it / "MANIFEST": (DIST / it / "MANIFEST").read_text(encoding="ascii") for it in TARGETS}
    (copy / "crates.txt").write_text((TOP / "crates.txt").read_text(encoding="ascii") + "cms_new: unheard\n", encoding="ascii")
    for name, pattern, text, said in (
        ("a MANIFEST without a sum", r"^.* libcms_canon\.a\n", "", "libcms_canon.a is not the one"),
        ("a MANIFEST without a version", r"^version: .*\n", "", "has no line `version:`"),
        ("a version without a date", r"^version: .*$", "version: 99.0.0", "`## 99.0.0 - YEAR-MONTH-DAY`"),
        ("a crate of the kit that is not known", r"^crates: ", "crates: cms_new ", "does not have the crate unheard"),
        ("an empty MANIFEST", r"(?s).*", "", "cms-canon is not the one"),
        ("a MANIFEST of other octets", r"(?s)\A.*", "\x80", "is no text in ASCII"),
    ):
        for file, manifest in manifests.items():
            file.write_text(re.sub(pattern, text, manifest, flags=re.M), encoding="latin-1")
        tally.count(name, why_not_refused(package(copy, to), 70, said, to, before))
    shutil.copy(TOP / "crates.txt", copy)
    for line, other in (("version", "0.22.0"), ("kit", "another"), ("crates", "cms_tlv"), ("sources", "00")):
        for file, manifest in manifests.items():
            file.write_text(manifest, encoding="ascii")
        file.write_text(re.sub(rf"^{line}: .*$", f"{line}: {other}", manifest, flags=re.M), encoding="ascii")
        tally.count(f"MANIFESTs that differ in {line}", why_not_refused(package(copy, to), 70, f"differ in the line `{line}:`", to, before))
    file.write_text(manifest, encoding="ascii")
    cargo = copy / "bindings" / "rust" / "Cargo.toml"
    text = cargo.read_text(encoding="utf-8")
    cargo.write_text(text.replace(f'version = "{VERSION}"', 'version = "9.9.9"'), encoding="utf-8")
    tally.count("a crate of another version", why_not_refused(package(copy, to), 70, "another version than the release", to, before))
    cargo.write_text(text, encoding="utf-8")


def test_tools(tally, copy, to, tmp_path):
    before = state_of(to)
    for tool in ("dpkg-deb", "javac", "javadoc", "cargo", "esbuild"):
        done = package(copy, to, env={**os.environ, "PATH": str(tools_without(tmp_path / f"without {tool}", tool))})
        tally.count(f"without {tool}", why_not_refused(done, 69, f"{tool} is missing: apt-get install", to, before))
    done = package(copy, to, env={**os.environ, "CMS_CANON_JNA": "/nowhere/jna.jar"})
    tally.count("without JNA", why_not_refused(done, 69, "/nowhere/jna.jar is missing", to, before))
    warned = copy / "bindings" / "java" / "src" / "cmscanon" / "Octets.java"
    text = warned.read_text(encoding="utf-8")
    warned.write_text(text.replace("    /** {@return how many octets there are} */\n", ""), encoding="utf-8")
    tally.count("a method without a comment", why_not_refused(package(copy, to), 70, "javadoc failed", to, before))
    warned.write_text(text, encoding="utf-8")


def test_disk(tally, copy, to, tmp_path):
    """Lets the disk be full, files be too large, and the folder be one that cannot be written to."""
    before = state_of(to)
    limit = {"preexec_fn": lambda: resource.setrlimit(resource.RLIMIT_FSIZE, (200_000, 200_000))}
    tally.count("files that may not be so long", why_not_refused(package(copy, to, **limit), 70, "", to, before))
    tally.count("a folder that is a file", why_not_refused(package(copy, to / "SHA256SUMS"), 70, "cannot be written to", to, before))
    if os.geteuid() != 0 or ended(["unshare", "--mount", "true"]).status != 0:
        return tally.skip("a full disk, and a file system that is read-only", "they need root and unshare")
    words = 'mount -t tmpfs -o size=8m tmpfs "$1" && cp -rp "$2/." "$1" && "$3" "$4/scripts/package" "$4/dist" "$1"; echo $?'
    small = tmp_path / "small"
    small.mkdir()
    kept = f'{words}; cd "$1" && sha256sum --check --quiet --ignore-missing SHA256SUMS && ls -A'
    done = ended(["unshare", "--mount", "sh", "-c", kept, "sh", small, to, sys.executable, copy])
    is_well = done.output == "\n".join(["70", *MADE, ""]) and done.error.startswith("package: ") and "Traceback" not in done.error
    tally.count("a full disk", "" if is_well else told(done))
    read_only = 'mount --bind "$2" "$2" && mount -o remount,bind,ro "$2" && "$3" "$4/scripts/package" "$4/dist" "$2"'
    done = ended(["unshare", "--mount", "sh", "-c", read_only, "sh", small, to, sys.executable, copy])
    tally.count("a file system that is read-only", why_not_refused(done, 70, "cannot be written to", to, before))


STOPS = (signal.SIGTERM, signal.SIGINT, signal.SIGHUP)


def heed_stops():
    """Has a program heed these signals, which whoever began the tests may have had ignored, as `nohup` and a shell in the background do."""
    for stop in STOPS:
        signal.signal(stop, signal.SIG_DFL)


def test_stop(tally, copy, to):
    """Stops the making of packages at several moments, as a shell or a machine that is shut down does."""
    before = state_of(to)
    words = [sys.executable, copy / "scripts" / "package", copy / "dist", to]
    for moment, stop in enumerate(STOPS):
        running = subprocess.Popen(words, stdout=subprocess.DEVNULL, stderr=subprocess.DEVNULL, preexec_fn=heed_stops)
        waited = 0
        while not [*to.glob(".new-*")] and running.poll() is None and waited < MOMENTS:
            time.sleep(MOMENT)
            waited += 1
        time.sleep(moment * MOMENT)
        running.send_signal(stop)
        status = running.wait()
        why = "" if status else "it was done before it was stopped"
        tally.count(f"stopped by {stop.name}", why or ("" if state_of(to) == before else "something changed, or is left"))
    done = package(copy, to)
    same = in_folder(to / "packages") if done.status == 0 else {}
    tally.count("made after all these", why_failed(done) or ("" if {*same} == {*in_folder(PACKAGES)} else "other files"))
    tally.count("nothing left beside them", differing(MADE, sorted(it.name for it in to.iterdir())))
