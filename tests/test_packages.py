"""Tests the packages in dist/, and installs them as docs/INSTALL.md says.

- All packages are made again from a copy of the repository in another folder, with another umask, zone, language and dates of files. If the
  tools are those that made dist/, each is compared octet for octet. Else what is in them is compared, and it is said by name what is not.
  Some packages that were made wrong have to be found so.
- Each package has the files that it should have, with the octets, modes and names of where they come from.
- The library asks for no glibc that the wheel's name does not promise; the binaries are hardened as docs/ARCHITECTURE.md says; Java finds
  the library of the jar without a property, and before any other one; the crate builds, is tested and documented outside the repository.
- lintian finds no error and no warning. The bill of materials follows the rules of SPDX 2.3, and names the crates of the kit.
- The sums are those of the files, and of no others; each octet that changes is found. Packages are not made of damaged binaries, without a
  tool, on a full disk or in a folder that cannot be written to; then those that are there stay.
- The commands of docs/RELEASING.md are run in a copy.
- On a fresh Debian 12 the commands of docs/INSTALL.md are run as printed, with what they write, and leave nothing. If there cannot be such a
  machine, those that need none are run in a folder of this one.
- On a fresh Debian 13 the archive is installed and used, with warnings as errors, and writes no line that it should not.
"""

import io
import os
import re
import shutil
import subprocess
import sys
import zipfile

import pytest
from machines import Debian, Here, ended, sections
from package_contents import OF_TOOL, difference, in_folder, tools_of
from package_tools import DEBIAN, DIST, FIX, LIBRARIES, MODULES, NO_TOOL, PACKAGES, TOP, VERSION, WHEELS, copy_of_repository, package, told, why_failed
from programs import octets_of, read_vectors
from tally import differing

pytestmark = pytest.mark.tree


@pytest.fixture(scope="module")
def made_again(tmp_path_factory):
    """The folder of packages that are made again in another folder."""
    folder = tmp_path_factory.mktemp("packages")
    copy = copy_of_repository(folder / "elsewhere" / "a copy")
    environment = {**os.environ, "TZ": "Pacific/Chatham", "LANG": "tr_TR.UTF-8", "LC_ALL": "C", "SOURCE_DATE_EPOCH": "1"}
    done = package(copy, folder / "made again", umask=0o077, env=environment)
    if done.status == NO_TOOL:
        pytest.skip(done.error.strip())
    assert done.status == 0, told(done)
    return folder / "made again"


def test_made_again(tally, made_again):
    kept, made = in_folder(PACKAGES), in_folder(made_again / "packages")
    tally.count("names of the packages", "" if {*kept} == {*made} else f"{sorted({*kept} ^ {*made})}: {FIX}")
    others = sorted(name for name, version in tools_of(kept).items() if tools_of(made).get(name) != version)
    for name in others:
        why = f"dist/ was made with {name} {tools_of(kept)[name]}, and this is {tools_of(made).get(name)}"
        tally.skip(f"octets of {OF_TOOL.get(name, 'how files are compressed')}", why)
    for name in () if others else sorted({*kept} & {*made}):
        tally.count(f"octets/{name}", "" if kept[name] == made[name] else f"it is not what is made of these sources: {FIX}")
    why = difference(kept, made, others)
    tally.count("what is in the packages", f"{why}: {FIX}" if why else "")
    for name in () if others else ("SHA256SUMS", "cms-canon.html"):
        same = (made_again / name).read_bytes() == (DIST / name).read_bytes()
        tally.count(f"octets/{name}", "" if same else f"it is not what is made of these sources: {FIX}")


def rebuilt(octets, change, folder):
    """Returns a package for Debian whose files were changed by a shell command."""
    (folder / "wrong.deb").write_bytes(octets)
    words = f"umask 022; dpkg-deb -R wrong.deb wrong && cd wrong && {change} && cd .. && dpkg-deb --root-owner-group -Zxz -b wrong wrong.deb"
    subprocess.run(["sh", "-e", "-c", words], cwd=folder, check=True, capture_output=True)
    shutil.rmtree(folder / "wrong")
    return (folder / "wrong.deb").read_bytes()


def tools_that_differ():
    """Returns the tools of which this machine has other versions than those that made dist/."""
    script = "import sys; sys.path.insert(0, sys.argv[1]); from packages.tools import versions; print(*versions(0).items(), sep='\\n')"
    said = {*ended([sys.executable, "-c", script, TOP / "packaging"]).output.splitlines()}
    return sorted(name for name, version in tools_of(in_folder(PACKAGES)).items() if str((name, version)) not in said)


def test_wrong_packages(tally, made_again, tmp_path):
    """Makes packages wrong, which the comparison of what is in them has to find."""
    made = in_folder(made_again / "packages")
    command, library = f"cms-canon_{VERSION}-1_amd64.deb", f"libcms-canon1_{VERSION}-1_amd64.deb"
    for name, change in (
        (command, "chmod 700 usr/bin/cms-canon"),
        (command, "touch usr/bin/other"),
        (command, "rm usr/share/zsh/vendor-completions/_cms-canon"),
        (library, f"printf x >>{LIBRARIES}/libcms_canon.so.1"),
        (library, "rm DEBIAN/triggers"),
        (f"libcms-canon-dev_{VERSION}-1_amd64.deb", f"ln -sf elsewhere {LIBRARIES}/libcms_canon.so"),
    ):
        wrong = {**made, name: rebuilt(made[name], change, tmp_path)}
        tally.count(f"{name}, wrong by {change!r}", "" if difference(made, wrong) else "it is taken for the same")
    wheel, archive, jar = (*WHEELS, f"cms-canon-{VERSION}.jar")
    for name, member_name in ((wheel, "py.typed"), (archive, "entry_points.txt"), (jar, "libcms_canon.so"), (jar, "CmsCanon.class")):
        without = io.BytesIO()
        with zipfile.ZipFile(io.BytesIO(made[name])) as old, zipfile.ZipFile(without, "w") as new:
            for it in old.infolist():
                if not it.filename.endswith(member_name):
                    new.writestr(it, old.read(it))
        wrong = {**made, name: without.getvalue()}
        tally.count(f"{name} without {member_name}", "" if difference(made, wrong) else "it is taken for the same")


# ---- docs/INSTALL.md and docs/RELEASING.md

def machine_in(tally, folder):
    if why := Debian.why_not_here():
        tally.skip("a fresh Debian 12", why)
        return Here(folder)
    try:
        return Debian(folder)
    except OSError as error:
        tally.skip("a fresh Debian 12", error)
        return Here(folder / "here")


def test_install(tally, tmp_path):
    machine = machine_in(tally, tmp_path)
    for title, commands in sections(TOP / "docs" / "INSTALL.md").items():
        if why := machine.why_not(commands):
            tally.skip(f"INSTALL.md, {title}, on {machine.name}", why)
            continue
        tally.count(f"INSTALL.md, {title}: commands", "" if commands else "there are none")
        for number, command in enumerate(commands):
            if number and number + 1 == len(commands):
                tally.count(f"INSTALL.md, {title}: what is installed", "" if machine.left_over() else "nothing is found")
            done = machine.run(command.words)
            differs = command.output is not None and done.output != command.output
            why = why_failed(done) or (f"wanted {command.output!r}, {told(done)}" if differs else "")
            tally.count(f"INSTALL.md, {title}, on {machine.name}: {command.words.strip()!r}", why)
        tally.count(f"INSTALL.md, {title}: left over", differing([], machine.left_over()))
    if isinstance(machine, Debian):
        # All packages for Debian are installed at once, verified by dpkg, and purged.
        done = machine.run("sudo apt-get install ./dist/packages/*_amd64.deb ./dist/packages/*_all.deb")
        tally.count("all packages at once", why_failed(done))
        verified = machine.run(f"dpkg --verify {' '.join(DEBIAN)}\n/sbin/ldconfig -p | grep -c libcms_canon.so.1")
        tally.count("dpkg --verify", why_failed(verified) or differing("1\n", verified.output))
        modules = f"/{MODULES}/cms_canon"
        compiled = machine.run(f"ls {modules}/__pycache__/__init__.*.pyc {modules}_archive/__pycache__/command.*.pyc")
        tally.count("modules compiled", why_failed(compiled))
        done = machine.run(f"sudo apt-get purge {' '.join(DEBIAN)}")
        tally.count("all packages purged", why_failed(done) or differing([], machine.left_over()))


# What is asked of the archive on Debian 13: words of the command, its status, what it has to write, and how many lines beside its output.
STRICT = "PYTHONWARNINGS=error,ignore::ResourceWarning"  # of a store that the process closes by ending
QUESTIONS = (
    ("index example/messages --verify --jobs 2", 0, "", 4),
    ("check --all", 3, r"^fits\t-\tright\t", 0),
    ("signers", 0, r"^CN=\S+\tCN=CA\t.*\t20\S+Z\t20\S+Z\tsha256\tecdsa-sha256\tsecp256r1\t256\t", 0),
    ("times", 0, r"^20..-..-..T.*Z\t", 0),
    ("refusals", 0, r"^E7 UnexpectedElement at \d+\ta certificate \(X\.509\)\t", 0),
    ("inspect example/messages/two-signers-streamed.p7m", 0, r"^    certificate +from 20.*Z to 20.*Z$", 0),
    ("verify-store", 0, "", 0),
)


def test_debian_13(tally, tmp_path):
    """Asks the archive of messages of the vectors, and of a certificate, with the Python, the cryptography and the SQLAlchemy of Debian 13."""
    if why := Debian.why_not_here():
        pytest.skip(why)
    try:
        machine = Debian(tmp_path, suite="trixie")
    except OSError as error:
        pytest.skip(f"there is no such machine: {error}")
    names = {"libcms-canon1": "amd64", "python3-cms-canon": "amd64", "cms-canon-archive": "all"}
    files = " ".join(f"./dist/packages/{name}_{VERSION}-1_{it}.deb" for name, it in names.items())
    done = machine.run_as_root(f"apt-get install {files}")
    tally.count("Debian 13/the packages", why_failed(done))
    folder = machine.root / "home/user/clone/example/messages"
    folder.mkdir(parents=True)
    for name, vector in read_vectors().items():
        if name.startswith("real-messages/") and vector["kind"] == "convert":
            (folder / f"{name.partition('/')[2]}.p7m").write_bytes(octets_of(vector, "input"))
    certificate = "openssl x509 -in $(find /usr/share/ca-certificates -name '*.crt' | sort | head -n 1) -outform DER"
    machine.succeed(f"cd /home/user/clone/example && {certificate} >messages/certificate.der && chown -R user:user .")
    for words, status, wanted, lines in QUESTIONS:
        done = machine.run(f"{STRICT} cms-canon-archive {words}")
        is_well = done.status == status and re.search(wanted, done.output, re.M) and done.error.count("\n") == lines and "Warning" not in done.error
        tally.count(f"Debian 13/{words}", "" if is_well else told(done))
    tally.count("Debian 13/purge", why_failed(machine.run_as_root(f"apt-get purge {' '.join(names)}")))
    tally.count("Debian 13/left over", differing([], machine.left_over()))


def test_releasing(tally, tmp_path):
    """Runs the commands of docs/RELEASING.md in a copy: the sums are signed and checked, and all packages made again and compared."""
    home = tmp_path / "keys"
    home.mkdir(mode=0o700)
    machine = Here(tmp_path, GNUPGHOME=str(home))
    key = 'gpg --batch --quiet --passphrase "" --quick-generate-key "A distributor <nobody@example.org>" ed25519 sign'
    for title, commands in sections(TOP / "docs" / "RELEASING.md").items():
        tool = "cargo" if "against the sources" in title else "gpg"
        if not commands or not tally.has(tool, f"RELEASING.md, {title}"):
            continue
        if tool == "gpg":
            tally.count("a key", why_failed(machine.run(key)))
        elif others := tools_that_differ():
            tally.skip(f"RELEASING.md, {title}", f"other versions of {', '.join(others)} than in dist/packages/TOOLS")
            continue
        for command in commands:
            tally.count(f"RELEASING.md, {title}: {command.words.strip()!r}", why_failed(machine.run(command.words)))
    machine.run("gpgconf --kill all")


def test_packages_are_there():
    assert (PACKAGES / "TOOLS").exists(), f"there are none in dist/: {FIX}"
