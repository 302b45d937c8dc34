"""Installs the release in dist/ into an empty folder, uses what was installed, and removes it.

It is checked that

- every file is there, with the contents and the mode that it has to have, and with the version that the program prints;
- the installed program converts, and so does a program in C that is linked to the installed library, shared and static, by pkg-config and by CMake;
- the manual pages are formatted without warnings, in 80 columns, and that of the command has every refusal and finding of docs/FORMATS.md;
- the completions are read by their shells, bash and fish complete words by them, and each shell the name of a file after `<`;
- a second installation works, a prefix may have a space in it, DESTDIR is heeded, and `--uninstall` leaves no file;
- a wrong word, a bad prefix, another machine, and a release with a missing or an altered file are refused, and then nothing
  is installed.
"""

import os
import re
import shutil
import subprocess
import tomllib
from pathlib import Path

import pytest
from elements import flipped
from package_tools import copy_of_repository
from programs import DATA_FILES, SMALLEST, TOP, octets_of, read_vectors
from tally import differing
from terminals import Terminal

DIST = Path("dist") / "x86_64-linux"
SECONDS = 60  # no run may take longer

READ = tomllib.loads((DATA_FILES / "install.toml").read_text())
COPIES = READ["copies"]
PAGE = "share/man/man1/cms-canon.1"
PAGES_OF_CALLS = {f"share/man/man3/{it.name}" for it in (TOP / "docs" / "man").glob("*.3")}
PKG_CONFIG = "lib/pkgconfig/cms_canon.pc"
CMAKE = "lib/cmake/cms_canon/cms_canon-config-version.cmake"
LINK = "lib/libcms_canon.so"
INSTALLED = {*COPIES, PAGE, *PAGES_OF_CALLS, PKG_CONFIG, CMAKE, LINK}
C_PROGRAM = TOP / "tests" / "c" / "installed.c"
MESSAGE, WANTED = (octets_of(read_vectors()[SMALLEST], it) for it in ("input", "output"))


def run(*words, given=b"", **environment):
    """Runs a program, for a user who keeps new files private, and with these variables beside those of the tests."""
    kept = {name: value for name, value in os.environ.items() if name not in ("DESTDIR", "LD_LIBRARY_PATH")}
    how = {"input": given, "capture_output": True, "timeout": SECONDS, "umask": 0o077}
    try:
        return subprocess.run(list(map(str, words)), env={**kept, **environment}, **how)
    except (OSError, subprocess.SubprocessError) as fault:
        return subprocess.CompletedProcess(words, 127, b"", str(fault).encode())


def told(ended):
    """Returns what a program printed on the standard error, with its status, for a reason."""
    return f"status {ended.returncode}, {ended.stderr.decode(errors='replace')[:300]!r}"


def why_not_done(ended):
    return "" if ended.returncode == 0 and not ended.stderr else told(ended)


def files_below(folder):
    return {str(path.relative_to(folder)) for path in folder.rglob("*") if path.is_symlink() or not path.is_dir()}


# ---- what was installed

def why_not_as_it_is(prefix, name):
    if (prefix / name).read_bytes() != (TOP / COPIES[name]).read_bytes():
        return f"it is not {COPIES[name]}"
    return differing("755" if name.startswith("bin/") else "644", f"{(prefix / name).stat().st_mode & 0o777:o}")


def why_not_filled_in(prefix, name, wanted):
    """Looks for a line in a text that had places for the prefix and the version."""
    text = (prefix / name).read_text(encoding="ascii")
    if re.search("@[A-Z]+@", text):
        return "a place was not filled in"
    return "" if wanted in text.splitlines() else f"there is no line {wanted!r}"


def check_files(tally, prefix, used_below=None):
    """Checks each file; it is to be used below another prefix if DESTDIR was set."""
    version = version_in(prefix)
    tally.count("files", differing(sorted(INSTALLED), sorted(files_below(prefix))))
    if files_below(prefix) != INSTALLED:
        return
    for name in COPIES:
        tally.count(name, why_not_as_it_is(prefix, name))
    modes = {f"{path.stat().st_mode & 0o777:o}" for path in prefix.rglob("*") if path.is_dir()}
    tally.count("modes of folders", differing({"755"}, modes))
    tally.count(LINK, differing("libcms_canon.so.1", os.readlink(prefix / LINK)))
    title = f'.TH CMS-CANON 1 "" "cms-canon {version}" "User Commands"'
    tally.count(f"{PAGE}: version", why_not_filled_in(prefix, PAGE, title))
    for page in sorted(PAGES_OF_CALLS):
        name = Path(page).stem
        wanted = f'.TH {name.upper()} 3 "" "cms-canon {version}" "Library Functions Manual"'
        tally.count(f"{page}: version", why_not_filled_in(prefix, page, wanted))
    tally.count(f"{CMAKE}: version", why_not_filled_in(prefix, CMAKE, f'set(PACKAGE_VERSION "{version}")'))
    tally.count(f"{PKG_CONFIG}: version", why_not_filled_in(prefix, PKG_CONFIG, f"Version: {version}"))
    tally.count(f"{PKG_CONFIG}: prefix", why_not_filled_in(prefix, PKG_CONFIG, f"prefix={used_below or prefix}"))


BASH_OFFERS = 'source "$1"; shift; COMP_WORDS=("$@"); COMP_CWORD=$(($# - 1)); _cms_canon; printf "%s\\n" "${COMPREPLY[@]}"'


def check_completions(tally, prefix):
    files = {shell: prefix / name for name in COPIES for shell in ("bash", "zsh", "fish") if f"/{shell}" in name}
    for shell, file in files.items():
        if tally.has(shell, f"completions of {shell}"):
            tally.count(f"completions of {shell}", why_not_done(run(shell, "-n", file)))
    for typed, wanted in READ["completions"].items():
        for shell, offers in (
            ("bash", ["--norc", "-c", BASH_OFFERS, "bash", files["bash"], *typed.split(" ")]),
            ("fish", ["--no-config", "-c", "source $argv[1]; complete -C $argv[2]", files["fish"], typed]),
        ):
            name = f"{shell} completes {typed!r}"
            if tally.has(shell, name):
                ended = run(shell, *offers)
                came = {line.partition("\t")[0] for line in ended.stdout.decode().splitlines()} - {""}
                tally.count(name, why_not_done(ended) or differing({*wanted}, came))


def check_library(tally, prefix, folder):
    flags = [f"-I{prefix}/include", f"-L{prefix}/lib", "-lcms_canon"]
    if tally.has("pkg-config", "pkg-config"):
        ended = run("pkg-config", "--cflags", "--libs", "cms_canon", PKG_CONFIG_PATH=f"{prefix}/lib/pkgconfig")
        tally.count("pkg-config", why_not_done(ended) or differing(flags, ended.stdout.decode().split()))
    for kind, library in (("shared", flags), ("static", [flags[0], prefix / "lib" / "libcms_canon.a"])):
        if tally.has("gcc", f"a program in C, {kind}"):
            compiled = run("gcc", "-Wall", "-Wextra", "-Werror", "-o", folder / kind, C_PROGRAM, *library)
            tally.count(f"a program in C, {kind}: compiled", why_not_done(compiled))
            if compiled.returncode == 0:
                where = {"LD_LIBRARY_PATH": f"{prefix}/lib"} if kind == "shared" else {}
                ended = run(folder / kind, given=MESSAGE, **where)
                tally.count(f"a program in C, {kind}: run", why_not_done(ended) or differing(WANTED, ended.stdout))


def check_cmake(tally, prefix, folder):
    """Checks that a project of CMake finds the library, links with it in both ways, and is refused a version that is not this one's or a missing file."""
    if not tally.has("cmake", "a project of CMake"):
        return
    version = version_in(prefix)

    def configured(name, wanted):
        words = ("-S", TOP / "tests" / "c" / "cmake", "-B", folder / name, f"-DCMAKE_PREFIX_PATH={prefix}", f"-DWANTED={wanted}")
        return run("cmake", *words)

    tally.count("a project of CMake: found", "" if configured("cmake", version).returncode == 0 else told(configured("cmake", version)))
    built = run("cmake", "--build", folder / "cmake")
    tally.count("a project of CMake: built", "" if built.returncode == 0 else told(built))
    for kind in ("shared", "static") if built.returncode == 0 else ():
        ended = run(folder / "cmake" / kind, given=MESSAGE)
        tally.count(f"a project of CMake, {kind}: run", why_not_done(ended) or differing(WANTED, ended.stdout))
    for name, wanted, is_found in (("the first release of its ABI", "0.27.0", True), ("an older ABI", "0.26.0", False), ("a later release", "99.0", False)):
        tally.count(f"a project of CMake: {name}", differing(is_found, configured(name.replace(" ", "-"), wanted).returncode == 0))
    (prefix / "lib" / "libcms_canon.a").rename(folder / "libcms_canon.a")
    refused = configured("cmake-without-a-file", version)
    (folder / "libcms_canon.a").rename(prefix / "lib" / "libcms_canon.a")
    is_said = refused.returncode != 0 and b"libcms_canon.a is missing" in b" ".join(refused.stderr.split())
    tally.count("a project of CMake: a file that is missing", "" if is_said else told(refused))


def version_in(prefix):
    """Returns the version of what was installed."""
    return run(prefix / "bin/cms-canon", "--version").stdout.decode().removeprefix("cms-canon ").strip()


def check_page(tally, page):
    """Checks how a manual page is formatted."""
    if tally.has("man", page.name):
        strict = run("man", "--warnings", "-E", "UTF-8", "-l", "-Tutf8", "-Z", page, MANWIDTH="80", LC_ALL="C")
        tally.count(f"{page.name}: warnings", why_not_done(strict))
        shown = run("man", "-l", page, MANWIDTH="80", LC_ALL="C.UTF-8")
        lines = shown.stdout.decode().splitlines()
        is_well = lines and max(map(len, lines)) <= 80
        tally.count(f"{page.name}: 80 columns", why_not_done(shown) or ("" if is_well else "a line is longer, or none is there"))


def test_page_of_the_archive(tally):
    """It is not installed, since the command is not; but it is formatted as that of the command."""
    check_page(tally, TOP / "archive" / "docs" / "man" / "cms-canon-archive.1")


# ---- installing and removing

def test_installation(tally, tmp_path):
    prefix = tmp_path / "prefix"
    ended = run(TOP / "install", prefix)
    tally.count("install", why_not_done(ended))
    if ended.returncode != 0:
        return
    lines = ended.stdout.decode().splitlines()
    tally.count("it says how programs find the library", "" if "LD_LIBRARY_PATH=" in lines[-1] else f"{lines[-1]!r}")
    check_files(tally, prefix)
    ended = run(prefix / "bin/cms-canon", "convert", given=MESSAGE)
    tally.count("convert", why_not_done(ended) or differing(WANTED, ended.stdout))
    formats = (TOP / "docs" / "FORMATS.md").read_text(encoding="utf-8")
    page = (prefix / PAGE).read_text(encoding="ascii")
    for number, name in re.findall(r"^\| (E[0-9]+) \| (\w+) \|", formats, re.MULTILINE):
        tally.count(f"{PAGE}: {number}", "" if f"\n{number}\n.br\n{name}\n" in page else f"it has no {name}")
    for number in dict.fromkeys(re.findall(r"^\| (F[0-9]+) \|", formats, re.MULTILINE)):
        tally.count(f"{PAGE}: {number}", "" if f"\n.B {number} " in page else "it is not there")
    for name in (PAGE, *sorted(PAGES_OF_CALLS)):
        check_page(tally, prefix / name)
    check_completions(tally, prefix)
    check_library(tally, prefix, tmp_path)
    check_cmake(tally, prefix, tmp_path)
    before = (prefix / "lib/libcms_canon.so.1").stat().st_ino
    again = run(TOP / "install", prefix, LD_LIBRARY_PATH=f"{prefix}/lib")
    tally.count("install again", why_not_done(again) or differing(1, len(again.stdout.splitlines())))
    is_same = (prefix / "lib/libcms_canon.so.1").stat().st_ino == before
    tally.count("a library in use is replaced", "it was overwritten" if is_same else "")
    tally.count("files of both", differing(sorted(INSTALLED), sorted(files_below(prefix))))
    (prefix / PAGE).unlink()
    for name, removed in (("uninstall, with one file gone", len(INSTALLED) - 1), ("uninstall, with none left", 0)):
        ended = run(TOP / "install", "--uninstall", prefix)
        words = ended.stdout.decode().split()
        tally.count(name, why_not_done(ended) or differing(removed, len({*words} & INSTALLED)))
        tally.count(f"{name}: files", differing(set(), files_below(prefix)))
        tally.count(f"{name}: the folder of its own", "it is left" if (prefix / "lib" / "cmake" / "cms_canon").exists() else "")
        tally.count(f"{name}: one line", differing(1, len(ended.stdout.splitlines())))


SET_UP = {  # by shell: what it is told, so that it completes the words of the command
    "bash": "source {folder}/cms-canon.bash",
    "zsh": "fpath=({folder} $fpath); autoload -U compinit; compinit -u -D",
    "fish": "source {folder}/cms-canon.fish",
}


@pytest.mark.parametrize("shell", SET_UP)
def test_files_after_a_redirection(tally, tmp_path, shell):
    """Each shell completes the name of a file after `<`, and none without it, since the command takes no file."""
    if not tally.has(shell, f"{shell}: files"):
        return
    (tmp_path / "message-in-ber.p7s").touch()
    for typed, is_completed in (("cms-canon convert < mess\t", True), ("cms-canon show <mess\t", True), ("cms-canon convert mess\t", False)):
        with Terminal(shell, tmp_path) as terminal:
            terminal.types(SET_UP[shell].format(folder=TOP / "packaging" / "completions") + "; echo rea''dy\n")
            is_ready = terminal.says("ready\r\n")
            terminal.types(typed)
            came = terminal.says("age-in-ber.p7s", 20 if is_completed else 3)
            tally.count(f"{shell}: {typed[:-1]}", "" if is_ready and came == is_completed else f"{terminal.said!r}")


def test_space(tally, tmp_path):
    prefix, inside = tmp_path / "a prefix", tmp_path / "inside"
    inside.mkdir()
    tally.count("a prefix with a space", why_not_done(run(TOP / "install", prefix)))
    if tally.has("pkg-config", "a prefix with a space: pkg-config") and tally.has("gcc", "a prefix with a space: gcc"):
        shutil.copy(C_PROGRAM, inside)
        script = f'eval "gcc -o program {C_PROGRAM.name} $(pkg-config --cflags --libs cms_canon)"'
        built = run("sh", "-c", f"cd '{inside}' && {script}", PKG_CONFIG_PATH=f"{prefix}/lib/pkgconfig")
        tally.count("a prefix with a space: compiled", why_not_done(built))
        ended = run(inside / "program", given=MESSAGE, LD_LIBRARY_PATH=f"{prefix}/lib")
        tally.count("a prefix with a space: run", why_not_done(ended) or differing(WANTED, ended.stdout))
    ended = run(TOP / "install", "--uninstall", prefix)
    tally.count("a prefix with a space: uninstall", why_not_done(ended) or differing(set(), files_below(prefix)))


def test_destdir(tally, tmp_path):
    """The prefix has what sed could take for a command."""
    prefix, staged = f"{tmp_path}/a|b&c", f"{tmp_path}/staged"
    ended = run(TOP / "install", prefix, DESTDIR=staged)
    tally.count("DESTDIR", why_not_done(ended) or differing(1, len(ended.stdout.splitlines())))
    check_files(tally, Path(staged + prefix), prefix)
    ended = run(TOP / "install", "--uninstall", prefix, DESTDIR=staged)
    tally.count("uninstall with DESTDIR", why_not_done(ended) or differing(set(), files_below(Path(staged))))


def why_not_refused(ended, wanted, target):
    """Wants one line that has this text, status 1, and nothing installed."""
    lines = ended.stderr.decode().splitlines()
    if ended.returncode != 1 or ended.stdout or len(lines) != 1 or wanted not in lines[0]:
        return f"wanted status 1 and a line with {wanted!r}; came {told(ended)}"
    return "something was installed" if target.is_dir() and files_below(target) else ""


def test_refusals(tally, tmp_path):
    folder, target = tmp_path, tmp_path / "target"
    (folder / "file").write_bytes(b"")
    ended = run(TOP / "install", folder / "file")
    tally.count("a prefix that is a file", why_not_refused(ended, "cannot be written", target))
    copy = copy_of_repository(folder / "copy")
    shutil.copy2(TOP / "install", copy)
    for name in ("cms-canon", "cms_canon.h", "libcms_canon.a", "libcms_canon.so"):
        file = copy / DIST / name
        octets = file.read_bytes()
        file.write_bytes(flipped(octets))
        tally.count(f"{name} altered", why_not_refused(run(copy / "install", target), f"{DIST / name} ", target))
        file.unlink()
        tally.count(f"{name} missing", why_not_refused(run(copy / "install", target), "missing", target))
        file.write_bytes(octets)
    (folder / "tools").mkdir()
    uname = folder / "tools" / "uname"
    for system, processor, said in (("Linux", "riscv64", "no release for riscv64"), ("Darwin", "arm64", "is for Linux, and this is Darwin arm64")):
        uname.write_text(f"#!/bin/sh\ncase $1 in -s) echo {system} ;; -m) echo {processor} ;; *) echo {system} {processor} ;; esac\n")
        uname.chmod(0o755)
        ended = run(copy / "install", target, PATH=f"{folder / 'tools'}:{os.environ['PATH']}")
        tally.count(f"another machine, {processor}", why_not_refused(ended, said, target))
    manifest = copy / DIST / "MANIFEST"
    manifest.write_text("".join(line for line in manifest.open() if not line.endswith(" libcms_canon.a\n")))
    tally.count("a sum is missing", why_not_refused(run(copy / "install", target), "libcms_canon.a ", target))
    shutil.rmtree(copy / "dist")
    tally.count("no release", why_not_refused(run(copy / "install", target), "no release", target))


def test_words(tally, tmp_path):
    """DESTDIR is set, so that nothing is installed elsewhere if one of these words is taken for a prefix."""
    for words in (["--unknown"], ["--uninstall", "--unknown"], [""], ["one", "two"]):
        ended = run(TOP / "install", *words, DESTDIR=f"{tmp_path}/words/")
        is_well = ended.returncode == 2 and not ended.stdout and ended.stderr.startswith(b"usage: ./install")
        tally.count(f"the words {words}", "" if is_well else told(ended))
    ended = run(TOP / "install", "--help")
    tally.count("help", why_not_done(ended) or ("" if b"usage: ./install" in ended.stdout else "it has no usage"))
