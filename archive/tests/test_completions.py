"""Has bash, zsh and fish complete the words of `cms-canon-archive` by the files of its package for Debian."""

import os
import subprocess
import sys

import pytest
from counting import count_if, count_same, needs
from making import write_files
from places import TOP
from running import SECONDS, environment_of

pytestmark = [pytest.mark.archive, needs("click")]
COMPLETIONS = TOP / "packaging" / "completions"
COMMAND = "from cms_canon_archive.__main__ import main\n\nmain()\n"  # as packaging/packages/debian.py has it
IN_BASH = (
    'source "$1"; shift; COMP_WORDS=("$@"); COMP_CWORD=$(($# - 1)); compopt() { echo "compopt $2"; }; '
    '_cms_canon_archive; printf "%s\\n" "${COMPREPLY[@]}"'
)
IN_ZSH = (
    'fpath=($1); shift; autoload -Uz _cms-canon-archive; _files() { print -l -- "_files $*" }; _describe() { print -l -- "${(@P)@[-1]}" }; '
    'words=("$@"); CURRENT=$#; _cms-canon-archive'
)
IN_FISH = "source $argv[1]; complete -C $argv[2]"
OFFERED = {  # what each shell offers after what was typed
    "cms-canon-archive re": ["refusals", "renewal", "report"], "cms-canon-archive verify": ["verify-store"], "cms-canon-archive --": ["--version", "--help"],
    "cms-canon-archive report --": ["--html", "--store", "--wait", "--help"], "cms-canon-archive times --sinc": ["--since"], "cms-canon-archive zzz": [],
    "cms-canon-archive index --sch": ["--scheduler"],
}


@pytest.fixture
def environment(home):
    """The environment of a shell that finds the command on its PATH."""
    write_files(home / "bin", {"cms-canon-archive": f"#!{sys.executable}\n{COMMAND}".encode()})
    (home / "bin/cms-canon-archive").chmod(0o755)
    return environment_of(home, PATH=f"{home / 'bin'}:{os.environ['PATH']}", HOME=str(home))


def said_by(home, environment, *words):
    done = subprocess.run([*map(str, words)], env=environment, cwd=home, capture_output=True, text=True, timeout=SECONDS)
    count_same(f"{words[0]}: errors", (done.stderr, done.returncode in (0, 1)), ("", True))
    return done.stdout.splitlines()


SHELLS = {
    "bash": lambda typed: ["bash", "--norc", "-c", IN_BASH, "bash", COMPLETIONS / "cms-canon-archive.bash", *typed.split(" ")],
    "zsh": lambda typed: ["zsh", "-f", "-c", IN_ZSH, "zsh", COMPLETIONS, *typed.split(" ")],
    "fish": lambda typed: ["fish", "--no-config", "-c", IN_FISH, COMPLETIONS / "cms-canon-archive.fish", typed],
}


@pytest.mark.parametrize("shell", [pytest.param(it, marks=needs(tools=[it])) for it in SHELLS])
def test_words(home, environment, shell):
    for typed, wanted in OFFERED.items():
        offered = said_by(home, environment, *SHELLS[shell](typed))
        words = sorted(it.partition(":" if shell == "zsh" else "\t")[0] for it in offered)
        count_same(f"{shell}, {typed!r}", [it for it in words if it], sorted(wanted))
    about = {"bash": "refusals", "zsh": "refusals:List what", "fish": "refusals\tList what"}[shell]
    offered = said_by(home, environment, *SHELLS[shell]("cms-canon-archive ref"))
    count_if(f"{shell}: what a word does", len(offered) == 1 and offered[0].startswith(about), offered)


PATHS = {
    "cms-canon-archive index ": "file", "cms-canon-archive check ": "file", "cms-canon-archive check --under ": "file",
    "cms-canon-archive digests --to ": "dir",
}


@pytest.mark.parametrize("shell", [pytest.param(it, marks=needs(tools=[it])) for it in SHELLS])
def test_paths(home, environment, shell):
    """Files and folders are completed where a path is due, and only folders if it has to be one."""
    write_files(home, {"some folder/file": b"", "a file": b""})
    of_file, of_folder = {"bash": ("compopt default", "compopt dirnames"), "zsh": ("_files ", "_files -/"), "fish": ("a\\ file", "some\\ folder/")}[shell]
    for typed, kind in PATHS.items():
        offered = [it.partition("\t")[0] for it in said_by(home, environment, *SHELLS[shell](typed)) if it.strip()]
        is_file = of_file in offered or of_file.replace("\\", "") in offered
        is_folder = of_folder in offered or of_folder.replace("\\", "") in offered
        count_if(f"{shell}, {typed!r}", is_file == (kind == "file") and (is_folder or shell != "fish" and kind == "file"), offered)


@pytest.mark.parametrize("shell", [pytest.param(it, marks=needs(tools=[it])) for it in SHELLS])
def test_failure(home, environment, shell):
    """If the command cannot be run, nothing is offered, and nothing is said."""
    (home / "bin/cms-canon-archive").write_text("#!/bin/sh\necho broken >&2\nexit 1\n")
    offered = [it for it in said_by(home, environment, *SHELLS[shell]("cms-canon-archive re")) if it]
    count_same(f"{shell}: a command that fails", offered, [])
