"""What the command writes to a terminal, to a full disk and to a reader that has gone, and what `index` says at its end."""

import os
import pty
import re
import shlex
import subprocess
import time
from hashlib import sha256

import pytest
from counting import count_if, count_same, needs
from elements import element, message as message_of
from making import write_files
from places import ARCHIVE
from running import AS_NOBODY, SECONDS, SETTLED, command, command_says, ended, environment_of, lines_of, ran, words_of

pytestmark = [pytest.mark.archive, needs("click", "tqdm", "sqlalchemy", "cryptography", tools=["openssl"])]
DOCUMENT = b"A document.\n"
DATA = bytes.fromhex("06092a864886f70d010701")
UNSIGNED = message_of(b"\x02\x01\x01\x31\0", element(0x30, DATA), b"\x31\0")
ASKED = ("check --all", "signers", "algorithms", "times", "duplicates", "refusals", "changed", "others", "check --all --csv", "signers --json")


@pytest.fixture(scope="module")
def folder(shared_home, make):
    detached = make.cms(DOCUMENT)
    files = {
        "doc": DOCUMENT, "doc.p7s": detached, "wrong": b"other", "wrong.p7s": detached, "alone.p7s": detached, "cut.p7s": detached[:-1],
        "attached.p7m": make.cms(DOCUMENT, "-nodetach"), "unsigned.p7s": UNSIGNED, "query.tsq": make.query(DOCUMENT),
    }
    folder = write_files(shared_home / "said", files)
    time.sleep(SETTLED)
    command(shared_home, "index", folder, "--store", "said.db")
    return folder


def words(home, text):
    asks = text.split()[0] not in ("rows", "--help", "--version", "inspect") and "FILE" not in text
    return words_of(*[it.replace("FILE", str(home / "said" / "doc.p7s")) for it in text.split()], *(["--store", "said.db"] if asks else []))


def on_terminal(home, text):
    """Returns the lines that a command writes to a terminal."""
    own, other = pty.openpty()
    process = subprocess.Popen(words(home, text), cwd=home, env=environment_of(home), stdout=other, stderr=subprocess.DEVNULL)
    os.close(other)
    said = b""
    while True:
        try:
            piece = os.read(own, 65536)
        except OSError:  # as Linux says that nobody writes any more
            break
        if not piece:
            break
        said += piece
    os.close(own)
    process.wait(SECONDS)
    return said.decode().replace("\r\n", "\n").splitlines()


@pytest.mark.usefixtures("folder")
def test_tables(shared_home):
    """On a terminal a table has a heading, and its cells are below one another; elsewhere it has tabs and no heading."""
    for text in ("check --all", "signers", "algorithms"):
        heading, *lines = on_terminal(shared_home, text)
        begins = [it.start() for it in re.finditer(r"\S+(?: \S+)*", heading)]
        piped = subprocess.run(words(shared_home, text), cwd=shared_home, env=environment_of(shared_home), capture_output=True, text=True).stdout.splitlines()
        cells = [[line[begin:end].strip() for begin, end in zip(begins, [*begins[1:], None])] for line in lines]
        count_same(f"{text}: cells", cells, [[it.strip() for it in line.split("\t")] for line in piped])
        count_if(f"{text}: heading", heading.isupper() and len(cells) > 1, heading)
    count_same("a table of nothing", on_terminal(shared_home, "others"), [])


@pytest.mark.usefixtures("folder")
@pytest.mark.parametrize("text", [*ASKED, "--help", "--version", "rows said", "check FILE", "inspect FILE"])
def test_output_that_fails(shared_home, text):
    """A full disk is said in one line; a reader that has gone is not spoken of. Both are status 1."""
    writes = subprocess.run(words(shared_home, text), cwd=shared_home, env=environment_of(shared_home), capture_output=True).stdout
    with open("/dev/full", "w") as full:
        done = subprocess.run(words(shared_home, text), cwd=shared_home, env=environment_of(shared_home), stdout=full, stderr=subprocess.PIPE, text=True)
    lines = [it for it in done.stderr.splitlines() if "No space left on device" in it]
    count_if(f"{text}: a full disk", not writes or (done.returncode == 1 and len(lines) == 1 and "Traceback" not in done.stderr and "ignored" not in done.stderr), done.stderr)
    reading, writing = os.pipe()
    os.close(reading)
    done = subprocess.run(words(shared_home, text), cwd=shared_home, env=environment_of(shared_home), stdout=writing, stderr=subprocess.PIPE, text=True)
    os.close(writing)
    said = [it for it in done.stderr.splitlines() if "Traceback" in it or "ignored" in it or "Error" in it]
    count_if(f"{text}: a reader that has gone", not writes or (done.returncode == 1 and not said), done.returncode, done.stderr)


def test_totals(shared_home, folder):
    """`index` says at its end how many files and messages there are, what came of them, and which command says more."""
    said = command_says(shared_home, "index", folder, "--store", "said.db").splitlines()
    count_same("what index says", said, [
        "0 files read, 9 unchanged, 0 gone", "the index has 9 files with 6 messages: 2 fit", "  1 do not fit: `cms-canon-archive check` lists them",
        "  1 could not be judged: `cms-canon-archive check` lists them", "  1 are refused, damaged or too large: `cms-canon-archive refusals` lists them",
    ])
    (row,) = lines_of(shared_home, "index", folder, "--store", "said.db")
    wanted = {"read": 0, "unchanged": 9, "gone": 0, "files": 9, "messages": 6, "fit": 2, "in_part": 0, "differ": 1, "wrong": 0, "wrong_times": 0, "unjudged": 1, "refused": 1, "unreadable": 0}
    count_same("what index says in JSON", row, wanted)
    names = [it["file"].rpartition("/")[2] for it in lines_of(shared_home, "check", "--store", "said.db", status=1)]
    count_same("check lists what is signed", sorted(names), ["alone.p7s", "unsigned.p7s", "wrong.p7s"])
    names = [it["file"].rpartition("/")[2] for it in lines_of(shared_home, "check", "--all", "--store", "said.db", status=1)]
    count_same("check --all lists all", sorted(names), ["alone.p7s", "attached.p7m", "doc.p7s", "query.tsq", "unsigned.p7s", "wrong.p7s"])


def test_totals_of_what_is_wrong(home, make):
    """A message with a wrong signature is not counted as one that fits, nor one that fits in part."""
    wrong = bytearray(make.cms(DOCUMENT, "-nodetach"))
    wrong[-1] ^= 1
    folder = write_files(home / "wrong", {"wrong.p7m": bytes(wrong), "right.p7m": make.cms(DOCUMENT, "-nodetach")})
    (row,) = lines_of(home, "index", folder, "--verify", "--store", "wrong.db")
    count_same("totals with a wrong signature", {it: row[it] for it in ("messages", "fit", "wrong")}, {"messages": 2, "fit": 1, "wrong": 1})
    said = command_says(home, "index", folder, "--verify", "--anew", "--store", "wrong.db")
    count_if("a wrong signature is said", "  1 have a wrong signature: `cms-canon-archive check` lists them" in said, said)


@pytest.mark.parametrize("words", ["check --all", "manifest --sha256sum", "signers --json", "changes", "--version", "--help"])
def test_closed_streams(home, folder, words):
    """A command that is begun with closed streams, as some daemons begin theirs, ends with a line, and never says that all is well."""
    command(home, "index", folder)
    for closing, status in ((">&-", 1), (">/dev/full", 1), (">&- 2>&-", 1), ("<&-", None), ("2>&-", None)):
        done = subprocess.run(["sh", "-c", f'"$@" {closing}', "sh", *words_of(*words.split())], cwd=home, env=environment_of(home), capture_output=True, text=True, timeout=SECONDS)
        usual = ended(home, *words.split())
        wanted = usual.returncode if status is None else status
        count_if(f"{words} {closing}", done.returncode == wanted and "Traceback" not in done.stderr and done.stderr.count("\n") <= max(1, usual.stderr.count("\n")), done)
        if status is not None and "2>" not in closing:
            count_if(f"{words} {closing}: said", "Error: the output is not written: " in done.stderr, done.stderr)
    done = subprocess.run(["sh", "-c", '"$@" <&-', "sh", *words_of("check", "-")], cwd=home, env=environment_of(home), capture_output=True, text=True, timeout=SECONDS)
    count_if("no standard input", done.returncode == 2 and "the standard input cannot be copied" in done.stderr and "Traceback" not in done.stderr, done.stderr)


def test_questions(home, folder):
    """Each command in ARCHIVE.md's table of questions runs and says something. The index is made first, and the others follow in their order."""
    table = (ARCHIVE / "docs" / "ARCHIVE.md").read_text(encoding="utf-8").partition("## Questions")[2].partition("\n## ")[0]
    asked = re.findall(r"`cms-canon-archive ([^`]*)`", table)
    count_if("ten questions and more", table.count("\n| ") >= 12 and len(asked) >= 13, table)
    given = {"FILE": folder / "doc.p7s", "DOCUMENT": folder / "doc", "FOLDER": folder, "TEXT": "Signer", "2024": time.strftime("%Y", time.gmtime()), "LIST": home / "list"}
    (home / "list").write_text(f"{sha256((folder / 'doc').read_bytes()).hexdigest()}  {folder}/doc\n")
    for text in sorted(asked, key=lambda it: not it.startswith("index")):
        words = [str(given.get(it, it)) for it in shlex.split(text)]
        done = ended(home, *words)
        is_quiet = words[0] in ("times", "changed", "duplicates", "verify-store") or "--weak" in words
        count_if(f"ARCHIVE.md: {text}", done.returncode in (0, 1, 3) and "Usage" not in done.stderr and (is_quiet or done.stdout or done.stderr), done)


def test_unreadable(home, make):
    """A folder that cannot be read is a row, and status 3, until it can be."""
    folder = write_files(home / "hidden", {"inside/a.p7m": make.cms(DOCUMENT, "-nodetach"), "b.txt": b"text"})
    for it in (home, folder):
        it.chmod(0o755)
    store = home / "for nobody"
    store.mkdir()
    store.chmod(0o777)
    (folder / "inside").chmod(0)
    said = ran(home, "index", folder, "--store", store / "index.db", "--jobs", 1, status=3, **AS_NOBODY).stderr
    count_if("a folder that cannot be read", "  1 could not be read: `cms-canon-archive refusals` lists them" in said, said)
    (row,) = lines_of(home, "refusals", "--store", store / "index.db")
    count_same("its row", (row["file"], row["why"]), (str(folder / "inside"), "unreadable: Permission denied"))
    (folder / "inside").chmod(0o755)
    ran(home, "index", folder, "--store", store / "index.db", "--jobs", 1, **AS_NOBODY)
