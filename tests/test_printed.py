"""Runs the commands that the documents print, as they are printed and in their order.

- Each document that tests/data/printed.toml has under `said`, in a copy of the files that git knows: each command of its blocks `sh` and `console`
  in one shell. Each has to succeed, and one of `console` writes what is printed below it. A block in another language is part of a
  file that is named there.
- docs/FORMATS.md, docs/REFUSALS.md, the manual pages, as `man` shows them, and the help of the program: each command of their examples, beside the
  files that they are about.
- bindings/python/README.md: the package is installed as it says, and its first sample is run.

tests/test_packages.py runs those of docs/INSTALL.md. A command that is not run is in tests/data/printed.toml, with the reason, and so are commands in
the text around the blocks. What needs a tool that is missing is skipped by its name.
"""

import base64
import email.policy
import os
import re
import shutil
import signal
import subprocess
import textwrap
import threading
import tomllib
from collections import namedtuple
from email.mime.application import MIMEApplication
from pathlib import Path

import pytest
from machines import clone_into
from needs import needs
from programs import DATA_FILES, RELEASE, TOP

pytestmark = [pytest.mark.tree, needs("bash", "git", "openssl")]

SECONDS = 120  # no command may take longer
JNA = "/usr/share/java/jna.jar"
DEBIAN_PYTHON = "/usr/bin/python3"
ARCHIVE_PAGE = TOP / "archive" / "docs" / "man" / "cms-canon-archive.1"
OF_ARCHIVE = ("click", "tqdm", "sqlalchemy", "jinja2", "matplotlib")
PAGE, README_OF_PYTHON = TOP / "docs" / "man" / "cms-canon.1", "bindings/python/README.md"
RECIPES = ("docs/REFUSALS.md", "docs/FORMATS.md")
COMMANDS = ("convert", "show", "changes", "check", "cover", "same")
OF_RUST = {"RUSTUP_HOME": ".rustup", "CARGO_HOME": ".cargo"}  # where cargo has its tools, in the home of the user

READ = tomllib.loads((DATA_FILES / "printed.toml").read_text())
NOT_RUN = {words for those in READ["not_run"].values() for words in those}
SAID = {name: {*words} for name, words in READ["said"].items()}
COMMAND_IN_TEXT = re.compile(r"`((?:\./|sudo |cat |sed |head |man |openssl |pip |python3 |rt |cms-canon convert <)[^`]*)`")


class Failed(Exception):
    """A command did not do what is printed."""


# A command, and the lines below it that it writes; None if nothing is said of what it writes.
Printed = namedtuple("Printed", "words lines")
Block = namedtuple("Block", "language body")


# ---- what is printed

def is_whole(words):
    """Whether a shell reads this as whole commands, and not as the beginning of one."""
    read = subprocess.run(["bash", "-n"], input=words, text=True, capture_output=True)
    return not words.endswith("\\") and (read.returncode, read.stderr) == (0, "")


def commands_of(block):
    prompt = "$ " if block.language == "console" else ""
    lines = block.body.splitlines()
    while lines:
        if not lines[0].startswith(prompt):
            raise Failed(f"no command is printed above {lines[0]!r}")
        words = lines.pop(0)[len(prompt) :]
        while lines and not is_whole(words):
            words += "\n" + lines.pop(0)
        written = []
        while prompt and lines and not lines[0].startswith(prompt):
            written.append(lines.pop(0))
        if words.strip():
            yield Printed(words, written if prompt else None)


def fenced(text):
    return [Block(*it) for it in re.findall(r"^```(\w*)\n(.*?)^```$", text, re.M | re.S)]


def of_shell(blocks):
    return [it for it in blocks if it.language in ("sh", "console")]


def of_manual(page, section):
    shown = subprocess.run(["man", "-l", page], capture_output=True, text=True, env={**os.environ, "MANWIDTH": "80", "LC_ALL": "C.UTF-8"})
    (text,) = re.findall(rf"^{section}\n(.*?)^(?=\S)", shown.stdout, re.M | re.S)
    return [Block("sh", it) for it in re.findall(r"(?<=\n\n)(?: {11}.*\n)+", text)]


class Shell:
    """A shell that keeps its folder and its variables from one command to the next, in a block of its process."""

    def __init__(self, folder, home):
        left_out = ("DESTDIR", "LD_LIBRARY_PATH", "PKG_CONFIG_PATH", "CMS_CANON_FROM_SOURCE", "MANPATH", "PYTHONPATH", "VIRTUAL_ENV")
        kept = {name: value for name, value in os.environ.items() if name not in left_out}
        self.out, self.errors = home / "written", home / "errors"
        rust = {name: os.environ.get(name, str(Path.home() / folder)) for name, folder in OF_RUST.items()}
        environment = {**kept, **rust, "HOME": str(home), "LC_ALL": "C.UTF-8", "PATH": f"{home}/.local/bin:{os.environ['PATH']}"}
        how = {"stdin": subprocess.PIPE, "stdout": subprocess.PIPE, "text": True, "cwd": folder, "env": environment}
        self.process = subprocess.Popen(["bash", "--norc"], start_new_session=True, **how)

    def run(self, words):
        """Returns the status of a command, what it writes, and what it writes beside that."""
        late = threading.Timer(SECONDS, os.killpg, (self.process.pid, signal.SIGKILL))
        late.start()
        self.process.stdin.write(f"{{\n{words}\n}} </dev/null >'{self.out}' 2>'{self.errors}'; echo $?\n")
        self.process.stdin.flush()
        status = self.process.stdout.readline().strip()
        late.cancel()
        if not status.isdigit():
            raise Failed(f"`{words}` ends the shell, or takes longer than {SECONDS} s")
        return int(status), self.out.read_text(errors="replace"), self.errors.read_text(errors="replace")


def stripped(text):
    return [line.rstrip() for line in text.splitlines()]


def why_not_as_printed(shell, printed):
    """Runs a command. The lines below it are what it writes, or that and what it writes on the standard error."""
    status, out, errors = shell.run(printed.words)
    if status != 0:
        return f"status {status}: {errors[-500:]}"
    if printed.lines is not None and printed.lines not in (stripped(out), stripped(out + errors), stripped(errors + out)):
        return f"printed {printed.lines}, came {stripped(out + errors)}"
    return ""


def why_skipped(block):
    for tool in ("openssl", "python3", "cc", "pkg-config", "javac", "java", "cargo", "systemd-analyze", DEBIAN_PYTHON):
        if re.search(rf"(?<![\w./-]){re.escape(tool)} ", block.body) and not shutil.which(tool):
            return f"{tool} is missing"
    if "cargo " in block.body and subprocess.run(["cargo", "--version"], capture_output=True).returncode != 0:
        return "cargo is installed without a toolchain"
    if JNA in block.body and not os.path.exists(JNA):
        return f"{JNA} is missing"
    imports = [DEBIAN_PYTHON, "-c", f"import {', '.join(OF_ARCHIVE)}"]
    if "--system-site-packages" in block.body and subprocess.run(imports, capture_output=True).returncode != 0:
        return f"{DEBIAN_PYTHON} does not have {', '.join(OF_ARCHIVE)}"
    return ""


def run_blocks(tally, name, shell, blocks, prepare=str, judge=lambda words: ""):
    """Runs the commands of the blocks: each after `prepare`, and before `judge`, which returns a complaint."""
    for block in blocks:
        missing = why_skipped(block)
        for printed in commands_of(block):
            title = f"{name}: {printed.words}"
            if printed.words.strip() in NOT_RUN:
                continue
            if missing:
                tally.skip(title, missing)
            else:
                prepare(printed.words)
                tally.count(title, why_not_as_printed(shell, printed) or judge(printed.words))


# ---- the files that the documents are about

def pem_of(octets):
    """Returns a message in PEM, with text around it and lines that end in CR LF."""
    lines = ["A message:", "", "-----BEGIN CMS-----", *textwrap.wrap(base64.b64encode(octets).decode(), 64), "-----END CMS-----", "That is all."]
    return "".join(f"{line}\r\n" for line in lines).encode()


def mail_of(octets):
    """Returns a message as S/MIME of the type application/pkcs7-mime."""
    return MIMEApplication(octets, "pkcs7-mime", smime_type="signed-data").as_bytes(policy=email.policy.SMTP)


def answer(tools, request, to):
    """Has the authority answer a request for a time-stamp, in this folder."""
    shutil.copy(request, tools.folder / "request.tsq")
    tools.make("openssl ts -reply -queryfile request.tsq -section stamps_sha256 -out response.tsr")
    shutil.copy(tools.folder / "response.tsr", to)
    shutil.copy(tools.folder / "ca.pem", to)


# ---- documents in a clone

def leave_out_the_kit(home):
    """Has `rt` fail, so that ./cms-canon does not build a program if the released one is made from other sources."""
    kit = home / ".local" / "bin" / "rt"
    kit.parent.mkdir(parents=True)
    kit.write_text("#!/bin/sh\nexit 1\n", encoding="ascii")
    kit.chmod(0o755)


def why_no_part(copy, block):
    """Returns why a block is part of no file for its language; one that is may stand further to the right there."""
    if (files := READ["parts"].get(block.language)) is None:
        return "it is in a language that this test does not know"
    for text in ((copy / file).read_text(encoding="utf-8") for file in files):
        widths = {len(line) - len(line.lstrip()) for line in text.splitlines()}
        if any(textwrap.indent(block.body, " " * width) in text for width in widths):
            return ""
    return f"it is part of none of {', '.join(files)}"


class Clone:
    """A copy of the repository, in which the commands of one document are run, and what they find there."""

    def __init__(self, folder, authority):
        self.top, self.home, self.authority = folder / "clone", folder / "home", authority
        self.top.mkdir(parents=True)
        self.home.mkdir()
        clone_into(self.top)
        leave_out_the_kit(self.home)

    def prepare(self, words):
        """Writes what a command is to find that another one than those of the document makes."""
        if "example/response.tsr" in words and not (self.top / "example" / "response.tsr").exists():
            answer(self.authority, self.top / "example" / "request.tsq", self.top / "example")
        if "message.pem" in words:
            (self.top / "message.pem").write_bytes(pem_of((self.top / "examples" / "message.ber").read_bytes()))


def judge_archive(tally, copy):
    """Checks that the packages for the archive are among those that the tests install."""
    packages = re.search(r'^wanted="(.*)"$', (copy / ".ci" / "run").read_text(), re.M)[1].split()
    (command,) = READ["not_run"]["packages"]
    tally.count("archive/README.md: packages", ", ".join({*re.findall(r"python3-\S+", command)} - {*packages}))


def judge_examples(tally, copy):
    """Compares what the command, C, Python, Java and Rust have written for one message, if they were run, and looks at what else was made."""
    wanted = (copy / "example" / "command.der").read_bytes()
    for name in ("c", "python", "java", "rust"):
        file = copy / "example" / f"{name}.der"
        if file.exists():
            tally.count(f"examples/README.md: {file.name}", "" if file.read_bytes() == wanted else "it is not the DER of examples/message.ber")
    # In an environment that has no packages but ours, cms-canon-archive says which one is missing.
    programs = copy / "example" / "venv" / "bin"
    if programs.exists():
        subprocess.run([programs / "pip", "install", "--quiet", "--no-index", "--no-deps", copy / "archive"], check=True, capture_output=True)
        ended = subprocess.run([programs / "cms-canon-archive", "--help"], capture_output=True, text=True)
        is_so = (ended.returncode, ended.stdout, ended.stderr.count("\n")) == (1, "", 1) and "the package click" in ended.stderr
        tally.count("cms-canon-archive without its packages", "" if is_so else f"status {ended.returncode}: {ended.stderr[-500:]}")
    # The commands by which examples/message.ber was made make the same.
    made, kept = (copy / "message.ber").read_bytes(), (TOP / "examples" / "message.ber").read_bytes()
    before_certificates = 100  # octets, which no key and no time changes
    is_so = made[:before_certificates] == kept[:before_certificates]
    tally.count("examples/message.ber", "" if is_so else "it was made in another way")
    if (copy.parent / "my-archive").is_dir():
        made = copy.parent / "my-archive"
        # The repository that examples/rattle/start made has the sources that are proved here.
        files = {it.relative_to(made) for it in made.rglob("*") if it.is_file()} - {Path("crates.txt")}
        differing = [str(it) for it in files if (made / it).read_bytes() != (copy / it).read_bytes()]
        tally.count("examples/rattle/start: sources", ", ".join(differing))
        lines, here = [(it / "crates.txt").read_text().splitlines() for it in (made, copy)]
        tally.count("examples/rattle/start: crates.txt", ", ".join(set(lines) - set(here)))
        named = {it.partition(":")[0].split(" ")[0]: it.partition(":")[2].split() for it in here if not it.startswith("#")}
        there = {it.name for it in (made / "crates").iterdir()}
        used = {"cms_example", *(below for it in there for below in named[it] if below in named)}
        is_so = there == used == {it.partition(":")[0] for it in lines}
        tally.count("examples/rattle/start: crates", "" if is_so else f"{there}, and {used}")


JUDGES = {"archive/README.md": judge_archive, "examples/README.md": judge_examples}


@pytest.mark.parametrize("name", SAID)
def test_in_clone(tally, tmp_path, authority, name):
    """Runs the commands of a document in a copy of the repository, and looks at what they have made there."""
    clone = Clone(tmp_path, authority)
    text = (clone.top / name).read_text(encoding="utf-8")
    # No command is passed over: none is in an indented block, and each in the text is known.
    around = re.sub(r"^```.*?^```$", "", text, flags=re.M | re.S)
    tally.count(f"{name}: blocks without fences", ", ".join(re.findall(r"(?<=\n\n) {4}.*", around)))
    said = {" ".join(it.split()) for it in COMMAND_IN_TEXT.findall(around)}
    tally.count(f"{name}: commands in the text", ", ".join(sorted(said - SAID[name])))
    tally.count(f"{name}: commands that are no longer in the text", ", ".join(sorted(SAID[name] - said)))
    blocks = fenced(text)
    in_shell = of_shell(blocks)
    for block in blocks:
        if block not in in_shell:
            tally.count(f"{name}: {block.body[:60]!r}", why_no_part(clone.top, block))
    shell = Shell(clone.top, clone.home)
    with shell.process:
        run_blocks(tally, name, shell, in_shell, clone.prepare)
    if name in JUDGES:
        JUDGES[name](tally, clone.top)


# ---- the other documents

class Recipes:
    def __init__(self, folder, authority):
        self.folder, self.home = folder, folder / "home"
        programs = self.home / ".local" / "bin"
        programs.mkdir(parents=True)
        (folder / "folder").mkdir()
        self.program = Path(shutil.copy(RELEASE / "cms-canon", programs))
        sign = "openssl cms -sign -in content.txt -signer rsa.pem -inkey rsa.key -binary"
        authority.make(f"{sign} -nodetach -stream -outform DER -out message.ber")
        authority.make(f"{sign} -out multipart.eml")
        self.message, self.multipart = (authority.read(it) for it in ("message.ber", "multipart.eml"))
        self.der = self.says("convert", self.message)
        self.write(self.message, "message.ber", "folder/1.p7s", "folder/2.p7s")
        self.write(self.der, "message.der", "first.der", "second.der")
        self.write(self.der + self.der, "all.der")
        self.write(pem_of(self.message), "message.pem")
        self.write(authority.read("content.txt"), "content")
        self.write(authority.read("rsa.crt"), "cert.pem")
        self.write(b"A contract.\n", "contract.txt", "document")
        self.write(self.der[-256:], "signature")
        self.write(authority.make("openssl x509 -in rsa.crt -pubkey -noout"), "public.pem")
        authority.make(f"openssl ts -query -data {folder}/contract.txt -sha256 -cert -out contract.tsq")
        answer(authority, authority.folder / "contract.tsq", folder)

    def write(self, octets, *names):
        for name in names:
            (self.folder / name).write_bytes(octets)

    def says(self, *words):
        """Returns what the program writes; the last word is its input."""
        return subprocess.run([self.program, *words[:-1]], input=words[-1], capture_output=True).stdout

    def prepare(self, words):
        """Writes the message in S/MIME, which is of two types in the recipes, and removes what the command is to write."""
        if "message.eml" in words:
            self.write(self.multipart if re.search("email|-inform SMIME", words) else mail_of(self.message), "message.eml")
        for name in re.findall(r"(?:> |-out )(\S+)", words):
            (self.folder / name).unlink(missing_ok=True)

    def why_not_right(self, words):
        """Compares what a command has written with what it is made of."""
        read = {name: (self.folder / name).read_bytes() for name in re.findall(r"(?:> |-out )(\S+)", words)}
        if "-out content" in words:
            said = self.says("check", "--content", (self.folder / "message.ber").read_bytes() + read["content"])
            return "" if said == b"F18 signer 0 verifier says unknown\n" else f"check --content says {said}"
        if "email" in words:
            return "" if self.says("convert", read["message.ber"]) not in (b"", self.der) else "it is not the attachment"
        wanted = {"message.ber": self.message, "message.der": self.der, "all.der": self.der + self.der}
        return ", ".join(f"{name} is not right" for name, octets in read.items() if octets != wanted.get(name, octets))


def check_recipes(tally, name, blocks, folder, authority):
    recipes = Recipes(folder, authority)
    shell = Shell(folder, recipes.home)
    with shell.process:
        run_blocks(tally, name, shell, blocks, recipes.prepare, recipes.why_not_right)


def blocks_of_help():
    for words in (["--help"], *(["help", it] for it in COMMANDS)):
        text = subprocess.run([RELEASE / "cms-canon", *words], capture_output=True, text=True).stdout
        (examples,) = re.findall(r"^Examples?:\n(.*?)^$", text, re.M | re.S)
        # What is said of a command is two columns further to the right.
        yield from (Block("sh", it) for it in re.findall(r"^ {2}\S.*\n(?: {4}.*\n)*", examples, re.M))


def test_help(tally, tmp_path, authority):
    blocks = [*blocks_of_help()]
    tally.count("help: commands with examples", "" if len(blocks) > len(COMMANDS) else f"{len(blocks)} examples")
    check_recipes(tally, "help", blocks, tmp_path, authority)


def blocks_of(name):
    """Returns the recipes of a document; those in Python are run by a shell."""
    blocks = fenced((TOP / name).read_text(encoding="utf-8"))
    return [Block("sh", f"python3 - <<'END'\n{it.body}END\n") if it.language == "python" else it for it in blocks]


@pytest.mark.parametrize("name", RECIPES)
def test_recipes(tally, tmp_path, authority, name):
    blocks = blocks_of(name)
    for block in blocks:
        tally.count(f"{name}: languages", "" if block in of_shell(blocks) else f"{block.language} is not known")
    check_recipes(tally, name, blocks, tmp_path, authority)
    if name == "docs/FORMATS.md":
        parts = [it.read_bytes() for it in sorted(tmp_path.glob("[0-9].der"))]
        der = (tmp_path / "first.der").read_bytes()
        tally.count("docs/FORMATS.md: messages that are split", "" if parts == [der, der] else f"{len(parts)} files")


def test_python(tally, tmp_path):
    """Installs the package as bindings/python/README.md says, and runs the sample of the calls; tests/test_libraries.py runs that of the verifier,
    those of the fields and that of accounts."""
    folder, home = tmp_path / "clone", tmp_path / "home"
    home.mkdir()
    folder.mkdir()
    clone_into(folder)
    blocks = fenced((folder / README_OF_PYTHON).read_text(encoding="utf-8"))
    calls, *others = [it for it in blocks if it.language == "python"]
    tally.count(f"{README_OF_PYTHON}: samples", "" if len(others) == 4 else f"{1 + len(others)} samples, of which five are run")
    message = (folder / "examples" / "message.ber").read_bytes()
    (folder / "message.ber").write_bytes(message)
    (folder / "messages.ber").write_bytes(message + message)
    shell = Shell(folder, home)
    with shell.process:
        run_blocks(tally, README_OF_PYTHON, shell, [it for it in blocks if it.language == "sh"])
        status, written, errors = shell.run(f"venv/bin/python - <<'END'\n{calls.body}END")
    lines = written.splitlines()
    is_so = (status, lines[:1], lines[-3:]) == (0, ["kind: signed-data"], ["F18 signer 0 verifier says unknown", "762", "762"])
    tally.count(f"{README_OF_PYTHON}: the sample of the calls", "" if is_so else f"status {status}: {written}{errors}")


def blocks_on_many():
    """Returns the commands on many messages of the manual; the others there show lines of the program."""
    return [it for it in of_manual(PAGE, "MANY MESSAGES") if shutil.which(it.body.split()[0])]


@needs("man")
def test_manual(tally, tmp_path, authority):
    of_many = blocks_on_many()
    tally.count("man cms-canon: commands on many messages", "" if len(of_many) == 2 else f"{len(of_many)}")
    check_recipes(tally, "man cms-canon", [*of_manual(PAGE, "EXAMPLES"), *of_many], tmp_path, authority)


@needs("man")
def test_manual_of_the_archive(tally, tmp_path):
    for name in ("archive", "dist", "bindings", "docs", "packaging"):
        shutil.copytree(TOP / name, tmp_path / name)
    for name in ("CHANGELOG.md", "LICENSE-APACHE", "LICENSE-MIT"):
        shutil.copy(TOP / name, tmp_path)
    (tmp_path / "home").mkdir()
    shell = Shell(tmp_path, tmp_path / "home")
    with shell.process:
        run_blocks(tally, "man cms-canon-archive", shell, of_manual(ARCHIVE_PAGE, "DESCRIPTION"))


@needs("man")
def test_not_run(tally):
    """What is not run is printed somewhere."""
    in_documents = [it for name in SAID for it in of_shell(fenced((TOP / name).read_text(encoding="utf-8")))]
    in_readme = [it for it in fenced((TOP / README_OF_PYTHON).read_text(encoding="utf-8")) if it.language == "sh"]
    in_recipes = [it for name in RECIPES for it in blocks_of(name)]
    in_manuals = [*of_manual(PAGE, "EXAMPLES"), *blocks_on_many(), *of_manual(ARCHIVE_PAGE, "DESCRIPTION")]
    printed = {it.words.strip() for block in (*in_documents, *in_readme, *in_recipes, *blocks_of_help(), *in_manuals) for it in commands_of(block)}
    tally.count("what is not run is printed", ", ".join(NOT_RUN - printed))
