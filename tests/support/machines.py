"""Machines on which tests/test_packages.py installs and uses the packages: a fresh Debian 12 or 13, and a folder of this machine."""

import os
import re
import shutil
import subprocess
import time
from pathlib import Path
from typing import Dict, Iterable, List, NamedTuple, Optional, Tuple

TOP = Path(__file__).resolve().parents[2]
CACHE = TOP / "out"
SECONDS = 420  # no command may take longer on this machine
DAYS = 14  # after which a base that is kept is made again
VERSIONS = {"bookworm": 12, "trixie": 13}  # of Debian, by suites
APT = 'APT::Get::Assume-Yes "true";\nAPT::Install-Recommends "false";\nAPT::Keep-Downloaded-Packages "true";\nDpkg::Use-Pty "0";\n'
LEFT = ("/home", "/proc", "/sys", "/dev", "/tmp", "/opt/rust", "/var/cache/apt", "/var/log")  # where nothing is looked for
_SECTION = re.compile(r"^## (.*)$", re.M)
_BLOCK = re.compile(r"^```(sh|console)\n(.*?)^```$", re.M | re.S)
_MIRROR = re.compile(r"\bhttps?://\S+/debian(?=[/\s])")


class Command(NamedTuple):
    """What is printed in a block: commands, and the lines that they write; None if nothing is said of what they write."""

    words: str
    output: Optional[str]


def sections(document: Path) -> Dict[str, List[Command]]:
    """Returns the commands of a document by the headings that they are below."""
    parts = _SECTION.split(document.read_text(encoding="utf-8"))[1:]
    return {title: [*commands(text)] for title, text in zip(parts[::2], parts[1::2])}


def commands(text: str) -> Iterable[Command]:
    """Yields a block `sh` as one command, and each command of a block `console` with the lines below it."""
    for kind, block in _BLOCK.findall(text):
        if kind == "sh":
            yield Command(block, None)
            continue
        for part in re.split(r"^\$ ", block, flags=re.M)[1:]:
            words, _, output = part.partition("\n")
            yield Command(words, output)


class Ended(NamedTuple):
    status: int
    output: str
    error: str


def ended(words: List, **how) -> Ended:
    how = {"stdin": subprocess.DEVNULL, "capture_output": True, "timeout": SECONDS, **how}
    try:
        done = subprocess.run([str(it) for it in words], check=False, **how)
    except subprocess.TimeoutExpired:
        return Ended(124, "", f"it took longer than {SECONDS} s")
    return Ended(done.returncode, done.stdout.decode(errors="replace"), done.stderr.decode(errors="replace"))


def succeed(words: List, what: str, **how) -> None:
    done = ended(words, **how)
    if done.status != 0:
        raise OSError(f"{what}: {(done.output + done.error)[-500:]}")


def clone_into(folder: Path) -> None:
    listed = ended(["git", "-C", TOP, "ls-files", "-z"])
    if listed.status != 0:
        raise OSError(f"git does not list the files of the repository: {listed.error.strip()}")
    for name in (it for it in listed.output.split("\0") if it and (TOP / it).exists()):
        (folder / name).parent.mkdir(parents=True, exist_ok=True)
        shutil.copy2(TOP / name, folder / name, follow_symlinks=False)


def tools_without(folder: Path, missing: str, places: str = os.environ["PATH"]) -> Path:
    """Makes a folder of links to all programs in these places, which are those on the PATH, but for one."""
    folder.mkdir()
    for tool in (it for place in places.split(":") if Path(place).is_dir() for it in Path(place).iterdir()):
        if tool.name != missing and not (folder / tool.name).exists():
            (folder / tool.name).symlink_to(tool)
    return folder


class Here:
    """A copy of the repository's files on this machine, with no Rattle kit on the PATH. What sudo is needed for is not run."""

    name = "this machine"

    def __init__(self, folder: Path, **environment: str):
        self.folder = folder / "clone"
        clone_into(self.folder)
        self.environment = {**os.environ, "PATH": str(tools_without(folder / "tools", "rt")), **environment}

    def why_not(self, section: List[Command]) -> str:
        """Returns why the commands of a section cannot be run here, or nothing."""
        lines = [line for command in section for line in command.words.splitlines() if line.startswith("sudo ")]
        if any(not line.startswith("sudo apt-get install ") or "./dist/" in line for line in lines):
            return "it needs a machine of its own"
        wanted = [it for line in lines for it in line.split()[3:]]
        missing = [it for it in wanted if "ok installed" not in ended(["dpkg-query", "-W", "-f", "${Status}", it]).output]
        return f"{', '.join(missing)} not installed" if missing else ""

    def run(self, words: str) -> Ended:
        """Runs commands, but for the installation of packages that are there."""
        here = "".join(line for line in words.splitlines(keepends=True) if not line.startswith("sudo apt-get install "))
        return ended(["sh", "-e", "-c", here], cwd=self.folder, env=self.environment)

    def left_over(self) -> List[str]:
        """Returns the files of cms-canon that are left of an example."""
        return sorted(str(it) for it in self.folder.glob("example/**/*") if re.search("cms[-_]canon", it.name))


MOUNTS = """
set -e
root=$1 archives=$2 rust=$3
shift 3
mount -t proc proc "$root/proc"
mount --bind "$archives" "$root/var/cache/apt/archives"
if [ -n "$rust" ]; then
    mount --bind "$rust" "$root/opt/rust"
    mount -o remount,bind,ro "$root/opt/rust"
fi
exec "$@"
"""


class Debian:
    """A fresh Debian 12 or 13 in a folder, with a user who may call sudo and has a copy of the repository's files, and no more of this machine
    than its mirror, its network and its Rust. What debootstrap and apt fetch is kept in out/debian-12 or out/debian-13. One of another architecture than
    this machine's has no Rust, and needs a kernel that has its programs run by qemu."""

    def __init__(self, folder: Path, architecture: str = "", suite: str = "bookworm"):
        self.root, self.architecture, self.suite = folder / "debian", architecture, suite
        self.name = f"Debian {VERSIONS[suite]}"
        self.cache = CACHE / f"debian-{VERSIONS[suite]}"
        self.seconds = SECONDS * (3 if architecture else 1)  # no command may take longer
        self.rust = ended(["rustc", "--print", "sysroot"]).output.strip() if shutil.which("rustc") and not architecture else ""
        self._unpack()
        self._configure()
        clone_into(self.root / "home/user/clone")
        self.succeed("chown -R user:user /home/user && apt-get update")

    @staticmethod
    def why_not_here() -> str:
        """Returns why there cannot be such a machine, or nothing."""
        missing = [it for it in ("debootstrap", "unshare", "chroot", "tar") if not shutil.which(it)]
        if missing or os.geteuid() != 0:
            return f"{', '.join(missing)} not installed" if missing else "it needs root"
        if ended(["unshare", "--mount", "--pid", "--fork", "true"]).status != 0:
            return "unshare is not allowed"
        return "" if mirror() else "no mirror of Debian in /etc/apt"

    def why_not(self, section: List[Command]) -> str:
        """Returns why the commands of a section cannot be run here, or nothing."""
        needs_rust = any(re.search(r"^cargo\b", it.words, re.M) for it in section)
        return "rustc not installed" if needs_rust and not self.rust else ""

    def run(self, words: str) -> Ended:
        """Runs commands as the user, in the copy of the repository."""
        return self._enter(["setpriv", "--reuid=user", "--regid=user", "--init-groups", "sh", "-e", "-c", f"cd ~/clone\n{words}"])

    def run_as_root(self, words: str) -> Ended:
        """Runs commands as root, in the user's copy of the repository: programs that qemu runs do not become those of their owner, as sudo does."""
        return self._enter(["sh", "-e", "-c", f"cd /home/user/clone\n{words}"])

    def succeed(self, words: str) -> str:
        """Runs commands as root, and returns what they print. Raises OSError if they fail."""
        done = self._enter(["sh", "-e", "-c", words])
        if done.status != 0:
            raise OSError(f"status {done.status}: {(done.output + done.error)[-2000:]}")
        return done.output

    def left_over(self) -> List[str]:
        """Returns the files of cms-canon that are left in the system, and of an example."""
        pruned = " -o ".join(f"-path {it}" for it in LEFT)
        named = r"-regex '.*/[^/]*cms[-_]canon[^/]*'"
        found = self.succeed(f"find / \\( {pruned} \\) -prune -o {named} -print; find /home/user/clone/example {named}")
        return sorted(found.splitlines())

    def _enter(self, words: List[str]) -> Ended:
        """Runs a command in the folder, with mounts that end when it ends."""
        environment = {
            "PATH": "/opt/rust/bin:/usr/local/sbin:/usr/local/bin:/usr/sbin:/usr/bin:/sbin:/bin", "HOME": "/home/user", "LC_ALL": "C.UTF-8",
            "DEBIAN_FRONTEND": "noninteractive", **{name: value for name, value in os.environ.items() if name.endswith("_proxy")},
        }
        unshare = ["unshare", "--mount", "--pid", "--fork", "--kill-child", "sh", "-c", MOUNTS, "sh"]
        return ended([*unshare, self.root, self.cache / "archives", self.rust, "chroot", self.root, *words], env=environment, timeout=self.seconds)

    def _unpack(self) -> None:
        """Unpacks the base, which is made first if none is kept, or an old one."""
        base = self.cache / f"base{self.architecture}.tar"
        (self.cache / "archives" / "partial").mkdir(parents=True, exist_ok=True)
        if not base.exists() or time.time() - base.stat().st_mtime > DAYS * 86400:
            self._debootstrap(base)
        self.root.mkdir()
        succeed(["tar", "--numeric-owner", "-xf", base, "-C", self.root], "the base cannot be unpacked")

    def _debootstrap(self, base: Path) -> None:
        folder, new = self.root.with_name("base"), base.with_suffix(".new")
        of_other = [f"--arch={self.architecture}"] if self.architecture else []
        words = ["debootstrap", *of_other, "--variant=minbase", "--include=sudo,ca-certificates", self.suite, folder, mirror()]
        succeed(words, "debootstrap", timeout=self.seconds)
        shutil.rmtree(folder / "var/cache/apt/archives", ignore_errors=True)
        (folder / "var/cache/apt/archives/partial").mkdir(parents=True)
        succeed(["tar", "--numeric-owner", "-cf", new, "-C", folder, "."], "the base cannot be kept")
        new.replace(base)
        shutil.rmtree(folder)

    def _configure(self) -> None:
        """Sets up what a user of the machine has: a network, sources of packages, and sudo."""
        etc = self.root / "etc"
        for name in ("resolv.conf", "hosts"):
            (etc / name).unlink(missing_ok=True)
            shutil.copyfile(Path("/etc", name), etc / name)
        (etc / "apt/sources.list").write_text(f"deb {mirror()} {self.suite} main\n", encoding="ascii")
        (etc / "apt/apt.conf.d/90tests").write_text(APT, encoding="ascii")
        (etc / "dpkg/dpkg.cfg.d").mkdir(exist_ok=True)
        (etc / "dpkg/dpkg.cfg.d/90tests").write_text("force-unsafe-io\n", encoding="ascii")
        (self.root / "opt/rust").mkdir(parents=True)
        self.succeed("useradd --create-home --shell /bin/sh user && echo 'user ALL=(ALL) NOPASSWD: ALL' >/etc/sudoers.d/user"
                     " && chmod 440 /etc/sudoers.d/user")


def mirror() -> str:
    """Returns the mirror of Debian that this machine has its packages from; nothing if it has none."""
    files = [Path("/etc/apt/sources.list"), *sorted(Path("/etc/apt/sources.list.d").glob("*"))]
    text = "\n".join(it.read_text(encoding="utf-8", errors="replace") for it in files if it.is_file())
    found: List[Tuple[int, str]] = [(it.start(), it[0]) for it in _MIRROR.finditer(re.sub(r"^\s*#.*$", "", text, flags=re.M))]
    return found[0][1] if found else ""
