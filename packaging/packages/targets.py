"""The machines that cms-canon is released for: Linux, on processors of 64 bits. `python3 targets.py` prints the name of each."""

from typing import Dict, NamedTuple


class Target(NamedTuple):
    """The names that tools have for these machines, and the folders in which files are installed on them."""

    triple: str
    """As LLVM, Rust and Rattle name them."""
    emulation: str
    """As linkers name them."""
    binutils: str
    """The prefix of the names of the GNU tools for them."""
    debian: str
    """The architecture of packages for Debian."""
    libraries: str
    """The folder of libraries in Debian."""
    processor: str
    """The package of Debian that refuses processors older than those that the compiler writes for, after `, `; or nothing."""
    wheel: str
    """The platform in the name of a wheel. Its glibc is the oldest that such names have for all platforms; the library needs no newer one."""
    jna: str
    """The folder of a jar in which JNA looks for a library."""


TARGETS: Dict[str, Target] = {  # by the folder below dist/: what `uname -m` prints, and `-linux`
    "x86_64-linux": Target(
        triple="x86_64-unknown-linux-gnu",
        emulation="elf_x86_64",
        binutils="",
        debian="amd64",
        libraries="x86_64-linux-gnu",
        processor=", sse4.2-support",  # x86-64-v2
        wheel="manylinux_2_17_x86_64",
        jna="linux-x86-64",
    ),
    "aarch64-linux": Target(
        triple="aarch64-unknown-linux-gnu",
        emulation="aarch64linux",
        binutils="aarch64-linux-gnu-",
        debian="arm64",
        libraries="aarch64-linux-gnu",
        processor="",
        wheel="manylinux_2_17_aarch64",
        jna="linux-aarch64",
    ),
}
NATIVE = "x86_64-linux"
"""The one for which `rt` proves and builds. The others are checked and compiled by scripts/cross over what it has proved."""


if __name__ == "__main__":
    print(*TARGETS, sep="\n")
