"""How `rattle` is asked to check or to build a crate of this repository, over the libraries that were proved in a copy of it."""

import os
import re
import subprocess
from pathlib import Path
from typing import Dict, List, Sequence


class NotProved(Exception):
    """A crate is not proved, or not compiled. The text says why."""


def all_below(name: str, uses: Dict[str, List[str]]) -> List[str]:
    """Returns the crates that a crate depends on, of this repository and of the kit, by what each uses."""
    found: List[str] = []
    for it in uses.get(name, []):
        found += [it, *all_below(it, uses)]
    return list(dict.fromkeys(found))


def words_of(name: str, uses: Dict[str, List[str]], built: Path, kit: Path) -> List[str]:
    """Returns the words that name a crate, in its own folder, and what it is built over."""
    is_program = (built / "crates" / name / "src" / "main.rt").is_file()
    words = ["--crate-name", name, "src/main.rt" if is_program else "src/lib.rt"]
    for it in ["std", *(it for it in uses[name] if it not in uses)]:
        words += ["--extern", f"{it}={kit}/rlibs/{it}.rlib"]
    words += ["-L", f"dependency={kit}/rlibs"]
    for it in uses[name]:
        if it in uses:
            words += ["--extern", f"{it}={built}/crates/{it}/out/rlib/{it}.rlib"]
    for it in all_below(name, uses):
        if it in uses:
            words += ["-L", f"dependency={built}/crates/{it}/out/rlib"]
    return [*words, "--antt-project", f"{kit}/rattle/logic/antt-project.json", "--logic-built", f"{kit}/logic_built"]


def proved(command: str, name: str, uses: Dict[str, List[str]], built: Path, kit: Path, target: str, more: Sequence[object]) -> str:
    """Has a program or a static library checked from nothing for a target, and built if the command is `build`. Returns the verdict. Raises NotProved
    if it is another one than that all is proved."""
    words = [command, *words_of(name, uses, built, kit), "--links", f"{name}=", "--target", target, "--jobs", str(len(os.sched_getaffinity(0)))]
    words += [] if "src/main.rt" in words else ["--crate-type", "staticlib"]
    how = {"cwd": built / "crates" / name, "stdin": subprocess.DEVNULL, "stdout": subprocess.PIPE, "stderr": subprocess.STDOUT}
    ended = subprocess.run([str(kit / "bin" / "rattle"), *words, *map(str, more)], encoding="utf-8", errors="replace", check=False, **how)
    verdicts = [it for it in ended.stdout.splitlines() if it.startswith("logic=")]
    # As `rt` wants them: a word that is not among these may say what the verdict leaves out.
    wanted = (rf"logic=proved functions=\d+ axioms=\d+ target={target}( main=\S+)? sum=\w+ native=nat,char,string logic-built=trusted "
              "libraries-built=trusted statements=trusted")
    if ended.returncode != 0 or len(verdicts) != 1 or not re.fullmatch(wanted, verdicts[0]):
        raise NotProved(f"{name} is not proved for {target}, status {ended.returncode}, {verdicts}:\n{ended.stdout[-2000:]}")
    return verdicts[0]
