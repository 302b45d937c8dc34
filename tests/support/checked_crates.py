"""Crates with their edits, which the prover checks, and what it says of their functions."""

import re
import subprocess
import tempfile
import time
from dataclasses import dataclass, field
from pathlib import Path

from packages.rattle import all_below, words_of
from strip_bodies import without_bodies

TOP = Path(__file__).resolve().parents[2]
PARTS = ("src", "specs", "proofs")
# What begins an item of a source file.
ITEM = re.compile(r"^ *(?:pub(?:\([a-z]+\))? )?(?:(fn)|const|static|struct|enum|impl|trait|type|mod|use|[a-z_]+!) ?", re.M)


class BadEdit(Exception):
    """An edit that cannot be applied, or names no refusal."""


@dataclass
class Edit:
    """An edit: a text and what takes its place, with the file of both; and by function the goal that must fail."""

    path: Path
    changes: list = field(default_factory=list)
    refused: dict = field(default_factory=dict)

    @property
    def name(self):
        return f"{self.path.parent.parent.name}/{self.path.name}"

    @classmethod
    def read(cls, path):
        edit, file, old = cls(path), None, None
        for line in path.read_text(encoding="utf-8").splitlines():
            word, _, rest = line.partition(":")
            text = rest.removeprefix(" ")
            if word == "file":
                file = text.strip()
            elif word == "old":
                old = text
            elif word == "new":
                edit.changes.append((file, old, text))
            elif word == "# refused":
                function, _, goal = text.strip().partition(" ")
                edit.refused[function] = goal
        return edit

    def applied_to(self, texts):
        """Returns the texts with this edit, or none if a text that it changes is not there exactly once."""
        texts = dict(texts)
        for file, old, new in self.changes:
            if texts.get(file, "").count(old) != 1:
                return None
            texts[file] = texts[file].replace(old, new)
        return texts

    def is_of_functions(self, texts):
        before = [texts[file].partition(old)[0] + old for file, old, _ in self.changes]
        items = [[*ITEM.finditer(it)] for it in before]
        return all(it and it[-1][1] for it in items)


@dataclass
class Told:
    """What a check tells: the goals that fail, by function, and what is not proved only because of what it calls."""

    goals: dict
    waiting: set
    text: str

    def verdict_of(self, function):
        """Returns what the prover says of a function, or where it stopped before it reached any."""
        said = [it for it in self.text.splitlines() if re.match(rf"fn \w+::{re.escape(function)}: ", it)]
        return (said or self.text.splitlines()[-1:] or ["nothing was said"])[-1][:300]


class Crate:
    """A crate with edits, with the words by which `rattle` checks it over the libraries that are built below it."""

    def __init__(self, name, uses, built, kit):
        self.name, self.folder = name, TOP / "crates" / name
        self.edits = [Edit.read(it) for it in sorted(self.folder.glob("must-fail/*.edit"))]
        self.below = [it for it in all_below(name, uses) if it in uses]
        self.words = [str(kit / "bin/rattle"), "check", *words_of(name, uses, built, kit)]

    def is_ready(self, told):
        """Waits until `rt ci`, which prints to this file, says that the crates below are proved, or `run-tests` that it has ended."""
        while True:
            text = told.read_text(encoding="utf-8", errors="replace")
            if {*self.below} <= {*re.findall(r"^rt: (\w+) (?:proved$|is kept: )", text, re.M)}:
                return True
            if text.endswith("rt ci has ended\n"):
                return False
            time.sleep(1)

    def texts(self):
        files = [it for part in PARTS for it in (self.folder / part).rglob("*") if it.is_file()]
        return {str(it.relative_to(self.folder)): it.read_text(encoding="utf-8") for it in files}

    def check(self, texts, functions, kept):
        """Checks these functions of a copy of the crate with these texts, and keeps what it has checked in a folder."""
        with tempfile.TemporaryDirectory(prefix="edits-") as copy:
            for file, text in without_bodies(texts, functions, self.name).items():
                path = Path(copy, file)
                path.parent.mkdir(parents=True, exist_ok=True)
                path.write_text(text, encoding="utf-8")
            only = [word for it in sorted(functions) for word in ("--only", it)]
            words = [*self.words, "--allow-holes", "--incremental", kept, *only]
            how = {"stdin": subprocess.DEVNULL, "stdout": subprocess.PIPE, "stderr": subprocess.STDOUT}
            ran = subprocess.run(words, cwd=copy, text=True, errors="replace", **how)
        return self.told(ran.stdout)

    def told(self, text):
        """Reads what a check prints of the functions that it does not prove."""
        goals, waiting, open_goals, functions = {}, set(), [], {*re.findall(rf"^fn {self.name}::(\S+): ", text, re.M)}

        def add(function, goal):
            module, is_cycle, cycle = function.partition("+")
            if is_cycle:
                # functions that call one another have their goals in one place
                member, _, rest = goal.partition("-")
                function, goal = (module + member, rest) if module + member in functions else (module + cycle, goal)
            goals.setdefault(function, set()).add(goal)

        for line in text.splitlines():
            # a goal that a proof file answers wrongly, and not one that names what is no longer there
            at = re.match(r"(?:\./)?proofs/(\S+)/\w+\.antt:\d+:\d+: error: `([^`]+)`: (.*)", line)
            if at and not re.search(r"is not in scope|has no field|has no `|was not admitted", at[3]):
                add(at[1].replace("/", "::"), at[2])
            # a goal that no proof file answers, and that is not found by search
            at = re.match(r"note: src/\S+:\d+:\d+: it is not proved that .*\(`([^`]+)`\)", line)
            if at:
                open_goals.append(at[1])
            at = re.match(rf"fn {self.name}::(\S+): ", line)
            if at:
                for goal in open_goals:
                    add(at[1], goal)
                open_goals = []
            at = re.match(rf"fn {self.name}::(\S+): (?:not proved|no proof).*\bit calls\b", line)
            if at:
                waiting.add(at[1])
        return Told(goals, waiting - {*goals}, text)
