"""Reads definitions in antt: those of this repository, and those of the kit that they rest on.

A module is a file of `specs/`, or one of the kit. `Library` finds what a name in a module means.
"""

import re
import sys
from dataclasses import dataclass, field
from functools import cached_property
from pathlib import Path
from shutil import which
from typing import Dict, Iterator, List, Optional, Set, Tuple, Union

TOP = Path(__file__).resolve().parent.parent

# A name is any run of characters but these. `h.value` is one word here, and so is `.0` after a bracket.
CHARACTER = r'[^\s(){}.;,@"«»]'
TOKEN = re.compile(rf'--[^\n]*|\{{-.*?-\}}|"[^"\n]*"|«[^»]*»|(?:{CHARACTER}+|(?=\.{CHARACTER}))(?:\.{CHARACTER}+)*|\S', re.S)
NUMBER = re.compile(r"0x[0-9a-fA-F_]+|0b[01_]+|[0-9][0-9_]*")
MODIFIERS = ("abbrev", "unfoldable", "pub", "pattern")
RESERVED = {*"data record where use mod module mutual as unfolding elim let in infix infixl infixr".split(), *MODIFIERS}
RESERVED |= {*"λ Type _ → × = : | [ ] ↦ ⊔ .. ; , .".split()}
# What antt itself has.
BUILT_IN = {*"tt Unit absurd ⊥ ¬ 𝕀".split()}

Tree = List[Union[str, "Group"]]
Key = Tuple[str, str]


@dataclass
class Group:
    """What is in brackets."""

    bracket: str
    inside: Tree


def tokens(text: str) -> List[str]:
    """Returns the words and brackets of a text, without its comments."""
    return [it for it in TOKEN.findall(text) if not it.startswith(("--", "{-"))]


def tree(text: str) -> Tree:
    """Returns the words of a text, with what is in brackets as groups."""
    levels: List[Tree] = [[]]
    for word in tokens(text):
        if word in ("(", "{"):
            levels[-1].append(Group(word, []))
            levels.append([])
        elif word in (")", "}"):
            inside = levels.pop()
            group = levels[-1][-1]
            assert isinstance(group, Group)
            group.inside = inside
        else:
            levels[-1].append(word)
    return levels[0]


def words_in(nodes: Tree) -> Iterator[str]:
    """Yields each word of a tree, inside brackets too."""
    for node in nodes:
        if isinstance(node, Group):
            yield from words_in(node.inside)
        else:
            yield node


def telescope(nodes: Tree) -> Iterator[str]:
    """Yields the names that λs, types with names, and `let` bind in a tree."""
    for at, node in enumerate(nodes):
        if isinstance(node, Group):
            before = node.inside[: node.inside.index(":")] if ":" in node.inside else []
            yield from (it for it in before if isinstance(it, str))
            yield from telescope(node.inside)
        elif node == "λ":
            yield from words_in(nodes[at + 1 : nodes.index(".", at)])
        elif node == "let":
            yield from words_in(nodes[at + 1 : at + 2])


def bound_by(part: Tree) -> int:
    """Returns how many arguments a part of a type is, but for implicit ones: `(a b : T)` is two, and a type one."""
    groups = [it for it in part if isinstance(it, Group) and ":" in it.inside]
    if part and len(groups) < len(part):
        return 1
    return sum(it.inside.index(":") for it in groups if it.bracket == "(")


@dataclass
class Clause:
    """A clause of a definition: the patterns on its left, and what is on its right."""

    patterns: Tree
    body: Tree


@dataclass(eq=False)
class Definition:
    """A definition, with what is above it: comments and fixities, `above` lines of them. `around` is the line `mutual`, or that of the
    module with parameters, that it is in."""

    module: str
    name: str
    file: Path
    lines: List[str]
    above: int
    around: str

    @property
    def key(self) -> Key:
        return self.module, self.name

    @property
    def words(self) -> List[str]:
        """The words of its first line but for modifiers."""
        return [it for it in tokens(self.lines[self.above]) if it not in MODIFIERS]

    @property
    def is_data(self) -> bool:
        return self.words[0] == "data"

    @property
    def is_type(self) -> bool:
        return self.words[0] in ("data", "record")

    @property
    def is_ours(self) -> bool:
        return TOP in self.file.parents

    def starts(self) -> List[int]:
        """Returns the lines at which its clauses begin, those above it not counted: a record or a data type has none."""
        lines = self.lines[self.above :]
        indent = len(lines[0]) - len(lines[0].lstrip())
        found = [it for it in range(1, len(lines)) if re.match(rf" {{{indent}}}(?!--)[^\s)}}]", lines[it])]
        return [] if self.is_type else found

    def signature(self) -> Tree:
        first, *_ = [*self.starts(), None]
        return tree("\n".join([self.around, *self.lines[self.above :][:first]]))

    def arguments(self) -> int:
        """Returns how many arguments its type says that it takes, but for implicit ones: a spelling takes two, octets and a value."""
        head = tree("\n".join(self.lines[self.above :][: ([*self.starts(), None])[0]]))
        head = head[: head.index("where")] if "where" in head else head
        at = head.index(":")
        ends = [at, *(place for place, it in enumerate(head) if it == "→" and place > at)]
        parts = [head[a + 1 : b] for a, b in zip(ends, ends[1:])]
        of_result = 2 if head[ends[-1] + 1 :][:1] == ["Spelling"] else 0
        return of_result + sum(map(bound_by, [[it for it in head[:at] if isinstance(it, Group)], *parts]))

    def clauses(self) -> List[Clause]:
        starts = self.starts()
        lines = self.lines[self.above :]
        texts = ["\n".join(lines[a:b]) for a, b in zip(starts, [*starts[1:], len(lines)])]
        return [Clause(it[: it.index("=")], it[it.index("=") + 1 :]) for it in map(tree, texts)]

    def members(self) -> List[str]:
        """Returns the fields of a record, or the constructors of a data type."""
        lines = self.lines[self.above + 1 :] if self.is_type else []
        found = [re.match(rf"\s*(?:pub )?((?:{CHARACTER}+ )+):(?: |$)", it) for it in lines]
        return [name for it in found if it for name in it[1].split()]


@dataclass
class Module:
    """What the names in a file mean: `uses` has the module and the name there of each name that it imports."""

    name: str
    uses: Dict[str, Key] = field(default_factory=dict)
    aliases: Dict[str, str] = field(default_factory=dict)
    definitions: Dict[str, Definition] = field(default_factory=dict)
    constructors: Dict[str, Definition] = field(default_factory=dict)

    @cached_property
    def names(self) -> Dict[str, List[str]]:
        """What each word may stand for: a name, or an operator of which it is a part."""
        names: Dict[str, List[str]] = {}
        for name in {**self.uses, **self.definitions, **self.constructors}:
            for part in {name, *filter(None, name.split("◌"))}:
                names.setdefault(part, []).append(name)
        return names


def defined_by(line: str) -> Optional[str]:
    """Returns the name that a line begins to define, if it does."""
    words = tokens(line)
    plain = [it for it in words if it not in MODIFIERS]
    if plain and plain[0] in ("data", "record"):
        return plain[1]
    if len(plain) < 2 or plain[0] in RESERVED or (plain == words and line.startswith(" ")):
        return None
    rest = plain[plain.index("}") + 1 :] if plain[1] == "{" and "}" in plain else plain[1:]
    return plain[0] if rest and rest[0] == ":" else None


def beginnings(lines: List[str]) -> Iterator[Tuple[int, str, str]]:
    """Yields each line at which a definition begins: its index, the name, and the line `mutual` or that of the module around it."""
    opened = ""
    for at, line in enumerate(lines):
        if re.match(r"\S", line) and not line.startswith("--"):
            opened = line if re.match(r"mutual$|module _ ", line) else ""
        if re.match(r"  \S" if opened else r"\S", line) and (name := defined_by(line)):
            yield at, name, opened


def definitions_of(module: str, file: Path) -> Iterator[Definition]:
    """Yields the definitions of a file in their order."""
    lines = file.read_text().splitlines()
    found = [*beginnings(lines)]
    ends = [at for at, *_ in found[1:]] + [len(lines)]
    for (at, name, around), end in zip(found, ends):
        first = at
        while first and re.match(r"\s*(--|infix)", lines[first - 1]):
            first -= 1
        while end > at + 1 and re.match(r"\s*(--.*|infix.*|(\w+ )*use .*|mutual|module .*)?$", lines[end - 1]):
            end -= 1
        yield Definition(module, name, file, lines[first:end], at - first, around)


def note_imports(module: Module, text: str) -> None:
    """Notes what a file of antt, or of Rattle, uses."""
    use = r"^(?:unfoldable )?(pub )?(?:ghost )?use "
    for _, path, names in re.findall(use + r"([^\s{;]+)\.\{([^}]*)\}", text, re.M):
        for item in filter(None, (it.strip() for it in names.split(","))):
            name, _, other = item.partition(" as ")
            module.uses[other or name] = (path, name)
    for is_pub, path, name in re.findall(use + r"([^\s{;]+)(?: as ([^\s;]+))?;?$", text, re.M):
        module.aliases[name or path.rsplit(".", 1)[-1]] = path


class Library:
    """The modules of this repository and of the kit."""

    def __init__(self) -> None:
        rt = which("rt") or sys.exit("rt is not on the PATH: the definitions rest on some of the kit")
        self.kit = Path(rt).resolve().parent.parent / "rattle"
        self.modules: Dict[str, Optional[Module]] = {}

    def file_of(self, name: str) -> Optional[Path]:
        """Returns the file of a module, if it has one: what is declared in code has none."""
        first, *below = name.split(".")
        folders = {"mathlib": "antt/port/mathlib/src", "lib": "logic/Lib", "denote": "logic/Denote"}
        base = self.kit / folders.get(first, "none")
        if first == "Rattle":
            crate, specs, *below = below
            base = (TOP / "crates" if (TOP / "crates" / crate).exists() else self.kit) / crate / specs
        file = base.joinpath(*below or ["Lib"]).with_suffix(".antt")
        return file if file.exists() else None

    def module(self, name: str) -> Optional[Module]:
        if name not in self.modules:
            self.modules[name] = self.read(name)
        return self.modules[name]

    def read(self, name: str) -> Optional[Module]:
        file = self.file_of(name)
        if file is None:
            return self.passed_on(name)
        module = Module(name)
        note_imports(module, file.read_text())
        for it in definitions_of(name, file):
            module.definitions[it.name] = it
            module.constructors.update({member: it for member in it.members() if it.is_data})
        return module

    def passed_on(self, name: str) -> Optional[Module]:
        """Returns the module that the `Lib.antt` of its crate passes on under this name."""
        parts = name.split(".")
        if parts[0] != "Rattle" or len(parts) < 4 or parts[3] == "declared":
            return None
        above = self.module(".".join(parts[:3]))
        path = above.aliases.get(parts[3]) if above else None
        return self.module(".".join([path, *parts[4:]])) if path else None

    def find(self, module: str, name: str) -> Union[Definition, str]:
        """Returns what a module has under a name: a definition; or, if it is declared in code or built in, its full name."""
        while found := self.module(module):
            if it := found.definitions.get(name) or found.constructors.get(name):
                return it
            if name not in found.uses:
                break
            module, name = found.uses[name]
        return f"{module}.{name}"

    def meanings(self, module: Module, word: str) -> List[Union[Definition, str]]:
        """Returns what a word may mean in a module: nothing if it is bound there, or a field."""
        first, *rest = word.split(".")
        if first in module.aliases and rest:
            return [self.find(module.aliases[first], rest[0])]
        return [self.find(*module.uses.get(it, (module.name, it))) for it in module.names.get(first, [])]
