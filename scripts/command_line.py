"""What repeats the commands and options of docs/texts/commands.toml: help, the completions of shells, the synopsis of the manual page, and a table."""

import re
import tomllib
from pathlib import Path
from typing import Callable, Dict, Iterable, Iterator, List, NamedTuple, Sequence

from texts import Region, filled

TOP = Path(__file__).resolve().parent.parent
SOURCE = "docs/texts/commands.toml"
OPTION = re.compile(r"--([a-z-]+)")


class Command(NamedTuple):
    """A command: its name, its usage, and what it does in one line."""

    name: str
    usage: str
    about: str

    @property
    def options(self) -> List[str]:
        """The names of its options, as its usage has them."""
        return OPTION.findall(self.usage)

    def excludes(self, option: str) -> List[str]:
        """Returns the options that cannot be given beside this one: those in the same brackets."""
        choices = [OPTION.findall(it) for it in re.findall(r"\[([^]]*)\]", self.usage)]
        return [other for some in choices if option in some for other in some if other != option]

    def takes_value(self, option: str) -> bool:
        return re.search(rf"--{option} [A-Z]", self.usage) is not None


def commands_in(tables: Dict[str, object]) -> List[Command]:
    """Returns the commands. Raises `SystemExit` if an option has no text, or a text no command."""
    commands = [Command(**it) for it in tables["command"]]
    named = {it for command in commands for it in command.options}
    if wrong := named ^ tables["options"].keys():
        raise SystemExit(f"{SOURCE}: {', '.join(sorted(wrong))}: an option without a text, or a text without a command that has it")
    return commands


TABLES = tomllib.loads((TOP / SOURCE).read_text())
COMMANDS = commands_in(TABLES)
OPTIONS: Dict[str, str] = TABLES["options"]
NAMES = " ".join(it.name for it in COMMANDS)


def lowered(text: str) -> str:
    return text[0].lower() + text[1:]


# ---- completions


def bash() -> Iterator[str]:
    yield "# shellcheck shell=bash"
    yield f"# Completes the words of cms-canon in bash. scripts/generate writes this file from {SOURCE}."
    yield ""
    yield "_cms_canon() {"
    yield "    local word=${COMP_WORDS[COMP_CWORD]} words=''"
    yield "    case ${COMP_WORDS[COMP_CWORD - 1]} in"
    yield "        '<' | '>' | '>>') compopt -o default; return ;;"
    with_value = sorted({f"--{option}" for it in COMMANDS for option in it.options if it.takes_value(option)})
    yield f"        {' | '.join(with_value)}) return ;;"
    yield "    esac"
    yield "    case $COMP_CWORD:${COMP_WORDS[1]}:$word in"
    yield f"        1:*) words='{NAMES} help --help --version' ;;"
    yield f"        2:help:*) words='{NAMES}' ;;"
    for it in COMMANDS:
        words = " ".join(f"--{option}" for option in [*it.options, "help"])
        # A command that cannot do without an option has it offered at once.
        yield f"        *:{it.name}:{'' if any(map(it.takes_value, it.options)) else '-'}*) words='{words}' ;;"
    yield "    esac"
    yield '    mapfile -t COMPREPLY < <(compgen -W "$words" -- "$word")'
    yield "}"
    yield ""
    yield "complete -F _cms_canon cms-canon"


def fish() -> Iterator[str]:
    yield f"# Completes the words of cms-canon in fish. scripts/generate writes this file from {SOURCE}."
    yield ""
    yield "complete -c cms-canon -f"
    for it in COMMANDS:
        yield f"complete -c cms-canon -n __fish_use_subcommand -a {it.name} -d '{it.about}'"
    yield "complete -c cms-canon -n __fish_use_subcommand -a help -d 'Print help for a command'"
    asked = f"'__fish_seen_subcommand_from help; and not __fish_seen_subcommand_from {NAMES}'"
    yield f"complete -c cms-canon -n {asked} -a '{NAMES}'"
    yield "complete -c cms-canon -n __fish_use_subcommand -l version -d 'Print the version'"
    for option, about in OPTIONS.items():
        having = [it for it in COMMANDS if option in it.options]
        seen = f"'__fish_seen_subcommand_from {' '.join(it.name for it in having)}'"
        yield f"complete -c cms-canon -n {seen}{' -x' if having[0].takes_value(option) else ''} -l {option} -d '{about}'"
    yield "complete -c cms-canon -l help -d 'Print help'"


def zsh_option(command: Command, option: str) -> str:
    """Returns an option as `_arguments` has it."""
    others = " ".join(f"--{it}" for it in command.excludes(option))
    return f"'{f'({others})' if others else ''}--{option}[{lowered(OPTIONS[option])}]{':number' if command.takes_value(option) else ''}'"


def zsh_case(command: Command) -> Iterator[str]:
    """Yields what completes the words after a command: after a hyphen, or at once if it cannot do without an option, or offers a choice."""
    yield f"            {command.name})"
    needs = any(command.takes_value(it) or command.excludes(it) for it in command.options)
    if not needs:
        yield "                [[ $PREFIX == -* ]] &&"
    words = ["$help", *(zsh_option(command, it) for it in command.options)]
    indent = " " * (16 if needs else 20)
    yield f"{indent}_arguments " + f" \\\n{indent}    ".join(words)
    yield "                ;;"


def zsh() -> Iterator[str]:
    yield "#compdef cms-canon"
    yield f"# Completes the words of cms-canon in zsh. scripts/generate writes this file from {SOURCE}."
    yield ""
    yield "local context state state_descr line"
    yield "typeset -A opt_args"
    yield "local -a commands=("
    yield from (f"    '{it.name}:{lowered(it.about)}'" for it in COMMANDS)
    yield "    'help:print help for a command'"
    yield ")"
    yield "local help='(- *)--help[print help]'"
    yield ""
    yield "_arguments -C $help '(- *)--version[print the version]' '1:command:->command' '*::word:->word' && return"
    yield ""
    yield "case $state in"
    yield "    command) _describe command commands ;;"
    yield "    word)"
    yield "        case $words[1] in"
    yield f"            help) (( CURRENT == 2 )) && _values command {NAMES} ;;"
    for it in COMMANDS:
        yield from zsh_case(it)
    yield "        esac"
    yield "        ;;"
    yield "esac"


# ---- help, the manual page and the table


def help_of(command: Command) -> Callable[[], Iterable[str]]:
    return lambda: (f'    usage: "{command.usage}",', f'    about: "{command.about}",')


def help_of_options() -> Iterator[str]:
    for name, about in OPTIONS.items():
        yield from (f'pub(crate) const {name.upper()}: &str = "{about}";', "")


def escaped(word: str) -> str:
    return word.replace("--", r"\-\-")


def synopsis_of(usage: str) -> Iterator[str]:
    """Yields a usage as the manual page has it: what is typed is bold, and what is given is in italics."""
    for part in re.findall(r"\[[^]]*\]|[A-Z]+(?: [A-Z]+)*|[<>](?= )|[^[A-Z<>]+(?= |$)", usage):
        if part[0] == "[":
            yield ".RB [ " + ' " | " '.join(escaped(part[1:-1]).split(" | ")) + " ]"
        elif part in "<>":
            yield part
        else:
            yield f".I {part.lower() if len(part) > 1 else part}" if part[0].isupper() else f".B {escaped(part.strip())}"


def synopsis() -> Iterator[str]:
    for it in COMMANDS:
        yield from synopsis_of(it.usage)
        yield ".br"


def table() -> Iterator[str]:
    yield from ("", "| command | what it does |", "|---|---|")
    for it in COMMANDS:
        yield f"| `{it.usage}` | {it.about} |".replace("[--content | --data]", r"[--content \| --data]").replace("SECOND |", r"SECOND \|")
    yield ""


HELP = "crates/cms_cli/src/texts.rt"
BY = f"scripts/generate writes this from {SOURCE}"
WHOLE: Dict[str, Callable[[], Iterable[str]]] = {
    "packaging/completions/cms-canon.bash": bash,
    "packaging/completions/cms-canon.fish": fish,
    "packaging/completions/_cms-canon": zsh,
}
REGIONS: Sequence[Region] = (
    Region("docs/man/cms-canon.1", f'.\\" commands: {BY}', '.\\" the end of commands', synopsis),
    Region("docs/USING.md", f"<!-- commands: {BY} -->", "<!-- the end of commands -->", table),
)
IN_HELP: Sequence[Region] = (
    Region(HELP, f"// {BY}.", "// The end of the options.", help_of_options),
    *(Region(HELP, f"pub(crate) const {it.name.upper()}: Help = Help {{", '    more: "\\', help_of(it)) for it in COMMANDS),
)


def files() -> Dict[str, str]:
    """Returns the texts of all files that repeat the commands, by their names."""
    texts = {name: "".join(f"{it}\n" for it in lines()) for name, lines in WHOLE.items()}
    for region in (*REGIONS, *IN_HELP):
        texts[region.file] = filled(texts.get(region.file) or (TOP / region.file).read_text(), region)
    return texts
