"""Manual pages and completions of a program, made of its help texts."""

import re
import typing

from shared.running import run, stop

PROGRAM = "forecourt"
# Which words of a usage are files, or folders.
PATHS = {"FILE", "FOLDER", "SCRIPT", "WHAT", "PATH"}


class Option(typing.NamedTuple):
    """An option or an argument: `--port`, `-h`; what it takes; what it is for."""

    names: list
    takes: str
    purpose: str


class Help(typing.NamedTuple):
    """The help of a command, or of the program, whose name is empty."""

    name: str
    purpose: str
    usage: str
    arguments: list
    options: list
    commands: dict
    behind: str


def read_helps(program):
    """The help of the program and of each of its commands, in its order."""
    whole = read_help(program, "")
    return [whole, *(read_help(program, name) for name in whole.commands if name != "help")]


def read_help(program, name):
    words = [name, "--help"] if name else ["--help"]
    shown = run(program, *words)
    if shown.status != 0:
        stop(f"`{PROGRAM} {' '.join(words)}` ended with status {shown.status}")
    parts = re.split(r"\n\n(?=\S)", shown.out.decode().strip())
    sections = {part.split(":", 1)[0]: part for part in parts[1:]}
    usage = sections.pop("Usage").split(":", 1)[1].strip()
    kinds = ("Arguments", "Options", "Commands")
    lists = {what: read_list(sections.pop(what, "")) for what in kinds}
    return Help(
        name,
        parts[0],
        usage,
        lists["Arguments"],
        lists["Options"],
        {one.names[0]: one.purpose for one in lists["Commands"]},
        "\n".join(sections.values()),
    )


def read_list(section):
    """The lines of a section, each with its purpose."""
    found = []
    for line in section.splitlines()[1:]:
        words = re.match(r" +(\S.*?)  +(\S.*)$", line)
        names, takes = [], ""
        for word in words[1].replace(",", " ").split():
            if word.startswith(("<", "[")):
                takes = word
            else:
                names.append(word)
        found.append(Option(names or [takes], takes, words[2]))
    return found


# ---- manual pages


def escape(text):
    """Text as a manual page writes it."""
    text = text.replace("\\", "\\e").replace("-", "\\-")
    return re.sub(r"^([.'])", r"\\&\1", text, flags=re.M)


def write_pages(helps):
    """The pages by their names: one for the program, and one for each command."""
    return {page_name(one): write_page(one) for one in helps}


def page_name(one):
    return f"{PROGRAM}-{one.name}" if one.name else PROGRAM


def write_page(one):
    lines = [f'.TH {page_name(one).upper()} 1 "" "Witsomar" "User Commands"']
    lines += [".SH NAME", f"{escape(page_name(one))} \\- {escape(one.purpose)}"]
    lines += [".SH SYNOPSIS", f".B {escape(one.usage)}"]
    for title, found in (("ARGUMENTS", one.arguments), ("OPTIONS", one.options)):
        if found:
            lines.append(f".SH {title}")
        for option in found:
            lines += [".TP", f".B {escape(describe(option))}", escape(option.purpose)]
    if one.commands:
        lines.append(".SH COMMANDS")
    for name, purpose in one.commands.items():
        lines += [".TP", f".B {escape(name)}", escape(purpose)]
    if one.behind:
        lines += [".SH EXAMPLES", escape(one.behind.split(":", 1)[1].strip())]
    lines += [".SH SEE ALSO", "Documents and examples stand in /usr/share/doc/forecourt."]
    return "\n".join(lines) + "\n"


def describe(option):
    names = ", ".join(option.names)
    return names if option.takes in ("", *option.names) else f"{names} {option.takes}"


# ---- completions


def long_names(one):
    return [name for option in one.options for name in option.names if name.startswith("--")]


def takes_path(one):
    """Does a command take a file or a folder?"""
    return any(option.takes.strip("<[]>.") in PATHS for option in one.arguments)


def write_bash(helps):
    whole, *commands = helps
    cases = "".join(
        f"        {one.name}) words='{' '.join(long_names(one))}' ;;\n" for one in commands
    )
    return f"""# Completions of {PROGRAM} for bash.
_{PROGRAM}() {{
    local current=${{COMP_WORDS[COMP_CWORD]}} words
    if ((COMP_CWORD == 1)) || [[ COMP_CWORD -eq 2 && ${{COMP_WORDS[1]}} == help ]]; then
        mapfile -t COMPREPLY < <(compgen -W '{" ".join(whole.commands)}' -- "$current")
        return
    fi
    case ${{COMP_WORDS[1]}} in
{cases}        *) words='' ;;
    esac
    if [[ $current == -* ]]; then
        mapfile -t COMPREPLY < <(compgen -W "$words" -- "$current")
    else
        compopt -o filenames
        mapfile -t COMPREPLY < <(compgen -f -- "$current")
    fi
}}
complete -F _{PROGRAM} {PROGRAM}
"""


def quote(text):
    """Text between single quotes of a shell."""
    return "'" + text.replace("'", "'\\''") + "'"


def write_zsh(helps):
    whole, *commands = helps
    said = "\n".join(
        f"        {quote(name + ':' + purpose)}" for name, purpose in whole.commands.items()
    )
    cases = "".join(
        f"        {one.name})\n{zsh_arguments(one)}            ;;\n" for one in commands
    )
    return f"""#compdef {PROGRAM}
# Completions of {PROGRAM} for zsh.
_{PROGRAM}() {{
    local -a commands=(
{said}
    )
    if ((CURRENT == 2)); then
        _describe command commands
        return
    fi
    local command=$words[2]
    if [[ $command == help ]]; then
        ((CURRENT == 3)) && _describe command commands
        return
    fi
    shift words
    ((CURRENT--))
    case $command in
{cases}    esac
}}
_{PROGRAM} "$@"
"""


def zsh_arguments(one):
    words = []
    for option in one.options:
        for name in option.names:
            purpose = re.sub(r"([\[\]:])", r"\\\1", option.purpose)
            takes = f":{option.takes.strip('<>').lower()}:" if option.takes else ""
            files = "_files" if option.takes.strip("<>") in PATHS else ""
            words.append(quote(f"{name}[{purpose}]{takes}{files if takes else ''}"))
    if takes_path(one):
        words.append(quote("*:file:_files"))
    return "            _arguments " + " \\\n                ".join(words) + "\n"


def write_fish(helps):
    whole, *commands = helps
    lines = [f"# Completions of {PROGRAM} for fish."]
    for name, purpose in whole.commands.items():
        lines.append(
            f"complete -c {PROGRAM} -f -n __fish_use_subcommand -a {name} -d {fish_quote(purpose)}"
        )
    names = " ".join(whole.commands)
    lines.append(f"complete -c {PROGRAM} -f -n '__fish_seen_subcommand_from help' -a '{names}'")
    for one in commands:
        for option in one.options:
            lines.append(fish_option(one.name, option))
    return "\n".join(lines) + "\n"


def fish_option(command, option):
    words = [f"complete -c {PROGRAM} -n '__fish_seen_subcommand_from {command}'"]
    for name in option.names:
        words.append(f"-l {name[2:]}" if name.startswith("--") else f"-s {name[1:]}")
    if option.takes:
        words.append("-r" if option.takes.strip("<>") in PATHS else "-x")
    return " ".join([*words, f"-d {fish_quote(option.purpose)}"])


def fish_quote(text):
    """Text between single quotes of fish."""
    return "'" + text.replace("\\", "\\\\").replace("'", "\\'") + "'"
