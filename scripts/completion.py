#!/usr/bin/env python3
"""Writes the completion of the program's commands and options for bash and zsh, from its own table
of subcommands: contrib/mailquota.bash and contrib/_mailquota.

Commands, options and the names of files are completed, and nothing else. No logins: they are bytes
that anybody chose, and a shell would run them. tests/prose has that the files are as this writes
them.
"""
import os
import re
import sys

TOP = os.path.dirname(os.path.dirname(os.path.realpath(__file__)))
TABLE = "crates/mq_words/src/subcommands.rt"
BASH, ZSH = "contrib/mailquota.bash", "contrib/_mailquota"
# What stands for a file's name in the table.
FILE = "FILE"
# The options that clap adds: of each command, and of the program.
HELP, VERSION = ("help", "h", "Print help"), ("version", "V", "Print version")
HEAD = (
    "mailquota's commands, options and files. scripts/completion.py makes this of the program's"
    " table."
)


class Option:
    """An option of a command."""

    def __init__(self, text):
        self.name, self.value, self.help = (text_of(it, text) for it in ("name", "value", "help"))
        self.is_repeated = "takes: Takes::Texts," in text


class Command:
    """A subcommand with its options, of all that there are."""

    def __init__(self, text, options):
        self.name, self.about = text_of("name", text), text_of("about", text)
        its = re.search(r"\boptions: &\[(.*?)\]", text, re.S)[1]
        self.options = [options[it] for it in re.findall(r"\w+", its)]


def text_of(field, text):
    found = re.search(rf'\b{field}: "(.*?)",\n', text)
    return found[1] if found else ""


def commands_in(source):
    """The commands of the table, in its order."""
    known = {
        name: Option(text)
        for name, text in re.findall(
            r"^const (\w+): CommandOption = CommandOption \{\n(.*?)^\};", source, re.M | re.S
        )
    }
    rows = re.findall(r"^static \w+: Subcommand = Subcommand \{\n(.*?)^\};", source, re.M | re.S)
    return [Command(it, known) for it in rows]


def bash(commands):
    """The completion of bash. It needs none of bash-completion's functions, and completes no word
    by what stands in it but these names."""
    names = " ".join(it.name for it in commands)
    rows = "".join(
        f"    {it.name}) options='{' '.join(f'--{own.name}' for own in it.options)} --help' ;;\n"
        for it in commands
    )
    of_files, of_others = (taking(commands, it) for it in (True, False))
    return f"""# {HEAD}
_mailquota() {{
    local IFS=$' \\t\\n' options=
    local word=${{COMP_WORDS[COMP_CWORD]}} before=${{COMP_WORDS[COMP_CWORD - 1]}}
    COMPREPLY=()
    if [ "$COMP_CWORD" -eq 1 ]; then
        mapfile -t COMPREPLY < <(compgen -W '{names} --help --version' -- "$word")
        return
    fi
    # (bash takes --config=FILE for three words)
    if [ "$word" = = ]; then
        word=
    elif [ "$before" = = ]; then
        before=${{COMP_WORDS[COMP_CWORD - 2]}}
    fi
    case $before in
    {of_files})
        compopt -o default
        return
        ;;
    {of_others}) return ;;
    esac
    case ${{COMP_WORDS[1]}} in
{rows}    esac
    # (a word without a name is a login or a number, and so is each behind two hyphens)
    case " ${{COMP_WORDS[*]:1:COMP_CWORD-1}} " in
    *' -- '*) return ;;
    esac
    case $word in
    -*) mapfile -t COMPREPLY < <(compgen -W "$options" -- "$word") ;;
    esac
}}
complete -F _mailquota mailquota
"""


def taking(commands, files):
    """The options that take a file, or another value, as a pattern: one of a name does so in each
    command, or in none."""
    takes = {}
    for it in (option for command in commands for option in command.options):
        kind = it.value and it.value == FILE
        assert takes.setdefault(it.name, kind) == kind, it.name
    return " | ".join(f"--{name}" for name, kind in takes.items() if kind is files)


def zsh(commands):
    """The completion of zsh, with what each command and option is."""
    names = "".join(f"        {quoted(f'{it.name}:{it.about}')}\n" for it in commands)
    rows = "".join(
        f"    {it.name})\n        _arguments -S \\\n"
        + "".join(f"            {one} \\\n" for one in specifications(it))
        + f"            {help_of(HELP)}\n        ;;\n"
        for it in commands
    )
    return f"""#compdef mailquota
# {HEAD}
_mailquota() {{
    local context state state_descr line curcontext=$curcontext
    typeset -A opt_args
    local -a commands=(
{names}    )
    _arguments -C -S \\
        {help_of(HELP)} \\
        {help_of(VERSION)} \\
        '1:command:->command' \\
        '*::word:->words'
    if [[ $state = command ]]; then
        _describe command commands
        return
    fi
    case $line[1] in
{rows}    esac
}}
_mailquota "$@"
"""


def specifications(command):
    """What _arguments is told of a command's options."""
    for it in command.options:
        often, takes = "*" * it.is_repeated, ""
        if it.value:
            takes = f"=:{it.value}:{'_files' if it.value == FILE else ' '}"
        name, sign, rest = f"{often}--{it.name}", takes[:1], takes[1:]
        yield quoted(f"{name}{sign}[{escaped(it.help)}]{rest}")


def help_of(option):
    name, letter, about = option
    return f"'(- *)'{{-{letter},--{name}}}'[{about}]'"


def escaped(text):
    return re.sub(r"[\\\[\]:]", r"\\\g<0>", text)


def quoted(text):
    """One word of a shell."""
    return "'" + text.replace("'", "'\\''") + "'"


def made(source):
    """The files, by their names, that stand for this table."""
    commands = commands_in(source)
    return {BASH: bash(commands), ZSH: zsh(commands)}


def main():
    with open(f"{TOP}/{TABLE}", encoding="utf-8") as file:
        texts = made(file.read())
    for name, text in texts.items():
        with open(f"{TOP}/{name}", "w", encoding="utf-8") as file:
            file.write(text)
        print(f"made {name}")
    return 0


if __name__ == "__main__":
    sys.exit(main())
