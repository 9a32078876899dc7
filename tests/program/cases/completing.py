"""The completion of commands in bash and zsh: each offers what the program takes, and completes no
login."""
import os
import pty
import re
import select
import shutil
import signal
import subprocess
import time

from ends import SECONDS, TOP

BASH = f"{TOP}/contrib/mailquota.bash"
# How the shells begin, with a command of the program's name that prints its words.
PRINTS = "mailquota() { printf '<%s>' \"$@\"; echo .; }"
BEGINS = {
    "bash": [f". {BASH}", "bind 'set bell-style none'", PRINTS],
    "zsh": [
        f"fpath=({TOP}/contrib $fpath)",
        "autoload -Uz compinit",
        "compinit -D -u",
        "setopt no_beep",
        PRINTS,
    ],
}
WORDS = {"bash": ["bash", "--norc", "--noprofile", "-i"], "zsh": ["zsh", "-f", "-i"]}
# What a shell that runs what it completes would make.
MADE = "made"
FILES = ["my file", f"$(touch {MADE})", "server.toml"]
# What is typed, where a tab completes, and the words that the program gets then.
TYPED = [
    ("mailquota repo\t", ["report"]),
    ("mailquota fo\t --bef\t 7 --in\t my\t", ["forget", "--before", "7", "--into", "my file"]),
    ("mailquota limits --con\t ser\t", ["limits", "--config", "server.toml"]),
    ("mailquota audit --config \\$\t", ["audit", "--config", f"$(touch {MADE})"]),
    ("mailquota audit --config=ser\t", ["audit", "--config=server.toml"]),
    ("mailquota stop --fo\t al\t", ["stop", "--force", "al"]),
    ("mailquota stop ser\t", ["stop", "ser"]),
    ("mailquota stop \\$\t", ["stop", "$"]),
    ("mailquota report --server ser\t", ["report", "--server", "ser"]),
    ("mailquota report -- --to\t", ["report", "--", "--to"]),
    ("mailquota repo\t --to\t 7 --login-t\t a", ["report", "--top", "7", "--login-text", "a"]),
]


def run(world, checks):
    what_bash_offers(world, checks)
    for shell in WORDS:
        as_typed(world, checks, shell)


def offered(*words):
    """What bash offers for the last of these words, and what it is told to do besides."""
    text = (
        f'compopt() {{ echo "compopt $*"; }}\n. {BASH}\nCOMP_WORDS=("$@")\nCOMP_CWORD=$(($# -'
        ' 1))\n_mailquota\nprintf "%s\\n" "${COMPREPLY[@]}"\n'
    )
    run = subprocess.run(
        ["bash", "-c", text, "bash", *words], capture_output=True, text=True, timeout=60
    )
    assert (run.returncode, run.stderr) == (0, ""), run
    return [it for it in run.stdout.splitlines() if it]


def options_of(world, *words):
    """The options that the program's help lists, with what stands for what each takes."""
    text = world.run(*words, "--help")[1].decode()
    return dict(re.findall(r"^ +(?:-\w, |    )--([\w-]+)(?: <(\w+)>)? ", text, re.MULTILINE))


def what_bash_offers(world, checks):
    """The commands that the program lists, and of each the options of its help; files where help
    has FILE, and nothing for any other value."""
    listed = world.run("--help")[1].decode().partition("Commands:\n")[2].partition("\n\n")[0]
    commands = re.findall(r"^  (\w+) ", listed, re.MULTILINE)
    checks.holds("the program's help has commands", len(commands) > 10, "over ten", commands)
    checks.equal(
        "bash offers the program's commands and options",
        sorted(offered("mailquota", "")),
        sorted([*commands, *(f"--{it}" for it in options_of(world))]),
    )
    for command in commands:
        options = options_of(world, command)
        checks.equal(
            f"bash offers the options of {command}",
            sorted(offered("mailquota", command, "-")),
            sorted(f"--{it}" for it in options),
        )
        checks.equal(
            f"bash offers no word of {command} that has no name",
            offered("mailquota", command, ""),
            [],
        )
        takes = {it: value for it, value in options.items() if value}
        for between in ([], ["="]):
            checks.equal(
                f"bash offers files for values of {command}, and nothing else{between}",
                {it: offered("mailquota", command, f"--{it}", *between, "x") for it in takes},
                {
                    it: ["compopt -o default"] if value == "FILE" else []
                    for it, value in takes.items()
                },
            )


def as_typed(world, checks, shell):
    """What people type at a terminal, with tabs. Names of files may be what a shell would run."""
    if not shutil.which(shell):
        checks.skip(f"what is typed at {shell}", f"{shell} isn't here")
        return
    folder = f"{world.folder}/{shell}"
    os.mkdir(folder)
    for it in FILES:
        open(f"{folder}/{it}", "wb").close()
    came = [words_of(shell, folder, typed) for typed, _ in TYPED]
    for (typed, words), found in zip(TYPED, came):
        checks.equal(f"{shell}, {typed!r}: the program's words", found, words)
    checks.equal(f"{shell}: nothing was run", sorted(os.listdir(folder)), sorted(FILES))


def words_of(shell, folder, typed):
    """The words that a command gets which is typed so, at a shell of its own."""
    environment = {**os.environ, "TERM": "dumb", "PS1": "> ", "HOME": folder, "HISTFILE": ""}
    process, terminal = pty.fork()
    if not process:
        try:
            os.chdir(folder)
            os.execvpe(shell, WORDS[shell], environment)
        finally:
            os._exit(127)
    try:
        for it in BEGINS[shell]:
            os.write(terminal, f"{it}\n".encode())
        os.write(terminal, b"echo rea''dy\n")
        until(terminal, rb"\nready\r")
        os.write(terminal, f"{typed}\n".encode())
        found = until(terminal, rb"((?:<[^<>]*>)+)\.\r")
        return re.findall(r"<([^<>]*)>", found.decode()) if found else None
    finally:
        os.close(terminal)
        os.kill(process, signal.SIGKILL)
        os.waitpid(process, 0)


def until(terminal, pattern):
    """Reads what a terminal shows until this is found in it, and gives that."""
    text, end = b"", time.monotonic() + SECONDS
    while time.monotonic() < end:
        if select.select([terminal], [], [], 0.05)[0]:
            try:
                text += os.read(terminal, 65_536)
            except OSError:
                break
        found = re.search(pattern, text)
        if found:
            return found[1] if found.groups() else found[0]
    return None
