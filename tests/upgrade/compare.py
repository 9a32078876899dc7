"""What the programs of two releases print over the same ledger, and answer smtpd.

Standard output into a pipe and the status stay, as docs/STABLE.md has it; what is said on standard
error may change.
"""
import contextlib
import shutil
import subprocess

from acts import WORK, holds
from host import wait_for
from switch import exchange

PORT = 7025
ADDRESS = f"127.0.0.1:{PORT}"
# It is one folder for all, since `status --config` prints it.
FOLDER = WORK / "compared"
SETTINGS, FILTER = FOLDER / "server.toml", FOLDER / "filter.toml"
CONFIG = ["--config", SETTINGS]
LEDGER = ["ledger", "ledger-wal"]
# What failed may be done by a later release: `resume`, where nobody is stopped.
DONE_SINCE, FAILED = {"resume"}, (1, "")
BY_RULE = f"""listen = "{ADDRESS}"
store = "{FOLDER}/ledger"
rule = "CET-1CEST,M3.5.0,M10.5.0/3"
default = 7
"""
IN_MEMORY = f'listen = "{ADDRESS}"\nstore = "memory"\ndefault = 3\noffset = 0\n'
FILTER_SETTINGS = f'host = "mx1.example.org"\nserver = "{ADDRESS}"\n'


def programs_of(packages):
    """The program of each package."""
    found = {}
    for name, package in packages.items():
        folder = WORK / f"files-{name}"
        subprocess.run(["dpkg-deb", "--extract", package, folder], check=True)
        found[name] = folder / "usr/sbin/mailquota"
    return found


def come(program, *words, given=b""):
    """The status of a command, and what it prints."""
    ran = subprocess.run(
        [program, *map(str, words)],
        input=given,
        stdout=subprocess.PIPE,
        stderr=subprocess.DEVNULL,
        timeout=120,
    )
    return ran.returncode, ran.stdout.decode(errors="replace")


@contextlib.contextmanager
def serving(program):
    process = subprocess.Popen(
        [program, "server", "--config", SETTINGS, "--endless"],
        stdin=subprocess.DEVNULL,
        stdout=subprocess.DEVNULL,
        stderr=subprocess.DEVNULL,
    )
    try:
        wait_for(PORT, seconds=60)
        yield
    finally:
        process.terminate()
        process.wait(timeout=30)


def over_a_file(today):
    """Commands that read a ledger's file, or make another."""
    now = 86_400 * today + 43_200
    return [
        ["status", *CONFIG],
        ["limits", *CONFIG],
        ["audit", *CONFIG],
        ["init", *CONFIG],
        ["day", *CONFIG],
        ["day", *CONFIG, "--at", now],
        ["forget", *CONFIG, "--before", today, "--into", FOLDER / "today"],
        ["forget", *CONFIG, "--before", today + 100, "--into", FOLDER / "none"],
        # (it is there by then)
        ["forget", *CONFIG, "--before", today, "--into", FOLDER / "today"],
    ]


def over_a_server(today):
    """Commands that ask a server, in the forms that README and the manual have."""
    ask = ["--server", ADDRESS]
    reports = [
        ["report", *CONFIG],
        ["report", *ask, "--day", today],
        ["report", *ask, "--day", today - 1],
        ["report", *CONFIG, "--ago", 1],
        ["report", *CONFIG, "--top", 3],
        ["report", *CONFIG, "u01"],
        ["report", *ask, "--day", today, "--login", "nobody"],
        ["report", *ask, "--day", today, "--login-text", "again"],
    ]
    return [
        ["status", *ask],
        ["status", *ask, "--host", "mx1.example.org"],
        ["status", *CONFIG],
        *reports,
        ["limit", *CONFIG, "u01", 123],
        ["limit", *ask, "--login", "new", "--from", today + 1, "--cap", 7],
        ["limit", *ask, "--login", "new", "--from", today + 1, "--cap", 8, "--run", 9],
        ["limit", *ask, "--login", "new", "--from", today + 1, "--cap", 9, "--run", 9],
        ["limit", *CONFIG, "again", 1],
        ["stop", *CONFIG, "u02"],
        ["stop", *CONFIG, "u03", "--all"],
        ["stop", *CONFIG, "nobody"],
        ["stop", *CONFIG, "nobody", "--force"],
        ["resume", *CONFIG, "u02"],
        ["resume", *CONFIG, "u03", "--cap", 10],
        ["resume", *CONFIG, "nobody"],
        ["retire", *ask, "--host", "mx1.example.org"],
        ["retire", *ask, "--host", "mx2.example.org", "--run", 5],
        ["filter", "--check", "--config", FILTER],
        *reports,
        ["limit", *CONFIG, "u01"],
        ["limit", *CONFIG, "u01", 1_000_001],
        ["report", *CONFIG, "--ago", "soon"],
        ["what"],
    ]


def put(settings, ledger=None, filters=FILTER_SETTINGS):
    """Makes the folder anew, with these settings, and a copy of this ledger."""
    shutil.rmtree(FOLDER, ignore_errors=True)
    FOLDER.mkdir()
    for name in LEDGER if ledger else []:
        shutil.copy(ledger / name, FOLDER / name)
    SETTINGS.write_text(settings)
    FILTER.write_text(filters)


def ledger_by_rule(program, frames):
    """A ledger whose days are those of a zone rule, with these requests: its folder."""
    put(BY_RULE)
    status, said = come(program, "init", *CONFIG)
    holds("a ledger of the release by a zone rule", status == 0, said.strip())
    with serving(program):
        for it in frames:
            exchange("127.0.0.1", it)
    folder = WORK / "by-rule"
    folder.mkdir()
    for name in LEDGER:
        shutil.copy(FOLDER / name, folder / name)
    return folder


def played(server, commands, ledger, settings, today):
    """What each command prints over a copy of a ledger, and at its server."""
    put(settings, ledger)
    answers = [(words, come(commands, *words)) for words in over_a_file(today)]
    with serving(server):
        answers += [(words, come(commands, *words)) for words in over_a_server(today)]
    # (of what the server left)
    return answers + [(words, come(commands, *words)) for words in over_a_file(today)[:3]]


def differing(came, wanted):
    return [
        f"`{' '.join(map(str, words))}` gives {it}, where it was {was}"
        for (words, it), (_, was) in zip(came, wanted)
        if it != was and not (words[0] in DONE_SINCE and it[0] == 0 and was == FAILED)
    ]


def compare_commands(name, ledger, settings, programs, today):
    """Each pair of a server and of commands prints what those of the release do."""
    # (a night would change the ledger at a moment of its own)
    for old, changed in (
        ("0.0.0.0:7025", ADDRESS),
        ("/var/lib/mailquota/ledger", f"{FOLDER}/ledger"),
        ("\nkeep = 2\n", "\n"),
    ):
        settings = settings.replace(old, changed)
    release, new = programs["release"], programs["new"]
    wanted = played(release, release, ledger, settings, today)
    for what, server, commands in (
        ("both", new, new),
        ("the release's at a new server", new, release),
        # (as on a quota server that is upgraded before the other one)
        ("new ones at a server of the release", release, new),
    ):
        wrong = differing(played(server, commands, ledger, settings, today), wanted)
        holds(
            f"{name}: what commands print, {what}: of {len(wanted)} those that differ",
            not wrong,
            wrong,
        )


def answers_over(recordings, server, filters, keeps):
    """What a filter answers smtpd's lines of each recording, at a new server over memory."""
    found = []
    for file in recordings:
        put(IN_MEMORY, filters=FILTER_SETTINGS + "keep_connection = true\n" * keeps)
        with serving(server):
            words = ["filter", "--config", FILTER, "--run", 1]
            found.append(([file.name], come(filters, *words, given=file.read_bytes())))
    return found


def compare_filters(programs, recordings, frames):
    """Each pair of a server and a filter answers smtpd's lines as those of the release do; and so
    does `replay` frames."""
    release, new = programs["release"], programs["new"]
    wanted = answers_over(recordings, release, release, keeps=False)
    for what, server, filters, keeps in (
        ("both", new, new, False),
        ("the release's at a new server", new, release, False),
        ("both, with a connection that is kept", new, new, True),
        # (CHANGELOG: once the server has this version)
        (
            "a new one that would keep its connection, at a server of the release",
            release,
            new,
            True,
        ),
    ):
        wrong = differing(answers_over(recordings, server, filters, keeps), wanted)
        holds(
            f"what filters answer, {what}: of {len(wanted)} recordings those that differ",
            not wrong and all(it[0] == 0 for _, it in wanted),
            wrong,
        )
    given = "".join(f"{it.hex()}\n" for it in frames).encode()
    for words in (["replay"], ["replay", "--sql", "--default", "7"]):
        was, it = come(release, *words, given=given), come(new, *words, given=given)
        holds(f"`{' '.join(words)}` of {len(frames)} frames", it == was and not it[0], it[0])
