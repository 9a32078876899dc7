"""When what the gate leaves out last ran whole: over which commit, how much it tried, and what
failed.

Each such command has a line in tests/last_runs.txt, which it writes itself where it ran whole over
a commit as it stands, and which is committed.
"""
import datetime
import os
import re
import subprocess

TOP = os.path.dirname(os.path.dirname(os.path.realpath(__file__)))
FILE = "tests/last_runs.txt"
# A line: the command, the day, the commit, how many were tried, and which of them failed.
LINE = re.compile(
    r"make (?P<command>[a-z-]+): (?P<day>\d{4}-\d\d-\d\d), commit (?P<commit>[0-9a-f]{12}):"
    r" (?P<tried>\d+) tried, (?:none|(?P<failed>\d+)) failed(?:: (?P<names>.+))?"
)


def changed():
    """Returns the files that aren't those of the commit, but for the one that is written here, or
    None where git has nothing to say."""
    words = ["git", "-C", TOP, "status", "--porcelain", "--", ".", f":(exclude){FILE}"]
    try:
        ran = subprocess.run(words, stdin=subprocess.DEVNULL, capture_output=True, text=True)
    except FileNotFoundError:
        return None
    return None if ran.returncode else [it[3:] for it in ran.stdout.splitlines()]


def commit():
    words = ["git", "-C", TOP, "rev-parse", "--short=12", "HEAD"]
    return subprocess.run(
        words, stdin=subprocess.DEVNULL, capture_output=True, text=True, check=True
    ).stdout.strip()


def lines():
    """Returns the lines that are written, by the command of each."""
    try:
        with open(f"{TOP}/{FILE}", encoding="utf-8") as file:
            found = [LINE.fullmatch(it) for it in file.read().splitlines()]
    except FileNotFoundError:
        return {}
    return {it["command"]: it[0] for it in found if it}


def line_of(command, tried, failed):
    """Returns the line of a run of today over the commit."""
    names = f"{len(failed)} failed: {', '.join(failed)}" if failed else "none failed"
    day = datetime.datetime.now(datetime.timezone.utc).date()
    return f"make {command}: {day}, commit {commit()}: {tried} tried, {names}"


def note(command, tried, failed):
    """Writes what a whole run of a command came to: how many it tried, and the names of those that
    failed."""
    others = changed()
    if others is None:
        print("Not noted: this is no clone of the repository.")
    elif others:
        print(f"Not noted: {len(others)} files aren't those of the commit, as {others[0]}.")
    else:
        with open(f"{TOP}/{FILE}", encoding="utf-8") as file:
            head = [it for it in file if not LINE.fullmatch(it.rstrip("\n"))]
        known = {**lines(), command: line_of(command, tried, failed)}
        with open(f"{TOP}/{FILE}", "w", encoding="utf-8") as file:
            file.writelines([*head, *(f"{known[it]}\n" for it in sorted(known))])


def tell(command):
    """Prints when a command last ran whole."""
    print(f"Last run whole: {lines().get(command, f'make {command}: no run is noted')}", flush=True)
