#!/usr/bin/env python3
"""Runs each command of CONTRIBUTING.md and docs/GATE.md in a clone that is thrown away, and says
which it leaves out, and why.

A command is a line of a block, without the comment behind it, or a text between backquotes that
begins with a program and has a word more. What stands there for a name, as NAME, is replaced by
one. A command of which this script doesn't know whether to run it is a failure, and so is one that
it knows and no page has. The last line is 'N passed, M failed', and the status 1 where anything
failed.
"""
import argparse
import os
import re
import subprocess
import sys
import tempfile
import time
from collections import namedtuple

sys.dont_write_bytecode = True

from results import status_of

TOP = os.path.dirname(os.path.dirname(os.path.dirname(os.path.realpath(__file__))))
PAGES = ["CONTRIBUTING.md", "docs/GATE.md"]
BLOCK = re.compile(r"^ {4}(\S.*?)(?: +#.*)?$", re.M)
SPAN = re.compile(r"`([^`\n]+(?:\n[^`\n]+)?)`")
COMMAND = re.compile(r"(?:(?:make|rt|rattle|python3|black) |\S+\.py )\S|\.ci/run\Z")
# A line of an edit, which is no command, as its pages show it.
OF_AN_EDIT = re.compile(r"(?:case|function|file|old|new): |[A-Z].*\.\Z")
# So many seconds a command has.
LONGEST = 45 * 60

# How a command is run: in which folder, and as which words, where these aren't those of the page.
Run = namedtuple("Run", "folder words", defaults=[".", None])
# A small crate, near the bottom.
CRATE = "mq_stream"
RUN = {
    "rt doc": Run(),
    "rt check": Run(f"crates/{CRATE}"),
    "rt fmt && rt tidy": Run(f"crates/{CRATE}"),
    "rt try --test": Run("crates/mq_ends_tests"),
    "python3 tests/prose/run.py": Run(),
    "black .": Run(),
    "python3 gate/run.py must-fail NAME": Run(words=f"python3 gate/run.py must-fail {CRATE}"),
    "python3 gate/run.py gate NAME": Run(words=f"python3 gate/run.py gate {CRATE}"),
    "python3 -m unittest discover gate '*_test.py'": Run(),
    "make test ONLY=nights": Run(),
    "rt check --only PATH": Run(f"crates/{CRATE}", "rt check --only sink"),
}
OF_EVERYTHING = "`make everything` runs it"
GATE = "it is the gate, which takes an hour or two"
LEFT_OUT = {
    "rt test": "it proves all crates below the tests, and the gate runs these without that",
    "make build": "`make everything` begins with it",
    "make test": OF_EVERYTHING,
    "make bodies": OF_EVERYTHING,
    "make bodies ONLY=what_is_wrong": "`make everything` runs them all",
    "make edits": OF_EVERYTHING,
    "make refusals": OF_EVERYTHING,
    "make dashboard-tests": OF_EVERYTHING,
    "make smtpd": OF_EVERYTHING,
    "make takeover": OF_EVERYTHING,
    "make package-tests": OF_EVERYTHING,
    "make upgrade-tests": OF_EVERYTHING,
    "make everything": "it takes hours, and calls this",
    "make commands": "it is this",
    "make check": GATE,
    ".ci/run": GATE,
    "rt ci": "the gate calls it",
    "tests/bodies/texts.py PROGRAM": "it is for who changes scripts, units or pages",
    "rattle check --progress": "the gate calls `rattle check`, with more words",
}


def commands_in(text):
    """Returns the commands of a page."""
    lines = [it[1] for it in BLOCK.finditer(text) if not OF_AN_EDIT.match(it[1])]
    spans = [re.sub(r"\s+", " ", it[1]) for it in SPAN.finditer(BLOCK.sub("", text))]
    return list(dict.fromkeys([*lines, *(it for it in spans if COMMAND.match(it))]))


def commands_of(tree):
    """Returns each command of the pages, with the first page that has it."""
    found = {}
    for page in PAGES:
        with open(f"{tree}/{page}", encoding="utf-8") as file:
            for it in commands_in(file.read()):
                found.setdefault(it, page)
    return found


def known(tree):
    """Yields of each command of the pages whether it is known here."""
    for it, page in commands_of(tree).items():
        is_known = it in RUN or it in LEFT_OUT
        yield f"{page}, {it}", [] if is_known else ["tests/prose/commands.py doesn't know it"]


def stale():
    """Yields of each command that is known here whether a page has it."""
    found = commands_of(TOP)
    for it in [*RUN, *LEFT_OUT]:
        yield f"tests/prose/commands.py, {it}", [] if it in found else ["no page has it"]


def git(tree, *words):
    return subprocess.run(
        ["git", "-c", "safe.directory=*", "-C", tree, *words],
        stdin=subprocess.DEVNULL,
        stdout=subprocess.PIPE,
        text=True,
        check=True,
    ).stdout


def clone(tree, place):
    """Makes a clone of the tree, in which files stand as they do there."""
    subprocess.run(["git", "clone", "--quiet", "--shared", tree, place], check=True)
    listed = git(tree, "ls-files", "-z", "--modified", "--others", "--exclude-standard")
    for file in filter(None, listed.split("\0")):
        if os.path.lexists(f"{tree}/{file}"):
            os.makedirs(os.path.dirname(f"{place}/{file}"), exist_ok=True)
            subprocess.run(["cp", "-P", f"{tree}/{file}", f"{place}/{file}"], check=True)
        else:
            os.remove(f"{place}/{file}")
    if git(place, "status", "--porcelain"):
        git(place, "add", "--all")
        of = ["-c", "user.name=clone", "-c", "user.email=clone@localhost"]
        git(place, *of, "commit", "--quiet", "--no-verify", "--message=As it stands")


def run(command, place):
    """Runs a command of the pages, and returns what is wrong."""
    how, begun = RUN[command], time.monotonic()
    words = how.words or command
    print(f"-- {words}" + f" (in {how.folder})" * (how.folder != "."), flush=True)
    try:
        ran = subprocess.run(
            ["bash", "-c", words],
            cwd=f"{place}/{how.folder}",
            stdin=subprocess.DEVNULL,
            stdout=subprocess.PIPE,
            stderr=subprocess.STDOUT,
            text=True,
            errors="replace",
            timeout=LONGEST,
        )
    except subprocess.TimeoutExpired:
        return [f"it took longer than {LONGEST // 60} minutes"]
    changed = git(place, "status", "--porcelain")
    # (the next one has a clone as this one had it)
    git(place, "reset", "--quiet", "--hard")
    git(place, "clean", "--quiet", "-d", "--force")
    print(f"-- {words}: status {ran.returncode}, {time.monotonic() - begun:.0f} s", flush=True)
    if ran.returncode or changed:
        print(*ran.stdout.split("\n")[-20:], changed, sep="\n", flush=True)
    return [f"its status is {ran.returncode}"] * bool(ran.returncode) + [
        f"it changed {it}" for it in changed.splitlines()
    ]


def main():
    parser = argparse.ArgumentParser(
        description=__doc__, formatter_class=argparse.RawDescriptionHelpFormatter
    )
    parser.add_argument(
        "words", metavar="WORD", nargs="*", help="only the commands that have one of these words"
    )
    words = parser.parse_args().words
    results = [*known(TOP), *stale()]
    with tempfile.TemporaryDirectory(prefix="commands-") as room:
        clone(TOP, f"{room}/clone")
        for command, page in commands_of(TOP).items():
            if words and not any(it in command for it in words):
                continue
            if command in LEFT_OUT:
                print(f"left out: {page}, {command}: {LEFT_OUT[command]}", flush=True)
            elif command in RUN:
                results.append((f"{page}, {command}", run(command, f"{room}/clone")))
    return status_of(results)


if __name__ == "__main__":
    sys.exit(main())
