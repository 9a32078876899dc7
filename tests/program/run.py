#!/usr/bin/env python3
"""Runs the program as an administrator, smtpd and a peer would, over loopback, and prints what was
expected and what came.

Groups of cases run side by side, each in a process of its own. The last line is
'N passed, M failed', and the status 1 where any failed.
"""
import argparse
import importlib
import inspect
import os
import re
import signal
import subprocess
import sys
import tempfile
import time
import traceback
from concurrent.futures import ThreadPoolExecutor
from pathlib import Path

sys.dont_write_bytecode = True
# (the ledger that expected replies are taken from)
sys.path.append(os.path.join(os.path.dirname(os.path.abspath(__file__)), os.pardir, "model"))

from checks import Checks
from ends import World

CASES = Path(__file__).parent / "cases"
# what these do to a server, its files and the machine takes longer, and some of it wants root; and
# what compares pages with sources, whichever program runs
OTHER_GROUPS = ["kills", "failures", "many_limits", "memory_limits", "sentences"]
# these run only where they are named
LONG_GROUPS = ["many_pages", "many_nights"]
# texts that groups share
NO_GROUPS = ["__init__", "rules", "texts_of_settings", "texts_of_words"]
# So many groups at once: they mostly wait.
AT_ONCE = 4
# A group that takes so many seconds hangs, but for the long ones.
LONGEST = 15 * 60
COUNTS = re.compile(r"(\d+) passed, (\d+) failed\n\Z")


def main():
    # (what runs in the background may ignore these, and the program would inherit it; one that is
    # caught it doesn't)
    for it in (signal.SIGINT, signal.SIGHUP, signal.SIGTERM):
        signal.signal(it, lambda number, _: sys.exit(128 + number))
    asked = parsed()
    if asked.list:
        print("\n".join(gate_groups() if asked.list == "gate" else groups_of([])))
        return 0
    if asked.group:
        return run_group(asked.group, asked.program, *asked.words)
    return run_groups(asked.program, groups_of(asked.words))


def parsed():
    parser = argparse.ArgumentParser(
        description=__doc__, formatter_class=argparse.RawDescriptionHelpFormatter
    )
    parser.add_argument("program", metavar="PROGRAM", nargs="?")
    parser.add_argument(
        "words",
        metavar="WORD",
        nargs="*",
        default=[],
        help="only the groups whose names have one of these words",
    )
    alone = parser.add_mutually_exclusive_group()
    alone.add_argument(
        "--list",
        choices=["gate", "all"],
        help="run nothing: the names of the groups that the gate runs over each program, or of all"
        " but those that run only where they are named",
    )
    alone.add_argument(
        "--group",
        metavar="GROUP",
        help="this group, in this process; a WORD is one function of it, and all others do nothing",
    )
    asked = parser.parse_args()
    if not asked.program and not asked.list:
        parser.error("PROGRAM is missing")
    if asked.group and len(asked.words) > 1:
        parser.error(f"too many words: {' '.join(asked.words)}")
    return asked


def gate_groups():
    """Each file of cases is a group of the gate, but for those named above."""
    found = sorted(it.stem for it in CASES.glob("*.py"))
    return [it for it in found if it not in OTHER_GROUPS + LONG_GROUPS + NO_GROUPS]


def groups_of(words):
    groups = gate_groups() + OTHER_GROUPS
    return (
        [it for it in groups + LONG_GROUPS if any(word in it for word in words)]
        if words
        else groups
    )


def run_groups(program, groups):
    """Runs these groups, each as it is ready, and prints of them in this order."""
    passed, failed, running = 0, 0, []
    pool = ThreadPoolExecutor(AT_ONCE)
    try:
        for group, (told, status) in zip(
            groups, pool.map(lambda group: told_by(group, program, running), groups)
        ):
            good, bad = counted(group, told, status)
            passed += good
            failed += bad
    finally:
        pool.shutdown(wait=False, cancel_futures=True)
        for process in running:
            process.terminate()
    print(f"{passed} passed, {failed} failed")
    return 1 if failed or not passed else 0


def counted(group, told, status):
    """Prints what a group told, and returns how many of its cases passed and failed: one that ends
    in another way has failed."""
    counts = COUNTS.search(told)
    passed, failed = map(int, counts.groups()) if counts else (0, 0)
    print(told[: counts.start()] if counts else told, end="", flush=True)
    if failed == 0 and (status or not passed):
        print(f"NOT {group}: it ended with status {status} and {passed} passed", flush=True)
        failed = 1
    return passed, failed


def told_by(group, program, running):
    """What a group prints that runs in a process of its own, and its status."""
    words = [sys.executable, os.path.abspath(__file__), "--group", group, program]
    with subprocess.Popen(
        words, stdin=subprocess.DEVNULL, stdout=subprocess.PIPE, stderr=subprocess.STDOUT
    ) as process:
        running.append(process)
        try:
            told = process.communicate(timeout=None if group in LONG_GROUPS else LONGEST)[0]
        except subprocess.TimeoutExpired:
            process.terminate()
            told = process.communicate()[0]
    return told.decode(errors="replace"), process.returncode


def watched(group, only):
    """The group, whose functions say that they begin where `run` calls them; all but one do
    nothing, where that is named."""
    module, inside = importlib.import_module(f"cases.{group}"), []

    def watch(name, function):
        def call(*words, **named):
            if inside:
                return function(*words, **named)
            if only and name != only:
                return None
            print(f"-- {group}: {name}", flush=True)
            inside.append(name)
            try:
                return function(*words, **named)
            finally:
                inside.pop()

        return call

    for name, function in list(vars(module).items()):
        if (
            inspect.isfunction(function)
            and function.__module__ == module.__name__
            and list(inspect.signature(function).parameters)[:2] == ["world", "checks"]
        ):
            if name != "run":
                setattr(module, name, watch(name, function))
    return module


def run_group(group, program, only=None):
    """Runs the cases of a group. The program is called by its name, which it shows in its help."""
    print(f"-- {group}", flush=True)
    checks, start = Checks(), time.monotonic()
    with tempfile.TemporaryDirectory() as folder:
        os.symlink(os.path.abspath(program), f"{folder}/mailquota")
        try:
            watched(group, only).run(World(f"{folder}/mailquota", folder), checks)
        except Exception:
            checks.tell(
                f"{group}: it comes to its end", False, "no exception", traceback.format_exc()
            )
            traceback.print_exc()
    skipped = f", {checks.skipped} not tried" if checks.skipped else ""
    print(f"-- {group}: {time.monotonic() - start:.1f} s{skipped}")
    print(f"{checks.passed} passed, {checks.failed} failed", flush=True)
    return 1 if checks.failed or not checks.passed else 0


if __name__ == "__main__":
    sys.exit(main())
