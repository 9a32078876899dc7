#!/usr/bin/env python3
"""Builds the tests of crates without their proofs, and runs them: minutes, where to prove them
takes a quarter of an hour for each crate.

What a test shows it shows as it runs; `rt test` in the crate's folder proves it too. The kit runs
each in a process of its own, and as many run at once as there are processors. The last line is
'N passed, M failed', and the status is 1 where any failed.
"""
import argparse
import os
import re
import resource
import signal
import subprocess
import sys
import tempfile
from concurrent.futures import ThreadPoolExecutor

sys.dont_write_bytecode = True

import unproved
from kit import KIT, rows_of

TOP = os.path.dirname(os.path.dirname(os.path.realpath(__file__)))
# A test that takes so many seconds hangs.
LONGEST = 600
# Crates of which tests work for minutes where they aren't optimized.
LONG = ["mq_store_tests"]


def run(crate, folder, only=None):
    """Runs all tests of a crate, or one; gives how many passed and how many failed."""
    program = f"{folder}/{crate}"
    said = unproved.build(crate, TOP, program, optimizes=crate in LONG)
    if said is not None:
        print(said, f"NOT {crate}: its tests aren't built: {first_error(said)}", sep="\n")
        return 0, 1
    return run_tests(crate, program, folder, only)


def first_error(said):
    """The first line of a compiler that says what is wrong, without the tree's own folder."""
    lines = [it.removeprefix(f"{TOP}/") for it in said.splitlines() if it.strip()]
    return next((it for it in lines if "error" in it), lines[-1] if lines else "nothing was said")


def run_tests(crate, program, folder, only=None):
    """Runs the tests of a crate that are built, or one."""
    listed = subprocess.run(
        [program, "--list"],
        cwd=folder,
        env={},
        stdin=subprocess.DEVNULL,
        capture_output=True,
        text=True,
    )
    names = re.findall(r"^(\S+): test$", listed.stdout, re.M)
    names = [it for it in names if only in (None, it)]
    if listed.returncode or not names:
        print(f"NOT {crate}: there is no test{f' {only}' if only else ''}")
        return 0, 1
    print(f"-- {crate}", flush=True)
    with ThreadPoolExecutor(len(os.sched_getaffinity(0))) as pool:
        good = list(pool.map(lambda name: is_passed(name, program, folder), names))
    return sum(good), len(good) - sum(good)


def is_passed(name, program, folder):
    """Runs a test, prints what is said of it, and gives whether it passed."""
    words = [f"{KIT}/bin/rattle-test", "--seconds", str(LONGEST), "--filter", name, program]
    ran = subprocess.run(
        words,
        cwd=folder,
        env={},
        stdin=subprocess.DEVNULL,
        stdout=subprocess.PIPE,
        stderr=subprocess.STDOUT,
        text=True,
        errors="replace",
    )
    # (the filter is a part of names, so it runs those that begin alike too)
    good = f"test {name} ... ok" in ran.stdout.split("\n")
    print(f"test {name} ... ok" if good else f"{ran.stdout}test {name} ... FAILED", flush=True)
    return good


def main():
    parser = argparse.ArgumentParser(
        description=__doc__, formatter_class=argparse.RawDescriptionHelpFormatter
    )
    parser.add_argument(
        "crates", metavar="CRATE", nargs="+", choices=rows_of(TOP), help="a crate of crates.txt"
    )
    parser.add_argument("--only", metavar="TEST", help="this test alone")
    asked = parser.parse_args()
    # (so that what is half made is removed)
    signal.signal(signal.SIGTERM, lambda number, _: sys.exit(128 + number))
    # (a failed assertion ends the test's process, which is to leave no core file)
    resource.setrlimit(resource.RLIMIT_CORE, (0, 0))
    passed = failed = 0
    with tempfile.TemporaryDirectory(prefix="tests-") as folder:
        for crate in asked.crates:
            good, bad = run(crate, folder, asked.only)
            passed, failed = passed + good, failed + bad
    print(f"{passed} passed, {failed} failed")
    return 1 if failed or not passed else 0


if __name__ == "__main__":
    sys.exit(main())
