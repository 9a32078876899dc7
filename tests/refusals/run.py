#!/usr/bin/env python3
"""Refuses the program's allocations one after the other, a run for each, and prints how the runs
ended. JOBS in the environment says how many runs are made at once, by default 3.
"""
import argparse
import importlib
import os
import subprocess
import sys
import tempfile

HERE = os.path.dirname(os.path.abspath(__file__))
for other in ("program", "model"):
    sys.path.insert(1, f"{HERE}/../{other}")

from checks import Checks
from sweeping import Refusals

GROUPS = ["replaying", "storing", "together", "auditing", "filtering", "forgetting"]
# in memory where there is such a folder: the runs' files are synced again and again
FOLDER = "/dev/shm" if os.access("/dev/shm", os.W_OK) else None


def main():
    parser = argparse.ArgumentParser(description=__doc__)
    parser.add_argument("program", metavar="PROGRAM", type=os.path.abspath)
    parser.add_argument(
        "--whole", action="store_true", help="refuse each allocation where there are thousands, too"
    )
    parser.add_argument(
        "--examples",
        action="store_true",
        help="refuse each of the worked examples, and nothing else",
    )
    parser.add_argument(
        "words",
        metavar="WORD",
        nargs="*",
        default=[],
        help="only the groups of cases whose names have one of these words",
    )
    asked, checks = parser.parse_intermixed_args(), Checks()
    with tempfile.TemporaryDirectory(dir=FOLDER) as folder:
        library = f"{folder}/refuse.so"
        subprocess.run(
            ["cc", "-O2", "-shared", "-fPIC", "-o", library, f"{HERE}/refuse.c"], check=True
        )
        refusals = Refusals(asked.program, library, folder, asked.whole, asked.examples)
        for group in GROUPS:
            if not asked.words or any(word in group for word in asked.words):
                print(f"-- {group}", flush=True)
                importlib.import_module(group).run(refusals, checks)
    print(f"{checks.passed} passed, {checks.failed} failed")
    sys.exit(1 if checks.failed or not checks.passed else 0)


if __name__ == "__main__":
    main()
