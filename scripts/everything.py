#!/usr/bin/env python3
"""Runs what the gate leaves out, one after the other: all that needs no proof, over the program as
`make build` makes it, the commands of the pages, one allocation refused a run, real smtpds, two
quota servers, the dashboard, the package, an upgrade, the further must-fail edits, and the bodies.

Each notes in tests/last_runs.txt over which commit it ran. What passed on this machine isn't run
again where nothing changed that it may read, which its sum tells: the files of the tree but those
that it surely doesn't read, the kit, and Python's version. No failure is kept. With --anew all are
run. At the end it says of each what ran over which commit. The last line is 'N passed, M failed',
and the status 1 where anything failed.
"""
import argparse
import os
import re
import subprocess
import sys
import time
from collections import namedtuple

sys.dont_write_bytecode = True

import last_runs

TOP = os.path.dirname(os.path.dirname(os.path.realpath(__file__)))
sys.path.append(f"{TOP}/gate")

from files import files_of
from kept import Kept, of_kit, sum_of, sum_of_files
from run import COUNTS

# What none of them reads.
READ_BY_NONE = r"\.ci/|\.git|bench/|gate/minutes\.txt\Z|tests/(last_runs\.txt\Z|near_the_end/)"
# What those that run the program don't read besides, and what all of these but the package's don't.
OF_THE_GATE = (
    r"|crates/([^/]+/(must-fail|further)/|mq_(ends|store)_tests/)|gate/|tests/(bodies|prose)/"
)
PAGES = r"|docs/(?!INSTALL\.md\Z|OPERATING\.md\Z)|CONTRIBUTING\.md\Z"
# What the edits don't read besides: all but crates and the scripts of the gate.
BUT_CRATES = r"|(?!crates/|crates\.txt\Z|HANDLES\Z|gate/|scripts/(files|kit|version)\.py\Z)"

# A target of the Makefile, which files it doesn't read, and whether it notes its runs by itself.
Target = namedtuple("Target", "name unread notes", defaults=[False])
TARGETS = [
    Target("test", r"\.ci/|\.git|tests/last_runs\.txt\Z"),
    Target("commands", READ_BY_NONE),
    Target("refusals", READ_BY_NONE + OF_THE_GATE + PAGES),
    Target("smtpd", READ_BY_NONE + OF_THE_GATE + PAGES),
    Target("takeover", READ_BY_NONE + OF_THE_GATE + PAGES),
    Target("dashboard-tests", READ_BY_NONE + OF_THE_GATE + PAGES),
    Target("package-tests", READ_BY_NONE + OF_THE_GATE),
    Target("upgrade-tests", READ_BY_NONE + OF_THE_GATE),
    Target("edits", READ_BY_NONE + BUT_CRATES, notes=True),
    Target("bodies", READ_BY_NONE, notes=True),
]
FAILED = re.compile(r"(?:NOT SEEN|NOT|FAILED|COULD NOT BE BUILT) (.{1,80})")


def name_of(target):
    """Returns the name of what is kept of a target: the sum of all that it may read."""
    files = [it for it in files_of(TOP) if not re.match(target.unread, it)]
    return sum_of("everything", target.name, sys.version, of_kit(), sum_of_files(TOP, files))


def run(target):
    """Runs a target, hands on its lines, and returns how many passed and which failed."""
    lines = []
    with subprocess.Popen(
        ["make", "--no-print-directory", target.name],
        cwd=TOP,
        stdin=subprocess.DEVNULL,
        stdout=subprocess.PIPE,
        stderr=subprocess.STDOUT,
        text=True,
        errors="replace",
    ) as process:
        for line in process.stdout:
            lines.append(line.rstrip("\n"))
            print(line, end="", flush=True)
    counts = next(filter(None, map(COUNTS.match, reversed(lines))), None)
    passed, count = map(int, counts.groups()) if counts else (0, 0)
    # (names of the last runs are parted by commas)
    failed = [it[1].replace(",", ";") for it in map(FAILED.match, lines) if it][:count]
    if process.returncode and not failed:
        failed = [f"it ended with status {process.returncode}"]
    return passed, failed


def main():
    parser = argparse.ArgumentParser(
        description=__doc__, formatter_class=argparse.RawDescriptionHelpFormatter
    )
    parser.add_argument("--anew", action="store_true", help="take nothing that earlier runs kept")
    kept = Kept(takes=not parser.parse_args().anew)
    passed, failed, ended = 0, 0, []
    for target in TARGETS:
        print(f"== make {target.name}", flush=True)
        name, begun = name_of(target), time.monotonic()
        number, names = kept.take([name]), []
        if number:
            how = "kept from an earlier run of the same on this machine"
        else:
            number, names = run(target)
            how = f"{(time.monotonic() - begun) / 60:.0f} minutes"
            if number and not names:
                kept.keep([name], number)
            if not target.notes:
                last_runs.note(target.name, number + len(names), names)
        passed, failed = passed + number, failed + len(names)
        ended.append(f"make {target.name}: {number} passed, {len(names)} failed, {how}")
    noted = last_runs.lines()
    print("== make everything", *ended, "What ran whole last, by tests/last_runs.txt:", sep="\n")
    print(*(noted[it.name] for it in TARGETS if it.name in noted), sep="\n")
    print(f"{passed} passed, {failed} failed")
    return 1 if failed or not passed else 0


if __name__ == "__main__":
    sys.exit(main())
