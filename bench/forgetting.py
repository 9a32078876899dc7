#!/usr/bin/env python3
"""Times `mailquota forget`, which keeps half of a file's answers, and the start of a server over
the old file and over the new one, with their memory.

Each answer is a reserve of one recipient in a transaction of its own; ten of them share a login and
day, and each login has ten days. The files lie in a folder of TMPDIR. The machine's load stands
first.
"""
import argparse
import os
import resource
import subprocess
import sys
import tempfile
import time

import filled
from audit import shared, started
from ends import free_port

# (the days are 1 to 10)
FIRST_KEPT = 6


def forgotten(program, config, into, answers):
    """Seconds of a forget, which keeps half, and those of a processor that it took."""
    began, before = time.monotonic(), resource.getrusage(resource.RUSAGE_CHILDREN)
    words = [program, "forget", "--config", config, "--before", str(FIRST_KEPT), "--into", into]
    told = subprocess.run(words, capture_output=True, check=True).stdout
    took, after = time.monotonic() - began, resource.getrusage(resource.RUSAGE_CHILDREN)
    worked = after.ru_utime + after.ru_stime - before.ru_utime - before.ru_stime
    wanted = b"kept answers=%d of %d" % (answers // 2, answers)
    if not told.startswith(wanted):
        sys.exit(f"forget says {told}, and not {wanted}")
    return took, worked


def measure(program, folder, answers):
    path, port = f"{folder}/{answers}", free_port()
    filled.write(path, answers, shared)
    config = filled.settings(folder, path, port)
    into = f"{path}.new"
    took, worked = forgotten(program, config, into, answers)
    most = resource.getrusage(resource.RUSAGE_CHILDREN).ru_maxrss // 1024
    before = started(program, config, port).took
    # (one name holds settings at a time)
    after = started(program, filled.settings(folder, into, port), port)
    sizes = " and ".join(f"{os.path.getsize(it) / 1e6:.0f} MB" for it in (path, into))
    print(
        (
            f"{answers} answers, half of them kept, {sizes}: forget {took:.1f} s, of a processor"
            f" {worked:.1f} s, {worked / answers * 2e6:.0f} us an answer that is kept, {most} MB;"
            f" start over the old file {before:.2f} s, over the new one {after.took:.2f} s and"
            f" {after.most // 1024} MB"
        ),
        flush=True,
    )
    for it in (path, into):
        os.unlink(it)


def main():
    parser = argparse.ArgumentParser(
        description=__doc__, formatter_class=argparse.RawDescriptionHelpFormatter
    )
    parser.add_argument("program", metavar="PROGRAM", type=os.path.abspath)
    parser.add_argument(
        "answers",
        metavar="ANSWERS",
        type=int,
        nargs="*",
        default=[10_000, 100_000, 1_000_000],
        help="how many answers a file has, by default %(default)s",
    )
    asked = parser.parse_args()
    print(f"{os.cpu_count()} processors, load of {os.getloadavg()[0]:.1f}")
    with tempfile.TemporaryDirectory() as folder:
        for answers in asked.answers:
            measure(asked.program, folder, answers)


if __name__ == "__main__":
    main()
