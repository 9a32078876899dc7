#!/usr/bin/env python3
"""Times `mailquota audit` and the start of a server, which audits too, over database files of many
answers, compared with audit_twin.cpp.

Each answer is a reserve of one recipient in a transaction of its own; ten of them share a login and
day. Then files in which each has a login of its own. All lie in a folder of TMPDIR. The twin does
the same work over libsqlite3, once with a check of all rows and indexes first, as the library under
mailquota makes it, and once without. It wants c++ and libsqlite3's header (Debian: libsqlite3-dev).
All four run by turns, and medians are printed: seconds by the clock, seconds of a processor, and
memory at most.
"""
import argparse
import os
import socket
import statistics
import subprocess
import sys
import tempfile
import time
from pathlib import Path
from typing import NamedTuple

import filled
from ends import free_port

SHARED = 10
COMPILER = ["c++", "-O2", "-std=c++17"]


class Run(NamedTuple):
    """Seconds by the clock and of a processor, the most kilobytes, and those once a server
    listens."""

    took: float
    worked: float
    most: int = 0
    left: int = 0


def shared(place):
    """Ten answers share a login and day, and each login has ten days."""
    pair = place // SHARED
    return b"user%d@example.org" % (pair // 10), pair % 10 + 1


def alone(place):
    return b"user%d@example.org" % place, 1


def built_twin(folder):
    program = f"{folder}/audit_twin"
    subprocess.run(
        [*COMPILER, "-o", program, Path(__file__).parent / "audit_twin.cpp", "-lsqlite3"],
        check=True,
    )
    return program


def kilobytes(process, what):
    """The most that a process had resident so far (VmHWM), or what it has now (VmRSS)."""
    with open(f"/proc/{process.pid}/status", encoding="utf-8") as lines:
        return next(int(line.split()[1]) for line in lines if line.startswith(f"{what}:"))


def work_of(process):
    """The seconds of a processor that a process took, once it has ended well."""
    _, status, used = os.wait4(process.pid, 0)
    process.returncode = os.waitstatus_to_exitcode(status)
    if process.returncode:
        sys.exit(f"{process.args[0]} ends with {process.returncode}")
    return used.ru_utime + used.ru_stime


def audited(command, wanted):
    """An audit, which finds the books right."""
    began = time.monotonic()
    process = subprocess.Popen(command, stdout=subprocess.PIPE, stderr=subprocess.PIPE)
    with process.stdout, process.stderr:
        told, said = process.stdout.read(), process.stderr.read()
    worked = work_of(process)
    took = time.monotonic() - began
    if told != wanted:
        sys.exit(f"the audit says {told}, and not {wanted}")
    return Run(took, worked, int(said or 0))


def started(program, config, port):
    """A server until it takes a connection; its work is that of its whole run."""
    began = time.monotonic()
    process = subprocess.Popen(
        [program, "server", "--config", config, "--connections", "1"], stderr=subprocess.DEVNULL
    )
    while True:
        try:
            with socket.create_connection(("127.0.0.1", port)):
                took = time.monotonic() - began
                most, left = kilobytes(process, "VmHWM"), kilobytes(process, "VmRSS")
            break
        except ConnectionRefusedError:
            if process.poll() is not None:
                sys.exit("the server didn't start")
            time.sleep(0.001)
    return Run(took, work_of(process), most, left)


def medians(runs):
    return Run(*(statistics.median(column) for column in zip(*runs)))


def measure(program, twin, windows, folder, answers, what, login_and_day):
    path, port = f"{folder}/{answers}", free_port()
    days = filled.write(path, answers, login_and_day)
    config = filled.settings(folder, path, port)
    wanted = b"sound days=%d transactions=%d\n" % (days, answers)
    books = [twin, path, str(filled.DEFAULT)]
    ways = {
        "start": lambda: started(program, config, port),
        "audit": lambda: audited([program, "audit", "--config", config], wanted),
        "twin that checks": lambda: audited([*books, "check"], wanted),
        "twin": lambda: audited(books, wanted),
    }
    runs = {name: [] for name in ways}
    for _ in range(windows):
        for name, way in ways.items():
            runs[name].append(way())
    print(
        f"{answers} answers, {what}, {os.path.getsize(path) / 1e6:.0f} MB, load"
        f" {os.getloadavg()[0]:.1f}:"
    )
    for name, of_name in runs.items():
        run = medians(of_name)
        memory = ", then ".join(f"{it / 1024:.0f} MB" for it in (run.most, run.left) if it)
        print(
            (
                f"  {name:16} {run.took:7.2f} s, {run.worked:7.2f} s of a processor,"
                f" {run.worked / answers * 1e6:5.1f} us an answer  {memory}"
            ),
            flush=True,
        )
    os.unlink(path)


def main():
    parser = argparse.ArgumentParser(
        description=__doc__, formatter_class=argparse.RawDescriptionHelpFormatter
    )
    parser.add_argument(
        "--windows",
        metavar="N",
        type=int,
        default=5,
        help="how often each runs, by default %(default)s times",
    )
    parser.add_argument("program", metavar="PROGRAM", type=os.path.abspath)
    parser.add_argument(
        "answers",
        metavar="ANSWERS",
        type=int,
        nargs="*",
        default=[10_000, 100_000, 1_000_000],
        help="how many answers a file has, by default %(default)s",
    )
    given = parser.parse_args()
    with tempfile.TemporaryDirectory() as folder:
        twin = built_twin(folder)
        for what, login_and_day in (
            ("ten of a login and day", shared),
            ("each of a login of its own", alone),
        ):
            for answers in given.answers:
                measure(given.program, twin, given.windows, folder, answers, what, login_and_day)


if __name__ == "__main__":
    main()
