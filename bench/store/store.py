#!/usr/bin/env python3
"""Time of requests to the ledger in SQL tables, compared with twin.c, the same tables, statements
and pragmas over libsqlite3, by turns. It wants cc, libsqlite3's header and strace.
"""
import argparse
import contextlib
import itertools
import os
import shutil
import statistics
import subprocess
import sys
import tempfile
from pathlib import Path

import requests
import wire
from ledgers import Ledger, by_turns

HERE = Path(__file__).resolve().parent
WINDOWS = 15
DEPENDENCIES = "mq_request mq_frame mq_ledger mq_store sqlite"


def built_twin(folder):
    program = f"{folder}/twin"
    subprocess.run(["cc", "-O2", "-o", program, HERE / "twin.c", "-lsqlite3"], check=True)
    return program


def built_ledger(folder):
    """The program of main.rattle, built with a copy of the crates: were it a crate of the
    repository, the gate would prove it."""
    top, room = HERE.parent.parent, Path(folder) / "repository"
    shutil.copytree(
        top / "crates", room / "crates", ignore=shutil.ignore_patterns("must-fail", "further")
    )
    shutil.copy(top / "HANDLES", room)
    (room / ".git").mkdir()
    (room / "crates.txt").write_text(
        (top / "crates.txt").read_text() + f"store_bench: {DEPENDENCIES}\n"
    )
    crate = room / "crates" / "store_bench"
    (crate / "src").mkdir(parents=True)
    for source in HERE.glob("*.rattle"):
        shutil.copy(source, crate / "src" / f"{source.stem}.rt")
    subprocess.run(
        ["rt", "run"], cwd=crate, stdin=subprocess.DEVNULL, stdout=subprocess.DEVNULL, check=True
    )
    return str(crate / "out" / "store_bench")


class Bench:
    def __init__(self, program, twin, folder):
        self.program, self.twin, self.folder = program, twin, folder
        self.files = itertools.count()
        self.longest_log = 0

    def new_path(self):
        return f"{self.folder}/{next(self.files)}.db"

    def compare(self, title, paths, batch):
        """Ours compared with the twin, on the same numbered requests."""
        with Ledger(self.program, paths[0]) as ours, Ledger(self.twin, paths[1]) as twin:
            frames = requests.mails()
            batches = []
            for _ in range(WINDOWS + 1):
                same = requests.take(frames, batch)
                batches.append((same, same))
            by_turns([ours, twin], batches[:1])
            (a, b), ratio = by_turns([ours, twin], batches[1:])
            self.longest_log = max(self.longest_log, ours.log_size())
        print(
            (
                f"{title}: {a / batch * 1e6:.1f} us a request, twin {b / batch * 1e6:.1f} us; ratio"
                f" {ratio:.2f}"
            ),
            flush=True,
        )

    def beside_the_twin(self):
        self.compare("numbered requests in a file", (self.new_path(), self.new_path()), 1_000)
        self.compare("numbered requests in memory", (":memory:", ":memory:"), 4_000)
        print(f"the log beside the file: {self.longest_log:,} bytes at most", flush=True)

    def behind(self, kind, place, count):
        """A ledger that has answered so many of a kind, and the requests to come."""
        frames = kind()
        ledger = Ledger(self.program, self.new_path() if place == "file" else ":memory:")
        while count:
            some = min(count, 10_000)
            ledger.ask(requests.take(frames, some))
            self.longest_log = max(self.longest_log, ledger.log_size())
            count -= some
        return ledger, frames

    def flat(self):
        """10,000 reserves after 100,000 answers, compared with those after 1,000."""
        kinds = [
            ("of 50 logins", requests.reserves),
            ("of one login, transaction and day", requests.reserves_of_one),
        ]
        for (title, kind), place in itertools.product(kinds, ("file", "memory")):
            long, many = self.behind(kind, place, 100_000)
            short, few = self.behind(kind, place, 1_000)
            with long, short:
                share = 10_000 // WINDOWS
                batches = [
                    (requests.take(many, share), requests.take(few, share)) for _ in range(WINDOWS)
                ]
                (a, b), ratio = by_turns([long, short], batches, same=False)
            print(
                (
                    f"10,000 reserves {title}, {place}: behind 100,000 answers"
                    f" {a / share * 1e6:.1f} us each, behind 1,000 {b / share * 1e6:.1f} us; ratio"
                    f" {ratio:.2f}"
                ),
                flush=True,
            )

    def growth(self):
        """Usage rows, list pages and limits over a hundred logins, over 10,000 a day, and over
        those on ten days."""
        sizes = [(100, 1), (10_000, 1), (10_000, 10)]
        with contextlib.ExitStack() as stack:
            ledgers = []
            for logins, days in sizes:
                ledger, _ = self.behind(
                    lambda: requests.one_each(logins, days), "memory", logins * days
                )
                ledgers.append(stack.enter_context(ledger))
            for name, batch_of in KINDS:
                times = [[] for _ in sizes]
                for window in range(WINDOWS + 1):
                    for ledger, size, taken in zip(ledgers, sizes, times):
                        frames = batch_of(*size, window)
                        taken.append(ledger.ask(b"".join(frames))[0] / len(frames))
                medians = [statistics.median(taken[1:]) for taken in times]
                shown = ", ".join(
                    f"{logins:,} x {days}: {seconds * 1e6:.1f} us"
                    for (logins, days), seconds in zip(sizes, medians)
                )
                print(
                    (
                        f"a {name} by logins x days: {shown}; ratios"
                        f" {medians[1] / medians[0]:.2f} and {medians[2] / medians[1]:.2f}"
                    ),
                    flush=True,
                )

    def opening(self):
        """`open` by answers, and what it takes of memory."""
        path = self.new_path()
        Ledger(self.program, path).__exit__()
        empty = statistics.median(self.opened(path)[0] for _ in range(WINDOWS))
        frames = requests.mails()
        for count in (10_000, 100_000):
            with Ledger(self.program, path, create=False) as ledger:
                ledger.ask(requests.take(frames, count - (count > 10_000) * 10_000))
            seconds, memory = map(
                statistics.median, zip(*(self.opened(path) for _ in range(WINDOWS)))
            )
            print(
                (
                    f"open behind {count:,} answers: {seconds * 1000:.1f} ms,"
                    f" {(seconds - empty) / count * 1e6:.2f} us an answer; {memory:,} KiB resident,"
                    f" file {os.path.getsize(path):,} bytes"
                ),
                flush=True,
            )

    def opened(self, path):
        with Ledger(self.program, path, create=False) as ledger:
            return ledger.seconds_to_open, ledger.most_memory()

    def syncs(self):
        """fdatasync and fsync, counted by strace."""
        count = 5_000
        for name, program in [("ours", self.program), ("twin", self.twin)]:
            none, all_of_them = (self.synced(program, asked) for asked in (0, count))
            print(
                (
                    f"{name}: {(all_of_them - none) / count:.3f} fdatasync and fsync a numbered"
                    " request"
                ),
                flush=True,
            )

    def synced(self, program, count):
        report = f"{self.folder}/syncs"
        with Ledger(
            program,
            self.new_path(),
            wrapper=["strace", "-f", "-c", "-e", "trace=fdatasync,fsync", "-o", report],
        ) as ledger:
            if count:
                ledger.ask(requests.take(requests.mails(), count))
        rows = [line.split() for line in Path(report).read_text().splitlines()]
        return sum(int(row[3]) for row in rows if row and row[-1] in ("fdatasync", "fsync"))


def pages(logins, days, window):
    """Pages of the last day that begin at different logins, where a page is full."""
    return [
        wire.page(b"u%05d" % (place * 41 % max(1, logins - 100)), days)
        for place in range(window, window + 20)
    ]


def usages(logins, days, window):
    return [
        wire.usage(b"u%05d" % ((window * 500 + place) * 37 % logins), days) for place in range(500)
    ]


def limits(logins, days, window):
    base = window * 200 + 2_000_000
    return [
        wire.limit(base + place, days, 500, b"u%05d" % ((base + place) * 37 % logins))
        for place in range(200)
    ]


def limits_over(logins, days, window):
    base = window * 200 + 3_000_000
    return [
        wire.limit(base + place, days, 0, b"u%05d" % ((base + place) * 37 % logins))
        for place in range(200)
    ]


KINDS = [
    ("usage row", usages),
    ("list page", pages),
    ("limit", limits),
    ("limit that is over", limits_over),
]


def main():
    parser = argparse.ArgumentParser(description=__doc__)
    parser.add_argument(
        "--folder",
        metavar="FOLDER",
        help="where files are made, by default with other temporary ones",
    )
    parser.add_argument(
        "--only", choices=["twin", "flat", "growth", "open", "syncs"], help="one part alone"
    )
    parser.add_argument(
        "program",
        metavar="PROGRAM",
        nargs="?",
        help=(
            "what was built of main.rattle; without it that is proved and built first, with rt on"
            " the PATH"
        ),
    )
    given = parser.parse_args()
    with tempfile.TemporaryDirectory(dir=given.folder) as folder:
        bench = Bench(given.program or built_ledger(folder), built_twin(folder), folder)
        print(
            f"median of {WINDOWS} windows by turns; load before: {os.getloadavg()[0]:.1f}",
            flush=True,
        )
        parts = {
            "twin": bench.beside_the_twin,
            "flat": bench.flat,
            "growth": bench.growth,
            "open": bench.opening,
            "syncs": bench.syncs,
        }
        for name, part in parts.items():
            if given.only in (None, name):
                part()
        print(f"load after: {os.getloadavg()[0]:.1f}")


if __name__ == "__main__":
    sys.exit(main())
