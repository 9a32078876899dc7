#!/usr/bin/env python3
"""A provider's year by simulation: a server with `keep = 2`, by a clock of the tests that goes from
day to day, and the filters of two hosts.

Each day has so many recipients, in messages of four, each of which is settled: an eighth of them
after midnight, and the others from 03:00 on, as a day is forgotten. What is measured stands after
each day, and at last that of the first week beside that of the last. The files lie in a folder of
TMPDIR.
"""
import argparse
import collections
import os
import random
import statistics
import tempfile
import time
from typing import NamedTuple

# (by which those of tests/program are found)
import filled

import clocks
from audit import kilobytes
from cases.filters import SERVICE
from nights import seconds_of_processor
from ends import Server, World, processor_time, wait_until
from smtpd import Smtpd

KEEP, LOGINS, DEFAULT = 2, 5_000, 40
HOSTS = ("mx1", "mx2")
OF_A_MESSAGE, FIRST_PART = 4, 8
# seconds of a day
MORNING, NIGHT = 60, 3 * 3_600 + 60
WEEK = 7


class Day(NamedTuple):
    """Of a day: sizes in bytes, memory in kilobytes, milliseconds of a recipient by the clock and
    of the server's processor, and seconds."""

    file: int
    all_files: int
    memory: int
    median: float
    of_999: float
    slowest: float
    slowest_at_night: float
    worked: float
    most_worked: float
    most_worked_at_night: float
    night: float
    processor: float

    def __str__(self):
        return (
            f"file {self.file / 1e6:.1f} MB, all files {self.all_files / 1e6:.1f} MB, memory "
            f"{self.memory:,} KiB; a recipient {self.median:.2f} ms, 99.9% {self.of_999:.1f}, "
            f"slowest {self.slowest:.1f}, at night {self.slowest_at_night:.1f}; of a processor "
            f"{self.worked:.2f}, at most {self.most_worked:.1f}, at night "
            f"{self.most_worked_at_night:.1f}; the night {self.night:.1f} s, of a processor "
            f"{self.processor:.1f} s the day"
        )


class Provider:
    """The server and the filters."""

    def __init__(self, world, recipients):
        self.messages = recipients // OF_A_MESSAGE
        self.path = f"{world.folder}/ledger"
        self.day = int(time.time()) // filled.DAY
        self.first = self.day
        ahead = int(self.day * filled.DAY + MORNING - time.time())
        self.server = Server(
            world,
            connections=0,
            words=["--create", "--endless"],
            store=self.path,
            default=DEFAULT,
            keep=KEEP,
            log="info",
            limit=clocks.limit(ahead),
        )
        self.clock = clocks.Clock(self.server.process.pid, ahead)
        self.hosts = [Smtpd(world, host, self.server.address) for host in HOSTS]
        self.answers, self.chance = collections.Counter(), random.Random(1)
        self.sent = self.nights = 0

    def is_through(self):
        """Whether this day's night is over."""
        return sum("are forgotten" in it for it in self.server.all_log_lines()) > self.nights

    def send(self, count):
        """So many messages of this day; gives the seconds of each recipient, by the clock and of
        the server's processor."""
        taken = []
        for _ in range(count):
            self.sent += 1
            host, session = self.hosts[self.sent % len(HOSTS)], b"%016x" % self.sent
            at, message = int(self.clock.now()), b"%08x" % self.sent
            # (some logins send far more than others)
            login = b"user%d@example.org" % int(LOGINS * self.chance.random() ** 2)
            host.login(at, session, login)
            host.begin(at, session, message)
            for _ in range(OF_A_MESSAGE):
                worked, began = seconds_of_processor(self.server.process), time.monotonic()
                answer = host.recipient(at, session)
                took = time.monotonic() - began
                taken.append((took, seconds_of_processor(self.server.process) - worked))
                self.answers[answer.rstrip().split(b"|", 3)[3]] += 1
            host.commit(at, session, message)
            host.report(at, b"link-disconnect", session, b"")
        return taken

    def pass_night(self, messages):
        """Sends these while a day is forgotten; gives the seconds of each recipient, and how many
        messages are left."""
        taken = []
        while messages and not self.is_through():
            taken += self.send(min(messages, 10))
            messages -= min(messages, 10)
        if not wait_until(self.is_through):
            raise AssertionError(f"day {self.day}: {self.server.all_log_lines()[-3:]}")
        self.nights += 1
        return taken, messages

    def pass_day(self):
        before = processor_time(self.server.process)
        self.clock.pass_to(self.day * filled.DAY + MORNING)
        left = self.messages - self.messages // FIRST_PART
        taken = self.send(self.messages // FIRST_PART)
        self.clock.pass_to(self.day * filled.DAY + NIGHT)
        at_night, began = [], time.monotonic()
        if self.day - self.first > KEEP:
            at_night, left = self.pass_night(left)
        night = time.monotonic() - began
        taken += self.send(left)
        self.day += 1
        order, worked = (sorted(1e3 * it for it in part) for part in zip(*taken))
        slowest_at_night, most_at_night = (
            1e3 * max(part, default=0) for part in zip(*at_night or [(0, 0)])
        )
        files = filter(os.path.exists, (self.path + end for end in ("", "-wal", ".old")))
        return Day(
            os.path.getsize(self.path),
            sum(map(os.path.getsize, files)),
            kilobytes(self.server.process, "VmRSS"),
            statistics.median(order),
            order[len(order) * 999 // 1_000],
            order[-1],
            slowest_at_night,
            statistics.median(worked),
            worked[-1],
            most_at_night,
            night,
            processor_time(self.server.process) - before,
        )

    def end(self):
        statuses = [host.end()[0] for host in self.hosts]
        self.server.__exit__()
        return statuses


def compare(days):
    """Of the first week, in which the file grows, and of the last one the greatest figures, and the
    medians of their days."""
    for name in Day._fields:
        first, last = ([getattr(it, name) for it in part] for part in (days[:WEEK], days[-WEEK:]))
        told = [
            f"{what} {of(first):,.1f} and {of(last):,.1f}, ratio {of(last) / of(first):.2f}"
            for what, of in (("at most", max), ("median", statistics.median))
            if of(first)
        ]
        print(f"{name}: {'; '.join(told)}")


def main():
    parser = argparse.ArgumentParser(
        description=__doc__, formatter_class=argparse.RawDescriptionHelpFormatter
    )
    parser.add_argument("program", metavar="PROGRAM", type=os.path.abspath)
    parser.add_argument(
        "--days", metavar="DAYS", type=int, default=365, help="by default %(default)s"
    )
    parser.add_argument(
        "--recipients",
        metavar="RECIPIENTS",
        type=int,
        default=20_000,
        help="of each day, by default %(default)s",
    )
    asked = parser.parse_args()
    print(f"{os.cpu_count()} processors, load of {os.getloadavg()[0]:.1f}")
    began, days = time.monotonic(), []
    with tempfile.TemporaryDirectory() as folder:
        provider = Provider(World(asked.program, folder), asked.recipients)
        try:
            for place in range(1, asked.days + 1):
                days.append(provider.pass_day())
                print(f"day {place}: {days[-1]}", flush=True)
        finally:
            statuses = provider.end()
    answers = {name.decode(): count for name, count in provider.answers.items()}
    took = time.monotonic() - began
    print(
        f"{asked.days} days of {asked.recipients:,} recipients in {took:.0f} s, "
        f"{provider.nights} nights; answers {answers}; of them 451: {provider.answers[SERVICE]}; "
        f"the filters end with {statuses}"
    )
    compare(days)


if __name__ == "__main__":
    main()
