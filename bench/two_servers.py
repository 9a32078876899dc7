#!/usr/bin/env python3
"""A year with two quota servers by simulation: each has a ledger of its own and `keep = 2`, an
address moves between them, filters of two hosts ask there, and there is trouble at random.

The first week has none, but that both servers are restarted. Then servers are killed, also late in
a night, disks are full, clocks of hosts and servers are a day and many years off, replies are lost,
filters are restarted, and a clone has a host's name. It holds of each day and login, by both
ledgers:

- no more went out than both limits allow, and it is counted;
- what is counted beyond it is of messages in which something happened: at most each of their
  recipients at both servers.

And at all times:

- 451 is answered while no server has the address, by a filter that is retired, and for a day that
  is far ahead, which then isn't in a ledger; and for nothing else;
- a server comes up on no disk without room for its reserve and the margin above it;
- days leave by the end of the next day, and files and memory stay as in the first week;
- both ledgers are sound in the end.

Each that doesn't is a line that begins with BROKEN, and makes the status 1. Only root can mount the
small file systems in memory that are filled: without them no disk is full.
"""
import argparse
import collections
import contextlib
import os
import random
import signal
import statistics
import subprocess
import sys
import tempfile
import time
from typing import NamedTuple

# (by which those of tests/program are found)
import filled

import troubles
from cases.filters import LIMIT, PROCEED, SERVICE
from ends import World
from moving import Disk, Site

KEEP, OF_A_MESSAGE, WEEK, A_WHOLE_YEAR = 2, 4, 7, 365
HOSTS = ("mx1.example.org", "mx2.example.org")
# Seconds of a day, and the share of its messages that are sent by the next of them.
MORNING, NIGHT, NOON, EVENING = 60, 3 * 3_600 + 60, 12 * 3_600, 22 * 3_600
PARTS = ((MORNING, 0.125), (NIGHT, 0.5), (NOON, 1))
# A server looks each quarter of an hour, by its clock, which days are due.
QUARTER = 15 * 60 + 10
# How often each message is rolled back.
ROLLED_BACK = 0.1
# How much more than in the first week files and memory may be: a ledger that has the address again
# may have days of two times. Small ones vary by some bytes.
RATIO, SOME = 1.5, 8_000_000
# For how many seconds of a real clock days are waited for that are to leave: those that may leave
# tomorrow, and those that have to be gone by now.
TODAY, OVERDUE = 3, 120
# So many of what is broken are told one by one.
TOLD = 200


class Day(NamedTuple):
    """Of a day: what smtpd was answered, the greatest ledger and all files of a server in bytes,
    its memory in kilobytes, milliseconds of a recipient, and seconds."""

    through: int
    refused: int
    unanswered: int
    ledger: int
    files: int
    memory: int
    median: float
    slowest: float
    took: float

    def __str__(self):
        return (
            f"{self.through} through, {self.refused} 550, {self.unanswered} 451; "
            f"{self.ledger / 1e6:.1f} of {self.files / 1e6:.1f} MB, memory {self.memory >> 10} MB; "
            f"{self.median:.1f} ms, at most {self.slowest:.0f}; {self.took:.0f} s"
        )


class Year:
    """The site, what was sent there, and what is wrong."""

    def __init__(self, site, asked, defaults):
        self.site, self.address, self.defaults = site, site.address, defaults
        self.first = site.calendar.today()
        self.messages = max(asked.recipients // OF_A_MESSAGE, 1)
        self.troubles = troubles.Troubles(site, asked.seed, self.messages)
        self.dice = random.Random(f"messages {asked.seed}")
        self.sent, self.share = 0, 0.0
        # of each day and login: recipients that went out, and those that may be counted beyond
        self.out = collections.defaultdict(collections.Counter)
        self.more = collections.defaultdict(collections.Counter)
        # recipients of the year, and those that nobody could let through, by the trouble and login
        self.answers, self.times = collections.Counter(), []
        self.reasons, self.of_logins = collections.Counter(), collections.Counter()
        self.sums = collections.Counter()
        self.newest = {}
        self.late = self.broken = 0
        for name in HOSTS:
            site.new_host(name)

    def today(self):
        return self.site.calendar.today() - self.first + 1

    def hold(self, holds, told):
        """Says what is broken, unless this holds."""
        self.broken += not holds
        if not holds and self.broken <= TOLD:
            print(f"BROKEN on day {self.today()}, {self.troubles.last}: {told}", flush=True)

    # ---- messages

    def tick(self):
        self.troubles.tick(self.today() + self.share)
        self.tell_wrong()

    def tell_wrong(self):
        while self.site.wrong:
            self.hold(False, self.site.wrong.pop(0))

    def send(self):
        """A message of the host whose turn it is."""
        self.sent += 1
        host = self.site.senders[self.sent % len(self.site.senders)]
        self.troubles.busy = host
        session, message = b"%016x" % self.sent, b"%08x" % self.sent
        # (some logins send far more than others)
        login = b"user%d@example.org" % int(self.messages * self.dice.random() ** 2)
        at, changes = host.now(), self.address.changes
        host.login(at, session, login)
        host.begin(at, session, message)
        asked = through = 0
        for _ in range(OF_A_MESSAGE):
            self.tick()
            # (its smtpd may end)
            if host in self.site.senders:
                asked += 1
                through += self.recipient(host, at, session, login)
        self.tick()
        out = through if self.finish(host, at, session, message) else 0
        self.troubles.busy = None
        self.out[at // filled.DAY][login] += out
        if changes != self.address.changes:
            self.more[at // filled.DAY][login] += len(self.defaults) * asked - out

    def finish(self, host, at, session, message):
        """Whether the message goes out."""
        goes_out = self.dice.random() >= ROLLED_BACK
        if host not in self.site.senders:
            return False
        if goes_out:
            host.commit(at, session, message)
        else:
            host.report(at, b"tx-rollback", session, message)
        host.report(at, b"link-disconnect", session, b"")
        host.has_done(at)
        return goes_out

    def recipient(self, host, at, session, login):
        """Whether it is let through."""
        why, began = self.reason(host, at), time.monotonic()
        answer = host.recipient(at, session).rstrip().split(b"|", 3)[3]
        self.times.append(time.monotonic() - began)
        self.answers[answer] += 1
        told = f"a recipient of {login.decode()} by {host.name}"
        self.hold(why is None or answer != PROCEED, f"{told} is let through, but {why}")
        if answer == SERVICE:
            why = why or self.reason(host, at, patience=5)
            self.hold(why, f"{told} gets 451")
            self.reasons[f"{self.troubles.last}, {why}"] += 1
            self.of_logins[login] += 1
        return answer == PROCEED

    def reason(self, host, at, patience=0):
        """Why nobody can be let through, where there is a reason, or there is one soon: a server
        may end by this very request."""
        if host.is_retired:
            return "its run is retired"
        if at // filled.DAY > self.site.calendar.today() + 1:
            return "its day is far ahead"
        end = time.monotonic() + patience
        while self.address.holder.is_up():
            if time.monotonic() >= end:
                return None
            time.sleep(0.01)
        return "no server has the address"

    # ---- a day

    def pass_to(self, second):
        self.site.pass_to(self.site.calendar.today() * filled.DAY + second)

    def pass_day(self):
        began, before = time.monotonic(), collections.Counter(self.answers)
        self.times, sent = [], 0
        for second, share in PARTS:
            self.pass_to(second)
            if second == NIGHT:
                self.troubles.kill_at_night(self.today())
            while sent < int(self.messages * share):
                self.share = sent / self.messages
                self.send()
                sent += 1
        self.troubles.finish()
        self.tell_wrong()
        self.pass_to(EVENING)
        self.check_days()
        self.check_sums(self.site.calendar.today() - 1)
        return self.figures(self.answers - before, began)

    def figures(self, answers, began):
        machines = self.site.machines
        ledgers, files = zip(*(it.bytes_of_files() for it in machines))
        memory = max(it.memory() for it in machines)
        told = [answers[it] for it in (PROCEED, LIMIT, SERVICE)]
        median, slowest = 1e3 * statistics.median(self.times), 1e3 * max(self.times)
        took = time.monotonic() - began
        return Day(*told, max(ledgers), max(files), memory, median, slowest, took)

    def restart_servers(self):
        """Both, so that the first week's memory is that of a start too."""
        for machine in self.site.machines:
            self.site.end(machine, signal.SIGTERM)
            self.site.start(machine)

    # ---- what holds

    def check_days(self):
        """Each ledger has its last days alone, none that is far ahead, and at most until the next
        day one that was due today."""
        today, old = self.site.calendar.today(), self.troubles.old_days
        for machine in self.site.machines:
            days = [day for day in range(today - 10, today + 2) if machine.page(day)]
            newest, before = min(max(days, default=0), today), self.newest.get(machine.name, 0)
            self.newest[machine.name] = newest
            if not self.have_left(machine, newest - KEEP, TODAY):
                self.late += 1
                good = self.have_left(machine, before - KEEP, OVERDUE)
                self.hold(good, f"the {machine.name} server has days before those that it keeps")
            far = [day for day in self.troubles.far_days if machine.page(day)]
            self.hold(not far, f"the {machine.name} server has a day that is far ahead")
        self.troubles.far_days.clear()
        for day in [day for day, came in old.items() if came < today - KEEP]:
            del old[day]

    def have_left(self, machine, first, seconds):
        """Whether the days before this one have left, within so many seconds."""
        old = [day for day, came in self.troubles.old_days.items() if came < first + KEEP]
        past = [day for day in (*range(first - 10, first), *old) if day > 0]
        end, looks_again = time.monotonic() + seconds, True
        while any(machine.page(day) for day in past):
            if time.monotonic() > end:
                return False
            if looks_again:
                self.site.pass_to(self.site.calendar.now() + QUARTER)
                looks_again = False
            time.sleep(0.05)
        return True

    def check_sums(self, day):
        """What went out of a day is what both ledgers count, as far as nothing happened."""
        used = [machine.usage(day) for machine in self.site.machines]
        out, more = self.out[day], self.more[day]
        for login in {*out, *more, *used[0], *used[1]}:
            counted, caps = zip(
                *(of.get(login, (0, default)) for of, default in zip(used, self.defaults))
            )
            told = (
                f"{login.decode()}, day {day - self.first + 1}: {out[login]} went out, "
                f"{counted} counted of {caps}, {more[login]} more may be"
            )
            self.hold(out[login] <= sum(caps), f"above both limits: {told}")
            self.hold(all(map(int.__le__, counted, caps)), f"above a limit: {told}")
            self.hold(out[login] <= sum(counted), f"uncounted: {told}")
            self.hold(sum(counted) <= out[login] + more[login], f"counted for nothing: {told}")
            self.sums.update(out=out[login], counted=sum(counted), more=more[login])
        # (earlier ones are of clocks that were ten years slow: their days may leave at any time)
        for it in [it for it in self.out if it <= day]:
            del self.out[it]
            self.more.pop(it, None)

    def end(self):
        for host in list(self.site.senders):
            self.site.leave(host)
        self.tell_wrong()
        for machine in self.site.machines:
            machine.end(signal.SIGTERM)
            status, said = machine.audit()
            good = status == 0 and said.startswith(b"sound ")
            self.hold(good, f"the audit of the {machine.name} server's ledger: {said}")
            print(
                f"the {machine.name} server: {machine.nights} nights, the longest "
                f"{machine.longest_night / 1e3:.1f} s, {machine.longest_switch} ms of it without an"
                f" answer; {said.decode().strip()}"
            )

    def compare(self, days, quiet):
        """Files and memory after the first days are as in those."""
        for name, unit in (("ledger", 1), ("files", 1), ("memory", 1_024)):
            first, later, last = (
                max(unit * getattr(it, name) for it in part)
                for part in (days[:quiet], days[quiet:] or days, days[-quiet:])
            )
            told = (
                f"{name}: at most {first / 1e6:.1f} MB in the first {quiet} days,"
                f" {later / 1e6:.1f} MB later, {last / 1e6:.1f} MB in the last {quiet}"
            )
            print(told)
            self.hold(later <= RATIO * first + SOME, told)

    def sum_up(self):
        answers = {it.decode(): count for it, count in self.answers.items()}
        happened = sorted(collections.Counter(self.troubles.happened).items())
        most = max(self.of_logins.values(), default=0)
        print(f"answers: {answers}")
        print(f"the address moved {self.address.moves} times; {spelled(happened)}")
        print(f"451 at {spelled(sorted(self.reasons.items())) or 'nothing'}; of a login {most}")
        print(
            f"{self.sums['out']:,} went out, {self.sums['counted']:,} are counted by both ledgers,"
            f" {self.sums['more']:,} more might be; {self.late} times a day was due and left a day"
            " later"
        )
        print(f"{self.broken} broken" if self.broken else "nothing is broken")


def spelled(counts):
    return "; ".join(f"{what}: {count}" for what, count in counts)


def play(program, asked, stack):
    """Whether nothing is broken."""
    world = World(program, stack.enter_context(tempfile.TemporaryDirectory()))
    size, without = 64_000_000 + 8_000 * asked.recipients, set(asked.without)
    folders = [f"{world.folder}/disk{it}" for it in (1, 2)]
    for it in folders:
        os.mkdir(it)
    disks = [Disk(it, size) for it in folders]
    try:
        for it in disks:
            stack.enter_context(it)
    except (OSError, subprocess.CalledProcessError):
        print("no file system can be mounted here: no disk is full")
        without.add("full disk")
    default = max(8, min(40, asked.recipients // 15))
    defaults = default, default // 2
    year = Year(Site(world, disks, defaults, stack, keep=KEEP), asked, defaults)
    quiet, days = WEEK if asked.days >= 4 * WEEK else KEEP + 2, []
    if asked.days > quiet + 1:
        names = [it for it in troubles.EVERY_YEAR if it not in without]
        year.troubles.plan(quiet + 1, asked.days - 1, names)
    for place in range(1, asked.days + 1):
        days.append(year.pass_day())
        print(f"day {place}: {days[-1]}", flush=True)
        if place == quiet - 1:
            year.restart_servers()
        year.pass_to(filled.DAY)
    year.check_sums(year.site.calendar.today() - 1)
    year.end()
    year.compare(days, quiet)
    year.sum_up()
    return not year.broken


def main():
    parser = argparse.ArgumentParser(
        description=__doc__, formatter_class=argparse.RawDescriptionHelpFormatter
    )
    parser.add_argument("program", metavar="PROGRAM", type=os.path.abspath)
    for name, default, what in (
        ("days", A_WHOLE_YEAR, "by default %(default)s"),
        ("recipients", 20_000, "of each day, by default %(default)s"),
        ("seed", 1, "of what happens when, by default %(default)s"),
    ):
        parser.add_argument(f"--{name}", metavar=name.upper(), type=int, default=default, help=what)
    parser.add_argument(
        "--without",
        metavar="TROUBLE",
        action="append",
        default=[],
        choices=troubles.EVERY_YEAR,
        help="leave it out: one of %(choices)s",
    )
    asked = parser.parse_args()
    print(f"{os.cpu_count()} processors, load of {os.getloadavg()[0]:.1f}; seed {asked.seed}")
    # (so that all ends where this does)
    signal.signal(signal.SIGTERM, lambda *_: sys.exit(1))
    began = time.monotonic()
    with contextlib.ExitStack() as stack:
        is_good = play(asked.program, asked, stack)
    print(
        f"{asked.days} days of {asked.recipients:,} recipients in {time.monotonic() - began:.0f} s"
    )
    return 0 if is_good else 1


if __name__ == "__main__":
    sys.exit(main())
