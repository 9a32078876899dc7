#!/usr/bin/env python3
"""Times what a server with `keep` answers while it forgets days: how long any request waits, and
what it takes of a processor.

Over a file of so many logins, each with a message on one of three days; three tenths are of one
host and settled. The server keeps these days, by a clock of the tests.

    requests    the look for days that are due, at a start and at 03:00, and each kind of request
    retire      the run of that host, six tenths of an answer a login, and that of the other one
    renewal     a night: all kinds of requests while one of the days leaves, and the switch
    retired     the same after a retire of that host's run, which the new file takes over too
    hosts       200 reserves a second of eight hosts, before a night and in it: how long one takes
                from the moment at which it was due, over connections that hosts keep, and over new
                ones

The files lie in a folder of TMPDIR. The machine's load stands first.
"""
import argparse
import itertools
import os
import random
import statistics
import sys
import tempfile
import threading
import time

# (by which those of tests/program are found)
import filled

import clocks
import wire
from audit import kilobytes
from ends import Server, World, copied, processor_time, wait_for_listener

TODAY, KEEP = 21_000, 2
HOST, OTHER = b"mx1.example.org", b"mx2.example.org"
KINDS = ("reserve", "settle", "usage", "list", "quiet list", "limit", "refused limit")
# requests of each kind
EACH = 1_000
# so many hosts ask so often together, first for so many seconds without a night
HOSTS, A_SECOND, BEFORE_NIGHT = 8, 200, 20
# seconds of a day, before a quarter of an hour to 03:00, and after it
BEFORE, AFTER = 10_000, 10_900


def login_of(place):
    return b"user%d@example.org" % place


def messages(logins):
    """Of the later two days nine in twenty are the one host's."""
    for place in range(logins):
        is_the_hosts = place % 3 != 2 and place // 3 % 20 < 9
        host = HOST if is_the_hosts else OTHER
        yield filled.Message(host, login_of(place), TODAY - place % 3, is_the_hosts)


def seconds_of_processor(process):
    """What a process of one thread has run so far, to the nanosecond."""
    with open(f"/proc/{process.pid}/schedstat", encoding="ascii") as stat:
        return int(stat.read().split()[0]) / 1e9


def shown(seconds):
    return f"{1e3 * seconds:.2f}"


def shown_times(taken):
    order = sorted(taken)
    some = [statistics.median(order), order[len(order) * 99 // 100], *order[:-4:-1]]
    return f"{len(order)}, median, 99% and the slowest three {' '.join(map(shown, some))} ms"


class Times:
    """Seconds of some requests, by the clock and of a processor."""

    def __init__(self):
        self.taken, self.worked = [], []

    def add(self, taken, worked):
        self.taken.append(taken)
        self.worked.append(worked)

    def __str__(self):
        worked = [statistics.median(self.worked), max(self.worked)]
        return (
            f"{shown_times(self.taken)}; of a processor, median and slowest,"
            f" {' '.join(map(shown, worked))} ms"
        )


class Peer:
    """Asks a server one thing after the other on one connection, and again on another where that
    was closed."""

    def __init__(self, server, host, days, logins):
        self.server, self.host, self.days, self.logins = server, host, days, logins
        self.sequence, self.chance, self.open = itertools.count(1), random.Random(1), []
        self.peer = self.back = None
        self.closed = 0

    def frame(self, kind):
        login, number = login_of(self.chance.randrange(self.logins)), next(self.sequence)
        new = {"txn": number, "login": login, "at": self.days[-1] * filled.DAY, "host": self.host}
        if kind == "reserve":
            self.open.append(new)
            return wire.reserve(number, **new)
        if kind == "settle":
            return wire.settle(number, **(self.open.pop(0) if self.open else new))
        if kind == "usage":
            return wire.usage(login, self.chance.choice(self.days))
        if kind == "list":
            return wire.page(login, self.chance.choice(self.days))
        if kind == "quiet list":
            return wire.page(b"", self.days[-1] + 7)
        cap = filled.DEFAULT // 2 if kind == "limit" else 0
        return wire.limit(number, self.days[0], cap, login=login, host=self.host)

    def ask(self, frame):
        """The body of the reply."""
        while self.server.process.poll() is None:
            if not self.peer:
                self.peer = self.server.connect()
                self.back = self.peer.makefile("rb")
            try:
                self.peer.sendall(frame)
                size = int.from_bytes(self.back.read(2), "big")
                body = self.back.read(size)
                if size and len(body) == size:
                    return body
            except OSError:
                pass
            self.closed += 1
            self.hang_up()
        sys.exit("the server ended")

    def hang_up(self):
        self.peer.close()
        self.peer = None

    def timed(self, frame, times):
        before, began = seconds_of_processor(self.server.process), time.monotonic()
        body = self.ask(frame)
        taken = time.monotonic() - began
        times.add(taken, seconds_of_processor(self.server.process) - before)
        assert body[0] not in (0x8D, 0x8E), "a request is refused"
        return taken

    def many(self, kind, count=EACH):
        times = Times()
        for _ in range(count):
            self.timed(self.frame(kind), times)
        return times


class Night:
    """A server over a copy of a file, by a clock that shows the last minutes before 03:00."""

    def __init__(self, world, source):
        self.path = copied(source, f"{world.folder}/served")
        ahead, began = int(TODAY * filled.DAY + BEFORE - time.time()), time.monotonic()
        self.server = Server(
            world,
            store=self.path,
            default=filled.DEFAULT,
            keep=KEEP,
            log="info",
            limit=clocks.limit(ahead),
        )
        while not self.server.port and self.server.process.poll() is None:
            self.server.port = wait_for_listener(self.server.process)
        self.took = time.monotonic() - began
        self.clock = clocks.Clock(self.server.process.pid, ahead)

    def __enter__(self):
        return self

    def __exit__(self, *_):
        self.server.__exit__()

    def forgotten(self):
        """The lines of nights that are over."""
        return [line for line in self.server.all_log_lines() if "are forgotten" in line]


def make_source(world, source, logins):
    """A file as a server leaves it, with the index by day. Something was written after that was
    made, so its log is short."""
    filled.write_messages(f"{source}.new", messages(logins))
    with Night(world, f"{source}.new") as night:
        peer = Peer(night.server, b"adm0", [TODAY], logins)
        peer.ask(wire.limit(1, TODAY, filled.DEFAULT, host=b"adm0"))
        night.server.process.kill()
        night.server.process.wait()
    copied(night.path, source)
    os.unlink(f"{source}.new")


def requests(world, source, logins):
    days = [TODAY - 2, TODAY - 1, TODAY]
    with Night(world, source) as night:
        peer, first = Peer(night.server, b"adm1", days, logins), Times()
        peer.timed(peer.frame("usage"), first)
        print(f"  a start {night.took:.1f} s\n  the first request after it: {first}")
        print(f"  usages before 03:00: {peer.many('usage')}")
        peer.hang_up()
        night.clock.pass_to(TODAY * filled.DAY + AFTER)
        print(f"  usages as 03:00 passes: {peer.many('usage')}", flush=True)
        for kind in KINDS:
            print(f"  {kind}: {peer.many(kind)}", flush=True)


def retire(world, source, logins):
    with Night(world, source) as night:
        peer = Peer(night.server, b"adm2", [TODAY], logins)
        peer.ask(peer.frame("usage"))
        settled = sum(it.is_settled for it in messages(logins))
        for host, answers in ((HOST, 2 * settled), (OTHER, logins - settled)):
            times = Times()
            peer.timed(wire.retire(1, host=host, run=2), times)
            print(
                (
                    f"  a retire of {answers:,} answers: {times.taken[0]:.2f} s, of a processor "
                    f"{times.worked[0]:.2f} s, {times.worked[0] / answers * 1e6:.1f} us an answer"
                ),
                flush=True,
            )


def retired(world, source, logins):
    renewal(world, source, logins, [wire.retire(1, host=HOST, run=2)])


def renewal(world, source, logins, before=()):
    """The clock passes to the next day's 03:00 once something was reserved on it."""
    with Night(world, source) as night:
        peer = Peer(night.server, b"adm3", [TODAY - 1, TODAY, TODAY + 1], logins)
        for frame in [*before, peer.frame("reserve")]:
            peer.ask(frame)
        # (as time passes, a connection that is open is late)
        peer.hang_up()
        night.clock.pass_to((TODAY + 1) * filled.DAY + AFTER)
        times, cut, began = {kind: Times() for kind in KINDS}, Times(), time.monotonic()
        worked = processor_time(night.server.process)
        for kind in itertools.cycle(KINDS):
            frame, closed = peer.frame(kind), peer.closed
            peer.timed(frame, times[kind])
            # (a connection is closed when it is two minutes old, too)
            if peer.closed > closed and night.forgotten():
                cut.add(times[kind].taken.pop(), times[kind].worked.pop())
                break
        worked = processor_time(night.server.process) - worked
        print(f"  a night {time.monotonic() - began:.0f} s, of a processor {worked:.0f} s")
        for kind in KINDS:
            print(f"  {kind} meanwhile: {times[kind]}")
        print(f"  the request that the switch cut off: {cut}\n  {night.forgotten()[0]}")
        for kind in KINDS:
            print(f"  {kind} after it: {peer.many(kind, EACH // 10)}")
        sizes = [f"{os.path.getsize(night.path + end) / 1e6:.0f} MB" for end in ("", ".old")]
        memory = kilobytes(night.server.process, "VmRSS") // 1_024
        print(f"  the file, and the former one: {' and '.join(sizes)}; memory {memory} MB")


class Host(threading.Thread):
    """A host that reserves so often, by a plan that no reply puts off, until it is told to end."""

    def __init__(self, server, place, begins, keeps, logins):
        super().__init__()
        self.begins, self.keeps = begins + place / A_SECOND, keeps
        self.peer = Peer(server, b"mx%d" % place, [TODAY, TODAY + 1], logins)
        # each with the moment at which it was due
        self.taken, self.cut, self.goes_on = [], [], True

    def run(self):
        for number in itertools.count():
            due = self.begins + number * HOSTS / A_SECOND
            time.sleep(max(0, due - time.monotonic()))
            if not self.goes_on:
                return
            closed = self.peer.closed
            body = self.peer.ask(self.peer.frame("reserve"))
            assert body[0] == 0x81, "a reserve isn't granted"
            taken = time.monotonic() - due
            (self.taken if self.peer.closed == closed else self.cut).append((due, taken))
            if not self.keeps:
                self.peer.hang_up()


def hosts(world, source, logins):
    for keeps in (True, False):
        with Night(world, source) as night:
            begins = time.monotonic() + 1
            all_of_them = [Host(night.server, it, begins, keeps, logins) for it in range(HOSTS)]
            for it in all_of_them:
                it.start()
            time.sleep(BEFORE_NIGHT)
            worked, began = processor_time(night.server.process), time.monotonic()
            night.clock.pass_to((TODAY + 1) * filled.DAY + AFTER)
            while not night.forgotten():
                time.sleep(0.2)
            ended = time.monotonic()
            worked = processor_time(night.server.process) - worked
            time.sleep(2)
            for it in all_of_them:
                it.goes_on = False
            for it in all_of_them:
                it.join()
        told = f"  {'kept' if keeps else 'new'} connections"
        print(f"{told}: a night {ended - began:.0f} s, of a processor {worked:.0f} s")
        for name, first, last in (("before it", begins, began), ("in it", began, ended)):
            taken = [s for it in all_of_them for due, s in it.taken if first <= due < last]
            print(f"  reserves {name}: {shown_times(taken)}")
        cut = sorted((due - began, s) for it in all_of_them for due, s in it.cut)
        cut = [f"{shown(s)} ms at {due:.1f} s" for due, s in cut]
        print(f"  those whose connection was closed: {', '.join(cut)}", flush=True)


PARTS = {
    "requests": requests,
    "retire": retire,
    "renewal": renewal,
    "retired": retired,
    "hosts": hosts,
}


def main():
    parser = argparse.ArgumentParser(
        description=__doc__, formatter_class=argparse.RawDescriptionHelpFormatter
    )
    parser.add_argument("program", metavar="PROGRAM", type=os.path.abspath)
    parser.add_argument(
        "--logins", metavar="LOGINS", type=int, default=1_000_000, help="by default %(default)s"
    )
    parser.add_argument(
        "--file", metavar="FILE", help="the file to begin with, which is made where there is none"
    )
    parser.add_argument(
        "parts",
        metavar="PART",
        nargs="*",
        default=list(PARTS),
        help="one of those above, by default each",
    )
    asked = parser.parse_intermixed_args()
    if not {*asked.parts} <= {*PARTS}:
        parser.error(f"a part is one of {', '.join(PARTS)}")
    print(f"{os.cpu_count()} processors, load of {os.getloadavg()[0]:.1f}, {asked.logins:,} logins")
    with tempfile.TemporaryDirectory() as folder:
        world, source = World(asked.program, folder), asked.file or f"{folder}/source"
        if not os.path.exists(source):
            make_source(world, source, asked.logins)
        for part in asked.parts:
            PARTS[part](world, source, asked.logins)


if __name__ == "__main__":
    main()
