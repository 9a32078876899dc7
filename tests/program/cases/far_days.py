"""Reserves for a day that is later than tomorrow: a server doesn't take them, says so, and nothing
of them counts. Today is by its clock; while that lies before all days of the ledger it goes on from
the newest of them. Each server runs by a clock of its own."""
import contextlib
import itertools
import time

import clocks
import wire
from cases.filters import PROCEED, SERVICE
from cases.nights import audit
from cases.stopping import stop, stopped
from cases.watching import WARN, Watched, ahead_line, clock_line, noon
from ends import wait_until
from rows import rows_in
from smtpd import Smtpd, result

# a day of 2026, and one of 1970
DAY, EARLY = 20_800, 2
TEN_YEARS = 3_653
DEFAULT = 1_000
NUMBERS = itertools.count(1)


def run(world, checks):
    ten_years_ahead(world, checks)
    closings(world, checks)
    beside_others(world, checks)
    once_an_hour(world, checks)
    days_about_today(world, checks)
    behind_all_days(world, checks)
    falls_behind(world, checks)
    far_days_of_a_ledger(world, checks)
    without_days(world, checks)


class Dated(Watched):
    """A server whose clock shows noon of a day as it begins, and what it logs."""

    def __init__(self, world, day, **settings):
        ahead = int(noon(day) - time.time())
        super().__init__(world, **{"default": DEFAULT, "limit": clocks.limit(ahead), **settings})
        self.clock = clocks.Clock(self.server.process.pid, ahead)

    def reserves(self, day, **sender):
        """What a reserve of this day is answered, and the lines that come of it."""
        return self.ask(of_day(next(NUMBERS), day, **sender))

    def lines_of_a_night(self):
        """All lines so far. It is asked before, since a night goes on beside requests."""
        self.server.ask(wire.page(day=DAY))
        return self.server.all_log_lines()

    def takes(self, *days):
        """Of which of these days a reserve is granted. Of the others it gets `Retry`."""
        replies = {day: self.reserves(day)[0] for day in days}
        odd = {day: it for day, it in replies.items() if it[2:3] != b"\x81" and it != wire.RETRY}
        return odd or [day for day, it in replies.items() if it != wire.RETRY]


def of_day(number, day, **sender):
    return wire.reserve(number, txn=number, at=noon(day), **sender)


def made(world, name, *days):
    """A ledger's file with a reserve of each of these days, and a log of its own."""
    path = f"{world.folder}/far-{name}"
    with Dated(world, max(days), words=["--create"], store=path) as it:
        assert it.takes(*days) == list(days), days
    return path


def ten_years_ahead(world, checks):
    """A host that dates a message so gets 451, and nothing of it counts: no day, no transaction that
    holds anything, nothing that `stop` has to leave; and days go on leaving the ledger."""
    path, far = made(world, "ten-years", DAY - 1), DAY + TEN_YEARS
    with Dated(world, DAY, store=path, keep=1, log="info") as it, contextlib.ExitStack() as ends:
        filter_ = Smtpd(world, "mx1", it.server.address)
        ends.callback(filter_.end)
        came = []
        for session, day in ((b"s1", DAY), (b"s2", far), (b"s3", DAY), (b"s4", far)):
            filter_.login(noon(day), session, b"alice")
            filter_.begin(noon(day), session, b"m-" + session)
            came.append(filter_.recipient(noon(day), session))
        checks.equal(
            "ten years ahead: recipients of today and of then, by turns",
            came,
            [result(PROCEED if n % 2 else SERVICE, b"s%d" % n) for n in (1, 2, 3, 4)],
        )
        checks.equal(
            "ten years ahead: the lines of both",
            [said for level, _, said in it.new_lines() if level == WARN],
            [ahead_line("mx1", far, DAY)[1]],
        )
        checks.equal(
            "ten years ahead: stop",
            stop(world, it.server.address, "alice", DAY),
            stopped(2, DEFAULT, "alice", DAY),
        )
        for session in (b"s2", b"s4"):
            filter_.report(noon(far), b"tx-rollback", session, b"m-" + session)
        checks.equal("ten years ahead: the filter goes on", filter_.is_done(), True)
        found = rows_in(path, ["usage", "trans"])
        checks.equal(
            "ten years ahead: days with a use, and what transactions of later ones hold",
            (
                sorted({row[1] for row in found["usage"]}),
                [row for row in found["trans"] if row[5] > DAY and (row[6], row[7]) != (0, 0)],
            ),
            ([DAY - 1, DAY], []),
        )
        # (lines of the limits that were lowered)
        it.new_lines()
        it.clock.pass_to(noon(DAY + 1))
        checks.equal("ten years ahead: the next day", it.takes(DAY + 1), [DAY + 1])
        line = f"the days before {DAY} are forgotten"
        checks.equal(
            "ten years ahead: days leave in the next night",
            wait_until(lambda: any(line in one for one in it.lines_of_a_night())),
            True,
        )
    checks.equal(
        "ten years ahead: the days that are left",
        sorted({row[1] for row in rows_in(path, ["usage"])["usage"]}),
        [DAY, DAY + 1],
    )
    checks.equal("ten years ahead: audit", audit(world, path, default=DEFAULT)[0], 0)


def closings(world, checks):
    """What ends a transaction is taken, whatever its day is: a ledger may have one of a far day."""
    path, far = made(world, "closings", DAY, DAY + TEN_YEARS), DAY + TEN_YEARS
    granted = {row[5]: (row[1], row[2]) for row in rows_in(path)["trans"]}[far]
    with Dated(world, DAY, store=path) as it:
        number = next(NUMBERS)
        checks.equal(
            "a settle of a transaction of a far day",
            it.ask(wire.settle(number, txn=granted[1], at=noon(far))),
            (wire.settled(number, 1), []),
        )
        number = next(NUMBERS)
        checks.equal(
            "a release of one that isn't there",
            it.ask(wire.release(number, txn=number, at=noon(far))),
            (wire.released(number, 0), []),
        )


def beside_others(world, checks):
    """Reserves that came together: one that is ahead isn't taken, and the others are granted."""
    with Dated(world, DAY) as it:
        days = [DAY, DAY + 2, DAY + 1, DAY - 5]
        peers = [it.server.connect() for _ in days]
        with it.server.stopped():
            for n, (peer, day) in enumerate(zip(peers, days), start=1):
                peer.sendall(of_day(n, day, login=b"u%d" % n))
        came = [peer.recv(100) for peer in peers]
        for peer in peers:
            peer.close()
        checks.equal(
            "together, one of which is ahead",
            came,
            [wire.granted(1, 1), wire.RETRY, wire.granted(3, 1), wire.granted(4, 1)],
        )


def once_an_hour(world, checks):
    """That a host is ahead is told once an hour, as other far days of it are."""
    with Dated(world, DAY) as it:
        checks.equal(
            "a host that is ahead, and again; another one; and one of an early day",
            [
                it.reserves(day, host=host)[1]
                for host, day in [(b"a", DAY + 2), (b"a", DAY + 9), (b"b", DAY + 3), (b"a", 9)]
            ],
            [[ahead_line("a", DAY + 2, DAY)], [], [ahead_line("b", DAY + 3, DAY)], []],
        )
        # (whole seconds pass, and of what is left of one none does)
        it.clock.pass_to(it.clock.now() + 3_601)
        checks.equal(
            "an hour later",
            it.reserves(DAY + 2, host=b"a"),
            (wire.RETRY, [ahead_line("a", DAY + 2, DAY)]),
        )


def days_about_today(world, checks):
    """Tomorrow is taken, and no later day, also once tomorrow was."""
    with Dated(world, DAY) as it:
        for turn in ("", ", and again"):
            checks.equal(
                f"days about today{turn}",
                it.takes(1, DAY - 2, DAY, DAY + 1, DAY + 2, DAY + 3, DAY + TEN_YEARS, 376_199),
                [1, DAY - 2, DAY, DAY + 1],
            )
        it.clock.pass_to(noon(DAY + 1))
        checks.equal("a day later", it.takes(DAY + 1, DAY + 2, DAY + 3), [DAY + 1, DAY + 2])


def behind_all_days(world, checks):
    """A server whose clock shows 1970 goes on from the newest day of its ledger, a day each day,
    and by its clock once that is set."""
    path = made(world, "behind", DAY - 1, DAY)
    with Dated(world, EARLY, store=path) as it:
        checks.equal(
            "a clock of 1970: a host of today",
            it.reserves(DAY, host=b"now")[1],
            [clock_line("now", DAY, EARLY)],
        )
        checks.equal(
            "a clock of 1970: a host that is ahead",
            it.reserves(DAY + 2, host=b"far"),
            (wire.RETRY, [ahead_line("far", DAY + 2, DAY)]),
        )
        for turn in ("", ", and again"):
            checks.equal(
                f"a clock of 1970: days{turn}",
                it.takes(DAY, DAY + 1, DAY + 2, DAY + TEN_YEARS),
                [DAY, DAY + 1],
            )
        it.clock.pass_to(noon(EARLY + 5))
        checks.equal(
            "a clock of 1970, five days later",
            it.takes(DAY + 5, DAY + 6, DAY + 7),
            [DAY + 5, DAY + 6],
        )
        it.clock.jump_to(noon(DAY + 1))
        checks.equal(
            "the clock is set right",
            it.takes(DAY + 1, DAY + 2, DAY + 3, DAY + 6),
            [DAY + 1, DAY + 2],
        )
    with Dated(world, DAY + 1, store=path) as it:
        checks.equal(
            "a start by a right clock, which isn't after the newest day",
            it.takes(DAY + 1, DAY + 2, DAY + 3, DAY + 6),
            [DAY + 1, DAY + 2],
        )


def falls_behind(world, checks):
    """The clock of a server is set to 1970 meanwhile: it goes on from what was today."""
    for what, path in [
        ("of a ledger that had none", f"{world.folder}/far-falls"),
        ("of a ledger", made(world, "falls-behind", DAY - 3)),
    ]:
        words = [] if what == "of a ledger" else ["--create"]
        with Dated(world, DAY, store=path, words=words) as it:
            came = [it.takes(DAY, DAY + 1, DAY + 2)]
            it.clock.jump_to(noon(EARLY))
            came.append(it.takes(DAY, DAY + 1, DAY + 2))
            it.clock.pass_to(noon(EARLY + 1))
            came.append(it.takes(DAY + 1, DAY + 2, DAY + 3))
            it.clock.jump_to(noon(DAY + 1))
            came.append(it.takes(DAY + 1, DAY + 2, DAY + 3))
        later = [DAY + 1, DAY + 2]
        sooner = [DAY, DAY + 1]
        checks.equal(f"a clock that falls behind, {what}", came, [sooner, sooner, later, later])


def far_days_of_a_ledger(world, checks):
    """A far day that is in the ledger lets no other one in; but where the clock is behind all days,
    it is the newest."""
    far = DAY + TEN_YEARS
    path = made(world, "has-far-days", DAY, far)
    with Dated(world, DAY, store=path) as it:
        checks.equal(
            "a ledger that has a far day",
            it.takes(DAY, DAY + 1, DAY + 2, far, far + 1),
            [DAY, DAY + 1],
        )
    with Dated(world, EARLY, store=path) as it:
        checks.equal(
            "a ledger that has a far day, and a clock of 1970",
            it.takes(DAY, DAY + 2, far + 1, far + 2),
            [DAY, DAY + 2, far + 1],
        )


def without_days(world, checks):
    """Over a new ledger a clock of 1970 is today, until it is set right."""
    with Dated(world, EARLY) as it:
        checks.equal("a new ledger, and a clock of 1970", it.takes(DAY, EARLY + 1), [EARLY + 1])
        it.clock.jump_to(noon(DAY))
        checks.equal(
            "a new ledger, and the clock is set right",
            it.takes(DAY, DAY + 1, DAY + 2),
            [DAY, DAY + 1],
        )
