"""The last seconds of a day and the first of the next one, by a clock that a case sets, in zones
whose days begin at no quarter of an hour: what commands mean by today, which days a server takes
for wrong ones, and that a night begins at 03:00.

A zone here is how many seconds a day begins before UTC's.
"""
import os
import re

import clocks
from cases.stopping import caps, not_today
from ends import OF_REQUESTS, Server, fault, ledger_settings, wait_until
from wire import RETRY, limit, page, reserve

SECONDS_OF_DAY = 86_400
DAY = 20_784
KEEP = 2
# so many seconds before UTC's the days begin, and how settings spell that
ZONES = [
    (0, {"offset": 0}),
    (60, {"offset": 1}),
    (-43_140, {"offset": -719}),
    (49_020, {"offset": 817}),
    (-43_140, {"offset": None, "rule": "<-1159>11:59"}),
    (49_041, {"offset": None, "rule": "LMT-13:37:21"}),
]
# so many seconds before a midnight a run begins that has to end before it
BEFORE = 45


def run(world, checks):
    for east, zone in ZONES:
        what = f"{zone.get('rule') or zone['offset']}"
        days_of_commands(world, checks, what, east, zone)
        days_of_a_server(world, checks, what, east, zone)
        nights_at_three(world, checks, what, east, zone)


def begin_of(day, east):
    """The first second of a day."""
    return SECONDS_OF_DAY * day - east


# ---- commands


def days_of_commands(world, checks, what, east, zone):
    path = f"{world.folder}/midnight-{what.strip('<>')}"
    frames = [
        reserve(n, txn=n, at=begin_of(day, east) + second, count=count)
        for n, (day, second, count) in enumerate(
            [
                (DAY - 2, 0, 4),
                (DAY - 1, 0, 2),
                (DAY - 1, SECONDS_OF_DAY - 1, 1),
                (DAY, 0, 5),
                (DAY + 1, 0, 6),
            ],
            start=1,
        )
    ]
    # what is used of each day, and how many answers are of it or later
    used = {DAY - 2: 4, DAY - 1: 3, DAY: 5}
    later = {DAY - 1: 4, DAY: 2, DAY + 1: 1}
    with Server(world, words=["--create"], store=path, default=9, **zone) as server:
        server.ask(b"".join(frames))
    with Server(world, default=9, **zone) as server:
        server.ask(b"".join(frames))
        config = ledger_settings(world, path, default=9, **zone)
        asks = ["--config", config, "--server", server.address]

        def told(name, moment, today):
            """What the commands come to that mean this day by today at a moment, and what they
            should."""
            limit, stop, resume = (f"{of}-{name}" for of in ("limit", "stop", "resume"))

            def at(*words):
                return world.run(*words, limit=clocks.at(moment))

            def limits_of(login):
                return caps(server, login.encode(), today - 1, today, today + 1)

            def forgot(day):
                into = f"{path}.{day}-{name}"
                return at("forget", "--config", config, "--before", str(day), "--into", into)

            def report(ago):
                return f"      0       {used[today - ago]}       9 u\n".encode()

            stopped = f"stopped: {stop} used 0 on day {today}\nlimit before: 9\n"
            resumed = f"resumed: {resume} may use 3 on day {today}\n"
            kept = f"kept answers={later[today]} of 5, limits=0\n"
            return {
                "day": (at("day", "--config", config), (0, f"{today}\n".encode(), "")),
                "report": (at("report", *asks, "u"), (0, report(0), "")),
                "report --ago 1": (at("report", *asks, "--ago", "1", "u"), (0, report(1), "")),
                "limit": (
                    (at("limit", *asks, limit, "7"), limits_of(limit)),
                    ((0, b"set\n", ""), [9, 7, 7]),
                ),
                "stop": (
                    (at("stop", *asks, "--force", stop), limits_of(stop)),
                    ((0, stopped.encode(), ""), [9, 0, 0]),
                ),
                "stop --ago 1": (
                    at("stop", *asks, "--ago", "1", "u"),
                    not_today(today - 1, today),
                ),
                "resume": (
                    (at("resume", *asks, "--cap", "3", resume), limits_of(resume)),
                    ((0, resumed.encode(), ""), [9, 3, 3]),
                ),
                "forget before today": (forgot(today), (0, kept.encode(), "")),
                "forget before tomorrow": (forgot(today + 1), fault("day is after today")),
            }

        midnight = begin_of(DAY, east)
        for second, moment, today in (
            ("before it", midnight - BEFORE, DAY - 1),
            ("from it on", midnight, DAY),
        ):
            its = told(f"{today - DAY + 1}", moment, today)
            for name, (came, wanted) in its.items():
                checks.equal(f"midnight of zone {what}, {second}: {name}", came, wanted)


# ---- a server


def days_of_a_server(world, checks, what, east, zone):
    """What is reserved of a day that is two away from today is warned of, by the server's clock and
    zone, to the second; and isn't taken, where that day is to come."""
    midnight = begin_of(DAY, east)
    for second, moment, today in (
        ("before it", midnight - BEFORE, DAY - 1),
        ("from it on", midnight, DAY),
    ):
        with Server(world, default=9, limit=clocks.at(moment), **zone) as server:
            taken = []
            for n, day in enumerate(range(DAY - 3, DAY + 3), start=1):
                # (the first second of a day, or its last)
                at = begin_of(day, east) + (0 if n % 2 else SECONDS_OF_DAY - 1)
                reply = server.ask(reserve(n, txn=n, at=at, host=b"mx%d" % n, login=b"u%d" % n))
                if reply != RETRY:
                    taken.append(day)
            lines = [it for it in server.all_log_lines() if OF_REQUESTS in it]
        came = [re.sub(r".*: host", "host", it, count=1) for it in lines]
        wanted = [
            (
                f"host mx{n} reserves for day {day}, and today is day {today}: its clock or the"
                f" server's is wrong{', and its recipients get 451' * (day > today)}"
            )
            for n, day in enumerate(range(DAY - 3, DAY + 3), start=1)
            if abs(day - today) > 1
        ]
        checks.equal(f"midnight of zone {what}, {second}: wrong clocks", came, wanted)
        checks.equal(
            f"midnight of zone {what}, {second}: days that are taken",
            taken,
            list(range(DAY - 3, today + 2)),
        )


def nights_at_three(world, checks, what, east, zone):
    """A start before 03:00 forgets nothing, and one from then on does; its note has the day by the
    zone."""
    source = f"{world.folder}/night-{what.strip('<>')}"
    days = range(DAY - KEEP - 1, DAY + 1)
    with Server(world, words=["--create"], store=source, default=9, **zone) as server:
        for n, day in enumerate(days, start=1):
            server.ask(reserve(n, txn=n, at=begin_of(day, east), host=b"mx1"))
        server.ask(limit(9, 1, 8))
    three = begin_of(DAY, east) + 10_800
    note = f"{source}.night"
    settings = {"store": source, "default": 9, "keep": KEEP, "log": "info", **zone}

    def begun(moment):
        """The log of days of a server that begins at this moment, and whether there is a note."""
        with Server(world, limit=clocks.at(moment), **settings) as server:
            # (it looks after each round of requests)
            for _ in range(3):
                server.ask(page(day=DAY))
            if moment >= three:
                wait_until(lambda: os.path.exists(note) and os.path.getsize(note) > 0)
            return [
                it.partition(f"{source}: ")[2].partition(", in ")[0]
                for it in server.all_log_lines()
                if "has days from" in it or "are forgotten" in it
            ], os.path.exists(note)

    has = f"has days from {days[0]} on, keeps {KEEP} before today"
    checks.equal(
        f"before 03:00 of zone {what}: the log, and whether there is a note",
        begun(three - BEFORE),
        ([has], False),
    )
    checks.equal(
        f"from 03:00 of zone {what} on: the log, and whether there is a note",
        begun(three),
        ([has, f"the days before {DAY - KEEP} are forgotten"], True),
    )
    with open(note, encoding="ascii") as file:
        came = file.read().partition(", in ")[0]
    wanted = f"forgot the days before {DAY - KEEP} on day {DAY}"
    checks.equal(f"from 03:00 of zone {what} on: the note", came, wanted)
