"""What a server notices that no monitor sees: retires that are far ahead of its clock, a host that
asks from two addresses or under a retired run, and a login that is refused without end. Each line
comes once an hour, but for the retires."""
import re
import socket
import time

import clocks
import wire
from cases.watching import ERROR, WARN, Watched
from cases.permits import not_taken
from ends import but_of_requests, read_all, send_no_more, unavailable, wait_past_midnight

DAY = 86_400
HOUR = 3_600_000
# the most logins of which it is known how near they are to their limits
KNOWN = 100_000
RETIRED_RUN = "which is retired: its recipients get 451"


def run(world, checks):
    for case in (
        retires_ahead,
        retires_by_command,
        retired_runs,
        two_addresses,
        floods,
        as_many_as_may_be,
        many_logins,
        hour_after_hour,
    ):
        # (some take a while)
        wait_past_midnight(seconds=120)
        case(world, checks)


def clock():
    return int(time.time() * 1_000)


class Storm(Watched):
    """A server that knows so many recipients a login, asked from addresses of the loopback, and
    what it logs of requests."""

    def __init__(self, world, **settings):
        super().__init__(world, **{"default": 5, **settings})

    def ask(self, *frames, source="127.0.0.1"):
        """What comes back for these frames from this address, and the lines that came of them:
        level, address and text."""
        with socket.socket() as peer:
            peer.settimeout(60)
            peer.bind((source, 0))
            peer.connect(("127.0.0.1", self.server.port))
            peer.sendall(b"".join(frames))
            send_no_more(peer)
            replies = read_all(peer)
        return replies, self.new_lines()

    def new_lines(self):
        """Of each line its level, the peer's address without the port, and the text."""
        return [(level, peer.rpartition(":")[0], said) for level, peer, said in super().new_lines()]


def reserve(number, login=b"u", **sender):
    return wire.reserve(number, txn=number, login=login, at=int(time.time()) // DAY * DAY, **sender)


def ahead(line, host, run):
    """Whether it is the line of a retire that isn't taken, with a clock of the server that is
    right."""
    found = re.fullmatch(
        (
            rf"runs of host {host} below {run}: not taken, since that is (\d+) s after this"
            r" server's clock, (\d+): its clock or the server's is wrong"
        ),
        line[2],
    )
    now = clock()
    return (
        bool(found)
        and line[:2] == (ERROR, "127.0.0.1")
        and now - 60_000 < int(found[2]) <= now
        and int(found[1]) == (run - int(found[2])) // 1_000
    )


def retires_ahead(world, checks):
    """One that is more than an hour ahead isn't taken, and the host's filter goes on; one that is
    less is."""
    run = clock()
    with Storm(world) as it:
        checks.equal("a recipient", it.ask(reserve(1, run=run))[0], wire.granted(1, 1, run=run))
        for what, later in [
            ("an hour and a minute", HOUR + 60_000),
            ("two days", 2 * DAY * 1_000),
            ("the last run", 2**48 - 1 - run),
        ]:
            replies, lines = it.ask(wire.retire(7, run=run + later))
            checks.equal(f"a retire ahead by {what}: the reply", replies, wire.RETRY)
            checks.holds(
                f"a retire ahead by {what}: the line",
                len(lines) == 1 and ahead(lines[0], "a", run + later),
                "the error",
                lines,
            )
        checks.equal(
            "a recipient of that run still",
            it.ask(reserve(2, run=run))[0],
            wire.granted(2, 2, run=run),
        )
        checks.equal(
            "a retire ahead by less than an hour",
            it.ask(wire.retire(7, run=run + HOUR - 60_000)),
            (wire.retired(7, run=run + HOUR - 60_000), []),
        )
        checks.equal(
            "a recipient of that run, retired", it.ask(reserve(3, run=run))[0], wire.old(3, run=run)
        )
        limit = wire.limit(9, 1, 4, run=run + 2 * HOUR)
        checks.equal(
            "a limit under a number two hours ahead",
            it.ask(limit)[0][:3],
            wire.frame(b"\x85" + wire.identity(9, run=run + 2 * HOUR))[:3],
        )


def retires_by_command(world, checks):
    """The command is told that the server didn't take it; a clock that is right has it done."""
    with Storm(world) as it:
        words = ["retire", "--server", it.server.address, "--host", "mx2"]
        came = world.run(*words, "--run", str(clock() + 2 * DAY * 1_000))
        checks.equal(
            "retire, two days ahead",
            came,
            not_taken(it.server.address),
        )
        lines = it.new_lines()
        checks.holds(
            "retire, two days ahead: a line for each try",
            len(lines) == 3 and all("not taken" in line[2] for line in lines),
            "three",
            lines,
        )
        checks.equal("retire, by the clock", world.run(*words), (0, b"retired\n", ""))


def retired_runs(world, checks):
    """Whatever a retired run asks, the host and the run are named, once an hour."""

    def named(host, run, source="127.0.0.1"):
        return [(WARN, source, f"host {host} asks under run {run}, {RETIRED_RUN}")]

    with Storm(world) as it:
        hosts = [b"mx1", b"mx2", b"mx3"]
        it.ask(*(wire.retire(1, host=host, run=5) for host in hosts))
        asked = [
            reserve(2, host=b"mx1", run=3),
            wire.settle(2, host=b"mx2", run=3),
            wire.release(2, host=b"mx3", run=4),
        ]
        replies = [wire.old(2, host=host, run=run) for host, run in zip(hosts, (3, 3, 4))]
        for what, frame, reply, line in zip(
            ("reserve", "settle", "release"),
            asked,
            replies,
            [named("mx1", 3), named("mx2", 3), named("mx3", 4)],
        ):
            checks.equal(f"a {what} of a retired run", it.ask(frame), (reply, line))
        checks.equal("more of them, within the hour", it.ask(*asked), (b"".join(replies), []))
        checks.equal(
            "one of a run that isn't retired",
            it.ask(reserve(2, host=b"mx1", run=5)),
            (wire.granted(2, 1, host=b"mx1", run=5), []),
        )


def two_addresses(world, checks):
    """The second address under one name is named with the first, once an hour; other hosts stay
    apart."""
    other = "127.0.0.2"

    def named(source, first, host="mx1"):
        return [
            (
                WARN,
                source,
                (
                    f"host {host} has asked from {first} too within an hour: two machines may have"
                    " its name"
                ),
            )
        ]

    with Storm(world, default=100) as it:
        number = iter(range(1, 100))

        def asked(source, host=b"mx1", spelled=reserve):
            return it.ask(spelled(next(number), host=host), source=source)[1]

        checks.equal("from one address, twice", asked("127.0.0.1") + asked("127.0.0.1"), [])
        checks.equal("from another one", asked(other), named(other, "127.0.0.1"))
        checks.equal(
            "from both, within the hour", asked("127.0.0.1") + asked(other) + asked("127.0.0.3"), []
        )
        checks.equal("another host from that address", asked(other, b"mx2"), [])
        checks.equal(
            "that one from the first address",
            asked("127.0.0.1", b"mx2"),
            named("127.0.0.1", other, "mx2"),
        )
        checks.equal(
            "limits under one name from two addresses",
            asked("127.0.0.1", b"admin", limit) + asked(other, b"admin", limit),
            [],
        )


def limit(number, host):
    return wire.limit(number, 1, 200, login=b"w", host=host)


def floods(world, checks):
    """A login is named at its 1,001st refusal within an hour, with the host that asks, and not
    again; each login by itself."""
    with Storm(world, default=1) as it:
        it.ask(reserve(1))
        full = [reserve(number, host=b"mx%d" % (number % 2)) for number in range(2, 1_002)]
        replies, lines = it.ask(*full)
        checks.equal(
            "a thousand refusals",
            (replies, lines),
            (b"".join(wire.full(n, 1, 1, host=b"mx%d" % (n % 2)) for n in range(2, 1_002)), []),
        )
        more = [
            (
                WARN,
                "127.0.0.1",
                "login u was refused more than 1,000 times within an hour, last for host mx0",
            )
        ]
        checks.equal("one more", it.ask(reserve(1_002, host=b"mx0"))[1], more)
        checks.equal("a thousand more", it.ask(*full)[1], [])
        it.ask(reserve(3_000, login=b"v"))
        other = [reserve(number, login=b"v") for number in range(3_001, 4_001)]
        checks.equal("a thousand of another login", it.ask(*other)[1], [])
        # (it isn't asked for again where it is granted)
        line = [
            (
                WARN,
                "127.0.0.1",
                "login v was refused more than 1,000 times within an hour, last for host a",
            )
        ]
        checks.equal("one of them again", it.ask(other[0])[1], line)
        checks.equal("a server's other lines", but_of_requests(it.server.all_log_lines()), [])


def as_many_as_may_be(world, checks):
    """1,000 hosts are named within an hour, for each of three causes, and no further one; a login
    is counted beside 5,000 others that were refused."""
    hosts = [b"mx%d" % n for n in range(1_001)]
    with Storm(world, default=1_000_000) as it:
        it.ask(*(reserve(1, host=host) for host in hosts))
        early = int(time.time()) - 5 * DAY
        asked = [
            ("from two addresses", [reserve(2, host=host) for host in hosts], "127.0.0.2"),
            (
                "about a day that is far",
                [wire.reserve(3, txn=3, login=b"u", at=early, host=host) for host in hosts],
                "127.0.0.1",
            ),
            ("under a retired run", [reserve(4, host=host) for host in hosts], "127.0.0.1"),
        ]
        for what, frames, source in asked:
            if "retired" in what:
                it.ask(*(wire.retire(1, host=host, run=2) for host in hosts))
            lines = it.ask(*frames, source=source)[1]
            checks.equal(
                f"1,001 hosts that ask {what}: those that are named",
                [line[2].split()[1].encode() for line in lines],
                hosts[:-1],
            )
    with Storm(world, default=0) as it:
        others = it.ask(*(reserve(n, login=b"l%d" % n) for n in range(1, 5_001)))[1]
        lines = it.ask(*(reserve(n, login=b"w") for n in range(6_001, 7_002)))[1]
        wanted = [
            (
                WARN,
                "127.0.0.1",
                "login w was refused more than 1,000 times within an hour, last for host a",
            )
        ]
        checks.equal("a login that is refused beside 5,000 others", (others, lines), ([], wanted))


def many_logins(world, checks):
    """Of 100,000 logins is it known how near they are to their limits; with one more that begins
    again. A login is counted beside 25,000 that were refused."""
    with Storm(world, default=10) as it:

        def ask_all(frames):
            return [
                line
                for first in range(0, len(frames), 9_000)
                for line in it.ask(*frames[first : first + 9_000])[1]
            ]

        # (8 of 10 are near)
        others = ask_all([reserve(n, login=b"%d" % n) for n in range(1, KNOWN)])
        lines = [
            ask_all([reserve(KNOWN + n, login=login, count=count)])
            for n, (login, count) in enumerate(
                [(b"w", 8), (b"1", 7), (b"w", 1), (b"x", 1), (b"w", 1)]
            )
        ]
        today = int(time.time()) // DAY
        near = [
            [(WARN, "127.0.0.1", f"login {name} has used {used} of its limit of 10 on day {today}")]
            for name, used in (("w", 8), ("1", 8), ("w", 10))
        ]
        checks.equal(
            f"a login that nears its limit beside {KNOWN - 1:,} others, and after one more",
            (others, lines),
            ([], [near[0], near[1], [], [], near[2]]),
        )
        others = ask_all(
            [reserve(2 * KNOWN + n, login=b"r%d" % n, count=11) for n in range(25_000)]
        )
        lines = ask_all([reserve(3 * KNOWN + n, login=b"v", count=11) for n in range(1_001)])
        wanted = [
            (
                WARN,
                "127.0.0.1",
                "login v was refused more than 1,000 times within an hour, last for host a",
            )
        ]
        checks.equal("a login that is refused beside 25,000 others", (others, lines), ([], wanted))


def hour_after_hour(world, checks):
    """Each line comes once an hour, and again with the first such request of a later hour, by a
    clock of 2079 too. A login is named whole, however long it is."""
    login, long = b"l" * 255, "l" * 255
    for day in (int(time.time()) // DAY, 40_000):
        ahead = DAY * day + 7_200 - int(time.time())
        with Storm(world, default=1_000_000, limit=clocks.limit(ahead)) as it:
            clock_of_it = clocks.Clock(it.server.process.pid, ahead)
            it.ask(wire.retire(1, host=b"old", run=5), wire.limit(1, day, 0, login=login))
            for hour in range(3):
                first = 2_000 * hour + 10
                asked = [
                    ([of_day(first, day - 3, b"u", host=b"far")], "127.0.0.1"),
                    ([wire.settle(first, host=b"old", run=4)], "127.0.0.1"),
                    ([of_day(first, day, b"v", host=b"two")], "127.0.0.1"),
                    ([of_day(first + 1, day, b"v", host=b"two")], "127.0.0.2"),
                    ([of_day(first + n, day, login) for n in range(1_001)], "127.0.0.1"),
                ]
                came = [it.ask(*frames, source=source)[1] for frames, source in asked]
                wanted = [
                    (
                        f"host far reserves for day {day - 3}, and today is day {day}: its clock or"
                        " the server's is wrong"
                    ),
                    f"host old asks under run 4, {RETIRED_RUN}",
                    (
                        "host two has asked from 127.0.0.1 too within an hour: two machines may"
                        " have its name"
                    ),
                    (
                        f"login {long} was refused more than 1,000 times within an hour, last for"
                        " host a"
                    ),
                ]
                checks.equal(
                    f"day {day}, hour {hour + 1}: what each request brings",
                    [[said for _, _, said in lines] for lines in came],
                    [wanted[:1], wanted[1:2], [], wanted[2:3], wanted[3:]],
                )
                again = [it.ask(*frames, source=source)[1] for frames, source in asked]
                checks.equal(
                    f"day {day}, hour {hour + 1}: what the same bring once more", again, [[]] * 5
                )
                clock_of_it.pass_to(clock_of_it.now() + 3_601)


def of_day(number, day, login, **sender):
    return wire.reserve(number, txn=number, login=login, at=DAY * day, **sender)
