"""What a server logs of requests: limits, first of all those that lower, a login that nears its
limit, and a host whose clock is wrong. What it has to log is taken from the replies and from the
sums of a ledger in Python."""
import random
import re
import struct
import time

import wire
from books import LIMIT, RESERVE, Books
from cases.peers import name_of
from ends import Server, read_to_end, send_no_more, shown, wait_past_midnight
from ledger import decode

DAY = 86_400
# the levels of lines: the default one of a server shows the first two, and info all
ERROR, WARN, INFO = "error", "warn", "info"
LINE = re.compile(r"\[(ERROR|WARN|INFO) +requests\] connection of (\S+): (.*)")


def run(world, checks):
    for case in (
        near,
        near_at_each_cap,
        near_once,
        near_again_after_a_limit,
        near_after_a_start,
        lowered,
        limits_of_all_kinds,
        retires,
        clocks,
        two_lines_of_a_host,
        by_the_zone,
        two_peers_by_turns,
        names_as_long_as_any,
        limits_as_great_as_any,
        at_each_level,
        random_requests,
    ):
        wait_past_midnight()
        case(world, checks)


def today():
    return int(time.time()) // DAY


def noon(day):
    return day * DAY + DAY // 2


def reserve(number, day, login=b"u", count=1, **sender):
    """Of a transaction of its own."""
    return wire.reserve(number, txn=number, login=login, count=count, at=noon(day), **sender)


def near_line(login, used, cap, day):
    return WARN, f"login {shown(login)} has used {used} of its limit of {cap} on day {day}"


def clock_line(host, of, day):
    return (
        WARN,
        (
            f"host {host} reserves for day {of}, and today is day {day}: its clock or the server's"
            " is wrong"
        ),
    )


def ahead_line(host, of, day):
    level, text = clock_line(host, of, day)
    return level, f"{text}, and its recipients get 451"


class Watched:
    """A server, and what it logs of the requests that it is asked."""

    def __init__(self, world, **settings):
        self.server = Server(world, **settings)
        self.seen = 0

    def __enter__(self):
        self.server.__enter__()
        return self

    def __exit__(self, *_):
        self.server.__exit__()

    def ask(self, *frames):
        """The replies to these frames on a connection of their own, and the lines that came of
        them, each by its level and what it says of that peer."""
        with self.server.connect() as peer:
            name = name_of(peer)
            peer.sendall(b"".join(frames))
            send_no_more(peer)
            replies = read_to_end(peer)
        lines = self.new_lines()
        assert all(of == name for _, of, _ in lines), lines
        return replies, [(level, said) for level, _, said in lines]

    def new_lines(self):
        """What was logged of requests since this was asked for last: each line's level, peer and
        text."""
        found = [
            (it[1].lower(), it[2], it[3])
            for it in map(LINE.fullmatch, self.server.all_log_lines())
            if it
        ]
        new, self.seen = found[self.seen :], len(found)
        return new

    def lines(self, *frames):
        return self.ask(*frames)[1]


def near(world, checks):
    """With the first recipient by which four fifths of the limit are used, and with no other
    one."""
    day = today()
    with Watched(world, default=5) as it:
        for used, wanted in [(1, []), (2, []), (3, []), (4, [near_line(b"u", 4, 5, day)]), (5, [])]:
            came = it.ask(reserve(used, day))
            checks.equal(
                f"recipient {used} of 5: the reply and the log",
                came,
                (wire.granted(used, used), wanted),
            )
        checks.equal(
            "recipient 6 of 5: the reply and the log",
            it.ask(reserve(6, day)),
            (wire.full(6, 5, 5), []),
        )
        checks.equal(
            "four of 5 at once",
            it.lines(reserve(7, day, b"four", 4)),
            [near_line(b"four", 4, 5, day)],
        )
        checks.equal(
            "two of 5, and then all",
            it.lines(reserve(8, day, b"all", 2), reserve(9, day, b"all", 3)),
            [near_line(b"all", 5, 5, day)],
        )
        odd = bytes([0, 10, 27, 32, 92, 255])
        checks.equal(
            "a login of any bytes", it.lines(reserve(10, day, odd, 4)), [near_line(odd, 4, 5, day)]
        )
        settled = [
            reserve(11, day, b"settled", 3),
            wire.settle(12, txn=11, login=b"settled", count=3, at=noon(day)),
        ]
        checks.equal("what is settled", it.lines(*settled), [])
        checks.equal(
            "what is settled counts",
            it.lines(reserve(13, day, b"settled")),
            [near_line(b"settled", 4, 5, day)],
        )


def near_at_each_cap(world, checks):
    """One recipient after the other up to the cap: the line comes with the first by which five
    times the used is four times the cap or more."""
    day = today()
    for cap in (1, 2, 3, 4, 5, 6, 7, 8, 9, 10, 11, 99):
        with Watched(world, default=cap) as it:
            lines = it.lines(*[reserve(number, day) for number in range(1, cap + 2)])
            first = next(used for used in range(1, cap + 1) if 5 * used >= 4 * cap)
            checks.equal(f"a limit of {cap}, one by one", lines, [near_line(b"u", first, cap, day)])
    with Watched(world, default=0) as it:
        checks.equal("a limit of 0", it.lines(reserve(1, day)), [])
    with Watched(world, default=100_000) as it:
        lines = it.lines(*[reserve(number, day, count=1_000) for number in range(1, 102)])
        checks.equal(
            "a limit of 100,000, a thousand at once", lines, [near_line(b"u", 80_000, 100_000, day)]
        )


def near_once(world, checks):
    """Once for a login and a day, whoever asks; an earlier day than the latest isn't looked at."""
    day = today()
    with Watched(world, default=5) as it:
        checks.equal(
            "alice's four of today",
            it.lines(reserve(1, day, b"alice", 4)),
            [near_line(b"alice", 4, 5, day)],
        )
        checks.equal(
            "bob's, by another host",
            it.lines(reserve(2, day, b"bob", 5, host=b"mx2")),
            [near_line(b"bob", 5, 5, day)],
        )
        checks.equal(
            "alice's fifth, by another host", it.lines(reserve(3, day, b"alice", host=b"mx2")), []
        )
        released = [
            reserve(4, day, b"carol", 4),
            wire.release(5, txn=4, login=b"carol", at=noon(day)),
            reserve(6, day, b"carol", 4),
        ]
        checks.equal(
            "four that are released, and four again",
            it.lines(*released),
            [near_line(b"carol", 4, 5, day)],
        )
        checks.equal(
            "alice's four of tomorrow",
            it.lines(reserve(7, day + 1, b"alice", 4)),
            [near_line(b"alice", 4, 5, day + 1)],
        )
        checks.equal(
            "alice's four of yesterday, which comes later",
            it.lines(reserve(8, day - 1, b"alice", 4)),
            [],
        )
        checks.equal("alice's fifth of tomorrow", it.lines(reserve(9, day + 1, b"alice")), [])
        checks.equal(
            "dave's four of yesterday",
            it.lines(reserve(10, day - 1, b"dave", 4)),
            [near_line(b"dave", 4, 5, day - 1)],
        )
        checks.equal(
            "dave's four of today",
            it.lines(reserve(11, day, b"dave", 4)),
            [near_line(b"dave", 4, 5, day)],
        )


def near_again_after_a_limit(world, checks):
    """A limit that was set has the line come once more; one that was refused doesn't."""
    day = today()
    with Watched(world, default=5) as it:
        checks.equal("four of 5", it.lines(reserve(1, day, count=4)), [near_line(b"u", 4, 5, day)])
        raised = wire.limit(2, day, 10)
        checks.equal("a limit of 10, and one more", it.lines(raised, reserve(3, day)), [])
        checks.equal(
            "up to 8 of 10", it.lines(reserve(4, day, count=3)), [near_line(b"u", 8, 10, day)]
        )
        checks.equal("a ninth", it.lines(reserve(5, day)), [])
        refused = it.ask(wire.limit(6, day, 4), reserve(7, day, b"v"))
        checks.equal("a limit that is refused", refused[1], [])
        checks.equal(
            "the limit of 10 again, and a tenth",
            it.lines(raised, reserve(8, day)),
            [near_line(b"u", 10, 10, day)],
        )
        lowered_to = it.lines(wire.limit(9, day + 1, 5, login=b"w"), reserve(10, day + 1, b"w", 4))
        checks.equal(
            "a limit that is the default's, and four of it",
            lowered_to,
            [near_line(b"w", 4, 5, day + 1)],
        )


def near_after_a_start(world, checks):
    """A server that is started again logs it again, of what the file has."""
    day, path = today(), f"{world.folder}/watched"
    with Watched(world, words=["--create"], store=path, default=5) as it:
        checks.equal(
            "four of 5 over a file",
            it.lines(reserve(1, day, count=4)),
            [near_line(b"u", 4, 5, day)],
        )
    with Watched(world, store=path, default=5) as it:
        checks.equal(
            "a fifth, of a server that is started again",
            it.lines(reserve(2, day)),
            [near_line(b"u", 5, 5, day)],
        )


def lowered_line(cap, before, login=b"u", day=0):
    return WARN, f"limit {cap} of login {shown(login)} from day {day}: set, lowered from {before}"


def lowered(world, checks):
    """A limit that is set and lowers what the login had on its day is a warning, at the default
    level; no other is there."""
    day = today()
    with Watched(world, default=3) as it:
        for what, frame, wanted in [
            ("below the default", wire.limit(1, day, 2), [lowered_line(2, 3, day=day)]),
            ("the same again", wire.limit(1, day, 2), []),
            ("as it is, under another number", wire.limit(2, day, 2), []),
            ("raised", wire.limit(3, day, 10), []),
            (
                "from a later day, below what governs there",
                wire.limit(4, day + 1, 4),
                [lowered_line(4, 10, day=day + 1)],
            ),
            (
                "on the earlier day, above the later one",
                wire.limit(5, day, 6),
                [lowered_line(6, 10, day=day)],
            ),
            ("from a day before, above the default", wire.limit(6, day - 1, 4), []),
            (
                "from a day before, below what it is there",
                wire.limit(7, day - 1, 3),
                [lowered_line(3, 4, day=day - 1)],
            ),
            ("of another login, as the default", wire.limit(8, day, 3, login=b"v"), []),
            (
                "of another login, to nothing",
                wire.limit(9, 0, 0, login=b"w\\"),
                [lowered_line(0, 3, b"w\\", 0)],
            ),
            ("of the last day", wire.limit(10, 376_200, 1, login=b"w\\"), []),
            (
                "of the last day, lower",
                wire.limit(11, 376_200, 0, login=b"w\\"),
                [lowered_line(0, 1, b"w\\", 376_200)],
            ),
        ]:
            checks.equal(f"a limit {what}: the log", it.lines(frame), wanted)
    with Watched(world, default=3) as it:
        it.ask(reserve(1, day, count=2))
        checks.equal(
            "a limit that is refused, and would lower",
            it.ask(wire.limit(2, day, 1)),
            (wire.frame(b"\x86" + wire.identity(2) + wire.number(day) + wire.number(2)), []),
        )
        checks.equal(
            "a limit that lowers to what is used",
            it.lines(wire.limit(3, day, 2)),
            [lowered_line(2, 3, day=day)],
        )


def limits_of_all_kinds(world, checks):
    """At the level of all lines."""
    day = today()
    with Watched(world, default=3, log="info") as it:
        it.ask(reserve(1, day, count=2))
        for what, frame, level, text in [
            ("set", wire.limit(2, day, 7), INFO, f"limit 7 of login u from day {day}: set"),
            ("repeated", wire.limit(2, day, 7), INFO, f"limit 7 of login u from day {day}: set"),
            (
                "lowered",
                wire.limit(3, day, 5),
                WARN,
                f"limit 5 of login u from day {day}: set, lowered from 7",
            ),
            (
                "the repeat of one that lowered",
                wire.limit(3, day, 5),
                INFO,
                f"limit 5 of login u from day {day}: set",
            ),
            (
                "the repeat of an earlier one",
                wire.limit(2, day, 7),
                INFO,
                f"limit 7 of login u from day {day}: set",
            ),
            (
                "the same cap",
                wire.limit(4, day, 5),
                INFO,
                f"limit 5 of login u from day {day}: set",
            ),
            (
                "refused",
                wire.limit(5, day, 1),
                INFO,
                f"limit 1 of login u from day {day}: refused, 2 used on day {day}",
            ),
            (
                "another one under its number",
                wire.limit(3, day, 6),
                INFO,
                f"limit 6 of login u from day {day}: refused, another request has its number",
            ),
        ]:
            checks.equal(f"limits of all kinds, {what}", it.lines(frame), [(level, text)])
        checks.equal(
            "a retire", it.lines(wire.retire(6, run=2)), [(INFO, "runs of host a below 2: retired")]
        )
        old = wire.limit(7, day, 4)
        checks.equal(
            "limits of all kinds, of a retired run",
            it.lines(old),
            [(INFO, f"limit 4 of login u from day {day}: refused, its run is retired")],
        )
        checks.equal(
            "other requests",
            it.lines(wire.usage(day=day), wire.page(day=day), reserve(8, day, run=3)),
            [],
        )


def retires(world, checks):
    """Each, with what it was answered, at the level of all lines and at no other."""
    day = today()
    with Watched(world, log="info") as it:
        it.ask(wire.limit(8, day, 3, run=5))
        for what, frame, text in [
            ("first", wire.retire(7, run=5), "5: retired"),
            ("repeated", wire.retire(7, run=5), "5: retired"),
            ("of an earlier run", wire.retire(7, run=4), "4: refused, its run is retired"),
            (
                "under a number that is used",
                wire.retire(8, run=5),
                "5: refused, another request has its number",
            ),
        ]:
            checks.equal(
                f"a retire, {what}", it.lines(frame), [(INFO, f"runs of host a below {text}")]
            )
    with Watched(world) as it:
        checks.equal("a retire, by the default level", it.lines(wire.retire(7, run=5)), [])


def clocks(world, checks):
    """A reserve whose day is more than one from the server's, once an hour and host."""
    day = today()
    with Watched(world, default=1_000) as it:
        checks.equal(
            "of yesterday, today and tomorrow",
            it.lines(*[reserve(n, day + n - 2) for n in (1, 2, 3)]),
            [],
        )
        checks.equal(
            "three days before", it.lines(reserve(4, day - 3)), [clock_line("a", day - 3, day)]
        )
        checks.equal(
            "three days after, within the hour", it.ask(reserve(5, day + 3)), (wire.RETRY, [])
        )
        checks.equal(
            "three days after, of another host",
            it.ask(reserve(6, day + 3, host=b"mx2")),
            (wire.RETRY, [ahead_line("mx2", day + 3, day)]),
        )
        checks.equal("a settle of long ago", it.lines(wire.settle(7, host=b"mx3")), [])


def two_lines_of_a_host(world, checks):
    """A host whose clock is wrong and that asks under a retired run has a line for each within the
    hour, whichever comes first."""
    day = today()
    retired = "asks under run 1, which is retired: its recipients get 451"
    with Watched(world, default=1_000) as it:
        checks.equal(
            "a host's clock, before its retired run",
            it.lines(reserve(1, day - 3)),
            [clock_line("a", day - 3, day)],
        )
        checks.equal(
            "its retired run, within the hour",
            it.lines(wire.retire(2, run=2), reserve(3, day)),
            [(WARN, f"host a {retired}")],
        )
        checks.equal(
            "a host's retired run, before its clock",
            it.lines(wire.retire(2, run=2, host=b"mx2"), reserve(3, day, host=b"mx2")),
            [(WARN, f"host mx2 {retired}")],
        )
        checks.equal(
            "its clock, within the hour",
            it.lines(reserve(1, day - 3, host=b"mx2", run=2)),
            [clock_line("mx2", day - 3, day)],
        )


def by_the_zone(world, checks):
    """The day in a line is the ledger's: half a day east of UTC and west of it, of which one has
    another day than UTC, and by a rule."""
    for what, offset, settings in [
        ("half a day east", 720, {"offset": 720}),
        ("half a day west", -720, {"offset": -720}),
        ("a rule half a day east", 720, {"offset": None, "rule": "<+12>-12"}),
    ]:
        wait_past_midnight(offset)
        day = (int(time.time()) + 60 * offset) // DAY

        def at(back, hour, offset=offset, day=day):
            """A moment of the ledger's day so many days back, at this hour of it."""
            return (day - back) * DAY + hour * 3_600 - 60 * offset

        with Watched(world, default=5, **settings) as it:
            for n, (login, back, hour) in enumerate(
                [(b"first", 0, 0), (b"last", 0, 23), (b"before", 1, 23)]
            ):
                lines = it.lines(
                    wire.reserve(n + 1, txn=n + 1, login=login, count=4, at=at(back, hour))
                )
                checks.equal(
                    f"{what}: four of 5 at {hour} o'clock, {back} days back",
                    lines,
                    [near_line(login, 4, 5, day - back)],
                )
            checks.equal(
                f"{what}: three days back",
                it.lines(wire.reserve(9, txn=9, host=b"mx2", at=at(3, 12))),
                [clock_line("mx2", day - 3, day)],
            )


def two_peers_by_turns(world, checks):
    """Two connections that are open at once, whose peers ask by turns: each line names the peer
    whose request it is."""
    day = today()
    with Watched(world, default=5) as it, it.server.connect() as one, it.server.connect() as other:
        wanted = []
        for turn in range(6):
            peer, login = (one, other)[turn % 2], b"u%d" % turn
            peer.sendall(reserve(turn + 1, day, login, 4))
            checks.equal(
                f"two peers by turns, request {turn + 1}",
                peer.recv(65_536),
                wire.granted(turn + 1, 4),
            )
            level, said = near_line(login, 4, 5, day)
            wanted.append((level, name_of(peer), said))
        checks.equal("two peers by turns: each line's peer and login", it.new_lines(), wanted)


def names_as_long_as_any(world, checks):
    """A login of 255 bytes, a host of 64 and a run by the clock stand whole in each line."""
    day, login, host, run = today(), b"l" * 255, b"mx-1." + b"h" * 59, int(time.time() * 1_000)
    with Watched(world, default=5, log="info") as it:
        what = "a login of 255 bytes"
        checks.equal(
            f"{what}: that it nears its limit",
            it.lines(reserve(1, day, login, 4)),
            [near_line(login, 4, 5, day)],
        )
        checks.equal(
            f"{what}: that its limit is lowered",
            it.lines(wire.limit(2, day, 4, login=login)),
            [lowered_line(4, 5, login, day)],
        )
        what, named = "a host of 64 bytes", host.decode()
        checks.equal(
            f"{what}: that its clock is wrong",
            it.lines(reserve(3, day - 3, host=host)),
            [clock_line(named, day - 3, day)],
        )
        lines = it.lines(
            wire.retire(4, host=host, run=run), reserve(5, day, host=host, run=run - 1)
        )
        wanted = [
            (INFO, f"runs of host {named} below {run}: retired"),
            (
                WARN,
                f"host {named} asks under run {run - 1}, which is retired: its recipients get 451",
            ),
        ]
        checks.equal(f"{what}: that its run is retired", lines, wanted)


def limits_as_great_as_any(world, checks):
    """What is used and the limit stand whole in a line, up to the most that they may be."""
    day = today()
    for cap in (65_535, 65_536, 81_920, 1_000_000):
        with Watched(world, default=cap) as it:
            used = -(-4 * cap // 5)
            checks.equal(
                f"a login that nears a limit of {cap}",
                it.lines(
                    *(
                        reserve(1 + n, day, count=min(1_000, used - 1_000 * n))
                        for n in range(-(-used // 1_000))
                    )
                ),
                [near_line(b"u", used, cap, day)],
            )
            lower = wire.limit(2_000, day, cap - 1)
            checks.equal(
                f"its limit of {cap} is lowered",
                it.lines(lower),
                [lowered_line(cap - 1, cap, day=day)],
            )


def at_each_level(world, checks):
    """Each level has its own lines and those of the levels before it: the same requests at all
    four."""
    day, ahead = today(), int(time.time() * 1_000) + 7_200_000
    for level, of_level in [
        ("off", ()),
        ("error", (ERROR,)),
        ("warn", (ERROR, WARN)),
        ("info", (ERROR, WARN, INFO)),
    ]:
        with Watched(world, default=1_000, log=level) as it:
            raised = wire.limit(3, 1, 2_000)
            it.ask(wire.retire(1, host=b"mx1", run=ahead), reserve(2, day - 3), raised)
            begins = [line[1:6] for line in it.server.all_log_lines()]
        shown_levels = {ERROR: "ERROR", WARN: "WARN ", INFO: "INFO "}
        # (of its start a server has two lines)
        wanted = ["INFO "] * 2 * (level == "info") + [
            shown_levels[it] for it in (ERROR, WARN, INFO) if it in of_level
        ]
        checks.equal(f'a server with log = "{level}": the levels of its lines', begins, wanted)


def random_requests(world, checks):
    """Some hundred requests of three logins, on days that go on, over limits that are set, raised
    and lowered: each line, by the rule."""
    logins, first = [b"u", b"v", b"w"], today() - 1
    for seed in range(4):
        dice, books = random.Random(seed), Books(0, 6)
        rule, frames = ByTheRule(books), []
        for number in range(1, 301):
            login, day = dice.choice(logins), first + number // 101
            kind = dice.randrange(10)
            limits = [it for it in frames if decode(it[2:])["kind"] == LIMIT]
            if kind == 0 and limits:
                frames.append(dice.choice(limits))
            elif kind < 3:
                frames.append(
                    wire.limit(
                        number,
                        day + dice.randrange(-1, 2),
                        dice.choice([0, 3, 5, 6, 10, 20, 40]),
                        login=login,
                    )
                )
            elif kind < 5 and number > 1:
                done = decode(
                    dice.choice(
                        [it for it in frames if decode(it[2:])["kind"] == RESERVE]
                        or [reserve(1, day)]
                    )[2:]
                )
                frames.append(
                    wire.release(number, txn=done["txn"], login=done["login"], at=done["at"])
                )
            else:
                frames.append(reserve(number, day, login, dice.choice([1, 1, 2, 3])))
        wanted = [line for it in frames for line in rule.lines(it)]
        with Watched(world, default=6, log="info") as it:
            replies, lines = it.ask(*frames)
        again = Books(0, 6)
        checks.equal(
            f"300 requests of seed {seed}: the replies",
            replies,
            b"".join(again.serve(it) for it in frames),
        )
        checks.equal(f"300 requests of seed {seed}: the log", lines, wanted)
        kinds = {
            (
                "lowered"
                if "lowered" in it[1]
                else "near"
                if "has used" in it[1]
                else "refused"
                if "refused" in it[1]
                else "set"
            )
            for it in wanted
        }
        checks.equal(
            f"300 requests of seed {seed}: kinds of lines",
            kinds,
            {"lowered", "near", "refused", "set"},
        )


class ByTheRule:
    """What is to be logged, request by request."""

    def __init__(self, books):
        self.books = books
        # of each login its latest day with a recipient, and whether a line of it came
        self.latest = {}
        self.said = {}

    def lines(self, frame):
        request = decode(frame[2:])
        login, is_new = request["login"], request["id"] not in self.books.places
        before = self.books.cap(login, request["from_day"]) if request["kind"] == LIMIT else None
        reply = self.books.serve(frame)
        if request["kind"] == LIMIT:
            return [self.limit_line(request, reply, before if is_new else None)]
        if request["kind"] == RESERVE and reply[2] == 0x81:
            return self.near_lines(login, self.books.day(request["at"]))
        return []

    def limit_line(self, request, reply, before):
        cap, login, day = request["cap"], request["login"], request["from_day"]
        text = f"limit {cap} of login {shown(login)} from day {day}: "
        if reply[2] != 0x85:
            on, used = struct.unpack(">II", reply[-8:])
            return INFO, f"{text}refused, {used} used on day {on}"
        self.said.pop(login, None)
        return (
            (INFO, f"{text}set")
            if before is None or cap >= before
            else (WARN, f"{text}set, lowered from {before}")
        )

    def near_lines(self, login, day):
        if day < self.latest.get(login, 0):
            return []
        if day > self.latest.get(login, 0):
            self.latest[login] = day
            self.said.pop(login, None)
        used, cap = self.books.used(login, day), self.books.cap(login, day)
        if login in self.said or 5 * used < 4 * cap:
            return []
        self.said[login] = True
        return [near_line(login, used, cap, day)]
