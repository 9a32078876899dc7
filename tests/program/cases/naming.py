"""What a server's lines name: the ledger's own day, by an offset of twelve hours either way and by
a rule; the peer whose request it is, of two whose connections are open by turns; the login that it
is about; and the cause of a start that its store prevents.

Days are those of zones.py. What the system says of a file is in its words, and what its format
lacks in those of the store's library.
"""
import contextlib
import os
import re
import socket
import sqlite3
import time

import wire
import zones
from cases.causes import BY_RULE
from cases.forgetting import left_by_a_server
from cases.peers import name_of
from cases.rules import CENTRAL_EUROPE
from cases.watching import INFO, WARN, Watched, ahead_line, clock_line, near_line
from ends import (
    LOCKED,
    NO_DATABASE,
    NO_FILE,
    Server,
    apart,
    copied,
    ledger_settings,
    loopback_of_6,
    of_store,
    read_all,
    send_no_more,
    unreached,
    wait_past_midnight,
    wait_until,
)

OF_CONNECTIONS = re.compile(r"\[\S+ +connections\] connection of (\S+): (.*)")
CHATHAM = "<+1245>-12:45<+1345>,M9.5.0/2:45,M4.1.0/3:45"
# the zone of a ledger, and how settings spell it
ZONES = [
    (720, {"offset": 720}),
    (-720, {"offset": -720}),
    (CENTRAL_EUROPE, BY_RULE),
    (CHATHAM, {"offset": None, "rule": CHATHAM}),
]
# so many seconds before a midnight these cases wait until it is over
GUARD = 20


def run(world, checks):
    for zone, settings in ZONES:
        near_by_the_day(world, checks, zone, settings)
        caps_of_the_day(world, checks, zone, settings)
        far_by_the_day(world, checks, zone, settings)
    for case in (
        by_turns,
        over_ipv6,
        lines_of_one_reserve,
        at_once,
        refused_by_turns,
        bad_bytes_by_turns,
        causes_of_a_start,
    ):
        wait_past_midnight()
        case(world, checks)


def today(zone):
    """The day by a clock in the zone, of which some seconds are left."""
    while zones.day_of(zone, int(time.time()) + GUARD) != zones.day_of(zone, int(time.time())):
        time.sleep(1)
    return zones.day_of(zone, int(time.time()))


def begin_of(zone, day):
    """The first moment of a day in the zone."""
    before, after = (day - 2) * zones.SECONDS, (day + 2) * zones.SECONDS
    while before < after:
        middle = (before + after) // 2
        if zones.day_of(zone, middle) < day:
            before = middle + 1
        else:
            after = middle
    return before


class Asker:
    """A connection that stays open, over which requests go one by one; from this address, where one
    is given."""

    def __init__(self, watched, source=None):
        self.watched, self.peer = watched, watched.server.connect(source=source)
        self.name = name_of(self.peer)

    def lines_of(self, frame):
        """The lines that a request makes, once it is answered."""
        self.peer.sendall(frame)
        size = int.from_bytes(self.peer.recv(2, socket.MSG_WAITALL), "big")
        assert len(self.peer.recv(size, socket.MSG_WAITALL)) == size
        return self.watched.new_lines()


def reserve(number, at, login=b"u", count=4, **sender):
    return wire.reserve(number, txn=number, login=login, count=count, at=at, **sender)


def near_by_the_day(world, checks, zone, settings):
    """Of a login that nears its limit a second before the ledger's midnight, and at it."""
    day = today(zone)
    midnight = begin_of(zone, day)
    with Watched(world, default=5, **settings) as it:
        checks.equal(
            f"zone {zone}: four of 5 a second before midnight",
            it.lines(reserve(1, midnight - 1)),
            [near_line(b"u", 4, 5, day - 1)],
        )
        checks.equal(
            f"zone {zone}: four of 5 at midnight",
            it.lines(reserve(2, midnight)),
            [near_line(b"u", 4, 5, day)],
        )
        last = begin_of(zone, day + 1) - 1
        checks.equal(
            f"zone {zone}: the fifth at the last second of that day",
            it.lines(reserve(3, last, count=1)),
            [],
        )
        checks.equal(
            f"zone {zone}: another login's four then",
            it.lines(reserve(4, last, b"v")),
            [near_line(b"v", 4, 5, day)],
        )


def caps_of_the_day(world, checks, zone, settings):
    """The limit that is named is that of the ledger's day, where another one begins at its
    midnight."""
    day = today(zone)
    midnight = begin_of(zone, day)
    with Watched(world, default=5, **settings) as it:
        it.lines(wire.limit(1, day, 10))
        checks.equal(
            f"zone {zone}: a limit from midnight on, a second before it",
            it.lines(reserve(2, midnight - 1)),
            [near_line(b"u", 4, 5, day - 1)],
        )
        checks.equal(
            f"zone {zone}: a limit from midnight on, at it",
            it.lines(reserve(3, midnight), reserve(4, midnight)),
            [near_line(b"u", 8, 10, day)],
        )


def far_by_the_day(world, checks, zone, settings):
    """Yesterday and tomorrow are the ledger's, to the second, and so is today."""
    day = today(zone)
    first, last = begin_of(zone, day - 1), begin_of(zone, day + 2) - 1
    with Watched(world, default=1_000, **settings) as it:
        near_days = [reserve(1, first, host=b"mx1"), reserve(2, last, host=b"mx2")]
        checks.equal(
            f"zone {zone}: the first second of yesterday, the last of tomorrow",
            it.lines(*near_days),
            [],
        )
        checks.equal(
            f"zone {zone}: a second before yesterday",
            it.lines(reserve(3, first - 1, host=b"mx1")),
            [clock_line("mx1", day - 2, day)],
        )
        checks.equal(
            f"zone {zone}: a second after tomorrow",
            it.lines(reserve(4, last + 1, host=b"mx2")),
            [ahead_line("mx2", day + 2, day)],
        )


def by_turns(world, checks):
    """Two peers with open connections, who ask in turn: each line has the one that asked, and the
    login that it asked about."""
    now = int(time.time())
    day = now // zones.SECONDS
    with Watched(world, default=5, log="info") as it:
        one, other = Asker(it), Asker(it)
        for what, who, frame, (level, said) in [
            (
                "the first nears a limit",
                one,
                reserve(1, now, b"alice"),
                near_line(b"alice", 4, 5, day),
            ),
            (
                "the second, another login's",
                other,
                reserve(2, now, b"bob"),
                near_line(b"bob", 4, 5, day),
            ),
            (
                "the first sets a limit",
                one,
                wire.limit(3, day, 9, login=b"carol"),
                (INFO, f"limit 9 of login carol from day {day}: set"),
            ),
            (
                "the second lowers it",
                other,
                wire.limit(4, day, 7, login=b"carol"),
                (WARN, f"limit 7 of login carol from day {day}: set, lowered from 9"),
            ),
            (
                "the first lowers another",
                one,
                wire.limit(5, day, 4, login=b"bob"),
                (WARN, f"limit 4 of login bob from day {day}: set, lowered from 5"),
            ),
            (
                "the second's day is wrong",
                other,
                reserve(6, now - 5 * zones.SECONDS, host=b"mx2", count=1),
                clock_line("mx2", day - 5, day),
            ),
            (
                "the first's day is wrong",
                one,
                reserve(7, now - 4 * zones.SECONDS, host=b"mx1", count=1),
                clock_line("mx1", day - 4, day),
            ),
            (
                "the second retires",
                other,
                wire.retire(8, host=b"mx2", run=5),
                (INFO, "runs of host mx2 below 5: retired"),
            ),
            (
                "the first retires",
                one,
                wire.retire(9, host=b"mx1", run=6),
                (INFO, "runs of host mx1 below 6: retired"),
            ),
            (
                "the second asks under a retired run",
                other,
                reserve(10, now, host=b"mx1", run=4),
                (WARN, "host mx1 asks under run 4, which is retired: its recipients get 451"),
            ),
            (
                "the first asks under a retired run",
                one,
                reserve(11, now, host=b"mx2", run=3),
                (WARN, "host mx2 asks under run 3, which is retired: its recipients get 451"),
            ),
        ]:
            checks.equal(
                f"two peers by turns: {what}", who.lines_of(frame), [(level, who.name, said)]
            )


def over_ipv6(world, checks):
    """Peers over IPv6 are named as others are."""
    if loopback_of_6() != "::1":
        checks.skip("two peers over IPv6", "there is none")
        return
    now = int(time.time())
    day = now // zones.SECONDS
    with Watched(world, default=5, host="::1") as it:
        one, other = Asker(it), Asker(it)
        for number, (who, login) in enumerate([(one, b"alice"), (other, b"bob"), (one, b"carol")]):
            checks.equal(
                f"two peers over IPv6: request {number + 1}",
                who.lines_of(reserve(number + 1, now, login)),
                [(WARN, who.name, near_line(login, 4, 5, day)[1])],
            )


def lines_of_one_reserve(world, checks):
    """A reserve of which there is more than one thing to see has a line for each, always in one
    order."""
    now = int(time.time())
    day = now // zones.SECONDS
    with Watched(world, default=5, log="info") as it:
        one, other = Asker(it), Asker(it, source="127.0.0.2")
        for number, host in [(1, b"mx1"), (2, b"mx2")]:
            checks.equal(
                f"a reserve of {host.decode()} with nothing to see",
                one.lines_of(reserve(number, now, b"quiet", 1, host=host)),
                [],
            )
        far, address = (
            now - 5 * zones.SECONDS,
            "has asked from 127.0.0.1 too within an hour: two machines may have its name",
        )
        wanted = [
            clock_line("mx1", day - 5, day),
            (WARN, f"host mx1 {address}"),
            near_line(b"alice", 4, 5, day - 5),
        ]
        checks.equal(
            "three lines of one reserve that nears its limit",
            other.lines_of(reserve(3, far, b"alice", host=b"mx1")),
            [(level, other.name, said) for level, said in wanted],
        )
        one.lines_of(wire.retire(4, host=b"mx2", run=2))
        wanted = [
            clock_line("mx2", day - 5, day),
            (WARN, f"host mx2 {address}"),
            (WARN, "host mx2 asks under run 1, which is retired: its recipients get 451"),
        ]
        checks.equal(
            "three lines of one reserve of a retired run",
            other.lines_of(reserve(5, far, host=b"mx2")),
            [(level, other.name, said) for level, said in wanted],
        )


def at_once(world, checks):
    """The same where both have asked before the server looks: four requests of each, about a login
    of each."""
    now = int(time.time())
    day = now // zones.SECONDS
    with Watched(world, default=4) as it:
        peers = [it.server.connect() for _ in range(6)]
        wanted = sorted(
            (WARN, name_of(peer), near_line(b"l%d" % number, 4, 4, day)[1])
            for number, peer in enumerate(peers)
        )
        with it.server.stopped():
            for number, peer in enumerate(peers):
                peer.sendall(
                    b"".join(
                        reserve(10 * number + step, now, b"l%d" % number, count=1)
                        for step in range(1, 5)
                    )
                )
                send_no_more(peer)
        for peer in peers:
            read_all(peer)
        checks.equal("six peers at once", sorted(it.new_lines()), wanted)


def refused_by_turns(world, checks):
    """A login that is refused a thousand times is named with the peer and the host of the refusal
    after these, and the other login isn't."""
    now = int(time.time())
    with Watched(world, default=0) as it:
        one, other = Asker(it), Asker(it)
        for number in range(1, 1_001):
            lines = (
                one.lines_of(reserve(number, now, b"alice", 1, host=b"mx1"))
                if number % 2
                else other.lines_of(reserve(number, now, b"alice", 1, host=b"mx2"))
            )
            assert not lines, lines
        checks.equal(
            "another login, once", one.lines_of(reserve(2_001, now, b"bob", 1, host=b"mx1")), []
        )
        said = "login alice was refused more than 1,000 times within an hour, last for host mx2"
        checks.equal(
            "the refusal after a thousand of two peers",
            other.lines_of(reserve(2_002, now, b"alice", 1, host=b"mx2")),
            [(WARN, other.name, said)],
        )
        checks.equal(
            "and one more", one.lines_of(reserve(2_003, now, b"alice", 1, host=b"mx1")), []
        )


def bad_bytes_by_turns(world, checks):
    """A connection that ends by a fault is named, and not the one that asked last or came last."""
    with Watched(world) as it:
        one, other, third = it.server.connect(), it.server.connect(), Asker(it)
        names = [name_of(peer) for peer in (one, other)]
        third.lines_of(wire.usage())
        for what, peer, name, sent in [
            ("no request", one, names[0], wire.frame(b"\xff")),
            ("a frame that is cut", other, names[1], b"\x00\x05\x01"),
        ]:
            before = len(it.server.log_lines())
            peer.sendall(sent)
            send_no_more(peer)
            read_all(peer)
            third.lines_of(wire.usage())
            wait_until(lambda: len(it.server.log_lines()) > before)
            found = [OF_CONNECTIONS.fullmatch(line) for line in it.server.log_lines()[before:]]
            checks.equal(
                f"{what} on one of three connections", [line and line[1] for line in found], [name]
            )


def causes_of_a_start(world, checks):
    """Each command that opens a ledger's file says in one line of the log why it can't, with its
    path."""
    path, _ = left_by_a_server(world, "held", wire.reserve(1))
    # (SQLite writes its log back into a file that it closes)
    with contextlib.closing(sqlite3.connect(path)) as database:
        checks.equal(
            "the version, by SQLite",
            database.execute("SELECT version FROM setting").fetchall(),
            [(3,)],
        )
    text = world.new_file("no database\n" * 1_000)
    log_is_a_folder = copied(path, f"{world.folder}/folder-log")
    os.mkdir(f"{log_is_a_folder}-wal")
    changed = copied(path, f"{world.folder}/changed-sum")
    with open(changed, "r+b") as file:
        file.seek(4_096 + 2_000)
        byte = file.read(1)[0]
        file.seek(4_096 + 2_000)
        file.write(bytes([byte ^ 1]))
    short = copied(path, f"{world.folder}/short")
    os.truncate(short, os.path.getsize(short) - 4_096)
    long_name = f"{world.folder}/{'n' * 256}"
    opens = ["server", "audit", "limits", "status", "forget"]
    with Server(world, store=path) as server:
        server.ask(wire.reserve(2))
        start_fails(world, checks, "a file that a server has open", path, LOCKED, opens)
    for what, place, cause in [
        ("no file", f"{world.folder}/nothing", NO_FILE),
        ("no folder", f"{world.folder}/nothing/ledger", NO_FILE),
        ("a file for a folder", f"{text}/ledger", "Not a directory (os error 20)"),
        ("a name that is too long", long_name, "File name too long (os error 36)"),
        ("a folder", world.folder, "unable to open database file"),
        ("a log that is a folder", log_is_a_folder, "unable to open database file"),
        ("a text", text, NO_DATABASE),
        ("a page whose sum is wrong", changed, "database disk image is malformed"),
        ("a file without its last page", short, "database disk image is malformed"),
    ]:
        start_fails(world, checks, what, place, cause, opens)


def start_fails(world, checks, what, path, cause, commands):
    file, into = ledger_settings(world, path), f"{world.folder}/into"
    for command in commands:
        words = ["--before", "2", "--into", into] if command == "forget" else []
        status, output, errors = world.run(command, "--config", file, *words)
        log, said = apart(errors)
        # (it asks the server first, and nobody listens there)
        asked, unavailable = (
            ([unreached("127.0.0.1:1")], "mailquota: quota service unavailable\n")
            if command == "status"
            else ([], "")
        )
        wanted = (
            1,
            b"",
            f"{unavailable}mailquota: store can't be opened\n",
            [*asked, of_store(path, cause)],
        )
        checks.equal(f"{what}: {command}", (status, output, said, log), wanted)
    checks.equal(f"{what}: forget makes no file", os.path.exists(into), False)
