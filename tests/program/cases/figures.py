"""The manual's own figures, at which other groups don't arrive: tens of thousands of limits and
transactions in files that stand there already, runs of thousands of open messages that are retired
at once, 60 peers that ask for much at once, timeouts of a millisecond, of 300 and of 30 seconds,
and more than a thousand hosts that were retired."""
import threading
import time

import wire
from books import Books
from cases.audits import audit
from cases.damage import sound
from cases.edges import answers
from cases.filters import INPUT, REGISTRATION, SERVICE, answer
from cases.forgetting import forget, kept, left_by_a_server, same_file
from cases.limits import limits, printed
from cases.many_answers import read_by_commands
from cases.retiring import OF_VERSION_3, of_version, version_of, written
from cases.rules import CENTRAL_EUROPE
from ends import (
    SILENCE,
    Script,
    Server,
    begun,
    greatest_memory,
    ledger_settings,
    read_all,
    send_no_more,
    soon,
    without_time,
)
from rows import COLUMNS, answers_of, rows_in, same_rows

DAY = 86_400
DEFAULT = 1_000_000
MANY = 70_000
# answers about which one is asked for again
PLACES = [1, 1_000, 1_001, 1_024, 1_100, 32_768, 65_535, 65_536, 65_537, MANY]
# open messages of each of so many runs
RUNS, OPEN = 8, 2_550
# answers before a limit whose reply a retire clears
BEFORE = 1_200
PEERS, ASKED = 60, 2_000
HOSTS = 1_100
KEEPING = "server with keep"
# A server holds of a connection a piece of what came, of 4,096 bytes, a request that isn't whole
# yet, and eight replies, and may have twice the room for each; and so much more is for what it
# needs besides.
OF_A_PEER, BESIDES = 2 * (4_096 + 512 + 8 * 275), 2_000_000


def run(world, checks):
    many_limits(world, checks)
    runs_of_open_messages(world, checks)
    older_files(world, checks)
    limits_that_were_cleared(world, checks)
    peers_that_ask_for_much(world, checks)
    timeouts(world, checks)
    retired_hosts(world, checks)


def taken(default, frames):
    """Books that took these requests."""
    books = Books(0, default)
    for frame in frames:
        books.apply(frame[2:])
    return books


def many_limits(world, checks):
    """A limit of each of 70,000 logins: a start over them, the commands that read them, and what a
    server answers by them."""
    what, books = f"{MANY:,} limits", taken(
        DEFAULT, (wire.limit(n, 1, n % 5, login=b"%05d" % n) for n in range(1, MANY + 1))
    )
    path = written(world, "figures-limits", *of_version(3, books))
    asked = [
        frame
        for n in PLACES
        for frame in (
            wire.limit(n, 1, n % 5, login=b"%05d" % n),
            wire.reserve(n, txn=n, login=b"%05d" % n, count=2, host=b"mx1"),
            wire.usage(b"%05d" % n),
        )
    ]
    asked += [
        wire.limit(MANY + 1, 1, 7, login=b"00001"),
        wire.limit(MANY + 2, 0, 3, login=b"new"),
        wire.usage(b"00001"),
        wire.usage(b"new"),
        wire.usage(b"other"),
    ]
    with Server(world, store=path, default=DEFAULT, log="info") as server:
        checks.equal(
            f"{what}: a server's start",
            without_time(server.log_lines())[0],
            begun(path, default=DEFAULT, answers=MANY, limits=MANY),
        )
        checks.equal(
            f"{what}: limits again, recipients by them, and further limits",
            answers(server, b"".join(asked)),
            books.serve(b"".join(asked)),
        )
    checks.equal(f"{what}: limits", limits(world, path, default=DEFAULT), printed(books))


def runs_of_open_messages(world, checks):
    """One retire settles all of them."""
    what = f"{RUNS} runs of {OPEN:,} open messages"

    def of(run, n):
        return {
            "host": b"mx1",
            "run": run,
            "txn": n,
            "login": b"%02d" % (n % 50),
            "at": DAY * (1 + n % 10),
        }

    opened = [
        wire.reserve(n, count=1 + n % 3, **of(run, n))
        for run in range(1, RUNS + 1)
        for n in range(1, OPEN + 1)
    ]
    books = taken(DEFAULT, [*opened, wire.reserve(1, count=9, **of(RUNS + 1, 1))])
    path = written(world, "figures-runs", *of_version(3, books))
    # (the run of the retire's own number isn't retired)
    retire = wire.retire(2, host=b"mx1", run=RUNS + 1)
    asked = [
        retire,
        *(wire.usage(b"%02d" % n, 1 + n % 10) for n in range(50)),
        *(wire.page(day=day) for day in range(1, 12)),
    ]
    asked += [
        frame
        for run in (1, 4, RUNS)
        for n in (1, OPEN // 2, OPEN)
        for frame in (opened[(run - 1) * OPEN + n - 1], wire.settle(3_000 + n, **of(run, n)))
    ]
    asked += [wire.settle(3, count=9, **of(RUNS + 1, 1)), retire]
    with Server(world, store=path, default=DEFAULT) as server:
        checks.equal(
            f"{what}: one retire, what is used then, and requests of each run",
            answers(server, b"".join(asked)),
            books.serve(b"".join(asked)),
        )
    same_rows(checks, f"{what}, retired", path, books)
    open_still = [row for row in rows_in(path, ["trans"])["trans"] if not row[-1]]
    checks.equal(f"{what}, retired: messages that are open still", open_still, [])
    checks.equal(f"{what}, retired: audit", audit(world, path, default=DEFAULT), sound(books))


def of_transactions(count):
    """A message for each number, about noon: most are open, some are settled or given back."""
    for n in range(1, count + 1):
        its = {
            "txn": n,
            "login": b"%03d" % (n % 500),
            "at": DAY * (1 + n % 10) + DAY // 2 + n % 3_600,
        }
        yield wire.reserve(n, **its)
        if n % 10 == 1:
            yield wire.settle(count + n, **its) if n % 20 == 1 else wire.release(count + n, **its)


def older_files(world, checks):
    """Files of versions 1 and 2 are version 3 once they were opened, with the rows that they
    had."""
    zones = {1: 0, 2: CENTRAL_EUROPE}
    for count in (1_100, MANY):
        frames = list(of_transactions(count))
        books, paths = taken(DEFAULT, frames), {}
        answered, days = len(books.answers), len(books.usage)
        # (at noon the day is the same by both zones)
        for version, books.zone in zones.items():
            paths[version] = written(
                world, f"figures-{version}-{count}", *of_version(version, books)
            )
        asked = [frames[n - 1] for n in PLACES if n <= count] + [
            frames[-1],
            wire.usage(b"001", 2),
            wire.page(day=3),
        ]
        asked = b"".join(
            [
                *asked,
                wire.reserve(1, txn=1, host=b"mx1", login=b"001"),
                wire.retire(1, host=b"b", run=9),
            ]
        )
        replies = books.serve(asked)
        for version, books.zone in zones.items():
            what, path = f"a file of version {version} with {count:,} transactions", paths[version]
            its, shown = (
                ({"offset": None, "rule": books.zone}, {"zone": f"rule {books.zone}"})
                if version == 2
                else ({}, {})
            )
            with Server(world, store=path, log="info", default=DEFAULT, **its) as server:
                wanted = begun(path, default=DEFAULT, answers=answered, days=days, **shown)
                checks.equal(
                    f"{what}: a server's start", without_time(server.log_lines())[0], wanted
                )
                checks.equal(
                    f"{what}: replies again, and new ones", answers(server, asked), replies
                )
            if count == 1_100:
                same_rows(checks, f"{what}, opened", path, books)
            else:
                same_sums(checks, f"{what}, opened", path, books)
            checks.equal(f"{what}, opened: its version and tables", version_of(path), OF_VERSION_3)
        if count == 1_100:
            opened_by_commands(
                world, checks, f"a file of version 1 with {count:,} transactions", frames
            )


def same_sums(checks, what, path, books):
    """A case for each table: it has as many rows, and each column comes to the same sum, of texts
    that of their lengths. So many rows are read slowly."""
    rows = books.rows()
    sums = {
        table: [
            f"sum(CASE typeof({it}) WHEN 'blob' THEN length({it}) ELSE {it} END)"
            for it in COLUMNS[table].split(", ")
        ]
        for table in rows
    }
    came = answers_of(
        path,
        {table: f"SELECT count(*), {', '.join(its)} FROM {table}" for table, its in sums.items()},
    )
    for table, its in rows.items():
        wanted = [
            sum(len(it) if isinstance(it, bytes) else it for it in column) for column in zip(*its)
        ] or [None] * len(sums[table])
        checks.equal(
            f"{what}: rows of {table}, and the sums of its columns",
            came[table],
            [(len(its), *wanted)],
        )


def opened_by_commands(world, checks, what, frames):
    """Each command that opens a file makes it version 3."""
    for command in ("audit", "limits", "forget", "status"):
        books = taken(DEFAULT, frames)
        path = written(world, f"figures-by-{command}", *of_version(1, books))
        if command == "status":
            read_by_commands(world, checks, what, path, books)
        elif command == "forget":
            checks.equal(
                f"{what}: forget",
                forget(world, path, 3, f"{path}.new", default=DEFAULT),
                kept(books, books.remembered(3)),
            )
        else:
            world.run(command, "--config", ledger_settings(world, path, default=DEFAULT))
        checks.equal(
            f"{what}, opened by {command}: its version and tables", version_of(path), OF_VERSION_3
        )
        same_rows(checks, f"{what}, opened by {command}", path, books)


def limits_that_were_cleared(world, checks):
    """Limits of a run that a retire gave up, after 1,200 answers: `forget` works out which of them
    were set, by what was used then."""
    frames = [
        wire.reserve(n, txn=n, login=b"v%d" % (n % 7), at=DAY * (1 + n % 4))
        for n in range(1, BEFORE + 1)
    ]
    # (each login has used 42 or 43 on each of the days 1 to 4)
    frames += [
        wire.limit(BEFORE + n, day, cap, login=login)
        for n, (login, day, cap) in enumerate(
            [
                (b"v1", 1, 42),
                (b"v1", 1, 43),
                (b"v2", 0, 500),
                (b"v2", 4, 10),
                (b"v3", 5, 0),
                (b"v3", 2, 41),
                (b"new", 1, 1),
                (b"v1", 4, 44),
                (b"v6", 0, 42),
            ],
            1,
        )
    ]
    frames += [
        wire.retire(1, run=2),
        wire.reserve(1, txn=1, run=2, login=b"v1", at=4 * DAY),
        wire.reserve(2, txn=2, run=2, login=b"v1", at=4 * DAY, count=9),
    ]
    path, books = left_by_a_server(world, "figures-cleared", b"".join(frames), default=1_000)
    what = f"limits whose replies a retire cleared, after {BEFORE:,} answers"
    for day in (1, 3, 9):
        into = f"{path}.{day}"
        checks.equal(
            f"{what}: forget before day {day}",
            forget(world, path, day, into, default=1_000),
            kept(books, books.remembered(day)),
        )
        same_file(
            world,
            checks,
            f"{what}, forgotten before day {day}",
            path,
            into,
            books,
            day,
            default=1_000,
        )


def peers_that_ask_for_much(world, checks):
    """What 60 peers ask at once, in requests that are as long as any, isn't held by the server but
    for a piece of each."""
    with Server(world) as server:
        login = b"x" * 255
        server.ask(wire.usage(login))
        before, peers = greatest_memory(server.process), [server.connect() for _ in range(PEERS)]
        with server.stopped():
            for peer in peers:
                threading.Thread(
                    target=peer.sendall, args=(wire.usage(login) * ASKED,), daemon=True
                ).start()
            time.sleep(0.2)
        came = []
        reading = [
            threading.Thread(target=lambda peer=peer: came.append(all_of(peer))) for peer in peers
        ]
        for it in reading:
            it.start()
        for it in reading:
            it.join()
        whole = (
            wire.frame(b"\x8b" + wire.text(login) + b"".join(map(wire.number, (1, 0, 0, 3))))
        ) * ASKED
        what = f"{PEERS} peers of {ASKED:,} requests of {len(wire.usage(login))} bytes"
        checks.equal(
            f"{what}: those that are answered otherwise", [it for it in came if it != whole], []
        )
        checks.equal(f"{what}: the log", server.log_lines(), [])
        took = greatest_memory(server.process) - before
        checks.holds(
            f"{what}: the memory of all that they ask and are answered",
            took < PEERS * OF_A_PEER + BESIDES,
            f"less than {(PEERS * OF_A_PEER + BESIDES) / 1e6:.1f} MB",
            f"{took / 1e6:.1f} MB",
        )


def all_of(peer):
    send_no_more(peer)
    with peer:
        return read_all(peer)


def timeouts(world, checks):
    """By the clock, since none can be put in its place: the most is a bound for a machine that has
    much else to do. All wait at once."""
    found = {}

    def wait(which, timeout, enough):
        if which == "filter":
            found[which, timeout] = soon(lambda: of_a_filter(world, timeout), enough)
            return
        more = (
            {"words": ["--create"], "store": f"{world.folder}/keeping", "keep": 2}
            if which == KEEPING
            else {}
        )
        with Server(world, timeout=timeout, **more) as server:
            found[which, timeout] = soon(lambda: of_a_server(server), enough)

    rows = [
        (which, timeout, enough)
        for timeout, enough in ((300, 0.9), (30_000, 50))
        for which in ("server", "filter")
    ] + [(KEEPING, 300, 0.9), ("server", 1, 0.3)]
    waiting = [threading.Thread(target=wait, args=row, daemon=True) for row in rows]
    for it in waiting:
        it.start()
    for it in waiting:
        it.join()
    for which, timeout, enough in rows:
        came, took = found[which, timeout]
        if which != "filter":
            checks.equal(
                f"a {which}'s timeout of {timeout:,} ms: what a silent peer is sent, and its line",
                came,
                (b"", ["read failed"]),
            )
        else:
            checks.equal(
                f"a filter's timeout of {timeout:,} ms: a silent server",
                came,
                (0, REGISTRATION + answer(SERVICE)),
            )
        checks.holds(
            f"a {which}'s timeout of {timeout:,} ms: how long it waits",
            timeout / 1_000 <= took < enough,
            f"{timeout / 1_000} s",
            f"{took:.2f} s",
        )


def of_a_server(server):
    """What a peer gets that sends nothing, and what is logged of it."""
    before = len(server.log_lines())
    with server.connect() as peer:
        came = read_all(peer)
    return came, [line.rpartition(": ")[2] for line in server.log_lines()[before:]]


def of_a_filter(world, timeout):
    """What a filter comes to whose server doesn't answer."""
    with Script([SILENCE]) as server:
        return world.filter(server.address, INPUT, tries=1, timeout=timeout)[:2]


def retired_hosts(world, checks):
    """A ledger that knows of so many mail hosts which runs of theirs are retired is opened, and
    refuses those of each."""
    what, books = f"{HOSTS:,} hosts that were retired", taken(
        DEFAULT, (wire.retire(1, host=b"mx%d" % n, run=5) for n in range(1, HOSTS + 1))
    )
    path = written(world, "figures-hosts", *of_version(3, books))
    asked = b"".join(
        wire.reserve(2, txn=1, host=b"mx%d" % n, run=run)
        for n in (1, HOSTS // 2, HOSTS, HOSTS + 1)
        for run in (4, 5)
    )
    with Server(world, store=path, log="info", default=DEFAULT) as server:
        checks.equal(
            f"{what}: a server's start",
            without_time(server.log_lines())[:1],
            [begun(path, default=DEFAULT, answers=HOSTS)],
        )
        checks.equal(
            f"{what}: requests of an earlier run, and of that one",
            answers(server, asked),
            books.serve(asked),
        )
