"""Retired runs: what a retire settles and gives up, over a list, tables and a file; files of
versions 1 and 2, which an open makes version 3; and what a filter and an administrator are told."""
import os
import signal
import sqlite3
import subprocess
import sys
import threading
import time

import wire
from books import Books
from cases.audits import SOUND, audit, edited
from cases.edges import answers
from cases.filters import (
    AUTH,
    BEGIN,
    COMMIT,
    CONFIG,
    INPUT,
    LIMIT,
    MX1,
    PROCEED,
    RCPT,
    RELEASE,
    RESERVE,
    SERVICE,
    answer,
    of_a_try,
    scripted,
    told,
)
from cases.rules import CENTRAL_EUROPE
from ends import (
    IS_THERE,
    SILENCE,
    Script,
    Server,
    copied,
    fault,
    ledger_settings,
    refusal,
    unavailable,
    wrong_tables,
)
from rows import COLUMNS, answers_of, rows_in, same_rows
from smtpd import Smtpd, result

# a number of run 1 of host a, and the retire of the runs below 2
I = "0161 0000000000000001 %08x"
J = "0161 0000000000000002 00000001"
T = "00000001 0000000000015180 0175"
USAGE = "0007 05 0175 00000001"
ONE, TWO = f"0021 01 {I % 1} {T} 00000001", f"0021 01 {I % 2} {T} 00000002"
RETIRE = f"000f 07 {J}"
OTHER_HOST = "0162 0000000000000001 00000001"

WORKED = [
    (
        "a retire settles what was reserved",
        [
            ONE,
            TWO,
            RETIRE,
            USAGE,
            ONE,
            f"0021 02 {I % 3} {T} 00000001",
            RETIRE,
            f"0021 01 0161 0000000000000002 00000002 {T} 00000001",
            f"000f 07 {I % 9}",
        ],
        [
            f"0013 81 {I % 1} 00000001",
            f"0013 81 {I % 2} 00000003",
            f"000f 8f {J}",
            "0013 8b 0175 00000001 00000003 00000000 00000003",
            f"000f 90 {I % 1}",
            f"000f 90 {I % 3}",
            f"000f 8f {J}",
            "0017 82 0161 0000000000000002 00000002 00000003 00000003",
            f"000f 90 {I % 9}",
        ],
    ),
    (
        "a retire reaches one host",
        [ONE, f"0021 01 {OTHER_HOST} {T} 00000001", RETIRE, f"000f 07 {OTHER_HOST}", USAGE],
        [
            f"0013 81 {I % 1} 00000001",
            f"0013 81 {OTHER_HOST} 00000002",
            f"000f 8f {J}",
            f"000f 8a {OTHER_HOST}",
            "0013 8b 0175 00000001 00000001 00000001 00000003",
        ],
    ),
]

FIVE_TABLES = [
    (
        "CREATE TABLE setting (id INTEGER PRIMARY KEY, version INTEGER NOT NULL, minutes INTEGER"
        " NOT NULL, cap INTEGER NOT NULL, arrivals INTEGER NOT NULL) STRICT"
    ),
    (
        "CREATE TABLE answer (n INTEGER PRIMARY KEY, host BLOB NOT NULL, run INTEGER NOT NULL, seq"
        " INTEGER NOT NULL, request BLOB NOT NULL, reply BLOB NOT NULL, UNIQUE (host, run, seq))"
        " STRICT"
    ),
    (
        "CREATE TABLE trans (host BLOB NOT NULL, run INTEGER NOT NULL, txn INTEGER NOT NULL, login"
        " BLOB NOT NULL, moment INTEGER NOT NULL, day INTEGER NOT NULL, held INTEGER NOT NULL,"
        " settled INTEGER NOT NULL, closed INTEGER NOT NULL, PRIMARY KEY (host, run, txn)) STRICT"
    ),
    (
        "CREATE TABLE usage (login BLOB NOT NULL, day INTEGER NOT NULL, settled INTEGER NOT NULL,"
        " reserved INTEGER NOT NULL, PRIMARY KEY (login, day)) STRICT"
    ),
    (
        "CREATE TABLE ceiling (login BLOB NOT NULL, day INTEGER NOT NULL, cap INTEGER NOT NULL,"
        " PRIMARY KEY (login, day)) STRICT"
    ),
]
RULE_TABLE = "CREATE TABLE rule (id INTEGER PRIMARY KEY, bytes BLOB NOT NULL) STRICT"
RETIRED_TABLE = "CREATE TABLE retired (host BLOB PRIMARY KEY, run INTEGER NOT NULL) STRICT"
TEXT_FOR_A_RULE = [
    "DROP TABLE rule",
    "CREATE TABLE rule (id INTEGER PRIMARY KEY, bytes TEXT)",
    "INSERT INTO rule VALUES (1, 'UTC0')",
]
TEXTS_FOR_FLOORS = [
    "DROP TABLE retired",
    "CREATE TABLE retired (host TEXT, run TEXT)",
    "INSERT INTO retired VALUES ('a', '2')",
]
# two reserves of a transaction of login u on day 1, a settle of 1, and a settle that comes too late
FOUR = [wire.reserve(1), wire.reserve(2), wire.settle(3), wire.settle(4)]
NAMES = ["setting", "answer", "trans", "usage", "ceiling", "rule", "retired"]
KILLS = 60
# Runs the program so that a write of a file beyond this many bytes ends it, as a kill would: by
# SIGXFSZ, which Python passes over.
ENDED_AT = """import os, resource, signal, sys
signal.signal(signal.SIGXFSZ, signal.SIG_DFL)
resource.setrlimit(resource.RLIMIT_CORE, (0, 0))
resource.setrlimit(resource.RLIMIT_FSIZE, (int(sys.argv[1]), int(sys.argv[1])))
os.execv(sys.argv[2], sys.argv[2:])"""
# Bytes of the log at which a program ends that makes a file version 3: in the log's head, in each
# page that it writes, and in the room that it takes then, before the commit counts.
SIZES = [0, 1, 32, 40, 41, *range(2_048, 24_577, 2_048), 65_536, 131_072, 262_144]
# open messages of a run that is given up while its server is killed
OPEN = 800
KILLS_OF_A_RETIRE = 24
# what the filter of host mx1 says of its run 1
RUN_IS_RETIRED = (
    "[ERROR filter] run 1 of host mx1 is retired, recipients are answered 451: restart"
    ' smtpd, but first see "A filter that is retired" in OPERATING.md'
)
RUN_IS_TAKEN = "[WARN  filter] run 1 of host mx1 isn't retired at the server that answers now"
ANOTHER_ZONE, NOT_OURS = "store has another zone", "store is not this ledger"
BY_RULE = {"offset": None, "rule": CENTRAL_EUROPE}


def run(world, checks):
    worked(world, checks)
    a_file(world, checks)
    older_files(world, checks)
    without_the_index(world, checks)
    killed_as_it_opens(world, checks)
    ended_as_it_opens(world, checks)
    killed_within_a_retire(world, checks)
    refused(world, checks)
    without_room(world, checks)
    a_retired_filter(world, checks)
    what_a_retired_filter_says(world, checks)
    a_host_that_is_restarted(world, checks)
    commands(world, checks)


def frames_of(texts):
    return bytes.fromhex("".join(texts))


def worked(world, checks):
    for what, asked, wanted in WORKED:
        asked, wanted = frames_of(asked), frames_of(wanted)
        for words in ([], ["--sql"]):
            came = world.run("replay", "--default", "3", *words, text=asked.hex().encode())
            checks.equal(
                " ".join([f"{what}: replay", *words]), came, (0, f"{wanted.hex()}\n".encode(), "")
            )
        path = f"{world.folder}/{what.replace(' ', '-')}"
        with Server(world, words=["--create"], store=path) as server:
            checks.equal(f"{what}: a server over a file", server.ask(asked), wanted)


def a_file(world, checks):
    """Hosts with several runs, some of them retired again and again, over a file that is killed and
    opened again."""
    path, books = f"{world.folder}/retiring", Books(default=50)
    sent = []
    for turn in range(1, 6):
        new = [frame for host in (b"a", b"b", b"c") for frame in of_a_run(host, turn)]
        new += [
            wire.retire(900, host=b"a", run=turn),
            wire.retire(901, host=b"b", run=max(turn - 2, 1)),
            wire.usage(),
            wire.page(),
        ]
        with Server(
            world, words=[] if turn > 1 else ["--create"], store=path, default=50
        ) as server:
            for what, frames in (("what was asked before", sent), ("what is new", new)):
                frames = b"".join(frames)
                checks.equal(
                    f"a file with retires, start {turn}: {what}",
                    server.ask(frames),
                    books.serve(frames),
                )
            server.process.kill()
            server.status()
        sent += new
        same_rows(checks, f"a file with retires, kill {turn}", path, books)
        came = audit(world, path, default=50)
        checks.equal(
            f"audit behind kill {turn}",
            came,
            (
                0,
                f"sound days={len(books.usage)} transactions={len(books.transactions)}\n".encode(),
                "",
            ),
        )
    checks.equal("the floors", rows_in(path, ["retired"]), {"retired": [(b"a", 5), (b"b", 3)]})


def of_a_run(host, run):
    """Transactions that are left open, settled, released and refused, of two logins on two days."""
    its = {"host": host, "run": run}
    return [
        wire.reserve(1, txn=1, count=2, **its),
        wire.reserve(2, txn=1, **its),
        wire.reserve(3, txn=2, login=b"v", at=172_800, **its),
        wire.reserve(4, txn=3, count=3, **its),
        wire.settle(5, txn=3, count=2, **its),
        wire.reserve(6, txn=4, **its),
        wire.release(7, txn=4, **its),
        wire.reserve(8, txn=5, count=1_000, **its),
        wire.release(9, txn=6, **its),
        wire.reserve(10, txn=2, login=b"w", at=172_800, **its),
        wire.limit(11, 2, 40 + run, login=b"v", **its),
    ]


def written(world, name, *statements):
    """A file that these statements made, each alone or with the rows that it is for."""
    path = f"{world.folder}/{name}"
    database = sqlite3.connect(path)
    for statement in statements:
        (
            database.executemany(*statement)
            if isinstance(statement, tuple)
            else database.execute(statement)
        )
    database.commit()
    database.close()
    return path


def of_version(version, books):
    """What writes the rows of these books as tables of version 1, which is by an offset and has no
    retires, of version 2, by a rule, or of version 3."""
    rows = books.rows()
    [(_, minutes, cap, arrivals)] = rows["setting"]
    yield from FIVE_TABLES
    yield "INSERT INTO setting VALUES (1, ?, ?, ?, ?)", [(version, minutes, cap, arrivals)]
    if version > 1:
        yield RULE_TABLE
    if version > 2:
        yield RETIRED_TABLE
    for table in ["answer", "trans", "usage", "ceiling", "rule", "retired"][: 3 + version]:
        yield f"INSERT INTO {table} VALUES ({', '.join('?' * len(COLUMNS[table].split(', ')))})", rows[
            table
        ]


def version_of(path):
    found = answers_of(
        path,
        {
            "version": "SELECT version FROM setting",
            "names": "SELECT name FROM sqlite_schema WHERE type = 'table' ORDER BY name",
        },
    )
    return found["version"], [name for name, in found["names"]]


OF_VERSION_1 = [(1,)], ["answer", "ceiling", "setting", "trans", "usage"]
OF_VERSION_2 = [(2,)], ["answer", "ceiling", "rule", "setting", "trans", "usage"]
OF_VERSION_3 = [(3,)], ["answer", "ceiling", "retired", "rule", "setting", "trans", "usage"]


def of_the_four(zone=0):
    books = Books(zone)
    books.serve(b"".join(FOUR))
    return books


def older_files(world, checks):
    """A file of an older version is version 3 once it was opened, with the rows that it had; one
    that is refused stays as it is."""
    for version, zone, settings, older in [
        (1, 0, {}, OF_VERSION_1),
        (2, CENTRAL_EUROPE, BY_RULE, OF_VERSION_2),
    ]:
        what, books = f"a file of version {version}", Books(zone)
        replies = [books.serve(frame) for frame in FOUR]
        path = written(world, f"version-{version}", *of_version(version, books))
        made = f"rule {zone}" if zone else "offset 0"
        for how, other, wanted, cause in [
            (
                "with another offset",
                {"offset": 60},
                ANOTHER_ZONE,
                f"made with {made}, the settings have offset 60",
            ),
            (
                "with another default",
                {**settings, "default": 4},
                "store has another default",
                "made with default 3, the settings have default 4",
            ),
        ]:
            came = audit(world, path, **other)
            checks.equal(
                f"{what}, opened {how}",
                (came, version_of(path)),
                (fault(wanted, log=refusal(path, cause)), older),
            )
        with Server(world, store=path, **settings) as server:
            checks.equal(
                f"{what}: its replies again", [server.ask(frame) for frame in FOUR], replies
            )
            new = (
                wire.reserve(9, txn=8)
                + wire.retire(1, run=2)
                + wire.reserve(9, txn=8)
                + wire.reserve(2, run=2, txn=9)
                + wire.usage()
            )
            checks.equal(f"{what}: a retire", server.ask(new), books.serve(new))
        same_rows(checks, f"{what}, opened", path, books)
        checks.equal(f"{what}, opened: its version and tables", version_of(path), OF_VERSION_3)
        checks.equal(
            f"{what}, opened: audit",
            audit(world, path, **settings),
            (0, b"sound days=1 transactions=3\n", ""),
        )
    path = written(world, "version-1-audited", *of_version(1, of_the_four()))
    checks.equal("a file of version 1: audit", audit(world, path), SOUND)
    checks.equal(
        "a file of version 1, audited: its version and tables", version_of(path), OF_VERSION_3
    )
    path = written(
        world, "version-1-damaged", *of_version(1, of_the_four()), "UPDATE usage SET reserved = 9"
    )
    came = audit(world, path), version_of(path)
    checks.equal(
        "a file of version 1 with wrong books stays as it is",
        came,
        (fault("store is damaged: login u day 1"), OF_VERSION_1),
    )


# What has the name of the ledger's index, by what makes it, and whether it is made again.
NAMED_AS_THE_INDEX = {
    "a table": "CREATE TABLE usage_by_day (note TEXT)",
    "a view": "CREATE VIEW usage_by_day AS SELECT login FROM usage",
    "an index of another table": "CREATE INDEX usage_by_day ON trans (login)",
    "an index of other columns": "CREATE INDEX usage_by_day ON usage (settled)",
}
BY_THAT_NAME = {
    "by name": "SELECT type, tbl_name, sql FROM sqlite_schema WHERE name = 'usage_by_day'"
}


def without_the_index(world, checks):
    """A file of an older version in which something else has the index's name is opened all the
    same, keeps that, and answers lists without the index."""
    for version, settings, zone in ((1, {}, 0), (2, BY_RULE, CENTRAL_EUROPE), (3, {}, 0)):
        for named, statement in NAMED_AS_THE_INDEX.items():
            what, books = f"a file of version {version}, with {named} of that name", Books(zone)
            replies = [books.serve(frame) for frame in FOUR]
            path = written(
                world,
                f"index-{version}-{named.replace(' ', '-')}",
                *of_version(version, books),
                statement,
            )
            before = answers_of(path, BY_THAT_NAME)
            with Server(world, store=path, **settings) as server:
                new = b"".join(
                    wire.reserve(n, txn=n, login=b"%02d" % n, at=86_400 * (1 + n % 3))
                    for n in range(10, 40)
                ) + b"".join(wire.page(day=day) for day in range(1, 4))
                checks.equal(
                    f"{what}: replies again, and lists",
                    ([server.ask(frame) for frame in FOUR], server.ask(new)),
                    (replies, books.serve(new)),
                )
            checks.equal(f"{what}: what has it then", answers_of(path, BY_THAT_NAME), before)
            same_rows(checks, f"{what}, opened", path, books)


def killed_as_it_opens(world, checks):
    """A file of version 1 whose program is killed at some moment is of version 1 or 3, whole, and
    opens."""
    source = written(world, "version-1-source", *of_version(1, of_the_four()))
    start = time.monotonic()
    audit(world, edited(world, source, "version-1-timed"))
    took, found, wrong = time.monotonic() - start, [], []
    for turn in range(KILLS):
        path = edited(world, source, f"version-1-killed{turn}")
        words = [world.program, "audit", "--config", ledger_settings(world, path)]
        process = subprocess.Popen(
            words, stdin=subprocess.DEVNULL, stdout=subprocess.DEVNULL, stderr=subprocess.DEVNULL
        )
        time.sleep(took * turn / KILLS)
        process.kill()
        process.wait()
        before = version_of(path)
        found.append(before)
        if (
            before not in (OF_VERSION_1, OF_VERSION_3)
            or audit(world, path) != SOUND
            or version_of(path) != OF_VERSION_3
        ):
            wrong.append((turn, before))
    checks.equal(
        (
            f"{KILLS} kills of a program that opens a file of version 1: files that are of neither,"
            " or don't open"
        ),
        wrong,
        [],
    )
    checks.holds("what the kills leave", OF_VERSION_1 in found, "some files of version 1", found)
    print(
        (
            f"    {KILLS} kills: {found.count(OF_VERSION_1)} files of version 1,"
            f" {found.count(OF_VERSION_3)} of version 3"
        ),
        flush=True,
    )


def ended_as_it_opens(world, checks):
    """A file of version 1 whose program ends while it writes the log of version 3 is of version 1
    still, whole, and opens."""
    source = written(world, "version-1-ended", *of_version(1, of_the_four()))
    for size in SIZES:
        what, path = f"a program that ends after {size:,} bytes of the log of version 3", edited(
            world, source, f"version-1-ended{size}"
        )
        words = [
            sys.executable,
            "-I",
            "-S",
            "-c",
            ENDED_AT,
            str(size),
            world.program,
            "audit",
            "--config",
            ledger_settings(world, path),
        ]
        status = subprocess.run(
            words, stdin=subprocess.DEVNULL, stdout=subprocess.DEVNULL, stderr=subprocess.DEVNULL
        ).returncode
        checks.equal(
            f"{what}: its status, and the file",
            (status, version_of(path)),
            (-signal.SIGXFSZ, OF_VERSION_1),
        )
        checks.equal(
            f"{what}: the next audit, and the file",
            (audit(world, path), version_of(path)),
            (SOUND, OF_VERSION_3),
        )


def killed_within_a_retire(world, checks):
    """A server that is killed within a retire of many open messages has all of it or nothing."""
    source, books = f"{world.folder}/open", Books(0, 1_000_000)
    opened = [
        wire.reserve(n, txn=n, login=b"%03d" % (n % 50) + b"x" * 100, at=86_400 * (1 + n % 3))
        for n in range(1, OPEN + 1)
    ]
    with Server(world, words=["--create"], store=source, default=books.default) as server:
        checks.equal(
            f"{OPEN} open messages",
            answers(server, b"".join(opened)),
            books.serve(b"".join(opened)),
        )
    before, retire = books.rows(), wire.retire(1, run=2)
    with Server(
        world, store=copied(source, f"{world.folder}/open-timed"), default=books.default
    ) as server:
        start = time.monotonic()
        checks.equal(
            f"a retire of {OPEN} open messages", answers(server, retire), books.serve(retire)
        )
        took = time.monotonic() - start
    after, found, wrong = books.rows(), [], []
    for turn in range(KILLS_OF_A_RETIRE):
        path = copied(source, f"{world.folder}/open-killed{turn}")
        with Server(world, store=path, default=books.default) as server:
            asking = threading.Thread(target=answers, args=(server, retire), daemon=True)
            asking.start()
            # (most within the time that it took, and some long after, should it take longer now)
            time.sleep(6 * took * (turn / KILLS_OF_A_RETIRE) ** 2)
            server.process.kill()
            server.status()
            asking.join()
        rows = rows_in(path, before)
        found.append(rows == after)
        with Server(world, store=path, default=books.default) as server:
            replied = answers(server, retire + opened[0]) == books.serve(retire + opened[0])
        if rows not in (before, after) or not replied or rows_in(path, before) != after:
            wrong.append(turn)
    checks.equal(f"{KILLS_OF_A_RETIRE} kills within a retire: files with a part of it", wrong, [])
    checks.equal("what these kills leave: files with it and without it", {*found}, {False, True})
    print(
        (
            f"    {KILLS_OF_A_RETIRE} kills within a retire of {OPEN} open messages:"
            f" {found.count(False)} files without it, {found.count(True)} with it"
        ),
        flush=True,
    )


def refused(world, checks):
    for name in NAMES:
        path = written(world, f"only-{name}", f"CREATE TABLE {name} (a INTEGER) STRICT")
        for zone in ({}, BY_RULE):
            came = world.run("server", "--config", ledger_settings(world, path, **zone), "--create")
            checks.equal(
                f"--create beside a table {name}, {'a rule' if zone else 'an offset'}",
                came,
                fault(NOT_OURS, log=refusal(path, IS_THERE)),
            )
    first, second = list(of_version(1, of_the_four())), list(
        of_version(2, of_the_four(CENTRAL_EUROPE))
    )
    with Server(world, words=["--create"], store=f"{world.folder}/third") as server:
        server.ask(wire.reserve(1) + wire.retire(1, run=2))

    for place, (what, path, zone, cause) in enumerate(
        [
            (
                "version 1 with a table rule",
                written(world, "first-rule", *first, RULE_TABLE),
                {},
                wrong_tables(1),
            ),
            (
                "version 1 with a table retired",
                written(world, "first-retired", *first, RETIRED_TABLE),
                {},
                wrong_tables(1),
            ),
            (
                "version 2 with a table retired",
                written(world, "second-retired", *second, RETIRED_TABLE),
                BY_RULE,
                wrong_tables(2),
            ),
            (
                "version 2 without a table rule",
                written(world, "second-rule", *second, "DROP TABLE rule"),
                BY_RULE,
                wrong_tables(2),
            ),
            (
                "version 2 without a row of its rule",
                written(world, "second-row", *second, "DELETE FROM rule"),
                BY_RULE,
                wrong_tables(2),
            ),
            (
                "version 2 with a text for a rule",
                written(world, "second-text", *second, *TEXT_FOR_A_RULE),
                BY_RULE,
                wrong_tables(2),
            ),
            (
                "version 3 with a text for a rule",
                edited(world, f"{world.folder}/third", "third-text", *TEXT_FOR_A_RULE),
                {},
                wrong_tables(3),
            ),
            (
                "version 3 without a table rule",
                edited(world, f"{world.folder}/third", "third-rule", "DROP TABLE rule"),
                {},
                wrong_tables(3),
            ),
            (
                "version 3 without a table retired",
                edited(world, f"{world.folder}/third", "third-retired", "DROP TABLE retired"),
                {},
                wrong_tables(3),
            ),
            (
                "version 3 with texts for floors",
                edited(world, f"{world.folder}/third", "third-texts", *TEXTS_FOR_FLOORS),
                {},
                wrong_tables(3),
            ),
            (
                "version 4",
                edited(
                    world,
                    f"{world.folder}/third",
                    "third-version",
                    "UPDATE setting SET version = 4",
                ),
                {},
                "tables of version 4, this program knows 1 to 3",
            ),
        ]
    ):
        before = version_of(path)
        came = audit(world, path, **zone), version_of(path)
        checks.equal(
            f"{place}, {what}: refused, and as it was",
            came,
            (fault(NOT_OURS, log=refusal(path, cause)), before),
        )


def without_room(world, checks):
    """A file of an older version that can't be given version 3 is refused, for the cause that the
    system has, and stays as it was."""
    path = written(world, "without-room", *of_version(1, of_the_four()))
    room = "RLIMIT_FSIZE", os.path.getsize(path)
    came = world.run("audit", "--config", ledger_settings(world, path), limit=room), version_of(
        path
    )
    checks.equal(
        "a file of version 1, no room for version 3: refused, and as it was",
        came,
        (fault("store failed", log=refusal(path, "disk I/O error")), OF_VERSION_1),
    )


def is_old(heard):
    """The answer to a request of the filter of mx1 whose run is retired."""
    return wire.old(int.from_bytes(heard[15:19], "big"), **MX1)


def a_retired_filter(world, checks):
    """It answers 451 and asks each request once; its closings are removed with a warning."""
    # (a third question would be answered)
    errors = scripted(
        world,
        checks,
        "a retired filter",
        INPUT + COMMIT,
        [is_old] * 3,
        results=[answer(SERVICE)],
        frames=[RESERVE, RELEASE],
    )
    told(
        checks,
        "a retired filter",
        errors,
        [
            RUN_IS_RETIRED,
            of_a_try("reserve", 1, "the run is retired"),
            of_a_try("release", 2, "the run is retired"),
        ],
    )


def what_a_retired_filter_says(world, checks):
    """It says so as an error at once and then each minute, by the seconds of smtpd's lines, as long
    as the server refuses its requests for that; and at once again after another server took one."""

    def is_granted(heard):
        number = int.from_bytes(heard[15:19], "big")
        return wire.granted(number, number, **MX1)

    def said(replies, moments):
        recipients = [RCPT.replace(b"1576146010", b"%010d" % at) for at in moments]
        with Script(replies) as server:
            came = world.filter(server.address, CONFIG + AUTH + BEGIN + b"".join(recipients))
        return came[0], came[1].count(SERVICE), came[2].splitlines()

    at = 1_576_146_010
    # (the clock goes back before the last four)
    seconds = (0, 0, 30, 59, 60, 61, 119, 120, 50, 51, 109, 110)
    is_due = (True, False, False, False, True, False, False, True, True, False, False, True)
    wanted = []
    for number, due in enumerate(is_due, start=1):
        wanted += [RUN_IS_RETIRED] * due
        wanted.append(of_a_try("reserve", number, "the run is retired"))
    checks.equal(
        "a retired filter that is asked for minutes: the status, its 451s and its log",
        said([is_old] * len(seconds), [at + it for it in seconds]),
        (0, len(seconds), wanted),
    )
    refused = [of_a_try("reserve", number, "the run is retired") for number in (1, 3)]
    checks.equal(
        "a filter that is retired at one of two servers: the status, its 451s and its log",
        said([is_old, is_granted] * 2, [at, at + 1, at + 2, at + 3]),
        (
            0,
            2,
            [RUN_IS_RETIRED, refused[0], RUN_IS_TAKEN, RUN_IS_RETIRED, refused[1], RUN_IS_TAKEN],
        ),
    )


def a_host_that_is_restarted(world, checks):
    """As the example for systemd does it: the filter is killed within a message, `retire` runs
    without a number, the next filter starts; and what a retire does to a filter that runs."""
    host, at, login = "mx1.example.org", int(time.time()), b"alice"
    path = f"{world.folder}/restarted"

    def report():
        return world.run("report", "--server", server.address, "--day", str(at // 86_400))[
            1
        ].split()

    def retire():
        checks.equal(
            "retire without a number",
            world.run("retire", "--server", server.address, "--host", host),
            (0, b"retired\n", ""),
        )
        # (the next filter reads another millisecond)
        time.sleep(0.01)

    def asked(filter_, session, count):
        filter_.login(at, session, login)
        filter_.begin(at, session, b"m-" + session)
        return [filter_.recipient(at, session) for _ in range(count)]

    with Server(world, words=["--create"], store=path, default=4) as server:
        first = Smtpd(world, host, server.address)
        checks.equal(
            "a message of two recipients", asked(first, b"s1", 2), [result(PROCEED, b"s1")] * 2
        )
        first.process.kill()
        first.process.wait()
        checks.equal(
            "a filter that was killed: its message is reserved",
            report(),
            [b"0", b"2", b"4", b"alice"],
        )
        retire()
        checks.equal(
            "its host's runs retired: it counts as sent", report(), [b"2", b"0", b"4", b"alice"]
        )
        second = Smtpd(world, host, server.address)
        checks.equal(
            "the next filter",
            asked(second, b"s2", 3),
            [result(it, b"s2") for it in (PROCEED, PROCEED, LIMIT)],
        )
        second.commit(at, b"s2", b"m-s2")
        checks.equal("the next filter has sent its settle", second.is_done(), True)
        checks.equal("what is used after its message", report(), [b"4", b"0", b"4", b"alice"])
        words = [
            "--server",
            server.address,
            "--host",
            "admin",
            "--login",
            "alice",
            "--from",
            "0",
            "--cap",
            "9",
        ]
        checks.equal("a limit of 9", world.run("limit", *words), (0, b"set\n", ""))
        checks.equal("the next message", asked(second, b"s3", 1), [result(PROCEED, b"s3")])
        retire()
        checks.equal(
            "a filter that runs, retired", second.recipient(at, b"s3"), result(SERVICE, b"s3")
        )
        checks.equal("what is used then", report(), [b"5", b"0", b"9", b"alice"])
        second.commit(at, b"s3", b"m-s3")
        checks.equal("a filter that runs, retired: its end", second.end(), (0, b"", ""))
        third = Smtpd(world, host, server.address)
        checks.equal(
            "a filter that is started after that", asked(third, b"s4", 1), [result(PROCEED, b"s4")]
        )
        checks.equal("a filter that is started after that: its end", third.end(), (0, b"", ""))
        checks.equal("what is used at last", report(), [b"5", b"1", b"9", b"alice"])


def commands(world, checks):
    """`retire` and `limit` by the real server."""

    def retire(server, run=2, host="a"):
        return world.run("retire", "--server", server.address, "--host", host, "--run", str(run))

    def limit(server, run):
        return world.run(
            "limit",
            "--server",
            server.address,
            "--host",
            "a",
            "--login",
            "u",
            "--from",
            "1",
            "--cap",
            "3",
            "--run",
            str(run),
        )

    with Server(world) as server:
        server.ask(frames_of([ONE, TWO]))
        checks.equal("retire", retire(server), (0, b"retired\n", ""))
        checks.equal(
            "retire: what was reserved is settled",
            world.run("report", "--server", server.address, "--day", "1"),
            (0, b"      3       0       3 u\n", ""),
        )
        checks.equal("the same retire again", retire(server), (0, b"retired\n", ""))
        checks.equal(
            "a retire of a run that is retired", retire(server, run=1), fault("run is retired")
        )
        checks.equal(
            "a limit of a run that is retired", limit(server, run=1), fault("run is retired")
        )
        checks.equal(
            "a limit under the retire's number",
            limit(server, run=2),
            fault("number used with another limit"),
        )
        checks.equal("a limit of a later run", limit(server, run=3), (0, b"set\n", ""))
        checks.equal(
            "a retire under that limit's number",
            retire(server, run=3),
            fault("number used with another request"),
        )
        server.ask(wire.reserve(5, txn=1, run=4, login=b"v"))
        checks.equal(
            "a retire without --run",
            world.run("retire", "--server", server.address, "--host", "a"),
            (0, b"retired\n", ""),
        )
        checks.equal(
            "the filter of a later run, retired by it",
            server.ask(wire.reserve(6, txn=1, run=4, login=b"v")),
            wire.old(6, run=4),
        )
        checks.equal(
            "a filter of another host",
            server.ask(wire.reserve(6, txn=1, host=b"b", login=b"v")),
            wire.granted(6, 2, host=b"b"),
        )
    for what, script, wanted in [
        ("two lost replies", [b"", SILENCE, wire.retired(1, run=2)], (0, b"retired\n", "")),
        (
            "a reply to another host's",
            [wire.retired(1, run=2, host=b"b")] * 3,
            fault("quota service unavailable"),
        ),
        (
            "a reply to a limit",
            [wire.frame(b"\x85" + wire.identity(1, run=2))] * 3,
            fault("quota service unavailable"),
        ),
        ("no reply", [b""] * 3, None),
    ]:
        with Script(script) as server:
            came = retire(server)
        wanted = wanted or unavailable(server.address, "closed before its reply was whole")
        checks.equal(f"retire, {what}", (came, server.heard), (wanted, [wire.retire(1, run=2)] * 3))
    for words, said in [
        (["--server", "nowhere", "--host", "a_b"], "bad host"),
        (["--server", "nowhere", "--host", ""], "bad host"),
    ]:
        checks.equal(
            f"retire {' '.join(words)}",
            world.run("retire", *words),
            (2, b"", f"mailquota: {said}\n"),
        )
    with open("/dev/full", "wb") as full, Script([wire.retired(1, run=2)]) as server:
        came = world.run(
            "retire", "--server", server.address, "--host", "a", "--run", "2", output=full
        )
        checks.equal(
            "retire to a full device", (came[0], came[2]), (1, "mailquota: write failed\n")
        )
