"""`audit`: the books of a database file, right and wrong, and what a server says of the same
file."""
import os
import signal
import sqlite3

from ends import (
    LOCKED,
    NO_FILE,
    Server,
    copied,
    fault,
    ledger_settings,
    of_settings,
    of_store,
    refusal,
    wrong_tables,
)
from sums import renew
from wire import granted, limit, release, reserve, settle, usage

# two reserves of a transaction of login u on day 1, a settle of 1, and a settle that comes too late
TWO_AND_A_SETTLE = reserve(1) + reserve(2) + settle(3) + usage() + settle(4)
SOUND = (0, b"sound days=1 transactions=1\n", "")
DAY = 86_400


def run(world, checks):
    right_books(world, checks)
    nothing_is_changed(world, checks)
    wrong_books(world, checks)
    wrong_books_as_json(world, checks)
    logins_of_any_bytes(world, checks)
    the_least_that_is_wrong(world, checks)
    refused(world, checks)
    outputs(world, checks)
    beside_a_server(world, checks)


def audit(world, path, *words, output=None, **more):
    return world.run(
        "audit", "--config", ledger_settings(world, path, **more), *words, output=output
    )


def left_by_a_server(world, name, frames, end=None):
    """The path of a file that took these frames on one connection; its server ended after it, or by
    this signal."""
    path = f"{world.folder}/{name}"
    with Server(
        world, words=["--create"], store=path, connections=1 if end is None else 9
    ) as server:
        server.ask(frames)
        if end is not None:
            server.process.send_signal(end)
        server.status()
    return path


def right_books(world, checks):
    for name, end in [
        ("audit-ended", None),
        ("audit-term", signal.SIGTERM),
        ("audit-kill", signal.SIGKILL),
    ]:
        path = left_by_a_server(world, name, TWO_AND_A_SETTLE, end)
        checks.equal(f"audit behind {end.name if end else 'an end'}", audit(world, path), SOUND)
        checks.equal(
            f"audit behind {end.name if end else 'an end'}, once more", audit(world, path), SOUND
        )
    path = left_by_a_server(world, "audit-new", b"")
    checks.equal(
        "audit of a new ledger", audit(world, path), (0, b"sound days=0 transactions=0\n", "")
    )
    # u on days 1 and 2 and v on day 1 were granted some; w asked for more than its limit: a
    # transaction, and no day
    frames = [
        reserve(1, txn=1),
        reserve(2, txn=2, login=b"v"),
        reserve(3, txn=3, at=2 * DAY),
        release(4, txn=3, at=2 * DAY),
        reserve(5, txn=4, login=b"w", count=4),
        limit(6, 1, 2),
        settle(7, txn=1),
    ]
    path = left_by_a_server(world, "audit-more", b"".join(frames))
    checks.equal(
        "audit of more logins and days",
        audit(world, path),
        (0, b"sound days=3 transactions=4\n", ""),
    )
    checks.equal(
        "the same as JSON",
        audit(world, path, "--json"),
        (0, b'{"sound":true,"days":3,"transactions":4}\n', ""),
    )


def nothing_is_changed(world, checks):
    for name, end in [("audit-same-ended", None), ("audit-same-killed", signal.SIGKILL)]:
        path = left_by_a_server(world, name, TWO_AND_A_SETTLE, end)
        before = contents(world, name)
        came = audit(world, path)
        checks.equal(
            f"{name}: the files behind an audit",
            (came, contents(world, name) == before),
            (SOUND, True),
        )


def contents(world, name):
    """All files whose names begin so, with what is in them."""
    found = {}
    for file in sorted(os.listdir(world.folder)):
        if file.startswith(name):
            with open(f"{world.folder}/{file}", "rb") as opened:
                found[file] = opened.read()
    return found


def edited(world, source, name, *statements):
    """A copy of a file with these statements run over it, its log written back into it, and its
    pages with their sums."""
    path = copied(source, f"{world.folder}/{name}")
    database = sqlite3.connect(path)
    for statement in statements:
        database.execute(statement)
    database.commit()
    database.close()
    renew(path)
    return path


def by_both(world, checks, what, path, wanted, log="", **more):
    """`audit` and `server` refuse the file in the same words."""
    for subcommand in ("audit", "server"):
        came = world.run(subcommand, "--config", ledger_settings(world, path, **more))
        checks.equal(f"{what}: {subcommand}", came, fault(wanted, log=log))


def wrong_books(world, checks):
    source = left_by_a_server(world, "audit-source", TWO_AND_A_SETTLE)
    checks.equal(
        "a copy with nothing edited", audit(world, edited(world, source, "audit-copy")), SOUND
    )
    for place, (statement, day) in enumerate(
        [
            ("UPDATE usage SET reserved = 9", 1),
            ("UPDATE usage SET settled = 2", 1),
            ("UPDATE usage SET settled = 0, reserved = 1", 1),
            ("UPDATE usage SET settled = -1", 1),
            ("UPDATE usage SET day = -9223372036854775808", -9_223_372_036_854_775_808),
            ("DELETE FROM usage", 1),
            ("DELETE FROM trans", 1),
            ("UPDATE trans SET moment = 0", 1),
            ("UPDATE trans SET moment = 172800", 1),
            ("UPDATE trans SET day = 0", 0),
            ("UPDATE trans SET held = 1", 1),
            (
                (
                    "INSERT INTO trans VALUES (x'62', 1, 1, x'75', 86400, 1, 9223372036854775807,"
                    " 9223372036854775807, 0)"
                ),
                1,
            ),
            ("INSERT INTO ceiling VALUES (x'75', 0, 0)", 1),
            ("INSERT INTO usage VALUES (x'75', 2, 0, 1)", 2),
            ("INSERT INTO usage VALUES (x'75', 20001, 0, 1)", 20_001),
            ("INSERT INTO usage VALUES (x'75', 376200, 0, 1)", 376_200),
        ]
    ):
        path = edited(world, source, f"audit-wrong{place}", statement)
        by_both(world, checks, statement, path, f"store is damaged: login u day {day}")
    # what the books don't say isn't looked at, and what agrees is right
    for place, statement in enumerate(
        [
            "UPDATE answer SET reply = x'8e'",
            "INSERT INTO ceiling VALUES (x'75', 2, 0)",
            "INSERT INTO ceiling VALUES (x'76', 0, 0)",
        ]
    ):
        path = edited(world, source, f"audit-right{place}", statement)
        checks.equal(f"{statement}: audit", audit(world, path), SOUND)


def wrong_books_as_json(world, checks):
    """Of books that are wrong, JSON says at which login and day, and the fault is told too; of a
    ledger that can't be opened it says nothing."""
    source = left_by_a_server(world, "audit-json", TWO_AND_A_SETTLE)
    for place, (statement, day, told) in enumerate(
        [
            ("UPDATE usage SET reserved = 9", 1, b'"u","day":1,"date":"1970-01-02"'),
            ("UPDATE usage SET day = -1", -1, b'"u","day":-1,"date":null'),
            (
                "INSERT INTO usage VALUES (x'2275ff', 376201, 0, 1)",
                376_201,
                b'"\\"u\\\\xff","day":376201,"date":null',
            ),
        ]
    ):
        path = edited(world, source, f"audit-json{place}", statement)
        login = '"u\\xff' if place == 2 else "u"
        checks.equal(
            f"audit as JSON: {statement}",
            audit(world, path, "--json"),
            fault(
                f"store is damaged: login {login} day {day}",
                output=b'{"sound":false,"login":' + told + b"}\n",
            ),
        )
    checks.equal(
        "audit as JSON with another default",
        audit(world, source, "--json", default=4),
        fault(
            "store has another default",
            log=refusal(source, "made with default 3, the settings have default 4"),
        ),
    )
    with open("/dev/full", "wb") as full:
        path = edited(world, source, "audit-json-full", "UPDATE usage SET reserved = 9")
        checks.equal(
            "audit as JSON of wrong books to a full device",
            audit(world, path, "--json", output=full),
            fault("write failed"),
        )


def logins_of_any_bytes(world, checks):
    for place, (login, shown) in enumerate(
        [
            (b"a b\\", r"a\x20b\x5c"),
            (b"\xff\xfe", r"\xff\xfe"),
            (b"\n\x1b[2J", r"\x0a\x1b[2J"),
        ]
    ):
        source = left_by_a_server(world, f"audit-login{place}", reserve(1, login=login))
        path = edited(world, source, f"audit-bytes{place}", "UPDATE usage SET reserved = 9")
        by_both(
            world,
            checks,
            f"a login of the bytes {login.hex()}",
            path,
            f"store is damaged: login {shown} day 1",
        )


def the_least_that_is_wrong(world, checks):
    frames = [
        reserve(n, txn=n, login=login, at=day * DAY)
        for n, (login, day) in enumerate(
            [(b"b", 1), (b"ab", 10), (b"ab", 9), (b"a", 30), (b"B", 20)], start=1
        )
    ]
    source = left_by_a_server(world, "audit-least", b"".join(frames))
    for place, (where, shown) in enumerate(
        [
            ("", "B day 20"),
            ("WHERE login <> x'42'", "a day 30"),
            ("WHERE login IN (x'62', x'6162')", "ab day 9"),
            ("WHERE day IN (1, 10)", "ab day 10"),
            ("WHERE day = 1", "b day 1"),
        ]
    ):
        path = edited(world, source, f"audit-least{place}", f"UPDATE usage SET settled = 1 {where}")
        by_both(world, checks, f"wrong days {where}", path, f"store is damaged: login {shown}")


def refused(world, checks):
    path = left_by_a_server(world, "audit-refused", TWO_AND_A_SETTLE)
    wrong = edited(world, path, "audit-refused-wrong", "UPDATE usage SET reserved = 9")
    later = edited(world, path, "audit-version", "UPDATE setting SET version = 2")
    zone, default = (
        "made with offset 0, the settings have offset 60",
        "made with default 3, the settings have default 4",
    )
    none = f"{world.folder}/none"
    for what, place, more, wanted, log in [
        ("another offset", path, {"offset": 60}, "store has another zone", refusal(path, zone)),
        (
            "another default",
            path,
            {"default": 4},
            "store has another default",
            refusal(path, default),
        ),
        (
            "another offset and default, wrong books",
            wrong,
            {"offset": 60, "default": 4},
            "store has another zone",
            refusal(wrong, zone),
        ),
        (
            "another default, wrong books",
            wrong,
            {"default": 4},
            "store has another default",
            refusal(wrong, default),
        ),
        (
            "tables of a later version",
            later,
            {},
            "store is not this ledger",
            refusal(later, wrong_tables(2)),
        ),
        ("no file", none, {}, "store can't be opened", of_store(none, NO_FILE)),
        (
            "a folder",
            world.folder,
            {},
            "store can't be opened",
            of_store(world.folder, "unable to open database file"),
        ),
    ]:
        by_both(world, checks, what, place, wanted, log, **more)
    checks.equal("audit makes no file", os.path.exists(f"{world.folder}/none"), False)
    damaged = left_by_a_server(world, "audit-day", reserve(1, login=b"a b\\"))
    damaged = edited(world, damaged, "audit-day-before", "UPDATE usage SET day = -3")
    by_both(
        world, checks, "a day before 1970", damaged, r"store is damaged: login a\x20b\x5c day -3"
    )
    checks.equal("audit of a ledger in memory", audit(world, "memory"), fault("store is memory"))
    for what, file, wanted, log in [
        ("no settings", none, "settings can't be read", NO_FILE),
        (
            "a key that isn't known",
            ledger_settings(world, "memory", hots=1),
            "setting hots: unknown",
            "setting hots: unknown",
        ),
        (
            "no store",
            world.new_file('listen = "127.0.0.1:1"\ndefault = 3\noffset = 0\n'),
            "setting store: missing",
            "setting store: missing",
        ),
    ]:
        checks.equal(
            f"audit by {what}",
            world.run("audit", "--config", file),
            fault(wanted, log=of_settings(file, log)),
        )


def outputs(world, checks):
    path = left_by_a_server(world, "audit-output", TWO_AND_A_SETTLE)
    with open("/dev/full", "wb") as full:
        checks.equal(
            "audit to a full device", audit(world, path, output=full), fault("write failed")
        )
        wrong = edited(world, path, "audit-output-wrong", "UPDATE usage SET reserved = 9")
        came = audit(world, wrong, output=full)
        checks.equal(
            "audit of wrong books to a full device", came, fault("store is damaged: login u day 1")
        )
    printed = SOUND[1]
    for room in range(len(printed)):
        came = world.run_with_room(room, "audit", "--config", ledger_settings(world, path))
        checks.equal(
            f"audit over an output with room for {room} bytes",
            came,
            fault("write failed", printed[:room]),
        )


def beside_a_server(world, checks):
    path = f"{world.folder}/audit-beside"
    with Server(world, words=["--create"], store=path) as server:
        server.ask(TWO_AND_A_SETTLE)
        checks.equal(
            "audit beside a server",
            audit(world, path),
            fault("store can't be opened", log=of_store(path, LOCKED)),
        )
        checks.equal("audit beside a server: it goes on", server.ask(reserve(1)), granted(1, 1))
    checks.equal("audit once the server has ended", audit(world, path), SOUND)
