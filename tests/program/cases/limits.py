"""`limits`: each limit that is set in a ledger's file, printed so that `limit` can set it again."""
import datetime
import json
import random
import re

import wire
from cases.audits import audit, edited
from cases.forgetting import both, left_by_a_server
from ends import (
    LOCKED,
    NO_FILE,
    Server,
    fault,
    ledger_settings,
    of_settings,
    of_store,
    refusal,
    shown,
)
from rows import rows_in
from zones import random_rule

# Logins of bytes that a terminal, a shell and a line's columns take for something else, and the
# shortest and the longest.
LOGINS = [
    b"alice",
    b"ALICE",
    b"a b",
    b" ",
    b"\\",
    b"\\x20",
    b"\n",
    b"\r\n",
    b"\0",
    b"\xff\xfe",
    b"\t",
    b"'",
    b'"',
    b"$(id)",
    b"-",
    b"--cap",
    b"\x7f",
    b"\x1b[2J",
    "ä".encode(),
    b"alice@example.org",
    b"%s%n",
    b"#",
    b"*",
    b"\xff" * 255,
    b"a" * 255,
    bytes(range(255)),
    bytes(range(1, 256)),
]
LAST_DAY, MOST = 376_200, 1_000_000
# The limits of `some` as JSON.
AS_JSON = (
    b'[{"login":"t","from_day":0,"from_date":"1970-01-01","limit":9},'
    b'{"login":"u","from_day":1,"from_date":"1970-01-02","limit":3},'
    b'{"login":"u","from_day":2,"from_date":"1970-01-03","limit":7},'
    b'{"login":"u","from_day":376200,"from_date":"3000-01-01","limit":1000000},'
    b'{"login":"uu","from_day":20783,"from_date":"2026-11-26","limit":2},'
    b'{"login":"v","from_day":0,"from_date":"1970-01-01","limit":0}]\n'
)


def run(world, checks):
    none(world, checks)
    some(world, checks)
    random_limits(world, checks)
    set_again(world, checks)
    refused(world, checks)


def limits(world, path, *words, output=None, **settings):
    return world.run(
        "limits", "--config", ledger_settings(world, path, **settings), *words, output=output
    )


def printed(books):
    """What is printed of these books: by the bytes of the login, then by the day."""
    rows = sorted(
        (login, start, cap)
        for login, starts in books.limits.items()
        for start, cap in starts.items()
    )
    return 0, "".join(f"{start} {cap} {shown(login)}\n" for login, start, cap in rows).encode(), ""


def objects_in(came):
    """The objects of a JSON list in one line that was printed without a fault."""
    status, output, errors = came
    assert (status, output[-1:], output.count(b"\n"), errors) == (0, b"\n", 1, "")
    return json.loads(output)


def objects(books):
    """The limits of these books as JSON has them, in the order in which they are printed."""
    lines = [it.split(" ") for it in printed(books)[1].decode().splitlines()]
    first = datetime.date(1970, 1, 1)
    return [
        {
            "login": login,
            "from_day": int(day),
            "from_date": (first + datetime.timedelta(int(day))).isoformat(),
            "limit": int(cap),
        }
        for day, cap, login in lines
    ]


def none(world, checks):
    path, _ = left_by_a_server(world, "no-limits", wire.reserve(1) + wire.settle(2))
    checks.equal("limits of a ledger without any", limits(world, path), (0, b"", ""))
    checks.equal("the same as JSON", limits(world, path, "--json"), (0, b"[]\n", ""))


def some(world, checks):
    """Limits that are set, replaced, refused, of later days, of a retired run; and those of logins
    that never wrote."""
    frames = [
        wire.reserve(1, count=3),
        wire.limit(2, 1, 2),
        wire.limit(3, 1, 3),
        wire.limit(4, 2, 0),
        wire.limit(5, 2, 7),
        wire.limit(6, 0, 9, login=b"t"),
        wire.limit(7, LAST_DAY, MOST),
        wire.limit(8, 0, 0, login=b"v"),
        wire.limit(9, 20_783, 2, login=b"uu"),
        wire.retire(1, run=2),
        wire.limit(10, 1, 1),
    ]
    path, books = left_by_a_server(world, "some-limits", b"".join(frames))
    lines = b"0 9 t\n1 3 u\n2 7 u\n376200 1000000 u\n20783 2 uu\n0 0 v\n"
    before = both(path)
    checks.equal("limits", limits(world, path), (0, lines, ""))
    checks.equal("limits, by the rule", printed(books), (0, lines, ""))
    checks.equal("limits as JSON", limits(world, path, "--json"), (0, AS_JSON, ""))
    checks.equal("limits: the file and its log are as before", both(path) == before, True)
    checks.equal("limits: audit", audit(world, path)[0], 0)
    into = f"{path}.new"
    world.run(
        "forget", "--config", ledger_settings(world, path), "--before", "20000", "--into", into
    )
    checks.equal("limits of a ledger that forgot", limits(world, into), (0, lines, ""))


def random_limits(world, checks):
    wrong, count = [], 0
    for seed in range(6):
        dice = random.Random(seed)
        frames = [
            wire.limit(
                n,
                dice.choice([0, 1, 2, 20_000, LAST_DAY]),
                dice.choice([0, 1, 999, MOST]),
                login=dice.choice(LOGINS),
            )
            for n in range(1, 120)
        ]
        settings = {"offset": None, "rule": random_rule(dice)} if seed % 2 else {}
        path, books = left_by_a_server(world, f"limits{seed}", b"".join(frames), **settings)
        came = limits(world, path, **settings)
        count += came[1].count(b"\n")
        wrong += [] if came == printed(books) else [(seed, came)]
        came = limits(world, path, "--json", **settings)
        wrong += [] if objects_in(came) == objects(books) else [(seed, came)]
    checks.equal("limits of six ledgers, of logins of any bytes: those that are wrong", wrong, [])
    print(f"    {count} limits of {len(LOGINS)} logins", flush=True)


def set_again(world, checks):
    """Each line's three words, given to `limit`, set the same limits in a new ledger."""
    frames = [wire.limit(n, 20_000 + n % 3, n, login=login) for n, login in enumerate(LOGINS, 1)]
    path, books = left_by_a_server(world, "set", b"".join(frames))
    lines = limits(world, path)[1].decode().splitlines()
    checks.equal("limits to set again: lines", len(lines), len(LOGINS))
    said, noted = set(), set()
    with Server(world, words=["--create"], store=f"{world.folder}/again") as server:
        for line in lines:
            start, cap, text = line.split()
            status, output, errors = world.run(
                "limit",
                "--server",
                server.address,
                "--host",
                "admin",
                f"--login-text={text}",
                "--from",
                start,
                "--cap",
                cap,
            )
            said.add((status, output))
            # (of some of these logins it notes how smtpd reports them)
            noted.add(re.sub(r"\Amailquota: note: .*\n\Z", "a note", errors))
        server.process.kill()
        server.status()
    checks.equal("limits, set again by limit --login-text: what it says", said, {(0, b"set\n")})
    checks.equal(
        "limits, set again by limit --login-text: what it says on standard error",
        noted,
        {"", "a note"},
    )
    checks.equal(
        "limits, set again: they are the same",
        limits(world, f"{world.folder}/again"),
        printed(books),
    )
    tables = ["ceiling"]
    checks.equal(
        "limits, set again: rows", rows_in(f"{world.folder}/again", tables), rows_in(path, tables)
    )


def refused(world, checks):
    path, books = left_by_a_server(world, "limits-refused", wire.reserve(1) + wire.limit(2, 1, 9))
    nothing = f"{world.folder}/nothing"
    for what, name, settings, wanted, log in [
        ("of a ledger in memory", "memory", {}, "store is memory", ""),
        (
            "of a file that isn't there",
            nothing,
            {},
            "store can't be opened",
            of_store(nothing, NO_FILE),
        ),
        (
            "with another zone",
            path,
            {"offset": 60},
            "store has another zone",
            refusal(path, "made with offset 0, the settings have offset 60"),
        ),
        (
            "with another default",
            path,
            {"default": 4},
            "store has another default",
            refusal(path, "made with default 3, the settings have default 4"),
        ),
        # (of these the last line says all)
        (
            "of wrong books",
            edited(world, path, "limits-damaged", "UPDATE usage SET reserved = 9"),
            {},
            "store is damaged: login u day 1",
            "",
        ),
    ]:
        checks.equal(f"limits {what}", limits(world, name, **settings), fault(wanted, log=log))
    came = world.run("limits", "--config", nothing)
    checks.equal(
        "limits without settings",
        came,
        fault("settings can't be read", log=of_settings(nothing, NO_FILE)),
    )
    with Server(world, store=path) as server:
        came = limits(world, path)
        checks.equal(
            "limits of a ledger that a server has open",
            came,
            fault("store can't be opened", log=of_store(path, LOCKED)),
        )
        checks.equal("the server goes on", server.ask(wire.usage()), books.serve(wire.usage()))
    with open("/dev/full", "wb") as device:
        came = limits(world, path, output=device)
    checks.equal("limits to a full device", (came[0], came[2]), (1, "mailquota: write failed\n"))
    for room in range(0, len(AS_JSON), 41):
        settings = ledger_settings(world, f"{world.folder}/some-limits")
        came = world.run_with_room(room, "limits", "--config", settings, "--json")
        checks.equal(
            f"limits as JSON over an output with room for {room} bytes",
            came,
            (1, AS_JSON[:room], "mailquota: write failed\n"),
        )
