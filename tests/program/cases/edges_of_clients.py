"""Each value of a filter, of `limit`, `retire` and `report` at its least and its greatest: the
frames that are sent, byte for byte, and what is made of replies with such values. The ledger of
tests/model answers, or a row says the reply."""
import wire
from books import Books
from cases.edges import (
    EVERY_BYTE,
    FIRST_SECOND,
    GREATEST_RUN,
    LAST_DAY,
    LAST_SECOND,
    LONGEST_HOST,
    MOST,
    VALUES,
    shown,
)
from cases.filters import CONFIG, INPUT, LIMIT, PROCEED, REGISTRATION, RESERVE, answer
from cases.stopping import note_of
from ends import LONG, Script, toml

SESSION, MESSAGE, TOKEN = b"7641df9771b4ed00", b"4c56d3a1", b"1ef1c203cc576e5d"
DAYS = [0, 1, 24_855, 24_856, 49_710, 65_536, LAST_DAY - 1, LAST_DAY]
# no line holds a line feed
LOGINS = [it for it in VALUES["login"] if b"\n" not in it] + [
    EVERY_BYTE[11:],
    bytes(it for it in EVERY_BYTE[1:] if it != 10) + b"|",
    b"|" * 255,
]
# sessions, message ids and tokens are fields of any length
NAMES = [b"x", b"x" * 15, b"x" * 17, b"x" * 255, b"x" * 256, b"x" * 4_096, b"x" * 9_000]
NUMBERS = [1, 2, 255, 256, 999, 1_000, 65_535, 65_536, MOST - 1, MOST]


def run(world, checks):
    rows = [(f"host {shown(it)}", {"host": it}) for it in VALUES["host"]] + [
        (f"run {it:,}", {"run": it}) for it in VALUES["run"]
    ]
    rows += [(f"the second {it:,}", {"at": it}) for it in VALUES["at"]] + [
        (f"login {shown(it)}", {"login": it}) for it in LOGINS
    ]
    rows += [
        (f"a {field} of {len(it):,} bytes", {field: it})
        for field in ("session", "message", "token")
        for it in NAMES
    ]
    greatest = {
        "run": GREATEST_RUN,
        "host": LONGEST_HOST,
        "login": b"\xff" * 255,
        "at": LAST_SECOND,
    }
    rows += [
        ("all that is least", {"run": 1, "host": b"a", "login": b"\0", "at": FIRST_SECOND}),
        ("all that is greatest", greatest),
    ]
    for what, values in rows:
        a_filter(world, checks, what, **values)
    print(f"    {len(rows)} values of a filter", flush=True)
    of_replies(world, checks)
    of_limits(world, checks)
    of_retires(world, checks)
    of_reports(world, checks)


def a_filter(
    world,
    checks,
    what,
    host=b"mx1",
    run=1,
    at=1_576_146_009,
    login=b"alice",
    session=SESSION,
    message=MESSAGE,
    token=TOKEN,
):
    """Two recipients and a commit: four lines in, two answers, three frames."""
    moment = b"%d.000001" % at
    lines = [
        b"report|0.7|%s|smtp-in|link-auth|%s|pass|%s\n" % (moment, session, login),
        b"report|0.7|%s|smtp-in|tx-begin|%s|%s\n" % (moment, session, message),
        *[b"filter|0.7|%s|smtp-in|rcpt-to|%s|%s|bob@example.org\n" % (moment, session, token)] * 2,
        b"report|0.7|%s|smtp-in|tx-commit|%s|%s|1200\n" % (moment, session, message),
    ]
    sender = {"host": host, "run": run, "login": login, "at": at}
    frames = [
        wire.reserve(1, **sender),
        wire.reserve(2, **sender),
        wire.settle(3, count=2, **sender),
    ]
    books = Books()
    with Script([books.serve] * 3) as server:
        file = world.new_file(
            toml({"host": host.decode(), "server": server.address, "timeout": LONG})
        )
        came = world.run(
            "filter", "--config", file, "--run", str(run), text=CONFIG + b"".join(lines)
        )
    wanted = (0, REGISTRATION + answer(PROCEED, session, token) * 2, "")
    checks.equal(f"a filter, {what}: status, lines, log", came, wanted)
    checks.equal(f"a filter, {what}: frames", server.heard, frames)


def of_replies(world, checks):
    """What a filter makes of granted and full replies, and `limit` and `report` of theirs, at the
    edges of their numbers."""
    mx1 = {"host": b"mx1"}
    for used in NUMBERS:
        replies = [
            ("granted", wire.granted(1, used, **mx1), PROCEED),
            ("full", wire.full(1, used, MOST, **mx1), LIMIT),
        ]
        replies += [("full of as many", wire.full(1, used, used, **mx1), LIMIT)]
        for what, reply, wanted in replies:
            with Script([reply]) as server:
                came = world.filter(server.address, INPUT)
            checks.equal(
                f"a filter, {what}, {used:,} used",
                (*came[:2], server.heard),
                (0, REGISTRATION + answer(wanted), [RESERVE]),
            )
        line = b"%7d %7d %7d u\n" % (used, MOST - used, used)
        with Script(
            [wire.frame(b"\x8b\1u" + b"".join(map(wire.number, (1, used, MOST - used, used))))]
        ) as server:
            came = world.run("report", "--server", server.address, "--day", "1", "--login", "u")
        checks.equal(f"report of a login, {used:,} settled", came, (0, line, ""))
        with Script([wire.page_reply([wire.row(b"u", used, MOST - used, used)])]) as server:
            came = world.run("report", "--server", server.address, "--day", "1")
        checks.equal(f"report of all, {used:,} settled", came, (0, line, ""))
        for day in (0, 1, LAST_DAY):
            with Script(
                [wire.frame(b"\x86" + wire.identity(1) + wire.number(day) + wire.number(used))]
            ) as server:
                words = [
                    "--server",
                    server.address,
                    "--host",
                    "a",
                    "--login",
                    "u",
                    "--from",
                    "0",
                    "--cap",
                    "0",
                    "--run",
                    "1",
                ]
                came = world.run("limit", *words)
            checks.equal(
                f"limit, over on day {day:,} with {used:,}",
                came,
                (1, b"", f"mailquota: over day {day} used {used}\n"),
            )
    print(f"    {len(NUMBERS)} numbers of replies", flush=True)


def of_limits(world, checks):
    rows = (
        [("host", it) for it in VALUES["host"]]
        + [("run", it) for it in VALUES["run"]]
        + [("cap", it) for it in VALUES["cap"]]
    )
    rows += [("from_day", it) for it in DAYS] + [
        ("login", it) for it in VALUES["login"] if b"\0" not in it
    ]
    for field, value in rows:
        fields = {"host": b"admin", "run": 7, "from_day": 1, "cap": 5, "login": b"u", field: value}
        with Script([Books().serve]) as server:
            words = [
                f"--{key.removesuffix('_day')}=".encode() + as_word(it)
                for key, it in fields.items()
            ]
            came = world.run("limit", f"--server={server.address}", *words)
        if is_text(as_word(value)):
            checks.equal(
                f"limit, {field} {shown(value)}",
                (came, server.heard),
                ((0, b"set\n", ""), [wire.limit(1, **fields)]),
            )
        else:
            checks.equal(
                f"limit, {field} {shown(value)}",
                (came, server.heard),
                ((2, b"", "mailquota: arguments are not text\n"), []),
            )
    print(f"    {len(rows)} values of limits", flush=True)


def of_retires(world, checks):
    rows = [("host", it) for it in VALUES["host"]] + [("run", it) for it in VALUES["run"]]
    for field, value in rows:
        fields = {"host": b"mx1", "run": 7, field: value}
        with Script([Books().serve]) as server:
            came = world.run(
                "retire",
                f"--server={server.address}",
                *(f"--{key}=".encode() + as_word(it) for key, it in fields.items()),
            )
        checks.equal(
            f"retire, {field} {shown(value)}",
            (came, server.heard),
            ((0, b"retired\n", ""), [wire.retire(1, **fields)]),
        )
    print(f"    {len(rows)} values of retires", flush=True)


def as_word(value):
    return value if isinstance(value, bytes) else b"%d" % value


def of_reports(world, checks):
    for day in DAYS:
        for login in (b"u", b"a" * 127, b"a" * 128, b"\xc3\xa9" * 127, b"a" * 255):
            line = b"      0       0       3 " + login.replace(b"\xc3\xa9", b"\\xc3\\xa9") + b"\n"
            with Script([Books().serve]) as server:
                came = world.run(
                    "report", "--server", server.address, "--day", str(day), "--login", login
                )
            checks.equal(
                f"report of day {day:,}, login {shown(login)}",
                (came, server.heard),
                ((0, line, note_of(login)), [wire.usage(login, day)]),
            )
        with Script([Books().serve]) as server:
            came = world.run("report", "--server", server.address, "--day", str(day))
        checks.equal(
            f"report of day {day:,}", (came, server.heard), ((0, b"", ""), [wire.page(day=day)])
        )


def is_text(value):
    try:
        value.decode()
    except UnicodeDecodeError:
        return False
    return True
