"""`limit` and `report`, asked of the real server and of one that answers by a script."""
import os
import pty
import subprocess

from cases.permits import not_taken
from ends import DRIP, RESET, SILENCE, Script, Server, fault, nobody_there, soon, unavailable
from wire import (
    BAD,
    RETRY,
    frame,
    full,
    granted,
    identity,
    limit,
    number,
    page,
    page_reply,
    release,
    reserve,
    row,
    settle,
    text,
    usage,
)

ADMIN = {"host": b"admin", "run": 7}


def run(world, checks):
    of_the_real_server(world, checks)
    limit_by_script(world, checks)
    usage_by_script(world, checks)
    pages_by_script(world, checks)
    those_that_used_most(world, checks)
    headings(world, checks)
    device_that_is_full(world, checks)


def set_limit(world, address, *, cap, start=1, login="u", run=7, **more):
    words = [
        "--server",
        address,
        "--host",
        "admin",
        "--login",
        login,
        "--from",
        str(start),
        "--cap",
        str(cap),
    ]
    return world.run("limit", *words, "--run", str(run), **more)


def report(world, address, *, day=1, login=None, **more):
    return world.run(
        "report",
        "--server",
        address,
        "--day",
        str(day),
        *(["--login", login] if login is not None else []),
        **more,
    )


def of_the_real_server(world, checks):
    """Three reserved, then reserve twice and settle once: what limits and reports say."""
    with Server(world) as server:
        address = server.address
        checks.equal("report of nobody", report(world, address), (0, b"", ""))
        checks.equal(
            "report of a login without a recipient",
            report(world, address, login="u"),
            (0, b"      0       0       3 u\n", ""),
        )
        three = reserve(1) + reserve(2, count=2) + reserve(3)
        checks.equal(
            "three reserves at the cap",
            server.ask(three),
            granted(1, 1) + granted(2, 3) + full(3, 3, 3),
        )
        checks.equal(
            "limit 2 where 3 are used",
            set_limit(world, address, cap=2, run=1),
            fault("over day 1 used 3"),
        )
        checks.equal(
            "limit 3 where 3 are used", set_limit(world, address, cap=3, run=2), (0, b"set\n", "")
        )
        checks.equal(
            "limit 0 from the next day on",
            set_limit(world, address, cap=0, start=2, run=3),
            (0, b"set\n", ""),
        )
        checks.equal(
            "limit 2 from day 0 on",
            set_limit(world, address, cap=2, start=0, run=4),
            fault("over day 1 used 3"),
        )
        checks.equal(
            "the same limit under its number again",
            set_limit(world, address, cap=3, run=2),
            (0, b"set\n", ""),
        )
        checks.equal(
            "another limit under that number",
            set_limit(world, address, cap=4, run=2),
            fault("number used with another limit"),
        )
        checks.equal(
            "the refused limit under its number again",
            set_limit(world, address, cap=2, run=1),
            fault("over day 1 used 3"),
        )
        checks.equal(
            "report of day 2",
            report(world, address, day=2, login="u"),
            (0, b"      0       0       0 u\n", ""),
        )
        checks.equal(
            "a limit without --run",
            world.run(
                "limit",
                "--server",
                address,
                "--host",
                "admin",
                "--login",
                "u",
                "--from",
                "1",
                "--cap",
                "9",
            ),
            (0, b"set\n", ""),
        )
        checks.equal(
            "report of day 1",
            report(world, address, login="u"),
            (0, b"      0       3       9 u\n", ""),
        )
        checks.equal(
            "greatest values",
            set_limit(world, address, cap=1_000_000, start=376_200, run=281_474_976_710_655),
            (0, b"set\n", ""),
        )
        checks.equal("the server's log", server.log_lines(), [])
    with Server(world) as server:
        twice = reserve(1) + reserve(2) + settle(3)
        server.ask(twice)
        checks.equal(
            "report after two reserves and a settle of 1",
            report(world, server.address, login="u"),
            (0, b"      1       0       3 u\n", ""),
        )
        checks.equal(
            "the same without --login",
            report(world, server.address),
            (0, b"      1       0       3 u\n", ""),
        )
        logins = [b"a b\\", b"\xff\xfe", b"z", b"\x1b[2J", b"~", b"\x7f"]
        server.ask(
            b"".join(reserve(n, txn=n, login=login) for n, login in enumerate(logins, start=10))
        )
        shown = [r"\x1b[2J", r"a\x20b\x5c", "u", "z", "~", r"\x7f", r"\xff\xfe"]
        counts = {"u": "      1       0       3 "}
        lines = "".join(
            counts.get(name, "      0       1       3 ") + name + "\n" for name in shown
        )
        checks.equal(
            "logins of any bytes, in byte order",
            report(world, server.address),
            (0, lines.encode(), ""),
        )


def limit_by_script(world, checks):
    asked = limit(1, 1, 5, **ADMIN)
    good = frame(b"\x85" + identity(1, **ADMIN))
    # (what came is a reply, if not to this request: the log has nothing of it)
    other = fault("quota service unavailable")
    cases = [
        ("set at once", [good], 1, (0, b"set\n", "")),
        ("set at the third try", [b"", RETRY, good], 3, (0, b"set\n", "")),
        (
            "over",
            [frame(b"\x86" + identity(1, **ADMIN) + number(4) + number(9))],
            1,
            fault("over day 4 used 9"),
        ),
        (
            "conflict",
            [frame(b"\x8a" + identity(1, **ADMIN))],
            1,
            fault("number used with another limit"),
        ),
        (
            "a reply of another number, thrice",
            [frame(b"\x85" + identity(2, **ADMIN))] * 3,
            3,
            other,
        ),
        (
            "a reply of another run, thrice",
            [frame(b"\x85" + identity(1, host=b"admin", run=8))] * 3,
            3,
            other,
        ),
        (
            "another host's over, thrice",
            [frame(b"\x86" + identity(1) + number(4) + number(9))] * 3,
            3,
            other,
        ),
        ("a reply of another kind, thrice", [granted(1, 1, **ADMIN)] * 3, 3, other),
        ("closed, thrice", [frame(b"\x87" + identity(1, **ADMIN))] * 3, 3, other),
    ]
    for what, script, times, wanted in cases:
        with Script(script) as server:
            came = set_limit(world, server.address, cap=5)
        checks.equal(f"limit, {what}", (came, server.heard), (wanted, [asked] * times))
    with nobody_there() as address:
        checks.equal(
            "limit without a server", set_limit(world, address, cap=5), unavailable(address)
        )
    # (the log says why the last try got no answer)
    for what, script, cause in [
        ("closed at once", [b""] * 3, "closed before its reply was whole"),
        ("a reply cut short", [good[:-1]] * 3, "closed before its reply was whole"),
        ("a reply of no bytes", [b"\x00\x00"] * 3, "a reply of no bytes"),
        (
            "words of another protocol",
            [frame(b"HTTP/1.1 400 Bad Request")] * 3,
            "24 bytes that are no reply",
        ),
        ("a reset", [RESET] * 3, "Connection reset by peer (os error 104)"),
        ("bad", [BAD] * 3, "it takes the request for none"),
        (
            "bad, and then a reply of another number",
            [BAD, BAD, frame(b"\x85" + identity(2, **ADMIN))],
            None,
        ),
        ("no memory", [RETRY] * 3, "it can't take the request now"),
        (
            "garbage, a reset and a cut",
            [b"HTTP/1.1 400", RESET, good[:-1]],
            "closed before its reply was whole",
        ),
        ("a length of 0 and no more", [b"\x00\x00", b"", b""], "closed before its reply was whole"),
        ("a cut, and then no memory", [good[:-1], b"", RETRY], "it can't take the request now"),
        ("a reset, and then bad", [RESET, RESET, BAD], "it takes the request for none"),
    ]:
        with Script(script) as server:
            came = set_limit(world, server.address, cap=5)
        wanted = unavailable(server.address, cause) if cause else other
        if script == [RETRY] * 3:
            wanted = not_taken(server.address)
        checks.equal(f"limit, {what}: what it says", (came, server.heard), (wanted, [asked] * 3))
    (came, server), took = soon(
        lambda: asked_of([SILENCE] * 3, lambda address: set_limit(world, address, cap=5)), 8
    )
    checks.equal(
        "limit of a silent server",
        (came, server.heard),
        (unavailable(server.address, "no answer in time"), [asked] * 3),
    )
    checks.holds(
        "limit of a silent server: three tries of 2,000 ms", 5.99 < took < 8, "6 s", f"{took:.1f} s"
    )
    (came, server), took = soon(
        lambda: asked_of([SILENCE], lambda address: world.run("status", "--server", address)), 3.9
    )
    checks.equal(
        "status of a silent server", came, unavailable(server.address, "no answer in time")
    )
    checks.holds(
        "status of a silent server: one try of 2,000 ms", 1.99 < took < 3.9, "2 s", f"{took:.1f} s"
    )
    (came, server), took = soon(
        lambda: asked_of([DRIP] * 3, lambda address: report(world, address)), 8
    )
    checks.equal(
        "report of a server that drips", came, unavailable(server.address, "no answer in time")
    )
    checks.holds(
        "report of a server that drips: three tries of 2,000 ms",
        5.99 < took < 8,
        "6 s",
        f"{took:.1f} s",
    )


def asked_of(script, ask):
    """What comes of a question to a server that follows a script, and that server."""
    with Script(script) as server:
        return ask(server.address), server


def usage_reply(login=b"u", day=1):
    return frame(b"\x8b" + text(login) + number(day) + number(1) + number(20) + number(300))


def usage_by_script(world, checks):
    line = b"      1      20     300 u\n"
    other = fault("quota service unavailable")
    # (what isn't a reply at all has its line in the log)
    for what, script, times, wanted, cause in [
        ("at once", [usage_reply()], 1, (0, line, ""), None),
        ("at the third try", [BAD, b"", usage_reply()], 3, (0, line, ""), None),
        (
            "of another login, then its own",
            [usage_reply(b"v"), usage_reply()],
            2,
            (0, line, ""),
            None,
        ),
        ("of another day, thrice", [usage_reply(day=2)] * 3, 3, other, None),
        ("a page, thrice", [page_reply([])] * 3, 3, other, None),
        (
            "greatest numbers",
            [frame(b"\x8b" + text(b"u") + number(1) + number(1_000_000) * 3)],
            1,
            (0, b"1000000 1000000 1000000 u\n", ""),
            None,
        ),
        (
            "a number of 1,000,001, thrice",
            [frame(b"\x8b" + text(b"u") + number(1) + number(1_000_001) * 3)] * 3,
            3,
            other,
            "19 bytes that are no reply",
        ),
    ]:
        with Script(script) as server:
            came = report(world, server.address, login="u")
        wanted = unavailable(server.address, cause) if cause else wanted
        checks.equal(
            f"report of a login, {what}", (came, server.heard), (wanted, [usage()] * times)
        )
    with nobody_there() as address:
        checks.equal("report without a server", report(world, address), unavailable(address))


def rows_of(names):
    return [row(name, 1, 2, 3) for name in names]


def lines_of(names):
    return b"".join(b"      1       2       3 " + name + b"\n" for name in names)


def pages_by_script(world, checks):
    first = [b"a%02d" % n for n in range(100)]
    behind, too_many = [page(), page(after=first[-1])], page_reply(rows_of(first + [b"b"]))
    bad = fault("bad page")
    for what, script, asked, wanted in [
        ("an empty page", [page_reply([])], [page()], (0, b"", "")),
        (
            "a full page and an empty one",
            [page_reply(rows_of(first)), page_reply([])],
            behind,
            (0, lines_of(first), ""),
        ),
        (
            "a full page and one row",
            [page_reply(rows_of(first)), page_reply(rows_of([b"b"]))],
            behind,
            (0, lines_of(first + [b"b"]), ""),
        ),
        (
            "the second page at its third try",
            [page_reply(rows_of(first)), b"", RETRY, page_reply([])],
            behind + behind[1:] * 2,
            (0, lines_of(first), ""),
        ),
        ("a page that descends", [page_reply(rows_of([b"b", b"a"]))], [page()], bad),
        ("a login twice", [page_reply(rows_of([b"a", b"a"]))], [page()], bad),
        ("a shorter login behind a longer", [page_reply(rows_of([b"aa", b"a"]))], [page()], bad),
        (
            "bytes above 127 count as high",
            [page_reply(rows_of([b"z", b"\xc3"]))],
            [page()],
            (0, b"      1       2       3 z\n      1       2       3 \\xc3\n", ""),
        ),
        ("a page of another day", [page_reply(rows_of([b"a"]), day=2)], [page()], bad),
        ("an empty page of another day", [page_reply([], day=2)], [page()], bad),
        (
            "a second page that begins with the last login",
            [page_reply(rows_of(first)), page_reply(rows_of(first[-1:]))],
            behind,
            fault("bad page", lines_of(first)),
        ),
        (
            "the same full page again",
            [page_reply(rows_of(first))] * 2,
            behind,
            fault("bad page", lines_of(first)),
        ),
        (
            "no second page",
            [page_reply(rows_of(first)), b"", b"", b""],
            behind + behind[1:] * 2,
            lambda address: unavailable(
                address, "closed before its reply was whole", lines_of(first)
            ),
        ),
        (
            "a page of 101 rows, thrice",
            [too_many] * 3,
            [page()] * 3,
            lambda address: unavailable(address, f"{len(too_many) - 2} bytes that are no reply"),
        ),
    ]:
        with Script(script) as server:
            came = report(world, server.address)
        checks.equal(
            f"report, {what}",
            (came, server.heard),
            (wanted(server.address) if callable(wanted) else wanted, asked),
        )


def top(world, address, count, **more):
    return world.run("report", "--server", address, "--day", "1", "--top", str(count), **more)


def those_that_used_most(world, checks):
    """`report --top N`: by what is settled and reserved, most first, and of equal ones the lower
    login; all pages are asked for before a line is printed."""
    with Server(world, default=1_000) as server:
        checks.equal("the top of nobody", top(world, server.address, 3), (0, b"", ""))
        used = {b"e": 5, b"b": 7, b"d": 7, b"a": 1, b"c": 7, b"\xff": 6}
        server.ask(
            b"".join(
                reserve(n, txn=n, count=count, login=login)
                for n, (login, count) in enumerate(used.items(), start=1)
            )
        )
        server.ask(settle(10, txn=2, count=4, login=b"b"))
        lines = [
            b"      4       0    1000 b\n",
            b"      0       7    1000 c\n",
            b"      0       7    1000 d\n",
            b"      0       6    1000 \\xff\n",
            b"      0       5    1000 e\n",
            b"      0       1    1000 a\n",
        ]
        lines = lines[1:5] + lines[:1] + lines[5:]
        for count in (1, 2, 4, 6, 7, 1_000_000):
            checks.equal(
                f"the top {count:,}",
                top(world, server.address, count),
                (0, b"".join(lines[:count]), ""),
            )
    with Server(world, default=1_000) as server:
        many = [b"%04d" % n for n in range(2_150)]
        server.ask_many(
            reserve(n, txn=n, count=1 + n % 900, login=login)
            for n, login in enumerate(many, start=1)
        )
        wanted = sorted((-(1 + n % 900), login) for n, login in enumerate(many, start=1))[:2_120]
        came = top(world, server.address, 2_120)
        checks.equal(
            "the top 2,120 of 2,150",
            came,
            (
                0,
                b"".join(b"      0 %7d    1000 %s\n" % (-used, login) for used, login in wanted),
                "",
            ),
        )
    names = [b"a%02d" % n for n in range(100)]
    pages = [
        page_reply([row(name, n % 7, n // 7, 9) for n, name in enumerate(names)]),
        page_reply([row(b"b", 3, 40, 9), row(b"c", 19, 1, 9)]),
    ]
    behind = [page(), page(after=names[-1])]
    amounts = sorted(
        [(-(n % 7 + n // 7), name, n % 7, n // 7) for n, name in enumerate(names)]
        + [(-43, b"b", 3, 40), (-20, b"c", 19, 1)]
    )
    with Script(pages) as server:
        came = top(world, server.address, 30)
    checks.equal(
        "the top 30 of two pages",
        (came, server.heard),
        (
            (
                0,
                b"".join(
                    b"%7d %7d %7d %s\n" % (first, second, 9, name)
                    for _, name, first, second in amounts[:30]
                ),
                "",
            ),
            behind,
        ),
    )
    for what, script, wanted in [
        ("no second page", pages[:1] + [b""] * 3, None),
        (
            "a second page that begins with the last login",
            pages[:1] + [page_reply([row(names[-1], 1, 2, 3)])],
            fault("bad page"),
        ),
        ("a page of another day", [page_reply([row(b"a", 1, 2, 3)], day=2)], fault("bad page")),
    ]:
        with Script(script) as server:
            came = top(world, server.address, 5)
        checks.equal(
            f"the top 5, {what}: nothing is printed",
            came,
            wanted or unavailable(server.address, "closed before its reply was whole"),
        )
    with Server(world) as server, open("/dev/full", "wb") as device:
        server.ask(reserve(1))
        came = top(world, server.address, 1, output=device)
        checks.equal(
            "the top to a full device", (came[0], came[2]), (1, "mailquota: write failed\n")
        )


def headings(world, checks):
    """On a terminal a line above says what the columns are; elsewhere there is none."""
    heading = "settled reserved  limit login\n"
    with Server(world) as server:
        server.ask(reserve(1))
        words = ["report", "--server", server.address, "--day", "1"]
        line = "      0       1       3 u\n"
        for more in ([], ["--login", "u"], ["--top", "1"]):
            checks.equal(
                f"a report on a terminal {' '.join(more)}".strip(),
                on_terminal(world, *words, *more),
                (0, heading + line),
            )
        checks.equal(
            "a report of nobody on a terminal",
            on_terminal(world, "report", "--server", server.address, "--day", "9"),
            (0, heading),
        )
        checks.equal("a report in a pipe", world.run(*words), (0, line.encode(), ""))
        checks.equal(
            "a report in a pipe, with its errors on a terminal",
            in_a_pipe(world, *words),
            (0, line.encode()),
        )
        checks.equal(
            "a limit on a terminal",
            on_terminal(
                world,
                "limit",
                "--server",
                server.address,
                "--host",
                "admin",
                "--login",
                "u",
                "--from",
                "1",
                "--cap",
                "9",
            ),
            (0, "set\n"),
        )


def on_terminal(world, *words):
    """The status of the program, and what it writes on a terminal."""
    return shown_of([world.program, *words])


def shown_of(words):
    """The status of what these words run, and what it writes on a terminal."""
    ours, theirs = pty.openpty()
    with subprocess.Popen(
        words, stdin=subprocess.DEVNULL, stdout=theirs, stderr=subprocess.DEVNULL
    ) as process:
        os.close(theirs)
        shown = b""
        while True:
            try:
                more = os.read(ours, 65_536)
            except OSError:
                break
            if not more:
                break
            shown += more
    os.close(ours)
    return process.returncode, shown.decode().replace("\r\n", "\n")


def in_a_pipe(world, *words):
    """The status of the program, and what it writes in a pipe, where standard input and standard
    error are a terminal."""
    ours, theirs = pty.openpty()
    run = subprocess.run(
        [world.program, *words], stdin=theirs, stdout=subprocess.PIPE, stderr=theirs
    )
    os.close(theirs)
    os.close(ours)
    return run.returncode, run.stdout


def device_that_is_full(world, checks):
    with Server(world) as server, open("/dev/full", "wb") as device:
        server.ask(reserve(1) + release(2))
        for what, came in [
            ("limit", set_limit(world, server.address, cap=5, output=device)),
            ("report", report(world, server.address, output=device)),
            ("report of a login", report(world, server.address, login="u", output=device)),
        ]:
            checks.equal(
                f"{what} to a full device", (came[0], came[2]), (1, "mailquota: write failed\n")
            )
