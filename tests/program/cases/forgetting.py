"""`forget`: the new file that it makes, what it refuses, and what both files hold where it is
killed or the disk is full; filters that go on over a forgetting.

What is kept is said by the ledger of tests/model, by the rule of docs/LEDGER.md; the rows are read
by Python's own SQLite.
"""
import os
import random
import shutil
import stat
import subprocess
import time

import clocks
import wire
from books import LIMIT, RETIRE, Books
from cases.as_used import quiet_port
from cases.audits import audit, edited
from cases.damage import sound
from cases.filters import PROCEED, REGISTRATION, SERVICE
from cases.filters import LIMIT as REFUSED
from ends import (
    LOCKED,
    NO_FILE,
    Server,
    apart,
    copied,
    fault,
    ledger_settings,
    of_settings,
    of_store,
    refusal,
    wait_past_midnight,
)
from ledger import decode
from random_inputs import Times, TimesOfRule, connections_of
from rows import answers_of, rows_in, same_rows
from smtpd import Smtpd, result
from sums import content_of, has_sums, wrong_pages
from zones import random_rule

DAY = 86_400
SEEDS = 16
KILLS = 40
# files of so many bytes at most: none, a part of the first page, some pages, a byte less than an
# open takes for its log, and as many; parts of what a forget then writes into its log, and all of
# it
ROOMS = [0, 1, 4_095, 4_096, 100_000, 266_295, 266_296, 300_000, 400_000, 4_000_000]
# the head of a log that has no answer
EMPTY_LOG = 41
NOT_OPENED = "store can't be opened"


def run(world, checks):
    worked(world, checks)
    random_histories(world, checks)
    limits_of_retired_runs(world, checks)
    refused(world, checks)
    a_log_that_was_left(world, checks)
    files_of_many(world, checks)
    filters_go_on(world, checks)


def forget(world, path, day, into, config=None, **more):
    """`forget` of the ledger at a path, with `more` of its settings."""
    given = {it: more.pop(it) for it in ("output", "limit") if it in more}
    return world.run(
        "forget",
        "--config",
        config or ledger_settings(world, path, **more),
        "--before",
        str(day),
        "--into",
        into,
        **given,
    )


def kept(books, again):
    """What is printed where the second of these books has what the first remembers."""
    limits = sum(len(starts) for starts in again.limits.values())
    return (
        0,
        f"kept answers={len(again.answers)} of {len(books.answers)}, limits={limits}\n".encode(),
        "",
    )


def left_by_a_server(world, name, stream, **settings):
    """The path of a file whose server took this stream, of any moments, and was killed, and the
    books that took it."""
    path, zone = f"{world.folder}/{name}", settings.get("rule") or settings.get("offset", 0)
    books = Books(zone, settings.get("default", 3))
    with Server(world, words=["--create"], store=path, limit=clocks.late(), **settings) as server:
        came = server.ask(stream)
        server.process.kill()
        server.status()
    assert came == books.serve(stream)
    return path, books


def both(path):
    """What a file and its log hold, each where it is there."""
    return [content_of(path + end) if os.path.exists(path + end) else None for end in ("", "-wal")]


def remembered_rows(path, books, day):
    """The answers that stay by the rule, read off the rows of the old file alone, but for the
    replies that a retire cleared: these the books know."""
    rows = answers_of(
        path,
        {
            "answer": "SELECT host, run, seq, request, reply FROM answer ORDER BY n",
            "trans": "SELECT host, run, txn, day FROM trans",
        },
    )
    days = {(host, run, txn): day_of for host, run, txn, day_of in rows["trans"]}
    for (host, run, seq, body, reply), (_, _, was) in zip(rows["answer"], books.answers):
        request = decode(body)
        if request["kind"] == RETIRE:
            stays = True
        elif request["kind"] == LIMIT:
            stays = (reply or was)[0] == 0x85 or request["from_day"] >= day
        else:
            stays = days[host, run, request["txn"]] >= day
        if stays:
            yield host, run, seq, body, reply


def same_file(world, checks, what, old, new, books, day, **settings):
    """A new file is whole without its log, and has what is remembered and nothing else; the old one
    has every row still."""
    again = books.remembered(day)
    there = [it for it in (new, f"{new}-wal") if os.path.exists(it)]
    checks.equal(
        f"{what}: its mode, and that of its log",
        {stat.S_IMODE(os.stat(it).st_mode) for it in there},
        {0o600},
    )
    checks.equal(
        f"{what}: its log has no answer, and is removed",
        [os.path.getsize(it) > EMPTY_LOG or os.remove(it) for it in there[1:]],
        [None] * len(there[1:]),
    )
    content = content_of(new)
    checks.equal(
        f"{what}: pages without their sum", (has_sums(content), wrong_pages(content)), (True, [])
    )
    came = [(n, *row) for n, row in enumerate(remembered_rows(old, books, day), 1)]
    checks.equal(
        f"{what}: the answers that stay by the rule, as they were",
        rows_in(new, ["answer"])["answer"],
        came,
    )
    same_rows(checks, what, new, again)
    checks.equal(f"{what}: audit", audit(world, new, **settings), sound(again))
    same_rows(checks, f"{what}, the old file", old, books)
    checks.equal(f"{what}, the old file: audit", audit(world, old, **settings), sound(books))


def served_again(world, checks, what, path, books, stream, **settings):
    """A server over a file that was made so answers these requests, repeats among them, as the
    books do."""
    with Server(world, store=path, **settings) as server:
        checks.equal(what, server.ask(stream), books.serve(stream))
        server.process.kill()
        server.status()
    same_rows(checks, f"{what}: then", path, books)


# The example of docs/LEDGER.md, remembered from day 2 on: each request with its reply, and whether
# it stays.
EXAMPLE = [
    (wire.limit(1, 0, 5), wire.frame(b"\x85" + wire.identity(1)), True),
    (wire.reserve(2, count=4), wire.granted(2, 4), False),
    (
        wire.limit(3, 1, 3),
        wire.frame(b"\x86" + wire.identity(3) + wire.number(1) + wire.number(4)),
        False,
    ),
    (wire.reserve(4, at=2 * DAY), wire.frame(b"\x88" + wire.identity(4)), False),
    (wire.reserve(5, txn=2, count=2, at=2 * DAY), wire.granted(5, 2), True),
    (wire.settle(6, count=2), wire.settled(6, 2), False),
    (
        wire.limit(7, 2, 1),
        wire.frame(b"\x86" + wire.identity(7) + wire.number(2) + wire.number(2)),
        True,
    ),
    (wire.retire(8, host=b"b", run=9), wire.retired(8, host=b"b", run=9), True),
    (wire.settle(9, txn=2, count=2, at=2 * DAY), wire.settled(9, 2), True),
]


def worked(world, checks):
    """By its rows written out, and by what a server over it then answers."""
    path, into = f"{world.folder}/example", f"{world.folder}/example.new"
    asked, wanted, stays = zip(*EXAMPLE)
    with Server(world, words=["--create"], store=path) as server:
        checks.equal("the example's replies", server.ask(b"".join(asked)), b"".join(wanted))
    checks.equal(
        "the example, forgotten before day 2",
        forget(world, path, 2, into),
        (0, b"kept answers=5 of 9, limits=1\n", ""),
    )
    answers = [
        (seq, frame[2:], reply[2:]) for seq, (frame, reply, it) in enumerate(EXAMPLE, 1) if it
    ]
    rows = {
        "setting": [(1, 0, 3, 5)],
        "answer": [
            (n, *((b"b", 9) if seq == 8 else (b"a", 1)), seq, request, reply)
            for n, (seq, request, reply) in enumerate(answers, 1)
        ],
        "trans": [(b"a", 1, 2, b"u", 2 * DAY, 2, 0, 2, 1)],
        "usage": [(b"u", 2, 2, 0)],
        "ceiling": [(b"u", 0, 5)],
        "rule": [],
        "retired": [(b"b", 9)],
    }
    came = rows_in(into, rows)
    for table, those in rows.items():
        checks.equal(f"the example, forgotten before day 2: rows of {table}", came[table], those)
    with Server(world, store=into) as server:
        again = [server.ask(frame) for frame, _, it in EXAMPLE if it]
        checks.equal(
            "a server over it: what stays is a repeat",
            again,
            [reply for _, reply, it in EXAMPLE if it],
        )
        checks.equal(
            "a server over it: a reserve of day 1 counts once more",
            server.ask(asked[1]),
            wire.granted(2, 4),
        )
        checks.equal(
            "a server over it: the day before is used once more up to its limit",
            server.ask(wire.reserve(20, txn=9)),
            wire.granted(20, 5),
        )
        checks.equal(
            "a server over it: and not further",
            server.ask(wire.reserve(21, txn=9)),
            wire.full(21, 5, 5),
        )
        checks.equal(
            "a server over it: day 2 goes on",
            server.ask(wire.reserve(22, txn=10, at=2 * DAY, count=4)),
            wire.full(22, 2, 5),
        )
        checks.equal(
            "a server over it: a run that is retired",
            server.ask(wire.reserve(1, host=b"b", run=8)),
            wire.old(1, host=b"b", run=8),
        )


def random_histories(world, checks):
    """What is remembered of histories of all kinds, by an offset or a rule, from a day among
    theirs, before them all or after; and once more of that."""
    entries, forgotten, wrong = 0, 0, []
    for seed in range(SEEDS):
        dice = random.Random(1_000 + seed)
        default = dice.choice([0, 1, 3, 5, 100])
        rule = random_rule(dice) if seed % 2 else None
        times = TimesOfRule(dice, rule) if rule else Times()
        # (a day after today is refused)
        days = [it for it in times.days if it < this_day()] or [1]
        first, later = sorted([dice.choice([0, *days]), dice.choice([*days, max(days) + 1])])
        settings = (
            {"default": default, "offset": None, "rule": rule} if rule else {"default": default}
        )
        path, books = left_by_a_server(
            world, f"random{seed}", b"".join(connections_in_order(dice, times)), **settings
        )
        before, again, last = both(path), books.remembered(first), books.remembered(later)
        ways = [
            (path, first, f"{path}.first", books, again),
            (path, later, f"{path}.later", books, last),
            (f"{path}.first", later, f"{path}.both", again, last),
        ]
        for old, day, into, all_of, rest in ways:
            came = forget(world, old, day, into, **settings)
            if (
                came != kept(all_of, rest)
                or rows_in(into, rest.rows()) != rest.rows()
                or audit(world, into, **settings) != sound(rest)
            ):
                wrong.append((seed, day, came))
        if both(path) != before or rows_in(path, books.rows()) != books.rows():
            wrong.append((seed, "the old file has changed"))
        entries, forgotten = entries + len(books.answers), forgotten + len(books.answers) - len(
            last.answers
        )
    checks.holds(
        f"{SEEDS} random histories of {entries} entries: how many are forgotten",
        0 < forgotten < entries,
        "some",
        forgotten,
    )
    checks.equal(
        f"{SEEDS} random histories, forgotten at once and in two steps: files that are wrong",
        wrong,
        [],
    )


def connections_in_order(dice, times):
    """Streams of requests alone, so that each is answered."""
    for stream in connections_of(dice, times):
        if Books().serve(stream)[-3:] != wire.BAD:
            yield stream


def this_day():
    """Today's number at offset 0."""
    return int(time.time()) // DAY


def limits_of_retired_runs(world, checks):
    """Of limits whose replies a retire cleared those stay that were set, among many that were
    refused."""
    frames = [
        wire.reserve(n, txn=n, login=b"v%d" % (n % 3), at=DAY * (1 + n % 4)) for n in range(1, 25)
    ]
    for n in range(100, 160):
        frames.append(wire.limit(n, n % 5, n % 7, login=b"v%d" % (n % 4)))
    frames += [
        wire.retire(1, run=2),
        wire.reserve(1, txn=1, run=2, login=b"v1", at=3 * DAY),
        wire.limit(2, 0, 9, login=b"v1", run=2),
    ]
    path, books = left_by_a_server(world, "retired-limits", b"".join(frames))
    cleared = [
        reply for host, run, seq, body, reply in remembered_rows(path, books, 3) if body[0] == LIMIT
    ]
    checks.holds(
        "limits of a retired run: replies that are cleared",
        cleared.count(b"") > 10,
        "many",
        len(cleared),
    )
    for day in (0, 2, 3, 9):
        into = f"{path}.{day}"
        checks.equal(
            f"limits of a retired run, before day {day}",
            forget(world, path, day, into),
            kept(books, books.remembered(day)),
        )
        same_file(
            world, checks, f"limits of a retired run, before day {day}", path, into, books, day
        )
        served_again(
            world,
            checks,
            f"limits of a retired run, before day {day}: all again",
            into,
            books.remembered(day),
            b"".join(frames),
        )


def refused(world, checks):
    path, books = left_by_a_server(world, "refused", b"".join(frame for frame, *_ in EXAMPLE))
    into, before = f"{world.folder}/refused.new", both(path)

    def refuses(what, came, wanted, log=""):
        checks.equal(
            f"forget, {what}", (came, os.path.exists(into)), (fault(wanted, log=log), False)
        )

    wait_past_midnight()
    today = int(world.run("day", "--config", ledger_settings(world, path))[1])
    refuses("of tomorrow", forget(world, path, today + 1, into), "day is after today")
    refuses("of a day after today", forget(world, path, today + 2, into), "day is after today")
    # (at one of the first two offsets the day is another than at offset 0; by the third it ends in
    # half an hour, by the fourth it is half an hour old)
    minute = int(time.time()) // 60 % 1_440
    for offset in (720, -720, 1_410 - minute, 30 - minute):
        wait_past_midnight(offset)
        of_zone, there = (
            int(time.time()) + 60 * offset
        ) // DAY, f"{world.folder}/today-at-{offset}"
        world.run("init", "--config", ledger_settings(world, there, offset=offset))
        refuses(
            f"at offset {offset}, of tomorrow",
            forget(world, there, of_zone + 1, into, offset=offset),
            "day is after today",
        )
        came = forget(world, there, of_zone, f"{there}.new", offset=offset)
        checks.equal(
            f"forget, at offset {offset}, before today",
            came,
            (0, b"kept answers=0 of 0, limits=0\n", ""),
        )
    refuses("of the last day", forget(world, path, 376_200, into), "day is after today")
    came = world.run(
        "forget", "--config", ledger_settings(world, path), "--before", "376201", "--into", into
    )
    checks.equal(
        "forget, of a day after the last: status",
        (came[0], came[1], os.path.exists(into)),
        (2, b"", False),
    )
    for what, more, wanted, cause in [
        (
            "with another offset",
            {"offset": 60},
            "store has another zone",
            "made with offset 0, the settings have offset 60",
        ),
        (
            "with a rule",
            {"offset": None, "rule": "UTC0"},
            "store has another zone",
            "made with offset 0, the settings have rule UTC0",
        ),
        (
            "with another default",
            {"default": 4},
            "store has another default",
            "made with default 3, the settings have default 4",
        ),
    ]:
        refuses(what, forget(world, path, 2, into, **more), wanted, refusal(path, cause))
    refuses("of a ledger in memory", forget(world, "memory", 2, into), "store is memory")
    nothing = f"{world.folder}/nothing"
    refuses(
        "of a file that isn't there",
        forget(world, nothing, 2, into),
        NOT_OPENED,
        of_store(nothing, NO_FILE),
    )
    refuses(
        "without settings",
        forget(world, path, 2, into, config=nothing),
        "settings can't be read",
        of_settings(nothing, NO_FILE),
    )
    empty = f"{world.folder}/refused.empty"
    open(empty, "wb").close()
    refuses(
        "of an empty file",
        forget(world, empty, 2, into),
        "store is not this ledger",
        refusal(empty, "no ledger: no such table"),
    )
    damaged = edited(world, path, "refused.damaged", "UPDATE usage SET reserved = 9 WHERE day = 1")
    refuses(
        "of a damaged ledger", forget(world, damaged, 2, into), "store is damaged: login u day 1"
    )
    with Server(world, store=path) as server:
        refuses(
            "of a ledger that a server has open",
            forget(world, path, 2, into),
            NOT_OPENED,
            of_store(path, LOCKED),
        )
        checks.equal("the server goes on", server.ask(EXAMPLE[0][0]), EXAMPLE[0][1])
    nowhere = f"{world.folder}/nowhere/new"
    checks.equal(
        "forget, into a folder that isn't there",
        forget(world, path, 2, nowhere),
        fault(NOT_OPENED, log=of_store(nowhere, NO_FILE)),
    )
    checks.equal(
        "forget, into the old file itself",
        (forget(world, path, 2, path), both(path)),
        (fault("file exists"), before),
    )
    os.symlink(f"{world.folder}/dangling", f"{world.folder}/link")
    os.mkdir(f"{world.folder}/folder")
    with open(f"{world.folder}/taken", "wb") as file:
        file.write(b"text")
    empty = f"{world.folder}/refused.empty-too"
    open(empty, "wb").close()
    for what, name in [
        ("an empty file", empty),
        ("a file with bytes", f"{world.folder}/taken"),
        ("a folder", f"{world.folder}/folder"),
        ("a link to nowhere", f"{world.folder}/link"),
    ]:
        checks.equal(f"forget, into {what}", forget(world, path, 2, name), fault("file exists"))
    checks.equal(
        "what was there is as it was",
        (
            content_of(empty),
            content_of(f"{world.folder}/taken"),
            os.path.exists(f"{world.folder}/dangling"),
        ),
        (b"", b"text", False),
    )
    same_rows(checks, "forget, refused: the old file", path, books)
    with open("/dev/full", "wb") as device:
        came = forget(world, path, 2, into, output=device)
        # (the new file is there)
        log = f"[ERROR ledger] remove {into} and {into}-wal\n"
        checks.equal(
            "forget to a full device", (came[0], came[2]), (1, f"{log}mailquota: write failed\n")
        )
    os.remove(into)
    checks.equal("forget before today", forget(world, path, today, into)[0], 0)
    same_rows(checks, "forget before today", into, books.remembered(today))


def a_log_that_was_left(world, checks):
    """The log of another file under the new file's name isn't taken for its own."""
    path, books = left_by_a_server(world, "left", b"".join(frame for frame, *_ in EXAMPLE))
    other, _ = left_by_a_server(
        world,
        "left.other",
        b"".join(wire.reserve(n, txn=n, login=b"x") for n in range(1, 9)),
        default=99,
    )
    into = f"{world.folder}/left.new"
    shutil.copy(f"{other}-wal", f"{into}-wal")
    came = forget(world, path, 2, into)
    again = books.remembered(2)
    is_refused = came[0] == 1 and not came[1]
    good = (
        is_refused
        or came == kept(books, again)
        and rows_in(into, again.rows()) == again.rows()
        and audit(world, into) == sound(again)
    )
    checks.holds(
        "forget, where another file's log is left under the new one's name",
        good,
        "a new file of what is remembered, or a refusal",
        came,
    )
    same_rows(checks, "forget, where a log is left: the old file", path, books)


def many(world):
    """A file of some hundred answers of which half are of earlier days, and its books."""
    frames = []
    for n in range(1, 201):
        its = {"txn": n, "login": b"%03d" % (n % 40) + b"x" * 60, "at": DAY * (1 + n % 4) + n}
        frames += [wire.reserve(3 * n, count=2, **its), wire.reserve(3 * n + 1, **its)]
        if n % 3:
            frames.append(
                wire.settle(3 * n + 2, count=2, **its)
                if n % 3 == 1
                else wire.release(3 * n + 2, **its)
            )
    frames += [wire.limit(1_000 + n, n % 5, n, login=b"%03d" % n + b"x" * 60) for n in range(40)]
    path, books = left_by_a_server(world, "many", b"".join(frames), default=50)
    # (its log of megabytes would be read at each open, and that of a file with all of it is empty)
    forget(world, path, 0, f"{path}.all", default=50)
    return f"{path}.all", books


def remove_new(into):
    """The new file and its log go, as far as they are there."""
    for it in (into, f"{into}-wal"):
        if os.path.exists(it):
            os.remove(it)


def is_whole_or_refused(world, into, again):
    """Whether a new file isn't there, is refused by an audit, or has exactly the rows that it is to
    have; and which."""
    if not os.path.exists(into):
        return True, "none"
    status, output, errors = audit(world, into, default=50)
    if status == 1:
        last = errors.splitlines()[-1:]
        return (
            not output
            and last in (["mailquota: store is not this ledger"], [f"mailquota: {NOT_OPENED}"]),
            "refused",
        )
    return (status, output, errors) == sound(again) and rows_in(
        into, again.rows()
    ) == again.rows(), "whole"


def files_of_many(world, checks):
    source, books = many(world)
    again = books.remembered(3)
    path, into = copied(source, f"{world.folder}/many.timed"), f"{world.folder}/many.timed.new"
    start = time.monotonic()
    checks.equal(
        "a ledger of many answers", forget(world, path, 3, into, default=50), kept(books, again)
    )
    took = time.monotonic() - start
    same_file(world, checks, "a ledger of many answers", path, into, books, 3, default=50)
    again_all = b"".join(wire.frame(body) for _, body, _ in again.answers)
    served_again(
        world,
        checks,
        "a server over it: all that stays, asked again",
        into,
        books.remembered(3),
        again_all,
        default=50,
    )
    kills(world, checks, source, books, again, took)
    rooms(world, checks, source, books, again)


def kills(world, checks, source, books, again, took):
    """SIGKILL at moments spread over the run and beyond its end."""
    wrong, found = [], []
    for turn in range(KILLS):
        path, into = copied(source, f"{world.folder}/killed"), f"{world.folder}/killed.new"
        remove_new(into)
        words = [
            world.program,
            "forget",
            "--config",
            ledger_settings(world, path, default=50),
            "--before",
            "3",
            "--into",
            into,
        ]
        process = subprocess.Popen(
            words, stdin=subprocess.DEVNULL, stdout=subprocess.DEVNULL, stderr=subprocess.DEVNULL
        )
        time.sleep(1.3 * took * turn / KILLS)
        process.kill()
        process.wait()
        good, which = is_whole_or_refused(world, into, again)
        found.append(which)
        if (
            not good
            or rows_in(path, books.rows()) != books.rows()
            or audit(world, path, default=50) != sound(books)
        ):
            wrong.append((turn, which))
    checks.equal(
        f"{KILLS} kills of a forget: new files that are a part, or old ones that lack a row",
        wrong,
        [],
    )
    checks.holds(
        "what these kills leave",
        len({*found}) > 1,
        "no new file, some that are refused, and whole ones",
        {it: found.count(it) for it in found},
    )
    print(
        f"    {KILLS} kills: " + ", ".join(f"{found.count(it)} {it}" for it in sorted({*found})),
        flush=True,
    )


def rooms(world, checks, source, books, again):
    """A disk that is full: no file may grow beyond so many bytes."""
    found = []
    for room in ROOMS:
        what = f"forget in files of {room:,} bytes"
        path, into = copied(source, f"{world.folder}/room{room}"), f"{world.folder}/room{room}.new"
        # (an open that finds a log writes it into the file, so there is none here)
        checks.equal(f"{what}: audit before", audit(world, path, default=50), sound(books))
        status, output, errors = forget(
            world, path, 3, into, default=50, limit=("RLIMIT_FSIZE", room)
        )
        good, which = is_whole_or_refused(world, into, again)
        found.append(which)
        if status == 0:
            checks.equal(
                f"{what}: what it prints, and the new file",
                ((status, output, errors), which),
                (kept(books, again), "whole"),
            )
        else:
            log, last = apart(errors)
            removes = [line for line in log if line.endswith(f"remove {into} and {into}-wal\n")]
            said = bool(removes) or not os.path.exists(into)
            checks.holds(
                f"{what}: refused",
                (status, output) == (1, b"") and last.startswith("mailquota: store ") and said,
                "status 1, a text, and which files to remove",
                errors,
            )
        checks.holds(f"{what}: the new file", good, "none, refused or whole", which)
        same_rows(checks, f"{what}: the old file", path, books)
        remove_new(into)
        checks.equal(
            f"{what}, and room again",
            (forget(world, path, 3, into, default=50), rows_in(into, again.rows()) == again.rows()),
            (kept(books, again), True),
        )
    checks.holds(
        "how these ended", "whole" in found and len({*found}) > 1, "refused, and whole", found
    )


class Play:
    """Two hosts' filters of which each runs from the beginning to the end, and a server that ends
    in between: over a file that goes on, or over the file that `forget` makes of it. `seen` is all
    that smtpd and an administrator are answered about days that are kept.
    """

    HOSTS = ["mx1.example.org", "mx2.example.org"]
    DEFAULT = 4

    def __init__(self, world, name, today, forgets):
        self.world, self.today, self.forgets = world, today, forgets
        self.path = f"{world.folder}/{name}"
        self.listen = f"127.0.0.1:{quiet_port()}"
        self.server, self.filters, self.seen, self.opened = None, [], [], 0

    def start(self, *words):
        self.server = Server(
            self.world, words=words, store=self.path, default=self.DEFAULT, listen=self.listen
        )

    def stop(self):
        self.server.process.terminate()
        self.server.status()

    def at(self, back):
        """A moment so many days before today."""
        return (self.today - back) * DAY + 43_200

    def note(self, what, came):
        self.seen.append((what, came))

    def recipients(self, host, session, login, back, count):
        """A new mail of a session, and what its recipients are answered."""
        self.filters[host].login(self.at(back), session, login)
        self.filters[host].begin(self.at(back), session, b"m-" + session)
        return self.further(host, session, back, count)

    def further(self, host, session, back, count):
        return [self.filters[host].recipient(self.at(back), session) for _ in range(count)]

    def commit(self, host, session, back):
        self.filters[host].commit(self.at(back), session, b"m-" + session)
        assert self.filters[host].is_done()

    def command(self, *words):
        self.note(words, self.world.run(words[0], "--server", self.listen, *words[1:]))

    def reports(self, when):
        """The days that are kept, by the command and by a page's bytes; a day before, too, where it
        isn't forgotten."""
        for back in (1, 0):
            day = str(self.today - back)
            self.note(
                f"report {when}, {back} days back",
                self.world.run("report", "--server", self.listen, "--day", day),
            )
            self.note(
                f"page {when}, {back} days back", self.server.ask(wire.page(day=self.today - back))
            )
        for login in (b"alice", b"bob", b"carol", b"dave", b"erin"):
            self.note(
                f"usage of {login.decode()} {when}", self.server.ask(wire.usage(login, self.today))
            )

    def play(self):
        self.start("--create")
        self.filters = [Smtpd(self.world, host, self.listen) for host in self.HOSTS]
        self.note("registrations", [it.registration for it in self.filters])
        self.before()
        self.stop()
        self.meanwhile()
        if self.forgets:
            self.forget()
        self.start()
        self.after()
        self.note("the ends of both filters", [it.end() for it in self.filters])
        self.reports("at the end")
        self.stop()
        return self.seen

    def before(self):
        """Mails of five days ago, of yesterday and of today; limits from days that are forgotten
        and kept."""
        self.note(
            "five days ago",
            self.recipients(0, b"a1", b"alice", 5, 3) + self.recipients(1, b"a2", b"alice", 5, 2),
        )
        self.commit(0, b"a1", 5)
        self.commit(1, b"a2", 5)
        # (is open over the change)
        self.note("five days ago, not yet sent", self.recipients(1, b"a3", b"bob", 5, 1))
        self.note(
            "yesterday",
            self.recipients(0, b"b1", b"alice", 1, 2) + self.recipients(1, b"b2", b"bob", 1, 1),
        )
        self.commit(0, b"b1", 1)
        self.filters[1].report(self.at(1), b"tx-rollback", b"b2", b"m-b2")
        self.note("today, not yet sent", self.recipients(1, b"c1", b"alice", 0, 2))
        for login, back, cap in (("alice", 0, 5), ("carol", 5, 1), ("erin", 5, 9), ("erin", 1, 2)):
            self.command(
                "limit",
                "--host",
                "admin",
                "--login",
                login,
                "--from",
                str(self.today - back),
                "--cap",
                str(cap),
            )
        self.command(
            "stop", "--host", "admin", "--login", "dave", "--day", str(self.today), "--force"
        )
        self.reports("before")

    def meanwhile(self):
        """The server is away: a recipient is refused for now, and the end of a mail of five days
        ago waits in its filter."""
        self.note("a recipient while the server is away", self.recipients(0, b"d1", b"alice", 0, 1))
        self.commit(1, b"a3", 5)

    def forget(self):
        config = ledger_settings(self.world, self.path, default=self.DEFAULT)
        came = self.world.run(
            "forget",
            "--config",
            config,
            "--before",
            str(self.today - 2),
            "--into",
            f"{self.path}.new",
        )
        assert came[0] == 0, came
        os.rename(self.path, f"{self.path}.old")
        if os.path.exists(f"{self.path}-wal"):
            os.rename(f"{self.path}-wal", f"{self.path}.old-wal")
        os.rename(f"{self.path}.new", self.path)

    def after(self):
        self.reports("after the start")
        self.note("today, the mail that was open goes on", self.further(1, b"c1", 0, 1))
        self.commit(1, b"c1", 0)
        self.note(
            "today, the next mails",
            self.further(0, b"d1", 0, 2) + self.recipients(1, b"e1", b"alice", 0, 1),
        )
        self.note(
            "a login with a limit from a day that is over",
            self.recipients(0, b"f1", b"carol", 0, 2),
        )
        self.note(
            "a login with two such limits",
            self.recipients(0, b"f2", b"erin", 0, 3) + self.recipients(1, b"f3", b"erin", 1, 3),
        )
        self.note("a stopped login", self.recipients(1, b"g1", b"dave", 0, 1))
        self.note("a login without a limit of its own", self.recipients(1, b"g2", b"bob", 0, 5))
        self.commit(0, b"d1", 0)
        self.commit(0, b"f1", 0)
        self.command(
            "resume", "--host", "admin", "--login", "dave", "--day", str(self.today), "--cap", "1"
        )
        self.note("a login that may send again", self.further(1, b"g1", 0, 2))
        self.command(
            "limit", "--host", "admin", "--login", "alice", "--from", str(self.today), "--cap", "2"
        )
        self.reports("after")

    def later_rows(self):
        """The rows of kept days, without runs, which are the clock's."""
        day = self.today - 2
        return answers_of(
            self.path,
            {
                "usage": (
                    f"SELECT login, day, settled, reserved FROM usage WHERE day >= {day} ORDER BY"
                    " login, day"
                ),
                "trans": (
                    "SELECT host, txn, login, moment, day, held, settled, closed FROM trans WHERE"
                    f" day >= {day} ORDER BY host, txn"
                ),
                "ceiling": "SELECT login, day, cap FROM ceiling ORDER BY login, day",
            },
        )


# What smtpd is answered, said once by hand: both plays have to see it.
GO, NO, WAIT = PROCEED, REFUSED, SERVICE
ANSWERED = {
    "five days ago": ((b"a1", GO, GO, GO), (b"a2", GO, NO)),
    "five days ago, not yet sent": ((b"a3", GO),),
    "yesterday": ((b"b1", GO, GO), (b"b2", GO)),
    "today, not yet sent": ((b"c1", GO, GO),),
    "a recipient while the server is away": ((b"d1", WAIT),),
    "today, the mail that was open goes on": ((b"c1", GO),),
    "today, the next mails": ((b"d1", GO, GO), (b"e1", NO)),
    "a login with a limit from a day that is over": ((b"f1", GO, NO),),
    "a login with two such limits": ((b"f2", GO, GO, NO), (b"f3", GO, GO, NO)),
    "a stopped login": ((b"g1", NO),),
    "a login without a limit of its own": ((b"g2", GO, GO, GO, GO, NO),),
    "a login that may send again": ((b"g1", GO, NO),),
}


def filters_go_on(world, checks):
    """The same day twice with the same filters, once over a forgetting: about days that are kept
    all is answered alike."""
    # (at an hour at which the day doesn't turn within the case)
    today = this_day()
    plain, forgets = Play(world, "plain", today, False), Play(world, "forgets", today, True)
    first, second = plain.play(), forgets.play()
    for what, sessions in ANSWERED.items():
        wanted = [result(it, session) for session, *answers in sessions for it in answers]
        checks.equal(
            f"filters over a restart and over a forgetting: {what}",
            [dict(first)[what], dict(second)[what]],
            [wanted] * 2,
        )
    checks.equal(
        "registrations of the four filters",
        [dict(it)["registrations"] for it in (first, second)],
        [[REGISTRATION] * 2] * 2,
    )
    checks.equal(
        "their ends",
        [dict(it)["the ends of both filters"] for it in (first, second)],
        [[(0, b"", "")] * 2] * 2,
    )
    differs = [what for (what, one), (_, other) in zip(first, second) if one != other]
    checks.equal(
        (
            f"{len(first)} answers, reports and commands that are seen over a restart: those that"
            " differ over a forgetting"
        ),
        differs,
        [],
    )
    lines = (
        b"      2       0       4 alice\n      0       0       4 bob\n      0       2       2"
        b" erin\n"
    )
    checks.equal(
        "the report of yesterday at the end",
        [dict(it)["report at the end, 1 days back"] for it in (first, second)],
        [(0, lines, "")] * 2,
    )
    wanted, came = plain.later_rows(), forgets.later_rows()
    checks.equal("rows of kept days at the end, of both files", came, wanted)
    checks.equal(
        "days before in the file that forgot",
        answers_of(
            forgets.path, {"days": "SELECT DISTINCT day FROM usage WHERE day < %d" % (today - 2)}
        ),
        {"days": []},
    )
    for name, play in (("a restart", plain), ("a forgetting", forgets)):
        came = audit(world, play.path, default=Play.DEFAULT)
        checks.equal(f"audit after {name}", (came[0], came[2]), (0, ""))
