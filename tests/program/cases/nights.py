"""`server` with `keep`: days leave the ledger while it is served. What a kill leaves at each step
of the switch to the new file, and who repairs it; a new file that can't be made, or on a full disk,
and the next attempt; a switch that fails, and in which order its names come to the disk; thousands
of answers, and a peer that asks all the while; days ahead, and clocks that jump; quiet days, and a
server that stands by; `status` and `audit` beside a renewal; filters of two hosts over ten nights.

What is kept is said by the ledger of tests/model. The new file has each of the names that
docs/OPERATING.md has for it.
"""
import collections
import contextlib
import copy
import fcntl
import itertools
import os
import random
import re
import resource
import shutil
import threading
import time

import clocks
import wire
from books import Books
from cases.audits import audit
from cases.costs import Noted
from cases.damage import sound
from cases.failures import Disk, can_mount
from cases.filters import LIMIT, PROCEED
from cases.retiring import of_version, written
from ends import (
    BUSY,
    LOCKED,
    LONG,
    NO_FILE,
    OPENED_IN,
    SECONDS,
    Server,
    begun,
    copied,
    fault,
    ledger_settings,
    of_store,
    wait_past_a_night,
    wait_until,
    without_time,
)
from random_inputs import body
from rows import rows_in, same_rows
from smtpd import Smtpd, result

DAY = 86_400
NO_LIMIT = resource.RLIM_INFINITY
DEFAULT = 1_000
# days before today that are kept
KEEP = 2
# answers of a file whose renewal takes long enough to be looked at, mostly at the first of so many
# goes
MANY, GOES = 1_200, 10
NOT_OPENED = "store can't be opened"
# the bytes that are locked of a database that is open
LOCK = 1 << 30, 512
RENAMES = 4
# the numbers of pwrite64(2), pwritev(2), ftruncate(2), rename(2) and unlink(2), and at how many of
# their calls a server is killed
CHANGES, KILLS = (18, 296, 77, 82, 87), 8


def run(world, checks):
    for case in (
        a_new_ledger,
        forgets_at_a_start,
        keeps_as_long_as_may_be,
        repairs,
        leaves_what_is_locked,
        leaves_no_earlier_name,
        counts_on,
        days_ahead,
        ahead_before_three,
        a_day_ten_years_ahead,
        after_a_weekend,
        stands_by,
        asked_about_a_host,
        no_new_file,
        notes_of_nights,
        a_note_of_the_small_hours,
        tries_again_in_an_hour,
        takes_its_own_time,
        warns_once_over_a_night,
        a_switch_that_fails,
        catches_up,
        of_thousands,
        on_the_disk_in_order,
        beside_a_renewal,
        killed_at_a_rename,
        killed_at_a_change,
        wrong_clocks,
        a_clock_that_was_ahead,
        at_other_times,
        ten_nights,
        random_histories,
        on_full_disks,
        as_disks_fill,
        a_slow_host,
    ):
        wait_past_a_night()
        case(world, checks)


def today():
    return int(time.time()) // DAY


def first_day(keep=KEEP):
    """The first day that is kept where something was reserved today: a night begins at 03:00."""
    return min((int(time.time()) - 10_800) // DAY, today()) - keep


def days_of(number):
    """One day of the last six, by the number of a request."""
    return today() - number % 6


def request(number, day, host=b"mx1"):
    return wire.reserve(
        number, txn=number, login=b"u%d" % (number % 40), at=day * DAY + number, host=host
    )


def requests(count):
    """Reserves of six days and some of their closings, and limits."""
    made = [request(number, days_of(number)) for number in range(1, count + 1)]
    made += [
        wire.settle(
            count + number,
            txn=number,
            login=b"u%d" % (number % 40),
            at=days_of(number) * DAY + number,
            host=b"mx1",
        )
        for number in range(1, count, 3)
    ]
    return made + [
        wire.limit(number, today() - number % 6, 50 + number, login=b"u%d" % number, host=b"adm")
        for number in range(1, 12)
    ]


def whole_reply(back):
    """The next reply of a connection, where the whole of it comes."""
    try:
        head = back.read(2)
        reply = back.read(int.from_bytes(head, "big"))
    except OSError:
        return b""
    return head + reply if len(head) == 2 and len(reply) == int.from_bytes(head, "big") else b""


def asked(server, frames):
    """The replies to these frames on one connection, as far as they come."""
    came = []
    try:
        with server.connect() as peer, peer.makefile("rb") as back:
            for frame in frames:
                peer.sendall(frame)
                if not (reply := whole_reply(back)):
                    break
                came.append(reply)
    except OSError:
        pass
    return came


def all_asked(server, frames):
    """The same, where a switch to the new file may cut a connection off: what got no reply is asked
    again on another one."""
    came, ends = [], time.monotonic() + SECONDS
    while len(came) < len(frames) and server.process.poll() is None and time.monotonic() < ends:
        came += asked(server, frames[len(came) :])
    return came


def filled(world, path, count=60):
    """A file whose server took requests of six days and was killed, so that its log has commits;
    gives the books."""
    books, frames = Books(0, DEFAULT), requests(count)
    with Server(world, words=["--create"], store=path, default=DEFAULT) as server:
        came = server.ask(b"".join(frames))
        server.process.kill()
        server.status()
    assert came == b"".join(map(books.serve, frames))
    return books


def nightly(world, path, **more):
    return Server(world, **{"store": path, "default": DEFAULT, "keep": KEEP, "log": "info", **more})


def made_of(world, path, frames, **settings):
    """Makes a ledger of these requests, of any days; returns its replies, one to each."""
    settings = {"limit": clocks.late(), **settings}
    with Server(world, words=["--create"], store=path, default=DEFAULT, **settings) as server:
        replies = asked(server, frames)
    assert len(replies) == len(frames)
    return replies


def about(day, most):
    """Fewer requests than these, on a day and on those before it, of which two are to leave."""
    return [request(number, day - number % (KEEP + 2)) for number in range(1, most)]


def has_note(path):
    """Whether a night's note stands beside a ledger, and is written."""
    return os.path.exists(f"{path}.night") and os.path.getsize(f"{path}.night") > 0


def is_switched(path):
    """Whether a switch has begun: by its first step the ledger gets its other name."""
    return os.path.exists(f"{path}.old")


def has_begun(path):
    """Whether the new file of a renewal is open, so that its log has a beginning, or was."""
    with contextlib.suppress(FileNotFoundError):
        return os.path.getsize(f"{path}.part-wal") > 0
    return is_switched(path)


def is_through(server):
    return any("are forgotten" in line for line in server.all_log_lines())


def names(path):
    """What stands beside a ledger, but the reserve."""
    folder, name = os.path.split(path)
    return sorted(
        it.removeprefix(name)
        for it in os.listdir(folder)
        if it == name
        or it.startswith((f"{name}-", f"{name}."))
        and not it.endswith((".read", ".read-wal", ".read-shm", ".ballast"))
    )


# after a switch, and where a night was over then
SWITCHED = ["", "-wal", ".old"]
NOTED = ["", "-wal", ".night", ".old"]


def a_new_ledger(world, checks):
    """Its start says how long it took, what is kept, and by --endless that it serves any number of
    connections."""
    path = f"{world.folder}/new"
    with nightly(world, path, words=["--create", "--endless"], connections=0) as server:
        # (it says that it listens before it answers)
        asked(server, [wire.page()])
        lines = server.log_lines()
        wanted = [
            begun(path, default=DEFAULT),
            f"[INFO  night] ledger {path}: keeps {KEEP} days before today",
            (f"[INFO  server] listening on {server.listen} for any number of" " connections"),
        ]
        checks.equal(
            "a new ledger: the log, and that it has the time of the start",
            (without_time(lines), bool(OPENED_IN.search(lines[0]))),
            (wanted, True),
        )


def forgets_at_a_start(world, checks):
    """A client asks all the time, over a file that has days to be forgotten."""
    path = f"{world.folder}/start"
    old, sent, day = filled(world, path), [], first_day()
    before = list(old.answers)
    # (as `forget` by hand leaves one: the former ledger gets the name beside it)
    shutil.copy(f"{path}-wal", f"{path}.old-wal")
    with nightly(world, path) as server:
        number = 1_000
        while not is_through(server) and number < 100_000:
            number += 1
            frame = request(number, today() - number % 2, host=b"mx2")
            sent += [(frame, it) for it in asked(server, [frame])]
        after = [request(number + more, today(), host=b"mx2") for more in range(1, 20)]
        later = asked(server, after)
        checks.equal(
            "a start: replies while days are forgotten",
            [reply for _, reply in sent],
            [old.serve(frame) for frame, _ in sent],
        )
        books = old.remembered(day)
        checks.equal("a start: replies after it", later, [books.serve(it) for it in after])
        checks.equal(
            "a start: a number that was forgotten is new",
            len(books.answers) < len(old.answers) + len(after),
            True,
        )
        again = [frame for frame, _ in sent] + [
            b"".join([wire.number(len(body), 2), body]) for _, body, _ in before
        ]
        checks.equal(
            "a start: each number again", asked(server, again), [books.serve(it) for it in again]
        )
        lines = [line for line in server.log_lines() if "are forgotten" in line]
        checks.holds(
            "a start: what is logged",
            len(lines) == 1 and f"the days before {day} " in lines[0],
            "one line with the day",
            lines,
        )
        server.process.kill()
        server.status()
    checks.equal("a start: files", names(path), NOTED)
    same_rows(checks, "a start", path, books)
    checks.equal("a start: audit", audit(world, path, default=DEFAULT), sound(books))
    checks.equal(
        "a start: audit of the former file", audit(world, f"{path}.old", default=DEFAULT)[0], 0
    )


def line_of_note(path):
    """The line of a night's note that people read."""
    with open(f"{path}.night", encoding="ascii") as file:
        return file.readline()


def is_noted(world, checks, path, day):
    """The last night is noted beside the ledger, for `status` and a later start. Who may not read
    the note does without."""
    with open(f"{path}.night", encoding="ascii") as file:
        note = file.read()
    wanted = (
        rf"(forgot the days before {day} on day {today()}, in (\d+) ms\n)"
        rf"day={day} took=\2 over=\d{{13}} answers=\d+\n"
    )
    good = re.fullmatch(wanted, note)
    checks.holds("a night's note", good, "which days, on which one, how long; figures", note)
    line = f"ledger {path}: {line_of_note(path)}"
    config = ledger_settings(world, path, default=DEFAULT)
    came = world.run("status", "--config", config)
    checks.equal(
        "a night's note: status, where nobody answers",
        (came[0], came[1].endswith(line.encode())),
        (3, True),
    )
    with nightly(world, path) as server:
        asked(server, [wire.page()])
        config = ledger_settings(world, path, default=DEFAULT, listen=server.address, timeout=LONG)
        came = world.run("status", "--config", config)
        checks.equal(
            "a night's note: status of a server",
            (came[0], came[1].endswith(b"\n" + line.encode())),
            (0, True),
        )
        told = [it for it in server.all_log_lines() if it.endswith(line.rstrip("\n"))]
        checks.holds("a night's note: a start", len(told) == 1, "a line of the log", told)
    os.rename(f"{path}.night", f"{path}.kept")
    os.mkdir(f"{path}.night")
    came = world.run("status", "--config", ledger_settings(world, path, default=DEFAULT))
    checks.equal(
        "a night's note that can't be read: status", (came[0], b"forgot" in came[1]), (3, False)
    )
    os.rmdir(f"{path}.night")
    os.rename(f"{path}.kept", f"{path}.night")


def keeps_as_long_as_may_be(world, checks):
    """With keep = 366 the day that is so many days back stays, and the one before it goes."""
    what, path, day = "keep = 366", f"{world.folder}/year", first_day(366)
    books, frames = Books(0, DEFAULT), [
        request(number, of) for number, of in enumerate((day - 1, day, day + 200, today()), start=1)
    ]
    assert made_of(world, path, frames) == [books.serve(it) for it in frames]
    with nightly(world, path, keep=366) as server:
        good = wait_until(lambda: is_through(server))
        lines = [
            line.partition(": ")[2].partition(", in ")[0]
            for line in server.log_lines()
            if "are forgotten" in line
        ]
        checks.equal(
            f"{what}: what is forgotten",
            (good, lines),
            (True, [f"the days before {day} are forgotten"]),
        )
    same_rows(checks, what, path, books.remembered(day))


# ---- what a kill leaves


def two_files(world, name="two"):
    """A ledger and the one that a renewal made of it, each with commits in its log, and their
    books."""
    old, new = f"{world.folder}/{name}-old", f"{world.folder}/{name}-new"
    books = filled(world, old)
    settings = ledger_settings(world, old, default=DEFAULT)
    came = world.run("forget", "--config", settings, "--before", str(first_day()), "--into", new)
    assert came[0] == 0, came
    kept = books.remembered(first_day())
    frames = [request(number, today(), host=b"mx3") for number in range(1, 30)]
    with Server(world, store=new, default=DEFAULT) as server:
        assert asked(server, frames) == [kept.serve(it) for it in frames]
        server.process.kill()
        server.status()
    closed = f"{world.folder}/{name}-closed"
    shutil.copy(old, closed)
    shutil.copy(f"{old}-wal", f"{closed}-wal")
    came = world.run("audit", "--config", ledger_settings(world, closed, default=DEFAULT))
    assert came[0] == 0, came
    return old, closed, new, books, kept


# of each state: what stands where, by the names of `two_files`, whether the former ledger is opened
# then, and what is left beside it
STATES = {
    "while the new file is filled": (
        {"": "old", "-wal": "old-wal", ".part": "new", ".part-wal": "new-wal"},
        True,
        ["", "-wal"],
    ),
    "a new file without a log": (
        {"": "old", "-wal": "old-wal", ".part": "new"},
        True,
        ["", "-wal"],
    ),
    "a log without its new file": (
        {"": "old", "-wal": "old-wal", ".part-wal": "new-wal"},
        True,
        ["", "-wal", ".part-wal"],
    ),
    "after the first step": (
        {".old": "old", "-wal": "old-wal", ".part": "new", ".part-wal": "new-wal"},
        True,
        ["", "-wal"],
    ),
    "after the second": (
        {".old": "old", "-wal": "old-wal", ".next": "new", ".part-wal": "new-wal"},
        False,
        SWITCHED,
    ),
    "after the third": ({".old": "old", "-wal": "new-wal", ".next": "new"}, False, SWITCHED),
    "after the last": ({"": "new", "-wal": "new-wal", ".old": "old"}, False, SWITCHED),
}
OPENERS = {
    "limits": lambda world, config, _: world.run("limits", "--config", config)[0],
    "status": lambda world, config, _: world.run("status", "--config", config)[0] - 3,
    "forget": lambda world, config, into: world.run(
        "forget", "--config", config, "--before", "1", "--into", into
    )[0],
    "a server": (
        lambda world, config, _: world.run("server", "--config", config, "--connections", "1")[0]
        - 1
    ),
}


def put(folder, files, sources):
    """Puts what a kill left into a new folder; gives the path of the ledger."""
    os.mkdir(folder)
    for end, name in files.items():
        source, _, log = name.partition("-")
        shutil.copy(f"{sources[source]}{'-wal' if log else ''}", f"{folder}/ledger{end}")
    return f"{folder}/ledger"


def repairs(world, checks):
    old, closed, new, books, kept = two_files(world)
    place = 0
    for row, (state, (files, is_former, left)) in enumerate(STATES.items()):
        sources = {"old": closed if state == "after the second" else old, "new": new}
        for opener, opens in (
            OPENERS.items() if state in ("after the first step", "after the second") else ()
        ):
            place += 1
            what, path = f"{state}: {opener}", put(f"{world.folder}/opened{place}", files, sources)
            with Taken() as address:
                config = ledger_settings(
                    world,
                    path,
                    default=DEFAULT,
                    listen=address if opener == "a server" else "127.0.0.1:1",
                )
                checks.equal(
                    f"{what}: its status, and files",
                    (opens(world, config, f"{world.folder}/into{place}"), names(path)),
                    (0, left),
                )
        what, path = f"{state}: audit", put(f"{world.folder}/state{row}", files, sources)
        checks.equal(what, audit(world, path, default=DEFAULT), sound(books if is_former else kept))
        checks.equal(f"{what}: files", names(path), left)
        same_rows(checks, what, path, books if is_former else kept)
    notes_of_switches(world, checks, old, new)
    alone = put(f"{world.folder}/alone", {".old": "old"}, {"old": old})
    came = world.run("audit", "--config", ledger_settings(world, alone, default=DEFAULT))
    checks.equal(
        "a former file alone: audit", came, fault(NOT_OPENED, log=of_store(alone, NO_FILE))
    )
    checks.equal("a former file alone: files", names(alone), [".old"])
    beside = put(f"{world.folder}/beside", STATES["after the third"][0], {"old": old, "new": new})
    came = world.run("init", "--config", ledger_settings(world, beside, default=DEFAULT))
    checks.equal(
        "after the third: init, which makes none over it", (came[0], names(beside)), (1, SWITCHED)
    )
    same_rows(checks, "after the third: init", beside, kept)


def notes_of_switches(world, checks, old, new):
    """Where a switch is undone, the last night is the one that is noted; where it is finished, that
    night has noted nothing. By log = "info" both are told."""
    note = "forgot the days before 5 on day 8, in 3 ms"
    for state, end, told in [
        ("after the first step", "undone", [note]),
        ("after the third", "finished", []),
    ]:
        what, path = f"{state}, with the note of an earlier night", put(
            f"{world.folder}/noted-{end}", STATES[state][0], {"old": old, "new": new}
        )
        with open(f"{path}.night", "w", encoding="ascii") as file:
            file.write(f"{note}\n")
        status, output, errors = world.run(
            "status", "--config", ledger_settings(world, path, default=DEFAULT, log="info")
        )
        checks.equal(
            f"{what}: status",
            (status, [it for it in output.decode().splitlines() if "forgot" in it]),
            (3, [f"ledger {path}: {it}" for it in told]),
        )
        lines = [line for line in errors.splitlines() if line.startswith("[INFO")]
        checks.equal(
            f"{what}: the log",
            lines,
            [f"[INFO  night] {path}: an interrupted switch to a new file is {end}"],
        )


class Taken:
    """An address at which another process listens, so that a server ends before it serves."""

    def __enter__(self):
        import socket

        self.listening = socket.create_server(("127.0.0.1", 0))
        return f"127.0.0.1:{self.listening.getsockname()[1]}"

    def __exit__(self, *_):
        self.listening.close()


def leaves_what_is_locked(world, checks):
    """While the process lives that switches, nobody else touches its files."""
    old, _, new, *_ = two_files(world, "locked")
    for state, locked in [
        ("after the first step", ".part"),
        ("after the second", ".next"),
        ("after the third", ".next"),
    ]:
        what = f"{state}, in another process"
        path = put(
            f"{world.folder}/locked{locked}{state[-3:]}", STATES[state][0], {"old": old, "new": new}
        )
        before = names(path)
        with open(path + locked, "r+b") as file:
            fcntl.lockf(file, fcntl.LOCK_EX | fcntl.LOCK_NB, LOCK[1], LOCK[0])
            came = world.run("audit", "--config", ledger_settings(world, path, default=DEFAULT))
            checks.equal(
                f"{what}: audit", came, fault(NOT_OPENED, log=of_store(path + locked, BUSY))
            )
            checks.equal(f"{what}: files", names(path), before)
        checks.equal(f"{what}, which has ended: audit", audit(world, path, default=DEFAULT)[0], 0)
    what = "a new file that another process has open"
    path = put(
        f"{world.folder}/held", STATES["while the new file is filled"][0], {"old": old, "new": new}
    )
    with open(f"{path}.part", "r+b") as file:
        fcntl.lockf(file, fcntl.LOCK_EX | fcntl.LOCK_NB, LOCK[1], LOCK[0])
        checks.equal(f"{what}: audit", audit(world, path, default=DEFAULT)[0], 0)
        checks.equal(f"{what}: files", names(path), ["", "-wal", ".part", ".part-wal"])


def leaves_no_earlier_name(world, checks):
    """With what a renewal left goes the name that only a switch gives: where that stays, a later
    switch that is interrupted would be finished with an earlier file."""
    old, _, new, books, _ = two_files(world, "named")
    for state, files in [
        ("a renewal that was interrupted", STATES["while the new file is filled"][0]),
        ("a new file alone", STATES["a new file without a log"][0]),
    ]:
        what = f"{state}, and a name of an earlier switch"
        place = f"{world.folder}/named-{len(files)}"
        path = put(place, {**files, ".next": "new"}, {"old": old, "new": new})
        checks.equal(f"{what}: audit", audit(world, path, default=DEFAULT), sound(books))
        checks.equal(f"{what}: files", names(path), ["", "-wal"])
    what = "a name of an earlier switch, as days leave the ledger"
    files = {"": "old", "-wal": "old-wal", ".next": "old"}
    path = put(f"{world.folder}/named", files, {"old": old})
    with nightly(world, path) as server:
        good = wait_until(lambda: is_through(server) and has_note(path))
        checks.equal(f"{what}: files", (good, names(path)), (True, NOTED))


# ---- servers


def counts_on(world, checks):
    """A server ends after so many connections, whether days were forgotten between them or not."""
    path = f"{world.folder}/counted"
    books, frames = filled(world, path), [request(number, today()) for number in range(900, 905)]
    with nightly(world, path, connections=5) as server:
        came = asked(server, frames[:1])
        good = wait_until(lambda: is_through(server))
        came += [it for frame in frames[1:] for it in asked(server, [frame])]
        checks.equal(
            "five connections: days were forgotten, and the status",
            (good, server.status()),
            (True, 0),
        )
        lines, day = [
            re.sub(r"[0-9]+ ms", "N ms", line) for line in server.log_lines()
        ], first_day()
        wanted = [
            (
                f"[INFO  night] ledger {path}: has days from {today() - 5} on, keeps"
                f" {KEEP} before today"
            ),
            f"[INFO  server] listening on {server.listen} for 5 connections",
            f"[INFO  night] forgetting the days before {day}",
            (
                f"[INFO  night] ledger {path}: the days before {day} are forgotten, in"
                " N ms, the last N ms without an answer"
            ),
            "[INFO  server] ending after 5 connections",
        ]
        checks.equal("five connections: the log behind its first line", lines[1:], wanted)
    # (the switch may cut off the first; each is of another login)
    replies = [books.serve(frame) for frame in frames]
    checks.equal(
        "five connections: replies", came, replies if len(came) == len(frames) else replies[1:]
    )
    with nightly(world, path) as server:
        checks.equal(
            "five connections, then a start without days to be forgotten: files",
            (len(asked(server, [wire.page()])), names(path)),
            (1, NOTED),
        )
    is_noted(world, checks, path, first_day())
    path = f"{world.folder}/empty"
    with nightly(world, path, words=["--create"]) as server:
        asked(server, [wire.page()])
        wanted = [
            f"[INFO  night] ledger {path}: keeps {KEEP} days before today",
            f"[INFO  server] listening on {server.listen} for 1000000 connections",
        ]
        checks.equal(
            "a ledger without days: the log behind its first line", server.log_lines()[1:], wanted
        )


def ahead_line(day, newest, begins=""):
    """What is logged on a day where something was reserved on a later one than the next."""
    return (
        f"[WARN  night] {begins}it is day {day}, and something was reserved on day"
        f" {newest} last"
    )


def days_ahead(world, checks):
    """Something was reserved up to five days ahead: days leave nevertheless, and a line says so.
    What is asked again of a day after tomorrow isn't taken. Where all days are ahead, none leaves,
    and the line says that; what counts as today is the newest of them, and each is taken."""
    for what, oldest in [("from five days ago on", today() - 5), ("alone", today() + 2)]:
        path, what = f"{world.folder}/ahead{oldest}", f"days ahead, {what}"
        newest, is_forgetting = today() + 5, oldest < today()
        days = [oldest + number % (newest + 1 - oldest) for number in range(1, 40)]
        frames = [request(number, day) for number, day in enumerate(days, start=1)]
        books = Books(0, DEFAULT)
        assert made_of(world, path, frames) == [books.serve(it) for it in frames]
        with nightly(world, path) as server:
            good = not is_forgetting or wait_until(lambda: is_through(server))
            books = books.remembered(first_day()) if is_forgetting else books
            last = today() + 1 if is_forgetting else newest
            wanted = [
                books.serve(it) if day <= last else wire.RETRY for day, it in zip(days, frames)
            ]
            checks.equal(f"{what}: replies", (good, asked(server, frames)), (True, wanted))
            line = ahead_line(today(), newest, "" if is_forgetting else "nothing is forgotten: ")
            checks.equal(f"{what}: what is logged", warnings(server), [line])
            server.process.kill()
            server.status()
        checks.equal(f"{what}: files", names(path), NOTED if is_forgetting else ["", "-wal"])
        same_rows(checks, what, path, books)


def ahead_before_three(world, checks):
    """An hour after midnight it is the day that has begun, whose night is still to come."""
    what, day = "an hour after midnight, a day ahead", today()
    path = f"{world.folder}/early"
    made_of(world, path, [request(number, day + 4 - number % 9) for number in range(1, 40)])
    server, _ = by_clock(world, path, DAY * day + 3_600)
    with server:
        good = wait_until(lambda: is_through(server))
        checks.equal(
            f"{what}: what is forgotten, and logged",
            (good, forgotten_from(server), warnings(server)),
            (True, [day - 1 - KEEP], [ahead_line(day, day + 4)]),
        )


def a_day_ten_years_ahead(world, checks):
    """A ledger in which something was reserved ten years ahead goes on forgetting, and warns of it
    once a night."""
    what, path, day = "a day ten years ahead", f"{world.folder}/years", today()
    books, far = Books(0, DEFAULT), day + 3_650
    frames = [*about(day, 40), request(40, far)]
    assert made_of(world, path, frames) == [books.serve(it) for it in frames]
    server, clock = by_clock(world, path, DAY * day + 3_600)
    with server:
        # (it looks after each round of requests)
        asked(server, [wire.usage()] * 3)
        lines, nights = [ahead_line(day, far)], []
        for more in range(3):
            clock.pass_to(DAY * (day + more) + 10_860)
            frame = request(50 + more, day + more, host=b"mx5")
            reply = all_asked(server, [frame])
            good = reply == [books.serve(frame)]
            nights.append(day + more - KEEP)
            lines.append(ahead_line(day + more, far))
            # (where the first round had no request of the day, a quarter of an hour has to pass)
            for minutes in (16, 32, 180):
                clock.pass_to(DAY * (day + more) + 10_860 + 60 * minutes)
                asked(server, [wire.usage()] * 20)
                wait_until(lambda: len(forgotten_from(server)) >= len(nights))
            checks.equal(
                f"{what}, night {more + 1}: its reply, what is forgotten, and logged",
                (good, forgotten_from(server), warnings(server)),
                (True, nights, lines),
            )
            books = books.remembered(nights[-1])
        asked(server, [wire.usage()])
        server.process.kill()
        server.status()
    same_rows(checks, what, path, books)


def after_a_weekend(world, checks):
    """Nobody sent for two days. As somebody does, at eight, the days leave that had to wait, and
    nothing warns."""
    what, path, day = "after a weekend", f"{world.folder}/weekend", today()
    books = Books(0, DEFAULT)
    # (by the last of these days each is kept)
    frames = [request(number, day - 3 - number % (KEEP + 1)) for number in range(1, 40)]
    assert made_of(world, path, frames) == [books.serve(it) for it in frames]
    server, clock = by_clock(world, path, DAY * day + 3_600)
    with server:
        asked(server, [wire.usage()] * 3)
        for moment in (10_860, 11_760, 28_000):
            clock.pass_to(DAY * day + moment)
            asked(server, [wire.usage()] * 20)
        checks.equal(
            f"{what}: what is forgotten before eight, and logged",
            (forgotten_from(server), warnings(server)),
            ([], []),
        )
        first = request(900, day, host=b"mx2")
        came = all_asked(server, [first])
        clock.pass_to(DAY * day + 28_900)
        good = wait_until(lambda: asked(server, [wire.usage()]) and is_through(server))
        checks.equal(
            f"{what}: the first reply, what is forgotten then, and logged",
            (came, good, forgotten_from(server), warnings(server)),
            ([books.serve(first)], True, [day - KEEP], []),
        )
        for moment in (29_800, 36_000, 80_000):
            clock.pass_to(DAY * day + moment)
            asked(server, [wire.usage()] * 20)
        checks.equal(
            f"{what}: all that is forgotten that day, and logged",
            (forgotten_from(server), warnings(server)),
            ([day - KEEP], []),
        )
        server.process.kill()
        server.status()
    same_rows(checks, what, path, books.remembered(day - KEEP))


def stands_by(world, checks):
    """A server that grants nothing, since the address is at another one, forgets what `status
    --host` left there, night after night; and as it grants, what was granted before that."""
    what, path, day = "a server that stands by", f"{world.folder}/by", today()
    books, sent = Books(0, DEFAULT), itertools.count(1)

    def probe(of):
        number = next(sent)
        return wire.release(1, txn=2**32 - 1, at=DAY * of + number, host=b"mx1", run=number)

    # (so long ago it had the address last)
    frames = [request(number, day - 30, host=b"mx2") for number in range(1, 10)]
    frames += [probe(day - ago) for ago in range(9, -1, -1) for _ in range(3)]
    assert made_of(world, path, frames) == [books.serve(it) for it in frames]
    server, clock = by_clock(world, path, DAY * day + 36_000)
    with server:
        nights = []
        for more in range(3):
            frame = probe(day + more)
            good = wait_until(lambda: all_asked(server, [wire.usage()] * 2))
            clock.pass_to(DAY * (day + more) + 36_000)
            nights.append(day + more - KEEP)
            good = good and wait_until(
                lambda: asked(server, [wire.usage()]) and len(forgotten_from(server)) >= len(nights)
            )
            books = books.remembered(nights[-1])
            came = all_asked(server, [frame])
            checks.equal(
                f"{what}, day {more + 1}: its reply, what is forgotten, and logged",
                (good, came, forgotten_from(server), warnings(server)),
                (True, [books.serve(frame)], nights, []),
            )
            # (the first request of the next day, before its night)
            clock.pass_to(DAY * (day + more + 1) + 7_200)
            frame = probe(day + more + 1)
            assert all_asked(server, [frame]) == [books.serve(frame)]
        server.process.kill()
        server.status()
    checks.equal(f"{what}: answers that are left", len(books.answers) < 15, True)
    same_rows(checks, what, path, books)


def asked_about_a_host(world, checks):
    """What `status --host` leaves is of today: nothing is overdue by it at a start."""
    what, path = "a start after a question about a host", f"{world.folder}/asked-about"
    made_of(world, path, [request(1, today())])
    with nightly(world, path) as server:
        status, *_ = world.run("status", "--server", server.address, "--host", "mx1")
    with nightly(world, path) as server:
        asked(server, [wire.usage()] * 20)
        came = [it for it in server.all_log_lines() if "forgetting" in it]
    checks.equal(f"{what}: the status of that, and what is forgotten", (status, came), (0, []))


def no_new_file(world, checks):
    """A folder has the name of the new file: the server goes on, and days stay."""
    path = f"{world.folder}/none"
    books = filled(world, path)
    os.mkdir(f"{path}.part")
    with nightly(world, path) as server:
        frames = [request(number, today(), host=b"mx2") for number in range(1, 30)]
        checks.equal(
            "no new file: replies", asked(server, frames), [books.serve(it) for it in frames]
        )
        lines = [line for line in server.log_lines() if line.startswith(("[WARN", "[ERROR"))]
        is_folder = "Is a directory (os error 21)"
        left = f"[WARN  night] {path}.part, which a renewal left: {is_folder}"
        wanted = [
            left,
            of_store(f"{path}.part", is_folder).rstrip(),
            left,
            (
                f"[WARN  night] days before {first_day()} stay: no new store; next"
                " attempt in an hour"
            ),
        ]
        checks.equal("no new file: what is logged", lines, wanted)
    os.rmdir(f"{path}.part")
    same_rows(checks, "no new file", path, books)
    checks.equal("no new file: files", names(path), ["", "-wal"])
    os.mkdir(f"{path}.old")
    with nightly(world, path) as server:
        checks.equal(
            "no other name for the former file: replies",
            asked(server, frames),
            [books.serve(it) for it in frames],
        )
        lines = [line for line in server.log_lines() if line.startswith(("[WARN", "[ERROR"))]
        good = any(f"{path}.old: not a plain file" in line for line in lines) and any(
            "next attempt in an hour" in line for line in lines
        )
        checks.holds(
            "no other name for the former file: what is logged",
            good and len(lines) == 2,
            "why, and the next attempt",
            lines,
        )
    os.rmdir(f"{path}.old")
    checks.equal("no other name for the former file: files", names(path), ["", "-wal"])
    link = f"{world.folder}/link"
    os.symlink(path, link)
    with nightly(world, link) as server:
        checks.equal("a link: replies", asked(server, frames), [books.serve(it) for it in frames])
        lines = [line for line in server.log_lines() if line.startswith("[ERROR")]
        checks.holds(
            "a link: what is logged",
            len(lines) == 1 and f"{link}: not a plain file" in lines[0],
            "why",
            lines,
        )
    checks.equal("a link: files", (names(path), os.path.islink(link)), (["", "-wal"], True))


def warned_of(server):
    """What it warns of, and logs as errors, of its files."""
    return [line for line in server.log_lines() if line.startswith(("[WARN", "[ERROR"))]


def a_switch_that_fails(world, checks):
    """The new ledger's file or its log was removed by somebody, or a folder has the name that the
    former one gets: it is said which file and why, and the former ledger is served on. Where the
    switch has begun, as a folder has the new file's next name, the server ends. The former ledger
    is whole."""
    source = f"{world.folder}/to-be-switched"
    books = filled(world, source, MANY)
    for place, (what, change, undo, of, why, left) in enumerate(
        [
            (
                "a new file that was removed",
                lambda path: os.remove(f"{path}.part"),
                lambda path: None,
                ".part",
                "it was removed",
                None,
            ),
            (
                "a new ledger without its log",
                lambda path: os.remove(f"{path}.part-wal"),
                lambda path: None,
                ".part-wal",
                "it was removed",
                None,
            ),
            (
                "a folder in the former ledger's way",
                lambda path: os.mkdir(f"{path}.old"),
                lambda path: os.rmdir(f"{path}.old"),
                "",
                "Is a directory (os error 21)",
                None,
            ),
            (
                "a folder in the new ledger's way",
                lambda path: os.mkdir(f"{path}.next"),
                lambda path: os.rmdir(f"{path}.next"),
                ".part",
                "Is a directory (os error 21)",
                ["-wal", ".next", ".old", ".part", ".part-wal"],
            ),
        ]
    ):
        for go in range(GOES):
            path = copied(source, f"{world.folder}/switched{place}-{go}")
            with nightly(world, path) as server:
                wait_until(lambda path=path: has_begun(path))
                with server.stopped():
                    is_early = not is_switched(path)
                    if is_early:
                        change(path)
                # (what it logs as it is to end, it logs before)
                wait_until(
                    lambda server=server, left=left: server.process.poll() is not None
                    or is_through(server)
                    or not left
                    and warned_of(server)
                )
                came = [] if left else asked(server, [wire.page()])
                ended, lines = server.process.poll(), [
                    line for line in server.log_lines() if not line.startswith("[INFO")
                ]
            if is_early:
                break
        stays = f"[WARN  night] {path}{of}: {why}; the former ledger stays until the" " next night"
        wanted = (
            (True, 1, [of_store(f"{path}{of}", why).rstrip(), f"mailquota: {NOT_OPENED}"])
            if left
            else (True, None, [stays])
        )
        checks.equal(f"{what}: the status, and what is said", (is_early, ended, lines), wanted)
        checks.equal(f"{what}: it answers", len(came), 0 if left else 1)
        files = left or ["", "-wal", *([".old"] if of == "" else [])]
        checks.equal(f"{what}: files", names(path), files)
        undo(path)
        checks.equal(f"{what}: audit then", audit(world, path, default=DEFAULT), sound(books))
        same_rows(checks, what, path, books)


def catches_up(world, checks):
    """A peer has sent thousands of requests as a night begins: the new ledger takes over what comes
    meanwhile, too, and doesn't wait for its end."""
    what, path, day, count = "a night under load", f"{world.folder}/load", today(), 5_000
    # (nothing is due before it)
    books, before = Books(0, DEFAULT), about(day, 240)
    assert made_of(world, path, before) == [books.serve(it) for it in before]
    server, clock = by_clock(world, path, DAY * day + 7_200)
    frames = [request(number, day, host=b"mx9") for number in range(1, count + 1)]
    with server:
        asked(server, [wire.usage()] * 2)
        assert asked(server, [wire.page()]) == [books.serve(wire.page())]
        # (the peer comes as the night has begun, since an older connection would be late)
        with server.stopped():
            clock.pass_to(DAY * day + 10_830)
            peer = server.connect()
            # (these are there as it goes on, whenever the others are)
            peer.sendall(b"".join(frames[:100]))
            threading.Thread(
                target=sent_as_far_as_it_goes, args=(peer, b"".join(frames[100:])), daemon=True
            ).start()
            time.sleep(0.1)
        with peer, peer.makefile("rb") as back:
            came = list(iter(lambda: whole_reply(back), b""))
        good = wait_until(lambda: is_through(server))
    checks.equal(
        f"{what}: replies until it", came == [books.serve(it) for it in frames[: len(came)]], True
    )
    checks.holds(
        f"{what}: days are forgotten before all are answered",
        good and 0 < len(came) < count,
        f"fewer than {count:,} replies",
        len(came),
    )


def sent_as_far_as_it_goes(peer, text):
    with contextlib.suppress(OSError):
        peer.sendall(text)


# answers of a ledger that has thousands more than a night takes over at once
THOUSANDS = 12_000


def of_thousands(world, checks):
    """A ledger of thousands of answers, of which some are forgotten, is renewed."""
    what, path, books = (
        f"a night over {THOUSANDS:,} answers",
        f"{world.folder}/thousands",
        Books(0, DEFAULT),
    )
    for number in range(1, THOUSANDS + 1):
        books.apply(request(number, days_of(number))[2:])
    written(world, "thousands", *of_version(3, books))
    with nightly(world, path) as server:
        good = wait_until(lambda: is_through(server) or warned_of(server))
        checks.equal(
            f"{what}: days are forgotten, and what is logged", (good, warned_of(server)), (True, [])
        )
        # (it answers once the note is written)
        asked(server, [wire.page()])
        times = re.search(
            r"are forgotten, in (\d+) ms, the last (\d+) ms", "\n".join(server.all_log_lines())
        )
        took, last = map(int, times.groups()) if times else (0, 0)
    checks.holds(
        f"{what}: how long it took, and how long of that nobody was answered",
        took > last,
        "the longer time first",
        (took, last),
    )
    checks.equal(
        f"{what}: its note",
        line_of_note(path),
        f"forgot the days before {first_day()} on day {today()}, in {took} ms\n",
    )
    same_rows(checks, what, path, books.remembered(first_day()))


# the numbers of pwrite64(2), fsync(2), rename(2), unlink(2) and fchown(2)
WRITTEN, SYNCED, RENAMED, REMOVED, OWNED = 18, 74, 82, 87, 93


def on_the_disk_in_order(world, checks):
    """What a power cut leaves of a night says how far it came, since each name is on the disk
    before the next step: the folder is synced."""
    what, path, noted = "the files of a night", f"{world.folder}/ordered", Noted(world)
    filled(world, path)
    for it in (".part", ".part-wal", ".old-wal"):
        open(f"{path}{it}", "wb").close()
    with nightly(world, path, limit=noted.limit) as server:
        good = wait_until(lambda: is_through(server))
        server.process.kill()
        server.status()
    steps = [
        call.number
        for call in noted.calls()
        if call.number in (WRITTEN, SYNCED, RENAMED, REMOVED, OWNED) and call.result >= 0
    ]

    def are_synced(step):
        return [after == SYNCED for it, after in itertools.pairwise([*steps, None]) if it == step]

    # (the reserve is there already, so the first file that is made is the new one)
    came = {
        "days are forgotten": good,
        "the new file": are_synced(OWNED)[:1],
        "names that are given": are_synced(RENAMED),
        "files that are removed": are_synced(REMOVED),
    }
    wanted = {
        "days are forgotten": True,
        "the new file": [True],
        "names that are given": [True] * RENAMES,
        "files that are removed": [True] * 3,
    }
    checks.equal(f"{what}: those that are on the disk before the next step", came, wanted)


def beside_a_renewal(world, checks):
    """`status` is answered while days leave the ledger, and `audit` finds that it is served."""
    source = f"{world.folder}/to-be-beside-it"
    books = filled(world, source, MANY)
    for go in range(GOES):
        path = copied(source, f"{world.folder}/beside-it{go}")
        if asked_beside_it(world, checks, path, is_last=go == GOES - 1):
            break
    same_rows(checks, "after a renewal", path, books.remembered(first_day()))


def asked_beside_it(world, checks, path, is_last):
    """Whether both commands came before the switch. What they and the server said is checked where
    they did, or where it is the last go."""
    with nightly(world, path) as server:
        good = wait_until(lambda: has_begun(path))
        config = ledger_settings(world, path, default=DEFAULT, listen=server.address, timeout=LONG)
        came = [world.run(word, "--config", config) for word in ("status", "audit")]
        there = os.path.exists(f"{path}.part")
        is_early = not is_switched(path)
        if not is_early and not is_last:
            return False
        checks.equal(
            "a renewal: it goes on, and its file is there",
            (good, is_early, there),
            (True, True, True),
        )
        checks.equal("a renewal: status", came[0][0], 0)
        checks.equal("a renewal: audit", came[1], fault(NOT_OPENED, log=of_store(path, LOCKED)))
        checks.holds(
            "a renewal: then it is through",
            wait_until(lambda: is_through(server)),
            "a line of the log",
            server.log_lines()[-2:],
        )
        came = world.run("audit", "--config", config)
        checks.equal("after a renewal: audit", came, fault(NOT_OPENED, log=of_store(path, LOCKED)))
        took = [
            re.search(r"are forgotten, in (\d+) ms, the last (\d+) ms without an answer$", line)
            for line in server.all_log_lines()
            if "are forgotten" in line
        ]
        good = len(took) == 1 and took[0] and int(took[0][2]) < int(took[0][1])
        checks.holds(
            "after a renewal: how long it took, and how long without an answer",
            good,
            "a part of it",
            server.all_log_lines()[-2:],
        )
    return True


def notes_of_nights(world, checks):
    """The note of a night has today's number by the ledger's zone, where that isn't UTC's, and as
    long a time as the log. One that can't be written is logged, and so is a log that can't be
    removed, which would stand beside the former ledger."""
    # (twelve hours west and east have one midnight)
    wait_past_a_night(720)
    offset = 720 if int(time.time()) % DAY >= DAY // 2 else -720
    there = (int(time.time()) + 60 * offset) // DAY
    first = min((int(time.time()) + 60 * offset - 10_800) // DAY, there) - KEEP
    frames = [
        wire.reserve(
            number, txn=number, at=DAY * (there - number % 6) - 60 * offset + 1, host=b"mx1"
        )
        for number in range(1, 60)
    ]
    for what, is_folder in [
        ("a night's note by another zone", False),
        ("a night's note that can't be written", True),
    ]:
        path = f"{world.folder}/zone-{is_folder}"
        made_of(world, path, frames, offset=offset)
        if is_folder:
            os.mkdir(f"{path}.night")
            os.mkdir(f"{path}.old-wal")
        with nightly(world, path, offset=offset) as server:
            good = wait_until(lambda: is_through(server) and has_note(path))
            lines = server.all_log_lines()
            said = next(
                (
                    it
                    for line in lines
                    if (
                        it := re.search(
                            r"the days before (\d+) are forgotten, in (\d+ ms), the last \d+ ms",
                            line,
                        )
                    )
                ),
                None,
            )
            checks.holds(
                f"{what}: the log",
                good and said and int(said[1]) == first,
                f"the days before {first}",
                lines,
            )
            if is_folder:
                why = "Is a directory (os error 21)"
                wanted = [
                    f"[WARN  night] {path}.old-wal: {why}",
                    f"[WARN  night] {path}.night: {why}",
                ]
                checks.holds(
                    f"{what}: why",
                    wait_until(
                        lambda: [
                            line for line in server.all_log_lines() if line.startswith("[WARN")
                        ]
                        == wanted
                    ),
                    wanted,
                    server.all_log_lines()[-2:],
                )
            else:
                checks.equal(
                    f"{what}: what it says",
                    line_of_note(path),
                    (
                        f"forgot the days before {first} on day {there}, in"
                        f" {said[2] if said else 'N ms'}\n"
                    ),
                )


def a_note_of_the_small_hours(world, checks):
    """Days that are overdue leave at a start before 03:00, as of the night before. The note has the
    day's own number, as `mailquota day` does."""
    what, path, day = "a start at 01:00", f"{world.folder}/small-hours", today()
    made_of(world, path, [request(number, day - number % 6) for number in range(1, 20)])
    server, _ = by_clock(world, path, DAY * day + 3_600)
    with server:
        wait_until(lambda: has_note(path))
        checks.equal(f"{what}: what is forgotten", forgotten_from(server), [day - 1 - KEEP])
    said = line_of_note(path)
    begins = f"forgot the days before {day - 1 - KEEP} on day {day}, in "
    checks.holds(f"{what}: the note", said.startswith(begins), begins, said)


def tries_again_in_an_hour(world, checks):
    """A night for which there is no new file is tried again an hour later, and not before."""
    what, path, day = "no new file, at", f"{world.folder}/hourly", today()
    made_of(world, path, about(day, 20))
    os.mkdir(f"{path}.part")
    server, clock = by_clock(world, path, DAY * day + 3_600)
    with server:
        # (its first look is over then: one within which time passes would rest too long)
        asked(server, [wire.usage()] * 2)
        for hour, minute, wanted in [(2, 59, 0), (3, 1, 1), (3, 17, 1), (3, 59, 1), (4, 2, 2)]:
            clock.pass_to(DAY * day + 3_600 * hour + 60 * minute)
            # (it looks after each round of requests)
            asked(server, [wire.usage()] * 3)
            good = wait_until(lambda: len(warnings(server)) >= wanted)
            asked(server, [wire.usage()] * 20)
            line = (
                f"[WARN  night] days before {day - KEEP} stay: no new store; next"
                " attempt in an hour"
            )
            checks.equal(
                f"{what} {hour}:{minute:02}: what is logged",
                (good, warnings(server)),
                (True, [line] * wanted),
            )
        checks.equal(
            "no new file for two hours: all that is logged of nights, also at level info",
            [
                it
                for it in server.all_log_lines()
                # (but what the start says, and what is left in the way)
                if re.search(" night] (?!.*(has days from|which a renewal left))", it)
            ],
            [line] * 2,
        )
    checks.equal("no new file for two hours: files", names(path), ["", "-wal", ".part"])


def takes_its_own_time(world, checks):
    """A night that fails halfway, as its file can't grow, is tried again an hour later, and then
    takes the time of that attempt alone."""
    what, path, day = "a night that fails halfway", f"{world.folder}/halfway", today()
    made_of(world, path, about(day, FILLING))
    server, clock = by_clock(world, path, DAY * day + 3_600)
    with server:
        asked(server, [wire.usage()] * 2)
        # (enough for the tables of a new file, and not for all that stays)
        resource.prlimit(server.process.pid, resource.RLIMIT_FSIZE, (350_000, NO_LIMIT))
        clock.pass_to(DAY * day + 10_860)
        # (it looks after each round of requests)
        wait_until(lambda: asked(server, [wire.usage()]) and warnings(server))
        # (an answer: since it warned it has looked at its clock, from when on it is an hour)
        asked(server, [wire.usage()])
        resource.prlimit(server.process.pid, resource.RLIMIT_FSIZE, (NO_LIMIT, NO_LIMIT))
        clock.pass_to(DAY * day + 10_860 + 3_660)
        wait_until(lambda: asked(server, [wire.usage()]) and has_note(path))
        lines = [line for line in server.all_log_lines() if "days before" in line]
    begins = f"[INFO  night] forgetting the days before {day - KEEP}"
    stay = f"[WARN  night] days before {day - KEEP} stay, next attempt in an hour"
    ends = f"[INFO  night] ledger {path}: the days before {day - KEEP} are forgotten"
    said = [re.sub(r", in \d+ ms, .*", "", re.sub(": .*;", ",", line)) for line in lines]
    checks.equal(f"{what}: what is logged", said, [begins, stay, begins, ends])
    times = [int(it) for it in re.findall(r" (\d+) ms", lines[-1])]
    checks.holds(
        f"{what}: its time, and the part of it without an answer",
        len(times) == 2 and times[1] <= times[0] < 60_000,
        "less than a minute of the clock, and no more than that",
        times,
    )
    wanted = f"forgot the days before {day - KEEP} on day {day}, in {times[0]} ms\n"
    checks.equal(f"{what}: its note", line_of_note(path), wanted)
    checks.equal(f"{what}: files", names(path), NOTED)


def warns_once_over_a_night(world, checks):
    """What was warned of is warned of once, also where days were forgotten since."""
    what, path, day = (
        "a login that nears its limit before a night and after it",
        f"{world.folder}/once",
        today(),
    )
    made_of(world, path, about(day, 20))
    server, clock = by_clock(world, path, DAY * day + 3_600)
    with server:
        near = [
            wire.reserve(
                number, txn=number, login=b"near", count=count, at=DAY * day + 60, host=b"mx9"
            )
            for number, count in ((1, 800), (2, 1))
        ]
        asked(server, [*near[:1], wire.usage()])
        clock.pass_to(DAY * day + 10_860)
        asked(server, [wire.usage()] * 3)
        good = wait_until(lambda: is_through(server))
        came = asked(server, near[1:])
        lines = [
            line.partition(": login ")[2]
            for line in server.all_log_lines()
            if ": login near " in line
        ]
        wanted = f"near has used 800 of its limit of {DEFAULT} on day {day}"
        checks.equal(f"{what}: the log", (good, len(came), lines), (True, 1, [wanted]))


class Client(threading.Thread):
    """Asks one number after the other until nobody answers, each again until its reply was read. It
    keeps what it read, and what it asked last."""

    def __init__(self, server):
        super().__init__(daemon=True)
        self.server, self.read, self.last = server, [], None

    def run(self):
        for number in range(2_000, 100_000):
            self.last = request(number, today() - number % 2, host=b"mx4")
            while not (came := asked(self.server, [self.last])):
                if self.server.process.poll() is not None:
                    return
            self.read.append((self.last, came[0]))


def killed_at_a_rename(world, checks):
    """The server is killed as it is about to rename a file, each time with another one."""
    if not shutil.which("strace"):
        checks.skip("killed at a rename", "there is no strace here")
        return
    for place in range(1, RENAMES + 1):
        what, path = f"killed before rename {place}", f"{world.folder}/rename{place}"
        filled(world, path)
        with nightly(
            world, path, limit=("strace", f"rename,renameat,renameat2:signal=KILL:when={place}")
        ) as server:
            client = Client(server)
            client.start()
            try:
                server.status()
            finally:
                server.process.kill()
            client.join(timeout=SECONDS)
        left = names(path)
        with nightly(world, path) as server:
            frames = [frame for frame, _ in client.read]
            checks.equal(
                f"{what}: each reply again, with {' '.join(left)} there",
                all_asked(server, frames),
                [reply for _, reply in client.read],
            )
            good = place > 2 or wait_until(lambda: is_through(server) and has_note(path))
            checks.equal(
                f"{what}: then days are forgotten, and again",
                (good, asked(server, frames)),
                (True, [reply for _, reply in client.read]),
            )
        checks.equal(f"{what}: files then", names(path), NOTED if place <= 2 else SWITCHED)
        checks.equal(f"{what}: audit", audit(world, path, default=DEFAULT)[0], 0)


def is_renewed(server):
    """Whether days were forgotten, by this server or by one before it."""
    begun = f"has days from {first_day()} on"
    return is_through(server) or any(begun in line for line in server.all_log_lines())


def changes_of_a_night(world, source):
    """How many calls change files from a server's start to its night's end, while a client asks."""
    noted = Noted(world)
    path = copied(source, f"{world.folder}/counted-night")
    with nightly(world, path, limit=noted.limit) as server:
        client = Client(server)
        client.start()
        assert wait_until(lambda: is_through(server)), server.all_log_lines()
        server.process.kill()
        server.status()
        client.join(timeout=SECONDS)
    return sum(call.number in CHANGES for call in noted.calls())


def killed_at_a_change(world, checks, kills=KILLS):
    """The server is killed as it is about to write or cut a file, to rename or to remove one: at so
    many of these calls, or at each."""
    source = f"{world.folder}/to-be-killed"
    books = filled(world, source)
    count = changes_of_a_night(world, source)
    places = range(count) if kills is None else {count * kill // kills for kill in range(kills)}
    left = collections.Counter(
        killed_at(world, checks, source, books, place) for place in sorted(places)
    )
    what = f"killed at {len(places)} of {count} changes of files: what was left"
    checks.holds(what, len(left) > 1, "files of several steps", sorted(left.items()))


def killed_at(world, checks, source, books, place):
    """The files that a server leaves which is killed at the change after so many. The next one
    answers as if nothing had been."""
    what, path = f"killed at change {place}", f"{world.folder}/killed{place}"
    books = copy.deepcopy(books)
    limit = "killed", ",".join(map(str, [*CHANGES, place]))
    with nightly(world, copied(source, path), limit=limit) as server:
        client = Client(server)
        client.start()
        # (where it made fewer changes this time, it is killed after its night)
        wait_until(
            lambda: server.process.poll() is not None or is_through(server) and client.read[20:]
        )
        server.process.kill()
        server.status()
        client.join(timeout=SECONDS)
    left = " ".join(names(path))
    frames = [frame for frame, _ in client.read] + [client.last]
    wanted = [books.serve(frame) for frame in frames]
    with nightly(world, path) as server:
        came = all_asked(server, frames)
        good = wait_until(lambda: is_renewed(server))
        found = [reply for _, reply in client.read], came, good, asked(server, frames)
        checks.equal(
            f"{what}, with {left} there: replies, those then, and once days are forgotten",
            found,
            (wanted[:-1], wanted, True, wanted),
        )
        server.process.kill()
        server.status()
    same_rows(checks, what, path, books.remembered(first_day()))
    checks.equal(f"{what}: audit", audit(world, path, default=DEFAULT)[0], 0)
    return left


# ---- by a clock that is set


def by_clock(world, path, moment, **more):
    """A server whose clock shows this moment, and the clock."""
    ahead = int(moment - time.time())
    server = nightly(world, path, limit=clocks.limit(ahead), **more)
    return server, clocks.Clock(server.process.pid, ahead)


def days_in(books):
    """The days on which transactions began."""
    return [day for _, _, day, *_ in books.transactions.values()]


def newest_until(books, last):
    """The newest day up to this one on which a transaction began."""
    return max((it for it in days_in(books) if it <= last), default=None)


def due(books, night, seen):
    """The first day that is kept, as a night begins, where there is one before it. The days before
    one that was seen last don't leave again."""
    newest = newest_until(books, night + 1)
    if newest is None:
        return None
    first = min(night, newest) - KEEP
    is_new = seen[-1:] != [first]
    seen.append(first)
    return first if is_new and min(days_in(books)) < first else None


def forgotten_from(server):
    """The days before which was forgotten, night after night."""
    lines = [line for line in server.all_log_lines() if "are forgotten" in line]
    return [int(line.partition("the days before ")[2].split()[0]) for line in lines]


def warnings(server):
    """Its warnings of nights, but for those of a file, whose path they begin with."""
    return [line for line in server.log_lines() if re.match(r"\[WARN  night\] (?!/)", line)]


def wrong_clocks(world, checks):
    """Before a night the server's clock jumps ten years back, back again, and ten years ahead: it
    forgets nothing, and then no more than is due by the newest day, and each request is answered as
    before. Then the night is as ever."""
    what, path, day = "a clock that jumps", f"{world.folder}/jumps", today()
    books, sent, newest, nights = Books(0, DEFAULT), itertools.count(1), day, []

    def ask(of, clock_shows):
        new, day_asked = request(next(sent), of, host=b"mx5"), day - KEEP - 1
        frames = [new, wire.usage(b"u1", day_asked), wire.page(b"", day_asked)]
        wanted = [books.serve(it) for it in frames]
        checks.equal(
            f"{what}: replies as it shows {clock_shows}", all_asked(server, frames), wanted
        )

    frames = about(day, 80)
    assert made_of(world, path, frames) == [books.serve(it) for it in frames]
    server, clock = by_clock(world, path, DAY * day + 3_600)
    with server:
        ask(day, "the right day")
        for years, words in ((-10, "nothing is forgotten: "), (10, None)):
            before, there = len(warnings(server)), DAY * (day + 365 * years) + 43_200
            clock.jump_to(there)
            for hour in range(1, 4):
                clock.pass_to(there + 3_600 * hour)
                asked(server, [wire.usage()] * 20)
                if years > 0:
                    wait_until(lambda: asked(server, [wire.usage()]) and is_through(server))
                    books, nights = books.remembered(newest - KEEP), [newest - KEEP]
                ask(day, f"{years} years more")
            wanted = [ahead_line(day + 365 * years, newest, words)] if words else []
            checks.equal(
                f"{what} by {years} years: what is logged, and forgotten",
                (warnings(server)[before:], forgotten_from(server)),
                (wanted, nights),
            )
            clock.jump_to(DAY * day + 7_200)
            ask(day, "the right day again")
        clock.pass_to(DAY * day + 10_860)
        ask(day, "03:01")
        for minutes in (16, 32):
            clock.pass_to(DAY * day + 10_860 + 60 * minutes)
            asked(server, [wire.usage()] * 20)
        checks.equal(
            f"{what}: what is forgotten in the night", forgotten_from(server), [newest - KEEP]
        )
        clock.pass_to(DAY * (day + 1) + 10_860)
        ask(day + 1, "the next night")
        clock.pass_to(DAY * (day + 1) + 11_760)
        wanted = [newest - KEEP, day + 1 - KEEP]
        good = wait_until(
            lambda: asked(server, [wire.usage()]) and forgotten_from(server) == wanted
        )
        checks.equal(f"{what}: the next night is as ever", good, True)
        books = books.remembered(day + 1 - KEEP)
        ask(day + 1, "the next night, and days are forgotten")
        server.process.kill()
        server.status()
    same_rows(checks, what, path, books)


def a_clock_that_was_ahead(world, checks):
    """The server's clock, and a host's, were a day ahead over 03:00. As they are set right, that
    night has still to come, and so has the next one."""
    what, path, day = "a clock that was a day ahead", f"{world.folder}/was", today()
    # (nothing is due before the first of these nights)
    books, frames = Books(0, DEFAULT), [
        request(number, day + 1 - number % (KEEP + 2)) for number in range(1, 40)
    ]
    assert made_of(world, path, frames) == [books.serve(it) for it in frames]
    server, clock = by_clock(world, path, DAY * (day + 1) + 3_600)
    with server:
        nights = []
        asked(server, [wire.usage()] * 2)
        for shown, jumps in ((day + 1, False), (day, True), (day + 1, False)):
            late = request(100 + len(nights), shown - KEEP - 2, host=b"mx6")
            good = all_asked(server, [late]) == [books.serve(late)]
            (clock.jump_to if jumps else clock.pass_to)(DAY * shown + 10_860)
            # (a clock that is put back leaves the time until it looks again)
            clock.pass_to(DAY * shown + 14_460)
            nights.append(shown - KEEP)
            good = good and wait_until(
                lambda: asked(server, [wire.usage()]) and len(forgotten_from(server)) >= len(nights)
            )
            books = books.remembered(shown - KEEP)
            checks.equal(
                f"{what}, as it shows day {shown - day}: what is forgotten, and logged",
                (good, forgotten_from(server), warnings(server)),
                (True, nights, []),
            )
        server.process.kill()
        server.status()
    same_rows(checks, what, path, books)


def at_other_times(world, checks):
    """Days leave after 2038 too, and in the last year of all. Where the clock shows no moment of a
    ledger, that is warned of, at once and an hour later, and nothing leaves."""
    for day in (40_000, 376_100):
        what, path = f"a night of day {day}", f"{world.folder}/late{day}"
        made_of(world, path, about(day, 20))
        server, _ = by_clock(world, path, DAY * day + 14_400)
        with server:
            wait_until(lambda: warnings(server) or has_note(path))
            checks.equal(
                f"{what}: what is forgotten, and warned of",
                (forgotten_from(server), warnings(server)),
                ([day - KEEP], []),
            )
        said = line_of_note(path)
        begins = f"forgot the days before {day - KEEP} on day {day}, in "
        checks.holds(f"{what}: the note", said.startswith(begins), begins, said)
    line = "[WARN  night] days to be forgotten: no clock; next attempt in an hour"
    for what, moment in [("1970-01-01", 3_600), ("the year 3000", 32_503_683_600)]:
        path = f"{world.folder}/no clock{moment}"
        made_of(world, path, [request(number, 10 + number % 6) for number in range(1, 20)])
        server, clock = by_clock(world, path, moment)
        with server:
            for minutes, wanted in [(0, 1), (59, 1), (75, 2)]:
                clock.pass_to(moment + 60 * minutes)
                # (it looks after each round of requests)
                asked(server, [wire.usage()] * 20)
                checks.equal(
                    f"a clock of {what}, after {minutes} minutes: what is logged",
                    (warnings(server), forgotten_from(server)),
                    ([line] * wanted, []),
                )


# ---- two hosts over ten nights

NIGHTS, MAIL_LOGINS, LIMIT_OF_A_LOGIN = 10, 5, 6


class Mail:
    """What one host's filter is told of one message, and what it answers."""

    def __init__(self, host, at, login, place):
        self.host, self.at, self.login = host, at, login
        self.session, self.message = b"%016x" % place, b"%08x" % place
        self.granted = 0
        host.login(at, self.session, login)
        host.begin(at, self.session, self.message)

    def recipient(self, used, at):
        """Its answer, and the one that it has by what the login used on the day on which the
        message began."""
        key = self.login, self.at // DAY
        is_granted = used[key] < LIMIT_OF_A_LOGIN
        used[key] += is_granted
        self.granted += is_granted
        wanted = result(PROCEED if is_granted else LIMIT, self.session)
        return self.host.recipient(at, self.session), wanted

    def end(self, used, at, is_committed):
        if is_committed:
            self.host.commit(at, self.session, self.message)
        else:
            self.host.report(at, b"tx-rollback", self.session, self.message)
            self.host.report(at, b"tx-reset", self.session, self.message)
            used[self.login, self.at // DAY] -= self.granted
        return self.host.is_done()


def ten_nights(world, checks):
    """Messages of two hosts, of which some are open while a day is forgotten, get the answers that
    they get without nights."""
    what, path, first = "two hosts over ten nights", f"{world.folder}/ten", today()
    dice, used, pairs, places = random.Random(10), collections.Counter(), [], itertools.count(1)
    new = {"words": ["--create"], "default": LIMIT_OF_A_LOGIN}
    server, clock = by_clock(world, path, DAY * first + 7_200, **new)

    def mail():
        login = b"u%d" % dice.randrange(MAIL_LOGINS)
        return Mail(dice.choice(hosts), int(clock.now()), login, next(places))

    def recipients(mails, count=1):
        return [it.recipient(used, int(clock.now())) for it in mails for _ in range(count)]

    def ended(mails):
        return [it.end(used, int(clock.now()), dice.random() < 0.5) for it in mails]

    with server:
        hosts, wanted = [Smtpd(world, name, server.address) for name in ("mx1", "mx2")], []
        for day in range(first, first + NIGHTS):
            clock.pass_to(DAY * day + 7_200)
            over_night = [mail() for _ in range(4)]
            pairs += recipients(over_night, 2)
            clock.pass_to(DAY * day + 10_830)
            wanted += [day - KEEP] if day - first > KEEP else []
            pairs += recipients(over_night)
            while len(forgotten_from(server)) < len(wanted) and server.process.poll() is None:
                meanwhile = [mail()]
                pairs += recipients(meanwhile, dice.randint(1, 3))
                ended(meanwhile)
            pairs += recipients(over_night)
            place = f"day {day - first + 1}"
            checks.equal(f"{what}: closings on {place}", ended(over_night), [True] * 4)
        checks.equal(f"{what}: what is forgotten", forgotten_from(server), wanted)
        others = [pair for pair in pairs if pair[0] != pair[1]]
        checks.equal(f"{what}: those of {len(pairs)} answers that are others", others, [])
        days = range(day - KEEP, day + 1)
        keys = [(b"u%d" % login, it) for login in range(MAIL_LOGINS) for it in days]
        replies = asked(server, itertools.starmap(wire.usage, keys))
        came = [int.from_bytes(it[-12:-8], "big") for it in replies]
        checks.equal(f"{what}: what is used at last", came, [used[it] for it in keys])
        checks.equal(f"{what}: the filters' ends", [it.end()[:2] for it in hosts], [(0, b"")] * 2)
    checks.equal(f"{what}: audit", audit(world, path, default=LIMIT_OF_A_LOGIN)[0], 0)


# ---- random histories

HISTORIES, NIGHTS_OF_A_HISTORY = 6, 3


class Days:
    """Moments about a day that passes, as tests/model/random_inputs.py has them."""

    def __init__(self, day):
        self.days = range(day - 5, day + 2)

    def moment(self, dice):
        return DAY * dice.choice(self.days) + dice.choice([0, 3_600, DAY - 1])


def random_histories(world, checks, seeds=range(HISTORIES)):
    """Nights at random places of random requests, which go on meanwhile, compared with books that
    forget at once."""
    wrong, forgotten, answered = [], 0, 0
    for seed in seeds:
        path = f"{world.folder}/random{seed}"
        books, differs, nights = random_history(world, path, random.Random(seed))
        rows = rows_in(path, books.rows())
        differs += [table for table, wanted in books.rows().items() if rows[table] != wanted]
        if audit(world, path, default=DEFAULT)[0] or differs:
            wrong.append((seed, differs[:2]))
        forgotten, answered = forgotten + len(nights), answered + len(books.answers)
    what, good = "random histories", forgotten > len(seeds) and answered > 20 * len(seeds)
    checks.equal(f"{len(seeds)} {what}: those whose replies, nights or rows differ", wrong, [])
    checks.holds(f"{what}: nights, and answers at last", good, "many", (forgotten, answered))


def random_history(world, path, dice):
    """The books at last, what differs from them, and how often days were forgotten."""
    day, books, differs, nights, seen = today(), Books(0, DEFAULT), [], [], []
    asked_before, sequence = [], itertools.count(1)
    server, clock = by_clock(world, path, DAY * day + 36_000, words=["--create"])

    def frame(about):
        if asked_before and dice.random() < 0.2:
            return dice.choice(asked_before)
        asked_before.append(wire.frame(body(dice, next(sequence), Days(about))))
        return asked_before[-1]

    with server:
        for _ in range(NIGHTS_OF_A_HISTORY):
            frames = [frame(day) for _ in range(dice.randint(0, 150))]
            pairs = zip(frames, asked(server, frames), strict=True)
            differs += [it for it, reply in pairs if reply != books.serve(it)]
            day += dice.choice([1, 1, 1, 2])
            moment = DAY * day + 10_800 + dice.randrange(60_000)
            books, others = pass_night(server, clock, moment, frame, books, nights, seen, dice)
            differs += others
        if forgotten_from(server) != nights:
            differs.append((forgotten_from(server), nights))
        server.process.kill()
        server.status()
    return books, differs, nights


def pass_night(server, clock, moment, frame, books, nights, seen, dice):
    """Lets time pass to a night. Where days are due it asks until the switch closes the connection,
    and asks again what that cut off. Gives the books then, and what differs from them, and notes
    the days from which on was kept. What it asks is of no later day than the ledger goes by, since
    earlier ones would be due then."""
    differs, it, first, is_night, night = [], wire.usage(), None, False, moment // DAY
    newest = newest_until(books, night + 1)
    about = night if newest is None or newest >= night else newest - 1
    while len(forgotten_from(server)) == len(nights):
        with server.connect() as peer, peer.makefile("rb") as back:
            # (once this is answered, it is one of the former ledger's, or the night is over)
            reply = exchanged(peer, back, wire.usage())
            if not is_night:
                clock.pass_to(moment)
                first, is_night = due(books, night, seen), True
            while reply and len(forgotten_from(server)) == len(nights):
                if not (reply := exchanged(peer, back, it)):
                    break
                if reply != books.serve(it):
                    differs.append(it)
                if not first:
                    return books, differs
                time.sleep(dice.choice([0, 0, 0, 0.02 * dice.random()]))
                it = frame(about)
    nights.append(first)
    books = books.remembered(first)
    if asked(server, [it]) != [books.serve(it)]:
        differs.append(it)
    return books, differs


def exchanged(peer, back, frame):
    """The reply to a frame, where the whole of it comes."""
    try:
        peer.sendall(frame)
    except OSError:
        return b""
    return whole_reply(back)


# ---- full disks

# bytes of a server's reserve, and of the margin above it that has to be free
RESERVE, MARGIN = 4 << 20, 1 << 20
# bytes that a disk has beyond a ledger, its log, the reserve and the margin, where days are to be
# forgotten: too few to make a new file, too few for all of it, and enough
ROOMS = [
    10_000,
    100_000,
    200_000,
    270_000,
    300_000,
    350_000,
    400_000,
    450_000,
    2 * 10**6,
    6 * 10**6,
]
# bytes that a disk still has as it fills before a night: too few to make a new file, and too few
# for all of it beside the margin
TOO_FEW, TOO_FEW_FOR_ALL = [0, 10_000, 100_000, 200_000], [300_000, 600_000, 1_000_000]
# reserves of a ledger whose log has the size that it keeps
FILLING = 300


def on_full_disks(world, checks):
    """The disk has no room for a new file, or for a part: days stay, and the server goes on."""
    if not can_mount(world, checks, "a night on full disks"):
        return
    # (so the requests that come meanwhile need no room)
    source = f"{world.folder}/roomy"
    books = filled(world, source, FILLING)
    ends = [on_a_full_disk(world, checks, source, books, room) for room in ROOMS]
    good = 0 < sum(ends) < len(ends)
    checks.holds("nights on full disks: which forgot days", good, "some, and not all", ends)


def stay_line(day, why):
    """What is logged where the days before one stay."""
    return f"[WARN  night] days before {day} stay: {why}; next attempt in an hour"


def on_a_full_disk(world, checks, source, books, room):
    """Whether days are forgotten where a disk has so many bytes beyond the ledger."""
    size = os.path.getsize(source) + os.path.getsize(f"{source}-wal")
    what, books = f"a disk with room for {room:,} bytes", copy.deepcopy(books)
    with Disk(world, size + RESERVE + MARGIN + room) as disk:
        path = copied(source, f"{disk.folder}/ledger")
        with nightly(world, path) as server:
            sent, came = [], []
            while not is_through(server) and not warnings(server) and server.process.poll() is None:
                sent.append(request(10_000 + len(sent), today(), host=b"mx6"))
                came += all_asked(server, sent[-1:])
            # (a line that says why days stay is written before the new file is removed)
            last = [request(90_000 + number, today(), host=b"mx6") for number in range(20)]
            came += all_asked(server, last)
            ended, is_forgotten = server.process.poll(), is_through(server)
            lines = warned_of(server)
            server.process.kill()
            server.status()
        checks.equal(f"{what}: it goes on", ended, None)
        checks.equal(f"{what}: replies", came, [books.serve(frame) for frame in sent + last])
        # (the margin is looked for after each piece of the new file, which takes less)
        checks.equal(
            f"{what}: what is warned of",
            lines,
            [] if is_forgotten else [stay_line(first_day(), "too little room on the disk")],
        )
        checks.equal(
            f"{what}: files",
            [it for it in names(path) if it != ".night"],
            SWITCHED if is_forgotten else ["", "-wal"],
        )
        kept = copied(path, f"{world.folder}/of-disk{room}")
    same_rows(checks, what, kept, books.remembered(first_day()) if is_forgotten else books)
    return is_forgotten


def as_disks_fill(world, checks):
    """A disk fills just before a night, so that there is less than the margin for a new file: days
    stay, the reserve is given up for the requests, and an hour later, with room again, days
    leave."""
    if not can_mount(world, checks, "a night as a disk fills"):
        return
    source, day = f"{world.folder}/to-be-full", today()
    books, frames = Books(0, DEFAULT), about(day, FILLING)
    assert made_of(world, source, frames) == [books.serve(it) for it in frames]
    for room in TOO_FEW + TOO_FEW_FOR_ALL:
        as_a_disk_fills(world, checks, source, copy.deepcopy(books), day, room)


def as_a_disk_fills(world, checks, source, books, day, room):
    what = f"a night on a disk that has filled but for {room:,} bytes"
    with Disk(world, 16 << 20) as disk:
        path = copied(source, f"{disk.folder}/ledger")
        server, clock = by_clock(world, path, DAY * day + 3_600)
        with server:
            asked(server, [wire.usage()] * 3)
            # (it doesn't look after its disk between these)
            with server.stopped():
                disk.fill(room)
                clock.pass_to(DAY * day + 10_860)
            reserve = f"{path}.ballast"
            good = wait_until(lambda: asked(server, [wire.usage()]) and not os.path.exists(reserve))
            frames = [request(10_000 + number, day, host=b"mx6") for number in range(20)]
            wanted = [books.serve(it) for it in frames]
            checks.equal(f"{what}: replies", (good, asked(server, frames)), (True, wanted))
            lines = warned_of(server)
            whys = (
                [
                    of_store(f"{path}.part", "database or disk is full").rstrip(),
                    stay_line(day - KEEP, "no new store"),
                ]
                if room in TOO_FEW
                else [stay_line(day - KEEP, "too little room on the disk")]
            )
            given_up = (
                f"[WARN  disk] {reserve} is given up: No space left on device (os"
                " error 28); make room"
            )
            checks.equal(f"{what}: what is warned of", lines, [*whys, given_up])
            checks.equal(f"{what}: files", names(path), ["", "-wal"])
            os.remove(f"{disk.folder}/filler")
            clock.pass_to(DAY * day + 10_860 + 3_660)
            good = wait_until(lambda: asked(server, [wire.usage()]) and is_through(server))
            checks.equal(
                f"{what}, and room again: what is forgotten an hour later",
                (good, forgotten_from(server), warned_of(server)[len(lines) :]),
                (True, [day - KEEP], []),
            )
            server.process.kill()
            server.status()
        kept = copied(path, f"{world.folder}/of-filled{room}")
    same_rows(checks, what, kept, books.remembered(day - KEEP))


# ---- a host whose clock is slow


def a_slow_host(world, checks):
    """A host whose clock is five days slow asks all the time: days are forgotten once a night."""
    what, path = "a host that is five days slow", f"{world.folder}/slow"
    filled(world, path)
    with nightly(world, path) as server:
        clients = [SlowClient(server, name) for name in (b"mx7", b"mx8")]
        for it in clients:
            it.start()
        good = wait_until(lambda: is_through(server))
        for it in clients:
            before = it.read
            good = good and wait_until(lambda: it.read > before + 50)
        nights = forgotten_from(server)
        for it in clients:
            it.is_over = True
            it.join(timeout=SECONDS)
    came, wanted = (good, nights), (True, [first_day()])
    checks.equal(f"{what}: it is answered, and what is forgotten", came, wanted)


class SlowClient(threading.Thread):
    """Reserves for a day that is over, one request after the other, each on a connection."""

    def __init__(self, server, host):
        super().__init__(daemon=True)
        self.server, self.host, self.read, self.is_over = server, host, 0, False

    def run(self):
        for number in itertools.count(1):
            if self.is_over:
                return
            self.read += len(asked(self.server, [request(number, today() - 5, host=self.host)]))
