"""What stands below and around the server fails: a disk that is full, files that can't be written,
are cut short or have other bytes, memory that isn't there, and peers by the hundred.

Whatever fails, no reply goes out that isn't stored, the server ends with status 1 and a text of its
own, or goes on, and no signal ends it.
"""
import collections
import itertools
import os
import random
import re
import resource
import signal
import sqlite3
import subprocess
import time

import wire
from cases.damage import WRONG_PAGES
from cases.filters import INPUT, PROCEED, REGISTRATION, SERVICE, answer
from ends import LONG, SECONDS, Server, apart, copied, fault, of_store, read_all
from wire import BAD, RETRY, granted, page, reserve, usage

DEFAULT = 1_000_000
# frames that are sent on one connection
FRAMES = 200
# how many bytes are changed, each in a file of its own
PLACES = 100
# how many bytes a full disk has that the file may still take
LEFT = 131_072
REFUSAL = re.compile(
    r"mailquota: (store can't be opened|store is not this ledger|store has another"
    r" (zone|default)|store failed|out of memory"
    r"|store is damaged: login ([!-\[\]-~]|\\x[0-9a-f]{2})* day -?[0-9]+)\n"
)


def is_refusal(text):
    """Whether a server that doesn't open its store, or ends by it, says this."""
    return REFUSAL.fullmatch(text) is not None


def run(world, checks):
    full_disks(world, checks)
    too_small_a_disk(world, checks)
    a_disk_that_is_read_only(world, checks)
    a_file_that_becomes_read_only(world, checks)
    damaged_files(world, checks)
    other_databases(world, checks)
    refused_memory(world, checks)
    hundreds_of_peers(world, checks)


class Disk:
    """A small file system in memory, at a folder of its own."""

    def __init__(self, world, size):
        self.folder = f"{world.folder}/disk{next(world.numbers)}"
        self.size = size

    def __enter__(self):
        os.mkdir(self.folder)
        subprocess.run(
            ["mount", "-t", "tmpfs", "-o", f"size={self.size}", "none", self.folder], check=True
        )
        return self

    def __exit__(self, *_):
        subprocess.run(["umount", self.folder], check=True)
        os.rmdir(self.folder)

    def remount(self, options):
        subprocess.run(["mount", "-o", f"remount,{options}", self.folder], check=True)

    def fill(self, left):
        """Takes all of its room but so many bytes."""
        room = os.statvfs(self.folder)
        with open(f"{self.folder}/filler", "wb") as file:
            file.write(bytes(room.f_bavail * room.f_frsize - left))


def can_mount(world, checks, what):
    """Whether this process may mount a file system; says so where it may not."""
    try:
        with Disk(world, "16k"):
            return True
    except (OSError, subprocess.CalledProcessError):
        checks.skip(what, "no file system can be mounted here")
        return False


class Asked:
    """Reserves in order, one after the other, and the replies that were read."""

    def __init__(self):
        self.replies = []

    def request(self, number):
        return reserve(number, txn=1 + number // 10, login=b"u%02d" % (number // 10 % 50))

    def ask_on(self, server, most):
        """Asks for new numbers, until there are so many replies or no more come."""
        while len(self.replies) < most:
            first = len(self.replies) + 1
            came = replies_of(
                server,
                [self.request(number) for number in range(first, min(first + FRAMES, most + 1))],
            )
            self.replies += came
            if not came:
                return

    def again(self, server):
        """What comes back for the numbers whose replies were read."""
        came = []
        for first in range(0, len(self.replies), FRAMES):
            numbers = range(first + 1, min(first + FRAMES, len(self.replies)) + 1)
            came += replies_of(server, [self.request(number) for number in numbers])
        return came

    def total(self, server):
        """The recipients that the server counts for all logins."""
        return sum(
            int.from_bytes(shown[-8:-4], "big")
            for shown in replies_of(server, [usage(login=b"u%02d" % n) for n in range(50)])
        )


def replies_of(server, frames):
    """The whole replies that come for these on one connection."""
    try:
        came = server.ask(b"".join(frames))
    except OSError:
        return []
    replies = []
    while len(came) >= 2 and len(came) >= 2 + int.from_bytes(came[:2], "big"):
        size = 2 + int.from_bytes(came[:2], "big")
        replies.append(came[:size])
        came = came[size:]
    return replies


def how_it_ended(server):
    """The status of a server that ended, and what it printed after its log."""
    return server.status(), apart("".join(f"{line}\n" for line in server.log_lines()))[1]


def ends_by_itself(server, seconds=SECONDS):
    try:
        server.process.wait(timeout=seconds)
        return True
    except subprocess.TimeoutExpired:
        return False


def same_answers(checks, what, server, asked):
    """The server still answers what was read, and counts what was granted."""
    again = asked.again(server)
    checks.holds(
        f"{what}: the answers that were read",
        again == asked.replies,
        f"all {len(asked.replies)} as before",
        f"{len(again)} replies",
    )
    total = asked.total(server)
    good = total - len(asked.replies) in range(FRAMES)
    checks.holds(
        f"{what}: recipients that are counted",
        good,
        "those granted, and at most what was on its way",
        (total, len(asked.replies)),
    )


def full_disks(world, checks):
    """The log fills a small disk, beside the reserve; a larger one is full when the file has to
    grow."""
    if not can_mount(world, checks, "a disk that is full"):
        return
    for size, larger, is_of_log in [("6m", "16m", True), ("11m", "40m", False)]:
        with Disk(world, size) as disk:
            a_full_disk(world, checks, disk, larger, is_of_log)


def log_that_is_long_enough(server, path, asked, disk):
    """Asks until the log was written into the file, and begins anew, and leaves the file little
    room; gives the log's size."""
    first = os.path.getsize(path)
    while os.path.getsize(path) == first and server.process.poll() is None:
        asked.ask_on(server, len(asked.replies) + FRAMES)
    disk.fill(LEFT)
    return os.path.getsize(f"{path}-wal")


def a_full_disk(world, checks, disk, larger, is_of_log):
    what, path, asked = f"a disk of {disk.size} that is full", f"{disk.folder}/ledger", Asked()
    with Server(world, words=["--create"], store=path, default=DEFAULT) as server:
        size = None if is_of_log else log_that_is_long_enough(server, path, asked, disk)
        asked.ask_on(server, 100_000)
        if size:
            more = os.path.getsize(f"{path}-wal") - size
            checks.holds(
                f"{what}: it isn't the log that has no room",
                more <= LEFT // 2,
                f"at most {LEFT // 2} bytes more of it",
                more,
            )
        checks.equal(
            f"{what}: status and text", how_it_ended(server), (1, "mailquota: store failed\n")
        )
        # (one that takes longer than 5 s to fill its disk gives its reserve up, and then asks for
        # room each minute)
        log = server.log_lines()[:-1]
        given_up, asks = (
            f"[WARN  disk] {path}{it}: No space left on device (os error 28); make" " room"
            for it in (".ballast is given up", "")
        )
        told = log[:-2]
        good = len(log) >= 2 and told == [given_up, *[asks] * len(told)][: len(told)]
        cause = f"[ERROR ledger] {path}: database or disk is full"
        checks.holds(
            f"{what}: the log",
            good
            and log[-2].startswith("[ERROR")
            and "store failed" in log[-2]
            and log[-1] == cause,
            "the connection, and the path with the cause, after what is told of its room",
            log,
        )
        came = world.filter(server.address, INPUT)[:2]
        checks.equal(f"{what}: a filter then", came, (0, REGISTRATION + answer(SERVICE)))
    checks.holds(
        f"{what}: replies before it was",
        len(asked.replies) > 20,
        "more than 20",
        len(asked.replies),
    )
    status, _, errors = world.run("server", "--config", world.new_file(settings_of(path)))
    log, text = apart(errors)
    checks.holds(
        f"{what}, and a new start: it ends before it reads the ledger",
        (status, text, len(log)) == (1, "mailquota: store can't be opened\n", 1)
        and f" {path}.ballast: No space left on device (os error 28); " in log[0],
        "status 1, a text, and the reserve with the cause",
        (status, errors),
    )
    disk.remount(f"size={larger}")
    with Server(world, store=path, default=DEFAULT) as server:
        same_answers(checks, f"{what}, and room again", server, asked)
        asked.ask_on(server, len(asked.replies) + 50)
        checks.equal(
            f"{what}, and room again: new answers", ends_by_itself(server, seconds=0), False
        )


def too_small_a_disk(world, checks):
    """Not even the tables have room, for which a server has no reserve then; once there is some,
    they are made."""
    if not can_mount(world, checks, "a disk without room for the tables"):
        return
    for size in ("4k", "16k", "40k", "64k", "100k"):
        with Disk(world, size) as disk:
            path = f"{disk.folder}/ledger"
            status, _, errors = world.run("init", "--config", world.new_file(settings_of(path)))
            log, text = apart(errors)
            checks.equal(
                f"init on a disk of {size}",
                (status, text, len(log)),
                (1, "mailquota: store can't be opened\n", 1),
            )
            checks.holds(
                f"init on a disk of {size}: the log",
                f"{path}: database or disk is full" in log[0],
                "the path and the cause",
                log,
            )
            disk.remount("size=8m")
            with Server(world, words=["--create"], store=path) as server:
                checks.equal(
                    f"--create on a disk of {size}, and room again",
                    server.ask(reserve(1)),
                    granted(1, 1),
                )


def a_disk_that_is_read_only(world, checks):
    if not can_mount(world, checks, "a disk that is read-only"):
        return
    with Disk(world, "8m") as disk:
        path, asked = f"{disk.folder}/ledger", Asked()
        with Server(world, words=["--create"], store=path, default=DEFAULT) as server:
            asked.ask_on(server, 100)
        disk.remount("ro")
        with Server(world, store=path, default=DEFAULT) as server:
            checks.equal(
                "a disk that is read-only: status and text",
                how_it_ended(server),
                (1, "mailquota: store can't be opened\n"),
            )
            log = server.log_lines()[:-1]
            checks.holds(
                "a disk that is read-only: the log",
                len(log) == 1 and f"{path}: " in log[0],
                "one line with the path",
                log,
            )
        disk.remount("rw")
        with Server(world, store=path, default=DEFAULT) as server:
            same_answers(checks, "a disk that can be written again", server, asked)


def a_file_that_becomes_read_only(world, checks):
    """Writing to it fails at once, while the server has it open."""
    path, asked = f"{world.folder}/becomes", Asked()
    with Server(world, words=["--create"], store=path, default=DEFAULT) as server:
        asked.ask_on(server, 50)
        files = [path, f"{path}-wal"]
        try:
            subprocess.run(["chattr", "+i", *files], check=True, stderr=subprocess.DEVNULL)
        except (OSError, subprocess.CalledProcessError):
            checks.skip("a file that becomes read-only", "no file can be made immutable here")
            return
        try:
            asked.ask_on(server, 60)
            checks.equal(
                "a file that becomes read-only: status and text",
                how_it_ended(server),
                (1, "mailquota: store failed\n"),
            )
            came = world.run("server", "--config", world.new_file(settings_of(path)))
            wanted = fault(
                "store can't be opened", log=of_store(path, "unable to open database file")
            )
            checks.equal("a file that is read-only: status and text", came, wanted)
        finally:
            subprocess.run(["chattr", "-i", *files], check=True)
    checks.equal("a file that becomes read-only: replies before", len(asked.replies), 50)
    with Server(world, store=path, default=DEFAULT) as server:
        same_answers(checks, "a file that can be written again", server, asked)


def settings_of(path):
    return f'listen = "127.0.0.1:0"\nstore = "{path}"\ndefault = {DEFAULT}\noffset = 0\n'


def damaged_files(world, checks):
    """Files that are cut short, and files with one other byte: as a server left them that ended,
    and one that was killed."""
    source = random.Random(19)
    for title, whole in [
        ("an ended server", left_by_an_ended_server(world)),
        ("a killed server", left_by_a_killed_server(world)),
    ]:
        tried = cuts(whole, source) + changed_bytes(whole, source)
        outcomes, faults = collections.Counter(), []
        for what, change, end in tried:
            outcome, fault = a_damaged_file(world, whole, change, end)
            outcomes[outcome] += 1
            if fault:
                faults.append(f"{what}: {fault}")
        checks.equal(
            (
                f"{len(tried)} damaged files of {title}: signals, unknown texts, answers that"
                " weren't stored"
            ),
            faults,
            [],
        )
        checks.holds(
            f"damaged files of {title}: what came of them",
            len(outcomes) > 1,
            "several ways",
            outcomes,
        )
        print(
            "    "
            + ", ".join(f"{count} times {outcome}" for outcome, count in sorted(outcomes.items())),
            flush=True,
        )


def left_by_a_killed_server(world):
    """A file with answers in it, and a log with later ones."""
    path, asked = f"{world.folder}/killed", Asked()
    with Server(world, words=["--create"], store=path, default=DEFAULT) as server:
        asked.ask_on(server, 1_000)
        server.process.send_signal(signal.SIGKILL)
        server.status()
    return path


def left_by_an_ended_server(world):
    """A file with all answers in it, and an empty log."""
    path, asked = f"{world.folder}/ended", Asked()
    with Server(
        world, words=["--create"], store=path, default=DEFAULT, connections=1_000 // FRAMES
    ) as server:
        asked.ask_on(server, 1_000)
        server.status()
    return path


def cuts(whole, source):
    """Files and logs that are cut, at their ends, inside their first pages, and anywhere."""
    size, log = os.path.getsize(whole), os.path.getsize(f"{whole}-wal")
    places = [
        0,
        1,
        15,
        16,
        99,
        100,
        511,
        4_095,
        4_096,
        size - 1,
        size - 4_096,
        *(source.randrange(size) for _ in range(10)),
    ]
    of_log = sorted({0, 1, 31, 32, 33, log // 2, log - 1})
    return [(f"the file cut after {place} bytes", cut(place), "") for place in places] + [
        (f"the log cut after {place} bytes", cut(place), "-wal") for place in of_log
    ]


def changed_bytes(whole, source):
    """A hundred places, most of them in the file, and some of those in its first page."""
    size, log = os.path.getsize(whole), os.path.getsize(f"{whole}-wal")
    tried = []
    for _ in range(PLACES):
        end, most = source.choice([("", size), ("", size), ("-wal", log)])
        place = source.randrange(most if source.random() < 0.8 else min(most, 4_096))
        tried.append(
            (
                f"byte {place} of {'the log' if end else 'the file'} changed",
                flip(place, source.randrange(1, 256)),
                end,
            )
        )
    return tried


def cut(place):
    return lambda content: content[:place]


def flip(place, bits):
    return lambda content: content[:place] + bytes([content[place] ^ bits]) + content[place + 1 :]


def a_damaged_file(world, whole, change, end):
    """What came of a copy that was changed, and what is wrong with that, if anything is."""
    path = copied(whole, f"{world.folder}/damaged")
    with open(path + end, "rb") as file:
        content = file.read()
    with open(path + end, "wb") as file:
        file.write(change(content))
    frames = [reserve(number, host=b"new") for number in range(1, 6)] + [
        Asked().request(number) for number in (1, 500, 1_000)
    ]
    outcomes, first = asked_over(world, path, frames + [page(), usage(login=b"u00")])
    if first is None:
        return outcomes, wrong_end(outcomes)
    again, second = asked_over(world, path, frames)
    changed = [one.hex() for one, other in zip(first, second or first) if one != other]
    return outcomes, wrong_end(outcomes) or wrong_end(again) or (
        f"then another answer: {changed}" if changed else None
    )


def asked_over(world, path, frames):
    """How a server over this file ends or goes on, and the replies to numbered requests, where it
    took any."""
    with Server(world, store=path, default=DEFAULT) as server:
        replies = replies_of(server, frames)
        if len(replies) == len(frames):
            server.process.send_signal(signal.SIGKILL)
            server.status()
            return "it serves", replies
        if not ends_by_itself(server, seconds=5):
            return f"it goes on after {len(replies)} replies", replies
        status, text = how_it_ended(server)
        return f"status {status}, {text.strip()}", replies if replies else None


def wrong_end(outcome):
    status, _, text = outcome.partition(", ")
    return (
        None
        if outcome == "it serves" or status == "status 1" and is_refusal(f"{text}\n")
        else outcome
    )


def other_databases(world, checks):
    """Databases that are none of ours, and one with tables of our names."""
    texts = {
        "an empty database": [],
        "another application's tables": ["CREATE TABLE t (a)", "INSERT INTO t VALUES (1)"],
        "a table named answer": ["CREATE TABLE answer (a)"],
        "five tables of our names": [
            f"CREATE TABLE {name} (a)"
            for name in ("setting", "answer", "trans", "usage", "ceiling")
        ],
        "views of our names": [
            f"CREATE VIEW {name} AS SELECT 1"
            for name in ("setting", "answer", "trans", "usage", "ceiling")
        ],
    }
    for place, (what, statements) in enumerate(texts.items()):
        path = f"{world.folder}/other{place}"
        with sqlite3.connect(path) as database:
            for statement in ["CREATE TABLE gone (a)", "DROP TABLE gone", *statements]:
                database.execute(statement)
        database.close()
        status, output, errors = world.run("server", "--config", world.new_file(settings_of(path)))
        checks.holds(
            f"{what}",
            (status, output) == (1, b"") and is_refusal(apart(errors)[1]),
            "status 1 and a text",
            (status, output, errors),
        )
    path = f"{world.folder}/noise"
    with open(path, "wb") as file:
        file.write(b"SQLite format 3\0" + random.Random(3).randbytes(20_000))
    came = world.run("server", "--config", world.new_file(settings_of(path)))
    wanted = [fault("store can't be opened", log=of_store(path, cause)) for cause in WRONG_PAGES]
    checks.holds(
        "noise behind a database's first bytes",
        came in wanted,
        "refused, with the path and what is wrong with it",
        came,
    )


def refused_memory(world, checks):
    """A server that gets no more memory asks for another try, and goes on as before once it gets
    some."""
    what = "a server that gets no more memory"
    with Server(world, default=DEFAULT) as server:
        asked = Asked()
        asked.ask_on(server, 400)
        with open(f"/proc/{server.process.pid}/statm") as sizes:
            has = int(sizes.read().split()[0]) * resource.getpagesize()
        resource.prlimit(server.process.pid, resource.RLIMIT_AS, (has, resource.RLIM_INFINITY))
        retried = 0
        while not retried and len(asked.replies) < 20_000:
            came = replies_of(
                server,
                [asked.request(len(asked.replies) + place) for place in range(1, FRAMES + 1)],
            )
            asked.replies += itertools.takewhile(lambda reply: reply != RETRY, came)
            retried = came.count(RETRY)
        checks.holds(f"{what}: requests that are to be sent again", retried > 0, "some", retried)
        # (what it asks for may fit where a longer list did not)
        came = world.filter(server.address, INPUT)[:2]
        answered = came in [(0, REGISTRATION + answer(result)) for result in (SERVICE, PROCEED)]
        checks.holds(f"{what}: a filter", answered, "answered once", came)
        resource.prlimit(
            server.process.pid, resource.RLIMIT_AS, (resource.RLIM_INFINITY, resource.RLIM_INFINITY)
        )
        same_answers(checks, f"{what}, and then some", server, asked)
        came = world.filter(server.address, INPUT)[:2]
        checks.equal(f"{what}, and then some: a filter", came, (0, REGISTRATION + answer(PROCEED)))


def hundreds_of_peers(world, checks):
    """500 peers at once that send nothing, half a frame or junk, and a filter that is answered
    between them."""
    with Server(world, timeout=60_000, default=DEFAULT) as server:
        sent = [
            b"",
            reserve(1)[:9],
            usage() + reserve(1)[:9],
            b"\xff" * 300,
            b"GET / HTTP/1.1\r\n\r\n",
        ]
        peers, replies, came, slowest = [], [], [], 0
        for place in range(500):
            peer = server.connect()
            peer.sendall(sent[place % len(sent)])
            if place % len(sent) == 2:
                replies.append(peer.recv(65_536))
            peers.append(peer)
            if place % 100 == 99:
                start = time.monotonic()
                came.append(world.filter(server.address, INPUT))
                slowest = max(slowest, time.monotonic() - start)
        checks.equal(
            "a filter between 500 peers that send nothing, half a frame or junk",
            came,
            [(0, REGISTRATION + answer(PROCEED), "")] * 5,
        )
        good = slowest < LONG / 2_000
        checks.holds(
            "a filter between 500 such peers: how long the slowest took",
            good,
            "below 30 s, half a timeout",
            f"{slowest:.2f} s",
        )
        junk = [read_all(peer) for place, peer in enumerate(peers) if place % len(sent) > 2]
        checks.equal("peers that send junk among them: their replies", junk, [BAD] * 200)
        for peer in peers:
            peer.close()
        nothing_used = wire.frame(
            b"\x8b" + wire.text(b"u") + b"".join(map(wire.number, (1, 0, 0, DEFAULT)))
        )
        checks.equal(
            "peers that send a whole frame before half a one: their replies",
            replies,
            [nothing_used] * 100,
        )
        checks.equal("once they all went: the next connection", server.ask(usage()), nothing_used)
        lines = [line for line in server.log_lines() if "bad frame" in line or "cut frame" in line]
        checks.equal(
            "500 such peers: lines of the log", (len(lines), len(server.log_lines())), (400, 400)
        )
