"""Tens of thousands of answers in one ledger, over tables in memory and over a file, all given up
at last; of connections of one server; days of one login."""
import contextlib
import os
import signal
import socket
import subprocess
import threading
import time

import wire
from books import Books
from cases.accepting import waits
from cases.forgetting import forget, kept
from cases.limits import limits, printed
from cases.setting_up import of_file
from ends import (
    SECONDS,
    Server,
    begun,
    ledger_settings,
    nobody_there,
    processor_time,
    read_to_end,
    send_no_more,
    time_of_start,
    wait_until,
    without_time,
)
from rows import same_rows

MANY = 70_000
# answers about which one is asked for again, for a conflict and for what is used
PLACES = [
    1_000,
    4_096,
    9_999,
    10_000,
    10_001,
    16_384,
    20_000,
    20_001,
    32_768,
    50_000,
    65_535,
    65_536,
    65_537,
    MANY,
]
# limits of a ledger, one of each login
LIMITS = 5_000
# for so many milliseconds a start is stopped
HELD_UP = 1_500
# requests of a connection, of at most 10,000
PORTION = 5_000
DEFAULT = 1_000_000


def run(world, checks):
    many_answers(world, checks, "tables in memory", "memory")
    many_answers(world, checks, "a file", f"{world.folder}/many")
    many_limits(world, checks)
    a_long_list(world, checks)
    many_days(world, checks)
    many_connections(world, checks)


def request(number):
    """Five numbers a mail: three reserves, a settle or a release, and a limit; 50 logins, ten
    days."""
    mail, part = divmod(number, 5)
    its = {"txn": mail + 1, "login": b"%02d" % (mail % 50), "at": 86_400 * (1 + mail % 10)}
    if part == 3:
        return wire.settle(number, count=2, **its) if mail % 3 else wire.release(number, **its)
    if part == 4:
        return wire.limit(number, 5, 900_000 + mail, login=its["login"])
    return wire.reserve(number, count=part + 1, **its)


def ask(server, sent):
    """All replies to what is sent, which is read while it is sent."""
    with server.connect() as peer:

        def send():
            peer.sendall(sent)
            send_no_more(peer)

        sending = threading.Thread(target=send, daemon=True)
        sending.start()
        came = read_to_end(peer)
        sending.join()
    return came


def outcome(server, sent):
    try:
        return ask(server, sent)
    except OSError as error:
        return repr(error)


def many_answers(world, checks, what, store):
    books, settings = Books(0, DEFAULT), {"store": store, "default": DEFAULT}
    frames = [request(number) for number in range(1, MANY + 1)]
    with Server(world, words=["--create"], **settings) as server:
        for first in range(0, MANY, PORTION):
            sent = b"".join(frames[first : first + PORTION])
            checks.equal(
                f"{what}: answers {first + 1:,} to {first + PORTION:,}",
                outcome(server, sent),
                books.serve(sent),
            )
        again(checks, what, server, books, frames)
        if store == "memory":
            given_up(checks, what, server, books, frames)
            return
    with Server(world, **settings) as server:
        again(checks, f"{what} opened again", server, books, frames)
        checks.equal(
            f"{what} opened again: one more",
            outcome(server, request(MANY + 1)),
            books.serve(request(MANY + 1)),
        )
    same_rows(checks, what, store, books)
    with Server(world, **settings) as server:
        given_up(checks, what, server, books, frames)
    same_rows(checks, f"{what}, all given up", store, books)
    came = world.run("audit", "--config", ledger_settings(world, store, default=DEFAULT))
    checks.equal(
        f"{what}: audit",
        came,
        (0, f"sound days={len(books.usage)} transactions={len(books.transactions)}\n".encode(), ""),
    )
    read_by_commands(world, checks, what, store, books)
    print(
        (
            f"    {MANY:,} answers, {len(books.transactions):,} transactions,"
            f" {sum(map(len, books.limits.values())):,} limits"
        ),
        flush=True,
    )


def read_by_commands(world, checks, what, path, books):
    """What the commands say that open the file."""
    settings, answers = {"default": books.default}, len(books.answers)
    counted = f"answers={answers} days={len(books.usage)} transactions={len(books.transactions)} limits={sum(map(len, books.limits.values()))}"
    with nobody_there() as address:
        came = world.run(
            "status", "--config", ledger_settings(world, path, listen=address, **settings)
        )
    checks.equal(
        f"{what}: status",
        came,
        of_file(path, address, f"default {books.default}, offset 0", counted, answers),
    )
    checks.equal(f"{what}: limits", limits(world, path, **settings), printed(books))
    came = forget(world, path, 2, f"{path}.new", **settings)
    checks.equal(f"{what}: forget", came, kept(books, books.remembered(2)))


def many_limits(world, checks):
    """A limit of each of 5,000 logins: the commands read them all, and a server's start counts
    them."""
    path, books = f"{world.folder}/limits", Books(0, DEFAULT)
    sent = b"".join(wire.limit(n, 1, n, login=b"%04d" % n) for n in range(1, LIMITS + 1))
    with Server(world, words=["--create"], store=path, default=DEFAULT) as server:
        checks.equal(f"{LIMITS:,} limits", outcome(server, sent), books.serve(sent))
    start = time.monotonic()
    with Server(world, store=path, default=DEFAULT, log="info") as server:
        server.ask(wire.usage())
        waited = 1_000 * (time.monotonic() - start)
        wanted, lines = (
            begun(path, default=DEFAULT, answers=LIMITS, limits=LIMITS),
            server.log_lines(),
        )
        checks.equal(f"{LIMITS:,} limits: a server's start", without_time(lines)[0], wanted)
        took = time_of_start(lines)
        checks.holds(
            f"{LIMITS:,} limits: how long the start took",
            0 < took <= waited,
            f"at most {waited:.0f} ms",
            took,
        )
    a_start_that_is_held_up(world, checks, path)
    came = world.run("audit", "--config", ledger_settings(world, path, default=DEFAULT))
    checks.equal(f"{LIMITS:,} limits: audit", came, (0, b"sound days=0 transactions=0\n", ""))
    read_by_commands(world, checks, f"{LIMITS:,} limits", path, books)


def a_start_that_is_held_up(world, checks, path):
    """Once it has opened its file it is stopped for a while: its line has that time too, and
    whatever it takes until that line is there. Mostly it isn't at that line yet, and five times are
    enough."""
    config, came = (
        ledger_settings(world, path, default=DEFAULT, log="info", listen="127.0.0.1:0"),
        [],
    )
    for _ in range(5):
        log, start = world.new_file(""), time.monotonic()
        with open(log, "wb") as file, subprocess.Popen(
            [world.program, "server", "--config", config],
            stdin=subprocess.DEVNULL,
            stdout=file,
            stderr=file,
        ) as process:
            wait_until(
                lambda process=process: has_open(process, path) or process.poll() is not None
            )
            process.send_signal(signal.SIGSTOP)
            stopped = time.monotonic()
            time.sleep(HELD_UP / 1_000)
            process.send_signal(signal.SIGCONT)
            wait_until(lambda process=process, log=log: said_in(log) or process.poll() is not None)
            seen = time.monotonic()
            process.terminate()
        # (that the line is there may be seen a little later)
        came.append((900 * (seen - stopped), said_in(log), 1_000 * (seen - start)))
        if came[-1][0] <= came[-1][1] <= came[-1][2]:
            break
    least, said, most = came[-1]
    checks.holds(
        f"{LIMITS:,} limits, and a start that is held up: how long it took",
        least <= said <= most,
        f"{least:.0f} to {most:.0f} ms",
        came,
    )


def said_in(log):
    """How many milliseconds a start took by this log; 0 where that isn't there yet."""
    with open(log, encoding="ascii") as lines:
        return time_of_start(lines.read().splitlines() or [""])


def has_open(process, path):
    """Whether a process has the file at a path open."""
    folder = f"/proc/{process.pid}/fd"
    with contextlib.suppress(OSError):
        return any(os.readlink(f"{folder}/{name}") == path for name in os.listdir(folder))
    return False


def again(checks, what, server, books, frames):
    for place in PLACES:
        frame = frames[place - 1]
        sent = (
            frame
            + frame[:-1]
            + bytes([frame[-1] ^ 1])
            + wire.usage(b"%02d" % (place % 50))
            + wire.page(day=1 + place % 10)
        )
        checks.equal(
            f"{what}: the answer {place:,} again, and another request under its number",
            outcome(server, sent),
            books.serve(sent),
        )


def given_up(checks, what, server, books, frames):
    """One retire of the run of all answers."""
    sent = wire.retire(1, run=2)
    checks.equal(
        f"{what}: a retire of the run of all answers", outcome(server, sent), books.serve(sent)
    )
    again(checks, f"{what}, all given up", server, books, frames)


def a_long_list(world, checks):
    """More answers than a connection has, of a few for each login, since a list is gone through for
    each; then all are given up."""
    frames = [wire.reserve(n, txn=n, login=b"%d" % (n // 3)) for n in range(1, 10_101)]
    given_up = wire.retire(1, run=2) + wire.usage(b"3333") + frames[9_999]
    sent = [
        b"".join(frames[:9_000]),
        b"".join(frames[9_000:] + frames[9_990:10_010]) + wire.usage(b"3333") + given_up,
    ]
    for words in ([], ["--sql"]):
        books = Books(0, DEFAULT)
        printed = "".join(f"{books.serve(it).hex()}\n" for it in sent)
        came = world.run(
            "replay",
            "--default",
            str(DEFAULT),
            *words,
            text="\n\n".join(it.hex() for it in sent).encode(),
        )
        checks.equal(
            " ".join(["10,100 answers, and a retire of all: replay", *words]),
            came,
            (0, printed.encode(), ""),
        )


def many_days(world, checks):
    """One login on 2,000 days: a limit looks at all of them for the least day on which more was
    used."""
    days = 2_000
    reserves = [
        wire.reserve(n, txn=n, at=86_400 * (3 * n), count=1 + n % 2) for n in range(1, days + 1)
    ]
    limits = [
        wire.limit(days + n, day, cap)
        for n, (day, cap) in enumerate(
            [(0, 1), (0, 2), (2_999, 1), (5_997, 0), (0, 0), (6_001, 0), (0, 3)], 1
        )
    ]
    asked = [wire.usage(day=day) for day in (0, 3, 3_000, 6_000, 6_001)]
    sent = b"".join(reserves + limits + asked + limits)
    for words in ([], ["--sql"]):
        came = world.run("replay", "--default", "5", *words, text=sent.hex().encode())
        checks.equal(
            " ".join([f"a login of {days:,} days: replay", *words]),
            came,
            (0, Books(0, 5).serve(sent).hex().encode() + b"\n", ""),
        )
    path, books = f"{world.folder}/days", Books(0, 5)
    with Server(world, words=["--create"], store=path, default=5) as server:
        checks.equal(f"a login of {days:,} days, a file", outcome(server, sent), books.serve(sent))
    with Server(world, store=path, default=5) as server:
        checks.equal(
            f"a login of {days:,} days, the file opened again",
            outcome(server, sent),
            books.serve(sent),
        )


def many_connections(world, checks):
    """70,000 connections of one server, one after the other."""
    with Server(world) as server:
        wanted, good, worked = Books().serve(wire.usage()), 0, [processor_time(server.process)]
        # (an address has some 28,000 ports, each of which rests for a minute)
        while good < MANY and asked_from(f"127.0.1.{1 + good // 10_000}", server.port) == wanted:
            good += 1
            if good % PORTION == 0:
                worked.append(processor_time(server.process))
        checks.equal("connections of a server that are answered", good, MANY)
        took = [after - before for before, after in zip(worked, worked[1:])]
        for place in (20_000, MANY - PORTION):
            came = took[place // PORTION : place // PORTION + 1]
            is_steady = bool(came) and came[0] < 2 * took[0] + 0.3
            checks.holds(
                f"a processor's time of {PORTION:,} connections after {place:,} others",
                is_steady,
                "hardly more than of the first ones",
                (took[0], came),
            )
        waits(checks, f"a server that had {MANY:,} connections", server.process)
    print(f"    {MANY:,} connections of a server", flush=True)


def asked_from(address, port):
    """What comes back for a question from this address of the loopback, or why nothing does."""
    try:
        with socket.create_connection(
            ("127.0.0.1", port), timeout=SECONDS, source_address=(address, 0)
        ) as peer:
            peer.sendall(wire.usage())
            send_no_more(peer)
            return read_to_end(peer)
    except OSError as error:
        return repr(error)
