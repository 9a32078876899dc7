"""Requests that came on several connections before the server looked at any: those of transactions
are taken together, with one sync of the ledger's file for all of them. Each is answered as if it
had come alone, and where the server ends in between, the file has all of them or none."""
import contextlib
import errno
import os
import random
import resource
import signal

import wire
from books import Books
from cases.costs import FILE_WRITES, SYNCS, Noted, after_first_accept, at_most, count
from cases.failures import how_it_ended
from cases.full_disks import FULL
from cases.nights import DEFAULT as NIGHTLY
from cases.nights import MANY, all_asked, filled, has_begun, is_through, nightly, today
from ends import (
    Server,
    apart,
    copied,
    ledger_settings,
    of_store,
    read_all,
    reset,
    send_no_more,
    wait_past_a_night,
    wait_until,
)
from rows import rows_in, same_rows

DEFAULT = 1_000_000
UNLIMITED = ("RLIMIT_FSIZE", resource.RLIM_INFINITY)
# bytes by which a log may still grow
ROOMS = [0, 1, 4_095, 4_096, 8_240, 12_360, 20_000, 40_000, 80_000, 160_000]
# calls of the system by their numbers on x86-64
WRITE, SYNC = 18, 75
# a block of a server's reserve, and how many a start writes, with the margin above it
BLOCK, BLOCKS = 65_536, 80
# the most that are taken together
MOST = 64
# the most rounds beside a night
ROUNDS = 40


def run(world, checks):
    one_sync(world, checks)
    rounds_of_any_size(world, checks)
    beside_other_requests(world, checks)
    several_of_a_peer(world, checks)
    peers_that_close(world, checks)
    for room in ROOMS:
        no_room(world, checks, room)
    a_sync_that_fails(world, checks)
    killed_at_each_call(world, checks)
    # (days leave the ledger by the clock)
    wait_past_a_night()
    beside_a_night(world, checks)


@contextlib.contextmanager
def asking(server, frames):
    """A peer for each of these, all of which are there before the server looks at any. The server
    goes on once the block is left."""
    with contextlib.ExitStack() as open_peers, server.stopped():
        peers = []
        for it in frames:
            peers.append(server.connect())
            open_peers.callback(peers[-1].close)
            peers[-1].sendall(it)
        yield peers
        open_peers.pop_all()


def replies_to(server, frames):
    """What comes back to each of these, sent at once, each on a connection of its own."""
    with asking(server, frames) as peers:
        for peer in peers:
            send_no_more(peer)
    replies = [read_all(peer) for peer in peers]
    for peer in peers:
        peer.close()
    return replies


def reserves(numbers, **more):
    """A reserve for each of these numbers, each of a host and a login of its own."""
    return [
        wire.reserve(n, txn=n, login=b"u%d" % n, host=b"mx%d" % (n % MOST), **more) for n in numbers
    ]


def one_sync(world, checks):
    """What four, sixteen and 64 hosts ask at once is synced once."""
    for hosts in (4, 16, MOST):
        path, noted = f"{world.folder}/sync{hosts}", Noted(world)
        frames, books = reserves(range(1, hosts + 1)), Books(0, DEFAULT)
        with Server(
            world,
            words=["--create"],
            connections=hosts,
            store=path,
            default=DEFAULT,
            limit=noted.limit,
        ) as server:
            came = replies_to(server, frames)
            checks.equal(
                f"{hosts} hosts at once: replies, and the end",
                (came, server.status()),
                ([books.serve(it) for it in frames], 0),
            )
        calls = after_first_accept(noted.calls())
        at_most(checks, f"{hosts} hosts at once: syncs", count(calls, SYNCS), 3)
        checks.holds(
            f"{hosts} hosts at once: their rows are written",
            count(calls, FILE_WRITES) > 0,
            "writes",
            count(calls, FILE_WRITES),
        )
        same_rows(checks, f"{hosts} hosts at once", path, books)


def rounds_of_any_size(world, checks):
    """Random requests of transactions in rounds of 1 to 64, in which logins, transactions and
    numbers come again: each is answered after those that came before it."""
    path, chance, books, sent = f"{world.folder}/rounds", random.Random(74), Books(0, 40), []
    with Server(world, words=["--create"], store=path, default=40) as server:
        for size in [1, 2, 3, 4, 5, 8, 13, 21, 34, 55, MOST - 1, MOST, MOST]:
            frames = []
            for _ in range(size):
                sender = {
                    "txn": chance.randint(1, 30),
                    "login": b"u%d" % chance.randint(1, 5),
                    "host": b"mx%d" % chance.randint(1, 3),
                }
                number = chance.randint(1, 400)
                kind = chance.choice([wire.reserve, wire.reserve, wire.settle, wire.release])
                if kind is not wire.release:
                    sender["count"] = chance.randint(1, 3)
                again = sent and chance.random() < 0.1
                frames.append(chance.choice(sent) if again else kind(number, **sender))
            sent += frames
            checks.equal(
                f"a round of {size} random requests",
                replies_to(server, frames),
                [books.serve(it) for it in frames],
            )
    same_rows(checks, "after rounds of random requests", path, books)


def beside_other_requests(world, checks):
    """A limit, a retire, questions and what is no request come in one round with reserves: each is
    answered for itself."""
    path, books = f"{world.folder}/beside", Books(0, 3)
    first = reserves(range(1, 9), count=1)
    others = [
        wire.limit(1, 1, 5, login=b"u1", host=b"admin"),
        wire.retire(1, run=7, host=b"old"),
        wire.usage(b"somebody"),
        wire.page(day=7),
    ]
    with Server(world, words=["--create"], store=path, default=3) as server:
        frames = [it for pair in zip(first, [*others, *others]) for it in pair]
        bad = [first[0][:-1] + b"\x00", b"\x00\x00", wire.frame(b"\xff")]
        came = replies_to(server, [*frames, *bad])
        for it in [*first, *others]:
            books.serve(it)
        checks.equal(
            "reserves beside a limit, a retire, questions and what is no request",
            came,
            [books.serve(it) for it in frames] + [wire.BAD] * len(bad),
        )
    same_rows(checks, "reserves beside other requests", path, books)


def several_of_a_peer(world, checks):
    """Peers that send several at once, and halves: all whole ones are answered, in their order."""
    path, books = f"{world.folder}/several", Books(0, DEFAULT)
    whole = [reserves(range(1 + 10 * n, 6 + 10 * n)) for n in range(8)]
    sent = [b"".join(it) + reserves([900 + n])[0][:20] for n, it in enumerate(whole)]
    with Server(world, words=["--create"], store=path, default=DEFAULT) as server:
        came = replies_to(server, sent)
        wanted = [b"".join(books.serve(it) for it in frames) for frames in whole]
        checks.equal("several requests and a half of each peer", came, wanted)
    books = Books(0, DEFAULT)
    for it in [frames[0] for frames in whole] + [it for frames in whole for it in frames[1:]]:
        books.serve(it)
    same_rows(checks, "several requests of each peer", path, books)


def peers_that_close(world, checks):
    """Some peers are gone before their round begins, by an end or a reset: the others are answered,
    and whoever asks again gets the reply of the number."""
    path, books = f"{world.folder}/gone", Books(0, DEFAULT)
    frames = reserves(range(1, 31))
    with Server(world, words=["--create"], store=path, default=DEFAULT) as server:
        with asking(server, frames) as peers:
            for place, peer in enumerate(peers):
                if place % 3 == 1:
                    reset(peer)
                elif place % 3 == 2:
                    peer.close()
                else:
                    send_no_more(peer)
        stayed = [read_all(peer) for peer in peers[::3]]
        wanted = [books.serve(it) for it in frames]
        checks.equal("peers that are gone: the replies of the others", stayed, wanted[::3])
        checks.equal(
            "peers that are gone: each number asked again", replies_to(server, frames), wanted
        )


def ended_by_store(checks, what, server, path):
    """The server has ended by its store: its text, and as the last line of its log the file with
    what the system said, and not that the store is closed since."""
    checks.equal(f"{what}: status and text", how_it_ended(server), (1, "mailquota: store failed\n"))
    log = apart("".join(f"{line}\n" for line in server.log_lines()))[0]
    checks.holds(
        f"{what}: the log's last line",
        log[-1:] in [[of_store(path, it)] for it in FULL],
        "the path with the cause",
        log,
    )


def asked_again(world, checks, what, path, first, frames, came):
    """Over the file that such a server left: none of the replies that were read has changed, and
    all is answered."""
    books = Books(0, DEFAULT)
    wanted = [books.serve(it) for it in [*first, *frames]]
    checks.equal(
        f"{what}: replies that were read",
        [(n, it.hex()) for n, it in enumerate(came) if it not in (b"", wanted[len(first) + n])],
        [],
    )
    with Server(world, store=path, default=DEFAULT) as server:
        asked = [*first, *frames]
        checks.equal(
            f"{what}: old and new requests afterwards",
            [server.ask(it) for it in asked],
            wanted,
        )
    same_rows(checks, what, path, books)


def no_room(world, checks, room):
    """The log can grow by so much alone as sixteen hosts ask at once, again and again."""
    what, path = f"rounds in a log that grows by {room:,} bytes", f"{world.folder}/grows{room}"
    first, frames, came = reserves(range(1, 9)), [], []
    with Server(world, words=["--create"], limit=UNLIMITED, store=path, default=DEFAULT) as server:
        replies_to(server, first)
        size = os.path.getsize(f"{path}-wal") + room
        resource.prlimit(server.process.pid, resource.RLIMIT_FSIZE, (size, size))
        for begin in range(100, 100 + 16 * 40, 16):
            these = reserves(range(begin, begin + 16))
            frames += these
            came += replies_to(server, these)
            if b"" in came:
                break
        checks.holds(f"{what}: it comes to an end", b"" in came, "a request without a reply", came)
        ended_by_store(checks, what, server, path)
    asked_again(world, checks, what, path, first, frames, came)


def a_sync_that_fails(world, checks):
    """The sync of a round fails, and so does all that is asked afterwards."""
    what, path, noted = "the sync of a round fails", f"{world.folder}/sync-fails", Noted(world)
    first, frames = reserves(range(1, 5)), reserves(range(100, 116))
    source, settings = f"{world.folder}/sync-source", {"store": path, "default": DEFAULT}
    with Server(world, words=["--create"], store=source, default=DEFAULT) as server:
        replies_to(server, first)
    copied(source, path)
    with Server(world, connections=len(frames), limit=noted.limit, **settings) as server:
        replies_to(server, frames)
        server.status()
    calls = noted.calls()
    before = count(calls, (SYNC,)) - count(after_first_accept(calls), (SYNC,))
    copied(source, path)
    failing = ("failing", f"{SYNC},{errno.EIO},{before}")
    with Server(world, limit=failing, **settings) as server:
        came = replies_to(server, frames)
        checks.equal(f"{what}: no reply", came, [b""] * len(frames))
        ended_by_store(checks, what, server, path)
    asked_again(world, checks, what, path, first, frames, came)


def killed_at_each_call(world, checks):
    """The server is killed at each write of a round, at its sync, and at the first calls after it:
    the file then has all of the round or nothing of it."""
    source, path = f"{world.folder}/killed-source", f"{world.folder}/killed"
    first, frames = reserves(range(1, 5)), reserves(range(100, 116))
    settings = {"store": path, "default": DEFAULT}
    with Server(world, words=["--create"], store=source, default=DEFAULT) as server:
        replies_to(server, first)
    for _ in range(10):
        noted = Noted(world)
        copied(source, path)
        with Server(world, connections=len(frames), limit=noted.limit, **settings) as server:
            replies_to(server, frames)
            server.status()
        calls = noted.calls()
        # (a server that takes 5 s writes the margin once more)
        if sum(it.number == WRITE and it.third == BLOCK for it in calls) == BLOCKS:
            break
    before, later = (count(it, (WRITE, SYNC)) for it in (calls, after_first_accept(calls)))
    found = set()
    for place in range(before - later, before):
        what = f"killed at call {place - before + later + 1} of {later} of a round"
        copied(source, path)
        killed = ("killed", f"{WRITE},{SYNC},{place}")
        with Server(world, connections=len(frames), limit=killed, **settings) as server:
            came = replies_to(server, frames)
            ended = server.status()
        found.add(len(rows_in(path)["answer"]) - len(first))
        checks.equal(f"{what}: the end", ended, -signal.SIGKILL)
        asked_again(world, checks, what, path, first, frames, came)
    checks.equal(
        "killed within a round: how many of its requests the file has", found, {0, len(frames)}
    )
    print(f"    killed at {later} calls of a round, {len(ROOMS)} sizes of a log", flush=True)


def beside_a_night(world, checks):
    """Eight hosts ask at once, again and again, while days leave the ledger and it goes on in its
    new file: each is answered, and keeps its reply."""
    path, answered, rounds = f"{world.folder}/night", {}, 0
    filled(world, path, MANY)
    with nightly(world, path) as server:
        begun = wait_until(lambda: has_begun(path))
        while rounds < 3 or rounds < ROUNDS and not is_through(server):
            # (none that the file has of the same host)
            numbers = range(10 * MANY + 8 * rounds, 10 * MANY + 8 * (rounds + 1))
            frames = reserves(numbers, at=today() * 86_400)
            for frame, reply in zip(frames, replies_to(server, frames)):
                # (the switch to the new file may cut connections off)
                answered[frame] = reply or all_asked(server, [frame])[0]
            rounds += 1
        through = wait_until(lambda: is_through(server))
        wanted = {frame: Books(0, DEFAULT).serve(frame) for frame in answered}
        checks.equal(
            "rounds beside a night: all are answered",
            (begun, through, answered),
            (True, True, wanted),
        )
        checks.equal(
            "rounds beside a night: each asked again",
            dict(zip(answered, all_asked(server, list(answered)))),
            wanted,
        )
    config = ledger_settings(world, path, default=NIGHTLY)
    status, output, errors = world.run("audit", "--config", config)
    checks.equal("rounds beside a night: audit", (status, output[:6], errors), (0, b"sound ", ""))
