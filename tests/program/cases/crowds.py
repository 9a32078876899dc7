"""Many peers of the server at once, many requests of one, and ones that take nothing of what they
are answered, or take it slowly."""
import select
import threading
import time

from cases.filters import INPUT, PROCEED, REGISTRATION, answer
from cases.peers import NOTHING_USED, goes_on, name_of
from ends import (
    LONG,
    Server,
    greatest_memory,
    read_all,
    read_to_end,
    send_no_more,
    soon,
    wait_until,
)
from wire import granted, number, page, page_reply, reserve, row, usage


def run(world, checks):
    a_peer_that_reads_nothing(world, checks)
    many_requests(world, checks)
    many_long_requests(world, checks)
    one_request_alongside_many(world, checks)
    a_peer_that_takes_slowly(world, checks)
    a_peer_that_takes_too_slowly(world, checks)
    a_late_peer_with_requests(world, checks)
    silent_peers(world, checks)
    print(
        (
            "    10,001 and 9,999 requests of a connection, one alongside 5,000 of another peer,"
            " 10,000 pages that nobody reads, 14 MB that a peer takes slowly, or too slowly, 500"
            " peers that send nothing, 905 connections at once"
        ),
        flush=True,
    )


def long_logins(count):
    """So many logins of 255 bytes, in order."""
    return [b"%03d" % n + b"x" * 252 for n in range(count)]


def reserved_by(logins):
    """A recipient of each, in a transaction of its own."""
    return b"".join(reserve(n, txn=n, login=login) for n, login in enumerate(logins, start=1))


def a_peer_that_reads_nothing(world, checks):
    """A page of ten logins of 255 bytes is 2,686 bytes; 10,000 of them don't fit into what the
    kernel keeps."""
    with Server(world, timeout=12_000) as server:
        logins = long_logins(10)
        checks.equal(
            "ten logins",
            server.ask(reserved_by(logins)),
            b"".join(granted(n + 1, 1) for n in range(10)),
        )
        checks.equal(
            "a page of ten long logins",
            server.ask(page()),
            page_reply([row(login, 0, 1, 3) for login in logins]),
        )
        before, memory = len(server.log_lines()), greatest_memory(server.process)
        peer = server.connect(room=4_096)
        peer.sendall(page() * 10_000)
        came, slowest = [], 0
        for _ in range(100):
            start = time.monotonic()
            came.append(server.ask(usage()))
            slowest = max(slowest, time.monotonic() - start)
        checks.equal(
            "beside a peer that reads nothing: a hundred connections", came, [NOTHING_USED] * 100
        )
        checks.holds(
            "beside a peer that reads nothing: how long the slowest took",
            slowest < 6,
            "below 6 s, half the timeout",
            f"{slowest:.2f} s",
        )
        wait_until(lambda: len(server.log_lines()) > before)
        took = greatest_memory(server.process) - memory
        checks.holds(
            "a peer that reads nothing: the memory of its 27 MB",
            took < 1_000_000,
            "less than 1 MB, for eight pages of 2,686 bytes and what else there is",
            f"{took:,} bytes",
        )
        goes_on(
            server,
            checks,
            "a peer that reads nothing",
            before,
            word=(name_of(peer), "write failed"),
        )
        peer.close()


def many_requests(world, checks):
    with Server(world) as server:
        peer = server.connect()
        peer.sendall(usage() * 9_999)
        came = b""
        while len(came) < len(NOTHING_USED) * 9_999:
            came += peer.recv(65_536)
        peer.sendall(usage() * 2)
        came += read_all(peer)
        checks.equal(
            "10,001 requests on a connection: the answers",
            (len(came), came == NOTHING_USED * 10_000),
            (21 * 10_000, True),
        )
        goes_on(
            server, checks, "10,001 requests on a connection", 0, word=(name_of(peer), "enough")
        )
        peer.close()


def many_long_requests(world, checks):
    """More than the kernel keeps: 9,999 requests of 262 bytes at once, on one connection whose peer
    reads all the while."""
    with Server(world) as server:
        asked, wanted = page(after=b"x" * 255), page_reply([])
        with server.connect() as peer:
            asking = threading.Thread(target=peer.sendall, args=(asked * 9_999,), daemon=True)
            asking.start()
            came, peer_waits = b"", select.poll()
            peer_waits.register(peer, select.POLLIN)
            while len(came) < len(wanted) * 9_999 and peer_waits.poll(LONG):
                came += peer.recv(65_536)
            checks.equal(
                "9,999 long requests at once: their replies",
                (len(came) // len(wanted), came == wanted * 9_999),
                (9_999, True),
            )


def one_request_alongside_many(world, checks):
    """5,000 requests of one peer and one of another are there before the server looks at any: the
    one is answered among the first."""
    with Server(world, default=1_000_000) as server:
        with server.stopped():
            many, one = server.connect(), server.connect()
            sending = threading.Thread(
                target=many.sendall,
                args=(b"".join(reserve(n, txn=n) for n in range(1, 5_001)),),
                daemon=True,
            )
            sending.start()
            one.sendall(reserve(1, host=b"b"))
            time.sleep(0.2)
        with many, one:
            came = one.recv(65_536)
            used = int.from_bytes(came[-4:], "big")
            checks.holds(
                "a request alongside 5,000",
                came == granted(1, used, host=b"b") and used < 1_000,
                "fewer than 1,000 recipients before it",
                came,
            )
            send_no_more(many)
            checks.equal(
                "5,000 requests alongside another peer's: the length of their replies",
                len(read_all(many)),
                5_000 * len(granted(1, 1)),
            )
            sending.join()


# 14 MB of replies, far more than the kernel keeps, to requests that one read takes.
MANY_LOGINS, MANY_PAGES = long_logins(100), 500
MANY_BYTES = MANY_PAGES * len(page_reply([row(login, 0, 1, 3) for login in MANY_LOGINS]))


def taken_evenly(peer, seconds, is_over=lambda: False):
    """Asks for 14 MB and takes them evenly over so many seconds; gives how many bytes came."""
    peer.sendall(page() * MANY_PAGES)
    send_no_more(peer)
    start, came = time.monotonic(), 0
    while not is_over() and (piece := peer.recv(1 << 20)):
        came += len(piece)
        time.sleep(max(0, seconds * came / MANY_BYTES - (time.monotonic() - start)))
    return came


def a_peer_that_takes_slowly(world, checks):
    """A peer that takes its replies evenly over six quarters of a timeout gets them all: a part of
    them begins its time again."""
    with Server(world, timeout=4_000) as server:
        server.ask(reserved_by(MANY_LOGINS))

        def taken():
            before = len(server.log_lines())
            with server.connect(room=65_536) as peer:
                came = taken_evenly(peer, 6)
            return came, server.log_lines()[before:]

        came, _ = soon(taken, 7.5)
        checks.equal(
            "a peer that takes its replies within two timeouts: their length, and the log",
            came,
            (MANY_BYTES, []),
        )


def a_peer_that_takes_too_slowly(world, checks):
    """One that would take them evenly over four timeouts always takes some within a timeout, and
    two end it all the same."""
    with Server(world, timeout=2_000) as server:
        server.ask(reserved_by(MANY_LOGINS))

        def ended():
            before = len(server.log_lines())
            with server.connect(room=65_536) as peer:
                taken_evenly(peer, 8, lambda: len(server.log_lines()) > before)
                return before, name_of(peer)

        (before, name), took = soon(ended, 4.9)
        checks.holds(
            "a peer that takes its replies in four timeouts: two timeouts end it",
            3.9 < took < 4.9,
            "after 4 s",
            f"{took:.2f} s",
        )
        goes_on(
            server,
            checks,
            "a peer that takes its replies in four timeouts",
            before,
            word=(name, "write failed"),
        )


def a_late_peer_with_requests(world, checks):
    """One that takes nothing for a timeout, with requests that weren't read yet: what it takes then
    ends in order, and not by a reset."""
    with Server(world, timeout=4_000) as server:
        server.ask(reserved_by(MANY_LOGINS))
        before = len(server.log_lines())
        with server.connect(room=65_536) as peer:
            peer.sendall(page() * MANY_PAGES)
            time.sleep(0.3)
            peer.sendall(page() * 20)
            wait_until(lambda: len(server.log_lines()) > before)
            try:
                came = len(read_to_end(peer))
            except ConnectionResetError as error:
                came = error
        checks.holds(
            "a late peer with requests that weren't read: its replies end in order",
            isinstance(came, int) and 0 < came < MANY_BYTES,
            "a part of them, and their end",
            came,
        )


def silent_peers(world, checks):
    """500 peers that send nothing hold a connection each; filters are answered meanwhile, at their
    first try."""
    with Server(world, timeout=60_000, default=1_000) as server:
        silent = [server.connect() for _ in range(500)]
        came, log, slowest = [], "", 0
        for _ in range(5):
            start = time.monotonic()
            status, output, errors = world.filter(server.address, INPUT)
            slowest = max(slowest, time.monotonic() - start)
            came.append((status, output))
            log += errors
        checks.equal(
            "filters beside 500 silent peers",
            (came, log),
            ([(0, REGISTRATION + answer(PROCEED))] * 5, ""),
        )
        checks.holds(
            "filters beside 500 silent peers: how long the slowest took",
            slowest < LONG / 3_000,
            "far below 60 s, a timeout",
            f"{slowest:.2f} s",
        )
        for peer in silent[:-1]:
            peer.close()
        silent[-1].sendall(usage())
        checks.equal(
            "the last of 500 silent peers asks at last",
            silent[-1].recv(65_536),
            NOTHING_USED.replace(number(3), number(1_000)),
        )
        silent[-1].close()
        checks.equal("the log beside 500 silent peers that go", server.log_lines(), [])
    with Server(world, timeout=300) as server:
        silent = [server.connect() for _ in range(500)]
        start = time.monotonic()
        ended = [read_all(peer) for peer in silent]
        took = time.monotonic() - start
        for peer in silent:
            peer.close()
        checks.holds(
            "500 silent peers are ended side by side",
            ended == [b""] * 500 and took < 75,
            "far below 150 s, at 300 ms each",
            f"{took:.2f} s",
        )
        lines = server.log_lines()
        checks.holds(
            "500 silent peers: the log",
            len(lines) == 500 and all("read failed" in line for line in lines),
            "a line for each",
            lines,
        )
    with Server(world, timeout=60_000) as server:
        crowd = [server.connect() for _ in range(700)]
        for peer in crowd:
            peer.sendall(usage())
        checks.equal(
            "700 connections: the first answer of each",
            [peer.recv(65_536) for peer in crowd],
            [NOTHING_USED] * 700,
        )
        with server.stopped():
            for peer in crowd:
                peer.sendall(usage())
        checks.equal(
            "700 connections that ask at once: their answers",
            [peer.recv(65_536) for peer in crowd],
            [NOTHING_USED] * 700,
        )
        for peer in crowd:
            peer.close()
    with Server(world, timeout=60_000) as server:
        crowd = [server.connect() for _ in range(905)]
        checks.equal(
            "more connections than places: the next is answered", server.ask(usage()), NOTHING_USED
        )
        lines = server.log_lines()
        names = [name_of(peer) for peer in crowd[:6]]
        good = len(lines) == 6 and all(
            f"connection of {name}: too many connections" in line
            for name, line in zip(names, lines)
        )
        checks.holds(
            "more connections than places: those that waited longest went",
            good,
            "a line for each of the first six",
            lines,
        )
        for peer in crowd:
            peer.close()
    with Server(world, timeout=60_000) as server:
        crowd = [server.connect() for _ in range(900)]
        crowd[0].sendall(usage())
        checks.equal(
            "as many connections as there are places: the first one asks",
            crowd[0].recv(65_536),
            NOTHING_USED,
        )
        came = [
            server.ask(usage()),
            [line.partition("connection of ")[2] for line in server.log_lines()],
        ]
        checks.equal(
            "one more: it is answered, and the one whose time would run out first goes",
            came,
            [NOTHING_USED, [f"{name_of(crowd[1])}: too many connections"]],
        )
        for peer in crowd:
            peer.close()
