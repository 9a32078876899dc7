"""What a peer may do to the server: it answers what is a request, logs what isn't, and goes on."""
import contextlib
import random
import select
import threading
import time

from cases.filters import INPUT, PROCEED, REGISTRATION, answer
from ends import (
    LONG,
    SECONDS,
    Server,
    begun,
    loopback_of_6,
    read_all,
    reset,
    send_no_more,
    soon,
    wait_until,
    without_time,
)
from wire import (
    BAD,
    frame,
    full,
    granted,
    limit,
    number,
    page,
    page_reply,
    release,
    released,
    reserve,
    row,
    settle,
    settled,
    usage,
)

NOTHING_USED = bytes.fromhex("00138b017500000001000000000000000000000003")


def run(world, checks):
    requests(world, checks)
    bad_bytes(world, checks)
    slow_and_broken(world, checks)
    late_behind_one_that_asks(world, checks)
    late_behind_some_that_always_ask(world, checks)
    one_after_another(world, checks)
    comes_with_a_request(world, checks)
    random_bytes(world, checks)
    ends(world, checks)


def goes_on(server, checks, what, before, *, word):
    """One more line with the peer's address where a word is given, else none; the next peer is
    answered."""
    checks.equal(f"{what}: the next connection", server.ask(usage()), NOTHING_USED)
    lines = server.log_lines()[before:]
    if word is None:
        checks.equal(f"{what}: the log", lines, [])
    else:
        peer, said = word
        good = len(lines) == 1 and peer in lines[0] and said in lines[0]
        checks.holds(f"{what}: the log", good, f"one line with {peer} and '{said}'", lines)


def name_of(peer):
    host, port = peer.getsockname()[:2]
    return f"[{host}]:{port}" if ":" in host else f"{host}:{port}"


def requests(world, checks):
    """Requests in order, each on a connection of its own, and what has to come."""
    login = b"u"
    exchanges = [
        (
            "one reserve",
            "0021010161000000000000000100000001000000010000000000015180017500000001",
            "001381016100000000000000010000000100000001",
        ),
        ("the same again", reserve(1).hex(), granted(1, 1).hex()),
        (
            "another content under its number",
            reserve(1, count=2).hex(),
            "000f8a0161000000000000000100000001",
        ),
        ("a second reserve of 2", reserve(2, count=2).hex(), granted(2, 3).hex()),
        ("a third above the limit", reserve(3).hex(), full(3, 3, 3).hex()),
        ("the usage", usage(login).hex(), "00138b017500000001000000000000000300000003"),
        ("another host", reserve(1, host=b"b").hex(), full(1, 3, 3, host=b"b").hex()),
        (
            "another login in the same transaction",
            reserve(4, login=b"v").hex(),
            "000f880161000000000000000100000004",
        ),
        (
            "a settle of too many",
            settle(5, count=4).hex(),
            "001389016100000000000000010000000500000003",
        ),
        ("a settle of 1", settle(6).hex(), settled(6, 1).hex()),
        ("a reserve after it", reserve(7).hex(), "000f870161000000000000000100000007"),
        ("the list", page().hex(), page_reply([row(login, 1, 0, 3)]).hex()),
        ("a release of an unheard transaction", release(8, txn=9).hex(), released(8, 0).hex()),
        (
            "a limit below what was used",
            limit(9, 1, 0).hex(),
            "00178601610000000000000001000000090000000100000001",
        ),
        ("a limit", limit(10, 1, 1).hex(), "000f85016100000000000000010000000a"),
        ("a reserve above it", reserve(11, txn=2).hex(), full(11, 1, 1).hex()),
    ]
    with Server(world) as server:
        for what, sent, wanted in exchanges:
            checks.equal(f"a request, {what}", server.ask(bytes.fromhex(sent)).hex(), wanted)
        checks.equal(
            "all of them again on one connection, and the log",
            (
                server.ask(
                    b"".join(
                        bytes.fromhex(sent)
                        for what, sent, _ in exchanges
                        if what not in ("the usage", "the list")
                    )
                ).hex(),
                server.log_lines(),
            ),
            (
                "".join(
                    wanted for what, _, wanted in exchanges if what not in ("the usage", "the list")
                ),
                [],
            ),
        )
    if loopback_of_6() != "::1":
        checks.skip("a request over IPv6", "there is none")
        return
    with Server(world, host="::1") as server:
        checks.equal("a request over IPv6", server.ask(usage()), NOTHING_USED)


def bad_bytes(world, checks):
    good, reply = usage(), NOTHING_USED
    cases = [
        ("nothing, then the end", b"", b"", None),
        ("one byte, then the end", b"\x00", b"", "cut frame"),
        ("half a frame, then the end", reserve(1)[:20], b"", "cut frame"),
        ("a frame but its last byte", reserve(1)[:-1], b"", "cut frame"),
        ("a request and half a frame", good + good[:5], reply, "cut frame"),
        ("words of another protocol", b"GET / HTTP/1.0\r\n\r\n", BAD, "bad frame"),
        ("600 bytes of 255", b"\xff" * 600, BAD, "bad frame"),
        ("600 bytes of 0", bytes(600), BAD, "bad frame"),
        ("a length of 0", b"\x00\x00", BAD, "bad frame"),
        ("a length of 513", b"\x02\x01", BAD, "bad frame"),
        ("a length of 512 without a body", b"\x02\x00", b"", "cut frame"),
        ("a body of 512 bytes of 7", b"\x02\x00" + b"\x07" * 512, BAD, "bad frame"),
        ("a request with a byte left over", frame(good[2:] + b"\x00"), BAD, "bad frame"),
        ("a reply in place of a request", granted(1, 1), BAD, "bad frame"),
        ("a moment before the first day", reserve(1, at=86_399), BAD, "bad frame"),
        ("a count of 0", reserve(1, count=0), BAD, "bad frame"),
        ("a count of 1,001", reserve(1, count=1001), BAD, "bad frame"),
        ("an empty login", reserve(1, login=b""), BAD, "bad frame"),
        ("a host with a space", reserve(1, host=b"a "), BAD, "bad frame"),
        ("a host of 65 bytes", reserve(1, host=b"a" * 65), BAD, "bad frame"),
        ("a number of 0", reserve(0), BAD, "bad frame"),
        ("a run of 0", reserve(1, run=0), BAD, "bad frame"),
        ("a day of 376,201", usage(day=376_201), BAD, "bad frame"),
        (
            "two requests, then a length of 0, then a request",
            good * 2 + b"\x00\x00" + good,
            reply * 2 + BAD,
            "bad frame",
        ),
    ]
    with Server(world) as server:
        for what, sent, wanted, word in cases:
            before = len(server.log_lines())
            peer = server.connect()
            name = name_of(peer)
            peer.sendall(sent)
            send_no_more(peer)
            checks.equal(f"{what}: the reply", read_all(peer), wanted)
            peer.close()
            goes_on(server, checks, what, before, word=word and (name, word))


def slow_and_broken(world, checks):
    with Server(world, timeout=1_000) as server:
        for what, sent, wanted in [
            ("a peer that sends nothing", b"", b""),
            ("half a frame and no more", reserve(1)[:9], b""),
            ("a request and half of one, then nothing", usage() + reserve(1)[:9], NOTHING_USED),
        ]:
            a_slow_peer(server, checks, what, sent, wanted)
    with Server(world) as server:
        before = len(server.log_lines())
        peer = server.connect()
        for byte in usage():
            peer.sendall(bytes([byte]))
            time.sleep(0.02)
        send_no_more(peer)
        checks.equal("a request byte by byte", read_all(peer), NOTHING_USED)
        peer.close()
        goes_on(server, checks, "a request byte by byte", before, word=None)
        resets(server, checks)
        waits_for_nobody(server, checks)
    peers_that_drip(world, checks)
    two_on_one_connection_each(world, checks)


def a_slow_peer(server, checks, what, sent, wanted):
    """It is waited for as long as the timeout, and not as long as two seconds, which is the usual
    one."""

    def ended():
        before = len(server.log_lines())
        with server.connect() as peer:
            peer.sendall(sent)
            return before, name_of(peer), read_all(peer)

    (before, name, came), took = soon(ended, 1.9)
    checks.equal(f"{what}: the reply", came, wanted)
    checks.holds(
        f"{what}: the server's timeout ends it", 0.99 < took < 1.9, "after 1 s", f"{took:.2f} s"
    )
    goes_on(server, checks, what, before, word=(name, "read failed"))


def resets(server, checks):
    before = len(server.log_lines())
    for sent in (b"", b"\x00", usage(), reserve(1)[:20]):
        peer = server.connect()
        peer.sendall(sent)
        reset(peer)
    checks.equal(
        "connections that were reset: the next connection", server.ask(usage()), NOTHING_USED
    )
    wait_until(lambda: len(server.log_lines()) == before + 4)
    lines = server.log_lines()[before:]
    good = len(lines) == 4 and all(
        "127.0.0.1:" in line and line.endswith(("read failed", "write failed")) for line in lines
    )
    checks.holds(
        "connections that were reset: the log",
        good,
        "a line for each, with its address and what failed",
        lines,
    )


def waits_for_nobody(server, checks):
    """Peers that send nothing, half a frame, or a whole one and then nothing hold nobody back:
    their timeouts aren't waited for."""
    stuck = [server.connect() for _ in range(3)]
    stuck[1].sendall(reserve(1)[:9])
    stuck[2].sendall(usage() + reserve(1)[:9])
    checks.equal("a whole frame before half a one: its reply", stuck[2].recv(65_536), NOTHING_USED)
    start = time.monotonic()
    came = [server.ask(usage()) for _ in range(3)]
    took = time.monotonic() - start
    for peer in stuck:
        peer.close()
    good = came == [NOTHING_USED] * 3 and took < LONG / 2_000
    checks.holds(
        "requests behind three stuck peers",
        good,
        "their answers, no timeout waited for",
        (came, f"{took:.2f} s"),
    )


def late_behind_one_that_asks(world, checks):
    """A peer that sends nothing is ended by its own timeout, also where one that came before it
    asks all the while."""
    with Server(world, timeout=1_000) as server:

        def ended():
            with server.connect() as asks, server.connect() as silent:
                while not select.select([silent], [], [], 0.1)[0]:
                    try:
                        asks.sendall(usage())
                        asks.recv(65_536)
                    except OSError:
                        # (its own time is over)
                        break
                return read_all(silent)

        came, took = soon(ended, 1.9)
        checks.holds(
            "a peer that sends nothing, behind one that asks: the server's timeout ends it",
            came == b"" and 0.99 < took < 1.9,
            "after 1 s",
            f"{took:.2f} s",
        )


def late_behind_some_that_always_ask(world, checks):
    """The same where others' requests are always there, so that the server has no moment in which
    nothing came."""
    with Server(world, timeout=1_000, default=1_000_000) as server:
        over, asked = threading.Event(), [
            b"".join(reserve(n, txn=n, host=host) for n in range(1, 9_001))
            for host in (b"a", b"b", b"c")
        ]

        def ask_on(frames):
            while not over.is_set():
                # (its own time may be over)
                with contextlib.suppress(OSError), server.connect() as peer:
                    peer.sendall(frames)
                    send_no_more(peer)
                    read_all(peer)

        asking = [threading.Thread(target=ask_on, args=(it,), daemon=True) for it in asked]
        for it in asking:
            it.start()

        def ended():
            with server.connect() as silent:
                return read_all(silent) if select.select([silent], [], [], 5)[0] else None

        came, took = soon(ended, 1.9)
        over.set()
        for it in asking:
            it.join(timeout=SECONDS)
        checks.holds(
            "a peer that sends nothing, behind three that always ask: the server's timeout ends it",
            came == b"" and 0.99 < took < 1.9,
            "after 1 s",
            f"{took:.2f} s",
        )


def one_after_another(world, checks):
    """Each of 130 connections ends as its peer's input does, and its socket is closed."""
    with Server(world, timeout=60_000) as server:
        ended = []
        for _ in range(130):
            came, took = soon(lambda: server.ask(usage()), LONG / 2_000)
            ended.append(came == NOTHING_USED and took < LONG / 2_000)
        checks.equal(
            "130 connections, one after another: those that end at once", ended, [True] * 130
        )


def comes_with_a_request(world, checks):
    """A connection that comes while the server is busy with another one's request is answered,
    whichever came first."""
    with Server(world) as server:
        for first in ("the request", "the connection"):
            old = server.connect()
            old.sendall(usage())
            old.recv(65_536)
            with server.stopped():
                if first == "the request":
                    old.sendall(usage())
                new = server.connect()
                new.sendall(usage())
                if first == "the connection":
                    old.sendall(usage())
            checks.equal(
                f"a connection that comes with a request on another, {first} first",
                (new.recv(65_536), old.recv(65_536)),
                (NOTHING_USED, NOTHING_USED),
            )
            old.close()
            new.close()


def two_on_one_connection_each(world, checks):
    """Two peers that keep their connections are answered by turns."""
    with Server(world, default=1_000) as server:
        one, two = server.connect(), server.connect()
        came = []
        for turn in range(20):
            for peer, host in ((one, b"a"), (two, b"b")):
                peer.sendall(reserve(turn + 1, host=host))
                came.append(peer.recv(65_536))
        wanted = [
            granted(turn + 1, 2 * turn + of, host=host)
            for turn in range(20)
            for of, host in ((1, b"a"), (2, b"b"))
        ]
        checks.equal("two peers by turns, each on one connection", came, wanted)
        checks.equal(
            "two peers by turns: the log",
            (one.close(), two.close(), server.ask(usage(day=2)), server.log_lines())[3],
            [],
        )


def drip(peer, sent, pause):
    """Sends byte by byte until the server has had enough; gives the seconds that it took."""
    start = time.monotonic()
    try:
        for byte in sent:
            peer.sendall(bytes([byte]))
            if select.select([peer], [], [], pause)[0] and not peer.recv(65_536):
                break
    except OSError:
        pass
    peer.close()
    return time.monotonic() - start


def peers_that_drip(world, checks):
    """A byte now and then, each inside the timeout: a connection ends after two timeouts all the
    same."""
    with Server(world, timeout=1_000) as server:

        def dripped():
            before, peer = len(server.log_lines()), server.connect()
            name = name_of(peer)
            drip(peer, reserve(1) * 100, 0.1)
            return before, name

        (before, name), took = soon(dripped, 2.9)
        checks.holds(
            "a peer that drips: two timeouts end it", 1.9 < took < 2.9, "after 2 s", f"{took:.2f} s"
        )
        goes_on(server, checks, "a peer that drips", before, word=(name, "read failed"))
    with Server(world, default=1_000) as server:
        over = threading.Event()

        def drip_on():
            while not over.is_set():
                drip(server.connect(), reserve(1), 0.05)

        dripping = threading.Thread(target=drip_on, daemon=True)
        dripping.start()
        time.sleep(0.05)
        came = [world.filter(server.address, INPUT)[:2] for _ in range(5)]
        over.set()
        dripping.join(timeout=SECONDS)
        checks.equal(
            "a filter beside a peer that drips all the while",
            came,
            [(0, REGISTRATION + answer(PROCEED))] * 5,
        )


def random_bytes(world, checks):
    """Frames with a first byte that no request has, lengths of all sizes, cut anywhere."""
    source = random.Random(7025)
    wrong = []
    rounds = 300
    with Server(world) as server:
        for _ in range(rounds):
            length = source.choice(
                [0, 1, 2, source.randrange(512), 511, 512, 513, source.randrange(65_536)]
            )
            body = bytes([source.randrange(7, 256)]) + source.randbytes(source.randrange(1, 700))
            sent = number(length, 2) + body
            whole = len(body) >= length
            wanted = BAD if length == 0 or length > 512 or whole else b""
            came = server.ask(sent)
            if came != wanted:
                wrong.append((sent, came))
        checks.equal(f"{rounds} random frames: other replies than expected", wrong, [])
        # (the last line is there once the next connection is answered)
        came = server.ask(usage()), len(server.log_lines())
        checks.equal(
            "random frames: the next connection, and lines of the log", came, (NOTHING_USED, rounds)
        )


def ends(world, checks):
    with Server(world, connections=3) as server:
        for _ in range(2):
            server.ask(usage())
        server.ask(b"\x00\x00")
        checks.equal("--connections 3, one of them bad: the status", server.status(), 0)
        checks.equal("--connections 3: lines of the log", len(server.log_lines()), 1)
    with Server(world, connections=1) as server:
        peers = [server.connect()]
        peers[0].sendall(usage())
        send_no_more(peers[0])
        checks.equal(
            "--connections 1: reply and status",
            (read_all(peers[0]), server.status()),
            (NOTHING_USED, 0),
        )
    with Server(world, connections=2, log="off") as server:
        server.ask(b"\x00\x00")
        server.ask(b"\x00\x00")
        checks.equal('log = "off": status and log', (server.status(), server.log_lines()), (0, []))
    with Server(world) as one:
        two = world.run(
            "server",
            "--config",
            world.new_file(
                f'listen = "{one.address}"\nstore = "memory"\ndefault = 3\noffset = 0\n'
            ),
        )
        log = (
            f"[ERROR server] listening on {one.address}: Address already in use (os" " error 98)\n"
        )
        checks.equal("a port in use", two, (1, b"", log + "mailquota: listen failed\n"))
    with Server(world, connections=1, log="info") as server:
        server.ask(usage())
        wanted = [
            begun("memory"),
            *(
                f"[INFO  server] {line}"
                for line in (
                    f"listening on {server.listen} for 1 connections",
                    "ending after 1 connections",
                )
            ),
        ]
        checks.equal(
            'log = "info": status, start and end',
            (server.status(), without_time(server.log_lines())),
            (0, wanted),
        )
    with Server(world, connections=0, words=["--endless"], log="info") as server:
        # (it says that it listens before it answers)
        server.ask(usage())
        wanted = [
            begun("memory"),
            (f"[INFO  server] listening on {server.listen} for any number of" " connections"),
        ]
        checks.equal(
            '--endless, with log = "info": its start', without_time(server.log_lines()), wanted
        )
    with Server(world, offset=60) as server:
        asked = (
            reserve(1, at=1_576_105_199)
            + reserve(2, txn=2, at=1_576_105_200)
            + page(day=18_241)
            + page(day=18_242)
        )
        wanted = (
            granted(1, 1)
            + granted(2, 1)
            + page_reply([row(b"u", 0, 1, 3)], day=18_241)
            + page_reply([row(b"u", 0, 1, 3)], day=18_242)
        )
        checks.equal(
            "offset = 60: two moments around midnight are on two days", server.ask(asked), wanted
        )
