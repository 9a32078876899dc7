"""The filter's link to a server, and the server's connections, byte by byte: what one peer answers,
and what eight peers in turn send."""
import socket
import subprocess

from cases.filters import PROCEED, REGISTRATION, SERVICE, answer
from ends import (
    LONG,
    SECONDS,
    SILENCE,
    Script,
    Server,
    apart,
    nobody_there,
    read_all,
    send_no_more,
    soon,
    unreached,
    wait_until,
)

# Milliseconds that a case can wait for what doesn't come.
SHORT = 100

# host a, run 1, number 1, transaction 1 at the second 86,400 of login u: one recipient
ONE_RESERVE = bytes.fromhex(
    "0021 01 0161 0000000000000001 00000001 00000001 0000000000015180 0175 00000001"
)
# it is granted, with 1 recipient used
ONE_REPLY = bytes.fromhex("0013 81 0161 0000000000000001 00000001 00000001")
# what smtpd writes of that recipient
MAIL = b"".join(
    line + b"\n"
    for line in [
        b"config|ready",
        b"report|0.7|0000086400.000000|smtp-in|link-auth|7641df9771b4ed00|pass|u",
        b"report|0.7|0000086400.000000|smtp-in|tx-begin|7641df9771b4ed00|4c56d3a1",
        b"filter|0.7|0000086400.000000|smtp-in|rcpt-to|7641df9771b4ed00|1ef1c203cc576e5d|bob@example.org",
    ]
)

CLOSED = "closed before its reply was whole"
EMPTY = "a reply of no bytes"
NO_REQUEST = "it takes the request for none"

# what a peer answers, and why that is no answer: the body 8e is a reply, which says that the peer
# knows no such request
ANSWERS = [
    (b"", CLOSED),
    (b"\x00", CLOSED),
    (b"\x00\x00", EMPTY),
    (b"\x00\x00\x01\x8e", EMPTY),
    (b"\x00\x05\x8e\x8e", CLOSED),
    (b"\x00\x01\x8e", NO_REQUEST),
    (b"\x00\x01\x8e\x00\x01\x8d", NO_REQUEST),
    # the longest reply: all of it came
    (b"\xff" * 65_537, "65535 bytes that are no reply"),
]


def run(world, checks):
    one_reserve(world, checks)
    nobody_listens(world, checks)
    no_answer_in_time(world, checks)
    what_a_peer_answers(world, checks)
    connections_in_turn(world, checks)
    a_port_in_use(world, checks)


def asked_once(world, address, timeout=LONG):
    """What the filter answers smtpd by one exchange, and its log."""
    status, output, errors = world.filter(address, MAIL, host="a", tries=1, timeout=timeout)
    return (status, output), apart(errors)[0]


def answered(result):
    return 0, REGISTRATION + answer(result)


def one_reserve(world, checks):
    with Server(world) as server:
        with Script([server.ask]) as script:
            came = asked_once(world, script.address)
        checks.equal(
            "one reserve: the answer, the log, the frame",
            (came, script.heard),
            ((answered(PROCEED), []), [ONE_RESERVE]),
        )
        checks.equal("one reserve again: its reply", server.ask(ONE_RESERVE), ONE_REPLY)
    behind_its_reply(world, checks)


def behind_its_reply(world, checks):
    """The link drops its connection, while the filter waits for smtpd's next line."""
    wanted = REGISTRATION + answer(PROCEED)
    with socket.create_server(("127.0.0.1", 0)) as listener:
        listener.settimeout(SECONDS)
        file = world.filter_file("{}:{}".format(*listener.getsockname()), host="a", tries=1)
        words = [world.program, "filter", "--config", file, "--run", "1"]
        with subprocess.Popen(
            words, stdin=subprocess.PIPE, stdout=subprocess.PIPE, stderr=subprocess.DEVNULL
        ) as process:
            process.stdin.write(MAIL)
            process.stdin.flush()
            with listener.accept()[0] as peer:
                peer.settimeout(SECONDS)
                heard = read_all(peer)
                peer.sendall(ONE_REPLY)
                came = process.stdout.read(len(wanted))
                gone = wait_until(lambda: is_gone(peer))
    came = (heard, came, gone, process.returncode)
    checks.equal(
        "the connection behind its reply: frame, answer, gone, status",
        came,
        (ONE_RESERVE, wanted, True, 0),
    )


def is_gone(peer):
    """Whether the other end takes nothing more: it answers what is sent by a reset."""
    try:
        peer.send(b"\x00")
    except (BrokenPipeError, ConnectionResetError):
        return True
    return False


def nobody_listens(world, checks):
    with nobody_there() as address:
        came = asked_once(world, address)
    (ended, log), wanted = came, [unreached(address)]
    checks.equal(
        "nobody listens: the answer, and the first line of the log",
        (ended, log[:1]),
        (answered(SERVICE), wanted),
    )


def no_answer_in_time(world, checks):
    """So long it waits, and not as long as two seconds, which other timeouts are."""

    def ask():
        with Script([SILENCE]) as script:
            came = asked_once(world, script.address, timeout=SHORT)
        return came, script.heard, [unreached(script.address, "no answer in time")]

    ((ended, log), heard, wanted), took = soon(ask, 1.9)
    came = (ended, log[:1], heard)
    checks.equal(
        "a peer that says nothing: the answer, the log, the frame",
        came,
        (answered(SERVICE), wanted, [ONE_RESERVE]),
    )
    good = SHORT / 1_000 <= took < 1.9
    checks.holds(
        "a peer that says nothing: how long it was waited for",
        good,
        "100 ms, and below 1.9 s",
        f"{took:.2f} s",
    )


def what_a_peer_answers(world, checks):
    for sent, cause in ANSWERS:
        with Script([sent]) as script:
            ended, log = asked_once(world, script.address)
        came, wanted = (ended, log[:1], script.heard), (
            answered(SERVICE),
            [unreached(script.address, cause)],
            [ONE_RESERVE],
        )
        checks.equal(
            f"a peer that answers {sent[:7].hex() or 'nothing'}{'..' if len(sent) > 7 else ''}",
            came,
            wanted,
        )


# what a peer sends, whether it then waits, what it is answered in hexadecimal, and the end that is
# logged
TURNS = [
    (b"", False, "", ""),
    (b"\x00\x21\x01", False, "", "cut frame"),
    (b"\x00\x00", False, "00018e", "bad frame"),
    (b"\x02\x01", False, "00018e", "bad frame"),
    (b"\xff" * 600, False, "00018e", "bad frame"),
    (ONE_RESERVE, False, "001381016100000000000000010000000100000001", ""),
    (b"", True, "", "read failed"),
    (b"\x00", True, "", "read failed"),
]


def connections_in_turn(world, checks):
    """All are there before the first of them is served, since the server is stopped until then."""
    with Server(world, connections=len(TURNS), timeout=1_000) as server:
        with server.stopped():
            peers = [peer_that_sends(server, sent, waits) for sent, waits, _, _ in TURNS]
            names = ["{}:{}".format(*peer.getsockname()) for peer in peers]
        for peer, (sent, waits, wanted, _) in zip(peers, TURNS):
            what = (
                "a peer that sends"
                f" {sent[:7].hex() or 'nothing'}{'..' if len(sent) > 7 else ''}{' and waits' if waits else ''}"
            )
            checks.equal(f"{what}, of eight: what it is answered", read_all(peer).hex(), wanted)
            peer.close()
        checks.equal("eight peers: the server's status", server.status(), 0)
        wanted = [
            f"[WARN  connections] connection of {name}: {end}"
            for name, (_, _, _, end) in zip(names, TURNS)
            if end
        ]
        checks.equal("eight peers: the log", server.log_lines(), wanted)


def peer_that_sends(server, sent, waits):
    """A peer that has sent these bytes and, unless it is to wait, ended its writing."""
    peer = server.connect()
    peer.sendall(sent)
    if not waits:
        send_no_more(peer)
    return peer


def a_port_in_use(world, checks):
    with socket.create_server(("127.0.0.1", 0)) as taken:
        address = f"127.0.0.1:{taken.getsockname()[1]}"
        file = world.new_file(
            f'listen = "{address}"\nstore = "memory"\ndefault = 3\noffset = 0\ntimeout = 2000\nlog'
            ' = "warn"\n'
        )
        came = world.run("server", "--config", file, "--connections", "1")
    log = f"[ERROR server] listening on {address}: Address already in use (os error" " 98)\n"
    checks.equal("a port in use", came, (1, b"", log + "mailquota: listen failed\n"))
