"""Lines, settings, texts, paths and pieces of the lengths about which a buffer grows, up to their
limits.

What is expected follows from the rules: a line that is passed over changes nothing, a comment in
settings neither, and how bytes are cut into pieces means nothing.
"""
import contextlib
import itertools
import os
import socket
import subprocess
import time

import wire
from books import Books
from cases.crowds import long_logins
from cases.edges import answers
from cases.filters import (
    AUTH,
    BEGIN,
    COMMIT,
    CONFIG,
    GRANTED,
    PROCEED,
    RCPT,
    REGISTRATION,
    RESERVE,
    SETTLE,
    SETTLED,
    answer,
)
from cases.many_numbers import ALICE, Filter
from ends import (
    LONG,
    Script,
    Server,
    fault,
    ledger_settings,
    of_settings,
    read_request,
    read_to_end,
    send_no_more,
    toml,
)

LONGEST_LINE = 65_536
LONGEST_SETTINGS = 65_536
LONGEST_TEXT = 1_048_576
PIECES = [1, 2, 3, 511, 512, 513, 4_095, 4_096, 4_097, 8_191, 8_192, 8_193, 65_536, 1_000_000]


def about(most, first=8):
    """One below, at, and one beyond each power of two and each three quarters of one, and multiples
    of a read, up to this."""
    found, power = set(), first
    while power <= most:
        found |= {power + more for more in (-1, 0, 1)} | {
            power * 3 // 4 + more for more in (-1, 0, 1)
        }
        power *= 2
    found |= {
        many * 4_096 + more
        for many in range(1, most // 4_096 + 1, max(1, most // 4_096 // 16))
        for more in (-1, 0, 1)
    }
    return sorted({*range(1, 40), *found, most - 1, most} & {*range(1, most + 1)})


def run(world, checks):
    lines(world, checks)
    sessions(world, checks)
    settings(world, checks)
    paths(world, checks)
    texts(world, checks)
    pieces_to_a_server(world, checks)
    pieces_to_a_filter(world, checks)
    pieces_of_a_reply(world, checks)


def lines(world, checks):
    """Lines of each length before and after a request, in kinds that are passed over and in those
    that are kept."""
    lengths = about(LONGEST_LINE)
    kinds = {
        "another line": (b"", b"x"),
        "a config line": (b"config|k|", b"v"),
        "another report": (
            b"report|0.7|1576146009.1|smtp-in|link-greeting|7641df9771b4ed00|",
            b"g",
        ),
        "a login of another session": (
            b"report|0.7|1576146009.1|smtp-in|link-auth|ffff|pass|",
            b"l",
        ),
        "a message of another session": (b"report|0.7|1576146009.1|smtp-in|tx-begin|ffff|", b"m"),
    }
    for what, (head, filler) in kinds.items():
        its = [
            head + filler * (length - len(head)) + b"\n" for length in lengths if length > len(head)
        ]
        text = CONFIG + AUTH + b"".join(its) + BEGIN + RCPT + b"".join(its) + COMMIT
        # (each transaction that begins has the next number)
        txn = 1 + len(its) * (b"tx-begin" in head)
        frames = [wire.reserve(1, txn=txn, **ALICE), wire.settle(2, txn=txn, **ALICE)]
        with Script([GRANTED, SETTLED]) as server:
            came = world.filter(server.address, text)
        checks.equal(
            f"{what} of {len(its)} lengths up to {LONGEST_LINE:,} bytes",
            (came, server.heard),
            ((0, REGISTRATION + answer(PROCEED), ""), frames),
        )
    phases = [b"filter|0.7|1.1|smtp-in|mail-from|", b"filter|0.7|1.1|smtp-in|rcpt-to|"]
    for what, session, token in [
        ("sessions", True, False),
        ("tokens", False, True),
        ("sessions and tokens", True, True),
    ]:
        asked, wanted = b"", b""
        for length in lengths:
            for phase in phases:
                room = length - len(phase) - 3
                if room < 2:
                    continue
                names = (
                    (b"s" * (room - 1), b"t")
                    if not token
                    else (
                        (b"s", b"t" * (room - 1))
                        if not session
                        else (b"s" * (room // 2), b"t" * (room - room // 2))
                    )
                )
                asked += phase + b"|".join(names) + b"|\n"
                wanted += answer(PROCEED, *names)
        came = world.filter("127.0.0.1:1", CONFIG + asked)
        checks.equal(f"requests of all lengths, {what}", came, (0, REGISTRATION + wanted, ""))
    for length in (LONGEST_LINE, LONGEST_LINE + 1):
        came = world.filter("127.0.0.1:1", CONFIG + b"x" * length + b"\n", log="off")
        checks.equal(
            f"a line of {length:,} bytes",
            came,
            (
                (0, REGISTRATION, "")
                if length == LONGEST_LINE
                else fault("line too long", REGISTRATION)
            ),
        )
    print(f"    lines of {len(lengths)} lengths up to {LONGEST_LINE:,} bytes", flush=True)


def sessions(world, checks):
    """Session ids of each length: each logs in, begins a mail with a message id of that length,
    asks for a recipient, and commits."""
    lengths = [it for it in about(LONGEST_LINE - 100) if it >= 2]
    books, frames, text, wanted = Books(0, 1_000), [], CONFIG, REGISTRATION
    for txn, length in enumerate(lengths, 1):
        session, message = (b"s%d" % txn).ljust(length, b"s")[:length], b"m" * max(
            1, min(length, LONGEST_LINE - 100 - length)
        )
        text += b"".join(
            [
                b"report|0.7|1576146008.1|smtp-in|link-auth|%s|pass|alice\n" % session,
                b"report|0.7|1576146009.1|smtp-in|tx-begin|%s|%s\n" % (session, message),
                b"filter|0.7|1576146010.1|smtp-in|rcpt-to|%s|t|b\n" % session,
                b"report|0.7|1576146011.1|smtp-in|tx-commit|%s|%s|12\n" % (session, message),
                b"report|0.7|1576146011.1|smtp-in|link-disconnect|%s\n" % session,
            ]
        )
        wanted += answer(PROCEED, session, b"t")
        frames += [
            wire.reserve(2 * txn - 1, txn=txn, **ALICE),
            wire.settle(2 * txn, txn=txn, **ALICE),
        ]
    with Script([books.serve] * len(frames)) as server:
        came = world.filter(server.address, text)
    checks.equal(
        f"session ids of {len(lengths)} lengths up to {lengths[-1]:,} bytes: status, lines, log",
        came,
        (0, wanted, ""),
    )
    checks.equal(f"session ids of {len(lengths)} lengths: frames", server.heard == frames, True)


def settings(world, checks):
    """Settings with a comment that fills them up, and with a key that nobody knows."""
    lengths = [it for it in about(LONGEST_SETTINGS) if it >= 200]
    short = toml({"host": "mx1", "server": "127.0.0.1:1", "log": "off"})
    of_server = toml(
        {
            "listen": "127.0.0.1:1",
            "store": f"{world.folder}/none",
            "default": 3,
            "offset": 0,
            "log": "off",
        }
    )
    text = CONFIG + AUTH
    for length in [*lengths, LONGEST_SETTINGS + 1, LONGEST_SETTINGS + 4_096]:
        is_read = length <= LONGEST_SETTINGS
        path = world.new_file(filled(short, length))
        came = world.run("filter", "--config", path, "--run", "1", text=text)
        too_large = fault("settings too large", log=of_settings(path, "settings too large"))
        checks.equal(
            f"a filter's settings of {length:,} bytes",
            came,
            (0, REGISTRATION, "") if is_read else too_large,
        )
        path = world.new_file(filled(of_server, length))
        too_large = fault("settings too large", log=of_settings(path, "settings too large"))
        # (with log = "off" the last line alone, but for what is wrong with the settings)
        checks.equal(
            f"a server's settings of {length:,} bytes",
            world.run("server", "--config", path),
            fault("store can't be opened") if is_read else too_large,
        )
    for length in [it for it in about(LONGEST_SETTINGS - 300) if it >= 8]:
        key = "k" * length
        path, unknown = world.new_file(f"{short}{key} = 1\n"), f"setting {key}: unknown"
        came = world.run("filter", "--config", path, "--run", "1")
        checks.equal(
            f"an unknown key of {length:,} bytes",
            came,
            fault(unknown, log=of_settings(path, unknown)),
        )
    print(f"    settings of {len(lengths)} lengths up to {LONGEST_SETTINGS:,} bytes", flush=True)


def filled(text, length):
    return f"{text}#{'c' * (length - len(text) - 2)}\n"


def paths(world, checks):
    """Paths of a ledger's file up to the longest that the system takes."""
    parts, tried = [], [
        60,
        64,
        127,
        128,
        200,
        255,
        256,
        257,
        511,
        512,
        513,
        1_023,
        1_024,
        1_025,
        2_048,
        4_000,
        4_080,
    ]
    for length in tried:
        path = world.folder
        while length - len(path) > 220:
            path += "/" + "p" * 199
        os.makedirs(path, exist_ok=True)
        path += "/" + "f" * (length - len(path) - 1)
        with Server(world, words=["--create"], store=path) as server:
            checks.equal(
                f"a path of {len(path)} bytes: a new file",
                answers(server, wire.reserve(1)),
                wire.granted(1, 1),
            )
        with Server(world, store=path, keep=2) as server:
            checks.equal(
                f"a path of {len(path)} bytes: opened again, with keep",
                answers(server, wire.reserve(1) + wire.reserve(2)),
                wire.granted(1, 1) + wire.granted(2, 2),
            )
        came = world.run(
            "forget",
            "--config",
            ledger_settings(world, path),
            "--before",
            "1",
            "--into",
            f"{path}.new",
        )
        checks.equal(
            f"a path of {len(path)} bytes: forget into one beside it",
            came,
            (0, b"kept answers=2 of 2, limits=0\n", ""),
        )
        parts.append(len(path))
    checks.equal("the lengths of these paths", parts, tried)


def texts(world, checks):
    """Texts of `replay`, filled up by spaces, by requests, and by connections."""
    ask = wire.usage()
    wanted = Books().serve(ask).hex().encode() + b"\n"
    for length in [it for it in about(LONGEST_TEXT, 4_096) if it > 40] + [
        LONGEST_TEXT + 1,
        LONGEST_TEXT * 2,
    ]:
        came = world.run("replay", "--default", "3", text=ask.hex().encode().ljust(length))
        checks.equal(
            f"a text of {length:,} bytes",
            came,
            (0, wanted, "") if length <= LONGEST_TEXT else fault("input too large"),
        )
    for many in (999, 1_000, 1_001, 4_096, 20_000, LONGEST_TEXT // 20):
        text = (ask.hex() + "\n\n") * many
        came = world.run("replay", "--default", "3", text=text.encode())
        checks.equal(
            f"a text of {many:,} connections",
            came,
            (0, wanted * many, "") if len(text) <= LONGEST_TEXT else fault("input too large"),
        )
    sent = b"".join(wire.page(b"x" * 255) for _ in range(1_900))
    for words in ([], ["--sql"]):
        came = world.run("replay", "--default", "3", *words, text=sent.hex().encode())
        checks.equal(
            " ".join(["a connection of 1,900 long requests: replay", *words]),
            came,
            (0, Books().serve(sent).hex().encode() + b"\n", ""),
        )


def pieces_to_a_server(world, checks):
    """A connection's bytes in pieces of each size, each sent by itself."""
    logins = [b"u" * length for length in (1, 100, 255)]
    sent = (
        b"".join(
            wire.reserve(n, txn=n, login=logins[n % 3], host=b"h" * (1 + n % 64))
            for n in range(1, 200)
        )
        + wire.page()
    )
    cut = sent[:3_000]
    with Server(world) as server:
        books = Books()
        for size in PIECES:
            part = cut if size < 500 else sent
            wanted = books.serve(part)
            with server.connect() as peer:
                for start in range(0, len(part), size):
                    peer.sendall(part[start : start + size])
                    if size > 500:
                        time.sleep(0.001)
                send_no_more(peer)
                came = read_to_end(peer)
            checks.equal(f"a connection in pieces of {size:,} bytes", came, wanted)
        asked = wire.usage() + wire.page()
        for size in (4_000, 4_095, 4_096, 4_097):
            came = answers(server, asked + b"\xff" * (size - len(asked)))
            checks.equal(
                f"a connection of {size:,} bytes that are a request, a list, and none",
                came,
                books.serve(asked) + wire.BAD,
            )
            checks.equal(
                f"a connection of {size:,} bytes that are no request",
                answers(server, b"\xff" * size),
                wire.BAD,
            )


def pieces_to_a_filter(world, checks):
    """A filter's lines in pieces, each written once the pipe is empty where they are small."""
    text = CONFIG + AUTH + BEGIN + RCPT + b"x" * 10_000 + b"\n" + COMMIT
    for size in PIECES:
        with Script([GRANTED, SETTLED]) as server:
            it = Filter(world, server.address)
            for start in range(0, len(text), size):
                it.send(text[start : start + size])
            wanted = REGISTRATION + answer(PROCEED)
            came = it.process.stdout.read(len(wanted))
            checks.equal(
                f"a filter's lines in pieces of {size:,} bytes",
                (came, it.end(), server.heard),
                (wanted, (0, b""), [RESERVE, SETTLE]),
            )


def cuts(length, size):
    """Where a reply of this length is cut into pieces of a size. Small ones are some hundred bytes
    at its begin, about the lengths at which a buffer grows, and at its end: a command waits for all
    of it no longer than 2 s."""
    places = range(0, length, size)
    if size < 500:
        near = [0, *(1 << power for power in range(9, 15)), length]
        places = [it for it in places if any(abs(it - place) < 200 for place in near)]
    return [*places, length]


def pieces_of_a_reply(world, checks):
    """A full page of logins of 255 bytes reaches `report` in pieces."""
    logins = long_logins(100)
    page, last = wire.page_reply([wire.row(it, 0, 1, 3) for it in logins]), wire.page_reply([])
    lines = b"".join(b"      0       1       3 " + it + b"\n" for it in logins)
    for size in PIECES:
        with socket.create_server(("127.0.0.1", 0)) as listener:
            words = ["report", "--server", "127.0.0.1:%d" % listener.getsockname()[1], "--day", "1"]
            process = subprocess.Popen(
                [world.program, *words], stdout=subprocess.PIPE, stderr=subprocess.PIPE
            )
            listener.settimeout(LONG / 1_000)
            for reply in (page, last):
                peer, _ = listener.accept()
                # (a peer that ends the connection before has its case fail below)
                with peer, contextlib.suppress(OSError):
                    peer.setsockopt(socket.IPPROTO_TCP, socket.TCP_NODELAY, 1)
                    read_request(peer)
                    for start, end in itertools.pairwise(cuts(len(reply), size)):
                        peer.sendall(reply[start:end])
                        if size > 500:
                            time.sleep(0.001)
            output, errors = process.communicate()
            checks.equal(
                f"a full page in pieces of {size:,} bytes",
                (process.returncode, output, errors),
                (0, lines, b""),
            )
    print(f"    pieces of {len(PIECES)} sizes", flush=True)
