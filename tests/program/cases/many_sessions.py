"""Thousands of sessions and transactions that are open in one filter at once, of closings that
wait, and of lines in turn."""
import socket
import threading

import wire
from books import Books
from cases.edges import answers
from cases.filters import AUTH, BEGIN, CONFIG, PROCEED, RCPT, REGISTRATION, SERVICE, answer
from cases.many_numbers import MOMENT, Filter
from ends import SECONDS, Script, Server, read_to_end
from rows import same_rows

SESSION = b"7641df9771b4ed00"
# A client has places for so many transactions, open or with closings that wait.
PLACES = 4_096
FEWER = [500, 1_000, PLACES]
SESSIONS = 10_000
TRANSACTIONS = 70_000
IN_TURN = 20_000
DEFAULT = 1_000_000


def run(world, checks):
    open_transactions(world, checks)
    open_in_a_ledger(world, checks)
    waiting_closings(world, checks)
    open_sessions(world, checks)
    many_transactions(world, checks)
    lines_in_turn(world, checks)
    a_thousand_recipients(world, checks)


def name_of(number):
    return b"%016x" % number


def within(text, number):
    return text.replace(SESSION, name_of(number))


def reserve(sequence, txn):
    return wire.reserve(sequence, txn=txn, login=b"alice", at=MOMENT, host=b"mx1")


def settle(sequence, txn, count=1):
    return wire.settle(sequence, txn=txn, count=count, login=b"alice", at=MOMENT, host=b"mx1")


def same_frames(checks, what, heard, frames):
    other = [place for place, pair in enumerate(zip(heard, frames), 1) if pair[0] != pair[1]]
    checks.equal(f"{what}: {len(frames):,} frames", (len(heard), other[:5]), (len(frames), []))


def proceeds(numbers):
    return b"".join(answer(PROCEED, name_of(number)) for number in numbers)


def commit(number):
    return within(
        b"report|0.7|1576146011.006099|smtp-in|tx-commit|7641df9771b4ed00|4c56d3a1|1200\n", number
    )


def open_transactions(world, checks):
    """As many as a client has places for, a recipient each; one more is refused, and asked for once
    another is committed."""
    books, frames, numbers = Books(0, DEFAULT), [], range(1, PLACES + 1)
    frames = [reserve(n, n) for n in numbers] + [
        settle(PLACES + 1, 1),
        reserve(PLACES + 2, PLACES + 1),
    ]
    frames += [settle(PLACES + 1 + n, n) for n in range(2, PLACES + 2)]
    with Script([books.serve] * len(frames)) as server:
        it = Filter(world, server.address)
        checks.equal("the filter registers", it.say(CONFIG, len(REGISTRATION)), REGISTRATION)
        before = 0
        for count in FEWER:
            some = range(before + 1, count + 1)
            wanted = proceeds(some)
            came = it.say(b"".join(within(AUTH + BEGIN + RCPT, n) for n in some), len(wanted))
            checks.equal(f"{count:,} open transactions", came, wanted)
            before = count
        wanted = answer(SERVICE, name_of(PLACES + 1))
        checks.equal(
            "one more than there are places for",
            it.say(within(AUTH + BEGIN + RCPT, PLACES + 1), len(wanted)),
            wanted,
        )
        wanted = proceeds([PLACES + 1])
        checks.equal(
            "the same once another was committed",
            it.say(commit(1) + within(RCPT, PLACES + 1), len(wanted)),
            wanted,
        )
        it.send(b"".join(commit(n) for n in range(2, PLACES + 2)))
        checks.equal("all of them committed: the filter's end", it.end(), (0, b""))
    same_frames(checks, f"{PLACES:,} open transactions", server.heard, frames)
    print(f"    {', '.join(f'{it:,}' for it in FEWER)} open transactions of a filter", flush=True)


def open_in_a_ledger(world, checks):
    """The same number of them for one login, over a list, over tables and over a file, with a limit
    and a page between; then a retire of all."""
    opened = [reserve(n, n) for n in range(1, PLACES + 1)]
    login = {"login": b"alice"}
    day = MOMENT // 86_400
    asked = [
        wire.usage(b"alice", day),
        wire.page(day=day),
        wire.limit(1, 0, PLACES - 1, host=b"admin", **login),
        wire.limit(2, 0, PLACES, host=b"admin", **login),
    ]
    more = [
        reserve(PLACES + 1, PLACES + 1),
        *(settle(2 * PLACES + n, n) for n in range(1, PLACES + 1, 7)),
        reserve(PLACES + 2, PLACES + 2),
    ]
    retired = [wire.retire(1, run=2, host=b"mx1"), *asked[:2], opened[0], opened[-1]]
    sent = [b"".join(it) for it in (opened, asked, more, asked[:2], retired)]
    path, books = f"{world.folder}/open", Books(0, DEFAULT)
    with Server(world, words=["--create"], store=path, default=DEFAULT) as server:
        checks.equal(
            f"{PLACES:,} open transactions of a login, a file",
            [answers(server, it) for it in sent],
            [books.serve(it) for it in sent],
        )
    same_rows(checks, f"{PLACES:,} open transactions, retired", path, books)
    for words in ([], ["--sql"]):
        # (a list goes through all for each)
        few = [b"".join(opened[:1_000]), sent[1], sent[3], sent[4]]
        books = Books(0, DEFAULT)
        printed = "".join(f"{books.serve(it).hex()}\n" for it in few)
        came = world.run(
            "replay",
            "--default",
            str(DEFAULT),
            *words,
            text="\n\n".join(it.hex() for it in few).encode(),
        )
        checks.equal(
            " ".join(["1,000 open transactions of a login, and a retire: replay", *words]),
            came,
            (0, printed.encode(), ""),
        )


def waiting_closings(world, checks):
    """All places of a client have closings that wait for a server; once it is there each of them is
    sent, in order."""
    with socket.socket() as held:
        held.bind(("127.0.0.1", 0))
        it = Filter(world, "127.0.0.1:%d" % held.getsockname()[1], tries=1)
        numbers = range(1, PLACES + 1)
        wanted = REGISTRATION + b"".join(answer(SERVICE, name_of(n)) for n in numbers)
        text = (
            CONFIG
            + b"".join(within(AUTH + BEGIN + RCPT, n) for n in numbers)
            + b"".join(commit(n) for n in numbers)
        )
        checks.equal(f"{PLACES:,} transactions without a server", it.say(text, len(wanted)), wanted)
        wanted = answer(SERVICE, name_of(PLACES + 1))
        checks.equal(
            "a recipient beside as many closings that wait",
            it.say(within(AUTH + BEGIN + RCPT, PLACES + 1), len(wanted)),
            wanted,
        )
        held.listen(128)
        frames = [
            wire.release(PLACES + n, txn=n, login=b"alice", at=MOMENT, host=b"mx1") for n in numbers
        ]
        heard, books = [], Books(0, DEFAULT)
        serving = threading.Thread(
            target=serve, args=(held, heard, books, len(frames)), daemon=True
        )
        serving.start()
        checks.equal("closings that wait: the filter's end", it.end(), (0, b""))
        serving.join(timeout=SECONDS)
    same_frames(checks, "closings that wait", heard, frames)
    print(f"    {PLACES:,} closings that wait", flush=True)


def serve(listener, heard, books, count):
    listener.settimeout(SECONDS)
    for _ in range(count):
        try:
            peer, _ = listener.accept()
        except OSError:
            return
        with peer:
            peer.settimeout(SECONDS)
            came = read_to_end(peer)
            heard.append(came)
            peer.sendall(books.serve(came))


def open_sessions(world, checks):
    """10,000 sessions with a login and an open transaction; the first, some and the last then ask
    for a recipient each."""
    asking = [1, 2, 499, 500, 501, 1_000, 4_096, 4_097, 9_999, SESSIONS]
    books = Books(0, DEFAULT)
    with Script([books.serve] * (2 * len(asking))) as server:
        it = Filter(world, server.address)
        text = CONFIG + b"".join(within(AUTH + BEGIN, n) for n in range(1, SESSIONS + 1))
        wanted = REGISTRATION + proceeds(asking)
        checks.equal(
            f"{SESSIONS:,} open sessions",
            it.say(text + b"".join(within(RCPT, n) for n in asking), len(wanted)),
            wanted,
        )
        it.send(b"".join(commit(n) for n in range(1, SESSIONS + 1)))
        checks.equal(f"{SESSIONS:,} open sessions: the filter's end", it.end(), (0, b""))
    frames = [reserve(place, n) for place, n in enumerate(asking, 1)] + [
        settle(len(asking) + place, n) for place, n in enumerate(asking, 1)
    ]
    same_frames(checks, f"{SESSIONS:,} open sessions", server.heard, frames)
    print(f"    {SESSIONS:,} open sessions", flush=True)


def many_transactions(world, checks):
    """70,000 transactions of a session in turn, none of which asks for a recipient but the last."""
    books = Books(0, DEFAULT)
    with Script([books.serve] * 2) as server:
        it = Filter(world, server.address)
        wanted = REGISTRATION + answer(PROCEED)
        text = CONFIG + AUTH + BEGIN * TRANSACTIONS + RCPT
        checks.equal(f"the transaction {TRANSACTIONS:,}", it.say(text, len(wanted)), wanted)
        it.send(commit(1).replace(name_of(1), SESSION))
        checks.equal(f"{TRANSACTIONS:,} transactions: the filter's end", it.end(), (0, b""))
    same_frames(
        checks,
        f"the transaction {TRANSACTIONS:,}",
        server.heard,
        [reserve(1, TRANSACTIONS), settle(2, TRANSACTIONS)],
    )
    print(f"    {TRANSACTIONS:,} transactions in turn", flush=True)


def lines_in_turn(world, checks):
    """20,000 requests, each written once the one before is answered, so that a read has one at
    most."""
    other = RCPT.replace(b"rcpt-to", b"mail-from")
    it = Filter(world, "127.0.0.1:1")
    it.say(CONFIG, len(REGISTRATION))
    done = 0
    while done < IN_TURN:
        it.send(other)
        if it.process.stdout.read(len(answer(PROCEED))) != answer(PROCEED):
            break
        done += 1
    checks.equal("requests in turn that are answered", done, IN_TURN)
    checks.equal(f"{IN_TURN:,} requests in turn: the filter's end", it.end(), (0, b""))
    print(f"    {IN_TURN:,} requests in turn", flush=True)


def a_thousand_recipients(world, checks):
    """Twice in one session, with the real server: 1,000 recipients of a mail and their settle."""
    with Server(world, default=DEFAULT) as server:
        it = Filter(world, server.address)
        it.say(CONFIG + AUTH, len(REGISTRATION))
        for turn in (1, 2):
            wanted = answer(PROCEED) * 1_000 + answer(SERVICE)
            checks.equal(
                f"mail {turn} of 1,001 recipients",
                it.say(BEGIN + RCPT * 1_001, len(wanted)),
                wanted,
            )
            it.send(commit(1).replace(name_of(1), SESSION))
        checks.equal("mails of 1,000 recipients: the filter's end", it.end(), (0, b""))
        usage = (
            b"\x8b"
            + wire.text(b"alice")
            + b"".join(map(wire.number, (MOMENT // 86_400, 2_000, 0, DEFAULT)))
        )
        checks.equal(
            "mails of 1,000 recipients: what they settled",
            server.ask(wire.usage(b"alice", MOMENT // 86_400)),
            wire.frame(usage),
        )
