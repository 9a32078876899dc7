"""What a ledger in a file has after each kind of end: every reply that was given is given again,
limits hold, what was used counts, and what comes then is answered as by a ledger that never
ended."""
import signal

import wire
from books import Books
from cases.edges import LONGEST_HOST, answers
from ends import Server, ledger_settings
from rows import same_rows

DEFAULT = 5
HOSTS = [b"mx1", LONGEST_HOST]
RUN = 1_795_674_158_000
DAYS = [20_000, 20_001, 20_002]
LOGINS = [b"alice", b"b", b"\xff" * 255]
KINDS = {*range(0x81, 0x8D)}


def run(world, checks):
    ends = {
        **{
            name: by_signal(signal.Signals[name])
            for name in ("SIGTERM", "SIGINT", "SIGHUP", "SIGKILL")
        },
        "SIGKILL with half a request on its way": killed_with_half_a_request,
        # (four connections are asked below)
        "its last connection": lambda server, _: server.status() == 0,
    }
    path, books, sent, kinds = f"{world.folder}/restarts", Books(0, DEFAULT), [], set()
    for turn, (what, end) in enumerate(ends.items()):
        connections = 4 if what == "its last connection" else None
        new = requests(turn)
        with Server(
            world,
            connections=connections,
            words=[] if turn else ["--create"],
            store=path,
            default=DEFAULT,
        ) as server:
            parts = {
                "what was asked before": sent,
                "what is used": asked(),
                "what is new": new,
                "what is used then": asked(),
            }
            for name, frames in parts.items():
                wanted = [books.serve(it) for it in frames]
                kinds |= {it[2] for it in wanted}
                checks.equal(
                    f"before {what}, {len(frames)} requests: {name}",
                    answers(server, b"".join(frames)),
                    b"".join(wanted),
                )
            checks.equal(f"the server ends by {what}", end(server, books), True)
        sent += new
        same_rows(checks, f"behind {what}", path, books)
        came = world.run("audit", "--config", ledger_settings(world, path, default=DEFAULT))
        checks.equal(
            f"audit behind {what}",
            came,
            (
                0,
                f"sound days={len(books.usage)} transactions={len(books.transactions)}\n".encode(),
                "",
            ),
        )
    checks.equal("the kinds of replies among them", kinds, KINDS)
    print(
        f"    {len(ends)} kinds of end, {len(sent)} requests, limits of {len(books.limits)} logins",
        flush=True,
    )


def by_signal(number):
    def end(server, _books):
        server.process.send_signal(number)
        return server.status() == -number

    return end


def killed_with_half_a_request(server, books):
    """The reply to the request before it is read first."""
    whole = wire.reserve(1, login=LOGINS[0], at=86_400 * DAYS[0], host=b"half")
    with server.connect() as peer:
        peer.sendall(whole + wire.reserve(2, login=LOGINS[0], host=b"half")[:20])
        replied = peer.recv(65_536) == books.serve(whole)
        return by_signal(signal.SIGKILL)(server, books) and replied


def requests(turn):
    """New ones of each kind, with new numbers and transactions in each turn."""
    frames, number = [], turn * 1_000
    for host in HOSTS:
        for login in LOGINS:
            for day in DAYS:
                number += 10
                its = {
                    "txn": number,
                    "login": login,
                    "at": 86_400 * day + turn,
                    "host": host,
                    "run": RUN,
                }
                from_host = {"host": host, "run": RUN}
                frames += [
                    wire.reserve(number, count=2, **its),
                    wire.reserve(number + 1, count=1, **its),
                    wire.reserve(number + 2, count=4, **its),
                    wire.reserve(number + 2, count=3, **its),
                    wire.reserve(number + 3, **{**its, "at": 86_400 * day}),
                    wire.limit(number + 4, day, turn, login=login, **from_host),
                    wire.limit(number + 5, day, 4 + 3 * turn, login=login, **from_host),
                ]
                if day != DAYS[1]:
                    frames.append(wire.settle(number + 6, count=5, **its))
                    frames.append(
                        wire.settle(number + 7, count=1, **its)
                        if day == DAYS[0]
                        else wire.release(number + 7, **its)
                    )
                    frames.append(wire.settle(number + 8, count=1, **its))
    return frames


def asked():
    return [wire.usage(login, day) for login in LOGINS for day in DAYS] + [
        wire.page(after, day) for day in DAYS for after in (b"", b"b")
    ]
