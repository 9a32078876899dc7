"""How many calls of the system servers, filters and commands make for what they do. A program that
does less at a time answers as well and costs its machine far more, which a clock can't tell from a
machine that has much else to do. Calls can be counted."""
import collections
import threading
import time

import wire
from cases.filters import AUTH, BEGIN, CONFIG, GRANTED, PROCEED, RCPT, REGISTRATION, answer
from cases.peers import NOTHING_USED
from ends import Script, Server, read_all, send_no_more, wait_until

# Kinds of calls, by their numbers.
READS, WRITES, WAITS, ACCEPTS, CONNECTS = (
    (0, 19, 45, 47),
    (1, 20, 44, 46),
    (7, 232, 271, 281),
    (43, 288),
    (42,),
)
FILE_WRITES, SYNCS = (18, 296), (74, 75)
INPUT, OUTPUT = 0, 1
Call = collections.namedtuple("Call", "number first third result")


def run(world, checks):
    requests_one_by_one(world, checks)
    requests_at_once(world, checks)
    peers_at_once(world, checks)
    over_a_file(world, checks)
    recipients(world, checks)
    lines_at_once(world, checks)
    a_long_report(world, checks)
    a_replay(world, checks)


class Noted:
    """The calls of a program, which runs under `limit`."""

    def __init__(self, world):
        self.path = world.new_file("")
        self.limit = ("noted", self.path)

    def calls(self):
        """All of them, once the program has ended."""
        wait_until(lambda: self.lines()[-1:] == ["end"])
        return [Call(*map(int, line.split())) for line in self.lines()[:-1]]

    def lines(self):
        with open(self.path, encoding="ascii") as notes:
            return notes.read().splitlines()


def count(calls, kind, of=None):
    """How many calls there are of a kind, of one descriptor where that is given."""
    return sum(call.number in kind and of in (None, call.first) for call in calls)


def after_first_accept(calls):
    """Those from the first connection on, and so none of a server's start."""
    return calls[[call.number in ACCEPTS and call.result >= 0 for call in calls].index(True) :]


def at_most(checks, what, came, most):
    checks.holds(what, came <= most, f"at most {most:,}", f"{came:,}")


def requests_one_by_one(world, checks):
    """A request costs a wait, a read with what came and one that finds nothing more, and a write.
    (Between two of them the server waits again.)"""
    asked, noted = 50, Noted(world)
    with Server(world, connections=1, limit=noted.limit) as server:
        with server.connect() as peer:
            for _ in range(asked):
                peer.sendall(wire.usage())
                came = peer.recv(100)
                time.sleep(0.01)
        checks.equal(
            "requests one by one: the last reply, and the end",
            (came, server.status()),
            (NOTHING_USED, 0),
        )
    calls, what = after_first_accept(noted.calls()), f"{asked} requests one by one"
    for kind, of_one in (("read", (READS, 2)), ("write", (WRITES, 1)), ("wait", (WAITS, 1))):
        at_most(
            checks,
            f"{what}: calls that {kind}",
            count(calls, of_one[0]),
            of_one[1] * asked + asked // 2,
        )
    at_most(checks, f"{what}: all calls", len(calls), 6 * asked + 60)


def asked_at_once(world, frames, wanted, **settings):
    """The calls of a server that finds all of these requests there, or many of them, from one peer;
    whether it answers so, and ends well."""
    noted = Noted(world)
    with Server(world, connections=1, limit=noted.limit, **settings) as server:
        with server.connect() as peer:
            with server.stopped():
                sending = threading.Thread(
                    target=lambda: (peer.sendall(frames), send_no_more(peer)), daemon=True
                )
                sending.start()
                sending.join(1)
            came = read_all(peer)
        good = came == wanted, server.status()
    return good, after_first_accept(noted.calls())


def requests_at_once(world, checks):
    """A read takes 4,096 bytes of what came, a write the replies of eight requests, and a wait is
    over sixteen of these."""
    asked = 4_000
    good, calls = asked_at_once(world, wire.usage() * asked, NOTHING_USED * asked)
    what, read = f"{asked:,} requests that come at once", len(wire.usage()) * asked
    checks.equal(f"{what}: they are answered, and the end", good, (True, 0))
    at_most(checks, f"{what}: calls that read", count(calls, READS), 4 * read // 4_096)
    at_most(checks, f"{what}: calls that write", count(calls, WRITES), 2 * asked // 8)
    at_most(checks, f"{what}: waits", count(calls, WAITS), 4 * asked // 128)


def peers_at_once(world, checks):
    """A round accepts up to 64 connections before it serves those that are open, and serves all
    that asked."""
    peers, noted, what = 100, Noted(world), "100 peers that ask at once"
    with Server(world, connections=peers, limit=noted.limit) as server:
        with server.stopped():
            asking = [server.connect() for _ in range(peers)]
            for peer in asking:
                peer.sendall(wire.usage())
                send_no_more(peer)
        came = [read_all(peer) for peer in asking]
        checks.equal(
            f"{what}: their answers, and the end",
            (came, server.status()),
            ([NOTHING_USED] * peers, 0),
        )
        for peer in asking:
            peer.close()
    calls = after_first_accept(noted.calls())
    before = calls[: [call.number in READS and call.result > 0 for call in calls].index(True)]
    accepted = sum(call.number in ACCEPTS and call.result >= 0 for call in before)
    at_most(checks, f"{what}: connections that are accepted before one is read", accepted, 64)
    at_most(checks, f"{what}: waits", count(calls, WAITS), 20)
    at_most(checks, f"{what}: calls that read", count(calls, READS), 3 * peers + 20)
    at_most(checks, f"{what}: calls that write", count(calls, WRITES), peers + 20)


def over_a_file(world, checks):
    """A request that changes the ledger is synced once; a question, a page and a repeat write
    nothing."""
    path, asked = f"{world.folder}/costs", 20
    reserves = [wire.reserve(n, txn=n, login=b"%d" % n) for n in range(1, asked + 1)]
    for what, frames, words, syncs, writes in [
        ("requests that change it", reserves, ["--create"], 1, 6),
        ("questions", [wire.usage(b"%d" % n) for n in range(1, asked + 1)], [], 0, 0),
        ("pages", [wire.page()] * asked, [], 0, 0),
        ("repeats", reserves, [], 0, 0),
    ]:
        noted = Noted(world)
        with Server(
            world, words=words, connections=1, store=path, default=1_000_000, limit=noted.limit
        ) as server:
            with server.connect() as peer:
                came = []
                for frame in frames:
                    peer.sendall(frame)
                    came.append(peer.recv(65_536))
            checks.equal(
                f"{asked} {what} of a file: answers, and the end",
                (sum(map(bool, came)), server.status()),
                (asked, 0),
            )
        calls, what = after_first_accept(noted.calls()), f"{asked} {what} of a file"
        at_most(checks, f"{what}: syncs", count(calls, SYNCS), syncs * asked + 2 * syncs)
        at_most(checks, f"{what}: writes of the file", count(calls, FILE_WRITES), writes * asked)


def recipients(world, checks):
    """Each recipient of a filter costs a connection, over which the frame goes out in one write and
    the reply comes in two reads, and a write of its own."""
    asked, noted = 20, Noted(world)
    what = f"{asked} recipients of a filter"
    replies = [GRANTED[:-8] + wire.number(n) + GRANTED[-4:] for n in range(1, asked + 1)]
    with Script(replies) as script:
        settings = world.filter_file(script.address)
        came = world.run(
            "filter",
            "--config",
            settings,
            "--run",
            "1",
            text=CONFIG + AUTH + BEGIN + RCPT * asked,
            limit=noted.limit,
        )
    checks.equal(f"{what}: their answers", came, (0, REGISTRATION + answer(PROCEED) * asked, ""))
    calls = noted.calls()
    at_most(checks, f"{what}: connections", count(calls, CONNECTS), asked)
    at_most(checks, f"{what}: calls that read", count(calls, READS), 3 * asked + 20)
    at_most(checks, f"{what}: calls that write", count(calls, WRITES), 2 * asked + 20)
    at_most(checks, f"{what}: all calls", len(calls), 20 * asked + 200)


def lines_at_once(world, checks):
    """A filter reads what smtpd wrote in pieces of 4,096 bytes, and writes each answer at once."""
    asked, noted = 2_000, Noted(world)
    what, text = f"{asked:,} lines that smtpd wrote at once", CONFIG + RCPT * asked
    came = world.run(
        "filter",
        "--config",
        world.filter_file("127.0.0.1:1"),
        "--run",
        "1",
        text=text,
        limit=noted.limit,
    )
    checks.equal(f"{what}: their answers", came, (0, REGISTRATION + answer(PROCEED) * asked, ""))
    calls = noted.calls()
    at_most(checks, f"{what}: calls that read", count(calls, READS, INPUT), 4 * len(text) // 4_096)
    at_most(checks, f"{what}: calls that write", count(calls, WRITES, OUTPUT), asked + 20)


def a_long_report(world, checks):
    """What a command prints is written in pieces, and not row by row."""
    logins, top, noted = 3_000, 2_900, Noted(world)
    what = f"a report of {logins:,} logins"
    with Server(world, default=1_000_000) as server:
        server.ask(
            b"".join(wire.reserve(n, txn=n, login=b"%04d" % n) for n in range(1, logins + 1))
        )
        status, output, errors = world.run(
            "report", "--server", server.address, "--day", "1", limit=noted.limit
        )
        came = world.run("report", "--server", server.address, "--day", "1", "--top", str(top))
    checks.equal(f"{what}: its rows", (status, output.count(b"\n"), errors), (0, logins, ""))
    checks.equal(
        f"{what}: the top {top:,}",
        (came[0], came[1].splitlines(), came[2]),
        (0, output.splitlines()[:top], ""),
    )
    calls = noted.calls()
    at_most(
        checks,
        f"{what}: calls that write it",
        count(calls, WRITES, OUTPUT),
        2 + 4 * len(output) // 8_192,
    )
    at_most(checks, f"{what}: connections", count(calls, CONNECTS), logins // 100 + 1)


def a_replay(world, checks):
    connections, noted = 500, Noted(world)
    what, text = f"a replay of {connections} connections", "\n\n".join(
        [wire.usage().hex()] * connections
    )
    status, output, errors = world.run(
        "replay", "--default", "3", text=text.encode(), limit=noted.limit
    )
    checks.equal(
        f"{what}: its lines",
        (status, output, errors),
        (0, f"{NOTHING_USED.hex()}\n".encode() * connections, ""),
    )
    at_most(
        checks,
        f"{what}: calls that write it",
        count(noted.calls(), WRITES, OUTPUT),
        2 + 4 * len(output) // 8_192,
    )
