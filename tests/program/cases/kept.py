"""A filter that keeps its connection, and a server that lets it: what one connection carries, and
what ends it, whichever end it is."""
import contextlib
import re
import resource
import select
import socket
import subprocess
import threading
import time

import wire
from cases.filters import (
    AUTH,
    BEGIN,
    COMMIT,
    CONFIG,
    LIMIT,
    PROCEED,
    RCPT,
    REGISTRATION,
    RESET_LINE,
    SERVICE,
    answer,
)
from cases.nights import GOES, MANY, filled, is_switched, is_through, nightly
from cases.peers import NOTHING_USED, name_of
from ends import (
    SECONDS,
    Listening,
    Server,
    copied,
    free_port,
    read_all,
    read_request,
    wait_past_a_night,
    wait_until,
)

OPENED = CONFIG + AUTH + BEGIN
# so many frames the server takes of a connection, and recipients of a message
FRAMES, MOST = 10_000, 1_000


def run(world, checks):
    one_for_all(world, checks)
    a_server_that_is_restarted(world, checks)
    over_a_night(world, checks)
    an_idle_one(world, checks)
    a_late_reply(world, checks)
    gone_without_a_word(world, checks)
    many_requests(world, checks)
    commands(world, checks)
    hosts_beside_peers_that_drip(world, checks)
    idle_ones_beside_new_ones(world, checks)


class Passing(Listening):
    """Passes each connection on to a server, and counts them."""

    def __init__(self, address):
        super().__init__()
        host, _, port = address.rpartition(":")
        self.target, self.count = (host, int(port)), 0

    def serve(self):
        while peer := self.next_peer():
            self.count += 1
            server = socket.create_connection(self.target)
            for here, there in ((peer, server), (server, peer)):
                for it in (here, there):
                    it.setsockopt(socket.IPPROTO_TCP, socket.TCP_NODELAY, 1)
                passing = threading.Thread(target=pass_on, args=(here, there), daemon=True)
                passing.start()


def pass_on(here, there):
    """Passes on what comes, and its end."""
    here.settimeout(None)
    with contextlib.suppress(OSError):
        while piece := here.recv(65_536):
            there.sendall(piece)
    with contextlib.suppress(OSError):
        there.shutdown(socket.SHUT_WR)


def dated(lines, at):
    """The same lines at this second, where one is given."""
    return re.sub(rb"\b15761460\d\d\b", b"%d" % at, lines) if at else lines


class Asking:
    """A filter that is asked a recipient at a time, of a message that begins at a second."""

    def __init__(self, world, address, at=None, **settings):
        self.recipient = dated(RCPT, at)
        file = world.filter_file(address, **{"keep_connection": True, **settings})
        self.errors = open(world.new_file(""), "w+b")
        self.process = subprocess.Popen(
            [world.program, "filter", "--config", file, "--run", "1"],
            stdin=subprocess.PIPE,
            stdout=subprocess.PIPE,
            stderr=self.errors,
        )
        self.write(dated(OPENED, at))
        self.process.stdout.read(len(REGISTRATION))

    def __enter__(self):
        return self

    def __exit__(self, *_):
        self.process.stdin.close()
        self.process.wait(timeout=SECONDS)
        self.process.stdout.close()
        self.errors.close()

    def write(self, lines):
        self.process.stdin.write(lines)
        self.process.stdin.flush()

    def ask(self):
        """The answer to one recipient."""
        self.write(self.recipient)
        return self.process.stdout.readline()

    def log(self):
        with open(self.errors.name, encoding="ascii") as log:
            return log.read().splitlines()


def one_for_all(world, checks):
    """Without the setting each request has a connection, and with it all have one."""
    for keeps, wanted in ((None, 5), (False, 5), (True, 1)):
        with Server(world, default=9) as server, Passing(server.address) as link:
            with Asking(world, link.address, keep_connection=keeps) as it:
                came = [it.ask() for _ in range(5)]
                count = link.count
            log = it.log()
            checks.equal(
                f"keep_connection = {keeps}: five answers, their connections, and both logs",
                (came, count, log, server.log_lines()),
                ([answer(PROCEED)] * 5, wanted, [], []),
            )


def a_server_that_is_restarted(world, checks):
    """The same frame goes out once more, within the same try."""
    listen, path = f"127.0.0.1:{free_port()}", f"{world.folder}/kept"
    settings = {"listen": listen, "store": path, "default": 9}
    with Server(world, words=["--create"], **settings):
        it = Asking(world, listen, tries=1)
        first = it.ask()
    with it, Server(world, **settings):
        second, third = it.ask(), it.ask()
    checks.equal(
        "a server that is restarted between requests: the answers, and the filter's log",
        (first, second, third, it.log()),
        (*[answer(PROCEED)] * 3, []),
    )


def over_a_night(world, checks):
    """Days leave the ledger while it is served: at the switch to the new file connections end, and
    the next request finds that."""
    wait_past_a_night()
    source = f"{world.folder}/before-a-night"
    filled(world, source, MANY)
    for go in range(GOES):
        path = copied(source, f"{world.folder}/over-a-night{go}")
        with nightly(world, path) as server, Passing(server.address) as link:
            with Asking(world, link.address, at=int(time.time()), host="mx9", tries=1) as it:
                came = [it.ask()]
                is_early = not is_switched(path)
                is_over = wait_until(lambda: is_through(server))
                came.append(it.ask())
                count = link.count
            warned = [line for line in server.log_lines() if "connection of" in line]
        if is_early:
            break
    checks.equal(
        "before and after a night: the answers, the connections, and both logs",
        (is_early, is_over, came, count, it.log(), warned),
        (True, True, [answer(PROCEED)] * 2, 2, [], []),
    )


def an_idle_one(world, checks):
    """The server ends it, which it doesn't warn of, and the next request finds that."""
    with Server(world, default=9, idle=1) as server, Passing(server.address) as link:
        with Asking(world, link.address, tries=1) as it:
            came = [it.ask(), it.ask()]
            time.sleep(1.6)
            came += [it.ask(), it.ask()]
            count = link.count
        checks.equal(
            "idle longer than the server lets it: the answers, the connections, and both logs",
            (came, count, it.log(), server.log_lines()),
            ([answer(PROCEED)] * 4, 2, [], []),
        )
    how_long_it_may_be_idle(world, checks)


def ending(peer):
    """What comes still until the connection is ended, and after how many seconds that is."""
    start = time.monotonic()
    return read_all(peer), time.monotonic() - start


def how_long_it_may_be_idle(world, checks):
    """The time of a request has a timeout, and begins anew with each; between them it is longer."""
    with Server(world, timeout=500, idle=3) as server, server.connect() as peer:
        came = []
        for _ in range(3):
            time.sleep(1.2 if came else 0)
            peer.sendall(wire.usage())
            came.append(peer.recv(65_536))
        checks.equal(
            "a peer that asks each 1.2 s, where a request has 0.5 s: its answers",
            came,
            [NOTHING_USED] * 3,
        )
        ended, took = ending(peer)
        checks.holds(
            "and then not: it is ended after the idle time",
            ended == b"" and 2.9 < took < 3.9,
            "after 3 s, with no byte",
            (ended, f"{took:.2f} s"),
        )
        checks.equal("and the log has no line of it", server.log_lines(), [])
    with Server(world, timeout=500, idle=60) as server, server.connect() as peer:
        peer.sendall(wire.usage())
        peer.recv(65_536)
        peer.sendall(wire.usage()[:5])
        ended, took = ending(peer)
        checks.holds(
            "half a request after an idle time has the time of a request",
            ended == b"" and 0.4 < took < 1.4,
            "after 0.5 s",
            (ended, f"{took:.2f} s"),
        )
        wanted = [f"[WARN  connections] connection of {name_of(peer)}: read failed"]
        checks.equal("and the log has its line", server.log_lines(), wanted)


class Late(Listening):
    """Answers the first question too late, by what would be a good answer to the second, on its
    connection; and the second as the limit wants it."""

    def __init__(self):
        super().__init__()
        self.heard = []

    def serve(self):
        first = self.next_peer()
        self.heard.append(read_request(first))
        second = self.next_peer()
        self.heard.append(read_request(second))
        number = 2
        with contextlib.suppress(OSError):
            first.sendall(granted_to_mx1(number))
        second.sendall(wire.full(number, 3, 3, host=b"mx1"))
        for peer in (first, second):
            peer.close()


def granted_to_mx1(number):
    return wire.granted(number, 1, host=b"mx1")


def a_late_reply(world, checks):
    """It stays on a connection on which nothing more is read."""
    with Late() as link:
        with Asking(world, link.address, tries=1, timeout=300) as it:
            came = [it.ask(), it.ask()]
    checks.equal(
        "a reply that comes late: the answer that it comes too late for, and the next",
        came,
        [answer(SERVICE), answer(LIMIT)],
    )
    checks.equal(
        "and the second question isn't the first again", link.heard[0] == link.heard[1], False
    )


class Mute(Listening):
    """Answers a question, and then takes what comes and says nothing, on each connection."""

    def __init__(self, replies):
        super().__init__()
        self.replies, self.peers, self.heard = list(replies), [], []

    def serve(self):
        while peer := self.next_peer():
            self.peers.append(peer)
            answering = threading.Thread(target=self.answer, args=(peer,), daemon=True)
            answering.start()

    def answer(self, peer):
        with contextlib.suppress(OSError):
            self.heard.append(read_request(peer))
            if self.replies:
                peer.sendall(self.replies.pop(0))
            self.heard.append(read_request(peer))


def gone_without_a_word(world, checks):
    """A connection over which no answer comes in time is no closed one: the try is over, and the
    next one has a new connection."""
    with Mute([granted_to_mx1(1), granted_to_mx1(2)]) as link:
        with Asking(world, link.address, tries=2, timeout=400) as it:
            first = it.ask()
            start = time.monotonic()
            second = it.ask()
            took = time.monotonic() - start
        checks.holds(
            "a server that says no more: two tries, of a timeout and on another connection",
            (first, second, len(link.peers)) == (answer(PROCEED), answer(PROCEED), 2)
            and 0.39 < took < 1.3,
            "let through, two connections, after 0.4 s",
            (first, second, len(link.peers), f"{took:.2f} s"),
        )


def many_requests(world, checks):
    """The 10,000th frame of a connection never comes."""
    with Server(world, default=1_000_000) as server, Passing(server.address) as link:
        with Asking(world, link.address) as it:
            lines = (RCPT * MOST + COMMIT + RESET_LINE + BEGIN) * 10 + RCPT * 5
            asking = threading.Thread(target=it.write, args=(lines,), daemon=True)
            asking.start()
            came = [it.process.stdout.readline() for _ in range(FRAMES + 5)]
            asking.join(timeout=SECONDS)
            count = link.count
        checks.equal(
            "10,005 recipients of 11 messages: their answers, connections, and the server's log",
            (came.count(answer(PROCEED)), count, server.log_lines()),
            (FRAMES + 5, 2, []),
        )


def commands(world, checks):
    """A command keeps its connection for all that it asks."""
    with Server(world, default=9) as server, Passing(server.address) as link:
        for number in range(1, 251):
            login = b"%03d" % number
            server.ask(wire.reserve(number, txn=number, login=login))
        status, output, errors = world.run("report", "--server", link.address, "--day", "1")
        checks.equal(
            "a report of three pages: its lines, and its connections",
            (status, output.count(b"\n"), errors, link.count, server.log_lines()),
            (0, 250, "", 1, []),
        )


def with_many_files():
    soft, hard = resource.getrlimit(resource.RLIMIT_NOFILE)
    wanted = min(4_096, hard) if hard != resource.RLIM_INFINITY else 4_096
    if soft < wanted:
        resource.setrlimit(resource.RLIMIT_NOFILE, (wanted, hard))


def hosts_beside_peers_that_drip(world, checks):
    """300 hosts that asked, and are idle; then 900 peers, each of which sends a byte now and then:
    the hosts are answered on their connections, and it is the others that had no place."""
    with_many_files()
    with Server(world, timeout=60_000) as server:
        hosts = [server.connect() for _ in range(300)]
        for host in hosts:
            host.sendall(wire.usage())
        came = [host.recv(65_536) for host in hosts]
        peers = []
        for _ in range(900):
            peer = server.connect()
            with contextlib.suppress(OSError):
                peer.sendall(wire.usage()[:1])
            peers.append(peer)
        for peer in peers:
            with contextlib.suppress(OSError):
                peer.sendall(wire.usage()[1:2])
        for host in hosts:
            host.sendall(wire.usage())
        came += [host.recv(65_536) for host in hosts]
        checks.equal("300 hosts beside 900 peers that drip", came, [NOTHING_USED] * 600)
        wait_until(lambda: len(server.log_lines()) >= 300)
        lines = server.log_lines()
        names = {name_of(peer) for peer in peers}
        good = len(lines) == 300 and all(
            line.endswith(": too many connections")
            and line.partition("connection of ")[2].removesuffix(": too many connections") in names
            for line in lines
        )
        checks.holds("300 of the 900 went", good, "a line for each, and none of a host", lines[:3])
        for peer in hosts + peers:
            peer.close()


def has_ended(peer):
    """Whether the other end has ended a connection on which nothing comes."""
    came = select.poll()
    came.register(peer, select.POLLIN)
    return bool(came.poll(0))


def idle_ones_beside_new_ones(world, checks):
    """Idle ones have at most 600 of the places, once all are taken: so 900 of them hold up no host
    that comes."""
    with_many_files()
    with Server(world, timeout=60_000) as server:
        idle, came = [server.connect() for _ in range(900)], []
        for some in (idle[:100], idle[100:]):
            for peer in some:
                peer.sendall(wire.usage())
            came += [peer.recv(65_536) for peer in some]
        with server.stopped():
            new = [server.connect() for _ in range(100)]
            for peer in new:
                peer.sendall(wire.usage())
        came += [peer.recv(65_536) for peer in new]
        checks.equal("900 idle peers, and 100 new ones at once", came, [NOTHING_USED] * 1_000)
        gone = [peer for peer in idle if has_ended(peer)]
        checks.equal("those that were idle longest went", gone, idle[:100])
        for peer in idle + new:
            peer.close()
