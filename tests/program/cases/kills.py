"""The server over a file, killed under load, and what it answers after each start.

Four hosts send numbered requests, each again until its reply was read, and the server is killed by
SIGKILL again and again. After each start every reply that was read has to be the answer to its
number still, and what each login has used on each day what was granted. Now and then `audit` is
asked of the file in between.
"""
import itertools
import os
import random
import re
import signal
import socket
import subprocess
import threading
import time

import wire
from ends import SECONDS, toml, wait_for_listener

KILLS = 100
HOSTS = [b"mx1", b"mx2", b"mx3", b"mx4"]
LOGINS = [b"u%02d" % number for number in range(20)]
DAYS = [1, 2]
DEFAULT = 200
# Frames on one connection; the server takes 10,000.
MOST_FRAMES = 5_000
GRANTED, SETTLED, RELEASED = 0x81, 0x83, 0x84
SOUND = re.compile(rb"sound days=([0-9]+) transactions=([0-9]+)\n")


class FileServer:
    """The real server over a file, started again and again, each time at a port of its own."""

    def __init__(self, world):
        self.world = world
        self.store = f"{world.folder}/kills.db"
        self.log = world.new_file("")
        self.process = None
        self.port = None

    def settings(self):
        """A file of settings."""
        whole = {
            "listen": "127.0.0.1:0",
            "store": self.store,
            "default": DEFAULT,
            "offset": 0,
            "timeout": 20_000,
        }
        return self.world.new_file(toml(whole))

    def start(self, *options):
        words = [self.world.program, "server", "--config", self.settings(), *options]
        with open(self.log, "ab") as log:
            self.process = subprocess.Popen(words, stdin=subprocess.DEVNULL, stdout=log, stderr=log)

    def serve(self, *options):
        """Starts it, and returns the port once it listens."""
        self.start(*options)
        self.port = wait_for_listener(self.process)
        if self.process.poll() is not None:
            with open(self.log, errors="replace") as log:
                raise AssertionError(
                    f"the server ended with status {self.process.returncode}: {log.read()[-500:]}"
                )

    def kill(self):
        if self.process.poll() is None:
            os.kill(self.process.pid, signal.SIGKILL)
        self.process.wait(timeout=SECONDS)

    def audit(self):
        """What `audit` says while no server has the file."""
        return self.world.run("audit", "--config", self.settings())

    def replies(self, frames):
        """What comes back for these frames, whole frame by whole frame, until the connection
        breaks."""
        try:
            with socket.create_connection(
                ("127.0.0.1", self.port), timeout=SECONDS
            ) as peer, peer.makefile("rb") as back:
                sending = threading.Thread(target=send, args=(peer, frames), daemon=True)
                sending.start()
                for _ in frames:
                    head = back.read(2)
                    body = back.read(int.from_bytes(head, "big"))
                    if len(head) < 2 or len(body) < int.from_bytes(head, "big"):
                        return
                    yield head + body
                sending.join()
        except OSError:
            return


def send(peer, frames):
    try:
        peer.sendall(b"".join(frames))
    except OSError:
        pass


class Gate:
    """Where hosts wait while nobody is to send."""

    def __init__(self):
        self.changed = threading.Condition()
        self.is_open = True
        self.waiting = 0

    def set(self, is_open):
        with self.changed:
            self.is_open = is_open
            self.changed.notify_all()

    def pass_through(self):
        with self.changed:
            self.waiting += 1
            self.changed.notify_all()
            self.changed.wait_for(lambda: self.is_open)
            self.waiting -= 1

    def wait_for_all(self, count):
        with self.changed:
            return self.changed.wait_for(lambda: self.waiting == count, timeout=SECONDS)


class Host(threading.Thread):
    """Sends mails of its own: some reserves, then a settle, a release or neither, each again until
    its reply was read."""

    def __init__(self, name, server, gate):
        super().__init__(daemon=True)
        self.host, self.server, self.gate = name, server, gate
        self.chance = random.Random(name)
        self.sequence = itertools.count(1)
        self.answered = {}
        self.mails = 0
        self.totals = {}
        self.cut = 0
        self.over = False

    def run(self):
        for txn in itertools.count(1):
            self.gate.pass_through()
            if self.over:
                return
            self.mail(txn)

    def mail(self, txn):
        """One mail: the closing goes out once it is known what was granted."""
        login, day = self.chance.choice(LOGINS), self.chance.choice(DAYS)
        sender = {"txn": txn, "login": login, "at": 86_400 * day, "host": self.host}
        counts = [self.chance.randint(1, 3) for _ in range(self.chance.randint(1, 4))]
        replies = self.deliver(
            [wire.reserve(next(self.sequence), count=count, **sender) for count in counts]
        )
        self.mails += 1
        granted = sum(count for count, reply in zip(counts, replies) if reply[2] == GRANTED)
        settled, reserved = 0, granted
        closing = self.chance.choice(["settle", "release", "neither"])
        if closing == "settle" and granted:
            sent = self.chance.randint(1, granted)
            [reply] = self.deliver([wire.settle(next(self.sequence), count=sent, **sender)])
            if reply[2] == SETTLED:
                settled, reserved = sent, 0
        elif closing == "release":
            [reply] = self.deliver([wire.release(next(self.sequence), **sender)])
            if reply[2] == RELEASED:
                reserved = 0
        before = self.totals.get((login, day), (0, 0))
        self.totals[login, day] = (before[0] + settled, before[1] + reserved)

    def deliver(self, frames):
        """Sends these until each has its reply, and keeps what was read."""
        left = list(frames)
        for turn in itertools.count():
            read = list(self.server.replies(left))
            for frame, reply in zip(left, read):
                self.answered[frame] = reply
            left = left[len(read) :]
            if not left:
                break
            self.cut += turn == 0
            time.sleep(0.002)
        return [self.answered[frame] for frame in frames]


class Watch:
    """What is found after each start."""

    def __init__(self, server, hosts):
        self.server, self.hosts = server, hosts
        self.changed, self.miscounted, self.unsound = [], [], []
        self.asked = 0

    def look(self, kill):
        kept = [pair for host in self.hosts for pair in host.answered.items()]
        self.asked += len(kept)
        for (_, reply), again in zip(kept, self.ask([frame for frame, _ in kept])):
            if again != reply:
                self.changed.append((kill, reply.hex(), again.hex()))
        keys = list(itertools.product(LOGINS, DAYS))
        for (login, day), reply in zip(
            keys, self.ask([wire.usage(login, day) for login, day in keys])
        ):
            totals = [host.totals.get((login, day), (0, 0)) for host in self.hosts]
            settled, reserved = map(sum, zip(*totals))
            wanted = (
                b"\x8b"
                + wire.text(login)
                + b"".join(map(wire.number, (day, settled, reserved, DEFAULT)))
            )
            if reply != wire.frame(wanted) or settled + reserved > DEFAULT:
                self.miscounted.append((kill, login, day, settled, reserved, reply.hex()))

    def audit(self, kill):
        """It finds the transactions whose reserves were answered, and at most the one more that
        each host had begun."""
        status, output, errors = self.server.audit()
        found, answered = SOUND.fullmatch(output), sum(host.mails for host in self.hosts)
        days, transactions = map(int, found.groups()) if found else (0, 0)
        good = 0 < days <= len(LOGINS) * len(DAYS) and answered <= transactions <= answered + len(
            self.hosts
        )
        if not good or status != 0 or errors:
            self.unsound.append((kill, answered, status, output, errors))

    def ask(self, frames):
        replies = []
        for start in range(0, len(frames), MOST_FRAMES):
            replies += self.server.replies(frames[start : start + MOST_FRAMES])
        if len(replies) != len(frames):
            raise AssertionError(f"{len(replies)} replies to {len(frames)} requests")
        return replies


def kill_again_and_again(server, hosts, gate, watch, kills):
    """Each time a while of load, a kill, a start, and a look while nobody sends; now and then a
    kill while it starts, and an audit."""
    chance = random.Random(kills)
    for kill in range(1, kills + 1):
        gate.set(True)
        time.sleep(chance.uniform(0.01, 0.15))
        server.kill()
        if kill % 10 == 0:
            server.start()
            time.sleep(chance.uniform(0, 0.02))
            server.kill()
        if kill % 4 == 0:
            watch.audit(kill)
        server.serve()
        gate.set(False)
        if not gate.wait_for_all(len(hosts)):
            raise AssertionError("a host has no reply")
        watch.look(kill)


def run(world, checks, kills=KILLS):
    server, gate = FileServer(world), Gate()
    server.serve("--create")
    hosts = [Host(name, server, gate) for name in HOSTS]
    watch = Watch(server, hosts)
    for host in hosts:
        host.start()
    try:
        kill_again_and_again(server, hosts, gate, watch, kills)
    except AssertionError as error:
        checks.equal(f"serving through {kills} kills", str(error), "no fault")
    finally:
        for host in hosts:
            host.over = True
        gate.set(True)
        server.kill()
    read, cut = sum(len(host.answered) for host in hosts), sum(host.cut for host in hosts)
    grants = {reply[2] for host in hosts for reply in host.answered.values()}
    checks.holds(
        "the load",
        read > 10 * kills and cut >= kills and {GRANTED, SETTLED, RELEASED} <= grants,
        "many replies, and requests that a kill cut off",
        f"{read} replies read, {cut} times cut off",
    )
    checks.equal(
        f"replies of {watch.asked} that were asked for again which changed", watch.changed, []
    )
    checks.equal(
        f"audits behind each fourth of {kills} kills that don't find what was answered",
        watch.unsound,
        [],
    )
    checks.equal("days of logins whose totals aren't what was granted", watch.miscounted, [])
    print(
        (
            f"    {kills} kills, {read} replies read, {cut} times cut off, {watch.asked} asked for"
            " again"
        ),
        flush=True,
    )
