"""Two quota servers, an address that moves between them, and mail hosts that ask it, for a
simulation: each server has a disk of its own and a clock of the tests, and what a host's filter
connects to hands its bytes to the server that has the address.

All of it runs by turns with the one that simulates, so that a server ends, or the address moves,
exactly where that is wanted: between two requests, before one is handed over, or before its reply.
"""
import contextlib
import math
import os
import select
import signal
import socket
import subprocess
import time

# (by which those of tests/program are found)
import filled

import clocks
import wire
from audit import kilobytes
from ends import SECONDS, Server, ledger_settings, reset
from smtpd import TOKEN, Smtpd

# Of a socket that is bound to an address: its port is chosen as it connects, so one that was closed
# a moment ago will do (ip(7)).
CHOOSES_LATE = 24
# The first byte of what a page of a day is answered with.
PAGE = 0x8C
ROWS_OF_A_PAGE = 100
# The bytes of a server's reserve, and of the margin above it, of which a start uses some.
RESERVE, MARGIN, USED = 4 << 20, 1 << 20, 1 << 18
# What the example sets of a filter, but for its `timeout`.
OF_A_FILTER = {"tries": 3, "pause": 10, "hold": 5, "keep_connection": True}
# For how many seconds of a real clock a night may last, at most.
NIGHTS_LAST = 120


def whole_frame(peer):
    """A frame that this connection brings, or nothing where it ends before."""
    came, size = b"", 2
    while len(came) < size:
        piece = peer.recv(size - len(came))
        if not piece:
            return b""
        came += piece
        if len(came) == 2:
            size = 2 + int.from_bytes(came, "big")
    return came


def rows_of(page):
    """The logins of a page, each with what it used and its limit."""
    at = 8
    for _ in range(page[7]):
        login = page[at + 1 : at + 1 + page[at]]
        at += 1 + len(login)
        settled, reserved, cap = (
            int.from_bytes(page[at + 4 * it : at + 4 * it + 4], "big") for it in range(3)
        )
        at += 12
        yield login, settled + reserved, cap


class Calendar:
    """What all clocks show that are right, in seconds since 1970-01-01."""

    def __init__(self, moment):
        self.ahead = math.ceil(moment - time.time())

    def now(self):
        return time.time() + self.ahead

    def today(self):
        return int(self.now()) // filled.DAY

    def pass_to(self, moment):
        self.ahead += max(math.ceil(moment - self.now()), 0)


class Disk:
    """A small file system in memory at a folder, which is full where that is wanted."""

    def __init__(self, folder, size):
        self.folder, self.size = folder, size

    def __enter__(self):
        self.mount("-t", "tmpfs", "-o", f"size={self.size}", "none")
        return self

    def __exit__(self, *_):
        subprocess.run(["umount", "--lazy", self.folder], check=True)

    def mount(self, *words):
        subprocess.run(["mount", *words, self.folder], check=True)

    def free(self):
        room = os.statvfs(self.folder)
        return room.f_bfree * room.f_frsize

    def fill(self):
        """Something takes what room there is; others may take or leave some meanwhile."""
        while (it := os.statvfs(self.folder)).f_bfree:
            used = (it.f_blocks - it.f_bfree) * it.f_frsize
            with contextlib.suppress(subprocess.CalledProcessError):
                self.mount("-o", f"remount,size={used}")

    def make_room(self):
        self.mount("-o", f"remount,size={self.size}")


class Machine:
    """A quota server with a disk of its own."""

    def __init__(self, world, calendar, name, disk, **settings):
        self.world, self.calendar, self.name = world, calendar, name
        self.disk, self.settings = disk, settings
        self.path = f"{disk.folder}/ledger"
        self.server = self.clock = None
        # by how many seconds its clock is wrong
        self.off = 0
        self.first_day = None
        # of all its nights: how many, and the most milliseconds, in all and without an answer
        self.nights, self.longest_night, self.longest_switch = 0, 0, 0

    def start(self, *words):
        """Whether it is up then."""
        ahead = self.calendar.ahead + self.off
        self.server = Server(
            self.world,
            connections=0,
            words=[*words, "--endless"],
            store=self.path,
            log="info",
            limit=clocks.limit(ahead),
            **self.settings,
        )
        if not self.server.port:
            self.end()
            return False
        self.clock = clocks.Clock(self.server.process.pid, ahead)
        today = self.calendar.today()
        days = [day for day in range(today - 10, today + 2) if self.page(day)]
        self.first_day = min(days, default=None)
        return True

    def has_room(self):
        """Whether its reserve is whole, and the margin there."""
        reserve = os.path.getsize(f"{self.path}.ballast")
        return reserve == RESERVE and self.disk.free() >= MARGIN - USED

    def is_up(self):
        return self.server is not None and self.server.process.poll() is None

    def end(self, by=signal.SIGKILL):
        """It is gone, in whatever way; what its log has of nights is kept."""
        if self.is_up():
            self.server.process.send_signal(by)
        self.server.status()
        self.note_nights()
        self.server.__exit__()
        self.server = self.clock = None

    def stop(self):
        if self.server:
            self.end()

    def note_nights(self):
        for line in self.server.all_log_lines():
            if " are forgotten, in " in line:
                words = line.rpartition(" are forgotten, in ")[2].split()
                self.nights += 1
                self.longest_night = max(self.longest_night, int(words[0]))
                self.longest_switch = max(self.longest_switch, int(words[4]))

    def pass_time(self):
        """Its clock shows what the calendar has; a question wakes it, so that it looks what is
        due."""
        if self.is_up():
            self.clock.pass_to(self.calendar.now() + self.off)
            self.page(self.calendar.today())

    def set_clock(self, off):
        """Somebody sets its clock, so that it is wrong by so many seconds."""
        self.off = off
        self.clock.jump_to(self.calendar.now() + off)

    def ask(self, frame):
        """The reply to this; a night may close the first connections."""
        for _ in range(10):
            try:
                came = self.server.ask(frame)
            except OSError:
                came = b""
            if came:
                return came
            time.sleep(0.05)
        raise AssertionError(f"the {self.name} server doesn't answer: {self.server.log_lines()}")

    def page(self, day, after=b""):
        """The rows of a day, a hundred at most."""
        came = self.ask(wire.page(after, day))
        if came[2] != PAGE:
            raise AssertionError(f"the {self.name} server gives no page: {came.hex()}")
        return list(rows_of(came))

    def usage(self, day):
        """What each login used on a day, and its limit then."""
        found, after = {}, b""
        while rows := self.page(day, after):
            found.update((login, (used, cap)) for login, used, cap in rows)
            after = rows[-1][0]
            if len(rows) < ROWS_OF_A_PAGE:
                break
        return found

    def bytes_of_files(self):
        """Those of the ledger, and those of all files."""
        with os.scandir(self.disk.folder) as files:
            sizes = {it.name: it.stat().st_size for it in files}
        return sizes["ledger"], sum(sizes.values())

    def memory(self):
        return kilobytes(self.server.process, "VmRSS")

    def is_at_night(self):
        """Whether days are being forgotten."""
        return self.is_up() and os.path.exists(f"{self.path}.part")

    def bytes_of_night(self):
        """How large the new file is then, and -1 where there is none."""
        try:
            return os.path.getsize(f"{self.path}.part")
        except OSError:
            return -1

    def audit(self):
        """The status and the output, of a server that has ended."""
        config = ledger_settings(self.world, self.path, **self.settings)
        return self.world.run("audit", "--config", config)[:2]


class Address:
    """The address that filters ask, and the server that has it."""

    def __init__(self, machines):
        self.machines, self.holder = machines, machines[0]
        self.cables = []
        self.moves = 0
        # How often anything happened at which a reply may be lost, or a message be at two servers.
        self.changes = 0
        # What is to happen at the next request, and whether before that is handed over, once it is,
        # or once it has its reply, which is then lost.
        self.armed = None

    def other(self):
        return next(it for it in self.machines if it is not self.holder)

    def move(self):
        """It moves: what is open is cut."""
        self.holder = self.other()
        self.moves += 1
        self.cut()

    def cut(self):
        self.changes += 1
        for cable in self.cables:
            cable.cut()

    def fire(self, place=None):
        """What is armed for this place, or for any, happens; returns whether it did."""
        if self.armed is None or place not in (None, self.armed[0]):
            return False
        happens, self.armed = self.armed[1], None
        happens()
        return True


class Cable:
    """What a filter connects to. From the other end's address it hands on one request after the
    other, on one connection as long as the filter keeps its own."""

    def __init__(self, address, source):
        self.address, self.source = address, source
        self.listener = socket.create_server(("127.0.0.1", 0), backlog=128)
        self.name = f"127.0.0.1:{self.listener.getsockname()[1]}"
        self.peer = self.back = None
        address.cables.append(self)

    def close(self):
        self.cut()
        self.listener.close()
        self.address.cables.remove(self)

    def cut(self):
        """Its connections are reset."""
        for it in (self.peer, self.back):
            if it:
                reset(it)
        self.peer = self.back = None

    def end(self):
        """One end has closed its connection, and so does the other."""
        for it in (self.peer, self.back):
            if it:
                it.close()
        self.peer = self.back = None

    def carry_until(self, output):
        """Hands on what comes until this can be read."""
        while True:
            waited = [it for it in (output, self.back, self.peer) if it]
            # (one connection after the other)
            waited += [] if self.peer else [self.listener]
            ready, _, _ = select.select(waited, [], [], SECONDS)
            if not ready:
                raise AssertionError("a filter neither asks nor answers")
            if output in ready:
                return
            if self.back in ready:
                # (it says nothing but to a request: it has ended the connection)
                self.end()
            elif self.peer in ready:
                self.carry()
            else:
                self.peer = self.listener.accept()[0]
                self.peer.settimeout(SECONDS)
                self.peer.setsockopt(socket.IPPROTO_TCP, socket.TCP_NODELAY, 1)

    def carry(self):
        try:
            frame = whole_frame(self.peer)
        except OSError:
            frame = b""
        if not frame:
            return self.end()
        if self.address.fire("before"):
            return self.cut()
        reply = self.reply_to(frame)
        if self.address.fire("after") or not reply:
            self.address.changes += 1
            return self.cut()
        self.peer.sendall(reply)

    def reply_to(self, frame):
        """What the server that has the address answers, or nothing."""
        holder = self.address.holder
        if not holder.is_up():
            return b""
        try:
            if not self.back:
                self.back = self.connected(holder.server.port)
            self.back.sendall(frame)
            if self.address.fire("during"):
                return b""
            return whole_frame(self.back)
        except OSError:
            return b""

    def connected(self, port):
        back = socket.socket()
        back.settimeout(SECONDS)
        back.setsockopt(socket.IPPROTO_TCP, socket.TCP_NODELAY, 1)
        back.setsockopt(socket.IPPROTO_IP, CHOOSES_LATE, 1)
        back.bind((self.source, 0))
        back.connect(("127.0.0.1", port))
        return back


class Host(Smtpd):
    """A mail host: a filter that was started a moment ago, over a cable of its own."""

    def __init__(self, world, calendar, cable, name, run, **settings):
        self.calendar, self.cable, self.name, self.run = calendar, cable, name, run
        # by how many seconds its clock is wrong, and whether its run is retired
        self.off, self.is_retired = 0, False
        super().__init__(world, name, cable.name, ["--run", str(run)], **settings)

    def now(self):
        return int(self.calendar.now()) + self.off

    def line(self):
        """The next line that it prints; it prints no more than the one that is waited for."""
        came = b""
        while not came.endswith(b"\n"):
            self.cable.carry_until(self.process.stdout)
            piece = os.read(self.process.stdout.fileno(), 4_096)
            if not piece:
                raise AssertionError(f"the filter of {self.name} ended: {self.process.wait()}")
            came += piece
        return came

    def recipient(self, at, session):
        self.ask(at, b"rcpt-to", session, b"bob@example.org")
        return self.line()

    def has_done(self, at):
        """Waits until it has done with all lines before."""
        self.ask(at, b"mail-from", b"0", b"alice@example.org")
        self.line()

    def ask(self, at, phase, session, rest):
        self.say(b"filter|0.7|%d.000002|smtp-in|%s|%s|%s|%s\n" % (at, phase, session, TOKEN, rest))

    def leave(self):
        """Its input ends, and what waits is sent; gives what `end` does."""
        self.process.stdin.close()
        self.cable.carry_until(self.process.stdout)
        return Smtpd.end(self)

    def kill(self):
        self.process.kill()
        self.process.wait()
        for it in (self.process.stdin, self.process.stdout, self.log):
            it.close()
        self.cable.cut()


class Site:
    """The servers, the address, and the hosts that send."""

    def __init__(self, world, disks, defaults, stack, **settings):
        self.world = world
        self.calendar = Calendar(int(time.time()) // filled.DAY * filled.DAY + 1)
        self.machines = [
            Machine(world, self.calendar, name, disk, default=default, **settings)
            for name, disk, default in zip(("first", "second"), disks, defaults)
        ]
        self.address, self.senders = Address(self.machines), []
        self.sources = (f"127.0.1.{it}" for it in range(1, 255))
        self.last_run = 0
        # what isn't as it has to be, in words
        self.wrong = []
        stack.callback(self.stop)
        for machine in self.machines:
            machine.start("--create")

    def stop(self):
        for host in self.senders:
            if host.process.poll() is None:
                host.kill()
        for machine in self.machines:
            machine.stop()

    def pass_to(self, moment):
        """All clocks go on, once no night is under way."""
        end = time.monotonic() + NIGHTS_LAST
        while any(it.is_at_night() for it in self.machines) and time.monotonic() < end:
            time.sleep(0.02)
        self.calendar.pass_to(moment)
        for machine in self.machines:
            machine.pass_time()

    def next_run(self):
        """The clock's milliseconds, or one more than the last."""
        self.last_run = max(int(self.calendar.now() * 1_000), self.last_run + 1)
        return self.last_run

    def new_host(self, name):
        """One more machine that sends, at an address of its own and under this name."""
        cable = Cable(self.address, next(self.sources))
        self.senders.append(self.host(name, cable))
        return self.senders[-1]

    def host(self, name, cable):
        return Host(self.world, self.calendar, cable, name, self.next_run(), **OF_A_FILTER)

    def leave(self, host):
        """It sends no more, and its filter ends well."""
        self.senders.remove(host)
        status, rest, _ = host.leave()
        if status or rest:
            self.wrong.append(f"the filter of {host.name} ends with {status}, {rest}")

    def retire(self, name):
        """As the example smtpd-restart.conf does, at both servers."""
        self.address.changes += 1
        words = ["retire", "--host", name, "--run", str(self.next_run()), "--server"]
        said = [self.world.run(*words, it.server.address)[:2] for it in self.machines]
        if said != [(0, b"retired\n")] * len(self.machines):
            self.wrong.append(f"a retire of {name} is answered {said}")

    def restart(self, host, is_killed):
        """smtpd of a host ends, by a signal or as its input ends, and begins again."""
        if is_killed:
            host.kill()
            self.senders.remove(host)
        else:
            self.leave(host)
        self.retire(host.name)
        self.senders.insert(0, self.host(host.name, host.cable))

    def end(self, machine, by=signal.SIGKILL):
        """A server ends, and what is open is cut."""
        machine.end(by)
        self.address.cut()

    def start(self, machine):
        """A server that has to come up."""
        self.address.changes += 1
        if not machine.start():
            raise AssertionError(f"the {machine.name} server doesn't start")
