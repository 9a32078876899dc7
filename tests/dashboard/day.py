"""A day of two quota servers and two mail hosts, minute by minute: real servers and filters whose
clocks are set, which write their figures, and a node_exporter of each machine, which hands them on.

Over the day comes each trouble that figures can show and that takes no other machine: TROUBLES has
them with the alerts that are to come. The second server stands by, as one that is asked at its own
address alone.
"""
import calendar
import contextlib
import os
import random
import subprocess
import time

import clocks
import wire
from cases.filters import CONFIG, REGISTRATION
from ends import SECONDS, Server, read_all, send_no_more, toml, under
from monitors import exporter, got
from smtpd import TOKEN

MINUTE, HOUR, DAY = 60, 3_600, 86_400
# the day, of which the hours are UTC's
BEGIN = calendar.timegm((2026, 6, 16, 0, 0, 0))
SERVERS, HOSTS = ("quota1", "quota2"), ("mx1", "mx2")
DEFAULTS = {"quota1": 150, "quota2": 15}
# by the hour how many recipients a host has in four minutes
HOURS = [1] * 6 + [2, 4, 7, 9, 9, 8, 6, 8, 9, 8, 7, 5, 4, 3, 3, 2, 2, 1]
LOGINS = 40
# the seconds between recipients of a login that never ends
HAMMERS = 2.5


def at(hour, minute=0):
    return BEGIN + hour * HOUR + minute * MINUTE


# From when to when which trouble is there, and the alerts that come in that time or soon after it.
KILLED = at(10), at(10, 6)
HAMMERED = at(13), at(14, 20)
RETIRED = at(15, 30), at(15, 50)
ASKED_BY_OTHERS = at(17), at(17, 3)
ENDED = at(19), at(19, 5)
FAR_AHEAD = at(21), at(21, 3)
TROUBLES = {
    KILLED: {
        ("MailquotaServerSilent", "quota1"),
        ("Mailquota451", "mx1"),
        ("Mailquota451", "mx2"),
    },
    HAMMERED: {("MailquotaRefusedAllTheTime", "quota1")},
    RETIRED: {("MailquotaRunRetired", "mx2"), ("Mailquota451", "mx2")},
    ASKED_BY_OTHERS: {("MailquotaForbidden", "quota1")},
    ENDED: {("MailquotaFilterEnded", "mx1")},
    FAR_AHEAD: {("MailquotaAheadOfTime", "quota1")},
}


class Filter:
    """A filter of a mail host whose clock shows this moment as it begins."""

    def __init__(self, day, host, moment):
        self.host = host
        ahead = int(moment - time.time())
        file = day.world.new_file(
            toml(
                {
                    "host": f"{host}.example.org",
                    "server": day.servers["quota1"].address,
                    "tries": 3,
                    "timeout": 2_000,
                    "pause": 10,
                    "hold": 5,
                    "keep_connection": True,
                    "metrics": f"{day.folder_of(host)}/mailquota-filter.prom",
                }
            )
        )
        self.log = open(day.world.new_file(""), "w+b")
        self.process = subprocess.Popen(
            [*under(clocks.limit(ahead)), day.world.program, "filter", "--config", file],
            stdin=subprocess.PIPE,
            stdout=subprocess.PIPE,
            stderr=self.log,
        )
        self.process.stdin.write(CONFIG)
        self.process.stdin.flush()
        for _ in REGISTRATION.splitlines():
            assert self.process.stdout.readline(), "the filter doesn't begin"
        self.clock = clocks.Clock(self.process.pid, ahead)

    def send(self, messages):
        """Hands on what smtpd says of these messages: each its second, its login, and how many
        recipients it has."""
        lines = []
        for number, (moment, login, recipients) in enumerate(messages):
            session = b"%08x%08x" % (int(moment), number)

            def say(text):
                lines.append(text % (moment, session))

            say(b"report|0.7|%.6f|smtp-in|link-auth|%s|pass|" + login + b"\n")
            say(b"report|0.7|%.6f|smtp-in|tx-begin|%s|" + session[:8] + b"\n")
            for _ in range(recipients):
                say(b"filter|0.7|%.6f|smtp-in|rcpt-to|%s|" + TOKEN + b"|bob@example.org\n")
            say(b"report|0.7|%.6f|smtp-in|tx-commit|%s|" + session[:8] + b"|1200\n")
            say(b"report|0.7|%.6f|smtp-in|link-disconnect|%s\n")
        self.process.stdin.write(b"".join(lines))
        self.process.stdin.flush()
        return sum(recipients for _, _, recipients in messages)

    def wait(self, answers):
        """Reads so many answers, and waits until what was said after them is done too."""
        # (what needs no server is answered once all before is)
        self.process.stdin.write(
            b"filter|0.7|1.000002|smtp-in|mail-from|done|%s|a@example.org\n" % TOKEN
        )
        self.process.stdin.flush()
        for _ in range(answers + 1):
            assert self.process.stdout.readline(), f"the filter of {self.host} is gone"

    def end(self):
        if self.process.poll() is None:
            self.process.stdin.close()
            self.process.wait(timeout=SECONDS)
        self.log.close()


class Day:
    """The machines of the day; `scrapes` has what was told of each machine at each minute."""

    def __init__(self, world):
        self.world, self.random = world, random.Random(77)
        self.servers, self.clocks, self.filters, self.scrapes = {}, {}, {}, []
        self.recipients = 0

    def folder_of(self, machine):
        folder = f"{self.world.folder}/{machine}/textfiles"
        os.makedirs(folder, exist_ok=True)
        return folder

    def start(self, server, moment):
        """Starts a server whose clock shows this moment: at the address that it had, where it
        had one."""
        ahead = int(moment - time.time())
        before = self.servers.get(server)
        permits = '[hosts]\n"mx1.example.org" = ["127.0.0.1"]\n"mx2.example.org" = ["127.0.0.1"]\n'
        self.servers[server] = it = Server(
            self.world,
            words=["--create"] if before is None else [],
            limit=clocks.limit(ahead),
            listen=before.address if before else "127.0.0.1:0",
            store=f"{self.world.folder}/{server}/ledger",
            metrics=f"{self.folder_of(server)}/mailquota-server.prom",
            default=DEFAULTS[server],
            keep=2,
            idle=3_600,
            permits=self.world.new_file(f'{permits}[peers]\nadmin = ["127.0.0.1"]\n'),
        )
        assert it.port, it.all_log_lines()
        self.clocks[server] = clocks.Clock(it.process.pid, ahead)

    def end(self):
        for it in self.filters.values():
            it.end()
        for it in self.servers.values():
            it.__exit__()

    def pass_to(self, moment):
        """Time passes for all. A server looks at its clock as somebody asks it."""
        for it in [*self.clocks.values(), *(it.clock for it in self.filters.values())]:
            it.pass_to(moment)
        for name, it in self.servers.items():
            if name in self.clocks:
                it.ask(wire.usage(b"nobody", 1))

    def messages(self, moment, many):
        """About a quarter of so many recipients in a minute, in messages: their seconds, logins and
        counts."""
        made, left = [], int((many / 2 + 1) * self.random.random() + self.random.random() / 2)
        while left > 0:
            recipients = min(left, self.random.choice((1, 1, 1, 2, 3)))
            left -= recipients
            login = b"u%03d" % self.random.randrange(LOGINS)
            made.append((moment + self.random.random() * 59, login, recipients))
        return sorted(made)

    def traffic(self, moment, many):
        """What the mail hosts send in a minute."""
        waiting = []
        for name, it in self.filters.items():
            messages = self.messages(moment, many)
            if name == "mx1" and within(moment, HAMMERED):
                times = (moment + HAMMERS * number for number in range(int(MINUTE / HAMMERS)))
                messages = sorted([*messages, *((it, b"mallory", 1) for it in times)])
            waiting.append((it, it.send(messages)))
        for it, answers in waiting:
            it.wait(answers)
            self.recipients += answers

    def days_before(self):
        """Some mail on each of the three days before: the first of them is forgotten at night."""
        begin = BEGIN - 3 * DAY + 12 * HOUR
        for name in SERVERS:
            self.start(name, begin)
        for name in HOSTS:
            self.filters[name] = Filter(self, name, begin)
        for moment in range(begin, BEGIN, 4 * HOUR):
            self.pass_to(moment)
            self.traffic(moment, 20)

    def trouble(self, moment):
        """What begins or ends at this minute."""
        if moment == KILLED[0]:
            self.servers["quota1"].process.kill()
            self.servers["quota1"].__exit__()
            del self.clocks["quota1"]
        if moment == KILLED[1]:
            self.start("quota1", moment)
        if moment == RETIRED[0]:
            address = self.servers["quota1"].address
            words = ("retire", "--server", address, "--host", "mx2.example.org")
            came = self.world.run(*words, limit=clocks.at(moment))
            assert came == (0, b"retired\n", ""), came
        if moment == RETIRED[1]:
            self.filters["mx2"].end()
            self.filters["mx2"] = Filter(self, "mx2", moment)
        if moment == ENDED[0]:
            self.filters.pop("mx1").end()
        if moment == ENDED[1]:
            self.filters["mx1"] = Filter(self, "mx1", moment)
        if moment == ASKED_BY_OTHERS[0]:
            self.ask_from("127.0.0.9", wire.limit(1, moment // DAY, 1_000_000, login=b"mallory"))
            self.ask_from("127.0.0.9", b"GET / HTTP/1.1\r\n\r\n")
        if moment == FAR_AHEAD[0]:
            far = wire.reserve(1, at=moment + 3 * DAY, host=b"mx1.example.org", run=moment)
            self.ask_from("127.0.0.1", far)

    def ask_from(self, source, frame):
        with self.servers["quota1"].connect(source=source) as peer:
            peer.sendall(frame)
            send_no_more(peer)
            read_all(peer)

    def scrape(self, moment, addresses):
        for machine, address in addresses.items():
            self.scrapes.append((moment, machine, got(address, "/metrics")))

    def play(self):
        """Lives through the day."""
        self.days_before()
        with contextlib.ExitStack() as exporters:
            addresses = {}
            for it in (*SERVERS, *HOSTS):
                folder = self.folder_of(it)
                if it in HOSTS:
                    # (as mail-host-check of a host that has no trouble of its own writes it)
                    with open(f"{folder}/mailquota.prom", "w", encoding="ascii") as file:
                        file.write("mailquota_up 1\nmailquota_smtpd_restarts 0\n")
                its = exporter(folder, f"{self.world.folder}/{it}/exporter.log")
                addresses[it] = exporters.enter_context(its)
            for moment in range(BEGIN, BEGIN + DAY, MINUTE):
                self.pass_to(moment)
                self.trouble(moment)
                self.traffic(moment, HOURS[moment % DAY // HOUR])
                self.scrape(moment + MINUTE - 1, addresses)
                if moment % (4 * HOUR) == 0:
                    print(f"{moment % DAY // HOUR:02}:00, {self.recipients} recipients", flush=True)
        return self.scrapes


def within(moment, span):
    return span[0] <= moment < span[1]
