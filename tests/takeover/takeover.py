"""What mail sees while the first of two quota servers is killed, cut off, restarted, also with a
day to forget, has a full disk, and comes back, in a random order.

Logins send all the while. Then each request of smtpd has an answer, recipients were answered 451
for as long as is said below at most, and for each login accepted recipients are at most the sum of
both reports, and that at most the sum of both limits. The last line is 'N passed, M failed'.
"""
import argparse
import os
import random
import re
import signal
import statistics
import sys
import time

from machines import CONTRIB, PROGRAM, ROOT, MailHost, QuotaServer, contrib
from senders import PACE, Sender, end_all, longest_wait, outages, refused
from switch import call, make_switch, wait_until

# How long the first server answers before the address goes back to it: a minute in contrib.
DELAY = 5
# For how many seconds recipients may be answered 451, without `pause` in the filter's settings and
# with contrib's.
LONGEST = {
    "kill": (5, 5),
    "cut": (5, 5),
    "forget": (5, 5),
    "restart": (5, 5),
    "full": (5, 5),
    "full at a recipient a second": (5, 5),
    "return": (2, 2),
}
# A server is started again a second after its end, by its unit: how much later it may answer than
# that and what its start takes, on a machine that has much else to do.
LATE = 2
FIRST_DEFAULT, SECOND_DEFAULT, OWN_LIMIT, WIDE = 1_000, 100, 300, 1_000_000
# Logins with room, at both servers; with the defaults; and with a limit of its own at the first
# server alone.
WITH_ROOM, WITH_DEFAULT, WITH_OWN = ["u01", "u02", "u03", "u04"], ["u05", "u06"], ["u07"]
LIMITS = {
    **{login: 2 * WIDE for login in WITH_ROOM},
    **{login: FIRST_DEFAULT + SECOND_DEFAULT for login in WITH_DEFAULT},
    **{login: OWN_LIMIT + SECOND_DEFAULT for login in WITH_OWN},
}


class Checks:
    def __init__(self):
        self.passed = self.failed = 0

    def holds(self, what, good, came):
        self.passed, self.failed = self.passed + bool(good), self.failed + (not good)
        print(f"{'ok ' if good else 'NOT'} {what}: {came}", flush=True)


class Scene:
    """The machines, and what happens to the first server."""

    example = staticmethod(contrib)

    def __init__(self, checks, seed):
        self.checks, self.dice = checks, random.Random(seed)
        make_switch()
        # (of the folder in which the administrator's commands run)
        call("mount", "--bind", "/proc", ROOT / "proc")
        self.servers = self.first, self.second = self.make_servers()
        self.wait("the first server has the address", self.is_at_first)
        # (one filter has contrib's settings, and the other those without `pause`)
        paused = re.findall(r"\npause = .*\n", (CONTRIB / "filter.toml").read_text())
        self.hosts = [
            self.make_host("mx1", "192.0.2.1", "mx1.example.org"),
            self.make_host(
                "mx2", "192.0.2.2", "mx2.example.org", *((line, "\n") for line in paused)
            ),
        ]
        for login in [*WITH_ROOM, *WITH_OWN]:
            for server in self.servers if login in WITH_ROOM else [self.first]:
                cap = WIDE if login in WITH_ROOM else OWN_LIMIT
                said = server.ask(
                    "limit", "--host", "admin", "--login", login, "--from", day(), "--cap", str(cap)
                )
                assert said == ("set", 0), said
        for host in self.hosts:
            self.wait(
                f"smtpd of {host.name} listens",
                lambda: call(
                    "bash", "-c", f": </dev/tcp/{host.address}/587", check=False
                ).returncode
                == 0,
            )
        self.senders = {
            host: [
                Sender(host.address, login, self.dice.random())
                for login in [*WITH_ROOM, *WITH_DEFAULT, *WITH_OWN]
            ]
            for host in self.hosts
        }
        # (what happened, when, and until when)
        self.events = []

    def make_servers(self):
        delay = ("preempt_delay 60", f"preempt_delay {DELAY}")
        first, second = contrib("keepalived-first.conf", delay), contrib("keepalived-second.conf")
        return [
            QuotaServer("first", "192.0.2.5", FIRST_DEFAULT, first),
            QuotaServer("second", "192.0.2.6", SECOND_DEFAULT, second),
        ]

    def make_host(self, *words):
        return MailHost(*words)

    def wait(self, what, holds, seconds=60):
        if not wait_until(holds, seconds):
            self.checks.holds(f"within {seconds} s {what}", False, "it didn't happen")

    def is_at_first(self):
        return self.first.has_address() and not self.second.has_address() and self.first.answers()

    def is_at_second(self):
        return self.second.has_address() and self.second.answers()

    def play(self, rounds):
        order = [self.kill, self.cut, self.forget, self.restart, self.full] * rounds
        # (which takes minutes: an answer is small, and the log has room)
        order.append(self.full_slowly)
        self.dice.shuffle(order)
        for sender in self.all_senders():
            sender.start()
        time.sleep(3)
        for number, event in enumerate(order, 1):
            start = time.monotonic()
            event()
            print(
                f"    {number} of {len(order)}: {event.__name__}, {time.monotonic() - start:.0f} s",
                flush=True,
            )
        end_all(self.all_senders())

    def all_senders(self):
        return [sender for senders in self.senders.values() for sender in senders]

    def note(self, what, start):
        """What began then has its end, once recipients go through and no answer to an earlier one
        is under way."""
        time.sleep(self.dice.uniform(4, 6))
        self.events.append((what, start, time.monotonic()))

    def back(self, undo):
        start = time.monotonic()
        undo()
        self.wait("the address is back at the first server", self.is_at_first)
        self.note("return", start)

    def away(self, what, do):
        start = time.monotonic()
        do()
        self.wait("the second server has the address", self.is_at_second)
        # (longer than the example's `pause`)
        time.sleep(10)
        self.note(what, start)

    def kill(self):
        self.away("kill", lambda: self.first.end(signal.SIGKILL))
        self.back(self.first.want)

    def cut(self):
        """Its cable is cut, which it notices; or the switch passes nothing on, which it doesn't."""
        if self.dice.random() < 0.5:
            self.away("cut", lambda: call("ip", "link", "set", "first", "down"))
            self.back(lambda: call("ip", "link", "set", "first", "up"))
        else:
            self.away("cut", lambda: call("bridge", "link", "set", "dev", "first", "state", "0"))
            self.back(lambda: call("bridge", "link", "set", "dev", "first", "state", "3"))

    def forget(self):
        """It starts again with a day that is overdue, and forgets that while it answers, by
        contrib's `keep`: the address stays."""
        past = int(day()) - 9

        def used():
            return self.first.ask("report", "--day", past, "--login", "past")[0].split()[:2]

        self.first.use(past)
        before = used()
        self.restart("forget")
        is_forgotten = wait_until(lambda: used() == ["0", "0"])
        self.checks.holds(
            "a day that is overdue is forgotten",
            before == ["0", "1"] and is_forgotten,
            f"{before} used before, {used()} after",
        )

    def full_slowly(self):
        """The same where one login alone sends at each host, and each second one of them."""
        for sender in self.all_senders():
            sender.rests, sender.pace = sender.login != WITH_ROOM[0], len(self.hosts)
        time.sleep(5)
        self.full("full at a recipient a second")
        for sender in self.all_senders():
            sender.rests, sender.pace = False, PACE

    def full(self, what="full"):
        """Its disk fills, and stays full: the address moves once, and comes back with the room."""
        # (a start gives up the former ledger on a full disk, and so would have room)
        (self.first.store / "ledger.old").unlink(missing_ok=True)
        start, elsewhere = time.monotonic(), []

        def has_moved():
            self.first.fill()
            return self.is_at_second()

        self.wait("a full disk moves the address", has_moved, seconds=400)
        # (a server that comes up for a moment has it back after so long)
        for _ in range(4 * DELAY):
            elsewhere.append(self.first.answers() or not self.is_at_second())
            time.sleep(0.5)
        self.checks.holds(
            "a full disk moves the address once, and no server comes up on it",
            not any(elsewhere),
            f"{sum(elsewhere)} of {len(elsewhere)} looks; {self.first.said()}",
        )
        self.note(what, start)
        self.back(self.clear)

    def clear(self):
        start = time.monotonic()
        self.first.clear()
        self.wait("the first server answers", self.first.answers)
        took, own = time.monotonic() - start, self.first.opened_in()
        self.checks.holds(
            "a disk that has room again: its server answers within a second and its start's time",
            took <= 1 + own + LATE,
            f"{took:.1f} s, {own:.1f} s of them its start",
        )

    def restart(self, what="restart"):
        """Its unit starts it again after a second: three checks in a row don't fail, unless the
        start itself takes long."""
        start = time.monotonic()
        os.kill(self.first.pid(), signal.SIGTERM)
        time.sleep(0.5)
        self.wait("the first server answers", self.first.answers)
        took = time.monotonic() - start
        self.note(what, start)
        if took < 2:
            self.checks.holds(
                f"a {what} moves nothing", self.is_at_first(), f"{took:.1f} s without an answer"
            )
        else:
            print(f"--  a {what} moves nothing: not tried, it took {took:.1f} s", flush=True)
            self.wait("the address is back at the first server", self.is_at_first)


def day():
    return str(int(time.time()) // 86_400)


def usage(servers, login):
    """What is settled and reserved at each of these."""
    return [
        sum(map(int, server.ask("report", "--day", day(), "--login", login)[0].split()[:2]))
        for server in servers
    ]


def tell_outages(scene):
    for place, (host, settings) in enumerate(
        zip(scene.hosts, ("contrib's settings", "the same without `pause`"))
    ):
        senders = [sender for sender in scene.senders[host] if sender.login in WITH_ROOM]
        found = outages(senders)
        for what, longest in LONGEST.items():
            windows = [(start, end) for it, start, end in scene.events if it == what]
            # (of a disk that fills, all 451s are of one outage)
            lasted = [
                (
                    refused(senders, start, end)
                    if what.startswith("full")
                    else max([took for first, took in found if start <= first < end], default=0)
                )
                for start, end in windows
            ]
            if lasted:
                without = sum(took == 0 for took in lasted)
                came = (
                    f"{max(lasted):.1f} s at most, {statistics.median(lasted):.1f} s in the middle,"
                    f" of {len(lasted)}, {without} of them without any"
                )
                has_pause = place == 0 and "\npause" in (CONTRIB / "filter.toml").read_text()
                scene.checks.holds(
                    f"{host.name}, {settings}: 451 at a {what}, {longest[has_pause]} s at most",
                    max(lasted) <= longest[has_pause],
                    came,
                )
        print(
            (
                f"    {host.name}: the longest wait for an answer:"
                f" {longest_wait(scene.senders[host]):.1f} s"
            ),
            flush=True,
        )


def tell_sums(scene):
    for login, limit in LIMITS.items():
        accepted = sum(sender.accepted for sender in scene.all_senders() if sender.login == login)
        used = usage(scene.servers, login)
        came = f"{accepted} accepted, {used[0]} and {used[1]} counted, {limit} allowed"
        scene.checks.holds(
            f"{login}: accepted recipients, both reports, both limits",
            accepted <= sum(used) <= limit,
            came,
        )


def retire(scene):
    """The lines of contrib before a start of smtpd, at a host with two servers of which one is
    away."""
    lines = [
        line
        for line in scene.example("smtpd-restart.conf").splitlines()
        if line.startswith("#ExecStartPre=-")
    ]
    commands = [line.removeprefix("#ExecStartPre=-").split() for line in lines]
    for host in scene.hosts:
        host.smtpd.terminate()
        host.smtpd.wait(timeout=20)
    for is_away in (True, False):
        if is_away:
            scene.first.end(signal.SIGTERM)
        else:
            scene.first.want()
            scene.wait("the first server answers", scene.first.answers)
        for host in scene.hosts:
            start = time.monotonic()
            said = [host.run(*words) for words in commands]
            wanted = [1 if is_away else 0, 0]
            came = f"{[it[0].splitlines()[-1] for it in said]}, {time.monotonic() - start:.1f} s"
            scene.checks.holds(
                f"{host.name} retires at both servers{', of which one is away' if is_away else ''}",
                [it[1] for it in said] == wanted,
                came,
            )
    reserved = [
        sum(int(line.split()[1]) for line in server.ask("report", "--day", day())[0].splitlines())
        for server in scene.servers
    ]
    scene.checks.holds("then nothing is reserved at either server", reserved == [0, 0], reserved)


def audits(scene):
    for server in scene.servers:
        server.end(signal.SIGTERM)
        scene.wait(f"the {server.name} server ends", lambda: not server.answers())
        said, status = server.run(PROGRAM, "audit", "--config", "/etc/mailquota/server.toml")
        scene.checks.holds(
            f"audit of the {server.name} server's ledger",
            status == 0 and said.startswith("sound "),
            said,
        )


def tell_unanswered(scene):
    unanswered = [it for sender in scene.all_senders() for it in sender.unanswered]
    asked = sum(len(sender.answers) for sender in scene.all_senders())
    scene.checks.holds(
        f"requests of smtpd without an answer, of {asked} recipients", not unanswered, unanswered
    )


def ended(checks, began):
    """Tells whether it still is the day on which this began, and what came of it all; returns the
    status."""
    checks.holds("it was one day", day() == began, began)
    print(f"{checks.passed} passed, {checks.failed} failed")
    return 1 if checks.failed else 0


def main():
    parser = argparse.ArgumentParser(
        description=__doc__, formatter_class=argparse.RawDescriptionHelpFormatter
    )
    parser.add_argument(
        "rounds",
        metavar="ROUNDS",
        nargs="?",
        type=int,
        default=10,
        help="how often each happens, by default %(default)s times",
    )
    parser.add_argument(
        "seed",
        metavar="SEED",
        nargs="?",
        type=int,
        default=1,
        help="of the order, by default %(default)s",
    )
    asked, checks = parser.parse_args(), Checks()
    scene = Scene(checks, asked.seed)
    began = day()
    scene.play(asked.rounds)
    tell_unanswered(scene)
    tell_outages(scene)
    tell_sums(scene)
    retire(scene)
    tell_sums(scene)
    audits(scene)
    return ended(checks, began)


if __name__ == "__main__":
    sys.exit(main())
