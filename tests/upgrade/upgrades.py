"""From the package of an earlier release to this one, and back, while mail is sent: two quota servers
of which one has the address that two mail hosts ask. run.sh starts it, in namespaces of its own.

1. The release is installed by its own pages, and used: the address moves to the second server and
   back, limits are set, a login is stopped, one reaches its limit.
2. Under load the servers are upgraded, and then the mail hosts, in the order of INSTALL. Recipients
   are answered 451 for no longer than a server was away. Meanwhile the release's filters and
   commands ask new servers. The other way round only commands do, at the first server while the
   second isn't upgraded yet: INSTALL has servers upgraded first, and STABLE promises no more.
3. Settings, counts, limits and the answers to repeated requests are the same before and after.
4. Then all go back, mail hosts first, as CHANGELOG says: the ledger's file gets no later version,
   so the earlier program opens what a new one wrote, with nothing lost. A release that makes a later
   version has to try here that the earlier program refuses it, and that the backup of before goes
   on.
5. The servers are upgraded once more, over what the release wrote by then.
6. Both programs print the same over the same ledgers: compare.py.
"""
import argparse
import os
import sys
import threading
import time
from pathlib import Path

HERE = Path(__file__).resolve().parent
os.environ.setdefault("SMTPD_ROOT", "/nowhere")
sys.path += [str(HERE.parent / it) for it in ("package", "smtpd", "program")]
sys.dont_write_bytecode = True

import pages
from acts import (
    LOGINS,
    SERVER,
    filter_of,
    holds,
    install,
    kind_of_machine,
    make_mail_host,
    note,
    play,
    recipients,
    report,
    set_up_mail_host,
    tell_counts,
    upgrade_filter,
)
from compare import BY_RULE, compare_commands, compare_filters, ledger_by_rule, programs_of
from host import wait_for
from senders import Sender, end_all, longest_wait
from switch import LONGEST, call, exchange, make_switch, wait_until
from wire import limit, page, release, reserve, retire, settle, usage

EXAMPLES = "/usr/share/doc/mailquota/examples"
SERVER_SETTINGS, FILTER_SETTINGS = "/etc/mailquota/server.toml", "/etc/mailquota/filter.toml"
MOVING = SERVER.partition(":")[0]
# How long the first server answers before the address goes back to it, and for how many seconds it
# doesn't before the address leaves it: in contrib a minute, and three, which a restart may take on a
# machine that has much else to do.
DELAY, FALL = 5, 10
DEFAULTS = {"first": 1_000, "second": 100}
# Logins with room at both servers, with the default, with a limit that is soon reached, and that is
# stopped.
WITH_ROOM, WITH_DEFAULT, REACHED, STOPPED = LOGINS[:3], *LOGINS[3:6]
SENDING = [*WITH_ROOM, WITH_DEFAULT, REACHED, STOPPED]
WIDE, NARROW = 1_000_000, 20
# For how much longer than a server is away recipients may be answered 451 on a machine that has much
# else to do.
LATE = 1
# By the release's example, less a second: for how long a filter waits for an answer, and for how long
# it then doesn't ask.
PATIENCE, PAUSE = 2, 10
FULL = "550 daily recipient limit reached"
# What apt wants besides to put the earlier package in place of a later one.
OPTIONS = {"new": "", "release": " -y --allow-downgrades"}
# The first bytes of replies that stay.
KINDS = "81 82 83 84 85 86 87 88 89 8a 8b 8c 8f 90".split()


def day():
    return int(time.time()) // 86_400


class Watch(threading.Thread):
    """Asks a server at its own address all the while, and knows when it was away, from its last
    answer before to the next one, and which answers were late."""

    def __init__(self, server):
        super().__init__(daemon=True)
        self.address, self.away, self.late, self.is_over = server.address, [], [], False

    def run(self):
        last, is_away = time.monotonic(), False
        while not self.is_over:
            asked = time.monotonic()
            try:
                answer = exchange(self.address, usage(b"watched", day()))
            except OSError:
                answer = b""
            now = time.monotonic()
            if not answer:
                is_away = True
            else:
                (self.away if is_away else self.late).append((last if is_away else asked, now))
                last, is_away = now, False
            time.sleep(0.05)


def longest(times, since):
    """The longest of these times, of those that ended since then."""
    return max([end - start for start, end in times if end > since], default=0)


def refusals(senders, since):
    """When recipients of these were answered 451 with none let through in between: from the first to
    the last of them."""
    found, is_refused = [], False
    answers = sorted(
        (at, code) for it in senders for _, at, code in it.answers if at >= since and code != 550
    )
    for at, code in answers:
        if code == 451 and is_refused:
            found[-1] = (found[-1][0], at)
        elif code == 451:
            found.append((at, at))
        is_refused = code == 451
    return found


class Scene:
    """The machines, and the senders at each mail host."""

    def __init__(self, kind, packages):
        self.packages, self.programs, self.machines = packages, programs_of(packages), []
        self.sums = {
            name: call("sha256sum", program).stdout.split()[0]
            for name, program in self.programs.items()
        }
        self.make(kind)
        self.watches = [Watch(it) for it in self.servers]
        self.senders = {
            host: [
                Sender(host.address, login, f"{host.name} {login}", pace=0.1) for login in SENDING
            ]
            for host in self.hosts
        }

    def make(self, kind):
        for name, address, base in (
            ("first", "192.0.2.5", "turns"),
            ("second", "192.0.2.6", "turns"),
            ("mx1", "192.0.2.1", "mail"),
            ("mx2", "192.0.2.2", "mail"),
        ):
            self.machines.append(kind(name, address, base))
        self.servers, self.hosts = self.machines[:2], self.machines[2:]
        self.first, self.second = self.servers

    def start(self):
        for it in [*self.watches, *self.all_senders()]:
            it.start()

    def end(self):
        end_all(self.all_senders())
        for it in self.watches:
            it.is_over = True
            it.join()

    def all_senders(self):
        return [it for its in self.senders.values() for it in its]

    def rest(self, hosts, rests=True):
        """Has the senders at these hosts rest, or go on."""
        for host in hosts:
            for it in self.senders[host]:
                it.rests = rests
        # (a message is under way)
        time.sleep(4 if rests else 0)

    def goes_on(self, what, hosts):
        """At each of these hosts recipients of each login with room are let through from now on."""
        begun = time.monotonic()
        its = [it for host in hosts for it in self.senders[host] if it.login in WITH_ROOM]

        def let_through(sender):
            return sum(at > begun and code == 250 for at, _, code in list(sender.answers))

        good = wait_until(lambda: all(let_through(it) > 5 for it in its), LONGEST)
        note(f"{what}: mail goes on", good, True)

    def used(self):
        """What counts of each login at both servers."""
        its = [count_of(server) for server in self.servers]
        return {login: sum(it.get(login, 0) for it in its) for login in SENDING}

    def accepted(self):
        return {
            login: sum(it.accepted for it in self.all_senders() if it.login == login)
            for login in SENDING
        }


def reports(server):
    return report(server, f"{server.address}:7025")


def count_of(server):
    """What counts of each login, settled or reserved."""
    found = reports(server)
    return {it: sum(found[it][:2]) for it in SENDING if it in found}


def has_address(server):
    return bool(server.run("ip", "-oneline", "address", "show", "to", MOVING)[1])


def is_at_first(scene):
    return has_address(scene.first) and not has_address(scene.second)


def runs(machine, pid, sums):
    """Of which package the program is that this process runs."""
    its = machine.shown("sha256sum", f"/proc/{pid}/exe").split()[0]
    return {it: name for name, it in sums.items()}.get(its, its)


def pid_of_filter(host):
    [line] = filter_of(host)
    return line.split("/")[2]


def set_up_server(server):
    """A quota server of two, by the release's examples, as its OPERATING says."""
    server.shown("cp", f"{EXAMPLES}/server.toml", SERVER_SETTINGS)
    server.edit(SERVER_SETTINGS, f'\nlisten = "{SERVER}"', '\nlisten = "0.0.0.0:7025"')
    server.edit(SERVER_SETTINGS, "\ndefault = 1000\n", f"\ndefault = {DEFAULTS[server.name]}\n")
    drop_ins = "/etc/systemd/system/mailquota.service.d"
    server.shown("mkdir", "-p", drop_ins)
    server.shown("cp", f"{EXAMPLES}/addresses.conf", drop_ins)
    server.shown("mailquota", "init")
    server.shown("systemctl", "enable", "--now", "mailquota")
    settings = "/etc/keepalived/keepalived.conf"
    server.shown("cp", f"{EXAMPLES}/keepalived-{server.name}.conf", settings)
    server.edit(settings, "interface eth0", "interface host0")
    server.edit(settings, "\tfall 3\n", f"\tfall {FALL}\n")
    if server.name == "first":
        server.edit(settings, "preempt_delay 60", f"preempt_delay {DELAY}")
    server.shown("systemctl", "restart", "keepalived")


def retire_at_both(host):
    """Uncomments the lines for two servers in place of the one, as OPERATING says."""
    file = "/etc/systemd/system/opensmtpd.service.d/smtpd-restart.conf"
    one, two = r"^ExecStartPre=-\S* retire$", r"^#\(ExecStartPre=-\S* retire --server\)"
    host.shown("sed", "-i", "-e", f"s|{one}|#&|", "-e", rf"s|{two}|\1|", file)
    note(f"{host.name}: lines that retire", host.read(file).count("\nExecStartPre=-"), 2)
    host.shown("systemctl", "daemon-reload")


def set_up(scene):
    for machine in scene.machines:
        note(
            f"{machine.name}: what the release's package says",
            install(machine, scene.packages["release"]),
            [],
        )
    # (what is typed from here on is by its own words)
    pages.DOCS = str(scene.first.root / "usr/share/doc/mailquota")
    for server in scene.servers:
        set_up_server(server)
    note("first: it has the address", wait_until(lambda: has_address(scene.first)), True)
    for host in scene.hosts:
        make_mail_host(host)
        again = set_up_mail_host(host, f"{host.name}.example.org")
        play(host, again)
        retire_at_both(host)
        host.shown("systemctl", "restart", "opensmtpd")
        wait_for(587, host.address)
    first, second = (f"{it.address}:7025" for it in scene.servers)
    for login in WITH_ROOM:
        scene.first.shown(
            "mailquota", "limit", "--server", first, "--server", second, login, str(WIDE)
        )
    scene.first.shown("mailquota", "limit", "--server", first, REACHED, str(NARROW))
    scene.first.shown(
        "mailquota", "stop", "--force", "--server", first, "--server", second, STOPPED
    )


def requests(today, run):
    """Requests of a filter, an administrator and a host that retires, of each kind and with each
    answer that stays."""
    at = 86_400 * today + 3_600
    its = {"login": b"again", "host": b"again.example.org", "run": run}
    former = {"login": b"again", "at": at, "host": b"former.example.org"}
    return [
        reserve(1, 1, count=3, at=at, **its),
        limit(2, today, 5, **its),
        # (full)
        reserve(3, 2, count=3, at=at, **its),
        settle(4, 1, count=2, at=at, **its),
        # (closed)
        settle(5, 1, count=2, at=at, **its),
        reserve(6, 3, count=1, at=at, **its),
        release(7, 3, at=at, **its),
        # (of yesterday, too many, and of another login)
        reserve(8, 4, count=1, at=at - 86_400, **its),
        settle(9, 4, count=2, at=at - 86_400, **its),
        reserve(10, 4, count=1, at=at - 86_400, **{**its, "login": b"other"}),
        # (a number that is known)
        reserve(1, 9, count=1, at=at, **its),
        # (a limit below what is used)
        limit(11, today, 1, **its),
        # (retired, with a message open, and old)
        reserve(1, 1, count=2, run=1, **former),
        retire(1, host=b"former.example.org", run=2),
        reserve(2, 1, count=1, run=1, **former),
        usage(b"again", today),
        page(b"", today - 1),
    ]


class FarAhead:
    """A recipient of a day after tomorrow, as of a mail host whose clock is ahead: the release takes
    it, and a later one doesn't (LEDGER.md). Where it was taken, its end is."""

    def __init__(self, servers, day, run):
        its = {"login": b"ahead", "host": b"ahead.example.org", "run": run, "at": 86_400 * day}
        self.servers, self.day = servers, day
        self.reserve, self.settle = reserve(1, 1, **its), settle(2, 1, **its)
        note("the release: a recipient far ahead", self.answers(self.reserve), ["granted"] * 2)

    def answers(self, frame):
        kinds = {0x81: "granted", 0x83: "settled", 0x8D: "retry"}
        came = [exchange(it.address, frame)[2] for it in self.servers]
        return [kinds.get(it, hex(it)) for it in came]

    def tell(self, what):
        came = [self.answers(self.reserve), self.answers(self.settle)]
        note(f"{what}: the same, and its end", came, [["retry"] * 2, ["settled"] * 2])


def use(scene):
    """The release is used: the address goes to the second server and back."""
    scene.start()
    scene.goes_on("the release", scene.hosts)
    scene.first.shown("systemctl", "stop", "mailquota")
    note("second: it takes over", wait_until(lambda: has_address(scene.second)), True)
    scene.goes_on("the release, at the second server", scene.hosts)
    scene.first.shown("systemctl", "start", "mailquota")
    note("first: it takes the address back", wait_until(lambda: is_at_first(scene)), True)
    scene.goes_on("the release, back at the first server", scene.hosts)


def tell_refusals(scene, what, since):
    """At no host recipients were answered 451 for longer than a server was away; or, where one
    answered so late on a busy machine that filters gave up, than that and their `pause`. Gives
    whether any were."""
    away = max(longest(it.away, since) for it in scene.watches)
    late = max(longest(it.late, since) for it in scene.watches)
    may = away + LATE + (late + PAUSE if late > PATIENCE else 0)
    found = []
    for host in scene.hosts:
        its = [it for it in scene.senders[host] if it.login in WITH_ROOM]
        spells = refusals(its, since)
        holds(
            f"{host.name}, {what}: 451, with a server away for {away:.1f} s and late by"
            f" {late:.1f} s, for {may:.1f} s at most",
            longest(spells, since) <= may,
            f"{longest(spells, since):.1f} s, {len(spells)} times",
        )
        found += spells
    return bool(found)


def upgrade_server(scene, server, name, what):
    """Installs a package on a server while mail is sent."""
    settings, before = server.read(SERVER_SETTINGS), server.main_pid("mailquota")
    said = install(server, scene.packages[name], OPTIONS[name])
    note(f"{server.name}, {what}: what the package says", said, [])
    pid = server.main_pid("mailquota")
    note(f"{server.name}, {what}: another server runs", pid not in (0, before), True)
    note(f"{server.name}, {what}: its program", runs(server, pid, scene.sums), name)
    note(
        f"{server.name}, {what}: the settings are the same",
        server.read(SERVER_SETTINGS) == settings,
        True,
    )


def restart_smtpd(scene, host, name):
    """Restarts smtpd while little mail is sent, which is none here."""
    scene.rest([host])
    host.shown("systemctl", "restart", "opensmtpd")
    wait_for(587, host.address)
    wait_until(lambda: len(filter_of(host)) == 1)
    note(
        f"{host.name}, smtpd restarted: its filter",
        runs(host, pid_of_filter(host), scene.sums),
        name,
    )
    said = host.shown("mailquota", "filter", "--check").splitlines()
    note(
        f"{host.name}, smtpd restarted: its check",
        said[:2],
        ["settings are right", f"quota server {SERVER} answers"],
    )
    scene.rest([host], rests=False)


def use_up(server, login):
    """Uses what a login at rest has left of its limit, as its senders give back what they reset."""
    settled, reserved, may = reports(server)[login]
    left = may - settled - reserved
    if left > 0:
        its = {"login": login.encode(), "at": 86_400 * day(), "host": b"left.example.org"}
        for frame in (reserve(1, 1, count=left, **its), settle(2, 1, count=left, **its)):
            exchange(server.address, frame)
    note(f"{server.name}: {login} is at its limit", sum(reports(server)[login][:2]), may)


class Kept:
    """What has to stay from the release on: settings, limits, answers to repeated requests, and of
    each login how many recipients count that weren't accepted."""

    def __init__(self, scene, frames):
        self.scene, self.frames = scene, frames
        scene.rest(scene.hosts)
        use_up(scene.first, REACHED)
        kinds = sorted({it[2] for it in self.answers()})
        note("the release: kinds of answers", [f"{it:02x}" for it in kinds], KINDS)
        # (of a run that is retired by then, no answers are kept)
        self.replies = self.answers()
        self.settings, self.limits = settings_of(scene), limits_of(scene)
        self.counted = dict.fromkeys(SENDING, 0)
        self.tell_sums("the release", may_exceed=True)
        scene.rest(scene.hosts, rests=False)

    def answers(self):
        return [exchange(it.address, frame) for it in self.scene.servers for frame in self.frames]

    def tell_sums(self, what, may_exceed):
        """What was accepted counts once. It may count more than once if the address has moved, since
        a message that is open then may have recipients at both servers; and what a filter hadn't
        closed yet as it ended counts."""
        wanted = {it: self.counted[it] + count for it, count in self.scene.accepted().items()}

        def is_right():
            used = self.scene.used()
            return used == wanted or may_exceed and all(used[it] >= wanted[it] for it in SENDING)

        # (a filter sends an end that got no answer when a later message ends)
        good, used = wait_until(is_right, 15), self.scene.used()
        came = sum(wanted.values()) if used == wanted else f"{used}, of {wanted}"
        holds(f"{what}: accepted recipients that count", good, came)
        self.counted = {it: self.counted[it] + used[it] - wanted[it] for it in SENDING}
        self.at_second = sum(count_of(self.scene.second).values())

    def tell(self, what, may_exceed=False):
        """At rest, with the address at the first server, all is as it was."""
        scene = self.scene
        scene.rest(scene.hosts)
        wait_until(lambda: is_at_first(scene))
        replies = self.answers()
        holds(
            f"{what}: of {len(replies)} answers to repeated requests those that differ",
            replies == self.replies,
            [(it.hex(), was.hex()) for it, was in zip(replies, self.replies) if it != was],
        )
        has_moved = sum(count_of(scene.second).values()) != self.at_second
        self.tell_sums(what, has_moved or may_exceed)
        note(f"{what}: limits of logins", limits_of(scene) == self.limits, True)
        note(f"{what}: settings", settings_of(scene) == self.settings, True)
        note(f"{what}: a login at its limit", recipients(scene.hosts[0], REACHED, 1), [FULL])
        note(f"{what}: a login that is stopped", recipients(scene.hosts[1], STOPPED, 1), [FULL])
        scene.rest(scene.hosts, rests=False)


def limits_of(scene):
    return [{login: limit for login, (_, _, limit) in reports(it).items()} for it in scene.servers]


def settings_of(scene):
    return [
        *(it.read(SERVER_SETTINGS) for it in scene.servers),
        *(it.read(FILTER_SETTINGS) for it in scene.hosts),
    ]


def ask_both(scene, machine, what):
    """Commands of a machine ask both servers."""
    words = [f"--server={it.address}:7025" for it in scene.servers]
    today = str(day())
    for command, *more in (
        ["status"],
        ["report", "--day", today],
        ["report", "--day", today, "--top", "2"],
        ["limit", "--from", today, "asked", "12"],
        ["stop", "--force", "--day", today, "asked"],
        ["resume", "--day", today, "asked"],
    ):
        status, said = machine.run("mailquota", command, *words, *more)
        holds(f"{machine.name}, {what}: {command} at both", status == 0, said.splitlines()[-2:])


def go_forward(scene, kept, far_ahead):
    since = time.monotonic()
    for server in scene.servers:
        server.shown("mailquota-backup", "/root/backup")
    upgrade_server(scene, scene.first, "new", "upgraded under load")
    ask_both(scene, scene.first, "new commands, with a server of the release")
    scene.goes_on("first, upgraded", scene.hosts)
    upgrade_server(scene, scene.second, "new", "upgraded under load")
    scene.goes_on("both servers upgraded", scene.hosts)
    tell_refusals(scene, "both servers upgraded", since)
    ask_both(scene, scene.hosts[0], "commands of the release, with new servers")
    kept.tell("both servers upgraded, with filters of the release")
    far_ahead.tell("both servers upgraded")
    since = time.monotonic()
    for host in scene.hosts:
        upgrade_filter(host, scene.packages["new"])
        note(f"{host.name}: its filter", runs(host, pid_of_filter(host), scene.sums), "release")
    for host in scene.hosts:
        restart_smtpd(scene, host, "new")
    scene.goes_on("all upgraded", scene.hosts)
    kept.tell("all upgraded", tell_refusals(scene, "mail hosts upgraded", since))


def go_back(scene, kept):
    since = time.monotonic()
    for host in scene.hosts:
        install(host, scene.packages["release"], OPTIONS["release"])
        restart_smtpd(scene, host, "release")
    scene.goes_on("mail hosts back", scene.hosts)
    kept.tell("mail hosts back", tell_refusals(scene, "mail hosts back", since))
    since = time.monotonic()
    for server in scene.servers:
        upgrade_server(scene, server, "release", "back")
    scene.goes_on("all back", scene.hosts)
    tell_refusals(scene, "all back", since)
    kept.tell("all back")


def go_forward_again(scene, kept):
    since = time.monotonic()
    for server in scene.servers:
        upgrade_server(scene, server, "new", "upgraded again")
    scene.goes_on("both servers upgraded again", scene.hosts)
    tell_refusals(scene, "both servers upgraded again", since)
    kept.tell("both servers upgraded again")


def play_all(scene):
    today = day()
    run = time.time_ns() // 1_000_000
    frames = requests(today, run)
    set_up(scene)
    use(scene)
    kept = Kept(scene, frames)
    far_ahead = FarAhead(scene.servers, today + 10, run)
    go_forward(scene, kept, far_ahead)
    go_back(scene, kept)
    go_forward_again(scene, kept)
    scene.end()
    asked = sum(len(it.answers) for it in scene.all_senders())
    # (a session ends where smtpd is restarted, and senders have none then)
    unanswered = [why for it in scene.all_senders() for why in it.unanswered]
    note(f"of {asked} recipients those without an answer", unanswered, [])
    print(f"the longest wait for an answer: {longest_wait(scene.all_senders()):.1f} s", flush=True)
    audits(scene)
    for server in scene.servers:
        backup = server.root / "root/backup"
        settings = server.read(SERVER_SETTINGS)
        compare_commands(server.name, backup, settings, scene.programs, today)
    by_rule = ledger_by_rule(scene.programs["release"], frames)
    compare_commands("a ledger by a zone rule", by_rule, BY_RULE, scene.programs, today)
    recordings = sorted((HERE.parent / "program/recordings").glob("*.smtpd"))
    compare_filters(scene.programs, recordings, frames)


def audits(scene):
    """The books are right that both programs have kept."""
    for server in scene.servers:
        server.shown("systemctl", "stop", "mailquota")
        status, said = server.run("mailquota", "audit")
        holds(f"{server.name}: audit", status == 0 and said.startswith("sound "), said.strip())


def main():
    parser = argparse.ArgumentParser(
        description=__doc__, formatter_class=argparse.RawDescriptionHelpFormatter
    )
    parser.add_argument("release", metavar="RELEASE", type=Path, help="the package of before")
    parser.add_argument("package", metavar="PACKAGE", type=Path, help="the package of this tree")
    asked = parser.parse_args()
    packages, began = {"release": asked.release, "new": asked.package}, day()
    for name, it in packages.items():
        version = call("dpkg-deb", "--field", it, "Version").stdout.strip()
        print(f"the package of {name}: {version}", flush=True)
    make_switch()
    scene = Scene(kind_of_machine(), packages)
    try:
        play_all(scene)
    finally:
        for machine in scene.machines:
            machine.end()
    note("it was one day", day() == began, True)
    return tell_counts()


if __name__ == "__main__":
    sys.exit(main())
