"""From nothing to the first 550, an upgrade, a removal and what follows, by the words of INSTALL:
what is typed there is run as it stands. run.sh starts it, in namespaces of its own.
"""
import argparse
import re
import sys
from pathlib import Path

sys.dont_write_bytecode = True

from acts import (
    LOGINS,
    SERVER,
    install,
    kind_of_machine,
    make_mail_host,
    note,
    play,
    recipients,
    report,
    set_up_mail_host,
    steps,
    tell_counts,
    upgrade_filter,
)
from machines import WORK
from pages import block_with, blocks_of
from senders import Sender, end_all
from switch import call, make_switch, wait_until

# A server as `make install` of 0.1.0 made one.
OLD_SETTINGS = (
    'listen = "192.0.2.8:7025"\nstore = "/var/lib/mailquota/ledger"\ndefault = 1000\noffset = 0\n'
)
OLD_UNIT = """[Service]
ExecStart=/usr/local/sbin/mailquota server --config /etc/mailquota.toml
Restart=always
DynamicUser=yes
User=mailquota
StateDirectory=mailquota
StateDirectoryMode=0700
UMask=0077
[Install]
WantedBy=multi-user.target
"""

# What packages of before had, which dropped old days.
FORGETS, WANTS = "mailquota-forget.timer", "/etc/systemd/system/timers.target.wants"
TIMER = {
    "mailquota-forget.service": "[Service]\nType=oneshot\nExecStart=/bin/true\n",
    FORGETS: "[Timer]\nOnCalendar=*-*-* 03:30\n[Install]\nWantedBy=timers.target\n",
}


def installed(machine, version):
    """The package is there, and runs nothing."""
    note(
        f"{machine.name}: its version",
        machine.shown("dpkg-query", "--show", "--showformat=${Version}", "mailquota"),
        version,
    )
    note(f"{machine.name}: /etc/mailquota", machine.shown("ls", "-A", "/etc/mailquota"), "")
    for unit in machine.shown("sh", "-c", "cd /usr/lib/systemd/system && ls mailquota*").split():
        note(
            f"{machine.name}: {unit}",
            [machine.run("systemctl", it, unit)[1].strip() for it in ("is-enabled", "is-active")],
            ["disabled", "inactive"],
        )
    pages = machine.root / "usr/share/doc/mailquota"
    links = [
        (page.name, to)
        for page in pages.glob("*.md")
        for to in re.findall(r"\]\(([^):#]+)[#)]", page.read_text())
    ]
    note(
        f"{machine.name}: of {len(links)} links in pages those that lead nowhere",
        [it for it in links if not (pages / it[1]).exists()],
        [],
    )


def set_up_server(quota):
    settings, addresses, permits, makes, starts, filters = [
        it
        for it in blocks_of("INSTALL.md", "The quota server")
        if not any("useradd" in line for line in it)
    ]
    for block in (settings, addresses, permits, makes, starts, filters):
        play(quota, block)
    note(
        "quota: whom the packet filter lets through",
        re.findall(
            r"192\.0\.2\.\d+", quota.shown("nft", "list", "set", "inet", "mailquota", "mailhosts")
        ),
        ["192.0.2.1", "192.0.2.2", "192.0.2.9"],
    )


def first_550(quota, hosts):
    [block] = blocks_of("INSTALL.md", "The first 550")
    play(quota, block)
    one, two = hosts
    note(
        "mx1: alice to three recipients",
        recipients(one, "alice", 3),
        ["250", "250", "550 daily recipient limit reached"],
    )
    note(
        "mx2: alice to another", recipients(two, "alice", 1), ["550 daily recipient limit reached"]
    )
    note("the report of alice", report(quota).get("alice"), (2, 0, 2))


def log_of(machine, unit):
    """What a unit of this machine has said."""
    words = (
        f"journalctl -u {unit} -o cat"
        if machine.has_systemd
        else f"cat /var/log/{unit}.service.log"
    )
    return machine.shown("sh", "-c", words)


def broken_into(quota, host, other):
    """Root of a mail host raises no limit, stops no login, retires no other host and reads no
    report. The server's log says that somebody tried, and mail goes on at both hosts."""
    for words in (
        ("limit", "--from", "20000", "alice", "1000000"),
        ("stop", "--force", "--day", "20000", "alice"),
        ("retire", "--host", f"{other.name}.example.org"),
        ("report", "--day", "20000"),
    ):
        status, said = host.run("mailquota", *words, "--server", SERVER)
        note(
            f"{host.name}, broken into: {words[0]}",
            (status, "didn't take this: its log says why" in said),
            (1, True),
        )
    note(
        f"{host.name}, broken into: what the server says of it",
        re.findall(rf"connection of {host.address}:\d+: (may not .*)", log_of(quota, "mailquota")),
        ["may not set limits"],
    )
    quota.shown("mailquota", "limit", "alice", "4")
    for it in (host, other):
        # (a 550 may stand for the seconds of `hold`)
        goes_on = wait_until(lambda: recipients(it, "alice", 1) == ["250"], 20)
        note(f"{host.name}, broken into: mail of {it.name} goes on", goes_on, True)
    note(f"{host.name}, broken into: alice", report(quota).get("alice"), (4, 0, 4))


def retired_by_mistake(host):
    """Somebody retires this host while its filter runs: the check of a mail host is red until
    smtpd is restarted."""
    check = "/usr/libexec/mailquota/mail-host-check"
    note(f"{host.name}: its check", host.run(check)[0], 0)
    host.shown("mailquota", "retire")
    note(
        f"{host.name}, retired by mistake: alice",
        recipients(host, "alice", 1),
        ["451 quota service unavailable"],
    )
    status, said = host.run(check)
    note(
        f"{host.name}, retired by mistake: its check",
        (status, "is retired, recipients are answered 451" in said),
        (2, True),
    )
    host.shown("systemctl", "restart", "opensmtpd")
    note(
        f"{host.name}, smtpd restarted: alice",
        recipients(host, "alice", 1),
        ["550 daily recipient limit reached"],
    )
    note(f"{host.name}, smtpd restarted: its check", host.run(check)[0], 0)


def changed(package, name, version, change=lambda folder: None):
    """The same package under a later version, with this change to its files."""
    folder = WORK / name
    call("dpkg-deb", "--raw-extract", package, folder)
    control = folder / "DEBIAN/control"
    control.write_text(
        re.sub(r"^Version: .*$", f"Version: {version}", control.read_text(), flags=re.MULTILINE)
    )
    change(folder)
    made = WORK / f"{name}.deb"
    call("dpkg-deb", "--root-owner-group", "--build", folder, made)
    return made


def add_timer(folder):
    """The timer that packages of before had, and what debhelper does about it."""
    for name, text in TIMER.items():
        (folder / "usr/lib/systemd/system" / name).write_text(text)
    with open(folder / "DEBIAN/postinst", "a", encoding="ascii") as script:
        script.write(f"deb-systemd-helper update-state {FORGETS} >/dev/null\n")


def run_timer(quota, package):
    """An administrator has the timer of a package of before, and no `keep` in the settings."""
    note("quota, with the package of before: what it says", install(quota, package), [])
    quota.edit("/etc/mailquota/server.toml", "\nkeep = 2\n", "\n")
    quota.shown("systemctl", "enable", "--now", FORGETS)
    # (what takes the place of systemctl may make no link)
    quota.shown(
        "sh", "-c", f"mkdir -p {WANTS} && ln -sf /usr/lib/systemd/system/{FORGETS} {WANTS}/"
    )
    note(
        "quota, with the package of before: its timer",
        quota.run("systemctl", "is-active", FORGETS)[1].strip(),
        "active",
    )


def upgrade(quota, hosts, package):
    """Under load the server is restarted, and no smtpd; each recipient is answered, and each that
    was accepted counts."""
    senders = [
        Sender(it.address, login, seed, pace=0.05)
        for seed, login in enumerate(LOGINS)
        for it in hosts
    ]
    for sender in senders:
        sender.start()
    wait_until(lambda: sum(it.accepted for it in senders) > 100)
    settings, before = quota.read("/etc/mailquota/server.toml"), quota.main_pid("mailquota")
    said = " ".join(install(quota, package))
    note(
        "quota, upgraded under load: it says what takes the timer's place",
        f"{FORGETS} is gone" in said and "keep = 2" in said,
        True,
    )
    timer = (
        quota.run("systemctl", "is-active", FORGETS)[1].strip(),
        quota.run("ls", f"{WANTS}/{FORGETS}")[0] == 0,
    )
    note("quota, upgraded: the timer, and its link", timer, ("inactive", False))
    note(
        "quota, upgraded: another server runs", quota.main_pid("mailquota") not in (0, before), True
    )
    note(
        "quota, upgraded: the settings are the same",
        quota.read("/etc/mailquota/server.toml") == settings,
        True,
    )
    sent = sum(it.accepted for it in senders)
    note(
        "quota, upgraded: mail goes on",
        wait_until(lambda: sum(it.accepted for it in senders) > sent + 100),
        True,
    )
    for host in hosts:
        upgrade_filter(host, package)
    end_all(senders)
    codes = [code for it in senders for _, _, code in it.answers]
    note(
        "the upgrade: recipients without an answer",
        [why for it in senders for why in it.unanswered],
        [],
    )
    print(
        f"the upgrade: of {len(codes)} recipients {codes.count(250)} were let through,"
        f" {codes.count(451)} answered 451, after"
        f" {max(end - begun for it in senders for begun, end, _ in it.answers):.1f} s at most"
    )
    accepted = {login: sum(it.accepted for it in senders if it.login == login) for login in LOGINS}
    wait_until(
        lambda: {login: report(quota)[login][:2] for login in LOGINS}
        == {login: (count, 0) for login, count in accepted.items()},
        10,
    )
    note(
        "the upgrade: what counts of each login",
        {login: report(quota)[login][:2] for login in LOGINS},
        {login: (count, 0) for login, count in accepted.items()},
    )
    for host in hosts:
        host.shown("systemctl", "restart", "opensmtpd")
        note(
            f"{host.name}, smtpd restarted: alice",
            recipients(host, "alice", 1),
            ["550 daily recipient limit reached"],
        )


def remove_and_install_again(quota, host, package):
    counted = report(quota)
    status, said = quota.run("apt", "remove", "-y", "mailquota")
    note(
        "quota, removed: status, and whether the server runs",
        (status, quota.run("systemctl", "is-active", "mailquota")[1].strip()),
        (0, "inactive"),
    )
    note(
        "quota, removed: what stays",
        quota.run("ls", "/etc/mailquota/server.toml", "/var/lib/mailquota/ledger")[0],
        0,
    )
    note(
        "mx1, without a server: u01", recipients(host, "u01", 1), ["451 quota service unavailable"]
    )
    status, said = quota.run("apt", "purge", "-y", "mailquota")
    told = [line for line in said.splitlines() if line.startswith("mailquota: ")]
    note(
        "quota, purged: status, and what it says",
        (status, told),
        (
            0,
            [
                "mailquota: the ledger, with all counts and limits, stays in"
                f" {quota.shown('readlink', '-f', '/var/lib/mailquota').strip()}: remove it"
                " yourself if nobody wants it back"
            ],
        ),
    )
    note(
        "quota, purged: what stays",
        [quota.run("ls", it)[0] == 0 for it in ("/etc/mailquota", "/var/lib/mailquota/ledger")],
        [False, True],
    )
    install(quota, package)
    settings, addresses, permits, makes, starts, *_ = blocks_of("INSTALL.md", "The quota server")
    for block in (settings, addresses, permits):
        play(quota, block)
    [(init, _)] = steps(makes)
    status, said = quota.by_shell([init])
    note(
        "quota, installed again: init",
        (status, said.splitlines()[-1]),
        (1, "mailquota: store is not this ledger"),
    )
    play(quota, starts)
    note("quota, installed again: the report is as before", report(quota) == counted, True)
    note(
        "mx1, with the old ledger: alice",
        recipients(host, "alice", 1),
        ["550 daily recipient limit reached"],
    )


def remove_from_mail_host(host):
    status, said = host.run("apt", "remove", "-y", "mailquota")
    told = " ".join(line for line in said.splitlines() if line.startswith("mailquota: "))
    note(
        f"{host.name}, removed: status, and that smtpd.conf has to be edited",
        (status, "take their lines out" in told),
        (0, True),
    )
    note(
        f"{host.name}, removed: smtpd runs on",
        (host.run("systemctl", "is-active", "opensmtpd")[1].strip(), recipients(host, "alice", 1)),
        ("active", ["550 daily recipient limit reached"]),
    )
    status, said = host.run("apt", "purge", "-y", "mailquota")
    left = [
        it for it in ("/etc/mailquota", "/var/lib/mailquota") if host.run("ls", "-d", it)[0] == 0
    ]
    note(
        f"{host.name}, purged: status, what it says, and what stays",
        (status, [it for it in said.splitlines() if it.startswith("mailquota: ")], left),
        (0, [], []),
    )


def from_usr_local(old, package):
    """A server that `make install` of 0.1.0 made, and its ledger, by INSTALL's lines."""
    (old.root / "usr/local/sbin/mailquota").write_bytes(
        (WORK / "later/usr/sbin/mailquota").read_bytes()
    )
    (old.root / "usr/local/sbin/mailquota").chmod(0o755)
    for folder in ("libexec/mailquota", "share/doc/mailquota", "share/examples/mailquota"):
        old.write(f"/usr/local/{folder}/file", "")
    old.write("/usr/local/share/man/man8/mailquota.8", "")
    old.write("/etc/mailquota.toml", OLD_SETTINGS)
    for name, text in (("mailquota.service", OLD_UNIT), *TIMER.items()):
        old.write(f"/etc/systemd/system/{name}", text)
    old.shown(
        "systemd-run",
        "--quiet",
        "--wait",
        "--pipe",
        "-p",
        "DynamicUser=yes",
        "-p",
        "User=mailquota",
        "-p",
        "StateDirectory=mailquota",
        "/usr/local/sbin/mailquota",
        "init",
        "--config",
        "/etc/mailquota.toml",
    )
    old.shown("systemctl", "enable", "--now", "mailquota", FORGETS)
    ask = ["--server", "192.0.2.8:7025"]
    note(
        "old: a limit",
        wait_until(
            lambda: old.run(
                "/usr/local/sbin/mailquota",
                "limit",
                *ask,
                "--host",
                "admin",
                "--login",
                "bob",
                "--from",
                "1",
                "--cap",
                "7",
            )
            == (0, "set\n")
        ),
        True,
    )
    old.shown("systemctl", "disable", "--now", "mailquota", FORGETS)
    play(old, block_with("INSTALL.md", "Upgrading", "/usr/local"))
    left = old.shown("find", "/usr/local", "-name", "mailquota*").splitlines()
    note("old: what is left below /usr/local", left, [])
    install(old, package)
    _, addresses, _, _, starts, *_ = blocks_of("INSTALL.md", "The quota server")
    play(old, addresses)
    play(old, [it.replace("192.0.2.7", "192.0.2.8") for it in starts])
    note(
        "old, with the package: its limits",
        old.shown("mailquota", "report", *ask, "--day", "1", "--login", "bob").split(),
        ["0", "0", "7", "bob"],
    )


def start_over(quota):
    """A ledger that root makes in the folder that is the server's by then."""
    quota.shown("systemctl", "stop", "mailquota")
    quota.shown(
        "sh",
        "-c",
        "cd /var/lib/mailquota && mv ledger ledger.before && mv ledger-wal ledger.before-wal",
    )
    _, _, _, makes, starts, *_ = blocks_of("INSTALL.md", "The quota server")
    play(quota, makes)
    play(quota, starts)
    note("quota, started over: the report", report(quota), {})


def main():
    parser = argparse.ArgumentParser(description=__doc__)
    parser.add_argument("package", metavar="PACKAGE", type=Path)
    package = parser.parse_args().package
    version = call("dpkg-deb", "--field", package, "Version").stdout.strip()
    make_switch()
    machines, kind = [], kind_of_machine()
    try:
        for name, address, base in (
            ("quota", "192.0.2.7", "plain"),
            ("mx1", "192.0.2.1", "mail"),
            ("mx2", "192.0.2.2", "mail"),
            ("old", "192.0.2.8", "plain"),
        ):
            machines.append(kind(name, address, base))
        quota, *hosts, old = machines
        for host in hosts:
            make_mail_host(host)
        for machine in (quota, *hosts):
            note(f"{machine.name}: what the package says", install(machine, package), [])
            installed(machine, version)
        set_up_server(quota)
        again = [set_up_mail_host(host, f"{host.name}.example.org") for host in hosts]
        first_550(quota, hosts)
        for host, block in zip(hosts, again):
            play(host, block)
            note(
                f"{host.name}: it retires its runs before smtpd starts",
                "retired" in log_of(host, "opensmtpd").splitlines(),
                True,
            )
        broken_into(quota, *hosts)
        if kind.has_systemd:
            retired_by_mistake(hosts[0])
        run_timer(quota, changed(package, "former", f"{version}+former", add_timer))
        upgraded = changed(package, "later", f"{version}+later")
        upgrade(quota, hosts, upgraded)
        remove_and_install_again(quota, hosts[0], upgraded)
        remove_from_mail_host(hosts[1])
        start_over(quota)
        if kind.has_systemd:
            from_usr_local(old, upgraded)
    finally:
        for machine in machines:
            machine.end()
    return tell_counts()


if __name__ == "__main__":
    sys.exit(main())
