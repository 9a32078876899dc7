"""What is typed at machines by the words of INSTALL, what is looked at there, and what has to
come."""
import os
import re
import sys
from pathlib import Path

HERE = Path(__file__).resolve().parent
os.environ.setdefault("SMTPD_ROOT", "/nowhere")
sys.path += [str(HERE.parent / "smtpd"), str(HERE.parent / "program")]

from host import session_at, wait_for
from machines import WORK, Machine, NoBoot, PlainMachine
from pages import blocks_of
from switch import call

SERVER = "192.0.2.7:7025"
# What stands at the head of a command; all other lines of a block are what a command prints.
COMMAND = re.compile(r"(apt|cp|mkdir|mv|rm|sed|mailquota|systemctl|smtpd|nft|echo) ")
# The smtpd.conf of a mail host before it has a filter: its mail goes nowhere.
BEFORE = """pki mx1.example.org cert "/etc/ssl/mx1.example.org.crt"
pki mx1.example.org key "/etc/ssl/private/mx1.example.org.key"
table credentials file:/etc/mail/credentials
{listen}
action "outbound" mda "true" virtual {{ "@" = nobody }}
match auth from any for any action "outbound"
"""
LISTEN = "listen on {address} port 587 tls-require pki mx1.example.org auth <credentials>"
LOGINS = [f"u{number:02}" for number in range(1, 9)]

# how many things were as they are to be, and how many weren't
counts = {True: 0, False: 0}


def note(what, came, wanted):
    """Prints what came; it has to be what is wanted."""
    holds(what, came == wanted, came if came == wanted else f"{came}, and not {wanted}")


def holds(what, good, came):
    """Prints what came, and whether it is good."""
    counts[bool(good)] += 1
    print(f"{what}: {came}" if good else f"NOT {what}: {came}", flush=True)


def tell_counts():
    """Prints how many were as they are to be; gives the status."""
    print(f"{counts[True]} passed, {counts[False]} failed")
    return 1 if counts[False] or not counts[True] else 0


def steps(block):
    """The commands of a block, each with what it prints by the page."""
    found = []
    for line in block:
        if found and found[-1][0].endswith("\\"):
            found[-1] = (f"{found[-1][0][:-1]}{line.strip()}", [])
        elif COMMAND.match(line):
            found.append((line, []))
        else:
            found[-1][1].append(line)
    return found


def play(machine, block, changes=()):
    """Types a block of INSTALL at a machine: each command goes well, and prints what the page
    shows."""
    for command, shown in steps(block):
        for old, new in changes:
            shown = [line.replace(old, new) for line in shown]
        status, said = machine.by_shell([command])
        came = (status, said.splitlines() if shown or status else shown)
        note(f"{machine.name}: {command.partition('  #')[0].strip()}", came, (0, shown))


def install(machine, package, options=""):
    """Types the first command of INSTALL, with this package in place of the one of that name."""
    [[command]] = [it for it in blocks_of("INSTALL.md", "The package")]
    name = re.search(r"\./(\S+)", command)[1]
    command = command.replace("apt install", f"apt install{options}")
    (machine.root / "root" / name).write_bytes(package.read_bytes())
    status, said = machine.by_shell([command])
    note(f"{machine.name}: {command}", (status, said[-500:] if status else ""), (0, ""))
    return [line for line in said.splitlines() if line.startswith("mailquota: ")]


def make_mail_host(machine):
    """smtpd with a listener that requires a login, as it is before mailquota is installed."""
    folder = WORK / "certificate"
    folder.mkdir(exist_ok=True)
    if not (folder / "key").exists():
        words = [
            "-newkey",
            "rsa:2048",
            "-nodes",
            "-days",
            "30",
            "-subj",
            "/CN=mx1.example.org",
            "-keyout",
            folder / "key",
            "-out",
            folder / "certificate",
        ]
        call("openssl", "req", "-x509", *words)
    secret = call("openssl", "passwd", "-6", "secret").stdout.strip()
    machine.write("/etc/mail/credentials", "".join(f"{it} {secret}\n" for it in ["alice", *LOGINS]))
    machine.write("/etc/ssl/mx1.example.org.crt", (folder / "certificate").read_text())
    machine.write("/etc/ssl/private/mx1.example.org.key", (folder / "key").read_text(), 0o600)
    machine.write("/etc/smtpd.conf", BEFORE.format(listen=LISTEN.format(address=machine.address)))
    machine.shown("systemctl", "restart", "opensmtpd")


def set_up_mail_host(machine, host):
    settings, tests, lines, restarts, again = blocks_of("INSTALL.md", "Each mail host")
    play(machine, settings)
    if host != "mx1.example.org":
        machine.edit("/etc/mailquota/filter.toml", "mx1.example.org", host)
    play(machine, tests, [("mx1.example.org", host)])
    listen = LISTEN.format(address=machine.address)
    machine.edit(
        "/etc/smtpd.conf", listen, "\n".join(lines).replace("192.0.2.1 ", f"{machine.address} ")
    )
    play(machine, restarts)
    return again


def recipients(machine, login, count):
    """What so many recipients of a message are answered."""
    wait_for(587, machine.address)
    smtp = session_at(587, login, machine.address)
    smtp.mail("a@quota.test")
    answers = [smtp.rcpt(f"r{number}@example.test") for number in range(count)]
    if any(code == 250 for code, _ in answers):
        smtp.data(b"Subject: hello\r\n\r\nhello\r\n")
    smtp.quit()
    return [f"{code} {text.decode()}" if code != 250 else "250" for code, text in answers]


def report(quota, server=SERVER):
    """Of each login what is settled, what is reserved, and its limit."""
    today = quota.shown("mailquota", "day", "--config", "/etc/mailquota/server.toml").strip()
    rows = [
        line.split()
        for line in quota.shown(
            "mailquota", "report", "--server", server, "--day", today
        ).splitlines()
    ]
    return {
        login: (int(settled), int(reserved), int(limit)) for settled, reserved, limit, login in rows
    }


def filter_of(machine):
    """The process that the filter is."""
    return machine.shown(
        "sh", "-c", "grep -lsa ^/usr/sbin/mailquota.filter /proc/[0-9]*/cmdline || :"
    ).split()


def kind_of_machine():
    """Machines with systemd, if it boots in a container here."""
    if os.environ.get("WITHOUT_SYSTEMD"):
        return PlainMachine
    try:
        Machine("tried", "192.0.2.99", "plain").end()
    except NoBoot as why:
        print(
            "systemd doesn't boot in a container here, so maintainer scripts and the units' own"
            f" commands are tried:\n{why}"
        )
        return PlainMachine
    return Machine


def upgrade_filter(host, package):
    """Installs the package on a mail host, where the filter of before runs on."""
    runs = (host.main_pid("opensmtpd"), filter_of(host))
    said = " ".join(install(host, package))
    note(
        f"{host.name}, upgraded under load: it says when to restart smtpd",
        "Once the quota server is upgraded too" in said and "systemctl restart opensmtpd" in said,
        True,
    )
    note(
        f"{host.name}, upgraded: smtpd and its filter run on",
        (host.main_pid("opensmtpd"), filter_of(host)),
        runs,
    )
