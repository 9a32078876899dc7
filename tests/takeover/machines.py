"""Quota servers and mail hosts on one switch, each with a folder of its own over the one with
smtpd."""
import contextlib
import os
import re
import subprocess
import sys
from pathlib import Path

HERE = Path(__file__).resolve().parent
sys.path += [str(HERE.parent / "smtpd"), str(HERE.parent / "program")]

from host import PROGRAM, ROOT
from switch import OnSwitch, call, exchange
from wire import reserve

WORK = Path(os.environ["WORK"])
CONTRIB = HERE.parent.parent / "contrib"
MOVING = "192.0.2.7"

# What runs a server as its unit does: again after a second, as long as it is wanted.
SUPERVISOR = f"""#!/bin/sh
while :; do
    while [ ! -e /run/wanted ]; do sleep 0.1; done
    {PROGRAM} server --config /etc/mailquota/server.toml >>/var/log/mailquota-server.log 2>&1 &
    echo $! >/run/mailquota.pid
    wait $!
    if [ -e /run/wanted ]; then sleep 1; fi
done
"""


class Machine(OnSwitch):
    def __init__(self, name, address):
        super().__init__(name, address, WORK / name)
        for folder in (self.root, WORK / f"{name}.upper", WORK / f"{name}.work"):
            folder.mkdir()
        options = f"lowerdir={ROOT},upperdir={WORK}/{name}.upper,workdir={WORK}/{name}.work"
        call("mount", "-t", "overlay", "overlay", "-o", options, self.root)
        for folder in ("proc", "dev"):
            call("mount", "--bind", f"/{folder}", self.root / folder)
        self.connect("eth0")

    def words(self, *words):
        return ["ip", "netns", "exec", self.name, "chroot", str(self.root), *map(str, words)]

    def run(self, *words):
        """What it prints, and its status."""
        run = call(*self.words(*words), check=False)
        return (run.stdout + run.stderr).strip(), run.returncode

    def start(self, name, *words):
        with open(self.root / f"var/log/mailquota-{name}.log", "ab") as log:
            return subprocess.Popen(
                self.words(*words), stdin=subprocess.DEVNULL, stdout=log, stderr=log
            )


def contrib(name, *changes):
    """A file of contrib with these texts changed, each of which stands in it."""
    text = (CONTRIB / name).read_text()
    for old, new in changes:
        assert old in text, (name, old)
        text = text.replace(old, new)
    return text


class QuotaServer(Machine):
    """A quota server, by contrib's files, with keepalived where its settings are given."""

    def __init__(self, name, address, default, keepalived=None, example=contrib):
        super().__init__(name, address)
        listen = ('\nlisten = "192.0.2.7:7025"', '\nlisten = "0.0.0.0:7025"')
        self.write(
            "/etc/mailquota/server.toml",
            example("server.toml", listen, ("\ndefault = 1000\n", f"\ndefault = {default}\n")),
        )
        self.write("/etc/nftables-mailquota.conf", example("nftables.conf"))
        self.write("/usr/local/sbin/supervisor", SUPERVISOR, 0o755)
        self.store = self.root / "var/lib/mailquota"
        self.store.mkdir(parents=True, exist_ok=True)
        # (a disk of its own, which may fill)
        call("mount", "-t", "tmpfs", "-o", "size=64m", "tmpfs", self.store)
        for words in (
            ["nft", "-f", "/etc/nftables-mailquota.conf"],
            [PROGRAM, "init", "--config", "/etc/mailquota/server.toml"],
        ):
            said, status = self.run(*words)
            assert status == 0, said
        self.want()
        self.start("supervisor", "/usr/local/sbin/supervisor")
        if keepalived:
            self.keep_alive(keepalived)

    def keep_alive(self, settings):
        self.write("/etc/keepalived/keepalived.conf", settings)
        self.start(
            "keepalived",
            "keepalived",
            "--dont-fork",
            "--log-console",
            "-f",
            "/etc/keepalived/keepalived.conf",
            "-p",
            "/run/keepalived.pid",
        )

    def want(self):
        self.write("/run/wanted", "")

    def end(self, signal):
        """Ends the server, which isn't started again until it is wanted."""
        (self.root / "run/wanted").unlink()
        os.kill(self.pid(), signal)

    def fill(self):
        """Takes all room of its disk, also what is given up meanwhile."""
        with open(self.store / "filler", "ab", buffering=0) as filler:
            for size in (1 << 20, 4_096):
                with contextlib.suppress(OSError):
                    while filler.write(b"x" * size) == size:
                        pass

    def said(self):
        """The last line of its server."""
        return self.log().splitlines()[-1:]

    def opened_in(self):
        """How many seconds its last start took over the ledger."""
        return int(re.findall(r", opened in (\d+) ms$", self.log(), re.MULTILINE)[-1]) / 1_000

    def log(self):
        return (self.root / "var/log/mailquota-server.log").read_text()

    def clear(self):
        (self.store / "filler").unlink()

    def pid(self):
        return int((self.root / "run/mailquota.pid").read_text())

    def has_address(self):
        return bool(call("ip", "-n", self.name, "-oneline", "address", "show", "to", MOVING).stdout)

    def use(self, day):
        """A login of another host uses one recipient of this day."""
        exchange(self.address, reserve(1, login=b"past", at=86_400 * day, host=b"past"))

    def ask(self, command, *words):
        run = call(
            "chroot",
            ROOT,
            PROGRAM,
            command,
            "--server",
            f"{self.address}:7025",
            *words,
            check=False,
        )
        return (run.stdout + run.stderr).strip(), run.returncode

    def answers(self):
        return self.ask("status")[1] == 0


class MailHost(Machine):
    """A mail host with smtpd, by contrib's files, but that its mail goes nowhere."""

    def __init__(self, name, address, host, *changes, example=contrib):
        super().__init__(name, address)
        self.host = host
        self.write(
            "/etc/mailquota/filter.toml",
            example("filter.toml", ("mx1.example.org", host), *changes),
        )
        sink = 'action "outbound" mda "true" virtual { "@" = nobody }'
        self.write(
            "/etc/smtpd.conf",
            contrib(
                "smtpd.conf",
                ("listen on 192.0.2.1 ", f"listen on {address} "),
                ('action "outbound" relay', sink),
            ),
        )
        self.smtpd = self.start("smtpd", "smtpd", "-d", "-f", "/etc/smtpd.conf")
