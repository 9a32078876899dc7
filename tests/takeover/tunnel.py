"""The same over WireGuard, by contrib's files: each mail host gives the address that filters ask to
the server that answers, and keepalived isn't there.

Logins send all the while. Then what takeover.py says holds, and nothing of mailquota was on the
switch beside the tunnel. A mail host's other users, what is behind it, and one that takes another
host's address reach no server, and while the tunnel is down nothing goes out. The last line is
'N passed, M failed'.
"""
import contextlib
import re
import shlex
import signal
import subprocess
import sys
import time

from machines import PROGRAM, ROOT, WORK, Machine, MailHost, QuotaServer, contrib
from senders import end_all
from switch import ADMINISTRATOR, call, wait_until
from takeover import (
    DELAY,
    FIRST_DEFAULT,
    LONGEST,
    SECOND_DEFAULT,
    Checks,
    Scene,
    audits,
    day,
    ended,
    retire,
    tell_outages,
    tell_sums,
    tell_unanswered,
)

# Addresses on the switch and in the tunnel have the same last number, but for the administrator's:
# at 192.0.2.9 is what runs this.
OUTSIDE, INSIDE = "192.0.2.", "10.70.25."
MOVING = f"{INSIDE}7/32"
# Of what contrib's files name, who it is here.
NAMES = {
    "first": "THE-FIRST-SERVER",
    "second": "THE-SECOND-SERVER",
    "mx1": "MX1",
    "mx2": "MX2",
    "admin": "THE-ADMINISTRATORS-HOST",
}
# For how many seconds recipients may be answered 451, without `pause` and with contrib's: each
# mail host looks for itself, on a machine that has much else to do, and where a restart may so take
# longer than three looks.
MOVES = ("kill", "cut", "reboot", "restart", "restart of a tunnel")
LONGEST.update(dict.fromkeys(MOVES, (10, 15)))


def inside(name, *changes):
    """A file of contrib with the tunnel's addresses, and what is to be uncommented with one."""
    text = contrib(name, *changes).replace(OUTSIDE, INSIDE)
    return re.sub(r"#(tcp dport 7025 [io]ifname)", r"\1", text)


def key_pair():
    private = call("chroot", ROOT, "wg", "genkey").stdout.strip()
    public = subprocess.run(
        ["chroot", ROOT, "wg", "pubkey"], input=private, capture_output=True, text=True, check=True
    )
    return private, public.stdout.strip()


class InTunnel(Machine):
    """A machine with the device `quota`."""

    keys = {}

    def dig(self, example, *changes):
        text = contrib(example, ("PRIVATE-KEY-OF-THIS-MACHINE", self.keys[self.name][0]), *changes)
        text = text.replace(f"{ADMINISTRATOR}:51820", f"{OUTSIDE}8:51820")
        for name, its in NAMES.items():
            text = text.replace(f"PUBLIC-KEY-OF-{its}\n", f"{self.keys[name][1]}\n")
        self.write("/etc/wireguard/quota.conf", text, 0o600)
        self.up()

    @property
    def its_inside(self):
        return self.address.replace(OUTSIDE, INSIDE)

    def up(self):
        said, status = self.run("wg-quick", "up", "quota")
        assert status == 0, said

    def down(self):
        said, status = self.run("wg-quick", "down", "quota")
        assert status == 0, said


class TunnelServer(QuotaServer, InTunnel):
    """A quota server that its administrator asks through the tunnel too."""

    def __init__(self, name, number, default, administrator, other):
        super().__init__(name, f"{OUTSIDE}{number}", default, example=inside)
        self.administrator = administrator
        its, peer = other
        # (the example is the first one's)
        self.dig(
            "wireguard-server.conf",
            ("PUBLIC-KEY-OF-THE-OTHER-SERVER", self.keys[its][1]),
            (f"Address = {INSIDE}5/32,", f"Address = {INSIDE}{number}/32,"),
            (f"Endpoint = {OUTSIDE}6:", f"Endpoint = {OUTSIDE}{peer}:"),
            (f"AllowedIPs = {INSIDE}6/32", f"AllowedIPs = {INSIDE}{peer}/32"),
        )

    def ask(self, command, *words):
        return self.administrator.run(
            PROGRAM, command, "--server", f"{self.its_inside}:7025", *words
        )


class TunnelHost(MailHost, InTunnel):
    """A mail host whose unit moves the address."""

    def __init__(self, name, address, host, *changes):
        super().__init__(name, address, host, *changes, example=inside)
        self.dig("wireguard-mailhost.conf", (f"= {INSIDE}1/32", f"= {self.its_inside}/32"))
        self.write("/etc/nftables-mailhost.conf", inside("nftables-mailhost.conf"))
        self.filter()
        [starts] = re.findall(r"^ExecStart=(.*)$", contrib("wireguard-takeover.service"), re.M)
        program = shlex.split(starts)[0]
        delay = ('"$answered" -ge 60', f'"$answered" -ge {DELAY}')
        self.write(program, contrib("wireguard-takeover", delay), 0o755)
        self.start("takeover", "sh", "-c", f"while :; do {starts}; sleep 1; done")

    def filter(self):
        said, status = self.run("nft", "-f", "/etc/nftables-mailhost.conf")
        assert status == 0, said

    @contextlib.contextmanager
    def unfiltered(self):
        self.run("nft", "delete", "table", "inet", "mailquota_mailhost")
        yield
        self.filter()

    def asks(self, server):
        """Whether its filter asks this server."""
        allowed = self.run("wg", "show", "quota", "allowed-ips")[0].splitlines()
        return any(server.keys[server.name][1] in it and MOVING in it for it in allowed)

    def reaches(self, server, *user):
        """Whether this server answers, and what is said."""
        said, status = self.run(*user, PROGRAM, "status", "--server", f"{server.its_inside}:7025")
        return status == 0, said

    def comes_to_reach(self, server, *user):
        return wait_until(lambda: self.reaches(server, *user)[0], 20)


class Frames:
    """What is on the switch, or on this machine's device, until it is closed."""

    def __init__(self, device="any", *words):
        self.path = WORK / f"frames-{device}"
        self.words = [*words, "chroot", str(ROOT), "tcpdump", "-Z", "root", "-nn"]
        with open(self.path, "wb") as file:
            self.process = subprocess.Popen(
                [*self.words, "-i", device, "-U", "-w", "-"],
                stdin=subprocess.DEVNULL,
                stdout=file,
                stderr=subprocess.PIPE,
                text=True,
            )
        while "listening on" not in self.process.stderr.readline():
            assert self.process.poll() is None

    def __enter__(self):
        return self

    def __exit__(self, *_):
        # (what was just sent is to be seen)
        time.sleep(1)
        self.process.terminate()
        self.process.wait(timeout=20)

    def count(self, which):
        with open(self.path, "rb") as file:
            run = subprocess.run(
                [*self.words, "-r", "-", which], stdin=file, capture_output=True, text=True
            )
        assert run.returncode == 0, run.stderr
        return len(run.stdout.splitlines())

    def has(self, text):
        return self.path.read_bytes().count(text)


class TunnelScene(Scene):
    example = staticmethod(inside)
    hosts = ()

    def make_servers(self):
        InTunnel.keys.update((name, key_pair()) for name in NAMES)
        administrator = InTunnel("admin", f"{OUTSIDE}8")
        administrator.dig("wireguard-mailhost.conf", (f"= {INSIDE}1/32", f"= {INSIDE}9/32"))
        return [
            TunnelServer("first", 5, FIRST_DEFAULT, administrator, ("second", 6)),
            TunnelServer("second", 6, SECOND_DEFAULT, administrator, ("first", 5)),
        ]

    def make_host(self, *words):
        return TunnelHost(*words)

    def is_at(self, server):
        return server.answers() and all(host.asks(server) for host in self.hosts)

    def is_at_first(self):
        return self.is_at(self.first)

    def is_at_second(self):
        return self.is_at(self.second)

    def play(self, _):
        for sender in self.all_senders():
            sender.start()
        time.sleep(3)
        for event in (self.kill, self.unplug, self.shut, self.reboot, self.restart, self.renew):
            start = time.monotonic()
            event()
            print(f"    {event.__name__}, {time.monotonic() - start:.0f} s", flush=True)
        end_all(self.all_senders())

    def unplug(self):
        """Its cable is cut, which it notices."""
        self.away("cut", lambda: call("ip", "link", "set", "first", "down"))
        self.back(lambda: call("ip", "link", "set", "first", "up"))

    def shut(self):
        """The switch passes nothing on, which it doesn't notice."""
        self.away("cut", lambda: call("bridge", "link", "set", "dev", "first", "state", "0"))
        self.back(lambda: call("bridge", "link", "set", "dev", "first", "state", "3"))

    def reboot(self):
        """Its machine is gone, with what it knew of its peers, and they know nothing of that."""

        def ends():
            self.first.down()
            self.first.end(signal.SIGKILL)

        def comes():
            self.first.up()
            self.first.want()

        self.away("reboot", ends)
        self.back(comes)

    def renew(self):
        """One end of a tunnel after the other is restarted alone."""
        for machine in (self.first, self.hosts[0]):
            start = time.monotonic()
            machine.down()
            machine.up()
            took = time.monotonic() - start
            print(f"    {machine.name}: its tunnel is up again after {took:.1f} s", flush=True)
            # (longer than the example's `pause`)
            time.sleep(10)
            self.note("restart of a tunnel", start)
            self.wait("the address is at the first server", self.is_at_first)


def who_reaches(scene):
    """Of a mail host's users root and smtpd's, and nobody through it; with another host's address
    nothing comes back."""
    host, server = scene.hosts[0], scene.first
    as_user = {
        it: ["setpriv", f"--reuid={it}", "--regid=nogroup", "--clear-groups"]
        for it in ("root", "opensmtpd", "nobody")
    }
    came = [host.comes_to_reach(server, *as_user[it]) for it in ("root", "opensmtpd")]
    is_nobody, said = host.reaches(server, *as_user["nobody"])
    scene.checks.holds(
        "a server is reached by a mail host's root and smtpd's user, and not by nobody",
        came == [True, True] and not is_nobody and "Connection refused" in said,
        (came, is_nobody, said),
    )
    behind = Behind(host)
    came = [behind.reaches(server)]
    with host.unfiltered():
        came.append(host.comes_to_reach(server, *as_user["nobody"]))
        came.append(wait_until(lambda: behind.reaches(server), 20))
    scene.checks.holds(
        "from behind a mail host it isn't; without the packet filter by nobody and from there",
        came == [False, True, True],
        came,
    )
    own, another = host.its_inside, scene.hosts[1].its_inside
    on, to = ["dev", "quota"], f"{server.its_inside}/32"
    call("ip", "-n", host.name, "address", "add", f"{another}/32", *on)
    call("ip", "-n", host.name, "route", "replace", to, *on, "src", another)
    is_reached, said = host.reaches(server)
    call("ip", "-n", host.name, "route", "replace", to, *on, "src", own)
    call("ip", "-n", host.name, "address", "delete", f"{another}/32", *on)
    scene.checks.holds(
        "nor from another mail host's address; from its own it is",
        not is_reached and host.comes_to_reach(server),
        (is_reached, said),
    )


class Behind:
    """A machine that reaches others through this mail host, which gives it its address."""

    def __init__(self, host):
        call("ip", "netns", "add", "behind")
        call(
            *("ip", "-n", host.name, "link", "add", "behind", "type", "veth"),
            *("peer", "name", "eth0", "netns", "behind"),
        )
        for name, device, number in ((host.name, "behind", 1), ("behind", "eth0", 2)):
            call("ip", "-n", name, "address", "add", f"198.51.100.{number}/24", "dev", device)
            call("ip", "-n", name, "link", "set", device, "up")
        call("ip", "-n", "behind", "route", "add", "default", "via", "198.51.100.1")
        forwards = "echo 1 >/proc/sys/net/ipv4/ip_forward"
        call("ip", "netns", "exec", host.name, "sh", "-c", forwards)
        for rule in (
            "add table ip behind",
            "add chain ip behind its { type nat hook postrouting priority srcnat; }",
            "add rule ip behind its ip saddr 198.51.100.0/24 masquerade",
        ):
            said, status = host.run("nft", rule)
            assert status == 0, said

    @staticmethod
    def reaches(server):
        words = ["chroot", ROOT, PROGRAM, "status", "--server", f"{server.its_inside}:7025"]
        return call("ip", "netns", "exec", "behind", *words, check=False).returncode == 0


def beside(scene):
    """While the tunnel is down a request goes out beside it, where there is a way, but for the
    packet filter."""
    host, server = scene.hosts[0], scene.first
    call("ip", "-n", host.name, "route", "add", "default", "via", ADMINISTRATOR)
    host.down()
    seen = []
    with Frames() as frames:
        came = host.reaches(server)
    seen.append(frames.count("tcp port 7025"))
    with host.unfiltered(), Frames() as frames:
        host.reaches(server)
    seen.append(frames.count("tcp port 7025"))
    host.up()
    scene.checks.holds(
        "a tunnel that is down: frames beside it with a packet filter and without",
        "Connection refused" in came[1] and seen[0] == 0 < seen[1],
        (came, seen),
    )
    checked = host.comes_to_reach(server)
    scene.checks.holds("a tunnel that is up again: the server is reached", checked, checked)


def tell_frames(scene, frames, within):
    """What was on the switch, and what was in the tunnel of a mail host."""
    wanted = {
        "of the quota server's port": "tcp port 7025",
        "with the tunnel's addresses": f"net {INSIDE}0/24",
        "neither of the tunnel nor of a customer": (
            "(ip and not icmp and not udp port 51820 and not tcp port 587)"
            " or (ip6 and (tcp or udp))"
        ),
        "in fragments": "ip[6:2] & 0x3fff != 0",
    }
    counts = {what: frames.count(which) for what, which in wanted.items()}
    scene.checks.holds("frames on the switch beside the tunnel", not any(counts.values()), counts)
    tunnel = frames.count("udp port 51820")
    named = frames.has(b"mx1.example.org"), within.has(b"mx1.example.org")
    scene.checks.holds(
        "frames of the tunnel, and how often a host's name can be read outside and inside",
        tunnel > 1_000 and named[0] == 0 < named[1],
        (tunnel, named),
    )


def outside(scene):
    """A request beside the tunnel is seen on the switch, and none is taken there."""
    with Frames() as frames:
        server = f"{scene.first.address}:7025"
        came = call("chroot", ROOT, PROGRAM, "status", "--server", server, check=False)
    scene.checks.holds(
        "a request beside the tunnel: its status, and frames of it",
        came.returncode == 1 and frames.count("tcp port 7025") > 0,
        (came.returncode, frames.count("tcp port 7025")),
    )


def main():
    checks = Checks()
    scene = TunnelScene(checks, 1)
    began = day()
    with Frames() as frames, Frames("quota", "ip", "netns", "exec", "mx1") as within:
        # (its device is another one once the tunnel was restarted)
        scene.play(1)
    tell_unanswered(scene)
    tell_outages(scene)
    tell_sums(scene)
    tell_frames(scene, frames, within)
    outside(scene)
    who_reaches(scene)
    beside(scene)
    retire(scene)
    tell_sums(scene)
    audits(scene)
    return ended(checks, began)


if __name__ == "__main__":
    sys.exit(main())
