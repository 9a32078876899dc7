"""Who may ask what: a file of permits, over connections from many addresses. Which requests are let
is worked out anew by Python's `ipaddress`. The cases run in a network of their own, in which each
address of 192.0.2.0/24, 198.51.100.0/24 and 2001:db8::/32 is this machine's."""
import contextlib
import ctypes
import ipaddress
import os
import random
import re
import socket
import subprocess

import wire
from cases import contrib
from ends import SECONDS, TOP, Script, Server, fault, files_in, read_all, read_to_end, send_no_more
from ends import unavailable, unreached, wait_past_midnight

NETWORK_OF_ITS_OWN = 0x4000_0000
HERE, OTHER_HERE = "192.0.2.7", "198.51.100.7"
FAR_DAY = re.compile(r"\[WARN +requests\] connection of (\S+):\d+: host (\S+) reserves .*")
LINE = re.compile(r"\[WARN +requests\] connection of (\S+): (may not .*)")

# The example of mailquota.toml(5).
EXAMPLE = {
    "hosts": {
        "mx1.example.org": ["192.0.2.1"],
        "mx2.example.org": ["192.0.2.2", "2001:db8::2"],
    },
    "admin": ["local", "192.0.2.9"],
    "report": ["198.51.100.0/24"],
}
# The file of contrib: of two quota servers each may do at the other what README has an administrator
# do on one of them for both.
OF_CONTRIB = {
    "hosts": EXAMPLE["hosts"],
    "admin": ["local", "192.0.2.5", "192.0.2.6", "192.0.2.9"],
    "report": ["192.0.2.8"],
}


def run(world, checks):
    if not leave_network():
        checks.skip("permits", "this process may not have a network of its own")
        return
    for case in (
        everybody_without_the_key,
        each_request_from_each_address,
        by_the_file_of_contrib,
        by_both_families,
        mapped_addresses,
        prefixes_at_their_ends,
        random_tables,
        host_of_two_addresses,
        forged_in_a_round,
        refused_changes_nothing,
        named_once_an_hour,
        logged_in_a_round,
        commands_that_arent_taken,
        hosts_that_arent_listed,
        silent_about_a_host,
        commands_of_this_machine,
        scripts_of_this_machine,
        admin_only_where_the_file_says_so,
        over_a_file_by_night,
        two_servers,
        many_hosts,
        bad_files,
        lines_of_bad_files,
    ):
        wait_past_midnight()
        case(world, checks)


def leave_network():
    """Gives this process, and those that it starts, a network of their own, with these addresses;
    says whether it may have one."""
    if ctypes.CDLL(None, use_errno=True).unshare(NETWORK_OF_ITS_OWN):
        return False
    for words in (
        "link set lo up",
        "route add local 192.0.2.0/24 dev lo",
        "route add local 198.51.100.0/24 dev lo",
        "-6 route add local 2001:db8::/32 dev lo",
    ):
        if subprocess.run(["ip", *words.split()], capture_output=True).returncode:
            return False
    # (an address of IPv6 that a route alone makes local may be bound to only so)
    with open("/proc/sys/net/ipv6/ip_nonlocal_bind", "w", encoding="ascii") as setting:
        setting.write("1")
    return True


def text_of(hosts, admin, report):
    """A file of permits."""

    def listed(origins):
        return "[" + ", ".join(f'"{it}"' for it in origins) + "]"

    lines = ["[hosts]", *(f'"{name}" = {listed(of)}' for name, of in hosts.items()), "[peers]"]
    return "\n".join([*lines, f"admin = {listed(admin)}", f"report = {listed(report)}", ""])


class Permitted(Server):
    """A server with a file of permits, asked from any address."""

    def __init__(self, world, permits, host=HERE, text=None, **settings):
        path = world.new_file(text or text_of(**permits))
        super().__init__(world, host=host, permits=path, **settings)

    def of(self, source, *frames, at=None):
        """What comes back for these frames from this address, asked at another one of the server's
        where that listens at all."""
        with self.connected(source, at) as peer:
            peer.sendall(b"".join(frames))
            send_no_more(peer)
            return read_to_end(peer)

    @contextlib.contextmanager
    def connected(self, source, at=None):
        at = at or self.host
        with socket.socket(socket.AF_INET6 if ":" in at else socket.AF_INET) as peer:
            peer.settimeout(SECONDS)
            peer.bind((source, 0))
            peer.connect((at, self.port))
            yield peer

    def refusals(self):
        """Of whom a line says that he may not ask something, and what it says."""
        found = filter(None, map(LINE.fullmatch, self.all_log_lines()))
        return [(it[1].rpartition(":")[0].strip("[]"), it[2]) for it in found]


def canonical(address):
    """An address; one of IPv4 that is mapped into IPv6 counts as itself."""
    it = ipaddress.ip_address(address)
    return getattr(it, "ipv4_mapped", None) or it


def is_own(source, at):
    return canonical(source).is_loopback or canonical(source) == canonical(at)


def is_from(source, at, origins):
    """Whether one of a list's entries has the address."""
    return any(
        is_own(source, at) if it == "local" else canonical(source) in network_of(it)
        for it in origins
    )


def network_of(entry):
    address, slash, prefix = entry.partition("/")
    if slash:
        return ipaddress.ip_network(entry, strict=False)
    return ipaddress.ip_network(str(canonical(address)))


def may(permits, source, at, kind, host):
    """Whether a request of this kind, under this host's name, is let."""
    of_host = is_from(source, at, permits["hosts"].get(host, []))
    is_admin = is_from(source, at, permits["admin"])
    if kind in ("reserve", "settle", "release"):
        return of_host
    if kind == "retire":
        return of_host or is_admin
    if kind == "limit":
        return is_admin
    return is_own(source, at) or is_admin or is_from(source, at, permits["report"])


def request_of(kind, number, host):
    """A request of this kind, with a number of its own where it has one."""
    sender = {"host": host.encode(), "run": 5}
    return {
        "reserve": lambda: wire.reserve(number, txn=number, login=b"u", **sender),
        "settle": lambda: wire.settle(number, txn=number, login=b"u", **sender),
        "release": lambda: wire.release(number, txn=number, login=b"u", **sender),
        "retire": lambda: wire.retire(number, **sender),
        "limit": lambda: wire.limit(number, 1, 3, **sender),
        "usage": wire.usage,
        "list": wire.page,
    }[kind]()


KINDS = ("reserve", "settle", "release", "retire", "limit", "usage", "list")


def is_let(reply):
    """Whether a request was put to the ledger: any reply but the one that asks to send it again."""
    return reply != wire.RETRY


def compare(checks, what, server, permits, sources, hosts, at=None):
    """Asks each kind of request from each address under each host's name."""
    wrong, let, number = [], 0, 0
    for source in sources:
        for host in hosts:
            for kind in KINDS:
                number += 1
                wanted = may(permits, source, at or server.host, kind, host)
                let += wanted
                if is_let(server.of(source, request_of(kind, number, host), at=at)) != wanted:
                    wrong.append((source, host, kind, wanted))
    checks.equal(f"{what}: {number} requests, {let} of them let", wrong, [])


def everybody_without_the_key(world, checks):
    everybody = {
        "hosts": {"mx1.example.org": ["0.0.0.0/0"], "mx2.example.org": ["0.0.0.0/0"]},
        "admin": ["0.0.0.0/0"],
        "report": [],
    }
    server = Permitted(world, everybody)
    with server:
        compare(
            checks, "all by a table", server, everybody, ["192.0.2.77", HERE], everybody["hosts"]
        )
    with Server(world, host=HERE) as plain:
        frames = [request_of(kind, 1 + at, "a") for at, kind in enumerate(KINDS)]
        with plain.connect(source="192.0.2.77") as peer:
            peer.sendall(b"".join(frames))
            send_no_more(peer)
            replies = read_to_end(peer)
        checks.equal("without the key nothing is refused", wire.RETRY in replies, False)


def each_request_from_each_address(world, checks):
    sources = ["192.0.2.1", "192.0.2.2", "192.0.2.9", "192.0.2.77", "198.51.100.3", HERE]
    hosts = [*EXAMPLE["hosts"], "mx3.example.org", "mx1.example.or", "MX1.example.org"]
    with Permitted(world, EXAMPLE) as server:
        compare(checks, "by the example", server, EXAMPLE, sources, hosts)
    with Permitted(world, EXAMPLE, host="127.0.0.1") as server:
        sources = ["127.0.0.1", "127.0.0.9"]
        compare(checks, "from the loopback", server, EXAMPLE, sources, hosts[:1])


def by_the_file_of_contrib(world, checks):
    text = contrib.text_of("permits.toml")
    sources = [f"192.0.2.{number}" for number in (1, 2, 5, 6, 8, 9, 77)]
    with Permitted(world, OF_CONTRIB, text=text) as server:
        compare(checks, "by contrib's file", server, OF_CONTRIB, sources, EXAMPLE["hosts"])


def by_both_families(world, checks):
    sources = ["2001:db8::2", "2001:db8::3", "2001:db8::7"]
    with Permitted(world, EXAMPLE, host="2001:db8::7") as server:
        compare(checks, "of IPv6", server, EXAMPLE, sources, EXAMPLE["hosts"])


def mapped_addresses(world, checks):
    """A server that listens at :: sees addresses of IPv4 mapped into IPv6."""
    with Permitted(world, EXAMPLE, host="::") as server:
        sources = ["192.0.2.1", "192.0.2.2", "192.0.2.9", "198.51.100.3", HERE]
        compare(checks, "mapped", server, EXAMPLE, sources, EXAMPLE["hosts"], at=HERE)
        sources = ["2001:db8::2", "2001:db8::7"]
        compare(checks, "beside them", server, EXAMPLE, sources, EXAMPLE["hosts"], at="2001:db8::7")
    six = {"hosts": {"a": ["::/0"]}, "admin": ["::/0"], "report": ["::ffff:198.51.100.3"]}
    with Permitted(world, six, host="::") as server:
        sources = ["192.0.2.1", "198.51.100.3", HERE]
        compare(checks, "not by a network of IPv6", server, six, sources, ["a"], at=HERE)


def prefixes_at_their_ends(world, checks):
    for prefix, sources in {
        "0.0.0.0/0": ["192.0.2.1", "198.51.100.254"],
        "192.0.2.0/25": ["192.0.2.0", "192.0.2.127", "192.0.2.128"],
        "192.0.2.128/25": ["192.0.2.127", "192.0.2.128", "192.0.2.255"],
        "192.0.2.1/32": ["192.0.2.0", "192.0.2.1", "192.0.2.2"],
        "192.0.2.5/31": ["192.0.2.3", "192.0.2.4", "192.0.2.5", "192.0.2.6"],
    }.items():
        permits = {"hosts": {"a": [prefix]}, "admin": ["192.0.2.250"], "report": []}
        with Permitted(world, permits) as server:
            compare(checks, f"of {prefix}", server, permits, sources, ["a"])
    for prefix, sources in {
        "::/0": ["2001:db8::1"],
        "2001:db8::/127": ["2001:db8::", "2001:db8::1", "2001:db8::2"],
        "2001:db8::1/128": ["2001:db8::", "2001:db8::1", "2001:db8::2"],
        "2001:db8:8000::/33": ["2001:db8:7fff:ffff::1", "2001:db8:8000::1"],
    }.items():
        permits = {"hosts": {"a": [prefix]}, "admin": ["192.0.2.250"], "report": []}
        with Permitted(world, permits, host="2001:db8::7") as server:
            compare(checks, f"of {prefix}", server, permits, sources, ["a"])


def random_address(rng, six):
    if six:
        return str(
            ipaddress.IPv6Address((0x2001_0DB8 << 96) | rng.getrandbits(rng.choice([8, 96])))
        )
    return str(ipaddress.IPv4Address("192.0.2.0") + rng.randrange(256))


def random_origins(rng, most):
    """Some entries of a list, mostly near the addresses that ask."""
    found = []
    for _ in range(rng.randrange(most + 1)):
        six = rng.random() < 0.4
        address = random_address(rng, six)
        width = 128 if six else 32
        prefix = rng.choice([width, width, rng.randrange(width + 1), width - rng.randrange(9)])
        found.append(rng.choice([address, f"{address}/{prefix}", f"{address}/{prefix}", "local"]))
    return found


def random_tables(world, checks):
    rng = random.Random(73)
    for table in range(25):
        hosts = {f"h{at}": random_origins(rng, 6) for at in range(rng.randrange(1, 5))}
        permits = {
            "hosts": hosts,
            "admin": random_origins(rng, 4) or ["192.0.2.9"],
            "report": random_origins(rng, 4),
        }
        six = table % 2 == 1
        host = "2001:db8::7" if six else HERE
        sources = [random_address(rng, six) for _ in range(5)] + [host]
        with Permitted(world, permits, host=host) as server:
            compare(checks, f"table {table}", server, permits, sources, [*hosts, "h9"][:3])


def host_of_two_addresses(world, checks):
    """A host whose other address takes over goes on as the same run."""
    with Permitted(world, EXAMPLE) as server:
        sender = {"host": b"mx2.example.org", "run": 9}
        first = server.of("192.0.2.2", wire.reserve(1, **sender))
        again = server.of("192.0.2.2", wire.reserve(1, **sender))
        checks.equal("first", [first, again], [wire.granted(1, 1, **sender)] * 2)
    with Permitted(world, EXAMPLE, host="::") as server:
        first = server.of("192.0.2.2", wire.reserve(1, **sender), at=HERE)
        then = server.of("2001:db8::2", wire.settle(2, **sender), at="2001:db8::7")
        wanted = [wire.granted(1, 1, **sender), wire.settled(2, 1, **sender)]
        checks.equal("then the other", [first, then], wanted)


def forged_in_a_round(world, checks):
    """Requests that stand next on several connections at once: the forged ones among them are
    refused, and the others taken."""
    with Permitted(world, EXAMPLE) as server, contextlib.ExitStack() as open_ones:
        asked = [
            ("192.0.2.1", "mx1.example.org", True),
            ("192.0.2.2", "mx1.example.org", False),
            ("192.0.2.2", "mx2.example.org", True),
            ("192.0.2.77", "mx2.example.org", False),
            ("192.0.2.9", "mx1.example.org", False),
        ]
        peers = [open_ones.enter_context(server.connected(source)) for source, _, _ in asked]
        for turn in range(20):
            with server.stopped():
                for at, (peer, (_, host, _)) in enumerate(zip(peers, asked)):
                    number = 1 + turn * len(asked) + at
                    login = b"l%d" % number
                    peer.sendall(
                        wire.reserve(number, txn=number, login=login, host=host.encode(), run=1)
                    )
            came = [
                is_let(read_all(peer, lambda it: len(it) >= 3 and is_whole(it))) for peer in peers
            ]
            if came != [wanted for _, _, wanted in asked]:
                break
        checks.equal("in 20 rounds", came, [wanted for _, _, wanted in asked])
        # (after its length, its kind and the day a page has the number of its rows)
        checks.equal("logins that were granted some", server.of(HERE, wire.page())[7], 40)


def is_whole(sent):
    return len(sent) >= 2 + int.from_bytes(sent[:2], "big")


def refused_changes_nothing(world, checks):
    with Permitted(world, EXAMPLE) as server:
        mx1 = {"host": b"mx1.example.org", "run": 1}
        server.of("192.0.2.1", wire.reserve(1, txn=1, **mx1))
        before = server.of(HERE, wire.usage())
        forged = [
            wire.reserve(2, txn=2, **mx1),
            wire.settle(3, txn=1, **mx1),
            wire.release(4, txn=1, **mx1),
            wire.retire(1, host=b"mx1.example.org", run=2),
            wire.limit(1, 1, 0, host=b"-", run=7),
        ]
        replies = server.of("192.0.2.77", *forged)
        checks.equal("all are to be sent again", replies, wire.RETRY * len(forged))
        checks.equal("used and the limit stay", server.of(HERE, wire.usage()), before)
        # (each number is free, since the forged request under it never came)
        then = server.of("192.0.2.1", wire.reserve(2, txn=2, **mx1))
        checks.equal("and the numbers too", then, wire.granted(2, 2, **mx1))


def named_once_an_hour(world, checks):
    with Permitted(world, EXAMPLE) as server:
        for _ in range(3):
            server.of("192.0.2.77", wire.limit(1, 1, 9))
        server.of("192.0.2.77", wire.usage())
        server.of("192.0.2.78", wire.usage())
        server.of("192.0.2.79", wire.reserve(1, host=b"mx1.example.org"))
        server.of("192.0.2.80", wire.retire(1, host=b"mx1.example.org"))
        server.of("192.0.2.2", wire.page())
        wanted = [
            ("192.0.2.77", "may not set limits"),
            ("192.0.2.78", "may not ask what logins have used"),
            ("192.0.2.79", "may not ask for host mx1.example.org"),
            ("192.0.2.80", "may not retire runs of host mx1.example.org"),
            ("192.0.2.2", "may not ask what logins have used"),
        ]
        checks.equal("one line an address", server.refusals(), wanted)


def silent_about_a_host(world, checks):
    """Of a server that gives no answer nothing is said of permits."""
    with Script([b""]) as server:
        came = world.run("status", "--server", server.address, "--host", "mx1")
    checks.holds(
        "status of a host, no answer",
        came[0] == 1 and "unavailable" in came[2] and "permits" not in came[2],
        "unavailable, and no word of permits",
        came,
    )


def logged_in_a_round(world, checks):
    """Of requests that are taken together each line of the log has its own peer."""
    asked = [("192.0.2.1", "mx1.example.org"), ("192.0.2.2", "mx2.example.org")]
    with Permitted(world, EXAMPLE) as server, contextlib.ExitStack() as open_ones:
        peers = [open_ones.enter_context(server.connected(source)) for source, _ in asked]

        def ask_each(request):
            with server.stopped():
                for peer, (_, host) in zip(peers, asked):
                    peer.sendall(request(1, host=host.encode(), run=1))
            for peer in peers:
                read_all(peer, lambda it: len(it) >= 3 and is_whole(it))

        # (both are open before they ask what is logged)
        ask_each(wire.release)
        ask_each(wire.reserve)
        found = filter(None, map(FAR_DAY.fullmatch, server.all_log_lines()))
        came = sorted((it[1], it[2]) for it in found)
        checks.equal("lines of a round", came, asked)


def commands_of_this_machine(world, checks):
    """What the units and the administrator run on the quota server itself."""
    with Permitted(world, EXAMPLE, host="0.0.0.0") as server:
        for address in (f"127.0.0.1:{server.port}", f"{HERE}:{server.port}"):
            server.of("192.0.2.1", wire.reserve(1, host=b"mx1.example.org"), at=HERE)
            came = world.run("status", "--server", address)
            checks.equal(
                f"status at {address}", came, (0, f"quota server {address} answers\n".encode(), "")
            )
            status, output, _ = world.run("report", "--server", address, "--day", "1")
            checks.equal(f"report at {address}", (status, output.split()[-1:]), (0, [b"u"]))
            status, output, _ = world.run("limit", "--server", address, "--from", "1", "u", "2")
            checks.equal(f"limit at {address}", (status, output), (0, b"set\n"))
            status, output, _ = world.run("stop", "--server", address, "--force", "--day", "1", "u")
            checks.holds(f"stop at {address}", status == 0, "status 0", (status, output))


def scripts_of_this_machine(world, checks):
    """What the package's units run on the quota server, over its example settings and table, which
    lists no address of the server, and also without `local`."""
    table, settings = (example(name) for name in ("permits.toml", "server.toml"))
    for what, text in {"": table, " without local": table.replace('"local", ', "")}.items():
        permits = world.new_file(text)
        with Server(world, host="0.0.0.0", permits=permits) as server:
            listen = f"{HERE}:{server.port}"
            file = world.new_file(
                settings.replace("192.0.2.7:7025", listen)
                .replace("# permits", "permits")
                .replace("/etc/mailquota/permits.toml", permits)
            )
            for name in ("await-server", "keepalived-check"):
                text = example(name).replace("/usr/sbin/mailquota", world.program)
                text = text.replace("127.0.0.1:7025", f"127.0.0.1:{server.port}")
                run = subprocess.run(
                    ["sh", "-c", text, name, file],
                    env={**os.environ, "MAINPID": str(server.process.pid)},
                    timeout=SECONDS,
                )
                checks.equal(f"{name}{what}", run.returncode, 0)
            refused = list(filter(LINE.fullmatch, server.all_log_lines()))
            checks.equal(f"nothing is refused{what}", refused, [])


def example(name):
    with open(f"{TOP}/contrib/{name}", encoding="ascii") as lines:
        return lines.read()


# What the log has of a server that answers a request so.
ASKS_AGAIN = "it can't take the request now"


def not_taken(address, output=b"", more=""):
    """What a command ends with all of whose tries this server asks for again."""
    text = f"{address} didn't take this: its log says why{more}"
    return fault(text, output, unreached(address, ASKS_AGAIN))


def untaken(address, output=b"", host="mx1"):
    """What is told where this server doesn't take a host's requests."""
    note = (
        "\nmailquota: note: if it has /etc/mailquota/permits.toml, that needs, under [hosts], with"
        f' this machine\'s address: "{host}" = ["ADDRESS"]'
    )
    return not_taken(address, output, note)


def commands_that_arent_taken(world, checks):
    """Each command of an address that isn't in the table says whose log says why, and one of whose
    tries another was lost says that nobody answers."""
    with Permitted(world, {**EXAMPLE, "admin": ["192.0.2.9"]}) as server:
        address, limit = f"{HERE}:{server.port}", server.of(HERE, wire.usage())
        for words in (
            ["limit", "--from", "1", "u", "2"],
            ["limit", "--from", "1", "--run", "5", "u", "2"],
            ["stop", "--force", "--day", "1", "u"],
            ["resume", "--day", "1", "--cap", "2", "u"],
            ["retire", "--host", "mx2.example.org"],
        ):
            name, *others = words
            came = world.run(name, "--server", address, *others)
            checks.equal(f"{' '.join(words)}, not taken", came[0::2], not_taken(address)[0::2])
        checks.equal("no limit is set", server.of(HERE, wire.usage()), limit)
    for what, words in {
        "limit": ["limit", "--from", "1", "u", "2"],
        "report": ["report", "--day", "1"],
        "report of a login": ["report", "--day", "1", "u"],
        "resume": ["resume", "--day", "1", "u"],
    }.items():
        for script in ([wire.RETRY] * 3, [b"", wire.RETRY, wire.RETRY]):
            with Script(script) as server:
                came = world.run(words[0], "--server", server.address, *words[1:])
            wanted = not_taken(server.address)
            if b"" in script:
                wanted = unavailable(server.address, ASKS_AGAIN)
            checks.equal(f"{what}, tries that end so: {script}", came, wanted)


def hosts_that_arent_listed(world, checks):
    """A host whose address isn't in the table is told the line to add, and none that is."""
    permits = {**EXAMPLE, "hosts": {"mx1.example.org": ["192.0.2.1"]}}
    for host, listed in (("mx1.example.org", ["192.0.2.1"]), ("mx2.example.org", [HERE])):
        table = {**permits, "hosts": {**permits["hosts"], host: listed}}
        with Permitted(world, table) as server:
            address = f"{HERE}:{server.port}"
            takes = f"quota server {address} answers\nrequests of host {host} are taken\n".encode()
            file = world.filter_file(address, host=host)
            for words, before in (
                (["status", "--server", address, "--host", host], b""),
                (["filter", "--check", "--config", file], b"settings are right\n"),
            ):
                came = world.run(*words)
                wanted = (0, before + takes, "")
                if HERE not in listed:
                    wanted = untaken(address, before, host)
                checks.equal(f"{words[0]} of {host}, listed at {listed}", came, wanted)


def admin_only_where_the_file_says_so(world, checks):
    """Without `local` this machine itself sets no limits, and reads all the same."""
    permits = {**EXAMPLE, "admin": ["192.0.2.9"]}
    with Permitted(world, permits) as server:
        address = f"{HERE}:{server.port}"
        checks.equal("status", world.run("status", "--server", address)[0], 0)
        status, output, errors = world.run("limit", "--server", address, "--from", "1", "u", "2")
        checks.equal("limit", (status, output), (1, b""))
        checks.equal("its line", server.refusals(), [(HERE, "may not set limits")])


def over_a_file_by_night(world, checks):
    """The permits hold over a ledger in a file, with `keep` and without."""
    for keep in (None, 2):
        path = f"{world.folder}/permitted{keep}"
        store = {"store": path, "keep": keep}
        with Permitted(world, EXAMPLE, words=["--create"], connections=None, **store) as server:
            compare(
                checks,
                f"over a file, keep {keep}",
                server,
                EXAMPLE,
                ["192.0.2.1", "192.0.2.9", "192.0.2.77"],
                ["mx1.example.org"],
            )


def two_servers(world, checks):
    """Two servers with one table, between which a host's requests move."""
    with Permitted(world, EXAMPLE) as first, Permitted(world, EXAMPLE, host=OTHER_HERE) as second:
        sender = {"host": b"mx1.example.org", "run": 3}
        came = [
            server.of(source, wire.reserve(1 + at, txn=1, **sender))
            for at, (server, source) in enumerate(
                [
                    (first, "192.0.2.1"),
                    (second, "192.0.2.1"),
                    (first, "192.0.2.2"),
                    (second, "192.0.2.2"),
                    (first, "192.0.2.1"),
                ]
            )
        ]
        wanted = [
            wire.granted(1, 1, **sender),
            wire.granted(2, 1, **sender),
            wire.RETRY,
            wire.RETRY,
            wire.granted(5, 2, **sender),
        ]
        checks.equal("each by the same table", came, wanted)


def many_hosts(world, checks):
    """1,000 hosts of 16 addresses each, and one more of either."""
    many = {
        f"mx{at}.example.org": [f"10.{at // 256}.{at % 256}.{last}" for last in range(15)]
        + [f"192.0.2.{at % 200}"]
        for at in range(1_000)
    }
    permits = {"hosts": many, "admin": ["192.0.2.250"], "report": []}
    with Permitted(world, permits) as server:
        compare(
            checks,
            "1,000 hosts",
            server,
            permits,
            ["192.0.2.0", "192.0.2.199", "192.0.2.201"],
            ["mx0.example.org", "mx999.example.org", "mx199.example.org", "mx1000.example.org"],
        )
    more = {**permits, "hosts": {**many, "mx1000.example.org": ["192.0.2.1"]}}
    checks.equal("1,001 hosts", refusal(world, text_of(**more)), "more than 1,000 hosts")
    crowded = {**permits, "hosts": {"a": [f"192.0.2.{at}" for at in range(17)]}}
    checks.equal(
        "17 addresses", refusal(world, text_of(**crowded)), "line 2: a has more than 16 addresses"
    )


def refusal(world, text):
    """Why a server refuses a file of permits, before it makes a ledger; nothing where it doesn't
    say so, or made one."""
    path = world.new_file(text)
    store = f"{world.folder}/never"
    # (a server that takes the file can't listen there, and ends)
    settings = world.new_file(
        f'listen = "203.0.113.1:7025"\nstore = "{store}"\ndefault = 3\noffset = 0\npermits = "{path}"\n'
    )
    status, output, errors = world.run(
        "server", "--config", settings, "--create", "--connections", "1"
    )
    begins = f"[ERROR settings] permits {path}: "
    ends = "\nmailquota: permits can't be used\n"
    if (status, output) != (1, b"") or not errors.startswith(begins) or not errors.endswith(ends):
        return None
    if any(it.startswith("never") for it in files_in(world.folder)):
        return None
    return errors[len(begins) : -len(ends)]


ADMIN = '[peers]\nadmin = ["192.0.2.9"]\n'
NO_ADDRESS = "no address: write 192.0.2.1, 192.0.2.0/24, 2001:db8::1 or local"
NO_PREFIX = "no length of a prefix: 0 to 32 bits, of IPv6 128, stand after the slash"


def bad_files(world, checks):
    for text, wanted in {
        "": "no address may set limits: [peers] has no admin",
        '[hosts]\na = ["192.0.2.1"]\n': "no address may set limits: [peers] has no admin",
        "[peers]\nadmin = []\n": "no address may set limits: [peers] has no admin",
        '[peers]\nreport = ["192.0.2.1"]\n': "no address may set limits: [peers] has no admin",
        f"{ADMIN}[host]\n": "line 3: host is unknown",
        '[peers]\nadmins = ["192.0.2.9"]\n': "line 2: admins is unknown",
        f"hosts = 1\n{ADMIN}": "line 1: hosts is no table",
        f'[hosts]\n"a b" = []\n{ADMIN}': "line 2: a\\x20b is no name of a host",
        f'[hosts]\na = "192.0.2.1"\n{ADMIN}': "line 2: a has no list of addresses in quotes",
        f"[hosts]\nmx1 = [1]\n{ADMIN}": "line 2: mx1 has no list of addresses in quotes",
        '[peers]\nadmin = "192.0.2.9"\n': "line 2: admin has no list of addresses in quotes",
        f'{ADMIN}report = "192.0.2.8"\n': "line 3: report has no list of addresses in quotes",
    }.items():
        checks.equal(f"of {text!r}", refusal(world, text), wanted)
    doubled = refusal(world, f"[hosts]\na = []\na = []\n{ADMIN}")
    checks.holds(
        "a host that stands twice",
        doubled is not None and doubled.startswith("line 3, column "),
        "refused in line 3",
        doubled,
    )
    missing = f"{world.folder}/missing.toml"
    settings = world.new_file(
        f'listen = "127.0.0.1:0"\nstore = "memory"\ndefault = 3\noffset = 0\npermits = "{missing}"\n'
    )
    checks.equal(
        "no such file",
        world.run("server", "--config", settings, "--connections", "1"),
        fault(
            "permits can't be used",
            log=f"[ERROR settings] permits {missing}: No such file or directory (os error 2)\n",
        ),
    )
    large = refusal(world, ADMIN + "#" * (1_048_577 - len(ADMIN)))
    checks.equal("one byte too many", large, "more than 1 MiB")


def lines_of_bad_files(world, checks):
    """Each entry that Python's `ipaddress` takes for no address or network is refused, with its
    line, and each other one is taken."""
    for entry, lacks in {
        "192.0.2.300": NO_ADDRESS,
        "192.0.2": NO_ADDRESS,
        "192.0.2.1/": NO_PREFIX,
        "192.0.2.1/33": NO_PREFIX,
        "192.0.2.1/+3": NO_PREFIX,
        "192.0.2.1/-1": NO_PREFIX,
        "192.0.2.1/a": NO_PREFIX,
        "192.0.2.1/4294967296": NO_PREFIX,
        "/24": NO_ADDRESS,
        "2001:db8::/129": NO_PREFIX,
        "::ffff:192.0.2.0/120": NO_PREFIX,
        "2001:db8::g": NO_ADDRESS,
        "mx1.example.org": NO_ADDRESS,
        "Local": NO_ADDRESS,
        "": NO_ADDRESS,
    }.items():
        text = f'# {entry}\n[hosts]\nmx1 = ["192.0.2.1",\n  "{entry}"]\n{ADMIN}'
        wanted = f"line {4 if entry else 1}: {entry} is {lacks}"
        if not entry:
            wanted = refusal(world, text)
            checks.holds("an empty entry", wanted and wanted.endswith(lacks), lacks, wanted)
            continue
        checks.equal(f"entry {entry!r}", refusal(world, text), wanted)
