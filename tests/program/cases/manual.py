"""What the manual has an administrator type, and what it lists: the examples of its pages, the
rules of zones, and the places of files."""
import datetime
import re

import wire
from cases.contrib import Machine, text_of
from cases.examples import INSTALLED
from cases.packages import Sided
from ends import Server, toml, wait_past_midnight
from pages import block_of_manual, lines_of_manual
from smtpd import clock

DAY = 86_400
# Of the zones of mailquota.toml(5) the rule, as the last line of the zone's file has it, and how
# many minutes its clocks are ahead of UTC on 2026-01-15 and on 2026-07-15.
ZONES = {
    "London": ("GMT0BST,M3.5.0/1,M10.5.0", 0, 60),
    "Berlin, Paris, Rome": ("CET-1CEST,M3.5.0,M10.5.0/3", 60, 120),
    "Athens, Helsinki, Kyiv": ("EET-2EEST,M3.5.0/3,M10.5.0/4", 120, 180),
    "Sydney, Melbourne": ("AEST-10AEDT,M10.1.0,M4.1.0/3", 660, 600),
    "Auckland": ("NZST-12NZDT,M9.5.0,M4.1.0/3", 780, 720),
    "New York, Toronto": ("EST5EDT,M3.2.0,M11.1.0", -300, -240),
    "Chicago": ("CST6CDT,M3.2.0,M11.1.0", -360, -300),
    "Denver": ("MST7MDT,M3.2.0,M11.1.0", -420, -360),
    "Los Angeles": ("PST8PDT,M3.2.0,M11.1.0", -480, -420),
    "Santiago": ("<-04>4<-03>,M9.1.6/24,M4.1.6/24", -180, -240),
}
JANUARY, JULY = (
    (datetime.date(2026, month, 15) - datetime.date(1970, 1, 1)).days for month in (1, 7)
)


def run(world, checks):
    rules_of_zones(world, checks)
    the_rule_of_a_zone_file(world, checks)
    the_date_of_a_day(world, checks)
    examples_of_limit(world, checks)
    examples_of_filter(checks)
    places(checks)


def rules_of_zones(world, checks):
    """A rule is compared byte for byte, so the page has those of the zones' files; by each a day
    begins at midnight of the civil date, in winter as in summer."""
    rows = [
        re.fullmatch(r"\.It (.*) Ta (.*)", it).groups()
        for it in lines_of_manual("mailquota.toml.5", "ZONE RULES")
        if it.startswith(".It ")
    ]
    checks.equal(
        "mailquota.toml(5): the rules of its zones",
        dict(rows),
        {zone: rule for zone, (rule, *_) in ZONES.items()},
    )
    for zone, rule in rows:
        its = {"listen": "127.0.0.1:1", "store": "memory", "default": 3, "rule": rule}
        file = world.new_file(toml(its))
        days, wanted = {}, {}
        for day, ahead in zip((JANUARY, JULY), ZONES.get(zone, (rule, 0, 0))[1:]):
            for second, of in ((-1, day - 1), (0, day)):
                at = DAY * day - 60 * ahead + second
                days[at] = world.run("day", "--config", file, "--at", str(at))
                wanted[at] = 0, f"{of}\n".encode(), ""
        checks.equal(f"the rule of {zone}: days about two midnights", days, wanted)


def the_rule_of_a_zone_file(world, checks):
    """The command of mailquota.toml(5), over a file as zic(8) writes it: what stands between its
    last two line ends is the rule."""
    rule = ZONES["Berlin, Paris, Rome"][0]
    path = world.new_file("")
    with open(path, "wb") as file:
        file.write(b"TZif2" + bytes(39) + b"\n\0TZif2" + bytes(39) + f"\n{rule}\n".encode())
    [command] = [
        it.removeprefix(".Dl ")
        for it in lines_of_manual("mailquota.toml.5", "ZONE RULES")
        if it.startswith(".Dl ")
    ]
    words = command.replace("/usr/share/zoneinfo/Europe/Berlin", path)
    came = Machine(world, "zoned").run([words])
    checks.equal("mailquota.toml(5): the rule of a zone's file", came, (0, f"{rule}\n", ""))


def the_date_of_a_day(world, checks):
    """The day of the date that mailquota-limit(8) writes, by name, and at its first and last
    second."""
    [written] = {
        it
        for line in lines_of_manual("mailquota-limit.8", "DESCRIPTION")
        for it in re.findall(r"date as (\d{4}-\d\d-\d\d)", line)
    }
    number = (datetime.date.fromisoformat(written) - datetime.date(1970, 1, 1)).days
    its = {"listen": "127.0.0.1:1", "store": "memory", "default": 3, "offset": 0}
    file = world.new_file(toml(its))
    checks.equal(
        "mailquota-limit(8): the number of a date's day",
        world.run("day", "--config", file, written),
        (0, f"{number}\n".encode(), ""),
    )
    checks.equal(
        "the number of that day, at its first second and its last one",
        [
            world.run("day", "--config", file, "--at", str(DAY * number + second))
            for second in (0, DAY - 1)
        ],
        [(0, f"{number}\n".encode(), "")] * 2,
    )


def examples_of_limit(world, checks):
    """The commands of mailquota-limit(8), beside settings of the server: a limit from today on, who
    used most today, and what a login used yesterday."""
    wait_past_midnight()
    now = clock() // 1_000
    used = {b"u%02d" % n: n for n in range(1, 23)}
    with Server(world, default=1_000) as server:
        server.ask(
            b"".join(
                wire.reserve(n, txn=n, login=login, count=count, at=now)
                for n, (login, count) in enumerate(used.items(), 1)
            )
            + wire.reserve(30, txn=30, login=b"alice", count=7, at=now - DAY)
        )
        machine = Sided(world, "limiting", server)
        machine.write("etc/mailquota/server.toml", text_of("server.toml"))
        machine.edit()
        came = [machine.run([it]) for it in block_of_manual("mailquota-limit.8", "EXAMPLES")]
        after = world.run("report", "--server", server.address, "--day", str(now // DAY), "alice")
    most = sorted(used.items(), key=lambda it: -it[1])[:20]
    checks.equal(
        "mailquota-limit(8): its examples: status, what they print and say",
        came,
        [
            (0, "set\n", ""),
            (0, "".join(f"      0 {count:7}    1000 {it.decode()}\n" for it, count in most), ""),
            (0, "      0       7    1000 alice\n", ""),
        ],
    )
    checks.equal(
        "mailquota-limit(8): its examples: the limit of today",
        after,
        (0, b"      0       0    5000 alice\n", ""),
    )


def examples_of_filter(checks):
    """The lines for smtpd.conf of mailquota-filter(8) are those of the example."""
    wanted = [it for it in text_of("smtpd.conf").splitlines() if re.match("filter |listen ", it)]
    checks.equal(
        "mailquota-filter(8): its lines for smtpd.conf",
        block_of_manual("mailquota-filter.8", "EXAMPLES"),
        wanted,
    )


def places(checks):
    """The files that mailquota(8) lists are those that the package has, and those that its server
    and its filter are told of."""
    listed = [
        path
        for it in lines_of_manual("mailquota.8", "FILES")
        if it.startswith(".It Pa ")
        for path in it.removeprefix(".It Pa ").split(" , ")
    ]
    ledger = re.search(r'^store = "(.*)"$', text_of("server.toml"), re.MULTILINE)[1]
    settings = [text_of(f"{it}.toml").split()[1] for it in ("server", "filter")]
    own = [it for it in listed if it.startswith("/usr/")]
    checks.equal(
        "mailquota(8): files of the package, that it hasn't",
        [it for it in own if not any(f"/usr/{its}/".startswith(f"{it}/") for its in INSTALLED)],
        [],
    )
    checks.equal(
        "mailquota(8): its other files",
        [it for it in listed if it not in own],
        [
            *settings,
            *("/etc/mailquota/servers.toml", "/etc/mailquota/mail-to"),
            *(ledger, f"{ledger}-wal", f"{ledger}.old"),
        ],
    )
