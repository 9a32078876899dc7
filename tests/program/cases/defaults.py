"""Whom a command asks, and which day it means, where its words don't say: by the settings in
/etc/mailquota, which a mount namespace of its own has."""
import contextlib
import json
import os
import subprocess
import time
from concurrent.futures import ThreadPoolExecutor

import clocks
from cases.as_used import quiet_port
from cases.asking import shown_of
from cases.rules import CENTRAL_EUROPE
from cases.stopping import LAST_DAY, caps, not_today, nothing_sent
from ends import (
    NOT_ALLOWED,
    NO_FILE,
    SECONDS,
    Script,
    Server,
    as_user,
    bad_login,
    fault,
    ledger_settings,
    loopback_of_6,
    of_settings,
    toml,
    wait_past_midnight,
)
from smtpd import clock
from wire import granted, limit, old, reserve, settle

# what a command finds in /etc: the settings of a folder, and nothing else
APART = (
    'mount -t tmpfs none /etc && mkdir /etc/mailquota && cp -r "$1"/*.toml /etc/mailquota/'
    ' 2>/dev/null; shift; exec "$@"'
)
PLACE = "/etc/mailquota"
# in the place of settings a folder, which nobody can read as a file
A_FOLDER = object()
NO_SERVER = (
    2,
    b"",
    (
        f"mailquota: no server is named; use --server, list it in {PLACE}/servers.toml, or copy the"
        f" server's settings to {PLACE}/server.toml or the filter's to {PLACE}/filter.toml\n"
    ),
)
NO_DAY = (
    2,
    b"",
    (
        "mailquota: which day is today isn't known; use --day or --from with a date, or copy the"
        f" server's settings, which have the zone, to {PLACE}/server.toml\n"
    ),
)
NO_HOST = (
    2,
    b"",
    (
        "mailquota: no host is named; use --host, or copy the filter's settings to"
        f" {PLACE}/filter.toml\n"
    ),
)
HALF_DAY = 43_200


def run(world, checks):
    by_the_servers_settings(world, checks)
    by_the_filters_settings(world, checks)
    which_goes_first(world, checks)
    days_by_the_zone(world, checks)
    over_ipv6(world, checks)
    without_settings(world, checks)
    wrong_settings(world, checks)
    settings_of_others(world, checks)
    words_that_say_all(world, checks)
    retires(world, checks)
    by_a_list(world, checks)
    three_words(world, checks)
    sums_of_a_list(world, checks)
    wide_sums(world, checks)
    shares_of_a_list(world, checks)
    before_a_list(world, checks)
    retires_at_each(world, checks)
    wrong_lists(world, checks)
    at_all_addresses(world, checks)
    by_a_clock(world, checks)
    days_of_odd_minutes(world, checks)
    days_ago_over_a_change(world, checks)


def server_settings(address, **more):
    return toml({"listen": address, "store": "memory", "default": 9, "offset": 0, **more})


def filter_settings(address, **more):
    return toml({"host": "mx1", "server": address, **more})


def listed(*addresses):
    """The file that lists these servers."""
    return "servers = [" + ", ".join(f'"{it}"' for it in addresses) + "]\n"


def apart(world, *words, server=None, filter_=None, servers=None, user=None):
    """The words that run the program where it finds these settings in their places. With a user it
    runs as that one, who may not read those of the server."""
    folder = world.new_file("") + ".etc"
    os.makedirs(folder)
    for name, text in (("server", server), ("filter", filter_), ("servers", servers)):
        if text is A_FOLDER:
            os.makedirs(f"{folder}/{name}.toml")
        elif text is not None:
            with open(f"{folder}/{name}.toml", "w", encoding="utf-8") as file:
                file.write(text)
    if user:
        os.chmod(f"{folder}/server.toml", 0o600)
    return [
        "unshare",
        "--mount",
        *([] if os.getuid() == 0 else ["--map-root-user"]),
        "sh",
        "-c",
        APART,
        "sh",
        folder,
        *(as_user(user) if user else []),
        world.program,
        *words,
    ]


def with_settings(world, *words, **found):
    """What the program comes to that finds these settings in their places."""
    came = subprocess.run(
        apart(world, *words, **found),
        stdin=subprocess.DEVNULL,
        capture_output=True,
        timeout=SECONDS,
    )
    return came.returncode, came.stdout, came.stderr.decode()


def by_the_servers_settings(world, checks):
    """Each command asks the server that listens as its settings say, about today."""
    wait_past_midnight()
    today = int(time.time()) // 86_400
    with Server(world, default=9) as server:
        found = {"server": server_settings(server.address)}
        server.ask(reserve(1, count=2, at=today * 86_400))
        line = b"      0       2       9 u\n"
        for what, words, wanted in [
            ("status", [], f"quota server {server.address} answers\n".encode()),
            ("report", [], line),
            ("report", ["--login", "u"], line),
            ("report", ["--top", "1"], line),
            ("report", ["--ago", "1"], b""),
            ("report", ["--day", "today"], line),
            ("report", ["--day", "yesterday"], b""),
            ("report", ["--day", "tomorrow"], b""),
            ("day", ["today"], f"{today}\n".encode()),
            ("day", ["tomorrow"], f"{today + 1}\n".encode()),
            ("limit", ["--login", "u", "--cap", "7"], b"set\n"),
            (
                "stop",
                ["--login", "u"],
                f"stopped: u used 2 on day {today}\nlimit before: 7\n".encode(),
            ),
            (
                "resume",
                ["--login", "u"],
                f"resumed: u may use 9 on day {today}\nlimit after: 9\n".encode(),
            ),
            (
                "resume",
                ["--login", "v", "--cap", "3"],
                f"resumed: v may use 3 on day {today}\n".encode(),
            ),
            ("retire", ["--host", "mx1"], b"retired\n"),
        ]:
            checks.equal(
                f"{what} {' '.join(words)}, by the server's settings in their place".replace(
                    " ,", ","
                ),
                with_settings(world, what, *words, **found),
                (0, wanted, ""),
            )
        checks.equal(
            "the limits that were set so",
            (caps(server, b"u", today - 1, today, today + 1), caps(server, b"v", today - 1, today)),
            ([9, 9, 9], [9, 3]),
        )
        checks.equal(
            "stop of yesterday",
            with_settings(world, "stop", "--login", "u", "--ago", "1", **found),
            not_today(today - 1, today),
        )
        date = time.strftime("%Y-%m-%d", time.gmtime((today + 1) * 86_400))
        for words in (["tomorrow"], [date], [str(today + 1)]):
            checks.equal(
                f"a stop of tomorrow's {'date' if words == [date] else 'day'}",
                with_settings(world, "stop", "--login", "u", "--day", *words, **found),
                not_today(today + 1, today),
            )
        # (where the zone isn't known that may be today)
        came = with_settings(
            world,
            *["stop", "--login", "u", "--day", date, "--server", server.address],
            server="listen = 1\n",
        )
        checks.holds(
            "a stop of tomorrow's date, beside wrong settings",
            came[:2] == (0, f"stopped: u used 0 on day {today + 1}\nlimit before: 9\n".encode())
            and came[2].startswith(f"[ERROR settings] {PLACE}/server.toml: "),
            "it is stopped, and what is wrong is logged",
            came,
        )
        checks.equal(
            "a resume of tomorrow's date",
            with_settings(world, "resume", "--login", "u", "--day", date, **found),
            (0, f"resumed: u may use 9 on day {today + 1}\nlimit after: 9\n".encode(), ""),
        )
        checks.equal(
            "stop of yesterday by force",
            with_settings(world, "stop", "--login", "w", "--ago", "1", "--force", **found),
            (0, f"stopped: w used 0 on day {today - 1}\nlimit before: 9\n".encode(), ""),
        )
        checks.equal(
            "limit from the day before yesterday on",
            (
                with_settings(world, "limit", "--login", "x", "--ago", "2", "--cap", "1", **found),
                caps(server, b"x", today - 3, today - 2),
            ),
            ((0, b"set\n", ""), [9, 1]),
        )


def by_the_filters_settings(world, checks):
    """Where no server's settings are there, the filter's say whom to ask, and the words have to say
    which day."""
    with Server(world, default=9) as server:
        found = {"filter_": filter_settings(server.address)}
        server.ask(reserve(1))
        for words, wanted in [
            (["status"], (0, f"quota server {server.address} answers\n".encode(), "")),
            (["report", "--day", "1"], (0, b"      0       1       9 u\n", "")),
            (["report"], NO_DAY),
            (["limit", "--login", "u", "--cap", "4", "--from", "2"], (0, b"set\n", "")),
            (["limit", "--login", "u", "--cap", "4"], NO_DAY),
            (["stop", "--login", "u"], NO_DAY),
            (["resume", "--login", "u", "--cap", "1"], NO_DAY),
            (["resume", "--login", "u", "--cap", "1", "--ago", "3"], NO_DAY),
            (
                ["resume", "--login", "v", "--cap", "1", "--day", "1"],
                (0, b"resumed: v may use 1 on day 1\n", ""),
            ),
            (
                ["stop", "--login", "v", "--day", "1", "--force"],
                (0, b"stopped: v used 0 on day 1\nlimit before: 1\n", ""),
            ),
            (["retire", "--host", "mx2"], (0, b"retired\n", "")),
        ]:
            checks.equal(
                f"{' '.join(words)}, by the filter's settings in their place",
                with_settings(world, *words, **found),
                wanted,
            )
        checks.equal("the limit that was set so", caps(server, b"u", 1, 2), [9, 4])


@contextlib.contextmanager
def four_servers(world):
    """Four, whose defaults from 1 to 4 tell which was asked."""
    with contextlib.ExitStack() as open_ones:
        yield [open_ones.enter_context(Server(world, default=it)) for it in range(1, 5)]


def which_goes_first(world, checks):
    """The words go first, then the settings that they name, then the server's in their place, then
    the filter's."""
    with four_servers(world) as (first, second, third, fourth):
        found = {
            "server": server_settings(third.address),
            "filter_": filter_settings(fourth.address),
        }
        config = world.new_file(server_settings(second.address))
        words = ["report", "--day", "1", "--login", "u"]

        def line(cap):
            return 0, b"      0       0 %7d u\n" % cap, ""

        checks.equal(
            "a report by words, settings that they name, and both in their places",
            with_settings(world, *words, "--server", first.address, "--config", config, **found),
            line(1),
        )
        checks.equal(
            "by settings that the words name, and both in their places",
            with_settings(world, *words, "--config", config, **found),
            line(2),
        )
        checks.equal("by both in their places", with_settings(world, *words, **found), line(3))
        checks.equal(
            "by the filter's in their place",
            with_settings(world, *words, filter_=found["filter_"]),
            line(4),
        )
        both = with_settings(
            world, *words, "--server", first.address, "--server", second.address, **found
        )
        checks.equal(
            "by two servers of the words",
            both,
            (
                0,
                b"".join(
                    f"server {it.address}:\n".encode() + line(cap)[1]
                    for it, cap in ((first, 1), (second, 2))
                ),
                "",
            ),
        )


def days_by_the_zone(world, checks):
    """Today is that of the zone of the server's settings, those that the words name before those in
    their place."""
    for minutes in (0, 720):
        wait_past_midnight(minutes)
    with Server(world, default=9) as server:
        now = int(time.time())
        for minutes in (0, 720, -720):
            theirs = (now + 60 * minutes) // 86_400
            login = f"u{minutes}"
            came = with_settings(
                world,
                "limit",
                "--login",
                login,
                "--cap",
                "1",
                server=server_settings(server.address, offset=minutes),
            )
            checks.equal(
                f"a limit from today on, {minutes} minutes east",
                (came, caps(server, login.encode(), theirs - 1, theirs)),
                ((0, b"set\n", ""), [9, 1]),
            )
        config = world.new_file(server_settings(server.address, offset=None, rule="<+12>-12"))
        theirs = (now + HALF_DAY) // 86_400
        came = with_settings(
            world,
            "limit",
            "--login",
            "named",
            "--cap",
            "1",
            "--config",
            config,
            server=server_settings(server.address, offset=-720),
        )
        checks.equal(
            "a limit from today on by settings that the words name",
            (came, caps(server, b"named", theirs - 1, theirs)),
            ((0, b"set\n", ""), [9, 1]),
        )
        in_place, named = {"server": server_settings(server.address, offset=-720)}, [
            "--config",
            config,
        ]
        checks.equal(
            "a stop by settings that the words name",
            with_settings(world, "stop", "stopped", "--force", *named, **in_place),
            (0, f"stopped: stopped used 0 on day {theirs}\nlimit before: 9\n".encode(), ""),
        )
        checks.equal(
            "a resume by settings that the words name",
            with_settings(world, "resume", "stopped", "--cap", "4", *named, **in_place),
            (0, f"resumed: stopped may use 4 on day {theirs}\n".encode(), ""),
        )
        server.ask(reserve(1, login=b"named", at=86_400 * theirs))
        checks.equal(
            "a report of today by settings that the words name",
            with_settings(world, "report", *named, **in_place),
            (0, b"      0       1       1 named\n", ""),
        )
        came = with_settings(world, "stop", "later", "--day", str(theirs), *named, **in_place)
        checks.equal(
            "a stop of that day by its number, of a login that sent nothing",
            came,
            fault(nothing_sent(theirs)),
        )
        came = with_settings(world, "stop", "later", "--day", str(theirs - 1), *named, **in_place)
        checks.equal(
            "a stop of the day before by its number",
            came,
            not_today(theirs - 1, theirs),
        )
        came = with_settings(world, "stop", "later", "--ago", "0", *named, **in_place)
        checks.equal(
            "a stop of no days ago by settings that the words name",
            came,
            fault(nothing_sent(theirs)),
        )
        came = with_settings(world, "report", "--ago", str(theirs), "--config", config)
        checks.equal("a report of day 0, by how many days ago it was", came, (0, b"", ""))
        came = with_settings(world, "report", "--ago", str(LAST_DAY), "--config", config)
        checks.equal("a report of a day before day 0", came, fault("day unavailable"))


def over_ipv6(world, checks):
    """Settings may have an address of IPv6."""
    if loopback_of_6() != "::1":
        checks.skip("a report by settings with an address of IPv6", "there is none")
        return
    with Server(world, default=9, host="::1") as server:
        words = [
            "report",
            "--day",
            "1",
            "--login",
            "u",
            "--config",
            world.new_file(server_settings(server.address)),
        ]
        checks.equal(
            "a report by settings with an address of IPv6",
            world.run(*words),
            (0, b"      0       0       9 u\n", ""),
        )


def without_settings(world, checks):
    """Without settings the words have to say whom, and then which day."""
    checks.equal("status without settings", with_settings(world, "status"), NO_SERVER)
    for words in (
        ["report"],
        ["report", "--day", "1"],
        ["limit", "--login", "u", "--cap", "1"],
        ["stop", "--login", "u"],
        ["resume", "--login", "u"],
    ):
        checks.equal(f"{' '.join(words)} without settings", with_settings(world, *words), NO_SERVER)
    checks.equal(
        "a bad login goes first",
        with_settings(world, "stop", "--login", "u" * 256),
        bad_login("u" * 256),
    )
    checks.equal(
        "a report of a server, without a day",
        with_settings(world, "report", "--server", "127.0.0.1:1"),
        NO_DAY,
    )


def wrong_settings(world, checks):
    """Settings that can't be used are no reason to look for others."""
    with Server(world) as server:
        for name in ("server", "filter"):
            wrong = {
                "server": {"server": "listen = 1\n", "filter_": filter_settings(server.address)},
                "filter": {"filter_": "host = 1\n"},
            }[name]
            status, output, errors = with_settings(world, "report", "--day", "1", **wrong)
            begins = f"[ERROR settings] {PLACE}/{name}.toml: "
            checks.holds(
                f"a report by wrong settings of the {name}",
                (status, output) == (1, b"") and errors.startswith(begins),
                f"status 1, and a line that begins with {begins!r}",
                (status, output, errors),
            )
        for name, found in (
            ("server", {"server": A_FOLDER, "filter_": filter_settings(server.address)}),
            ("filter", {"filter_": A_FOLDER}),
        ):
            came = with_settings(world, "report", "--day", "1", **found)
            cause = of_settings(f"{PLACE}/{name}.toml", "Is a directory (os error 21)")
            checks.equal(
                f"a report by settings of the {name} that can't be read",
                came,
                fault("settings can't be read", log=cause),
            )
        too_large = "#" * 65_537
        for name, found in (
            ("server", {"server": too_large, "filter_": filter_settings(server.address)}),
            ("filter", {"filter_": too_large}),
        ):
            came = with_settings(world, "report", "--day", "1", **found)
            checks.equal(
                f"a report by settings of the {name} that are too large",
                came,
                fault(
                    "settings too large",
                    log=of_settings(f"{PLACE}/{name}.toml", "settings too large"),
                ),
            )
    nothing = f"{world.folder}/nothing"
    came = with_settings(
        world, "report", "--day", "1", "--config", nothing, server=server_settings("127.0.0.1:1")
    )
    checks.equal(
        "settings that the words name and aren't there",
        came,
        fault("settings can't be read", log=of_settings(nothing, NO_FILE)),
    )


def settings_of_others(world, checks):
    """Settings of the server that this user may not read are no reason to look for others."""
    if os.geteuid():
        checks.skip("settings that another user may not read", "who tests isn't root")
        return
    os.chmod(world.folder, 0o711)
    with Server(world) as server:
        for words in (["report", "--day", "1"], ["status"]):
            checks.equal(
                f"{words[0]} by settings of the server that this user may not read",
                with_settings(
                    world,
                    *words,
                    server=server_settings(server.address),
                    filter_=filter_settings(server.address),
                    user=60_003,
                ),
                fault(
                    "settings can't be read",
                    log=of_settings(f"{PLACE}/server.toml", NOT_ALLOWED),
                ),
            )


def words_that_say_all(world, checks):
    """Where the words say whom and which day, settings in their places aren't read, so it is all
    the same that they are wrong."""
    wrong = {"server": "listen = 1\n", "filter_": "host = 1\n"}
    with Server(world, default=9) as first, Server(world, default=9) as second:
        for servers in ([first], [first, second]):
            at = [word for it in servers for word in ("--server", it.address)]
            for name, words, done in [
                ("status", [], "quota server {} answers\n"),
                (
                    "status",
                    ["--host", "mx1"],
                    "quota server {} answers\nrequests of host mx1 are taken\n",
                ),
                ("limit", ["u", "7", "--from", "1"], "set\n"),
                ("report", ["u", "--day", "1"], "      0       0       7 u\n"),
                (
                    "stop",
                    ["u", "--day", "1", "--force"],
                    "stopped: u used 0 on day 1\nlimit before: 7\n",
                ),
                (
                    "resume",
                    ["u", "--day", "1", "--cap", "7"],
                    "resumed: u may use 7 on day 1\n",
                ),
            ]:
                printed = "".join(
                    f"server {it.address}:\n" * (len(servers) > 1) + done.format(it.address)
                    for it in servers
                )
                checks.equal(
                    f"{' '.join([name, *words])} at {len(servers)}, beside wrong settings",
                    with_settings(world, name, *words, *at, **wrong),
                    (0, printed.encode(), ""),
                )
        checks.equal(
            "retire of a host at a server, beside wrong settings",
            with_settings(world, "retire", "--server", first.address, "--host", "mx1", **wrong),
            (0, b"retired\n", ""),
        )


def retires(world, checks):
    """`retire` without a host gives up the runs of the filter of this host, at the server that this
    one asks."""
    with Server(world) as server, Server(world) as other:
        found = {
            "filter_": filter_settings(server.address, host="mx9"),
            "server": server_settings(other.address),
        }
        for each in (server, other):
            each.ask(limit(1, 1, 5, host=b"mx9", run=7) + limit(1, 1, 5, host=b"admin", run=7))
        before = clock()
        checks.equal(
            "retire without words", with_settings(world, "retire", **found), (0, b"retired\n", "")
        )
        run = {"host": b"mx9", "run": before - 1}
        checks.equal("an earlier run of that host", server.ask(reserve(2, **run)), old(2, **run))
        checks.holds(
            "one of another host",
            server.ask(reserve(2, host=b"admin", run=8))[2] == 0x81,
            "it is granted",
            None,
        )
        checks.holds(
            "and at another server", other.ask(reserve(2, **run))[2] == 0x81, "it is granted", None
        )
        checks.equal(
            "retire of a host that is named, at the server's own",
            with_settings(world, "retire", "--host", "mx9", **found),
            (0, b"retired\n", ""),
        )
        checks.equal("its earlier run there", other.ask(reserve(3, txn=2, **run)), old(3, **run))
    with Server(world) as server, Server(world) as other:
        found = {"filter_": filter_settings(server.address, host="mx9")}
        before = clock()
        # (with a second server each is retired at its own address)
        checks.equal(
            "retire with a server alone, of this host's filter",
            with_settings(world, "retire", "--server", other.address, **found),
            (0, b"retired\n", ""),
        )
        run = {"host": b"mx9", "run": before - 1}
        checks.equal(
            "its earlier run there, and at the server of the filter",
            (other.ask(reserve(2, **run)), server.ask(reserve(2, **run))),
            (old(2, **run), granted(2, 1, **run)),
        )
        config, run = world.new_file(server_settings(other.address)), {
            "host": b"mx8",
            "run": before - 1,
        }
        came = with_settings(
            world,
            "retire",
            "--host",
            "mx8",
            "--config",
            config,
            server=server_settings(server.address),
            **found,
        )
        checks.equal(
            "retire of a host that is named, by settings that the words name",
            came,
            (0, b"retired\n", ""),
        )
        checks.equal(
            "its earlier run there, and at the server of the settings in their place",
            (other.ask(reserve(3, **run)), server.ask(reserve(3, **run))),
            (old(3, **run), granted(3, 2, **run)),
        )
    checks.equal("retire without settings", with_settings(world, "retire"), NO_HOST)
    checks.equal(
        "retire with a server alone",
        with_settings(world, "retire", "--server", "127.0.0.1:1"),
        NO_HOST,
    )
    checks.equal(
        "retire with a host alone", with_settings(world, "retire", "--host", "mx1"), NO_SERVER
    )


def at_each(done, *servers):
    """What is printed where each of these servers says so, in their order."""
    heads = [f"server {it.address}:\n" if len(servers) > 1 else "" for it in servers]
    return "".join(head + done.format(it.address) for head, it in zip(heads, servers)).encode()


def by_a_list(world, checks):
    """Each command asks all servers that a file lists, as if the words named them; a report has
    the sums."""
    wait_past_midnight()
    today = int(time.time()) // 86_400
    with Server(world, default=9) as first, Server(world, default=9) as second:
        for servers in ([first, second], [second, first], [first]):
            found = {
                "servers": listed(*(it.address for it in servers)),
                # (its zone is that of the days)
                "server": server_settings("127.0.0.1:1"),
                "filter_": filter_settings("127.0.0.1:1"),
            }
            login = "u" + "".join("12"[it is second] for it in servers)
            checks.equal(
                f"limit {login} 7, by a list of {len(servers)}",
                with_settings(world, "limit", login, "7", **found),
                (0, set_at([7] * len(servers), servers) if len(servers) > 1 else b"set\n", ""),
            )
            for name, words, done in [
                ("status", [], "quota server {} answers\n"),
                (
                    "status",
                    ["--host", "mx1"],
                    "quota server {} answers\nrequests of host mx1 are taken\n",
                ),
                ("report", [login], None),
                (
                    "stop",
                    [login, "--force"],
                    f"stopped: {login} used 0 on day {today}\nlimit before: 7\n",
                ),
                ("resume", [login, "--cap", "5"], f"resumed: {login} may use 5 on day {today}\n"),
                ("retire", ["--host", "mx2"], "retired\n"),
                ("retire", [], "retired\n"),
            ]:
                sums = b"      0       0 %7d %s\n" % (7 * len(servers), login.encode())
                # (a number is shared out)
                in_all = (
                    in_all_of(5 * len(servers), today) if name == "resume" and servers[1:] else b""
                )
                checks.equal(
                    f"{' '.join([name, *words])}, by a list of {len(servers)}",
                    with_settings(world, name, *words, **found),
                    (0, at_each(done, *servers) + in_all if done else sums, ""),
                )
            checks.equal(
                f"the limits of {login}",
                [caps(it, login.encode(), today - 1, today) for it in servers],
                [[9, 5]] * len(servers),
            )
        found = {"servers": listed("127.0.0.1:1", first.address)}
        status, printed, errors = with_settings(world, "status", **found)
        checks.equal(
            "status by a list, of which one is away",
            (status, printed, errors.splitlines()[-1]),
            (
                1,
                f"server 127.0.0.1:1:\nserver {first.address}:\nquota server {first.address}"
                " answers\n".encode(),
                "mailquota: not done by server 127.0.0.1:1",
            ),
        )
        for host, wanted in [
            ([], [{"answers": False}, {"answers": True}]),
            (
                ["--host", "mx1"],
                [{"host": "mx1", "taken": False}, {"host": "mx1", "taken": True}],
            ),
        ]:
            status, output, errors = with_settings(world, "status", "--json", *host, **found)
            servers = ("127.0.0.1:1", first.address)
            checks.equal(
                f"status {' '.join(host)} in JSON by a list, of which one is away",
                (status, [json.loads(it) for it in output.splitlines()], errors.splitlines()[-1]),
                (
                    1,
                    [{"server": server, **it} for server, it in zip(servers, wanted)],
                    "mailquota: quota service unavailable",
                ),
            )
        checks.equal(
            "status in JSON of one server",
            world.run("status", "--server", first.address, "--json"),
            (0, f'{{"server":"{first.address}","answers":true}}\n'.encode(), ""),
        )
        checks.equal(
            "day in JSON",
            with_settings(
                world, "day", "2026-11-30", "--json", server=server_settings("127.0.0.1:1")
            ),
            (0, b'{"day":20787,"date":"2026-11-30"}\n', ""),
        )
        checks.equal(
            "a report by a list alone, without a day",
            with_settings(world, "report", servers=listed(first.address)),
            NO_DAY,
        )
        checks.equal(
            "a report of a day by a list alone",
            with_settings(world, "report", "u12", "--day", "1", servers=listed(first.address)),
            (0, b"      0       0       9 u12\n", ""),
        )


def three_words(world, checks):
    """A thief is stopped, and let go again, by three words each, at both servers of a list. Where
    one is away the other stops it all the same, and the same words do it there once it is back."""
    wait_past_midnight()
    now = int(time.time())
    today, away = now // 86_400, f"127.0.0.1:{quiet_port()}"
    used = "stopped: thief used {0} on day {1}\nlimit before: {2}\n"
    with Server(world, default=9) as first:
        first.ask(reserve(1, login=b"thief", count=4, at=now))
        found = {
            "servers": listed(first.address, away),
            "server": server_settings("127.0.0.1:1"),
        }

        def typed(word):
            return with_settings(world, word, "thief", **found)

        def of_both(*lines):
            return "".join(
                f"server {server}:\n{it}" for server, it in zip((first.address, away), lines)
            ).encode()

        checks.equal(
            "stop thief, while the second server is away",
            typed("stop")[:2],
            (1, of_both(used.format(4, today, 9), "")),
        )
        checks.equal(
            "the limits of a stopped thief", caps(first, b"thief", today, today + 1), [4, 0]
        )
        with Server(world, words=(), listen=away, default=5) as second:
            checks.equal(
                "stop thief, once the second server is back",
                typed("stop"),
                (0, of_both(used.format(4, today, 4), used.format(0, today, 5)), ""),
            )
            back = "resumed: thief may use {0} on day {1}\nlimit after: {0}\n"
            checks.equal(
                "resume thief, at both servers",
                typed("resume"),
                (0, of_both(back.format(9, today), back.format(5, today)), ""),
            )
            checks.equal(
                "the limits of a thief that is let go",
                [caps(it, b"thief", today, today + 1) for it in (first, second)],
                [[9, 9], [5, 5]],
            )
            typed("stop")
            with_settings(world, "resume", "thief", "--server", first.address, **found)
            still = "not stopped: thief may use {0} on day {1}\nlimit after: {0}\n"
            checks.equal(
                "resume thief, which the first server has resumed before",
                typed("resume"),
                (0, of_both(still.format(9, today), back.format(5, today)), ""),
            )
            checks.equal(
                "resume thief, which both have resumed",
                typed("resume"),
                (0, of_both(still.format(9, today), still.format(5, today)), ""),
            )
            checks.equal(
                "the limits of a thief that was let go before",
                [caps(it, b"thief", today, today + 1) for it in (first, second)],
                [[9, 9], [5, 5]],
            )


def in_all_of(number, after=None):
    """The sum of limits, which holds on each day, or on those after one."""
    return (
        f"in all at most {number} a day{'' if after is None else f' after day {after}'}\n".encode()
    )


def refused_by(first):
    return f"mailquota: not done by any server: {first.address}, the first, refuses this\n"


def set_at(numbers, servers):
    """What is printed where each of these servers sets its share."""
    lines = [f"set {number} at {it.address}\n" for number, it in zip(numbers, servers)]
    return "".join(lines).encode() + in_all_of(sum(numbers))


def shares_of_a_list(world, checks):
    """Of a number each server of a list gets its share, by its default beside the first's, and so
    do those that the words name where it's the default that is set."""
    wait_past_midnight()
    today = int(time.time()) // 86_400
    with Server(world, default=1000) as first, Server(world, default=101) as second:
        both = (first, second)
        found = {
            "servers": listed(*(it.address for it in both)),
            "server": server_settings("127.0.0.1:1"),
        }
        named = [it for server in both for it in ("--server", server.address)]

        def limits(login):
            return [caps(it, login, today, today + 1) for it in both]

        for words, shares in [
            (["a", "2000"], [2000, 202]),
            (["a", "1"], [1, 1]),
            (["a", "0"], [0, 0]),
            (["a", "999999", "--run", "5"], [999999, 101000]),
            (["a", "1000000", "--run", "6"], [1000000, 101000]),
            (["a", "default"], [1000, 101]),
            (["--cap", "default", "--login", "a"], [1000, 101]),
        ]:
            checks.equal(
                f"limit {' '.join(words)} by a list of two",
                with_settings(world, "limit", *words, **found),
                (0, set_at(shares, both), ""),
            )
            checks.equal("its limits at both", limits(b"a"), [[it, it] for it in shares])
        checks.equal(
            "limit of a run whose number was used with another",
            with_settings(world, "limit", "a", "7", "--run", "5", **found),
            (1, b"", "mailquota: number used with another limit\n" + refused_by(first)),
        )
        checks.equal(
            "limit a 2000 at both by the words",
            with_settings(world, "limit", "a", "2000", *named, **found),
            (0, at_each("set\n", *both), ""),
        )
        checks.equal("its limits at both", limits(b"a"), [[2000, 2000], [2000, 2000]])
        for more, servers, shares in [
            (named, both, [1000, 101]),
            (named[2:], [second], [101]),
        ]:
            lines = set_at(shares, servers)
            checks.equal(
                f"limit a default at {len(servers)} by the words",
                with_settings(world, "limit", "a", "default", *more, **found),
                (0, lines if servers[1:] else b"".join(lines.splitlines(True)[:1]), ""),
            )
        checks.equal("its limits at both", limits(b"a"), [[1000, 1000], [101, 101]])
        first.ask(reserve(1, count=2, at=today * 86_400, login=b"a"))
        checks.equal(
            "limit a 1, where it used 2 at the first",
            with_settings(world, "limit", "a", "1", **found),
            (1, b"", f"mailquota: over day {today} used 2\n" + refused_by(first)),
        )
        checks.equal("its limits at both, as before", limits(b"a"), [[1000, 1000], [101, 101]])
        second.ask(reserve(1, count=4, at=today * 86_400, login=b"c"))
        checks.equal(
            "limit c 20, where it used more than its share at the second",
            with_settings(world, "limit", "c", "20", **found),
            (
                1,
                f"set 20 at {first.address}\n".encode(),
                f"mailquota: over day {today} used 4\n"
                f"mailquota: not done by server {second.address}\n",
            ),
        )
        checks.equal("its limits at both", limits(b"c"), [[20, 20], [101, 101]])
        with_settings(world, "stop", "a", **found)
        checks.equal("its limits while it is stopped", limits(b"a"), [[2, 0], [0, 0]])
        checks.equal(
            "resume a --cap 500 by a list of two",
            with_settings(world, "resume", "a", "--cap", "500", **found),
            (
                0,
                f"server {first.address}:\nresumed: a may use 502 on day {today}\n"
                f"server {second.address}:\nresumed: a may use 51 on day {today}\n".encode()
                + in_all_of(551, today),
                "",
            ),
        )
        checks.equal("its limits then", limits(b"a"), [[502, 500], [51, 51]])
        with_settings(world, "stop", "a", **found)
        status, output, errors = with_settings(world, "resume", "a", **found)
        checks.equal(
            "resume without a number gives each its own",
            (status, output.count(b"limit after: "), b"in all" in output, errors),
            (0, 2, False, ""),
        )
        shares_with_one_away(world, checks, first, today)


def shares_with_one_away(world, checks, first, today):
    """Where the first server is away no other is asked, since shares go by its default; where
    another is, that one has nothing."""
    away = "127.0.0.1:1"
    settings = server_settings("127.0.0.1:1")
    for words in (["limit", "b", "9"], ["resume", "b", "--cap", "9"]):
        *came, errors = with_settings(
            world, *words, servers=listed(away, first.address), server=settings
        )
        checks.equal(
            f"{words[0]} by a list whose first server is away",
            (*came, [it for it in errors.splitlines() if it.startswith("mailquota: ")]),
            (
                1,
                b"",
                [
                    "mailquota: quota service unavailable",
                    f"mailquota: not done by any server: shares go by the default of {away};"
                    " use --server",
                ],
            ),
        )
        checks.equal("the limits at the other", caps(first, b"b", today, today + 1), [1000, 1000])
    for words, shown in [
        (["limit", "b", "9"], f"set 9 at {first.address}\n"),
        (["limit", "b", "default"], f"set 1000 at {first.address}\n"),
    ]:
        *came, errors = with_settings(
            world, *words, servers=listed(first.address, away), server=settings
        )
        checks.equal(
            f"{' '.join(words)} by a list whose second server is away",
            (*came, errors.splitlines()[-1]),
            (1, shown.encode(), f"mailquota: not done by server {away}"),
        )


def used(settled, reserved, limit, login):
    """A line of a report."""
    return b"%7d %7d %7d %s\n" % (settled, reserved, limit, login)


def sums_of_a_list(world, checks):
    """A report of several servers of a list is one table: what a login used at all of them, and
    its limits' sum. Of one, and of those that the words name, each has its own."""
    with Server(world, default=9) as first, Server(world, default=3) as second:
        first.ask(
            reserve(1, count=2, login=b"both")
            + settle(2, count=2, login=b"both")
            + reserve(3, txn=2, count=4, login=b"here")
            + limit(4, 1, 100, login=b"there")
        )
        second.ask(reserve(1, count=3, login=b"both") + reserve(2, txn=2, login=b"there"))
        both, here, there = (
            used(2, 3, 12, b"both"),
            used(0, 4, 12, b"here"),
            used(0, 1, 103, b"there"),
        )
        words = ["report", "--day", "1"]
        found = {"servers": listed(first.address, second.address)}
        for what, more, wanted in [
            ("all logins", [], both + here + there),
            ("one login", ["both"], both),
            ("a login that sent at the second", ["there"], there),
            ("a login that never sent", ["none"], used(0, 0, 12, b"none")),
            ("the two that used most", ["--top", "2"], both + here),
        ]:
            checks.equal(
                f"a report of {what}, by a list of two",
                with_settings(world, *words, *more, **found),
                (0, wanted, ""),
            )
        alone = [
            used(2, 0, 9, b"both") + used(0, 4, 9, b"here"),
            used(0, 3, 3, b"both") + used(0, 1, 3, b"there"),
        ]
        named = [it for server in (first, second) for it in ("--server", server.address)]
        checks.equal(
            "a report of two servers of the words, beside a list",
            with_settings(world, *words, *named, **found),
            (
                0,
                b"".join(
                    f"server {server.address}:\n".encode() + lines
                    for server, lines in zip((first, second), alone)
                ),
                "",
            ),
        )
        heads = b"".join(
            f"server {server.address}:\n".encode() + lines
            for server, lines in zip((first, second), alone)
        )
        checks.equal(
            "a report by a list of two, each apart",
            with_settings(world, *words, "--each", **found),
            (0, heads, ""),
        )
        rows = [("both", 2, 3, 12), ("here", 0, 4, 12), ("there", 0, 1, 103)]
        for what, more, wanted in [
            ("a list of two", [], rows),
            ("one login", ["there"], rows[2:]),
            ("those that used most", ["--top", "1"], rows[:1]),
            ("two servers of the words", named, rows),
            ("one server", named[2:], [("both", 0, 3, 3), ("there", 0, 1, 3)]),
            ("a name with a quote", ['a"b'], [('a"b', 0, 0, 12)]),
        ]:
            status, output, errors = with_settings(world, *words, "--json", *more, **found)
            checks.equal(
                f"a report in JSON of {what}",
                (status, output.count(b"\n"), json.loads(output), errors),
                (
                    0,
                    1,
                    {
                        "day": 1,
                        "date": "1970-01-02",
                        "logins": [
                            dict(zip(("login", "settled", "reserved", "limit"), it))
                            for it in wanted
                        ],
                    },
                    "",
                ),
            )
        *came, _ = with_settings(world, *words, "--json", 'a"\\x5cb\\xff', **found)
        checks.equal(
            "a report in JSON of a login that isn't UTF-8",
            came,
            [
                0,
                b'{"day":1,"date":"1970-01-02","logins":[{"login":"a\\"\\\\x5cb\\\\xff","settled":0,'
                b'"reserved":0,"limit":12}]}\n',
            ],
        )
        checks.equal(
            "a report by a list of one",
            with_settings(world, *words, servers=listed(second.address)),
            (0, alone[1], ""),
        )
        for servers, wanted in [
            ([first.address, "127.0.0.1:1"], (1, alone[0])),
            (["127.0.0.1:1", second.address], (1, alone[1])),
            (["127.0.0.1:1", "127.0.0.1:2"], (1, b"")),
        ]:
            *came, errors = with_settings(world, *words, servers=listed(*servers))
            away = [it for it in servers if it not in (first.address, second.address)]
            checks.equal(
                f"a report by a list of which {len(away)} are away",
                (*came, [it for it in errors.splitlines() if it.startswith("mailquota: ")]),
                (
                    *wanted,
                    [
                        f"mailquota: server {it} is left out: quota service unavailable"
                        for it in away
                    ],
                ),
            )


def wide_sums(world, checks):
    """On a terminal the columns of sums are as wide as the longest figure of all; in a pipe a
    figure takes 7 places, or as many as it has digits."""
    with Server(world, host="0.0.0.0", default=1_000_000) as server:
        server.ask(reserve(1))
        # (one server by ten addresses is as good as ten servers)
        found = {"servers": listed(*(f"127.0.0.{at}:{server.port}" for at in range(1, 11)))}
        words = ["report", "--day", "1"]
        checks.equal(
            "a report of ten servers in a pipe",
            with_settings(world, *words, **found),
            (0, b"      0      10 10000000 u\n", ""),
        )
        checks.equal(
            "a report of ten servers on a terminal",
            shown_of(apart(world, *words, **found)),
            (0, " settled reserved    limit login\n       0       10 10000000 u\n"),
        )
        nine = {"servers": listed(*(f"127.0.0.{at}:{server.port}" for at in range(1, 10)))}
        checks.equal(
            "a report of nine servers on a terminal",
            shown_of(apart(world, *words, **nine)),
            (0, "settled reserved  limit login\n      0       9 9000000 u\n"),
        )


def before_a_list(world, checks):
    """The words go before it, and the settings that they name; it goes before settings in their
    places."""
    with four_servers(world) as (first, second, third, fourth):
        found = {
            "servers": listed(third.address),
            "server": server_settings(fourth.address),
            "filter_": filter_settings(fourth.address),
        }
        config = world.new_file(server_settings(second.address))
        words = ["report", "u", "--day", "1"]
        for what, more, cap in [
            (
                "by words, settings that they name, and a list",
                ["--server", first.address, "--config", config],
                1,
            ),
            ("by settings that the words name, and a list", ["--config", config], 2),
            ("by a list, and settings in their places", [], 3),
        ]:
            checks.equal(
                f"a report {what}",
                with_settings(world, *words, *more, **found),
                (0, b"      0       0 %7d u\n" % cap, ""),
            )
        checks.equal(
            "words that say whom, beside a wrong list",
            with_settings(world, *words, "--server", first.address, servers="servers = 1\n"),
            (0, b"      0       0       1 u\n", ""),
        )
        checks.equal(
            "settings that the words name, beside a wrong list",
            with_settings(world, *words, "--config", config, servers="servers = 1\n"),
            (0, b"      0       0       2 u\n", ""),
        )


def retires_at_each(world, checks):
    """`retire` gives up a host's runs at each server of the list, and at one alone where the words
    name it."""
    with Server(world) as first, Server(world) as second, Server(world) as third:
        found = {
            "servers": listed(first.address, second.address),
            "filter_": filter_settings(third.address, host="mx9"),
        }
        run = {"host": b"mx9", "run": clock() - 1}
        checks.equal(
            "retire by a list",
            with_settings(world, "retire", **found),
            (0, at_each("retired\n", first, second), ""),
        )
        checks.equal(
            "an earlier run at each, and at the server of the filter",
            [it.ask(reserve(2, **run)) for it in (first, second, third)],
            [old(2, **run)] * 2 + [granted(2, 1, **run)],
        )
        run = {"host": b"mx8", "run": clock() - 1}
        checks.equal(
            "retire of a host at a server of the words, beside a list",
            with_settings(world, "retire", "--host", "mx8", "--server", second.address, **found),
            (0, b"retired\n", ""),
        )
        checks.equal(
            "its earlier run at each",
            [it.ask(reserve(3, txn=2, **run)) for it in (first, second)],
            [granted(3, 1, **run), old(3, **run)],
        )
        checks.equal(
            "retire by a list, without the filter's settings",
            with_settings(world, "retire", servers=found["servers"]),
            NO_HOST,
        )


# lists that can't be used, and why
WRONG_LISTS = [
    ("", "setting servers: missing"),
    ('server = ["127.0.0.1:1"]\n', "setting server: unknown"),
    ('servers = ["127.0.0.1:1"]\nlog = "off"\n', "setting log: unknown"),
    *(
        (
            f"servers = {it}\n",
            "setting servers: bad value, it has to be a list of 1 to 16 addresses in quotes",
        )
        for it in (
            '"127.0.0.1:1"',
            "7025",
            "[]",
            "[1]",
            '[["127.0.0.1:1"]]',
            str([f"127.0.0.1:{port}" for port in range(1, 18)]).replace("'", '"'),
        )
    ),
    ('servers = ["127.0.0.1:1", "127.0.0.1"]\n', "setting servers: 127.0.0.1: no port"),
    (
        'servers = ["quota:7025"]\n',
        (
            "setting servers: quota:7025: no numeric address before the port; an IPv6 address"
            " stands in brackets"
        ),
    ),
    ('servers = ["127.0.0.1:1:"]\n', "setting servers: 127.0.0.1:1:: no port"),
    ('servers = ["127.0.0.1:65536"]\n', "setting servers: 127.0.0.1:65536: port above 65535"),
    (
        'servers = ["127.0.0.1:1", "127.0.0.1:2", "127.0.0.1:1"]\n',
        "setting servers: 127.0.0.1:1 stands there twice",
    ),
    (
        'servers = ["[::1]:1", "[0:0::1]:1"]\n',
        "setting servers: [::1]:1 stands there twice",
    ),
    ('servers = ["a b:1"]\n', None),
    ("servers = [\n", None),
    ("\xff", None),
]


def wrong_lists(world, checks):
    """A list that can't be used keeps each command from asking anybody, also whom settings in their
    places name."""
    with Script([]) as server:
        found = {
            "server": server_settings(server.address),
            "filter_": filter_settings(server.address),
        }
        for text, why in WRONG_LISTS:
            came = with_settings(world, "report", "--day", "1", servers=text, **found)
            if why is None:
                begins = f"[ERROR settings] {PLACE}/servers.toml: "
                checks.holds(
                    f"a report by the list {text!r}",
                    came[:2] == (1, b"") and came[2].startswith(begins),
                    f"status 1, and a line that begins with {begins!r}",
                    came,
                )
                continue
            checks.equal(
                f"a report by the list {text!r}",
                came,
                fault(why, log=of_settings(f"{PLACE}/servers.toml", why)),
            )
        for name, words in [
            ("status", []),
            ("limit", ["u", "1", "--from", "1"]),
            ("stop", ["u", "--day", "1", "--force"]),
            ("resume", ["u", "--day", "1", "--cap", "1"]),
            ("retire", []),
            ("retire", ["--host", "mx1"]),
        ]:
            why = WRONG_LISTS[0][1]
            checks.equal(
                f"{' '.join([name, *words])} by an empty list",
                with_settings(world, name, *words, servers="", **found),
                fault(why, log=of_settings(f"{PLACE}/servers.toml", why)),
            )
        for text, why, said in [
            (A_FOLDER, "Is a directory (os error 21)", "settings can't be read"),
            ("#" * 65_537, "settings too large", "settings too large"),
        ]:
            checks.equal(
                f"a report by a list: {why}",
                with_settings(world, "report", "--day", "1", servers=text, **found),
                fault(said, log=of_settings(f"{PLACE}/servers.toml", why)),
            )
        checks.equal("what was asked", server.heard, [])
    with Server(world) as server:
        sixteen = [server.address] + [f"127.0.0.1:{port}" for port in range(1, 16)]
        status, printed, _ = with_settings(world, "status", servers=listed(*sixteen))
        checks.equal(
            "status by a list of sixteen",
            (status, printed.count(b"server 127.0.0.1:"), printed.count(b" answers\n")),
            (1, 17, 1),
        )


EVERYWHERE = (
    2,
    b"",
    (
        "mailquota: the server listens at all addresses, and isn't known to run here; use --server,"
        f" or list it in {PLACE}/servers.toml\n"
    ),
)


def at_all_addresses(world, checks):
    """A server that listens at all addresses is asked at this machine's own where its ledger is,
    and elsewhere the words or a list have to say where it is."""
    path = f"{world.folder}/everywhere"
    for host, every, here in [("127.0.0.1", "0.0.0.0", "127.0.0.1"), ("::1", "[::]", "[::1]")]:
        if host == "::1" and loopback_of_6() != "::1":
            checks.skip("a server that listens at all addresses of IPv6", "there is none")
            continue
        with Server(world, default=9, host=host) as server:
            there = f"{here}:{server.port}"
            for what, store in [("in this file", world.new_file("")), ("in memory", "memory")]:
                found = {"server": server_settings(f"{every}:{server.port}", store=store)}
                checks.equal(
                    f"status of a server at {every} whose ledger is {what}",
                    with_settings(world, "status", **found),
                    (0, f"quota server {there} answers\n".encode(), ""),
                )
                config = world.new_file(found["server"])
                checks.equal(
                    f"a report of a server at {every} whose ledger is {what}, by --config",
                    world.run("report", "u", "--day", "1", "--config", config),
                    (0, b"      0       0       9 u\n", ""),
                )
            found = {"server": server_settings(f"{every}:{server.port}", store=path)}
            for words in (
                ["status"],
                ["report", "--day", "1"],
                ["limit", "u", "1", "--from", "1"],
                ["stop", "u", "--day", "1", "--force"],
                ["resume", "u", "--day", "1"],
                ["retire", "--host", "mx1"],
            ):
                checks.equal(
                    f"{' '.join(words)} of a server at {every} of another machine",
                    with_settings(world, *words, **found),
                    EVERYWHERE,
                )
            for what, words, more in [
                ("by words", ["--server", there], {}),
                ("by a list", [], {"servers": listed(there)}),
            ]:
                checks.equal(
                    f"a report of a server at {every} of another machine, {what}",
                    with_settings(world, "report", "u", "--day", "1", *words, **found, **more),
                    (0, b"      0       0       9 u\n", ""),
                )


# moments about the ends of a day, noon, and the hour until which a night belongs to the day before
TIMES = {"0:00:20": 20, "2:30": 9_000, "12:00": 43_200, "23:57": 86_220}
# a day of 2026 and one beyond the seconds that have 31 bits
DAYS = 20_784, 40_000


def by_a_clock(world, checks):
    """Today is the settings' at each hour of a day, also of one after 2038."""
    zones = {f"{it} minutes east": {"offset": it} for it in (0, 600, -600)}
    zones["a rule"] = {"offset": None, "rule": "<+10>-10"}
    east = [0, 600, -600, 600]
    with Server(world, default=9) as server, ThreadPoolExecutor(4) as pool:
        asked = [
            (f"{day} at {time_of}, {what}", day, 86_400 * day + second - 60 * minutes, zone)
            for (what, zone), minutes in zip(zones.items(), east)
            for time_of, second in TIMES.items()
            for day in DAYS
        ]
        told = pool.map(lambda it: told_on(world, server, *it[1:]), asked)
        for (what, day, *_), came in zip(asked, told):
            checks.equal(f"what commands mean by today: day {what}", came, told_of(day))


def run_at(world, moment, *words):
    """What a command comes to whose clock shows this moment."""
    return world.run(*words, limit=clocks.at(moment))


def told_on(world, server, day, moment, zone):
    """What `day`, `limit` and `stop` come to at this moment: the day that is printed, the first of
    these days from which a limit governs, and whether a day is one to stop a login on."""
    config = ledger_settings(world, f"{world.folder}/nowhere/ledger", **zone)

    def run(*words):
        return run_at(world, moment, *words)

    asks = ["--config", config, "--server", server.address]
    login = f"u{moment}{zone.get('rule', zone['offset'])}"
    return (
        run("day", "--config", config),
        run("limit", *asks, "--ago", "1", "--login", login, "--cap", "4"),
        caps(server, login.encode(), day - 2, day - 1),
        run("stop", *asks, "--login", login, "--day", str(day)),
        run("stop", *asks, "--login", login, "--day", str(day - 1)),
    )


def told_of(day):
    """The same, where this day is today."""
    return (
        (0, f"{day}\n".encode(), ""),
        (0, b"set\n", ""),
        [9, 4],
        fault(nothing_sent(day)),
        not_today(day - 1, day),
    )


def days_of_odd_minutes(world, checks):
    """A day begins and ends at its own minute, also where that is at no quarter of an hour."""
    with Server(world, default=9) as server, ThreadPoolExecutor(4) as pool:
        asked = [
            (f"{minutes} minutes east, {what}", 86_400 * DAYS[0] + second - 60 * minutes, minutes)
            for minutes in (7, -1_439)
            for what, second in (("20 seconds after it begins", 20), ("before it ends", 86_380))
        ]
        told = pool.map(lambda it: told_on(world, server, DAYS[0], it[1], {"offset": it[2]}), asked)
        for (what, *_), came in zip(asked, told):
            checks.equal(f"what commands mean by today: {what}", came, told_of(DAYS[0]))


# on which days by the rule of docs/LEDGER.md, at which moments, how many days ago are asked for:
# about a day of 23 hours (18,350) and one of 25 (18,560)
DAYS_AGO = [
    (18_350, 1_585_436_400, 0),
    (18_351, 1_585_519_200 + 600, 1),
    (18_351, 1_585_519_200 + 600, 2),
    (18_560, 1_603_666_800 - 600, 1),
    (18_561, 1_603_753_200 - 600, 2),
    (18_561, 1_603_666_800 + 600, 212),
]


def days_ago_over_a_change(world, checks):
    """So many days ago is counted in days, also where the clocks were put forward or back since."""
    with Server(world, default=9) as server, ThreadPoolExecutor(4) as pool:
        days = sorted({day - ago + more for day, _, ago in DAYS_AGO for more in (-1, 0, 1)})
        sent = [reserve(it, txn=it, login=b"d%d" % it, at=86_400 * it) for it in days]
        server.ask(b"".join(sent))
        told = pool.map(lambda it: told_days_ago(world, server, *it), DAYS_AGO)
        for (day, moment, ago), came in zip(DAYS_AGO, told):
            checks.equal(
                f"what commands mean by {ago} days ago, at {moment} of day {day}",
                came,
                told_of_days_ago(day - ago, ago, moment),
            )


def told_days_ago(world, server, day, moment, ago):
    """What the commands come to that name a day by how many days ago it was, at this moment, and
    the limits then."""
    config = ledger_settings(
        world, f"{world.folder}/nowhere/ledger", offset=None, rule=CENTRAL_EUROPE
    )
    login, words = f"u{moment}-{ago}", ["--config", config, "--server", server.address]

    def run(*asks):
        return run_at(world, moment, *asks, *words, "--ago", str(ago))

    return (
        run("report"),
        run("limit", login, "4"),
        caps(server, login.encode(), day - ago - 1, day - ago),
        run("resume", login, "--cap", "3"),
        run("stop", login),
    )


def told_of_days_ago(day, ago, moment):
    """The same, where that was this day."""
    return (
        (0, b"      0       1       9 d%d\n" % day, ""),
        (0, b"set\n", ""),
        [9, 4],
        (0, f"resumed: u{moment}-{ago} may use 3 on day {day}\n".encode(), ""),
        not_today(day, day + ago) if ago else fault(nothing_sent(day)),
    )
