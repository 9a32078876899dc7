"""Words of the command line: help, usage faults, ranges of numbers, and what words ask for, shown
by what happens."""
import os
import resource
import time

from cases.filters import INPUT, PROCEED, REGISTRATION, answer
from cases.stopping import caps
from cases.texts_of_words import FAULTS, HELPS
from ends import (
    NO_FILE,
    NO_NUMERIC_ADDRESS,
    NO_PORT,
    PORT_TOO_LARGE,
    TO_ESCAPE,
    Script,
    Server,
    bad_address,
    bad_login,
    begun,
    fault,
    loopback_of_6,
    of_settings,
    shown as as_logged,
    toml,
    wait_until,
    without_time,
)
from wire import (
    frame,
    granted,
    identity,
    limit,
    number,
    page,
    page_reply,
    reserve,
    retire,
    retired,
    text,
    usage,
)

NO_LIMIT = "no number of recipients, and not default"
NO_DAY = "no day number, no date as 2026-11-30, and none of yesterday, today and tomorrow"
MORE = "\n\nFor more information, try '--help'.\n"
MOST_RUN = 281_474_976_710_655


def run(world, checks):
    helps(world, checks)
    version(world, checks)
    usage_faults(world, checks)
    ranges_of_numbers(world, checks)
    bad_words_of_the_administrator(world, checks)
    settings_that_are_not_named(world, checks)
    words_of_a_filter(world, checks)
    words_of_a_server_and_an_audit(world, checks)
    words_of_questions(world, checks)
    words_without_a_name(world, checks)
    days_as_people_write_them(world, checks)
    all_options_at_once(world, checks)
    words_of_replay(world, checks)
    tables_of_replay(world, checks)


def helps(world, checks):
    for words, wanted in HELPS:
        status, output, errors = world.run(*words)
        checks.equal(" ".join(words), (status, output, errors), (0, wanted.encode(), ""))
        lines = output.decode().split("\n")
        fits = len(lines) <= 24 and max(map(len, lines)) <= 80
        checks.holds(
            f"{' '.join(words)}: fits a screen",
            fits,
            "23 lines and the next prompt, of 80 columns",
            lines,
        )
    with open("/dev/full", "wb") as full:
        status, _, errors = world.run("--help", output=full)
    checks.equal("--help to a full device", (status, errors), (1, "mailquota: write failed\n"))


def version(world, checks):
    wanted = f"mailquota 1.1.0{built_of(world.program)}\n".encode()
    for word in ("--version", "-V"):
        checks.equal(f"mailquota {word}", world.run(word), (0, wanted, ""))


def built_of(program):
    """What a version has in brackets: the commit that `make build` built the program of, where
    there is one, or that it is unproved."""
    folder = os.path.dirname(os.path.realpath(program))
    if os.path.basename(folder) == "unproved":
        return " (unproved)"
    try:
        with open(f"{folder}/build/commit", encoding="ascii") as file:
            commit = file.read()
    except FileNotFoundError:
        return ""
    return f" ({commit})" if commit else ""


def usage_faults(world, checks):
    for words, wanted in FAULTS:
        checks.equal(f"usage fault of '{' '.join(words)}'", world.run(*words), (2, b"", wanted))
    asked = ["limit", "--server", "127.0.0.1:1", "--host", "a", "--login", "u"]
    faults = [
        ([], "subcommand"),
        (["send"], "unrecognized subcommand 'send'"),
        (["replay", "--default", "-1"], "error: "),
        (["replay", "now"], "unexpected argument 'now' found"),
        (["stop", "u", "--forc"], "unexpected argument '--forc' found"),
        (asked + ["--from", "1"], "--cap"),
        (asked + ["--from", "1", "--cap", "many"], "invalid value 'many'"),
        (["stop", "--all"], "LOGIN"),
        (["stop", "--wait"], "LOGIN"),
        (["resume"], "LOGIN"),
    ]
    for words, part in faults:
        status, output, errors = world.run(*words)
        good = (status, output) == (2, b"") and part in errors and errors.startswith("error: ")
        checks.holds(
            f"usage fault of '{' '.join(words)}'",
            good,
            f"status 2, {part!r} on standard error alone",
            (status, output, errors),
        )
    for words in (
        [b"\xff"],
        [b"report", b"--server", b"127.0.0.1:1", b"--day", b"1", b"--login", b"\xff\xfe"],
    ):
        came = world.run(*words)
        checks.equal(
            f"words that are no UTF-8, {words[-1].hex()}",
            came,
            (2, b"", "mailquota: arguments are not text\n"),
        )


def unreadable(name):
    """How a subcommand ends whose settings aren't there."""
    return fault("settings can't be read", log=of_settings(name, NO_FILE))


SETTINGS = "/etc/mailquota"
BAD_ADDRESS = bad_address("a", NO_PORT)
BAD_LOGIN = bad_login("")
ASKED = ["limit", "--server=a", "--host=h", "--login=u"]
# the words before a number, its option, how its value is called, its least and greatest number, and
# how the program ends by these
NUMBERS = [
    (["replay"], "default", "N", 0, 1_000_000, (0, b"", "")),
    (["replay"], "east", "M", 0, 1_439, (0, b"", "")),
    (["replay"], "west", "M", 0, 1_439, (0, b"", "")),
    (["filter", "--config=f"], "run", "N", 1, MOST_RUN, unreadable("f")),
    (["server", "--config=f"], "connections", "N", 1, 1_000_000, unreadable("f")),
    (ASKED + ["--cap=1"], "from", "DAY", 0, 376_200, BAD_ADDRESS),
    (ASKED + ["--from=1"], "cap", "N", 0, 1_000_000, BAD_ADDRESS),
    (ASKED + ["--from=1", "--cap=1"], "run", "N", 1, MOST_RUN, BAD_ADDRESS),
    (["stop", "--server=a", "--host=h", "--login=u"], "day", "DAY", 0, 376_199, BAD_ADDRESS),
    (
        ["resume", "--server=a", "--host=h", "--login=u", "--cap=1"],
        "day",
        "DAY",
        0,
        376_199,
        BAD_ADDRESS,
    ),
    (
        ["resume", "--server=a", "--host=h", "--login=u", "--day=1"],
        "cap",
        "N",
        0,
        1_000_000,
        BAD_ADDRESS,
    ),
    (["day", "--config=f"], "at", "SECONDS", 86_400, 32_503_680_000, unreadable("f")),
    (["retire", "--server=a", "--host=h"], "run", "N", 1, MOST_RUN, BAD_ADDRESS),
    (["report", "--server=a"], "day", "DAY", 0, 376_200, BAD_ADDRESS),
    (["report", "--server=a"], "ago", "N", 0, 376_200, BAD_ADDRESS),
    (["report", "--server=a", "--day=1"], "top", "N", 1, 1_000_000, BAD_ADDRESS),
    (["limit", "u", "1", "--server=a"], "ago", "N", 0, 376_200, BAD_ADDRESS),
    (["stop", "u", "--server=a"], "ago", "N", 0, 376_200, BAD_ADDRESS),
    (["resume", "u", "--server=a"], "ago", "N", 0, 376_200, BAD_ADDRESS),
    (["forget", "--config=f", "--into=g"], "before", "DAY", 0, 376_200, unreadable("f")),
]


def ranges_of_numbers(world, checks):
    for words, option, value, least, most, wanted in NUMBERS:
        shown = f"{words[0]} --{option}"
        for given in (least, most):
            checks.equal(
                f"{shown}={given}",
                world.run(*words, f"--{option}={given}", folder=world.folder),
                wanted,
            )
        for given in (least - 1, most + 1):
            why = (
                f"{given} is not in {least}..={most}"
                if given >= 0
                else NO_DAY
                if value == "DAY"
                else NO_LIMIT
                if (words[0], option) == ("limit", "cap")
                else "invalid digit found in string"
            )
            refused = (
                2,
                b"",
                f"error: invalid value '{given}' for '--{option} <{value}>': {why}{MORE}",
            )
            checks.equal(
                f"{shown}={given}",
                world.run(*words, f"--{option}={given}", folder=world.folder),
                refused,
            )
    wanted = (
        f"error: invalid value '1000001' for '--default <N>': 1000001 is not in 0..=1000000{MORE}"
    )
    checks.equal(
        "replay --default 1000001", world.run("replay", "--default", "1000001"), (2, b"", wanted)
    )


def settings_that_are_not_named(world, checks):
    """Each command that works by settings has a place for them."""
    if os.path.exists(SETTINGS):
        checks.skip("commands without --config", f"there is {SETTINGS}")
        return
    for words in (
        ["init"],
        ["server"],
        ["server", "--create"],
        ["limits"],
        ["limits", "--json"],
        ["audit"],
        ["audit", "--json"],
        ["day"],
        ["forget", "--before=1", "--into=f"],
    ):
        came = world.run(*words, folder=world.folder)
        checks.equal(
            f"{' '.join(words)}, without --config", came, unreadable(f"{SETTINGS}/server.toml")
        )
    for words in (["filter"], ["filter", "--check"], ["filter", "--run=7"]):
        checks.equal(
            f"{' '.join(words)}, without --config",
            world.run(*words, folder=world.folder),
            unreadable(f"{SETTINGS}/filter.toml"),
        )


def bad_words_of_the_administrator(world, checks):
    """A bad host, login or address, in this order, before anything is sent."""

    def asked(server, host, login):
        return [
            "limit",
            "--server",
            server,
            "--host",
            host,
            "--login",
            login,
            "--from",
            "1",
            "--cap",
            "2",
        ]

    def report(server, login):
        return ["report", "--server", server, "--day", "1", "--login", login]

    good, long = "127.0.0.1:1", "a" * 256
    for words, said in [
        (asked("nowhere", "a_b", ""), "bad host"),
        (asked("nowhere", "", "u"), "bad host"),
        (asked(good, "a" * 65, "u"), "bad host"),
        (asked(good, "mx1 ", "u"), "bad host"),
        (asked("mail:7025", "mx 1", ""), "bad host"),
        (asked("mail:7025", "", "u"), "bad host"),
        (asked("mail:7025", long, "u"), "bad host"),
        (asked("nowhere", "a", ""), "bad login"),
        (asked(good, "a" * 64, "u" * 256), "bad login"),
        (asked("mail:7025", "mx1", ""), "bad login"),
        (asked("mail:7025", "mx1", long), "bad login"),
        (report("nowhere", ""), "bad login"),
        (report(good, "u" * 256), "bad login"),
        (report("mail:7025", ""), "bad login"),
        (report("mail:7025", long), "bad login"),
    ]:
        shown = " ".join(word if len(word) < 20 else f"({len(word)} bytes)" for word in words)
        wanted = (2, b"", f"mailquota: {said}\n")
        if said == "bad login":
            wanted = bad_login(words[words.index("--login") + 1])
        checks.equal(f"'{shown}'", world.run(*words), wanted)
    for address, lacks in [
        ("nowhere", NO_PORT),
        ("", NO_PORT),
        ("127.0.0.1", NO_PORT),
        ("[::1]", NO_PORT),
        ("localhost:http", NO_PORT),
        ("127.0.0.1:65536", PORT_TOO_LARGE),
        ("[::1]:65536", PORT_TOO_LARGE),
        ("127.0.0.1:99999999999999999999", PORT_TOO_LARGE),
        ("localhost:7025", NO_NUMERIC_ADDRESS),
        ("mail:7025", NO_NUMERIC_ADDRESS),
        ("1.2.3:7025", NO_NUMERIC_ADDRESS),
        ("::1", NO_NUMERIC_ADDRESS),
        ("fe80::1:7025", NO_NUMERIC_ADDRESS),
        (":7025", NO_NUMERIC_ADDRESS),
        ("\x1b[2J\u00e9 :7025", NO_NUMERIC_ADDRESS),
    ]:
        # (a terminal gets none of its bytes as they are)
        named = as_logged(address.encode())
        for words in (
            asked(address, "a", "u" * 255),
            report(address, "u"),
            ["report", f"--server={address}", "--day=1"],
            ["status", f"--server={address}"],
            ["retire", f"--server={address}", "--host=" + "a" * 64],
            ["stop", f"--server={address}", "--host=a", "--login=u", "--day=1"],
            ["resume", f"--server={address}", "--host=a", "--login=u", "--day=1", "--cap=1"],
        ):
            checks.equal(
                f"{words[0]}, of the address '{named}'",
                world.run(*words),
                bad_address(named, lacks),
            )


def milliseconds():
    return time.time_ns() // 1_000_000


def run_in(heard, place):
    """The run in a frame whose host's name is so long."""
    return int.from_bytes(heard[4 + place : 12 + place], "big")


def asked_of_the_clock(checks, what, start, heard):
    """The run of a frame of host mx1 that was made since then."""
    run = run_in(heard, 3)
    checks.holds(
        f"{what}: the run is the clock's",
        start <= run <= milliseconds(),
        f"{start} or a little more",
        run,
    )
    return run


def words_of_a_filter(world, checks):
    """The file is looked for where the program runs, and the number of the run is in its frames."""

    def grant(heard):
        return granted(1, 1, host=b"mx1", run=run_in(heard, 3))

    folder = f"{world.folder}/filter"
    os.mkdir(folder)
    came = world.run("filter", "--config", "f.toml", folder=folder)
    checks.equal("filter --config f.toml, which isn't there", came, unreadable("f.toml"))
    for words, name in [(["--config", "f.toml"], "f.toml"), (["--run=7", "--config=f"], "f")]:
        what, start = f"filter {' '.join(words)}", milliseconds()
        with Script([grant]) as script:
            os.rename(world.filter_file(script.address), f"{folder}/{name}")
            came = world.run("filter", *words, text=INPUT, folder=folder)
        checks.equal(f"{what}: what it answers", came, (0, REGISTRATION + answer(PROCEED), ""))
        run = 7 if "--run=7" in words else asked_of_the_clock(checks, what, start, script.heard[0])
        checks.equal(
            f"{what}: its frames",
            script.heard,
            [reserve(1, login=b"alice", at=1_576_146_009, host=b"mx1", run=run)],
        )


def words_of_a_server_and_an_audit(world, checks):
    """With --create a new ledger is made; how many connections are served is logged."""
    folder = f"{world.folder}/server"
    os.mkdir(folder)
    checks.equal(
        "server --config=s, which isn't there",
        world.run("server", "--config=s", "--create", folder=folder),
        unreadable("s"),
    )
    checks.equal(
        "audit --config s.toml, which isn't there",
        world.run("audit", "--config", "s.toml", folder=folder),
        unreadable("s.toml"),
    )
    settings = {
        "listen": "127.0.0.1:0",
        "store": f"{folder}/made",
        "default": 3,
        "offset": 0,
        "log": "info",
    }
    for name in ("s", "s.toml"):
        os.rename(world.new_file(toml(settings)), f"{folder}/{name}")
    with Server.of_words(world, "--config=s", "--create", folder=folder) as server:
        wait_until(lambda: len(server.log_lines()) > 1)
        lines = [
            begun(f"{folder}/made"),
            "[INFO  server] listening on 127.0.0.1:0 for 1000000 connections",
        ]
        came = without_time(server.log_lines()), server.ask(page())
        checks.equal(
            "server --config=s --create: the log, and its ledger", came, (lines, page_reply([]))
        )
    came = world.run("audit", "--config", "s.toml", folder=folder)
    checks.equal(
        "audit --config s.toml: of that ledger", came, (0, b"sound days=0 transactions=0\n", "")
    )


def words_of_questions(world, checks):
    if loopback_of_6() != "::1":
        checks.skip("limit of a server at [::1], which is asked at 127.0.0.1", "there is no IPv6")
    start = milliseconds()
    with Script(
        [lambda heard: frame(b"\x85" + identity(1, host=b"mx1", run=run_in(heard, 3)))],
        host=loopback_of_6(),
    ) as script:
        words = [f"--server={script.address}", "--host=mx1", "--login=u v", "--from=2", "--cap=3"]
        came = world.run("limit", *words)
    checks.equal("limit without a run: what it prints", came, (0, b"set\n", NOTE))
    run = asked_of_the_clock(checks, "limit without a run", start, script.heard[0])
    checks.equal(
        "limit without a run: its frame",
        script.heard,
        [limit(1, 2, 3, login=b"u v", host=b"mx1", run=run)],
    )
    with Script([page_reply([], day=2)]) as script:
        came = world.run("report", "--day=2", f"--server={script.address}")
    checks.equal(
        "report without a login: what it prints, and its frame",
        (came, script.heard),
        ((0, b"", ""), [page(day=2)]),
    )
    start = milliseconds()
    with Script([lambda heard: retired(1, host=b"mx1", run=run_in(heard, 3))]) as script:
        came = world.run("retire", f"--server={script.address}", "--host=mx1")
    checks.equal("retire without a run: what it prints", came, (0, b"retired\n", ""))
    run = asked_of_the_clock(checks, "retire without a run", start, script.heard[0])
    checks.equal("retire without a run: its frame", script.heard, [retire(1, host=b"mx1", run=run)])
    checks.equal(
        "report of an empty login",
        world.run("report", "--day=2", "--server=a", "--login="),
        BAD_LOGIN,
    )
    checks.equal(
        "report without a login, of a bad address",
        world.run("report", "--day=2", "--server=a"),
        BAD_ADDRESS,
    )


NOTE = "mailquota: note: smtpd reports this login, in the form of --login-text, as u\\x5c040v\n"


def words_without_a_name(world, checks):
    """A login is a word as a report prints it, or an option as smtpd reports it; a limit is a word
    or an option."""
    with Server(world, default=9) as server:
        asked, shown = [f"--server={server.address}"], "u\\x20v"
        for words, cap in [
            ([shown, "7"], 7),
            ([shown, "0"], 0),
            ([shown, "1000000"], 1_000_000),
            ([shown, "--cap=6"], 6),
            (["--cap", "5", shown], 5),
            (["--login=u v", "--cap=4"], 4),
            ([f"--login-text={shown}", "--cap=3"], 3),
        ]:
            came = world.run("limit", *words, "--from=2", *asked), caps(server, b"u v", 1, 2)
            checks.equal(f"limit {' '.join(words)}", came, ((0, b"set\n", NOTE), [9, cap]))
        checks.equal(
            "limit -- -x 8",
            (world.run("limit", *asked, "--from=2", "--", "-x", "8"), caps(server, b"-x", 1, 2)),
            ((0, b"set\n", ""), [9, 8]),
        )
        for words in ([shown], ["--login=u v"], [f"--login-text={shown}"]):
            came = world.run("report", "--day=2", *words, *asked)
            checks.equal(
                f"report {' '.join(words)}", came, (0, b"      0       0       3 u\\x20v\n", NOTE)
            )
        for words in ([shown], ["--login=u v"], [f"--login-text={shown}"]):
            came = (
                world.run("stop", "--day=4", "--force", *words, *asked),
                world.run("resume", "--day=4", "--cap=2", *words, *asked),
                caps(server, b"u v", 4, 5),
            )
            stopped, resumed = (
                b"stopped: u\\x20v used 0 on day 4\nlimit before: ",
                b"resumed: u\\x20v may use 2 on day 4\n",
            )
            good = (
                came[0][0] == 0
                and came[0][1].startswith(stopped)
                and came[0][2] == NOTE
                and came[1:] == ((0, resumed, NOTE), [2, 2])
            )
            checks.holds(
                f"stop and resume {' '.join(words)}", good, (stopped, resumed, [2, 2]), came
            )
        for name, *words in (
            ["limit", "7", "--from=2"],
            ["stop", "--day=4"],
            ["resume", "--day=4"],
            ["report", "--day=2"],
        ):
            checks.equal(f"{name} of an empty word", world.run(name, "", *words, *asked), BAD_LOGIN)
        for words in (
            ["limit", "\\x2", "7", "--from=2"],
            ["stop", "\\x2", "--day=4"],
            ["resume", "\\x2", "--day=4"],
            ["report", "\\x2", "--day=2"],
            ["report", "u v", "--day=2"],
        ):
            checks.equal(
                f"{' '.join(words)}: a word that no report prints",
                world.run(*words, *asked),
                bad_login(as_logged(words[1].encode()), TO_ESCAPE),
            )


# words of replay, the default that they ask for, a day, and the first second of it by their offset
# of 0, -1,439 and 60 minutes
REPLAYS = [
    ([], 100, 2, 2 * 86_400),
    (["--default", "0", "--west", "1439", "--sql"], 0, 1, 86_400 + 1_439 * 60),
    (["--east=90", "--default=1000000", "--west=30"], 1_000_000, 2, 2 * 86_400 - 60 * 60),
]


def days_as_people_write_them(world, checks):
    """A day by its date is that of its number, on any calendar; other spellings name none."""
    for date, number_ in [
        ("1970-01-01", 0),
        ("1970-01-02", 1),
        ("2000-02-29", 11_016),
        ("2026-11-30", 20_787),
        ("2100-03-01", 47_541),
        ("3000-01-01", 376_200),
    ]:
        checks.equal(
            f"day {date}",
            (world.run("day", date), world.run("day", str(number_))),
            ((0, f"{number_}\n".encode(), ""),) * 2,
        )
        with Script([page_reply([], day=number_)]) as script:
            came = world.run("report", f"--day={date}", f"--server={script.address}")
        checks.equal(
            f"report --day {date}: what is asked",
            (came, script.heard),
            ((0, b"", ""), [page(day=number_)]),
        )
    for text_ in ("2026-11-31", "2026-02-29", "2026-11-3", "26-11-30", "today ", "Today", ""):
        checks.equal(
            f"day '{text_}'",
            world.run("day", text_),
            (
                2,
                b"",
                f"error: invalid value '{as_logged(text_.encode())}' for '[DAY]': {NO_DAY}{MORE}",
            ),
        )
    for date, number_ in [("3000-01-02", 376_201), ("9999-12-30", 2_932_895)]:
        checks.holds(
            f"day {date}",
            world.run("day", date)[0] == 2,
            "status 2",
            world.run("day", date),
        )


def all_options_at_once(world, checks):
    """Each option that goes with others, in two orders and both spellings, at four servers."""
    config = world.new_file(
        toml({"listen": "127.0.0.1:1", "store": "memory", "default": 3, "offset": 0})
    )
    with Server(world) as first, Server(world) as second:
        four = [first.address, second.address] * 2
        common = [("server", it) for it in four] + [("config", config)]
        for place, (is_reversed, is_joined) in enumerate(
            [(False, False), (True, False), (False, True), (True, True)]
        ):
            login = f"u{place}"
            named = [*common, ("login", login)]
            host = [("host", "admin")]
            for name, options, done in [
                (
                    "limit",
                    [*named, *host, ("from", "2"), ("cap", "2"), ("run", f"{place + 7}")],
                    ["set\n"] * 4,
                ),
                (
                    "report",
                    [*named, ("day", "2")],
                    [f"      0       0       2 {login}\n"] * 4,
                ),
                (
                    "stop",
                    [
                        *named,
                        *host,
                        ("day", "2"),
                        ("force", None),
                        ("all", None),
                        ("wait", None),
                    ],
                    [
                        f"stopped: {login} used 0 on day 2\nlimit before: {before}\n"
                        for before in (2, 2, 0, 0)
                    ],
                ),
                (
                    "resume",
                    [*named, *host, ("day", "2"), ("cap", "5")],
                    [f"resumed: {login} may use 5 on day 2\n"] * 4,
                ),
            ]:
                given = list(reversed(options)) if is_reversed else options
                asked = reversed(four) if is_reversed else four
                words = [
                    word
                    for option, value in given
                    for word in (
                        [f"--{option}={value}"]
                        if is_joined and value
                        else [f"--{option}", *([value] if value else [])]
                    )
                ]
                checks.equal(
                    f"{name} with {len(words)} words of options,"
                    f" {'from the last on' if is_reversed else 'in order'}",
                    world.run(name, *words),
                    (
                        0,
                        "".join(f"server {at}:\n{it}" for at, it in zip(asked, done)).encode(),
                        "",
                    ),
                )


def words_of_replay(world, checks):
    """Login u has a limit of 5 and a recipient on each side of a midnight, and login v has the
    default."""
    for words, default, day, first in REPLAYS:
        asked = limit(1, 0, 5) + reserve(2, txn=1, at=first - 1) + reserve(3, txn=2, at=first)
        asked += usage(day=day - 1) + usage(day=day) + usage(b"v", day=day)
        wanted = frame(b"\x85" + identity(1)) + granted(2, 1) + granted(3, 1)
        wanted += used(b"u", day - 1, 1, 5) + used(b"u", day, 1, 5) + used(b"v", day, 0, default)
        came = world.run("replay", *words, text=asked.hex().encode())
        checks.equal(" ".join(["replay", *words]), came, (0, f"{wanted.hex()}\n".encode(), ""))


def used(login, day, in_reserved, cap):
    return frame(
        b"\x8b" + text(login) + number(day) + number(0) + number(in_reserved) + number(cap)
    )


def tables_of_replay(world, checks):
    """Tables (`--sql`) answer as a list does and take more memory, which shows in the pages that
    the program touches."""
    asked = b"".join(reserve(number, txn=number) for number in range(1, 51)).hex().encode()
    without = [pages_touched(lambda: world.run("replay", text=asked)) for _ in range(3)]
    with_it = [pages_touched(lambda: world.run("replay", "--sql", text=asked)) for _ in range(3)]
    checks.holds(
        "replay --sql: pages of memory",
        min(with_it) > max(without),
        "more than without",
        (without, with_it),
    )


def pages_touched(go):
    """How many pages of memory are touched by the program that is run here."""
    before = resource.getrusage(resource.RUSAGE_CHILDREN).ru_minflt
    go()
    return resource.getrusage(resource.RUSAGE_CHILDREN).ru_minflt - before
