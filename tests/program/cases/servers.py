"""Commands that ask several servers in turn: what each prints and is asked, and one that is away,
at a wrong address or without answers."""
import re
import subprocess
import time

import clocks
from cases.as_used import quiet_port
from cases.stopping import (
    SET,
    caps,
    most_limit,
    no_limit,
    nothing_sent,
    orders_of,
    run_of,
    said,
    usage_reply,
    wait_past_midnight,
)
from ends import (
    NO_PORT,
    SECONDS,
    SILENCE,
    Script,
    Server,
    bad_address,
    loopback_of_6,
    nobody_there,
    unavailable,
    under,
    wait_until,
)
from smtpd import clock
from wire import RETRY, frame, limit, number, page_reply, reserve, row, text, usage

PROBE = usage(b"-", 0)


def run(world, checks):
    each_is_asked(world, checks)
    one_that_is_away(world, checks)
    use_at_one_of_them(world, checks)
    one_that_comes_back(world, checks)
    one_that_stays_away(world, checks)
    one_number_for_all(world, checks)
    in_the_order_given(world, checks)
    wrong_words(world, checks)
    notes(world, checks)
    a_device_that_is_full(world, checks)
    as_many_and_as_long_as_may_be(world, checks)


def at(*addresses):
    return [word for address in addresses for word in ("--server", address)]


def heading(address):
    return f"server {address}:\n".encode()


def undone(address):
    return f"mailquota: not done by server {address}\n"


def is_silent(address):
    return (
        f"mailquota: note: server {address} gives no answer: the login is stopped without asking"
        " whether it is misspelled\n"
    )


def doesnt_take(address):
    return (
        f"mailquota: note: server {address} didn't take the question whether the login is"
        " misspelled, and it is stopped all the same: the server's log says why; if it has permits,"
        " add this machine there\n"
    )


def not_known(address):
    return (
        f"mailquota: not known to be stopped at server {address}, which gave no answer or didn't"
        " take this\n"
    )


def is_awaited(address):
    return f"mailquota: note: server {address} is asked again until it answers, for up to an hour\n"


def each_is_asked(world, checks):
    with Server(world, default=3) as first, Server(world, default=5) as second:
        both = at(first.address, second.address)
        first.ask(reserve(1) + reserve(2, txn=2, login=b"v"))
        second.ask(reserve(1, count=4))
        headings = heading(first.address), heading(second.address)

        def told(one, other):
            return 0, headings[0] + one + headings[1] + other, ""

        checks.equal(
            "status of two",
            world.run("status", *both),
            told(
                f"quota server {first.address} answers\n".encode(),
                f"quota server {second.address} answers\n".encode(),
            ),
        )
        checks.equal(
            "a report of two",
            world.run("report", *both, "--day", "1"),
            told(
                b"      0       1       3 u\n      0       1       3 v\n",
                b"      0       4       5 u\n",
            ),
        )
        checks.equal(
            "a report of one login of two",
            world.run("report", *both, "--day", "1", "--login", "v"),
            told(b"      0       1       3 v\n", b"      0       0       5 v\n"),
        )
        words = [*both, "--host", "admin", "--login", "u"]
        checks.equal(
            "stop at two",
            world.run("stop", *words, "--day", "1", "--force"),
            told(
                b"stopped: u used 1 on day 1\nlimit before: 3\n",
                b"stopped: u used 4 on day 1\nlimit before: 5\n",
            ),
        )
        checks.equal(
            "the limits then", (caps(first, b"u", 1, 2), caps(second, b"u", 1, 2)), ([1, 0], [4, 0])
        )
        checks.equal(
            "resume at two",
            world.run("resume", *words, "--day", "1", "--cap", "2"),
            told(b"resumed: u may use 3 on day 1\n", b"resumed: u may use 6 on day 1\n"),
        )
        checks.equal(
            "limit at two",
            world.run("limit", *words, "--from", "1", "--cap", "4"),
            told(b"set\n", b"set\n"),
        )
        checks.equal(
            "the limits after it",
            (caps(first, b"u", 1, 2), caps(second, b"u", 1, 2)),
            ([4, 2], [4, 2]),
        )
        came = world.run("limit", *words, "--from", "1", "--cap", "1")
        wanted = (
            1,
            headings[0] + b"set\n" + headings[1],
            f"mailquota: over day 1 used 4\n{undone(second.address)}",
        )
        checks.equal("a limit that the second server refuses", came, wanted)
        came = world.run(
            "limit",
            *at(second.address, first.address),
            "--host",
            "admin",
            "--login",
            "u",
            "--from",
            "1",
            "--cap",
            "1",
        )
        wanted = (
            1,
            headings[1] + headings[0] + b"set\n",
            f"mailquota: over day 1 used 4\n{undone(second.address)}",
        )
        checks.equal("one that the first refuses", came, wanted)
        for each in (first, second):
            each.ask(limit(1, 5, 2, login=b"w", host=b"later"))
        came = world.run(
            "stop", *both, "--host", "admin", "--login", "w", "--day", "1", "--force", "--all"
        )
        checks.equal(
            "stop --all at two",
            came,
            told(
                b"stopped: w used 0 on day 1\nlimit before: 3\n",
                b"stopped: w used 0 on day 1\nlimit before: 5\n",
            ),
        )
        checks.equal(
            "stop --all at two: the limits then",
            (caps(first, b"w", 1, 4, 5, 6), caps(second, b"w", 1, 4, 5, 6)),
            ([0] * 4, [0] * 4),
        )


def one_that_is_away(world, checks):
    """It doesn't keep the others from being asked, wherever it stands."""
    with Server(world) as server, nobody_there() as away:
        for addresses in (
            [away, server.address],
            [server.address, away],
            [away, server.address, away],
        ):
            places = "".join("-" if address == away else "+" for address in addresses)
            count = addresses.count(away)
            for name, more, done in [
                ("status", [], f"quota server {server.address} answers\n"),
                ("report", ["--day", "1", "--login", "u"], "      0       0       3 u\n"),
                (
                    "limit",
                    ["--host", "admin", "--login", "u", "--from", "1", "--cap", "3"],
                    "set\n",
                ),
                ("stop", ["--host", "admin", "--login", "w", "--day", "1", "--force"], None),
                (
                    "resume",
                    ["--host", "admin", "--login", "x", "--day", "1", "--cap", "3"],
                    "resumed: x may use 3 on day 1\n",
                ),
            ]:
                if done is None:
                    before = caps(server, b"w", 1)[0]
                    done = f"stopped: w used 0 on day 1\nlimit before: {before}\n"
                printed = b"".join(
                    heading(it) + (b"" if it == away else done.encode()) for it in addresses
                )
                came = world.run(name, *at(*addresses), *more)
                said = (unavailable(away)[2] + undone(away)) * count
                if name == "stop":
                    said += not_known(away) * count
                checks.equal(f"{name} at {places}, of which - is away", came, (1, printed, said))
        checks.equal(
            "what was set at the one that answers",
            (caps(server, b"u", 1), caps(server, b"w", 1, 2), caps(server, b"x", 1, 2)),
            ([3], [0, 0], [3, 3]),
        )
        checks.equal(
            "one server alone that is away", world.run("status", *at(away)), unavailable(away)
        )


def use_at_one_of_them(world, checks):
    """A login that sent something at one of the servers is stopped at each; where one alone is
    asked, by what that one knows."""
    wait_past_midnight()
    today = int(time.time()) // 86_400
    nothing = f"mailquota: {nothing_sent(today)}\n"
    words = ["stop", "--host", "admin", "--day", str(today), "--login"]

    def told(one, other, login, used):
        return b"".join(
            heading(it.address)
            + f"stopped: {login} used {count} on day {today}\nlimit before: {was}\n".encode()
            for it, count, was in ((one, used[0], 9), (other, used[1], 5))
        )

    with Server(world, default=9) as first, Server(
        world, default=5
    ) as second, nobody_there() as away:
        first.ask(reserve(1, login=b"here", at=today * 86_400))
        second.ask(
            reserve(1, login=b"there", at=(today - 2) * 86_400)
            + reserve(2, txn=2, login=b"before", at=(today - 3) * 86_400)
            + reserve(4, txn=4, login=b"elsewhere", at=today * 86_400)
        )
        both = at(first.address, second.address)
        checks.equal(
            "stop at two, used at the first",
            world.run(*words, "here", *both),
            (0, told(first, second, "here", (1, 0)), ""),
        )
        checks.equal(
            "its limits",
            (caps(first, b"here", today, today + 1), caps(second, b"here", today, today + 1)),
            ([1, 0], [0, 0]),
        )
        checks.equal(
            "stop at two, used at the second two days ago",
            world.run(*words, "there", *both),
            (0, told(first, second, "there", (0, 0)), ""),
        )
        checks.equal(
            "its limits",
            (caps(first, b"there", today, today + 1), caps(second, b"there", today, today + 1)),
            ([0, 0], [0, 0]),
        )
        came = world.run(*words, "nowhere", *both)
        refused = (
            1,
            heading(first.address) + heading(second.address),
            nothing + undone(first.address) + nothing + undone(second.address),
        )
        checks.equal("stop at two, used at none", came, refused)
        with Server(world, default=7) as third:
            third.ask(reserve(1, login=b"third", at=today * 86_400))
            came = world.run(*words, "third", *both, "--server", third.address)
            checks.equal(
                "stop at three, used at the third: the status, and its limits",
                (came[0], caps(first, b"third", today), caps(third, b"third", today, today + 1)),
                (0, [0], [1, 0]),
            )
        checks.equal(
            "stop at two, used at the second three days ago",
            world.run(*words, "before", *both),
            refused,
        )
        checks.equal(
            "stop at the first alone, used at the second",
            world.run(*words, "elsewhere", "--server", first.address),
            (1, b"", nothing),
        )
        # one that is away knows nothing, and doesn't keep the others from saying what they know
        first.ask(reserve(3, txn=3, login=b"later", at=today * 86_400))
        for addresses in (
            [away, second.address, first.address],
            [second.address, away, first.address],
            [first.address, away, second.address],
        ):
            came = world.run(*words, "later", *at(*addresses))
            printed = b"".join(
                heading(it)
                + {
                    away: b"",
                    first.address: f"stopped: later used 1 on day {today}\nlimit before: ".encode(),
                    second.address: (
                        f"stopped: later used 0 on day {today}\nlimit before: ".encode()
                    ),
                }[it]
                for it in addresses
            )
            shown = re.sub(rb"(limit before: )\d+\n", rb"\1", came[1])
            checks.equal(
                (
                    "stop at three, of which one is away, used at one,"
                    f" {''.join('-' if it == away else '1' if it == first.address else '2' for it in addresses)}"
                ),
                (came[0], shown, came[2]),
                (1, printed, unavailable(away)[2] + undone(away) + not_known(away)),
            )
        # but where the others know nothing, it might
        for addresses in ([away, first.address], [first.address, away]):
            login = "nowhere" if addresses[0] == away else "unseen"
            came = world.run(*words, login, *at(*addresses))
            done = f"stopped: {login} used 0 on day {today}\nlimit before: 9\n".encode()
            checks.equal(
                "stop at two, of which one is away, used at none,"
                f" {''.join('-' if it == away else '+' for it in addresses)}",
                came,
                (
                    1,
                    b"".join(heading(it) + (b"" if it == away else done) for it in addresses),
                    is_silent(away) + unavailable(away)[2] + undone(away) + not_known(away),
                ),
            )
        checks.equal(
            "its limits at the one that answers",
            caps(first, b"nowhere", today, today + 1),
            [0, 0],
        )
        checks.equal(
            "stop at one server alone that is away",
            world.run(*words, "nowhere", *at(away)),
            unavailable(away),
        )
        checks.equal(
            "stop --wait at two that answer, used at none",
            world.run(*words, "other", *both, "--wait"),
            refused,
        )
    # (first whether it answers at all, which costs a second where it doesn't)
    there = usage_reply(0, 0, login=b"-", day=0)
    unused = [usage_reply(0, 0, day=day) for day in (today, today - 1, today - 2)]
    asked = [usage(b"u", day) for day in (today, today - 1, today - 2)]
    with Script(
        [there] + unused + [usage_reply(0, 0, day=today), is_set, is_set], otherwise=no_limit
    ) as first, Script(
        [there] + [usage_reply(2, 0, day=today)] * 2 + [is_set, is_set], otherwise=no_limit
    ) as second:
        came = world.run(*words, "u", *at(first.address, second.address))
    checks.equal(
        "stop at two, by a script: the status, what each is asked before a limit",
        (came[0], first.heard[:-2], second.heard[:-2]),
        (0, [PROBE, *asked, asked[0]], [PROBE] + asked[:1] * 2),
    )
    with Script(
        [there] + [usage_reply(1, 0, day=today)] * 2 + [is_set, is_set], otherwise=no_limit
    ) as first, Script(
        [usage_reply(0, 0, day=today), is_set, is_set], otherwise=no_limit
    ) as second:
        came = world.run(*words, "u", *at(first.address, second.address))
    checks.equal(
        "once one says so the others aren't asked",
        (came[0], first.heard[:-2], second.heard[:-2]),
        (0, [PROBE] + asked[:1] * 2, asked[:1]),
    )
    with Script([SILENCE] * 4) as silent, Server(world, default=9) as server:
        began = time.monotonic()
        came = world.run(*words, "u", *at(silent.address, server.address))
        took = time.monotonic() - began
    checks.equal(
        "stop at two, of which one says nothing: what that one is asked",
        (came[0], silent.heard),
        (1, [PROBE] + asked[:1] * 3),
    )
    checks.holds(
        "how long that takes: a second, and three tries of two",
        7 <= took < 9,
        "from 7 seconds to 9",
        took,
    )
    with Script([RETRY] * 3) as first, Server(world, default=9) as second:
        came = world.run(*words, "v", "--force", *at(first.address, second.address))
    checks.equal(
        "stop at two, of which one doesn't take it",
        (came[0], came[1].count(b"stopped"), came[2].splitlines(True)[-1]),
        (1, 1, not_known(first.address)),
    )
    with Script(
        [RETRY, usage_reply(0, 0, day=today), is_set, is_set], otherwise=no_limit
    ) as first, Server(world, default=9) as second:
        came = world.run(*words, "u", *at(first.address, second.address))
        checks.equal(
            "stop at two, of which one doesn't take the question, used at none",
            (came[0], came[2], first.heard[0], caps(second, b"u", today, today + 1)),
            (0, doesnt_take(first.address), PROBE, [0, 0]),
        )


def begun(world, words, limit=()):
    return subprocess.Popen(
        [*under(limit), world.program, "stop", "--wait", "--host", "admin", "--login", *words],
        stdin=subprocess.DEVNULL,
        stdout=subprocess.PIPE,
        stderr=subprocess.PIPE,
        text=True,
    )


def done_by(process):
    output, errors = process.communicate(timeout=SECONDS)
    return process.returncode, output.encode(), errors


def one_that_comes_back(world, checks):
    """A `stop` that waits stops the login at once where it can, and at a server that is away once
    that answers."""
    wait_past_midnight()
    today = int(time.time()) // 86_400
    day, away = ["--day", str(today)], f"127.0.0.1:{quiet_port()}"

    def stopped(login, before):
        return f"stopped: {login} used 0 on day {today}\nlimit before: {before}\n".encode()

    with Server(world, default=9) as first:
        among = begun(world, ["u", *day, *at(away, first.address)])
        alone = begun(world, ["v", *day, "--force", *at(away)])
        wait_until(lambda: caps(first, b"u", today, today + 1) == [0, 0])
        # (more than one round is over by then)
        time.sleep(7)
        checks.equal("stop --wait while one is away", (among.poll(), alone.poll()), (None, None))
        with Server(world, words=(), listen=away, default=5) as second:
            came = done_by(among), done_by(alone)
            checks.equal(
                "stop --wait at two, once the first of them answers: its limits",
                caps(second, b"u", today, today + 1),
                [0, 0],
            )
    said = unavailable(away)[2]
    checks.equal(
        "stop --wait at two, once the first of them answers",
        came[0],
        (
            0,
            heading(away)
            + heading(first.address)
            + stopped("u", 9)
            + heading(away)
            + stopped("u", 5),
            is_silent(away) + said + undone(away) + is_awaited(away),
        ),
    )
    checks.equal(
        "stop --wait at one alone, once it answers",
        came[1],
        (0, stopped("v", 5), said + is_awaited(away)),
    )


def one_that_stays_away(world, checks):
    """It waits for an hour by the clock."""
    with Server(world, default=9) as first, nobody_there() as away:
        words = ["u", "--day", "1", "--force", *at(away, first.address)]
        process = begun(world, words, clocks.limit(0))
        lines = [process.stderr.readline() for _ in range(4)]
        checks.equal(
            "stop --wait: what it says before it waits",
            "".join(lines),
            unavailable(away)[2] + undone(away) + is_awaited(away),
        )
        clock = clocks.Clock(process.pid)
        clock.pass_to(clock.now() + 3_580)
        time.sleep(7)
        checks.equal("stop --wait, after most of an hour", process.poll(), None)
        clock.pass_to(clock.now() + 20)
        came = done_by(process)
    checks.equal(
        "stop --wait of a server that stays away for an hour",
        came,
        (
            1,
            heading(away)
            + heading(first.address)
            + b"stopped: u used 0 on day 1\nlimit before: 9\n",
            not_known(away),
        ),
    )


def is_set(heard):
    return said(heard, SET)


def one_number_for_all(world, checks):
    """Each server has a ledger of its own, and gets the same request under the same number."""
    limiting = ["limit", "--host", "admin", "--login", "u", "--from", "1", "--cap", "5"]
    with Script([is_set]) as first, Script([is_set]) as second:
        before = clock()
        came = world.run(*limiting, *at(first.address, second.address))
    checks.equal(
        "limit at two that say it is set",
        came,
        (0, heading(first.address) + b"set\n" + heading(second.address) + b"set\n", ""),
    )
    checks.equal("what each heard", second.heard, first.heard)
    checks.holds(
        "its run is the clock's",
        before <= run_of(first.heard[0]) <= clock(),
        f"from {before} on, and not later",
        first.heard,
    )
    with Script([is_set]) as first, Script([is_set]) as second:
        world.run(*limiting, "--run", "7", *at(first.address, second.address))
    checks.equal(
        "limit --run at two",
        (first.heard, second.heard),
        ([limit(1, 1, 5, host=b"admin", run=7)],) * 2,
    )
    with Script([lambda heard: said(heard, b"\x8a"), is_set]) as first, Script([is_set]) as second:
        world.run(*limiting, *at(first.address, second.address))
    runs = [run_of(heard) for heard in first.heard + second.heard]
    checks.equal(
        "a number that the first has already: the runs", [it - runs[0] for it in runs], [0, 1, 0]
    )
    with Script([usage_reply(2, 3), is_set, is_set], otherwise=no_limit) as first, Script(
        [usage_reply(1, 0), is_set, is_set], otherwise=no_limit
    ) as second:
        before = clock()
        world.run(
            "stop",
            *at(first.address, second.address),
            "--host",
            "admin",
            "--login",
            "u",
            "--day",
            "1",
            "--force",
        )
    checks.equal(
        "stop at two: the limits",
        (orders_of(first), orders_of(second)),
        ([(1, 0, 1, 5), (19, 0, 2, 0)], [(1, 0, 1, 1), (19, 0, 2, 0)]),
    )
    checks.equal("stop at two: one run", run_of(first.heard[1]), run_of(second.heard[1]))
    checks.holds(
        "stop at two: its run is the clock's",
        before <= run_of(first.heard[1]) <= clock(),
        f"from {before} on, and not later",
        first.heard,
    )
    with Script([usage_reply(2, 3), is_set, is_set], otherwise=most_limit) as first, Script(
        [usage_reply(1, 0), is_set, is_set], otherwise=most_limit
    ) as second:
        before = clock()
        world.run(
            "resume",
            *at(first.address, second.address),
            "--host",
            "admin",
            "--login",
            "u",
            "--day",
            "1",
            "--cap",
            "4",
        )
    checks.equal(
        "resume at two: the limits",
        (orders_of(first), orders_of(second)),
        ([(1, 0, 1, 9), (19, 0, 2, 4)], [(1, 0, 1, 5), (19, 0, 2, 4)]),
    )
    checks.equal("resume at two: one run", run_of(first.heard[1]), run_of(second.heard[1]))
    checks.holds(
        "resume at two: its run is the clock's",
        before <= run_of(first.heard[1]) <= clock(),
        f"from {before} on, and not later",
        first.heard,
    )
    with Server(world, default=3) as server:
        came = world.run(*limiting, *at(server.address, server.address))
        checks.equal("one server twice", came, (0, (heading(server.address) + b"set\n") * 2, ""))
        checks.equal("its limit", caps(server, b"u", 1), [5])


def in_the_order_given(world, checks):
    order = []

    def answers(name, reply):
        def answer(_heard):
            order.append(name)
            return reply

        return [answer]

    probed = frame(b"\x8b" + text(b"-") + number(0) * 4)
    listed = page_reply([row(b"u", 1, 0, 3)])
    for what, words, reply in [
        ("status", ["status"], probed),
        ("report", ["report", "--day", "1"], listed),
    ]:
        for names in ("abc", "cab"):
            order.clear()
            with Script(answers("a", reply)) as a, Script(answers("b", reply)) as b, Script(
                answers("c", reply)
            ) as c:
                addresses = {"a": a.address, "b": b.address, "c": c.address}
                status, output, errors = world.run(
                    *words, *at(*(addresses[name] for name in names))
                )
            checks.equal(
                f"{what} at {names}: who is asked, and when",
                (status, "".join(order), errors),
                (0, names, ""),
            )
            said_of = [line for line in output.decode().splitlines() if line.startswith("server ")]
            checks.equal(
                f"{what} at {names}: the headings",
                said_of,
                [f"server {addresses[name]}:" for name in names],
            )


def wrong_words(world, checks):
    """A wrong address, wherever it stands, keeps each from being asked."""
    with Script([b""]) as server:
        for addresses in (
            [server.address, "127.0.0.1"],
            ["127.0.0.1", server.address],
            [server.address, "127.0.0.1", "localhost"],
        ):
            for name, more in [
                ("status", []),
                ("report", ["--day", "1"]),
                ("limit", ["--host", "a", "--login", "u", "--from", "1", "--cap", "1"]),
                ("stop", ["--host", "a", "--login", "u", "--day", "1", "--force"]),
                ("resume", ["--host", "a", "--login", "u", "--day", "1", "--cap", "1"]),
            ]:
                checks.equal(
                    f"{name}, {len(addresses)} addresses, one of them wrong",
                    world.run(name, *at(*addresses), *more),
                    bad_address("127.0.0.1", NO_PORT),
                )
        checks.equal("what was sent", server.heard, [])
        came = world.run("status", *at(server.address), "--config", world.new_file(""))
        checks.holds(
            "status of an address and of settings",
            came[0] == 2 and came[2].startswith("error: "),
            "status 2, and a line that begins with `error: `",
            came,
        )
        came = world.run("retire", *at(server.address, server.address), "--host", "a")
        checks.holds(
            "retire at two",
            came[0] == 2 and came[2].startswith("error: "),
            "status 2, and a line that begins with `error: `",
            came,
        )


def notes(world, checks):
    """What is noted of a login is said once, however many servers are asked."""
    noted = "mailquota: note: filter-one-spelling refuses capitals, and lets only alice send\n"
    with Server(world) as first, Server(world) as second:
        for name, more in [
            ("limit", ["--from", "1", "--cap", "1"]),
            ("stop", ["--day", "1", "--force"]),
            ("resume", ["--day", "1", "--cap", "1"]),
            ("report", ["--day", "1"]),
        ]:
            errors = world.run(name, *at(first.address, second.address), "--login", "Alice", *more)[
                2
            ]
            checks.equal(f"{name} at two, of a login with capitals: what is noted", errors, noted)


def a_device_that_is_full(world, checks):
    """What can't be printed is done all the same."""
    with Server(world) as first, Server(world) as second, open("/dev/full", "wb") as device:
        words = [
            *at(first.address, second.address),
            "--host",
            "admin",
            "--login",
            "u",
            "--from",
            "1",
            "--cap",
            "2",
        ]
        status, _, errors = world.run("limit", *words, output=device)
        failed = "mailquota: write failed\n" * 2
        checks.equal(
            "limit at two to a full device",
            (status, errors),
            (1, failed + undone(first.address) + failed + undone(second.address)),
        )
        checks.equal("both have it", (caps(first, b"u", 1), caps(second, b"u", 1)), ([2], [2]))
        status, _, errors = world.run(
            "report", *at(first.address, second.address), "--day", "9", output=device
        )
        failed = "mailquota: write failed\n"
        checks.equal(
            "a report of nothing at two to a full device",
            (status, errors),
            (1, failed + undone(first.address) + failed + undone(second.address)),
        )


def as_many_and_as_long_as_may_be(world, checks):
    """Six servers, one whose address is as long as any, and a host of 64 bytes that asks."""
    with Server(world) as first, Server(world) as second:
        six = [first.address, second.address] * 3
        came = world.run("status", *at(*six))
        checks.equal(
            "status at six",
            came,
            (0, b"".join(heading(it) + f"quota server {it} answers\n".encode() for it in six), ""),
        )
        both, longest = at(first.address, second.address), "mx-1." + "a" * 59
        for name, more, done in [
            ("stop", ["--force"], b"stopped: u used 0 on day 1\nlimit before: 3\n"),
            ("resume", ["--cap", "5"], b"resumed: u may use 5 on day 1\n"),
        ]:
            came = world.run(name, *both, "--host", longest, "--login", "u", "--day", "1", *more)
            checks.equal(
                f"{name} at two, under a host of 64 bytes",
                came,
                (0, b"".join(heading(it.address) + done for it in (first, second)), ""),
            )
    if loopback_of_6() != "::1":
        checks.skip("status of two, of which one has a long address", "there is no IPv6")
        return
    with Server(world) as first, Server(world, host="::1") as second:
        long = f"[0000:0000:0000:0000:0000:0000:0000:0001]:{second.port}"
        came = world.run("status", *at(first.address, long))
        told = (
            heading(first.address)
            + f"quota server {first.address} answers\n".encode()
            + heading(long)
            + f"quota server {second.address} answers\n".encode()
        )
        checks.equal("status of two, of which one has a long address", came, (0, told, ""))
