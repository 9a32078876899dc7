"""`stop` and `resume`, `day`, logins as a report prints them, and numbers of orders that are used:
over the real server, with filters that send, and over a server that answers by a script."""
import threading
import time

import clocks
from cases.filters import LIMIT, PROCEED
from cases.rules import CENTRAL_EUROPE
from cases.zones import WORKED_DAYS
from ends import (
    NO_FILE,
    NO_NUMERIC_ADDRESS,
    NO_PORT,
    SECONDS,
    TO_ESCAPE,
    TOO_LONG,
    Relay,
    Script,
    Server,
    bad_address,
    bad_login,
    fault,
    ledger_settings,
    of_settings,
    shown,
    toml,
    unavailable,
    wait_past_midnight,
    wait_until,
)
from smtpd import Smtpd, clock, result
from wire import (
    BAD,
    RETRY,
    frame,
    full,
    granted,
    identity,
    limit,
    number,
    reserve,
    retire,
    retired,
    settle,
    text,
)

LAST_DAY = 376_200
# what a server says of a limit or a retire, by its frame
SET, OVER, CONFLICT, OLD = b"\x85", b"\x86", b"\x8a", b"\x90"
# how a question after what is used begins
USAGE = b"\x05"
# how many runs after its own an order's number is, each time that the one before is used
AHEAD = [2**times - 1 for times in range(16)]
DAY = 20_780
NOON = DAY * 86_400 + 43_200
MOST = 1_000_000
# the room of a limit of `stop` that was refused so many times before, of which a few are enough
ROOMS = [0, 8, 24, 56, 120, 248]
# why there is no answer where a server closes a connection at once
CUT = "closed before its reply was whole"


def run(world, checks):
    of_the_real_server(world, checks)
    stop_by_script(world, checks)
    room_by_script(world, checks)
    used_numbers(world, checks)
    login_texts(world, checks)
    notes(world, checks)
    bad_words(world, checks)
    today_alone(world, checks)
    logins_that_sent_nothing(world, checks)
    limits_given_back(world, checks)
    later_limits(world, checks)
    later_limits_by_script(world, checks)
    lower_limits(world, checks)
    lower_limits_by_script(world, checks)
    days(world, checks)
    a_device_that_is_full(world, checks)
    loops(world, checks, "limits in a loop", 1, 100)
    loops(world, checks, "limits of two loops at once", 2, 100)
    sessions_that_send(world, checks)


def words_of(address, login, day, host="admin"):
    named = ["--login", login] if isinstance(login, str) else list(login)
    return ["--server", address, "--host", host, *named, "--day", str(day)]


def stop(world, address, login="u", day=1, **more):
    """Stops a login on a day that needn't be today, and also where it sent nothing."""
    return world.run("stop", *words_of(address, login, day), "--force", **more)


def resume(world, address, cap, login="u", day=1, **more):
    return world.run("resume", *words_of(address, login, day), "--cap", str(cap), **more)


def stopped(used, before, login="u", day=1, note="", verb="used", later=None):
    """What `stop` comes to; `later` is the last day on which the login used something, and its
    limit up to then."""
    line = f"limit after: {later[1]} up to day {later[0]}\n" if later else ""
    return (
        0,
        f"stopped: {login} {verb} {used} on day {day}\nlimit before: {before}\n{line}".encode(),
        note,
    )


def stays(done, cap, day, more="; use --all"):
    """What `stop` comes to where a limit from a later day stays in force."""
    return 1, done[1], f"{done[2]}mailquota: a limit of {cap} stays in force on day {day}{more}\n"


def resumed(cap, login="u", day=1, note=""):
    return 0, f"resumed: {login} may use {cap} on day {day}\n".encode(), note


def caps(server, login=b"u", *asked):
    """The limits of a login on these days."""
    shown = b"".join(server.ask(frame(b"\x05" + text(login) + number(day))) for day in asked)
    size = 2 + 1 + 1 + len(login) + 16
    return [
        int.from_bytes(shown[at + size - 4 : at + size], "big") for at in range(0, len(shown), size)
    ]


def of_the_real_server(world, checks):
    with Server(world) as server:
        address = server.address
        checks.equal("stop of a login that never wrote", stop(world, address), stopped(0, 3))
        checks.equal(
            "its limits on that day, the next and the last",
            caps(server, b"u", 0, 1, 2, LAST_DAY),
            [3, 0, 0, 0],
        )
        checks.equal("its next recipient", server.ask(reserve(1)), full(1, 0, 0))
        checks.equal("stop of a stopped login", stop(world, address), stopped(0, 0))
        checks.equal("resume", resume(world, address, 2), resumed(2))
        checks.equal("its limits then", caps(server, b"u", 0, 1, 2, LAST_DAY), [3, 2, 2, 2])
        checks.equal(
            "two recipients, one of them settled, and a third",
            server.ask(reserve(2) + settle(3) + reserve(4, txn=2) + reserve(5, txn=3)),
            granted(2, 1)
            + frame(b"\x83" + identity(3) + number(1))
            + granted(4, 2)
            + full(5, 2, 2),
        )
        checks.equal("stop of a login that used two", stop(world, address), stopped(2, 2))
        checks.equal("its limits after it", caps(server, b"u", 1, 2), [2, 0])
        checks.equal(
            "resume: as many more on that day, and as many on each later one",
            resume(world, address, 5),
            resumed(7),
        )
        checks.equal("its limits after the resume", caps(server, b"u", 1, 2), [7, 5])
        checks.equal(
            "a recipient on the next day", server.ask(reserve(6, txn=9, at=172_800)), granted(6, 1)
        )
        checks.equal(
            "stop where more is used on the next day",
            stop(world, address),
            stopped(2, 7, later=(2, 1)),
        )
        checks.equal(
            "then each limit is set", caps(server, b"u", 0, 1, 2, 3, LAST_DAY), [3, 2, 1, 0, 0]
        )
        checks.equal(
            "it is refused on both days, and after",
            server.ask(
                reserve(7, txn=17) + reserve(8, txn=18, at=172_800) + reserve(9, txn=19, at=259_200)
            ),
            full(7, 2, 2) + full(8, 1, 1) + full(9, 0, 0),
        )
        checks.equal("stop once more", stop(world, address), stopped(2, 2, later=(2, 1)))
        checks.equal(
            "stop from that next day on", stop(world, address, day=2), stopped(1, 1, day=2)
        )
        checks.equal(
            "resume with nothing more", resume(world, address, 0, day=2), resumed(1, day=2)
        )
        checks.equal(
            "resume with the most", resume(world, address, MOST, day=2), resumed(MOST, day=2)
        )
        checks.equal(
            "stop on the last day but one",
            stop(world, address, login="v", day=LAST_DAY - 1),
            stopped(0, 3, "v", LAST_DAY - 1),
        )
        checks.equal(
            "its limits there", caps(server, b"v", LAST_DAY - 2, LAST_DAY - 1, LAST_DAY), [3, 0, 0]
        )
        checks.equal(
            "a limit of a later day",
            world.run(
                "limit",
                "--server",
                address,
                "--host",
                "admin",
                "--login",
                "w",
                "--from",
                "9",
                "--cap",
                "4",
            ),
            (0, b"set\n", ""),
        )
        checks.equal(
            "a stop before that day",
            stop(world, address, login="w"),
            stays(stopped(0, 3, "w"), 4, 9),
        )
        checks.equal(
            "the later limit still governs from its day on", caps(server, b"w", 1, 8, 9), [0, 0, 4]
        )
        checks.equal("the server's log", server.log_lines(), [])
        world.run(
            "retire", "--server", address, "--host", "admin", "--run", str(clock() + 3_600_000)
        )
        checks.equal(
            "stop under a host whose runs are retired",
            stop(world, address),
            fault("run is retired"),
        )


def nothing_sent(day):
    """What `stop` says of a login that used nothing on the day or the two before."""
    return f"nothing sent on day {day} or the two before; check the login, or use --force"


def not_today(day, today):
    """What `stop` comes to on another day than today."""
    return 2, b"", f"mailquota: day {day} is not today, which is day {today}; use --force\n"


def usage_reply(in_settled, in_reserved, login=b"u", day=1, cap=9):
    return frame(
        b"\x8b" + text(login) + number(day) + number(in_settled) + number(in_reserved) + number(cap)
    )


def said(heard, kind, more=b""):
    """A reply to the order in a frame."""
    return frame(kind + heard[3 : 4 + heard[3] + 12] + more)


def is_set(heard):
    return said(heard, SET)


def no_limit(heard):
    """The reply of a server that says of any login and day that nothing is used, and that the limit
    is 0."""
    end = 4 + heard[3]
    return usage_reply(
        0, 0, login=heard[4:end], day=int.from_bytes(heard[end : end + 4], "big"), cap=0
    )


def most_limit(heard):
    """The reply of a server that says of any login and day that nothing is used, and that the limit
    is the most."""
    end = 4 + heard[3]
    return usage_reply(
        0, 0, login=heard[4:end], day=int.from_bytes(heard[end : end + 4], "big"), cap=MOST
    )


def over(used, day=1):
    return lambda heard: said(heard, OVER, number(day) + number(used))


def is_taken(heard):
    return said(heard, CONFLICT)


def run_of(heard):
    """The run of an order's number."""
    place = 4 + heard[3]
    return int.from_bytes(heard[place : place + 8], "big")


def orders_of(script, login=b"u"):
    """The day, cap and place of each limit that a server heard, and how many runs after the first
    its run is."""
    found, first = [], None
    for heard in script.heard[1:]:
        if heard[2:3] == USAGE:
            continue
        first = first or run_of(heard)
        place = 4 + heard[3] + 8
        sequence, day, cap = (
            int.from_bytes(heard[at : at + 4], "big") for at in range(place, place + 12, 4)
        )
        assert heard == limit(sequence, day, cap, login=login, host=b"admin", run=run_of(heard))
        found.append((sequence, run_of(heard) - first, day, cap))
    return found


def stop_by_script(world, checks):
    """What is asked and ordered, in turn; (place, runs after the first, day, cap) of each limit. No
    answer is None."""
    asked = frame(b"\x05" + text(b"u") + number(1))
    for what, script, limits, wanted in [
        (
            "all answered at once",
            [usage_reply(2, 3), is_set, is_set],
            [(1, 0, 1, 5), (19, 0, 2, 0)],
            stopped(5, 9),
        ),
        (
            "more is used meanwhile",
            [usage_reply(2, 3, cap=200), over(6), over(9), is_set, is_set],
            [(1, 0, 1, 5), (2, 0, 1, 14), (3, 0, 1, 33), (19, 0, 2, 0)],
            stopped(33, 200),
        ),
        (
            "199 of 200 used, and one more meanwhile",
            [usage_reply(190, 9, cap=200), over(200), is_set, is_set],
            [(1, 0, 1, 199), (2, 0, 1, 200), (19, 0, 2, 0)],
            stopped(200, 200),
        ),
        (
            "room up to the limit that it had",
            [usage_reply(2, 3), over(6), over(9), is_set, is_set],
            [(1, 0, 1, 5), (2, 0, 1, 9), (3, 0, 1, 9), (19, 0, 2, 0)],
            stopped(9, 9),
        ),
        (
            "all used",
            [usage_reply(9, 0), is_set, is_set],
            [(1, 0, 1, 9), (19, 0, 2, 0)],
            stopped(9, 9),
        ),
        (
            "a greater limit is set meanwhile, and used",
            [usage_reply(2, 3), over(6)] + [over(12)] * 17,
            [(1, 0, 1, 5)] + [(place, 0, 1, 9) for place in range(2, 19)],
            fault("over day 1 used 12"),
        ),
        (
            "more is used on an earlier day, as no server says",
            [usage_reply(2, 3), over(6, day=0)],
            [(1, 0, 1, 5)],
            fault("over day 0 used 6"),
        ),
        (
            "a used number",
            [usage_reply(0, 1), is_taken, is_set, is_taken, is_taken, is_set],
            [(1, 0, 1, 1), (1, 1, 1, 1), (19, 0, 2, 0), (19, 1, 2, 0), (19, 3, 2, 0)],
            stopped(1, 9),
        ),
        (
            "a run that is retired",
            [usage_reply(0, 1), lambda heard: said(heard, OLD)],
            [(1, 0, 1, 1)],
            fault("run is retired"),
        ),
        (
            "the next day's run is retired",
            [usage_reply(0, 1), is_set, lambda heard: said(heard, OLD)],
            [(1, 0, 1, 1), (19, 0, 2, 0)],
            fault("run is retired"),
        ),
        (
            "lost replies",
            [usage_reply(0, 1), b"", RETRY, is_set, BAD, is_set],
            [(1, 0, 1, 1)] * 3 + [(19, 0, 2, 0)] * 2,
            stopped(1, 9),
        ),
        (
            "no answer to the second limit",
            [usage_reply(0, 1), is_set, b"", b"", b""],
            [(1, 0, 1, 1)] + [(19, 0, 2, 0)] * 3,
            None,
        ),
        (
            "no answer to the first limit",
            [usage_reply(0, 1), b"", b"", b""],
            [(1, 0, 1, 1)] * 3,
            None,
        ),
    ]:
        with Script(script, otherwise=no_limit) as server:
            came = stop(world, server.address)
        checks.equal(
            f"stop, {what}",
            (came, server.heard[0]),
            (wanted or unavailable(server.address, CUT), asked),
        )
        checks.equal(f"stop, {what}: the limits", orders_of(server), limits)
    with Script([b""] * 3) as server:
        came = stop(world, server.address)
    checks.equal(
        "stop, no answer to what is used",
        (came, server.heard),
        (unavailable(server.address, CUT), [asked] * 3),
    )
    stop_with_later_use(world, checks)
    with Script([usage_reply(2, 3), over(6), is_set, is_set], otherwise=most_limit) as server:
        came = resume(world, server.address, 50)
    checks.equal(
        "resume where more is used meanwhile",
        (came, orders_of(server)),
        (resumed(64), [(1, 0, 1, 55), (2, 0, 1, 64), (19, 0, 2, 50)]),
    )
    with Script([usage_reply(2, 3), over(60, day=3)]) as server:
        came = resume(world, server.address, 50)
    checks.equal(
        "resume where more is used on a later day",
        (came, orders_of(server)),
        (fault("over day 3 used 60"), [(1, 0, 1, 55)]),
    )


def stop_with_later_use(world, checks):
    """A login used something on later days, below which no limit can be: (place, day, cap) of each
    limit. No answer is None."""

    def used(count, day, cap=50):
        return usage_reply(count, 0, day=day, cap=cap)

    retired_run = lambda heard: said(heard, OLD)
    for what, script, limits, wanted in [
        (
            "on the next day",
            [used(0, 1), is_set, over(1, day=2), used(1, 2), is_set, is_set],
            [(1, 1, 0), (19, 2, 0), (21, 2, 1), (39, 3, 0)],
            stopped(0, 50, later=(2, 1)),
        ),
        (
            "less than on the day itself, on the fourth",
            [used(9, 1), is_set, over(6, day=4), used(0, 2, 9), over(6, day=4), is_set, is_set],
            [(1, 1, 9), (19, 2, 0), (21, 2, 0), (22, 2, 6), (39, 5, 0)],
            stopped(9, 50, later=(4, 6)),
        ),
        (
            "more than on the day itself",
            [
                used(5, 1),
                over(6, day=4),
                is_set,
                over(6, day=4),
                used(0, 2, 6),
                over(6, day=4),
                is_set,
                is_set,
            ],
            [(1, 1, 5), (2, 1, 6), (19, 2, 0), (21, 2, 0), (22, 2, 6), (39, 5, 0)],
            stopped(6, 50, verb="may use", later=(4, 6)),
        ),
        (
            "more on two later days",
            [
                used(5, 1),
                over(6, day=4),
                over(8, day=7),
                is_set,
                over(6, day=4),
                used(3, 2, 8),
                over(6, day=4),
                over(8, day=7),
                is_set,
                is_set,
            ],
            [
                (1, 1, 5),
                (2, 1, 6),
                (3, 1, 8),
                (19, 2, 0),
                (21, 2, 3),
                (22, 2, 6),
                (23, 2, 8),
                (39, 8, 0),
            ],
            stopped(8, 50, verb="may use", later=(7, 8)),
        ),
        (
            "and more meanwhile",
            [
                used(5, 1),
                over(6),
                over(20, day=2),
                is_set,
                over(20, day=2),
                used(20, 2),
                over(21, day=2),
                is_set,
                is_set,
            ],
            [(1, 1, 5), (2, 1, 14), (3, 1, 28), (19, 2, 0), (21, 2, 20), (22, 2, 29), (39, 3, 0)],
            stopped(28, 50, verb="may use", later=(2, 29)),
        ),
        (
            "on the next day, and less on the ninth",
            [
                used(0, 1),
                is_set,
                over(7, day=2),
                used(7, 2),
                is_set,
                over(4, day=9),
                used(0, 3, 7),
                over(4, day=9),
                is_set,
                is_set,
            ],
            [(1, 1, 0), (19, 2, 0), (21, 2, 7), (39, 3, 0), (41, 3, 0), (42, 3, 4), (59, 10, 0)],
            stopped(0, 50, later=(9, 7)),
        ),
        (
            "more than its limit, which stays",
            [
                used(5, 1, 9),
                over(12, day=4),
                over(12, day=4),
                used(0, 2, 9),
                over(12, day=4),
                over(12, day=4),
                used(12, 4),
                is_set,
                is_set,
            ],
            [(1, 1, 5), (19, 2, 0), (21, 2, 0), (39, 4, 0), (41, 4, 12), (59, 5, 0)],
            stopped(9, 9, verb="may use", later=(4, 12)),
        ),
        (
            "no answer to what is used later",
            [used(0, 1), is_set, over(1, day=2), b"", b"", b""],
            [(1, 1, 0), (19, 2, 0)],
            None,
        ),
        (
            "no answer to the limit of the later day",
            [used(0, 1), is_set, over(1, day=2), used(1, 2), b"", b"", b""],
            [(1, 1, 0), (19, 2, 0)] + [(21, 2, 1)] * 3,
            None,
        ),
        (
            "a run that is retired meanwhile",
            [used(0, 1), is_set, over(1, day=2), used(1, 2), is_set, retired_run],
            [(1, 1, 0), (19, 2, 0), (21, 2, 1), (39, 3, 0)],
            fault("run is retired"),
        ),
        (
            "more each time that the later day is asked for",
            [used(0, 1), is_set, over(1, day=2)] + [used(1, 2, 2)] + [over(2, day=2)] * 18,
            [(1, 1, 0), (19, 2, 0), (21, 2, 1)] + [(place, 2, 2) for place in range(22, 39)],
            fault("over day 2 used 2"),
        ),
    ]:
        with Script(script, otherwise=no_limit) as server:
            came = stop(world, server.address)
        found = [(place, day, cap) for place, _, day, cap in orders_of(server)]
        checks.equal(
            f"stop, use on a later day: {what}",
            (came, found),
            (wanted or unavailable(server.address, CUT), limits),
        )
    last = LAST_DAY
    with Script([used(0, last - 1), is_set, over(3, day=last), used(3, last), is_set]) as server:
        came = stop(world, server.address, day=last - 1)
    checks.equal(
        "stop, use on the last day of all",
        (came, orders_of(server)[-1]),
        (stopped(0, 50, day=last - 1, later=(last, 3)), (21, 0, last, 3)),
    )
    for days, wanted in [
        (100, stopped(0, 50, later=(101, 1))),
        (101, fault("over day 102 used 1")),
    ]:
        script = (
            [used(0, 1), is_set]
            + [it for day in range(2, 102) for it in (over(1, day=day), used(1, day), is_set)]
            + [is_set if days == 100 else over(1, day=102)]
        )
        with Script(script, otherwise=no_limit) as server:
            came = stop(world, server.address)
        checks.equal(
            f"stop, use on {days} later days",
            (came, orders_of(server)[-1]),
            (wanted, (2_019, 0, 102, 0)),
        )


def room_by_script(world, checks):
    """After each refusal there is room for 8 recipients, and for twice as many and 8 more each
    time, up to the limit that the login had, which is here the most that a limit may be."""
    room, rooms = 0, []
    for _ in range(18):
        rooms.append(room)
        room = min(room * 2 + 8, MOST)
    for what, used in [("nothing", 0), ("five", 5), ("all but three", MOST - 3)]:
        with Script([usage_reply(used, 0, cap=MOST)] + [over(used)] * 18) as server:
            came = stop(world, server.address)
        wanted = [
            (place, 0, 1, min(used + room, MOST)) for place, room in enumerate(rooms, start=1)
        ]
        checks.equal(
            f"stop gives up after 18 limits: {what} used", came, fault(f"over day 1 used {used}")
        )
        checks.equal(f"the 18 limits: {what} used", orders_of(server), wanted)
    checks.equal("the room of the last", rooms[-1], MOST)


def used_numbers(world, checks):
    """Without `--run` a limit tries the next of 16 numbers where one is used, and with it none; a
    retire never does."""
    limiting = ["limit", "--host", "admin", "--login", "u", "--from", "1", "--cap", "5"]
    retiring = ["retire", "--host", "admin"]

    def ordered(script, words):
        """What an order comes to over a server that answers by a script, and the runs under which
        it was sent."""
        with Script(script) as server:
            came = world.run(*words, "--server", server.address)
        return came, [run_of(heard) for heard in server.heard]

    def ahead(runs):
        return [run - runs[0] for run in runs]

    for taken in (0, 1, 2, 15):
        came, runs = ordered([is_taken] * taken + [is_set], limiting)
        checks.equal(
            f"limit, {taken} numbers used: what it prints, and the runs",
            (came, ahead(runs)),
            ((0, b"set\n", ""), AHEAD[: taken + 1]),
        )
    came, runs = ordered([is_taken] * 16, limiting)
    checks.equal(
        "limit, all 16 numbers used",
        (came, ahead(runs)),
        (fault("number used with another limit"), AHEAD),
    )
    checks.equal(
        "limit --run, a used number",
        ordered([is_taken], [*limiting, "--run", "7"]),
        (fault("number used with another limit"), [7]),
    )
    refused = fault("number used with another request")
    before = clock()
    came, runs = ordered([is_taken], retiring)
    checks.equal("retire, a used number: sent once", (came, len(runs)), (refused, 1))
    checks.holds(
        "retire, a used number: its run is the clock's",
        before <= runs[0] <= clock(),
        f"from {before} on, and not later",
        runs,
    )
    checks.equal(
        "retire --run, a used number",
        ordered([is_taken], [*retiring, "--run", "7"]),
        (refused, [7]),
    )
    came, runs = ordered([lambda heard: said(heard, b"\x8f")], retiring)
    checks.equal("retire, a number that isn't used", (came, len(runs)), ((0, b"retired\n", ""), 1))
    with Server(world) as server:
        numbers = range(clock(), clock() + 200)
        server.ask(
            b"".join(limit(1, 1, 2, login=b"other", host=b"admin", run=run) for run in numbers)
        )
        came = world.run(
            "limit",
            "--server",
            server.address,
            "--host",
            "admin",
            "--login",
            "u",
            "--from",
            "1",
            "--cap",
            "5",
        )
        checks.equal(
            "limit where the clock's next 200 numbers are used",
            (came, caps(server, b"u", 1)),
            ((0, b"set\n", ""), [5]),
        )


def vis(login):
    """A login as smtpd reports it, by vis(3): VIS_WHITE encodes space, tab and line feed, VIS_SAFE
    leaves bell, backspace and carriage return."""
    text = ""
    for byte in login:
        if byte == 0x5C:
            text += "\\\\"
        elif 0x21 <= byte <= 0x7E or byte in (7, 8, 13):
            text += chr(byte)
        elif byte in (0x20, 0xA0):
            text += f"\\{byte:03o}"
        else:
            low = byte & 0x7F
            text += (
                "\\"
                + ("M" if byte & 0x80 else "")
                + ("^?" if low == 0x7F else f"^{chr(low + 0x40)}" if low < 0x20 else f"-{chr(low)}")
            )
    return text.encode()


def note_of(login):
    """What is noted of a login that smtpd doesn't report so."""
    if any(byte not in (7, 8, 13) and not 0x21 <= byte <= 0x7E for byte in login):
        return (
            "mailquota: note: smtpd reports this login, in the form of --login-text, as"
            f" {shown(vis(login))}\n"
        )
    if any(0x41 <= byte <= 0x5A for byte in login):
        return (
            "mailquota: note: filter-one-spelling refuses capitals, and lets only"
            f" {shown(login.lower())} send\n"
        )
    return ""


def notes(world, checks):
    """What smtpd reports of a login that it encodes; the first four were recorded, or stand in
    vis(3)."""
    for login, reported in [
        (b"\xff\xfe", rb"\M^?\M-~"),
        ("j\u00fcrgen".encode(), rb"j\M-C\M-<rgen"),
        (b"alice ", rb"alice\040"),
        (b"a\tb", rb"a\^Ib"),
        (b"\x7f", rb"\^?"),
        (b"\xa0\\", rb"\240\\"),
        (b"\x80\x9f\xdc", rb"\M^@\M^_\M-\ "[:-1]),
        (b"\x01\x1f", rb"\^A\^_"),
        *(
            (bytes(range(low, high)), None)
            for low, high in [(1, 33), (127, 180), (180, 232), (232, 256)]
        ),
    ]:
        reported = vis(login) if reported is None else reported
        checks.equal(f"vis of {shown(login)[:40]}", vis(login), reported)
        with Server(world) as server:
            words = ["--server", server.address, "--host", "admin", "--login-text", shown(login)]
            note = (
                "mailquota: note: smtpd reports this login, in the form of --login-text, as"
                f" {shown(reported)}\n"
            )
            came = world.run("limit", *words, "--from", "1", "--cap", "7")
            checks.equal(
                f"limit of {shown(login)[:40]}",
                (came, caps(server, login, 1)),
                ((0, b"set\n", note), [7]),
            )
            words[-1] = shown(reported)
            came = world.run("limit", *words, "--from", "1", "--cap", "8")
            checks.equal(
                f"limit of what is noted of {shown(login)[:40]}",
                (came, caps(server, reported, 1)),
                ((0, b"set\n", note_of(reported)), [8]),
            )
    with Server(world) as server:
        for login, lowered in [("Alice", "alice"), ("A\\x", "a\\x5cx"), ("ZaZ@B.org", "zaz@b.org")]:
            note = (
                "mailquota: note: filter-one-spelling refuses capitals, and lets only"
                f" {lowered} send\n"
            )
            checks.equal(
                f"stop of {login}",
                stop(world, server.address, login),
                stopped(0, 3, shown(login.encode()), note=note),
            )
        for login in ("alice", "a@[`{", "\\M-~"[1:] + "m", "a\\b", "0_z-9"):
            wanted = note_of(login.encode())
            checks.equal(
                f"resume of {login}",
                resume(world, server.address, 2, login),
                resumed(2, shown(login.encode()), note=wanted),
            )


def login_texts(world, checks):
    """What a report prints can be given as it is, also bytes that are no UTF-8."""
    logins = [
        b"alice",
        b"a b\\",
        b"\xff\xfe",
        b"\x1b[2J",
        b"\xc3\xa9",
        b"\\x41",
        b"~",
        b"\x7f",
        b"a" * 255,
        b"\x00" * 255,
    ]
    with Server(world) as server:
        server.ask(
            b"".join(reserve(n, txn=n, login=login) for n, login in enumerate(logins, start=1))
        )
        lines = (
            world.run("report", "--server", server.address, "--day", "1")[1].decode().splitlines()
        )
        texts = [line.split(" ")[-1] for line in lines]
        checks.equal("a report of all", len(texts), len(logins))
        for line, printed, login in zip(lines, texts, sorted(logins)):
            words = ["--login-text", printed]
            what = printed if len(printed) < 20 else f"{printed[:8]}.. of {len(login)} bytes"
            came = world.run("report", "--server", server.address, "--day", "1", *words)
            wanted = 0, f"{line}\n".encode(), note_of(login)
            checks.equal(f"report --login-text {what}", came, wanted)
            came = world.run(
                "limit",
                "--server",
                server.address,
                "--host",
                "admin",
                *words,
                "--from",
                "1",
                "--cap",
                "7",
            )
            checks.equal(
                f"limit --login-text {what}",
                (came, caps(server, login, 1)),
                ((0, b"set\n", note_of(login)), [7]),
            )
            checks.equal(
                f"stop --login-text {what}",
                (stop(world, server.address, words), caps(server, login, 1, 2)),
                (stopped(1, 7, printed, note=note_of(login)), [1, 0]),
            )
            checks.equal(
                f"resume --login-text {what}",
                (resume(world, server.address, 4, words), caps(server, login, 1, 2)),
                (resumed(5, printed, note=note_of(login)), [5, 4]),
            )
        checks.equal(
            "stop --login prints it as a report does",
            stop(world, server.address, "a b\\"),
            stopped(1, 5, r"a\x20b\x5c", note=note_of(b"a b\\")),
        )


def bad_words(world, checks):
    """A bad host, login or address, in this order, before anything is sent; and texts that are no
    printed login."""
    bad_host = (2, b"", "mailquota: bad host\n")
    for name, more in [("stop", []), ("resume", ["--cap", "1"])]:
        for server, host, login, wanted in [
            ("nowhere", "a_b", "", bad_host),
            ("127.0.0.1:1", "", "u", bad_host),
            ("127.0.0.1:1", "a" * 65, "u", bad_host),
            ("nowhere", "a", "", bad_login("")),
            ("127.0.0.1:1", "a", "u" * 256, bad_login("u" * 256)),
            ("nowhere", "a", "u", bad_address("nowhere", NO_PORT)),
            ("127.0.0.1", "a", "u", bad_address("127.0.0.1", NO_PORT)),
            (
                "localhost:7025",
                "a" * 64,
                "u" * 255,
                bad_address("localhost:7025", NO_NUMERIC_ADDRESS),
            ),
        ]:
            called = (
                f"{name} --server {server} --host ({len(host)} bytes) --login ({len(login)} bytes)"
            )
            checks.equal(
                called, world.run(name, *words_of(server, login, 1, host=host), *more), wanted
            )
    texts = [
        "",
        "a b",
        "\\",
        "\\x",
        "\\x4",
        "\\x41",
        "\\x2f",
        "\\xC3",
        "\\xFF",
        "\\x5C",
        "\\xfg",
        "a\\",
        "\u00e9",
        "\\\\",
        "\\x00" * 256,
        "a" * 256,
    ]
    for given in texts:
        called = given if len(given) < 20 else f"({len(given)} bytes)"
        why = TO_ESCAPE if 0 < len(given.encode()) < 256 else TOO_LONG
        wanted = bad_login(shown(given.encode()), why)
        for name, more in [
            ("stop", ["--day", "1"]),
            ("resume", ["--day", "1", "--cap", "1"]),
            ("limit", ["--from", "1", "--cap", "1"]),
        ]:
            came = world.run(
                name, "--server", "127.0.0.1:1", "--host", "a", f"--login-text={given}", *more
            )
            checks.equal(f"{name} --login-text={called}", came, wanted)
        came = world.run("report", "--server", "127.0.0.1:1", "--day", "1", f"--login-text={given}")
        checks.equal(f"report --login-text={called}", came, wanted)


def today_alone(world, checks):
    """`stop` takes today alone, unless it is forced: by the settings' zone, or without them a day
    that is today in some zone."""
    # (the midnights of all offsets below, in the order in which they come)
    for minutes in (-1_439, 0, 1_439, 720):
        wait_past_midnight(minutes)
    now = int(time.time())
    today = now // 86_400
    # (by the server's clock none of these days is to come)
    with Server(world, default=9, limit=clocks.late()) as server:
        words = ["--server", server.address, "--host", "admin", "--login", "u"]
        server.ask(
            b"".join(
                reserve(n, txn=n, at=day * 86_400)
                for n, day in enumerate(range(today - 3, today + 4), start=1)
            )
        )

        for day in (0, 1, today - 2, today + 2, LAST_DAY - 1):
            checks.equal(
                f"stop, day {day - today} from UTC's",
                world.run("stop", *words, "--day", str(day)),
                not_today(day, today),
            )
        checks.equal(
            "the limits are as before", caps(server, b"u", today - 2, today, today + 2), [9, 9, 9]
        )
        for minutes in (0, 720, -720, 1_439, -1_439):
            config = ledger_settings(world, f"{world.folder}/nowhere/ledger", offset=minutes)
            theirs = (now + 60 * minutes) // 86_400
            for day in range(today - 2, today + 3):
                if day != theirs:
                    checks.equal(
                        f"stop, day {day - today} from UTC's, {minutes} minutes east",
                        world.run("stop", *words, "--config", config, "--day", str(day)),
                        not_today(day, theirs),
                    )
        rule = ledger_settings(world, "memory", offset=None, rule="<+12>-12")
        theirs = (now + 43_200) // 86_400
        checks.equal(
            "stop by a rule, on the day before",
            world.run("stop", *words, "--config", rule, "--day", str(theirs - 1)),
            not_today(theirs - 1, theirs),
        )
        checks.equal(
            "the limits are still as before",
            caps(server, b"u", today - 2, today, today + 2),
            [9, 9, 9],
        )
    for what, more, day in [
        ("a day before UTC's", ["--day", str(today - 1)], today - 1),
        ("UTC's day", ["--day", str(today)], today),
        ("a day after UTC's", ["--day", str(today + 1)], today + 1),
        ("another day by force", ["--day", str(today - 3), "--force"], today - 3),
        (
            "another day by force and by settings",
            ["--day", str(today + 3), "--config", rule, "--force"],
            today + 3,
        ),
        ("today by a rule", ["--config", rule], theirs),
        ("today by a rule, and given", ["--config", rule, "--day", str(theirs)], theirs),
        ("today by a rule and force", ["--config", rule, "--force"], theirs),
    ]:
        with Script([usage_reply(1, 0, day=day), is_set, is_set], otherwise=no_limit) as server:
            came = world.run(
                "stop", "--server", server.address, "--host", "admin", "--login", "u", *more
            )
        checks.equal(
            f"stop, {what}",
            (came, orders_of(server)),
            (stopped(1, 9, day=day), [(1, 0, day, 1), (19, 0, day + 1, 0)]),
        )
    nothing = f"{world.folder}/nothing"
    came = world.run(
        "stop", "--server", "127.0.0.1:1", "--host", "admin", "--login", "u", "--config", nothing
    )
    checks.equal(
        "stop by settings that aren't there",
        came,
        fault("settings can't be read", log=of_settings(nothing, NO_FILE)),
    )
    came = world.run("stop", "--server", "127.0.0.1:1", "--host", "admin", "--login", "u")
    checks.equal(
        "stop with neither a day nor settings",
        came,
        (
            2,
            b"",
            (
                "mailquota: which day is today isn't known; use --day or --from with a date, or copy"
                " the server's settings, which have the zone, to /etc/mailquota/server.toml\n"
            ),
        ),
    )


def logins_that_sent_nothing(world, checks):
    """A login that used nothing on the day and the two before isn't stopped."""
    wait_past_midnight()
    today = int(time.time()) // 86_400

    def idle(day):
        return fault(nothing_sent(day))

    with Server(world, default=9) as server:
        words = ["--server", server.address, "--host", "admin", "--day", str(today), "--login"]
        for back in range(4):
            server.ask(
                reserve(back + 1, txn=back + 1, login=b"u%d" % back, at=(today - back) * 86_400)
            )
        for login, wanted in [
            ("u0", stopped(1, 9, "u0", today)),
            ("u1", stopped(0, 9, "u1", today)),
            ("u2", stopped(0, 9, "u2", today)),
            ("u3", idle(today)),
            ("other", idle(today)),
        ]:
            checks.equal(f"stop of {login}", world.run("stop", *words, login), wanted)
            checks.equal(
                f"limits of {login}",
                caps(server, login.encode(), today, today + 1),
                [9, 9] if wanted[0] else [wanted[1] == stopped(1, 9, "u0", today)[1] and 1 or 0, 0],
            )
        server.ask(
            reserve(9, txn=9, login=b"back", at=today * 86_400)
            + frame(b"\x03" + identity(10) + number(9) + number(today * 86_400, 8) + text(b"back"))
        )
        checks.equal(
            "stop of a login whose message was dropped",
            world.run("stop", *words, "back"),
            idle(today),
        )
        checks.equal(
            "the same by force",
            world.run("stop", *words, "other", "--force"),
            stopped(0, 9, "other", today),
        )
    nothing = [usage_reply(0, 0, day=day) for day in (today, today, today - 1, today - 2)]
    asked = [
        frame(b"\x05" + text(b"u") + number(day)) for day in (today, today, today - 1, today - 2)
    ]
    with Script(nothing) as server:
        came = stop_unforced(world, server.address, today)
    checks.equal(
        "what is asked of a login that sent nothing", (came, server.heard), (idle(today), asked)
    )
    with Script(
        nothing[:3] + [usage_reply(0, 2, day=today - 2), is_set, is_set], otherwise=no_limit
    ) as server:
        came = stop_unforced(world, server.address, today)
    checks.equal(
        "of one that sent two days ago",
        (came, server.heard[:4], orders_of_last(server, 2)),
        (stopped(0, 9, day=today), asked, [(1, today, 0), (19, today + 1, 0)]),
    )
    with Script(nothing[:2] + [b""] * 3) as server:
        came = stop_unforced(world, server.address, today)
    checks.equal(
        "no answer about the day before",
        (came, server.heard),
        (unavailable(server.address, CUT), asked[:2] + [asked[2]] * 3),
    )
    for day in (0, 1):
        with Script([usage_reply(0, 0, day=it) for it in (day, *range(day, -1, -1))]) as server:
            came = world.run("stop", *words_of(server.address, "u", day))
        # (UTC's day, since no zone is given)
        wanted = not_today(day, today)
        checks.equal(
            f"day {day} isn't today, and so nothing is asked", (came, server.heard), (wanted, [])
        )


def stop_unforced(world, address, day):
    return world.run("stop", *words_of(address, "u", day))


def orders_of_last(script, count):
    """The place, day and cap of the last limits that a server heard."""
    found = []
    for heard in script.heard[-count:]:
        place = 4 + heard[3] + 8
        found.append(
            tuple(int.from_bytes(heard[at : at + 4], "big") for at in range(place, place + 12, 4))
        )
    return found


def limits_given_back(world, checks):
    """`resume` without a number: the limit of the day before the last one with any, where the login
    is stopped."""

    def given_back(server, login, day):
        return world.run("resume", *words_of(server.address, login, day))

    def restored(cap, limit_after, login, day, begin="resumed"):
        return (
            0,
            f"{begin}: {login} may use {cap} on day {day}\nlimit after: {limit_after}\n".encode(),
            "",
        )

    with Server(world, default=10) as server:
        for used, day in [(used, day) for used in (5, 0) for day in (110, 111, 112, 150)]:
            login = f"used{used}-{day}"
            sender = {"login": login.encode(), "host": login.encode()}
            server.ask(limit(1, 100, 40, **sender) + limit(2, 3, 12, **sender))
            if used:
                server.ask(reserve(3, count=used, at=110 * 86_400, **sender))
            checks.equal(
                f"stop of {login}",
                stop(world, server.address, login, 110),
                stopped(used, 40, login, 110),
            )
            checks.equal(
                "its limits", caps(server, login.encode(), 109, 110, 111, 151), [40, used, 0, 0]
            )
            checks.equal(
                f"its limit given back from day {day}",
                given_back(server, login, day),
                restored(40, 40, login, day),
            )
            wanted = [40, 40 if day == 110 else used, 40, 40, 40]
            checks.equal(
                "its limits then",
                caps(server, login.encode(), 109, 110, day, day + 1, LAST_DAY),
                wanted,
            )
            checks.equal(
                "given back again",
                given_back(server, login, day),
                restored(40, 40, login, day, "not stopped"),
            )
            checks.equal(
                "its limits are as before",
                caps(server, login.encode(), 109, 110, day, day + 1, LAST_DAY),
                wanted,
            )
        checks.equal(
            "given back where it was never stopped",
            given_back(server, "never", 7),
            restored(10, 10, "never", 7, "not stopped"),
        )
        # (as where a stop set the day's limit alone, or a limit begins on the next day)
        server.ask(limit(1, 8, 3, login=b"half", host=b"half"))
        checks.equal(
            "given back where the limit of the day alone is lower",
            given_back(server, "half", 7),
            restored(10, 3, "half", 7, "not stopped"),
        )
        server.ask(limit(2, 8, 30, login=b"half", host=b"half"))
        checks.equal(
            "where that of the next day is higher",
            given_back(server, "half", 7),
            fault("not stopped after day 7, whose own limit is lower; use --cap"),
        )
        checks.equal("nothing is set there", caps(server, b"half", 6, 7, 8), [10, 10, 30])
        checks.equal(
            "a stop on the first day",
            stop(world, server.address, "first", 0),
            stopped(0, 10, "first", 0),
        )
        checks.equal(
            "there is no day before",
            given_back(server, "first", 0),
            fault("no earlier limit found; use --cap"),
        )
        checks.equal(
            "nor from a later day",
            given_back(server, "first", 5),
            fault("no earlier limit found; use --cap"),
        )
        server.ask(reserve(1, login=b"long", count=2, at=1_000 * 86_400, host=b"long"))
        checks.equal(
            "a stop long ago",
            stop(world, server.address, "long", 1_000),
            stopped(2, 10, "long", 1_000),
        )
        checks.equal(
            "given back 400 days later",
            given_back(server, "long", 1_400),
            fault("no earlier limit found; use --cap"),
        )
        checks.equal(
            "nothing is set",
            caps(server, b"long", 999, 1_000, 1_001, 1_400, 1_401),
            [10, 2, 0, 0, 0],
        )
        checks.equal(
            "given back 399 days later",
            given_back(server, "long", 1_399),
            restored(10, 10, "long", 1_399),
        )
    day = 20
    for what, replies, wanted, asked in [
        ("no answer about the next day", [b""] * 3, None, [21] * 3),
        (
            "no answer about the day of a login that isn't stopped",
            [usage_reply(0, 0, day=21, cap=5)] + [b""] * 3,
            None,
            [21] + [20] * 3,
        ),
        (
            "no answer about the day",
            [usage_reply(0, 0, day=21, cap=0)] + [b""] * 3,
            None,
            [21] + [20] * 3,
        ),
        (
            "no answer about the day before",
            [usage_reply(0, 0, day=21, cap=0), usage_reply(4, 0, day=20, cap=4)] + [b""] * 3,
            None,
            [21, 20] + [19] * 3,
        ),
        (
            "a limit of 0 on the day before",
            [
                usage_reply(0, 0, day=21, cap=0),
                usage_reply(4, 0, day=20, cap=4),
                usage_reply(0, 0, day=19, cap=0),
            ],
            fault("no earlier limit found; use --cap"),
            [21, 20, 19],
        ),
    ]:
        with Script(replies) as server:
            came = world.run("resume", *words_of(server.address, "u", day))
        checks.equal(
            f"resume without a number, {what}",
            (came, server.heard),
            (
                wanted or unavailable(server.address, CUT),
                [frame(b"\x05" + text(b"u") + number(it)) for it in asked],
            ),
        )
    replies = [
        usage_reply(0, 0, day=21, cap=0),
        usage_reply(4, 3, day=20, cap=7),
        usage_reply(0, 0, day=19, cap=30),
        usage_reply(4, 3, day=20, cap=7),
    ]
    with Script(replies + [over(8, day=20), is_set, is_set], otherwise=most_limit) as server:
        came = world.run("resume", *words_of(server.address, "u", day))
    checks.equal(
        "resume without a number, more is used meanwhile",
        (came, orders_of_last(server, 3)),
        (restored(30, 30, "u", 20), [(1, 20, 30), (2, 20, 30), (19, 21, 30)]),
    )


def later_limits(world, checks):
    """`stop` says which limit from a later day stays in force, and with `--all` it sets each of
    them to 0, of up to 400 days."""
    with Server(world, default=9) as server:
        address = server.address

        def limits(login, *found):
            numbers = enumerate(found, start=1)
            server.ask(
                b"".join(
                    limit(number, day, cap, login=login.encode(), host=login.encode())
                    for number, (day, cap) in numbers
                )
            )

        def stop_all(login, day=1):
            return world.run("stop", *words_of(address, login, day), "--force", "--all")

        limits("u", (5, 4), (8, 0), (12, 7))
        checks.equal(
            "stop where limits are set from later days",
            stop(world, address),
            stays(stopped(0, 9), 4, 5),
        )
        checks.equal(
            "they are as before",
            caps(server, b"u", 1, 2, 4, 5, 7, 8, 11, 12, LAST_DAY),
            [0, 0, 0, 4, 4, 0, 0, 7, 7],
        )
        checks.equal("stop --all", stop_all("u"), stopped(0, 0))
        checks.equal(
            "all of them are 0", caps(server, b"u", 1, 2, 4, 5, 7, 8, 11, 12, LAST_DAY), [0] * 9
        )
        checks.equal("stop once more", stop(world, address), stopped(0, 0))
        for day, is_found in [
            (3, True),
            (4, True),
            (401, True),
            (402, False),
            (1_000, False),
            (LAST_DAY, False),
        ]:
            login = f"from{day}"
            limits(login, (day, 2))
            checks.equal(
                f"stop on day 1, a limit from day {day}",
                stop(world, address, login),
                stays(stopped(0, 9, login), 2, day if is_found else LAST_DAY),
            )
            wanted = (
                stopped(0, 0, login)
                if is_found
                else stays(stopped(0, 0, login), 2, LAST_DAY, ", and from which day on isn't found")
            )
            checks.equal(f"stop --all on day 1, a limit from day {day}", stop_all(login), wanted)
            checks.equal(
                f"the limits, one of which was set from day {day}",
                caps(server, login.encode(), 1, 2, day, LAST_DAY),
                [0, 0] + [0 if is_found else 2] * 2,
            )
        limits("window", (402, 2), (500, 0))
        checks.equal(
            "stop where a limit of 0 follows after more than 400 days",
            stop(world, address, "window"),
            stopped(0, 9, "window"),
        )
        for day in (LAST_DAY - 1, LAST_DAY - 2, LAST_DAY - 3):
            limits(f"last{day}", (LAST_DAY, 3))
            wanted = stopped(0, 9, f"last{day}", day)
            checks.equal(
                f"stop on day {day}, a limit from the last day",
                stop(world, address, f"last{day}", day),
                wanted if day == LAST_DAY - 1 else stays(wanted, 3, LAST_DAY),
            )
        server.ask(
            limit(1, 6, 5, login=b"used", host=b"used")
            + reserve(2, login=b"used", host=b"used", count=2, at=7 * 86_400)
        )
        wanted = stopped(2, 9, "used", verb="may use", later=(7, 2))
        checks.equal(
            "stop where more is used on a later day",
            stop(world, address, "used"),
            stays(wanted, 5, 6),
        )
        checks.equal(
            "stop --all then", stop_all("used"), stopped(2, 2, "used", verb="may use", later=(7, 2))
        )
        checks.equal(
            "its limits up to that day, and after",
            caps(server, b"used", 0, 1, 2, 5, 6, 7, 8, LAST_DAY),
            [9, 2, 2, 2, 2, 2, 0, 0],
        )


def later_limits_by_script(world, checks):
    """What is asked after both limits are set, a day at a time, and which limits are set under
    which numbers."""
    begin = [usage_reply(0, 0), is_set, is_set]
    asked = [frame(b"\x05" + text(b"u") + number(day)) for day in [*range(3, 402), LAST_DAY]]
    with Script(begin, otherwise=no_limit) as server:
        came = stop(world, server.address)
    checks.equal("what is asked of later days", (came, server.heard_later), (stopped(0, 9), asked))
    with Script(
        [usage_reply(0, 0, day=LAST_DAY - 1), is_set, is_set], otherwise=no_limit
    ) as server:
        came = world.run("stop", *words_of(server.address, "u", LAST_DAY - 1), "--force")
    checks.equal(
        "what is asked of days after the last one",
        (came, server.heard_later),
        (stopped(0, 9, day=LAST_DAY - 1), []),
    )
    limited = [usage_reply(0, 0, day=3, cap=0), usage_reply(0, 0, day=4, cap=6)]
    with Script(begin + limited + [b""] * 3) as server:
        came = stop(world, server.address)
    checks.equal(
        "a limit from a later day: nothing more is asked",
        (came, server.heard[3:]),
        (stays(stopped(0, 9), 6, 4), asked[:2]),
    )
    with Script(begin + limited + [is_set], otherwise=no_limit) as server:
        came = world.run("stop", *words_of(server.address, "u", 1), "--force", "--all")
    wanted = stopped(0, 9), [(19, 2, 0), (2_021, 4, 0)], asked[2:]
    checks.equal(
        "stop --all: the limits, and what is asked then",
        (came, [orders_of_last(server, 4)[0], orders_of_last(server, 1)[0]], server.heard_later),
        wanted,
    )
    for what, script, wanted in [
        ("no answer about a later day", [b""] * 3, None),
        (
            "no answer about the second later day",
            [usage_reply(0, 0, day=3, cap=0)] + [b""] * 3,
            None,
        ),
        ("no answer to a later limit", limited + [b""] * 3, None),
        ("more is used on a later day", limited + [over(3, day=5)], "over day 5 used 3"),
        ("a retired run", limited + [lambda heard: said(heard, OLD)], "run is retired"),
    ]:
        with Script(begin + script) as server:
            came = world.run("stop", *words_of(server.address, "u", 1), "--force", "--all")
        told = fault(wanted)[2] if wanted else unavailable(server.address, CUT)[2]
        checks.equal(f"stop --all, {what}", came, (1, stopped(0, 9)[1], told))


def stays_lower(done, *notes):
    """What `resume` comes to that notes this of limits from later days."""
    return *done[:2], done[2] + "".join(f"mailquota: note: {it}\n" for it in notes)


def zero_from(day):
    return f"a limit of 0 stays in force from day {day} on; use resume --day {day}"


def lower_limits(world, checks):
    """`resume` notes from which day on a lower limit stays in force, and what it says to type then
    gives the login its limit there too."""
    with Server(world, default=9) as server:
        address = server.address

        def restore(login, day):
            return world.run("resume", *words_of(address, login, day))

        def back(cap, login, day):
            line = f"resumed: {login} may use {cap} on day {day}\nlimit after: {cap}\n"
            return 0, line.encode(), ""

        for login, cap in (("all", None), ("more", 4)):
            name = login.encode()
            server.ask(
                limit(1, 105, 40, login=name, host=name) + limit(2, 108, 50, login=name, host=name)
            )
            world.run("stop", *words_of(address, login, 101), "--force", "--all")
            checks.equal(
                f"{login}: stopped by --all", caps(server, name, 101, 102, 105, 108), [0] * 4
            )
            for day, noted in ((101, 105), (105, 108), (108, None)):
                came = resume(world, address, cap, login, day) if cap else restore(login, day)
                wanted = resumed(cap, login, day) if cap else back(9, login, day)
                checks.equal(
                    f"{login}: resume from day {day} on",
                    came,
                    stays_lower(wanted, zero_from(noted)) if noted else wanted,
                )
            checks.equal(
                f"{login}: its limits then",
                caps(server, name, 101, 104, 105, 107, 108, LAST_DAY),
                [cap or 9] * 6,
            )
        stop(world, address, "twice", 101)
        stop(world, address, "twice", 104)
        checks.equal(
            "resume before a second stop",
            restore("twice", 101),
            stays_lower(back(9, "twice", 101), zero_from(104)),
        )
        checks.equal("resume from that one on", restore("twice", 104), back(9, "twice", 104))
        checks.equal(
            "its limits then", caps(server, b"twice", 101, 103, 104, 105, LAST_DAY), [9] * 5
        )
        for day, cap, note in [
            (401, 3, "a limit of 3 stays in force from day 401 on; use limit --from 401"),
            (
                402,
                3,
                f"a limit of 3 stays in force on day {LAST_DAY}, and from which day on isn't found",
            ),
            (401, 4, None),
            (401, 5, None),
        ]:
            login = f"from{day}-{cap}"
            server.ask(limit(1, day, cap, login=login.encode(), host=login.encode()))
            wanted = resumed(4, login)
            checks.equal(
                f"resume with 4, and a limit of {cap} from day {day} on",
                resume(world, address, 4, login),
                stays_lower(wanted, note) if note else wanted,
            )
        server.ask(limit(1, 5, 2, login=b"not", host=b"not"))
        checks.equal(
            "resume of a login that isn't stopped, with a lower limit from a later day",
            restore("not", 1),
            (
                0,
                b"not stopped: not may use 9 on day 1\nlimit after: 9\n",
                "mailquota: note: a limit of 2 stays in force from day 5 on; use limit --from 5\n",
            ),
        )


def lower_limits_by_script(world, checks):
    """What is asked after both limits are set, a day at a time."""
    asked = [frame(b"\x05" + text(b"u") + number(day)) for day in [*range(3, 402), LAST_DAY]]
    with Script([usage_reply(0, 0), is_set, is_set], otherwise=most_limit) as server:
        came = resume(world, server.address, 5)
    checks.equal(
        "resume: what is asked of later days", (came, server.heard_later), (resumed(5), asked)
    )
    with Script([usage_reply(0, 0), is_set, is_set, usage_reply(0, 0, day=3, cap=4)]) as server:
        came = resume(world, server.address, 5)
    checks.equal(
        "resume, a lower limit: nothing more is asked",
        (came, server.heard[3:]),
        (
            stays_lower(
                resumed(5), "a limit of 4 stays in force from day 3 on; use limit --from 3"
            ),
            asked[:1],
        ),
    )
    with Script([usage_reply(0, 0), is_set, is_set] + [b""] * 3) as server:
        status, output, errors = resume(world, server.address, 5)
    checks.equal(
        "resume, no answer about a later day",
        (status, output, errors.splitlines()[-1]),
        (
            *resumed(5)[:2],
            "mailquota: note: whether a lower limit of a later day stays in force isn't known:"
            " quota service unavailable",
        ),
    )
    with Script([usage_reply(2, 3), over(60, day=3)]) as server:
        resume(world, server.address, 50)
    checks.equal("resume that fails: nothing more is asked", len(server.heard), 2)


def days(world, checks):
    """The day number of a moment, by an offset and by a rule, whether or not there is a ledger."""

    def day(config, *words):
        return world.run("day", "--config", config, *words)

    def said_of(number_of):
        return 0, f"{number_of}\n".encode(), ""

    files = {
        minutes: ledger_settings(world, f"{world.folder}/nowhere/ledger", offset=minutes)
        for minutes in (0, 60, -60, 1_439, -1_439)
    }
    for minutes, config in files.items():
        for at in (86_400, 172_799, 172_800, NOON, 1_576_105_199, 1_576_105_200, 32_503_680_000):
            wanted = min(max((at + 60 * minutes) // 86_400, 0), LAST_DAY)
            checks.equal(
                f"day at {at}, {minutes} minutes east",
                day(config, "--at", str(at)),
                said_of(wanted),
            )
    rule = ledger_settings(world, "memory", offset=None, rule=CENTRAL_EUROPE)
    for at, wanted in WORKED_DAYS:
        checks.equal(f"day at {at} by a rule", day(rule, f"--at={at}"), said_of(wanted))
    before = int(time.time()) // 86_400
    came = day(files[0])
    checks.holds(
        "day now",
        came in [said_of(it) for it in range(before, int(time.time()) // 86_400 + 1)],
        f"{before}",
        came,
    )
    for what, minutes in [("half past 23", 1_410), ("half past 0", 30)]:
        now = int(time.time())
        # (at this offset it is so late)
        offset = minutes - now % 86_400 // 60
        came = day(ledger_settings(world, f"{world.folder}/nowhere/ledger", offset=offset))
        checks.equal(f"day at {what}", came, said_of((now + 60 * offset) // 86_400))
    with open("/dev/full", "wb") as device:
        came = world.run("day", "--config", files[0], "--at", "86400", output=device)
    checks.equal("day to a full device", (came[0], came[2]), (1, "mailquota: write failed\n"))
    lacking, nothing = world.new_file(toml({"listen": "127.0.0.1:1"})), f"{world.folder}/nothing"
    missing = "setting store: missing"
    checks.equal(
        "day of settings that lack one",
        day(lacking),
        fault(missing, log=of_settings(lacking, missing)),
    )
    checks.equal(
        "day of settings that aren't there",
        day(nothing),
        fault("settings can't be read", log=of_settings(nothing, NO_FILE)),
    )
    with Server(world, offset=60) as server:
        server.ask(reserve(1, at=1_576_105_200))
        today = day(files[60], "--at", "1576105200")[1].decode().strip()
        checks.equal(
            "a report of the day of a moment",
            world.run("report", "--server", server.address, "--day", today),
            (0, b"      0       1       3 u\n", ""),
        )


def a_device_that_is_full(world, checks):
    with Server(world) as server, open("/dev/full", "wb") as device:
        for what, came in [
            ("stop", stop(world, server.address, output=device)),
            ("resume", resume(world, server.address, 1, output=device)),
        ]:
            checks.equal(
                f"{what} to a full device", (came[0], came[2]), (1, "mailquota: write failed\n")
            )
        checks.equal("both limits are set all the same", caps(server, b"u", 1, 2), [1, 1])


def loops(world, checks, what, many, times):
    """So many loops at once, each of which sets the limits of so many logins, one after another,
    under the clock's numbers."""
    with Server(world, default=3) as server:
        came = [[] for _ in range(many)]

        def loop(place):
            for n in range(times):
                words = [
                    "--server",
                    server.address,
                    "--host",
                    "admin",
                    "--login",
                    f"u{place}-{n}",
                    "--from",
                    "1",
                    "--cap",
                    str(n % 1_000),
                ]
                came[place].append(world.run("limit", *words))

        threads = [threading.Thread(target=loop, args=(place,)) for place in range(many)]
        for thread in threads:
            thread.start()
        for thread in threads:
            thread.join()
        other = [it for each in came for it in each if it != (0, b"set\n", "")]
        checks.equal(
            f"{what}, {times} each: those that weren't set",
            (sum(map(len, came)), other),
            (many * times, []),
        )
        wrong = [
            (place, n)
            for place in range(many)
            for n in range(times)
            if caps(server, b"u%d-%d" % (place, n), 1) != [n % 1_000]
        ]
        checks.equal(f"{what}, {times} each: logins with another limit", wrong, [])
        checks.equal(f"{what}: the server's log", server.log_lines(), [])


class Sender(threading.Thread):
    """A session that writes to one recipient after another, message by message, as fast as it is
    answered."""

    def __init__(self, filter_, session):
        super().__init__(daemon=True)
        self.filter, self.session = filter_, session
        # when each recipient was asked for, and what was answered
        self.answers = []
        self.is_over = False

    def run(self):
        for message in range(1_000_000):
            name = self.session + b"-%d" % message
            self.filter.begin(NOON, self.session, name)
            for _ in range(100):
                if self.is_over:
                    return
                asked = time.monotonic()
                self.answers.append((asked, self.filter.recipient(NOON, self.session)))
            self.filter.commit(NOON, self.session, name)


def sessions_that_send(world, checks):
    """A login that sends in four sessions, over the filters of two hosts, is stopped by one
    command, whose limit is refused a few times at most: how often is up to the machine."""
    with Server(world, default=MOST) as server, Relay(server) as relay:
        filters = [Smtpd(world, f"mx{n}", server.address) for n in (1, 2, 3, 4)]
        senders = [Sender(filter_, b"s%d" % n) for n, filter_ in enumerate(filters)]
        for sender in senders:
            sender.filter.login(NOON, sender.session, b"alice")
            sender.start()
        checks.holds(
            "each session has sent a hundred",
            wait_until(lambda: all(len(it.answers) >= 100 for it in senders)),
            "soon",
            [len(it.answers) for it in senders],
        )
        status, output, errors = stop(world, relay.address, "alice", day=DAY)
        end = time.monotonic()
        words = output.decode().split()
        good = (
            (status, errors) == (0, "")
            and len(words) == 10
            and output.decode()
            == f"stopped: alice used {words[3]} on day {DAY}\nlimit before: {MOST}\n"
        )
        checks.holds(
            "stop of a login that sends in four sessions",
            good,
            "status 0, and two lines",
            (status, output, errors),
        )
        refused = [reply for _, reply in relay.told if reply[2:3] == OVER]
        checks.holds(
            "how often the limit was refused",
            len(refused) < len(ROOMS),
            f"fewer than {len(ROOMS)} times",
            len(refused),
        )
        most = int(words[3]) if good else 0

        def are_refused():
            return all(
                [it for at, it in sender.answers if at > end][-3:]
                == [result(LIMIT, sender.session)] * 3
                for sender in senders
            )

        checks.holds(
            "each session is refused soon",
            wait_until(are_refused),
            "its last three recipients",
            [it.answers[-1] for it in senders],
        )
        for sender in senders:
            sender.is_over = True
        for sender in senders:
            sender.join(SECONDS)
        passed = sum(
            it == result(PROCEED, sender.session) for sender in senders for _, it in sender.answers
        )
        checks.equal(
            "only granted or refused",
            {it.split(b"|")[-1] for sender in senders for _, it in sender.answers}
            - {b"proceed\n", b"550 daily recipient limit reached\n"},
            set(),
        )
        checks.holds(
            "those that were let through in all",
            400 <= passed <= most,
            f"no more than the {most} that stop printed",
            passed,
        )
        late = sum(
            it == result(PROCEED, sender.session)
            for sender in senders
            for at, it in sender.answers
            if at > end
        )
        checks.holds(
            "those that were asked for after stop ended and let through",
            late <= ROOMS[min(len(refused), len(ROOMS) - 1)],
            "no more than the room of the last limit",
            (late, len(refused)),
        )
        checks.equal("the limits", caps(server, b"alice", DAY - 1, DAY, DAY + 1), [MOST, most, 0])
        checks.equal(
            "all filters end at their input's end", [it.end() for it in filters], [(0, b"", "")] * 4
        )
