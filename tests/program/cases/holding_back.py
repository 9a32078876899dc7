"""What the filter holds back: in a pause, after a server that gave no answer in time, and for a
login whose limit is reached."""
import re
import time

from cases.filters import (
    AUTH,
    BEGIN,
    COMMIT,
    CONFIG,
    FULL,
    GRANTED,
    INPUT,
    LIMIT,
    MX1,
    PROCEED,
    RCPT,
    REFUSED_BY_LIMIT,
    REGISTRATION,
    RESERVE,
    SERVER,
    SERVICE,
    SETTLED,
    answer,
    of_session,
)
from ends import SILENCE, Script, crowded_port, nobody_there, soon
from wire import frame, granted, number, release, released, reserve

BOB = b"0123456789abcdef"
# milliseconds within which a script's answer comes on a machine that has much else to do, and for
# which a silent one is waited
ANSWERED = 1_500
# of a filter that pauses after its first try of a request
ONE_TRY = {"tries": 1, "timeout": ANSWERED, "pause": 30}
WHY = "[ERROR link] quota server ADDRESS: no answer in time"
PAUSE = (
    "[WARN  filter] no answer in time: nothing is asked for 30 seconds, recipients are"
    " answered 451"
)
AGAIN = "[WARN  filter] asks again, recipients answered 451 without asking: "


def run(world, checks):
    a_silent_server(world, checks)
    a_connect_that_waits(world, checks)
    a_refused_connection(world, checks)
    the_end_of_a_pause(world, checks)
    two_pauses(world, checks)
    a_pause_of_many(world, checks)
    full_after_a_pause(world, checks)
    closings(world, checks)
    full_logins(world, checks)
    the_next_minute(world, checks)
    recipients_given_back(world, checks)
    a_full_login_in_a_pause(world, checks)
    as_many_as_may_be(world, checks)
    what_check_says(world, checks)


def at(text, second):
    """Lines at another second."""
    return re.sub(rb"\|15761460\d\d\.", b"|%d." % second, text)


def of_pauses(log):
    """The lines of a log that say that a pause begins, or that one is over."""
    return [line for line in log if "nothing is asked for" in line or AGAIN in line]


def asked(n, login=b"alice", txn=1):
    return reserve(n, login=login, at=1_576_146_009, txn=txn, **MX1)


def numbered(reply, n):
    """A reply of host mx1 with another number, which stands after its length, kind, host and
    run."""
    return reply[:15] + n.to_bytes(4, "big") + reply[19:]


def scripted(world, text, script, **settings):
    """What the filter writes after its registration, what the server heard, the log, and how long
    it took."""
    with Script(script) as server:
        start = time.monotonic()
        status, output, errors = world.filter(server.address, text, **settings)
        took = time.monotonic() - start
    return (
        output.removeprefix(REGISTRATION) if status == 0 else (status, output),
        server.heard,
        re.sub(r"127\.0\.0\.1:\d+", "ADDRESS", errors).splitlines(),
        took,
    )


def a_silent_server(world, checks):
    """Sixty recipients at once wait for one timeout in all."""
    text = INPUT + RCPT * 59
    (output, heard, log, took), _ = soon(
        lambda: scripted(world, text, [SILENCE] * 60, tries=1, timeout=300, pause=30), 6
    )
    checks.equal("a silent server, 60 recipients, a pause: the lines", output, answer(SERVICE) * 60)
    checks.equal("a silent server, 60 recipients, a pause: the frames", heard, [RESERVE])
    checks.equal("a silent server, 60 recipients, a pause: the log", log, [WHY, PAUSE])
    checks.holds(
        "a silent server, 60 recipients, a pause: the time",
        0.3 <= took < 6,
        "one timeout of 0.3 s, and no ten of them",
        took,
    )
    output, heard, log, took = scripted(
        world, INPUT + RCPT * 4, [SILENCE] * 5, tries=1, timeout=300
    )
    checks.equal(
        "a silent server, 5 recipients, no pause: the lines and the frames",
        (output, heard),
        (answer(SERVICE) * 5, [asked(n) for n in range(1, 6)]),
    )
    checks.holds(
        "a silent server, 5 recipients, no pause: the time",
        1.5 <= took,
        "five timeouts of 0.3 s",
        took,
    )
    output, heard, log, _ = scripted(
        world, INPUT + RCPT, [SILENCE, b""], tries=2, timeout=ANSWERED, pause=30
    )
    checks.equal(
        "a silent server, then one that closes: the lines, the frames",
        (output, heard),
        (answer(SERVICE) * 2, [RESERVE] * 2),
    )
    output, heard, log, _ = scripted(
        world,
        INPUT + RCPT,
        [SILENCE, GRANTED, granted(2, 2, **MX1)],
        tries=2,
        timeout=ANSWERED,
        pause=30,
    )
    checks.equal(
        "a silent server, then one that answers: no pause",
        (output, heard, log),
        (answer(PROCEED) * 2, [RESERVE, RESERVE, asked(2)], []),
    )


def a_connect_that_waits(world, checks):
    with crowded_port() as address:
        came, took = soon(
            lambda: world.filter(address, INPUT + RCPT * 9, tries=1, timeout=300, pause=30), 2.7
        )
    checks.equal(
        "a connect that waits, 10 recipients, a pause: the lines",
        came[:2],
        (0, REGISTRATION + answer(SERVICE) * 10),
    )
    checks.holds(
        "a connect that waits, 10 recipients, a pause: the log",
        came[2].endswith(PAUSE + "\n"),
        "the pause",
        came[2],
    )
    checks.holds(
        "a connect that waits, 10 recipients, a pause: the time",
        took < 2.7,
        "one timeout of 0.3 s",
        took,
    )


def a_refused_connection(world, checks):
    """Nobody waits for it, so that a server that is started again is asked at once."""
    with nobody_there() as address:
        status, output, errors = world.filter(
            address, INPUT + RCPT * 2, tries=2, pause=30, log="info"
        )
    checks.equal(
        "a refused connection, 3 recipients: status and lines",
        (status, output),
        (0, REGISTRATION + answer(SERVICE) * 3),
    )
    checks.equal(
        "a refused connection, 3 recipients: each is asked for",
        len(re.findall("reserve [123] of .*: no answer in 2 tries", errors)),
        3,
    )
    checks.holds(
        "a refused connection, 3 recipients: no pause",
        not of_pauses(errors.splitlines()),
        "no line of one",
        errors,
    )
    output, heard, log, _ = scripted(
        world, INPUT + RCPT, [b"", granted(2, 1, **MX1)], tries=1, pause=30
    )
    checks.equal(
        "a connection that is closed, then an answer: the lines, the frames",
        (output, heard),
        (answer(SERVICE) + answer(PROCEED), [RESERVE, asked(2)]),
    )


def the_end_of_a_pause(world, checks):
    """A pause counts from the second of the line."""
    begins = 1_576_146_010
    for what, second in [("30 seconds later", begins + 30), ("of a second before", begins - 1)]:
        text = INPUT + at(RCPT, begins + 29) + at(RCPT, second)
        output, heard, log, _ = scripted(world, text, [SILENCE, granted(2, 1, **MX1)], **ONE_TRY)
        checks.equal(
            f"a pause ends at a line {what}: the lines, the frames",
            (output, heard),
            (answer(SERVICE) * 2 + answer(PROCEED), [RESERVE, asked(2)]),
        )
        checks.equal(
            f"a pause ends at a line {what}: the log",
            log,
            [WHY, PAUSE, f"{SERVER} answers again, requests without an answer: 1", AGAIN + "1"],
        )


def two_pauses(world, checks):
    """Two pauses of one outage: its last line counts what both held back."""
    begins = 1_576_146_010
    text = INPUT + b"".join(at(RCPT, begins + later) for later in (1, 30, 31, 32, 60))
    output, heard, log, _ = scripted(
        world, text, [SILENCE, SILENCE, granted(3, 1, **MX1)], **ONE_TRY
    )
    checks.equal(
        "two pauses, and an answer: the lines, the frames",
        (output, heard),
        (answer(SERVICE) * 5 + answer(PROCEED), [RESERVE, asked(2), asked(3)]),
    )
    checks.equal(
        "two pauses, and an answer: the log",
        log,
        [WHY, PAUSE, f"{SERVER} answers again, requests without an answer: 2", AGAIN + "3"],
    )
    log = scripted(
        world,
        text,
        [SILENCE, SILENCE, granted(3, 1, **MX1)],
        **ONE_TRY,
        log="info",
    )[2]
    later = PAUSE.replace("WARN ", "INFO ").removesuffix(", recipients are answered 451")
    checks.equal(
        'two pauses, with log = "info": the lines of them',
        of_pauses(log),
        [PAUSE, later, AGAIN + "3"],
    )
    text = INPUT + b"".join(at(RCPT, begins + later) for later in (1, 30, 60, 61, 62, 90))
    _, _, log, _ = scripted(
        world,
        text,
        [SILENCE, granted(2, 1, **MX1), SILENCE, granted(4, 2, **MX1)],
        **ONE_TRY,
    )
    # (an outage that begins within a second of the one before has no line of its own)
    checks.equal(
        "two outages: what the log has of their pauses",
        of_pauses(log),
        [PAUSE, AGAIN + "1", PAUSE, AGAIN + "2"],
    )


def a_pause_of_many(world, checks):
    """Its last line counts all that it held back."""
    begins = 1_576_146_010
    text = INPUT + RCPT * 2_000 + at(RCPT, begins + 30)
    script = [SILENCE, granted(2, 1, **MX1)]
    log = scripted(world, text, script, **ONE_TRY)[2]
    checks.equal("a pause of 2,000 recipients: the last line", log[-1:], [AGAIN + "2000"])


def full_after_a_pause(world, checks):
    """An answer by the limit ends a pause as any other does."""
    begins = 1_576_146_010
    text = INPUT + at(RCPT, begins + 1) + at(RCPT, begins + 30)
    output, heard, log, _ = scripted(world, text, [SILENCE, numbered(FULL, 2)], **ONE_TRY)
    checks.equal(
        "a pause, and a 550: the lines, the frames",
        (output, heard),
        (answer(SERVICE) * 2 + answer(LIMIT), [RESERVE, asked(2)]),
    )
    refused = REFUSED_BY_LIMIT.rstrip("\n").replace("reserve 1", "reserve 2")
    checks.equal(
        "a pause, and a 550: the log",
        log,
        [
            WHY,
            PAUSE,
            f"{SERVER} answers again, requests without an answer: 1",
            AGAIN + "1",
            refused,
        ],
    )


def closings(world, checks):
    """A closing waits in a pause, and is sent at the end."""
    bob = of_session(AUTH.replace(b"alice", b"bob") + BEGIN, BOB)
    text = INPUT + bob + of_session(RCPT, BOB) + COMMIT
    output, heard, log, _ = scripted(
        world, text, [GRANTED, SILENCE, numbered(SETTLED, 3)], **ONE_TRY
    )
    checks.equal(
        "a commit in a pause: the lines", output, answer(PROCEED) + answer(SERVICE, session=BOB)
    )
    checks.equal(
        "a commit in a pause: how many frames, the kind of the last",
        (len(heard), heard[-1][2]),
        (3, 2),
    )
    log = scripted(
        world,
        text,
        [GRANTED, SILENCE, numbered(SETTLED, 3)],
        **ONE_TRY,
        log="info",
    )[2]
    unanswered = (
        f"[INFO  filter] reserve 2 of transaction 2 (host mx1, session {BOB.decode()},"
        " login bob): no answer in 1 tries"
    )
    checks.equal(
        'a commit in a pause, with log = "info": the lines of requests',
        [line for line in log if re.search(r"\] (reserve|settle|release) ", line)],
        [unanswered],
    )
    output, heard, log, _ = scripted(world, text, [GRANTED, SILENCE, b"", b""], **ONE_TRY)
    checks.equal(
        "a commit in a pause is sent at the end alone: the kinds of the frames",
        [it[2] for it in heard],
        [1, 1, 2],
    )
    output, heard, log, _ = scripted(
        world,
        INPUT + bob + COMMIT + at(of_session(RCPT, BOB), 1_576_146_011),
        [GRANTED, SILENCE, SETTLED],
        **ONE_TRY,
    )
    checks.equal(
        "a commit without an answer in time: the lines",
        output,
        answer(PROCEED) + answer(SERVICE, session=BOB),
    )
    checks.equal(
        "a commit without an answer in time: the frames", [it[2] for it in heard], [1, 2, 2]
    )
    checks.equal(
        "a commit without an answer in time: the log",
        log,
        [WHY, PAUSE, f"{SERVER} answers again, requests without an answer: 1", AGAIN + "1"],
    )


def full_logins(world, checks):
    """A login whose limit is reached is asked for once in so many seconds."""
    first = 1_576_146_010
    bob = of_session(AUTH.replace(b"alice", b"bob") + BEGIN, BOB)
    text = (
        CONFIG
        + AUTH
        + BEGIN
        + bob
        + RCPT * 5
        + of_session(RCPT, BOB)
        + at(RCPT, first + 4)
        + at(RCPT, first + 5)
        + at(RCPT, first + 9)
    )
    second = granted(2, 1, **MX1)
    output, heard, log, _ = scripted(world, text, [FULL, second, numbered(FULL, 3)], hold=5)
    wanted = answer(LIMIT) * 5 + answer(PROCEED, session=BOB) + answer(LIMIT) * 3
    checks.equal("a full login that goes on, hold = 5: the lines", output, wanted)
    checks.equal(
        "a full login that goes on, hold = 5: the frames",
        heard,
        [RESERVE, asked(2, login=b"bob", txn=2), asked(3)],
    )
    checks.equal("a full login that goes on, hold = 5: the log has one line", len(log), 1)
    output, heard, log, _ = scripted(world, INPUT + RCPT, [FULL, numbered(FULL, 2)])
    checks.equal(
        "a full login without hold: the lines, the frames",
        (output, heard),
        (answer(LIMIT) * 2, [RESERVE, asked(2)]),
    )


def the_next_minute(world, checks):
    """A message that begins in another minute may be of another day: its login is asked for."""
    second = 1_576_146_060
    begins = of_session(at(BEGIN, second), BOB)
    bobs = at(of_session(RCPT, BOB), second)
    front = CONFIG + AUTH + BEGIN + of_session(AUTH, BOB) + RCPT
    output, heard, _, _ = scripted(
        world,
        front + begins + bobs + at(RCPT, second) + bobs,
        [FULL, granted(2, 1, **MX1), granted(3, 2, **MX1)],
        hold=60,
    )
    proceeds = answer(PROCEED, session=BOB)
    of_the_next = [reserve(n, login=b"alice", at=second, txn=2, **MX1) for n in (2, 3)]
    checks.equal(
        "a full login, and its message of the next minute, hold = 60: the lines, the frames",
        (output, heard),
        (answer(LIMIT) + proceeds + answer(LIMIT) + proceeds, [RESERVE, *of_the_next]),
    )
    begins = of_session(at(BEGIN, second - 1), BOB)
    output, heard, _, _ = scripted(world, front + begins + bobs, [FULL], hold=60)
    checks.equal(
        "a full login, and its message of the minute's last second: the lines, the frames",
        (output, heard),
        (answer(LIMIT) + answer(LIMIT, session=BOB), [RESERVE]),
    )
    output, heard, _, _ = scripted(
        world,
        front + of_session(at(BEGIN, second), BOB) + bobs + bobs + at(RCPT, second),
        [FULL, numbered(FULL, 2)],
        hold=60,
    )
    checks.equal(
        "a login that is full in two minutes: the lines, the frames",
        (output, heard),
        (
            answer(LIMIT) + answer(LIMIT, session=BOB) * 2 + answer(LIMIT),
            [RESERVE, of_the_next[0]],
        ),
    )


def recipients_given_back(world, checks):
    """A message of a full login that is rolled back gives its recipients to the next one."""
    bobs = of_session(RCPT, BOB)
    rollback = COMMIT.replace(b"tx-commit", b"tx-rollback").replace(b"|1200", b"")
    text = (
        CONFIG
        + AUTH
        + BEGIN
        + of_session(AUTH + BEGIN, BOB)
        + RCPT
        + bobs * 2
        + rollback
        + at(bobs, 1_576_146_011)
    )
    first, proceeds = answer(PROCEED), answer(PROCEED, session=BOB)
    refused = answer(LIMIT, session=BOB)
    given = release(3, login=b"alice", at=1_576_146_009, **MX1)
    script = [GRANTED, numbered(FULL, 2), released(3, 1, **MX1), granted(4, 3, **MX1)]
    output, heard, _, _ = scripted(world, text, script, hold=60)
    checks.equal(
        "a full login, and a message that is rolled back, hold = 60: the lines, the frames",
        (output, heard),
        (first + refused * 2 + proceeds, [RESERVE, asked(2, txn=2), given, asked(4, txn=2)]),
    )
    script[2] = released(3, 0, **MX1)
    output, heard, _, _ = scripted(world, text, script, hold=60)
    checks.equal(
        "a full login, and a release that gives back none: the lines, the frames",
        (output, heard),
        (first + refused * 3, [RESERVE, asked(2, txn=2), given]),
    )


def a_full_login_in_a_pause(world, checks):
    """Its recipients get 550 as before, and don't count as answered 451."""
    begins = 1_576_146_010
    bob, bobs = of_session(AUTH.replace(b"alice", b"bob") + BEGIN, BOB), of_session(RCPT, BOB)
    text = (
        CONFIG
        + AUTH
        + BEGIN
        + bob
        + RCPT
        + bobs
        + at(RCPT * 3, begins + 1)
        + at(bobs, begins + 2)
        + at(bobs, begins + 30)
    )
    output, heard, log, _ = scripted(
        world,
        text,
        [FULL, SILENCE, granted(3, 1, **MX1)],
        **ONE_TRY,
        hold=60,
    )
    refused, granted_ = answer(SERVICE, session=BOB), answer(PROCEED, session=BOB)
    checks.equal(
        "a full login in a pause: the lines",
        output,
        answer(LIMIT) + refused + answer(LIMIT) * 3 + refused + granted_,
    )
    checks.equal(
        "a full login in a pause: the frames",
        heard,
        [RESERVE, asked(2, login=b"bob", txn=2), asked(3, login=b"bob", txn=2)],
    )
    wanted = [
        REFUSED_BY_LIMIT.rstrip("\n"),
        WHY,
        PAUSE,
        f"{SERVER} answers again, requests without an answer: 1",
        AGAIN + "1",
    ]
    checks.equal("a full login in a pause: the log", log, wanted)


def as_many_as_may_be(world, checks):
    """1,000 logins are held back at once, and one more is asked for again."""

    def text_of(login):
        return of_session(AUTH.replace(b"alice", b"u%d" % login) + BEGIN + RCPT, b"%016x" % login)

    def full(heard):
        # (of a request's frame the number, as its host and its run are)
        return frame(b"\x82" + heard[3:19] + number(3) * 2)

    # (a line of an earlier second would end what is held back)
    text = CONFIG + at(b"".join(text_of(it) for it in range(1, 1_002)), 1_576_146_010)
    again = b"".join(of_session(RCPT, b"%016x" % it) for it in (1, 2, 500, 1_000, 1_001))
    with Script([], otherwise=full) as server:
        status, output, _ = world.filter(server.address, text + at(again, 1_576_146_010), hold=60)
    checks.equal(
        "1,001 full logins, hold = 60: status, and lines that are others",
        (
            status,
            [
                it
                for it in output.splitlines()[len(REGISTRATION.splitlines()) :]
                if not it.endswith(b"|" + LIMIT)
            ],
        ),
        (0, []),
    )
    asked_again = [int.from_bytes(heard[15:19], "big") for heard in server.heard_later]
    checks.equal(
        "1,001 full logins, then five of them again: the numbers that are asked",
        asked_again,
        [*range(1, 1_002), 1_002],
    )


def what_check_says(world, checks):
    for what, settings, told, warned in [
        ("nothing", {}, "", ""),
        ("pause and hold", {"pause": 10, "hold": 5}, "pause 10 s, hold 5 s\n", ""),
        ("a pause of what three tries take", {"pause": 6}, "pause 6 s, hold 0 s\n", ""),
        (
            "a pause that is shorter",
            {"pause": 5},
            "pause 5 s, hold 0 s\n",
            (
                "[WARN  filter] a pause of 5 s hardly helps: 3 tries"
                " that time out take 2000 ms each or more\n"
            ),
        ),
        ("hold alone", {"hold": 60}, "pause 0 s, hold 60 s\n", ""),
    ]:
        with nobody_there() as address:
            file = world.filter_file(address, timeout=2_000, **settings)
            status, output, errors = world.run("filter", "--config", file, "--check")
        checks.equal(
            f"filter --check, {what}: the status and the lines",
            (status, output.decode()),
            (1, "settings are right\n" + told),
        )
        checks.holds(
            f"filter --check, {what}: the warning",
            errors.endswith(warned) and errors.count("hardly helps") == (1 if warned else 0),
            warned.strip() or "none",
            errors,
        )
