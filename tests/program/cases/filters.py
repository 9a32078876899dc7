"""The filter on standard input and output, with a server that answers by a script."""
import re
import select
import socket
import subprocess
import time

from ends import (
    DRIP,
    LONG,
    RESET,
    SECONDS,
    SILENCE,
    Script,
    crowded_port,
    nobody_there,
    soon,
    unreached,
)
from wire import BAD, RETRY, frame, granted, identity, number, reserve, settled

REGISTRATION = b"".join(
    line + b"\n"
    for line in [
        b"register|report|smtp-in|link-auth",
        b"register|report|smtp-in|link-disconnect",
        b"register|report|smtp-in|tx-begin",
        b"register|report|smtp-in|tx-commit",
        b"register|report|smtp-in|tx-rollback",
        b"register|report|smtp-in|tx-reset",
        b"register|filter|smtp-in|rcpt-to",
        b"register|ready",
    ]
)
CONFIG = b"config|smtpd-version|6.6.1\nconfig|smtp-session-timeout|300\nconfig|subsystem|smtp-in\nconfig|ready\n"
AUTH = b"report|0.7|1576146008.006099|smtp-in|link-auth|7641df9771b4ed00|pass|alice\n"
BEGIN = b"report|0.7|1576146009.006099|smtp-in|tx-begin|7641df9771b4ed00|4c56d3a1\n"
RCPT = b"filter|0.7|1576146010.006099|smtp-in|rcpt-to|7641df9771b4ed00|1ef1c203cc576e5d|bob@example.org\n"
COMMIT = b"report|0.7|1576146011.006099|smtp-in|tx-commit|7641df9771b4ed00|4c56d3a1|1200\n"
RESET_LINE = b"report|0.7|1576146012.006099|smtp-in|tx-reset|7641df9771b4ed00|4c56d3a1\n"
INPUT = CONFIG + AUTH + BEGIN + RCPT

RESERVE = bytes.fromhex(
    "002701036d783100000000000000010000000100000001000000005df2145905616c69636500000001"
)
GRANTED = frame(bytes.fromhex("81036d783100000000000000010000000100000001"))
FULL = frame(bytes.fromhex("82036d78310000000000000001000000010000000300000003"))
SETTLE = bytes.fromhex(
    "002702036d783100000000000000010000000200000001000000005df2145905616c69636500000001"
)
SETTLED = frame(bytes.fromhex("83036d783100000000000000010000000200000001"))
RELEASE = bytes.fromhex(
    "002303036d783100000000000000010000000200000001000000005df2145905616c696365"
)
RELEASED = frame(bytes.fromhex("84036d783100000000000000010000000200000001"))
MX1 = {"host": b"mx1"}


def answer(result, session=b"7641df9771b4ed00", token=b"1ef1c203cc576e5d"):
    return b"filter-result|" + session + b"|" + token + b"|" + result + b"\n"


PROCEED = b"proceed"
LIMIT = b"reject|550 daily recipient limit reached"
SERVICE = b"reject|451 quota service unavailable"
# what the log has of a login whose limit is reached, and of a server that gives no answer
NAMED = "(host mx1, session 7641df9771b4ed00, login alice)"
REFUSED_BY_LIMIT = (
    f"[WARN  filter] reserve 1 of transaction 1 {NAMED}: refused by the limit, 3 used" " of 3\n"
)
WHY_CLOSED = "[ERROR link] quota server ADDRESS: closed before its reply was whole"
SERVER = "[WARN  link] quota server ADDRESS:"
UNANSWERED_RESERVE = f"[INFO  filter] reserve 1 of transaction 1 {NAMED}: no answer in 3 tries"
UNANSWERED_RELEASE = (
    f"[INFO  filter] release 2 of transaction 1 {NAMED}: no answer in 3 tries, it waits"
)
LEFT = "[WARN  filter] the input ends, closings without an answer: 1"
# replies that refuse a request, and what is logged of them
OTHER_ANSWERS = {
    "closed": (b"\x87", "the transaction was closed before"),
    "mismatch": (b"\x88", "the transaction has another login or moment"),
    "conflict": (b"\x8a", "the number was used by another request"),
}
# replies to other requests
OTHER_REPLIES = {
    "a reply of another number",
    "a reply of another host",
    "a reply of another run",
    "a reply of another kind",
}
# the status and lines of a filter whose reserve got no reply
UNANSWERED = 0, REGISTRATION + answer(SERVICE)


def run(world, checks):
    one_recipient(world, checks)
    tries(world, checks)
    closings(world, checks)
    warnings(world, checks)
    a_move_beside_an_older_message(world, checks)
    refusals_of_two_messages(world, checks)
    no_server(world, checks)
    without_a_question(world, checks)
    faults(world, checks)
    its_run(world, checks)
    at_each_level(world, checks)
    names_as_long_as_any(world, checks)
    counts_of_lines(world, checks)
    a_socket_that_breaks(world, checks)
    a_thousand_recipients(world, checks)


def scripted(
    world, checks, what, text, script, *, results, frames, status=0, errors=None, **settings
):
    """Runs the filter; compares lines written, frames heard and the status, and the errors where
    they are given. At level info the first line of the log says what begins; it isn't given
    here."""
    with Script(script) as server:
        came_status, output, came_errors = world.filter(server.address, text, **settings)
    if settings.get("log") == "info":
        came_errors = after_the_start(checks, what, came_errors, server.address)
    checks.equal(f"{what}: the lines", output, REGISTRATION + b"".join(results))
    checks.equal(f"{what}: the frames", server.heard, frames)
    checks.equal(f"{what}: the status", came_status, status)
    if errors is not None:
        checks.equal(f"{what}: standard error", came_errors, errors)
    return came_errors


def after_the_start(checks, what, errors, address):
    """The log of level info after its first line."""
    first, _, rest = errors.partition("\n")
    wanted = "[INFO  filter] the filter of host mx1 begins its run 1, with the" f" server {address}"
    checks.equal(f"{what}: the log's first line", first, wanted)
    return rest


def one_recipient(world, checks):
    scripted(
        world,
        checks,
        "one recipient, granted",
        INPUT,
        [GRANTED],
        results=[answer(PROCEED)],
        frames=[RESERVE],
        errors="",
    )
    scripted(
        world,
        checks,
        "one recipient, full",
        INPUT,
        [FULL],
        results=[answer(LIMIT)],
        frames=[RESERVE],
        errors=REFUSED_BY_LIMIT,
    )
    text = INPUT + COMMIT + RESET_LINE
    scripted(
        world,
        checks,
        "a commit settles, the reset after it does nothing",
        text,
        [GRANTED, SETTLED],
        results=[answer(PROCEED)],
        frames=[RESERVE, SETTLE],
        errors="",
    )
    scripted(
        world,
        checks,
        "a reset releases",
        INPUT + RESET_LINE,
        [GRANTED, RELEASED],
        results=[answer(PROCEED)],
        frames=[RESERVE, RELEASE],
        errors="",
    )
    scripted(
        world,
        checks,
        "a commit after a full answer releases",
        INPUT + COMMIT,
        [FULL, RELEASED],
        results=[answer(LIMIT)],
        frames=[RESERVE, RELEASE],
        errors=REFUSED_BY_LIMIT,
    )
    swapped = INPUT.replace(b"|pass|alice", b"|alice|pass")
    scripted(
        world,
        checks,
        "name before result",
        swapped,
        [GRANTED],
        results=[answer(PROCEED)],
        frames=[RESERVE],
        errors="",
    )
    again = CONFIG + AUTH.replace(b"alice", b"carol") + AUTH + BEGIN + RCPT
    scripted(
        world,
        checks,
        "a session that logs in again",
        again,
        [GRANTED],
        results=[answer(PROCEED)],
        frames=[RESERVE],
        errors="",
    )


def tries(world, checks):
    other_number = granted(2, 1, **MX1)
    other_host = granted(1, 1, host=b"mx2")
    other_run = granted(1, 1, run=2, **MX1)
    good = [
        ("a reply of another number", other_number),
        ("a reply of another host", other_host),
        ("a reply of another run", other_run),
        ("a reply cut in its body", GRANTED[:-1]),
        ("a reply cut in its length", GRANTED[:1]),
        ("no reply", b""),
        ("a length of 0", b"\x00\x00"),
        ("a length of 65,535 and little more", b"\xff\xff" + GRANTED),
        ("a reply that is none", frame(b"\x90garbage")),
        ("a reply with a byte left over", frame(GRANTED[2:] + b"\x00")),
        ("a reply that asks for another try", RETRY),
        ("a reply that tells of a bad frame", BAD),
        ("a reply of another kind", settled(1, 1, **MX1)),
        ("its own request", RESERVE),
        ("a reset", RESET),
        ("silence", SILENCE),
    ]
    for what, first in good:
        timeout = 2_000 if first is SILENCE else LONG
        scripted(
            world,
            checks,
            f"{what}, then the grant",
            INPUT,
            [first, GRANTED],
            results=[answer(PROCEED)],
            frames=[RESERVE] * 2,
            errors="",
            timeout=timeout,
        )
    for what, first in good:
        timeout = 300 if first is SILENCE else LONG
        errors = scripted(
            world,
            checks,
            f"{what}, twice, with tries = 2",
            INPUT,
            [first, first],
            results=[answer(SERVICE)],
            frames=[RESERVE] * 2,
            timeout=timeout,
            tries=2,
            log="info",
        )
        other = what in OTHER_REPLIES
        said = (
            "no answer in 2 tries, but a reply of another kind or number"
            if other
            else "no answer in 2 tries"
        )
        told(
            checks,
            f"{what}, twice",
            errors,
            [of_a_try("reserve", 1, said, "WARN " if other else "INFO ")],
        )
    for what, script in (
        ("a reply of another kind, then none", [settled(1, 1, **MX1), b""]),
        ("no reply, then one of another kind", [b"", settled(1, 1, **MX1)]),
    ):
        errors = scripted(
            world,
            checks,
            f"{what}, with tries = 2",
            INPUT,
            script,
            results=[answer(SERVICE)],
            frames=[RESERVE] * 2,
            tries=2,
        )
        told(
            checks,
            f"{what}, with tries = 2",
            errors,
            [
                of_a_try(
                    "reserve",
                    1,
                    "no answer in 2 tries, but a reply of another kind or number",
                    "WARN ",
                )
            ],
        )
    scripted(
        world,
        checks,
        "a grant and more bytes",
        INPUT,
        [GRANTED + b"more"],
        results=[answer(PROCEED)],
        frames=[RESERVE],
        errors="",
    )
    scripted(
        world,
        checks,
        "ten tries, the tenth granted",
        INPUT,
        [b""] * 9 + [GRANTED],
        results=[answer(PROCEED)],
        frames=[RESERVE] * 10,
        errors="",
        tries=10,
    )
    for what, body in [("closed", b"\x87"), ("mismatch", b"\x88"), ("conflict", b"\x8a")]:
        reply = frame(body + identity(1, **MX1))
        scripted(
            world,
            checks,
            f"a reserve answered {what}: no second try",
            INPUT,
            [reply, GRANTED],
            results=[answer(SERVICE)],
            frames=[RESERVE],
        )


def closings(world, checks):
    """A closing waits until a reply decides it, and is sent again with its own bytes."""
    text = INPUT + COMMIT
    scripted(
        world,
        checks,
        "a settle lost twice",
        text,
        [GRANTED, b"", b"", SETTLED],
        results=[answer(PROCEED)],
        frames=[RESERVE] + [SETTLE] * 3,
        errors="",
    )
    scripted(
        world,
        checks,
        "a settle lost three times is sent at the end",
        text,
        [GRANTED, b"", b"", b"", SETTLED],
        results=[answer(PROCEED)],
        frames=[RESERVE] + [SETTLE] * 4,
    )
    lost = [RESERVE] * 3 + [RELEASE] * 6
    errors = scripted(
        world,
        checks,
        "every reply lost",
        text,
        [b""] * 9,
        results=[answer(SERVICE)],
        frames=lost,
        log="info",
    )
    checks.equal(
        "every reply lost: the log",
        without_address(errors),
        [WHY_CLOSED, UNANSWERED_RESERVE, UNANSWERED_RELEASE, UNANSWERED_RELEASE, LEFT],
    )
    errors = scripted(
        world,
        checks,
        "every reply lost, by the default level",
        text,
        [b""] * 9,
        results=[answer(SERVICE)],
        frames=lost,
    )
    checks.equal(
        "every reply lost, by the default level: the log",
        without_address(errors),
        [WHY_CLOSED, LEFT],
    )


def warnings(world, checks):
    for what, (body, said) in OTHER_ANSWERS.items():
        reply = frame(body + identity(2, **MX1))
        errors = scripted(
            world,
            checks,
            f"a settle answered {what}",
            INPUT + COMMIT,
            [GRANTED, reply],
            results=[answer(PROCEED)],
            frames=[RESERVE, SETTLE],
        )
        told(checks, f"a settle answered {what}", errors, [of_a_try("settle", 2, said)])
    reply = frame(b"\x89" + identity(2, **MX1) + number(0))
    errors = scripted(
        world,
        checks,
        "a settle answered too many",
        INPUT + COMMIT,
        [GRANTED, reply],
        results=[answer(PROCEED)],
        frames=[RESERVE, SETTLE],
    )
    told(
        checks,
        "a settle answered too many",
        errors,
        [of_a_try("settle", 2, holds_only(0))],
    )
    scripted(
        world,
        checks,
        'a lost reserve with log = "off"',
        INPUT,
        [b""] * 3,
        results=[answer(SERVICE)],
        frames=[RESERVE] * 3,
        errors="",
        log="off",
    )
    errors = scripted(
        world,
        checks,
        'a lost reserve with log = "error"',
        INPUT,
        [b""] * 3,
        results=[answer(SERVICE)],
        frames=[RESERVE] * 3,
        log="error",
    )
    good = re.fullmatch(
        (r"\[ERROR link\] quota server 127.0.0.1:\d+: closed before its reply was" r" whole\n"),
        errors,
    )
    checks.holds(
        'a lost reserve with log = "error": the log',
        good,
        "one line with the address and why no answer came",
        errors,
    )
    away = INPUT + RCPT * 2
    errors = scripted(
        world,
        checks,
        "a server that is away for two recipients, by the default level",
        away,
        [b""] * 6 + [granted(3, 1, **MX1), RELEASED],
        results=[answer(SERVICE)] * 2 + [answer(PROCEED)],
        frames=[RESERVE] * 3
        + [reserve(2, login=b"alice", at=1_576_146_009, **MX1)] * 3
        + [reserve(3, login=b"alice", at=1_576_146_009, **MX1)],
    )
    checks.equal(
        "a server that is away for two recipients, by the default level: its beginning and its end",
        without_address(errors),
        [WHY_CLOSED, f"{SERVER} answers again, requests without an answer: 2"],
    )
    errors = scripted(
        world,
        checks,
        "a server that is away for two recipients",
        away,
        [b""] * 6 + [granted(3, 1, **MX1), RELEASED],
        results=[answer(SERVICE)] * 2 + [answer(PROCEED)],
        frames=[RESERVE] * 3
        + [reserve(2, login=b"alice", at=1_576_146_009, **MX1)] * 3
        + [reserve(3, login=b"alice", at=1_576_146_009, **MX1)],
        log="info",
    )
    marks = [line.split("]")[0] for line in errors.splitlines()]
    wanted = [
        "[ERROR link",
        "[INFO  filter",
        "[INFO  filter",
        "[WARN  link",
    ]
    checks.equal(
        (
            "a server that is away for two recipients: why once, each recipient, and that it"
            " answers again"
        ),
        marks,
        wanted,
    )
    asked = [reserve(n, login=b"alice", at=1_576_146_009, **MX1) for n in range(1, 252)]
    errors = scripted(
        world,
        checks,
        "a server that is away for 250 recipients",
        INPUT + RCPT * 250,
        [b""] * 250 + [granted(251, 1, **MX1), RELEASED],
        results=[answer(SERVICE)] * 250 + [answer(PROCEED)],
        frames=asked,
        tries=1,
    )
    checks.equal(
        "a server that is away for 250 recipients: its beginning and its end",
        without_address(errors),
        [WHY_CLOSED, f"{SERVER} answers again, requests without an answer: 250"],
    )
    refusals(world, checks)
    warnings_of_many_sessions(world, checks)
    closings_of_two_sessions(world, checks)
    moves_of_the_address(world, checks)
    logins_that_are_full(world, checks)
    login = b"a\x1b[2J \\" + b"x" * 200
    long = INPUT.replace(b"alice", login)
    asked = reserve(1, login=login, at=1_576_146_009, **MX1)
    errors = scripted(
        world,
        checks,
        "a login with bytes for a terminal",
        long,
        [b""] * 3,
        results=[answer(SERVICE)],
        frames=[asked] * 3,
        log="info",
    )
    checks.holds(
        "a login with bytes for a terminal: the log",
        "\x1b" not in errors and "a\\x1b[2J\\x20\\x5cx" in errors,
        "a\\x1b[2J\\x20\\x5cx.. and no byte of it raw",
        errors,
    )


def without_address(errors):
    """The lines of a log without the port of the server, which each run has another of."""
    return [re.sub(r"127\.0\.0\.1:\d+", "ADDRESS", line) for line in errors.splitlines()]


def of_a_try(kind, number, said, level="WARN "):
    """The line that says this of a request of alice's transaction."""
    return f"[{level} filter] {kind} {number} of transaction 1 {NAMED}: {said}"


def told(checks, what, errors, lines):
    """These lines, next to what the link says of the server."""
    came = [
        line for line in errors.splitlines() if not line.startswith("[ERROR link] quota server ")
    ]
    checks.equal(f"{what}: the log", came, lines)


def refusals(world, checks):
    """What is logged with a 550, and with the 451s that the filter gives by itself: the first of a
    cause in a session."""
    errors = scripted(
        world,
        checks,
        'a full answer with log = "info"',
        INPUT,
        [FULL],
        results=[answer(LIMIT)],
        frames=[RESERVE],
        log="info",
    )
    checks.equal('a full answer with log = "info": the log', errors, REFUSED_BY_LIMIT)
    second = frame(b"\x82" + identity(2, **MX1) + number(3) + number(3))
    for log, more in [
        ("info", REFUSED_BY_LIMIT.replace("WARN ", "INFO ").replace("reserve 1", "reserve 2")),
        ("warn", ""),
    ]:
        scripted(
            world,
            checks,
            f'two full answers of a login with log = "{log}"',
            INPUT + RCPT,
            [FULL, second],
            results=[answer(LIMIT)] * 2,
            frames=[RESERVE, reserve(2, login=b"alice", at=1_576_146_009, **MX1)],
            errors=REFUSED_BY_LIMIT + more,
            log=log,
        )
    for what, (body, said) in OTHER_ANSWERS.items():
        reply = frame(body + identity(1, **MX1))
        errors = scripted(
            world,
            checks,
            f"a reserve answered {what}",
            INPUT,
            [reply],
            results=[answer(SERVICE)],
            frames=[RESERVE],
        )
        told(checks, f"a reserve answered {what}", errors, [of_a_try("reserve", 1, said)])
    other = b"0123456789abcdef"
    came = world.filter(
        "127.0.0.1:1",
        CONFIG + AUTH + RCPT * 3 + of_session(AUTH + RCPT, other) + RCPT + of_session(RCPT, other),
    )
    results = (
        answer(SERVICE) * 3
        + answer(SERVICE, session=other)
        + answer(SERVICE)
        + answer(SERVICE, session=other)
    )
    checks.equal(
        "no transaction in two sessions: status and lines", came[:2], (0, REGISTRATION + results)
    )
    lines = came[2].splitlines()
    good = (
        len(lines) == 2
        and "session 7641df9771b4ed00" in lines[0]
        and other.decode() in lines[1]
        and all("no transaction" in line for line in lines)
    )
    checks.holds(
        "no transaction in two sessions: the log", good, "one line for each session", lines
    )
    lines = world.filter(
        "127.0.0.1:1", CONFIG + AUTH + RCPT * 2 + BEGIN.replace(b"1576146009", b"9") + RCPT * 2
    )[2].splitlines()
    causes = [line.partition("recipients are refused, ")[2] for line in lines]
    checks.equal(
        "no transaction, then one of a second out of range, in one session: the log",
        causes,
        ["smtpd reported no transaction", "the transaction's second is out of range"],
    )


def of_session(text, name):
    return text.replace(b"7641df9771b4ed00", name)


# bob, beside alice in another session
BOB = b"0123456789abcdef"
BEGUN_BY_BOB = of_session(AUTH + BEGIN + RCPT, BOB).replace(b"alice", b"bob")


def holds_only(held):
    """What is said of a settle of more than the server holds."""
    return f"the transaction holds {held} only, the server's address may have moved"


def settles_in(errors):
    """What the log says of settles: the level, the number, the transaction, and the rest."""
    return re.findall(r"\[(\w+) +filter\] settle (\d) of transaction (\d) [^:]*: (.*)\n", errors)


def warnings_of_many_sessions(world, checks):
    """64 warnings are remembered, the oldest makes room, and 255 bytes of a login are shown."""
    names = [b"%016x" % n for n in range(70)]
    text = b"".join(of_session(AUTH + RCPT * 2, name) for name in names)
    again = of_session(RCPT, names[-1]) + of_session(RCPT, names[0])
    warned = re.findall(
        r"session ([0-9a-f]{16}) \(login alice\): recipients are refused",
        world.filter("127.0.0.1:1", CONFIG + text + again)[2],
    )
    checks.equal(
        "no transaction in 70 sessions, then in the last and the first again: the log",
        warned,
        [name.decode() for name in [*names, names[0]]],
    )
    long = "a.of.accounting@outgoing.example.org"
    for login, named in [
        (long.encode(), long),
        (b"a" * 255, "a" * 255),
        (b"a" * 300, "a" * 255),
        (b"\\" * 256, r"\x5c" * 255),
    ]:
        errors = world.filter("127.0.0.1:1", CONFIG + AUTH.replace(b"alice", login) + RCPT)[2]
        checks.equal(
            f"a 451 to a login of {len(login)} bytes: how the log names it",
            re.findall(r"\(login (.*?)\): recipients are refused", errors),
            [named],
        )


def closings_of_two_sessions(world, checks):
    """Each line has the session of its own transaction, whichever session asked last."""

    def of_bob(text):
        return of_session(text, b"0123456789abcdef").replace(b"alice", b"bob")

    with nobody_there() as address:
        errors = world.filter(
            address,
            INPUT + of_bob(AUTH + BEGIN + RCPT) + COMMIT + of_bob(COMMIT),
            tries=1,
            log="info",
        )[2]
    named = re.findall(
        r"(reserve|release) (\d) of transaction (\d) \(host mx1, session (\w+), login (\w+)\)",
        errors,
    )
    alice, bob = ("7641df9771b4ed00", "alice"), ("0123456789abcdef", "bob")
    # (the second closing waits after the first, which is sent at each closing and at the end)
    wanted = [
        ("reserve", "1", "1", *alice),
        ("reserve", "2", "2", *bob),
        *[("release", "3", "1", *alice)] * 3,
    ]
    checks.equal("closings of two sessions: whom the log names", named, wanted)


def moves_of_the_address(world, checks):
    """Of the messages that were open as the address moved one is warned of, and one that began
    after that warning again."""
    text = INPUT + BEGUN_BY_BOB + COMMIT + of_session(COMMIT, BOB) + BEGIN + RCPT + COMMIT
    too_many = [frame(b"\x89" + identity(n, **MX1) + number(0)) for n in (3, 4, 6)]
    with Script(
        [GRANTED, granted(2, 1, **MX1), *too_many[:2], granted(5, 1, **MX1), too_many[2]]
    ) as server:
        errors = world.filter(server.address, text, log="info")[2]
    said = holds_only(0)
    checks.equal(
        "two messages that were open as the address moved, and one of later: the log",
        settles_in(errors),
        [("WARN", "3", "1", said), ("INFO", "4", "2", said), ("WARN", "6", "3", said)],
    )


def a_move_beside_an_older_message(world, checks):
    """Which messages are of one move goes by when they began, whichever of them had a recipient
    last, and whichever ends first."""
    ends, said = {"1": COMMIT, "2": of_session(COMMIT, BOB)}, holds_only(0)
    for what, more, order in [
        ("the older one had a recipient last", RCPT, ["1", "2"]),
        ("the newer one ends first", RCPT, ["2", "1"]),
        ("the newer one had a recipient last", of_session(RCPT, BOB), ["1", "2"]),
    ]:
        closed = b"".join(ends[it] for it in order)
        text = INPUT + BEGUN_BY_BOB + more + closed + BEGIN + RCPT + COMMIT
        too_many = {n: frame(b"\x89" + identity(n, **MX1) + number(0)) for n in (4, 5, 7)}
        with Script([too_many.get(n) or granted(n, 1, **MX1) for n in range(1, 8)]) as server:
            errors = world.filter(server.address, text, log="info")[2]
        checks.equal(
            f"two messages that were open as the address moved, of which {what}: the log",
            settles_in(errors),
            [
                ("WARN", "4", order[0], said),
                ("INFO", "5", order[1], said),
                ("WARN", "7", "3", said),
            ],
        )


def refusals_of_two_messages(world, checks):
    """But for a move of the address each message that the server refuses to settle is warned of,
    also of two that were open at once."""
    text = INPUT + BEGUN_BY_BOB + COMMIT + of_session(COMMIT, BOB)
    for what, (body, said) in OTHER_ANSWERS.items():
        refused = [frame(body + identity(n, **MX1)) for n in (3, 4)]
        with Script([GRANTED, granted(2, 1, **MX1), *refused]) as server:
            errors = world.filter(server.address, text, log="info")[2]
        checks.equal(
            f"the settles of two messages answered {what}: the log",
            settles_in(errors),
            [("WARN", "3", "1", said), ("WARN", "4", "2", said)],
        )


def logins_that_are_full(world, checks):
    """The first 550 of a login on a day is warned of, beside those of 700 others."""

    def full(heard):
        # (of a request's frame the number, as its host and its run are)
        return frame(b"\x82" + heard[3:19] + number(3) + number(3))

    def asked(login, day):
        name = b"%016x" % login
        return of_session(
            AUTH.replace(b"alice", b"u%d" % login)
            + BEGIN.replace(b"1576146009", b"%d" % (86_400 * day + 9))
            + RCPT
            + RESET_LINE,
            name,
        )

    wanted = [
        (0, 10),
        (0, 10),
        (0, 11),
        (0, 10),
        *((login, 10) for login in range(1, 700)),
        (0, 10),
        (0, 12),
    ]
    with Script([], otherwise=full) as server:
        errors = world.filter(
            server.address, CONFIG + b"".join(asked(*it) for it in wanted), log="info"
        )[2]
    levels = re.findall(
        (
            r"\[(\w+) +filter\] reserve \d+ of transaction \d+ .*: refused by the limit,"
            r" 3 used of 3\n"
        ),
        errors,
    )
    checks.equal(
        "logins whose limit is reached, on days",
        levels,
        ["WARN" if it not in wanted[:place] else "INFO" for place, it in enumerate(wanted)],
    )


def no_server(world, checks):
    text = INPUT + COMMIT
    with nobody_there() as address:
        status, output, errors = world.filter(address, text, log="info")
    checks.equal("no server: lines and status", (status, output), UNANSWERED)
    errors = after_the_start(checks, "no server", errors, address)
    refused = "[ERROR link] quota server ADDRESS: Connection refused (os error 111)"
    wanted = [refused, UNANSWERED_RESERVE, UNANSWERED_RELEASE, UNANSWERED_RELEASE, LEFT]
    checks.equal(
        "no server: reserve, release at the commit, release at the end",
        without_address(errors),
        wanted,
    )
    came, took = soon(lambda: not_accepted(world), 4)
    checks.equal("a server that accepts nothing: lines and status", came, UNANSWERED)
    checks.holds(
        "a server that accepts nothing: the timeout of a connect",
        0.59 < took < 4,
        "2 tries of 300 ms",
        f"{took:.2f} s",
    )
    came, took = soon(lambda: scripted_end(world, [SILENCE] * 3, timeout=200), 4)
    good = came == UNANSWERED and 0.59 < took < 4
    checks.holds(
        "a silent server: 3 tries of 200 ms", good, "451 after 600 ms", (came, f"{took:.2f} s")
    )
    came, took = soon(lambda: scripted_end(world, [DRIP] * 2, tries=2, timeout=300), 4)
    good = came == UNANSWERED and 0.59 < took < 4
    checks.holds(
        "a server that drips: 2 tries of 300 ms", good, "451 after 600 ms", (came, f"{took:.2f} s")
    )


def not_accepted(world):
    """The status and lines of a filter that asks a server which accepts nothing and has as many
    waiting as it lets wait."""
    with crowded_port() as address:
        return world.filter(address, INPUT, tries=2, timeout=300)[:2]


def scripted_end(world, script, **settings):
    """The status and lines of a filter that asks a server by this script."""
    with Script(script) as server:
        return world.filter(server.address, INPUT, **settings)[:2]


# why recipients are refused without a question, in the cases below
REFUSED = {
    "smtpd reported no transaction": ["no transaction", "a transaction that ended"],
    "the login is empty or longer than 255 bytes": ["an empty login", "a login of 256 bytes"],
    "the transaction's second is out of range": [
        "a transaction before the first day",
        "a transaction after the year 3000",
    ],
}


def without_a_question(world, checks):
    """Requests that are answered with nothing sent."""
    cases = [
        ("no login", CONFIG + BEGIN + RCPT, PROCEED),
        ("a login that failed", CONFIG + AUTH.replace(b"pass", b"fail") + BEGIN + RCPT, PROCEED),
        ("an empty login", CONFIG + AUTH.replace(b"|alice", b"") + BEGIN + RCPT, SERVICE),
        (
            "a login of 256 bytes",
            CONFIG + AUTH.replace(b"alice", b"a" * 256) + BEGIN + RCPT,
            SERVICE,
        ),
        ("no transaction", CONFIG + AUTH + RCPT, SERVICE),
        ("a transaction that ended", CONFIG + AUTH + BEGIN + RESET_LINE + RCPT, SERVICE),
        (
            "a transaction before the first day",
            CONFIG + AUTH + BEGIN.replace(b"1576146009", b"0000086399") + RCPT,
            SERVICE,
        ),
        (
            "a transaction after the year 3000",
            CONFIG + AUTH + BEGIN.replace(b"1576146009", b"32503680001") + RCPT,
            SERVICE,
        ),
        (
            "a config line once it is ready",
            CONFIG + b"config|subsystem|smtp-in\n" + BEGIN + RCPT,
            PROCEED,
        ),
        ("another phase", INPUT.replace(b"rcpt-to", b"mail-from"), PROCEED),
        (
            "another subsystem",
            INPUT.replace(
                b"filter|0.7|1576146010.006099|smtp-in", b"filter|0.7|1576146010.006099|smtp-out"
            ),
            PROCEED,
        ),
        (
            "a session that went",
            CONFIG
            + AUTH
            + BEGIN
            + b"report|0.7|1576146009.1|smtp-in|link-disconnect|7641df9771b4ed00\n"
            + RCPT,
            PROCEED,
        ),
    ]
    for what, text, result in cases:
        with Script([GRANTED]) as server:
            came = world.filter(server.address, text)
        checks.equal(
            f"{what}: status, lines, frames",
            (*came[:2], server.heard),
            (0, REGISTRATION + answer(result), []),
        )
        if result is PROCEED:
            checks.equal(f"{what}: the log", came[2], "")
        else:
            login = re.search(rb"\|pass\|(\w*)\n|\|pass\n", text)[1] or b""
            why = next(said for said, whats in REFUSED.items() if what in whats)
            line = (
                "[WARN  filter] session 7641df9771b4ed00 (login"
                f" {login[:255].decode()}): recipients are refused, {why}\n"
            )
            checks.equal(f"{what}: the log", came[2], line)
    with Script([GRANTED]) as server:
        came = world.filter(server.address, INPUT + AUTH.replace(b"alice", b"bob") + RCPT)
    said = "the transaction began with another login or at another second"
    line = (
        "[WARN  filter] session 7641df9771b4ed00 (login bob): recipients are refused," f" {said}\n"
    )
    checks.equal(
        "another login within a transaction",
        (*came, server.heard),
        (0, REGISTRATION + answer(PROCEED) + answer(SERVICE), line, [RESERVE]),
    )


def faults(world, checks):
    """What ends the filter: status 1, one line of error, and what was written stays."""
    ready = CONFIG
    cases = [
        ("an empty input", b"", b"", "input ended before config ready"),
        (
            "an end before ready",
            b"config|subsystem|smtp-in\n",
            b"",
            "input ended before config ready",
        ),
        ("a report before ready", AUTH + CONFIG, b"", "line before config ready"),
        ("a request before ready", RCPT, b"", "line before config ready"),
        ("an end inside a line", ready + AUTH[:-1], REGISTRATION, "input ends inside a line"),
        (
            "another version",
            ready + AUTH + BEGIN + RCPT.replace(b"0.7", b"0.6").replace(b"rcpt-to", b"mail-from"),
            REGISTRATION,
            "line refused: version",
        ),
        (
            "a report with five fields",
            ready + b"report|0.7|1.0|smtp-in|link-auth\n",
            REGISTRATION,
            "line refused: short",
        ),
        (
            "a time without a point",
            ready + AUTH.replace(b".006099", b""),
            REGISTRATION,
            "line refused: time",
        ),
        (
            "an empty session",
            ready + AUTH.replace(b"7641df9771b4ed00", b""),
            REGISTRATION,
            "line refused: empty field",
        ),
        (
            "an auth without a result",
            ready + AUTH.replace(b"pass|alice", b"a|b"),
            REGISTRATION,
            "report refused: auth",
        ),
        (
            "an auth with its result in the middle",
            ready + AUTH.replace(b"pass|alice", b"a|pass|b"),
            REGISTRATION,
            "report refused: auth",
        ),
        (
            "a begin without a message",
            ready + BEGIN.replace(b"|4c56d3a1", b""),
            REGISTRATION,
            "report refused: message",
        ),
        ("65,537 bytes without an end", ready + b"x" * 65_537, REGISTRATION, "line too long"),
    ]
    for what, text, written, error in cases:
        came = world.filter("127.0.0.1:1", text)
        checks.equal(
            f"{what}: status, lines, errors",
            came,
            (1, written, f"{ended_by(error)}mailquota: {error}\n"),
        )
    quiet = world.filter("127.0.0.1:1", b"", log="off")
    checks.equal(
        'an empty input with log = "off"',
        quiet,
        (1, b"", "mailquota: input ended before config ready\n"),
    )
    came = world.filter("127.0.0.1:1", ready + b"x" * 65_536 + b"\n" + b"\n" + b"anything|else\n")
    checks.equal(
        "a line of 65,536 bytes, an empty and a strange one: passed over",
        came,
        (0, REGISTRATION, ""),
    )
    with open("/dev/full", "wb") as device:
        file = world.filter_file("127.0.0.1:1")
        status, _, errors = world.run("filter", "--config", file, text=CONFIG, output=device)
    checks.equal(
        "an output that takes nothing",
        (status, errors),
        (1, f"{ended_by('write failed')}mailquota: write failed\n"),
    )
    with Script([GRANTED]) as server:
        status, output, errors = world.filter(server.address, INPUT + b"report|0.6|")
    error = "input ends inside a line"
    wanted = f"{ended_by(error)}{left_by(closings=0, transactions=1)}mailquota: {error}\n"
    checks.equal(
        "an end inside a line after an answer",
        (status, output, errors),
        (1, REGISTRATION + answer(PROCEED), wanted),
    )
    with nobody_there() as address:
        came = world.filter(address, INPUT + COMMIT + b"report|0.6|", tries=1)
    wanted = (
        f"{unreached(address)}{ended_by(error)}{left_by(closings=1, transactions=0)}mailquota:"
        f" {error}\n"
    )
    checks.equal("an end inside a line with a closing that waits", (came[0], came[2]), (1, wanted))


def its_run(world, checks):
    """The first line of the log has the run: that of the words, or the clock's milliseconds."""
    config = world.filter_file("127.0.0.1:1", log="info")

    def run_of(*words):
        """The run in the first line of a filter that is given nothing to answer."""
        first = world.run("filter", "--config", config, *words, text=CONFIG)[2].partition("\n")[0]
        found = re.fullmatch(
            (
                r"\[INFO  filter\] the filter of host mx1 begins its run"
                r" (\d+), with the server 127\.0\.0\.1:1"
            ),
            first,
        )
        return int(found[1]) if found else first

    checks.equal("the first line of a filter of run 7", run_of("--run", "7"), 7)
    # (what `smtpd` has for it stands above this file)
    before = time.time_ns() // 1_000_000
    run = run_of()
    checks.holds(
        "the first line of a filter without a number",
        run in range(before, time.time_ns() // 1_000_000 + 1),
        f"a run from {before} on, and not later",
        run,
    )


def at_each_level(world, checks):
    """Each level has its own lines and those of the levels before it: one scenario at all four."""
    named = f"of transaction 1 {NAMED}"
    wanted = [
        WHY_CLOSED,
        f"[INFO  filter] reserve 1 {named}: no answer in 3 tries",
        f"{SERVER} answers again, requests without an answer: 1",
        f"[WARN  filter] reserve 2 {named}: refused by the limit, 3 used of 3",
        f"[INFO  filter] reserve 3 {named}: refused by the limit, 3 used of 3",
    ]
    full = [frame(b"\x82" + identity(n, **MX1) + number(3) + number(3)) for n in (2, 3)]
    released = frame(b"\x84" + identity(4, **MX1) + number(0))
    for level, marks in [
        ("off", []),
        ("error", ["[ERROR"]),
        ("warn", ["[ERROR", "[WARN "]),
        ("info", ["[ERROR", "[WARN ", "[INFO "]),
    ]:
        with Script([b""] * 3 + [*full, released]) as server:
            errors = world.filter(server.address, INPUT + RCPT * 2 + RESET_LINE, log=level)[2]
        if level == "info":
            errors = after_the_start(checks, "a filter at each level", errors, server.address)
        checks.equal(
            f'a filter with log = "{level}": its lines',
            without_address(errors),
            [line for line in wanted if line.startswith(tuple(marks))],
        )


def names_as_long_as_any(world, checks):
    """A login of 255 bytes and a host of 64 stand whole in the lines about a request, and of a
    longer session its first 16 bytes; a login of any length is warned of once a day."""
    host, run = b"mx-1." + b"h" * 59, 281_474_976_710_655
    for what, login, shown_as in [
        ("255 bytes", b"l" * 255, "l" * 255),
        ("255 bytes that are escaped", b"\\" * 255, r"\x5c" * 255),
        ("101 bytes", b"l" * 101, "l" * 101),
    ]:
        text = of_session(INPUT.replace(b"alice", login) + RCPT, b"0123456789abcdefXYZ")
        sender = {"host": host, "run": run}
        full = [frame(b"\x82" + identity(n, **sender) + number(9) + number(9)) for n in (1, 2)]
        released = frame(b"\x84" + identity(3, **sender) + number(0))
        with Script([*full, released]) as server:
            config = world.filter_file(server.address, host=host.decode(), log="info")
            errors = world.run("filter", "--config", config, "--run", str(run), text=text)[2]
        named = f"(host {host.decode()}, session 0123456789abcdef, login {shown_as})"
        said = "refused by the limit, 9 used of 9"
        checks.equal(
            f"a login of {what}, a host of 64 and a session of 19: the log",
            errors.splitlines(),
            [
                (
                    "[INFO  filter] the filter of host"
                    f" {host.decode()} begins its run {run}, with the server {server.address}"
                ),
                f"[WARN  filter] reserve 1 of transaction 1 {named}: {said}",
                f"[INFO  filter] reserve 2 of transaction 1 {named}: {said}",
            ],
        )
    for name in (b"0123456789abcdef", b"0123456789abcdefXYZ", b"01", b"0123456789abcdef" * 9):
        errors = world.filter("127.0.0.1:1", CONFIG + of_session(AUTH + RCPT, name))[2]
        checks.equal(
            f"a 451 in a session of {len(name)} bytes: how the log names it",
            re.findall(r" session (\S+) \(login alice\): recipients are refused", errors),
            [name[:16].decode()],
        )


def counts_of_lines(world, checks):
    """How many tries were made, how many a server holds, how much is used of which limit, and how
    many closings are left, as great as they may be."""
    for tries_made in (1, 2, 5, 10):
        with nobody_there() as address:
            errors = world.filter(address, INPUT + RESET_LINE, tries=tries_made, log="info")[2]
        said = re.findall(r"\] (reserve|release) (\d) .*: no answer in (\d+) tries(.*)\n", errors)
        # (the closing is sent once more at the end of the input)
        wanted = [("reserve", "1", ""), *[("release", "2", ", it waits")] * 2]
        checks.equal(
            f"no answer, with {tries_made} tries: how many the log has",
            said,
            [(kind, n, str(tries_made), waits) for kind, n, waits in wanted],
        )
    for held in (0, 1, 999):
        too_many = frame(b"\x89" + identity(2, **MX1) + number(held))
        with Script([GRANTED, too_many]) as server:
            errors = world.filter(server.address, INPUT + COMMIT)[2]
        checks.equal(
            f"a settle of a transaction that holds {held}: the log",
            errors.splitlines(),
            [of_a_try("settle", 2, holds_only(held))],
        )
    for used in (0, 65_535, 65_536, 1_000_000):
        full = frame(b"\x82" + identity(1, **MX1) + number(used) + number(used))
        with Script([full, RELEASED]) as server:
            errors = world.filter(server.address, INPUT + RESET_LINE)[2]
        checks.equal(
            f"a 550 with {used} used of {used}: the log",
            errors.splitlines(),
            [of_a_try("reserve", 1, f"refused by the limit, {used} used of {used}")],
        )
    messages = [of_session(AUTH + BEGIN + RCPT + RESET_LINE, b"%016x" % n) for n in range(120)]
    with nobody_there() as address:
        errors = world.filter(address, CONFIG + b"".join(messages), tries=1)[2]
    checks.equal(
        "120 messages without an answer: what is left",
        errors.splitlines()[1:],
        [LEFT.replace(": 1", ": 120")],
    )


def ended_by(error):
    """What the log has of a filter that this fault ends."""
    return f"[ERROR filter] the filter ends: {error}\n"


def left_by(closings, transactions):
    """What it has after that, where the filter leaves something."""
    return (
        f"[WARN  filter] closings without an answer: {closings}, open"
        f" transactions: {transactions}\n"
    )


def a_socket_that_breaks(world, checks):
    """smtpd's end is one socket pair: where it goes with lines unread, the filter's next read
    fails."""
    ours, theirs = socket.socketpair()
    words = [world.program, "filter", "--config", world.filter_file("127.0.0.1:1"), "--run", "1"]
    process = subprocess.Popen(words, stdin=theirs, stdout=theirs, stderr=subprocess.PIPE)
    theirs.close()
    ours.sendall(CONFIG)
    select.select([ours], [], [], SECONDS)
    ours.close()
    _, errors = process.communicate(timeout=SECONDS)
    came = process.returncode, errors.decode()
    checks.equal(
        "a socket pair whose other end went",
        came,
        (1, f"{ended_by('read failed')}mailquota: read failed\n"),
    )


def a_thousand_recipients(world, checks):
    """A transaction lets 1,000 recipients through; the next isn't asked for."""

    def grant(heard):
        sequence = int.from_bytes(heard[15:19], "big")
        return granted(sequence, sequence, **MX1)

    wanted = [reserve(n, login=b"alice", at=1_576_146_009, **MX1) for n in range(1, 1001)]
    scripted(
        world,
        checks,
        "1,001 recipients",
        CONFIG + AUTH + BEGIN + RCPT * 1001,
        [grant] * 1000,
        results=[answer(PROCEED)] * 1000 + [answer(SERVICE)],
        frames=wanted,
    )
