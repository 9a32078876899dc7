"""Which lines stand in the log at each level: of a server with `keep`, over a night for which there
is no new file, the next attempt, and a switch that fails and its repair; of a filter in a pause,
and as its server's address moves. All lines are those of level info; each level below leaves out
those of the levels after it, and nothing else.
"""
import os
import re

from cases.attempts import FEW, OF_SYSTEM, renames_fail
from cases.filters import (
    AUTH,
    BEGIN,
    COMMIT,
    GRANTED,
    INPUT,
    MX1,
    NAMED,
    PROCEED,
    RCPT,
    REGISTRATION,
    RESET_LINE,
    SERVER,
    SERVICE,
    answer,
    holds_only,
    of_session,
)
from cases.holding_back import AGAIN, BOB, ONE_TRY, WHY, at
from cases.nights import (
    DAY,
    DEFAULT,
    KEEP,
    about,
    asked,
    by_clock,
    filled,
    first_day,
    has_note,
    made_of,
    nightly,
    today,
)
from ends import SILENCE, Script, copied, of_store, wait_past_a_night, wait_until
from wire import frame, granted, identity, number, usage

# what the lines of a level begin with
LEVELS = {
    "off": (),
    "error": ("[ERROR",),
    "warn": ("[ERROR", "[WARN "),
    "info": ("[ERROR", "[WARN ", "[INFO "),
}
IS_FOLDER = "Is a directory (os error 21)"


def run(world, checks):
    for case in (
        nights_of_a_server,
        a_switch_and_its_repair,
        pauses_of_a_filter,
        moves_of_a_filter,
    ):
        wait_past_a_night()
        case(world, checks)


def of_level(level, lines):
    """Those of some lines that stand at a level; what has no level is no line of the log."""
    return [it for it in lines if not it.startswith("[") or it.startswith(LEVELS[level])]


def plain(line):
    """A server's line without how long what it tells took."""
    return re.sub(r"\d+ ms", "N ms", line)


def nights_of_a_server(world, checks):
    """A folder has the name of the new file as a night begins, and an hour later it hasn't."""
    day, source = today(), f"{world.folder}/source"
    frames = about(day, 20)
    made_of(world, source, frames)
    for level in LEVELS:
        path = copied(source, f"{world.folder}/night-{level}")
        os.mkdir(f"{path}.part")
        server, clock = by_clock(world, path, DAY * day + 10_860, log=level)
        with server:
            # (it looks after each round of requests)
            asked(server, [usage()] * 3)
            os.rmdir(f"{path}.part")
            clock.pass_to(DAY * day + 10_860 + 3_660)
            good = wait_until(lambda: asked(server, [usage()]) and has_note(path))
            lines = [plain(it) for it in server.log_lines()]
        left = f"[WARN  night] {path}.part, which a renewal left: {IS_FOLDER}"
        of_ledger = f"[INFO  night] ledger {path}: "
        wanted = [
            (
                f"[INFO  server] ledger {path}: version 3, default {DEFAULT}, offset"
                f" 0, answers={len(frames)} days={len(frames)} limits=0, opened in N ms"
            ),
            f"{of_ledger}has days from {day - KEEP - 1} on, keeps {KEEP} before today",
            f"[INFO  server] listening on {server.listen} for 1000000 connections",
            left,
            of_store(f"{path}.part", IS_FOLDER).rstrip(),
            left,
            (
                f"[WARN  night] days before {day - KEEP} stay: no new store; next"
                " attempt in an hour"
            ),
            f"[INFO  night] forgetting the days before {day - KEEP}",
            (
                f"{of_ledger}the days before {day - KEEP} are forgotten, in N ms, the last N ms"
                " without an answer"
            ),
        ]
        # (what a renewal left is looked for before anything is said of the ledger)
        wanted = [wanted[3], *wanted[:3], *wanted[4:]]
        checks.equal(
            f'a night with log = "{level}": its lines',
            (good, lines),
            (True, of_level(level, wanted)),
        )


def a_switch_and_its_repair(world, checks):
    """A switch that fails is an error, what is done about it at the next start is told at level
    info, and why a command ends is said at each."""
    source, day = f"{world.folder}/to-be-switched", first_day()
    filled(world, source, FEW)
    for level in LEVELS:
        path = copied(source, f"{world.folder}/switch-{level}")
        with nightly(world, path, log=level, limit=renames_fail(1)) as server:
            status, lines = server.status(), server.log_lines()[-3:]
        wanted = [
            f"[INFO  night] forgetting the days before {day}",
            of_store(f"{path}.part", OF_SYSTEM).rstrip(),
            "mailquota: store can't be opened",
        ]
        checks.equal(
            f'a switch that fails, with log = "{level}": the status, and the last lines',
            (status, lines),
            (1, of_level(level, wanted)),
        )
        with nightly(world, path, log=level) as server:
            good = wait_until(lambda path=path: has_note(path))
            lines = [plain(it) for it in server.log_lines()]
        undone = f"[INFO  night] {path}: an interrupted switch to a new file is undone"
        forgotten = (
            f"[INFO  night] ledger {path}: the days before {day} are forgotten, in N"
            " ms, the last N ms without an answer"
        )
        checks.equal(
            f'a switch that failed, with log = "{level}": the first line of the next, and the last',
            (good, lines[:1], lines[-1:]),
            (True, of_level(level, [undone]), of_level(level, [forgotten])),
        )


# ---- filters


def without_peer(errors):
    return re.sub(r"127\.0\.0\.1:\d+", "ADDRESS", errors).splitlines()


def pauses_of_a_filter(world, checks):
    """An outage of two pauses, a recipient in each, an answer, and then a request that isn't
    answered as the input ends."""
    begins = 1_576_146_010
    text = INPUT + b"".join(at(RCPT, begins + later) for later in (1, 30, 31, 60))
    pause = "no answer in time: nothing is asked for 30 seconds"
    reserves = f"of transaction 1 {NAMED}: no answer in 1 tries"
    wanted = [
        ("[INFO  filter] the filter of host mx1 begins its run 1, with" " the server ADDRESS"),
        WHY,
        f"[INFO  filter] reserve 1 {reserves}",
        f"[WARN  filter] {pause}, recipients are answered 451",
        f"[INFO  filter] reserve 2 {reserves}",
        f"[INFO  filter] {pause}",
        f"{SERVER} answers again, requests without an answer: 2",
        f"{AGAIN}2",
    ]
    released = frame(b"\x84" + identity(4, **MX1) + number(1))
    for level in LEVELS:
        with Script([SILENCE, SILENCE, granted(3, 1, **MX1), released]) as server:
            status, output, errors = world.filter(
                server.address, text + RESET_LINE, **ONE_TRY, log=level
            )
        checks.equal(
            f'two pauses with log = "{level}": the answers',
            (status, output),
            (0, REGISTRATION + answer(SERVICE) * 4 + answer(PROCEED)),
        )
        checks.equal(
            f'two pauses with log = "{level}": the lines',
            without_peer(errors),
            of_level(level, wanted),
        )


def moves_of_a_filter(world, checks):
    """Two messages that are open as the address moves: the first is warned of, the other one told
    at level info; then the input ends before a third is closed."""
    bob = of_session(AUTH.replace(b"alice", b"bob") + BEGIN + RCPT, BOB)
    text = INPUT + bob + COMMIT + of_session(COMMIT, BOB) + BEGIN + RCPT + COMMIT
    too_many = [frame(b"\x89" + identity(n, **MX1) + number(0)) for n in (3, 4)]
    of_bob = NAMED.replace("alice", "bob").replace("7641df9771b4ed00", BOB.decode())
    wanted = [
        ("[INFO  filter] the filter of host mx1 begins its run 1, with" " the server ADDRESS"),
        f"[WARN  filter] settle 3 of transaction 1 {NAMED}: {holds_only(0)}",
        f"[INFO  filter] settle 4 of transaction 2 {of_bob}: {holds_only(0)}",
        "[ERROR link] quota server ADDRESS: closed before its reply was whole",
        # (it is sent once more at the end)
        *[(f"[INFO  filter] settle 6 of transaction 3 {NAMED}: no answer in 1 tries," " it waits")]
        * 2,
        "[WARN  filter] the input ends, closings without an answer: 1",
    ]
    for level in LEVELS:
        script = [GRANTED, granted(2, 1, **MX1), *too_many, granted(5, 1, **MX1), b"", b""]
        with Script(script) as server:
            status, output, errors = world.filter(server.address, text, tries=1, log=level)
        checks.equal(
            f'a move with log = "{level}": the status, and the lines',
            (status, without_peer(errors)),
            (0, of_level(level, wanted)),
        )
