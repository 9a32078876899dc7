"""What fails halfway, and is tried again: nights that fail until the next one, a switch that fails
and whose repair does, `forget`, backups, orders whose replies are lost, and a message whose
recipients are at two servers as the address moves there and back.

Each has its lines at the first fault, at the second, and once it works again.
"""
import copy
import os
import re
import time

import wire
from books import Books
from cases.audits import audit
from cases.contrib import LATE, Backup
from cases.damage import sound
from cases.filters import PROCEED, SERVICE
from cases.forgetting import forget, left_by_a_server
from cases.nights import (
    DAY,
    DEFAULT,
    KEEP,
    NOTED,
    NOT_OPENED,
    SWITCHED,
    about,
    asked,
    by_clock,
    filled,
    first_day,
    has_note,
    made_of,
    names,
    nightly,
    request,
    today,
    warned_of,
)
from cases.retiring import of_the_four, of_version, version_of, written
from cases.stopping import CUT, caps
from ends import (
    Listening,
    Server,
    copied,
    fault,
    ledger_settings,
    of_store,
    read_request,
    refusal,
    unavailable,
    wait_past_a_night,
    wait_until,
)
from rows import same_rows
from smtpd import Smtpd, result

# reserves of a ledger that is soon read
FEW = 12


def run(world, checks):
    for case in (
        nights_until_the_next,
        a_switch_and_its_repair,
        a_forget_again,
        a_backup_again,
        an_older_file_again,
        orders_again,
        there_and_back,
    ):
        wait_past_a_night()
        case(world, checks)


# ---- nights


def nights_until_the_next(world, checks):
    """No new file can be made for two nights, at each hour of them: each attempt is warned of, with
    the day of its own night. Once it can be made an hour later forgets, and the night after that is
    as any other."""
    what, path, day = "two nights without a new file", f"{world.folder}/two-nights", today()
    frames = about(day, 40)
    made_of(world, path, frames)
    books = Books(0, DEFAULT)
    for it in frames:
        books.serve(it)
    os.mkdir(f"{path}.part")
    server, clock = by_clock(world, path, DAY * day + 7_200)
    with server:
        # (its first look is over then: one within which time passes would rest too long)
        asked(server, [wire.usage()] * 2)

        def stays(first):
            return (
                f"[WARN  night] days before {first} stay: no new store; next attempt" " in an hour"
            )

        def lines():
            # (without how long it took)
            return [
                it.partition(" forgotten, in")[0]
                for it in server.all_log_lines()
                if "days before" in it
            ]

        def waits_for(moment, count):
            clock.pass_to(moment)
            good = wait_until(lambda: asked(server, [wire.usage()]) and len(lines()) >= count)
            # (an answer: since it logged it has looked at its clock, from when on it is an hour)
            asked(server, [wire.usage()])
            return good

        def logs(at, good, wanted):
            checks.equal(f"{what}: the log {at}", (good, lines()), (True, wanted))

        wanted = [stays(day - KEEP)]
        logs("at 3:01", waits_for(DAY * day + 10_860, 1), wanted)
        wanted += [stays(day - KEEP)]
        logs("an hour later", waits_for(DAY * day + 14_520, 2), wanted)
        # (on which nothing was reserved yet, so that the day before is the newest)
        wanted += [stays(day - KEEP)]
        logs("a day later", waits_for(DAY * (day + 1) + 10_860, 3), wanted)
        later = request(900, day + 1)
        checks.equal(f"{what}: a reserve", asked(server, [later]), [books.serve(later)])
        wanted += [stays(day + 1 - KEEP)]
        logs("an hour after a reserve", waits_for(DAY * (day + 1) + 14_520, 4), wanted)
        os.rmdir(f"{path}.part")
        clock.pass_to(DAY * (day + 1) + 18_000)
        asked(server, [wire.usage()] * 20)
        logs("within an hour, as a file can be made", True, wanted)
        wanted += [
            f"[INFO  night] forgetting the days before {day + 1 - KEEP}",
            f"[INFO  night] ledger {path}: the days before {day + 1 - KEEP} are",
        ]
        logs("once it can be made", waits_for(DAY * (day + 1) + 18_180, 6), wanted)
        good = wait_until(lambda: asked(server, [wire.usage()]) and has_note(path))
        with open(f"{path}.night", encoding="ascii") as file:
            said = file.read().partition(", in ")[0]
        checks.equal(
            f"{what}: the note then",
            (good, said),
            (True, f"forgot the days before {day + 1 - KEEP} on day {day + 1}"),
        )
        books = books.remembered(day + 1 - KEEP)
        later = [request(901, day + 2)]
        checks.equal(f"{what}: a reserve then", asked(server, later), [books.serve(later[0])])
        clock.pass_to(DAY * (day + 2) + 10_740)
        asked(server, [wire.usage()] * 20)
        logs("up to the next", True, wanted)
        wanted += [it.replace(str(day + 1 - KEEP), str(day + 2 - KEEP)) for it in wanted[-2:]]
        logs("of the next", waits_for(DAY * (day + 2) + 10_860, 8), wanted)
        server.process.kill()
        server.status()
    same_rows(checks, what, path, books.remembered(day + 2 - KEEP))
    checks.equal(f"{what}: files", names(path), NOTED)


# rename(2), and how the system says that a call fails
RENAME, ERROR, OF_SYSTEM = 82, 5, "Input/output error (os error 5)"
# of each step of a switch: the file that gets another name, what is left where that fails, and how
# the next start tells of it. Where the first fails no switch has begun
STEPS = [
    ("", ["", "-wal"], None),
    (".part", ["-wal", ".old", ".part", ".part-wal"], "undone"),
    (".part-wal", ["-wal", ".next", ".old", ".part-wal"], "finished"),
    (".next", ["-wal", ".next", ".old"], "finished"),
]


def renames_fail(before):
    """The limit of a program whose rename after so many fails."""
    return "failing", f"{RENAME},{ERROR},{before}"


def a_switch_and_its_repair(world, checks):
    """The first step of a switch fails: the server says so, and serves the former ledger on. A
    later one fails: the server ends. A repair of it that fails, too, says at which file and changes
    nothing, at each attempt. The next start does it, and forgets what is due still."""
    source, day = f"{world.folder}/to-be-switched", first_day()
    books = filled(world, source, FEW)
    for place, (of, left, told) in enumerate(STEPS):
        what, path = f"step {place + 1} of a switch fails", f"{world.folder}/switched{place}"
        with nightly(world, copied(source, path), limit=renames_fail(place)) as server:
            if told:
                ended, lines = server.status(), warned_of(server)
                logged = of_store(path + of, OF_SYSTEM).rstrip()
            else:
                wait_until(lambda: warned_of(server) or server.process.poll() is not None)
                # (a server that answers then has removed the new file)
                frames = [request(10 * FEW, today()), wire.usage(b"u1", today() - 5)]
                served = copy.deepcopy(books)
                checks.equal(
                    f"{what}: the former ledger is served on",
                    asked(server, frames),
                    [served.serve(it) for it in frames],
                )
                ended, lines = server.process.poll(), warned_of(server)
                logged = (
                    f"[WARN  night] {path}: {OF_SYSTEM}; the former ledger stays"
                    " until the next night"
                )
            files = names(path)
            if not told:
                server.process.kill()
                server.status()
        checks.equal(
            f"{what}: the end, what is logged, and files",
            (ended, lines, files),
            (1 if told else None, [logged], left),
        )
        line = f"[INFO  night] {path}: an interrupted switch to a new file is"
        # (as a switch is undone, the former ledger gets its name back)
        repaired = ".old" if told == "undone" else of
        settings = {"default": DEFAULT, "keep": KEEP, "log": "info"}
        for word in ("audit", "limits", "audit") if told else ():
            came = world.run(
                word,
                "--config",
                ledger_settings(world, path, **settings),
                limit=renames_fail(0),
            )
            log = f"{line} {told}\n" + of_store(path + repaired, OF_SYSTEM)
            checks.equal(
                f"{what}, and so does its repair by {word}",
                (came, names(path)),
                (fault(NOT_OPENED, log=log), left),
            )
        is_due = told != "finished"
        with nightly(world, path) as server:
            good = wait_until(lambda: not is_due or has_note(path) or warned_of(server))
            asked(server, [wire.usage()])
            lines = [re.sub(r"\d+ ms", "N ms", it) for it in server.log_lines()]
            server.process.kill()
            server.status()
        wanted = [f"{line} {told}"] if told else []
        if is_due:
            wanted += [
                f"[INFO  night] forgetting the days before {day}",
                (
                    f"[INFO  night] ledger {path}: the days before {day} are"
                    " forgotten, in N ms, the last N ms without an answer"
                ),
            ]
        else:
            wanted.append(
                f"[INFO  night] ledger {path}: has days from {day} on, keeps {KEEP}" " before today"
            )
        checks.equal(
            f"{what}, and then none: what is logged of it and of days, and files",
            (good, [it for it in lines if it in wanted or it.startswith("[WARN")], names(path)),
            (True, wanted, NOTED if is_due else SWITCHED),
        )
        same_rows(checks, what, path, (books if told else served).remembered(day))


# ---- commands


def a_forget_again(world, checks):
    """Its file can grow no further: it says which files to remove, refuses to write over them, and
    once they are removed makes the new file."""
    what = "a forget whose file can't grow"
    frames = b"".join(wire.reserve(n, txn=n, at=DAY * (1 + n % 3)) for n in range(1, 40))
    path, books = left_by_a_server(world, "forget-again", frames)
    into = f"{world.folder}/forget-again.new"
    # (an open that finds a log writes it into the file, so there is none then)
    checks.equal(f"{what}: audit before", audit(world, path), sound(books))
    remove = f"[ERROR ledger] remove {into} and {into}-wal\n"
    came = forget(world, path, 2, into, limit=("RLIMIT_FSIZE", 40_000))
    checks.equal(
        f"{what}: the status, what is printed, and whether it says what to remove",
        (came[0], came[1], remove in came[2]),
        (1, b"", True),
    )
    before = sorted(it for it in os.listdir(world.folder) if it.startswith("forget-again.new"))
    came = forget(world, path, 2, into)
    after = sorted(it for it in os.listdir(world.folder) if it.startswith("forget-again.new"))
    checks.equal(f"{what}: again", (came, after), (fault("file exists"), before))
    for it in before:
        os.remove(f"{world.folder}/{it}")
    kept = books.remembered(2)
    line = f"kept answers={len(kept.answers)} of {len(books.answers)}, limits=0\n"
    checks.equal(
        f"{what}: once they are removed", forget(world, path, 2, into), (0, line.encode(), "")
    )
    same_rows(checks, f"{what}: the new file", into, kept)
    same_rows(checks, f"{what}: the old file", path, books)


def a_backup_again(world, checks):
    """One that takes too long leaves nothing; the same words make it then, and are refused after
    that."""
    what, path = "a backup that took too long", f"{world.folder}/backup-again"
    slow, settings = world.new_file(""), {"default": 3, "offset": 0}
    with Server(world, words=["--create"], store=path, **settings) as server:
        server.ask(wire.reserve(1) + wire.settle(2))
        copies = 'cp -p "$1" "$3/ledger"'
        changes = [(copies, f"if [ -e {slow} ]; then sleep 60; fi; {copies}"), LATE]
        its = {"listen": server.address, "store": path, **settings}
        backup = Backup(world, server, path, its, changes)
        checks.equal(
            f"{what}: the first attempt, and what is left",
            (backup.run("1"), backup.left()),
            ((1, "", "mailquota-backup: no copy in 1 s\n"), []),
        )
        os.remove(slow)
        status, output, errors = backup.run("20")
        checks.equal(
            f"{what}: the second, its first line, and what is left",
            (status, output.partition("\n")[0], errors, backup.left()),
            (0, "sound days=1 transactions=1", "", ["copy"]),
        )
        copy = os.listdir(backup.into)
        came = backup.run("20")
        checks.equal(
            f"{what}: the third, and that the copy is as it was",
            (came, os.listdir(backup.into)),
            ((1, "", f"mailquota-backup: {backup.into} is there already\n"), copy),
        )
        checks.equal(
            f"{what}: the server's next answer",
            server.ask(wire.reserve(3, txn=2)),
            wire.granted(3, 2),
        )


def an_older_file_again(world, checks):
    """A file of version 1 that couldn't become version 3 becomes it at the next attempt."""
    what = "a file of version 1 without room for version 3"
    path = written(world, "older-again", *of_version(1, of_the_four()))
    room = "RLIMIT_FSIZE", os.path.getsize(path)
    config = ledger_settings(world, path)
    for turn in (1, 2):
        came = world.run("audit", "--config", config, limit=room)
        checks.equal(
            f"{what}: audit, attempt {turn}",
            (came, version_of(path)[0]),
            (fault("store failed", log=refusal(path, "disk I/O error")), [(1,)]),
        )
    checks.equal(
        f"{what}, and then with it: audit, and its version",
        (audit(world, path), version_of(path)[0]),
        (sound(of_the_four()), [(3,)]),
    )


# ---- replies that are lost, and an address that moves


class Moving(Listening):
    """An address that is at one server or another, or at none: then it closes each connection. Of
    so many questions, once so many were answered, the replies are lost, but not the questions."""

    def __init__(self, server=None, answered=0, lost=0):
        super().__init__()
        self.server, self.answered, self.lost = server, answered, lost

    def serve(self):
        while peer := self.next_peer():
            with peer:
                heard = read_request(peer)
                if not self.server:
                    continue
                reply = self.server.ask(heard)
                if self.answered:
                    self.answered -= 1
                elif self.lost:
                    self.lost -= 1
                    continue
                peer.sendall(reply)


# how often a request of a command is sent
TRIES = 3


def orders_again(world, checks):
    """The server takes an order, and the replies to all of its tries are lost: the command says so,
    and once they come the same words do it, and nothing twice."""
    lost = TRIES
    with Server(world, default=9) as server:
        for what, words, printed in [
            ("limit", ["--from", "1", "u", "7"], b"set\n"),
            ("limit --run", ["--from", "1", "--run", "5", "u", "6"], b"set\n"),
            ("retire", ["--run", "9"], b"retired\n"),
        ]:
            name = what.partition(" ")[0]
            with Moving(server, lost=lost) as link:
                asks = [name, "--server", link.address, "--host", f"host-of-{name}", *words]
                came = world.run(*asks), world.run(*asks)
            checks.equal(
                f"{what}, whose replies were lost, and again",
                came,
                (unavailable(link.address, CUT), (0, printed, "")),
            )
        checks.equal("limit, twice each: the limits", caps(server, b"u", 0, 1, 2), [9, 6, 6])
        earlier, later = ({"host": b"host-of-retire", "run": it} for it in (8, 10))
        checks.equal(
            "retire, twice: an earlier run, and a later",
            (server.ask(wire.reserve(1, **earlier)), server.ask(wire.reserve(1, **later))),
            (wire.old(1, **earlier), wire.granted(1, 1, **later)),
        )
    for answered in range(5):
        stop_again(world, checks, answered)


def stop_again(world, checks, answered):
    """`stop`, of which so many questions are answered and the next one not: what is used, both
    limits, and then those of later days. Whatever it has set, the same words then stop the login,
    and `resume` lets it send."""
    what = f"stop, of which {answered} questions were answered"
    with Server(world, default=9) as server:
        server.ask(wire.reserve(1, count=2))
        with Moving(server, answered=answered, lost=TRIES) as link:
            asks = ["--server", link.address, "--host", "admin", "--day", "1"]
            first = world.run("stop", *asks, "--force", "u")
            second = world.run("stop", *asks, "--force", "u")
            limits = caps(server, b"u", 0, 1, 2, 3)
            third = world.run("resume", *asks, "--cap", "5", "u")
        checks.equal(
            f"{what}: its status, and whether it says that both limits are in force",
            (first[0], b"stopped" in first[1], first[2].endswith("quota service unavailable\n")),
            (1, answered > 2, True),
        )
        checks.holds(
            f"{what}: again",
            second[0] == 0
            and re.fullmatch(rb"stopped: u used 2 on day 1\nlimit before: [29]\n", second[1])
            and not second[2],
            "stopped, and the limit before, 9 or what was used",
            second,
        )
        checks.equal(f"{what}: the limits then", limits, [9, 2, 0, 0])
        checks.equal(
            f"{what}: resume, and the limits then",
            (third, caps(server, b"u", 0, 1, 2, 3)),
            ((0, b"resumed: u may use 7 on day 1\n", ""), [9, 7, 5, 5]),
        )


def there_and_back(world, checks):
    """The first server fails halfway a message, the second has the address meanwhile, and then the
    first again. What each let through counts there, neither settles the other's, and the log has
    each outage, its end, and that the first holds less than the filter let through."""
    at, default = int(time.time()), 5
    day, sessions = str(at // DAY), (b"0000000000000001", b"0000000000000002")

    def report(server):
        return world.run("report", "--server", server.address, "--day", day)[1].decode()

    with Server(world, default=default) as one, Server(world, default=default) as two:
        with Moving(one) as link:
            mail = Smtpd(world, "mx1", link.address, tries=1, log="info")
            for session, login in zip(sessions, (b"alice", b"bob")):
                mail.login(at, session, login)
                mail.begin(at, session, b"m" + session)

            def asks(what, server, session, said):
                link.server = server
                came = mail.recipient(at, session)
                checks.equal(f"there and back: {what}", came, result(said, session))

            alice, bob = sessions
            asks("a recipient at the first server", one, alice, PROCEED)
            asks("another message's there", one, bob, PROCEED)
            asks("one as nobody answers", None, alice, SERVICE)
            asks("one at the second server", two, alice, PROCEED)
            # (an outage within a second of the last line has none of its own)
            time.sleep(1.1)
            asks("one as nobody answers again", None, alice, SERVICE)
            asks("one more then", None, bob, SERVICE)
            asks("one at the first server again", one, alice, PROCEED)
            checks.equal(
                "there and back: what both have reserved",
                (report(one), report(two)),
                (
                    "      0       2       5 alice\n      0       1       5 bob\n",
                    "      0       1       5 alice\n",
                ),
            )
            mail.commit(at, alice, b"m" + alice)
            mail.commit(at, bob, b"m" + bob)
            checks.equal("there and back: both messages are closed", mail.is_done(), True)
            with open(mail.log.name, encoding="ascii") as file:
                lines = [it.partition("] ") for it in file.read().splitlines()[1:]]
            checks.equal("there and back: the filter's end", mail.end(), (0, b"", ""))
        checks.equal(
            "there and back: what both have then",
            (report(one), report(two)),
            (
                "      0       2       5 alice\n      1       0       5 bob\n",
                "      0       1       5 alice\n",
            ),
        )
        server = f"quota server {link.address}: "
        of_alice = f"of transaction 1 (host mx1, session {alice.decode()}, login alice)"
        of_bob = f"of transaction 2 (host mx1, session {bob.decode()}, login bob)"
        wanted = [
            ("ERROR", f"{server}{CUT}"),
            ("INFO ", f"reserve 3 {of_alice}: no answer in 1 tries"),
            ("WARN ", f"{server}answers again, requests without an answer: 1"),
            ("ERROR", f"{server}{CUT}"),
            ("INFO ", f"reserve 5 {of_alice}: no answer in 1 tries"),
            ("INFO ", f"reserve 6 {of_bob}: no answer in 1 tries"),
            ("WARN ", f"{server}answers again, requests without an answer: 2"),
            (
                "WARN ",
                (
                    f"settle 8 {of_alice}: the transaction holds 2 only, the server's address may"
                    " have moved"
                ),
            ),
        ]
        came = [(head[1:6], said) for head, _, said in lines]
        checks.equal("there and back: the log behind its first line", came, wanted)
        for server in (one, two):
            world.run("retire", "--server", server.address, "--host", "mx1")
        checks.equal(
            "there and back: what both have once the run is retired",
            (report(one), report(two)),
            (
                "      2       0       5 alice\n      1       0       5 bob\n",
                "      1       0       5 alice\n",
            ),
        )
