"""A call of the system on a ledger's file fails, another one in each run: all lines that a command
or a server says of it, and that it prints nothing."""
import errno
import os
import re
from concurrent.futures import ThreadPoolExecutor

import wire
from cases.audits import audit
from cases.costs import Noted
from cases.damage import sound
from cases.forgetting import left_by_a_server
from cases.nights import (
    DEFAULT,
    KEEP,
    NOTED,
    STATES,
    SWITCHED,
    filled,
    first_day,
    is_through,
    names,
    nightly,
    put,
    two_files,
    warnings,
)
from cases.peers import NOTHING_USED
from ends import (
    Server,
    copied,
    fault,
    ledger_settings,
    nobody_there,
    of_store,
    refusal,
    unreached,
    wait_past_a_night,
    wait_until,
)

# Calls that read, write and sync a file, by their numbers on x86-64.
CALLS = {"pread64": 17, "pwrite64": 18, "fsync": 74, "fdatasync": 75, "ftruncate": 77}
# Calls on connections.
OF_SOCKETS = {"sendto": 44, "recvfrom": 45, "epoll_wait": 232, "epoll_ctl": 233}
# As a program is loaded the system's library is read by two calls.
OF_LOADING = {"pread64": 2}
# So many places of each call are tried.
PLACES = 5
FAILED, UNOPENED = "disk I/O error", "unable to open database file"
OF_SYSTEM = "Input/output error (os error 5)"


def run(world, checks):
    source, _ = left_by_a_server(
        world, "failing", wire.reserve(1) + wire.limit(2, 1, 2) + wire.reserve(3, txn=2, at=172_800)
    )
    of_commands(world, checks, source)
    of_a_forget(world, checks, source)
    of_requests(world, checks, source)
    of_sockets(world, checks)
    # (the others have no day of the clock)
    for case in (of_a_night, of_a_repair):
        wait_past_a_night()
        case(world, checks)


def places(calls, name, first=0):
    """Which calls of a name are to fail, of those that a run made: the first, the last, and some
    between, from this one on."""
    first = max(first, OF_LOADING.get(name, 0))
    count = sum(call.number == CALLS[name] for call in calls) - first
    return (
        sorted({first + count * place // PLACES for place in range(PLACES)} | {first + count - 1})
        if count > 0
        else []
    )


def failing(name, before):
    """The limit of a run in which the call of this name fails that comes after so many."""
    return "failing", f"{CALLS[name]},{errno.EIO},{before}"


def outcomes(world, run):
    """How a run ends where one call fails, and of which calls: each outcome with the first that
    comes to it."""
    noted, found = Noted(world), {}
    run(noted.limit)
    calls = noted.calls()
    for name in CALLS:
        for place in places(calls, name):
            found.setdefault(run(failing(name, place)), (name, place))
    return found


def removed(path):
    """Removes a ledger's file, its log and its server's reserve, where they are there; gives the
    path."""
    for end in ("", "-wal", ".ballast"):
        if os.path.exists(path + end):
            os.remove(path + end)
    return path


def of_commands(world, checks, source):
    """The file's path and what is wrong with it, and then that it can't be opened, or that a ledger
    can't be made in it."""
    for words in (["audit"], ["limits"], ["status"], ["server"], ["server", "--create"]):

        def run(limit, words=words):
            path = f"{world.folder}/failing-file"
            if "--create" in words:
                removed(path)
            else:
                copied(source, path)
            with nobody_there() as address:
                status, output, errors = world.run(
                    words[0],
                    "--config",
                    ledger_settings(world, path, listen=address),
                    *words[1:],
                    limit=limit,
                )
            return status, output, errors.replace(address, "ADDRESS").replace(path, "PATH")

        asked = (
            f"{unreached('ADDRESS')}mailquota: quota service unavailable\n"
            if words == ["status"]
            else ""
        )
        wanted = [
            fault("store can't be opened", log=asked + of_store("PATH", cause))
            for cause in (FAILED, UNOPENED)
        ]
        if "server" in words:
            reserve = f"[ERROR disk] PATH.ballast: {OF_SYSTEM}\n"
            wanted.append(fault("store can't be opened", log=reserve))
        if "--create" in words:
            wanted.append(fault("store failed", log=refusal("PATH", FAILED)))
        found, what = outcomes(world, run), " ".join(words)
        checks.equal(
            f"a call on its file fails: how {what} ends otherwise",
            {it: place for it, place in found.items() if it not in wanted},
            {},
        )
        checks.equal(
            f"a call on its file fails: {what}, at each of its steps",
            [it in found for it in wanted],
            [True] * len(wanted),
        )


def of_a_forget(world, checks, source):
    """Its lines say at which of its two files, and which are to be removed."""

    def run(limit):
        path, into = copied(source, f"{world.folder}/failing-old"), removed(
            f"{world.folder}/failing-new"
        )
        status, output, errors = world.run(
            "forget",
            "--config",
            ledger_settings(world, path),
            "--before",
            "2",
            "--into",
            into,
            limit=limit,
        )
        return status, output, errors.replace(path, "OLD").replace(into, "NEW")

    log, remove = (
        "[ERROR ledger] ",
        "[ERROR ledger] remove NEW and NEW-wal\n",
    )
    wanted = {
        "opens the old file": fault("store can't be opened", log=of_store("OLD", UNOPENED)),
        "reads the old file": fault("store can't be opened", log=of_store("OLD", FAILED)),
        "opens the new file": fault(
            "store can't be opened", log=of_store("NEW", UNOPENED) + remove
        ),
        "begins or closes the new file": fault(
            "store can't be opened", log=of_store("NEW", FAILED) + remove
        ),
        "fills the new file": fault(
            "store failed", log=f"{log}NEW, made of OLD: {FAILED}\n{remove}"
        ),
    }
    found = outcomes(world, run)
    checks.equal(
        "a call fails: how forget ends otherwise",
        {it: place for it, place in found.items() if it not in wanted.values()},
        {},
    )
    for what, its in wanted.items():
        checks.equal(f"a call fails as forget {what}: all of its lines", its in found and its, its)


def of_requests(world, checks, source):
    """A request whose call fails gets no reply, and the server ends: by the connection, by the
    file, and at last."""
    frames = [wire.reserve(n, txn=n, at=172_800) for n in (4, 5)]

    def run(limit):
        path = copied(source, f"{world.folder}/failing-served")
        with Server(world, store=path, connections=1, limit=limit) as server:
            with server.connect() as peer:
                came = []
                for frame in frames:
                    peer.sendall(frame)
                    came.append(peer.recv(100))
                    if not came[-1]:
                        break
            status, lines = server.status(), [
                re.sub(r"127\.0\.0\.1:\d+", "PEER", line).replace(path, "PATH")
                for line in server.log_lines()
            ]
        return status, tuple(came), tuple(lines)

    start, whole = Noted(world), Noted(world)
    with Server(
        world,
        store=copied(source, f"{world.folder}/failing-served"),
        connections=1,
        limit=start.limit,
    ) as server:
        server.connect().close()
        server.status()
    came = run(whole.limit)
    replies = wire.granted(4, 2), wire.full(5, 2, 2)
    checks.equal("two requests, and none of their calls fails", came, (0, replies, ()))
    before, calls = start.calls(), whole.calls()
    lines = (
        "[ERROR connections] connection of PEER: store failed",
        of_store("PATH", FAILED)[:-1],
        "mailquota: store failed",
    )
    for name in ("pwrite64", "fdatasync"):
        first = sum(call.number == CALLS[name] for call in before)
        found = [run(failing(name, place)) for place in places(calls, name, first)]
        wrong = [
            it
            for it in found
            if it not in [(1, (*replies[:count], b""), lines) for count in (0, 1)]
        ]
        checks.equal(
            f"a {name} of a request fails, at {len(found)} places: how it ends otherwise",
            (len(found) > 1, wrong),
            (True, []),
        )


def of_sockets(world, checks):
    """A call on a connection fails: it is ended, and the next one answered. Where the server can't
    wait for any, it ends."""
    # (a server's first call of epoll_ctl is of its listener)
    # (as a connection is ended, what waits is offered once more)
    for what, call, error, before, reply, said in [
        (
            "a read that finds no memory",
            "recvfrom",
            errno.ENOMEM,
            0,
            b"",
            "[WARN  connections] connection of PEER: out of memory",
        ),
        (
            "a read that a reset ends",
            "recvfrom",
            errno.ECONNRESET,
            0,
            b"",
            "[WARN  connections] connection of PEER: read failed",
        ),
        (
            "a write that fails",
            "sendto",
            errno.EPIPE,
            0,
            NOTHING_USED,
            "[WARN  connections] connection of PEER: write failed",
        ),
        (
            "a connection that the system doesn't report",
            "epoll_ctl",
            errno.ENOMEM,
            1,
            b"",
            ("[WARN  connections] connection of PEER: Cannot allocate memory (os" " error 12)"),
        ),
    ]:
        with Server(world, limit=("failing", f"{OF_SOCKETS[call]},{error},{before}")) as server:
            came = server.ask(wire.usage()), server.ask(wire.usage())
            lines = [re.sub(r"127\.0\.0\.1:\d+", "PEER", line) for line in server.log_lines()]
        checks.equal(
            f"{what}: the reply, the next one, and the log",
            (*came, lines),
            (reply, NOTHING_USED, [said]),
        )
    with Server(world, limit=("failing", f"{OF_SOCKETS['epoll_wait']},{errno.EBADF},0")) as server:
        came = server.status(), server.log_lines()
    lines = [
        "[ERROR connections] waiting for connections: Bad file descriptor (os error 9)",
        "mailquota: accept failed",
    ]
    checks.equal("a server that can't wait: its end, and the log", came, (1, lines))


def of_a_night(world, checks):
    """As days leave a ledger. Before the switch they stay, it is said why, and nothing is left of
    the new file; at the switch the server ends, and says at which file. All answers are there
    then."""
    source = f"{world.folder}/failing-night"
    books, day = filled(world, source, 8), first_day()
    kept = books.remembered(day)

    def run(limit, name, keep=KEEP):
        path = copied(source, f"{world.folder}/failing-night-{name}")
        with nightly(world, path, keep=keep, limit=limit, connections=1) as server:
            wait_until(
                lambda: is_through(server)
                or warnings(server)
                or server.process.poll() is not None
                or keep != KEEP
            )
            if server.process.poll() is None:
                server.connect().close()
            status, lines = server.status(), [
                line.replace(path, "PATH")
                for line in server.log_lines()
                if not line.startswith("[INFO")
            ]
        return status, "\n".join(lines), tuple(names(path))

    start, whole = Noted(world), Noted(world)
    run(start.limit, "start", 366)
    came = run(whole.limit, "whole")
    checks.equal("a night, and none of its calls fails", came, (0, "", tuple(NOTED)))
    stays = f"[WARN  night] days before {day} stay: {{}}; next attempt in an hour"
    wanted = {
        "the new file can't be made": [
            (0, of_store("PATH.part", cause) + stays.format("no new store"), ("", "-wal"))
            for cause in (FAILED, UNOPENED, OF_SYSTEM)
        ],
        "it can't be filled": [(0, stays.format(FAILED), ("", "-wal"))],
        "its reserve can't be looked at": [
            (0, f"[WARN  disk] PATH.ballast: {OF_SYSTEM}", tuple(NOTED))
        ],
        "a step of the switch fails": [
            (1, fault("store can't be opened", log=of_store(f"PATH{it}", cause))[2][:-1], left)
            for it, cause, left in [
                (".old", OF_SYSTEM, ("-wal", ".old", ".part", ".part-wal")),
                (".old", FAILED, ("-wal", ".old", ".part", ".part-wal")),
                (".part", OF_SYSTEM, ("-wal", ".next", ".old", ".part-wal")),
                (".part-wal", OF_SYSTEM, ("-wal", ".next", ".old")),
                (".next", OF_SYSTEM, tuple(SWITCHED)),
            ]
        ],
    }
    before, calls = start.calls(), whole.calls()
    tried = []
    for name, step in (("fsync", 1), ("pwrite64", 3), ("fdatasync", 3), ("pread64", 16)):
        first, count = (sum(it.number == CALLS[name] for it in of) for of in (before, calls))
        tried += [(name, place) for place in range(first, count, step)]
    with ThreadPoolExecutor(4) as pool:
        found = dict(zip(tried, pool.map(lambda it: run(failing(*it), f"{it[0]}-{it[1]}"), tried)))
    all_wanted = [it for its in wanted.values() for it in its]
    checks.equal(
        "a call of a night fails: how it ends otherwise",
        {place: it for place, it in found.items() if it not in all_wanted},
        {},
    )
    for what, its in wanted.items():
        checks.equal(
            f"a call of a night fails, and {what}: all of its lines, its end, and files",
            [it for it in its if it not in found.values()],
            [],
        )
    for it in wanted["a step of the switch fails"]:
        at = next((place for place, came in found.items() if came == it), ("none", 0))
        path = f"{world.folder}/failing-night-{at[0]}-{at[1]}"
        checks.equal(
            f"a night whose switch leaves {' '.join(it[2])}, and fails at {of_file(it[1])}: audit",
            audit(world, path, default=DEFAULT),
            sound(books if ".part" in it[2] else kept),
        )


def of_file(lines):
    """The file that an error names first."""
    return lines.partition("] ")[2].partition(": ")[0]


def of_a_repair(world, checks):
    """As a switch that was interrupted is undone or finished: it isn't done, at which file is said,
    and the next to open the ledger does the rest."""
    old, _, new, books, kept = two_files(world)
    for state, its, is_former in [
        ("after the first step", [".old"], True),
        ("after the second", [".part-wal", ".next"], False),
        ("after the third", [".next"], False),
    ]:
        for place, it in enumerate(its):
            path = put(
                f"{world.folder}/repair-{state[-5:]}-{place}",
                STATES[state][0],
                {"old": old, "new": new},
            )
            came = world.run(
                "audit",
                "--config",
                ledger_settings(world, path, default=DEFAULT),
                limit=failing("fsync", place),
            )
            checks.equal(
                f"{state}, and {it} gets its name, but not on the disk: audit",
                came,
                fault("store can't be opened", log=of_store(path + it, OF_SYSTEM)),
            )
            checks.equal(
                f"{state}, and {it} gets its name, but not on the disk: audit then",
                audit(world, path, default=DEFAULT),
                sound(books if is_former else kept),
            )
