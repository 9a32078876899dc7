"""A ledger's file or its log that can grow no further, by the system's limit on the size of files:
no reply goes out that isn't stored, the server ends with a text, and with room again every reply
that was read is given again and counts. A retire, which writes many rows, is stored whole or not at
all."""
import os
import resource
import time

import wire
from books import Books
from cases.failures import how_it_ended, is_refusal, replies_of
from cases.filters import INPUT, REGISTRATION, SERVICE, answer
from ends import Server, apart, copied, fault, ledger_settings, of_store
from rows import same_rows

DEFAULT = 1_000_000
# bytes by which a file may still grow: no page, a part of one, and some
ROOMS = [0, 1, 4_095, 4_096, 20_000, 100_000, 300_000]
# bytes in which the tables can't be made
TOO_SMALL = [0, 1, 4_096, 40_960, 100_000]
MANY = 400
# what the store or the system says where there is no room
FULL = ["database or disk is full", "disk I/O error"]
# a retire of so many open messages has no room in files of these bytes, which end before what it
# writes, within it and at its end; and it has in those
OPEN, TOO_LITTLE, ENOUGH = 1_500, [4_096, 30_000, 100_000, 300_000, 500_000], 4_000_000


def run(world, checks):
    for room in ROOMS:
        grows_no_further(world, checks, room)
    retires_no_further(world, checks)
    says_why_with_keep(world, checks)
    for size in TOO_SMALL:
        too_small(world, checks, size)
    rooms = f"{len(ROOMS)} rooms to grow, {len(TOO_LITTLE) + 1} for a retire"
    print(f"    {rooms}, {len(TOO_SMALL)} too small for the tables", flush=True)


def request(number):
    return wire.reserve(
        number, txn=number, login=b"%03d" % (number % 50) + b"x" * 100, at=86_400 * (1 + number % 3)
    )


def limited(server, path, room):
    """From now on none of the server's files grows by more than this beyond its log."""
    size = os.path.getsize(f"{path}-wal") + room
    resource.prlimit(server.process.pid, resource.RLIMIT_FSIZE, (size, resource.RLIM_INFINITY))


def grows_no_further(world, checks, room):
    what, path, books = (
        f"a log that grows by {room:,} bytes",
        f"{world.folder}/room{room}",
        Books(0, DEFAULT),
    )
    unlimited = ("RLIMIT_FSIZE", resource.RLIM_INFINITY)
    with Server(world, words=["--create"], limit=unlimited, store=path, default=DEFAULT) as server:
        first = [request(n) for n in range(1, 21)]
        checks.equal(
            f"{what}: before", replies_of(server, first), [books.serve(it) for it in first]
        )
        limited(server, path, room)
        later = [request(n) for n in range(21, 21 + MANY)]
        came = replies_of(server, later)
        wanted = [books.serve(it) for it in later[: len(came)]]
        checks.equal(f"{what}: the replies until the store fails", came, wanted)
        checks.holds(
            f"{what}: how many these are",
            len(came) < MANY and (room < 20_000 or len(came) > 0),
            "few",
            len(came),
        )
        checks.equal(
            f"{what}: status and text", how_it_ended(server), (1, "mailquota: store failed\n")
        )
        says_why(checks, what, server, path)
        came = world.filter(server.address, INPUT)[:2]
        checks.equal(f"{what}: a filter then", came, (0, REGISTRATION + answer(SERVICE)))
    # What stands after the last reply isn't stored, or it is: then it gets the reply that it would
    # have had.
    with Server(world, store=path, default=DEFAULT) as server:
        asked = [request(n) for n in range(1, 21 + MANY)]
        checks.equal(
            f"{what}, and room again: old and new requests",
            replies_of(server, asked),
            [books.serve(it) for it in asked],
        )
    same_rows(checks, f"{what}, and room again", path, books)
    came = world.run("audit", "--config", ledger_settings(world, path, default=DEFAULT))
    checks.equal(
        f"{what}: audit",
        came,
        (0, f"sound days={len(books.usage)} transactions={len(books.transactions)}\n".encode(), ""),
    )


def says_why(checks, what, server, path):
    """After the line of the connection the log says which file it is, and what the system or the
    disk said."""
    log = [
        line
        for line in apart("".join(f"{line}\n" for line in server.log_lines()))[0]
        if " disk] " not in line
    ]
    good = (
        len(log) == 2
        and log[0].startswith("[ERROR connections] ")
        and log[0].endswith(": store failed\n")
        and log[1] in [of_store(path, it) for it in FULL]
    )
    checks.holds(f"{what}: the log", good, "the connection, and the path with the cause", log)


def says_why_with_keep(world, checks):
    """A server with `keep` says so too."""
    what, path, now = "a server with keep", f"{world.folder}/with-keep", int(time.time())
    later = [
        wire.reserve(n, txn=n, login=b"%03d" % (n % 50) + b"x" * 100, at=now)
        for n in range(2, MANY)
    ]
    with Server(
        world,
        words=["--create"],
        limit=("RLIMIT_FSIZE", resource.RLIM_INFINITY),
        store=path,
        default=DEFAULT,
        keep=2,
    ) as server:
        checks.equal(
            f"{what}: before", replies_of(server, [wire.reserve(1, at=now)]), [wire.granted(1, 1)]
        )
        limited(server, path, 0)
        came = replies_of(server, later)
        ended = len(came) < len(later), how_it_ended(server)
        checks.equal(
            f"{what}, whose log can't grow: few replies, status and text",
            ended,
            (True, (1, "mailquota: store failed\n")),
        )
        says_why(checks, f"{what}, whose log can't grow", server, path)


def retires_no_further(world, checks):
    """A retire of open messages whose rows fill more than a hundred pages is stored whole or not at
    all."""
    source, opened, retire = (
        f"{world.folder}/open",
        [request(n) for n in range(1, OPEN + 1)],
        wire.retire(1, run=2),
    )
    with Server(world, words=["--create"], store=source, default=DEFAULT) as server:
        books = Books(0, DEFAULT)
        checks.equal(
            f"{OPEN:,} open messages",
            replies_of(server, opened),
            [books.serve(it) for it in opened],
        )
    for room in [*TOO_LITTLE, ENOUGH]:
        what, path, books = (
            f"a retire in a log of {room:,} bytes",
            f"{world.folder}/retire{room}",
            Books(0, DEFAULT),
        )
        for it in opened:
            books.serve(it)
        copied(source, path)
        with Server(
            world, limit=("RLIMIT_FSIZE", resource.RLIM_INFINITY), store=path, default=DEFAULT
        ) as server:
            resource.prlimit(
                server.process.pid, resource.RLIMIT_FSIZE, (room, resource.RLIM_INFINITY)
            )
            came = replies_of(server, [retire])
            if room == ENOUGH:
                checks.equal(f"{what}: its reply", came, [books.serve(retire)])
            else:
                ended = how_it_ended(server) if not came else "it goes on"
                checks.equal(
                    f"{what}: its reply, status and text",
                    (came, ended),
                    ([], (1, "mailquota: store failed\n")),
                )
                says_why(checks, what, server, path)
        same_rows(checks, what, path, books)
        with Server(world, store=path, default=DEFAULT) as server:
            asked = [opened[0], retire, opened[0], wire.usage(b"001" + b"x" * 100), wire.page()]
            checks.equal(
                f"{what}, and room again",
                replies_of(server, asked),
                [books.serve(it) for it in asked],
            )
        same_rows(checks, f"{what}, and room again", path, books)


def too_small(world, checks, size):
    what, path = f"files of {size:,} bytes at most", f"{world.folder}/small{size}"
    settings = ledger_settings(world, path)
    came = world.run("server", "--config", settings, "--create", limit=("RLIMIT_FSIZE", size))
    # (the reserve comes first)
    wanted = fault(
        "store can't be opened",
        log=f"[ERROR disk] {path}.ballast: File too large (os error 27)\n",
    )
    checks.equal(f"{what}: --create", came, wanted)
    came = world.run("init", "--config", settings, limit=("RLIMIT_FSIZE", size))
    wanted = [fault("store can't be opened", log=of_store(path, cause)) for cause in FULL]
    checks.holds(
        f"{what}: init",
        came in wanted,
        "refused, with the path and that there is no room",
        came,
    )
    status, output, errors = world.run("server", "--config", settings)
    log, text = apart(errors)
    good = (
        (status, output, len(log)) == (1, b"", 1)
        and is_refusal(text)
        and log[0].startswith("[ERROR ledger] ")
        and f" {path}: " in log[0]
    )
    checks.holds(
        f"{what}: opened then",
        good,
        "status 1, a text, and one line with the path",
        (status, output, errors),
    )
    with Server(world, words=["--create"], store=path) as server:
        checks.equal(
            f"{what}, and room again: --create", server.ask(wire.reserve(1)), wire.granted(1, 1)
        )
