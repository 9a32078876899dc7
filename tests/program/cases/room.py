"""Room on a server's disk, and the names of its files: the reserve beside the ledger, without which
no server comes up; a disk that fills while it serves, and in a night, what is given up then and in
which order, and that it goes on once there is room; the ledger's files removed from a running
server."""
import os
import signal
import stat
import subprocess
import time

import clocks
import wire
from books import Books
from cases.failures import Disk, can_mount, how_it_ended, replies_of
from cases.nights import by_clock, filled, first_day, today
from ends import (
    Server,
    copied,
    fault,
    free_port,
    ledger_settings,
    wait_past_a_night,
    wait_until,
)

MIB = 1 << 20
RESERVE, MARGIN = 4 * MIB, MIB
DEFAULT, DAY = 1_000_000, 86_400
FULL = "No space left on device (os error 28)"
NEEDS = "a server needs 5 MiB, this file's 4 among them"
NOT_OPENED = "store can't be opened"
# Starts a program again and again, as its unit does: a second after its end.
AGAIN = 'while :; do "$@"; sleep 1; done'
# By how much a busy machine may be late, in seconds, and how often that is tried.
LATE, GOES = 1.5, 5


def run(world, checks):
    a_reserve(world, checks)
    a_reserve_that_cant_be_made(world, checks)
    files_that_are_removed(world, checks)
    if not can_mount(world, checks, "room on a disk"):
        return
    for case in (
        too_little_room,
        a_start_on_a_full_disk,
        a_server_alone,
        a_disk_that_fills,
        room_comes_back,
        gives_up_the_former_ledger,
        a_start_gives_up_what_a_night_left,
        a_night_on_a_full_disk,
    ):
        wait_past_a_night()
        case(world, checks)


def request(number, **more):
    return wire.reserve(number, txn=number, login=b"%03d" % (number % 50), **more)


def refused(path, cause):
    """What a start says that has no room for its reserve."""
    return fault(NOT_OPENED, log=f"[ERROR disk] {path}.ballast: {cause}; {NEEDS}\n")


def reserve_of(path):
    """The bytes of a reserve, and whether all of them are on the disk; None where there is none."""
    try:
        found = os.stat(f"{path}.ballast")
    except FileNotFoundError:
        return None
    return found.st_size, 512 * found.st_blocks >= found.st_size


WHOLE = RESERVE, True


def is_whole(path):
    return reserve_of(path) == WHOLE


def a_reserve(world, checks):
    """A server makes it, and the next one completes what is left of it, and leaves a whole one as
    it is. Other commands make none."""
    path = f"{world.folder}/first"
    settings = ledger_settings(world, path, default=DEFAULT)
    came = world.run("init", "--config", settings)[0], reserve_of(path)
    checks.equal("a reserve: init makes none", came, (0, None))
    with Server(world, store=path, default=DEFAULT) as server:
        came = server.ask(wire.reserve(1)), reserve_of(path)
    checks.equal("a reserve: a server has one", came, (wire.granted(1, 1), WHOLE))
    checks.equal(
        "a reserve: who may read it", stat.S_IMODE(os.stat(f"{path}.ballast").st_mode), 0o600
    )
    with open(f"{path}.ballast", "rb") as file:
        blocks = [file.read(65_536) for _ in range(RESERVE // 65_536)]
    kinds = min(len(set(block)) for block in blocks)
    checks.holds(
        "a reserve: its bytes, which no file system stores as fewer", kinds == 256, 256, kinds
    )
    for size in (0, 1, 65_536, 3_000_000, RESERVE - 1, RESERVE, RESERVE + 5, RESERVE + MARGIN):
        os.truncate(f"{path}.ballast", min(size, RESERVE))
        if size > RESERVE:
            with open(f"{path}.ballast", "ab") as file:
                file.write(b"x" * (size - RESERVE))
        with Server(world, store=path, default=DEFAULT) as server:
            came = server.ask(wire.reserve(1)), reserve_of(path), os.stat(f"{path}.ballast").st_size
        checks.equal(
            f"a reserve of {size:,} bytes: after a start",
            came,
            (wire.granted(1, 1), WHOLE, RESERVE),
        )
    os.remove(f"{path}.ballast")
    for word in ("audit", "limits"):
        status = world.run(word, "--config", settings)[0]
        checks.equal(f"a reserve: {word} makes none", (status, reserve_of(path)), (0, None))
    with Server(world) as server:
        checks.equal("a ledger in memory has none", server.ask(wire.reserve(1)), wire.granted(1, 1))
    checks.equal("a ledger in memory: files", os.path.exists("memory.ballast"), False)


def a_reserve_that_cant_be_made(world, checks):
    """A folder has its name, or there is no ledger that it could stand beside."""
    path = f"{world.folder}/hindered"
    settings = ledger_settings(world, path, default=DEFAULT)
    came = world.run("server", "--config", settings)[0], reserve_of(path)
    checks.equal("no ledger: a server, and a reserve", came, (1, None))
    os.mkdir(f"{path}.ballast")
    with Server(world, words=["--create"], store=path, default=DEFAULT) as server:
        assert server.ask(wire.reserve(1)) == wire.granted(1, 1)
        came = wait_until(lambda: warned(server)), warned(server)
    line = f"[WARN  disk] {path}.ballast: Is a directory (os error 21)"
    checks.equal("a folder in the reserve's way: what is said", came, (True, [line]))


# ---- files that are removed

LOST = "it was removed or replaced: run mailquota-backup before the server ends"


def lost(path):
    return f"[ERROR disk] {path}: {LOST}"


def files_that_are_removed(world, checks):
    """It is said at once, and each minute; with `keep` and without."""
    for what, removed, keep in [
        ("the ledger's file", "", None),
        ("the ledger's file, with keep", "", 2),
        ("the log", "-wal", None),
        ("both", "both", None),
        ("a file that was replaced", "replaced", None),
    ]:
        wait_past_a_night()
        path = f"{world.folder}/removed-{len(what)}"
        server = Server(
            world,
            words=["--create"],
            store=path,
            default=DEFAULT,
            keep=keep,
            limit=clocks.limit(0),
        )
        with server:
            clock = clocks.Clock(server.process.pid)
            assert server.ask(wire.reserve(1)) == wire.granted(1, 1)
            # (it has looked once, at the first round)
            if removed == "both":
                os.remove(path)
                os.remove(f"{path}-wal")
            elif removed == "replaced":
                copied(path, f"{path}.copy")
                os.rename(f"{path}.copy", path)
            else:
                os.remove(f"{path}{removed}")
            said = f"{path}{removed}" if removed in ("", "-wal") else path
            good = wait_until(lambda: errors(server))
            checks.equal(f"{what}: what is logged", (good, errors(server)), (True, [lost(said)]))
            clock.pass_to(time.time() + 40)
            server.ask(wire.page())
            checks.equal(f"{what}: after 40 s", errors(server), [lost(said)])
            clock.pass_to(clock.now() + 40)
            server.ask(wire.page())
            good = wait_until(lambda: len(errors(server)) > 1)
            checks.equal(
                f"{what}: after a minute", (good, errors(server)), (True, [lost(said)] * 2)
            )
            checks.equal(f"{what}: it answers", server.ask(wire.reserve(2)), wire.granted(2, 2))


def errors(server):
    return [line for line in server.log_lines() if line.startswith("[ERROR")]


def warned(server):
    return [line for line in server.log_lines() if line.startswith(("[WARN", "[ERROR"))]


# ---- disks


class Filler:
    """Takes all room of a disk, but for so many bytes, and gives it back."""

    def __init__(self, disk):
        self.path = f"{disk.folder}/filler"

    def fill(self, left=0):
        with open(self.path, "ab", buffering=0) as file:
            for size in (MIB, 4_096):
                while True:
                    try:
                        written = file.write(b"x" * size)
                    except OSError:
                        break
                    if written < size:
                        break
        if left:
            os.truncate(self.path, os.path.getsize(self.path) - left)

    def clear(self):
        os.remove(self.path)


def too_little_room(world, checks):
    """A disk without room for the reserve and the margin: no ledger is made, and nothing is left.
    With a larger one it is."""
    for size in (MIB, 3 * MIB, RESERVE, RESERVE + MARGIN - 65_536):
        what = f"a disk of {size:,} bytes"
        with Disk(world, size) as disk:
            path = f"{disk.folder}/ledger"
            settings = ledger_settings(world, path, default=DEFAULT)
            came = world.run("server", "--config", settings, "--create")
            checks.equal(f"{what}: --create", came, refused(path, FULL))
            left = sum(os.path.getsize(f"{disk.folder}/{it}") for it in os.listdir(disk.folder))
            checks.equal(f"{what}: files", (os.listdir(disk.folder), left), (["ledger.ballast"], 0))
            disk.remount(f"size={RESERVE + 2 * MARGIN}")
            with Server(world, words=["--create"], store=path, default=DEFAULT) as server:
                checks.equal(
                    f"{what}, and room: --create", server.ask(wire.reserve(1)), wire.granted(1, 1)
                )


def a_start_on_a_full_disk(world, checks):
    """It ends before it reads the ledger, whether the reserve is whole or was given up; and it comes
    up once there is room."""
    what = "a start on a full disk"
    with Disk(world, 16 * MIB) as disk:
        path, filler = f"{disk.folder}/ledger", Filler(disk)
        with Server(world, words=["--create"], store=path, default=DEFAULT) as server:
            before = replies_of(server, [request(number) for number in range(1, 200)])
        settings = ledger_settings(world, path, default=DEFAULT)
        for there, left in [
            ("a whole reserve", 0),
            ("a whole reserve", MARGIN - 65_536),
            ("no reserve", 0),
            ("no reserve", RESERVE),
            ("no reserve", RESERVE + MARGIN - 65_536),
        ]:
            if there == "no reserve" and reserve_of(path):
                os.remove(f"{path}.ballast")
            filler.fill(left)
            had, begun = reserve_of(path), time.monotonic()
            came = world.run("server", "--config", settings)
            took = time.monotonic() - begun
            place = f"{what}, {there} and {left:,} bytes"
            checks.equal(place, came, refused(path, FULL))
            checks.equal(f"{place}: the reserve", reserve_of(path) or (0, True), had or (0, True))
            checks.holds(f"{place}: how long it took", took < 5, "less than 5 s", took)
            # (what is read first of a ledger's file is its header)
            with open(path, "r+b") as file:
                header = file.read(100)
                file.seek(0)
                file.write(b"x" * 100)
            came = world.run("server", "--config", settings)
            checks.equal(f"{place}: the ledger isn't read", came, refused(path, FULL))
            with open(path, "r+b") as file:
                file.write(header)
            filler.clear()
        with Server(world, store=path, default=DEFAULT) as server:
            again = replies_of(server, [request(number) for number in range(1, 200)])
        checks.equal(f"{what}, and room again: answers", again, before)
        checks.equal(f"{what}, and room again: the reserve", is_whole(path), True)


def a_server_alone(world, checks):
    """One server, whose unit starts it again and again on a full disk: it says each time what it
    needs, and answers within a second, and what a start takes, of there being room."""
    what = "a server alone on a full disk"
    with Disk(world, 16 * MIB) as disk:
        path, filler = f"{disk.folder}/ledger", Filler(disk)
        with Server(world, words=["--create"], store=path, default=DEFAULT) as server:
            before = replies_of(server, [request(number) for number in range(1, 200)])
        for _ in range(GOES):
            begun = time.monotonic()
            with Server(world, store=path, default=DEFAULT):
                own = time.monotonic() - begun
            filler.fill()
            lines, took = started_again(world, path, filler)
            checks.equal(
                f"{what}: what two starts say", lines, refused(path, FULL)[2].splitlines() * 2
            )
            if took < 1 + own + LATE:
                break
        wanted = f"within a second, and the {own:.1f} s of a start"
        is_soon = took < 1 + own + LATE
        checks.holds(f"{what}: how soon it answers then", is_soon, wanted, f"{took:.1f} s")
        with Server(world, store=path, default=DEFAULT) as server:
            again = replies_of(server, [request(number) for number in range(1, 200)])
        checks.equal(f"{what}: answers then", again, before)


def started_again(world, path, filler):
    """What is said at two starts on a full disk, and how long after there is room the next one
    answers."""
    address, said = f"127.0.0.1:{free_port()}", world.new_file("")
    config = ledger_settings(world, path, default=DEFAULT, listen=address)
    words = ["sh", "-c", AGAIN, "sh", world.program, "server", "--config", config]

    def lines():
        with open(said, encoding="utf-8") as file:
            return file.read().splitlines()

    def answers():
        return world.run("status", "--server", address)[0] == 0

    with open(said, "wb") as log:
        unit = subprocess.Popen(words, stdout=log, stderr=log, start_new_session=True)
    try:
        wait_until(lambda: len(lines()) >= 4)
        came, begun = lines(), time.monotonic()
        filler.clear()
        wait_until(answers)
        return came, time.monotonic() - begun
    finally:
        os.killpg(unit.pid, signal.SIGTERM)
        unit.wait()
        wait_until(lambda: not answers())


def given_up(path):
    return f"[WARN  disk] {path}.ballast is given up: {FULL}; make room"


def a_disk_that_fills(world, checks):
    """The reserve is given up with a warning; the server goes on with its room, and ends as that is
    used, and no start comes up on it."""
    what = "a disk that fills"
    with Disk(world, 24 * MIB) as disk:
        path, filler, books = f"{disk.folder}/ledger", Filler(disk), Books(0, DEFAULT)
        with Server(world, words=["--create"], store=path, default=DEFAULT) as server:
            first = [request(number) for number in range(1, 100)]
            assert replies_of(server, first) == [books.serve(it) for it in first]
            filler.fill()
            good = wait_until(lambda: warned(server))
            came = good, warned(server), reserve_of(path)
            checks.equal(f"{what}: the warning", came, (True, [given_up(path)], None))
            more = [request(number) for number in range(100, 300)]
            checks.equal(
                f"{what}: it goes on", replies_of(server, more), [books.serve(it) for it in more]
            )
            settings = ledger_settings(world, path, default=DEFAULT)
            filler.fill()
            number = 1_000
            while server.process.poll() is None and number < 400_000:
                later = [request(number + it) for it in range(500)]
                came = replies_of(server, later)
                wanted = [books.serve(it) for it in later[: len(came)]]
                if came != wanted:
                    checks.equal(f"{what}: replies", came[-1:], wanted[-1:])
                number += 500
            checks.equal(f"{what}: its end", how_it_ended(server), (1, "mailquota: store failed\n"))
        for go in range(3):
            came = world.run("server", "--config", settings)
            checks.equal(f"{what}: start {go + 1} after it", came, refused(path, FULL))
        filler.clear()
        with Server(world, store=path, default=DEFAULT) as server:
            checks.equal(
                f"{what}, and room again: old answers",
                replies_of(server, first + more),
                replies_in(books, first + more),
            )
        checks.equal(f"{what}, and room again: the reserve", is_whole(path), True)


def replies_in(books, frames):
    return [books.serve(it) for it in frames]


def room_comes_back(world, checks):
    """The reserve is made again while it serves, a minute later; until then it is warned each
    minute."""
    what = "room that comes back"
    with Disk(world, 24 * MIB) as disk:
        path, filler = f"{disk.folder}/ledger", Filler(disk)
        server = Server(
            world,
            words=["--create"],
            store=path,
            default=DEFAULT,
            log="info",
            limit=clocks.limit(0),
        )
        with server:
            clock = clocks.Clock(server.process.pid)
            assert server.ask(wire.reserve(1)) == wire.granted(1, 1)
            filler.fill()
            wait_until(lambda: warned(server))
            filler.fill()
            clock.pass_to(clock.now() + 61)
            server.ask(wire.page())
            good = wait_until(lambda: len(warned(server)) > 1)
            wanted = [
                given_up(path),
                f"[WARN  disk] {path}: {FULL}; make room",
            ]
            checks.equal(f"{what}: after a minute", (good, warned(server)), (True, wanted))
            filler.clear()
            clock.pass_to(clock.now() + 61)
            server.ask(wire.page())
            good = wait_until(lambda: is_whole(path))
            line = f"[INFO  disk] {path}.ballast: the disk has room again"
            checks.equal(
                f"{what}: the reserve, and the log",
                (good, server.log_lines()[-1], warned(server)),
                (True, line, wanted),
            )


# ---- in a night


def former_given_up(path):
    return f"[WARN  disk] {path}.old is given up: {FULL}; make room"


def gives_up_the_former_ledger(world, checks):
    """With `keep` the former ledger goes before the reserve, and without it stays: nobody knows
    whose it is."""
    for keep in (2, None):
        what = f"a disk that fills, with a former ledger and keep = {keep}"
        with Disk(world, 24 * MIB) as disk:
            path, filler = f"{disk.folder}/ledger", Filler(disk)
            with open(f"{path}.old", "wb") as file:
                file.write(b"x" * 3 * MIB)
            server = Server(world, words=["--create"], store=path, default=DEFAULT, keep=keep)
            with server:
                assert server.ask(wire.reserve(1)) == wire.granted(1, 1)
                filler.fill()
                good = wait_until(lambda: warned(server))
                came = good, warned(server), reserve_of(path), os.path.exists(f"{path}.old")
                wanted = (
                    (True, [former_given_up(path)], WHOLE, False)
                    if keep
                    else (True, [given_up(path)], None, True)
                )
                checks.equal(f"{what}: what goes", came, wanted)


def a_start_gives_up_what_a_night_left(world, checks):
    """What is left of a new file goes first, then with `keep` the former ledger; but nothing while
    another process has the ledger."""
    what = "a start after a night on a full disk"
    for place, (part, old, keep, comes_up) in enumerate(
        [
            (3 * MIB, 3 * MIB, 2, True),
            (65_536, 3 * MIB, 2, True),
            (65_536, 3 * MIB, None, False),
            (65_536, 65_536, 2, False),
        ]
    ):
        with Disk(world, 24 * MIB) as disk:
            path, filler = f"{disk.folder}/ledger", Filler(disk)
            settings = {"store": path, "default": DEFAULT, "keep": keep}
            with Server(world, words=["--create"], **settings) as server:
                assert server.ask(wire.reserve(1)) == wire.granted(1, 1)
            for end, size in ((".part", part), (".old", old)):
                with open(f"{path}{end}", "wb") as file:
                    file.write(b"x" * size)
            filler.fill()
            is_part_enough = part > MARGIN
            wanted = [] if is_part_enough or not keep else [former_given_up(path)]
            case = f"{what} {place + 1}"
            if comes_up:
                with Server(world, **settings) as server:
                    came = server.ask(wire.reserve(2)), warned(server)
                checks.equal(f"{case}: it comes up", came, (wire.granted(2, 2), wanted))
            else:
                came = world.run("server", "--config", ledger_settings(world, **of(settings)))
                log = "".join(f"{line}\n" for line in wanted)
                status, output, said = refused(path, FULL)
                checks.equal(f"{case}: it ends", came, (status, output, log + said))
            left = [it for it in (".part", ".old") if os.path.exists(f"{path}{it}")]
            kept = [".old"] if is_part_enough or not keep else []
            checks.equal(f"{case}: what is left", left, kept)


def of(settings):
    return {"path": settings["store"], **{k: v for k, v in settings.items() if k != "store"}}


def a_night_on_a_full_disk(world, checks):
    """The new file goes first, and with it the former ledger: an hour later there is room, and the
    days leave. The reserve stays, and requests are answered all the while."""
    what, source = "a night on a full disk", f"{world.folder}/of-a-night"
    books = filled(world, source, 2_000)
    size = os.path.getsize(source) + os.path.getsize(f"{source}-wal")
    # (room for the reserve, the ledger, the margin, and a part of the new file beside the former)
    with Disk(world, 2 * size + RESERVE + MARGIN + size // 3) as disk:
        path = copied(source, f"{disk.folder}/ledger")
        with open(f"{path}.old", "wb") as file:
            file.write(b"x" * size)
        moment = int(time.time())
        server, clock = by_clock(world, path, moment)
        with server:
            number = 50_000
            good = False
            while not good and number < 90_000 and server.process.poll() is None:
                frame = request(number, at=today() * DAY + 5, host=b"mx4")
                checks_reply(checks, what, server, books, frame)
                good = any("is given up" in line for line in warned(server))
                number += 1
            lines = warned(server)
            day = first_day()
            wanted = [
                (
                    f"[WARN  night] days before {day} stay:"
                    " too little room on the disk; next attempt in an hour"
                ),
                former_given_up(path),
            ]
            checks.equal(f"{what}: what is logged", (good, lines), (True, wanted))
            left = [it for it in (".part", ".part-wal", ".old") if os.path.exists(f"{path}{it}")]
            checks.equal(f"{what}: files, and the reserve", (left, reserve_of(path)), ([], WHOLE))
            clock.pass_to(clock.now() + 3_700)
            good = wait_until(
                lambda: server.ask(wire.page())
                and any("are forgotten" in line for line in server.all_log_lines())
            )
            checks.equal(
                f"{what}: an hour later", (good, os.path.exists(f"{path}.old")), (True, True)
            )
            checks.equal(f"{what}: warnings then", warned(server), wanted)


def checks_reply(checks, what, server, books, frame):
    came, wanted = replies_of(server, [frame]), [books.serve(frame)]
    if came != wanted:
        checks.equal(f"{what}: a reply", came, wanted)
