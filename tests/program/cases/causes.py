"""What the log says of a ledger's file that isn't taken, and of a store that fails, before the text
that the program ends with; and what `forget` says on a terminal of how far it is."""
import itertools
import os
import pty
import re
import signal
import subprocess
import threading
import time

import wire
from books import Books
from cases.audits import edited
from cases.forgetting import left_by_a_server
from cases.retiring import of_version, written
from cases.rules import CENTRAL_EUROPE
from ends import (
    IS_THERE,
    NO_NUMERIC_ADDRESS,
    NO_PORT,
    PORT_TOO_LARGE,
    SECONDS,
    Server,
    fault,
    ledger_settings,
    nobody_there,
    of_settings,
    of_store,
    refusal,
    soon,
    toml,
    unreached,
    wait_until,
    wrong_tables,
)

BY_RULE = {"offset": None, "rule": CENTRAL_EUROPE}
NOT_OURS, ANOTHER_ZONE, ANOTHER_DEFAULT = (
    "store is not this ledger",
    "store has another zone",
    "store has another default",
)
# more answers than `forget` looks through in two seconds, where it keeps them all
MANY = 25_000
# so many seconds it is stopped then: far more than what is seen late of what it says
HELD_UP = 6


def run(world, checks):
    zones_and_defaults(world, checks)
    files_without_a_ledger(world, checks)
    versions(world, checks)
    a_ledger_that_is_there(world, checks)
    logs_of_nothing(world, checks)
    addresses_of_settings(world, checks)
    values_of_settings(world, checks)
    files_of_settings(world, checks)
    rows_of_no_ledger(world, checks)
    forgets_no_such_rows(world, checks)
    memory(world, checks)
    progress(world, checks)


def refuses(world, checks, what, path, said, cause, **settings):
    """Each command that opens a ledger says why it doesn't."""
    file, into = ledger_settings(world, path, **settings), f"{path}.new"
    for words in (
        ["server"],
        ["audit"],
        ["limits"],
        ["status"],
        ["forget", "--before", "2", "--into", into],
    ):
        status, output, errors = world.run(words[0], "--config", file, *words[1:])
        asked = (
            f"{unreached('127.0.0.1:1')}mailquota: quota service unavailable\n"
            if words[0] == "status"
            else ""
        )
        checks.equal(
            f"{what}: {words[0]}",
            (status, output, errors),
            (1, b"", f"{asked}{refusal(path, cause)}mailquota: {said}\n"),
        )
    checks.equal(f"{what}: forget makes no file", os.path.exists(into), False)


def zones_and_defaults(world, checks):
    """Both what the ledger was made with and what the settings have."""
    by_offset, _ = left_by_a_server(world, "by-offset", wire.reserve(1))
    by_rule, _ = left_by_a_server(world, "by-rule", wire.reserve(1), **BY_RULE)
    west, _ = left_by_a_server(world, "by-offset-west", wire.reserve(1), offset=-1_439)
    for what, path, settings, cause in [
        (
            "another offset",
            by_offset,
            {"offset": 60},
            "made with offset 0, the settings have offset 60",
        ),
        (
            "an offset west of it",
            by_offset,
            {"offset": -90},
            "made with offset 0, the settings have offset -90",
        ),
        (
            "the least offset",
            west,
            {"offset": 1_439},
            "made with offset -1439, the settings have offset 1439",
        ),
        (
            "a rule in place of an offset",
            by_offset,
            BY_RULE,
            f"made with offset 0, the settings have rule {CENTRAL_EUROPE}",
        ),
        (
            "an offset in place of a rule",
            by_rule,
            {},
            f"made with rule {CENTRAL_EUROPE}, the settings have offset 0",
        ),
        (
            "another rule",
            by_rule,
            {"offset": None, "rule": "UTC0"},
            f"made with rule {CENTRAL_EUROPE}, the settings have rule UTC0",
        ),
    ]:
        refuses(world, checks, what, path, ANOTHER_ZONE, cause, **settings)
    refuses(
        world,
        checks,
        "another default",
        by_offset,
        ANOTHER_DEFAULT,
        "made with default 3, the settings have default 4",
        default=4,
    )
    refuses(
        world,
        checks,
        "a default of nothing",
        by_rule,
        ANOTHER_DEFAULT,
        "made with default 3, the settings have default 0",
        **BY_RULE,
        default=0,
    )
    both = "made with offset 0, the settings have offset 60"
    refuses(
        world,
        checks,
        "another zone and default",
        by_offset,
        ANOTHER_ZONE,
        both,
        offset=60,
        default=4,
    )


def files_without_a_ledger(world, checks):
    empty = world.new_file("")
    refuses(world, checks, "an empty file", empty, NOT_OURS, "no ledger: no such table")
    other = edited(world, empty, "of-others", "CREATE TABLE other (a INTEGER)")
    refuses(world, checks, "a database of others", other, NOT_OURS, "no ledger: no such table")
    table = "CREATE TABLE setting (id INTEGER PRIMARY KEY, version{0}, minutes{0}, cap{0})"
    without = edited(world, empty, "without-settings", table.format(" INTEGER"))
    refuses(
        world,
        checks,
        "a table of settings without a row",
        without,
        NOT_OURS,
        "no ledger: it has no settings",
    )
    for what, row in [
        ("a version that is a text", "1, 'x', 0, 3"),
        ("a version that is nothing", "1, NULL, 0, 3"),
    ]:
        path = edited(
            world,
            empty,
            f"no-numbers-{what[-4:]}",
            table.format(""),
            f"INSERT INTO setting VALUES ({row})",
        )
        refuses(world, checks, what, path, NOT_OURS, "no ledger: its settings are no numbers")


def versions(world, checks):
    path, _ = left_by_a_server(world, "versions", wire.reserve(1) + wire.retire(1, run=2))
    for version in (0, 4, 9, 1_000_000):
        later = edited(world, path, f"version-{version}", f"UPDATE setting SET version = {version}")
        refuses(
            world,
            checks,
            f"tables of version {version}",
            later,
            NOT_OURS,
            f"tables of version {version}, this program knows 1 to 3",
        )
    for version, statements in [
        (1, ["UPDATE setting SET version = 1"]),
        (2, ["UPDATE setting SET version = 2"]),
        (3, ["DROP TABLE rule"]),
        (3, ["DROP TABLE retired"]),
    ]:
        other = edited(world, path, f"tables-{version}-{len(statements[0])}", *statements)
        refuses(
            world,
            checks,
            f"tables of version {version}, {statements[0]}",
            other,
            NOT_OURS,
            wrong_tables(version),
        )


def a_ledger_that_is_there(world, checks):
    path, _ = left_by_a_server(world, "there", wire.reserve(1))
    alone = edited(world, world.new_file(""), "there-alone", "CREATE TABLE usage (a INTEGER)")
    for what, name in [("a ledger", path), ("a table of its names", alone)]:
        for words in (["init"], ["server", "--create"]):
            came = world.run(words[0], "--config", ledger_settings(world, name), *words[1:])
            checks.equal(
                f"{what} is there: {' '.join(words)}",
                came,
                (1, b"", refusal(name, IS_THERE) + f"mailquota: {NOT_OURS}\n"),
            )


def logs_of_nothing(world, checks):
    """`log = "off"` leaves the last line alone."""
    path, _ = left_by_a_server(world, "off", wire.reserve(1))
    for subcommand, *words in (
        ["server"],
        ["audit"],
        ["limits"],
        ["status"],
        ["forget", "--before", "2", "--into", f"{path}.new"],
        ["init"],
    ):
        came = world.run(
            subcommand, "--config", ledger_settings(world, path, offset=60, log="off"), *words
        )
        # (that nothing answers is no matter of the settings)
        asked = (
            f"{unreached('127.0.0.1:1')}mailquota: quota service unavailable\n"
            if subcommand == "status"
            else ""
        )
        checks.equal(
            f"a log of nothing: {subcommand}",
            came,
            (1, b"", f"{asked}mailquota: {NOT_OURS if subcommand == 'init' else ANOTHER_ZONE}\n"),
        )


def addresses_of_settings(world, checks):
    """What the address of a filter's server lacks, and that at which a server is to listen."""
    filters, servers = {"host": "mx1"}, {"store": "memory", "default": 3, "offset": 0}
    for subcommand, key, others in [("filter", "server", filters), ("server", "listen", servers)]:
        for value, lacks in [
            ("nowhere", NO_PORT),
            ("", NO_PORT),
            ("127.0.0.1", NO_PORT),
            ("[::1]", NO_PORT),
            ("127.0.0.1:65536", PORT_TOO_LARGE),
            ("127.0.0.1:", NO_PORT),
            ("127.0.0.1:4294967296", PORT_TOO_LARGE),
            ("localhost:65535", NO_NUMERIC_ADDRESS),
            ("localhost:7025", NO_NUMERIC_ADDRESS),
            ("::1", NO_NUMERIC_ADDRESS),
            ("*:7025", NO_NUMERIC_ADDRESS),
            (7025, "bad value, it has to be a numeric address with a port, in quotes"),
        ]:
            refuses_setting(world, checks, subcommand, others, key, value, lacks)


def refuses_setting(world, checks, subcommand, others, key, value, said):
    """The value of a setting is bad, and the log says why."""
    file = world.new_file(toml({**others, key: value}))
    came = world.run(subcommand, "--config", file)
    checks.equal(
        f"{subcommand} with {key} = {value!r}",
        came,
        fault(f"setting {key}: bad value", log=of_settings(file, f"setting {key}: {said}")),
    )


def values_of_settings(world, checks):
    """What each key's value has to be, where it isn't."""
    filters, servers = {"host": "mx1", "server": "127.0.0.1:7025"}, {
        "listen": "127.0.0.1:7025",
        "store": "memory",
        "default": 3,
        "offset": 0,
    }
    for subcommand, others, key, value, wanted in [
        ("filter", filters, "host", "a_b", "1 to 64 letters, digits, '.' and '-', in quotes"),
        ("filter", filters, "tries", 11, "a whole number from 1 to 10"),
        ("filter", filters, "timeout", 0, "a whole number of milliseconds from 1 to 60000"),
        ("filter", filters, "log", "debug", "off, error, warn or info, in quotes"),
        ("server", servers, "store", "", "'memory' or the path of a file, in quotes"),
        ("server", servers, "default", 1_000_001, "a whole number from 0 to 1000000"),
        ("server", servers, "offset", 1440, "a whole number of minutes from -1439 to 1439"),
        (
            "server",
            servers,
            "rule",
            "UTC0",
            "a zone rule of at most 64 bytes, in quotes, in place of an offset",
        ),
    ]:
        refuses_setting(
            world, checks, subcommand, others, key, value, f"bad value, it has to be {wanted}"
        )


def files_of_settings(world, checks):
    """The line of the log names the file of settings at fault, also where it says no more than the
    last line."""
    filters = {"host": "mx1", "server": "127.0.0.1:7025"}
    for said, text in [
        ("setting port: unknown", toml({**filters, "port": 1})),
        ("setting server: missing", toml({"host": "mx1"})),
        ("settings too large", "#" * 65_537),
    ]:
        file = world.new_file(text)
        checks.equal(
            f"filter: {said}",
            world.run("filter", "--config", file),
            fault(said, log=of_settings(file, said)),
        )


def rows_of_no_ledger(world, checks):
    """A repeat of a request whose stored reply spells nothing ends the server, with what is
    wrong."""
    source, _ = left_by_a_server(world, "rows", wire.reserve(1) + wire.reserve(2))
    path = edited(world, source, "rows-of-nothing", "UPDATE answer SET reply = x'ff' WHERE n = 2")
    with Server(world, store=path) as server:
        checks.equal(
            "a row that spells nothing: what is right",
            server.ask(wire.reserve(1)),
            wire.granted(1, 1),
        )
        checks.equal("a row that spells nothing: the reply", server.ask(wire.reserve(2)), b"")
        status, lines = server.status(), [
            re.sub(r"127\.0\.0\.1:\d+", "PEER", line) for line in server.log_lines()
        ]
        wanted = (
            "[ERROR connections] connection of PEER: store failed",
            of_store(path, "rows are none of a ledger's")[:-1],
            "mailquota: store failed",
        )
        checks.equal(
            "a row that spells nothing: the end, and what is logged of it",
            (status, lines),
            (1, [*wanted]),
        )
    with Server(world, store=path) as server:
        checks.equal(
            "a row that spells nothing, asked for behind one that is right: the reply",
            server.ask(wire.reserve(1) + wire.reserve(2)),
            wire.granted(1, 1),
        )


def forgets_no_such_rows(world, checks):
    """Nor is such a row carried over: the store has failed, and not memory."""
    source, _ = left_by_a_server(world, "carried", wire.reserve(1) + wire.reserve(2))
    path = edited(world, source, "carried-nothing", "UPDATE answer SET reply = x'ff' WHERE n = 2")
    into = f"{path}.new"
    came = world.run(
        "forget", "--config", ledger_settings(world, path), "--before", "1", "--into", into
    )
    log = (
        f"[ERROR ledger] {into}, made of {path}: rows are none of a"
        f" ledger's\n[ERROR ledger] remove {into} and {into}-wal\n"
    )
    checks.equal(
        "forget of a row that spells nothing", came, (1, b"", f"{log}mailquota: store failed\n")
    )
    came = world.run(
        "forget",
        "--config",
        ledger_settings(world, source, log="info"),
        "--before",
        "1",
        "--into",
        f"{source}.new",
    )
    log = f"[INFO  ledger] {source}.new takes over what {source} has from day 1 on\n"
    checks.equal('forget with log = "info"', came, (0, b"kept answers=2 of 2, limits=0\n", log))


def memory(world, checks):
    """A ledger in memory can be asked of its server alone."""
    with nobody_there() as address:
        file = world.new_file(
            toml({"listen": address, "store": "memory", "default": 3, "offset": 0})
        )
        came = world.run("status", "--config", file)
    wanted = (
        1,
        b"",
        f"{unreached(address)}mailquota: quota service unavailable\nmailquota: store is memory\n",
    )
    checks.equal("status of a ledger in memory, nobody there", came, wanted)


def on_a_terminal(world, *words, held_up=0, times=None):
    """The status of a run whose standard error is a terminal, its output, and what came on the
    terminal, and when. Where it is to be held up, it is stopped for so many seconds once it has
    said something."""
    ours, theirs = pty.openpty()
    said = []

    def read():
        try:
            while piece := os.read(ours, 65_536):
                said.append(piece)
                if times is not None:
                    times.append(time.monotonic())
        except OSError:
            # (a terminal that nobody has open any more)
            pass

    process = subprocess.Popen(
        [world.program, *words], stdin=subprocess.DEVNULL, stdout=subprocess.PIPE, stderr=theirs
    )
    os.close(theirs)
    reading = threading.Thread(target=read, daemon=True)
    reading.start()
    if held_up:
        wait_until(lambda: said or process.poll() is not None)
        process.send_signal(signal.SIGSTOP)
        time.sleep(held_up)
        process.send_signal(signal.SIGCONT)
    output = process.communicate(timeout=SECONDS)[0]
    reading.join(timeout=SECONDS)
    os.close(ours)
    return process.returncode, output, b"".join(said).decode().replace("\r\n", "\n")


def progress(world, checks):
    """`forget` says on a terminal how many answers it looks through, where that takes a second or
    more, and so in the end how many it kept, and how long that took."""
    few, _ = left_by_a_server(world, "few", wire.reserve(1) + wire.reserve(2, txn=2, at=172_800))
    path, half, times, start = many(world), MANY // 2, [], time.monotonic()
    config = ledger_settings(world, path, default=1_000_000)
    status, output, said = on_a_terminal(
        world,
        "forget",
        "--config",
        config,
        "--before",
        "2",
        "--into",
        f"{path}.new",
        held_up=HELD_UP,
        times=times,
    )
    # (it says whole seconds, and its last line may be seen late)
    least, most = times[-1] - times[0] - 2, times[-1] - start
    checks.equal(
        "forget of many answers on a terminal: what it prints",
        (status, output),
        (0, f"kept answers={half} of {MANY}, limits=0\n".encode()),
    )
    lines = re.fullmatch(
        (
            rf"{MANY} answers to look through, in up to about 2 s\n{half} of {MANY} answers kept,"
            r" in ([0-9]+) s\n"
        ),
        said,
    )
    checks.holds(
        "forget of many answers on a terminal: what it says there",
        lines,
        "how many to look through, and how many it kept",
        said,
    )
    good = lines and least <= int(lines[1]) <= most
    checks.holds(
        "forget of many answers on a terminal: how long it says that it took",
        good,
        f"{least:.1f} to {most:.1f} s",
        said,
    )
    # (it speaks of what takes a second, as anything may on a busy machine)
    config, goes = ledger_settings(world, few), itertools.count()
    came, _ = soon(
        lambda: on_a_terminal(
            world,
            *("forget", "--config", config, "--before", "2", "--into", f"{few}.new{next(goes)}"),
        ),
        1,
    )
    checks.equal(
        "forget of two answers on a terminal", came, (0, b"kept answers=1 of 2, limits=0\n", "")
    )


def many(world):
    """The file of a ledger with so many answers, half of them of the first day."""
    books = Books(default=1_000_000)
    for n in range(1, MANY + 1):
        at = 86_400 * (1 if n <= MANY // 2 else 2)
        books.serve(wire.reserve(n, txn=n, login=b"%d" % (n % 5_000), at=at))
    return written(world, "many", *of_version(3, books))
