"""The server over a database file: made, opened again, refused."""
import os
import signal
import socket
import sqlite3
import stat

from ends import (
    IS_THERE,
    LOCKED,
    NO_DATABASE,
    NO_FILE,
    Server,
    fault,
    ledger_settings,
    of_store,
    refusal,
)
from sums import renew
from wire import full, granted, page, page_reply, reserve, row, settle, settled


def run(world, checks):
    made_and_opened(world, checks)
    refused(world, checks)
    with socket.create_server(("127.0.0.1", 0)) as taken:
        a_ledger_in_a_file(world, checks, taken.getsockname()[1])
        files_without_a_ledger(world, checks, taken.getsockname()[1])


def used(in_settled, in_reserved, cap=3):
    return page_reply([row(b"u", in_settled, in_reserved, cap)])


def made_and_opened(world, checks):
    path = f"{world.folder}/ledger"
    with Server(world, words=["--create"], store=path) as server:
        checks.equal(
            "a new file: three reserves",
            server.ask(reserve(1) + reserve(2, count=2) + reserve(3)),
            granted(1, 1) + granted(2, 3) + full(3, 3, 3),
        )
        modes = [stat.S_IMODE(os.stat(name).st_mode) for name in (path, f"{path}-wal")]
        checks.equal("a new file: its mode, and that of its log", modes, [0o600, 0o600])
        checks.equal("a new file: the log of the server", server.log_lines(), [])
    with Server(world, store=path) as server:
        again = reserve(1) + reserve(3) + settle(4, count=2) + page()
        checks.equal(
            "the file opened again, behind SIGTERM",
            server.ask(again),
            granted(1, 1) + full(3, 3, 3) + settled(4, 2) + used(2, 0),
        )
        server.process.send_signal(signal.SIGKILL)
        server.status()
    with Server(world, store=path) as server:
        checks.equal(
            "the file opened again, behind SIGKILL",
            server.ask(settle(4, count=2) + page()),
            settled(4, 2) + used(2, 0),
        )
        second = world.run("server", "--config", ledger_settings(world, path))
        checks.equal(
            "a second server over the file",
            second,
            fault("store can't be opened", log=of_store(path, LOCKED)),
        )
        checks.equal("the first one goes on", server.ask(page()), used(2, 0))
    with Server(world, words=["--create"]) as server:
        checks.equal("--create in memory", server.ask(reserve(1)), granted(1, 1))


def refused(world, checks):
    path = f"{world.folder}/ledger"
    text = f"{world.folder}/text"
    empty = f"{world.folder}/empty"
    with open(text, "w", encoding="ascii") as file:
        file.write("no database\n" * 1_000)
    with open(empty, "w", encoding="ascii"):
        pass
    opened = "store can't be opened"
    for what, place, words, more, wanted, cause in [
        ("no file", f"{world.folder}/none", [], {}, opened, NO_FILE),
        ("no folder", f"{world.folder}/none/ledger", ["--create"], {}, opened, NO_FILE),
        ("a folder", world.folder, [], {}, opened, "unable to open database file"),
        ("a file that is no database", text, [], {}, opened, NO_DATABASE),
        ("a file that is no database, with --create", text, ["--create"], {}, opened, NO_DATABASE),
        ("an empty file", empty, [], {}, "store is not this ledger", "no ledger: no such table"),
        ("a ledger, with --create", path, ["--create"], {}, "store is not this ledger", IS_THERE),
        (
            "another offset",
            path,
            [],
            {"offset": 60},
            "store has another zone",
            "made with offset 0, the settings have offset 60",
        ),
        (
            "another default",
            path,
            [],
            {"default": 4},
            "store has another default",
            "made with default 3, the settings have default 4",
        ),
        (
            "another offset and default",
            path,
            [],
            {"offset": 60, "default": 4},
            "store has another zone",
            "made with offset 0, the settings have offset 60",
        ),
    ]:
        came = world.run("server", "--config", ledger_settings(world, place, **more), *words)
        log = of_store(place, cause) if wanted == opened else refusal(place, cause)
        checks.equal(f"{what}: status, output, text", came, fault(wanted, log=log))
    checks.holds(
        "no file is made without --create",
        not os.path.exists(f"{world.folder}/none"),
        "none is there",
        os.listdir(world.folder),
    )


class AtATakenPort:
    """What the subcommands say of a file, where a server comes as far as its ledger and then ends,
    since its port is in use."""

    def __init__(self, world, checks, path, port):
        self.world, self.checks, self.path = world, checks, path
        self.file = ledger_settings(world, path, listen=f"127.0.0.1:{port}")
        self.in_use = (
            f"[ERROR server] listening on 127.0.0.1:{port}: Address already in use (os"
            " error 98)\n"
        )

    def server(self, what, *words):
        """It comes as far as its port."""
        self.server_in_vain(what, "listen failed", self.in_use, *words)

    def server_in_vain(self, what, said, log, *words):
        came = self.world.run("server", "--config", self.file, "--connections", "1", *words)
        self.checks.equal(f"{what}: a server", came, fault(said, log=log))

    def audit(self, what, printed):
        self.checks.equal(
            f"{what}: audit", self.world.run("audit", "--config", self.file), (0, printed, "")
        )

    def audit_in_vain(self, what, said, log):
        self.checks.equal(
            f"{what}: audit", self.world.run("audit", "--config", self.file), fault(said, log=log)
        )


def a_ledger_in_a_file(world, checks, port):
    """It is made for its owner alone, opened, and audited; one whose books are wrong isn't."""
    path = f"{world.folder}/steps"
    it = AtATakenPort(world, checks, path, port)
    it.server("a new ledger", "--create")
    checks.equal("a new ledger: its mode", f"{stat.S_IMODE(os.stat(path).st_mode):o}", "600")
    it.audit("a new ledger", b"sound days=0 transactions=0\n")
    with Server(world, store=path) as server:
        server.ask(reserve(1) + reserve(2) + settle(3))
    it.server("a ledger of a message")
    it.audit("a ledger of a message", b"sound days=1 transactions=1\n")
    it.server_in_vain(
        "a ledger that is to be made once more",
        "store is not this ledger",
        refusal(path, IS_THERE),
        "--create",
    )
    database = sqlite3.connect(path)
    database.execute("UPDATE usage SET reserved = 9")
    database.commit()
    database.close()
    it.server_in_vain(
        "a ledger that SQLite wrote without sums",
        "store can't be opened",
        of_store(path, "database disk image is malformed"),
    )
    renew(path)
    it.server_in_vain("a ledger with another count", "store is damaged: login u day 1", "")
    it.audit_in_vain("a ledger with another count", "store is damaged: login u day 1", "")


def files_without_a_ledger(world, checks, port):
    path = f"{world.folder}/no-steps"
    it = AtATakenPort(world, checks, path, port)
    it.server_in_vain("a file that isn't there", "store can't be opened", of_store(path, NO_FILE))
    it.audit_in_vain("a file that isn't there", "store can't be opened", of_store(path, NO_FILE))
    with open(path, "wb"):
        pass
    no_table = refusal(path, "no ledger: no such table")
    it.server_in_vain("a file without tables", "store is not this ledger", no_table)
    it.audit_in_vain("a file without tables", "store is not this ledger", no_table)
