"""The program as it is used: a server over a file and the filters of two hosts, started as the
manual says.

Runs and limits have the clock's number, since nothing gives them another; hosts have long names and
logins the longest. The mails are of today and of days after 2038. Each answer, what is reported,
and each row of the file is what the ledger of tests/model makes of the same requests.
"""
import random
import signal
import socket
import time

import clocks
import wire
from books import Books
from cases.filters import LIMIT, PROCEED, REGISTRATION, SERVICE
from ends import Server, shown
from rows import rows_in, same_rows
from smtpd import Smtpd, clock, result

DEFAULT = 3
HOSTS = ["outgoing-1.example.org", "outgoing-2." + "a" * 41 + ".example.org"]
ADMIN = "Admin-host." + "0123456789" * 4 + ".example.org"
LOGINS = [b"a" * 243 + b"@example.org", b"\xc3\xa9" * 121 + b"|@example.org"]
MOMENTS = {
    "today": int(time.time()),
    "the last second of a counter of 31 bits": 2_147_483_647,
    "the second behind it": 2_147_483_648,
    "2100": 4_102_444_800,
    "the second behind a counter of 32 bits": 4_294_967_296,
    "the last second": 32_503_680_000,
}
RESULTS = {0x81: PROCEED, 0x82: LIMIT}


def run(world, checks):
    lengths = [len(it) for it in (*HOSTS, ADMIN, *LOGINS)]
    checks.equal(
        "bytes of the hosts, of the administrator's and of the logins",
        lengths,
        [22, 64, 63, 255, 255],
    )
    for what, at in MOMENTS.items():
        Play(world, checks, what, at).play()
    print(
        (
            f"    mails of {len(MOMENTS)} moments, {len(HOSTS)} hosts and {len(LOGINS)} logins,"
            " each with a limit and a restart"
        ),
        flush=True,
    )


class Play:
    """Two hosts, a server and a file, and with them the books of what was asked."""

    def __init__(self, world, checks, what, at):
        self.world, self.checks, self.what, self.at = world, checks, what, at
        self.path = f"{world.folder}/used-{at}"
        self.listen = f"127.0.0.1:{quiet_port()}"
        self.books = Books(default=DEFAULT)
        self.server = None
        self.filters = []
        # of each host: the number of its last request and of its last transaction
        self.sequences = {}
        self.transactions = {}

    def play(self):
        self.start("--create")
        self.filters = [Smtpd(self.world, host, self.listen) for host in HOSTS]
        self.equal(
            "both filters register", [it.registration for it in self.filters], [REGISTRATION] * 2
        )
        self.up_to_the_limit()
        self.a_limit()
        self.a_restart()
        self.behind_the_restart()
        self.ends()

    def equal(self, what, came, wanted):
        self.checks.equal(f"{self.what}: {what}", came, wanted)

    def start(self, *words):
        self.server = Server(
            self.world,
            connections=None,
            words=words,
            store=self.path,
            default=DEFAULT,
            listen=self.listen,
            # (the mails are of today by the server's clock)
            limit=clocks.at(self.at),
        )
        self.equal("a server listens", self.server.port, int(self.listen.rpartition(":")[2]))

    def stop(self):
        self.server.process.terminate()
        self.equal("the server ends by SIGTERM", self.server.status(), -signal.SIGTERM)
        self.equal("the server's log", self.server.log_lines(), [])

    # What the books say of a request of a host, whose run is known once the file is read: until
    # then each host has run 1.

    def ask(self, host, spelled, txn, login, **fields):
        sequence = self.sequences.get(host, 0) + 1
        self.sequences[host] = sequence
        frame = spelled(sequence, txn=txn, login=login, at=self.at, host=host.encode(), **fields)
        return self.books.apply(frame[2:])

    def begin(self, place, session, login):
        filter_ = self.filters[place]
        self.transactions[HOSTS[place]] = self.transactions.get(HOSTS[place], 0) + 1
        filter_.login(self.at, session, login)
        filter_.begin(self.at, session, b"m-" + session)
        return self.transactions[HOSTS[place]]

    def recipient(self, place, session, txn, login):
        """One recipient more is answered as the books say."""
        wanted = RESULTS[self.ask(HOSTS[place], wire.reserve, txn, login)[0]]
        came = self.filters[place].recipient(self.at, session)
        self.equal(
            f"host {place}, session {session.decode()}, request {self.sequences[HOSTS[place]]}",
            came,
            result(wanted, session),
        )
        return wanted

    def up_to_the_limit(self):
        first, second = self.begin(0, b"s1", LOGINS[0]), self.begin(1, b"s2", LOGINS[0])
        came = [
            self.recipient(*it, LOGINS[0])
            for it in [
                (0, b"s1", first),
                (1, b"s2", second),
                (0, b"s1", first),
                (1, b"s2", second),
                (0, b"s1", first),
            ]
        ]
        self.equal("three recipients of two hosts, and two more", came, [PROCEED] * 3 + [LIMIT] * 2)
        other = self.begin(1, b"s3", LOGINS[1])
        self.equal("another login", self.recipient(1, b"s3", other, LOGINS[1]), PROCEED)
        self.report("at the limit")

    def a_limit(self):
        """It is set from this day on, as an administrator does, and holds for both hosts at
        once."""
        before = clock()
        words = [
            "--server",
            self.listen,
            "--host",
            ADMIN,
            "--login",
            LOGINS[0],
            "--from",
            str(self.day()),
            "--cap",
            "5",
        ]
        self.equal("a limit of 5", self.world.run("limit", *words), (0, b"set\n", ""))
        self.limits = range(before, clock() + 1)
        self.books.apply(wire.limit(1, self.day(), 5, login=LOGINS[0], host=ADMIN.encode())[2:])
        self.equal(
            "the fourth recipient, by the limit of 5",
            self.recipient(1, b"s2", 1, LOGINS[0]),
            PROCEED,
        )
        self.report("below the new limit")

    def a_restart(self):
        """While the server is away a recipient is refused for now; it takes a number, and its
        request is never applied."""
        self.stop()
        self.sequences[HOSTS[1]] += 1
        self.equal(
            "a recipient while the server is away",
            self.filters[1].recipient(self.at, b"s3"),
            result(SERVICE, b"s3"),
        )
        self.start()
        self.report("behind the restart")

    def behind_the_restart(self):
        self.filters[0].commit(self.at, b"s1", b"m-s1")
        self.equal("the first host's filter has sent its settle", self.filters[0].is_done(), True)
        self.ask(HOSTS[0], wire.settle, 1, LOGINS[0], count=2)
        self.equal(
            "the fifth recipient, by the limit that was set before",
            self.recipient(1, b"s2", 1, LOGINS[0]),
            PROCEED,
        )
        self.equal("the sixth", self.recipient(1, b"s2", 1, LOGINS[0]), LIMIT)
        self.report("behind a commit")
        self.filters[1].commit(self.at, b"s2", b"m-s2")
        self.equal("the second host's filter has sent its settle", self.filters[1].is_done(), True)
        self.ask(HOSTS[1], wire.settle, 1, LOGINS[0], count=3)
        again = self.begin(0, b"s1", LOGINS[0])
        self.equal("the next mail", self.recipient(0, b"s1", again, LOGINS[0]), LIMIT)
        self.filters[1].report(self.at, b"tx-rollback", b"s3", b"m-s3")
        self.equal("the second host's filter has sent its release", self.filters[1].is_done(), True)
        self.ask(HOSTS[1], wire.release, 2, LOGINS[1])

    def ends(self):
        self.equal(
            "both filters end at their input's end",
            [it.end() for it in self.filters],
            [(0, b"", "")] * 2,
        )
        # (the last mail of the first host never ends: what it asked for was refused, and is held
        # until then)
        self.report("at the end")
        self.stop()
        runs = {host: run for _, host, run, *_ in rows_in(self.path)["answer"]}
        known = [*zip(HOSTS, (it.runs for it in self.filters)), (ADMIN, self.limits)]
        self.equal(
            "runs that are none of the clock",
            [host for host, runs_of in known if runs.get(host.encode()) not in runs_of],
            [],
        )
        same_rows(self.checks, self.what, self.path, with_runs(self.books, runs))
        audit = self.world.run(
            "audit",
            "--config",
            self.world.new_file(
                f'listen = "{self.listen}"\nstore = "{self.path}"\ndefault = {DEFAULT}\noffset'
                " = 0\n"
            ),
        )
        self.equal("audit", audit, (0, b"sound days=2 transactions=4\n", ""))

    def day(self):
        return self.at // 86_400

    def report(self, when):
        """A report of the day says what the books do."""
        page = self.books.page(self.day(), b"")
        came = self.server.ask(wire.page(day=self.day()))
        self.equal(f"the list {when}", came, wire.frame(page))
        lines = []
        for login in LOGINS:
            settled, reserved = self.books.usage.get((login, self.day()), (0, 0))
            lines.append(
                f"{settled:7} {reserved:7} {self.books.cap(login, self.day()):7} {shown(login)}\n".encode()
            )
        came = self.world.run("report", "--server", self.listen, "--day", str(self.day()))
        self.equal(f"the report {when}", came, (0, b"".join(lines), ""))


def with_runs(books, runs):
    """The same books, where each host has its run."""
    again = Books(books.zone, books.default)
    for (host, _, _), body, _ in books.answers:
        place = 2 + len(host)
        again.apply(body[:place] + runs.get(host, 1).to_bytes(8, "big") + body[place + 8 :])
    return again


def quiet_port():
    """A port that was free just now, below those that the system gives to connections of its own,
    for a server that is started again."""
    while True:
        with socket.socket() as probe:
            try:
                probe.bind(("127.0.0.1", random.randrange(15_000, 32_000)))
            except OSError:
                continue
            return probe.getsockname()[1]
