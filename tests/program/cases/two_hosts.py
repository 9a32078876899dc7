"""Two filters, as two hosts, and one server: a login's limit holds over both together."""
import subprocess

from cases.filters import CONFIG, LIMIT, PROCEED, REGISTRATION, SERVICE, answer
from ends import SECONDS, Server

AT = 1_576_146_009
# 18,242 whole days are 1,576,108,800 seconds
DAY = "18242"


class Host:
    """A filter that is spoken to line by line, as smtpd does."""

    def __init__(self, world, name, address):
        file = world.filter_file(address, host=name)
        self.log = open(world.new_file(""), "wb")
        self.process = subprocess.Popen(
            [world.program, "filter", "--config", file, "--run", "1"],
            stdin=subprocess.PIPE,
            stdout=subprocess.PIPE,
            stderr=self.log,
            bufsize=0,
        )
        self.say(CONFIG)
        self.registration = b"".join(
            self.process.stdout.readline() for _ in REGISTRATION.splitlines()
        )

    def say(self, text):
        self.process.stdin.write(text if isinstance(text, bytes) else text.encode())

    def report(self, event, session, rest):
        self.say(f"report|0.7|{AT}.000001|smtp-in|{event}|{session}|{rest}\n")

    def begin(self, session, login, message):
        self.report("link-auth", session, f"pass|{login}")
        self.report("tx-begin", session, message)

    def recipient(self, session, token="0123456789abcdef"):
        self.say(f"filter|0.7|{AT}.000002|smtp-in|rcpt-to|{session}|{token}|bob@example.org\n")
        return self.process.stdout.readline()

    def end(self):
        self.process.stdin.close()
        rest = self.process.stdout.read()
        status = self.process.wait(timeout=SECONDS)
        self.log.close()
        return status, rest


def said(result, session):
    return answer(result, session.encode(), b"0123456789abcdef")


def run(world, checks):
    with Server(world) as server:
        one, two = Host(world, "mx1", server.address), Host(world, "mx2", server.address)
        checks.equal(
            "both hosts register",
            (one.registration, two.registration),
            (REGISTRATION, REGISTRATION),
        )
        one.begin("s1", "alice", "m1")
        two.begin("s2", "alice", "m2")
        for what, host, session, result in [
            ("host 1, recipient 1 of 3", one, "s1", PROCEED),
            ("host 2, recipient 2", two, "s2", PROCEED),
            ("host 1, recipient 3", one, "s1", PROCEED),
            ("host 2, recipient 4", two, "s2", LIMIT),
            ("host 1, recipient 4", one, "s1", LIMIT),
        ]:
            checks.equal(what, host.recipient(session), said(result, session))
        two.begin("s3", "bob", "m3")
        checks.equal("host 2, another login", two.recipient("s3"), said(PROCEED, "s3"))
        reports(
            world,
            checks,
            server,
            "while all is open",
            "      0       3       3 alice\n      0       1       3 bob\n",
        )
        two.report("tx-rollback", "s2", "m2")
        two.report("tx-reset", "s2", "m2")
        checks.equal(
            "host 2, bob's next recipient, behind the rollback",
            two.recipient("s3"),
            said(PROCEED, "s3"),
        )
        checks.equal(
            "host 1, recipient 4 after host 2's rollback", one.recipient("s1"), said(PROCEED, "s1")
        )
        checks.equal("host 1, recipient 5", one.recipient("s1"), said(LIMIT, "s1"))
        one.report("tx-commit", "s1", "m1|1200")
        checks.equal(
            "host 2, the next transaction after host 1's commit",
            next_transaction(two, "s2", "m4"),
            said(LIMIT, "s2"),
        )
        reports(
            world,
            checks,
            server,
            "after host 1's commit",
            "      3       0       3 alice\n      0       2       3 bob\n",
        )
        two.report("link-disconnect", "s3", "")
        two.recipient("s2")
        reports(
            world,
            checks,
            server,
            "after bob's session went",
            "      3       0       3 alice\n      0       0       3 bob\n",
        )
        came = world.run(
            "limit",
            "--server",
            server.address,
            "--host",
            "admin",
            "--login",
            "alice",
            "--from",
            DAY,
            "--cap",
            "4",
        )
        checks.equal("alice's limit set to 4", came, (0, b"set\n", ""))
        checks.equal("host 2, recipient 4 of 4", two.recipient("s2"), said(PROCEED, "s2"))
        server.process.terminate()
        server.process.wait(timeout=SECONDS)
        checks.equal("host 2 without the server", two.recipient("s2"), said(SERVICE, "s2"))
        checks.equal("both end at their input's end", (one.end(), two.end()), ((0, b""), (0, b"")))


def next_transaction(host, session, message):
    host.report("tx-begin", session, message)
    return host.recipient(session)


def reports(world, checks, server, what, wanted):
    checks.equal(
        f"report {what}",
        world.run("report", "--server", server.address, "--day", DAY),
        (0, wanted.encode(), ""),
    )
