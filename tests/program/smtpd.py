"""smtpd's end of a filter: what it says line by line, and what it is answered."""
import subprocess
import time

from cases.filters import CONFIG, REGISTRATION
from ends import LONG, SECONDS, apart, toml

# what smtpd calls an answer, one of a few for each recipient
TOKEN = b"0123456789abcdef"


class Smtpd:
    """A filter that is started as the manual says, and is spoken to line by line."""

    def __init__(self, world, host, address, words=(), **settings):
        file = world.new_file(toml({"host": host, "server": address, "timeout": LONG, **settings}))
        self.log = open(world.new_file(""), "w+b")
        before = clock()
        self.process = subprocess.Popen(
            [world.program, "filter", "--config", file, *words],
            stdin=subprocess.PIPE,
            stdout=subprocess.PIPE,
            stderr=self.log,
            bufsize=0,
        )
        self.say(CONFIG)
        self.registration = b"".join(
            self.process.stdout.readline() for _ in REGISTRATION.splitlines()
        )
        # the clock was read at some moment of these
        self.runs = range(before, clock() + 1)

    def say(self, text):
        self.process.stdin.write(text)

    def report(self, at, event, session, rest):
        self.say(b"report|0.7|%d.000001|smtp-in|%s|%s|%s\n" % (at, event, session, rest))

    def is_done(self):
        """Whether it answers what needs no server, and so has done with all lines before, their
        exchanges too."""
        self.say(b"filter|0.7|1.000002|smtp-in|mail-from|done|%s|alice@example.org\n" % TOKEN)
        return self.process.stdout.readline() == result(b"proceed", b"done")

    def login(self, at, session, login):
        self.report(at, b"link-auth", session, b"pass|" + login)

    def begin(self, at, session, message):
        self.report(at, b"tx-begin", session, message)

    def commit(self, at, session, message):
        self.report(at, b"tx-commit", session, message + b"|1200")

    def recipient(self, at, session):
        """What is answered to one more recipient."""
        self.say(
            b"filter|0.7|%d.000002|smtp-in|rcpt-to|%s|%s|bob@example.org\n" % (at, session, TOKEN)
        )
        return self.process.stdout.readline()

    def end(self):
        """The status, what is still printed, and what was said in addition to the log."""
        self.process.stdin.close()
        rest = self.process.stdout.read()
        status = self.process.wait(timeout=SECONDS)
        self.log.seek(0)
        errors = apart(self.log.read().decode(errors="replace"))[1]
        self.log.close()
        return status, rest, errors


def clock():
    """Milliseconds since 1970."""
    return time.time_ns() // 1_000_000


def result(text, session):
    """The line that answers a recipient of this session so."""
    return b"filter-result|" + session + b"|" + TOKEN + b"|" + text + b"\n"
