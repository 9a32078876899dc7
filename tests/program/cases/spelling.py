"""The filter `filter-one-spelling` of contrib, which is fed what smtpd writes of several sessions
at once: the mail of a session is refused whose login has a byte that a plain login hasn't, and no
other session's."""
import os
import subprocess

from ends import SECONDS, TOP

SCRIPT = f"{TOP}/contrib/filter-one-spelling"
CONFIG = b"config|smtpd-version|7.6.0-portable\nconfig|protocol|0.7\nconfig|smtp-session-timeout|300\nconfig|subsystem|smtp-in\nconfig|admd|vm\nconfig|ready\n"
REGISTRATION = [
    b"register|report|smtp-in|link-auth",
    b"register|report|smtp-in|link-disconnect",
    b"register|filter|smtp-in|mail-from",
    b"register|ready",
]
GO, NO = b"proceed", b"reject|550 type the login in lower case"
PLAIN = [
    b"alice",
    b"alice@example.org",
    b"a.b_c@d+e-f",
    b"0123456789",
    b"abcdefghijklmnopqrstuvwxyz",
    b"pass",
    b"fail",
    b"-",
    b"",
]
# what smtpd writes for some bytes begins with a backslash
OTHERS = [
    b"Alice",
    b"alicE",
    b"ALICE",
    b"alice:skey",
    b"alice\\040",
    b"\\040alice",
    b"al ice",
    b"alice\\\\",
    b"a|b",
    b"pass|Alice",
    b"\xc3\xa9",
    b"al\xffice",
    b"a*",
    b"a?",
    b"[a]",
    b"$a",
    b"a/b",
    b"a=b",
    b"a~",
    b"Z",
]


def run(world, checks):
    two_sessions_at_once(checks)
    logins(checks)
    sessions_whose_names_begin_alike(checks)
    others_of_its_lines(checks)


class Spelling:
    """The filter, which is told lines and asked, one request after the other."""

    def __init__(self, **environment):
        # (as smtpd does, in a folder of its own; it must not matter which locale smtpd has)
        its = {**os.environ, **environment}
        self.process = subprocess.Popen(
            ["sh", SCRIPT],
            cwd="/",
            env=its,
            stdin=subprocess.PIPE,
            stdout=subprocess.PIPE,
            stderr=subprocess.PIPE,
            bufsize=0,
        )
        self.said = 0

    def tell(self, event, session, rest):
        self.said += 1
        self.write(
            b"report|0.7|179532922%d.0%05d|smtp-in|%s|%s%s\n"
            % (self.said % 10, self.said, event, session, rest and b"|" + rest)
        )

    def write(self, lines):
        self.process.stdin.write(lines)

    def login(self, session, login, result=b"pass"):
        self.tell(b"link-auth", session, result + b"|" + login)

    def gone(self, session):
        self.tell(b"link-disconnect", session, b"")

    def ask(self, session, token=b"a90d6ef2fbf8626f", sender=b"alice@example.org"):
        """What is answered to a mail's begin, which comes before the next line is written; None
        where it isn't the answer of this session and token."""
        self.said += 1
        self.write(
            b"filter|0.7|1795329220.0%05d|smtp-in|mail-from|%s|%s|%s\n"
            % (self.said, session, token, sender)
        )
        line = self.process.stdout.readline()
        begins = b"filter-result|%s|%s|" % (session, token)
        return line[len(begins) : -1] if line.startswith(begins) and line.endswith(b"\n") else None

    def end(self):
        """What is still printed once there is no more input, and what was said to the log."""
        output, errors = self.process.communicate(timeout=SECONDS)
        return output, errors


def two_sessions_at_once(checks):
    """Their lines stand among each other, as smtpd writes them: each is answered by its own
    login."""
    one, two, three = b"d1214ca5ddd8451a", b"d1214ca6b2f3c582", b"d1214ca7c0ffee00"
    it = Spelling()
    it.write(CONFIG)
    checks.equal(
        "one-spelling: what it registers",
        [it.process.stdout.readline().rstrip(b"\n") for _ in REGISTRATION],
        REGISTRATION,
    )
    came = [it.ask(one), it.ask(two)]
    checks.equal("two sessions, before either has a login", came, [GO, GO])
    it.login(one, b"Alice")
    it.login(two, b"bob")
    checks.equal(
        "two sessions, Alice's and bob's",
        [
            it.ask(one),
            it.ask(two),
            it.ask(one, b"0123456789abcdef"),
            it.ask(two, b"fedcba9876543210"),
        ],
        [NO, GO, NO, GO],
    )
    it.login(three, b"Carol")
    checks.equal("and Carol's", [it.ask(two), it.ask(three), it.ask(one)], [GO, NO, NO])
    it.gone(one)
    checks.equal("once Alice's is gone: bob's and Carol's", [it.ask(two), it.ask(three)], [GO, NO])
    it.login(one, b"alice")
    checks.equal(
        "a later session under the name of Alice's, of alice",
        [it.ask(one), it.ask(three)],
        [GO, NO],
    )
    it.gone(two)
    it.gone(three)
    checks.equal("once all are gone: a session without a login", it.ask(three), GO)
    checks.equal("one-spelling: what it prints besides, and says", it.end(), (b"", b""))


def logins(checks):
    """Each in a session of its own, all open at once, in the C locale and in one in which letters
    have other orders."""
    for locale in ("C", "en_US.UTF-8"):
        it = Spelling(LC_ALL=locale, LANG=locale)
        wanted = {login: GO for login in PLAIN} | {login: NO for login in OTHERS}
        sessions = {login: b"%016x" % n for n, login in enumerate(wanted)}
        for login, session in sessions.items():
            it.login(session, login)
        came = {login: it.ask(session) for login, session in sessions.items()}
        checks.equal(
            (
                f"{len(wanted)} logins of sessions that are open at once, with LC_ALL={locale}:"
                " those answered otherwise"
            ),
            {login: it for login, it in came.items() if it != wanted[login]},
            {},
        )
        it.end()
    it = Spelling()
    for result in (b"fail", b"error"):
        it.login(b"a1", b"Alice", result)
        checks.equal(f"a login that didn't succeed, {result.decode()}", it.ask(b"a1"), GO)
    # (as an older smtpd writes it, the login first)
    it.tell(b"link-auth", b"a2", b"Alice|pass")
    it.tell(b"link-auth", b"a3", b"alice|pass")
    it.tell(b"link-auth", b"a4", b"Alice|fail")
    checks.equal(
        "logins that stand before the result",
        [it.ask(b"a2"), it.ask(b"a3"), it.ask(b"a4")],
        [NO, GO, GO],
    )
    it.end()


def sessions_whose_names_begin_alike(checks):
    it = Spelling()
    it.login(b"abcd", b"Alice")
    it.login(b"12", b"Alice")
    names = [b"abc", b"bcd", b"abcde", b"a", b"cd 12", b"1", b"2", b"123"]
    checks.equal(
        "sessions whose names are a part of a refused one's, or begin with it",
        [it.ask(name) for name in names],
        [GO] * len(names),
    )
    it.gone(b"abc")
    it.gone(b"cd")
    checks.equal("after the end of such a session", [it.ask(b"abcd"), it.ask(b"12")], [NO, NO])
    it.gone(b"abcd")
    checks.equal(
        "after the end of one of two that are refused", [it.ask(b"abcd"), it.ask(b"12")], [GO, NO]
    )
    it.login(b"34", b"Alice")
    it.login(b"56", b"Alice")
    it.gone(b"34")
    checks.equal(
        "after the end of the second of three that are refused",
        [it.ask(b"12"), it.ask(b"34"), it.ask(b"56")],
        [NO, GO, NO],
    )
    it.end()


def others_of_its_lines(checks):
    """A mail's sender has nothing to do with it, and further config lines and reports are no
    matter."""
    it = Spelling()
    it.write(CONFIG.replace(b"config|ready\n", b"config|tls-something|Ready\n"))
    it.login(b"a1", b"alice")
    it.tell(b"link-identify", b"a1", b"EHLO|Host.example.org")
    it.tell(b"tx-begin", b"a1", b"8E076780")
    senders = [b"Alice@Example.ORG", b"", b"a|B", b"a\\040b", b"*"]
    checks.equal(
        "senders of any bytes, in a session of alice",
        [it.ask(b"a1", sender=sender) for sender in senders],
        [GO] * len(senders),
    )
    it.login(b"a2", b"Alice")
    checks.equal(
        "senders of any bytes, in a session of Alice",
        [it.ask(b"a2", sender=sender) for sender in senders],
        [NO] * len(senders),
    )
    checks.equal("before it is told to, it registers nothing", it.end(), (b"", b""))
