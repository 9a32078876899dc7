"""The mails of logins that near their limits or are refused: what the log has for a script that
follows it, what takes the place of journalctl hands on, and what takes that of sendmail keeps."""
import contextlib
import os
import re
import shutil
import signal
import subprocess
import time

import wire
from cases.contrib import CONTRIB, Machine, text_of, with_programs
from cases.units import assignments
from ends import SECONDS, Server, files_in, shown, toml, wait_past_midnight
from pages import block_with, section_of
from smtpd import Smtpd, clock

DAY, HOUR = 86_400, 3_600
# When the lines of these cases are logged, and the day of that at UTC.
AT = 1_795_674_158
TODAY = AT // DAY
ADDRESS = "you@example.org"
# So many mails has an hour.
MOST = 20
SUBJECT = "mailquota: logins near their limits, or refused"
HEAD = f"To: {ADDRESS}\nSubject: {SUBJECT}\nAuto-Submitted: auto-generated\n\n"
FOOT = f"""

This is of the log of {os.uname().nodename}, and comes once a login and day. What to do is in
/usr/share/doc/mailquota/OPERATING.md, "A stolen password".
"""
ASKED = (
    "journalctl --system --quiet --follow --no-tail --since=-1d --output=short-unix"
    " --unit=mailquota --unit=opensmtpd"
)
# Logins that a shell, a pattern, a header or an option would take for more, each after one that it
# may be taken for.
LOGINS = [
    b"alice",
    b"alice2",
    b"lice",
    b"abc",
    b"a.c",
    b"*",
    b"-x",
    b"--help",
    b"$(id>made)",
    b"`id>made`",
    b";id>made",
    b"'\"",
    b"\\n",
    b"a b",
    b"a\r\nBcc: eve@example.org",
    b"../../made",
    b"@1",
    b"\xff" * 255,
    b".",
]
WARN = "[WARN  requests] connection of 192.0.2.1:40312:"
RESERVE = (
    "[WARN  filter] reserve 7 of transaction 3 (host mx1, session 7641df9771b4ed00,"
    " login {}): refused by the limit, 100 used of 100"
)
# What a server's and smtpd's logs have besides, of a login eve.
OF_OTHERS = [
    ("mailquota[7]", f"{WARN} limit 5 of login eve from day 20783: set, lowered from 500"),
    ("mailquota[7]", f"{WARN} limit 5 of login eve from day 20783: refused, 12 used on day 20783"),
    ("mailquota[7]", f"{WARN} host eve asks under run 1, which is retired: its recipients get 451"),
    ("mailquota[7]", f"x {WARN} login eve has used 4 of its limit of 5 on day 20783"),
    ("mailquota[7]", f"{WARN} login eve has used 4 of its limit of 5 on day 20783 "),
    ("mailquota[7]", f"{WARN} login eve or not has used 4 of its limit of 5 on day 20783"),
    ("other[7]", f"{WARN} login eve has used 4 of its limit of 5 on day 20783"),
    ("smtpd[7]", f"quota: {WARN} login eve has used 4 of its limit of 5 on day 20783"),
    ("smtpd[7]", f"quota: {RESERVE.format('eve')}".replace("WARN ", "INFO ")),
    ("smtpd[7]", RESERVE.format("eve")),
    ("smtpd[7]", f"d1214ca5ddd8451a smtp authentication user=quota: {RESERVE.format('eve')}"),
    ("other[7]", f"quota: {RESERVE.format('eve')}"),
    # (a second line of a message stands so)
    ("smtpd[7]", f"a\n           {AT}.1 mx1 smtpd[7]: quota: {RESERVE.format('eve')}"),
]


def run(world, checks):
    of_a_server(world, checks)
    of_a_mail_host(world, checks)
    of_any_login(world, checks)
    lines_of_others(world, checks)
    once_a_login_and_day(world, checks)
    days_by_the_settings(world, checks)
    old_days_go(world, checks)
    a_sendmail_that_fails(world, checks)
    a_sendmail_that_hangs(world, checks)
    many_at_once(world, checks)
    a_stop(world, checks)
    addresses(world, checks)
    by_the_page(world, checks)


# what takes the place of sendmail: it may be down, take its time, and heed no signal
SENDMAIL = """[ ! -e {folder}/is-down ] || exit 75
[ ! -e {folder}/is-deaf ] || trap '' TERM
: >{folder}/is-asked
while [ -e {folder}/is-slow ]; do {sleep} 0.01; done
cat >{folder}/mails/.new
mv {folder}/mails/.new {folder}/mails/$(ls {folder}/mails | wc -l)
"""


class Mailer:
    """A machine whose log the script follows, whose minutes pass when they are told to, and the
    mails that were sent there."""

    def __init__(self, world, name, changes=()):
        self.folder, sleep = f"{world.folder}/{name}", shutil.which("sleep")
        settings = f"{self.folder}/etc/mailquota/server.toml"
        self.machine = Machine(
            world,
            name,
            journalctl=f"exec cat {self.folder}/journal",
            sendmail=SENDMAIL.format(folder=self.folder, sleep=sleep),
            sleep=f"until mv {self.folder}/minute {self.folder}/over 2>&-; do {sleep} 0.01; done",
            date=f'[ "$*" = +%s ] && cat {self.folder}/clock',
            mailquota=f'exec {world.program} "$@" --config {settings}',
        )
        os.mkfifo(f"{self.folder}/journal")
        self.state = f"{self.folder}/state of it"
        for it in (self.state, f"{self.folder}/mails"):
            os.mkdir(it)
        text = text_of("limit-mails")
        for it in ("sendmail", "mailquota"):
            text = text.replace(f"/usr/sbin/{it}", f"{self.folder}/bin/{it}")
        for old, new in changes:
            text = text.replace(old, new)
        self.script = world.new_file(self.machine.here(text))
        self.machine.write("etc/mailquota/mail-to", f"{ADDRESS}\n")
        self.set_clock(AT)
        self.said, self.status, self.longest = "", None, SECONDS / 10

    def set_clock(self, seconds):
        self.machine.write("new-clock", f"{seconds}\n")
        os.rename(f"{self.folder}/new-clock", f"{self.folder}/clock")

    @contextlib.contextmanager
    def following(self, *words):
        """The script follows what is logged meanwhile, and ends with that."""
        self.log_file, before = self.machine.world.new_file(""), self.called("sleep")
        with open(self.log_file, "w+b") as said:
            self.process = subprocess.Popen(
                ["sh", self.script, *words],
                env={**with_programs(self.folder), "STATE_DIRECTORY": self.state},
                stdin=subprocess.DEVNULL,
                stdout=said,
                stderr=said,
                start_new_session=True,
            )
        try:
            self.journal = None
            self.wait(self.is_followed)
            self.wait(lambda: self.called("sleep") > before or self.process.poll() is not None)
            yield
            if self.journal is not None:
                os.close(self.journal)
            with contextlib.suppress(subprocess.TimeoutExpired):
                self.process.wait(timeout=self.longest)
        finally:
            # (what waits for a minute that doesn't pass)
            with contextlib.suppress(ProcessLookupError):
                os.killpg(self.process.pid, signal.SIGKILL)
            self.status = self.process.poll()
            self.process.wait()
        self.said = self.saying()

    def saying(self):
        """What the script has said so far."""
        with open(self.log_file, encoding="ascii") as said:
            return said.read()

    def is_asked(self):
        """Whether sendmail has begun, and does with signals what it is to do."""
        return os.path.exists(f"{self.folder}/is-asked")

    def is_followed(self):
        """Whether somebody reads what is logged, or the script has ended."""
        with contextlib.suppress(OSError):
            self.journal = os.open(f"{self.folder}/journal", os.O_WRONLY | os.O_NONBLOCK)
            os.set_blocking(self.journal, True)
        return self.journal is not None or self.process.poll() is not None

    def wait(self, holds):
        """Waits until this holds; once something didn't come, nothing else is waited for."""
        end = time.monotonic() + self.longest
        while not holds():
            if time.monotonic() > end:
                self.longest = 1
                break
            time.sleep(0.005)

    def log(self, *lines, by="mailquota[7]", at=AT):
        """The log has these lines, as journalctl shows them."""
        # (nobody reads them where the script has ended)
        with contextlib.suppress(OSError, TypeError):
            text = "".join(f"{at}.123456 mx1 {by}: {it}\n" for it in lines)
            os.write(self.journal, text.encode())

    def minute(self):
        """A minute passes."""
        before = self.called("sleep")
        self.machine.write("minute", "")
        self.wait(lambda: self.called("sleep") > before or self.process.poll() is not None)

    def called(self, program):
        with contextlib.suppress(FileNotFoundError), open(f"{self.folder}/calls", "rb") as file:
            return len(re.findall(b"^%s " % program.encode(), file.read(), re.MULTILINE))
        return 0

    def mails(self):
        numbers = sorted(int(it) for it in files_in(f"{self.folder}/mails") if it != ".new")
        return [self.machine.read(f"mails/{it}") for it in numbers]

    def kept(self, name):
        """What the script keeps under this name, if anything."""
        with contextlib.suppress(FileNotFoundError):
            return self.machine.read(f"state of it/{name}")
        return ""

    def told(self):
        """The first line of the text of each mail."""
        return [it.partition("\n\n")[2].partition("\n")[0] for it in self.mails()]

    def of(self, *lines, **how):
        """The first lines of all mails once these were logged."""
        with self.following():
            self.log(*lines, **how)
        return self.told()

    def given(self):
        """The words of sendmail, at each call."""
        calls = self.machine.read("calls").splitlines()
        return [it.partition(" ")[2] for it in calls if it.startswith("sendmail ")]


def near_text(login, day=TODAY):
    return f"login {login} has used 4 of its limit of 5 on day {day}"


def near(login, day=TODAY):
    return f"{WARN} {near_text(login, day)}"


def refused_text(login):
    return f"login {login} was refused more than 1,000 times within an hour, last for host a"


def of_a_server(world, checks):
    """What a real server logs of a login that nears its limit, and of one that it refuses all the
    time; a limit that is lowered is no mail."""
    wait_past_midnight()
    now = int(time.time())
    with Server(world, default=5) as server:
        server.ask(wire.reserve(1, count=4, login=b"alice", at=now))
        server.ask(wire.limit(2, now // DAY, 0, login=b"bob"))
        server.ask_many(wire.reserve(n, txn=n, login=b"bob", at=now) for n in range(3, 1_005))
        lines = server.all_log_lines()
    mailer = Mailer(world, "of-a-server")
    came = mailer.of(*lines, at=now)
    wanted = [f"login alice has used 4 of its limit of 5 on day {now // DAY}", refused_text("bob")]
    checks.equal("a server's mails: what they tell", came, wanted)
    checks.equal(
        "a server's mails: each whole", mailer.mails(), [f"{HEAD}{it}{FOOT}" for it in wanted]
    )
    checks.equal(
        "a server's mails: the words of sendmail", mailer.given(), [f"-i {ADDRESS}"] * len(wanted)
    )
    asked = [it for it in mailer.machine.read("calls").splitlines() if it.startswith("journalctl")]
    checks.equal("a server's mails: what is asked of the journal", asked, [ASKED])
    checks.equal(
        "a server's mails: status and what is said as the journal ends",
        (mailer.status, mailer.said),
        (0, ""),
    )
    checks.holds(
        "a server's mails: the page has what they lead to",
        bool(section_of("OPERATING.md", "A stolen password")),
        "a section of this name",
        "none",
    )


def of_a_mail_host(world, checks):
    """What a real filter logs of a login that its limit refuses, behind its name."""
    wait_past_midnight()
    with Server(world, default=2) as server:
        now = clock() // 1_000
        smtpd = Smtpd(world, "mx1", server.address, log="info")
        smtpd.login(now, b"7641df9771b4ed00", b"ca) rol")
        smtpd.begin(now, b"7641df9771b4ed00", b"m1")
        for _ in range(4):
            smtpd.recipient(now, b"7641df9771b4ed00")
        smtpd.log.seek(0)
        lines = smtpd.log.read().decode().splitlines()
        smtpd.end()
    mailer = Mailer(world, "of-a-mail-host")
    came = mailer.of(*(f"quota: {it}" for it in lines), by="smtpd[7]", at=now)
    checks.equal(
        "a mail host's mails", came, ["login ca)\\x20rol is refused by the limit, 2 used of 2"]
    )


def of_any_login(world, checks):
    """Whatever bytes a login has, they are the text of its mail, and nothing else."""
    wait_past_midnight()
    now = int(time.time())
    with Server(world, default=1) as server:
        server.ask(
            b"".join(
                wire.reserve(n, txn=n, login=login, at=now)
                for n, login in enumerate(LOGINS, start=1)
            )
        )
        lines = server.all_log_lines()
    mailer = Mailer(world, "of-any-login")
    mailer.of(*lines, at=now)
    heads, texts = zip(*([it.split("\n\n")[:2] for it in mailer.mails()] or [("", "")]))
    wanted = [
        f"login {shown(it)} has used 1 of its limit of 1 on day {now // DAY}" for it in LOGINS
    ]
    checks.equal(
        "mails of logins of any bytes: what they tell",
        [it.replace("\n", "") for it in texts],
        wanted,
    )
    checks.equal("mails of logins of any bytes: their heads", {*heads}, {HEAD.strip()})
    checks.equal(
        "mails of logins of any bytes: the words of sendmail", {*mailer.given()}, {f"-i {ADDRESS}"}
    )
    longest = max(len(line) for it in mailer.mails() for line in it.splitlines())
    checks.holds(
        "mails of logins of any bytes: their longest line", longest <= 998, "at most 998", longest
    )
    checks.equal(
        "mails of logins of any bytes: what is kept",
        [it for it in files_in(mailer.state) if not it.startswith("waiting")],
        ["hour", "lines", f"seen.{now // DAY}"],
    )


def lines_of_others(world, checks):
    """What smtpd says of others, and other programs, is no mail, whatever words it has."""
    mailer = Mailer(world, "of-others")
    with mailer.following():
        for by, line in OF_OTHERS:
            mailer.log(line, by=by)
        mailer.log(near("alice"))
    checks.equal("lines of others are no mail", mailer.told(), [near_text("alice")])


def once_a_login_and_day(world, checks):
    """Each login and day has one mail, also where the same lines are read again at another
    start."""
    mailer = Mailer(world, "once")
    lines = [
        near("alice"),
        near("alice"),
        near("alice", TODAY + 1),
        f"{WARN} {refused_text('alice')}",
        f"{WARN} {refused_text('bob')}",
        near("bob"),
    ]
    wanted = [near_text("alice"), near_text("alice", TODAY + 1), refused_text("bob")]
    checks.equal("one mail a login and day", mailer.of(*lines), wanted)
    checks.equal("one mail a login and day, at another start", mailer.of(*lines), wanted)
    later = mailer.of(f"{WARN} {refused_text('alice')}", at=AT + 2 * DAY)
    checks.equal("a login that is refused two days later", later, [*wanted, refused_text("alice")])


def days_by_the_settings(world, checks):
    """A line that names no day is of the day by the server's zone when it was logged, and of one of
    UTC where there are no settings of a server."""
    its = {"listen": "127.0.0.1:1", "store": "memory", "default": 3}
    late = TODAY * DAY + 23 * HOUR
    for name, settings, wanted in (
        ("utc", None, [near_text("alice", TODAY + 1), refused_text("alice")]),
        ("ahead", {**its, "offset": 120}, [near_text("alice", TODAY + 1)]),
        ("behind", {**its, "offset": -120}, [near_text("alice", TODAY + 1), refused_text("alice")]),
    ):
        mailer = Mailer(world, f"days-{name}")
        if settings:
            mailer.machine.write("etc/mailquota/server.toml", toml(settings))
        came = mailer.of(near("alice", TODAY + 1), f"{WARN} {refused_text('alice')}", at=late)
        checks.equal(f"a login that is refused late in the day, {name}", came, wanted)


def old_days_go(world, checks):
    """Within a minute of each start and later."""
    mailer = Mailer(world, "old-days")
    for name, days in (("seen.20001", 5), ("seen.20002", 2), ("seen.20003", 0)):
        mailer.machine.write(f"state of it/{name}", "alice\n")
        then = time.time() - DAY * days
        os.utime(f"{mailer.state}/{name}", (then, then))
    with mailer.following():
        mailer.minute()
    checks.equal(
        "days that are over: those that are kept",
        [it for it in files_in(mailer.state) if it.startswith("seen.")],
        ["seen.20002", "seen.20003"],
    )


def a_sendmail_that_fails(world, checks):
    """It is logged, and tried again each minute, also after another start; each mail comes once."""
    mailer = Mailer(world, "fails")
    mailer.machine.write("is-down", "")
    why = "limit-mails: a mail wasn't taken, status 75 of sendmail; next attempt in a minute\n"
    with mailer.following():
        mailer.log(near("alice"), near("bob"))
        for attempts in (1, 2, 3):
            mailer.wait(lambda: mailer.called("sendmail") == attempts)
            mailer.minute()
        mailer.wait(lambda: mailer.called("sendmail") == 4)
    checks.equal(
        "a sendmail that fails: what is said, and its calls",
        (mailer.said, mailer.called("sendmail")),
        (4 * why, 4),
    )
    os.remove(f"{mailer.folder}/is-down")
    with mailer.following():
        mailer.log(near("alice"), near("bob"))
        mailer.minute()
    checks.equal(
        "a sendmail that failed: the mails, once it works, and what is said",
        (mailer.told(), mailer.said),
        ([near_text("alice"), near_text("bob")], ""),
    )
    mailer.machine.write("is-down", "")
    with mailer.following():
        mailer.log(near("carol"))
        mailer.wait(lambda: mailer.called("sendmail") == 7)
        os.remove(f"{mailer.folder}/is-down")
        mailer.minute()
        mailer.log(near("dave"))
    checks.equal(
        "a sendmail that failed: the mails without another start",
        mailer.told()[2:],
        [near_text("carol"), near_text("dave")],
    )


def a_sendmail_that_hangs(world, checks):
    """It is killed after a minute, which here is a second."""
    mailer = Mailer(world, "hangs", [("timeout --signal=KILL 60", "timeout --signal=KILL 1")])
    mailer.machine.write("is-slow", "")
    with mailer.following():
        mailer.log(near("alice"))
        mailer.wait(lambda: "status 137 of sendmail" in mailer.saying())
        mailer.machine.write("is-down", "")
        mailer.minute()
        mailer.wait(lambda: mailer.called("sendmail") == 2)
    checks.holds(
        "a sendmail that hangs: it is ended, and tried again",
        "status 137 of sendmail" in mailer.said and "status 75" in mailer.said,
        "both attempts are told",
        mailer.said,
    )


def many_at_once(world, checks):
    """An hour has 20 mails, over all starts; the others are a number in one mail, once it is
    over."""
    mailer = Mailer(world, "many")
    first, second = ([f"l{n}" for n in range(*it)] for it in ((0, 15), (15, 33)))
    mailer.of(*map(near, first))
    wanted = [near_text(it) for it in [*first, *second]][:MOST]
    with mailer.following():
        mailer.log(*map(near, second))
        mailer.wait(lambda: mailer.kept("further").count("\n") == 13)
        mailer.minute()
        mailer.log(near("beyond"))
        mailer.wait(lambda: mailer.kept("further").count("\n") == 14)
        checks.equal("33 logins within an hour: the mails", mailer.told(), wanted)
        mailer.set_clock(AT + HOUR)
        mailer.minute()
        mailer.wait(lambda: len(mailer.mails()) > MOST)
        mailer.log(near("later"))
    further = "further logins that were near their limits or refused, as the log says: 14"
    checks.equal(
        "34 logins within an hour, and one later: the mails",
        mailer.told(),
        [*wanted, further, near_text("later")],
    )
    with mailer.following():
        mailer.log(*map(near, [*first, *second, "beyond", "later"]))
        mailer.minute()
    checks.equal(
        "34 logins within an hour: all mails after another start", len(mailer.told()), MOST + 2
    )


def a_stop(world, checks):
    """systemd's signal to all processes of the unit: a mail that sendmail has taken isn't sent at
    another start again, and one that it hasn't taken is."""
    for what, takes_it in (("taken", True), ("not taken", False)):
        mailer = Mailer(world, f"stopped-{takes_it}")
        mailer.machine.write("is-slow", "")
        if takes_it:
            mailer.machine.write("is-deaf", "")
        with mailer.following():
            mailer.log(near("alice"))
            mailer.wait(mailer.is_asked)
            for it in processes_of(mailer.process.pid):
                with contextlib.suppress(ProcessLookupError):
                    os.kill(it, signal.SIGTERM)
            os.remove(f"{mailer.folder}/is-slow")
        checks.equal(
            f"a stop while a mail is {what}: status, and the mails",
            (mailer.status, mailer.told()),
            (0, [near_text("alice")] * takes_it),
        )
        with mailer.following():
            mailer.log(near("alice"))
            mailer.minute()
        checks.equal(
            f"a stop while a mail is {what}: the mails after another start",
            mailer.told(),
            [near_text("alice")],
        )


def processes_of(session):
    """The numbers of the processes of a session."""
    found = []
    for it in filter(str.isdigit, os.listdir("/proc")):
        with contextlib.suppress(OSError):
            if os.getsid(int(it)) == session:
                found.append(int(it))
    return found


def addresses(world, checks):
    """The file has one address, which is no option and no further header."""
    mailer = Mailer(world, "addresses")
    path = f"{mailer.folder}/etc/mailquota/mail-to"
    for text in (
        "",
        "\n",
        "-bs\n",
        "you@example.org eve@example.org\n",
        "you@example.org\neve@example.org\n",
        "you@example.org,eve@example.org\n",
        "you@example.org\nBcc: eve@example.org\n",
        "$(id)@example.org\n",
        "|id\n",
    ):
        mailer.machine.write("etc/mailquota/mail-to", text)
        came = ended(mailer)
        said = f"limit-mails: {path} is to have one address, of letters, digits and @ . _ + -\n"
        checks.equal(f"the address {text.strip()!r}: status, and what is said", came, (2, said))
    os.remove(path)
    checks.equal("no address: the status", ended(mailer)[0], 2)
    calls = f"{mailer.folder}/calls"
    checks.equal("no address: what is called", os.path.exists(calls), False)
    other = world.new_file("root\n")
    with mailer.following(other):
        mailer.log(near("alice"))
    checks.equal("another file's address: the words of sendmail", mailer.given(), ["-i root"])


def ended(mailer):
    """The script's status, and what it says, where it ends by itself."""
    with subprocess.Popen(
        ["sh", mailer.script],
        env={**with_programs(mailer.folder), "STATE_DIRECTORY": mailer.state},
        stdin=subprocess.DEVNULL,
        stdout=subprocess.PIPE,
        stderr=subprocess.STDOUT,
        text=True,
        start_new_session=True,
    ) as process:
        try:
            said = process.communicate(timeout=SECONDS / 40)[0]
        except subprocess.TimeoutExpired:
            said = "it doesn't end"
        with contextlib.suppress(ProcessLookupError):
            os.killpg(process.pid, signal.SIGKILL)
    return process.returncode, said


def by_the_page(world, checks):
    """OPERATING's commands write the address to where the unit has it from, and enable the unit."""
    commands = block_with("OPERATING.md", "Monitoring", "mail-to")
    mailer = Mailer(world, "by-the-page")
    os.remove(f"{mailer.folder}/etc/mailquota/mail-to")
    with open(f"{mailer.folder}/bin/systemctl", "w", encoding="ascii") as file:
        file.write(f'#!/bin/sh\necho "systemctl $*" >>{mailer.folder}/calls\n')
    os.chmod(f"{mailer.folder}/bin/systemctl", 0o755)
    checks.equal(
        "mails by the page: status, what is said and asked of systemd",
        (mailer.machine.run(commands), mailer.machine.read("calls")),
        ((0, "", ""), "systemctl enable --now mailquota-mail\n"),
    )
    unit = assignments(text_of("mailquota-mail.service"))["Service"]["ExecStart"][0].split()
    checks.equal(
        "mails by the page: what the unit starts is there",
        os.path.exists(f"{CONTRIB}/{os.path.basename(unit[0])}"),
        True,
    )
    with mailer.following(mailer.machine.here(unit[1])):
        mailer.log(near("alice"))
    checks.equal("mails by the page: the words of sendmail", mailer.given(), [f"-i {ADDRESS}"])
