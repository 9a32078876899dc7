"""Asks several hosts by SMTP, and prints a table of what was asked and answered."""
import itertools
import os
import shutil
import signal
import sqlite3
import subprocess
import sys
import threading
import time

import storms
from host import (
    PROGRAM,
    ROOT,
    command,
    log_of,
    session,
    session_at,
    start_server,
    start_smtpd,
    stop,
)
from switch import call, wait_until

ROWS = []
# what u03's report says once the server was started again: it had sent to 2
U03_LATER = {"memory": "0 0 3 u03", "file": "2 0 3 u03"}
LEDGER = ROOT / "var/lib/mailquota/tested"


def note(what, answer, wanted):
    ROWS.append((what, answer, wanted, answer.startswith(wanted)))


def recipient(smtp, number):
    code, text = smtp.rcpt(f"r{number}@example.test")
    return f"{code} {text.decode()}"


def day():
    return str(int(time.time()) // 86_400)


def usage(login):
    text, _ = command("report", "--server", "127.0.0.1:7025", "--day", day(), "--login", login)
    return " ".join(text.split())


def note_usage(what, login, wanted):
    """What is reported of a login, once it is this: smtpd reports a message's end to the filter
    after its answer to the client."""
    for _ in range(100):
        if usage(login).startswith(wanted):
            break
        time.sleep(0.05)
    note(what, usage(login), wanted)


def over_both_hosts():
    one, two = session(1, "u01"), session(2, "u01")
    one.mail("a@quota.test")
    two.mail("a@quota.test")
    note("u01 at host 1, recipient 1 of limit 3", recipient(one, 1), "250")
    note("u01 at host 1, recipient 2", recipient(one, 2), "250")
    note("u01 at host 2, recipient 3", recipient(two, 3), "250")
    note("u01 at host 2, recipient 4", recipient(two, 4), "550")
    note("u01 at host 1, recipient 4", recipient(one, 4), "550")
    note_usage("report of u01: settled, reserved, limit", "u01", "0 3 3 u01")
    one.quit()
    two.quit()


def a_reset_gives_back():
    smtp = session(1, "u02")
    smtp.mail("a@quota.test")
    for number in (1, 2, 3):
        recipient(smtp, number)
    note("u02, recipient 4", recipient(smtp, 4), "550")
    smtp.rset()
    smtp.mail("a@quota.test")
    note("u02 after RSET, recipient 1", recipient(smtp, 1), "250")
    smtp.rset()
    note_usage("report of u02", "u02", "0 0 3 u02")
    smtp.quit()


def a_commit_keeps():
    smtp = session(2, "u03")
    smtp.mail("a@quota.test")
    note("u03, recipient 1", recipient(smtp, 1), "250")
    note("u03, recipient 2", recipient(smtp, 2), "250")
    code, _ = smtp.data(b"Subject: hello\r\n\r\nhello\r\n")
    note("u03, DATA", str(code), "250")
    note_usage("report of u03", "u03", "2 0 3 u03")
    smtp.mail("a@quota.test")
    note("u03, next message, recipient 3", recipient(smtp, 3), "250")
    note("u03, next message, recipient 4", recipient(smtp, 4), "550")
    smtp.quit()


def a_limit():
    words = [
        "--server",
        "127.0.0.1:7025",
        "--host",
        "admin",
        "--login",
        "u04",
        "--from",
        day(),
        "--cap",
        "1",
    ]
    text, _ = command("limit", *words)
    note("limit of u04 set to 1", text, "set")
    smtp = session(1, "u04")
    smtp.mail("a@quota.test")
    note("u04, recipient 1", recipient(smtp, 1), "250")
    note("u04, recipient 2", recipient(smtp, 2), "550")
    smtp.quit()


def no_login():
    smtp = session(1)
    smtp.mail("a@quota.test")
    answers = [recipient(smtp, number) for number in range(1, 6)]
    note(
        "no login, five recipients",
        min(a[:3] for a in answers) + ".." + max(a[:3] for a in answers),
        "250..250",
    )
    smtp.quit()


def a_cut_connection():
    smtp = session(2, "u06")
    smtp.mail("a@quota.test")
    recipient(smtp, 1)
    note_usage("report of u06 within a message", "u06", "0 1 3 u06")
    smtp.close()
    note_usage("report of u06 after its connection broke", "u06", "0 0 3 u06")


def two_messages_on_two_hosts():
    for host, allowed in ((1, 2), (2, 1)):
        smtp = session(host, "u07")
        smtp.mail("a@quota.test")
        for number in range(1, allowed + 1):
            note(
                f"u07 at host {host}, recipient {number} of its message",
                recipient(smtp, number),
                "250",
            )
        code, _ = smtp.data(b"Subject: hello\r\n\r\nhello\r\n")
        note(f"u07 at host {host}, DATA", str(code), "250")
        smtp.quit()
    smtp = session(1, "u07")
    smtp.mail("a@quota.test")
    note("u07 at host 1, its fourth recipient", recipient(smtp, 1), "550")
    note_usage("report of u07", "u07", "3 0 3 u07")
    smtp.quit()


def spellings():
    """Each spelling has its own quota, and contrib's filter refuses all but one."""
    smtp = session(1, "U01")
    smtp.mail("a@quota.test")
    note("U01, while u01 used its limit", recipient(smtp, 1), "250")
    note_usage("report of U01", "U01", "0 1 3 U01")
    smtp.quit()
    for login, wanted in (("u08", "250"), ("U08", "550 type the login in lower case")):
        smtp = session(3, login)
        code, text = smtp.mail("a@quota.test")
        note(f"{login} behind one-spelling, MAIL FROM", f"{code} {text.decode()}", wanted)
        smtp.quit()
    smtp = session(3, "u08")
    smtp.mail("a@quota.test")
    note(
        "u08 behind one-spelling, recipients 1 to 4",
        " ".join(recipient(smtp, number)[:3] for number in range(1, 5)),
        "250 250 250 550",
    )
    smtp.quit()


class Sender(threading.Thread):
    """A session that sends mail after mail as fast as it can, until a recipient is refused."""

    def __init__(self, host):
        super().__init__(daemon=True)
        self.smtp, self.sent, self.last = session(host, "u09"), 0, ""

    def run(self):
        for number in itertools.count():
            if number % 20 == 0:
                if number:
                    self.smtp.data(b"Subject: hello\r\n\r\nhello\r\n")
                self.smtp.mail("a@quota.test")
            self.sent, self.last = number, recipient(self.smtp, number)
            if not self.last.startswith("250"):
                break
        self.smtp.quit()


def a_stop_of_four_that_send():
    """A stolen password in four sessions of two hosts."""
    words = ["--server", "127.0.0.1:7025", "--host", "admin", "--login", "u09"]
    note(
        "limit of u09 set to a million",
        command("limit", *words, "--from", day(), "--cap", "1000000")[0],
        "set",
    )
    senders = [Sender(host) for host in (1, 2, 1, 2)]
    for it in senders:
        it.start()
    # (each has sent two messages by then)
    wait_until(lambda: all(it.sent > 40 for it in senders))
    text, _ = command("stop", *words, "--day", day())
    note("u09, stop while four sessions send", text, "stopped: u09 used ")
    for it in senders:
        it.join(timeout=60)
    note(
        "u09, the end of each session",
        " ".join(it.last[:3] or "none" for it in senders),
        "550 550 550 550",
    )
    most = int(text.split()[3]) if text.startswith("stopped: ") else 0
    settled, reserved, *_ = map(int, usage("u09").split()[:3])
    note(
        "u09, what is used is within what was printed", str(0 < settled + reserved <= most), "True"
    )


def lost_tries():
    """How many of the administrator's limits were refused since more was used meanwhile, read off
    the rows of the ledger's file."""
    for end in ("", "-wal"):
        shutil.copy(f"{LEDGER}{end}", f"{LEDGER}.read{end}")
    database = sqlite3.connect(f"{LEDGER}.read")
    [(count,)] = database.execute(
        "SELECT count(*) FROM answer WHERE host = x'61646d696e' AND substr(reply, 1, 1) = x'86'"
    ).fetchall()
    database.close()
    return count


def a_forgetting():
    """While the server is away and smtpd with its filters runs on."""
    tries = lost_tries()
    note(f"stop while four sessions send: {tries} tries lost, two at most", str(tries <= 2), "True")
    words = [
        "--config",
        "/etc/mailquota/server-file.toml",
        "--before",
        day(),
        "--into",
        "/var/lib/mailquota/tested.new",
    ]
    note("forget", command("forget", *words)[0], "kept answers=")
    os.rename(LEDGER, f"{LEDGER}.old")
    os.rename(f"{LEDGER}-wal", f"{LEDGER}.old-wal")
    os.rename(f"{LEDGER}.new", LEDGER)


def no_server():
    smtp = session(1, "u05")
    smtp.mail("a@quota.test")
    note("u05 without a quota server", recipient(smtp, 1), "451")
    text, status = command("status", "--server", "127.0.0.1:7025")
    note(
        "status without a quota server",
        f"{status} {text.splitlines()[-1]}",
        "1 mailquota: quota service unavailable",
    )
    smtp.rset()
    note("no login without a quota server", no_login_answer(), "250")
    lines = log_of("smtpd").read_text(errors="replace").splitlines()
    said = [line for line in lines if line.startswith("quota1: ") and " link]" in line] + [
        "nothing"
    ]
    note(
        "smtpd's log, why there is no answer",
        said[0],
        "quota1: [ERROR link] quota server 127.0.0.1:7025: Connection refused",
    )
    full = [
        line
        for line in lines
        if line.startswith("quota1: [WARN  filter] ") and "refused by the limit" in line
    ] + ["nothing"]
    note(
        "smtpd's log, a login that used its limit",
        full[0].split(": ")[-1],
        "refused by the limit, ",
    )
    return smtp


def no_login_answer():
    smtp = session(2)
    smtp.mail("a@quota.test")
    answer = recipient(smtp, 1)
    smtp.quit()
    return answer


def a_new_server(smtp, store):
    """A ledger in memory begins again with its server, and one in a file goes on."""
    smtp.mail("a@quota.test")
    note("u05 after the server came back", recipient(smtp, 1), "250")
    smtp.quit()
    note_usage("report of u03, who had used 2, from the new server", "u03", U03_LATER[store])


def end_of_a_filter(smtpd):
    """Whatever ends a filter ends smtpd."""
    for pid in call(
        "pgrep", "-f", "mailquota filter --config /etc/mailquota/filter2.toml", check=False
    ).stdout.split():
        os.kill(int(pid), signal.SIGTERM)
    try:
        smtpd.wait(timeout=10)
        note("smtpd after the end of one filter", "ended", "ended")
    except subprocess.TimeoutExpired:
        note("smtpd after the end of one filter", "runs on", "ended")


def as_in_contrib():
    """The files of contrib as they stand: a submission port that asks for a login, one spelling, a
    ledger in a file."""
    address, host = "192.0.2.7", "192.0.2.1"
    server = start_server("/etc/mailquota/server.toml", "--create", address=address)
    smtpd = start_smtpd("/etc/mail/smtpd.conf", host, ports=(587,))
    try:
        smtp = session_at(587, address=host)
        note("contrib: MAIL FROM without a login", str(smtp.mail("a@quota.test")[0]), "530")
        smtp.quit()
        smtp = session_at(587, "U01", host)
        note("contrib: U01, MAIL FROM", str(smtp.mail("a@quota.test")[0]), "550")
        smtp.quit()
        words = [
            "--server",
            f"{address}:7025",
            "--host",
            "admin",
            "--login",
            "u01",
            "--from",
            day(),
            "--cap",
            "2",
        ]
        note("contrib: limit of u01 set to 2", command("limit", *words)[0], "set")
        smtp = session_at(587, "u01", host)
        smtp.mail("a@quota.test")
        note(
            "contrib: u01, recipients 1 to 3",
            " ".join(recipient(smtp, number)[:3] for number in (1, 2, 3)),
            "250 250 550",
        )
        text, _ = command("report", "--server", f"{address}:7025", "--day", day())
        note("contrib: report", " ".join(text.split()), "0 2 2 u01")
        smtpd = a_restart_retires(smtpd, address, host)
    finally:
        stop(smtpd)
        stop(server)


def a_restart_retires(smtpd, address, host):
    """smtpd is killed while a message is open, and started again as contrib's unit does it; the
    smtpd that runs then."""

    def report():
        return " ".join(command("report", "--server", f"{address}:7025", "--day", day())[0].split())

    smtpd.kill()
    smtpd.wait(timeout=10)
    note(
        "contrib: filters end with smtpd",
        str(wait_until(lambda: not call("pgrep", "-f", "mailquota filter", check=False).stdout)),
        "True",
    )
    note("contrib: report behind a SIGKILL of smtpd", report(), "0 2 2 u01")
    unit = (ROOT / "usr/share/doc/mailquota/examples/smtpd-restart.conf").read_text()
    [before_start] = [line for line in unit.splitlines() if line.startswith("ExecStartPre=-")]
    words = before_start.removeprefix("ExecStartPre=-").split()
    note("contrib: the program before each start of smtpd", words[0], PROGRAM)
    note("contrib: what it prints", command(*words[1:])[0], "retired")
    note("contrib: report then", report(), "2 0 2 u01")
    smtpd = start_smtpd("/etc/mail/smtpd.conf", host, ports=(587,))
    words = [
        "--server",
        f"{address}:7025",
        "--host",
        "admin",
        "--login",
        "u01",
        "--from",
        day(),
        "--cap",
        "3",
    ]
    note("contrib: limit of u01 set to 3", command("limit", *words)[0], "set")
    smtp = session_at(587, "u01", host)
    smtp.mail("a@quota.test")
    note(
        "contrib: u01 through the next filter, recipients 3 and 4",
        " ".join(recipient(smtp, number)[:3] for number in (3, 4)),
        "250 550",
    )
    note("contrib: report then", report(), "2 1 3 u01")
    smtp.quit()
    return smtpd


def in_a_storm():
    for row in storms.rows(day()):
        note(*row)


def over(store):
    """All cases over one kind of store, which is new."""
    settings = f"/etc/mailquota/server-{store}.toml"
    server = start_server(settings, "--create")
    smtpd = start_smtpd()
    try:
        over_both_hosts()
        a_reset_gives_back()
        a_commit_keeps()
        a_limit()
        no_login()
        a_cut_connection()
        two_messages_on_two_hosts()
        spellings()
        a_stop_of_four_that_send()
        note(
            "status",
            command("status", "--server", "127.0.0.1:7025")[0],
            "quota server 127.0.0.1:7025 answers",
        )
        stop(server)
        if store == "file":
            a_forgetting()
        smtp = no_server()
        server = start_server(settings)
        a_new_server(smtp, store)
        end_of_a_filter(smtpd)
    finally:
        if smtpd.poll() is None:
            stop(smtpd)
        if server.poll() is None:
            stop(server)


def main():
    told = 0
    for title, part in [
        ("over a ledger in memory", lambda: over("memory")),
        ("over a ledger in a file", lambda: over("file")),
        ("with the files of contrib", as_in_contrib),
        ("in a storm, with the files of contrib", in_a_storm),
    ]:
        part()
        print(f"-- {title}")
        for what, answer, wanted, good in ROWS[told:]:
            print(
                f"{'ok ' if good else 'NOT'} {what:45} {answer}"
                + ("" if good else f" (wanted {wanted})"),
                flush=True,
            )
        told = len(ROWS)
    bad = sum(not row[3] for row in ROWS)
    print(f"{len(ROWS) - bad} passed, {bad} failed")
    sys.exit(1 if bad else 0)


main()
