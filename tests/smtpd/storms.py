"""What sessions see whose quota server's host is gone, or whose server is killed, and what a login
costs that is refused and goes on: contrib's settings."""
import re
import smtplib
import threading
import time

from host import ROOT, command, session_at, start_server, start_smtpd, stop
from senders import Sender, end_all, longest_wait, outages
from switch import call

SERVER, HOST = "192.0.2.7", "192.0.2.1"
SETTINGS = {
    key: int(value)
    for key, value in re.findall(
        r"^(\w+) = (\d+)$", (ROOT / "etc/mailquota/filter.toml").read_text(), re.MULTILINE
    )
}
# so many sessions send, and for so many seconds the host is gone, and a login goes on in so many
# sessions
SESSIONS, GONE, FLOOD, FLOODING = 60, 120, 30, 4
# twice what one recipient may wait, with a second for a machine that has much else to do; and
# `pause` with what is under way as the host returns
LONGEST_WAIT = 2 * SETTINGS["tries"] * SETTINGS["timeout"] / 1_000 + 1
BACK = SETTINGS.get("pause", 0) + 2


def packet_filter(*words):
    call("chroot", ROOT, "nft", *words)


def rows(day):
    """What was done, what came, and whether that is as it should be."""
    server = start_server("/etc/mailquota/server.toml", address=SERVER)
    smtpd = start_smtpd("/etc/mail/smtpd.conf", HOST, ports=(587,))
    try:
        for login in ("u02", "u03", "u04", "u05"):
            words = [
                "--server",
                f"{SERVER}:7025",
                "--host",
                "admin",
                "--login",
                login,
                "--from",
                day,
                "--cap",
                "1000000",
            ]
            assert command("limit", *words) == ("set", 0)
        senders = [
            Sender(HOST, f"u{2 + number % 4:02}", number, pace=1) for number in range(SESSIONS)
        ]
        for sender in senders:
            sender.start()
        time.sleep(10)
        gone, back = a_host_that_is_gone()
        server.kill()
        server.wait(timeout=10)
        killed = time.monotonic()
        time.sleep(1)
        server = start_server("/etc/mailquota/server.toml", address=SERVER)
        away = time.monotonic() - killed
        time.sleep(10)
        end_all(senders)
        unanswered = [why for sender in senders for _, why in sender.unanswered]
        yield "storm: requests of smtpd without an answer", " ".join(
            [str(len(unanswered)), *sorted({*unanswered})]
        ), "0"
        wait = longest_wait(senders)
        yield (
            (
                f"storm: {SESSIONS} sessions, the server's host gone for {GONE} s: the longest wait"
                f" {wait:.1f} s, {LONGEST_WAIT:.0f} s at most"
            ),
            str(wait <= LONGEST_WAIT),
            "True",
        )
        through = (
            min(
                end
                for sender in senders
                for _, end, code in sender.answers
                if code == 250 and end > back
            )
            - back
        )
        yield f"storm: recipients go through {through:.1f} s after its return, {BACK} s at most", str(
            through <= BACK
        ), "True"
        lasted = max([took for first, took in outages(senders) if first > killed], default=0)
        yield (
            (
                f"storm: a server that is killed, {away:.1f} s away: {lasted:.1f} s of 451, two"
                " more at most"
            ),
            str(lasted <= away + 2),
            "True",
        )
        yield from a_flood(day, server)
    finally:
        stop(smtpd)
        if server.poll() is None:
            stop(server)


def a_host_that_is_gone():
    """No packet reaches the server; says when that began and when it ended."""
    gone = time.monotonic()
    packet_filter(
        "add table inet gone; add chain inet gone out { type filter hook output priority 0; }; add"
        " rule inet gone out ip daddr 192.0.2.7 drop"
    )
    time.sleep(GONE)
    packet_filter("delete table inet gone")
    back = time.monotonic()
    time.sleep(BACK + 10)
    return gone, back


def a_flood(day, server):
    """Some sessions of a login that has used its limit."""
    words = [
        "--server",
        f"{SERVER}:7025",
        "--host",
        "admin",
        "--login",
        "u06",
        "--from",
        day,
        "--cap",
        "0",
    ]
    assert command("limit", *words) == ("set", 0)
    counts, end = [], time.monotonic() + FLOOD
    before = answers(server)
    server = start_server("/etc/mailquota/server.toml", address=SERVER)
    threads = [
        threading.Thread(target=flood, args=(end, counts), daemon=True) for _ in range(FLOODING)
    ]
    for thread in threads:
        thread.start()
    for thread in threads:
        thread.join(timeout=FLOOD + 60)
    made = answers(server) - before
    # (one as it begins, and as a session ends another, which closes its transaction)
    most = FLOOD // SETTINGS["hold"] + 1 + FLOODING
    yield (
        (
            f"storm: {sum(counts)} recipients of a refused login in {FLOOD} s: {made} answers,"
            f" {most} at most"
        ),
        str(len(counts) == FLOODING and made <= most),
        "True",
    )


def flood(end, counts):
    count = 0
    while time.monotonic() < end:
        try:
            smtp = session_at(587, "u06", HOST)
            smtp.mail("a@quota.test")
            while time.monotonic() < end and smtp.rcpt("r@example.test")[0] == 550:
                count += 1
        except (OSError, smtplib.SMTPException):
            # (smtpd ends a session with many refused recipients)
            time.sleep(0.1)
    counts.append(count)


def answers(server):
    """How many answers the ledger of this server has, which ends."""
    stop(server)
    said, _ = command("status", "--config", "/etc/mailquota/server.toml")
    return int(re.search(r"^answers=(\d+) ", said, re.MULTILINE)[1])
