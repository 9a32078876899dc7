"""Recipients a second of a real smtpd, by one session of 1,000 and 50 sessions of 20 at once: with
mailquota over memory and over a file, with and without a kept connection, with the program of
before where there is one, with a filter that says yes to all, and with none.

Run it by bench/smtpd/run.sh.
"""
import os
import statistics
import sys
import threading
import time
from pathlib import Path

sys.path.append(str(Path(__file__).parent.parent.parent / "tests" / "smtpd"))

from host import PROGRAM, ROOT, session_at, start, start_smtpd, stop, wait_for  # noqa: E402

RECIPIENTS, ROUNDS = 1_000, 7
BEFORE = "/usr/sbin/mailquota-before"

SMTPD = """
pki quota.test cert "/etc/mailquota/cert.pem"
pki quota.test key "/etc/mailquota/key.pem"
table credentials file:/etc/mailquota/credentials
filter asks proc-exec "{filter}"
listen on 127.0.0.1 port 2501 tls pki quota.test auth-optional <credentials> {filtered}
action "sink" mda "cat >/dev/null" virtual {{ "@" = nobody }}
match from any for any action "sink"
"""
SERVER = (
    'listen = "127.0.0.1:7025"\nstore = "{store}"\ndefault = 1000000\noffset = 0\ntimeout = 5000\n'
)
FILTER = 'host = "mx1.quota.test"\nserver = "127.0.0.1:7025"\ntries = 2\ntimeout = 5000\n'
FILE = "/var/tmp/mailquota-bench.db"


class Kind:
    """What answers recipients: a program as filter and server, over a store; or another filter, or
    none."""

    def __init__(self, program=None, store=FILE, more="", words=None):
        self.program, self.store, self.more, self.words = program, store, more, words

    def start(self):
        """The processes, the smtpd last."""
        words = self.words
        if self.program:
            words = f"{self.program} filter --config /etc/mailquota/bench-filter.toml"
            (ROOT / "etc/mailquota/bench-filter.toml").write_text(FILTER + self.more)
        filtered = "filter asks" if words else ""
        texts = {"filter": words or "/etc/mailquota/yes", "filtered": filtered}
        (ROOT / "etc/mailquota/bench.conf").write_text(SMTPD.format(**texts))
        processes = [self.start_server()] if self.program else []
        return [*processes, start_smtpd("/etc/mailquota/bench.conf", ports=(2501,))]

    def start_server(self):
        """A server over an empty ledger."""
        for file in (ROOT / FILE[1:]).parent.glob(f"{Path(FILE).name}*"):
            file.unlink()
        (ROOT / "etc/mailquota/bench.toml").write_text(SERVER.format(store=self.store))
        words = ["server", "--config", "/etc/mailquota/bench.toml", "--create"]
        server = start("server", self.program, *words)
        wait_for(7025)
        return server


def kinds():
    all_of_them = {"no filter": Kind(), "says yes": Kind(words="/etc/mailquota/yes")}
    if os.path.exists(ROOT / BEFORE[1:]):
        all_of_them |= {
            "before, memory": Kind(BEFORE, "memory"),
            "before, file": Kind(BEFORE),
        }
    kept = "keep_connection = true\n"
    return all_of_them | {
        "memory": Kind(PROGRAM, "memory"),
        "memory, kept": Kind(PROGRAM, "memory", kept),
        "file": Kind(PROGRAM),
        "file, kept": Kind(PROGRAM, FILE, kept),
    }


def send(smtp, count):
    """So many recipients, without what smtplib does for each."""
    for number in range(count):
        smtp.sock.sendall(b"RCPT TO:<r%d@example.test>\r\n" % number)
        reply = smtp.file.readline()
        assert reply.startswith(b"250 "), reply


def seconds(sessions):
    """How long all recipients take, by so many sessions at once, which are logged in before."""
    all_of_them = [session_at(2501, f"u{1 + number % 9:02}") for number in range(sessions)]
    for smtp in all_of_them:
        smtp.mail("a@quota.test")
    threads = [
        threading.Thread(target=send, args=(smtp, RECIPIENTS // sessions)) for smtp in all_of_them
    ]
    began = time.perf_counter()
    for it in threads:
        it.start()
    for it in threads:
        it.join()
    taken = time.perf_counter() - began
    for smtp in all_of_them:
        smtp.close()
    return taken


def main():
    print(f"{os.cpu_count()} processors, load of {os.getloadavg()[0]:.1f}, {ROUNDS} rounds")
    found = kinds()
    times = {(sessions, name): [] for sessions in (1, 50) for name in found}
    for _ in range(ROUNDS):
        for name, kind in found.items():
            processes = kind.start()
            try:
                for sessions in (1, 50):
                    times[sessions, name].append(seconds(sessions))
            finally:
                for it in reversed(processes):
                    stop(it)
    for (sessions, name), taken in times.items():
        median = statistics.median(taken)
        first = statistics.median(times[sessions, "says yes"])
        print(
            f"{sessions:2} sessions, {name:15} {RECIPIENTS / median:6,.0f} recipients a second;"
            f" {median / first:.2f} times a filter that says yes"
        )


main()
