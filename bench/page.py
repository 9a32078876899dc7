#!/usr/bin/env python3
"""Times reports over many logins, of the day on which all of them wrote and of one on which nobody
did, and reserves meanwhile.

Each login has one recipient, on day 1; day 2 has none. While `mailquota report` runs, and until the
server is done with it, a client asks for one reserve after the other on day 3, each on a connection
of its own. The files lie in a folder of TMPDIR.
"""
import argparse
import os
import socket
import statistics
import subprocess
import tempfile
import threading
import time

import filled
import wire
from ends import free_port, read_all, send_no_more, wait_for_listener, wait_until

WINDOWS = 5
# how long a reserve may take
SECONDS = 120
# how many reserves are asked for before a report
FIRST = 50


class Asker:
    """Asks for reserves until it is told to stop, and keeps the seconds that each of them took."""

    def __init__(self, port, run):
        self.port = port
        self.run = run
        self.times = []
        self.over = threading.Event()
        self.thread = threading.Thread(target=self.ask_on)

    def __enter__(self):
        self.thread.start()
        return self

    def __exit__(self, *_):
        self.over.set()
        self.thread.join()

    def ask_on(self):
        while not self.over.is_set():
            began = time.monotonic()
            self.ask(len(self.times) + 1)
            self.times.append(time.monotonic() - began)

    def ask(self, number):
        sender = {"host": b"asker", "run": self.run}
        with socket.create_connection(("127.0.0.1", self.port), timeout=SECONDS) as peer:
            peer.sendall(
                wire.reserve(
                    number,
                    txn=number,
                    login=b"asker%d.%d" % (self.run, number // 1_000),
                    at=3 * filled.DAY,
                    **sender,
                )
            )
            send_no_more(peer)
            reply = read_all(peer)
        assert reply[2:3] == b"\x81", f"answered {reply.hex()}"


def reported(program, port, day):
    """Seconds of a report, how many lines it has, and what it says on standard error."""
    began = time.monotonic()
    report = subprocess.run(
        [program, "report", "--server", f"127.0.0.1:{port}", "--day", str(day)], capture_output=True
    )
    return time.monotonic() - began, report.stdout.count(b"\n"), report.stderr.decode().strip()


def measure(program, port, logins):
    for day, lines in [(1, logins), (2, 0)]:
        alone, beside, usual, longest, said = [], [], [], [], set()
        for window in range(WINDOWS):
            took, came, errors = reported(program, port, day)
            alone.append(took)
            said.add((came, errors))
            with Asker(port, 10 * day + window + 1) as asker:
                # a report that gave up may still hold the server
                assert wait_until(lambda: len(asker.times) >= FIRST), "no reserve is answered"
                before = len(asker.times)
                beside.append(reported(program, port, day)[0])
            usual.append(statistics.median(asker.times[:before]))
            longest.append(max(asker.times[before:]))
        said.discard((lines, ""))
        print(
            (
                f"{logins} logins, day {day}: report {shown(alone)},"
                f" {statistics.median(alone) / logins * 1e6:.1f} us a login, beside reserves"
                f" {shown(beside)}; a reserve {shown(usual)}, the longest beside a report"
                f" {shown(longest)}; otherwise: {sorted(said) or 'nothing'}"
            ),
            flush=True,
        )


def shown(times):
    return f"{statistics.median(times) * 1e3:.1f} ms"


def main():
    parser = argparse.ArgumentParser(
        description=__doc__, formatter_class=argparse.RawDescriptionHelpFormatter
    )
    parser.add_argument("program", metavar="PROGRAM", type=os.path.abspath)
    parser.add_argument(
        "logins",
        metavar="LOGINS",
        type=int,
        nargs="*",
        default=[1_000, 10_000, 100_000],
        help="by default %(default)s",
    )
    asked = parser.parse_args()
    with tempfile.TemporaryDirectory() as folder:
        for logins in asked.logins:
            path, port = f"{folder}/{logins}", free_port()
            filled.write(path, logins, lambda place: (b"user%d@example.org" % place, 1))
            server = subprocess.Popen(
                [asked.program, "server", "--config", filled.settings(folder, path, port)]
            )
            try:
                wait_for_listener(server)
                measure(asked.program, port, logins)
            finally:
                server.terminate()
                server.wait()
            os.unlink(path)


if __name__ == "__main__":
    main()
