#!/usr/bin/env python3
"""Measures what it costs to open a file of version 1 and to retire the run of all its answers; or
what recipients of another host are answered meanwhile, by these settings of its filter."""
import argparse
import os
import resource
import socket
import sqlite3
import subprocess
import sys
import tempfile
import threading
import time
from pathlib import Path

TESTS = Path(__file__).resolve().parent.parent / "tests"
# (the modules of this folder have names of theirs)
sys.path[0] = str(TESTS / "program")
sys.path.append(str(TESTS / "model"))

import wire
from cases.filters import SERVICE
from cases.retiring import FIVE_TABLES
from ends import Server, World, copied, ledger_settings, processor_time
from smtpd import TOKEN, Smtpd

HOST, RUN, DAY = b"mx1.example.org", 1_700_000_000_000, 20_000
SENDER = {"host": HOST, "run": RUN}
MESSAGES_OF_A_LOGIN = 10
# Of the other host: its sessions, each of a login of its own, their recipients a second in all, and
# for how many seconds before the retire and after it. A transaction has a thousand at most.
OTHER, SESSIONS, PACE, BEFORE, AFTER = "mx2.example.org", 50, 20, 3, 20
# What the examples set besides.
OF_A_SERVER, OF_A_FILTER = {"timeout": 300}, {"hold": 5, "keep_connection": True}


def login_of(txn):
    return b"u%06d" % (txn // MESSAGES_OF_A_LOGIN)


def answers(transactions):
    """A reserve and a settle of each transaction, with their replies."""
    for txn in range(1, transactions + 1):
        its = {"txn": txn, "login": login_of(txn), "at": 86_400 * DAY, **SENDER}
        used = txn % MESSAGES_OF_A_LOGIN + 1
        for n, request, reply in (
            (
                2 * txn - 1,
                wire.reserve(2 * txn - 1, **its),
                wire.granted(2 * txn - 1, used, **SENDER),
            ),
            (2 * txn, wire.settle(2 * txn, **its), wire.settled(2 * txn, 1, **SENDER)),
        ):
            yield n, HOST, RUN, n, request[2:], reply[2:]


def write_file(path, transactions):
    database = sqlite3.connect(path)
    for statement in FIVE_TABLES:
        database.execute(statement)
    database.execute("INSERT INTO setting VALUES (1, 1, 0, 1000, ?)", (2 * transactions,))
    database.executemany("INSERT INTO answer VALUES (?, ?, ?, ?, ?, ?)", answers(transactions))
    of_all = range(1, transactions + 1)
    database.executemany(
        "INSERT INTO trans VALUES (?, ?, ?, ?, ?, ?, 0, 1, 1)",
        ((HOST, RUN, txn, login_of(txn), 86_400 * DAY, DAY) for txn in of_all),
    )
    sent = {}
    for txn in of_all:
        sent[login_of(txn)] = sent.get(login_of(txn), 0) + 1
    database.executemany(
        "INSERT INTO usage VALUES (?, ?, ?, 0)",
        ((login, DAY, count) for login, count in sorted(sent.items())),
    )
    database.commit()
    database.close()


def timed(what, go):
    start = time.monotonic()
    came = go()
    print(f"{what}: {time.monotonic() - start:.1f} s", flush=True)
    return came


def asked(address, frame):
    """What comes back for this frame, however long it takes."""
    host, _, port = address.rpartition(":")
    with socket.create_connection((host, int(port))) as peer:
        peer.sendall(frame)
        peer.shutdown(socket.SHUT_WR)
        return b"".join(iter(lambda: peer.recv(65_536), b""))


class Recipients(Smtpd):
    """The other host: each recipient is asked at its time, however long those before it wait."""

    def __init__(self, world, address, **settings):
        super().__init__(world, OTHER, address, **settings, **OF_A_FILTER)
        for it in range(SESSIONS):
            self.login(int(time.time()), b"%d" % it, b"user%d" % it)
            self.begin(int(time.time()), b"%d" % it, b"%08x" % it)
        # when each was asked, how long it waited, and for what
        self.asked, self.answers, self.is_over = [], [], False
        self.threads = [threading.Thread(target=it) for it in (self.send, self.read)]
        for it in self.threads:
            it.start()

    def send(self):
        while not self.is_over:
            self.asked.append(time.monotonic())
            self.say(
                b"filter|0.7|%d.000002|smtp-in|rcpt-to|%d|%s|bob@example.org\n"
                % (time.time(), len(self.asked) % SESSIONS, TOKEN)
            )
            time.sleep(1 / PACE)
        self.process.stdin.close()

    def read(self):
        while line := self.process.stdout.readline():
            took = time.monotonic() - self.asked[len(self.answers)]
            self.answers.append((took, line.rstrip().split(b"|", 3)[3]))

    def end(self):
        self.is_over = True
        for it in self.threads:
            it.join()
        self.process.wait()
        self.log.close()


def beside(world, path, tries, timeout, pause):
    """A retire, and what another host's recipients are answered from before it to after it."""
    with Server(world, store=path, default=1_000, **OF_A_SERVER) as server:
        host = Recipients(world, server.address, tries=tries, timeout=timeout, pause=pause)
        time.sleep(BEFORE)
        begun, worked = time.monotonic(), processor_time(server.process)
        reply = asked(server.address, wire.retire(1, host=HOST, run=RUN + 1))
        took, worked = time.monotonic() - begun, processor_time(server.process) - worked
        time.sleep(AFTER)
        host.end()
    waited = max(it for it, _ in host.answers)
    refused = sum(answer == SERVICE for _, answer in host.answers)
    print(
        f"tries = {tries}, timeout = {timeout}, pause = {pause}: {refused} of"
        f" {len(host.answers)} recipients answered 451, the longest wait {waited:.1f} s; the retire"
        f" {took:.1f} s, {worked:.1f} s of a processor, {'answered' if reply else 'not answered'}",
        flush=True,
    )


def main():
    parser = argparse.ArgumentParser(description=__doc__)
    parser.add_argument("program", metavar="PROGRAM", type=os.path.abspath)
    parser.add_argument(
        "answers",
        metavar="ANSWERS",
        type=int,
        nargs="?",
        default=1_000_000,
        help="by default %(default)s",
    )
    parser.add_argument(
        "--beside",
        metavar="TRIES,TIMEOUT,PAUSE",
        action="append",
        type=lambda text: tuple(map(int, text.split(","))),
        help="a filter's settings beside the retire; each is tried alone",
    )
    given = parser.parse_args()
    program, transactions = given.program, given.answers // 2
    with tempfile.TemporaryDirectory() as folder:
        world = World(program, folder)
        if given.beside:
            write_file(f"{folder}/ledger", transactions)
            for settings in given.beside:
                beside(world, copied(f"{folder}/ledger", f"{folder}/copy"), *settings)
            return
        for name in ("audited", "served"):
            write_file(f"{folder}/{name}", transactions)
        audit = [
            program,
            "audit",
            "--config",
            ledger_settings(world, f"{folder}/audited", default=1_000),
        ]
        timed("audit of version 1", lambda: subprocess.run(audit, check=True))
        timed("audit of version 3", lambda: subprocess.run(audit, check=True))
        print(
            "memory of an audit:"
            f" {resource.getrusage(resource.RUSAGE_CHILDREN).ru_maxrss // 1_000} MB"
        )
        server = timed(
            "a server's start over version 1",
            lambda: Server(world, store=f"{folder}/served", default=1_000),
        )
        with server:
            timed(
                "the retire", lambda: asked(server.address, wire.retire(1, host=HOST, run=RUN + 1))
            )
            with open(f"/proc/{server.process.pid}/status", encoding="ascii") as status:
                print(
                    "the server then:",
                    *[line.strip() for line in status if line.startswith(("VmHWM", "VmRSS"))],
                )


if __name__ == "__main__":
    main()
