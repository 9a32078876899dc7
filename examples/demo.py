#!/usr/bin/env python3
"""Plays a day of mailquota over loopback: a quota server over a new file, the filters of two mail
hosts, and an administrator.

It prints what happens, and ends with status 1 at the first thing that isn't as it is to be. All
processes that it starts end with it.
"""
import argparse
import os
import socket
import subprocess
import sys
import tempfile
import time

HOSTS = ["mx1.example.org", "mx2.example.org"]
CONFIG = "config|smtpd-version|7.6.0\nconfig|smtp-session-timeout|300\nconfig|subsystem|smtp-in\nconfig|ready\n"
TOKEN = "1ef1c203cc576e5d"
PROCEED = "proceed"
LIMIT = "reject|550 daily recipient limit reached"
AWAY = "reject|451 quota service unavailable"
# seconds after which whatever hasn't come is missing
SECONDS = 30


class Wrong(Exception):
    """Something isn't as it is to be."""


def shown(what, came, wanted):
    """Prints what came, which is what is wanted."""
    print(f"{what}: {came}", flush=True)
    if came != wanted:
        raise Wrong(f"{what}: {wanted} was wanted")


class Filter:
    """A filter as smtpd runs it, which is fed with smtpd's lines."""

    def __init__(self, day, host):
        self.host, self.at = host, int(time.time())
        config = day.file(f"{host}.toml", f'host = "{host}"\nserver = "{day.address}"\n')
        self.process = subprocess.Popen(
            [day.program, "filter", "--config", config],
            stdin=subprocess.PIPE,
            stdout=subprocess.PIPE,
            stderr=day.log,
            text=True,
        )
        self.say(CONFIG)
        # (it says what it wants to hear of, up to this line)
        while self.process.stdout.readline() not in ("register|ready\n", ""):
            pass

    def say(self, text):
        self.process.stdin.write(text)
        self.process.stdin.flush()

    def report(self, event, session, rest):
        self.say(f"report|0.7|{self.at}.000001|smtp-in|{event}|{session}|{rest}\n")

    def login(self, session, login):
        self.report("link-auth", session, f"pass|{login}")

    def begin(self, session, message):
        self.report("tx-begin", session, message)

    def commit(self, session, message):
        self.report("tx-commit", session, f"{message}|1200")

    def recipient(self, session, address):
        """What smtpd is answered about one more recipient."""
        self.say(f"filter|0.7|{self.at}.000002|smtp-in|rcpt-to|{session}|{TOKEN}|{address}\n")
        return (
            self.process.stdout.readline()
            .rstrip("\n")
            .removeprefix(f"filter-result|{session}|{TOKEN}|")
        )

    def end(self):
        self.process.stdin.close()
        return self.process.wait(timeout=SECONDS)


class Day:
    """The program, a folder for its files, and an address for its server."""

    def __init__(self, program, folder):
        self.program, self.folder = program, folder
        self.log = open(f"{folder}/log", "w", encoding="utf-8")
        with socket.socket() as probe:
            probe.bind(("127.0.0.1", 0))
            self.address = f"127.0.0.1:{probe.getsockname()[1]}"
        settings = (
            f'listen = "{self.address}"\nstore = "{folder}/ledger"\ndefault = 1000\noffset = 0\n'
        )
        self.config = self.file("server.toml", settings)
        self.server, self.filters = None, []

    def file(self, name, text):
        with open(f"{self.folder}/{name}", "w", encoding="utf-8") as file:
            file.write(text)
        return f"{self.folder}/{name}"

    def run(self, *words, text=None):
        """What a command prints."""
        run = subprocess.run(
            [self.program, *words],
            input=text,
            stdout=subprocess.PIPE,
            stderr=self.log,
            text=True,
            timeout=SECONDS,
        )
        return run.stdout.rstrip("\n")

    def ask(self, command, *words):
        return self.run(command, "--server", self.address, *words)

    def start(self):
        """Starts the server, which answers soon."""
        self.server = subprocess.Popen(
            [self.program, "server", "--config", self.config],
            stdin=subprocess.DEVNULL,
            stderr=self.log,
        )
        end = time.monotonic() + SECONDS
        while not self.ask("status"):
            if self.server.poll() is not None or time.monotonic() > end:
                raise Wrong("the server doesn't answer")
            time.sleep(0.02)
        shown("server", self.ask("status"), f"quota server {self.address} answers")

    def end(self):
        for process in [self.server, *(it.process for it in self.filters)]:
            if process is not None and process.poll() is None:
                process.kill()
                process.wait()
        self.log.close()


def play(day, frame):
    # (the day, which is UTC's, is to last)
    while time.time() % 86_400 > 86_340:
        time.sleep(1)
    today = day.run("day", "--config", day.config)
    order = ["--host", "admin", "--login"]
    shown("init", day.run("init", "--config", day.config), f"made {day.folder}/ledger")
    day.start()
    shown(
        "alice gets a limit of 2",
        day.ask("limit", *order, "alice", "--from", today, "--cap", "2"),
        "set",
    )
    one, two = day.filters = [Filter(day, it) for it in HOSTS]
    for at, login, session in ((one, "alice", "a1"), (two, "alice", "a2"), (two, "bob", "b1")):
        at.login(session, login)
        at.begin(session, f"m{session}")
    shown("mx1, alice to her first recipient", one.recipient("a1", "r1@example.net"), PROCEED)
    shown("mx1, alice to her second recipient", one.recipient("a1", "r2@example.net"), PROCEED)
    shown("mx2, alice to her third recipient", two.recipient("a2", "r3@example.net"), LIMIT)
    shown("mx2, bob to his first recipient", two.recipient("b1", "r1@example.net"), PROCEED)
    one.commit("a1", "ma1")
    # (it answers this once it has asked for all before)
    one.login("c1", "carol")
    one.begin("c1", "mc1")
    shown("mx1, carol to her first recipient", one.recipient("c1", "r1@example.net"), PROCEED)
    lines = (
        "      2       0       2 alice\n      0       1    1000 bob\n      0       1    1000 carol"
    )
    shown(
        "what is sent, under way and allowed",
        "\n" + day.ask("report", "--day", today),
        "\n" + lines,
    )
    day.server.kill()
    day.server.wait()
    shown(
        "the server is killed; mx2, bob to his next recipient",
        two.recipient("b1", "r2@example.net"),
        AWAY,
    )
    day.start()
    shown(
        "it is started again, with the same counts",
        "\n" + day.ask("report", "--day", today),
        "\n" + lines,
    )
    shown("mx2, bob to the same recipient", two.recipient("b1", "r2@example.net"), PROCEED)
    shown(
        "bob's password is stolen",
        day.ask("stop", *order, "bob", "--day", today),
        f"stopped: bob used 2 on day {today}\nlimit before: 1000",
    )
    shown("mx2, bob to one more, in the same message", two.recipient("b1", "r3@example.net"), LIMIT)
    shown("both filters end, with status", " ".join(str(it.end()) for it in day.filters), "0 0")
    with open(frame, encoding="ascii") as file:
        asked = file.read()
    # host a, run 1, number 1: one recipient for login u on day 1, where it may have 3; granted, and
    # 1 is used
    reply = day.run("replay", "--default", "3", text=asked)
    shown(
        "one request as it goes over the network",
        "".join(asked.split()),
        "0021010161000000000000000100000001000000010000000000015180017500000001",
    )
    shown("its reply", reply, "001381016100000000000000010000000100000001")


def main():
    parser = argparse.ArgumentParser(
        description=__doc__, formatter_class=argparse.RawDescriptionHelpFormatter
    )
    parser.add_argument("program", metavar="PROGRAM", type=os.path.abspath)
    parser.add_argument(
        "frame",
        metavar="FRAME",
        help="a file with one request in hexadecimal, as examples/one-reserve.hex",
    )
    asked = parser.parse_args()
    with tempfile.TemporaryDirectory() as folder:
        day = Day(asked.program, folder)
        try:
            play(day, asked.frame)
        except (Wrong, OSError, subprocess.TimeoutExpired) as wrong:
            day.log.flush()
            with open(f"{folder}/log", encoding="utf-8", errors="replace") as log:
                print(log.read(), f"not as it is to be: {wrong}", sep="", file=sys.stderr)
            return 1
        finally:
            day.end()
    print("all as it is to be")
    return 0


if __name__ == "__main__":
    sys.exit(main())
