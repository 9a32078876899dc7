#!/usr/bin/env python3
"""Recipients a second through filters, with a connection for each request and with one that is
kept.

rate    one filter, one recipient after the other, over a list in memory and over a file, by turns
        with the program of before
far     the same over a link that takes 10 ms each way (root: two namespaces, and a relay between)
hosts   four filters of one host for two minutes, 1,000 recipients a second together, over a file:
        what they were answered (root: a namespace whose loopback has an address of a real network,
        since Linux uses a port of 127.0.0.1 again at once)
"""
import argparse
import contextlib
import ctypes
import fcntl
import heapq
import itertools
import os
import select
import statistics
import struct
import subprocess
import sys
import tempfile
import threading
import time
from pathlib import Path

HERE = Path(__file__).parent
# (the modules of this folder, and one of Python, have names of theirs)
sys.path[0] = str(HERE.parent / "tests" / "program")

from ends import Server, World  # noqa: E402
from smtpd import Smtpd  # noqa: E402

KEPT, NEW = {"keep_connection": True}, {}
# the one host of four filters
HOST = "192.0.2.1"
NEW_NETWORK = 0x40000000
SESSION = b"%016x" % 1
# (a transaction has at most 1,000)
RECIPIENTS_OF_A_MESSAGE = 100


class Filter(Smtpd):
    """A filter in whose one session a login sends to one recipient after the other, in messages of
    a hundred."""

    def __init__(self, world, address, host="mx1", **settings):
        super().__init__(world, host, address, **settings)
        self.asked = 0
        self.login(int(time.time()), SESSION, b"alice")

    def ask(self):
        at = int(time.time())
        number, place = divmod(self.asked, RECIPIENTS_OF_A_MESSAGE)
        if place == 0 and number:
            self.commit(at, SESSION, b"%08x" % number)
        if place == 0:
            self.begin(at, SESSION, b"%08x" % (number + 1))
        self.asked += 1
        return self.recipient(at, SESSION).rstrip().split(b"|", 3)[3]


def seconds_of(asked, count):
    began = time.perf_counter()
    for _ in range(count):
        answer = asked.ask()
        assert answer == b"proceed", answer
    return time.perf_counter() - began


def rate(programs, store, count, rounds):
    """The median recipients a second of each program."""
    times = {name: [] for name in programs}
    for _, (name, (program, settings)) in itertools.product(range(rounds), programs.items()):
        with tempfile.TemporaryDirectory() as folder, contextlib.ExitStack() as ends:
            world = World(program, folder)
            words = ["--create"]
            place = "memory" if store == "memory" else f"{folder}/ledger"
            server = ends.enter_context(
                Server(world, connections=1_000_000, words=words, store=place, default=1_000_000)
            )
            asked = Filter(world, server.address, **settings)
            seconds_of(asked, 20)
            times[name].append(seconds_of(asked, count))
            asked.end()
    return {name: count / statistics.median(it) for name, it in times.items()}


def told(rates):
    first = next(iter(rates.values()))
    return "; ".join(f"{name} {it:,.0f}/s ({it / first:.2f})" for name, it in rates.items())


class Relay(threading.Thread):
    """Two devices, each of a namespace of its own, between which each packet takes so long."""

    TUN, TUNSETIFF, PLAIN = "/dev/net/tun", 0x400454CA, 0x0001 | 0x1000

    def __init__(self, seconds):
        super().__init__(daemon=True)
        self.seconds, self.files, self.goes_on = seconds, [], True
        self.spaces = [f"mq{os.getpid()}{it}" for it in "ab"]
        for place, space in enumerate(self.spaces):
            file = os.open(self.TUN, os.O_RDWR)
            device = f"mqt{place}"
            fcntl.ioctl(file, self.TUNSETIFF, struct.pack("16sH22x", device.encode(), self.PLAIN))
            self.files.append(file)
            own, other = f"10.97.0.{1 + place}", f"10.97.0.{2 - place}"
            for words in (
                f"ip netns add {space}",
                f"ip link set {device} netns {space}",
                f"ip -n {space} address add {own} peer {other} dev {device}",
                f"ip -n {space} link set lo up",
                f"ip -n {space} link set {device} up",
            ):
                subprocess.run(words.split(), check=True)

    def run(self):
        left, number = [], itertools.count()
        while self.goes_on:
            wait = max(0, left[0][0] - time.monotonic()) if left else None
            ready = select.select(self.files, [], [], 1 if wait is None else wait)[0]
            for file in ready:
                other = self.files[1 - self.files.index(file)]
                packet = os.read(file, 65_536)
                heapq.heappush(left, (time.monotonic() + self.seconds, next(number), other, packet))
            while left and left[0][0] <= time.monotonic():
                _, _, other, packet = heapq.heappop(left)
                with contextlib.suppress(OSError):
                    os.write(other, packet)

    def end(self):
        self.goes_on = False
        self.join()
        for space in self.spaces:
            subprocess.run(["ip", "netns", "delete", space], check=True)


def far(programs, count, rounds):
    """The median milliseconds of a recipient over such a link."""
    relay = Relay(0.01)
    relay.start()
    times = {name: [] for name in programs}
    try:
        for _, (name, (program, settings)) in itertools.product(range(rounds), programs.items()):
            with tempfile.TemporaryDirectory() as folder:
                inside = [f"{folder}/{it}" for it in ("server", "filter")]
                for place, path in enumerate(inside):
                    with open(path, "w", encoding="ascii") as file:
                        file.write(
                            f"#!/bin/sh\nexec ip netns exec {relay.spaces[place]} {program}"
                            ' "$@"\n'
                        )
                    os.chmod(path, 0o755)
                settings_of = f"{folder}/server.toml"
                with open(settings_of, "w", encoding="ascii") as file:
                    file.write(
                        'listen = "10.97.0.1:7025"\nstore = "memory"\ndefault = 1000000\n'
                        "offset = 0\ntimeout = 10000\n"
                    )
                server = subprocess.Popen(
                    [inside[0], "server", "--config", settings_of, "--create", "--connections"]
                    + [str(count + 10)],
                    stderr=subprocess.DEVNULL,
                )
                time.sleep(0.5)
                try:
                    asked = Filter(World(inside[1], folder), "10.97.0.1:7025", **settings)
                    seconds_of(asked, 5)
                    times[name].append(seconds_of(asked, count) / count)
                    asked.end()
                finally:
                    server.kill()
                    server.wait()
    finally:
        relay.end()
    return {name: 1e3 * statistics.median(it) for name, it in times.items()}


def begin_network():
    """From here on this process is in a network of its own, with Linux's settings."""
    assert ctypes.CDLL(None).unshare(NEW_NETWORK) == 0, "it wants root"
    for words in ("link set lo up", f"address add {HOST}/32 dev lo"):
        subprocess.run(["ip", *words.split()], check=True)


def hosts(program, settings, a_second, seconds):
    """What four filters of one host are answered, of which each asks so often."""
    with tempfile.TemporaryDirectory() as folder, contextlib.ExitStack() as ends:
        world = World(program, folder)
        server = ends.enter_context(
            Server(
                world,
                connections=1_000_000,
                host=HOST,
                words=["--create"],
                store=f"{folder}/ledger",
                default=1_000_000,
            )
        )
        filters = [Filter(world, server.address, f"mx{it}", **settings) for it in range(4)]
        answers = [{} for _ in filters]

        def go(place):
            began = time.monotonic()
            for number in itertools.count(1):
                if time.monotonic() - began > seconds:
                    return
                answer = filters[place].ask()
                answers[place][answer] = answers[place].get(answer, 0) + 1
                time.sleep(max(0, began + number / (a_second / 4) - time.monotonic()))

        threads = [threading.Thread(target=go, args=(place,)) for place in range(4)]
        for it in threads:
            it.start()
        for it in threads:
            it.join()
        for it in filters:
            it.end()
    total = {}
    for it in answers:
        for answer, count in it.items():
            total[answer.decode()] = total.get(answer.decode(), 0) + count
    return total


def main():
    parser = argparse.ArgumentParser(
        description=__doc__, formatter_class=argparse.RawDescriptionHelpFormatter
    )
    parser.add_argument("program", metavar="PROGRAM", type=os.path.abspath)
    parser.add_argument("what", metavar="WHAT", nargs="*", default=["rate", "far", "hosts"])
    parser.add_argument("--before", metavar="PROGRAM", type=os.path.abspath)
    parser.add_argument("--count", metavar="N", type=int, default=1_000)
    parser.add_argument("--rounds", metavar="N", type=int, default=7)
    parser.add_argument("--seconds", metavar="N", type=int, default=120)
    asked = parser.parse_args()
    print(f"{os.cpu_count()} processors, load of {os.getloadavg()[0]:.1f}, {asked.rounds} rounds")
    programs = {"before": (asked.before, NEW)} if asked.before else {}
    programs |= {"new": (asked.program, NEW), "kept": (asked.program, KEPT)}
    if "rate" in asked.what:
        for store in ("memory", "file"):
            print(f"{store}: {told(rate(programs, store, asked.count, asked.rounds))}", flush=True)
    if "far" in asked.what:
        taken = far(programs, min(asked.count, 100), asked.rounds)
        print("far: " + "; ".join(f"{name} {it:.1f} ms" for name, it in taken.items()), flush=True)
    if "hosts" in asked.what:
        for name, (program, settings) in programs.items():
            # (so that no port waits that another one had)
            begin_network()
            answers = hosts(program, settings, 1_000, asked.seconds)
            print(f"hosts, {name}, {asked.seconds} s: {answers}", flush=True)


if __name__ == "__main__":
    main()
