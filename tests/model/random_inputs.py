#!/usr/bin/env python3
"""Runs the program on random inputs and compares it with the ledger of ledger.py.

Half of the ledgers have an offset, and half a zone rule, with moments on both sides of its changes
and midnights.

The ledger is `replay`'s plain list, by default, or the tables of `replay --sql`, or those of a
server over a database file, which is ended by SIGKILL and started again between connections now and
then.

Inputs repeat numbers with the same and with other content, come in another order, are cut, and hold
bytes that are no request. The last line counts the inputs; a difference prints its seed and ends
the run.
"""
import argparse
import os
import random
import subprocess
import sys
import tempfile
from pathlib import Path

import zones
from ledger import Ledger, frame, number, replay, serve, text

sys.path.append(str(Path(__file__).resolve().parent.parent / "program"))

import clocks  # noqa: E402
from ends import Server, World  # noqa: E402


ANY_USAGE = frame(b"\x05" + text(b"u") + number(1))


def id_of(dice, runs=(1, 2)):
    return text(dice.choice([b"a", b"b", b"mx1.example.org"])) + dice.choice(runs).to_bytes(
        8, "big"
    )


class Times:
    """Moments that transactions begin at, and the days that are asked for."""

    def __init__(self):
        self.days = range(5)

    def moment(self, dice):
        day = dice.choice([1, 1, 1, 2, 3])
        return dice.choice([86_400 * day, 86_400 * day + 3_600, 86_400 * (day + 1) - 1])


class TimesOfRule:
    """The same of a zone rule, about its changes and its midnights."""

    def __init__(self, dice, rule):
        found = zones.moments_of(dice, rule)
        self.moments = dice.sample(found, min(len(found), 5))
        days = {zones.day_of(rule, at) for at in self.moments}
        self.days = sorted({day + step for day in days for step in (-1, 0, 1)})

    def moment(self, dice):
        return dice.choice(self.moments)


def transaction_of(dice, times):
    return number(dice.randint(1, 6)), times.moment(dice).to_bytes(8, "big")


def body(dice, sequence, times):
    """A body that spells a request."""
    kind = dice.choices([1, 2, 3, 4, 5, 6, 7], [20, 10, 6, 6, 4, 2, 1])[0]
    login = dice.choice([b"u", b"u", b"v", b"\xff\x00", b"uu"])
    seq = number(dice.randint(1, 4) if dice.random() < 0.1 else sequence)
    if kind <= 3:
        txn, at = transaction_of(dice, times)
        count = number(dice.choice([1, 1, 1, 2, 3, 1000])) if kind <= 2 else b""
        return bytes([kind]) + id_of(dice) + seq + txn + at + text(login) + count
    if kind == 4:
        day = number(dice.choice(times.days))
        return (
            b"\x04"
            + id_of(dice)
            + seq
            + day
            + number(dice.choice([0, 1, 2, 5, 9, 1_000_000]))
            + text(login)
        )
    if kind == 5:
        return b"\x05" + text(login) + number(dice.choice(times.days))
    if kind == 6:
        return b"\x06" + number(dice.choice(times.days)) + text(dice.choice([b"", b"u", b"t"]))
    return b"\x07" + id_of(dice, runs=(1, 2, 2, 3)) + seq


def spoil(dice, stream):
    """Bytes that are perhaps no frames any more."""
    way = dice.randrange(4)
    place = dice.randrange(len(stream))
    if way == 0:
        return stream[:place]
    if way == 1:
        return stream[:place] + bytes([dice.randrange(256)]) + stream[place + 1 :]
    if way == 2:
        return stream[:place] + bytes([dice.randrange(256)]) + stream[place:]
    return stream + dice.choice(
        [b"\x00", b"\x00\x00", b"\x02\x01", b"\x00\x01\x07", b"\x00\x01\x08"]
    )


def connections_of(dice, times=None):
    bodies = [body(dice, sequence, times or Times()) for sequence in range(1, dice.randint(2, 40))]
    frames = [frame(b) for b in bodies]
    for _ in range(dice.randint(0, 8)):
        frames.insert(dice.randrange(len(frames) + 1), dice.choice(frames))
    if dice.random() < 0.3:
        dice.shuffle(frames)
    connections = []
    while frames:
        count = dice.randint(1, len(frames))
        stream = b"".join(frames[:count])
        frames = frames[count:]
        connections.append(spoil(dice, stream) if dice.random() < 0.1 else stream)
    return [c for c in connections if c]


def text_of(dice, connections):
    """The connections as hexadecimal lines, cut after any whole byte."""
    blocks = []
    for stream in connections:
        shown = ""
        for byte in stream:
            shown += f"{byte:02x}" if dice.random() < 0.5 else f"{byte:02X}"
            shown += dice.choices(["", " ", "\n"], [90, 5, 2])[0]
        # a line break that was drawn twice would end the connection
        lines = [line for line in shown.split("\n") if line.strip()]
        blocks.append("\n".join(lines))
    return dice.choice(["\n\n", "\n \n\n"]).join(blocks) + dice.choice(["", "\n", "\n\n"])


def by_replay(program, dice, connections, default, zone, options):
    """What `replay` prints and its status, and what it should."""
    words = ["replay", "--default", str(default), *zone.words, *options]
    run = subprocess.run(
        [program, *words],
        input=text_of(dice, connections),
        capture_output=True,
        text=True,
        timeout=60,
    )
    return (run.stdout, run.stderr, run.returncode), replay(connections, zone.zone, default)


def by_server(world, dice, connections, default, zone):
    """The replies of a server over a new file and how it logs the ends of connections, and what
    both should be."""
    path = f"{world.folder}/ledger"
    for name in (path, f"{path}-wal"):
        if os.path.exists(name):
            os.remove(name)
    model, came, wanted, options = Ledger(zone.zone, default), [], [], ["--create"]
    rest = list(connections)
    while rest:
        count = dice.randint(1, len(rest)) if dice.random() < 0.5 else len(rest)
        # (by the server's clock no moment is ahead)
        with Server(
            world,
            words=options,
            limit=clocks.late(),
            store=path,
            default=default,
            timeout=20_000,
            **zone.settings,
        ) as server:
            came += [server.ask(stream) for stream in rest[:count]]
            # after its reply the ends of all before are logged
            server.ask(ANY_USAGE)
            came.append([line.rsplit(": ", 1)[1] for line in server.log_lines()])
            server.process.kill()
        served = [serve(stream, model) for stream in rest[:count]]
        wanted += [written for written, _ in served]
        wanted.append([end for _, end in served if end])
        rest, options = rest[count:], []
    return came, wanted


class Zone:
    """What the days go by: the words of `replay` and the settings for it, and the moments that are
    tried."""

    def __init__(self, dice):
        if dice.random() < 0.5:
            east, west = dice.choice([0, 60, 1439]), dice.choice([0, 90, 1439])
            self.zone, self.times = east - west, Times()
            self.words, self.settings = ["--east", str(east), "--west", str(west)], {
                "offset": self.zone
            }
        else:
            self.zone = (
                zones.random_rule_of_ends(dice) if dice.random() < 0.2 else zones.random_rule(dice)
            )
            self.times = TimesOfRule(dice, self.zone)
            self.words, self.settings = ["--rule", self.zone], {"offset": None, "rule": self.zone}


def differs(world, way, seed):
    """What was wanted and what came of the input of this seed, if they differ."""
    dice = random.Random(seed)
    default, zone = dice.choice([0, 1, 3, 5, 100]), Zone(dice)
    connections = connections_of(dice, zone.times)
    if way == "file":
        came, wanted = by_server(world, dice, connections, default, zone)
    else:
        options = {"list": [], "tables": ["--sql"]}[way]
        came, wanted = by_replay(world.program, dice, connections, default, zone, options)
    return None if came == wanted else f"seed {seed}, zone {zone.zone}: wanted {wanted}, got {came}"


def main():
    parser = argparse.ArgumentParser(
        description=__doc__, formatter_class=argparse.RawDescriptionHelpFormatter
    )
    parser.add_argument("program", metavar="PROGRAM", type=os.path.abspath)
    parser.add_argument(
        "way",
        nargs="?",
        choices=["list", "tables", "file"],
        default="list",
        help="what ledger, by default a %(default)s",
    )
    parser.add_argument(
        "how_many",
        metavar="HOW_MANY",
        nargs="?",
        type=int,
        default=1000,
        help="inputs, by default %(default)s",
    )
    parser.add_argument(
        "first_seed",
        metavar="FIRST_SEED",
        nargs="?",
        type=int,
        default=1,
        help="by default %(default)s",
    )
    asked = parser.parse_args()
    with tempfile.TemporaryDirectory() as folder:
        world = World(asked.program, folder)
        for seed in range(asked.first_seed, asked.first_seed + asked.how_many):
            difference = differs(world, asked.way, seed)
            if difference:
                print(difference)
                sys.exit(1)
    print(f"{asked.how_many} inputs over {asked.way}, none differs")


if __name__ == "__main__":
    main()
