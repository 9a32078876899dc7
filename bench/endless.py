#!/usr/bin/env python3
"""Memory of one server over many connections, and whether each request of them is answered.

A server over a file, begun with --endless, gets so many connections, one after the other from each
of two clients: each thousandth reserves, in a transaction of its own, and each other one asks what
is used. The resident memory stands after each tenth. The file lies in a folder of TMPDIR.
"""
import argparse
import multiprocessing
import os
import socket
import tempfile
import time

# (by which those of tests/program are found)
import filled

import wire
from audit import kilobytes
from ends import Server, World, processor_time

CLIENTS, TENTHS = 2, 10
RESERVES = 1_000
# how a reply to each request begins
GRANTED, USAGE = b"\x81", b"\x8b"


def frame_of(number):
    login = b"u%d" % (number % 50)
    if number % RESERVES:
        return wire.usage(login)
    return wire.reserve(number, txn=number, login=login, at=filled.DAY)


def is_answered(port, number):
    """Whether the request of this number is, on a connection of its own."""
    with socket.create_connection(("127.0.0.1", port), timeout=60) as peer:
        peer.sendall(frame_of(number))
        peer.shutdown(socket.SHUT_WR)
        reply = peer.recv(600)
    return reply[2:3] == (USAGE if number % RESERVES else GRANTED)


def unanswered(work):
    """How many of these numbers aren't answered."""
    port, numbers = work
    return sum(not is_answered(port, number) for number in numbers)


def main():
    parser = argparse.ArgumentParser(
        description=__doc__, formatter_class=argparse.RawDescriptionHelpFormatter
    )
    parser.add_argument("program", metavar="PROGRAM", type=os.path.abspath)
    parser.add_argument(
        "connections",
        metavar="CONNECTIONS",
        type=int,
        nargs="?",
        default=3_000_000,
        help="by default %(default)s",
    )
    asked = parser.parse_args()
    piece = asked.connections // TENTHS
    with tempfile.TemporaryDirectory() as folder, multiprocessing.Pool(CLIENTS) as clients:
        words = ["--create", "--endless"]
        with Server(
            World(asked.program, folder),
            connections=0,
            words=words,
            store=f"{folder}/ledger",
            default=1_000_000,
        ) as server:
            assert is_answered(server.port, 1), "the first request isn't answered"
            lost, began = 0, time.monotonic()
            print(f"after the first: {kilobytes(server.process, 'VmRSS'):,} KiB", flush=True)
            for tenth in range(TENTHS):
                numbers = range(1 + tenth * piece, 1 + (tenth + 1) * piece)
                work = [(server.port, numbers[client::CLIENTS]) for client in range(CLIENTS)]
                lost += sum(clients.map(unanswered, work))
                print(
                    (
                        f"after {numbers[-1]:,}: {kilobytes(server.process, 'VmRSS'):,} KiB, at"
                        f" most {kilobytes(server.process, 'VmHWM'):,}; without an answer {lost};"
                        f" {time.monotonic() - began:.0f} s, of a processor"
                        f" {processor_time(server.process):.0f} s"
                    ),
                    flush=True,
                )
            assert server.process.poll() is None, "the server ended"


if __name__ == "__main__":
    main()
