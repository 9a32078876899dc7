#!/usr/bin/env python3
"""Resident memory of a filter that is fed lines for a long time, and of a server on one connection
of many frames.

The filter is fed so many megabytes of lines that ask the server nothing, and the server 9,999
frames that its ledger doesn't keep. Of each it prints the resident memory after the first answer
and after the last one, and its highest.
"""
import argparse
import re
import socket
import subprocess
import sys
import tempfile
import threading
from pathlib import Path

sys.path.insert(0, str(Path(__file__).resolve().parent.parent / "tests" / "program"))
import wire

FRAMES = 9_999
# The longest request that a ledger doesn't keep: 262 bytes with its head.
FRAME = wire.page(b"x" * 255)


def resident(process):
    """The resident memory of a process now, and its highest so far, in kilobytes."""
    status = Path(f"/proc/{process.pid}/status").read_text()
    return [int(re.search(rf"{key}:\s+(\d+) kB", status)[1]) for key in ("VmRSS", "VmHWM")]


def tell(what, first, last, highest):
    print(
        f"{what}: {first:,} KiB after the first answer, {last:,} KiB after the last,"
        f" {highest:,} KiB at most"
    )


def lines_of(session):
    """A mail of a session without login: an answer comes without the server."""
    s, stamp = f"{session:016x}", "1795329219.000000"
    return (
        f"report|0.7|{stamp}|smtp-in|tx-begin|{s}|{session:08x}\n"
        + "".join(
            f"filter|0.7|{stamp}|smtp-in|rcpt-to|{s}|{k:016x}|r{k}@example.test\n"
            for k in range(20)
        )
        + f"report|0.7|{stamp}|smtp-in|tx-commit|{s}|{session:08x}|1200\nreport|0.7|{stamp}|smtp-in|link-disconnect|{s}\n"
    ).encode()


def measure_filter(program, folder, megabytes):
    settings = Path(folder) / "filter.toml"
    settings.write_text('host = "mx1"\nserver = "127.0.0.1:1"\n')
    filter_ = subprocess.Popen(
        [program, "filter", "--config", settings], stdin=subprocess.PIPE, stdout=subprocess.PIPE
    )
    filter_.stdin.write(b"config|ready\n" + lines_of(1))
    filter_.stdin.flush()
    answers = iter(filter_.stdout.readline, b"")
    while not next(answers).startswith(b"filter-result"):
        pass
    first, _ = resident(filter_)
    rest = threading.Thread(target=lambda: [None for _ in answers])
    rest.start()
    fed, session = 0, 2
    while fed < megabytes * 1_000_000:
        piece = b"".join(lines_of(session + k) for k in range(500))
        filter_.stdin.write(piece)
        fed, session = fed + len(piece), session + 500
    filter_.stdin.flush()
    last, highest = resident(filter_)
    filter_.stdin.close()
    rest.join()
    assert filter_.wait(60) == 0, "the filter failed"
    tell(f"filter, {fed / 1_000_000:,.0f} MB of lines", first, last, highest)


def measure_server(program, folder):
    with socket.socket() as probe:
        probe.bind(("127.0.0.1", 0))
        port = probe.getsockname()[1]
    settings = Path(folder) / "server.toml"
    settings.write_text(
        f'listen = "127.0.0.1:{port}"\nstore = "memory"\ndefault = 3\noffset = 0\ntimeout ='
        ' 60000\nlog = "info"\n'
    )
    server = subprocess.Popen(
        [program, "server", "--config", settings, "--connections", "1"], stderr=subprocess.PIPE
    )
    server.stderr.readline()
    with socket.create_connection(("127.0.0.1", port)) as peer, peer.makefile("rb") as replies:
        peer.sendall(FRAME)
        size = 2 + int.from_bytes(replies.read(2), "big")
        replies.read(size - 2)
        first, _ = resident(server)
        asking = threading.Thread(target=peer.sendall, args=(FRAME * (FRAMES - 1),))
        asking.start()
        assert len(replies.read(size * (FRAMES - 1))) == size * (FRAMES - 1), "a reply is missing"
        asking.join()
        last, highest = resident(server)
    assert server.wait(60) == 0, "the server failed"
    tell(f"server, {FRAMES:,} frames on one connection", first, last, highest)


def main():
    parser = argparse.ArgumentParser(
        description=__doc__, formatter_class=argparse.RawDescriptionHelpFormatter
    )
    parser.add_argument("program", metavar="PROGRAM")
    parser.add_argument(
        "megabytes",
        metavar="MEGABYTES",
        type=int,
        nargs="?",
        default=1_000,
        help="by default %(default)s",
    )
    asked = parser.parse_args()
    with tempfile.TemporaryDirectory() as folder:
        measure_filter(asked.program, folder, asked.megabytes)
        measure_server(asked.program, folder)


main()
