"""Tens of thousands of lines, numbers and failures of one filter."""
import socket
import subprocess
import threading

import wire
from books import Books
from cases.filters import AUTH, BEGIN, COMMIT, CONFIG, PROCEED, RCPT, REGISTRATION, SERVICE, answer
from ends import LONG, SECONDS, Script, read_to_end, toml

MANY = 70_000
DEFAULT = 1_000_000
MOMENT = 1_576_146_009
ALICE = {"login": b"alice", "at": MOMENT, "host": b"mx1"}


def run(world, checks):
    a_filter_of_many_numbers(world, checks)
    a_filter_of_many_failures(world, checks)


class Filter:
    """A filter's process, which is spoken to as smtpd does."""

    def __init__(self, world, address, **settings):
        file = world.new_file(
            toml({"host": "mx1", "server": address, "timeout": LONG, "log": "off", **settings})
        )
        words = [world.program, "filter", "--config", file, "--run", "1"]
        self.process = subprocess.Popen(
            words, stdin=subprocess.PIPE, stdout=subprocess.PIPE, stderr=subprocess.DEVNULL
        )

    def say(self, text, size):
        """What is answered to these lines: so many bytes, or fewer where it ends."""
        threading.Thread(target=self.send, args=(text,), daemon=True).start()
        return self.process.stdout.read(size)

    def send(self, text):
        try:
            self.process.stdin.write(text)
            self.process.stdin.flush()
        except OSError:
            pass

    def end(self):
        self.process.stdin.close()
        rest = self.process.stdout.read()
        return self.process.wait(timeout=SECONDS), rest


def mail(recipients):
    return BEGIN + RCPT * recipients + COMMIT


def a_filter_of_many_numbers(world, checks):
    """21,000 recipients are granted in mails of 500: each has the next number, and so has each
    settle."""
    recipients, mails = 500, 42
    books = Books(0, DEFAULT)
    frames, number = [], 0
    for txn in range(1, mails + 1):
        for _ in range(recipients):
            number += 1
            frames.append(wire.reserve(number, txn=txn, **ALICE))
        number += 1
        frames.append(wire.settle(number, txn=txn, count=recipients, **ALICE))
    with Script([books.serve] * len(frames)) as server:
        it = Filter(world, server.address)
        wanted = REGISTRATION + answer(PROCEED) * recipients
        came = it.say(CONFIG + AUTH + mail(recipients), len(wanted))
        checks.equal("a filter: the first mail of 500 recipients", came, wanted)
        for txn in range(2, mails + 1):
            wanted = answer(PROCEED) * recipients
            checks.equal(
                f"a filter: recipients up to {txn * recipients:,}",
                it.say(mail(recipients), len(wanted)),
                wanted,
            )
        checks.equal("a filter of many numbers: its end", it.end(), (0, b""))
    other = [place for place, pair in enumerate(zip(server.heard, frames), 1) if pair[0] != pair[1]]
    checks.equal(
        f"a filter: {len(frames):,} frames", (len(server.heard), other[:5]), (len(frames), [])
    )
    settled = [state[4] for state in books.transactions.values()]
    checks.equal("a filter: what its mails have settled", settled, [recipients] * mails)


def a_filter_of_many_failures(world, checks):
    """A server that isn't there for 70,000 recipients, each under a number of its own, is asked as
    soon as it is."""
    with socket.socket() as held:
        held.bind(("127.0.0.1", 0))
        port = held.getsockname()[1]
        it = Filter(world, f"127.0.0.1:{port}", tries=1)
        wanted = REGISTRATION + answer(SERVICE) * MANY
        checks.equal(
            f"a filter: {MANY:,} recipients without a server",
            it.say(CONFIG + AUTH + BEGIN + RCPT * MANY, len(wanted)),
            wanted,
        )
        held.listen(128)
        asked = threading.Thread(
            target=serve_one,
            args=(held, heard := [], wire.granted(MANY + 1, 1, host=b"mx1")),
            daemon=True,
        )
        asked.start()
        checks.equal(
            "a filter: the next one, with a server",
            it.say(RCPT, len(answer(PROCEED))),
            answer(PROCEED),
        )
        asked.join(timeout=SECONDS)
        checks.equal("a filter: its frame", heard, [wire.reserve(MANY + 1, **ALICE)])
        asked = threading.Thread(
            target=serve_one,
            args=(held, heard := [], wire.released(MANY + 2, 1, host=b"mx1")),
            daemon=True,
        )
        asked.start()
        it.send(BEGIN)
        asked.join(timeout=SECONDS)
        checks.equal("a filter: the closing", heard, [wire.release(MANY + 2, **ALICE)])
        checks.equal("a filter of many failures: its end", it.end(), (0, b""))
    print(f"    {MANY:,} failures of a link, 21,042 exchanges of another", flush=True)


def serve_one(listener, heard, reply):
    peer, _ = listener.accept()
    with peer:
        peer.settimeout(SECONDS)
        heard.append(read_to_end(peer))
        peer.sendall(reply)
