"""A ledger in a process of its own that answers batches of requests."""
import os
import re
import statistics
import subprocess
import time
from pathlib import Path


class Ledger:
    """Its frames go in by its input; `path` is ":memory:" or a file, which `create` gives its
    tables."""

    def __init__(self, program, path=":memory:", create=True, wrapper=()):
        self.path = path
        start = time.perf_counter()
        words = [*wrapper, program, path, *["--create"] * create]
        self.process = subprocess.Popen(words, stdin=subprocess.PIPE, stdout=subprocess.PIPE)
        assert self.process.stdout.readline() == b"ready\n", "no ledger"
        self.seconds_to_open = time.perf_counter() - start

    def __enter__(self):
        return self

    def __exit__(self, *_):
        self.process.stdin.close()
        self.process.stdout.close()
        self.process.wait(timeout=60)

    def ask(self, frames):
        """The seconds until the last reply, and the replies."""
        start = time.perf_counter()
        self.process.stdin.write(len(frames).to_bytes(4, "big") + frames)
        self.process.stdin.flush()
        size = int.from_bytes(self.process.stdout.read(4), "big")
        replies = self.process.stdout.read(size)
        seconds = time.perf_counter() - start
        assert size and len(replies) == size, "a reply is missing"
        return seconds, replies

    def most_memory(self):
        """The most that was resident so far, in KiB."""
        status = Path(f"/proc/{self.process.pid}/status").read_text()
        return int(re.search(r"VmHWM:\s+(\d+) kB", status)[1])

    def log_size(self):
        """The bytes of the file's log."""
        log = self.path + "-wal"
        return os.path.getsize(log) if os.path.exists(log) else 0


def by_turns(ledgers, batches, same=True):
    """The median seconds of each ledger on its batches of the same windows, and the median over the
    windows of the first's by the second's. Ledgers that got the same batches have to reply the
    same."""
    times = [[] for _ in ledgers]
    for place, window in enumerate(batches):
        turns = list(enumerate(zip(ledgers, window)))
        replies = [b""] * len(ledgers)
        for which, (ledger, frames) in turns if place % 2 else reversed(turns):
            seconds, replies[which] = ledger.ask(frames)
            times[which].append(seconds)
        assert not same or len(set(replies)) == 1, "they answer differently"
    ratio = statistics.median(a / b for a, b in zip(*times))
    return [statistics.median(taken) for taken in times], ratio
