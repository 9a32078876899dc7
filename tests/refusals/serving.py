"""The server in a process of its own, for one connection, with or without a refused allocation."""
import socket
import subprocess
import time

import books
from ends import apart, but_of_requests, read_all, send_no_more, toml
from sweeping import NOTHING, SECONDS, read_told


class Served:
    """What came of a server: its replies, None where it didn't take the connection, its status, its
    log and its text."""

    def __init__(self, replies, status, errors, told):
        self.replies = replies
        self.status = status
        log, self.text = apart(errors)
        self.log = but_of_requests(log)
        self.told = told

    def __str__(self):
        replies = None if self.replies is None else b"".join(self.replies).hex()
        return f"replies {replies}, status {self.status}, {self.text!r}, log {self.log!r}"

    def could_not_start(self):
        """Whether it wanted memory before it took the connection; then it may have begun to
        listen."""
        return not self.replies and (self.status, self.text) == (1, "mailquota: out of memory\n")

    def went_on(self):
        """Whether it ended after its one connection, as it does with all memory."""
        return self.replies is not None and (self.status, self.text) == (0, "")


def settings(refusals, folder, port=1, **more):
    """The path of settings with the ledger in this folder."""
    whole = {
        "listen": f"127.0.0.1:{port}",
        "store": f"{folder}/ledger",
        "default": 3,
        "offset": 0,
        **more,
    }
    return refusals.new_file(toml(whole), folder)


def served(refusals, folder, requests, words=(), number=None, **more):
    """A server over the ledger in this folder that is asked on one connection; once more where
    another program took its port. `more` are settings."""
    for _ in range(3):
        came = served_at(refusals, refusals.port(), folder, requests, words, number, more)
        if came.text != "mailquota: listen failed\n":
            break
    return came


def served_at(refusals, port, folder, requests, words, number, more):
    words = [
        "server",
        "--config",
        settings(refusals, folder, port, **more),
        "--connections",
        "1",
        *words,
    ]
    told = f"{folder}/told"
    environment = None if number is None else refusals.environment(number, told)
    process = subprocess.Popen(
        [refusals.program, *words],
        stdin=subprocess.DEVNULL,
        stdout=subprocess.DEVNULL,
        stderr=subprocess.PIPE,
        env=environment,
    )
    try:
        replies = asked(process, port, b"".join(requests))
        errors = process.communicate(timeout=SECONDS)[1].decode(errors="replace")
    except BaseException:
        process.kill()
        process.communicate()
        raise
    return Served(
        replies, process.returncode, errors, NOTHING if number is None else read_told(told)
    )


def asked(process, port, sent):
    """The whole replies that come; None where the process ends and nobody took the connection."""
    began = time.monotonic()
    while time.monotonic() < began + SECONDS:
        try:
            with socket.create_connection(("127.0.0.1", port), timeout=SECONDS) as peer:
                return whole_replies(peer, sent)
        except ConnectionRefusedError:
            if process.poll() is not None:
                return None
            time.sleep(0.005)
    raise AssertionError("nobody listens")


def whole_replies(peer, sent):
    try:
        peer.sendall(sent)
    except OSError:
        return []
    send_no_more(peer)
    return books.bodies(read_all(peer))[0]
