"""A server finds requests of several connections at once, which it takes together: whichever
allocation is refused, each is answered as ever, or one of them isn't taken, and what was answered
is stored."""
import contextlib
import signal
import socket
import subprocess

import wire
from ends import read_all, send_no_more, wait_for_listener
from serving import Served, served, settings
from sweeping import CUT, OUT_OF_MEMORY, RETRY, RIGHT, SECONDS, Run, read_told, sweep

# each of a host and a login of its own, so that no reply hangs on another request
FRAMES = [wire.reserve(n, txn=n, login=b"u%d" % n, host=b"mx%d" % n) for n in range(1, 5)]
WANTED = [wire.granted(n, 1, host=b"mx%d" % n) for n in range(1, 5)]


def run(refusals, checks):
    sweep(refusals, checks, "four hosts at once, over a new file", one_round(refusals))


def one_round(refusals):
    def one(number, folder):
        came = served_together(refusals, folder, number)
        ending = ending_of(came)
        return Run(
            ending or "fault",
            came.told,
            again(refusals, folder, came) if ending else str(came),
        )

    return one


def served_together(refusals, folder, number):
    """A server over a new file in this folder, which finds all of the requests there."""
    words = ["server", "--config", settings(refusals, folder, refusals.port()), "--create"]
    told = f"{folder}/told"
    process = subprocess.Popen(
        [refusals.program, *words, "--connections", str(len(FRAMES))],
        stdin=subprocess.DEVNULL,
        stdout=subprocess.DEVNULL,
        stderr=subprocess.PIPE,
        env=refusals.environment(number, told),
    )
    try:
        port = wait_for_listener(process)
        replies = None if process.poll() is not None else asked_at_once(process, port)
        errors = process.communicate(timeout=SECONDS)[1].decode(errors="replace")
    except BaseException:
        process.kill()
        process.communicate()
        raise
    return Served(replies, process.returncode, errors, read_told(told))


def asked_at_once(process, port):
    """What comes back to each request, all of which are sent while the server is stopped."""
    with contextlib.ExitStack() as peers:
        process.send_signal(signal.SIGSTOP)
        try:
            asking = [
                peers.enter_context(socket.create_connection(("127.0.0.1", port), SECONDS))
                for _ in FRAMES
            ]
            for peer, frame in zip(asking, FRAMES):
                peer.sendall(frame)
                send_no_more(peer)
        finally:
            process.send_signal(signal.SIGCONT)
        return [read_all(peer) for peer in asking]


def ending_of(came):
    """How the server ended, or None where it may not end so: one request at most isn't answered as
    ever."""
    replies = came.replies or []
    other = [reply for reply, wanted in zip(replies, WANTED) if reply != wanted]
    if not any(replies) and (came.status, came.text) == (1, "mailquota: out of memory\n"):
        return OUT_OF_MEMORY
    if came.replies is None or (came.status, came.text) != (0, ""):
        return None
    return {(): RIGHT, (wire.RETRY,): RETRY, (b"",): CUT}.get(tuple(other))


def again(refusals, folder, came):
    """What is wrong with the file for a server that gets all memory, if anything."""
    second = served(refusals, folder, FRAMES)
    if not any(came.replies or []) and second.text:
        # the first server ended before it had made the tables, and another one can make them
        second = served(refusals, folder, FRAMES, ["--create"])
    if not second.went_on() or second.replies != WANTED:
        return f"behind {came} then {second}"
    return None
