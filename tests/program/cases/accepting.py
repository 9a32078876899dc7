"""How the server takes connections: that it waits while none comes, and what it does at each error
of accept(2)."""
import errno
import os
import resource
import socket
import time

from cases.peers import NOTHING_USED
from ends import Server, ledger_settings, processor_time, read_all, send_no_more, soon, wait_until
from wire import usage

# errors of a connection, of the network or of what the system has left; and two of the listener
PASSING, ENDING = (1, 12, 23, 24, 64, 71, 92, 95, 100, 101, 103, 105, 112, 113), (9, 22)


def run(world, checks):
    nobody_asks(world, checks)
    the_last_connection_stays_open(world, checks)
    its_address_alone(world, checks)
    no_files_left(world, checks)
    errors_that_pass(world, checks)
    errors_that_end(world, checks)
    print(
        (
            f"    a server that nobody asks for a second, {len(PASSING)} errors of accept(2) that"
            f" pass, and {len(ENDING)} that don't"
        ),
        flush=True,
    )


def not_accepted(level, error):
    return (
        f"[{level:5} connections] no connection accepted: {os.strerror(error)} (os error"
        f" {error})"
    )


def tried_again(error, pause):
    """The line of an error that passes, with the pause before another attempt in milliseconds."""
    return f"{not_accepted('WARN', error)}; next attempt in {pause} ms"


def waits(checks, what, process):
    """A second of it takes hardly any of a processor's."""
    before = processor_time(process)
    time.sleep(1)
    took = processor_time(process) - before
    checks.holds(
        f"{what}: how long a processor works for it",
        took < 0.05,
        "hardly any of a second",
        f"{took:.2f} s",
    )


def nobody_asks(world, checks):
    with Server(world) as server, server.connect():
        checks.equal("a server before nobody asks", server.ask(usage()), NOTHING_USED)
        waits(checks, "a server that nobody asks", server.process)


def the_last_connection_stays_open(world, checks):
    with Server(world, connections=2) as server:
        checks.equal("a server's connection before its last", server.ask(usage()), NOTHING_USED)
        with server.connect() as peer:
            peer.sendall(usage())
            checks.equal("a server's last connection", peer.recv(100), NOTHING_USED)
            waits(checks, "a last connection that stays open", server.process)
        checks.equal("a server after its last connection", server.status(), 0)


def its_address_alone(world, checks):
    """It listens at the address of its settings, and at no other one of the machine's."""
    by_night = {"words": ["--create"], "store": f"{world.folder}/by-night", "keep": 2}
    # (at 127.0.0.1 a server of another group may have the same port)
    for what, host, other, more in (
        ("", "127.0.0.1", "127.0.0.2", {}),
        ("", "127.0.0.2", "127.0.0.3", {}),
        (", with keep", "127.0.0.1", "127.0.0.2", by_night),
    ):
        with Server(world, host=host, **more) as server, socket.socket() as peer:
            checks.equal(
                f"a server at {host}{what}, asked there", server.ask(usage()), NOTHING_USED
            )
            peer.settimeout(5)
            checks.equal(
                f"a server at {host}{what}, asked at {other}",
                peer.connect_ex((other, server.port)),
                errno.ECONNREFUSED,
            )


def no_files_left(world, checks):
    """accept fails while the server may open no file, and is tried again until it may, whoever is
    connected, and each time from the shortest pause on."""
    with Server(world) as server, server.connect():
        # (once it has answered, it has opened all that it needs, and closed what it was asked on)
        checks.equal("a server before it may open no file", server.ask(usage()), NOTHING_USED)
        for time_of_it in ("the first time", "the second time"):
            no_files_for_a_while(server, checks, f"a server that may open no file, {time_of_it}")


def no_files_for_a_while(server, checks, what):
    (attempts, took, reply, lines), _ = soon(lambda: without_files(server), 0.8)
    checks.equal(f"{what}: the reply once it may", reply, NOTHING_USED)
    wanted = [tried_again(24, min(10 * 2**place, 1_000)) for place in range(len(lines))]
    checks.equal(
        f"{what}: a line for each attempt, with pauses that grow",
        (len(lines) >= 4, lines),
        (True, wanted),
    )
    checks.holds(
        f"{what}: how long four attempts take",
        attempts < 0.8,
        "70 ms, with the pauses that it says",
        f"{attempts:.2f} s",
    )
    checks.holds(
        f"{what}: how long until it answers",
        took < 8,
        "four attempts in 70 ms, and the one after them",
        f"{took:.2f} s",
    )


def without_files(server):
    """How long four attempts take, and how long it is until the one after them, once it may open
    files again; the reply then, and the log's lines of all."""
    before = len(server.log_lines())
    taken = {int(name) for name in os.listdir(f"/proc/{server.process.pid}/fd")}
    free = min(set(range(len(taken) + 1)) - taken)
    was = resource.prlimit(server.process.pid, resource.RLIMIT_NOFILE)
    resource.prlimit(server.process.pid, resource.RLIMIT_NOFILE, (free, was[1]))
    with server.connect() as peer:
        peer.sendall(usage())
        send_no_more(peer)
        start = time.monotonic()
        wait_until(lambda: len(server.log_lines()) >= before + 4)
        attempts = time.monotonic() - start
        resource.prlimit(server.process.pid, resource.RLIMIT_NOFILE, was)
        reply = read_all(peer)
        took = time.monotonic() - start
    return attempts, took, reply, server.log_lines()[before:]


def errors_that_pass(world, checks):
    """The server tries again after a pause, and then after a longer one."""
    for error in PASSING:
        with Server(world, limit=("accept", error)) as server:
            # (the second line is whole once there is a third)
            wait_until(lambda: len(server.log_lines()) > 2 or server.process.poll() is not None)
            came = server.process.poll(), server.log_lines()[:2]
        checks.equal(
            f"accept fails with {error}: it runs on, and says so",
            came,
            (None, [tried_again(error, 10), tried_again(error, 20)]),
        )


def errors_that_end(world, checks):
    settings = ledger_settings(world, "memory", listen="127.0.0.1:0")
    for error in ENDING:
        came = world.run("server", "--config", settings, limit=("accept", error))
        checks.equal(
            f"accept fails with {error}: the server ends",
            came,
            (1, b"", f"{not_accepted('ERROR', error)}\nmailquota: accept failed\n"),
        )
