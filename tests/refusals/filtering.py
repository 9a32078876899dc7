"""The filter, with a server that gets all memory, and with none."""
import re
import socket

from cases.filters import (
    AUTH,
    BEGIN,
    COMMIT,
    CONFIG,
    PROCEED,
    RCPT,
    REGISTRATION,
    RESET_LINE,
    answer,
)
from cases.filters import SERVICE as REJECTED
from ends import Server, apart, toml
from sweeping import FAILED_TRY, OUT_OF_MEMORY, RIGHT, Run, sweep
from wire import usage

DAY = 1_576_146_009 // 86_400
# a reserve, then a release at the commit and once more at the end, three tries each
TRIES_WITHOUT_A_SERVER = 9
# what runs with this number and the following ones are told of is no other run's
FIRST_RUN = 1_000_000


def run(refusals, checks):
    with Server(refusals) as server:
        up = Link(server.address, server)
        sweep(
            refusals,
            checks,
            "one recipient through the filter",
            filtered(refusals, up, b"", 1, [(0, 1)]),
            is_example=True,
        )
        committed = filtered(refusals, up, COMMIT + RESET_LINE, 2, [(1, 0)])
        sweep(refusals, checks, "commit settles, reset does nothing", committed, is_example=True)
    # the port is taken, and nobody listens
    with socket.socket() as taken:
        taken.bind(("127.0.0.1", 0))
        down = Link(f"127.0.0.1:{taken.getsockname()[1]}", None)
        left = filtered(refusals, down, COMMIT, TRIES_WITHOUT_A_SERVER, [])
        sweep(refusals, checks, "the server is down", left, is_example=True)


class Link:
    """The server's address, and what it counts where there is one."""

    def __init__(self, address, server):
        self.address = address
        self.server = server

    def counted(self, login):
        """What of this login is settled and what is reserved."""
        reply = self.server.ask(usage(login=login, day=DAY))
        return int.from_bytes(reply[-12:-8], "big"), int.from_bytes(reply[-8:-4], "big")


def filtered(refusals, link, more, exchanges, counted):
    """Runs of the filter over one recipient and these lines, each with a run and a login of its
    own.

    With nothing refused there are so many exchanges, and so much is counted after it, where there
    is a server.
    """

    def one(number, folder):
        unused = refusals.unused()
        login = b"a%07d" % unused
        settings = refusals.new_file(
            toml({"host": "mx1", "server": link.address, "tries": 3, "timeout": 2000}), folder
        )
        text = CONFIG + AUTH.replace(b"|alice", b"|" + login) + BEGIN + RCPT + more
        status, output, errors, told = refusals.run(
            folder,
            number,
            "filter",
            "--config",
            settings,
            "--run",
            str(FIRST_RUN + unused),
            text=text,
        )
        log, last = apart(errors)
        ending, fault = ending_of(status, output, last, told, exchanges, link.server is not None)
        fault = fault or wrong_log(log)
        if not fault and link.server:
            fault = wrong_count(link.counted(login), ending, output, more, counted)
        return Run(
            ending,
            told,
            fault and f"{fault}; status {status}, {output[-80:]!r}, {errors!r}, {told}",
        )

    return one


def ending_of(status, output, last, told, exchanges, has_server):
    """How the filter ended, and what is wrong with that, if anything."""
    # one refused growth costs one try of three, so a server that is up is always heard
    answers = REGISTRATION + answer(PROCEED if has_server else REJECTED)
    if (status, last) == (1, "mailquota: out of memory\n"):
        good = answers.startswith(output) and output[-1:] in (b"", b"\n")
        return OUT_OF_MEMORY, None if good else "its lines are no front of the answers"
    if (status, last, output) != (0, "", answers):
        return "fault", "neither answered nor out of memory"
    more = told.connections - exchanges
    if not has_server:
        return RIGHT, None if more == 0 else f"not {exchanges} tries"
    return (FAILED_TRY if more == 1 else RIGHT), None if more in (0, 1) else f"{more} more tries"


def wrong_log(log):
    """What is wrong with the log, if anything: it has whole lines, each of a part of the filter."""
    if not all(re.match(r"\[(ERROR|WARN |INFO ) (filter|link|settings)\] ", line) for line in log):
        return "lines of the log"
    return None


def wrong_count(came, ending, output, more, counted):
    """What is wrong with what the server counts, if anything: what went through is counted, and
    nothing twice."""
    if ending in (RIGHT, FAILED_TRY):
        return None if [came] == counted else f"counted {came}"
    proceeded = output.count(answer(PROCEED))
    possible = [(0, 0), (0, 1)] + ([(1, 0)] if more else [])
    # a commit settles what went through; a run that ended may have told of it or not
    good = came in possible and sum(came) >= proceeded and (came[0] == 0 or proceeded == 1)
    return None if good else f"counted {came}, with {proceeded} let through"
