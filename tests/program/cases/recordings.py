"""What a real smtpd 7.6 wrote, through the real filter and the real server."""
import re
from pathlib import Path

from cases.filters import LIMIT, PROCEED, REGISTRATION, SERVICE, answer
from ends import Server, nobody_there

FOLDER = Path(__file__).parent.parent / "recordings"
# the day of 1795329219 to 1795329227, in UTC: 20,779 whole days are 1,795,305,600 seconds
DAY = 20_779
ONE, TWO = (b"37ab31835d776ace", b"6e5fd6102582181a"), (b"8830003b8d1c8ffe", b"4d35946cb887bc94")
THREE, FOUR = (b"d1214ca5ddd8451a", b"a90d6ef2fbf8626f"), (b"d1214ca6b2f3c582", b"a90d6ef2fbf8626f")


def answers(*pairs):
    return REGISTRATION + b"".join(
        answer(result, session, token) for result, (session, token) in pairs
    )


def full_logins(errors):
    """Each warning of a full login, with what is used and the limit; None for a line that is
    none."""
    found = [
        re.fullmatch(r"\S.* login (\S+)\): refused by the limit, (\d+) used of (\d+)", it)
        for it in errors.splitlines()
    ]
    return [it and (it[1], int(it[2]), int(it[3])) for it in found]


def run(world, checks):
    cases = [
        ("reset", 3, answers((PROCEED, ONE), (PROCEED, ONE)), "      0       0       3 u01\n", []),
        (
            "reset",
            1,
            answers((PROCEED, ONE), (LIMIT, ONE)),
            "      0       0       1 u01\n",
            [("u01", 1, 1)],
        ),
        (
            "two_messages",
            3,
            answers((PROCEED, TWO), (PROCEED, TWO)),
            "      2       0       3 u01\n",
            [],
        ),
        (
            "two_messages",
            1,
            answers((PROCEED, TWO), (LIMIT, TWO)),
            "      1       0       1 u01\n",
            [("u01", 1, 1)],
        ),
        (
            "two_sessions",
            3,
            answers((PROCEED, THREE), (PROCEED, FOUR), (PROCEED, THREE)),
            "      0       0       3 u01\n      1       0       3 u02\n",
            [],
        ),
        (
            "two_sessions",
            0,
            answers((LIMIT, THREE), (LIMIT, FOUR), (LIMIT, THREE)),
            "",
            [("u01", 0, 0), ("u02", 0, 0)],
        ),
    ]
    for name, default, wanted, report, full in cases:
        text = (FOLDER / f"{name}.smtpd").read_bytes()
        with Server(world, default=default) as server:
            came = world.filter(server.address, text)
            checks.equal(f"{name}, default {default}: status, lines", came[:2], (0, wanted))
            checks.equal(
                f"{name}, default {default}: the warnings of full logins",
                full_logins(came[2]),
                full,
            )
            came = world.run("report", "--server", server.address, "--day", str(DAY))
            checks.equal(
                f"{name}, default {default}: the report after it", came, (0, report.encode(), "")
            )
            came = world.filter(server.address, text)
            checks.equal(
                f"{name}, default {default}, the same run again: the server gives the same answers",
                (*came[:2], full_logins(came[2])),
                (0, wanted, full),
            )
            checks.equal(f"{name}, default {default}: the server's log", server.log_lines(), [])
    text = (FOLDER / "two_sessions.smtpd").read_bytes()
    with nobody_there() as address:
        status, output, _ = world.filter(address, text)
    checks.equal(
        "two_sessions without a server",
        (status, output),
        (0, answers((SERVICE, THREE), (SERVICE, FOUR), (SERVICE, THREE))),
    )
