"""`limit` and `report` as an administrator's questions: what is sent, what is printed of the
answers, and where an output fails.

A limit of the program is the first of its run, so limits differ by their runs.
"""
from concurrent.futures import ThreadPoolExecutor
from contextlib import nullcontext

from cases.stopping import note_of
from ends import SILENCE, Script, Server, unreached
from wire import frame, page

# two reserves of login u on day 1 by one transaction, of which a settle keeps one
SETTLED = bytes.fromhex(
    "0021 01 0161 0000000000000001 00000001 00000001 0000000000015180 0175 00000001"
    "0021 01 0161 0000000000000001 00000002 00000001 0000000000015180 0175 00000001"
    "0021 02 0161 0000000000000001 00000003 00000001 0000000000015180 0175 00000001"
)
# three reserves of login u on day 1, of which the third passes a limit of 3
THREE_RESERVES = bytes.fromhex(
    "0021 01 0161 0000000000000001 00000001 00000001 0000000000015180 0175 00000001"
    "0021 01 0161 0000000000000001 00000002 00000001 0000000000015180 0175 00000002"
    "0021 01 0161 0000000000000001 00000003 00000001 0000000000015180 0175 00000001"
)
# a limit of login u from day 1 on: of 2 by run 4, of 3 by run 5, and another by that run
LIMIT_OF_2 = bytes.fromhex("0019 04 0161 0000000000000004 00000001 00000001 00000002 0175")
LIMIT_OF_3 = bytes.fromhex("0019 04 0161 0000000000000005 00000001 00000001 00000003 0175")
LIMIT_OF_4 = bytes.fromhex("0019 04 0161 0000000000000005 00000001 00000001 00000004 0175")
# that the limit of run 4 is set
SET = frame(bytes.fromhex("85 0161 0000000000000004 00000001"))
# what login u, v w and a b\ used on day 1 is asked
USAGE = bytes.fromhex("0007 05 0175 00000001")
OTHER_USAGE = bytes.fromhex("0009 05 03762077 00000001")
ESCAPED_USAGE = bytes.fromhex("000a 05 046120625c 00000001")
# the first page of day 1 is asked, and those after logins u0100 and u0200
FIRST_PAGE = bytes.fromhex("0006 06 00000001 00")
BEHIND_100 = bytes.fromhex("000b 06 00000001 05 7530313030")
BEHIND_200 = bytes.fromhex("000b 06 00000001 05 7530323030")

ASK_2 = ["limit", "--host=a", "--login=u", "--from=1", "--cap=2", "--run=4"]
ASK_3 = ["limit", "--host=a", "--login=u", "--from=1", "--cap=3", "--run=5"]
ASK_4 = ["limit", "--host=a", "--login=u", "--from=1", "--cap=4", "--run=5"]
ASK_ALL = ["report", "--day=1"]
ASK_U = ["report", "--day=1", "--login=u"]
ASK_V_W = ["report", "--day=1", "--login=v w"]
ASK_A_B = ["report", "--day=1", "--login=a b\\"]

LINE = "      1       0       3 u\n"
# what the log has of a question without an answer stands in place of LOG
UNAVAILABLE = (1, "", "LOGmailquota: quota service unavailable\n")
# and its address in place of SERVER
NOT_TAKEN = (1, "", "LOGmailquota: SERVER didn't take this: its log says why\n")
BAD_PAGE = (1, "", "mailquota: bad page\n")
DONE = (0, "", "")


def done(printed, noted=""):
    return 0, printed, noted


def run(world, checks):
    rows = (
        EXCHANGES
        + [(f"a page that isn't right: {what}", b"", *row) for what, *row in BAD_PAGES]
        + [(f"pages: {what}", b"", *row) for what, *row in PAGES]
        + NO_ANSWERS
    )
    # (some wait until a timeout is over)
    with ThreadPoolExecutor(4) as pool:
        came = list(pool.map(lambda row: exchanged(world, *row[1:4]), rows))
    for (what, _, _, _, told, sent, *cause), (came_told, came_sent, address) in zip(rows, came):
        log = unreached(address, cause[0]) if cause and cause[0] else ""
        wanted = [
            (status, printed, errors.replace("LOG", log).replace("SERVER", address))
            for status, printed, errors in told
        ]
        checks.equal(f"{what}: what is told", came_told, wanted)
        checks.equal(f"{what}: what is sent", came_sent, sent)
    printed_logins(world, checks)
    outputs(world, checks)


def exchanged(world, before, answers, asks):
    """What is told of each question, asked one after the other of a server with these answers, the
    frames that it heard, and its address.

    SERVED and LOST are answers of the real server, which got some frames before.
    """
    with Server(world) if SERVED in answers else nullcontext() as server:
        if before:
            server.ask(before)
        answering = {
            SERVED: lambda heard: server.ask(heard),
            LOST: lambda heard: (server.ask(heard), SILENCE)[1],
        }
        with Script([answering.get(answer, answer) for answer in answers]) as script:
            told = [told_by(world, script, words) for words in asks]
        return told, script.heard, script.address


# answers of the real server: its reply, and its reply that is lost
SERVED, LOST = "served", "lost"
# no answer, as the connection ends
DOWN = b""


def hexadecimal(text):
    """The frame of a body in hexadecimal."""
    return frame(bytes.fromhex(text))


def of_logins(first, last):
    """The page of day 1 with the logins of these numbers, the first and the last, each with one
    recipient of three reserved."""
    rows = b"".join(
        b"\x05u%04d" % n + bytes.fromhex("00000000 00000001 00000003")
        for n in range(first, last + 1)
    )
    return frame(bytes.fromhex("8c 00000001") + bytes([last + 1 - first]) + rows)


def told_by(world, script, words):
    """What the program ends with, prints and says, as texts, where this is asked of a server by a
    script."""
    status, output, errors = world.run(*words, f"--server={script.address}")
    return status, output.decode(), errors


def lines_of(logins):
    """The lines of the logins from u0001 on, so many."""
    return "".join(f"      0       1       3 u{number:04}\n" for number in range(1, logins + 1))


FULL_PAGE = of_logins(1, 100)

# why a last try got no answer
CUT, LATE = "closed before its reply was whole", "no answer in time"

# what the server got before, its answers, what is asked, what is told of it, the frames that are
# sent, and why there was no answer at last
EXCHANGES = [
    (
        "limits behind three reserves, one twice and another under its number",
        THREE_RESERVES,
        [SERVED] * 4,
        [ASK_2, ASK_3, ASK_3, ASK_4],
        [
            (1, "", "mailquota: over day 1 used 3\n"),
            done("set\n"),
            done("set\n"),
            (1, "", "mailquota: number used with another limit\n"),
        ],
        [LIMIT_OF_2, LIMIT_OF_3, LIMIT_OF_3, LIMIT_OF_4],
    ),
    ("two lost replies", b"", [LOST, LOST, SERVED], [ASK_3], [done("set\n")], [LIMIT_OF_3] * 3),
    (
        "three lost replies to a limit that is set",
        LIMIT_OF_3,
        [LOST] * 3 + [SERVED],
        [ASK_3],
        [UNAVAILABLE],
        [LIMIT_OF_3] * 3,
        LATE,
    ),
    (
        "three faults; the fourth answer comes to the next question",
        b"",
        [DOWN, SILENCE, DOWN, SET],
        [ASK_2, ASK_2],
        [UNAVAILABLE, done("set\n")],
        [LIMIT_OF_2] * 4,
        CUT,
    ),
    (
        (
            "a login with a settle, all, and one that has used nothing, which has a line where it"
            " is asked for"
        ),
        SETTLED,
        [SERVED] * 3,
        [ASK_U, ASK_ALL, ASK_V_W],
        [done(LINE), done(LINE), done("      0       0       3 v\\x20w\n", note_of(b"v w"))],
        [USAGE, FIRST_PAGE, OTHER_USAGE],
    ),
    ("an empty ledger", b"", [SERVED], [ASK_ALL], [DONE], [FIRST_PAGE]),
    (
        "the widest numbers",
        b"",
        [hexadecimal("8b 046120625c 00000001 000f4240 000186a0 000f4240")],
        [ASK_A_B],
        [done("1000000  100000 1000000 a\\x20b\\x5c\n", note_of(b"a b\\"))],
        [ESCAPED_USAGE],
    ),
    (
        "two lost replies to a report",
        SETTLED,
        [LOST, LOST, SERVED],
        [ASK_U],
        [done(LINE)],
        [USAGE] * 3,
    ),
    (
        "three lost replies to a report",
        SETTLED,
        [LOST] * 3 + [SERVED],
        [ASK_U],
        [UNAVAILABLE],
        [USAGE] * 3,
        LATE,
    ),
    (
        "a second page that stays away",
        b"",
        [DOWN, FULL_PAGE] + [DOWN] * 4,
        [ASK_ALL],
        [(1, lines_of(100), UNAVAILABLE[2])],
        [FIRST_PAGE] * 2 + [BEHIND_100] * 3,
        CUT,
    ),
]

# the pages that come, what is asked and told, and the pages that are asked for
PAGES = [
    ("one login", [of_logins(1, 1)], [ASK_ALL], [done(lines_of(1))], [FIRST_PAGE]),
    ("99 logins", [of_logins(1, 99)], [ASK_ALL], [done(lines_of(99))], [FIRST_PAGE]),
    (
        "100 logins",
        [FULL_PAGE, of_logins(101, 100)],
        [ASK_ALL],
        [done(lines_of(100))],
        [FIRST_PAGE, BEHIND_100],
    ),
    (
        "101 logins",
        [FULL_PAGE, of_logins(101, 101)],
        [ASK_ALL],
        [done(lines_of(101))],
        [FIRST_PAGE, BEHIND_100],
    ),
    (
        "200 logins",
        [FULL_PAGE, of_logins(101, 200), of_logins(201, 200)],
        [ASK_ALL],
        [done(lines_of(200))],
        [FIRST_PAGE, BEHIND_100, BEHIND_200],
    ),
    (
        "250 logins",
        [FULL_PAGE, of_logins(101, 200), of_logins(201, 250)],
        [ASK_ALL],
        [done(lines_of(250))],
        [FIRST_PAGE, BEHIND_100, BEHIND_200],
    ),
]


def bad_first(body):
    """A first page that isn't right, and what comes of it; another answer would be there."""
    return [hexadecimal(body), FULL_PAGE], [ASK_ALL], [BAD_PAGE], [FIRST_PAGE]


def bad_second(body):
    """The same of a second page."""
    told = [(1, lines_of(100), "mailquota: bad page\n")]
    return [FULL_PAGE, hexadecimal(body), FULL_PAGE], [ASK_ALL], told, [FIRST_PAGE, BEHIND_100]


BAD_PAGES = [
    (
        "not ascending",
        *bad_first(
            "8c 00000001 02 0176 00000000 00000001 00000003 0175 00000000 00000001 00000003"
        ),
    ),
    (
        "a login twice",
        *bad_first(
            "8c 00000001 02 0175 00000000 00000001 00000003 0175 00000000 00000001 00000003"
        ),
    ),
    (
        "a login behind a longer one",
        *bad_first(
            "8c 00000001 02 027561 00000000 00000001 00000003 0175 00000000 00000001 00000003"
        ),
    ),
    ("another day", *bad_first("8c 00000002 01 0175 00000000 00000001 00000003")),
    ("another day without rows", *bad_first("8c 00000000 00")),
    (
        "the login behind which it was asked",
        *bad_second("8c 00000001 01 057530313030 00000000 00000001 00000003"),
    ),
    ("a login before that", *bad_second("8c 00000001 01 057530303939 00000000 00000001 00000003")),
    (
        "a login that falls behind another",
        *bad_second(
            "8c 00000001 02 0176 00000000 00000001 00000003 057530313031 00000000 00000001 00000003"
        ),
    ),
    (
        "another day on the second page",
        *bad_second("8c 00000002 01 057530313031 00000000 00000001 00000003"),
    ),
]

# what is asked, the frame that is sent, and the bodies that do not answer it, with what the log has
# of them: a reply to something else it has not
NO_MEMORY, NONE = "it can't take the request now", "it takes the request for none"
UNANSWERED = [
    (
        ASK_2,
        LIMIT_OF_2,
        [
            # of another number, another run, another host
            ("85 0161 0000000000000004 00000003", None),
            ("85 0161 0000000000000002 00000001", None),
            ("85 0162 0000000000000004 00000001", None),
            ("86 0161 0000000000000004 00000003 00000001 00000003", None),
            ("8a 0161 0000000000000004 00000003", None),
            # of another kind
            ("81 0161 0000000000000004 00000001 00000001", None),
            ("87 0161 0000000000000004 00000001", None),
            ("8b 0175 00000001 00000001 00000000 00000003", None),
            ("8c 00000001 00", None),
            ("8d", NO_MEMORY),
            ("8e", NONE),
            # outside the grammar
            ("", "a reply of no bytes"),
            ("85 0161 0000000000000004 00000001 00", "16 bytes that are no reply"),
            ("85 0161 0000000000000004 00000000", "15 bytes that are no reply"),
            (
                "04 0161 0000000000000004 00000001 00000001 00000002 0175",
                "25 bytes that are no reply",
            ),
        ],
    ),
    (
        ASK_U,
        USAGE,
        [
            # of another login, of another day, of another kind
            ("8b 0176 00000001 00000001 00000000 00000003", None),
            ("8b 0175 00000002 00000001 00000000 00000003", None),
            ("8c 00000001 01 0175 00000001 00000000 00000003", None),
            ("8d", NO_MEMORY),
        ],
    ),
    (
        ASK_ALL,
        FIRST_PAGE,
        [
            ("8b 0175 00000001 00000001 00000000 00000003", None),
            ("8e", NONE),
            # a row without a login is outside the grammar
            ("8c 00000001 01 00 00000000 00000001 00000003", "19 bytes that are no reply"),
        ],
    ),
]
NO_ANSWERS = [
    (
        f"{asked[0]}, the body '{body}' four times",
        b"",
        [hexadecimal(body)] * 4,
        [asked],
        [NOT_TAKEN if cause == NO_MEMORY else UNAVAILABLE],
        [sent] * 3,
        cause,
    )
    for asked, sent, bodies in UNANSWERED
    for body, cause in bodies
]

# logins in a page, and how they are printed
LOGINS = [(b"a b\\", "a\\x20b\\x5c"), (b"!~\x7f", "!~\\x7f"), (b"\x00\xff|\n", "\\x00\\xff|\\x0a")]


def printed_logins(world, checks):
    for login, shown in LOGINS:
        row = bytes([len(login)]) + login + bytes.fromhex("00000000 00000001 00000003")
        with Script([frame(bytes.fromhex("8c 00000001 01") + row)]) as script:
            came = told_by(world, script, ASK_ALL)
        checks.equal(
            f"the login {login.hex()}: its line", came, done(f"      0       1       3 {shown}\n")
        )


def outputs(world, checks):
    """An output with room for so many bytes of a line takes these, and then the program says that
    it failed."""
    for room in range(len("set\n")):
        with Script([SET, SET]) as script:
            came = world.run_with_room(room, *ASK_2, f"--server={script.address}")
        wanted = (1, b"set\n"[:room], "mailquota: write failed\n"), [LIMIT_OF_2]
        checks.equal(
            f"limit over an output with room for {room} bytes", (came, script.heard), wanted
        )
    with Server(world) as server:
        server.ask(SETTLED)
        for what, words in [("the report of a login", ASK_U), ("the report of all", ASK_ALL)]:
            for room in range(len(LINE)):
                came = world.run_with_room(room, *words, f"--server={server.address}")
                wanted = (1, LINE.encode()[:room], "mailquota: write failed\n")
                checks.equal(f"{what} over an output with room for {room} bytes", came, wanted)
    a_long_report(world, checks)


def a_long_report(world, checks):
    """What is longer than what the program holds back fails before its end is there."""
    pages = [of_logins(first, first + 99) for first in range(1, 1_000, 100)] + [
        of_logins(1_001, 1_000)
    ]
    lines = lines_of(1_000).encode()
    asked = [page()] + [page(after=b"u%04d" % last) for last in range(100, 1_001, 100)]
    for room in (0, 8_191, 8_193, 20_000, len(lines) - 1):
        with Script(pages) as script:
            came = world.run_with_room(room, *ASK_ALL, f"--server={script.address}")
        what, wanted = f"a report of 1,000 logins over an output with room for {room} bytes", (
            1,
            lines[:room],
            "mailquota: write failed\n",
        )
        checks.equal(what, came, wanted)
        checks.equal(f"{what}: what is asked", script.heard, asked[: len(script.heard)])
    with Script(pages) as script:
        came = world.run_with_room(len(lines), *ASK_ALL, f"--server={script.address}")
    checks.equal(
        "a report of 1,000 logins over an output with room for all",
        (came, script.heard),
        ((0, lines, ""), asked),
    )
