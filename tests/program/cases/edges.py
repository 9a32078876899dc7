"""Each field of a request at its least and its greatest value, alone and all together: over the
list, over tables in memory, and over a file that is closed and opened again in between.

A row says which values are at an edge; the requests are the same for all rows, and the ledger of
tests/model says what is answered.
"""
import string
import time

import clocks
import wire
from books import RETIRE, Books
from ends import Server, ledger_settings
from ledger import decode
from rows import same_rows

GREATEST_RUN = 281_474_976_710_655
GREATEST_NUMBER = 4_294_967_295
FIRST_SECOND, LAST_SECOND = 86_400, 32_503_680_000
LAST_DAY = 376_200
MOST = 1_000_000
# all the bytes that a host may have
LONGEST_HOST = (string.ascii_letters + string.digits + ".-").encode()
EVERY_BYTE = bytes(range(256))

VALUES = {
    "host": [b"a", b"-", b"Z" * 22, b"9" * 63, LONGEST_HOST, b"." * 64],
    # with the ends those that a clock gives in 2001, 2026, 2038 and 2100, and those about powers of
    # two
    "run": [
        1,
        2,
        2**31 - 1,
        2**31,
        2**32 - 1,
        2**32,
        10**12,
        1_795_674_158_000,
        2**31 * 1_000,
        4_102_444_800_000,
        2**47,
        GREATEST_RUN,
    ],
    "sequence": [
        1,
        2,
        999,
        1_000,
        65_535,
        65_536,
        2**31 - 1,
        2**31,
        GREATEST_NUMBER - 1,
        GREATEST_NUMBER,
    ],
    "txn": [
        1,
        2,
        999,
        1_000,
        65_535,
        65_536,
        2**31 - 1,
        2**31,
        GREATEST_NUMBER - 1,
        GREATEST_NUMBER,
    ],
    "login": [
        b"\0",
        b"\xff",
        b"a" * 127,
        b"a" * 128,
        b"a" * 254,
        EVERY_BYTE[1:],
        EVERY_BYTE[:0:-1],
        b"\0" * 255,
        b"\xff" * 255,
    ],
    "at": [
        FIRST_SECOND,
        FIRST_SECOND + 1,
        172_799,
        2**31 - 1,
        2**31,
        2**32 - 1,
        2**32,
        4_102_444_800,
        2**34,
        LAST_SECOND - 1,
        LAST_SECOND,
    ],
    "count": [1, 2, 999, 1_000],
    "cap": [0, 1, 2, 3, 65_535, 65_536, MOST - 1, MOST],
}
LEAST = {
    "host": b"a",
    "run": 1,
    "sequence": 1,
    "txn": 1,
    "login": b"\0",
    "at": FIRST_SECOND,
    "count": 1,
    "cap": 0,
}
GREATEST = {
    "host": LONGEST_HOST,
    "run": GREATEST_RUN,
    "sequence": GREATEST_NUMBER,
    "txn": GREATEST_NUMBER,
    "login": b"\xff" * 255,
    "at": LAST_SECOND,
    "count": 1_000,
    "cap": MOST,
}
# minutes east of UTC: at these the least and the greatest day are reached
OFFSETS = [-1_439, 1_439]


def ordinary(place):
    """What stands in a row where nothing is at an edge: no two rows share a number or a login."""
    return {
        "host": b"mx%d.example.org" % place,
        "run": 1_795_674_158_000,
        "sequence": 7,
        "txn": 7,
        "login": b"login%d" % place,
        "at": 1_795_674_158,
        "count": 2,
        "cap": 5_000,
    }


def shown(value):
    return (
        f"of {len(value)} bytes from {value[:1].hex()} on"
        if isinstance(value, bytes)
        else f"{value:,}"
    )


def rows():
    alone = [
        (f"{field} {shown(value)}", {field: value})
        for field, values in VALUES.items()
        for value in values
    ]
    together = [
        ("all that is least", LEAST),
        ("all that is least but the cap", {**LEAST, "cap": 1}),
        ("all that is greatest", GREATEST),
    ]
    return [
        (what, {**ordinary(place), **edge}) for place, (what, edge) in enumerate(alone + together)
    ]


def run(world, checks):
    for what, fields in rows():
        sent = Sent(0, **fields)
        replayed(world, checks, what, 0, [sent.before, sent.behind])
    for offset in OFFSETS:
        all_sent = [(what, Sent(offset, **fields)) for what, fields in rows()]
        replayed(
            world,
            checks,
            f"all at offset {offset}",
            offset,
            [half for _, it in all_sent for half in (it.before, it.behind)],
        )
        over_a_file(world, checks, offset, all_sent)
    values = sum(map(len, VALUES.values()))
    print(
        (
            f"    {len(rows())} rows, {values} values of {len(VALUES)} fields; each over a list,"
            " tables in memory and two files"
        ),
        flush=True,
    )
    retires(world, checks)
    beyond_the_edges(world, checks)
    up_to_a_million(world, checks)


class Sent:
    """The requests of a row, those before and those after a restart."""

    def __init__(self, offset, host, run, sequence, txn, login, at, count, cap):
        self.offset = offset
        step = 1 if sequence < 2**31 else -1
        self.sequences = iter(range(sequence, sequence + 20 * step, step))
        self.sender = {"host": host, "run": run}
        other_txn, third_txn = (txn - 1, txn - 2) if txn > 2 else (txn + 1, txn + 2)
        later = at + 86_400 if at + 86_400 <= LAST_SECOND else at - 86_400
        self.here = {"txn": txn, "login": login, "at": at}
        self.later = {"txn": other_txn, "login": login, "at": later}
        day, later_day = self.day(at), self.day(later)
        first = self.numbered(wire.reserve, **self.here, count=count)
        first_limit = self.numbered(wire.limit, from_day=day, cap=cap, login=login)
        later_first = self.next(wire.reserve, **self.later, count=count)
        asked = [wire.usage(login, it) for it in sorted({0, day, later_day, LAST_DAY})]
        pages = [
            wire.page(after, it)
            for it in (day, later_day)
            for after in (b"", login[:-1], login, b"\xff" * 255)
        ]
        self.before = [
            *asked,
            first[0],
            first[0],
            first_limit[0],
            self.next(wire.reserve, **self.here, count=1),
            self.next(wire.limit, from_day=later_day, cap=cap, login=login),
            later_first,
            *asked,
            *pages,
        ]
        self.behind = [
            first[0],
            first_limit[0],
            later_first,
            wire.reserve(first[1], **self.sender, **self.here, count=count % 1_000 + 1),
            *asked,
            *pages,
            self.next(wire.settle, **self.here, count=count),
            self.next(wire.release, **self.later),
            self.next(wire.reserve, **self.here, count=count),
            self.next(wire.settle, **{**self.later, "txn": third_txn}, count=count),
            self.next(wire.reserve, **{**self.later, "at": at}, count=1),
            self.next(wire.limit, from_day=0, cap=0, login=login),
            self.next(wire.limit, from_day=LAST_DAY, cap=cap, login=login),
            *asked,
            *pages,
        ]

    def day(self, at):
        return (at + 60 * self.offset) // 86_400

    def numbered(self, spelled, **fields):
        """A request and its number."""
        sequence = next(self.sequences)
        return spelled(sequence, **self.sender, **fields), sequence

    def next(self, spelled, **fields):
        return self.numbered(spelled, **fields)[0]


def replayed(world, checks, what, offset, connections):
    """The same over a list and over tables in memory."""
    connections = [b"".join(it) for it in connections]
    options = [
        "--default",
        str(MOST),
        "--east",
        str(max(offset, 0)),
        "--west",
        str(max(-offset, 0)),
    ]
    for words in ([], ["--sql"]):
        books = Books(offset, MOST)
        printed = "".join(f"{books.serve(it).hex()}\n" for it in connections)
        came = world.run(
            "replay", *options, *words, text="\n\n".join(it.hex() for it in connections).encode()
        )
        checks.equal(" ".join([f"{what}: replay", *words]), came, (0, printed.encode(), ""))


def over_a_file(world, checks, offset, all_sent):
    """All rows over one file, which is closed after the first half of each, and opened again; then
    each half once more."""
    path, books = f"{world.folder}/edges{offset}", Books(offset, MOST)
    settings = {"store": path, "default": MOST, "offset": offset, "limit": clocks.late()}
    with Server(world, words=["--create"], **settings) as server:
        asked(
            checks,
            f"offset {offset}, a file",
            server,
            books,
            [(what, it.before) for what, it in all_sent],
        )
    with Server(world, **settings) as server:
        asked(
            checks,
            f"offset {offset}, the file opened again",
            server,
            books,
            [(what, it.behind) for what, it in all_sent],
        )
        server.process.kill()
        server.status()
    with Server(world, **settings) as server:
        asked(
            checks,
            f"offset {offset}, the file opened behind a kill",
            server,
            books,
            [(what, it.before + it.behind) for what, it in all_sent],
        )
    same_rows(checks, f"offset {offset}, the file", path, books)
    came = world.run("audit", "--config", ledger_settings(world, path, default=MOST, offset=offset))
    checks.equal(
        f"offset {offset}: audit",
        came,
        (0, f"sound days={len(books.usage)} transactions={len(books.transactions)}\n".encode(), ""),
    )


def retires(world, checks):
    """A retire with each host, run and number, among requests of its run, of the runs next to it
    and of the last run."""
    edges = [{field: value} for field in ("host", "run", "sequence") for value in VALUES[field]]
    edges += [
        {field: it[field] for field in ("host", "run", "sequence")} for it in (LEAST, GREATEST)
    ]
    # (over the file two rows may have one host: the ledger of tests/model knows what is answered
    # then, too)
    names = [
        f"a retire, {', '.join(f'{field} {shown(it)}' for field, it in edge.items())}"
        for edge in edges
    ]
    all_sent = [
        (what, retired(place, **edge)) for place, (what, edge) in enumerate(zip(names, edges))
    ]
    for what, (before, behind) in all_sent:
        replayed(world, checks, what, 0, [before, behind])
    path, books = f"{world.folder}/edges-of-retires", OfAServer(0, MOST)
    settings = {"store": path, "default": MOST}
    for turn, words in enumerate((["--create"], [], [])):
        with Server(world, words=words, **settings) as server:
            asked(
                checks,
                f"a file, start {turn + 1}",
                server,
                books,
                [(what, sent[turn % 2]) for what, sent in all_sent],
            )
            server.process.kill()
            server.status()
    same_rows(checks, "a file with retires", path, books)
    came = world.run("audit", "--config", ledger_settings(world, path, default=MOST))
    checks.equal(
        "a file with retires: audit",
        came,
        (0, f"sound days={len(books.usage)} transactions={len(books.transactions)}\n".encode(), ""),
    )
    print(f"    {len(edges)} retires, each over a list, tables in memory and a file", flush=True)


class OfAServer(Books):
    """The books of a server, which doesn't take a retire that is more than an hour ahead of its
    clock."""

    def apply(self, body):
        request = decode(body)
        if request["kind"] == RETIRE and request["id"][1] > 1_000 * time.time() + 3_600_000:
            return wire.RETRY[2:]
        return super().apply(body)


def retired(place, host=None, run=1_795_674_158_000, sequence=7):
    """The requests before a retire, and it with those after it."""
    host, login = host or b"retired%d.example.org" % place, b"of%d" % place
    runs = sorted({max(run - 1, 1), run, min(run + 1, GREATEST_RUN), GREATEST_RUN})
    its = [
        {"host": host, "run": it, "txn": 1 + place, "login": login, "at": FIRST_SECOND}
        for it in runs
    ]
    # (none of these has the retire's number)
    first = 1_000 if sequence < 1_000 else 1
    before = [*(wire.reserve(first, count=3, **it) for it in its), wire.usage(login)]
    retire = wire.retire(sequence, host=host, run=run)
    behind = [
        retire,
        wire.usage(login),
        wire.page(login[:-1]),
        *before,
        retire,
        wire.retire(sequence, host=host, run=runs[0]),
        wire.reserve(sequence, **its[runs.index(run)]),
        *(wire.settle(first + 1, count=2, **it) for it in its),
        wire.usage(login),
    ]
    return before, behind


def asked(checks, where, server, books, parts):
    for what, frames in parts:
        sent = b"".join(frames)
        checks.equal(f"{where}, {what}", answers(server, sent), books.serve(sent))


def answers(server, sent):
    """What comes back for these bytes, or why nothing does."""
    try:
        return server.ask(sent)
    except OSError as error:
        return repr(error)


# What lies one beyond an edge, as the bytes of its field, in an ordinary request.
BEYOND = [
    ("an empty host", wire.reserve(1, host=b"")),
    ("a host of 65 bytes", wire.reserve(1, host=b"a" * 65)),
    *(
        (f"a host with the byte {byte:02x}", wire.reserve(1, host=b"a" + bytes([byte])))
        for byte in EVERY_BYTE
        if byte not in LONGEST_HOST
    ),
    ("run 0", wire.reserve(1, run=0)),
    ("run 2^48", wire.reserve(1, run=2**48)),
    ("run 2^64 - 1", wire.reserve(1, run=2**64 - 1)),
    ("number 0", wire.reserve(0)),
    ("transaction 0", wire.reserve(1, txn=0)),
    ("second 86,399", wire.reserve(1, at=86_399)),
    ("the second behind the last", wire.reserve(1, at=LAST_SECOND + 1)),
    ("second 2^63", wire.reserve(1, at=2**63)),
    ("an empty login", wire.reserve(1, login=b"")),
    ("count 0", wire.reserve(1, count=0)),
    ("count 1,001", wire.reserve(1, count=1_001)),
    ("a settle of 0", wire.settle(1, count=0)),
    ("a settle of 1,001", wire.settle(1, count=1_001)),
    ("cap 1,000,001", wire.limit(1, 0, MOST + 1)),
    ("a limit from day 376,201 on", wire.limit(1, LAST_DAY + 1, 0)),
    ("usage of day 376,201", wire.usage(day=LAST_DAY + 1)),
    ("the list of day 376,201", wire.page(day=LAST_DAY + 1)),
    ("usage of an empty login", wire.usage(b"")),
    ("a retire of an empty host", wire.retire(1, host=b"")),
    ("a retire of a host of 65 bytes", wire.retire(1, host=b"a" * 65)),
    ("a retire of run 0", wire.retire(1, run=0)),
    ("a retire of run 2^48", wire.retire(1, run=2**48)),
    ("a retire under number 0", wire.retire(0)),
    ("a retire and a byte", wire.frame(wire.retire(1)[2:] + b"\0")),
]


VALUES_IN_ALL = sum(map(len, VALUES.values()))


def beyond_the_edges(world, checks):
    for what, sent in BEYOND:
        for words in ([], ["--sql"]):
            came = world.run(
                "replay", "--default", "3", *words, text=(wire.usage() + sent).hex().encode()
            )
            wanted = (Books().serve(wire.usage()) + wire.BAD).hex()
            checks.equal(
                " ".join([f"{what}: replay", *words]),
                came,
                (1, f"{wanted}\n".encode(), "mailquota: connection 1: bad frame\n"),
            )
    print(f"    {len(BEYOND)} values beyond an edge, each over a list and tables", flush=True)


def up_to_a_million(world, checks):
    """A thousand reserves of 1,000 reach the greatest cap; one more recipient doesn't."""
    sent = (
        b"".join(wire.reserve(n, txn=n, count=1_000) for n in range(1, 1_001))
        + wire.reserve(1_001)
        + wire.limit(1_002, 0, MOST - 1)
    )
    sent += (
        wire.settle(1_003, txn=1_000, count=1_000)
        + wire.limit(1_004, 0, MOST)
        + wire.usage()
        + wire.page()
    )
    for words in ([], ["--sql"]):
        books = Books(0, MOST)
        came = world.run("replay", "--default", str(MOST), *words, text=sent.hex().encode())
        checks.equal(
            " ".join(["1,000,000 recipients of a login: replay", *words]),
            came,
            (0, f"{books.serve(sent).hex()}\n".encode(), ""),
        )
    checks.equal(
        "1,000,000 recipients of a login: what is used", books.usage, {(b"u", 1): (1_000, 999_000)}
    )
