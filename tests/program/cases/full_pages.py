"""Pages of each size up to a hundred logins of 255 bytes, days on which nobody of thousands wrote,
and reports that are longer than a page: over a list, over tables in memory, and over a file."""
import wire
from books import Books
from cases.asking import report
from cases.edges import answers
from ends import Script, Server

LONGEST = 255
# bytes of a body about which a buffer grows, one below and one beyond, and the longest
SIZES = [
    size + more for size in (256, 512, 1_024, 2_048, 4_096, 8_192, 16_384) for more in (-1, 0, 1)
] + [10_000, 20_000, 20_001, 25_000, 26_805, 26_806]
MANY = 5_000
PAGES = 2_500
LAST_DAY = 376_200


def run(world, checks):
    of_each_count(world, checks)
    of_each_size(world, checks)
    nobody_of_many(world, checks)
    many_at_once(world, checks)
    longer_than_a_page(world, checks)
    thousands_of_pages(world, checks)


def long_name(number):
    return (b"%03d" % number).ljust(LONGEST, b"x")


def line(login, reserved):
    return b"      0 %7d       3 " % reserved + login + b"\n"


def replayed(world, checks, what, sent, books=None):
    for words in ([], ["--sql"]):
        wanted = (books or Books()).serve(sent)
        came = world.run("replay", "--default", "3", *words, text=sent.hex().encode())
        checks.equal(
            " ".join([f"{what}: replay", *words]), came, (0, f"{wanted.hex()}\n".encode(), "")
        )


def of_each_count(world, checks):
    """On day n so many logins of 255 bytes have reserved something."""
    counts = range(0, 102)
    names = [long_name(n) for n in range(102)]
    sequence, sent = 0, {}
    for count in counts:
        numbers = range(sequence + 1, sequence + count + 1)
        sequence += count
        sent[count] = b"".join(
            wire.reserve(n, txn=n, login=login, at=86_400 * (count + 1))
            for n, login in zip(numbers, names)
        )
    for count in counts:
        day = count + 1
        ask = (
            wire.page(day=day)
            + wire.page(names[count - 1][:-1], day)
            + wire.page(names[count // 2], day)
            + wire.page(b"\xff" * LONGEST, day)
        )
        replayed(world, checks, f"a day of {count} logins of 255 bytes", sent[count] + ask)
        sent[count] += ask
    books, path = Books(), f"{world.folder}/pages"
    for what, words in [("a file", ["--create"]), ("the file opened again", [])]:
        with Server(world, words=words, store=path) as server:
            for count in counts:
                came, wanted = answers(server, sent[count]), books.serve(sent[count])
                checks.equal(f"{what}: a day of {count} logins of 255 bytes", came, wanted)
                lines = b"".join(line(login, 1) for login in names[:count])
                checks.equal(
                    f"{what}: a report of {count} logins of 255 bytes",
                    report(world, server.address, day=count + 1),
                    (0, lines, ""),
                )
    print(f"    pages of {counts[0]} to {counts[-1]} logins of {LONGEST} bytes", flush=True)


def names_for(size):
    """Logins whose rows fill a page's body of this size."""
    rows = -(-(size - 6) // (13 + LONGEST))
    bytes_of_names = size - 6 - 13 * rows
    lengths = [bytes_of_names // rows + (place < bytes_of_names % rows) for place in range(rows)]
    return sorted((b"%03d" % place).ljust(length, b"y") for place, length in enumerate(lengths))


def of_each_size(world, checks):
    with Server(world) as server:
        books = Books()
        for day, size in enumerate(SIZES, 1):
            names = names_for(size)
            sent = b"".join(
                wire.reserve(size * 100 + n, txn=size * 100 + n, login=login, at=86_400 * day)
                for n, login in enumerate(names)
            )
            sent += wire.page(day=day)
            wanted = books.serve(sent)
            checks.equal(
                f"a page of {size:,} bytes: its length",
                len(wanted) - wanted.index(b"\x8c" + wire.number(day)),
                size,
            )
            checks.equal(f"a page of {size:,} bytes", answers(server, sent), wanted)
            came = report(world, server.address, day=day)
            checks.equal(
                f"a page of {size:,} bytes: the report",
                came,
                (0, b"".join(line(login, 1) for login in names), ""),
            )
            replayed(world, checks, f"a page of {size:,} bytes", sent)
    print(f"    pages of {len(SIZES)} sizes up to {SIZES[-1]:,} bytes", flush=True)


def nobody_of_many(world, checks):
    """5,000 logins wrote on one day. On others nobody did, or the last of all; the list passes over
    all the others."""
    names = [b"%04d" % n for n in range(MANY)]
    numbered = list(enumerate(names, 1))
    reserves = b"".join(wire.reserve(n, txn=n, login=login, at=2 * 86_400) for n, login in numbered)
    late = wire.reserve(MANY + 1, txn=MANY + 1, login=b"~", at=3 * 86_400)
    days = [0, 1, 2, 3, 4, LAST_DAY]
    ask = b"".join(
        wire.page(after, day) for day in days for after in (b"", names[2_499], names[-1], b"~")
    )
    replayed(
        world,
        checks,
        f"{MANY:,} logins, and days on which nobody wrote",
        reserves + ask + late + ask,
    )
    books, path = Books(), f"{world.folder}/many"
    for what, words in [("a file", ["--create"]), ("the file opened again", [])]:
        with Server(world, words=words, store=path) as server:
            parts = [reserves, ask, late, ask]
            came, wanted = [answers(server, it) for it in parts], [books.serve(it) for it in parts]
            checks.equal(f"{what}: {MANY:,} logins, and days on which nobody wrote", came, wanted)
            lines = {
                1: b"",
                2: b"".join(line(login, 1) for login in names),
                3: line(b"~", 1),
                4: b"",
            }
            for day, wanted in lines.items():
                checks.equal(
                    f"{what}: {MANY:,} logins, the report of day {day}",
                    report(world, server.address, day=day),
                    (0, wanted, ""),
                )
    print(f"    {MANY:,} logins, {len(days)} days", flush=True)


def many_at_once(world, checks):
    """As many full pages as a connection is answered at a time, one beyond, and a hundred, asked
    for at once."""
    with Server(world) as server:
        books = Books()
        sent = b"".join(wire.reserve(n, txn=n, login=long_name(n)) for n in range(1, 101))
        checks.equal("a hundred logins of 255 bytes", answers(server, sent), books.serve(sent))
        for many in (7, 8, 9, 16, 100):
            came, wanted = answers(server, wire.page() * many), books.serve(wire.page()) * many
            checks.equal(
                f"{many} full pages asked for at once",
                (len(came), came == wanted),
                (len(wanted), True),
            )


def thousands_of_pages(world, checks):
    """A report of 2,500 full pages, by a server that answers so."""
    pages = [
        wire.page_reply([wire.row(wire.number(100 * place + n), 0, 1, 3) for n in range(100)])
        for place in range(PAGES)
    ]
    with Script([*pages, wire.page_reply([])]) as server:
        status, output, errors = report(world, server.address)
    checks.equal(
        f"a report of {PAGES:,} pages: status, lines, errors",
        (status, output.count(b"\n"), errors),
        (0, 100 * PAGES, ""),
    )
    asked = [
        wire.page(b"" if place == 0 else wire.number(100 * place - 1)) for place in range(PAGES + 1)
    ]
    checks.equal(f"a report of {PAGES:,} pages: what is asked", server.heard == asked, True)
    print(f"    {PAGES:,} full pages of a report", flush=True)


def longer_than_a_page(world, checks):
    with Server(world) as server:
        for count in (99, 100, 101, 200, 250):
            logins = [b"u%03d" % n for n in range(count)]
            day = count
            numbered = enumerate(logins, start=1000 * count)
            server.ask(
                b"".join(
                    wire.reserve(n, txn=n, login=login, at=86_400 * day) for n, login in numbered
                )
            )
            lines = b"".join(line(login, 1) for login in logins)
            checks.equal(
                f"report of {count} logins", report(world, server.address, day=day), (0, lines, "")
            )
