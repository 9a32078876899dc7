"""A ledger's file of which a bit has changed: the next start refuses it, or its books are as
before. And what SQLite itself reads and writes."""
import collections
import contextlib
import os
import random
import re
import shutil
import signal
import sqlite3

from books import Books
from ends import Server, begun, fault, ledger_settings, of_store, without_time
from rows import rows_in, same_rows
from sums import content_of, has_sums, wrong_pages
from wire import limit, page, reserve, settle

DEFAULT = 40
CHANGES = 100
# what the store says of a file whose pages or whose sums aren't right
WRONG_PAGES = ["file is not a database that obeys its schema", "database disk image is malformed"]
LOGINS = [b"alice", b"bob", b"\xff" * 255]


def run(world, checks):
    path, frames, books = of_some_answers(world, checks)
    a_file_with_sums(checks, path, books)
    changed_bits(world, checks, path, books)
    changed_bits_of_the_log(world, checks, frames)
    what_a_start_logs(world, checks, path, books)
    a_file_without_sums(world, checks, path, frames, books)


def of_some_answers(world, checks):
    """A file of several pages that a server left which came to its end, the requests in it, and
    what they come to."""
    path, books = f"{world.folder}/damage", Books(0, DEFAULT)
    frames = requests(400)
    with Server(world, connections=1, words=["--create"], store=path, default=DEFAULT) as server:
        checks.equal("the replies", server.ask(b"".join(frames)), books.serve(b"".join(frames)))
        checks.equal("the server ends", server.status(), 0)
    # (SQLite writes its log back into a file that it closes)
    with contextlib.closing(sqlite3.connect(path)) as database:
        checks.equal(
            "the version, by SQLite",
            database.execute("SELECT version FROM setting").fetchall(),
            [(3,)],
        )
    return path, frames, books


def requests(count):
    """So many of several logins and days, each under a number of its own: a reserve and a settle in
    turn, and some limits."""
    frames = []
    for number in range(2, count + 2):
        its = {
            "txn": number - number % 2,
            "login": LOGINS[number % 6 // 2],
            "at": 86_400 * (1 + number % 10 // 2),
        }
        frames.append(settle(number, **its) if number % 2 else reserve(number, **its))
        if number % 50 == 0:
            frames[-1] = limit(number, 0, DEFAULT + number, login=its["login"])
    return frames


def a_file_with_sums(checks, path, books):
    content = content_of(path)
    checks.equal(
        "a new file: whether it has sums, and pages whose sums are wrong",
        (has_sums(content), wrong_pages(content)),
        (True, []),
    )
    checks.holds(
        "a new file: its size", len(content) > 10 * 4_096, "more than ten pages", len(content)
    )
    same_rows(checks, "a new file, by SQLite", path, books)


def audit(world, path):
    return world.run("audit", "--config", ledger_settings(world, path, default=DEFAULT))


def sound(books):
    return 0, f"sound days={len(books.usage)} transactions={len(books.transactions)}\n".encode(), ""


def has_rows(path, books):
    try:
        return rows_in(path, books.rows()) == books.rows()
    except sqlite3.Error:
        return False


def with_changed_bit(world, path, end, place, bit):
    """A copy of a file and its log, in one of which a bit is changed."""
    copy = f"{world.folder}/changed"
    for name in ("", "-wal"):
        (
            shutil.copy(path + name, copy + name)
            if os.path.exists(path + name)
            else open(copy + name, "wb").close()
        )
    with open(copy + end, "r+b") as file:
        file.seek(place)
        byte = file.read(1)[0]
        file.seek(place)
        file.write(bytes([byte ^ 1 << bit]))
    return copy


def refused(path):
    """How a command may refuse a file whose bits have changed."""
    return [fault("store can't be opened", log=of_store(path, cause)) for cause in WRONG_PAGES]


def changed_bits(world, checks, path, books):
    """A hundred, each in a copy of its own, most of them anywhere and some in the first page."""
    source, size = random.Random(41), os.path.getsize(path)
    outcomes, wrong = collections.Counter(), []
    for turn in range(CHANGES):
        place, bit = source.randrange(4_096 if turn % 10 == 0 else size), source.randrange(8)
        copy = with_changed_bit(world, path, "", place, bit)
        came = audit(world, copy)
        harmless = came == sound(books) and has_rows(copy, books)
        outcomes[
            "as before" if harmless else "refused" if came in refused(copy) else "another end"
        ] += 1
        if came not in refused(copy) and not harmless:
            wrong.append((place, bit, came))
    checks.equal(f"{CHANGES} changed bits of a file: neither refused nor harmless", wrong, [])
    checks.holds(
        f"{CHANGES} changed bits of a file: refused",
        outcomes["refused"] > CHANGES // 2,
        "more than a half",
        outcomes,
    )
    copy = with_changed_bit(world, path, "", size // 2, 3)
    came = world.run("server", "--config", ledger_settings(world, copy, default=DEFAULT))
    checks.holds(
        "a server over a changed bit",
        came in refused(copy),
        "refused, with the path and what is wrong with it",
        came,
    )


def changed_bits_of_the_log(world, checks, frames):
    """The answers before the changed bit are there, and perhaps none after it: as SQLite itself
    takes such a log."""
    path = f"{world.folder}/killed"
    with Server(world, words=["--create"], store=path, default=DEFAULT) as server:
        server.ask(b"".join(frames[:40]))
        server.process.send_signal(signal.SIGKILL)
        server.status()
    source, size = random.Random(42), os.path.getsize(f"{path}-wal")
    found, wrong = [], []
    for _ in range(10):
        copy = with_changed_bit(world, path, "-wal", source.randrange(size), source.randrange(8))
        with Server(world, store=copy, default=DEFAULT, log="info") as server:
            begun = [line for line in server.log_lines() if " answers=" in line]
            status = None if server.port else server.status()
        if status is None:
            [kept] = [int(re.search(r" answers=(\d+) ", line)[1]) for line in begun]
            books = Books(0, DEFAULT)
            books.serve(b"".join(frames[:kept]))
            found.append(kept)
            if not has_rows(copy, books):
                wrong.append(kept)
        elif status != 1:
            wrong.append(status)
    checks.equal("changed bits of a log: books that aren't those of its first answers", wrong, [])
    checks.holds(
        "changed bits of a log: answers that are left",
        len(found) > 4 and min(found) < 40,
        "fewer than 40 in one of several",
        found,
    )


def what_a_start_logs(world, checks, path, books):
    with Server(world, connections=1, store=path, default=DEFAULT, log="info") as server:
        server.ask(page())
        server.status()
        limits = sum(map(len, books.limits.values()))
        wanted = begun(
            path, default=DEFAULT, answers=len(books.answers), days=len(books.usage), limits=limits
        )
        checks.equal("the first line of the log", without_time(server.log_lines())[0], wanted)


def a_file_without_sums(world, checks, path, frames, books):
    """As earlier programs made it, and as SQLite makes one: it is opened and written as before."""
    plain = f"{world.folder}/plain"
    source, database = sqlite3.connect(path), sqlite3.connect(plain)
    for statement in source.iterdump():
        database.execute(statement)
    database.commit()
    source.close()
    database.close()
    checks.equal("a file without sums: audit", audit(world, plain), sound(books))
    more = reserve(1_000, txn=1_000, login=b"new")
    with Server(world, store=plain, default=DEFAULT) as server:
        checks.equal(
            "a file without sums: replies",
            server.ask(frames[0] + frames[-1] + more + page()),
            books.serve(frames[0] + frames[-1] + more + page()),
        )
    same_rows(checks, "a file without sums, by SQLite", plain, books)
    checks.equal(
        "a file without sums: whether it has some then", has_sums(content_of(plain)), False
    )
