"""Database files of many answers, as a server leaves them, with the tables and rows that
docs/STORE.md has."""
import collections
import os
import sqlite3
import sys
from typing import NamedTuple

sys.path.insert(
    0, os.path.join(os.path.dirname(os.path.realpath(__file__)), "..", "tests", "program")
)

import wire

TABLES = """
CREATE TABLE setting (id INTEGER PRIMARY KEY, version INTEGER NOT NULL, minutes INTEGER NOT NULL, cap INTEGER NOT NULL,
    arrivals INTEGER NOT NULL) STRICT;
CREATE TABLE answer (n INTEGER PRIMARY KEY, host BLOB NOT NULL, run INTEGER NOT NULL, seq INTEGER NOT NULL, request BLOB NOT NULL,
    reply BLOB NOT NULL, UNIQUE (host, run, seq)) STRICT;
CREATE TABLE trans (host BLOB NOT NULL, run INTEGER NOT NULL, txn INTEGER NOT NULL, login BLOB NOT NULL, moment INTEGER NOT NULL,
    day INTEGER NOT NULL, held INTEGER NOT NULL, settled INTEGER NOT NULL, closed INTEGER NOT NULL, PRIMARY KEY (host, run, txn)) STRICT;
CREATE TABLE usage (login BLOB NOT NULL, day INTEGER NOT NULL, settled INTEGER NOT NULL, reserved INTEGER NOT NULL,
    PRIMARY KEY (login, day)) STRICT;
CREATE TABLE ceiling (login BLOB NOT NULL, day INTEGER NOT NULL, cap INTEGER NOT NULL, PRIMARY KEY (login, day)) STRICT;
"""
HOST, DEFAULT = b"mx1.example.org", 1_000
# the first moment of day 1, in seconds
DAY = 86_400


def write(path, answers, login_and_day):
    """A file of so many answers, each a reserve of one recipient in a transaction of its own, of
    this login and day by its place.

    Gives the number of days of logins.
    """
    used = collections.Counter()
    with sqlite3.connect(path) as base:
        base.executescript(TABLES)
        base.execute("INSERT INTO setting VALUES (1, 1, 0, ?, ?)", (DEFAULT, answers))
        rows = (answer_row(place, *login_and_day(place), used) for place in range(answers))
        base.executemany("INSERT INTO answer VALUES (?, ?, 1, ?, ?, ?)", rows)
        rows = (trans_row(place, *login_and_day(place)) for place in range(answers))
        base.executemany("INSERT INTO trans VALUES (?, 1, ?, ?, ?, ?, 1, 0, 0)", rows)
        base.executemany(
            "INSERT INTO usage VALUES (?, ?, 0, ?)",
            ((*pair, count) for pair, count in used.items()),
        )
    base.close()
    return len(used)


def answer_row(place, login, day, used):
    used[login, day] += 1
    number, sender = place + 1, {"host": HOST}
    request = wire.reserve(number, txn=number, login=login, at=day * DAY, **sender)
    return number, HOST, number, request[2:], wire.granted(number, used[login, day], **sender)[2:]


def trans_row(place, login, day):
    return HOST, place + 1, login, day * DAY, day


class Message(NamedTuple):
    """A message of one recipient, which is settled or still open."""

    host: bytes
    login: bytes
    day: int
    is_settled: bool = True


def write_messages(path, messages):
    """A file of these messages, each in a transaction of its own: its reserve, and then its settle.
    The numbers of all hosts are the places of the answers."""
    used, places = collections.Counter(), []
    with sqlite3.connect(path) as base:
        base.executescript(TABLES)
        rows = rows_of_messages(messages, used, places)
        base.executemany("INSERT INTO answer VALUES (?, ?, 1, ?, ?, ?)", rows)
        rows = (
            (
                it.host,
                n,
                it.login,
                it.day * DAY,
                it.day,
                not it.is_settled,
                it.is_settled,
                it.is_settled,
            )
            for n, it in places
        )
        base.executemany("INSERT INTO trans VALUES (?, 1, ?, ?, ?, ?, ?, ?, ?)", rows)
        settled = collections.Counter((it.login, it.day) for _, it in places if it.is_settled)
        rows = ((*pair, settled[pair], count - settled[pair]) for pair, count in used.items())
        base.executemany("INSERT INTO usage VALUES (?, ?, ?, ?)", rows)
        answers = base.execute("SELECT count(*) FROM answer").fetchone()[0]
        base.execute("INSERT INTO setting VALUES (1, 1, 0, ?, ?)", (DEFAULT, answers))
    base.close()


def rows_of_messages(messages, used, places):
    """The rows of `answer`; notes each message with its first place, and what each login used on
    each day."""
    n = 0
    for it in messages:
        n += 1
        used[it.login, it.day] += 1
        places.append((n, it))
        its = {"txn": n, "login": it.login, "at": it.day * DAY, "host": it.host}
        granted = wire.granted(n, used[it.login, it.day], host=it.host)
        yield n, it.host, n, wire.reserve(n, **its)[2:], granted[2:]
        if it.is_settled:
            n += 1
            yield n, it.host, n, wire.settle(n, **its)[2:], wire.settled(n, 1, host=it.host)[2:]


def settings(folder, path, port):
    """The path of a server's settings for such a file."""
    name = f"{folder}/settings.toml"
    with open(name, "w", encoding="utf-8") as file:
        file.write(
            f'listen = "127.0.0.1:{port}"\nstore = "{path}"\ndefault = {DEFAULT}\noffset = 0\n'
        )
    return name
