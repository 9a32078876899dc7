"""Frames of requests as hosts send them, without end."""
import itertools
import sys
from pathlib import Path

sys.path.append(str(Path(__file__).resolve().parent.parent.parent / "tests" / "program"))

import wire  # noqa: E402

DAY = 86_400


def mails(logins=50, recipients=3, a_day=5_000):
    """Mails of some recipients each, nine of ten settled and one released, and now and then a
    limit: numbered, none twice."""
    sequence = itertools.count(1)
    for mail in itertools.count(1):
        sender = {
            "txn": mail,
            "login": b"u%05d" % (mail * 7_919 % logins),
            "at": DAY * (1 + mail // a_day),
        }
        for _ in range(recipients):
            yield wire.reserve(next(sequence), **sender)
        if mail % 10 == 0:
            yield wire.release(next(sequence), **sender)
        else:
            yield wire.settle(next(sequence), count=recipients, **sender)
        if mail % 100 == 0:
            yield wire.limit(next(sequence), sender["at"] // DAY, 900_000, sender["login"])


def reserves(logins=50, recipients=3):
    """Reserves of one day, in transactions that stay open."""
    for sequence in itertools.count(1):
        transaction = 1 + (sequence - 1) // recipients
        yield wire.reserve(
            sequence, txn=transaction, login=b"u%05d" % (transaction * 7_919 % logins)
        )


def reserves_of_one():
    """Reserves of one login, one transaction and one day."""
    for sequence in itertools.count(1):
        yield wire.reserve(sequence)


def one_each(logins, days):
    """A reserve of each login on each day, each in a transaction of its own."""
    numbers = itertools.count(1)
    for day in range(1, days + 1):
        for login in range(logins):
            number = next(numbers)
            yield wire.reserve(number, txn=number, login=b"u%05d" % login, at=DAY * day)


def take(frames, count):
    return b"".join(itertools.islice(frames, count))
