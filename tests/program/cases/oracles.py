"""The two ledgers of tests/model, of which one keeps sums and the other reads all off its whole
list, agree over random connections."""
import random

from books import Books
from ledger import Ledger, decode, serve
from random_inputs import Times, TimesOfRule, connections_of
from zones import random_zone

SEEDS = 500


def run(_world, checks):
    answers, sums, answered, kinds = [], [], 0, set()
    forgetting, forgotten = [], 0
    for seed in range(SEEDS):
        dice = random.Random(seed)
        default, zone = dice.choice([0, 1, 3, 5, 100]), random_zone(dice)
        times = Times() if isinstance(zone, int) else TimesOfRule(dice, zone)
        model, books = Ledger(zone, default), Books(zone, default)
        if any(
            serve(stream, model)[0] != books.serve(stream) for stream in connections_of(dice, times)
        ):
            answers.append(seed)
        if sums_of(model) != sums_in(books):
            sums.append(seed)
        day = dice.choice([*times.days])
        forgetting += [] if remember_alike(model, books, day) else [(seed, day)]
        forgotten += len(books.answers) - len(books.remembered(day).answers)
        answered += len(model.entries)
        kinds |= {kind for _, kind, _ in model.entries}
    checks.equal(f"{SEEDS} seeds with {answered} entries: those whose replies differ", answers, [])
    checks.equal(f"{SEEDS} seeds: those whose rows differ", sums, [])
    checks.holds(
        f"{SEEDS} seeds, from a day on: entries that are forgotten",
        forgotten > SEEDS,
        "many",
        forgotten,
    )
    checks.equal(
        f"{SEEDS} seeds, from a day on: those that remember other entries, replies or sums",
        forgetting,
        [],
    )
    checks.equal("the kinds of replies among them", sorted(kinds), [*range(0x81, 0x8A), 0x8F])


def remember_alike(model, books, day):
    """Whether both remember the same entries from this day on, with the replies that they had, and
    what is used on later days."""
    again = books.remembered(day)
    kept = [(request["id"], reply) for request, _, reply in model.remembered(day)]
    used = {key: sums for key, sums in books.usage.items() if key[1] >= day}
    return (
        kept == [(number_of, reply) for number_of, _, reply in again.answers]
        and used == again.usage
        and books.limits == again.limits
    )


def sums_of(model):
    """What the rows hold, read off the whole list."""
    granted = {
        (request["login"], model.day(request["at"]))
        for request, kind, _ in model.entries
        if kind == 0x81
    }
    first = {}
    for request, _, _ in model.entries:
        if request["kind"] <= 3:
            first.setdefault(model.transaction(request), request)
    transactions = {
        name: [
            request["login"],
            request["at"],
            model.day(request["at"]),
            model.held(name),
            settled_of(model, name),
            int(model.closed(name)),
        ]
        for name, request in first.items()
    }
    caps = {
        (request["login"], request["from_day"]): request["cap"]
        for request, kind, _ in model.entries
        if kind == 0x85
    }
    usage = {key: (model.settled(*key), model.reserved(*key)) for key in granted}
    floors = {
        request["id"][0]: model.floor(request["id"][0])
        for request, kind, _ in model.entries
        if kind == 0x8F
    }
    replies = [
        (request, b"" if model.is_retired(request["id"]) else reply)
        for request, _, reply in model.entries
    ]
    return replies, transactions, usage, caps, floors


def settled_of(model, transaction):
    return sum(
        request["count"]
        for request, kind, _ in model.of(transaction)
        if model.counts_as_settled(request, kind)
    )


def sums_in(books):
    caps = {
        (login, start): cap
        for login, starts in books.limits.items()
        for start, cap in starts.items()
    }
    replies = [(decode(body), reply) for *_, body, reply in books.rows()["answer"]]
    return replies, books.transactions, books.usage, caps, books.floors
