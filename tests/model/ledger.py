"""The quota ledger once more, written from docs/LEDGER.md and docs/FRAMES.md alone.

It keeps the list of entries and reads every number off the whole list, so that it shares neither
code nor shortcuts with the program.
"""

from zones import day_of

RETIRE = 7
HOST_BYTES = frozenset(b"abcdefghijklmnopqrstuvwxyzABCDEFGHIJKLMNOPQRSTUVWXYZ0123456789.-")


class NotInGrammar(Exception):
    """The body spells no request."""


class Reader:
    def __init__(self, body):
        self.body = body
        self.place = 0

    def take(self, count):
        if self.place + count > len(self.body):
            raise NotInGrammar
        piece = self.body[self.place : self.place + count]
        self.place += count
        return piece

    def number(self, width, low, high):
        value = int.from_bytes(self.take(width), "big")
        if not low <= value <= high:
            raise NotInGrammar
        return value

    def text(self, low, high):
        return self.take(self.number(1, low, high))

    def id(self):
        host = self.text(1, 64)
        if not set(host) <= HOST_BYTES:
            raise NotInGrammar
        return (host, self.number(8, 1, 281_474_976_710_655), self.number(4, 1, 4_294_967_295))

    def end(self):
        if self.place != len(self.body):
            raise NotInGrammar


def decode(body):
    """The request that the body spells, as a dictionary."""
    fields = Reader(body)
    kind = fields.number(1, 1, RETIRE)
    request = {"kind": kind}
    if kind <= 4 or kind == RETIRE:
        request["id"] = fields.id()
    if kind <= 3:
        request["txn"] = fields.number(4, 1, 4_294_967_295)
        request["at"] = fields.number(8, 86_400, 32_503_680_000)
        request["login"] = fields.text(1, 255)
        if kind <= 2:
            request["count"] = fields.number(4, 1, 1000)
    elif kind == 4:
        request["from_day"] = fields.number(4, 0, 376_200)
        request["cap"] = fields.number(4, 0, 1_000_000)
        request["login"] = fields.text(1, 255)
    elif kind == 5:
        request["login"] = fields.text(1, 255)
        request["day"] = fields.number(4, 0, 376_200)
    elif kind == 6:
        request["day"] = fields.number(4, 0, 376_200)
        request["after"] = fields.text(0, 255)
    fields.end()
    return request


def text(value):
    return bytes([len(value)]) + value


def number(value):
    return value.to_bytes(4, "big")


def id_bytes(id):
    host, run, seq = id
    return text(host) + run.to_bytes(8, "big") + number(seq)


class Ledger:
    """Replies are bodies; an entry is (request, reply kind, reply body)."""

    def __init__(self, zone, default):
        self.zone = zone
        self.default = default
        self.entries = []

    def day(self, at):
        return day_of(self.zone, at)

    @staticmethod
    def transaction(request):
        host, run, _ = request["id"]
        return (host, run, request["txn"])

    def floor(self, host):
        """Runs of the host below this one are retired."""
        return max(
            (r["id"][1] for r, _, _ in self.entries if r["kind"] == RETIRE and r["id"][0] == host),
            default=0,
        )

    def is_retired(self, id):
        host, run, _ = id
        return run < self.floor(host)

    def of(self, transaction):
        return [
            e for e in self.entries if e[0]["kind"] <= 3 and self.transaction(e[0]) == transaction
        ]

    def is_ended(self, transaction):
        """Whether a settle or a release closed it."""
        return any(kind in (0x83, 0x84) for _, kind, _ in self.of(transaction))

    def closed(self, transaction):
        return self.is_ended(transaction) or self.is_retired(transaction)

    def held(self, transaction):
        if self.closed(transaction):
            return 0
        return sum(r["count"] for r, kind, _ in self.of(transaction) if kind == 0x81)

    def counts_as_settled(self, request, kind):
        """A settle's count does, and that of a granted reserve whose transaction a retire alone
        closed."""
        if kind == 0x81:
            transaction = self.transaction(request)
            return self.is_retired(transaction) and not self.is_ended(transaction)
        return kind == 0x83

    def settled(self, login, day):
        return sum(
            r["count"]
            for r, kind, _ in self.entries
            if kind in (0x81, 0x83)
            and r["login"] == login
            and self.day(r["at"]) == day
            and self.counts_as_settled(r, kind)
        )

    def reserved(self, login, day):
        return sum(
            r["count"]
            for r, kind, _ in self.entries
            if kind == 0x81
            and r["login"] == login
            and self.day(r["at"]) == day
            and not self.closed(self.transaction(r))
        )

    def used(self, login, day):
        return self.settled(login, day) + self.reserved(login, day)

    def cap(self, login, day):
        limits = [
            r
            for r, kind, _ in self.entries
            if kind == 0x85 and r["login"] == login and r["from_day"] <= day
        ]
        if not limits:
            return self.default
        latest = max(r["from_day"] for r in limits)
        return [r["cap"] for r in limits if r["from_day"] == latest][-1]

    def answer(self, r):
        """The kind and the fields after the id of the answer to a numbered request."""
        if r["kind"] == RETIRE:
            return 0x8F, b""
        if r["kind"] == 4:
            days = {self.day(e["at"]) for e, _, _ in self.entries if e["kind"] <= 3}
            for day in sorted(days):
                used = self.used(r["login"], day)
                if day >= r["from_day"] and used > r["cap"]:
                    return 0x86, number(day) + number(used)
            return 0x85, b""
        transaction = self.transaction(r)
        entries = self.of(transaction)
        if entries and (entries[0][0]["login"], entries[0][0]["at"]) != (r["login"], r["at"]):
            return 0x88, b""
        if self.closed(transaction):
            return 0x87, b""
        held = self.held(transaction)
        if r["kind"] == 1:
            day = self.day(r["at"])
            used, cap = self.used(r["login"], day), self.cap(r["login"], day)
            if used + r["count"] > cap:
                return 0x82, number(used) + number(cap)
            return 0x81, number(used + r["count"])
        if r["kind"] == 2:
            if r["count"] > held:
                return 0x89, number(held)
            return 0x83, number(r["count"])
        return 0x84, number(held)

    def row(self, login, day):
        return (
            number(self.settled(login, day))
            + number(self.reserved(login, day))
            + number(self.cap(login, day))
        )

    def naming_day(self, transaction):
        """The day of a transaction's first entry."""
        return self.day(self.of(transaction)[0][0]["at"])

    def remembered(self, day):
        """The entries that are remembered from this day on, in their order."""
        return [
            (r, kind, reply)
            for r, kind, reply in self.entries
            if r["kind"] == RETIRE
            or (r["kind"] == 4 and (kind == 0x85 or r["from_day"] >= day))
            or (r["kind"] <= 3 and self.naming_day(self.transaction(r)) >= day)
        ]

    def apply(self, r):
        """The body of the reply."""
        if r["kind"] == 5:
            return b"\x8b" + text(r["login"]) + number(r["day"]) + self.row(r["login"], r["day"])
        if r["kind"] == 6:
            logins = {
                e["login"]
                for e, kind, _ in self.entries
                if kind == 0x81 and self.day(e["at"]) == r["day"] and e["login"] > r["after"]
            }
            page = sorted(logins)[:100]
            rows = b"".join(text(login) + self.row(login, r["day"]) for login in page)
            return b"\x8c" + number(r["day"]) + bytes([len(page)]) + rows
        if self.is_retired(r["id"]):
            return b"\x90" + id_bytes(r["id"])
        for stored, _, reply in self.entries:
            if stored["id"] == r["id"]:
                return reply if stored == r else b"\x8a" + id_bytes(r["id"])
        kind, fields = self.answer(r)
        reply = bytes([kind]) + id_bytes(r["id"]) + fields
        self.entries.append((r, kind, reply))
        return reply


def frame(body):
    return len(body).to_bytes(2, "big") + body


def serve(stream, ledger):
    """What is written for a connection's bytes, and how it ends (None: in order)."""
    written = b""
    answered = 0
    place = 0
    while True:
        if answered == 10_000:
            return written, "enough"
        rest = stream[place:]
        if not rest:
            return written, None
        if len(rest) < 2:
            return written, "cut frame"
        length = int.from_bytes(rest[:2], "big")
        if length == 0 or length > 512:
            return written + frame(b"\x8e"), "bad frame"
        if len(rest) < 2 + length:
            return written, "cut frame"
        try:
            request = decode(rest[2 : 2 + length])
        except NotInGrammar:
            return written + frame(b"\x8e"), "bad frame"
        written += frame(ledger.apply(request))
        answered += 1
        place += 2 + length


def replay(connections, zone, default):
    """Standard output, standard error and status for connections, each a byte string."""
    ledger = Ledger(zone, default)
    output, first = [], None
    for place, stream in enumerate(connections, 1):
        written, end = serve(stream, ledger)
        output.append(written.hex() + "\n")
        if end and first is None:
            first = f"mailquota: connection {place}: {end}\n"
    return "".join(output), first or "", 1 if first else 0
