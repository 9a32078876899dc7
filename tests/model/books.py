"""The quota ledger as tables: each request changes a few sums, so that 100,000 of them take a
second or two.

It is written from docs/LEDGER.md and docs/STORE.md, and `oracles` of tests/program holds it against
the ledger of ledger.py, which reads every number off the whole list.
"""
from ledger import NotInGrammar, decode, frame, id_bytes, number, text
from zones import day_of, minutes_in

RESERVE, SETTLE, RELEASE, LIMIT, USAGE, LIST, RETIRE = range(1, 8)
ROWS_OF_A_PAGE = 100
LONGEST_REQUEST = 512
MOST_FRAMES = 10_000


class Books:
    def __init__(self, zone=0, default=3):
        self.zone = zone
        self.default = default
        # each with its request as it is read, and as it came
        self.answers = []
        self.places = {}
        # login, moment, day, held, settled, closed
        self.transactions = {}
        # settled and reserved
        self.usage = {}
        self.limits = {}
        # the least run of a host that isn't retired, where one is
        self.floors = {}

    def day(self, at):
        return day_of(self.zone, at)

    def used(self, login, day):
        return sum(self.usage.get((login, day), (0, 0)))

    def cap(self, login, day):
        """That of the latest limit up to this day."""
        return max(
            ((start, cap) for start, cap in self.limits.get(login, {}).items() if start <= day),
            default=(0, self.default),
        )[1]

    def apply(self, body):
        """The body of the reply to this one, which spells a request."""
        request = decode(body)
        if request["kind"] == USAGE:
            return (
                b"\x8b"
                + text(request["login"])
                + number(request["day"])
                + self.row(request["login"], request["day"])
            )
        if request["kind"] == LIST:
            return self.page(request["day"], request["after"])
        if self.is_retired(request["id"]):
            return b"\x90" + id_bytes(request["id"])
        place = self.places.get(request["id"])
        if place is not None:
            _, known, reply = self.answers[place]
            return reply if known == body else b"\x8a" + id_bytes(request["id"])
        kind, fields = self.answer(request)
        reply = bytes([kind]) + id_bytes(request["id"]) + b"".join(map(number, fields))
        self.places[request["id"]] = len(self.answers)
        self.answers.append((request["id"], body, reply))
        return reply

    def answer(self, request):
        """The kind and the fields after the id."""
        if request["kind"] == RETIRE:
            return self.retire(request)
        return self.limit(request) if request["kind"] == LIMIT else self.recipients(request)

    def is_retired(self, name):
        """Whether the run of a number or of a transaction is below its host's floor."""
        return name[1] < self.floors.get(name[0], 0)

    def retire(self, request):
        """What the open transactions of the runs that are given up hold is settled."""
        host, run, _ = request["id"]
        self.floors[host] = run
        for name, state in self.transactions.items():
            if self.is_retired(name) and not state[5]:
                held = state[3]
                if held:
                    self.add((state[0], state[2]), held, -held)
                state[3:] = [0, held, 1]
        return 0x8F, []

    def limit(self, request):
        login, start, cap = request["login"], request["from_day"], request["cap"]
        over = [
            day
            for of, day in self.usage
            if of == login and day >= start and self.used(login, day) > cap
        ]
        if over:
            return 0x86, [min(over), self.used(login, min(over))]
        self.limits.setdefault(login, {})[start] = cap
        return 0x85, []

    def recipients(self, request):
        """The answer to a reserve, a settle or a release."""
        host, run, _ = request["id"]
        login, at = request["login"], request["at"]
        state = self.transactions.setdefault(
            (host, run, request["txn"]), [login, at, self.day(at), 0, 0, 0]
        )
        if (login, at) != (state[0], state[1]):
            return 0x88, []
        if state[5]:
            return 0x87, []
        key, held = (login, state[2]), state[3]
        if request["kind"] == RESERVE:
            used, cap = self.used(*key), self.cap(*key)
            if used + request["count"] > cap:
                return 0x82, [used, cap]
            self.add(key, 0, request["count"])
            state[3] += request["count"]
            return 0x81, [used + request["count"]]
        if request["kind"] == SETTLE and request["count"] > held:
            return 0x89, [held]
        settled = request["count"] if request["kind"] == SETTLE else 0
        if key in self.usage:
            self.add(key, settled, -held)
        state[3:] = [0, settled, 1]
        return (0x83, [settled]) if request["kind"] == SETTLE else (0x84, [held])

    def add(self, key, settled, reserved):
        before = self.usage.get(key, (0, 0))
        self.usage[key] = (before[0] + settled, before[1] + reserved)

    def row(self, login, day):
        return b"".join(map(number, [*self.usage.get((login, day), (0, 0)), self.cap(login, day)]))

    def page(self, day, after):
        later = sorted(login for login, of in self.usage if of == day and login > after)
        logins = later[:ROWS_OF_A_PAGE]
        rows = b"".join(text(login) + self.row(login, day) for login in logins)
        return b"\x8c" + number(day) + bytes([len(logins)]) + rows

    def stays(self, body, reply, day):
        """Whether this entry is remembered from this day on."""
        request = decode(body)
        if request["kind"] == RETIRE:
            return True
        if request["kind"] == LIMIT:
            return reply[0] == 0x85 or request["from_day"] >= day
        host, run, _ = request["id"]
        return self.transactions[host, run, request["txn"]][2] >= day

    def remembered(self, day):
        """New books that took the requests of the entries which are remembered from this day on."""
        again = Books(self.zone, self.default)
        for _, body, reply in self.answers:
            if self.stays(body, reply, day):
                again.apply(body)
        return again

    def serve(self, stream):
        """What is written on a connection for these bytes."""
        written, place, answered = [], 0, 0
        while answered < MOST_FRAMES and len(stream) >= place + 2:
            length = int.from_bytes(stream[place : place + 2], "big")
            body = stream[place + 2 : place + 2 + length]
            if not 0 < length <= LONGEST_REQUEST:
                return b"".join([*written, frame(b"\x8e")])
            if len(body) < length:
                break
            try:
                written.append(frame(self.apply(body)))
            except NotInGrammar:
                return b"".join([*written, frame(b"\x8e")])
            place, answered = place + 2 + length, answered + 1
        return b"".join(written)

    def rows(self):
        """The rows of the tables, each table's in order, without the version."""
        return {
            "setting": [(1, minutes_in(self.zone), self.default, len(self.answers))],
            # the replies of retired runs are given up
            "answer": [
                (n, *number_of, body, b"" if self.is_retired(number_of) else reply)
                for n, (number_of, body, reply) in enumerate(self.answers, 1)
            ],
            "trans": sorted((*name, *state) for name, state in self.transactions.items()),
            "usage": sorted((*key, *sums) for key, sums in self.usage.items()),
            "ceiling": sorted(
                (login, start, cap)
                for login, caps in self.limits.items()
                for start, cap in caps.items()
            ),
            "rule": [] if isinstance(self.zone, int) else [(1, self.zone.encode())],
            "retired": sorted(self.floors.items()),
        }
