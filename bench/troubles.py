"""What happens to two servers and their hosts in a simulated year, and when: by a random order of a
seed. Each trouble is a generator, which gives for how many of smtpd's lines it rests."""
import os
import random
import time

# (by which those of tests/program are found)
import filled

TEN_YEARS = 3_652 * filled.DAY
# A server's clock that is so slow is behind all days, also those of hosts that were ten years slow.
MANY_YEARS_SLOW = -2 * TEN_YEARS
# How often each happens in a year.
EVERY_YEAR = {
    "move": 60,
    "lost reply": 24,
    "kill": 24,
    "kill at night": 24,
    "outage": 12,
    "full disk": 12,
    "host a day off": 16,
    "host ten years off": 16,
    "server's clock": 16,
    "restart": 24,
    "clone": 12,
}
AT_NIGHT = "kill at night"
# The name that a clone gets once its own is corrected.
OWN_NAME = "mx3.example.org"
# So many of smtpd's lines on, each host has had a message.
AMONG_ALL = 15
# For how many seconds of a real clock a night is waited for, to begin and to be far enough.
BEGINS, LATE = 2, 60


class Troubles:
    """Those that are due, and the one that is under way."""

    def __init__(self, site, seed, messages):
        self.site, self.address, self.messages = site, site.address, messages
        self.dice = random.Random(seed)
        self.due, self.nights = [], set()
        self.now, self.rest, self.is_evening = None, 0, False
        # the name of the one that began last
        self.last = "without trouble so far"
        # the host whose message is under way
        self.busy = None
        # Days of reserves that were ten years late, with the day on which they came, and those that
        # were ahead.
        self.old_days, self.far_days = {}, set()
        self.happened = []

    def plan(self, first, last, names):
        """Which happens when, as a share of the year, from the day `first` to `last`: on which day,
        and after which part of its messages."""
        for name in names:
            for _ in range(max(1, round(EVERY_YEAR[name] * (last + 1 - first) / 365))):
                day = self.dice.randint(first, last)
                if name == AT_NIGHT:
                    self.nights.add(day)
                else:
                    self.due.append((day + self.dice.random(), name))
        self.due.sort(reverse=True)

    def tick(self, place):
        """Between two of smtpd's lines, at this place in the year: what is under way goes on, or
        the next begins."""
        if self.rest:
            self.rest -= 1
            return
        if self.now is None and self.due and self.due[-1][0] <= place:
            self.last = self.due.pop()[1]
            self.happened.append(self.last)
            self.now = self.begun(self.last)
        if self.now is not None:
            rest = next(self.now, None)
            self.rest = rest or 0
            if rest is None:
                self.now = None

    def finish(self):
        """What is under way ends, without messages meanwhile."""
        self.is_evening = True
        while self.now is not None:
            self.address.fire()
            self.rest = 0
            self.tick(0)
        self.is_evening = False

    def begun(self, name):
        return {
            "move": self.move,
            "lost reply": self.lose_reply,
            "kill": self.kill,
            "outage": self.outage,
            "full disk": self.full_disk,
            "host a day off": lambda: self.wrong_host(filled.DAY),
            "host ten years off": lambda: self.wrong_host(TEN_YEARS),
            "server's clock": self.wrong_server,
            "restart": self.restart,
            "clone": self.clone,
        }[name]()

    def few(self):
        return self.dice.randint(1, 12)

    def some(self):
        return self.dice.randint(1, max(self.messages // 4, 20))

    def is_so(self):
        return self.dice.random() < 0.5

    def strike(self, happens):
        """This happens now; or at the next request: before it is handed over, while it is answered,
        or once it is, so that the reply is lost."""
        place = self.dice.choice([None, "before", "during", "after"])
        if place is None:
            happens()
            return
        self.address.armed = place, happens
        while self.address.armed:
            yield 0

    def move(self):
        yield from self.strike(self.address.move)

    def lose_reply(self):
        yield from self.strike(self.address.cut)

    def kill(self):
        """The server that has the address, or the one that stands by."""
        machine = self.dice.choice([self.address.holder] * 3 + [self.address.other()])
        yield from self.strike(lambda: self.site.end(machine))
        yield self.few()
        if machine is self.address.holder and self.is_so():
            self.address.move()
            yield self.some()
        self.site.start(machine)
        if machine is not self.address.holder and self.is_so():
            yield self.some()
            self.address.move()

    def kill_at_night(self, day):
        """A server whose night is under way, mostly once most of the new file is written."""
        if day not in self.nights or self.now is not None:
            return
        machine = self.one_at_night()
        size = self.dice.uniform(0.3, 0.75) * os.path.getsize(machine.path)
        end = time.monotonic() + LATE
        while time.monotonic() < end and 0 <= machine.bytes_of_night() < size:
            time.sleep(0.001)
        self.last = AT_NIGHT if machine.is_at_night() else f"{AT_NIGHT}, after it"
        self.happened.append(self.last)
        self.site.end(machine)
        self.site.start(machine)

    def one_at_night(self):
        """A server that forgets days now or soon, or else any."""
        end = time.monotonic() + BEGINS
        while time.monotonic() < end:
            if at_night := [it for it in self.site.machines if it.is_at_night()]:
                return self.dice.choice(at_night)
            time.sleep(0.001)
        return self.dice.choice(self.site.machines)

    def outage(self):
        for machine in self.site.machines:
            self.site.end(machine)
        yield self.few()
        for machine in self.dice.sample(self.site.machines, 2):
            self.site.start(machine)
            yield self.few()

    def full_disk(self):
        """Something fills the disk of the server that has the address, once or again and again,
        until that ends; it comes up only with its reserve and the margin above it."""
        machine, fills_on = self.address.holder, self.is_so()
        machine.disk.fill()
        while machine.is_up() and not self.is_evening:
            if fills_on:
                machine.disk.fill()
            yield 0
        if machine.is_up():
            self.happened.append("full disk that ends no server")
            machine.disk.make_room()
            return
        self.site.end(machine)
        yield self.few()
        for rest in (self.few(), self.some()):
            if fills_on:
                machine.disk.fill()
            if machine.start():
                # (what it gave up for that is its former ledger)
                if not machine.has_room():
                    self.site.wrong.append("a server starts on a full disk")
                self.site.end(machine)
            if machine is self.address.holder:
                self.address.move()
            yield rest
        machine.disk.make_room()
        self.site.start(machine)
        yield self.some()
        self.address.move()

    def wrong_host(self, seconds):
        """A host's clock is so much slow or fast, for what begins meanwhile."""
        host = self.dice.choice(self.site.senders)
        host.off = self.dice.choice((-seconds, seconds))
        day, is_far = host.now() // filled.DAY, seconds > filled.DAY
        if is_far and host.off > 0:
            self.far_days.add(day)
        elif is_far:
            self.old_days[day] = self.site.calendar.today()
        yield self.some()
        host.off = 0

    def wrong_server(self):
        """Somebody sets the clock of the server that has the address, and sets it right again."""
        machine = self.address.holder
        off = self.dice.choice((-filled.DAY, filled.DAY, MANY_YEARS_SLOW, TEN_YEARS))
        if off == MANY_YEARS_SLOW and machine.first_day is None:
            # (of a ledger that had no day as its server began no clock is taken for slow)
            off = TEN_YEARS
        machine.set_clock(off)
        yield self.some()
        machine.set_clock(0)

    def restart(self):
        host = self.dice.choice(self.site.senders)
        self.site.restart(host, host is self.busy or self.is_so())
        yield 0

    def clone(self):
        """A machine begins with the name of another: that one is retired, until the clone has a
        name of its own and it is restarted."""
        host = self.dice.choice(self.site.senders)
        self.site.retire(host.name)
        host.is_retired = True
        clone = self.site.new_host(host.name)
        # (so that each of them has a message meanwhile)
        yield AMONG_ALL + self.some()
        yield from self.leave(clone)
        own = self.site.host(OWN_NAME, clone.cable)
        self.site.senders.append(own)
        self.site.restart(host, host is self.busy or self.is_so())
        yield self.some()
        yield from self.leave(own)
        own.cable.close()

    def leave(self, host):
        """It ends between two messages."""
        while host is self.busy:
            yield 0
        self.site.leave(host)
