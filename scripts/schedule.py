"""How long a build still takes, by what each crate took the gate (gate/minutes.txt) and by how
quick the build has been so far.
"""
import os
import time
from collections import namedtuple

# A crate that is to be built: its processor minutes with one job, how many jobs it is given, and
# the crates that it waits for.
Work = namedtuple("Work", "minutes jobs below")
# A crate is built as much quicker as it has jobs, to this power: each job does part of the work of
# the others again.
GAIN = 0.77
# So much of the whole plan counts as if it had gone as planned: what is built first is small, and
# says little.
PRIOR = 0.1


def minutes_of(path):
    """Returns the minutes that the gate took to prove each crate; none where the file isn't there."""
    if not os.path.exists(path):
        return {}
    with open(path, encoding="utf-8") as file:
        rows = [line.split() for line in file if not line.startswith("#")]
    return {row[0]: float(row[1]) for row in rows}


def speed_with(jobs):
    """Returns how much quicker a crate is built with so many jobs than with one."""
    return jobs**GAIN


def plan(works, left, lanes):
    """Returns after how many minutes each crate is begun and done of which so much is left: as soon
    as those that it waits for are done, in this order, and as many at once as there are lanes,
    which share as many processors."""
    left, now, begun, done = dict(left), 0.0, {}, {}
    while left:
        ready = [it for it in left if not any(low in left for low in works[it].below)][:lanes]
        share = min(1, lanes / sum(works[it].jobs for it in ready))
        speeds = {it: speed_with(works[it].jobs) * share for it in ready}
        step = min(left[it] / speeds[it] for it in ready)
        for it in ready:
            begun.setdefault(it, now)
            left[it] -= step * speeds[it]
            if left[it] < 1e-6:
                del left[it]
                done[it] = now + step
        now += step
    return {it: (begun[it], done[it]) for it in done}


class Schedule:
    """The crates that a build has to do, and how far it is."""

    def __init__(self, works, lanes, now=time.monotonic):
        """`works` gives each crate in the order in which they are begun, and `now` a clock's
        seconds."""
        self.works, self.lanes, self.now = works, lanes, now
        self.begun, self.took = {}, {}
        self.plan = plan(works, {it: works[it].minutes for it in works}, lanes)

    def begin(self, name):
        self.begun[name] = self.now()

    def end(self, name):
        self.took[name] = self.minutes_since_begin(name)

    def running(self):
        """Returns the crates that are begun and not done."""
        return [it for it in self.begun if it not in self.took]

    def minutes_since_begin(self, name):
        return (self.now() - self.begun[name]) / 60

    def planned(self, name):
        """Returns the minutes that the plan has for a crate."""
        begun, done = self.plan[name]
        return done - begun

    def pace(self):
        """Returns how many times as long as planned the crates took that are done."""
        prior = PRIOR * max((done for _, done in self.plan.values()), default=1)
        return (sum(self.took.values()) + prior) / (sum(map(self.planned, self.took)) + prior)

    def minutes_left(self):
        pace, left = self.pace(), {}
        for name in [*self.running(), *(it for it in self.works if it not in self.begun)]:
            share = 0
            if name in self.begun:
                share = self.minutes_since_begin(name) / (pace * self.planned(name))
            # (one that takes longer than planned has a part left all the same)
            left[name] = self.works[name].minutes * max(1 - share, 0.1)
        ends = plan(self.works, left, self.lanes).values()
        return pace * max((done for _, done in ends), default=0)

    def said(self):
        """Returns how many crates are done of how many, and how long the others take."""
        count = f"{len(self.took)} of {len(self.works)}"
        if len(self.took) == len(self.works):
            return count
        minutes = round(self.minutes_left())
        unit = "minute" if minutes == 1 else "minutes"
        return f"{count}, {f'about {minutes} {unit}' if minutes else 'less than a minute'} left"
