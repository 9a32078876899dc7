"""The days of a zone: minutes east of UTC, or the text of a zone rule, which the C library reads as
the value of TZ.

The program reads rules by a library of its own, so that the two share nothing. Of a change that
leaves its year the two think otherwise: there the days are those of docs/LEDGER.md, told by a third
reader, `YearByYear`.
"""
import calendar
import os
import random
import re
import time

LAST_DAY = 376_200
SECONDS = 86_400
NANOS = 1_000_000_000


def day_of(zone, at):
    """The number of the civil date that a clock in this zone shows."""
    if isinstance(zone, int):
        return (at + 60 * zone) // SECONDS
    if isinstance(zone, YearByYear):
        return limited((at + zone.ahead(at)) // SECONDS)
    set_rule(zone)
    return limited(calendar.timegm(time.localtime(at)) // SECONDS)


def limited(day):
    return min(max(day, 0), LAST_DAY)


def ahead(rule, at):
    """How many seconds a clock by this rule is ahead of UTC."""
    if isinstance(rule, YearByYear):
        return rule.ahead(at)
    set_rule(rule)
    return time.localtime(at).tm_gmtoff


def set_rule(rule):
    if os.environ.get("TZ") != rule:
        os.environ["TZ"] = rule
        time.tzset()


def minutes_in(zone):
    """What the row of settings keeps."""
    return zone if isinstance(zone, int) else 0


def random_rule(dice):
    """A zone rule: north and south, with and without summer time, each kind of day, offsets to 24
    hours and times beyond a day."""
    standard = dice.choice(
        [
            0,
            0,
            3_600,
            -3_600,
            19_800,
            -34_200,
            45_900,
            -43_200,
            86_340,
            86_400,
            -86_400,
            dice.randrange(-86_400, 86_401),
        ]
    )
    if dice.random() < 0.15:
        return name(dice) + shown(-standard)
    saved = dice.choice([3_600, 3_600, 3_600, 1_800, 7_200, -3_600, dice.randrange(-7_200, 7_201)])
    summer = (
        ""
        if saved == 3_600 and dice.random() < 0.7
        else shown(-max(-86_400, min(86_400, standard + saved)))
    )
    if not summer and standard + 3_600 > 86_400:
        summer = shown(-86_400)
    first, last = sorted(dice.sample(range(2, 12), 2))
    begins, ends = (first, last) if dice.random() < 0.5 else (last, first)
    return (
        name(dice)
        + shown(-standard)
        + name(dice)
        + summer
        + f",{change(dice, begins)},{change(dice, ends)}"
    )


def name(dice):
    if dice.random() < 0.4:
        return f"<{dice.choice('+-')}{dice.randrange(100):02}>"
    return "".join(dice.choice("ABCXYZ") for _ in range(3))


def shown(seconds):
    """A time of hours, minutes and seconds, as short as it may be or whole."""
    sign, rest = ("-", -seconds) if seconds < 0 else ("", seconds)
    hours, minutes, rest = rest // 3_600, rest // 60 % 60, rest % 60
    if rest:
        return f"{sign}{hours}:{minutes:02}:{rest:02}"
    return f"{sign}{hours}:{minutes:02}" if minutes else f"{sign}{hours}"


def change(dice, month):
    """A change in that month, far enough from the year's ends that no time of day leaves the
    year."""
    day_of_year = 30 * (month - 1) + dice.randrange(30)
    day = dice.choice(
        [
            f"M{month}.{dice.randint(1, 5)}.{dice.randrange(7)}",
            f"J{day_of_year + 1}",
            str(day_of_year),
        ]
    )
    at = dice.choice(
        [
            None,
            None,
            0,
            3_600,
            10_800,
            86_400,
            -3_600,
            90_000,
            167 * 3_600,
            -167 * 3_600,
            dice.randrange(-200_000, 200_001),
        ]
    )
    return day if at is None else f"{day}/{shown(at)}"


class YearByYear(str):
    """A rule by which each year of UTC has two changes of its own, and one that would leave the
    year is at its edge.

    The C library lets a change leave its year, and forgets it there, since it looks at one year's
    changes alone.
    """

    RULE = re.compile(
        r"(?:<[^>]+>|[A-Za-z]+)([-\d:]+)(?:(?:<[^>]+>|[A-Za-z]+)([-\d:]*),([^,]+),([^,]+))?"
    )
    CHANGE = re.compile(r"(M|J|)(\d+)(?:\.(\d)\.(\d))?(?:/(.+))?")

    def __new__(cls, text):
        rule = super().__new__(cls, text)
        standard, summer, *changes = cls.RULE.fullmatch(text).groups()
        rule.standard = -seconds_of(standard)
        rule.summer = -seconds_of(summer) if summer else rule.standard + 3_600
        rule.changes = [cls.CHANGE.fullmatch(it).groups() for it in changes if it]
        return rule

    def ahead(self, at):
        return self.summer if self.changes and self.is_summer(at) else self.standard

    def is_summer(self, at):
        """Whether summer time is in force, by the nanosecond, since the last one of a year is where
        a change stays that would leave it."""
        year, at = time.gmtime(at).tm_year, at * NANOS
        first, last = first_day(year) * SECONDS * NANOS, first_day(year + 1) * SECONDS * NANOS - 1
        begins, ends = (
            self.nanosecond(year, first, last, *it)
            for it in zip(self.changes, (self.standard, self.summer))
        )
        if begins == first and not first <= ends + self.standard * NANOS <= last:
            ends = last
        return begins <= at < ends if begins <= ends else not ends <= at < begins

    @staticmethod
    def nanosecond(year, first, last, change, ahead):
        """When a change falls in the year, on a clock that is so many seconds ahead before it."""
        kind, number, week, weekday, hour = change
        day = day_in(year, kind, int(number), int(week or 0), int(weekday or 0))
        if day is None:
            return last
        return min(max((day * SECONDS + seconds_of(hour or "2") - ahead) * NANOS, first), last)


def first_day(year):
    return calendar.timegm((year, 1, 1, 0, 0, 0)) // SECONDS


def day_in(year, kind, number, week, weekday):
    """The number of the day that a rule names so, or None where the year has none."""
    if kind == "M":
        days = [
            day
            for day in range(1, calendar.monthrange(year, number)[1] + 1)
            if (calendar.weekday(year, number, day) + 1) % 7 == weekday
        ]
        return (
            calendar.timegm((year, number, days[week - 1 if week < 5 else -1], 0, 0, 0)) // SECONDS
        )
    leap = calendar.isleap(year)
    if kind == "J":
        return first_day(year) + number - 1 + (leap and number >= 60)
    return first_day(year) + number if number < 365 + leap else None


def seconds_of(text):
    """What a time of hours, minutes and seconds says, with its sign."""
    hours, minutes, seconds = (*map(int, text.lstrip("-").split(":")), 0, 0)[:3]
    return (-1 if text.startswith("-") else 1) * (3_600 * hours + 60 * minutes + seconds)


def random_rule_of_ends(dice):
    """A rule one of whose changes, or both, are in the first or the last days of a year, or would
    be beyond them."""
    standard = dice.choice(
        [0, 3_600, -3_600, 45_900, -43_200, 86_400, -86_400, dice.randrange(-86_400, 86_401)]
    )
    summer = dice.choice(
        [
            standard + 3_600,
            standard + 3_600,
            standard - 3_600,
            standard + 7_200,
            dice.randrange(-86_400, 86_401),
        ]
    )
    changes = [
        change_at_an_end(dice),
        change_at_an_end(dice) if dice.random() < 0.5 else change(dice, dice.randrange(2, 12)),
    ]
    dice.shuffle(changes)
    return YearByYear(
        f"{name(dice)}{shown(-standard)}{name(dice)}{shown(-max(-86_400, min(86_400, summer)))},{changes[0]},{changes[1]}"
    )


def change_at_an_end(dice):
    day = dice.choice(
        [
            "J1",
            "J2",
            "J365",
            "J364",
            "0",
            "1",
            "364",
            "365",
            "M1.1.0",
            "M1.1.4",
            "M12.5.0",
            "M12.5.5",
            "M12.4.6",
        ]
    )
    at = dice.choice(
        [
            None,
            0,
            1,
            86_399,
            86_400,
            -1,
            -3_600,
            167 * 3_600,
            -167 * 3_600,
            dice.randrange(-90_000, 90_001),
        ]
    )
    return day if at is None else f"{day}/{shown(at)}"


def moments_of(dice, rule):
    """Moments on both sides of each change of a year, and of midnights about these and
    elsewhere."""
    start = calendar.timegm(
        (dice.choice([1971, 1996, 2000, 2026, 2037, 2038, 2100, 2400, 2998]), 1, 1, 0, 0, 0)
    )
    found = []
    for day in range(366):
        begin, end = start + day * SECONDS, start + (day + 1) * SECONDS
        if ahead(rule, begin) != ahead(rule, end):
            turn = last_before(lambda at: ahead(rule, at) == ahead(rule, begin), begin, end) + 1
            found += [
                turn - 1,
                turn,
                *(
                    it
                    for near in (turn - SECONDS, turn, turn + SECONDS)
                    for it in about_midnight(rule, near)
                ),
            ]
    return found + about_midnight(rule, start + dice.randrange(366 * SECONDS))


def about_midnight(rule, at):
    """The last second of the day of a moment, and the first of the next one."""
    today = day_of(rule, at)
    last = last_before(lambda it: day_of(rule, it) == today, at, at + 2 * SECONDS)
    return [last, last + 1]


def last_before(holds, low, high):
    """The last moment from low on where this holds, if it holds there and from some moment before
    high on no more."""
    while high - low > 1:
        middle = (low + high) // 2
        low, high = (middle, high) if holds(middle) else (low, middle)
    return low


def random_zone(dice):
    """Minutes or a rule, each as often."""
    return dice.choice([-1_439, -90, 0, 60, 1_439]) if dice.random() < 0.5 else random_rule(dice)


def dice_of(seed):
    return random.Random(f"zone {seed}")
