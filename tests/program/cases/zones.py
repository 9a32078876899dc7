"""Days by a zone rule: replayed over a list and over tables, served over a file that is opened
again, and refused.

What is expected is what the C library says of the rule, given to it as TZ, and where a rule changes
at the end of a year what docs/LEDGER.md says.
"""
import random
import sqlite3

import zones
from books import Books
from cases.audits import edited
from cases.rules import CENTRAL_EUROPE, NO_RULES, RULES
from ends import IS_THERE, Server, fault, ledger_settings, refusal, wrong_tables
from random_inputs import differs
from rows import same_rows
from wire import granted, page, page_reply, reserve, row

# moments and their days: a winter's and a summer's midnight, and a day of 23 hours
WORKED_DAYS = [
    (1_576_105_199, 18_241),
    (1_576_105_200, 18_242),
    (1_593_554_399, 18_443),
    (1_593_554_400, 18_444),
    (1_585_436_399, 18_349),
    (1_585_436_400, 18_350),
    (1_585_519_199, 18_350),
    (1_585_519_200, 18_351),
]
BAD_RULE = (2, b"", "mailquota: bad rule\n")
ANOTHER_ZONE, NOT_OURS = "store has another zone", "store is not this ledger"
# as the log names what a ledger was made with
BY_RULE = f"rule {CENTRAL_EUROPE}"
SEEDS = {"list": 60, "tables": 60, "file": 15}
RULES_TRIED = 60
RULES_OF_ENDS = 40


def run(world, checks):
    worked_days(world, checks)
    bad_rules(world, checks)
    a_day_of_23_hours(world, checks)
    a_file(world, checks)
    refused(world, checks)
    tables_of_other_versions(world, checks)
    random_rules(world, checks)
    rules_of_ends(world, checks)
    random_ledgers(world, checks)


def asked_and_answered(rule, moments):
    """A reserve at each moment, then the list of each day about them, and what a ledger by this
    rule answers."""
    days = sorted(
        {
            min(max(zones.day_of(rule, at) + step, 0), zones.LAST_DAY)
            for at in moments
            for step in (-1, 0, 1)
        }
    )
    asked = b"".join(
        reserve(n, txn=n, login=b"u%d" % n, at=at) for n, at in enumerate(moments, 1)
    ) + b"".join(page(day=day) for day in days)
    return asked, Books(rule).serve(asked)


def replayed(world, checks, what, rule, moments):
    asked, wanted = asked_and_answered(rule, moments)
    for words in ([], ["--sql"]):
        came = world.run(
            "replay", "--default", "3", "--rule", rule, *words, text=asked.hex().encode()
        )
        checks.equal(" ".join([what, *words]), came, (0, f"{wanted.hex()}\n".encode(), ""))


def worked_days(world, checks):
    for at, day in WORKED_DAYS:
        wanted = granted(1, 1) + page_reply([row(b"u", 0, 1, 3)], day=day)
        for words in ([], ["--sql"]):
            came = world.run(
                "replay",
                "--default",
                "3",
                "--rule",
                CENTRAL_EUROPE,
                *words,
                text=(reserve(1, at=at) + page(day=day)).hex().encode(),
            )
            checks.equal(
                " ".join([f"{CENTRAL_EUROPE}: {at} is on day {day}", *words]),
                came,
                (0, f"{wanted.hex()}\n".encode(), ""),
            )


def bad_rules(world, checks):
    for text in NO_RULES:
        checks.equal(
            f"replay --rule '{text}'", world.run("replay", f"--rule={text}", text=b"0g"), BAD_RULE
        )
    for words in (
        ["--east", "60"],
        ["--west", "1"],
        ["--east", "5", "--west", "5"],
        ["--sql", "--west=1439"],
    ):
        came = world.run("replay", "--rule", CENTRAL_EUROPE, *words, text=b"0g")
        checks.equal(f"replay --rule and {' '.join(words)}", came, BAD_RULE)
    came = world.run("replay", "--rule", CENTRAL_EUROPE, "--east", "0", "--west", "0", text=b"")
    checks.equal("replay --rule and --east 0 --west 0", came, (0, b"", ""))
    for rule in RULES:
        replayed(
            world,
            checks,
            f"replay --rule {rule}",
            rule,
            [86_400, 951_782_400, 1_795_674_158, 32_503_680_000],
        )


def a_day_of_23_hours(world, checks):
    with Server(world, offset=None, rule=CENTRAL_EUROPE) as server:
        asked = b"".join(
            reserve(n, txn=n, at=at)
            for n, at in enumerate([1_585_436_399, 1_585_436_400, 1_585_519_199, 1_585_519_200], 1)
        )
        asked += b"".join(page(day=day) for day in (18_349, 18_350, 18_351))
        wanted = granted(1, 1) + granted(2, 1) + granted(3, 2) + granted(4, 1)
        wanted += b"".join(
            page_reply([row(b"u", 0, used, 3)], day=day)
            for day, used in [(18_349, 1), (18_350, 2), (18_351, 1)]
        )
        checks.equal("a server by a rule: a day of 23 hours is one day", server.ask(asked), wanted)


def a_file(world, checks):
    """A ledger by a rule is made, opened again after a kill, and audited; its rows say the rule."""
    path, books = f"{world.folder}/by-rule", Books(CENTRAL_EUROPE)
    first = b"".join(
        reserve(n, txn=n, login=b"v", at=at) for n, (at, _) in enumerate(WORKED_DAYS[:4], 1)
    )
    second = b"".join(
        reserve(n, txn=n, login=b"v", at=at) for n, (at, _) in enumerate(WORKED_DAYS[4:], 5)
    )
    for what, words, asked in [("made", ["--create"], first), ("opened again", [], first + second)]:
        with Server(world, words=words, store=path, offset=None, rule=CENTRAL_EUROPE) as server:
            checks.equal(f"a file by a rule, {what}", server.ask(asked), books.serve(asked))
            server.process.kill()
            server.status()
    same_rows(checks, "a file by a rule", path, books)
    with sqlite3.connect(path) as database:
        checks.equal(
            "a file by a rule: its version",
            database.execute("SELECT version FROM setting").fetchall(),
            [(3,)],
        )
    database.close()
    came = world.run(
        "audit", "--config", ledger_settings(world, path, offset=None, rule=CENTRAL_EUROPE)
    )
    checks.equal("a file by a rule: audit", came, (0, b"sound days=7 transactions=8\n", ""))


def made(world, name, **zone):
    """A file with a ledger of one request, of a server that has ended."""
    path = f"{world.folder}/{name}"
    with Server(world, words=["--create"], store=path, **zone) as server:
        server.ask(reserve(1))
    return path


def by_both(world, checks, what, path, wanted, cause, *words, **settings):
    """Both refuse the file with this text, after the line of the log that says why."""
    file, wanted = ledger_settings(world, path, **settings), fault(wanted, log=refusal(path, cause))
    checks.equal(f"{what}: a server", world.run("server", "--config", file, *words), wanted)
    if not words:
        checks.equal(f"{what}: audit", world.run("audit", "--config", file), wanted)


def refused(world, checks):
    by_rule = {"offset": None, "rule": CENTRAL_EUROPE}
    rule, offset = made(world, "zone-rule", **by_rule), made(world, "zone-offset", offset=60)
    for what, path, settings, wanted, its, asked in [
        ("a rule, opened with offset 60", rule, {"offset": 60}, ANOTHER_ZONE, BY_RULE, "offset 60"),
        ("a rule, opened with offset 0", rule, {"offset": 0}, ANOTHER_ZONE, BY_RULE, "offset 0"),
        (
            "a rule, opened with a part of it",
            rule,
            {"offset": None, "rule": "CET-1CEST,M3.5.0,M10.5.0"},
            ANOTHER_ZONE,
            BY_RULE,
            "rule CET-1CEST,M3.5.0,M10.5.0",
        ),
        (
            "a rule, opened with another of the same days",
            rule,
            {"offset": None, "rule": "MEZ-1MESZ,M3.5.0,M10.5.0/3"},
            ANOTHER_ZONE,
            BY_RULE,
            "rule MEZ-1MESZ,M3.5.0,M10.5.0/3",
        ),
        (
            "an offset, opened with the rule CET-1",
            offset,
            {"offset": None, "rule": "CET-1"},
            ANOTHER_ZONE,
            "offset 60",
            "rule CET-1",
        ),
        (
            "a rule, opened with another default",
            rule,
            {**by_rule, "default": 4},
            "store has another default",
            "default 3",
            "default 4",
        ),
        (
            "a rule, opened with another zone and default",
            rule,
            {"offset": 60, "default": 4},
            ANOTHER_ZONE,
            BY_RULE,
            "offset 60",
        ),
    ]:
        by_both(
            world,
            checks,
            what,
            path,
            wanted,
            f"made with {its}, the settings have {asked}",
            **settings,
        )
    by_both(
        world, checks, "a rule, made once more", rule, NOT_OURS, IS_THERE, "--create", **by_rule
    )
    by_both(
        world, checks, "a rule, made once more with an offset", rule, NOT_OURS, IS_THERE, "--create"
    )


def tables_of_other_versions(world, checks):
    by_rule = {"offset": None, "rule": CENTRAL_EUROPE}
    rule = f"{world.folder}/zone-rule"
    table = "CREATE TABLE rule (id INTEGER PRIMARY KEY, bytes BLOB NOT NULL) STRICT"
    alone = edited(world, world.new_file(""), "zone-alone", table)
    for zone in ({}, by_rule):
        by_both(
            world,
            checks,
            f"a table of the name rule alone, {'a rule' if zone else 'an offset'}",
            alone,
            NOT_OURS,
            IS_THERE,
            "--create",
            **zone,
        )
    for place, (what, statement, wanted, cause) in enumerate(
        [
            (
                "a version that there isn't",
                "UPDATE setting SET version = 9",
                NOT_OURS,
                "tables of version 9, this program knows 1 to 3",
            ),
            # (then it is by an offset, and the row of settings has none)
            (
                "no row of the rule",
                "DELETE FROM rule",
                ANOTHER_ZONE,
                f"made with offset 0, the settings have {BY_RULE}",
            ),
            (
                "a rule of another number",
                "UPDATE rule SET id = 2",
                ANOTHER_ZONE,
                f"made with offset 0, the settings have {BY_RULE}",
            ),
            (
                "no table of the rule",
                "DROP TABLE rule",
                NOT_OURS,
                wrong_tables(3),
            ),
        ]
    ):
        by_both(
            world,
            checks,
            f"a ledger by a rule, {what}",
            edited(world, rule, f"zone-other{place}", statement),
            wanted,
            cause,
            **by_rule,
        )
    other = edited(world, rule, "zone-other-rule", "UPDATE rule SET bytes = x'55544330'")
    by_both(
        world,
        checks,
        "a ledger by a rule, another rule in its row",
        other,
        ANOTHER_ZONE,
        f"made with rule UTC0, the settings have {BY_RULE}",
        **by_rule,
    )


def random_rules(world, checks):
    """Days on both sides of each change and of midnights, of rules of every kind."""
    moments = 0
    for seed in range(RULES_TRIED):
        dice = zones.dice_of(seed)
        rule = zones.random_rule(dice)
        found = zones.moments_of(dice, rule)
        moments += len(found)
        replayed(world, checks, f"rule {seed}, {rule}, {len(found)} moments", rule, found)
    print(f"    {RULES_TRIED} rules, {moments} moments, each over a list and tables", flush=True)


def rules_of_ends(world, checks):
    """The same of rules that change in the first and the last days of a year, and of changes that
    would leave it."""
    differing, moments = [], 0
    for seed in range(RULES_TRIED):
        dice = zones.dice_of(seed)
        rule = zones.random_rule(dice)
        differing += [
            (rule, at)
            for at in zones.moments_of(dice, rule)
            if zones.ahead(rule, at) != zones.ahead(zones.YearByYear(rule), at)
        ]
    checks.equal(
        f"{RULES_TRIED} rules of other days: where the C library and the reader of years differ",
        differing,
        [],
    )
    for seed in range(RULES_OF_ENDS):
        dice = random.Random(f"ends {seed}")
        rule = zones.random_rule_of_ends(dice)
        found = zones.moments_of(dice, rule)
        moments += len(found)
        replayed(world, checks, f"rule of ends {seed}, {rule}, {len(found)} moments", rule, found)
    print(
        f"    {RULES_OF_ENDS} rules of ends, {moments} moments, each over a list and tables",
        flush=True,
    )


def random_ledgers(world, checks):
    for way, many in SEEDS.items():
        found = [differs(world, way, seed) for seed in range(1, many + 1)]
        checks.equal(
            f"{many} random inputs by offsets and rules over {way}: those that differ",
            [it for it in found if it],
            [],
        )
