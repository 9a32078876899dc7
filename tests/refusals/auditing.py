"""A file that a server left, opened and audited: the file's answer or `out of memory`, and nothing
in it is changed."""
import contextlib
import functools
import os
import sqlite3

from ends import apart, copied
from replaying import TWO_AND_A_SETTLE
from serving import served, settings
from storing import BY_RULE, SOUND
from sums import renew
from sweeping import CUT, OUT_OF_MEMORY, RETRY, RIGHT, Command, Run, sweep
from wire import RETRY as RETRY_FRAME
from wire import frame, number, text, usage

FILES = ("ledger", "ledger-wal")
# login u on day 1 after the two reserves and the settle
SETTLED_ONE = frame(b"\x8b" + text(b"u") + b"".join(map(number, (1, 1, 0, 3))))


def run(refusals, checks):
    names = ("made", "wrong", "empty", "by-rule")
    made, wrong, empty, by_rule = (f"{refusals.folder}/{name}" for name in names)
    for folder in (made, wrong, empty, by_rule):
        os.mkdir(folder)
    served(refusals, made, TWO_AND_A_SETTLE, ["--create"])
    served(refusals, by_rule, TWO_AND_A_SETTLE, ["--create"], **BY_RULE)
    make_wrong(made, wrong)
    open(f"{empty}/ledger", "wb").close()
    name = "a store taken apart and opened"
    sweep(refusals, checks, f"{name}, audit", audited(refusals, made, SOUND), is_example=True)
    sweep(refusals, checks, f"{name}, server", opened(refusals, made))
    sweep(
        refusals, checks, f"{name}, server by a rule", opened(refusals, by_rule, **BY_RULE), every=9
    )
    # up to its end an audit with another answer allocates as the first one does
    sweep(
        refusals,
        checks,
        f"{name}, audit by a rule",
        audited(refusals, by_rule, SOUND, **BY_RULE),
        every=9,
    )
    for what, source, more, why, is_example in [
        ("another offset", made, {"offset": 60}, "store has another zone", True),
        ("another default", made, {"default": 4}, "store has another default", True),
        ("wrong books", wrong, {}, "store is damaged: login u day 1", True),
        ("an empty file", empty, {}, "store is not this ledger", True),
        ("a rule, opened with an offset", by_rule, {}, "store has another zone", False),
        ("an offset, opened with a rule", made, BY_RULE, "store has another zone", False),
    ]:
        one = audited(refusals, source, refused(why), **more)
        sweep(refusals, checks, f"{name}, audit, {what}", one, every=9, is_example=is_example)
    sweep(
        refusals,
        checks,
        f"{name}, server --create",
        made_again(refusals, made),
        every=9,
        is_example=True,
    )


def refused(why):
    return 1, b"", f"mailquota: {why}\n"


def make_wrong(source, folder):
    copied(f"{source}/ledger", f"{folder}/ledger")
    with contextlib.closing(sqlite3.connect(f"{folder}/ledger")) as database:
        database.execute("UPDATE usage SET reserved = 9")
        database.commit()
    renew(f"{folder}/ledger")


def content_of(folder):
    """The bytes of the ledger's file and of its log, none where there is no log."""
    found = []
    for name in FILES:
        try:
            with open(f"{folder}/{name}", "rb") as file:
                found.append(file.read())
        except FileNotFoundError:
            found.append(b"")
    return found


@functools.cache
def content_of_source(folder):
    """The same of a folder in which nothing changes."""
    return content_of(folder)


def change(folder, source):
    """What is wrong with the copied file now, if anything: its bytes are as they were, or at least
    its rows.

    A file without a log gets one, and an empty one becomes a database without tables.
    """
    before, after = content_of_source(source), content_of(folder)
    if after == before or rows_of(folder, after) == rows_of(folder, before):
        return None
    return f"the rows changed, sizes {[len(part) for part in before + after]}"


def rows_of(folder, content):
    """All that a database of these bytes of file and log holds."""
    for name, part in zip(FILES, content):
        with open(f"{folder}/read-{name}", "wb") as file:
            file.write(part)
    with contextlib.closing(sqlite3.connect(f"{folder}/read-ledger")) as database:
        tables = [
            name
            for (name,) in database.execute(
                "SELECT name FROM sqlite_master WHERE type = 'table' ORDER BY name"
            )
        ]
        return [(table, database.execute(f"SELECT * FROM {table}").fetchall()) for table in tables]


def audited(refusals, source, wanted, **more):
    """Runs of `audit` over copies of this file, which answers this with all memory."""

    def begin(folder):
        copied(f"{source}/ledger", f"{folder}/ledger")
        return ["audit", "--config", settings(refusals, folder, **more)]

    def judge(status, output, errors, told, folder):
        came = status, output, apart(errors)[1]
        ending = (
            RIGHT
            if came == wanted
            else OUT_OF_MEMORY
            if came == refused("out of memory")
            else "fault"
        )
        return Run(
            ending, told, f"{came}, {errors!r}" if ending == "fault" else change(folder, source)
        )

    return Command(refusals, begin, judge)


def opened(refusals, source, **zone):
    """Servers over copies of the file, asked for what is used, which writes no row."""

    def one(number, folder):
        copied(f"{source}/ledger", f"{folder}/ledger")
        came = served(refusals, folder, [usage()], number=number, **zone)
        ending = ending_of(came)
        return Run(ending or "fault", came.told, change(folder, source) if ending else str(came))

    return one


def ending_of(came):
    """How a server over the file ended, or None where it may not end so."""
    if came.could_not_start():
        return OUT_OF_MEMORY
    if not came.went_on():
        return None
    if came.replies == [SETTLED_ONE] and not came.log and came.told.listened == 1:
        return RIGHT
    if came.replies == [RETRY_FRAME] and not came.log:
        return RETRY
    return (
        CUT
        if not came.replies and len(came.log) == 1 and came.log[0].startswith("[WARN ")
        else None
    )


def made_again(refusals, source):
    """`--create` over copies of a file that has a ledger, which is seen before anybody could
    connect."""

    def begin(folder):
        copied(f"{source}/ledger", f"{folder}/ledger")
        config = settings(refusals, folder, refusals.port())
        return ["server", "--config", config, "--connections", "1", "--create"]

    def judge(status, output, errors, told, folder):
        came = status, output, apart(errors)[1]
        good = came == refused("store is not this ledger") and not told.listened
        ending = RIGHT if good else OUT_OF_MEMORY if came == refused("out of memory") else "fault"
        return Run(
            ending,
            told,
            f"{came}, {errors!r}, {told}" if ending == "fault" else change(folder, source),
        )

    return Command(refusals, begin, judge)
