"""`forget`, `limits` and `init`: their answer or `out of memory`; the old file keeps each row, and
the new one is right, refused, or isn't there."""
import os
import subprocess

from auditing import change, content_of, refused, rows_of
from ends import apart, copied
from replaying import TWO_AND_A_SETTLE
from serving import served, settings
from sweeping import OUT_OF_MEMORY, RIGHT, SECONDS, Run, sweep
from wire import limit, reserve, retire, settle

# of the day before, which goes, and two limits, of which the second is refused; their replies are
# given up by the retire
EARLIER = [
    reserve(11, txn=2, login=b"v", count=2, run=2),
    settle(12, txn=2, login=b"v", run=2),
    limit(13, 1, 2, login=b"v", run=2),
    limit(14, 1, 0, login=b"v", run=2),
    retire(1, run=3),
]
LATER = [reserve(1, txn=3, run=4, at=172_800), settle(2, txn=3, run=4, at=172_800)]


def run(refusals, checks):
    made, retired = (f"{refusals.folder}/{name}" for name in ("to-forget", "to-forget-retired"))
    for folder, frames in ((made, TWO_AND_A_SETTLE), (retired, EARLIER + LATER)):
        os.mkdir(folder)
        served(refusals, folder, frames, ["--create"])
    sweep(
        refusals,
        checks,
        "reserve twice, settle once, forget",
        forgotten(refusals, made, 1, b"kept answers=4 of 4, limits=0\n"),
        every=5,
    )
    sweep(
        refusals,
        checks,
        "limits of a retired run, forget",
        forgotten(refusals, retired, 2, b"kept answers=4 of 7, limits=1\n"),
        every=9,
    )
    sweep(refusals, checks, "limits", limits(refusals, retired), every=9)
    sweep(refusals, checks, "init", inits(refusals), every=9)


def words_of(refusals, folder, name, *more):
    return [name, "--config", settings(refusals, folder), *more]


def plainly(refusals, *words):
    """A run with nothing refused: its status, output and what it says in addition to the log."""
    ended = subprocess.run([refusals.program, *words], capture_output=True, timeout=SECONDS)
    return ended.returncode, ended.stdout, apart(ended.stderr.decode(errors="replace"))[1]


def ending_of(came, wanted):
    return (
        RIGHT if came == wanted else OUT_OF_MEMORY if came == refused("out of memory") else "fault"
    )


def forgotten(refusals, source, day, line):
    """Runs of `forget` over copies of this file, which prints this with all memory."""

    def forget(folder, into):
        return words_of(refusals, folder, "forget", "--before", str(day), "--into", into)

    whole = f"{source}-whole"
    os.mkdir(whole)
    copied(f"{source}/ledger", f"{whole}/ledger")
    plainly(refusals, *forget(whole, f"{whole}/new"))
    put_in_place(whole)
    rows = rows_of(whole, content_of(whole))

    def one(number, folder):
        copied(f"{source}/ledger", f"{folder}/ledger")
        into = f"{folder}/new"
        status, output, errors, told = refusals.run(folder, number, *forget(folder, into))
        log, said = apart(errors)
        came = status, output, said
        ending = ending_of(came, (0, line, ""))
        wrong = (
            f"{came}, {log}"
            if ending == "fault"
            else change(folder, source) or wrong_new_file(refusals, folder, into, ending, rows, log)
        )
        return Run(ending, told, wrong)

    return one


def put_in_place(folder):
    """The new file takes the place of the old one."""
    os.replace(f"{folder}/new", f"{folder}/ledger")
    os.remove(f"{folder}/ledger-wal")
    if os.path.exists(f"{folder}/new-wal"):
        os.replace(f"{folder}/new-wal", f"{folder}/ledger-wal")


def wrong_new_file(refusals, folder, into, ending, rows, log):
    """What is wrong with the new file, if anything."""
    if not os.path.exists(into):
        return None if ending == OUT_OF_MEMORY else "there is no new file"
    if ending == OUT_OF_MEMORY and not any(
        line.endswith(f"remove {into} and {into}-wal\n") for line in log
    ):
        return f"the log doesn't say what to remove: {log}"
    put_in_place(folder)
    came = plainly(refusals, *words_of(refusals, folder, "audit"))
    if came[0] == 0:
        return (
            None if rows_of(folder, content_of(folder)) == rows else "the new file has other rows"
        )
    opened = came in (refused("store can't be opened"), refused("store is not this ledger"))
    return None if opened and ending == OUT_OF_MEMORY else f"then the audit {came}"


def limits(refusals, source):
    def one(number, folder):
        copied(f"{source}/ledger", f"{folder}/ledger")
        status, output, errors, told = refusals.run(
            folder, number, *words_of(refusals, folder, "limits")
        )
        came = status, output, apart(errors)[1]
        ending = ending_of(came, (0, b"1 2 v\n", ""))
        return Run(
            ending, told, f"{came}, {errors!r}" if ending == "fault" else change(folder, source)
        )

    return one


def inits(refusals):
    """Runs of `init`; after one that ran out of memory it can be given again, unless the ledger was
    made all the same."""

    def one(number, folder):
        words = words_of(refusals, folder, "init")
        status, output, errors, told = refusals.run(folder, number, *words)
        came, right = (status, output, apart(errors)[1]), (
            0,
            f"made {folder}/ledger\n".encode(),
            "",
        )
        ending = ending_of(came, right)
        if ending == "fault":
            return Run(ending, told, f"{came}, {errors!r}")
        again = plainly(refusals, *words)
        audit = plainly(refusals, *words_of(refusals, folder, "audit"))
        good = (
            again == refused("store is not this ledger")
            or ending == OUT_OF_MEMORY
            and again == right
        )
        return Run(
            ending,
            told,
            (
                None
                if good and audit == (0, b"sound days=0 transactions=0\n", "")
                else f"then {again} and {audit}"
            ),
        )

    return one
