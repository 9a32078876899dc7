"""The server over a file that it makes: what was answered is stored, whichever allocation is
refused."""
import subprocess

import books
from replaying import RULE, TWO_AND_A_SETTLE
from serving import served, settings
from sweeping import CUT, OUT_OF_MEMORY, RETRY, RIGHT, SECONDS, Run, sweep

SOUND = (0, b"sound days=1 transactions=1\n", "")
# the zone of a ledger by a rule
BY_RULE = {"offset": None, "rule": RULE}


def run(refusals, checks):
    sweep(refusals, checks, "reserve twice, settle once, over a new file", stored(refusals))
    sweep(
        refusals,
        checks,
        "reserve twice, settle once, over a new file by a rule",
        stored(refusals, **BY_RULE),
        every=5,
    )


def stored(refusals, **zone):
    def one(number, folder):
        first = served(refusals, folder, TWO_AND_A_SETTLE, ["--create"], number, **zone)
        ending = ending_of(first)
        return Run(
            ending or "fault",
            first.told,
            again(refusals, folder, first, zone) if ending else str(first),
        )

    return one


def ending_of(first):
    """How the first server ended, or None where it may not end so."""
    if first.could_not_start():
        return OUT_OF_MEMORY if not first.log or "out of memory" in first.log[0] else None
    if not first.went_on():
        return None
    retried = books.untaken_of(first.replies, TWO_AND_A_SETTLE) is not None
    if len(first.replies) == len(TWO_AND_A_SETTLE) and not first.log:
        return RETRY if retried else RIGHT
    # one allocation was refused: either a request asks to be sent again or the connection ends
    # early
    return (
        CUT if len(first.log) == 1 and first.log[0].startswith("[WARN ") and not retried else None
    )


def again(refusals, folder, first, zone):
    """What is wrong with the file for a server and an audit that get all memory, if anything."""
    second = served(refusals, folder, TWO_AND_A_SETTLE, **zone)
    if first.replies is None and second.text in (
        "mailquota: store can't be opened\n",
        "mailquota: store is not this ledger\n",
    ):
        # the first server ended before it had made the tables, and another one can make them
        second = served(refusals, folder, TWO_AND_A_SETTLE, ["--create"], **zone)
    if not second.went_on():
        return f"then {second}"
    wanted = [
        books.replies(book, TWO_AND_A_SETTLE)
        for book in books.possible(first.replies or [], TWO_AND_A_SETTLE)
    ]
    if second.replies not in wanted:
        return f"behind {first} then {second}"
    if first.replies is None:
        # the second server has audited it before it listened
        return None
    words = [refusals.program, "audit", "--config", settings(refusals, folder, **zone)]
    audited = subprocess.run(words, capture_output=True, timeout=SECONDS)
    came = audited.returncode, audited.stdout, audited.stderr.decode()
    return None if came == SOUND else f"then the audit {came}"
