"""`replay`: one connection over a list and over tables."""
import books
from sweeping import OUT_OF_MEMORY, RETRY, RIGHT, Run, sweep
from wire import reserve, settle, usage

ONE = [reserve(1)]
TWO_AND_A_SETTLE = [reserve(1), reserve(2), settle(3), usage(), settle(4)]
# by this rule the moment of these requests is on day 1, as it is at UTC
RULE = "CET-1CEST,M3.5.0,M10.5.0/3"
BY_RULE = ["--rule", RULE]


def run(refusals, checks):
    for what, requests, zone in [
        ("one reserve", ONE, []),
        ("reserve twice, settle once", TWO_AND_A_SETTLE, []),
        ("one reserve by a rule", ONE, BY_RULE),
    ]:
        for words in ([], ["--sql"]):
            one = replayed(refusals, requests, [*zone, *words])
            sweep(refusals, checks, ", ".join([what, *words]), one, is_example=not zone)


def replayed(refusals, requests, words):
    def one(number, folder):
        text = b"".join(request.hex().encode() + b"\n" for request in requests)
        status, output, errors, told = refusals.run(
            folder, number, "replay", "--default", "3", *words, text=text
        )
        ending = ending_of(requests, status, output, errors)
        return Run(
            ending or "fault", told, None if ending else f"status {status}, {output!r}, {errors!r}"
        )

    return one


def ending_of(requests, status, output, errors):
    """How the run ended, or None where it may not end so."""
    if (status, output, errors) == (1, b"", "mailquota: out of memory\n"):
        return OUT_OF_MEMORY
    if output[-1:] != b"\n" or b"\n" in output[:-1]:
        return None
    came, left = books.bodies(bytes.fromhex(output.decode()))
    retried = books.untaken_of(came, requests) is not None
    if left:
        return None
    if (status, errors) == (0, "") and len(came) == len(requests):
        return RETRY if retried else RIGHT
    # one allocation was refused: where a request asked to be sent again, nothing else may fail
    if (
        (status, errors) == (1, "mailquota: connection 1: out of memory\n")
        and len(came) < len(requests)
        and not retried
    ):
        return OUT_OF_MEMORY
    return None
