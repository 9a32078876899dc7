"""A report that has no end: 100,000 full pages, each in order. It takes minutes, and runs only
where it is named."""
import subprocess

from ends import Script
from wire import number, page_reply, row

PAGES = 100_000
SECONDS = 1_200


def run(world, checks):
    places = iter(range(PAGES))

    def answer(_heard):
        first = next(places) * 100
        return page_reply([row(number(first + n), 0, 1, 3) for n in range(100)])

    with Script([answer] * PAGES) as server:
        words = [world.program, "report", "--server", server.address, "--day", "1"]
        run = subprocess.run(
            words, stdout=subprocess.DEVNULL, stderr=subprocess.PIPE, timeout=SECONDS
        )
    came = (run.returncode, run.stderr, len(server.heard))
    checks.equal(
        "100,000 full pages: status, errors, questions",
        came,
        (1, b"mailquota: too many pages\n", PAGES),
    )
