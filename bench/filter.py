#!/usr/bin/env python3
"""Filter requests per second through `run_filter` over memory with a link that grants at once,
compared with filter_twin.rs (the same lines, sessions and numbers in plain Rust), by turns.
"""
import argparse
import shutil
import subprocess
import tempfile
from pathlib import Path

from turns import built, medians

FRONT = [
    "config|smtpd-version|7.6.0-portable",
    "config|protocol|0.7",
    "config|smtp-session-timeout|300",
    "config|subsystem|smtp-in",
    "config|admd|vm",
    "config|ready",
]

# what is said of a mix, its mails, the recipients of each, and how many sessions stay open
# meanwhile
MIXES = [
    ("three recipients a mail", 20_000, 3, 0),
    ("the same with 1,000 open sessions", 20_000, 3, 1_000),
    ("fifty recipients a mail", 2_000, 50, 0),
    ("the same with 1,000 open sessions", 2_000, 50, 1_000),
]


def stamp(n):
    return f"{1795329219 + n // 1000}.{n % 1000:06}"


def mail(n, session, recipients):
    """The lines of one mail as smtpd writes them: the token of a session stays the same."""
    s, token, message = f"{session:016x}", f"{session * 7919 & (2**64 - 1):016x}", f"{n:08x}"
    lines = [f"report|0.7|{stamp(n)}|smtp-in|tx-begin|{s}|{message}"]
    lines += [
        f"filter|0.7|{stamp(n)}|smtp-in|rcpt-to|{s}|{token}|r{k}@example.test"
        for k in range(recipients)
    ]
    end = "tx-rollback" if n % 10 == 0 else "tx-commit"
    more = "" if n % 10 == 0 else "|1200"
    lines += [
        f"report|0.7|{stamp(n)}|smtp-in|{end}|{s}|{message}{more}",
        f"report|0.7|{stamp(n)}|smtp-in|tx-reset|{s}|{message}",
    ]
    return lines


def sittings(mails, recipients, open_sessions=0):
    """Mails of one session each, with some sessions that stay open meanwhile."""
    lines = list(FRONT)
    for k in range(open_sessions):
        s = f"{10**9 + k:016x}"
        lines += [
            f"report|0.7|{stamp(0)}|smtp-in|link-auth|{s}|pass|idle{k}",
            f"report|0.7|{stamp(0)}|smtp-in|tx-begin|{s}|idle{k:06}",
        ]
    for n in range(1, mails + 1):
        s = f"{n:016x}"
        lines.append(f"report|0.7|{stamp(n)}|smtp-in|link-auth|{s}|pass|u{n % 50:02}")
        lines += mail(n, n, recipients)
        lines.append(f"report|0.7|{stamp(n)}|smtp-in|link-disconnect|{s}")
    return ("\n".join(lines) + "\n").encode()


def built_bench(here, folder):
    """The program of filter_bench, built with a copy of the crates: were it a crate of the
    repository, the gate would prove it."""
    top, room = here.parent, Path(folder) / "repository"
    shutil.copytree(
        top / "crates",
        room / "crates",
        ignore=shutil.ignore_patterns("incremental", "must-fail", "further"),
    )
    shutil.copy(top / "HANDLES", room)
    (room / ".git").mkdir()
    (room / "crates.txt").write_text(
        (top / "crates.txt").read_text()
        + "filter_bench: mq_link mq_client mq_line mq_track mq_request mq_stream log\n"
    )
    crate = room / "crates" / "filter_bench"
    (crate / "src").mkdir(parents=True)
    for source in (here / "filter_bench").glob("*.rattle"):
        shutil.copy(source, crate / "src" / f"{source.stem}.rt")
    subprocess.run(
        ["rt", "run"], cwd=crate, stdin=subprocess.DEVNULL, stdout=subprocess.DEVNULL, check=True
    )
    return str(crate / "out" / "filter_bench")


def main():
    parser = argparse.ArgumentParser(description=__doc__)
    parser.add_argument(
        "program",
        metavar="PROGRAM",
        nargs="?",
        help=(
            "what was built of bench/filter_bench; without it that is proved and built first, with"
            " rt on the PATH"
        ),
    )
    asked, here = parser.parse_args(), Path(__file__).resolve().parent
    with tempfile.TemporaryDirectory() as folder:
        program = asked.program or built_bench(here, folder)
        twin = built(here / "filter_twin.rs", folder)
        print("median of 15 runs by turns, process start counted")
        for title, mails, recipients, idle in MIXES:
            text = sittings(mails, recipients, idle)
            (ours, theirs), (a, b) = medians([[program], [twin]], text)
            assert a == b, "the two answer differently"
            requests = mails * recipients
            print(
                f"{title}: {requests} requests in {len(text)} bytes: {ours * 1000:.1f} ms,"
                f" {requests / ours:,.0f} a second; twin {theirs * 1000:.1f} ms; ratio"
                f" {ours / theirs:.2f}"
            )


if __name__ == "__main__":
    main()
