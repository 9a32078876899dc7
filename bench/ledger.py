#!/usr/bin/env python3
"""Time of `mailquota replay` on reserves: one hundred of one login, and 1,000 to 4,000 of 50
logins."""
import argparse

from frames import reserve
from turns import medians


def text_of(count, logins):
    return "\n".join(reserve(n, n, f"u{n % logins:02}") for n in range(1, count + 1)).encode()


def main():
    parser = argparse.ArgumentParser(description=__doc__)
    parser.add_argument("program", metavar="PROGRAM")
    program = parser.parse_args().program
    for count, logins in [(100, 1), (1_000, 50), (2_000, 50), (4_000, 50)]:
        (seconds,), _ = medians(
            [[program, "replay", "--default", "1000000"]], text_of(count, logins), rounds=7
        )
        print(
            f"{count:5} reserves of {logins:2} logins: {seconds * 1000:9.1f} ms, process start"
            " counted"
        )


if __name__ == "__main__":
    main()
