#!/usr/bin/env python3
"""Plays a day of the program over loopback: of the proved one, where `make build` made it and
nothing has changed since, or else of one that is built without proofs, in minutes."""
import argparse
import os
import subprocess
import sys

sys.dont_write_bytecode = True

import build
import unproved
from kit import TOP, rows_of, without_kit

NOTHING = (
    f"Nothing is proved of this program: 'make build' proves it. It is for trying alone, and is not"
    f" installed."
)


def day_of(program):
    """Plays the day; gives its status."""
    return subprocess.run(
        [sys.executable, f"{TOP}/examples/demo.py", program, f"{TOP}/examples/one-reserve.hex"]
    ).returncode


def main():
    argparse.ArgumentParser(description=__doc__).parse_args()
    if without_kit():
        return 2
    rows = rows_of(TOP)
    if build.is_built(rows, build.crates(rows)):
        return day_of(build.BINARY)
    print(NOTHING, flush=True)
    status = 0 if unproved.build_program() else 1
    status = status or day_of(unproved.BINARY)
    print(NOTHING)
    return status


if __name__ == "__main__":
    sys.exit(main())
