#!/usr/bin/env python3
"""Frames per second of `mailquota replay`, compared with the same work in plain Rust (twin.rs)."""
import argparse
import tempfile
from pathlib import Path

from frames import USAGE, reserve
from turns import built, medians

CONNECTIONS, FRAMES = 5, 9_999


def main():
    parser = argparse.ArgumentParser(description=__doc__)
    parser.add_argument("program", metavar="PROGRAM")
    program = parser.parse_args().program
    here = Path(__file__).parent
    with tempfile.TemporaryDirectory() as folder:
        twin = built(here / "twin.rs", folder)
        history = "".join(reserve(n, n, "u") for n in range(1, 11))
        usages = USAGE * FRAMES
        text = (history + "\n\n" + "\n\n".join([usages] * CONNECTIONS) + "\n").encode()
        assert len(text) <= 1_048_576
        (ours, theirs), (a, b) = medians([[program, "replay"], [twin]], text)
        assert a == b, "the two answer differently"
    count = 10 + CONNECTIONS * FRAMES
    print(
        f"input {len(text)} bytes, {count} frames, median of 15 runs by turns, process start"
        " counted"
    )
    print(f"mailquota replay  {ours * 1000:8.1f} ms  {count / ours:12.0f} frames/s")
    print(f"twin.rs           {theirs * 1000:8.1f} ms  {count / theirs:12.0f} frames/s")
    print(f"ratio             {ours / theirs:8.2f}")


if __name__ == "__main__":
    main()
