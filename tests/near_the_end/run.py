#!/usr/bin/env python3
"""Tests of what no run of a program and no public call comes to: a client and a tracker near the
ends of their numbers.

Each file CRATE/MODULE.rt.in is put into a copy of the crate, below its private module, whose fields
it sets. The copy isn't proved, so that the crate is proved once, and without tests: `rt try --test`
compiles and runs them. The last line is 'N passed, M failed'.
"""
import argparse
import os
import re
import shutil
import subprocess
import sys
import tempfile

sys.dont_write_bytecode = True
HERE = os.path.dirname(os.path.realpath(__file__))
TOP = os.path.dirname(os.path.dirname(HERE))
RT = os.environ.get("RT", "rt")
# So many seconds a crate at most.
LONGEST = 15 * 60
# What rt try says of all tests of a crate.
RESULT = re.compile(r"^test result: \w+\. (\d+) passed; (\d+) failed;", re.M)
MODULE = "near_the_end"


def crates():
    return sorted(
        it for it in os.listdir(HERE) if os.path.isdir(f"{HERE}/{it}") and it != "__pycache__"
    )


def tried(crate):
    """What rt try says of the tests of a copy of the crate with the further modules, and its
    status."""
    with tempfile.TemporaryDirectory(prefix="near-") as root:
        os.mkdir(f"{root}/.git")
        shutil.copy(f"{TOP}/crates.txt", root)
        shutil.copytree(
            f"{TOP}/crates",
            f"{root}/crates",
            ignore=shutil.ignore_patterns("out", "must-fail", "further", "proofs"),
        )
        for file in os.listdir(f"{HERE}/{crate}"):
            module = f"{root}/crates/{crate}/src/{file[:-len('.rt.in')]}"
            os.makedirs(module, exist_ok=True)
            shutil.copy(f"{HERE}/{crate}/{file}", f"{module}/{MODULE}.rt")
            with open(f"{module}.rt", "a", encoding="utf-8") as it:
                it.write(f"\n#[cfg(test)]\nmod {MODULE};\n")
        ran = subprocess.run(
            [RT, "try", "--test"],
            cwd=f"{root}/crates/{crate}",
            stdin=subprocess.DEVNULL,
            stdout=subprocess.PIPE,
            stderr=subprocess.STDOUT,
            timeout=LONGEST,
            text=True,
            errors="replace",
        )
    return ran.stdout, ran.returncode


def parsed():
    parser = argparse.ArgumentParser(
        description=__doc__, formatter_class=argparse.RawDescriptionHelpFormatter
    )
    parser.add_argument(
        "crates", metavar="CRATE", nargs="*", help=f"{' or '.join(crates())}, by default each"
    )
    asked = parser.parse_args()
    if not {*asked.crates} <= {*crates()}:
        parser.error(f"there are tests of {' and '.join(crates())}")
    return asked.crates or crates()


def main():
    passed = failed = 0
    for crate in parsed():
        said, status = tried(crate)
        counts = RESULT.search(said)
        good, bad = map(int, counts.groups()) if counts else (0, 0)
        print(f"-- {crate}\n{said}", end="", flush=True)
        if not bad and (status or not good):
            print(f"NOT {crate}: rt try ended with status {status} and {good} passed")
            bad = 1
        passed, failed = passed + good, failed + bad
    print(f"{passed} passed, {failed} failed")
    return 1 if failed or not passed else 0


if __name__ == "__main__":
    sys.exit(main())
