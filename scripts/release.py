#!/usr/bin/env python3
"""Makes the Debian package of an earlier release, for tests/upgrade, and prints where it is.

Of the commit below it is made from all that stood there, the program too. But that is built without
proofs, which take hours, as its version and the package's say. A package that is there already is
taken: its name has the commit.
"""
import argparse
import os
import subprocess
import sys
import tempfile

sys.dont_write_bytecode = True

import unproved
from package import Wrong, make_deb
from version import DIGITS

TOP = os.path.dirname(os.path.dirname(os.path.realpath(__file__)))
# From which release, and of which commit, tests/upgrade upgrades.
RELEASE, COMMIT = "1.0.0", "a528720d3f99b254d76ff4407faf1667cb1c52d0"


def take_out(folder):
    """Puts the files of the commit into this folder."""
    git = subprocess.run(
        ["git", "-c", "safe.directory=*", "-C", TOP, "archive", "--format=tar", COMMIT],
        stdin=subprocess.DEVNULL,
        capture_output=True,
    )
    if git.returncode:
        raise Wrong(
            f"there is no commit {COMMIT[:DIGITS]} here, of which the package of {RELEASE} is made:"
            " clone the repository with its history"
        )
    os.mkdir(folder)
    subprocess.run(["tar", "--extract", "--directory", folder], input=git.stdout, check=True)


def make(folder, package, version):
    """Makes the package in this folder."""
    with tempfile.TemporaryDirectory(prefix="release-", dir=folder) as work:
        take_out(f"{work}/tree")
        print(f"The package of {RELEASE} is made first, in minutes.", file=sys.stderr, flush=True)
        how = {"optimizes": True, "shows": True, "word": f"{COMMIT[:DIGITS]}, {unproved.UNPROVED}"}
        said = unproved.build(unproved.PROGRAM, f"{work}/tree", f"{work}/program", **how)
        if said is not None:
            raise Wrong(f"{said}\nthe program of {RELEASE} can't be built")
        make_deb(f"{work}/tree", f"PROGRAM={work}/program", f"DIST={work}", f"VERSION={version}")
        os.rename(f"{work}/{package}", f"{folder}/{package}")


def main():
    parser = argparse.ArgumentParser(
        description=__doc__, formatter_class=argparse.RawDescriptionHelpFormatter
    )
    parser.add_argument("folder", metavar="FOLDER", help="where the package is, or is to be")
    folder = os.path.realpath(parser.parse_args().folder)
    # (it comes before that of the release, and before a later one that isn't proved)
    version = f"{RELEASE}~{COMMIT[:DIGITS]}"
    package = f"mailquota_{version}~unproved_amd64.deb"
    try:
        if not os.path.exists(f"{folder}/{package}"):
            make(folder, package, version)
    except Wrong as why:
        print(why, file=sys.stderr)
        return 1
    print(f"{folder}/{package}")
    return 0


if __name__ == "__main__":
    sys.exit(main())
