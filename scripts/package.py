#!/usr/bin/env python3
"""Makes what is handed out, in dist/, and the file SHA256SUMS there.

Two runs over one commit make the same bytes, wherever its tree lies. The package has the times of
debian/changelog, or those that SOURCE_DATE_EPOCH in the environment says; the archive has the
commit's. In the archive the file COMMIT tells builds which commit it is.
"""
import argparse
import glob
import hashlib
import io
import lzma
import os
import re
import subprocess
import sys
import tarfile

sys.dont_write_bytecode = True

from version import commit_of

TOP = os.path.dirname(os.path.dirname(os.path.realpath(__file__)))
DIST = f"{TOP}/dist"
PROVED = "crates/mailquota/out/mailquota"


class Wrong(Exception):
    """Why nothing is made."""


def version():
    with open(f"{TOP}/debian/changelog", encoding="utf-8") as file:
        return re.match(r"mailquota \(([^)]+)\)", file.read())[1]


def run(*words, tree=TOP, **environment):
    """What a command prints in a tree; where it fails, what it says is why."""
    come = subprocess.run(
        words,
        cwd=tree,
        env={**os.environ, **environment},
        stdin=subprocess.DEVNULL,
        capture_output=True,
    )
    if come.returncode:
        raise Wrong(
            f"{' '.join(words)} ended with status"
            f" {come.returncode}:\n{come.stdout.decode(errors='replace')}{come.stderr.decode(errors='replace')}"
        )
    return come.stdout


def make_deb(tree, *words):
    """Has debhelper make the package of a tree, by these words for its rules. In the environment
    there is nothing that this run of make was given."""
    given = {
        "LC_ALL": "C.UTF-8",
        "TZ": "UTC",
        "DEB_RULES_REQUIRES_ROOT": "no",
        "MAKEFLAGS": "",
        "MFLAGS": "",
        "MAKELEVEL": "",
        "DH_VERBOSE": "",
    }
    os.umask(0o022)
    run("dh_clean", tree=tree, **given)
    run("make", "-f", "debian/rules", "binary", *words, tree=tree, **given)
    run("dh_clean", tree=tree, **given)


def make_package():
    """Makes the package in dist/."""
    make_deb(TOP, f"PROGRAM={PROVED}", f"DIST={DIST}")
    return f"mailquota_{version()}_amd64.deb"


def make_archive():
    """Makes the archive of the commit, which has to be that of the tree."""
    if not os.path.exists(f"{TOP}/.git"):
        raise Wrong("there is no .git: an archive is made of a commit")
    name, of = f"mailquota-{version()}", commit_of(TOP)
    if of is None:
        raise Wrong("files are changed, or git gives no commit: an archive is made of a commit")
    # (whatever the settings of this user's git are)
    archive = io.BytesIO(
        run("git", "-c", "tar.umask=0022", "archive", "--format=tar", f"--prefix={name}/", of)
    )
    with tarfile.open(fileobj=archive, mode="a", format=tarfile.PAX_FORMAT) as tar:
        file = tarfile.TarInfo(f"{name}/COMMIT")
        file.size, file.mode, file.mtime, file.uname, file.gname = (
            len(of) + 1,
            0o644,
            int(run("git", "show", "--no-patch", "--format=%ct", of)),
            "root",
            "root",
        )
        tar.addfile(file, io.BytesIO(f"{of}\n".encode()))
    with open(f"{DIST}/{name}.tar.xz", "wb") as file:
        file.write(lzma.compress(archive.getvalue(), preset=9))
    return f"{name}.tar.xz"


def write_sums():
    made = sorted(glob.glob("*.deb", root_dir=DIST) + glob.glob("*.tar.xz", root_dir=DIST))
    with open(f"{DIST}/SHA256SUMS", "w", encoding="ascii") as sums:
        for it in made:
            with open(f"{DIST}/{it}", "rb") as file:
                sums.write(f"{hashlib.sha256(file.read()).hexdigest()}  {it}\n")


def main():
    parser = argparse.ArgumentParser(
        description=__doc__, formatter_class=argparse.RawDescriptionHelpFormatter
    )
    kinds = parser.add_subparsers(required=True, metavar="deb|dist")
    kinds.add_parser(
        "deb", help="the Debian package of the program that `make build` proved"
    ).set_defaults(make=make_package)
    kinds.add_parser("dist", help="an archive of the source of this commit").set_defaults(
        make=make_archive
    )
    make = parser.parse_args().make
    os.makedirs(DIST, exist_ok=True)
    try:
        made = make()
    except Wrong as why:
        print(why, file=sys.stderr)
        return 1
    write_sums()
    print(f"made dist/{made}")
    return 0


if __name__ == "__main__":
    sys.exit(main())
