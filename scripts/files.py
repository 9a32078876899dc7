"""Which files a tree has, and copies of those alone that a kind of run may read."""
import os
import re
import shutil
import subprocess

# What no case of tests/program reads: the cases run where there is none of it.
READ_BY_NO_CASE = re.compile(
    r"crates/|crates\.txt\Z|HANDLES\Z|bench/|gate/.*\.py\Z|tests/(near_the_end|prose|smtpd|refusals|takeover|upgrade|bodies)/"
    r"|\.ci/|\.git(/|\Z|ignore\Z)|pyproject\.toml\Z|COMMIT\Z"
)
# What those read that have each allocation of the program refused.
READ_BY_REFUSALS = ["tests/refusals", "tests/program", "tests/model"]


def files_of(tree):
    """Returns the tree's files but for what git ignores, or where git has nothing to say, what rt
    and Python made."""
    words = [
        "git",
        "-c",
        "safe.directory=*",
        "-C",
        tree,
        "ls-files",
        "-z",
        "--cached",
        "--others",
        "--exclude-standard",
    ]
    ran = (
        subprocess.run(words, stdout=subprocess.PIPE, stderr=subprocess.DEVNULL)
        if os.path.lexists(f"{tree}/.git") and shutil.which("git")
        else None
    )
    if ran and not ran.returncode:
        listed = ran.stdout.decode(errors="surrogateescape").split("\0")
    else:
        listed = [
            os.path.relpath(f"{at}/{it}", tree) for at, _, names in os.walk(tree) for it in names
        ]
        listed = [
            it
            for it in listed
            if not re.match(r"\.git(/|\Z)|crates/[^/]+/out/|(.*/)?__pycache__/", it)
        ]
    return sorted(it for it in {*listed} if it and os.path.lexists(f"{tree}/{it}"))


def copy(tree, files, place):
    """Copies these files of a tree into a place."""
    for it in files:
        os.makedirs(os.path.dirname(f"{place}/{it}"), exist_ok=True)
        shutil.copy2(f"{tree}/{it}", f"{place}/{it}", follow_symlinks=False)


def files_for_cases(tree):
    """Returns the files that the cases of tests/program may read."""
    return [it for it in files_of(tree) if not READ_BY_NO_CASE.match(it)]


def copy_for_cases(tree, place):
    """Copies what the cases of tests/program may read."""
    copy(tree, files_for_cases(tree), place)


def copy_for_refusals(tree, place):
    """Copies what tests/refusals may read."""
    folders = tuple(f"{it}/" for it in READ_BY_REFUSALS)
    copy(tree, (it for it in files_of(tree) if it.startswith(folders)), place)
