"""The version that the program prints, and the commit that a tree is of."""
import os
import re
import subprocess

# The file of the program's crate with its version, and the version there.
FILE = "src/version.rt"
VERSION = re.compile(r'(?<=: &str = ")([^"]+)(?=")')
# So many digits of the commit stand behind the version.
DIGITS = 12
# The file of the program's crate that says what stands behind the version of the program there.
NOTE = "out/build/commit"


def add_to_version(crate, word):
    """Puts a word in brackets behind the version in this copy of the program's crate."""
    with open(f"{crate}/{FILE}", "r+", encoding="utf-8") as file:
        text, count = VERSION.subn(rf"\1 ({word})", file.read())
        if count != 1:
            raise ValueError(f"{FILE} has {count} versions")
        file.seek(0)
        file.write(text)


def note_word(crate, word):
    """Notes what stands behind the version of the program that is built of this crate, or that
    nothing does: cases over the program look it up."""
    os.makedirs(os.path.dirname(f"{crate}/{NOTE}"), exist_ok=True)
    with open(f"{crate}/{NOTE}", "w", encoding="ascii") as file:
        file.write(word)


def commit_of(tree):
    """The commit that a tree is of: by git, or by the file COMMIT of an archive that `make dist`
    made. None where neither is there, and where a file is changed."""
    if not os.path.exists(f"{tree}/.git"):
        if not os.path.exists(f"{tree}/COMMIT"):
            return None
        with open(f"{tree}/COMMIT", encoding="ascii") as file:
            return file.read().strip()
    git = lambda *words: subprocess.run(
        ["git", "-C", tree, *words],
        stdin=subprocess.DEVNULL,
        capture_output=True,
        text=True,
        check=True,
    ).stdout.strip()
    try:
        return (
            None
            if git("status", "--porcelain", "--untracked-files=no")
            else git("rev-parse", "HEAD")
        )
    except (FileNotFoundError, subprocess.CalledProcessError):
        return None


def word_of(tree):
    """What stands behind the version of a program that is built of a tree; empty where it is of no
    commit."""
    return (commit_of(tree) or "")[:DIGITS]
