"""The crates of crates.txt, and the words by which the kit's `rattle` is asked to check or build
one over its libraries."""
import os
import re
import shutil
import sys

TOP = os.path.dirname(os.path.dirname(os.path.realpath(__file__)))
# the command rt, by whose place the kit is found
RT = os.environ.get("RT", "rt")
KIT = os.path.dirname(os.path.dirname(os.path.realpath(shutil.which(RT) or f"/{RT}")))
RATTLE = f"{KIT}/bin/rattle"
# What a check reads of a crate.
PARTS = ("src", "specs", "proofs")


def without_kit():
    """Whether there is no kit, which it says."""
    if os.access(RATTLE, os.X_OK):
        return False
    print(
        f"there is no Rattle kit: no command '{RT}' of one is on the PATH (README.md says which kits"
        " there are)",
        file=sys.stderr,
    )
    return True


def kit_version():
    """The kit's name and its logic, as `rt version` prints them."""
    with open(f"{KIT}/KIT-ID", "rb") as file:
        return file.read()


def rows_of(root):
    """Returns the crates of crates.txt, each with the libraries that its line names."""
    rows = {}
    with open(f"{root}/crates.txt", encoding="utf-8") as lines:
        for line in lines:
            name, _, uses = line.partition("#")[0].partition(":")
            if name.split():
                rows[name.split()[0]] = [it for it in re.split(r"[\s,]+", uses) if it]
    return rows


def below(name, rows):
    """Returns the repository's libraries that the crate stands on, lowest first."""
    found = []
    for it in rows[name]:
        if it in rows:
            found += [more for more in (*below(it, rows), it) if more not in found]
    return found


def is_program(folder):
    return os.path.isfile(f"{folder}/src/main.rt")


def words_of(name, rows, folder, rlib):
    """Returns the words that name a crate of these rows, its libraries and the kit's logic; `rlib`
    gives where a library of the repository is built."""
    words = [
        "--crate-name",
        name,
        f"src/{'main' if is_program(folder) else 'lib'}.rt",
        "-L",
        f"dependency={KIT}/rlibs",
    ]
    for it in ["std", *(it for it in rows[name] if it not in rows)]:
        words += ["--extern", f"{it}={KIT}/rlibs/{it}.rlib"]
    for it in (it for it in rows[name] if it in rows):
        words += ["--extern", f"{it}={rlib(it)}"]
    for it in below(name, rows):
        words += ["-L", f"dependency={os.path.dirname(rlib(it))}"]
    return words + [
        "--antt-project",
        f"{KIT}/rattle/logic/antt-project.json",
        "--logic-built",
        f"{KIT}/logic_built",
    ]
