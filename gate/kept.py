"""What passed earlier on this machine: each result in a file whose name is the sum of all that it
was made from.

So none goes stale: where a byte of that changes, the name is another. Only what is as it must be is
kept, and no failure. The files lie outside the tree, in $XDG_CACHE_HOME/mailquota, for the user
alone who runs the gate. Each is written apart and then renamed, and one that isn't whole counts as
none.
"""
import contextlib
import functools
import hashlib
import json
import os
import re
import tempfile
import time

from prover import KIT, PARTS, PROVED, below, proved_in, rows_of

HERE = os.path.dirname(os.path.realpath(__file__))
# The scripts of scripts/ that decide what is tried, and over what.
USED = ("files.py", "kit.py", "version.py")
# So many seconds a result stays that no run takes, and so many results at most.
LONGEST_UNUSED = 30 * 24 * 3600
MOST = 50_000
# How the name of a file begins that isn't written to its end, and after how many seconds whoever
# wrote it was killed.
UNFINISHED, LONGEST_UNFINISHED = "new-", 3600


def folder():
    """Returns where results lie."""
    base = os.environ.get("XDG_CACHE_HOME", "")
    return f"{base if os.path.isabs(base) else os.path.expanduser('~/.cache')}/mailquota"


def sum_of(*parts):
    """Returns a sum of values of which each has a text of its own."""
    return hashlib.sha256(repr(parts).encode()).hexdigest()


def files_in(root, path):
    """Returns the files of a folder below the root, or the one file, by their paths from the root,
    but for what Python made."""
    if not os.path.isdir(f"{root}/{path}"):
        return [path] if os.path.lexists(f"{root}/{path}") else []
    walked = [
        (at, it)
        for at, _, names in os.walk(f"{root}/{path}")
        for it in names
        if os.path.basename(at) != "__pycache__"
    ]
    return sorted(os.path.relpath(f"{at}/{it}", root) for at, it in walked)


def sum_of_files(root, paths):
    """Returns a sum of the files at these paths from the root, and of all in the folders there: of
    the names, of what is in them, and of who may run them."""
    told = []
    for path in sorted({file for it in paths for file in files_in(root, it)}):
        file = f"{root}/{path}"
        with open(file, "rb") as it:
            told.append(
                (
                    path,
                    os.path.islink(file) and os.readlink(file),
                    os.stat(file).st_mode & 0o111,
                    hashlib.sha256(it.read()).hexdigest(),
                )
            )
    return sum_of(told)


@functools.lru_cache(maxsize=None)
def of_kit():
    """Returns a sum of the kit: its name, and the prover."""
    return sum_of_files(KIT, ["KIT-ID", "bin/rattle"])


@functools.lru_cache(maxsize=None)
def of_gate(with_tests=False):
    """Returns a sum of the scripts of the gate, of which its tests judge nothing else."""
    scripts = [
        it
        for it in files_in(os.path.dirname(HERE), "gate")
        if it.endswith(".py") and (with_tests or not it.endswith("_test.py"))
    ]
    return sum_of_files(os.path.dirname(HERE), [*scripts, *(f"scripts/{it}" for it in USED)])


class Sums:
    """The sums of what a tree's results are made from. In none is a path of the tree's own."""

    def __init__(self, root, is_built=True):
        """`is_built` says whether the libraries in crates/*/out are those that rt ci builds."""
        self.root, self.rows, self.is_built, self.known = root, rows_of(root), is_built, {}

    def of_crate(self, crate):
        """Returns a sum of what a check reads of the crate itself, and of the kit."""
        paths = ["HANDLES", *(f"crates/{crate}/{part}" for part in PARTS)]
        return self.once(
            crate, lambda: sum_of(of_kit(), crate, self.rows[crate], sum_of_files(self.root, paths))
        )

    def of_library(self, crate):
        """Returns a sum of a library as it is built, or none where it isn't."""
        rlib = f"crates/{crate}/out/rlib/{crate}.rlib"
        return self.once(
            rlib,
            lambda: (
                sum_of_files(self.root, [rlib]) if os.path.isdir(f"{self.root}/{rlib}") else None
            ),
        )

    def once(self, of, call):
        if of not in self.known:
            self.known[of] = call()
        return self.known[of]

    def names(self, kind, crate, *more):
        """Returns the names of a result of a crate: by the libraries below it as they are built,
        and by the files of these, of which a comment may change that no library has."""
        libraries = below(crate, self.rows)
        ways = [[self.of_crate(it) for it in libraries]]
        if self.is_built and all(self.of_library(it) for it in libraries):
            ways.insert(0, [self.of_library(it) for it in libraries])
        return [sum_of(kind, self.of_crate(crate), *zip(libraries, it), *more) for it in ways]


class Kept:
    """The results that runs on this machine keep."""

    def __init__(self, takes=True, keeps=True):
        """Says whether this run takes what others kept, and whether it keeps what it finds."""
        self.takes, self.keeps, self.at = takes, keeps, None
        # (once and early: these are the scripts that run)
        of_gate(), of_gate(True), of_kit()
        with contextlib.suppress(OSError):
            os.makedirs(folder(), 0o700, exist_ok=True)
            if os.lstat(folder()).st_uid == os.geteuid():
                os.chmod(folder(), 0o700)
                self.at = folder()

    def take(self, names):
        """Returns the result that is kept by one of these names, or none."""
        for name in names if self.at and self.takes else ():
            with contextlib.suppress(OSError, ValueError):
                with open(f"{self.at}/{name}", encoding="utf-8") as file:
                    sum_, _, text = file.read().partition("\n")
                if sum_ == sum_of(name, text):
                    found = json.loads(text)
                    # (it was of use today)
                    with contextlib.suppress(OSError):
                        os.utime(f"{self.at}/{name}")
                    return found
        return None

    def keep(self, names, found):
        """Keeps a result by each of these names. Where there is no room, say, it isn't kept."""
        text = json.dumps(found)
        for name in names if self.at and self.keeps else ():
            made = None
            try:
                with tempfile.NamedTemporaryFile(
                    "w", prefix=UNFINISHED, dir=self.at, delete=False, encoding="utf-8"
                ) as file:
                    made = file.name
                    file.write(f"{sum_of(name, text)}\n{text}")
                os.replace(made, f"{self.at}/{name}")
            except OSError:
                with contextlib.suppress(OSError, TypeError):
                    os.remove(made)

    def shrink(self):
        """Removes what is long unused, what goes beyond the most that may lie here, and what runs
        left that were killed."""
        found = []
        with contextlib.suppress(OSError):
            for it in os.scandir(self.at) if self.at else ():
                with contextlib.suppress(OSError):
                    found.append((it.stat().st_mtime, it.path))
        for number, (when, path) in enumerate(sorted(found, reverse=True)):
            longest = (
                LONGEST_UNFINISHED
                if os.path.basename(path).startswith(UNFINISHED)
                else LONGEST_UNUSED
            )
            if number >= MOST or time.time() - when > longest:
                with contextlib.suppress(OSError):
                    os.remove(path)


class Edits:
    """What is kept of the edits of one crate that lie in a folder, which is of this kind; `groups`
    are the names of what has cases."""

    def __init__(self, kept, sums, crate, place, groups, kind="must-fail"):
        self.kept, self.sums, self.crate, self.place = kept, sums, crate, place
        self.groups, self.kind = groups, kind

    def names(self, file):
        with open(f"{self.place}/{file}", encoding="utf-8", errors="surrogateescape") as it:
            text = it.read()
        named = sorted(it for it in self.groups if f"case: {it}:" in text)
        return self.sums.names(self.kind, self.crate, of_gate(), file, text, named)

    def take(self, file):
        """Returns whether the edit was refused as it must be, in an earlier run."""
        try:
            return self.kept.take(self.names(file)) is not None
        except OSError:
            return False

    def keep(self, file, said):
        with contextlib.suppress(OSError):
            self.kept.keep(self.names(file), said)


class Proved:
    """Which functions of a crate are proved as they stand: by the lines of rt ci in this run, by
    those of the run that proved what rt has kept since, or else by those of a check."""

    WHOLE = re.compile(r"rt: (\w+) proved\Z")

    def __init__(self, kept, sums):
        self.kept, self.sums, self.section, self.told = kept, sums, [], {}

    def read(self, line):
        """Reads a line of rt ci, and keeps those of a crate that it told proved, as they come: a
        run may be killed."""
        if line.startswith("== "):
            self.section.clear()
        elif PROVED.match(line):
            self.section.append(line)
        elif self.WHOLE.match(line):
            self.keep(self.WHOLE.match(line)[1], self.section)

    def keep(self, crate, lines):
        self.told[crate] = [*lines]
        self.kept.keep(self.sums.names("proved", crate), self.told[crate])

    def of(self, crate):
        """Returns the crate's functions that are proved."""
        lines = self.told.get(crate.name) or self.kept.take(self.sums.names("proved", crate.name))
        if lines is None:
            ran = crate.check_whole()
            if ran.status != 0:
                return set()
            lines = [it for it in ran.said.split("\n") if PROVED.match(it)]
            self.keep(crate.name, lines)
        return proved_in(lines)[crate.name]
