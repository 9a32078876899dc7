"""The one place that calls `rattle` and reads what it says.

rt has no word for "a check of these functions over these texts", so this gives `rattle check` what
rt itself gives it for a crate of crates.txt: the libraries as rlibs, and the kit's logic.
"""
import os
import re
import shutil
import signal
import subprocess
import sys
import tempfile
import threading
import time
from collections import defaultdict, namedtuple

import source

sys.path.insert(0, f"{os.path.dirname(os.path.dirname(os.path.realpath(__file__)))}/scripts")

from kit import KIT, PARTS, RATTLE, RT, below, rows_of, words_of

# A check takes a minute or two; one that takes so many seconds hangs.
LONGEST = 45 * 60
# What is asked to end has so many seconds for it.
LONGEST_END = 20

# A proof that rests on a hole elsewhere. (Of a proof that is a hole itself, the prover prints the
# goal, which takes it seconds.)
TAKEN = """\
use {module}.{{statement}}
use Rattle.{crate}.proofs.Taken.{{taken}}

pub {name}_spec : {{M : Type 1}} → statement M
{name}_spec = taken
"""
HOLE = """\
pub taken {ℓ} : {A : Type ℓ} → A
taken = ?
"""

# The words before a command that may write no file (to pipes it may). A check that can keep nothing
# doesn't go through what it refuses once more, to print which proof files could be written there:
# that takes a tenth of it, or a fifth.
WITHOUT_FILES = ["sh", "-c", "trap '' XFSZ; ulimit -S -f 0; exec \"$@\"", "sh"]

# How a command ended (below 0: by that signal; None: it took too long), what it printed, and its
# processor seconds.
Ran = namedtuple("Ran", "status said seconds")


class Ended(Exception):
    """The program is to end, so it starts nothing more."""


class Running:
    """The commands that run, so that they end when the program does."""

    pids, lock, is_over = set(), threading.Lock(), False

    @classmethod
    def end(cls):
        """Asks each to end, since some have started others in groups of their own, and kills what
        is there after some seconds."""
        runs = os.WEXITED | os.WNOWAIT | os.WNOHANG
        with cls.lock:
            cls.is_over = True
            for pid in cls.pids:
                os.killpg(pid, signal.SIGTERM)
            until = time.monotonic() + LONGEST_END
            while time.monotonic() < until and any(
                os.waitid(os.P_PID, it, runs) is None for it in cls.pids
            ):
                time.sleep(0.1)
            for pid in cls.pids:
                os.killpg(pid, signal.SIGKILL)


def run(words, folder, longest, tell=None):
    """Runs a command in a process group of its own, for so many seconds at most, hands on its lines
    as they come, and returns how it ended."""
    with Running.lock:
        if Running.is_over:
            raise Ended
        started = subprocess.Popen(
            words,
            cwd=folder,
            stdin=subprocess.DEVNULL,
            stdout=subprocess.PIPE,
            stderr=subprocess.STDOUT,
            text=True,
            errors="replace",
            start_new_session=True,
        )
        Running.pids.add(started.pid)
    late = threading.Event()

    def stop():
        late.set()
        os.killpg(started.pid, signal.SIGKILL)

    timer = threading.Timer(longest, stop)
    timer.daemon = True
    timer.start()
    said = []
    with started.stdout:
        for line in started.stdout:
            said.append(line)
            if tell:
                tell(line.rstrip("\n"))
    # (not reaped while its number is still among those that may be killed)
    os.waitid(os.P_PID, started.pid, os.WEXITED | os.WNOWAIT)
    timer.cancel()
    with Running.lock:
        Running.pids.discard(started.pid)
    _, status, usage = os.wait4(started.pid, 0)
    started.returncode = -os.WTERMSIG(status) if os.WIFSIGNALED(status) else os.WEXITSTATUS(status)
    return Ran(
        None if late.is_set() else started.returncode,
        "".join(said),
        usage.ru_utime + usage.ru_stime,
    )


def lines_in(folder, ending):
    files = [
        f"{at}/{it}"
        for part in PARTS
        for at, _, names in os.walk(f"{folder}/{part}")
        for it in names
    ]
    return sum(open(it, "rb").read().count(b"\n") for it in files if it.endswith(ending))


class Crate:
    """A crate of a repository whose libraries are built in crates/*/out."""

    # whether its libraries are those of `make build`
    is_built = False

    def __init__(self, root, name):
        self.name, self.rows, self.crates = name, rows_of(root), f"{root}/crates"
        self.folder, self.below = f"{root}/crates/{name}", below(name, self.rows)
        self.costs = None

    def rlib(self, name):
        return f"{self.crates}/{name}/out/rlib/{name}.rlib"

    def words(self):
        return words_of(self.name, self.rows, self.folder, self.rlib)

    def cost_of(self, function):
        """Returns what tells whether one function costs more than another: whether it has a branch,
        a loop or a closure, and how many characters its text has; a very large number where it has
        none of its own, and for a law, whose proof is all that it does.
        """
        if self.costs is None:
            self.costs = source.costs(self.folder)
        return (
            (True, 1e9) if function.startswith("laws::") else self.costs.get(function, (True, 1e9))
        )

    def is_generic(self, function):
        """Returns whether a function of the crate, or its type's functions, are over types."""
        return function in source.generic(self.folder)

    def memory(self):
        """Returns the bytes that a check may take: for its lines, its proofs, the lines below it
        and the kit's libraries."""
        of_kit = {
            it for name in (self.name, *self.below) for it in self.rows[name] if it not in self.rows
        }
        loaded = [f"{KIT}/rlibs/{it}.rlib/toolchain/checked.a" for it in of_kit]
        lines_below = sum(lines_in(f"{self.crates}/{it}", ".rt") for it in self.below)
        return int(
            1e9
            + 1e6 * lines_in(self.folder, ".rt")
            + 2e5 * lines_in(self.folder, ".antt")
            + 8e4 * lines_below
            + min(5 * sum(os.path.getsize(it) for it in loaded if os.path.isfile(it)), 2.5e9)
        )

    def check(self, texts, only, stated, kept, place, leaves):
        """Checks these functions of a copy of the crate with these texts by path, in a folder that
        has nothing but what checks of the same run left there: what of theirs stays the same is
        taken, and what this one checks is left, or else nothing is. The functions of `stated` are
        taken by their contracts, and so is one that is refused where it is called; where there are
        such, only those of `kept` keep their bodies.
        """
        room = f"{place}/crate"
        shutil.rmtree(room, ignore_errors=True)
        for part in PARTS:
            if os.path.isdir(f"{self.folder}/{part}"):
                shutil.copytree(f"{self.folder}/{part}", f"{room}/{part}")
        for path, text in texts.items():
            self.write(f"{room}/{path}", text)
        if stated:
            for path, text in source.texts_in(room).items():
                self.write(
                    f"{room}/{path}",
                    source.without_bodies(path, text, lambda it: source.overlap({it}, kept)),
                )
            self.write(f"{room}/proofs/Taken.antt", HOLE)
            self.write(f"{room}/proofs/Lib.antt", "mod Taken\n", "a")
        if "proofs/Second.antt" in texts:
            self.write(f"{room}/proofs/Lib.antt", "mod Second\n", "a")
        for it in stated:
            self.leave_open(it, room)
        words = [
            *([] if leaves else WITHOUT_FILES),
            RATTLE,
            "check",
            *self.words(),
            "--jobs",
            "1",
            "--allow-holes",
            "--short-goals",
        ]
        if leaves or os.path.isdir(f"{place}/checked"):
            words += ["--incremental", f"{place}/checked"]
        return run(words + [word for it in only for word in ("--only", it)], room, LONGEST)

    def check_whole(self):
        """Checks the crate as it stands, from nothing."""
        with tempfile.TemporaryDirectory(prefix="edits-") as room:
            for part in PARTS:
                if os.path.isdir(f"{self.folder}/{part}"):
                    shutil.copytree(f"{self.folder}/{part}", f"{room}/{part}")
            return run([RATTLE, "check", *self.words(), "--jobs", "1"], room, LONGEST)

    def check_tests(self, modules):
        """Checks these modules of a crate of tests."""
        words = [RATTLE, "check", *self.words(), "--test", "--jobs", "1"]
        return run(
            words + [word for it in modules for word in ("--only", it)], self.folder, LONGEST
        )

    def leave_open(self, function, room):
        """Has the function's proof rest on a hole."""
        place = f"{room}/proofs/{function.replace('::', '/')}"
        for it in ("Invariants.antt", "Answers.antt"):
            if os.path.isfile(f"{place}/{it}"):
                os.remove(f"{place}/{it}")
        self.write(
            f"{place}/Proof.antt",
            TAKEN.format(
                module=f"Rattle.{self.name}.proofs.{function.replace('::', '.')}.Statement",
                crate=self.name,
                name=function.rpartition("::")[2],
            ),
        )

    @staticmethod
    def write(file, text, how="w"):
        os.makedirs(os.path.dirname(file), exist_ok=True)
        with open(file, how, encoding="utf-8") as it:
            it.write(text)


class Built(Crate):
    """A crate that `make build` proved, as it proved those below it."""

    is_built = True

    def rlib(self, name):
        return f"{self.crates}/{name}/out/build/{name}.rlib"

    def log(self):
        """Returns what was said of its proof."""
        with open(f"{self.folder}/out/build.log", encoding="utf-8", errors="replace") as file:
            return file.read()


ERROR = re.compile(r"(?:\./)?(\S+?):\d+:\d+: error: (?:(`[^`]*`): )?(.*)")
# A goal that is left open, and a declaration of a proof file that isn't taken.
OPEN = re.compile(r"note: src/\S+: it is not proved .*\(`([^`]+)`\)")
UNTAKEN = re.compile(
    r"(?:\./)?(\S+?):\d+:\d+: (?:error: )?`([^`]*)`(?::| is not admitted| was not admitted)"
)
# What an error says of an answer to a goal that the function has no more.
RENAMED = re.compile(r"`goal\.[^`]+`: module `[^`]+` has no `")
# What an error says of a text that can't be read, where one that is read and false says something
# else.
UNREAD = re.compile(
    r"is not in scope|has no field|is no name|operand is missing|expected the end|cannot continue"
)
# What an error in a proof file says where it names what an edit took away, or cites such a place.
NAMES = re.compile(r"has no field|is not in scope|has no `|was not admitted")
VERDICT = re.compile(r"(fn|impl|struct|enum|trait) (\S+): (.*)")
PROVED = re.compile(r"fn (\w+)::(\S+): proved\Z")


def proved_in(lines):
    """Returns the functions of which the lines say that they are proved, by crate, but for tests,
    which only a check of tests reads."""
    found = defaultdict(set)
    for crate, name in (it.groups() for it in map(PROVED.match, lines) if it):
        if "tests" not in name.split("::"):
            found[crate].add(name)
    return found


class Told:
    """What a check said: whether it came to its end, which functions it told of, which of them it
    refused for themselves, with the line, and which of these only because a proof file names what
    isn't there; of each function the goals that were left open or whose answer was refused, and
    whether an answer is to a goal that there isn't."""

    def __init__(self, ran, crate):
        lines = ran.said.rstrip("\n").split("\n")
        self.ended = ran.status in (0, 1) and bool(
            re.match(r"only=\d+ (holes|proved)=\d+\Z", lines[-1])
        )
        self.unread = next((it for it in lines if self.is_unread(it)), "")
        self.functions, self.refused, self.by_names = set(), {}, set()
        # the names of the declarations of each folder of proofs/ that weren't taken, and of them
        # those to goals that there aren't
        self.untaken, self.renamed, self.open = {}, {}, {}
        wrong, goals, open_ = {}, 0, set()
        for line in lines:
            error, verdict = ERROR.match(line), VERDICT.match(line)
            self.read_untaken(line)
            if error and error[1].startswith("proofs/"):
                wrong.setdefault(os.path.dirname(error[1])[len("proofs/") :], []).append(
                    bool(NAMES.search(error[3]))
                )
            elif re.match(r"note: src/\S+: it is not proved", line):
                # (such notes stand above the line of their function)
                goals += 1
                open_ |= {it[1] for it in [OPEN.match(line)] if it}
            elif verdict:
                name = (
                    verdict[2][len(crate) + 2 :]
                    if verdict[2].startswith(crate + "::")
                    else verdict[2]
                )
                self.functions.add(name)
                if self.is_for_itself(verdict[1], crate, name, verdict[3], goals):
                    self.refused[name] = line
                    errors = wrong.get(name.replace("::", "/"), [])
                    if (
                        errors
                        and all(errors)
                        and not goals
                        and "`search` did not prove" not in line
                    ):
                        self.by_names.add(name)
                self.open[name] = open_
                goals, open_ = 0, set()

    def read_untaken(self, line):
        untaken = UNTAKEN.match(line)
        if untaken and untaken[1].startswith("proofs/"):
            folder = os.path.dirname(untaken[1])[len("proofs/") :]
            kind = self.renamed if RENAMED.search(line) else self.untaken
            kind.setdefault(folder, set()).add(untaken[2])

    def goals(self, function):
        """Returns the goals of a function that were left open or whose answer was refused."""
        return self.open.get(function, set()) | self.untaken.get(function.replace("::", "/"), set())

    def lost_an_answer(self, function):
        """Returns whether the proof file answers a goal that the function has no more."""
        return function.replace("::", "/") in self.renamed

    @staticmethod
    def is_unread(line):
        error = ERROR.match(line)
        return bool(
            error
            and error[1].startswith(("src/", "specs/"))
            and (not error[2] or UNREAD.search(error[3]))
        )

    @staticmethod
    def is_for_itself(kind, crate, name, why, goals):
        """Returns whether one of so many goals that were told or an answer of its own was refused,
        and not only what it calls or stands on. A function that the borrow checker doesn't cover,
        or that calls one without a proof, has no goals, so nothing is refused of it.
        """
        if not why.startswith(("not proved", "no proof")):
            return False
        own = f"Rattle.{crate}.proofs.{name.replace('::', '.')}."
        if goals or "`search` did not prove" in why or "expected answers in" in why or own in why:
            return True
        return kind == "fn" and not re.search(r"it calls|it stands on|the borrow checker", why)


def is_part(told, function):
    """Returns whether what the prover speaks of is the function, or a closure in it."""
    plain = told.replace("::fn::", "::").partition("+")[0]
    ends = lambda it: it == function or it.endswith("::" + function)
    return (
        ends(told)
        or "::fn::" in told
        and any(ends(plain[: at.start()]) for at in re.finditer("::", plain))
    )
