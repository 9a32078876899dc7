"""Runs of the program in each of which one allocation is refused, and how they end."""
import collections
import concurrent.futures
import contextlib
import os
import socket
import sqlite3
import struct
import subprocess
import tempfile
import threading
import time

from ends import free_port

# runs at once
JOBS = int(os.environ.get("JOBS", "3"))
# how long one run may take
SECONDS = 30
# where there are more allocations than MANY, each of the first and the last ones and some between
# are refused
MANY = 3_000
FIRST = 1_500
LAST = 200

RIGHT = "right"
FAILED_TRY = "right behind a failed try"
RETRY = "retry"
CUT = "connection ended"
OUT_OF_MEMORY = "out of memory"

Told = collections.namedtuple("Told", "asked refused connections listened")
NOTHING = Told(0, 0, 0, 0)
# how a run ended, what it told, and what is wrong with it, if anything
Run = collections.namedtuple("Run", "ending told fault")


class Refusals:
    """The program, the library that refuses, and a folder; numbers and ports that no two runs
    share."""

    def __init__(self, program, library, folder, whole, only_examples):
        self.program = program
        self.library = library
        self.folder = folder
        self.whole = whole or only_examples
        self.only_examples = only_examples
        self.guard = threading.Lock()
        self.made = 0
        self.ports = collections.deque(maxlen=256)

    def unused(self):
        """A number that no run had."""
        with self.guard:
            self.made += 1
            return self.made

    def port(self):
        """A free port that no run had lately, so that runs at the same time don't take each
        other's."""
        with self.guard:
            while (port := free_port()) in self.ports:
                pass
            self.ports.append(port)
            return port

    def new_file(self, content, folder=None):
        """The path of a file of settings, in a run's folder if it is one's."""
        path = f"{folder or self.folder}/{self.unused()}.toml"
        with open(path, "w", encoding="ascii") as file:
            file.write(content)
        return path

    def environment(self, number, told):
        """What makes the library refuse this allocation, and count in this file."""
        return {"LD_PRELOAD": self.library, "REFUSE_AT": str(number), "REFUSE_COUNT": told}

    def run(self, folder, number, *words, text=b""):
        """Runs a subcommand to its end; gives its status, output and errors, and what it told."""
        told = f"{folder}/told"
        ended = subprocess.run(
            [self.program, *words],
            input=text,
            capture_output=True,
            timeout=SECONDS,
            env=self.environment(number, told),
        )
        return (
            ended.returncode,
            ended.stdout,
            ended.stderr.decode(errors="replace"),
            read_told(told),
        )


class Command:
    """Runs of a command that has no input and asks nobody: `begin` puts its files into a folder and
    gives the words, and `judge` says what is right of a status, an output, errors, what was told
    and the folder.

    Where many are wanted, the command forks at each allocation, so that what comes before it isn't
    done once more for each."""

    def __init__(self, refusals, begin, judge):
        self.refusals, self.begin, self.judge = refusals, begin, judge

    def __call__(self, number, folder):
        """A run of its own."""
        return self.judge(*self.refusals.run(folder, number, *self.begin(folder)), folder)

    def forked(self, numbers):
        """The runs in which these allocations are refused."""
        runs = []
        while len(runs) < len(numbers):
            with tempfile.TemporaryDirectory(dir=self.refusals.folder) as folder:
                with Forking(self, folder, numbers[len(runs)]) as process:
                    runs += process.runs(numbers[len(runs) :])
        return runs


class Forking:
    """A process of a command in which nothing is refused, and which forks at allocations. All that
    fork from it work in its folder, one after the other, and what each changed is put back."""

    def __init__(self, command, folder, first):
        self.command, self.told, self.files = command, f"{folder}/told", f"{folder}/files"
        os.mkdir(self.files)
        # (what is written comes behind what is there, since it is cut back)
        self.said = [open(f"{folder}/{it}", "a+b", 0) for it in ("output", "errors")]
        refusals = command.refusals
        self.talk, other = socket.socketpair()
        self.talk.settimeout(SECONDS)
        self.process = subprocess.Popen(
            [refusals.program, *command.begin(self.files)],
            stdin=subprocess.DEVNULL,
            stdout=self.said[0],
            stderr=self.said[1],
            env={**refusals.environment(first, self.told), "REFUSE_TALK": str(other.fileno())},
            pass_fds=[other.fileno()],
        )
        other.close()

    def __enter__(self):
        return self

    def __exit__(self, *_):
        self.process.kill()
        self.process.wait()
        for it in [self.talk, *self.said]:
            it.close()

    def runs(self, numbers):
        """The runs that are forked at these allocations, at least the first of them. Where it ended
        before it came to one, it is that run itself, in which none was refused."""
        runs = []
        for number, after in zip(numbers, [*numbers[1:], 0]):
            is_left = False

            def made():
                nonlocal is_left
                if not self.has_come(number):
                    self.process.wait(SECONDS)
                    return self.judged(self.process.returncode)
                before = self.state()
                run = self.judged(self.status_of_child(number))
                is_left = self.put_back(before)
                return run

            runs.append(attempted(number, made))
            if not is_left:
                break
            self.answer(after)
        return runs

    def has_come(self, number):
        """Whether it came to an allocation, or else ended."""
        said = self.heard()
        assert said in (None, (number, -1)), f"it forks at {said}"
        return said is not None

    def status_of_child(self, number):
        """How the child ended that is now forked."""
        self.answer(0)
        said = self.heard()
        assert said and said[0] == number, f"it says {said} of its child"
        return os.waitstatus_to_exitcode(said[1])

    def heard(self):
        said = self.talk.recv(16)
        return struct.unpack("=qq", said) if said else None

    def answer(self, number):
        # (where it has ended, what is heard next says so)
        with contextlib.suppress(BrokenPipeError):
            self.talk.sendall(struct.pack("=q", number))

    def judged(self, status):
        """What came of the process that ended with this status."""
        output, errors = map(content_of, self.said)
        said = errors.decode(errors="replace")
        return self.command.judge(status, output, said, read_told(self.told), self.files)

    def state(self):
        """How long what was said is, and of each file which one it is, and its content. Of what a
        server reserves the length says all."""
        found = {}
        for it in os.scandir(self.files):
            if it.name.endswith(".ballast"):
                found[it.name] = (it.inode(), it.stat().st_size), b""
            else:
                with open(it.path, "rb", 0) as file:
                    found[it.name] = it.inode(), file.read()
        return [len(content_of(it)) for it in self.said], found

    def put_back(self, before):
        """Makes all as it was; gives whether that is done, as it isn't where a file was replaced
        that the process may have open."""
        (lengths, files), (_, found) = before, self.state()
        for said, length in zip(self.said, lengths):
            said.truncate(length)
        for name, (which, content) in files.items():
            if name not in found or found[name][0] != which:
                return False
            if found[name][1] != content:
                with open(f"{self.files}/{name}", "r+b") as file:
                    file.write(content)
                    file.truncate()
        for name in {*found} - {*files}:
            os.remove(f"{self.files}/{name}")
        return True


def content_of(file):
    file.seek(0)
    return file.read()


def read_told(path):
    with open(path, "rb") as file:
        content = file.read()
    return Told(*(int.from_bytes(content[place : place + 8], "little") for place in (0, 8, 16, 24)))


def chosen(asked, whole, every):
    """The allocations that are refused: each, or where there are many each of the first and the
    last ones and some between."""
    if whole or every == 1 and asked <= MANY:
        return list(range(1, asked + 1)), "each refused once"
    first = FIRST if every == 1 else 0
    step = every if every > 1 else -(-(asked - FIRST) // FIRST)
    numbers = {
        *range(1, first + 1),
        *range(first + 1, asked + 1, step),
        *range(asked - LAST + 1, asked + 1),
    }
    begin = f"the first {first}, " if first else ""
    return sorted(numbers), f"{begin}every {step}. and the last {LAST} refused once"


def attempted(number, made):
    """A run that is made so, whatever it does; a fault has the number of the allocation."""
    try:
        run = made()
    except (
        OSError,
        subprocess.SubprocessError,
        sqlite3.Error,
        ValueError,
        IndexError,
        AssertionError,
    ) as error:
        return Run("fault", NOTHING, f"allocation {number}: {error!r}")
    return run._replace(fault=f"allocation {number}: {run.fault}") if run.fault else run


def alone(refusals, one, number):
    """A run in a folder of its own."""

    def made():
        with tempfile.TemporaryDirectory(dir=refusals.folder) as folder:
            return one(number, folder)

    return attempted(number, made)


def sweep(refusals, checks, what, one, every=1, is_example=False):
    """Refuses each allocation of a case in turn: `one` makes a run in which the allocation of this
    number is refused, with its files in a folder, unless it is a command, which forks at each. The
    worked examples may be wanted alone."""
    if refusals.only_examples and not is_example:
        return
    whole = alone(refusals, one, 0)
    checks.equal(
        f"{what}: with nothing refused",
        (whole.ending, whole.fault, whole.told.refused),
        (RIGHT, None, 0),
    )
    asked = whole.told.asked
    checks.holds(f"{what}: allocations", asked > 10, "more than 10", asked)
    numbers, said = chosen(asked, refusals.whole, every)
    began = time.monotonic()
    with concurrent.futures.ThreadPoolExecutor(JOBS) as pool:
        if isinstance(one, Command):
            shares = pool.map(one.forked, [numbers[job::JOBS] for job in range(JOBS)])
            runs = [run for share in shares for run in share]
        else:
            runs = list(pool.map(lambda number: alone(refusals, one, number), numbers))
    tell(checks, what, runs)
    endings = collections.Counter(run.ending for run in runs)
    shown = ", ".join(f"{count} {ending}" for ending, count in endings.most_common())
    print(
        f"{what}: {asked} allocations, {said}: {shown} ({time.monotonic() - began:.0f} s)",
        flush=True,
    )


def tell(checks, what, runs):
    faults = [run.fault for run in runs if run.fault]
    for fault in faults[:10]:
        print(f"    {fault[:400]}", flush=True)
    checks.equal(f"{what}: runs that ended otherwise", len(faults), 0)
    # a run whose allocation wasn't reached shows nothing; a server allocates a little less where a
    # peer's bytes come in fewer pieces
    missed = sum(1 for run in runs if not run.fault and run.told.refused != 1)
    good = missed <= len(runs) // 100
    checks.holds(
        f"{what}: allocations that weren't reached", good, "at most one of a hundred", missed
    )
    ended = any(run.ending == OUT_OF_MEMORY for run in runs)
    checks.equal(f"{what}: some run ended for want of memory", ended, True)
