#!/usr/bin/env python3
"""Runs all that needs no proof, in groups side by side: the documents against the tree, the model
against its worked examples, the cases over the program, the worked examples with each allocation
refused, and the tests in Rattle.

The cases run in a copy of the tree that has only what the gate has for them, so that one which reads
more fails here too, and not an hour later.

The program is the one that `make build` proved, where nothing has changed since, and else one that
is built without proofs, at once with the tests in Rattle. What takes longest begins first, by the
times that earlier runs on this machine took, or else those of tests/times.txt; as many groups run as
there are processors for what they need, since most wait. On a terminal a line says how far it is,
and each group has a line as it ends; of a case that fails, so has the command that runs it alone. A
group of cases in which one fails runs again by itself at the end, since cases that measure a time
are of a machine that has time: what fails then too has failed. What failed stands at the end once
more. The last line is 'N passed, M failed', and the status 1 where anything failed.
"""
import argparse
import json
import os
import re
import shlex
import shutil
import signal
import subprocess
import sys
import tempfile
import threading
import time
from concurrent.futures import FIRST_COMPLETED, ThreadPoolExecutor, wait

sys.dont_write_bytecode = True
TESTS = os.path.dirname(os.path.realpath(__file__))
TOP = os.path.dirname(TESTS)
sys.path[1:1] = [f"{TOP}/scripts"]

from files import copy_for_cases, copy_for_refusals
from progress import Progress

# The crates of tests in Rattle, and those that have tests near the end of their numbers.
CRATES = ["mq_ends_tests", "mq_store_tests"]
NEAR = "near_the_end"
# The name of all groups of tests/program, and those of them that read the crates, which run where
# these are.
CASES, OF_SOURCES = "program", ["sentences"]
# A group that takes so many seconds hangs.
LONGEST = 30 * 60
# Where more groups fail than these, it isn't for want of time, and none runs again.
FEW = 6
# So many groups run at once for each processor, however little they need.
MOST_FOR_A_PROCESSOR = 4
COUNTS = re.compile(r"(\d+) passed, (\d+) failed\n\Z")
# Lines of a group's name, its seconds by the clock and those of a processor.
TIMES = f"{TESTS}/times.txt"
HEAD_OF_TIMES = """\
# How long each group of `make test` takes: seconds by the clock, and of a processor. Groups begin by
# these times on a machine that has none of its own. `python3 tests/run.py --note-times` writes them.
"""
# Lines that say which function of a group has begun, and what a case or a test came to.
FUNCTION = re.compile(r"-- \w+: (\w+)\Z")
FAILED = re.compile(r"NOT |test \S+ \.\.\. (?!ok\b|ignored\b)")
# So many lines of what a group said stand where it failed without one of a case.
SAID = 12


class Group:
    """What is run by one command: its name, the words, whether it wants the program, about how many
    seconds it takes and how many processors, where no run has measured that, the words that run of
    it the case of a line alone, after a function's name, and the tree in which it runs."""

    is_of_cases = False

    def __init__(self, name, words, alone, wants_program=False, seconds=1.0, need=1.0, tree=TOP):
        self.name, self.words, self.alone, self.wants_program = name, words, alone, wants_program
        self.seconds, self.need, self.tree = seconds, need, tree


class Cases(Group):
    """A group of tests/program."""

    is_of_cases = True

    def __init__(self, name, program, tree):
        self.program = os.path.relpath(program, TOP)
        words = [sys.executable, f"{tree}/tests/program/run.py", "--group", name, program]
        # (one whose file is longer takes longer)
        seconds = os.path.getsize(f"{TESTS}/program/cases/{name}.py") / 1000
        super().__init__(name, words, self.alone_of, True, seconds, 0.5, tree)

    def alone_of(self, _, function):
        return [
            *("python3", "tests/program/run.py", "--group", self.name, self.program),
            *([function] if function else []),
        ]


class Ran:
    """How a group ended: what it said, its status, and its seconds by the clock and of a
    processor."""

    def __init__(self, said, status, seconds, work):
        self.said, self.status, self.seconds, self.work = said, status, seconds, work
        found = COUNTS.search(said)
        self.passed, self.failed = map(int, found.groups()) if found else (0, 0)
        self.is_well = status == 0 and self.passed > 0 and not self.failed
        if not self.is_well and not self.failed:
            self.failed = 1


class Running:
    """The commands that run, each in a process group of its own, so that they can be ended."""

    lock, pids, is_over = threading.Lock(), set(), False

    @classmethod
    def end(cls):
        with cls.lock:
            cls.is_over = True
            for pid in cls.pids:
                os.killpg(pid, signal.SIGTERM)

    @classmethod
    def run(cls, words, tree=TOP):
        with tempfile.TemporaryFile("w+", errors="replace") as said:
            with cls.lock:
                if cls.is_over:
                    return Ran("", 1, 0, 0)
                begun = time.monotonic()
                process = subprocess.Popen(
                    words,
                    cwd=tree,
                    stdin=subprocess.DEVNULL,
                    stdout=said,
                    stderr=subprocess.STDOUT,
                    preexec_fn=os.setpgrp,
                )
                cls.pids.add(process.pid)
            timer = threading.Timer(LONGEST, lambda: os.killpg(process.pid, signal.SIGKILL))
            timer.daemon = True
            timer.start()
            # (not reaped while its number is still among those that may be ended)
            os.waitid(os.P_PID, process.pid, os.WEXITED | os.WNOWAIT)
            timer.cancel()
            with cls.lock:
                cls.pids.discard(process.pid)
            _, status, usage = os.wait4(process.pid, 0)
            process.returncode = os.waitstatus_to_exitcode(status)
            said.seek(0)
            return Ran(
                said.read(),
                process.returncode,
                time.monotonic() - begun,
                usage.ru_utime + usage.ru_stime,
            )


class Times:
    """How long each group took in earlier runs on this machine, or else in the run that noted it:
    the seconds by the clock, and those of a processor."""

    def __init__(self):
        base = os.environ.get("XDG_CACHE_HOME", "")
        base = base if os.path.isabs(base) else os.path.expanduser("~/.cache")
        self.file, self.known = f"{base}/mailquota/times-of-tests", dict(noted_times())
        try:
            with open(self.file, encoding="ascii") as file:
                self.known |= {
                    name: (float(seconds), float(work))
                    for name, (seconds, work) in json.load(file).items()
                }
        except (OSError, ValueError, TypeError, AttributeError):
            pass

    def of(self, group):
        """The seconds that it takes, and how many processors it needs for them."""
        seconds, work = self.known.get(group.name, (group.seconds, group.seconds * group.need))
        return seconds, work / max(seconds, 0.1)

    def add(self, name, ran):
        self.known[name] = (round(ran.seconds, 1), round(ran.work, 1))

    def note(self):
        """Notes them for machines that have none."""
        with open(TIMES, "w", encoding="ascii") as file:
            file.write(HEAD_OF_TIMES)
            for name, (seconds, work) in sorted(self.known.items()):
                file.write(f"{name} {seconds:.0f} {work:.0f}\n")

    def keep(self):
        """Keeps them, unless there is no place: they only say in what order groups begin."""
        try:
            os.makedirs(os.path.dirname(self.file), 0o700, exist_ok=True)
            with tempfile.NamedTemporaryFile(
                "w", dir=os.path.dirname(self.file), prefix="new-", delete=False, encoding="ascii"
            ) as file:
                json.dump(self.known, file)
            os.replace(file.name, self.file)
        except OSError:
            pass


def noted_times():
    """The name of each group of tests/times.txt, with its times."""
    with open(TIMES, encoding="ascii") as file:
        for name, seconds, work in (it.split() for it in file if not it.startswith("#")):
            yield name, (float(seconds), float(work))


def size(folder):
    """The bytes of the files in a folder."""
    return sum(os.path.getsize(f"{at}/{it}") for at, _, names in os.walk(folder) for it in names)


class Copies:
    """Copies of the tree, of which each has what one kind of groups may read, and no more."""

    place = None

    @classmethod
    def make(cls):
        """Makes them; returns that of the cases, and that of the refusals."""
        cls.place = tempfile.mkdtemp(prefix="tests-")
        cases, refusals = f"{cls.place}/cases", f"{cls.place}/refusals"
        copy_for_cases(TOP, cases)
        copy_for_refusals(TOP, refusals)
        return cases, refusals

    @classmethod
    def remove(cls):
        if cls.place:
            shutil.rmtree(cls.place, ignore_errors=True)


def groups_of_cases(program, which, tree):
    """The groups of tests/program over a program, as they run in a copy of the tree."""
    listed = subprocess.run(
        [sys.executable, f"{TESTS}/program/run.py", "--list", which],
        stdin=subprocess.DEVNULL,
        capture_output=True,
        text=True,
        check=True,
    ).stdout
    return [Cases(it, program, TOP if it in OF_SOURCES else tree) for it in listed.split()]


def name_of_test(line):
    """The name of the test that a line of a crate's tests is of."""
    return line.split()[1] if line.startswith("test ") else None


def groups_of_all(program):
    """All groups, over this program."""
    python, (for_cases, for_refusals) = sys.executable, Copies.make()
    yield Group(
        "prose",
        [python, f"{TESTS}/prose/run.py"],
        lambda *_: ["python3", "tests/prose/run.py"],
        seconds=2,
    )
    yield Group(
        "model",
        [python, f"{TESTS}/model/rows.py"],
        lambda *_: ["python3", "tests/model/rows.py"],
        seconds=1,
    )
    # (a build reads some ten times as much of the kit)
    for crate in CRATES:
        yield Group(
            crate,
            [python, f"{TOP}/scripts/tests.py", crate],
            lambda line, _, crate=crate: [
                "python3",
                "scripts/tests.py",
                crate,
                *(["--only", name_of_test(line)] if name_of_test(line) else []),
            ],
            seconds=90 + size(f"{TOP}/crates/{crate}/src") / 1000,
        )
    for crate in sorted(os.listdir(f"{TESTS}/{NEAR}")):
        if os.path.isdir(f"{TOP}/crates/{crate}"):
            yield Group(
                f"{NEAR}_{crate}",
                [python, f"{TESTS}/{NEAR}/run.py", crate],
                lambda line, _, crate=crate: ["python3", f"tests/{NEAR}/run.py", crate],
                seconds=60,
            )
    yield Group(
        "refused_allocations",
        [python, f"{for_refusals}/tests/refusals/run.py", program, "--examples"],
        lambda *_: [
            "python3",
            "tests/refusals/run.py",
            os.path.relpath(program, TOP),
            "--examples",
        ],
        True,
        seconds=120,
        # (it can take all, but began last then, once no other group ran)
        need=max(1, processors() / 2),
        tree=for_refusals,
    )
    yield from groups_of_cases(program, "all", for_cases)


def processors():
    return len(os.sched_getaffinity(0))


class Test:
    """A run of groups, of which some wait for the program."""

    def __init__(self, groups, build):
        """`build` makes the program, where there is one to make."""
        self.left, self.build, self.times = groups, build, Times()
        self.all, self.done, self.passed, self.failed = len(groups), 0, 0, 0
        self.running, self.is_broken = {}, False
        # groups of cases that failed beside others, with how they ended, and what is said of those
        # that failed
        self.again, self.faults = {}, []

    def said(self):
        names = [it.name for it in self.running.values()]
        fails = f", {self.failed} failed" if self.failed else ""
        return f"{self.done} of {self.all} groups done{fails}; {', '.join(names)}"

    def next_group(self, is_there):
        """The longest of the groups for which there is a processor, or none. While the program is
        being built, the others are what there is."""
        used = sum(min(self.times.of(it)[1], processors()) for it in self.running.values())
        if len(self.running) >= MOST_FOR_A_PROCESSOR * processors():
            return None
        for group in sorted(self.left, key=lambda it: -self.times.of(it)[0]):
            need = min(self.times.of(group)[1], processors())
            if (is_there or not group.wants_program) and (
                not self.running or used + need <= processors() + 0.5
            ):
                return group
        return None

    def take(self, group, ran, progress):
        """Takes how a group ended. One of cases that failed is to run again by itself."""
        said = f"{group.name}: {ran.passed} passed, {ran.failed} failed, {ran.seconds:.0f} s"
        if ran.is_well:
            said = f"{group.name}: {ran.passed} passed, {ran.seconds:.0f} s"
            self.times.add(group.name, ran)
            progress.tell(f"ok  {said}")
        elif group.is_of_cases and self.all > 1 and group not in self.again:
            progress.tell(f"again alone, once the others have ended: {said}")
            self.explain(group, ran, progress.tell)
            self.again[group] = ran
            return
        else:
            progress.tell(f"NOT {said}")
            self.faults.append(f"    NOT {said}")
            self.explain(group, ran, progress.tell)
            self.explain(group, ran, self.faults.append)
        self.done += 1
        self.passed += ran.passed
        self.failed += ran.failed

    def explain(self, group, ran, tell):
        """Tells what failed in a group, each time with the command that runs it alone."""
        lines, function, found = ran.said.split("\n"), None, False
        for line in lines:
            begun = FUNCTION.match(line)
            function = begun[1] if begun else function
            if FAILED.match(line):
                found = True
                tell(f"    {line}\n      alone: {shlex.join(group.alone(line, function))}")
        if not found:
            ended = f"it ended with status {ran.status}"
            tell("\n    ".join([f"    {ended}:", *lines[-SAID:]]))
            tell(f"      alone: {shlex.join(group.alone('', None))}")

    def run(self, progress):
        with ThreadPoolExecutor(MOST_FOR_A_PROCESSOR * processors() + 1) as pool:
            is_there = self.build is None
            if not is_there and any(it.wants_program for it in self.left):
                program = Group("the program's build", None, None)
                self.running[pool.submit(self.build)] = program
            while self.left or self.running:
                while group := self.next_group(is_there):
                    self.left.remove(group)
                    self.running[pool.submit(Running.run, group.words, group.tree)] = group
                if not self.running:
                    return
                for it in wait(self.running, return_when=FIRST_COMPLETED).done:
                    group = self.running.pop(it)
                    if group.words:
                        self.take(group, it.result(), progress)
                        continue
                    is_there, said = it.result()
                    progress.tell(said)
                    if not is_there:
                        # (none of them can be tried)
                        self.is_broken = True
                        self.left = [group for group in self.left if not group.wants_program]
                        self.failed += 1
                        self.faults.append("    NOT the program: it can't be built")
        for group, ran in self.again.items():
            self.running = {None: group}
            if len(self.again) <= FEW:
                ran = Running.run(group.words, group.tree)
            self.take(group, ran, progress)


def built():
    """Builds the program without proofs; gives whether it is there, and what is said of that."""
    ran = Running.run([sys.executable, f"{TOP}/scripts/unproved.py", "--optimized"])
    if ran.status:
        return False, f"{ran.said}NOT the program: it can't be built, so no case over it is tried"
    return True, ran.said.rstrip("\n") or "the program is built already"


def chosen(groups, names):
    """The groups of these names, or all. None where there is no such group."""
    known = [CASES, *(it.name for it in groups)]
    unknown = [it for it in names if it not in known]
    if unknown:
        print(f"there is no group {unknown[0]}; there are: {' '.join(known)}", file=sys.stderr)
        return None
    return [
        it for it in groups if not names or it.name in names or it.is_of_cases and CASES in names
    ]


def parsed():
    parser = argparse.ArgumentParser(
        description=__doc__, formatter_class=argparse.RawDescriptionHelpFormatter
    )
    parser.add_argument("names", metavar="GROUP", nargs="*", help="only these groups")
    parser.add_argument(
        "--over",
        metavar="PROGRAM",
        type=os.path.abspath,
        help="the cases of tests/program alone, over this program, as the gate has them",
    )
    parser.add_argument(
        "--unproved",
        action="store_true",
        help="over a program that is built without proofs, whatever `make build` made",
    )
    parser.add_argument(
        "--note-times", action="store_true", help="note in tests/times.txt how long groups took"
    )
    return parser.parse_args()


def prepared(asked):
    """The groups, and what builds the program; none where the machine has no kit."""
    if asked.over:
        return groups_of_cases(asked.over, "gate", TOP), None
    # (the cases over a program need no kit)
    import build
    import unproved
    from kit import rows_of, without_kit

    if without_kit():
        return None
    rows = rows_of(TOP)
    if not asked.unproved and build.is_built(rows, build.crates(rows)):
        return list(groups_of_all(build.BINARY)), None
    return list(groups_of_all(unproved.BINARY)), built


def main():
    asked = parsed()

    def end(number, _):
        Running.end()
        Copies.remove()
        os._exit(128 + number)

    for it in (signal.SIGINT, signal.SIGHUP, signal.SIGTERM):
        signal.signal(it, end)
    try:
        found = prepared(asked)
        groups = found and chosen(found[0], asked.names)
        if not groups:
            return 2
        test = Test(groups, found[1])
        with Progress(test.said) as progress:
            test.run(progress)
        test.times.keep()
        if asked.note_times:
            test.times.note()
    finally:
        Copies.remove()
    # (once more, since the first time they may stand far above)
    failed = ["what failed:", *test.faults] if test.faults else []
    print("\n".join([*failed, f"{test.passed} passed, {test.failed} failed"]))
    return 1 if test.failed or not test.passed else 0


if __name__ == "__main__":
    sys.exit(main())
