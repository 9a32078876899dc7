#!/usr/bin/env python3
"""The gate, and the must-fail edits in rounds.

What the gate finds as it must be is kept on this machine, by the sums of all that it was made from,
and isn't tried again. 'must-fail' takes what the gate kept, and keeps nothing: its libraries may
stand on what checks left. The last line is 'N passed, M failed', whatever happens, and the status 1
where anything failed.
"""
import argparse
import collections
import hashlib
import os
import re
import resource
import shutil
import signal
import subprocess
import sys
import tempfile
import traceback

sys.dont_write_bytecode = True
HERE = os.path.dirname(os.path.realpath(__file__))
TOP = os.path.dirname(HERE)
sys.path[:0] = [HERE, f"{TOP}/scripts"]

import last_runs
import minutes
from files import READ_BY_REFUSALS, copy_for_cases, copy_for_refusals, files_for_cases, files_of
from kept import Edits, Kept, Proved, Sums, of_gate, of_kit, sum_of, sum_of_files
from keeping_test import KeepingTest
from lanes import Task, free, in_lanes, processors
from own_test import RoundsTest
from prover import RT, Built, Crate, Ended, Running, below, lines_in, proved_in, rows_of, run
from rounds import Killed, Rounds
from testing import OwnTest
from version import add_to_version, note_word, word_of

# rt ci has the crates' proofs and tests to go through: so many seconds at most.
LONGEST_CI = 170 * 60
# The cases over the built program mostly wait for what it does: so many seconds at most.
LONGEST_CASES = 20 * 60
# What needs no proof is built and run first: so many seconds at most.
LONGEST_FIRST = 60 * 60
PROGRAM = "mailquota"
# How the name of the program ends that each compiler makes.
BUILDS = ("", ".by-rattle")
# The most memory that a check takes, in bytes, with room to spare.
MOST_OF_A_CHECK = 5e9
SIGNALS = (signal.SIGTERM, signal.SIGINT, signal.SIGHUP)
VERBS = {
    "gate": (
        "tests/prose; all of tests/run.py, over a program without proofs; rt ci over a copy of the"
        " tree without its edits, then the must-fail edits in rounds over the libraries that it built, the tests"
        " of the gate itself, the cases of tests/program over the program as each compiler built"
        " it, and the worked examples with each allocation refused; with names, of these crates and"
        " those below"
    ),
    "must-fail": "the gate's edits alone, over libraries that `rt lib` builds where they stand",
    "further": (
        "the same for the edits of crates/CRATE/further, which the gate leaves out; what passes is"
        " kept, and where all crates were asked for it is noted in tests/last_runs.txt"
    ),
    "look": "the gate's edits, each looked at once more, where the gate does so with a few",
}
COUNTS = re.compile(r"(\d+) passed, (\d+) failed\Z")
REFUSED = re.compile(r"rt: (\w+)(: its tests are)? NOT PROVED")
# The last line of a check of some functions: how many they are, and how many are proved.
ONLY = re.compile(r"only=(\d+) proved=(\d+)\Z")
# The tests near the end, the model, the cases and the refusals, as tests/run.py names them.
NEAR, MODEL, CASES, REFUSALS = "near_the_end", "model", "program", "refused_allocations"
# A line of tests/run.py that says what a group came to.
GROUP = re.compile(r"(ok |NOT) (\w+): (\d+) passed(?:, (\d+) failed)?")
# The crates of tests, which are run without their proofs, and what of each is proved all the same:
# that there are sources, sinks, links, ledgers and networks of which contracts say all that they
# carried, and that a caller may know nothing but the trait.
TESTS = {
    "mq_ends_tests": [
        "filter_end::client::devices",
        "filter_end::client::script",
        "server_end::ledger::callers::apply_all",
        "server_end::room::network",
        "server_end::server::devices",
    ],
    "mq_store_tests": [],
}
# So many lines of what rt ci says of a crate that it refuses are told again, and of the cases that
# failed.
SAID = 12


class Sum:
    """What passed and failed so far, how much of it is kept from earlier runs, and the processor
    seconds by crate and kind of work."""

    def __init__(self):
        self.passed, self.failed, self.taken = 0, 0, 0
        self.names, self.seconds = [], collections.Counter()

    def add(self, results):
        for it in results:
            self.passed += it.is_well
            if it.is_well:
                print(f"{it.name}: {it.said}", flush=True)
            else:
                self.fail(it.name, it.said)

    def take(self, name, number):
        """Adds what is kept of earlier runs."""
        print(f"== {name}: {number} kept from earlier runs of the same on this machine", flush=True)
        self.passed += number
        self.taken += number

    def fail(self, name, said, number=1):
        print(f"FAILED {name}: {said}", flush=True)
        self.failed += number
        self.names.append(name)

    def end(self):
        """Prints the last lines, and returns the status."""
        if self.names:
            print(f"FAILED: {', '.join(self.names)}")
        print(f"{self.passed} passed, {self.failed} failed", flush=True)
        return 1 if self.failed else 0


def copy_tree(wanted, tree, edits):
    """Copies the repository with the wanted crates without their further edits. Their must-fail
    edits go into a folder of their own."""
    rows = rows_of(TOP)
    for file in files_of(TOP):
        parts = file.split("/")
        if parts[0] == "crates" and parts[1] in rows and parts[1] not in wanted:
            continue
        part = parts[2] if parts[0] == "crates" and len(parts) > 3 else None
        if part == "further":
            continue
        to = "/".join([edits, parts[1], *parts[3:]]) if part == "must-fail" else f"{tree}/{file}"
        os.makedirs(os.path.dirname(to), exist_ok=True)
        shutil.copy2(f"{TOP}/{file}", to, follow_symlinks=False)
    named = lambda line: (line.partition("#")[0].partition(":")[0].split() or [None])[0]
    with open(f"{TOP}/crates.txt", encoding="utf-8") as file:
        lines = [it for it in file if named(it) is None or named(it) in wanted]
    with open(f"{tree}/crates.txt", "w", encoding="utf-8") as file:
        file.writelines(lines)
    # (rt wants the top of a repository)
    os.mkdir(f"{tree}/.git")


def refusals(lines):
    """Returns of each crate, or its tests, that rt ci refused the line that says so and the last
    lines above it."""
    section = []
    for line in lines:
        if line.startswith("== "):
            section.clear()
        if REFUSED.match(line):
            yield line, section[-SAID:]
        section.append(line)


def anew():
    """Returns the words by which rt ci takes nothing for proved that an earlier run kept on this
    machine: a kit whose rt ci keeps nothing has no word for it."""
    return ["--anew"] if "--anew" in run([RT, "help"], TOP, LONGEST_CI).said else []


def run_ci(tree, words, proved, sum_):
    """Runs rt ci over the tree, adds what it counts and the time of each crate, hands on its lines,
    and returns the crates that it refused."""
    lines = []

    def tell(line):
        # (the last line is to be ours)
        lines.append(line)
        proved.read(line)
        print(f"rt ci: {line}" if COUNTS.match(line) else line, flush=True)

    # One job for each check: copies of a check that share its work load the libraries once more
    # each. (rt then looks at no memory.)
    lanes = str(max(1, min(processors(), int(free() // MOST_OF_A_CHECK))))
    with minutes.Watch(tree) as watch:
        ran = run(["env", f"RT_JOBS={lanes}", RT, "ci", *words], tree, LONGEST_CI, tell)
    sum_.seconds.update(watch.by_crate())
    counts = COUNTS.match(lines[-1]) if lines else None
    passed, failed = map(int, counts.groups()) if counts else (0, 0)
    sum_.passed += passed
    if failed or ran.status != 0 or not counts:
        sum_.fail("rt ci", f"it ended with status {ran.status} and {failed} failed", max(failed, 1))
    # (they stand far above, and a log is often read from its end)
    for line, above in refusals(lines):
        print(
            f"FAILED {line}, behind these lines:",
            *(it[:400] for it in above),
            sep="\n    ",
            flush=True,
        )
    return {it[1] for it in map(REFUSED.match, lines) if it and not it[2]}


def try_edits(every, sum_, others=()):
    """Tries the edits of each crate in rounds, some crates side by side, and other tasks with them.
    What was killed is tried once more, alone."""
    tasks = [*others]
    for rounds in every:
        crate = rounds.crate
        missing = [it for it in crate.below if not os.path.isdir(crate.rlib(it))]
        if rounds.taken:
            sum_.take(f"{rounds.name}, its edits", rounds.taken)
        if missing and rounds.is_left():
            sum_.fail(
                crate.name,
                f"its edits were not tried, since its library {missing[0]} is not proved",
            )
        elif rounds.is_left():
            tasks.append(
                Task(
                    rounds,
                    (3 + len(rounds.files)) * lines_in(crate.folder, ""),
                    crate.memory(),
                    rounds.run,
                )
            )
    killed = [
        rounds for rounds, ended in in_lanes(tasks) if not is_done(rounds, ended.result, sum_)
    ]
    for rounds in killed:
        print(
            f"== {rounds.name}: a check was killed, most likely for memory: once more, alone",
            flush=True,
        )
        if not is_done(rounds, rounds.run, sum_):
            sum_.fail(rounds.name, "a check of its edits was killed twice, most likely for memory")


def is_done(rounds, call, sum_):
    """Returns whether the rounds came to their end, and adds what they found."""
    try:
        call()
    except Killed:
        return False
    except Exception as why:
        traceback.print_exc(file=sys.stdout)
        sum_.fail(rounds.name, f"the rounds of its edits broke off: {why!r}")
    else:
        print(f"== {rounds.name}: {rounds.summary()}, {rounds.seconds:.0f} s", flush=True)
        sum_.add(rounds.results)
    sum_.seconds[rounds.name, "edits"] += rounds.seconds
    return True


def groups():
    """Returns the names of what has cases: the groups of tests/program, and the crates, of which
    some have tests."""
    folder = f"{TOP}/tests/program/cases"
    files = os.listdir(folder) if os.path.isdir(folder) else []
    return {*rows_of(TOP), *(it[: -len(".py")] for it in files if it.endswith(".py"))}


def gate(names, sum_, takes):
    rows, kept = rows_of(TOP), Kept(takes)
    wanted = {*names}.union(*(below(it, rows) for it in names)) or {*rows}
    run_prose(sum_)
    run_first(wanted, kept, sum_)
    if sum_.failed:
        print("Something fails that needs no proof, so nothing is proved and no edit is tried.")
        return
    with tempfile.TemporaryDirectory(prefix="gate-") as room:
        tree, edits = f"{room}/tree", f"{room}/edits"
        os.makedirs(edits)
        copy_tree(wanted - {*TESTS}, tree, edits)
        for it in {*os.listdir(edits)} - {*rows}:
            sum_.fail(it, "it has must-fail edits, and is no crate of crates.txt")
        sums = Sums(tree)
        word = add_commit(tree, sums)
        proved = Proved(kept, sums)
        refused = run_ci(tree, [] if takes else anew(), proved, sum_)
        for it in sorted(refused & {*os.listdir(edits)}):
            sum_.fail(it, "its edits were not tried, since it is not proved")
        every, cases = [], groups()
        for it in (it for it in rows_of(tree) if it not in refused):
            place = f"{edits}/{it}"
            every.append(
                Rounds(
                    Crate(tree, it), place, proved.of, cases, Edits(kept, sums, it, place, cases)
                )
            )
        own = [it for it in map(OwnTest, (RoundsTest, KeepingTest)) if not is_kept(it, kept, sum_)]
        try_edits(every, sum_, [Task(it, 0, 1e9, it.run) for it in own])
        for it in own:
            if it.results and all(result.is_well for result in it.results):
                kept.keep([name_of(it)], len(it.results))
        # (last, with nothing else running: they wait for what others do)
        if PROGRAM in rows_of(tree):
            run_cases(tree, f"{room}/cases", word, kept, sum_)
            run_refusals(tree, f"{room}/refusals", word, kept, sum_)
        prove_tests([it for it in TESTS if it in wanted], tree, kept, sum_)
    kept.shrink()
    whole = resource.getrusage(resource.RUSAGE_CHILDREN)
    print("\n".join(minutes.table(sum_.seconds, whole.ru_utime + whole.ru_stime)), flush=True)
    print(
        (
            f"Of what passed, {sum_.taken} were kept by earlier runs on this machine, and"
            f" {sum_.passed - sum_.taken} are of this one; how much of its own rt ci had kept, its"
            " line 'rt: ok' says."
        ),
        flush=True,
    )


def name_of(test):
    """Returns the name of what a test of the gate itself found, which reads the gate's scripts and
    the kit."""
    return sum_of(test.name, of_gate(True), of_kit(), sys.version)


def is_kept(test, kept, sum_):
    """Returns whether a test of the gate itself passed in an earlier run, and adds that."""
    number = kept.take([name_of(test)])
    if number:
        sum_.take(f"{test.name}, its own test", number)
    return bool(number)


def run_prose(sum_):
    """Looks whether the documents agree with the tree: over all of it, whatever crates are wanted,
    since that takes two seconds."""
    add_cases(
        "tests/prose", run([sys.executable, f"{TOP}/tests/prose/run.py"], TOP, LONGEST_CASES), sum_
    )


def run_first(wanted, kept, sum_):
    """Runs what needs no proof, side by side: the model against its worked examples, the tests in
    Rattle of these crates, and with the program the cases and the refusals, over a build without
    proofs."""
    rows = rows_of(TOP)

    def of_crates(names):
        """A sum of what a build without proofs reads of these crates and those below."""
        crates = sorted({crate for it in names for crate in (*below(it, rows), it)})
        return sum_of(
            [(it, rows[it]) for it in crates],
            sum_of_files(TOP, ["HANDLES", *(f"crates/{it}/src" for it in crates)]),
        )

    scripts = sum_of_files(TOP, ["scripts", "tests/run.py"])
    sum_for = lambda *parts: [sum_of("first", of_gate(), of_kit(), sys.version, scripts, *parts)]
    made = {it: sum_for(it, of_crates([it])) for it in TESTS if it in wanted}
    for it in sorted(it for it in wanted if os.path.isdir(f"{TOP}/tests/{NEAR}/{it}")):
        made[f"{NEAR}_{it}"] = sum_for(it, of_crates([it]), sum_of_files(TOP, [f"tests/{NEAR}"]))
    if PROGRAM in wanted:
        made[MODEL] = sum_for(MODEL, sum_of_files(TOP, ["tests/model"]))
        program = of_crates([PROGRAM])
        made[CASES] = sum_for(CASES, program, sum_of_files(TOP, files_for_cases(TOP)))
        made[REFUSALS] = sum_for(REFUSALS, program, sum_of_files(TOP, READ_BY_REFUSALS))
    left = []
    for name, sums_of_it in made.items():
        number = kept.take(sums_of_it)
        if number:
            sum_.take(f"{name}, without proofs", number)
        else:
            left.append(name)
    if not left:
        return
    found, failed = collections.Counter(), {*()}

    def tell(line):
        # (the last line is to be ours)
        if not COUNTS.match(line):
            print(line, flush=True)
        told = GROUP.match(line)
        if told:
            name = told[2] if told[2] in made else CASES
            found[name] += int(told[3])
            if told[1] == "NOT":
                failed.add(name)

    words = [sys.executable, f"{TOP}/tests/run.py", "--unproved", *left]
    print("== what needs no proof", flush=True)
    ran = run(words, TOP, LONGEST_FIRST, tell)
    sum_.seconds["tests/run.py", "test"] += ran.seconds
    sum_.passed += sum(found.values())
    if ran.status or failed:
        counts = COUNTS.match(ran.said.rstrip("\n").split("\n")[-1])
        sum_.fail(
            "tests/run.py",
            f"it ended with status {ran.status}; what fails stands above",
            max(int(counts[2]) if counts else 0, 1),
        )
    for name in left:
        if found[name] and name not in failed and ran.status in (0, 1):
            kept.keep(made[name], found[name])


def add_commit(tree, sums):
    """Adds the commit to the version in a copy of the tree, as `make build` does, where the tree is
    as committed, and returns it. No contract speaks of it, so what is kept of the program's crate
    is kept by its files without it."""
    word, crate = word_of(TOP), f"{tree}/crates/{PROGRAM}"
    if word and os.path.isdir(crate):
        sums.of_crate(PROGRAM)
        add_to_version(crate, word)
    return word


def sum_of_program(program, word):
    """Returns a sum of a program but for the commit that it is of: with another one in its version
    it does the same."""
    with open(program, "rb") as file:
        content = file.read()
    return hashlib.sha256(content.replace(word.encode(), b"")).hexdigest()


def run_cases(tree, place, word, kept, sum_):
    """Runs the cases of tests/program over the program as each compiler built it, one after the
    other, in a place where nothing is but what their results are kept by."""
    copy_for_cases(tree, place)
    note_word(f"{tree}/crates/{PROGRAM}", word)
    read, counts = sum_of_files(place, os.listdir(place)), set()
    for ending in BUILDS:
        program = f"{tree}/crates/{PROGRAM}/out/{PROGRAM}{ending}"
        of_program = ending, sum_of_program(program, word)
        made = [sum_of("cases", of_gate(), sys.version, read, of_program)]
        words = [sys.executable, f"{place}/tests/run.py", "--over", program]
        counts.add(
            taken_or_run(f"tests/program over {PROGRAM}{ending}", made, words, place, kept, sum_)
        )
    if len(counts) > 1:
        sum_.fail("tests/program", "over one build it tried more cases than over the other")


def run_refusals(tree, place, word, kept, sum_):
    """Has the program go through the worked examples with each of its allocations refused in turn,
    in a place where nothing is but what the result is kept by."""
    program = f"{tree}/crates/{PROGRAM}/out/{PROGRAM}"
    copy_for_refusals(tree, place)
    read = sum_of_files(place, os.listdir(place))
    made = [sum_of("refusals", of_gate(), sys.version, read, sum_of_program(program, word))]
    words = [sys.executable, f"{place}/tests/refusals/run.py", program, "--examples"]
    taken_or_run("tests/refusals", made, words, place, kept, sum_)


def prove_tests(names, tree, kept, sum_):
    """Proves the modules of these crates of tests that are to be proved."""
    for it in names:
        shutil.copytree(
            f"{TOP}/crates/{it}",
            f"{tree}/crates/{it}",
            ignore=shutil.ignore_patterns("out", "must-fail", "further"),
        )
    shutil.copy2(f"{TOP}/crates.txt", f"{tree}/crates.txt")
    sums = Sums(tree)
    for it in names:
        prove_of_tests(Crate(tree, it), sums, kept, sum_)


def prove_of_tests(crate, sums, kept, sum_):
    """Proves the modules of a crate of tests that are to be proved, over the libraries that rt ci
    built."""
    modules, name = TESTS[crate.name], f"{crate.name}, what is proved of it"
    missing = [it for it in crate.below if not os.path.isdir(crate.rlib(it))]
    if not modules:
        return
    if missing:
        sum_.fail(name, f"its library {missing[0]} is not proved")
        return
    made = sums.names("proved of tests", crate.name, of_gate(), modules)
    number = kept.take(made)
    if number:
        sum_.take(name, number)
        return
    ran = crate.check_tests(modules)
    sum_.seconds[crate.name, "prove"] += ran.seconds
    count = ONLY.match(ran.said.rstrip("\n").split("\n")[-1])
    if ran.status == 0 and count and count[1] == count[2] != "0":
        print(f"== {name}: {count[1]} functions, {ran.seconds:.0f} s", flush=True)
        sum_.passed += int(count[1])
        kept.keep(made, int(count[1]))
    else:
        print(*ran.said.split("\n")[-SAID:], sep="\n", flush=True)
        sum_.fail(name, f"the check ended with status {ran.status}")


def taken_or_run(name, made, words, folder, kept, sum_):
    """Adds what these cases came to, in an earlier run or in this one, and returns how many they
    are."""
    number = kept.take(made)
    if number:
        sum_.take(name, number)
        return number
    ran = run(words, folder, LONGEST_CASES)
    failed, number = sum_.failed, add_cases(name, ran, sum_)
    if sum_.failed == failed:
        kept.keep(made, number)
    return number


def add_cases(name, ran, sum_):
    """Adds what a run of the cases counted, prints those that failed, and returns how many it
    tried."""
    lines = ran.said.rstrip("\n").split("\n")
    counts = COUNTS.match(lines[-1])
    passed, failed = map(int, counts.groups()) if counts else (0, 0)
    sum_.passed += passed
    sum_.seconds[name.partition(" over ")[0], "test"] += ran.seconds
    print(f"== {name}: {passed} passed, {failed} failed, {ran.seconds:.0f} s", flush=True)
    if ran.status != 0 or failed or not passed:
        print(
            "\n".join([it for it in lines if it.lstrip().startswith("NOT ")][:SAID])
            or "\n".join(lines[-SAID:]),
            flush=True,
        )
        sum_.fail(name, f"it ended with status {ran.status} and {failed} failed", max(failed, 1))
    return passed + failed


def alone(names, part, sum_, kept=None, cases=None, looks_at_all=False, crate_of=Crate):
    """Tries the edits in this folder of crates, over the libraries where they stand. `cases` are
    the names of what has cases, where an edit is to name one."""
    rows, sums = rows_of(TOP), Sums(TOP, is_built=False)
    place_of = lambda it: f"{TOP}/crates/{it}/{part}"
    names = names or sorted(it for it in os.listdir(f"{TOP}/crates") if os.path.isdir(place_of(it)))
    for it in {*names} - {*rows}:
        sum_.fail(it, "it is no crate of crates.txt")
    every = []
    for it in (it for it in names if it in rows and os.path.isdir(place_of(it))):
        edits = Edits(kept, sums, it, place_of(it), cases or (), part) if kept else None
        crate = crate_of(TOP, it)
        every.append(
            Rounds(crate, place_of(it), proved_where_it_stands, cases, edits, looks_at_all)
        )
    left = [it.crate for it in every if it.is_left() and not it.crate.is_built]
    for library in dict.fromkeys(it for crate in left for it in crate.below):
        ran = run([RT, "lib"], f"{TOP}/crates/{library}", LONGEST_CI)
        if ran.status:
            print(ran.said)
    try_edits(every, sum_)


def proved_where_it_stands(crate):
    """Returns the functions of a crate that `make build` proved, or that a check does."""
    said = crate.log() if crate.is_built else run([RT, "check"], crate.folder, LONGEST_CI).said
    return proved_in(said.split("\n"))[crate.name]


def further(names, sum_, takes, is_built):
    """Tries the edits that the gate leaves out, keeps what passes, and of all crates notes when
    they ran."""
    alone(names, "further", sum_, Kept(takes), crate_of=Built if is_built else Crate)
    if not names:
        last_runs.note("edits", sum_.passed + sum_.failed, sum_.names)
    last_runs.tell("edits")


class Parser(argparse.ArgumentParser):
    def error(self, message):
        # (the last line, whatever happens)
        print("0 passed, 1 failed", flush=True)
        super().error(message)


def parsed():
    parser = Parser(description=__doc__, formatter_class=argparse.RawDescriptionHelpFormatter)
    verbs = parser.add_subparsers(dest="verb", metavar="VERB", required=True)
    for verb, what in VERBS.items():
        its = verbs.add_parser(verb, help=what, description=what)
        its.add_argument("crates", metavar="CRATE", nargs="*", help="by default all")
        if verb != "look":
            its.add_argument(
                "--from-nothing", action="store_true", help="take nothing that earlier runs kept"
            )
        if verb == "further":
            its.add_argument(
                "--built", action="store_true", help="over the libraries that `make build` proved"
            )
    return parser.parse_args()


def main():
    asked, sum_ = parsed(), Sum()

    def end(number, _):
        for it in SIGNALS:
            signal.signal(it, signal.SIG_IGN)
        Running.end()
        raise Ended(f"signal {number}")

    for it in SIGNALS:
        signal.signal(it, end)
    try:
        if asked.verb == "gate":
            gate(asked.crates, sum_, not asked.from_nothing)
        elif asked.verb == "must-fail":
            alone(
                asked.crates, "must-fail", sum_, Kept(not asked.from_nothing, keeps=False), groups()
            )
        elif asked.verb == "further":
            further(asked.crates, sum_, not asked.from_nothing, asked.built)
        else:
            alone(asked.crates, "must-fail", sum_, looks_at_all=True)
    except BaseException as why:
        traceback.print_exc(file=sys.stdout)
        sum_.fail("run.py", f"it broke off: {why!r}")
    finally:
        Running.end()
    return sum_.end()


if __name__ == "__main__":
    sys.exit(main())
