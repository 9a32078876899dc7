#!/usr/bin/env python3
"""Runs the planted bodies: wrong bodies of functions that no contract refuses, each with the case
or the test that is to fail over it.

A body is a file tests/bodies/CRATE/NAME.edit, written as a must-fail edit, or an edit of must-fail
or further itself, with a line 'case: GROUP: NAME' for a case of tests/program that begins so, or
'case: CRATE: TEST' for a test of mq_ends_tests or mq_store_tests. With several such lines each is
to fail.

All bodies stand in one program, which is built without proofs, each with a number: a function runs
the body whose number PLANTED in the environment is, and else its own. So one build serves all, and
each is tried alone. A body that changes more than functions has a build of its own. What is to fail
has to pass in the same build without a body. RT_JOBS in the environment says how many builds and
runs there are at once, by default one for each processor.

What failed as it must is kept on this machine, as what passed the gate is, and isn't tried again
while sources, cases, scripts and kit stay the same. Where all were asked for, tests/last_runs.txt
has when they ran. The last line is 'N passed, M failed', and the status 1 where any failed.
"""
import argparse
import collections
import contextlib
import functools
import hashlib
import os
import re
import shutil
import signal
import subprocess
import sys
import tempfile
import threading
import zlib
from concurrent.futures import ThreadPoolExecutor, as_completed

sys.dont_write_bytecode = True

import last_runs
import unproved
from kit import KIT, below, kit_version, rows_of, without_kit

TOP = os.path.dirname(os.path.dirname(os.path.realpath(__file__)))
sys.path.append(f"{TOP}/gate")

import kept
import source
from edit import BadEdit, Edit, edits_in

PROGRAM, TESTS = "mailquota", ("mq_ends_tests", "mq_store_tests")
# What the cases of tests/program read of the tree.
CASES_READ = [
    *("contrib", "debian", "docs", "examples", "man", "tests/model", "tests/program"),
    *("Makefile", "README.md", "CHANGELOG", "LICENSE", "NOTICE", "SECURITY.md"),
]
# So many seconds a run has: one that waits for what doesn't come takes minutes.
LONGEST = 10 * 60
# What a run has come to that ends in an exception.
END = "it comes to its end"
# A line that says what a case or a test came to.
CASE, TEST = re.compile(r"(ok  |NOT )(.*)\n?"), re.compile(
    r"test (?=.* \.\.\. (\w+))(\S+) \.\.\. .*\n?"
)
# The crate that says which body runs.
SWITCH = "planted"
SWITCH_TEXT = """//! Which planted body runs.

unsafe extern "C" {
    safe fn planted_body() -> i32;
}

/// Whether it is this one.
pub fn is(number: i32) -> bool {
    planted_body() == number
}
"""
SWITCH_IN_C = """
char *getenv(const char *);
int atoi(const char *);
int planted_body(void) {
    static int body = -1;
    if (body < 0) {
        const char *said = getenv("PLANTED");
        body = said ? atoi(said) : 0;
    }
    return body;
}
"""


class Body:
    """A wrong body: what it changes, what is to fail over it, its number, and why it can't be
    built, if it can't."""

    def __init__(self, crate, file):
        self.crate, self.name, self.file = crate, os.path.basename(file)[: -len(".edit")], file
        # (whatever other bodies there are)
        self.number = 1 + (zlib.crc32(f"{self.crate} {self.name}".encode()) >> 1)
        self.cases, self.pairs, self.why = cases_in(file), [], None
        try:
            self.pairs = [
                it for it in Edit(file, f"{TOP}/crates/{crate}").pairs if it[0].startswith("src/")
            ]
        except BadEdit as bad:
            self.why = str(bad)
        # the functions that it changes, by file, each with its new body; none where it changes more
        self.functions = None if self.why else functions_of(self)

    def targets(self):
        """What is to be built for it."""
        return {target_of(group) for group, _ in self.cases}

    def names(self):
        """The names, of which there is one, by which it is kept that it failed as it must."""
        made = [made_from(it) for it in sorted(self.targets())]
        return [kept.sum_of("body", self.crate, self.name, text_of(self.file), made)]


@functools.lru_cache(maxsize=None)
def made_from(target):
    """A sum of all that the runs of the program, or of a crate's tests, are made from but for the
    body."""
    rows, scripts = rows_of(TOP), ["scripts", "gate/edit.py", "gate/source.py"]
    sources = [f"crates/{it}/src" for it in [*below(target, rows), target]]
    cases = CASES_READ if target == PROGRAM else []
    read = kept.sum_of_files(TOP, ["crates.txt", *sources, *scripts, *cases])
    return kept.sum_of(target, kept.of_kit(), sys.version, read)


def cases_in(file):
    """What is to fail: groups of tests/program or crates of tests, each with the beginning of a
    case or a test."""
    with open(file, encoding="utf-8") as lines:
        said = [
            line[len("case:") :].strip().partition(": ")
            for line in lines
            if line.startswith("case:")
        ]
    return [(group, name) for group, _, name in said]


def target_of(group):
    return group if group in TESTS else PROGRAM


def all_bodies():
    found = []
    for crate in rows_of(TOP):
        for place, is_own in (
            (f"{TOP}/tests/bodies/{crate}", True),
            (f"{TOP}/crates/{crate}/must-fail", False),
            (f"{TOP}/crates/{crate}/further", False),
        ):
            files = [f"{place}/{it}" for it in edits_in(place)[0]]
            found += [(crate, it) for it in files if is_own or cases_in(it)]
    return [Body(crate, file) for crate, file in found]


def text_of(file):
    with open(file, encoding="utf-8") as it:
        return it.read()


def write(file, text):
    with open(file, "w", encoding="utf-8") as it:
        it.write(text)


def functions_of(body):
    """The functions that a body changes, by file, each with the new text between its braces; None
    where it changes more than these."""
    found = collections.defaultdict(dict)
    for path, old, new in body.pairs:
        text = text_of(f"{TOP}/crates/{body.crate}/{path}")
        at = text.find(old)
        around = [it for it in source.functions(text) if it.body <= at and at + len(old) <= it.ends]
        if at < 0 or not around:
            return None
        function = max(around)
        if re.search(r"\bconst\s+fn\b", text[function.begins : function.body]):
            return None
        was = found[path].get(function, text[function.body : function.ends])
        found[path][function] = was.replace(old, new)
    return found


def copy_sources(root):
    shutil.copy(f"{TOP}/crates.txt", root)
    shutil.copytree(
        f"{TOP}/crates",
        f"{root}/crates",
        ignore=shutil.ignore_patterns("out", "must-fail", "further", "proofs", "specs"),
    )


def plant(root, planted):
    """Puts bodies into a copy of the sources, each with its number; returns from which line to
    which each stands, by file."""
    by_file, places = collections.defaultdict(lambda: collections.defaultdict(list)), []
    for body in planted:
        for path, functions in body.functions.items():
            for function, text in functions.items():
                by_file[f"crates/{body.crate}/{path}"][function].append((body, text))
    for file, functions in by_file.items():
        text, made, last = text_of(f"{TOP}/{file}"), "", 0
        for function, its in sorted(functions.items(), key=lambda it: it[0]):
            made += text[last : function.body] + "{ "
            for body, changed in its:
                first = made.count("\n") + 1
                made += f"if {SWITCH}::is({body.number}) {changed} else "
                places.append((file, first, made.count("\n") + 1, body))
            made += text[function.body : function.ends] + " }"
            last = function.ends
        write(f"{root}/{file}", made + text[last:])
    return places


def add_switch(root):
    """Adds the crate that says which body runs, and lets each crate call it; returns its part in
    C."""
    rows = rows_of(root)
    os.makedirs(f"{root}/crates/{SWITCH}/src")
    write(f"{root}/crates/{SWITCH}/src/lib.rt", SWITCH_TEXT)
    write(
        f"{root}/crates.txt",
        "".join(f"{name}: {' '.join([SWITCH, *uses])}\n" for name, uses in rows.items())
        + f"{SWITCH}:\n",
    )
    write(f"{root}/switch.c", SWITCH_IN_C)
    clang = [
        f"{unproved.TOOLS}/bin/clang",
        "--target=x86_64-unknown-linux-gnu",
        "-fPIE",
        "-O1",
        "-c",
    ]
    subprocess.run([*clang, f"{root}/switch.c", "-o", f"{root}/switch.o"], check=True)
    return f"{root}/switch.o"


def sum_of(root):
    """A sum of all that a build below a folder reads."""
    total = hashlib.sha256(kit_version())
    for at, folders, names in os.walk(root):
        folders.sort()
        for it in (it for it in sorted(names) if not it.endswith(".o")):
            total.update(f"{os.path.relpath(at, root)}/{it}\n{text_of(f'{at}/{it}')}".encode())
    total.update(text_of(unproved.__file__).encode())
    return total.hexdigest()


def built(target, planted):
    """The program or the tests with these bodies, each with its number. Those that don't compile
    are left out, and say so. What is built is kept."""
    kept = f"{TOP}/crates/{target}/out/bodies/{target}"
    os.makedirs(os.path.dirname(kept), exist_ok=True)
    while True:
        with tempfile.TemporaryDirectory(prefix="bodies-") as root:
            copy_sources(root)
            places = plant(root, [it for it in planted if not it.why])
            switch, total = add_switch(root), None
            total = sum_of(root)
            if os.path.exists(f"{kept}.sum") and text_of(f"{kept}.sum") == total:
                return kept
            with contextlib.suppress(FileNotFoundError):
                os.remove(f"{kept}.sum")
            said = unproved.build(target, root, kept, [switch], optimizes=True)
        if said is None:
            write(f"{kept}.sum", total)
            return kept
        if not blame(said, places):
            raise SystemExit(f"{target} with the bodies can't be built:\n{said}")


def blame(said, places):
    """Says of the bodies at whose lines a compiler finds errors that they can't be built; returns
    whether there are any."""
    errors = re.findall(r"([\w./-]+\.rt):(\d+)", said)
    found = [
        body
        for file, first, last, body in places
        for at, line in errors
        if at.endswith(file.partition("/")[2]) and first <= int(line) <= last
    ]
    for body in found:
        body.why = said.strip()
    return bool(found)


def built_alone(target, body, root):
    """The program or the tests with this body in place of what it changes; where it doesn't
    compile, it says so."""
    copy_sources(root)
    for path, old, new in body.pairs:
        write(
            f"{root}/crates/{body.crate}/{path}",
            text_of(f"{root}/crates/{body.crate}/{path}").replace(old, new),
        )
    body.why = unproved.build(target, root, f"{root}/{target}", optimizes=True)
    return f"{root}/{target}"


def end(process):
    """Ends a run with all that it started."""
    if process.poll() is None:
        process.terminate()
        with contextlib.suppress(subprocess.TimeoutExpired):
            process.wait(20)
    with contextlib.suppress(ProcessLookupError):
        os.killpg(process.pid, signal.SIGKILL)


class Runs:
    """The runs of cases and tests that are going on, so that they end when this does."""

    running, is_over = set(), False

    @classmethod
    def end(cls):
        cls.is_over = True
        for it in [*cls.running]:
            end(it)


Outcome = collections.namedtuple("Outcome", "name is_good function")


def outcomes(words, number, is_enough=lambda found: False):
    """What the cases or tests of a run come to with the body of this number, each with the function
    of its group, until they are enough."""
    found, function, late = [], None, threading.Event()
    if Runs.is_over:
        return found
    environment = {**os.environ, "PLANTED": str(number), "PYTHONUNBUFFERED": "1"}
    with subprocess.Popen(
        words,
        env=environment,
        stdin=subprocess.DEVNULL,
        stdout=subprocess.PIPE,
        stderr=subprocess.STDOUT,
        text=True,
        errors="replace",
        start_new_session=True,
    ) as process:
        Runs.running.add(process)
        timer = threading.Timer(LONGEST, lambda: (late.set(), end(process)))
        timer.start()
        try:
            for line in process.stdout:
                begun, told = re.fullmatch(r"-- \w+: (\w+)\n", line), CASE.fullmatch(
                    line
                ) or TEST.fullmatch(line)
                function = begun[1] if begun else function
                if told:
                    name = (
                        END
                        if f": {END}: " in line
                        else told[2].rpartition("::")[2]
                        if line.startswith("test ")
                        else told[2]
                    )
                    found.append(Outcome(name, told[1] in ("ok  ", "ok"), function))
                    if is_enough(found):
                        break
        finally:
            timer.cancel()
            end(process)
            Runs.running.discard(process)
    # (that says nothing of a case: the machine may be slow)
    return found + [Outcome(f"it takes more than {LONGEST} s", False, None)] * late.is_set()


def words_of(group, program, name, function=None):
    """The words that run a group of cases, or of it one function, or a crate's tests with a
    name."""
    if target_of(group) == PROGRAM:
        return [
            sys.executable,
            f"{TOP}/tests/program/run.py",
            "--group",
            group,
            program,
            *([function] if function else []),
        ]
    return [f"{KIT}/bin/rattle-test", "--seconds", str(LONGEST), "--filter", name, program]


@functools.lru_cache(maxsize=None)
def alone(*words):
    """What a run of one function of a group comes to without a body."""
    return outcomes(words, 0)


def is_failing(name, found, count=1):
    """Whether a case fails of this name, or the run ends before as many have come as are to."""
    named = [it.is_good for it in found if it.name.startswith(name)]
    return not all(named) or len(named) < count and any(it.name == END for it in found)


def unseen(cases, without, planted, plain, number=0):
    """Of what is to fail, what doesn't. `without` gives what a case's run comes to where nothing is
    planted; `planted` and `plain` give the words that run a group, or of it one function, with what
    is planted and without it."""
    missed = []
    for group, name in cases:
        named = [it for it in without(group, name) if it.name.startswith(name)]
        if not named or not all(it.is_good for it in named):
            missed.append(
                f"{group}: {name}"
                f" ({'it fails with nothing planted' if named else 'there is no such case'})"
            )
            continue
        functions = {it.function for it in named}
        function = functions.pop() if len(functions) == 1 else None
        # (it may want what another function leaves)
        if function and is_failing(name, alone(*plain(group, name, function)), len(named)):
            missed.append(f"{group}: {name} (alone its function fails with nothing planted)")
            continue
        found = outcomes(
            planted(group, name, function),
            number,
            lambda found, name=name, count=len(named): is_failing(name, found, count),
        )
        if not is_failing(name, found, len(named)):
            others = [it.name[:100] for it in found if not it.is_good][:3]
            missed.append(
                f"{group}: {name}" + f" (others fail: {'; '.join(others)})" * bool(others)
            )
    return missed


def unseen_of(body, programs, without):
    """Of what is to fail over a body, what doesn't."""

    def words(group, name, function):
        return words_of(group, programs[target_of(group)], name, function)

    return unseen(body.cases, lambda *case: without[case].result(), words, words, body.number)


def tell(body, missed):
    """Prints what became of a body; returns whether it failed as it must."""
    if body.why:
        print(f"COULD NOT BE BUILT {body.crate}: {body.name}: {body.why}", flush=True)
    elif missed:
        print(f"NOT SEEN {body.crate}: {body.name}: {'; '.join(missed)}", flush=True)
    else:
        print(
            (
                f"failed as it must: {body.crate}: {body.name}:"
                f" {'; '.join(': '.join(it) for it in body.cases)}"
            ),
            flush=True,
        )
    return not body.why and not missed


def tried_alone(body, without):
    """What isn't seen of a body that has builds of its own."""
    with tempfile.TemporaryDirectory(prefix="body-") as root:
        programs = {}
        for target in body.targets():
            os.makedirs(f"{root}/{target}")
            programs[target] = built_alone(target, body, f"{root}/{target}")
            if body.why:
                return []
        return unseen_of(body, programs, without)


def runs_without(bodies, programs, pool):
    """Of each case that is to fail the run of its group, or of its tests, without a body."""
    wanted = {
        it: (it[0], it[1] if target_of(it[0]) != PROGRAM else None)
        for body in bodies
        for it in body.cases
    }
    runs = {
        it: pool.submit(outcomes, words_of(it[0], programs[target_of(it[0])], it[1]), 0)
        for it in dict.fromkeys(wanted.values())
    }
    return {case: runs[it] for case, it in wanted.items()}


def parsed(everything):
    """The bodies that are asked for, whether they are all, and whether what is kept is taken."""
    parser = argparse.ArgumentParser(
        description=__doc__, formatter_class=argparse.RawDescriptionHelpFormatter
    )
    parser.add_argument(
        "names",
        metavar="NAME",
        nargs="*",
        help="only the bodies of these names, or of these crates",
    )
    parser.add_argument(
        "--from-nothing", action="store_true", help="take nothing that earlier runs kept"
    )
    given = parser.parse_args()
    unknown = {*given.names} - {name for body in everything for name in (body.crate, body.name)}
    if unknown:
        parser.error(f"no crate and no body has this name: {', '.join(sorted(unknown))}")
    asked = [it for it in everything if not given.names or {it.crate, it.name} & {*given.names}]
    return asked, not given.names, not given.from_nothing


def tried(bodies, everything, pool):
    """Tries these bodies, and gives each with what isn't seen of it, as it is known."""
    targets = sorted({it for body in bodies for it in body.targets()})
    # (all stand in the builds, so that these serve the next run too)
    shared = [it for it in everything if it.functions is not None]
    building = {it: pool.submit(built, it, shared) for it in targets}
    programs = {target: it.result() for target, it in building.items()}
    without = runs_without(bodies, programs, pool)
    running = {}
    for body in bodies:
        if body.why:
            yield body, []
        elif body.functions is None:
            running[pool.submit(tried_alone, body, without)] = body
        else:
            running[pool.submit(unseen_of, body, programs, without)] = body
    for it in as_completed(running):
        yield running[it], it.result()


def main():
    if without_kit():
        return 2
    everything = all_bodies()
    asked, is_whole, takes = parsed(everything)
    known = kept.Kept(takes)
    left = [it for it in asked if known.take(it.names()) is None]
    print(f"{len(asked) - len(left)} of {len(asked)} bodies are kept from earlier runs", flush=True)
    # (so that what runs is ended)
    for it in (signal.SIGINT, signal.SIGHUP, signal.SIGTERM):
        signal.signal(it, lambda number, _: sys.exit(128 + number))
    failed, pool = [], ThreadPoolExecutor(int(os.environ.get("RT_JOBS") or os.cpu_count()))
    try:
        for body, missed in tried(left, everything, pool) if left else ():
            if tell(body, missed):
                known.keep(body.names(), True)
            else:
                failed.append(f"{body.crate}/{body.name}")
    finally:
        pool.shutdown(wait=False, cancel_futures=True)
        Runs.end()
    if is_whole:
        last_runs.note("bodies", len(asked), sorted(failed))
    last_runs.tell("bodies")
    print(f"{len(asked) - len(failed)} passed, {len(failed)} failed")
    return 1 if failed or not asked else 0


if __name__ == "__main__":
    sys.exit(main())
